// An independent implementation of paper 01 and of papers 1, 2, 4, 5, 6, 7, 9, 10, 11 and 12 of 02, compared with the proved library on
// many inputs: long and short, valid and damaged, with few variables and up to 128, Horn, nearly Horn and others, for paper 2 tallies
// of the sheet, of other sheets, and of any numbers, for paper 11 legs from any record and whole searches in legs, and for paper 12 pairs
// of sheets and searches during which clauses arrive. What paper 8 says of codes and calls is tested on the library's own, and so is
// what all runs owe, by balls or by rounds, what they and splitting owe each other, and what legs owe a run and all assignments. It
// shares no code with the crates. It prints how many answers of each kind agreed, and every disagreement.

use std::collections::{BTreeSet, HashMap};

#[repr(C)]
#[derive(Clone, Copy, Debug, Default, PartialEq)]
struct Reply {
    verdict: u32,
    batch: u32,
    road: u32,
    marks: [u32; 4],
    calls: u32,
    number: u32,
    place: u32,
}

impl Reply {
    // Clear or none.
    fn decided(&self) -> bool {
        self.verdict == 1 || self.verdict == 2
    }
}

// A parked search as it is lent.
#[repr(C)]
#[derive(Clone, Copy, Debug, PartialEq)]
struct Checkpoint {
    batch: u32,
    n: u32,
    block_length: u32,
    radius: u32,
    next: u64,
}

impl Checkpoint {
    fn of(plan: (u32, u32), sheet: &Sheet, next: u64) -> Checkpoint {
        Checkpoint { batch: sheet.batch, n: sheet.n, block_length: plan.0, radius: plan.1, next }
    }
}

#[repr(C)]
#[derive(Clone, Copy, Debug, Default, PartialEq)]
struct LegReply {
    verdict: u32,
    batch: u32,
    road: u32,
    marks: [u32; 4],
    calls: u32,
    number: u32,
    place: u32,
    sheet: u32,
}

impl LegReply {
    fn of(reply: Reply) -> LegReply {
        let Reply { verdict, batch, road, marks, calls, number, place } = reply;
        LegReply { verdict, batch, road, marks, calls, number, place, sheet: (number != 0) as u32 }
    }

    fn refused(number: u32, place: u32) -> LegReply {
        LegReply::about(1, number, place)
    }

    // The sheet is 1, the only one or the old one, or 2, the longer one.
    fn about(sheet: u32, number: u32, place: u32) -> LegReply {
        LegReply { number, place, sheet, ..LegReply::default() }
    }

    // Clear or none.
    fn decided(&self) -> bool {
        self.verdict == 1 || self.verdict == 2
    }
}

#[repr(C)]
#[derive(Clone, Copy, Debug, Default, PartialEq)]
struct AlikeReply {
    answer: u32,
    sheet: u32,
    number: u32,
    place: u32,
}

#[repr(C)]
#[derive(Clone, Copy, Debug, Default, PartialEq)]
struct NumberReply {
    result: u32,
    number: u32,
    place: u32,
}

#[repr(C)]
#[derive(Clone, Copy, Debug, Default, PartialEq)]
struct CountsReply {
    met: u32,
    open: u32,
    number: u32,
    place: u32,
}

#[repr(C)]
#[derive(Clone, Copy, Debug, Default, PartialEq)]
struct TallyReply {
    number: u32,
    place: u32,
}

// A tally as it is lent. Its parts lie side by side, so that a write past one shows in the next.
#[repr(C)]
#[derive(Clone, PartialEq)]
struct Lent {
    marks: [u32; 4],
    met: [u8; 1024],
    unmet: u32,
}

mod library {
    use super::{AlikeReply, Checkpoint, CountsReply, LegReply, NumberReply, Reply, TallyReply};
    extern "C" {
        pub fn run(b: u32, s: u32, budget: u32, sheet: *const u8, length: usize) -> Reply;
        pub fn split(budget: u32, sheet: *const u8, length: usize) -> Reply;
        pub fn leg(b: u32, s: u32, budget: u32, sheet: *const u8, length: usize, record: *mut Checkpoint) -> LegReply;
        pub fn leg_longer(
            b: u32,
            s: u32,
            budget: u32,
            old: *const u8,
            old_length: usize,
            longer: *const u8,
            longer_length: usize,
            record: *mut Checkpoint,
        ) -> LegReply;
        pub fn clause_counts(sheet: *const u8, length: usize, clause: u32, marks: *const u32, flipped: *const u32) -> CountsReply;
        pub fn tally_begin(sheet: *const u8, length: usize, marks: *mut u32, met: *mut u8, unmet: *mut u32) -> TallyReply;
        pub fn tally_toggle(sheet: *const u8, length: usize, v: u32, marks: *mut u32, met: *mut u8, unmet: *mut u32) -> TallyReply;
        pub fn tally_holds(unmet: u32) -> u32;
        pub fn alike(a: *const u8, a_length: usize, b: *const u8, b_length: usize) -> AlikeReply;
        pub fn covering_code(t: u32, s: u32, table: *mut u16, cells: usize) -> NumberReply;
        pub fn ball_volume(t: u32, s: u32) -> NumberReply;
        pub fn covering_floor(t: u32, s: u32) -> NumberReply;
    }
}

fn library_run(plan: (u32, u32), budget: u32, sheet: &[u8]) -> Reply {
    unsafe { library::run(plan.0, plan.1, budget, sheet.as_ptr(), sheet.len()) }
}

fn library_split(budget: u32, sheet: &[u8]) -> Reply {
    unsafe { library::split(budget, sheet.as_ptr(), sheet.len()) }
}

// The record lies between two others, so that a write past it shows.
fn between(record: &mut Checkpoint, leg: impl FnOnce(*mut Checkpoint) -> LegReply) -> LegReply {
    let other = Checkpoint { batch: 1, n: 2, block_length: 3, radius: 4, next: 5 };
    let mut lent = [other, *record, other];
    let reply = leg(unsafe { lent.as_mut_ptr().add(1) });
    assert!(lent[0] == other && lent[2] == other, "a leg wrote past its record");
    *record = lent[1];
    reply
}

fn library_leg(plan: (u32, u32), budget: u32, sheet: &[u8], record: &mut Checkpoint) -> LegReply {
    between(record, |lent| unsafe { library::leg(plan.0, plan.1, budget, sheet.as_ptr(), sheet.len(), lent) })
}

// Where the longer sheet begins with the old one, both are lent as one buffer.
fn library_longer(plan: (u32, u32), budget: u32, [old, longer]: [&[u8]; 2], record: &mut Checkpoint) -> LegReply {
    let old = if longer.starts_with(old) { &longer[..old.len()] } else { old };
    let [(a, a_length), (b, b_length)] = [old, longer].map(|sheet| (sheet.as_ptr(), sheet.len()));
    between(record, |lent| unsafe { library::leg_longer(plan.0, plan.1, budget, a, a_length, b, b_length, lent) })
}

// Where the two arrays are equal they are lent as one buffer.
fn library_counts(sheet: &[u8], asked: &Question) -> CountsReply {
    let (marks, flipped) = (words_of(asked.marks), words_of(asked.flipped));
    let second = if marks == flipped { &marks } else { &flipped };
    unsafe { library::clause_counts(sheet.as_ptr(), sheet.len(), asked.clause, marks.as_ptr(), second.as_ptr()) }
}

fn library_begin(sheet: &[u8], lent: &mut Lent) -> TallyReply {
    let Lent { marks, met, unmet } = lent;
    unsafe { library::tally_begin(sheet.as_ptr(), sheet.len(), marks.as_mut_ptr(), met.as_mut_ptr(), unmet) }
}

fn library_toggle(sheet: &[u8], variable: u32, lent: &mut Lent) -> TallyReply {
    let Lent { marks, met, unmet } = lent;
    unsafe { library::tally_toggle(sheet.as_ptr(), sheet.len(), variable, marks.as_mut_ptr(), met.as_mut_ptr(), unmet) }
}

fn library_holds(unmet: u32) -> u32 {
    unsafe { library::tally_holds(unmet) }
}

fn library_alike(a: &[u8], b: &[u8]) -> AlikeReply {
    unsafe { library::alike(a.as_ptr(), a.len(), b.as_ptr(), b.len()) }
}

fn library_code(t: u32, s: u32, table: &mut [u16]) -> NumberReply {
    unsafe { library::covering_code(t, s, table.as_mut_ptr(), table.len()) }
}

fn library_measures(t: u32, s: u32) -> (NumberReply, NumberReply) {
    unsafe { (library::ball_volume(t, s), library::covering_floor(t, s)) }
}

// ---- the sheet

type Refused = (u32, u32);

#[derive(Clone, Debug, PartialEq)]
struct Sheet {
    batch: u32,
    n: u32,
    terms: Vec<Vec<(u32, bool)>>,
}

fn read(bytes: &[u8]) -> Result<Sheet, Refused> {
    if bytes.len() > 36_876 {
        return Err((5, 9_219));
    }
    if bytes.len() % 4 != 0 {
        return Err((1, 0));
    }
    if bytes.len() < 12 {
        return Err((2, 0));
    }
    let words: Vec<u32> = bytes.chunks(4).map(|c| u32::from_le_bytes([c[0], c[1], c[2], c[3]])).collect();
    let high = take(&words, 0, 3, 65_535)?;
    let low = take(&words, 1, 3, 65_535)?;
    let n = take(&words, 2, 2, 128)?;
    let mut terms = Vec::new();
    let mut at = 3;
    while at < words.len() {
        let length = take(&words, at, 1, 8)?;
        if terms.len() == 1024 {
            return Err((5, at as u32));
        }
        terms.push(read_term(&words, at + 1, length, n)?);
        at += 1 + length as usize;
    }
    Ok(Sheet { batch: high * 65_536 + low, n, terms })
}

// The value of a word that is of the kind due there and within its limit.
fn take(words: &[u32], at: usize, kind: u32, limit: u32) -> Result<u32, Refused> {
    let value = words[at] & 0x3fff_ffff;
    if words[at] >> 30 != kind {
        Err((3, at as u32))
    } else if value > limit {
        Err((5, at as u32))
    } else {
        Ok(value)
    }
}

fn read_term(words: &[u32], start: usize, length: u32, n: u32) -> Result<Vec<(u32, bool)>, Refused> {
    let mut term: Vec<(u32, bool)> = Vec::new();
    for at in start..start + length as usize {
        if at == words.len() {
            return Err((4, at as u32));
        }
        let wish = take(words, at, 0, u32::MAX)?;
        let variable = wish / 2;
        if variable == 0 || variable > n {
            return Err((6, at as u32));
        }
        if term.iter().any(|l| l.0 == variable) {
            return Err((7, at as u32));
        }
        term.push((variable, wish % 2 == 0));
    }
    Ok(term)
}

fn write(sheet: &Sheet) -> Vec<u8> {
    let mut words = vec![3 << 30 | sheet.batch >> 16, 3 << 30 | sheet.batch & 0xffff, 2 << 30 | sheet.n];
    for term in &sheet.terms {
        words.push(1 << 30 | term.len() as u32);
        words.extend(term.iter().map(|l| l.0 * 2 + !l.1 as u32));
    }
    words.iter().flat_map(|w| w.to_le_bytes()).collect()
}

// ---- assignments and sets of variables

// Here each is one number, in which variable v has the v-th bit, the lowest being the first. It is lent, and comes back, as four
// words, the lowest bits in the first.
fn words_of(set: u128) -> [u32; 4] {
    [set as u32, (set >> 32) as u32, (set >> 64) as u32, (set >> 96) as u32]
}

fn join(words: [u32; 4]) -> u128 {
    words.iter().rev().fold(0, |set, word| set << 32 | *word as u128)
}

fn only(v: u32) -> u128 {
    1 << (v - 1)
}

fn has(set: u128, v: u32) -> bool {
    set & only(v) != 0
}

// ---- how a term stands

// The number of a term, the marks, and the flipped variables.
#[derive(Clone, Copy, Debug)]
struct Question {
    clause: u32,
    marks: u128,
    flipped: u128,
}

fn met(l: &(u32, bool), marks: u128) -> bool {
    has(marks, l.0) == l.1
}

fn is_true(term: &[(u32, bool)], marks: u128) -> bool {
    term.iter().any(|l| met(l, marks))
}

// No flip that is left on the path can make it true. An empty term has nothing to flip.
fn is_dead(term: &[(u32, bool)], marks: u128, flipped: u128) -> bool {
    term.iter().all(|l| has(flipped, l.0)) && !is_true(term, marks)
}

fn unflipped(term: &[(u32, bool)], flipped: u128) -> impl Iterator<Item = &(u32, bool)> {
    term.iter().filter(move |l| !has(flipped, l.0))
}

// The only unflipped literal of a term none of whose flipped literals is met.
fn alone(term: &[(u32, bool)], marks: u128, flipped: u128) -> Option<(u32, bool)> {
    let mut rest = unflipped(term, flipped);
    let first = rest.next()?;
    let settled = || term.iter().any(|l| has(flipped, l.0) && met(l, marks));
    if rest.next().is_some() || settled() {
        None
    } else {
        Some(*first)
    }
}

fn counts(sheet: &Result<Sheet, Refused>, asked: &Question) -> CountsReply {
    let mut reply = CountsReply::default();
    let terms = match sheet {
        Ok(sheet) => &sheet.terms,
        Err(r) => return CountsReply { number: r.0, place: r.1, ..reply },
    };
    let Some(term) = terms.get(asked.clause as usize) else {
        return reply;
    };
    for l in term {
        if met(l, asked.marks) {
            reply.met += 1;
        } else if !has(asked.flipped, l.0) {
            reply.open += 1;
        }
    }
    reply
}

// What else paper 1 of 02 says of the two numbers of a term, for each saying whether it applies and whether it holds: the term is true
// where met is above 0; with nothing flipped every literal is met or open; and while no flipped literal is met they are the ones
// and the zeros of the term without its flipped variables.
fn sayings(term: &[(u32, bool)], asked: &Question, got: &CountsReply) -> [(bool, bool); 3] {
    type Part = Vec<(u32, bool)>;
    let (gone, rest): (Part, Part) = term.iter().partition(|l| has(asked.flipped, l.0));
    let (ones, zeros): (Part, Part) = rest.iter().partition(|l| met(l, asked.marks));
    let both = [got.met as usize, got.open as usize];
    [
        (true, is_true(term, asked.marks) == (got.met > 0)),
        (asked.flipped == 0, both[0] + both[1] == term.len()),
        (!is_true(&gone, asked.marks), both == [ones.len(), zeros.len()]),
    ]
}

// The assignments that meet every term: all are tried.
fn models(sheet: &Sheet) -> impl Iterator<Item = u128> + '_ {
    (0..1u128 << sheet.n).filter(|marks| sheet.terms.iter().all(|t| is_true(t, *marks)))
}

// Under the marks of a clear answer every term of the sheet has a literal that is met.
fn clear_holds(bytes: &[u8], marks: u128) -> bool {
    let count = read(bytes).map_or(0, |sheet| sheet.terms.len() as u32);
    (0..count).all(|clause| library_counts(bytes, &Question { clause, marks, flipped: 0 }).met > 0)
}

// ---- the tally

// A sheet's bytes, and what they read as.
struct Input {
    bytes: Vec<u8>,
    sheet: Result<Sheet, Refused>,
}

impl Input {
    fn new(bytes: Vec<u8>) -> Input {
        let sheet = read(&bytes);
        Input { bytes, sheet }
    }

    // Batch number, variables and terms; a sheet that is refused has 0, 128 and none.
    fn batch(&self) -> u32 {
        self.sheet.as_ref().map_or(0, |sheet| sheet.batch)
    }

    fn n(&self) -> u32 {
        self.sheet.as_ref().map_or(128, |sheet| sheet.n)
    }

    fn terms(&self) -> &[Vec<(u32, bool)>] {
        self.sheet.as_ref().map_or(&[], |sheet| &sheet.terms)
    }
}

// A tally in whole numbers, so that each limit is one that the paper names.
#[derive(PartialEq)]
struct Tally {
    marks: u128,
    met: [i64; 1024],
    unmet: i64,
}

impl Tally {
    fn of(lent: &Lent) -> Tally {
        Tally { marks: join(lent.marks), met: lent.met.map(i64::from), unmet: lent.unmet as i64 }
    }

    // Every term is read anew.
    fn recount(sheet: &Sheet, marks: u128) -> Tally {
        let unmet = sheet.terms.iter().filter(|t| !is_true(t, marks)).count() as i64;
        let mut tally = Tally { marks, met: [0; 1024], unmet };
        for (i, term) in sheet.terms.iter().enumerate() {
            tally.met[i] = term.iter().filter(|l| met(l, marks)).count() as i64;
        }
        tally
    }

    fn begin(&mut self, sheet: &Result<Sheet, Refused>) -> TallyReply {
        match sheet {
            Ok(sheet) => *self = Tally::recount(sheet, 0),
            Err(r) => return TallyReply { number: r.0, place: r.1 },
        }
        TallyReply::default()
    }

    fn toggle(&mut self, sheet: &Result<Sheet, Refused>, variable: u32) -> TallyReply {
        let sheet = match sheet {
            Ok(sheet) => sheet,
            Err(r) => return TallyReply { number: r.0, place: r.1 },
        };
        if variable == 0 || variable > sheet.n {
            return TallyReply { number: 10, place: 0 };
        }
        self.marks ^= only(variable);
        for (i, term) in sheet.terms.iter().enumerate() {
            let Some(l) = term.iter().find(|l| l.0 == variable) else {
                continue;
            };
            let before = self.met[i];
            let after = before + if met(l, self.marks) { 1 } else { -1 };
            self.met[i] = after.clamp(0, term.len() as i64);
            if before == 0 && self.met[i] != 0 {
                self.unmet = (self.unmet - 1).clamp(0, 1024);
            } else if before != 0 && self.met[i] == 0 {
                self.unmet = (self.unmet + 1).clamp(0, 1024);
            }
        }
        TallyReply::default()
    }
}

// What paper 2 of 02 says of a toggle on any sheet, from the tally before and after alone: a refusal changes nothing; else there is
// such a variable, its mark alone changes, and of the numbers only those of terms that name it, which are then within the length of
// the term; and unmet is within its limits if it changed.
fn toggle_says(input: &Input, variable: u32, reply: &TallyReply, before: &Lent, after: &Lent) -> bool {
    if reply.number != 0 {
        return after == before;
    }
    let terms = input.terms();
    let number = |i: usize| {
        let named = terms[i].iter().any(|l| l.0 == variable);
        if named {
            after.met[i] as usize <= terms[i].len()
        } else {
            after.met[i] == before.met[i]
        }
    };
    (1..=input.n()).contains(&variable)
        && join(after.marks) ^ join(before.marks) == only(variable)
        && (0..terms.len()).all(number)
        && after.met[terms.len()..] == before.met[terms.len()..]
        && (after.unmet == before.unmet || after.unmet <= 1024)
}

// What differs: the replies, marks and unmet, and of the numbers those that do, each as it was lent, is expected and came.
fn difference(expected: (TallyReply, &Tally), got: (TallyReply, &Lent), before: &Lent) -> String {
    let came = Tally::of(got.1);
    let differs = (0..1024).filter(|i| expected.1.met[*i] != came.met[*i]);
    let numbers: Vec<_> = differs.map(|i| (i, before.met[i], expected.1.met[i], came.met[i])).take(8).collect();
    let one = |reply: TallyReply, tally: &Tally| format!("{:?} marks {:?} unmet {}", reply, words_of(tally.marks), tally.unmet);
    let lent = format!("marks {:?} unmet {}", before.marks, before.unmet);
    format!("lent {}, expected {}, got {}, numbers {:?}", lent, one(expected.0, expected.1), one(got.0, &came), numbers)
}

// Whether a tally that begins on the sheet and toggles the variables of the marks says that all terms are true.
fn tally_clears(bytes: &[u8], marks: u128) -> bool {
    let mut lent = Lent { marks: words_of(!marks), met: [5; 1024], unmet: 6 };
    let mut fine = library_begin(bytes, &mut lent) == TallyReply::default();
    for variable in (1..=128).filter(|v| has(marks, *v)) {
        fine &= library_toggle(bytes, variable, &mut lent) == TallyReply::default();
    }
    fine && join(lent.marks) == marks && library_holds(lent.unmet) == 1
}

// ---- the code, straight from its definition

fn greedy(t: u32, s: u32) -> Vec<u32> {
    let size = 1usize << t;
    let mut uncovered = vec![true; size];
    let mut left = size;
    let mut code = Vec::new();
    let ball: Vec<u32> = (0..size as u32).filter(|x| x.count_ones() <= s).collect();
    while left > 0 {
        let gain = |w: u32| ball.iter().filter(|x| uncovered[(w ^ *x) as usize]).count();
        let mut best = (0, 0u32);
        for w in 0..size as u32 {
            let g = gain(w);
            if g > best.0 {
                best = (g, w);
            }
        }
        for x in &ball {
            let y = (best.1 ^ x) as usize;
            left -= uncovered[y] as usize;
            uncovered[y] = false;
        }
        code.push(best.1);
    }
    code
}

struct Codes(HashMap<(u32, u32), Vec<u32>>);

impl Codes {
    fn get(&mut self, t: u32, s: u32) -> Vec<u32> {
        self.0.entry((t, s)).or_insert_with(|| greedy(t, s)).clone()
    }
}

// ---- the search

// What papers 4, 6 and 7 of 02 may have a part in. At the first, step 3 of paper 01 would have gone on; at the second, its step 4
// would have taken another term; at the third and fourth, it would have tried one literal more, and so would paper 6 at the fourth; at
// the last, there is none to try. Since paper 7 no term but an empty one is ever dead: the flip that would leave it so is that of its
// only unflipped literal, which is met, and the opposite of that one is not tried.
const PARTS: [&str; 5] = [
    "a dead term after the first false one",
    "a term taken that is not the first false one",
    "a literal of a longer term not tried for its lone opposite",
    "one of a short term",
    "no literal tried",
];

// Parts notes which of them some call had.
struct Search<'a> {
    sheet: &'a Sheet,
    calls: u64,
    budget: u64,
    parts: [bool; PARTS.len()],
}

enum Seen {
    Found(u128),
    No,
    Spent,
}

impl Search<'_> {
    fn call(&mut self, marks: u128, flipped: u128, left: u32) -> Seen {
        if self.calls == self.budget {
            return Seen::Spent;
        }
        self.calls += 1;
        let Some(first) = self.sheet.terms.iter().position(|t| !is_true(t, marks)) else {
            return Seen::Found(marks);
        };
        let rest = &self.sheet.terms[first..];
        if left == 0 {
            return Seen::No;
        }
        if rest.iter().any(|t| is_dead(t, marks, flipped)) {
            self.parts[0] |= !is_dead(&rest[0], marks, flipped);
            return Seen::No;
        }
        for l in self.tried(rest, marks, flipped) {
            match self.call(marks ^ only(l.0), flipped | only(l.0), left - 1) {
                Seen::No => {}
                other => return other,
            }
        }
        Seen::No
    }

    // The literals that step 4 tries, in order. The rest are the terms from the first false one on.
    fn tried(&mut self, rest: &[Vec<(u32, bool)>], marks: u128, flipped: u128) -> Vec<(u32, bool)> {
        let terms = &self.sheet.terms;
        // the variables of literals that are alone in some term, with a minus and without
        let mut lone = [0; 2];
        terms.iter().filter_map(|t| alone(t, marks, flipped)).for_each(|(v, sign)| lone[sign as usize] |= only(v));
        let opposed = |l: &(u32, bool)| has(lone[!l.1 as usize], l.0);
        let short = |t: &[(u32, bool)]| unflipped(t, flipped).count() <= 2;
        let loses = |t: &[(u32, bool)]| unflipped(t, flipped).any(opposed);
        let taken = rest.iter().filter(|t| !is_true(t, marks)).find(|t| short(t) || loses(t)).unwrap_or(&rest[0]);
        let tried: Vec<(u32, bool)> = unflipped(taken, flipped).filter(|l| !opposed(l)).copied().collect();
        self.parts[1] |= *taken != rest[0];
        self.parts[2] |= !short(taken) && loses(taken);
        self.parts[3] |= short(taken) && loses(taken);
        self.parts[4] |= tried.is_empty();
        tried
    }
}

// Where a block begins, its radius, and its code.
type Block = (u32, u32, Vec<u32>);

fn blocks_of(codes: &mut Codes, plan: (u32, u32), n: u32) -> Vec<Block> {
    let (b, s) = plan;
    let mut blocks = Vec::new();
    let mut at = 0;
    while at < n {
        let t = b.min(n - at);
        blocks.push((at, s.min(t), codes.get(t, s.min(t))));
        at += t;
    }
    blocks
}

fn whole_word(blocks: &[Block], digits: &[usize]) -> u128 {
    blocks.iter().zip(digits).fold(0, |word, (block, digit)| word | (block.2[*digit] as u128) << block.0)
}

// The next whole word, the word of the first block changing fastest. There is none after the last. There may be 2^128 of them: they
// are not numbered.
fn advance(blocks: &[Block], digits: &mut [usize]) -> bool {
    for (block, digit) in blocks.iter().zip(digits) {
        *digit += 1;
        if *digit < block.2.len() {
            return true;
        }
        *digit = 0;
    }
    false
}

// What a run went through: the variables of the sheet, what papers 4, 6 and 7 of 02 had a part in, and the bits of all words tried.
#[derive(Default)]
struct Notes {
    n: u32,
    parts: [bool; PARTS.len()],
    words: u128,
}

fn balls(codes: &mut Codes, plan: (u32, u32), budget: u32, sheet: &Sheet, notes: &mut Notes) -> (Seen, u32) {
    let blocks = blocks_of(codes, plan, sheet.n);
    let radius = blocks.iter().map(|b| b.1).sum();
    let mut digits = vec![0usize; blocks.len()];
    let mut search = Search { sheet, calls: 0, budget: budget as u64, parts: [false; PARTS.len()] };
    let seen = loop {
        let word = whole_word(&blocks, &digits);
        notes.words |= word;
        match search.call(word, 0, radius) {
            Seen::No if advance(&blocks, &mut digits) => {}
            seen => break seen,
        }
    };
    notes.parts = search.parts;
    (seen, search.calls as u32)
}

// ---- the straight road

// The two roads.
const HORN: u32 = 1;
const BALLS: u32 = 2;

fn positive(term: &[(u32, bool)]) -> impl Iterator<Item = &(u32, bool)> {
    term.iter().filter(|l| l.1)
}

fn is_horn(sheet: &Sheet) -> bool {
    sheet.terms.iter().all(|t| positive(t).count() <= 1)
}

// Paper 9 of 02. There are never more rounds than n + 1: all are gone through, and only then is the budget looked at.
fn rounds(sheet: &Sheet, budget: u32) -> (Seen, u32) {
    let mut marks = 0;
    let mut round = 0;
    let seen = loop {
        round += 1;
        let Some(term) = sheet.terms.iter().find(|t| !is_true(t, marks)) else {
            break Seen::Found(marks);
        };
        let Some((variable, _)) = positive(term).next() else {
            break Seen::No;
        };
        marks |= only(*variable);
    };
    if round > budget {
        (Seen::Spent, budget)
    } else {
        (seen, round)
    }
}

fn is_plan((b, s): (u32, u32)) -> bool {
    b >= 1 && b <= 12 && s <= b
}

fn answered(sheet: &Sheet, road: u32, (seen, calls): (Seen, u32)) -> Reply {
    let (verdict, marks) = match seen {
        Seen::Found(marks) => (1, marks),
        Seen::No => (2, 0),
        Seen::Spent => (3, 0),
    };
    Reply { verdict, batch: sheet.batch, road, marks: words_of(marks), calls, ..Reply::default() }
}

fn run(codes: &mut Codes, plan: (u32, u32), budget: u32, bytes: &[u8]) -> (Reply, Notes) {
    let refused = |r: Refused| (Reply { number: r.0, place: r.1, ..Reply::default() }, Notes::default());
    if !is_plan(plan) {
        return refused((8, 0));
    }
    let sheet = match read(bytes) {
        Ok(sheet) => sheet,
        Err(r) => return refused(r),
    };
    let mut notes = Notes { n: sheet.n, ..Notes::default() };
    let road = if is_horn(&sheet) { HORN } else { BALLS };
    let worked = match road {
        HORN => rounds(&sheet, budget),
        _ => balls(codes, plan, budget, &sheet, &mut notes),
    };
    (answered(&sheet, road, worked), notes)
}

// ---- legs

// The number of balls, if it is below 2^63.
fn count_balls(blocks: &[Block]) -> Option<u64> {
    let count = blocks.iter().try_fold(1u64, |count, block| count.checked_mul(block.2.len() as u64));
    count.filter(|count| *count < 1 << 63)
}

// The whole word of this number, the word of the first block changing fastest.
fn centre(blocks: &[Block], ball: u64) -> u128 {
    let mut rest = ball;
    let mut digit = |block: &Block| {
        let words = block.2.len() as u64;
        let digit = rest % words;
        rest /= words;
        digit as usize
    };
    whole_word(blocks, &blocks.iter().map(&mut digit).collect::<Vec<usize>>())
}

// From the next ball on, each with what the balls before it left of the budget. One that needs more is not counted.
fn whole_balls(sheet: &Sheet, blocks: &[Block], budget: u32, next: &mut u64, count: u64) -> (Seen, u32) {
    let radius = blocks.iter().map(|b| b.1).sum();
    let mut finished = 0;
    while *next < count {
        let mut search = Search { sheet, calls: 0, budget: budget as u64 - finished, parts: [false; PARTS.len()] };
        let seen = search.call(centre(blocks, *next), 0, radius);
        if let Seen::Spent = seen {
            return (seen, finished as u32);
        }
        finished += search.calls;
        if let Seen::Found(_) = seen {
            *next = count;
            return (seen, finished as u32);
        }
        *next += 1;
    }
    (Seen::No, finished as u32)
}

// Paper 11 of 02. Where a run is refused, or takes the straight road, a leg says the same.
fn leg(codes: &mut Codes, plan: (u32, u32), budget: u32, bytes: &[u8], record: &mut Checkpoint) -> LegReply {
    let sheet = match read(bytes) {
        Ok(sheet) if is_plan(plan) && !is_horn(&sheet) => sheet,
        _ => return LegReply::of(run(codes, plan, budget, bytes).0),
    };
    let blocks = blocks_of(codes, plan, sheet.n);
    let Some(count) = count_balls(&blocks) else {
        return LegReply::refused(8, 0);
    };
    if *record != Checkpoint::of(plan, &sheet, record.next) {
        return LegReply::refused(11, 0);
    }
    if record.next >= count {
        return LegReply::refused(12, 0);
    }
    LegReply::of(answered(&sheet, BALLS, whole_balls(&sheet, &blocks, budget, &mut record.next, count)))
}

// Paper 12 of 02: the longer sheet is searched, and the old one only has to stand in it.
fn leg_longer(codes: &mut Codes, plan: (u32, u32), budget: u32, [old, longer]: [&[u8]; 2], record: &mut Checkpoint) -> LegReply {
    if !is_plan(plan) {
        return LegReply::about(2, 8, 0);
    }
    let (old, longer) = match (read(old), read(longer)) {
        (Err(r), _) => return LegReply::about(1, r.0, r.1),
        (_, Err(r)) => return LegReply::about(2, r.0, r.1),
        (Ok(old), Ok(longer)) => (old, longer),
    };
    if is_horn(&longer) {
        return LegReply::of(answered(&longer, HORN, rounds(&longer, budget)));
    }
    let blocks = blocks_of(codes, plan, longer.n);
    let Some(count) = count_balls(&blocks) else {
        return LegReply::about(2, 8, 0);
    };
    match declined(plan, [&old, &longer], record, count) {
        Some(refusal) => refusal,
        None => LegReply::of(answered(&longer, BALLS, whole_balls(&longer, &blocks, budget, &mut record.next, count))),
    }
}

// What the record, and then the old clauses, stand against.
fn declined(plan: (u32, u32), [old, longer]: [&Sheet; 2], record: &Checkpoint, count: u64) -> Option<LegReply> {
    let is_of = |sheet: &Sheet| (record.batch, record.n) == (sheet.batch, sheet.n);
    if (record.block_length, record.radius) != plan {
        Some(LegReply::about(2, 11, 0))
    } else if !is_of(old) {
        Some(LegReply::about(1, 11, 0))
    } else if !is_of(longer) {
        Some(LegReply::about(2, 11, 0))
    } else if record.next >= count {
        Some(LegReply::about(2, 12, 0))
    } else {
        first_dropped(old, longer).map(|place| LegReply::about(1, 13, place))
    }
}

// A clause as a set.
type Literals = BTreeSet<(u32, bool)>;

fn literals(clause: &[(u32, bool)]) -> Literals {
    clause.iter().copied().collect()
}

fn sets(sheet: &Sheet) -> BTreeSet<Literals> {
    sheet.terms.iter().map(|t| literals(t)).collect()
}

// The first word of the first old clause that is lacking in the longer sheet.
fn first_dropped(old: &Sheet, longer: &Sheet) -> Option<u32> {
    let there = sets(longer);
    let lacking = old.terms.iter().position(|t| !there.contains(&literals(t)))?;
    Some(3 + old.terms[..lacking].iter().map(|t| 1 + t.len() as u32).sum::<u32>())
}

// From any record a clear has a model, and none and spent say that there is none in the balls gone through; all assignments are
// tried for that where they are few.
fn meaning(blocks: &[Block], sheet: &Sheet, [before, after]: [u64; 2], got: &LegReply) -> Option<bool> {
    match got.verdict {
        1 => Some(sheet.terms.iter().all(|t| is_true(t, join(got.marks)))),
        _ if sheet.n > 10 || after == before => None,
        _ => Some(emptied(sheet, blocks, before..after)),
    }
}

// All assignments are tried: no model is within the radius of the centres of these balls.
fn emptied(sheet: &Sheet, blocks: &[Block], balls: std::ops::Range<u64>) -> bool {
    let radius: u32 = blocks.iter().map(|b| b.1).sum();
    let models: Vec<u128> = models(sheet).collect();
    let mut digits = vec![0usize; blocks.len()];
    (0..balls.end).all(|ball| {
        let centre = whole_word(blocks, &digits);
        advance(blocks, &mut digits);
        ball < balls.start || models.iter().all(|model| (model ^ centre).count_ones() > radius)
    })
}

// ---- splitting

// Paper 10 of 02, word for word: each call reads every term.
struct Splitting<'a> {
    sheet: &'a Sheet,
    calls: u64,
    most: u64,
}

impl Splitting<'_> {
    // The first so many variables are set. In marks the others are 0, and no term is read under them.
    fn call(&mut self, set: u32, marks: u128) -> Seen {
        if self.calls == self.most {
            return Seen::Spent;
        }
        self.calls += 1;
        if self.sheet.terms.iter().any(|t| is_lost(t, set, marks)) {
            return Seen::No;
        }
        if self.sheet.terms.iter().all(|t| is_held(t, set, marks)) {
            return Seen::Found(marks);
        }
        match self.call(set + 1, marks) {
            Seen::No => self.call(set + 1, marks | only(set + 1)),
            other => other,
        }
    }
}

// Only set variables, and false.
fn is_lost(term: &[(u32, bool)], set: u32, marks: u128) -> bool {
    term.iter().all(|l| l.0 <= set && !met(l, marks))
}

// A met literal among the set variables.
fn is_held(term: &[(u32, bool)], set: u32, marks: u128) -> bool {
    term.iter().any(|l| l.0 <= set && met(l, marks))
}

// What splitting comes to without a budget: the marks, if any are found, and the calls needed.
type Whole = (Option<u128>, u64);

// None where more calls are needed than the most.
fn splitting(sheet: &Sheet, most: u64) -> Option<Whole> {
    let mut search = Splitting { sheet, calls: 0, most };
    match search.call(0, 0) {
        Seen::Found(marks) => Some((Some(marks), search.calls)),
        Seen::No => Some((None, search.calls)),
        Seen::Spent => None,
    }
}

// The answer with a budget. Whole is none only where more calls are needed than that.
fn split_reply(sheet: &Result<Sheet, Refused>, whole: Option<Whole>, budget: u32) -> Reply {
    let batch = match sheet {
        Ok(sheet) => sheet.batch,
        Err(r) => return Reply { number: r.0, place: r.1, ..Reply::default() },
    };
    let (verdict, marks, calls) = match whole {
        Some((found, calls)) if calls <= budget as u64 => (if found.is_some() { 1 } else { 2 }, found.unwrap_or(0), calls as u32),
        _ => (3, 0, budget),
    };
    Reply { verdict, batch, marks: words_of(marks), calls, ..Reply::default() }
}

// Where an assignment comes in the order in which variable 1 weighs most and 0 precedes 1.
fn rank(marks: u128) -> u128 {
    marks.reverse_bits()
}

// All assignments are tried in that order.
fn first_model(sheet: &Sheet) -> Option<u128> {
    let mut all = (0..1u128 << sheet.n).map(|i| rank(i).checked_shr(128 - sheet.n).unwrap_or(0));
    all.find(|marks| sheet.terms.iter().all(|t| is_true(t, *marks)))
}

// The calls needed, counted without making them: the beginnings of assignments, up to that of the first model, that go on from
// beginnings under which no term is lost and not all are held.
fn beginnings(sheet: &Sheet) -> u64 {
    let goes_on = |set: u32, marks: u128| {
        let marks = marks & !(u128::MAX << set);
        !sheet.terms.iter().any(|t| is_lost(t, set, marks)) && !sheet.terms.iter().all(|t| is_held(t, set, marks))
    };
    let last = first_model(sheet).map_or(u128::MAX, rank);
    let all = (0..=sheet.n).flat_map(|set| (0..1u128 << set).map(move |marks| (set, marks)));
    all.filter(|(set, marks)| rank(*marks) <= last && (0..*set).all(|fewer| goes_on(fewer, *marks))).count() as u64
}

// ---- alike, and the operations on codes

fn alike(a: &[u8], b: &[u8]) -> AlikeReply {
    let refused = |sheet, r: Refused| AlikeReply { answer: 0, sheet, number: r.0, place: r.1 };
    let (a, b) = match (read(a), read(b)) {
        (Err(r), _) => return refused(1, r),
        (Ok(_), Err(r)) => return refused(2, r),
        (Ok(a), Ok(b)) => (a, b),
    };
    let same = a.n == b.n && sets(&a) == sets(&b);
    AlikeReply { answer: if same { 1 } else { 2 }, ..AlikeReply::default() }
}

// A sheet like the first, or nearly.
fn relative(r: &mut Random, bytes: &[u8]) -> Vec<u8> {
    let Ok(mut sheet) = read(bytes) else {
        return random_bytes(r);
    };
    for _ in 0..r.below(4) {
        let count = sheet.terms.len() as u64;
        if count == 0 {
            break;
        }
        let (i, j) = (r.below(count) as usize, r.below(count) as usize);
        match r.below(6) {
            0 => sheet.terms.swap(i, j),
            1 => sheet.terms[i].reverse(),
            2 if count < 1024 => sheet.terms.push(sheet.terms[j].clone()),
            3 => sheet.batch ^= 1,
            4 if r.below(3) == 0 => change_word(r, &mut sheet.terms[i], sheet.n),
            5 if r.below(3) == 0 => drop(sheet.terms.remove(i)),
            _ => {}
        }
    }
    sheet.n += (r.below(20) == 0 && sheet.n < 128) as u32;
    write(&sheet)
}

// A literal goes to the variable at the same place of another word, if the term does not name it yet.
fn change_word(r: &mut Random, term: &mut [(u32, bool)], n: u32) {
    let other = r.range(0, 3) as u32 * 32;
    let Some(first) = term.first() else {
        return;
    };
    let variable = (first.0 - 1) % 32 + 1 + other;
    if variable <= n && term.iter().all(|l| l.0 != variable) {
        term[0].0 = variable;
    }
}

fn codes_agree(codes: &mut Codes) -> bool {
    (0..=14u32).all(|t| {
        let tables = [1usize << t.min(12), (1 << t.min(12)) - 1, 4096];
        (0..=14).all(|s| measures_agree(t, s) && tables.iter().all(|cells| code_agrees(codes, t, s, *cells)))
    })
}

fn refused_number(number: u32) -> NumberReply {
    NumberReply { number, ..NumberReply::default() }
}

fn measures_agree(t: u32, s: u32) -> bool {
    let binomial = |t: u64, i: u64| (0..i).fold(1u64, |c, k| if k < t { c * (t - k) / (k + 1) } else { 0 });
    let volume = (0..=s as u64).map(|i| binomial(t as u64, i)).sum::<u64>() as u32;
    let answer = |result| NumberReply { result, ..NumberReply::default() };
    let floor = (1u32 << t).div_ceil(volume);
    let expected = if t > 12 || s > 12 { [refused_number(8); 2] } else { [answer(volume), answer(floor)] };
    library_measures(t, s) == (expected[0], expected[1])
}

fn code_agrees(codes: &mut Codes, t: u32, s: u32, cells: usize) -> bool {
    let mut table = vec![0xabcd; cells];
    let mut after = table.clone();
    let expected = if t < 1 || t > 12 || s > t {
        refused_number(8)
    } else if cells < 1 << t {
        refused_number(9)
    } else {
        let words = codes.get(t, s);
        words.iter().enumerate().for_each(|(i, w)| after[i] = *w as u16);
        NumberReply { result: words.len() as u32, ..NumberReply::default() }
    };
    library_code(t, s, &mut table) == expected && table == after
}

// Paper 8 of 02, on the words that the library writes: at each step U' × 2^t is at most U × (2^t − V), and the first one leaves just
// 2^t − V; as many steps as the floor at least halve U; there are at least as many words as the floor, and at most t × (floor − 1) + 1.
fn closing_holds(t: u32, s: u32) -> bool {
    let all = 1usize << t;
    let (volume, floor) = library_measures(t, s);
    let (volume, floor) = (volume.result as usize, floor.result as usize);
    let mut table = vec![0; all];
    let size = library_code(t, s, &mut table).result as usize;
    let mut left: Vec<u32> = (0..all as u32).collect();
    let mut uncovered = vec![all];
    for word in &table[..size] {
        left.retain(|x| (x ^ *word as u32).count_ones() > s);
        uncovered.push(left.len());
    }
    let rate = uncovered.windows(2).all(|u| u[1] * all <= u[0] * (all - volume));
    let halves = (0..=size).all(|k| uncovered.get(k + floor).unwrap_or(&0) * 2 <= uncovered[k]);
    rate && halves && uncovered[1] == all - volume && uncovered[size] == 0 && (floor..=most_words(t, floor)).contains(&size)
}

// One step less than the floor halves U too, for only the words outside a ball count: sharper than t × floor + 1.
fn most_words(t: u32, floor: usize) -> usize {
    t as usize * (floor - 1) + 1
}

// Paper 8 of 02: at most so many calls are needed, by the lengths, the radii and the floors of the blocks alone.
fn most_calls(plan: (u32, u32), sheet: &Sheet) -> u128 {
    let (b, s) = plan;
    let k = longest_term(sheet);
    let lengths = (0..sheet.n).step_by(b as usize).map(|at| b.min(sheet.n - at));
    let balls = lengths.clone().fold(1u128, |product, t| {
        let floor = library_measures(t, s.min(t)).1.result as usize;
        product.saturating_mul(most_words(t, floor) as u128)
    });
    let radius: u32 = lengths.map(|t| s.min(t)).sum();
    balls.saturating_mul(most_in_ball(k, radius))
}

// 1 + k × (1 + k × (…)): the sum of the powers of k up to the radius.
fn most_in_ball(k: u128, radius: u32) -> u128 {
    (0..radius).fold(1u128, |sum, _| sum.saturating_mul(k).saturating_add(1))
}

// The length of the longest term.
fn longest_term(sheet: &Sheet) -> u128 {
    sheet.terms.iter().map(Vec::len).max().unwrap_or(0) as u128
}

// A null pointer with length 0 is an empty buffer.
fn nothing_agrees() -> bool {
    let none = std::ptr::null();
    let run = unsafe { library::run(3, 1, 9, none, 0) };
    let split = unsafe { library::split(9, none, 0) };
    let record = Checkpoint { batch: 0, n: 0, block_length: 3, radius: 1, next: 1 };
    let mut parked = record;
    let leg = unsafe { library::leg(3, 1, 9, none, 0, &mut parked) };
    let some = written(2, &FOUR);
    let old = unsafe { library::leg_longer(3, 1, 9, none, 0, some.as_ptr(), some.len(), &mut parked) };
    let longer = unsafe { library::leg_longer(3, 1, 9, some.as_ptr(), some.len(), none, 0, &mut parked) };
    let words = [5, 6, 7, 8];
    let counts = unsafe { library::clause_counts(none, 0, 0, words.as_ptr(), words.as_ptr()) };
    let mut lent = Lent { marks: words, met: [4; 1024], unmet: 5 };
    let Lent { marks, met, unmet } = &mut lent;
    let begun = unsafe { library::tally_begin(none, 0, marks.as_mut_ptr(), met.as_mut_ptr(), unmet) };
    let toggled = unsafe { library::tally_toggle(none, 0, 0, marks.as_mut_ptr(), met.as_mut_ptr(), unmet) };
    let alike = unsafe { library::alike(none, 0, none, 0) };
    let code = unsafe { library::covering_code(1, 0, std::ptr::null_mut(), 0) };
    [run, split] == [Reply { number: 2, ..Reply::default() }; 2]
        && [leg, old, longer] == [1, 1, 2].map(|sheet| LegReply::about(sheet, 2, 0))
        && parked == record
        && counts == CountsReply { number: 2, ..CountsReply::default() }
        && [begun, toggled] == [TallyReply { number: 2, place: 0 }; 2]
        && lent == Lent { marks: words, met: [4; 1024], unmet: 5 }
        && alike == AlikeReply { sheet: 1, number: 2, ..AlikeReply::default() }
        && code == NumberReply { number: 9, ..NumberReply::default() }
}

// A negative number is a negative literal.
fn term_of(clause: &[i32]) -> Vec<(u32, bool)> {
    clause.iter().map(|l| (l.unsigned_abs(), *l > 0)).collect()
}

fn written(n: u32, clauses: &[&[i32]]) -> Vec<u8> {
    write(&Sheet { batch: 2, n, terms: clauses.iter().map(|c| term_of(c)).collect() })
}

fn written_all(n: u32, clauses: &[Vec<i32>]) -> Vec<u8> {
    written(n, &clauses.iter().map(Vec::as_slice).collect::<Vec<&[i32]>>())
}

fn all_plans() -> Vec<(u32, u32)> {
    (1..=12).flat_map(|b| (0..=b).map(move |s| (b, s))).collect()
}

// Worked examples of the sources 000 and 002: variables, clauses, and whether a model exists.
fn sources_agree() -> bool {
    let examples: [(u32, &[&[i32]], bool); 5] = [
        (3, &[&[1, 2], &[-1, -3], &[-3]], true),
        (3, &[&[1, -2], &[1, 2, 3]], true),
        (3, &[&[1], &[-1, 2], &[-2, 3], &[-3]], false),
        (4, &[&[1], &[-1, -2], &[3, 2], &[-3, 2, -4, 1]], true),
        (4, &[&[1, 2, 3], &[-1, 2, -4]], true),
    ];
    examples.iter().all(|(n, clauses, model)| {
        let bytes = written(*n, clauses);
        let verdict = if *model { 1 } else { 2 };
        all_plans().iter().all(|plan| {
            let start = Checkpoint { batch: 2, n: *n, block_length: plan.0, radius: plan.1, next: 0 };
            let pair = [&written(*n, &clauses[..1])[..], &bytes];
            library_run(*plan, u32::MAX, &bytes).verdict == verdict
                && library_leg(*plan, u32::MAX, &bytes, &mut start.clone()).verdict == verdict
                && library_longer(*plan, u32::MAX, pair, &mut start.clone()).verdict == verdict
        }) && library_split(u32::MAX, &bytes).verdict == verdict
    })
}

// ---- fixed runs

// The road, the verdict (1 clear, 2 none, 3 spent), the marks, and the count of calls or rounds.
type Answer = (u32, u32, [u32; 4], u32);

// The plan, the budget, the number of variables, the clauses, and the answer.
type Worked = ((u32, u32), u32, u32, &'static [&'static [i32]], Answer);

// A clause with two positive literals that stays true where nothing flips its variables: it makes a sheet one for the balls, and has no
// other part in the answer. Nor has (1 2), late in the small sheets below: whenever it is false, (1) or an empty clause is too.
const NOT_HORN: [i32; 3] = [-2, 3, 4];

const WORKED: [Worked; 72] = [
    // the runs among the settled examples of paper 01; paper 7 of 02 moves the counts where the radius is the block length, and paper 9
    // those with one variable
    ((3, 1), 1, 0, &[], (HORN, 1, [0; 4], 1)),
    ((3, 1), 9, 0, &[&[]], (HORN, 2, [0; 4], 1)),
    ((3, 1), 9, 3, &[&[1, 2], &[-1, -3], &[-3]], (BALLS, 1, [1, 0, 0, 0], 2)),
    ((1, 1), 2, 1, &[&[1], &[-1]], (HORN, 2, [0; 4], 2)),
    ((1, 1), 1, 1, &[&[1], &[-1]], (HORN, 3, [0; 4], 1)),
    ((1, 1), 0, 1, &[&[1], &[-1]], (HORN, 3, [0; 4], 0)),
    ((1, 0), 2, 1, &[&[1], &[-1]], (HORN, 2, [0; 4], 2)),
    ((2, 1), 6, 2, &[&[1, 2], &[1, -2], &[-1, 2], &[-1, -2]], (BALLS, 2, [0; 4], 6)),
    ((2, 2), 5, 2, &[&[1, 2], &[1, -2], &[-1, 2], &[-1, -2]], (BALLS, 2, [0; 4], 3)),
    ((2, 2), 3, 2, &[&[1, 2], &[1, -2], &[-1, 2], &[-1, -2]], (BALLS, 2, [0; 4], 3)),
    ((2, 2), 2, 2, &[&[1, 2], &[1, -2], &[-1, 2], &[-1, -2]], (BALLS, 3, [0; 4], 2)),
    // the sheet of paper 4 of 02: with variable 1 flipped the last clause would be dead, and since paper 7 that flip is not tried
    ((3, 3), 2, 3, &[&[1], &[2, 3], &[-1]], (BALLS, 2, [0; 4], 1)),
    ((3, 3), 1, 3, &[&[1], &[2, 3], &[-1]], (BALLS, 2, [0; 4], 1)),
    ((3, 3), 0, 3, &[&[1], &[2, 3], &[-1]], (BALLS, 3, [0; 4], 0)),
    ((3, 3), 3, 3, &[&[1], &[2, 3], &[-1]], (BALLS, 2, [0; 4], 1)),
    ((3, 3), u32::MAX, 3, &[&[1], &[2, 3], &[-1]], (BALLS, 2, [0; 4], 1)),
    // its two balls, of words 0 and 1: in the second (2 3) is tried, and after each flip -1 has the lone opposite
    ((3, 2), 7, 3, &[&[1], &[2, 3], &[-1]], (BALLS, 2, [0; 4], 4)),
    ((3, 2), 4, 3, &[&[1], &[2, 3], &[-1]], (BALLS, 2, [0; 4], 4)),
    ((3, 2), 3, 3, &[&[1], &[2, 3], &[-1]], (BALLS, 3, [0; 4], 3)),
    // here (2 3) is tried in the first ball only
    ((3, 2), 7, 3, &[&[-1], &[2, 3], &[1]], (BALLS, 2, [0; 4], 4)),
    ((3, 2), 4, 3, &[&[-1], &[2, 3], &[1]], (BALLS, 2, [0; 4], 4)),
    ((3, 2), 3, 3, &[&[-1], &[2, 3], &[1]], (BALLS, 3, [0; 4], 3)),
    // with one flip, words 0 and 7, none is tried in either
    ((3, 1), 9, 3, &[&[1], &[2, 3], &[-1]], (BALLS, 2, [0; 4], 2)),
    // the same with a clause that would be false with a flipped variable and others that are not
    ((3, 3), 9, 3, &[&[1], &[-1, 2, 3], &[-1]], (BALLS, 2, [0; 4], 1)),
    // 1 would leave the last clause dead, and 2 does not
    ((3, 3), 4, 3, &[&[1, 2], &[3], &[-1]], (BALLS, 1, [6, 0, 0, 0], 3)),
    ((3, 3), 3, 3, &[&[1, 2], &[3], &[-1]], (BALLS, 1, [6, 0, 0, 0], 3)),
    ((3, 3), 2, 3, &[&[1, 2], &[3], &[-1]], (BALLS, 3, [0; 4], 2)),
    // the last clause would be dead only with both of its variables flipped, in one block or in the first of two: 1 is tried, 2 not
    ((4, 4), 9, 4, &[&[1], &[2], &[3, 4], &[-1, -2]], (BALLS, 2, [0; 4], 2)),
    ((2, 2), 9, 4, &[&[1], &[2], &[3, 4], &[-1, -2]], (BALLS, 2, [0; 4], 2)),
    ((4, 4), 2, 4, &[&[1], &[2], &[3, 4], &[-1, -2]], (BALLS, 2, [0; 4], 2)),
    ((4, 4), 1, 4, &[&[1], &[2], &[3, 4], &[-1, -2]], (BALLS, 3, [0; 4], 1)),
    // the last variable has the highest bit
    ((1, 1), 9, 32, &[&[32], &[1, 2], &[-32]], (BALLS, 2, [0; 4], 1)),
    ((8, 8), 9, 32, &[&[32], &[1, 2], &[-32]], (BALLS, 2, [0; 4], 1)),
    // an empty clause is dead at once wherever it stands, in each ball
    ((2, 2), 9, 2, &[&[1], &[], &[2], &[1, 2]], (BALLS, 2, [0; 4], 1)),
    ((2, 2), 1, 2, &[&[1], &[], &[2], &[1, 2]], (BALLS, 2, [0; 4], 1)),
    ((2, 2), 0, 2, &[&[1], &[], &[2], &[1, 2]], (BALLS, 3, [0; 4], 0)),
    ((2, 2), 9, 2, &[&[], &[1], &[2], &[1, 2]], (BALLS, 2, [0; 4], 1)),
    ((2, 2), 9, 2, &[&[1], &[2], &[1, 2], &[]], (BALLS, 2, [0; 4], 1)),
    ((2, 2), 9, 2, &[&[-1], &[2], &[1, 2], &[]], (BALLS, 2, [0; 4], 1)),
    ((2, 1), 9, 2, &[&[1], &[], &[2], &[1, 2]], (BALLS, 2, [0; 4], 2)),
    ((2, 1), 9, 2, &[&[1], &[2], &[1, 2], &[]], (BALLS, 2, [0; 4], 2)),
    ((2, 1), 1, 2, &[&[1], &[2], &[1, 2], &[]], (BALLS, 3, [0; 4], 1)),
    // with radius 0 each of the words is one call, dead or not
    ((2, 0), 9, 2, &[&[1], &[], &[2], &[1, 2]], (BALLS, 2, [0; 4], 4)),
    ((2, 0), 3, 2, &[&[1], &[], &[2], &[1, 2]], (BALLS, 3, [0; 4], 3)),
    ((1, 0), 9, 2, &[&[1], &[2], &[1, 2], &[]], (BALLS, 2, [0; 4], 4)),
    ((3, 0), 9, 3, &[&[1], &[2, 3], &[-1]], (BALLS, 2, [0; 4], 8)),
    ((2, 0), 9, 2, &[&[1], &[2], &[1, 2]], (BALLS, 1, [3, 0, 0, 0], 4)),
    // a true clause is not dead, though all its variables are flipped: one met literal is enough
    ((2, 2), 9, 2, &[&[1], &[2], &[1, 2]], (BALLS, 1, [3, 0, 0, 0], 3)),
    ((2, 2), 3, 2, &[&[1], &[2], &[1, 2]], (BALLS, 1, [3, 0, 0, 0], 3)),
    ((2, 2), 2, 2, &[&[1], &[2], &[1, 2]], (BALLS, 3, [0; 4], 2)),
    ((2, 1), 9, 2, &[&[1], &[2], &[1, 2]], (BALLS, 1, [3, 0, 0, 0], 4)),
    ((3, 3), 9, 3, &[&[1], &[2], &[-1, 2], &[3], &[1, 2]], (BALLS, 1, [7, 0, 0, 0], 4)),
    ((3, 3), 9, 3, &[&[1], &[2], &[2, -1], &[3], &[1, 2]], (BALLS, 1, [7, 0, 0, 0], 4)),
    // a false clause with one variable that is not flipped is not dead, be it the first false one or a later one
    ((2, 2), 9, 2, &[&[1], &[-1, 2], &[1, 2]], (BALLS, 1, [3, 0, 0, 0], 3)),
    ((3, 3), 9, 3, &[&[1], &[3], &[-1, 2], &[1, 2]], (BALLS, 1, [7, 0, 0, 0], 4)),
    ((3, 3), 9, 3, &[&[1], &[3], &[2, -1], &[1, 2]], (BALLS, 1, [7, 0, 0, 0], 4)),
    // paper 5 of 02: the model pays a variable of each word
    ((8, 8), 9, 128, &[&[5], &[40], &[-5, 70], &[-70, 128], &NOT_HORN], (BALLS, 1, [1 << 4, 1 << 7, 1 << 5, 1 << 31], 5)),
    ((8, 8), 5, 128, &[&[5], &[40], &[-5, 70], &[-70, 128], &NOT_HORN], (BALLS, 1, [1 << 4, 1 << 7, 1 << 5, 1 << 31], 5)),
    ((8, 8), 4, 128, &[&[5], &[40], &[-5, 70], &[-70, 128], &NOT_HORN], (BALLS, 3, [0; 4], 4)),
    // variables at the same place of two words are two: neither is flipped, paid or dead with the other
    ((1, 1), 9, 128, &[&[1], &[-1, 33], &[-33, 65], &[-65, 97], &NOT_HORN], (BALLS, 1, [1; 4], 5)),
    ((1, 1), 9, 97, &[&[97], &[-97, 65], &[-65, 33], &[-33, 1], &NOT_HORN], (BALLS, 1, [1; 4], 5)),
    ((7, 7), 9, 128, &[&[32], &[-32, 64], &[-64, 96], &[-96, 128], &NOT_HORN], (BALLS, 1, [1 << 31; 4], 5)),
    ((9, 9), 9, 128, &[&[16], &[-48], &[80], &[-112], &NOT_HORN], (BALLS, 1, [1 << 15, 0, 1 << 15, 0], 3)),
    ((9, 9), 9, 128, &[&[-16], &[48], &[-80], &[112], &NOT_HORN], (BALLS, 1, [0, 1 << 15, 0, 1 << 15], 3)),
    // the last clause would be dead with all its variables flipped, each in another word: the last of them is not tried
    ((6, 6), 9, 128, &[&[2], &[50], &[90], &[127], &[3, 4], &[-2, -50, -90, -127]], (BALLS, 2, [0; 4], 4)),
    ((6, 6), 4, 128, &[&[2], &[50], &[90], &[127], &[3, 4], &[-2, -50, -90, -127]], (BALLS, 2, [0; 4], 4)),
    ((6, 6), 3, 128, &[&[2], &[50], &[90], &[127], &[3, 4], &[-2, -50, -90, -127]], (BALLS, 3, [0; 4], 3)),
    ((1, 1), 9, 128, &[&[128], &[1, 2], &[-128]], (BALLS, 2, [0; 4], 1)),
    // a word for each assignment, 2^128 of them, in their order as numbers
    ((1, 0), 300, 128, &[&[9], &[-98, 99, 100]], (BALLS, 1, [256, 0, 0, 0], 257)),
    ((12, 0), 5000, 128, &[&[13], &[-98, 99, 100]], (BALLS, 1, [4096, 0, 0, 0], 4097)),
    ((12, 0), 4096, 128, &[&[13], &[-98, 99, 100]], (BALLS, 3, [0; 4], 4096)),
    ((5, 0), 3000, 128, &[&[128], &[-98, 99, 100]], (BALLS, 3, [0; 4], 3000)),
];

const LONG: [i32; 8] = [-1, -2, -3, -4, -5, -6, 7, 8];
const EIGHT: [i32; 8] = [-3, -4, -5, -6, -1, -7, -8, -9];

// Paper 6 of 02, with the counts of paper 7. Where the radius is the block length there is one ball, around 0.
const CHOSEN: [Worked; 61] = [
    // rule S: the clause of three is passed over for one of two; 10 calls without the rule
    ((5, 5), 9, 5, &[&[1, 2, 3], &[4, 5], &[4, -5], &[-4, 5], &[-4, -5]], (BALLS, 2, [0; 4], 3)),
    ((5, 5), 3, 5, &[&[1, 2, 3], &[4, 5], &[4, -5], &[-4, 5], &[-4, -5]], (BALLS, 2, [0; 4], 3)),
    ((5, 5), 2, 5, &[&[1, 2, 3], &[4, 5], &[4, -5], &[-4, 5], &[-4, -5]], (BALLS, 3, [0; 4], 2)),
    // for one of one, which meets L too; and for one that does not, where without the rule 1 would be tried first, in vain
    ((4, 4), 9, 4, &[&[1, 2, 3], &[4], &[-4]], (BALLS, 2, [0; 4], 1)),
    ((4, 4), 9, 4, &[&[1, 2, 3], &[4], &[-4, -1]], (BALLS, 1, [10, 0, 0, 0], 3)),
    // flipped variables do not count: of (-1 5 6), and of the clause of eight, two are left
    ((6, 6), 9, 6, &[&[1], &[2, 3, 4], &[-1, 5, 6], &[-5, -2]], (BALLS, 1, [21, 0, 0, 0], 4)),
    ((11, 11), 9, 11, &[&[1], &[2], &[3], &[4], &[5], &[6], &[9, 10, 11], &LONG, &[-7, -9]], (BALLS, 1, [639, 0, 0, 0], 9)),
    // here both of them have lone opposites
    ((6, 6), 9, 6, &[&[1], &[2, 3, 4], &[-1, 5, 6], &[-1, -5], &[-1, -6]], (BALLS, 2, [0; 4], 2)),
    ((11, 11), 9, 11, &[&[1], &[2], &[3], &[4], &[5], &[6], &[9, 10, 11], &LONG, &[-1, -7], &[-1, -8]], (BALLS, 2, [0; 4], 7)),
    // of (-1 5 6 7) three are left: the first false one is taken, and then 5 has a lone opposite
    ((8, 8), 9, 8, &[&[1], &[2, 3, 4, 8], &[-1, 5, 6, 7], &[-2, -5]], (BALLS, 1, [35, 0, 0, 0], 4)),
    // of two short ones the first is taken, though the other has nothing to try
    ((6, 6), 9, 6, &[&[1, 2, 3], &[4, 5], &[6], &[-6]], (BALLS, 2, [0; 4], 3)),
    // it may be the fourth false one, with and without L
    ((10, 10), 9, 10, &[&[1, 2, 3], &[4, 5, 6], &[7, 8, 9], &[10], &[-10]], (BALLS, 2, [0; 4], 1)),
    ((10, 10), 9, 10, &[&[1, 2, 3], &[4, 5, 6], &[7, 8, 9], &[10], &[-10, -1]], (BALLS, 1, [586, 0, 0, 0], 5)),
    // a short one that is true is not taken
    ((5, 5), 9, 5, &[&[-1, -2], &[3, 4, 5]], (BALLS, 1, [4, 0, 0, 0], 2)),
    // rule L: a literal is not tried where a clause has nothing but its opposite, and the others are, in order
    ((3, 3), 9, 3, &[&[1, 2, 3], &[-1]], (BALLS, 1, [2, 0, 0, 0], 2)),
    ((3, 3), 2, 3, &[&[1, 2, 3], &[-1]], (BALLS, 1, [2, 0, 0, 0], 2)),
    ((3, 3), 1, 3, &[&[1, 2, 3], &[-1]], (BALLS, 3, [0; 4], 1)),
    ((3, 3), 9, 3, &[&[1, 2, 3], &[-1], &[-3]], (BALLS, 1, [2, 0, 0, 0], 2)),
    ((3, 3), 9, 3, &[&[-2], &[1, 2, 3], &[-1]], (BALLS, 1, [4, 0, 0, 0], 2)),
    ((4, 4), 9, 4, &[&[1, 2, 3], &[-3], &[-1, 4], &[-1, -4]], (BALLS, 1, [2, 0, 0, 0], 3)),
    ((3, 3), 9, 3, &[&[1, 2, 3], &[-1], &[-1]], (BALLS, 1, [2, 0, 0, 0], 2)),
    ((4, 4), 9, 4, &[&[1, 2, 3, 4], &[-1], &[-2]], (BALLS, 1, [4, 0, 0, 0], 2)),
    // not so where it has nothing but the literal itself
    ((3, 3), 9, 3, &[&[1, 2, 3], &[1]], (BALLS, 1, [1, 0, 0, 0], 2)),
    // the last of eight literals has a lone opposite: its clause is taken, 1 is tried, and then 9 has one
    ((11, 11), 9, 11, &[&[9, 10, 11], &[1, 2, 3, 4, 5, 6, 7, 8], &[-8], &[-9, -1]], (BALLS, 1, [513, 0, 0, 0], 3)),
    // no literal is tried, and no call made
    ((3, 3), 9, 3, &[&[1, 2, 3], &[-1], &[-2], &[-3]], (BALLS, 2, [0; 4], 1)),
    ((3, 3), 1, 3, &[&[1, 2, 3], &[-1], &[-2], &[-3]], (BALLS, 2, [0; 4], 1)),
    ((3, 3), 0, 3, &[&[1, 2, 3], &[-1], &[-2], &[-3]], (BALLS, 3, [0; 4], 0)),
    ((6, 6), 9, 6, &[&[4, 5, 6], &[1, 2, 3], &[-1], &[-2], &[-3]], (BALLS, 2, [0; 4], 1)),
    // nor in the first of two balls, around 0 and 7 or 0 and 1; around 1 two variables are left after a flip, and neither is tried
    ((3, 1), 9, 3, &[&[1, 2, 3], &[-1], &[-2], &[-3]], (BALLS, 2, [0; 4], 3)),
    ((3, 1), 2, 3, &[&[1, 2, 3], &[-1], &[-2], &[-3]], (BALLS, 3, [0; 4], 2)),
    ((3, 2), 9, 3, &[&[1, 2, 3], &[-1], &[-2], &[-3]], (BALLS, 2, [0; 4], 3)),
    // nor in the second, around 7
    ((3, 1), 9, 3, &[&[-1, -2, -3], &[1], &[2], &[3], &[1, 2]], (BALLS, 2, [0; 4], 3)),
    ((3, 1), 9, 3, &[&[-1, -2, -3], &[1], &[3], &[1, 2]], (BALLS, 1, [5, 0, 0, 0], 4)),
    // in sheet order: a clause by L before a short one, and a short one before one by L; the other clause first would make 1 call
    ((4, 4), 9, 4, &[&[1, 2, 3], &[4], &[-1], &[-4]], (BALLS, 2, [0; 4], 3)),
    ((5, 5), 9, 5, &[&[4, 5], &[1, 2, 3], &[-1], &[-2], &[-3]], (BALLS, 2, [0; 4], 3)),
    ((8, 8), 9, 8, &[&[6, 7, 8], &[4, 5], &[1, 2, 3], &[-1], &[-2], &[-3]], (BALLS, 2, [0; 4], 3)),
    // 1 is lone with both signs
    ((3, 3), 9, 3, &[&[1, 2, 3], &[1], &[-1]], (BALLS, 2, [0; 4], 3)),
    // the opposite is lone when the other literal is flipped and unmet, not when it is met
    ((4, 4), 9, 4, &[&[1], &[2, 3, 4], &[-1, -2]], (BALLS, 1, [5, 0, 0, 0], 3)),
    ((4, 4), 9, 4, &[&[1], &[2, 3, 4], &[1, -2]], (BALLS, 1, [3, 0, 0, 0], 3)),
    // two others, both unmet, one of them met, and one of them unflipped
    ((5, 5), 9, 5, &[&[1], &[2], &[3, 4, 5], &[-1, -2, -3]], (BALLS, 1, [11, 0, 0, 0], 4)),
    ((5, 5), 9, 5, &[&[1], &[2], &[3, 4, 5], &[-1, 2, -3]], (BALLS, 1, [7, 0, 0, 0], 4)),
    ((5, 5), 9, 5, &[&[1], &[2], &[3, 4, 5], &[1, -2, -3]], (BALLS, 1, [7, 0, 0, 0], 4)),
    ((5, 5), 9, 5, &[&[1], &[3, 4, 5], &[-1, -2, -3]], (BALLS, 1, [5, 0, 0, 0], 3)),
    // the opposite is not lone beside an unflipped literal, be it unmet or met
    ((4, 4), 9, 4, &[&[1, 2, 3], &[-1, 4]], (BALLS, 1, [9, 0, 0, 0], 3)),
    ((4, 4), 9, 4, &[&[1, 2, 3], &[-1, -4]], (BALLS, 1, [1, 0, 0, 0], 2)),
    // a flipped literal does not make a clause one by L: -1 is flipped, and (1) has nothing else, but (5 6 7) stands first
    ((7, 7), 9, 7, &[&[1], &[5, 6, 7], &[-1, 2, 3, 4], &[-5, -2]], (BALLS, 1, [21, 0, 0, 0], 4)),
    // neither rule: the first false one
    ((6, 6), 9, 6, &[&[1, 2, 3], &[4, 5, 6], &[-1, -4]], (BALLS, 1, [17, 0, 0, 0], 3)),
    // the first clause meets both rules and has nothing to try, whatever the others meet
    ((4, 4), 9, 4, &[&[1], &[2, 3, 4], &[-2], &[-1]], (BALLS, 2, [0; 4], 1)),
    ((5, 5), 9, 5, &[&[1], &[4, 5], &[-1, 2, 3], &[-1]], (BALLS, 2, [0; 4], 1)),
    // an empty clause, which is dead, goes before both rules
    ((3, 3), 9, 3, &[&[1, 2, 3], &[-1], &[]], (BALLS, 2, [0; 4], 1)),
    ((3, 3), 9, 3, &[&[1, 2], &[], &[3]], (BALLS, 2, [0; 4], 1)),
    // with one flip left both rules hold: balls around 0 and 7, around 0, 7, 8 and 15, and around 0 and 1
    ((3, 1), 9, 3, &[&[1, 2, 3], &[-1]], (BALLS, 1, [2, 0, 0, 0], 2)),
    ((4, 1), 9, 4, &[&[1, 2, 3], &[4]], (BALLS, 1, [15, 0, 0, 0], 4)),
    ((2, 1), 9, 2, &[&[1, 2], &[-1], &[-2]], (BALLS, 2, [0; 4], 3)),
    // paper 5 of 02: variables at the same place of two words are two, and flips in three words leave -40 alone
    ((1, 1), 9, 128, &[&[33, 1, 65], &[-33]], (BALLS, 1, [1, 0, 0, 0], 2)),
    ((1, 1), 9, 128, &[&[1, 33, 65], &[-1]], (BALLS, 1, [0, 1, 0, 0], 2)),
    ((1, 1), 9, 128, &[&[1, 65, 97], &[-33]], (BALLS, 1, [1, 0, 0, 0], 2)),
    ((7, 7), 9, 128, &[&[128, 96, 64], &[-128], &[-96]], (BALLS, 1, [0, 1 << 31, 0, 0], 2)),
    ((8, 8), 9, 128, &[&[1], &[64], &[127], &[40, 5, 90], &[-1, -64, -127, -40]], (BALLS, 1, [17, 1 << 31, 0, 1 << 30], 5)),
    ((9, 9), 9, 128, &[&[33, 65, 97], &[1, 128], &[-1], &[-128]], (BALLS, 2, [0; 4], 1)),
    ((9, 9), 9, 128, &[&[33, 65, 97], &[1, 128], &[-1, -33]], (BALLS, 1, [1, 0, 1, 0], 3)),
];

// Paper 7 of 02: the clause taken meets S, and its literals with lone opposites are not tried.
const SPARED: [Worked; 54] = [
    // one of two is tried, the second or the first
    ((2, 2), 9, 2, &[&[1, 2], &[-1]], (BALLS, 1, [2, 0, 0, 0], 2)),
    ((2, 2), 2, 2, &[&[1, 2], &[-1]], (BALLS, 1, [2, 0, 0, 0], 2)),
    ((2, 2), 1, 2, &[&[1, 2], &[-1]], (BALLS, 3, [0; 4], 1)),
    ((2, 2), 9, 2, &[&[-1], &[1, 2]], (BALLS, 1, [2, 0, 0, 0], 2)),
    ((2, 2), 9, 2, &[&[1, 2], &[-2]], (BALLS, 1, [1, 0, 0, 0], 2)),
    ((2, 2), 9, 2, &[&[-2], &[1, 2]], (BALLS, 1, [1, 0, 0, 0], 2)),
    // also where that one fails: after 1 has been flipped 3 has a lone opposite
    ((3, 3), 9, 3, &[&[1, 2], &[-2], &[-1, 3], &[-1, -3]], (BALLS, 2, [0; 4], 2)),
    ((3, 3), 9, 3, &[&[2, 1], &[-2], &[-1, 3], &[-1, -3]], (BALLS, 2, [0; 4], 2)),
    // neither of two, and no call is made; in the fourth row only below the first of two flips
    ((2, 2), 9, 2, &[&[1, 2], &[-1], &[-2]], (BALLS, 2, [0; 4], 1)),
    ((2, 2), 1, 2, &[&[1, 2], &[-1], &[-2]], (BALLS, 2, [0; 4], 1)),
    ((2, 2), 0, 2, &[&[1, 2], &[-1], &[-2]], (BALLS, 3, [0; 4], 0)),
    ((4, 4), 9, 4, &[&[3, 4], &[1, 2], &[-1, -3], &[-2, -3]], (BALLS, 1, [9, 0, 0, 0], 4)),
    ((5, 5), 9, 5, &[&[3, 4, 5], &[1, 2], &[-1], &[-2]], (BALLS, 2, [0; 4], 1)),
    ((3, 3), 9, 3, &[&[3], &[1, 2], &[-1], &[-2, -3]], (BALLS, 2, [0; 4], 2)),
    // nor one of one, be it alone in its clause or left there: in the last row the fourth of a chain
    ((2, 2), 9, 2, &[&[-1], &[1], &[2], &[1, 2]], (BALLS, 2, [0; 4], 1)),
    ((2, 2), 9, 2, &[&[1], &[-1, 2], &[-1, -2], &[1, 2]], (BALLS, 2, [0; 4], 2)),
    ((2, 2), 9, 2, &[&[1], &[-1, -2], &[-1, 2], &[1, 2]], (BALLS, 2, [0; 4], 2)),
    ((4, 4), 9, 4, &[&[1], &[-1, 2], &[-2, 3], &[-3, 4], &[-4, -1], &[1, 2]], (BALLS, 2, [0; 4], 4)),
    // two are left of three, and of eight
    ((3, 3), 9, 3, &[&[1], &[-1, 2, 3], &[-2]], (BALLS, 1, [5, 0, 0, 0], 3)),
    ((3, 3), 9, 3, &[&[1], &[2, -1, 3], &[-2]], (BALLS, 1, [5, 0, 0, 0], 3)),
    ((3, 3), 9, 3, &[&[1], &[2, 3, -1], &[-2]], (BALLS, 1, [5, 0, 0, 0], 3)),
    ((8, 8), 9, 8, &[&[1], &[2], &[3], &[4], &[5], &[6], &LONG, &[-7]], (BALLS, 1, [191, 0, 0, 0], 8)),
    ((9, 9), 9, 9, &[&[1], &[2], &[3], &[4], &[5], &[6], &LONG, &[-8], &[-7, 9], &[-7, -9]], (BALLS, 2, [0; 4], 8)),
    // the clause with the lone opposite has one literal, or two or eight of which one is left
    ((3, 3), 9, 3, &[&[3], &[1, 2], &[-1]], (BALLS, 1, [6, 0, 0, 0], 3)),
    ((3, 3), 9, 3, &[&[3], &[1, 2], &[-3, -1]], (BALLS, 1, [6, 0, 0, 0], 3)),
    ((3, 3), 9, 3, &[&[3], &[1, 2], &[-1, -3]], (BALLS, 1, [6, 0, 0, 0], 3)),
    ((9, 9), 9, 9, &[&[3], &[4], &[5], &[6], &[7], &[8], &[9], &[1, 2], &EIGHT], (BALLS, 1, [510, 0, 0, 0], 9)),
    // it has a flipped literal that is met, and its other one is not lone: 1 is tried
    ((3, 3), 9, 3, &[&[3], &[1, 2], &[3, -1]], (BALLS, 1, [5, 0, 0, 0], 3)),
    ((3, 3), 9, 3, &[&[3], &[1, 2], &[-1, 3]], (BALLS, 1, [5, 0, 0, 0], 3)),
    ((4, 4), 9, 4, &[&[3], &[4], &[1, 2], &[-3, 4, -1]], (BALLS, 1, [13, 0, 0, 0], 4)),
    ((4, 4), 9, 4, &[&[3], &[4], &[1, 2], &[3, -4, -1]], (BALLS, 1, [13, 0, 0, 0], 4)),
    ((4, 4), 9, 4, &[&[3], &[4], &[1, 2], &[-1, -3, 4]], (BALLS, 1, [13, 0, 0, 0], 4)),
    ((4, 4), 9, 4, &[&[3], &[4], &[1, 2], &[3, 4, -1]], (BALLS, 1, [13, 0, 0, 0], 4)),
    ((3, 3), 9, 3, &[&[1], &[2], &[1, -2], &[-1, -2, 3], &[1, 2]], (BALLS, 1, [7, 0, 0, 0], 4)),
    // all its literals are flipped, one is met, and none is lone, though the opposite stands in the clause taken or in one passed over
    ((2, 2), 9, 2, &[&[1], &[-1, 2], &[1, 2]], (BALLS, 1, [3, 0, 0, 0], 3)),
    ((3, 3), 9, 3, &[&[1], &[2], &[1, -2], &[-1, 3], &[1, 2]], (BALLS, 1, [7, 0, 0, 0], 4)),
    ((3, 3), 9, 5, &[&[-3, -2, 1], &[2, 1, 5, -3, -4], &[5], &[4, -5, 3, 2], &[3]], (BALLS, 1, [20, 0, 0, 0], 3)),
    // it has another unflipped literal, unmet or met, and the first try finds the model or leads to it
    ((3, 3), 9, 3, &[&[1, 2], &[-1, 3]], (BALLS, 1, [5, 0, 0, 0], 3)),
    ((3, 3), 9, 3, &[&[1, 2], &[-1, -3]], (BALLS, 1, [1, 0, 0, 0], 2)),
    // it has the literal itself and not the opposite, or there is one clause for each
    ((2, 2), 9, 2, &[&[1, 2], &[1]], (BALLS, 1, [1, 0, 0, 0], 2)),
    ((3, 3), 9, 3, &[&[3], &[1, 2], &[-3, 1]], (BALLS, 1, [5, 0, 0, 0], 3)),
    ((2, 2), 9, 2, &[&[1, 2], &[1], &[-1]], (BALLS, 2, [0; 4], 2)),
    // there are two such clauses, or the clause taken stands there twice
    ((2, 2), 9, 2, &[&[1, 2], &[-1], &[-1]], (BALLS, 1, [2, 0, 0, 0], 2)),
    ((2, 2), 9, 2, &[&[1, 2], &[1, 2], &[-1]], (BALLS, 1, [2, 0, 0, 0], 2)),
    // 1 is not tried, and it is not flipped either: (1 6 7 8) meets L by it
    ((8, 8), 9, 8, &[&[1, 2], &[-1], &[3, 4, 5], &[1, 6, 7, 8], &[-3, -6]], (BALLS, 1, [42, 0, 0, 0], 4)),
    // which clause is taken is as in paper 6: the first of those that meet a rule, whether it meets both or one and however few
    // literals the others have to try
    ((4, 4), 9, 4, &[&[1, 2], &[3, 4], &[-3], &[-4]], (BALLS, 2, [0; 4], 3)),
    ((3, 3), 9, 3, &[&[1, 2], &[3], &[-1], &[-3]], (BALLS, 2, [0; 4], 2)),
    ((5, 5), 9, 5, &[&[1, 2, 3], &[4, 5], &[-1], &[-4], &[-5]], (BALLS, 2, [0; 4], 3)),
    ((5, 5), 9, 5, &[&[4, 5], &[1, 2, 3], &[-4], &[-1], &[-2], &[-3]], (BALLS, 2, [0; 4], 2)),
    // with one flip, in balls around 0 and 1 or 0 and 7: in the second of them also literals with a minus have lone opposites
    ((2, 1), 9, 2, &[&[1, 2], &[-1]], (BALLS, 1, [2, 0, 0, 0], 2)),
    ((2, 1), 9, 2, &[&[-1, 2], &[1], &[-2], &[1, 2]], (BALLS, 2, [0; 4], 3)),
    ((3, 1), 9, 3, &[&[-1, -2], &[1], &[2, 3]], (BALLS, 1, [5, 0, 0, 0], 4)),
    ((3, 1), 9, 3, &[&[-2, -1], &[1], &[2, 3]], (BALLS, 1, [5, 0, 0, 0], 4)),
    ((3, 1), 9, 3, &[&[-1, -2], &[1], &[2], &[2, 3]], (BALLS, 2, [0; 4], 3)),
];

// Paper 9 of 02: one clause with two positive literals is enough for a sheet to be searched by balls.
const NEARLY: [Worked; 18] = [
    // alone, where the first literal is tried, or with radius 0 the second word found
    ((2, 2), 9, 2, &[&[1, 2]], (BALLS, 1, [1, 0, 0, 0], 2)),
    ((2, 2), 9, 2, &[&[2, 1]], (BALLS, 1, [2, 0, 0, 0], 2)),
    ((2, 2), 1, 2, &[&[1, 2]], (BALLS, 3, [0; 4], 1)),
    ((2, 2), 0, 2, &[&[1, 2]], (BALLS, 3, [0; 4], 0)),
    ((2, 0), 9, 2, &[&[2, 1]], (BALLS, 1, [1, 0, 0, 0], 2)),
    ((3, 3), 9, 3, &[&[-1, 2, 3]], (BALLS, 1, [0; 4], 1)),
    ((3, 3), 9, 3, &[&[3, 2, 1]], (BALLS, 1, [4, 0, 0, 0], 2)),
    ((8, 8), 9, 8, &[&[8, 7, 6, 5, 4, 3, 2, 1]], (BALLS, 1, [128, 0, 0, 0], 2)),
    // the plan decides the count of (1)(-1), which is two rounds
    ((3, 3), 9, 3, &[&[1], &[-1], &[-1, 2, 3]], (BALLS, 2, [0; 4], 1)),
    ((3, 1), 9, 3, &[&[1], &[-1], &[-1, 2, 3]], (BALLS, 2, [0; 4], 2)),
    ((3, 0), 9, 3, &[&[1], &[-1], &[-1, 2, 3]], (BALLS, 2, [0; 4], 8)),
    ((3, 0), 7, 3, &[&[1], &[-1], &[-1, 2, 3]], (BALLS, 3, [0; 4], 7)),
    // beside an empty clause, in one ball and in two
    ((2, 2), 9, 2, &[&[1, 2], &[]], (BALLS, 2, [0; 4], 1)),
    ((2, 1), 9, 2, &[&[], &[1, 2]], (BALLS, 2, [0; 4], 2)),
    // at most one negative literal in each clause is another matter, and so is at least one positive
    ((2, 2), 9, 2, &[&[1, 2], &[-1, 2]], (BALLS, 1, [3, 0, 0, 0], 3)),
    ((2, 2), 9, 2, &[&[1, 2], &[1, -2]], (BALLS, 1, [1, 0, 0, 0], 2)),
    // the marks need not be the least: 1 is paid, and 2 alone would do
    ((2, 2), 9, 2, &[&[1, 2], &[2]], (BALLS, 1, [3, 0, 0, 0], 3)),
    ((3, 3), 9, 3, &[&[2, 1], &[1], &[-2, 3]], (BALLS, 1, [7, 0, 0, 0], 4)),
];

// The library and the run above both give the reply that was worked out by hand.
fn replies(codes: &mut Codes, plan: (u32, u32), budget: u32, bytes: &[u8], worked: Answer) -> bool {
    let (road, verdict, marks, calls) = worked;
    let expected = Reply { verdict, batch: 2, road, marks, calls, number: 0, place: 0 };
    [library_run(plan, budget, bytes), run(codes, plan, budget, bytes).0] == [expected; 2]
}

// That reply with as many calls or rounds as needed, and spent with one fewer.
fn just(codes: &mut Codes, plan: (u32, u32), bytes: &[u8], worked: Answer) -> bool {
    let (road, _, _, calls) = worked;
    replies(codes, plan, calls - 1, bytes, (road, 3, [0; 4], calls - 1)) && replies(codes, plan, calls, bytes, worked)
}

fn counts_agree(codes: &mut Codes) -> bool {
    let mut agrees = |(plan, budget, n, clauses, worked): &Worked| replies(codes, *plan, *budget, &written(*n, clauses), *worked);
    WORKED.iter().chain(&CHOSEN).chain(&SPARED).chain(&NEARLY).all(&mut agrees)
}

// Both ends of each word.
const ENDS: [i32; 8] = [1, 32, 33, 64, 65, 96, 97, 128];
const HELD: [i32; 8] = [-1, -32, -33, -64, -65, -96, -97, -128];
const KEPT: [i32; 8] = [-2, -31, -34, -63, -66, -95, -98, -127];

// Clauses of all lengths that stay true, since nothing flips their variables.
fn kept<'a>(count: usize) -> impl Iterator<Item = &'a [i32]> {
    (0..count).map(|i| &KEPT[..1 + i % 8])
}

// Kept clauses stand before all others, before the last of these, and after it.
fn among(kept_counts: [usize; 3], clauses: &[&[i32]], last: &[i32]) -> Vec<u8> {
    let [before, between, after] = kept_counts.map(kept);
    let all: Vec<&[i32]> = before.chain(clauses.iter().copied()).chain(between).chain([last]).chain(after).collect();
    written(128, &all)
}

// Clauses of one end each, one that is false until 48 or 80 is flipped, and one that holds what the first ones pay: it would die with
// the last of their flips, which are in up to four words, and that one is not tried.
fn dying(length: usize, kept_counts: [usize; 3]) -> Vec<u8> {
    let clauses: Vec<&[i32]> = ENDS[..length].chunks(1).chain([&[48, 80][..]]).collect();
    among(kept_counts, &clauses, &HELD[..length])
}

// Wherever in a sheet of up to 1,024 clauses the first false one and the last one stand, the call before the last flip says no. An
// empty one is dead at the first call. In the last nine rounds one of each length is the last of 1,024.
fn places_agree(codes: &mut Codes) -> bool {
    (0..=1030).all(|round: usize| {
        let length = round % 9;
        let room = 1022 - length;
        let k = round.min(room);
        let sheets = [[0, k, 0], [k, 0, 0], [0, k, room - k]].map(|kept_counts| dying(length, kept_counts));
        let empty = among([0, round.min(1022), 0], &[&[48, 80]], &[]);
        let mut none = |bytes: &[u8], calls| replies(codes, (1, 1), 99, bytes, (BALLS, 2, [0; 4], calls));
        sheets.iter().all(|bytes| none(bytes, length.max(1) as u32)) && none(&empty, 1)
    })
}

// The sheet, and the one with its clauses the other way round.
fn both_ways(bytes: Vec<u8>) -> [Vec<u8>; 2] {
    let mut backward = read(&bytes).expect("a sheet");
    backward.terms.reverse();
    [bytes, write(&backward)]
}

// A clause of three, clauses of one end each, which are flipped first, and one that is then left with the opposite of 48 alone: in
// the clause of three, passed over until then, 80 is tried. The second sheet has the clauses the other way round.
fn lone_at(flips: usize, kept_counts: [usize; 3]) -> [Vec<u8>; 2] {
    let units: Vec<&[i32]> = ENDS[..flips].chunks(1).collect();
    let last = [&HELD[..flips], &[-48]].concat();
    both_ways(among(kept_counts, &[&[&[48, 80, 112][..]], &units[..]].concat(), &last))
}

// Clauses of one end each, a short one, and one that is left with the opposite of 48 alone when the ends are flipped: 80 is tried.
// The other way round the short one is taken first, and 48 is tried unless its opposite is lone from the start: below it the last end
// is not tried, and below 80 all are.
fn spared_at(flips: usize, kept_counts: [usize; 3]) -> [Vec<u8>; 2] {
    let units: Vec<&[i32]> = ENDS[..flips].chunks(1).collect();
    let last = [&HELD[..flips], &[-48]].concat();
    both_ways(among(kept_counts, &[&units[..], &[&[48, 80][..]]].concat(), &last))
}

// The clause of three is passed over for the last one, whose flip leaves the second with the opposite of 48 alone; and for one with
// nothing to try.
fn short_at(kept_counts: [usize; 3]) -> [Vec<u8>; 2] {
    [&[-1, -48][..], &[-1]].map(|second| among(kept_counts, &[&[48, 80, 112], second], &[1]))
}

// Wherever in a sheet of up to 1,024 clauses the one with the lone opposite stands, and the short one, it is seen.
fn choices_agree(codes: &mut Codes) -> bool {
    (0..=1030).all(|round: usize| {
        let flips = round % 8;
        let spots = |room: usize| {
            let k = round.min(room);
            [[0, k, 0], [k, 0, 0], [0, k, room - k]][round % 3]
        };
        let marks = ALONE[..flips].iter().fold(only(80), |marks, alone| marks | join(*alone));
        let clear = |calls: usize| (BALLS, 1, words_of(marks), calls as u32);
        let mut says = |bytes: &[u8], worked| replies(codes, (1, 1), 99, bytes, worked);
        let lone = lone_at(flips, spots(1022 - flips));
        let [forward, backward] = spared_at(flips, spots(1022 - flips));
        let [short, neither] = short_at(spots(1021));
        lone.iter().all(|bytes| says(bytes, clear(flips + 2)))
            && says(&forward, clear(flips + 2))
            && says(&backward, clear(2 * flips + 2))
            && says(&short, (BALLS, 1, [1, 0, 1 << 15, 0], 3))
            && says(&neither, (BALLS, 2, [0; 4], 1))
    })
}

// A sheet of 1,024 clauses, kept ones but for these, each at its place.
fn seated(seats: &[(usize, &[i32])]) -> Vec<u8> {
    let mut clauses: Vec<&[i32]> = kept(1024).collect();
    seats.iter().for_each(|(seat, clause)| clauses[*seat] = clause);
    written(128, &clauses)
}

// At each place among 1,024 clauses the one with the lone opposite is seen, and so is the other, of two literals or of three, where 48
// is then not tried. So are, behind one of three, the short one, whose flip leaves the next with the opposite of 48 alone, and the one
// that meets L, whose flip leaves another with the opposite of 1 alone.
fn seats_agree(codes: &mut Codes) -> bool {
    let mut clear = |seats: &[(usize, &[i32])], marks, calls| replies(codes, (1, 1), 99, &seated(seats), (BALLS, 1, marks, calls));
    (0..1024).all(|seat: usize| {
        let mut lone = |taken: &[i32]| clear(&[(seat, &[-48]), ((seat + 512) % 1024, taken)], [0, 0, 1 << 15, 0], 2);
        lone(&[48, 80]) && lone(&[48, 80, 112])
    }) && (1..1024).all(|seat: usize| {
        let [next, second] = [seat, seat + 1].map(|before| before % 1023 + 1);
        clear(&[(0, &[48, 80, 112]), (seat, &[1]), (next, &[-1, -48])], [1, 0, 1 << 15, 0], 3)
            && clear(&[(0, &[1, 33, 65]), (seat, &[48, 80, 112]), (next, &[-48]), (second, &[-80, -1])], [0, 1, 1 << 15, 0], 3)
    })
}

// However many false clauses are passed over, the short one behind them is taken, whether it has nothing to try or leaves them with
// the lone opposite of 48.
fn passed_agree(codes: &mut Codes) -> bool {
    [1, 2, 255, 256, 1022].iter().all(|k| {
        let mut says = |last: &[i32], worked| {
            let clauses = [vec![&[48, 80, 112][..]; *k], vec![&[1], last]].concat();
            replies(codes, (1, 1), 99, &written(128, &clauses), worked)
        };
        says(&[-1], (BALLS, 2, [0; 4], 1)) && says(&[-1, -48], (BALLS, 1, [1, 0, 1 << 15, 0], 3))
    })
}

// However often a clause is repeated that is true with all its variables flipped, or false with one that is not, it is not dead. The
// first flip makes (1 2) true.
fn repeats_agree(codes: &mut Codes) -> bool {
    (1..=1021).all(|k| {
        let met = [vec![&[1][..]; k], vec![&[2], &[1, 2]]].concat();
        let open = [vec![&[1][..], &[3]], vec![&[-1, 2]; k], vec![&[1, 2]]].concat();
        let mut clear = |clauses: &[&[i32]], paid, calls| {
            replies(codes, (3, 3), u32::MAX, &written(3, clauses), (BALLS, 1, [paid, 0, 0, 0], calls))
        };
        clear(&met, 3, 3) && clear(&open, 7, 4)
    })
}

// ---- fixed cases of paper 5 of 02

// The assignment that pays one of the ends alone, and the set that holds it alone.
const ALONE: [[u32; 4]; 8] = [
    [1, 0, 0, 0],
    [0x8000_0000, 0, 0, 0],
    [0, 1, 0, 0],
    [0, 0x8000_0000, 0, 0],
    [0, 0, 1, 0],
    [0, 0, 0x8000_0000, 0],
    [0, 0, 0, 1],
    [0, 0, 0, 0x8000_0000],
];

// Each operation reads a sheet of up to 128 variables, and refuses the third word of any other.
fn limits_agree(codes: &mut Codes) -> bool {
    let refused = |number, place| TallyReply { number, place };
    (0..=300).chain((9..30).map(|i| 1 << i)).chain([0x3fff_ffff]).all(|n| {
        let (bytes, road) = if n < 2 { (written(n, &[&[]]), HORN) } else { (written(n, &[&[], &[1, 2]]), BALLS) };
        let (number, place) = if n > 128 { (5, 2) } else { (0, 0) };
        let mut lent = lend(([1, 2, 3, 4], &[5], 6));
        let begun = [library_begin(&bytes, &mut lent), library_toggle(&bytes, 1, &mut lent)];
        let toggled = if n == 0 { refused(10, 0) } else { refused(number, place) };
        let mut parked = Checkpoint { batch: 2, n, block_length: 1, radius: 1, next: 0 };
        let leg = library_leg((1, 1), 9, &bytes, &mut parked) == LegReply::of(library_run((1, 1), 9, &bytes));
        let alike = [library_alike(&bytes, &bytes), library_alike(&written(1, &[]), &bytes)];
        let answers = if n > 128 { [(0, 1), (0, 2)] } else { [(1, 0), (2, 0)] };
        let fine = if n > 128 {
            let reply = Reply { number, place, ..Reply::default() };
            let runs = [library_run((1, 1), 9, &bytes), run(codes, (1, 1), 9, &bytes).0];
            lent == lend(([1, 2, 3, 4], &[5], 6)) && runs == [reply; 2] && library_split(9, &bytes) == reply
        } else {
            replies(codes, (1, 1), 9, &bytes, (road, 2, [0; 4], 1)) && by_splitting(&bytes, (2, [0; 4], 1))
        };
        fine && leg
            && parked.next == (2..=128).contains(&n) as u64
            && begun == [refused(number, place), toggled]
            && alike == answers.map(|(answer, sheet)| AlikeReply { answer, sheet, number, place })
    })
}

// A variable is 1 to n, whatever n is, and stands once in a clause, whatever other variables do.
fn variables_agree() -> bool {
    let none = Question { clause: 0, marks: 0, flipped: 0 };
    let says = |n: u32, clause: &[i32], reply: CountsReply| {
        let bytes = written(n, &[clause]);
        [library_counts(&bytes, &none), counts(&read(&bytes), &none)] == [reply; 2]
    };
    let open = |open| CountsReply { open, ..CountsReply::default() };
    let refused = |number, place| CountsReply { number, place, ..CountsReply::default() };
    let single = |n: u32, v: u32| says(n, &[v as i32], if v == 0 || v > n { refused(6, 4) } else { open(1) });
    let double = |u: i32, v: i32| {
        let [both, one] = if u == v { [refused(7, 5); 2] } else { [open(2), CountsReply { met: 1, ..open(1) }] };
        says(128, &[u, v], both) && says(128, &[u, -v], one)
    };
    (0..=128).all(|n| (0..=300).all(|v| single(n, v))) && (1..=128).all(|u| (1..=128).all(|v| double(u, v)))
}

// Plans with one ball, around 0.
const ONE_BALL: [(u32, u32); 3] = [(1, 1), (5, 5), (12, 12)];

// Both literals of each end, alone and together, in a sheet of 128 variables and in one where it is the last; with one variable no
// sheet is for the balls.
fn ends_agree(codes: &mut Codes) -> bool {
    let mut all = |n: u32, plan: (u32, u32), v: i32, alone: [u32; 4]| {
        let mut says = |clauses: &[&[i32]], budget: u32, (verdict, marks, calls)| {
            let bytes = written(n, &[clauses, &[&NOT_HORN]].concat());
            replies(codes, plan, budget, &bytes, (BALLS, verdict, marks, calls))
        };
        says(&[&[v]], 2, (1, alone, 2))
            && says(&[&[v]], 1, (3, [0; 4], 1))
            && says(&[&[-v]], 1, (1, [0; 4], 1))
            && says(&[&[v], &[-v]], 2, (2, [0; 4], 1))
            && says(&[&[-v], &[v]], 2, (2, [0; 4], 1))
            && says(&[&[-v], &[v]], 1, (2, [0; 4], 1))
            && says(&[&[-v], &[v]], 0, (3, [0; 4], 0))
    };
    let mut end = |v: i32, alone| ONE_BALL.iter().all(|p| all(128, *p, v, alone) && (v == 1 || all(v as u32, *p, v, alone)));
    ENDS.iter().zip(ALONE).all(|(v, alone)| end(*v, alone))
}

// No assignment meets the four clauses of two variables next to each other. From each code word they need 3 calls: after one flip the
// other variable is left with both signs.
// The code of length 12 and radius 11 has the words 0 and 1, and the last block, of 8 variables, has one: 2^10 whole words.
fn cores_agree(codes: &mut Codes) -> bool {
    [(32, 33), (64, 65), (96, 97), (127, 128)].iter().all(|(u, v)| {
        let bytes = written(128, &[&[*u, *v], &[*u, -v], &[-u, *v], &[-u, -v]]);
        let mut none = |plan, calls| just(codes, plan, &bytes, (BALLS, 2, [0; 4], calls));
        none((1, 1), 3) && none((12, 12), 3) && none((12, 11), 3072)
    })
}

// The three variables are ends of words. Of (v w), taken at once or after u, v has a lone opposite, or would have it if one variable
// or flip were taken for another.
fn spares_agree(codes: &mut Codes) -> bool {
    let paid = |set: &[i32]| words_of(set.iter().fold(0, |marks, v| marks | only(*v as u32)));
    let mut all = |plan: (u32, u32), [u, v, w]: [i32; 3]| {
        let mut says = |clauses: &[&[i32]], (verdict, marks, calls)| {
            replies(codes, plan, 99, &written(128, clauses), (BALLS, verdict, marks, calls))
        };
        says(&[&[v, w], &[-v]], (1, paid(&[w]), 2))
            && says(&[&[w, v], &[-v], &[-w, 48], &[-w, -48]], (2, [0; 4], 2))
            && says(&[&[v, w], &[-v], &[-w]], (2, [0; 4], 1))
            && says(&[&[v, w], &[-u]], (1, paid(&[v]), 2))
            && says(&[&[u], &[v, w], &[-u, -v]], (1, paid(&[u, w]), 3))
            && says(&[&[u], &[v, w], &[u, -v]], (1, paid(&[u, v]), 3))
            && says(&[&[u], &[v], &[-u, -v], &NOT_HORN], (2, [0; 4], 2))
    };
    let triples = ENDS.iter().flat_map(|u| ENDS.iter().flat_map(move |v| ENDS.iter().map(move |w| [*u, *v, *w])));
    let mut apart = triples.filter(|[u, v, w]| u != v && v != w && w != u);
    apart.all(|ends| ONE_BALL.iter().all(|plan| all(*plan, ends)))
}

// No assignment meets (-u -v)(u)(v). From a word that pays both nothing is tried, and from any other one literal is and after it none.
// Of 4,096 words half pay both where u and v are in one of the first eleven blocks, which have the words 0 and 2,047, a quarter where
// they are in two, and none where one is 128, which the words 0 and 7 of the last block do not pay. All words pay all of 2, 3 and 4, or
// none, so that the last clause is true.
fn holds_agree(codes: &mut Codes) -> bool {
    let block = |v: i32| (v - 1) / 11;
    let mut none = |u: i32, v: i32| {
        let both = match v {
            128 => 0,
            _ if block(u) == block(v) => 2048,
            _ => 1024,
        };
        let bytes = written(128, &[&[-u, -v], &[u], &[v], &NOT_HORN]);
        replies(codes, (11, 5), 9000, &bytes, (BALLS, 2, [0; 4], 2 * 4096 - both))
    };
    ENDS.iter().all(|u| ENDS.iter().filter(|v| *v > u).all(|v| none(*u, *v)))
}

// A clause of up to eight ends, each in one of three ways: flipped and unmet, with a lone opposite, or neither. The clauses of one end
// before it are flipped first, and then it is taken unless it has three or more left and meets no rule. With all its literals flipped
// it would be dead, and the last of the ends is not tried. No assignment meets the last four clauses, which need 3 calls.
fn ways_agree(codes: &mut Codes) -> bool {
    let mut none = |ways: &[u32]| {
        let of = |way: u32, literals: [i32; 8]| -> Vec<i32> {
            literals.into_iter().zip(ways).filter(|(_, w)| **w == way).map(|(l, _)| l).collect()
        };
        let [flips, opposites] = [of(0, ENDS), of(1, HELD)];
        let clause: Vec<i32> = ways.iter().enumerate().map(|(i, way)| if *way == 0 { HELD[i] } else { ENDS[i] }).collect();
        let core: [&[i32]; 4] = [&[48, 80], &[48, -80], &[-48, 80], &[-48, -80]];
        let clauses: Vec<&[i32]> = flips.chunks(1).chain([&clause[..]]).chain(opposites.chunks(1)).chain(core).collect();
        let [gone, spared] = [flips.len(), opposites.len()].map(|count| count as u32);
        let left = ways.len() as u32 - gone;
        let calls = match left {
            0 => gone,
            3.. if spared == 0 => gone + 3,
            _ => gone + 1 + 3 * (left - spared),
        };
        replies(codes, (1, 1), 99, &written(128, &clauses), (BALLS, 2, [0; 4], calls))
    };
    (1..=8).all(|length| {
        (0..3u32.pow(length)).all(|code| none(&(0..length).map(|i| code / 3u32.pow(i) % 3).collect::<Vec<u32>>()))
    })
}

// A sheet of n clauses with one literal each: the assignment is its only model. In a ball that does not hold it there is one path,
// of as many flips as the radius allows. A last clause, with one of these literals and two positive ones, is for the balls alone.
fn forced(n: u32, words: [u32; 4]) -> Vec<u8> {
    let paid = |i: usize| words[i / 32] >> (i % 32) & 1 == 1;
    let literals: Vec<i32> = (0..n as usize).map(|i| if paid(i) { i as i32 + 1 } else { -(i as i32) - 1 }).collect();
    let last = [literals[0], 2, 3];
    written(n, &literals.chunks(1).chain([&last[..]]).collect::<Vec<&[i32]>>())
}

// The plan, the model, the number of balls before the first that holds it, the radius, and how far it is from that word.
type Forced = ((u32, u32), [u32; 4], u32, u32, u32);

const FORCED: [Forced; 9] = [
    // one ball with all variables
    ((12, 12), [u32::MAX; 4], 0, 128, 128),
    // words 0 and 1 in ten blocks, and in the last only 0: all variables are paid, and every word 1 is one flip fewer
    ((12, 11), [u32::MAX; 4], 1023, 118, 118),
    // words 0 and 2,047 in eleven blocks: the third, sixth and ninth lie across the ends of words
    ((11, 5), [u32::MAX; 4], 127, 60, 51),
    // 5 of each block are paid, so that neither word is nearer than 5, and all of one block, where 0 is too far
    ((11, 5), [0xffc0_f81f, 0x0f81_f03f, 0x1f03_e07c, 0xf207_c0f8], 4, 60, 55),
    ((11, 5), [0x07c0_f81f, 0xff81_f03e, 0x1f03_e07f, 0xf207_c0f8], 32, 60, 55),
    ((11, 5), [0x07c0_f81f, 0x0f81_f03e, 0xff03_e07c, 0xf207_c0ff], 256, 60, 55),
    // block 3, variables 25 to 36, has just the second word of two, 7ff, the third of 16, e0f, or the third of 32, 787; nothing is
    // paid before it, and the blocks after it need all flips
    ((12, 6), [0xff00_0000, 0xffff_fff7, 0xffff_ffff, 0x0000_003f], 4, 66, 66),
    ((12, 4), [0x0f00_0000, 0xffff_fffe, 0x0000_ffff, 0x0000_0000], 512, 44, 44),
    ((12, 3), [0x8700_0000, 0xffff_fff7, 0x0000_001f, 0x0000_0000], 2048, 33, 33),
];

fn forced_agree(codes: &mut Codes) -> bool {
    FORCED.iter().all(|(plan, model, before, radius, far)| {
        let bytes = forced(128, *model);
        let calls = before * (radius + 1) + far + 1;
        // the highest budget last, since a search that goes astray would take it all
        just(codes, *plan, &bytes, (BALLS, 1, *model, calls))
            && replies(codes, *plan, u32::MAX, &bytes, (BALLS, 1, *model, calls))
    })
}

// The number of variables, the clause, the assignment, the flipped variables, and how many literals are met and open.
type Standing = (u32, &'static [i32], [u32; 4], [u32; 4], (u32, u32));

const MIXED: [i32; 8] = [1, -32, 33, -64, 65, -96, 97, -128];

const STANDINGS: [Standing; 14] = [
    (128, &ENDS, [0; 4], [0; 4], (0, 8)),
    (128, &ENDS, [u32::MAX; 4], [0; 4], (8, 0)),
    (128, &HELD, [0x8000_0001; 4], [0x8000_0001, 0, 0x8000_0001, 0], (0, 4)),
    (128, &HELD, [0x8000_0001; 4], [0, 0x8000_0001, 0, 0x8000_0000], (0, 5)),
    (128, &MIXED, [0; 4], [0; 4], (4, 4)),
    (128, &MIXED, [0; 4], [0x7fff_fffe; 4], (4, 4)),
    (128, &MIXED, [0x7fff_fffe; 4], [u32::MAX; 4], (4, 0)),
    (128, &MIXED, [1, 0x8000_0000, 0, 0], [0, 0, 1, 0], (4, 3)),
    (128, &MIXED, [0, 0, 1, 0x8000_0000], [0x8000_0000, 1, 0, 0x8000_0000], (4, 2)),
    // bits that belong to no variable: from 98 on, from 34 on, and all
    (97, &[97, -96, 33], [0, 0, 0, 0xffff_fffe], [0, 0, 0, 0xffff_fffe], (1, 2)),
    (97, &[97, -96, 33], [0, 0, 0x8000_0000, u32::MAX], [u32::MAX, 0xffff_fffe, 0x7fff_ffff, 0xffff_fffe], (1, 2)),
    (33, &[33, -1], [0xffff_fffe, 0xffff_fffe, u32::MAX, u32::MAX], [0, 0xffff_fffe, u32::MAX, u32::MAX], (1, 1)),
    (33, &[33, -1], [1, 0, u32::MAX, u32::MAX], [1, 0, 0, 0], (0, 1)),
    (0, &[], [u32::MAX; 4], [u32::MAX; 4], (0, 0)),
];

fn clauses_agree() -> bool {
    let table = STANDINGS.iter().all(|(n, clause, marks, flipped, (met, open))| {
        let bytes = written(*n, &[&[], clause]);
        let asked = Question { clause: 1, marks: join(*marks), flipped: join(*flipped) };
        [library_counts(&bytes, &asked), counts(&read(&bytes), &asked)]
            == [CountsReply { met: *met, open: *open, ..CountsReply::default() }; 2]
    });
    let one = |v: i32, marks: [u32; 4], flipped: [u32; 4]| {
        let reply = library_counts(&written(128, &[&[v]]), &Question { clause: 0, marks: join(marks), flipped: join(flipped) });
        (reply.met, reply.open)
    };
    // the other ends, and all other variables, do not matter
    let but = |set: [u32; 4]| set.map(|word| !word);
    let ends = ENDS.iter().zip(ALONE).all(|(v, alone)| {
        [one(*v, alone, alone), one(*v, but(alone), alone), one(*v, but(alone), but(alone))] == [(1, 0), (0, 0), (0, 1)]
            && [one(-v, alone, alone), one(-v, but(alone), alone), one(-v, alone, but(alone))] == [(0, 0), (1, 0), (0, 1)]
    });
    table && ends
}

// Literals of two variables are two, also at the same place of two words, and so are 127 and 128 variables.
fn pairs_agree() -> bool {
    let literals: Vec<i32> = ENDS.into_iter().chain(HELD).chain(KEPT).collect();
    let says = |a: &[u8], b: &[u8], answer: u32| [library_alike(a, b).answer, alike(a, b).answer] == [answer; 2];
    let pair = |u: i32, v: i32| {
        let [a, b] = [written(128, &[&[u], &[5, u]]), written(128, &[&[v, 5], &[v]])];
        says(&a, &b, if u == v { 1 } else { 2 })
    };
    literals.iter().all(|u| literals.iter().all(|v| pair(*u, *v))) && says(&written(127, &[&[1]]), &written(128, &[&[1]]), 2)
}

// ---- fixed cases of paper 9 of 02

// The verdict that enough rounds, or calls, come to, its marks, and the number of them.
type Ended = (u32, [u32; 4], u32);

// The number of variables, the clauses, and how the rounds end.
type Rounds = (u32, &'static [&'static [i32]], Ended);

const ROUNDS: [Rounds; 84] = [
    // no variable, no clause, and empty clauses alone
    (0, &[], (1, [0; 4], 1)),
    (0, &[&[]], (2, [0; 4], 1)),
    (0, &[&[], &[]], (2, [0; 4], 1)),
    (1, &[], (1, [0; 4], 1)),
    (1, &[&[]], (2, [0; 4], 1)),
    (128, &[], (1, [0; 4], 1)),
    (128, &[&[]], (2, [0; 4], 1)),
    // one clause
    (1, &[&[1]], (1, [1, 0, 0, 0], 2)),
    (1, &[&[-1]], (1, [0; 4], 1)),
    (2, &[&[2]], (1, [2, 0, 0, 0], 2)),
    (2, &[&[-2]], (1, [0; 4], 1)),
    (2, &[&[1, -2]], (1, [0; 4], 1)),
    (2, &[&[-1, 2]], (1, [0; 4], 1)),
    (2, &[&[-1, -2]], (1, [0; 4], 1)),
    (128, &[&[128]], (1, [0, 0, 0, 1 << 31], 2)),
    (128, &[&HELD], (1, [0; 4], 1)),
    // the marked one, both ways round
    (1, &[&[1], &[-1]], (2, [0; 4], 2)),
    (1, &[&[-1], &[1]], (2, [0; 4], 2)),
    // an empty clause is false, and the end when no clause before it is
    (2, &[&[], &[1], &[2]], (2, [0; 4], 1)),
    (2, &[&[1], &[], &[2]], (2, [0; 4], 2)),
    (2, &[&[1], &[2], &[]], (2, [0; 4], 3)),
    (2, &[&[-1], &[], &[2]], (2, [0; 4], 1)),
    (2, &[&[-1], &[2], &[]], (2, [0; 4], 2)),
    (2, &[&[-1, 2], &[1], &[]], (2, [0; 4], 3)),
    (2, &[&[-1, 2], &[], &[1]], (2, [0; 4], 1)),
    // negative clauses alone are true at once
    (3, &[&[-1], &[-1, -2], &[-3, -2, -1]], (1, [0; 4], 1)),
    (128, &[&HELD, &KEPT, &[-128], &[-5, -70]], (1, [0; 4], 1)),
    // facts, a fact that stands twice, and one that stands also in a clause that is true at first
    (2, &[&[1], &[2]], (1, [3, 0, 0, 0], 3)),
    (2, &[&[2], &[1]], (1, [3, 0, 0, 0], 3)),
    (2, &[&[1], &[1], &[1]], (1, [1, 0, 0, 0], 2)),
    (2, &[&[1], &[1, -2]], (1, [1, 0, 0, 0], 2)),
    (2, &[&[1, -2], &[1]], (1, [1, 0, 0, 0], 2)),
    // chains, in several orders, and with the last variable held: none at round n + 1
    (3, &[&[1], &[-1, 2], &[-2, 3]], (1, [7, 0, 0, 0], 4)),
    (3, &[&[-2, 3], &[-1, 2], &[1]], (1, [7, 0, 0, 0], 4)),
    (3, &[&[-1, 2], &[1], &[-2, 3]], (1, [7, 0, 0, 0], 4)),
    (3, &[&[-2, 3], &[1], &[-1, 2]], (1, [7, 0, 0, 0], 4)),
    (3, &[&[3], &[-3, 2], &[-2, 1]], (1, [7, 0, 0, 0], 4)),
    (3, &[&[1], &[-1, 2], &[-2, 3], &[-3]], (2, [0; 4], 4)),
    (3, &[&[-3], &[-2, 3], &[-1, 2], &[1]], (2, [0; 4], 4)),
    // what does not follow is not paid, though it might be: a chain that breaks off, a circle, a clause with one more to pay
    (3, &[&[1], &[-2, 3]], (1, [1, 0, 0, 0], 2)),
    (3, &[&[1], &[-1, -2, 3]], (1, [1, 0, 0, 0], 2)),
    (3, &[&[-1, 2], &[3]], (1, [4, 0, 0, 0], 2)),
    (3, &[&[3], &[-3, -1], &[-2, 1]], (1, [4, 0, 0, 0], 2)),
    (2, &[&[-1, 2], &[-2, 1]], (1, [0; 4], 1)),
    (2, &[&[-1, 2], &[-2, 1], &[2]], (1, [3, 0, 0, 0], 3)),
    // the first false clause decides how many rounds a none takes: three clauses in their six orders
    (2, &[&[1], &[2], &[-1]], (2, [0; 4], 3)),
    (2, &[&[1], &[-1], &[2]], (2, [0; 4], 2)),
    (2, &[&[2], &[1], &[-1]], (2, [0; 4], 3)),
    (2, &[&[2], &[-1], &[1]], (2, [0; 4], 3)),
    (2, &[&[-1], &[1], &[2]], (2, [0; 4], 2)),
    (2, &[&[-1], &[2], &[1]], (2, [0; 4], 3)),
    // of two clauses with no positive literal it is the first false one that ends the rounds
    (2, &[&[-2], &[-1], &[1], &[2]], (2, [0; 4], 2)),
    (2, &[&[-2], &[1], &[-1], &[2]], (2, [0; 4], 2)),
    (2, &[&[-2], &[1], &[2], &[-1]], (2, [0; 4], 3)),
    (2, &[&[-1, -2], &[1], &[2]], (2, [0; 4], 3)),
    (2, &[&[1], &[-1, -2], &[2]], (2, [0; 4], 3)),
    (2, &[&[1], &[2], &[-1, -2]], (2, [0; 4], 3)),
    // it may stand before that of the round before
    (2, &[&[-1, 2], &[1]], (1, [3, 0, 0, 0], 3)),
    (2, &[&[-1, 2], &[1], &[-2]], (2, [0; 4], 3)),
    (3, &[&[-1, 2], &[3], &[1], &[-3]], (2, [0; 4], 4)),
    (3, &[&[-1, 2], &[-3], &[3], &[1]], (2, [0; 4], 2)),
    (3, &[&[-2], &[-1, 2], &[3], &[1]], (2, [0; 4], 4)),
    (4, &[&[-1, 2], &[3], &[1], &[-2, 4], &[-3, -4]], (2, [0; 4], 5)),
    (4, &[&[-3, -1], &[-2, 4], &[-1, 2], &[1], &[3]], (2, [0; 4], 5)),
    (4, &[&[-3, -1], &[3], &[-2, 4], &[-1, 2], &[1]], (2, [0; 4], 3)),
    // a clause that was false and is true again is left alone, whichever clause made it true
    (3, &[&[-1, 2], &[1], &[2], &[-2, 3]], (1, [7, 0, 0, 0], 4)),
    (3, &[&[1], &[3], &[-3, 2], &[-1, 2]], (1, [7, 0, 0, 0], 4)),
    (3, &[&[1], &[2], &[-1, 2], &[-1, 3]], (1, [7, 0, 0, 0], 4)),
    (3, &[&[-1, 3], &[-2, 3], &[1], &[2]], (1, [7, 0, 0, 0], 4)),
    (3, &[&[1], &[2], &[-1, 3], &[-2, 3], &[-3, 2]], (1, [7, 0, 0, 0], 4)),
    // two variables must be paid before the third follows, whose literal stands anywhere
    (3, &[&[-1, -2, 3], &[1], &[2]], (1, [7, 0, 0, 0], 4)),
    (3, &[&[1], &[-1, 3, -2], &[2]], (1, [7, 0, 0, 0], 4)),
    (3, &[&[1], &[2], &[3, -1, -2]], (1, [7, 0, 0, 0], 4)),
    (3, &[&[-1, -2, 3], &[1], &[2], &[-3]], (2, [0; 4], 4)),
    (3, &[&[-1, -2, 3], &[1], &[-3]], (1, [1, 0, 0, 0], 2)),
    // in four words: chains, facts at both ends, and variables at the same place of two words, which are two
    (128, &[&[5], &[40], &[-5, 70], &[-70, 128]], (1, [1 << 4, 1 << 7, 1 << 5, 1 << 31], 5)),
    (128, &[&[1], &[-1, 33], &[-33, 65], &[-65, 97]], (1, [1; 4], 5)),
    (97, &[&[97], &[-97, 65], &[-65, 33], &[-33, 1]], (1, [1; 4], 5)),
    (128, &[&[32], &[-32, 64], &[-64, 96], &[-96, 128]], (1, [1 << 31; 4], 5)),
    (128, &[&[32], &[-32, 64], &[-64, 96], &[-96, 128], &[-32, -128]], (2, [0; 4], 5)),
    (128, &[&[1], &[32], &[33], &[64], &[65], &[96], &[97], &[128]], (1, [0x8000_0001; 4], 9)),
    (128, &[&[1], &[32], &[33], &[64], &[65], &[96], &[97], &[128], &HELD], (2, [0; 4], 9)),
    (128, &[&[16], &[-48], &[80], &[-112]], (1, [1 << 15, 0, 1 << 15, 0], 3)),
    (128, &[&[-16], &[48], &[-80], &[112]], (1, [0, 1 << 15, 0, 1 << 15], 3)),
];

// With as many rounds as the sheet needs, or more, each of the plans gives this answer, and with fewer it gives spent.
fn by_rounds(codes: &mut Codes, plans: &[(u32, u32)], bytes: &[u8], (verdict, marks, rounds): Ended) -> bool {
    let answer = (HORN, verdict, marks, rounds);
    plans.iter().all(|plan| {
        just(codes, *plan, bytes, answer)
            && replies(codes, *plan, 0, bytes, (HORN, 3, [0; 4], 0))
            && [rounds + 1, u32::MAX].iter().all(|budget| replies(codes, *plan, *budget, bytes, answer))
    })
}

// The plan makes no difference, but a bad one is refused, whatever the sheet.
fn rounds_agree(codes: &mut Codes) -> bool {
    let plans = all_plans();
    let bad = [(0, 0), (0, 1), (1, 2), (12, 13), (13, 0), (13, 13), (3, u32::MAX), (u32::MAX, 0), (u32::MAX, u32::MAX)];
    let refused = [Reply { number: 8, ..Reply::default() }; 2];
    ROUNDS.iter().all(|(n, clauses, ended)| {
        let bytes = written(*n, clauses);
        let mut refuses = |plan, budget| [library_run(plan, budget, &bytes), run(codes, plan, budget, &bytes).0] == refused;
        bad.iter().all(|plan| [0, ended.2, u32::MAX].iter().all(|budget| refuses(*plan, *budget)))
            && by_rounds(codes, &plans, &bytes, *ended)
    })
}

// Each variable follows from those before it, up to so many.
fn chain(n: i32, most: i32) -> Vec<Vec<i32>> {
    (1..=n).map(|v| (1.max(v - most)..v).map(|u| -u).chain([v]).collect()).collect()
}

// A chain of n variables takes n + 1 rounds, in either order, and so does a none at its end: there are never more. Eight chains of 128 are
// 1,024 clauses.
fn chains_agree(codes: &mut Codes) -> bool {
    let plans = all_plans();
    (1..=128).all(|n: u32| {
        let mut says = |clauses: &[Vec<i32>], ended| {
            let plan = plans[n as usize % plans.len()];
            both_ways(written_all(n, clauses)).iter().all(|bytes| by_rounds(codes, &[plan], bytes, ended))
        };
        [(1, 1), (7, 1), (7, 8)].into_iter().all(|(most, times)| {
            let mut clauses = vec![chain(n as i32, most); times].concat();
            let clear = says(&clauses, (1, words_of(u128::MAX >> (128 - n)), n + 1));
            clauses.truncate(1023);
            clauses.push(vec![-(n as i32)]);
            clear && says(&clauses, (2, [0; 4], n + 1))
        })
    })
}

// The facts of 128 variables in their order, and among them at any place a clause that holds one: it is false from the round after that
// one is paid, and the first false one when all facts before it are paid too.
fn orders_agree(codes: &mut Codes) -> bool {
    ENDS.iter().all(|v| {
        (0..=128).all(|place: usize| {
            let mut clauses = chain(128, 0);
            clauses.insert(place, vec![-v]);
            by_rounds(codes, &[(1, 1)], &written_all(128, &clauses), (2, [0; 4], 1 + (*v as u32).max(place as u32)))
        })
    })
}

// At each place among 1,024 clauses a fact is seen, an empty clause, what follows from a fact, and what holds it. A clause with two
// positive literals at that place, which is true, makes it a sheet for the balls: the lone opposite of 1 is seen in the first call.
fn roads_agree(codes: &mut Codes) -> bool {
    (0..1024).all(|seat: usize| {
        let [next, far] = [1, 512].map(|on| (seat + on) % 1024);
        let mut says = |seats: &[(usize, &[i32])], (verdict, marks, rounds): Ended| {
            just(codes, (1, 1), &seated(seats), (HORN, verdict, marks, rounds))
        };
        let horn = says(&[(seat, &[1])], (1, [1, 0, 0, 0], 2))
            && says(&[(seat, &[])], (2, [0; 4], 1))
            && says(&[(seat, &[1]), (far, &[-1])], (2, [0; 4], 2))
            && says(&[(seat, &[-1, 33]), (next, &[1]), (far, &[-33])], (2, [0; 4], 3))
            && says(&[(seat, &[1]), (next, &[-1, 128]), (far, &[33, -128, -1])], (1, [1, 1, 0, 1 << 31], 4));
        let balls = seated(&[(seat, &NOT_HORN), (next, &[1]), (far, &[-1])]);
        horn && just(codes, (1, 1), &balls, (BALLS, 2, [0; 4], 1))
    })
}

// The ends of words, up to so many, and the assignment that pays them.
fn ends_but(length: usize, left_out: &[usize]) -> (Vec<Vec<i32>>, [u32; 4]) {
    let some: Vec<usize> = (0..length).filter(|i| !left_out.contains(i)).collect();
    let marks = some.iter().fold(0, |marks, i| marks | join(ALONE[*i]));
    (some.iter().map(|i| vec![ENDS[*i]]).collect(), words_of(marks))
}

// A clause of up to eight ends with a positive literal at one place: what it names follows when all others are paid, and not when one is
// not. With no positive literal it ends the rounds then, and with one at a second place too the sheet is for the balls.
fn heads_agree(codes: &mut Codes) -> bool {
    let mut says = |clauses: &[Vec<i32>], ended| {
        both_ways(written_all(128, clauses)).iter().all(|bytes| by_rounds(codes, &[(5, 2)], bytes, ended))
    };
    let places = (1..=8usize).flat_map(|length| (0..length).map(move |head| (length, head)));
    let horn = places.clone().all(|(length, head)| {
        let rounds = length as u32 + 1;
        let mut clause = HELD[..length].to_vec();
        let (all, marks) = ends_but(length, &[]);
        let none = says(&[all, vec![clause.clone()]].concat(), (2, [0; 4], rounds));
        clause[head] = ENDS[head];
        let (others, _) = ends_but(length, &[head]);
        let missing = (0..length).filter(|i| *i != head).all(|i| {
            let (fewer, paid) = ends_but(length, &[head, i]);
            says(&[fewer, vec![clause.clone()]].concat(), (1, paid, rounds - 2))
        });
        none && missing && says(&[others, vec![clause.clone()]].concat(), (1, marks, rounds))
    });
    horn && places.flat_map(|(length, head)| (0..head).map(move |second| (length, [head, second]))).all(|(length, heads)| {
        let mut clause = HELD[..length].to_vec();
        heads.iter().for_each(|i| clause[*i] = ENDS[*i]);
        just(codes, (1, 1), &written(128, &[&[48], &[-48], &clause]), (BALLS, 2, [0; 4], 1))
    })
}

// Literals of two ends, alone and together, in a sheet of 128 variables and in one where the greater is the last.
fn horn_ends_agree(codes: &mut Codes) -> bool {
    let mut pair = |(u, one): (i32, [u32; 4]), (v, other): (i32, [u32; 4])| {
        let both = words_of(join(one) | join(other));
        [128, u.max(v) as u32].into_iter().all(|n| {
            let mut says = |clauses: &[&[i32]], ended| by_rounds(codes, &ONE_BALL, &written(n, clauses), ended);
            says(&[&[u]], (1, one, 2))
                && says(&[&[-u]], (1, [0; 4], 1))
                && says(&[&[u], &[-u]], (2, [0; 4], 2))
                && says(&[&[-u], &[u]], (2, [0; 4], 2))
                && (u == v
                    || says(&[&[u], &[-v]], (1, one, 2))
                        && says(&[&[u], &[v]], (1, both, 3))
                        && says(&[&[v, -u], &[u]], (1, both, 3))
                        && says(&[&[-u, v], &[u], &[-v]], (2, [0; 4], 3)))
        })
    };
    let ends = || ENDS.into_iter().zip(ALONE);
    ends().all(|first| ends().all(|second| pair(first, second)))
}

// ---- fixed cases of paper 10 of 02

// The number of variables, the clauses, and how splitting ends.
type Split = (u32, &'static [&'static [i32]], Ended);

const SPLITS: [Split; 72] = [
    // no variable, no clause, and empty clauses, alone and among others
    (0, &[], (1, [0; 4], 1)),
    (0, &[&[]], (2, [0; 4], 1)),
    (0, &[&[], &[]], (2, [0; 4], 1)),
    (1, &[], (1, [0; 4], 1)),
    (1, &[&[]], (2, [0; 4], 1)),
    (1, &[&[], &[1]], (2, [0; 4], 1)),
    (1, &[&[1], &[]], (2, [0; 4], 1)),
    (2, &[&[-1], &[], &[2]], (2, [0; 4], 1)),
    (2, &[&[1, 2], &[-1, -2], &[]], (2, [0; 4], 1)),
    (128, &[], (1, [0; 4], 1)),
    (128, &[&[]], (2, [0; 4], 1)),
    (128, &[&HELD, &[], &ENDS], (2, [0; 4], 1)),
    // the settled examples of paper 01, and those of papers 4 and 9
    (3, &[&[1, 2], &[-1, -3], &[-3]], (1, [2, 0, 0, 0], 5)),
    (1, &[&[1], &[-1]], (2, [0; 4], 3)),
    (1, &[&[-1], &[1]], (2, [0; 4], 3)),
    (2, &[&[1, 2], &[1, -2], &[-1, 2], &[-1, -2]], (2, [0; 4], 7)),
    (3, &[&[1], &[2, 3], &[-1]], (2, [0; 4], 3)),
    (3, &[&[2, 3], &[-1], &[1]], (2, [0; 4], 3)),
    // the examples of the sources
    (3, &[&[1, -2], &[1, 2, 3]], (1, [4, 0, 0, 0], 5)),
    (3, &[&[1], &[-1, 2], &[-2, 3], &[-3]], (2, [0; 4], 7)),
    (4, &[&[1], &[-1, -2], &[3, 2], &[-3, 2, -4, 1]], (1, [5, 0, 0, 0], 6)),
    (4, &[&[1, 2, 3], &[-1, 2, -4]], (1, [4, 0, 0, 0], 5)),
    // one clause: it is met by the first variable that it holds, or else by the last
    (1, &[&[1]], (1, [1, 0, 0, 0], 3)),
    (1, &[&[-1]], (1, [0; 4], 2)),
    (2, &[&[1]], (1, [1, 0, 0, 0], 3)),
    (2, &[&[-1]], (1, [0; 4], 2)),
    (2, &[&[1, 2]], (1, [2, 0, 0, 0], 4)),
    (2, &[&[2, 1]], (1, [2, 0, 0, 0], 4)),
    (2, &[&[1, -2]], (1, [0; 4], 3)),
    (2, &[&[-1, 2]], (1, [0; 4], 2)),
    (2, &[&[-1, -2]], (1, [0; 4], 2)),
    (3, &[&[1, 2, 3]], (1, [4, 0, 0, 0], 5)),
    (3, &[&[3, -2, 1]], (1, [0; 4], 3)),
    (128, &[&ENDS], (1, [0, 0, 0, 1 << 31], 130)),
    (128, &[&HELD], (1, [0; 4], 2)),
    (128, &[&MIXED], (1, [0; 4], 33)),
    // met by what is not set, a clause goes on: all marks 0 would meet these at once
    (2, &[&[-2]], (1, [0; 4], 3)),
    (3, &[&[-3], &[-2]], (1, [0; 4], 4)),
    (3, &[&[-3, -2]], (1, [0; 4], 3)),
    (3, &[&[1, -3]], (1, [0; 4], 4)),
    (128, &[&[-128]], (1, [0; 4], 129)),
    // false, but with a variable that is not set, a clause goes on
    (2, &[&[2]], (1, [2, 0, 0, 0], 4)),
    (3, &[&[1, 3]], (1, [4, 0, 0, 0], 5)),
    (3, &[&[3, 1], &[2, 3]], (1, [4, 0, 0, 0], 5)),
    (128, &[&[128]], (1, [0, 0, 0, 1 << 31], 130)),
    // two clauses, and the second value of a variable where the first fails at once, or below it
    (2, &[&[1], &[2]], (1, [3, 0, 0, 0], 5)),
    (2, &[&[2], &[1]], (1, [3, 0, 0, 0], 5)),
    (2, &[&[1], &[-2]], (1, [1, 0, 0, 0], 4)),
    (2, &[&[-1], &[2]], (1, [2, 0, 0, 0], 4)),
    (2, &[&[-1], &[-2]], (1, [0; 4], 3)),
    (2, &[&[1, 2], &[1, -2]], (1, [1, 0, 0, 0], 5)),
    (2, &[&[1, 2], &[-2]], (1, [1, 0, 0, 0], 6)),
    (2, &[&[1, 2], &[-1]], (1, [2, 0, 0, 0], 4)),
    (2, &[&[1, 2], &[-1, -2]], (1, [2, 0, 0, 0], 4)),
    (2, &[&[1, -2], &[-1, 2]], (1, [0; 4], 3)),
    (2, &[&[1, 2], &[1, -2], &[-1, 2]], (1, [3, 0, 0, 0], 7)),
    (2, &[&[1, 2], &[1, -2], &[-1, -2]], (1, [1, 0, 0, 0], 6)),
    // no model
    (2, &[&[1], &[-1]], (2, [0; 4], 3)),
    (2, &[&[2], &[-2]], (2, [0; 4], 7)),
    (2, &[&[2], &[-2], &[1]], (2, [0; 4], 5)),
    (2, &[&[2], &[-2], &[-1]], (2, [0; 4], 5)),
    (3, &[&[3], &[-3]], (2, [0; 4], 15)),
    (3, &[&[-3], &[2], &[3], &[1]], (2, [0; 4], 7)),
    // after a branch that failed, clauses that it met are open again
    (3, &[&[3], &[2], &[1]], (1, [7, 0, 0, 0], 7)),
    (3, &[&[1, 3], &[-3]], (1, [1, 0, 0, 0], 11)),
    (3, &[&[1, 2], &[-2, 3], &[-3]], (1, [1, 0, 0, 0], 9)),
    (3, &[&[1, 2], &[1, 3], &[-2, -3]], (1, [1, 0, 0, 0], 8)),
    (3, &[&[3], &[-3, 2], &[-2, 1]], (1, [7, 0, 0, 0], 13)),
    // in four words: each variable that is paid was tried as 0 first
    (128, &[&[5], &[40], &[-5, 70], &[-70, 128]], (1, [1 << 4, 1 << 7, 1 << 5, 1 << 31], 133)),
    (128, &[&[1], &[-1, 33], &[-33, 65], &[-65, 97]], (1, [1; 4], 102)),
    (128, &[&[32], &[-32, 64], &[-64, 96], &[-96, 128]], (1, [1 << 31; 4], 133)),
    (128, &[&[1, 32], &[33, 64], &[65, 96], &[97, 128]], (1, [1 << 31; 4], 133)),
];

// The reply with this budget where splitting ends so.
fn splits_to(bytes: &[u8], (verdict, marks, calls): Ended, budgets: impl IntoIterator<Item = u32>) -> bool {
    let sheet = read(bytes);
    let whole = sheet.as_ref().ok().and_then(|sheet| splitting(sheet, calls as u64 + 1));
    budgets.into_iter().all(|budget| {
        let (verdict, marks) = if budget < calls { (3, [0; 4]) } else { (verdict, marks) };
        let expected = Reply { verdict, batch: 2, marks, calls: calls.min(budget), ..Reply::default() };
        [library_split(budget, bytes), split_reply(&sheet, whole, budget)] == [expected; 2]
    })
}

// With as many calls as needed, or more, this is the answer, and with fewer spent: every budget is tried where they are few. The
// highest is the last, since a search that goes astray would take it all.
fn by_splitting(bytes: &[u8], ended: Ended) -> bool {
    let calls = ended.2;
    let few = if calls <= 20 { calls } else { 2 };
    splits_to(bytes, ended, (0..few).chain([calls / 2, calls - 1, calls, calls + 1, u32::MAX]))
}

fn just_splits(bytes: &[u8], ended: Ended) -> bool {
    splits_to(bytes, ended, [ended.2 - 1, ended.2])
}

fn splits_agree() -> bool {
    SPLITS.iter().all(|(n, clauses, ended)| {
        let bytes = written(*n, clauses);
        let counted = |sheet: Sheet| sheet.n > 8 || beginnings(&sheet) == ended.2 as u64;
        both_ways(bytes.clone()).iter().all(|bytes| by_splitting(bytes, *ended)) && read(&bytes).is_ok_and(counted)
    })
}

// More calls are needed than any budget here.
fn spends(bytes: &[u8]) -> bool {
    splits_to(bytes, (3, [0; 4], 5001), [0, 1, 2, 100, 5000])
}

// Either literal of each variable, and both, in a sheet where it is the last and in others. With both, every call goes on until
// it is set: there are 2^(v+1) - 1, and where it is the last there cannot be more.
fn literals_agree() -> bool {
    (1..=128u32).all(|v| {
        let l = v as i32;
        [v, 128.min(v + 1), 128].into_iter().all(|n| {
            let both = both_ways(written(n, &[&[l], &[-l]]));
            by_splitting(&written(n, &[&[l]]), (1, words_of(only(v)), v + 2))
                && by_splitting(&written(n, &[&[-l]]), (1, [0; 4], v + 1))
                && both.iter().all(|bytes| if v <= 16 { by_splitting(bytes, (2, [0; 4], (2 << v) - 1)) } else { spends(bytes) })
        })
    })
}

// Literals of two ends, in one clause or in two, in a sheet where the greater is the last and in one of 128 variables. The first
// model pays the greater one where either would do.
fn split_ends_agree() -> bool {
    let pair = |(u, one): (i32, [u32; 4]), (v, other): (i32, [u32; 4])| {
        let both = words_of(join(one) | join(other));
        let [first, last] = [u as u32, v as u32];
        [last, 128].into_iter().all(|n| {
            let says = |clauses: &[&[i32]], marks, calls| {
                both_ways(written(n, clauses)).iter().all(|bytes| by_splitting(bytes, (1, marks, calls)))
            };
            says(&[&[u, v]], other, last + 2)
                && says(&[&[v, u]], other, last + 2)
                && says(&[&[-u, v]], [0; 4], first + 1)
                && says(&[&[v, -u]], [0; 4], first + 1)
                && says(&[&[u, -v]], [0; 4], last + 1)
                && says(&[&[-v, u]], [0; 4], last + 1)
                && says(&[&[u], &[v]], both, last + 3)
                && says(&[&[u], &[v, -u]], both, last + 3)
                && says(&[&[u], &[-v]], one, last + 2)
                && says(&[&[-u], &[v]], other, last + 2)
                && says(&[&[-u], &[-v]], [0; 4], last + 1)
                && (last > first + 1 || says(&[&[u, v], &[u, -v]], one, first + 4))
        })
    };
    let ends = || ENDS.into_iter().zip(ALONE);
    ends().all(|first| ends().filter(|second| second.0 > first.0).all(|second| pair(first, second)))
}

// A clause of up to eight ends, with either sign each and in many orders: the first variable that it holds meets it, or else the
// last one, wherever that stands.
fn split_orders_agree() -> bool {
    (1..=8usize).all(|length| {
        (0..1usize << length).all(|signs| {
            let mut clause: Vec<i32> = (0..length).map(|i| if signs >> i & 1 == 1 { HELD[i] } else { ENDS[i] }).collect();
            let ended = match signs.trailing_zeros() as usize {
                held if held < length => (1, [0; 4], ENDS[held] as u32 + 1),
                _ => (1, ALONE[length - 1], ENDS[length - 1] as u32 + 2),
            };
            (0..2 * length).all(|turn| {
                clause.rotate_left(1);
                if turn == length {
                    clause.reverse();
                }
                just_splits(&written(128, &[&clause]), ended)
            })
        })
    })
}

// A sheet of 1,024 clauses with these at their places. All others are met once variable 1 is 0, and some are lost once it is 1.
fn early(seats: &[(usize, &[i32])]) -> Vec<u8> {
    let turned = |i: usize| {
        let mut clause = term_of(&HELD[..1 + i % 8]);
        clause.rotate_left(i / 8 % (1 + i % 8));
        clause
    };
    let mut terms: Vec<_> = (0..1024).map(turned).collect();
    seats.iter().for_each(|(seat, clause)| terms[*seat] = term_of(clause));
    write(&Sheet { batch: 2, n: 128, terms })
}

// At each place among 1,024 clauses the one that is not met yet is seen, and the one that is lost.
fn split_seats_agree() -> bool {
    (0..1024).all(|seat: usize| {
        let [next, far] = [1, 512].map(|on| (seat + on) % 1024);
        let end = 1 + seat % 7;
        let says = |seats: &[(usize, &[i32])], ended| just_splits(&early(seats), ended);
        says(&[(seat, &[])], (2, [0; 4], 1))
            && says(&[(seat, &[1])], (2, [0; 4], 3))
            && says(&[(seat, &[-2])], (1, [0; 4], 3))
            && says(&[(seat, &[2])], (1, [2, 0, 0, 0], 4))
            && says(&[(seat, &[2]), (far, &[-2])], (2, [0; 4], 5))
            && says(&[(seat, &[3, 2]), (next, &[-2, 3])], (1, [4, 0, 0, 0], 5))
            && says(&[(seat, &[3, 2]), (next, &[-2, 3]), (far, &[-3])], (2, [0; 4], 9))
            && says(&[(seat, &ENDS[end..=end])], (1, ALONE[end], ENDS[end] as u32 + 2))
    })
}

// However often a clause stands there, nothing changes.
fn split_repeats_agree() -> bool {
    (1..=1023).all(|k| {
        let says = |clause: &[i32], other: &[i32], ended| {
            let clauses = [vec![clause; k], vec![other]].concat();
            both_ways(written(2, &clauses)).iter().all(|bytes| just_splits(bytes, ended))
        };
        says(&[2], &[2], (1, [2, 0, 0, 0], 4)) && says(&[1, 2], &[-2], (1, [1, 0, 0, 0], 6)) && says(&[2], &[-2], (2, [0; 4], 7))
    })
}

// Each variable follows from those before it: both values are tried, the first in vain, and where the last is held both.
fn split_chains_agree() -> bool {
    (1..=128u32).all(|n| {
        let says = |clauses: &[Vec<i32>], ended| both_ways(written_all(n, clauses)).iter().all(|bytes| just_splits(bytes, ended));
        [(1, 1), (7, 1), (7, 8)].into_iter().all(|(most, times)| {
            let mut clauses = vec![chain(n as i32, most); times].concat();
            let clear = says(&clauses, (1, words_of(u128::MAX >> (128 - n)), 2 * n + 1));
            clauses.truncate(1023);
            clauses.push(vec![-(n as i32)]);
            clear && says(&clauses, (2, [0; 4], 2 * n + 1))
        })
    })
}

// Some variables are free, at most eight, and a clause of one literal sets each other one as the model does. Against each
// assignment of the free ones stands a clause, but for the one that is spared: the number of it in their order.
fn framed(n: u32, free: &[u32], model: u128, spared: Option<u32>) -> Vec<Vec<i32>> {
    let literal = |v: u32, paid: bool| if paid { v as i32 } else { -(v as i32) };
    let bit = |code: u32, i: usize| code >> (free.len() - 1 - i) & 1 == 1;
    let against = |code: u32| free.iter().enumerate().map(|(i, v)| literal(*v, !bit(code, i))).collect();
    let set = (1..=n).filter(|v| !free.contains(v)).map(|v| vec![literal(v, has(model, v))]);
    set.chain((0..1 << free.len()).filter(|code| Some(*code) != spared).map(against)).collect()
}

// The calls that it needs. All that have set as many variables are counted at once: from each that goes on, both values are
// tried, but from the one that leads to the spared assignment none after the value that leads there.
fn framed_calls(n: u32, free: &[u32], model: u128, spared: Option<u32>) -> u32 {
    let count = free.len() as u32;
    let mut before = 0;
    let mut calls = 1;
    for v in 1..=n {
        let going = match spared {
            Some(_) if before == count => 1,
            Some(code) => (code >> (count - before)) + 1,
            None if before == count => 0,
            None => 1 << before,
        };
        let is_free = free.contains(&v);
        before += is_free as u32;
        calls += match spared {
            Some(code) if is_free => (code >> (count - before)) + 1,
            Some(_) if !has(model, v) => 2 * going - 1,
            _ => 2 * going,
        };
    }
    calls
}

fn framed_ends(n: u32, free: &[u32], model: u128, spared: Option<u32>) -> Ended {
    let calls = framed_calls(n, free, model, spared);
    let Some(code) = spared else {
        return (2, [0; 4], calls);
    };
    let set = (1..=n).filter(|v| !free.contains(v) && has(model, *v)).fold(0, |marks, v| marks | only(v));
    let paid = |i: &usize| code >> (free.len() - 1 - i) & 1 == 1;
    (1, words_of((0..free.len()).filter(paid).fold(set, |marks, i| marks | only(free[i]))), calls)
}

// The free variables, and the step from one spared assignment of them to the next.
const FRAMES: [(&[u32], usize); 14] = [
    (&[], 1),
    (&[1], 1),
    (&[128], 1),
    (&[1, 2], 1),
    (&[32, 33], 1),
    (&[64, 65], 1),
    (&[96, 97], 1),
    (&[127, 128], 1),
    (&[1, 128], 1),
    (&[31, 64, 97], 1),
    (&[32, 33, 64, 65, 96, 97], 9),
    (&[60, 61, 62, 63, 64, 65, 66, 67], 23),
    (&[121, 122, 123, 124, 125, 126, 127, 128], 51),
    (&[1, 32, 33, 64, 65, 96, 97, 128], 85),
];

// The search comes back over many variables, in one word and across two, before it ends.
fn frames_agree() -> bool {
    let models = [0, u128::MAX, u128::MAX / 3, 0x0123_4567_89ab_cdef_1357_9bdf_0246_8ace];
    let says = |n: u32, free: &[u32], model: u128, spared| {
        let ended = framed_ends(n, free, model, spared);
        both_ways(written_all(n, &framed(n, free, model, spared))).iter().all(|bytes| just_splits(bytes, ended))
    };
    FRAMES.iter().all(|(free, step)| {
        let last = free.last().map_or(1, |v| *v);
        let mut spared = (0..1 << free.len()).step_by(*step).map(Some).chain([None]);
        spared.all(|spared| models.iter().all(|model| says(last, free, *model, spared) && says(128, free, *model, spared)))
    })
}

// Eight free variables, and four clauses against each assignment of them: where none is spared it is the longest sheet there is.
fn full_agree() -> bool {
    let free = [1, 2, 3, 4, 5, 6, 7, 8];
    (0..256).step_by(5).map(Some).chain([None]).all(|spared| {
        let mut clauses = vec![framed(8, &free, 0, spared); 4].concat();
        clauses.iter_mut().enumerate().for_each(|(i, clause)| clause.rotate_left(i % 8));
        just_splits(&written_all(128, &clauses), framed_ends(8, &free, 0, spared))
    })
}

// ---- fixed cases of paper 11 of 02

// The plan, the budget, the number of variables, the clauses, the next ball, how the leg ends, and the next ball after it.
type Leg = ((u32, u32), u32, u32, &'static [&'static [i32]], u64, Ended, u64);

const FOUR: [&[i32]; 4] = [&[1, 2], &[1, -2], &[-1, 2], &[-1, -2]];
const CORE: [&[i32]; 4] = [&[64, 65], &[64, -65], &[-64, 65], &[-64, -65]];

// The last of 2^62 balls, and one more.
const LAST: u64 = (1 << 62) - 1;
const ALL: u64 = 1 << 62;

const LEGS: [Leg; 78] = [
    // two balls of three calls: what a ball needs is enough for it, and what is left over after it counts for nothing
    ((2, 1), 0, 2, &FOUR, 0, (3, [0; 4], 0), 0),
    ((2, 1), 1, 2, &FOUR, 0, (3, [0; 4], 0), 0),
    ((2, 1), 2, 2, &FOUR, 0, (3, [0; 4], 0), 0),
    ((2, 1), 3, 2, &FOUR, 0, (3, [0; 4], 3), 1),
    ((2, 1), 4, 2, &FOUR, 0, (3, [0; 4], 3), 1),
    ((2, 1), 5, 2, &FOUR, 0, (3, [0; 4], 3), 1),
    ((2, 1), 6, 2, &FOUR, 0, (2, [0; 4], 6), 2),
    ((2, 1), 7, 2, &FOUR, 0, (2, [0; 4], 6), 2),
    ((2, 1), u32::MAX, 2, &FOUR, 0, (2, [0; 4], 6), 2),
    ((2, 1), 0, 2, &FOUR, 1, (3, [0; 4], 0), 1),
    ((2, 1), 2, 2, &FOUR, 1, (3, [0; 4], 0), 1),
    ((2, 1), 3, 2, &FOUR, 1, (2, [0; 4], 3), 2),
    ((2, 1), 4, 2, &FOUR, 1, (2, [0; 4], 3), 2),
    ((2, 1), u32::MAX, 2, &FOUR, 1, (2, [0; 4], 3), 2),
    // one ball is one leg
    ((2, 2), 0, 2, &FOUR, 0, (3, [0; 4], 0), 0),
    ((2, 2), 2, 2, &FOUR, 0, (3, [0; 4], 0), 0),
    ((2, 2), 3, 2, &FOUR, 0, (2, [0; 4], 3), 1),
    ((2, 2), 4, 2, &FOUR, 0, (2, [0; 4], 3), 1),
    ((1, 1), 2, 2, &FOUR, 0, (3, [0; 4], 0), 0),
    ((1, 1), 3, 2, &FOUR, 0, (2, [0; 4], 3), 1),
    // four balls of one call, in one block or in two
    ((2, 0), 0, 2, &FOUR, 0, (3, [0; 4], 0), 0),
    ((2, 0), 1, 2, &FOUR, 0, (3, [0; 4], 1), 1),
    ((2, 0), 3, 2, &FOUR, 0, (3, [0; 4], 3), 3),
    ((2, 0), 4, 2, &FOUR, 0, (2, [0; 4], 4), 4),
    ((1, 0), 1, 2, &FOUR, 2, (3, [0; 4], 1), 3),
    ((1, 0), 2, 2, &FOUR, 2, (2, [0; 4], 2), 4),
    ((1, 0), 1, 2, &FOUR, 3, (2, [0; 4], 1), 4),
    ((1, 0), 0, 2, &FOUR, 3, (3, [0; 4], 0), 3),
    // found in the first of two balls; from the second it is another model
    ((3, 1), 0, 3, &[&[1, 2], &[-1, -3], &[-3]], 0, (3, [0; 4], 0), 0),
    ((3, 1), 1, 3, &[&[1, 2], &[-1, -3], &[-3]], 0, (3, [0; 4], 0), 0),
    ((3, 1), 2, 3, &[&[1, 2], &[-1, -3], &[-3]], 0, (1, [1, 0, 0, 0], 2), 2),
    ((3, 1), u32::MAX, 3, &[&[1, 2], &[-1, -3], &[-3]], 0, (1, [1, 0, 0, 0], 2), 2),
    ((3, 1), 2, 3, &[&[1, 2], &[-1, -3], &[-3]], 1, (3, [0; 4], 0), 1),
    ((3, 1), 3, 3, &[&[1, 2], &[-1, -3], &[-3]], 1, (1, [3, 0, 0, 0], 3), 2),
    // balls of one call and of three
    ((3, 2), 1, 3, &[&[1], &[2, 3], &[-1]], 0, (3, [0; 4], 1), 1),
    ((3, 2), 3, 3, &[&[1], &[2, 3], &[-1]], 0, (3, [0; 4], 1), 1),
    ((3, 2), 4, 3, &[&[1], &[2, 3], &[-1]], 0, (2, [0; 4], 4), 2),
    ((3, 2), 2, 3, &[&[1], &[2, 3], &[-1]], 1, (3, [0; 4], 0), 1),
    ((3, 2), 3, 3, &[&[1], &[2, 3], &[-1]], 1, (2, [0; 4], 3), 2),
    // past the only model, 3, a none says nothing of it
    ((1, 0), 3, 3, &[&[1], &[2], &[-3], &[1, 2]], 0, (3, [0; 4], 3), 3),
    ((1, 0), 4, 3, &[&[1], &[2], &[-3], &[1, 2]], 0, (1, [3, 0, 0, 0], 4), 8),
    ((1, 0), 1, 3, &[&[1], &[2], &[-3], &[1, 2]], 3, (1, [3, 0, 0, 0], 1), 8),
    ((1, 0), 3, 3, &[&[1], &[2], &[-3], &[1, 2]], 4, (3, [0; 4], 3), 7),
    ((1, 0), 4, 3, &[&[1], &[2], &[-3], &[1, 2]], 4, (2, [0; 4], 4), 8),
    ((1, 0), 1, 3, &[&[1], &[2], &[-3], &[1, 2]], 7, (2, [0; 4], 1), 8),
    // a shorter last block, of two words and of one
    ((3, 1), 3, 5, &[&[1, 2], &[]], 0, (3, [0; 4], 3), 3),
    ((3, 1), 4, 5, &[&[1, 2], &[]], 0, (2, [0; 4], 4), 4),
    ((3, 1), 1, 5, &[&[1, 2], &[]], 3, (2, [0; 4], 1), 4),
    ((3, 1), 2, 4, &[&[1, 2], &[]], 0, (2, [0; 4], 2), 2),
    ((3, 1), 1, 4, &[&[1, 2], &[]], 0, (3, [0; 4], 1), 1),
    // 1,024 balls of three calls, in 128 variables
    ((12, 11), 3000, 128, &CORE, 0, (3, [0; 4], 3000), 1000),
    ((12, 11), 3002, 128, &CORE, 0, (3, [0; 4], 3000), 1000),
    ((12, 11), 3071, 128, &CORE, 0, (3, [0; 4], 3069), 1023),
    ((12, 11), 3072, 128, &CORE, 0, (2, [0; 4], 3072), 1024),
    ((12, 11), 71, 128, &CORE, 1000, (3, [0; 4], 69), 1023),
    ((12, 11), 72, 128, &CORE, 1000, (2, [0; 4], 72), 1024),
    // a ball for each assignment of 62 variables, in their order as numbers
    ((1, 0), 0, 62, &FOUR, LAST, (3, [0; 4], 0), LAST),
    ((1, 0), 1, 62, &FOUR, LAST, (2, [0; 4], 1), ALL),
    ((1, 0), 9, 62, &FOUR, LAST, (2, [0; 4], 1), ALL),
    ((1, 0), 2, 62, &FOUR, LAST - 2, (3, [0; 4], 2), LAST),
    ((1, 0), 3, 62, &FOUR, LAST - 2, (2, [0; 4], 3), ALL),
    ((1, 0), 0, 62, &[&[1], &[2], &[3, 62]], LAST - 3, (3, [0; 4], 0), LAST - 3),
    ((1, 0), 1, 62, &[&[1], &[2], &[3, 62]], LAST - 3, (3, [0; 4], 1), LAST - 2),
    ((1, 0), 3, 62, &[&[1], &[2], &[3, 62]], LAST - 3, (3, [0; 4], 3), LAST),
    ((1, 0), 4, 62, &[&[1], &[2], &[3, 62]], LAST - 3, (1, [u32::MAX, 0x3fff_ffff, 0, 0], 4), ALL),
    ((1, 0), 3, 62, &[&[1], &[2], &[3, 62]], LAST - 7, (3, [0; 4], 3), LAST - 4),
    ((1, 0), 9, 62, &[&[1], &[2], &[3, 62]], LAST - 7, (1, [0xffff_fffb, 0x3fff_ffff, 0, 0], 4), ALL),
    ((1, 0), 2, 62, &[&[33], &[3, 62]], (1 << 32) - 2, (3, [0; 4], 2), 1 << 32),
    ((1, 0), 6, 62, &[&[33], &[3, 62]], (1 << 32) - 2, (3, [0; 4], 6), (1 << 32) + 4),
    ((1, 0), 7, 62, &[&[33], &[3, 62]], (1 << 32) - 2, (1, [4, 1, 0, 0], 7), ALL),
    ((7, 0), 6, 62, &[&[33], &[3, 62]], (1 << 32) - 2, (3, [0; 4], 6), (1 << 32) + 4),
    ((7, 0), 7, 62, &[&[33], &[3, 62]], (1 << 32) - 2, (1, [4, 1, 0, 0], 7), ALL),
    // the words 0 and 1 in 62 blocks, and one word in the last, of one variable
    ((2, 1), 2, 125, &FOUR, LAST, (3, [0; 4], 0), LAST),
    ((2, 1), 3, 125, &FOUR, LAST, (2, [0; 4], 3), ALL),
    ((2, 1), 8, 125, &FOUR, LAST - 2, (3, [0; 4], 6), LAST),
    ((2, 1), 9, 125, &FOUR, LAST - 2, (2, [0; 4], 9), ALL),
    ((2, 1), 1, 125, &[&[123], &[124, 125]], LAST, (3, [0; 4], 0), LAST),
    ((2, 1), 2, 125, &[&[123], &[124, 125]], LAST, (1, [0x5555_5555, 0x5555_5555, 0x5555_5555, 0x0d55_5555], 2), ALL),
];

// The library and the leg above both give this reply, and leave the second of the records.
fn legs_to(codes: &mut Codes, asked: ((u32, u32), u32), bytes: &[u8], records: [Checkpoint; 2], expected: LegReply) -> bool {
    let (plan, budget) = asked;
    let [mut got, mut own] = [records[0]; 2];
    let replies = [library_leg(plan, budget, bytes, &mut got), leg(codes, plan, budget, bytes, &mut own)];
    replies == [expected; 2] && [got, own] == [records[1]; 2]
}

// By balls, from the one to the other, in the record of the sheet.
fn leg_ends(codes: &mut Codes, asked: ((u32, u32), u32), bytes: &[u8], balls: [u64; 2], ended: Ended) -> bool {
    let (verdict, marks, calls) = ended;
    read(bytes).is_ok_and(|sheet| {
        let records = balls.map(|next| Checkpoint::of(asked.0, &sheet, next));
        let expected = Reply { verdict, batch: sheet.batch, road: BALLS, marks, calls, ..Reply::default() };
        legs_to(codes, asked, bytes, records, LegReply::of(expected))
    })
}

fn legs_agree(codes: &mut Codes) -> bool {
    LEGS.iter().all(|(plan, budget, n, clauses, next, ended, later)| {
        leg_ends(codes, (*plan, *budget), &written(*n, clauses), [*next, *later], *ended)
    })
}

// The plan, the number of variables, the clauses, and for each ball the calls that it needs and the model that it finds.
type Balls = ((u32, u32), u32, &'static [&'static [i32]], &'static [(u32, Option<u32>)]);

const EACH: [Balls; 17] = [
    ((2, 1), 2, &FOUR, &[(3, None), (3, None)]),
    ((2, 2), 2, &FOUR, &[(3, None)]),
    ((2, 0), 2, &FOUR, &[(1, None), (1, None), (1, None), (1, None)]),
    ((1, 0), 2, &FOUR, &[(1, None), (1, None), (1, None), (1, None)]),
    // words 0 and 7
    ((3, 1), 3, &[&[1, 2], &[-1, -3], &[-3]], &[(2, Some(1)), (3, Some(3))]),
    ((3, 1), 3, &[&[-1, 2, 3]], &[(1, Some(0)), (1, Some(7))]),
    ((3, 1), 3, &[&[1], &[2, 3], &[-1]], &[(1, None), (1, None)]),
    // words 0 and 1
    ((3, 2), 3, &[&[1], &[2, 3], &[-1]], &[(1, None), (3, None)]),
    ((3, 2), 3, &[&[-1], &[2, 3], &[1]], &[(3, None), (1, None)]),
    // words 0, 7, 8 and 15: (4) goes first, and from 8 the clause of three is met by 1
    ((4, 1), 4, &[&[1, 2, 3], &[4]], &[(2, None), (2, Some(15)), (2, Some(9)), (1, Some(15))]),
    ((4, 1), 4, &[&[1, 2], &[]], &[(1, None), (1, None), (1, None), (1, None)]),
    // words 0, 7, 8 and 15 in two blocks, of three and of two
    ((3, 1), 5, &[&[1], &[2], &[3], &[4], &[-5], &[1, 2]], &[(3, None), (2, Some(15)), (3, None), (1, Some(15))]),
    ((3, 1), 5, &[&[1, 2], &[]], &[(1, None), (1, None), (1, None), (1, None)]),
    // the last block has one variable, and one word
    ((3, 1), 4, &[&[1], &[2], &[3], &[4], &[1, 2]], &[(3, None), (2, Some(15))]),
    ((2, 1), 3, &[&[1], &[2], &[3], &[1, 2]], &[(3, None), (3, Some(7))]),
    // the assignments in order: 3 is the only model, or 5 and 7 are
    ((1, 0), 3, &[&[1], &[2], &[-3], &[1, 2]], &ONLY_THREE),
    ((2, 0), 3, &[&[1], &[3], &[1, 2]], &FIVE_AND_SEVEN),
];

const ONLY_THREE: [(u32, Option<u32>); 8] =
    [(1, None), (1, None), (1, None), (1, Some(3)), (1, None), (1, None), (1, None), (1, None)];
const FIVE_AND_SEVEN: [(u32, Option<u32>); 8] =
    [(1, None), (1, None), (1, None), (1, None), (1, None), (1, Some(5)), (1, None), (1, Some(7))];

// From each ball with each budget up to one more than all balls need, and with the highest.
fn each_ball_agrees(codes: &mut Codes) -> bool {
    EACH.iter().all(|(plan, n, clauses, balls)| {
        let bytes = written(*n, clauses);
        let all: u32 = balls.iter().map(|ball| ball.0).sum();
        let budgets = || (0..=all + 1).chain([u32::MAX]);
        (0..balls.len()).all(|next| {
            budgets().all(|budget| {
                let (later, ended) = by_hand(balls, next, budget);
                leg_ends(codes, (*plan, budget), &bytes, [next as u64, later as u64], ended)
            })
        })
    })
}

// Where the leg ends, and how.
fn by_hand(balls: &[(u32, Option<u32>)], next: usize, budget: u32) -> (usize, Ended) {
    let mut calls = 0;
    for (ball, (needed, found)) in balls.iter().enumerate().skip(next) {
        if calls + needed > budget {
            return (ball, (3, [0; 4], calls));
        }
        calls += needed;
        if let Some(marks) = found {
            return (balls.len(), (1, [*marks, 0, 0, 0], calls));
        }
    }
    (balls.len(), (2, [0; 4], calls))
}

// In a ball before the first that holds the model there is one path, as long as the radius allows. The leg begins so many before it.
fn forced_legs_agree(codes: &mut Codes) -> bool {
    FORCED.iter().all(|(plan, model, before, radius, far)| {
        let bytes = forced(128, *model);
        let count = count_balls(&blocks_of(codes, *plan, 128)).unwrap_or(0);
        let at = *before as u64;
        [0, 1, 30].into_iter().filter(|earlier| earlier <= before).all(|earlier| {
            let calls = earlier * (radius + 1);
            let mut says = |budget, to, ended| leg_ends(codes, (*plan, budget), &bytes, [at - earlier as u64, to], ended);
            says(calls + far + 1, count, (1, *model, calls + far + 1))
                && says(calls + far, at, (3, [0; 4], calls))
                && (earlier == 0 || says(calls - 1, at - 1, (3, [0; 4], calls - radius - 1)))
        })
    })
}

// The plan, the number of variables, and the number of balls, if it is below 2^63.
type Counted = ((u32, u32), u32, Option<u64>);

const COUNTED: [Counted; 44] = [
    ((1, 1), 128, Some(1)),
    ((12, 12), 128, Some(1)),
    ((12, 11), 128, Some(1024)),
    ((11, 5), 128, Some(4096)),
    ((3, 1), 128, Some(1 << 43)),
    ((10, 3), 128, Some(13u64.pow(12) * 4)),
    // two words for each variable, in blocks of any length
    ((1, 0), 2, Some(4)),
    ((1, 0), 61, Some(1 << 61)),
    ((1, 0), 62, Some(1 << 62)),
    ((1, 0), 63, None),
    ((1, 0), 64, None),
    ((1, 0), 65, None),
    ((1, 0), 127, None),
    ((1, 0), 128, None),
    ((2, 0), 62, Some(1 << 62)),
    ((2, 0), 63, None),
    ((2, 0), 64, None),
    ((12, 0), 62, Some(1 << 62)),
    ((12, 0), 63, None),
    ((12, 0), 64, None),
    // the last block decides
    ((2, 1), 124, Some(1 << 62)),
    ((2, 1), 125, Some(1 << 62)),
    ((2, 1), 126, None),
    ((2, 1), 128, None),
    ((4, 1), 125, Some(1 << 62)),
    ((4, 1), 126, None),
    ((4, 1), 128, None),
    ((5, 1), 104, Some(1 << 62)),
    ((5, 1), 105, None),
    ((6, 1), 94, Some(1 << 62)),
    ((6, 1), 95, None),
    // numbers that are no power of two; in the last lines of these their lowest 64 bits are below 2^63
    ((9, 2), 124, Some(24u64.pow(13) * 8)),
    ((9, 2), 125, None),
    ((9, 2), 126, None),
    ((10, 1), 89, Some(135u64.pow(8) * 64)),
    ((10, 1), 90, None),
    ((10, 1), 94, None),
    ((11, 1), 87, None),
    ((11, 2), 119, Some(56u64.pow(10) * 24)),
    ((11, 2), 120, None),
    ((11, 2), 128, None),
    ((12, 2), 113, Some(115u64.pow(9) * 2)),
    ((12, 2), 114, None),
    ((12, 2), 116, None),
];

// A sheet with an empty clause, so that each ball is one call, from the first ball, from the last ones, and from past them.
fn count_agrees(codes: &mut Codes, plan: (u32, u32), n: u32, count: Option<u64>) -> bool {
    let bytes = written(n, &[&[], &[1, 2]]);
    let refuses = |codes: &mut Codes, next: u64, number: u32| {
        let record = Checkpoint { batch: 2, n, block_length: plan.0, radius: plan.1, next };
        legs_to(codes, (plan, 1), &bytes, [record; 2], LegReply::refused(number, 0))
    };
    let Some(count) = count else {
        return [0, 1, 1 << 62, (1 << 63) - 1, 1 << 63, u64::MAX].iter().all(|next| refuses(codes, *next, 8));
    };
    let past = [count, count + 1, (1 << 32) + count - 1, 1 << 63, u64::MAX];
    let mut says = |budget, from, to, ended| leg_ends(codes, (plan, budget), &bytes, [from, to], ended);
    let several = count == 1
        || says(1, 0, 1, (3, [0; 4], 1))
            && says(1, count - 2, count - 1, (3, [0; 4], 1))
            && says(2, count - 2, count, (2, [0; 4], 2));
    several
        && says(0, 0, 0, (3, [0; 4], 0))
        && says(0, count - 1, count - 1, (3, [0; 4], 0))
        && says(1, count - 1, count, (2, [0; 4], 1))
        && past.iter().all(|next| refuses(codes, *next, 12))
}

// Beside the table every number of variables under the plans with short blocks, by the sizes of the codes that the library writes.
fn ball_counts_agree(codes: &mut Codes) -> bool {
    let mut sizes = HashMap::new();
    let mut size = |t, s| *sizes.entry((t, s)).or_insert_with(|| library_code(t, s, &mut [0; 4096]).result as u128);
    let mut product = |(b, s): (u32, u32), n: u32| {
        let words = (0..n).step_by(b as usize).map(|at| b.min(n - at)).map(|t| size(t, s.min(t)));
        words.fold(1u128, |count, words| count.saturating_mul(words))
    };
    let short = all_plans().into_iter().filter(|plan| plan.0 <= 6);
    COUNTED.iter().all(|(plan, n, count)| count_agrees(codes, *plan, *n, *count))
        && short.flat_map(|plan| (2..=128).map(move |n| (plan, n))).all(|(plan, n)| {
            let count = u64::try_from(product(plan, n)).ok().filter(|count| count >> 63 == 0);
            count_agrees(codes, plan, n, count)
        })
}

// Under every plan two blocks and one variable, and the last two balls. No assignment meets the four clauses of the variables at the
// border of the blocks: from each centre they need 3 calls, or just one where nothing may be flipped.
fn last_balls_agree(codes: &mut Codes) -> bool {
    all_plans().into_iter().all(|plan| {
        let n = 2 * plan.0 + 1;
        let [u, v] = [plan.0 as i32, plan.0 as i32 + 1];
        let bytes = written(n, &[&[u, v], &[u, -v], &[-u, v], &[-u, -v]]);
        let count = count_balls(&blocks_of(codes, plan, n)).unwrap_or(0);
        let from = count.saturating_sub(2);
        let each = if plan.1 == 0 { 1 } else { 3 };
        let calls = each * (count - from) as u32;
        let mut says = |budget, to, ended| leg_ends(codes, (plan, budget), &bytes, [from, to], ended);
        says(calls, count, (2, [0; 4], calls)) && says(calls - 1, count - 1, (3, [0; 4], calls - each))
    })
}

// The words of the blocks make up the number of a ball and its centre, which is found at once where it is the model: all first words,
// all last ones, the last one of each block beside the first ones, and some others.
fn centres_agree(codes: &mut Codes) -> bool {
    let counted = COUNTED.iter().filter_map(|(plan, n, count)| count.map(|count| (*plan, *n, count)));
    counted.filter(|(_, n, _)| *n > 2).all(|(plan, n, count)| {
        let blocks = blocks_of(codes, plan, n);
        let all = |word: &dyn Fn(usize, usize) -> usize| -> Vec<usize> {
            blocks.iter().enumerate().map(|(i, block)| word(i, block.2.len())).collect()
        };
        let mut words = vec![all(&|_, _| 0), all(&|_, size| size - 1), all(&|i, size| (7 * i + 3) % size)];
        words.extend((0..blocks.len()).map(|at| all(&|i, size| if i == at { size - 1 } else { 0 })));
        words.iter().all(|digits| {
            let sizes = blocks.iter().map(|block| block.2.len() as u64);
            let ball = sizes.zip(digits).rev().fold(0, |ball, (size, digit)| ball * size + *digit as u64);
            let model = words_of(whole_word(&blocks, digits));
            leg_ends(codes, (plan, 1), &forced(n, model), [ball, count], (1, model, 1))
        })
    })
}

// The plan, the number of variables, the clauses, batch, n, block length and radius of the record, its next ball, and the number of the
// refusal, or 0 where the sheet is Horn and has its answer.
type Refusal = ((u32, u32), u32, &'static [&'static [i32]], [u32; 4], u64, u32);

const FACT: [&[i32]; 1] = [&[1]];

const REFUSALS: [Refusal; 46] = [
    // each alone: a bad plan, a bad sheet, a Horn sheet, 2^63 balls, another search, a finished one
    ((2, 3), 2, &FOUR, [2, 2, 2, 3], 0, 8),
    ((0, 0), 2, &FOUR, [2, 2, 0, 0], 0, 8),
    ((13, 1), 2, &FOUR, [2, 2, 13, 1], 0, 8),
    ((2, 1), 129, &FOUR, [2, 129, 2, 1], 0, 5),
    ((2, 1), 2, &FACT, [2, 2, 2, 1], 0, 0),
    ((1, 0), 63, &FOUR, [2, 63, 1, 0], 0, 8),
    ((2, 1), 2, &FOUR, [3, 2, 2, 1], 0, 11),
    ((2, 1), 2, &FOUR, [2, 3, 2, 1], 0, 11),
    ((2, 1), 2, &FOUR, [2, 2, 3, 1], 0, 11),
    ((2, 1), 2, &FOUR, [2, 2, 2, 2], 0, 11),
    ((2, 1), 2, &FOUR, [2, 2, 2, 1], 2, 12),
    ((2, 1), 2, &FOUR, [2, 2, 2, 1], 3, 12),
    ((2, 1), 2, &FOUR, [2, 2, 2, 1], 1 << 32, 12),
    ((2, 1), 2, &FOUR, [2, 2, 2, 1], 1 << 63, 12),
    ((2, 1), 2, &FOUR, [2, 2, 2, 1], u64::MAX, 12),
    // a bad plan and each of the others; with it there is no number of balls
    ((2, 3), 129, &FOUR, [2, 129, 2, 3], 0, 8),
    ((2, 3), 2, &FACT, [2, 2, 2, 3], 0, 8),
    ((2, 3), 2, &FOUR, [2, 2, 2, 1], 0, 8),
    ((2, 3), 2, &FOUR, [2, 2, 2, 3], u64::MAX, 8),
    // a bad sheet and each of those after it
    ((2, 1), 129, &FACT, [2, 129, 2, 1], 0, 5),
    ((1, 0), 129, &FOUR, [2, 129, 1, 0], 0, 5),
    ((2, 1), 129, &FOUR, [3, 129, 2, 1], 0, 5),
    ((2, 1), 129, &FOUR, [2, 129, 2, 1], u64::MAX, 5),
    // a Horn sheet and each of those after it
    ((1, 0), 63, &FACT, [2, 63, 1, 0], 0, 0),
    ((1, 0), 128, &FACT, [2, 128, 1, 0], 0, 0),
    ((2, 1), 2, &FACT, [3, 2, 2, 1], 0, 0),
    ((2, 1), 2, &FACT, [2, 3, 2, 1], 0, 0),
    ((2, 1), 2, &FACT, [2, 2, 3, 1], 0, 0),
    ((2, 1), 2, &FACT, [2, 2, 2, 2], 0, 0),
    ((2, 1), 2, &FACT, [2, 2, 2, 1], 2, 0),
    ((2, 1), 2, &FACT, [2, 2, 2, 1], u64::MAX, 0),
    // 2^63 balls and another search, or one past them
    ((1, 0), 63, &FOUR, [3, 63, 1, 0], 0, 8),
    ((1, 0), 63, &FOUR, [2, 62, 1, 0], 0, 8),
    ((1, 0), 63, &FOUR, [2, 63, 2, 0], 0, 8),
    ((1, 0), 63, &FOUR, [2, 63, 1, 1], 0, 8),
    ((1, 0), 63, &FOUR, [2, 63, 1, 0], 1 << 63, 8),
    ((1, 0), 63, &FOUR, [2, 63, 1, 0], u64::MAX, 8),
    // another search that would be finished too, under this plan or under its own
    ((2, 1), 2, &FOUR, [3, 2, 2, 1], 2, 11),
    ((2, 1), 2, &FOUR, [2, 3, 2, 1], 2, 11),
    ((2, 1), 2, &FOUR, [2, 2, 2, 0], 2, 11),
    ((2, 1), 2, &FOUR, [2, 2, 2, 2], 1, 11),
    ((2, 1), 2, &FOUR, [2, 2, 1, 1], u64::MAX, 11),
    ((1, 0), 62, &FOUR, [2, 61, 1, 0], 1 << 62, 11),
    // all at once, and then without the first, the second and so on
    ((2, 3), 129, &FACT, [3, 2, 1, 1], u64::MAX, 8),
    ((1, 0), 129, &FACT, [3, 2, 1, 1], u64::MAX, 5),
    ((1, 0), 128, &FACT, [3, 2, 1, 1], u64::MAX, 0),
];

// It takes two rounds.
fn fact_ends(budget: u32) -> Ended {
    if budget < 2 {
        (3, [0; 4], budget)
    } else {
        (1, [1, 0, 0, 0], 2)
    }
}

// Whatever the budget is, and the record stays.
fn leg_refusals_agree(codes: &mut Codes) -> bool {
    REFUSALS.iter().all(|(plan, n, clauses, [batch, own_n, block_length, radius], next, number)| {
        let bytes = written(*n, clauses);
        let record = Checkpoint { batch: *batch, n: *own_n, block_length: *block_length, radius: *radius, next: *next };
        [0, 1, 2, 9, u32::MAX].into_iter().all(|budget| {
            let (verdict, marks, calls) = fact_ends(budget);
            let expected = match number {
                0 => LegReply { verdict, batch: 2, road: HORN, marks, calls, ..LegReply::default() },
                // the third word is too large
                5 => LegReply::refused(5, 2),
                _ => LegReply::refused(*number, 0),
            };
            legs_to(codes, (*plan, budget), &bytes, [record; 2], expected)
        })
    })
}

// The answer under plan 1, 0, which has 2^n balls, to (1), which is Horn and clear at the second round, and to a sheet that is
// not Horn and has an empty clause, so that each ball is one call; and the next ball after it.
fn in_order(asked: ((u32, u32), u32), input: &Input, record: &Checkpoint) -> (LegReply, u64) {
    let (plan, budget) = asked;
    let refused = |number, place| (LegReply::refused(number, place), record.next);
    let answer = |road, (verdict, marks, calls): Ended| LegReply { verdict, batch: 2, road, marks, calls, ..LegReply::default() };
    if plan != (1, 0) {
        return refused(8, 0);
    }
    let sheet = match &input.sheet {
        Ok(sheet) => sheet,
        Err(r) => return refused(r.0, r.1),
    };
    if sheet.terms.len() == 1 {
        return (answer(HORN, fact_ends(budget)), record.next);
    }
    if sheet.n >= 63 {
        return refused(8, 0);
    }
    if (record.batch, record.n, record.block_length, record.radius) != (2, sheet.n, 1, 0) {
        return refused(11, 0);
    }
    if record.next >= 1 << sheet.n {
        return refused(12, 0);
    }
    let left = (1 << sheet.n) - record.next;
    let calls = left.min(budget as u64);
    (answer(BALLS, (if calls == left { 2 } else { 3 }, [0; 4], calls as u32)), record.next + calls)
}

// The record, and others: one bit of a field that is compared changed, the lowest bit of two, one up and the other down, and two in
// each other's place.
fn near(record: Checkpoint) -> Vec<Checkpoint> {
    let fields = [record.batch, record.n, record.block_length, record.radius];
    let mut all = vec![fields];
    for i in 0..4 {
        let mut with = |change: &dyn Fn(&mut [u32; 4])| {
            let mut other = fields;
            change(&mut other);
            all.push(other);
        };
        (0..32).for_each(|bit| with(&|f| f[i] ^= 1 << bit));
        for j in (0..4).filter(|j| *j != i) {
            with(&|f| (f[i], f[j]) = (f[i] ^ 1, f[j] ^ 1));
            with(&|f| (f[i], f[j]) = (f[i].wrapping_add(1), f[j].wrapping_sub(1)));
            with(&|f| f.swap(i, j));
        }
    }
    let next = record.next;
    all.into_iter().map(|[batch, n, block_length, radius]| Checkpoint { batch, n, block_length, radius, next }).collect()
}

// Whatever applies at once, the first in order decides: a bad plan, a bad sheet, the straight road, too many balls, another search,
// a finished one. Nothing but a leg by balls moves the record, and it moves the next ball alone.
fn leg_orders_agree(codes: &mut Codes) -> bool {
    let torn = |clauses: &[&[i32]], n| {
        let mut bytes = written(n, clauses);
        bytes.truncate(bytes.len() - 4);
        bytes
    };
    let [horn, balls]: [&[&[i32]]; 2] = [&[&[1]], &[&[], &[1, 2]]];
    [2, 62, 63, 64, 128].into_iter().all(|n: u32| {
        let inputs = [written(n, horn), written(n, balls), torn(horn, n), torn(balls, n)].map(Input::new);
        let count = 1u64 << n.min(63);
        let nexts = [0, count - 2, count - 1, count, count + 1, 1 << 63, u64::MAX];
        let records: Vec<_> = nexts.map(|next| near(Checkpoint { batch: 2, n, block_length: 1, radius: 0, next })).concat();
        [(1, 0), (1, 2), (0, 0), (13, 0)].into_iter().flat_map(|plan| (0..3).map(move |budget| (plan, budget))).all(|asked| {
            inputs.iter().all(|input| {
                records.iter().all(|record| {
                    let (expected, next) = in_order(asked, input, record);
                    legs_to(codes, asked, &input.bytes, [*record, Checkpoint { next, ..*record }], expected)
                })
            })
        })
    })
}

// A Horn sheet is answered as by a run, whatever the record is, which stays.
fn horn_legs_agree(codes: &mut Codes) -> bool {
    ROUNDS.iter().all(|(n, clauses, (verdict, marks, rounds))| {
        let bytes = written(*n, clauses);
        [(1, 0), (3, 1), (5, 5)].into_iter().all(|plan: (u32, u32)| {
            let right = Checkpoint { batch: 2, n: *n, block_length: plan.0, radius: plan.1, next: 0 };
            let others = [Checkpoint { batch: 3, ..right }, Checkpoint { n: n + 1, ..right }, Checkpoint { radius: 9, ..right }];
            let finished = [1, 2, 1 << 62, 1 << 63, u64::MAX].map(|next| Checkpoint { next, ..right });
            let records = [&[right][..], &others, &finished].concat();
            [0, rounds - 1, *rounds, rounds + 1, u32::MAX].into_iter().all(|budget| {
                let (verdict, marks) = if budget < *rounds { (3, [0; 4]) } else { (*verdict, *marks) };
                let reply = Reply { verdict, batch: 2, road: HORN, marks, calls: budget.min(*rounds), ..Reply::default() };
                records.iter().all(|record| legs_to(codes, (plan, budget), &bytes, [*record; 2], LegReply::of(reply)))
            })
        })
    })
}

// From the start a leg is a run where that comes to its end, but for the record.
fn first_legs_agree(codes: &mut Codes) -> bool {
    let mut agrees = |(plan, budget, n, clauses, (road, verdict, marks, calls)): &Worked| {
        let bytes = written(*n, clauses);
        let start = Checkpoint { batch: 2, n: *n, block_length: plan.0, radius: plan.1, next: 0 };
        let worked = Reply { verdict: *verdict, batch: 2, road: *road, marks: *marks, calls: *calls, ..Reply::default() };
        let asked = (*plan, *budget);
        match count_balls(&blocks_of(codes, *plan, *n)) {
            _ if *road == HORN => legs_to(codes, asked, &bytes, [start; 2], LegReply::of(worked)),
            None => legs_to(codes, asked, &bytes, [start; 2], LegReply::refused(8, 0)),
            Some(_) if *verdict == 3 => {
                let [mut got, mut own] = [start; 2];
                let reply = library_leg(*plan, *budget, &bytes, &mut got);
                reply.verdict == 3 && reply == leg(codes, *plan, *budget, &bytes, &mut own) && got == own
            }
            Some(next) => legs_to(codes, asked, &bytes, [start, Checkpoint { next, ..start }], LegReply::of(worked)),
        }
    };
    WORKED.iter().chain(&CHOSEN).chain(&SPARED).chain(&NEARLY).all(&mut agrees)
}

// Each of the sheet's own refusals, after that of the plan, whatever the record is.
fn refused_sheets_agree(codes: &mut Codes) -> bool {
    let right = Checkpoint { batch: 4 << 16 | 5, n: 2, block_length: 1, radius: 1, next: 0 };
    let finished = Checkpoint { next: u64::MAX, ..right };
    let other = Checkpoint { batch: 4, n: 3, block_length: 1, radius: 2, next: 1 };
    refused_sheets().iter().all(|(bytes, number, place)| {
        [right, finished, other].into_iter().all(|record| {
            let mut says = |plan, budget, reply| legs_to(codes, (plan, budget), bytes, [record; 2], reply);
            [0, 1, 9, u32::MAX].into_iter().all(|budget| {
                says((1, 1), budget, LegReply::refused(*number, *place))
                    && says((12, 0), budget, LegReply::refused(*number, *place))
                    && says((1, 2), budget, LegReply::refused(8, 0))
            })
        })
    })
}

// ---- fixed cases of paper 12 of 02

// The library and the leg above both give this reply, and leave the second of the records.
fn longer_to(codes: &mut Codes, asked: ((u32, u32), u32), pair: [&[u8]; 2], records: [Checkpoint; 2], expected: LegReply) -> bool {
    let (plan, budget) = asked;
    let [mut got, mut own] = [records[0]; 2];
    let replies = [library_longer(plan, budget, pair, &mut got), leg_longer(codes, plan, budget, pair, &mut own)];
    replies == [expected; 2] && [got, own] == [records[1]; 2]
}

// By balls, from the one to the other, in the record of the longer sheet.
fn longer_ends(codes: &mut Codes, asked: ((u32, u32), u32), pair: [&[u8]; 2], balls: [u64; 2], ended: Ended) -> bool {
    let (verdict, marks, calls) = ended;
    read(pair[1]).is_ok_and(|sheet| {
        let records = balls.map(|next| Checkpoint::of(asked.0, &sheet, next));
        let expected = LegReply { verdict, batch: sheet.batch, road: BALLS, marks, calls, ..LegReply::default() };
        longer_to(codes, asked, pair, records, expected)
    })
}

// Sheets whose clauses all stand in this one: all of them backward with their literals backward, the sheet itself, no clause, either
// half, and all twice.
fn standing(n: u32, clauses: &[&[i32]]) -> [Vec<u8>; 6] {
    let backward: Vec<Vec<i32>> = clauses.iter().rev().map(|c| c.iter().rev().copied().collect()).collect();
    let (first, second) = clauses.split_at(clauses.len() / 2);
    let others = [clauses, &[], first, second, &[clauses, clauses].concat()].map(|some| written(n, some));
    let [itself, none, first, second, twice] = others;
    [written_all(n, &backward), itself, none, first, second, twice]
}

// The longer sheet alone decides: each fixed leg of it is the same after any old sheet that stands in it.
fn longer_legs_agree(codes: &mut Codes) -> bool {
    LEGS.iter().all(|(plan, budget, n, clauses, next, ended, later)| {
        let longer = written(*n, clauses);
        // each leg makes the code anew
        let some = if rarity(*plan) == 1 { 6 } else { 1 };
        let mut says = |old: &Vec<u8>| longer_ends(codes, (*plan, *budget), [old, &longer], [*next, *later], *ended);
        standing(*n, clauses).iter().take(some).all(&mut says)
    })
}

// From each ball with each budget up to one more than all balls need.
fn each_longer_agrees(codes: &mut Codes) -> bool {
    EACH.iter().all(|(plan, n, clauses, balls)| {
        let [old, longer] = [&clauses[1..], *clauses].map(|some| written(*n, some));
        let all: u32 = balls.iter().map(|ball| ball.0).sum();
        (0..balls.len()).flat_map(|next| (0..=all + 1).map(move |budget| (next, budget))).all(|(next, budget)| {
            let (later, ended) = by_hand(balls, next, budget);
            longer_ends(codes, (*plan, budget), [&old, &longer], [next as u64, later as u64], ended)
        })
    })
}

type Clauses = &'static [&'static [i32]];

const NINE_DOWN: [i32; 8] = [9, 8, -7, 6, 5, -4, 3, 2];
const NINE_UP: [i32; 8] = [2, 3, -4, 5, 6, -7, 8, 9];

// The number of variables, the old and the longer clauses, and how a leg of the one ball of plan 1, 1 ends.
const STANDING: [(u32, [Clauses; 2], Ended); 25] = [
    // no old clause, and the same clauses
    (2, [&[], &[&[1, 2]]], (1, [1, 0, 0, 0], 2)),
    (2, [&[&[1, 2]], &[&[1, 2]]], (1, [1, 0, 0, 0], 2)),
    (2, [&FOUR, &FOUR], (2, [0; 4], 3)),
    // more of them, after, before and between the old ones; the old one alone would have another model
    (3, [&[&[1, 2]], &[&[1, 2], &[3]]], (1, [5, 0, 0, 0], 3)),
    (3, [&[&[1, 2]], &[&[3], &[1, 2]]], (1, [5, 0, 0, 0], 3)),
    (3, [&[&[1, 2], &[3]], &[&[1, 2], &[-1], &[3]]], (1, [6, 0, 0, 0], 3)),
    // in another order
    (3, [&[&[1, 2], &[3]], &[&[3], &[1, 2]]], (1, [5, 0, 0, 0], 3)),
    (3, [&[&[3], &[-1], &[1, 2]], &[&[1, 2], &[3], &[-1]]], (1, [6, 0, 0, 0], 3)),
    // repeated in the old sheet, in the longer one, and there fewer times; a repeat may give way to another clause
    (2, [&[&[1, 2], &[1, 2], &[1, 2]], &[&[1, 2]]], (1, [1, 0, 0, 0], 2)),
    (2, [&[&[1, 2]], &[&[1, 2], &[1, 2], &[1, 2]]], (1, [1, 0, 0, 0], 2)),
    (3, [&[&[1, 2], &[1, 2]], &[&[1, 2], &[3]]], (1, [5, 0, 0, 0], 3)),
    (2, [&[&[1, 2], &[-1], &[1, 2], &[-1]], &[&[-1], &[1, 2]]], (1, [2, 0, 0, 0], 2)),
    (2, [&[&[2, 1], &[1, 2]], &[&[1, 2]]], (1, [1, 0, 0, 0], 2)),
    // literals in another order: the longer sheet's is the one that counts
    (2, [&[&[1, 2]], &[&[2, 1]]], (1, [2, 0, 0, 0], 2)),
    (2, [&[&[2, 1]], &[&[1, 2]]], (1, [1, 0, 0, 0], 2)),
    (4, [&[&[4, -3, 1]], &[&[1, 2], &[-3, 1, 4]]], (1, [1, 0, 0, 0], 2)),
    (9, [&[&NINE_DOWN], &[&NINE_UP, &[1, 9]]], (1, [1, 0, 0, 0], 2)),
    (128, [&[&HELD, &[128, 1]], &[&[1, 128], &[-128, -97, -96, -65, -64, -33, -32, -1]]], (1, [1, 0, 0, 0], 2)),
    // the empty clause kept, added, once for twice, and the only old one
    (2, [&[&[], &[1, 2]], &[&[1, 2], &[]]], (2, [0; 4], 1)),
    (2, [&[&[1, 2]], &[&[], &[1, 2]]], (2, [0; 4], 1)),
    (2, [&[&[], &[]], &[&[1, 2], &[]]], (2, [0; 4], 1)),
    (2, [&[&[]], &[&[1, 2], &[], &[]]], (2, [0; 4], 1)),
    // the old sheet is Horn, and the longer one is not
    (2, [&[&[1]], &[&[1], &[1, 2]]], (1, [1, 0, 0, 0], 2)),
    (2, [&[&[-1], &[-2]], &[&[-2], &[-1], &[1, 2]]], (2, [0; 4], 1)),
    // the old sheet has a model, the longer one none
    (2, [&[&[1, 2], &[1, -2]], &[&[1, 2], &[1, -2], &[-1, 2], &[-1, -2]]], (2, [0; 4], 3)),
];

fn kept_agree(codes: &mut Codes) -> bool {
    STANDING.iter().all(|(n, pair, ended)| {
        let [old, longer] = pair.map(|clauses| written(*n, clauses));
        let pair: [&[u8]; 2] = [&old, &longer];
        [ended.2, u32::MAX].into_iter().all(|budget| longer_ends(codes, ((1, 1), budget), pair, [0, 1], *ended))
            && longer_ends(codes, ((1, 1), ended.2 - 1), pair, [0, 0], (3, [0; 4], 0))
    })
}

// The number of variables, the old and the longer clauses, and the place of refusal 13.
const DROPPED: [(u32, [Clauses; 2], u32); 38] = [
    // the only one, the first, the second and the last of three
    (3, [&[&[3]], &[&[1, 2]]], 3),
    (3, [&[&[3], &[1, 2], &[1]], &[&[1, 2], &[1]]], 3),
    (3, [&[&[1, 2], &[3], &[1]], &[&[1, 2], &[1]]], 6),
    (3, [&[&[1, 2], &[1], &[3]], &[&[1, 2], &[1]]], 8),
    (3, [&[&[1], &[1, 2], &[3]], &[&[1, 2], &[1]]], 8),
    // the first of several
    (3, [&[&[1, 2], &[3], &[1], &[2]], &[&[1, 2]]], 6),
    (3, [&[&[1, 2], &[2], &[3]], &[&[1, 2], &[3], &[3]]], 6),
    (3, [&[&[1, 2, 3], &[3], &[3, 2, 1], &[2]], &[&[3, 1, 2], &[1, 2]]], 7),
    // a repeat does not stand for another clause, nor does more than one
    (2, [&[&[1, 2], &[2]], &[&[1, 2], &[1, 2]]], 6),
    (2, [&[&[1, 2], &[1]], &[&[1, 2], &[1, 2], &[1, 2], &[2]]], 6),
    // repeats in the old sheet count for the place
    (2, [&[&[1, 2], &[1, 2], &[2, 1], &[2]], &[&[1, 2]]], 12),
    (2, [&[&[1, 2], &[2], &[2], &[2]], &[&[1, 2]]], 6),
    // other lengths at the same places of the longer sheet, less and more
    (4, [&[&[1], &[2, 3, 4], &[-1]], &[&[1, 2], &[-4], &[2, 3, 4], &[1]]], 9),
    (4, [&[&[2, 3, 4], &[1, 2], &[3]], &[&[-4], &[-3], &[2, 1], &[4, 2, 3]]], 10),
    (4, [&[&[1], &[2], &[-1]], &[&[1, 2, 3, 4], &[2], &[1]]], 7),
    (9, [&[&EIGHT, &NINE_DOWN, &[1, 2]], &[&[-2], &NINE_UP, &EIGHT]], 21),
    // some literals of a clause, or more than all, or those of two
    (3, [&[&[1]], &[&[1, 2]]], 3),
    (3, [&[&[1, 2, 3]], &[&[1, 2]]], 3),
    (3, [&[&[1, 2]], &[&[1, 2, 3], &[1, 3], &[2, 3]]], 3),
    (3, [&[&[1, 2]], &[&[1], &[2], &[1, 3]]], 3),
    (4, [&[&[1, 2], &[3, 4]], &[&[1, 2], &[1, 3], &[2, 4], &[1, 2, 3, 4]]], 6),
    // another sign, of one literal or of all
    (2, [&[&[1, -2]], &[&[1, 2]]], 3),
    (2, [&[&[-2, -1]], &[&[1, 2], &[1, -2], &[-1, 2]]], 3),
    (2, [&[&[-1]], &[&[1], &[1, 2]]], 3),
    (9, [&[&NINE_DOWN], &[&[2, 3, -4, 5, 6, -7, 8, -9], &[1, 9]]], 3),
    // the empty clause dropped, alone, among others, and beside a repeat of it that is dropped too
    (2, [&[&[]], &[&[1, 2]]], 3),
    (2, [&[&[1, 2], &[]], &[&[1, 2]]], 6),
    (2, [&[&[], &[1, 2], &[]], &[&[1, 2]]], 3),
    // it stands for no other clause, and has one word
    (2, [&[&[1]], &[&[], &[1, 2]]], 3),
    (2, [&[&[], &[1]], &[&[], &[1, 2]]], 4),
    (2, [&[&[], &[], &[], &[2]], &[&[1, 2], &[]]], 6),
    // the old sheet is Horn or not
    (3, [&[&[-1], &[-2, 3]], &[&[1, 2], &[-1]]], 5),
    (3, [&[&[1, 2], &[2, 3]], &[&[1, 2]]], 6),
    // variables at the same place of two words are two
    (128, [&[&[1, 2], &[33]], &[&[1, 2], &[1]]], 6),
    (128, [&[&[1, 2], &[1]], &[&[1, 2], &[33], &[65], &[97]]], 6),
    (128, [&[&[32, 64, 96]], &[&[1, 2], &[32, 64, 128]]], 3),
    (128, [&[&[96]], &[&[1, 2], &[128]]], 3),
    (128, [&[&ENDS, &HELD, &MIXED], &[&HELD, &ENDS]], 21),
];

// Whatever the budget, in the one ball of plan 1, 1 or from a later one of plan 1, 0, where there are not too many.
fn dropped_agree(codes: &mut Codes) -> bool {
    DROPPED.iter().all(|(n, pair, place)| {
        let [old, longer] = pair.map(|clauses| written(*n, clauses));
        let plans = [((1, 1), 0), ((1, 0), 3)].into_iter().take(if *n < 63 { 2 } else { 1 });
        plans.flat_map(|plan| [0, 1, 9, u32::MAX].map(|budget| (plan, budget))).all(|((plan, next), budget)| {
            let record = Checkpoint { batch: 2, n: *n, block_length: plan.0, radius: plan.1, next };
            longer_to(codes, (plan, budget), [&old, &longer], [record; 2], LegReply::about(1, 13, *place))
        })
    })
}

// A clause for each place, no two alike: variables that follow each other, from another one on at every eighth place.
fn distinct(seat: usize) -> Vec<i32> {
    (0..=seat % 8).map(|i| ((seat / 8 + i) % 128 + 1) as i32).collect()
}

// Of 1,024 clauses the last is lacking, then one before it too, and so on. The longer sheet has the others backward, with their literals
// backward, and in the stead of each that is lacking one with another sign. Eight clauses are 44 words.
fn dropped_seats_agree(codes: &mut Codes) -> bool {
    let all: Vec<Vec<i32>> = (0..1024).map(distinct).collect();
    let old = written_all(128, &all);
    let mut longer: Vec<Vec<i32>> = all.iter().rev().map(|c| c.iter().rev().copied().collect()).collect();
    let record = Checkpoint { batch: 2, n: 128, block_length: 1, radius: 1, next: 0 };
    let spent = LegReply { verdict: 3, batch: 2, road: BALLS, ..LegReply::default() };
    let stands = longer_to(codes, ((1, 1), 0), [&old, &written_all(128, &longer)], [record; 2], spent);
    let mut seats = [1023, 1022].into_iter().chain((0..1022).rev().step_by(73));
    stands
        && seats.all(|seat: usize| {
            longer[1023 - seat][0] *= -1;
            let place = 3 + 44 * (seat / 8) + (0..seat % 8).map(|before| 2 + before).sum::<usize>();
            let refusal = LegReply::about(1, 13, place as u32);
            longer_to(codes, ((1, 1), 9), [&old, &written_all(128, &longer)], [record; 2], refusal)
        })
}

// The longest sheets there are, of the same clauses and then with another sign in the last.
fn longest_agree(codes: &mut Codes) -> bool {
    let clause = |i: i32| -> Vec<i32> { (1..=8).map(|v| (i / 256 * 8 + v) * if i >> (v - 1) & 1 == 1 { -1 } else { 1 }).collect() };
    let mut all: Vec<Vec<i32>> = (0..1024).map(clause).collect();
    let old = written_all(32, &all);
    let record = Checkpoint { batch: 2, n: 32, block_length: 1, radius: 1, next: 0 };
    let spent = LegReply { verdict: 3, batch: 2, road: BALLS, ..LegReply::default() };
    let stands = longer_to(codes, ((1, 1), 9), [&old, &old], [record; 2], spent);
    all[1023][7] *= -1;
    stands && longer_to(codes, ((1, 1), 9), [&old, &written_all(32, &all)], [record; 2], LegReply::about(1, 13, 3 + 1023 * 9))
}

// A sheet by its batch number, its number of variables and its clauses.
type Given = (u32, u32, Clauses);

fn given((batch, n, clauses): &Given) -> Vec<u8> {
    write(&Sheet { batch: *batch, n: *n, terms: clauses.iter().map(|c| term_of(c)).collect() })
}

// The plan, the old and the longer sheet, batch, n, block length and radius of the record, its next ball, and the refusal: sheet, number
// and place, or zeros where the longer sheet is Horn and has its answer.
type Declined = ((u32, u32), [Given; 2], [u32; 4], u64, [u32; 3]);

// Old clauses that stand in FOUR, and others of which the second does not.
const PAIR: [&[i32]; 1] = [&[2, 1]];
const MORE: [&[i32]; 2] = [&[2, 1], &[1]];

const DECLINED: [Declined; 97] = [
    // each alone: a bad plan
    ((2, 3), [(2, 2, &PAIR), (2, 2, &FOUR)], [2, 2, 2, 3], 0, [2, 8, 0]),
    ((0, 0), [(2, 2, &PAIR), (2, 2, &FOUR)], [2, 2, 0, 0], 0, [2, 8, 0]),
    ((13, 1), [(2, 2, &PAIR), (2, 2, &FOUR)], [2, 2, 13, 1], 0, [2, 8, 0]),
    // a bad sheet, and a Horn one, also where the old one is Horn too
    ((2, 1), [(2, 129, &PAIR), (2, 2, &FOUR)], [2, 2, 2, 1], 0, [1, 5, 2]),
    ((2, 1), [(2, 2, &PAIR), (2, 129, &FOUR)], [2, 2, 2, 1], 0, [2, 5, 2]),
    ((2, 1), [(2, 2, &[]), (2, 2, &FACT)], [2, 2, 2, 1], 0, [0, 0, 0]),
    ((2, 1), [(2, 2, &FACT), (2, 2, &FACT)], [2, 2, 2, 1], 0, [0, 0, 0]),
    // 2^63 balls, with n 63 and with n 128
    ((1, 0), [(2, 63, &PAIR), (2, 63, &FOUR)], [2, 63, 1, 0], 0, [2, 8, 0]),
    ((1, 0), [(2, 128, &PAIR), (2, 128, &FOUR)], [2, 128, 1, 0], 0, [2, 8, 0]),
    // another plan, another batch or n of the old sheet, of the longer one, and of both
    ((2, 1), [(2, 2, &PAIR), (2, 2, &FOUR)], [2, 2, 3, 1], 0, [2, 11, 0]),
    ((2, 1), [(2, 2, &PAIR), (2, 2, &FOUR)], [2, 2, 2, 2], 0, [2, 11, 0]),
    ((2, 1), [(3, 2, &PAIR), (2, 2, &FOUR)], [2, 2, 2, 1], 0, [1, 11, 0]),
    ((2, 1), [(2, 3, &PAIR), (2, 2, &FOUR)], [2, 2, 2, 1], 0, [1, 11, 0]),
    ((2, 1), [(2, 2, &PAIR), (3, 2, &FOUR)], [2, 2, 2, 1], 0, [2, 11, 0]),
    ((2, 1), [(2, 2, &PAIR), (2, 3, &FOUR)], [2, 2, 2, 1], 0, [2, 11, 0]),
    ((2, 1), [(2, 2, &PAIR), (2, 2, &FOUR)], [3, 2, 2, 1], 0, [1, 11, 0]),
    ((2, 1), [(2, 2, &PAIR), (2, 2, &FOUR)], [2, 3, 2, 1], 0, [1, 11, 0]),
    // a finished search, and a clause dropped
    ((2, 1), [(2, 2, &PAIR), (2, 2, &FOUR)], [2, 2, 2, 1], 2, [2, 12, 0]),
    ((2, 1), [(2, 2, &PAIR), (2, 2, &FOUR)], [2, 2, 2, 1], 3, [2, 12, 0]),
    ((2, 1), [(2, 2, &PAIR), (2, 2, &FOUR)], [2, 2, 2, 1], 1 << 32, [2, 12, 0]),
    ((2, 1), [(2, 2, &PAIR), (2, 2, &FOUR)], [2, 2, 2, 1], 1 << 63, [2, 12, 0]),
    ((2, 1), [(2, 2, &PAIR), (2, 2, &FOUR)], [2, 2, 2, 1], u64::MAX, [2, 12, 0]),
    ((2, 1), [(2, 2, &MORE), (2, 2, &FOUR)], [2, 2, 2, 1], 0, [1, 13, 6]),
    ((2, 1), [(2, 2, &MORE), (2, 2, &FOUR)], [2, 2, 2, 1], 1, [1, 13, 6]),
    // a bad plan and each of the others
    ((2, 3), [(2, 129, &PAIR), (2, 2, &FOUR)], [2, 2, 2, 3], 0, [2, 8, 0]),
    ((2, 3), [(2, 2, &PAIR), (2, 129, &FOUR)], [2, 2, 2, 3], 0, [2, 8, 0]),
    ((2, 3), [(2, 2, &[]), (2, 2, &FACT)], [2, 2, 2, 3], 0, [2, 8, 0]),
    ((0, 0), [(2, 128, &PAIR), (2, 128, &FOUR)], [2, 128, 0, 0], 0, [2, 8, 0]),
    ((2, 3), [(2, 2, &PAIR), (2, 2, &FOUR)], [2, 2, 2, 1], 0, [2, 8, 0]),
    ((2, 3), [(3, 2, &PAIR), (2, 2, &FOUR)], [2, 2, 2, 3], 0, [2, 8, 0]),
    ((2, 3), [(2, 2, &PAIR), (3, 2, &FOUR)], [2, 2, 2, 3], 0, [2, 8, 0]),
    ((2, 3), [(2, 2, &PAIR), (2, 2, &FOUR)], [2, 2, 2, 3], u64::MAX, [2, 8, 0]),
    ((2, 3), [(2, 2, &MORE), (2, 2, &FOUR)], [2, 2, 2, 3], 0, [2, 8, 0]),
    // a bad old sheet and each of those after it; what it reads as up to there does not matter
    ((2, 1), [(2, 129, &PAIR), (2, 129, &FOUR)], [2, 2, 2, 1], 0, [1, 5, 2]),
    ((2, 1), [(2, 129, &PAIR), (2, 2, &FACT)], [2, 2, 2, 1], 0, [1, 5, 2]),
    ((2, 1), [(2, 129, &FACT), (2, 2, &FACT)], [2, 2, 2, 1], 0, [1, 5, 2]),
    ((1, 0), [(2, 129, &PAIR), (2, 63, &FOUR)], [2, 63, 1, 0], 0, [1, 5, 2]),
    ((2, 1), [(2, 129, &PAIR), (2, 2, &FOUR)], [2, 2, 2, 2], 0, [1, 5, 2]),
    ((2, 1), [(3, 129, &PAIR), (2, 2, &FOUR)], [2, 2, 2, 1], 0, [1, 5, 2]),
    ((2, 1), [(2, 129, &PAIR), (3, 2, &FOUR)], [2, 2, 2, 1], 0, [1, 5, 2]),
    ((2, 1), [(2, 129, &PAIR), (2, 2, &FOUR)], [2, 2, 2, 1], 2, [1, 5, 2]),
    ((2, 1), [(2, 129, &MORE), (2, 2, &FOUR)], [2, 2, 2, 1], 0, [1, 5, 2]),
    // a bad longer sheet and each of those after it
    ((2, 1), [(2, 2, &FACT), (2, 129, &FACT)], [2, 2, 2, 1], 0, [2, 5, 2]),
    ((1, 0), [(2, 63, &PAIR), (2, 129, &FOUR)], [2, 63, 1, 0], 0, [2, 5, 2]),
    ((2, 1), [(2, 2, &PAIR), (2, 129, &FOUR)], [2, 2, 1, 1], 0, [2, 5, 2]),
    ((2, 1), [(3, 2, &PAIR), (2, 129, &FOUR)], [2, 2, 2, 1], 0, [2, 5, 2]),
    ((2, 1), [(2, 3, &PAIR), (2, 129, &FOUR)], [2, 2, 2, 1], 0, [2, 5, 2]),
    ((2, 1), [(2, 2, &PAIR), (3, 129, &FOUR)], [2, 2, 2, 1], 0, [2, 5, 2]),
    ((2, 1), [(2, 2, &PAIR), (2, 129, &FOUR)], [2, 2, 2, 1], u64::MAX, [2, 5, 2]),
    ((2, 1), [(2, 2, &MORE), (2, 129, &FOUR)], [2, 2, 2, 1], 0, [2, 5, 2]),
    // a Horn longer sheet and each of those after it
    ((1, 0), [(2, 63, &[]), (2, 63, &FACT)], [2, 63, 1, 0], 0, [0, 0, 0]),
    ((1, 0), [(2, 128, &FACT), (2, 128, &FACT)], [2, 128, 1, 0], 0, [0, 0, 0]),
    ((2, 1), [(2, 2, &[]), (2, 2, &FACT)], [2, 2, 3, 1], 0, [0, 0, 0]),
    ((2, 1), [(2, 2, &[]), (2, 2, &FACT)], [2, 2, 2, 2], 0, [0, 0, 0]),
    ((2, 1), [(3, 2, &[]), (2, 2, &FACT)], [2, 2, 2, 1], 0, [0, 0, 0]),
    ((2, 1), [(2, 3, &[]), (2, 2, &FACT)], [2, 2, 2, 1], 0, [0, 0, 0]),
    ((2, 1), [(2, 2, &[]), (3, 2, &FACT)], [2, 2, 2, 1], 0, [0, 0, 0]),
    ((2, 1), [(2, 2, &[]), (2, 3, &FACT)], [2, 2, 2, 1], 0, [0, 0, 0]),
    ((2, 1), [(2, 2, &[]), (2, 2, &FACT)], [2, 2, 2, 1], 2, [0, 0, 0]),
    ((2, 1), [(2, 2, &[]), (2, 2, &FACT)], [2, 2, 2, 1], u64::MAX, [0, 0, 0]),
    ((2, 1), [(2, 2, &FOUR), (2, 2, &FACT)], [2, 2, 2, 1], 0, [0, 0, 0]),
    ((2, 1), [(2, 2, &[&[-1]]), (2, 2, &FACT)], [2, 2, 2, 1], 0, [0, 0, 0]),
    // an old sheet that is Horn, or has too many balls, is no matter where the longer one is not, or has not
    ((2, 1), [(2, 2, &[]), (2, 2, &FOUR)], [2, 2, 2, 1], 2, [2, 12, 0]),
    ((2, 1), [(2, 2, &FACT), (2, 2, &FOUR)], [2, 2, 2, 1], 0, [1, 13, 3]),
    ((1, 0), [(2, 63, &PAIR), (2, 62, &FOUR)], [2, 62, 1, 0], 0, [1, 11, 0]),
    // 2^63 balls and each of those after it
    ((1, 0), [(2, 63, &PAIR), (2, 63, &FOUR)], [2, 63, 2, 0], 0, [2, 8, 0]),
    ((1, 0), [(3, 63, &PAIR), (2, 63, &FOUR)], [2, 63, 1, 0], 0, [2, 8, 0]),
    ((1, 0), [(2, 62, &PAIR), (2, 63, &FOUR)], [2, 62, 1, 0], 0, [2, 8, 0]),
    ((1, 0), [(2, 62, &PAIR), (2, 63, &FOUR)], [2, 63, 1, 0], 0, [2, 8, 0]),
    ((1, 0), [(2, 63, &PAIR), (3, 63, &FOUR)], [2, 63, 1, 0], 0, [2, 8, 0]),
    ((1, 0), [(2, 63, &PAIR), (2, 63, &FOUR)], [2, 63, 1, 0], 1 << 63, [2, 8, 0]),
    ((1, 0), [(2, 63, &MORE), (2, 63, &FOUR)], [2, 63, 1, 0], 0, [2, 8, 0]),
    // another plan and each of those after it
    ((2, 1), [(3, 2, &PAIR), (2, 2, &FOUR)], [2, 2, 2, 0], 0, [2, 11, 0]),
    ((2, 1), [(2, 2, &PAIR), (3, 2, &FOUR)], [2, 2, 1, 1], 0, [2, 11, 0]),
    ((2, 1), [(2, 2, &PAIR), (2, 2, &FOUR)], [3, 2, 1, 1], 0, [2, 11, 0]),
    ((2, 1), [(2, 2, &PAIR), (2, 2, &FOUR)], [2, 2, 2, 2], 2, [2, 11, 0]),
    ((2, 1), [(2, 2, &MORE), (2, 2, &FOUR)], [2, 2, 2, 2], 0, [2, 11, 0]),
    // another batch or n of the old sheet and each of those after it
    ((2, 1), [(3, 2, &PAIR), (3, 2, &FOUR)], [2, 2, 2, 1], 0, [1, 11, 0]),
    ((2, 1), [(2, 3, &PAIR), (3, 2, &FOUR)], [2, 2, 2, 1], 0, [1, 11, 0]),
    ((2, 1), [(3, 2, &PAIR), (2, 2, &FOUR)], [2, 2, 2, 1], 2, [1, 11, 0]),
    ((2, 1), [(3, 2, &MORE), (2, 2, &FOUR)], [2, 2, 2, 1], 0, [1, 11, 0]),
    ((2, 1), [(2, 3, &MORE), (2, 2, &FOUR)], [2, 2, 2, 1], 0, [1, 11, 0]),
    // of the longer one, and those after it; and a finished search with a clause dropped
    ((2, 1), [(2, 2, &PAIR), (3, 2, &FOUR)], [2, 2, 2, 1], 2, [2, 11, 0]),
    ((2, 1), [(2, 2, &MORE), (3, 2, &FOUR)], [2, 2, 2, 1], 0, [2, 11, 0]),
    ((2, 1), [(2, 2, &MORE), (2, 3, &FOUR)], [2, 2, 2, 1], 0, [2, 11, 0]),
    ((2, 1), [(2, 2, &MORE), (2, 2, &FOUR)], [2, 2, 2, 1], 2, [2, 12, 0]),
    ((2, 1), [(2, 2, &MORE), (2, 2, &FOUR)], [2, 2, 2, 1], u64::MAX, [2, 12, 0]),
    // all at once, and then without the first, the second and so on
    ((2, 3), [(3, 129, &MORE), (4, 129, &FACT)], [5, 2, 1, 1], u64::MAX, [2, 8, 0]),
    ((1, 0), [(3, 129, &MORE), (4, 129, &FACT)], [5, 2, 1, 1], u64::MAX, [1, 5, 2]),
    ((1, 0), [(3, 128, &MORE), (4, 129, &FACT)], [5, 2, 1, 1], u64::MAX, [2, 5, 2]),
    ((1, 0), [(3, 128, &MORE), (4, 128, &FACT)], [5, 2, 1, 1], u64::MAX, [0, 0, 0]),
    ((1, 0), [(3, 128, &MORE), (4, 128, &FOUR)], [5, 2, 1, 1], u64::MAX, [2, 8, 0]),
    ((1, 0), [(3, 62, &MORE), (4, 61, &FOUR)], [5, 2, 1, 1], u64::MAX, [2, 11, 0]),
    ((1, 0), [(3, 62, &MORE), (4, 61, &FOUR)], [5, 2, 1, 0], u64::MAX, [1, 11, 0]),
    ((1, 0), [(3, 62, &MORE), (4, 61, &FOUR)], [3, 62, 1, 0], u64::MAX, [2, 11, 0]),
    ((1, 0), [(3, 62, &MORE), (3, 62, &FOUR)], [3, 62, 1, 0], ALL, [2, 12, 0]),
    ((1, 0), [(3, 62, &MORE), (3, 62, &FOUR)], [3, 62, 1, 0], LAST, [1, 13, 6]),
];

// Whatever the budget is, and the record stays.
fn longer_refusals_agree(codes: &mut Codes) -> bool {
    DECLINED.iter().all(|(plan, pair, [batch, n, block_length, radius], next, [sheet, number, place])| {
        let [old, longer] = [given(&pair[0]), given(&pair[1])];
        let record = Checkpoint { batch: *batch, n: *n, block_length: *block_length, radius: *radius, next: *next };
        [0, 1, 2, 9, u32::MAX].into_iter().all(|budget| {
            let (verdict, marks, calls) = fact_ends(budget);
            let horn = LegReply { verdict, batch: pair[1].0, road: HORN, marks, calls, ..LegReply::default() };
            let expected = if *sheet == 0 { horn } else { LegReply::about(*sheet, *number, *place) };
            longer_to(codes, (*plan, budget), [&old, &longer], [record; 2], expected)
        })
    })
}

// Equal sheets are refused as one is by a leg. The refusals about the plan, the number of balls and a finished search name the longer one.
fn equal_refusals_agree(codes: &mut Codes) -> bool {
    REFUSALS.iter().all(|(plan, n, clauses, [batch, own_n, block_length, radius], next, number)| {
        let bytes = written(*n, clauses);
        let record = Checkpoint { batch: *batch, n: *own_n, block_length: *block_length, radius: *radius, next: *next };
        let (verdict, marks, calls) = fact_ends(9);
        let expected = match number {
            0 => LegReply { verdict, batch: 2, road: HORN, marks, calls, ..LegReply::default() },
            5 => LegReply::about(1, 5, 2),
            11 if *plan == (*block_length, *radius) => LegReply::about(1, 11, 0),
            _ => LegReply::about(2, *number, 0),
        };
        longer_to(codes, (*plan, 9), [&bytes, &bytes], [record; 2], expected)
    })
}

// What applies to a leg under plan 1, 0 before it works balls, in order, each with its reply. A longer sheet of one clause is (1), which
// is Horn; of two clauses of an old sheet the second is lacking; and a sheet that is refused is torn.
fn applying(asked: ((u32, u32), u32), [old, longer]: [&Input; 2], record: &Checkpoint) -> [(bool, LegReply); 10] {
    let (verdict, marks, calls) = fact_ends(asked.1);
    let horn = LegReply { verdict, batch: longer.batch(), road: HORN, marks, calls, ..LegReply::default() };
    let torn = |sheet, input: &Input| (input.sheet.is_err(), LegReply::about(sheet, 4, input.bytes.len() as u32 / 4));
    let is_other = |input: &Input| [input.batch(), input.n()] != [record.batch, record.n];
    let second = 4 + old.terms().first().map_or(0, |t| t.len() as u32);
    [
        (asked.0 != (1, 0), LegReply::about(2, 8, 0)),
        torn(1, old),
        torn(2, longer),
        (longer.terms().len() == 1, horn),
        (longer.n() >= 63, LegReply::about(2, 8, 0)),
        ([record.block_length, record.radius] != [1, 0], LegReply::about(2, 11, 0)),
        (is_other(old), LegReply::about(1, 11, 0)),
        (is_other(longer), LegReply::about(2, 11, 0)),
        (record.next >> longer.n().min(63) != 0, LegReply::about(2, 12, 0)),
        (old.terms().len() == 2, LegReply::about(1, 13, second)),
    ]
}

// The first of them, or else the leg by balls: the longer sheet has an empty clause, so that each of the 2^n balls is one call.
fn longer_in_order(asked: ((u32, u32), u32), pair: [&Input; 2], record: &Checkpoint) -> (LegReply, u64) {
    if let Some((_, reply)) = applying(asked, pair, record).into_iter().find(|(applies, _)| *applies) {
        return (reply, record.next);
    }
    let left = (1u64 << pair[1].n()) - record.next;
    let calls = left.min(asked.1 as u64);
    let verdict = if calls == left { 2 } else { 3 };
    let balls = LegReply { verdict, batch: pair[1].batch(), road: BALLS, calls: calls as u32, ..LegReply::default() };
    (balls, record.next + calls)
}

// The sheet, another batch, one variable more, and torn.
fn variants(n: u32, clauses: Clauses) -> [Input; 4] {
    let mut torn = written(n, clauses);
    torn.truncate(torn.len() - 4);
    [given(&(2, n, clauses)), given(&(3, n, clauses)), given(&(2, n + 1, clauses)), torn].map(Input::new)
}

// Whatever applies at once, the first in order decides. All records near the right one are tried at the last ball but one, and at
// others those that differ in one field, for a bad plan these alone.
fn longer_orders_agree(codes: &mut Codes) -> bool {
    [2, 62, 63].into_iter().all(|n: u32| {
        let olds: [Clauses; 3] = [&[&[2, 1]], &[&[2, 1], &[2]], &[&[], &[1, -2]]];
        let longers: [Clauses; 2] = [&FACT, &[&[], &[1, 2]]];
        let all = |some: &[Clauses]| -> Vec<Input> { some.iter().flat_map(|clauses| variants(n, clauses)).collect() };
        let [olds, longers] = [all(&olds), all(&longers)];
        let count = 1u64 << n;
        let right = Checkpoint { batch: 2, n, block_length: 1, radius: 0, next: count - 2 };
        let others = [0, count - 1, count, u64::MAX].map(|next| {
            let right = Checkpoint { next, ..right };
            [right, Checkpoint { batch: 3, ..right }, Checkpoint { n: n + 1, ..right }, Checkpoint { radius: 1, ..right }]
        });
        let records = [others.concat(), near(right)].concat();
        let pairs = || olds.iter().flat_map(|old| longers.iter().map(move |longer| [old, longer]));
        [((1, 0), 1), ((1, 0), 2), ((1, 2), 2), ((13, 0), 0)].into_iter().all(|asked| {
            let few = if is_plan(asked.0) { records.len() } else { 16 };
            pairs().all(|pair| {
                records[..few].iter().all(|record| {
                    let (expected, next) = longer_in_order(asked, pair, record);
                    longer_to(codes, asked, pair.map(|input| &input.bytes[..]), [*record, Checkpoint { next, ..*record }], expected)
                })
            })
        })
    })
}

// A Horn longer sheet is answered as by a run, whatever the old sheet and the record are.
fn horn_longer_agree(codes: &mut Codes) -> bool {
    ROUNDS.iter().all(|(n, clauses, (verdict, marks, rounds))| {
        let longer = written(*n, clauses);
        let olds = [longer.clone(), written(*n, &[]), written(2, &FOUR), given(&(3, 62, &PAIR))];
        let right = Checkpoint { batch: 2, n: *n, block_length: 1, radius: 0, next: 0 };
        let other = Checkpoint { batch: 3, n: 3, block_length: 2, radius: 9, next: 1 };
        let records = [right, other, Checkpoint { batch: 3, ..right }, Checkpoint { next: u64::MAX, ..right }];
        [0, rounds - 1, *rounds, u32::MAX].into_iter().all(|budget| {
            let (verdict, marks) = if budget < *rounds { (3, [0; 4]) } else { (*verdict, *marks) };
            let reply = LegReply { verdict, batch: 2, road: HORN, marks, calls: budget.min(*rounds), ..LegReply::default() };
            let mut pairs = olds.iter().flat_map(|old| records.iter().map(move |record| (old, record)));
            pairs.all(|(old, record)| longer_to(codes, ((1, 0), budget), [old, &longer], [*record; 2], reply))
        })
    })
}

// Each of a sheet's own refusals, in the old sheet and in the longer one; of two the old one's counts, and a bad plan goes before.
fn refused_pairs_agree(codes: &mut Codes) -> bool {
    let fine = [written(2, &FACT), written(2, &FOUR), written(2, &[])];
    let right = Checkpoint { batch: 2, n: 2, block_length: 1, radius: 1, next: 0 };
    let finished = Checkpoint { next: u64::MAX, ..right };
    let mut says = |plan, pair: [&[u8]; 2], reply| {
        [right, finished].into_iter().all(|record| longer_to(codes, (plan, 9), pair, [record; 2], reply))
    };
    refused_sheets().iter().all(|(bytes, number, place)| {
        let [old, longer] = [1, 2].map(|sheet| LegReply::about(sheet, *number, *place));
        fine.iter().all(|other| {
            says((1, 1), [bytes, other], old)
                && says((1, 1), [other, bytes], longer)
                && says((1, 2), [bytes, other], LegReply::about(2, 8, 0))
                && says((1, 2), [other, bytes], LegReply::about(2, 8, 0))
        }) && refused_sheets().iter().all(|(other, _, _)| says((1, 1), [bytes, other], old))
    })
}

// M is the longer sheet's. Its clauses make each ball one call.
fn longer_counts_agree(codes: &mut Codes) -> bool {
    COUNTED.iter().filter(|(plan, _, _)| plan.0 <= 9).all(|(plan, n, count)| {
        let [old, longer] = [written(*n, &[&[2, 1]]), written(*n, &[&[], &[1, 2]])];
        let pair: [&[u8]; 2] = [&old, &longer];
        let mut refuses = |next: u64, number: u32| {
            let record = Checkpoint { batch: 2, n: *n, block_length: plan.0, radius: plan.1, next };
            longer_to(codes, (*plan, 1), pair, [record; 2], LegReply::about(2, number, 0))
        };
        match *count {
            None => [0, (1 << 63) - 1, u64::MAX].into_iter().all(|next| refuses(next, 8)),
            Some(count) => {
                [count, count + 1, u64::MAX].into_iter().all(|next| refuses(next, 12))
                    && longer_ends(codes, (*plan, 1), pair, [count - 1, count], (2, [0; 4], 1))
            }
        }
    })
}

// The plan, which has two balls, the number of variables, the old and the longer clauses, the calls of the first ball on the old ones, how
// the second ends on the longer ones, and the calls of a run on those.
type Summed = ((u32, u32), u32, [Clauses; 2], u32, Ended, u32);

const SUMMED: [Summed; 6] = [
    // with (-1) the first ball has 1 not tried: a run of the longer sheet needs 2 calls there, where the old one took 3
    ((2, 1), 2, [&FOUR, &[&[1, 2], &[1, -2], &[-1, 2], &[-1, -2], &[-1]]], 3, (2, [0; 4], 3), 5),
    // with an empty clause each ball is one call
    ((2, 1), 2, [&FOUR, &[&[1, 2], &[1, -2], &[-1, 2], &[-1, -2], &[]]], 3, (2, [0; 4], 1), 2),
    // (1) changes the second ball alone, and the sum is the same
    ((2, 1), 2, [&FOUR, &[&[1, 2], &[1, -2], &[-1, 2], &[-1, -2], &[1]]], 3, (2, [0; 4], 2), 5),
    // a clause before the old ones is taken first: the legs make fewer calls than a run
    ((4, 3), 4, [&[&[1, 2], &[-1], &[-2]], &[&[3, 4], &[1, 2], &[-1], &[-2]]], 1, (2, [0; 4], 5), 8),
    // the same clauses in another order
    ((3, 1), 3, [&[&[1], &[2], &[3], &[1, 2]], &[&[1, 2], &[1], &[2], &[3]]], 2, (1, [7, 0, 0, 0], 1), 4),
    ((3, 1), 3, [&[&[1, 2], &[1], &[2], &[3]], &[&[1], &[2], &[3], &[1, 2]]], 3, (1, [7, 0, 0, 0], 1), 3),
];

// The ball that was emptied on the old sheet stays done. Verdict and marks are those of a run of the longer one, and the legs' calls
// need not add up to its calls.
fn sums_agree(codes: &mut Codes) -> bool {
    SUMMED.iter().all(|(plan, n, pair, first, last, ran)| {
        let [old, longer] = pair.map(|clauses| written(*n, clauses));
        let run = Reply { verdict: last.0, batch: 2, road: BALLS, marks: last.1, calls: *ran, ..Reply::default() };
        leg_ends(codes, (*plan, *first), &old, [0, 1], (3, [0; 4], *first))
            && longer_ends(codes, (*plan, *first), [&old, &old], [0, 1], (3, [0; 4], *first))
            && longer_ends(codes, (*plan, last.2), [&old, &longer], [1, 2], *last)
            && library_run(*plan, u32::MAX, &longer) == run
    })
}

// ---- fixed tallies

// Marks, the first numbers, and unmet.
type State = ([u32; 4], &'static [u8], u32);

// Past the first numbers every cell is 9.
fn lend(state: State) -> Lent {
    let mut met = [9; 1024];
    met[..state.1.len()].copy_from_slice(state.1);
    Lent { marks: state.0, met, unmet: state.2 }
}

// The number of variables, the clauses, what is lent, the variable, the number of the refusal, and what the toggle leaves.
type Toggle = (u32, &'static [&'static [i32]], State, u32, u32, State);

const TOGGLES: [Toggle; 38] = [
    // with n 0 there is no variable to toggle
    (0, &[], ([5, 0, 0, 0], &[], 4), 1, 10, ([5, 0, 0, 0], &[], 4)),
    (0, &[&[]], ([5, 0, 0, 0], &[3], 4), 0, 10, ([5, 0, 0, 0], &[3], 4)),
    // variable 0, the first above n, and far above, also where the low bits are those of variable 1
    (2, &[&[1], &[2]], ([1, 0, 0, 0], &[1, 0], 1), 0, 10, ([1, 0, 0, 0], &[1, 0], 1)),
    (2, &[&[1], &[2]], ([1, 0, 0, 0], &[1, 0], 1), 3, 10, ([1, 0, 0, 0], &[1, 0], 1)),
    (32, &[&[1], &[2]], ([1, 0, 0, 0], &[1, 0], 1), 33, 10, ([1, 0, 0, 0], &[1, 0], 1)),
    (127, &[&[1], &[2]], ([1, 0, 0, 0], &[1, 0], 1), 128, 10, ([1, 0, 0, 0], &[1, 0], 1)),
    (128, &[&[1], &[2]], ([1, 0, 0, 0], &[1, 0], 1), 129, 10, ([1, 0, 0, 0], &[1, 0], 1)),
    (2, &[&[1], &[2]], ([1, 0, 0, 0], &[1, 0], 1), 257, 10, ([1, 0, 0, 0], &[1, 0], 1)),
    (2, &[&[1], &[2]], ([1, 0, 0, 0], &[1, 0], 1), 0x8000_0001, 10, ([1, 0, 0, 0], &[1, 0], 1)),
    (2, &[&[1], &[2]], ([1, 0, 0, 0], &[1, 0], 1), u32::MAX, 10, ([1, 0, 0, 0], &[1, 0], 1)),
    // in sheet order: 0 loses one and stays, then gains one; counted at the end it would be 0
    (1, &[&[1], &[-1]], ([0; 4], &[0, 1], 0), 1, 0, ([1, 0, 0, 0], &[1, 0], 1)),
    // in sheet order: 1,024 gains one and stays, then loses one; counted at the end it would be 1,024
    (1, &[&[-1], &[1]], ([0; 4], &[1, 0], 1024), 1, 0, ([1, 0, 0, 0], &[0, 1], 1023)),
    // 5,000 stays where the variable is not named, and where a number moves but neither leaves 0 nor falls to it
    (2, &[&[1]], ([0; 4], &[0], 5000), 2, 0, ([2, 0, 0, 0], &[0], 5000)),
    (2, &[&[1, 2]], ([2, 0, 0, 0], &[1], 5000), 1, 0, ([3, 0, 0, 0], &[2], 5000)),
    // 0 down is brought back to 0: it has not fallen
    (1, &[&[-1]], ([0; 4], &[0], 5000), 1, 0, ([1, 0, 0, 0], &[0], 5000)),
    // 5,000 is 1,024 after losing one, and after gaining one
    (1, &[&[1]], ([0; 4], &[0], 5000), 1, 0, ([1, 0, 0, 0], &[1], 1024)),
    (1, &[&[-1]], ([0; 4], &[1], 5000), 1, 0, ([1, 0, 0, 0], &[0], 1024)),
    // the highest number gains one, and loses one
    (1, &[&[-1]], ([0; 4], &[1], u32::MAX), 1, 0, ([1, 0, 0, 0], &[0], 1024)),
    (1, &[&[1]], ([0; 4], &[0], u32::MAX), 1, 0, ([1, 0, 0, 0], &[1], 1024)),
    // 1,025 loses one, and then 1,024 loses one
    (1, &[&[1], &[1]], ([0; 4], &[0, 0], 1025), 1, 0, ([1, 0, 0, 0], &[1, 1], 1023)),
    // 0 loses one, and 1 loses two
    (1, &[&[1]], ([0; 4], &[0], 0), 1, 0, ([1, 0, 0, 0], &[1], 0)),
    (1, &[&[1], &[1]], ([0; 4], &[0, 0], 1), 1, 0, ([1, 0, 0, 0], &[1, 1], 0)),
    // 255 goes up to 256, and down to 254, before it is brought within the length
    (2, &[&[1, 2]], ([0; 4], &[255], 3), 1, 0, ([1, 0, 0, 0], &[2], 3)),
    (2, &[&[-1, 2]], ([0; 4], &[255], 3), 1, 0, ([1, 0, 0, 0], &[2], 3)),
    // one above the length, up and down
    (2, &[&[1, 2]], ([0; 4], &[3], 3), 1, 0, ([1, 0, 0, 0], &[2], 3)),
    (2, &[&[-1, 2]], ([0; 4], &[3], 3), 1, 0, ([1, 0, 0, 0], &[2], 3)),
    // a number above the length stays where the clause does not name the variable
    (2, &[&[2], &[]], ([0; 4], &[200, 201], 3), 1, 0, ([1, 0, 0, 0], &[200, 201], 3)),
    // all other bits of marks stay, also those above n
    (1, &[&[1]], ([0xffff_fffe, 0, 0, 0], &[0], 1), 1, 0, ([u32::MAX, 0, 0, 0], &[1], 0)),
    (1, &[&[1]], ([u32::MAX; 4], &[1], 0), 1, 0, ([0xffff_fffe, u32::MAX, u32::MAX, u32::MAX], &[0], 1)),
    (33, &[&[33], &[1]], ([0, 6, 7, 8], &[0, 0], 2), 33, 0, ([0, 7, 7, 8], &[1, 0], 1)),
    (64, &[&[-64]], ([5, u32::MAX, 7, 8], &[0], 1), 64, 0, ([5, 0x7fff_ffff, 7, 8], &[1], 0)),
    (96, &[&[96, 1]], ([0, 0, 0, u32::MAX], &[0], 1), 96, 0, ([0, 0, 1 << 31, u32::MAX], &[1], 0)),
    // the last variable has the highest bit
    (32, &[&[1, -32], &[32]], ([0; 4], &[1, 0], 1), 32, 0, ([1 << 31, 0, 0, 0], &[0, 1], 1)),
    (32, &[&[1, -32], &[32]], ([1 << 31, 0, 0, 0], &[0, 1], 1), 32, 0, ([0; 4], &[1, 0], 1)),
    (128, &[&[1, -128], &[128]], ([0; 4], &[1, 0], 1), 128, 0, ([0, 0, 0, 1 << 31], &[0, 1], 1)),
    (128, &[&[1, -128], &[128]], ([0, 0, 0, 1 << 31], &[0, 1], 1), 128, 0, ([0; 4], &[1, 0], 1)),
    // of four variables at the same place of the four words only one is named; no other number is at an end, where it would stay
    (98, &[&[1, 2], &[33, 34], &[65], &[97, 98]], ([1, 1, 0, 1], &[1, 1, 0, 1], 1), 65, 0, ([1; 4], &[1; 4], 0)),
    (98, &[&[-1, -2], &[-33], &[-65, 66], &[-97, -98]], ([1; 4], &[1, 0, 1, 1], 1), 33, 0, ([1, 0, 1, 1], &[1; 4], 0)),
];

fn toggles_agree() -> bool {
    TOGGLES.iter().all(|(n, clauses, before, variable, number, after)| {
        let bytes = written(*n, clauses);
        let mut got = lend(*before);
        let mut own = Tally::of(&got);
        let reply = TallyReply { number: *number, place: 0 };
        let replies = [library_toggle(&bytes, *variable, &mut got), own.toggle(&read(&bytes), *variable)];
        replies == [reply; 2] && got == lend(*after) && own == Tally::of(&got)
    })
}

// Sheets that are refused, with the number and the place.
fn refused_sheets() -> [(Vec<u8>, u32, u32); 10] {
    let head = [3 << 30 | 4, 3 << 30 | 5, 2 << 30 | 2];
    let sheet = |rest: &[u32]| -> Vec<u8> { head.iter().chain(rest).flat_map(|w| w.to_le_bytes()).collect() };
    [
        // too long goes before ragged, ragged before headless
        (vec![0; 36_877], 5, 9_219),
        (vec![0; 7], 1, 0),
        (vec![0; 8], 2, 0),
        (sheet(&[3 << 30]), 3, 3),
        (sheet(&[1 << 30 | 2, 2]), 4, 5),
        (written(129, &[]), 5, 2),
        (sheet(&[1 << 30 | 9]), 5, 3),
        (sheet(&[1 << 30; 1025]), 5, 1027),
        (sheet(&[1 << 30 | 1, 6]), 6, 4),
        (sheet(&[1 << 30 | 2, 2, 3]), 7, 5),
    ]
}

// Each of the sheet's own refusals goes before refusal 10, and leaves everything, as it does at the beginning. A run has no road then,
// and refuses a bad plan before the sheet. Splitting refuses the sheet whatever the budget.
fn refusals_agree() -> bool {
    refused_sheets().iter().all(|(bytes, number, place)| {
        let expected = TallyReply { number: *number, place: *place };
        let before = lend(([6, 7, 8, 9], &[1, 2, 3], 7));
        let mut got = before.clone();
        let toggled = [0, 1, 2, 3, 33, 129, u32::MAX].iter().all(|v| library_toggle(bytes, *v, &mut got) == expected);
        let ran = |plan, number, place| library_run(plan, 9, bytes) == Reply { number, place, ..Reply::default() };
        let refused = Reply { number: *number, place: *place, ..Reply::default() };
        let split = [0, 1, 9, u32::MAX].iter().all(|budget| library_split(*budget, bytes) == refused);
        ran((1, 1), *number, *place)
            && ran((1, 2), 8, 0)
            && split
            && toggled
            && library_begin(bytes, &mut got) == expected
            && got == before
    })
}

// A tally begins with marks 0 and the true numbers, whatever was lent.
fn begins_agree() -> bool {
    let bytes = written(2, &[&[1, -2], &[-1], &[], &[1, 2], &[-1, -2]]);
    let mut expected = Lent { marks: [0; 4], met: [0; 1024], unmet: 2 };
    expected.met[..5].copy_from_slice(&[1, 1, 0, 0, 2]);
    [([0; 4], 0), ([3, 0, 5, 1], 1), ([u32::MAX; 4], u32::MAX)].iter().all(|(marks, unmet)| {
        let mut got = lend((*marks, &[8, 0, 255], *unmet));
        library_begin(&bytes, &mut got) == TallyReply::default() && got == expected
    })
}

// Both ends of each word are paid one by one, and then held one by one. A clause of one end has its number, and no other moves.
fn tally_ends_agree() -> bool {
    [(&ENDS, 0, 8), (&HELD, 1, 0)].into_iter().all(|(literals, number, unmet)| {
        let bytes = written(128, &literals.chunks(1).collect::<Vec<&[i32]>>());
        let mut got = lend(([7, 8, 9, 10], &[], 11));
        let mut own = Tally::of(&got);
        let mut expected = Lent { marks: [0; 4], met: [0; 1024], unmet };
        expected.met[..8].fill(number);
        let begun = [library_begin(&bytes, &mut got), own.begin(&read(&bytes))];
        let mut fine = begun == [TallyReply::default(); 2] && got == expected && own == Tally::of(&expected);
        for i in (0..8).chain(0..8) {
            expected.marks[i / 2] ^= ALONE[i][i / 2];
            expected.met[i] = 1 - expected.met[i];
            expected.unmet = expected.met[..8].iter().filter(|m| **m == 0).count() as u32;
            let toggled = [library_toggle(&bytes, ENDS[i] as u32, &mut got), own.toggle(&read(&bytes), ENDS[i] as u32)];
            fine &= toggled == [TallyReply::default(); 2] && got == expected && own == Tally::of(&expected);
            fine &= library_holds(got.unmet) == (expected.unmet == 0) as u32;
        }
        fine
    })
}

// A sheet without clauses holds at once; an empty clause is false under all marks; and 1,024 clauses fall and leave together.
fn standings_agree() -> bool {
    let numbers = |clauses: &[&[i32]], toggles: &[u32]| -> Vec<u32> {
        let bytes = written(3, clauses);
        let mut got = lend(([8, 0, 0, 8], &[], 77));
        library_begin(&bytes, &mut got);
        let first = got.unmet;
        let mut after = |v: &u32| {
            library_toggle(&bytes, *v, &mut got);
            got.unmet
        };
        std::iter::once(first).chain(toggles.iter().map(&mut after)).collect()
    };
    // all eight marks of three variables
    let empty = numbers(&[&[1, 2], &[], &[-3]], &[1, 2, 1, 3, 1, 2, 1]);
    numbers(&[], &[1, 2, 3, 3]) == [0; 5]
        && empty == [2, 1, 1, 1, 2, 2, 2, 3]
        && numbers(&[&[1][..]; 1024], &[1, 2, 1, 1]) == [1024, 0, 0, 1024, 0]
        && library_holds(0) == 1
        && (0..32).all(|i| library_holds(1 << i) == 0 && library_holds(u32::MAX >> i) == 0)
}

// ---- inputs

struct Random(u64);

impl Random {
    fn next(&mut self) -> u64 {
        self.0 ^= self.0 << 13;
        self.0 ^= self.0 >> 7;
        self.0 ^= self.0 << 17;
        self.0
    }
    fn below(&mut self, n: u64) -> u64 {
        (self.next() >> 16) % n
    }
    fn range(&mut self, low: u64, high: u64) -> u64 {
        low + self.below(high - low + 1)
    }
    fn set(&mut self) -> u128 {
        (self.next() as u128) << 64 | self.next() as u128
    }
    // Other numbers, which leave these as they are.
    fn fork(&self) -> Random {
        Random(self.0.rotate_left(29) | 1)
    }
}

// A term of variables among the named ones, which are at least as many.
fn random_term(r: &mut Random, named: &[u32], length: u64) -> Vec<(u32, bool)> {
    let mut term: Vec<(u32, bool)> = Vec::new();
    while (term.len() as u64) < length {
        let v = named[r.below(named.len() as u64) as usize];
        if term.iter().all(|l| l.0 != v) {
            term.push((v, r.below(2) == 0));
        }
    }
    term
}

fn shuffle<T>(r: &mut Random, items: &mut [T]) {
    let count = items.len() as u64;
    (0..items.len()).for_each(|i| items.swap(i, r.below(count) as usize));
}

// More than 32, a third of the times one that fills a word, or is next to it.
fn large_n(r: &mut Random) -> u32 {
    match r.below(3) {
        0 => [33, 63, 64, 65, 95, 96, 97, 126, 127, 128][r.below(10) as usize],
        _ => r.range(33, 128) as u32,
    }
}

// Up to so many of more than 32 variables: ends of words, neighbours in two words, the last ones, or any.
fn few_variables(r: &mut Random, n: u32, count: u32) -> Vec<u32> {
    let border = r.range(1, (n as u64 - 1) / 32) as u32 * 32;
    let below = r.range(1, count as u64 - 1) as u32;
    let some: BTreeSet<u32> = match r.below(4) {
        0 => ENDS.iter().map(|v| *v as u32).collect(),
        1 => (0..count).map(|i| border + 1 + i - below.min(border)).collect(),
        2 => (n - count + 1..=n).collect(),
        _ => (0..count).map(|_| r.range(1, n as u64) as u32).collect(),
    };
    some.into_iter().filter(|v| *v <= n).collect()
}

// With more than 32 variables most sheets name only a few of them, and the others have fewer terms for each: a run takes longer the
// more there are, and is not more telling.
fn random_sheet(r: &mut Random) -> Sheet {
    let n = match r.below(6) {
        0 => r.range(0, 4) as u32,
        1 => r.range(0, 12) as u32,
        2 | 3 => r.range(0, 32) as u32,
        _ => large_n(r),
    };
    let named = match r.below(3) {
        0 | 1 if n > 32 => few_variables(r, n, 2 + n / 16),
        _ => (1..=n).collect(),
    };
    let each = if named.len() > 32 { 2 } else { 6 };
    let count = match r.below(40) {
        0 => r.range(900, 1024),
        1..=8 => r.range(0, 3),
        _ => r.range(0, each * named.len() as u64 + 1),
    };
    let longest = r.range(1, 8).min(named.len() as u64);
    let mut terms: Vec<Vec<(u32, bool)>> = Vec::new();
    for _ in 0..count {
        if !terms.is_empty() && r.below(12) == 0 {
            let again = terms[r.below(terms.len() as u64) as usize].clone();
            terms.push(again);
            continue;
        }
        let length = if r.below(60) == 0 { 0 } else { r.range(longest.min(2), longest) };
        terms.push(random_term(r, &named, length));
    }
    Sheet { batch: r.next() as u32, n, terms }
}

// Few variables in many short terms, none of them empty: flips that make one term true often leave a later one with one literal, and
// the next flip would leave it dead.
fn dense_sheet(r: &mut Random, n: u32, named: &[u32]) -> Sheet {
    let few = named.len() as u64;
    let longest = r.range(2, 4).min(few);
    let count = r.range(few, 5 * few);
    let mut term = || {
        let length = r.range(1, longest);
        random_term(r, named, length)
    };
    let terms = (0..count).map(|_| term()).collect();
    Sheet { batch: r.next() as u32, n, terms }
}

// Terms of 2 or 3 to 5 literals and a few of one, about as many as leave one model: a term of length c takes one of 2^c assignments.
fn mixed_sheet(r: &mut Random, n: u32, named: &[u32]) -> Sheet {
    let few = named.len() as u64;
    let longest = r.range(3, 5).min(few);
    let shortest = r.range(2, 3).min(few);
    let mut room = few * r.range(14, 28);
    let mut terms = Vec::new();
    while room > 0 {
        let length = if r.below(8) == 0 { 1 } else { r.range(shortest, longest) };
        terms.push(random_term(r, named, length));
        room = room.saturating_sub(32 >> length);
    }
    Sheet { batch: r.next() as u32, n, terms }
}

// A sheet with one literal of each variable in a term of its own, and so with one model, and a last term as in the fixed ones. The model
// is as far from one of the first whole words as the radius allows, and mostly farther from those before it.
fn forced_sheet(r: &mut Random, n: u32, blocks: &[Block]) -> Sheet {
    let mut digits = vec![0usize; blocks.len()];
    for _ in 0..(1 << r.below(10)) + r.below(10) {
        advance(blocks, &mut digits);
    }
    let mut model = whole_word(blocks, &digits);
    for (i, block) in blocks.iter().enumerate() {
        let end = blocks.get(i + 1).map_or(n, |next| next.0);
        let named: Vec<u32> = (block.0 + 1..=end).collect();
        model = random_term(r, &named, block.1 as u64).iter().fold(model, |m, l| m ^ only(l.0));
    }
    let mut terms: Vec<_> = (1..=n).map(|v| vec![(v, has(model, v))]).collect();
    shuffle(r, &mut terms);
    terms.push(vec![(1, has(model, 1)), (2, true), (3, true)]);
    Sheet { batch: r.next() as u32, n, terms }
}

// Up to 12 variables for two thirds of the sheets, and at least as many as asked; of more than 32 often only a few are named.
fn horn_variables(r: &mut Random, least: u64) -> (u32, Vec<u32>) {
    let n = match r.below(6) {
        0..=3 => r.range(least, 12) as u32,
        4 => r.range(least, 32) as u32,
        _ => large_n(r),
    };
    let few = if n > 32 && r.below(2) == 0 { few_variables(r, n, 2 + n / 16) } else { Vec::new() };
    (n, if few.len() < 2 { (1..=n).collect() } else { few })
}

// A term that holds some of these variables, mostly few, and pays the one, at any place in it. One that pays none is seldom empty.
fn horn_term(r: &mut Random, held: &[u32], paid: Option<u32>) -> Vec<(u32, bool)> {
    let others: Vec<u32> = held.iter().copied().filter(|v| Some(*v) != paid).collect();
    let most = (others.len() as u64).min(8 - paid.is_some() as u64);
    let least = most.min((paid.is_none() && r.below(40) != 0) as u64);
    let some = r.range(least, most);
    let length = r.range(least, some);
    let mut term: Vec<(u32, bool)> = random_term(r, &others, length).iter().map(|l| (l.0, false)).collect();
    if let Some(variable) = paid {
        term.insert(r.below(length + 1) as usize, (variable, true));
    }
    term
}

// Variables of which each follows from some before it, and other Horn terms of any: some of them follow too, and some end the rounds.
// The terms stand in the order of the rounds, backward, or in any order, and a few sheets repeat them up to the limit.
fn horn_sheet(r: &mut Random, n: u32, named: &[u32]) -> Sheet {
    let mut order = named.to_vec();
    shuffle(r, &mut order);
    let few = order.len() as u64;
    let mut terms: Vec<_> = (0..r.below(few + 1) as usize).map(|i| horn_term(r, &order[..i], Some(order[i]))).collect();
    let ending = [0, 1, 4][r.below(3) as usize];
    for _ in 0..r.below(2 * few + 2) {
        let paid = if few == 0 || r.below(8) < ending { None } else { Some(order[r.below(few) as usize]) };
        terms.push(horn_term(r, named, paid));
    }
    match r.below(4) {
        0 => {}
        1 => terms.reverse(),
        _ => shuffle(r, &mut terms),
    }
    if r.below(50) == 0 && !terms.is_empty() {
        let count = r.range(1000, 1024) as usize;
        terms = terms.into_iter().cycle().take(count).collect();
    }
    Sheet { batch: r.next() as u32, n, terms }
}

// A Horn sheet gets one more term, or one in place of another, with two positive literals or more, at any place, if there are two
// variables to name. Others are as they were.
fn for_balls(r: &mut Random, named: &[u32], sheet: &mut Sheet) {
    if !is_horn(sheet) || named.len() < 2 {
        return;
    }
    let length = r.range(2, 8.min(named.len() as u64));
    let mut term = random_term(r, named, length);
    term[..2].iter_mut().for_each(|l| l.1 = true);
    shuffle(r, &mut term);
    let count = sheet.terms.len() as u64;
    if count == 1024 || count > 0 && r.below(2) == 0 {
        sheet.terms[r.below(count) as usize] = term;
    } else {
        sheet.terms.insert(r.below(count + 1) as usize, term);
    }
}

// Up to three terms more, at any places: Horn ones, any, and such that hold just a variable of the marks.
fn further_sheet(r: &mut Random, sheet: &Sheet, marks: u128) -> Sheet {
    let mut more = sheet.clone();
    let all: Vec<u32> = (1..=sheet.n).collect();
    let paid: Vec<u32> = all.iter().copied().filter(|v| has(marks, *v)).collect();
    for _ in 0..r.range(1, 3) {
        let count = more.terms.len() as u64;
        let any = all.get(r.below(all.len() as u64 + 1) as usize);
        let term = match r.below(4) {
            0 if !paid.is_empty() => vec![(paid[r.below(paid.len() as u64) as usize], false)],
            1 | 2 => horn_term(r, &all, any.copied()),
            _ => {
                let length = r.range(1, 4).min(all.len() as u64);
                random_term(r, &all, length)
            }
        };
        if count < 1024 {
            more.terms.insert(r.below(count + 1) as usize, term);
        }
    }
    more
}

// Up to four variables are free, a half of the times ends of words, and up to twelve where there are not many in all.
fn free_variables(r: &mut Random, n: u32) -> Vec<u32> {
    let some: Vec<u32> = match r.below(2) {
        0 => ENDS.iter().map(|v| *v as u32).filter(|v| *v <= n).collect(),
        _ => (1..=n).collect(),
    };
    let count = r.below(if n > 24 { 5 } else { 13 });
    (0..count).map(|_| some[r.below(some.len() as u64) as usize]).collect()
}

// Terms by which a variable follows from up to two before it, near or anywhere, whatever their values are.
fn following(r: &mut Random, v: u32) -> Vec<Vec<(u32, bool)>> {
    let first = if r.below(2) == 0 { v.saturating_sub(6).max(1) } else { 1 };
    let before: Vec<u32> = (first..v).collect();
    let count = r.below(3).min(before.len() as u64);
    let from = random_term(r, &before, count);
    let mut term = |signs: u32| {
        let others = from.iter().enumerate().map(|(i, l)| (l.0, signs >> i & 1 == 1));
        others.chain([(v, r.below(2) == 0)]).collect()
    };
    (0..1 << count).map(|signs| term(signs)).collect()
}

// Each variable follows from some before it, but for a few, which are free: so splitting comes to its end, however many there
// are. A few terms of any variables end some of its branches, and a quarter of the sheets is filled up with terms that say less.
fn determined_sheet(r: &mut Random, n: u32) -> Sheet {
    let free = free_variables(r, n);
    let mut terms: Vec<_> = (1..=n).filter(|v| !free.contains(v)).flat_map(|v| following(r, v)).collect();
    let all: Vec<u32> = (1..=n).collect();
    for _ in 0..r.below(5) {
        let length = r.range(1, 4).min(n as u64);
        terms.push(random_term(r, &all, length));
    }
    if r.below(4) == 0 && !terms.is_empty() {
        fill(r, &all, &mut terms);
    }
    terms.iter_mut().for_each(|t| shuffle(r, t));
    shuffle(r, &mut terms);
    Sheet { batch: r.next() as u32, n, terms }
}

// No term is short, so that branches end late.
fn long_sheet(r: &mut Random) -> Sheet {
    let n = r.range(10, 18) as u32;
    let all: Vec<u32> = (1..=n).collect();
    let shortest = r.range(3, 5);
    let count = r.range(2, 1 << shortest) * n as u64;
    let mut term = || {
        let length = r.range(shortest, 8);
        let some = r.range(shortest, length);
        random_term(r, &all, some)
    };
    let terms = (0..count).map(|_| term()).collect();
    Sheet { batch: r.next() as u32, n, terms }
}

// Up to about the limit: each further term is another one with some literals more.
fn fill(r: &mut Random, named: &[u32], terms: &mut Vec<Vec<(u32, bool)>>) {
    let count = r.range(1000, 1024) as usize;
    while terms.len() < count {
        let mut term = terms[r.below(terms.len() as u64) as usize].clone();
        for _ in 0..r.below(4) {
            let v = named[r.below(named.len() as u64) as usize];
            if term.len() < 8 && term.iter().all(|l| l.0 != v) {
                term.push((v, r.below(2) == 0));
            }
        }
        terms.push(term);
    }
}

fn damage(r: &mut Random, bytes: &mut Vec<u8>) {
    for _ in 0..r.range(1, 3) {
        let words = (bytes.len() / 4) as u64;
        match r.below(8) {
            0 => bytes.truncate(r.below(bytes.len() as u64 + 1) as usize),
            1 => bytes.truncate(r.below(words + 1) as usize * 4),
            2 => bytes.extend((0..r.range(1, 9)).map(|_| r.0 as u8)),
            3 => (0..r.range(1, 4)).for_each(|_| bytes.extend((1u32 << 30).to_le_bytes())),
            4 if words > 2 => bytes[8..12].copy_from_slice(&(2 << 30 | r.range(30, 131) as u32).to_le_bytes()),
            _ if words > 0 => {
                let at = r.below(words) as usize;
                let word = damaged_word(r, bytes, at);
                bytes[at * 4..at * 4 + 4].copy_from_slice(&word.to_le_bytes());
            }
            _ => bytes.push(r.0 as u8),
        }
    }
}

// Words and values near the limits, a literal of the variable before, the word with one bit changed, and any word.
fn damaged_word(r: &mut Random, bytes: &[u8], at: usize) -> u32 {
    let word = |i: usize| u32::from_le_bytes([bytes[i * 4], bytes[i * 4 + 1], bytes[i * 4 + 2], bytes[i * 4 + 3]]);
    match r.below(6) {
        0 => (r.below(4) as u32) << 30 | r.below(140) as u32,
        1 => r.below([70, 262][at % 2]) as u32,
        2 => 1 << 30 | r.below(12) as u32,
        3 => word(at) ^ 1 << r.below(32),
        4 => word(at.saturating_sub(1)) ^ r.below(2) as u32,
        _ => r.next() as u32,
    }
}

fn random_bytes(r: &mut Random) -> Vec<u8> {
    match r.below(40) {
        0..=3 => (0..r.below(64)).map(|_| r.next() as u8).collect(),
        4 => vec![0; r.range(36_860, 36_900) as usize],
        5 => {
            let n = [32, 128][r.below(2) as usize];
            let mut full = Sheet { batch: 7, n, terms: Vec::new() };
            for i in 0..r.range(1022, 1026) {
                full.terms.push((0..8).map(|j| ((i as u32 + j) % n + 1, i % 3 == 0)).collect());
            }
            write(&full)
        }
        6..=18 => {
            let mut bytes = write(&random_sheet(r));
            damage(r, &mut bytes);
            bytes
        }
        _ => write(&random_sheet(r)),
    }
}

fn random_plan(r: &mut Random) -> (u32, u32) {
    let b = match r.below(400) {
        0 => r.range(11, 12),
        1..=9 => r.range(9, 10),
        10..=19 => 0,
        20..=25 => r.range(13, 40),
        _ => r.range(1, 8),
    } as u32;
    let s = if r.below(40) == 0 { b + r.below(3) as u32 } else { r.below(b as u64 + 1) as u32 };
    (b, s)
}

// A plan with few balls for so many variables, so that a search of few variables comes to its end.
fn few_balls(r: &mut Random, codes: &mut Codes, n: u32) -> (u32, u32) {
    let b = if r.below(6) == 0 { r.range(9, 12) } else { r.range(1, 8) } as u32;
    let s = r.range(b as u64 / 2, b as u64) as u32;
    let balls = blocks_of(codes, (b, s), n).iter().fold(1u64, |m, block| m.saturating_mul(block.2.len() as u64));
    if balls <= 4096 {
        (b, s)
    } else {
        (b, b)
    }
}

// Each leg makes the code anew: the longer the blocks, the rarer the legs.
fn rarity((b, _): (u32, u32)) -> u64 {
    match b {
        0..=8 => 1,
        9 => 4,
        _ => 40,
    }
}

// A plan with several balls that are not too many, if one is found. With many variables only long blocks have as few; the longest are
// rare, as above.
fn several_balls(r: &mut Random, codes: &mut Codes, n: u32) -> (u32, u32) {
    for _ in 0..8 {
        let b = r.range(1, 8) as u32;
        let plan = (b, r.below(b as u64 + 1) as u32);
        if count_balls(&blocks_of(codes, plan, n)).is_some_and(|count| (2..=4096).contains(&count)) {
            return plan;
        }
    }
    match few_balls(r, codes, n) {
        (11.., _) => few_balls(r, codes, n),
        plan => plan,
    }
}

// The record of the sheet at any ball, often one of the first or of the last, and seldom past them. A quarter of the records is of
// another search. The count is that of the balls, if there is one.
fn random_record(r: &mut Random, plan: (u32, u32), input: &Input, count: Option<u64>) -> Checkpoint {
    let count = count.unwrap_or(1 << 63);
    let next = match r.below(12) {
        0 => 0,
        1 => count - 1,
        2 => count + r.below(3),
        3 => [count ^ 1 << 32, 1 << 63, u64::MAX, r.next()][r.below(4) as usize],
        4 | 5 => count - 1 - r.below(count.min(20)),
        6..=8 => r.below(count.min(600)),
        _ => r.next() % count,
    };
    let other = Sheet { batch: r.next() as u32, n: r.below(129) as u32, terms: Vec::new() };
    let mut record = Checkpoint::of(plan, input.sheet.as_ref().unwrap_or(&other), next);
    match r.below(20) {
        0 => record.batch ^= 1 << r.below(32),
        1 => record.n ^= 1 << r.below(8),
        2 => record.block_length ^= 1 << r.below(4),
        3 => record.radius ^= 1 << r.below(4),
        4 => record = Checkpoint::of(random_plan(r), &other, next),
        _ => {}
    }
    record
}

// The sheet damaged so that it is refused.
fn spoilt(r: &mut Random, sheet: &Sheet) -> Vec<u8> {
    let mut bytes = write(sheet);
    damage(r, &mut bytes);
    if read(&bytes).is_ok() {
        bytes.push(0);
    }
    bytes
}

// The plan and the sheet of a leg that leaves the record: a bad plan, a damaged sheet, another block length, radius, n or batch, and the
// Horn terms of the sheet alone.
fn idle_leg(r: &mut Random, (b, s): (u32, u32), sheet: &Sheet) -> ((u32, u32), Vec<u8>) {
    let horn = || sheet.terms.iter().filter(|t| positive(t).count() < 2).cloned().collect();
    match r.below(7) {
        0 => ((b, b + 1 + r.below(2) as u32), spoilt(r, sheet)),
        1 => ((b, s), spoilt(r, sheet)),
        2 => ((b % 8 + 1, s.min(b % 8 + 1)), write(sheet)),
        3 => ((b, (s + 1) % (b + 1)), write(sheet)),
        4 if sheet.n < 128 => ((b, s), write(&Sheet { n: sheet.n + 1, ..sheet.clone() })),
        5 => ((b, s), write(&Sheet { terms: horn(), ..*sheet })),
        _ => ((b, s), write(&Sheet { batch: sheet.batch ^ 1 << r.below(32), ..sheet.clone() })),
    }
}

// How the old sheet and the longer one of a pair go together.
const PAIRS: [&str; 8] = [
    "equal",
    "clauses at the end",
    "clauses anywhere, in any order",
    "a clause dropped",
    "a literal changed",
    "clauses of another sheet",
    "another batch or n",
    "damaged",
];
const EQUAL: usize = 0;
const DAMAGED: usize = 7;

// In any order, with literals in any order, and some twice.
fn mix(r: &mut Random, clauses: &mut Vec<Vec<(u32, bool)>>) {
    for _ in 0..r.below(3) {
        let count = clauses.len() as u64;
        if count > 0 && count < 1024 {
            clauses.push(clauses[r.below(count) as usize].clone());
        }
    }
    clauses.iter_mut().for_each(|clause| shuffle(r, clause));
    shuffle(r, clauses);
}

// Most of the clauses, or a half, mixed.
fn some_of(r: &mut Random, sheet: &Sheet) -> Sheet {
    let rare = [2, 8, 64][r.below(3) as usize];
    let mut terms: Vec<_> = sheet.terms.iter().filter(|_| r.below(rare) != 0).cloned().collect();
    mix(r, &mut terms);
    Sheet { terms, ..*sheet }
}

// A clause of the old sheet leaves the other, however often it stands there.
fn drop_clause(r: &mut Random, old: &Sheet, longer: &mut Sheet) {
    if !old.terms.is_empty() {
        let lost = literals(&old.terms[r.below(old.terms.len() as u64) as usize]);
        longer.terms.retain(|t| literals(t) != lost);
    }
}

// One literal, if there is any, gets another sign, or a variable that its clause does not name yet.
fn change_literal(r: &mut Random, sheet: &mut Sheet) {
    let some: Vec<usize> = (0..sheet.terms.len()).filter(|i| !sheet.terms[*i].is_empty()).collect();
    if some.is_empty() {
        return;
    }
    let clause = &mut sheet.terms[some[r.below(some.len() as u64) as usize]];
    let at = r.below(clause.len() as u64) as usize;
    let variable = r.range(1, sheet.n as u64) as u32;
    if r.below(2) == 0 || clause.iter().any(|l| l.0 == variable) {
        clause[at].1 ^= true;
    } else {
        clause[at].0 = variable;
    }
}

// Clauses of any variables, as many as there were, but not more than a few.
fn exchange(r: &mut Random, sheet: &mut Sheet) {
    let all: Vec<u32> = (1..=sheet.n).collect();
    sheet.terms.truncate(20);
    for clause in &mut sheet.terms {
        let length = r.below(all.len().min(8) as u64 + 1);
        *clause = random_term(r, &all, length);
    }
}

// The sheet after an old one, and how they go together. One that is refused comes before or after another.
fn random_pair(r: &mut Random, input: &Input) -> (usize, [Vec<u8>; 2]) {
    let kind = r.below(PAIRS.len() as u64) as usize;
    let either = r.below(2) as usize;
    let Ok(sheet) = &input.sheet else {
        let mut pair = [input.bytes.clone(), random_bytes(r)];
        pair.swap(0, either);
        return (DAMAGED, pair);
    };
    let mut pair = [if kind < 2 { sheet.clone() } else { some_of(r, sheet) }, sheet.clone()];
    match kind {
        1 => pair[0].terms.truncate(r.below(sheet.terms.len() as u64 + 1) as usize),
        3 => {
            let [old, longer] = &mut pair;
            drop_clause(r, old, longer);
        }
        4 => change_literal(r, &mut pair[either]),
        5 => exchange(r, &mut pair[0]),
        6 if r.below(2) == 0 => pair[either].batch ^= 1 << r.below(32),
        6 => pair[either].n ^= 1 << r.below(7),
        _ => {}
    }
    let mut bytes = pair.map(|sheet| write(&sheet));
    if kind == DAMAGED {
        damage(r, &mut bytes[either]);
    }
    (kind, bytes)
}

// A clause that these marks do not meet, not longer than the longest of the sheet.
fn against(r: &mut Random, sheet: &Sheet, marks: u128) -> Vec<(u32, bool)> {
    let all: Vec<u32> = (1..=sheet.n).collect();
    let length = r.range(1, longest_term(sheet) as u64);
    random_term(r, &all, length).iter().map(|l| (l.0, !has(marks, l.0))).collect()
}

// The sheet with up to three clauses of the pool, and with some against assignments that the leg would find, so that the search goes on.
// For a half of the sheets all are mixed, and repeats are dropped.
fn arrived(r: &mut Random, codes: &mut Codes, asked: ((u32, u32), u32), [pool, sheet]: [&Sheet; 2], record: &Checkpoint) -> Sheet {
    let mut longer = sheet.clone();
    for _ in 0..r.below(4) {
        longer.terms.push(pool.terms[r.below(pool.terms.len() as u64) as usize].clone());
    }
    for _ in 0..r.below(8) {
        let found = leg(codes, asked.0, asked.1, &write(&longer), &mut record.clone());
        if found.verdict != 1 {
            break;
        }
        longer.terms.push(against(r, pool, join(found.marks)));
    }
    if r.below(2) == 0 {
        let mut seen = BTreeSet::new();
        longer.terms.retain(|t| seen.insert(literals(t)));
        mix(r, &mut longer.terms);
    }
    longer
}

// The plan and the sheets of a leg that leaves the record: a bad plan, another one, another batch or n of either sheet, the Horn clauses
// of the longer one alone, an old clause dropped, and either sheet damaged.
fn idle_pair(r: &mut Random, (b, s): (u32, u32), sheets: [&Sheet; 2]) -> ((u32, u32), [Vec<u8>; 2]) {
    let mut plan = (b, s);
    let mut pair = sheets.map(Sheet::clone);
    let either = r.below(2) as usize;
    let kind = r.below(7);
    match kind {
        0 => plan.1 = b + 1,
        1 => plan = (b % 8 + 1, s.min(b % 8 + 1)),
        2 => pair[either].batch ^= 1 << r.below(32),
        3 if pair[either].n < 128 => pair[either].n += 1,
        4 => pair[1].terms.retain(|t| positive(t).count() < 2),
        5 if !pair[0].terms.is_empty() => drop_clause(r, sheets[0], &mut pair[1]),
        _ => {
            let mut bytes = pair.map(|sheet| write(&sheet));
            bytes[either] = spoilt(r, sheets[either]);
            return (plan, bytes);
        }
    }
    (plan, pair.map(|sheet| write(&sheet)))
}

// Two terms of the sheet, and for an eighth of the sheets also the first, the last, and two past the last. A sheet that is
// refused has no terms: there the numbers are those of 1,024 terms.
fn random_clauses(r: &mut Random, sheet: &Result<Sheet, Refused>) -> Vec<u32> {
    let count = sheet.as_ref().map_or(1024, |sheet| sheet.terms.len() as u32);
    let mut clauses: Vec<u32> = (0..2).map(|_| r.below(count.max(1) as u64) as u32).collect();
    if r.below(8) == 0 {
        clauses.extend([0, count.saturating_sub(1), count, u32::MAX]);
    }
    clauses
}

// Marks and flipped variables of all 128 bits, whatever the sheet has. A quarter of the sets spares the literals that are met.
fn random_question(r: &mut Random, clause: u32, term: &[(u32, bool)]) -> Question {
    let marks = match r.below(12) {
        0 => 0,
        1 => u128::MAX,
        _ => r.set(),
    };
    let some = r.set();
    let spared = term.iter().filter(|l| met(l, marks)).fold(some, |f, l| f & !only(l.0));
    let flipped = match r.below(8) {
        0 => 0,
        1 => u128::MAX,
        2 => marks,
        3 => some & r.set(),
        4 | 5 => spared,
        _ => some,
    };
    Question { clause, marks, flipped }
}

// The most calls of splitting that are gone through here: the fewer, the more terms each of them reads.
fn most_tried(r: &mut Random, stream: usize, terms: usize) -> u32 {
    let reads = match stream {
        FOR_SPLITTING => 4_000_000,
        _ if r.below(40) == 0 => 400_000,
        // most need very many, since they name few variables
        SPREAD => 10_000,
        _ => 40_000,
    };
    (reads / (8 + terms as u32)).clamp(20, 10_000)
}

// Budgets beside the most: for small sheets each up to one more than needed, for others one that is about as many, or fewer.
fn other_budgets(r: &mut Random, stream: usize, whole: Option<Whole>, most: u32) -> Vec<u32> {
    match whole {
        Some((_, calls)) if stream == SMALL => (0..=calls as u32 + 1).collect(),
        Some((_, calls)) => vec![[calls - 1, calls, calls + 1, r.below(calls)][r.below(4) as usize] as u32],
        None => vec![r.below(most as u64) as u32],
    }
}

// For a half of the toggles a variable of a false term, if there is one, so that sheets come to hold. A few name no variable.
fn random_variable(r: &mut Random, input: &Input, marks: u128) -> u32 {
    let n = input.n();
    let lost = input.terms().iter().find(|t| !t.is_empty() && !is_true(t, marks));
    match (r.below(40), lost) {
        (0, _) => 0,
        (1, _) => n + 1,
        (2, _) => u32::MAX - r.below(3) as u32,
        (3, _) => r.range(1, 140) as u32,
        (4, _) => 1 << r.below(32) | r.below(129) as u32,
        (5..=20, Some(term)) => term[r.below(term.len() as u64) as usize].0,
        _ => r.range(1, n.max(1) as u64) as u32,
    }
}

// Any numbers: those at the limits, those of true tallies, and others.
fn random_lent(r: &mut Random) -> Lent {
    let mut some = [0, 1, 2, 8, 9, 254, 255, 0, 0, 0, 0, 0, 0, 0, 0, 0];
    some[7..12].fill_with(|| r.below(10) as u8);
    some[12..].fill_with(|| r.below(256) as u8);
    let unmet = match r.below(10) {
        at @ 0..=7 => [0, 1, 2, 1023, 1024, 1025, 5000, u32::MAX][at as usize],
        8 => r.below(1025) as u32,
        _ => r.next() as u32,
    };
    let mut lent = Lent { marks: words_of(r.set()), met: [0; 1024], unmet };
    lent.met.fill_with(|| some[r.below(16) as usize]);
    lent
}

// The sheet, one like it or nearly, another, and the sheet damaged.
fn random_family(r: &mut Random, bytes: &[u8]) -> [Input; 4] {
    let mut damaged = bytes.to_vec();
    damage(r, &mut damaged);
    [bytes.to_vec(), relative(r, bytes), write(&random_sheet(r)), damaged].map(Input::new)
}

// ---- the comparison

// Where the sheet of a run comes from.
const STREAMS: [&str; 9] = [
    "inputs",
    "dense sheets",
    "spread sheets",
    "forced sheets",
    "mixed sheets",
    "small sheets, all there are",
    "Horn sheets",
    "nearly Horn sheets",
    "Horn inputs made nearly Horn",
];

// Two of them, and one more whose sheets are for splitting first of all, and run by the library alone.
const SPREAD: usize = 2;
const SMALL: usize = 5;
const FOR_SPLITTING: usize = STREAMS.len();

// What agreed of splitting. Kinds and large are as below, numbers those of refusals; paid are clear answers with bits in each of
// the words, and long clear and none ones with more than 1,000 calls. Just are answers with one call fewer than needed, as many,
// and one more. Trials are clear and none answers that all assignments were tried for, and counted those whose calls were counted
// by their beginnings. Both are answers beside those of a run, by road and verdict, and further those of a sheet with more terms
// by splitting after a run, by a run after splitting, and by splitting twice, all three by the first verdict.
#[derive(Default)]
struct Splits {
    kinds: [[u64; 4]; STREAMS.len() + 1],
    large: [[u64; 4]; STREAMS.len() + 1],
    numbers: [u64; 8],
    paid: [u64; 4],
    long: [u64; 2],
    just: [u64; 3],
    trials: [u64; 2],
    counted: u64,
    both: [[u64; 2]; 3],
    budgets: u64,
    further: [[u64; 3]; 2],
    alikes: u64,
}

// The searches in legs.
const SEARCHES: [&str; 3] = ["any budgets and idle legs in between", "enough for a ball in each leg", "a growing sheet"];
const ENOUGH: usize = 1;
const GROWING: usize = 2;

// Answers of legs. Kinds are by road and verdict, and large those for more than 32 variables. Later are answers by balls from one that
// is not the first, and moved spent ones after at least one ball. Meant are clear answers whose marks were tried, and none and spent
// ones that all assignments were tried for.
#[derive(Default)]
struct Answers {
    kinds: [[u64; 4]; 3],
    large: [[u64; 4]; 3],
    later: u64,
    moved: u64,
    meant: [u64; 3],
}

impl Answers {
    fn note(&mut self, input: &Input, [before, after]: [u64; 2], got: &LegReply, meant: bool) {
        let [road, verdict] = [got.road as usize, got.verdict as usize];
        self.kinds[road][verdict] += 1;
        self.large[road][verdict] += (input.sheet.is_ok() && input.n() > 32) as u64;
        self.later += (got.road == BALLS && before > 0) as u64;
        self.moved += (verdict == 3 && after > before) as u64;
        if meant {
            self.meant[verdict - 1] += 1;
        }
    }

    fn print(&self) {
        let Answers { kinds, large, later, moved, .. } = self;
        let by = |[_, clear, none, spent]: [u64; 4]| format!("clear {} none {} spent {}", clear, none, spent);
        let all: u64 = kinds.iter().flatten().sum();
        println!("{} legs: refused {}, by rounds {}, by balls {}", all, kinds[0][0], by(kinds[1]), by(kinds[2]));
        println!("    with n above 32: by rounds {}, by balls {}", by(large[1]), by(large[2]));
        println!("    from a ball that is not the first {} spent after some balls {}", later, moved);
    }

    fn print_meant(&self) {
        let [clear, none, spent] = self.meant;
        println!("clear marks tried {} all assignments tried, n up to 10: none {} spent {}", clear, none, spent);
    }
}

// What agreed of legs. Numbers are those of refusals, and budgets answers under larger budgets. Searches are by kind and verdict, made
// the legs in them, idle those in between, and full the searches with as many legs as balls. Trials are the searches whose end all
// assignments were tried for.
#[derive(Default)]
struct Legs {
    answers: Answers,
    numbers: [u64; 13],
    budgets: u64,
    searches: [[u64; 2]; SEARCHES.len()],
    made: [u64; SEARCHES.len()],
    idle: u64,
    full: u64,
    trials: u64,
}

// What agreed of legs of two sheets. Numbers are those of refusals, by the sheet that they are about. Pairs are by kind: answered, refused
// for a dropped clause, and for anything else. Alone are legs of the longer sheet alone that gave the same. Searches are those
// during which clauses arrive, with any budgets and with enough for a ball in each leg, by verdict; made are their legs by balls, horn
// those by rounds, and idle, full and trials are as above. Sums are the searches whose legs made fewer calls than a run of the
// last sheet, as many, and more.
#[derive(Default)]
struct Longers {
    answers: Answers,
    numbers: [[u64; 14]; 3],
    pairs: [[u64; 3]; PAIRS.len()],
    alone: u64,
    searches: [[u64; 2]; 2],
    made: [u64; 2],
    horn: u64,
    idle: u64,
    full: u64,
    trials: u64,
    sums: [u64; 3],
}

// A search during which clauses arrive: the sheets so far, of which the last one was searched last, the record, and the legs by balls
// with their calls.
struct Arriving {
    sheets: Vec<Sheet>,
    record: Checkpoint,
    legs: u64,
    calls: u64,
}

impl Arriving {
    // The one that was searched last, or for a quarter of the legs any one.
    fn old(&self, r: &mut Random) -> &Sheet {
        let last = self.sheets.len() - 1;
        &self.sheets[if r.below(4) == 0 { r.below(last as u64 + 1) as usize } else { last }]
    }
}

// How many answers of each kind agreed, how often each saying applied, and how many disagreements. Kinds, large and parts are numbers of
// each stream: all answers by road and verdict, those for more than 32 variables, and the clear and none ones with each of the parts of
// papers 4, 6 and 7. For each of the four words of an assignment, tried counts the runs with a code word that has bits there, and paid
// such clear answers. Trials are the clear and none answers that all assignments were tried for, and least the clear marks of Horn
// sheets that were compared with all models, or with the marks of a sheet with more terms. Within, budgets, further and alikes are by
// road.
#[derive(Default)]
struct Totals {
    kinds: [[[u64; 4]; 3]; STREAMS.len()],
    large: [[u64; 4]; STREAMS.len()],
    parts: [[u64; PARTS.len()]; STREAMS.len()],
    tried: [u64; 4],
    paid: [u64; 4],
    trials: [u64; 2],
    least: [u64; 2],
    within: [u64; 3],
    budgets: [u64; 3],
    further: [[u64; 3]; 2],
    alikes: [u64; 3],
    numbers: [u64; 10],
    pairs: [u64; 3],
    terms: [u64; 4],
    sayings: [u64; 3],
    cleared: u64,
    begun: [u64; 2],
    toggles: [u64; 4],
    twice: u64,
    holding: u64,
    splits: Splits,
    legs: Legs,
    longers: Longers,
    failed: u64,
}

impl Totals {
    fn check(&mut self, fine: bool, tell: impl FnOnce() -> String) {
        if !fine {
            self.failed += 1;
            println!("{}", tell());
        }
    }

    fn fixed(&mut self, codes: &mut Codes) {
        self.check(sources_agree(), || "an example of the sources differs".into());
        self.check(counts_agree(codes), || "a fixed run differs".into());
        self.check(rounds_agree(codes), || "a fixed run of a Horn sheet differs".into());
        self.check(chains_agree(codes), || "a run of a chain differs".into());
        self.check(orders_agree(codes), || "a run of a Horn sheet with a clause at some place that ends it differs".into());
        self.check(roads_agree(codes), || "a run with a Horn clause, or one that is not, at some place of 1,024 differs".into());
        self.check(heads_agree(codes), || "a run with a positive literal at some place of its clause differs".into());
        self.check(horn_ends_agree(codes), || "a run of a Horn sheet with literals at the ends of words differs".into());
        self.check(splits_agree(), || "a fixed sheet differs by splitting".into());
        self.check(literals_agree(), || "a literal, or both of a variable, differs by splitting".into());
        self.check(split_ends_agree(), || "a sheet with literals at the ends of words differs by splitting".into());
        self.check(split_orders_agree(), || "a clause in some order differs by splitting".into());
        self.check(split_seats_agree(), || "a sheet with a clause at some place of 1,024 differs by splitting".into());
        self.check(split_repeats_agree(), || "a sheet with a repeated clause differs by splitting".into());
        self.check(split_chains_agree(), || "a chain differs by splitting".into());
        self.check(frames_agree(), || "a sheet with few free variables differs by splitting".into());
        self.check(full_agree(), || "a sheet of full length differs by splitting".into());
        self.check(places_agree(codes), || "a run with a term at some place that is dead, or would be, differs".into());
        self.check(choices_agree(codes), || "a run with a short term or a lone opposite at some place differs".into());
        self.check(seats_agree(codes), || "a run with a lone opposite at some place of 1,024 differs".into());
        self.check(passed_agree(codes), || "a run with many false terms passed over differs".into());
        self.check(repeats_agree(codes), || "a run with a repeated term differs".into());
        self.check(limits_agree(codes), || "the limit on the number of variables differs".into());
        self.check(variables_agree(), || "the reading of a variable differs".into());
        self.check(ends_agree(codes), || "a run with a literal at the end of a word differs".into());
        self.check(cores_agree(codes), || "a run without a model across two words differs".into());
        self.check(spares_agree(codes), || "a run with a lone opposite at the end of a word differs".into());
        self.check(ways_agree(codes), || "a run with some literals of a term flipped and some spared differs".into());
        self.check(holds_agree(codes), || "a run with two lone opposites at the ends of words differs".into());
        self.check(forced_agree(codes), || "a run with one model in four words differs".into());
        self.check(clauses_agree(), || "how a fixed term stands differs".into());
        self.check(pairs_agree(), || "a fixed pair differs".into());
        self.check(nothing_agrees(), || "an answer to an empty buffer differs".into());
        self.check(codes_agree(codes), || "codes, volumes or floors differ".into());
        let closing = (1..=12).all(|t| (0..=t).all(|s| closing_holds(t, s)));
        self.check(closing, || "a code closes too slowly, or has too many words".into());
        self.check(begins_agree(), || "the beginning of a fixed tally differs".into());
        self.check(toggles_agree(), || "a fixed toggle differs".into());
        self.check(tally_ends_agree(), || "a fixed tally at the end of a word differs".into());
        self.check(refusals_agree(), || "a refusal of a fixed tally differs".into());
        self.check(standings_agree(), || "what a fixed tally says of all terms differs".into());
    }

    fn fixed_legs(&mut self, codes: &mut Codes) {
        self.check(legs_agree(codes), || "a fixed leg differs".into());
        self.check(each_ball_agrees(codes), || "a leg from some ball with some budget differs".into());
        self.check(forced_legs_agree(codes), || "a leg with one model in four words differs".into());
        self.check(ball_counts_agree(codes), || "a leg at the first or last balls, or past them, differs".into());
        self.check(last_balls_agree(codes), || "a leg from the last two balls differs".into());
        self.check(centres_agree(codes), || "a leg from the ball around its model differs".into());
        self.check(leg_refusals_agree(codes), || "a refusal of a fixed leg differs".into());
        self.check(leg_orders_agree(codes), || "a leg where several refusals apply differs".into());
        self.check(horn_legs_agree(codes), || "a leg of a Horn sheet differs".into());
        self.check(first_legs_agree(codes), || "a leg from the start differs from a fixed run".into());
        self.check(refused_sheets_agree(codes), || "a leg of a sheet that is refused differs".into());
    }

    fn fixed_longer(&mut self, codes: &mut Codes) {
        self.check(longer_legs_agree(codes), || "a fixed leg after an old sheet differs".into());
        self.check(each_longer_agrees(codes), || "a leg after an old sheet from some ball with some budget differs".into());
        self.check(kept_agree(codes), || "a leg of a sheet that has the old clauses differs".into());
        self.check(dropped_agree(codes), || "the refusal of a sheet that lacks an old clause differs".into());
        self.check(dropped_seats_agree(codes), || "the refusal for a clause at some place of 1,024 differs".into());
        self.check(longest_agree(codes), || "a leg of the longest sheets differs".into());
        self.check(longer_refusals_agree(codes), || "a refusal of a fixed pair of sheets differs".into());
        self.check(equal_refusals_agree(codes), || "a refusal of two equal sheets differs".into());
        self.check(longer_orders_agree(codes), || "a leg of two sheets where several refusals apply differs".into());
        self.check(horn_longer_agree(codes), || "a leg of a longer sheet that is Horn differs".into());
        self.check(refused_pairs_agree(codes), || "a leg of two sheets of which one is refused differs".into());
        self.check(longer_counts_agree(codes), || "a leg of two sheets at the last ball, or past it, differs".into());
        self.check(sums_agree(codes), || "two legs between which clauses arrive differ".into());
    }

    fn alike(&mut self, r: &mut Random, bytes: &[u8]) {
        let other = relative(r, bytes);
        let expected = alike(bytes, &other);
        self.pairs[expected.answer as usize] += 1;
        let fine = library_alike(bytes, &other) == expected;
        self.check(fine, || format!("alike {:?} {:?}: expected {:?}", bytes, other, expected));
    }

    fn run(&mut self, r: &mut Random, codes: &mut Codes, bytes: &[u8]) -> Reply {
        let plan = random_plan(r);
        let high = [0, 1, 2, 30, 400, 3000][r.below(6) as usize];
        let budget = r.below(high + 1) as u32;
        let got = self.compare(r, codes, 0, (plan, budget), bytes);
        if got.road == HORN {
            self.made_nearly(r, codes, (plan, budget), bytes);
        }
        got
    }

    // With a radius above 1 many a call has flipped all variables of some term but one.
    fn dense(&mut self, r: &mut Random, codes: &mut Codes) {
        let b = r.range(2, 8);
        let plan = (b as u32, r.range(2, b) as u32);
        let n = r.range(3, 10) as u32;
        let all: Vec<u32> = (1..=n).collect();
        let mut sheet = dense_sheet(r, n, &all);
        for_balls(r, &all, &mut sheet);
        self.compare(r, codes, 1, (plan, 3000), &write(&sheet));
    }

    // With a large radius the search goes on until most terms are short, and many literals have lone opposites.
    fn mixed(&mut self, r: &mut Random, codes: &mut Codes) {
        let n = r.range(4, 9) as u32;
        let b = r.range(3, n as u64) as u32;
        let plan = (b, r.range(b as u64 / 2, b as u64) as u32);
        let all: Vec<u32> = (1..=n).collect();
        let mut sheet = mixed_sheet(r, n, &all);
        for_balls(r, &all, &mut sheet);
        self.compare(r, codes, 4, (plan, 10_000), &write(&sheet));
    }

    // A dense sheet, or a mixed one, whose variables are spread over the words.
    fn spread(&mut self, r: &mut Random, codes: &mut Codes) {
        let n = large_n(r);
        let plan = few_balls(r, codes, n);
        let count = r.range(3, 10) as u32;
        let named = few_variables(r, n, count);
        let mut sheet = if r.below(2) == 0 { dense_sheet(r, n, &named) } else { mixed_sheet(r, n, &named) };
        for_balls(r, &named, &mut sheet);
        self.compare(r, codes, 2, (plan, 10_000), &write(&sheet));
    }

    // Blocks of many lengths lie across the ends of words, and whole words with bits there are tried before the model is found. It
    // takes at most 522 balls of 129 calls.
    fn forced(&mut self, r: &mut Random, codes: &mut Codes) {
        let n = large_n(r);
        let b = r.range(2, 12) as u32;
        let plan = (b, r.range(b as u64 / 3, b as u64 - 1) as u32);
        let bytes = write(&forced_sheet(r, n, &blocks_of(codes, plan, n)));
        self.compare(r, codes, 3, (plan, 100_000), &bytes);
    }

    // Every sheet of up to three variables and three terms, each term in the order of its variables.
    fn small(&mut self, r: &mut Random, codes: &mut Codes) {
        for (n, count) in (0..=3u32).flat_map(|n| (0..=3u32).map(move |count| (n, count))) {
            let kinds = 3u32.pow(n);
            let term = |kind: u32| -> Vec<(u32, bool)> {
                let signs = (1..=n).map(|v| (v, kind / 3u32.pow(v - 1) % 3));
                signs.filter(|(_, sign)| *sign != 2).map(|(v, sign)| (v, sign == 1)).collect()
            };
            for code in 0..kinds.pow(count) {
                let terms = (0..count).map(|i| term(code / kinds.pow(i) % kinds)).collect();
                let b = r.range(1, 3) as u32;
                let plan = (b, r.range(0, b as u64) as u32);
                self.compare(r, codes, 5, (plan, 100), &write(&Sheet { batch: code, n, terms }));
            }
        }
    }

    // The budget is about as large as the number of rounds for a half of the sheets, and larger for the others.
    fn horn(&mut self, r: &mut Random, codes: &mut Codes) {
        let (n, named) = horn_variables(r, 0);
        let plan = random_plan(r);
        let budget = [r.below(n as u64 + 3), 1000][r.below(2) as usize] as u32;
        let sheet = horn_sheet(r, n, &named);
        let got = self.compare(r, codes, 6, (plan, budget), &write(&sheet));
        let again = few_balls(r, codes, n);
        self.owed(r, again, &sheet, &got);
    }

    fn nearly(&mut self, r: &mut Random, codes: &mut Codes) {
        let (n, named) = horn_variables(r, 2);
        let plan = few_balls(r, codes, n);
        let mut sheet = horn_sheet(r, n, &named);
        for_balls(r, &named, &mut sheet);
        let got = self.compare(r, codes, 7, (plan, 3000), &write(&sheet));
        self.owed(r, plan, &sheet, &got);
        let mut fewer = sheet.clone();
        fewer.terms.retain(|t| positive(t).count() < 2);
        self.further(&fewer, &sheet, &library_run(plan, 3000, &write(&fewer)), &got);
    }

    // So that the balls have as many inputs as they had without the straight road.
    fn made_nearly(&mut self, r: &mut Random, codes: &mut Codes, asked: ((u32, u32), u32), bytes: &[u8]) {
        let Ok(mut sheet) = read(bytes) else {
            return;
        };
        sheet.n = sheet.n.max(2);
        let all: Vec<u32> = (1..=sheet.n).collect();
        for_balls(r, &all, &mut sheet);
        self.compare(r, codes, 8, asked, &write(&sheet));
    }

    // What a clear or none owes: clear marks hold, by the tally too, and the verdicts of a sheet with more terms, and of one alike, go
    // with it.
    fn owed(&mut self, r: &mut Random, plan: (u32, u32), sheet: &Sheet, got: &Reply) {
        if !got.decided() {
            return;
        }
        let bytes = write(sheet);
        if got.verdict == 1 && r.below(1 + bytes.len() as u64 / 256) == 0 {
            self.cleared(&bytes, got.marks);
        }
        let more = further_sheet(r, sheet, join(got.marks));
        self.further(sheet, &more, got, &library_run(plan, 3000, &write(&more)));
        let other = relative(r, &bytes);
        if library_alike(&bytes, &other).answer == 1 {
            self.like(&bytes, &other, got, &library_run(plan, 3000, &other));
        }
    }

    // With any budget that is large enough the answer is the same, and with one less it is spent.
    fn budgets(&mut self, r: &mut Random, plan: (u32, u32), bytes: &[u8], got: &Reply) {
        let same = [0, 1, 1 + r.below(1000) as u32, u32::MAX].iter().all(|more| {
            library_run(plan, got.calls.saturating_add(*more), bytes) == *got
        });
        let less = got.calls - 1;
        let spent = library_run(plan, less, bytes) == Reply { verdict: 3, marks: [0; 4], calls: less, ..*got };
        self.budgets[got.road as usize] += 1;
        self.check(same && spent, || format!("plan {:?} sheet {:?}: {:?} is not kept by other budgets", plan, bytes, got));
    }

    // A sheet with more terms is never clear after a none, whichever roads they take. Where the first is Horn, its clear marks are
    // within those of the other, which are a model of it.
    fn further(&mut self, sheet: &Sheet, more: &Sheet, got: &Reply, later: &Reply) {
        if !got.decided() || !later.decided() {
            return;
        }
        self.further[got.verdict as usize - 1][(got.road + later.road) as usize - 2] += 1;
        let horn = got.road == HORN && later.verdict == 1;
        self.least[1] += horn as u64;
        let fine = got.verdict <= later.verdict && (!horn || join(got.marks) & !join(later.marks) == 0);
        self.check(fine, || format!("{:?}: {:?}, with more terms {:?}: {:?}", sheet, got, more, later));
    }

    // Alike sheets take the same road and do not get opposite verdicts, and Horn ones that are clear have the same marks, the least.
    fn like(&mut self, bytes: &[u8], other: &[u8], got: &Reply, later: &Reply) {
        let same = got.verdict == later.verdict && (got.road != HORN || got.marks == later.marks);
        self.alikes[got.road as usize] += later.decided() as u64;
        let fine = got.road == later.road && (!later.decided() || same);
        self.check(fine, || format!("sheet {:?}: {:?}, alike {:?}: {:?}", bytes, got, other, later));
    }

    // Sheets of the other streams, of each about as many as its share of the inputs.
    fn others(&mut self, flips: &mut Random, spreads: &mut Random, rounds: &mut Random, codes: &mut Codes) {
        if flips.below(4) == 0 {
            self.dense(flips, codes);
            self.mixed(flips, codes);
        }
        if spreads.below(5) == 0 {
            self.spread(spreads, codes);
        }
        if spreads.below(25) == 0 {
            self.forced(spreads, codes);
        }
        if rounds.below(7) == 0 {
            self.horn(rounds, codes);
            self.nearly(rounds, codes);
        }
    }

    // The first of asked is the plan, the second the budget. The answer of the library is handed on.
    fn compare(&mut self, r: &mut Random, codes: &mut Codes, stream: usize, asked: ((u32, u32), u32), bytes: &[u8]) -> Reply {
        let (plan, mut budget) = asked;
        let (mut expected, mut notes) = run(codes, plan, budget, bytes);
        if expected.decided() && r.below(2) == 0 {
            // the last call needed is not one too many, and one call fewer is not enough
            budget = expected.calls - r.below(2) as u32;
            (expected, notes) = run(codes, plan, budget, bytes);
        }
        let got = library_run(plan, budget, bytes);
        if got == expected {
            self.note(stream, &expected, &notes);
        }
        self.check(got == expected, || {
            format!("plan {:?} budget {} sheet {:?}: expected {:?}, got {:?}", plan, budget, bytes, expected, got)
        });
        if let (0, Ok(sheet)) = (expected.number, read(bytes)) {
            self.trial(&sheet, &got);
            self.bounded(plan, &sheet, &got);
            if got.decided() && r.below(8) == 0 {
                self.budgets(r, plan, bytes, &got);
            }
        }
        let mut fork = r.fork();
        self.split(&mut fork, stream, plan, bytes, &got);
        self.legs(&mut fork, codes, plan, bytes);
        self.longer_legs(&mut fork.fork(), codes, plan, bytes);
        got
    }

    // Most of them come to their end, many after more calls than other sheets.
    fn for_splitting(&mut self, r: &mut Random) {
        let n = if r.below(3) == 0 { r.range(1, 32) as u32 } else { large_n(r) };
        let sheet = if r.below(3) == 0 { long_sheet(r) } else { determined_sheet(r, n) };
        let b = r.range(1, 8) as u32;
        let bytes = write(&sheet);
        let ran = library_run((b, b), 1000, &bytes);
        self.split(r, FOR_SPLITTING, (b, b), &bytes, &ran);
    }

    // Splitting the sheet of a run. The whole answer is compared, with the most calls that are gone through here and with others.
    fn split(&mut self, r: &mut Random, stream: usize, plan: (u32, u32), bytes: &[u8], ran: &Reply) {
        let input = Input::new(bytes.to_vec());
        let most = most_tried(r, stream, input.terms().len());
        let whole = input.sheet.as_ref().ok().and_then(|sheet| splitting(sheet, most as u64));
        let got = self.split_with(&input, whole, most);
        for budget in other_budgets(r, stream, whole, most) {
            self.split_with(&input, whole, budget);
        }
        self.note_split(stream, &input, &got);
        let Ok(sheet) = &input.sheet else {
            return;
        };
        self.both(sheet, ran, &got);
        if got.decided() {
            self.first_model(sheet, &got);
        }
        if r.below(16) == 0 {
            self.split_further(r, plan, sheet, [ran, &got]);
            self.split_alike(r, &input, most, &got);
            self.split_budgets(r, &input, &got);
        }
    }

    fn split_with(&mut self, input: &Input, whole: Option<Whole>, budget: u32) -> Reply {
        let expected = split_reply(&input.sheet, whole, budget);
        let got = library_split(budget, &input.bytes);
        if let Some((_, calls)) = whole {
            (0..3).for_each(|i| self.splits.just[i] += (budget as u64 + 1 == calls + i as u64) as u64);
        }
        let tell = || format!("split {} sheet {:?}: expected {:?}, got {:?}", budget, input.bytes, expected, got);
        self.check(got == expected, tell);
        got
    }

    fn note_split(&mut self, stream: usize, input: &Input, got: &Reply) {
        let verdict = got.verdict as usize % 4;
        self.splits.kinds[stream][verdict] += 1;
        self.splits.large[stream][verdict] += (input.sheet.is_ok() && input.n() > 32) as u64;
        self.splits.numbers[got.number as usize % 8] += 1;
        (0..4).for_each(|i| self.splits.paid[i] += (got.marks[i] != 0) as u64);
        if got.decided() {
            self.splits.long[verdict - 1] += (got.calls > 1000) as u64;
        }
    }

    // Whenever neither is refused or spent, both say clear or both say none. The least model comes first in the order too: where
    // the sheet is Horn, both have the same marks.
    fn both(&mut self, sheet: &Sheet, ran: &Reply, got: &Reply) {
        if !ran.decided() || !got.decided() {
            return;
        }
        self.splits.both[ran.road as usize][ran.verdict as usize - 1] += 1;
        let fine = ran.verdict == got.verdict && (ran.road != HORN || ran.marks == got.marks);
        self.check(fine, || format!("{:?}: by a run {:?}, by splitting {:?}", sheet, ran, got));
    }

    // Clear marks are the first that meet every term, none is said where no marks do, and there are not more calls than
    // beginnings of assignments. With few variables those that are called are counted.
    fn first_model(&mut self, sheet: &Sheet, got: &Reply) {
        let mut fine = sheet.n > 30 || got.calls < 2 << sheet.n;
        if sheet.n <= 12 {
            let first = first_model(sheet);
            self.splits.trials[got.verdict as usize - 1] += 1;
            fine &= (got.verdict == 1) == first.is_some() && join(got.marks) == first.unwrap_or(0);
        }
        if sheet.n <= 4 {
            self.splits.counted += 1;
            fine &= got.calls as u64 == beginnings(sheet);
        }
        self.check(fine, || format!("{:?}: {:?} is not what all assignments say", sheet, got));
    }

    // By are the answers of a run and of splitting. A sheet with more terms is never clear after a none, by whichever of them,
    // nor does its first model come before that of the sheet.
    fn split_further(&mut self, r: &mut Random, plan: (u32, u32), sheet: &Sheet, by: [&Reply; 2]) {
        let more = further_sheet(r, sheet, join(by[1].marks));
        let longer = write(&more);
        let [run, split] = [library_run(plan, 300, &longer), library_split(1000, &longer)];
        for (i, (first, later)) in [(by[0], split), (by[1], run), (by[1], split)].into_iter().enumerate() {
            if !first.decided() || !later.decided() {
                continue;
            }
            self.splits.further[first.verdict as usize - 1][i] += 1;
            let before = i == 2 && later.verdict == 1 && rank(join(later.marks)) < rank(join(first.marks));
            let fine = first.verdict <= later.verdict && !before;
            self.check(fine, || format!("{:?}: {:?}, with more terms {:?}: {:?}", sheet, first, more, later));
        }
    }

    // An alike sheet gets the same answer but for its batch, since no call looks at the order of terms or at their number.
    fn split_alike(&mut self, r: &mut Random, input: &Input, most: u32, got: &Reply) {
        let other = Input::new(relative(r, &input.bytes));
        if let (Ok(sheet), 1) = (&other.sheet, library_alike(&input.bytes, &other.bytes).answer) {
            let later = library_split(most, &other.bytes);
            self.splits.alikes += later.decided() as u64;
            let fine = later == Reply { batch: sheet.batch, ..*got };
            self.check(fine, || format!("split sheet {:?}: {:?}, alike {:?}: {:?}", input.bytes, got, other.bytes, later));
        }
    }

    // A clear or none stays with any budget that is large enough, and with any other it is spent.
    fn split_budgets(&mut self, r: &mut Random, input: &Input, got: &Reply) {
        if !got.decided() {
            return;
        }
        let calls = got.calls.max(1);
        let same = |b: u32| library_split(b, &input.bytes) == *got;
        let spent = |b: u32| library_split(b, &input.bytes) == Reply { verdict: 3, marks: [0; 4], calls: b, ..*got };
        let enough = [calls, calls + 1, calls + 1 + r.below(1000) as u32, u32::MAX];
        let fewer = [0, r.below(calls as u64) as u32, calls - 1];
        self.splits.budgets += 1;
        let fine = enough.into_iter().all(same) && fewer.into_iter().all(spent);
        self.check(fine, || format!("split sheet {:?}: {:?} is not kept by other budgets", input.bytes, got));
    }

    // The sheet of a run: for a share of them a leg from any record, and for fewer a whole search in legs.
    fn legs(&mut self, r: &mut Random, codes: &mut Codes, plan: (u32, u32), bytes: &[u8]) {
        let rare = rarity(plan);
        let [leg, search] = [r.below(3 * rare) == 0, r.below(16) == 0];
        if !leg && !search {
            return;
        }
        let input = Input::new(bytes.to_vec());
        if leg {
            self.any_leg(r, codes, plan, &input);
        }
        if let (true, Ok(sheet)) = (search && !input.terms().is_empty(), &input.sheet) {
            let plan = if is_plan(plan) && r.below(3 * rare) == 0 { plan } else { several_balls(r, codes, sheet.n) };
            match r.below(4) as usize {
                GROWING.. if sheet.n <= 10 => self.growing(r, codes, plan, sheet),
                kind => self.search(r, codes, kind, plan, &input),
            }
        }
    }

    fn any_leg(&mut self, r: &mut Random, codes: &mut Codes, plan: (u32, u32), input: &Input) {
        let count = if is_plan(plan) { count_balls(&blocks_of(codes, plan, input.n())) } else { None };
        let before = random_record(r, plan, input, count);
        let high = [0, 1, 3, 30, 400][r.below(5) as usize];
        let mut record = before;
        let got = self.leg(codes, (plan, r.below(high + 1) as u32), input, &mut record);
        if got.decided() && r.below(2) == 0 {
            if rarity(plan) == 1 {
                self.leg_budgets(r, plan, input, [before, record], &got);
            }
            // one call fewer than needed
            self.leg(codes, (plan, got.calls - 1), input, &mut before.clone());
        }
    }

    // The reply and the record are compared, and those of the library handed on.
    fn leg(&mut self, codes: &mut Codes, asked: ((u32, u32), u32), input: &Input, record: &mut Checkpoint) -> LegReply {
        let (plan, budget) = asked;
        let before = *record;
        let mut after = before;
        let expected = leg(codes, plan, budget, &input.bytes, &mut after);
        let got = library_leg(plan, budget, &input.bytes, record);
        let [due, came] = [(expected, after), (got, *record)];
        let tell = || format!("leg {:?} {:?} sheet {:?}: expected {:?}, got {:?}", asked, before, input.bytes, due, came);
        self.check(due == came, tell);
        if due == came {
            let balls = [before.next, after.next];
            let meant = self.leg_means(codes, plan, input, balls, &got);
            self.legs.answers.note(input, balls, &got, meant);
            self.legs.numbers[got.number as usize] += 1;
        }
        got
    }

    // Whether the models of the sheet that was searched were held against the answer.
    fn leg_means(&mut self, codes: &mut Codes, plan: (u32, u32), input: &Input, balls: [u64; 2], got: &LegReply) -> bool {
        let (Ok(sheet), BALLS) = (&input.sheet, got.road) else {
            return false;
        };
        let fine = meaning(&blocks_of(codes, plan, sheet.n), sheet, balls, got);
        self.check(fine != Some(false), || format!("{:?}: {:?} in the balls {:?} is not what its models say", sheet, got, balls));
        fine.is_some()
    }

    // Reply and record of a clear or none stay the same under every larger budget.
    fn leg_budgets(&mut self, r: &mut Random, plan: (u32, u32), input: &Input, records: [Checkpoint; 2], got: &LegReply) {
        let fine = [0, 1, 1 + r.below(1000) as u32, u32::MAX].iter().all(|more| {
            let mut record = records[0];
            library_leg(plan, got.calls.saturating_add(*more), &input.bytes, &mut record) == *got && record == records[1]
        });
        self.legs.budgets += 1;
        let tell = || format!("leg {:?} {:?} sheet {:?}: {:?} is not kept by other budgets", plan, records[0], input.bytes, got);
        self.check(fine, tell);
    }

    // From the start until a leg says clear or none, if a run comes to its end soon: the calls of the legs add up to those of the run,
    // and the last one has its verdict and marks. With enough for a ball in each leg there are not more legs than balls.
    fn search(&mut self, r: &mut Random, codes: &mut Codes, kind: usize, plan: (u32, u32), input: &Input) {
        let ran = library_run(plan, 5000, &input.bytes);
        let blocks = blocks_of(codes, plan, input.n());
        let (Ok(sheet), Some(count), BALLS, true) = (&input.sheet, count_balls(&blocks), ran.road, ran.decided()) else {
            return;
        };
        let most = most_in_ball(longest_term(sheet), blocks.iter().map(|b| b.1).sum());
        let enough = Some(most as u64).filter(|_| kind == ENOUGH && most <= 5000);
        let high = r.range(1, 2 + ran.calls as u64 / 4) + ran.calls as u64 / 200;
        let mut record = Checkpoint::of(plan, sheet, 0);
        let (last, legs, calls) = self.until_decided(r, codes, input, &mut record, (enough, high));
        self.ended(if enough.is_some() { ENOUGH } else { 0 }, legs, sheet, &last);
        self.legs.full += (enough.is_some() && count > 1 && legs == count) as u64;
        let same = (last.verdict, last.marks, calls) == (ran.verdict, ran.marks, ran.calls as u64);
        let few = enough.is_none() || legs <= count;
        let done = Checkpoint::of(plan, sheet, count);
        let fine = same && few && record == done && self.leg(codes, (plan, 9), input, &mut record).number == 12;
        let tell = || format!("{:?}: {} legs, {} calls, then {:?} {:?}, by a run {:?}", sheet, legs, calls, last, record, ran);
        self.check(fine, tell);
    }

    // The last leg, the number of them and their calls. Where enough is given no leg has less; otherwise they have up to a high
    // number, with idle legs in between.
    fn until_decided(
        &mut self,
        r: &mut Random,
        codes: &mut Codes,
        input: &Input,
        record: &mut Checkpoint,
        (enough, mut high): (Option<u64>, u64),
    ) -> (LegReply, u64, u64) {
        let (mut legs, mut calls, failed) = (0, 0, self.failed);
        loop {
            let budget = match enough {
                Some(least) => least + r.below(2) * r.below(least),
                None => {
                    self.idle(r, codes, input, record);
                    r.below(high + 1)
                }
            };
            let before = *record;
            let got = self.leg(codes, ((record.block_length, record.radius), budget as u32), input, record);
            legs += 1;
            calls += got.calls as u64;
            if got.verdict != 3 || self.failed > failed {
                return (got, legs, calls);
            }
            // so that a ball that needs more than this comes to its turn
            high <<= (*record == before) as u32;
        }
    }

    // After so many legs from the start clear is said where there is a model and none where there is not.
    fn ended(&mut self, kind: usize, legs: u64, sheet: &Sheet, last: &LegReply) {
        self.legs.searches[kind][(last.verdict == 2) as usize] += 1;
        self.legs.made[kind] += legs;
        if sheet.n <= 12 {
            self.legs.trials += 1;
            let fine = (last.verdict == 1) == models(sheet).next().is_some();
            self.check(fine, || format!("{:?}: after {} legs {:?} is not what all assignments say", sheet, legs, last));
        }
    }

    // A third of the times a leg that leaves the record: it is refused, or its sheet is Horn.
    fn idle(&mut self, r: &mut Random, codes: &mut Codes, input: &Input, record: &mut Checkpoint) {
        let (0, Ok(sheet)) = (r.below(3), &input.sheet) else {
            return;
        };
        let before = *record;
        let (plan, bytes) = idle_leg(r, (record.block_length, record.radius), sheet);
        let got = self.leg(codes, (plan, r.below(30) as u32), &Input::new(bytes), record);
        self.legs.idle += 1;
        let fine = *record == before && (got.number != 0 || got.road == HORN);
        self.check(fine, || format!("leg {:?} between legs on {:?}: {:?} {:?}, before {:?}", plan, sheet, got, record, before));
    }

    // Each leg has the terms of the leg before and some more of the sheet. What the last one says is right for its own.
    fn growing(&mut self, r: &mut Random, codes: &mut Codes, plan: (u32, u32), sheet: &Sheet) {
        let all = sheet.terms.len() as u64;
        let mut turns: Vec<u64> = (0..all).collect();
        shuffle(r, &mut turns);
        let mut record = Checkpoint::of(plan, sheet, 0);
        let (mut held, mut high, failed) = (r.below(all), r.range(1, 40), self.failed);
        for legs in 1..=300 {
            let terms = sheet.terms.iter().zip(&turns).filter(|(_, turn)| **turn < held).map(|(term, _)| term.clone());
            let grown = Sheet { terms: terms.collect(), ..*sheet };
            let before = record;
            let got = self.leg(codes, (plan, r.below(high + 1) as u32), &Input::new(write(&grown)), &mut record);
            if got.road == BALLS && got.decided() {
                return self.ended(GROWING, legs, &grown, &got);
            }
            if got.number != 0 || held == all && got.road == HORN || self.failed > failed {
                return;
            }
            high <<= (record == before && high < 5000) as u32;
            held = all.min(held + r.below(3));
        }
    }

    // The sheet of a run with an old one: for a share of them a leg from any record, and for fewer a search during which clauses arrive.
    fn longer_legs(&mut self, r: &mut Random, codes: &mut Codes, plan: (u32, u32), bytes: &[u8]) {
        let [pair, search] = [r.below(8 * rarity(plan)) == 0, r.below(30) == 0];
        if !pair && !search {
            return;
        }
        let input = Input::new(bytes.to_vec());
        if pair {
            self.any_pair(r, codes, plan, &input);
        }
        let small = input.n() <= 12 || r.below(3) == 0;
        if let (true, Ok(sheet)) = (search && small && input.terms().len() <= 300, &input.sheet) {
            let mut pool = sheet.clone();
            for_balls(r, &(1..=sheet.n).collect::<Vec<u32>>(), &mut pool);
            let plan = several_balls(r, codes, sheet.n);
            // where nothing may be flipped each ball is one call, whatever the clauses; and long blocks have other searches
            if plan.1 > 0 && plan.0 <= 10 || r.below(6) == 0 {
                self.arriving(r, codes, plan, &pool);
            }
        }
    }

    // The record is that of either sheet, or of none.
    fn any_pair(&mut self, r: &mut Random, codes: &mut Codes, plan: (u32, u32), input: &Input) {
        let (kind, pair) = random_pair(r, input);
        let pair = pair.map(Input::new);
        let count = if is_plan(plan) { count_balls(&blocks_of(codes, plan, pair[1].n())) } else { None };
        let either = r.below(2) as usize;
        let before = random_record(r, plan, &pair[either], count);
        let high = [0, 1, 3, 30, 400][r.below(5) as usize];
        let asked = (plan, r.below(high + 1) as u32);
        let mut record = before;
        let got = self.longer(codes, asked, [&pair[0], &pair[1]], &mut record);
        let way = [0, 13].iter().position(|number| got.number == *number).unwrap_or(2);
        self.longers.pairs[kind][way] += 1;
        if got.number == 0 || kind == EQUAL {
            self.alone(asked, &pair[1], [before, record], &got);
        }
        if got.decided() && r.below(4) == 0 {
            // one call fewer than needed
            self.longer(codes, (plan, got.calls - 1), [&pair[0], &pair[1]], &mut before.clone());
        }
    }

    // The reply and the record are compared, and those of the library handed on.
    fn longer(&mut self, codes: &mut Codes, asked: ((u32, u32), u32), pair: [&Input; 2], record: &mut Checkpoint) -> LegReply {
        let (plan, budget) = asked;
        let bytes = pair.map(|input| &input.bytes[..]);
        let before = *record;
        let mut after = before;
        let expected = leg_longer(codes, plan, budget, bytes, &mut after);
        let got = library_longer(plan, budget, bytes, record);
        let [due, came] = [(expected, after), (got, *record)];
        let tell = || format!("leg {:?} {:?} sheets {:?}: expected {:?}, got {:?}", asked, before, bytes, due, came);
        self.check(due == came, tell);
        if due == came {
            let balls = [before.next, after.next];
            let meant = self.leg_means(codes, plan, pair[1], balls, &got);
            self.longers.answers.note(pair[1], balls, &got, meant);
            self.longers.numbers[got.sheet as usize][got.number as usize] += 1;
        }
        got
    }

    // A leg of the longer sheet alone says and does the same; what it refuses is about its only sheet.
    fn alone(&mut self, asked: ((u32, u32), u32), longer: &Input, records: [Checkpoint; 2], got: &LegReply) {
        let mut record = records[0];
        let alone = library_leg(asked.0, asked.1, &longer.bytes, &mut record);
        let fine = alone == LegReply { sheet: got.sheet.min(1), ..*got } && record == records[1];
        self.longers.alone += 1;
        let tell = || format!("leg {:?} {:?} sheet {:?}: {:?}, after an old one {:?}", asked, records, longer.bytes, alone, got);
        self.check(fine, tell);
    }

    // From the start until a leg by balls says clear or none, while clauses of the pool and others arrive.
    fn arriving(&mut self, r: &mut Random, codes: &mut Codes, plan: (u32, u32), pool: &Sheet) {
        let blocks = blocks_of(codes, plan, pool.n);
        let (Some(count), k @ 1..) = (count_balls(&blocks), longest_term(pool)) else {
            return;
        };
        let most = most_in_ball(k, blocks.iter().map(|b| b.1).sum());
        let enough = Some(most as u64).filter(|_| most <= 5000 && r.below(2) == 0);
        let mut search = Arriving { sheets: vec![some_of(r, pool)], record: Checkpoint::of(plan, pool, 0), legs: 0, calls: 0 };
        let (mut high, failed) = (r.range(1, 16), self.failed);
        for _ in 0..100 {
            let before = search.record;
            let budget = enough.map_or(r.below(high + 1), |least| least + r.below(2) * r.below(least));
            let got = self.next_leg(r, codes, (plan, budget as u32), pool, &mut search);
            let full = search.sheets.last().is_some_and(|sheet| sheet.terms.len() > 1000);
            match (got.road, got.verdict) {
                _ if self.failed > failed || full => return,
                // no clause that arrives gives it a model
                (HORN, 2) if r.below(2) == 0 => return,
                (BALLS, 1 | 2) => return self.all_arrived(codes, (enough.is_some(), count), &mut search, &got),
                _ => {}
            }
            // so that a ball that needs more than this comes to its turn
            high <<= (search.record == before && high < 5000) as u32;
        }
    }

    // An eighth of the legs brings the longer sheet alone.
    fn next_leg(
        &mut self,
        r: &mut Random,
        codes: &mut Codes,
        asked: ((u32, u32), u32),
        pool: &Sheet,
        search: &mut Arriving,
    ) -> LegReply {
        let last = search.sheets.last().unwrap_or(pool);
        let longer = arrived(r, codes, asked, [pool, last], &search.record);
        let old = search.old(r).clone();
        self.idle_pair(r, codes, asked.0, [&old, &longer], &mut search.record);
        let pair = [&old, &longer].map(|sheet| Input::new(write(sheet)));
        let got = match r.below(8) {
            0 => self.leg(codes, asked, &pair[1], &mut search.record),
            _ => self.longer(codes, asked, [&pair[0], &pair[1]], &mut search.record),
        };
        self.check(got.number == 0, || format!("leg {:?} of {:?} and then {:?}: {:?}", asked, old, longer, got));
        search.sheets.push(longer);
        search.legs += (got.road == BALLS) as u64;
        search.calls += if got.road == BALLS { got.calls as u64 } else { 0 };
        self.longers.horn += (got.road == HORN) as u64;
        got
    }

    // A third of the times a leg that leaves the record.
    fn idle_pair(&mut self, r: &mut Random, codes: &mut Codes, plan: (u32, u32), sheets: [&Sheet; 2], record: &mut Checkpoint) {
        if r.below(3) != 0 {
            return;
        }
        let before = *record;
        let (plan, pair) = idle_pair(r, plan, sheets);
        let pair = pair.map(Input::new);
        let got = self.longer(codes, (plan, r.below(30) as u32), [&pair[0], &pair[1]], record);
        self.longers.idle += 1;
        let fine = *record == before && (got.number != 0 || got.road == HORN);
        self.check(fine, || format!("leg {:?} between legs on {:?}: {:?} {:?}, before {:?}", plan, sheets, got, record, before));
    }

    // The last leg is right for its sheet: it has the verdict and the marks of a run, and those of all assignments. The calls need
    // not add up to the run's. With enough for a ball in each leg there are not more legs than balls.
    fn all_arrived(&mut self, codes: &mut Codes, (enough, count): (bool, u64), search: &mut Arriving, last: &LegReply) {
        let Arriving { sheets, record, legs, calls } = search;
        let (Some(sheet), plan) = (sheets.last(), (record.block_length, record.radius)) else {
            return;
        };
        let input = Input::new(write(sheet));
        let ran = library_run(plan, 20_000, &input.bytes);
        let mut fine = !ran.decided() || (ran.verdict, ran.marks) == (last.verdict, last.marks);
        if ran.decided() {
            let way = (*calls).cmp(&(ran.calls as u64)) as i8 + 1;
            self.longers.sums[way as usize] += 1;
        }
        if sheet.n <= 12 {
            self.longers.trials += 1;
            fine &= (last.verdict == 1) == models(sheet).next().is_some();
        }
        fine &= !enough || *legs <= count;
        fine &= *record == Checkpoint::of(plan, sheet, count);
        fine &= self.longer(codes, (plan, 9), [&input, &input], record) == LegReply::about(2, 12, 0);
        self.longers.searches[enough as usize][(last.verdict == 2) as usize] += 1;
        self.longers.made[enough as usize] += *legs;
        self.longers.full += (enough && count > 1 && *legs == count) as u64;
        self.check(fine, || format!("{:?}: {} legs, {} calls, then {:?}, by a run {:?}", sheet, legs, calls, last, ran));
    }

    // Rounds are bounded as calls are, and by the number of variables: each round but the last pays one.
    fn bounded(&mut self, plan: (u32, u32), sheet: &Sheet, got: &Reply) {
        let most = if got.decided() { most_calls(plan, sheet) } else { u128::MAX };
        let rounds = sheet.n + got.decided() as u32;
        let fine = got.calls as u128 <= most && (got.road != HORN || got.calls <= rounds);
        self.within[got.road as usize] += got.decided() as u64;
        self.check(fine, || format!("plan {:?} {:?}: {:?}, at most {}", plan, sheet, got, most));
    }

    // Whatever road is taken, clear is said where there is a model and none where there is not. Every model of a Horn sheet pays what
    // its marks pay.
    fn trial(&mut self, sheet: &Sheet, got: &Reply) {
        if !got.decided() || sheet.n > 12 {
            return;
        }
        let kind = if models(sheet).next().is_some() { 1 } else { 2 };
        self.trials[kind - 1] += 1;
        let horn = got.road == HORN && got.verdict == 1;
        self.least[0] += horn as u64;
        let fine = kind == got.verdict as usize && (!horn || models(sheet).all(|marks| join(got.marks) & !marks == 0));
        self.check(fine, || format!("{:?} {:?}: all assignments say {}", got, sheet, kind));
    }

    fn note(&mut self, stream: usize, reply: &Reply, notes: &Notes) {
        let verdict = reply.verdict as usize;
        self.kinds[stream][reply.road as usize][verdict] += 1;
        self.large[stream][verdict] += (notes.n > 32) as u64;
        if reply.decided() {
            (0..PARTS.len()).for_each(|i| self.parts[stream][i] += notes.parts[i] as u64);
        }
        self.numbers[reply.number as usize] += 1;
        let tried = words_of(notes.words);
        for i in 0..4 {
            self.tried[i] += (tried[i] != 0) as u64;
            self.paid[i] += (reply.marks[i] != 0) as u64;
        }
    }

    fn terms(&mut self, r: &mut Random, bytes: &[u8]) {
        let sheet = read(bytes);
        for clause in random_clauses(r, &sheet) {
            let term = sheet.as_ref().ok().and_then(|sheet| sheet.terms.get(clause as usize));
            let asked = random_question(r, clause, term.map_or(&[], |t| t));
            let expected = counts(&sheet, &asked);
            let got = library_counts(bytes, &asked);
            let kind = term.map_or(sheet.is_ok() as usize, |t| 2 + is_true(t, asked.marks) as usize);
            self.terms[kind] += 1;
            let said = term.map_or([(false, false); 3], |t| sayings(t, &asked, &got));
            (0..3).for_each(|i| self.sayings[i] += said[i].0 as u64);
            let fine = got == expected && said.iter().all(|s| !s.0 || s.1);
            self.check(fine, || format!("{:?} sheet {:?}: expected {:?}, got {:?} {:?}", asked, bytes, expected, got, said));
        }
    }

    fn cleared(&mut self, bytes: &[u8], marks: [u32; 4]) {
        self.cleared += 1;
        let [terms, tally] = [clear_holds(bytes, join(marks)), tally_clears(bytes, join(marks))];
        self.check(terms, || format!("clear with marks {:?} sheet {:?}: a term has none met", marks, bytes));
        self.check(tally, || format!("clear with marks {:?} sheet {:?}: the tally says no", marks, bytes));
    }

    fn begin(&mut self, input: &Input, lent: &mut Lent) {
        let before = lent.clone();
        let mut expected = Tally::of(lent);
        let reply = expected.begin(&input.sheet);
        let got = library_begin(&input.bytes, lent);
        self.begun[input.sheet.is_ok() as usize] += 1;
        let fine = got == reply && Tally::of(lent) == expected && (got.number == 0 || *lent == before);
        let tell = || difference((reply, &expected), (got, lent), &before);
        self.check(fine, || format!("begin sheet {:?}: {}", input.bytes, tell()));
    }

    // Compared with the independent toggle, with what the paper says of all toggles, and on its own sheet with a full reading.
    fn toggle(&mut self, input: &Input, variable: u32, lent: &mut Lent, own: bool) {
        let before = lent.clone();
        let mut expected = Tally::of(lent);
        let reply = expected.toggle(&input.sheet, variable);
        let got = library_toggle(&input.bytes, variable, lent);
        let kind = match reply.number {
            0 => 2 + own as usize,
            10 => 1,
            _ => 0,
        };
        self.toggles[kind] += 1;
        let said = toggle_says(input, variable, &got, &before, lent);
        let holds = library_holds(lent.unmet) == (lent.unmet == 0) as u32;
        let fine = got == reply && Tally::of(lent) == expected && said && holds;
        let tell = || difference((reply, &expected), (got, lent), &before);
        self.check(fine, || format!("toggle {} sheet {:?}: {}", variable, input.bytes, tell()));
        match &input.sheet {
            Ok(sheet) if own => self.full_reading(sheet, lent),
            _ => {}
        }
    }

    fn full_reading(&mut self, sheet: &Sheet, lent: &Lent) {
        let marks = join(lent.marks);
        let all = sheet.terms.iter().all(|t| is_true(t, marks));
        self.holding += all as u64;
        let fine = Tally::of(lent) == Tally::recount(sheet, marks) && library_holds(lent.unmet) == all as u32;
        self.check(fine, || format!("marks {:?} unmet {} are not those of {:?}", lent.marks, lent.unmet, sheet));
    }

    // A tally begun on the sheet and toggled there, a quarter of the times twice running.
    fn own_sheet(&mut self, r: &mut Random, input: &Input, steps: u64) -> Lent {
        let mut lent = random_lent(r);
        self.begin(input, &mut lent);
        for _ in 0..steps {
            let before = lent.clone();
            let variable = random_variable(r, input, join(lent.marks));
            self.toggle(input, variable, &mut lent, true);
            if r.below(4) == 0 {
                self.toggle(input, variable, &mut lent, true);
                self.twice += 1;
                self.check(lent == before, || format!("{} toggled twice, sheet {:?}: not as before", variable, input.bytes));
            }
        }
        lent
    }

    // The tally handed from sheet to sheet, seldom to the damaged one, and after half of the toggles any numbers in it.
    fn other_sheets(&mut self, r: &mut Random, inputs: &[Input; 4], lent: &mut Lent, steps: u64) {
        for step in 0..steps {
            if step * 2 >= steps && r.below(2) == 0 {
                *lent = random_lent(r);
            }
            let input = &inputs[r.below(10) as usize / 3];
            let variable = random_variable(r, input, join(lent.marks));
            self.toggle(input, variable, lent, false);
            if r.below(20) == 0 {
                self.begin(&inputs[r.below(4) as usize], lent);
            }
        }
    }

    // Each toggle reads the whole sheet: the longer the sheet, the fewer. Few are enough where all are refused.
    fn tallies(&mut self, r: &mut Random, bytes: &[u8]) {
        let inputs = random_family(r, bytes);
        let longest = inputs.iter().map(|input| input.bytes.len()).max().unwrap_or(0);
        let steps = 24 + 16_384 / (64 + longest as u64);
        let some = inputs[0].sheet.as_ref().is_ok_and(|sheet| sheet.n > 0);
        let mut lent = self.own_sheet(r, &inputs[0], if some { steps } else { 4 });
        self.other_sheets(r, &inputs, &mut lent, steps);
    }

    fn print(&self, inputs: u64) {
        let Totals { numbers, pairs, terms, sayings, begun, toggles, .. } = self;
        for (i, name) in STREAMS.iter().enumerate() {
            let [refused, rounds, balls] = self.kinds[i];
            let all: u64 = self.kinds[i].iter().flatten().sum();
            let by = |[_, clear, none, spent]: [u64; 4]| format!("clear {} none {} spent {}", clear, none, spent);
            println!("{} {}: refused {}, by rounds {}, by balls {}", all, name, refused[0], by(rounds), by(balls));
            println!("    with n above 32: clear {} none {} spent {}", self.large[i][1], self.large[i][2], self.large[i][3]);
            let parts: Vec<String> = PARTS.iter().zip(self.parts[i]).map(|(part, count)| format!("{} {}", part, count)).collect();
            println!("    clear or none with {}", parts.join(", "));
        }
        println!("with bits in words 1 to 4: runs whose code words have them {:?} clear answers {:?}", self.tried, self.paid);
        println!("all assignments tried, n up to 12: clear {} none {}", self.trials[0], self.trials[1]);
        println!("least marks, within all models {} within the marks of a sheet with more terms {}", self.least[0], self.least[1]);
        println!("within the bound that needs no code: rounds, also at most n + 1, {} calls {}", self.within[1], self.within[2]);
        println!("the same with other budgets, or spent: by rounds {} by balls {}", self.budgets[1], self.budgets[2]);
        for (i, verdict) in ["clear", "none"].iter().enumerate() {
            let [horn, left, balls] = self.further[i];
            println!("{} and then more terms: Horn both {} Horn and not {} neither {}", verdict, horn, left, balls);
        }
        println!("alike sheets, both clear or both none: by rounds {} by balls {}", self.alikes[1], self.alikes[2]);
        println!("refusals 1 to 8: {:?}", &numbers[1..9]);
        println!("pairs: refused {} alike {} different {}", pairs[0], pairs[1], pairs[2]);
        println!("terms: refused {} past the last {} false {} true {}", terms[0], terms[1], terms[2], terms[3]);
        println!("nothing flipped {} nothing flipped met {} clear sheets {}", sayings[1], sayings[2], self.cleared);
        println!("tallies: refused {} begun {} toggled twice {} all true {}", begun[0], begun[1], self.twice, self.holding);
        let [refused, strange, other, own] = toggles;
        println!("toggles: refused {} no such variable {} own sheet {} other sheet or numbers {}", refused, strange, own, other);
        self.print_splits();
        self.print_legs();
        self.print_longer();
        println!("differential: {} passed, {} failed", inputs.saturating_sub(self.failed), self.failed);
    }

    fn print_splits(&self) {
        let Splits { kinds, large, numbers, paid, long, just, trials, counted, both, budgets, further, alikes } = &self.splits;
        println!("by splitting:");
        for (i, name) in STREAMS.iter().chain(&["sheets for splitting"]).enumerate() {
            let [refused, clear, none, spent] = kinds[i];
            let [_, wide_clear, wide_none, wide_spent] = large[i];
            let all: u64 = kinds[i].iter().sum();
            println!("{} {}: refused {} clear {} none {} spent {}", all, name, refused, clear, none, spent);
            println!("    with n above 32: clear {} none {} spent {}", wide_clear, wide_none, wide_spent);
        }
        println!("refusals 1 to 7: {:?}", &numbers[1..]);
        println!("with bits in words 1 to 4: clear answers {:?}", paid);
        println!("with more than 1,000 calls: clear {} none {}", long[0], long[1]);
        println!("with one call fewer than needed {} as many {} one more {}", just[0], just[1], just[2]);
        println!("the same with other budgets, or spent {}", budgets);
        println!("all assignments tried in order, n up to 12: clear {} none {}", trials[0], trials[1]);
        println!("calls counted by beginnings of assignments, n up to 4: {}", counted);
        for (road, name) in [(HORN, "rounds"), (BALLS, "balls")] {
            let [clear, none] = both[road as usize];
            println!("as a run by {}: clear {} none {}", name, clear, none);
        }
        for (i, verdict) in ["clear", "none"].iter().enumerate() {
            let [after, before, twice] = further[i];
            println!("{} and then more terms: after a run {} before a run {} splitting twice {}", verdict, after, before, twice);
        }
        println!("alike sheets, both clear or both none {}", alikes);
    }

    fn print_legs(&self) {
        let Legs { answers, numbers, budgets, searches, made, idle, full, trials } = &self.legs;
        println!("by legs:");
        answers.print();
        println!("refusals 1 to 8: {:?} another batch, n or plan {} finished {}", &numbers[1..9], numbers[11], numbers[12]);
        answers.print_meant();
        println!("the same with larger budgets {}", budgets);
        for (i, name) in SEARCHES.iter().enumerate() {
            println!("searches with {}: clear {} none {} legs {}", name, searches[i][0], searches[i][1], made[i]);
        }
        println!("    idle legs {} as many legs as balls {} all assignments tried, n up to 12: {}", idle, full, trials);
    }

    fn print_longer(&self) {
        let Longers { answers, numbers, pairs, alone, searches, made, horn, idle, full, trials, sums } = &self.longers;
        let [_, old, longer] = numbers;
        println!("by legs of an old and a longer sheet:");
        answers.print();
        println!("refusals 1 to 7 of the old sheet: {:?} 1 to 8 of the longer one: {:?}", &old[1..8], &longer[1..9]);
        println!("another batch or n of the old sheet {} another plan, batch or n of the longer one {}", old[11], longer[11]);
        println!("finished {} a clause dropped {}", longer[12], old[13]);
        for (name, [answered, dropped, refused]) in PAIRS.iter().zip(pairs) {
            println!("    {}: answered {} a clause dropped {} refused otherwise {}", name, answered, dropped, refused);
        }
        answers.print_meant();
        println!("the same as a leg of the longer sheet alone {}", alone);
        for (i, name) in ["any budgets", SEARCHES[ENOUGH]].iter().enumerate() {
            println!("searches while clauses arrive, {}: clear {} none {} legs {}", name, searches[i][0], searches[i][1], made[i]);
        }
        println!("    legs by rounds {} idle {} as many legs as balls {}", horn, idle, full);
        println!("    all assignments tried, n up to 12: {}", trials);
        println!("    as a run of the last sheet, with fewer calls {} as many {} more {}", sums[0], sums[1], sums[2]);
    }
}

fn main() {
    let inputs: u64 = std::env::args().nth(1).map_or(200_000, |a| a.parse().expect("a number of inputs"));
    let mut r = Random(0x9e37_79b9_7f4a_7c15);
    let mut questions = Random(0x2545_f491_4f6c_dd1d);
    let mut touches = Random(0xd1b5_4a32_d192_ed03);
    let mut flips = Random(0xa076_1d64_78bd_642f);
    let mut spreads = Random(0xe703_7ed1_a0b4_28db);
    let mut rounds = Random(0x8ebc_6af0_9c88_c6e3);
    let mut branches = Random(0x5899_65cc_7537_4cc3);
    let mut codes = Codes(HashMap::new());
    let mut totals = Totals::default();
    totals.fixed(&mut codes);
    totals.fixed_legs(&mut codes);
    totals.fixed_longer(&mut codes);
    totals.small(&mut rounds, &mut codes);
    for _ in 0..inputs {
        let bytes = random_bytes(&mut r);
        if r.below(4) == 0 {
            totals.alike(&mut r, &bytes);
        }
        let got = totals.run(&mut r, &mut codes, &bytes);
        totals.terms(&mut questions, &bytes);
        // each term reads the whole sheet again: the longer the sheet, the rarer
        if got.verdict == 1 && questions.below(1 + bytes.len() as u64 / 256) == 0 {
            totals.cleared(&bytes, got.marks);
        }
        if touches.below(20) == 0 {
            totals.tallies(&mut touches, &bytes);
        }
        totals.others(&mut flips, &mut spreads, &mut rounds, &mut codes);
        if branches.below(12) == 0 {
            totals.for_splitting(&mut branches);
        }
    }
    totals.print(inputs);
    std::process::exit((totals.failed != 0) as i32);
}
