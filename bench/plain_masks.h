/* The part of plain.h with masks, for one width: BITS variables at most, masks of the type MASK, names that begin with plain32 or plain128. */

struct PLAIN(sheet) {
    uint32_t batch, n, count;
    MASK positive[1024], negative[1024];
    uint8_t length[1024];
    uint8_t bit[1024][8];
    _Alignas(16) int8_t change[BITS][2][1024];
};

struct PLAIN(search) {
    const struct PLAIN(sheet) *sheet;
    uint64_t calls, budget, next, done;
    MASK found, centre;
    int vectors;
    _Alignas(16) int8_t counts[1024];
};

/* 0 where the sheet is accepted, else the refusal's number. */
static int PLAIN(read)(const uint8_t *bytes, size_t length, struct PLAIN(sheet) *sheet)
{
    if (length > 36876) return 5;
    if (length % 4) return 1;
    if (length < 12) return 2;
    size_t words = length / 4, at = 3;
#define WORD(i) ((uint32_t)bytes[4 * (i)] | (uint32_t)bytes[4 * (i) + 1] << 8 | (uint32_t)bytes[4 * (i) + 2] << 16 | (uint32_t)bytes[4 * (i) + 3] << 24)
    uint32_t head[3] = { WORD(0), WORD(1), WORD(2) };
    for (int i = 0; i < 3; i++) {
        if (head[i] >> 30 != (i < 2 ? 3 : 2)) return 3;
        if ((head[i] & 0x3fffffff) > (i < 2 ? 65535 : BITS)) return 5;
    }
    sheet->batch = (head[0] & 0xffff) << 16 | (head[1] & 0xffff);
    sheet->n = head[2] & 0x3fffffff;
    sheet->count = 0;
    while (at < words) {
        uint32_t word = WORD(at), c = word & 0x3fffffff, k = sheet->count;
        if (word >> 30 != 1) return 3;
        if (c > 8 || k == 1024) return 5;
        at++;
        sheet->positive[k] = sheet->negative[k] = 0;
        sheet->length[k] = c;
        for (uint32_t j = 0; j < c; j++, at++) {
            if (at == words) return 4;
            word = WORD(at);
            if (word >> 30) return 3;
            uint32_t v = word / 2;
            if (v == 0 || v > sheet->n) return 6;
            MASK mask = (MASK)1 << (v - 1);
            if ((sheet->positive[k] | sheet->negative[k]) & mask) return 7;
            if (word % 2) sheet->negative[k] |= mask; else sheet->positive[k] |= mask;
            sheet->bit[k][j] = v - 1;
        }
        sheet->count++;
    }
#undef WORD
    return 0;
}

/* Whether a clause from i on is dead: no literal of it is met, and no variable is unflipped. */
static int PLAIN(dead)(const struct PLAIN(sheet) *sheet, uint32_t i, MASK marks, MASK flipped)
{
    for (; i < sheet->count; i++) {
        MASK positive = sheet->positive[i], negative = sheet->negative[i];
        if (!((marks & positive) | (~marks & negative) | (~flipped & (positive | negative)))) return 1;
    }
    return 0;
}

/* The literals of a false clause that have a lone opposite: the opposite is the only unflipped literal of a clause, and none of that clause's
   flipped literals is met. */
static MASK PLAIN(opposed)(const struct PLAIN(sheet) *sheet, uint32_t i, MASK marks, MASK flipped)
{
    MASK opposed = 0;
    for (uint32_t j = 0; j < sheet->length[i]; j++) {
        MASK mask = (MASK)1 << sheet->bit[i][j];
        if (flipped & mask) continue;
        const MASK *opposite = sheet->positive[i] & mask ? sheet->negative : sheet->positive;
        for (uint32_t k = 0; k < sheet->count; k++) {
            MASK positive = sheet->positive[k], negative = sheet->negative[k];
            if (((positive | negative) & ~flipped) != mask || !(opposite[k] & mask)) continue;
            if (!(((marks & positive) | (~marks & negative)) & flipped)) { opposed |= mask; break; }
        }
    }
    return opposed;
}

static int PLAIN(two_at_most)(MASK x) { x &= x - 1; return !(x & (x - 1)); }

/* The clause that is tried, as the step is worded: the first one that meets S or L, else the first false one, which is first. Under L, with
   S or without, some of its literals are skipped. */
static uint32_t PLAIN(select)(const struct PLAIN(sheet) *sheet, uint32_t first, MASK marks, MASK flipped, MASK *skipped)
{
    for (uint32_t i = first; i < sheet->count; i++) {
        MASK positive = sheet->positive[i], negative = sheet->negative[i];
        if ((marks & positive) | (~marks & negative)) continue;
        *skipped = PLAIN(opposed)(sheet, i, marks, flipped);
        if (*skipped || PLAIN(two_at_most)((positive | negative) & ~flipped)) return i;
    }
    return first;
}

/* 1 found, 0 no, -1 spent */
static int PLAIN(call)(struct PLAIN(search) *search, MASK marks, MASK flipped, uint32_t left)
{
    const struct PLAIN(sheet) *sheet = search->sheet;
    uint32_t i, count = sheet->count;
    MASK skipped = 0;
    if (search->calls == search->budget) return -1;
    search->calls++;
    for (i = 0; i < count; i++)
        if (!((marks & sheet->positive[i]) | (~marks & sheet->negative[i]))) break;
    if (i == count) { search->found = marks; return 1; }
    if (left == 0) return 0;
    if (PLAIN(dead)(sheet, i, marks, flipped)) return 0;
    i = PLAIN(select)(sheet, i, marks, flipped, &skipped);
    for (uint32_t j = 0; j < sheet->length[i]; j++) {
        MASK mask = (MASK)1 << sheet->bit[i][j];
        if ((flipped | skipped) & mask) continue;
        int seen = PLAIN(call)(search, marks ^ mask, flipped | mask, left - 1);
        if (seen) return seen;
    }
    return 0;
}

#include "plain_counts.h"
#include "plain_horn.h"
#include "plain_split.h"
#include "plain_longer.h"

/* Searches the balls from search->next on: 1 clear, 2 none, 3 spent, which leaves the ball that did not fit as next, and the calls before it as done.
   The number of balls may not fit any word, and is not made. */
static int PLAIN(balls)(const struct plain_layout *layout, struct PLAIN(search) *search)
{
    uint32_t full = layout->full, blocks = layout->blocks, digit[BITS];
    uint64_t ball = search->next, left = ball;
    for (uint32_t i = 0; i < blocks; left /= layout->words[i == full], i++) digit[i] = left % layout->words[i == full];
    for (;; ball++) {
        MASK centre = 0;
        uint32_t i;
        uint64_t done = search->calls;
        for (i = 0; i < blocks; i++) centre |= (MASK)layout->code[i == full][digit[i]] << (i * layout->b);
        int seen = search->vectors ? PLAIN(ball)(search, centre, layout->radius) : PLAIN(call)(search, centre, 0, layout->radius);
        if (seen) {
            search->next = ball, search->done = done;
            return seen == 1 ? 1 : 3;
        }
        for (i = 0; i < blocks; i++) {
            if (++digit[i] < layout->words[i == full]) break;
            digit[i] = 0;
        }
        if (i == blocks) return 2;
    }
}

static struct PLAIN(sheet) PLAIN(taken);

static int PLAIN(check)(const uint8_t *bytes, size_t length) { return PLAIN(read)(bytes, length, &PLAIN(taken)); }

/* The sheet read, and a search of it before its first call: 0, or the refusal's number. */
static int PLAIN(prepare)(uint32_t budget, const uint8_t *bytes, size_t length, struct PLAIN(search) *search, struct plain_answer *answer)
{
    int refused = PLAIN(read)(bytes, length, &PLAIN(taken));
    if (refused) return refused;
    search->sheet = &PLAIN(taken);
    search->budget = budget;
    search->calls = search->next = search->found = search->centre = 0;
    answer->batch = PLAIN(taken).batch;
    return 0;
}

static void PLAIN(finish)(const struct PLAIN(search) *search, struct plain_answer *answer)
{
    answer->calls = search->calls;
    for (int k = 0; k < BITS / 32; k++) answer->marks[k] = search->found >> 32 * k;
}

/* The record's refusals, in their order: 0, or the number. Where an old sheet came too, they say which sheet they are about. */
static int PLAIN(unfit)(uint32_t b, uint32_t s, uint64_t count, const struct plain_record *record, const struct PLAIN(sheet) *old, int fast,
                        struct plain_answer *answer)
{
    const struct PLAIN(sheet) *sheet = &PLAIN(taken);
    if (count == PLAIN_MOST) return 8;
    if (record->b != b || record->s != s) return 11;
    if (old && (record->batch != old->batch || record->n != old->n)) { answer->sheet = 1; return 11; }
    if (record->batch != sheet->batch || record->n != sheet->n) return 11;
    if (record->next >= count) return 12;
    if (!old) return 0;
    uint32_t i = fast ? PLAIN(lacking_hashed)(old, sheet) : PLAIN(lacking)(old, sheet);
    if (i == old->count) return 0;
    answer->sheet = 1, answer->place = PLAIN(place_of)(old, i);
    return 13;
}

/* By balls: all of them, or those from the record's next on. A leg that is spent counts the balls that it finished. */
static int PLAIN(by_balls)(uint32_t b, uint32_t s, struct plain_record *record, const struct PLAIN(sheet) *old, struct PLAIN(search) *search,
                           struct plain_answer *answer)
{
    static struct plain_layout layout;
    plain_lay_out(PLAIN(taken).n, b, s, &layout);
    uint64_t count = plain_count(&layout);
    int refused = record ? PLAIN(unfit)(b, s, count, record, old, search->vectors, answer) : 0;
    if (refused) return -refused;
    if (record) search->next = record->next;
    if (search->vectors) PLAIN(begin)(&PLAIN(taken), search);
    int verdict = PLAIN(balls)(&layout, search);
    if (!record) return verdict;
    record->next = verdict == 3 ? search->next : count;
    if (verdict == 3) search->calls = search->done;
    return verdict;
}

/* 1 clear, 2 none, 3 spent; the number of a refusal negated. The plan is good, and the old sheet is read, where there is one. */
static int PLAIN(decide)(uint32_t b, uint32_t s, uint32_t budget, const uint8_t *bytes, size_t length, int fast, struct plain_record *record,
                         const struct PLAIN(sheet) *old, struct plain_answer *answer)
{
    struct PLAIN(search) search;
    int verdict, refused = PLAIN(prepare)(budget, bytes, length, &search, answer);
    if (refused) return -refused;
    search.vectors = fast;
    answer->horn = PLAIN(is_horn)(&PLAIN(taken));
    if (answer->horn) verdict = fast ? PLAIN(rounds_watched)(&search) : PLAIN(rounds)(&search);
    else verdict = PLAIN(by_balls)(b, s, record, old, &search, answer);
    PLAIN(finish)(&search, answer);
    return verdict;
}

/* Without a record it is a run. */
static int PLAIN(leg)(uint32_t b, uint32_t s, uint32_t budget, const uint8_t *bytes, size_t length, int fast, struct plain_record *record,
                      struct plain_answer *answer)
{
    memset(answer, 0, sizeof *answer);
    if (b < 1 || b > 12 || s > b) return -8;
    return PLAIN(decide)(b, s, budget, bytes, length, fast, record, 0, answer);
}

/* A leg that brings the old sheet and the longer one. */
static int PLAIN(longer)(uint32_t b, uint32_t s, uint32_t budget, const uint8_t *bytes, size_t length, const uint8_t *longer, size_t longer_length,
                         int fast, struct plain_record *record, struct plain_answer *answer)
{
    static struct PLAIN(sheet) old;
    memset(answer, 0, sizeof *answer);
    answer->sheet = 2;
    if (b < 1 || b > 12 || s > b) return -8;
    int refused = PLAIN(read)(bytes, length, &old);
    if (refused) { answer->sheet = 1; return -refused; }
    int verdict = PLAIN(decide)(b, s, budget, longer, longer_length, fast, record, &old, answer);
    if (verdict > 0) answer->sheet = 0;
    return verdict;
}

static int PLAIN(run)(uint32_t b, uint32_t s, uint32_t budget, const uint8_t *bytes, size_t length, int fast, struct plain_answer *answer)
{
    return PLAIN(leg)(b, s, budget, bytes, length, fast, 0, answer);
}

/* The same by plain splitting. */
static int PLAIN(split)(uint32_t budget, const uint8_t *bytes, size_t length, int fast, struct plain_answer *answer)
{
    struct PLAIN(search) search;
    memset(answer, 0, sizeof *answer);
    int refused = PLAIN(prepare)(budget, bytes, length, &search, answer);
    if (refused) return -refused;
    int verdict = fast ? PLAIN(split_sets)(&search) : PLAIN(split_worded)(&search);
    PLAIN(finish)(&search, answer);
    return verdict;
}

/* A toggle of the tally: 0, or the refusal's number. */
static int PLAIN(toggle)(const uint8_t *bytes, size_t length, uint32_t v, struct plain_tally *tally)
{
    const struct PLAIN(sheet) *sheet = &PLAIN(taken);
    int refused = PLAIN(read)(bytes, length, &PLAIN(taken));
    if (refused) return refused;
    if (v == 0 || v > sheet->n) return 10;
    uint32_t *word = &tally->marks[(v - 1) / 32], bit = 1u << (v - 1) % 32;
    MASK mask = (MASK)1 << (v - 1);
    *word ^= bit;
    const MASK *up = *word & bit ? sheet->positive : sheet->negative;
    for (uint32_t i = 0; i < sheet->count; i++) {
        if (!((sheet->positive[i] | sheet->negative[i]) & mask)) continue;
        uint32_t before = tally->met[i], after = plain_within((int64_t)before + (up[i] & mask ? 1 : -1), sheet->length[i]);
        tally->met[i] = after;
        if (!before && after) tally->unmet = plain_within((int64_t)tally->unmet - 1, 1024);
        if (before && !after) tally->unmet = plain_within((int64_t)tally->unmet + 1, 1024);
    }
    return 0;
}

/* The full reading of a sheet under the tally's marks: 0, or the refusal's number. */
static int PLAIN(recount)(const uint8_t *bytes, size_t length, struct plain_tally *tally)
{
    const struct PLAIN(sheet) *sheet = &PLAIN(taken);
    int refused = PLAIN(read)(bytes, length, &PLAIN(taken));
    if (refused) return refused;
    MASK marks = 0;
    for (int k = 0; k < BITS / 32; k++) marks |= (MASK)tally->marks[k] << 32 * k;
    memset(tally->met, 0, sizeof tally->met);
    tally->unmet = 0;
    for (uint32_t i = 0; i < sheet->count; i++) {
        MASK met = (marks & sheet->positive[i]) | (~marks & sheet->negative[i]);
        for (int k = 0; k < BITS / 32; k++) tally->met[i] += plain_weight(met >> 32 * k);
        tally->unmet += !tally->met[i];
    }
    return 0;
}

static const struct plain PLAIN(operations) = {
    PLAIN(check), PLAIN(run), PLAIN(leg), PLAIN(longer), PLAIN(split), PLAIN(toggle), PLAIN(recount)
};
