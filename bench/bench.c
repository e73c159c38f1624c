/* Times the proved library beside plain C in one run and prints ratios (library / plain C: below 1 is faster than plain C). */
#include <stdio.h>
#include <stdlib.h>
#include <time.h>
#include "../include/engine.h"
#include "plain.h"

static uint64_t state = 88172645463325252ull;
static uint32_t below(uint32_t n)
{
    state ^= state << 13, state ^= state >> 7, state ^= state << 17;
    return (uint32_t)(state >> 16) % n;
}

/* The program's own seconds on a core, so that a busy machine matters less. */
static double seconds(void)
{
    struct timespec t;
    clock_gettime(CLOCK_PROCESS_CPUTIME_ID, &t);
    return t.tv_sec + t.tv_nsec * 1e-9;
}

static uint8_t bytes[36876];
static size_t length;

static void put(uint32_t word)
{
    for (int i = 0; i < 4; i++) bytes[length++] = word >> 8 * i;
}

static void begin(uint32_t n)
{
    length = 0;
    put(3u << 30), put(3u << 30 | 1), put(2u << 30 | n);
}

/* a variable that the clause has not used yet */
static uint32_t fresh(uint32_t n, uint8_t used[128])
{
    uint32_t v;
    do v = below(n); while (used[v]);
    used[v] = 1;
    return v + 1;
}

/* count clauses of c literals over n variables */
static void make(uint32_t n, uint32_t count, uint32_t c)
{
    begin(n);
    for (uint32_t i = 0; i < count; i++) {
        uint8_t used[128] = { 0 };
        put(1u << 30 | c);
        for (uint32_t j = 0; j < c; j++) put(2 * fresh(n, used) + below(2));
    }
}

/* all 256 clauses over eight variables, step apart from 1 on, which have no model, among random clauses of 8 literals */
static void make_eights(uint32_t n, uint32_t step)
{
    begin(n);
    for (uint32_t i = 0; i < 1024; i++) {
        uint8_t used[128] = { 0 };
        put(1u << 30 | 8);
        for (uint32_t j = 0; j < 8; j++) {
            if (i % 4 == 0) put(2 * (j * step + 1) + (i / 4 >> j & 1));
            else put(2 * fresh(n, used) + below(2));
        }
    }
}

/* Three literals that are true in every round of the chain 1 to n: the positive one is paid before the others. */
static void put_kept(uint32_t n)
{
    uint8_t used[128] = { 0 };
    uint32_t v[3], least = n;
    for (int j = 0; j < 3; j++) {
        v[j] = fresh(n, used);
        if (v[j] < least) least = v[j];
    }
    put(1u << 30 | 3);
    for (int j = 0; j < 3; j++) put(2 * v[j] + (v[j] != least));
}

/* The chain (1)(-1 2)(-2 3) .. of n clauses, which takes n + 1 rounds, and clauses that are true throughout: behind it, or before it, where every
   round passes over them, and the chain from its end. */
static void make_chain(uint32_t n, uint32_t count, int behind)
{
    begin(n);
    if (!behind) for (uint32_t i = n; i < count; i++) put_kept(n);
    for (uint32_t i = 1; i <= n; i++) {
        uint32_t v = behind ? i : n + 1 - i;
        put(1u << 30 | (v > 1 ? 2 : 1));
        if (v > 1) put(2 * (v - 1) + 1);
        put(2 * v);
    }
    if (behind) for (uint32_t i = n; i < count; i++) put_kept(n);
}

/* Horn clauses of c literals over n variables, with facts in between: every period-th clause is one, each of another variable. Every eighth of
   the others has negative literals only, the last variable's among them, which is never paid. With no_model the last clause has facts' opposites. */
static void make_horn(uint32_t n, uint32_t count, uint32_t c, uint32_t period, uint32_t no_model)
{
    uint8_t fact[128] = { 0 };
    begin(n);
    fact[n - 1] = 1;
    for (uint32_t i = 0; i < count - no_model; i++) {
        uint8_t used[128] = { 0 };
        if (i % period == 0) {
            put(1u << 30 | 1), put(2 * fresh(n, fact));
            continue;
        }
        uint32_t at = below(c), negative = below(8) == 0;
        put(1u << 30 | c);
        used[n - 1] = 1;
        for (uint32_t j = 0; j < c; j++) {
            if (j == at && negative) put(2 * n + 1);
            else put(2 * fresh(n, used) + (j != at));
        }
    }
    if (!no_model) return;
    put(1u << 30 | c);
    for (uint32_t v = 1; c > 0; v++) if (fact[v - 1] && v != n) put(2 * v + 1), c--;
}

/* Some clauses of 3 literals, and four over the last two variables, which have no model. With the four alone splitting takes every call there
   can be. */
static void make_last(uint32_t n, uint32_t more)
{
    make(n, more, 3);
    for (uint32_t i = 0; i < 4; i++) put(1u << 30 | 2), put(2 * (n - 1) + i / 2), put(2 * n + i % 2);
}

/* Clauses of c literals over neighbours, any of reach variables running: what a clause asks for is seen soon after it is set. There is a model, in
   which every third variable is paid: a literal is turned where a clause would not be met by it. */
static void make_near(uint32_t n, uint32_t count, uint32_t c, uint32_t reach)
{
    begin(n);
    for (uint32_t i = 0; i < count; i++) {
        uint8_t used[128] = { 0 };
        uint32_t first = below(n - reach + 1), met = below(c);
        put(1u << 30 | c);
        for (uint32_t j = 0; j < c; j++) {
            uint32_t v = first + fresh(reach, used);
            put(2 * v + (j == met ? v % 3 != 0 : below(2)));
        }
    }
}

/* The old sheet of a leg that brings two. The longer one is in bytes. */
static uint8_t old[36876];
static size_t old_length;

/* The old sheet is the first clauses of the longer one, each of c literals. */
static void old_as_first(uint32_t count, uint32_t c)
{
    old_length = 12 + 4 * (1 + c) * count;
    memcpy(old, bytes, old_length);
}

/* The longer sheet's clauses, each of c literals, from last to first, and their literals in any order. */
static void turn_round(uint32_t c)
{
    static uint8_t kept[36876];
    size_t size = 4 * (1 + c);
    memcpy(kept, bytes, length);
    for (size_t at = 12; at < length; at += size) {
        uint8_t *clause = bytes + at;
        memcpy(clause, kept + length + 12 - at - size, size);
        for (uint32_t j = c; j > 1; j--) {
            uint32_t last, other, k = 1 + below(j);
            memcpy(&last, clause + 4 * j, 4), memcpy(&other, clause + 4 * k, 4);
            memcpy(clause + 4 * j, &other, 4), memcpy(clause + 4 * k, &last, 4);
        }
    }
}

/* Ten variables and 1,024 clauses. Each of the old sheet's is (1 .. c), which the longer sheet has last. Its other clauses have 7 to 1 and then another
   literal, so that a comparison literal by literal ends late, and, with c 7, only when it goes the other way. With lacking the last clause of the
   old sheet is (-1 .. -c), which the longer one has not. */
static void make_found_last(uint32_t c, int lacking)
{
    begin(10);
    for (uint32_t i = 0; i < 1024; i++) {
        put(1u << 30 | c);
        for (uint32_t v = 1; v <= c; v++) put(2 * v + (lacking && i == 1023));
    }
    old_as_first(1024, c);
    begin(10);
    for (uint32_t i = 0; i < 1024; i++) {
        put(1u << 30 | (i < 1023 ? 8 : c));
        for (uint32_t v = 7; v >= 1; v--) put(2 * v);
        if (i < 1023) put(17 + i % 5);
        else if (c == 8) put(16);
    }
}

static void fail(const char *why)
{
    fflush(stdout);
    fprintf(stderr, "%s\n", why);
    exit(1);
}

static const char *verdicts[] = { "refused", "clear", "none", "spent" };

/* Who decides: the library, plain C as the papers are worded, or the fastest plain C found, by vectors in balls, by watches in rounds and by sets of
   clauses in splitting. */
enum { LIBRARY, WORDED, FASTEST };

/* The reply that says what plain C answered. */
static struct reply reply_of(int verdict, uint32_t road, const struct plain_answer *answer)
{
    struct reply reply = { .verdict = verdict, .batch = answer->batch, .road = road, .calls = answer->calls };
    memcpy(reply.marks, answer->marks, sizeof reply.marks);
    return reply;
}

/* The seconds of one run. */
static double timed(int who, const struct plain *plain, uint32_t b, uint32_t s, uint32_t budget, struct reply *reply)
{
    struct plain_answer answer;
    double at = seconds();
    if (who == LIBRARY) {
        *reply = run(b, s, budget, bytes, length);
        return seconds() - at;
    }
    int verdict = plain->run(b, s, budget, bytes, length, who == FASTEST, &answer);
    double took = seconds() - at;
    *reply = reply_of(verdict, answer.horn ? ENGINE_HORN : ENGINE_BALLS, &answer);
    return took;
}

static int agree(const struct reply *a, const struct reply *b)
{
    return a->verdict == b->verdict && a->batch == b->batch && a->road == b->road && a->calls == b->calls &&
           memcmp(a->marks, b->marks, sizeof a->marks) == 0;
}

/* Plain C as the steps are worded takes up to 17 us a call, so that it runs once, and within 200,000 calls unless the radius is 0. Its seconds
   a call are put in each; the answer is whether the library says the same within as many calls. */
static int as_worded(const struct plain *plain, uint32_t b, uint32_t s, uint32_t budget, double *each)
{
    struct reply ours, theirs;
    if (s && budget > 200000) budget = 200000;
    timed(LIBRARY, plain, b, s, budget, &ours);
    double empty = timed(WORDED, plain, b, s, 0, &theirs), took = timed(WORDED, plain, b, s, budget, &theirs);
    *each = (took - empty) / theirs.calls;
    return agree(&ours, &theirs);
}

/* A search by the library and by plain C, in turn. Its seconds are the least of three runs, less the least of three without a call, which read
   the sheet and make the codes. */
static int search(const struct plain *plain, const char *what, uint32_t b, uint32_t s, uint32_t budget)
{
    double best[] = { 1e9, 1e9, 1e9 }, empty[] = { 1e9, 1e9, 1e9 }, worded;
    struct reply replies[3];
    for (int i = 0; i < 6; i++) {
        int who = i % 2 ? FASTEST : LIBRARY;
        double nothing = timed(who, plain, b, s, 0, &replies[who]), took = timed(who, plain, b, s, budget, &replies[who]);
        if (nothing < empty[who]) empty[who] = nothing;
        if (took < best[who]) best[who] = took;
    }
    int same = agree(&replies[LIBRARY], &replies[FASTEST]) & as_worded(plain, b, s, budget, &worded);
    same &= replies[LIBRARY].road == ENGINE_BALLS;
    uint32_t calls = replies[LIBRARY].calls;
    double ours = best[LIBRARY] - empty[LIBRARY], theirs = best[FASTEST] - empty[FASTEST];
    printf("%-44s %-6s %10u calls  %7.3f s  %6.1f ns a call  plain %7.1f ns  ratio %6.3f  vectors %7.3f s  %6.1f ns  ratio %.2f%s\n", what,
           verdicts[replies[LIBRARY].verdict], calls, ours, ours / calls * 1e9, worded * 1e9, ours / calls / worded, theirs,
           theirs / calls * 1e9, ours / theirs, same ? "" : "  DIFFERENT ANSWERS");
    return same;
}

/* One leg, by the library or by plain C, and the record moved on. */
static struct reply one_leg(int who, const struct plain *plain, uint32_t budget, struct checkpoint *record)
{
    struct plain_record theirs = { record->batch, record->n, record->block_length, record->radius, record->next };
    struct plain_answer answer;
    struct reply reply;
    if (who == LIBRARY) {
        struct leg_reply ours = leg(record->block_length, record->radius, budget, bytes, length, record);
        memcpy(&reply, &ours, sizeof reply);
        return reply;
    }
    int verdict = plain->leg(theirs.b, theirs.s, budget, bytes, length, who == FASTEST, &theirs, &answer);
    record->next = theirs.next;
    return reply_of(verdict, answer.horn ? ENGINE_HORN : ENGINE_BALLS, &answer);
}

/* Legs of one search: the last one's reply with the calls of all, and a checksum of each leg's calls and next ball. */
struct walk {
    struct reply reply;
    uint32_t legs;
    uint64_t checksum;
    double took;
};

/* A search from its start in legs of a budget, until there is a verdict, or so many legs. */
static struct walk in_legs(int who, const struct plain *plain, uint32_t b, uint32_t s, uint32_t budget, uint32_t most)
{
    struct checkpoint record = { 1, bytes[8], b, s, 0 };
    struct walk walk = { .legs = 0 };
    uint32_t calls = 0;
    double at = seconds();
    do {
        uint64_t from = record.next;
        walk.reply = one_leg(who, plain, budget, &record);
        walk.legs++;
        walk.checksum = (walk.checksum * 31 + walk.reply.calls) * 31 + record.next;
        calls += walk.reply.calls;
        if (record.next == from) fail("a leg gets past no ball");
    } while (walk.reply.verdict == ENGINE_SPENT && walk.legs < most);
    walk.took = seconds() - at;
    walk.reply.calls = calls;
    return walk;
}

/* A search by one run, and in legs of a budget by the library and by plain C, in turn: the least of six, plain C's of three. The legs must come to
   what the run does, and plain C's must be the same one by one. Plain C as worded goes through the first legs only, of some 200,000 calls, once. */
static int legs(const struct plain *plain, const char *what, uint32_t b, uint32_t s, uint32_t budget)
{
    double whole = 1e9, part = 1e9, best[] = { 1e9, 1e9, 1e9 };
    struct reply reply;
    struct walk walks[3], ours, theirs;
    for (int i = 0; i < 9; i++) {
        int who = i % 3 == 2 ? FASTEST : LIBRARY;
        double took = who == LIBRARY ? timed(LIBRARY, plain, b, s, 4294967295u, &reply) : whole;
        if (took < whole) whole = took;
        walks[who] = in_legs(who, plain, b, s, budget, 4294967295u);
        if (walks[who].took < best[who]) best[who] = walks[who].took;
        if (!agree(&walks[who].reply, &reply)) fail("legs do not come to what one run does");
    }
    uint32_t first = 1 + 200000 / budget;
    theirs = in_legs(WORDED, plain, b, s, budget, first);
    for (int i = 0; i < 6; i++) {
        ours = in_legs(LIBRARY, plain, b, s, budget, first);
        if (ours.took < part) part = ours.took;
    }
    int same = walks[LIBRARY].checksum == walks[FASTEST].checksum && ours.checksum == theirs.checksum;
    printf("%-44s %-6s %4u legs of %6u  %7.3f s  run %7.3f s  ratio %6.2f  plain, %3u legs, ratio %6.3f  vectors %7.3f s  ratio %.2f%s\n", what,
           verdicts[reply.verdict], walks[LIBRARY].legs, budget, best[LIBRARY], whole, best[LIBRARY] / whole, ours.legs, part / theirs.took,
           best[FASTEST], best[LIBRARY] / best[FASTEST], same ? "" : "  DIFFERENT ANSWERS");
    return same;
}

/* A leg without a call: what each leg takes before its first, to read the sheet and to make codes and tables. The least of three means of 20. */
static int leg_ready(const struct plain *plain, const char *what, uint32_t b, uint32_t s)
{
    struct checkpoint record = { 1, bytes[8], b, s, 0 };
    double best[] = { 1e9, 1e9, 1e9 };
    int ok = 1;
    for (int i = 0; i < 9; i++) {
        double at = seconds();
        for (int j = 0; j < 20; j++) ok &= one_leg(i % 3, plain, 0, &record).verdict == ENGINE_SPENT && record.next == 0;
        double took = (seconds() - at) / 20;
        if (took < best[i % 3]) best[i % 3] = took;
    }
    printf("%-44s %8.1f us  plain %8.1f us  ratio %5.2f  vectors %8.1f us  ratio %5.2f%s\n", what, best[LIBRARY] * 1e6, best[WORDED] * 1e6,
           best[LIBRARY] / best[WORDED], best[FASTEST] * 1e6, best[LIBRARY] / best[FASTEST], ok ? "" : "  DIFFERENT ANSWERS");
    return ok;
}

/* One leg that brings an old sheet and a longer one, by the library or by plain C, and the record moved on. */
static struct leg_reply one_longer(int who, const struct plain *plain, uint32_t budget, const uint8_t *first, size_t first_length,
                                   size_t longer_length, struct checkpoint *record)
{
    struct plain_record theirs = { record->batch, record->n, record->block_length, record->radius, record->next };
    struct plain_answer answer;
    struct leg_reply reply = { .verdict = ENGINE_REFUSED };
    if (who == LIBRARY) return leg_longer(theirs.b, theirs.s, budget, first, first_length, bytes, longer_length, record);
    int verdict = plain->longer(theirs.b, theirs.s, budget, first, first_length, bytes, longer_length, who == FASTEST, &theirs, &answer);
    record->next = theirs.next;
    if (verdict < 0) {
        reply.number = -verdict, reply.place = answer.place, reply.sheet = answer.sheet;
        return reply;
    }
    struct reply decided = reply_of(verdict, answer.horn ? ENGINE_HORN : ENGINE_BALLS, &answer);
    memcpy(&reply, &decided, sizeof decided);
    return reply;
}

/* The place of the first clause of the old sheet that is lacking, or 0 where the leg is spent; 1 for anything else. */
static uint32_t lacking_at(const struct leg_reply *reply)
{
    if (reply->verdict == ENGINE_SPENT && reply->road == ENGINE_BALLS && reply->calls == 0 && reply->number == 0 && reply->sheet == 0) return 0;
    return reply->verdict == ENGINE_REFUSED && reply->number == 13 && reply->sheet == 1 ? reply->place : 1;
}

/* A leg without a call that brings the old sheet too, beside one that brings the longer sheet alone, by all three in turn; the least of nine means
   of 10. They must find the same clause lacking, or none. */
static int longer_ready(const struct plain *plain, const char *what, uint32_t b, uint32_t s, uint32_t place)
{
    struct checkpoint record = { 1, bytes[8], b, s, 0 };
    double both[] = { 1e9, 1e9, 1e9 }, alone[] = { 1e9, 1e9, 1e9 };
    int ok = 1;
    for (int i = 0; i < 27; i++) {
        int who = i % 3;
        double at = seconds();
        for (int j = 0; j < 10; j++) ok &= one_leg(who, plain, 0, &record).verdict == ENGINE_SPENT;
        double mid = seconds();
        for (int j = 0; j < 10; j++) {
            struct leg_reply reply = one_longer(who, plain, 0, old, old_length, length, &record);
            ok &= lacking_at(&reply) == place && record.next == 0;
        }
        double end = seconds();
        if (mid - at < alone[who] * 10) alone[who] = (mid - at) / 10;
        if (end - mid < both[who] * 10) both[who] = (end - mid) / 10;
    }
    printf("%-44s %8.1f us (leg %6.1f)  ratio %5.2f  plain %8.1f us (%6.1f)  ratio %6.2f  hashes %8.1f us (%6.1f)  ratio %6.2f%s\n", what,
           both[LIBRARY] * 1e6, alone[LIBRARY] * 1e6, both[LIBRARY] / alone[LIBRARY], both[WORDED] * 1e6, alone[WORDED] * 1e6,
           both[LIBRARY] / both[WORDED], both[FASTEST] * 1e6, alone[FASTEST] * 1e6, both[LIBRARY] / both[FASTEST],
           ok ? "" : "  DIFFERENT ANSWERS");
    return ok;
}

/* The clauses in bytes, each of c literals, arrive while their search is parked: the first leg has some of them, and each leg after it so many more,
   until all are there. The old sheet of a leg is what was searched last; without further clauses there is none. */
struct arrival {
    uint32_t c, first, more;
};

static struct walk while_arriving(int who, const struct plain *plain, uint32_t b, uint32_t s, uint32_t budget, const struct arrival *arrival)
{
    struct checkpoint record = { 1, bytes[8], b, s, 0 };
    struct walk walk = { .legs = 0 };
    uint32_t calls = 0;
    size_t whole = length, step = 4 * (1 + arrival->c), had = 0;
    double at = seconds();
    length = 12 + step * arrival->first;
    do {
        uint64_t from = record.next;
        if (had == 0 || had == length) walk.reply = one_leg(who, plain, budget, &record);
        else {
            struct leg_reply reply = one_longer(who, plain, budget, bytes, had, length, &record);
            memcpy(&walk.reply, &reply, sizeof walk.reply);
        }
        walk.legs++;
        walk.checksum = (walk.checksum * 31 + walk.reply.calls) * 31 + record.next;
        calls += walk.reply.calls;
        if (record.next == from) fail("a leg gets past no ball");
        if (walk.reply.verdict != ENGINE_SPENT && length < whole) fail("the search ends before all clauses are there");
        had = length;
        length = whole - length < step * arrival->more ? whole : length + step * arrival->more;
    } while (walk.reply.verdict == ENGINE_SPENT);
    walk.took = seconds() - at;
    walk.reply.calls = calls;
    length = whole;
    return walk;
}

/* A search in legs of a budget while clauses arrive, by the library and by plain C, beside one run of the library on all clauses: the least of six,
   and of three by vectors. Verdict and marks must be the run's, and plain C's legs the same one by one. Plain C as worded goes through them once. */
static int arriving(const struct plain *plain, const char *what, uint32_t b, uint32_t s, uint32_t budget, struct arrival arrival)
{
    double whole = 1e9, best[] = { 1e9, 1e9, 1e9 };
    struct reply reply;
    struct walk walks[3];
    for (int i = 0; i < 10; i++) {
        int who = i == 9 ? WORDED : i % 3 == 2 ? FASTEST : LIBRARY;
        double took = who == LIBRARY ? timed(LIBRARY, plain, b, s, 4294967295u, &reply) : whole;
        if (took < whole) whole = took;
        walks[who] = while_arriving(who, plain, b, s, budget, &arrival);
        if (walks[who].took < best[who]) best[who] = walks[who].took;
        uint32_t calls = walks[who].reply.calls;
        walks[who].reply.calls = reply.calls;
        if (!agree(&walks[who].reply, &reply)) fail("legs while clauses arrive do not come to what one run does");
        walks[who].reply.calls = calls;
    }
    int same = walks[LIBRARY].checksum == walks[FASTEST].checksum && walks[LIBRARY].checksum == walks[WORDED].checksum;
    printf("%-44s %-6s %3u legs of %6u  %8u calls  %7.3f s  run %8u calls  %7.3f s  ratio %5.2f  plain %7.3f s  ratio %6.3f"
           "  vectors %7.3f s  ratio %5.2f%s\n", what, verdicts[reply.verdict], walks[LIBRARY].legs, budget, walks[LIBRARY].reply.calls, best[LIBRARY],
           reply.calls, whole, best[LIBRARY] / whole, best[WORDED], best[LIBRARY] / best[WORDED], best[FASTEST], best[LIBRARY] / best[FASTEST],
           same ? "" : "  DIFFERENT ANSWERS");
    return same;
}

/* Microseconds of a run, the mean of 200. */
static double mean(int who, const struct plain *plain, uint32_t budget, struct reply *reply)
{
    struct plain_answer answer;
    double at = seconds();
    for (int i = 0; i < 200; i++) {
        if (who == LIBRARY) *reply = run(11, 3, budget, bytes, length);
        else plain->run(11, 3, budget, bytes, length, who == FASTEST, &answer);
    }
    return (seconds() - at) / 200 * 1e6;
}

/* A Horn sheet by all three in turn, the whole run and one with budget 0, which reads the sheet and gets ready; the least of 15 means. Their
   answers must be the same with all rounds, with those needed, with one less and with none, under other plans. */
static int horn(const struct plain *plain, const char *what)
{
    double whole[] = { 1e9, 1e9, 1e9 }, ready[] = { 1e9, 1e9, 1e9 };
    struct reply ours, theirs;
    for (int i = 0; i < 45; i++) {
        double nothing = mean(i % 3, plain, 0, &ours), took = mean(i % 3, plain, 4294967295u, &ours);
        if (nothing < ready[i % 3]) ready[i % 3] = nothing;
        if (took < whole[i % 3]) whole[i % 3] = took;
    }
    timed(LIBRARY, plain, 11, 3, 4294967295u, &ours);
    uint32_t needed = ours.calls, budgets[] = { 0, needed - 1, needed, 4294967295u };
    const char *verdict = verdicts[ours.verdict];
    int same = ours.road == ENGINE_HORN;
    for (int i = 0; i < 8; i++) {
        timed(LIBRARY, plain, 1 + i, i / 2, budgets[i / 2], &ours);
        timed(i % 2 ? FASTEST : WORDED, plain, 1 + i, i / 2, budgets[i / 2], &theirs);
        same &= agree(&ours, &theirs);
    }
    printf("%-44s %-6s %4u rounds  %7.2f us (ready %6.2f)  plain %7.2f us (%6.2f)  ratio %5.2f  watches %7.2f us (%6.2f)  ratio %5.2f%s\n", what,
           verdict, needed, whole[LIBRARY], ready[LIBRARY], whole[WORDED], ready[WORDED], whole[LIBRARY] / whole[WORDED], whole[FASTEST],
           ready[FASTEST], whole[LIBRARY] / whole[FASTEST], same ? "" : "  DIFFERENT ANSWERS");
    return same;
}

/* Seconds of a splitting, the mean of some runs. */
static double mean_split(int who, const struct plain *plain, uint32_t budget, int runs, struct reply *reply)
{
    struct plain_answer answer;
    int verdict = 0;
    double at = seconds();
    for (int i = 0; i < runs; i++) {
        if (who == LIBRARY) *reply = split(budget, bytes, length);
        else verdict = plain->split(budget, bytes, length, who == FASTEST, &answer);
    }
    double took = (seconds() - at) / runs;
    if (who != LIBRARY) *reply = reply_of(verdict, ENGINE_NO_ROAD, &answer);
    return took;
}

/* Whether all three answer a splitting alike. */
static int agree_split(const struct plain *plain, uint32_t budget)
{
    struct reply ours, worded, fastest;
    mean_split(LIBRARY, plain, budget, 1, &ours);
    mean_split(WORDED, plain, budget, 1, &worded);
    mean_split(FASTEST, plain, budget, 1, &fastest);
    return ours.road == ENGINE_NO_ROAD && agree(&ours, &worded) && agree(&ours, &fastest);
}

/* A splitting by all three in turn, the least of three means, less the least of three without a call, which read the sheet and get ready. Their
   answers must be the same with the budget, with the calls needed, with one less and with none. */
static int splits(const struct plain *plain, const char *what, uint32_t budget)
{
    double whole[] = { 1e9, 1e9, 1e9 }, ready[] = { 1e9, 1e9, 1e9 }, each[3];
    struct reply reply = split(budget, bytes, length), last;
    uint32_t calls = reply.calls;
    int runs = 1 + 1000000 / (calls + 500);
    for (int i = 0; i < 9; i++) {
        double nothing = mean_split(i % 3, plain, 0, 200, &last), took = mean_split(i % 3, plain, budget, runs, &last);
        if (nothing < ready[i % 3]) ready[i % 3] = nothing;
        if (took < whole[i % 3]) whole[i % 3] = took;
    }
    for (int who = 0; who < 3; who++) each[who] = (whole[who] - ready[who]) / calls * 1e9;
    int same = agree_split(plain, budget) & agree_split(plain, calls) & agree_split(plain, calls - 1) & agree_split(plain, 0);
    printf("%-44s %-6s %8u calls  %6.1f ns a call (ready %5.1f us)  plain %7.1f ns (%5.1f)  ratio %6.3f  sets %5.1f ns (%5.1f)  ratio %5.2f%s\n",
           what, verdicts[reply.verdict], calls, each[LIBRARY], ready[LIBRARY] * 1e6, each[WORDED], ready[WORDED] * 1e6,
           each[LIBRARY] / each[WORDED], each[FASTEST], ready[FASTEST] * 1e6, each[LIBRARY] / each[FASTEST], same ? "" : "  DIFFERENT ANSWERS");
    return same;
}

static int reading(const struct plain *plain, const char *what)
{
    int rounds = 2000, ok = run(1, 0, 0, bytes, length).road == ENGINE_BALLS;
    double at = seconds();
    for (int i = 0; i < rounds; i++) ok &= run(1, 0, 0, bytes, length).verdict == ENGINE_SPENT;
    double mid = seconds();
    for (int i = 0; i < rounds; i++) ok &= plain->check(bytes, length) == 0;
    double end = seconds();
    printf("%-44s %8.1f us  plain (masks only) %8.1f us  ratio %.2f%s\n", what, (mid - at) / rounds * 1e6, (end - mid) / rounds * 1e6,
           (mid - at) / (end - mid), ok ? "" : "  DIFFERENT ANSWERS");
    return ok;
}

/* Toggles of one variable after the other, beside plain C's, and beside the full reading of the sheet that they spare: plain C's, and a
   question to clause_counts for each clause. */
static int toggling(const struct plain *plain, const char *what, uint32_t n, uint32_t clauses)
{
    static struct plain_tally theirs, full;
    static uint8_t met[1024];
    uint32_t marks[ENGINE_WORDS], unmet, none[ENGINE_WORDS] = { 0 };
    memset(&theirs, 0, sizeof theirs);
    int rounds = 3200, ok = tally_begin(bytes, length, marks, met, &unmet).number == 0 && plain->recount(bytes, length, &theirs) == 0;
    double at = seconds();
    for (int i = 0; i < rounds; i++) ok &= tally_toggle(bytes, length, 1 + i * 7 % n, marks, met, &unmet).number == 0;
    double mid = seconds();
    for (int i = 0; i < rounds; i++) ok &= plain->toggle(bytes, length, 1 + i * 7 % n, &theirs) == 0;
    double end = seconds();
    memcpy(full.marks, marks, sizeof marks);
    for (int i = 0; i < rounds; i++) ok &= plain->recount(bytes, length, &full) == 0;
    double last = seconds();
    for (uint32_t i = 0; i < clauses; i++) ok &= clause_counts(bytes, length, i, marks, none).met == met[i];
    double asked = seconds();
    ok &= memcmp(marks, theirs.marks, sizeof marks) == 0 && unmet == theirs.unmet && memcmp(met, theirs.met, 1024) == 0;
    ok &= unmet == full.unmet && memcmp(met, full.met, 1024) == 0;
    printf("%-44s %8.1f us  plain %8.1f us  ratio %.2f  full reading: plain %8.1f us, by clause_counts %8.1f us%s\n", what,
           (mid - at) / rounds * 1e6, (end - mid) / rounds * 1e6, (mid - at) / (end - mid), (last - end) / rounds * 1e6,
           (asked - last) * 1e6, ok ? "" : "  DIFFERENT ANSWERS");
    return ok;
}

/* The code of length 12, for each radius. */
static int codes(void)
{
    static uint16_t ours[4096], theirs[4096];
    int ok = 1;
    for (uint32_t s = 0; s <= 12; s++) {
        double best[2] = { 1e9, 1e9 };
        struct number_reply r = { 0 };
        int words = 0;
        for (int i = 0; i < 3; i++) {
            double at = seconds();
            r = covering_code(12, s, ours, 4096);
            double mid = seconds();
            words = plain_code(12, s, theirs);
            double end = seconds();
            if (mid - at < best[0]) best[0] = mid - at;
            if (end - mid < best[1]) best[1] = end - mid;
        }
        int same = r.number == 0 && r.result == (uint32_t)words && memcmp(ours, theirs, 2 * words) == 0;
        printf("code (12, %2u): %4u words %32s %8.2f ms  plain %8.2f ms  ratio %.2f%s\n", s, r.result, "", best[0] * 1e3, best[1] * 1e3,
               best[0] / best[1], same ? "" : "  DIFFERENT ANSWERS");
        ok &= same;
    }
    return ok;
}

/* All 169 volumes. The limit is volatile, so that plain C cannot work them out beforehand. */
static int volumes(void)
{
    static volatile uint32_t limit = 12;
    uint64_t ours = 0, theirs = 0;
    int rounds = 20000;
    double at = seconds();
    for (int i = 0; i < rounds; i++)
        for (uint32_t t = 0; t <= limit; t++)
            for (uint32_t s = 0; s <= limit; s++) ours += ball_volume(t, s).result * (1 + s);
    double mid = seconds();
    for (int i = 0; i < rounds; i++)
        for (uint32_t t = 0; t <= limit; t++)
            for (uint32_t s = 0; s <= limit; s++) theirs += plain_volume(t, s) * (1 + s);
    double end = seconds();
    printf("%-44s %8.1f ns  plain %8.1f ns  ratio %.2f%s\n", "volume of a ball, mean of all 169", (mid - at) / rounds / 169 * 1e9,
           (end - mid) / rounds / 169 * 1e9, (mid - at) / (end - mid), ours == theirs ? "" : "  DIFFERENT ANSWERS");
    return ours == theirs;
}

/* A sheet whose clauses do not depend on the sheets made before it. */
static void make_apart(uint32_t n, uint32_t count, uint32_t c)
{
    uint64_t kept = state;
    state = 88172645463325252ull;
    make(n, count, c);
    state = kept;
}

static int rows_32(void)
{
    const struct plain *narrow = &plain32_operations;
    make(32, 160, 3);
    int ok = search(narrow, "n 32, 160 clauses of 3, plan 11, 3", 11, 3, 4294967295u);
    ok &= search(narrow, "n 32, 160 clauses of 3, plan 11, 2", 11, 2, 4294967295u);
    ok &= legs(narrow, "n 32, 160 clauses of 3, plan 11, 3", 11, 3, 750000);
    ok &= legs(narrow, "n 32, 160 clauses of 3, plan 11, 3", 11, 3, 46500);
    ok &= legs(narrow, "n 32, 160 clauses of 3, plan 11, 3", 11, 3, 3400);
    ok &= legs(narrow, "n 32, 160 clauses of 3, plan 12, 4", 12, 4, 400000);
    ok &= legs(narrow, "n 32, 160 clauses of 3, plan 12, 4", 12, 4, 26000);
    make(32, 700, 5);
    ok &= search(narrow, "n 32, 700 clauses of 5, plan 11, 2", 11, 2, 20000000);
    ok &= legs(narrow, "n 32, 700 clauses of 5, plan 11, 2", 11, 2, 110000);
    ok &= legs(narrow, "n 32, 700 clauses of 5, plan 11, 2", 11, 2, 26000);
    make(32, 1024, 3);
    ok &= search(narrow, "n 32, 1,024 clauses of 3, plan 11, 3", 11, 3, 20000000);
    ok &= search(narrow, "n 32, 1,024 clauses of 3, plan 11, 2", 11, 2, 20000000);
    make(32, 160, 3);
    ok &= search(narrow, "n 32, 160 clauses of 3, plan 8, 0", 8, 0, 20000000);
    make_apart(32, 360, 4);
    ok &= search(narrow, "n 32, 360 clauses of 4, plan 11, 3", 11, 3, 10000000);
    make_eights(32, 1);
    ok &= search(narrow, "n 32, 1,024 clauses of 8, plan 8, 2", 8, 2, 5000000);
    make(32, 1024, 3);
    ok &= toggling(narrow, "toggle a variable, 1,024 clauses of 3", 32, 1024);
    make(32, 1024, 8);
    ok &= toggling(narrow, "toggle a variable, 1,024 clauses of 8", 32, 1024);
    ok &= reading(narrow, "read a sheet of 36,876 bytes, ready to search");
    return ok;
}

/* Sheets of 64 variables, which plain C takes with masks of 128 bits. */
static int rows_64(void)
{
    const struct plain *wide = &plain128_operations;
    uint64_t kept = state;
    make_apart(64, 320, 3);
    int ok = search(wide, "n 64, 320 clauses of 3, plan 11, 3", 11, 3, 5000000);
    make_apart(64, 660, 4);
    ok &= search(wide, "n 64, 660 clauses of 4, plan 11, 3", 11, 3, 5000000);
    make_apart(64, 1024, 5);
    ok &= search(wide, "n 64, 1,024 clauses of 5, plan 11, 3", 11, 3, 5000000);
    make_eights(64, 8);
    ok &= search(wide, "n 64, 1,024 clauses of 8, plan 8, 2", 8, 2, 5000000);
    state = kept;
    return ok;
}

/* Made after the rows of 32 variables, whose sheets stay as they were. */
static int rows_128(void)
{
    const struct plain *wide = &plain128_operations;
    make(128, 550, 3);
    int ok = search(wide, "n 128, 550 clauses of 3, plan 11, 3", 11, 3, 5000000);
    ok &= search(wide, "n 128, 550 clauses of 3, plan 12, 12", 12, 12, 5000000);
    ok &= search(wide, "n 128, 550 clauses of 3, plan 8, 0", 8, 0, 2000000);
    make_apart(128, 1024, 4);
    ok &= search(wide, "n 128, 1,024 clauses of 4, plan 11, 3", 11, 3, 5000000);
    make(128, 1024, 5);
    ok &= search(wide, "n 128, 1,024 clauses of 5, plan 11, 3", 11, 3, 20000000);
    ok &= search(wide, "n 128, 1,024 clauses of 5, plan 11, 2", 11, 2, 5000000);
    make_eights(128, 16);
    ok &= search(wide, "n 128, 1,024 clauses of 8, plan 8, 2", 8, 2, 3000000);
    make(128, 1024, 2);
    ok &= search(wide, "n 128, 1,024 clauses of 2, plan 12, 11", 12, 11, 20000000);
    ok &= search(wide, "n 128, 1,024 clauses of 2, plan 12, 9", 12, 9, 20000000);
    ok &= legs(wide, "n 128, 1,024 clauses of 2, plan 12, 11", 12, 11, 100000);
    ok &= legs(wide, "n 128, 1,024 clauses of 2, plan 12, 11", 12, 11, 6500);
    ok &= legs(wide, "n 128, 1,024 clauses of 2, plan 12, 11", 12, 11, 1600);
    make(128, 1024, 8);
    ok &= toggling(wide, "n 128, toggle a variable, 1,024 clauses of 8", 128, 1024);
    ok &= reading(wide, "n 128, read a sheet of 36,876 bytes");
    return ok;
}

/* What each leg takes before its first call, by the plan. */
static int rows_leg_ready(void)
{
    const struct plain *narrow = &plain32_operations, *wide = &plain128_operations;
    make_apart(32, 160, 3);
    int ok = leg_ready(narrow, "leg without a call, n 32, plan 1, 1", 1, 1);
    ok &= leg_ready(narrow, "leg without a call, n 32, plan 8, 2", 8, 2);
    ok &= leg_ready(narrow, "leg without a call, n 32, plan 11, 2", 11, 2);
    ok &= leg_ready(narrow, "leg without a call, n 32, plan 11, 3", 11, 3);
    ok &= leg_ready(narrow, "leg without a call, n 32, plan 12, 3", 12, 3);
    ok &= leg_ready(narrow, "leg without a call, n 32, plan 12, 4", 12, 4);
    ok &= leg_ready(narrow, "leg without a call, n 32, plan 12, 12", 12, 12);
    make_apart(128, 1024, 8);
    ok &= leg_ready(wide, "leg without a call, n 128, plan 1, 1", 1, 1);
    ok &= leg_ready(wide, "leg without a call, n 128, plan 11, 3", 11, 3);
    ok &= leg_ready(wide, "leg without a call, n 128, plan 12, 4", 12, 4);
    ok &= leg_ready(wide, "leg without a call, n 128, plan 12, 11", 12, 11);
    return ok;
}

/* Legs that bring an old sheet too, without a call: 1,024 clauses, of which the old sheet has the first half, in the same order and from the last
   to the first; and where the look-up is long. Plan 1, 1 has codes of one word, so that nearly all is reading, look-up and tables. */
static int rows_longer_ready(void)
{
    const struct plain *narrow = &plain32_operations, *wide = &plain128_operations;
    uint64_t kept = state;
    make_apart(32, 1024, 3);
    old_as_first(512, 3);
    int ok = longer_ready(narrow, "longer, n 32, half of 1,024 of 3, plan 1, 1", 1, 1, 0);
    ok &= longer_ready(narrow, "longer, n 32, half of 1,024 of 3, plan 11, 3", 11, 3, 0);
    turn_round(3);
    ok &= longer_ready(narrow, "longer, n 32, the same, last first, 1, 1", 1, 1, 0);
    ok &= longer_ready(narrow, "longer, n 32, the same, last first, 11, 3", 11, 3, 0);
    make_apart(128, 1024, 3);
    old_as_first(512, 3);
    ok &= longer_ready(wide, "longer, n 128, half of 1,024 of 3, 1, 1", 1, 1, 0);
    ok &= longer_ready(wide, "longer, n 128, half of 1,024 of 3, 11, 3", 11, 3, 0);
    turn_round(3);
    ok &= longer_ready(wide, "longer, n 128, the same, last first, 1, 1", 1, 1, 0);
    ok &= longer_ready(wide, "longer, n 128, the same, last first, 11, 3", 11, 3, 0);
    make_apart(10, 1024, 8);
    old_as_first(1024, 8);
    ok &= longer_ready(narrow, "longer, n 10, all 1,024 of 8, plan 1, 1", 1, 1, 0);
    turn_round(8);
    ok &= longer_ready(narrow, "longer, n 10, the same, last first, 1, 1", 1, 1, 0);
    make_found_last(8, 0);
    ok &= longer_ready(narrow, "longer, n 10, 1,024 of 8, found last, 1, 1", 1, 1, 0);
    make_found_last(7, 0);
    ok &= longer_ready(narrow, "longer, n 10, 1,024 of 7, found last, 1, 1", 1, 1, 0);
    ok &= longer_ready(narrow, "longer, n 10, 1,024 of 7, found last, 8, 2", 8, 2, 0);
    make_found_last(7, 1);
    ok &= longer_ready(narrow, "longer, n 10, the same, last lacking (13)", 1, 1, 3 + 8 * 1023);
    state = kept;
    return ok;
}

/* Searches in legs while clauses arrive: the hard sheet, of which the first 127 clauses have no model, though fewer have one, and 1,024 clauses by
   the quarter. */
static int rows_arriving(void)
{
    const struct plain *narrow = &plain32_operations;
    make_apart(32, 160, 3);
    int ok = arriving(narrow, "n 32, 130, 140, 150, 160 clauses of 3, 11, 3", 11, 3, 790000, (struct arrival){ 3, 130, 10 });
    ok &= arriving(narrow, "n 32, 129 to 160 of 3, one by one, 11, 3", 11, 3, 100000, (struct arrival){ 3, 129, 1 });
    make_apart(32, 1024, 3);
    ok &= arriving(narrow, "n 32, 256, 512, 768, 1,024 of 3, 11, 3", 11, 3, 480000, (struct arrival){ 3, 256, 256 });
    ok &= arriving(narrow, "n 32, 268 to 1,024 of 3, by twelve, 11, 3", 11, 3, 27500, (struct arrival){ 3, 268, 12 });
    return ok;
}

/* Horn sheets. */
static int rows_horn(void)
{
    const struct plain *narrow = &plain32_operations, *wide = &plain128_operations;
    uint64_t kept = state;
    state = 88172645463325252ull;
    begin(0);
    int ok = horn(narrow, "no variable, no clause");
    make_chain(8, 12, 1);
    ok &= horn(narrow, "n 8, 12 clauses, a chain");
    make_horn(32, 160, 3, 16, 0);
    ok &= horn(narrow, "n 32, 160 clauses of 3");
    make_horn(32, 160, 3, 16, 1);
    ok &= horn(narrow, "n 32, 160 clauses of 3, no model");
    make_chain(128, 1024, 1);
    ok &= horn(wide, "n 128, 1,024 clauses, a chain first");
    make_chain(128, 1024, 0);
    ok &= horn(wide, "n 128, 1,024 clauses, a chain last");
    make_horn(128, 1024, 3, 64, 0);
    ok &= horn(wide, "n 128, 1,024 clauses of 3");
    make_horn(128, 1024, 3, 64, 1);
    ok &= horn(wide, "n 128, 1,024 clauses of 3, no model");
    make_horn(128, 1024, 8, 12, 0);
    ok &= horn(wide, "n 128, 1,024 clauses of 8");
    make_horn(128, 1024, 8, 12, 1);
    ok &= horn(wide, "n 128, 1,024 clauses of 8, no model");
    state = kept;
    return ok;
}

/* Sheets for splitting. With n above 32 plain C takes them with masks of 128 bits. */
static int rows_split(void)
{
    const struct plain *narrow = &plain32_operations, *wide = &plain128_operations;
    uint64_t kept = state;
    make_apart(20, 90, 3);
    int ok = splits(narrow, "n 20, 90 clauses of 3", 4294967295u);
    make_apart(30, 130, 3);
    ok &= splits(narrow, "n 30, 130 clauses of 3", 4294967295u);
    make_apart(32, 160, 3);
    ok &= splits(narrow, "n 32, 160 clauses of 3", 4294967295u);
    make_apart(40, 170, 3);
    ok &= splits(wide, "n 40, 170 clauses of 3", 4294967295u);
    make_apart(42, 189, 3);
    ok &= splits(wide, "n 42, 189 clauses of 3", 4294967295u);
    make_last(20, 0);
    ok &= splits(narrow, "n 20, 4 clauses, every call there can be", 4294967295u);
    state = 88172645463325252ull;
    make_last(24, 20);
    ok &= splits(narrow, "n 24, 24 clauses, no model", 4294967295u);
    make_apart(32, 1024, 5);
    ok &= splits(narrow, "n 32, 1,024 clauses of 5", 4294967295u);
    make_eights(32, 3);
    ok &= splits(narrow, "n 32, 1,024 clauses of 8, no model", 300000);
    make_eights(128, 3);
    ok &= splits(wide, "n 128, 1,024 clauses of 8, no model", 300000);
    make_near(128, 600, 3, 30);
    ok &= splits(wide, "n 128, 600 clauses of 3, within 30 variables", 4294967295u);
    make_near(128, 1024, 3, 35);
    ok &= splits(wide, "n 128, 1,024 clauses of 3, within 35", 4294967295u);
    make_apart(128, 550, 3);
    ok &= splits(wide, "n 128, 550 clauses of 3", 500000);
    state = kept;
    return ok;
}

int main(void)
{
    int ok = codes();
    ok &= volumes();
    ok &= rows_32();
    ok &= rows_64();
    ok &= rows_128();
    ok &= rows_leg_ready();
    ok &= rows_longer_ready();
    ok &= rows_arriving();
    ok &= rows_horn();
    ok &= rows_split();
    return !ok;
}
