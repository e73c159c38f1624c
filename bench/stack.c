/* Measures the stack that run, leg, leg_longer, split, clash, alike, clause_counts, tally_toggle and covering_code take: each runs on a painted stack, and
   the paint left is counted. The sheet makes the search as deep as it can be, n flips: in every block each variable is within the radius. Each flip
   is of the last literal of its clause, after up to seven whose variables are flipped already, so that a stack that grows with a clause's literals
   shows too. Without its last clause the sheet is Horn and takes n + 1 rounds. n 128 is the limit; n 32 was it before paper 5. The old sheet of
   leg_longer is the same one, or has 1,024 clauses, each of which stands in the longer one, mostly under another number.
   Splitting is n + 1 calls deep where a clause is decided at the last variable, by variables held, or paid, or with the longest sheet. An empty
   clause behind the others is the core of a sheet: clash runs the sheet without it, as deep as it can be. */
#include <pthread.h>
#include <stdio.h>
#include <stdlib.h>
#include <string.h>
#include "../include/engine.h"

#define SIZE (4 << 20)

static uint8_t stack[SIZE] __attribute__((aligned(4096)));
static uint8_t sheet[36876], old[36876];
static size_t length, old_length;
static uint16_t table[4096];
static struct reply reply;

static void put(uint32_t word)
{
    for (int i = 0; i < 4; i++) sheet[length++] = word >> 8 * i;
}

/* The last clause, (-n 1 2), has two positive literals, so that balls are searched. It is true throughout: -n is met until 1 is flipped, which
   meets it for good. */
static void make(uint32_t n, int horn)
{
    length = 0;
    put(3u << 30), put(3u << 30), put(2u << 30 | n);
    for (uint32_t v = 1; v <= n; v++) {
        uint32_t before = v < 8 ? v - 1 : 7;
        put(1u << 30 | (before + 1));
        for (uint32_t u = 1; u <= before; u++) put(2 * u + 1);
        put(2 * v);
    }
    if (!horn) put(1u << 30 | 3), put(2 * n + 1), put(2), put(4);
}

/* The old sheet: the clauses of the sheet from the last to the first, and again until there are 1,024. */
static void make_old(void)
{
    size_t at[1024], count = 0, i = 0;
    for (size_t k = 12; k < length; k += 4 * (1 + sheet[k])) at[count++] = k;
    memcpy(old, sheet, 12);
    old_length = 12;
    for (uint32_t k = 0; k < 1024; k++) {
        i = (i ? i : count) - 1;
        size_t bytes = 4 * (1 + sheet[at[i]]);
        memcpy(old + old_length, sheet + at[i], bytes);
        old_length += bytes;
    }
}

/* Clauses of the last c variables, all positive: every variable but the last is held, and then the last is paid. */
static void make_last(uint32_t n, uint32_t count, uint32_t c)
{
    length = 0;
    put(3u << 30), put(3u << 30), put(2u << 30 | n);
    for (uint32_t i = 0; i < count; i++) {
        put(1u << 30 | c);
        for (uint32_t v = n - c + 1; v <= n; v++) put(2 * v);
    }
}

static void *do_run(void *unused) { reply = run(1, 1, 1000000, sheet, length); return unused; }
static void *do_run_12(void *unused) { reply = run(12, 12, 1000000, sheet, length); return unused; }
static void *do_leg(void *unused)
{
    struct checkpoint record = { 0, sheet[8], 12, 12, 0 };
    struct leg_reply r = leg(12, 12, 1000000, sheet, length, &record);
    memcpy(&reply, &r, sizeof reply);
    return unused;
}
static void do_longer(const uint8_t *first, size_t first_length)
{
    struct checkpoint record = { 0, sheet[8], 12, 12, 0 };
    struct leg_reply r = leg_longer(12, 12, 1000000, first, first_length, sheet, length, &record);
    memcpy(&reply, &r, sizeof reply);
}
static void *do_same(void *unused) { do_longer(sheet, length); return unused; }
static void *do_old(void *unused) { do_longer(old, old_length); return unused; }
static void *do_clash(void *unused)
{
    static uint16_t list[1024];
    reply = clash(1, 1, 1000000, sheet, length, list, 1024);
    return unused;
}
static void *do_split(void *unused) { reply = split(1000000, sheet, length); return unused; }
static void *do_alike(void *unused) { alike(sheet, length, sheet, length); return unused; }
static void *do_counts(void *unused)
{
    uint32_t marks[ENGINE_WORDS] = { 1 };
    clause_counts(sheet, length, 0, marks, marks);
    return unused;
}
static void *do_toggle(void *unused)
{
    static uint32_t marks[ENGINE_WORDS], unmet;
    static uint8_t met[1024];
    tally_begin(sheet, length, marks, met, &unmet);
    tally_toggle(sheet, length, 1, marks, met, &unmet);
    return unused;
}
static void *do_code(void *unused) { covering_code(12, 3, table, 4096); return unused; }
static void *do_nothing(void *unused) { return unused; }

static size_t used(void *(*work)(void *))
{
    pthread_attr_t attributes;
    pthread_t thread;
    size_t left = 0;
    memset(stack, 0xa5, SIZE);
    pthread_attr_init(&attributes);
    pthread_attr_setstack(&attributes, stack, SIZE);
    pthread_create(&thread, &attributes, work, 0);
    pthread_join(thread, 0);
    while (left < SIZE && stack[left] == 0xa5) left++;
    return SIZE - left;
}

/* As deep as it can be a search takes so many calls, or rounds. */
static size_t deepest(void *(*work)(void *), uint32_t calls, uint32_t road)
{
    size_t bytes = used(work);
    if (reply.verdict == ENGINE_CLEAR && reply.calls == calls && reply.road == road) return bytes;
    fprintf(stderr, "the search is not as deep as it can be: %u calls where %u were due\n", reply.calls, calls);
    exit(1);
}

/* Held down to the last variable splitting takes n + 2 calls, and where every variable is paid 2 n + 1. */
static void measure_split(uint32_t n)
{
    size_t base = used(do_nothing), most;
    make_last(n, 1, 1);
    size_t held = most = deepest(do_split, n + 2, ENGINE_NO_ROAD) - base;
    make(n, 1);
    size_t paid = deepest(do_split, 2 * n + 1, ENGINE_NO_ROAD) - base;
    make_last(n, 1024, 8);
    size_t longest = deepest(do_split, n + 2, ENGINE_NO_ROAD) - base;
    if (paid > most) most = paid;
    if (longest > most) most = longest;
    printf("n %u: split %zu bytes, %u calls deep (one clause, of the last variable: %zu; all variables paid: %zu; 1,024 clauses of 8: %zu)\n", n,
           most, n + 1, held, paid, longest);
}

/* leg_longer in balls and in rounds. */
static void measure_longer(uint32_t n)
{
    size_t base = used(do_nothing);
    make(n, 1), make_old();
    size_t horn_same = deepest(do_same, n + 1, ENGINE_HORN) - base, horn = deepest(do_old, n + 1, ENGINE_HORN) - base;
    make(n, 0), make_old();
    size_t same = deepest(do_same, n + 1, ENGINE_BALLS) - base, balls = deepest(do_old, n + 1, ENGINE_BALLS) - base;
    printf("n %u: leg_longer %zu bytes (Horn: %zu; the same sheet twice: %zu, and Horn: %zu)\n", n, balls, horn, same, horn_same);
}

/* The core is one clause, on the road that the sheet with that clause takes. */
static size_t measure_clash(uint32_t n, int horn)
{
    size_t base = used(do_nothing);
    make(n, horn);
    put(1u << 30);
    size_t bytes = used(do_clash);
    if (reply.verdict == ENGINE_NONE && reply.calls == 1 && reply.road == (horn ? ENGINE_HORN : ENGINE_BALLS)) return bytes - base;
    fprintf(stderr, "the core is not the empty clause: %u clauses\n", reply.calls);
    exit(1);
}

static void measure(uint32_t n)
{
    size_t base = used(do_nothing);
    make(n, 1);
    size_t horn = deepest(do_run, n + 1, ENGINE_HORN) - base, leg_horn = deepest(do_leg, n + 1, ENGINE_HORN) - base;
    make(n, 0);
    printf("n %u: run %zu bytes (blocks of 12: %zu; Horn: %zu), alike %zu bytes, clause_counts %zu bytes, tally_toggle %zu bytes\n", n,
           deepest(do_run, n + 1, ENGINE_BALLS) - base, deepest(do_run_12, n + 1, ENGINE_BALLS) - base, horn, used(do_alike) - base,
           used(do_counts) - base, used(do_toggle) - base);
    printf("n %u: leg %zu bytes (Horn: %zu)\n", n, deepest(do_leg, n + 1, ENGINE_BALLS) - base, leg_horn);
    measure_longer(n);
    size_t of_balls = measure_clash(n, 0), of_rounds = measure_clash(n, 1);
    printf("n %u: clash %zu bytes (Horn: %zu)\n", n, of_balls, of_rounds);
    measure_split(n);
}

int main(void)
{
    size_t base = used(do_nothing);
    printf("covering_code %zu bytes, with the dynamic linker's at its first call\n", used(do_code) - base);
    measure(32);
    measure(128);
    return 0;
}
