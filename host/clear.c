/* The engine's host in small: reads a sheet from a file and prints the engine's answer as the program `clearing` does, or that
   by plain splitting, or how each clause stands under an assignment and a set of flipped variables, or a tally after each toggle
   of a variable.
   clear BLOCK_LENGTH RADIUS BUDGET FILE
   clear split BUDGET FILE
   clear counts MARKS FLIPPED FILE
   clear tally FILE VARIABLE...
   MARKS and FLIPPED are one to four numbers with commas between them, variables 1 to 32 in the first; those left out are 0. */
#include <string.h>
#define PROGRAM "clear"
#include "common.h"

static uint8_t sheet[SHEET_ROOM];

/* Reads an assignment or a set of variables; anything else is told and gives 0. */
static int variables(const char *what, const char *text, uint32_t into[ENGINE_WORDS])
{
    const char *at = text;
    memset(into, 0, ENGINE_WORDS * sizeof into[0]);
    for (int word = 0; word < ENGINE_WORDS; word++) {
        at = digits(at, &into[word]);
        if (at && !*at) return 1;
        if (!at || *at++ != ',') break;
    }
    fprintf(stderr, "clear: %s is '%s', and must be one to four decimal numbers from 0 to 4294967295 with commas between them\n", what,
            text);
    return 0;
}

/* The clauses of an accepted sheet: each begins at a word of kind 1. */
static uint32_t clauses(size_t length)
{
    uint32_t count = 0;
    for (size_t word = 3; word < length / 4; word++) count += sheet[4 * word + 3] >> 6 == 1;
    return count;
}

/* One line a clause, numbered from 1 as tools/sheet does: how it stands. */
static int counts(char **argv)
{
    uint32_t marks[ENGINE_WORDS], flipped[ENGINE_WORDS];
    size_t length;
    if (!variables("MARKS", argv[2], marks) || !variables("FLIPPED", argv[3], flipped)) return 2;
    if (!contents(argv[4], sheet, sizeof sheet, &length)) return 2;
    struct counts_reply r = clause_counts(sheet, length, 0, marks, flipped);
    if (r.number) {
        print_refusal(r.number, r.place);
        return 0;
    }
    for (uint32_t clause = 0, count = clauses(length); clause < count; clause++) {
        r = clause_counts(sheet, length, clause, marks, flipped);
        printf("clause %u met %u open %u\n", clause + 1, r.met, r.open);
    }
    return 0;
}

/* The standing that a reply leaves, or the refusal. */
static void standing(const char *after, struct tally_reply r, const uint32_t marks[ENGINE_WORDS], uint32_t unmet)
{
    if (r.number) {
        printf("%s refused %u place %u\n", after, r.number, r.place);
        return;
    }
    printf("%s", after);
    print_marks(marks);
    printf(" false %u %s\n", unmet, tally_holds(unmet) ? "all hold" : "not all hold");
}

/* One line for the beginning of a tally and for each toggle, and then one a clause. */
static int tally(int argc, char **argv)
{
    static uint8_t met[1024];
    uint32_t marks[ENGINE_WORDS] = { 0 }, unmet = 0, variable;
    size_t length;
    for (int i = 3; i < argc; i++)
        if (!number("VARIABLE", argv[i], &variable)) return 2;
    if (!contents(argv[2], sheet, sizeof sheet, &length)) return 2;
    struct tally_reply r = tally_begin(sheet, length, marks, met, &unmet);
    standing("begin", r, marks, unmet);
    if (r.number) return 0;
    for (int i = 3; i < argc; i++) {
        char after[32];
        number("VARIABLE", argv[i], &variable);
        snprintf(after, sizeof after, "toggle %u", variable);
        r = tally_toggle(sheet, length, variable, marks, met, &unmet);
        standing(after, r, marks, unmet);
    }
    for (uint32_t clause = 0, count = clauses(length); clause < count; clause++) printf("clause %u met %u\n", clause + 1, met[clause]);
    return 0;
}

static void print_reply(struct reply r)
{
    if (r.verdict == ENGINE_REFUSED) print_refusal(r.number, r.place);
    else print_answer(r.verdict, r.batch, r.road, r.calls, r.marks);
}

static int decide(char **argv)
{
    uint32_t size, radius, budget;
    size_t length;
    if (!number("BLOCK_LENGTH", argv[1], &size) || !number("RADIUS", argv[2], &radius) || !number("BUDGET", argv[3], &budget)) return 2;
    if (!contents(argv[4], sheet, sizeof sheet, &length)) return 2;
    print_reply(run(size, radius, budget, sheet, length));
    return 0;
}

static int by_splitting(char **argv)
{
    uint32_t budget;
    size_t length;
    if (!number("BUDGET", argv[2], &budget) || !contents(argv[3], sheet, sizeof sheet, &length)) return 2;
    print_reply(split(budget, sheet, length));
    return 0;
}

int main(int argc, char **argv)
{
    if (argc >= 3 && strcmp(argv[1], "tally") == 0) return tally(argc, argv);
    if (argc == 4 && strcmp(argv[1], "split") == 0) return by_splitting(argv);
    if (argc == 5) return strcmp(argv[1], "counts") == 0 ? counts(argv) : decide(argv);
    fprintf(stderr, "usage: clear BLOCK_LENGTH RADIUS BUDGET FILE\n"
                    "       clear split BUDGET FILE\n"
                    "       clear counts MARKS FLIPPED FILE\n"
                    "       clear tally FILE VARIABLE...\n"
                    "MARKS and FLIPPED are one to four numbers, as 1,0,0,2147483648: variables 1 to 32 in the first, those left out 0\n");
    return 2;
}
