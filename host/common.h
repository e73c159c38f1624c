/* What the hosts share: the numbers of a command line, the bytes of a file, and the engine's answer as the program `clearing`
   prints it. PROGRAM is the host's name, for what it says on standard error. */
#include <stdio.h>
#include "../include/engine.h"

/* one word more than the longest sheet, so that an overlong one is seen */
enum { SHEET_LIMIT = 36876, SHEET_ROOM = SHEET_LIMIT + 4 };

/* Reads a decimal number of at most 32 bits from the front of the text: gives its end, or a null pointer where there is none. */
static const char *digits(const char *text, uint32_t *into)
{
    uint64_t n = 0;
    const char *at = text;
    while (*at >= '0' && *at <= '9' && n <= UINT32_MAX) n = 10 * n + (uint64_t)(*at++ - '0');
    if (at == text || n > UINT32_MAX) return NULL;
    *into = (uint32_t)n;
    return at;
}

/* Reads a text that is one number; anything else is told and gives 0. */
static int number(const char *what, const char *text, uint32_t *into)
{
    const char *end = digits(text, into);
    if (end && !*end) return 1;
    fprintf(stderr, PROGRAM ": %s is '%s', and must be a decimal number from 0 to 4294967295\n", what, text);
    return 0;
}

/* Reads as much of the file as there is room for; a file that cannot be read is told and gives 0. */
static int contents(const char *name, uint8_t *into, size_t room, size_t *length)
{
    FILE *file = fopen(name, "rb");
    if (!file) {
        perror(name);
        return 0;
    }
    *length = fread(into, 1, room, file);
    int bad = ferror(file);
    if (bad) perror(name);
    fclose(file);
    return !bad;
}

static void print_marks(const uint32_t marks[ENGINE_WORDS])
{
    printf(" marks");
    for (int word = 0; word < ENGINE_WORDS; word++) printf(" %u", marks[word]);
}

static void print_refusal(uint32_t number, uint32_t place)
{
    printf("refused %u place %u\n", number, place);
}

/* An answer that is no refusal; where it names no road, there is no word for one. The calls of many legs need not fit 32 bits. */
static void print_answer(uint32_t verdict, uint32_t batch, uint32_t road, uint64_t calls, const uint32_t marks[ENGINE_WORDS])
{
    static const char *names[] = { "refused", "clear", "none", "spent" }, *roads[] = { "", " horn", " ball" };
    printf("batch %u%s %s calls %llu", batch, roads[road], names[verdict], (unsigned long long)calls);
    print_marks(marks);
    printf("\n");
}
