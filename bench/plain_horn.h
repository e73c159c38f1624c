/* The rounds of paper 9 of 02 for one width, in two forms: as they are worded, with a scan from the first clause in each; and with watches, the
   fastest form found. Both answer 1 clear, 2 none, 3 spent. */

static int PLAIN(is_horn)(const struct PLAIN(sheet) *sheet)
{
    for (uint32_t i = 0; i < sheet->count; i++)
        if (sheet->positive[i] & (sheet->positive[i] - 1)) return 0;
    return 1;
}

static int PLAIN(rounds)(struct PLAIN(search) *search)
{
    const struct PLAIN(sheet) *sheet = search->sheet;
    MASK marks = 0;
    for (;;) {
        uint32_t i = 0;
        if (search->calls == search->budget) return 3;
        search->calls++;
        while (i < sheet->count && ((marks & sheet->positive[i]) | (~marks & sheet->negative[i]))) i++;
        if (i == sheet->count) { search->found = marks; return 1; }
        if (!sheet->positive[i]) return 2;
        marks |= sheet->positive[i];
    }
}

/* Each clause is in the list of one variable that it has negative and that is not paid; when that is paid the clause goes on to another, or, where
   there is none left, gets its bit among those that may be false. A bit goes when its clause is met by its positive literal. */
struct PLAIN(watches) {
    uint64_t unheld[16];
    uint16_t first[BITS], next[1024];
};

enum { PLAIN(no_clause) = 1024 };

static uint32_t PLAIN(lowest)(MASK x)
{
    uint64_t low = x;
    return BITS > 64 && !low ? 64 + __builtin_ctzll((uint64_t)(x >> BITS / 2)) : __builtin_ctzll(low);
}

static void PLAIN(watch)(const struct PLAIN(sheet) *sheet, struct PLAIN(watches) *watches, uint32_t i, MASK marks)
{
    MASK held = sheet->negative[i] & ~marks;
    if (!held) { watches->unheld[i / 64] |= 1ull << i % 64; return; }
    uint32_t v = PLAIN(lowest)(held);
    watches->next[i] = watches->first[v];
    watches->first[v] = i;
}

/* The first false clause, or no_clause. */
static uint32_t PLAIN(first_false)(const struct PLAIN(sheet) *sheet, struct PLAIN(watches) *watches, MASK marks)
{
    for (uint32_t k = 0; k < 16; k++)
        for (; watches->unheld[k]; watches->unheld[k] &= watches->unheld[k] - 1) {
            uint32_t i = 64 * k + __builtin_ctzll(watches->unheld[k]);
            if (!(sheet->positive[i] & marks)) return i;
        }
    return PLAIN(no_clause);
}

static int PLAIN(rounds_watched)(struct PLAIN(search) *search)
{
    const struct PLAIN(sheet) *sheet = search->sheet;
    struct PLAIN(watches) watches = { .unheld = { 0 } };
    MASK marks = 0;
    for (uint32_t v = 0; v < BITS; v++) watches.first[v] = PLAIN(no_clause);
    for (uint32_t i = 0; i < sheet->count; i++) PLAIN(watch)(sheet, &watches, i, 0);
    for (;;) {
        if (search->calls == search->budget) return 3;
        search->calls++;
        uint32_t i = PLAIN(first_false)(sheet, &watches, marks);
        if (i == PLAIN(no_clause)) { search->found = marks; return 1; }
        if (!sheet->positive[i]) return 2;
        marks |= sheet->positive[i];
        i = watches.first[PLAIN(lowest)(sheet->positive[i])];
        for (uint32_t next; i != PLAIN(no_clause); i = next) {
            next = watches.next[i];
            PLAIN(watch)(sheet, &watches, i, marks);
        }
    }
}
