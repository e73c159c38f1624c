/* Plain splitting (paper 10 of 02) for one width, in two forms: as it is worded, with scans of the clauses in each call; and with sets of clauses,
   the fastest form found. Both answer 1 clear, 2 none, 3 spent. */

/* 1 found, 0 no, -1 spent. The set variables are the first ones, and the marks have 0 for the others. A clause may still be met by the positive
   literals of variables paid or not set, and by the negative ones of variables held or not set. */
static int PLAIN(split_call)(struct PLAIN(search) *search, MASK set, MASK marks)
{
    const struct PLAIN(sheet) *sheet = search->sheet;
    MASK positive = marks | ~set, negative = ~marks, held = set & ~marks, next = set + 1;
    uint32_t i, count = sheet->count;
    if (search->calls == search->budget) return -1;
    search->calls++;
    for (i = 0; i < count; i++)
        if (!((positive & sheet->positive[i]) | (negative & sheet->negative[i]))) return 0;
    for (i = 0; i < count; i++)
        if (!((marks & sheet->positive[i]) | (held & sheet->negative[i]))) break;
    if (i == count) { search->found = marks; return 1; }
    int seen = PLAIN(split_call)(search, set | next, marks);
    return seen ? seen : PLAIN(split_call)(search, set | next, marks | next);
}

static int PLAIN(split_worded)(struct PLAIN(search) *search)
{
    int seen = PLAIN(split_call)(search, 0, 0);
    return seen > 0 ? 1 : seen ? 3 : 2;
}

/* The clauses in the order of their last literals, each a bit in words of 64. A clause is false only at its last variable: a call that sets v looks
   at the clauses that end there with the other literal, for one not met before, and then at the words from first on, since all before are met. */
struct PLAIN(sets) {
    uint32_t words;
    uint16_t first[BITS], from[BITS][2], to[BITS][2];
    uint64_t ending[BITS][2][16], met[BITS][2][16], unmet[BITS + 1][16];
    uint8_t paid[BITS];
};

static uint32_t PLAIN(highest)(MASK x)
{
    uint64_t high = BITS > 64 ? (uint64_t)(x >> BITS / 2) : 0;
    return high ? 127 - __builtin_clzll(high) : 63 - __builtin_clzll((uint64_t)x);
}

/* The last literal of a clause that is not empty: 2 v for a negative one and 2 v + 1 for a positive one, v from 0 on. */
static uint32_t PLAIN(last_literal)(const struct PLAIN(sheet) *sheet, uint32_t i)
{
    uint32_t v = PLAIN(highest)(sheet->positive[i] | sheet->negative[i]);
    return 2 * v + (sheet->positive[i] >> v & 1);
}

static void PLAIN(split_ready)(const struct PLAIN(sheet) *sheet, struct PLAIN(sets) *sets)
{
    uint16_t place[2 * BITS + 1] = { 0 };
    memset(sets->ending, 0, sheet->n * sizeof sets->ending[0]);
    memset(sets->met, 0, sheet->n * sizeof sets->met[0]);
    memset(sets->unmet[0], 0, sizeof sets->unmet[0]);
    sets->words = (sheet->count + 63) / 64;
    for (uint32_t i = 0; i < sheet->count; i++) place[PLAIN(last_literal)(sheet, i) + 1]++;
    for (uint32_t l = 0; l < 2 * sheet->n; l++) {
        place[l + 1] += place[l];
        sets->from[l / 2][l % 2] = place[l] / 64;
        sets->to[l / 2][l % 2] = (place[l + 1] + 63) / 64;
        sets->first[l / 2] = place[l + 1] / 64;
    }
    for (uint32_t i = 0; i < sheet->count; i++) {
        uint32_t l = PLAIN(last_literal)(sheet, i), word = place[l] / 64;
        uint64_t bit = 1ull << place[l]++ % 64;
        sets->ending[l / 2][l % 2][word] |= bit;
        sets->unmet[0][word] |= bit;
        for (uint32_t j = 0; j < sheet->length[i]; j++) {
            uint32_t v = sheet->bit[i][j];
            sets->met[v][sheet->positive[i] >> v & 1][word] |= bit;
        }
    }
}

/* Whether a clause that ends at v is false. */
static inline int PLAIN(split_false)(const struct PLAIN(sets) *sets, uint32_t v, uint32_t paid)
{
    uint64_t lost = 0;
    for (uint32_t k = sets->from[v][!paid]; k < sets->to[v][!paid]; k++) lost |= sets->unmet[v][k] & sets->ending[v][!paid][k];
    return lost != 0;
}

/* Sets v; whether a clause is left that is not met. */
static inline int PLAIN(split_open)(struct PLAIN(sets) *sets, uint32_t v, uint32_t paid)
{
    uint64_t left = 0;
    for (uint32_t k = sets->first[v]; k < sets->words; k++) left |= sets->unmet[v + 1][k] = sets->unmet[v][k] & ~sets->met[v][paid][k];
    sets->paid[v] = paid;
    return left != 0;
}

/* The calls after the first, which is open. Each sets v; after one that says no the last variable held is paid. */
static int PLAIN(split_walk)(struct PLAIN(search) *search, struct PLAIN(sets) *sets)
{
    uint32_t v = 0, paid = 0;
    while (search->calls < search->budget) {
        search->calls++;
        if (PLAIN(split_false)(sets, v, paid)) {
            for (; paid; paid = sets->paid[v]) if (v-- == 0) return 2;
            paid = 1;
        } else if (PLAIN(split_open)(sets, v, paid)) {
            v++, paid = 0;
        } else {
            for (uint32_t u = 0; u <= v; u++) search->found |= (MASK)sets->paid[u] << u;
            return 1;
        }
    }
    return 3;
}

static int PLAIN(split_sets)(struct PLAIN(search) *search)
{
    static struct PLAIN(sets) sets;
    const struct PLAIN(sheet) *sheet = search->sheet;
    int empty = 0;
    for (uint32_t i = 0; i < sheet->count; i++) empty |= !sheet->length[i];
    if (!empty) PLAIN(split_ready)(sheet, &sets);
    if (search->budget == 0) return 3;
    search->calls++;
    if (empty || !sheet->count) return empty ? 2 : 1;
    return PLAIN(split_walk)(search, &sets);
}
