/* The search of plain_masks.h once more, the fastest form found, for one width: with a byte of counts for each clause, 16 at a time. The byte is
   the number of open literals less 16 times that of met ones: below 0 the clause is true, 0 is dead, 1 and 2 meet S, -16 is one met literal and
   none open. A flip adds a row to the bytes, and the rows are made once a sheet: for each variable and its mark, what its flip changes in each
   clause. Only an empty clause is ever dead: a flip makes a clause dead if its literal has a lone opposite, and such a literal is not tried. */

/* The rows, and the bytes with no variable paid. A place past the last clause is true and stays so. */
static void PLAIN(begin)(struct PLAIN(sheet) *sheet, struct PLAIN(search) *search)
{
    memset(sheet->change, 0, sizeof sheet->change);
    memset(search->counts, -1, sizeof search->counts);
    for (uint32_t i = 0; i < sheet->count; i++) {
        search->counts[i] = sheet->length[i];
        for (uint32_t j = 0; j < sheet->length[i]; j++) {
            uint32_t v = sheet->bit[i][j], positive = sheet->positive[i] >> v & 1;
            sheet->change[v][positive][i] = 16;
            sheet->change[v][!positive][i] = -17;
            if (!positive) search->counts[i] -= 17;
        }
    }
}

/* The bytes of 16 clauses after a flip. */
static __m128i PLAIN(sixteen)(const int8_t *before, const int8_t *row, uint32_t i)
{
    return _mm_add_epi8(_mm_load_si128((const __m128i *)(before + i)), _mm_load_si128((const __m128i *)(row + i)));
}

/* The bytes after a flip. The answer is lone, with the variables of the clauses where the flip leaves one literal met and none open: a clause that
   was so before stays so, since its variable is not tried. */
static MASK PLAIN(flip)(const struct PLAIN(sheet) *sheet, int8_t *after, const int8_t *before, const int8_t *row, MASK lone)
{
    __m128i one = _mm_set1_epi8(-16), less = _mm_set1_epi8(16);
    for (uint32_t i = 0; i < sheet->count; i += 16) {
        __m128i change = _mm_load_si128((const __m128i *)(row + i)), next = PLAIN(sixteen)(before, row, i);
        _mm_store_si128((__m128i *)(after + i), next);
        uint32_t bits = _mm_movemask_epi8(_mm_and_si128(_mm_cmpeq_epi8(change, less), _mm_cmpeq_epi8(next, one)));
        for (; bits; bits &= bits - 1) {
            uint32_t k = i + __builtin_ctz(bits);
            lone |= sheet->positive[k] | sheet->negative[k];
        }
    }
    return lone;
}

/* The clause that is tried, or the number of clauses where none is false. */
static uint32_t PLAIN(choose)(const struct PLAIN(sheet) *sheet, const int8_t *counts, MASK lone, MASK *skipped)
{
    uint32_t first = sheet->count;
    for (uint32_t i = 0; i < sheet->count; i += 16) {
        uint32_t bits = ~_mm_movemask_epi8(_mm_load_si128((const __m128i *)(counts + i))) & 0xffff;
        for (; bits; bits &= bits - 1) {
            uint32_t k = i + __builtin_ctz(bits);
            if (first == sheet->count) first = k;
            *skipped = (sheet->positive[k] | sheet->negative[k]) & lone;
            if (*skipped || counts[k] <= 2) return k;
        }
    }
    return first;
}

/* A call without a flip left: 1 if all clauses are true, 0 if not, -1 spent. */
static int PLAIN(last_call)(struct PLAIN(search) *search, const int8_t *before, const int8_t *row, MASK marks)
{
    if (search->calls == search->budget) return -1;
    search->calls++;
    for (uint32_t i = 0; i < search->sheet->count; i += 16)
        if (_mm_movemask_epi8(PLAIN(sixteen)(before, row, i)) != 0xffff) return 0;
    search->found = marks;
    return 1;
}

/* 1 found, 0 no, -1 spent. The bytes are those before the flip that led here, and the row is the flip's. */
static int PLAIN(call_counts)(struct PLAIN(search) *search, const int8_t *before, const int8_t *row, MASK marks, MASK flipped, MASK lone, uint32_t left)
{
    const struct PLAIN(sheet) *sheet = search->sheet;
    _Alignas(16) int8_t counts[1024];
    MASK skipped = 0;
    if (search->calls == search->budget) return -1;
    search->calls++;
    lone = PLAIN(flip)(sheet, counts, before, row, lone) & ~flipped;
    uint32_t i = PLAIN(choose)(sheet, counts, lone, &skipped);
    if (i == sheet->count) { search->found = marks; return 1; }
    for (uint32_t j = 0; j < sheet->length[i]; j++) {
        uint32_t v = sheet->bit[i][j];
        MASK mask = (MASK)1 << v;
        const int8_t *change = sheet->change[v][marks >> v & 1];
        if ((flipped | skipped) & mask) continue;
        int seen = left == 1 ? PLAIN(last_call)(search, counts, change, marks ^ mask)
                             : PLAIN(call_counts)(search, counts, change, marks ^ mask, flipped | mask, lone, left - 1);
        if (seen) return seen;
    }
    return 0;
}

/* A ball: the bytes are brought to its centre, variable by variable. What was met is open then, and not flipped. */
static int PLAIN(ball)(struct PLAIN(search) *search, MASK centre, uint32_t radius)
{
    static const _Alignas(16) int8_t no_change[1024];
    if (radius == 0) return PLAIN(call)(search, centre, 0, 0);
    for (uint32_t v = 0; v < search->sheet->n; v++) {
        if (!((centre ^ search->centre) >> v & 1)) continue;
        const int8_t *row = search->sheet->change[v][search->centre >> v & 1];
        for (uint32_t i = 0; i < search->sheet->count; i++) search->counts[i] += row[i] + (row[i] > 0);
    }
    search->centre = centre;
    MASK lone = 0;
    for (uint32_t i = 0; i < search->sheet->count; i++) {
        if (search->sheet->length[i] == 0) return PLAIN(call)(search, centre, 0, 0);
        if (search->counts[i] == -16) lone |= search->sheet->positive[i] | search->sheet->negative[i];
    }
    return PLAIN(call_counts)(search, search->counts, no_change, centre, 0, lone, radius);
}
