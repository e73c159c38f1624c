/* The look-up of paper 12 of 02 for one width, in two forms: by a scan, and by a table of hashes, the fastest form found. A clause is the set of its
   literals, two masks. Both forms look at the clause of the same number first: where clauses have only been added at the end, that is all.
   Both answer with the first clause of the old sheet that is none of the longer one's, or with the old sheet's number of clauses. */

static int PLAIN(same_set)(const struct PLAIN(sheet) *old, uint32_t i, const struct PLAIN(sheet) *longer, uint32_t j)
{
    return old->positive[i] == longer->positive[j] && old->negative[i] == longer->negative[j];
}

static uint32_t PLAIN(lacking)(const struct PLAIN(sheet) *old, const struct PLAIN(sheet) *longer)
{
    for (uint32_t i = 0; i < old->count; i++) {
        uint32_t j = 0;
        if (i < longer->count && PLAIN(same_set)(old, i, longer, i)) continue;
        while (j < longer->count && !PLAIN(same_set)(old, i, longer, j)) j++;
        if (j == longer->count) return i;
    }
    return old->count;
}

/* Twice as many cells as clauses: a clause is in the first free one from its hash on, as its number and 1, and equal clauses have one. */
struct PLAIN(hashes) {
    uint16_t cell[2048];
};

/* The cell where clause i of a sheet is, or belongs. */
static uint16_t *PLAIN(cell_of)(struct PLAIN(hashes) *hashes, const struct PLAIN(sheet) *sheet, uint32_t i, const struct PLAIN(sheet) *longer)
{
    unsigned __int128 positive = sheet->positive[i], negative = sheet->negative[i];
    uint64_t hash = ((uint64_t)positive ^ (uint64_t)(positive >> 64) * 0x9e3779b97f4a7c15ull) * 0xbf58476d1ce4e5b9ull;
    hash ^= ((uint64_t)negative ^ (uint64_t)(negative >> 64) * 0x94d049bb133111ebull) * 0xd6e8feb86659fd93ull;
    uint32_t k = hash * 0x9e3779b97f4a7c15ull >> 53;
    while (hashes->cell[k] && !PLAIN(same_set)(sheet, i, longer, hashes->cell[k] - 1)) k = (k + 1) % 2048;
    return &hashes->cell[k];
}

/* The table is made at the first clause that is not at its own number. */
static uint32_t PLAIN(lacking_hashed)(const struct PLAIN(sheet) *old, const struct PLAIN(sheet) *longer)
{
    struct PLAIN(hashes) hashes;
    int made = 0;
    for (uint32_t i = 0; i < old->count; i++) {
        if (i < longer->count && PLAIN(same_set)(old, i, longer, i)) continue;
        if (!made) {
            memset(&hashes, 0, sizeof hashes);
            for (uint32_t j = 0; j < longer->count; j++) *PLAIN(cell_of)(&hashes, longer, j, longer) = j + 1;
            made = 1;
        }
        if (!*PLAIN(cell_of)(&hashes, old, i, longer)) return i;
    }
    return old->count;
}

/* The word of the sheet where a clause begins. */
static uint32_t PLAIN(place_of)(const struct PLAIN(sheet) *sheet, uint32_t i)
{
    uint32_t place = 3;
    for (uint32_t k = 0; k < i; k++) place += 1 + sheet->length[k];
    return place;
}
