/* A plain C implementation of paper 01 and of papers 2, 4 to 7 and 9 to 12 of 02, as one would write it without proofs. It is the baseline of
   bench/run and shares no code with the crates. The search in balls has two forms: as the steps are worded, with masks per clause, in plain_masks.h;
   and with a byte of counts per clause, 16 at a time, in plain_counts.h (vectors). So have the rounds of a Horn sheet, in plain_horn.h, plain
   splitting, in plain_split.h, and the look-up of an old sheet's clauses, in plain_longer.h. What depends on the masks' width is taken twice: for 32
   variables, as before paper 5, and for 128. */
#include <emmintrin.h>
#include <stdint.h>
#include <string.h>

#define PLAIN_WORDS 4

/* Of a refusal by longer the sheet is told, and the place of 13; no other place is. */
struct plain_answer {
    uint32_t batch;
    int horn;
    uint64_t calls;
    uint32_t marks[PLAIN_WORDS];
    uint32_t sheet, place;
};

struct plain_tally {
    uint32_t marks[PLAIN_WORDS], unmet;
    uint8_t met[1024];
};

/* A parked search. */
struct plain_record {
    uint32_t batch, n, b, s;
    uint64_t next;
};

/* The operations with masks of one width. */
struct plain {
    int (*check)(const uint8_t *bytes, size_t length);
    int (*run)(uint32_t b, uint32_t s, uint32_t budget, const uint8_t *bytes, size_t length, int fast, struct plain_answer *answer);
    int (*leg)(uint32_t b, uint32_t s, uint32_t budget, const uint8_t *bytes, size_t length, int fast, struct plain_record *record,
               struct plain_answer *answer);
    int (*longer)(uint32_t b, uint32_t s, uint32_t budget, const uint8_t *bytes, size_t length, const uint8_t *longer, size_t longer_length,
                  int fast, struct plain_record *record, struct plain_answer *answer);
    int (*split)(uint32_t budget, const uint8_t *bytes, size_t length, int fast, struct plain_answer *answer);
    int (*toggle)(const uint8_t *bytes, size_t length, uint32_t v, struct plain_tally *tally);
    int (*recount)(const uint8_t *bytes, size_t length, struct plain_tally *tally);
};

static int plain_weight(uint32_t x) { int w = 0; while (x) { x &= x - 1; w++; } return w; }

/* The greedy code: gains are counted once, and lowered as words get covered. The answer is the number of words. */
static int plain_code(uint32_t t, uint32_t s, uint16_t *code)
{
    static uint16_t gain[4096];
    static uint8_t covered[4096], near_[4096];
    uint32_t size = 1u << t, count = 0, volume = 0;
    for (uint32_t x = 0; x < size; x++) { near_[x] = plain_weight(x) <= (int)s; volume += near_[x]; covered[x] = 0; }
    for (uint32_t x = 0; x < size; x++) gain[x] = volume;
    for (;;) {
        uint32_t best = 0;
        for (uint32_t w = 1; w < size; w++) if (gain[w] > gain[best]) best = w;
        if (gain[best] == 0) return count;
        code[count++] = best;
        for (uint32_t u = 0; u < size; u++)
            if (near_[u ^ best] && !covered[u]) {
                covered[u] = 1;
                for (uint32_t w = 0; w < size; w++) gain[w] -= near_[u ^ w];
            }
    }
}

/* The blocks of a plan, full ones and one of the variables left, and their codes. */
struct plain_layout {
    uint32_t b, full, blocks, radius, words[2];
    uint16_t code[2][4096];
};

static void plain_lay_out(uint32_t n, uint32_t b, uint32_t s, struct plain_layout *layout)
{
    uint32_t full = n / b, t = n % b, last = s < t ? s : t;
    layout->b = b, layout->full = full, layout->blocks = full + (t > 0), layout->radius = full * s + last;
    layout->words[0] = full ? plain_code(b, s, layout->code[0]) : 1;
    layout->words[1] = t ? plain_code(t, last, layout->code[1]) : 1;
}

#define PLAIN_MOST (1ull << 63)

/* The number of balls, or 2^63 where there are more. */
static uint64_t plain_count(const struct plain_layout *layout)
{
    unsigned __int128 count = 1;
    for (uint32_t i = 0; i < layout->blocks && count < PLAIN_MOST; i++) count *= layout->words[i == layout->full];
    return count < PLAIN_MOST ? count : PLAIN_MOST;
}

/* The volume of a ball: binomials, each from the one before. */
static uint32_t plain_volume(uint32_t t, uint32_t s)
{
    uint32_t binomial = 1, sum = 1;
    for (uint32_t i = 0; i < s && i < t; i++) sum += binomial = binomial * (t - i) / (i + 1);
    return sum;
}

static uint32_t plain_within(int64_t x, uint32_t limit) { return x < 0 ? 0 : x > limit ? limit : (uint32_t)x; }

#define PLAIN_JOIN(bits, name) plain##bits##_##name
#define PLAIN_NAME(bits, name) PLAIN_JOIN(bits, name)
#define PLAIN(name) PLAIN_NAME(BITS, name)

#define BITS 32
#define MASK uint32_t
#include "plain_masks.h"
#undef BITS
#undef MASK

#define BITS 128
#define MASK unsigned __int128
#include "plain_masks.h"
#undef BITS
#undef MASK
