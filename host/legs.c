/* A long ball search in legs: it is parked in a file after each leg, and goes on from there when it is called again, also where it
   was killed in between.
   legs BLOCK_LENGTH RADIUS BUDGET FILE PARKED [LEGS]
   It works legs of BUDGET calls, LEGS of them at most, or until there is a verdict. Where there is no file PARKED the search of the
   sheet in FILE begins. There is one line a leg, printed once that leg is parked, and then one as run would have it, with the calls of
   all legs so far:
   leg 3 balls 512 of 4096 calls 1200 so far 4100
   batch 7 ball spent calls 4100 marks 0 0 0 0
   A clear or none is parked too, and printed again at each later call. A refused or Horn sheet is answered and not parked.

   Further clauses may come while the search is parked: FILE may then bring another sheet, where every clause of the parked one stands.
   The first leg of that call is on both sheets: the balls that are done stay done, the others are worked on the sheet in FILE, and
   that is parked with the leg in place of the old one. Until then the file stays as it was. The calls of all legs need not be a run's
   any more. The refusal of a leg on two sheets says which it is about, 1 the parked one or 2 that in FILE:
   refused 13 place 7 sheet 1
   A search that has ended takes no further clauses (refusal 12): its verdict is that of the sheet parked with it.

   What is parked, numbers low byte first: PARK, version (32 bits each); batch, n, block length, radius (32 each) and next ball (64);
   legs, calls (64 each); verdict, four words of marks, length of the sheet (32 each); the sheet; FNV-1a of all that (64). The verdict
   is spent until there is one. A none holds only for a record that came through legs on this sheet, or on sheets whose clauses all
   stand in it, which is why the sheet is kept with it. One host at a time may work on a file. */
#define _POSIX_C_SOURCE 200809L
#include <errno.h>
#include <fcntl.h>
#include <string.h>
#include <unistd.h>
#define PROGRAM "legs"
#include "common.h"

enum { PARK = 0x4b524150, VERSION = 1, FRONT = 72, CHECKSUM = 8 };

/* A search as it is parked. */
struct search {
    struct checkpoint record;
    uint64_t legs, calls;
    uint32_t verdict, marks[ENGINE_WORDS];
    size_t length;
    uint8_t sheet[SHEET_ROOM];
};

/* A sheet as a file has it. */
struct brought {
    const char *name;
    size_t length;
    uint8_t sheet[SHEET_ROOM];
};

static uint8_t *put(uint8_t *at, uint64_t number, int bytes)
{
    for (int i = 0; i < bytes; i++) *at++ = (uint8_t)(number >> 8 * i);
    return at;
}

static uint64_t take(const uint8_t **at, int bytes)
{
    uint64_t number = 0;
    for (int i = 0; i < bytes; i++) number |= (uint64_t)*(*at)++ << 8 * i;
    return number;
}

static uint64_t checksum(const uint8_t *bytes, size_t length)
{
    uint64_t sum = 0xcbf29ce484222325;
    for (size_t i = 0; i < length; i++) sum = (sum ^ bytes[i]) * 0x100000001b3;
    return sum;
}

/* The bytes of a parked search; their number is the answer. */
static size_t write_search(const struct search *s, uint8_t *bytes)
{
    const uint32_t first[] = { PARK, VERSION, s->record.batch, s->record.n, s->record.block_length, s->record.radius };
    uint8_t *at = bytes;
    for (size_t i = 0; i < sizeof first / sizeof first[0]; i++) at = put(at, first[i], 4);
    at = put(at, s->record.next, 8);
    at = put(at, s->legs, 8);
    at = put(at, s->calls, 8);
    at = put(at, s->verdict, 4);
    for (int word = 0; word < ENGINE_WORDS; word++) at = put(at, s->marks[word], 4);
    at = put(at, s->length, 4);
    memcpy(at, s->sheet, s->length);
    at += s->length;
    return (size_t)(put(at, checksum(bytes, (size_t)(at - bytes)), CHECKSUM) - bytes);
}

/* The search that these bytes are, or 0 where they are none. */
static int read_search(struct search *s, const uint8_t *bytes, size_t length)
{
    if (length < FRONT + CHECKSUM || length > FRONT + SHEET_LIMIT + CHECKSUM) return 0;
    const uint8_t *at = bytes, *end = bytes + length - CHECKSUM;
    if (checksum(bytes, length - CHECKSUM) != take(&end, CHECKSUM)) return 0;
    if (take(&at, 4) != PARK || take(&at, 4) != VERSION) return 0;
    s->record.batch = (uint32_t)take(&at, 4);
    s->record.n = (uint32_t)take(&at, 4);
    s->record.block_length = (uint32_t)take(&at, 4);
    s->record.radius = (uint32_t)take(&at, 4);
    s->record.next = take(&at, 8);
    s->legs = take(&at, 8);
    s->calls = take(&at, 8);
    s->verdict = (uint32_t)take(&at, 4);
    for (int word = 0; word < ENGINE_WORDS; word++) s->marks[word] = (uint32_t)take(&at, 4);
    s->length = take(&at, 4);
    if (s->length != length - FRONT - CHECKSUM || s->verdict < ENGINE_CLEAR || s->verdict > ENGINE_SPENT) return 0;
    memcpy(s->sheet, at, s->length);
    return 1;
}

/* Makes the new name of a file last, whatever the machine does next. */
static int sync_directory(const char *name)
{
    char path[4096] = ".";
    const char *slash = strrchr(name, '/');
    if (slash) snprintf(path, sizeof path, "%.*s", (int)(slash + 1 - name), name);
    int directory = open(path, O_RDONLY | O_DIRECTORY);
    int done = directory >= 0 && fsync(directory) == 0;
    if (directory >= 0) close(directory);
    return done;
}

/* Writes the whole of a new file. */
static int write_file(const char *name, const uint8_t *bytes, size_t length)
{
    FILE *file = fopen(name, "wb");
    if (!file) return 0;
    int done = fwrite(bytes, 1, length, file) == length && fflush(file) == 0 && fsync(fileno(file)) == 0;
    return fclose(file) == 0 && done;
}

/* Parks the search. At every moment the file is the old one or the new one, whole, since a name changes hands at once; what a kill
   leaves of the file beside it is written over. A file that cannot be written is told and gives 0. */
static int park(const struct search *s, const char *name)
{
    static uint8_t bytes[FRONT + SHEET_LIMIT + CHECKSUM];
    char beside[4096];
    size_t length = write_search(s, bytes);
    errno = ENAMETOOLONG;
    if ((size_t)snprintf(beside, sizeof beside, "%s.new", name) < sizeof beside && write_file(beside, bytes, length) &&
        rename(beside, name) == 0 && sync_directory(name))
        return 1;
    perror(name);
    return 0;
}

/* The sheet is the search's from here on. */
static void take_sheet(struct search *s, const struct brought *file)
{
    s->length = file->length;
    memcpy(s->sheet, file->sheet, file->length);
}

/* A search of the sheet from its start. A header that is no header is refused by the leg. */
static void begin(struct search *s, uint32_t block_length, uint32_t radius, const struct brought *file)
{
    const uint8_t *at = file->sheet;
    memset(s, 0, sizeof *s);
    s->verdict = ENGINE_SPENT;
    s->record.block_length = block_length;
    s->record.radius = radius;
    take_sheet(s, file);
    if (s->length < 12) return;
    s->record.batch = (uint32_t)(take(&at, 4) << 16);
    s->record.batch |= take(&at, 4) & 0xffff;
    s->record.n = take(&at, 4) & 0x3fffffff;
}

/* The parked search, where it is one by this plan; anything else is told and gives 0. */
static int resume(struct search *s, uint32_t block_length, uint32_t radius, const char *name)
{
    static uint8_t bytes[FRONT + SHEET_LIMIT + CHECKSUM + 1];
    const char *wrong = NULL;
    size_t count;
    if (!contents(name, bytes, sizeof bytes, &count)) return 0;
    if (!read_search(s, bytes, count)) wrong = "is damaged, or no parked search";
    else if (s->record.block_length != block_length || s->record.radius != radius) wrong = "is a search by another plan";
    if (wrong) fprintf(stderr, "legs: %s %s\n", name, wrong);
    return !wrong;
}

/* The number of balls of an accepted search: below 2^63. */
static uint64_t balls(const struct checkpoint *record)
{
    static uint16_t table[4096];
    uint32_t size = record->block_length, radius = record->radius, rest = record->n % size;
    uint64_t words = covering_code(size, radius, table, 4096).result, count = 1;
    for (uint32_t block = 0; block < record->n / size; block++) count *= words;
    return rest ? count * covering_code(rest, radius < rest ? radius : rest, table, 4096).result : count;
}

/* Sends on what was printed; where that fails it is told and gives 0. */
static int printed(void)
{
    if (fflush(stdout) == 0) return 1;
    perror("legs: standard output");
    return 0;
}

/* Counts a leg, parks the search and then says so: a leg that was printed is parked. */
static int finish_leg(struct search *s, const struct leg_reply *r, const char *name, uint64_t total)
{
    s->legs++;
    s->calls += r->calls;
    s->verdict = r->verdict;
    memcpy(s->marks, r->marks, sizeof s->marks);
    if (!park(s, name)) return 0;
    printf("leg %llu balls %llu of %llu calls %u so far %llu\n", (unsigned long long)s->legs, (unsigned long long)s->record.next,
           (unsigned long long)total, r->calls, (unsigned long long)s->calls);
    return printed();
}

/* One leg: on the search's sheet alone, or on that and a longer one. */
static struct leg_reply next_leg(struct search *s, uint32_t budget, const struct brought *longer)
{
    uint32_t size = s->record.block_length, radius = s->record.radius;
    if (!longer) return leg(size, radius, budget, s->sheet, s->length, &s->record);
    return leg_longer(size, radius, budget, s->sheet, s->length, longer->sheet, longer->length, &s->record);
}

/* Tells a clause of an accepted sheet, by its first word, as tools/sheet writes it. */
static void tell_clause(const uint8_t *sheet, uint32_t word)
{
    const uint8_t *at = sheet + 4 * (size_t)word;
    uint32_t length = take(&at, 4) & 0x3fffffff;
    fprintf(stderr, "(");
    for (uint32_t i = 0; i < length; i++) {
        uint32_t literal = (uint32_t)take(&at, 4);
        fprintf(stderr, "%s%s%u", i ? " " : "", literal & 1 ? "-" : "", literal >> 1);
    }
    fprintf(stderr, ")\n");
}

/* Prints the refusal of a leg. Of one on two sheets it says which, and where the two do not fit together it tells why. */
static void refuse(const struct search *s, const struct leg_reply *r, const struct brought *longer, const char *name)
{
    if (!longer) {
        print_refusal(r->number, r->place);
        return;
    }
    printf("refused %u place %u sheet %u\n", r->number, r->place, r->sheet);
    if (r->number == 11 && r->sheet == 2)
        fprintf(stderr, "legs: %s has another batch number or n than the search in %s\n", longer->name, name);
    if (r->number == 12)
        fprintf(stderr, "legs: the search in %s has ended, and its verdict is that of the sheet parked with it.\n"
                        "The sheet in %s has further clauses, or others: its search begins anew, with another PARKED\n",
                name, longer->name);
    if (r->number == 13) {
        fprintf(stderr, "legs: %s lacks a clause of the parked sheet: the one whose first word is word %u there, ", longer->name,
                r->place);
        tell_clause(s->sheet, r->place);
    }
}

/* Works at most so many legs; the answer is the exit status. Where the file brings another sheet than the parked one, the first leg is
   on both, whatever the verdict on the parked one, and leaves the search with the one brought. */
static int work(struct search *s, const struct brought *file, uint32_t budget, uint64_t most, const char *name)
{
    const struct brought *longer = s->length == file->length && memcmp(s->sheet, file->sheet, s->length) == 0 ? NULL : file;
    uint64_t total = 0;
    for (uint64_t leg_number = 0; leg_number < most && (longer || s->verdict == ENGINE_SPENT); leg_number++) {
        uint64_t from = s->record.next;
        struct leg_reply r = next_leg(s, budget, longer);
        if (r.verdict == ENGINE_REFUSED) {
            refuse(s, &r, longer, name);
            return 0;
        }
        if (r.road == ENGINE_HORN) {
            print_answer(r.verdict, r.batch, r.road, r.calls, r.marks);
            return 0;
        }
        if (r.verdict == ENGINE_SPENT && s->record.next == from) {
            fprintf(stderr, "legs: ball %llu needs more than %u calls, so that no leg gets past it: BUDGET must be larger.\n"
                            "1 + k + ... + k^R is always enough, k the length of the longest clause, R the sum of the blocks' radii\n",
                    (unsigned long long)from, budget);
            return 2;
        }
        if (longer) take_sheet(s, longer);
        longer = NULL;
        if (!total) total = balls(&s->record);
        if (!finish_leg(s, &r, name, total)) return 2;
    }
    print_answer(s->verdict, s->record.batch, ENGINE_BALLS, s->calls, s->marks);
    return 0;
}

int main(int argc, char **argv)
{
    static struct search search;
    static struct brought file;
    uint32_t size, radius, budget, legs = 0;
    if (argc != 6 && argc != 7) {
        fprintf(stderr, "usage: legs BLOCK_LENGTH RADIUS BUDGET FILE PARKED [LEGS]\n"
                        "the search is parked in PARKED after each leg of BUDGET calls, LEGS legs at most, or until there is a verdict;\n"
                        "meanwhile FILE may get further clauses\n");
        return 2;
    }
    if (!number("BLOCK_LENGTH", argv[1], &size) || !number("RADIUS", argv[2], &radius) || !number("BUDGET", argv[3], &budget)) return 2;
    if (argc == 7 && !number("LEGS", argv[6], &legs)) return 2;
    if (argc == 7 && legs == 0) {
        fprintf(stderr, "legs: LEGS is 0, and must be 1 or more\n");
        return 2;
    }
    file.name = argv[4];
    if (!contents(file.name, file.sheet, sizeof file.sheet, &file.length)) return 2;
    if (access(argv[5], F_OK) != 0 && errno == ENOENT) begin(&search, size, radius, &file);
    else if (!resume(&search, size, radius, argv[5])) return 2;
    int status = work(&search, &file, budget, argc == 7 ? legs : UINT64_MAX, argv[5]);
    return printed() ? status : 2;
}
