/* The terms engine's C interface. `tools/archive` writes the library, target/staticlib/libengine.a, for x86-64 Linux.

   Every function answers for every input, allocates nothing, keeps no state, and touches nothing but its stack and the
   buffers that it is lent. The host sees to this, which nothing checks:

   - A sheet's buffer has at least `length` bytes, a table at least `cells` cells, and an array its number of elements. They must be
     valid during the call, and need live no longer: the library keeps no pointer. Meanwhile nobody writes them, and nobody reads
     the table, a tally or a record. A pointer may be null where its length is 0. The two sheets of alike or of leg_longer, and the two
     arrays of clause_counts, may share a buffer; the parts of a tally and its sheet may not.
   - There is enough stack: run takes about 433 KB at its deepest (300 KB with 32 variables, 107 KB on a Horn sheet), clash 472 KB (342 KB with 32
     variables, 150 KB on a Horn sheet), leg 377 KB (248 KB, 107 KB), leg_longer 414 KB (285 KB, 144 KB), split 217 KB, alike 99 KB, clause_counts
     and the operations on a tally 38 KB, covering_code 21 KB; and some 3 KB more at a first call, while the dynamic linker binds memcpy
     (docs/BENCH.md).

   In every reply `number` and `place` are the refusal's number and place (README.md has the table); both are 0 where nothing
   is refused, and a refusal is told by number not 0. What does not belong to an answer is 0. */
#ifndef ENGINE_H
#define ENGINE_H

#include <stddef.h>
#include <stdint.h>

#ifdef __cplusplus
extern "C" {
#endif

/* What an answer of run, or of split, is. */
enum { ENGINE_REFUSED = 0, ENGINE_CLEAR = 1, ENGINE_NONE = 2, ENGINE_SPENT = 3 };

/* How run decided. A sheet is Horn if each of its clauses has at most one positive literal; so is one without clauses, and an empty
   clause is no hindrance. It is decided by rounds, and every other sheet by the search in balls. A refusal has no road, and split
   names none in any answer. */
enum { ENGINE_NO_ROAD = 0, ENGINE_HORN = 1, ENGINE_BALLS = 2 };

/* An assignment, or a set of variables, is four words: variables 1 to 32 have the bits 0 to 31 of the first, 33 to 64 those of the
   second, and so on up to variable 128. A bit is 1 where the variable is paid, or in the set. */
enum { ENGINE_WORDS = 4 };

/* Clear has the assignment (marks) and the calls needed, none the calls needed, spent the budget as its calls. Where run finds a
   sheet to be Horn, calls counts rounds, at most n + 1, and the marks of a clear are the least model: each variable paid there is
   paid in every model. */
struct reply {
    uint32_t verdict;
    uint32_t batch;
    uint32_t road;
    uint32_t marks[ENGINE_WORDS];
    uint32_t calls;
    uint32_t number;
    uint32_t place;
};

/* Decides the sheet within budget calls, or rounds. A bad plan is refused first, then a bad sheet. Every sheet that is not Horn is
   searched with blocks of block_length variables and codes of the radius given. For a Horn sheet the plan makes no difference, but a
   bad one is still refused: marks begin as 0, and each round finds the first false clause. Where no clause is false that is clear;
   where it has no positive literal that is none; otherwise the variable of its positive literal is paid, and the next round follows. */
struct reply run(uint32_t block_length, uint32_t radius, uint32_t budget, const uint8_t *sheet, size_t length);

/* Decides the sheet by plain splitting within budget calls, Horn or not. There is no plan: only a bad sheet is refused, as by
   run. The first call has set no variable. A call that has set the first j variables says no where some clause has only set
   variables and is false, as an empty one always is. It has found a model, the other variables 0, where every clause has a met
   literal among the set ones. Otherwise it calls with variable j + 1 as 0 and, if that said no, as 1; where both did, it says no.
   Every call up to the one that finds counts, or all do: at most 2^(n+1) - 1. The marks of a clear are the first model in the
   order where variable 1 weighs most and 0 precedes 1. Whenever neither split nor a run of the same sheet is refused or spent,
   both say clear or both say none; their marks may differ. */
struct reply split(uint32_t budget, const uint8_t *sheet, size_t length);

/* What collides where a run says none: a minimal unsatisfiable core, by deletion. A bad plan is refused first (8), then a bad sheet, then a
   list with fewer cells than the sheet has clauses (14, place 0). The sheet is run; where that is clear or spent, the answer is what it gave.
   After none the clauses are gone through from last to first: each is left out for good if a run of the clauses that are left without it,
   in their order, with the same plan and the whole budget, says none, and is kept if it is clear. Where such a run is spent, the answer is what it
   gave: its road, and the budget as its calls. Otherwise the answer is none, with the sheet's road and as its calls the number of clauses kept;
   their numbers, from 0 and rising, stand in the first cells of the list, and the other cells stay as they were. Every other answer leaves the
   whole list. Together the clauses kept have no model, and without any one of them the others have one. A larger budget keeps a none and its
   list. There is at most one run more than there are clauses, and the sheet is read once. */
struct reply clash(uint32_t block_length, uint32_t radius, uint32_t budget, const uint8_t *sheet, size_t length, uint16_t *list, size_t cells);

/* A parked search: the batch number, n and the plan that it belongs to, and the next ball. The host fills it once, with next 0, which is
   the start, and lends it to each leg. */
struct checkpoint {
    uint32_t batch;
    uint32_t n;
    uint32_t block_length;
    uint32_t radius;
    uint64_t next;
};

/* The fields of a reply, and then the sheet that a refusal is about: 1 the only one, or the old one; 2 the longer one; 0 where nothing is
   refused. */
struct leg_reply {
    uint32_t verdict;
    uint32_t batch;
    uint32_t road;
    uint32_t marks[ENGINE_WORDS];
    uint32_t calls;
    uint32_t number;
    uint32_t place;
    uint32_t sheet;
};

/* One leg of a search that is parked in the record. A bad plan is refused first (8), then a bad sheet. A Horn sheet is never parked: it
   is answered as run answers it, and the record stays. Then 8 again where there are 2^63 balls or more (M), 11 where the batch number, n or the
   plan differ from the record's, 12 where next is M or more, each with place 0. Otherwise the leg works whole balls from next on, within
   budget calls. A ball that needs more calls than the leg has left is not counted: the leg ends spent at it, with the calls of the
   balls that it finished as its calls and that ball as next. A clear or none leaves next M. A refusal leaves the record as it came.

   On one sheet, from the start until a leg says clear or none, the legs' calls add up to those that one run needs, and the last
   verdict and marks are those of that run carried to its end. Refused legs in between do no harm, and budgets may differ. Where each leg has at
   least 1 + k + ... + k^R calls and none is refused, there are at most M legs. From any other record a none says only that no assignment
   within R of the centres from next on meets every clause. The host sees to it that a record is lent with its own sheet. Every refusal
   is about sheet 1. */
struct leg_reply leg(uint32_t block_length, uint32_t radius, uint32_t budget, const uint8_t *sheet, size_t length,
                     struct checkpoint *record);

/* One leg where further clauses have come since the search was parked: the old sheet, and a longer one, which is searched. Longer is a name:
   no length is tested, and the two may be equal. In this order: a bad plan is refused (8, sheet 2), then a bad old sheet (sheet 1), then a bad
   longer one (2). A longer sheet that is Horn is answered as run answers it, whatever the old one and the record, which stays. Then 8 where
   the longer sheet has 2^63 balls or more (2); 11 where the plan differs from the record's (2), the old sheet's batch number or n (1), or
   the longer one's (2); 12 where next is M or more (2), each with place 0; and 13 where a clause of the old sheet, as a set of literals, is
   none of the longer one's (1): the place is the first word, in the old sheet, of the first such clause. Otherwise the leg works whole balls
   of the longer sheet from next on, as leg does: the balls emptied before stay done. A refusal leaves the record as it came.

   From the start, where the clauses of the sheet that each leg searched (the longer one, where there are two) all stand in the last one's, a
   clear or none of the last leg is right for its sheet. That is so where each leg brings as its old sheet the one that was searched last. The
   legs' calls then need not add up to those of one run. Where each leg has at least 1 + k + ... + k^R calls, k for the last sheet, and none
   is refused, there are at most M legs by balls. */
struct leg_reply leg_longer(uint32_t block_length, uint32_t radius, uint32_t budget, const uint8_t *sheet, size_t length,
                            const uint8_t *longer, size_t longer_length, struct checkpoint *record);

/* How a clause stands: how many of its literals are met, and how many are open, that is not met and with a variable that is not
   flipped. */
struct counts_reply {
    uint32_t met;
    uint32_t open;
    uint32_t number;
    uint32_t place;
};

/* The two numbers of a clause of the sheet, the first being clause 0, under an assignment and a set of flipped variables; bits that
   belong to no variable do not matter. The clause is true where met is above 0. Past the last clause both numbers are 0. */
struct counts_reply clause_counts(const uint8_t *sheet, size_t length, uint32_t clause, const uint32_t marks[ENGINE_WORDS],
                                  const uint32_t flipped[ENGINE_WORDS]);

/* A tally is the host's: an assignment (marks), for each of up to 1,024 clauses the number of its met literals, and the number of
   clauses that are false (unmet). The host lends it with the sheet, and the library keeps nothing of it. */
struct tally_reply {
    uint32_t number;
    uint32_t place;
};

/* Begins the tally of the sheet: marks 0, the number of met literals of each clause, 0 past the last clause, and the number of false
   clauses. */
struct tally_reply tally_begin(const uint8_t *sheet, size_t length, uint32_t marks[ENGINE_WORDS], uint8_t met[1024],
                               uint32_t *unmet);

/* Toggles one variable in marks. The number of each clause that names it goes one up or down and is then brought within 0 to the
   clause's length; no other number moves. In the order of the clauses unmet loses one where such a number leaves 0 and gains one where
   it falls to 0, each time brought within 0 to 1,024. After the sheet's own refusals, variable 0 or above n is refusal 10, place 0.
   On the sheet that began the tally its numbers stay the true ones. A refusal, of tally_begin too, leaves everything as it came. */
struct tally_reply tally_toggle(const uint8_t *sheet, size_t length, uint32_t variable, uint32_t marks[ENGINE_WORDS],
                                uint8_t met[1024], uint32_t *unmet);

/* Whether all clauses are true, from the tally alone: 1 where unmet is 0, else 0. */
uint32_t tally_holds(uint32_t unmet);

/* What an answer of alike is; a refusal is ENGINE_REFUSED. */
enum { ENGINE_ALIKE = 1, ENGINE_DIFFERENT = 2 };

/* A refusal says which sheet it is about, 1 or 2; without one `sheet` is 0. */
struct alike_reply {
    uint32_t answer;
    uint32_t sheet;
    uint32_t number;
    uint32_t place;
};

/* Whether two sheets have as many variables and, as sets of literals, the same clauses. */
struct alike_reply alike(const uint8_t *first, size_t first_length, const uint8_t *second, size_t second_length);

/* The number asked for is `result`. */
struct number_reply {
    uint32_t result;
    uint32_t number;
    uint32_t place;
};

/* Writes the covering code of length t (1 to 12) and radius s (0 to t) to the first cells of the table, which has at least
   2^t cells; the result is the number of its words. The other cells stay as they were, and a refusal leaves the whole table. */
struct number_reply covering_code(uint32_t t, uint32_t s, uint16_t *table, size_t cells);

/* The number of words in a ball, and the least number of words that any covering code can have; t and s are 0 to 12. */
struct number_reply ball_volume(uint32_t t, uint32_t s);
struct number_reply covering_floor(uint32_t t, uint32_t s);

#ifdef __cplusplus
}
#endif

#endif
