/* Otterchime: exact tables of formulas over words modulo 2^64, by chains of recurrences.
 *
 * This header declares the calls of the static library that `tools/archive` writes to target/staticlib/libotterchime.a
 * (Linux on x86-64). Each call is proved to meet the contract in crates/otterchime_c/src; docs/CONTRACTS.md lists them.
 *
 * What holds for every call:
 *
 * - The caller owns all memory. A call allocates nothing, keeps no pointer, reads and writes only what it is given, and ends.
 *   There is no global state: calls on separate memory may run at the same time in any number of threads.
 * - A slice is a pointer and a count of elements. A pointer that is given may not be null, even where the count is 0, and is aligned
 *   for its elements. What is written (plan, table, answer) may not overlap anything else that is given. Every element that is given
 *   has been initialized, those of plan, table and answer too.
 * - There is no other condition: any bytes are a text, any words a plan or a chain, any word a length, a budget or a tolerance.
 * - The answer goes into lent words. Word 0 is the refusal's number, 0 if the call is accepted; word 1 is its place, 0 if there is none.
 *   Then come the call's own words. Every word of the answer is written by every call.
 * - A refused call alters no word of plan and table.
 *
 * The refusals, in the order in which a call looks for them:
 *
 *   number  when                                                     place
 *     1     plan shorter than 2,817 words                            0
 *     2     formula over 1,024 bytes                                 1024
 *     3     more than 32 round brackets open                         the first ( that does it
 *     4     not in the grammar                                       the first byte after which no grammar text can begin so;
 *                                                                    the length if the text only stops early
 *     5     number over 2^64 - 1                                     its first digit, leftmost number
 *     6     literal exponent over 64                                 its first digit, leftmost
 *     7     over 128 nodes                                           0
 *     8     raise with x in the base, or an even base                the ^, leftmost
 *     9     plan not sound                                           0
 *    10     tolerance of 2^63 or more                                0
 *    13     over 17 coefficients                                     0
 *    14     a chain given with length over 16                        0
 *    15     chain product, trimmed lengths add over 16               0
 *    16     root row is neither a constant nor a sum chain           0
 *
 * (11 and 12 are the table printer's.) A place is an offset in the formula's bytes, from 0.
 */
#ifndef OTTERCHIME_H
#define OTTERCHIME_H

#include <stddef.h>
#include <stdint.h>

#ifdef __cplusplus
extern "C" {
#endif

/* The words of a plan. Word 0 is the number of rows, 1 to 128. Row r has the 22 words from 1 + 22 * r on:
 *
 *   word    what
 *     0     kind
 *     1     a
 *     2     b
 *    3-19   17 elements: element 0 of a constant, f0..fk of a chain of length k, and 0 past them and in all other kinds
 *    20     first byte of the formula's text that the row stands for, from 0
 *    21     end byte of it: the one after its last
 *
 *   kind    row               a                    b              cost
 *     0     constant          0                    0              0
 *     1     sum chain         length 1..16         0              length
 *     2     product chain     length 1..16         0              length
 *   3 4 5   + - *             row                  row            1
 *     6     minus             row                  0              1
 *     7     literal power     row                  n, 2..64       n - 1
 *     8     raise             odd constant row     row            128
 *
 * Rows stand in the order in which they are worked out, left operand first and root last. Brackets around a row's text are no part of it,
 * those of its operands are: in (x+1)*2 the one row has bytes 0 to 7, in (x+1) bytes 1 to 4. A row that a formula passes on unchanged, as
 * the A of 1*A, has the whole text.
 *
 * A plan is sound if word 0 is 1 to 128; each of the rows that it counts keeps the table, has only earlier rows as operands, 0 in its unused
 * words, and a first byte below its end byte, which is at most 1,024; and all words of the other rows are 0. What compiling writes is sound,
 * and filling leaves it so: it changes the elements of chains and nothing else. */
#define OTTERCHIME_PLAN_WORDS 2817

/* The words of a row, and where its elements and its first and end byte stand in it. */
#define OTTERCHIME_ROW_WORDS 22
#define OTTERCHIME_ROW_ELEMENTS 3
#define OTTERCHIME_ROW_FIRST_BYTE 20
#define OTTERCHIME_ROW_END_BYTE 21

/* The words that hold a chain: a chain of length k has the k + 1 elements f0..fk, and k is at most 16. */
#define OTTERCHIME_CHAIN_WORDS 17

/* The words of each call's answer. */
#define OTTERCHIME_COMPILE_ANSWER 2
#define OTTERCHIME_FILL_ANSWER 4
#define OTTERCHIME_FILL_ERAS_ANSWER 5
#define OTTERCHIME_COST_ANSWER 3
#define OTTERCHIME_SOUND_ANSWER 2
#define OTTERCHIME_REASON_ANSWER 5
#define OTTERCHIME_CHAIN_ANSWER 20
#define OTTERCHIME_SHIFT_ANSWER 21
#define OTTERCHIME_VALUE_ANSWER 3
#define OTTERCHIME_PROBE_ANSWER 4

/* The probe's verdicts. A refused probe has none. */
#define OTTERCHIME_NO_VERDICT 0
#define OTTERCHIME_WITHIN 1
#define OTTERCHIME_AHEAD 2
#define OTTERCHIME_BEHIND 3
#define OTTERCHIME_UNSET 4

/* Why a row of kinds 3 to 8 is still there, and is not folded into a chain or a constant. */
#define OTTERCHIME_NO_REASON 0                     /* a row of kinds 0 to 2, no row, or a refused call */
#define OTTERCHIME_OPERAND_IS_OPERATOR 1           /* an operand is itself of kinds 3 to 8 (not for raise) */
#define OTTERCHIME_LENGTHS_ADD_OVER_16 2           /* lengths add over 16 */
#define OTTERCHIME_LENGTH_TIMES_N_OVER_16 3        /* length times n over 16 */
#define OTTERCHIME_SUM_AGAINST_PRODUCT 4           /* sum chain or constant against product chain */
#define OTTERCHIME_TWO_PRODUCT_CHAINS 5            /* two product chains under + or - */
#define OTTERCHIME_EXPONENT_NO_SUM 6               /* exponent of a raise neither constant nor sum chain */
#define OTTERCHIME_WOULD_HAVE_FOLDED 7             /* the rules would have folded it: never so in a compiled plan */

/* ---- plans ---- */

/* Compiles a formula's text on a grid, x = start + i * step at index i, into a plan.
 * text: text_length bytes, read only; no byte ends it. plan: plan_length words, at least 2,817 or the call is refused 1.
 * An accepted call writes the first 2,817 words of the plan and leaves the others as they were.
 * answer: number, place. Refusals 1 to 8. */
void otterchime_compile(const uint8_t *text, size_t text_length, uint64_t start, uint64_t step,
                        uint64_t *plan, size_t plan_length, uint64_t answer[OTTERCHIME_COMPILE_ANSWER]);

/* Writes points to a table: the root's value, and then a shift of every chain, for each. Their count is the lesser of table_length and
 * the budget divided by the plan's cost + 1, rounded down. The plan is left shifted by the points, so that the next call goes on;
 * table words after them stay. No room, or budget for none, gives 0 points and is no refusal.
 * answer: number, place, the points written, the budget spent (points times cost + 1). Refusals 1 and 9, with 0 points and 0 spent. */
void otterchime_fill(uint64_t *plan, size_t plan_length, uint64_t *table, size_t table_length, uint64_t budget,
                     uint64_t answer[OTTERCHIME_FILL_ANSWER]);

/* Fills as otterchime_fill does, and counts eras: at each point, the last one too, with f0 and f1 the first two elements of the plan's root,
 * a sum chain, and d the word f1 read as a signed number, +1 if f0 + d is 2^64 or more, -1 if it is below 0, else 0; a constant gives 0.
 * The sum of these says where the root is as a whole number: its first word before the call plus all its d is its first word after the
 * call plus 2^64 times the sum. Calls one after the other have sums that add up.
 * answer: number, place, the points written, the budget spent, the sum as a word (convert it to int64_t). Refusals 1, 9 and then 16, with
 * 0 points, 0 spent and sum 0. */
void otterchime_fill_eras(uint64_t *plan, size_t plan_length, uint64_t *table, size_t table_length, uint64_t budget,
                          uint64_t answer[OTTERCHIME_FILL_ERAS_ANSWER]);

/* The cost of a plan, by the sum over its rows.
 * answer: number, place, the cost (0 if refused). Refusals 1 and 9. */
void otterchime_cost(const uint64_t *plan, size_t plan_length, uint64_t answer[OTTERCHIME_COST_ANSWER]);

/* Whether a plan is sound (see OTTERCHIME_PLAN_WORDS), so that fill, cost and reason accept it.
 * answer: number, place. Refusals 1 and 9. */
void otterchime_sound(const uint64_t *plan, size_t plan_length, uint64_t answer[OTTERCHIME_SOUND_ANSWER]);

/* Why a row of a plan, counted from 0, is still there. Any word may be asked for. Each row of kinds 3 to 8 of a sound plan has exactly one of the
 * seven reasons. They speak of its operands with chains trimmed, so that a product chain with first element 0 is a constant, and with other
 * operands as they stand. The last reason is judged first: it is given exactly where folding has a rule for such operands.
 * answer: number, place, the reason (OTTERCHIME_LENGTHS_ADD_OVER_16, ..), first byte and end byte of the row's text. A row of kinds 0 to 2 has no
 * reason, 0, and its bytes; a row that word 0 doesn't count has 0 for all three. Refusals 1 and 9, with 0 for all three. */
void otterchime_reason(const uint64_t *plan, size_t plan_length, uint64_t row, uint64_t answer[OTTERCHIME_REASON_ANSWER]);

/* ---- sum chains ----
 * A chain is given as 17 words and its length. Words past the length are not read, but the 17 words must be there. Chains are trimmed of
 * trailing zeros first, and results come back trimmed.
 * answer of the calls that give a chain: number, place, the chain's length, its 17 element words with 0 past the length. A refused call
 * gives the constant 0, length 0. */

/* f without its trailing zeros. Refusal 14. */
void otterchime_trim(const uint64_t f[OTTERCHIME_CHAIN_WORDS], uint64_t k, uint64_t answer[OTTERCHIME_CHAIN_ANSWER]);

/* f after one shift: each element but the last with its neighbour added.
 * answer: as for a chain, and behind it how the first element crossed, as a word (convert it to int64_t): with f1 read as a signed number d,
 * 1 if f0 + d is 2^64 or more, -1 if it is below 0, else 0; 0 of a constant and of a refused call. Refusal 14. */
void otterchime_shift(const uint64_t f[OTTERCHIME_CHAIN_WORDS], uint64_t k, uint64_t answer[OTTERCHIME_SHIFT_ANSWER]);

/* The value of f at the present point.
 * answer: number, place, the word (0 if refused). Refusal 14. */
void otterchime_value(const uint64_t f[OTTERCHIME_CHAIN_WORDS], uint64_t k, uint64_t answer[OTTERCHIME_VALUE_ANSWER]);

/* f + g, f - g and f * g, f of length k and g of length l. f and g may be the same words. Refusal 14 for either length; the product is
 * refused 15 where the trimmed lengths add over 16. */
void otterchime_sum(const uint64_t f[OTTERCHIME_CHAIN_WORDS], uint64_t k, const uint64_t g[OTTERCHIME_CHAIN_WORDS], uint64_t l,
                    uint64_t answer[OTTERCHIME_CHAIN_ANSWER]);
void otterchime_difference(const uint64_t f[OTTERCHIME_CHAIN_WORDS], uint64_t k, const uint64_t g[OTTERCHIME_CHAIN_WORDS], uint64_t l,
                           uint64_t answer[OTTERCHIME_CHAIN_ANSWER]);
void otterchime_product(const uint64_t f[OTTERCHIME_CHAIN_WORDS], uint64_t k, const uint64_t g[OTTERCHIME_CHAIN_WORDS], uint64_t l,
                        uint64_t answer[OTTERCHIME_CHAIN_ANSWER]);

/* The chain of the polynomial a0 + a1 * i + a2 * i^2 + .. in the index i. No coefficients are the constant 0. Refusal 13 for over 17. */
void otterchime_from_coefficients(const uint64_t *coefficients, size_t count, uint64_t answer[OTTERCHIME_CHAIN_ANSWER]);

/* ---- tables that run backwards ----
 * A backward sum chain is given and answered as a forward one is. Element j + 1 of a forward chain is what element j gains up to the next
 * index; of a backward chain, what it has gained since the index before: i^3 is 0, 1, 6, 6 as a forward chain and 0, 1, -6, 6 as a backward
 * one. Shift and inverse shift cancel in either order. Walked back by inverse shifts, a chain gives its words at the indices -1, -2 and so on. */

/* f, a forward chain, one index back: from the top down, each element but the last less its neighbour's new value. Refusal 14. */
void otterchime_inverse_shift(const uint64_t f[OTTERCHIME_CHAIN_WORDS], uint64_t k, uint64_t answer[OTTERCHIME_CHAIN_ANSWER]);

/* The value of f, a backward chain, at the present point.
 * answer: number, place, the word (0 if refused). Refusal 14. */
void otterchime_backward_value(const uint64_t f[OTTERCHIME_CHAIN_WORDS], uint64_t k, uint64_t answer[OTTERCHIME_VALUE_ANSWER]);

/* f, a backward chain, after one shift: from the top down, each element but the last with its neighbour's new value added. Refusal 14. */
void otterchime_backward_shift(const uint64_t f[OTTERCHIME_CHAIN_WORDS], uint64_t k, uint64_t answer[OTTERCHIME_CHAIN_ANSWER]);

/* f, a backward chain, one index back: each element but the last less its neighbour. Refusal 14. */
void otterchime_backward_inverse_shift(const uint64_t f[OTTERCHIME_CHAIN_WORDS], uint64_t k, uint64_t answer[OTTERCHIME_CHAIN_ANSWER]);

/* f + g and f * g of backward chains, f of length k and g of length l. f and g may be the same words. Refusal 14 for either length; the
 * product is refused 15 where the trimmed lengths add over 16. */
void otterchime_backward_sum(const uint64_t f[OTTERCHIME_CHAIN_WORDS], uint64_t k, const uint64_t g[OTTERCHIME_CHAIN_WORDS], uint64_t l,
                             uint64_t answer[OTTERCHIME_CHAIN_ANSWER]);
void otterchime_backward_product(const uint64_t f[OTTERCHIME_CHAIN_WORDS], uint64_t k, const uint64_t g[OTTERCHIME_CHAIN_WORDS], uint64_t l,
                                 uint64_t answer[OTTERCHIME_CHAIN_ANSWER]);

/* The backward chain of a forward chain f, and the forward chain of a backward chain f: both give the same word at every index, before the
 * present one too, and have the same trimmed length. There and back gives f trimmed. Refusal 14. */
void otterchime_to_backward(const uint64_t f[OTTERCHIME_CHAIN_WORDS], uint64_t k, uint64_t answer[OTTERCHIME_CHAIN_ANSWER]);
void otterchime_to_forward(const uint64_t f[OTTERCHIME_CHAIN_WORDS], uint64_t k, uint64_t answer[OTTERCHIME_CHAIN_ANSWER]);

/* ---- the probe ---- */

/* Holds a reading against what was expected. The offset is reading - expected modulo 2^64, read as a signed number; above the tolerance
 * it is ahead, below its negative behind, else within. A reading of 0 is no time at all: it is unset, with offset 0.
 * answer: number, place, the offset as a word (convert it to int64_t), the verdict (OTTERCHIME_WITHIN, ..). Refusal 10, with offset 0
 * and OTTERCHIME_NO_VERDICT. */
void otterchime_probe(uint64_t reading, uint64_t expected, uint64_t tolerance, uint64_t answer[OTTERCHIME_PROBE_ANSWER]);

#ifdef __cplusplus
}
#endif

#endif
