/* Vuolmaset: a proved reader of JavaScript expressions, from token bytes into a flat tree in memory that the caller lends.
 *
 * Every function takes any bytes, any words and any lengths; nothing has to be checked before a call. A list is a pointer and the number of its
 * elements; the pointer must be good for so many elements, and aligned. An empty list still wants a pointer that is not null (any aligned address). Lists and
 * words that are lent for writing must not overlap anything else of the same call.
 *
 * What a function returns is 0, or the number of a refusal, 1 to 14:
 *
 *      1  no tokens, or over 2,048 (a tree: no words, or over 12,288)     8  a token that no rule allows here, or the end
 *      2  a flag list of another length                                   9  not an assignment target
 *      3  fewer than 6 row words lent for a token                        10  a spread before the last element of a target
 *      4  fewer than 2 record words lent for a token (for a row)         11  an object binding rest that is not a bare name
 *      5  a flag that is not 0 or 1                                      12  a binding rest not followed by its closing token
 *      6  a kind that is 0 or above 78                                   13  a tree that is not well-formed, or words not a multiple of 6
 *      7  over 64 brackets open                                          14  a place or row outside
 *
 * Returned 0, `*first` is the number of rows, `*second` of records, `*third` of abandoned heads. Returned a refusal, `*first` is its place, and the other
 * two are 0. No global state, no heap, no system call: the functions can be called from any thread, on buffers that are not shared.
 *
 * What the numbers of token kinds, rows and records mean is in docs/RULES.md, under T4, R1 to R5 and N.
 *
 * The archive wants one function of its surroundings: `memset`, as the C library has it. It is all that `nm -u` finds undefined.
 *
 * A call takes stack by the brackets that are open at once in what it reads, and a conversion by the rows that stand below one another. How much is
 * enough for every list and for every tree is said below. On a shorter stack it can run past the end, and then nothing that is promised here holds.
 */
#ifndef VUOLMASET_H
#define VUOLMASET_H

#include <stdbool.h>
#include <stddef.h>
#include <stdint.h>

#ifdef __cplusplus
extern "C" {
#endif

/* Enough for every sheet. */
#define VUOLMASET_TOKENS 2048
#define VUOLMASET_ROW_WORDS (6 * VUOLMASET_TOKENS)
#define VUOLMASET_RECORD_WORDS (2 * VUOLMASET_TOKENS)

/* Bytes of stack that are enough for a call: VUOLMASET_CONVERT_STACK for vuolmaset_convert, of any tree; VUOLMASET_STACK for every other function, of any
 * list and any memory that is lent. Counted from the caller's frame on; what a signal takes comes on top.
 *
 * They are bounds for the archive as it is built for x86-64, and rest on its object code and on a script, not on a theorem: tools/stack.py adds up the
 * frames of the longest way that the calls can take, with at most 64 calls behind an opening bracket and one for each of 2,048 rows, and says at its
 * head what is assumed. The test command holds the script's bounds to these two numbers, and runs the lists that take the most on stacks of this size. */
#define VUOLMASET_STACK 90112
#define VUOLMASET_CONVERT_STACK 230400

/* Reads a list of tokens that is one Expression. After a refusal 1 to 7 both buffers hold what they held, after 8 to 12 all their words are 0; read,
 * the words past the used ones are 0. */
uint32_t vuolmaset_read(const uint8_t *kinds, size_t kind_count, const uint8_t *flags, size_t flag_count, uint32_t *rows, size_t row_words,
                        uint32_t *records, size_t record_words, size_t *first, size_t *second, size_t *third);

/* Reads a list of tokens that is one binding with an optional initializer. */
uint32_t vuolmaset_pattern(const uint8_t *kinds, size_t kind_count, const uint8_t *flags, size_t flag_count, uint32_t *rows, size_t row_words,
                           uint32_t *records, size_t record_words, size_t *first, size_t *second, size_t *third);

/* Turns a row of a tree into an assignment target. Refused, it changes no word. Else `*first` is the number of the subtree's rows, kind words of target
 * rows have changed, and the record words past the used ones are 0.
 *
 * The tree is all of the words that are given: `tree_words` is 6 times its rows. After a reading that is 6 * *first, and not the length of the buffer that
 * was lent, whose words past the rows are 0 and no rows: with VUOLMASET_ROW_WORDS a shorter tree is refused with 13.
 *
 *      if (vuolmaset_read(kinds, n, flags, n, rows, VUOLMASET_ROW_WORDS, records, VUOLMASET_RECORD_WORDS, &first, &second, &third) == 0) {
 *          size_t tree_words = 6 * first, row = first - 1;
 *          refused = vuolmaset_convert(rows, tree_words, row, records, VUOLMASET_RECORD_WORDS, &first, &second, &third);
 *      }
 */
uint32_t vuolmaset_convert(uint32_t *tree, size_t tree_words, size_t row, uint32_t *records, size_t record_words, size_t *first, size_t *second,
                           size_t *third);

/* Whether an arrow function's head starts at a place: `*told` is 0 for no, 1 for yes, 2 for maybe, or a refusal's place. */
uint32_t vuolmaset_three_way(const uint8_t *kinds, size_t kind_count, const uint8_t *flags, size_t flag_count, bool is_ts, bool is_jsx, size_t at,
                             size_t *told);

/* How many words the subtree of a row has: they end with the row's own words, tree[6 * row + 5]. 0 if the words are no well-formed tree, or the row is
 * outside. `tree_words` is 6 times the tree's rows, as for vuolmaset_convert: of a longer buffer the answer is 0. */
size_t vuolmaset_subtree(const uint32_t *tree, size_t tree_words, size_t row);

/* The level of a kind in the table of binary operators, 1 to 12, or 0; and the same in an expression, where `as` and `satisfies` are no operators. */
uint8_t vuolmaset_precedence(uint8_t kind);
uint8_t vuolmaset_expression_precedence(uint8_t kind);

#ifdef __cplusplus
}
#endif

#endif
