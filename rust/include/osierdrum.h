/* The calls of libosierdrum.a. A slice passes as a pointer to its first element and its length in elements; a pointer
 * may be any non-null value where the length is 0. Every call takes any numbers and any bytes: what it cannot serve it
 * refuses, with zeros for the rest of its result and nothing written.
 *
 * n is 0 to 20. With n = 0, k is 0, and S(0,0) holds the one permutation of nothing, no bytes at place 0; with n from 1
 * on, k is 1 to n.
 *
 * Refusals: 0 none; 1 n is more than 20; 2 k is not 1 to n, or with n = 0 not 0; 3 place >= c(n,k), or in the list of
 * involutions or of Bell permutations >= their number; 4 m is not 1 to 1000, or more rows than are left; 5 a written
 * slice has not the length asked for, two permutations have unequal lengths, the pairs or the moves do not fit, the wishes
 * are not n long, or a list of moves has an odd length; 6 a value, an entry, a wish or a position of a move out of range;
 * 7 a value twice; 12 fewer levels lent than the permutation has values; 14 no permutation from the place to the end meets
 * the wishes; 15 a cycle longer than two; 16 a cycle that does not fall from its highest number to its lowest. */
#ifndef OSIERDRUM_H
#define OSIERDRUM_H

#include <stdbool.h>
#include <stddef.h>
#include <stdint.h>

#ifdef __cplusplus
extern "C" {
#endif

struct osierdrum_Count { uint8_t refusal; uint64_t count; };
struct osierdrum_Rank { uint8_t refusal; uint64_t k; uint64_t place; uint64_t fixed; };
struct osierdrum_Array { uint8_t refusal; uint64_t fixed; };
struct osierdrum_Explanation { uint8_t refusal; uint64_t k; uint64_t place; };
struct osierdrum_Exchanges { uint8_t refusal; uint64_t count; uint64_t written; };
struct osierdrum_Found { uint8_t refusal; uint64_t place; };
struct osierdrum_Place { uint8_t refusal; uint64_t place; };
struct osierdrum_Moves { uint8_t refusal; uint64_t count; };
struct osierdrum_Checked { uint8_t refusal; uint8_t valid; };

/* One size's part of an explanation: the letter 'a' to 'e' of the relation that gives the list at that size, whether the
 * list is read backward, the number from 0 in written order of the block that holds the permutation, and how many
 * permutations of the list stand before that block in that reading. A level that is lent holds some value of its type, as
 * zeros do: `backward` is 0 or 1. */
struct osierdrum_Level { uint8_t letter; bool backward; uint64_t block; uint64_t before; };

/* c(n,k), the number of permutations of n with exactly k cycles. Refusals 1, 2. */
struct osierdrum_Count osierdrum_count(uint64_t n, uint64_t k);

/* The permutation at a place of S(n,k), to n bytes. Refusals 1, 2, 3, 5. */
uint8_t osierdrum_unrank(uint64_t n, uint64_t k, uint64_t place, uint8_t *out, size_t out_len);

/* The number of cycles of a permutation, its place, and in fixed the number of values that stand at their own position.
 * Refusals 1, 6, 7. */
struct osierdrum_Rank osierdrum_rank(const uint8_t *s, size_t s_len);

/* The transposition array of a permutation, and in fixed the number of the permutation's values (not of the array's
 * entries) that stand at their own position. Refusals 1, 5, 6, 7. The two slices do not overlap. */
struct osierdrum_Array osierdrum_to_array(const uint8_t *s, size_t s_len, uint8_t *out, size_t out_len);

/* The permutation of a transposition array. Refusals 1, 5, 6. The two slices do not overlap. */
uint8_t osierdrum_from_array(const uint8_t *a, size_t a_len, uint8_t *out, size_t out_len);

/* m permutations from a place on, one after another from byte o of buf on. Refusals 1, 2, 3, 4, 5. */
uint8_t osierdrum_rows(uint64_t n, uint64_t k, uint64_t place, uint64_t m, uint64_t o, uint8_t *buf, size_t buf_len);

/* The number of cycles of a permutation and its place, and what makes it that place: a level for each size from n down
 * to 1, to the first n levels; those after them stay. The numbers before add up to the place. levels_len counts levels,
 * not bytes. Refusals 1, 6, 7, 12. The two slices do not overlap. */
struct osierdrum_Explanation osierdrum_explain(const uint8_t *s, size_t s_len,
                                               struct osierdrum_Level *levels, size_t levels_len);

/* The exchanges that turn one permutation into another: pairs of positions whose values are exchanged, one pair after
 * another, two bytes a pair, to the front of out; the bytes after them stay. No other list of pairs with that effect is
 * shorter. With p the transposition array of the permutation u that has from(u(i)) = to(i), the pairs are p(i), i for
 * each i, rising, where p(i) is not i. count is the number of pairs, n less the cycles of u and so at most 19; written is
 * the number of bytes, 2 * count. Refusals 1 for either, 5 for unequal lengths, 6 for either, 7 for either, 5 for an out
 * shorter than 2 * count. out overlaps neither of the others. */
struct osierdrum_Exchanges osierdrum_exchanges(const uint8_t *from, size_t from_len, const uint8_t *to, size_t to_len,
                                               uint8_t *out, size_t out_len);

/* The sequence of an inversion table: the values 1 to n in the one order in which, for each i, one more than the number of
 * earlier elements that are higher than the i-th is entry i of a. Entry i is 1 to i, as in a transposition array. The
 * number of i with entry i = i is the number of record lows, the elements below all before them. Refusals 1, 5, 6. The two
 * slices do not overlap. */
uint8_t osierdrum_from_inversions(const uint8_t *a, size_t a_len, uint8_t *out, size_t out_len);

/* The inversion table of a sequence of the values 1 to n, each once. Refusals 1, 5, 6, 7. The two slices do not overlap. */
uint8_t osierdrum_to_inversions(const uint8_t *s, size_t s_len, uint8_t *out, size_t out_len);

/* The first permutation of S(n,k), at or after a place, that has the wished value at each position with a wish: its place,
 * and the permutation to n bytes. The wishes are n bytes, and a wish of 0 leaves its position free; a value that is wished
 * at two positions is never met. Refusals 1, 2, 3, 5 for the wishes or out, 6 for a wish above n, 14. The two slices do
 * not overlap. */
struct osierdrum_Found osierdrum_find(uint64_t n, uint64_t k, uint64_t place, const uint8_t *wishes, size_t wishes_len,
                                      uint8_t *out, size_t out_len);

/* The number of involutions of n, the permutations with no cycle longer than two. Refusal 1. */
struct osierdrum_Count osierdrum_involution_count(uint64_t n);

/* The involution of n at a place, to n bytes. The list is a tree, the identity first: a permutation, then its children,
 * each with all its own children before the next. A child exchanges the values at positions l < j, where j lies above
 * the highest position that has not its own value (above 1 if there is none), j rising, and for each j, l rising over
 * the positions that have their own value. Refusals 1, 3, 5. */
uint8_t osierdrum_involution_unrank(uint64_t n, uint64_t place, uint8_t *out, size_t out_len);

/* The place of an involution in that list. Refusals 1, 6, 7, 15. */
struct osierdrum_Place osierdrum_involution_rank(const uint8_t *s, size_t s_len);

/* The number of Bell permutations of n, the permutations each of whose cycles falls from its highest number to its
 * lowest: followed from its highest number, it goes to a lower one at each step until its lowest, which leads back to the
 * highest. Refusal 1. */
struct osierdrum_Count osierdrum_bell_count(uint64_t n);

/* The Bell permutation of n at a place, to n bytes. The list is a tree like that of the involutions, where for each j, l
 * rises over the positions that are least in their cycle. Refusals 1, 3, 5. */
uint8_t osierdrum_bell_unrank(uint64_t n, uint64_t place, uint8_t *out, size_t out_len);

/* The place of a Bell permutation in that list. Refusals 1, 6, 7, 16. */
struct osierdrum_Place osierdrum_bell_rank(const uint8_t *s, size_t s_len);

/* The moves from the identity to a permutation, two bytes a move, to the front of out; the bytes after them stay. The
 * positions are 1 to n and position 0, which is empty before and after; a move takes a value from an occupied position,
 * its first byte, to an empty one, its second. Cycle by cycle, for each cycle of two or more, rising by its least position
 * a: first the value at a goes to position 0, then the empty position always takes the value that s has there, until the
 * value at position 0 has left it. count is the number of moves, that of the values away from their own position plus
 * that of such cycles and so at most 30; no valid list of moves from the identity to s is shorter. Refusals 1, 6, 7, 5
 * for an out shorter than 2 * count. The two slices do not overlap. */
struct osierdrum_Moves osierdrum_moves(const uint8_t *s, size_t s_len, uint8_t *out, size_t out_len);

/* Whether a list of moves, of any length and whoever drew it up, leads from the identity to a permutation: valid is 1 if
 * every move finds its first position occupied and its second empty and at the end s stands at the positions 1 to n and
 * position 0 is empty, and 0 if not. moves_len counts bytes, two a move. Refusals 1, 5 for an odd moves_len, 6 for a value
 * of s or for a position above n in the list, 7. */
struct osierdrum_Checked osierdrum_check_moves(const uint8_t *s, size_t s_len, const uint8_t *moves, size_t moves_len);

#ifdef __cplusplus
}
#endif

#endif
