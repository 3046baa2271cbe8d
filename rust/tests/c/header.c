/* Each call of the header once, as a C program would make it; then each with n = 0 and slices of no byte and of one. */
#include "osierdrum.h"
#include <string.h>

/* Whether a call for moves, and a check of moves, answered so. */
static int moves_are(struct osierdrum_Moves moves, uint8_t refusal, uint64_t count) {
    return moves.refusal == refusal && moves.count == count;
}

static int check_is(struct osierdrum_Checked checked, uint8_t refusal, uint8_t valid) {
    return checked.refusal == refusal && checked.valid == valid;
}

static int empty_list(void) {
    uint8_t byte = 7, lent[3] = {7, 7, 7};
    struct osierdrum_Count count = osierdrum_count(0, 0);
    if (count.refusal != 0 || count.count != 1) return 21;
    count = osierdrum_count(0, 1);
    if (count.refusal != 2 || count.count != 0) return 22;

    struct osierdrum_Rank rank = osierdrum_rank(&byte, 0);
    if (rank.refusal != 0 || rank.k != 0 || rank.place != 0 || rank.fixed != 0) return 23;
    rank = osierdrum_rank(&byte, 1);
    if (rank.refusal != 6 || rank.k != 0 || rank.place != 0 || rank.fixed != 0) return 24;

    struct osierdrum_Level levels[3], before[3];
    memset(levels, 1, sizeof levels);
    memcpy(before, levels, sizeof levels);
    for (size_t len = 0; len <= 1; len++) {
        struct osierdrum_Explanation why = osierdrum_explain(&byte, 0, levels + 1, len);
        if (why.refusal != 0 || why.k != 0 || why.place != 0) return 39;
        why = osierdrum_explain(&byte, 1, levels + 1, len);
        if (why.refusal != 6 || why.k != 0 || why.place != 0) return 40;
    }
    if (memcmp(levels, before, sizeof levels) != 0) return 41;

    for (size_t len = 0; len <= 1; len++) {
        struct osierdrum_Exchanges made = osierdrum_exchanges(&byte, 0, &byte, 0, lent + 1, len);
        if (made.refusal != 0 || made.count != 0 || made.written != 0) return 42;
        made = osierdrum_exchanges(&byte, 0, &byte, 1, lent + 1, len);
        if (made.refusal != 5 || made.count != 0 || made.written != 0) return 43;
        made = osierdrum_exchanges(&byte, 1, &byte, 1, lent + 1, len);
        if (made.refusal != 6 || made.count != 0 || made.written != 0) return 44;
    }

    for (size_t len = 0; len <= 1; len++) {
        struct osierdrum_Found found = osierdrum_find(0, 0, 0, &byte, 0, lent + 1, len);
        if (found.refusal != (len == 0 ? 0 : 5) || found.place != 0) return 49;
        found = osierdrum_find(0, 0, 0, &byte, 1, lent + 1, len);
        if (found.refusal != 5 || found.place != 0) return 50;
    }

    for (size_t len = 0; len <= 1; len++) {
        if (!moves_are(osierdrum_moves(&byte, 0, lent + 1, len), 0, 0)) return 181;
        if (!moves_are(osierdrum_moves(&byte, 1, lent + 1, len), 6, 0)) return 182;
    }
    if (!check_is(osierdrum_check_moves(&byte, 0, &byte, 0), 0, 1)) return 183;
    if (!check_is(osierdrum_check_moves(&byte, 0, &byte, 1), 5, 0)) return 184;
    if (!check_is(osierdrum_check_moves(&byte, 0, lent, 2), 6, 0)) return 185;
    if (!check_is(osierdrum_check_moves(&byte, 0, (const uint8_t[]){0, 0}, 2), 0, 0)) return 186;
    if (!check_is(osierdrum_check_moves(&byte, 1, &byte, 0), 6, 0)) return 187;

    for (size_t len = 0; len <= 1; len++) {
        uint8_t longer = len == 0 ? 0 : 5;
        if (osierdrum_unrank(0, 0, 0, lent + 1, len) != longer) return 25;
        if (osierdrum_unrank(0, 0, 1, lent + 1, len) != 3) return 26;
        if (osierdrum_unrank(0, 1, 0, lent + 1, len) != 2) return 27;
        struct osierdrum_Array made = osierdrum_to_array(&byte, 0, lent + 1, len);
        if (made.refusal != longer || made.fixed != 0) return 28;
        if (osierdrum_from_array(&byte, 0, lent + 1, len) != longer) return 29;
        if (osierdrum_from_inversions(&byte, 0, lent + 1, len) != longer) return 45;
        if (osierdrum_to_inversions(&byte, 0, lent + 1, len) != longer) return 46;
        uint8_t shorter = len == 0 ? 5 : 6;
        made = osierdrum_to_array(&byte, 1, lent + 1, len);
        if (made.refusal != shorter || made.fixed != 0) return 37;
        if (osierdrum_from_array(&byte, 1, lent + 1, len) != shorter) return 38;
        if (osierdrum_from_inversions(&byte, 1, lent + 1, len) != shorter) return 47;
        if (osierdrum_to_inversions(&byte, 1, lent + 1, len) != shorter) return 48;
        if (osierdrum_rows(0, 0, 0, 1, 0, lent + 1, len) != 0) return 30;
        if (osierdrum_rows(0, 0, 0, 1, len, lent + 1, len) != 0) return 31;
        if (osierdrum_rows(0, 0, 0, 1, len + 1, lent + 1, len) != 5) return 32;
        if (osierdrum_rows(0, 0, 0, 2, 0, lent + 1, len) != 4) return 33;
        if (osierdrum_rows(0, 0, 1, 1, 0, lent + 1, len) != 3) return 34;
        if (osierdrum_rows(0, 1, 0, 1, 0, lent + 1, len) != 2) return 35;
    }
    return memcmp(lent, (const uint8_t[]){7, 7, 7}, 3) == 0 ? 0 : 36;
}

static int explanation(void) {
    const uint8_t row[5] = {3, 1, 4, 2, 5}, twice[5] = {3, 1, 4, 2, 4}, wide[21] = {0};
    const struct osierdrum_Level right[5] = {
        {.letter = 'e', .backward = false, .block = 3, .before = 33},
        {.letter = 'a', .backward = false, .block = 2, .before = 4},
        {.letter = 'a', .backward = true, .block = 0, .before = 1},
        {.letter = 'a', .backward = true, .block = 0, .before = 0},
        {.letter = 'a', .backward = true, .block = 0, .before = 0},
    };
    struct osierdrum_Level levels[7], before[7];
    memset(levels, 1, sizeof levels);
    memcpy(before, levels, sizeof levels);

    struct osierdrum_Explanation why = osierdrum_explain(row, sizeof row, levels + 1, 4);
    if (why.refusal != 12 || why.k != 0 || why.place != 0) return 51;
    why = osierdrum_explain(twice, sizeof twice, levels + 1, 4);
    if (why.refusal != 7 || why.k != 0 || why.place != 0) return 52;
    why = osierdrum_explain(wide, sizeof wide, levels + 1, 4);
    if (why.refusal != 1 || why.k != 0 || why.place != 0) return 53;
    if (memcmp(levels, before, sizeof levels) != 0) return 54;

    why = osierdrum_explain(row, sizeof row, levels + 1, 6);
    if (why.refusal != 0 || why.k != 2 || why.place != 38) return 55;
    for (size_t i = 0; i < 5; i++) {
        const struct osierdrum_Level *given = &levels[i + 1];
        if (given->letter != right[i].letter || given->backward != right[i].backward) return 56;
        if (given->block != right[i].block || given->before != right[i].before) return 57;
    }
    if (memcmp(&levels[0], &before[0], sizeof levels[0]) != 0) return 58;
    return memcmp(&levels[6], &before[6], sizeof levels[6]) == 0 ? 0 : 59;
}

static int exchanges(void) {
    const uint8_t from[5] = {3, 1, 4, 2, 5}, to[5] = {5, 4, 3, 2, 1}, twice[5] = {3, 1, 4, 2, 4}, wide[21] = {0};
    uint8_t pairs[9] = {99, 99, 99, 99, 99, 99, 99, 99, 99};

    struct osierdrum_Exchanges made = osierdrum_exchanges(from, sizeof from, to, sizeof to, pairs + 1, 5);
    if (made.refusal != 5 || made.count != 0 || made.written != 0) return 61;
    made = osierdrum_exchanges(from, sizeof from, twice, sizeof twice, pairs + 1, 5);
    if (made.refusal != 7 || made.count != 0 || made.written != 0) return 62;
    made = osierdrum_exchanges(from, sizeof from, twice, 4, pairs + 1, 7);
    if (made.refusal != 5 || made.count != 0 || made.written != 0) return 63;
    made = osierdrum_exchanges(wide, sizeof wide, to, sizeof to, pairs + 1, 7);
    if (made.refusal != 1 || made.count != 0 || made.written != 0) return 64;
    made = osierdrum_exchanges(from, sizeof from, from, sizeof from, pairs + 1, 0);
    if (made.refusal != 0 || made.count != 0 || made.written != 0) return 65;
    if (memcmp(pairs, (const uint8_t[]){99, 99, 99, 99, 99, 99, 99, 99, 99}, 9) != 0) return 66;

    made = osierdrum_exchanges(from, sizeof from, to, sizeof to, pairs + 1, 7);
    if (made.refusal != 0 || made.count != 3 || made.written != 6) return 67;
    return memcmp(pairs, (const uint8_t[]){99, 1, 2, 2, 3, 1, 5, 99, 99}, 9) == 0 ? 0 : 68;
}

static int fixed_points(void) {
    const uint8_t row[4] = {2, 1, 3, 4}, twice[4] = {1, 2, 3, 3}, outside[4] = {1, 2, 3, 5}, wide[21] = {1, 2, 3};
    uint8_t array[5] = {99, 99, 99, 99, 99};

    struct osierdrum_Array made = osierdrum_to_array(wide, sizeof wide, array, sizeof array);
    if (made.refusal != 1 || made.fixed != 0) return 71;
    made = osierdrum_to_array(row, sizeof row, array, 5);
    if (made.refusal != 5 || made.fixed != 0) return 72;
    made = osierdrum_to_array(outside, sizeof outside, array, 4);
    if (made.refusal != 6 || made.fixed != 0) return 73;
    made = osierdrum_to_array(twice, sizeof twice, array, 4);
    if (made.refusal != 7 || made.fixed != 0) return 74;
    if (memcmp(array, (const uint8_t[]){99, 99, 99, 99, 99}, 5) != 0) return 75;

    /* two fixed points and three fixed entries, as many as there are cycles */
    made = osierdrum_to_array(row, sizeof row, array, 4);
    if (made.refusal != 0 || made.fixed != 2) return 76;
    if (memcmp(array, (const uint8_t[]){1, 1, 3, 4, 99}, 5) != 0) return 77;
    struct osierdrum_Rank rank = osierdrum_rank(row, sizeof row);
    if (rank.refusal != 0 || rank.k != 3 || rank.fixed != 2) return 78;

    const uint8_t *refused[3] = {wide, outside, twice};
    const size_t sizes[3] = {sizeof wide, sizeof outside, sizeof twice};
    const uint8_t numbers[3] = {1, 6, 7};
    for (size_t i = 0; i < 3; i++) {
        rank = osierdrum_rank(refused[i], sizes[i]);
        if (rank.refusal != numbers[i] || rank.k != 0 || rank.place != 0 || rank.fixed != 0) return 79;
    }
    return 0;
}

static int inversions(void) {
    const uint8_t table[5] = {1, 1, 1, 3, 5}, sequence[5] = {2, 4, 5, 3, 1}, high[5] = {1, 3, 1, 1, 1}, wide[21] = {0};
    const uint8_t twice[5] = {2, 4, 2, 3, 1}, outside[5] = {2, 2, 5, 3, 6};
    uint8_t out[6] = {99, 99, 99, 99, 99, 99};

    if (osierdrum_from_inversions(wide, sizeof wide, out, sizeof out) != 1) return 81;
    if (osierdrum_from_inversions(high, sizeof high, out, 6) != 5) return 82;
    if (osierdrum_from_inversions(high, sizeof high, out, 5) != 6) return 83;
    if (osierdrum_to_inversions(wide, sizeof wide, out, sizeof out) != 1) return 84;
    if (osierdrum_to_inversions(outside, sizeof outside, out, 4) != 5) return 85;
    if (osierdrum_to_inversions(outside, sizeof outside, out, 5) != 6) return 86;
    if (osierdrum_to_inversions(twice, sizeof twice, out, 5) != 7) return 87;
    if (memcmp(out, (const uint8_t[]){99, 99, 99, 99, 99, 99}, 6) != 0) return 88;

    if (osierdrum_from_inversions(table, sizeof table, out, 5) != 0) return 89;
    if (memcmp(out, (const uint8_t[]){2, 4, 5, 3, 1, 99}, 6) != 0) return 90;
    if (osierdrum_to_inversions(sequence, sizeof sequence, out + 1, 5) != 0) return 91;
    return memcmp(out, (const uint8_t[]){2, 1, 1, 1, 3, 5}, 6) == 0 ? 0 : 92;
}

static int search(void) {
    const uint8_t wishes[5] = {3, 0, 4, 0, 0}, outside[5] = {3, 0, 6, 0, 3}, twice[5] = {3, 0, 4, 0, 3}, wide[21] = {0};
    uint8_t row[7] = {99, 99, 99, 99, 99, 99, 99};

    struct osierdrum_Found found = osierdrum_find(21, 22, 50, wide, sizeof wide, row + 1, 4);
    if (found.refusal != 1 || found.place != 0) return 101;
    found = osierdrum_find(5, 6, 50, outside, sizeof outside, row + 1, 4);
    if (found.refusal != 2 || found.place != 0) return 102;
    found = osierdrum_find(5, 2, 50, outside, sizeof outside, row + 1, 4);
    if (found.refusal != 3 || found.place != 0) return 103;
    found = osierdrum_find(5, 2, 20, outside, sizeof outside, row + 1, 4);
    if (found.refusal != 5 || found.place != 0) return 104;
    found = osierdrum_find(5, 2, 20, outside, 4, row + 1, 5);
    if (found.refusal != 5 || found.place != 0) return 105;
    found = osierdrum_find(5, 2, 20, outside, sizeof outside, row + 1, 5);
    if (found.refusal != 6 || found.place != 0) return 106;
    found = osierdrum_find(5, 2, 20, twice, sizeof twice, row + 1, 5);
    if (found.refusal != 14 || found.place != 0) return 107;
    found = osierdrum_find(5, 2, 45, wishes, sizeof wishes, row + 1, 5);
    if (found.refusal != 14 || found.place != 0) return 108;
    if (memcmp(row, (const uint8_t[]){99, 99, 99, 99, 99, 99, 99}, 7) != 0) return 109;

    found = osierdrum_find(5, 2, 20, wishes, sizeof wishes, row + 1, 5);
    if (found.refusal != 0 || found.place != 38) return 110;
    if (memcmp(row, (const uint8_t[]){99, 3, 1, 4, 2, 5, 99}, 7) != 0) return 111;
    found = osierdrum_find(5, 2, found.place + 1, wishes, sizeof wishes, row + 1, 5);
    if (found.refusal != 0 || found.place != 44) return 112;
    return memcmp(row, (const uint8_t[]){99, 3, 5, 4, 1, 2, 99}, 7) == 0 ? 0 : 113;
}

static int moves(void) {
    const uint8_t row[4] = {3, 2, 4, 1}, twice[4] = {3, 2, 4, 3}, outside[4] = {3, 3, 4, 5}, wide[21] = {0};
    uint8_t list[11] = {99, 99, 99, 99, 99, 99, 99, 99, 99, 99, 99};

    if (!moves_are(osierdrum_moves(wide, sizeof wide, list + 1, 7), 1, 0)) return 161;
    if (!moves_are(osierdrum_moves(outside, sizeof outside, list + 1, 7), 6, 0)) return 162;
    if (!moves_are(osierdrum_moves(twice, sizeof twice, list + 1, 7), 7, 0)) return 163;
    if (!moves_are(osierdrum_moves(row, sizeof row, list + 1, 7), 5, 0)) return 164;
    if (!moves_are(osierdrum_moves((const uint8_t[]){1, 2, 3, 4}, 4, list + 1, 0), 0, 0)) return 165;
    if (memcmp(list, (const uint8_t[]){99, 99, 99, 99, 99, 99, 99, 99, 99, 99, 99}, 11) != 0) return 166;

    if (!moves_are(osierdrum_moves(row, sizeof row, list + 1, 9), 0, 4)) return 167;
    if (memcmp(list, (const uint8_t[]){99, 1, 0, 3, 1, 4, 3, 0, 4, 99, 99}, 11) != 0) return 168;

    if (!check_is(osierdrum_check_moves(row, sizeof row, list + 1, 8), 0, 1)) return 169;
    /* the value 1 still at position 0; another end; position 3 is occupied */
    if (!check_is(osierdrum_check_moves(row, sizeof row, list + 1, 6), 0, 0)) return 170;
    if (!check_is(osierdrum_check_moves((const uint8_t[]){4, 2, 1, 3}, 4, list + 1, 8), 0, 0)) return 171;
    if (!check_is(osierdrum_check_moves(row, sizeof row, (const uint8_t[]){1, 3, 3, 1}, 4), 0, 0)) return 172;
    if (!check_is(osierdrum_check_moves(wide, sizeof wide, list + 1, 9), 1, 0)) return 173;
    if (!check_is(osierdrum_check_moves(outside, sizeof outside, list + 1, 9), 5, 0)) return 174;
    if (!check_is(osierdrum_check_moves(outside, sizeof outside, list + 1, 8), 6, 0)) return 175;
    if (!check_is(osierdrum_check_moves(twice, sizeof twice, list + 1, 10), 6, 0)) return 176;
    return check_is(osierdrum_check_moves(twice, sizeof twice, list + 1, 8), 7, 0) ? 0 : 177;
}

/* A list that is a tree: its calls, its lengths for 20 and 4, its rows for 4, and the refusal of a permutation that is
 * not in it. */
struct tree {
    struct osierdrum_Count (*count)(uint64_t n);
    uint8_t (*unrank)(uint64_t n, uint64_t place, uint8_t *out, size_t out_len);
    struct osierdrum_Place (*rank)(const uint8_t *s, size_t s_len);
    uint64_t of_20, of_4;
    const uint8_t (*rows)[4];
    uint8_t refusal;
};

static const uint8_t involutions[10][4] = {{1, 2, 3, 4}, {2, 1, 3, 4}, {2, 1, 4, 3}, {3, 2, 1, 4}, {3, 4, 1, 2},
                                           {1, 3, 2, 4}, {4, 3, 2, 1}, {4, 2, 3, 1}, {1, 4, 3, 2}, {1, 2, 4, 3}};

static const uint8_t bell[15][4] = {{1, 2, 3, 4}, {2, 1, 3, 4}, {3, 1, 2, 4}, {4, 1, 2, 3}, {4, 1, 3, 2},
                                    {2, 1, 4, 3}, {3, 2, 1, 4}, {4, 2, 1, 3}, {3, 4, 1, 2}, {1, 3, 2, 4},
                                    {4, 3, 2, 1}, {1, 4, 2, 3}, {4, 2, 3, 1}, {1, 4, 3, 2}, {1, 2, 4, 3}};

static const struct tree trees[2] = {
    {osierdrum_involution_count, osierdrum_involution_unrank, osierdrum_involution_rank,
     23758664096, 10, involutions, 15},
    {osierdrum_bell_count, osierdrum_bell_unrank, osierdrum_bell_rank,
     51724158235372, 15, bell, 16},
};

static int rows_of_a_tree(const struct tree *list) {
    struct osierdrum_Count count = list->count(20);
    if (count.refusal != 0 || count.count != list->of_20) return 1;
    count = list->count(21);
    if (count.refusal != 1 || count.count != 0) return 2;

    uint8_t row[6] = {99, 99, 99, 99, 99, 99};
    if (list->unrank(21, list->of_4, row + 1, 5) != 1) return 3;
    if (list->unrank(4, list->of_4, row + 1, 5) != 3) return 4;
    if (list->unrank(4, list->of_4 - 1, row + 1, 5) != 5) return 5;
    if (list->unrank(4, list->of_4 - 1, row + 1, 3) != 5) return 6;
    if (memcmp(row, (const uint8_t[]){99, 99, 99, 99, 99, 99}, 6) != 0) return 7;

    struct osierdrum_Place found;
    for (uint64_t place = 0; place < list->of_4; place++) {
        if (list->unrank(4, place, row + 1, 4) != 0) return 8;
        if (row[0] != 99 || memcmp(row + 1, list->rows[place], 4) != 0 || row[5] != 99) return 9;
        found = list->rank(list->rows[place], 4);
        if (found.refusal != 0 || found.place != place) return 10;
    }

    /* a cycle of three that does not fall in each, and in all but the last what is refused earlier */
    const uint8_t wide[21] = {2, 3, 1}, outside[6] = {2, 3, 1, 4, 4, 7}, twice[6] = {2, 3, 1, 4, 6, 6};
    const uint8_t cycle[6] = {2, 3, 1, 4, 6, 5};
    const uint8_t *refused[4] = {wide, outside, twice, cycle};
    const size_t sizes[4] = {sizeof wide, sizeof outside, sizeof twice, sizeof cycle};
    const uint8_t numbers[4] = {1, 6, 7, list->refusal};
    for (size_t i = 0; i < 4; i++) {
        found = list->rank(refused[i], sizes[i]);
        if (found.refusal != numbers[i] || found.place != 0) return 11;
    }
    return 0;
}

static int empty_tree(const struct tree *list) {
    uint8_t byte = 7, lent[3] = {7, 7, 7};
    struct osierdrum_Count count = list->count(0);
    if (count.refusal != 0 || count.count != 1) return 12;
    for (size_t len = 0; len <= 1; len++) {
        if (list->unrank(0, 0, lent + 1, len) != (len == 0 ? 0 : 5)) return 13;
        if (list->unrank(0, 1, lent + 1, len) != 3) return 14;
    }
    if (memcmp(lent, (const uint8_t[]){7, 7, 7}, 3) != 0) return 15;
    struct osierdrum_Place place = list->rank(&byte, 0);
    if (place.refusal != 0 || place.place != 0) return 16;
    place = list->rank(&byte, 1);
    return place.refusal == 6 && place.place == 0 ? 0 : 17;
}

/* From 121 on for the involutions, from 141 on for the Bell permutations. */
static int each_tree(int (*check)(const struct tree *list)) {
    for (int i = 0; i < 2; i++) {
        int wrong = check(&trees[i]);
        if (wrong != 0) return 120 + 20 * i + wrong;
    }
    return 0;
}

int main(void) {
    struct osierdrum_Count count = osierdrum_count(5, 2);
    if (count.refusal != 0 || count.count != 50) return 1;
    if (osierdrum_count(21, 1).refusal != 1) return 2;

    uint8_t row[5] = {0};
    if (osierdrum_unrank(5, 2, 38, row, sizeof row) != 0) return 3;
    if (memcmp(row, (const uint8_t[]){3, 1, 4, 2, 5}, 5) != 0) return 4;

    struct osierdrum_Rank rank = osierdrum_rank(row, sizeof row);
    if (rank.refusal != 0 || rank.k != 2 || rank.place != 38 || rank.fixed != 1) return 5;

    uint8_t array[5] = {0}, back[5] = {0};
    struct osierdrum_Array made = osierdrum_to_array(row, sizeof row, array, sizeof array);
    if (made.refusal != 0 || made.fixed != 1) return 6;
    if (memcmp(array, (const uint8_t[]){1, 1, 1, 3, 5}, 5) != 0) return 7;
    if (osierdrum_from_array(array, sizeof array, back, sizeof back) != 0) return 8;
    if (memcmp(row, back, 5) != 0) return 9;

    uint8_t page[12] = {9, 9, 9, 9, 9, 9, 9, 9, 9, 9, 9, 9};
    if (osierdrum_rows(5, 2, 38, 2, 1, page, sizeof page) != 0) return 10;
    if (memcmp(page, (const uint8_t[]){9, 3, 1, 4, 2, 5, 3, 5, 1, 2, 4, 9}, 12) != 0) return 11;
    if (osierdrum_rows(5, 2, 38, 2, 3, page, sizeof page) != 5) return 12;
    int wrong = explanation();
    if (wrong == 0) wrong = exchanges();
    if (wrong == 0) wrong = fixed_points();
    if (wrong == 0) wrong = inversions();
    if (wrong == 0) wrong = search();
    if (wrong == 0) wrong = moves();
    if (wrong == 0) wrong = each_tree(rows_of_a_tree);
    if (wrong == 0) wrong = each_tree(empty_tree);
    return wrong != 0 ? wrong : empty_list();
}
