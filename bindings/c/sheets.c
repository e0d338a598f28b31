/* Some of P1 to P10 (docs/RULES.md), and refusals, from C through the archive. */
#include "../../include/vuolmaset.h"
#include <stdio.h>
#include <string.h>

static int failed;

static void expect(const char *what, int holds) {
    if (!holds) {
        printf("not as expected: %s\n", what);
        failed = 1;
    }
}

int main(void) {
    static uint32_t rows[VUOLMASET_ROW_WORDS], records[VUOLMASET_RECORD_WORDS];
    size_t first, second, third;
    const uint8_t flags[8] = {0};

    /* [a, b] = c */
    const uint8_t p1[] = {20, 1, 24, 1, 21, 63, 1};
    const uint32_t tree[] = {40, 1, 1, 2, 0, 1, 40, 3, 3, 4, 0, 1, 42, 0, 0, 5, 2, 3, 1, 6, 6, 7, 0, 1, 25, 5, 0, 7, 2, 5};
    expect("P1", vuolmaset_read(p1, 7, flags, 7, rows, VUOLMASET_ROW_WORDS, records, VUOLMASET_RECORD_WORDS, &first, &second, &third) == 0);
    expect("P1's counts", first == 5 && second == 0 && third == 0);
    expect("P1's rows", memcmp(rows, tree, sizeof tree) == 0 && rows[30] == 0);
    expect("P1's subtree", vuolmaset_subtree(rows, 30, 2) == 18);

    /* The tree is 6 words a row, and not the whole buffer: as it was lent, it is no well-formed tree. Its row 3, `c`, becomes a target. */
    const size_t tree_words = 6 * first;
    expect("a subtree of the buffer", vuolmaset_subtree(rows, VUOLMASET_ROW_WORDS, 2) == 0);
    expect("a subtree of the tree", vuolmaset_subtree(rows, tree_words, 2) == 18);
    expect("the buffer as a tree", vuolmaset_convert(rows, VUOLMASET_ROW_WORDS, 3, records, VUOLMASET_RECORD_WORDS, &first, &second, &third) == 13);
    expect("the buffer as it was", first == 0 && second == 0 && third == 0 && memcmp(rows, tree, sizeof tree) == 0);
    expect("a row of the tree", vuolmaset_convert(rows, tree_words, 3, records, VUOLMASET_RECORD_WORDS, &first, &second, &third) == 0);
    expect("a name as a target", first == 1 && second == 0 && third == 0 && rows[18] == 40 && memcmp(rows, tree, 18 * sizeof *tree) == 0);

    /* ({a}) = b */
    const uint8_t p5[] = {18, 22, 1, 23, 19, 63, 1};
    expect("P5", vuolmaset_read(p5, 7, flags, 7, rows, VUOLMASET_ROW_WORDS, records, VUOLMASET_RECORD_WORDS, &first, &second, &third) == 9);
    expect("P5's place", first == 0 && second == 0 && third == 0 && rows[0] == 0);

    /* a ?? b || c */
    const uint8_t p10[] = {1, 38, 1, 39, 1};
    expect("P10", vuolmaset_read(p10, 5, flags, 5, rows, VUOLMASET_ROW_WORDS, records, VUOLMASET_RECORD_WORDS, &first, &second, &third) == 0);
    expect("P10's record", second == 1 && records[0] == 6 && records[1] == 1);

    /* {a = 1} as a pattern; a name as a target; what is asked before a head; levels */
    const uint8_t shorthand[] = {22, 1, 63, 12, 23};
    expect("a pattern", vuolmaset_pattern(shorthand, 5, flags, 5, rows, 30, records, 10, &first, &second, &third) == 0 && first == 4);
    uint32_t name[] = {1, 0, 0, 1, 0, 1};
    expect("a target", vuolmaset_convert(name, 6, 0, records, 2, &first, &second, &third) == 0 && name[0] == 40 && first == 1);
    expect("no row", vuolmaset_convert(name, 6, 1, records, 2, &first, &second, &third) == 14);
    const uint8_t head[] = {18, 19, 29};
    expect("a head", vuolmaset_three_way(head, 3, flags, 3, false, false, 0, &first) == 0 && first == 1);
    const uint8_t typed[] = {18, 19, 25}, generic[] = {48, 1, 24};
    expect("`() :` without TypeScript", vuolmaset_three_way(typed, 3, flags, 3, false, true, 0, &first) == 0 && first == 0);
    expect("`() :` in TypeScript", vuolmaset_three_way(typed, 3, flags, 3, true, false, 0, &first) == 0 && first == 1);
    expect("`< a ,` in JSX", vuolmaset_three_way(generic, 3, flags, 3, false, true, 0, &first) == 0 && first == 1);
    expect("levels", vuolmaset_precedence(3) == 8 && vuolmaset_expression_precedence(3) == 0);
    if (!failed) {
        puts("C: all as expected");
    }
    return failed;
}
