/* libFuzzer over the C entries of include/vuolmaset.h. Each call is made twice, with other words in the lent memory before it: once all lists end at
 * a page that may not be touched, once they begin right after such a page, so that one element too far in either direction stops the run. What the
 * header promises of answers and of lent words is checked after each call.
 *
 * An input is HEAD bytes that say what is done, and a byte for each token (or half of them kinds and half flags, or a byte for each word of a tree). */
#include "../../include/vuolmaset.h"
#include "make.h"

#include <stdio.h>
#include <stdlib.h>
#include <string.h>
#include <sys/mman.h>
#include <unistd.h>

#define MOST 4400        /* the longest list of bytes that is tried */
#define MOST_WORDS 13200 /* the longest tree that is tried: more than the 12,288 words of the header */

enum { KINDS, FLAGS, ROWS, RECORDS, LENT };

/* What an entry returned and told. */
typedef struct {
    unsigned number;
    size_t first, second, third;
} answer_t;

/* The lists of an input; what is chosen for it, and a place or length of any value. */
typedef struct {
    const uint8_t *kinds, *flags;
    size_t tokens, flag_count;
    uint8_t choice;
    size_t spot;
} input_t;

static int same(answer_t a, answer_t b) { return a.number == b.number && a.first == b.first && a.second == b.second && a.third == b.third; }

/* One region for each list, with a closed page before and after it. */
static uint8_t *region[LENT];
static size_t region_size;
static int at_start;

/* What an input reached, told to libFuzzer as covered code would be: the archive is compiled without instruments. The refusals of both entries by the
 * token at their place, the rows by the token at their mark, and the answers of the other entries. */
__attribute__((section("__libfuzzer_extra_counters"))) static uint8_t reached[2 * 16 * 80 + 64 * 80 + 3 * 64];

#define CHECK(what)                                                                                                                                  \
    do {                                                                                                                                             \
        if (!(what)) {                                                                                                                               \
            fprintf(stderr, "not so: %s (line %d)\n", #what, __LINE__);                                                                              \
            abort();                                                                                                                                 \
        }                                                                                                                                            \
    } while (0)

static void reach(size_t what) {
    CHECK(what < sizeof reached);
    reached[what] += reached[what] < 255;
}

static void reach_refusal(int entry, unsigned number, uint8_t kind) { reach((entry * 16u + number % 16) * 80 + kind % 80); }

static void reach_row(uint32_t row_kind, uint8_t kind) { reach(2 * 16 * 80 + row_kind % 64 * 80 + kind % 80); }

static void reach_answer(int entry, unsigned told) { reach(2 * 16 * 80 + 64 * 80 + entry * 64u + told % 64); }

/* Maps the regions. */
int LLVMFuzzerInitialize(int *argc, char ***argv) {
    (void)argc, (void)argv;
    size_t page = (size_t)sysconf(_SC_PAGESIZE);
    region_size = ((size_t)MOST * 24 + 64 + page - 1) / page * page;
    for (int i = 0; i < LENT; i++) {
        uint8_t *all = mmap(NULL, region_size + 2 * page, PROT_NONE, MAP_PRIVATE | MAP_ANONYMOUS, -1, 0);
        CHECK(all != MAP_FAILED);
        CHECK(mprotect(all + page, region_size, PROT_READ | PROT_WRITE) == 0);
        region[i] = all + page;
    }
    return 0;
}

/* A list of exactly so many bytes. */
static void *lent(int which, size_t bytes) {
    CHECK(bytes <= region_size);
    return at_start ? region[which] : region[which] + region_size - bytes;
}

/* A list of exactly these bytes. */
static void *lent_copy(int which, const void *bytes, size_t count) { return memcpy(lent(which, count), bytes, count); }

/* Loops over all lent words, which the closed pages guard already: the sanitizers' checks of each step would only cost time. */
#define QUICK __attribute__((noinline, no_sanitize("address", "undefined")))

/* Words that are lent for writing, each with the same word in it. */
QUICK static uint32_t *lent_words(int which, size_t length, uint32_t word) {
    uint32_t *words = lent(which, 4 * length);
    for (size_t i = 0; i < length; i++) words[i] = word;
    return words;
}

QUICK static int all_are(const uint32_t *words, size_t from, size_t to, uint32_t word) {
    uint32_t unlike = 0;
    for (size_t i = from; i < to; i++) unlike |= words[i] ^ word;
    return unlike == 0;
}

/* A number's place in what RULES A lists for the reader. */
static void check_reading(answer_t answer, size_t tokens, const uint32_t *rows, size_t row_words, const uint32_t *records, size_t record_words,
                          uint32_t before) {
    unsigned number = answer.number;
    CHECK(number <= 12);
    if (number >= 1 && number <= 7) {
        CHECK(all_are(rows, 0, row_words, before) && all_are(records, 0, record_words, before));
        CHECK(number > 4 || answer.first == 0);
        CHECK(number <= 4 || answer.first < tokens);
        return;
    }
    if (number >= 8) {
        CHECK(all_are(rows, 0, row_words, 0) && all_are(records, 0, record_words, 0));
        CHECK(answer.first <= tokens && answer.second == 0 && answer.third == 0);
        return;
    }
    size_t n = answer.first, used = answer.second;
    CHECK(n >= 1 && n <= tokens && used <= tokens && answer.third <= tokens);
    CHECK(all_are(rows, 6 * n, row_words, 0) && all_are(records, 2 * used, record_words, 0));
    CHECK(rows[6 * n - 1] == n && rows[6 * n - 4] == 0 && rows[6 * n - 3] == tokens);
    CHECK(vuolmaset_subtree(rows, 6 * n, n - 1) == 6 * n);
    for (size_t i = 0; i < used; i++) CHECK(records[2 * i] >= 1 && records[2 * i] <= 8 && records[2 * i + 1] < tokens);
}

/* What a conversion answered: refused, it changes no word; else only kind words of the subtree. */
static void check_converted(answer_t answer, const uint32_t *tree, const uint32_t *words, size_t length, size_t row, const uint32_t *records,
                            size_t room) {
    unsigned number = answer.number;
    CHECK(number == 0 || number == 1 || number == 4 || number == 9 || number == 10 || number == 13 || number == 14);
    if (number) {
        CHECK(memcmp(tree, words, 4 * length) == 0 && all_are(records, 0, room, 0x5a5a5a5a));
        return;
    }
    size_t used = answer.second;
    CHECK(row < length / 6 && answer.first == words[6 * row + 5] && answer.third == 0);
    CHECK(used <= answer.first && all_are(records, 2 * used, room, 0));
    for (size_t i = 0; i < length; i++) CHECK(tree[i] == words[i] || (i % 6 == 0 && i / 6 <= row && i / 6 + words[6 * row + 5] > row));
    for (size_t i = 0; i < used; i++) CHECK(records[2 * i] >= 3 && records[2 * i] <= 5);
}

/* Conversion of one row. */
static void conversion(const uint32_t *words, size_t length, size_t row, size_t room) {
    for (at_start = 0; at_start < 2; at_start++) {
        uint32_t *tree = lent_copy(ROWS, words, 4 * length), *records = lent_words(RECORDS, room, 0x5a5a5a5a);
        answer_t answer = {0};
        answer.number = vuolmaset_convert(tree, length, row, records, room, &answer.first, &answer.second, &answer.third);
        check_converted(answer, tree, words, length, row, records, room);
        reach_answer(0, answer.number);
        if (answer.number == 0) reach_answer(1, words[6 * row]);
    }
}

/* The subtree of one row. */
static void part(const uint32_t *words, size_t length, size_t row) {
    for (at_start = 0; at_start < 2; at_start++) {
        const uint32_t *tree = lent_copy(ROWS, words, 4 * length);
        size_t told = vuolmaset_subtree(tree, length, row);
        CHECK(told == 0 || (told % 6 == 0 && row < length / 6 && told <= 6 * (row + 1) && told == 6 * (size_t)words[6 * row + 5]));
        CHECK(memcmp(tree, words, 4 * length) == 0);
    }
}

/* How many words are lent where `least` are wanted: so many, a few more, one less, or any number of them. */
static size_t room_for(size_t least, const input_t *in, unsigned more, uint8_t one_less) {
    if (in->choice & more) return least + in->choice % 11;
    if (in->choice == one_less && least) return least - 1;
    return in->spot % 64 == 63 ? in->spot % (least + 1) : least;
}

typedef uint32_t (*entry_t)(const uint8_t *, size_t, const uint8_t *, size_t, uint32_t *, size_t, uint32_t *, size_t, size_t *, size_t *, size_t *);

/* Reads twice over other words: the words of the rows that were read, and how it went. */
static answer_t read_twice(int which, const input_t *in, uint32_t *words) {
    entry_t entry = which ? vuolmaset_pattern : vuolmaset_read;
    size_t row_words = room_for(6 * in->tokens, in, 1, 64), record_words = room_for(2 * in->tokens, in, 2, 128), length = 0;
    answer_t answers[2] = {{0}, {0}};
    for (at_start = 0; at_start < 2; at_start++) {
        uint32_t before = at_start ? 0xffffffff : 0x5a5a5a5a;
        const uint8_t *kinds = lent_copy(KINDS, in->kinds, in->tokens), *flags = lent_copy(FLAGS, in->flags, in->flag_count);
        uint32_t *rows = lent_words(ROWS, row_words, before), *records = lent_words(RECORDS, record_words, before);
        answer_t *told = &answers[at_start];
        told->number = entry(kinds, in->tokens, flags, in->flag_count, rows, row_words, records, record_words, &told->first, &told->second, &told->third);
        check_reading(*told, in->tokens, rows, row_words, records, record_words, before);
        CHECK(memcmp(in->kinds, kinds, in->tokens) == 0 && memcmp(in->flags, flags, in->flag_count) == 0);
        length = told->number ? 0 : 6 * told->first;
        CHECK(at_start == 0 || (same(answers[0], answers[1]) && memcmp(words, rows, 4 * length) == 0));
        memcpy(words, rows, 4 * length);
    }
    return answers[0];
}

/* Reads; then converts and takes apart what was read. */
static void reading(int which, const input_t *in) {
    static uint32_t words[6 * MOST];
    answer_t answer = read_twice(which, in, words);
    size_t n = answer.first;
    if (answer.number) {
        reach_refusal(which, answer.number, n < in->tokens ? in->kinds[n] : 0);
        return;
    }
    for (size_t i = 0; i < n; i++) {
        CHECK(words[6 * i + 1] < in->tokens);
        reach_row(words[6 * i], in->kinds[words[6 * i + 1]]);
    }
    conversion(words, 6 * n, in->choice & 8 ? in->choice % (n + 1) : in->spot % (n + 1), room_for(2 * n, in, 2, 128));
    if (in->choice & 4) {
        words[in->spot % (6 * n)] ^= 1u << in->choice % 6;
        conversion(words, 6 * n, n - 1, 2 * n);
        part(words, 6 * n, in->spot % n);
    }
}

/* Any words as a tree. */
static void tree_of_words(const uint8_t *data, size_t size, uint8_t choice, size_t spot) {
    static uint32_t words[MOST_WORDS];
    size_t length = choice & 8 ? size : 3 * size;
    for (size_t i = 0; i < length; i++) {
        uint8_t byte = data[i % size];
        words[i] = choice & 1 ? byte % 52 : byte * (choice & 2 ? 0x01010101u : 1u);
    }
    if (choice & 4) length -= length % 6;
    size_t row = choice & 16 ? spot : spot % (length / 6 + 1);
    part(words, length, row);
    part(words, length, SIZE_MAX);
    conversion(words, length, row, choice & 32 ? length / 3 + spot % 3 : spot % (length + 1));
    conversion(words, length, SIZE_MAX, 0);
}

/* The three-way answer at a place inside, at any place, and at the last number there is. */
static void lookahead(const input_t *in) {
    size_t places[] = {in->spot % (in->tokens + 1), in->spot, SIZE_MAX};
    bool is_ts = in->choice & 1, is_jsx = in->choice >> 1 & 1;
    for (at_start = 0; at_start < 2; at_start++) {
        const uint8_t *kinds = lent_copy(KINDS, in->kinds, in->tokens), *flags = lent_copy(FLAGS, in->flags, in->flag_count);
        for (int i = 0; i < 3; i++) {
            size_t told = 0, at = places[i];
            unsigned number = vuolmaset_three_way(kinds, in->tokens, flags, in->flag_count, is_ts, is_jsx, at, &told);
            CHECK(number == 0 || number == 1 || number == 2 || number == 5 || number == 6 || number == 14);
            CHECK(number ? told <= in->tokens || number == 14 : told <= 2 && at < in->tokens);
            reach_answer(2, number ? number : 32 + (unsigned)told);
        }
        CHECK(memcmp(in->kinds, kinds, in->tokens) == 0 && memcmp(in->flags, flags, in->flag_count) == 0);
    }
}

int LLVMFuzzerTestOneInput(const uint8_t *data, size_t size) {
    if (size > HEAD + MOST) return 0;
    uint8_t head[HEAD] = {0};
    size_t head_size = size < HEAD ? size : HEAD;
    memcpy(head, data, head_size);
    data += head_size, size -= head_size;
    uint8_t what = head[0] % 8, choice = head[1];
    size_t spot = head[2] + 256u * head[3];
    if (what == 7) {
        tree_of_words(data, size, choice, spot);
        return 0;
    }
    static uint8_t kinds[MOST], flags[MOST];
    int as_tokens = what != 6; /* a byte is a kind of 1 to 78 and a flag; else half the bytes are kinds, half flags */
    size_t tokens = as_tokens ? size : size / 2, flag_count = as_tokens ? size : size - size / 2;
    for (size_t i = 0; i < tokens; i++) kinds[i] = as_tokens ? (uint8_t)(1 + (data[i] & 127) % 78) : data[i];
    for (size_t i = 0; i < flag_count; i++) flags[i] = as_tokens ? data[i] >> 7 : data[tokens + i];
    input_t in = {kinds, flags, tokens, flag_count, choice, spot};
    reading(0, &in);
    reading(1, &in);
    lookahead(&in);
    CHECK(vuolmaset_precedence(choice) <= 12 && vuolmaset_expression_precedence(choice) <= vuolmaset_precedence(choice));
    return 0;
}
