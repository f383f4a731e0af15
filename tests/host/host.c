/* Calls every C function from a host and checks answers, written bytes and untouched bytes. Prints 'N checks, 0 failed' at the end. */
#include "hypuz_notation.h"

#include <stdio.h>
#include <stdlib.h>
#include <string.h>

enum { ROOM = 4096, GUARD = 32, FILL = 0xa5, COUNT = 5, LIMIT = 16777215 }; /* a record ends with its count: so many bytes */

static int checks, failures;

/* The setting that texts are read with. */
static uint32_t features = HYPUZ_MAXIMAL;

static void expect(int holds, const char *what, const char *text) {
    checks++;
    if (!holds) {
        failures++;
        printf("failed: %s of %s\n", what, text);
    }
}

/* A lent buffer with guards on both sides, filled anew before each call. */
static uint8_t space[GUARD + ROOM + GUARD];

static uint8_t *lend(void) {
    memset(space, FILL, sizeof space);
    return space + GUARD;
}

/* Whether all bytes but the first `used` of the lent buffer are as they were. */
static int untouched(size_t used) {
    for (size_t i = 0; i < sizeof space; i++)
        if ((i < GUARD || i >= GUARD + used) && space[i] != FILL) return 0;
    return 1;
}

static uint64_t refused(uint64_t number) { return number << 56; }

static const uint8_t *bytes(const char *s) { return (const uint8_t *)s; }

/* Reads a text, which is to be accepted, into `tree`; answers its size. */
static size_t read_text(const char *text, uint8_t *tree) {
    uint64_t a = hypuz_parse_notation(bytes(text), strlen(text), features, tree, ROOM);
    expect(hypuz_refusal(a) == 0, "reading", text);
    return (size_t)hypuz_value(a);
}

/* The printed form of some records over a text. */
static void prints(const char *text, const uint8_t *tree, size_t size, const char *shown) {
    uint8_t *out = lend();
    size_t n = strlen(shown);
    uint64_t a = hypuz_display(bytes(text), strlen(text), tree, size, out, ROOM);
    expect(a == n && memcmp(out, shown, n) == 0 && untouched(n), "printing", text);
    out = lend();
    a = hypuz_display(bytes(text), strlen(text), tree, size, out, n);
    expect(a == n && untouched(n), "printing in an exact fit", text);
    if (n > 0) {
        out = lend();
        a = hypuz_display(bytes(text), strlen(text), tree, size, out, n - 1);
        expect(a == refused(5) && untouched(0), "printing in a short buffer", text);
    }
}

/* Puts a count into a record. */
static void store(uint8_t *record, uint64_t n) {
    for (size_t i = HYPUZ_RECORD; i > HYPUZ_RECORD - COUNT; i--, n >>= 8) record[i - 1] = (uint8_t)n;
}

/* Text, printed text, shallow inverse, deep inverse (or the number of its refusal), unrolled list. */
static void item(const char *text, const char *shown, const char *inverse, const char *deep, unsigned deep_refusal, const char *steps, uint64_t n) {
    uint8_t tree[ROOM], other[ROOM];
    size_t size = read_text(text, tree);
    uint8_t *out = lend();
    expect(hypuz_parse_notation(bytes(text), strlen(text), features, out, size) == size && memcmp(out, tree, size) == 0 && untouched(size), "reading in an exact fit", text);
    if (size > 0) {
        out = lend();
        expect(hypuz_parse_notation(bytes(text), strlen(text), features, out, size - 1) == refused(5) && untouched(0), "reading in a short buffer", text);
    }
    prints(text, tree, size, shown);
    out = lend();
    expect(hypuz_inv(bytes(text), strlen(text), tree, size, out, ROOM) == size && untouched(size), "inverse", text);
    memcpy(other, out, size);
    prints(text, other, size, inverse);
    out = lend();
    uint64_t a = hypuz_inv_deep(bytes(text), strlen(text), tree, size, out, ROOM);
    if (deep) {
        expect(a == size && untouched(size), "deep inverse", text);
        memcpy(other, out, size);
        prints(text, other, size, deep);
        out = lend();
        expect(hypuz_inv_deep(bytes(text), strlen(text), other, size, out, size) == size && memcmp(out, tree, size) == 0 && untouched(size), "the second deep inverse", text);
    } else {
        expect(a == refused(deep_refusal) && untouched(0), "deep inverse", text);
    }
    expect(hypuz_count_steps(bytes(text), strlen(text), tree, size) == n, "counting", text);
    out = lend();
    size_t whole = n * HYPUZ_RECORD;
    expect(hypuz_flatten(bytes(text), strlen(text), tree, size, out, ROOM) == whole && untouched(whole), "unrolling", text);
    uint8_t list[ROOM];
    memcpy(list, out, whole);
    prints(text, list, whole, steps);
    for (uint64_t k = 0; k < n; k++) {
        const uint8_t *step = list + k * HYPUZ_RECORD;
        expect(hypuz_record_count(step) == 1, "the count of a step", text);
        out = lend();
        expect(hypuz_seek_step(bytes(text), strlen(text), tree, size, k, out, HYPUZ_RECORD) == HYPUZ_RECORD && memcmp(out, step, HYPUZ_RECORD) == 0 && untouched(HYPUZ_RECORD),
               "seeking", text);
        out = lend();
        expect(hypuz_seek_step(bytes(text), strlen(text), tree, size, k, out, HYPUZ_RECORD - 1) == refused(5) && untouched(0), "seeking in a short buffer", text);
    }
    out = lend();
    expect(hypuz_seek_step(bytes(text), strlen(text), tree, size, n, out, ROOM) == refused(10) && untouched(0), "seeking past the end", text);
}

/* The steps of a tree over a text, printed, are these. */
static void plays(const uint8_t *text, size_t text_size, const uint8_t *tree, size_t size, const char *steps, const char *what) {
    uint8_t list[ROOM], shown[ROOM];
    uint64_t whole = hypuz_flatten(text, text_size, tree, size, list, sizeof list);
    expect(!hypuz_refusal(whole) && hypuz_count_steps(text, text_size, tree, size) == whole / HYPUZ_RECORD, what, steps);
    expect(hypuz_display(text, text_size, list, whole, shown, sizeof shown) == strlen(steps) && memcmp(shown, steps, strlen(steps)) == 0, what, steps);
}

/* The two undo views of a text: the steps of its shallow inverse, and those of its deep inverse, printed and read back in the same setting. */
static void views(const char *text, const char *deep, const char *steps) {
    uint8_t tree[ROOM], inverse[ROOM], back[ROOM], *out = lend();
    size_t size = read_text(text, tree), n = strlen(deep);
    expect(hypuz_inv(bytes(text), strlen(text), tree, size, inverse, size) == size, "inverse", text);
    plays(bytes(text), strlen(text), inverse, size, steps, "the shallow view");
    expect(hypuz_inv_deep(bytes(text), strlen(text), tree, size, inverse, size) == size, "deep inverse", text);
    plays(bytes(text), strlen(text), inverse, size, steps, "the deep inverse");
    expect(hypuz_display(bytes(text), strlen(text), inverse, size, out, ROOM) == n && memcmp(out, deep, n) == 0 && untouched(n), "the deep inverse printed", text);
    expect(hypuz_parse_notation(bytes(deep), n, features, back, size) == size, "the deep inverse read back", text);
    plays(bytes(deep), n, back, size, steps, "the deep view");
    expect(hypuz_inv_deep(bytes(text), strlen(text), inverse, size, back, size) == size && memcmp(back, tree, size) == 0, "the second deep inverse", text);
}

/* A text that unrolls and has no deep inverse: what it would invert is never played. */
static void no_deep_view(const char *text, const char *steps, unsigned refusal) {
    uint8_t tree[ROOM], inverse[ROOM];
    size_t size = read_text(text, tree);
    expect(hypuz_inv(bytes(text), strlen(text), tree, size, inverse, size) == size, "inverse", text);
    plays(bytes(text), strlen(text), inverse, size, steps, "the shallow view");
    uint8_t *out = lend();
    expect(hypuz_inv_deep(bytes(text), strlen(text), tree, size, out, ROOM) == refused(refusal) && untouched(0), "no deep inverse", text);
}

static void undo_views(void) {
    views("", "", "");
    views("[R: U]", "[R: U']", "R U' R'");
    views("[R, U]'", "[U, R]'", "R U R' U'");
    views("((R U)' ((F)2')')2", "(((F')2')' (U' R')')2", "F' F' R U F' F' R U");
    views("[(R U)': [F: D]2]'", "[(R U)': [F: D']2]'", "U' R' F D F' F D F' R U");
    views("[[R, U], F]'", "[F, [R, U]]'", "R U R' U' F U R U' R' F'");
    views("(R)0 [U2, F0]' .", ". [F0, U2]' (R')0", ". U2 F0 U2' F0");
    views("!(R++ (1,-2))2' &(/ @x)", "&(@x' /) !((-1, 2) R--)2'", "@x' / R++ (1, -2) R++ (1, -2)");
    views("([^(R): U])0 F", "F' ([^(R): U'])0", "F'");
    views("([(-2147483648,0), R])0 U", "U' ([R, (-2147483648, 0)])0", "U'");
    no_deep_view("(^(R))0 U", "U'", HYPUZ_REFUSED_NISS);
    no_deep_view("((-2147483648,0))0 U", "U'", HYPUZ_REFUSED_OVERFLOW);
}

/* The layer ranges of record 0, written as low-high with commas. */
static void ranges(const char *text, uint32_t layers, uint32_t negatives, const char *shown) {
    uint8_t tree[ROOM];
    size_t size = read_text(text, tree);
    uint8_t *out = lend();
    uint64_t n = hypuz_simplify(bytes(text), strlen(text), tree, size, 0, layers, negatives, out, ROOM);
    char list[256] = "";
    for (uint64_t i = 0; i < n && i < 16; i++)
        sprintf(list + strlen(list), "%s%u-%u", i ? "," : "", hypuz_range_low(out, i), hypuz_range_high(out, i));
    expect(strcmp(list, shown) == 0 && untouched(4 * n), "layer ranges", text);
    out = lend();
    expect(hypuz_simplify(bytes(text), strlen(text), tree, size, 0, layers, negatives, out, 4 * n) == n && untouched(4 * n), "layer ranges in an exact fit", text);
    if (n > 0) {
        out = lend();
        expect(hypuz_simplify(bytes(text), strlen(text), tree, size, 0, layers, negatives, out, 4 * n - 1) == refused(5) && untouched(0), "layer ranges in a short buffer", text);
    }
}

/* A tilde lights the layers that the same prefix without it does not. */
static void tildes(void) {
    ranges("~2R", 5, 0, "1-1,3-5");
    ranges("~R", 1, 0, "");
    ranges("~R", 2, 0, "2-2");
    ranges("~{5..9}R", 3, 0, "1-3");
    ranges("~{1,3,2,-1}R", 5, 1, "4-4");
    ranges("~{1,3,2,-1}R", 5, 0, "4-5");
    ranges("~{-1}R", 5, 0, "1-5");
    ranges("~{-1}R", 5, 7, "1-4");
    ranges("~{}R", 3, 0, "1-3");
    ranges("~9R", 3, 0, "1-3");
    ranges("~1-3R", 3, 0, "");
    ranges("~2-9R", 3, 0, "1-1");
    ranges("~{5..1}R", 5, 0, "");
    ranges("~{2,126}Rw{A}2'", 127, 0, "1-1,3-125,127-127");
    ranges("~{2,126}Rw{A}2'", 128, 0, "1-1,3-125,127-128");
    ranges("~32767R", 32767, 0, "1-32766");
    ranges("~{1}R", 32767, 0, "2-32767");
    uint8_t tree[ROOM];
    size_t size = read_text("(~2R)2 .", tree);
    uint8_t *out = lend();
    expect(hypuz_simplify(bytes("(~2R)2 ."), 8, tree, size, 1, 0, 0, out, 0) == refused(11) && untouched(0), "refusal 11 with a tilde", "0 layers");
    expect(hypuz_simplify(bytes("(~2R)2 ."), 8, tree, size, 1, 32768, 0, out, 0) == refused(11) && untouched(0), "refusal 11 with a tilde", "32,768 layers");
    expect(hypuz_simplify(bytes("(~2R)2 ."), 8, tree, size, 0, 5, 0, out, 0) == refused(12) && untouched(0), "refusal 12 beside a tilde", "a group");
    expect(hypuz_simplify(bytes("(~2R)2 ."), 8, tree, size, 1, 5, 0, out, 7) == refused(5) && untouched(0), "refusal 5 with a tilde", "room for one range and a half");
    expect(hypuz_simplify(bytes("(~2R)2 ."), 8, tree, size, 1, 5, 0, out, 8) == 2 && memcmp(out, "\0\1\0\1\0\3\0\5", 8) == 0 && untouched(8), "a tilde in a group", "(~2R)2 .");
}

enum { LAYERS = 32767, RANGES = (LAYERS + 1) / 2 };

/* Every second layer from `first` on as a layer set, on the longest axis: its answer is every second layer from `lit` on, `n` of them. */
static void every_second(const char *sign, int first, int lit, size_t n) {
    char *text = malloc(7 * RANGES + 9);
    size_t at = (size_t)sprintf(text, "%s{%d", sign, first);
    for (int layer = first + 2; layer <= LAYERS; layer += 2) at += (size_t)sprintf(text + at, ",%d", layer);
    at += (size_t)sprintf(text + at, "}R");
    uint8_t tree[HYPUZ_RECORD], *out = malloc(4 * RANGES + 1);
    expect(hypuz_parse_notation(bytes(text), at, features, tree, sizeof tree) == sizeof tree, "reading", "every second layer");
    memset(out, FILL, 4 * RANGES + 1);
    expect(hypuz_simplify(bytes(text), at, tree, sizeof tree, 0, LAYERS, 0, out, 4 * n - 1) == refused(5) && out[0] == FILL && memcmp(out, out + 1, 4 * RANGES) == 0, "refusal 5", "every second layer");
    expect(hypuz_simplify(bytes(text), at, tree, sizeof tree, 0, LAYERS, 0, out, 4 * n) == n && out[4 * n] == FILL, "as many ranges", "every second layer");
    int wrong = 0;
    for (size_t k = 0; k < n; k++) wrong += hypuz_range_low(out, k) != (unsigned)lit + 2 * k || hypuz_range_high(out, k) != hypuz_range_low(out, k);
    expect(!wrong, "each of them", "every second layer");
    free(text);
    free(out);
}

/* Every function that takes a tree refuses it with 6 and writes nothing, also where another refusal would follow. */
static void not_a_tree(const char *text, const uint8_t *tree, size_t size) {
    const uint8_t *t = bytes(text);
    size_t n = strlen(text);
    uint8_t *out = lend();
    for (size_t room = 0; room <= ROOM; room += ROOM) {
        expect(hypuz_display(t, n, tree, size, out, room) == refused(6) && untouched(0), "printing a wrong count", text);
        expect(hypuz_inv(t, n, tree, size, out, room) == refused(6) && untouched(0), "inverse of a wrong count", text);
        expect(hypuz_inv_deep(t, n, tree, size, out, room) == refused(6) && untouched(0), "deep inverse of a wrong count", text);
        expect(hypuz_flatten(t, n, tree, size, out, room) == refused(6) && untouched(0), "unrolling a wrong count", text);
        expect(hypuz_seek_step(t, n, tree, size, 0, out, room) == refused(6) && untouched(0), "seeking in a wrong count", text);
        expect(hypuz_seek_step(t, n, tree, size, UINT64_MAX, out, room) == refused(6) && untouched(0), "seeking past the end in a wrong count", text);
        expect(hypuz_simplify(t, n, tree, size, 0, 3, 1, out, room) == refused(6) && untouched(0), "layer ranges in a wrong count", text);
        expect(hypuz_simplify(t, n, tree, size, 99, 0, 1, out, room) == refused(6) && untouched(0), "layer ranges of nothing in a wrong count", text);
    }
    expect(hypuz_count_steps(t, n, tree, size) == refused(6), "counting a wrong count", text);
    expect(hypuz_family(t, n, tree, size, 0) == refused(6), "family in a wrong count", text);
    expect(hypuz_family(t, n, tree, size, 99) == refused(6), "family of nothing in a wrong count", text);
}

/* The counts that reading stores, record by record, and both inverses in their own order; then each of them wrong in turn. */
static void counts(const char *text, size_t n, const uint64_t *want, const uint64_t *inverse, const uint64_t *deep) {
    uint8_t tree[ROOM];
    size_t size = read_text(text, tree);
    expect(size == n * HYPUZ_RECORD, "records", text);
    for (size_t i = 0; i < n; i++) expect(hypuz_record_count(tree + i * HYPUZ_RECORD) == want[i], "the count that reading stores", text);
    uint8_t *out = lend();
    expect(hypuz_inv(bytes(text), strlen(text), tree, size, out, ROOM) == size, "inverse", text);
    for (size_t i = 0; i < n; i++) expect(hypuz_record_count(out + i * HYPUZ_RECORD) == inverse[i], "the count that the inverse stores", text);
    if (deep) {
        expect(hypuz_inv_deep(bytes(text), strlen(text), tree, size, out, ROOM) == size, "deep inverse", text);
        for (size_t i = 0; i < n; i++) expect(hypuz_record_count(out + i * HYPUZ_RECORD) == deep[i], "the count that the deep inverse stores", text);
    }
    for (size_t i = 0; i < n; i++) {
        uint8_t *record = tree + i * HYPUZ_RECORD;
        uint64_t others[] = {want[i] + 1, want[i] - 1, want[i] + 4294967296u, want[i] ^ (uint64_t)1 << 39};
        for (size_t k = 0; k < sizeof others / sizeof *others; k++) {
            store(record, others[k]);
            not_a_tree(text, tree, size);
        }
        store(record, want[i]);
    }
    expect(hypuz_refusal(hypuz_display(bytes(text), strlen(text), tree, size, lend(), ROOM)) == 0, "printing with the counts mended", text);
}

static void every_count(void) {
    const uint64_t cap = 4294967296u;
    counts("R0 ((U)3 [F, .]2')2 /", 8, (uint64_t[]){1, 22, 3, 1, 8, 1, 1, 1}, (uint64_t[]){1, 22, 3, 1, 8, 1, 1, 1}, (uint64_t[]){1, 22, 8, 1, 1, 3, 1, 1});
    counts("[(R)3: U F]'", 5, (uint64_t[]){8, 3, 1, 1, 1}, (uint64_t[]){8, 3, 1, 1, 1}, (uint64_t[]){8, 3, 1, 1, 1});
    counts("(^((R)3) U)2", 5, (uint64_t[]){2, 0, 3, 1, 1}, (uint64_t[]){2, 0, 3, 1, 1}, NULL);
    counts("((R)5)0 ()7", 4, (uint64_t[]){0, 5, 1, 0}, (uint64_t[]){0, 0, 5, 1}, (uint64_t[]){0, 0, 5, 1});
    counts("((R)65535)65537", 3, (uint64_t[]){cap - 1, 65535, 1}, (uint64_t[]){cap - 1, 65535, 1}, (uint64_t[]){cap - 1, 65535, 1});
    counts("(((R)65536)65536)2", 4, (uint64_t[]){cap, cap, 65536, 1}, (uint64_t[]){cap, cap, 65536, 1}, (uint64_t[]){cap, cap, 65536, 1});
    counts("(((R)65537)65537)0 U", 5, (uint64_t[]){0, cap, 65537, 1, 1}, (uint64_t[]){1, 0, cap, 65537, 1}, (uint64_t[]){1, 0, cap, 65537, 1});
}

static void refusals(void) {
    uint8_t tree[ROOM];
    uint8_t *out = lend();
    uint8_t *large = malloc(LIMIT + 1);
    memset(large, ' ', LIMIT + 1);
    expect(hypuz_parse_notation(large, LIMIT + 1, HYPUZ_WCA, out, ROOM) == refused(1) && untouched(0), "refusal 1", "16,777,216 spaces");
    expect(hypuz_parse_notation(large, LIMIT, HYPUZ_WCA, out, ROOM) == 0 && untouched(0), "reading", "16,777,215 spaces");
    expect(hypuz_count_steps(large, LIMIT + 1, tree, 0) == refused(1), "refusal 1", "16,777,216 spaces");
    free(large);
    expect(hypuz_parse_notation(bytes("\xff"), 1, HYPUZ_WCA, out, ROOM) == refused(2) && untouched(0), "refusal 2", "FF");
    char deep[66] = "";
    memset(deep, '(', 65);
    expect(hypuz_parse_notation(bytes(deep), 65, HYPUZ_WCA, out, ROOM) == refused(3) && untouched(0), "refusal 3", "65 parentheses");
    expect(hypuz_parse_notation(bytes("R)"), 2, HYPUZ_WCA, out, ROOM) == refused(4) && untouched(0), "refusal 4", "R)");
    expect(hypuz_parse_notation(bytes("@R"), 2, HYPUZ_WCA, out, ROOM) == refused(4) && untouched(0), "a feature that is off", "@R");
    expect(hypuz_parse_notation(bytes("@R"), 2, HYPUZ_GENERALIZED_ROTATIONS | 0xffffff00u, out, ROOM) == HYPUZ_RECORD, "higher bits of features", "@R");
    out = lend();
    memset(tree, 0, sizeof tree);
    tree[0] = 0xf0;
    store(tree, 1);
    expect(hypuz_display(bytes("R"), 1, tree, HYPUZ_RECORD, out, ROOM) == refused(6) && untouched(0), "refusal 6", "kind 15");
    expect(hypuz_inv(bytes("R"), 1, tree, HYPUZ_RECORD - 1, out, ROOM) == refused(6) && untouched(0), "refusal 6", "a byte short of a record");
    size_t size = read_text("^(R)0", tree);
    expect(hypuz_count_steps(bytes("^(R)0"), 5, tree, size) == refused(7), "refusal 7", "^(R)0");
    expect(hypuz_flatten(bytes("^(R)0"), 5, tree, size, out, ROOM) == refused(7) && untouched(0), "refusal 7", "^(R)0");
    size = read_text("(-2147483648,0)", tree);
    expect(hypuz_inv(bytes("(-2147483648,0)"), 15, tree, size, out, ROOM) == refused(8) && untouched(0), "refusal 8", "(-2147483648,0)");
    size = read_text("((R)65536)65536", tree);
    expect(hypuz_count_steps(bytes("((R)65536)65536"), 15, tree, size) == refused(9), "refusal 9", "((R)65536)65536");
    size = read_text("((R)65535)65537", tree);
    expect(hypuz_count_steps(bytes("((R)65535)65537"), 15, tree, size) == 4294967295u, "counting", "((R)65535)65537");
    expect(hypuz_seek_step(bytes("((R)65535)65537"), 15, tree, size, 4294967294u, out, HYPUZ_RECORD) == HYPUZ_RECORD, "seeking the last step", "((R)65535)65537");
    out = lend();
    expect(hypuz_seek_step(bytes("((R)65535)65537"), 15, tree, size, 4294967295u, out, HYPUZ_RECORD) == refused(10) && untouched(0), "refusal 10", "((R)65535)65537");
    size = read_text(". R", tree);
    expect(hypuz_simplify(bytes(". R"), 3, tree, size, 1, 0, 1, out, ROOM) == refused(11) && untouched(0), "refusal 11", "0 layers");
    expect(hypuz_simplify(bytes(". R"), 3, tree, size, 1, 32768, 1, out, ROOM) == refused(11) && untouched(0), "refusal 11", "32,768 layers");
    expect(hypuz_simplify(bytes(". R"), 3, tree, size, 0, 3, 1, out, ROOM) == refused(12) && untouched(0), "refusal 12", "layers of a pause");
    expect(hypuz_simplify(bytes(". R"), 3, tree, size, 2, 3, 1, out, ROOM) == refused(12) && untouched(0), "refusal 12", "no such record");
    expect(hypuz_family(bytes(". R"), 3, tree, size, 0) == refused(12), "refusal 12", "family of a pause");
    expect(hypuz_family(bytes(". R"), 3, tree, size, UINT64_MAX) == refused(12), "refusal 12", "family of no record");
    expect(hypuz_family(bytes(". R"), 3, tree, size, 1) == (2 << 24) + 1, "family", ". R");
}

#define RIGHT "\xe2\x80\x99"
#define PRIME "\xe2\x80\xb2"

/* A text that is refused with some number in a setting, and nothing written. */
static void not_read(const char *text, uint32_t setting, uint64_t number, const char *what) {
    uint8_t *out = lend();
    expect(hypuz_parse_notation(bytes(text), strlen(text), setting, out, ROOM) == refused(number) && untouched(0), what, text);
}

/* Curly primes, which only a flag of their own admits. */
static void curly_primes(void) {
    static const uint32_t without[] = {0, HYPUZ_WCA, HYPUZ_MAXIMAL, ~HYPUZ_CURLY_PRIMES}, with[] = {HYPUZ_CURLY_PRIMES, HYPUZ_WCA | HYPUZ_CURLY_PRIMES, HYPUZ_MAXIMAL | HYPUZ_CURLY_PRIMES, UINT32_MAX};
    static const char *const turns[] = {"R" RIGHT, "R" PRIME}, *const cuts[] = {"R\xe2", "R\xe2\x80", "R\x80\x99", "R\xb2", "R\xe2\x80'"},
                      *const wrong[] = {RIGHT, "R" RIGHT PRIME, "R'" PRIME, "R" RIGHT "'", "R" RIGHT "2", "(1,0)" PRIME, "R++" RIGHT, "R" PRIME "U", "R{A" RIGHT "}", "R\xe2\x80\x98", "R\xe2\x80\xb3"};
    uint8_t straight[HYPUZ_RECORD];
    hypuz_parse_notation(bytes("R'"), 2, HYPUZ_MAXIMAL, straight, sizeof straight);
    for (size_t t = 0; t < 2; t++) {
        for (size_t k = 0; k < sizeof without / sizeof *without; k++) not_read(turns[t], without[k], 4, "a curly prime without the flag");
        for (size_t k = 0; k < sizeof with / sizeof *with; k++) {
            uint8_t *out = lend();
            expect(hypuz_parse_notation(bytes(turns[t]), 4, with[k], out, HYPUZ_RECORD) == HYPUZ_RECORD && memcmp(out, straight, sizeof straight) == 0 && untouched(HYPUZ_RECORD),
                   "a curly prime with the flag", turns[t]);
        }
    }
    for (size_t k = 0; k < sizeof cuts / sizeof *cuts; k++) not_read(cuts[k], UINT32_MAX, 2, "a cut sign");
    for (size_t k = 0; k < sizeof wrong / sizeof *wrong; k++) not_read(wrong[k], UINT32_MAX, 4, "a sign that no multiplier takes");
    features = HYPUZ_MAXIMAL | HYPUZ_CURLY_PRIMES;
    item("R U" RIGHT, "R U'", "U R'", "U R'", 0, "R U'", 2);
    item("[R, U]" PRIME, "[R, U]'", "[R, U]", "[U, R]'", 0, "U R U' R'", 4);
    item("[R" RIGHT ": U2" PRIME " F]'", "[R': U2' F]'", "[R': U2' F]", "[R': F' U2]'", 0, "R' F' U2 R", 4);
    item("(R U'  F0" PRIME ")2" RIGHT, "(R U' F0)2'", "(R U' F0)2", "(F0 U R')2'", 0, "F0 U R' F0 U R'", 6);
    item("~{1-3,-2}R{a->b}3" RIGHT " @{}" PRIME " {2}U{c}", "~{1..3,-2}R{a->b}3' @{}' {2}U{c}", "{2}U{c}' @{} ~{1..3,-2}R{a->b}3", "{2}U{c}' @{} ~{1..3,-2}R{a->b}3", 0, "~{1..3,-2}R{a->b}3' @{}' {2}U{c}", 3);
    uint8_t tree[ROOM];
    const char *text = "R" RIGHT " (U" PRIME ")" RIGHT " \xce\xb2";
    size_t size = read_text(text, tree);
    expect(hypuz_family(bytes(text), strlen(text), tree, size, 2) == (6 << 24) + 1, "a family behind a sign", text);
    expect(hypuz_family(bytes(text), strlen(text), tree, size, 3) == (15 << 24) + 2, "a family behind three signs", text);
    features = HYPUZ_MAXIMAL;
}

/* The examples that the header gives for its functions, beside those of `main`, and what it says of the ends of a text. */
static void examples(void) {
    item("(R U)2 [F, D]", "(R U)2 [F, D]", "[F, D]' (R U)2'", "[D, F] (U' R')2", 0, "R U R U F D F' D'", 8);
    item("(R U)2' [F, D]", "(R U)2' [F, D]", "[F, D]' (R U)2", "[D, F] (U' R')2'", 0, "U' R' U' R' F D F' D'", 8);
    item("(R1  U)02\n", "(R U)2", "(R U)2'", "(U' R')2", 0, "R U R U", 4);
    item("{1-2, 3}R{A -> B}", "{1..2,3}R{A->B}", "{1..2,3}R{A->B}'", "{1..2,3}R{A->B}'", 0, "{1..2,3}R{A->B}", 1);
    item("([^(R), ()])0", "([^(R), ()])0", "([^(R), ()])0", "([(), ^(R)])0", 0, "", 0);
    ranges("{4..-4}R", 3, 1, "1-3");
    ranges("{-1..2}R", 5, 1, "2-5");
    ranges("{-9..2}R", 5, 1, "1-2");
    ranges("{6..9}R", 5, 1, "");
    item("3-1R 2-2U R0' {03..1}F", "1-3R 2-2U R0 {3..1}F", "{3..1}F' R0 2-2U' 1-3R'", "{3..1}F' R0 2-2U' 1-3R'", 0, "1-3R 2-2U R0 {3..1}F", 4);
    ranges("{-2}R", 3, 1, "2-2");
    ranges("{1,3,2,-1}R", 5, 0, "1-3");
    ranges("Rw", 5, 1, "1-1");
    ranges("M", 5, 1, "1-1");
    ranges("3Rw", 5, 1, "3-3");
    uint8_t tree[ROOM], *out = lend();
    size_t size = read_text("[R: U2 F]'", tree);
    expect(size == 4 * HYPUZ_RECORD, "four records", "[R: U2 F]'");
    size = read_text("R (Uw)", tree);
    struct hypuz_span family = hypuz_family_span(hypuz_family(bytes("R (Uw)"), 6, tree, size, 2)), same = hypuz_record_family(hypuz_record_at(tree, 2));
    expect(family.offset == 3 && family.length == 2 && same.offset == 3 && same.length == 2, "a family", "R (Uw)");
    size = read_text("^(R)", tree);
    expect(hypuz_inv(bytes("^(R)"), 4, tree, size, out, ROOM) == size && hypuz_record_multiplier(out) == -1, "a NISS group with the other sign", "^(R)");
    memcpy(tree, out, size);
    prints("^(R)", tree, size, "^(R)'");
    out = lend();
    expect(hypuz_parse_notation(bytes("R"), 2, HYPUZ_MAXIMAL, out, ROOM) == refused(HYPUZ_REFUSED_NOT_NOTATION) && untouched(0), "a zero byte at the end", "R");
    expect(hypuz_parse_notation(bytes("\xef\xbb\xbfR"), 4, HYPUZ_MAXIMAL, out, ROOM) == refused(HYPUZ_REFUSED_NOT_NOTATION) && untouched(0), "a byte order mark", "R");
    char pairs[400] = "";
    for (int k = 0; k < 64; k++) strcat(pairs, "(");
    strcat(pairs, "(1,2)");
    expect(hypuz_parse_notation(bytes(pairs), strlen(pairs), HYPUZ_MAXIMAL, out, ROOM) == refused(HYPUZ_REFUSED_TOO_NESTED) && untouched(0), "a pair inside 64 groups", pairs);
    expect(hypuz_parse_notation(bytes(pairs), 64, HYPUZ_MAXIMAL, out, ROOM) == refused(HYPUZ_REFUSED_NOT_NOTATION) && untouched(0), "64 open brackets", pairs);
    *pairs = ')';
    expect(hypuz_parse_notation(bytes(pairs), strlen(pairs), HYPUZ_MAXIMAL, out, ROOM) == refused(HYPUZ_REFUSED_NOT_NOTATION) && untouched(0), "63 more that open than close", pairs);
}

int main(void) {
    examples();
    item("", "", "", "", 0, "", 0);
    item("R U'", "R U'", "U R'", "U R'", 0, "R U'", 2);
    item("[R, U]", "[R, U]", "[R, U]'", "[U, R]", 0, "R U R' U'", 4);
    item("[R, U]'", "[R, U]'", "[R, U]", "[U, R]'", 0, "U R U' R'", 4);
    item("[R: U2 F]'", "[R: U2 F]'", "[R: U2 F]", "[R: F' U2']'", 0, "R F' U2' R'", 4);
    item("(R U')2'", "(R U')2'", "(R U')2", "(U R')2'", 0, "U R' U R'", 4);
    item("(^(R))0", "(^(R))0", "(^(R))0", NULL, 7, "", 0);
    item("R++ (1,-2) / .", "R++ (1, -2) / .", ". / (-1, 2) R--", ". / (-1, 2) R--", 0, "R++ (1, -2) / .", 4);
    item("~{1-3,-2}R{a->b}3' @{}", "~{1..3,-2}R{a->b}3' @{}", "@{}' ~{1..3,-2}R{a->b}3", "@{}' ~{1..3,-2}R{a->b}3", 0, "~{1..3,-2}R{a->b}3' @{}", 2);
    ranges("{1,3,2,-1}R", 5, 1, "1-3,5-5");
    ranges("{2..9}R", 3, 0, "2-3");
    ranges("{5..9}R", 3, 0, "");
    ranges("R", 3, 0, "1-1");
    tildes();
    every_second("", 1, 1, RANGES);
    every_second("~", 2, 1, RANGES);
    every_second("", 2, 2, RANGES - 1);
    every_second("~", 1, 2, RANGES - 1);
    refusals();
    every_count();
    undo_views();
    curly_primes();
    printf("%d checks, %d failed\n", checks, failures);
    return failures != 0;
}
