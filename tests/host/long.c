/* Calls every function on texts at the limit of 16,777,215 bytes and one byte past it. One text has a printed inverse that is at the limit too: both have n steps,
 * and step n - 1 - k of the inverse, read back, is step k undone (demand 3 of document 01). Of another the printed shallow inverse is past the limit and the deep one is not (document 02,
 * request 13). What is expected is put together here, by hand.
 * Run it with a small stack (`ulimit -s 256`): tests/host/run.sh does. */
#include "hypuz_notation.h"

#include <stdio.h>
#include <stdlib.h>
#include <string.h>

enum { LIMIT = 16777215, PAIRS = 3355443, STEPS = 2 * PAIRS, MANY = LIMIT / 2 + 1, FILL = 0xa5, TILDE = 8 }; /* TILDE: its bit in the first byte of a record */

static int checks, failures;
static uint8_t *text, *other, *tree, *out, *back;
static const size_t room = (size_t)MANY * HYPUZ_RECORD;

static void expect(int holds, const char *what) {
    checks++;
    if (!holds) {
        failures++;
        printf("failed: %s\n", what);
    }
}

static uint64_t refused(uint64_t number) { return number << 56; }

/* Fills a text with copies of a word, as many as fit whole, and spaces; answers how many copies. */
static size_t fill(uint8_t *to, size_t size, const char *word) {
    size_t n = strlen(word), copies = size / n;
    for (size_t i = 0; i < copies; i++) memcpy(to + i * n, word, n);
    memset(to + copies * n, ' ', size - copies * n);
    return copies;
}

static size_t put(uint8_t *to, const char *word) {
    memcpy(to, word, strlen(word));
    return strlen(word);
}

static uint64_t reads(const uint8_t *from, size_t size, uint8_t *to) { return hypuz_parse_notation(from, size, HYPUZ_MAXIMAL, to, room); }

/* Every function on a text and tree that all of them refuse alike; no lent byte is touched. */
static void all_refuse(size_t size, size_t records, uint64_t number, const char *what) {
    size_t bytes = records * HYPUZ_RECORD;
    memset(out, FILL, 100);
    expect(hypuz_count_steps(text, size, tree, bytes) == refused(number), what);
    expect(hypuz_seek_step(text, size, tree, bytes, 0, out, 100) == refused(number), what);
    expect(hypuz_inv(text, size, tree, bytes, out, 100) == refused(number), what);
    expect(hypuz_inv_deep(text, size, tree, bytes, out, 100) == refused(number), what);
    expect(hypuz_display(text, size, tree, bytes, out, 100) == refused(number), what);
    expect(hypuz_flatten(text, size, tree, bytes, out, 100) == refused(number), what);
    expect(hypuz_simplify(text, size, tree, bytes, 9, 0, 0, out, 100) == refused(number), what);
    expect(hypuz_family(text, size, tree, bytes, 9) == refused(number), what);
    int touched = 0;
    for (int i = 0; i < 100; i++) touched += out[i] != FILL;
    expect(!touched, what);
}

/* Refusal 1 begins past the limit, and comes before 2 and 6. */
static void limit(void) {
    memset(text, ' ', LIMIT + 1);
    memset(tree, 0xf0, HYPUZ_RECORD); /* no kind */
    expect(reads(text, LIMIT, tree) == 0, "16,777,215 spaces are read");
    expect(reads(text, LIMIT + 1, tree) == refused(1), "16,777,216 spaces are refused 1");
    expect(hypuz_count_steps(text, LIMIT, tree, 0) == 0, "and count 0");
    all_refuse(LIMIT + 1, 0, 1, "refusal 1");
    all_refuse(LIMIT + 1, 1, 1, "refusal 1 before 6");
    all_refuse(LIMIT, 1, 6, "refusal 6 at the limit");
    text[LIMIT - 1] = 0xff;
    all_refuse(LIMIT + 1, 0, 1, "refusal 1 before 2");
    all_refuse(LIMIT, 1, 2, "refusal 2 at the limit");
    expect(reads(text, LIMIT, tree) == refused(2), "reading: refusal 2 at the limit");
    memset(text, '(', 65);
    text[LIMIT - 1] = ' ';
    expect(reads(text, LIMIT, tree) == refused(3), "reading: refusal 3 at the limit");
    memset(text, ' ', 65);
    text[LIMIT - 1] = ')';
    expect(reads(text, LIMIT, tree) == refused(4), "reading: refusal 4 by the last byte");
}

/* A step's record, printed over its text, is this word. */
static void shown(const uint8_t *over, size_t size, const uint8_t *step, const char *word, const char *what) {
    uint8_t line[16];
    size_t n = strlen(word);
    expect(hypuz_display(over, size, step, HYPUZ_RECORD, line, sizeof line) == n && memcmp(line, word, n) == 0, what);
}

/* `R U'` so often that text and printed inverse are both at the limit: the last move has a longer name. */
static void demand_3(void) {
    static const size_t places[] = {0, 1, 2, 65534, 65535, 65536, 65537, PAIRS, STEPS - 3, STEPS - 2, STEPS - 1};
    fill(text, LIMIT, "R U' ");
    memcpy(text + LIMIT - 5, "R Uw'", 5);
    size_t size = (size_t)STEPS * HYPUZ_RECORD;
    expect(reads(text, LIMIT, tree) == size, "a text at the limit is read");
    expect(hypuz_display(text, LIMIT, tree, size, other, LIMIT) == LIMIT && memcmp(other, text, LIMIT) == 0, "and printed as it was");
    expect(hypuz_inv(text, LIMIT, tree, size, back, room) == size, "inverted");
    expect(hypuz_display(text, LIMIT, back, size, other, LIMIT) == LIMIT, "the inverse printed, at the limit");
    fill(out, LIMIT, "U R' ");
    memmove(out + 1, out, LIMIT - 1);
    memcpy(out, "Uw", 2);
    expect(memcmp(other, out, LIMIT) == 0, "as it should be");
    expect(reads(other, LIMIT, back) == size, "the inverse read back");
    expect(hypuz_count_steps(text, LIMIT, tree, size) == STEPS && hypuz_count_steps(other, LIMIT, back, size) == STEPS, "both count n");
    expect(hypuz_flatten(text, LIMIT, tree, size, out, size) == size && memcmp(out, tree, size) == 0, "unrolled");
    for (size_t i = 0; i < sizeof places / sizeof *places; i++) {
        uint8_t step[HYPUZ_RECORD], undone[HYPUZ_RECORD];
        size_t k = places[i];
        expect(hypuz_seek_step(text, LIMIT, tree, size, k, step, sizeof step) == sizeof step && memcmp(step, out + k * HYPUZ_RECORD, sizeof step) == 0, "seeking gives the list's step");
        expect(hypuz_seek_step(other, LIMIT, back, size, STEPS - 1 - k, undone, sizeof undone) == sizeof undone, "seeking in the inverse");
        shown(text, LIMIT, step, k == STEPS - 1 ? "Uw'" : k % 2 ? "U'" : "R", "the step");
        shown(other, LIMIT, undone, k == STEPS - 1 ? "Uw" : k % 2 ? "U" : "R'", "the step undone");
    }
    expect(hypuz_seek_step(text, LIMIT, tree, size, STEPS, out, room) == refused(10), "refusal 10 at n");
    expect(hypuz_inv(text, LIMIT, tree, size, out, size - 1) == refused(5) && hypuz_display(text, LIMIT, tree, size, out, LIMIT - 1) == refused(5), "refusal 5, a byte short");
}

/* As many records as a text can have but one; the printed inverse is past the limit and is not read back. */
static void many(void) {
    fill(text, LIMIT, "R ");
    text[LIMIT - 1] = 'U';
    expect(reads(text, LIMIT, tree) == room, "8,388,608 records");
    expect(hypuz_inv(text, LIMIT, tree, room, back, room) == room, "inverted");
    expect(hypuz_display(text, LIMIT, back, room, out, room) == 3 * (uint64_t)MANY - 1, "the inverse printed, past the limit");
    expect(reads(out, 3 * (size_t)MANY - 1, back) == refused(1), "is refused 1");
    expect(hypuz_family(text, LIMIT, tree, room, MANY - 1) == ((uint64_t)(LIMIT - 1) << 24 | 1), "the last family");
}

/* `(R')` and `(U)` as often as the text has room for, three of the first to one of the second. The shallow inverse gives each a prime and is past the limit; the deep one takes three
 * primes away for each that it adds, is read back, and plays what the shallow inverse, as a tree over the text, plays. */
static void undo_view(void) {
    static const char four[] = "(R') (R') (R') (U) ";
    size_t word = strlen(four), groups = 4 * (LIMIT / word), size = 2 * groups * HYPUZ_RECORD;
    size_t begins = LIMIT / word * word - 1, shallow = begins + groups, deep = begins - groups / 2;
    expect(fill(text, LIMIT, four) * 4 == groups && reads(text, LIMIT, tree) == size, "groups up to the limit");
    expect(hypuz_inv(text, LIMIT, tree, size, back, room) == size && hypuz_display(text, LIMIT, back, size, out, room) == shallow, "the shallow inverse printed, past the limit");
    expect(shallow > LIMIT && hypuz_parse_notation(out, shallow, HYPUZ_MAXIMAL, other, LIMIT) == refused(1), "is refused 1");
    for (size_t k = 0; k < groups; k += groups / 7) {
        expect(hypuz_seek_step(text, LIMIT, back, size, k, out, HYPUZ_RECORD) == HYPUZ_RECORD, "its tree is sought in all the same");
        shown(text, LIMIT, out, k % 4 ? "R" : "U'", "and plays the step undone");
    }
    expect(hypuz_inv_deep(text, LIMIT, tree, size, back, room) == size && hypuz_display(text, LIMIT, back, size, other, LIMIT) == deep, "the deep inverse printed, below the limit");
    expect(hypuz_inv_deep(text, LIMIT, back, size, out, room) == size && memcmp(out, tree, size) == 0, "deeply inverted twice");
    fill(out, deep + 1, "(U') (R) (R) (R) ");
    expect(memcmp(other, out, deep) == 0, "as it should be");
    expect(reads(other, deep, back) == size && hypuz_count_steps(other, deep, back, size) == groups, "read back, with as many steps");
    for (size_t k = 0; k < groups; k += groups / 7) {
        expect(hypuz_seek_step(other, deep, back, size, k, out, HYPUZ_RECORD) == HYPUZ_RECORD, "seeking in it");
        shown(other, deep, out, k % 4 ? "R" : "U'", "plays the same step");
    }
}

/* A group of five million moves, half of them R and half U, with a separator between the halves where it has two lists. */
static void group(const char *middle, const char *end, uint64_t n, uint64_t place, const char *word) {
    size_t half = 2500000, at = 1, records = 1 + 2 * half;
    memset(text, ' ', LIMIT);
    text[0] = *middle ? '[' : '(';
    at += 2 * fill(text + at, 2 * half, "R ");
    at += put(text + at, middle);
    at += 2 * fill(text + at, 2 * half, "U ");
    put(text + at, end);
    uint64_t size = reads(text, LIMIT, tree);
    uint8_t step[HYPUZ_RECORD];
    expect(size == records * HYPUZ_RECORD, "a group of five million moves");
    expect(hypuz_count_steps(text, LIMIT, tree, size) == n, "its steps");
    expect(hypuz_seek_step(text, LIMIT, tree, size, place, step, sizeof step) == sizeof step, "one of them");
    shown(text, LIMIT, step, word, "the right one");
    expect(hypuz_inv(text, LIMIT, tree, size, back, room) == size && hypuz_inv(text, LIMIT, back, size, out, room) == size && memcmp(out, tree, size) == 0, "inverted twice");
    expect(hypuz_inv_deep(text, LIMIT, tree, size, back, room) == size && hypuz_inv_deep(text, LIMIT, back, size, out, room) == size && memcmp(out, tree, size) == 0, "deeply inverted twice");
}

#define RIGHT "\xe2\x80\x99"
#define PRIME "\xe2\x80\xb2"
enum { SIGNS = LIMIT / 5 }; /* `R` with a curly prime and a space takes five bytes, and the limit is a multiple of them */

static uint64_t reads_curly(const uint8_t *from, size_t size, uint8_t *to) { return hypuz_parse_notation(from, size, HYPUZ_MAXIMAL | HYPUZ_CURLY_PRIMES, to, room); }

/* Curly primes are three bytes long, and the limit is one on the text as given: at the limit, and past it where the text with apostrophes is far from it. */
static void signs(void) {
    size_t size = (size_t)SIGNS * HYPUZ_RECORD, printed = 3 * (size_t)SIGNS - 1;
    fill(text, LIMIT, "R" PRIME " ");
    expect(reads_curly(text, LIMIT, tree) == size, "signs up to the limit are read");
    expect(reads(text, LIMIT, out) == refused(4), "and refused 4 without the flag");
    expect(hypuz_family(text, LIMIT, tree, size, SIGNS - 1) == ((uint64_t)(LIMIT - 5) << 24 | 1), "the last family, behind three million signs");
    expect(hypuz_count_steps(text, LIMIT, tree, size) == SIGNS, "as many steps");
    expect(hypuz_display(text, LIMIT, tree, size, other, LIMIT) == printed, "printed with apostrophes");
    fill(back, printed, "R' ");
    memcpy(back + printed - 2, "R'", 2);
    expect(memcmp(other, back, printed) == 0, "all of them");
    expect(reads(other, printed, out) == size, "and read back without the flag");
    expect(hypuz_inv(text, LIMIT, tree, size, back, room) == size && hypuz_display(text, LIMIT, back, size, other, LIMIT) == 2 * (size_t)SIGNS - 1, "the inverse");
    text[LIMIT] = ' ';
    expect(reads_curly(text, LIMIT + 1, out) == refused(1) && reads(text, LIMIT + 1, out) == refused(1), "a byte more is refused 1, with the flag and without");
    all_refuse(LIMIT + 1, 0, 1, "refusal 1 of a text with signs");
    all_refuse(LIMIT + 1, SIGNS, 1, "refusal 1 of a text with signs and its tree");
    fill(text, LIMIT - 2, "R' ");
    memcpy(text + LIMIT - 2, "R'", 2);
    expect(reads_curly(text, LIMIT, tree) == reads(text, LIMIT, out) && !hypuz_refusal(reads(text, LIMIT, out)), "with apostrophes the flag changes nothing");
    text[LIMIT - 1] = 0xe2, text[LIMIT] = 0x80;
    expect(reads_curly(text, LIMIT, out) == refused(2) && reads_curly(text, LIMIT + 1, out) == refused(1), "a sign that is cut at the limit, and past it");
}

/* Parts behind millions of signs, near the limit, and one sign that is the text's last character. */
static void behind_signs(void) {
    static const char word[] = "~{2,4..5}Rw{A,B}" RIGHT;
    size_t n = strlen(word), before = LIMIT - n, records = before / 5 + 1, size = records * HYPUZ_RECORD;
    fill(text, before, "U" RIGHT " ");
    put(text + before, word);
    expect(reads_curly(text, LIMIT, tree) == size, "parts behind signs, at the limit");
    const uint8_t *last = tree + size - HYPUZ_RECORD;
    expect(hypuz_family(text, LIMIT, tree, size, records - 1) == ((uint64_t)(before + 9) << 24 | 2), "the family");
    expect(hypuz_display(text, LIMIT, last, HYPUZ_RECORD, out, 17) == 17 && memcmp(out, "~{2,4..5}Rw{A,B}'", 17) == 0, "all its parts");
    expect(hypuz_simplify(text, LIMIT, tree, size, records - 1, 9, 0, out, 12) == 3 && memcmp(out, "\0\1\0\1\0\3\0\3\0\6\0\11", 12) == 0, "the layers that its set leaves");
    expect(hypuz_seek_step(text, LIMIT, tree, size, records - 1, out, HYPUZ_RECORD) == HYPUZ_RECORD && memcmp(out, last, HYPUZ_RECORD) == 0, "and the step");
    expect(hypuz_display(text, LIMIT, tree + (records / 2) * HYPUZ_RECORD, HYPUZ_RECORD, out, 2) == 2 && memcmp(out, "U'", 2) == 0, "and one in the middle");
}

/* 64 groups with a sign after each around three million signs; with one more bracket it is refused 3. */
static void deep_signs(const char *open, const char *close, size_t levels, const char *what) {
    size_t at = 0, moves = 3000000;
    memset(text, ' ', LIMIT);
    for (size_t k = 0; k < levels; k++) at += put(text + at, open);
    at += 5 * fill(text + at, 5 * moves, "R" RIGHT " ");
    for (size_t k = 0; k < levels; k++) at += put(text + at, close);
    uint64_t a = reads_curly(text, LIMIT, tree), size = (moves + levels) * HYPUZ_RECORD;
    expect(a == (levels > 64 ? refused(3) : size), what);
    expect(levels > 64 || hypuz_family(text, LIMIT, tree, size, levels) == ((uint64_t)(levels * strlen(open)) << 24 | 1), what);
    expect(levels > 64 || *open == '[' || hypuz_count_steps(text, LIMIT, tree, size) == moves, what);
}

/* Parts as long as the text, and parts at its end. */
static void parts(void) {
    memset(text, 'R', LIMIT);
    expect(reads(text, LIMIT, tree) == HYPUZ_RECORD && hypuz_family(text, LIMIT, tree, HYPUZ_RECORD, 0) == LIMIT, "a family of the whole text");
    text[0] = '@';
    expect(reads(text, LIMIT, tree) == HYPUZ_RECORD && hypuz_family(text, LIMIT, tree, HYPUZ_RECORD, 0) == ((uint64_t)1 << 24 | (LIMIT - 1)), "and of all but its first byte");
    memset(text, ' ', LIMIT);
    memcpy(text + LIMIT - 17, "~{2,4..5}Rw{A,B}'", 17);
    expect(reads(text, LIMIT, tree) == HYPUZ_RECORD && hypuz_family(text, LIMIT, tree, HYPUZ_RECORD, 0) == ((uint64_t)(LIMIT - 8) << 24 | 2), "a family near the end");
    expect(hypuz_display(text, LIMIT, tree, HYPUZ_RECORD, out, 17) == 17 && memcmp(out, text + LIMIT - 17, 17) == 0, "all parts at the end, printed");
    expect(hypuz_simplify(text, LIMIT, tree, HYPUZ_RECORD, 0, 9, 0, out, 12) == 3 && memcmp(out, "\0\1\0\1\0\3\0\3\0\6\0\11", 12) == 0, "and the layers that the set leaves");
    size_t from = put(text, "~{"), elements = 8000000;
    for (size_t i = 0; i < elements; i++) text[from + 2 * i] = "1357"[i % 4], text[from + 2 * i + 1] = i + 1 < elements ? ',' : '}';
    memset(text + from + 2 * elements, ' ', LIMIT - from - 2 * elements);
    put(text + from + 2 * elements, "R{A}");
    expect(reads(text, LIMIT, tree) == HYPUZ_RECORD, "a set of eight million elements");
    expect(hypuz_simplify(text, LIMIT, tree, HYPUZ_RECORD, 0, 6, 1, out, 12) == 3 && memcmp(out, "\0\2\0\2\0\4\0\4\0\6\0\6", 12) == 0, "the layers that it leaves");
    expect(hypuz_simplify(text, LIMIT, tree, HYPUZ_RECORD, 0, 7, 1, out, 12) == 3 && hypuz_simplify(text, LIMIT, tree, HYPUZ_RECORD, 0, 7, 1, out, 11) == refused(5), "of seven layers three");
    expect(hypuz_simplify(text, LIMIT, tree, HYPUZ_RECORD, 0, 32767, 1, out, 16) == 4 && memcmp(out + 12, "\0\10\177\377", 4) == 0, "of the longest axis four");
    tree[0] ^= TILDE;
    expect(hypuz_simplify(text, LIMIT, tree, HYPUZ_RECORD, 0, 6, 1, out, 100) == 3 && memcmp(out, "\0\1\0\1\0\3\0\3\0\5\0\5", 12) == 0, "its layers without the tilde");
    tree[0] ^= TILDE;
    expect(hypuz_display(text, LIMIT, tree, HYPUZ_RECORD, out, room) == from + 2 * elements + 4 && memcmp(out, text, from + 2 * elements + 4) == 0, "and its text");
}

int main(void) {
    text = malloc(LIMIT + 1), other = malloc(LIMIT), tree = malloc(room), out = malloc(room), back = malloc(room);
    if (!text || !other || !tree || !out || !back) return 2;
    limit();
    demand_3();
    many();
    undo_view();
    group("", ")2'", 10000000, 2499999, "U'");
    group("", ")2'", 10000000, 2500000, "R'");
    group(",", "]", 10000000, 7499999, "R'");
    group(",", "]'", 10000000, 7500000, "R'");
    group(":", "]3'", 22500000, 7500000 + 4999999, "U'");
    parts();
    signs();
    behind_signs();
    deep_signs("(", ")" PRIME, 64, "64 groups with signs");
    deep_signs("(", ")" PRIME, 65, "65 groups with signs");
    deep_signs("[", ",]0" RIGHT, 64, "64 commutators with signs");
    deep_signs("[", ",]0" RIGHT, 65, "65 commutators with signs");
    printf("%d checks at the limit, %d failed\n", checks, failures);
    return failures != 0;
}
