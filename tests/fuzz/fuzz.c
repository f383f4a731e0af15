/* A libFuzzer target: text, tree, places and buffer length come from the input; every C function is called on them. Text, tree and each lent
 * buffer end at a page that may not be touched, so that a read or write past them stops the run; guard bytes stand before a buffer. The
 * archive itself is compiled without AddressSanitizer, which sees only this file and the calls into libc. */
#include "hypuz_notation.h"

#include <stdio.h>
#include <stdlib.h>
#include <string.h>
#include <sys/mman.h>
#include <unistd.h>

/* STEPS: lists that fit into the region for buffers. COUNT: a record ends with its count, so many bytes. */
enum { GUARD = 64, MOST = 1 << 16, OUTS = 1 << 14, STEPS = (OUTS - GUARD) / HYPUZ_RECORD, COUNT = 5, LAYERS = 32767 };
/* The tilde in the first byte of a move's record. */
enum { TILDE = 8 };

static void demand(int holds, const char *what) {
    if (!holds) {
        fprintf(stderr, "does not hold: %s\n", what);
        abort();
    }
}

/* What the archive did, told to libFuzzer in place of its branches: answers of each function, first bytes of the records read, sizes. */
__attribute__((section("__libfuzzer_extra_counters"))) static uint8_t seen[16 * 16 + 256 + 64 + 64];

/* The same answers counted over the whole run, printed at its end. */
static const char *const functions[] = {"parse_notation", "display", "inv", "inv_deep", "count_steps", "flatten", "seek_step", "simplify", "family", "parse_notation of signs", "simplify without a tilde", "simplify with a tilde", "inv_deep where all steps can be undone", "undo views"};
static uint64_t totals[16][16];

static void print_totals(void) {
    for (size_t f = 0; f < sizeof functions / sizeof *functions; f++) {
        fprintf(stderr, "%s: %llu accepted", functions[f], (unsigned long long)totals[f][0]);
        for (size_t r = 1; r < 13; r++)
            if (totals[f][r]) fprintf(stderr, ", %llu refused %zu", (unsigned long long)totals[f][r], r);
        fprintf(stderr, "\n");
    }
}

static void note(size_t k) { seen[k]++; }

static unsigned bits(uint64_t n) { return n ? 64 - (unsigned)__builtin_clzll(n) : 0; }

/* A region that ends at a page that may not be touched. */
struct region {
    uint8_t *base;
    size_t size;
};

static struct region texts, trees, outs;

static struct region region(size_t size) {
    size_t page = (size_t)sysconf(_SC_PAGESIZE);
    size_t whole = (size + page - 1) / page * page;
    uint8_t *p = mmap(NULL, whole + 2 * page, PROT_READ | PROT_WRITE, MAP_PRIVATE | MAP_ANONYMOUS, -1, 0);
    demand(p != MAP_FAILED, "memory");
    demand(mprotect(p, page, PROT_NONE) == 0 && mprotect(p + page + whole, page, PROT_NONE) == 0, "a page that may not be touched");
    return (struct region){p + page, whole};
}

/* The last `size` bytes of a region. */
static uint8_t *ending(struct region r, size_t size) { return r.base + r.size - size; }

/* What a function is called with, apart from its buffer. */
struct input {
    const uint8_t *text, *tree;
    size_t text_size, tree_size;
    uint32_t features, layers, negatives;
    uint64_t place, record;
};

typedef uint64_t call(const struct input *, uint8_t *, size_t);

static uint64_t parse(const struct input *i, uint8_t *out, size_t n) { return hypuz_parse_notation(i->text, i->text_size, i->features, out, n); }
static uint64_t display(const struct input *i, uint8_t *out, size_t n) { return hypuz_display(i->text, i->text_size, i->tree, i->tree_size, out, n); }
static uint64_t inv(const struct input *i, uint8_t *out, size_t n) { return hypuz_inv(i->text, i->text_size, i->tree, i->tree_size, out, n); }
static uint64_t inv_deep(const struct input *i, uint8_t *out, size_t n) { return hypuz_inv_deep(i->text, i->text_size, i->tree, i->tree_size, out, n); }
static uint64_t flatten(const struct input *i, uint8_t *out, size_t n) { return hypuz_flatten(i->text, i->text_size, i->tree, i->tree_size, out, n); }
static uint64_t seek(const struct input *i, uint8_t *out, size_t n) { return hypuz_seek_step(i->text, i->text_size, i->tree, i->tree_size, i->place, out, n); }
static uint64_t simplify(const struct input *i, uint8_t *out, size_t n) {
    return hypuz_simplify(i->text, i->text_size, i->tree, i->tree_size, i->record, i->layers, i->negatives, out, n);
}

/* Whether all of these bytes are still what they were filled with: the first is, and each is as the one before. */
static int as_before(const uint8_t *p, size_t n) { return n == 0 || (p[0] == 0xa5 && memcmp(p, p + 1, n - 1) == 0); }

/* Calls with `room` bytes that end at a forbidden page; before them and in the unused part the bytes must be as they were. */
static uint64_t lend(call *f, const struct input *i, size_t room, size_t unit, const char *what) {
    uint8_t *out = ending(outs, room);
    memset(out - GUARD, 0xa5, GUARD + room);
    uint64_t a = f(i, out, room);
    size_t used = hypuz_refusal(a) ? 0 : (size_t)hypuz_value(a) * unit;
    demand(hypuz_refusal(a) <= 12 && (hypuz_refusal(a) == 0 || hypuz_value(a) == 0), what);
    demand(used <= room, what);
    demand(as_before(out - GUARD, GUARD) && as_before(out + used, room - used), what);
    return a;
}

/* With the room that a function needs, found by a call with all of the region: an exact fit gives the same, one byte less is refused 5. */
static uint64_t fits(call *f, const struct input *i, size_t room, size_t unit, const char *what) {
    uint64_t some = lend(f, i, room, unit, what);
    uint64_t all = lend(f, i, outs.size - GUARD, unit, what);
    if (hypuz_refusal(all)) {
        demand(some == all, what);
        return all;
    }
    size_t need = (size_t)hypuz_value(all) * unit;
    demand(some == (room < need ? (uint64_t)5 << 56 : all), what);
    demand(need == 0 || lend(f, i, need - 1, unit, what) == (uint64_t)5 << 56, what);
    demand(lend(f, i, need, unit, what) == all, what);
    return all;
}

static void store(uint8_t *record, uint64_t count) {
    for (size_t k = HYPUZ_RECORD; k > HYPUZ_RECORD - COUNT; k--, count >>= 8) record[k - 1] = (uint8_t)count;
}

/* The count as a record stores it: capped at 4,294,967,296. */
static uint64_t capped(uint64_t count) { return count < 4294967296u ? count : 4294967296u; }

/* Puts into every record the count that its other fields call for, from the last one to the first. A list that ends past the tree is cut there. */
static void recount(uint8_t *tree, size_t size) {
    size_t records = size / HYPUZ_RECORD, *ends = malloc((records + 1) * sizeof *ends);
    for (size_t i = records; i-- > 0;) {
        uint8_t *r = tree + i * HYPUZ_RECORD;
        unsigned kind = hypuz_record_kind(r);
        ends[i] = i + 1;
        if (!hypuz_record_is_group(r)) {
            store(r, 1);
            continue;
        }
        size_t middle = i + 1 + hypuz_record_first_list(r), last = middle + (kind > HYPUZ_KIND_NISS ? hypuz_record_second_list(r) : 0);
        if (middle > records) middle = records;
        if (last > records) last = records;
        uint64_t lists[2] = {0, 0};
        for (size_t k = i + 1; k < last; k = ends[k]) {
            uint64_t *list = lists + (k >= middle);
            *list = capped(*list + hypuz_record_count(tree + k * HYPUZ_RECORD));
        }
        ends[i] = last;
        uint64_t once = kind == HYPUZ_KIND_NISS ? 0 : kind == HYPUZ_KIND_COMMUTATOR ? 2 * (lists[0] + lists[1]) : kind == HYPUZ_KIND_CONJUGATE ? 2 * lists[0] + lists[1] : lists[0];
        int64_t number = hypuz_record_multiplier(r);
        uint64_t times = (uint64_t)(number < 0 ? -number : number);
        store(r, capped(capped(once) * times));
    }
    free(ends);
}

/* Whether every record stores the count that its other fields call for. */
static void counted(const uint8_t *tree, size_t size, const char *what) {
    uint8_t *again = malloc(size + 1);
    memcpy(again, tree, size);
    recount(again, size);
    demand(memcmp(again, tree, size) == 0, what);
    free(again);
}

/* Checks what must hold between the functions on a tree that is well formed. */
static void together(const struct input *i, uint64_t n, uint64_t list) {
    if (hypuz_refusal(n)) {
        demand(list == n, "count and list refuse alike");
        return;
    }
    if (n > STEPS) return;
    size_t whole = n * HYPUZ_RECORD;
    demand(list == whole, "the list is as long as counted");
    uint8_t *steps = malloc(whole + 1), step[HYPUZ_RECORD];
    demand(flatten(i, steps, whole) == whole, "the list in an exact fit");
    counted(steps, whole, "every step stores 1");
    for (int k = 0; k < 4 && n; k++) {
        uint64_t place = (i->place + (uint64_t)k * 7919) % n;
        demand(hypuz_seek_step(i->text, i->text_size, i->tree, i->tree_size, place, step, sizeof step) == sizeof step, "seeking below the count");
        demand(memcmp(step, steps + place * HYPUZ_RECORD, sizeof step) == 0, "seeking gives the list's step");
    }
    demand(hypuz_seek_step(i->text, i->text_size, i->tree, i->tree_size, n, step, sizeof step) == (uint64_t)10 << 56, "seeking past the end");
    free(steps);
}

/* Checks that an inverse, inverted again, is the tree. */
static void twice(call *f, const struct input *i, uint64_t size, const char *what) {
    if (hypuz_refusal(size)) return;
    demand(size == i->tree_size, what);
    uint8_t *once = malloc(size + 1), *again = malloc(size + 1);
    demand(f(i, once, size) == size, what);
    counted(once, size, what);
    struct input back = *i;
    back.tree = once;
    demand(f(&back, again, size) == size && memcmp(again, i->tree, size) == 0, what);
    free(once);
    free(again);
}

/* The list of a tree's shallow or deep inverse, in memory that the caller frees; NULL where there is none, or it has more steps than are looked at. */
static uint8_t *undoing(call *f, const struct input *i, uint64_t *size) {
    uint8_t *inverse = malloc(i->tree_size + 1), *list = NULL;
    struct input back = *i;
    back.tree = inverse;
    if (f(i, inverse, i->tree_size) == i->tree_size) {
        uint64_t n = hypuz_count_steps(i->text, i->text_size, inverse, i->tree_size);
        if (n <= STEPS) {
            *size = n * HYPUZ_RECORD;
            list = malloc(*size + 1);
            demand(flatten(&back, list, *size) == *size, "the list of an inverse");
        }
    }
    free(inverse);
    return list;
}

/* Checks request 13 on any tree: where both inverses unroll, they unroll into the same records. What unrolls into steps of which none is a pair with -2147483648 has
 * a shallow inverse that unrolls, and a deep one that does if it is not refused. */
static void same_undoing(const struct input *i, uint64_t shallow, uint64_t deep) {
    uint64_t size = 0, deep_size = 0, n = hypuz_count_steps(i->text, i->text_size, i->tree, i->tree_size);
    if (n > STEPS) return;
    uint8_t *list = malloc(n * HYPUZ_RECORD + 1);
    int undoable = 1;
    demand(flatten(i, list, n * HYPUZ_RECORD) == n * HYPUZ_RECORD, "the list");
    for (size_t k = 0; k < n; k++) {
        const uint8_t *step = list + k * HYPUZ_RECORD;
        undoable &= hypuz_record_u(step) != INT32_MIN && hypuz_record_d(step) != INT32_MIN;
    }
    uint8_t *one = undoing(inv, i, &size), *other = undoing(inv_deep, i, &deep_size);
    demand(!undoable || (!hypuz_refusal(shallow) && one && (hypuz_refusal(deep) || other)), "inverses unroll where all steps can be undone");
    if (one && other) demand(size == deep_size && memcmp(one, other, size) == 0, "both inverses unroll into the same records");
    if (undoable && one) totals[12][hypuz_refusal(deep)]++, note(16 * 12 + hypuz_refusal(deep));
    free(list);
    free(one);
    free(other);
}

/* Counts in `lit` each layer that an answer has, and checks its form: sorted, none touching, all on the axis. */
static void light(const struct input *i, uint8_t *lit) {
    static uint8_t out[HYPUZ_RANGES_ROOM];
    uint64_t n = simplify(i, out, sizeof out), after = 0;
    demand(!hypuz_refusal(n), "layer ranges with all the room that they can need");
    for (size_t k = 0; k < n; k++) {
        uint64_t low = hypuz_range_low(out, k), high = hypuz_range_high(out, k);
        demand(low > after && low <= high && high <= i->layers, "layer ranges sorted, not touching, on the axis");
        for (uint64_t layer = low; layer <= high; layer++) lit[layer]++;
        after = high + 1;
    }
}

/* Checks request 3 by its own words: a move is asked with its tilde and without, and each layer must be in exactly one of the two answers. What the answers are
 * is not known here, but that a prefix without contents means layer 1. */
static void other_layers(const struct input *i) {
    static uint8_t with[LAYERS + 1], without[LAYERS + 1];
    uint8_t *tree = malloc(i->tree_size), *record = tree + i->record * HYPUZ_RECORD;
    memcpy(tree, i->tree, i->tree_size);
    int tilde = hypuz_record_tilde(record);
    totals[10 + tilde][0]++;
    note(16 * (10 + tilde));
    struct input other = *i;
    other.tree = tree;
    memset(with, 0, sizeof with);
    memset(without, 0, sizeof without);
    *record |= TILDE;
    light(&other, with);
    *record ^= TILDE;
    light(&other, without);
    for (uint32_t layer = 1; layer <= i->layers; layer++) {
        demand(with[layer] + without[layer] == 1, "each layer either with the tilde or without");
        demand(hypuz_record_layer_form(record) != HYPUZ_LAYERS_NONE || without[layer] == (layer == 1), "no contents: layer 1");
    }
    free(tree);
}

/* Prints a tree into just the room that the header says to be enough. */
static void printed_within(const struct input *i, const uint8_t *tree, size_t size, size_t room, const char *what) {
    uint8_t *out = malloc(room + 1);
    demand(!hypuz_refusal(hypuz_display(i->text, i->text_size, tree, size, out, room)), what);
    free(out);
}

static void reads_back(const struct input *i, const uint8_t *tree, size_t size);
static void undo_views(const struct input *i);

/* Checks the rooms of what the library makes over a text: its tree, the inverses of that, and the step at a place. The tree and its inverses, printed,
 * are read back too, whether they unroll or not. */
static void rooms(const struct input *i) {
    size_t room = HYPUZ_TREE_ROOM(i->text_size), shown = HYPUZ_DISPLAY_ROOM(i->text_size);
    uint8_t *tree = malloc(room + 1), *inverse = malloc(room + 1), step[HYPUZ_STEP_ROOM];
    uint64_t read = hypuz_parse_notation(i->text, i->text_size, i->features, tree, room);
    demand(hypuz_refusal(read) != HYPUZ_REFUSED_NO_ROOM, "the room for a tree");
    if (!hypuz_refusal(read)) {
        printed_within(i, tree, read, shown, "the room for a text that was read");
        reads_back(i, tree, read);
        struct input own = *i;
        own.tree = tree, own.tree_size = read;
        for (int deep = 0; deep < 2; deep++) {
            uint64_t inverted = (deep ? inv_deep : inv)(&own, inverse, HYPUZ_INVERSE_ROOM(read));
            demand(hypuz_refusal(inverted) != HYPUZ_REFUSED_NO_ROOM, "the room for an inverse");
            if (!hypuz_refusal(inverted)) printed_within(i, inverse, inverted, shown, "the room for an inverse as text");
            if (!hypuz_refusal(inverted)) reads_back(i, inverse, inverted);
        }
        undo_views(&own);
        uint64_t found = seek(&own, step, sizeof step);
        demand(hypuz_refusal(found) != HYPUZ_REFUSED_NO_ROOM, "the room for a step");
        if (!hypuz_refusal(found)) printed_within(i, step, sizeof step, shown, "the room for a step as text");
    }
    free(tree);
    free(inverse);
}

static void every(const struct input *i, size_t room) {
    rooms(i);
    uint64_t whole = fits(parse, i, room, 1, "reading");
    uint64_t shown = fits(display, i, room, 1, "printing");
    uint64_t shallow = fits(inv, i, room, 1, "inverse"), deep = fits(inv_deep, i, room, 1, "deep inverse");
    uint64_t n = hypuz_count_steps(i->text, i->text_size, i->tree, i->tree_size);
    uint64_t list = n > STEPS && !hypuz_refusal(n) ? lend(flatten, i, room % 64, 1, "unrolling") : fits(flatten, i, room, 1, "unrolling");
    uint64_t step = fits(seek, i, room % 64, 1, "seeking");
    uint64_t turned = fits(simplify, i, room, 4, "layer ranges");
    uint64_t part = hypuz_family(i->text, i->text_size, i->tree, i->tree_size, i->record);
    struct hypuz_span family = hypuz_family_span(part);
    demand(hypuz_refusal(part) || family.offset + family.length <= i->text_size, "a family inside the text");
    uint64_t answers[] = {whole, shown, shallow, deep, n, list, step, turned, part};
    for (size_t k = 0; k < sizeof answers / sizeof *answers; k++) {
        note(16 * k + hypuz_refusal(answers[k]));
        totals[k][hypuz_refusal(answers[k])]++;
    }
    note(576 + bits(hypuz_value(n)));
    unsigned r = hypuz_refusal(shown);
    if (r == 1 || r == 2 || r == 6) {
        demand(shallow == shown && deep == shown && n == shown && list == shown && part == shown, "refusals 1, 2 and 6 of all alike");
        return;
    }
    demand(r == 0, "printing a tree that is well formed");
    printed_within(i, i->tree, i->tree_size, hypuz_display_room_of(i->tree, i->tree_size), "the room for any tree as text");
    if (hypuz_refusal(turned) == 0 || hypuz_refusal(turned) == 5) other_layers(i);
    counted(i->tree, i->tree_size, "a wrong count is refused 6");
    twice(inv, i, shallow, "inverse twice");
    twice(inv_deep, i, deep, "deep inverse twice");
    same_undoing(i, shallow, deep);
    together(i, n, list);
}

/* Whether a curly prime, U+2019 or U+2032, begins here. */
static int is_sign(const uint8_t *text, size_t left) { return left > 2 && text[0] == 0xe2 && text[1] == 0x80 && (text[2] == 0x99 || text[2] == 0xb2); }

/* The text in which an apostrophe replaces each curly prime, and for each of its offsets the one in the text as given. */
struct straight {
    uint8_t text[2 * MOST + 1];
    size_t size, given[2 * MOST + 1];
};

static int straighten(struct straight *s, const uint8_t *text, size_t size) {
    int signs = 0;
    s->size = 0;
    for (size_t k = 0; k < size; s->size++) {
        int sign = is_sign(text + k, size - k);
        s->text[s->size] = sign ? '\'' : text[k];
        s->given[s->size] = k;
        k += sign ? 3 : 1;
        signs += sign;
    }
    s->given[s->size] = size;
    return signs;
}

static void store_part(uint8_t *at, size_t n) { at[0] = (uint8_t)(n >> 16), at[1] = (uint8_t)(n >> 8), at[2] = (uint8_t)n; }

/* A tree of the straight text with every part where the text as given has it: behind the first 15 bytes of a record stand three offsets, each with a length. */
static void to_given(const struct straight *s, uint8_t *tree, size_t size) {
    for (uint8_t *r = tree; r < tree + size; r += HYPUZ_RECORD)
        for (uint8_t *part = r + 15; part < r + 33; part += 6) {
            size_t from = hypuz_span_at(part).offset, to = from + hypuz_span_at(part).length;
            demand(to <= s->size, "parts inside the straight text");
            store_part(part, s->given[from]);
            store_part(part + 3, s->given[to] - s->given[from]);
        }
}

/* What is printed has apostrophes alone, is read without the flag, and is printed the same again. */
static void reads_back(const struct input *i, const uint8_t *tree, size_t size) {
    static uint8_t shown[4 * MOST], again[4 * MOST], back[1 << 17];
    uint64_t n = hypuz_display(i->text, i->text_size, tree, size, shown, sizeof shown);
    demand(!hypuz_refusal(n), "printing what was read");
    for (size_t k = 0; k < n; k++) demand(!is_sign(shown + k, n - k), "printing keeps the apostrophe");
    uint64_t read = hypuz_parse_notation(shown, n, i->features & ~HYPUZ_CURLY_PRIMES, back, sizeof back);
    demand(read == size, "what is printed is read back");
    demand(hypuz_display(shown, n, back, size, again, sizeof again) == n && memcmp(shown, again, n) == 0, "and printed the same");
}

/* Checks request 13 by its own words, on a text that was read: its deep inverse, printed and read back in the same setting, unrolls step for step into the list of the shallow one.
 * Steps are compared by what they print as, which is different for different steps. */
static void undo_views(const struct input *i) {
    static uint8_t shown[4 * MOST], back[1 << 17], played[8 * OUTS], again[8 * OUTS];
    uint64_t size, n;
    uint8_t *list = undoing(inv, i, &size), *deep = malloc(i->tree_size + 1);
    if (list && inv_deep(i, deep, i->tree_size) == i->tree_size) {
        n = hypuz_display(i->text, i->text_size, deep, i->tree_size, shown, sizeof shown);
        struct input printed = {.text = shown, .tree = back, .text_size = n, .tree_size = i->tree_size};
        demand(hypuz_parse_notation(shown, n, i->features, back, sizeof back) == i->tree_size, "the deep inverse is read back");
        uint64_t count = hypuz_count_steps(shown, n, back, i->tree_size);
        if (!hypuz_refusal(count)) {
            demand(count * HYPUZ_RECORD == size, "both undo views are as long");
            uint64_t a = hypuz_display(i->text, i->text_size, list, size, played, sizeof played);
            demand(flatten(&printed, list, size) == size, "the deep view");
            uint64_t b = hypuz_display(shown, n, list, size, again, sizeof again);
            demand(a == b && (hypuz_refusal(a) || memcmp(played, again, a) == 0), "both undo views play the same steps");
            totals[13][0]++, note(16 * 13);
        }
    }
    free(list);
    free(deep);
}

/* Checks request 6 by its own words: with the flag a text is read as, without it, the straight text; refusals and all offsets are those of the text as given. */
static void as_straight(const struct input *i) {
    static struct straight s;
    static uint8_t curly[1 << 17], plain[1 << 17];
    int signs = straighten(&s, i->text, i->text_size);
    uint64_t a = hypuz_parse_notation(i->text, i->text_size, i->features | HYPUZ_CURLY_PRIMES, curly, sizeof curly);
    uint64_t b = hypuz_parse_notation(s.text, s.size, i->features & ~HYPUZ_CURLY_PRIMES, plain, sizeof plain);
    demand(a == b, "a text with signs is read as the straight text");
    uint64_t off = hypuz_parse_notation(i->text, i->text_size, i->features & ~HYPUZ_CURLY_PRIMES, plain, 0);
    if (signs) totals[9][hypuz_refusal(a)]++, note(16 * 9 + hypuz_refusal(a));
    if (hypuz_refusal(a)) return;
    demand(hypuz_refusal(off) == (signs ? 4 : a ? 5 : 0), "without the flag signs are refused, and nothing else");
    to_given(&s, plain, b);
    demand(memcmp(curly, plain, a) == 0, "the same tree, with the offsets of the text as given");
    reads_back(i, curly, a);
}

/* Most changes that libFuzzer makes break UTF-8, and such a text is refused before anything else runs. Unless raw bytes are asked for, a byte
 * that is not part of a two-byte letter from U+0380 to U+03FF or of a curly prime loses its top bit. */
static void mend(uint8_t *text, size_t n) {
    for (size_t k = 0; k < n; k++) {
        if (text[k] < 0x80) continue;
        if (is_sign(text + k, n - k)) {
            k += 2;
            continue;
        }
        if ((text[k] == 0xce || text[k] == 0xcf) && k + 1 < n && (text[k + 1] & 0xc0) == 0x80) k++;
        else text[k] &= 0x7f;
    }
}

/* Text spelled out by the grammar, a choice for each byte of the input: raw bytes almost never make notation, and a text that is not read
 * leaves the empty tree. */
struct speller {
    const uint8_t *data;
    size_t left;
    uint8_t *out;
    size_t size, room;
};

static unsigned choice(struct speller *s, unsigned n) {
    if (s->left == 0) return 0;
    s->left--;
    return *s->data++ % n;
}

static void put(struct speller *s, const char *word) {
    size_t n = strlen(word);
    if (s->size + n > s->room) return;
    memcpy(s->out + s->size, word, n);
    s->size += n;
}

static void pick(struct speller *s, const char *const *words, unsigned n) { put(s, words[choice(s, n)]); }

#define PICK(s, ...)                                            \
    do {                                                        \
        static const char *const words[] = {__VA_ARGS__};       \
        pick(s, words, (unsigned)(sizeof words / sizeof *words)); \
    } while (0)

static void multiplier(struct speller *s) {
    PICK(s, "", "", "", "'", "2", "2'", "3", "0", "0'", "1", "007'", "65536", "2147483647", "2147483647'", "\xe2\x80\x99", "\xe2\x80\xb2", "2\xe2\x80\x99", "0\xe2\x80\xb2", "2147483647\xe2\x80\xb2");
}

static void family(struct speller *s) { PICK(s, "R", "U", "Fw", "_", "\xce\xb2", "\xce\xa9\xcf\x89", "IR", "x"); }

static void braced(struct speller *s, int layers) {
    put(s, "{");
    for (unsigned k = choice(s, 5); k > 0; k--) {
        if (layers) PICK(s, "1", "-1", "3..5", "5..-2", "-2..-7", "2-4", "32767", "-32767..1", "010", "9");
        else PICK(s, "R", "R->U", "F <> B", "\xce\xb2->x", "a<>a");
        if (k > 1) PICK(s, ",", ", ", " ,");
    }
    put(s, "}");
}

static void leaf(struct speller *s) {
    switch (choice(s, 8)) {
    case 0: PICK(s, ".", "/", "R++", "R--", "D++", "D--"); return;
    case 1:
        PICK(s, "(1, 0)", "(-2147483648,0)", "(0,-2147483648)", "( 2147483647 ,-3)", "(-6,006)");
        return;
    case 2:
        put(s, "@");
        if (choice(s, 2)) family(s);
        break;
    default:
        PICK(s, "", "", "~");
        if (choice(s, 3) == 1) braced(s, 1);
        else PICK(s, "", "", "1", "3", "2-4", "4-2", "32767", "1-32767");
        family(s);
    }
    if (choice(s, 4) == 1) braced(s, 0);
    multiplier(s);
}

static void list(struct speller *s, unsigned depth) {
    for (unsigned k = choice(s, 5); k > 0 && s->left > 0; k--) {
        unsigned kind = depth < 66 ? choice(s, 8) : 7;
        if (kind < 2) {
            PICK(s, "(", "(", "!(", "&(", "^(");
            list(s, depth + 1);
            put(s, ")");
            multiplier(s);
        } else if (kind < 4) {
            put(s, "[");
            list(s, depth + 1);
            PICK(s, ", ", ": ", ",", ":");
            list(s, depth + 1);
            put(s, "]");
            multiplier(s);
        } else {
            leaf(s);
        }
        if (k > 1) PICK(s, " ", " ", " ", "  ", "\xe3\x80\x80");
    }
}

int LLVMFuzzerTestOneInput(const uint8_t *data, size_t size) {
    if (!texts.base) atexit(print_totals), texts = region(2 * MOST), trees = region(1 << 17), outs = region(OUTS);
    if (size < 16) return 0;
    struct input i = {0};
    i.features = (data[0] & 128 ? HYPUZ_MAXIMAL : data[0]) | (data[2] & 32 ? HYPUZ_CURLY_PRIMES : 0);
    /* 1 to 16 layers, most of the time; now and then as many as there can be. */
    i.layers = !(data[2] & 64) ? 1 + data[1] % 16u : data[1] % 8 == 7 ? LAYERS - (data[2] & 1u) : (uint32_t)data[1] << (data[2] & 15);
    i.negatives = data[2] >> 7;
    i.place = (uint64_t)data[3] << (data[4] & 63);
    i.record = data[5] == 255 ? UINT64_MAX - data[6] : data[5] & 31;
    size_t room = (size_t)(data[7] | data[8] << 8) % 4096;
    size_t cut = (size_t)(data[9] | data[10] << 8);
    int damaged = data[11] % 4 == 1, given = data[11] % 32 == 31, raw = data[12] % 16 == 7;
    /* Now and then all of it stands behind so many spaces that offsets take three bytes. */
    size_t far = data[13] % 16 == 5 ? MOST + data[14] : 0;
    data += 16, size -= 16;
    static uint8_t spelled[4096];
    struct speller speller = {data, size, spelled, 0, sizeof spelled};
    if (!raw && !given) {
        while (speller.left > 0 && speller.size < 3000) {
            if (speller.size) put(&speller, " ");
            list(&speller, 0);
        }
        /* Now and then a byte of it is changed. */
        if (data[-4] % 16 == 3 && speller.size) spelled[cut % speller.size] = data[-3];
    }
    size_t written = given ? cut % (size + 1) : raw ? size : speller.size;
    i.text_size = far + written;
    uint8_t *text = ending(texts, i.text_size);
    memset(text, ' ', far);
    memcpy(text + far, raw || given ? data : spelled, written);
    if ((raw || given) && data[-3] % 16 != 15) mend(text + far, written);
    i.text = text;
    uint8_t *tree = trees.base;
    if (given) {
        /* The rest of the input is the tree. */
        i.tree_size = size - written;
        tree = ending(trees, i.tree_size);
        memcpy(tree, data + written, i.tree_size);
    } else {
        /* The tree of the text, with a byte changed or bytes cut if so told. */
        uint64_t a = hypuz_parse_notation(text, i.text_size, HYPUZ_MAXIMAL | HYPUZ_CURLY_PRIMES, trees.base, trees.size);
        i.tree_size = hypuz_refusal(a) ? 0 : (size_t)hypuz_value(a);
        tree = ending(trees, i.tree_size);
        memmove(tree, trees.base, i.tree_size);
        if (damaged && i.tree_size) {
            tree[cut % i.tree_size] ^= data[-1] ? data[-1] : 1;
            if ((data[-2] & 15) == 1) tree += HYPUZ_RECORD < i.tree_size ? HYPUZ_RECORD : 1, i.tree_size -= HYPUZ_RECORD < i.tree_size ? HYPUZ_RECORD : 1;
        } else {
            counted(tree, i.tree_size, "reading stores the counts");
        }
    }
    /* Nearly every change makes a count wrong, which would hide all else: most changed trees get right ones again. */
    if ((damaged || given) && data[-2] & 112) recount(tree, i.tree_size);
    i.tree = tree;
    /* A record and a place that are there, most of the time. */
    if (i.record < 32 && i.tree_size >= HYPUZ_RECORD) i.record = data[-11] % (i.tree_size / HYPUZ_RECORD + (data[-10] & 1));
    uint64_t n = hypuz_count_steps(i.text, i.text_size, i.tree, i.tree_size);
    if (!hypuz_refusal(n) && n && !(data[-12] & 64)) i.place %= n;
    for (size_t k = 0; k + HYPUZ_RECORD <= i.tree_size; k += HYPUZ_RECORD) note(256 + tree[k]);
    note(512 + bits(i.tree_size / HYPUZ_RECORD));
    every(&i, room);
    as_straight(&i);
    return 0;
}
