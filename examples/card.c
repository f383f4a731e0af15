/* Shows the card of a written solution: its printed text, both inverses, how many steps it has and the first of them, the step at
 * a place, and the layers that its first moves name. Where a call is refused, the sentence of the refusal stands instead.
 *   card w|m TEXT [PLACE [LAYERS]]      w: the setting WCA, m: MAXIMAL; place 0 and 3 layers unless given */
#include "hypuz_notation.h"

#include <stdio.h>
#include <stdlib.h>
#include <string.h>

enum { FIRST = 12 }; /* so many steps and moves are shown */

/* A text and a tree over it. */
struct item {
    const uint8_t *text, *tree;
    size_t text_size, tree_size;
};

typedef uint64_t inverse(const uint8_t *text, size_t text_size, const uint8_t *tree, size_t tree_size, uint8_t *out, size_t out_size);

/* Memory for a result: never null, also where no byte is needed. */
static uint8_t *room(size_t size) {
    uint8_t *bytes = (uint8_t *)malloc(size + 1);
    if (bytes) return bytes;
    fputs("no memory\n", stderr);
    exit(2);
}

/* Whether a call did its job. The refusal is asked first, since a value of 0 may be an answer too. */
static int accepted(const char *label, uint64_t answer) {
    unsigned refusal = hypuz_refusal(answer);
    if (refusal != HYPUZ_ACCEPTED) printf("%s: refused %u: %s\n", label, refusal, hypuz_refusal_text(refusal));
    return refusal == HYPUZ_ACCEPTED;
}

static void show(const char *label, struct item i) {
    uint8_t *out = room(HYPUZ_DISPLAY_ROOM(i.text_size));
    uint64_t used = hypuz_display(i.text, i.text_size, i.tree, i.tree_size, out, HYPUZ_DISPLAY_ROOM(i.text_size));
    if (accepted(label, used)) printf("%s: %.*s\n", label, (int)hypuz_value(used), (const char *)out);
    free(out);
}

static void show_inverse(const char *label, struct item i, inverse *invert) {
    uint8_t *out = room(HYPUZ_INVERSE_ROOM(i.tree_size));
    uint64_t used = invert(i.text, i.text_size, i.tree, i.tree_size, out, HYPUZ_INVERSE_ROOM(i.tree_size));
    struct item inverted = {i.text, out, i.text_size, (size_t)hypuz_value(used)};
    if (accepted(label, used)) show(label, inverted);
    free(out);
}

/* A step is the record of a leaf, which is a tree by itself. */
static void show_step(const char *name, struct item i, uint64_t place) {
    uint8_t step[HYPUZ_STEP_ROOM];
    char label[32];
    sprintf(label, "%s %llu", name, (unsigned long long)place);
    uint64_t used = hypuz_seek_step(i.text, i.text_size, i.tree, i.tree_size, place, step, sizeof step);
    struct item found = {i.text, step, i.text_size, sizeof step};
    if (accepted(label, used)) show(label, found);
}

/* The layers that the prefix of a move names. What its family means on a puzzle is for the host to know. */
static void show_layers(struct item i, size_t record, uint32_t layers) {
    static uint8_t ranges[HYPUZ_RANGES_ROOM];
    struct hypuz_span family = hypuz_record_family(hypuz_record_at(i.tree, record));
    uint64_t found = hypuz_simplify(i.text, i.text_size, i.tree, i.tree_size, record, layers, 1, ranges, sizeof ranges);
    if (!accepted("layers", found)) return;
    printf("layers of %.*s:", (int)family.length, (const char *)i.text + family.offset);
    for (size_t k = 0; k < hypuz_value(found); k++) printf(" %u-%u", hypuz_range_low(ranges, k), hypuz_range_high(ranges, k));
    putchar('\n');
}

int main(int argc, char **argv) {
    if (argc < 3 || argc > 5 || (strcmp(argv[1], "w") != 0 && strcmp(argv[1], "m") != 0)) {
        fputs("usage: card w|m TEXT [PLACE [LAYERS]]\n", stderr);
        return 2;
    }
    const uint8_t *text = (const uint8_t *)argv[2];
    size_t text_size = strlen(argv[2]), moves = 0;
    uint8_t *tree = room(HYPUZ_TREE_ROOM(text_size));
    uint64_t read = hypuz_parse_notation(text, text_size, *argv[1] == 'w' ? HYPUZ_WCA : HYPUZ_MAXIMAL, tree, HYPUZ_TREE_ROOM(text_size));
    if (!accepted("text", read)) {
        free(tree);
        return 1;
    }
    struct item i = {text, tree, text_size, (size_t)hypuz_value(read)};
    show("text", i);
    show_inverse("inverse", i, hypuz_inv);
    show_inverse("deep inverse", i, hypuz_inv_deep);
    uint64_t steps = hypuz_count_steps(i.text, i.text_size, i.tree, i.tree_size);
    if (accepted("steps", steps)) printf("steps: %llu\n", (unsigned long long)hypuz_value(steps));
    for (uint64_t k = 0; k < hypuz_value(steps) && k < FIRST; k++) show_step("step", i, k);
    show_step("place", i, argc > 3 ? strtoull(argv[3], NULL, 10) : 0);
    for (size_t k = 0; k < hypuz_records(i.tree_size) && moves < FIRST; k++)
        if (hypuz_record_kind(hypuz_record_at(i.tree, k)) == HYPUZ_KIND_MOVE && ++moves)
            show_layers(i, k, argc > 4 ? (uint32_t)strtoul(argv[4], NULL, 10) : 3);
    free(tree);
    return 0;
}
