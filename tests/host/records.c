/* Says what the inline functions of the header make of trees, for tests/host/header.py to compare with the reference. Each line of standard
 * input is a tree in hexadecimal digits. For each of its records a line is written with what every accessor gives, in the order of `say`, and
 * after them a line with the room that the tree needs to be printed. It is compiled as C99 and as C++17, with sanitizers. Each tree stands in
 * memory of its own size, so that a read past it is seen. Called with an argument it writes the names and numbers of the header instead. */
#include "hypuz_notation.h"

#include <stdio.h>
#include <stdlib.h>
#include <string.h>

static void say(const uint8_t *r) {
    struct hypuz_span family = hypuz_record_family(r), constraints = hypuz_record_constraints(r), set = hypuz_record_layer_set(r);
    printf("%u %d %ld %ld %ld ", (unsigned)hypuz_record_kind(r), hypuz_record_is_group(r), (long)hypuz_record_multiplier(r), (long)hypuz_record_u(r), (long)hypuz_record_d(r));
    printf("%d %u %u %u %d ", hypuz_record_tilde(r), (unsigned)hypuz_record_layer_form(r), hypuz_record_low(r), hypuz_record_high(r), hypuz_record_has_constraints(r));
    printf("%lu %lu %lu ", (unsigned long)hypuz_record_first_list(r), (unsigned long)hypuz_record_second_list(r), (unsigned long)hypuz_record_node_size(r));
    printf("%lu %lu %lu %lu ", (unsigned long)family.offset, (unsigned long)family.length, (unsigned long)constraints.offset, (unsigned long)constraints.length);
    printf("%lu %lu %llu\n", (unsigned long)set.offset, (unsigned long)set.length, (unsigned long long)hypuz_record_count(r));
}

static int digit(int c) { return c <= '9' ? c - '0' : c - 'a' + 10; }

/* The next line as bytes, or null at the end of the input. */
static uint8_t *next(size_t *size) {
    static char line[1 << 22];
    if (!fgets(line, sizeof line, stdin)) return NULL;
    *size = strcspn(line, "\n") / 2;
    uint8_t *bytes = (uint8_t *)malloc(*size ? *size : 1);
    for (size_t k = 0; k < *size; k++) bytes[k] = (uint8_t)(digit(line[2 * k]) << 4 | digit(line[2 * k + 1]));
    return bytes;
}

/* The numbers that are compared with the code, and the rooms of the sizes 0, 1 and 1000. */
static void names(void) {
    printf("RECORD %d\nRANGE %d\nMAX_TEXT %u\nMAX_NESTING %u\nMAX_STEPS %u\nMAX_LAYER %u\n", HYPUZ_RECORD, HYPUZ_RANGE, HYPUZ_MAX_TEXT, HYPUZ_MAX_NESTING, HYPUZ_MAX_STEPS, HYPUZ_MAX_LAYER);
    printf("STEP_ROOM %d\nRANGES_ROOM %d\nMINIMAL %u\nWCA %u\nMAXIMAL %u\n", HYPUZ_STEP_ROOM, HYPUZ_RANGES_ROOM, HYPUZ_MINIMAL, HYPUZ_WCA, HYPUZ_MAXIMAL);
    static const size_t sizes[] = {0, 1, 1000};
    for (size_t k = 0; k < 3; k++)
        printf("rooms %zu %zu %zu %zu %zu\n", sizes[k], HYPUZ_TREE_ROOM(sizes[k]), HYPUZ_INVERSE_ROOM(sizes[k]), HYPUZ_LIST_ROOM(sizes[k]), HYPUZ_DISPLAY_ROOM(sizes[k]));
    for (unsigned refusal = 0; refusal < 256; refusal++) printf("refusal %u %s\n", refusal, hypuz_refusal_text(refusal));
    struct hypuz_span span = hypuz_family_span(((uint64_t)0xabcdef << 24) + 0x123456);
    printf("span %lx %lx\n", (unsigned long)span.offset, (unsigned long)span.length);
    static const uint8_t ranges[] = {0, 1, 2, 3, 127, 254, 127, 255};
    for (size_t k = 0; k < 2; k++) printf("range %u %u\n", hypuz_range_low(ranges, k), hypuz_range_high(ranges, k));
}

int main(int argc, char **argv) {
    (void)argv;
    if (argc > 1) return names(), 0;
    size_t size;
    for (uint8_t *tree; (tree = next(&size)) != NULL; free(tree)) {
        for (size_t k = 0; k < hypuz_records(size); k++) say(hypuz_record_at(tree, k));
        printf("room %zu\n", hypuz_display_room_of(tree, size));
    }
    return 0;
}
