/* hypuz_notation: written solutions of twisty puzzles, for a host in C or C++.
 *
 * A text such as [R: U2 F]' is read into a tree, which is a run of records. From a text and its tree the other functions
 * count the steps, list them, find any one of them, invert the tree, print it, and tell of a move which layers its prefix
 * names and where its family stands. This header is all that a host author has to read; examples/card.c is a host to copy
 * from.
 *
 * Linking. `tools/archive.sh`, which calls rt, the command of the Rattle toolchain, makes the archive
 * target/staticlib/libhypuz_notation.a for x86-64, which may also be linked into a shared library. Of its platform it asks for
 * memcpy and memset and nothing else: no library, no heap, no start-up call. The functions keep no state and may be called from
 * any number of threads, each with its own buffers. A stack of 256 KB is enough. The header needs C99 or C++11.
 *
 * Answers. Every function answers one number, which holds a refusal and a value. Ask hypuz_refusal first: 0 says that the
 * call did its job, and any other number says why it did not (enum hypuz_refused, hypuz_refusal_text). Then hypuz_value is
 * what the function gives. It is 0 beside a refusal, but 0 may also be what is given, as the steps of an empty text are. In
 * the number the refusal has the highest 8 bits, and the value the other 56, which are enough for every value.
 *
 * Buffers. A buffer is a pointer and a length in bytes. Results go into buffers that the caller lends. A refusal leaves every
 * byte of a lent buffer as it was; after success the bytes past the used part are as they were. A buffer that is written may
 * not overlap the text or the tree. No pointer may be null, also where the length is 0. An empty C++ vector may have null as
 * its data(), and malloc(0) may give it: pass the address of any byte instead, with the length 0, and it is not touched.
 *
 * Texts and trees. A text is UTF-8, and its length says where it ends: a zero byte at its end is refused like any other
 * character that is not notation, and so is a byte order mark. A tree names parts of its text by their places, so each call is
 * handed the text and the tree together. Any bytes may be given as a tree; those that are no tree over this text are refused.
 *
 * Cost. Reading takes time linear in the text. Every other call first checks that the text is UTF-8 and that the tree is one,
 * since nothing is kept between calls: time linear in both. What a function does beyond the check is said where it is declared. To
 * ask something of many records, hand in one at a time: the record of a leaf is a tree by itself, and the check of the others is
 * saved, if not that of the text. (A tree put together by hand may name one long part of the text in many records; the check reads
 * that part once for each.)
 */
#ifndef HYPUZ_NOTATION_H
#define HYPUZ_NOTATION_H

#include <stddef.h>
#include <stdint.h>

#ifdef __cplusplus
extern "C" {
#define HYPUZ_INLINE inline
#else
#define HYPUZ_INLINE static inline
#endif

/* Limits: bytes of a text, groups one inside another, steps of a list, and the number of the deepest layer. */
#define HYPUZ_MAX_TEXT 16777215u
#define HYPUZ_MAX_NESTING 64u
#define HYPUZ_MAX_STEPS 4294967295u
#define HYPUZ_MAX_LAYER 32767u

/* The refusals. Where several apply, the one is given that a function lists first; it lists them without HYPUZ_REFUSED_. Those
 * from 13 on belong to functions still to come and are given by none yet. */
enum hypuz_refused {
    HYPUZ_ACCEPTED = 0,
    HYPUZ_REFUSED_TOO_LONG = 1,
    HYPUZ_REFUSED_NOT_UTF8 = 2,
    HYPUZ_REFUSED_TOO_NESTED = 3,
    HYPUZ_REFUSED_NOT_NOTATION = 4,
    HYPUZ_REFUSED_NO_ROOM = 5,
    HYPUZ_REFUSED_NOT_WELL_FORMED = 6,
    HYPUZ_REFUSED_NISS = 7,
    HYPUZ_REFUSED_OVERFLOW = 8,
    HYPUZ_REFUSED_TOO_MANY_STEPS = 9,
    HYPUZ_REFUSED_NO_SUCH_PLACE = 10,
    HYPUZ_REFUSED_NO_SUCH_LAYER_COUNT = 11,
    HYPUZ_REFUSED_NO_SUCH_RECORD = 12,
    HYPUZ_REFUSED_STEP_TOO_WIDE = 13,
    HYPUZ_REFUSED_NO_SUCH_CUBE = 14,
    HYPUZ_REFUSED_BREAKS_REGULATIONS = 15,
    HYPUZ_REFUSED_TOO_MANY_TO_REPLAY = 16,
    HYPUZ_REFUSED_NOT_SQ1 = 17,
    HYPUZ_REFUSED_BLOCKED_SLASH = 18,
    HYPUZ_REFUSED_NOT_CONVERTIBLE = 19,
    HYPUZ_REFUSED_FAMILY_IN_USE = 20,
    HYPUZ_REFUSED_AT_END = 21,
    HYPUZ_REFUSED_AT_START = 22,
    HYPUZ_REFUSED_NO_SUCH_LEAF = 23
};

/* An answer taken apart: the refusal, 0 for none, and the value, 0 where the call was refused. */
HYPUZ_INLINE unsigned hypuz_refusal(uint64_t answer) { return (unsigned)(answer >> 56); }
HYPUZ_INLINE uint64_t hypuz_value(uint64_t answer) { return answer & 0xffffffffffffffu; }

/* A refusal as a sentence, which stays where it is and is never freed. */
HYPUZ_INLINE const char *hypuz_refusal_text(unsigned refusal) {
    switch (refusal) {
    case HYPUZ_ACCEPTED: return "The call was not refused.";
    case HYPUZ_REFUSED_TOO_LONG: return "The text has more than 16,777,215 bytes.";
    case HYPUZ_REFUSED_NOT_UTF8: return "The text is not UTF-8.";
    case HYPUZ_REFUSED_TOO_NESTED: return "At some place over 64 more brackets were opened than closed.";
    case HYPUZ_REFUSED_NOT_NOTATION: return "The text is not notation in this setting.";
    case HYPUZ_REFUSED_NO_ROOM: return "The lent buffer is too short.";
    case HYPUZ_REFUSED_NOT_WELL_FORMED: return "The bytes given as a tree are not a well-formed tree over this text.";
    case HYPUZ_REFUSED_NISS: return "A NISS group would have to be unrolled or inverted deep.";
    case HYPUZ_REFUSED_OVERFLOW: return "The Square-1 number -2147483648 cannot be negated.";
    case HYPUZ_REFUSED_TOO_MANY_STEPS: return "There are more than 4,294,967,295 steps.";
    case HYPUZ_REFUSED_NO_SUCH_PLACE: return "There is no such place.";
    case HYPUZ_REFUSED_NO_SUCH_LAYER_COUNT: return "The number of layers is not from 1 to 32,767.";
    case HYPUZ_REFUSED_NO_SUCH_RECORD: return "There is no such record, or it is of another kind.";
    case HYPUZ_REFUSED_STEP_TOO_WIDE: return "A step prints with more than 61 characters.";
    case HYPUZ_REFUSED_NO_SUCH_CUBE: return "The number of layers of the cube is not from 2 to 32,767.";
    case HYPUZ_REFUSED_BREAKS_REGULATIONS: return "A step breaks the competition regulations.";
    case HYPUZ_REFUSED_TOO_MANY_TO_REPLAY: return "There are more than 65,536 steps to replay.";
    case HYPUZ_REFUSED_NOT_SQ1: return "A step is neither of Square-1 nor a pause.";
    case HYPUZ_REFUSED_BLOCKED_SLASH: return "A slash is blocked.";
    case HYPUZ_REFUSED_NOT_CONVERTIBLE: return "A move to be converted has a tilde or layers.";
    case HYPUZ_REFUSED_FAMILY_IN_USE: return "The text already has a move with a family that converting writes.";
    case HYPUZ_REFUSED_AT_END: return "There is no step after the last one.";
    case HYPUZ_REFUSED_AT_START: return "There is no step before the first one.";
    case HYPUZ_REFUSED_NO_SUCH_LEAF: return "There is no such record, or it is that of a group.";
    default: return "There is no such refusal.";
    }
}

/* The notation. A list is any number of nodes, also none, with at least one character of white space between two nodes, which may
 * also stand at both ends. A text is a list, and so is what stands in brackets. White space is what Unicode calls White_Space,
 * line ends included. There are no comments. The nodes, with the feature that some of them need:
 *
 *   move         R  U2'  3Rw  2-4r  ~{1..3,-1}R{U->F}2   tilde, layers, family, constraints, multiplier, optional but the family
 *   rotation     @x2  @{U->F}'  @     (generalized_rotations) family, constraints, multiplier, all optional
 *   group        (R U)2               the list, so many times
 *                !(R U)  &(R L')      macro and simultaneous groups, which play as any group does
 *                ^(R U)               a NISS group, of moves on the inverse of the scramble, which cannot be played
 *   commutator   [R, U]               plays R U R' U', and inverted U R U' R'
 *   conjugate    [R: U]               plays R U R', and inverted R U' R'
 *   pause        .
 *   Square-1     (1,-2)  /            (sq1) a pair has numbers from -2147483648 to 2147483647
 *   Megaminx     R++  R--  D++  D--   (megaminx)
 *
 * Commutators and conjugates are groups too. Groups, rotations and moves have a multiplier, and no other node has one.
 *
 * Families. A family is a run of a-z, A-Z, _ and the Greek letters U+0393 0394 0398 039B 039E 03A0 03A3 03A6 03A8 03A9 03B2
 * 03B4 to 03B8 03BA to 03BC 03BE 03C0 03C4 03C6 03C8 03C9. What it means (w, M, x, lower case) is left to the host.
 *
 * Multipliers. A multiplier is a number from 0 to 2147483647 or none, which means 1, and then a prime ' or none. A move or a
 * rotation is one step, whatever its multiplier. A group plays as often as the number says, and with a prime it plays inverted,
 * from its end with every step undone. Undoing negates the multiplier and both numbers of a pair, exchanges ++ and --, and leaves
 * a pause and a slash as they are. A group of multiplier 0 plays nothing, and what stands in it is not reached.
 *
 * Layers. Before the family may stand one layer, or a range of two with a hyphen, from 1 to 32,767, or a layer set (layer_sets).
 * A layer set has any number of elements in braces, with commas between them. An element is a layer or a range of two with ..
 * between them, each from 1 to 32,767 or from -1 to -32,767; with hsc1_layer_ranges a range may have a hyphen instead, and then
 * no negative layer. The two of a range stand in either order. A tilde ~ (inverted_layers) may stand before the layers, and also
 * where there are none.
 *
 * Constraints. After the family may stand constraints (transform_constraints): any number of elements in braces, with commas
 * between them, each a family or two with -> or <> between them.
 *
 * White space may also stand just inside brackets and braces, beside a comma, a colon, -> and <>, and nowhere else inside a
 * node. No comma stands before the first element or after the last. Numbers are digits from 0 to 9, may have leading zeros, and
 * have a hyphen before them where they are negative.
 *
 * What some texts give, in steps or by a refusal: 4 where they are not notation in the setting, 7 where a NISS group is reached.
 *
 *   text                       | HYPUZ_WCA | HYPUZ_MAXIMAL |
 *   R U2' F0                   | 3         | 3         | a move of multiplier 0 is a step too
 *   R'2                        | refused 4 | refused 4 | the number stands before the prime
 *   RU x2                      | 2         | 2         | RU is one move with the family RU, and x2 is a move
 *   RU R'U'                    | refused 4 | refused 4 | nodes that touch
 *   (R U)(R' F)                | refused 4 | refused 4 | nodes that touch
 *   (R U) (R' F) &(R L')       | 6         | 6         | what is played simultaneously is still two steps
 *   ( R ) [ R , ] ()           | 3         | 3         | lists may be empty
 *   [R]                        | refused 4 | refused 4 | square brackets have two lists
 *   (R U) 2                    | refused 4 | refused 4 | no space before a multiplier
 *   [R: U2 F]' (R U)3          | 10        | 10        |
 *   ^(R)0                      | refused 7 | refused 7 | a NISS group is reached, whatever its multiplier
 *   (^(R))0                    | 0         | 0         | this one is not reached
 *   R // comment               | refused 4 | refused 4 | no comments
 *   (1,0) / ( -3 , 03 ) /      | 4         | 4         |
 *   (1,0)/(3,3)/               | refused 4 | refused 4 | nodes that touch
 *   (+1,0)                     | refused 4 | refused 4 | no plus sign
 *   R++ D-- U'                 | 3         | 3         |
 *   R++'                       | refused 4 | refused 4 | no multiplier
 *   3-1R 02U                   | 2         | 2         | the range 1-3, and layer 2
 *   0R                         | refused 4 | refused 4 | no layer 0
 *   ~2R ~R                     | refused 4 | 2         |
 *   {1..3,-1}R {3-1}U {}F      | refused 4 | 3         |
 *   {1 .. 3}R                  | refused 4 | refused 4 | no space beside .. or a hyphen
 *   @x2 @                      | refused 4 | 2         |
 *   R{U -> F, L<>B, D} U{}     | refused 4 | 2         | an empty set of constraints is not the same as none
 *   R2147483647                | 1         | 1         |
 *   R2147483648                | refused 4 | refused 4 | too large
 */

/* The features of a setting, to be joined by |; higher bits are ignored. Each admits what stands beside it. */
#define HYPUZ_INVERTED_LAYERS 1u       /* ~2R */
#define HYPUZ_LAYER_SETS 2u            /* {1..3,-1}R */
#define HYPUZ_HSC1_LAYER_RANGES 4u     /* {1-3}R; needs HYPUZ_LAYER_SETS too */
#define HYPUZ_GENERALIZED_ROTATIONS 8u /* @x2 */
#define HYPUZ_TRANSFORM_CONSTRAINTS 16u /* R{U->F} */
#define HYPUZ_MEGAMINX 32u             /* R++ R-- D++ D-- */
#define HYPUZ_SQ1 64u                  /* (1,-2) and / */
#define HYPUZ_CURLY_PRIMES 128u        /* U+2019 and U+2032 as primes, as word processors write them */

/* The named settings. None of them admits curly primes: write HYPUZ_WCA | HYPUZ_CURLY_PRIMES. */
#define HYPUZ_MINIMAL 0u
#define HYPUZ_WCA (HYPUZ_MEGAMINX | HYPUZ_SQ1)
#define HYPUZ_MAXIMAL 127u

/* Trees. A tree is a run of records of HYPUZ_RECORD bytes, one for each node, in reading order: the record of a group stands
 * before those of its first list, and these before those of its second. Calls name a record by its number in the tree, counted
 * in records from 0. A step is handed over as a record of its own, undone where it is played inverted, and is itself a tree over
 * the text, of one leaf. Host code that uses the functions below and HYPUZ_RECORD, and never an offset or a bare number, keeps
 * working when a record gains a field.
 *
 * For languages that cannot call these functions, the fields by their bits, most significant first. A group uses the sizes of its
 * lists and its multiplier, a rotation family, constraints and multiplier, a move these and tilde and layers, a pair its two
 * numbers, and every record its kind and its count. All else is 0: the multiplier of a pause, low and high without layers or with
 * a set, the place of a set or of constraints that are not there, and also the offset of an empty family. hypuz_seek_step answers
 * HYPUZ_RECORD, by which such a host can tell whether the record has changed since.
 *
 *   4         kind
 *   1, 2, 1   tilde; form of the layers; whether there are constraints
 *   24, 24    records in the first list, nested ones included, and in the second
 *   32        multiplier, or u of a pair, in two's complement
 *   32        d of a pair in two's complement, or low and high layer, 16 each
 *   6 by 24   offset and length in the text, in bytes: of the family, of the constraints and of the layer set, with their braces
 *   40        count
 *
 * The count is how many steps the node unrolls into, repeats included, and 4,294,967,296 if they are more than 4,294,967,295.
 * It is 1 in a leaf, whatever its multiplier, and 0 in a group of multiplier 0 and in a NISS group, which adds nothing to what
 * holds it; what stands inside has its own count all the same. Whether a tree unrolls at all, hypuz_count_steps tells.
 *
 * Reading, both inverses, unrolling and seeking write trees, and a node cut out with all that it holds is one too. Whoever puts
 * records together otherwise has to keep these rules, or the tree is refused (HYPUZ_REFUSED_NOT_WELL_FORMED): the length is a
 * multiple of HYPUZ_RECORD; kinds are 0 to 14 and unused fields 0; parts lie inside the text; lists end inside the list that holds
 * them; groups stand at most HYPUZ_MAX_NESTING deep; layers are from 1 to HYPUZ_MAX_LAYER, low not above high, equal in a single
 * layer; no multiplier is -2147483648; families have family characters only, and at least one in a move; layer sets and
 * constraints are what reading admits with all features; and every count is right. */
#define HYPUZ_RECORD 38

enum hypuz_kind {
    HYPUZ_KIND_SIMPLE = 0,       /* ( ) */
    HYPUZ_KIND_MACRO = 1,        /* !( ) */
    HYPUZ_KIND_SIMULTANEOUS = 2, /* &( ) */
    HYPUZ_KIND_NISS = 3,         /* ^( ) */
    HYPUZ_KIND_COMMUTATOR = 4,   /* [ , ] */
    HYPUZ_KIND_CONJUGATE = 5,    /* [ : ]; up to here groups, from here on leaves */
    HYPUZ_KIND_ROTATION = 6,
    HYPUZ_KIND_MOVE = 7,
    HYPUZ_KIND_PAUSE = 8,
    HYPUZ_KIND_PAIR = 9, /* (u,d) of Square-1 */
    HYPUZ_KIND_SLASH = 10,
    HYPUZ_KIND_R_PLUS = 11, /* R++ */
    HYPUZ_KIND_R_MINUS = 12,
    HYPUZ_KIND_D_PLUS = 13,
    HYPUZ_KIND_D_MINUS = 14
};

enum hypuz_layer_form {
    HYPUZ_LAYERS_NONE = 0,
    HYPUZ_LAYERS_SINGLE = 1, /* 2R */
    HYPUZ_LAYERS_RANGE = 2,  /* 2-3R */
    HYPUZ_LAYERS_SET = 3     /* {2,3}R */
};

/* A part of a text. */
struct hypuz_span {
    uint32_t offset, length;
};

/* Numbers as records and ranges hold them, for the functions below: so many bytes, most significant first; 32 bits with a sign;
 * a part of the text. */
HYPUZ_INLINE uint64_t hypuz_bytes(const uint8_t *at, size_t size) {
    uint64_t n = 0;
    for (size_t i = 0; i < size; i++) n = n << 8 | at[i];
    return n;
}
HYPUZ_INLINE int32_t hypuz_signed(const uint8_t *at) {
    uint32_t n = (uint32_t)hypuz_bytes(at, 4);
    return n <= 0x7fffffffu ? (int32_t)n : -(int32_t)(0xffffffffu - n) - 1;
}
HYPUZ_INLINE struct hypuz_span hypuz_span_at(const uint8_t *at) {
    struct hypuz_span span = {(uint32_t)hypuz_bytes(at, 3), (uint32_t)hypuz_bytes(at + 3, 3)};
    return span;
}

/* How many records a tree of so many bytes has, and the record with a number. */
HYPUZ_INLINE size_t hypuz_records(size_t tree_size) { return tree_size / HYPUZ_RECORD; }
HYPUZ_INLINE const uint8_t *hypuz_record_at(const uint8_t *tree, size_t record) { return tree + record * HYPUZ_RECORD; }

/* What a record says. Each function gives 0, or a span of length 0, where the kind of the record has no such thing. */
HYPUZ_INLINE enum hypuz_kind hypuz_record_kind(const uint8_t *record) { return (enum hypuz_kind)(record[0] >> 4); }
HYPUZ_INLINE int hypuz_record_is_group(const uint8_t *record) { return hypuz_record_kind(record) <= HYPUZ_KIND_CONJUGATE; }

/* The multiplier of a group, a rotation or a move; u and d of a pair. */
HYPUZ_INLINE int32_t hypuz_record_multiplier(const uint8_t *record) {
    return hypuz_record_kind(record) <= HYPUZ_KIND_MOVE ? hypuz_signed(record + 7) : 0;
}
HYPUZ_INLINE int32_t hypuz_record_u(const uint8_t *record) {
    return hypuz_record_kind(record) == HYPUZ_KIND_PAIR ? hypuz_signed(record + 7) : 0;
}
HYPUZ_INLINE int32_t hypuz_record_d(const uint8_t *record) {
    return hypuz_record_kind(record) == HYPUZ_KIND_PAIR ? hypuz_signed(record + 11) : 0;
}

/* Of a move: whether it has a tilde, the form of its layers, and the low and the high one, which are equal in a single layer and
 * 0 where there is no layer or a set. Of a move or a rotation: whether it has constraints, also where it has just the braces. */
HYPUZ_INLINE int hypuz_record_tilde(const uint8_t *record) { return record[0] >> 3 & 1; }
HYPUZ_INLINE enum hypuz_layer_form hypuz_record_layer_form(const uint8_t *record) {
    return (enum hypuz_layer_form)(record[0] >> 1 & 3);
}
HYPUZ_INLINE unsigned hypuz_record_low(const uint8_t *record) {
    return hypuz_record_kind(record) == HYPUZ_KIND_MOVE ? (unsigned)hypuz_bytes(record + 11, 2) : 0;
}
HYPUZ_INLINE unsigned hypuz_record_high(const uint8_t *record) {
    return hypuz_record_kind(record) == HYPUZ_KIND_MOVE ? (unsigned)hypuz_bytes(record + 13, 2) : 0;
}
HYPUZ_INLINE int hypuz_record_has_constraints(const uint8_t *record) { return record[0] & 1; }

/* Of a group: how many records its first list takes, nested ones included, and its second. Of any node: how many records it
 * takes with all that it holds, so that the next node of its list begins so many records further on. */
HYPUZ_INLINE uint32_t hypuz_record_first_list(const uint8_t *record) { return (uint32_t)hypuz_bytes(record + 1, 3); }
HYPUZ_INLINE uint32_t hypuz_record_second_list(const uint8_t *record) { return (uint32_t)hypuz_bytes(record + 4, 3); }
HYPUZ_INLINE uint32_t hypuz_record_node_size(const uint8_t *record) {
    return 1 + hypuz_record_first_list(record) + hypuz_record_second_list(record);
}

/* Where the family, the constraints with their braces and the layer set with its braces stand in the text. */
HYPUZ_INLINE struct hypuz_span hypuz_record_family(const uint8_t *record) { return hypuz_span_at(record + 15); }
HYPUZ_INLINE struct hypuz_span hypuz_record_constraints(const uint8_t *record) { return hypuz_span_at(record + 21); }
HYPUZ_INLINE struct hypuz_span hypuz_record_layer_set(const uint8_t *record) { return hypuz_span_at(record + 27); }

/* How many steps the node unrolls into, as said above. */
HYPUZ_INLINE uint64_t hypuz_record_count(const uint8_t *record) { return hypuz_bytes(record + 33, 5); }

/* Room: how many bytes are surely enough for what a function writes. It is proved of each that the result never has more.
 * HYPUZ_DISPLAY_ROOM is for printing what hypuz_parse_notation made of the text, inverses of that, inverses of these, and any step
 * that hypuz_seek_step finds in one of them. hypuz_display_room_of is for printing any tree, such as a list that hypuz_flatten
 * wrote, a node that was cut out, or a tree put together by hand: it adds to the bytes of the tree those of the parts that its
 * records name, with a quarter more for layer sets, where 1-2 prints as 1..2. Of bytes that are no tree it may be any number. */
#define HYPUZ_TREE_ROOM(text_size) (((size_t)(text_size) + 1) / 2 * HYPUZ_RECORD) /* hypuz_parse_notation */
#define HYPUZ_INVERSE_ROOM(tree_size) ((size_t)(tree_size))     /* hypuz_inv, hypuz_inv_deep: just as many */
#define HYPUZ_LIST_ROOM(count) ((size_t)(count) * HYPUZ_RECORD) /* hypuz_flatten, by hypuz_count_steps: just as many */
#define HYPUZ_STEP_ROOM HYPUZ_RECORD                            /* hypuz_seek_step: just as many */
#define HYPUZ_RANGES_ROOM 65536                                 /* hypuz_simplify */
#define HYPUZ_DISPLAY_ROOM(text_size) (2 * (size_t)(text_size)) /* hypuz_display of what is said above */
HYPUZ_INLINE size_t hypuz_display_room_of(const uint8_t *tree, size_t tree_size) {
    size_t room = tree_size;
    for (size_t k = 0; k < hypuz_records(tree_size); k++) {
        const uint8_t *record = hypuz_record_at(tree, k);
        size_t set = hypuz_record_layer_set(record).length;
        room += hypuz_record_family(record).length + (size_t)hypuz_record_constraints(record).length + set + set / 4;
    }
    return room;
}

/* Reads a text in a setting and writes its tree. Value: bytes written, HYPUZ_RECORD for each node.
 * Refusals: TOO_LONG, NOT_UTF8, TOO_NESTED, NOT_NOTATION, NO_ROOM. Room: HYPUZ_TREE_ROOM(text_size).
 * TOO_NESTED is given where some beginning of the text has over HYPUZ_MAX_NESTING more of ( and [ than of ) and ], those of
 * Square-1 pairs included, so that a pair inside 64 groups is refused, which a tree may hold; braces do not count. Where in the
 * text a mistake stands is not told.
 * Example: [R: U2 F]' gives four records, of the conjugate, of R, of U2 and of F. */
uint64_t hypuz_parse_notation(const uint8_t *text, size_t text_size, uint32_t features, uint8_t *tree, size_t tree_size);

/* Counts the steps that the tree unrolls into. Value: their number.
 * Refusals: TOO_LONG, NOT_UTF8, NOT_WELL_FORMED, then NISS (a NISS group is reached) or OVERFLOW (a pair with -2147483648 is to be
 * undone), whichever unrolling meets first, then TOO_MANY_STEPS. Cost: the check alone.
 * Example: 4 for [R: U2 F]'. */
uint64_t hypuz_count_steps(const uint8_t *text, size_t text_size, const uint8_t *tree, size_t tree_size);

/* Writes the record of the step at a place, counted from 0. Value: HYPUZ_RECORD.
 * Refusals: TOO_LONG, NOT_UTF8, NOT_WELL_FORMED, NISS or OVERFLOW as in counting, TOO_MANY_STEPS, NO_SUCH_PLACE, NO_ROOM.
 * Room: HYPUZ_STEP_ROOM. Cost: linear in the text and the tree, however many steps there are.
 * Example: place 1 of [R: U2 F]' is F'. */
uint64_t hypuz_seek_step(const uint8_t *text, size_t text_size, const uint8_t *tree, size_t tree_size, uint64_t place,
                         uint8_t *step, size_t step_size);

/* Writes the list of all steps, a record for each in the order in which they are played; it is a tree over the same text.
 * Value: bytes written.
 * Refusals: TOO_LONG, NOT_UTF8, NOT_WELL_FORMED, NISS or OVERFLOW as in counting, TOO_MANY_STEPS, NO_ROOM.
 * Room: HYPUZ_LIST_ROOM(count), where the count is that of hypuz_count_steps: a short text may have a long list.
 * Cost: beyond the check it grows with the list. What a multiplier repeats is copied; groups without steps are passed one by one,
 * again each time that a commutator or conjugate around them plays its list.
 * Example: [R: U2 F]' gives R F' U2' R'. */
uint64_t hypuz_flatten(const uint8_t *text, size_t text_size, const uint8_t *tree, size_t tree_size, uint8_t *out, size_t out_size);

/* Writes the shallow inverse, a tree over the same text: the outer list reversed, its leaves undone and the multipliers of its
 * groups negated. What stands inside a group stays as it is. Value: bytes written.
 * Refusals: TOO_LONG, NOT_UTF8, NOT_WELL_FORMED, OVERFLOW, NO_ROOM. Room: HYPUZ_INVERSE_ROOM(tree_size).
 * Cost: linear in the tree, beyond the check.
 * Where the tree unrolls, and no step is a pair with -2147483648, the inverse unrolls too: into the same steps undone, from the
 * last to the first. The inverse of the inverse is the tree again. A NISS group is kept and gets the other sign like any group;
 * the inverse is a formal one there, since neither unrolls.
 * Example: (R U)2 [F, D] gives [F, D]' (R U)2'. */
uint64_t hypuz_inv(const uint8_t *text, size_t text_size, const uint8_t *tree, size_t tree_size, uint8_t *out, size_t out_size);

/* Writes the deep inverse, a tree over the same text: the outer list reversed and its leaves undone. Groups keep their multipliers,
 * with their signs. The list of a group with a single list, and the second list of a conjugate, are inverted deep in their turn;
 * the two lists of a commutator change places, unchanged inside; the first list of a conjugate stays. Value: bytes written.
 * Refusals: TOO_LONG, NOT_UTF8, NOT_WELL_FORMED, then NISS (a NISS group is to be inverted, also inside a group of multiplier 0) or
 * OVERFLOW, whichever is met first when each list is gone through from its end, a group before what it holds, then NO_ROOM.
 * Room: HYPUZ_INVERSE_ROOM(tree_size).
 * Cost: linear in the tree, beyond the check.
 * Where the tree unrolls, and no step is a pair with -2147483648, the deep inverse unrolls too, if it is not refused: into the same
 * records as the shallow one. The deep inverse of the deep inverse is never refused and is the tree again.
 * Example: (R U)2' [F, D] gives [D, F] (U' R')2'. */
uint64_t hypuz_inv_deep(const uint8_t *text, size_t text_size, const uint8_t *tree, size_t tree_size, uint8_t *out,
                        size_t out_size);

/* Prints a tree. Value: bytes written, without a final 0.
 * Refusals: TOO_LONG, NOT_UTF8, NOT_WELL_FORMED, NO_ROOM. Room: HYPUZ_DISPLAY_ROOM(text_size) or, for any tree,
 * hypuz_display_room_of. Cost: linear in what is printed, beyond the check.
 * One space stands between nodes, so line ends print as spaces, and one after the comma or colon of a commutator, a conjugate and
 * a pair, so a pair has a space inside: (1, -2). Layer sets and constraints print without white space, and ranges in sets with .. .
 * A range before a family prints with its lower layer first, one in a set as it was written. A multiplier of 1, leading zeros and
 * the sign of 0 are left out, and every prime is an apostrophe. What is printed of a tree that reading gave, or of its shallow or
 * deep inverse, is read again in the same setting with the same meaning, unless it is longer than a text may be.
 * Example: (R1  U)02 with a line end after it gives (R U)2, and {1-2, 3}R{A -> B} gives {1..2,3}R{A->B}. */
uint64_t hypuz_display(const uint8_t *text, size_t text_size, const uint8_t *tree, size_t tree_size, uint8_t *out, size_t out_size);

/* Resolves the written prefix of a move on an axis of max_layer layers, 1 being the outermost, and writes the layers as ranges in
 * rising order, with a layer or more left out between two of them. Value: how many ranges, not bytes; hypuz_range_low and
 * hypuz_range_high take each apart.
 * Refusals: TOO_LONG, NOT_UTF8, NOT_WELL_FORMED, NO_SUCH_LAYER_COUNT (max_layer is 0 or above HYPUZ_MAX_LAYER), NO_SUCH_RECORD
 * (there is no record with this number, or it is not a move), NO_ROOM. Room: HYPUZ_RANGES_ROOM. Cost: linear in max_layer and
 * the layer set, beyond the check.
 * This is not yet what the move turns: what its family means is the host's to know. No prefix means layer 1, so Rw and M give
 * 1-1, and 3Rw gives 3-3. In a layer set -1 is the deepest layer, -2 the one before it and so on, unless allow_negatives is 0:
 * then an element of the set that has a negative number gives nothing. What of a number or a range is not from 1 to max_layer is
 * left out. With a tilde the answer is the layers from 1 to max_layer that the same prefix without it does not give.
 * Examples, on five layers: {1,3,2,-1}R gives 1-3 and 5-5, with allow_negatives 0 only 1-3; {-1..2}R gives 2-5, {-9..2}R gives
 * 1-2, and {6..9}R nothing; ~2R gives 1-1 and 3-5. */
uint64_t hypuz_simplify(const uint8_t *text, size_t text_size, const uint8_t *tree, size_t tree_size, uint64_t record,
                        uint32_t max_layer, uint32_t allow_negatives, uint8_t *out, size_t out_size);

/* The range with a number, from 0, in what hypuz_simplify wrote: its lowest and its highest layer. */
#define HYPUZ_RANGE 4
HYPUZ_INLINE unsigned hypuz_range_low(const uint8_t *ranges, size_t k) {
    return (unsigned)hypuz_bytes(ranges + k * HYPUZ_RANGE, 2);
}
HYPUZ_INLINE unsigned hypuz_range_high(const uint8_t *ranges, size_t k) {
    return (unsigned)hypuz_bytes(ranges + k * HYPUZ_RANGE + 2, 2);
}

/* Says where the family of a move or a rotation stands in the text. Value: its offset times 2^24 plus its length, which
 * hypuz_family_span takes apart.
 * Refusals: TOO_LONG, NOT_UTF8, NOT_WELL_FORMED, NO_SUCH_RECORD (there is no record with this number, or it is neither a move nor
 * a rotation). Cost: the check alone. Of a tree that is known to be one, hypuz_record_family says the same without a check.
 * Example: of record 2 of R (Uw) it is offset 3, length 2. */
uint64_t hypuz_family(const uint8_t *text, size_t text_size, const uint8_t *tree, size_t tree_size, uint64_t record);

HYPUZ_INLINE struct hypuz_span hypuz_family_span(uint64_t answer) {
    struct hypuz_span span = {(uint32_t)(hypuz_value(answer) >> 24), (uint32_t)(hypuz_value(answer) & 0xffffffu)};
    return span;
}

#ifdef __cplusplus
}
#endif

#endif
