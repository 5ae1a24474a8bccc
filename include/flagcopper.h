/* Flagcopper: a proved interpreter for MiniOO scripts (target/staticlib/libcapi.a, made by `tests/make capi`).
 *
 * Four functions check a script, run it, run it with a row for each step, and run it with turns taken fairly; one makes the
 * script from MiniOO text, one shows a script as text.
 * Each answer, and every word of what the caller lends, is the definitions' for every input: any bytes, any choices, any
 * workspace. They keep nothing between calls, allocate nothing and never stop the program. Give a call some 200 KB of
 * stack, flagcopper_write 4 MB: of the scripts measured, the deepest used 148 KB in a run and 1.84 MB there (docs/CHECK.md).
 *
 * C can't say what the proofs rely on, so the caller owes it: a pointer isn't null, not even with length 0, and points
 * to as many aligned elements as its length says; what is lent to be written (workspace, rows, picks, words, output)
 * overlaps nothing else that is passed. */
#ifndef FLAGCOPPER_H
#define FLAGCOPPER_H

#include <stddef.h>
#include <stdint.h>

#ifdef __cplusplus
extern "C" {
#endif

/* The words that a run needs; fewer are refused with 10. Words past these are neither read nor written. */
#define FLAGCOPPER_SIZE 5378

/* The words of a row: choice, node, tag, frames after the step, objects after the step. */
#define FLAGCOPPER_ROW 5

/* Where there is no place or no node: both count from 0, so zero is a real one. */
#define FLAGCOPPER_NOWHERE UINT32_MAX

/* A number of zero means nothing in each of these, so a struct of zeros is no answer: no verdict, neither a refusal nor
 * an end. Places and nodes count from 0.
 *
 * refusal                                                          place
 *   10  workspace shorter than the size; tested before all others  0
 *    1  under 10 bytes                                             0
 *    2  a start or count in the contents is wrong                  0
 *    3  wrong length                                               0
 *    4  attribute code zero or not above the one before            its position
 *    5  no such tag                                                node
 *    6  an unused word isn't zero                                  node
 *    7  name or field index out of range, child not below its
 *       parent, or child of the wrong kind                         node
 *    8  a node other than the root not used exactly once, or the
 *       root isn't a command                                       lowest such node
 *    9  a name used where it isn't declared                        lowest such node
 */
typedef struct {
    uint32_t verdict; /* FLAGCOPPER_ACCEPTED or FLAGCOPPER_REFUSED */
    uint32_t number;  /* the refusal; 0 where accepted */
    uint32_t place;   /* FLAGCOPPER_NOWHERE where accepted */
} flagcopper_checked;

enum { FLAGCOPPER_ACCEPTED = 1, FLAGCOPPER_REFUSED = 2 };

/* end                   number                                   node
 *   1  done             0                                        nowhere
 *   2  fault            1 difference of other than integers      where it arose
 *                       2 difference outside 32 signed bits
 *                       3 selection or field assignment on no
 *                         object
 *                       4 selector isn't a field
 *                       5 equal on unlike or unfit kinds
 *                       6 less on other than integers
 *                       7 call of other than a procedure
 *                       8 variable read that wasn't set
 *   3  room             1 frames, 2 objects, 3 control           nowhere
 *   4  choices used up  0                                        nowhere
 *   5  choice out of    0                                        nowhere
 *      range
 */
typedef struct {
    uint32_t refusal; /* 0: accepted and run, place is nowhere; else end, number and steps are 0, node is nowhere */
    uint32_t place;
    uint32_t end;
    uint32_t number;
    uint32_t node;
    size_t steps;
} flagcopper_told;

/* FLAGCOPPER_SIZE, as the library has it. */
size_t flagcopper_size(void);

/* The first broken rule, for a run that will be lent so many words. */
flagcopper_checked flagcopper_check(const uint8_t *script, size_t script_bytes, size_t workspace_words);

/* Checks and runs. Each choice, one byte, picks a movable command by its position from 0; one is used for each step.
 * A refusal leaves the workspace as it was; else its first FLAGCOPPER_SIZE words are the state, whatever they were. */
flagcopper_told flagcopper_run(const uint8_t *script, size_t script_bytes, const uint8_t *choices, size_t count,
                               uint64_t *workspace, size_t workspace_words);

/* The same, with a row for each step taken, as many whole rows as fit; the rest of the rows isn't written. */
flagcopper_told flagcopper_trace(const uint8_t *script, size_t script_bytes, const uint8_t *choices, size_t count,
                                 uint64_t *workspace, size_t workspace_words, uint32_t *rows, size_t row_words);

typedef struct {
    flagcopper_told told;
    size_t picked; /* choices: the steps, and one more where a step stopped the run, for a fault or room; 0 where refused */
} flagcopper_turned;

/* Checks and runs with turns taken fairly: the run picks its own choices, at most as many as `picks` has bytes. Movable
 * commands queue, at first left to right. The front one moves, and the commands that its step put into control go to the
 * back, left to right; an atom that is entered is one turn up to the step that leaves it, and inside it the leftmost moves.
 * So a command with k others ahead of it moves at turn k + 1, unless an atom entered meanwhile never ends or the run stops.
 *
 * The choices are the first `picked` bytes of `picks`, with the one for a step that then stopped the run; its other bytes are
 * neither read nor written. flagcopper_run on them gives the same answer and words. End 5 never comes; 4 comes when as many
 * steps were taken as `picks` has bytes and the run isn't done. A refusal writes nothing. */
flagcopper_turned flagcopper_fair(const uint8_t *script, size_t script_bytes, uint8_t *picks, size_t pick_bytes,
                                  uint64_t *workspace, size_t workspace_words);

/* ---- written scripts: from MiniOO text and a list of fields to the script's bytes, its image
 *
 * The list has a row for each field, `class,3` and byte 10: its name and its attribute code, codes rising, at most 16. */

/* The bytes that are lent for an image, however short it is; fewer are refused with 20. */
#define FLAGCOPPER_IMAGE 16426

/* A struct of zeros is no answer here either. Lines count from 1. Of several mistakes the first that stands in the text is
 * told, and at one place the first of 22 to 26.
 *
 * number                                                           line
 *   20  output shorter than FLAGCOPPER_IMAGE; tested before all    0
 *   28  fewer words than flagcopper_read_words says; tested next   0
 *   21  the list of fields is wrong; tested before the text        0
 *   22  a byte that stands in no text                              its line
 *   23  a word, number or symbol with which no text goes on, or
 *       a text that ends too early                                 its line, the line of the text's end
 *   24  a field that isn't in the list                             its line
 *   25  a number outside 32 signed bits                            its line
 *   26  the 129th name                                             its line
 *   27  over 2,048 nodes, in a text that is right otherwise        0
 */
typedef struct {
    uint32_t verdict; /* FLAGCOPPER_ACCEPTED: there is an image; FLAGCOPPER_REFUSED */
    uint32_t number;  /* the refusal; 0 where there is an image */
    size_t line;      /* 0 where there is none */
    size_t length;    /* bytes of the image; 0 where refused */
} flagcopper_reading;

/* The words to lend for a text of so many bytes, three for each and four; SIZE_MAX where that is more. */
size_t flagcopper_read_words(size_t text_bytes);

/* Reads a written script. The image is the first `length` bytes of the output, and no other byte of it is written; a
 * refusal writes none. Told of FLAGCOPPER_SIZE words or more, flagcopper_check accepts the image or refuses it with 9, a
 * name used where it isn't declared: no other reason is left. Of the words the first flagcopper_read_words(text_bytes) are zero afterwards, whatever they were,
 * but 20, 28 and 21 leave them as they were; those past them are neither read nor written. */
flagcopper_reading flagcopper_read(const uint8_t *text, size_t text_bytes, const uint8_t *list, size_t list_bytes,
                                   uint32_t *words, size_t word_count, uint8_t *output, size_t output_bytes);

/* ---- images as text: what an old image says, as MiniOO text with the fewest parentheses
 *
 * Names are A0, A1, .. by their numbers in the image. The fields have the words of a list, whose codes must be the image's, or,
 * with a list of no bytes, a0, a1, .. in their order. Read with the same list (where it had no bytes: with
 * rows a0, a1, .. and the image's codes), the text gives the same tree, its nodes children first, its names numbered by
 * first appearance.
 *
 * number, in this order
 *   30  the image breaks one of the rules 1 to 8 of the check (scoping, 9, doesn't matter here)
 *   31  the list of fields is wrong
 *   32  its codes aren't the image's
 *   33  the text is longer than the output
 */
typedef struct {
    uint32_t verdict; /* FLAGCOPPER_ACCEPTED: there is a text; FLAGCOPPER_REFUSED */
    uint32_t number;  /* the refusal; 0 where there is a text */
    size_t length;    /* bytes of the text; 0 where refused */
} flagcopper_text;

/* The text is the first `length` bytes of the output, and no other byte of it is written; a refusal writes none. It recurs once
 * for each level of the script (docs/DECISIONS.md 7.46), so give it 4 MB of stack. */
flagcopper_text flagcopper_write(const uint8_t *image, size_t image_bytes, const uint8_t *list, size_t list_bytes,
                                 uint8_t *output, size_t output_bytes);

/* ---- the state, read back from the words of a run (docs/WORKSPACE.md)
 *
 * Words 0, 1 and 2 count frames, objects and parts of control; from word 3 on a word for each of 1,024 frames, from 1,027
 * on 16 words for each of 256 objects, from 5,123 on a word for each of 255 parts, in preorder. A frame and an object
 * keep their number as long as they are there. Unused words are zero. Ask only below the counts. */

static inline uint64_t flagcopper_frames(const uint64_t *workspace) { return workspace[0]; }
static inline uint64_t flagcopper_objects(const uint64_t *workspace) { return workspace[1]; }
static inline uint64_t flagcopper_parts(const uint64_t *workspace) { return workspace[2]; }

/* A value is a word of 35 bits: its kind and, above it, what the kind is of. A word of another kind holds no value: no run leaves
 * one there. 6 is reserved: until order 2 it was a stored fault, and it is not used again. Unset, which isn't null, is what a
 * declared variable's cell holds until something is stored there; no field holds it. */
enum {
    FLAGCOPPER_NULL = 1,
    FLAGCOPPER_INT = 2,    /* its 32 bits: flagcopper_int */
    FLAGCOPPER_FIELD = 3,  /* its index, from 1 */
    FLAGCOPPER_OBJECT = 4, /* its number, from 0 */
    FLAGCOPPER_PROC = 5,   /* flagcopper_node and flagcopper_chain */
    FLAGCOPPER_UNSET = 7   /* only in a cell; nothing above it */
};

/* The cell of a frame; its name; its outer frame: 0 for none, k + 1 for frame k. */
static inline uint64_t flagcopper_cell(const uint64_t *workspace, size_t frame) {
    return workspace[3 + frame] & (((uint64_t)1 << 35) - 1);
}
static inline uint32_t flagcopper_name(const uint64_t *workspace, size_t frame) {
    return (uint32_t)(workspace[3 + frame] >> 35) & 255;
}
static inline uint32_t flagcopper_outer(const uint64_t *workspace, size_t frame) {
    return (uint32_t)(workspace[3 + frame] >> 43);
}

/* A value of an object: `field` is an index from 1 to F. */
static inline uint64_t flagcopper_value(const uint64_t *workspace, size_t object, size_t field) {
    return workspace[1027 + 16 * object + (field - 1)];
}

/* A part of control, in preorder. Kind 1: a command with its chain; 2: a tree followed by this command, the tree next;
 * 3: two trees side by side, both next; 4: an entered atom around a tree, the tree next. */
static inline uint64_t flagcopper_part(const uint64_t *workspace, size_t part) { return workspace[5123 + part]; }

/* Of a value or a part: its kind, and what stands above it. Of a procedure, or a part of kind 1 or 2: its node, and its
 * chain, 0 for none and k + 1 for frame k with its outer frames. */
static inline uint32_t flagcopper_kind(uint64_t word) { return (uint32_t)(word & 7); }
static inline uint32_t flagcopper_payload(uint64_t word) { return (uint32_t)(word >> 3); }
static inline uint32_t flagcopper_chain(uint64_t word) { return flagcopper_payload(word) & 2047; }
static inline uint32_t flagcopper_node(uint64_t word) { return flagcopper_payload(word) >> 11; }

/* The integer of a value of kind FLAGCOPPER_INT. */
static inline int64_t flagcopper_int(uint64_t value) {
    return (int64_t)flagcopper_payload(value) - (((int64_t)flagcopper_payload(value) >> 31) << 32);
}

#ifdef __cplusplus
}
#endif

#endif
