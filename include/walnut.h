/* The calls of the proved library for C. Link with crates/exports/out/libexports.a, which 'rt lib' writes in
 * crates/exports.
 *
 * Every call takes any values and returns; none allocates, keeps a pointer or calls back.
 * A pointer must be to as many entries as its declaration or the length after it says, also where the length is 0, and
 * what one call is lent to write must not overlap anything else that it is lent.
 *
 * A call that answers uint16_t answers 0 for acceptance or a refusal number; README.md lists them.
 */
#ifndef WALNUT_H
#define WALNUT_H

#include <stdbool.h>
#include <stddef.h>
#include <stdint.h>

#ifdef __cplusplus
extern "C" {
#endif

enum {
    WALNUT_BARS = 128,
    WALNUT_WIRES = 256,
    WALNUT_ENDS = 512,
    WALNUT_SEGMENTS = 511,       /* of a mask: at most 256 faces, and 255 wires beside wire 0 */
    WALNUT_TEXT = 8192,          /* long enough for every written sheet and for every drawing's text */
    WALNUT_PLATE_OUTPUT = 187031 /* long enough for what `plate` prints; walnut_plate refuses a shorter buffer */
};

/* A place for a sheet, whose parts the calls below take one by one: n bars, m wires, the tail and the head of each wire,
 * and for each end the next end clockwise at the same bar. Wire k has end 2k at its tail and end 2k+1 at its head.
 * In a sound sheet the entries past those in use are 0. */
typedef struct {
    size_t bars, wires;
    uint16_t tails[WALNUT_WIRES], heads[WALNUT_WIRES], nexts[WALNUT_ENDS];
} walnut_sheet;

/* The fresh sheet: bars 0 and 1, wires 0 and 1 both from 0 to 1. */
#define WALNUT_FRESH_SHEET {2, 2, {0}, {1, 1}, {2, 3, 0, 1}}

/* The parts of a sheet as a call takes them that reads it, and as one that changes it. */
#define WALNUT_READ(s) (s)->bars, (s)->wires, (s)->tails, (s)->heads, (s)->nexts
#define WALNUT_CHANGE(s) &(s)->bars, &(s)->wires, (s)->tails, (s)->heads, (s)->nexts

/* Load: reads a sheet from the front of the text into the sheet's parts; `taken` gets the number of bytes read. A line, an
 * edit line too, may end in byte 10 alone or in 13 followed by 10.
 * A text of no bytes, of length 0, gives the fresh sheet, whatever the parts held: the call answers 0, and `taken` gets 0
 * (`text` is no null pointer then either).
 * Refused (1 to 8) the parts keep what they held and `taken` gets 0; so only the answer tells whether it was refused. */
uint16_t walnut_load(const uint8_t *text, size_t length, size_t *bars, size_t *wires, uint16_t tails[WALNUT_WIRES],
                     uint16_t heads[WALNUT_WIRES], uint16_t nexts[WALNUT_ENDS], size_t *taken);

/* The load of links: as load, of a text with a line `link=a,b` in place of every `wire=` line. It chooses the directions:
 * wire k joins the two bars of link k, in one order or the other; wire 0 goes from bar 0 to bar 1, and its line must be
 * `link=0,1`. Refused: 1 to 5 and 8 as load (a `wire=` line is 1), and 19, in place of 6 and 7, where no choice of directions
 * keeps the rules on circles and on bars 0 and 1. */
uint16_t walnut_load_links(const uint8_t *text, size_t length, size_t *bars, size_t *wires, uint16_t tails[WALNUT_WIRES],
                           uint16_t heads[WALNUT_WIRES], uint16_t nexts[WALNUT_ENDS], size_t *taken);

/* Whether the sheet is sound. */
bool walnut_is_sound(size_t bars, size_t wires, const uint16_t tails[WALNUT_WIRES], const uint16_t heads[WALNUT_WIRES],
                     const uint16_t nexts[WALNUT_ENDS]);

/* Trace faces: `faces` gets for each end the number of the face whose walk leaves its bar by that end, so that entry 2k is
 * the left face of wire k and entry 2k+1 its right face. There are m - n + 2 faces, numbered from 0 in the order of their
 * lowest such end; entries past the last end are 0. Refused (9) all 512 entries are 0. */
uint16_t walnut_trace_faces(size_t bars, size_t wires, const uint16_t tails[WALNUT_WIRES],
                            const uint16_t heads[WALNUT_WIRES], const uint16_t nexts[WALNUT_ENDS],
                            uint16_t faces[WALNUT_ENDS]);

/* The kinds of edits. */
enum { WALNUT_IN = 0, WALNUT_RUN = 1, WALNUT_OUT = 2, WALNUT_OFF = 3, WALNUT_UNREADABLE = 5 };

/* An edit by its kind: put in (wire a), run (bar a, wire p, bar b, wire q), take out a wire (a), take out a bar (a);
 * numbers that a kind does not have are not looked at. The sheet afterwards takes the place of the one lent; refused (9 to
 * 16, or 1 for any other kind) it stays as it is. */
uint16_t walnut_edit(uint16_t kind, size_t a, size_t p, size_t b, size_t q, size_t *bars, size_t *wires,
                     uint16_t tails[WALNUT_WIRES], uint16_t heads[WALNUT_WIRES], uint16_t nexts[WALNUT_ENDS]);

/* Read edit: answers the kind of the edit line at the front of the text, WALNUT_UNREADABLE where it is none. `numbers`
 * gets its numbers and 0 past them, `taken` the bytes up to and with the first byte 10, or all where there is none. */
uint16_t walnut_read_edit(const uint8_t *text, size_t length, uint16_t numbers[4], size_t *taken);

/* A drawing: for each bar its row and its first and last column, for each wire its column and the rows of its tail and its
 * head. A bar begins with its wires; bars 0 and 1 end with them, every other bar one column before the face to its right.
 * Entries past those of the sheet are 0. */
typedef struct {
    uint16_t row, first, last;
} walnut_drawn_bar;

typedef struct {
    uint16_t column, low, high;
} walnut_drawn_wire;

typedef struct {
    uint16_t rows, columns;
    walnut_drawn_bar bars[WALNUT_BARS];
    walnut_drawn_wire wires[WALNUT_WIRES];
} walnut_drawing;

/* The kinds of the two loads in a list of calls. */
enum { WALNUT_LOAD = 4, WALNUT_LOAD_LINKS = 6 };

/* A list of calls, made one after the other from the fresh sheet; answers the drawing of the sheet that they leave, which
 * always has one. Five numbers a call: its kind, then a, p, b and q of an edit; a load loads the bytes of the text from
 * number a up to, not including, number p, as far as the text has them (no bytes give the fresh sheet), and numbers b and
 * q are not looked at; any other kind is refused 10. What is left after the last five numbers is no call. For each call
 * `answers` gets two entries, what it answers and the bytes that it took (0 for an edit and for a load of no bytes), from
 * the front on as far as two fit; the rest keeps what it held. Lengths are of the arrays, not counts of calls. */
walnut_drawing walnut_replay(const size_t *calls, size_t calls_length, const uint8_t *text, size_t text_length,
                             size_t *answers, size_t answers_length);

/* Write sheet and write drawing: the text goes to the front of the buffer and its length to `count`; the rest of the
 * buffer keeps its bytes. Refused (9; 17 for a buffer shorter than the text) nothing is written and `count` gets 0. */
uint16_t walnut_write_sheet(size_t bars, size_t wires, const uint16_t tails[WALNUT_WIRES],
                            const uint16_t heads[WALNUT_WIRES], const uint16_t nexts[WALNUT_ENDS], uint8_t *buffer,
                            size_t length, size_t *count);
uint16_t walnut_write_drawing(size_t bars, size_t wires, const uint16_t tails[WALNUT_WIRES],
                              const uint16_t heads[WALNUT_WIRES], const uint16_t nexts[WALNUT_ENDS], uint8_t *buffer,
                              size_t length, size_t *count);

/* Check drawing: whether the text, of `length` bytes, is a drawing of the sheet, in the layout that write drawing has, in
 * which nothing touches that may not and the wires of every bar stand in clockwise order. The drawing may be any program's,
 * or made by hand: its rows and columns may be larger than ours, up to 998, its bars longer, and another face may be outside.
 * Answers 0, or 9, or the first of these that holds of the whole drawing:
 * 20 the text hasn't the lines `rows=`, `columns=`, one `bar=` for each bar and one `wire=` for each wire of this sheet,
 *    each ended by byte 10 alone, and nothing else; or a bar's first column exceeds its last, or a wire's tail row isn't
 *    below its head row, or a row or column isn't below the number that the first two lines declare;
 * 21 a wire doesn't begin on its own tail bar and end on its own head bar, or two segments share a point that they may not;
 * 22 the wires of a bar stand in another order than the sheet's. */
uint16_t walnut_check_drawing(size_t bars, size_t wires, const uint16_t tails[WALNUT_WIRES],
                              const uint16_t heads[WALNUT_WIRES], const uint16_t nexts[WALNUT_ENDS], const uint8_t *text,
                              size_t length);

/* The kinds of mask segments. */
enum { WALNUT_UPRIGHT = 0, WALNUT_LEVEL = 1 };

/* A segment of the insulation mask, ends included: an upright at x = `at` runs from y = `from` to y = `to`, a level segment
 * at y = `at` from x = `from` to x = `to`. x counts columns and y rows, as in the drawing; all coordinates are halves, and
 * exact. */
typedef struct {
    uint16_t kind;
    float at, from, to;
} walnut_segment;

/* The least and greatest x and y of all segments of a mask; four zeros where there are none. */
typedef struct {
    float least_x, greatest_x, least_y, greatest_y;
} walnut_frame;

/* `count` segments and their frame; entries past them are uprights of zeros. */
typedef struct {
    size_t count;
    walnut_segment segments[WALNUT_SEGMENTS];
    walnut_frame frame;
} walnut_mask;

/* The insulation mask of the sheet, which goes with its drawing: first for each face, in the order of walnut_trace_faces, an
 * upright half a column left of its column; then for each wire from 1 up a level segment half a row above its tail's row,
 * from the upright of its left face to that of its right face. An upright runs from the lowest to the highest of the level
 * segments that end on it. Each wire but 0 crosses its own level segment in one point, and the drawing and the mask meet
 * nowhere else. Refused (9) there are no segments, and the frame is four zeros. */
uint16_t walnut_insulation_mask(size_t bars, size_t wires, const uint16_t tails[WALNUT_WIRES],
                                const uint16_t heads[WALNUT_WIRES], const uint16_t nexts[WALNUT_ENDS],
                                walnut_mask *mask);

/* What the program `plate` prints for the input, in the front of the buffer; its length goes to `count`, the rest of the
 * buffer keeps its bytes. Refusals of the input are part of what it prints. Answers 0, or 17 for a buffer shorter than
 * WALNUT_PLATE_OUTPUT; then nothing is written and `count` gets 0. */
uint16_t walnut_plate(const uint8_t *input, size_t input_length, uint8_t *buffer, size_t buffer_length, size_t *count);

/* The level of each node, which is the most edges on a directed path that ends at it; 0 past the last node. False, and
 * all levels 0, where there is a directed circle, an end is not a node, or there are more than 256 nodes or edges. */
bool walnut_levels(size_t nodes, size_t edges, const uint16_t from[256], const uint16_t to[256], uint16_t level[256]);

/* The number of orbits of a permutation of the numbers below `size` (at most 512). `orbit` gets for each number its
 * orbit, numbered from 0 in the order of their lowest numbers, and 0 past the last number. */
size_t walnut_trace(size_t size, const uint16_t step[512], uint16_t orbit[512]);

#ifdef __cplusplus
}
#endif

#endif
