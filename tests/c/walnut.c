/* The C names of the library, by their header: what each answers on plates of the specification and on what is refused. */
#include "walnut.h"

#include <stdio.h>
#include <string.h>

static int passed, failed;

static void check(bool holds, const char *what) {
    if (holds) {
        passed++;
    } else {
        failed++;
        printf("failed: %s\n", what);
    }
}

/* Plate P4 and its drawing, as the specification gives them. */
static const char p4[] = "bars=4\nwires=6\nwire=0,1\nwire=0,2\nwire=2,1\nwire=0,3\nwire=3,1\nwire=2,3\n"
                         "around=1,3,0\naround=0,4,2\naround=2,5,1\naround=4,3,5\n";
static const char p4_drawing[] = "rows=4\ncolumns=4\nbar=0,0,3\nbar=3,0,3\nbar=1,0,1\nbar=2,1,2\n"
                                 "wire=3,0,3\nwire=0,0,1\nwire=0,1,3\nwire=2,0,2\nwire=1,2,3\nwire=1,1,2\n";

/* P4 after `in=1` as a written sheet, and its drawing: by hand. Bar 4 goes up to the column before wire 3. */
static const char p4_in[] = "bars=5\nwires=7\nwire=0,1\nwire=0,4\nwire=2,1\nwire=0,3\nwire=3,1\nwire=2,3\nwire=4,2\n"
                            "around=0,1,3\naround=0,4,2\naround=2,5,6\naround=3,5,4\naround=1,6\n";
static const char p4_in_drawing[] = "rows=5\ncolumns=4\nbar=0,0,3\nbar=4,0,3\nbar=2,0,1\nbar=3,1,2\nbar=1,0,1\n"
                                    "wire=3,0,4\nwire=0,0,1\nwire=0,2,4\nwire=2,0,3\nwire=1,3,4\nwire=1,2,3\nwire=0,1,2\n";

/* Links of which the directions are to be found; there is one choice, by hand: 0 to 2, 2 to 3 and to 4, 4 to 3, 3 to 1. */
static const char links[] = "bars=5\nwires=6\nlink=0,1\nlink=2,0\nlink=3,2\nlink=2,4\nlink=3,4\nlink=1,3\n"
                            "around=1,0\naround=0,5\naround=3,1,2\naround=2,5,4\naround=4,3\n";
static const char links_sheet[] = "bars=5\nwires=6\nwire=0,1\nwire=0,2\nwire=2,3\nwire=2,4\nwire=4,3\nwire=3,1\n"
                                  "around=0,1\naround=0,5\naround=1,2,3\naround=2,5,4\naround=3,4\n";

/* The drawing of these links, as a record. */
static const walnut_drawing links_drawing = {5,
                                             3,
                                             {{0, 0, 2}, {4, 0, 2}, {1, 0, 1}, {3, 0, 1}, {2, 1, 1}},
                                             {{2, 0, 4}, {0, 0, 1}, {0, 1, 3}, {1, 1, 2}, {1, 2, 3}, {0, 3, 4}}};
static const char links_output[] = "rows=5\ncolumns=3\nbar=0,0,2\nbar=4,0,2\nbar=1,0,1\nbar=3,0,1\nbar=2,1,1\n"
                                   "wire=2,0,4\nwire=0,0,1\nwire=0,1,3\nwire=1,1,2\nwire=1,2,3\nwire=0,3,4\n";

/* Three links, bar 2 on one of them: there is no choice. */
static const char hanging[] = "bars=3\nwires=3\nlink=0,1\nlink=1,0\nlink=0,2\naround=0,1,2\naround=0,1\naround=2\n";

/* Plate P5: the input and the output of the specification. */
static const char p5[] = "bars=2\nwires=2\nwire=0,1\nwire=0,1\naround=0,1\naround=0,1\nin=1\nrun=0,1,2,2\n";
static const char p5_output[] = "rows=3\ncolumns=3\nbar=0,0,2\nbar=2,0,2\nbar=1,0,1\n"
                                "wire=2,0,2\nwire=0,0,1\nwire=0,1,2\nwire=1,0,1\n";

/* The same edits of the fresh sheet as a list of calls, and the same drawing as a record. */
static const size_t p5_calls[] = {WALNUT_IN, 1, 0, 0, 0, WALNUT_RUN, 0, 1, 2, 2};
static const walnut_drawing p5_drawing = {
    3, 3, {{0, 0, 2}, {2, 0, 2}, {1, 0, 1}}, {{2, 0, 2}, {0, 0, 1}, {0, 1, 2}, {1, 0, 1}}};
_Static_assert(sizeof(walnut_drawing) == 2 * (2 + 3 * WALNUT_BARS + 3 * WALNUT_WIRES), "a drawing has no padding");

static uint8_t buffer[WALNUT_PLATE_OUTPUT];

static const uint8_t *bytes(const char *text) { return (const uint8_t *)text; }

static bool same_sheet(const walnut_sheet *s, const walnut_sheet *t) {
    return s->bars == t->bars && s->wires == t->wires && memcmp(s->tails, t->tails, sizeof s->tails) == 0 &&
           memcmp(s->heads, t->heads, sizeof s->heads) == 0 && memcmp(s->nexts, t->nexts, sizeof s->nexts) == 0;
}

/* From `from` on the first `end` bytes of the buffer are all '#'. */
static bool untouched(size_t from, size_t end) {
    while (from < end && buffer[from] == '#') from++;
    return from == end;
}

/* The answer was acceptance, and the text lies in the front of a buffer of '#', which it leaves otherwise. */
static bool holds_text(uint16_t answer, size_t count, const char *text) {
    return answer == 0 && count == strlen(text) && memcmp(buffer, text, count) == 0 && untouched(count, sizeof buffer);
}

static uint16_t load(walnut_sheet *s, const char *text, size_t *taken) {
    return walnut_load(bytes(text), strlen(text), WALNUT_CHANGE(s), taken);
}

static void check_load(void) {
    walnut_sheet s = WALNUT_FRESH_SHEET, fresh = WALNUT_FRESH_SHEET;
    size_t taken = 99;
    check(load(&s, "bars=02\n", &taken) == 1 && taken == 0 && same_sheet(&s, &fresh), "bars=02 is refused 1");
    check(load(&s, "bars=129\n", &taken) == 2 && taken == 0 && same_sheet(&s, &fresh), "bars=129 is refused 2");
    check(load(&s, p4, &taken) == 0 && taken == strlen(p4), "P4 loads, to its last byte");
    check(s.bars == 4 && s.wires == 6 && s.tails[5] == 2 && s.heads[5] == 3, "P4 has its counts and its last wire");
    check(s.nexts[2] == 6 && s.nexts[6] == 0 && s.nexts[0] == 2, "bar 0 of P4 has the ring 1,3,0");
    check(walnut_is_sound(WALNUT_READ(&s)), "P4 is sound");
    s.nexts[511] = 1;
    check(!walnut_is_sound(WALNUT_READ(&s)), "not with an unused entry of 1");
    check(load(&s, p5, &taken) == 0 && taken == 55 && same_sheet(&s, &fresh), "P5 begins with the fresh sheet");
    check(load(&s, "bars=2\r\nwires=2\nwire=0,1\r\nwire=0,1\naround=0,1\naround=0,1\r\nin=1\r\n", &taken) == 0 && taken == 58 && same_sheet(&s, &fresh),
          "lines may end in 13 10, and the 13s count");
    check(load(&s, "bars=2\r\r\nwires=2\n", &taken) == 1 && taken == 0 && same_sheet(&s, &fresh), "13 13 10 is refused 1");
    check(load(&s, p4, &taken) == 0 && !same_sheet(&s, &fresh), "P4 loads again");
    const walnut_sheet loaded = s;
    check(load(&s, "\n", &taken) == 1 && taken == 0 && same_sheet(&s, &loaded), "one byte 10 is refused 1");
    check(load(&s, "in=1\n", &taken) == 1 && taken == 0 && same_sheet(&s, &loaded), "edit lines alone are refused 1");
    taken = 99;
    check(load(&s, "", &taken) == 0 && taken == 0 && same_sheet(&s, &fresh), "no bytes give the fresh sheet, 0 bytes taken");
}

static uint16_t load_links(walnut_sheet *s, const char *text, size_t *taken) {
    return walnut_load_links(bytes(text), strlen(text), WALNUT_CHANGE(s), taken);
}

static void check_load_links(void) {
    static const uint16_t tails[6] = {0, 0, 2, 2, 4, 3}, heads[6] = {1, 2, 3, 4, 3, 1};
    walnut_sheet s = WALNUT_FRESH_SHEET, fresh = WALNUT_FRESH_SHEET, other;
    size_t taken = 99, count;
    check(load_links(&s, hanging, &taken) == 19 && taken == 0 && same_sheet(&s, &fresh), "a bar on one link is refused 19, and the parts are kept");
    check(load_links(&s, p4, &taken) == 1 && taken == 0 && same_sheet(&s, &fresh), "lines of wires are refused 1");
    check(load(&s, links, &taken) == 1 && taken == 0 && same_sheet(&s, &fresh), "the other load refuses links 1");
    check(load_links(&s, "bars=2\nwires=2\nlink=1,0\nlink=0,1\naround=0,1\naround=0,1\n", &taken) == 5 && same_sheet(&s, &fresh),
          "link=1,0 as link 0 is refused 5");
    check(load_links(&s, "bars=2\nwires=3\nlink=0,1\nlink=0,1\nlink=1,0\naround=0,1,2\naround=0,1,2\n", &taken) == 8 && same_sheet(&s, &fresh),
          "links with one face are refused 8");
    check(load_links(&s, links, &taken) == 0 && taken == strlen(links), "the links load, to their last byte");
    check(s.bars == 5 && s.wires == 6 && memcmp(s.tails, tails, sizeof tails) == 0 && memcmp(s.heads, heads, sizeof heads) == 0,
          "each wire has its direction");
    check(walnut_is_sound(WALNUT_READ(&s)), "the sheet is sound");
    memset(buffer, '#', sizeof buffer);
    uint16_t answer = walnut_write_sheet(WALNUT_READ(&s), buffer, WALNUT_TEXT, &count);
    check(holds_text(answer, count, links_sheet), "it is written out with lines of wires");
    check(load(&other, links_sheet, &taken) == 0 && same_sheet(&other, &s), "which load as the same sheet");
    check(load_links(&s, hanging, &taken) == 19 && taken == 0 && same_sheet(&s, &other), "refused, the parts keep that sheet");
    taken = 99;
    check(load_links(&s, "", &taken) == 0 && taken == 0 && same_sheet(&s, &fresh), "no bytes of links give the fresh sheet, 0 bytes taken");
}

/* `faces` holds the entries of the front, and 0 past them. */
static bool same_faces(const uint16_t faces[WALNUT_ENDS], const uint16_t *front, size_t length) {
    size_t end = 0;
    while (end < WALNUT_ENDS && faces[end] == (end < length ? front[end] : 0)) end++;
    return end == WALNUT_ENDS;
}

static uint16_t trace_faces(const walnut_sheet *s, uint16_t faces[WALNUT_ENDS]) {
    for (size_t end = 0; end < WALNUT_ENDS; end++) faces[end] = 999;
    return walnut_trace_faces(WALNUT_READ(s), faces);
}

static void check_trace_faces(void) {
    /* P4 has the rings 2,6,0 and 1,9,5 and 4,10,3 and 8,7,11 of ends. A walk that leaves by an end arrives by the other end of the
     * wire and leaves by the next one in its ring: by 0,9,7 in face 0, by 1,2,4 in face 1, by 3,6,11 in face 2, by 5,10,8 in face 3. */
    static const uint16_t of_fresh[4] = {0, 1, 1, 0}, of_p4[12] = {0, 1, 1, 2, 1, 3, 2, 0, 3, 0, 3, 2};
    walnut_sheet s = WALNUT_FRESH_SHEET;
    uint16_t faces[WALNUT_ENDS];
    size_t taken;
    check(trace_faces(&s, faces) == 0 && same_faces(faces, of_fresh, 4), "the fresh sheet has two faces");
    check(load(&s, p4, &taken) == 0 && trace_faces(&s, faces) == 0 && same_faces(faces, of_p4, 12), "P4 has its four faces");
    s.nexts[511] = 1;
    check(trace_faces(&s, faces) == 9 && same_faces(faces, NULL, 0), "an unused entry of 1 is refused 9, with zeros");
    s.nexts[511] = 0;
    s.nexts[0] = 0, s.nexts[6] = 2;
    check(trace_faces(&s, faces) == 9 && same_faces(faces, NULL, 0), "two rings at bar 0 are refused 9, with zeros");
    s.bars = SIZE_MAX;
    check(trace_faces(&s, faces) == 9 && same_faces(faces, NULL, 0), "so are more bars than there can be");
}

static bool same_bits(float x, float y) { return memcmp(&x, &y, sizeof x) == 0; }

static bool same_segment(const walnut_segment *s, const walnut_segment *t) {
    return s->kind == t->kind && same_bits(s->at, t->at) && same_bits(s->from, t->from) && same_bits(s->to, t->to);
}

/* The mask holds these segments, uprights of three zeros past them, and this frame. */
static bool same_mask(const walnut_mask *mask, const walnut_segment *front, size_t count, const walnut_frame *frame) {
    static const walnut_segment none = {WALNUT_UPRIGHT, 0, 0, 0};
    size_t i = 0;
    while (i < WALNUT_SEGMENTS && same_segment(&mask->segments[i], i < count ? &front[i] : &none)) i++;
    return i == WALNUT_SEGMENTS && mask->count == count && memcmp(&mask->frame, frame, sizeof *frame) == 0;
}
_Static_assert(sizeof(walnut_frame) == 4 * sizeof(float), "a frame has no padding");
_Static_assert(sizeof(walnut_segment) == 16 && sizeof(walnut_mask) == sizeof(size_t) + 16 * WALNUT_SEGMENTS + sizeof(walnut_frame),
               "a mask is as the library lays it out");

static uint16_t insulation_mask(const walnut_sheet *s, walnut_mask *mask) {
    mask->count = 999;
    for (size_t i = 0; i < WALNUT_SEGMENTS; i++) mask->segments[i] = (walnut_segment){WALNUT_LEVEL, 9, 9, 9};
    mask->frame = (walnut_frame){9, 9, 9, 9};
    return walnut_insulation_mask(WALNUT_READ(s), mask);
}

static void check_insulation_mask(void) {
    /* The fresh sheet: face 0 is left of wire 0, in column 1, and face 1 left of wire 1, in column 0. Wire 1 goes up from row 0, from
     * face 1 to face 0. */
    static const walnut_segment of_fresh[3] = {
        {WALNUT_UPRIGHT, 0.5f, 0.5f, 0.5f}, {WALNUT_UPRIGHT, -0.5f, 0.5f, 0.5f}, {WALNUT_LEVEL, 0.5f, -0.5f, 0.5f}};
    static const walnut_frame frame_of_fresh = {-0.5f, 0.5f, 0.5f, 0.5f}, zeros = {0, 0, 0, 0};
    /* P4: faces 0 to 3 are in columns 3, 0, 2, 1; wires 1 to 5 go up from rows 0, 1, 0, 2, 1, each from the face left of it to the face
     * right of it: 1 to 2, 1 to 3, 2 to 0, 3 to 0, 3 to 2. */
    static const walnut_segment of_p4[9] = {
        {WALNUT_UPRIGHT, 2.5f, 0.5f, 2.5f}, {WALNUT_UPRIGHT, -0.5f, 0.5f, 1.5f}, {WALNUT_UPRIGHT, 1.5f, 0.5f, 1.5f},
        {WALNUT_UPRIGHT, 0.5f, 1.5f, 2.5f}, {WALNUT_LEVEL, 0.5f, -0.5f, 1.5f},   {WALNUT_LEVEL, 1.5f, -0.5f, 0.5f},
        {WALNUT_LEVEL, 0.5f, 1.5f, 2.5f},   {WALNUT_LEVEL, 2.5f, 0.5f, 2.5f},    {WALNUT_LEVEL, 1.5f, 0.5f, 1.5f}};
    static const walnut_frame frame_of_p4 = {-0.5f, 2.5f, 0.5f, 2.5f};
    /* P4 after `in=1`, with a bar that goes on to column 1: the same faces; wires 1 to 6 go up from rows 0, 2, 0, 3, 2, 1, the last from
     * face 1 to face 2. */
    static const walnut_segment of_p4_in[10] = {
        {WALNUT_UPRIGHT, 2.5f, 0.5f, 3.5f}, {WALNUT_UPRIGHT, -0.5f, 0.5f, 2.5f}, {WALNUT_UPRIGHT, 1.5f, 0.5f, 2.5f},
        {WALNUT_UPRIGHT, 0.5f, 2.5f, 3.5f}, {WALNUT_LEVEL, 0.5f, -0.5f, 1.5f},   {WALNUT_LEVEL, 2.5f, -0.5f, 0.5f},
        {WALNUT_LEVEL, 0.5f, 1.5f, 2.5f},   {WALNUT_LEVEL, 3.5f, 0.5f, 2.5f},    {WALNUT_LEVEL, 2.5f, 0.5f, 1.5f},
        {WALNUT_LEVEL, 1.5f, -0.5f, 1.5f}};
    static const walnut_frame frame_of_p4_in = {-0.5f, 2.5f, 0.5f, 3.5f};
    walnut_sheet s = WALNUT_FRESH_SHEET;
    walnut_mask mask;
    size_t taken;
    check(insulation_mask(&s, &mask) == 0 && same_mask(&mask, of_fresh, 3, &frame_of_fresh), "the mask of the fresh sheet");
    check(load(&s, p4, &taken) == 0 && insulation_mask(&s, &mask) == 0 && same_mask(&mask, of_p4, 9, &frame_of_p4), "the mask of P4");
    check(load(&s, p4_in, &taken) == 0 && insulation_mask(&s, &mask) == 0 && same_mask(&mask, of_p4_in, 10, &frame_of_p4_in),
          "the mask of P4 after in=1");
    load(&s, p4, &taken);
    s.nexts[511] = 1;
    check(insulation_mask(&s, &mask) == 9 && same_mask(&mask, NULL, 0, &zeros), "an unused entry of 1 is refused 9, with no segments and zeros");
    s.nexts[511] = 0;
    s.nexts[0] = 0, s.nexts[6] = 2;
    check(insulation_mask(&s, &mask) == 9 && same_mask(&mask, NULL, 0, &zeros), "two rings at bar 0 are refused 9, with no segments and zeros");
    s.wires = SIZE_MAX;
    check(insulation_mask(&s, &mask) == 9 && same_mask(&mask, NULL, 0, &zeros), "so are more wires than there can be");
}

static void check_writers(void) {
    walnut_sheet s;
    size_t taken, count = 99;
    memset(buffer, '#', sizeof buffer);
    check(load(&s, p4, &taken) == 0, "P4 loads into any sheet");
    uint16_t answer = walnut_write_drawing(WALNUT_READ(&s), buffer, strlen(p4_drawing) - 1, &count);
    check(answer == 17 && count == 0 && untouched(0, sizeof buffer), "a buffer one byte short is refused 17, untouched");
    answer = walnut_write_drawing(WALNUT_READ(&s), buffer, strlen(p4_drawing), &count);
    check(holds_text(answer, count, p4_drawing), "the drawing of P4");
    memset(buffer, '#', sizeof buffer);
    answer = walnut_edit(WALNUT_IN, 1, 0, 0, 0, WALNUT_CHANGE(&s));
    check(answer == 0 && s.bars == 5 && s.wires == 7, "in=1 is accepted");
    answer = walnut_write_sheet(WALNUT_READ(&s), buffer, WALNUT_TEXT, &count);
    check(holds_text(answer, count, p4_in), "the written sheet after in=1");
    memset(buffer, '#', sizeof buffer);
    answer = walnut_write_drawing(WALNUT_READ(&s), buffer, WALNUT_TEXT, &count);
    check(holds_text(answer, count, p4_in_drawing), "the drawing after in=1");
    memset(buffer, '#', sizeof buffer);
    s.bars = 129;
    answer = walnut_write_sheet(WALNUT_READ(&s), buffer, WALNUT_TEXT, &count);
    check(answer == 9 && count == 0 && untouched(0, sizeof buffer), "a sheet of 129 bars is refused 9");
}

static uint16_t check_drawing(const walnut_sheet *s, const char *text) {
    return walnut_check_drawing(WALNUT_READ(s), bytes(text), strlen(text));
}

static void check_drawings(void) {
    walnut_sheet s = WALNUT_FRESH_SHEET;
    size_t taken;
    check(check_drawing(&s, "rows=2\ncolumns=2\nbar=0,0,1\nbar=1,0,1\nwire=1,0,1\nwire=0,0,1\n") == 0, "the drawing of the fresh sheet is accepted");
    check(check_drawing(&s, "rows=999\ncolumns=999\nbar=0,0,998\nbar=998,0,998\nwire=998,0,998\nwire=0,0,998\n") == 0,
          "rows and columns may go up to 998");
    check(check_drawing(&s, "rows=2\ncolumns=2\nbar=0,0,1\nbar=1,0,1\nwire=1,0,1\nwire=1,0,1\n") == 21, "two wires in one column are refused 21");
    check(check_drawing(&s, p4_drawing) == 20 && check_drawing(&s, "") == 20, "the drawing of P4 is refused 20 for the fresh sheet, and so is no text");
    check(load(&s, p4, &taken) == 0 && check_drawing(&s, p4_drawing) == 0, "it is accepted for P4");
    check(walnut_check_drawing(WALNUT_READ(&s), bytes(p4_drawing), strlen(p4_drawing) - 1) == 20, "without its last byte it is refused 20");
    check(check_drawing(&s, "rows=4\ncolumns=10\nbar=0,0,9\nbar=3,0,9\nbar=1,0,4\nbar=2,2,6\n"
                            "wire=7,0,3\nwire=1,0,1\nwire=1,1,3\nwire=5,0,2\nwire=3,2,3\nwire=3,1,2\n") == 0,
          "bars may be longer where there is room");
    check(check_drawing(&s, "rows=4\ncolumns=4\nbar=0,0,3\nbar=3,0,3\nbar=1,0,2\nbar=2,1,2\n"
                            "wire=3,0,3\nwire=0,0,1\nwire=0,1,3\nwire=2,0,2\nwire=1,2,3\nwire=1,1,2\n") == 21,
          "a bar that touches a wire is refused 21");
    check(check_drawing(&s, "rows=4\ncolumns=4\nbar=0,0,3\nbar=3,0,3\nbar=1,2,3\nbar=2,1,2\n"
                            "wire=0,0,3\nwire=3,0,1\nwire=3,1,3\nwire=1,0,2\nwire=2,2,3\nwire=2,1,2\n") == 22,
          "left and right exchanged is refused 22");
    s.nexts[511] = 1;
    check(check_drawing(&s, p4_drawing) == 9 && check_drawing(&s, "") == 9, "an unused entry of 1 is refused 9, whatever the text");
}

static void check_edits(void) {
    walnut_sheet s, before;
    size_t taken;
    check(load(&s, p4, &taken) == 0, "P4 loads");
    before = s;
    check(walnut_edit(WALNUT_RUN, 3, 5, 2, 2, WALNUT_CHANGE(&s)) == 14 && same_sheet(&s, &before), "run=3,5,2,2 is refused 14");
    check(walnut_edit(WALNUT_RUN, 3, 4, 2, 2, WALNUT_CHANGE(&s)) == 13 && same_sheet(&s, &before), "run=3,4,2,2 is refused 13");
    check(walnut_edit(WALNUT_OUT, 0, 0, 0, 0, WALNUT_CHANGE(&s)) == 12 && same_sheet(&s, &before), "out=0 is refused 12");
    check(walnut_edit(4, 1, 0, 0, 0, WALNUT_CHANGE(&s)) == 1 && same_sheet(&s, &before), "an edit of kind 4 is refused 1");
    check(walnut_edit(WALNUT_IN, 1, 0, 0, 0, WALNUT_CHANGE(&s)) == 0, "in=1 is accepted");
    check(walnut_edit(WALNUT_OFF, 4, 0, 0, 0, WALNUT_CHANGE(&s)) == 0 && same_sheet(&s, &before), "off=4 takes it back");
}

static void check_read_edit(void) {
    uint16_t numbers[4] = {9, 9, 9, 9};
    size_t taken = 99;
    uint16_t kind = walnut_read_edit(bytes("run=3,5,2,999\nin=1\n"), 19, numbers, &taken);
    check(kind == WALNUT_RUN && taken == 14, "a run, and the bytes of its line");
    check(numbers[0] == 3 && numbers[1] == 5 && numbers[2] == 2 && numbers[3] == 999, "its numbers");
    kind = walnut_read_edit(bytes("in=01"), 5, numbers, &taken);
    check(kind == WALNUT_UNREADABLE && taken == 5 && numbers[0] == 0, "in=01 does not read as an edit");
}

static bool same_drawing(const walnut_drawing *d, const walnut_drawing *e) { return memcmp(d, e, sizeof *d) == 0; }

static void check_replay(void) {
    size_t answers[14] = {99, 99, 99, 99};
    walnut_drawing d = walnut_replay(p5_calls, 10, bytes(""), 0, answers, 4);
    check(same_drawing(&d, &p5_drawing), "the drawing of P5 by a list of calls");
    check(answers[0] == 0 && answers[1] == 0 && answers[2] == 0 && answers[3] == 0, "both its calls are accepted");

    /* A load of P5's sheet, which stands after P4 in the text, P5's edits, P7's edit, a load of half a line, a kind that there is
     * not, and four numbers that are no call; with too few answers, as many as needed, and more. */
    char text[sizeof p4 + sizeof p5];
    size_t length = (size_t)snprintf(text, sizeof text, "%s%s", p4, p5);
    const size_t calls[] = {WALNUT_LOAD, strlen(p4), SIZE_MAX, 0, 0, WALNUT_IN, 1, 0, 0, 0, WALNUT_RUN, 0, 1, 2, 2,
                            WALNUT_OUT, 2, 0, 0, 0, WALNUT_LOAD, 0, 3, 0, 0,
                            WALNUT_UNREADABLE, 0, 0, 0, 0, WALNUT_IN, 1, 0, 0};
    const size_t expected[12] = {0, 55, 0, 0, 0, 0, 15, 0, 1, 0, 10, 0};
    for (size_t room = 0; room <= 14; room++) {
        for (size_t i = 0; i < 14; i++) answers[i] = 99;
        d = walnut_replay(calls, sizeof calls / sizeof *calls, bytes(text), length, answers, room);
        check(same_drawing(&d, &p5_drawing), "refused calls leave the drawing of P5, whatever answers fit");
        size_t put = room < 12 ? room / 2 * 2 : 12, same = 0;
        while (same < 14 && answers[same] == (same < put ? expected[same] : 99)) same++;
        check(same == 14, "answers are put two by two, and the rest is untouched");
    }

    /* A blank load in a list, a part that ends where it begins, after P4 and `in=1`; then P5's edits. */
    const size_t blank_calls[] = {WALNUT_LOAD, 0, strlen(p4), 0, 0, WALNUT_IN, 1, 0, 0, 0, WALNUT_LOAD, 7, 7, 0, 0,
                                  WALNUT_IN, 1, 0, 0, 0, WALNUT_RUN, 0, 1, 2, 2};
    const size_t blank_answers[10] = {0, strlen(p4), 0, 0, 0, 0, 0, 0, 0, 0};
    d = walnut_replay(blank_calls, sizeof blank_calls / sizeof *blank_calls, bytes(text), length, answers, 10);
    check(same_drawing(&d, &p5_drawing), "after a blank load the edits of P5 give the drawing of P5");
    check(memcmp(answers, blank_answers, sizeof blank_answers) == 0, "a blank load is accepted with 0 bytes taken");

    /* A load of links, and then what is refused: a load of links without a choice, a load of links by the other load, and a kind
     * that there is not. */
    char both[sizeof links + sizeof hanging];
    size_t both_length = (size_t)snprintf(both, sizeof both, "%s%s", links, hanging);
    const size_t links_calls[] = {WALNUT_LOAD_LINKS, 0, strlen(links), 0, 0, WALNUT_LOAD_LINKS, strlen(links), SIZE_MAX, 0, 0,
                                  WALNUT_LOAD, 0, strlen(links), 0, 0, WALNUT_UNREADABLE, 0, strlen(links), 0, 0};
    const size_t links_answers[8] = {0, strlen(links), 19, 0, 1, 0, 10, 0};
    d = walnut_replay(links_calls, sizeof links_calls / sizeof *links_calls, bytes(both), both_length, answers, 8);
    check(same_drawing(&d, &links_drawing), "a load of links in a list gives their drawing, which refused loads leave");
    check(memcmp(answers, links_answers, sizeof links_answers) == 0, "links are taken, refused 19, refused 1 by the other load, and 10 by kind 5");

    const size_t p4_in_calls[] = {WALNUT_LOAD, 0, strlen(p4), 0, 0, WALNUT_IN, 1, 0, 0, 0};
    d = walnut_replay(p4_in_calls, 10, bytes(text), length, answers, 0);
    check(d.bars[4].row == 1 && d.bars[4].first == 0 && d.bars[4].last == 1, "bar 4 of P4 after in=1 goes up to its right neighbour");
}

static void check_plate(void) {
    size_t count = 99;
    memset(buffer, '#', sizeof buffer);
    uint16_t answer = walnut_plate(bytes(p5), strlen(p5), buffer, strlen(p5_output) - 1, &count);
    check(answer == 17 && count == 0 && untouched(0, sizeof buffer), "plate refuses a short buffer 17, untouched");
    answer = walnut_plate(bytes(p5), strlen(p5), buffer, sizeof buffer, &count);
    check(holds_text(answer, count, p5_output), "plate prints P5's output");
    memset(buffer, '#', sizeof buffer);
    answer = walnut_plate(bytes("bars=1\n"), 7, buffer, sizeof buffer, &count);
    check(holds_text(answer, count, "refused=2\n"), "plate prints the refusal of bars=1");
    memset(buffer, '#', sizeof buffer);
    answer = walnut_plate(bytes(links), strlen(links), buffer, sizeof buffer, &count);
    check(holds_text(answer, count, links_output), "plate prints the drawing of links");
    memset(buffer, '#', sizeof buffer);
    answer = walnut_plate(bytes(hanging), strlen(hanging), buffer, sizeof buffer, &count);
    check(holds_text(answer, count, "refused=19\n"), "plate prints the refusal of links without a choice");
    memset(buffer, '#', sizeof buffer);
    answer = walnut_plate(bytes(""), 0, buffer, sizeof buffer, &count);
    check(holds_text(answer, count, "rows=2\ncolumns=2\nbar=0,0,1\nbar=1,0,1\nwire=1,0,1\nwire=0,0,1\n"),
          "plate prints the drawing of the fresh sheet for an input of no bytes");
}

static void check_graphs(void) {
    uint16_t from[256] = {0, 1, 0}, to[256] = {1, 2, 2}, level[256], step[512] = {2, 1, 0}, orbit[512];
    check(walnut_levels(3, 3, from, to, level) && level[0] == 0 && level[1] == 1 && level[2] == 2, "levels of a path");
    to[2] = 0;
    check(!walnut_levels(3, 3, from, to, level) && level[2] == 0, "a circle has no levels");
    check(walnut_trace(3, step, orbit) == 2 && orbit[0] == 0 && orbit[1] == 1 && orbit[2] == 0, "two orbits");
}

int main(void) {
    check_load();
    check_load_links();
    check_trace_faces();
    check_insulation_mask();
    check_writers();
    check_drawings();
    check_edits();
    check_read_edit();
    check_replay();
    check_plate();
    check_graphs();
    printf("%d passed, %d failed\n", passed, failed);
    return failed != 0;
}
