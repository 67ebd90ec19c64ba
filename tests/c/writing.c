/* The writer: every call taken and refused, its limits, and written files read back. */
#include "calls.h"

#include <string.h>

static const cgx_box one_box[] = {{-80, -57, 82, 58}};
static const cgx_box two_boxes[] = {{-80, -57, 82, 58}, {0, 0, 0, 0}};
static const cgx_box reversed_across[] = {{0, 0, 1, 1}, {2, 0, 1, 1}};
static const cgx_box reversed_up[] = {{0, 2, 1, 1}};
static const cgx_point triangle[] = {{0, 0}, {10, 0}, {10, 20}, {0, 0}};
static const cgx_point three_points[] = {{0, 0}, {10, 0}, {0, 0}};
static const cgx_point open_in_x[] = {{0, 0}, {10, 0}, {10, 20}, {1, 0}};
static const cgx_point open_in_y[] = {{0, 0}, {10, 0}, {10, 20}, {0, 1}};
static const cgx_point line[] = {{-1, INT32_MIN}, {INT32_MAX, 1}};

#define GOOD_LIBRARY .which = A_LIBRARY, .created = DAY, .modified = NEXT_DAY
#define GOOD_SCALES .first = ONE, .second = ONE
#define GOOD_STRUCT .which = A_STRUCT, .modified = DAY
#define GRID(columns, lines) \
    .placement.cols = (columns), .placement.rows = (lines), .placement.across = {100, 0}, .placement.up = {0, 200}

/* ---- calls that are taken, and what they append */

typedef struct {
    const char *name;
    where at;
    call given;
    const char *digits;
} taken_call;

#define DAY_DIGITS "07e9 02 06 0e 09 2d 00 "
#define NEXT_DAY_DIGITS "07e9 02 07 17 3b 3b 00 "

static const taken_call taken_calls[] = {
    {"LIBRARY", AT_START, {GOOD_LIBRARY, GOOD_SCALES, .flags = 7, TEXT_OF("m")},
        "0026 00 07 4110000000000000 4110000000000000 " DAY_DIGITS NEXT_DAY_DIGITS "6d00"},
    {"LIBRARY, reals not normal", AT_START,
        {GOOD_LIBRARY, .flags = 255, .first = {0x4201000000000000}, .second = {0x0200000000000001}},
        "0026 00 ff 4110000000000000 0000000000000100 " DAY_DIGITS NEXT_DAY_DIGITS "0000"},
    {"STRUCT", IN_LIBRARY, {GOOD_STRUCT, .created = NEXT_DAY, TEXT_OF("ab")},
        "0018 01 00 " NEXT_DAY_DIGITS DAY_DIGITS "61620000"},
    {"STRUCT after LAYER", IN_LAYER, {GOOD_STRUCT, .created = NEXT_DAY, TEXT_OF("a")},
        "0016 01 00 " NEXT_DAY_DIGITS DAY_DIGITS "6100"},
    {"STRUCT, lowest year, second 60", IN_LIBRARY, {GOOD_STRUCT, .created = {INT16_MIN, 12, 31, 23, 59, 60, 0}},
        "0016 01 00 8000 0c 1f 17 3b 3c 00 " DAY_DIGITS "0000"},
    {"CPRPTY", IN_CELL, {.which = A_CPRPTY, .number = -1, TEXT_OF("cp")}, "000c 02 00 ffffffff 63700000"},
    {"PROPERTY", IN_CELL, {.which = A_PROPERTY, .number = INT32_MIN, TEXT_OF("")}, "000a 03 00 80000000 0000"},
    {"PROPERTY after PROPERTY", IN_RUN, {.which = A_PROPERTY, .number = 127, TEXT_OF("p")}, "000a 03 00 0000007f 7000"},
    {"LAYER", IN_CELL, {.which = A_LAYER, .layer = {5, -3}}, "0008 04 00 0005 fffd"},
    {"LAYER, lowest and highest", IN_LAYER, {.which = A_LAYER, .layer = {INT16_MIN, INT16_MAX}},
        "0008 04 00 8000 7fff"},
    {"named LAYER", IN_CELL, {.which = A_NAMED_LAYER, .layer = {1, 2}, TEXT_OF("m1")},
        "000c 04 00 0001 0002 6d310000"},
    {"LAYER with an empty name", IN_CELL, {.which = A_NAMED_LAYER, .layer = {1, 0}, TEXT_OF("")}, "000a 04 00 0001 0000 0000"},
    {"BOX", IN_LAYER, {.which = A_BOX, ITEMS_OF(one_box)}, BOX_1},
    {"BOX, two", IN_RUN, {.which = A_BOX, ITEMS_OF(two_boxes)},
        "0024 05 00 ffffffb0 ffffffc7 00000052 0000003a 00000000 00000000 00000000 00000000"},
    {"POLY", IN_LAYER, {.which = A_POLY, ITEMS_OF(triangle)},
        "0024 06 00 00000000 00000000 0000000a 00000000 0000000a 00000014 00000000 00000000"},
    {"WIRE", IN_LAYER, {.which = A_WIRE, .number = 10, ITEMS_OF(line)},
        "0018 07 02 0000000a ffffffff 80000000 7fffffff 00000001"},
    {"WIRE, one point, width below 0", IN_RUN, {.which = A_WIRE, .number = -2, .items = line, .count = 1},
        "0010 07 02 fffffffe ffffffff 80000000"},
    {"WIRE, flush", IN_LAYER, {.which = A_STYLED_WIRE, .flags = CGX_END_FLUSH, .items = line, .count = 1},
        "0010 07 00 00000000 ffffffff 80000000"},
    {"WIRE, rounded", IN_LAYER, {.which = A_STYLED_WIRE, .flags = CGX_END_ROUNDED, .items = line, .count = 1},
        "0010 07 01 00000000 ffffffff 80000000"},
    {"WIRE, extended", IN_LAYER, {.which = A_STYLED_WIRE, .flags = CGX_END_EXTENDED, .number = 10, ITEMS_OF(line)},
        "0018 07 02 0000000a ffffffff 80000000 7fffffff 00000001"},
    {"TEXT", IN_LAYER, {.which = A_TEXT, .flags = 0x6f, .point = {-80, INT32_MIN}, .number = 7, TEXT_OF("ab\xce")},
        "0014 08 6f ffffffb0 80000000 00000007 6162ce00"},
    {"TEXT, flags f0", IN_RUN, {.which = A_TEXT, .flags = 0xf0, TEXT_OF("")},
        "0012 08 00 00000000 00000000 00000000 0000"},
    {"TEXT, flags 3f", IN_LAYER, {.which = A_TEXT, .flags = 0x3f, TEXT_OF("\xff")},
        "0012 08 0f 00000000 00000000 00000000 ff00"},
    {"SREF", IN_CELL, {.which = AN_SREF, .placement.point = {1, 2}, TEXT_OF("b")}, "000e 09 00 00000001 00000002 6200"},
    {"SREF, its unset fields ignored", IN_RUN,
        {.which = AN_SREF, .flags = CGX_SREF_REFLECT, .placement.point = {1, 2}, .placement.angle = ONE,
            .placement.magnif = {0x8000000000000000}, GRID(0, -1), TEXT_OF("b")},
        "000e 09 04 00000001 00000002 6200"},
    {"SREF with an angle", IN_LAYER,
        {.which = AN_SREF, .flags = CGX_SREF_ANGLE, .placement.point = {1, 2},
            .placement.angle = {0x8000000000000000}, TEXT_OF("b")},
        "0016 09 01 00000001 00000002 0000000000000000 6200"},
    {"SREF with a magnif", IN_LAYER,
        {.which = AN_SREF, .flags = CGX_SREF_MAGNIF, .placement.point = {1, 2},
            .placement.magnif = {0x4201000000000000}, TEXT_OF("b")},
        "0016 09 02 00000001 00000002 4110000000000000 6200"},
    {"SREF with an array", IN_LAYER,
        {.which = AN_SREF, .flags = CGX_SREF_ARRAY, .placement.point = {1, 2}, GRID(2, 3), TEXT_OF("b")},
        "0026 09 08 00000001 00000002 00000002 00000003 00000064 00000000 00000000 000000c8 6200"},
    {"SREF, all flags", IN_CELL,
        {.which = AN_SREF, .flags = 15, .placement.point = {3, 4}, .placement.angle = {0xc201000000000000},
            .placement.magnif = {0x4201000000000000}, GRID(1, 1), TEXT_OF("")},
        "0036 09 0f 00000003 00000004 c110000000000000 4110000000000000 00000001 00000001"
        " 00000064 00000000 00000000 000000c8 0000"},
    {"ENDLIB", IN_LIBRARY, {.which = AN_ENDLIB}, ENDLIB},
    {"ENDLIB after LAYER", IN_LAYER, {.which = AN_ENDLIB}, ENDLIB},
};

static void take(const taken_call *t) {
    blob bytes = hex(t->digits);
    expect_taken(t->name, writer_in(t->at), &t->given, bytes);
    drop(bytes);
}

/* ---- calls that are refused */

typedef struct {
    const char *name;
    where at;
    call given;
    uint32_t number;
} refused_call;

#define A_STRUCT_ON(...) {GOOD_STRUCT, .created = __VA_ARGS__}

static const refused_call refused_calls[] = {
    {"second LIBRARY", IN_LIBRARY, {GOOD_LIBRARY, GOOD_SCALES}, 6},
    {"LIBRARY after ENDLIB", ENDED, {GOOD_LIBRARY, GOOD_SCALES}, 6},
    {"LIBRARY, second 61", AT_START,
        {.which = A_LIBRARY, GOOD_SCALES, .created = DAY, .modified = {2025, 2, 6, 14, 9, 61, 0}}, 9},
    {"LIBRARY, date before scale", AT_START, {.which = A_LIBRARY, .created = DAY}, 9},
    {"LIBRARY, munit 0", AT_START, {GOOD_LIBRARY, .first = {0x8000000000000000}, .second = ONE}, 10},
    {"LIBRARY, uunit below 0", AT_START, {GOOD_LIBRARY, .first = ONE, .second = {0xc110000000000000}}, 10},
    {"LIBRARY, scale before text", AT_START, {GOOD_LIBRARY, .second = ONE, TEXT_OF("\0")}, 10},
    {"LIBRARY, a zero in its name", AT_START, {GOOD_LIBRARY, GOOD_SCALES, TEXT_OF("a\0b")}, 11},

    {"STRUCT before LIBRARY", AT_START, A_STRUCT_ON(DAY), 6},
    {"STRUCT in a run", IN_RUN, A_STRUCT_ON(DAY), 6},
    {"STRUCT after ENDLIB", ENDED, A_STRUCT_ON(DAY), 6},
    {"month 0", IN_LIBRARY, A_STRUCT_ON({2025, 0, 6, 14, 9, 45, 0}), 9},
    {"month 13", IN_LIBRARY, A_STRUCT_ON({2025, 13, 6, 14, 9, 45, 0}), 9},
    {"day 0", IN_LIBRARY, A_STRUCT_ON({2025, 2, 0, 14, 9, 45, 0}), 9},
    {"day 32", IN_LIBRARY, A_STRUCT_ON({2025, 2, 32, 14, 9, 45, 0}), 9},
    {"hour 24", IN_LIBRARY, A_STRUCT_ON({2025, 2, 6, 24, 9, 45, 0}), 9},
    {"minute 60", IN_LIBRARY, A_STRUCT_ON({2025, 2, 6, 14, 60, 45, 0}), 9},
    {"second 61", IN_LIBRARY, A_STRUCT_ON({2025, 2, 6, 14, 9, 61, 0}), 9},
    {"STRUCT, a zero in its name", IN_LIBRARY, {GOOD_STRUCT, .created = DAY, TEXT_OF("\0")}, 11},

    {"CPRPTY without a cell", IN_LIBRARY, {.which = A_CPRPTY}, 6},
    {"CPRPTY after LAYER", IN_LAYER, {.which = A_CPRPTY}, 6},
    {"CPRPTY after ENDLIB", ENDED, {.which = A_CPRPTY}, 6},
    {"CPRPTY, a zero in its value", IN_CELL, {.which = A_CPRPTY, TEXT_OF("a\0")}, 11},
    {"PROPERTY without a cell", IN_LIBRARY, {.which = A_PROPERTY}, 6},
    {"PROPERTY after ENDLIB", ENDED, {.which = A_PROPERTY}, 6},
    {"PROPERTY, a zero in its value", IN_LAYER, {.which = A_PROPERTY, TEXT_OF("\0a")}, 11},

    {"LAYER without a cell", IN_LIBRARY, {.which = A_LAYER}, 6},
    {"LAYER in a run", IN_RUN, {.which = A_LAYER}, 6},
    {"LAYER after ENDLIB", ENDED, {.which = A_LAYER}, 6},
    {"named LAYER without a cell", IN_LIBRARY, {.which = A_NAMED_LAYER}, 6},
    {"named LAYER after ENDLIB", ENDED, {.which = A_NAMED_LAYER}, 6},
    {"named LAYER, a zero in its name", IN_LAYER, {.which = A_NAMED_LAYER, TEXT_OF("a\0b")}, 11},

    {"BOX without a layer", IN_CELL, {.which = A_BOX, ITEMS_OF(one_box)}, 6},
    {"BOX after ENDLIB", ENDED, {.which = A_BOX, ITEMS_OF(one_box)}, 6},
    {"BOX, order before list", IN_CELL, {.which = A_BOX}, 6},
    {"no box", IN_LAYER, {.which = A_BOX}, 8},
    {"box reversed across", IN_LAYER, {.which = A_BOX, ITEMS_OF(reversed_across)}, 10},
    {"box reversed up", IN_LAYER, {.which = A_BOX, ITEMS_OF(reversed_up)}, 10},

    {"POLY without a layer", IN_CELL, {.which = A_POLY, ITEMS_OF(triangle)}, 6},
    {"POLY after ENDLIB", ENDED, {.which = A_POLY, ITEMS_OF(triangle)}, 6},
    {"POLY without a point", IN_LAYER, {.which = A_POLY}, 8},
    {"POLY of three points", IN_LAYER, {.which = A_POLY, ITEMS_OF(three_points)}, 8},
    {"POLY open in x", IN_LAYER, {.which = A_POLY, ITEMS_OF(open_in_x)}, 12},
    {"POLY open in y", IN_LAYER, {.which = A_POLY, ITEMS_OF(open_in_y)}, 12},

    {"WIRE without a layer", IN_CELL, {.which = A_WIRE, ITEMS_OF(line)}, 6},
    {"WIRE after ENDLIB", ENDED, {.which = A_WIRE, ITEMS_OF(line)}, 6},
    {"WIRE without a point", IN_LAYER, {.which = A_WIRE}, 8},
    {"styled WIRE without a layer", IN_CELL, {.which = A_STYLED_WIRE, .flags = 3, ITEMS_OF(line)}, 6},
    {"styled WIRE after ENDLIB", ENDED, {.which = A_STYLED_WIRE, ITEMS_OF(line)}, 6},
    {"end style 3", IN_LAYER, {.which = A_STYLED_WIRE, .flags = 3, ITEMS_OF(line)}, 7},
    {"end style 255", IN_LAYER, {.which = A_STYLED_WIRE, .flags = 255, ITEMS_OF(line)}, 7},
    {"end style before list", IN_LAYER, {.which = A_STYLED_WIRE, .flags = 3}, 7},
    {"styled WIRE without a point", IN_LAYER, {.which = A_STYLED_WIRE, .flags = 1}, 8},

    {"TEXT without a layer", IN_CELL, {.which = A_TEXT, TEXT_OF("a")}, 6},
    {"TEXT after ENDLIB", ENDED, {.which = A_TEXT, TEXT_OF("a")}, 6},
    {"TEXT, a zero in its label", IN_LAYER, {.which = A_TEXT, TEXT_OF("a\0")}, 11},

    {"SREF without a cell", IN_LIBRARY, {.which = AN_SREF}, 6},
    {"SREF after ENDLIB", ENDED, {.which = AN_SREF}, 6},
    {"SREF flags 16", IN_CELL, {.which = AN_SREF, .flags = 16}, 7},
    {"SREF flags 255", IN_CELL, {.which = AN_SREF, .flags = 255, TEXT_OF("\0")}, 7},
    {"magnif 0", IN_CELL, {.which = AN_SREF, .flags = CGX_SREF_MAGNIF, .placement.magnif = {0x4100000000000000}}, 10},
    {"magnif below 0", IN_CELL, {.which = AN_SREF, .flags = CGX_SREF_MAGNIF, .placement.magnif = {0xc110000000000000}}, 10},
    {"cols 0", IN_CELL, {.which = AN_SREF, .flags = CGX_SREF_ARRAY, GRID(0, 1)}, 10},
    {"rows 0", IN_CELL, {.which = AN_SREF, .flags = CGX_SREF_ARRAY, GRID(1, 0)}, 10},
    {"rows below 0, before text", IN_CELL,
        {.which = AN_SREF, .flags = CGX_SREF_ARRAY, GRID(1, INT32_MIN), TEXT_OF("\0")}, 10},
    {"SREF, a zero in its name", IN_CELL, {.which = AN_SREF, TEXT_OF("a\0b")}, 11},

    {"ENDLIB before LIBRARY", AT_START, {.which = AN_ENDLIB}, 6},
    {"ENDLIB in a run", IN_RUN, {.which = AN_ENDLIB}, 6},
    {"second ENDLIB", ENDED, {.which = AN_ENDLIB}, 6},
};

static void refuse(const refused_call *r) {
    cgx_writer writer = writer_in(r->at);
    expect_refused(r->name, writer, &r->given, r->number, writer.place.at);
}

/* ---- every call with a forged writer */

static const call good_calls[] = {
    {GOOD_LIBRARY, GOOD_SCALES},
    A_STRUCT_ON(DAY),
    {.which = A_CPRPTY},
    {.which = A_PROPERTY},
    {.which = A_LAYER},
    {.which = A_NAMED_LAYER},
    {.which = A_BOX, ITEMS_OF(one_box)},
    {.which = A_POLY, ITEMS_OF(triangle)},
    {.which = A_WIRE, ITEMS_OF(line)},
    {.which = A_STYLED_WIRE, ITEMS_OF(line)},
    {.which = A_TEXT},
    {.which = AN_SREF},
    {.which = AN_ENDLIB},
};

/* What is kept in a writer may equal its offset, and its offset the size of the buffer; what is not looked at may be
   anything. */
static void no_forgery(void) {
    static const call box = {.which = A_BOX, ITEMS_OF(one_box)};
    cgx_writer w = writer_in(IN_LAYER);
    blob bytes = hex(BOX_1);
    w.place.cell = w.place.layer = w.place.at;
    w.place.properties.first = w.place.properties.count = w.place.at;
    expect_taken("equal is no forgery", w, &box, bytes);
    expect_refused_in("the end of the buffer is no forgery", (size_t)w.place.at, w, &box, CGX_REFUSED_ROOM, 0);
    w = writer_in(IN_LAYER);
    w.place.seen |= ~(uint64_t)(CGX_SEEN_LIBRARY | CGX_SEEN_FRESH | CGX_SEEN_ENDLIB);
    w.place.properties.first = UINT64_MAX;
    expect_taken("what is not looked at", w, &box, bytes);
    drop(bytes);
}

/* ---- limits */

/* A text of the greatest length that fits a record is taken, one byte less too, and one byte more is 15, or 11 where it has
   a zero byte. The digits are the record's bytes before its text. The longest text is odd, so that one zero byte follows. */
static void longest_text(const char *name, where at, call c, const char *start_digits) {
    blob start = hex(start_digits), bytes;
    size_t len = CGX_MAX_SIZE - start.size - 1;
    char *text = (char *)lend(len + 2);
    memset(text, 'x', len + 2);
    bytes.size = CGX_MAX_SIZE;
    bytes.bytes = lend(bytes.size);
    memcpy(bytes.bytes, start.bytes, start.size);
    memset(bytes.bytes + start.size, 'x', len);
    bytes.bytes[CGX_MAX_SIZE - 1] = 0;
    c.text = text;
    c.len = len;
    expect_taken(name, writer_in(at), &c, bytes);
    bytes.bytes[CGX_MAX_SIZE - 2] = 0;
    c.len = len - 1;
    expect_taken(name, writer_in(at), &c, bytes);
    c.len = len + 1;
    expect_refused(name, writer_in(at), &c, CGX_REFUSED_TOO_LARGE, 0);
    text[len] = 0;
    expect_refused(name, writer_in(at), &c, CGX_REFUSED_STRING, writer_in(at).place.at);
    give_back((uint8_t *)text, len + 2);
    drop(bytes);
    drop(start);
}

static void longest_texts(void) {
    call library = {GOOD_LIBRARY, GOOD_SCALES}, cell = A_STRUCT_ON(NEXT_DAY), cprpty = {.which = A_CPRPTY},
         property = {.which = A_PROPERTY}, layer = {.which = A_NAMED_LAYER}, text = {.which = A_TEXT},
         sref = {.which = AN_SREF}, full_sref = {.which = AN_SREF, .flags = 15, .placement.magnif = ONE, GRID(1, 1)};
    longest_text("longest LIBRARY", AT_START, library,
        "fffe 00 00 4110000000000000 4110000000000000 " DAY_DIGITS NEXT_DAY_DIGITS);
    longest_text("longest STRUCT", IN_LIBRARY, cell, "fffe 01 00 " NEXT_DAY_DIGITS DAY_DIGITS);
    longest_text("longest CPRPTY", IN_CELL, cprpty, "fffe 02 00 00000000");
    longest_text("longest PROPERTY", IN_CELL, property, "fffe 03 00 00000000");
    longest_text("longest LAYER", IN_CELL, layer, "fffe 04 00 0000 0000");
    longest_text("longest TEXT", IN_LAYER, text, "fffe 08 00 00000000 00000000 00000000");
    longest_text("longest SREF", IN_CELL, sref, "fffe 09 00 00000000 00000000");
    longest_text("longest SREF, all flags", IN_CELL, full_sref,
        "fffe 09 0f 00000000 00000000 0000000000000000 4110000000000000 00000001 00000001"
        " 00000064 00000000 00000000 000000c8");
}

/* A list of `most` boxes or points, of so many longs each, is taken, one more is 15, and what 10 and 12 ask comes before. The
   longs are 0, 1, 2 .. in each box or point; the points of a POLY are closed. */
static void longest_list(const char *name, call c, size_t most, size_t group, const char *start_digits, uint32_t fault) {
    static int32_t longs[4 * (CGX_MAX_POLY_POINTS + 2)];
    blob start = hex(start_digits), bytes;
    size_t i, count = most * group;
    for (i = 0; i < count + group; i++) longs[i] = (int32_t)(i / group);
    if (c.which == A_POLY) longs[count - 2] = longs[count - 1] = 0;
    bytes.size = start.size + 4 * count;
    bytes.bytes = lend(bytes.size);
    memcpy(bytes.bytes, start.bytes, start.size);
    for (i = 0; i < count; i++) put_long(bytes.bytes + start.size + 4 * i, longs[i]);
    c.items = longs;
    c.count = most;
    expect_taken(name, writer_in(IN_LAYER), &c, bytes);
    if (c.which == A_POLY) longs[count] = longs[count + 1] = 0;
    c.count = most + 1;
    expect_refused(name, writer_in(IN_LAYER), &c, CGX_REFUSED_TOO_LARGE, 0);
    longs[count] = INT32_MAX;
    if (fault != 0) expect_refused(name, writer_in(IN_LAYER), &c, fault, writer_in(IN_LAYER).place.at);
    drop(bytes);
    drop(start);
}

static void longest_lists(void) {
    call box = {.which = A_BOX}, poly = {.which = A_POLY}, wire = {.which = A_WIRE, .number = 3},
         styled = {.which = A_STYLED_WIRE, .flags = 1, .number = 3};
    longest_list("4,095 and 4,096 boxes", box, CGX_MAX_BOXES, 4, "fff4 05 00", CGX_REFUSED_NUMBER);
    longest_list("8,191 and 8,192 points of a POLY", poly, CGX_MAX_POLY_POINTS, 2, "fffc 06 00", CGX_REFUSED_NOT_CLOSED);
    longest_list("8,190 and 8,191 points of a WIRE", wire, CGX_MAX_WIRE_POINTS, 2, "fff8 07 02 00000003", 0);
    longest_list("8,190 and 8,191 points of a styled WIRE", styled, CGX_MAX_WIRE_POINTS, 2, "fff8 07 01 00000003", 0);
}

/* ---- a list that ends inside a box or a point: only the archive's own functions can be given one */

typedef struct {
    const char *name;
    size_t group;
    uint32_t (*make)(blob buf, cgx_writer *writer, uint64_t *at, const int32_t *longs, uint64_t long_count);
} flat_call;

static uint32_t flat_box(blob buf, cgx_writer *writer, uint64_t *at, const int32_t *longs, uint64_t long_count) {
    return cgx_write_box_longs(buf.bytes, buf.size, writer, at, longs, long_count);
}

static uint32_t flat_poly(blob buf, cgx_writer *writer, uint64_t *at, const int32_t *longs, uint64_t long_count) {
    return cgx_write_poly_longs(buf.bytes, buf.size, writer, at, longs, long_count);
}

static uint32_t flat_wire(blob buf, cgx_writer *writer, uint64_t *at, const int32_t *longs, uint64_t long_count) {
    return cgx_write_wire_longs(buf.bytes, buf.size, writer, at, 3, longs, long_count);
}

static uint32_t flat_styled(blob buf, cgx_writer *writer, uint64_t *at, const int32_t *longs, uint64_t long_count) {
    return cgx_write_styled_wire_longs(buf.bytes, buf.size, writer, at, CGX_END_ROUNDED, 3, longs, long_count);
}

static const flat_call flat_calls[] = {
    {"BOX in longs", 4, flat_box}, {"POLY in longs", 2, flat_poly}, {"WIRE in longs", 2, flat_wire},
    {"styled WIRE in longs", 2, flat_styled}};

/* All longs are 0, so that a list of whole boxes or points is good where it has enough of them. */
static void broken_list(const flat_call *f, size_t long_count) {
    static const int32_t zeros[2 * CGX_MAX_POLY_POINTS];
    const cgx_writer before = writer_in(IN_LAYER);
    blob list = copy_of(zeros, 4 * long_count), buf = copy_of(zeros, sizeof zeros), old = copy_of(zeros, sizeof zeros);
    cgx_writer writer = before;
    uint64_t *at = lent_at();
    told t = answered(f->make(buf, &writer, at, (const int32_t *)(const void *)list.bytes, long_count));
    expect(t.number == CGX_REFUSED_LENGTH && t.at == before.place.at, f->name, "a list that ends inside one");
    expect(SAME(&writer, &before) && same_bytes(buf, old), f->name, "nothing is written");
    drop(old);
    drop(buf);
    drop(list);
}

static void broken_lists(void) {
    static const size_t counts[] = {1, 3, 5, 7, 9, 4 * CGX_MAX_BOXES - 1};
    size_t i, k;
    for (i = 0; i < sizeof flat_calls / sizeof flat_calls[0]; i++) {
        for (k = 0; k < sizeof counts / sizeof counts[0]; k++) broken_list(&flat_calls[i], counts[k]);
        if (flat_calls[i].group == 4) broken_list(&flat_calls[i], 6);
    }
}

/* ---- every second of each date: 0 to 60 are taken, read back and normal; 61 to 255 are 9 */

/* LIBRARY, STRUCT and ENDLIB, where LIBRARY or STRUCT has a second of its own: the answer to that call, and whether the
   rest was taken and the file is accepted, its own normal form, and gives that date back. */
static told stamped(bool in_struct, bool modified, uint8_t second, bool *whole) {
    call library = {GOOD_LIBRARY, GOOD_SCALES, TEXT_OF("m")}, cell = A_STRUCT_ON(DAY), endlib = {.which = AN_ENDLIB};
    call *c = in_struct ? &cell : &library;
    cgx_date *date = modified ? &c->modified : &c->created, shown;
    blob buf = {lend(68), 68};
    cgx_writer writer;
    told t;
    date->second = second;
    date->unused = 0;
    cgx_write_start(buf.bytes, buf.size, &writer);
    if (in_struct) make_call(buf, &writer, &library);
    t = make_call(buf, &writer, c);
    if (!in_struct) make_call(buf, &writer, &cell);
    *whole = make_call(buf, &writer, &endlib).number == CGX_OK && writer.place.at == buf.size
        && ask_check(buf).number == CGX_OK && is_normal(buf)
        && date_in(buf, in_struct ? 42 : 4, modified, &shown) && SAME(&shown, date);
    drop(buf);
    return t;
}

static void seconds(const char *name, bool in_struct, bool modified) {
    const uint64_t at = in_struct ? 42 : 4;
    bool taken = true, refused = true, whole;
    unsigned s;
    for (s = 0; s <= 60; s++) taken = taken && stamped(in_struct, modified, (uint8_t)s, &whole).number == CGX_OK && whole;
    for (; s <= 255; s++) {
        told t = stamped(in_struct, modified, (uint8_t)s, &whole);
        refused = refused && t.number == CGX_REFUSED_DATE && t.at == at && !whole;
    }
    expect(taken, name, "seconds 0 to 60");
    expect(refused, name, "seconds 61 to 255");
}

/* ---- a wire without an end style: the one that states CGX_END_EXTENDED */

typedef struct {
    told told;
    cgx_writer writer;
    blob buf;
} outcome;

static outcome of_wire(const call *c, where at, size_t room) {
    outcome o = {.writer = writer_in(at), .buf = {lend(room), room}};
    o.told = make_call(o.buf, &o.writer, c);
    return o;
}

static bool same_answer(const outcome *a, const outcome *b) {
    return a->told.number == b->told.number && a->told.at == b->told.at && SAME(&a->writer, &b->writer);
}

/* So many points, where a WIRE is taken or is not, with room for all of it but one byte, for all of it, and for more. Against
   flush ends, which it had before Req 08, the answer is the same, and one byte is another where it is taken. */
static void unstated(where at, size_t count, bool *extended, bool *one_byte) {
    static cgx_point points[CGX_MAX_WIRE_POINTS + 1];
    const call none = {.which = A_WIRE, .number = 7, .items = points, .count = count};
    call stated = none;
    const size_t start = (size_t)writer_in(at).place.at, end = start + 8 + 8 * count;
    size_t room;
    stated.which = A_STYLED_WIRE;
    for (room = end - 1; room <= end + 1; room++) {
        outcome o = of_wire(&none, at, room), other;
        stated.flags = CGX_END_EXTENDED;
        other = of_wire(&stated, at, room);
        *extended = *extended && same_answer(&o, &other) && same_bytes(o.buf, other.buf);
        drop(other.buf);
        stated.flags = CGX_END_FLUSH;
        other = of_wire(&stated, at, room);
        *one_byte = *one_byte && same_answer(&o, &other);
        if (o.told.number == CGX_OK) {
            *one_byte = *one_byte && other.buf.bytes[start + 3] == 0 && o.buf.bytes[start + 3] == 2;
            other.buf.bytes[start + 3] = 2;
        }
        *one_byte = *one_byte && same_bytes(o.buf, other.buf);
        drop(other.buf);
        drop(o.buf);
    }
}

static void wire_ends(void) {
    static const size_t counts[] = {0, 1, 2, CGX_MAX_WIRE_POINTS, CGX_MAX_WIRE_POINTS + 1};
    int at;
    size_t i;
    for (at = AT_START; at <= ENDED; at++) {
        bool extended = true, one_byte = true;
        for (i = 0; i < sizeof counts / sizeof counts[0]; i++) unstated((where)at, counts[i], &extended, &one_byte);
        expect(extended, "WIRE without an end style", "is the one with extended ends");
        expect(one_byte, "WIRE without an end style", "differs in its flags from one with flush ends");
    }
}

/* ---- the start */

static void starts(void) {
    size_t room;
    for (room = 0; room <= 6; room++) {
        blob buf = {lend(room), room}, after = {lend(room), room};
        static slot writer_slot;
        cgx_writer w;
        cgx_place place;
        uint32_t number;
        memset(&w, FILL, sizeof w);
        number = cgx_write_start(buf.bytes, buf.size, lent(&writer_slot, &w, sizeof w));
        memcpy(&w, writer_slot.bytes, sizeof w);
        if (room < 4) {
            expect(number == CGX_REFUSED_ROOM && stays(&writer_slot, "the writer of a refused start"), "start", "14");
        } else {
            memcpy(after.bytes, "cgx", 4);
            expect(number == CGX_OK && ask_start(buf, &place).number == CGX_OK && SAME(&w.place, &place), "start", "ready");
        }
        expect(same_bytes(buf, after), "start", "stores four bytes or none");
        drop(after);
        drop(buf);
    }
}

/* ---- a whole drawing, written and read back */

/* The calls that make the normal form of `every_kind`, which tests/c/reading.c walks. */
static const call drawing[] = {
    {.which = A_LIBRARY, .flags = 7, .first = {0x3e4189374bc6a7f0},
        .second = {0x41ffffffffffffff}, .created = DAY, .modified = {2025, 2, 6, 14, 9, 51, 0},
        TEXT_OF("m")},
    {.which = A_STRUCT, .created = DAY, .modified = {2025, 2, 6, 14, 9, 51, 0}, TEXT_OF("a")},
    {.which = A_CPRPTY, .number = -1, TEXT_OF("cp")},
    {.which = A_NAMED_LAYER, .layer = {5, -3}, TEXT_OF("m1")},
    {.which = A_PROPERTY, .number = 127, TEXT_OF("p")},
    {.which = A_PROPERTY, .number = INT32_MIN},
    {.which = A_BOX, ITEMS_OF(two_boxes)},
    {.which = A_POLY, ITEMS_OF(triangle)},
    {.which = A_WIRE, .number = 10, ITEMS_OF(line)},
    {.which = A_TEXT, .flags = 0xf5, .point = {-80, INT32_MIN}, .number = 7, TEXT_OF("ab\xce")},
    {.which = AN_SREF, .placement.point = {1, 2}, TEXT_OF("b")},
    {.which = AN_SREF, .flags = 15, .placement.point = {3, 4}, .placement.angle = {0x8000000000000000},
        .placement.magnif = {0x4201000000000000}, GRID(2, 3)},
    {.which = A_STRUCT, .created = DAY, .modified = {2025, 2, 6, 14, 9, 51, 0}},
    {.which = A_LAYER, .layer = {1, 0}},
    {.which = A_NAMED_LAYER, .layer = {1, 0}},
    {.which = AN_ENDLIB},
};
enum { CALLS = sizeof drawing / sizeof drawing[0] };

/* The kind of record that a call appends. */
static uint32_t kind_of(which_call which) {
    static const uint32_t kinds[] = {CGX_LIBRARY, CGX_STRUCT, CGX_CPRPTY, CGX_PROPERTY, CGX_LAYER, CGX_LAYER, CGX_BOX, CGX_POLY,
        CGX_WIRE, CGX_WIRE, CGX_TEXT, CGX_SREF, CGX_ENDLIB};
    return kinds[which];
}

static void read_back(void) {
    static const call card = {.which = A_TEST_CARD, .sides = {0, 0, 1, 1}};
    blob normal = hex(every_kind_normal), buf = {lend(500), 500}, file;
    cgx_writer writer;
    cgx_place walked;
    cgx_view view;
    size_t i;
    memset(&walked, FILL, sizeof walked);
    memset(&view, FILL, sizeof view);
    cgx_write_start(buf.bytes, buf.size, &writer);
    for (i = 0; i < CALLS; i++) {
        /* A refused call between two that are taken leaves no trace, and between calls the buffer may be moved. */
        blob shorter = {buf.bytes, (size_t)writer.place.at + 3}, moved = copy_of(buf.bytes, buf.size);
        expect(make_call(shorter, &writer, &card).number != CGX_OK, "a drawing", "a call between is refused");
        expect(make_call(moved, &writer, &drawing[i]).number == CGX_OK, "a drawing", "each call is taken");
        drop(buf);
        buf = moved;
    }
    file = copy_of(buf.bytes, (size_t)writer.place.at);
    expect(same_bytes(file, normal), "a drawing", "is the bytes that are stored here");
    expect(ask_check(file).number == CGX_OK, "a drawing", "is accepted");
    expect(is_normal(file), "a drawing", "is its own normal form");
    ask_start(file, &walked);
    for (i = 0; i < CALLS; i++) {
        expect(ask_step(file, &walked, &view).number == CGX_OK && view.kind == kind_of(drawing[i].which), "a drawing",
            "reads back");
    }
    expect(SAME(&walked, &writer.place), "a drawing", "walk and writer end at the same place");
    expect(ask_step(file, &walked, &view).number == CGX_DONE, "a drawing", "is done");
    drop(file);
    drop(buf);
    drop(normal);
}

/* ---- what a view has, handed on to the writer as it is */

static uint32_t hand_on(blob file, const cgx_view *v, blob buf, cgx_writer *w) {
    const cgx_fields *f = &v->fields;
    const uint8_t *bytes = file.bytes;
    uint8_t flags = (uint8_t)v->flags;
    cgx_box boxes[2];
    cgx_point points[4];
    uint64_t at, i;
    switch (v->kind) {
    case CGX_LIBRARY:
        return cgx_write_library(buf.bytes, buf.size, w, &at, flags, &f->library.munit, &f->library.uunit,
            &f->library.created, &f->library.modified, bytes + f->library.name.at, f->library.name.len);
    case CGX_STRUCT:
        return cgx_write_struct(buf.bytes, buf.size, w, &at, &f->structure.created, &f->structure.modified,
            bytes + f->structure.name.at, f->structure.name.len);
    case CGX_CPRPTY:
        return cgx_write_cprpty(buf.bytes, buf.size, w, &at, f->property.number, bytes + f->property.value.at,
            f->property.value.len);
    case CGX_PROPERTY:
        return cgx_write_property(buf.bytes, buf.size, w, &at, f->property.number, bytes + f->property.value.at,
            f->property.value.len);
    case CGX_LAYER:
        if (!f->layer.named) return cgx_write_layer(buf.bytes, buf.size, w, &at, &f->layer.id);
        return cgx_write_named_layer(
            buf.bytes, buf.size, w, &at, &f->layer.id, bytes + f->layer.name.at, f->layer.name.len);
    case CGX_BOX:
        for (i = 0; i < f->box.boxes.count; i++) cgx_box_at(bytes, file.size, &f->box.boxes, i, &boxes[i]);
        return cgx_write_box(buf.bytes, buf.size, w, &at, boxes, f->box.boxes.count);
    case CGX_POLY:
        for (i = 0; i < f->poly.points.count; i++) cgx_point_at(bytes, file.size, &f->poly.points, i, &points[i]);
        return cgx_write_poly(buf.bytes, buf.size, w, &at, points, f->poly.points.count);
    case CGX_WIRE:
        for (i = 0; i < f->wire.points.count; i++) cgx_point_at(bytes, file.size, &f->wire.points, i, &points[i]);
        return cgx_write_styled_wire(buf.bytes, buf.size, w, &at, flags, f->wire.width, points, f->wire.points.count);
    case CGX_TEXT:
        return cgx_write_text(buf.bytes, buf.size, w, &at, flags, f->text.point.x, f->text.point.y, f->text.width,
            bytes + f->text.label.at, f->text.label.len);
    case CGX_SREF:
        return cgx_write_sref(buf.bytes, buf.size, w, &at, flags, &f->sref.placement, bytes + f->sref.name.at,
            f->sref.name.len);
    default: return cgx_write_endlib(buf.bytes, buf.size, w, &at);
    }
}

/* Every record of a drawing, read and written again: its normal form. */
static void handed_on(void) {
    blob file = hex(every_kind), normal = hex(every_kind_normal), buf = {lend(normal.size), normal.size};
    cgx_place place;
    cgx_view view;
    cgx_writer writer;
    bool taken = cgx_write_start(buf.bytes, buf.size, &writer) == CGX_OK;
    memset(&place, FILL, sizeof place);
    memset(&view, FILL, sizeof view);
    ask_start(file, &place);
    while (ask_step(file, &place, &view).number == CGX_OK) taken = taken && hand_on(file, &view, buf, &writer) == CGX_OK;
    expect(taken && same_bytes(buf, normal), "a drawing", "that is read and written again is its normal form");
    drop(buf);
    drop(normal);
    drop(file);
}

void test_writing(void) {
    size_t i;
    starts();
    for (i = 0; i < sizeof taken_calls / sizeof taken_calls[0]; i++) take(&taken_calls[i]);
    for (i = 0; i < sizeof refused_calls / sizeof refused_calls[0]; i++) refuse(&refused_calls[i]);
    for (i = 0; i < sizeof good_calls / sizeof good_calls[0]; i++) expect_forged_refused("forged writer", &good_calls[i]);
    no_forgery();
    longest_texts();
    longest_lists();
    broken_lists();
    seconds("LIBRARY, created", false, false);
    seconds("LIBRARY, modified", false, true);
    seconds("STRUCT, created", true, false);
    seconds("STRUCT, modified", true, true);
    wire_ends();
    read_back();
    handed_on();
}
