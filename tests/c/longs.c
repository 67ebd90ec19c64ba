/* Longs: each field that is one holds in turn each bit alone, each bit missing, and more. What it is read as is worked out here from the
   weights of the bits; what is written must be the bytes that it was read from. And the closing test, a bit at a time. */
#include "calls.h"

#include <string.h>

/* Every kind with a long, an SREF with an array. */
static const char drawing[] = CGX LIBRARY_M STRUCT_A
    "000a 02 00 00000001 6100"
    LAYER_1
    "000a 03 00 00000001 6100"
    "0014 05 00 80000000 80000000 7fffffff 7fffffff"
    "0024 06 00 00000001 00000002 00000003 00000004 00000005 00000006 00000001 00000002"
    "0018 07 02 00000001 00000001 00000002 00000003 00000004"
    "0012 08 00 00000001 00000002 00000003 6100"
    "0026 09 08 00000001 00000002 00000001 00000001 00000003 00000004 00000005 00000006 6100"
    ENDLIB;

/* The records, and after the last of them the file's end. */
enum {
    LIBRARY_AT = 4,
    STRUCT_AT = 42,
    CPRPTY_AT = 64,
    LAYER_AT = 74,
    PROPERTY_AT = 82,
    BOX_AT = 92,
    POLY_AT = 112,
    WIRE_AT = 148,
    TEXT_AT = 172,
    SREF_AT = 190,
    ENDLIB_AT = 228,
    SIZE = 232
};

/* A field: its record, and its offset in that. */
typedef struct {
    const char *name;
    uint64_t record, at;
    bool counts; /* below 1 it is refused with 10 */
} field;

static const field fields[] = {
    {"CPRPTY number", CPRPTY_AT, 4, false},
    {"PROPERTY number", PROPERTY_AT, 4, false},
    {"BOX left", BOX_AT, 4, false},
    {"BOX bottom", BOX_AT, 8, false},
    {"BOX right", BOX_AT, 12, false},
    {"BOX top", BOX_AT, 16, false},
    {"POLY x", POLY_AT, 12, false},
    {"POLY y", POLY_AT, 16, false},
    {"WIRE width", WIRE_AT, 4, false},
    {"WIRE x", WIRE_AT, 16, false},
    {"WIRE y", WIRE_AT, 20, false},
    {"TEXT x", TEXT_AT, 4, false},
    {"TEXT y", TEXT_AT, 8, false},
    {"TEXT width", TEXT_AT, 12, false},
    {"SREF x", SREF_AT, 4, false},
    {"SREF y", SREF_AT, 8, false},
    {"SREF cols", SREF_AT, 12, true},
    {"SREF rows", SREF_AT, 16, true},
    {"SREF across x", SREF_AT, 20, false},
    {"SREF across y", SREF_AT, 24, false},
    {"SREF up x", SREF_AT, 28, false},
    {"SREF up y", SREF_AT, 32, false},
};

/* ---- what is tried */

enum { BITS = 32, OTHERS = 8, PATTERNS = 2 * BITS + OTHERS };

static uint32_t pattern(unsigned i) {
    static const uint32_t others[OTHERS] = {
        0, 0xffffffff, 0x01020304, 0xfefdfcfb, 0x80000001, 0x7fff8000, 0x00ff00ff, 0x80007fff};
    if (i < BITS) return (uint32_t)1 << i;
    if (i < 2 * BITS) return ~((uint32_t)1 << (i - BITS));
    return others[i - 2 * BITS];
}

/* By the weights of its bits: the first weighs -2^31. A wide number, which this test may have. */
static int64_t weighed(uint32_t bits) {
    int64_t sum = 0;
    unsigned i;
    for (i = 0; i < 31; i++) sum += (int64_t)(bits >> i & 1) * ((int64_t)1 << i);
    return sum - (int64_t)(bits >> 31) * ((int64_t)1 << 31);
}

static void put_bits(uint8_t *to, uint32_t bits) {
    to[0] = (uint8_t)(bits >> 24);
    to[1] = (uint8_t)(bits >> 16);
    to[2] = (uint8_t)(bits >> 8);
    to[3] = (uint8_t)bits;
}

/* ---- what is read */

/* The point of a list that a record's byte `at` is in, of which the points begin at `first`. */
static int32_t of_point(blob file, cgx_list points, uint64_t at, uint64_t first) {
    cgx_point p;
    if (ask_point(file, points, (at - first) / 8, &p) != CGX_OK) return 0;
    return (at - first) % 8 == 0 ? p.x : p.y;
}

static int32_t of_box(blob file, cgx_list boxes, uint64_t at) {
    cgx_box b;
    if (ask_box(file, boxes, 0, &b) != CGX_OK) return 0;
    return at == 4 ? b.left : at == 8 ? b.bottom : at == 12 ? b.right : b.top;
}

static int32_t of_placement(const cgx_placement *p, uint64_t at) {
    const int32_t longs[] = {p->point.x, p->point.y, p->cols, p->rows, p->across.x, p->across.y, p->up.x, p->up.y};
    return longs[(at - 4) / 4];
}

static int32_t of_view(blob file, const cgx_view *v, uint64_t at) {
    switch (v->kind) {
    case CGX_CPRPTY:
    case CGX_PROPERTY: return v->fields.property.number;
    case CGX_BOX: return of_box(file, v->fields.box.boxes, at);
    case CGX_POLY: return of_point(file, v->fields.poly.points, at, 4);
    case CGX_WIRE: return at == 4 ? v->fields.wire.width : of_point(file, v->fields.wire.points, at, 8);
    case CGX_TEXT: return at == 4 ? v->fields.text.point.x : at == 8 ? v->fields.text.point.y : v->fields.text.width;
    default: return of_placement(&v->fields.sref.placement, at);
    }
}

/* Whether a walk of an accepted file gives this number, as the field, and comes to the end. */
static bool read_as(blob file, const field *f, int64_t number) {
    cgx_place place;
    cgx_view v;
    bool met = false;
    if (ask_check(file).number != CGX_OK || ask_start(file, &place).number != CGX_OK) return false;
    for (;;) {
        uint32_t answer = ask_step(file, &place, &v).number;
        if (answer != CGX_OK) return answer == CGX_DONE && met;
        if (v.at == f->record) met = of_view(file, &v, f->at) == number;
    }
}

/* Whether check and walk refuse it with 10 at the record. */
static bool refused_as_number(blob file, const field *f) {
    cgx_place place;
    cgx_view v;
    told t = ask_check(file);
    if (t.number != CGX_REFUSED_NUMBER || t.at != f->record) return false;
    if (ask_start(file, &place).number != CGX_OK) return false;
    while ((t = ask_step(file, &place, &v)).number == CGX_OK) {
    }
    return t.number == CGX_REFUSED_NUMBER && t.at == f->record;
}

/* ---- what is written: the records as they are read, one call each */

static int32_t long_at(blob file, uint64_t at) {
    const uint8_t *b = file.bytes + at;
    return (int32_t)weighed((uint32_t)b[0] << 24 | (uint32_t)b[1] << 16 | (uint32_t)b[2] << 8 | b[3]);
}

static cgx_point point_at(blob file, uint64_t at) {
    cgx_point p;
    p.x = long_at(file, at);
    p.y = long_at(file, at + 4);
    return p;
}

static cgx_placement placement_at(blob file) {
    cgx_placement p = {0};
    p.point = point_at(file, SREF_AT + 4);
    p.cols = long_at(file, SREF_AT + 12);
    p.rows = long_at(file, SREF_AT + 16);
    p.across = point_at(file, SREF_AT + 20);
    p.up = point_at(file, SREF_AT + 28);
    return p;
}

/* The number that the call of the field's record answers, after the records before it were taken. All that was written is the file's bytes, or the
   answer is NO_ANSWER. */
enum { NO_ANSWER = 999 };

static uint32_t written(blob file, const field *f) {
    const cgx_box box = {
        long_at(file, BOX_AT + 4), long_at(file, BOX_AT + 8), long_at(file, BOX_AT + 12), long_at(file, BOX_AT + 16)};
    const cgx_point poly[] = {point_at(file, POLY_AT + 4), point_at(file, POLY_AT + 12), point_at(file, POLY_AT + 20),
        point_at(file, POLY_AT + 28)};
    const cgx_point wire[] = {point_at(file, WIRE_AT + 8), point_at(file, WIRE_AT + 16)};
    const call records[] = {
        {.which = A_CPRPTY, .number = long_at(file, CPRPTY_AT + 4), TEXT_OF("a")},
        {.which = A_LAYER, .layer = {1, 0}},
        {.which = A_PROPERTY, .number = long_at(file, PROPERTY_AT + 4), TEXT_OF("a")},
        {.which = A_BOX, .items = &box, .count = 1},
        {.which = A_POLY, ITEMS_OF(poly)},
        {.which = A_WIRE, .number = long_at(file, WIRE_AT + 4), ITEMS_OF(wire)},
        {.which = A_TEXT, .point = point_at(file, TEXT_AT + 4), .number = long_at(file, TEXT_AT + 12), TEXT_OF("a")},
        {.which = AN_SREF, .flags = CGX_SREF_ARRAY, .placement = placement_at(file), TEXT_OF("a")},
    };
    /* As after LIBRARY and STRUCT of the drawing, which have no longs. */
    cgx_writer writer = writer_in(IN_CELL);
    blob buf = {lend(SIZE), SIZE};
    uint32_t answer = NO_ANSWER;
    size_t i;
    writer.place.at = CPRPTY_AT;
    memcpy(buf.bytes, file.bytes, CPRPTY_AT);
    for (i = 0; i < sizeof records / sizeof records[0]; i++) {
        uint64_t at = writer.place.at;
        answer = make_call(buf, &writer, &records[i]).number;
        if (at == f->record || answer != CGX_OK) break;
    }
    if (memcmp(buf.bytes, file.bytes, (size_t)writer.place.at) != 0) answer = NO_ANSWER;
    drop(buf);
    return answer;
}

static void each_pattern(const field *f) {
    blob file = hex(drawing);
    bool read = true, back = true;
    unsigned i;
    for (i = 0; i < PATTERNS; i++) {
        int64_t number = weighed(pattern(i));
        put_bits(file.bytes + f->record + f->at, pattern(i));
        if (f->counts && number < 1) {
            read = read && refused_as_number(file, f);
            back = back && written(file, f) == CGX_REFUSED_NUMBER;
        } else {
            read = read && read_as(file, f, number);
            back = back && written(file, f) == CGX_OK;
        }
    }
    expect(read, f->name, "each pattern is read as what its bits weigh");
    expect(back, f->name, "and written with the bytes that it is read from");
    drop(file);
}

/* ---- an extent of one point, whose sides are its longs */

static void extent_of_a_point(void) {
    blob file = hex(CGX LIBRARY_M STRUCT_A LAYER_1 "0010 07 02 00000001 00000000 00000000" ENDLIB);
    bool good = true;
    unsigned i;
    for (i = 0; i < PATTERNS; i++) {
        cgx_box box;
        int64_t x = weighed(pattern(i)), y = weighed(pattern(PATTERNS - 1 - i));
        put_bits(file.bytes + 80, pattern(i));
        put_bits(file.bytes + 84, pattern(PATTERNS - 1 - i));
        good = good && ask_extent(file, 0, &box).number == CGX_OK && box.left == x && box.right == x && box.bottom == y
            && box.top == y;
    }
    expect(good, "extent", "of one point is that point");
    drop(file);
}

/* ---- closed polygons */

/* Whether the drawing is refused with 12 at its POLY, by check and walk, and by the writer's call. */
static bool not_closed(blob file) {
    static const field poly = {"POLY", POLY_AT, 4, false};
    cgx_place place;
    cgx_view v;
    told t = ask_check(file);
    if (t.number != CGX_REFUSED_NOT_CLOSED || t.at != POLY_AT) return false;
    if (ask_start(file, &place).number != CGX_OK) return false;
    while ((t = ask_step(file, &place, &v)).number == CGX_OK) {
    }
    return t.number == CGX_REFUSED_NOT_CLOSED && t.at == POLY_AT && written(file, &poly) == CGX_REFUSED_NOT_CLOSED;
}

static void closing(void) {
    static const field first = {"POLY x", POLY_AT, 4, false};
    blob file = hex(drawing);
    uint8_t *begin = file.bytes + POLY_AT + 4, *end = file.bytes + POLY_AT + 28;
    unsigned i, bit, bits = 0;
    bool closed = true, open = true;
    for (i = 0; i < PATTERNS; i++) {
        uint32_t x = pattern(i), y = pattern((i + 7) % PATTERNS);
        put_bits(begin, x);
        put_bits(begin + 4, y);
        memcpy(end, begin, 8);
        closed = closed && read_as(file, &first, weighed(x)) && written(file, &first) == CGX_OK;
        put_bits(end, y);
        put_bits(end + 4, x);
        open = open && not_closed(file);
    }
    expect(closed, "POLY", "is closed where its last point is its first");
    expect(open, "POLY", "is refused with 12 where x and y of the last point are exchanged");
    for (bit = 0; bit < 64; bit++) {
        memcpy(end, begin, 8);
        end[bit / 8] ^= (uint8_t)(1u << bit % 8);
        bits += not_closed(file);
    }
    expect(bits == 64, "POLY", "is refused with 12 where the last point differs in one bit, whichever it is");
    memcpy(end, begin + 8, 8);
    expect(not_closed(file), "POLY", "is refused with 12 where its last point is its second");
    drop(file);
}

void test_longs(void) {
    size_t i;
    for (i = 0; i < sizeof fields / sizeof fields[0]; i++) each_pattern(&fields[i]);
    extent_of_a_point();
    closing();
}
