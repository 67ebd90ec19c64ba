/* The checker, the walk, lists, texts, layer names and extents. */
#include "asked.h"

#include <string.h>

/* Bytes that no answer has. */
#define UNUSED(type) static type unused_##type(void) { \
    type t; \
    memset(&t, FILL, sizeof t); \
    return t; \
}
UNUSED(cgx_place)
UNUSED(cgx_view)
UNUSED(cgx_box)
UNUSED(cgx_point)
UNUSED(cgx_text)
UNUSED(uint64_t)

/* ---- refusals: each reader gives the same number at the same offset */

typedef struct {
    const char *name;
    const char *digits;
    uint32_t number;
    uint64_t at;
} refused_file;

#define CELL CGX LIBRARY_M STRUCT_A /* 64 bytes */
#define LAYERED CELL LAYER_1        /* 72 bytes */
#define REALS "3e4189374bc6a7f0 3944b82fa09b5a54 "
#define DATE "07e9 02 06 0e 09 2d 00 "
#define STRUCT_DATED(date) CGX LIBRARY_M "0016 01 00 " date DATE "6100" ENDLIB
#define STRUCT_NAMED(size, name) CGX LIBRARY_M size " 01 00 " DATES name ENDLIB

static const refused_file refused_files[] = {
    {"empty", "", 1, 0},
    {"three bytes", "636778", 1, 0},
    {"not cgx", "63677a00" LIBRARY_M ENDLIB, 1, 0},
    {"level 1", "63677801", 2, 0},
    {"header alone", CGX, 3, 4},
    {"no ENDLIB", LAYERED BOX_1, 3, 92},
    {"ends after a PROPERTY", LAYERED "000a 03 00 00000001 6100", 3, 82},
    {"one byte left", CGX LIBRARY_M "00", 4, 42},
    {"three bytes left", CGX LIBRARY_M "000401", 4, 42},
    {"past the end", CGX LIBRARY_M "0006 0a 00", 4, 42},
    {"size odd", CGX "0005 00 00", 5, 4},
    {"size 2", CGX "0002 00 00", 5, 4},
    {"size 0", CGX LIBRARY_M "0000 0a 00", 5, 42},
    {"size odd and past the end", CGX LIBRARY_M "ffff 0a 00", 5, 42},
    {"unknown before LIBRARY", CGX "0004 0b 00", 6, 4},
    {"STRUCT before LIBRARY", CGX STRUCT_A, 6, 4},
    {"second LIBRARY", CGX LIBRARY_M LIBRARY_M ENDLIB, 6, 42},
    {"LAYER without a cell", CGX LIBRARY_M LAYER_1 ENDLIB, 6, 42},
    {"BOX without a layer", CELL BOX_1 ENDLIB, 6, 64},
    {"the layer ends with its cell", LAYERED STRUCT_A BOX_1 ENDLIB, 6, 94},
    {"CPRPTY after LAYER", LAYERED "000a 02 00 00000001 6100" ENDLIB, 6, 72},
    {"ENDLIB after PROPERTY", LAYERED "000a 03 00 00000001 6100" ENDLIB, 6, 82},
    {"LAYER after PROPERTY", LAYERED "000a 03 00 00000001 6100" LAYER_1 ENDLIB, 6, 82},
    {"WIRE flags 3", LAYERED "0010 07 03 00000001 00000001 00000001" ENDLIB, 7, 72},
    {"SREF flags 16", CELL "000e 09 10 00000001 00000001 6100" ENDLIB, 7, 64},
    {"BOX without a box", LAYERED "0004 05 00" ENDLIB, 8, 72},
    {"BOX of half a box", LAYERED "001c 05 00 00000000 00000000 00000000 00000000 00000000 00000000" ENDLIB, 8, 72},
    {"POLY of three points", LAYERED "001c 06 00 00000000 00000000 00000001 00000001 00000000 00000000" ENDLIB, 8, 72},
    {"WIRE without a point", LAYERED "0008 07 00 00000001" ENDLIB, 8, 72},
    {"LIBRARY too short", CGX "0024 00 00 " REALS DATES ENDLIB, 8, 4},
    {"ENDLIB too long", CGX LIBRARY_M "0006 0a 00 0000", 8, 42},
    {"month 0", STRUCT_DATED("07e9 00 06 0e 09 2d 00"), 9, 42},
    {"month 13", STRUCT_DATED("07e9 0d 06 0e 09 2d 00"), 9, 42},
    {"day 0", STRUCT_DATED("07e9 02 00 0e 09 2d 00"), 9, 42},
    {"day 32", STRUCT_DATED("07e9 02 20 0e 09 2d 00"), 9, 42},
    {"hour 24", STRUCT_DATED("07e9 02 06 18 09 2d 00"), 9, 42},
    {"minute 60", STRUCT_DATED("07e9 02 06 0e 3c 2d 00"), 9, 42},
    {"second 61", STRUCT_DATED("07e9 02 06 0e 09 3d 00"), 9, 42},
    {"a date's last byte", STRUCT_DATED("07e9 02 06 0e 09 2d 01"), 9, 42},
    {"munit 0", CGX "0026 00 00 8000000000000000 3944b82fa09b5a54 " DATES "6d00" ENDLIB, 10, 4},
    {"uunit below 0", CGX "0026 00 00 3e4189374bc6a7f0 b944b82fa09b5a54 " DATES "6d00" ENDLIB, 10, 4},
    {"reversed box", LAYERED "0014 05 00 00000001 00000000 00000000 00000000" ENDLIB, 10, 72},
    {"magnif 0", CELL "0016 09 02 00000001 00000001 0000000000000000 6100" ENDLIB, 10, 64},
    {"cols 0",
        CELL "0026 09 08 00000001 00000001 00000000 00000001 00000000 00000000 00000000 00000000 6100" ENDLIB, 10, 64},
    {"rows -1",
        CELL "0026 09 08 00000001 00000001 00000001 ffffffff 00000000 00000000 00000000 00000000 6100" ENDLIB, 10, 64},
    {"text after a zero", STRUCT_NAMED("0018", "61000000"), 11, 42},
    {"no zero at the end", STRUCT_NAMED("0018", "61620063"), 11, 42},
    {"POLY not closed",
        LAYERED "0024 06 00 00000000 00000000 00000001 00000000 00000001 00000001 00000000 00000001" ENDLIB, 12, 72},
    {"a byte after ENDLIB", SMALL "00", 13, 96},
};

/* Walks a file to its end: the last answer, of the start where that is refused. */
static told walked(blob file, size_t *records) {
    cgx_place place = unused_cgx_place();
    cgx_view view = unused_cgx_view();
    told t = ask_start(file, &place);
    *records = 0;
    if (t.number != CGX_OK) return t;
    while ((t = ask_step(file, &place, &view)).number == CGX_OK) ++*records;
    return t;
}

static bool refuses(told t, uint32_t number, uint64_t at) {
    return t.number == number && t.at == at;
}

static void refuse(const refused_file *r) {
    blob file = hex(r->digits), out = copy_of("untouched", 9);
    size_t records;
    uint64_t length = unused_uint64_t();
    cgx_box extent = unused_cgx_box();
    expect(refuses(ask_check(file), r->number, r->at), r->name, "check");
    expect(refuses(walked(file, &records), r->number, r->at), r->name, "walk");
    expect(refuses(ask_normal_length(file, &length), r->number, r->at), r->name, "normal length");
    expect(refuses(ask_normal_form(file, out, &length), r->number, r->at), r->name, "normal form");
    expect(refuses(ask_extent(file, 0, &extent), r->number, r->at), r->name, "extent");
    drop(out);
    drop(file);
}

/* ---- accepted files */

typedef struct {
    const char *name;
    const char *digits;
    size_t records;
} accepted_file;

static const accepted_file accepted_files[] = {
    {"96 bytes", SMALL, 5},
    {"no cell", CGX LIBRARY_M ENDLIB, 2},
    {"name a", STRUCT_NAMED("0016", "6100"), 3},
    {"name ab", STRUCT_NAMED("0018", "61620000"), 3},
    {"empty name", STRUCT_NAMED("0016", "0000"), 3},
    {"second 60", STRUCT_DATED("07e9 02 06 0e 09 3c 00"), 3},
    {"unknown inside a run", LAYERED "000a 03 00 00000001 6100 0004 ff 00" BOX_1 ENDLIB, 6},
    {"SREF needs no layer", CELL "000e 09 00 00000001 00000001 6100" ENDLIB, 4},
    {"every kind", every_kind, 16},
};

static void accept(const accepted_file *a) {
    blob file = hex(a->digits);
    size_t records;
    told last = walked(file, &records);
    expect(ask_check(file).number == CGX_OK, a->name, "check");
    expect(last.number == CGX_DONE && records == a->records, a->name, "walk");
    drop(file);
}

/* "BOX size 65,524 taken" */
static void most_boxes(void) {
    blob start = hex(LAYERED), end = hex(ENDLIB), file;
    size_t records, i;
    file.size = start.size + 65524 + end.size;
    file.bytes = lend(file.size);
    memset(file.bytes, 0, file.size);
    memcpy(file.bytes, start.bytes, start.size);
    put_short(file.bytes + start.size, 65524);
    file.bytes[start.size + 2] = CGX_BOX;
    memcpy(file.bytes + start.size + 65524, end.bytes, end.size);
    for (i = 0; i < CGX_MAX_BOXES; i++) put_long(file.bytes + start.size + 4 + 16 * i + 8, (int32_t)i);
    expect(ask_check(file).number == CGX_OK, "BOX size 65,524", "check");
    expect(walked(file, &records).number == CGX_DONE && records == 5, "BOX size 65,524", "walk");
    drop(file);
    drop(end);
    drop(start);
}

/* ---- every second of each date: 0 to 60 are taken, given, and in normal form as they are; 61 to 255 are 9 */

static void seconds(const char *name, uint64_t record, bool modified) {
    blob file = hex(SMALL), out = copy_of("untouched", 9);
    uint8_t *second = file.bytes + record + (record == 4 ? 26 : 10) + (modified ? 8 : 0);
    uint64_t length = unused_uint64_t();
    bool taken = true, refused = true;
    cgx_date shown;
    size_t records;
    unsigned s;
    for (s = 0; s <= 60; s++) {
        *second = (uint8_t)s;
        taken = taken && ask_check(file).number == CGX_OK && walked(file, &records).number == CGX_DONE && records == 5
            && date_in(file, record, modified, &shown) && shown.second == s && is_normal(file);
    }
    for (; s <= 255; s++) {
        *second = (uint8_t)s;
        refused = refused && refuses(ask_check(file), 9, record) && refuses(walked(file, &records), 9, record)
            && refuses(ask_normal_form(file, out, &length), 9, record);
    }
    expect(taken, name, "seconds 0 to 60");
    expect(refused, name, "seconds 61 to 255");
    drop(out);
    drop(file);
}

/* ---- views: every member, and the bytes after the kind's own fields, which stay */

typedef struct {
    uint32_t kind, flags;
    uint64_t at, cell, layer;
    cgx_list properties;
} expected_view;

static const expected_view expected_views[] = {
    {CGX_LIBRARY, 7, 4, 0, 0, {0, 0}},
    {CGX_STRUCT, 0xff, 42, 42, 0, {0, 0}},
    {CGX_CPRPTY, 1, 64, 42, 0, {0, 0}},
    {CGX_LAYER, 2, 76, 42, 76, {0, 0}},
    {CGX_PROPERTY, 3, 88, 42, 76, {0, 0}},
    {CGX_PROPERTY, 0, 104, 42, 76, {0, 0}},
    {CGX_BOX, 0x55, 114, 42, 76, {88, 2}},
    {CGX_POLY, 0, 150, 42, 76, {0, 0}},
    {CGX_WIRE, 2, 186, 42, 76, {0, 0}},
    {CGX_TEXT, 0xf5, 210, 42, 76, {0, 0}},
    {CGX_SREF, 0, 230, 42, 76, {0, 0}},
    {CGX_SREF, 15, 244, 42, 76, {0, 0}},
    {CGX_STRUCT, 0, 298, 298, 0, {0, 0}},
    {CGX_LAYER, 0, 320, 298, 320, {0, 0}},
    {CGX_LAYER, 0, 328, 298, 328, {0, 0}},
    {CGX_ENDLIB, 0, 338, 298, 328, {0, 0}},
};
enum { VIEWS = sizeof expected_views / sizeof expected_views[0] };

static const cgx_date created = {2025, 2, 6, 14, 9, 45, 0}, modified = {2025, 2, 6, 14, 9, 51, 0};

static cgx_text text(uint64_t at, uint64_t len) {
    cgx_text t = {at, len};
    return t;
}

static cgx_list list(uint64_t first, uint64_t count) {
    cgx_list l = {first, count};
    return l;
}

static void property(cgx_fields *f, int32_t number, cgx_text value) {
    f->property.number = number;
    f->property.unused = 0;
    f->property.value = value;
}

static void layer_fields(cgx_fields *f, int16_t number, int16_t datatype, uint32_t named, cgx_text name) {
    f->layer.id.number = number;
    f->layer.id.datatype = datatype;
    f->layer.named = named;
    f->layer.name = name;
}

static void structure(cgx_fields *f, cgx_text name) {
    f->structure.created = created;
    f->structure.modified = modified;
    f->structure.name = name;
}

/* The fields of the record at an offset of `every_kind`. */
static void expected_fields(uint64_t at, cgx_fields *f) {
    const cgx_placement plain = {.point = {1, 2}}, full = {{3, 4}, {0x8000000000000000}, {0x4201000000000000}, 2, 3,
        {100, 0}, {0, 200}};
    switch (at) {
    case 4:
        f->library.munit.word = 0x3e4189374bc6a7f0;
        f->library.uunit.word = 0x41ffffffffffffff;
        f->library.created = created;
        f->library.modified = modified;
        f->library.name = text(40, 1);
        break;
    case 42: structure(f, text(62, 1)); break;
    case 64: property(f, -1, text(72, 2)); break;
    case 76: layer_fields(f, 5, -3, 1, text(84, 2)); break;
    case 88: property(f, 127, text(96, 1)); break;
    case 104: property(f, INT32_MIN, text(112, 0)); break;
    case 114: f->box.boxes = list(118, 2); break;
    case 150: f->poly.points = list(154, 4); break;
    case 186:
        f->wire.width = 10;
        f->wire.unused = 0;
        f->wire.points = list(194, 2);
        break;
    case 210:
        f->text.point.x = -80;
        f->text.point.y = INT32_MIN;
        f->text.width = 7;
        f->text.unused = 0;
        f->text.label = text(226, 3);
        break;
    case 230:
        f->sref.placement = plain;
        f->sref.name = text(242, 1);
        break;
    case 244:
        f->sref.placement = full;
        f->sref.name = text(296, 0);
        break;
    case 298: structure(f, text(318, 0)); break;
    case 320: layer_fields(f, 1, 0, 0, text(0, 0)); break;
    case 328: layer_fields(f, 1, 0, 1, text(336, 0)); break;
    default: break;
    }
}

static cgx_view expected(const expected_view *e) {
    cgx_view v = unused_cgx_view();
    v.kind = e->kind;
    v.flags = e->flags;
    v.at = e->at;
    v.cell = e->cell;
    v.layer = e->layer;
    v.properties = e->properties;
    expected_fields(e->at, &v.fields);
    return v;
}

static bool is_view(const cgx_view *v, const expected_view *e) {
    cgx_view whole = expected(e);
    return SAME(v, &whole);
}

static bool is_place(const cgx_place *p, uint64_t at, uint64_t cell, uint64_t layer, cgx_list properties, uint64_t seen) {
    cgx_place whole;
    whole.at = at;
    whole.cell = cell;
    whole.layer = layer;
    whole.properties = properties;
    whole.seen = seen;
    return SAME(p, &whole);
}

static bool is_text(blob file, cgx_text t, const char *bytes) {
    const uint8_t *found = cgx_text_bytes(file.bytes, file.size, &t);
    return found != NULL && t.len == strlen(bytes) && memcmp(found, bytes, t.len) == 0;
}

static bool is_point(blob file, cgx_list points, uint64_t i, int32_t x, int32_t y) {
    cgx_point p = unused_cgx_point();
    return ask_point(file, points, i, &p) == CGX_OK && p.x == x && p.y == y;
}

static bool is_box(blob file, cgx_list boxes, uint64_t i, cgx_box sides) {
    cgx_box b = unused_cgx_box();
    return ask_box(file, boxes, i, &b) == CGX_OK && SAME(&b, &sides);
}

static bool no_point(blob file, cgx_list points, uint64_t i) {
    cgx_point p = unused_cgx_point();
    return ask_point(file, points, i, &p) == CGX_NOTHING;
}

static bool no_box(blob file, cgx_list boxes, uint64_t i) {
    cgx_box b = unused_cgx_box();
    return ask_box(file, boxes, i, &b) == CGX_NOTHING;
}

/* What the texts and lists of a view lead to. */
static void led_to(blob file, const cgx_view *v) {
    const cgx_fields *f = &v->fields;
    const cgx_box first = {-80, -57, 82, 58}, second = {0, 0, 0, 0};
    const char *name = "fields";
    switch (v->at) {
    case 4: expect(is_text(file, f->library.name, "m"), name, "name of LIBRARY"); break;
    case 42: expect(is_text(file, f->structure.name, "a"), name, "name of STRUCT"); break;
    case 64: expect(is_text(file, f->property.value, "cp"), name, "CPRPTY"); break;
    case 76: expect(is_text(file, f->layer.name, "m1"), name, "name of LAYER"); break;
    case 88: expect(is_text(file, f->property.value, "p"), name, "PROPERTY"); break;
    case 104: expect(is_text(file, f->property.value, ""), name, "an empty value"); break;
    case 114:
        expect(is_box(file, f->box.boxes, 0, first), name, "first box");
        expect(is_box(file, f->box.boxes, 1, second), name, "second box");
        expect(no_box(file, f->box.boxes, 2), name, "no third box");
        break;
    case 150:
        expect(is_point(file, f->poly.points, 2, 10, 20), name, "points of POLY");
        expect(no_point(file, f->poly.points, 4), name, "no fifth point");
        break;
    case 186:
        expect(is_point(file, f->wire.points, 0, -1, INT32_MIN) && is_point(file, f->wire.points, 1, INT32_MAX, 1), name,
            "points of WIRE");
        expect(no_point(file, f->wire.points, 2), name, "no third point");
        break;
    case 210: expect(is_text(file, f->text.label, "ab\xce"), name, "label cut through a letter"); break;
    case 230: expect(is_text(file, f->sref.name, "b"), name, "name of SREF"); break;
    default: break;
    }
}

static void views(void) {
    blob file = hex(every_kind);
    cgx_place place = unused_cgx_place();
    cgx_view view = unused_cgx_view();
    size_t i;
    expect(ask_start(file, &place).number == CGX_OK && is_place(&place, 4, 0, 0, list(0, 0), 0), "view", "start");
    for (i = 0; i < VIEWS; i++) {
        view = unused_cgx_view();
        if (ask_step(file, &place, &view).number != CGX_OK) break;
        expect(is_view(&view, &expected_views[i]), "view", "of every kind");
        led_to(file, &view);
        if (view.at == 42) {
            expect(is_place(&place, 64, 42, 0, list(0, 0), CGX_SEEN_LIBRARY | CGX_SEEN_FRESH), "place", "after STRUCT");
        }
        if (view.at == 104) expect(is_place(&place, 114, 42, 76, list(88, 2), CGX_SEEN_LIBRARY), "place", "in a run");
        if (view.at == 114) expect(is_place(&place, 150, 42, 76, list(0, 0), CGX_SEEN_LIBRARY), "place", "after a run");
    }
    expect(i == VIEWS && ask_step(file, &place, &view).number == CGX_DONE, "view", "done");
    expect(is_place(&place, 342, 298, 328, list(0, 0), CGX_SEEN_LIBRARY | CGX_SEEN_ENDLIB), "place", "at the end");
    drop(file);
}

/* From the view of the BOX back to its STRUCT, its LAYER and its two properties, over the unknown record between them. */
static void read_again(void) {
    blob file = hex(every_kind);
    cgx_place place = unused_cgx_place(), back;
    cgx_view box = unused_cgx_view(), view = unused_cgx_view();
    ask_start(file, &place);
    while (ask_step(file, &place, &box).number == CGX_OK && box.kind != CGX_BOX) {
    }
    cgx_place_before(&box, box.cell, &back);
    expect(ask_step(file, &back, &view).number == CGX_OK && is_view(&view, &expected_views[1]), "read again", "STRUCT");
    view = unused_cgx_view();
    cgx_place_before(&box, box.layer, &back);
    expect(ask_step(file, &back, &view).number == CGX_OK && is_view(&view, &expected_views[3]), "read again", "LAYER");
    cgx_place_before(&box, box.properties.first, &back);
    view = unused_cgx_view();
    expect(ask_step(file, &back, &view).number == CGX_OK && is_view(&view, &expected_views[4]), "read again",
        "first PROPERTY");
    view = unused_cgx_view();
    expect(ask_step(file, &back, &view).number == CGX_OK && is_view(&view, &expected_views[5]), "read again",
        "second PROPERTY");
    drop(file);
}

/* ---- forged places: each clause of 16, and what is no forgery */

static void refuse_place(blob file, cgx_place place) {
    cgx_view view = unused_cgx_view();
    expect(ask_step(file, &place, &view).number == CGX_REFUSED_NO_SUCH, "forged place", "is 16");
}

static void forged(void) {
    blob file = hex(SMALL), tiny = copy_of("cgx", 3);
    cgx_place start = unused_cgx_place(), places[FORGED], equal, marked, none;
    cgx_view view = unused_cgx_view();
    size_t i;
    ask_start(file, &start);
    forged_places(file.size, places);
    for (i = 0; i < FORGED; i++) refuse_place(file, places[i]);
    refuse_place(tiny, start);

    equal = start;
    equal.at = equal.cell = equal.layer = 92;
    equal.seen = CGX_SEEN_LIBRARY;
    expect(ask_step(file, &equal, &view).number == CGX_OK && view.kind == CGX_ENDLIB && view.cell == 92, "forged place",
        "equal is no forgery");
    equal.at = file.size;
    equal.seen = CGX_SEEN_LIBRARY | CGX_SEEN_ENDLIB;
    expect(ask_step(file, &equal, &view).number == CGX_DONE, "forged place", "the end of the file is none");

    marked = start;
    marked.seen = ~(uint64_t)(CGX_SEEN_LIBRARY | CGX_SEEN_FRESH | CGX_SEEN_ENDLIB);
    expect(ask_step(file, &marked, &view).number == CGX_OK && is_place(&marked, 42, 0, 0, list(0, 0), CGX_SEEN_LIBRARY),
        "place", "higher bits of what is seen are not looked at");
    none = start;
    none.properties.first = UINT64_MAX;
    expect(ask_step(file, &none, &view).number == CGX_OK && is_place(&none, 42, 0, 0, list(0, 0), CGX_SEEN_LIBRARY),
        "place", "of no properties the first is not looked at");
    drop(tiny);
    drop(file);
}

/* ---- made-up places: 0 is none */

/* At the BOX of a file, with `change` to a place that is otherwise true. */
static uint32_t from_box(blob file, void (*change)(cgx_place *), cgx_view *view) {
    uint64_t at = 0;
    cgx_place place, before;
    cgx_start(file.bytes, file.size, &place, &at);
    before = place;
    while (cgx_step(file.bytes, file.size, &place, view, &at) == CGX_OK && view->kind != CGX_BOX) before = place;
    change(&before);
    return cgx_step(file.bytes, file.size, &before, view, &at);
}

static void no_cell(cgx_place *place) { place->cell = 0; }
static void no_layer(cgx_place *place) { place->layer = 0; }
static void no_properties(cgx_place *place) {
    place->properties.first = 4;
    place->properties.count = 0;
}

static void none(void) {
    blob file = hex(every_kind);
    cgx_view view;
    expect(from_box(file, no_cell, &view) == CGX_REFUSED_ORDER, "0 is none", "no cell");
    expect(from_box(file, no_layer, &view) == CGX_REFUSED_ORDER, "0 is none", "no layer");
    expect(from_box(file, no_properties, &view) == CGX_OK && view.kind == CGX_BOX && view.properties.first == 0
            && view.properties.count == 0, "0 is none", "no properties");
    drop(file);
}

/* ---- lists and texts that are made up */

static bool is_inside(blob file, cgx_text t) {
    return ask_inside(file, t) == CGX_OK && cgx_text_bytes(file.bytes, file.size, &t) == file.bytes + t.at;
}

static bool is_outside(blob file, cgx_text t) {
    return ask_inside(file, t) == CGX_NOTHING && cgx_text_bytes(file.bytes, file.size, &t) == NULL;
}

static void made_up(void) {
    blob file = hex(SMALL);
    const cgx_list at_end = {80, 9}, past_end = {96, 1}, far = {UINT64_MAX, UINT64_MAX};
    const cgx_box last = {-57, 82, 58, 0x00040a00};
    expect(is_box(file, at_end, 0, last), "list", "a box up to the end");
    expect(no_box(file, at_end, 1), "list", "a box past the end");
    expect(is_point(file, at_end, 1, 58, 0x00040a00), "list", "a point up to the end");
    expect(no_point(file, at_end, 2), "list", "a point past the end");
    expect(no_point(file, past_end, 0), "list", "a point past the end");
    expect(no_box(file, far, UINT64_MAX - 1), "list", "a box far away");
    expect(no_box(file, far, 0), "list", "a box far away, the first");
    expect(no_point(file, far, UINT64_MAX / 8), "list", "a point far away");
    expect(no_point(file, list(0, UINT64_MAX), UINT64_MAX / 8 + 1), "list", "a point whose offset is no number");
    expect(is_inside(file, text(0, 96)), "text", "the whole file");
    expect(is_inside(file, text(96, 0)), "text", "nothing at the end");
    expect(is_outside(file, text(1, 96)), "text", "one byte too long");
    expect(is_outside(file, text(97, 0)), "text", "nothing past the end");
    expect(is_outside(file, text(2, UINT64_MAX)), "text", "a length that does not fit");
    drop(file);
}

/* ---- layer names */

static void layer(blob file, uint64_t at, uint32_t number, cgx_text name) {
    blob substitute = copy_of("5/-3", 4);
    cgx_text shown = unused_cgx_text();
    uint32_t good = number == CGX_SUBSTITUTE ? CGX_OK : number;
    expect(cgx_layer_at(file.bytes, file.size, at) == good, "layer", "a good LAYER or 16");
    expect(ask_layer_name(file, at, substitute, &shown) == number, "layer", "its name, the substitute or 16");
    expect(number == CGX_REFUSED_NO_SUCH || SAME(&shown, &name), "layer", "name");
    drop(substitute);
}

static void layers(void) {
    blob file = hex(every_kind), cut = copy_of(file.bytes, 87), bad = hex(every_kind), nothing = copy_of("", 0);
    static const uint64_t none_at[] = {0, 2, 77, 64, 342, UINT64_MAX, UINT64_MAX - 1};
    cgx_text shown = unused_cgx_text(), empty = {0, 0};
    size_t i;
    layer(file, 76, CGX_OK, text(84, 2));
    layer(file, 320, CGX_SUBSTITUTE, text(0, 4));
    layer(file, 328, CGX_SUBSTITUTE, text(0, 4));
    for (i = 0; i < sizeof none_at / sizeof none_at[0]; i++) layer(file, none_at[i], CGX_REFUSED_NO_SUCH, empty);
    layer(cut, 76, CGX_REFUSED_NO_SUCH, empty);
    bad.bytes[86] = 'x';
    layer(bad, 76, CGX_OK, text(84, 3));
    bad.bytes[85] = 0;
    layer(bad, 76, CGX_REFUSED_NO_SUCH, empty);
    expect(ask_layer_name(file, 320, nothing, &shown) == CGX_SUBSTITUTE && SAME(&shown, &empty), "layer",
        "an empty substitute");
    drop(nothing);
    drop(bad);
    drop(cut);
    drop(file);
}

/* ---- extents */

static bool is_extent(blob file, uint64_t cell, cgx_box sides) {
    cgx_box b = unused_cgx_box();
    return ask_extent(file, cell, &b).number == CGX_OK && SAME(&b, &sides);
}

static void extents(void) {
    blob file = hex(every_kind), wide = hex(LAYERED BOX_1 "0014 05 00 ffffff00 00000000 00000001 00000001" ENDLIB);
    const cgx_box all = {-80, INT32_MIN, INT32_MAX, 58}, two = {-256, -57, 82, 58};
    cgx_box none = unused_cgx_box();
    expect(is_extent(file, 0, all), "extent", "boxes, polygon and wire");
    expect(ask_extent(file, 1, &none).number == CGX_NOTHING, "extent", "nothing");
    expect(ask_extent(file, 2, &none).number == CGX_REFUSED_NO_SUCH, "extent", "no such cell");
    expect(ask_extent(file, UINT64_MAX, &none).number == CGX_REFUSED_NO_SUCH, "extent", "the last number");
    expect(is_extent(wide, 0, two), "extent", "two boxes");
    drop(wide);
    drop(file);
}

/* ---- many files: checker, walk and normal form agree on each */

static bool agree(blob file, blob out) {
    size_t records;
    uint64_t measured = unused_uint64_t(), length = measured;
    told v = ask_check(file), last = walked(file, &records), m = ask_normal_length(file, &measured),
         n = ask_normal_form(file, out, &length);
    if (v.number == CGX_OK) {
        return last.number == CGX_DONE && m.number == CGX_OK && n.number == CGX_OK && length == measured
            && length <= file.size;
    }
    return refuses(last, v.number, v.at) && refuses(m, v.number, v.at) && refuses(n, v.number, v.at);
}

static void cut_and_edited(void) {
    blob file = hex(every_kind), out;
    size_t i, n;
    unsigned value;
    bool cuts = true, edits = true;
    out.size = file.size;
    out.bytes = lend(out.size);
    for (n = 0; n < file.size; n++) {
        blob cut = copy_of(file.bytes, n);
        cuts = cuts && agree(cut, out) && ask_check(cut).number != CGX_OK;
        drop(cut);
    }
    expect(cuts, "every beginning of a file", "is refused, by all alike");
    for (i = 0; i < file.size; i++) {
        uint8_t kept = file.bytes[i];
        for (value = 0; value < 256; value++) {
            file.bytes[i] = (uint8_t)value;
            edits = edits && agree(file, out);
        }
        file.bytes[i] = kept;
    }
    expect(edits, "every file with one byte changed", "is answered by all alike");
    drop(out);
    drop(file);
}

void test_reading(void) {
    size_t i;
    for (i = 0; i < sizeof refused_files / sizeof refused_files[0]; i++) refuse(&refused_files[i]);
    for (i = 0; i < sizeof accepted_files / sizeof accepted_files[0]; i++) accept(&accepted_files[i]);
    most_boxes();
    seconds("LIBRARY, created", 4, false);
    seconds("LIBRARY, modified", 4, true);
    seconds("STRUCT, created", 42, false);
    seconds("STRUCT, modified", 42, true);
    views();
    read_again();
    forged();
    none();
    made_up();
    layers();
    extents();
    cut_and_edited();
}
