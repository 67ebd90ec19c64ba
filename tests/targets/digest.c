/* Asks the library all that can be asked of each case that it reads, and writes a line a case: what the checker answers and its
   offset, how many records the walk has, the length of the normal form, how many bytes writing all records again gives, and a
   digest of every byte that the library answers or leaves in what it is lent. The last two lines are on calls that no file leads
   to, among them the makers, and on reals and doubles.

   A case is six words of a place, whether a step from that place is all that is asked, the size, and so many bytes (cases.py).
   The same machine words are compared everywhere, so structs are digested as bytes: the header leaves no gaps in them. */
#include "cgx.h"
#include "port.h"

#ifndef ROOM
#define ROOM 140000 /* bytes of the largest case, and some; also of two of the largest records */
#endif

enum { FILLER = 170, MARGIN = 8, MOST_CELLS = 12 };

/* A file, an output and a list. The first two are at odd addresses: bytes need no alignment. */
static uint8_t memory[2][ROOM];
static uint8_t *const file = memory[0] + 1, *const out = memory[1] + 1;
static uint64_t size;
static int32_t longs[ROOM / 4];

#define MOST ((uint64_t)ROOM - 1) /* bytes of `out` */

/* ---- the digest: FNV-1a of 64 bits */

static uint64_t sum;

static void add_bytes(const void *from, uint64_t count) {
    const uint8_t *p = from;
    for (; count > 0; count--) sum = (sum ^ *p++) * 1099511628211u;
}

static void add(uint64_t word) { add_bytes(&word, sizeof word); }

/* An answer, and the offset that was lent with it. */
static void add_answer(uint32_t answer, uint64_t at) {
    add(answer);
    add(at);
}

static void fill(void *to, uint32_t count) {
    uint8_t *p = to;
    for (; count > 0; count--) *p++ = FILLER;
}

static const uint64_t UNNAMED = 0xaaaaaaaaaaaaaaaau; /* what `at` holds before a call */

/* ---- fields */

static void add_text(const cgx_text *text) {
    const uint8_t *bytes = cgx_text_bytes(file, size, text);
    add(bytes != NULL);
    if (bytes != NULL) add_bytes(bytes, text->len);
}

/* Both ways. */
static void add_real(const cgx_real *real) {
    double value;
    cgx_real back;
    fill(&value, sizeof value);
    fill(&back, sizeof back);
    add(cgx_real_double(real, &value));
    add_bytes(&value, sizeof value);
    add(cgx_real_from_double(&value, &back));
    add(back.word);
    add((uint64_t)cgx_real_negative(real));
    add(cgx_real_exponent(real));
    add(cgx_real_mantissa(real));
}

/* Every item, and the index after the last. They are left in `longs`, for the writer; the answer is how many longs. */
static uint64_t add_boxes(const cgx_list *boxes) {
    uint64_t i, n = 0;
    for (i = 0; i <= boxes->count; i++) {
        cgx_box box;
        fill(&box, sizeof box);
        add(cgx_box_at(file, size, boxes, i, &box));
        add_bytes(&box, sizeof box);
        if (i == boxes->count || n + 4 > ROOM / 4) continue;
        longs[n++] = box.left;
        longs[n++] = box.bottom;
        longs[n++] = box.right;
        longs[n++] = box.top;
    }
    return n;
}

static uint64_t add_points(const cgx_list *points) {
    uint64_t i, n = 0;
    for (i = 0; i <= points->count; i++) {
        cgx_point point;
        fill(&point, sizeof point);
        add(cgx_point_at(file, size, points, i, &point));
        add_bytes(&point, sizeof point);
        if (i == points->count || n + 2 > ROOM / 4) continue;
        longs[n++] = point.x;
        longs[n++] = point.y;
    }
    return n;
}

/* What a view leads to, beside its own bytes. The answer is how many longs its list has. */
static uint64_t add_fields(const cgx_view *v) {
    const cgx_fields *f = &v->fields;
    switch (v->kind) {
    case CGX_LIBRARY:
        add_real(&f->library.munit);
        add_real(&f->library.uunit);
        add_text(&f->library.name);
        return 0;
    case CGX_STRUCT: add_text(&f->structure.name); return 0;
    case CGX_CPRPTY:
    case CGX_PROPERTY: add_text(&f->property.value); return 0;
    case CGX_LAYER: add_text(&f->layer.name); return 0;
    case CGX_BOX: return add_boxes(&f->box.boxes);
    case CGX_POLY: return add_points(&f->poly.points);
    case CGX_WIRE: return add_points(&f->wire.points);
    case CGX_TEXT: add_text(&f->text.label); return 0;
    case CGX_SREF:
        add_real(&f->sref.placement.angle);
        add_real(&f->sref.placement.magnif);
        add_text(&f->sref.name);
        return 0;
    default: return 0;
    }
}

/* ---- writing a record again */

static uint32_t write_view(const cgx_view *v, uint64_t room, cgx_writer *w, uint64_t *at, uint64_t n) {
    const cgx_fields *f = &v->fields;
    uint8_t flags = (uint8_t)v->flags;
    switch (v->kind) {
    case CGX_LIBRARY:
        return cgx_write_library(out, room, w, at, flags, &f->library.munit, &f->library.uunit, &f->library.created,
            &f->library.modified, file + f->library.name.at, f->library.name.len);
    case CGX_STRUCT:
        return cgx_write_struct(out, room, w, at, &f->structure.created, &f->structure.modified,
            file + f->structure.name.at, f->structure.name.len);
    case CGX_CPRPTY:
        return cgx_write_cprpty(
            out, room, w, at, f->property.number, file + f->property.value.at, f->property.value.len);
    case CGX_PROPERTY:
        return cgx_write_property(
            out, room, w, at, f->property.number, file + f->property.value.at, f->property.value.len);
    case CGX_LAYER:
        if (!f->layer.named) return cgx_write_layer(out, room, w, at, &f->layer.id);
        return cgx_write_named_layer(out, room, w, at, &f->layer.id, file + f->layer.name.at, f->layer.name.len);
    case CGX_BOX: return cgx_write_box_longs(out, room, w, at, longs, n);
    case CGX_POLY: return cgx_write_poly_longs(out, room, w, at, longs, n);
    case CGX_WIRE:
        if (flags == CGX_END_EXTENDED) return cgx_write_wire_longs(out, room, w, at, f->wire.width, longs, n);
        return cgx_write_styled_wire_longs(out, room, w, at, flags, f->wire.width, longs, n);
    case CGX_TEXT:
        return cgx_write_text(out, room, w, at, flags, f->text.point.x, f->text.point.y, f->text.width,
            file + f->text.label.at, f->text.label.len);
    case CGX_SREF:
        return cgx_write_sref(
            out, room, w, at, flags, &f->sref.placement, file + f->sref.name.at, f->sref.name.len);
    default: return cgx_write_endlib(out, room, w, at);
    }
}

/* With too little room, and then with enough. */
static void add_written(const cgx_view *v, cgx_writer *w, uint64_t n) {
    uint64_t at = UNNAMED;
    uint32_t answer = write_view(v, w->place.at + 3, w, &at, n);
    add_answer(answer, at);
    add_bytes(w, sizeof *w);
    answer = write_view(v, MOST, w, &at, n);
    add_answer(answer, at);
    add_bytes(w, sizeof *w);
}

/* ---- the parts of a case */

static uint32_t add_step(cgx_place *place, cgx_view *view) {
    uint64_t at = UNNAMED;
    uint32_t answer;
    fill(view, sizeof *view);
    answer = cgx_step(file, size, place, view, &at);
    add_answer(answer, at);
    add_bytes(place, sizeof *place);
    add_bytes(view, sizeof *view);
    return answer;
}

/* The record at an offset that a view tells, read again. */
static void add_again(const cgx_view *view, uint64_t at) {
    cgx_place place;
    cgx_view again;
    if (at == 0) return;
    cgx_place_before(view, at, &place);
    add_step(&place, &again);
}

/* The answer is how many records there are; `written` is how many bytes they have when they are written again. */
static uint64_t add_walk(uint64_t *written) {
    cgx_place place;
    cgx_writer writer;
    cgx_view view;
    uint64_t records = 0, at = UNNAMED;
    uint32_t answer;
    fill(&place, sizeof place);
    fill(&writer, sizeof writer);
    fill(out, (uint32_t)size + MARGIN);
    answer = cgx_start(file, size, &place, &at);
    add_answer(answer, at);
    add_bytes(&place, sizeof place);
    add(cgx_write_start(out, 3, &writer));
    add(cgx_write_start(out, MOST, &writer));
    while (answer == CGX_OK && (answer = add_step(&place, &view)) == CGX_OK) {
        add_written(&view, &writer, add_fields(&view));
        add_again(&view, view.cell);
        add_again(&view, view.layer);
        add_again(&view, view.properties.first);
        records++;
    }
    *written = writer.place.at;
    add_bytes(out, size + MARGIN);
    return records;
}

/* With the room that the file has, and with a byte too little. */
static uint64_t add_normal(void) {
    uint64_t measured = UNNAMED, length = UNNAMED, at = UNNAMED;
    uint32_t answer = cgx_normal_length(file, size, &measured, &at);
    add_answer(answer, at);
    add(measured);
    fill(out, (uint32_t)size + MARGIN);
    at = UNNAMED;
    answer = cgx_normal_form(file, size, out, size, &length, &at);
    add_answer(answer, at);
    add(length);
    add_bytes(out, size + MARGIN);
    if (answer != CGX_OK) return 0;
    fill(out, (uint32_t)size + MARGIN);
    at = UNNAMED;
    measured = UNNAMED;
    add(cgx_normal_form(file, size, out, length - 1, &measured, &at));
    add(measured);
    add(at);
    add_bytes(out, size + MARGIN);
    return length;
}

/* At every offset, and past the end. */
static void add_layers(void) {
    static const uint8_t substitute[7] = {'u', 'n', 'n', 'a', 'm', 'e', 'd'};
    uint64_t at;
    for (at = 0; at <= size + 2; at++) {
        cgx_text name = {UNNAMED, UNNAMED};
        uint32_t good = cgx_layer_at(file, size, at);
        uint32_t shown = cgx_layer_name(file, size, at, substitute, sizeof substitute, &name);
        if (good == CGX_REFUSED_NO_SUCH && shown == good && name.at == UNNAMED && name.len == UNNAMED) continue;
        add(at);
        add(good);
        add(shown);
        add_bytes(&name, sizeof name);
    }
}

/* Lists and texts that no view has. */
static void add_absurd(void) {
    static const uint64_t numbers[6] = {0, 1, 7, 16, 0x8000000000000000u, UINT64_MAX};
    uint32_t first, count, i;
    for (first = 0; first < 7; first++) {
        for (count = 0; count < 7; count++) {
            cgx_list list = {first < 6 ? numbers[first] : size, count < 6 ? numbers[count] : size};
            cgx_text text = {list.first, list.count};
            add(cgx_text_inside(file, size, &text));
            for (i = 0; i < 6; i++) {
                cgx_box box = {0, 0, 0, 0};
                cgx_point point = {0, 0};
                add(cgx_box_at(file, size, &list, numbers[i], &box));
                add(cgx_point_at(file, size, &list, numbers[i], &point));
                add_bytes(&box, sizeof box);
                add_bytes(&point, sizeof point);
            }
        }
    }
}

/* Records of about 65,534 bytes. The file is written over. */
static void add_large(void) {
    cgx_writer begun, w;
    uint64_t at = UNNAMED, n;
    uint32_t i;
    cgx_real one = {0x4110000000000000u};
    static const cgx_date date = {0, 1, 1, 0, 0, 0, 0};
    static const cgx_layer_id id = {0, 0};
    fill(file, (uint32_t)size);
    for (i = 0; i < ROOM / 4; i++) longs[i] = 0;
    add(cgx_write_start(out, MOST, &begun));
    add(cgx_write_library(out, MOST, &begun, &at, 0, &one, &one, &date, &date, file, 0));
    add(cgx_write_struct(out, MOST, &begun, &at, &date, &date, file, 0));
    add(cgx_write_layer(out, MOST, &begun, &at, &id));
    for (n = 65512; n <= 65534; n++) {
        w = begun;
        add(cgx_write_property(out, MOST, &w, &at, 0, file, n));
        add(w.place.at);
        w = begun;
        add(cgx_write_text(out, MOST, &w, &at, 0, 0, 0, 0, file, n));
        add(w.place.at);
    }
    for (n = 16378; n <= 16384; n++) {
        w = begun;
        add(cgx_write_box_longs(out, MOST, &w, &at, longs, n));
        add(cgx_write_poly_longs(out, MOST, &w, &at, longs, n));
        add(w.place.at);
        w = begun;
        add(cgx_write_wire_longs(out, MOST, &w, &at, 0, longs, n));
        add(w.place.at);
        add(at);
    }
}

static void add_cells(void) {
    uint64_t cell;
    for (cell = 0; cell <= MOST_CELLS; cell++) {
        cgx_box extent;
        uint64_t at = UNNAMED;
        uint32_t answer;
        fill(&extent, sizeof extent);
        answer = cgx_extent(file, size, cell < MOST_CELLS ? cell : UINT64_MAX, &extent, &at);
        add_answer(answer, at);
        add_bytes(&extent, sizeof extent);
        if (cgx_is_refused(answer)) return;
    }
}

/* ---- lines */

static uint8_t line[120];
static uint32_t length;

static void put_number(uint64_t n) {
    uint8_t digits[20];
    uint32_t count = 0;
    do digits[count++] = (uint8_t)('0' + n % 10);
    while ((n /= 10) != 0);
    while (count > 0) line[length++] = digits[--count];
    line[length++] = ' ';
}

static void put_sum(void) {
    int shift;
    for (shift = 60; shift >= 0; shift -= 4) line[length++] = (uint8_t) "0123456789abcdef"[sum >> shift & 15];
    line[length++] = '\n';
    port_write(line, length);
    length = 0;
}

static void begin(void) { sum = 14695981039346656037u; }

static void digest_file(void) {
    uint64_t at = UNNAMED, written, records;
    uint32_t answer = cgx_check(file, size, &at);
    begin();
    add_answer(answer, at);
    put_number(answer);
    put_number(answer == CGX_OK ? 0 : at);
    records = add_walk(&written);
    put_number(records);
    put_number(add_normal());
    put_number(written);
    add_layers();
    add_cells();
    add_absurd();
    if (size >= 65534) add_large();
    put_sum();
}

static void digest_step(cgx_place *place) {
    cgx_view view;
    uint32_t answer;
    begin();
    answer = add_step(place, &view);
    put_number(answer);
    if (answer == CGX_OK) add_fields(&view);
    put_sum();
}

/* ---- what no file leads to */

static void digest_calls(void) {
    static const uint8_t text[5] = {'a', 'b', 0xc3, 0, 'c'};
    static const cgx_date date = {2026, 2, 31, 23, 59, 60, 7}, no_date = {2026, 0, 1, 0, 0, 0, 0};
    static const cgx_layer_id id = {-1, 32767};
    static const cgx_box sides = {30, -20, -10, 40};
    static const cgx_box boxes[2] = {{-5, -6, 7, 8}, {9, 9, 9, 9}};
    static const cgx_point points[4] = {{0, 0}, {10, 0}, {0, 2147483647}, {0, 0}};
    static const cgx_real odd = {1u << 31}, zero = {0}, minus_zero = {0x8000000000000000u};
    cgx_placement placement = {{-7, 8}, {0}, {0}, 1, 2, {100, -100}, {-7, 9}};
    cgx_writer w;
    cgx_real munit = {0}, uunit = {0};
    uint64_t at = UNNAMED;
    begin();
    add(cgx_version());
    add((uint64_t)cgx_version_fits());
    add(cgx_real_of(1e-9, &munit));
    add(cgx_real_of(0.001, &uunit));
    fill(out, MOST);
    add(cgx_write_start(out, 4, &w));
#define CALL(call) (add(call), add(at), add_bytes(&w, sizeof w), at = UNNAMED)
    CALL(cgx_write_endlib(out, MOST, &w, &at));
    CALL(cgx_write_library(out, MOST, &w, &at, 255, &munit, &zero, &date, &date, text, 3));
    CALL(cgx_write_library(out, MOST, &w, &at, 255, &minus_zero, &uunit, &date, &date, text, 3));
    CALL(cgx_write_library(out, MOST, &w, &at, 255, &munit, &uunit, &date, &no_date, text, 3));
    CALL(cgx_write_library(out, MOST, &w, &at, 255, &odd, &uunit, &date, &date, text, 2));
    CALL(cgx_write_struct(out, MOST, &w, &at, &date, &date, text, 5));
    CALL(cgx_write_struct(out, MOST, &w, &at, &date, &date, text, 1));
    CALL(cgx_write_cprpty(out, MOST, &w, &at, -2147483647 - 1, text, 0));
    CALL(cgx_write_box(out, MOST, &w, &at, boxes, 2));
    CALL(cgx_write_test_card(out, 120, &w, &at, &sides));
    CALL(cgx_write_test_card(out, MOST, &w, &at, &sides));
    CALL(cgx_write_caption_frame(out, MOST, &w, &at, &sides, text, 5));
    CALL(cgx_write_caption_frame(out, MOST, &w, &at, &sides, text, 3));
    CALL(cgx_write_layer(out, MOST, &w, &at, &id));
    CALL(cgx_write_named_layer(out, MOST, &w, &at, &id, text, 3));
    CALL(cgx_write_box(out, MOST, &w, &at, boxes, 2));
    CALL(cgx_write_box(out, MOST, &w, &at, boxes, 0));
    CALL(cgx_write_box(out, MOST, &w, &at, &sides, 1));
    CALL(cgx_write_box_longs(out, MOST, &w, &at, &points[0].x, 7));
    CALL(cgx_write_poly(out, MOST, &w, &at, points, 4));
    CALL(cgx_write_poly(out, MOST, &w, &at, points, 3));
    CALL(cgx_write_wire(out, MOST, &w, &at, -3, points, 1));
    CALL(cgx_write_styled_wire(out, MOST, &w, &at, CGX_END_EXTENDED, 3, points, 4));
    CALL(cgx_write_styled_wire(out, MOST, &w, &at, 3, 3, points, 4));
    CALL(cgx_write_property(out, MOST, &w, &at, 2147483647, text, 2));
    CALL(cgx_write_layer(out, MOST, &w, &at, &id));
    CALL(cgx_write_text(out, MOST, &w, &at, 255, -5, 7, 2, text, 3));
    CALL(cgx_write_sref(out, MOST, &w, &at, 15, &placement, text, 3));
    CALL(cgx_write_sref(out, MOST, &w, &at, 13, &placement, text, 3));
    placement.magnif = munit;
    CALL(cgx_write_sref(out, MOST, &w, &at, 15, &placement, text, 3));
    placement.cols = 0;
    CALL(cgx_write_sref(out, MOST, &w, &at, 15, &placement, text, 3));
    CALL(cgx_write_sref(out, MOST, &w, &at, 7, &placement, text, 3));
    placement.cols = 1;
    placement.rows = -1;
    CALL(cgx_write_sref(out, MOST, &w, &at, 15, &placement, text, 3));
    CALL(cgx_write_sref(out, MOST, &w, &at, 16, &placement, text, 3));
    CALL(cgx_write_endlib(out, MOST, &w, &at));
    CALL(cgx_write_endlib(out, MOST, &w, &at));
    put_number(w.place.at);
    put_number(cgx_check(out, w.place.at, &at));
    add(at);
    add_bytes(out, w.place.at + MARGIN);
    w.place.cell = w.place.at + 1;
    CALL(cgx_write_endlib(out, MOST, &w, &at));
#undef CALL
    put_sum();
}

/* Every exponent of a double and of a real, with mantissas about the limits of both. */
static void digest_reals(void) {
    static const uint64_t of_double[6] = {0, 1, 0xfffffffffffff, 0x8000000000000, 0x4000000000000, 0x2000000000001};
    static const uint64_t of_real[9] = {0, 1, 0xffffffffffffff, 0x1fffffffffffff, 0x20000000000000, 0x20000000000001,
        0x20000000000002, 0x10000000000000, 0x7fffffffffffff};
    uint64_t sign, exponent;
    uint32_t i;
    begin();
    for (sign = 0; sign < 2; sign++) {
        for (exponent = 0; exponent < 2048; exponent++) {
            for (i = 0; i < 6; i++) {
                union {
                    uint64_t bits;
                    double value;
                } given = {sign << 63 | exponent << 52 | of_double[i]};
                cgx_real real = {UNNAMED};
                add(cgx_real_from_double(&given.value, &real));
                add(real.word);
            }
        }
        for (exponent = 0; exponent < 128; exponent++) {
            for (i = 0; i < 9; i++) {
                cgx_real real = {sign << 63 | exponent << 56 | of_real[i]};
                add_real(&real);
            }
        }
    }
    put_sum();
}

/* ---- cases */

typedef struct {
    cgx_place place;
    uint32_t step;
    uint32_t size;
} case_head;

int digest(void) {
    case_head head;
    while (port_read((uint8_t *)&head, sizeof head) == sizeof head) {
        if (head.size + MARGIN > MOST || port_read(file, head.size) != head.size) return 1;
        size = head.size;
        if (head.step) {
            digest_step(&head.place);
        } else {
            digest_file();
        }
    }
    digest_calls();
    digest_reals();
    return 0;
}
