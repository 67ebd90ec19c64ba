#include "asked.h"

#include <string.h>

/* ---- memory for structs */

void *lent(slot *s, const void *value, size_t size) {
    if (s->bytes == NULL) {
        size_t after = s->alignment == 0 ? 0 : least_aligned(s->alignment);
        s->bytes = lend(size + after) + after;
    }
    s->size = size;
    memcpy(s->bytes, value, size);
    memcpy(s->before, value, size);
    return s->bytes;
}

bool stays(const slot *s, const char *what) {
    bool same = memcmp(s->bytes, s->before, s->size) == 0;
    if (!same) expect(false, what, "stays as it is");
    return same;
}

enum { NUMBERS = 260 };
static bool seen[NUMBERS];

static uint32_t saw(uint32_t number) {
    if (number < NUMBERS) {
        seen[number] = true;
    } else {
        expect(false, "an answer", "is a number of the header");
    }
    return number;
}

bool was_seen(uint32_t number) {
    return number < NUMBERS && seen[number];
}

static slot at_slot;

uint64_t *lent_at(void) {
    const uint64_t unnamed = UNNAMED;
    return lent(&at_slot, &unnamed, sizeof unnamed);
}

told answered(uint32_t number) {
    told t;
    t.number = saw(number);
    memcpy(&t.at, at_slot.bytes, sizeof t.at);
    if ((t.at != UNNAMED) != (number >= 1 && number <= 13)) {
        expect(false, "an answer", "names an offset where it is 1 to 13, and nowhere else");
    }
    return t;
}

/* What was lent to be filled: taken over where the answer fills it, and else as it was. */
static void filled(const slot *s, bool fills, void *value, const char *what) {
    if (!fills) stays(s, what);
    memcpy(value, s->bytes, s->size);
}

/* ---- the walk */

static slot place_slot, view_slot, list_slot, text_slot, length_slot, real_slot, double_slot;
static slot box_slot = {.alignment = ALIGNMENT(cgx_box)}, point_slot = {.alignment = ALIGNMENT(cgx_point)};

told ask_check(blob file) {
    uint64_t *at = lent_at();
    return answered(cgx_check(file.bytes, file.size, at));
}

told ask_start(blob file, cgx_place *place) {
    uint64_t *at = lent_at();
    told t = answered(cgx_start(file.bytes, file.size, lent(&place_slot, place, sizeof *place), at));
    filled(&place_slot, t.number == CGX_OK, place, "the place of a refused start");
    return t;
}

told ask_step(blob file, cgx_place *place, cgx_view *view) {
    uint64_t *at = lent_at();
    cgx_place *lent_place = lent(&place_slot, place, sizeof *place);
    cgx_view *lent_view = lent(&view_slot, view, sizeof *view);
    told t = answered(cgx_step(file.bytes, file.size, lent_place, lent_view, at));
    filled(&place_slot, t.number == CGX_OK, place, "the place of a step without a record");
    filled(&view_slot, t.number == CGX_OK, view, "the view of a step without a record");
    return t;
}

/* ---- lists and texts */

uint32_t ask_box(blob file, cgx_list boxes, uint64_t i, cgx_box *box) {
    const cgx_list *list = lent(&list_slot, &boxes, sizeof boxes);
    uint32_t number = saw(cgx_box_at(file.bytes, file.size, list, i, lent(&box_slot, box, sizeof *box)));
    stays(&list_slot, "a list that is asked");
    filled(&box_slot, number == CGX_OK, box, "a box that is not there");
    return number;
}

uint32_t ask_point(blob file, cgx_list points, uint64_t i, cgx_point *point) {
    const cgx_list *list = lent(&list_slot, &points, sizeof points);
    uint32_t number = saw(cgx_point_at(file.bytes, file.size, list, i, lent(&point_slot, point, sizeof *point)));
    stays(&list_slot, "a list that is asked");
    filled(&point_slot, number == CGX_OK, point, "a point that is not there");
    return number;
}

uint32_t ask_inside(blob file, cgx_text text) {
    uint32_t number = saw(cgx_text_inside(file.bytes, file.size, lent(&text_slot, &text, sizeof text)));
    stays(&text_slot, "a text that is asked");
    return number;
}

/* ---- questions */

uint32_t ask_layer_name(blob file, uint64_t at, blob substitute, cgx_text *name) {
    cgx_text *shown = lent(&text_slot, name, sizeof *name);
    uint32_t number = saw(cgx_layer_name(file.bytes, file.size, at, substitute.bytes, substitute.size, shown));
    filled(&text_slot, number == CGX_OK || number == CGX_SUBSTITUTE, name, "the name where there is no LAYER");
    return number;
}

told ask_extent(blob file, uint64_t cell, cgx_box *extent) {
    uint64_t *at = lent_at();
    told t = answered(cgx_extent(file.bytes, file.size, cell, lent(&box_slot, extent, sizeof *extent), at));
    filled(&box_slot, t.number == CGX_OK, extent, "an extent that is not there");
    return t;
}

/* ---- the normal form */

told ask_normal_length(blob file, uint64_t *length) {
    uint64_t *at = lent_at();
    told t = answered(cgx_normal_length(file.bytes, file.size, lent(&length_slot, length, sizeof *length), at));
    filled(&length_slot, t.number == CGX_OK, length, "the length of a refused file");
    return t;
}

told ask_normal_form(blob file, blob out, uint64_t *length) {
    uint64_t *at = lent_at(), *lent_length = lent(&length_slot, length, sizeof *length);
    blob kept = copy_of(out.bytes, out.size);
    told t = answered(cgx_normal_form(file.bytes, file.size, out.bytes, out.size, lent_length, at));
    filled(&length_slot, t.number == CGX_OK, length, "the length of a refused normal form");
    if (t.number == CGX_OK) memcpy(kept.bytes, out.bytes, *length);
    if (!same_bytes(out, kept)) expect(false, "normal form", "leaves the bytes of the output that are not its own");
    drop(kept);
    return t;
}

/* ---- reals */

uint32_t ask_double(cgx_real real, double *value) {
    const cgx_real *given = lent(&real_slot, &real, sizeof real);
    uint32_t number = saw(cgx_real_double(given, lent(&double_slot, value, sizeof *value)));
    stays(&real_slot, "a real that is asked");
    filled(&double_slot, number == CGX_OK, value, "the double of a real that none equals");
    return number;
}

uint32_t ask_real(double value, cgx_real *real) {
    const double *given = lent(&double_slot, &value, sizeof value);
    uint32_t number = saw(cgx_real_from_double(given, lent(&real_slot, real, sizeof *real)));
    stays(&double_slot, "a double that is asked");
    filled(&real_slot, number == CGX_OK, real, "the real of a double that none equals");
    return number;
}

/* ---- two questions that several files ask */

bool is_normal(blob file) {
    blob form = {lend(file.size), file.size};
    uint64_t length = 0;
    bool good = ask_normal_form(file, form, &length).number == CGX_OK && length == file.size && same_bytes(form, file);
    drop(form);
    return good;
}

bool date_in(blob file, uint64_t at, bool modified, cgx_date *date) {
    cgx_place place;
    cgx_view view;
    const cgx_fields *f = &view.fields;
    memset(&place, FILL, sizeof place);
    memset(&view, FILL, sizeof view);
    if (ask_start(file, &place).number != CGX_OK) return false;
    while (ask_step(file, &place, &view).number == CGX_OK) {
        if (view.at != at) continue;
        if (view.kind == CGX_LIBRARY) *date = modified ? f->library.modified : f->library.created;
        if (view.kind == CGX_STRUCT) *date = modified ? f->structure.modified : f->structure.created;
        return view.kind == CGX_LIBRARY || view.kind == CGX_STRUCT;
    }
    return false;
}
