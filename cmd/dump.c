/* cgx dump: every field of every record as text. cgx.1 says what its lines are. */
#include "command.h"

#include <inttypes.h>
#include <stdio.h>
#include <stdlib.h>
#include <string.h>

/* Of the lines: later releases add some, and do not change those that are here. */
enum { VERSION = 1 };

/* ---- a line: the kind, the field, its value */

static void begin(const input *file, uint32_t kind, const char *field) {
    put(file->prefix);
    put(cgx_kind_name(kind));
    put(" ");
    put(field);
}

static void end(void) {
    put("\n");
}

static void number_line(const input *file, uint32_t kind, const char *field, int64_t number) {
    begin(file, kind, field);
    put(" ");
    put_number(number);
    end();
}

static void point_line(const input *file, uint32_t kind, const char *field, const cgx_point *p) {
    begin(file, kind, field);
    put(" ");
    put_number(p->x);
    put(" ");
    put_number(p->y);
    end();
}

/* The text is last in its line, so that it ends at the line's last quote whatever is in it. */
static void text_line(const input *file, uint32_t kind, const char *field, const cgx_text *text) {
    begin(file, kind, field);
    put(" \"");
    put_text(file, text);
    put("\"");
    end();
}

static void date_line(const input *file, uint32_t kind, const char *field, const cgx_date *d) {
    char date[40];
    snprintf(date, sizeof date, " %s%04d-%02u-%02u %02u:%02u:%02u", d->year < 0 ? "-" : "", abs(d->year), d->month, d->day,
        d->hour, d->minute, d->second);
    begin(file, kind, field);
    put(date);
    end();
}

/* ---- reals */

/* The double next to a real that no double equals: the mantissa is rounded once, and powers of 16 are exact. */
static double about(const cgx_real *real) {
    double value = (double)cgx_real_mantissa(real);
    int e = (int)cgx_real_exponent(real);
    for (; e < 64 + 14; e++) value /= 16;
    for (; e > 64 + 14; e--) value *= 16;
    return cgx_real_negative(real) ? -value : value;
}

/* As few digits as tell the double from every other. */
static void put_double(double value) {
    char digits[40];
    int count = 15;
    do snprintf(digits, sizeof digits, "%.*g", count, value);
    while (strtod(digits, NULL) != value && count++ < 17);
    put(digits);
}

static void real_line(const input *file, uint32_t kind, const char *field, const cgx_real *real) {
    char bytes[20];
    double value;
    begin(file, kind, field);
    if (cgx_real_double(real, &value) == CGX_OK) {
        put(" ");
    } else {
        put(" ~");
        value = about(real);
    }
    put_double(value);
    snprintf(bytes, sizeof bytes, " %016" PRIx64, real->word);
    put(bytes);
    end();
}

/* ---- flags: the number, and what it says */

static const char *end_style(uint32_t flags) {
    return flags == CGX_END_FLUSH ? " flush" : flags == CGX_END_ROUNDED ? " rounded" : " extended";
}

static void put_text_flags(uint32_t flags) {
    static const char *const horizontal[] = {"left", "centre", "right", "left"};
    static const char *const vertical[] = {"bottom", "centre", "top", "bottom"};
    put(" turn ");
    put_number((flags & CGX_TEXT_TURNS) * 90 + (flags & CGX_TEXT_45 ? 45 : 0));
    if (flags & CGX_TEXT_MIRROR) put(" mirror");
    put(" horizontal ");
    put(horizontal[(flags & CGX_TEXT_HORIZONTAL) >> 4]);
    put(" vertical ");
    put(vertical[(flags & CGX_TEXT_VERTICAL) >> 6]);
}

static void put_sref_flags(uint32_t flags) {
    if (flags & CGX_SREF_ANGLE) put(" angle");
    if (flags & CGX_SREF_MAGNIF) put(" magnif");
    if (flags & CGX_SREF_REFLECT) put(" reflect");
    if (flags & CGX_SREF_ARRAY) put(" array");
}

static void flags_line(const input *file, const cgx_view *v) {
    begin(file, v->kind, "flags ");
    put_number(v->flags);
    if (v->kind == CGX_WIRE) put(end_style(v->flags));
    if (v->kind == CGX_TEXT) put_text_flags(v->flags);
    if (v->kind == CGX_SREF) put_sref_flags(v->flags);
    end();
}

/* ---- lists */

static void box_lines(const input *file, uint32_t kind, const cgx_list *boxes) {
    cgx_box b;
    uint64_t i;
    for (i = 0; cgx_box_at(file->bytes, file->size, boxes, i, &b) == CGX_OK; i++) {
        begin(file, kind, "box ");
        put_number(b.left);
        put(" ");
        put_number(b.bottom);
        put(" ");
        put_number(b.right);
        put(" ");
        put_number(b.top);
        end();
    }
}

static void point_lines(const input *file, uint32_t kind, const cgx_list *points) {
    cgx_point p;
    uint64_t i;
    for (i = 0; cgx_point_at(file->bytes, file->size, points, i, &p) == CGX_OK; i++) point_line(file, kind, "point", &p);
}

/* ---- records */

static void sref_lines(const input *file, const cgx_view *v) {
    const cgx_placement *p = &v->fields.sref.placement;
    point_line(file, v->kind, "point", &p->point);
    if (v->flags & CGX_SREF_ANGLE) real_line(file, v->kind, "angle", &p->angle);
    if (v->flags & CGX_SREF_MAGNIF) real_line(file, v->kind, "magnif", &p->magnif);
    if (v->flags & CGX_SREF_ARRAY) {
        number_line(file, v->kind, "cols", p->cols);
        number_line(file, v->kind, "rows", p->rows);
        point_line(file, v->kind, "across", &p->across);
        point_line(file, v->kind, "up", &p->up);
    }
    text_line(file, v->kind, "name", &v->fields.sref.name);
}

static void field_lines(const input *file, const cgx_view *v) {
    const cgx_fields *f = &v->fields;
    uint32_t kind = v->kind;
    switch (kind) {
    case CGX_LIBRARY:
        real_line(file, kind, "munit", &f->library.munit);
        real_line(file, kind, "uunit", &f->library.uunit);
        date_line(file, kind, "created", &f->library.created);
        date_line(file, kind, "modified", &f->library.modified);
        text_line(file, kind, "name", &f->library.name);
        break;
    case CGX_STRUCT:
        date_line(file, kind, "created", &f->structure.created);
        date_line(file, kind, "modified", &f->structure.modified);
        text_line(file, kind, "name", &f->structure.name);
        break;
    case CGX_CPRPTY:
    case CGX_PROPERTY:
        number_line(file, kind, "number", f->property.number);
        text_line(file, kind, "value", &f->property.value);
        break;
    case CGX_LAYER:
        number_line(file, kind, "number", f->layer.id.number);
        number_line(file, kind, "datatype", f->layer.id.datatype);
        if (f->layer.named) text_line(file, kind, "name", &f->layer.name);
        break;
    case CGX_BOX: box_lines(file, kind, &f->box.boxes); break;
    case CGX_POLY: point_lines(file, kind, &f->poly.points); break;
    case CGX_WIRE:
        number_line(file, kind, "width", f->wire.width);
        point_lines(file, kind, &f->wire.points);
        break;
    case CGX_TEXT:
        point_line(file, kind, "point", &f->text.point);
        number_line(file, kind, "width", f->text.width);
        text_line(file, kind, "label", &f->text.label);
        break;
    case CGX_SREF: sref_lines(file, v); break;
    default: break;
    }
}

static void record(const input *file, const cgx_view *view, void *offsets) {
    if (offsets != NULL) number_line(file, view->kind, "at", (int64_t)view->at);
    flags_line(file, view);
    field_lines(file, view);
}

static status dump(const input *file, const request *r) {
    put(file->prefix);
    put("cgx dump ");
    put_number(VERSION);
    end();
    return walk(file, record, (void *)(uintptr_t)r->given[0]);
}

static status run(const request *r) {
    return each_file(r, dump);
}

const word word_dump = {
    .name = "dump",
    .arguments = "FILE..",
    .summary = "print every field of every record, for diff and grep",
    .details = "Prints a line for each field: KIND FIELD VALUE. The first line is `cgx dump 1`,\n"
               "the version of these lines: later releases add some and do not change them.\n"
               "Unknown records are skipped. With several files each line begins with the\n"
               "file's name. What has changed between two drawings, by cell:\n\n"
               "  diff -u -F '^STRUCT name' <(cgx dump a.cgx) <(cgx dump b.cgx)\n",
    .options = {{0, "offsets", NULL, "with a line `KIND at OFFSET` before each record"}},
    .run = run,
};
