#include "cgx_plain.h"

#include <stdbool.h>
#include <string.h>

/* The first type byte that is no kind. */
enum { UNKNOWN = CGX_ENDLIB + 1 };

/* ---- numbers, the high byte first */

static inline uint16_t be16(const uint8_t *p) { return (uint16_t)(p[0] << 8 | p[1]); }

static inline uint32_t be32(const uint8_t *p)
{
    uint32_t n;
    memcpy(&n, p, sizeof n);
    return __builtin_bswap32(n);
}

static inline uint64_t be64(const uint8_t *p)
{
    uint64_t n;
    memcpy(&n, p, sizeof n);
    return __builtin_bswap64(n);
}

static inline int32_t long_at(const uint8_t *p) { return (int32_t)be32(p); }

static inline void put16(uint8_t *p, uint16_t n)
{
    p[0] = (uint8_t)(n >> 8);
    p[1] = (uint8_t)n;
}

static inline void put32(uint8_t *p, uint32_t n)
{
    n = __builtin_bswap32(n);
    memcpy(p, &n, sizeof n);
}

static inline void put64(uint8_t *p, uint64_t n)
{
    n = __builtin_bswap64(n);
    memcpy(p, &n, sizeof n);
}

/* ---- fields */

static const uint64_t MANTISSA = ((uint64_t)1 << 56) - 1;

static bool positive(const uint8_t *p)
{
    uint64_t bits = be64(p);
    return bits >> 63 == 0 && (bits & MANTISSA) != 0;
}

static bool good_date(const uint8_t *p)
{
    return p[2] >= 1 && p[2] <= 12 && p[3] >= 1 && p[3] <= 31 && p[4] <= 23 && p[5] <= 59 && p[6] <= 60 && p[7] == 0;
}

/* A field of even length from 2 on. */
static bool good_string(const uint8_t *p, size_t n)
{
    return p[n - 1] == 0 && memchr(p, 0, n - 2) == NULL;
}

static bool good_boxes(const uint8_t *p, size_t n)
{
    for (const uint8_t *end = p + n; p < end; p += 16)
        if (long_at(p) > long_at(p + 8) || long_at(p + 4) > long_at(p + 12))
            return false;
    return true;
}

/* Where an SREF's name begins. */
static size_t sref_name(uint8_t flags)
{
    return 8 + (flags & 1 ? 8 : 0) + (flags & 2 ? 8 : 0) + (flags & 8 ? 24 : 0);
}

/* ---- rules 7 to 12: the first that is broken, or 0 */

static int dated_fault(const uint8_t *b, size_t n, size_t dates, bool scaled)
{
    size_t name = dates + 16;
    if (n < name + 2)
        return 8;
    if (!good_date(b + dates) || !good_date(b + dates + 8))
        return 9;
    if (scaled && (!positive(b) || !positive(b + 8)))
        return 10;
    return good_string(b + name, n - name) ? 0 : 11;
}

static int string_fault(const uint8_t *b, size_t n, size_t at)
{
    if (n < at + 2)
        return 8;
    return good_string(b + at, n - at) ? 0 : 11;
}

static int sref_fault(uint8_t flags, const uint8_t *b, size_t n)
{
    if (flags > 15)
        return 7;
    size_t name = sref_name(flags);
    if (n < name + 2)
        return 8;
    const uint8_t *p = b + 8 + (flags & 1 ? 8 : 0);
    if (flags & 2) {
        if (!positive(p))
            return 10;
        p += 8;
    }
    if (flags & 8 && (long_at(p) < 1 || long_at(p + 4) < 1))
        return 10;
    return good_string(b + name, n - name) ? 0 : 11;
}

static int body_fault(uint8_t type, uint8_t flags, const uint8_t *b, size_t n)
{
    switch (type) {
    case CGX_LIBRARY:
        return dated_fault(b, n, 16, true);
    case CGX_STRUCT:
        return dated_fault(b, n, 0, false);
    case CGX_CPRPTY:
    case CGX_PROPERTY:
        return string_fault(b, n, 4);
    case CGX_LAYER:
        return n == 4 ? 0 : string_fault(b, n, 4);
    case CGX_BOX:
        if (n == 0 || n % 16 != 0)
            return 8;
        return good_boxes(b, n) ? 0 : 10;
    case CGX_POLY:
        if (n < 32 || n % 8 != 0)
            return 8;
        return memcmp(b, b + n - 8, 8) == 0 ? 0 : 12;
    case CGX_WIRE:
        if (flags > 2)
            return 7;
        return n < 12 || (n - 4) % 8 != 0 ? 8 : 0;
    case CGX_TEXT:
        return string_fault(b, n, 12);
    case CGX_SREF:
        return sref_fault(flags, b, n);
    default:
        return n == 0 ? 0 : 8;
    }
}

/* ---- rule 6, and the context after a record */

static bool library_seen(const cgx_place *c) { return (c->seen & CGX_SEEN_LIBRARY) != 0; }
static bool ended(const cgx_place *c) { return (c->seen & CGX_SEEN_ENDLIB) != 0; }

static bool allowed(const cgx_place *c, uint8_t type)
{
    bool library = library_seen(c), none = c->properties.count == 0, cell = library && c->cell != 0;
    switch (type) {
    case CGX_LIBRARY:
        return !library && none;
    case CGX_STRUCT:
    case CGX_ENDLIB:
        return library && none;
    case CGX_CPRPTY:
        return cell && none && (c->seen & CGX_SEEN_FRESH) != 0;
    case CGX_LAYER:
        return cell && none;
    case CGX_PROPERTY:
    case CGX_SREF:
        return cell;
    case CGX_BOX:
    case CGX_POLY:
    case CGX_WIRE:
    case CGX_TEXT:
        return cell && c->layer != 0;
    default:
        return library;
    }
}

static void pass(cgx_place *c, uint8_t type, uint64_t at)
{
    switch (type) {
    case CGX_LIBRARY:
        c->seen = CGX_SEEN_LIBRARY;
        c->cell = c->layer = 0;
        break;
    case CGX_STRUCT:
        c->cell = at;
        c->layer = 0;
        c->seen = CGX_SEEN_LIBRARY | CGX_SEEN_FRESH;
        return;
    case CGX_CPRPTY:
        return;
    case CGX_PROPERTY:
        if (c->properties.count == 0)
            c->properties.first = at;
        c->properties.count++;
        break;
    case CGX_LAYER:
        c->layer = at;
        break;
    case CGX_ENDLIB:
        c->seen |= CGX_SEEN_ENDLIB;
        break;
    default:
        c->properties.first = c->properties.count = 0;
        break;
    }
    c->seen &= CGX_SEEN_LIBRARY | CGX_SEEN_ENDLIB;
}

/* ---- one record */

/* A refusal that names an offset. */
static uint32_t refused(uint32_t number, uint64_t where, uint64_t *at)
{
    *at = where;
    return number;
}

/* Rules 3 to 12 of the record at an offset up to the length. */
static inline uint32_t record_fault(const uint8_t *file, uint64_t len, const cgx_place *c, uint64_t at, uint64_t *size)
{
    uint64_t left = len - at;
    if (left < 4)
        return left == 0 ? 3 : 4;
    const uint8_t *r = file + at;
    *size = be16(r);
    if (*size % 2 != 0 || *size < 4)
        return 5;
    if (*size > left)
        return 4;
    if (!allowed(c, r[2]))
        return 6;
    return r[2] < UNKNOWN ? (uint32_t)body_fault(r[2], r[3], r + 4, *size - 4) : 0;
}

uint32_t cgx_plain_start(const uint8_t *file, uint64_t len, cgx_place *place, uint64_t *at)
{
    if (len < 4 || memcmp(file, "cgx", 3) != 0)
        return refused(1, 0, at);
    if (file[3] != 0)
        return refused(2, 0, at);
    *place = (cgx_place){.at = 4};
    return 0;
}

/* Checks the file and sums up the known records. */
static uint32_t check_and_measure(const uint8_t *file, uint64_t len, uint64_t *known, uint64_t *where)
{
    cgx_place c;
    uint32_t start = cgx_plain_start(file, len, &c, where);
    if (start != 0)
        return start;
    uint64_t at = 4, size, sum = 4;
    while (!ended(&c)) {
        uint32_t fault = record_fault(file, len, &c, at, &size);
        if (fault != 0)
            return refused(fault, at, where);
        if (file[at + 2] < UNKNOWN) {
            pass(&c, file[at + 2], at);
            sum += size;
        }
        at += size;
    }
    if (at != len)
        return refused(13, at, where);
    *known = sum;
    return 0;
}

uint32_t cgx_plain_check(const uint8_t *file, uint64_t len, uint64_t *at)
{
    uint64_t known;
    return check_and_measure(file, len, &known, at);
}

/* ---- views */

static cgx_real real_at(const uint8_t *p) { return (cgx_real){be64(p)}; }

static cgx_point point_at(const uint8_t *p) { return (cgx_point){long_at(p), long_at(p + 4)}; }

static cgx_date date_at(const uint8_t *p)
{
    return (cgx_date){(int16_t)be16(p), p[2], p[3], p[4], p[5], p[6], 0};
}

/* The text of a good string that ends where the record ends. */
static cgx_text text_at(const uint8_t *file, uint64_t at, uint64_t end)
{
    return (cgx_text){at, end - at - (file[end - 2] == 0 ? 2 : 1)};
}

static void sref_view(const uint8_t *file, uint64_t at, uint64_t end, cgx_view *v)
{
    const uint8_t *p = file + at + 4;
    cgx_placement *q = &v->fields.sref.placement;
    *q = (cgx_placement){.point = point_at(p)};
    p += 8;
    if (v->flags & CGX_SREF_ANGLE) {
        q->angle = real_at(p);
        p += 8;
    }
    if (v->flags & CGX_SREF_MAGNIF) {
        q->magnif = real_at(p);
        p += 8;
    }
    if (v->flags & CGX_SREF_ARRAY) {
        q->cols = long_at(p);
        q->rows = long_at(p + 4);
        q->across = point_at(p + 8);
        q->up = point_at(p + 16);
        p += 24;
    }
    v->fields.sref.name = text_at(file, (uint64_t)(p - file), end);
}

static void fill_fields(const uint8_t *file, uint64_t at, uint64_t size, cgx_view *v)
{
    const uint8_t *b = file + at + 4;
    cgx_fields *f = &v->fields;
    uint64_t body = at + 4, end = at + size;
    switch (v->kind) {
    case CGX_LIBRARY:
        f->library.munit = real_at(b);
        f->library.uunit = real_at(b + 8);
        f->library.created = date_at(b + 16);
        f->library.modified = date_at(b + 24);
        f->library.name = text_at(file, body + 32, end);
        break;
    case CGX_STRUCT:
        f->structure.created = date_at(b);
        f->structure.modified = date_at(b + 8);
        f->structure.name = text_at(file, body + 16, end);
        break;
    case CGX_CPRPTY:
    case CGX_PROPERTY:
        f->property.number = long_at(b);
        f->property.unused = 0;
        f->property.value = text_at(file, body + 4, end);
        break;
    case CGX_LAYER:
        f->layer.id.number = (int16_t)be16(b);
        f->layer.id.datatype = (int16_t)be16(b + 2);
        f->layer.named = size > 8;
        f->layer.name = size > 8 ? text_at(file, body + 4, end) : (cgx_text){0, 0};
        break;
    case CGX_BOX:
        f->box.boxes = (cgx_list){body, (size - 4) / 16};
        break;
    case CGX_POLY:
        f->poly.points = (cgx_list){body, (size - 4) / 8};
        break;
    case CGX_WIRE:
        f->wire.width = long_at(b);
        f->wire.unused = 0;
        f->wire.points = (cgx_list){body + 4, (size - 8) / 8};
        break;
    case CGX_TEXT:
        f->text.point = point_at(b);
        f->text.width = long_at(b + 8);
        f->text.unused = 0;
        f->text.label = text_at(file, body + 12, end);
        break;
    case CGX_SREF:
        sref_view(file, at, end, v);
        break;
    default:
        break;
    }
}

/* Rule 16. */
static bool forged(const cgx_place *c, uint64_t len)
{
    return c->at < 4 || c->at % 2 != 0 || c->at > len || c->cell > c->at || c->layer > c->at ||
           (c->properties.count != 0 && (c->properties.first > c->at || c->properties.count > c->at));
}

uint32_t cgx_plain_step(const uint8_t *file, uint64_t len, cgx_place *place, cgx_view *view, uint64_t *where)
{
    if (forged(place, len))
        return 16;
    if (ended(place))
        return place->at == len ? CGX_DONE : refused(13, place->at, where);
    uint64_t at = place->at, size;
    for (;;) {
        uint32_t fault = record_fault(file, len, place, at, &size);
        if (fault != 0)
            return refused(fault, at, where);
        if (file[at + 2] < UNKNOWN)
            break;
        at += size;
    }
    uint8_t kind = file[at + 2];
    bool takes_run = kind >= CGX_BOX && kind <= CGX_SREF && place->properties.count != 0;
    view->kind = kind;
    view->flags = file[at + 3];
    view->at = at;
    view->properties = takes_run ? place->properties : (cgx_list){0, 0};
    pass(place, kind, at);
    place->at = at + size;
    view->cell = place->cell;
    view->layer = place->layer;
    fill_fields(file, at, size, view);
    return CGX_OK;
}

/* ---- the normal form */

static uint64_t normal_real(uint64_t bits)
{
    uint64_t m = bits & MANTISSA, e = bits >> 56 & 127;
    if (m == 0)
        return 0;
    uint64_t digits = (uint64_t)(__builtin_clzll(m) - 8) / 4;
    if (digits > e)
        digits = e;
    return (bits & (uint64_t)1 << 63) | (e - digits) << 56 | m << (4 * digits);
}

static uint8_t meant_flags(uint8_t type, uint8_t flags)
{
    switch (type) {
    case CGX_LIBRARY:
    case CGX_WIRE:
    case CGX_SREF:
        return flags;
    case CGX_TEXT:
        if ((flags & 0x30) == 0x30)
            flags &= 0xcf;
        if ((flags & 0xc0) == 0xc0)
            flags &= 0x3f;
        return flags;
    default:
        return 0;
    }
}

static void normalise(uint8_t *record)
{
    uint8_t *p = record + 4;
    int reals = 0;
    record[3] = meant_flags(record[2], record[3]);
    if (record[2] == CGX_LIBRARY) {
        reals = 2;
    } else if (record[2] == CGX_SREF) {
        reals = (record[3] & 1) + (record[3] >> 1 & 1);
        p += 8;
    }
    for (; reals > 0; reals--, p += 8)
        put64(p, normal_real(be64(p)));
}

uint32_t cgx_plain_normal_form(const uint8_t *file, uint64_t len, uint8_t *out, uint64_t room,
                               uint64_t *length, uint64_t *where)
{
    uint64_t known = 0;
    uint32_t verdict = check_and_measure(file, len, &known, where);
    if (verdict != 0)
        return verdict;
    if (room < known)
        return 14;
    memcpy(out, file, 4);
    out += 4;
    for (uint64_t at = 4; at < len;) {
        uint64_t size = be16(file + at);
        if (file[at + 2] < UNKNOWN) {
            memcpy(out, file + at, size);
            normalise(out);
            out += size;
        }
        at += size;
    }
    *length = known;
    return 0;
}

/* ---- the writer */

/* Rules 16 and 6 of a call. */
static uint32_t call_fault(const cgx_place *c, uint64_t room, uint8_t type, uint64_t *where)
{
    if (forged(c, room))
        return 16;
    return ended(c) || !allowed(c, type) ? refused(6, c->at, where) : 0;
}

/* Rules 15 and 14 of a record of this size, whose other rules hold. */
static uint32_t room_fault(const cgx_place *c, uint64_t room, uint64_t size)
{
    if (size > CGX_MAX_SIZE)
        return 15;
    return size > room - c->at ? 14 : 0;
}

static uint8_t *put_header(uint8_t *buf, cgx_place *c, uint64_t size, uint8_t type, uint8_t flags)
{
    uint8_t *p = buf + c->at;
    put16(p, (uint16_t)size);
    p[2] = type;
    p[3] = flags;
    pass(c, type, c->at);
    c->at += size;
    return p + 4;
}

static bool upright(const cgx_box *boxes, uint64_t count)
{
    for (uint64_t i = 0; i < count; i++)
        if (boxes[i].left > boxes[i].right || boxes[i].bottom > boxes[i].top)
            return false;
    return true;
}

uint32_t cgx_plain_write_box_longs(uint8_t *buf, uint64_t room, cgx_writer *writer, uint64_t *at,
                                   const int32_t *longs, uint64_t long_count)
{
    const cgx_box *boxes = (const cgx_box *)longs;
    uint64_t count = long_count / 4;
    cgx_place *place = &writer->place;
    uint32_t fault = call_fault(place, room, CGX_BOX, at);
    if (fault != 0)
        return fault;
    if (long_count % 4 != 0 || count == 0)
        return refused(8, place->at, at);
    if (!upright(boxes, count))
        return refused(10, place->at, at);
    uint64_t size = 4 + 16 * count;
    fault = room_fault(place, room, size);
    if (fault != 0)
        return fault;
    uint8_t *p = put_header(buf, place, size, CGX_BOX, 0);
    for (uint64_t i = 0; i < count; i++, p += 16) {
        put32(p, (uint32_t)boxes[i].left);
        put32(p + 4, (uint32_t)boxes[i].bottom);
        put32(p + 8, (uint32_t)boxes[i].right);
        put32(p + 12, (uint32_t)boxes[i].top);
    }
    return CGX_OK;
}

uint32_t cgx_plain_write_text(uint8_t *buf, uint64_t room, cgx_writer *writer, uint64_t *at, uint8_t flags,
                              int32_t x, int32_t y, int32_t width, const uint8_t *label, uint64_t len)
{
    cgx_place *place = &writer->place;
    uint32_t fault = call_fault(place, room, CGX_TEXT, at);
    if (fault != 0)
        return fault;
    if (memchr(label, 0, len) != NULL)
        return refused(11, place->at, at);
    uint64_t size = 16 + ((len + 2) & ~(uint64_t)1);
    fault = room_fault(place, room, size);
    if (fault != 0)
        return fault;
    uint8_t *p = put_header(buf, place, size, CGX_TEXT, meant_flags(CGX_TEXT, flags));
    put32(p, (uint32_t)x);
    put32(p + 4, (uint32_t)y);
    put32(p + 8, (uint32_t)width);
    memcpy(p + 12, label, len);
    memset(p + 12 + len, 0, size - 16 - len);
    return CGX_OK;
}
