/* Makes calls of the writer, and compares the buffer before and after. */
#include "calls.h"

#include <string.h>

static slot writer_slot, first_slot, second_slot, placement_slot;
static slot created_slot = {.alignment = ALIGNMENT(cgx_date)}, modified_slot = {.alignment = ALIGNMENT(cgx_date)};
static slot layer_slot = {.alignment = ALIGNMENT(cgx_layer_id)}, sides_slot = {.alignment = ALIGNMENT(cgx_box)};

static size_t item_size(which_call which) {
    return which == A_BOX ? sizeof(cgx_box) : sizeof(cgx_point);
}

static uint32_t called(uint8_t *buf, uint64_t room, cgx_writer *w, uint64_t *at, const call *c, blob text, const void *items) {
    const cgx_real *first = lent(&first_slot, &c->first, sizeof c->first);
    const cgx_real *second = lent(&second_slot, &c->second, sizeof c->second);
    const cgx_date *created = lent(&created_slot, &c->created, sizeof c->created);
    const cgx_date *modified = lent(&modified_slot, &c->modified, sizeof c->modified);
    const cgx_layer_id *layer = lent(&layer_slot, &c->layer, sizeof c->layer);
    const cgx_placement *placement = lent(&placement_slot, &c->placement, sizeof c->placement);
    const cgx_box *sides = lent(&sides_slot, &c->sides, sizeof c->sides);
    switch (c->which) {
    case A_LIBRARY:
        return cgx_write_library(
            buf, room, w, at, c->flags, first, second, created, modified, text.bytes, text.size);
    case A_STRUCT: return cgx_write_struct(buf, room, w, at, created, modified, text.bytes, text.size);
    case A_CPRPTY: return cgx_write_cprpty(buf, room, w, at, c->number, text.bytes, text.size);
    case A_PROPERTY: return cgx_write_property(buf, room, w, at, c->number, text.bytes, text.size);
    case A_LAYER: return cgx_write_layer(buf, room, w, at, layer);
    case A_NAMED_LAYER: return cgx_write_named_layer(buf, room, w, at, layer, text.bytes, text.size);
    case A_BOX: return cgx_write_box(buf, room, w, at, items, c->count);
    case A_POLY: return cgx_write_poly(buf, room, w, at, items, c->count);
    case A_WIRE: return cgx_write_wire(buf, room, w, at, c->number, items, c->count);
    case A_STYLED_WIRE: return cgx_write_styled_wire(buf, room, w, at, c->flags, c->number, items, c->count);
    case A_TEXT:
        return cgx_write_text(
            buf, room, w, at, c->flags, c->point.x, c->point.y, c->number, text.bytes, text.size);
    case AN_SREF: return cgx_write_sref(buf, room, w, at, c->flags, placement, text.bytes, text.size);
    case AN_ENDLIB: return cgx_write_endlib(buf, room, w, at);
    case A_TEST_CARD: return cgx_write_test_card(buf, room, w, at, sides);
    case A_CAPTION_FRAME: return cgx_write_caption_frame(buf, room, w, at, sides, text.bytes, text.size);
    }
    return 0;
}

static void given_stays(void) {
    static const slot *const given[] = {&first_slot, &second_slot, &created_slot, &modified_slot, &layer_slot,
        &placement_slot, &sides_slot};
    size_t i;
    for (i = 0; i < sizeof given / sizeof given[0]; i++) stays(given[i], "what a call of the writer is given");
}

told make_call(blob buf, cgx_writer *writer, const call *c) {
    size_t after = least_aligned(ALIGNMENT(cgx_point)), size = c->count * item_size(c->which);
    blob text = copy_of(c->text, c->len), items = {lend(size + after), size + after}, kept = copy_of(buf.bytes, buf.size);
    uint64_t *at = lent_at();
    cgx_writer *w = lent(&writer_slot, writer, sizeof *writer);
    told t;
    if (size > 0) memcpy(items.bytes + after, c->items, size);
    t = answered(called(buf.bytes, buf.size, w, at, c, text, items.bytes + after));
    given_stays();
    if (size > 0 && memcmp(items.bytes + after, c->items, size) != 0) expect(false, "a list", "stays as it is");
    if (c->len > 0 && memcmp(text.bytes, c->text, c->len) != 0) expect(false, "a text", "stays as it is");
    if (t.number != CGX_OK) {
        stays(&writer_slot, "the writer of a refused call");
        if (!same_bytes(buf, kept)) expect(false, "a refused call", "leaves every byte of the buffer");
    }
    memcpy(writer, w, sizeof *writer);
    drop(kept);
    drop(items);
    drop(text);
    return t;
}

cgx_writer writer_in(where where) {
    static const call library = {.which = A_LIBRARY, .first = ONE, .second = ONE, .created = DAY, .modified = DAY};
    static const call cell = {.which = A_STRUCT, .created = DAY, .modified = DAY, TEXT_OF("a")};
    static const call layer = {.which = A_LAYER, .layer = {1, 0}};
    static const call property = {.which = A_PROPERTY, TEXT_OF("p")};
    static const call endlib = {.which = AN_ENDLIB};
    blob buf = {lend(200), 200};
    cgx_writer w;
    cgx_write_start(buf.bytes, buf.size, &w);
    if (where >= IN_LIBRARY) make_call(buf, &w, &library);
    if (where >= IN_CELL) make_call(buf, &w, &cell);
    if (where >= IN_LAYER) make_call(buf, &w, &layer);
    if (where == IN_RUN) make_call(buf, &w, &property);
    if (where == ENDED) make_call(buf, &w, &endlib);
    drop(buf);
    return w;
}

/* A buffer with bytes that differ from what is written there. */
static blob patterned(size_t room) {
    blob b = {lend(room), room};
    size_t i;
    for (i = 0; i < room; i++) b.bytes[i] = (uint8_t)(i * 7 + 91);
    return b;
}

static void taken_in(const char *name, size_t room, cgx_writer writer, const call *c, blob bytes) {
    blob buf = patterned(room), after = patterned(room);
    uint64_t at = writer.place.at;
    memcpy(after.bytes + at, bytes.bytes, bytes.size);
    expect(make_call(buf, &writer, c).number == CGX_OK && writer.place.at == at + bytes.size, name, "is taken");
    expect(same_bytes(buf, after), name, "stores its bytes and no other");
    drop(after);
    drop(buf);
}

void expect_taken(const char *name, cgx_writer writer, const call *c, blob bytes) {
    size_t end = (size_t)writer.place.at + bytes.size;
    taken_in(name, end, writer, c, bytes);
    taken_in(name, end + 9, writer, c, bytes);
    expect_refused_in(name, end - 1, writer, c, CGX_REFUSED_ROOM, 0);
}

void expect_refused_in(const char *name, size_t room, cgx_writer writer, const call *c, uint32_t number, uint64_t at) {
    blob buf = patterned(room);
    told t = make_call(buf, &writer, c);
    expect(t.number == number, name, "is refused with its number");
    expect(t.at == (number >= 6 && number <= 12 ? at : UNNAMED), name, "names the record's offset, or none");
    drop(buf);
}

void expect_refused(const char *name, cgx_writer writer, const call *c, uint32_t number, uint64_t at) {
    expect_refused_in(name, (size_t)writer.place.at + 70000, writer, c, number, at);
    expect_refused_in(name, (size_t)writer.place.at, writer, c, number, at);
}

void expect_forged_refused(const char *name, const call *c) {
    enum { ROOM = 200 };
    cgx_place places[FORGED];
    size_t i;
    forged_places(ROOM, places);
    for (i = 0; i < FORGED; i++) {
        cgx_writer writer;
        writer.place = places[i];
        expect_refused_in(name, ROOM, writer, c, CGX_REFUSED_NO_SUCH, 0);
    }
}
