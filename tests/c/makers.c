/* The makers: their bytes, and all or nothing. */
#include "calls.h"

#include <string.h>

/* LAYER 1, data type 0, and the wire around -1, -2, 300 and 400; then the TEXT. */
#define CARD \
    "0008 04 00 0001 0000 " \
    "0030 07 00 00000002 ffffffff fffffffe 0000012c fffffffe 0000012c 00000190 ffffffff 00000190 ffffffff fffffffe "
#define CAPTION "0014 08 00 ffffffff fffffffe 00000002 ce910000 "
#define CARD_SIDES .sides = {-1, -2, 300, 400}

static const call card = {.which = A_TEST_CARD, CARD_SIDES};
static const call frame = {.which = A_CAPTION_FRAME, CARD_SIDES, TEXT_OF("\xce\x91")};
static const call bad_frame = {.which = A_CAPTION_FRAME, CARD_SIDES, TEXT_OF("a\0b")};

/* With every room from none to one byte too few: 14, and no byte changes. */
static void all_or_nothing(const char *name, const call *c, const char *digits) {
    blob bytes = hex(digits);
    cgx_writer writer = writer_in(IN_CELL);
    size_t at = (size_t)writer.place.at, room;
    expect_taken(name, writer, c, bytes);
    expect_taken(name, writer_in(IN_LAYER), c, bytes);
    for (room = at; room < at + bytes.size; room++) {
        expect_refused_in(name, room, writer, c, CGX_REFUSED_ROOM, 0);
    }
    drop(bytes);
}

static void out_of_order(const char *name, const call *c) {
    static const where places[] = {AT_START, IN_LIBRARY, IN_RUN, ENDED};
    size_t i;
    for (i = 0; i < sizeof places / sizeof places[0]; i++) {
        cgx_writer writer = writer_in(places[i]);
        expect_refused(name, writer, c, CGX_REFUSED_ORDER, writer.place.at);
    }
}

/* "answers the first refusal, its records taken in turn" */
static void first_refusal(void) {
    cgx_writer w = writer_in(IN_CELL);
    size_t at = (size_t)w.place.at;
    expect_refused_in("room for no LAYER, and a bad label", at + 7, w, &bad_frame, CGX_REFUSED_ROOM, 0);
    expect_refused_in("room for no WIRE, and a bad label", at + 55, w, &bad_frame, CGX_REFUSED_ROOM, 0);
    expect_refused_in("room for two records, and a bad label", at + 56, w, &bad_frame, CGX_REFUSED_STRING, at + 56);
    expect_refused_in("a bad label", at + 500, w, &bad_frame, CGX_REFUSED_STRING, at + 56);
}

/* The longest label is taken, one byte more is 15. */
static void longest_label(void) {
    static char label[CGX_MAX_SIZE];
    call c = frame;
    cgx_writer w = writer_in(IN_CELL);
    blob start = hex(CARD "fffe 08 00 ffffffff fffffffe 00000002"), bytes;
    memset(label, 'x', sizeof label);
    bytes.size = 56 + CGX_MAX_SIZE;
    bytes.bytes = lend(bytes.size);
    memset(bytes.bytes, 'x', bytes.size);
    memcpy(bytes.bytes, start.bytes, start.size);
    bytes.bytes[bytes.size - 1] = 0;
    c.text = label;
    c.len = 65517;
    expect_taken("longest label", w, &c, bytes);
    c.len = 65518;
    expect_refused_in("label too long", (size_t)w.place.at + 70000, w, &c, CGX_REFUSED_TOO_LARGE, 0);
    drop(bytes);
    drop(start);
}

/* A frame in a cell makes a drawing that is accepted. A writer may go on from the place of a walk. */
static void read_back(void) {
    static const call endlib = {.which = AN_ENDLIB};
    blob buf = {lend(300), 300}, start = hex(CGX LIBRARY_M STRUCT_A), file;
    blob whole = hex(CGX LIBRARY_M STRUCT_A CARD CAPTION ENDLIB);
    cgx_writer w;
    cgx_view view;
    memset(&w, FILL, sizeof w);
    memset(&view, FILL, sizeof view);
    memcpy(buf.bytes, start.bytes, start.size);
    ask_start(start, &w.place);
    ask_step(start, &w.place, &view);
    ask_step(start, &w.place, &view);
    make_call(buf, &w, &frame);
    make_call(buf, &w, &endlib);
    file = copy_of(buf.bytes, (size_t)w.place.at);
    expect(same_bytes(file, whole), "caption frame", "in a drawing that was begun elsewhere");
    expect(ask_check(file).number == CGX_OK, "caption frame", "is accepted");
    drop(file);
    drop(whole);
    drop(start);
    drop(buf);
}

void test_makers(void) {
    all_or_nothing("test card", &card, CARD);
    all_or_nothing("caption frame", &frame, CARD CAPTION);
    out_of_order("test card", &card);
    out_of_order("caption frame", &frame);
    expect_forged_refused("test card", &card);
    expect_forged_refused("caption frame", &frame);
    first_refusal();
    longest_label();
    read_back();
}
