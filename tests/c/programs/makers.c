/* Test cards and caption frames, and what the library answers to them. tests/makers has what this printed and saved before
   Req 08, and the gate compares: a request that does not speak of the makers leaves their files as they are.

     makers COUNT            for each seed below COUNT a drawing that is begun, and in it a card and a frame: answers and bytes
     makers --drawings FOLDER  a drawing with a card and one with a frame, as files

   No wire is written here but by the makers. */
#include "cgx.h"

#include <inttypes.h>
#include <stdio.h>
#include <stdlib.h>
#include <string.h>

enum { ROOM = 1 << 17, SHOWN = 256, LONGEST = 65530, CARD_SIZE = 56 };
static const uint64_t UNNAMED = UINT64_MAX;

static const cgx_date day = {2025, 2, 6, 14, 9, 45, 0};
static const cgx_real one = {0x4110000000000000};

static uint8_t buf[ROOM], label[LONGEST];
static cgx_writer writer;

static void taken(uint32_t answer) {
    if (answer != CGX_OK) {
        fprintf(stderr, "refused %u: %s\n", (unsigned)answer, cgx_refusal_words(answer));
        exit(2);
    }
}

#define ON buf, ROOM, &writer, &at
#define TEXT(t) (const uint8_t *)(t), sizeof(t) - 1

static void begin_library(void) {
    uint64_t at;
    taken(cgx_write_start(buf, ROOM, &writer));
    taken(cgx_write_library(ON, 1, &one, &one, &day, &day, TEXT("makers")));
}

static void begin_cell(void) {
    uint64_t at;
    begin_library();
    taken(cgx_write_struct(ON, &day, &day, TEXT("CELL")));
}

static void end(void) {
    uint64_t at;
    taken(cgx_write_endlib(ON));
}

/* ---- chance: splitmix64, which is the same on every machine */

static uint64_t state;

static uint64_t word(void) {
    uint64_t z = state += 0x9e3779b97f4a7c15;
    z = (z ^ z >> 30) * 0xbf58476d1ce4e5b9;
    z = (z ^ z >> 27) * 0x94d049bb133111eb;
    return z ^ z >> 31;
}

/* Below `bound`. */
static uint64_t below(uint64_t bound) { return word() % bound; }

static int32_t a_side(void) {
    static const int32_t limits[] = {INT32_MIN, INT32_MIN + 1, -1, 0, 1, INT32_MAX};
    switch (below(4)) {
    case 0: return limits[below(6)];
    case 1: return (int32_t)((int64_t)(word() >> 32) + INT32_MIN);
    default: return (int32_t)below(20000) - 10000;
    }
}

/* One after another, since C does not say which of four initial values is worked out first. */
static cgx_box four_sides(void) {
    cgx_box b;
    b.left = a_side();
    b.bottom = a_side();
    b.right = a_side();
    b.top = a_side();
    return b;
}

/* Its length. One in sixteen is about as long as a record takes, and one in eight has a zero byte. */
static uint64_t fill_label(void) {
    uint64_t i, len = below(16) == 0 ? LONGEST - below(24) : below(20);
    for (i = 0; i < len; i++) label[i] = (uint8_t)(1 + below(255));
    if (len > 0 && below(8) == 0) label[below(len)] = 0;
    return len;
}

/* ---- where a maker is called: in a cell, on a layer, after an object; or where none is taken */

static void begin(void) {
    static const cgx_layer_id layer = {7, -1};
    static const cgx_box box = {0, 0, 10, 20};
    uint64_t at, where = below(16);
    if (where == 0) {
        begin_library();
        return;
    }
    begin_cell();
    if (where >= 8) taken(cgx_write_named_layer(ON, &layer, TEXT("metal")));
    if (where >= 12) taken(cgx_write_box(ON, &box, 1));
    if (where == 1) taken(cgx_write_property(ON, 1, TEXT("p")));
    if (where == 2) end();
    if (where == 3) writer.place.at = below(2) ? 3 : writer.place.at + 1; /* forged */
}

/* Of the room for `size` bytes: most often all that there is, else as much as is needed, or less. */
static uint64_t room_for(uint64_t size) {
    uint64_t need = writer.place.at + size;
    switch (below(8)) {
    case 0: return need;
    case 1: return need - 1 - below(size);
    default: return ROOM;
    }
}

/* ---- what is told */

static uint64_t digest(const uint8_t *bytes, uint64_t size) {
    uint64_t i, d = 0xcbf29ce484222325; /* FNV-1a */
    for (i = 0; i < size; i++) d = (d ^ bytes[i]) * 0x100000001b3;
    return d;
}

static void tell_bytes(const uint8_t *bytes, uint64_t size) {
    uint64_t i;
    if (size > SHOWN) {
        printf(" %" PRIu64 " bytes, digest %016" PRIx64, size, digest(bytes, size));
        return;
    }
    printf(" ");
    for (i = 0; i < size; i++) printf("%02x", bytes[i]);
}

/* A refusal may move no word of the writer. */
static void tell(const char *maker, uint32_t answer, uint64_t at, const cgx_writer *before) {
    printf("%s %u", maker, (unsigned)answer);
    if (at != UNNAMED) printf(" at %" PRIu64, at);
    if (answer == CGX_OK) tell_bytes(buf + before->place.at, writer.place.at - before->place.at);
    if (answer != CGX_OK && memcmp(before, &writer, sizeof writer) != 0) printf(" and the writer moved");
    printf("\n");
}

static void card(void) {
    const cgx_writer before = writer;
    const cgx_box sides = four_sides();
    const uint64_t room = room_for(CARD_SIZE);
    uint64_t at = UNNAMED;
    const uint32_t answer = cgx_write_test_card(buf, room, &writer, &at, &sides);
    tell("card", answer, at, &before);
}

static void frame(void) {
    const cgx_writer before = writer;
    const cgx_box sides = four_sides();
    const uint64_t len = fill_label();
    const uint64_t room = room_for(CARD_SIZE + 18 + len / 2 * 2);
    uint64_t at = UNNAMED;
    const uint32_t answer = cgx_write_caption_frame(buf, room, &writer, &at, &sides, label, len);
    tell("frame", answer, at, &before);
}

/* The digest is of the whole buffer: all other bytes stay. */
static void of_seed(uint64_t seed) {
    state = seed;
    memset(buf, (int)below(256), ROOM);
    begin();
    printf("seed %" PRIu64 "\n", seed);
    card();
    frame();
    printf("buffer %016" PRIx64 "\n", digest(buf, ROOM));
}

/* ---- whole drawings */

static void save(const char *folder, const char *name) {
    char path[512];
    FILE *f;
    snprintf(path, sizeof path, "%s/%s", folder, name);
    f = fopen(path, "wb");
    if (f == NULL || fwrite(buf, 1, (size_t)writer.place.at, f) != writer.place.at || fclose(f) != 0) {
        fprintf(stderr, "%s cannot be written\n", path);
        exit(2);
    }
}

static void drawings(const char *folder) {
    static const cgx_box sides = {-1, -2, 300, 400};
    uint64_t at;
    begin_cell();
    taken(cgx_write_test_card(ON, &sides));
    end();
    save(folder, "test-card.cgx");
    begin_cell();
    taken(cgx_write_caption_frame(ON, &sides, TEXT("\xce\xb1\xce\xb2"))); /* αβ */
    end();
    save(folder, "caption-frame.cgx");
}

int main(int argc, char **argv) {
    uint64_t seed;
    if (argc == 3 && strcmp(argv[1], "--drawings") == 0) {
        drawings(argv[2]);
    } else if (argc == 2) {
        for (seed = 0; seed < strtoull(argv[1], NULL, 10); seed++) of_seed(seed);
    } else {
        fputs("usage: makers COUNT | makers --drawings FOLDER\n", stderr);
        return 2;
    }
    return fflush(stdout) == 0 ? 0 : 2;
}
