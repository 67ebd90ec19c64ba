/* Makes the sample drawings in a folder: an inverter; a chip with several cells, arrays, property runs and captions; and the
   inverter cut short, which is refused. */
#include "cgx.h"

#include <stdio.h>
#include <stdlib.h>
#include <string.h>

/* A drawing in the making. */
typedef struct {
    uint8_t bytes[8192];
    cgx_writer writer;
    uint64_t at; /* what a refusal names */
} sheet;

/* What every call of the writer begins with. */
#define ON(s) (s)->bytes, sizeof (s)->bytes, &(s)->writer, &(s)->at

/* Every call must be taken. */
static void taken(uint32_t answer) {
    if (answer != CGX_OK) {
        fprintf(stderr, "refused %u: %s\n", (unsigned)answer, cgx_refusal_words(answer));
        exit(1);
    }
}

/* A text as the writer takes it: pointer and length. */
#define TEXT(t) (const uint8_t *)(t), strlen(t)

/* Boxes or points as the writer takes them: pointer and count. */
#define ALL(a) (a), sizeof(a) / sizeof(a)[0]

static const cgx_date created = {2025, 2, 6, 14, 9, 45, 0};
static const cgx_date modified = {2025, 2, 6, 14, 33, 0, 0};

static cgx_real real(double value) {
    cgx_real r = {0};
    taken(cgx_real_from_double(&value, &r));
    return r;
}

static void begin(sheet *s, const char *name) {
    /* A coordinate is 1/1000 of a user unit, and 1/1000000000 of a metre. */
    const cgx_real milli = real(1e-3), nano = real(1e-9);
    memset(s, 0, sizeof *s);
    taken(cgx_write_start(s->bytes, sizeof s->bytes, &s->writer));
    taken(cgx_write_library(ON(s), 1, &milli, &nano, &created, &modified, TEXT(name)));
}

static void cell(sheet *s, const char *name) {
    taken(cgx_write_struct(ON(s), &created, &modified, TEXT(name)));
}

static void layer(sheet *s, int16_t number, int16_t datatype, const char *name) {
    const cgx_layer_id l = {number, datatype};
    taken(name == NULL ? cgx_write_layer(ON(s), &l) : cgx_write_named_layer(ON(s), &l, TEXT(name)));
}

static void label(sheet *s, int32_t x, int32_t y, const char *text) {
    taken(cgx_write_text(ON(s), 0x50, x, y, 200, TEXT(text)));
}

/* ---- the inverter: a transistor of each kind under one gate */

static void inverter_cell(sheet *s) {
    static const cgx_box well[] = {{-400, 1400, 1400, 3000}};
    static const cgx_box active[] = {{0, 0, 1000, 600}, {0, 1800, 1000, 2600}};
    static const cgx_point gate[] = {{500, -200}, {500, 2800}};
    static const cgx_box contacts[] = {
        {100, 200, 260, 360}, {740, 200, 900, 360}, {100, 2100, 260, 2260}, {740, 2100, 900, 2260}};
    static const cgx_box ground[] = {{-400, -500, 1400, -260}, {80, -260, 280, 380}};
    static const cgx_box supply[] = {{-400, 2860, 1400, 3100}, {80, 2080, 280, 2860}};
    static const cgx_point output[] = {{720, 180}, {920, 180}, {920, 2280}, {720, 2280}, {720, 180}};
    cell(s, "INV");
    taken(cgx_write_cprpty(ON(s), 1, TEXT("inverter, 1x")));
    layer(s, 1, 0, "nwell");
    taken(cgx_write_box(ON(s), ALL(well)));
    layer(s, 2, 0, "active");
    taken(cgx_write_box(ON(s), ALL(active)));
    layer(s, 3, 0, "poly");
    taken(cgx_write_wire(ON(s), 180, ALL(gate)));
    label(s, 500, 1300, "A");
    layer(s, 4, 0, NULL);
    taken(cgx_write_box(ON(s), ALL(contacts)));
    layer(s, 5, 0, "metal1");
    taken(cgx_write_property(ON(s), 2, TEXT("net=GND")));
    taken(cgx_write_box(ON(s), ALL(ground)));
    taken(cgx_write_property(ON(s), 2, TEXT("net=VDD")));
    taken(cgx_write_box(ON(s), ALL(supply)));
    taken(cgx_write_property(ON(s), 2, TEXT("net=Y")));
    taken(cgx_write_property(ON(s), 3, TEXT("load=2")));
    taken(cgx_write_poly(ON(s), ALL(output)));
    label(s, 500, -380, "GND");
    label(s, 500, 2980, "VDD");
    label(s, 820, 1300, "Y");
}

static void inverter(sheet *s) {
    begin(s, "inverter");
    inverter_cell(s);
    taken(cgx_write_endlib(ON(s)));
}

/* ---- the chip */

static void single(sheet *s, const char *name, int32_t x, int32_t y) {
    const cgx_placement p = {.point = {x, y}};
    taken(cgx_write_sref(ON(s), 0, &p, TEXT(name)));
}

/* Reflected, turned by 90 degrees, and twice as large. */
static void turned(sheet *s, const char *name, int32_t x, int32_t y) {
    const cgx_placement p = {.point = {x, y}, .angle = real(90), .magnif = real(2)};
    taken(cgx_write_sref(ON(s), CGX_SREF_ANGLE | CGX_SREF_MAGNIF | CGX_SREF_REFLECT, &p, TEXT(name)));
}

static void array(sheet *s, const char *name, cgx_placement p) {
    taken(cgx_write_sref(ON(s), CGX_SREF_ARRAY, &p, TEXT(name)));
}

static void pad_cell(sheet *s) {
    static const cgx_point octagon[] = {
        {0, 2000}, {0, 6000}, {2000, 8000}, {6000, 8000}, {8000, 6000}, {8000, 2000}, {6000, 0}, {2000, 0}, {0, 2000}};
    static const cgx_point rim[] = {{1000, 1000}, {7000, 1000}, {7000, 7000}, {1000, 7000}, {1000, 1000}};
    cell(s, "PAD");
    layer(s, 6, 0, "metal2");
    taken(cgx_write_property(ON(s), 4, TEXT("bond")));
    taken(cgx_write_poly(ON(s), ALL(octagon)));
    layer(s, 7, 1, NULL);
    taken(cgx_write_styled_wire(ON(s), CGX_END_EXTENDED, 400, ALL(rim)));
    label(s, 4000, 4000, "pad");
}

static void ring_cell(sheet *s) {
    static const cgx_point feedback[] = {{-600, 1300}, {-600, -900}, {6000, -900}, {6000, 1300}};
    const cgx_placement three = {.cols = 3, .rows = 1, .across = {5400, 0}, .up = {0, 3600}};
    cell(s, "RING");
    taken(cgx_write_cprpty(ON(s), 1, TEXT("ring oscillator")));
    taken(cgx_write_cprpty(ON(s), -7, TEXT("")));
    array(s, "INV", three);
    layer(s, 5, 0, "metal1");
    taken(cgx_write_property(ON(s), 2, TEXT("net=loop")));
    taken(cgx_write_styled_wire(ON(s), CGX_END_ROUNDED, 240, ALL(feedback)));
    label(s, 2700, -900, "loop");
}

/* Captions in three scripts, one of which ends inside its fourth letter. */
static void captions(sheet *s) {
    layer(s, 63, 0, "captions");
    label(s, 0, 40000, "ring oscillator");
    /* ταλαντωτής */
    label(s, 0, 38000, "\xcf\x84\xce\xb1\xce\xbb\xce\xb1\xce\xbd\xcf\x84\xcf\x89\xcf\x84\xce\xae\xcf\x82");
    label(s, 0, 36000, "\xe7\x99\xba\xe6\x8c\xaf\xe5\x9b\x9e\xe8\xb7\xaf"); /* 発振回路 */
    label(s, 0, 34000, "\xe7\x99\xba\xe6\x8c\xaf\xe5\x9b\x9e\xe8\xb7");
    layer(s, 63, 1, "\xe6\xb3\xa8\xe8\xa8\x98"); /* 注記 */
    label(s, 0, 32000, "5 \xce\xbcm"); /* 5 μm */
    layer(s, 63, -2, "");
    label(s, 0, 30000, "layer with an empty name");
}

static void top_cell(sheet *s) {
    const cgx_placement left = {.cols = 1, .rows = 4, .across = {10000, 0}, .up = {0, 40000}};
    const cgx_placement right = {
        .point = {40000, 0}, .cols = 1, .rows = 4, .across = {50000, 0}, .up = {40000, 40000}};
    const cgx_box frame = {-1000, -1000, 51000, 43000};
    cell(s, "TOP");
    array(s, "PAD", left);
    taken(cgx_write_property(ON(s), 5, TEXT("side=right")));
    taken(cgx_write_property(ON(s), 6, TEXT("pins=4")));
    array(s, "PAD", right);
    turned(s, "RING", 20000, 20000);
    single(s, "RING", 15000, 5000);
    captions(s);
    taken(cgx_write_caption_frame(ON(s), &frame, TEXT("TOP")));
}

static void chip(sheet *s) {
    begin(s, "chip");
    inverter_cell(s);
    pad_cell(s);
    ring_cell(s);
    top_cell(s);
    taken(cgx_write_endlib(ON(s)));
}

/* ---- files */

static void save(const char *folder, const char *name, const uint8_t *bytes, uint64_t size) {
    char path[512];
    FILE *f;
    snprintf(path, sizeof path, "%s/%s", folder, name);
    f = fopen(path, "wb");
    if (f == NULL || fwrite(bytes, 1, (size_t)size, f) != size || fclose(f) != 0) {
        fprintf(stderr, "%s cannot be written\n", path);
        exit(1);
    }
}

int main(int argc, char **argv) {
    static sheet s;
    if (argc != 2) {
        fputs("usage: samples FOLDER\n", stderr);
        return 2;
    }
    inverter(&s);
    save(argv[1], "inverter.cgx", s.bytes, s.writer.place.at);
    save(argv[1], "refused.cgx", s.bytes, s.writer.place.at - 10);
    chip(&s);
    save(argv[1], "chip.cgx", s.bytes, s.writer.place.at);
    return 0;
}
