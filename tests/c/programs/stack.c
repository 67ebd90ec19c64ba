/* Measures how much stack each function of the archive takes: it is called on a stack of its own, which is filled with a
   pattern before. Prints the most that was taken; the exit status is 0 where that is within the limit. */
#define _XOPEN_SOURCE 700
#include "cgx.h"

#include <stdio.h>
#include <string.h>
#include <ucontext.h>

enum { LIMIT = 1024 }; /* bytes, as README.md says */

/* ---- what the functions are lent: a drawing with every kind of record, in the making */

enum { ROOM = 4096 };
static uint8_t buf[ROOM], out[ROOM];
static cgx_writer writer;
static cgx_place place;
static cgx_view view;
static uint64_t at, length, size;
static uint32_t answer;

static const cgx_real one = {0x4201000000000000}, inexact = {0x41ffffffffffffff}; /* 1, not in its normal form */
static const cgx_date day = {2025, 2, 6, 14, 9, 45, 0};
static const cgx_layer_id layer = {5, -3};
static const cgx_box boxes[] = {{0, 0, 1, 1}, {-80, -57, 82, 58}};
static const cgx_point points[] = {{0, 0}, {10, 0}, {10, 20}, {0, 0}};
static const cgx_placement placement = {{3, 4}, {0x4201000000000000}, {0x4201000000000000}, 2, 3, {100, 0}, {0, 200}};
static const uint8_t name[40] = "a name of more than one word of bytes";
static const cgx_list list = {4, 9};
static const cgx_text text = {4, 9};

#define ON buf, ROOM, &writer, &at
static void library(void) { answer = cgx_write_library(ON, 7, &one, &inexact, &day, &day, name, 37); }
static void structure(void) { answer = cgx_write_struct(ON, &day, &day, name, 37); }
static void cprpty(void) { answer = cgx_write_cprpty(ON, 1, name, 37); }
static void property(void) { answer = cgx_write_property(ON, 1, name, 37); }
static void unnamed_layer(void) { answer = cgx_write_layer(ON, &layer); }
static void named_layer(void) { answer = cgx_write_named_layer(ON, &layer, name, 37); }
static void box(void) { answer = cgx_write_box(ON, boxes, 2); }
static void poly(void) { answer = cgx_write_poly(ON, points, 4); }
static void wire(void) { answer = cgx_write_wire(ON, 3, points, 4); }
static void styled_wire(void) { answer = cgx_write_styled_wire(ON, CGX_END_ROUNDED, 3, points, 4); }
static void label(void) { answer = cgx_write_text(ON, 0xf5, 1, 2, 3, name, 37); }
static void sref(void) { answer = cgx_write_sref(ON, 15, &placement, name, 37); }
static void test_card(void) { answer = cgx_write_test_card(ON, boxes); }
static void caption_frame(void) { answer = cgx_write_caption_frame(ON, boxes, name, 37); }
static void endlib(void) { answer = cgx_write_endlib(ON); }
static void write_start(void) { answer = cgx_write_start(buf, ROOM, &writer); }

static void check(void) { answer = cgx_check(buf, size, &at); }
static void start(void) { answer = cgx_start(buf, size, &place, &at); }
static void steps(void) {
    while ((answer = cgx_step(buf, size, &place, &view, &at)) == CGX_OK) {
    }
    if (answer == CGX_DONE) answer = CGX_OK;
}
static void box_at(void) {
    cgx_box b;
    answer = cgx_box_at(buf, size, &list, 1, &b);
}
static void point_at(void) {
    cgx_point p;
    answer = cgx_point_at(buf, size, &list, 1, &p);
}
static void text_inside(void) { answer = cgx_text_inside(buf, size, &text); }
static void real_double(void) {
    double d;
    answer = cgx_real_double(&one, &d);
}
static void real_from_double(void) {
    const double d = 0.1;
    cgx_real r;
    answer = cgx_real_from_double(&d, &r);
}
static void layer_at(void) { answer = cgx_layer_at(buf, size, view.layer); }
static void layer_name(void) {
    cgx_text t;
    answer = cgx_layer_name(buf, size, view.layer, name, 37, &t);
    if (answer == CGX_SUBSTITUTE) answer = CGX_OK;
}
static void extent(void) {
    cgx_box b;
    answer = cgx_extent(buf, size, 0, &b, &at);
}
static void normal_length(void) { answer = cgx_normal_length(buf, size, &length, &at); }
static void normal_form(void) { answer = cgx_normal_form(buf, size, out, ROOM, &length, &at); }
static void version(void) { answer = cgx_version() - CGX_VERSION; }
static void nothing(void) { answer = CGX_OK; }

/* In an order in which each is taken; the last record of the drawing is ENDLIB. */
static const struct {
    const char *name;
    void (*call)(void);
} calls[] = {
    {"cgx_version", version}, {"cgx_write_start", write_start}, {"cgx_write_library", library},
    {"cgx_write_struct", structure}, {"cgx_write_cprpty", cprpty}, {"cgx_write_layer", unnamed_layer},
    {"cgx_write_named_layer", named_layer}, {"cgx_write_property", property}, {"cgx_write_box", box},
    {"cgx_write_poly", poly}, {"cgx_write_wire", wire}, {"cgx_write_styled_wire", styled_wire}, {"cgx_write_text", label},
    {"cgx_write_sref", sref}, {"cgx_write_test_card", test_card}, {"cgx_write_caption_frame", caption_frame},
    {"cgx_write_endlib", endlib}, {"cgx_check", check}, {"cgx_start", start}, {"cgx_step", steps}, {"cgx_box_at", box_at},
    {"cgx_point_at", point_at}, {"cgx_text_inside", text_inside}, {"cgx_real_double", real_double},
    {"cgx_real_from_double", real_from_double}, {"cgx_layer_at", layer_at}, {"cgx_layer_name", layer_name},
    {"cgx_extent", extent}, {"cgx_normal_length", normal_length}, {"cgx_normal_form", normal_form},
};

/* ---- the stack */

enum { WORDS = 16384 };
static uint64_t stack[WORDS];

static uint64_t pattern(size_t i) {
    return (i + 1) * UINT64_C(0x9e3779b97f4a7c15);
}

/* How many bytes of the stack a call has touched, which grows downwards. */
static size_t taken(void (*call)(void)) {
    ucontext_t here, there;
    size_t i;
    for (i = 0; i < WORDS; i++) stack[i] = pattern(i);
    if (getcontext(&there) != 0) return sizeof stack;
    there.uc_stack.ss_sp = stack;
    there.uc_stack.ss_size = sizeof stack;
    there.uc_link = &here;
    makecontext(&there, call, 0);
    if (swapcontext(&here, &there) != 0) return sizeof stack;
    for (i = 0; i < WORDS && stack[i] == pattern(i); i++) {
    }
    return (WORDS - i) * sizeof stack[0];
}

int main(int argc, char **argv) {
    const int all = argc > 1 && strcmp(argv[1], "--all") == 0;
    const size_t none = taken(nothing);
    size_t i, most = 0, which = 0;
    for (i = 0; i < sizeof calls / sizeof calls[0]; i++) {
        size_t bytes = taken(calls[i].call) - none;
        if (answer != CGX_OK) {
            printf("%s is refused: %u\n", calls[i].name, (unsigned)answer);
            return 2;
        }
        if (all) printf("%5zu %s\n", bytes, calls[i].name);
        if (bytes > most) most = bytes, which = i;
        size = writer.place.at;
    }
    printf("at most %zu bytes of stack, by %s; the limit is %d\n", most, calls[which].name, LIMIT);
    return most <= LIMIT ? 0 : 1;
}
