/* The normal-form maker. Its refusals of bad files are tried in reading.c, file by file. */
#include "asked.h"

#include <string.h>

/* Makes the normal form into a buffer of so many bytes: the expected one, and the bytes after it stay; or 14, and all
   stay, the length too. */
static void make(const char *name, blob file, blob normal, size_t room) {
    blob out = {lend(room), room};
    uint64_t length = UNNAMED;
    told t;
    size_t i;
    for (i = 0; i < room; i++) out.bytes[i] = (uint8_t)(i * 7 + 1);
    t = ask_normal_form(file, out, &length);
    if (room < normal.size) {
        expect(t.number == CGX_REFUSED_ROOM, name, "no room");
    } else {
        expect(t.number == CGX_OK && length == normal.size && memcmp(out.bytes, normal.bytes, normal.size) == 0, name,
            "normal form");
    }
    drop(out);
}

static void normal(const char *name, const char *digits, const char *normal_digits) {
    blob file = hex(digits), form = hex(normal_digits);
    uint64_t length = UNNAMED;
    expect(ask_normal_length(file, &length).number == CGX_OK && length == form.size, name, "its length");
    make(name, file, form, form.size + 9);
    make(name, file, form, form.size);
    make(name, file, form, form.size - 1);
    make(name, file, form, 0);
    make("normal form of a normal form", form, form, form.size);
    drop(form);
    drop(file);
}

#define WITH_MUNIT(real) CGX "0026 00 00 " real " 3944b82fa09b5a54 " DATES "6d00 " ENDLIB
#define WITH_ANGLE(real) CGX LIBRARY_M STRUCT_A "0016 09 01 00000001 00000002 " real " 6100 " ENDLIB
#define WITH_TEXT(flags) CGX LIBRARY_M STRUCT_A LAYER_1 "0012 08 " flags " 00000001 00000002 00000003 6100 " ENDLIB

void test_normal_form(void) {
    normal("96 bytes", SMALL, SMALL);
    normal("every kind", every_kind, every_kind_normal);
    normal("a real", WITH_MUNIT("4201000000000000"), WITH_MUNIT("4110000000000000"));
    normal("a real at e = 0", WITH_MUNIT("0200000000000001"), WITH_MUNIT("0000000000000100"));
    normal("minus zero", WITH_ANGLE("8000000000000000"), WITH_ANGLE("0000000000000000"));
    normal("zero with an exponent", WITH_ANGLE("4200000000000000"), WITH_ANGLE("0000000000000000"));
    normal("below zero", WITH_ANGLE("c201000000000000"), WITH_ANGLE("c110000000000000"));
    normal("TEXT flags f0", WITH_TEXT("f0"), WITH_TEXT("00"));
    normal("TEXT flags 3f", WITH_TEXT("3f"), WITH_TEXT("0f"));
    normal("TEXT flags 6f", WITH_TEXT("6f"), WITH_TEXT("6f"));
    normal("unknown records", CGX LIBRARY_M "0004 0b 00 0006 ff ff 0102 " ENDLIB, CGX LIBRARY_M ENDLIB);
}
