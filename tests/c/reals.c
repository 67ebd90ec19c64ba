/* Reals as doubles and back. */
#include "asked.h"

#include <string.h>

static uint64_t bits_of(double value) {
    uint64_t bits;
    memcpy(&bits, &value, sizeof bits);
    return bits;
}

static double of_bits(uint64_t bits) {
    double value;
    memcpy(&value, &bits, sizeof value);
    return value;
}

/* ---- a real and the double that equals it, and back */

typedef struct {
    const char *name;
    uint64_t word;
    double value;
} pair;

static const pair normal_pairs[] = {
    {"0", 0, 0.0},
    {"1", 0x4110000000000000, 1.0},
    {"-1", 0xc110000000000000, -1.0},
    {"1e-9", 0x3944b82fa09b5a54, 1e-9},
    {"1e-3", 0x3e4189374bc6a7f0, 1e-3},
    {"0.1", 0x401999999999999a, 0.1},
    {"2", 0x4120000000000000, 2.0},
    {"90", 0x425a000000000000, 90.0},
    {"the smallest", 1, 0x1p-312},
    {"the smallest below zero", 0x8000000000000001, -0x1p-312},
    {"the smallest with a leading digit", 0x0010000000000000, 0x1p-260},
    {"53 bits at the smallest exponent", 0x001fffffffffffff, 0x1fffffffffffffp-312},
    {"2^-260 and its last bit", 0x0010000000000001, 0x10000000000001p-312},
    {"53 bits, the lowest last", 0x411fffffffffffff, 0x1fffffffffffffp-52},
    {"the largest that a double equals", 0x7ffffffffffffff8, 0xfffffffffffff8p196},
    {"the lowest that a double equals", 0xfffffffffffffff8, -0xfffffffffffff8p196},
};

/* Doubles that a real equals. */
static const double doubles[] = {-0.1, 1e-12, 1.0 / 3.0, 3.14159265358979, 1e70, -1e75, 6e-79, 0x1p-312, 0x1.8p-311,
    0x1p251, 4503599627370497.5, 9007199254740993.0};

/* Reals in another form than the normal one, and the normal word. */
static const struct {
    const char *name;
    uint64_t word, normal;
} other_forms[] = {
    {"minus zero", 0x8000000000000000, 0},
    {"zero with an exponent", 0x4200000000000000, 0},
    {"minus zero with an exponent", 0xff00000000000000, 0},
    {"1 with a zero digit", 0x4201000000000000, 0x4110000000000000},
    {"1 with the most zero digits", 0x4e00000000000001, 0x4110000000000000},
    {"the smallest, at exponent 2", 0x0200000000000001, 0x0000000000000100},
};

static const struct {
    const char *name;
    uint64_t word;
} inexact_reals[] = {
    {"2^53 + 1", 0x4e20000000000001},
    {"2^55 + 1", 0x4e80000000000001},
    {"56 bits", 0x41ffffffffffffff},
    {"56 bits below zero", 0xc1ffffffffffffff},
    {"the largest", 0x7fffffffffffffff},
    {"54 bits at the smallest exponent", 0x0020000000000001},
};

static const struct {
    const char *name;
    uint64_t bits;
} inexact_doubles[] = {
    {"infinity", 0x7ff0000000000000},
    {"minus infinity", 0xfff0000000000000},
    {"NaN", 0x7ff8000000000000},
    {"a signalling NaN", 0x7ff0000000000001},
    {"NaN below zero", 0xfff8000000000001},
    {"minus zero", 0x8000000000000000},
    {"the smallest denormal", 1},
    {"the largest denormal", 0x000fffffffffffff},
    {"a denormal below zero", 0x8000000000000001},
    {"the smallest normal double", 0x0010000000000000},
    {"the largest double", 0x7fefffffffffffff},
    {"2^252", 0x4fb0000000000000},
    {"2^-313", 0x2c60000000000000},
    {"2^-312 and a bit more", 0x2c70000000000001},
    {"2^-261 and its last bit", 0x2fa0000000000001},
};

static bool is_double(uint64_t word, double value) {
    cgx_real real = {word};
    double got = of_bits(UNNAMED);
    return ask_double(real, &got) == CGX_OK && bits_of(got) == bits_of(value);
}

static bool is_real(double value, uint64_t word) {
    cgx_real got = {UNNAMED};
    return ask_real(value, &got) == CGX_OK && got.word == word;
}

/* sign, exponent and mantissa, put together, are the word. */
static bool has_parts(uint64_t word) {
    cgx_real real = {word};
    uint64_t sign = cgx_real_negative(&real) != 0, e = cgx_real_exponent(&real);
    return e < 128 && cgx_real_mantissa(&real) < (uint64_t)1 << 56
        && (sign << 63 | e << 56 | cgx_real_mantissa(&real)) == word;
}

void test_reals(void) {
    cgx_real in_hand = {UNNAMED};
    size_t i;
    for (i = 0; i < sizeof normal_pairs / sizeof normal_pairs[0]; i++) {
        const pair *p = &normal_pairs[i];
        expect(is_double(p->word, p->value), p->name, "its double");
        expect(is_real(p->value, p->word), p->name, "the real of its double");
        expect(cgx_real_of(p->value, &in_hand) == CGX_OK && in_hand.word == p->word, p->name, "the real of a double in hand");
        expect(has_parts(p->word), p->name, "its parts");
    }
    for (i = 0; i < sizeof doubles / sizeof doubles[0]; i++) {
        cgx_real real = {UNNAMED};
        expect(ask_real(doubles[i], &real) == CGX_OK && is_double(real.word, doubles[i]), "a double", "there and back");
    }
    for (i = 0; i < sizeof other_forms / sizeof other_forms[0]; i++) {
        cgx_real real = {other_forms[i].word};
        double value = of_bits(UNNAMED);
        expect(ask_double(real, &value) == CGX_OK && is_real(value, other_forms[i].normal), other_forms[i].name,
            "its normal form");
    }
    for (i = 0; i < sizeof inexact_reals / sizeof inexact_reals[0]; i++) {
        cgx_real real = {inexact_reals[i].word};
        double value = of_bits(UNNAMED);
        expect(ask_double(real, &value) == CGX_INEXACT, inexact_reals[i].name, "no double equals it");
        expect(has_parts(real.word), inexact_reals[i].name, "its parts");
    }
    for (i = 0; i < sizeof inexact_doubles / sizeof inexact_doubles[0]; i++) {
        cgx_real real = {UNNAMED};
        expect(ask_real(of_bits(inexact_doubles[i].bits), &real) == CGX_INEXACT, inexact_doubles[i].name,
            "no real equals it");
    }
}
