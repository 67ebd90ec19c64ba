/* The escape: what a file says, as text that cannot disturb a terminal and that can be turned back. */
#include "command.h"

#include <string.h>

/* Characters that turn the direction of the rest of a line (Unicode's Bidi_Control), or end it. */
static bool disturbs(uint32_t letter) {
    return letter == 0x061c || letter == 0x200e || letter == 0x200f || (letter >= 0x2028 && letter <= 0x202e)
        || (letter >= 0x2066 && letter <= 0x2069);
}

static bool continues(const uint8_t *bytes, uint64_t left, unsigned count) {
    unsigned i;
    if (left <= count) return false;
    for (i = 1; i <= count; i++)
        if (bytes[i] >> 6 != 2) return false;
    return true;
}

/* How many bytes are one letter that is printed as it stands; 0 where the first byte is escaped. */
static unsigned plain_letter(const uint8_t *bytes, uint64_t left) {
    uint32_t letter = bytes[0];
    if (letter < 0x80) return letter >= ' ' && letter != 0x7f && letter != '\\';
    if (letter >> 5 == 6 && continues(bytes, left, 1)) {
        letter = (letter & 0x1f) << 6 | (bytes[1] & 0x3f);
        return letter < 0xa0 || disturbs(letter) ? 0 : 2;
    }
    if (letter >> 4 == 14 && continues(bytes, left, 2)) {
        letter = (letter & 0x0f) << 12 | (uint32_t)(bytes[1] & 0x3f) << 6 | (bytes[2] & 0x3f);
        return letter < 0x800 || letter >> 11 == 0x1b || disturbs(letter) ? 0 : 3; /* 0x1b: half of a UTF-16 pair */
    }
    if (letter >> 3 == 30 && continues(bytes, left, 3)) {
        letter = (letter & 7) << 18 | (uint32_t)(bytes[1] & 0x3f) << 12;
        return letter < 0x10000 || letter > 0x10ffff ? 0 : 4;
    }
    return 0;
}

unsigned escape(const uint8_t *bytes, uint64_t left, char form[LONGEST_ESCAPE], size_t *len) {
    static const char digits[] = "0123456789abcdef";
    unsigned plain = plain_letter(bytes, left);
    if (plain > 0) {
        memcpy(form, bytes, plain);
        *len = plain;
        return plain;
    }
    form[0] = form[1] = '\\';
    *len = 2;
    if (bytes[0] != '\\') {
        form[1] = 'x';
        form[2] = digits[bytes[0] >> 4];
        form[3] = digits[bytes[0] & 15];
        *len = 4;
    }
    return 1;
}

char *escaped(const char *name) {
    size_t len = strlen(name), i, at = 0, n;
    char *form = allocate(NULL, (uint64_t)len * LONGEST_ESCAPE + 1);
    for (i = 0; i < len; at += n) i += escape((const uint8_t *)name + i, len - i, form + at, &n);
    form[at] = 0;
    return form;
}
