/* Runs the tests and counts them. The argument says where lent buffers lie: `after`, a page that cannot be touched
   follows them; `before`, one precedes them; `heap`, for a run under sanitizers. */
#define _DEFAULT_SOURCE
#include "test.h"

#include <stdio.h>
#include <stdlib.h>
#include <string.h>
#include <sys/mman.h>

static unsigned long passed, failed;

void expect(bool good, const char *name, const char *what) {
    if (good) {
        passed++;
    } else {
        failed++;
        printf("FAILED: %s: %s\n", name, what);
    }
}

/* ---- buffers */

static enum { HEAP, AFTER, BEFORE } guard = AFTER;
enum { PAGE = 4096 };

static void *or_stop(void *p) {
    if (p == NULL || p == MAP_FAILED) {
        puts("no memory");
        exit(2);
    }
    return p;
}

/* The bytes of the pages that hold n bytes, at least one. */
static size_t whole_pages(size_t n) {
    return n == 0 ? PAGE : (n + PAGE - 1) / PAGE * PAGE;
}

static uint8_t *first_page(uint8_t *bytes, size_t n) {
    return guard == AFTER ? bytes + n - whole_pages(n) : bytes;
}

uint8_t *lend(size_t n) {
    size_t inner = whole_pages(n);
    uint8_t *pages;
    if (guard == HEAP) {
        uint8_t *bytes = or_stop(malloc(n));
        memset(bytes, FILL, n);
        return bytes;
    }
    pages = or_stop(mmap(NULL, inner + 2 * PAGE, PROT_NONE, MAP_PRIVATE | MAP_ANONYMOUS, -1, 0));
    pages += PAGE;
    if (mprotect(pages, inner, PROT_READ | PROT_WRITE) != 0) or_stop(NULL);
    memset(pages, FILL, inner);
    return guard == AFTER ? pages + inner - n : pages;
}

/* The rest of the pages must be as it was. */
void give_back(uint8_t *bytes, size_t n) {
    size_t inner = whole_pages(n), i;
    uint8_t *pages;
    if (guard == HEAP) {
        free(bytes);
        return;
    }
    pages = first_page(bytes, n);
    for (i = 0; i < inner; i++) {
        bool lent = pages + i >= bytes && pages + i < bytes + n;
        if (!lent && pages[i] != FILL) {
            expect(false, "buffers", "a byte outside a lent buffer was changed");
            break;
        }
    }
    munmap(pages - PAGE, inner + 2 * PAGE);
}

size_t least_aligned(size_t alignment) {
    return guard == AFTER || alignment >= 8 ? 0 : alignment;
}

/* ---- bytes */

static bool is_digit(char c) {
    return (c >= '0' && c <= '9') || (c >= 'a' && c <= 'f');
}

static unsigned digit(char c) {
    return (unsigned)(c <= '9' ? c - '0' : c - 'a' + 10);
}

blob hex(const char *digits) {
    size_t n = 0, i = 0;
    const char *c;
    blob b;
    for (c = digits; *c; c++) n += is_digit(*c);
    b.size = n / 2;
    b.bytes = lend(b.size);
    for (c = digits; *c; c++) {
        if (!is_digit(*c)) continue;
        b.bytes[i / 2] = (uint8_t)(i % 2 == 0 ? digit(*c) << 4 : b.bytes[i / 2] | digit(*c));
        i++;
    }
    return b;
}

blob copy_of(const void *bytes, size_t size) {
    blob b;
    b.size = size;
    b.bytes = lend(size);
    if (size > 0) memcpy(b.bytes, bytes, size);
    return b;
}

void drop(blob b) {
    give_back(b.bytes, b.size);
}

bool same_bytes(blob a, blob b) {
    return a.size == b.size && memcmp(a.bytes, b.bytes, a.size) == 0;
}

void put_short(uint8_t *to, unsigned number) {
    to[0] = (uint8_t)(number >> 8);
    to[1] = (uint8_t)number;
}

void put_long(uint8_t *to, int32_t number) {
    uint32_t bits = (uint32_t)number;
    put_short(to, bits >> 16);
    put_short(to + 2, bits & 0xffff);
}

void forged_places(uint64_t size, cgx_place places[FORGED]) {
    const cgx_place start = {.at = 4, .seen = ~(uint64_t)7}; /* with bits that are not looked at, and stay */
    size_t i;
    for (i = 0; i < FORGED; i++) places[i] = start;
    places[0].at = 0;
    places[1].at = 2;
    places[2].at = 5;
    places[3].at = size + 2;
    places[4].at = UINT64_MAX - 1;
    places[5].cell = 5;
    places[6].layer = 5;
    places[7].properties.first = 5;
    places[7].properties.count = 1;
    places[8].properties.first = 4;
    places[8].properties.count = 5;
    places[9].cell = UINT64_MAX;
}

const char every_kind[] = CGX
    "0026 00 07 3e4189374bc6a7f0 41ffffffffffffff " DATES "6d00 "            /* 4 LIBRARY "m", version 7 */
    "0016 01 ff " DATES "6100 "                                              /* 42 STRUCT "a" */
    "000c 02 01 ffffffff 63700000 "                                          /* 64 CPRPTY -1 "cp" */
    "000c 04 02 0005 fffd 6d310000 "                                         /* 76 LAYER 5, data type -3, "m1" */
    "000a 03 03 0000007f 7000 "                                              /* 88 PROPERTY 127 "p" */
    "0006 20 ff abcd "                                                       /* 98 unknown */
    "000a 03 00 80000000 0000 "                                              /* 104 PROPERTY -2147483648 "" */
    "0024 05 55 ffffffb0 ffffffc7 00000052 0000003a 00000000 00000000 00000000 00000000 " /* 114 BOX, two */
    "0024 06 00 00000000 00000000 0000000a 00000000 0000000a 00000014 00000000 00000000 " /* 150 POLY */
    "0018 07 02 0000000a ffffffff 80000000 7fffffff 00000001 "               /* 186 WIRE, extended ends */
    "0014 08 f5 ffffffb0 80000000 00000007 6162ce00 "                        /* 210 TEXT, a letter cut through */
    "000e 09 00 00000001 00000002 6200 "                                     /* 230 SREF "b" */
    "0036 09 0f 00000003 00000004 8000000000000000 4201000000000000 00000002 00000003"
    " 00000064 00000000 00000000 000000c8 0000 "                             /* 244 SREF "", all flags */
    "0016 01 00 " DATES "0000 "                                              /* 298 STRUCT "" */
    "0008 04 00 0001 0000 "                                                  /* 320 LAYER 1, no name */
    "000a 04 00 0001 0000 0000 "                                             /* 328 LAYER 1, an empty name */
    "0004 0a 00 ";                                                           /* 338 ENDLIB */

const char every_kind_normal[] = CGX
    "0026 00 07 3e4189374bc6a7f0 41ffffffffffffff " DATES "6d00 "
    "0016 01 00 " DATES "6100 "
    "000c 02 00 ffffffff 63700000 "
    "000c 04 00 0005 fffd 6d310000 "
    "000a 03 00 0000007f 7000 "
    "000a 03 00 80000000 0000 "
    "0024 05 00 ffffffb0 ffffffc7 00000052 0000003a 00000000 00000000 00000000 00000000 "
    "0024 06 00 00000000 00000000 0000000a 00000000 0000000a 00000014 00000000 00000000 "
    "0018 07 02 0000000a ffffffff 80000000 7fffffff 00000001 "
    "0014 08 05 ffffffb0 80000000 00000007 6162ce00 "
    "000e 09 00 00000001 00000002 6200 "
    "0036 09 0f 00000003 00000004 0000000000000000 4110000000000000 00000002 00000003"
    " 00000064 00000000 00000000 000000c8 0000 "
    "0016 01 00 " DATES "0000 "
    "0008 04 00 0001 0000 "
    "000a 04 00 0001 0000 0000 "
    "0004 0a 00 ";

int main(int argc, char **argv) {
    const char *where = argc > 1 ? argv[1] : "after";
    guard = strcmp(where, "heap") == 0 ? HEAP : strcmp(where, "before") == 0 ? BEFORE : AFTER;
    test_reading();
    test_reals();
    test_normal_form();
    test_writing();
    test_makers();
    test_words();
    test_longs();
    printf("%lu passed, %lu failed\n", passed, failed);
    return failed == 0 ? 0 : 1;
}
