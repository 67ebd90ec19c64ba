/* What the tests share: the count, buffers of exact size, bytes written as hexadecimal. */
#ifndef TEST_H
#define TEST_H

#include "cgx.h"

#include <stdbool.h>

/* Counts one test, and prints its name where it failed. */
void expect(bool good, const char *name, const char *what);

/* Lends n bytes, all 0xa5. Depending on how the tests are run a byte after the last, or before the first, cannot be
   touched without a fault; or the bytes are the heap's. */
enum { FILL = 0xa5 };
uint8_t *lend(size_t n);
void give_back(uint8_t *bytes, size_t n);

/* How far lent memory for something of this alignment begins after an address of a greater one. None where a page that
   may not be touched follows it, since there the end of it counts. */
size_t least_aligned(size_t alignment);

/* Bytes in a lent buffer. */
typedef struct {
    uint8_t *bytes;
    size_t size;
} blob;

/* The bytes that pairs of hexadecimal digits say; spaces do not count. */
blob hex(const char *digits);
blob copy_of(const void *bytes, size_t size);
void drop(blob b);
bool same_bytes(blob a, blob b);

/* Big-endian stores for expected bytes. */
void put_short(uint8_t *to, unsigned number);
void put_long(uint8_t *to, int32_t number);

/* No struct of the header has padding, so that two are the same where their bytes are. */
#define SAME(a, b) (sizeof *(a) == sizeof *(b) && memcmp((a), (b), sizeof *(a)) == 0)

/* Places that are forged for a file or buffer of `size` bytes, an even number: one for each clause, and more. */
enum { FORGED = 10 };
void forged_places(uint64_t size, cgx_place places[FORGED]);

/* The drawing of 96 bytes: LIBRARY "m", STRUCT "a", an unnamed LAYER, one box, ENDLIB. */
#define CGX "63677800 "
#define DATES "07e9 02 06 0e 09 2d 00  07e9 02 06 0e 09 33 00 "
#define LIBRARY_M "0026 00 00 3e4189374bc6a7f0 3944b82fa09b5a54 " DATES "6d00 "
#define STRUCT_A "0016 01 00 " DATES "6100 "
#define LAYER_1 "0008 04 00 0001 0000 "
#define BOX_1 "0014 05 00 ffffffb0 ffffffc7 00000052 0000003a "
#define ENDLIB "0004 0a 00 "
#define SMALL CGX LIBRARY_M STRUCT_A LAYER_1 BOX_1 ENDLIB

/* A drawing with every kind of record, an unknown one, and bytes that the normal form changes; and its normal form. */
extern const char every_kind[];
extern const char every_kind_normal[];

void test_reading(void);
void test_reals(void);
void test_normal_form(void);
void test_writing(void);
void test_makers(void);
void test_words(void);
void test_longs(void);

#endif
