/* Each function that reads, asked with all that it is lent in memory of its own, which ends or begins at a page that may not be
   touched. What a function must leave as it was is compared byte by byte, here, after each call. */
#ifndef ASKED_H
#define ASKED_H

#include "test.h"

/* An answer, and the offset that it names; UNNAMED where `at` holds what it held. Whether it names one is checked here:
   refusals 1 to 13 do, every other answer does not. */
typedef struct {
    uint32_t number;
    uint64_t at;
} told;

#define UNNAMED UINT64_C(0xa5a5a5a5a5a5a5a5)

told ask_check(blob file);
told ask_start(blob file, cgx_place *place);
told ask_step(blob file, cgx_place *place, cgx_view *view);
uint32_t ask_box(blob file, cgx_list boxes, uint64_t i, cgx_box *box);
uint32_t ask_point(blob file, cgx_list points, uint64_t i, cgx_point *point);
uint32_t ask_inside(blob file, cgx_text text);
uint32_t ask_layer_name(blob file, uint64_t at, blob substitute, cgx_text *name);
told ask_extent(blob file, uint64_t cell, cgx_box *extent);
told ask_normal_length(blob file, uint64_t *length);
told ask_normal_form(blob file, blob out, uint64_t *length);
uint32_t ask_double(cgx_real real, double *value);
uint32_t ask_real(double value, cgx_real *real);

/* Whether the file is accepted and its own normal form. */
bool is_normal(blob file);

/* A date of the LIBRARY or STRUCT at this offset, as a walk gives it; whether there is one. */
bool date_in(blob file, uint64_t at, bool modified, cgx_date *date);

/* Whether some answer was this number, so far. */
bool was_seen(uint32_t number);

/* For other files: memory for one struct, lent again and again. */
enum { LARGEST_STRUCT = 112 };
typedef struct {
    size_t alignment; /* of the struct, where it is less than 8 */
    uint8_t *bytes;
    size_t size;
    uint8_t before[LARGEST_STRUCT];
} slot;

#define ALIGNMENT(type) offsetof(struct { char c; type t; }, t)

/* Lends a copy of a struct. */
void *lent(slot *s, const void *value, size_t size);

/* Whether every byte of it is as it was lent; where not, a test has failed. */
bool stays(const slot *s, const char *what);

/* Lends `at`, and tells what is in it after the call. */
uint64_t *lent_at(void);
told answered(uint32_t number);

#endif
