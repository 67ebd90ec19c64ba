/* A call of the writer as data, so that each can be tried in the same ways. */
#ifndef CALLS_H
#define CALLS_H

#include "asked.h"

typedef enum {
    A_LIBRARY,
    A_STRUCT,
    A_CPRPTY,
    A_PROPERTY,
    A_LAYER,
    A_NAMED_LAYER,
    A_BOX,
    A_POLY,
    A_WIRE,
    A_STYLED_WIRE,
    A_TEXT,
    AN_SREF,
    AN_ENDLIB,
    A_TEST_CARD,
    A_CAPTION_FRAME
} which_call;

typedef struct {
    which_call which;
    uint8_t flags;          /* or the version, or the end style */
    cgx_real first, second; /* munit and uunit */
    cgx_date created, modified;
    int32_t number; /* or the width */
    cgx_layer_id layer;
    cgx_point point;
    cgx_placement placement;
    cgx_box sides;
    const void *items; /* boxes or points */
    size_t count;
    const char *text;
    size_t len;
} call;

/* Where a call is made: after these records. */
typedef enum {
    AT_START,   /* the four bytes */
    IN_LIBRARY, /* LIBRARY */
    IN_CELL,    /* and STRUCT */
    IN_LAYER,   /* and LAYER */
    IN_RUN,     /* and PROPERTY */
    ENDED       /* ENDLIB, after LAYER */
} where;

cgx_writer writer_in(where w);

/* Makes the call, each struct, text and list that it is given in memory of exact size. Where it is refused, every byte of the
   buffer and of the writer must be as it was, and always every byte of what it is given. */
told make_call(blob buf, cgx_writer *writer, const call *c);

/* The call is taken and appends these bytes, with exact room and with more; one byte less is 14. No other byte of the
   buffer changes. */
void expect_taken(const char *name, cgx_writer writer, const call *c, blob bytes);

/* The call is refused with this number, whether there is room or none, and names the offset `at` where the number is 6 to
   12, and else none. */
void expect_refused(const char *name, cgx_writer writer, const call *c, uint32_t number, uint64_t at);

/* The same in a buffer of so many bytes. */
void expect_refused_in(const char *name, size_t room, cgx_writer writer, const call *c, uint32_t number, uint64_t at);

/* The call is refused with 16 by each forged writer. */
void expect_forged_refused(const char *name, const call *c);

#define ONE {0x4110000000000000}
/* What is in `unused` is not looked at. */
#define DAY {2025, 2, 6, 14, 9, 45, 0}
#define NEXT_DAY {2025, 2, 7, 23, 59, 59, 255}
#define TEXT_OF(s) .text = (s), .len = sizeof(s) - 1
#define ITEMS_OF(a) .items = (a), .count = sizeof(a) / sizeof(a)[0]

#endif
