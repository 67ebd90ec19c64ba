/* CGX in plain C, to measure the archive against: the same interface, checks and
 * answers, so that neither side has less to do. Only what is measured is here. */
#ifndef CGX_PLAIN_H
#define CGX_PLAIN_H

#include "cgx.h"

uint32_t cgx_plain_check(const uint8_t *file, uint64_t size, uint64_t *at);
uint32_t cgx_plain_start(const uint8_t *file, uint64_t size, cgx_place *place, uint64_t *at);
uint32_t cgx_plain_step(const uint8_t *file, uint64_t size, cgx_place *place, cgx_view *view, uint64_t *at);
uint32_t cgx_plain_normal_form(const uint8_t *file, uint64_t size, uint8_t *out, uint64_t room,
                               uint64_t *length, uint64_t *at);
uint32_t cgx_plain_write_box_longs(uint8_t *buf, uint64_t room, cgx_writer *writer, uint64_t *at,
                                   const int32_t *longs, uint64_t long_count);
uint32_t cgx_plain_write_text(uint8_t *buf, uint64_t room, cgx_writer *writer, uint64_t *at, uint8_t flags,
                              int32_t x, int32_t y, int32_t width, const uint8_t *label, uint64_t len);

#endif
