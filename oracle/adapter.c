/* The port's C boundary (include/jonquilsaw.h) behind what ours.c calls. Answers have room for exactly the words that the
 * boundary writes. */
#include "ours.h"

#include "jonquilsaw.h"

_Static_assert(OURS_RECORD == JONQUILSAW_RECORD_WORDS, "a record's words");
_Static_assert(OURS_PLAN == JONQUILSAW_PLAN_WORDS, "a plan's words");

/* The record that a start writes lies apart from its arguments; what it writes beside a success is seen as a difference. */
static void blank(uint32_t fresh[OURS_RECORD]) {
  for (uint32_t i = 0; i < OURS_RECORD; ++i) fresh[i] = 0x5c5c5c5cu + i;
}

static uint32_t started(uint32_t n, const uint32_t fresh[OURS_RECORD], uint32_t record[OURS_RECORD]) {
  for (uint32_t i = 0; i < OURS_RECORD; ++i) {
    if (n == 0) record[i] = fresh[i];
    else if (fresh[i] != 0x5c5c5c5cu + i) return 1000;
  }
  return n;
}

uint32_t ours_start(uint32_t r[OURS_RECORD], uint32_t* work, size_t work_len) {
  uint32_t fresh[OURS_RECORD];
  blank(fresh);
  return started(jonquilsaw_start(r[0], r[1], r[2], r[3], r[4], r[5], r[6], r[7], r[8], work, work_len, fresh, OURS_RECORD), fresh, r);
}

uint32_t ours_start_plane(uint32_t r[OURS_RECORD], uint32_t* work, size_t work_len) {
  uint32_t fresh[OURS_RECORD];
  blank(fresh);
  return started(jonquilsaw_start_plane(r[0], r[1], r[2], r[3], r[4], r[5], r[6], r[7], r[8], work, work_len, fresh, OURS_RECORD), fresh, r);
}

uint32_t ours_start_planes(uint32_t w, uint32_t h, uint32_t tw, uint32_t th, uint32_t* const work[3], const size_t work_len[3],
                           uint32_t records[3][OURS_RECORD]) {
  uint32_t fresh[3][OURS_RECORD];
  for (int i = 0; i < 3; ++i) blank(fresh[i]);
  const uint32_t n = jonquilsaw_start_planes(w, h, tw, th, work[0], work_len[0], work[1], work_len[1], work[2], work_len[2], fresh[0], OURS_RECORD, fresh[1],
                                             OURS_RECORD, fresh[2], OURS_RECORD);
  uint32_t told = n;
  for (int i = 0; i < 3; ++i) {
    if (started(n, fresh[i], records[i]) != n) told = 1000;
  }
  return told;
}

uint32_t ours_offer(uint32_t record[OURS_RECORD], const uint8_t* bytes, size_t len, uint32_t* work, size_t work_len, uint32_t* rows) {
  return jonquilsaw_offer(record, OURS_RECORD, bytes, len, work, work_len, rows, 1);
}

uint32_t ours_band(uint32_t record[OURS_RECORD], const uint8_t* bytes, size_t len, uint32_t* work, size_t work_len, uint32_t* rows) {
  return jonquilsaw_band_offer(record, OURS_RECORD, bytes, len, work, work_len, rows, 1);
}

uint32_t ours_band_count(const uint32_t record[OURS_RECORD], uint32_t* rows) {
  return jonquilsaw_band_count(record, OURS_RECORD, rows, 1);
}

uint32_t ours_take(uint32_t record[OURS_RECORD], uint8_t* out, size_t out_len, uint32_t* work, size_t work_len) {
  return jonquilsaw_take(record, OURS_RECORD, out, out_len, work, work_len);
}

uint32_t ours_start_group(const uint32_t* plans, size_t plans_len, uint32_t count, uint32_t* work, size_t work_len, uint32_t* record, size_t record_len) {
  return jonquilsaw_start_group(plans, plans_len, count, work, work_len, record, record_len);
}

uint32_t ours_offer_group(uint32_t* record, size_t record_len, const uint8_t* bytes, size_t len, uint32_t* work, size_t work_len, uint32_t* rows) {
  return jonquilsaw_offer_group(record, record_len, bytes, len, work, work_len, rows, 1);
}

uint32_t ours_take_group(uint32_t* record, size_t record_len, uint32_t job, uint8_t* out, size_t out_len, uint32_t* work, size_t work_len) {
  return jonquilsaw_take_group(record, record_len, job, out, out_len, work, work_len);
}

uint32_t ours_resize(uint32_t layout, uint32_t w, uint32_t h, uint32_t tw, uint32_t th, const uint8_t* pixels, size_t len, uint8_t* out, size_t out_len,
                     uint32_t* work, size_t work_len, uint32_t* flag) {
  return jonquilsaw_resize(w, h, layout, tw, th, pixels, len, out, out_len, work, work_len, flag, 1);
}

uint32_t ours_crop(uint32_t layout, uint32_t w, uint32_t h, uint32_t x, uint32_t y, uint32_t cw, uint32_t ch, const uint8_t* pixels, size_t len,
                   uint8_t* out, size_t out_len, uint32_t* flag) {
  return jonquilsaw_crop(w, h, layout, x, y, cw, ch, pixels, len, out, out_len, flag, 1);
}

uint32_t ours_apply_alpha_plane(uint32_t layout, uint32_t w, uint32_t h, uint8_t* pixels, size_t len, const uint8_t* plane, size_t plane_len,
                                uint32_t* flag) {
  return jonquilsaw_apply_alpha_plane(w, h, layout, pixels, len, plane, plane_len, flag, 1);
}

uint32_t ours_has_alpha(uint32_t layout, uint32_t w, uint32_t h, const uint8_t* pixels, size_t len, uint32_t* flag) {
  return jonquilsaw_has_alpha(w, h, layout, pixels, len, flag, 1);
}

uint32_t ours_scaled(uint32_t w, uint32_t h, uint32_t tw, uint32_t th, uint32_t* width, uint32_t* height) {
  uint32_t size[2] = {0, 0};
  const uint32_t n = jonquilsaw_scaled(w, h, tw, th, size, 2);
  *width = size[0], *height = size[1];
  return n;
}

uint32_t ours_unpack(uint32_t layout, const uint8_t* bytes, size_t len, uint32_t* out, size_t out_len) {
  return jonquilsaw_unpack_pixels(layout, bytes, len, out, out_len);
}

uint32_t ours_pack(uint32_t layout, const uint32_t* argb, size_t count, uint8_t* out, size_t out_len, uint32_t* flag) {
  const uint32_t told = jonquilsaw_argb_has_alpha(argb, count, flag, 1);
  return told != 0 ? told : jonquilsaw_pack_pixels(layout, argb, count, out, out_len);
}
