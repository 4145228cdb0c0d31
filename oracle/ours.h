/* The port as the oracle's driver (ours.c) calls it. One adapter file implements these over the port's own C boundary;
 * only that file knows its header.
 *
 * Every function returns SCOPE's number, 0 for success.
 * A slice is a pointer and a count of elements (bytes for pixels and output, words for work values).
 * Layout 0 is Rgba8, 1 Argb8, 2 Bgra8. A flag is 0 or 1. Flags, sizes and counts are written on success only. */
#ifndef OURS_H
#define OURS_H
#include <stddef.h>
#include <stdint.h>

/* Source width, source height, layout, crop x, y, width, height, target width, target height, rows accepted, rows taken, flag, kind (0 a picture, 1 a
 * plane), lanes. */
#define OURS_RECORD 14

/* A plan: a record without rows accepted, rows taken and flag. */
#define OURS_PLAN 11

/* The record's first nine numbers are the arguments, also where start refuses, of a plane the lanes in the layout's place; on success all its numbers
 * become those of the fresh record. */
uint32_t ours_start(uint32_t record[OURS_RECORD], uint32_t* work, size_t work_len);
uint32_t ours_start_plane(uint32_t record[OURS_RECORD], uint32_t* work, size_t work_len);
/* Luma and both chroma planes; the records are written on success only. */
uint32_t ours_start_planes(uint32_t w, uint32_t h, uint32_t tw, uint32_t th, uint32_t* const work[3], const size_t work_len[3],
                           uint32_t records[3][OURS_RECORD]);
/* On success *rows is the count accepted. The record becomes the one handed back, on refusal too. */
uint32_t ours_offer(uint32_t record[OURS_RECORD], const uint8_t* bytes, size_t len, uint32_t* work, size_t work_len, uint32_t* rows);
uint32_t ours_band(uint32_t record[OURS_RECORD], const uint8_t* bytes, size_t len, uint32_t* work, size_t work_len, uint32_t* rows);
/* On success *rows is the rows of the next band. */
uint32_t ours_band_count(const uint32_t record[OURS_RECORD], uint32_t* rows);
uint32_t ours_take(uint32_t record[OURS_RECORD], uint8_t* out, size_t out_len, uint32_t* work, size_t work_len);

/* A group's record is the count of its jobs, then the record of each. A start that refuses leaves its words as they are. */
uint32_t ours_start_group(const uint32_t* plans, size_t plans_len, uint32_t count, uint32_t* work, size_t work_len, uint32_t* record, size_t record_len);
uint32_t ours_offer_group(uint32_t* record, size_t record_len, const uint8_t* bytes, size_t len, uint32_t* work, size_t work_len, uint32_t* rows);
uint32_t ours_take_group(uint32_t* record, size_t record_len, uint32_t job, uint8_t* out, size_t out_len, uint32_t* work, size_t work_len);

uint32_t ours_resize(uint32_t layout, uint32_t w, uint32_t h, uint32_t tw, uint32_t th, const uint8_t* pixels, size_t len, uint8_t* out, size_t out_len,
                     uint32_t* work, size_t work_len, uint32_t* flag);
uint32_t ours_crop(uint32_t layout, uint32_t w, uint32_t h, uint32_t x, uint32_t y, uint32_t cw, uint32_t ch, const uint8_t* pixels, size_t len,
                   uint8_t* out, size_t out_len, uint32_t* flag);
uint32_t ours_apply_alpha_plane(uint32_t layout, uint32_t w, uint32_t h, uint8_t* pixels, size_t len, const uint8_t* plane, size_t plane_len,
                                uint32_t* flag);
uint32_t ours_has_alpha(uint32_t layout, uint32_t w, uint32_t h, const uint8_t* pixels, size_t len, uint32_t* flag);
uint32_t ours_unpack(uint32_t layout, const uint8_t* bytes, size_t len, uint32_t* out, size_t out_len);
/* *flag is the alpha flag of the values. */
uint32_t ours_pack(uint32_t layout, const uint32_t* argb, size_t count, uint8_t* out, size_t out_len, uint32_t* flag);
uint32_t ours_scaled(uint32_t w, uint32_t h, uint32_t tw, uint32_t th, uint32_t* width, uint32_t* height);
#endif
