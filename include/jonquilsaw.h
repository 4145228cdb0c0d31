/* Jonquilsaw: a scaler of pictures and planes that takes source rows as they arrive and hands out
 * preview rows as they become ready. It allocates nothing: every buffer is lent by the caller. The
 * bytes are those of webpkit's rescaler, except that a crop one pixel wide which is made taller does
 * not become 0, and that a restored colour stops at 255 in its own lane, where webpkit's runs into
 * the next; docs/DIFFERENCES.md says so, and where libwebp's bytes are others.
 *
 * Every function returns 0 where the call was accepted and else a number that says why not: see
 * jonquilsaw_number. A refused call leaves every buffer as it was.
 *
 * A slice is a pointer and a count of its elements. The pointer must be that of live memory for so
 * many elements, aligned for their type; with a count of 0 it may be null. Two slices of one call
 * must not overlap unless both are const. Rows stand one after another without gaps. A picture's
 * pixels are 4 bytes each, and their colours are not premultiplied by alpha. A plane's pixels are 1
 * to 4 lanes, a byte each, side by side, which are scaled as they are. Nothing is kept between calls
 * but what stands in the record and the work values, so calls with other memory may run at the same
 * time.
 *
 * First come the proved functions, which libjonquilsaw.a has; then functions of the header's own
 * over them, in which a size, a crop and a job have types. */
#ifndef JONQUILSAW_H
#define JONQUILSAW_H

#include <stddef.h>
#include <stdint.h>

#ifdef __cplusplus
extern "C" {
#endif

#define JONQUILSAW_VERSION_MAJOR 0
#define JONQUILSAW_VERSION_MINOR 10
#define JONQUILSAW_VERSION_PATCH 0
#define JONQUILSAW_VERSION "0.10.0"

/* The largest side of a picture or a plane. */
#define JONQUILSAW_MAX_SIDE 16384u

/* The lanes of a picture's pixel, and the most that a plane has. */
#define JONQUILSAW_PIXEL_LANES 4u
#define JONQUILSAW_MAX_LANES 4u

/* How many words a record takes. Words after them are never read or written. In their order:
 * source width and height; layout; crop x, y, width and height; target width and height; source
 * rows accepted; preview rows taken; 1 if a row taken had an alpha byte other than 255, else 0;
 * the kind, 0 for a picture and 1 for a plane; the lanes, 4 for a picture. A plane's layout is
 * JONQUILSAW_RGBA8 and its flag 0. The caller may read them, copy them and fill them: a record
 * that keeps the rules counts, whoever filled it. */
#define JONQUILSAW_RECORD_WORDS 14u

/* How many work values a job to a target of this width takes: two rows of so many lanes. The
 * second form is for a picture. */
#define JONQUILSAW_WORK_WORDS_OF(lanes, target_width) ((size_t)2 * (lanes) * (target_width))
#define JONQUILSAW_WORK_WORDS(target_width)                                                        \
    JONQUILSAW_WORK_WORDS_OF(JONQUILSAW_PIXEL_LANES, target_width)

/* The most jobs of a group: six. A seventh is JONQUILSAW_GROUP_TOO_LARGE. */
#define JONQUILSAW_GROUP_LIMIT 6u

/* How many words the plan of a group's job takes. In their order: source width and height; layout;
 * crop x, y, width and height; target width and height; the kind, 0 for a picture and 1 for a plane;
 * the lanes. A picture has 4 lanes, whatever the last word says, and a plane the layout
 * JONQUILSAW_RGBA8, whatever layout its third word names. */
#define JONQUILSAW_PLAN_WORDS 11u

/* How many words the record of a group of so many jobs takes: how many they are, then the words of
 * each job's record. Words after them are never read or written. */
#define JONQUILSAW_GROUP_WORDS(count) ((size_t)1 + (size_t)JONQUILSAW_RECORD_WORDS * (count))

/* The most bytes that the header of a PAM picture takes, as it is written here. */
#define JONQUILSAW_PAM_HEADER_MOST 73u

/* The order of the bytes of a picture's pixel. */
typedef enum jonquilsaw_layout {
    JONQUILSAW_RGBA8 = 0,
    JONQUILSAW_ARGB8 = 1,
    JONQUILSAW_BGRA8 = 2
} jonquilsaw_layout;

/* What a job scales. */
typedef enum jonquilsaw_kind {
    /* pixels, matted by their alpha as they come in and restored as they go out */
    JONQUILSAW_PICTURE = 0,
    /* lanes, scaled as they are */
    JONQUILSAW_PLANE = 1
} jonquilsaw_kind;

/* The numbers returned. */
typedef enum jonquilsaw_number {
    JONQUILSAW_OK = 0,
    /* a source or target side is 0 or above 16,384, or the crop is empty */
    JONQUILSAW_INVALID_DIMENSIONS = 1,
    /* the crop's right or bottom edge lies beyond the source */
    JONQUILSAW_CROP_OUT_OF_BOUNDS = 2,
    /* pixels not 4 x width x height bytes, those after a PAM header among them; an alpha plane not
     * width x height; offered bytes empty or no whole number of source rows */
    JONQUILSAW_PIXEL_BUFFER_MISMATCH = 3,
    /* an output buffer not of the exact length */
    JONQUILSAW_OUTPUT_LENGTH = 4,
    /* fewer than 2 x lanes x target width work values; of a group, than its jobs need together */
    JONQUILSAW_WORK_LENGTH = 5,
    /* a record that is none: too few words; a layout, flag or kind word that is none; sizes or counts
     * that no job can have; a picture of other than 4 lanes; a plane of other than 1 to 4 lanes, with
     * the flag set or with another layout than JONQUILSAW_RGBA8. A group's record: also jobs that
     * differ in rows accepted, and a group that a start would have refused with 13 or 14 */
    JONQUILSAW_INVALID_RECORD = 6,
    /* an offer while an output row is ready: take it first */
    JONQUILSAW_ROW_READY = 7,
    /* an offer with all source rows accepted */
    JONQUILSAW_ALL_ACCEPTED = 8,
    /* a take with no row ready */
    JONQUILSAW_NONE_READY = 9,
    /* a plane of no lanes, or of more than 4; tested straight after 1 */
    JONQUILSAW_INVALID_LANES = 10,
    /* a PAM header outside the form: another first line or word, a word missing or too many, a
     * number with a byte that is no digit, no line for width, height, depth or maximum or two of
     * them, or no end; tested before 1 */
    JONQUILSAW_PAM_MALFORMED = 11,
    /* a PAM header inside the form with a depth other than 4, a maximum other than 255, or not
     * exactly one tuple type, RGB_ALPHA; tested straight after 11 */
    JONQUILSAW_PAM_UNSUPPORTED = 12,
    /* a group of no jobs, or of jobs that differ in source size, layout, kind or lanes, tested
     * straight after 2; a take of a job that the group lacks, tested straight after 6 */
    JONQUILSAW_INVALID_GROUP = 13,
    /* a group of more than six jobs (JONQUILSAW_GROUP_LIMIT); tested straight after 13 */
    JONQUILSAW_GROUP_TOO_LARGE = 14,
    /* a badge of another size than its background; tested straight after 3 */
    JONQUILSAW_UNEQUAL_SIZES = 15,
    /* a background with an alpha byte other than 255; tested straight after 15 */
    JONQUILSAW_BACKGROUND_NOT_OPAQUE = 16,
    /* an empty stretch, one that is not exactly the rows of the next band, or any where there is no
     * band: rows above the crop are still due, the last preview row is made, or the height grows;
     * tested straight after 6 */
    JONQUILSAW_INVALID_BAND = 17,
    /* a layout argument that is none, or a slice for the answer that is too short; of a group's plans
     * too few words, or a layout or kind word that is none; tested before all others */
    JONQUILSAW_BOUNDARY = 100
} jonquilsaw_number;

/* Starts a picture's job: the crop of a source, scaled to a target. Writes the fresh record to the
 * first 14 of the record's words and clears the first 8 x target width of the work values. Refuses
 * with 100 (fewer than 14 words of record, or a layout that is none), 1, 2, 5, in this order. */
uint32_t jonquilsaw_start(uint32_t source_width, uint32_t source_height, uint32_t layout,
                          uint32_t crop_x, uint32_t crop_y, uint32_t crop_width, uint32_t crop_height,
                          uint32_t target_width, uint32_t target_height, uint32_t *work,
                          size_t work_count, uint32_t *record, size_t record_count);

/* Starts a plane's job: the same for 1 to 4 lanes that are scaled as they are. A row has lanes x
 * width bytes, in the source and in the preview; the first 2 x lanes x target width of the work
 * values are cleared. Refuses with 100 (fewer than 14 words of record), 1, 10, 2, 5, in this
 * order. */
uint32_t jonquilsaw_start_plane(uint32_t source_width, uint32_t source_height, uint32_t lanes,
                                uint32_t crop_x, uint32_t crop_y, uint32_t crop_width,
                                uint32_t crop_height, uint32_t target_width, uint32_t target_height,
                                uint32_t *work, size_t work_count, uint32_t *record,
                                size_t record_count);

/* Starts three jobs for a picture of three planes of one lane each, uncropped: luma in the sizes
 * given, both chroma planes in half of them, rounded up, source and target alike. Writes three
 * records and clears the beginning of three work slices, 2 x the plane's target width of each; or
 * does nothing, where a number applies to any of the three. Refuses with 100 (fewer than 14 words
 * of a record), 1, 5, in this order, each of them looked for over all three before the next. */
uint32_t jonquilsaw_start_planes(uint32_t source_width, uint32_t source_height,
                                 uint32_t target_width, uint32_t target_height, uint32_t *luma_work,
                                 size_t luma_work_count, uint32_t *cb_work, size_t cb_work_count,
                                 uint32_t *cr_work, size_t cr_work_count, uint32_t *luma,
                                 size_t luma_count, uint32_t *cb, size_t cb_count, uint32_t *cr,
                                 size_t cr_count);

/* Offers one or more whole source rows to a job of either kind, from the first that was not accepted
 * yet; a row is lanes x source width bytes, 4 x for a picture. It stops at the first row that makes
 * a preview row ready, at the last row offered or at the source's last. Writes how many rows were
 * accepted, at least one, to the first word of count; offer the rest again after taking what is
 * ready. Moves the record and the work values on. Refuses with 100 (no word of count), 6, 3, 5, 7,
 * 8, in this order. */
uint32_t jonquilsaw_offer(uint32_t *record, size_t record_count, const uint8_t *rows,
                          size_t rows_count, uint32_t *work, size_t work_count, uint32_t *count,
                          size_t count_count);

/* Writes how many rows the next band of a job of either kind has to the first word of count: the
 * source rows from the next one due up to, but without, the one that makes the next preview row ready.
 * 0 where there is no band: that row is due itself, rows above the crop are still due, the last
 * preview row is made, or the height grows. Of a preview one row high it may be all of the crop but
 * its last row. Refuses with 100 (no word of count), 6, in this order. */
uint32_t jonquilsaw_band_count(const uint32_t *record, size_t record_count, uint32_t *count,
                               size_t count_count);

/* Offers exactly the rows of the next band, top row first, for a decoder that fills its buffer
 * bottom-up: they are added from last to first. Record, work values and count end as they do when the
 * same rows are offered with jonquilsaw_offer, by which the row after the band comes. Refuses with 100
 * (no word of count), 6, 17, 5, 7, 8, in this order. */
uint32_t jonquilsaw_band_offer(uint32_t *record, size_t record_count, const uint8_t *rows,
                               size_t rows_count, uint32_t *work, size_t work_count, uint32_t *count,
                               size_t count_count);

/* Takes the next preview row of a job of either kind: exactly lanes x target width bytes, 4 x for a
 * picture. Moves the record and the work values on. Refuses with 6, 4, 5, 9, in this order. */
uint32_t jonquilsaw_take(uint32_t *record, size_t record_count, uint8_t *out, size_t out_count,
                         uint32_t *work, size_t work_count);

/* Starts a group: count jobs over one source, all offered the same rows in one pass. Plans has the
 * words of each job's plan, one after another; of more than JONQUILSAW_GROUP_LIMIT only the first so
 * many are looked at. Each job is the one that jonquilsaw_start or jonquilsaw_start_plane would start;
 * they need the same source size, layout, kind and lanes. One slice of work values is cut among them
 * in the order given: the part of a job, 2 x lanes x target width values, starts where the part before
 * it ends. Writes the fresh record to the first JONQUILSAW_GROUP_WORDS(count) of the record's words
 * and clears all parts. Refuses with 100 (too few words of plans or of record for the jobs looked at,
 * or a layout or a kind of a plan that is none), 1, 10, 2, 13, 14, 5, in this order, each of them
 * looked for over all jobs before the next. */
uint32_t jonquilsaw_start_group(const uint32_t *plans, size_t plans_count, uint32_t count,
                                uint32_t *work, size_t work_count, uint32_t *record,
                                size_t record_count);

/* Offers one or more whole source rows to all jobs of a group, from the first that was not accepted
 * yet. It stops at the first row that makes a preview row of any job ready, at the last row offered or
 * at the source's last. Writes how many rows were accepted, at least one, to the first word of
 * accepted; offer the rest again after taking what is ready. Each job moves on as it would alone.
 * Refuses with 100 (no word of accepted), 6, 3, 5, 7 (a row of any job is ready), 8, in this order. */
uint32_t jonquilsaw_offer_group(uint32_t *record, size_t record_count, const uint8_t *rows,
                                size_t rows_count, uint32_t *work, size_t work_count,
                                uint32_t *accepted, size_t accepted_count);

/* Takes the next preview row of one job of a group, counted from 0: exactly lanes x its target width
 * bytes, those that it would hand out alone. Refuses with 6, 13 (there is no such job), 4, 5 (fewer
 * work values than all jobs need together), 9, in this order. */
uint32_t jonquilsaw_take_group(uint32_t *record, size_t record_count, uint32_t job, uint8_t *out,
                               size_t out_count, uint32_t *work, size_t work_count);

/* Copies the crop of a picture to out, exactly 4 x crop width x crop height bytes, and writes its
 * alpha flag, 0 or 1, to the first word of flag. Refuses with 100 (no word of flag, or a layout
 * that is none), 1, 2, 3, 4, in this order. */
uint32_t jonquilsaw_crop(uint32_t source_width, uint32_t source_height, uint32_t layout,
                         uint32_t crop_x, uint32_t crop_y, uint32_t crop_width, uint32_t crop_height,
                         const uint8_t *pixels, size_t pixels_count, uint8_t *out, size_t out_count,
                         uint32_t *flag, size_t flag_count);

/* Scales a whole picture to out, exactly 4 x target width x target height bytes, and writes its
 * alpha flag to the first word of flag: the same bytes as a picture's job with the full crop. The
 * work values end as that job's last take leaves them. Refuses with 100 (no word of flag, or a layout
 * that is none), 1, 3, 4, 5, in this order. */
uint32_t jonquilsaw_resize(uint32_t source_width, uint32_t source_height, uint32_t layout,
                           uint32_t target_width, uint32_t target_height, const uint8_t *pixels,
                           size_t pixels_count, uint8_t *out, size_t out_count, uint32_t *work,
                           size_t work_count, uint32_t *flag, size_t flag_count);

/* Writes the alpha flag of a picture to the first word of flag: 1 if any alpha byte isn't 255,
 * else 0. Refuses with 100 (no word of flag, or a layout that is none), 1, 3, in this order. */
uint32_t jonquilsaw_has_alpha(uint32_t width, uint32_t height, uint32_t layout, const uint8_t *pixels,
                              size_t pixels_count, uint32_t *flag, size_t flag_count);

/* Writes the plane's bytes, one for each pixel, to the alpha bytes of a picture and nothing else,
 * and the flag of the picture so made to the first word of flag. Refuses with 100 (no word of
 * flag, or a layout that is none), 1, 3, in this order. */
uint32_t jonquilsaw_apply_alpha_plane(uint32_t width, uint32_t height, uint32_t layout,
                                      uint8_t *pixels, size_t pixels_count, const uint8_t *plane,
                                      size_t plane_count, uint32_t *flag, size_t flag_count);

/* Lays a badge on an opaque background of the same size, in the background's place: where the badge's
 * alpha is 0 the background stays, where it is 255 the badge replaces it, and between those each
 * colour is the badge's matted by its alpha plus the background's matted by 255 less that alpha. The
 * result is opaque and has the background's layout; the badge may have another. Refuses with 100 (a
 * layout that is none), 1, 3, 15, 16, in this order, each of them looked for over both pictures
 * before the next. */
uint32_t jonquilsaw_badge_lay(uint32_t width, uint32_t height, uint32_t layout, uint8_t *pixels,
                              size_t pixels_count, uint32_t badge_width, uint32_t badge_height,
                              uint32_t badge_layout, const uint8_t *badge, size_t badge_count);

/* The size that a picture of width by height scales to, written to the first two words of size: a
 * target side of 0 is derived from the other so that the ratio is kept, rounded up. Refuses with
 * 100 (fewer than two words of size), 1 (both sides 0, or a side of 0 or above 16,384), in this
 * order. */
uint32_t jonquilsaw_scaled(uint32_t width, uint32_t height, uint32_t target_width,
                           uint32_t target_height, uint32_t *size, size_t size_count);

/* Packs pixels given as numbers 0xAARRGGBB to out, exactly 4 bytes for each. Refuses with 100 (a
 * layout that is none), 4, in this order. */
uint32_t jonquilsaw_pack_pixels(uint32_t layout, const uint32_t *argb, size_t argb_count,
                                uint8_t *out, size_t out_count);

/* Unpacks the pixels of bytes to argb as numbers 0xAARRGGBB, exactly bytes / 4 of them: 1 to 3
 * trailing bytes are ignored. Refuses with 100 (a layout that is none), 4, in this order. */
uint32_t jonquilsaw_unpack_pixels(uint32_t layout, const uint8_t *bytes, size_t bytes_count,
                                  uint32_t *argb, size_t argb_count);

/* Writes the alpha flag of pixels given as numbers 0xAARRGGBB to the first word of flag: 1 if any
 * alpha isn't 255, else 0. Refuses with 100 (no word of flag). */
uint32_t jonquilsaw_argb_has_alpha(const uint32_t *argb, size_t argb_count, uint32_t *flag,
                                   size_t flag_count);

/* Reads the header of a netpbm PAM picture: P7, then the lines WIDTH, HEIGHT, DEPTH 4, MAXVAL 255
 * and TUPLTYPE RGB_ALPHA in any order, comments among them, and ENDHDR. Writes to the first four
 * words of answer the width, the height, and the place in the input where the pixels begin, its low
 * word and its high one. What stands there and after it plays no part, so a beginning of a picture
 * that holds the header will do. Refuses with 100 (fewer than four words of answer), 11, 12, 1, in
 * this order. */
uint32_t jonquilsaw_read_pam_header(const uint8_t *input, size_t input_count, uint32_t *answer,
                                    size_t answer_count);

/* Writes to the first word of flag 1 if the input is the beginning of a header, so that the 11 of
 * jonquilsaw_read_pam_header may be another answer once more bytes have come: the first line is
 * there, no line is outside the form, and none is ENDHDR. Else 0. Refuses with 100 (no word of
 * flag). */
uint32_t jonquilsaw_pam_unfinished(const uint8_t *input, size_t input_count, uint32_t *flag,
                                   size_t flag_count);

/* Reads a whole PAM picture and writes width and height to the first two words of size. Its pixels,
 * in the order of JONQUILSAW_RGBA8, are the last 4 x width x height bytes of the input. Refuses with
 * 100 (fewer than two words of size), 11, 12, 1, 3 (pixel bytes are missing or too many), in this
 * order. */
uint32_t jonquilsaw_read_pam(const uint8_t *input, size_t input_count, uint32_t *size,
                             size_t size_count);

/* Writes the bytes of the header of a PAM picture to the first word of bytes, 65 to 73, or those of
 * the whole picture. Refuse with 100 (no word of bytes), 1, in this order. */
uint32_t jonquilsaw_pam_header_length(uint32_t width, uint32_t height, uint32_t *bytes,
                                      size_t bytes_count);
uint32_t jonquilsaw_pam_length(uint32_t width, uint32_t height, uint32_t *bytes,
                               size_t bytes_count);

/* Writes the header of a PAM picture to out, exactly as many bytes as it has: a program that writes
 * a picture row after row begins with it. Refuses with 1, 4, in this order. */
uint32_t jonquilsaw_write_pam_header(uint32_t width, uint32_t height, uint8_t *out,
                                     size_t out_count);

/* Writes a PAM picture of pixels in the order of JONQUILSAW_RGBA8 to out, exactly as many bytes as
 * it has: the header, its lines in the order above with single spaces, no leading zeros and no
 * comments, then the pixels. Read, it gives the same size and the same bytes. Refuses with 1, 3, 4,
 * in this order. */
uint32_t jonquilsaw_write_pam(uint32_t width, uint32_t height, const uint8_t *pixels,
                              size_t pixels_count, uint8_t *out, size_t out_count);

/* ---- the same with types: inline, over the functions above */

/* What a number means, in words without a full stop. */
static inline const char *jonquilsaw_meaning(uint32_t number) {
    switch (number) {
    case JONQUILSAW_OK: return "accepted";
    case JONQUILSAW_INVALID_DIMENSIONS: return "a side is 0 or above 16384, or the crop is empty";
    case JONQUILSAW_CROP_OUT_OF_BOUNDS: return "the crop reaches beyond the source";
    case JONQUILSAW_PIXEL_BUFFER_MISMATCH: return "the bytes do not fit the size";
    case JONQUILSAW_OUTPUT_LENGTH: return "the output buffer is not of the exact length";
    case JONQUILSAW_WORK_LENGTH: return "there are too few work values";
    case JONQUILSAW_INVALID_RECORD: return "no job can have this record";
    case JONQUILSAW_ROW_READY: return "a preview row is ready and has to be taken first";
    case JONQUILSAW_ALL_ACCEPTED: return "all source rows were accepted before";
    case JONQUILSAW_NONE_READY: return "no preview row is ready";
    case JONQUILSAW_INVALID_LANES: return "a plane has 1 to 4 lanes";
    case JONQUILSAW_PAM_MALFORMED: return "the PAM header is outside the form";
    case JONQUILSAW_PAM_UNSUPPORTED:
        return "the PAM picture is not of DEPTH 4, MAXVAL 255 and TUPLTYPE RGB_ALPHA";
    case JONQUILSAW_INVALID_GROUP: return "the jobs make no group, or it has no such job";
    case JONQUILSAW_GROUP_TOO_LARGE: return "there are more jobs than a group holds";
    case JONQUILSAW_UNEQUAL_SIZES: return "the badge has another size than the background";
    case JONQUILSAW_BACKGROUND_NOT_OPAQUE: return "the background is not opaque";
    case JONQUILSAW_INVALID_BAND: return "the bytes are not exactly the rows of the next band";
    case JONQUILSAW_BOUNDARY: return "a layout or kind is none, or a lent slice is too short";
    default: return "no number of this library";
    }
}

/* A size and a crop in pixels. Each has a type, so that the compiler sees one passed for the
 * other. */
typedef struct jonquilsaw_size {
    uint32_t width, height;
} jonquilsaw_size;

typedef struct jonquilsaw_rect {
    uint32_t x, y, width, height;
} jonquilsaw_rect;

/* What a picture's job scales to what. */
typedef struct jonquilsaw_plan {
    jonquilsaw_size source;
    jonquilsaw_layout layout;
    jonquilsaw_rect crop;
    jonquilsaw_size target;
} jonquilsaw_plan;

/* What a plane's job scales to what. */
typedef struct jonquilsaw_plane_plan {
    jonquilsaw_size source;
    uint32_t lanes;
    jonquilsaw_rect crop;
    jonquilsaw_size target;
} jonquilsaw_plane_plan;

/* A job's record: the words of JONQUILSAW_RECORD_WORDS. */
typedef struct jonquilsaw_job {
    uint32_t words[JONQUILSAW_RECORD_WORDS];
} jonquilsaw_job;

/* The jobs of a picture of three planes, each offered and taken by itself. */
typedef struct jonquilsaw_planes {
    jonquilsaw_job luma, cb, cr;
} jonquilsaw_planes;

/* A group's record: the words of JONQUILSAW_GROUP_WORDS, with room for as many jobs as a group may
 * have. */
typedef struct jonquilsaw_group {
    uint32_t words[JONQUILSAW_GROUP_WORDS(JONQUILSAW_GROUP_LIMIT)];
} jonquilsaw_group;

/* The crop that is all of a picture or a plane. */
static inline jonquilsaw_rect jonquilsaw_whole(jonquilsaw_size size) {
    jonquilsaw_rect rect = {0, 0, size.width, size.height};
    return rect;
}

/* The size of the chroma planes beside a luma plane of this size: half of each side, rounded up. */
static inline jonquilsaw_size jonquilsaw_size_chroma(jonquilsaw_size size) {
    /* side + 1 would wrap at the largest */
    jonquilsaw_size half = {size.width / 2 + size.width % 2, size.height / 2 + size.height % 2};
    return half;
}

/* jonquilsaw_scaled. */
static inline uint32_t jonquilsaw_size_scaled(jonquilsaw_size size, uint32_t target_width,
                                              uint32_t target_height, jonquilsaw_size *target) {
    uint32_t sides[2] = {0, 0};
    uint32_t number =
        jonquilsaw_scaled(size.width, size.height, target_width, target_height, sides, 2);
    if (number == JONQUILSAW_OK) {
        target->width = sides[0];
        target->height = sides[1];
    }
    return number;
}

/* jonquilsaw_start. */
static inline uint32_t jonquilsaw_job_start(jonquilsaw_job *job, const jonquilsaw_plan *plan,
                                            uint32_t *work, size_t work_count) {
    return jonquilsaw_start(plan->source.width, plan->source.height, plan->layout,
                            plan->crop.x, plan->crop.y, plan->crop.width, plan->crop.height,
                            plan->target.width, plan->target.height, work, work_count, job->words,
                            JONQUILSAW_RECORD_WORDS);
}

/* jonquilsaw_start_plane. */
static inline uint32_t jonquilsaw_job_start_plane(jonquilsaw_job *job,
                                                  const jonquilsaw_plane_plan *plan, uint32_t *work,
                                                  size_t work_count) {
    return jonquilsaw_start_plane(plan->source.width, plan->source.height, plan->lanes, plan->crop.x,
                                  plan->crop.y, plan->crop.width, plan->crop.height,
                                  plan->target.width, plan->target.height, work, work_count,
                                  job->words, JONQUILSAW_RECORD_WORDS);
}

/* jonquilsaw_start_planes. The sizes are luma's; jonquilsaw_size_chroma has those of cb and cr. */
static inline uint32_t jonquilsaw_planes_start(jonquilsaw_planes *planes, jonquilsaw_size source,
                                               jonquilsaw_size target, uint32_t *luma_work,
                                               size_t luma_work_count, uint32_t *cb_work,
                                               size_t cb_work_count, uint32_t *cr_work,
                                               size_t cr_work_count) {
    return jonquilsaw_start_planes(source.width, source.height, target.width, target.height,
                                   luma_work, luma_work_count, cb_work, cb_work_count, cr_work,
                                   cr_work_count, planes->luma.words, JONQUILSAW_RECORD_WORDS,
                                   planes->cb.words, JONQUILSAW_RECORD_WORDS, planes->cr.words,
                                   JONQUILSAW_RECORD_WORDS);
}

/* jonquilsaw_offer; accepted becomes the number of rows accepted. */
static inline uint32_t jonquilsaw_job_offer(jonquilsaw_job *job, const uint8_t *rows,
                                            size_t rows_count, uint32_t *work, size_t work_count,
                                            uint32_t *accepted) {
    return jonquilsaw_offer(job->words, JONQUILSAW_RECORD_WORDS, rows, rows_count, work, work_count,
                            accepted, 1);
}

/* jonquilsaw_take. */
static inline uint32_t jonquilsaw_job_take(jonquilsaw_job *job, uint8_t *out, size_t out_count,
                                           uint32_t *work, size_t work_count) {
    return jonquilsaw_take(job->words, JONQUILSAW_RECORD_WORDS, out, out_count, work, work_count);
}

/* Source rows accepted, preview rows taken, and 1 if a row that a picture's job handed out had an
 * alpha byte other than 255. */
static inline uint32_t jonquilsaw_job_accepted(const jonquilsaw_job *job) { return job->words[9]; }
static inline uint32_t jonquilsaw_job_taken(const jonquilsaw_job *job) { return job->words[10]; }
static inline uint32_t jonquilsaw_job_has_alpha(const jonquilsaw_job *job) { return job->words[11]; }

/* The kind and the lanes; the bytes of a source row and of a preview row. */
static inline jonquilsaw_kind jonquilsaw_job_kind(const jonquilsaw_job *job) {
    return job->words[12] == JONQUILSAW_PLANE ? JONQUILSAW_PLANE : JONQUILSAW_PICTURE;
}
static inline uint32_t jonquilsaw_job_lanes(const jonquilsaw_job *job) { return job->words[13]; }
static inline size_t jonquilsaw_job_row_bytes(const jonquilsaw_job *job) {
    return (size_t)job->words[13] * job->words[0];
}
static inline size_t jonquilsaw_job_out_bytes(const jonquilsaw_job *job) {
    return (size_t)job->words[13] * job->words[7];
}

/* One plan's words, at the beginning of words. */
static inline void jonquilsaw_plan_words(uint32_t *words, jonquilsaw_size source, uint32_t layout,
                                         jonquilsaw_rect crop, jonquilsaw_size target, uint32_t kind,
                                         uint32_t lanes) {
    const uint32_t plan[JONQUILSAW_PLAN_WORDS] = {source.width, source.height, layout,
                                                  crop.x,       crop.y,        crop.width,
                                                  crop.height,  target.width,  target.height,
                                                  kind,         lanes};
    for (uint32_t i = 0; i < JONQUILSAW_PLAN_WORDS; i++) words[i] = plan[i];
}

/* jonquilsaw_start_group, of pictures. The work values needed are the sum of
 * JONQUILSAW_WORK_WORDS(plans[i].target.width). */
static inline uint32_t jonquilsaw_group_start(jonquilsaw_group *group, const jonquilsaw_plan *plans,
                                              uint32_t count, uint32_t *work, size_t work_count) {
    uint32_t words[JONQUILSAW_PLAN_WORDS * JONQUILSAW_GROUP_LIMIT];
    for (uint32_t i = 0; i < count && i < JONQUILSAW_GROUP_LIMIT; i++)
        jonquilsaw_plan_words(words + JONQUILSAW_PLAN_WORDS * i, plans[i].source, plans[i].layout,
                              plans[i].crop, plans[i].target, JONQUILSAW_PICTURE,
                              JONQUILSAW_PIXEL_LANES);
    return jonquilsaw_start_group(words, sizeof words / sizeof *words, count, work, work_count,
                                  group->words, sizeof group->words / sizeof *group->words);
}

/* The same of planes: the sum of JONQUILSAW_WORK_WORDS_OF(lanes, plans[i].target.width). */
static inline uint32_t jonquilsaw_group_start_planes(jonquilsaw_group *group,
                                                     const jonquilsaw_plane_plan *plans,
                                                     uint32_t count, uint32_t *work,
                                                     size_t work_count) {
    uint32_t words[JONQUILSAW_PLAN_WORDS * JONQUILSAW_GROUP_LIMIT];
    for (uint32_t i = 0; i < count && i < JONQUILSAW_GROUP_LIMIT; i++)
        jonquilsaw_plan_words(words + JONQUILSAW_PLAN_WORDS * i, plans[i].source, JONQUILSAW_RGBA8,
                              plans[i].crop, plans[i].target, JONQUILSAW_PLANE, plans[i].lanes);
    return jonquilsaw_start_group(words, sizeof words / sizeof *words, count, work, work_count,
                                  group->words, sizeof group->words / sizeof *group->words);
}

/* jonquilsaw_offer_group; accepted becomes the number of rows accepted. */
static inline uint32_t jonquilsaw_group_offer(jonquilsaw_group *group, const uint8_t *rows,
                                              size_t rows_count, uint32_t *work, size_t work_count,
                                              uint32_t *accepted) {
    return jonquilsaw_offer_group(group->words, sizeof group->words / sizeof *group->words, rows,
                                  rows_count, work, work_count, accepted, 1);
}

/* jonquilsaw_take_group. */
static inline uint32_t jonquilsaw_group_take(jonquilsaw_group *group, uint32_t job, uint8_t *out,
                                             size_t out_count, uint32_t *work, size_t work_count) {
    return jonquilsaw_take_group(group->words, sizeof group->words / sizeof *group->words, job, out,
                                 out_count, work, work_count);
}

/* How many jobs, and the record of one of them: job is below jonquilsaw_group_count. */
static inline uint32_t jonquilsaw_group_count(const jonquilsaw_group *group) {
    return group->words[0];
}
static inline jonquilsaw_job jonquilsaw_group_job(const jonquilsaw_group *group, uint32_t job) {
    jonquilsaw_job record;
    for (uint32_t i = 0; i < JONQUILSAW_RECORD_WORDS; i++)
        record.words[i] = group->words[JONQUILSAW_GROUP_WORDS(job) + i];
    return record;
}

/* jonquilsaw_crop. */
static inline uint32_t jonquilsaw_picture_crop(jonquilsaw_size source, jonquilsaw_layout layout,
                                               const uint8_t *pixels, size_t pixels_count,
                                               jonquilsaw_rect crop, uint8_t *out, size_t out_count,
                                               uint32_t *flag) {
    return jonquilsaw_crop(source.width, source.height, layout, crop.x, crop.y, crop.width,
                           crop.height, pixels, pixels_count, out, out_count, flag, 1);
}

/* jonquilsaw_resize. Each size stands beside its buffer: exchanged, they do not fit. */
static inline uint32_t jonquilsaw_picture_resize(jonquilsaw_size source, jonquilsaw_layout layout,
                                                 const uint8_t *pixels, size_t pixels_count,
                                                 jonquilsaw_size target, uint8_t *out,
                                                 size_t out_count, uint32_t *work, size_t work_count,
                                                 uint32_t *flag) {
    return jonquilsaw_resize(source.width, source.height, layout, target.width,
                             target.height, pixels, pixels_count, out, out_count, work, work_count,
                             flag, 1);
}

/* jonquilsaw_read_pam_header; start becomes the place in the input where the pixels begin. */
static inline uint32_t jonquilsaw_pam_read_header(const uint8_t *input, size_t input_count,
                                                  jonquilsaw_size *size, size_t *start) {
    uint32_t words[4] = {0, 0, 0, 0};
    uint32_t number = jonquilsaw_read_pam_header(input, input_count, words, 4);
    if (number == JONQUILSAW_OK) {
        size->width = words[0];
        size->height = words[1];
        *start = (size_t)((uint64_t)words[3] << 32 | words[2]);
    }
    return number;
}

/* jonquilsaw_read_pam; pixels becomes the part of the input that they are. */
static inline uint32_t jonquilsaw_pam_read(const uint8_t *input, size_t input_count,
                                           jonquilsaw_size *size, const uint8_t **pixels) {
    uint32_t sides[2] = {0, 0};
    uint32_t number = jonquilsaw_read_pam(input, input_count, sides, 2);
    if (number == JONQUILSAW_OK) {
        size->width = sides[0];
        size->height = sides[1];
        *pixels = input + (input_count - (size_t)4 * sides[0] * sides[1]);
    }
    return number;
}

/* jonquilsaw_write_pam_header to the beginning of out, which has room for
 * JONQUILSAW_PAM_HEADER_MOST bytes; count becomes how many it took. */
static inline uint32_t jonquilsaw_pam_write_header(jonquilsaw_size size, uint8_t *out,
                                                   size_t *count) {
    uint32_t bytes = 0;
    uint32_t number = jonquilsaw_pam_header_length(size.width, size.height, &bytes, 1);
    if (number == JONQUILSAW_OK) {
        *count = bytes;
        number = jonquilsaw_write_pam_header(size.width, size.height, out, bytes);
    }
    return number;
}

#ifdef __cplusplus
}
#endif

#endif
