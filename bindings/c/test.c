/* Calls every function of include/jonquilsaw.h: the trials of docs/SCOPE.md, planes, restored pixels and badges against its formulas, PAM pictures, groups against their
 * jobs alone, bands against offers, each refusal in its order, and that a refused call leaves every buffer as it was.
 * Every buffer is lent with a page behind it that cannot be touched, since the sanitizers look at this file only. Prints one line. */
#define _DEFAULT_SOURCE
#include "jonquilsaw.h"

#include <stdio.h>
#include <stdlib.h>
#include <string.h>
#include <sys/mman.h>
#include <unistd.h>

static unsigned long checks, failures;

static void expect(int held, const char *what, int line) {
    checks++;
    if (!held) {
        failures++;
        fprintf(stderr, "bindings/c/test.c:%d: %s\n", line, what);
    }
}
#define EXPECT(fact) expect((fact) != 0, #fact, __LINE__)

/* Bytes that end where a page begins that cannot be touched. */
static void *lent(size_t bytes) {
    size_t page = (size_t)sysconf(_SC_PAGESIZE);
    size_t room = (bytes + page - 1) / page * page;
    uint8_t *at = mmap(NULL, room + page, PROT_READ | PROT_WRITE, MAP_PRIVATE | MAP_ANONYMOUS, -1, 0);
    if (at == MAP_FAILED || mprotect(at + room, page, PROT_NONE) != 0) {
        perror("mmap");
        exit(2);
    }
    return at + (room - bytes);
}

static void give_back(void *at, size_t bytes) {
    size_t page = (size_t)sysconf(_SC_PAGESIZE);
    size_t room = (bytes + page - 1) / page * page;
    if (munmap((uint8_t *)at + bytes - room, room + page) != 0) {
        perror("munmap");
        exit(2);
    }
}

static uint8_t *bytes_of(size_t n, uint8_t fill) {
    uint8_t *at = lent(n);
    memset(at, fill, n);
    return at;
}

static uint32_t *words_of(size_t n, uint32_t fill) {
    uint32_t *at = lent(4 * n);
    for (size_t i = 0; i < n; i++) at[i] = fill;
    return at;
}

static int all(const uint8_t *at, size_t n, uint8_t value) {
    for (size_t i = 0; i < n; i++)
        if (at[i] != value) return 0;
    return 1;
}

static int words_all(const uint32_t *at, size_t n, uint32_t value) {
    for (size_t i = 0; i < n; i++)
        if (at[i] != value) return 0;
    return 1;
}

/* Where the layouts have red, green, blue and alpha. */
static const int places[3][4] = {{0, 1, 2, 3}, {1, 2, 3, 0}, {2, 1, 0, 3}};

static void put(uint8_t *pixel, uint32_t layout, uint8_t r, uint8_t g, uint8_t b, uint8_t a) {
    pixel[places[layout][0]] = r;
    pixel[places[layout][1]] = g;
    pixel[places[layout][2]] = b;
    pixel[places[layout][3]] = a;
}

/* A picture scaled by a job that is offered one row at a time; its last work values are left in work. */
static void by_job(uint32_t w, uint32_t h, uint32_t layout, uint32_t m, uint32_t g, const uint8_t *pixels, uint8_t *out, uint32_t *work, uint32_t *flag) {
    uint32_t record[JONQUILSAW_RECORD_WORDS], count = 0, taken = 0;
    EXPECT(jonquilsaw_start(w, h, layout, 0, 0, w, h, m, g, work, JONQUILSAW_WORK_WORDS(m), record, JONQUILSAW_RECORD_WORDS) == 0);
    for (uint32_t k = 0; k < h; k++) {
        EXPECT(jonquilsaw_offer(record, 14, pixels + (size_t)4 * w * k, (size_t)4 * w, work, JONQUILSAW_WORK_WORDS(m), &count, 1) == 0);
        EXPECT(count == 1);
        while (jonquilsaw_take(record, 14, out + (size_t)4 * m * taken, (size_t)4 * m, work, JONQUILSAW_WORK_WORDS(m)) == 0) taken++;
    }
    EXPECT(taken == g);
    *flag = record[11];
}

/* Both ways of scaling give out; the pictures are of one lane value each, opaque, in all three layouts. */
static void trial(uint32_t w, uint32_t h, uint32_t m, uint32_t g, const uint8_t *lanes, const uint8_t *wanted) {
    for (uint32_t layout = 0; layout < 3; layout++) {
        size_t n = (size_t)4 * w * h, o = (size_t)4 * m * g, v = JONQUILSAW_WORK_WORDS(m);
        uint8_t *pixels = bytes_of(n, 0), *want = bytes_of(o, 0), *out = bytes_of(o, 1), *again = bytes_of(o, 2);
        uint32_t *work = words_of(v, 3), *work_again = words_of(v, 4), flag = 9, flag_again = 8;
        for (uint32_t i = 0; i < w * h; i++) put(pixels + 4 * i, layout, lanes[i], lanes[i], lanes[i], 255);
        for (uint32_t i = 0; i < m * g; i++) put(want + 4 * i, layout, wanted[2 * i], wanted[2 * i], wanted[2 * i], wanted[2 * i + 1]);
        EXPECT(jonquilsaw_resize(w, h, layout, m, g, pixels, n, out, o, work, v, &flag, 1) == 0);
        EXPECT(memcmp(out, want, o) == 0);
        by_job(w, h, layout, m, g, pixels, again, work_again, &flag_again);
        EXPECT(memcmp(again, want, o) == 0);
        EXPECT(memcmp(work, work_again, 4 * v) == 0);
        EXPECT(flag == flag_again && flag <= 1);
    }
}

static void trials(void) {
    trial(2, 1, 1, 1, (const uint8_t[]){10, 20}, (const uint8_t[]){15, 255});
    trial(2, 1, 1, 1, (const uint8_t[]){10, 21}, (const uint8_t[]){16, 255});
    trial(2, 1, 3, 1, (const uint8_t[]){10, 21}, (const uint8_t[]){10, 255, 16, 255, 21, 255});
    trial(3, 1, 2, 1, (const uint8_t[]){10, 21, 30}, (const uint8_t[]){14, 255, 27, 255});
    trial(1, 6, 1, 5, (const uint8_t[]){255, 255, 255, 255, 255, 255}, (const uint8_t[]){255, 255, 255, 255, 255, 255, 255, 255, 255, 254});
    trial(1, 1, 1, 2, (const uint8_t[]){77}, (const uint8_t[]){77, 255, 77, 255});
    trial(1, 1, 2, 1, (const uint8_t[]){77}, (const uint8_t[]){77, 255, 77, 255});

    /* colour 200 with alpha 128 is matted to 100 and restored to 199: equal sizes are no copy */
    uint8_t *in = bytes_of(4, 200), *out = bytes_of(4, 0);
    uint32_t *work = words_of(8, 0), flag = 7;
    in[3] = 128;
    EXPECT(jonquilsaw_resize(1, 1, JONQUILSAW_RGBA8, 1, 1, in, 4, out, 4, work, 8, &flag, 1) == 0);
    EXPECT(out[0] == 199 && out[1] == 199 && out[2] == 199 && out[3] == 128 && flag == 1);
}

/* A divider, one column made taller: it does not vanish, and opaque it stays opaque. */
static void dividers(void) {
    trial(1, 1, 2, 3, (const uint8_t[]){9}, (const uint8_t[]){9, 255, 9, 255, 9, 255, 9, 255, 9, 255, 9, 255});
    /* 10 over 21: row 1 of 3 is half of each, 15.5, which is rounded up; of 4 rows, 13.7 and 17.3 */
    trial(1, 2, 1, 3, (const uint8_t[]){10, 21}, (const uint8_t[]){10, 255, 16, 255, 21, 255});
    trial(1, 2, 1, 4, (const uint8_t[]){10, 21}, (const uint8_t[]){10, 255, 14, 255, 17, 255, 21, 255});

    /* colour 200 with alpha 128, matted to 100 and restored to 199; then two that differ in alpha alone, 128 and 0: half way it is 64, and the colour 199 */
    uint8_t *in = bytes_of(8, 200), *out = bytes_of(12, 0);
    uint32_t *work = words_of(8, 0), flag = 7;
    in[3] = 128;
    in[7] = 0;
    EXPECT(jonquilsaw_resize(1, 1, JONQUILSAW_RGBA8, 1, 2, in, 4, out, 8, work, 8, &flag, 1) == 0);
    EXPECT(memcmp(out, (const uint8_t[]){199, 199, 199, 128, 199, 199, 199, 128}, 8) == 0 && flag == 1);
    EXPECT(jonquilsaw_resize(1, 2, JONQUILSAW_RGBA8, 1, 3, in, 8, out, 12, work, 8, &flag, 1) == 0);
    EXPECT(memcmp(out, (const uint8_t[]){199, 199, 199, 128, 199, 199, 199, 64, 0, 0, 0, 0}, 12) == 0 && flag == 1);

    /* the largest height: from the first pixel to the last, nowhere more than half a level off the exact mean */
    enum { HEIGHT = 16384, STEPS = HEIGHT - 1 };
    uint8_t *ends = bytes_of(8, 255), *tall = bytes_of((size_t)4 * HEIGHT, 0);
    ends[0] = 10;
    ends[4] = 21;
    EXPECT(jonquilsaw_resize(1, 2, JONQUILSAW_RGBA8, 1, HEIGHT, ends, 8, tall, (size_t)4 * HEIGHT, work, 8, &flag, 1) == 0);
    EXPECT(flag == 0 && tall[0] == 10 && tall[4 * STEPS] == 21);
    int off = 0;
    for (int y = 0; y < HEIGHT; y++) {
        const int far = tall[4 * y] * STEPS - (10 * (STEPS - y) + 21 * y);
        off += 2 * far > STEPS || 2 * far < -STEPS || tall[4 * y + 1] != 255 || tall[4 * y + 3] != 255;
    }
    EXPECT(off == 0);

    /* work values that the caller filled: j is cut at 255 */
    const uint32_t filled[] = {0, 254, 255, 256, 511, 0x7fffffff, 0x80000000, 0x80000001, 0xffffffff};
    uint32_t *record = words_of(14, 0), *two = words_of(2, 0), count = 0;
    for (size_t i = 0; i < sizeof filled / sizeof *filled; i++) {
        EXPECT(jonquilsaw_start_plane(1, 2, 1, 0, 0, 1, 2, 1, 3, two, 2, record, 14) == 0);
        EXPECT(jonquilsaw_offer(record, 14, in, 1, two, 2, &count, 1) == 0);
        two[1] = filled[i];
        EXPECT(jonquilsaw_take(record, 14, out, 1, two, 2) == 0 && out[0] == (filled[i] < 255 ? filled[i] : 255));
        EXPECT(jonquilsaw_offer(record, 14, in, 1, two, 2, &count, 1) == 0);
        two[0] = two[1] = filled[i];
        EXPECT(jonquilsaw_take(record, 14, out, 1, two, 2) == 0 && out[0] == (filled[i] < 255 ? filled[i] : 255));
    }
}

/* White strips of 16,384 by 1,028 and 1,029 to one pixel: the last one's sums wrap. */
static void strips(void) {
    size_t row = (size_t)4 * 16384;
    uint8_t *white = bytes_of(row, 255), *out = bytes_of(4, 7);
    uint32_t *work = words_of(8, 0), *record = words_of(14, 0), count;
    for (uint32_t h = 1028; h <= 1029; h++) {
        EXPECT(jonquilsaw_start(16384, h, 0, 0, 0, 16384, h, 1, 1, work, 8, record, 14) == 0);
        for (uint32_t k = 0; k < h; k++)
            if (jonquilsaw_offer(record, 14, white, row, work, 8, &count, 1) != 0) failures++;
        EXPECT(jonquilsaw_take(record, 14, out, 4, work, 8) == 0);
        EXPECT(all(out, 4, h == 1028 ? 255 : 0));
        EXPECT(record[11] == (h == 1028 ? 0u : 1u));
    }
}

/* Preview rows ready after each source row, counted by takes. */
static void schedule(uint32_t h, uint32_t g, const uint32_t *made) {
    uint8_t *row = bytes_of(4, 255), *out = bytes_of(4, 0);
    uint32_t *work = words_of(8, 0), *record = words_of(14, 0), count = 0, taken = 0;
    EXPECT(jonquilsaw_start(1, h, 0, 0, 0, 1, h, 1, g, work, 8, record, 14) == 0);
    for (uint32_t k = 0; k <= h; k++) {
        while (jonquilsaw_take(record, 14, out, 4, work, 8) == 0) taken++;
        EXPECT(taken == made[k]);
        EXPECT(record[9] == k && record[10] == taken);
        if (k < h) EXPECT(jonquilsaw_offer(record, 14, row, 4, work, 8, &count, 1) == 0 && count == 1);
    }
    EXPECT(jonquilsaw_offer(record, 14, row, 4, work, 8, &count, 1) == JONQUILSAW_ALL_ACCEPTED);
}

static void starts(void) {
    uint32_t *work = words_of(20, 5), *record = words_of(16, 6);
    const uint32_t fresh[14] = {5, 4, 2, 1, 2, 3, 2, 2, 7, 0, 0, 0, JONQUILSAW_PICTURE, JONQUILSAW_PIXEL_LANES};
    /* refused, each ahead of the next in the order; nothing is written */
    EXPECT(jonquilsaw_start(0, 4, 3, 9, 9, 9, 9, 2, 7, work, 0, record, 16) == JONQUILSAW_BOUNDARY);
    EXPECT(jonquilsaw_start(0, 4, 2, 9, 9, 9, 9, 2, 7, work, 0, record, 13) == JONQUILSAW_BOUNDARY);
    EXPECT(jonquilsaw_start(0, 4, 2, 9, 9, 9, 9, 2, 7, work, 0, record, 14) == JONQUILSAW_INVALID_DIMENSIONS);
    EXPECT(jonquilsaw_start(5, 4, 2, 1, 2, 0, 2, 2, 7, work, 0, record, 14) == JONQUILSAW_INVALID_DIMENSIONS);
    EXPECT(jonquilsaw_start(5, 4, 2, 1, 2, 3, 2, 16385, 7, work, 0, record, 14) == JONQUILSAW_INVALID_DIMENSIONS);
    EXPECT(jonquilsaw_start(5, 4, 2, 4294967295u, 2, 1, 2, 2, 7, work, 0, record, 14) == JONQUILSAW_CROP_OUT_OF_BOUNDS);
    EXPECT(jonquilsaw_start(5, 4, 2, 1, 2, 3, 2, 2, 7, work, 15, record, 14) == JONQUILSAW_WORK_LENGTH);
    EXPECT(words_all(work, 20, 5) && words_all(record, 16, 6));
    /* accepted: fourteen words and sixteen work values, no more */
    EXPECT(jonquilsaw_start(5, 4, 2, 1, 2, 3, 2, 2, 7, work, 20, record, 16) == 0);
    EXPECT(memcmp(record, fresh, sizeof fresh) == 0 && words_all(record + 14, 2, 6));
    EXPECT(words_all(work, 16, 0) && words_all(work + 16, 4, 5));
}

/* The refusals of offer and take in their order, and what they move on, of a 2 by 6 picture of bytes 100 to 1 by 4. */
static void offers_and_takes(void) {
    uint8_t *rows = bytes_of(48, 100), *out = bytes_of(4, 9), *kept_rows = bytes_of(48, 100);
    uint32_t *work = words_of(10, 3), *record = words_of(15, 4), *count = words_of(2, 8);
    uint32_t *kept_work = words_of(10, 0), *kept_record = words_of(15, 0);
    EXPECT(jonquilsaw_start(2, 6, 0, 0, 0, 2, 6, 1, 4, work, 10, record, 15) == 0);
    memcpy(kept_work, work, 40);
    memcpy(kept_record, record, 60);
#define KEPT (memcmp(work, kept_work, 40) == 0 && memcmp(record, kept_record, 60) == 0 && words_all(count, 2, 8) && all(out, 4, 9) && memcmp(rows, kept_rows, 48) == 0)
    EXPECT(jonquilsaw_offer(record, 13, rows, 0, work, 0, count, 0) == JONQUILSAW_BOUNDARY && KEPT);
    EXPECT(jonquilsaw_offer(record, 13, rows, 0, work, 0, count, 1) == JONQUILSAW_INVALID_RECORD && KEPT);
    EXPECT(jonquilsaw_take(record, 13, out, 0, work, 0) == JONQUILSAW_INVALID_RECORD && KEPT);
    /* words that make no record: the layout, the flag, a flag before the first row, a row taken too soon, too many rows, an empty crop, the kind, the lanes */
    const struct {
        int place;
        uint32_t word;
    } wrong[] = {{2, 3}, {2, 4294967295u}, {11, 2}, {11, 1}, {10, 1}, {9, 7}, {5, 0}, {0, 16385}, {3, 1}, {12, 2}, {13, 3}, {13, 5}};
    for (size_t i = 0; i < sizeof wrong / sizeof *wrong; i++) {
        uint32_t right = record[wrong[i].place];
        record[wrong[i].place] = kept_record[wrong[i].place] = wrong[i].word;
        EXPECT(jonquilsaw_offer(record, 15, rows, 0, work, 0, count, 1) == JONQUILSAW_INVALID_RECORD && KEPT);
        EXPECT(jonquilsaw_take(record, 15, out, 0, work, 0) == JONQUILSAW_INVALID_RECORD && KEPT);
        record[wrong[i].place] = kept_record[wrong[i].place] = right;
    }
    EXPECT(jonquilsaw_offer(record, 15, rows, 0, work, 0, count, 1) == JONQUILSAW_PIXEL_BUFFER_MISMATCH && KEPT);
    EXPECT(jonquilsaw_offer(record, 15, NULL, 0, work, 10, count, 1) == JONQUILSAW_PIXEL_BUFFER_MISMATCH && KEPT);
    EXPECT(jonquilsaw_offer(record, 15, rows, 12, work, 0, count, 1) == JONQUILSAW_PIXEL_BUFFER_MISMATCH && KEPT);
    EXPECT(jonquilsaw_offer(record, 15, rows, 8, work, 7, count, 1) == JONQUILSAW_WORK_LENGTH && KEPT);
    EXPECT(jonquilsaw_take(record, 15, out, 3, work, 7) == JONQUILSAW_OUTPUT_LENGTH && KEPT);
    EXPECT(jonquilsaw_take(record, 15, out, 4, work, 7) == JONQUILSAW_WORK_LENGTH && KEPT);
    EXPECT(jonquilsaw_take(record, 15, out, 4, work, 10) == JONQUILSAW_NONE_READY && KEPT);
    /* all six rows lent: the second makes a row ready */
    EXPECT(jonquilsaw_offer(record, 15, rows, 48, work, 10, count, 2) == 0);
    EXPECT(count[0] == 2 && count[1] == 8 && record[9] == 2 && record[10] == 0 && record[14] == 4);
    EXPECT(memcmp(record, kept_record, 36) == 0 && memcmp(rows, kept_rows, 48) == 0);
    EXPECT(work[8] == 3 && work[9] == 3);
    memcpy(kept_work, work, 40);
    memcpy(kept_record, record, 60);
    count[0] = 8;
    EXPECT(jonquilsaw_offer(record, 15, rows, 8, work, 7, count, 1) == JONQUILSAW_WORK_LENGTH && KEPT);
    EXPECT(jonquilsaw_offer(record, 15, rows, 8, work, 10, count, 1) == JONQUILSAW_ROW_READY && KEPT);
    EXPECT(jonquilsaw_take(record, 15, out, 4, work, 10) == 0);
    EXPECT(out[0] == 99 && out[1] == 99 && out[2] == 99 && out[3] == 100);
    EXPECT(record[10] == 1 && record[11] == 1 && record[14] == 4 && work[8] == 3 && work[9] == 3);
#undef KEPT
}

static void pictures(void) {
    for (uint32_t layout = 0; layout < 3; layout++) {
        uint8_t *pixels = bytes_of(36, 0), *out = bytes_of(16, 9), *plane = bytes_of(9, 255);
        uint32_t *flag = words_of(2, 7);
        for (int i = 0; i < 9; i++) put(pixels + 4 * i, layout, (uint8_t)(10 * i), (uint8_t)(10 * i + 1), (uint8_t)(10 * i + 2), i == 0 ? 254 : 255);
        /* the flag of a picture */
        EXPECT(jonquilsaw_has_alpha(0, 3, 3, pixels, 1, flag, 2) == JONQUILSAW_BOUNDARY && words_all(flag, 2, 7));
        EXPECT(jonquilsaw_has_alpha(0, 3, layout, pixels, 1, flag, 0) == JONQUILSAW_BOUNDARY && words_all(flag, 2, 7));
        EXPECT(jonquilsaw_has_alpha(0, 3, layout, pixels, 1, flag, 2) == JONQUILSAW_INVALID_DIMENSIONS && words_all(flag, 2, 7));
        EXPECT(jonquilsaw_has_alpha(3, 3, layout, pixels, 35, flag, 2) == JONQUILSAW_PIXEL_BUFFER_MISMATCH && words_all(flag, 2, 7));
        EXPECT(jonquilsaw_has_alpha(3, 3, layout, pixels, 36, flag, 2) == 0 && flag[0] == 1 && flag[1] == 7);
        EXPECT(jonquilsaw_has_alpha(2, 4, layout, pixels + 4, 32, flag, 1) == 0 && flag[0] == 0);
        /* a crop */
        flag[0] = 7;
        EXPECT(jonquilsaw_crop(0, 3, 3, 1, 1, 2, 2, pixels, 0, out, 0, flag, 2) == JONQUILSAW_BOUNDARY);
        EXPECT(jonquilsaw_crop(0, 3, layout, 1, 1, 2, 2, pixels, 0, out, 0, flag, 0) == JONQUILSAW_BOUNDARY);
        EXPECT(jonquilsaw_crop(3, 3, layout, 4, 1, 0, 2, pixels, 0, out, 0, flag, 2) == JONQUILSAW_INVALID_DIMENSIONS);
        EXPECT(jonquilsaw_crop(3, 3, layout, 4294967295u, 1, 1, 2, pixels, 0, out, 0, flag, 2) == JONQUILSAW_CROP_OUT_OF_BOUNDS);
        EXPECT(jonquilsaw_crop(3, 3, layout, 1, 1, 2, 3, pixels, 0, out, 0, flag, 2) == JONQUILSAW_CROP_OUT_OF_BOUNDS);
        EXPECT(jonquilsaw_crop(3, 3, layout, 1, 1, 2, 2, pixels, 35, out, 0, flag, 2) == JONQUILSAW_PIXEL_BUFFER_MISMATCH);
        EXPECT(jonquilsaw_crop(3, 3, layout, 1, 1, 2, 2, pixels, 36, out, 15, flag, 2) == JONQUILSAW_OUTPUT_LENGTH);
        EXPECT(words_all(flag, 2, 7) && all(out, 16, 9));
        EXPECT(jonquilsaw_crop(3, 3, layout, 1, 1, 2, 2, pixels, 36, out, 16, flag, 2) == 0 && flag[0] == 0 && flag[1] == 7);
        EXPECT(memcmp(out, pixels + 16, 8) == 0 && memcmp(out + 8, pixels + 28, 8) == 0);
        EXPECT(jonquilsaw_crop(3, 3, layout, 0, 0, 2, 2, pixels, 36, out, 16, flag, 1) == 0 && flag[0] == 1);
        EXPECT(memcmp(out, pixels, 8) == 0 && memcmp(out + 8, pixels + 12, 8) == 0);
        /* an alpha plane: alpha bytes are written, colours are not */
        uint8_t before[36];
        memcpy(before, pixels, 36);
        flag[0] = 7;
        EXPECT(jonquilsaw_apply_alpha_plane(0, 3, 3, pixels, 36, plane, 9, flag, 2) == JONQUILSAW_BOUNDARY);
        EXPECT(jonquilsaw_apply_alpha_plane(0, 3, layout, pixels, 36, plane, 9, flag, 0) == JONQUILSAW_BOUNDARY);
        EXPECT(jonquilsaw_apply_alpha_plane(3, 0, layout, pixels, 36, plane, 8, flag, 2) == JONQUILSAW_INVALID_DIMENSIONS);
        EXPECT(jonquilsaw_apply_alpha_plane(3, 3, layout, pixels, 36, plane, 8, flag, 2) == JONQUILSAW_PIXEL_BUFFER_MISMATCH);
        EXPECT(jonquilsaw_apply_alpha_plane(3, 3, layout, pixels, 32, plane, 9, flag, 2) == JONQUILSAW_PIXEL_BUFFER_MISMATCH);
        EXPECT(words_all(flag, 2, 7) && memcmp(before, pixels, 36) == 0);
        EXPECT(jonquilsaw_apply_alpha_plane(3, 3, layout, pixels, 36, plane, 9, flag, 2) == 0 && flag[0] == 0 && flag[1] == 7);
        before[places[layout][3]] = 255;
        EXPECT(memcmp(before, pixels, 36) == 0 && all(plane, 9, 255));
        plane[8] = 3;
        EXPECT(jonquilsaw_apply_alpha_plane(3, 3, layout, pixels, 36, plane, 9, flag, 1) == 0 && flag[0] == 1);
        before[32 + places[layout][3]] = 3;
        EXPECT(memcmp(before, pixels, 36) == 0);
        /* what resize refuses, in its order */
        uint32_t *work = words_of(16, 5);
        memset(out, 9, 16);
        flag[0] = 7;
        EXPECT(jonquilsaw_resize(0, 3, 3, 2, 2, pixels, 0, out, 0, work, 0, flag, 1) == JONQUILSAW_BOUNDARY);
        EXPECT(jonquilsaw_resize(0, 3, layout, 2, 2, pixels, 0, out, 0, work, 0, flag, 0) == JONQUILSAW_BOUNDARY);
        EXPECT(jonquilsaw_resize(3, 3, layout, 2, 16385, pixels, 0, out, 0, work, 0, flag, 1) == JONQUILSAW_INVALID_DIMENSIONS);
        EXPECT(jonquilsaw_resize(3, 3, layout, 2, 2, pixels, 32, out, 0, work, 0, flag, 1) == JONQUILSAW_PIXEL_BUFFER_MISMATCH);
        EXPECT(jonquilsaw_resize(3, 3, layout, 2, 2, pixels, 36, out, 12, work, 0, flag, 1) == JONQUILSAW_OUTPUT_LENGTH);
        EXPECT(jonquilsaw_resize(3, 3, layout, 2, 2, pixels, 36, out, 16, work, 15, flag, 1) == JONQUILSAW_WORK_LENGTH);
        EXPECT(words_all(flag, 2, 7) && all(out, 16, 9) && words_all(work, 16, 5));
    }
}

static void sizes(void) {
    uint32_t *size = words_of(3, 7);
    EXPECT(jonquilsaw_scaled(0, 2, 0, 1, size, 1) == JONQUILSAW_BOUNDARY);
    EXPECT(jonquilsaw_scaled(0, 2, 0, 1, size, 2) == JONQUILSAW_INVALID_DIMENSIONS);
    EXPECT(jonquilsaw_scaled(3, 2, 0, 0, size, 2) == JONQUILSAW_INVALID_DIMENSIONS);
    EXPECT(jonquilsaw_scaled(1, 16384, 2, 0, size, 2) == JONQUILSAW_INVALID_DIMENSIONS);
    EXPECT(words_all(size, 3, 7));
    EXPECT(jonquilsaw_scaled(3, 2, 0, 1, size, 3) == 0 && size[0] == 2 && size[1] == 1 && size[2] == 7);
    EXPECT(jonquilsaw_scaled(3, 2, 7, 5, size, 2) == 0 && size[0] == 7 && size[1] == 5);
}

static void packing(void) {
    for (uint32_t layout = 0; layout < 3; layout++) {
        uint8_t *bytes = bytes_of(11, 0), *out = bytes_of(8, 9);
        uint32_t *argb = words_of(3, 7), *flag = words_of(2, 7);
        put(bytes, layout, 2, 3, 4, 1);
        put(bytes + 4, layout, 6, 7, 8, 255);
        /* unpacked: three trailing bytes are ignored */
        EXPECT(jonquilsaw_unpack_pixels(3, bytes, 11, argb, 1) == JONQUILSAW_BOUNDARY);
        EXPECT(jonquilsaw_unpack_pixels(layout, bytes, 11, argb, 3) == JONQUILSAW_OUTPUT_LENGTH);
        EXPECT(jonquilsaw_unpack_pixels(layout, bytes, 11, argb, 1) == JONQUILSAW_OUTPUT_LENGTH);
        EXPECT(words_all(argb, 3, 7));
        EXPECT(jonquilsaw_unpack_pixels(layout, bytes, 11, argb, 2) == 0 && argb[0] == 0x01020304u && argb[1] == 0xff060708u && argb[2] == 7);
        /* packed again */
        EXPECT(jonquilsaw_pack_pixels(3, argb, 2, out, 7) == JONQUILSAW_BOUNDARY);
        EXPECT(jonquilsaw_pack_pixels(layout, argb, 2, out, 7) == JONQUILSAW_OUTPUT_LENGTH);
        EXPECT(jonquilsaw_pack_pixels(layout, argb, 1, out, 8) == JONQUILSAW_OUTPUT_LENGTH);
        EXPECT(all(out, 8, 9));
        EXPECT(jonquilsaw_pack_pixels(layout, argb, 2, out, 8) == 0 && memcmp(out, bytes, 8) == 0);
        /* their flag */
        EXPECT(jonquilsaw_argb_has_alpha(argb, 2, flag, 0) == JONQUILSAW_BOUNDARY && words_all(flag, 2, 7));
        EXPECT(jonquilsaw_argb_has_alpha(argb, 2, flag, 2) == 0 && flag[0] == 1 && flag[1] == 7);
        EXPECT(jonquilsaw_argb_has_alpha(argb + 1, 1, flag, 1) == 0 && flag[0] == 0);
    }
}

/* The header's own functions do what those of the archive do, of a 2 by 3 picture whose crop 1 by 2 at (1, 1) is scaled to 1 by 2. */
static void with_types(void) {
    const jonquilsaw_size source = {2, 3}, target = {1, 2};
    const jonquilsaw_rect crop = {1, 1, 1, 2};
    const jonquilsaw_plan plan = {source, JONQUILSAW_BGRA8, crop, target};
    const uint32_t fresh[14] = {2, 3, 2, 1, 1, 1, 2, 1, 2, 0, 0, 0, JONQUILSAW_PICTURE, 4};
    uint8_t *pixels = bytes_of(24, 255), *out = bytes_of(8, 7), *whole = bytes_of(8, 9);
    uint32_t *work = words_of(8, 5), *flag = words_of(1, 7), accepted = 0;
    jonquilsaw_job job;
    for (int i = 0; i < 24; i++) pixels[i] = (uint8_t)(10 * i);
    EXPECT(jonquilsaw_job_start(&job, &plan, work, 7) == JONQUILSAW_WORK_LENGTH && words_all(work, 8, 5));
    EXPECT(jonquilsaw_job_start(&job, &plan, work, 8) == JONQUILSAW_OK && memcmp(job.words, fresh, sizeof fresh) == 0 && words_all(work, 8, 0));
    EXPECT(jonquilsaw_job_take(&job, out, 4, work, 8) == JONQUILSAW_NONE_READY);
    EXPECT(jonquilsaw_job_offer(&job, pixels, 24, work, 8, &accepted) == JONQUILSAW_OK && accepted == 2);
    EXPECT(jonquilsaw_job_take(&job, out, 4, work, 8) == JONQUILSAW_OK);
    EXPECT(jonquilsaw_job_offer(&job, pixels + 16, 8, work, 8, &accepted) == JONQUILSAW_OK && accepted == 1);
    EXPECT(jonquilsaw_job_take(&job, out + 4, 4, work, 8) == JONQUILSAW_OK);
    EXPECT(jonquilsaw_job_accepted(&job) == 3 && jonquilsaw_job_taken(&job) == 2 && jonquilsaw_job_has_alpha(&job) == 1);
    EXPECT(jonquilsaw_job_kind(&job) == JONQUILSAW_PICTURE && jonquilsaw_job_lanes(&job) == 4 && jonquilsaw_job_row_bytes(&job) == 8 && jonquilsaw_job_out_bytes(&job) == 4);
    EXPECT(jonquilsaw_picture_crop(source, JONQUILSAW_BGRA8, pixels, 24, crop, whole, 8, flag) == JONQUILSAW_OK && *flag == 1);
    EXPECT(memcmp(whole, pixels + 12, 4) == 0 && memcmp(whole + 4, pixels + 20, 4) == 0);
    uint8_t *scaled = bytes_of(8, 3);
    EXPECT(jonquilsaw_picture_resize(target, JONQUILSAW_BGRA8, whole, 8, target, scaled, 8, work, 8, flag) == JONQUILSAW_OK && *flag == 1);
    EXPECT(memcmp(scaled, out, 8) == 0);
    EXPECT(jonquilsaw_picture_resize(target, JONQUILSAW_BGRA8, whole, 8, source, scaled, 8, work, 8, flag) == JONQUILSAW_OUTPUT_LENGTH);

    jonquilsaw_size made = {7, 7};
    EXPECT(jonquilsaw_size_scaled(source, 0, 0, &made) == JONQUILSAW_INVALID_DIMENSIONS && made.width == 7 && made.height == 7);
    EXPECT(jonquilsaw_size_scaled(source, 4, 0, &made) == JONQUILSAW_OK && made.width == 4 && made.height == 6);
    const jonquilsaw_rect all_of = jonquilsaw_whole(source);
    EXPECT(all_of.x == 0 && all_of.y == 0 && all_of.width == 2 && all_of.height == 3);

    /* each number has words of its own */
    const uint32_t numbers[] = {0, 1, 2, 3, 4, 5, 6, 7, 8, 9, 10, 11, 12, 13, 14, 15, 16, 17, 100, 101};
    for (size_t i = 0; i < sizeof numbers / sizeof *numbers; i++)
        for (size_t k = 0; k < i; k++) EXPECT(strcmp(jonquilsaw_meaning(numbers[i]), jonquilsaw_meaning(numbers[k])) != 0);
    EXPECT(strcmp(jonquilsaw_meaning(18), jonquilsaw_meaning(4294967295u)) == 0);
    char version[32];
    snprintf(version, sizeof version, "%d.%d.%d", JONQUILSAW_VERSION_MAJOR, JONQUILSAW_VERSION_MINOR, JONQUILSAW_VERSION_PATCH);
    EXPECT(strcmp(version, JONQUILSAW_VERSION) == 0);
}

/* ---- planes */

/* One lane by the closed formulas of docs/SCOPE.md, "A row comes in" and "A row goes out"; no code is shared with the library. */

static uint64_t frac(uint64_t a, uint64_t d) { return (a << 32) / d % ((uint64_t)1 << 32); }
static uint64_t mult(uint64_t a, uint64_t b) { return (a * b + ((uint64_t)1 << 31)) >> 32; }
static uint64_t ceiling(uint64_t a, uint64_t b) { return (a + b - 1) / b; }

/* What a row of n bytes, `step` apart, brings to m columns. */
static void row_in(const uint8_t *row, size_t step, uint64_t n, uint64_t m, uint32_t *values) {
    uint64_t carry = 0;
    for (uint64_t j = 0; j < m; j++) {
        uint64_t sum = 0;
        if (m <= n) {
            const uint64_t from = ceiling(j * n, m), to = ceiling((j + 1) * n, m), last = row[(to - 1) * step] * (to * m - (j + 1) * n);
            for (uint64_t i = from; i < to; i++) sum += row[i * step];
            values[j] = (uint32_t)((carry + sum) * m - last);
            carry = mult(last, frac(1, m));
        } else {
            for (uint64_t i = 0; i < n; i++) {
                const uint64_t p = j * (n - 1), at = i * (m - 1), off = p < at ? at - p : p - at;
                sum += off < m - 1 ? row[i * step] * (m - 1 - off) : 0;
            }
            values[j] = (uint32_t)sum;
        }
    }
}

/* Preview row y after u rows; the halves move on. */
static void row_out(uint32_t *first, uint32_t *second, uint64_t y, uint64_t u, uint64_t n, uint64_t h, uint64_t m, uint64_t g, uint8_t *out, size_t step) {
    const uint64_t span = m <= n ? n : m - 1, q = g <= h ? (g << 32) / (span * h) : 0;
    const uint64_t d = g <= h ? u * g - (y + 1) * h : (u - 1) * (g - 1) - y * (h - 1);
    for (uint64_t j = 0; j < m; j++) {
        uint64_t byte;
        if (g <= h) {
            const uint32_t f = d == 0 ? 0 : (uint32_t)((uint64_t)second[j] * (uint32_t)(frac(1, g) * d) >> 32);
            byte = q >> 32 ? first[j] % 256 : mult((uint32_t)(first[j] - f), q);
            first[j] = q >> 32 ? 0 : f;
        } else {
            const uint64_t b = frac(d, g - 1), newer = u % 2 ? second[j] : first[j], older = u % 2 ? first[j] : second[j];
            const uint64_t blend = d == 0 ? newer : ((((uint64_t)1 << 32) - b) * newer + b * older + ((uint64_t)1 << 31)) >> 32;
            byte = span == 1 ? blend : mult(blend, frac(1, span));
        }
        out[j * step] = (uint8_t)(byte > 255 ? 255 : byte);
    }
}

/* How many preview rows u rows make. */
static uint64_t made_by(uint64_t u, uint64_t h, uint64_t g) {
    if (g <= h) return u * g / h;
    return u == 0 ? 0 : h == 1 ? g : 1 + (u - 1) * (g - 1) / (h - 1);
}

/* All lanes of the crop of a plane, scaled. */
static void by_formula(const jonquilsaw_plane_plan *p, const uint8_t *bytes, uint8_t *out) {
    const size_t m = p->target.width, lanes = p->lanes;
    uint32_t *halves[2] = {calloc(m, 4), calloc(m, 4)}, *values = calloc(m, 4);
    for (size_t lane = 0; lane < lanes; lane++) {
        uint64_t y = 0;
        memset(halves[0], 0, 4 * m);
        memset(halves[1], 0, 4 * m);
        for (uint64_t u = 1; u <= p->crop.height; u++) {
            row_in(bytes + ((p->crop.y + u - 1) * p->source.width + p->crop.x) * lanes + lane, lanes, p->crop.width, m, values);
            memcpy(halves[p->target.height <= p->crop.height || u % 2 ? 1 : 0], values, 4 * m);
            for (size_t j = 0; j < m && p->target.height <= p->crop.height; j++) halves[0][j] += values[j];
            for (; y < made_by(u, p->crop.height, p->target.height); y++)
                row_out(halves[0], halves[1], y, u, p->crop.width, p->crop.height, m, p->target.height, out + y * m * lanes + lane, lanes);
        }
        EXPECT(y == p->target.height);
    }
    free(halves[0]);
    free(halves[1]);
    free(values);
}

static uint32_t state = 1;

static uint8_t any_byte(void) {
    state = state * 1664525u + 1013904223u;
    return (uint8_t)(state >> 24);
}

/* A plane by a job that is lent `most` rows at a time, or fewer where fewer are left, with work values and words behind those that it needs. */
static void by_plane_job(const jonquilsaw_plane_plan *p, const uint8_t *bytes, uint32_t most, uint8_t *out, uint32_t *work_after) {
    const size_t row = (size_t)p->lanes * p->source.width, line = (size_t)p->lanes * p->target.width, need = JONQUILSAW_WORK_WORDS_OF(p->lanes, p->target.width);
    const uint32_t fresh[14] = {p->source.width, p->source.height, 0, p->crop.x, p->crop.y, p->crop.width, p->crop.height, p->target.width, p->target.height, 0, 0, 0, JONQUILSAW_PLANE, p->lanes};
    uint32_t *work = words_of(need + 3, 77), *record = words_of(16, 66), *count = words_of(2, 55), accepted = 0, taken = 0;
    EXPECT(jonquilsaw_start_plane(p->source.width, p->source.height, p->lanes, p->crop.x, p->crop.y, p->crop.width, p->crop.height, p->target.width, p->target.height, work, need + 3, record, 16) == 0);
    EXPECT(memcmp(record, fresh, sizeof fresh) == 0 && words_all(record + 14, 2, 66));
    EXPECT(words_all(work, need, 0) && words_all(work + need, 3, 77));
    while (accepted < p->source.height) {
        const uint32_t left = p->source.height - accepted, rows = most < left ? most : left;
        EXPECT(jonquilsaw_offer(record, 16, bytes + row * accepted, row * rows, work, need + 3, count, 2) == 0);
        if (count[0] == 0 || count[0] > rows) {
            fprintf(stderr, "bindings/c/test.c: %u rows accepted of %u\n", count[0], rows);
            exit(1);
        }
        accepted += count[0];
        while (jonquilsaw_take(record, 16, out + line * taken, taken < p->target.height ? line : 0, work, need + 3) == 0) taken++;
        EXPECT(record[9] == accepted && record[10] == taken);
        EXPECT(taken == made_by(accepted < p->crop.y ? 0 : accepted - p->crop.y < p->crop.height ? accepted - p->crop.y : p->crop.height, p->crop.height, p->target.height));
    }
    EXPECT(taken == p->target.height && count[1] == 55);
    EXPECT(memcmp(record, fresh, 36) == 0 && record[11] == 0 && record[12] == JONQUILSAW_PLANE && record[13] == p->lanes && words_all(record + 14, 2, 66));
    EXPECT(words_all(work + need, 3, 77));
    memcpy(work_after, work, 4 * need);
    give_back(work, 4 * (need + 3));
    give_back(record, 64);
    give_back(count, 8);
}

/* Rows lent one by one, two by two and all at once make the bytes of the formulas, and the same work values. */
static void plane(const jonquilsaw_plane_plan *p, int all_white) {
    const size_t n = (size_t)p->lanes * p->source.width * p->source.height, o = (size_t)p->lanes * p->target.width * p->target.height;
    const size_t need = JONQUILSAW_WORK_WORDS_OF(p->lanes, p->target.width);
    const uint32_t most[3] = {1, 2, p->source.height};
    uint8_t *bytes = bytes_of(n, 255), *want = bytes_of(o, 0), *out = bytes_of(o, 0);
    uint32_t *work = words_of(need, 0), *again = words_of(need, 0);
    for (size_t i = 0; i < n && !all_white; i++) bytes[i] = any_byte();
    by_formula(p, bytes, want);
    for (int i = 0; i < 3; i++) {
        memset(out, 1, o);
        by_plane_job(p, bytes, most[i], out, i == 0 ? work : again);
        EXPECT(memcmp(out, want, o) == 0);
        EXPECT(i == 0 || memcmp(work, again, 4 * need) == 0);
    }
    give_back(bytes, n);
    give_back(want, o);
    give_back(out, o);
    give_back(work, 4 * need);
    give_back(again, 4 * need);
}

static void planes_of_lanes(void) {
    const uint32_t from[] = {1, 2, 3, 6, 9}, to[] = {1, 2, 3, 5, 6, 8};
    const size_t froms = sizeof from / sizeof *from, tos = sizeof to / sizeof *to;
    for (uint32_t lanes = 1; lanes <= JONQUILSAW_MAX_LANES; lanes++) {
        for (size_t i = 0; i < froms * froms * tos * tos; i++) {
            const uint32_t w = from[i % froms], h = from[i / froms % froms], m = to[i / froms / froms % tos], g = to[i / froms / froms / tos];
            const jonquilsaw_plane_plan whole = {{w, h}, lanes, {0, 0, w, h}, {m, g}}, part = {{w + 3, h + 3}, lanes, {2, 1, w, h}, {m, g}};
            plane(&whole, 0);
            plane(&part, 0);
        }
        const jonquilsaw_plane_plan down = {{211, 97}, lanes, {7, 5, 190, 83}, {64, 31}}, up = {{64, 31}, lanes, {3, 2, 57, 27}, {190, 83}};
        plane(&down, 0);
        plane(&up, 0);
    }
    /* white strips, the last of which wraps, and the white 1 by 6 whose last byte is 254 */
    for (uint32_t h = 1028; h <= 1029; h++) {
        const jonquilsaw_plane_plan strip = {{16384, h}, 1, {0, 0, 16384, h}, {1, 1}};
        plane(&strip, 1);
    }
    const jonquilsaw_plane_plan six = {{1, 6}, 3, {0, 0, 1, 6}, {1, 5}};
    plane(&six, 1);
}

/* A colour matted by its alpha, or restored, which stops at 255: mult_argb of docs/SCOPE.md for one lane. */
static uint8_t by_alpha(uint64_t colour, uint64_t alpha, int restored) {
    if (alpha == 0 || alpha == 255) return (uint8_t)(alpha == 0 ? 0 : colour);
    const uint64_t k = restored ? ((uint64_t)255 << 24) / alpha : 65793 * alpha, byte = (colour * k + (1 << 23)) >> 24;
    return (uint8_t)(byte > 255 ? 255 : byte);
}

/* One column of a picture made taller: matted, scaled by the formulas, restored; whole and by rows. */
static void column_of(uint32_t layout, uint32_t h, uint32_t m, uint32_t g) {
    static const uint8_t alphas[8] = {0, 1, 2, 127, 128, 254, 255, 255};
    const size_t n = (size_t)4 * h, o = (size_t)4 * m * g, v = JONQUILSAW_WORK_WORDS(m), place = layout == JONQUILSAW_ARGB8 ? 0 : 3;
    const jonquilsaw_plane_plan plan = {{1, h}, 4, {0, 0, 1, h}, {m, g}};
    uint8_t *pixels = bytes_of(n, 0), *matted = bytes_of(n, 0), *want = bytes_of(o, 0), *out = bytes_of(o, 1), *again = bytes_of(o, 2);
    uint32_t *work = words_of(v, 3), *work_again = words_of(v, 4), wanted = 0, flag = 9, flag_again = 8;
    for (size_t i = 0; i < n; i++) pixels[i] = i % 4 == place ? alphas[any_byte() % 8] : any_byte();
    for (size_t i = 0; i < n; i++) matted[i] = i % 4 == place ? pixels[i] : by_alpha(pixels[i], pixels[i - i % 4 + place], 0);
    by_formula(&plan, matted, want);
    for (size_t i = 0; i < o; i++) {
        if (i % 4 == place) wanted |= want[i] != 255;
        else want[i] = by_alpha(want[i], want[i - i % 4 + place], 1);
    }
    EXPECT(jonquilsaw_resize(1, h, layout, m, g, pixels, n, out, o, work, v, &flag, 1) == 0);
    by_job(1, h, layout, m, g, pixels, again, work_again, &flag_again);
    EXPECT(memcmp(out, want, o) == 0 && memcmp(again, want, o) == 0);
    EXPECT(flag == wanted && flag_again == wanted);
    EXPECT(memcmp(work, work_again, 4 * v) == 0);
    give_back(pixels, n);
    give_back(matted, n);
    give_back(want, o);
    give_back(out, o);
    give_back(again, o);
    give_back(work, 4 * v);
    give_back(work_again, 4 * v);
}

static void columns_of_pictures(void) {
    for (uint32_t i = 0; i < 3 * 8 * 2 * 8; i++) {
        const uint32_t h = 1 + i / 3 % 8;
        column_of(i % 3, h, 1 + i / 24 % 2, h + 1 + i / 48);
    }
    for (uint32_t layout = 0; layout < 3; layout++) column_of(layout, 16383, 2, 16384);
}

/* Restores a row of n scaled pixels, blue, green, red and alpha each, and returns its flag. A plane in equal size keeps its bytes: offered as one of four lanes,
 * they are what a take restores once the record says picture. The record of a group of one is that of its job behind one word, so that either take will do. */
static uint32_t restore(const uint8_t *scaled, uint32_t n, uint32_t layout, int in_group, uint8_t *out) {
    const uint32_t plan[JONQUILSAW_PLAN_WORDS] = {n, 1, 0, 0, 0, n, 1, n, 1, JONQUILSAW_PLANE, 4};
    const size_t need = JONQUILSAW_WORK_WORDS(n), bytes = (size_t)4 * n;
    uint32_t *work = words_of(need, 7), *group = words_of(15, 0), *record = group + 1, count = 0;
    EXPECT(jonquilsaw_start_group(plan, JONQUILSAW_PLAN_WORDS, 1, work, need, group, 15) == 0);
    EXPECT(jonquilsaw_offer(record, 14, scaled, bytes, work, need, &count, 1) == 0);
    record[2] = layout;
    record[12] = JONQUILSAW_PICTURE;
    EXPECT((in_group ? jonquilsaw_take_group(group, 15, 0, out, bytes, work, need) : jonquilsaw_take(record, 14, out, bytes, work, need)) == 0);
    const uint32_t flag = record[11];
    give_back(work, 4 * need);
    give_back(group, 60);
    return flag;
}

/* Rgba (0, 0, 2, 255), 1 by h to 16384 by 1: every pixel has this blue and this alpha, in all three layouts, whole and by rows. */
static void column_made_wide(uint32_t h, uint8_t blue, uint8_t alpha) {
    const size_t n = (size_t)4 * h, o = (size_t)4 * 16384, v = JONQUILSAW_WORK_WORDS(16384);
    uint8_t *pixels = bytes_of(n, 0), *want = bytes_of(o, 0), *out = bytes_of(o, 1), *again = bytes_of(o, 2);
    uint32_t *work = words_of(v, 3), flag, flag_again;
    for (uint32_t layout = 0; layout < 3; layout++) {
        for (size_t i = 0; i < n; i += 4) put(pixels + i, layout, 0, 0, 2, 255);
        for (size_t i = 0; i < o; i += 4) put(want + i, layout, 0, 0, blue, alpha);
        flag = flag_again = 9;
        EXPECT(jonquilsaw_resize(1, h, layout, 16384, 1, pixels, n, out, o, work, v, &flag, 1) == 0);
        EXPECT(memcmp(out, want, o) == 0);
        by_job(1, h, layout, 16384, 1, pixels, again, work, &flag_again);
        EXPECT(memcmp(again, want, o) == 0);
        EXPECT(flag == (alpha != 255) && flag_again == flag);
    }
    give_back(pixels, n);
    give_back(want, o);
    give_back(out, o);
    give_back(again, o);
    give_back(work, 4 * v);
}

/* A restored colour stops at 255 in its own lane, so that every alpha is the scaled one, and the flag that of the scaled alphas. */
static void no_spill(void) {
    /* 1,031 rows are the fewest with a scaled colour above an alpha that is not 0, 2 above 1: the sum of alpha wraps from 1,029 on, and up to 1,030 the rest makes 0 */
    column_made_wide(1028, 2, 255);
    column_made_wide(1030, 0, 0);
    column_made_wide(1031, 255, 1);

    /* each lane above its alpha; red that would make the alpha 255, alone and beside an opaque pixel; all three at once; the alphas 0 and 255, under which nothing
     * is restored. Numbers are 0xAARRGGBB */
    const struct {
        uint32_t scaled[2], restored[2], flag;
    } some[] = {
        {{0x01000002, 0x01000002}, {0x010000ff, 0x010000ff}, 1},
        {{0x01000200, 0x01020000}, {0x0100ff00, 0x01ff0000}, 1},
        {{0x01ff0000, 0x01ff0000}, {0x01ff0000, 0x01ff0000}, 1},
        {{0xff123456, 0x01ff0000}, {0xff123456, 0x01ff0000}, 1},
        {{0x02010301, 0x7f80ffff}, {0x0280ff80, 0x7fffffff}, 1},
        {{0x00ffffff, 0xffffffff}, {0x00000000, 0xffffffff}, 1},
        {{0xff00ff00, 0xffff00ff}, {0xff00ff00, 0xffff00ff}, 0},
    };
    uint8_t *scaled = bytes_of(4 * 256, 0), *out = bytes_of(4 * 256, 0), *want = bytes_of(4 * 256, 0), *two = bytes_of(8, 0), *two_out = bytes_of(8, 0);
    for (uint32_t i = 0; i < 6 * (sizeof some / sizeof *some); i++) {
        const uint32_t layout = i % 3;
        const int in_group = i / 3 % 2;
        uint32_t argb[2] = {0, 0};
        EXPECT(jonquilsaw_pack_pixels(JONQUILSAW_BGRA8, some[i / 6].scaled, 2, two, 8) == 0);
        EXPECT(restore(two, 2, layout, in_group, two_out) == some[i / 6].flag);
        EXPECT(jonquilsaw_unpack_pixels(layout, two_out, 8, argb, 2) == 0 && memcmp(argb, some[i / 6].restored, 8) == 0);
    }

    /* every colour under every alpha in each lane, with 0 in the other two or the colour's rest to 255 */
    for (uint32_t i = 0; i < 256 * 3 * 2 * 3; i++) {
        const uint32_t alpha = i % 256, lane = i / 256 % 3, rest = i / 256 / 3 % 2, layout = i / 256 / 6;
        for (uint32_t c = 0; c < 256; c++) {
            uint8_t *pixel = scaled + 4 * c;
            pixel[0] = pixel[1] = pixel[2] = (uint8_t)(rest ? 255 - c : 0);
            pixel[lane] = (uint8_t)c;
            pixel[3] = (uint8_t)alpha;
            put(want + 4 * c, layout, by_alpha(pixel[2], alpha, 1), by_alpha(pixel[1], alpha, 1), by_alpha(pixel[0], alpha, 1), (uint8_t)alpha);
        }
        EXPECT(restore(scaled, 256, layout, 0, out) == (alpha != 255));
        EXPECT(memcmp(out, want, 4 * 256) == 0);
    }
}

/* A plane of four lanes is no picture: nothing is matted or restored. Where a picture's alpha is 255, in and out, both are the same. */
static void four_lanes(void) {
    const jonquilsaw_size source = {7, 9}, targets[4] = {{7, 9}, {4, 5}, {10, 13}, {5, 7}};
    for (uint32_t layout = 0; layout < 3; layout++) {
        for (int t = 0; t < 4; t++) {
            for (int opaque = 0; opaque < 2; opaque++) {
                const jonquilsaw_plane_plan plan = {source, 4, jonquilsaw_whole(source), targets[t]};
                const size_t n = (size_t)4 * 7 * 9, o = (size_t)4 * plan.target.width * plan.target.height, v = JONQUILSAW_WORK_WORDS(plan.target.width);
                const int alpha = places[layout][3];
                uint8_t *bytes = bytes_of(n, 0), *as_plane = bytes_of(o, 0), *as_picture = bytes_of(o, 0);
                uint32_t *work = words_of(v, 0), flag = 7;
                for (size_t i = 0; i < n; i++) bytes[i] = opaque && (int)(i % 4) == alpha ? 255 : any_byte();
                by_plane_job(&plan, bytes, 9, as_plane, work);
                EXPECT(jonquilsaw_resize(7, 9, layout, plan.target.width, plan.target.height, bytes, n, as_picture, o, work, v, &flag, 1) == 0);
                EXPECT(opaque || memcmp(as_plane, as_picture, o) != 0);
                EXPECT(t != 0 || memcmp(as_plane, bytes, n) == 0);
                for (size_t i = 0; i < o && opaque; i += 4) {
                    EXPECT(as_plane[i + (size_t)alpha] >= 254 && as_plane[i + (size_t)alpha] == as_picture[i + (size_t)alpha]);
                    EXPECT(as_plane[i + (size_t)alpha] != 255 || memcmp(as_plane + i, as_picture + i, 4) == 0);
                }
            }
        }
    }
    /* colour 200 with alpha 128 stays 200, where a picture's becomes 199 */
    const jonquilsaw_plane_plan one = {{1, 1}, 4, {0, 0, 1, 1}, {1, 1}};
    uint8_t *in = bytes_of(4, 200), *out = bytes_of(4, 0);
    uint32_t *work = words_of(8, 0);
    in[3] = 128;
    by_plane_job(&one, in, 1, out, work);
    EXPECT(memcmp(in, out, 4) == 0);
}

/* One wrong argument of a start: its place, its value and the number that it earns. */
typedef struct {
    int place;
    uint64_t value;
    uint32_t number;
} wrong;

/* Tries every wrong argument alone and with every other: of two numbers the one earlier in the order is the answer. */
static void every_two(const uint64_t *right, size_t places_of, const wrong *all_wrong, size_t wrongs, const uint32_t *order, uint32_t (*call)(const uint64_t *), int (*kept)(void)) {
    for (size_t i = 0; i < wrongs; i++) {
        for (size_t k = 0; k <= i; k++) {
            uint64_t given[16];
            if (k != i && all_wrong[i].place == all_wrong[k].place) continue;
            memcpy(given, right, places_of * sizeof *right);
            given[all_wrong[i].place] = all_wrong[i].value;
            given[all_wrong[k].place] = all_wrong[k].value;
            const uint32_t *first = order;
            while (*first != all_wrong[i].number && *first != all_wrong[k].number) first++;
            EXPECT(call(given) == *first);
            EXPECT(kept());
        }
    }
}

/* A plane of three lanes, 5 by 4, whose crop 3 by 2 at (1, 2) is scaled to 2 by 7. */
static uint32_t *lent_work, *lent_record;

static uint32_t call_start_plane(const uint64_t *a) {
    return jonquilsaw_start_plane((uint32_t)a[0], (uint32_t)a[1], (uint32_t)a[2], (uint32_t)a[3], (uint32_t)a[4], (uint32_t)a[5], (uint32_t)a[6], (uint32_t)a[7], (uint32_t)a[8], lent_work, a[9], lent_record, a[10]);
}

static int start_plane_kept(void) { return words_all(lent_work, 14, 5) && words_all(lent_record, 15, 6); }

static void starts_of_planes(void) {
    const uint64_t right[11] = {5, 4, 3, 1, 2, 3, 2, 2, 7, 14, 15}, past = 16385, most = 4294967295u;
    const wrong all_wrong[] = {
        {10, 13, 100}, {10, 0, 100},
        {0, 0, 1}, {0, past, 1}, {0, most, 1}, {1, 0, 1}, {1, past, 1}, {1, most, 1}, {5, 0, 1}, {6, 0, 1}, {7, 0, 1}, {7, past, 1}, {7, most, 1}, {8, 0, 1}, {8, past, 1}, {8, most, 1},
        {2, 0, 10}, {2, 5, 10}, {2, most, 10},
        {3, 3, 2}, {3, most, 2}, {4, 3, 2}, {4, most, 2}, {5, 5, 2}, {5, past, 2}, {5, most, 2}, {6, 3, 2}, {6, past, 2}, {6, most, 2},
        {9, 11, 5}, {9, 0, 5}};
    const uint32_t order[] = {100, 1, 10, 2, 5}, fresh[14] = {5, 4, 0, 1, 2, 3, 2, 2, 7, 0, 0, 0, JONQUILSAW_PLANE, 3};
    lent_work = words_of(14, 5);
    lent_record = words_of(15, 6);
    every_two(right, 11, all_wrong, sizeof all_wrong / sizeof *all_wrong, order, call_start_plane, start_plane_kept);
    EXPECT(call_start_plane(right) == 0);
    EXPECT(memcmp(lent_record, fresh, sizeof fresh) == 0 && lent_record[14] == 6);
    EXPECT(words_all(lent_work, 12, 0) && words_all(lent_work + 12, 2, 5));
    /* each lane count asks for so many work values */
    for (uint32_t lanes = 1; lanes <= 4; lanes++) {
        uint32_t *work = words_of(4 * lanes, 5), *record = words_of(14, 6);
        EXPECT(jonquilsaw_start_plane(5, 4, lanes, 1, 2, 3, 2, 2, 7, work, 4 * lanes - 1, record, 14) == JONQUILSAW_WORK_LENGTH);
        EXPECT(words_all(work, 4 * lanes, 5) && words_all(record, 14, 6));
        EXPECT(jonquilsaw_start_plane(5, 4, lanes, 1, 2, 3, 2, 2, 7, work, 4 * lanes, record, 14) == 0);
        EXPECT(words_all(work, 4 * lanes, 0) && record[12] == JONQUILSAW_PLANE && record[13] == lanes);
    }
}

/* Three planes, 5 by 4 to 3 by 7, so 3 by 2 to 2 by 4 for chroma: 6, 4 and 4 work values. */
static uint32_t *three_works[3], *three_records[3];

static uint32_t call_start_planes(const uint64_t *a) {
    return jonquilsaw_start_planes((uint32_t)a[0], (uint32_t)a[1], (uint32_t)a[2], (uint32_t)a[3], three_works[0], a[4], three_works[1], a[5], three_works[2], a[6], three_records[0], a[7], three_records[1], a[8], three_records[2], a[9]);
}

static int start_planes_kept(void) {
    for (uint32_t i = 0; i < 3; i++)
        if (!words_all(three_works[i], 8, 5 + i) || !words_all(three_records[i], 15, 8 + i)) return 0;
    return 1;
}

static void starts_of_three(void) {
    const uint64_t right[10] = {5, 4, 3, 7, 8, 8, 8, 15, 15, 15}, past = 16385, most = 4294967295u;
    const wrong all_wrong[] = {
        {7, 13, 100}, {7, 0, 100}, {8, 13, 100}, {8, 0, 100}, {9, 13, 100}, {9, 0, 100},
        {0, 0, 1}, {0, past, 1}, {0, most, 1}, {1, 0, 1}, {1, past, 1}, {1, most, 1}, {2, 0, 1}, {2, past, 1}, {2, most, 1}, {3, 0, 1}, {3, past, 1}, {3, most, 1},
        {4, 5, 5}, {4, 0, 5}, {5, 3, 5}, {5, 0, 5}, {6, 3, 5}, {6, 0, 5}};
    const uint32_t order[] = {100, 1, 5};
    const uint32_t fresh[2][14] = {{5, 4, 0, 0, 0, 5, 4, 3, 7, 0, 0, 0, JONQUILSAW_PLANE, 1}, {3, 2, 0, 0, 0, 3, 2, 2, 4, 0, 0, 0, JONQUILSAW_PLANE, 1}};
    for (uint32_t i = 0; i < 3; i++) {
        three_works[i] = words_of(8, 5 + i);
        three_records[i] = words_of(15, 8 + i);
    }
    every_two(right, 10, all_wrong, sizeof all_wrong / sizeof *all_wrong, order, call_start_planes, start_planes_kept);
    EXPECT(call_start_planes(right) == 0);
    for (uint32_t i = 0; i < 3; i++) {
        const size_t need = i == 0 ? 6 : 4;
        EXPECT(memcmp(three_records[i], fresh[i != 0], sizeof *fresh) == 0 && three_records[i][14] == 8 + i);
        EXPECT(words_all(three_works[i], need, 0) && words_all(three_works[i] + need, 8 - need, 5 + i));
    }
    /* exactly the values and the words that are needed */
    const uint64_t exact[10] = {5, 4, 3, 7, 6, 4, 4, 14, 14, 14};
    EXPECT(call_start_planes(exact) == 0);
}

/* Whole 4:2:0 pictures by the header's own functions, against the formulas for each plane. */
static void three_planes(void) {
    const jonquilsaw_size sizes_of[][2] = {{{1, 1}, {1, 1}}, {{1, 1}, {4, 1}}, {{2, 2}, {3, 3}}, {{5, 3}, {2, 7}}, {{6, 9}, {6, 9}}, {{41, 23}, {17, 10}}, {{20, 11}, {33, 24}}};
    for (size_t i = 0; i < sizeof sizes_of / sizeof *sizes_of; i++) {
        const jonquilsaw_size source = sizes_of[i][0], target = sizes_of[i][1], half = jonquilsaw_size_chroma(source), half_target = jonquilsaw_size_chroma(target);
        jonquilsaw_planes planes;
        uint32_t *works[3];
        for (int k = 0; k < 3; k++) works[k] = words_of(JONQUILSAW_WORK_WORDS_OF(1, k == 0 ? target.width : half_target.width), 9);
        EXPECT(jonquilsaw_planes_start(&planes, source, target, works[0], JONQUILSAW_WORK_WORDS_OF(1, target.width), works[1], JONQUILSAW_WORK_WORDS_OF(1, half_target.width), works[2], JONQUILSAW_WORK_WORDS_OF(1, half_target.width)) == JONQUILSAW_OK);
        jonquilsaw_job *const jobs[3] = {&planes.luma, &planes.cb, &planes.cr};
        for (int k = 0; k < 3; k++) {
            const jonquilsaw_size from = k == 0 ? source : half, to = k == 0 ? target : half_target;
            const jonquilsaw_plane_plan plan = {from, 1, jonquilsaw_whole(from), to};
            const size_t n = (size_t)from.width * from.height, o = (size_t)to.width * to.height, need = JONQUILSAW_WORK_WORDS_OF(1, to.width);
            uint8_t *bytes = bytes_of(n, 0), *want = bytes_of(o, 0), *out = bytes_of(o, 1);
            uint32_t *work = words_of(need, 3), accepted;
            jonquilsaw_job alone;
            EXPECT(jonquilsaw_job_start_plane(&alone, &plan, work, need) == JONQUILSAW_OK && memcmp(&alone, jobs[k], sizeof alone) == 0);
            EXPECT(jonquilsaw_job_kind(jobs[k]) == JONQUILSAW_PLANE && jonquilsaw_job_lanes(jobs[k]) == 1 && jonquilsaw_job_row_bytes(jobs[k]) == from.width && jonquilsaw_job_out_bytes(jobs[k]) == to.width);
            for (size_t b = 0; b < n; b++) bytes[b] = any_byte();
            by_formula(&plan, bytes, want);
            while (jonquilsaw_job_taken(jobs[k]) < to.height) {
                const size_t at = (size_t)from.width * jonquilsaw_job_accepted(jobs[k]);
                EXPECT(jonquilsaw_job_offer(jobs[k], bytes + at, n - at, works[k], need, &accepted) == JONQUILSAW_OK);
                for (uint32_t y = jonquilsaw_job_taken(jobs[k]); y < to.height && jonquilsaw_job_take(jobs[k], out + (size_t)to.width * y, to.width, works[k], need) == JONQUILSAW_OK;) y++;
            }
            EXPECT(memcmp(out, want, o) == 0);
            EXPECT(jonquilsaw_job_accepted(jobs[k]) == from.height && jonquilsaw_job_has_alpha(jobs[k]) == 0);
        }
    }
    const jonquilsaw_size odd = {16383, 1}, even = {16384, 2}, largest = {4294967295u, 4294967294u}, none = {0, 0};
    EXPECT(jonquilsaw_size_chroma(odd).width == 8192 && jonquilsaw_size_chroma(odd).height == 1);
    EXPECT(jonquilsaw_size_chroma(even).width == 8192 && jonquilsaw_size_chroma(even).height == 1);
    EXPECT(jonquilsaw_size_chroma(largest).width == 2147483648u && jonquilsaw_size_chroma(largest).height == 2147483647u);
    EXPECT(jonquilsaw_size_chroma(none).width == 0 && jonquilsaw_size_chroma(none).height == 0);
}

/* The refusals of offer and take in their order, of a plane of three lanes, 2 by 6 to 1 by 4. */
static void planes_refused(void) {
    uint8_t *rows = bytes_of(36, 100), *out = bytes_of(4, 9);
    uint32_t *work = words_of(7, 3), *record = words_of(15, 4), *count = words_of(1, 8);
    uint32_t *kept_work = words_of(7, 0), *kept_record = words_of(15, 0);
    EXPECT(jonquilsaw_start_plane(2, 6, 3, 0, 0, 2, 6, 1, 4, work, 7, record, 15) == 0);
#define KEEP (memcpy(kept_work, work, 28), memcpy(kept_record, record, 60), count[0] = 8, memset(out, 9, 4))
#define KEPT (memcmp(work, kept_work, 28) == 0 && memcmp(record, kept_record, 60) == 0 && count[0] == 8 && all(out, 4, 9) && all(rows, 36, 100))
    KEEP;
    for (size_t words = 0; words < JONQUILSAW_RECORD_WORDS; words++) {
        EXPECT(jonquilsaw_offer(record, words, rows, 0, work, 0, count, 0) == JONQUILSAW_BOUNDARY && KEPT);
        EXPECT(jonquilsaw_offer(record, words, rows, 6, work, 7, count, 1) == JONQUILSAW_INVALID_RECORD && KEPT);
        EXPECT(jonquilsaw_take(record, words, out, 3, work, 7) == JONQUILSAW_INVALID_RECORD && KEPT);
    }
    for (size_t bytes = 0; bytes <= 36; bytes++)
        if (bytes == 0 || bytes % 6 != 0) EXPECT(jonquilsaw_offer(record, 15, rows, bytes, work, 5, count, 1) == JONQUILSAW_PIXEL_BUFFER_MISMATCH && KEPT);
    EXPECT(jonquilsaw_offer(record, 15, rows, 6, work, 5, count, 1) == JONQUILSAW_WORK_LENGTH && KEPT);
    for (size_t bytes = 0; bytes <= 4; bytes++)
        if (bytes != 3) EXPECT(jonquilsaw_take(record, 15, out, bytes, work, 5) == JONQUILSAW_OUTPUT_LENGTH && KEPT);
    EXPECT(jonquilsaw_take(record, 15, out, 3, work, 5) == JONQUILSAW_WORK_LENGTH && KEPT);
    EXPECT(jonquilsaw_take(record, 15, out, 3, work, 6) == JONQUILSAW_NONE_READY && KEPT);
    /* all six rows lent: the second makes a row ready */
    EXPECT(jonquilsaw_offer(record, 15, rows, 36, work, 7, count, 1) == 0 && count[0] == 2 && record[9] == 2 && work[6] == 3 && record[14] == 4);
    KEEP;
    EXPECT(jonquilsaw_offer(record, 15, rows, 6, work, 5, count, 1) == JONQUILSAW_WORK_LENGTH && KEPT);
    EXPECT(jonquilsaw_offer(record, 15, rows, 6, work, 7, count, 1) == JONQUILSAW_ROW_READY && KEPT);
    EXPECT(jonquilsaw_take(record, 15, out, 3, work, 7) == 0 && all(out, 3, 100) && out[3] == 9 && record[10] == 1 && record[11] == 0 && work[6] == 3);
    while (record[9] < 6 || record[10] < 4) {
        if (jonquilsaw_take(record, 15, out, 3, work, 7) != 0) EXPECT(jonquilsaw_offer(record, 15, rows, 6, work, 7, count, 1) == 0);
    }
    KEEP;
    EXPECT(jonquilsaw_offer(record, 15, rows, 6, work, 5, count, 1) == JONQUILSAW_WORK_LENGTH && KEPT);
    EXPECT(jonquilsaw_offer(record, 15, rows, 6, work, 7, count, 1) == JONQUILSAW_ALL_ACCEPTED && KEPT);
    EXPECT(jonquilsaw_take(record, 15, out, 3, work, 7) == JONQUILSAW_NONE_READY && KEPT);
#undef KEEP
#undef KEPT
}

/* Every combination of kind, lanes, layout and flag, before and after the first row taken: a record or none, by the rules. */
static void kinds_of_records(void) {
    const uint32_t words[] = {0, 1, 2, 3, 4, 5, 255, 256, 65536, 2147483648u, 4294967295u};
    const size_t values = sizeof words / sizeof *words;
    uint8_t *rows = bytes_of(8, 100), *out = bytes_of(8, 9);
    uint32_t *work = words_of(16, 3), *record = words_of(14, 0), *count = words_of(1, 8), records = 0;
    for (uint32_t taken = 0; taken < 2; taken++) {
        for (size_t i = 0; i < values * values * values * values; i++) {
            const uint32_t kind = words[i % values], lanes = words[i / values % values], layout = words[i / values / values % values], flag = words[i / values / values / values];
            const uint32_t given[14] = {1, 2, layout, 0, 0, 1, 2, 1, 2, taken, taken, flag, kind, lanes};
            const int plane_is = kind == JONQUILSAW_PLANE && lanes >= 1 && lanes <= 4 && layout == JONQUILSAW_RGBA8 && flag == 0;
            const int picture_is = kind == JONQUILSAW_PICTURE && lanes == 4 && layout <= JONQUILSAW_BGRA8 && flag <= taken;
            memcpy(record, given, sizeof given);
            /* a record that is one goes on to the next number of the order */
            const uint32_t offered = jonquilsaw_offer(record, 14, rows, 0, work, 0, count, 1), took = jonquilsaw_take(record, 14, out, 0, work, 0);
            EXPECT(plane_is || picture_is ? offered == JONQUILSAW_PIXEL_BUFFER_MISMATCH && took == JONQUILSAW_OUTPUT_LENGTH : offered == JONQUILSAW_INVALID_RECORD && took == JONQUILSAW_INVALID_RECORD);
            EXPECT(memcmp(record, given, sizeof given) == 0);
            if (!plane_is && !picture_is) continue;
            /* and is served, whoever filled it, by its own lanes */
            EXPECT(jonquilsaw_take(record, 14, out, lanes, work, 2 * lanes) == JONQUILSAW_NONE_READY);
            EXPECT(jonquilsaw_offer(record, 14, rows, lanes, work, 2 * lanes - 1, count, 1) == JONQUILSAW_WORK_LENGTH);
            EXPECT(jonquilsaw_offer(record, 14, rows, lanes, work, 2 * lanes, count, 1) == JONQUILSAW_OK && count[0] == 1 && record[9] == taken + 1);
            EXPECT(record[12] == kind && record[13] == lanes && record[2] == layout && record[11] == flag);
            count[0] = 8;
            for (int w = 0; w < 16; w++) work[w] = 3;
            records++;
        }
        EXPECT(all(rows, 8, 100) && all(out, 8, 9) && count[0] == 8);
    }
    /* four of planes and three of pictures before the first row, three more with a flag after it */
    EXPECT(records == 4 + 3 + 4 + 6);
}

static void planes(void) {
    starts_of_planes();
    starts_of_three();
    planes_refused();
    kinds_of_records();
    planes_of_lanes();
    four_lanes();
    three_planes();
}

/* ---- PAM pictures */

#define KEYS "WIDTH 2\nHEIGHT 1\nDEPTH 4\nMAXVAL 255\n"
#define TYPE "TUPLTYPE RGB_ALPHA\n"
#define END "ENDHDR\n"

/* A header, or what is none: the number that it gets, its size where that is 0, and whether more bytes could make a header of it. */
static const struct {
    const char *text;
    uint32_t number, width, height, unfinished;
} headers[] = {
    {"P7\n" KEYS TYPE END, 0, 2, 1, 0},
    {"P7\n" TYPE "MAXVAL 255\nDEPTH 4\nHEIGHT 16384\nWIDTH 1\n" END, 0, 1, 16384, 0},
    {"P7\n# 7 \\ 8\n\n \t\v\f\r\n#\nWIDTH\t0002\nHEIGHT \f 1 \r\n\vDEPTH 04\nMAXVAL 0255\nTUPLTYPE  RGB_ALPHA \n ENDHDR\t\n", 0, 2, 1, 0},
    /* 11, also where what else is wrong would be 12 or 1 */
    {"", 11, 0, 0, 0},
    {"P7", 11, 0, 0, 0},
    {"P6\n" KEYS TYPE END, 11, 0, 0, 0},
    {"P7 \n" KEYS TYPE END, 11, 0, 0, 0},
    {"#\nP7\n" KEYS TYPE END, 11, 0, 0, 0},
    {"P7\n" KEYS TYPE "ENDHDR", 11, 0, 0, 1},
    {"P7\n" KEYS TYPE "ENDHDR now\n", 11, 0, 0, 0},
    {"P7\n" KEYS TYPE " # none\n" END, 11, 0, 0, 0},
    {"P7\n" KEYS TYPE "width 2\n" END, 11, 0, 0, 0},
    {"P7\n" KEYS TYPE "WIDTH 2\n" END, 11, 0, 0, 0},
    {"P7\n" KEYS TYPE "DEPTH 3\n", 11, 0, 0, 0},
    {"P7\nHEIGHT 1\nDEPTH 4\nMAXVAL 255\n" TYPE END, 11, 0, 0, 0},
    {"P7\nHEIGHT 1\nDEPTH 4\nMAXVAL 255\n" TYPE, 11, 0, 0, 1},
    {"P7\nWIDTH\nHEIGHT 0\nDEPTH 3\nMAXVAL 255\n" TYPE END, 11, 0, 0, 0},
    {"P7\nWIDTH 2 2\nHEIGHT 0\nDEPTH 3\nMAXVAL 255\n" TYPE END, 11, 0, 0, 0},
    {"P7\nWIDTH +2\nHEIGHT 0\nDEPTH 3\nMAXVAL 255\n" TYPE END, 11, 0, 0, 0},
    {"P7\n" KEYS "TUPLTYPE\n" END, 11, 0, 0, 0},
    /* 12, also where a side is wrong */
    {"P7\nWIDTH 0\nHEIGHT 1\nDEPTH 3\nMAXVAL 255\n" TYPE END, 12, 0, 0, 0},
    {"P7\nWIDTH 2\nHEIGHT 1\nDEPTH 4294967300\nMAXVAL 255\n" TYPE END, 12, 0, 0, 0},
    {"P7\nWIDTH 2\nHEIGHT 99999\nDEPTH 4\nMAXVAL 0\n" TYPE END, 12, 0, 0, 0},
    {"P7\n" KEYS END, 12, 0, 0, 0},
    {"P7\n" KEYS TYPE TYPE END, 12, 0, 0, 0},
    {"P7\n" KEYS "TUPLTYPE RGB_ALPHA RGB_ALPHA\n" END, 12, 0, 0, 0},
    {"P7\n" KEYS "TUPLTYPE GRAYSCALE_ALPHA\n" END, 12, 0, 0, 0},
    /* 1 */
    {"P7\nWIDTH 0\nHEIGHT 1\nDEPTH 4\nMAXVAL 255\n" TYPE END, 1, 0, 0, 0},
    {"P7\nWIDTH 16384\nHEIGHT 16385\nDEPTH 4\nMAXVAL 255\n" TYPE END, 1, 0, 0, 0},
    {"P7\nWIDTH 4294967298\nHEIGHT 1\nDEPTH 4\nMAXVAL 255\n" TYPE END, 1, 0, 0, 0},
    {"P7\nWIDTH 18446744073709551618\nHEIGHT 1\nDEPTH 4\nMAXVAL 255\n" TYPE END, 1, 0, 0, 0},
    {"P7\nWIDTH 1" "00000000000000000000000000000000000000000000000000000000000000000000000000000000000000000000000000\nHEIGHT 1\nDEPTH 4\nMAXVAL 255\n" TYPE END, 1, 0, 0, 0},
};

/* The bytes of a text, without its 0. */
static uint8_t *text_of(const char *text, size_t *n) {
    *n = strlen(text);
    uint8_t *at = bytes_of(*n, 0);
    memcpy(at, text, *n);
    return at;
}

static void pam_headers(void) {
    uint32_t *answer = words_of(5, 7), *flag = words_of(2, 7), *size = words_of(3, 7);
    for (size_t i = 0; i < sizeof headers / sizeof *headers; i++) {
        size_t n;
        uint8_t *input = text_of(headers[i].text, &n), *kept = text_of(headers[i].text, &n);
        const uint32_t number = headers[i].number;
        EXPECT(jonquilsaw_read_pam_header(input, n, answer, 3) == JONQUILSAW_BOUNDARY && words_all(answer, 5, 7));
        EXPECT(jonquilsaw_read_pam(input, n, size, 1) == JONQUILSAW_BOUNDARY && words_all(size, 3, 7));
        EXPECT(jonquilsaw_pam_unfinished(input, n, flag, 0) == JONQUILSAW_BOUNDARY && words_all(flag, 2, 7));
        EXPECT(jonquilsaw_read_pam_header(input, n, answer, 5) == number);
        if (number == 0) {
            EXPECT(answer[0] == headers[i].width && answer[1] == headers[i].height && answer[2] == n && answer[3] == 0 && answer[4] == 7);
            for (int w = 0; w < 4; w++) answer[w] = 7;
        }
        EXPECT(words_all(answer, 5, 7));
        /* no pixels follow */
        EXPECT(jonquilsaw_read_pam(input, n, size, 3) == (number == 0 ? JONQUILSAW_PIXEL_BUFFER_MISMATCH : number) && words_all(size, 3, 7));
        EXPECT(jonquilsaw_pam_unfinished(input, n, flag, 2) == 0 && flag[0] == headers[i].unfinished && flag[1] == 7);
        flag[0] = 7;
        EXPECT(memcmp(input, kept, n) == 0);
        give_back(input, n);
        give_back(kept, n);
    }
    EXPECT(jonquilsaw_read_pam_header(NULL, 0, answer, 5) == JONQUILSAW_PAM_MALFORMED && words_all(answer, 5, 7));
}

/* Every beginning of a picture, and the picture with bytes too many. */
static void pam_pieces(void) {
    const char *text = "P7\n" KEYS TYPE END;
    const size_t start = strlen(text), whole = start + 8;
    uint32_t *answer = words_of(4, 7), *flag = words_of(1, 7), *size = words_of(3, 7);
    for (size_t n = 0; n <= whole + 8; n++) {
        uint8_t *input = bytes_of(n, 10);
        memcpy(input, text, n < start ? n : start);
        EXPECT(jonquilsaw_read_pam_header(input, n, answer, 4) == (n < start ? 11u : 0u));
        EXPECT(jonquilsaw_pam_unfinished(input, n, flag, 1) == 0 && flag[0] == (n >= 3 && n < start));
        EXPECT(n < start ? words_all(answer, 4, 7) : answer[0] == 2 && answer[1] == 1 && answer[2] == start && answer[3] == 0);
        EXPECT(jonquilsaw_read_pam(input, n, size, 3) == (n < start ? 11u : n == whole ? 0u : 3u));
        EXPECT(n == whole ? size[0] == 2 && size[1] == 1 && size[2] == 7 : words_all(size, 3, 7));
        jonquilsaw_size typed = {5, 6};
        size_t at = 9;
        const uint8_t *pixels = NULL;
        EXPECT(jonquilsaw_pam_read_header(input, n, &typed, &at) == (n < start ? 11u : 0u));
        EXPECT(n < start ? typed.width == 5 && typed.height == 6 && at == 9 : typed.width == 2 && typed.height == 1 && at == start);
        typed.width = 5;
        EXPECT(jonquilsaw_pam_read(input, n, &typed, &pixels) == (n < start ? 11u : n == whole ? 0u : 3u));
        EXPECT(n == whole ? typed.width == 2 && typed.height == 1 && pixels == input + start : typed.width == 5 && pixels == NULL);
        for (int w = 0; w < 4; w++) answer[w] = 7;
        for (int w = 0; w < 2; w++) size[w] = 7;
        give_back(input, n);
    }
}

/* What is written is the form, byte for byte, and reads back; each refusal in its order keeps every buffer. */
static void pam_written(void) {
    const jonquilsaw_size sizes[] = {{1, 1}, {9, 10}, {10, 9}, {99, 100}, {100, 99}, {7, 999}, {1000, 3}, {9999, 1}, {1, 10000}, {16384, 2}, {2, 16384}};
    for (size_t i = 0; i < sizeof sizes / sizeof *sizes; i++) {
        const uint32_t w = sizes[i].width, h = sizes[i].height;
        const size_t n = (size_t)4 * w * h;
        char text[128];
        const size_t start = (size_t)snprintf(text, sizeof text, "P7\nWIDTH %u\nHEIGHT %u\nDEPTH 4\nMAXVAL 255\nTUPLTYPE RGB_ALPHA\nENDHDR\n", w, h);
        uint32_t *bytes = words_of(2, 7), *size = words_of(2, 7);
        EXPECT(jonquilsaw_pam_header_length(w, h, bytes, 2) == 0 && bytes[0] == start && bytes[1] == 7);
        EXPECT(jonquilsaw_pam_length(w, h, bytes, 1) == 0 && bytes[0] == start + n && bytes[1] == 7);
        uint8_t *pixels = bytes_of(n, 0), *out = bytes_of(start + n, 9), *head = bytes_of(start, 9), *room = bytes_of(JONQUILSAW_PAM_HEADER_MOST, 9);
        for (size_t k = 0; k < n; k++) pixels[k] = (uint8_t)(k * 37 + k / 251);
        EXPECT(jonquilsaw_write_pam_header(w, h, head, start - 1) == JONQUILSAW_OUTPUT_LENGTH && all(head, start, 9));
        EXPECT(jonquilsaw_write_pam_header(w, h, head, start) == 0 && memcmp(head, text, start) == 0);
        EXPECT(jonquilsaw_write_pam(w, h, pixels, n - 1, out, start + n) == JONQUILSAW_PIXEL_BUFFER_MISMATCH && all(out, start + n, 9));
        EXPECT(jonquilsaw_write_pam(w, h, pixels, n - 1, out, start + n - 1) == JONQUILSAW_PIXEL_BUFFER_MISMATCH && all(out, start + n, 9));
        EXPECT(jonquilsaw_write_pam(w, h, pixels, n, out, start + n - 1) == JONQUILSAW_OUTPUT_LENGTH && all(out, start + n, 9));
        EXPECT(jonquilsaw_write_pam(w, h, pixels, n, out, start + n) == 0 && memcmp(out, text, start) == 0 && memcmp(out + start, pixels, n) == 0);
        EXPECT(jonquilsaw_read_pam(out, start + n, size, 2) == 0 && size[0] == w && size[1] == h);
        size_t count = 0;
        EXPECT(jonquilsaw_pam_write_header(sizes[i], room, &count) == 0 && count == start && memcmp(room, text, start) == 0 && all(room + start, JONQUILSAW_PAM_HEADER_MOST - start, 9));
        give_back(pixels, n);
        give_back(out, start + n);
    }
    uint32_t *bytes = words_of(2, 7);
    uint8_t *out = bytes_of(80, 9), *pixels = bytes_of(4, 1);
    size_t count = 5;
    EXPECT(jonquilsaw_pam_length(16384, 16384, bytes, 1) == 0 && bytes[0] == 1073741824u + JONQUILSAW_PAM_HEADER_MOST);
    bytes[0] = 7;
    const jonquilsaw_size none[] = {{0, 1}, {1, 0}, {16385, 1}, {1, 16385}, {4294967295u, 1}};
    for (size_t i = 0; i < sizeof none / sizeof *none; i++) {
        const uint32_t w = none[i].width, h = none[i].height;
        EXPECT(jonquilsaw_pam_header_length(w, h, bytes, 0) == JONQUILSAW_BOUNDARY && jonquilsaw_pam_length(w, h, bytes, 0) == JONQUILSAW_BOUNDARY);
        EXPECT(jonquilsaw_pam_header_length(w, h, bytes, 2) == JONQUILSAW_INVALID_DIMENSIONS && jonquilsaw_pam_length(w, h, bytes, 2) == JONQUILSAW_INVALID_DIMENSIONS);
        EXPECT(jonquilsaw_write_pam_header(w, h, out, 80) == JONQUILSAW_INVALID_DIMENSIONS);
        EXPECT(jonquilsaw_write_pam(w, h, pixels, 4, out, 80) == JONQUILSAW_INVALID_DIMENSIONS);
        EXPECT(jonquilsaw_pam_write_header(none[i], out, &count) == JONQUILSAW_INVALID_DIMENSIONS && count == 5);
    }
    EXPECT(words_all(bytes, 2, 7) && all(out, 80, 9) && all(pixels, 4, 1));
}

static void pam(void) {
    pam_headers();
    pam_pieces();
    pam_written();
}

/* ---- groups */

/* A group's plan as words, and the words of a fresh record of it. */
static void plan_of(uint32_t *words, uint32_t w, uint32_t h, uint32_t layout, jonquilsaw_rect crop, uint32_t m, uint32_t g, uint32_t kind, uint32_t lanes) {
    const jonquilsaw_size source = {w, h}, target = {m, g};
    jonquilsaw_plan_words(words, source, layout, crop, target, kind, lanes);
}

/* The job of a plan alone: its own start, in lent words. */
static uint32_t start_alone(const uint32_t *p, uint32_t *work, size_t work_count, uint32_t *record, size_t record_count) {
    if (p[9] == JONQUILSAW_PICTURE) return jonquilsaw_start(p[0], p[1], p[2], p[3], p[4], p[5], p[6], p[7], p[8], work, work_count, record, record_count);
    return jonquilsaw_start_plane(p[0], p[1], p[10], p[3], p[4], p[5], p[6], p[7], p[8], work, work_count, record, record_count);
}

/* A group that is lent `most` rows at a time against each of its jobs alone, which is offered the rows that the group accepted: after every call records, work
 * values and rows handed out are the same. Every buffer has a part behind what is needed, which stays as it was. */
static void as_alone(const uint32_t *plans, uint32_t count, const uint8_t *pixels, uint32_t most) {
    const uint32_t w = plans[0], h = plans[1], lanes = plans[9] == JONQUILSAW_PICTURE ? 4 : plans[10];
    const size_t row = (size_t)lanes * w, words = JONQUILSAW_GROUP_WORDS(count);
    uint32_t *record = words_of(words + 3, 66), *accepted = words_of(2, 55), *alone[JONQUILSAW_GROUP_LIMIT], *own[JONQUILSAW_GROUP_LIMIT], taken[JONQUILSAW_GROUP_LIMIT] = {0};
    uint8_t *out[JONQUILSAW_GROUP_LIMIT], *own_out[JONQUILSAW_GROUP_LIMIT];
    size_t need[JONQUILSAW_GROUP_LIMIT], at[JONQUILSAW_GROUP_LIMIT], total = 0;
    for (uint32_t i = 0; i < count; i++) {
        const uint32_t m = plans[11 * i + 7], g = plans[11 * i + 8];
        need[i] = JONQUILSAW_WORK_WORDS_OF(lanes, m);
        at[i] = total;
        total += need[i];
        alone[i] = words_of(14, 0);
        own[i] = words_of(need[i], 7);
        out[i] = bytes_of((size_t)lanes * m * g, 1);
        own_out[i] = bytes_of((size_t)lanes * m * g, 2);
        EXPECT(start_alone(plans + 11 * i, own[i], need[i], alone[i], 14) == 0);
    }
    uint32_t *work = words_of(total + 2, 77), done = 0;
#define SAME                                                                                                                                                    \
    for (uint32_t i = 0; i < count; i++)                                                                                                                         \
        EXPECT(memcmp(record + JONQUILSAW_GROUP_WORDS(i), alone[i], 56) == 0 && memcmp(work + at[i], own[i], 4 * need[i]) == 0);                                 \
    EXPECT(record[0] == count && words_all(record + words, 3, 66) && words_all(work + total, 2, 77) && accepted[1] == 55)
    EXPECT(jonquilsaw_start_group(plans, (size_t)11 * count, count, work, total + 2, record, words + 3) == 0);
    SAME;
    while (done < h) {
        const uint32_t rows = most < h - done ? most : h - done;
        uint32_t fed = 0, first = 0;
        accepted[0] = 0;
        EXPECT(jonquilsaw_offer_group(record, words + 3, pixels + row * done, row * rows, work, total + 2, accepted, 2) == 0);
        if (accepted[0] == 0 || accepted[0] > rows) {
            fprintf(stderr, "bindings/c/test.c: %u rows accepted of %u by a group\n", accepted[0], rows);
            exit(1);
        }
        for (uint32_t i = 0; i < count; i++) {
            EXPECT(jonquilsaw_offer(alone[i], 14, pixels + row * done, row * accepted[0], own[i], need[i], &fed, 1) == 0);
            EXPECT(fed == accepted[0]);
        }
        done += accepted[0];
        SAME;
        /* the last job first: the order of takes among jobs is free */
        for (uint32_t k = count; k-- > 0;) {
            const size_t line = (size_t)lanes * plans[11 * k + 7];
            while (taken[k] < plans[11 * k + 8] && jonquilsaw_take_group(record, words + 3, k, out[k] + line * taken[k], line, work, total + 2) == 0) {
                EXPECT(jonquilsaw_take(alone[k], 14, own_out[k] + line * taken[k], line, own[k], need[k]) == 0);
                taken[k]++;
                first++;
                SAME;
            }
        }
        /* it stopped at the last row offered, or since a row was ready */
        EXPECT(accepted[0] == rows || first > 0);
    }
    for (uint32_t i = 0; i < count; i++) {
        const size_t o = (size_t)lanes * plans[11 * i + 7] * plans[11 * i + 8];
        EXPECT(taken[i] == plans[11 * i + 8] && memcmp(out[i], own_out[i], o) == 0);
        give_back(out[i], o);
        give_back(own_out[i], o);
        give_back(own[i], 4 * need[i]);
        give_back(alone[i], 56);
    }
    EXPECT(jonquilsaw_offer_group(record, words, pixels, row, work, total, accepted, 1) == JONQUILSAW_ALL_ACCEPTED);
    give_back(record, 4 * (words + 3));
    give_back(accepted, 8);
    give_back(work, 4 * (total + 2));
#undef SAME
}

/* Previews of one random picture and of one random plane, at once and alone. */
static void groups_of_all_kinds(void) {
    const jonquilsaw_rect all_of = {0, 0, 13, 17}, part = {2, 3, 9, 11}, strip = {5, 15, 3, 2};
    uint8_t *pixels = bytes_of(4 * 13 * 17, 0);
    uint32_t *plans = words_of(JONQUILSAW_PLAN_WORDS * JONQUILSAW_GROUP_LIMIT, 0);
    for (size_t i = 0; i < 4 * 13 * 17; i++) pixels[i] = any_byte();
    for (uint32_t form = 0; form < 3 + JONQUILSAW_MAX_LANES; form++) {
        const uint32_t kind = form < 3 ? JONQUILSAW_PICTURE : JONQUILSAW_PLANE, layout = form < 3 ? form : 0, lanes = form < 3 ? 4 : form - 2;
        const uint32_t most[] = {1, 3, 17};
        plan_of(plans, 13, 17, layout, all_of, 5, 7, kind, lanes);
        plan_of(plans + 11, 13, 17, layout, part, 20, 23, kind, lanes);
        plan_of(plans + 22, 13, 17, layout, strip, 3, 2, kind, lanes);
        /* as many as a group holds, all of other sizes */
        for (uint32_t i = 3; i < JONQUILSAW_GROUP_LIMIT; i++) plan_of(plans + 11 * i, 13, 17, layout, i % 2 ? part : all_of, 1 + 2 * i, 19 - 2 * i, kind, lanes);
        for (size_t i = 0; i < sizeof most / sizeof *most; i++) {
            as_alone(plans, 1, pixels, most[i]);
            as_alone(plans, 3, pixels, most[i]);
            as_alone(plans, JONQUILSAW_GROUP_LIMIT, pixels, most[i]);
        }
        /* a picture's lanes and a plane's layout are not what their words say */
        if (kind == JONQUILSAW_PICTURE) plans[10] = 9, plans[21] = 0;
        else plans[2] = 1, plans[13] = 2;
        as_alone(plans, 3, pixels, 4);
    }
    give_back(pixels, 4 * 13 * 17);
    give_back(plans, 4 * JONQUILSAW_PLAN_WORDS * JONQUILSAW_GROUP_LIMIT);
}

/* Two jobs over a plane of three lanes, 5 by 4: its crop 3 by 2 at (1, 2) to 2 by 7, and all of it to 4 by 1; 12 and 24 work values. The places of the wrong
 * arguments are 11 words of each plan, then how many words of plans, how many jobs, how many work values and how many words of record. */
static uint32_t *group_plans, *group_work, *group_record;
enum { PLANS_LENT = 22, JOBS, WORK_LENT, RECORD_LENT, GROUP_ARGUMENTS };

static uint32_t call_start_group(const uint64_t *a) {
    /* every plan behind the two is the second one */
    for (uint32_t i = 0; i < 11 * (JONQUILSAW_GROUP_LIMIT + 1); i++) group_plans[i] = (uint32_t)a[i < 22 ? i : 11 + i % 11];
    return jonquilsaw_start_group(group_plans, a[PLANS_LENT], (uint32_t)a[JOBS], group_work, a[WORK_LENT], group_record, a[RECORD_LENT]);
}

static const uint64_t group_right[GROUP_ARGUMENTS] = {5, 4, 0, 1, 2, 3, 2, 2, 7, 1, 3, 5, 4, 0, 0, 0, 5, 4, 4, 1, 1, 3, 22, 2, 40, 30};

static int start_group_kept(void) { return words_all(group_work, 40, 5) && words_all(group_record, 30, 6); }

static void starts_of_groups(void) {
    const uint64_t past = 16385, most = 4294967295u;
    const wrong all_wrong[] = {
        {PLANS_LENT, 21, 100}, {PLANS_LENT, 0, 100}, {RECORD_LENT, 28, 100}, {RECORD_LENT, 0, 100}, {2, 3, 100}, {2, most, 100}, {13, 3, 100}, {9, 2, 100}, {20, 2, 100}, {20, most, 100},
        {0, 0, 1}, {12, past, 1}, {5, 0, 1}, {17, 0, 1}, {7, 0, 1}, {18, past, 1}, {8, most, 1}, {19, 0, 1},
        {10, 0, 10}, {10, 5, 10}, {21, 5, 10}, {21, most, 10},
        {3, most, 2}, {4, most, 2}, {14, 1, 2}, {15, 2, 2},
        {0, 6, 13}, {12, 5, 13}, {21, 2, 13}, {10, 4, 13}, {20, 0, 13}, {JOBS, 0, 13},
        {WORK_LENT, 35, 5}, {WORK_LENT, 0, 5}};
    const uint32_t order[] = {100, 1, 10, 2, 13, 14, 5};
    const uint32_t fresh[29] = {2, 5, 4, 0, 1, 2, 3, 2, 2, 7, 0, 0, 0, JONQUILSAW_PLANE, 3, 5, 4, 0, 0, 0, 5, 4, 4, 1, 0, 0, 0, JONQUILSAW_PLANE, 3};
    group_plans = words_of(11 * (JONQUILSAW_GROUP_LIMIT + 1), 0);
    group_work = words_of(40, 5);
    group_record = words_of(30, 6);
    /* as every_two, but that a start of no jobs looks at no plan, and a picture's lanes are not looked at */
    for (size_t i = 0; i < sizeof all_wrong / sizeof *all_wrong; i++) {
        for (size_t k = 0; k <= i; k++) {
            const wrong a = all_wrong[i], b = all_wrong[k];
            if ((k != i && a.place == b.place) || (a.place == 20 && a.value == 0 && b.place == 21)) continue;
            uint64_t given[GROUP_ARGUMENTS];
            memcpy(given, group_right, sizeof given);
            given[a.place] = a.value;
            given[b.place] = b.value;
            uint32_t none = a.place == JOBS || b.place == JOBS, want = 0;
            if (none) want = (a.place == RECORD_LENT && a.value == 0) || (b.place == RECORD_LENT && b.value == 0) ? 100 : 13;
            else {
                const uint32_t *first = order;
                while (*first != a.number && *first != b.number) first++;
                want = *first;
            }
            EXPECT(call_start_group(given) == want);
            EXPECT(start_group_kept());
        }
    }
    EXPECT(call_start_group(group_right) == 0);
    EXPECT(memcmp(group_record, fresh, sizeof fresh) == 0 && group_record[29] == 6);
    EXPECT(words_all(group_work, 36, 0) && words_all(group_work + 36, 4, 5));

    /* exactly the words and values that are needed */
    uint64_t exact[GROUP_ARGUMENTS];
    memcpy(exact, group_right, sizeof exact);
    exact[WORK_LENT] = 36;
    exact[RECORD_LENT] = 29;
    EXPECT(call_start_group(exact) == 0);
    give_back(group_work, 160);
    give_back(group_record, 120);

    /* as many jobs as a group holds, and one more: the numbers ahead of 14 look at the first so many only */
    const uint32_t limit = JONQUILSAW_GROUP_LIMIT, over = limit + 1;
    const size_t need = 12 + 24 * (size_t)(limit - 1), words = JONQUILSAW_GROUP_WORDS(limit);
    group_work = words_of(need + 1, 5);
    group_record = words_of(words + 1, 6);
    uint32_t *plans = group_plans;
    EXPECT(jonquilsaw_start_group(plans, 11 * over, over, group_work, need + 1, group_record, words + 1) == JONQUILSAW_GROUP_TOO_LARGE);
    EXPECT(jonquilsaw_start_group(plans, 11 * limit, over, group_work, 0, group_record, words) == JONQUILSAW_GROUP_TOO_LARGE);
    EXPECT(jonquilsaw_start_group(plans, 11 * limit, 4294967295u, group_work, 0, group_record, words) == JONQUILSAW_GROUP_TOO_LARGE);
    EXPECT(jonquilsaw_start_group(plans, 11 * limit - 1, over, group_work, 0, group_record, words) == JONQUILSAW_BOUNDARY);
    EXPECT(jonquilsaw_start_group(plans, 11 * limit, over, group_work, 0, group_record, words - 1) == JONQUILSAW_BOUNDARY);
    plans[11 * limit + 7] = 0;
    EXPECT(jonquilsaw_start_group(plans, 11 * over, over, group_work, 0, group_record, words) == JONQUILSAW_GROUP_TOO_LARGE);
    plans[11 * limit + 2] = 3;
    EXPECT(jonquilsaw_start_group(plans, 11 * over, over, group_work, 0, group_record, words) == JONQUILSAW_GROUP_TOO_LARGE);
    plans[11 * (limit - 1) + 10] = 2;
    EXPECT(jonquilsaw_start_group(plans, 11 * over, over, group_work, 0, group_record, words) == JONQUILSAW_INVALID_GROUP);
    plans[11 * (limit - 1) + 7] = 0;
    EXPECT(jonquilsaw_start_group(plans, 11 * over, over, group_work, 0, group_record, words) == JONQUILSAW_INVALID_DIMENSIONS);
    plans[11 * (limit - 1) + 7] = 4;
    plans[11 * (limit - 1) + 10] = 3;
    EXPECT(words_all(group_work, need + 1, 5) && words_all(group_record, words + 1, 6));
    EXPECT(jonquilsaw_start_group(plans, 11 * limit, limit, group_work, need - 1, group_record, words) == JONQUILSAW_WORK_LENGTH);
    EXPECT(words_all(group_work, need + 1, 5) && words_all(group_record, words + 1, 6));
    EXPECT(jonquilsaw_start_group(plans, 11 * limit, limit, group_work, need, group_record, words) == 0);
    EXPECT(words_all(group_work, need, 0) && group_work[need] == 5 && group_record[0] == limit && group_record[words] == 6);
    /* no jobs: no words of plans, and one of record */
    EXPECT(jonquilsaw_start_group(NULL, 0, 0, NULL, 0, NULL, 0) == JONQUILSAW_BOUNDARY);
    EXPECT(jonquilsaw_start_group(NULL, 0, 0, NULL, 0, group_record, 1) == JONQUILSAW_INVALID_GROUP && group_record[0] == limit);
    give_back(group_work, 4 * (need + 1));
    give_back(group_record, 4 * (words + 1));
    give_back(group_plans, 44 * over);
}

/* The refusals of a group's offer and take in their order, and what they move on, of a 2 by 6 picture of bytes 100 to 1 by 4 and to 2 by 3: 8 and 16 work values. */
static void groups_refused(void) {
    const jonquilsaw_rect whole = {0, 0, 2, 6};
    uint32_t plans[22];
    uint8_t *rows = bytes_of(48, 100), *out = bytes_of(8, 9), *kept_rows = bytes_of(48, 100);
    uint32_t *work = words_of(26, 3), *record = words_of(30, 4), *accepted = words_of(2, 8), *kept_work = words_of(26, 0), *kept_record = words_of(30, 0);
    plan_of(plans, 2, 6, JONQUILSAW_BGRA8, whole, 1, 4, JONQUILSAW_PICTURE, 4);
    plan_of(plans + 11, 2, 6, JONQUILSAW_BGRA8, whole, 2, 3, JONQUILSAW_PICTURE, 4);
    EXPECT(jonquilsaw_start_group(plans, 22, 2, work, 26, record, 30) == 0 && words_all(work, 24, 0) && words_all(work + 24, 2, 3));
    memcpy(kept_work, work, 104);
    memcpy(kept_record, record, 120);
#define KEPT (memcmp(work, kept_work, 104) == 0 && memcmp(record, kept_record, 120) == 0 && words_all(accepted, 2, 8) && all(out, 8, 9) && memcmp(rows, kept_rows, 48) == 0)
    EXPECT(jonquilsaw_offer_group(record, 28, rows, 0, work, 0, accepted, 0) == JONQUILSAW_BOUNDARY && KEPT);
    EXPECT(jonquilsaw_offer_group(NULL, 0, NULL, 0, NULL, 0, NULL, 0) == JONQUILSAW_BOUNDARY);
    /* too few words: none, the count alone, one job, all but the last */
    for (size_t n = 0; n < 29; n += n == 1 ? 13 : n == 15 ? 13 : 1) {
        EXPECT(jonquilsaw_offer_group(record, n, rows, 0, work, 0, accepted, 1) == JONQUILSAW_INVALID_RECORD && KEPT);
        EXPECT(jonquilsaw_take_group(record, n, 9, out, 0, work, 0) == JONQUILSAW_INVALID_RECORD && KEPT);
    }
    /* words that make no group: the count, then of either job the layout, the kind, the flag; and those that no group has: a flag before the first row, a row taken too soon,
     * rows accepted of one job alone, a crop, another source, layout or kind, other lanes */
    const struct {
        int place;
        uint32_t word;
    } all_wrong[] = {{0, 0}, {0, 3}, {0, JONQUILSAW_GROUP_LIMIT + 1}, {0, 4294967295u}, {3, 3}, {17, 4294967295u}, {13, 2}, {27, 2}, {12, 2}, {26, 2}, {12, 1}, {26, 1}, {11, 1}, {25, 1}, {10, 1}, {24, 1}, {24, 7}, {6, 0}, {20, 3}, {1, 3}, {16, 7}, {17, 0}, {27, 1}, {14, 3}, {28, 5}};
    for (size_t i = 0; i < sizeof all_wrong / sizeof *all_wrong; i++) {
        const uint32_t right = record[all_wrong[i].place];
        record[all_wrong[i].place] = kept_record[all_wrong[i].place] = all_wrong[i].word;
        EXPECT(jonquilsaw_offer_group(record, 29, rows, 0, work, 0, accepted, 1) == JONQUILSAW_INVALID_RECORD && KEPT);
        EXPECT(jonquilsaw_take_group(record, 29, 2, out, 0, work, 0) == JONQUILSAW_INVALID_RECORD && KEPT);
        record[all_wrong[i].place] = kept_record[all_wrong[i].place] = right;
    }
    EXPECT(jonquilsaw_offer_group(record, 30, rows, 0, work, 0, accepted, 1) == JONQUILSAW_PIXEL_BUFFER_MISMATCH && KEPT);
    EXPECT(jonquilsaw_offer_group(record, 30, rows, 12, work, 0, accepted, 1) == JONQUILSAW_PIXEL_BUFFER_MISMATCH && KEPT);
    EXPECT(jonquilsaw_offer_group(record, 30, rows, 8, work, 23, accepted, 1) == JONQUILSAW_WORK_LENGTH && KEPT);
    /* a job that the group lacks, ahead of the output's length and the work values; the first job has its own part of the values, yet all are asked for */
    EXPECT(jonquilsaw_take_group(record, 30, 2, out, 3, work, 0) == JONQUILSAW_INVALID_GROUP && KEPT);
    EXPECT(jonquilsaw_take_group(record, 30, 4294967295u, out, 3, work, 0) == JONQUILSAW_INVALID_GROUP && KEPT);
    EXPECT(jonquilsaw_take_group(record, 30, 0, out, 8, work, 0) == JONQUILSAW_OUTPUT_LENGTH && KEPT);
    EXPECT(jonquilsaw_take_group(record, 30, 1, out, 4, work, 0) == JONQUILSAW_OUTPUT_LENGTH && KEPT);
    EXPECT(jonquilsaw_take_group(record, 30, 0, out, 4, work, 23) == JONQUILSAW_WORK_LENGTH && KEPT);
    EXPECT(jonquilsaw_take_group(record, 30, 1, out, 8, work, 23) == JONQUILSAW_WORK_LENGTH && KEPT);
    EXPECT(jonquilsaw_take_group(record, 30, 0, out, 4, work, 24) == JONQUILSAW_NONE_READY && KEPT);
    EXPECT(jonquilsaw_take_group(record, 30, 1, out, 8, work, 24) == JONQUILSAW_NONE_READY && KEPT);
    /* all six rows lent: the second makes a row of both jobs ready */
    EXPECT(jonquilsaw_offer_group(record, 30, rows, 48, work, 26, accepted, 2) == 0);
    EXPECT(accepted[0] == 2 && accepted[1] == 8 && record[0] == 2 && record[10] == 2 && record[24] == 2 && record[29] == 4 && words_all(work + 24, 2, 3));
    accepted[0] = 8;
    for (uint32_t job = 0; job < 2; job++) {
        memcpy(kept_work, work, 104);
        memcpy(kept_record, record, 120);
        EXPECT(jonquilsaw_offer_group(record, 30, rows, 8, work, 23, accepted, 1) == JONQUILSAW_WORK_LENGTH && KEPT);
        EXPECT(jonquilsaw_offer_group(record, 30, rows, 8, work, 26, accepted, 1) == JONQUILSAW_ROW_READY && KEPT);
        /* the row of one job leaves the other's record and part */
        EXPECT(jonquilsaw_take_group(record, 30, job, out, job ? 8 : 4, work, 26) == 0 && out[3] == 100 && (job || all(out + 4, 4, 9)));
        EXPECT(record[11 + 14 * job] == 1 && record[12 + 14 * job] == 1 && record[29] == 4 && words_all(work + 24, 2, 3));
        EXPECT(memcmp(record + (job ? 0 : 15), kept_record + (job ? 0 : 15), job ? 60 : 56) == 0);
        EXPECT(memcmp(work + (job ? 0 : 8), kept_work + (job ? 0 : 8), job ? 32 : 64) == 0);
        memset(out, 9, 8);
    }
    memcpy(kept_work, work, 104);
    memcpy(kept_record, record, 120);
    EXPECT(jonquilsaw_take_group(record, 30, 1, out, 8, work, 26) == JONQUILSAW_NONE_READY && KEPT);
#undef KEPT
    /* a record filled by hand, in the midst of a picture: what stands beyond the count says nothing, and stays */
    uint32_t *filled = words_of(JONQUILSAW_GROUP_WORDS(3), 4294967295u);
    memcpy(filled, record, 116);
    EXPECT(jonquilsaw_offer_group(filled, JONQUILSAW_GROUP_WORDS(3), rows + 16, 8, work, 24, accepted, 1) == 0 && accepted[0] == 1);
    EXPECT(filled[0] == 2 && filled[10] == 3 && filled[24] == 3 && words_all(filled + 29, 14, 4294967295u));
    filled[0] = 3;
    EXPECT(jonquilsaw_offer_group(filled, JONQUILSAW_GROUP_WORDS(3), rows + 24, 8, work, 24, accepted, 1) == JONQUILSAW_INVALID_RECORD);
    /* one of its jobs is a group as well, over its own part */
    filled[0] = 1;
    EXPECT(jonquilsaw_take_group(filled, JONQUILSAW_GROUP_WORDS(1), 0, out, 4, work, 8) == 0 && filled[11] == 2 && filled[25] == 1);
    EXPECT(jonquilsaw_take_group(filled, JONQUILSAW_GROUP_WORDS(1), 1, out, 4, work, 8) == JONQUILSAW_INVALID_GROUP);
}

/* The header's own functions do what those of the archive do. */
static void groups_with_types(void) {
    const jonquilsaw_size source = {5, 4}, targets[2] = {{2, 3}, {7, 6}};
    const jonquilsaw_plan pictures_of[2] = {{source, JONQUILSAW_ARGB8, {1, 1, 3, 2}, targets[0]}, {source, JONQUILSAW_ARGB8, {0, 0, 5, 4}, targets[1]}};
    const jonquilsaw_plane_plan planes_of[2] = {{source, 2, {1, 1, 3, 2}, targets[0]}, {source, 2, {0, 0, 5, 4}, targets[1]}};
    uint8_t *bytes = bytes_of(80, 0), *out = bytes_of(28, 0);
    uint32_t *work = words_of(72, 5), *own = words_of(56, 0), plans[22], words[29], accepted = 0;
    for (int i = 0; i < 80; i++) bytes[i] = any_byte();
    for (uint32_t kind = 0; kind < 2; kind++) {
        const uint32_t lanes = kind ? 2 : 4;
        const size_t need = 18 * lanes;
        jonquilsaw_group group;
        memset(&group, 9, sizeof group);
        for (uint32_t i = 0; i < 2; i++) plan_of(plans + 11 * i, 5, 4, kind ? JONQUILSAW_RGBA8 : JONQUILSAW_ARGB8, pictures_of[i].crop, targets[i].width, targets[i].height, kind, lanes);
        EXPECT((kind ? jonquilsaw_group_start_planes(&group, planes_of, 2, work, need - 1) : jonquilsaw_group_start(&group, pictures_of, 2, work, need - 1)) == JONQUILSAW_WORK_LENGTH);
        EXPECT((kind ? jonquilsaw_group_start_planes(&group, planes_of, 0, work, need) : jonquilsaw_group_start(&group, pictures_of, 0, work, need)) == JONQUILSAW_INVALID_GROUP);
        EXPECT(group.words[0] == 0x09090909u);
        EXPECT((kind ? jonquilsaw_group_start_planes(&group, planes_of, 2, work, need) : jonquilsaw_group_start(&group, pictures_of, 2, work, need)) == JONQUILSAW_OK);
        EXPECT(jonquilsaw_start_group(plans, 22, 2, work, need, words, 29) == 0 && memcmp(group.words, words, sizeof words) == 0 && group.words[29] == 0x09090909u);
        EXPECT(jonquilsaw_group_count(&group) == 2);
        jonquilsaw_job job = jonquilsaw_group_job(&group, 1);
        EXPECT(start_alone(plans + 11, own, 14 * lanes, words, 14) == 0 && memcmp(job.words, words, 56) == 0);
        EXPECT(jonquilsaw_group_take(&group, 1, out, lanes * 7, work, need) == JONQUILSAW_NONE_READY);
        EXPECT(jonquilsaw_group_offer(&group, bytes, (size_t)lanes * 20, work, need, &accepted) == JONQUILSAW_OK && accepted == 1);
        job = jonquilsaw_group_job(&group, 1);
        EXPECT(jonquilsaw_job_accepted(&job) == 1 && jonquilsaw_job_out_bytes(&job) == lanes * 7 && jonquilsaw_job_kind(&job) == (jonquilsaw_kind)kind);
        EXPECT(jonquilsaw_group_take(&group, 2, out, lanes * 7, work, need) == JONQUILSAW_INVALID_GROUP);
        EXPECT(jonquilsaw_group_take(&group, 1, out, lanes * 7, work, need) == JONQUILSAW_OK);
        job = jonquilsaw_group_job(&group, 1);
        EXPECT(jonquilsaw_job_taken(&job) == 1);
    }
    /* six, and a seventh */
    jonquilsaw_plan seven[7];
    jonquilsaw_group six;
    uint32_t *six_work = words_of(7 * 16, 5);
    for (uint32_t i = 0; i < 7; i++) seven[i] = (jonquilsaw_plan){source, JONQUILSAW_RGBA8, jonquilsaw_whole(source), {2, 1}};
    memset(&six, 9, sizeof six);
    EXPECT(sizeof six == 4 * (1 + 6 * 14));
    EXPECT(jonquilsaw_group_start(&six, seven, 7, six_work, 7 * 16) == JONQUILSAW_GROUP_TOO_LARGE);
    EXPECT(words_all(six_work, 7 * 16, 5) && six.words[0] == 0x09090909u);
    EXPECT(jonquilsaw_group_start(&six, seven, 6, six_work, 7 * 16) == JONQUILSAW_OK && jonquilsaw_group_count(&six) == 6);
    EXPECT(words_all(six_work, 6 * 16, 0) && words_all(six_work + 6 * 16, 16, 5));
    give_back(six_work, 4 * 7 * 16);
    /* more plans than a group holds are not read */
    jonquilsaw_plan many[JONQUILSAW_GROUP_LIMIT];
    jonquilsaw_group group;
    for (uint32_t i = 0; i < JONQUILSAW_GROUP_LIMIT; i++) many[i] = pictures_of[0];
    EXPECT(jonquilsaw_group_start(&group, many, JONQUILSAW_GROUP_LIMIT + 1, work, 72) == JONQUILSAW_GROUP_TOO_LARGE);
    EXPECT(jonquilsaw_group_start(&group, many, 4294967295u, work, 72) == JONQUILSAW_GROUP_TOO_LARGE);
}

static void groups(void) {
    starts_of_groups();
    groups_refused();
    groups_of_all_kinds();
    groups_with_types();
}

/* ---- badges */

/* One colour of a badge over the background's, by mult_argb's matte: the sum is never above 255. */
static uint8_t laid(uint8_t alpha, uint8_t colour, uint8_t under) {
    if (alpha == 0) return under;
    if (alpha == 255) return colour;
    const int sum = by_alpha(colour, alpha, 0) + by_alpha(under, 255u - alpha, 0);
    if (sum > 255) failures++;
    return (uint8_t)sum;
}

/* A badge in one layout on a background in another: of any colours, and of any alphas or of all in turn. Both begin at an odd place and end where nothing can be touched. */
static void badge_on(uint32_t w, uint32_t h, uint32_t layout, uint32_t from, int in_turn) {
    enum { BEFORE = 3 };
    const size_t n = (size_t)4 * w * h;
    uint8_t *background = bytes_of(BEFORE + n, 7), *badge = bytes_of(BEFORE + n, 8), *want = bytes_of(BEFORE + n, 7), *kept = bytes_of(BEFORE + n, 8);
    for (size_t i = BEFORE; i < BEFORE + n; i += 4) {
        uint8_t over[4], under[3], made[3];
        for (int k = 0; k < 4; k++) over[k] = any_byte();
        for (int k = 0; k < 3; k++) under[k] = any_byte();
        if (in_turn) over[3] = (uint8_t)(i / 4);
        for (int k = 0; k < 3; k++) made[k] = laid(over[3], over[k], under[k]);
        put(badge + i, from, over[0], over[1], over[2], over[3]);
        put(background + i, layout, under[0], under[1], under[2], 255);
        put(want + i, layout, made[0], made[1], made[2], 255);
    }
    memcpy(kept, badge, BEFORE + n);
    EXPECT(jonquilsaw_badge_lay(w, h, layout, background + BEFORE, n, w, h, from, badge + BEFORE, n) == 0);
    EXPECT(memcmp(background, want, BEFORE + n) == 0 && memcmp(badge, kept, BEFORE + n) == 0);
    give_back(background, BEFORE + n);
    give_back(badge, BEFORE + n);
    give_back(want, BEFORE + n);
    give_back(kept, BEFORE + n);
}

/* Values worked out by hand, in each pair of layouts. */
static void badges_by_hand(uint32_t layout, uint32_t from) {
    const struct {
        uint8_t over[4], under[3], made[3];
    } trials_of[] = {
        {{200, 100, 50, 0}, {1, 2, 3}, {1, 2, 3}},
        {{200, 100, 50, 255}, {1, 2, 3}, {200, 100, 50}},
        /* 200 x 8421504 + 2^23 is 100 x 2^24 and some, 100 x 8355711 + 2^23 is 50 x 2^24 and some */
        {{200, 255, 0, 128}, {100, 0, 255}, {150, 128, 127}},
        /* 65793 x 127 is below 2^23 and 65793 x 128 is not */
        {{127, 128, 255, 1}, {0, 0, 0}, {0, 1, 1}},
        {{255, 255, 255, 77}, {255, 255, 255}, {255, 255, 255}},
    };
    const size_t count = sizeof trials_of / sizeof *trials_of;
    uint8_t *background = bytes_of(4 * count, 0), *badge = bytes_of(4 * count, 0), *want = bytes_of(4 * count, 0);
    for (size_t i = 0; i < count; i++) {
        put(badge + 4 * i, from, trials_of[i].over[0], trials_of[i].over[1], trials_of[i].over[2], trials_of[i].over[3]);
        put(background + 4 * i, layout, trials_of[i].under[0], trials_of[i].under[1], trials_of[i].under[2], 255);
        put(want + 4 * i, layout, trials_of[i].made[0], trials_of[i].made[1], trials_of[i].made[2], 255);
    }
    EXPECT(jonquilsaw_badge_lay((uint32_t)count, 1, layout, background, 4 * count, (uint32_t)count, 1, from, badge, 4 * count) == 0);
    EXPECT(memcmp(background, want, 4 * count) == 0);
}

/* What a call is given: the arguments of jonquilsaw_badge_lay but for the pointers, and the alpha byte of the last pixel that is lent. */
enum { NONE, WIDE, HIGH, LAYOUT, PIXELS_LENT, BADGE_WIDE, BADGE_HIGH, BADGE_LAYOUT, BADGE_LENT, LAST_ALPHA, BADGE_ARGUMENTS };

/* Each cause of 100, 1, 3, 15 and 16, alone and two at a time: the first of the order is told, and nothing is written. */
static void badges_refused(uint32_t layout, uint32_t from) {
    const uint32_t right[BADGE_ARGUMENTS] = {0, 2, 3, layout, 24, 2, 3, from, 24, 255};
    const struct {
        uint32_t number;
        struct {
            int place;
            uint32_t value;
        } given[2];
    } wrong[] = {
        {100, {{LAYOUT, 3}}},
        {100, {{LAYOUT, 4294967295u}}},
        {100, {{BADGE_LAYOUT, 3}}},
        {100, {{BADGE_LAYOUT, 4294967295u}}},
        {1, {{WIDE, 0}}},
        {1, {{WIDE, 16385}}},
        {1, {{HIGH, 0}}},
        {1, {{HIGH, 4294967295u}}},
        {1, {{BADGE_WIDE, 0}}},
        {1, {{BADGE_WIDE, 16385}}},
        {1, {{BADGE_HIGH, 0}}},
        {1, {{BADGE_HIGH, 4294967295u}}},
        {3, {{PIXELS_LENT, 0}}},
        {3, {{PIXELS_LENT, 23}}},
        {3, {{PIXELS_LENT, 28}}},
        {3, {{BADGE_LENT, 0}}},
        {3, {{BADGE_LENT, 23}}},
        {3, {{BADGE_LENT, 28}}},
        /* both sides exchanged, which takes as many bytes; or one side alone, with the bytes of it */
        {15, {{BADGE_WIDE, 3}, {BADGE_HIGH, 2}}},
        {15, {{BADGE_WIDE, 1}, {BADGE_LENT, 12}}},
        {15, {{BADGE_HIGH, 2}, {BADGE_LENT, 16}}},
        {15, {{WIDE, 3}, {HIGH, 2}}},
        {15, {{WIDE, 1}, {PIXELS_LENT, 12}}},
        {15, {{HIGH, 2}, {PIXELS_LENT, 16}}},
        {16, {{LAST_ALPHA, 254}}},
        {16, {{LAST_ALPHA, 0}}},
    };
    static const uint32_t order[] = {100, 1, 3, 15, 16};
    const size_t count = sizeof wrong / sizeof *wrong;
    uint8_t *background = bytes_of(28, 255), *badge = bytes_of(28, 128), *kept = bytes_of(28, 0), *kept_badge = bytes_of(28, 128);
    for (size_t i = 0; i < count; i++) {
        for (size_t j = i; j < count; j++) {
            uint32_t given[BADGE_ARGUMENTS];
            int said[BADGE_ARGUMENTS] = {0}, meet = 0;
            memcpy(given, right, sizeof given);
            for (int k = 0; k < 2; k++) {
                given[wrong[i].given[k].place] = wrong[i].given[k].value;
                said[wrong[i].given[k].place] = 1;
            }
            for (int k = 0; k < 2; k++) {
                meet |= wrong[j].given[k].place != NONE && said[wrong[j].given[k].place];
                given[wrong[j].given[k].place] = wrong[j].given[k].value;
            }
            /* an argument has one value, and two sizes that are not the right one may be equal */
            if (j != i && (meet || (wrong[i].number == 15 && wrong[j].number == 15))) continue;
            const uint32_t *first = order;
            while (*first != wrong[i].number && *first != wrong[j].number) first++;
            memset(background, 255, 28);
            if (given[PIXELS_LENT] >= 4) background[given[PIXELS_LENT] / 4 * 4 - 4 + (uint32_t)places[layout][3]] = (uint8_t)given[LAST_ALPHA];
            memcpy(kept, background, 28);
            EXPECT(jonquilsaw_badge_lay(given[WIDE], given[HIGH], given[LAYOUT], background, given[PIXELS_LENT], given[BADGE_WIDE], given[BADGE_HIGH], given[BADGE_LAYOUT], badge, given[BADGE_LENT]) == *first);
            EXPECT(memcmp(background, kept, 28) == 0 && memcmp(badge, kept_badge, 28) == 0);
        }
    }
    /* one alpha byte in any pixel, under a badge that would hide it, leave it or blend it */
    for (uint32_t pixel = 0; pixel < 6; pixel++) {
        for (uint32_t value = 0; value < 255; value += 127) {
            for (uint32_t over = 0; over < 256; over += 51) {
                memset(background, 255, 28);
                background[4 * pixel + (uint32_t)places[layout][3]] = (uint8_t)value;
                memcpy(kept, background, 28);
                memset(badge, (int)over, 24);
                EXPECT(jonquilsaw_badge_lay(2, 3, layout, background, 24, 2, 3, from, badge, 24) == JONQUILSAW_BACKGROUND_NOT_OPAQUE);
                EXPECT(memcmp(background, kept, 28) == 0 && all(badge, 24, (uint8_t)over));
            }
        }
    }
    /* what is right is taken, and a byte behind it is not touched: white under black of alpha 0 stays white, and a colour of 0 is no alpha */
    memset(background, 255, 28);
    memset(badge, 0, 28);
    EXPECT(jonquilsaw_badge_lay(2, 3, layout, background, 24, 2, 3, from, badge, 24) == 0 && all(background, 28, 255) && all(badge, 28, 0));
    for (uint32_t i = 0; i < 6; i++) put(background + 4 * i, layout, 0, 0, 0, 255);
    memset(badge, 255, 28);
    EXPECT(jonquilsaw_badge_lay(2, 3, layout, background, 24, 2, 3, from, badge, 24) == 0 && all(background, 28, 255) && all(badge, 28, 255));
    give_back(background, 28);
    give_back(badge, 28);
    give_back(kept, 28);
    give_back(kept_badge, 28);
}

static void badges(void) {
    static const jonquilsaw_size sizes_of[] = {{1, 1}, {2, 1}, {1, 3}, {5, 1}, {7, 3}, {16, 2}, {33, 5}};
    for (uint32_t layout = 0; layout < 3; layout++) {
        for (uint32_t from = 0; from < 3; from++) {
            badges_by_hand(layout, from);
            badges_refused(layout, from);
            for (size_t i = 0; i < sizeof sizes_of / sizeof *sizes_of; i++) badge_on(sizes_of[i].width, sizes_of[i].height, layout, from, 0);
            /* each alpha with 64 pairs of colours in each lane, twice */
            badge_on(16384, 1, layout, from, 1);
            badge_on(1, 16384, layout, from, 1);
        }
    }
    EXPECT(jonquilsaw_badge_lay(0, 1, 3, NULL, 0, 1, 1, 0, NULL, 0) == JONQUILSAW_BOUNDARY);
    EXPECT(jonquilsaw_badge_lay(0, 1, 2, NULL, 0, 1, 1, 0, NULL, 0) == JONQUILSAW_INVALID_DIMENSIONS);
    EXPECT(jonquilsaw_badge_lay(1, 1, 2, NULL, 0, 2, 1, 0, NULL, 0) == JONQUILSAW_PIXEL_BUFFER_MISMATCH);
}

/* ---- bands */

/* R of k source rows, of a crop of h rows behind the first `top`. */
static uint64_t rows_by(uint32_t k, uint32_t top, uint32_t h, uint32_t g) { return made_by(k < top ? 0 : k - top < h ? k - top : h, h, g); }

/* The definition: the rows from k on up to, but without, the first at which R rises above R(k). */
static uint32_t band_by(uint32_t k, uint32_t source, uint32_t top, uint32_t h, uint32_t g) {
    if (k < top || g > h) return 0;
    for (uint32_t s = k; s < source; s++)
        if (rows_by(s + 1, top, h, g) > rows_by(k, top, h, g)) return s - k;
    return 0;
}

static uint32_t lanes_of(const uint32_t *plan) { return plan[9] == JONQUILSAW_PICTURE ? JONQUILSAW_PIXEL_LANES : plan[10]; }

/* The record of a plan's job after k rows, t of the preview's taken. */
static void fill_record(uint32_t *record, const uint32_t *plan, uint32_t k, uint32_t t) {
    memcpy(record, plan, 36);
    record[9] = k;
    record[10] = t;
    record[11] = 0;
    record[12] = plan[9];
    record[13] = lanes_of(plan);
}

/* How many rows the next band has, of every record of many heights: whether or not a row is ready plays no part. */
static void bands_counted(void) {
    uint32_t *record = words_of(14, 0), *kept = words_of(14, 0), *count = words_of(2, 8), plan[JONQUILSAW_PLAN_WORDS];
    for (uint32_t h = 1; h <= 24; h++) {
        for (uint32_t i = 0; i < 9 * (h + 3); i++) {
            const uint32_t top = i % 3, below = i / 3 % 3, g = 1 + i / 9, source = top + h + below;
            const jonquilsaw_rect crop = {1, top, 2, h};
            for (uint32_t k = 0; k <= source; k++) {
                plan_of(plan, 3, source, 0, crop, 5, g, k % 2 ? JONQUILSAW_PLANE : JONQUILSAW_PICTURE, 1 + i % 4);
                for (uint64_t t = k == 0 ? 0 : rows_by(k - 1, top, h, g); t <= rows_by(k, top, h, g); t++) {
                    fill_record(record, plan, k, (uint32_t)t);
                    memcpy(kept, record, 56);
                    count[0] = 8;
                    EXPECT(jonquilsaw_band_count(record, 14, count, 2) == 0 && count[0] == band_by(k, source, top, h, g));
                    EXPECT(memcmp(record, kept, 56) == 0 && count[1] == 8);
                }
            }
        }
    }
    /* the largest height, from the last row upwards: a row with which R rises has no band, and any other has one row more than the next */
    const uint32_t targets[] = {1, 2, 3, 5, 127, 5461, 8191, 8192, 8193, 16383, 16384};
    const jonquilsaw_rect tall = {0, 0, 1, 16384};
    for (size_t i = 0; i < sizeof targets / sizeof *targets; i++) {
        uint32_t due = 0, off = 0;
        plan_of(plan, 1, 16384, 0, tall, 1, targets[i], JONQUILSAW_PLANE, 1);
        for (uint32_t k = 16384; k-- > 0;) {
            const uint64_t t = rows_by(k, 0, 16384, targets[i]);
            due = rows_by(k + 1, 0, 16384, targets[i]) > t ? 0 : due + 1;
            fill_record(record, plan, k, (uint32_t)t);
            off += jonquilsaw_band_count(record, 14, count, 1) != 0 || count[0] != due;
        }
        EXPECT(off == 0);
        fill_record(record, plan, 16384, targets[i]);
        EXPECT(jonquilsaw_band_count(record, 14, count, 1) == 0 && count[0] == 0);
    }
    give_back(record, 56);
    give_back(kept, 56);
    give_back(count, 8);
}

/* What a job is lent: 16 words of record, 3 more work values than it needs and 2 words of count. */
typedef struct {
    uint32_t *record, *work, *count;
} lent_job;

static lent_job started(const uint32_t *plan, size_t need) {
    const lent_job job = {words_of(16, 66), words_of(need + 3, 77), words_of(2, 55)};
    EXPECT(start_alone(plan, job.work, need + 3, job.record, 16) == 0);
    return job;
}

static void copy_job(const lent_job *to, const lent_job *from, size_t need) {
    memcpy(to->record, from->record, 64);
    memcpy(to->work, from->work, 4 * (need + 3));
    memcpy(to->count, from->count, 8);
}

static int same_job(const lent_job *a, const lent_job *b, size_t need) {
    return memcmp(a->record, b->record, 64) == 0 && memcmp(a->work, b->work, 4 * (need + 3)) == 0 && memcmp(a->count, b->count, 8) == 0;
}

/* A job that is lent its bands against one that is offered the same rows at once and one that is offered them singly: records, work values, counts and preview rows
 * are the same after every call. Now and then a row that a band would bring is offered by itself. Rows lent end where nothing can be touched, and stay. */
static void by_bands(const uint32_t *plan, const uint8_t *pixels) {
    const uint32_t height = plan[1], lanes = lanes_of(plan);
    const size_t row = (size_t)lanes * plan[0], line = (size_t)lanes * plan[7], need = 2 * line, n = row * height;
    const lent_job band = started(plan, need), at_once = started(plan, need), singly = started(plan, need), turned = started(plan, need);
    uint8_t *room = bytes_of(n, 0), *out = bytes_of(line, 1), *other = bytes_of(line, 2);
    for (uint32_t k = 0, count; k < height; k += count) {
        uint32_t due = 0;
        EXPECT(jonquilsaw_band_count(band.record, 16, &due, 1) == 0 && due == band_by(k, height, plan[4], plan[6], plan[8]));
        if (due > height - k) {
            fprintf(stderr, "bindings/c/test.c: a band of %u rows where %u are left\n", due, height - k);
            exit(1);
        }
        const int whole = due > 0 && any_byte() % 4 != 0;
        count = whole ? due : 1;
        uint8_t *rows = room + row * (height - count);
        memcpy(rows, pixels + row * k, row * count);
        copy_job(&turned, &band, need);
        EXPECT((whole ? jonquilsaw_band_offer : jonquilsaw_offer)(band.record, 16, rows, row * count, band.work, need + k % 4, band.count, 2) == 0);
        EXPECT(jonquilsaw_offer(at_once.record, 16, rows, row * count, at_once.work, need, at_once.count, 2) == 0);
        EXPECT(band.count[0] == count && same_job(&band, &at_once, need));
        for (uint32_t i = 0; i < count; i++) EXPECT(jonquilsaw_offer(singly.record, 16, rows + row * i, row, singly.work, need, singly.count, 2) == 0 && singly.count[0] == 1);
        singly.count[0] = count;
        EXPECT(same_job(&band, &singly, need) && memcmp(rows, pixels + row * k, row * count) == 0);
        /* in another order the sums are the same, which are the first half */
        if (whole) {
            for (uint32_t i = 0; i < count; i++) memcpy(rows + row * i, pixels + row * (k + (i + 1) % count), row);
            EXPECT(jonquilsaw_band_offer(turned.record, 16, rows, row * count, turned.work, need, turned.count, 2) == 0);
            EXPECT(memcmp(turned.record, band.record, 64) == 0 && memcmp(turned.work, band.work, 4 * line) == 0);
        }
        while (jonquilsaw_take(band.record, 16, out, line, band.work, need) == 0) {
            EXPECT(!whole && jonquilsaw_take(at_once.record, 16, other, line, at_once.work, need) == 0 && memcmp(out, other, line) == 0);
            EXPECT(jonquilsaw_take(singly.record, 16, other, line, singly.work, need) == 0 && memcmp(out, other, line) == 0);
            EXPECT(same_job(&band, &at_once, need) && same_job(&band, &singly, need));
        }
    }
    EXPECT(band.record[9] == height && band.record[10] == plan[8] && words_all(band.record + 14, 2, 66) && words_all(band.work + need, 3, 77) && band.count[1] == 55);
    const lent_job jobs[4] = {band, at_once, singly, turned};
    for (int i = 0; i < 4; i++) {
        give_back(jobs[i].record, 64);
        give_back(jobs[i].work, 4 * (need + 3));
        give_back(jobs[i].count, 8);
    }
    give_back(room, n);
    give_back(out, line);
    give_back(other, line);
}

/* The plan of a picture in one of three layouts, or of a plane of 1 to 4 lanes. */
static void plan_in_form(uint32_t *plan, uint32_t form, uint32_t w, uint32_t h, jonquilsaw_rect crop, uint32_t m, uint32_t g) {
    plan_of(plan, w, h, form < 3 ? form : 0, crop, m, g, form < 3 ? JONQUILSAW_PICTURE : JONQUILSAW_PLANE, form < 3 ? 4 : form - 2);
}

static void bands_against_offers(void) {
    enum { MOST = 4 * 211 * 97 };
    uint8_t *pixels = bytes_of(MOST, 0);
    uint32_t plan[JONQUILSAW_PLAN_WORDS];
    for (uint32_t form = 0; form < 3 + JONQUILSAW_MAX_LANES; form++) {
        for (size_t i = 0; i < MOST; i++) pixels[i] = any_byte();
        for (uint32_t h = 1; h <= 9; h++) {
            for (uint32_t g = 1; g <= h + 1; g++) {
                const jonquilsaw_rect whole = {0, 0, 3, h}, part = {1, 2, 2, h};
                plan_in_form(plan, form, 3, h, whole, 2, g);
                by_bands(plan, pixels);
                plan_in_form(plan, form, 4, h + 3, part, 5, g);
                by_bands(plan, pixels);
            }
        }
        for (int i = 0; i < 60; i++) {
            const uint32_t w = 1 + any_byte() % 20, h = 1 + any_byte() % 40, width = 1 + any_byte() % w, height = 1 + any_byte() % h;
            const jonquilsaw_rect crop = {any_byte() % (w - width + 1), any_byte() % (h - height + 1), width, height};
            plan_in_form(plan, form, w, h, crop, 1 + any_byte() % 24, 1 + any_byte() % height);
            by_bands(plan, pixels);
        }
        const jonquilsaw_rect large = {7, 5, 190, 83};
        plan_in_form(plan, form, 211, 97, large, 64, 31);
        by_bands(plan, pixels);
        plan_in_form(plan, form, 211, 97, large, 200, 3);
        by_bands(plan, pixels);
    }
    give_back(pixels, MOST);

    /* by hand: rows of 10 and 20, 30 and 40, 50 and 61 to one column are 30, 70 and 111; the second half has the last */
    uint8_t *rows = bytes_of(8, 0), *out = bytes_of(1, 0);
    uint32_t *work = words_of(2, 7), *record = words_of(14, 0), *count = words_of(1, 8);
    memcpy(rows, (const uint8_t[]){10, 20, 30, 40, 50, 61, 70, 80}, 8);
    EXPECT(jonquilsaw_start_plane(2, 4, 1, 0, 0, 2, 4, 1, 1, work, 2, record, 14) == 0);
    EXPECT(jonquilsaw_band_offer(record, 14, rows, 6, work, 2, count, 1) == 0 && count[0] == 3 && record[9] == 3 && record[10] == 0);
    EXPECT(work[0] == 30 + 70 + 111 && work[1] == 111);
    EXPECT(jonquilsaw_offer(record, 14, rows + 6, 2, work, 2, count, 1) == 0 && count[0] == 1 && jonquilsaw_take(record, 14, out, 1, work, 2) == 0 && out[0] == 45);

    /* sums that wrap wrap alike: 1,099 rows of white, 16,384 wide */
    const size_t n = (size_t)16384 * 1099;
    uint8_t *white = bytes_of(n, 255);
    EXPECT(jonquilsaw_start_plane(16384, 1100, 1, 0, 0, 16384, 1100, 1, 1, work, 2, record, 14) == 0);
    EXPECT(jonquilsaw_band_offer(record, 14, white, n, work, 2, count, 1) == 0 && count[0] == 1099);
    EXPECT(work[0] == (uint32_t)(255 * (uint64_t)n) && work[1] == 255 * 16384);
    give_back(white, n);
    give_back(rows, 8);
    give_back(out, 1);
    give_back(work, 8);
    give_back(record, 56);
    give_back(count, 4);
}

/* Every count of rows accepted and taken that the job of a plan can have, with every number of bytes up to a row more than the source has; with too few words of record, too
 * few work values and no word of count: of any of these at once the first of the order 100, 6, 17, 5, 7 is told, and all stays as it was. There is no 8: where all rows
 * are accepted there is no band. What is accepted leaves what an offer of the same rows leaves. */
static void bands_refused(const uint32_t *plan) {
    const uint32_t source = plan[1], top = plan[4], h = plan[6], g = plan[8];
    const size_t row = (size_t)lanes_of(plan) * plan[0], need = JONQUILSAW_WORK_WORDS_OF(lanes_of(plan), plan[7]), most = row * (source + 1);
    const size_t words[4] = {0, 13, 14, 16}, values[4] = {0, need - 1, need, need + 3};
    const lent_job given = started(plan, need), kept = started(plan, need), offered = started(plan, need);
    uint8_t *room = bytes_of(most, 0);
    for (size_t i = 0; i < need; i++) kept.work[i] = any_byte() * 16777259u;
    for (size_t i = 0; i < most; i++) room[i] = any_byte();
    for (uint32_t k = 0; k <= source; k++) {
        const size_t due = band_by(k, source, top, h, g);
        for (uint64_t t = k == 0 ? 0 : rows_by(k - 1, top, h, g); t <= rows_by(k, top, h, g); t++) {
            fill_record(kept.record, plan, k, (uint32_t)t);
            copy_job(&given, &kept, need);
            for (size_t i = 0; i < (most + 1) * 4 * 4 * 3; i++) {
                const size_t bytes = i / 48, lent_words = words[i % 4], lent_values = values[i / 4 % 4], counts = i / 16 % 3;
                const uint32_t want = counts == 0 ? 100 : lent_words < 14 ? 6 : bytes == 0 || bytes != row * due ? 17 : lent_values < need ? 5 : t < rows_by(k, top, h, g) ? 7 : 0;
                const uint8_t *rows = room + (most - bytes);
                EXPECT(jonquilsaw_band_offer(given.record, lent_words, rows, bytes, given.work, lent_values, given.count, counts) == want);
                if (want == 0) {
                    copy_job(&offered, &kept, need);
                    EXPECT(jonquilsaw_offer(offered.record, 14, rows, bytes, offered.work, need, offered.count, 1) == 0);
                    EXPECT(same_job(&given, &offered, need) && given.record[9] == k + due && given.count[0] == due);
                    copy_job(&given, &kept, need);
                }
                EXPECT(same_job(&given, &kept, need));
            }
            EXPECT(jonquilsaw_band_offer(given.record, 16, NULL, 0, given.work, need, given.count, 1) == JONQUILSAW_INVALID_BAND && same_job(&given, &kept, need));
        }
    }
    const lent_job jobs[3] = {given, kept, offered};
    for (int i = 0; i < 3; i++) {
        give_back(jobs[i].record, 64);
        give_back(jobs[i].work, 4 * (need + 3));
        give_back(jobs[i].count, 8);
    }
    give_back(room, most);
}

/* Words that make no record, ahead of whatever else is wrong and with nothing else wrong; and too few of them. Of a 2 by 6 picture to 1 by 2: two rows are a band. */
static void bands_of_no_record(void) {
    uint8_t *rows = bytes_of(16, 100);
    uint32_t *work = words_of(8, 3), *kept_work = words_of(8, 3), *record = words_of(15, 4), *kept_record = words_of(15, 4), *count = words_of(2, 8);
    const struct {
        int place;
        uint32_t word;
    } all_wrong[] = {{2, 3}, {2, 4294967295u}, {11, 2}, {11, 1}, {10, 1}, {9, 7}, {5, 0}, {6, 7}, {0, 16385}, {1, 0}, {3, 1}, {7, 0}, {8, 16385}, {12, 1}, {12, 2}, {13, 3}, {13, 5}};
    EXPECT(jonquilsaw_start(2, 6, 1, 0, 0, 2, 6, 1, 2, work, 8, record, 15) == 0);
    memcpy(kept_record, record, 60);
    memcpy(kept_work, work, 32);
#define KEPT (memcmp(record, kept_record, 60) == 0 && memcmp(work, kept_work, 32) == 0 && words_all(count, 2, 8) && all(rows, 16, 100))
    for (size_t i = 0; i < sizeof all_wrong / sizeof *all_wrong; i++) {
        const uint32_t right = record[all_wrong[i].place];
        record[all_wrong[i].place] = kept_record[all_wrong[i].place] = all_wrong[i].word;
        EXPECT(jonquilsaw_band_offer(record, 15, rows, 0, work, 0, count, 0) == JONQUILSAW_BOUNDARY && KEPT);
        EXPECT(jonquilsaw_band_offer(record, 15, rows, 0, work, 0, count, 1) == JONQUILSAW_INVALID_RECORD && KEPT);
        EXPECT(jonquilsaw_band_offer(record, 15, rows, 16, work, 8, count, 2) == JONQUILSAW_INVALID_RECORD && KEPT);
        EXPECT(jonquilsaw_band_count(record, 15, count, 0) == JONQUILSAW_BOUNDARY && KEPT);
        EXPECT(jonquilsaw_band_count(record, 15, count, 2) == JONQUILSAW_INVALID_RECORD && KEPT);
        record[all_wrong[i].place] = kept_record[all_wrong[i].place] = right;
    }
    for (size_t words = 0; words < JONQUILSAW_RECORD_WORDS; words++) {
        EXPECT(jonquilsaw_band_offer(record, words, rows, 16, work, 8, count, 0) == JONQUILSAW_BOUNDARY && KEPT);
        EXPECT(jonquilsaw_band_offer(record, words, rows, 16, work, 8, count, 1) == JONQUILSAW_INVALID_RECORD && KEPT);
        EXPECT(jonquilsaw_band_count(record, words, count, 0) == JONQUILSAW_BOUNDARY && KEPT);
        EXPECT(jonquilsaw_band_count(record, words, count, 1) == JONQUILSAW_INVALID_RECORD && KEPT);
    }
    EXPECT(jonquilsaw_band_count(record, 15, count, 0) == JONQUILSAW_BOUNDARY && KEPT);
    EXPECT(jonquilsaw_band_offer(NULL, 0, NULL, 0, NULL, 0, NULL, 0) == JONQUILSAW_BOUNDARY && jonquilsaw_band_count(NULL, 0, NULL, 0) == JONQUILSAW_BOUNDARY);
    EXPECT(jonquilsaw_band_offer(NULL, 0, NULL, 0, NULL, 0, count, 1) == JONQUILSAW_INVALID_RECORD && jonquilsaw_band_count(NULL, 0, count, 1) == JONQUILSAW_INVALID_RECORD && KEPT);
    /* with nothing wrong */
    EXPECT(jonquilsaw_band_count(record, 15, count, 2) == 0 && count[0] == 2 && count[1] == 8);
    count[0] = 8;
    EXPECT(jonquilsaw_band_offer(record, 15, rows, 16, work, 8, count, 2) == 0 && count[0] == 2 && count[1] == 8 && record[9] == 2 && record[14] == 4);
#undef KEPT
    give_back(rows, 16);
    give_back(work, 32);
    give_back(kept_work, 32);
    give_back(record, 60);
    give_back(kept_record, 60);
    give_back(count, 8);
}

static void bands(void) {
    bands_counted();
    bands_against_offers();
    bands_of_no_record();
    /* a crop of 7 rows behind one and before one: to 2 rows a band is due where a row is ready; to 6 the first row alone is a band; to 7 and to 9 none is */
    const jonquilsaw_rect crop = {1, 1, 1, 7};
    const uint32_t heights[] = {1, 2, 3, 6, 7, 9};
    uint32_t plan[JONQUILSAW_PLAN_WORDS];
    for (size_t i = 0; i < sizeof heights / sizeof *heights; i++) {
        plan_in_form(plan, 5, 2, 9, crop, 1, heights[i]);
        bands_refused(plan);
        plan_in_form(plan, (uint32_t)i % 3, 2, 9, crop, 2, heights[i]);
        bands_refused(plan);
    }
}

int main(void) {
    starts();
    offers_and_takes();
    trials();
    dividers();
    schedule(6, 4, (const uint32_t[]){0, 0, 1, 2, 2, 3, 4});
    schedule(3, 5, (const uint32_t[]){0, 1, 3, 5});
    strips();
    pictures();
    packing();
    sizes();
    with_types();
    planes();
    columns_of_pictures();
    no_spill();
    pam();
    groups();
    badges();
    bands();
    printf("c: %lu checks, %lu failed\n", checks, failures);
    return failures == 0 ? 0 : 1;
}
