/* Times the port, the original and libwebp on the same pictures, side by side (./bench builds and runs it).
 *
 *   drive [ROUNDS]             the tables
 *   drive memory SIDE JOB      one job in a process of its own: its peak memory in KiB (VmHWM)
 *
 * A round runs every side once, in turning order, and of pictures each round has another layout, so that no side knows it beforehand.
 * Timed is processor time of the one thread, which other programs on the machine disturb least. A ratio is taken within a round:
 * its median over the rounds counts, and its range over them is told.
 * NO_ORIGINAL, NO_LIBWEBP and NO_PLAIN leave out what is not at hand. */
#define _GNU_SOURCE
#include <errno.h>
#include <spawn.h>
#include <stddef.h>
#include <stdint.h>
#include <stdio.h>
#include <stdlib.h>
#include <string.h>
#include <sys/wait.h>
#include <time.h>
#include <unistd.h>

#include "badge.h"
#include "jonquilsaw.h"

#ifndef NO_LIBWEBP
#include <webp/encode.h>
#endif
#ifndef NO_PLAIN
#include "../oracle/rescaler.h"
#endif
#ifndef NO_ORIGINAL
void* original_new(uint32_t layout, uint32_t width, uint32_t height, const uint8_t* pixels);
void* original_scale(const void* image, _Bool cut, uint32_t x, uint32_t y, uint32_t cw, uint32_t ch, uint32_t tw, uint32_t th);
void original_free(void* image, uint8_t* out);
void* original_plane(uint32_t lanes, uint32_t width, uint32_t height, const uint8_t* bytes, uint32_t tw, uint32_t th);
void original_plane_free(void* plane, uint8_t* out);
#endif

typedef struct {
  const char* name;
  uint32_t w, h, x, y, cw, ch, tw, th;
} Job;

static const Job kJobs[] = {
    {"photo", 4000, 3000, 0, 0, 4000, 3000, 160, 120},     {"screen", 1920, 1080, 0, 0, 1920, 1080, 320, 180},
    {"uneven", 1920, 1080, 0, 0, 1920, 1080, 317, 178},    {"slight", 1000, 1000, 0, 0, 1000, 1000, 800, 800},
    {"equal", 512, 512, 0, 0, 512, 512, 512, 512},         {"growing", 512, 512, 0, 0, 512, 512, 1024, 1024},
    {"crop", 3000, 4000, 500, 1000, 2000, 2000, 200, 200}, {"strip", 16384, 16, 0, 0, 16384, 16, 128, 1},
};

/* Planes, uncropped; their sizes name them. */
typedef struct {
  uint32_t lanes, w, h, tw, th;
} Plane;

static const Plane kPlanes[] = {{1, 1920, 1080, 320, 180}, {3, 1920, 1080, 320, 180}, {1, 512, 512, 1024, 1024}};

/* Previews of one picture, uncropped, its rows lent to a group so many at a time. */
static const Job kPreviews[] = {{"large", 4000, 3000, 0, 0, 4000, 3000, 320, 240},
                                {"middle", 4000, 3000, 0, 0, 4000, 3000, 160, 120},
                                {"small", 4000, 3000, 0, 0, 4000, 3000, 64, 48}};

/* Pictures fed by bands. */
static const Job kBanded[] = {{"sixth", 1920, 1080, 0, 0, 1920, 1080, 320, 180}, {"tenth", 4000, 3000, 0, 0, 4000, 3000, 400, 300}};

/* Badges, translucent, over opaque backgrounds: the layouts of both, and the loop of plain C for them. */
typedef struct {
  const char* name;
  uint32_t w, h, layout, under;
  PlainBadge* plain;
} Badge;

static const Badge kBadges[] = {
    {"Rgba8 over Rgba8", 320, 240, JONQUILSAW_RGBA8, JONQUILSAW_RGBA8, plain_rgba_over_rgba},
    {"Argb8 over Argb8", 320, 240, JONQUILSAW_ARGB8, JONQUILSAW_ARGB8, plain_argb_over_argb},
    {"Rgba8 over Bgra8", 320, 240, JONQUILSAW_RGBA8, JONQUILSAW_BGRA8, plain_rgba_over_bgra},
    {"Argb8 over Rgba8", 320, 240, JONQUILSAW_ARGB8, JONQUILSAW_RGBA8, plain_argb_over_rgba},
    {"Rgba8 over Rgba8", 1280, 960, JONQUILSAW_RGBA8, JONQUILSAW_RGBA8, plain_rgba_over_rgba},
    {"Argb8 over Argb8", 1280, 960, JONQUILSAW_ARGB8, JONQUILSAW_ARGB8, plain_argb_over_argb},
    {"Rgba8 over Bgra8", 1280, 960, JONQUILSAW_RGBA8, JONQUILSAW_BGRA8, plain_rgba_over_bgra},
    {"Argb8 over Rgba8", 1280, 960, JONQUILSAW_ARGB8, JONQUILSAW_RGBA8, plain_argb_over_rgba},
};
enum {
  JOBS = sizeof kJobs / sizeof kJobs[0],
  PLANES = sizeof kPlanes / sizeof kPlanes[0],
  PREVIEWS = sizeof kPreviews / sizeof kPreviews[0],
  BANDED = sizeof kBanded / sizeof kBanded[0],
  BADGES = sizeof kBadges / sizeof kBadges[0],
  ARRIVING = 8,
  MOST_ROUNDS = 1000
};

typedef enum { ROWS, WHOLE, ORIGINAL, SIMD, PLAIN, SIDES } Side;
static const char* const kSides[SIDES] = {"ours, by rows", "ours, whole", "original Rust", "libwebp SIMD", "libwebp plain C"};

static int at_hand(Side s) {
#ifdef NO_ORIGINAL
  if (s == ORIGINAL) return 0;
#endif
#ifdef NO_LIBWEBP
  if (s == SIMD) return 0;
#endif
#ifdef NO_PLAIN
  if (s == PLAIN) return 0;
#endif
  return s < SIDES;
}

static void refuse(const char* what) {
  fprintf(stderr, "bench: %s\n", what);
  exit(1);
}

static void* room(size_t n) {
  void* const p = malloc(n);
  if (!p) refuse("no memory");
  return p;
}

static int cropped(const Job* j) { return j->cw != j->w || j->ch != j->h; }
static size_t source_pixels(const Job* j) { return (size_t)j->w * j->h; }
static size_t target_bytes(const Job* j) { return (size_t)4 * j->tw * j->th; }

/* The next pixel 0xAARRGGBB of a picture: noise, its alpha 255 in an opaque one. */
static uint32_t next_pixel(uint32_t* state, int translucent) {
  uint32_t v = 0;
  for (int i = 0; i < 4; ++i) {
    *state = *state * 1664525u + 1013904223u;
    v = v << 8 | *state >> 24;
  }
  return translucent ? v : v | 0xff000000u;
}

/* The lane (0 blue to 3 alpha) at each byte of a packed pixel. */
static const int kLane[3][4] = {{2, 1, 0, 3}, {3, 2, 1, 0}, {0, 1, 2, 3}};

static void pack(uint32_t layout, uint32_t v, uint8_t* p) {
  for (int i = 0; i < 4; ++i) p[i] = (uint8_t)(v >> (8 * kLane[layout][i]));
}

/* What a side reads, and room for what it writes. */
typedef struct {
  const Job* job;
  uint32_t layout;
  const uint32_t* argb; /* the picture as libwebp has it */
  uint8_t* pixels;      /* and packed */
  uint8_t *cut, *out;
  uint32_t* work;
} Lent;

static double now(void) {
  struct timespec t;
  clock_gettime(CLOCK_THREAD_CPUTIME_ID, &t);
  return 1e9 * (double)t.tv_sec + (double)t.tv_nsec;
}

/* A row at a time; row(to, y) says where source row y lies, and each preview row goes to out. */
static void by_rows(const Job* j, uint32_t layout, uint32_t* work, const uint8_t* (*row)(void*, uint32_t), void* to, uint8_t* out, size_t out_step) {
  uint32_t record[JONQUILSAW_RECORD_WORDS], count = 0, taken = 0;
  const size_t words = JONQUILSAW_WORK_WORDS(j->tw);
  if (jonquilsaw_start(j->w, j->h, layout, j->x, j->y, j->cw, j->ch, j->tw, j->th, work, words, record, JONQUILSAW_RECORD_WORDS)) refuse("start");
  for (uint32_t y = 0; y < j->h && taken < j->th; ++y) {
    if (jonquilsaw_offer(record, JONQUILSAW_RECORD_WORDS, row(to, y), (size_t)4 * j->w, work, words, &count, 1)) refuse("offer");
    while (jonquilsaw_take(record, JONQUILSAW_RECORD_WORDS, out + taken * out_step, (size_t)4 * j->tw, work, words) == JONQUILSAW_OK) {
      if (++taken == j->th) break;
    }
  }
  if (taken != j->th) refuse("rows are missing");
}

static const uint8_t* stored_row(void* lent, uint32_t y) {
  const Lent* const l = lent;
  return l->pixels + (size_t)4 * l->job->w * y;
}

static double time_rows(Lent* l) {
  const double t = now();
  by_rows(l->job, l->layout, l->work, stored_row, l, l->out, (size_t)4 * l->job->tw);
  return now() - t;
}

static double time_whole(Lent* l) {
  const Job* const j = l->job;
  const uint8_t* from = l->pixels;
  const size_t cut = (size_t)4 * j->cw * j->ch;
  uint32_t flag = 0;
  const double t = now();
  if (cropped(j)) {
    if (jonquilsaw_crop(j->w, j->h, l->layout, j->x, j->y, j->cw, j->ch, from, 4 * source_pixels(j), l->cut, cut, &flag, 1)) refuse("crop");
    from = l->cut;
  }
  if (jonquilsaw_resize(j->cw, j->ch, l->layout, j->tw, j->th, from, cut, l->out, target_bytes(j), l->work, JONQUILSAW_WORK_WORDS(j->tw), &flag, 1)) {
    refuse("resize");
  }
  return now() - t;
}

#ifndef NO_ORIGINAL
static double time_original(Lent* l) {
  const Job* const j = l->job;
  void* const image = original_new(l->layout, j->w, j->h, l->pixels);
  const double t = now();
  void* const made = original_scale(image, cropped(j), j->x, j->y, j->cw, j->ch, j->tw, j->th);
  const double spent = now() - t;
  original_free(made, l->out);
  original_free(image, NULL);
  return spent;
}
#endif

#ifndef NO_LIBWEBP
static void new_picture(WebPPicture* pic, const Job* j) {
  if (!WebPPictureInit(pic)) refuse("WebPPictureInit");
  pic->use_argb = 1;
  pic->width = (int)j->w;
  pic->height = (int)j->h;
  if (!WebPPictureAlloc(pic)) refuse("WebPPictureAlloc");
}

static void scale_picture(WebPPicture* pic, const Job* j) {
  if (cropped(j) && !WebPPictureCrop(pic, (int)j->x, (int)j->y, (int)j->cw, (int)j->ch)) refuse("WebPPictureCrop");
  if (!WebPPictureRescale(pic, (int)j->tw, (int)j->th)) refuse("WebPPictureRescale");
}

static double time_libwebp(Lent* l) {
  const Job* const j = l->job;
  WebPPicture pic;
  new_picture(&pic, j);
  for (uint32_t y = 0; y < j->h; ++y) memcpy(pic.argb + (size_t)y * pic.argb_stride, l->argb + (size_t)y * j->w, (size_t)4 * j->w);
  const double t = now();
  scale_picture(&pic, j);
  const double spent = now() - t;
  for (size_t i = 0; i < (size_t)j->tw * j->th; ++i) pack(l->layout, pic.argb[i / j->tw * pic.argb_stride + i % j->tw], l->out + 4 * i);
  WebPPictureFree(&pic);
  return spent;
}
#endif

#ifndef NO_PLAIN
static double time_plain(Lent* l) {
  const CpuInfo features = VP8GetCPUInfo;
  VP8GetCPUInfo = NULL;
  const double spent = time_libwebp(l);
  VP8GetCPUInfo = features;
  return spent;
}
#endif

static double time_side(Side s, Lent* l) {
  switch (s) {
    case ROWS: return time_rows(l);
    case WHOLE: return time_whole(l);
#ifndef NO_ORIGINAL
    case ORIGINAL: return time_original(l);
#endif
#ifndef NO_LIBWEBP
    case SIMD: return time_libwebp(l);
#endif
#ifndef NO_PLAIN
    case PLAIN: return time_plain(l);
#endif
    default: refuse("no such side");
  }
  return 0;
}

static int ascending(const void* a, const void* b) { return (*(const double*)a > *(const double*)b) - (*(const double*)a < *(const double*)b); }

/* What the rounds gave: the median, the least and the most. */
typedef struct {
  double median, least, most;
} Figure;

static Figure figure(const double* values, int count) {
  static double sorted[MOST_ROUNDS];
  memcpy(sorted, values, (size_t)count * sizeof *values);
  qsort(sorted, (size_t)count, sizeof *sorted, ascending);
  return (Figure){(sorted[(count - 1) / 2] + sorted[count / 2]) / 2, sorted[0], sorted[count - 1]};
}

/* Of two sides, within each round. */
static Figure ratio_of(double spent[][MOST_ROUNDS], int a, int b, int rounds) {
  static double ratios[MOST_ROUNDS];
  for (int r = 0; r < rounds; ++r) ratios[r] = spent[a][r] / spent[b][r];
  return figure(ratios, rounds);
}

/* The time of every side in every round, in ns for each source pixel; every side must make the same bytes. */
static void measure(const Job* j, int translucent, int rounds, double spent[SIDES][MOST_ROUNDS]) {
  const size_t n = source_pixels(j), out = target_bytes(j);
  uint32_t* const argb = room(4 * n);
  uint8_t* const first = room(out);
  Lent l = {j, 0, argb, room(4 * n), room((size_t)4 * j->cw * j->ch), room(out), room(4 * JONQUILSAW_WORK_WORDS(j->tw))};
  uint32_t state = 1;
  for (size_t i = 0; i < n; ++i) argb[i] = next_pixel(&state, translucent);
  for (int r = -1; r < rounds; ++r) { /* round -1 warms up */
    int made = 0;
    l.layout = (uint32_t)(r + 1) % 3;
    for (int k = 0; k < SIDES; ++k) {
      const Side s = (Side)((k + r + 1) % SIDES);
      if (!at_hand(s)) continue;
      /* Each side's source was just written: the original and libwebp get copies. */
      for (size_t i = 0; i < n; ++i) pack(l.layout, argb[i], l.pixels + 4 * i);
      memset(l.out, 0x5c, out);
      const double t = time_side(s, &l);
      if (r >= 0) spent[s][r] = t / (double)n;
      if (made++ == 0) memcpy(first, l.out, out);
      else if (memcmp(first, l.out, out)) refuse("the sides do not make the same bytes");
    }
  }
  free(argb), free(first), free(l.pixels), free(l.cut), free(l.out), free(l.work);
}

/* What a side of a plane reads, and room for what it writes. */
typedef struct {
  const Plane* plane;
  uint8_t *bytes, *out;
  uint32_t* work;
} LentPlane;

static size_t plane_bytes(const Plane* p) { return (size_t)p->lanes * p->w * p->h; }
static size_t plane_out(const Plane* p) { return (size_t)p->lanes * p->tw * p->th; }

static double time_plane_rows(LentPlane* l) {
  const Plane* const p = l->plane;
  const size_t row = (size_t)p->lanes * p->w, half = (size_t)p->lanes * p->tw, words = JONQUILSAW_WORK_WORDS_OF(p->lanes, p->tw);
  uint32_t record[JONQUILSAW_RECORD_WORDS], count = 0, taken = 0;
  const double t = now();
  if (jonquilsaw_start_plane(p->w, p->h, p->lanes, 0, 0, p->w, p->h, p->tw, p->th, l->work, words, record, JONQUILSAW_RECORD_WORDS)) refuse("start_plane");
  for (uint32_t y = 0; y < p->h; ++y) {
    if (jonquilsaw_offer(record, JONQUILSAW_RECORD_WORDS, l->bytes + y * row, row, l->work, words, &count, 1)) refuse("offer");
    while (jonquilsaw_take(record, JONQUILSAW_RECORD_WORDS, l->out + taken * half, half, l->work, words) == JONQUILSAW_OK) {
      if (++taken == p->th) break;
    }
  }
  if (taken != p->th) refuse("rows are missing");
  return now() - t;
}

#ifndef NO_ORIGINAL
static double time_plane_original(LentPlane* l) {
  const Plane* const p = l->plane;
  const double t = now();
  void* const made = original_plane(p->lanes, p->w, p->h, l->bytes, p->tw, p->th);
  const double spent = now() - t;
  original_plane_free(made, l->out);
  return spent;
}
#endif

#ifndef NO_PLAIN
static double time_plane_libwebp(LentPlane* l) {
  const Plane* const p = l->plane;
  WebPRescaler r;
  const double t = now();
  const int ok = rescale_whole(&r, (int)p->lanes, (int)p->w, (int)p->h, l->bytes, (size_t)p->lanes * p->w, (int)p->tw, (int)p->th, l->out, l->work);
  const double spent = now() - t;
  if (!ok) refuse("libwebp's rescaler");
  return spent;
}

static double time_plane_plain(LentPlane* l) {
  const CpuInfo features = VP8GetCPUInfo;
  VP8GetCPUInfo = NULL;
  const double spent = time_plane_libwebp(l);
  VP8GetCPUInfo = features;
  return spent;
}
#endif

/* Whether libwebp's rescaler is as declared; it is at hand where plain C is. */
static int known_rescaler = 0;

static int takes_planes(Side s) { return at_hand(s) && (s == ROWS || s == ORIGINAL || ((s == SIMD || s == PLAIN) && at_hand(PLAIN) && known_rescaler)); }

/* libwebp's SIMD code is wrong for 2 and 3 lanes where the width grows: of planes it is asked for one lane. */
static int takes_plane(Side s, const Plane* p) { return takes_planes(s) && (s != SIMD || p->lanes == 1); }

static double time_plane_side(Side s, LentPlane* l) {
  switch (s) {
    case ROWS: return time_plane_rows(l);
#ifndef NO_ORIGINAL
    case ORIGINAL: return time_plane_original(l);
#endif
#ifndef NO_PLAIN
    case SIMD: return time_plane_libwebp(l);
    case PLAIN: return time_plane_plain(l);
#endif
    default: refuse("no such side");
  }
  return 0;
}

/* As `measure`, in ns for each source byte. */
static void measure_plane(const Plane* p, int rounds, double spent[SIDES][MOST_ROUNDS]) {
  const size_t n = plane_bytes(p), out = plane_out(p);
  uint8_t *const noise = room(n), *const first = room(out);
  LentPlane l = {p, room(n), room(out), room(4 * JONQUILSAW_WORK_WORDS_OF(p->lanes, p->tw))};
  uint32_t state = 1;
  for (size_t i = 0; i < n; ++i) {
    state = state * 1664525u + 1013904223u;
    noise[i] = (uint8_t)(state >> 24);
  }
  for (int r = -1; r < rounds; ++r) { /* round -1 warms up */
    int made = 0;
    for (int k = 0; k < SIDES; ++k) {
      const Side s = (Side)((k + r + 1) % SIDES);
      if (!takes_plane(s, p)) continue;
      memcpy(l.bytes, noise, n);
      memset(l.out, 0x5c, out);
      const double t = time_plane_side(s, &l);
      if (r >= 0) spent[s][r] = t / (double)n;
      if (made++ == 0) memcpy(first, l.out, out);
      else if (memcmp(first, l.out, out)) refuse("the sides do not make the same bytes of a plane");
    }
  }
  free(noise), free(first), free(l.bytes), free(l.out), free(l.work);
}

/* The two ways to several previews: one pass by a group, and a pass for each. */
enum { GROUP, PASSES, WAYS };

static size_t previews_work(void) {
  size_t n = 0;
  for (int i = 0; i < PREVIEWS; ++i) n += JONQUILSAW_WORK_WORDS(kPreviews[i].tw);
  return n;
}

static size_t previews_bytes(void) {
  size_t n = 0;
  for (int i = 0; i < PREVIEWS; ++i) n += target_bytes(&kPreviews[i]);
  return n;
}

/* One pass: the rows arrive a few at a time, and each is scaled for all previews. */
static void in_one_pass(uint32_t layout, const uint8_t* pixels, uint32_t* work, uint8_t* out) {
  const uint32_t w = kPreviews[0].w, h = kPreviews[0].h;
  const size_t row = (size_t)4 * w, words = previews_work();
  uint32_t plans[PREVIEWS * JONQUILSAW_PLAN_WORDS], record[JONQUILSAW_GROUP_WORDS(PREVIEWS)], count = 0, left = 0;
  const size_t lent = sizeof record / sizeof record[0];
  uint8_t* next[PREVIEWS];
  for (int i = 0; i < PREVIEWS; ++i) {
    const Job* const j = &kPreviews[i];
    const uint32_t plan[JONQUILSAW_PLAN_WORDS] = {w, h, layout, j->x, j->y, j->cw, j->ch, j->tw, j->th, JONQUILSAW_PICTURE, JONQUILSAW_PIXEL_LANES};
    memcpy(plans + i * JONQUILSAW_PLAN_WORDS, plan, sizeof plan);
    next[i] = out;
    out += target_bytes(j);
    left += j->th;
  }
  if (jonquilsaw_start_group(plans, PREVIEWS * JONQUILSAW_PLAN_WORDS, PREVIEWS, work, words, record, lent)) refuse("start_group");
  for (uint32_t y = 0; y < h; y += count) {
    const uint32_t arrived = y - y % ARRIVING + ARRIVING < h ? y - y % ARRIVING + ARRIVING : h;
    if (jonquilsaw_offer_group(record, lent, pixels + y * row, (arrived - y) * row, work, words, &count, 1)) refuse("offer_group");
    for (uint32_t i = 0; i < PREVIEWS; ++i) {
      const size_t n = (size_t)4 * kPreviews[i].tw;
      for (; jonquilsaw_take_group(record, lent, i, next[i], n, work, words) == JONQUILSAW_OK; --left) next[i] += n;
    }
  }
  if (left) refuse("rows of a group are missing");
}

/* A pass of its own, which all rows left are lent to. */
static void in_a_pass(const Job* j, uint32_t layout, const uint8_t* pixels, uint32_t* work, uint8_t* out) {
  const size_t row = (size_t)4 * j->w, n = (size_t)4 * j->tw, words = JONQUILSAW_WORK_WORDS(j->tw);
  uint32_t record[JONQUILSAW_RECORD_WORDS], count = 0, taken = 0;
  if (jonquilsaw_start(j->w, j->h, layout, j->x, j->y, j->cw, j->ch, j->tw, j->th, work, words, record, JONQUILSAW_RECORD_WORDS)) refuse("start");
  for (uint32_t y = 0; y < j->h; y += count) {
    if (jonquilsaw_offer(record, JONQUILSAW_RECORD_WORDS, pixels + y * row, (j->h - y) * row, work, words, &count, 1)) refuse("offer");
    for (; jonquilsaw_take(record, JONQUILSAW_RECORD_WORDS, out, n, work, words) == JONQUILSAW_OK; ++taken) out += n;
  }
  if (taken != j->th) refuse("rows are missing");
}

static double time_way(int way, uint32_t layout, const uint8_t* pixels, uint32_t* work, uint8_t* out) {
  const double t = now();
  if (way == GROUP) in_one_pass(layout, pixels, work, out);
  for (int i = 0; way == PASSES && i < PREVIEWS; ++i) {
    in_a_pass(&kPreviews[i], layout, pixels, work, out);
    out += target_bytes(&kPreviews[i]);
  }
  return now() - t;
}

/* As `measure`: all previews together, in ns for each source pixel. */
static void measure_previews(int translucent, int rounds, double spent[WAYS][MOST_ROUNDS]) {
  const size_t n = source_pixels(&kPreviews[0]), out = previews_bytes();
  uint32_t *const argb = room(4 * n), *const work = room(4 * previews_work());
  uint8_t* const pixels = room(4 * n);
  uint8_t* const made[WAYS] = {room(out), room(out)};
  uint32_t state = 1;
  for (size_t i = 0; i < n; ++i) argb[i] = next_pixel(&state, translucent);
  for (int r = -1; r < rounds; ++r) { /* round -1 warms up */
    const uint32_t layout = (uint32_t)(r + 1) % 3;
    for (int k = 0; k < WAYS; ++k) {
      const int way = (k + r + 1) % WAYS;
      for (size_t i = 0; i < n; ++i) pack(layout, argb[i], pixels + 4 * i);
      memset(made[way], 0x5c + way, out);
      const double t = time_way(way, layout, pixels, work, made[way]);
      if (r >= 0) spent[way][r] = t / (double)n;
    }
    if (memcmp(made[GROUP], made[PASSES], out)) refuse("a group and its jobs alone do not make the same bytes");
  }
  free(argb), free(work), free(pixels), free(made[GROUP]), free(made[PASSES]);
}

/* The two ways to feed the rows of a band: as a band, and by an offer. The row after them comes by an offer in both. */
enum { BY_BANDS, BY_OFFERS, FEEDS };

static double time_feed(int feed, const Job* j, uint32_t layout, const uint8_t* pixels, uint32_t* work, uint8_t* out) {
  const size_t row = (size_t)4 * j->w, n = (size_t)4 * j->tw, words = JONQUILSAW_WORK_WORDS(j->tw);
  uint32_t record[JONQUILSAW_RECORD_WORDS], rows = 0, count = 0, taken = 0;
  const double t = now();
  if (jonquilsaw_start(j->w, j->h, layout, j->x, j->y, j->cw, j->ch, j->tw, j->th, work, words, record, JONQUILSAW_RECORD_WORDS)) refuse("start");
  for (uint32_t y = 0; y < j->h; y += count) {
    if (jonquilsaw_band_count(record, JONQUILSAW_RECORD_WORDS, &rows, 1)) refuse("band_count");
    const int band = rows && feed == BY_BANDS;
    const size_t lent = rows ? rows * row : row;
    if ((band ? jonquilsaw_band_offer : jonquilsaw_offer)(record, JONQUILSAW_RECORD_WORDS, pixels + y * row, lent, work, words, &count, 1)) {
      refuse(band ? "band_offer" : "offer");
    }
    for (; jonquilsaw_take(record, JONQUILSAW_RECORD_WORDS, out, n, work, words) == JONQUILSAW_OK; ++taken) out += n;
  }
  if (taken != j->th) refuse("rows are missing");
  return now() - t;
}

/* As `measure`. */
static void measure_bands(const Job* j, int translucent, int rounds, double spent[FEEDS][MOST_ROUNDS]) {
  const size_t n = source_pixels(j), out = target_bytes(j);
  uint32_t *const argb = room(4 * n), *const work = room(4 * JONQUILSAW_WORK_WORDS(j->tw));
  uint8_t* const pixels = room(4 * n);
  uint8_t* const made[FEEDS] = {room(out), room(out)};
  uint32_t state = 1;
  for (size_t i = 0; i < n; ++i) argb[i] = next_pixel(&state, translucent);
  for (int r = -1; r < rounds; ++r) { /* round -1 warms up */
    const uint32_t layout = (uint32_t)(r + 1) % 3;
    for (int k = 0; k < FEEDS; ++k) {
      const int feed = (k + r + 1) % FEEDS;
      for (size_t i = 0; i < n; ++i) pack(layout, argb[i], pixels + 4 * i);
      memset(made[feed], 0x5c + feed, out);
      const double t = time_feed(feed, j, layout, pixels, work, made[feed]);
      if (r >= 0) spent[feed][r] = t / (double)n;
    }
    if (memcmp(made[BY_BANDS], made[BY_OFFERS], out)) refuse("bands and offers do not make the same bytes");
  }
  free(argb), free(work), free(pixels), free(made[BY_BANDS]), free(made[BY_OFFERS]);
}

/* The two that lay a badge. Ours sees that the background is opaque; plain C blends only. */
enum { LAID, LAID_PLAIN, LAYERS };

static double time_layer(int layer, const Badge* b, uint8_t* pixels, const uint8_t* badge) {
  const size_t n = (size_t)b->w * b->h;
  const double t = now();
  if (layer == LAID_PLAIN) b->plain(pixels, badge, n);
  else if (jonquilsaw_badge_lay(b->w, b->h, b->under, pixels, 4 * n, b->w, b->h, b->layout, badge, 4 * n)) refuse("badge_lay");
  return now() - t;
}

/* As `measure`, in ns for each pixel: the background is made anew before each turn. */
static void measure_badge(const Badge* b, int rounds, double spent[LAYERS][MOST_ROUNDS]) {
  const size_t n = (size_t)b->w * b->h;
  uint8_t *const under = room(4 * n), *const badge = room(4 * n);
  uint8_t* const made[LAYERS] = {room(4 * n), room(4 * n)};
  uint32_t state = 1;
  for (size_t i = 0; i < n; ++i) pack(b->under, next_pixel(&state, 0), under + 4 * i);
  for (size_t i = 0; i < n; ++i) pack(b->layout, next_pixel(&state, 1), badge + 4 * i);
  for (int r = -1; r < rounds; ++r) { /* round -1 warms up */
    for (int k = 0; k < LAYERS; ++k) {
      const int layer = (k + r + 1) % LAYERS;
      memcpy(made[layer], under, 4 * n);
      const double t = time_layer(layer, b, made[layer], badge);
      if (r >= 0) spent[layer][r] = t / (double)n;
    }
    if (memcmp(made[LAID], made[LAID_PLAIN], 4 * n)) refuse("the port and plain C do not lay a badge alike");
  }
  free(under), free(badge), free(made[LAID]), free(made[LAID_PLAIN]);
}

/* Peak memory: a translucent picture made by the process itself, nothing kept that the side does not need. */

typedef struct {
  const Job* job;
  uint32_t state;
  uint8_t* row;
} Maker;

static void make_pixels(uint32_t* state, uint32_t layout, uint8_t* to, size_t n) {
  for (size_t i = 0; i < n; ++i) pack(layout, next_pixel(state, 1), to + 4 * i);
}

static const uint8_t* made_row(void* maker, uint32_t y) {
  Maker* const m = maker;
  (void)y;
  make_pixels(&m->state, 0, m->row, m->job->w);
  return m->row;
}

static void once(Side s, const Job* j) {
  uint32_t state = 1;
  if (s == ROWS) {
    Maker m = {j, 1, room((size_t)4 * j->w)};
    by_rows(j, 0, room(4 * JONQUILSAW_WORK_WORDS(j->tw)), made_row, &m, room((size_t)4 * j->tw), 0);
  } else if (s == WHOLE) {
    Lent l = {j, 0, NULL, room(4 * source_pixels(j)), room((size_t)4 * j->cw * j->ch), room(target_bytes(j)), room(4 * JONQUILSAW_WORK_WORDS(j->tw))};
    make_pixels(&state, 0, l.pixels, source_pixels(j));
    time_whole(&l);
#ifndef NO_ORIGINAL
  } else if (s == ORIGINAL) {
    uint8_t* const pixels = room(4 * source_pixels(j));
    make_pixels(&state, 0, pixels, source_pixels(j));
    void* const image = original_new(0, j->w, j->h, pixels);
    free(pixels);
    original_scale(image, cropped(j), j->x, j->y, j->cw, j->ch, j->tw, j->th);
#endif
#ifndef NO_LIBWEBP
  } else if (s == SIMD) {
    WebPPicture pic;
    new_picture(&pic, j);
    for (size_t i = 0; i < source_pixels(j); ++i) pic.argb[i / j->w * pic.argb_stride + i % j->w] = next_pixel(&state, 1);
    scale_picture(&pic, j);
#endif
  }
}

static long peak(void) {
  char line[256];
  long kib = -1;
  FILE* const f = fopen("/proc/self/status", "r");
  while (f && fgets(line, sizeof line, f)) sscanf(line, "VmHWM: %ld", &kib);
  if (f) fclose(f);
  return kib;
}

/* What a process of its own says; SIDES is the process that does nothing. */
static long peak_of(char* program, int side, int job) {
  extern char** environ;
  char sides[12], jobs[12], answer[32] = "";
  int ends[2], status = -1;
  pid_t child;
  posix_spawn_file_actions_t actions;
  snprintf(sides, sizeof sides, "%d", side);
  snprintf(jobs, sizeof jobs, "%d", job);
  char* const words[] = {program, "memory", sides, jobs, NULL};
  if (pipe(ends) || posix_spawn_file_actions_init(&actions) || posix_spawn_file_actions_adddup2(&actions, ends[1], 1) ||
      posix_spawn_file_actions_addclose(&actions, ends[0]) || posix_spawn(&child, program, &actions, NULL, words, environ)) {
    refuse("a memory run did not start");
  }
  posix_spawn_file_actions_destroy(&actions);
  close(ends[1]);
  if (read(ends[0], answer, sizeof answer - 1) <= 0 || waitpid(child, &status, 0) != child || status != 0) refuse("a memory run failed");
  close(ends[0]);
  return strtol(answer, NULL, 10);
}

static void heading(const char* first) {
  printf("| %s |", first);
  for (int s = 0; s < SIDES; ++s) {
    if (at_hand((Side)s)) printf(" %s |", kSides[s]);
  }
}

static void ratio(double spent[][MOST_ROUNDS], int a, int b, int rounds, int there) {
  if (!there) {
    fputs(" - |", stdout);
    return;
  }
  const Figure f = ratio_of(spent, a, b, rounds);
  printf(" %.2f (%.2f-%.2f) |", f.median, f.least, f.most);
}

static void legend(void) {
  for (int i = 0; i < JOBS; ++i) {
    const Job* const j = &kJobs[i];
    printf("%s: %ux%u", j->name, j->w, j->h);
    if (cropped(j)) printf(" cropped %ux%u", j->cw, j->ch);
    printf(" to %ux%u%s", j->tw, j->th, i + 1 < JOBS ? "; " : "\n");
  }
}

static void times(int wanted) {
  static double spent[SIDES][MOST_ROUNDS];
  legend();
  puts("ns of processor time for each source pixel, medians over the rounds; of each ratio the median and the range over the rounds:\n");
  heading("job");
  puts(" rows / Rust | rows / SIMD | whole / SIMD |");
  for (int i = 0; i < SIDES + 4; ++i) {
    if (i >= SIDES || at_hand((Side)i)) fputs("|---", stdout);
  }
  puts("|");
  for (int i = 0; i < 2 * JOBS; ++i) {
    const Job* const j = &kJobs[i / 2];
    const int rounds = wanted ? wanted : source_pixels(j) > 4000000 ? 15 : 45;
    measure(j, i % 2, rounds, spent);
    printf("| %s, %s |", j->name, i % 2 ? "translucent" : "opaque");
    for (int s = 0; s < SIDES; ++s) {
      if (at_hand((Side)s)) printf(" %.2f |", figure(spent[s], rounds).median);
    }
    ratio(spent, ROWS, ORIGINAL, rounds, at_hand(ORIGINAL));
    ratio(spent, ROWS, SIMD, rounds, at_hand(SIMD));
    ratio(spent, WHOLE, SIMD, rounds, at_hand(SIMD));
    putchar('\n');
    fflush(stdout);
  }
}

static void plane_times(int wanted) {
  static double spent[SIDES][MOST_ROUNDS];
  puts("\nPlanes, lanes scaled as they are: ns of processor time for each source byte, the rest as above:\n");
  fputs("| plane |", stdout);
  for (int s = 0; s < SIDES; ++s) {
    if (takes_planes((Side)s)) printf(" %s |", kSides[s]);
  }
  puts(" rows / Rust | rows / SIMD | rows / plain C |");
  for (int s = -1; s < SIDES + 3; ++s) {
    if (s < 0 || s >= SIDES || takes_planes((Side)s)) fputs("|---", stdout);
  }
  puts("|");
  for (int i = 0; i < PLANES; ++i) {
    const Plane* const p = &kPlanes[i];
    const int rounds = wanted ? wanted : 45;
    measure_plane(p, rounds, spent);
    printf("| %u lane%s, %ux%u to %ux%u |", p->lanes, p->lanes == 1 ? "" : "s", p->w, p->h, p->tw, p->th);
    for (int s = 0; s < SIDES; ++s) {
      if (takes_plane((Side)s, p)) printf(" %.2f |", figure(spent[s], rounds).median);
      else if (takes_planes((Side)s)) fputs(" - |", stdout);
    }
    ratio(spent, ROWS, ORIGINAL, rounds, takes_plane(ORIGINAL, p));
    ratio(spent, ROWS, SIMD, rounds, takes_plane(SIMD, p));
    ratio(spent, ROWS, PLAIN, rounds, takes_plane(PLAIN, p));
    putchar('\n');
    fflush(stdout);
  }
}

static void preview_times(int wanted) {
  static double spent[WAYS][MOST_ROUNDS];
  printf("\nPreviews, several of one picture: a group in one pass, lent %d rows at a time, and a job for each, one after another, lent all; ns ", ARRIVING);
  puts("of processor time for each source pixel, all previews together, the rest as above:\n");
  puts("| previews | one group | a job each | group / jobs |\n|---|---|---|---|");
  for (int translucent = 0; translucent < 2; ++translucent) {
    const int rounds = wanted ? wanted : 15;
    measure_previews(translucent, rounds, spent);
    printf("| %ux%u to", kPreviews[0].w, kPreviews[0].h);
    for (int i = 0; i < PREVIEWS; ++i) printf("%s %ux%u", i == 0 ? "" : i + 1 < PREVIEWS ? "," : " and", kPreviews[i].tw, kPreviews[i].th);
    printf(", %s |", translucent ? "translucent" : "opaque");
    for (int way = 0; way < WAYS; ++way) printf(" %.2f |", figure(spent[way], rounds).median);
    ratio(spent, GROUP, PASSES, rounds, 1);
    putchar('\n');
    fflush(stdout);
  }
}

static void band_times(int wanted) {
  static double spent[FEEDS][MOST_ROUNDS];
  fputs("\nBands, each with the row after it by an offer, and offers of the same rows; the rows of each band asked for in both; ", stdout);
  puts("ns of processor time for each source pixel, the rest as above:\n");
  puts("| bands | by bands | by offers | bands / offers |\n|---|---|---|---|");
  for (int i = 0; i < 2 * BANDED; ++i) {
    const Job* const j = &kBanded[i / 2];
    const int rounds = wanted ? wanted : source_pixels(j) > 4000000 ? 15 : 45;
    measure_bands(j, i % 2, rounds, spent);
    printf("| %ux%u to %ux%u, %s |", j->w, j->h, j->tw, j->th, i % 2 ? "translucent" : "opaque");
    for (int feed = 0; feed < FEEDS; ++feed) printf(" %.2f |", figure(spent[feed], rounds).median);
    ratio(spent, BY_BANDS, BY_OFFERS, rounds, 1);
    putchar('\n');
    fflush(stdout);
  }
}

static void badge_times(int wanted) {
  static double spent[LAYERS][MOST_ROUNDS];
  fputs("\nBadges, translucent, over an opaque background: ours, which sees that it is opaque, and a loop of plain C, which blends only; ", stdout);
  puts("ns of processor time for each pixel, the rest as above:\n");
  puts("| badge | ours | plain C | ours / plain C |\n|---|---|---|---|");
  for (int i = 0; i < BADGES; ++i) {
    const Badge* const b = &kBadges[i];
    const int rounds = wanted ? wanted : 45;
    measure_badge(b, rounds, spent);
    printf("| %ux%u, %s |", b->w, b->h, b->name);
    for (int layer = 0; layer < LAYERS; ++layer) printf(" %.2f |", figure(spent[layer], rounds).median);
    ratio(spent, LAID, LAID_PLAIN, rounds, 1);
    putchar('\n');
    fflush(stdout);
  }
}

static void memory(char* program) {
  printf("\nPeak memory (VmHWM) of a process of its own for each, KiB; one that does nothing has %ld:\n\n", peak_of(program, SIDES, 0));
  fputs("| job |", stdout);
  for (int s = 0; s < PLAIN; ++s) {
    if (at_hand((Side)s)) printf(" %s |", s == SIMD ? "libwebp" : kSides[s]);
  }
  fputs("\n|---", stdout);
  for (int s = 0; s < PLAIN; ++s) {
    if (at_hand((Side)s)) fputs("|---", stdout);
  }
  puts("|");
  for (int i = 0; i < JOBS; ++i) {
    printf("| %s |", kJobs[i].name);
    for (int s = 0; s < PLAIN; ++s) {
      if (at_hand((Side)s)) printf(" %ld |", peak_of(program, s, i));
    }
    putchar('\n');
  }
}

int main(int argc, char** argv) {
  if (argc == 4 && !strcmp(argv[1], "memory")) {
    const int job = atoi(argv[3]);
    if (job < 0 || job >= JOBS) refuse("no such job");
    once((Side)atoi(argv[2]), &kJobs[job]);
    printf("%ld\n", peak());
    return 0;
  }
  char* end = NULL;
  errno = 0;
  const long wanted = argc > 1 ? strtol(argv[1], &end, 10) : 0;
  if (argc > 2 || (argc > 1 && (errno || end == argv[1] || *end || wanted < 1 || wanted > MOST_ROUNDS))) refuse("rounds: 1 to 1000");
#ifndef NO_PLAIN
  const CpuInfo features = VP8GetCPUInfo;
  VP8GetCPUInfo = NULL;
  known_rescaler = rescaler_as_declared();
  VP8GetCPUInfo = features;
  if (!known_rescaler) puts("bench: libwebp is left out of planes: its rescaler is not as oracle/rescaler.h declares it");
#endif
  times((int)wanted);
  plane_times((int)wanted);
  preview_times((int)wanted);
  band_times((int)wanted);
  badge_times((int)wanted);
  memory(argv[0]);
  return 0;
}
