/* The port behind the oracle's job stream (README.md has the format): a line for each job on standard output.
 *
 *   cc -O2 ours.c ADAPTER.c target/staticlib/libjonquilsaw.a -o ours && ./ours < jobs > answers
 *
 * Each lent buffer lies between two guards. The last word of an answer is 1 if guards, inputs and work values that were not
 * lent are as they were. */
#include "ours.h"
#include "picture.h"

#define GUARD 64

/* A buffer of n bytes between two guards. */
typedef struct {
  uint8_t *room, *at, *copy;
  size_t n;
} Buffer;

static Buffer lend(size_t n) {
  Buffer b = {malloc(n + 2 * GUARD), NULL, NULL, n};
  memset(b.room, 0x5c, n + 2 * GUARD);
  b.at = b.room + GUARD;
  return b;
}

/* An input: a copy is kept, to see that the call leaves it alone. */
static void keep(Buffer* b) {
  b->copy = malloc(b->n + 1);
  memcpy(b->copy, b->at, b->n);
}

static Buffer lend_out(size_t n) {
  Buffer b = lend(n);
  for (size_t i = 0; i < n; ++i) b.at[i] = 0xa5 ^ (uint8_t)i;
  return b;
}

static Buffer lend_words(size_t n) {
  Buffer b = lend(4 * n);
  for (size_t i = 0; i < n; ++i) ((uint32_t*)b.at)[i] = ((uint32_t)i + 1) * 2654435769u;
  return b;
}

static int intact(const Buffer* b) {
  for (size_t i = 0; i < GUARD; ++i) {
    if (b->room[i] != 0x5c || b->at[b->n + i] != 0x5c) return 0;
  }
  return !b->copy || !memcmp(b->copy, b->at, b->n);
}

static int give_back(Buffer b) {
  const int ok = intact(&b);
  free(b.copy);
  free(b.room);
  return ok;
}

/* FNV-1a of 64 bits over whole words. */
static uint64_t fnv_words(const Buffer* b) {
  uint64_t h = 0xcbf29ce484222325u;
  for (size_t i = 0; i < b->n / 4; ++i) h = (h ^ ((const uint32_t*)b->at)[i]) * 0x100000001b3u;
  return h;
}

static Buffer lend_pixels(uint32_t layout, uint64_t pattern, uint64_t seed, size_t n) {
  Buffer b = lend(n);
  make_bytes((int)layout, (uint32_t)pattern, (uint32_t)seed, b.at, n);
  return b;
}

/* number flag bytes work kept */
static void whole(uint32_t n, uint32_t flag, const Buffer* out, const Buffer* work, int kept) {
  printf("%u %u ", n, n == 0 ? flag : 0);
  if (out) put_hex(out->at, out->n);
  else putchar('-');
  if (work) printf(" %016llx", (unsigned long long)fnv_words(work));
  else fputs(" -", stdout);
  printf(" %d\n", kept);
}

static void resize(const uint64_t* v) {
  Buffer px = lend_pixels((uint32_t)v[0], v[8], v[9], v[5]), out = lend_out(v[6]), work = lend_words(v[7]);
  uint32_t flag = 0;
  keep(&px);
  const uint32_t n = ours_resize(v[0], v[1], v[2], v[3], v[4], px.at, px.n, out.at, out.n, (uint32_t*)work.at, v[7], &flag);
  whole(n, flag, &out, &work, intact(&px) & intact(&out) & intact(&work));
  give_back(px), give_back(out), give_back(work);
}

static void crop(const uint64_t* v) {
  Buffer px = lend_pixels((uint32_t)v[0], v[9], v[10], v[7]), out = lend_out(v[8]);
  uint32_t flag = 0;
  keep(&px);
  const uint32_t n = ours_crop(v[0], v[1], v[2], v[3], v[4], v[5], v[6], px.at, px.n, out.at, out.n, &flag);
  whole(n, flag, &out, NULL, intact(&px) & intact(&out));
  give_back(px), give_back(out);
}

static void plane(const uint64_t* v) {
  Buffer px = lend_pixels((uint32_t)v[0], v[5], v[6], v[3]), alpha = lend(v[4]);
  uint32_t flag = 0;
  make_plane((uint32_t)v[5], (uint32_t)v[6], alpha.at, alpha.n);
  keep(&alpha);
  const uint32_t n = ours_apply_alpha_plane(v[0], v[1], v[2], px.at, px.n, alpha.at, alpha.n, &flag);
  whole(n, flag, &px, NULL, intact(&px) & intact(&alpha));
  give_back(px), give_back(alpha);
}

static void has_alpha(const uint64_t* v) {
  Buffer px = lend_pixels((uint32_t)v[0], v[4], v[5], v[3]);
  uint32_t flag = 0;
  keep(&px);
  const uint32_t n = ours_has_alpha(v[0], v[1], v[2], px.at, px.n, &flag);
  whole(n, flag, NULL, NULL, intact(&px));
  give_back(px);
}

static void unpack_all(const uint64_t* v) {
  Buffer px = lend_pixels((uint32_t)v[0], v[3], v[4], v[1]), out = lend_words(v[2]);
  keep(&px);
  const uint32_t n = ours_unpack(v[0], px.at, px.n, (uint32_t*)out.at, v[2]);
  whole(n, 0, &out, NULL, intact(&px) & intact(&out));
  give_back(px), give_back(out);
}

static void pack_all(const uint64_t* v) {
  Buffer argb = lend_pixels(2, v[3], v[4], 4 * v[1]), out = lend_out(v[2]);
  uint32_t flag = 0;
  keep(&argb);
  const uint32_t n = ours_pack(v[0], (const uint32_t*)argb.at, v[1], out.at, out.n, &flag);
  whole(n, flag, &out, NULL, intact(&argb) & intact(&out));
  give_back(argb), give_back(out);
}

static void scaled(const uint64_t* v) {
  uint32_t w = 0, h = 0;
  const uint32_t n = ours_scaled(v[0], v[1], v[2], v[3], &w, &h);
  printf("%u %u %u\n", n, n == 0 ? w : 0, n == 0 ? h : 0);
}

static void put_words(const uint32_t* r, size_t n) {
  for (size_t i = 0; i < n; ++i) printf("%c%u", i ? ',' : ' ', r[i]);
}

static void put_record(const uint32_t r[OURS_RECORD]) { put_words(r, OURS_RECORD); }

static void put_work(const Buffer* work) { printf(" %016llx", (unsigned long long)fnv_words(work)); }

/* Work values beyond the part that a call was lent are an input too. */
static int beyond_kept(const Buffer* work, const uint32_t* before, size_t lent) {
  return !memcmp(work->at + 4 * lent, before + lent, work->n - 4 * lent);
}

/* A job by rows: its record, its work values, and a source with two rows and some bytes more than it has. */
typedef struct {
  uint32_t record[OURS_RECORD];
  Buffer work, px;
} Rows;

/* One call: what it answers. Returns whether what was not lent is as it was. */
static int call(Rows* rows, char kind, char** at) {
  uint64_t a[3];
  numbers(at, a, kind == 'o' || kind == 'b' ? 3 : kind == 'c' ? 0 : 2);
  if (kind == 's') {
    rows->record[a[0]] = (uint32_t)a[1];
    return 1;
  }
  if (kind == 'c') {
    uint32_t count = 0;
    const uint32_t n = ours_band_count(rows->record, &count);
    printf(" %u %u", n, n == 0 ? count : 0);
    return 1;
  }
  uint32_t* const work = (uint32_t*)rows->work.at;
  uint32_t* const before = malloc(rows->work.n + 4);
  int kept = 1;
  memcpy(before, rows->work.at, rows->work.n);
  if (kind == 'o' || kind == 'b') {
    uint32_t count = 0;
    const uint32_t n = (kind == 'o' ? ours_offer : ours_band)(rows->record, rows->px.at + a[0], a[1], work, a[2], &count);
    printf(" %u %u", n, n == 0 ? count : 0);
    kept = beyond_kept(&rows->work, before, a[2]);
  } else {
    Buffer out = lend_out(a[0]);
    printf(" %u ", ours_take(rows->record, out.at, out.n, work, a[1]));
    put_hex(out.at, out.n);
    kept = give_back(out) & beyond_kept(&rows->work, before, a[1]);
  }
  put_record(rows->record);
  put_work(&rows->work);
  free(before);
  return kept;
}

/* The source of a job that was started. */
static void lend_source(Rows* rows, uint32_t layout, uint64_t lanes, uint64_t pattern, uint64_t seed) {
  const uint64_t row = lanes * rows->record[0];
  rows->px = lend_pixels(layout, pattern, seed, row * (rows->record[1] + 2) + 8);
  keep(&rows->px);
}

/* Of a picture, v[0] its layout, or of a plane, v[0] its lanes. */
static void job(const uint64_t* v, char* at, int plane) {
  Rows rows = {{v[1], v[2], v[0], v[3], v[4], v[5], v[6], v[7], v[8], 7, 7, 7, 7, 7}, lend_words(v[9]), {0}};
  const uint32_t n = (plane ? ours_start_plane : ours_start)(rows.record, (uint32_t*)rows.work.at, v[9]);
  int kept = 1;
  printf("%u", n);
  put_work(&rows.work);
  if (n == 0) {
    lend_source(&rows, plane ? 0 : v[0], plane ? v[0] : 4, v[10], v[11]);
    for (const char* kind = word(&at); *kind; kind = word(&at)) kept &= call(&rows, *kind, &at);
    kept &= give_back(rows.px);
  }
  kept &= give_back(rows.work);
  printf(" %d\n", kept);
}

/* Three planes started together; each has bytes of its own. */
static void three(const uint64_t* v, char* at) {
  Rows rows[3];
  uint32_t records[3][OURS_RECORD] = {{0}};
  uint32_t* work[3];
  int kept = 1, which = 0;
  for (int i = 0; i < 3; ++i) {
    rows[i].work = lend_words(v[4 + i]);
    work[i] = (uint32_t*)rows[i].work.at;
  }
  const uint32_t n = ours_start_planes(v[0], v[1], v[2], v[3], work, (const size_t[3]){v[4], v[5], v[6]}, records);
  printf("%u", n);
  for (int i = 0; i < 3; ++i) put_work(&rows[i].work);
  if (n == 0) {
    for (int i = 0; i < 3; ++i) {
      memcpy(rows[i].record, records[i], sizeof records[i]);
      put_record(records[i]);
      lend_source(&rows[i], 0, 1, v[7], v[8] + i);
    }
    for (const char* kind = word(&at); *kind; kind = word(&at)) {
      if (*kind == 'p') which = (int)number(&at);
      else kept &= call(&rows[which], *kind, &at);
    }
    for (int i = 0; i < 3; ++i) kept &= give_back(rows[i].px);
  }
  for (int i = 0; i < 3; ++i) kept &= give_back(rows[i].work);
  printf(" %d\n", kept);
}

/* A group of jobs: the words of its record, its work values, its source, and the job that takes name. */
typedef struct {
  Buffer record, work, px;
  uint32_t named;
} Group;

static void put_group(const Group* g) {
  put_words((const uint32_t*)g->record.at, g->record.n / 4);
  put_work(&g->work);
}

/* As `call`. */
static int group_call(Group* g, char kind, char** at) {
  uint32_t *const record = (uint32_t*)g->record.at, *const work = (uint32_t*)g->work.at;
  const size_t words = g->record.n / 4;
  uint64_t a[3];
  numbers(at, a, kind == 'o' ? 3 : kind == 'p' ? 1 : 2);
  if (kind == 's') record[a[0]] = (uint32_t)a[1];
  if (kind == 'p') g->named = (uint32_t)a[0];
  if (kind == 's' || kind == 'p') return 1;
  uint32_t* const before = malloc(g->work.n + 4);
  int kept = 1;
  memcpy(before, g->work.at, g->work.n);
  if (kind == 'o') {
    uint32_t count = 0;
    const uint32_t n = ours_offer_group(record, words, g->px.at + a[0], a[1], work, a[2], &count);
    printf(" %u %u", n, n == 0 ? count : 0);
    kept = beyond_kept(&g->work, before, a[2]);
  } else {
    Buffer out = lend_out(a[0]);
    printf(" %u ", ours_take_group(record, words, g->named, out.at, out.n, work, a[1]));
    put_hex(out.at, out.n);
    kept = give_back(out) & beyond_kept(&g->work, before, a[1]);
  }
  put_group(g);
  free(before);
  return kept;
}

/* v: count, plans, words of the record, work values, pattern, seed. */
static void group(const uint64_t* v, char* at) {
  Buffer plans = lend(4 * OURS_PLAN * v[1]);
  uint32_t* const plan = (uint32_t*)plans.at;
  Group g = {lend_words(v[2]), lend_words(v[3]), {0}, 0};
  for (size_t i = 0; i < OURS_PLAN * v[1]; ++i) plan[i] = (uint32_t)number(&at);
  keep(&plans);
  const uint32_t n = ours_start_group(plan, OURS_PLAN * v[1], (uint32_t)v[0], (uint32_t*)g.work.at, v[3], (uint32_t*)g.record.at, v[2]);
  int kept = 1;
  printf("%u", n);
  put_group(&g);
  if (n == 0) {
    /* the first job's record: all have one source */
    const uint32_t* const r = (const uint32_t*)g.record.at + 1;
    g.px = lend_pixels(r[2], v[4], v[5], (size_t)r[13] * r[0] * (r[1] + 2) + 8);
    keep(&g.px);
    for (const char* kind = word(&at); *kind; kind = word(&at)) kept &= group_call(&g, *kind, &at);
    kept &= give_back(g.px);
  }
  kept &= give_back(plans) & give_back(g.record) & give_back(g.work);
  printf(" %d\n", kept);
}

int main(void) {
  char* line = NULL;
  size_t room = 0;
  setvbuf(stdout, NULL, _IOLBF, 1 << 16);
  while (getline(&line, &room, stdin) > 0) {
    char* at = line;
    const char* const kind = word(&at);
    uint64_t v[16];
    if (!strcmp(kind, "resize")) numbers(&at, v, 10), resize(v);
    else if (!strcmp(kind, "crop")) numbers(&at, v, 11), crop(v);
    else if (!strcmp(kind, "plane")) numbers(&at, v, 7), plane(v);
    else if (!strcmp(kind, "flag")) numbers(&at, v, 6), has_alpha(v);
    else if (!strcmp(kind, "unpack")) numbers(&at, v, 5), unpack_all(v);
    else if (!strcmp(kind, "pack")) numbers(&at, v, 5), pack_all(v);
    else if (!strcmp(kind, "scaled")) numbers(&at, v, 4), scaled(v);
    else if (!strcmp(kind, "job")) numbers(&at, v, 12), job(v, at, 0);
    else if (!strcmp(kind, "lanes")) numbers(&at, v, 12), job(v, at, 1);
    else if (!strcmp(kind, "three")) numbers(&at, v, 9), three(v, at);
    else if (!strcmp(kind, "group")) numbers(&at, v, 6), group(v, at);
    else puts("! no job");
  }
  return 0;
}
