/* libwebp's own WebPRescaler in plain C behind the oracle's job stream (README.md has the format), for planes: a line for each job on standard output.
 *
 *   cc -O2 rescaler.c -Wl,-Bstatic -lwebp -Wl,-Bdynamic -lm -lpthread -o rescaler && ./rescaler < jobs > answers
 *   ./rescaler check
 *
 * VP8GetCPUInfo set to NULL before the first use leaves plain C: the SIMD code is wrong for 2 and 3 lanes where the width grows. `check` ends with 1
 * where the library at hand is not as rescaler.h declares it.
 *
 * Asked: lanes and three, each where SCOPE accepts the start. The answer is the number 0 and, for each plane, its bytes and a checksum of the work rows
 * at the end. Every other job gets "-". */
#include <stdint.h>
#include <stdio.h>
#include <stdlib.h>
#include <string.h>

#include "picture.h"
#include "rescaler.h"

static int side_ok(uint64_t s) { return s >= 1 && s <= 16384; }

/* FNV-1a of 64 bits over the two halves as SCOPE has them: where the height grows, even crop rows stand in the second. */
static uint64_t halves(const WebPRescaler* r, size_t half) {
  const int swapped = r->y_expand && r->src_height % 2 == 0;
  const uint32_t* const rows[2] = {swapped ? r->frow : r->irow, swapped ? r->irow : r->frow};
  uint64_t h = 0xcbf29ce484222325u;
  for (size_t i = 0; i < 2 * half; ++i) h = (h ^ rows[i / half][i % half]) * 0x100000001b3u;
  return h;
}

/* The crop of a plane scaled, in the way of RescalePlane. s: lanes, width, height, crop x, y, width, height, target width, height. */
static void scale(const uint64_t s[9], uint64_t pattern, uint64_t seed) {
  const size_t row = s[0] * s[1], half = s[0] * s[7];
  uint8_t* const px = malloc(row * s[2]);
  uint8_t* const out = malloc(half * s[8]);
  uint32_t* const work = malloc(8 * half);
  WebPRescaler r;
  make_bytes(0, (uint32_t)pattern, (uint32_t)seed, px, row * s[2]);
  if (!rescale_whole(&r, (int)s[0], (int)s[5], (int)s[6], px + s[4] * row + s[0] * s[3], row, (int)s[7], (int)s[8], out, work)) {
    fputs(" ! libwebp refuses", stdout);
  } else {
    putchar(' ');
    put_hex(out, half * s[8]);
    printf(" %016llx", (unsigned long long)halves(&r, half));
  }
  free(px), free(out), free(work);
}

static void lanes(const uint64_t* v) {
  const uint64_t w = v[1], h = v[2], x = v[3], y = v[4], cw = v[5], ch = v[6], tw = v[7], th = v[8];
  if (!side_ok(w) || !side_ok(h) || !side_ok(tw) || !side_ok(th) || cw == 0 || ch == 0 || v[0] < 1 || v[0] > 4 || x + cw > w || y + ch > h ||
      v[9] < 2 * v[0] * tw) {
    puts("-");
    return;
  }
  putchar('0');
  scale(v, v[10], v[11]);
  putchar('\n');
}

static void three(const uint64_t* v) {
  uint64_t side[3][4];
  int ok = 1;
  for (int i = 0; i < 3; ++i) {
    for (int k = 0; k < 4; ++k) {
      side[i][k] = i == 0 ? v[k] : (v[k] + 1) / 2;
      ok &= side_ok(side[i][k]);
    }
    ok &= v[4 + i] >= 2 * side[i][2];
  }
  if (!ok) {
    puts("-");
    return;
  }
  for (int i = 0; i < 3; ++i) {
    const uint64_t* const d = side[i];
    fputs(i == 0 ? "0" : " 0", stdout);
    scale((const uint64_t[9]){1, d[0], d[1], 0, 0, d[0], d[1], d[2], d[3]}, v[7], v[8] + (uint64_t)i);
  }
  putchar('\n');
}

int main(int argc, char** argv) {
  VP8GetCPUInfo = NULL;
  if (!rescaler_as_declared()) {
    fputs("rescaler: this libwebp's rescaler is not as declared\n", stderr);
    return 1;
  }
  if (argc > 1 && !strcmp(argv[1], "check")) return 0;
  char* line = NULL;
  size_t room = 0;
  setvbuf(stdout, NULL, _IOLBF, 1 << 16);
  while (getline(&line, &room, stdin) > 0) {
    char* at = line;
    const char* const kind = word(&at);
    uint64_t v[12];
    if (!strcmp(kind, "lanes")) numbers(&at, v, 12), lanes(v);
    else if (!strcmp(kind, "three")) numbers(&at, v, 9), three(v);
    else puts("-");
  }
  return 0;
}
