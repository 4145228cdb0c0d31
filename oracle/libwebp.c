/* Stock libwebp behind the oracle's job stream (README.md has the format): a line for each job on standard output.
 *
 *   cc -O2 libwebp.c -lwebp -o libwebp && ./libwebp < jobs > answers
 *   ./libwebp version
 *
 * Asked: resize and job (WebPPictureCrop, then WebPPictureRescale, use_argb), crop (WebPPictureCrop), scaled (the size that
 * WebPPictureRescale makes of a 0), each only where SCOPE accepts the call. The answer has the first three words only:
 * number, flag and bytes. Every other job gets "-". */
#include <stdint.h>
#include <stdio.h>
#include <stdlib.h>
#include <string.h>
#include <webp/encode.h>

#include "picture.h"

static int side_ok(uint64_t s) { return s >= 1 && s <= 16384; }

/* Makes a picture of argb values from packed bytes. */
static int make(WebPPicture* pic, int layout, int w, int h, const uint8_t* px) {
  if (!WebPPictureInit(pic)) return 0;
  pic->use_argb = 1;
  pic->width = w;
  pic->height = h;
  if (!WebPPictureAlloc(pic)) return 0;
  for (int y = 0; y < h; ++y) {
    for (int x = 0; x < w; ++x) pic->argb[(size_t)y * pic->argb_stride + x] = unpack(layout, px + 4 * ((size_t)y * w + x));
  }
  return 1;
}

static void answer(const WebPPicture* pic, int layout) {
  const size_t n = 4 * (size_t)pic->width * pic->height;
  uint8_t* const out = malloc(n);
  int flag = 0;
  for (int y = 0; y < pic->height; ++y) {
    for (int x = 0; x < pic->width; ++x) {
      const uint32_t v = pic->argb[(size_t)y * pic->argb_stride + x];
      flag |= (v >> 24) != 255;
      pack(layout, v, out + 4 * ((size_t)y * pic->width + x));
    }
  }
  printf("0 %d ", flag);
  put_hex(out, n);
  putchar('\n');
  free(out);
}

/* Crop, then rescale where tw is not 0; "-" where SCOPE refuses, "!" where libwebp does. */
static void scale(const uint64_t* s, uint64_t tw, uint64_t th, uint64_t pixels, uint64_t pattern, uint64_t seed) {
  const uint64_t w = s[1], h = s[2], x = s[3], y = s[4], cw = s[5], ch = s[6];
  const int target = tw != 0 || th != 0;
  if (!side_ok(w) || !side_ok(h) || cw == 0 || ch == 0 || x + cw > w || y + ch > h || (target && !(side_ok(tw) && side_ok(th))) || pixels != 4 * w * h) {
    puts("-");
    return;
  }
  uint8_t* const px = malloc(pixels);
  make_bytes((int)s[0], (uint32_t)pattern, (uint32_t)seed, px, pixels);
  WebPPicture pic;
  const int whole = x == 0 && y == 0 && cw == w && ch == h;
  if (!make(&pic, (int)s[0], (int)w, (int)h, px) || (!whole && !WebPPictureCrop(&pic, (int)x, (int)y, (int)cw, (int)ch)) ||
      (target && !WebPPictureRescale(&pic, (int)tw, (int)th))) {
    puts("! libwebp refuses");
  } else {
    answer(&pic, (int)s[0]);
  }
  WebPPictureFree(&pic);
  free(px);
}

/* Small pictures only: libwebp makes the scaled picture to say its size. */
static void scaled(const uint64_t* s) {
  WebPPicture pic;
  const int small = s[0] * s[1] <= 16384 && s[2] <= 64 && s[3] <= 64;
  if (!side_ok(s[0]) || !side_ok(s[1]) || !small || s[0] * s[3] > 64 * s[1] || s[1] * s[2] > 64 * s[0]) {
    puts("-");
    return;
  }
  uint8_t* const px = calloc(s[0] * s[1], 4);
  if (!make(&pic, 0, (int)s[0], (int)s[1], px)) {
    puts("-");
  } else if (!WebPPictureRescale(&pic, (int)s[2], (int)s[3])) {
    puts("1 0 0");
  } else if (!side_ok(pic.width) || !side_ok(pic.height)) {
    puts("-"); /* libwebp has no limit of 16,384 */
  } else {
    printf("0 %d %d\n", pic.width, pic.height);
  }
  WebPPictureFree(&pic);
  free(px);
}

int main(int argc, char** argv) {
  if (argc > 1 && !strcmp(argv[1], "version")) {
    const int v = WebPGetEncoderVersion();
    printf("%d.%d.%d\n", v >> 16, v >> 8 & 255, v & 255);
    return 0;
  }
  char* line = NULL;
  size_t room = 0;
  setvbuf(stdout, NULL, _IOLBF, 1 << 16);
  while (getline(&line, &room, stdin) > 0) {
    char* at = line;
    const char* const kind = word(&at);
    uint64_t v[16];
    if (!strcmp(kind, "resize")) {
      numbers(&at, v, 10);
      const uint64_t s[7] = {v[0], v[1], v[2], 0, 0, v[1], v[2]};
      if (v[3] == 0 || v[4] == 0 || v[6] != 4 * v[3] * v[4] || v[7] < 8 * v[3]) puts("-");
      else scale(s, v[3], v[4], v[5], v[8], v[9]);
    } else if (!strcmp(kind, "job")) {
      numbers(&at, v, 12);
      if (v[7] == 0 || v[8] == 0 || v[9] < 8 * v[7]) puts("-");
      else scale(v, v[7], v[8], 4 * v[1] * v[2], v[10], v[11]);
    } else if (!strcmp(kind, "crop")) {
      numbers(&at, v, 11);
      if (v[8] != 4 * v[5] * v[6]) puts("-");
      else scale(v, 0, 0, v[7], v[9], v[10]);
    } else if (!strcmp(kind, "scaled")) {
      numbers(&at, v, 4);
      scaled(v);
    } else {
      puts("-");
    }
  }
  return 0;
}
