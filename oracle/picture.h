/* What both C drivers share: reading a job's words, making its pixels, writing bytes (src/picture.rs is the same in Rust). */
#ifndef PICTURE_H
#define PICTURE_H
#include <stddef.h>
#include <stdint.h>
#include <stdio.h>
#include <stdlib.h>
#include <string.h>

/* The next word of a line, ended by a 0; "" at the line's end. */
static inline const char* word(char** at) {
  char* s = *at;
  while (*s == ' ') ++s;
  char* e = s;
  while (*e && *e != ' ' && *e != '\n') ++e;
  if (*e) *e++ = 0;
  *at = e;
  return s;
}

static inline uint64_t number(char** at) { return strtoull(word(at), NULL, 10); }

static inline void numbers(char** at, uint64_t* v, int n) {
  for (int i = 0; i < n; ++i) v[i] = number(at);
}

/* The byte of pixel i that the state s stands for. */
static inline uint8_t value(uint32_t pattern, int alpha, uint32_t i, uint32_t s) {
  static const uint8_t kAlphas[6] = {0, 1, 2, 128, 254, 255};
  const uint8_t b = s >> 24, black_white = b < 128 ? 0 : 255;
  switch (pattern) {
    case 1: return alpha ? 255 : b;
    case 2: return alpha ? black_white : b;
    case 3: return alpha ? kAlphas[b % 6] : b;
    case 4: return alpha ? 255 : black_white;
    case 5: return black_white;
    case 6: return 255;
    case 7: return alpha ? i % 256 : b;
    case 8: return alpha ? i / 256 % 256 : i % 256;
    case 9: return alpha ? 255 : b % 4;
    default: return b;
  }
}

static inline uint32_t step(uint32_t s) { return s * 1664525u + 1013904223u; }

static inline void make_bytes(int layout, uint32_t pattern, uint32_t seed, uint8_t* out, size_t len) {
  const size_t place = layout == 1 ? 0 : 3;
  if (pattern == 10) {
    for (size_t j = 0; j < len; ++j) out[j] = (uint8_t)(seed >> 8 * (j % 4));
    return;
  }
  for (size_t j = 0; j < len; ++j) out[j] = value(pattern, j % 4 == place, (uint32_t)(j / 4), seed = step(seed));
}

static inline void make_plane(uint32_t pattern, uint32_t seed, uint8_t* out, size_t len) {
  seed += 1;
  for (size_t i = 0; i < len; ++i) out[i] = value(pattern, 1, (uint32_t)i, seed = step(seed));
}

/* The lane (0 blue to 3 alpha) at each byte of a packed pixel. */
static const int kLane[3][4] = {{2, 1, 0, 3}, {3, 2, 1, 0}, {0, 1, 2, 3}};

static inline uint32_t unpack(int layout, const uint8_t* p) {
  uint32_t v = 0;
  for (int i = 0; i < 4; ++i) v |= (uint32_t)p[i] << (8 * kLane[layout][i]);
  return v;
}
static inline void pack(int layout, uint32_t v, uint8_t* p) {
  for (int i = 0; i < 4; ++i) p[i] = (uint8_t)(v >> (8 * kLane[layout][i]));
}

static inline void put_hex(const uint8_t* p, size_t n) {
  static const char kDigits[] = "0123456789abcdef";
  char part[4096];
  if (n == 0) putchar('-');
  for (size_t i = 0; i < n;) {
    size_t k = 0;
    for (; i < n && k < sizeof part; ++i) {
      part[k++] = kDigits[p[i] >> 4];
      part[k++] = kDigits[p[i] & 15];
    }
    fwrite(part, 1, k, stdout);
  }
}
#endif
