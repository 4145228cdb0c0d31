/* A loop for each pair of layouts, as one writes it: byte by byte, the places of the lanes written in. */
#include "badge.h"

static inline uint32_t matte(uint32_t c, uint32_t a) {
  const uint32_t t = c * a + 128;
  return (t + (t >> 8)) >> 8;
}

static inline uint8_t blend(uint32_t a, uint32_t c, uint32_t d) { return (uint8_t)(matte(c, a) + matte(d, 255 - a)); }

/* NAME(places of red, green, blue and alpha in the background; in the badge) */
#define LAY(NAME, R, G, B, A, FROM_R, FROM_G, FROM_B, FROM_A)                                    \
  void NAME(uint8_t* restrict pixels, const uint8_t* restrict badge, size_t n) {                 \
    for (size_t i = 0; i < 4 * n; i += 4) {                                                      \
      const uint32_t a = badge[i + FROM_A];                                                      \
      pixels[i + R] = blend(a, badge[i + FROM_R], pixels[i + R]);                                \
      pixels[i + G] = blend(a, badge[i + FROM_G], pixels[i + G]);                                \
      pixels[i + B] = blend(a, badge[i + FROM_B], pixels[i + B]);                                \
      pixels[i + A] = 255;                                                                       \
    }                                                                                            \
  }

LAY(plain_rgba_over_rgba, 0, 1, 2, 3, 0, 1, 2, 3)
LAY(plain_argb_over_argb, 1, 2, 3, 0, 1, 2, 3, 0)
LAY(plain_rgba_over_bgra, 2, 1, 0, 3, 0, 1, 2, 3)
LAY(plain_argb_over_rgba, 0, 1, 2, 3, 1, 2, 3, 0)
