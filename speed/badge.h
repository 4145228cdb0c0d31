/* A badge over a background in plain C, to time the port beside (badge.c, which ./bench compiles with -O3). */
#ifndef SPEED_BADGE_H
#define SPEED_BADGE_H

#include <stddef.h>
#include <stdint.h>

/* The badge of n pixels over the background, in its place. Nothing is tested. */
typedef void PlainBadge(uint8_t* restrict pixels, const uint8_t* restrict badge, size_t n);

PlainBadge plain_rgba_over_rgba, plain_argb_over_argb, plain_rgba_over_bgra, plain_argb_over_rgba;

#endif
