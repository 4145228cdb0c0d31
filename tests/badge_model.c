/* jonquilsaw_badge_lay behind a stream of cases (tests/badge_model.py writes and judges them): a line for each on standard output.
 *
 *   a case     width height layout bytes, of the background and then of the badge; bytes are hexadecimal, - where there are none
 *   an answer  the number, the background's bytes afterwards, and 1 if the guards around both and the badge are as they were
 */
#define _GNU_SOURCE
#include <ctype.h>
#include <stdint.h>
#include <stdio.h>
#include <stdlib.h>
#include <string.h>

#include "jonquilsaw.h"

enum { GUARD = 64, GUARD_BYTE = 0x5c };

/* Bytes between two guards. */
typedef struct {
  uint32_t width, height, layout;
  uint8_t *room, *at;
  size_t count;
} Picture;

static void stop(const char* why) {
  fprintf(stderr, "badge_model: %s\n", why);
  exit(1);
}

static uint32_t number(char** text) {
  char* end;
  const unsigned long value = strtoul(*text, &end, 10);
  if (end == *text || value > UINT32_MAX) stop("a case is not a case");
  *text = end;
  return (uint32_t)value;
}

static uint8_t digit(char c) { return (uint8_t)(c <= '9' ? c - '0' : c - 'a' + 10); }

static Picture picture(char** text) {
  Picture p = {number(text), number(text), number(text), NULL, NULL, 0};
  char* from = *text + 1;
  while (isxdigit((unsigned char)from[2 * p.count])) ++p.count;
  *text = p.count ? from + 2 * p.count : from + 1;
  p.room = malloc(p.count + 2 * GUARD);
  if (!p.room) stop("no memory");
  memset(p.room, GUARD_BYTE, p.count + 2 * GUARD);
  p.at = p.room + GUARD;
  for (size_t i = 0; i < p.count; ++i) p.at[i] = (uint8_t)(digit(from[2 * i]) << 4 | digit(from[2 * i + 1]));
  return p;
}

static int guarded(const Picture* p) {
  for (size_t i = 0; i < GUARD; ++i) {
    if (p->room[i] != GUARD_BYTE || p->at[p->count + i] != GUARD_BYTE) return 0;
  }
  return 1;
}

static void put_bytes(const Picture* p) {
  if (!p->count) putchar('-');
  for (size_t i = 0; i < p->count; ++i) {
    putchar("0123456789abcdef"[p->at[i] >> 4]);
    putchar("0123456789abcdef"[p->at[i] & 15]);
  }
}

static void run(char* line) {
  Picture under = picture(&line), over = picture(&line);
  uint8_t* const copy = malloc(over.count + 1);
  if (!copy) stop("no memory");
  memcpy(copy, over.at, over.count);
  const uint32_t n = jonquilsaw_badge_lay(under.width, under.height, under.layout, under.at, under.count, over.width, over.height, over.layout, over.at, over.count);
  printf("%u ", n);
  put_bytes(&under);
  printf(" %d\n", guarded(&under) && guarded(&over) && !memcmp(copy, over.at, over.count));
  free(copy), free(under.room), free(over.room);
}

int main(void) {
  char* line = NULL;
  size_t room = 0;
  while (getline(&line, &room, stdin) > 0) run(line);
  free(line);
  return 0;
}
