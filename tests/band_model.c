/* The calls of a job behind a stream of cases (tests/band_model.py writes and judges them): a line for each on standard output.
 *
 *   a case     the call: b jonquilsaw_band_offer, c jonquilsaw_band_count, o jonquilsaw_offer, t jonquilsaw_take; how many words are lent for the
 *              count; the record's words, the bytes (of a take the output row) and the work values, hexadecimal, - where there are none
 *   an answer  the number; the count, - where it was not written; words, bytes and work values afterwards; 1 if the guards around all of them
 *              are as they were
 */
#define _GNU_SOURCE
#include <stdint.h>
#include <stdio.h>
#include <stdlib.h>
#include <string.h>

#include "jonquilsaw.h"

enum { GUARD = 64, GUARD_BYTE = 0x5c, GUARD_WORD = 0x5c5c5c5c };

/* Bytes, or words of 4 each, between two guards. */
typedef struct {
  uint8_t *room, *at;
  size_t count, size;
} Buffer;

static void stop(const char* why) {
  fprintf(stderr, "band_model: %s\n", why);
  exit(1);
}

static Buffer lend(size_t count, size_t size) {
  Buffer b = {malloc(count * size + 2 * GUARD), NULL, count, size};
  if (!b.room) stop("no memory");
  memset(b.room, GUARD_BYTE, count * size + 2 * GUARD);
  b.at = b.room + GUARD;
  return b;
}

static uint32_t digit(char c) { return (uint32_t)(c <= '9' ? c - '0' : c - 'a' + 10); }

/* The next word of a line. */
static const char* word(char** line, size_t* length) {
  const char* const from = *line + (**line == ' ');
  *length = strcspn(from, " \n");
  if (!*length) stop("a case is not a case");
  *line = (char*)from + *length;
  return from;
}

/* Elements of so many bytes each. */
static Buffer read_buffer(char** line, size_t size) {
  size_t length;
  const char* const from = word(line, &length);
  Buffer b = lend(*from == '-' ? 0 : length / (2 * size), size);
  for (size_t i = 0; i < b.count; ++i) {
    uint32_t value = 0;
    for (size_t k = 0; k < 2 * size; ++k) value = value << 4 | digit(from[2 * size * i + k]);
    if (size == 1) b.at[i] = (uint8_t)value;
    else ((uint32_t*)b.at)[i] = value;
  }
  return b;
}

static void put_buffer(const Buffer* b) {
  putchar(' ');
  if (!b->count) putchar('-');
  for (size_t i = 0; i < b->count; ++i) {
    if (b->size == 1) printf("%02x", b->at[i]);
    else printf("%08x", ((const uint32_t*)b->at)[i]);
  }
}

/* Whether the guards are as they were; the buffer goes. */
static int give_back(Buffer b) {
  int kept = 1;
  for (size_t i = 0; i < GUARD; ++i) kept &= b.room[i] == GUARD_BYTE && b.at[b.count * b.size + i] == GUARD_BYTE;
  free(b.room);
  return kept;
}

static void run(char* line) {
  size_t length;
  const char call = *word(&line, &length);
  const size_t lent = (size_t)strtoul(word(&line, &length), NULL, 10);
  Buffer record = read_buffer(&line, 4), bytes = read_buffer(&line, 1), work = read_buffer(&line, 4), count = lend(lent, 4);
  uint32_t *const words = (uint32_t*)record.at, *const values = (uint32_t*)work.at, *const told = (uint32_t*)count.at;
  uint32_t n = 0;
  switch (call) {
    case 'b': n = jonquilsaw_band_offer(words, record.count, bytes.at, bytes.count, values, work.count, told, lent); break;
    case 'c': n = jonquilsaw_band_count(words, record.count, told, lent); break;
    case 'o': n = jonquilsaw_offer(words, record.count, bytes.at, bytes.count, values, work.count, told, lent); break;
    case 't': n = jonquilsaw_take(words, record.count, bytes.at, bytes.count, values, work.count); break;
    default: stop("no such call");
  }
  printf("%u ", n);
  if (lent && told[0] != GUARD_WORD) printf("%u", told[0]);
  else putchar('-');
  put_buffer(&record), put_buffer(&bytes), put_buffer(&work);
  /* A second word that is lent is never written. */
  int kept = lent < 2 || told[1] == GUARD_WORD;
  kept &= give_back(record), kept &= give_back(bytes), kept &= give_back(work), kept &= give_back(count);
  printf(" %d\n", kept);
}

int main(void) {
  char* line = NULL;
  size_t room = 0;
  while (getline(&line, &room, stdin) > 0) run(line);
  free(line);
  return 0;
}
