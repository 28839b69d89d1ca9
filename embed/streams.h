/* What days.c and desk.c share: standard input as they read it. Both stop with status 2 where memory or reading fails. */
#ifndef STREAMS_H
#define STREAMS_H

#include "ponds.h"
#include <stdio.h>
#include <stdlib.h>
#include <string.h>

enum {
  RECORD = PONDS_RECORD_BYTES,
  MOST_PART = PONDS_MOST_FILE + 2 * RECORD, /* of a longer plan part one record too many is kept, and an unfinished one */
  SMALL = 4096
};

struct part {
  uint8_t bytes[MOST_PART];
  size_t length;
};

/* The next record; fewer than 16 bytes only at the end of the input. */
static inline size_t next_record(uint8_t record[RECORD]) {
  size_t got = fread(record, 1, RECORD, stdin);
  if (ferror(stdin)) exit(2);
  return got;
}

static inline int is_mark(const uint8_t record[RECORD]) {
  int i;
  for (i = 0; i < RECORD; i++) {
    if (record[i] != 255) return 0;
  }
  return 1;
}

/* The plan part: the records before the mark, or the whole input. */
static inline void read_part(struct part *part) {
  uint8_t record[RECORD];
  size_t got;
  part->length = 0;
  do {
    got = next_record(record);
    if (got == RECORD && is_mark(record)) return;
    if (got < RECORD || part->length <= PONDS_MOST_FILE) {
      memcpy(part->bytes + part->length, record, got);
      part->length += got;
    }
  } while (got == RECORD);
}

/* All of standard input; the caller frees it. */
static inline uint8_t *read_all(size_t *length) {
  size_t room = SMALL, got;
  uint8_t *bytes = malloc(room);
  *length = 0;
  while (bytes != NULL && (got = fread(bytes + *length, 1, room - *length, stdin)) > 0) {
    *length += got;
    if (*length == room) {
      uint8_t *larger = realloc(bytes, room *= 2);
      if (larger == NULL) free(bytes);
      bytes = larger;
    }
  }
  if (bytes == NULL || ferror(stdin)) exit(2);
  return bytes;
}

static inline uint32_t word_at(const uint8_t *bytes) {
  return (uint32_t)bytes[0] | (uint32_t)bytes[1] << 8 | (uint32_t)bytes[2] << 16 | (uint32_t)bytes[3] << 24;
}

/* A signed number of four bytes. */
static inline long signed_at(const uint8_t *bytes) {
  uint32_t word = word_at(bytes);
  return word < 0x80000000u ? (long)word : -(long)(0xffffffffu - word) - 1;
}

#endif
