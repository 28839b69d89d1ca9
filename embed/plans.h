/* Plans of the largest sizes, made here, for fences.c and stack.c. */
#ifndef PLANS_H
#define PLANS_H

#include "ponds.h"
#include <stdio.h>
#include <string.h>

enum { RECORD = PONDS_RECORD_BYTES, POINTS = PONDS_MOST_POINTS, LINKED = 8, FARTHEST = 100000, FIRST_END = 24, FIRST_WAITING = 8 };

struct file {
  uint8_t bytes[PONDS_MOST_FILE];
  size_t length;
};

static inline void add(struct file *file, uint8_t kind, int a, int b, uint32_t first, uint32_t second, uint32_t code) {
  uint8_t *record = file->bytes + file->length;
  int i;
  memset(record, 0, RECORD);
  record[0] = kind, record[1] = (uint8_t)a, record[2] = (uint8_t)b;
  for (i = 0; i < 4; i++) {
    record[4 + i] = (uint8_t)(first >> 8 * i);
    record[8 + i] = (uint8_t)(second >> 8 * i);
    record[12 + i] = (uint8_t)(code >> 8 * i);
  }
  file->length += RECORD;
}

static inline void add_points(struct file *file) {
  int p;
  file->length = 0;
  for (p = 0; p < POINTS; p++) add(file, 1, p, 0, 0, 0, 4294967295u - (uint32_t)p);
}

/* All pairs, or, where only calm points are wanted, the pairs whose second point has no wait and ends no link. */
static inline void add_pairs(struct file *file, int calm) {
  int x, y;
  for (x = 0; x < POINTS; x++) {
    for (y = 0; y < POINTS; y++) {
      int is_calm = y < FIRST_WAITING || (FIRST_WAITING + LINKED <= y && y < FIRST_END);
      if (x != y && (!calm || is_calm)) add(file, 3, x, y, FARTHEST, 0, 0);
    }
  }
}

/* Eight links that start at point 0, `wide` of them with four durations and the others with two. */
static inline void add_links(struct file *file, int wide) {
  int k;
  for (k = 0; k < LINKED; k++) add(file, 2, 0, FIRST_END + k, 20, k < wide ? 23 : 21, 0);
}

static inline void add_waits(struct file *file) {
  int k;
  for (k = 0; k < LINKED * LINKED; k++) add(file, 4, FIRST_WAITING + k / LINKED, FIRST_END + k % LINKED, 20, 0, 0);
}

/* As many records as a plan can have: 1,096, since no pair has two ordinary ones. It does not pass the test. */
static inline void make_largest(struct file *file) {
  add_points(file);
  add_links(file, 4);
  add_pairs(file, 0);
  add_waits(file);
}

/* 600 records that pass the test; with four wide links there are 4,096 projections, with none 256. */
static inline void make_passing(struct file *file, int wide) {
  add_points(file);
  add_links(file, wide);
  add_pairs(file, 1);
  add_waits(file);
}

/* The same with 256 projections and a single ordinary record, which is not needed. */
static inline void make_light(struct file *file) {
  add_points(file);
  add_links(file, 0);
  add(file, 3, FIRST_END, 0, 100, 0, 0);
  add_waits(file);
}

/* All points and all pairs, without links and waits. */
static inline void make_round(struct file *file) {
  add_points(file);
  add_pairs(file, 0);
}

/* The haul of document 01 with two records more, of which the last is not needed. It passes the test. */
static inline void make_small(struct file *file) {
  static const int pairs[][3] = {{1, -10, 0}, {2, 5, 3}, {3, 15, 2}, {0, 50, 1}, {0, 200, 3}};
  size_t k;
  add_points(file);
  file->length = 4 * RECORD;
  add(file, 2, 1, 2, 20, 50, 0);
  for (k = 0; k < sizeof pairs / sizeof *pairs; k++) add(file, 3, pairs[k][0], pairs[k][2], (uint32_t)pairs[k][1], 0, 0);
  add(file, 4, 3, 2, 35, 0, 0);
}

/* A plan file as comma-separated text with a pond code for each point; answers its length, at most 64 bytes for each record. */
static inline size_t as_text(const struct file *file, char *text) {
  static const char *const words[] = {"point", "link", "ordinary", "wait"};
  size_t at, length = 0;
  for (at = 0; at < file->length; at += RECORD) {
    const uint8_t *r = file->bytes + at;
    long first = (long)r[4] + 256L * r[5] + 65536L * r[6], second = (long)r[8] + 256L * r[9] + 65536L * r[10];
    length += (size_t)sprintf(text + length, "\"%s\",%d,%d,%ld,%ld,%s\r\n", words[r[0] - 1], r[1], r[2], first, second,
                              r[0] == 1 ? "ZZ9999" : "");
  }
  return length;
}

#endif
