/* Link files to measure with: how numbers are read and written, the limits of the counts, the largest file. */
#pragma once
#include <stdint.h>
#include <stdlib.h>
#include <string.h>

enum { PERSONS = 1024, LINKS = 4096, FEEDS = 16, LENGTH = 53348, LAST_DAY = 3652059 };

static inline uint32_t number16(const uint8_t *at) { return at[0] | (uint32_t)at[1] << 8; }

static inline uint32_t number32(const uint8_t *at) {
  return at[0] | (uint32_t)at[1] << 8 | (uint32_t)at[2] << 16 | (uint32_t)at[3] << 24;
}

static inline uint8_t *put(uint8_t *at, uint32_t number, int bytes) {
  for (int i = 0; i < bytes; i++) at[i] = (uint8_t)(number >> 8 * i);
  return at + bytes;
}

/* The largest file: four links a person, of all kinds, dated and undated, from feeds of both meanings. */

static inline int rising(const void *one, const void *other) { return *(const int *)one - *(const int *)other; }

static inline uint8_t *put_row(uint8_t *at, int person) {
  static const uint8_t kinds[10] = {1, 2, 3, 4, 5, 16, 17, 23, 30, 31};
  static const uint32_t days[4] = {0, 1, 700000, LAST_DAY};
  int targets[4] = {(person + 1) % PERSONS, (person + 7) % PERSONS, (person + 300) % PERSONS,
                    (person + 1000) % PERSONS};
  qsort(targets, 4, sizeof targets[0], rising);
  for (int i = 0; i < 4; i++) {
    int number = 4 * person + i;
    at = put(at, (uint32_t)targets[i], 4);
    at = put(at, days[number % 7 % 4], 4);
    at = put(at, (uint32_t)(number % FEEDS), 2);
    at = put(at, kinds[number % 10], 2);
  }
  return at;
}

static inline void write_largest(uint8_t *file) {
  const uint32_t rows = 32 + 4 * FEEDS, links = rows + 4 * (PERSONS + 1);
  const uint32_t header[7] = {PERSONS, LINKS, FEEDS, 32, rows, links, LENGTH};
  memcpy(file, "KLF1", 4);
  uint8_t *at = file + 4;
  for (int i = 0; i < 7; i++) at = put(at, header[i], 4);
  for (uint32_t i = 0; i < FEEDS; i++) at = put(put(at, 100 * (i + 1), 2), 1 + i % 2, 2);
  for (uint32_t p = 0; p <= PERSONS; p++) at = put(at, 4 * p, 4);
  for (int p = 0; p < PERSONS; p++) at = put_row(at, p);
}
