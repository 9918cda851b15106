/* The check of a link file in plain C: the same tests in the same order. */
#pragma once
#include "file.h"

static const uint64_t REFUSED = (uint64_t)1 << 63;

static inline uint64_t refused(uint64_t number, uint64_t place) { return REFUSED + (number << 32) + place; }

static inline int known(uint8_t kind) { return (kind >= 1 && kind <= 5) || (kind >= 16 && kind <= 31); }

static inline uint64_t plain_feeds(const uint8_t *feeds, uint32_t f) {
  uint32_t before = 0;
  for (uint32_t i = 0; i < f; i++) {
    const uint8_t *feed = feeds + 4 * i;
    uint32_t archive = number16(feed);
    if (archive <= before || feed[3] != 0) return refused(4, i);
    if (feed[2] != 1 && feed[2] != 2) return refused(5, i);
    before = archive;
  }
  return 0;
}

static inline uint64_t plain_rows(const uint8_t *rows, uint32_t n, uint32_t m) {
  if (number32(rows) != 0) return refused(6, 0);
  uint32_t before = 0;
  for (uint32_t i = 1; i <= n; i++) {
    uint32_t entry = number32(rows + 4 * i);
    if (entry < before || (i == n && entry != m)) return refused(6, i);
    before = entry;
  }
  return 0;
}

static inline uint64_t plain_links(const uint8_t *rows, const uint8_t *links, uint32_t n, uint32_t f) {
  for (uint32_t p = 0; p < n; p++) {
    uint32_t first = number32(rows + 4 * p), end = number32(rows + 4 * p + 4);
    for (uint32_t i = first; i < end; i++) {
      const uint8_t *link = links + 12 * (size_t)i;
      uint32_t target = number32(link);
      if (target >= n || target == p || (i > first && target <= number32(link - 12)) ||
          number16(link + 8) >= f || link[11] != 0)
        return refused(7, i);
      if (!known(link[10])) return refused(8, i);
      if (number32(link + 4) > LAST_DAY) return refused(9, i);
    }
  }
  return 0;
}

__attribute__((noinline, unused)) static uint64_t plain_check(const uint8_t *file, size_t length) {
  if (length < 32 || memcmp(file, "KLF1", 4) != 0) return refused(1, 0);
  uint32_t n = number32(file + 4), m = number32(file + 8), f = number32(file + 12);
  if (n < 1 || n > PERSONS || m > LINKS || f > FEEDS) return refused(2, 0);
  uint32_t rows = 32 + 4 * f, links = rows + 4 * (n + 1), end = links + 12 * m;
  if (number32(file + 16) != 32 || number32(file + 20) != rows || number32(file + 24) != links ||
      number32(file + 28) != end || length != end)
    return refused(3, 0);
  uint64_t fault = plain_feeds(file + 32, f);
  if (!fault) fault = plain_rows(file + rows, n, m);
  if (!fault) fault = plain_links(file + rows, file + links, n, f);
  return fault ? fault : n + ((uint64_t)m << 16) + ((uint64_t)f << 32);
}
