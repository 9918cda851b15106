/* The compact graph and the distance table of a file and a question in plain C. */
#pragma once
#include "file.h"

typedef struct {
  uint32_t from, to, hops, classes, meaning, first, last, undated;
} question;

/* The question's numbers as the program reads them, before the file. */
enum { QUESTION_BYTES = 32 };

static inline uint32_t class_of(uint8_t kind) {
  switch (kind) {
    case 1:
    case 2:
    case 4: return 1;
    case 3: return 2;
    case 5: return 4;
    default: return kind >= 16 && kind <= 31 ? 8 : 0;
  }
}

static inline int admitted(const uint8_t *file, const uint8_t *link, const question *q) {
  if ((class_of(link[10]) & q->classes) == 0) return 0;
  uint32_t day = number32(link + 4);
  if (day == 0) return q->undated != 0;
  return q->first <= day && day <= q->last && file[32 + 4 * number16(link + 8) + 2] == q->meaning;
}

static inline void fill(const uint8_t *file, const question *q, uint16_t *starts, uint16_t *targets) {
  uint32_t n = number32(file + 4);
  const uint8_t *rows = file + number32(file + 20), *links = file + number32(file + 24);
  uint16_t end = 0;
  starts[0] = 0;
  for (uint32_t p = 0; p < PERSONS; p++) {
    if (p < n)
      for (uint32_t i = number32(rows + 4 * p), stop = number32(rows + 4 * p + 4); i < stop; i++)
        if (admitted(file, links + 12 * (size_t)i, q)) targets[end++] = (uint16_t)number32(links + 12 * (size_t)i);
    starts[p + 1] = end;
  }
}

static inline int leads(const uint16_t *starts, const uint16_t *targets, const uint8_t *cells, uint32_t person, uint8_t hops) {
  for (uint32_t at = starts[person]; at < starts[person + 1]; at++)
    if (cells[targets[at]] == hops) return 1;
  return 0;
}

static inline void distances(const uint16_t *starts, const uint16_t *targets, uint32_t to, uint8_t most, uint8_t *cells) {
  memset(cells, most + 1, PERSONS);
  cells[to] = 0;
  for (uint8_t hops = 0; hops < most; hops++) {
    int added = 0;
    for (uint32_t p = 0; p < PERSONS; p++)
      if (cells[p] == most + 1 && leads(starts, targets, cells, p, hops)) {
        cells[p] = hops + 1;
        added = 1;
      }
    if (!added) return;
  }
}
