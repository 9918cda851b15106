// A portion of chains or rings from the file's bytes to the records: the library's, and the same in plain C and C++.
#pragma once
#include "check.h"
#include "graph.h"
#include "../../include/kin.h"
#include "search.hpp"
#include "shapes.hpp"

using Cells = std::vector<uint32_t>;

static const uint64_t ENDED = uint64_t(1) << 62;
static const size_t RECORD = 10;

struct Call {
    const Bytes &file;
    question q;
    const uint32_t *bookmark;
};

inline question asked(uint32_t from, uint32_t to, uint32_t hops) { return {from, to, hops, 15, 1, 1, LAST_DAY, 1}; }

// An input of the program: the question, then the file.
inline Bytes input_of(const question &q, const Bytes &file) {
    Bytes input(QUESTION_BYTES + file.size());
    uint8_t *at = input.data();
    for (uint32_t number : {q.from, q.to, q.hops, q.classes, q.meaning, q.first, q.last, q.undated}) at = put(at, number, 4);
    memcpy(at, file.data(), file.size());
    return input;
}

inline uint64_t ours(const Call &c, Cells &out) {
    const question &q = c.q;
    return kin_portion(c.file.data(), c.file.size(), q.from, q.to, q.hops, q.classes, q.meaning, q.first, q.last,
                       q.undated, c.bookmark ? 1 : 0, c.bookmark, c.bookmark ? RECORD : 0, out.data(), out.size());
}

inline uint64_t our_rings(const Call &c, Cells &out) {
    const question &q = c.q;
    return kin_rings(c.file.data(), c.file.size(), q.from, q.to, q.hops, q.classes, q.meaning, q.first, q.last,
                     q.undated, c.bookmark ? 1 : 0, c.bookmark, c.bookmark ? RECORD : 0, out.data(), out.size());
}

// It lists rings where From and To are the same. It does not test whether the bookmark is a chain or a ring.
template <Pruned pruned = Pruned::by_barriers> uint64_t plain(const Call &c, Cells &out) {
    uint64_t verdict = plain_check(c.file.data(), c.file.size());
    if (verdict & REFUSED) return verdict;
    uint16_t starts[PERSONS + 1] = {0}, targets[LINKS] = {0};
    uint8_t cells[PERSONS];
    fill(c.file.data(), &c.q, starts, targets);
    if (pruned != Pruned::by_nothing) distances(starts, targets, c.q.to, uint8_t(c.q.hops), cells);
    Asked a{starts, targets, cells, c.q.from, c.q.to, c.q.hops, c.bookmark ? 1u : 0u, c.bookmark};
    uint64_t r = records<pruned>(a, out.data(), out.size());
    return r & ENDED ? r - ENDED : r + ENDED;
}
