// The depth-first search in plain C++, once for all benchmarks. What it prunes by and what becomes of its chains are parameters of
// the template, so that neither costs time.
#pragma once
#include "file.h"
#include <cstddef>

// The compact graph, the fewest hops from each person to To (not looked at without pruning) and the question.
struct Asked {
    const uint16_t *rows, *targets;
    const uint8_t *fewest;
    uint32_t from, to;
    size_t hops;
    uint32_t started;
    const uint32_t *bookmark;
};

// Nothing: only the bound of hops and the test that no person is twice in a chain.
enum class Pruned { by_nothing, by_distances, by_barriers };

// Sink takes the chains by hand_over, has their count and says by more that no further one is wanted.
template <Pruned pruned, class Sink> struct Search {
    const uint16_t *rows, *targets;
    const uint32_t *bookmark;
    uint32_t to;
    Sink sink;
    size_t height = 0;
    bool marks[PERSONS] = {};
    uint8_t barriers[PERSONS];
    uint16_t trail[8 * PERSONS];
    uint32_t chain[16] = {};  // as a record: the persons from cell 1 on, then zeros; longer only so that no compiler warns

    Search(const Asked &a, const Sink &s) : rows(a.rows), targets(a.targets), bookmark(a.bookmark), to(a.to), sink(s) {
        if (pruned != Pruned::by_nothing) memcpy(barriers, a.fewest, sizeof barriers);
        chain[1] = a.from;
        marks[a.from] = true;
        go_through(a.from, 1, a.hops, a.started != 0);
    }

    void go_through(size_t person, size_t len, size_t left, bool tight) {
        for (size_t i = rows[person], end = rows[person + 1]; i < end && !sink.more; ++i) {
            uint32_t v = targets[i];
            bool on = false;
            if (tight) {
                if (v < bookmark[len + 1]) continue;
                on = v == bookmark[len + 1];
            }
            if (v == to) {
                if (!on) sink.hand_over(chain, len, v, to, len);
                continue;
            }
            if (marks[v] || too_far(v, left - 1)) continue;
            if (pruned != Pruned::by_nothing && left == 2 && !on) {  // v is near enough, so To is in its row
                sink.hand_over(chain, len, v, to, len + 1);
                continue;
            }
            const size_t count0 = sink.count, height0 = height;
            chain[len + 1] = v;
            marks[v] = true;
            go_through(v, len + 1, left - 1, on);
            marks[v] = false;
            chain[len + 1] = 0;
            if (pruned != Pruned::by_barriers) continue;
            if (!on && !sink.more && sink.count == count0)
                raise_barrier(v, left);
            else
                put_back(height0);
        }
    }

    bool too_far(uint32_t v, size_t left) const { return pruned == Pruned::by_nothing ? left == 0 : left < barriers[v]; }

    void raise_barrier(uint32_t v, size_t left) {
        if (height == sizeof trail / sizeof trail[0]) return;
        trail[height++] = uint16_t(v * 16 + barriers[v]);
        barriers[v] = uint8_t(left);
    }

    void put_back(size_t height0) {
        while (height > height0) {
            --height;
            barriers[trail[height] >> 4] = trail[height] & 15;
        }
    }
};

// Chains as records in lent cells, as many as there is room for.
struct Records {
    uint32_t *out;
    size_t room, count = 0;
    bool more = false;

    // The chain so far of `len` persons, with v behind it and To at its end where v is another.
    void hand_over(const uint32_t *chain, size_t len, uint32_t v, uint32_t to, size_t hops) {
        if (count == room) {
            more = true;
            return;
        }
        uint32_t *record = out + count * 10;
        memcpy(record, chain, 40);
        record[0] = uint32_t(hops);
        record[len + 1] = v;
        record[hops + 1] = to;
        ++count;
    }
};

// How many chains were written, with bit 62 where one more follows.
template <Pruned pruned> size_t records(const Asked &a, uint32_t *out, size_t cells) {
    Search<pruned, Records> s(a, Records{out, cells / 10});
    return s.sink.count + (size_t(s.sink.more) << 62);
}
