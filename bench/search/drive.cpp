// The proved search and the plain one on the same graphs, over graph and table that stand ready. The two must write the same cells.
#include "../plain/graph.h"
#include "../plain/measure.hpp"
#include "../plain/search.hpp"
#include "../plain/shapes.hpp"

// The proved search, exported for this benchmark alone.
extern "C" size_t bench_afresh(const uint16_t *rows, const uint16_t *targets, const uint8_t *fewest, uint32_t from, uint32_t to,
                               size_t hops, uint32_t *out, size_t cells);
extern "C" size_t bench_behind(const uint16_t *rows, const uint16_t *targets, const uint8_t *fewest, uint32_t from, uint32_t to,
                               size_t hops, const uint32_t *bookmark, size_t bookmark_cells, uint32_t *out, size_t cells);

struct Graph {
    uint16_t rows[PERSONS + 1] = {0}, targets[LINKS] = {0};
    explicit Graph(Links links) {
        uint16_t end = 0;
        links.resize(PERSONS);
        for (int p = 0; p < PERSONS; ++p) {
            for (auto &one : links[p]) targets[end++] = uint16_t(one.first);
            rows[p + 1] = end;
        }
    }
    std::vector<uint8_t> fewest(int to, int hops) const {
        std::vector<uint8_t> cells(PERSONS);
        distances(rows, targets, uint32_t(to), uint8_t(hops), cells.data());
        return cells;
    }
    Asked asked(const std::vector<uint8_t> &fewest, int from, int to, int hops) const {
        return {rows, targets, fewest.data(), uint32_t(from), uint32_t(to), size_t(hops), 0, nullptr};
    }
};

static size_t ours(const Asked &a, uint32_t *out, size_t cells) {
    if (!a.started) return bench_afresh(a.rows, a.targets, a.fewest, a.from, a.to, a.hops, out, cells);
    return bench_behind(a.rows, a.targets, a.fewest, a.from, a.to, a.hops, a.bookmark, 10, out, cells);
}

static void say(const std::string &name, size_t answer, double ours, double other, const std::string &goal) {
    tell("Search: " + name, std::to_string(answer & ~(size_t(1) << 62)), ours, other, goal);
}

static void against_plain(const std::string &name, const Graph &g, int from, int to, int hops, size_t room) {
    auto d = g.fewest(to, hops);
    Asked a = g.asked(d, from, to, hops);
    std::vector<uint32_t> x(room * 10), y(room * 10);
    size_t n = 0, m = 0;
    double tx, ty;
    const std::string whole = name + ", " + std::to_string(hops) + " hops";
    compare([&] { n = ours(a, x.data(), x.size()); }, [&] { m = records<Pruned::by_barriers>(a, y.data(), y.size()); }, tx, ty);
    must_agree(n == m && x == y, whole);
    say(whole, n, tx, ty, "at most 1.5");
}

static void whole_listings() {
    for (int k : {4, 6}) against_plain("64 persons all linked, a million at most", Graph(all_linked(64)), 0, 63, k, 1000000);
    for (int k : {6, 8}) against_plain("128 persons, 1,024 links at random", Graph(random_links(128, 1024, 1)), 0, 127, k, 300000);
    for (unsigned seed = 1; seed <= 3; ++seed)
        for (int k = 6; k <= 8; ++k)
            against_plain("1,024 persons, 4,096 links at random (" + std::to_string(seed) + ")",
                          Graph(random_links(1024, 4096, seed)), 0, int(1023 - seed), k, 10000);
    against_plain("the dead region", Graph(dead_region()), 0, 65, 8, 10);
    for (auto &region : long_trails())
        against_plain("dead, " + region.name, Graph(region.links), 0, int(region.links.size()) - 1, 8, 10);
}

static void room_of_forty() {
    Graph dense(all_linked(64));
    auto d = dense.fewest(63, 8);
    Asked fresh = dense.asked(d, 0, 63, 8);
    std::vector<uint32_t> many(10000000), x(400);
    ours(fresh, many.data(), many.size());
    for (size_t before : {size_t(1), size_t(999999)}) {
        Asked later = fresh;
        later.started = 1;
        later.bookmark = many.data() + (before - 1) * 10;
        size_t n = 0;
        double tx, ty;
        compare([&] { n = ours(later, x.data(), x.size()); }, [&] { ours(fresh, x.data(), x.size()); }, tx, ty);
        say("room 40, against fresh: behind " + with_commas(before) + " of over 10^12 chains", n, tx, ty, "no dependence");
    }
}

int main() {
    whole_listings();
    room_of_forty();
}
