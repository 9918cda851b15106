// Shapes of graphs to measure on, and the link files that hold them.
#pragma once
#include "file.h"
#include <algorithm>
#include <map>
#include <random>
#include <string>
#include <vector>

using Bytes = std::vector<uint8_t>;

// For each person the kind of link by its target. A map, because in a row of the file the targets strictly rise.
using Links = std::vector<std::map<int, int>>;

enum Kind { PARENT_OF = 1, CHILD_OF = 2, SPOUSE_OF = 3, SIBLING_OF = 4 };

// Whether the link is new. Of a kind that is given by its two persons, where none is named.
inline bool link(Links &l, int p, int q) {
    const int kinds[10] = {1, 2, 3, 4, 5, 16, 17, 23, 30, 31};
    return l[p].emplace(q, kinds[(p + q) % 10]).second;
}

// The persons from `first` up to but without `end`, all linked with each other.
inline void link_all(Links &l, int first, int end) {
    for (int p = first; p < end; ++p)
        for (int q = first; q < end; ++q)
            if (p != q) link(l, p, q);
}

inline size_t links_in(const Links &l) {
    size_t m = 0;
    for (auto &row : l) m += row.size();
    return m;
}

inline Links all_linked(int n) {
    Links l(n);
    link_all(l, 0, n);
    return l;
}

// So many links drawn at random; one that was drawn before, or leads to its own person, is left out.
inline Links random_links(int n, int m, unsigned seed) {
    std::mt19937 r(seed);
    Links l(n);
    for (int i = 0; i < m; ++i) {
        int p = int(r() % n), q = int(r() % n);
        if (p != q) link(l, p, q);
    }
    return l;
}

// Each person is linked with so many others, drawn at random.
inline Links drawn(int n, int degree, unsigned seed) {
    std::mt19937 r(seed);
    Links l(n);
    for (int p = 0; p < n; ++p)
        while (int(l[p].size()) < degree) {
            int q = int(r() % n);
            if (q != p) link(l, p, q);
        }
    return l;
}

// 0 to b, b to 62 persons all linked with each other and back to b, b to c to t: one chain.
inline Links dead_region() {
    Links l(66);
    link(l, 0, 1);
    link_all(l, 1, 64);
    link(l, 1, 64);
    link(l, 64, 65);
    return l;
}

// 0 to b, b to so many persons, each of them to t and into one region of 50 persons all linked, which leads back to b only.
inline Links many_into_dead(int many) {
    const int region = 2 + many, to = region + 50;
    Links l(to + 1);
    link(l, 0, 1);
    for (int p = 2; p < region; ++p) {
        link(l, 1, p);
        link(l, p, region);
        link(l, p, to);
    }
    link_all(l, region, to);
    for (int p = region; p < to; ++p) link(l, p, 1);
    return l;
}

// 0 to b, b to the heads, who are all linked, each head to leaves of its own, each leaf back to b; b to t, the last person, in so
// many hops.
inline Links heads_and_leaves(int heads, int leaves, int before) {
    const int first = 2 + heads, tail = first + heads * leaves;
    Links l(tail + before);
    link(l, 0, 1);
    link_all(l, 1, first);
    for (int head = 2; head < first; ++head) l[head].erase(1);
    for (int p = first; p < tail; ++p) {
        link(l, 2 + (p - first) / leaves, p);
        link(l, p, 1);
    }
    link(l, 1, tail);
    for (int p = tail; p + 1 < tail + before; ++p) link(l, p, p + 1);
    return l;
}

// A grid of villages, each of five persons all linked; neighbours are tied twice, both ways, by persons drawn at random. 0 leads
// to the first person of each village and to t, the last person; everybody in the villages leads back to 0.
inline Links villages(int across, int down, unsigned seed) {
    const int size = 5, to = 1 + across * down * size;
    std::mt19937 r(seed);
    Links l(to + 1);
    auto tie = [&](int village, int other) {
        const int p = 1 + village * size + int(r() % size), q = 1 + other * size + int(r() % size);
        link(l, p, q);
        link(l, q, p);
    };
    for (int village = 0; village < across * down; ++village) {
        const int first = 1 + village * size;
        link(l, 0, first);
        link_all(l, first, first + size);
        for (int p = first; p < first + size; ++p) link(l, p, 0);
        for (int i = 0; i < 2; ++i) {
            if (village + down < across * down) tie(village, village + down);
            if (village % down + 1 < down) tie(village, village + 1);
        }
    }
    link(l, 0, to);
    return l;
}

// 0 to six siblings all linked, the last of them to leaves; 0 to the first of some persons all linked; leaves and these persons
// lead back to 0, who leads to t, the last person. With each hop more each leaf's barrier is raised again, and the persons all
// linked come only then.
inline Links leaves_then_dense(int leaves, int dense) {
    const int first = 7, region = first + leaves, to = region + dense;
    Links l(to + 1);
    link_all(l, 1, first);
    for (int p = 1; p < first; ++p) link(l, 0, p);
    for (int p = first; p < region; ++p) link(l, first - 1, p);
    link(l, 0, region);
    link_all(l, region, to);
    for (int p = first; p < to; ++p) link(l, p, 0);
    link(l, 0, to);
    return l;
}

struct Named {
    std::string name;
    Links links;
};

// Dead regions in which a trail grows long: at 8 hops to 1,891, 3,658, 2,702 and 2,835 entries, where it has room for them.
inline std::vector<Named> long_trails() {
    return {
        {"961 persons behind one, who is three hops before To", heads_and_leaves(31, 30, 3)},
        {"961 persons behind one, who is next to To", heads_and_leaves(31, 30, 1)},
        {"14 by 8 villages, all lead back to From", villages(14, 8, 1)},
        {"550 leaves, then 16 persons all linked", leaves_then_dense(550, 16)},
    };
}

// The last person made one with person 0: each chain from 0 to the last person that has two hops or more is a ring of 0, and there
// are no others.
inline Links closed(Links links) {
    const int last = int(links.size()) - 1;
    for (int p = 0; p < last; ++p) {
        links[p].erase(0);
        if (links[p].erase(last) && p != 0) link(links, p, 0);
    }
    links.pop_back();
    return links;
}

// Families over generations: every tie is linked both ways, couples, parents and children, siblings and half siblings. After a
// marriage every second one may marry again, so that many persons have several marriages; nobody marries a sibling. Children are
// born until the next one would pass a limit of the file.
class Families {
    std::mt19937 r;
    std::vector<std::vector<int>> children;

    int below(size_t n) { return int(r() % n); }

    void tie(int p, int q, Kind one, Kind other) {
        links[p].emplace(q, one);
        links[q].emplace(p, other);
    }

    int person() {
        links.emplace_back();
        children.emplace_back();
        return int(links.size()) - 1;
    }

    // False where the child would pass a limit: it brings two links with each parent and with each sibling.
    bool born(int mother, int father) {
        std::vector<int> siblings = children[mother];
        for (int half : children[father])
            if (!links[mother].count(half)) siblings.push_back(half);
        if (links.size() == PERSONS || links_in(links) + 4 + 2 * siblings.size() > LINKS) return false;
        const int child = person();
        for (int parent : {mother, father}) {
            tie(parent, child, PARENT_OF, CHILD_OF);
            children[parent].push_back(child);
        }
        for (int sibling : siblings) tie(child, sibling, SIBLING_OF, SIBLING_OF);
        return true;
    }

    // A couple from one generation, with one to three children. Each of the two may stay, to marry again. False at a limit.
    bool marry(std::vector<int> &single, std::vector<int> &next) {
        const int one = below(single.size()), other = below(single.size());
        const int mother = single[one], father = single[other];
        if (one == other || links[mother].count(father) || links_in(links) + 2 > LINKS) return true;
        tie(mother, father, SPOUSE_OF, SPOUSE_OF);
        for (int i = 1 + below(3); i > 0; --i) {
            if (!born(mother, father)) return false;
            next.push_back(int(links.size()) - 1);
        }
        for (int place : {std::max(one, other), std::min(one, other)})
            if (below(2) || children[single[place]].size() > 5) single.erase(single.begin() + place);
        return true;
    }

  public:
    Links links;

    Families(int founders, unsigned seed) : r(seed) {
        std::vector<int> single, next;
        while (int(single.size()) < founders) single.push_back(person());
        for (;; single.swap(next), next.clear()) {
            for (int tries = 4 * int(single.size()); single.size() > 1 && tries > 0; --tries)
                if (!marry(single, next)) return;
            if (next.size() < 2) return;
        }
    }
};

// The file of a graph. Every link is dated, and admitted by a question for all classes, meaning 1 and all days.
inline Bytes file_of(const Links &links) {
    const uint32_t n = uint32_t(links.size()), m = uint32_t(links_in(links)), rows = 32 + 4 * FEEDS, table = rows + 4 * (n + 1);
    const uint32_t header[7] = {n, m, FEEDS, 32, rows, table, table + 12 * m};
    Bytes file(header[6]);
    memcpy(file.data(), "KLF1", 4);
    uint8_t *at = file.data() + 4;
    for (uint32_t number : header) at = put(at, number, 4);
    for (uint32_t i = 0; i < FEEDS; ++i) at = put(put(at, 100 * (i + 1), 2), 1, 2);
    uint32_t entry = 0;
    at = put(at, entry, 4);
    for (auto &row : links) at = put(at, entry += uint32_t(row.size()), 4);
    uint32_t number = 0;
    for (auto &row : links)
        for (auto [target, kind] : row) {
            at = put(put(at, uint32_t(target), 4), 700000 + number, 4);
            at = put(put(at, number % FEEDS, 2), uint32_t(kind), 2);
            ++number;
        }
    return file;
}

// The same graph with both counts at their limits: the other persons and links are out of its reach.
inline Links filled_up(Links links) {
    const int first = int(links.size());
    links.resize(PERSONS);
    size_t m = links_in(links);
    for (int step = 1; m < LINKS; ++step)
        for (int p = first; p + step < PERSONS && m < LINKS; ++p, ++m) link(links, p, p + step);
    return links;
}
