// The public join, from the file's bytes to the records, against a join in plain C++ and against the public portion, each with
// room for all half chains and all chains. Never part of pass or fail.
#include "../plain/measure.hpp"
#include "../plain/portion.hpp"

// The join in plain C++. Half chains are built by putting each person before those of one hop fewer; the index has for each
// number of hops and each first person the first record. No count beforehand: the working cells have to do.
struct Plain {
    uint16_t starts[PERSONS + 1] = {0}, targets[LINKS] = {0};
    bool marks[PERSONS] = {false};
    std::vector<size_t> index;
    uint32_t *halves = nullptr, *out = nullptr;
    size_t room = 0, count = 0;
    bool more = false;
    uint32_t chain[RECORD] = {0};

    void shelve(uint32_t from, uint32_t to, uint32_t most) {
        index.assign((most + 1) * PERSONS + 1, 0);
        size_t written = 0;
        for (uint32_t j = 0; j <= most; ++j)
            for (uint32_t p = 0; p < PERSONS; ++p) {
                index[j * PERSONS + p] = written;
                if (p == from) continue;
                if (j == 0) {
                    if (p == to) {
                        uint32_t *r = halves + RECORD * written++;
                        std::fill(r, r + RECORD, 0);
                        r[1] = p;
                    }
                    continue;
                }
                for (size_t i = starts[p]; i < starts[p + 1]; ++i) {
                    const size_t place = (j - 1) * PERSONS + targets[i];
                    for (size_t h = index[place]; h < index[place + 1]; ++h) {
                        const uint32_t *old = halves + RECORD * h;
                        if (std::find(old + 1, old + 1 + j, p) != old + 1 + j) continue;
                        uint32_t *r = halves + RECORD * written++;
                        std::fill(r, r + RECORD, 0);
                        r[0] = j;
                        r[1] = p;
                        std::copy(old + 1, old + 1 + j, r + 2);
                    }
                }
            }
        index[(most + 1) * PERSONS] = written;
    }

    void arrive(uint32_t at, uint32_t len, uint32_t rest) {
        const size_t place = rest * PERSONS + at;
        for (size_t h = index[place]; h < index[place + 1]; ++h) {
            const uint32_t *right = halves + RECORD * h + 2;
            bool shared = false;
            for (uint32_t i = 0; i < rest; ++i) shared |= marks[right[i]];
            if (shared) continue;
            if (count == room) {
                more = true;
                return;
            }
            uint32_t *r = out + RECORD * count++;
            std::copy(chain, chain + RECORD, r);
            r[0] = len - 1 + rest;
            std::copy(right, right + rest, r + len + 1);
        }
    }

    void extend(uint32_t at, uint32_t len, uint32_t left, uint32_t rest) {
        if (left == 0) return arrive(at, len, rest);
        for (size_t i = starts[at]; i < starts[at + 1] && !more; ++i) {
            const uint32_t v = targets[i];
            if (marks[v]) continue;
            marks[v] = true;
            chain[len + 1] = v;
            extend(v, len + 1, left - 1, rest);
            chain[len + 1] = 0;
            marks[v] = false;
        }
    }
};

static uint64_t plain_join(const Bytes &file, const question &q, Cells &working, Cells &out) {
    uint64_t verdict = plain_check(file.data(), file.size());
    if (verdict & REFUSED) return verdict;
    Plain p;
    fill(file.data(), &q, p.starts, p.targets);
    p.halves = working.data();
    p.out = out.data();
    p.room = out.size() / RECORD;
    p.shelve(q.from, q.to, q.hops / 2);
    p.marks[q.from] = true;
    p.chain[1] = q.from;
    for (uint32_t length = 1; length <= q.hops && !p.more; ++length) p.extend(q.from, 1, (length + 1) / 2, length / 2);
    return p.count + (p.more ? 0 : ENDED);
}

static uint64_t our_join(const Bytes &file, const question &q, Cells &working, Cells &out) {
    return kin_join(file.data(), file.size(), q.from, q.to, q.hops, q.classes, q.meaning, q.first, q.last, q.undated,
                    working.data(), working.size(), out.data(), out.size());
}

static void listing(const std::string &name, const Links &links, uint32_t hops, size_t halves, size_t chains) {
    Bytes file = file_of(links);
    question q = asked(0, uint32_t(links.size() - 1), hops);
    Cells w(halves * RECORD, 7), v(halves * RECORD, 7), x(chains * RECORD), y(chains * RECORD), z(chains * RECORD);
    uint64_t n = 0, m = 0, s = 0;
    double ours_in_turns, other;
    const auto join = [&] { n = our_join(file, q, w, x); };
    compare(join, [&] { m = plain_join(file, q, v, y); }, ours_in_turns, other);
    const std::string found = std::to_string(n & ~ENDED);
    tell("Join: " + name, found, ours_in_turns, other, "");
    compare(join, [&] { s = ours({file, q, nullptr}, z); }, ours_in_turns, other);
    tell("Join, against our portion: " + name, found, ours_in_turns, other, "");
    must_agree(n == m && n == s && w == v && x == y && n & ENDED, name);
}

// With room for all half chains but one they are counted, all but the last, and none is written.
static void counting(const std::string &name, const Links &links, uint32_t hops, size_t halves, size_t chains) {
    Bytes file = file_of(links);
    question q = asked(0, uint32_t(links.size() - 1), hops);
    Cells w(halves * RECORD, 7), x(chains * RECORD);
    uint64_t n = our_join(file, q, w, x), refusal = 0;
    size_t written = 0;
    while (w[written * RECORD] != 7) ++written;
    Cells less((written - 1) * RECORD);
    double counted, whole;
    compare([&] { refusal = our_join(file, q, less, x); }, [&] { n = our_join(file, q, w, x); }, counted, whole);
    must_agree(kin_refusal_number(refusal) == 18 && n & ENDED, name);
    tell("Join refused by 18, one record too few, against the join: " + name, "", counted, whole, "");
}

int main() {
    listing("20 persons all linked, 6 hops", all_linked(20), 6, 8000, 1200000);
    listing("12 persons all linked, 8 hops", all_linked(12), 8, 8000, 800000);
    listing("32 persons, 8 links each, 8 hops", drawn(32, 8, 2), 8, 20000, 800000);
    listing("40 persons, 12 links each, 6 hops", drawn(40, 12, 1), 6, 8000, 200000);
    listing("128 persons, 16 links each, 6 hops", drawn(128, 16, 3), 6, 20000, 400000);
    listing("1,024 persons, 4 links each, 8 hops", drawn(1024, 4, 4), 8, 4000, 10000);
    counting("128 persons, 16 links each, 6 hops", drawn(128, 16, 3), 6, 20000, 400000);
    counting("1,024 persons, 4 links each, 8 hops", drawn(1024, 4, 4), 8, 4000, 10000);
}
