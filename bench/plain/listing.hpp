// Rows of the table for a listing in portions, of chains or of rings.
#pragma once
#include "measure.hpp"
#include "portion.hpp"

static const std::string SEARCH = "at most 1.5", QUICK = "microseconds", AS_FRESH = "no dependence";

// The library's way to list, and what its rows begin with.
struct Listing {
    const std::string name;
    uint64_t (*const ours)(const Call &, Cells &);
};

inline void say(const std::string &name, uint64_t answer, double ours, double other, const std::string &goal) {
    tell(name, std::to_string(answer & ~ENDED), ours, other, goal);
}

template <Pruned pruned = Pruned::by_barriers>
void against_plain(const Listing &listing, const std::string &name, const Call &c, size_t room, const std::string &goal) {
    Cells x(room * RECORD), y(room * RECORD);
    uint64_t n = 0, m = 0;
    double tx, ty;
    compare([&] { n = listing.ours(c, x); }, [&] { m = plain<pruned>(c, y); }, tx, ty);
    must_agree(n == m && x == y, listing.name + name);
    say(listing.name + name, n, tx, ty, goal);
}

inline Cells record(const Cells &cells, size_t i) {
    return Cells(cells.begin() + long(i * RECORD), cells.begin() + long((i + 1) * RECORD));
}

inline void against_fresh(const Listing &listing, const std::string &place, const Call &fresh, const Cells &bookmark) {
    Call later = fresh;
    later.bookmark = bookmark.data();
    Cells x(400), y(400);
    uint64_t n = 0;
    double tx, ty;
    compare([&] { n = listing.ours(later, x); }, [&] { listing.ours(fresh, y); }, tx, ty);
    say(listing.name + ", room 40, against fresh: " + place, n, tx, ty, AS_FRESH);
}

// Behind so many, found by going through the listing in large portions.
inline void behind(const Listing &listing, const std::string &what, const Call &fresh, std::vector<size_t> befores) {
    Cells large(100000 * RECORD), bookmark(RECORD);
    size_t gone = 0;
    uint64_t r;
    std::vector<Cells> marks(befores.size());
    Call next = fresh;
    do {
        r = listing.ours(next, large);
        must_agree(!kin_refused(r), listing.name);
        size_t count = r & ~ENDED;
        for (size_t i = 0; i < befores.size(); ++i)
            if (befores[i] > gone && befores[i] <= gone + count) marks[i] = record(large, befores[i] - gone - 1);
        gone += count;
        if (count) bookmark = record(large, count - 1);
        next.bookmark = bookmark.data();
    } while (!(r & ENDED));
    for (size_t i = 0; i < befores.size(); ++i) {
        must_agree(!marks[i].empty(), listing.name);
        against_fresh(listing, "behind " + with_commas(befores[i]) + " of " + with_commas(gone) + " " + what, fresh, marks[i]);
    }
}
