// The public portion, from the file's bytes to the records, against the same in plain C and C++: check, compact graph, distance
// table, then the depth-first search. Never part of pass or fail.
#include "../plain/listing.hpp"

static const Listing PORTION{"Portion", ours};

// How far from 1 a ratio can be of itself.
static void against_itself(const std::string &name, const Call &c, size_t room) {
    Cells x(room * RECORD), y(room * RECORD);
    uint64_t n = 0;
    double tx, ty;
    compare([&] { n = plain(c, x); }, [&] { plain(c, y); }, tx, ty);
    say("plain C++ against itself: " + name, n, tx, ty, "");
}

static void whole_listings() {
    Bytes dense = file_of(all_linked(64)), medium = file_of(random_links(128, 1024, 1));
    Bytes sparse = file_of(random_links(1024, 4096, 1));
    Call five{dense, asked(0, 63, 5), nullptr}, eight{medium, asked(0, 127, 8), nullptr}, few{sparse, asked(0, 1022, 8), nullptr};
    against_itself("64 persons all linked, 5 hops", five, 1000000);
    against_itself("1,024 persons, 4,096 links at random, 8 hops", few, 10000);
    against_plain(PORTION, ": the first million, 64 persons all linked, 5 hops", five, 1000000, SEARCH);
    against_plain(PORTION, ": 128 persons, 1,024 links at random, 8 hops", eight, 300000, SEARCH);
    for (unsigned seed = 1; seed <= 3; ++seed) {
        Bytes file = file_of(random_links(1024, 4096, seed));
        against_plain(PORTION, ": 1,024 persons, 4,096 links at random (" + std::to_string(seed) + "), 8 hops",
                      {file, asked(0, 1023 - seed, 8), nullptr}, 10000, SEARCH);
    }
}

static void dead_regions() {
    Bytes file = file_of(dead_region());
    Call c{file, asked(0, 65, 8), nullptr};
    against_plain(PORTION, ": the dead region, 8 hops", c, 40, "under 1 ms");
    against_plain<Pruned::by_distances>(PORTION, ": the same, against pruning by distances only", c, 40, "");
    for (int many : {1, 60, 400}) {
        Bytes weak = file_of(many_into_dead(many));
        against_plain(PORTION, ", the weak place: " + std::to_string(many) + " lead to To and into one dead region",
                      {weak, asked(0, uint32_t(2 + many + 50), 8), nullptr}, 1000, "");
    }
    for (auto &region : long_trails()) {
        Bytes deep = file_of(region.links);
        against_plain(PORTION, ": dead, " + region.name + ", 8 hops",
                      {deep, asked(0, uint32_t(region.links.size() - 1), 8), nullptr}, 40, SEARCH);
    }
}

static void room_of_forty() {
    Bytes largest(LENGTH);
    write_largest(largest.data());
    Bytes dense = file_of(filled_up(all_linked(64))), among = file_of(filled_up(drawn(128, 31, 1)));
    Call sparse{largest, asked(0, 1023, 8), nullptr}, wide{among, asked(0, 127, 6), nullptr}, huge{dense, asked(0, 63, 8), nullptr};
    against_plain(PORTION, ", room 40: largest file, 4 links a person, 8 hops", sparse, 40, QUICK);
    against_plain(PORTION, ", room 40: 128 persons, 31 links each, 6 hops, filled up", wide, 40, QUICK);
    against_plain(PORTION, ", room 40: 64 persons all linked, 8 hops, filled up", huge, 40, QUICK);
    behind(PORTION, "chains", wide, {1, 2817018, 5633980});
    against_fresh(PORTION, "at the start of over 10^12", huge, {8, 0, 1, 2, 3, 4, 5, 6, 7, 63});
    against_fresh(PORTION, "in the middle of over 10^12", huge, {8, 0, 31, 32, 33, 34, 35, 36, 37, 63});
    against_fresh(PORTION, "55 before the end of over 10^12", huge, {8, 0, 62, 61, 60, 59, 58, 57, 8, 63});
}

int main() {
    whole_listings();
    dead_regions();
    room_of_forty();
}
