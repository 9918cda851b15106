// The rings of person 0, from the file's bytes to the records: against the same in plain C and C++, and against our own portion of
// chains that go the same ways. Never part of pass or fail.
#include "../plain/listing.hpp"

static const Listing RINGS{"Rings", our_rings};

static question back_to_0(uint32_t hops) { return asked(0, 0, hops); }

// To is the last person. Its ways are one ring each: a chain from 0 to To in two hops or more, with 0 at its end in To's place.
static void against_chains(const std::string &name, const Links &open, uint32_t hops, size_t room) {
    const uint32_t to = uint32_t(open.size()) - 1;
    Bytes round = file_of(closed(open)), through = file_of(open);
    Call rings{round, back_to_0(hops), nullptr}, chains{through, asked(0, to, hops), nullptr};
    Cells x(room * RECORD), y(room * RECORD);
    uint64_t n = 0, m = 0;
    double tx, ty;
    compare([&] { n = our_rings(rings, x); }, [&] { m = ours(chains, y); }, tx, ty);
    must_agree((n & ~ENDED) == (m & ~ENDED), name);
    say("Rings, against our portion of as many chains: " + name, n, tx, ty, "");
}

static void whole_listings() {
    Bytes dense = file_of(all_linked(64)), medium = file_of(random_links(128, 1024, 1));
    against_plain(RINGS, ": the first million, 64 persons all linked, 5 hops", {dense, back_to_0(5), nullptr}, 1000000, SEARCH);
    against_plain(RINGS, ": 128 persons, 1,024 links at random, 8 hops", {medium, back_to_0(8), nullptr}, 300000, SEARCH);
    for (unsigned seed = 1; seed <= 3; ++seed) {
        Bytes file = file_of(random_links(1024, 4096, seed));
        against_plain(RINGS, ": 1,024 persons, 4,096 links at random (" + std::to_string(seed) + "), 8 hops",
                      {file, back_to_0(8), nullptr}, 10000, SEARCH);
    }
    against_chains("the first million, 64 persons all linked, 5 hops", all_linked(64), 5, 1000000);
    against_chains("128 persons, 1,024 links at random, 8 hops", random_links(128, 1024, 1), 8, 300000);
    against_chains("the dead region, 8 hops", dead_region(), 8, 40);
}

static void dead_regions() {
    Bytes file = file_of(closed(dead_region()));
    Call c{file, back_to_0(8), nullptr};
    against_plain(RINGS, ": the dead region, 8 hops", c, 40, "under 1 ms");
    against_plain<Pruned::by_distances>(RINGS, ": the same, against pruning by distances only", c, 40, "");
    for (int many : {1, 60, 400}) {
        Bytes weak = file_of(closed(many_into_dead(many)));
        against_plain(RINGS, ", the weak place: " + std::to_string(many) + " lead back to 0 and into one dead region",
                      {weak, back_to_0(8), nullptr}, 1000, "");
    }
}

static void room_of_forty() {
    Bytes largest(LENGTH);
    write_largest(largest.data());
    Bytes dense = file_of(filled_up(all_linked(64))), among = file_of(filled_up(drawn(128, 31, 1)));
    Call sparse{largest, back_to_0(8), nullptr}, wide{among, back_to_0(6), nullptr}, huge{dense, back_to_0(8), nullptr};
    against_plain(RINGS, ", room 40: largest file, 4 links a person, 8 hops", sparse, 40, QUICK);
    against_plain(RINGS, ", room 40: 128 persons, 31 links each, 6 hops, filled up", wide, 40, QUICK);
    against_plain(RINGS, ", room 40: 64 persons all linked, 8 hops, filled up", huge, 40, QUICK);
    behind(RINGS, "rings", wide, {1, 4269770, 8539483});
    against_fresh(RINGS, "at the start of over 10^12", huge, {8, 0, 1, 2, 3, 4, 5, 6, 7, 0});
    against_fresh(RINGS, "in the middle of over 10^12", huge, {8, 0, 31, 32, 33, 34, 35, 36, 37, 0});
    against_fresh(RINGS, "55 before the end of over 10^12", huge, {8, 0, 63, 62, 61, 60, 59, 58, 2, 0});
}

int main() {
    whole_listings();
    dead_regions();
    room_of_forty();
}
