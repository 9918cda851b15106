// The graphs and the questions that every side is asked.
#pragma once
#include "../plain/portion.hpp"
#include <string>

// What is asked for: all chains; the first portion of 40; all of a million chains, from the library and from the program.
enum Wanted { ALL, FIRST_40, A_MILLION };

struct Case {
    std::string key, name;
    Links links;
    std::vector<question> questions;
    Wanted wanted;

    bool whole() const { return wanted != FIRST_40; }
    size_t room() const { return wanted == ALL ? 300000 : wanted == FIRST_40 ? 40 : 1200000; }
};

// So many questions between two persons drawn at random.
inline std::vector<question> questions(size_t count, const Links &links, uint32_t hops) {
    std::mt19937 r(1);
    std::vector<question> drawn;
    while (drawn.size() < count) {
        uint32_t from = uint32_t(r() % links.size()), to = uint32_t(r() % links.size());
        if (from != to) drawn.push_back(asked(from, to, hops));
    }
    return drawn;
}

inline std::vector<Case> all_cases() {
    const Links sparse = random_links(1024, 4096, 1), families = Families(120, 1).links;
    const Links among = filled_up(drawn(128, 31, 1)), dense = filled_up(all_linked(64)), medium = random_links(128, 1360, 1);
    return {
        {"sparse", "1,024 persons, 4,096 links drawn at random, 8 hops, 8 questions", sparse, questions(8, sparse, 8), ALL},
        {"dense", "64 persons all linked, 4 hops", all_linked(64), {asked(0, 63, 4)}, ALL},
        {"dead", "the dead region, 8 hops", dead_region(), {asked(0, 65, 8)}, ALL},
        {"families-6", "families with many marriages, 6 hops, 8 questions", families, questions(8, families, 6), ALL},
        {"families-8", "families with many marriages, 8 hops, 1 question", families, questions(1, families, 8), ALL},
        {"first-families", "first 40 chains: families, 8 hops, 4 questions", families, questions(4, families, 8), FIRST_40},
        {"first-among", "first 40 of 5.6 million: 128 persons, 31 links each, 6 hops", among, {asked(0, 127, 6)}, FIRST_40},
        {"first-dense", "first 40 of over 10^12: 64 persons all linked, 8 hops", dense, {asked(0, 63, 8)}, FIRST_40},
        {"million-dense", "a million chains: 35 persons all linked, 5 hops", all_linked(35), {asked(0, 34, 5)}, A_MILLION},
        {"million-random", "a million chains: 128 persons, 1,298 links at random, 8 hops", medium, {asked(0, 127, 8)}, A_MILLION},
    };
}
