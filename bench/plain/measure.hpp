// A round of a comparison: turns of both sides, and the least time of each.
#pragma once
#include "clock.h"
#include <algorithm>
#include <cstdio>
#include <cstdlib>
#include <string>

template <class F> double timed(F f, int calls) {
    double start = seconds();
    for (int i = 0; i < calls; ++i) f();
    return (seconds() - start) / calls;
}

// The least time of a call of one side, over turns of at least 100 us or one call. What takes over half a second is timed once.
template <class F> class Timed {
    F f;
    int calls = 1;

  public:
    double least;

    Timed(F f, double first) : f(f), least(first) {
        for (double turn = first; turn < 100e-6; turn = timed(f, calls) * calls) calls *= 2;
    }

    explicit Timed(F f) : Timed(f, timed(f, 1)) {}

    void turn() {
        if (least <= 0.5) least = std::min(least, timed(f, calls));
    }
};

template <class... Side> void take_turns(Side &...sides) {
    const double stop = seconds() + 0.3;
    for (int i = 0; i < 3 || seconds() < stop; ++i) (sides.turn(), ...);
}

template <class F, class G> void compare(F f, G g, double &tf, double &tg) {
    Timed one(f);
    Timed other(g);
    take_turns(one, other);
    tf = one.least;
    tg = other.least;
}

inline std::string with_commas(size_t number) {
    std::string text = std::to_string(number);
    for (size_t i = text.size(); i > 3; i -= 3) text.insert(i - 3, ",");
    return text;
}

// The line of a round, of which rows.py makes a row; no chains where none are listed. The goal is "at most RATIO", or words.
inline void tell(const std::string &name, const std::string &chains, double ours, double theirs, const std::string &goal) {
    printf("%s\t%s\t%.12f\t%.12f\t%s\n", name.c_str(), chains.c_str(), ours, theirs, goal.c_str());
}

// Nothing is shown of sides that do not answer the same.
inline void must_agree(bool agree, const std::string &name) {
    if (agree) return;
    fprintf(stderr, "the two sides differ: %s\n", name.c_str());
    exit(1);
}
