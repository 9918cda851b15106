// The compact graph and the distance table of the library against the same in plain C, on a file with all counts at their limits.
// kin_fewest checks the file first, so kin_check is timed beside it and taken off: what is left is graph and table. Never part of
// pass or fail.
#include "../../include/kin.h"
#include "../plain/graph.h"
#include "../plain/measure.hpp"

__attribute__((noinline)) static uint64_t plain_fewest(const uint8_t *file, const question *q, uint32_t person) {
    uint16_t starts[PERSONS + 1] = {0}, targets[LINKS] = {0};
    uint8_t cells[PERSONS];
    fill(file, q, starts, targets);
    distances(starts, targets, q->to, uint8_t(q->hops), cells);
    return cells[person];
}

static uint64_t our_fewest(const uint8_t *file, const question *q, uint32_t person) {
    return kin_fewest(file, LENGTH, q->from, q->to, q->hops, q->classes, q->meaning, q->first, q->last, q->undated, person);
}

// An answer that the compiler has to have, over memory that it has to look at anew, so that no call is left out.
static void wanted(uint64_t answer) { __asm__ volatile("" : : "r"(answer) : "memory"); }

static void compare(const uint8_t *file, const question *q, const std::string &name) {
    for (uint32_t person = 0; person < PERSONS; ++person)
        must_agree(plain_fewest(file, q, person) == our_fewest(file, q, person), name);
    Timed fewest([&] { wanted(our_fewest(file, q, 37)); });
    Timed check([&] { wanted(kin_check(file, LENGTH)); });
    Timed plain([&] { wanted(plain_fewest(file, q, 37)); });
    take_turns(fewest, check, plain);
    tell("Graph and table: largest file, " + name, "", fewest.least - check.least, plain.least, "at most 3");
}

int main() {
    static uint8_t file[LENGTH];
    write_largest(file);
    const question every = {0, 1023, 8, 15, 1, 1, LAST_DAY, 1}, few = {0, 1023, 8, 1, 2, 1, 700000, 1};
    compare(file, &every, "all classes");
    compare(file, &few, "one class and a window");
}
