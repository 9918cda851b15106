// The library's check against a plain C loop with the same tests, on a file with all counts at their limits. Never part of pass or
// fail.
#include "../../include/kin.h"
#include "../plain/check.h"
#include "../plain/measure.hpp"

// The file's address is hidden from the compiler, so that no call is left out.
template <uint64_t check(const uint8_t *, size_t)> void checked(const uint8_t *file) {
    __asm__ volatile("" : "+r"(file) : : "memory");
    if (check(file, LENGTH) != PERSONS + (uint64_t(LINKS) << 16) + (uint64_t(FEEDS) << 32)) {
        fputs("the file was refused\n", stderr);
        exit(1);
    }
}

int main() {
    static uint8_t file[LENGTH];
    write_largest(file);
    double ours, theirs;
    compare([] { checked<kin_check>(file); }, [] { checked<plain_check>(file); }, ours, theirs);
    tell("Check: largest file", "", ours, theirs, "at most 3");
}
