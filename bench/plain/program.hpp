// The program's input and its lines in plain C++: a hand-written formatter into a buffer that is written when it is full.
#pragma once
#include "check.h"
#include "graph.h"
#include <cstdio>
#include <unistd.h>

struct Printer {
    char text[1 << 16];
    size_t used = 0;

    void flush() {
        for (size_t done = 0; done < used;) {
            ssize_t n = write(1, text + done, used - done);
            if (n <= 0) _exit(0);
            done += size_t(n);
        }
        used = 0;
    }

    char *line() {
        if (sizeof text - used < 128) flush();
        return text + used;
    }

    void done(char *end) { used = size_t(end - text); }

    void refused_line(uint64_t fault) {
        char *at = line();
        done(at + sprintf(at, "refused %u at %u\n", unsigned(fault >> 32 & 0x7fffffff), unsigned(fault)));
    }

    void end_line(size_t count) {
        char *at = line();
        done(at + sprintf(at, "end %zu\n", count));
    }
};

inline char *three_digits(char *at, uint32_t n) {
    at[0] = char('0' + n / 100);
    at[1] = char('0' + n / 10 % 10);
    at[2] = char('0' + n % 10);
    return at + 3;
}

inline char *digits(char *at, uint32_t n) {
    if (n < 10) {
        *at = char('0' + n);
        return at + 1;
    }
    if (n < 100) {
        at[0] = char('0' + n / 10);
        at[1] = char('0' + n % 10);
        return at + 2;
    }
    if (n < 1000) return three_digits(at, n);
    return three_digits(digits(at, n / 1000), n % 1000);
}

inline char *spaced(char *at, uint32_t person) {
    *at = ' ';
    return digits(at + 1, person);
}

struct Input {
    uint8_t bytes[QUESTION_BYTES + LENGTH + 1];
    size_t length = 0;
    question q{};

    const uint8_t *file() const { return bytes + QUESTION_BYTES; }

    // What the check answers, or the refusal.
    uint64_t read_all() {
        for (ssize_t n; length < sizeof bytes && (n = read(0, bytes + length, sizeof bytes - length)) > 0;) length += size_t(n);
        if (length < QUESTION_BYTES) return refused(19, 0);
        uint32_t *const numbers[8] = {&q.from, &q.to, &q.hops, &q.classes, &q.meaning, &q.first, &q.last, &q.undated};
        for (int i = 0; i < 8; ++i) *numbers[i] = number32(bytes + 4 * i);
        uint64_t verdict = plain_check(file(), length - QUESTION_BYTES);
        if (verdict & REFUSED) return verdict;
        uint64_t fault = question_fault(number32(file() + 4));
        return fault ? fault : verdict;
    }

    uint64_t question_fault(uint32_t n) const {
        if (q.from >= n) return refused(10, 0);
        if (q.to >= n) return refused(10, 1);
        if (q.from == q.to) return refused(11, 0);
        if (q.hops < 1 || q.hops > 8) return refused(12, 0);
        if (q.classes < 1 || q.classes > 15) return refused(13, 0);
        if (q.meaning < 1 || q.meaning > 2) return refused(14, 0);
        if (q.first == 0 || q.last > LAST_DAY || q.first > q.last) return refused(15, 0);
        if (q.undated > 1) return refused(20, 0);
        return 0;
    }
};
