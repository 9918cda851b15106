// The high-water mark of the stack of every exported function, answered and refused. Each call runs on a painted stack of its own;
// how far down the paint is gone tells how deep it went. Never part of pass or fail.
#include "../plain/portion.hpp"
#include <cstdio>
#include <cstdlib>
#include <string>
#include <ucontext.h>

static unsigned char stack[1 << 18];
static unsigned char *caller;

// In bytes below the frame of the caller, what it lays on the stack for the call counted in. The call is made before, because the
// first call of a shared function, as memset is, runs the linker too.
template <class F> size_t depth(F f) {
    static F *call;
    static ucontext_t here, there;
    f();
    call = &f;
    memset(stack, 0xa5, sizeof stack);
    getcontext(&there);
    there.uc_stack.ss_sp = stack;
    there.uc_stack.ss_size = sizeof stack;
    there.uc_link = &here;
    void (*on_paint)() = [] {
        caller = static_cast<unsigned char *>(__builtin_frame_address(0));
        (*call)();
    };
    makecontext(&there, on_paint, 0);
    swapcontext(&here, &there);
    unsigned char *low = stack;
    while (*low == 0xa5) ++low;
    return size_t(caller - low);
}

// Refused by the number, or answered where it is none; otherwise nothing is shown.
template <class F> std::string cell(uint64_t number, F call) {
    const uint64_t answer = call();
    if (kin_refused(answer) != (number != 0) || (number && kin_refusal_number(answer) != number)) {
        fprintf(stderr, "wanted refusal %u, answered %llx\n", unsigned(number), static_cast<unsigned long long>(answer));
        exit(1);
    }
    std::string text = std::to_string(depth(call));
    if (text.size() > 3) text.insert(text.size() - 3, ",");
    return number > 1 ? text + " (" + std::to_string(number) + ")" : text;
}

template <class F> std::string answered(F call) { return cell(0, call); }

static void row(std::vector<std::string> cells) {
    cells.resize(7);
    for (auto &text : cells) printf("| %s ", text.c_str());
    puts("|");
}

static const Cells BOOKMARK{8, 0, 31, 32, 33, 34, 35, 36, 37, 63}, NO_CHAIN{8, 0, 0, 0, 0, 0, 0, 0, 0, 63};
static const Cells RING{8, 0, 31, 32, 33, 34, 35, 36, 37, 0}, NO_RING{8, 0, 1, 2, 3, 4, 5, 6, 6, 0};
static Cells out(400), working(100000);

// The calls.

static uint64_t fewest(const Bytes &file, const question &q) {
    return kin_fewest(file.data(), file.size(), q.from, q.to, q.hops, q.classes, q.meaning, q.first, q.last, q.undated, 7);
}

static uint64_t portion(const Bytes &file, const question &q, const Cells *bookmark) {
    return ours({file, q, bookmark ? bookmark->data() : nullptr}, out);
}

static uint64_t rings(const Bytes &file, uint32_t hops, const Cells *bookmark) {
    return our_rings({file, asked(0, 0, hops), bookmark ? bookmark->data() : nullptr}, out);
}

static uint64_t held(const Bytes &file, const question &q, const Cells *record) {
    static uint32_t cells[KIN_HELD_CELLS];
    const uint32_t before[] = {q.from, q.to, q.hops, q.classes, q.meaning, q.first, q.last, q.undated, record ? 1u : 0u};
    std::copy(before, before + 9, cells);
    if (record) std::copy(record->begin(), record->end(), cells + 9);
    return kin_held(cells, KIN_HELD_CELLS, file.data(), file.size(), out.data(), out.size());
}

static uint64_t join(const Bytes &file, const question &q, size_t cells) {
    return kin_join(file.data(), file.size(), q.from, q.to, q.hops, q.classes, q.meaning, q.first, q.last, q.undated,
                    working.data(), cells, out.data(), out.size());
}

static void rows() {
    const Bytes none(31), dense = file_of(filled_up(all_linked(64))), small = file_of(all_linked(12));
    const question one = asked(0, 63, 1), four = asked(0, 63, 4), eight = asked(0, 63, 8);
    const question neither = {0, 63, 8, 15, 1, 1, LAST_DAY, 2};
    Bytes late = dense;
    put(late.data() + late.size() - 8, LAST_DAY + 1, 4);
    row({"Function", "refused by 1", "refused last (by)", "answered, 1 hop", "4 hops", "8 hops", "8 hops after a bookmark"});
    row({"---", "---", "---", "---", "---", "---", "---"});
    row({"check", cell(1, [&] { return kin_check(none.data(), none.size()); }),
         cell(9, [&] { return kin_check(late.data(), late.size()); }),
         answered([&] { return kin_check(dense.data(), dense.size()); })});
    row({"row view", answered([&] { return kin_row(none.data(), none.size(), 7); }),
         answered([&] { return kin_row(late.data(), late.size(), 7); }),
         answered([&] { return kin_row(dense.data(), dense.size(), 7); })});
    row({"fewest hops", cell(1, [&] { return fewest(none, eight); }), cell(20, [&] { return fewest(dense, neither); }),
         answered([&] { return fewest(dense, one); }), answered([&] { return fewest(dense, four); }),
         answered([&] { return fewest(dense, eight); })});
    row({"portion", cell(1, [&] { return portion(none, eight, nullptr); }),
         cell(17, [&] { return portion(dense, eight, &NO_CHAIN); }),
         answered([&] { return portion(dense, one, nullptr); }), answered([&] { return portion(dense, four, nullptr); }),
         answered([&] { return portion(dense, eight, nullptr); }), answered([&] { return portion(dense, eight, &BOOKMARK); })});
    row({"rings", cell(1, [&] { return rings(none, 8, nullptr); }), cell(17, [&] { return rings(dense, 8, &NO_RING); }),
         answered([&] { return rings(dense, 1, nullptr); }), answered([&] { return rings(dense, 4, nullptr); }),
         answered([&] { return rings(dense, 8, nullptr); }), answered([&] { return rings(dense, 8, &RING); })});
    row({"held listing", cell(1, [&] { return held(none, eight, nullptr); }),
         cell(17, [&] { return held(dense, eight, &NO_CHAIN); }),
         answered([&] { return held(dense, one, nullptr); }), answered([&] { return held(dense, four, nullptr); }),
         answered([&] { return held(dense, eight, nullptr); }), answered([&] { return held(dense, eight, &BOOKMARK); })});
    const size_t half_chains = 1 + 10 + 10 * 9 + 10 * 9 * 8 + 10 * 9 * 8 * 7;
    const auto joined = [&](uint32_t hops) {
        return answered([&] { return join(small, asked(0, 11, hops), working.size()); });
    };
    row({"join", cell(1, [&] { return join(none, eight, working.size()); }), 
         cell(18, [&] { return join(small, asked(0, 11, 8), (half_chains - 1) * RECORD); }), joined(1), joined(4), joined(8)});
}

// With the word `input`, an input of the program with chains of 8 hops in many portions.
int main(int words, char **) {
    if (words == 1) return rows(), 0;
    const Bytes input = input_of(asked(0, 11, 8), file_of(all_linked(12)));
    fwrite(input.data(), 1, input.size(), stdout);
}
