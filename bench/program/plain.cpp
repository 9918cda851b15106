// The program `chains` in plain C++: the same input, the same pruned search, and the same lines. It knows no portions: a chain is
// printed where it is found. With the word `unpruned` behind it, it searches without pruning.
#include "../plain/program.hpp"
#include "../plain/search.hpp"

namespace {

Printer printer;

struct Lines {
    size_t count = 0;
    static constexpr bool more = false;

    void hand_over(const uint32_t *chain, size_t len, uint32_t v, uint32_t to, size_t hops) {
        char *at = printer.line();
        *at++ = char('0' + hops);
        *at++ = ':';
        for (size_t i = 1; i <= len; ++i) at = spaced(at, chain[i]);
        at = spaced(at, v);
        if (hops > len) at = spaced(at, to);
        *at++ = '\n';
        printer.done(at);
        ++count;
    }
};

size_t list(const uint8_t *file, const question &q, bool unpruned) {
    static uint16_t starts[PERSONS + 1], targets[LINKS];
    static uint8_t fewest[PERSONS];
    fill(file, &q, starts, targets);
    const Asked a{starts, targets, fewest, q.from, q.to, q.hops, 0, nullptr};
    if (unpruned) return Search<Pruned::by_nothing, Lines>(a, Lines{}).sink.count;
    distances(starts, targets, q.to, uint8_t(q.hops), fewest);
    return Search<Pruned::by_barriers, Lines>(a, Lines{}).sink.count;
}

}  // namespace

int main(int words, char **word) {
    static Input input;
    const uint64_t verdict = input.read_all();
    if (verdict & REFUSED)
        printer.refused_line(verdict);
    else
        printer.end_line(list(input.file(), input.q, words > 1 && strcmp(word[1], "unpruned") == 0));
    printer.flush();
}
