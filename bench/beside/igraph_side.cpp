// igraph's igraph_get_all_simple_paths. The graph is made before the clock starts, and the vector it lists into is kept from call
// to call, so that it grows once: both in igraph's favour. It cannot stop early: it always lists all chains.
#include "side.hpp"

#if __has_include(<igraph.h>)
#include "../plain/program.hpp"
#include <igraph.h>

namespace {

// Memory is the one thing that can fail here.
void must(igraph_error_t error) {
    if (error != IGRAPH_SUCCESS) _exit(OUT_OF_MEMORY);
}

class Igraph : public Side {
    igraph_t graph;
    igraph_vector_int_t found;  // the persons of each chain, then -1

  public:
    explicit Igraph(const Links &links) {
        igraph_set_error_handler(igraph_error_handler_ignore);
        igraph_vector_int_t ends;
        must(igraph_vector_int_init(&ends, 0));
        for (size_t p = 0; p < links.size(); ++p)
            for (auto &row : links[p]) {
                must(igraph_vector_int_push_back(&ends, igraph_integer_t(p)));
                must(igraph_vector_int_push_back(&ends, row.first));
            }
        must(igraph_create(&graph, &ends, igraph_integer_t(links.size()), IGRAPH_DIRECTED));
        igraph_vector_int_destroy(&ends);
        must(igraph_vector_int_init(&found, 0));
    }

    ~Igraph() override {
        igraph_vector_int_destroy(&found);
        igraph_destroy(&graph);
    }

    size_t list(const question &q) override {
        must(igraph_get_all_simple_paths(&graph, &found, q.from, igraph_vss_1(q.to), q.hops, IGRAPH_OUT));
        size_t count = 0;
        each([&](const igraph_integer_t *, size_t) { ++count; });
        return count;
    }

    uint64_t checksum() const override {
        uint64_t sum = 0;
        each([&](const igraph_integer_t *persons, size_t count) { sum += chain_checksum(persons, count); });
        return sum;
    }

    template <class F> void each(F f) const {
        const igraph_integer_t *at = VECTOR(found), *end = at + igraph_vector_int_size(&found);
        for (const igraph_integer_t *first = at; at < end; ++at)
            if (*at < 0) {
                f(first, size_t(at - first));
                first = at + 1;
            }
    }
};

Links links_of(const uint8_t *file, const question &q) {
    static uint16_t starts[PERSONS + 1], targets[LINKS];
    fill(file, &q, starts, targets);
    Links links(number32(file + 4));
    for (size_t p = 0; p < links.size(); ++p)
        for (size_t i = starts[p]; i < starts[p + 1]; ++i) links[p][targets[i]] = 0;
    return links;
}

}  // namespace

std::unique_ptr<Side> igraph_side(const Links &links) { return std::make_unique<Igraph>(links); }

int igraph_program() {
    static Input input;
    static Printer printer;
    const uint64_t verdict = input.read_all();
    if (verdict & REFUSED) {
        printer.refused_line(verdict);
    } else {
        Igraph igraph(links_of(input.file(), input.q));
        const size_t count = igraph.list(input.q);
        igraph.each([](const igraph_integer_t *persons, size_t persons_in_it) {
            char *at = digits(printer.line(), uint32_t(persons_in_it - 1));
            *at++ = ':';
            for (size_t i = 0; i < persons_in_it; ++i) at = spaced(at, uint32_t(persons[i]));
            *at++ = '\n';
            printer.done(at);
        });
        printer.end_line(count);
    }
    printer.flush();
    return 0;
}

#else

std::unique_ptr<Side> igraph_side(const Links &) { return nullptr; }
int igraph_program() { return 1; }

#endif
