// One way to list chains, as the driver sees it.
#pragma once
#include "../plain/graph.h"
#include "../plain/shapes.hpp"
#include <memory>

struct Side {
    virtual ~Side() = default;
    // Lists the chains of a question and answers how many. Only this is timed.
    virtual size_t list(const question &q) = 0;
    // The checksum over the chains of the last list.
    virtual uint64_t checksum() const = 0;
};

// Those of a list are added up, so that its order does not count. Mixed at the end, so that an exchange of persons between two
// chains changes the sum.
template <class Number> uint64_t chain_checksum(const Number *persons, size_t count) {
    uint64_t sum = 0;
    for (size_t i = 0; i < count; ++i) sum = sum * 1000003 + uint64_t(persons[i]) + 1;
    return (sum ^ sum >> 29) * 0x9E3779B97F4A7C15;
}

// igraph over the graph of all links; none where this was built without igraph.
std::unique_ptr<Side> igraph_side(const Links &links);

// The program with igraph's list: reads an input, lists, prints the lines.
int igraph_program();

// What a child of the driver ends with where a list outgrows the memory it may have.
enum { OUT_OF_MEMORY = 3 };
