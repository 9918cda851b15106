#!/usr/bin/env bash
# Builds and runs the benchmark of the compact graph and the distance table: the static library's kin_fewest, less its check,
# against the same in plain C, on the largest file. The archive has to stand; another one may be named. Prints rows of
# the table.
exec bash "$(dirname "${BASH_SOURCE[0]}")/../plain/measure.sh" bench/graph/graph.cpp "$@"
