#!/usr/bin/env bash
# Builds and runs the benchmark of the join: the static library's kin_join against a join in plain C++, and against kin_portion.
# The archive has to stand; another one may be named. Prints rows of the table.
exec bash "$(dirname "${BASH_SOURCE[0]}")/../plain/measure.sh" bench/join/join.cpp "$@"
