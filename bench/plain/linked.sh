#!/usr/bin/env bash
# Links a program for one round: linked.sh PROGRAM ROUND OBJECTS... . Where code lies changes how fast it is, proved or plain, so
# each round has 16 bytes more before it.
set -eu
program=$1 round=$2
shift 2
printf '.text\n.skip %d\n.section .note.GNU-stack,"",@progbits\n' $((16 * round + 16)) > "$program.s"
"${CXX:-g++}" -o "$program" "$program.s" "$@"
