"""From the disassembly of a program on standard input (objdump -d --no-show-raw-insn), the basic blocks of the functions named in the
file that the first word says (one a line): for each the number to add to the address of kin_check, and the function with the number to
add to its own address. A block starts at a function's first instruction, where a jump leads, and behind a jump or a return."""

import re
import sys

PADDING = re.compile(r"(nop|nopw|nopl|cs nopw|data16|xchg +%ax,%ax|int3)")
FUNCTION = re.compile(r"([0-9a-f]+) <(.*)>:$")
INSTRUCTION = re.compile(r" *([0-9a-f]+):\t(\S+) *(\S*)")


def main() -> None:
    with open(sys.argv[1], encoding="ascii") as names:
        wanted = set(names.read().split())
    places, blocks, base = {}, set(), 0
    inside = starts = False
    for line in sys.stdin:
        if function := FUNCTION.match(line):
            first, name = int(function[1], 16), function[2]
            inside, starts = name in wanted, True
            base = first if name == "kin_check" else base
        elif inside and (instruction := INSTRUCTION.match(line)):
            # Padding is no code.
            if PADDING.match(line.split("\t", 1)[1]):
                continue
            at, word, operand = int(instruction[1], 16), instruction[2], instruction[3]
            places[at] = f"{name}+{at - first:#x}"
            if starts:
                blocks.add(at)
            starts = word.startswith(("j", "ret", "ud2"))
            if word.startswith("j") and re.fullmatch("[0-9a-f]+", operand):
                blocks.add(int(operand, 16))
    for at in sorted(blocks & places.keys()):
        print(at - base, places[at])


main()
