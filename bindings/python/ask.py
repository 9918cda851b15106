"""Prints every chain from person 0 to person 5 in at most four hops in the link file on standard input, as `chains` does."""

import sys

import kin


def ask() -> None:
    # Links without a day count, as they do unless it is said otherwise.
    question = kin.Question(0, 5, 4, undated=True)
    count = 0
    for chain in kin.chains(sys.stdin.buffer.read(), question):
        print(f"{len(chain) - 1}:", *chain)
        count += 1
    print("end", count)


if __name__ == "__main__":
    try:
        ask()
    except kin.Refused as refused:
        sys.exit(str(refused))
