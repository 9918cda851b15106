"""Makes the rows of the parts' table of the lines of all rounds, on standard input."""

import collections
import sys

from figures import Round, ratio_of, row, shown, time_of

HEAD = ["What", "Chains or rings", "Ratio", "Ours", "The other", "Ratios of the rounds", "Goal"]


def verdict(goal, ratio):
    """By the ratio that is shown."""
    if not goal.startswith("at most "):
        return goal
    return goal + (": met" if round(ratio, 2) <= float(goal.split()[-1]) else ": **not met**")


def main():
    rounds = collections.defaultdict(list)
    for line in sys.stdin:
        name, chains, ours, theirs, goal = line.rstrip("\n").split("\t")
        rounds[name, chains and f"{int(chains):,}", goal].append(Round(float(ours), float(theirs)))
    print(row(HEAD), row(["---"] * len(HEAD)), sep="\n")
    for (name, chains, goal), of_name in rounds.items():
        one, ratios = shown(of_name), [each.ratio for each in of_name]
        apart = f"{ratio_of(min(ratios))} to {ratio_of(max(ratios))}"
        times = [time_of(one.ours), time_of(one.theirs)]
        print(row([name, chains, ratio_of(one.ratio), *times, apart, verdict(goal, one.ratio)]))


main()
