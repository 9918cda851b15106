"""Makes the table and the picture of the figures: table.py FOLDER LOAD. The folder has them and gets
table.md and benchmarks.svg; LOAD is the last line below the table.

A ratio is our time divided by theirs: above 1 we are slower. Ends with 1, and says so loudly, where two sides do not agree on the
chains."""

import collections
import sys

import picture
from figures import ratio_of, row, shown, time_of

SIDES = {
    "unpruned": "plain C++, no pruning",
    "pruned": "plain C++, same pruning",
    "igraph": "igraph (C)",
    "networkx": "networkx (Python)",
}


class Line(collections.namedtuple("Line", "key name side state our_count our_checksum count checksum ours theirs")):
    @property
    def ratio(self):
        return self.ours / self.theirs


def read(paths):
    lines = []
    for path in paths:
        for text in open(path):
            words = text.rstrip("\n").split("\t")
            lines.append(Line(*words[:4], *map(int, words[4:8]), *map(float, words[8:])))
    return lines


def with_ours(lines):
    """Lines without figures of ours, networkx's and those of who was stopped, get those that are shown against the same pruning."""
    rounds = collections.defaultdict(list)
    for line in lines:
        if line.side == "pruned":
            rounds[line.key].append(line)
    filled = []
    for line in lines:
        ours = shown(rounds[line.key])
        if line.side == "networkx":
            line = line._replace(our_count=ours.our_count, our_checksum=ours.our_checksum)
        if not line.ours:
            line = line._replace(ours=ours.ours)
        filled.append(line)
    return filled


def disagreements(lines):
    for line in lines:
        theirs, ours = (line.count, line.checksum), (line.our_count, line.our_checksum)
        if line.state == "failed" or (line.state == "done" and theirs != ours):
            yield f"{line.name}: {line.side} {theirs}, ours {ours}"


class Cell:
    """What was found of one side in one case, over the rounds."""

    def __init__(self, lines):
        ratios = [line.ratio for line in lines]
        self.least, self.greatest = min(ratios), max(ratios)
        line = shown(lines)
        self.ratio, self.figure = line.ratio, ratio_of(line.ratio)
        over = "over " if line.state != "done" else ""
        self.times = f"{time_of(line.ours)} / {over}{time_of(line.theirs)}"
        self.stopped = over and f"{over}{time_of(line.theirs)}" + (", 4 GB" if line.state == "over memory" else "")

    def text(self):
        return f"{'under ' if self.stopped else ''}{self.figure} ({self.times})"


class Case:
    def __init__(self, lines):
        of = collections.defaultdict(list)
        for line in lines:
            of[line.side].append(line)
        self.name = lines[0].name
        self.chains = of["pruned"][0].our_count
        self.cells = {side: Cell(of[side]) for side in [*SIDES, "itself"] if side in of}

    def cells_of_row(self):
        cells = [self.cells[side].text() if side in self.cells else "not there" for side in SIDES]
        return [self.name, f"{self.chains:,}", *cells]


def spread(cases, side):
    """Between which ratios one side was found, and by how much two rounds of one case differed at most."""
    cells = [case.cells[side] for case in cases if side in case.cells]
    most = max(cell.greatest / cell.least for cell in cells)
    return f"{min(cell.least for cell in cells):.2f} to {max(cell.greatest for cell in cells):.2f}", f"{100 * (most - 1):.0f}"


def noise(cases):
    itself, apart = spread(cases, "itself")
    same, same_apart = spread(cases, "pruned")
    rows = [case.cells["pruned"].ratio for case in cases]
    return (
        f"Noise of this run: in single rounds the plain code against itself gave {itself}, two rounds of one case up to {apart} in "
        f"a hundred apart. Ours against the same pruning gave {same}, up to {same_apart} in a hundred apart; the rows show "
        f"{min(rows):.2f} to {max(rows):.2f}."
    )


def markdown(cases):
    head = ["Case", "Chains", *SIDES.values()]
    rows = [head, ["---"] * len(head), *(case.cells_of_row() for case in cases)]
    return "\n".join(map(row, rows)) + "\n\n" + noise(cases) + "\n"


def main(folder, load):
    lines = with_ours(read([folder + "/figures", folder + "/networkx"]))
    by_key = collections.defaultdict(list)
    for line in lines:
        by_key[line.key].append(line)
    cases = [Case(of_key) for of_key in by_key.values()]
    table = f"{markdown(cases)}{load}\n"
    print("\nour time divided by theirs (ours / theirs), above 1 is slower\n\n" + table)
    wrong = list(disagreements(lines))
    if wrong:
        sys.exit("\n!!!! THE SIDES DO NOT AGREE ON THE CHAINS, nothing is written !!!!\n" + "\n".join(wrong))
    with open(folder + "/table.md", "w") as file:
        file.write(table)
    with open(folder + "/benchmarks.svg", "w") as file:
        file.write(picture.draw(cases, SIDES))
    print("all sides agree on the count of chains and on their checksum")


main(*sys.argv[1:])
