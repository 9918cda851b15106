"""What is shown of several rounds, in every table: the round whose ratio is the median, its two times and its ratio. So the times
of a row, divided, are its ratio, up to the figures that are left out."""

import statistics


class Round:
    def __init__(self, ours, theirs):
        self.ours, self.theirs, self.ratio = ours, theirs, ours / theirs


def shown(rounds):
    median = statistics.median_low(one.ratio for one in rounds)
    return next(one for one in rounds if one.ratio == median)


def ratio_of(ratio):
    """Two places, one from ten on, two figures below a tenth; never with an exponent."""
    places = 2 if ratio < 9.995 else 1
    while ratio * 10**places < 10 and ratio < 0.1 and places < 9:
        places += 1
    return f"{ratio:.{places}f}"


def time_of(seconds):
    """Three figures."""
    for unit, size in (("s", 1), ("ms", 1e-3), ("us", 1e-6), ("ns", 1e-9)):
        if seconds >= size:
            break
    number = seconds / size
    return f"{number:.{2 if number < 9.995 else 1 if number < 99.95 else 0}f} {unit}"


def row(cells):
    return "| " + " | ".join(cells) + " |"
