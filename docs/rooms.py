"""Draws the rooms and what they stand on: python3 docs/rooms.py < crates.txt > docs/rooms.svg

A room is drawn above all that it stands on, and a line leads down to each room that it stands on directly; what follows from other lines
is left out. What crates.txt names without a line of its own is the kit's, and is left out too.
"""

import sys

WIDE, HIGH = 104, 34  # a room
THREAD = 16  # what a line takes where it passes a storey
BESIDE, ABOVE, MARGIN = 24, 46, 12
LINE, FRAME = "#8a8f98", "#3d6a9e"


def rooms_of(text):
    """Each room with those it stands on, which the file names before it."""
    lines = [line.split(":") for line in text.splitlines() if line and line[0] != "#"]
    named = {name.split()[0]: below.split() for name, below in lines}
    return {name: [other for other in below if other in named] for name, below in named.items()}


def directly(rooms):
    """The same, less what follows."""
    whole = {}
    for name, below in rooms.items():
        whole[name] = set(below).union(*(whole[other] for other in below))
    return {
        name: [one for one in below if not any(one in whole[other] for other in below)]
        for name, below in rooms.items()
    }


def storeys_of(rooms):
    """The places of each storey, the lowest storey first, and the pieces of the lines: the storey they start from, their lower and their
    upper place. A place is a room, or a pair of rooms whose line passes that storey."""
    height = {}
    for name, below in rooms.items():
        height[name] = max((height[other] + 1 for other in below), default=0)
    storeys = [[name for name in rooms if height[name] == level] for level in range(max(height.values()) + 1)]
    pieces = []
    for name, below in rooms.items():
        for other in below:
            low = other
            for level in range(height[other] + 1, height[name]):
                storeys[level].append((name, other))
                pieces.append((level - 1, low, (name, other)))
                low = (name, other)
            pieces.append((height[name] - 1, low, name))
    return storeys, pieces


def crossings(storeys, pieces):
    at = [{place: number for number, place in enumerate(storey)} for storey in storeys]
    ends = [(level, at[level][low], at[level + 1][high]) for level, low, high in pieces]
    return sum(
        one[0] == other[0] and (one[1] - other[1]) * (one[2] - other[2]) < 0
        for number, one in enumerate(ends)
        for other in ends[:number]
    )


def put_in_order(storeys, pieces):
    """Each storey in the order of what its lines lead down to."""
    for level in range(1, len(storeys)):
        below = {place: [] for place in storeys[level]}
        for start, low, high in pieces:
            if start == level - 1:
                below[high].append(storeys[start].index(low))
        storeys[level].sort(key=lambda place: sum(below[place]) / len(below[place]))


def untangle(storeys, pieces):
    """Moves one place after another within its storey as long as fewer lines cross for it."""
    least, moved = crossings(storeys, pieces), True
    while moved:
        moved = False
        for storey in storeys:
            for place in list(storey):
                for number in range(len(storey)):
                    before = list(storey)
                    storey.remove(place)
                    storey.insert(number, place)
                    now = crossings(storeys, pieces)
                    if now < least:
                        least, moved = now, True
                    else:
                        storey[:] = before


def width(place):
    return WIDE if isinstance(place, str) else THREAD


def apart(storey, wished):
    """The middles nearest to the wished ones that keep the order and the gaps: places that would overlap are moved as one group."""
    groups = []  # the sum of where its members would have its first, and its members with their distances from the first
    for place in storey:
        groups.append((wished[place], [(place, 0)]))
        while len(groups) > 1:
            (left_sum, left), (right_sum, right) = groups[-2:]
            step = left[-1][1] + (width(left[-1][0]) + width(right[0][0])) / 2 + BESIDE
            if right_sum / len(right) - left_sum / len(left) >= step:
                break
            groups[-2:] = [(left_sum + right_sum - step * len(right), left + [(one, step + far) for one, far in right])]
    return {place: total / len(group) + far for total, group in groups for place, far in group}


def middles(storeys, pieces):
    """The middle of each place, near those that its lines lead to."""
    linked = {place: [] for storey in storeys for place in storey}
    for _, low, high in pieces:
        linked[low].append(high)
        linked[high].append(low)
    x = dict.fromkeys(linked, 0)
    for _ in range(200):
        for storey in storeys:
            x.update(apart(storey, {place: sum(x[other] for other in linked[place]) / len(linked[place]) for place in storey}))
    left = min(x[place] - width(place) / 2 for place in x)
    return {place: round(x[place] - left) + MARGIN for place in x}


def thread(path):
    return f'<path d="{path}" fill="none" stroke="{LINE}" stroke-width="1.6"/>'


def box(name, x, y, borne):
    """A room; a dark one if no other stands on it."""
    fill, ink = ("#e4ecf5", "#1d2a3a") if borne else (FRAME, "#ffffff")
    place = f'x="{x - WIDE // 2}" y="{y}" width="{WIDE}" height="{HIGH}"'
    return f'<rect {place} rx="5" fill="{fill}" stroke="{FRAME}"/>\n<text x="{x}" y="{y + 22}" fill="{ink}">{name}</text>'


def picture(rooms):
    storeys, pieces = storeys_of(rooms)
    put_in_order(storeys, pieces)
    untangle(storeys, pieces)
    x = middles(storeys, pieces)
    y = [MARGIN + (HIGH + ABOVE) * storey for storey in reversed(range(len(storeys)))]
    parts = []
    for level, low, high in pieces:
        start, middle, end = y[level] - ABOVE, y[level] - ABOVE // 2, y[level]
        parts.append(thread(f"M{x[high]} {start} C{x[high]} {middle} {x[low]} {middle} {x[low]} {end}"))
    for level, storey in enumerate(storeys):
        for place in storey:
            if isinstance(place, str):
                parts.append(box(place, x[place], y[level], any(place in below for below in rooms.values())))
            else:
                parts.append(thread(f"M{x[place]} {y[level]} V{y[level] + HIGH}"))
    wide, high = max(x[place] + width(place) // 2 for place in x) + MARGIN, y[0] + HIGH + MARGIN
    size = f'viewBox="0 0 {wide} {high}" width="{wide}" height="{high}"'
    font = 'font-family="Helvetica, Arial, sans-serif" font-size="14" text-anchor="middle"'
    return "\n".join([f'<svg xmlns="http://www.w3.org/2000/svg" {size} {font}>', *parts, "</svg>\n"])


if __name__ == "__main__":
    sys.stdout.write(picture(directly(rooms_of(sys.stdin.read()))))
