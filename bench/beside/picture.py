"""The table as a picture: a bar for each side of each case, on a logarithmic scale, from "as fast as ours" to the ratio."""

import html
import math

COLOURS = {"unpruned": "#c0504d", "pruned": "#4472a8", "igraph": "#d9922e", "networkx": "#6a9a4b"}
WIDTH, LEFT, RIGHT, TOP = 1000, 330, 70, 96
BAR, GAP = 11, 12
FONT = 'font-family="Helvetica, Arial, sans-serif"'


def text(x, y, words, size=12, anchor="start", colour="#222", more=""):
    place = f'x="{x:.1f}" y="{y:.1f}" font-size="{size}" text-anchor="{anchor}"'
    return f'<text {place} fill="{colour}" {more}>{html.escape(words)}</text>'


def line(x1, y1, x2, y2, colour, width=1):
    return f'<line x1="{x1:.1f}" y1="{y1:.1f}" x2="{x2:.1f}" y2="{y2:.1f}" stroke="{colour}" stroke-width="{width}"/>'


def box(x, y, width, colour, stopped=False):
    style = f'fill="{colour}"' + (f' fill-opacity="0.3" stroke="{colour}" stroke-dasharray="3 2"' if stopped else "")
    return f'<rect x="{x:.1f}" y="{y:.1f}" width="{width:.1f}" height="{BAR - 1}" {style}/>'


def power_name(power):
    if power == 0:
        return "1"
    return f"1/{10 ** -power:,}" if power < 0 else f"{10 ** power:,}"


def two_lines(name, most=46):
    """A name of a case, broken after a colon or a comma where it is too long for the margin."""
    if len(name) <= most:
        return [name]
    place = name.find(": ") + 1 or name.rfind(", ", 0, most) + 1
    return [name[:place], name[place + 1 :]]


class Scale:
    def __init__(self, ratios):
        self.low = math.floor(math.log10(min(ratios)))
        self.high = max(1, math.ceil(math.log10(max(ratios))))

    def x(self, ratio):
        return LEFT + (math.log10(ratio) - self.low) / (self.high - self.low) * (WIDTH - LEFT - RIGHT)


def legend(sides):
    parts, x = [], 20
    for name, colour, stopped in [
        *((name, COLOURS[side], False) for side, name in sides.items()),
        ("stopped: its bar would be longer", "#888", True),
    ]:
        parts += [box(x, 56, 14, colour, stopped), text(x + 20, 66, name)]
        x += 50 + 7 * len(name)
    return parts


def bar(scale, y, cell, colour):
    end, one = scale.x(cell.ratio), scale.x(1)
    left, width = min(end, one), max(abs(end - one), 1.5)
    parts = [box(left, y, width, colour, cell.stopped)]
    if cell.stopped:
        return parts + [text(left + 6, y + BAR - 2, f"stopped: {cell.stopped}", 10)]
    if end < one:
        return parts + [text(left - 4, y + BAR - 2, cell.figure, 10, "end")]
    return parts + [text(left + width + 4, y + BAR - 2, cell.figure, 10)]


def axis(scale, bottom):
    parts = []
    for power in range(scale.low, scale.high + 1):
        x = scale.x(10.0**power)
        parts.append(line(x, TOP - 6, x, bottom, "#444" if power == 0 else "#ddd", 1.5 if power == 0 else 1))
        parts.append(text(x, bottom + 16, power_name(power), 11, "middle"))
    middle = (LEFT + WIDTH - RIGHT) / 2
    parts.append(text(middle, bottom + 36, "our time divided by theirs, logarithmic scale", 12, "middle"))
    parts.append(text(scale.x(1) - 6, TOP - 10, "\u2190 ours is faster", 11, "end", "#555"))
    parts.append(text(scale.x(1) + 6, TOP - 10, "slower \u2192", 11, "start", "#555"))
    return parts


def draw(cases, sides):
    scale = Scale([cell.ratio for case in cases for side, cell in case.cells.items() if side in sides])
    row = BAR * len(sides) + GAP
    bottom = TOP + row * len(cases) + 4
    parts = [text(20, 30, "Listing all chains: the proved library and program beside others", 17, more='font-weight="bold"')]
    parts += legend(sides) + axis(scale, bottom)
    for place, case in enumerate(cases):
        y = TOP + row * place + GAP / 2
        names = two_lines(case.name)
        for i, words in enumerate(names):
            parts.append(text(LEFT - 14, y + row / 2 - GAP / 2 + 5 + 15 * (i - (len(names) - 1) / 2), words, 12, "end"))
        for i, side in enumerate(sides):
            if side in case.cells:
                parts += bar(scale, y + BAR * i, case.cells[side], COLOURS[side])
        if place:
            parts.append(line(20, y - GAP / 2, WIDTH - 20, y - GAP / 2, "#eee"))
    height = bottom + 52
    size = f'width="{WIDTH}" height="{height}"'
    head = f'<svg xmlns="http://www.w3.org/2000/svg" viewBox="0 0 {WIDTH} {height}" {size} {FONT}>'
    return "\n".join([head, f'<rect {size} fill="#fff"/>', *parts, "</svg>"]) + "\n"
