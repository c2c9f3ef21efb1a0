#!/usr/bin/env python3
"""Draw the pictures of docs/ANSWER.md and docs/INTERVAL.md from the numbers that they state.

    python3 docs/pictures.py            writes docs/answer.svg, docs/windows.svg and docs/interval.svg
    python3 docs/pictures.py check      ends with 1 unless they are what it would write

The round that is drawn is settled here, by document 01's steps with the halves of document 02's request 4, the windows are worked out by the
planner's formula, and the interval by the first limit of document 02's request 6; nothing is copied from the pages.
"""

import math
import pathlib
import sys
from fractions import Fraction

HERE = pathlib.Path(__file__).resolve().parent
N, M, BAD = 7, 2, 3
PER_SECOND = 16_777_216
INK, GREY, GOOD, LIAR, TAKEN, BAND = "#1c2733", "#8894a0", "#1f6feb", "#c62828", "#2e7d32", "#dbe8fb"


def up(a, n):
    return -(-a // n)


def next_window(window, n, m, factor=2):
    """The planner's: 0 where m or the window is 0, else the whole part of factor × mδ/N plus one."""
    return factor * m * window // n + 1 if m and window else 0


def mean(total):
    """To the nearest whole number, a half going to the even neighbour; of seven values no mean is a half."""
    return round(Fraction(total, N))


def settle(readings, window):
    """FCA with median: the accepted readings, and the new value (None where nothing is accepted)."""
    def holds(start):
        return sum(start <= v <= start + window for v in readings) >= N - M
    accepted = [v for v in readings if any(s <= v <= s + window and holds(s) for s in readings)]
    if not accepted:
        return accepted, None
    estimate = sorted(accepted)[up(len(accepted), 2) - 1]
    return accepted, mean(sum(v if v in accepted else estimate for v in readings))


def exact_gap(window, t):
    return window + mean((M + t) * window) - mean(-(M + t) * window)


class Page:
    def __init__(self, width, height, title):
        self.parts = [
            f'<svg xmlns="http://www.w3.org/2000/svg" viewBox="0 0 {width} {height}" width="{width}" height="{height}" role="img" '
            f'font-family="sans-serif" font-size="13">',
            f"<title>{title}</title>",
            f'<rect width="{width}" height="{height}" fill="#ffffff"/>',
        ]

    def line(self, x1, y1, x2, y2, colour=INK, width=1, dash=None):
        dashed = f' stroke-dasharray="{dash}"' if dash else ""
        self.parts.append(
            f'<line x1="{x1:g}" y1="{y1:g}" x2="{x2:g}" y2="{y2:g}" stroke="{colour}" stroke-width="{width}"{dashed}/>'
        )

    def text(self, x, y, words, colour=INK, anchor="start", size=13, bold=False):
        weight = ' font-weight="bold"' if bold else ""
        self.parts.append(
            f'<text x="{x:g}" y="{y:g}" fill="{colour}" text-anchor="{anchor}" font-size="{size}"{weight}>{words}</text>'
        )

    def dot(self, x, y, colour, radius=5):
        self.parts.append(f'<circle cx="{x:g}" cy="{y:g}" r="{radius}" fill="{colour}"/>')

    def box(self, x, y, width, height, colour):
        self.parts.append(f'<rect x="{x:g}" y="{y:g}" width="{width:g}" height="{height:g}" fill="{colour}"/>')

    def diamond(self, x, y, colour):
        self.parts.append(f'<path d="M{x:g} {y - 8:g} L{x + 7:g} {y:g} L{x:g} {y + 8:g} L{x - 7:g} {y:g} Z" fill="{colour}"/>')

    def written(self):
        return "\n".join(self.parts + ["</svg>"]) + "\n"


def stacked(page, values, x, y, colour):
    """Dots for equal values stand above each other."""
    seen = {}
    for v in values:
        seen[v] = seen.get(v, 0) + 1
        page.dot(x(v), y - 12 * (seen[v] - 1), colour)


def answer():
    window = 7
    good, faces = [0, 0, window, window], (-window, 2 * window)
    page = Page(760, 420, "Three of seven clocks lie: how two sound cabinets come to be the exact limit apart")

    def x(ticks):
        return 300 + 18 * (ticks + 9)

    page.text(20, 28, "Three of seven clocks lie, planned for two; window 7 ticks, FCA with median", bold=True, size=15)
    page.text(20, 88, "the four good clocks", GOOD)
    stacked(page, good, x, 90, GOOD)
    values = []
    for row, (cabinet, face) in enumerate(zip((0, 1), faces)):
        y = 185 + 95 * row
        heard = good + [face] * BAD
        accepted, value = settle(heard, window)
        values.append(value)
        page.box(x(min(accepted)) - 9, y - 42, x(max(accepted)) - x(min(accepted)) + 18, 54, BAND)
        page.text(20, y - 18, f"cabinet {cabinet} hears the three")
        page.text(20, y, f"say {face}", LIAR)
        page.text(20, y + 18, f"and takes {value}", TAKEN)
        page.line(x(-9), y + 12, x(16), y + 12, GREY)
        stacked(page, good, x, y, GOOD)
        stacked(page, [face] * BAD, x, y, LIAR)
        page.diamond(x(value), y + 12, TAKEN)
    low, high = values
    assert high - low == exact_gap(window, BAD)
    y = 340
    page.line(x(low), 205, x(low), y, TAKEN, 1, "4 3")
    page.line(x(high), 300, x(high), y, TAKEN, 1, "4 3")
    page.line(x(low), y, x(high), y, TAKEN, 3)
    page.text((x(low) + x(high)) / 2, y - 8, f"{high - low} ticks apart: no lie can do more", TAKEN, "middle", bold=True)
    for ticks in range(-8, 17, 2):
        page.line(x(ticks), 368, x(ticks), 374)
        page.text(x(ticks), 388, str(ticks), INK, "middle", 11)
    page.line(x(-9), 368, x(16), 368)
    page.text(x(16), 404, "ticks of 1/16,777,216 second", GREY, "end", 11)
    page.box(20, 366, 14, 14, BAND)
    page.text(40, 378, "readings that are accepted", GREY, size=11)
    return page.written()


def windows():
    first = PER_SECOND // 1000
    page = Page(760, 420, "How far apart sound cabinets can be after each round, at most two of seven bad")
    page.text(20, 28, "At most two of seven bad: how far apart after each round", bold=True, size=15)

    def x(k):
        return 90 + 76 * k

    def y(ticks):
        return 360 - 70 * math.log10(max(ticks, 1))

    for power in range(5):
        page.line(x(0), y(10**power), x(8), y(10**power), "#e3e8ee")
        page.text(x(0) - 10, y(10**power) + 4, f"{10**power:,}", GREY, "end", 11)
    page.text(20, 56, "ticks", GREY, size=11)
    for name, factor, colour, lift in (("FCA, and CCA with average or midpoint", 2, GOOD, -10), ("CCA with median", 1, TAKEN, 12)):
        window, points = first, [(0, first)]
        for k in range(1, 9):
            points.append((k, up(factor * M * window, N)))  # seven is odd
            window = next_window(window, N, M, factor)
            assert points[k][1] <= window
        page.parts.append(
            f'<polyline fill="none" stroke="{colour}" stroke-width="2" points="'
            + " ".join(f"{x(k):g},{y(w):.1f}" for k, w in points) + '"/>'
        )
        for k, w in points:
            page.dot(x(k), round(y(w), 1), colour, 4)
            if k > 0 or lift < 0:
                side = (6, "start") if lift < 0 else (-7, "end")
                page.text(x(k) + side[0], round(y(w), 1) + lift, f"{w:,}", colour, side[1], 11)
        page.text(x(8), 60 if lift < 0 else 80, name, colour, "end")
    for k in range(9):
        page.text(x(k), 385, str(k), INK, "middle", 11)
    page.text(x(8), 405, "rounds done, from a window of one millisecond", GREY, "end", 11)
    return page.written()


def greatest_interval(window, precision, drift):
    """The most ticks R with R <= (window - precision)(2 - rho)/(2 rho), where the drift is rho in parts per million."""
    rho = Fraction(drift, 1_000_000)
    return math.floor((window - precision) * (2 - rho) / (2 * rho))


def seconds(ticks):
    """Rounded down to milliseconds."""
    return f"{ticks * 1000 // PER_SECOND / 1000:.3f}"


def interval():
    window, rounds, drift, teeth = PER_SECOND // 1000, 3, 100, 3
    precision = window
    for _ in range(rounds):
        precision = next_window(precision, N, M)
    length = greatest_interval(window, precision, drift)
    late = length // 5
    page = Page(760, 440, "How far apart two sound clocks can be, from one resynchronising to the next")
    page.text(20, 28, "How far apart two sound clocks can be, at most two of seven bad", bold=True, size=15)
    page.text(20, 48, f"FCA, window {window:,} ticks, {rounds} rounds at each resynchronising, drift {drift} parts per million", GREY)
    left, bottom, apart = 90, 370, Fraction(2 * drift, 2_000_000 - drift)

    def x(ticks):
        return round(float(left + 194 * ticks / length), 1)

    def y(ticks):
        return round(float(bottom - 280 * ticks / 20_000), 1)

    for ticks in range(0, 20_001, 5_000):
        page.line(left, y(ticks), 740, y(ticks), "#e3e8ee")
        page.text(left - 10, y(ticks) + 4, f"{ticks:,}", GREY, "end", 11)
    page.text(20, y(20_000) - 14, "ticks apart", GREY, size=11)
    page.line(left, y(window), 740, y(window), LIAR, 1.5)
    page.text(left + 6, y(window) - 7, f"the window, {window:,} ticks: a millisecond", LIAR)
    page.line(left, y(precision), 740, y(precision), TAKEN, 1, "4 3")
    for tooth in range(teeth):
        start, end = tooth * length, (tooth + 1) * length
        page.parts.append(
            f'<polyline fill="none" stroke="{GOOD}" stroke-width="2.5" points="'
            f'{x(start):g},{y(precision):g} {x(end):g},{y(precision + length * apart):g}"/>'
        )
        if tooth < teeth - 1:
            page.line(x(end), y(window), x(end), y(precision), TAKEN, 2.5)
        page.line(x(end), bottom, x(end), bottom + 6)
        page.text(x(end), bottom + 20, seconds(end), INK, "middle", 11)
    page.box(x(length) - 124, y(precision) - 48, 120, 44, "#ffffff")
    for line, words in enumerate((f"{precision:,} ticks ({up(precision * 1_000_000, PER_SECOND):,} µs)", "to the precision,", f"{rounds} rounds: back")):
        page.text(x(length) - 8, y(precision) - 8 - 14 * line, words, TAKEN, "end", 11)
    page.text(x(length / 2) - 8, y(precision + length * apart / 2) - 10, "drift", GOOD, "end")
    end = teeth * length
    page.parts.append(
        f'<polyline fill="none" stroke="{LIAR}" stroke-width="2.5" stroke-dasharray="5 4" points="'
        f'{x(end):g},{y(window):g} {x(end + late):g},{y(precision + (length + late) * apart):g}"/>'
    )
    page.text(x(end) - 12, y(19_000), "too late: wider than the window", LIAR, "end", 11)
    page.line(left, bottom, 740, bottom)
    page.line(left, bottom, left, bottom + 6)
    page.text(left, bottom + 20, "0", INK, "middle", 11)
    page.text(740, bottom + 38, "seconds on the slowest sound clock", GREY, "end", 11)
    middle, height = x(length * 1.5), bottom - 23
    page.line(x(length) + 4, height, x(2 * length) - 4, height)
    for at, way in ((x(length) + 4, 1), (x(2 * length) - 4, -1)):
        page.line(at, height, at + 6 * way, height - 4)
        page.line(at, height, at + 6 * way, height + 4)
    page.text(middle, height - 6, f"greatest interval, {seconds(length)} s", INK, "middle", 11)
    page.text(middle, height + 15, f"{length:,} ticks", INK, "middle", 11)
    return page.written()


def main():
    pictures = {HERE / "answer.svg": answer(), HERE / "windows.svg": windows(), HERE / "interval.svg": interval()}
    if sys.argv[1:] == ["check"]:
        stale = [p.name for p, drawn in pictures.items() if not p.is_file() or p.read_text(encoding="utf-8") != drawn]
        for name in stale:
            print(f"docs/{name} is not what docs/pictures.py draws")
        sys.exit(1 if stale else 0)
    for path, drawn in pictures.items():
        path.write_text(drawn, encoding="utf-8")


if __name__ == "__main__":
    main()
