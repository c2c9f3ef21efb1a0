#!/usr/bin/env python3
"""Draw a replay: what each sound cabinet holds after each round, the window of each round, and what the faulty cabinets told whom.

    target/bin/replay --rounds <TRACE | python3 docs/replay_picture.py TRACE >PICTURE

The values are those that the program wrote, and the claims those of the trace. The window of a round is worked out here, as the planner does
it: the whole part of 2mδ/N plus one, by the window δ of the round before, and 0 where m or δ is 0. It is drawn as a band about the middle between
the lowest and the highest sound value before the round. A claim far outside is drawn as an arrow at the edge. A point of the picture has its
numbers as its title. Ends with 1 where the program's words do not belong to the trace, or where there is nothing to draw.
"""

import importlib.util
import math
import pathlib
import sys

sys.dont_write_bytecode = True
HERE = pathlib.Path(__file__).resolve().parent
sys.path.insert(0, str(HERE))
from pictures import BAND, GREY, INK, LIAR, Page, next_window, up  # noqa: E402

spec = importlib.util.spec_from_file_location("station_trace", HERE.parent / "examples" / "trace.py")
traces = importlib.util.module_from_spec(spec)
spec.loader.exec_module(traces)

LEFT, TOP, HEIGHT, RIGHT = 100, 104, 340, 24
COLOURS = ("#1f6feb", "#d97706", "#2e7d32", "#8e44ad", "#0e8a9c", "#795548")
SHAPES = ("circle", "square", "diamond", "cross")
ROW, LABELS, ENTRY = 18, 44, 92


class Mismatch(Exception):
    """Why the program's words and the trace make no picture."""


class Replay:
    """What the program wrote: the sound values after each round, and the place of a refusal under 15."""

    def __init__(self, run, text):
        self.run, self.refused = run, None
        self.sound = [s for s in range(run.n) if run.roles[s] == traces.SOUND]
        lines = [line.split(" ") for line in text.splitlines()]
        self.after = [[int(v) for v in words[2:]] for words in lines if words[0] == "after"]
        rest = [words for words in lines if words[0] != "after"]
        if rest and rest[0][0] == "refused" and rest[0][1] != "15":
            raise Mismatch(f"there is nothing to draw: {' '.join(rest[0])}")
        if not self.sound:
            raise Mismatch("there is nothing to draw: no cabinet is sound")
        if rest and rest[0][:2] == ["refused", "15"]:
            self.refused = divmod(int(rest[0][2]), 64)
        self.check(lines, rest)

    def check(self, lines, rest):
        """The words are those of a replay of this trace."""
        run, held = self.run, self.after
        wanted = [run.firsts[s] if s in self.sound else 0 for s in range(run.n)]
        done = self.refused[0] - 1 if self.refused else len(run.rounds)
        if [words[1] for words in lines[:len(held)]] != [str(k) for k in range(done + 1)] or held[0] != wanted:
            raise Mismatch("the lines `after` are not those of this trace; they come with replay --rounds")
        ended = [["replay", str(run.n), str(len(run.rounds))]] + [[str(s), str(run.roles[s]), str(held[-1][s])] for s in range(run.n)]
        if not self.refused and rest != ended:
            raise Mismatch("the lines below `replay` are not those of this trace")

    def windows(self):
        """The window of each round, and behind the last the one that would follow."""
        windows = [self.run.window]
        for _ in self.after[1:]:
            windows.append(next_window(windows[-1], self.run.n, self.run.m))
        return windows

    def values(self, k):
        return [self.after[k][s] for s in self.sound]

    def middle(self, k):
        return (min(self.values(k)) + max(self.values(k))) / 2

    def claims(self):
        """Round, from 0, with the faulty sender, the sound receiver and what it got: those that got something."""
        slots = len(self.after) if self.refused else len(self.after) - 1
        for k, sent in enumerate(self.run.rounds[:slots]):
            for s in sorted(sent):
                for p in self.sound:
                    if sent[s][p] is not traces.NOTHING:
                        yield k, s, p, sent[s][p]


class Drawing(Page):
    def __init__(self, replay):
        self.replay = replay
        self.columns = len(replay.after) + (1 if replay.refused else 0)
        self.step = max(76, min(180, 640 / max(1, self.columns - 1)))
        self.edge = LEFT + self.step * (self.columns - 1) + (0 if replay.refused else self.step / 2)
        self.width = max(640, math.ceil(self.edge + RIGHT))
        self.per_row = int((self.width - LEFT - RIGHT) // ENTRY)
        self.liars = replay.run.faulty()
        self.mark = 4.5 if len(self.liars) * len(replay.sound) <= 60 else 2
        rows = up(len(replay.sound), self.per_row) + up(len(self.liars), self.per_row) + 1
        self.low, self.high = self.reach()
        super().__init__(self.width, TOP + HEIGHT + 80 + ROW * rows, "Replay of a station run: the sound cabinets' values round by round")

    def reach(self):
        """The lowest and the highest value that is drawn in its place: the bands, the sound values, and claims within a window of them."""
        replay, windows = self.replay, self.replay.windows()
        held = [v for k in range(len(replay.after)) for v in replay.values(k)]
        held += [replay.middle(k) + side * w / 2 for k, w in enumerate(windows) for side in (-1, 1)]
        low, high = min(held), max(held)
        near = [v for *_, v in replay.claims() if low - windows[0] <= v <= high + windows[0]]
        low, high = min([low] + near), max([high] + near)
        air = max(1, (high - low) / 20)
        return low - air, high + air

    def x(self, k):
        return LEFT + self.step * k

    def y(self, value):
        return TOP + HEIGHT * (self.high - value) / (self.high - self.low)

    def colour(self, p):
        place, count = self.replay.sound.index(p), len(self.replay.sound)
        return COLOURS[place] if count <= len(COLOURS) else f"hsl({round(360 * place / count)},70%,40%)"

    def titled(self, part, title):
        self.parts.append(f"<g><title>{title}</title>{part}</g>")

    def shape(self, s, x, y, colour):
        kind = SHAPES[self.liars.index(s) % len(SHAPES)]
        r = self.mark
        if kind == "circle":
            return f'<circle cx="{x:.1f}" cy="{y:.1f}" r="{r}" fill="{colour}"/>'
        turned = f' transform="rotate(45 {x:.1f} {y:.1f})"'
        if kind == "cross":
            path = f"M{x - r:.1f} {y:.1f} H{x + r:.1f} M{x:.1f} {y - r:.1f} V{y + r:.1f}"
            return f'<path d="{path}" stroke="{colour}" stroke-width="{r / 1.5:g}" fill="none"{turned}/>'
        return (
            f'<rect x="{x - r + 0.5:.1f}" y="{y - r + 0.5:.1f}" width="{2 * r - 1:g}" height="{2 * r - 1:g}" fill="{colour}"'
            f'{turned if kind == "diamond" else ""}/>'
        )

    # ---- the parts, from the back to the front
    def bands(self):
        for k, window in enumerate(self.replay.windows()):
            right = min(self.x(k + 1), self.edge)
            top, bottom = (self.y(self.replay.middle(k) + side * window / 2) for side in (1, -1))
            last = k == len(self.replay.after) - 1 and not self.replay.refused
            self.titled(
                f'<rect x="{self.x(k):.1f}" y="{top:.1f}" width="{right - self.x(k):.1f}" height="{max(1, bottom - top):.1f}" fill="{BAND}"/>',
                f"window after round {k}: {window}" if last else f"window of round {k + 1}: {window}",
            )

    def scale(self):
        rough = (self.high - self.low) / 7
        power = 10 ** math.floor(math.log10(rough))
        step = max(1, int(next(f * power for f in (1, 2, 5, 10) if f * power >= rough)))
        for value in range(math.ceil(self.low / step) * step, math.floor(self.high) + 1, step):
            self.line(LEFT, round(self.y(value), 1), round(self.edge, 1), round(self.y(value), 1), "#e3e8ee")
            self.text(LEFT - 8, round(self.y(value) + 4, 1), f"{value:,}", GREY, "end", 11)
        self.text(LEFT - 8, TOP - 12, "ticks", GREY, "end", 11)
        for k in range(self.columns):
            self.line(round(self.x(k), 1), TOP, round(self.x(k), 1), TOP + HEIGHT, "#c3ccd6")
            if k + 1 < self.columns:
                self.text(round(self.x(k + 0.5), 1), TOP - 12, f"round {k + 1}", GREY, "middle", 11)

    def below(self):
        """What stands below each column: when, the window, and how far apart."""
        y = TOP + HEIGHT
        for row, words in enumerate(("", "window", "apart")):
            self.text(LEFT - LABELS, y + ROW * (row + 1), words, INK, "end", 11)
        for k, window in enumerate(self.replay.windows()):
            values = self.replay.values(k)
            self.text(round(self.x(k), 1), y + ROW, f"after {k}" if k else "at first", INK, "middle", 11)
            self.text(round(self.x(k), 1), y + 2 * ROW, f"{window:,}", INK, "middle", 11)
            self.text(round(self.x(k), 1), y + 3 * ROW, f"{max(values) - min(values):,}", INK, "middle", 11)

    def lines(self):
        replay = self.replay
        for p in replay.sound:
            points = [(self.x(k), self.y(held[p])) for k, held in enumerate(replay.after)]
            path = " ".join(f"{x:.1f},{y:.1f}" for x, y in points)
            self.parts.append(f'<polyline fill="none" stroke="{self.colour(p)}" stroke-width="2" points="{path}"/>')
            for k, (x, y) in enumerate(points):
                self.titled(f'<circle cx="{x:.1f}" cy="{y:.1f}" r="3" fill="{self.colour(p)}"/>', f"cabinet {p} after {k}: {replay.after[k][p]}")

    def claimed(self):
        """A mark for each claim: where it stands in the round's slot says who was told, and so does its colour."""
        sound, beyond = self.replay.sound, {}
        apart = min(2 * self.mark, 0.54 * self.step / len(sound) / max(1, len(self.liars) - 1))
        for k, s, p, value in self.replay.claims():
            x = self.x(k + 0.14 + 0.72 * (sound.index(p) + 0.5) / len(sound)) + apart * (self.liars.index(s) - (len(self.liars) - 1) / 2)
            title = f"round {k + 1}: {s} told {p} {value}"
            if self.low <= value <= self.high:
                self.titled(self.shape(s, x, self.y(value), self.colour(p)), title)
                continue
            above = value > self.high
            beyond.setdefault((k, above), []).append((x, value))
            y, way = (TOP + 3, 1) if above else (TOP + HEIGHT - 3, -1)
            path = f"M{x:.1f} {y - 2 * way} l5 {9 * way} h-10 Z"
            self.titled(f'<path d="{path}" fill="{self.colour(p)}"/>', title)
        for (k, above), those in beyond.items():
            words = f"{those[0][1]:,}" if len(those) == 1 else f"{len(those)} beyond"
            y = TOP + 22 if above else TOP + HEIGHT - 14
            self.text(round(sum(x for x, _ in those) / len(those), 1), y, words, INK, "middle", 10)

    def head(self):
        run = self.replay.run
        self.text(20, 28, "Replay: what each sound cabinet holds, round by round", bold=True, size=15)
        faults = f"{run.m} fault" + ("" if run.m == 1 else "s")
        words = f"{run.n} cabinets, planned for {faults}, FCA with {traces.ESTIMATORS[run.estimator]}; ticks of 1/16,777,216 second"
        self.text(20, 49, words, GREY, size=12)
        if self.replay.refused:
            number, p = self.replay.refused
            self.text(20, 69, f"refused in round {number}: cabinet {p} met too many faults", LIAR, size=12, bold=True)
            self.line(round(self.x(number), 1), TOP, round(self.x(number), 1), TOP + HEIGHT, LIAR, 2, "5 4")

    def legend(self):
        y = TOP + HEIGHT + 4 * ROW + 10

        def entries(words, numbers, sample):
            nonlocal y
            self.text(LEFT - LABELS, y, words, INK, "end", 11)
            for i, number in enumerate(numbers):
                x = LEFT - 24 + ENTRY * (i % self.per_row)
                if i and i % self.per_row == 0:
                    y += ROW
                self.parts.append(sample(number, x, y - 4))
                self.text(x + 28, y, f"cabinet {number}", INK, size=11)
            y += ROW

        entries("sound", self.replay.sound, lambda p, x, y: f'<path d="M{x} {y} h22" stroke="{self.colour(p)}" stroke-width="3"/>')
        if self.liars:
            entries("faulty", self.liars, lambda s, x, y: self.shape(s, x + 14, y, GREY))
        self.box(LEFT - 24, y - 10, 22, 10, BAND)
        claims = "; a claim has the colour of the cabinet that was told it" if self.liars else ""
        self.text(LEFT + 4, y, f"the planned window of a round{claims}", INK, size=11)

    def drawn(self):
        for part in (self.bands, self.scale, self.claimed, self.lines, self.head, self.below, self.legend):
            part()
        return self.written()


def main(words):
    if len(words) != 1 or words[0] == "--help":
        print(__doc__, end="", file=sys.stdout if words == ["--help"] else sys.stderr)
        return 0 if words == ["--help"] else 2
    try:
        run = traces.read(pathlib.Path(words[0]).read_bytes())
        print(Drawing(Replay(run, sys.stdin.read())).drawn(), end="")
    except OSError as error:
        print(f"{error.filename}: {error.strerror}", file=sys.stderr)
        return 1
    except traces.Fault as fault:
        print(f"{words[0]}: refused under {fault}", file=sys.stderr)
        return 1
    except (Mismatch, ValueError, IndexError) as fault:
        print(f"{words[0]}: {fault if isinstance(fault, Mismatch) else 'what came in is not what replay --rounds writes'}", file=sys.stderr)
        return 1
    return 0


if __name__ == "__main__":
    sys.exit(main(sys.argv[1:]))
