#!/usr/bin/env python3
"""Write the round sheets of document 01's cases 1 to 10, and the text that the program `settle` is to write for each, with the mean's half
going to the even neighbour (document 02, request 4); a sheet by a trimming rule (request 5), with its text; and two
pairs of sheets (request 7), with the text that the program `fallback` is to write for each.

    python3 examples/make.py

Beside this file it writes case-NN.sheet, the bytes of a sheet, and case-NN.txt, the text, where NN is the case's number with a letter
where the case has two sheets; and trimmed.sheet and trimmed.txt. Of a pair it writes NAME.crusaders.sheet,
NAME.direct.sheet and NAME.txt. The bytes are laid out as document 01, "The round sheet", says. The texts are written
out here by hand from the cases: no engine makes them.
"""

import pathlib
import struct

FCA, CCA, TRIMMED_MEAN = 0, 1, 3
AVERAGE, MEDIAN, MIDPOINT = 0, 1, 2


def sheet(n, m, rule, estimator, window, entries):
    """The sizes, the marks, the readings; None is a missing reading."""
    marks = bytes(0 if entry is None else 1 for entry in entries)
    readings = b"".join(struct.pack("<i", entry or 0) for entry in entries)
    return struct.pack("<BBBBI", n, m, rule, estimator, window) + marks + readings


def fca(n, m, window, readings, estimator=MEDIAN):
    return sheet(n, m, FCA, estimator, window, readings)


def cca(n, m, window, rows):
    return sheet(n, m, CCA, MEDIAN, window, [copy for row in rows for copy in row])


def text(first, cabinets):
    """The first line, and a line for each cabinet: number, mark, used value."""
    lines = [first] + [f"{number} {mark} {used}" for number, (mark, used) in enumerate(cabinets)]
    return "".join(line + "\n" for line in lines)


def accepted(*used):
    return [(1, value) for value in used]


SEVEN = [0, 0, 10, 10, 10, 20, 20]

CASES = {
    # count 3, estimate 4, new 4 (18/4); the listing that document 01 prints, of which request 4 says: "The listing's new value becomes 4"
    "01": (fca(4, 1, 10, [0, 4, 10, 500]), "round 4 3 4 4\n0 1 0\n1 1 4\n2 1 10\n3 2 4\n"),
    # refusal 10
    "02": (fca(4, 1, 9, [0, 4, 10, 500]), "refused 10 0\n"),
    # estimate 5, new 5 (19/4)
    "03": (fca(4, 1, 10, [0, 4, 10, 500], MIDPOINT), text("round 4 3 5 5", accepted(0, 4, 10) + [(2, 5)])),
    # new -3
    "04": (fca(1, 0, 0, [-3]), text("round 1 1 -3 -3", accepted(-3))),
    # new 0 (-1/2); the median of two is the lower
    "05a": (fca(2, 0, 1, [-1, 0]), text("round 2 2 -1 0", accepted(-1, 0))),
    # new 0 (1/2); request 4: "and 0, 1 gives 0"
    "05b": (fca(2, 0, 1, [0, 1]), text("round 2 2 0 0", accepted(0, 1))),
    # new 6: 0, 0, 10 and 20 are accepted, the median of four is 0, and 30/5 is 6
    "06a": (fca(5, 1, 20, [0, 0, 10, 20, 30]), text("round 5 4 0 6", accepted(0, 0, 10, 20) + [(2, 0)])),
    # new 32: 20, 30, 40 and 40 are accepted, the median of four is 30, and 160/5 is 32
    "06b": (
        fca(5, 1, 20, [40, 40, 10, 20, 30]),
        text("round 5 4 30 32", accepted(40, 40) + [(2, 30)] + accepted(20, 30)),
    ),
    # all accepted, new 10
    "07": (fca(7, 2, 10, SEVEN), text("round 7 7 10 10", accepted(*SEVEN))),
    # the other 20 is replaced by 0, new 4 (30/7)
    "08": (fca(7, 2, 10, SEVEN[:6] + [0]), text("round 7 6 0 4", accepted(0, 0, 10, 10, 10) + [(2, 0)] + accepted(0))),
    # the two rows of the case, and two rows that relay 7: the first three are decided 7, the last is known faulty
    "09": (
        cca(4, 1, 0, [[7, 7, 7, 9], [7, 7, 7, 7], [7, None, 7, 7], [7, 7, 9, 9]]),
        text("round 4 3 7 7", accepted(7, 7, 7) + [(0, 7)]),
    ),
    # decided -10, 0, 10 and known faulty: new 0
    "10a": (
        cca(4, 1, 20, [[-10, -10, -10, 99], [0, 0, 0, None], [10, 10, 10, 10], [1, 2, 3, 4]]),
        text("round 4 3 0 0", accepted(-10, 0, 10) + [(0, 0)]),
    ),
    # with 20 for the last: new 5
    "10b": (
        cca(4, 1, 20, [[-10, -10, -10, 99], [0, 0, 0, None], [10, 10, 10, 10], [20, 20, 3, 20]]),
        text("round 4 4 0 5", accepted(-10, 0, 10, 20)),
    ),
}

# rule 3 of seven cabinets, planned for two faults: cabinet 4 lies and nothing was heard from cabinet 2, which counts as 0. In order they are
# -8, -3, 0, 5, 7, 9 and 900, and 0, 5 and 7 are left: new 4 (12/3)
TRIMMED = (
    sheet(7, 2, TRIMMED_MEAN, 0, 20, [-8, 5, None, 9, 900, -3, 7]),
    text("round 7 3 4 4", [(2, 4), (1, 5), (0, 4), (2, 4), (2, 4), (2, 4), (1, 7)]),
)

# four cabinets, planned for one fault: cabinets 0 and 1 are good and read 0 and 2; 2 and 3 send -2 to cabinet 0 and 4
# to cabinet 1, and relay 0, 2, -2 and -2 to cabinet 0 and nothing to cabinet 1
PAIRS = {
    # cabinet 0: its rows are decided 0, 2, -2 and -2, of which 2 is not accepted; new -2 (-6/4)
    "pair-settled": (
        cca(4, 1, 2, [[0, 0, 0, 0], [2, 2, 2, 2], [-2, 4, -2, -2], [-2, 4, -2, -2]]),
        fca(4, 1, 2, [0, 2, -2, -2]),
        "settled by crusaders\n" + text("round 4 3 -2 -2", [(1, 0), (2, -2), (1, -2), (1, -2)]),
    ),
    # cabinet 1: no row has three equal copies, so nothing is accepted; of what it heard 0 is not; new 4 (14/4)
    "pair-fell-back": (
        cca(4, 1, 2, [[0, 0, None, None], [2, 2, None, None], [-2, 4, None, None], [-2, 4, None, None]]),
        fca(4, 1, 2, [0, 2, 4, 4]),
        "settled by direct\n" + text("round 4 3 4 4", [(2, 4), (1, 2), (1, 4), (1, 4)]),
    ),
}


def main():
    folder = pathlib.Path(__file__).resolve().parent
    named = {f"case-{name}": case for name, case in CASES.items()}
    for name, (sheet_bytes, listing) in {**named, "trimmed": TRIMMED}.items():
        (folder / f"{name}.sheet").write_bytes(sheet_bytes)
        (folder / f"{name}.txt").write_text(listing, encoding="ascii", newline="\n")
    for name, (crusaders, direct, listing) in PAIRS.items():
        (folder / f"{name}.crusaders.sheet").write_bytes(crusaders)
        (folder / f"{name}.direct.sheet").write_bytes(direct)
        (folder / f"{name}.txt").write_text(listing, encoding="ascii", newline="\n")


if __name__ == "__main__":
    main()
