#!/usr/bin/env python3
"""Write the trace of a station run from a text that a person reads and writes, or show a trace as such a text.

    python3 examples/trace.py RUN TRACE       RUN is the text, TRACE the bytes that are written
    python3 examples/trace.py --show TRACE    shows a trace as a text
    python3 examples/trace.py --help          shows these lines

RUN and TRACE may be -, for standard input and standard output. A text has these lines, in this order:

    cabinets 4, faults 1, estimator median, window 100
    cabinet 0: sound, reads 40
    cabinet 1: sound, reads 0
    cabinet 2: sound, reads 95
    cabinet 3: faulty
    round 1
    3 sends 0: -60, 1: 160, 2: nothing
    round 2
    3 sends all: 40, 1: 160
    round 3

The first line has the cabinets, the faults planned for, the estimator (average, median or midpoint) and the first round's window. Then
comes each cabinet, from 0 on: its role and its first reading. A faulty one's reading may be left out, and changes nothing. Then each round,
from 1 on, at most 32 of them, and below it what the faulty cabinets sent to whom. `all` stands first, and those named after it got something
else. Who is not named got nothing. What a sound cabinet sends is not written down: the replay supplies it. Windows and readings are in
ticks of 1/16,777,216 second. # begins a remark, and empty lines are passed over.

It ends with 0, with 1 where a text or a trace has a fault, which it names, and with 2 where it is called wrongly. docs/FORMAT.md, section 11,
draws the bytes of a trace.
"""

import pathlib
import re
import struct
import sys

HEADER, MAX_CABINETS, MAX_WINDOW, MAX_ROUNDS = 8, 64, 1_000_000, 32
LOWEST, HIGHEST = -(2**31), 2**31 - 1
FCA, CCA = 0, 1
ESTIMATORS = ("average", "median", "midpoint")
SOUND, FAULTY = 1, 0
NOTHING = None


class Fault(Exception):
    """What is wrong with a text or a trace, in words."""


class Run:
    """A recorded run: the settings, each cabinet's role and first reading, and what each sender sent each receiver in each round."""

    def __init__(self, n, m, estimator, window):
        self.n, self.m, self.estimator, self.window = n, m, estimator, window
        self.roles, self.firsts, self.rounds = [], [], []

    def faulty(self):
        return [s for s in range(self.n) if self.roles[s] == FAULTY]


# ---- the text
def ticks(word):
    value = int(word)
    if not LOWEST <= value <= HIGHEST:
        raise Fault(f"the reading {word} is not of 32 bits: {LOWEST} to {HIGHEST} are")
    return value


def opened(line):
    """The run that the first line begins."""
    found = re.fullmatch(r"cabinets ([0-9]+), faults ([0-9]+), estimator (\w+), window ([0-9]+)", line)
    if not found:
        raise Fault("the first line is wanted like this: cabinets 4, faults 1, estimator median, window 100")
    n, m, window = int(found[1]), int(found[2]), int(found[4])
    if not 1 <= n <= MAX_CABINETS:
        raise Fault(f"{n} cabinets: 1 to {MAX_CABINETS} are wanted")
    if n < 3 * m + 1:
        raise Fault(f"{n} cabinets are too few for {m} faults: at least {3 * m + 1} are wanted")
    if found[3] not in ESTIMATORS:
        raise Fault(f"the estimator is {found[3]}: {', '.join(ESTIMATORS)} are known")
    if window > MAX_WINDOW:
        raise Fault(f"the window is {window} ticks: at most {MAX_WINDOW} are wanted")
    return Run(n, m, ESTIMATORS.index(found[3]), window)


def take_cabinet(run, found):
    number = int(found[1])
    if run.rounds:
        raise Fault("cabinets stand above the rounds")
    if number >= run.n:
        raise Fault(f"there is no cabinet {number}: the {run.n} cabinets are numbered from 0")
    if number != len(run.roles):
        raise Fault(f"cabinet {number} stands where cabinet {len(run.roles)} is wanted")
    if found[2] == "sound" and found[3] is None:
        raise Fault(f"a sound cabinet's first reading is wanted, like this: cabinet {number}: sound, reads 40")
    run.firsts.append(ticks(found[3] or "0"))
    run.roles.append(SOUND if found[2] == "sound" else FAULTY)


def complete(run):
    if len(run.roles) < run.n:
        raise Fault(f"cabinet {len(run.roles)} is wanted here: the first line says {run.n} cabinets")


def take_round(run, found):
    complete(run)
    wanted = len(run.rounds) + 1
    if wanted > MAX_ROUNDS:
        raise Fault(f"a run has at most {MAX_ROUNDS} rounds")
    if int(found[1]) != wanted:
        raise Fault(f"round {int(found[1])} stands where round {wanted} is wanted")
    run.rounds.append({})


def take_sends(run, found):
    complete(run)
    sender = int(found[1])
    if not run.rounds:
        raise Fault("a line `round 1` is wanted above what is sent")
    if sender >= run.n:
        raise Fault(f"there is no cabinet {sender}: the {run.n} cabinets are numbered from 0")
    if run.roles[sender] == SOUND:
        raise Fault(f"cabinet {sender} is sound: what it sends is supplied by the replay")
    if sender in run.rounds[-1]:
        raise Fault(f"cabinet {sender} has two lines in round {len(run.rounds)}")
    run.rounds[-1][sender] = heard(run.n, found[2])


def heard(n, items):
    """What each receiver got: `all: 40, 1: 160, 2: nothing`."""
    got, named = [NOTHING] * n, set()
    for item in items.split(", "):
        found = re.fullmatch(r"(all|[0-9]+): (nothing|-?[0-9]+)", item)
        if not found:
            raise Fault(f"'{item}' is not like 0: 40, or 0: nothing, or all: 40")
        value = NOTHING if found[2] == "nothing" else ticks(found[2])
        if found[1] == "all":
            if named:
                raise Fault("`all` stands first in a line, and once")
            got = [value] * n
            named.add("all")
            continue
        receiver = int(found[1])
        if receiver >= n:
            raise Fault(f"there is no cabinet {receiver}: the {n} cabinets are numbered from 0")
        if receiver in named:
            raise Fault(f"cabinet {receiver} is named twice")
        got[receiver] = value
        named.add(receiver)
    return got


LINES = (
    (re.compile(r"cabinet ([0-9]+): (sound|faulty)(?:, reads (-?[0-9]+))?"), take_cabinet),
    (re.compile(r"round ([0-9]+)"), take_round),
    (re.compile(r"([0-9]+) sends (.+)"), take_sends),
)


def take(run, line):
    for form, action in LINES:
        found = form.fullmatch(line)
        if found:
            return action(run, found)
    raise Fault(f"'{line}' is no line of a run; trace.py --help shows what lines there are")


def parse(text):
    """The run that a text tells; a fault begins with its line."""
    run, number = None, 0
    try:
        for number, line in enumerate(text.splitlines(), 1):
            words = " ".join(re.sub(r"([,:])", r"\1 ", line.partition("#")[0]).split())
            words = re.sub(r" ([,:])", r"\1", words)
            if words and run is None:
                run = opened(words)
            elif words:
                take(run, words)
        number += 1
        if run is None:
            raise Fault("the text is empty")
        complete(run)
    except Fault as fault:
        raise Fault(f"line {number}: {fault}") from None
    return run


def sends(n, got):
    """What a sender sent, as `heard` reads it: what most got as `all`."""
    def said(value):
        return "nothing" if value is NOTHING else str(value)
    most = max(got, key=got.count)
    if 2 * got.count(most) <= n:
        return ", ".join(f"{p}: {said(got[p])}" for p in range(n))
    return ", ".join([f"all: {said(most)}"] + [f"{p}: {said(got[p])}" for p in range(n) if got[p] != most])


def shown(run):
    """The run as a text."""
    lines = [f"cabinets {run.n}, faults {run.m}, estimator {ESTIMATORS[run.estimator]}, window {run.window}"]
    for number, (role, first) in enumerate(zip(run.roles, run.firsts)):
        reads = f", reads {first}" if role == SOUND or first else ""
        lines.append(f"cabinet {number}: {'sound' if role == SOUND else 'faulty'}{reads}")
    for number, sent in enumerate(run.rounds, 1):
        lines.append(f"round {number}")
        lines += [f"{s} sends {sends(run.n, sent[s])}" for s in sorted(sent)]
    return "".join(line + "\n" for line in lines)


# ---- the bytes
def written(run):
    """The trace: sizes, rounds, roles, first readings, marks, readings."""
    silent = [NOTHING] * run.n
    entries = [entry for sent in run.rounds for s in range(run.n) for entry in sent.get(s, silent)]
    return (
        struct.pack("<BBBBI", run.n, run.m, FCA, run.estimator, run.window)
        + bytes([len(run.rounds)])
        + bytes(run.roles)
        + struct.pack(f"<{run.n}i", *run.firsts)
        + bytes(entry is not NOTHING for entry in entries)
        + struct.pack(f"<{len(entries)}i", *(entry or 0 for entry in entries))
    )


def read(trace):
    """The run of a trace. A fault begins with the number that the replay refuses it under, and says where it is."""
    if len(trace) < HEADER:
        raise Fault(f"1: {len(trace)} bytes, and at least {HEADER} are wanted")
    n, m, rule, estimator, window = struct.unpack("<BBBBI", trace[:HEADER])
    if not 1 <= n <= MAX_CABINETS:
        raise Fault(f"2: {n} cabinets, and 1 to {MAX_CABINETS} are wanted")
    if n < 3 * m + 1:
        raise Fault(f"3: {n} cabinets are too few for {m} faults")
    if rule not in (FCA, CCA) or estimator >= len(ESTIMATORS):
        raise Fault(f"4: rule {rule} with estimator {estimator}")
    if window > MAX_WINDOW:
        raise Fault(f"5: a window of {window} ticks, and at most {MAX_WINDOW} are wanted")
    if rule != FCA:
        raise Fault("13: the rule is not FCA")
    if len(trace) == HEADER or trace[HEADER] > MAX_ROUNDS:
        raise Fault("13: no byte of rounds" if len(trace) == HEADER else f"13: {trace[HEADER]} rounds, and at most {MAX_ROUNDS} are wanted")
    rounds = trace[HEADER]
    count = rounds * n * n
    roles_at, firsts_at, marks_at = HEADER + 1, HEADER + 1 + n, HEADER + 1 + 5 * n
    if len(trace) != marks_at + 5 * count:
        raise Fault(f"13: {len(trace)} bytes, and {marks_at + 5 * count} are wanted for {n} cabinets and {rounds} rounds")
    run = Run(n, m, estimator, window)
    run.roles = list(trace[roles_at:firsts_at])
    run.firsts = list(struct.unpack(f"<{n}i", trace[firsts_at:marks_at]))
    marks = trace[marks_at:marks_at + count]
    readings = struct.unpack(f"<{count}i", trace[marks_at + count:])
    check_entries(n, run.roles, marks, readings)
    for k in range(rounds):
        rows = {s: (k * n + s) * n for s in run.faulty()}
        run.rounds.append({s: [readings[e] if marks[e] else NOTHING for e in range(at, at + n)] for s, at in rows.items()})
    return run


def check_entries(n, roles, marks, readings):
    """Checks 8, 9 and 14."""
    def named(e):
        return f"what {e // n % n} sent {e % n} in round {e // n // n + 1} (entry {e})"
    for e, mark in enumerate(marks):
        if mark > 1:
            raise Fault(f"8: the mark of {named(e)} is {mark}")
    for e, mark in enumerate(marks):
        if mark == 0 and readings[e] != 0:
            raise Fault(f"9: {named(e)} is missing, and its bytes are not zero")
    for s, role in enumerate(roles):
        if role not in (SOUND, FAULTY):
            raise Fault(f"14: the role of cabinet {s} is {role}")
    for e, mark in enumerate(marks):
        if mark == 1 and roles[e // n % n] == SOUND:
            raise Fault(f"14: {named(e)} is present, and cabinet {e // n % n} is sound")


# ---- the command
def bytes_of(name):
    return sys.stdin.buffer.read() if name == "-" else pathlib.Path(name).read_bytes()


def put(name, data):
    if name == "-":
        sys.stdout.buffer.write(data)
    else:
        pathlib.Path(name).write_bytes(data)


def main(words):
    if words == ["--help"]:
        print(__doc__, end="")
        return 0
    if len(words) != 2 or (words[0].startswith("-") and words[0] not in ("-", "--show")):
        print("trace.py: a text and a trace are wanted, or --show and a trace; trace.py --help says more", file=sys.stderr)
        return 2
    given = words[1] if words[0] == "--show" else words[0]
    try:
        if words[0] == "--show":
            put("-", shown(read(bytes_of(given))).encode("ascii"))
        else:
            put(words[1], written(parse(bytes_of(given).decode("utf-8"))))
    except UnicodeDecodeError:
        print(f"{given}: this is no text", file=sys.stderr)
        return 1
    except Fault as fault:
        print(f"{given}: {'refused under ' if words[0] == '--show' else ''}{fault}", file=sys.stderr)
        return 1
    except OSError as error:
        print(f"{error.filename}: {error.strerror}", file=sys.stderr)
        return 1
    return 0


if __name__ == "__main__":
    sys.exit(main(sys.argv[1:]))
