#!/usr/bin/env python3
"""What the definitions say of every number, name and text that users compile in.

    tests/figures.py c           what bindings/c/figures.c must print
    tests/figures.py rust        what bindings/rust/examples/figures.rs must print
    tests/figures.py text K      what refusal K means
    tests/figures.py version     the version; number: as one number

Numbers are read from crates/model/specs, crates/trace/specs, crates/interval/specs and crates/version/specs, the
numbers of refusal from the table of crates/model/specs/Refusals.antt (the checks 13 to 15 stand in crates/trace/specs,
17 and 18 in crates/interval/specs, 19 in crates/sheet_pairs/specs), and what each means from README's table. Which
sheet settled a round is numbered from 1 on, in the order of `Source` in crates/sheet_pairs/specs.
"""

import pathlib
import re
import sys

ROOT = pathlib.Path(__file__).resolve().parent.parent
MODEL = ROOT / "crates" / "model" / "specs"
TRACE = ROOT / "crates" / "trace" / "specs"
INTERVAL = ROOT / "crates" / "interval" / "specs"
PAIRS = ROOT / "crates" / "sheet_pairs" / "specs"


def text(path):
    return path.read_text(encoding="utf-8")


def numbers(path):
    """The definitions of a page that are a numeral."""
    found = re.findall(r"^(\w+) = ([0-9_]+)$", text(path), flags=re.M)
    return {name: int(value.replace("_", "")) for name, value in found}


def defined(path, line):
    """Sees that a page still has the definition that a function below computes."""
    if line not in text(path).splitlines():
        sys.exit(f"figures: {path.relative_to(ROOT)} has no line '{line}'")


FIGURES = {}
for page in ("Ensemble", "RoundSheet", "AnswerSheet", "Planner"):
    FIGURES.update(numbers(MODEL / f"{page}.antt"))
FIGURES.update(numbers(TRACE / "Trace.antt"))
FIGURES.update(numbers(INTERVAL / "Interval.antt"))

VERSION = numbers(ROOT / "crates" / "version" / "specs" / "Version.antt")

LAST = 19


def entries(n, rule):
    defined(MODEL / "RoundSheet.antt", "entry_count c = cond (eqb c.rule cca) (c.n * c.n) c.n")
    return n * n if rule == FIGURES["cca"] else n


def sheet_size(n, rule):
    defined(MODEL / "RoundSheet.antt", "sheet_length c = header_size + 5 * entry_count c")
    return FIGURES["header_size"] + 5 * entries(n, rule)


def answer_size(n):
    defined(MODEL / "AnswerSheet.antt", "answer_length n = answer_header_size + 5 * n")
    return FIGURES["answer_header_size"] + 5 * n


def trace_size(n, rounds):
    defined(TRACE / "Trace.antt", "trace_entries n rounds = rounds * (n * n)")
    defined(TRACE / "Trace.antt", "trace_length n rounds = trace_header_size + 5 * n + 5 * trace_entries n rounds")
    return FIGURES["trace_header_size"] + 5 * n + 5 * rounds * n * n


def values_size(n):
    defined(TRACE / "Replay.antt", "    ∷ no_room buffer (4 * (settings_at s).n)")
    return 4 * n


def constant(name):
    """too_short as TOO_SHORT"""
    return name.upper()


def refusals():
    """The checks of the table: number and name."""
    page = text(MODEL / "Refusals.antt")
    checks = re.findall(r"^(\w+)_number = (\d+)$", page, flags=re.M)
    if [int(number) for _, number in checks] != list(range(1, LAST + 1)):
        sys.exit(f"figures: crates/model/specs/Refusals.antt does not have the numbers 1 to {LAST}")
    pages = page + text(TRACE / "Replay.antt") + text(INTERVAL / "Interval.antt") + text(PAIRS / "Fallback.antt")
    for name, _ in checks:
        if not re.search(rf"^unfoldable pub {name} :", pages, flags=re.M) or not re.search(rf"(?<!= )\b{name}_number\b(?! [:=])", pages):
            sys.exit(f"figures: no page defines the check {name} with its number")
    return [(int(number), constant(name)) for name, number in checks]


def meanings():
    """README's table of refusals."""
    rows = re.findall(r"^\| (\d+) \| ([^|]+) \| [^|]+ \|$", text(ROOT / "README.md"), flags=re.M)
    if [int(number) for number, _ in rows] != list(range(1, LAST + 1)):
        sys.exit(f"figures: README does not have the refusals 1 to {LAST}")
    return {int(number): meaning.strip() for number, meaning in rows}


def sources():
    """The sheets that a round is settled by: number and name."""
    page = text(PAIRS / "Fallback.antt")
    found = re.search(r"^pub data Source : Type 0 where\n((?:  \w+ : Source\n)+)", page, flags=re.M)
    names = re.findall(r"^  (\w+) :", found[1], flags=re.M) if found else []
    if len(names) != 2:
        sys.exit("figures: crates/sheet_pairs/specs/Fallback.antt does not name two sheets")
    return [(number, f"BY_{constant(name)}") for number, name in enumerate(names, 1)]


def shown_part(n, rule):
    """Where the readings of a sheet start, and how many bytes they are."""
    defined(PAIRS / "Fallback.antt", "readings_start c = header_size + entry_count c")
    defined(PAIRS / "Fallback.antt", "readings_length c = 4 * entry_count c")
    return FIGURES["header_size"] + entries(n, rule), 4 * entries(n, rule)


def version():
    return f"{VERSION['major']}.{VERSION['minor']}.{VERSION['patch']}"


def version_number():
    return 65536 * VERSION["major"] + 256 * VERSION["minor"] + VERSION["patch"]


def shared():
    """What C and Rust both have."""
    yield f"MAX_CABINETS {FIGURES['max_cabinets']}"
    yield f"MAX_WINDOW {FIGURES['max_window']}"
    yield f"MAX_SPREAD {FIGURES['max_spread']}"
    yield f"MAX_PRECISION {FIGURES['max_precision']}"
    yield f"MAX_DRIFT {FIGURES['max_drift']}"
    yield f"MAX_ACCURACY {FIGURES['max_accuracy']}"
    yield f"MAX_ROUNDS {FIGURES['max_rounds']}"
    yield f"TICKS_PER_SECOND {FIGURES['ticks_per_second']}"
    yield f"MAX_SHEET {sheet_size(FIGURES['max_cabinets'], FIGURES['cca'])}"
    yield f"MAX_ANSWER {answer_size(FIGURES['max_cabinets'])}"
    yield f"MAX_TRACE {trace_size(FIGURES['max_cabinets'], FIGURES['max_rounds'])}"
    yield f"MAX_VALUES {values_size(FIGURES['max_cabinets'])}"
    for name in ("fca", "cca", "trimmed_midpoint", "trimmed_mean", "average", "median", "midpoint"):
        yield f"{constant(name)} {FIGURES[name]}"
    for number, name in sources():
        yield f"{name} {number}"
    for number, name in refusals():
        yield f"{name} {number}"
    said = meanings()
    for number in range(LAST + 2):
        yield f"refusal {number}: {said.get(number, 'no refusal of this library')}"
    for n in range(0, 256, 7):
        yield f"entries of {n} {entries(n, FIGURES['fca'])} {entries(n, FIGURES['cca'])}"
    # 0, 1 and 10 are accepted: 11/3 rounded down, the second from below, 10/2
    for rule in ("FCA", "CCA"):
        for estimator, wanted in (("AVERAGE", 3), ("MEDIAN", 1), ("MIDPOINT", 5)):
            yield f"estimate of {rule} {estimator} {sheet_size(4, FIGURES[rule.lower()])} {wanted}"
    # 1, 2 and 10 are left: 11/2 to the even neighbour, 13/3 to the nearest
    for rule, wanted in (("trimmed_midpoint", 6), ("trimmed_mean", 4)):
        yield f"new value of {constant(rule)} {sheet_size(5, FIGURES[rule])} {wanted}"
    # every copy of the CCA sheet is 0 and every reading of the FCA sheet 100; then no copy is there
    (by_crusaders, _), (by_direct, _) = sources()
    for number, rule, value in ((by_crusaders, "cca", 0), (by_direct, "fca", 100)):
        start, length = shown_part(4, FIGURES[rule])
        yield f"settled by {number}, {answer_size(4)}, from {start} on {length}, new value {value}"
    yield f"version {version()}"
    yield f"version of the library {version_number()}"


def in_c():
    yield from shared()
    for part in ("major", "minor", "patch"):
        yield f"VERSION_{part.upper()} {VERSION[part]}"
    yield f"VERSION {version_number()}"
    for n in range(0, 256, 7):
        yield f"bytes of {n} {sheet_size(n, FIGURES['fca'])} {sheet_size(n, FIGURES['cca'])} {answer_size(n)}"
    for n in range(0, 256, 7):
        yield f"bytes of a replay of {n} {trace_size(n, 0)} {trace_size(n, FIGURES['max_rounds'])} {values_size(n)}"

    def ticks(bits):
        return bits - 2**32 if bits >= 2**31 else bits

    for number in range(3):
        for place in range(3):
            high, low = number * 2147483647, place * 2147483647
            yield f"taken apart {high} {low}"
            yield f"part of a sheet {high} {low}"
            yield f"ticks {ticks(low)} {ticks(low + 1)}"


def main():
    if sys.argv[1:] == ["c"]:
        print("\n".join(in_c()))
    elif sys.argv[1:] == ["rust"]:
        print("\n".join(shared()))
    elif sys.argv[1:] == ["version"]:
        print(version())
    elif sys.argv[1:] == ["number"]:
        print(version_number())
    elif len(sys.argv) == 3 and sys.argv[1] == "text":
        print(meanings()[int(sys.argv[2])])
    else:
        sys.exit(__doc__)


main()
