#!/usr/bin/env python3
"""Changes each number of README.md, docs/ANSWER.md and section 16 of docs/FORMAT.md in turn, and sees that
tests/check_answer finds it; and each of docs/INTERVAL.md and of section 15, and that tests/check_interval does. For
tests/sabotage.sh.

A figure gets a further digit behind it, before it, and another last digit; a number word becomes another. What the test runs (the library, `bash run`)
is run once: the pages alone change.
"""

import functools
import importlib.machinery
import importlib.util
import pathlib
import subprocess
import sys

TOP = pathlib.Path(__file__).resolve().parent.parent


def loaded(name):
    loader = importlib.machinery.SourceFileLoader(name, str(TOP / "tests" / name))
    module = importlib.util.module_from_spec(importlib.util.spec_from_loader(name, loader))
    loader.exec_module(module)
    return module


test, interval = loaded("check_answer"), loaded("check_interval")
plain_read, plain_run = test.read, subprocess.run
kept = {}


def run_once(words, **how):
    key = str(words) if "example" not in str(words) or "bash" in str(words) else None
    if key is None or "-c" in words:
        return plain_run(words, **how)
    if key not in kept:
        kept[key] = plain_run(words, **how)
    return kept[key]


test.subprocess.run = run_once
test.run_c = functools.lru_cache(maxsize=None)(test.run_c)
test.read = functools.lru_cache(maxsize=None)(plain_read)


def found(module, path, tables, page, text):
    """What the test finds where the page has this text."""
    module.read = lambda *names: text if names == path else plain_read(*names)
    module.faults.clear()
    try:
        if tables and module.with_tables(text, tables) != text:
            module.faults.append("a table")
        page().left()
    except Exception as error:  # a changed example may not even run
        module.faults.append(f"it fails: {error}")
    return set(module.faults)


def others(number):
    if number[0].isdigit():
        yield number + "3"
        yield "3" + number
        yield number[:-1] + ("4" if number[-1] != "4" else "5")
    else:
        yield "nine" if number.lower() != "nine" else "four"


missed = tried = 0
for module, path, tables, page, start in (
        (test, ("docs", "ANSWER.md"), test.TABLES, test.answer_page, ""),
        (test, ("README.md",), None, test.readme, ""),
        (test, ("docs", "FORMAT.md"), None, test.pair_section, "## 16. "),
        (interval.answer, ("docs", "INTERVAL.md"), interval.TABLES, interval.interval_page, ""),
        (interval.answer, ("docs", "FORMAT.md"), None, interval.format_section, "## 15. ")):
    text = plain_read(*path)
    before = found(module, path, tables, page, text)
    if before:
        print(f"{'/'.join(path)}: {len(before)} faults before any change")
    begin, end = (text.index(start), text.find("\n## ", text.index(start))) if start else (0, -1)
    for match in test.NUMBER.finditer(text, begin, end if end >= 0 else len(text)):
        for other in others(match.group()):
            tried += 1
            if found(module, path, tables, page, text[:match.start()] + other + text[match.end():]) <= before:  # nothing new
                missed += 1
                line = text.count("\n", 0, match.start()) + 1
                print(f"{'/'.join(path)}:{line}: {match.group()} changed to {other} is not found")
print(f"numbers: {tried} changes, {missed} not found")
sys.exit(1 if missed or not tried else 0)
