"""The functions of a crate's code, and which of them a must-fail edit changes; for the tests of the edits."""

import collections
import hashlib
import re

# its attributes stand before it, as `#[unsafe(no_mangle)]` and `#[tactic(auto, using(..))]`
HEAD = re.compile(r'(?m)^ *(?:#\[[^\[\]]*\]\n *)*(?P<public>pub )?(?:extern "C" )?(?P<kind>fn|const) (?P<name>\w+)')

# a function or a constant of a file, from its head to the next one's
Item = collections.namedtuple("Item", "name kind is_public promises start end text")

# a replacement: in which file, what, by what
Change = collections.namedtuple("Change", "file old new")


def items(code):
    heads = list(HEAD.finditer(code))
    for head, following in zip(heads, heads[1:] + [None]):
        end = following.start() if following else len(code)
        text = code[head.start():end]
        signature = re.split(r"\n *\{\n", text, maxsplit=1)[0]
        is_public = bool(head["public"]) and head["kind"] == "fn"
        yield Item(head["name"], head["kind"], is_public, "ensures" in signature, head.start(), end, text)


def sources(crate):
    """The code of each file of a crate, by its name from the crate's folder on."""
    return {f"src/{path.name}": path.read_text(encoding="utf-8") for path in sorted((crate / "src").glob("*.rt"))}


def changes(edit):
    """The replacements of an edit, in its order."""
    file, old = None, None
    for line in edit.read_text(encoding="utf-8").split("\n"):
        if line.startswith("file: "):
            file = line[6:]
        elif line.startswith("old: "):
            old = line[5:]
        elif line.startswith("new:"):
            yield Change(file, old, line[4:].removeprefix(" "))


def item_at(change, code):
    """The function or constant that a replacement stands in, if it stands in one."""
    at = code.get(change.file, "").find(change.old)
    return next((item for item in items(code.get(change.file, "")) if at >= 0 and item.start <= at < item.end), None)


def parts(edit):
    """The replacements of an edit by the function or constant that they stand in; under None those of definitions, proofs and imports."""
    code = sources(edit.parent.parent)
    found = {}
    for change in changes(edit):
        item = item_at(change, code)
        found.setdefault(item and item.name, []).append(change)
    return found


def changes_code(change, code):
    """Whether a replacement changes code, and not only what is promised of it or imported."""
    item = item_at(change, code)
    if item is None or not item.promises:
        return item is not None
    body = item.start + re.search(r"\n *\{\n", item.text).start()
    return code[change.file].find(change.old) > body


def wrongs(edit):
    """What is wrong in an edit, with its changes: by the name of each function or constant that it changes. Of an edit of definitions alone each remark
    is one wrong definition, '-1', '-2' and so on; '-' where there is only one."""
    found = parts(edit)
    common = found.pop(None, [])
    if found:
        return {name: common + own for name, own in found.items()}
    below = [own for own in changes_below(edit) if own]
    return {f"-{i + 1}": own for i, own in enumerate(below)} if len(below) > 1 else {"-": common}


def total(changes):
    """The sum of some changes, by which tests/edits.txt knows them."""
    lines, file = [], None
    for change in changes:
        lines += [f"file: {change.file}"] if change.file != file else []
        lines += [f"old: {change.old}", f"new: {change.new}"]
        file = change.file
    return hashlib.sha256("\n".join(lines).encode()).hexdigest()[:16]


def evidence(page):
    """The lines of tests/edits.txt: what was found of each edit and function, with the sum of the changes that were tried."""
    rows = [line.split(" ", 3) for line in page.read_text(encoding="utf-8").splitlines() if line and not line.startswith("#")] if page.is_file() else []
    return {(edit, name): (tried, found) for edit, name, tried, found in rows}


def changes_below(edit):
    """The replacements below each remark of an edit."""
    found, left = [], changes(edit)
    for line in edit.read_text(encoding="utf-8").split("\n"):
        if line.startswith("#"):
            found.append([])
        elif line.startswith("new:"):
            found[-1].append(next(left))
    return found


# what rt ci and rt must-fail print of an edit; `test` puts the seconds before it
TRIED = re.compile(r"^(?:\d+ )?rt: must-fail (\S+)/(\S+)\.edit: (.*)$", re.M)
# the word that is said first of an edit that is refused because of a fact, and where and what that fact is
REASON = re.compile(r"refused, as it must be: (?:note: )?(?:\./)?(\S+?):(\d+):\d+: (.*)")
OUT_OF_DATE = re.compile(
    r"is not in scope|that can be named from here|has no field|does not parse|error\[|no `mod` line names this file|is not a constructor of|"
    r"is not a function or extension|too many arguments|has no definition|is already declared|was not admitted"
)


def said(log):
    """What rt says of each edit, by crate/label."""
    return {f"{crate}/{label}": what for crate, label, what in TRIED.findall(log)}


def functions_at(place, line, code):
    """The functions that a proof file, or a line of code, is of; none for a lemma's file."""
    if place in code:
        starts = [(code[place].count("\n", 0, item.start) + 1, item.name) for item in items(code[place])]
        return {max(one for one in starts if one[0] <= line)[1]} if any(at <= line for at, _ in starts) else set()
    return {part.removeprefix("+") for part in place.split("/")[1:-1]}


def touched(changes, code):
    """The functions that may be refused where these changes are made: those that are changed; of a constant, those that name it; of a promise, those
    that call the function too. None where a definition is changed: then it may be any."""
    every = {item.name: item for text in code.values() for item in items(text)}
    found = set()
    for change in changes:
        item = item_at(change, code)
        if item is None:
            if not change.old.lstrip().startswith(("ghost use ", "use ")):
                return None
            continue
        found.add(item.name)
        if item.kind == "const" or not changes_code(change, code):
            found |= {other.name for other in every.values() if re.search(rf"\b{item.name}\b", other.text)}
    return found


def fault(what, changes, code):
    """What is wrong with that rt says this of some changes, if anything is: they must be refused because a fact is not proved that is one of theirs."""
    told = REASON.match(what)
    if told is None:
        return what[:300] if what != "refused, as it must be" else "no fact is named"
    place, line, why = told[1], int(told[2]), told[3]
    if not re.match(r"it is not proved that |error: `[^`]+`: " if place.startswith("proofs/") else "it is not proved that ", why):
        return f"what is edited is not well-formed: {place}: {why}"
    if OUT_OF_DATE.search(why):
        return f"{place}: {why}"
    own, refused = touched(changes, code), functions_at(place, line, code)
    if own is not None and refused and not own & refused:
        return f"it changes {', '.join(sorted(own))}, and {', '.join(sorted(refused))} is refused: {why}"
    return None


def remarks(edit):
    """What an edit stands for: each remark with the functions, constants and files of definitions that are changed below it."""
    code = sources(edit.parent.parent)
    found, left = [], changes(edit)
    for line in edit.read_text(encoding="utf-8").split("\n"):
        if line.startswith("#"):
            found.append((line.removeprefix("#").strip(), []))
        elif line.startswith("new:"):
            change = next(left)
            item = item_at(change, code)
            name = item.name if item else change.file.partition(".")[0]
            if found and name not in found[-1][1]:
                found[-1][1].append(name)
    return found
