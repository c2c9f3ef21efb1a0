#!/usr/bin/env python3
"""Carries the findings of tests/edits.txt over the design pass: each row of the commit before it gets the sum that its changes have today.

    tools/edits_carried.py              writes tests/edits.txt, and says which rows were found for no change of today, and which changes have none;
                                        what tests/edits_differ found since stays
    tools/edits_carried.py texts        prints too each change whose text is another one than then

The findings were made by tests/edits_differ, which built programs with the changes. A change of today is known to be the one that was tried by its edit and
its remark, whatever function it stands in; where its crate has that remark no longer, by an edit of the same name in another crate. Where the text that was
tried is another one than today's, what a program told gets the word 'then', and tests/edits_differ then tries it anew: 'texts' shows a reader what changed.
Where one function of today has changes of which each was tried by itself and told, the finding is that of the first of them. That of changes that were tried
together, and stand in several functions today, is of none of them.
This was written for the port to today's Rattle, and carried the findings of the older one; as it did that it stands in the commit that BEFORE names.
"""

import collections
import difflib
import io
import pathlib
import subprocess
import sys
import tarfile
import tempfile

ROOT = pathlib.Path(__file__).resolve().parent.parent
sys.path.insert(0, str(ROOT / "tests"))

import edit_parts  # noqa: E402

LIST = ROOT / "tests" / "edits.txt"
# the last commit before the design pass
BEFORE = "47078fbf"
TOLD = ("differs", "undefined")

# a wrong function or definition of an edit: all its changes, and the remarks of those that are its own
Wrong = collections.namedtuple("Wrong", "changes remarks")


def remarked(edit):
    """Each change of an edit, with its remark."""
    remarks = [line.removeprefix("#").strip() for line in edit.read_text(encoding="utf-8").split("\n") if line.startswith("#")]
    return [(change, remark) for remark, own in zip(remarks, edit_parts.changes_below(edit)) for change in own]


def wrongs_of(root):
    """The wrong functions and definitions of a tree's edits, by edit and name."""
    found = {}
    for edit in sorted(root.glob("crates/*/must-fail/*.edit")):
        code, all_of_it = edit_parts.sources(edit.parent.parent), remarked(edit)
        for name, changes in edit_parts.wrongs(edit).items():
            own = [c for c in changes if name.startswith("-") or edit_parts.item_at(c, code) is not None]
            remarks = frozenset(remark for change, remark in all_of_it if change in own)
            found[f"{edit.parent.parent.name}/{edit.stem}", name] = Wrong(changes, remarks)
    return found


def before():
    """The findings of the commit before, and the wrong functions and definitions of its edits."""
    packed = subprocess.run(["git", "archive", BEFORE, "crates", "tests/edits.txt"], cwd=ROOT, capture_output=True, check=True).stdout
    with tempfile.TemporaryDirectory() as room, tarfile.open(fileobj=io.BytesIO(packed)) as archive:
        archive.extractall(room, filter="data")
        rows, wrongs = edit_parts.evidence(pathlib.Path(room) / "tests" / "edits.txt"), wrongs_of(pathlib.Path(room))
    for one, (total, _) in rows.items():
        if one not in wrongs or edit_parts.total(wrongs[one].changes) != total:
            sys.exit(f"{BEFORE}: the row {' '.join(one)} is not of the edit that stands there")
    return {one: verdict for one, (_, verdict) in rows.items()}, wrongs


def sources_of(one, wrong, then, today):
    """Those of then whose remarks are of this one: of its edit, and else of edits of the same name."""
    named = [old for old in then if old[0].partition("/")[2] == one[0].partition("/")[2] and then[old].remarks & wrong.remarks]
    # a remark that an edit of then's crate has still is of that
    kept = {(new[0], remark) for new in today for remark in today[new].remarks}
    return [old for old in named if old[0] == one[0]] or [old for old in named if not any((old[0], r) in kept for r in then[old].remarks & wrong.remarks)]


def spelled(changes):
    return [word for c in changes for word in (c.file, c.old, c.new)]


def main():
    shows = sys.argv[1:] == ["texts"]
    today, (rows, then), since = wrongs_of(ROOT), before(), edit_parts.evidence(LIST)
    found, silent, joined, other, used = {}, [], [], [], set()
    for one, wrong in today.items():
        total, olds = edit_parts.total(wrong.changes), sources_of(one, wrong, then, today)
        used |= set(olds)
        if since.get(one, ("",))[0] == total:
            found[one] = since[one]
            continue
        whole = [old for old in olds if then[old].remarks <= wrong.remarks and old in rows]
        verdicts = [rows[old] for old in whole]
        if not verdicts or frozenset().union(*(then[old].remarks for old in whole)) != wrong.remarks:
            silent.append(f"{' '.join(one)}: nothing was found of it")
            continue
        verdict = next((v for v in verdicts if v.split()[0] in TOLD), verdicts[0])
        if len(whole) > 1:
            joined.append(f"{' '.join(one)}: {verdict}, of {', '.join(f'{old[1]} ({rows[old]})' for old in whole)}")
        elsewhere = len(whole) > 1 or spelled(wrong.changes) != spelled(then[whole[0]].changes)
        if elsewhere:
            other.append((one, [c for old in whole for c in then[old].changes], wrong.changes))
        if elsewhere and verdict.split()[0] in TOLD:
            verdict += " then"
        found[one] = total, verdict
    for (edit, name), (_, verdict) in found.items():
        code, kind = edit_parts.sources(ROOT / "crates" / edit.partition("/")[0]), verdict.split()[0]
        is_code = any(edit_parts.changes_code(c, code) for c in today[edit, name].changes)
        if (kind == "definition") != name.startswith("-") or kind == "promise" and is_code or kind not in ("promise", "definition") and not is_code:
            silent.append(f"{edit} {name}: '{verdict}' was found of another kind of change")
    head = "".join(line for line in LIST.read_text(encoding="utf-8").splitlines(True) if line.startswith("#"))
    LIST.write_text(head + "".join(f"{e} {n} {total} {verdict}\n" for (e, n), (total, verdict) in sorted(found.items())), encoding="utf-8")
    for one, was, now in other if shows else ():
        print(f"== {' '.join(one)}: {found[one][1]}")
        print("\n".join(line for line in difflib.ndiff(spelled(was), spelled(now)) if not line.startswith("?")))
    lost = [f"{BEFORE}: {' '.join(old)}: nothing of today is that change" for old in sorted(rows.keys() - used)]
    for line in lost + joined + silent:
        print(line)
    print(f"{len(found)} findings, {len(other)} carried from changes whose text is another one than then, {len(joined)} of them from several; "
          f"{len(lost)} rows lost, {len(silent)} changes with no finding of their kind")
    return 1 if lost or silent else 0


if __name__ == "__main__":
    sys.exit(main())
