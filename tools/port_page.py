#!/usr/bin/env python3
"""Writes the lists at the end of docs/PORT.md, below the line MARK.

    python3 tools/port_page.py FOLDER LOG

FOLDER is a checkout of the last commit that landed before the port, in which the kit's port.py and tools/respell.py have run and nothing
else; LOG is what rt ci said (target/ci.log). Listed are, crate by crate, the definitions and laws that have another name, and the
must-fail edits: each with what refuses it, and those whose text differs from FOLDER's.
"""

import pathlib
import re
import subprocess
import sys

ROOT = pathlib.Path(__file__).resolve().parent.parent
PAGE = ROOT / "docs" / "PORT.md"
MARK = "<!-- lists that tools/port_page.py writes -->"
DECLARED = re.compile(r"^[ \t]*(?:(?:abbrev|unfoldable|pub) )*([^\s(){}\[\].,;:=→λ«»\"]+) :(?=\s|$)|^[ \t]*(?:pub )?(?:record|data) ([^\s(){}\[\].,;:=→λ«»\"]+)", re.M)


def declared(text):
    return [m[1] or m[2] for m in DECLARED.finditer(text)]


def landed(path):
    first = PAGE.read_text(encoding="utf-8").split("\n")[0]
    return subprocess.run(["git", "show", f"{first}:{path}"], cwd=ROOT, capture_output=True, encoding="utf-8", check=True).stdout


def plain(name):
    return re.sub(r"[-_]", "", name).lower().replace("′", "'")


def names(folder):
    """For each crate the names that changed, old and today's, by their order in each file of FOLDER; the dashes and underscores are those of today."""
    found = {}
    for path in sorted([*folder.glob("crates/*/specs/*.antt"), *folder.glob("crates/*/proofs/*.antt"), *folder.glob("crates/*/proofs/Computed/*.antt")]):
        crate, place = path.parts[len(folder.parts) + 1], path.relative_to(folder).as_posix()
        old, new = declared(landed(place)), declared(path.read_text(encoding="utf-8"))
        if len(old) != len(new):
            sys.exit(f"{place}: {len(old)} and {len(new)} names")
        today = {plain(n): n for p in sorted(ROOT.glob(f"crates/{crate}/*/**/*.antt")) if "out" not in p.parts for n in declared(p.read_text(encoding="utf-8"))}
        moved = {plain(n): n for p in sorted(ROOT.glob("crates/*/*/**/*.antt")) if "out" not in p.parts for n in declared(p.read_text(encoding="utf-8"))} \
            if any(plain(n) not in today for n in new) else {}
        for a, b in zip(old, new):
            name = today.get(plain(b)) or moved.get(plain(b)) or "gone"
            if a != name:
                found.setdefault(crate, {})[a] = name
    return found


def edits(folder, log):
    """For each edit the first thing that the prover says of it, and whether its text differs from FOLDER's."""
    said = {}
    for line in log.read_text(encoding="utf-8", errors="replace").splitlines():
        match = re.match(r"(?:\d+ )?rt: must-fail (\S+)/(\S+)\.edit: refused, as it must be(?:: )?(.*)", line)
        if match:
            said[match[1], match[2]] = match[3]
    for edit in sorted(ROOT.glob("crates/*/must-fail/*.edit")):
        crate, name = edit.parent.parent.name, edit.stem
        before = folder / "crates" / crate / "must-fail" / edit.name
        kind = "new with the port" if crate == "console" else "new with request 7" if not before.is_file() else "" if before.read_text(encoding="utf-8") == edit.read_text(encoding="utf-8") else "text mended"
        what = re.sub(r"^(note: )?\S*?((?:src|specs|proofs)/)", r"\2", said.get((crate, name), "not in the log"))
        what = re.sub(r"; the facts known there allow.*|; `search` gave up.*", "", what)
        yield crate, name, kind, what.replace("|", "\\|").replace(str(ROOT), "")[:150]


def main():
    folder, log = pathlib.Path(sys.argv[1]).resolve(), pathlib.Path(sys.argv[2])
    lines = [MARK, "", "## Names, crate by crate", "",
             "By tools/respell.py and the kit's port.py: the older name, and today's. A crate that is not named kept all of its names. `gone` stands in another form, as said above.", ""]
    for crate, changed in sorted(names(folder).items()):
        if changed:
            lines += [f"- {crate}: " + ", ".join(f"`{a}` `{b}`" if b != "gone" else f"`{a}` gone" for a, b in changed.items())]
    lines += ["", "## Must-fail edits", "",
              "Each under its name, with the first thing that the prover says in refusing it. `text mended`: its text differs from what the scripts made of it.", "",
              "| Edit | Text | Refused by |", "|---|---|---|"]
    lines += [f"| {crate}/{name} | {kind or 'spelling alone'} | {what} |" for crate, name, kind, what in edits(folder, log)]
    text = PAGE.read_text(encoding="utf-8")
    PAGE.write_text(text.split(MARK)[0].rstrip() + "\n\n" + "\n".join(lines) + "\n", encoding="utf-8")


main()
