#!/usr/bin/env python3
"""Writes crates/rulebook/proofs/Opening.antt: the rulebook's machine with every definition under it open, so that worked sessions
are computed.

    tools/opening.py            writes the file
    tools/opening.py --check    says whether the file is as the definitions are, however its lines are broken, and changes nothing

Open are all definitions that are `unfoldable` in specs/ of the rulebook and of the crates that crates.txt names for it. What the
file says is no claim, so nobody need read it; a new definition is in it as soon as this was run.
"""
import pathlib
import re
import sys

ROOT = pathlib.Path(__file__).resolve().parent.parent
FILE = ROOT / "crates" / "rulebook" / "proofs" / "Opening.antt"
WIDTH = 130

HEAD = """-- The machine of the rulebook with every definition under it open, so that it runs on given entries by computation. Made by
-- tools/opening.py. What stands here is no claim: the names are listed so that they can be computed with.
-- Assumes nothing.
use mathlib.Core.List.{List}
use mathlib.Core.Option.{Option}
use Rattle.tape_read.specs.Entries.{Entry}
use Rattle.sessions.specs.Machine.{run}
use Rattle.rulebook.specs.Phase.{opens}
use Rattle.rulebook.specs.Session.{rules}
use Rattle.rulebook.specs.Machine.{Machine, at}
"""


def below(crate):
    for line in (ROOT / "crates.txt").read_text().splitlines():
        if line.startswith(crate + ":"):
            return line.split(":")[1].split()
    raise SystemExit(f"{crate} is not in crates.txt")


def opened(crate):
    """(module, name) of each definition of a crate, in a section or not, that can be unfolded to a value."""
    for path in sorted((ROOT / "crates" / crate / "specs").glob("*.antt")):
        for name, kind in re.findall(r"^ *unfoldable pub (\S+) : (.*)$", path.read_text(), re.M):
            if not kind.rstrip().endswith("Type 0"):
                yield path.stem, name


def wrapped(words, lead, again=None):
    """The words after a lead, in lines that begin with it, or from the second on with another."""
    lines, line = [], lead
    for word in words:
        if len(line) + 1 + len(word) > WIDTH and line != lead:
            lines.append(line)
            line = lead if again is None else again
        line += " " + word
    return lines + [line]


def text():
    imports, names = [], []
    for crate in [*below("rulebook"), "rulebook"]:
        modules = {}
        for module, name in opened(crate):
            if (module, name) != ("Machine", "run"):
                modules.setdefault(module, []).append(name)
        for module, found in modules.items():
            where = f"Rattle.{crate}.specs.{module}"
            short = [f"o{len(names) + place}" for place in range(len(found))]
            for lot in wrapped([f"{name} as {alias}," for name, alias in zip(found, short)], f"use {where}.{{"):
                imports.append(lot.replace("{ ", "{").rstrip(",") + "}")
            names += short
    body = ["", "-- the state that a session's entries lead to", "unfoldable pub reached : List Entry → Option Machine"]
    body += wrapped([*names, "run"], "unfolding", "   ")
    return HEAD + "\n".join(imports + body) + "\nreached es = run rules es (at opens)\n"


def said(text):
    """What a file says, however its lines are broken: each name with its module, and all other words."""
    groups = re.findall(r"^use (\S+)\.\{([^}]*)\}$", text, re.M)
    rest = re.sub(r"^use .*$", "", text, flags=re.M)
    return [(module, name.strip()) for module, names in groups for name in names.split(",")], rest.split()


def main():
    new = text()
    if "--check" in sys.argv[1:]:
        same = FILE.exists() and said(FILE.read_text()) == said(new)
        print("Opening.antt is " + ("as the definitions are" if same else "not as the definitions are"))
        return 0 if same else 1
    FILE.write_text(new)
    return 0


if __name__ == "__main__":
    sys.exit(main())
