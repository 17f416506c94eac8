#!/usr/bin/env python3
"""Writes the tables of docs/ARCHITECTURE.md that say what stands where: the crates, and the modules of the lab's front.

    tools/page-tables.py              writes the tables, each between its two marks in the page
    tools/page-tables.py --check      says whether they are as the sources are, and changes nothing
    tools/page-tables.py --selftest   tries what counts as a first sentence on made-up sources

A row is the first sentence of the comment at the top of the source: of a crate src/lib.rt or src/main.rt, and specs/Lib.antt where it has
no code; of a module its docstring. The level is that of crates.txt. A crate or module that says nothing is printed, and the exit status is
1; so it is where a mark is missing.
"""
import ast
import pathlib
import re
import sys

ROOT = pathlib.Path(__file__).resolve().parent.parent
PAGE = ROOT / "docs" / "ARCHITECTURE.md"
SENTENCE = re.compile(r"(.*?)\.(?= [A-Z0-9`\"'(]|$)")
AND_SEE = re.compile(r": (?:laws only, )?see proofs/$")


def comment(text, mark):
    """The first paragraph of the comment that a source begins with."""
    lines = []
    for line in text.splitlines():
        if not line.startswith(mark) or line.strip() == mark:
            break
        lines.append(line[len(mark):].strip())
    return " ".join(lines)


def sentence(words):
    """The first sentence, without its full stop, a colon before a list that would follow, and the word where to look for proofs."""
    words = " ".join(words.split())
    found = SENTENCE.match(words)
    return AND_SEE.sub("", found.group(1) if found else words).rstrip(":").replace("|", "\\|")


def has_code(text):
    return any(line.strip() and not line.startswith(("//", "#!")) for line in text.splitlines())


def crate_row(name, level):
    """A crate with its level, what kind of crate it is, and its first sentence."""
    home = ROOT / "crates" / name
    program = home / "src" / "main.rt"
    if program.exists():
        return name, level, "program", sentence(comment(program.read_text(), "//"))
    code, specs = (home / "src" / "lib.rt").read_text(), home / "specs" / "Lib.antt"
    if has_code(code):
        return name, level, "code", sentence(comment(code, "//"))
    said = comment(specs.read_text(), "--") if specs.exists() else ""
    return name, level, "no code", sentence(said or comment(code, "//"))


def crates():
    """Each crate of crates.txt, by name."""
    rows, level = [], ""
    for line in (ROOT / "crates.txt").read_text().splitlines():
        found = re.match(r"# level (\d+)$", line)
        level = found.group(1) if found else level
        if ":" in line and not line.startswith("#"):
            rows.append(crate_row(line.split(":")[0].split()[0], level))
    return [(f"`{name}`", *rest) for name, *rest in sorted(rows)]


def module_row(path):
    name = str(path.relative_to(ROOT))
    return f"`{name.replace('__init__.py', '')}`", sentence(ast.get_docstring(ast.parse(path.read_text())) or "")


def modules(folder):
    """The modules of a folder, and the folders in it."""
    own = [path for path in (ROOT / folder).glob("*.py") if path.stem != "__init__"]
    return [module_row(path) for path in sorted([*own, *(ROOT / folder).glob("*/__init__.py")])]


TABLES = {
    "crates": (("Crate", "Level", "", "What stands there"), crates),
    "front": (("Module", "What stands there"), lambda: modules("lab")),
    "explaining": (("Module", "What stands there"), lambda: modules("lab/explaining")),
}


def table(head, rows):
    return "".join(f"| {' | '.join(row)} |\n" for row in (head, ["---"] * len(head), *rows)).replace("|  |", "| |")


def page(text):
    """The page with its tables as the sources are, and what is wrong."""
    wrong = []
    for name, (head, rows_of) in TABLES.items():
        rows = rows_of()
        wrong += [f"{row[0]}: says nothing at its top" for row in rows if not row[-1]]
        marks = rf"(<!-- {name}: made by tools/page-tables\.py -->\n).*?(<!-- end of {name} -->\n)"
        made = f"\n{table(head, rows)}\n"
        text, count = re.subn(marks, lambda found: found.group(1) + made + found.group(2), text, flags=re.S)
        if count != 1:
            wrong.append(f"{name}: its marks stand {count} times in the page")
    return text, wrong


# Comments, and the sentence that must be found in each.
MADE_UP = [
    ("// The verdict of a tape. It is one line.\nuse a::b;\n", "The verdict of a tape"),
    ("// CRC-32 (IEEE 802.3), four bytes at a time.\n", "CRC-32 (IEEE 802.3), four bytes at a time"),
    ("// Blocks (000, I-5.2.4.1): what one says, and how it is\n// written. More.\n", "Blocks (000, I-5.2.4.1): what one says, and how it is "
                                                                                      "written"),
    ("// Lists, one to a line:\n//\n//     START a | b\n", "Lists, one to a line"),
    ("// That all is stored: laws only, see proofs/.\n", "That all is stored"),
    ("// This or that: a|b.\n", "This or that: a\\|b"),
    ("use a::b;\n// Too late.\n", ""),
]


def selftest():
    bad = [text for text, expected in MADE_UP if sentence(comment(text, "//")) != expected]
    bad += [text for text, expected in (("// a\n#![tactic(auto)]\n\n// b\n", False), ("// a\nmod b;\n", True)) if has_code(text) != expected]
    for text in bad:
        print(f"read wrongly:\n{text}")
    print(f"{len(MADE_UP) + 2} tried, {len(bad)} wrong")
    return 1 if bad else 0


def main():
    if "--selftest" in sys.argv[1:]:
        return selftest()
    old = PAGE.read_text()
    text, wrong = page(old)
    for line in wrong:
        print(line)
    if "--check" in sys.argv[1:]:
        print("the tables of docs/ARCHITECTURE.md are " + ("as the sources are" if text == old else "not as the sources are"))
        return 1 if wrong or text != old else 0
    PAGE.write_text(text)
    return 1 if wrong else 0


if __name__ == "__main__":
    sys.exit(main())
