#!/usr/bin/env python3
"""Says which names in the pages are not defined where the pages say; ends with 1 where there are any.

    tools/claims-check.py              docs/CLAIMS.md, docs/RULEBOOK.md, the other pages, and the comments at the top of proofs
    tools/claims-check.py --selftest   tries what counts as a definition on made-up files

A `File.name` must be defined in that file of specs/ or proofs/: by a signature, as a constructor or as a field, or be passed on there
by `pub use`; a mention is not enough. A `module::function` must be an `fn` of that module, or a method of that type; a crate's own
name stands for its lib.rt. An edit must stand in must-fail/ or in more-edits/. The crate is the one that stands before a name
("`crate`: ..") or after it ("of `crate`", "(`crate`)"); where there is none, one that the row, the column or the heading of the
section names. A bare name that follows a `File.name` in a row of names stands in the same file, unless "of" names a crate for it. In
RULEBOOK a name stands in `rulebook`, or in a crate that its sentence names. In the other pages it stands in some crate, in the one
that "of" names if any; on a landing's page an edit may stand there too, and what has gone since is written without marks. A path must
be there.
"""
import pathlib
import re
import sys

ROOT = pathlib.Path(__file__).resolve().parent.parent
SIGNED = re.compile(r"(?:(?:unfoldable|abbrev|pub|private|opaque)\s+)*(?:(?:record|data)\s+)?([^\s:(){}.]+)\s*(?:[({].*)?:(?:\s|$)")
HOLDS = re.compile(r"(?:pub\s+)?(?:record|data|module)\b")
# Words in the pages that name no definition.
WORDS = {"requires", "ensures", "match", "const", "code", "crates.txt", "omega", "cc", "rw", "ap", "sym", "refl", "search", "unfolding", "unfoldable",
         "abbrev", "where", "let", "ghost", "return", "Invariants.antt", "Answers.antt"}
# Goals of a proof, which the checker names.
WORDS |= {"returns", "returns-then-reader", "lay-requires", "bounds-s-i", "overflow_add-n", "loop-i-init", "loop-i-preserved", "loop-i-smaller"}


def defined(text):
    """The names that a file of specs/ or proofs/ defines: signatures, constructors and fields, at the top or inside a record, a
    data type or a module, and not inside another definition; and those that it passes on by `pub use`."""
    names, around = set(), []
    for line in text.splitlines():
        body = line.strip()
        if not body or body.startswith("--"):
            continue
        passed = re.match(r"(?:unfoldable )?pub use [^{]*\.\{([^}]*)\}$", body)
        if passed:
            names.update(name.split(" as ")[-1].strip() for name in passed.group(1).split(","))
        indent = len(line) - len(line.lstrip())
        while around and around[-1][0] >= indent:
            around.pop()
        holds = bool(HOLDS.match(body))
        if not around or around[-1][1]:
            found = re.match(r"(?:pub\s+)?(?:record|data)\s+(\S+)", body) or SIGNED.match(body)
            names.update([found.group(1)] if found else [])
        around.append((indent, holds))
    return names


class Crate:
    def __init__(self, name):
        home = ROOT / "crates" / name
        self.files, self.functions = {}, {}
        for path in sorted([*home.glob("specs/*.antt"), *home.glob("proofs/*.antt")]):
            self.files.setdefault(path.stem, set()).update(defined(path.read_text()))
        self.types = set()
        for path in sorted(home.glob("src/*.rt")):
            self.read_code(path.stem, path.read_text(), name)
        self.edits = {path.stem for tier in ("must-fail", "more-edits") for path in (home / tier).glob("*.edit")}

    def read_code(self, module, text, name):
        owner = None
        self.types.update(re.findall(r"^\s*(?:pub )?(?:struct|enum) (\w+)", text, re.M))
        for body in re.findall(r"^(?:pub )?enum \w+ \{\n(.*?)^\}", text, re.M | re.S):
            self.types.update(re.findall(r"^    (\w+)", body, re.M))
        for line in text.splitlines():
            impl = re.match(r"impl(?:<[^>]*>)? (\w+)", line)
            owner = impl.group(1) if impl else None if line.startswith("}") else owner
            found = re.match(r'\s*(?:pub )?(?:const )?(?:extern "C" )?fn (\w+)', line)
            if found:
                self.functions.setdefault(owner or module, set()).add(found.group(1))
        if module in ("lib", "main"):
            own = self.functions.get(module, set())
            passed = re.findall(r"^pub use (?:crate::)?\w+::(?:\{([^}]*)\}|(\w+));", text, re.M)
            self.functions[name] = own | {word for pair in passed for word in re.findall(r"\w+", " ".join(pair))}

    def has(self, token, file=None):
        if "::" in token:
            *_, module, name = token.split("::")
            return module in self.functions and (name == "*" or name in self.functions[module])
        found = re.fullmatch(r"(\w+)\.(\S+)", token)
        if found:
            return found.group(2) in self.files.get(found.group(1), set())
        if file:
            return token in self.files.get(file, set())
        named_by = [self.files, self.types, self.functions, *self.files.values(), *self.functions.values()]
        return any(token in names for names in named_by)


LISTED = re.findall(r"^(\w+)[^#:\n]*:", (ROOT / "crates.txt").read_text(), re.M)
CRATES = {name: Crate(name) for name in LISTED}
EDITS = {edit for crate in CRATES.values() for edit in crate.edits}


def has(token, crates, file=None):
    head = token.split("::")[0]
    if "::" in token and head in CRATES and (token.count("::") == 2 or not any(head in CRATES[c].functions for c in crates)):
        return CRATES[head].has(token)
    return any(CRATES[c].has(token, file) for c in crates)


def named(text):
    """The crates that a text names, by name or by path."""
    return [c for c in re.findall(r"`(?:crates/)?(\w+)(?:/[^`]*)?`", text) if c in CRATES]


def tokens(cell):
    """Each name in a cell, with the crates that the cell names for it and the file that a name before it in the same row of names has."""
    parts = [(m.group(1), m.start(), m.end()) for m in re.finditer(r"`([^`]+)`", cell)]
    before, group, run, file, last = None, [], [], None, 0

    def told(crates, some):
        return [(token, crates, of) for token, of in some]

    for index, (token, start, end) in enumerate(parts):
        between = cell[last:start]
        last = end
        if token in CRATES:
            file = None
            if cell[end:end + 1] == ":":
                yield from told([before] if before else None, group)
                before, group = token, []
            elif between.endswith("(") or between.endswith(" of "):
                crates = [token]
                for at, (other, begins, _) in enumerate(parts[index + 1:], index + 1):
                    if other not in CRATES or cell[parts[at - 1][2]:begins] not in (", ", " and "):
                        break
                    crates.append(other)
                mine = run if between.endswith(" of ") else group
                yield from told(crates, [(t, None) for t, _ in mine] if mine is run else mine)
                group = group[:len(group) - len(mine)]
            run = []
            continue
        joined = re.fullmatch(r", | and |, and ", between) is not None
        file = file if joined else None
        group.append((token, file if re.fullmatch(r"[a-z][^\s.:]*", token) and token not in EDITS else None))
        run = (run if joined and not re.fullmatch(r"[A-Z]\w*\.\S+", run[-1][0] if run else "") else []) + group[-1:]
        found = re.fullmatch(r"([A-Z]\w*)\.\S+", token)
        file = found.group(1) if found else file if re.fullmatch(r"[a-z]\S*", token) and "::" not in token else None
    yield from told([before] if before else None, group)


def is_no_name(token):
    if re.fullmatch(r"[A-Z]+\.md", token):
        return (ROOT / "docs" / token).exists()
    # what a clause or a proof says of a variable, as `s.now` and `c.args.s`: a file's name begins with a capital
    if re.fullmatch(r"[a-z]*\.[^\s()]+", token):
        return True
    return bool(re.search(r"[\s/&\[='<>]", token)) or token.startswith(("--", "..")) or token.upper() == token or token in WORDS


def units(text):
    """Each cell of a table and each paragraph of a page: its line, the cell, and the crates that stand around it."""
    heading, columns, lines = [], [], text.splitlines()
    at = 0
    while at < len(lines):
        line = lines[at]
        if line.startswith("#"):
            heading = named(line)
        elif line.startswith("|") and not re.fullmatch(r"[|\-\s]+", line):
            cells = line.strip("| ").split(" | ")
            if at + 1 < len(lines) and re.fullmatch(r"[|\-\s]+", lines[at + 1]):
                columns = [named(cell) for cell in cells]
            else:
                for column, cell in enumerate(cells):
                    yield at + 1, cell, named(line) + (columns[column] if column < len(columns) else []) + heading
        elif line and not line.startswith("|"):
            start = at
            while at + 1 < len(lines) and lines[at + 1] and not re.match(r"[|#]|- |\d+\. ", lines[at + 1]):
                at += 1
            paragraph = " ".join(part.strip() for part in lines[start:at + 1])
            yield start + 1, paragraph, named(paragraph) + heading
        at += 1


def claims():
    for number, cell, around in units((ROOT / "docs" / "CLAIMS.md").read_text()):
        for token, crates, file in tokens(cell):
            if is_no_name(token):
                continue
            place = crates or around
            if token in EDITS:
                right = all(token in CRATES[c].edits for c in crates) if crates else any(token in CRATES[c].edits for c in place)
            else:
                right = has(token, place, file)
            if not right:
                within = (f"{file} of " if file else "") + (", ".join(dict.fromkeys(place)) or "any crate named")
                yield f"docs/CLAIMS.md {number}: {token} is not in {within}", token


def rulebook():
    text = (ROOT / "docs" / "RULEBOOK.md").read_text()
    variables = {word for token in re.findall(r"`([^`]+)`", text) for word in token.split()[1:]}
    for number, unit, _ in units(text):
        for sentence in re.split(r"(?<=[.;]) ", unit):
            for token in re.findall(r"`([^`]+)`", sentence):
                words = token.split()
                if token in CRATES or token in variables or is_no_name(words[0]):
                    continue
                if not all(re.fullmatch(r"[a-z]\w*'?", word) for word in words[1:]):
                    continue
                if not has(words[0], ["rulebook"] + named(sentence)):
                    yield f"docs/RULEBOOK.md {number}: {words[0]} is not in {', '.join(['rulebook'] + named(sentence))}", words[0]


def other_pages():
    for name in ("ARCHITECTURE", "DECISIONS", "EXCEPTIONS", "GATE", "PROVING", "SPEED", "TRUST"):
        for number, unit, _ in units((ROOT / "docs" / f"{name}.md").read_text()):
            for token, crates, _ in tokens(unit):
                if not is_no_name(token) and not has(re.sub(r"\.antt$", "", token), crates or LISTED):
                    yield f"docs/{name}.md {number}: {token} is not in {', '.join(crates or ['any crate'])}", token


def landings():
    """A landing's page says what moved then: what has gone since stands there without marks, and every name with marks is somewhere."""
    for page in sorted((ROOT / "docs" / "landings").glob("*.md")):
        for number, unit, _ in units(page.read_text()):
            for token, _, _ in tokens(unit):
                token = re.sub(r"\.antt$", "", token)
                if not is_no_name(token) and token not in EDITS and not has(token, LISTED):
                    yield f"docs/landings/{page.name} {number}: {token} is in no crate", token


def proofs():
    for crate in CRATES:
        for path in sorted((ROOT / "crates" / crate / "proofs").glob("**/*.antt")):
            for number, line in enumerate(path.read_text().splitlines(), 1):
                if not line.startswith("--"):
                    break
                for token in re.findall(r"(?<![\w·])\w+(?:::\w+)+", line):
                    if not has(token, [crate]):
                        yield f"{path.relative_to(ROOT)} {number}: {token} is not in {crate}", token


def paths():
    for page in [ROOT / "README.md", *sorted((ROOT / "docs").glob("**/*.md"))]:
        for number, line in enumerate(page.read_text().splitlines(), 1):
            for token in re.findall(r"`((?:crates|docs|tools|samples|reference|bin)/[\w./-]*)", line):
                if not (ROOT / token).exists():
                    yield f"{page.relative_to(ROOT)} {number}: there is no {token}", token


def selftest():
    text = ("use a.B.{mentioned}\npub use a.C.{passed, renamed as on}\n"
            "-- commented : no\nunfoldable pub shown : A\nshown = local\n  where\n  local : A\n  local = mentioned\n"
            "pub data Kind : Type 0 where\n  built : Kind\npub record Facts : Type 0 where\n  pub field : shown ≡ mentioned\n"
            "module _ (x : A) where\n  pub law : x ≡ shown\n  law = other : A\npub taking (n : A) : B\n")
    expected = {"passed", "on", "shown", "Kind", "built", "Facts", "field", "law", "taking"}
    cells = [("`File.one`, `two`; `three`", [("File.one", None), ("two", "File"), ("three", None)]),
             ("`a::b`, `c`", [("a::b", None), ("c", None)]),
             ("`File.one`, over `two`, `three` of `slices`", [("two", None), ("three", None), ("File.one", None)]),
             ("`File.one`, `two` of `slices`", [("two", None), ("File.one", None)])]
    bad = [f"defined: {sorted(defined(text) ^ expected)}"] if defined(text) != expected else []
    bad += [cell for cell, wanted in cells if [(token, file) for token, _, file in tokens(cell)] != wanted]
    print("\n".join(bad + [f"{1 + len(cells)} tried, {len(bad)} wrong"]))
    return 1 if bad else 0


def main():
    if "--selftest" in sys.argv[1:]:
        return selftest()
    wrong = [*claims(), *rulebook(), *other_pages(), *landings(), *proofs(), *paths()]
    for line, token in wrong:
        where = [name for name, crate in CRATES.items() if token in crate.edits or crate.has(token.split(".")[-1].split("::")[-1])]
        print(f"{line} (the name is in {', '.join(where[:6]) or 'no crate'})")
    print(f"{len(wrong)} names are not where the pages say")
    return 1 if wrong else 0


if __name__ == "__main__":
    sys.exit(main())
