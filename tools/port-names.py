#!/usr/bin/env python3
"""Brings the repository's own definitions and lemmas to today's spelling: words in snake case, ′ as '.

usage: tools/port-names.py      at the top of the repository, once, right after the kit's port.py

Which names: what crates/*/specs and crates/*/proofs define (signatures, fields, constructors) and what their proofs bind by `let`. Types,
modules and names that begin with a type's (Member-at) keep their spelling; so does a name that a file has from a library. A name whose new
spelling stands in a file beside it already, or of which two would fall together there, is said and gets `_lem` behind it.
"""
import collections
import os
import re
import sys

TOKEN = re.compile(r"(?<![\w'′-])[^\W\d][\w'′]*(?:-[\w'′]+)*", re.UNICODE)
SIGNATURE = re.compile(r"^\s*(?:(?:pub|abbrev|unfoldable)\s+)*((?:record|data)\s+)?([^\s:(){}λ.,]+)\s*(?:[({][^=]*[)}]\s*)*:\s")
LET = re.compile(r"\blet ([^\s:(){}λ.,=]+)(?= =| :)")
ALIAS = re.compile(r" as ([^\s:(){}λ.,=;]+)(?=[,};\s])")
OWN = re.compile(r"^\s*(?:ghost )?(?:pub )?use (Rattle\.[\w.]+?)\.\{([^}]*)\}|^\s*(?:ghost )?(?:pub )?use ([\w.]+)\.\{([^}]*)\}")
LEMMAS = set("by_value entries_by goes_on is_one on_line one_more passed_over two_digits written_out".split())  # names that port.py had spelled already and that would fall together with a definition
KEPT = {"let", "in", "where", "use", "mod", "module"}


def files(kinds):
    for folder, dirs, names in sorted(os.walk("crates")):
        dirs[:] = sorted(d for d in dirs if d != "out")
        for name in sorted(names):
            if name.endswith(kinds):
                yield os.path.join(folder, name)


def crates():
    return set(os.listdir("crates"))


def spelled(name):
    """The new spelling of a name, or the name."""
    if re.match(r"[A-Z][a-z]", name) or re.match(r"^[A-Z]$", name):
        return name
    new = name.replace("′", "'")
    new = "_".join(new.split("-"))
    if new[0].islower() or new[0] in "_":
        new = re.sub(r"(?<=[a-z0-9₀-₉'])([A-Z])", lambda m: "_" + m.group(1).lower(), new)
    return new


def defined():
    found = set()
    for path in files((".antt", ".rt")):
        for line in open(path, encoding="utf-8"):
            if line.lstrip().startswith(("--", "//")):
                continue
            if re.match(r"\s*(ghost )?(pub )?use Rattle", line):
                found.update(ALIAS.findall(line))
            if path.endswith(".rt"):
                continue
            m = SIGNATURE.match(line)
            if m and "=" not in line.split(":")[0] and m.group(2) not in KEPT and not m.group(1):
                found.add(m.group(2))
            found.update(LET.findall(line))
    return {n for n in found if TOKEN.fullmatch(n)}


def camel(name):
    return "-" not in name and name[0].islower() and re.search("[A-Z]", name)


def renamed(names):
    """Old name to new. Of names that would fall together the definition (camel case) gets the plain spelling, a lemma `_lem` behind it."""
    both = collections.defaultdict(list)
    for name in names:
        both[spelled(name)].append(name)
    new = {}
    for word, olds in both.items():
        if any(camel(n) for n in olds):
            olds = [n for n in olds if n != word or n in LEMMAS]
        olds.sort(key=lambda n: (not camel(n), "-" in n, n))
        for i, old in enumerate(olds):
            new[old] = word if i == 0 else word + "_lem" if i == 1 else f"{word}_lem{i}"
        if len(olds) > 1:
            print("together:", {o: new[o] for o in olds})
    return {o: n for o, n in new.items() if o != n}


def from_libraries(text, own):
    """Names that a file has from elsewhere than this repository."""
    names = set()
    for m in re.finditer(r"use ([\w.·']+)\.\{([^}]*)\}", text):
        head = m.group(1).split(".")
        if head[0] == "Rattle" and len(head) > 1 and head[1] in own:
            continue
        for part in m.group(2).split(","):
            names.add(part.split(" as ")[0].strip())
    return names


def turned(path, text, said):
    fixed = from_libraries(text, crates()) if path.endswith((".rt", ".antt")) else set()
    present = set(TOKEN.findall(text))
    wanted = {n: NEW[n] for n in present if n in NEW and n not in fixed and not (n in LEMMAS and not path.endswith('.antt'))}

    def word(m):
        name = m.group(0)
        if name in LEMMAS and not re.search(rf"(?m)^\s*(pub )?{name} .*:|use Rattle.*[{{ ]{name}[,}}]", text):
            return name
        if name in wanted and m.start() and m.string[m.start() - 1] == ".":
            return spelled(name)
        return wanted.get(name, name)

    if path.endswith((".rt", ".antt")):
        bare = set(TOKEN.findall(re.sub(r"\.[\w'-]+", "", re.sub(r"(?m)(--|//).*$|Rattle[.·][\w.·]+|ghost use[^;]*;", "", text))))
        for n, new in sorted(wanted.items()):
            if path.endswith(".rt"):
                if re.search(rf"\b{re.escape(new)}:", text):
                    said[new].add(f"{path}: {n}")
            elif new in bare and new not in wanted:
                said[new].add(f"{path}: {n}")
    if path.endswith(".rt"):
        return "".join(p if p.startswith('"') else TOKEN.sub(word, p) for p in re.split(r'("(?:[^"\\]|\\.)*")', text))
    return TOKEN.sub(word, text)


def main():
    global NEW
    NEW = renamed(defined())
    dry = "--dry" in sys.argv
    said = collections.defaultdict(set)
    done = 0
    for path in files((".antt", ".rt", ".edit")):
        text = open(path, encoding="utf-8").read()
        new = turned(path, text, said)
        if new != text:
            done += 1
            if not dry:
                with open(path, "w", encoding="utf-8") as f:
                    f.write(new)
    for new, places in sorted(said.items()):
        print("stands there:", new, sorted(places))
    print(len(NEW), "names;", done, "files")


main()
