#!/usr/bin/env python3
"""Writes docs/FUNCTIONS.md: every function that another crate can call, what it promises, and why that admits one answer.

    tools/public-functions.py              writes the page
    tools/public-functions.py --check      says whether the page is as the sources are, and changes nothing
    tools/public-functions.py --selftest   tries the reader of promises on made-up functions

A promise is an equation where the reader has seen one for the whole result and one for every `&mut` of the signature. A function
whose promise is not, and that stands neither in OTHERWISE nor in EXCEPTIONS, is printed and the exit status is 1; so is an entry of
these tables that is not needed, and a function with a `requires` or without a promise.
"""
import pathlib
import re
import sys

ROOT = pathlib.Path(__file__).resolve().parent.parent
PAGE = ROOT / "docs" / "FUNCTIONS.md"
EXCEPTIONS_PAGE = ROOT / "docs" / "EXCEPTIONS.md"
MUTABLE = re.compile(r"&(?:'\w+ )?mut\b")

# Promises that are not an equation of the whole answer: why they fit one answer all the same.
OTHERWISE = {
    "tlv_write write": "`one_answer` in `crates/tlv_write/proofs/Refusals.antt`: refusal and size together are the answer",
    "book_judged judged": "`entered_once` in `crates/book_judged/proofs/Theorem.antt`: no tape has two entries under one number",
    "quick_judge judge": "`quick_plain` in `crates/quick_judge/proofs/Same.antt`: no tape has two findings",
    "judge judge": "`judged_once` in `crates/verdict_judged/proofs/Once.antt`: no tape has two answers",
    "lab due::lab_judge": "`found_once` in `crates/lab/proofs/Once.antt`: no tape has two findings",
    "lab due::lab_judge_quick": "`found_once` in `crates/lab/proofs/Once.antt`: no tape has two findings",
    "lab_c lab_judge": "`found_once` in `crates/lab/proofs/Once.antt`: no tape has two findings",
    "lab_c lab_judge_quick": "`found_once` in `crates/lab/proofs/Once.antt`: no tape has two findings",
}

# Those that fit more than one answer: docs/EXCEPTIONS.md names each and says why.
EXCEPTIONS = {
    "text_input read_line": "all: of what comes from standard input no contract can speak",
    "text_input open": "all: of what comes from the file system no contract can speak",
    "text_input argument": "all: of what a program is started with no contract can speak",
    "text_input fill": "all: of what comes from a file no contract can speak",
    "text_input read_full": "all: of what comes from standard input no contract can speak",
    "text_print fail": "nothing is handed back; of standard error no contract can speak",
    "text_print text": "whether a write fails, and with which error: of standard output no contract can speak",
    "text_print number": "whether a write fails, and with which error: of standard output no contract can speak",
    "text_print bytes": "whether a write fails, and with which error: of standard output no contract can speak",
    "text_print bytes_or_dash": "whether a write fails, and with which error: of standard output no contract can speak",
    "text_print tag": "whether a write fails, and with which error: of standard output no contract can speak",
    "text_print touched": "whether a write fails, and with which error: of standard output no contract can speak",
    "text_kinds print_due": "whether a write fails, and with which error: of standard output no contract can speak",
    "judge_reading judge_file": "all: of what comes from a file no contract can speak",
    "playing next": "all: of a file and of standard output no contract can speak",
    "playing answer": "all: of a file and of standard output no contract can speak",
    "select_list joining::clear": "bytes behind the rows that count; the list that they read as, `list_in`, is an equation",
    "select_list joining::join": "bytes behind the rows that count; the list that they read as, `list_in`, is an equation",
    "select_list joining::remove": "bytes behind the rows that count; the list that they read as, `list_in`, is an equation",
    "select_search turns::begin": "bytes behind the rows that count; the list that they read as, `list_in`, is an equation",
    "select_search turns::heard": "bytes behind the rows that count; the list that they read as, `list_in`, is an equation",
    "session_choosing event::step": "bytes behind the rows that count; the list that they read as, `list_in`, and all else are one equation",
}

HEAD = """# Every public function

Made by `tools/public-functions.py` from the sources: each function that another crate can call, and what it promises by which
definition. What is lent by `&` cannot change. None has a `requires`. Programs have no public functions.

## Equations

The promise has an equation for the whole result and one for what every `&mut` holds afterwards, so it leaves no choice. What
stands beside the equations (bounds, lengths) is proved with them and can only follow.

| Function | Promise |
|---|---|
"""

OTHERS = """
## Not an equation: why one answer fits

| Function | Equations | One answer, because |
|---|---|---|
"""

FREE = """
## More than one answer fits

`EXCEPTIONS.md` says why.

| Function | Equations | What is left open |
|---|---|---|
"""


def bracketed(text, start):
    """The end of the bracket that opens at `start`."""
    depth = 0
    for at in range(start, len(text)):
        depth += (text[at] in "([{") - (text[at] in ")]}")
        if depth == 0:
            return at
    raise ValueError("a bracket is not closed: " + text[start:start + 40])


def split(text, mark):
    """The parts of a text between marks that stand in no bracket."""
    parts, depth, last = [], 0, 0
    for at, char in enumerate(text):
        depth += (char in "([{<") - (char in ")]}>") if mark == "," else (char in "([{") - (char in ")]}")
        if char == mark and depth == 0:
            parts.append(text[last:at].strip())
            last = at + 1
    return [part for part in parts + [text[last:].strip()] if part]


def bare(text):
    """A text without the brackets around all of it."""
    text = text.strip()
    while text.startswith("(") and bracketed(text, 0) == len(text) - 1:
        text = text[1:-1].strip()
    return text


def outside(text, marks):
    """Whether one of the marks stands in no bracket."""
    return any(len(split(f" {text} ", mark)) > 1 for mark in marks)


def clauses(text):
    """Each clause of a signature, `requires` or `ensures`, with a name or without one, up to the body's bracket."""
    at = re.search(r"\b(?:requires|ensures)\b|\{|$", text).start()
    while True:
        found = re.compile(r"\s*(requires|ensures)\b[^{]*\{").match(text, at)
        if not found:
            return
        closes = bracketed(text, found.end() - 1)
        yield found.group(1), text[found.end():closes].strip()
        at = closes + 1


class Function:
    """A signature and its promise: what is lent by `&mut`, what is handed back, and each fact that is promised."""

    def __init__(self, text, holders=()):
        opens = text.index("(")
        closes = bracketed(text, opens)
        self.name = re.search(r"\bfn (\w+)", text).group(1)
        rest = text[closes + 1:]
        head = re.split(r"\b(?:requires|ensures|where)\b|\{", rest)[0].strip()
        self.result = head[2:].strip() if head.startswith("->") else None
        self.requires, self.lent, self.facts = False, [], []
        for param in split(text[opens + 1:closes], ","):
            name, _, kind = param.partition(":")
            held = any(re.search(rf"\b{holder}\b", kind) for holder in holders)
            if held or MUTABLE.search(kind or name):
                self.lent.append(name.split()[-1])
        for kind, clause in clauses(rest):
            self.requires = self.requires or kind == "requires"
            clause = bare(" ".join(clause.split()))
            parts = [clause] if outside(clause, "→⊎∨") else split(clause, "×")
            self.facts += [bare(part) for part in parts] if kind == "ensures" else []

    def equations(self):
        """Left and right side of each fact that is an equation from what was there at the call."""
        for fact in self.facts:
            sides = split(fact, "≡")
            if len(sides) != 2 or outside(fact, "→⊎∨×") or re.search(r"\.new\b", sides[1]):
                continue
            if not re.search(r"(?<![\w.])result(?!\w)", sides[1]):
                yield bare(sides[0]), sides[1]

    def where_ok(self):
        """What is promised of the value where the result is `Ok`."""
        for fact in self.facts:
            found = re.fullmatch(r"IfOk result \(λ (\w+)\. \1 ≡ (.*)\)", fact)
            if found:
                yield found.group(2)


def seen(function, fields, joins):
    """What the promise has equations for, in words, and what it leaves open. `fields` are those of the result's struct, `joins`
    the definitions that hold a whole result and what one `&mut` holds afterwards."""
    words, told, open_ = [], set(), set(function.lent) | ({"result"} if function.result else set())
    for left, right in function.equations():
        lent = re.fullmatch(r"(\w+)\.new", left)
        joined = re.fullmatch(r"(\w+) result((?: \w+\.new)+)", left)
        buffers = re.findall(r"(\w+)\.new", joined.group(2)) if joined else []
        field = re.fullmatch(r"result\.(\w+)", left)
        if left == "result" and function.result:
            words.append(f"result ≡ {named(right)}")
            open_.discard("result")
        elif left == "result.now" and re.match(r"&(?:'\w+ )?\[", function.result or ""):
            words.append(f"part handed back ≡ {named(right)}")
            open_.discard("result")
        elif field:
            told.add(field.group(1))
        elif lent and lent.group(1) in function.lent:
            words.append(f"`{lent.group(1)}` afterwards ≡ {named(right)}")
            open_.discard(lent.group(1))
        elif joined and joined.group(1) in joins and set(buffers) <= set(function.lent):
            left_in = " and ".join(f"`{buffer}`" for buffer in buffers)
            words.append(f"all that the call leaves, every field handed back and {left_in}, ≡ {named(right)}")
            open_ -= {"result", *buffers}
        elif re.fullmatch(r"\w+ result", left):
            words.append(f"`{left.split()[0]}` of it ≡ {named(right)}")
    words += [f"the value where it is Ok ≡ {named(value)}" for value in function.where_ok()]
    if told and fields and told >= set(fields):
        words.append("result, field by field")
        open_.discard("result")
    if not function.result and not function.lent:
        words.append("nothing is handed back, and nothing lent can change")
    return "; ".join(words) or "no equation", open_


def named(definition):
    """The definition that an equation's right side begins with."""
    return "`" + re.match(r"\(*([^\s()]+)", definition).group(1) + "`"


def crates():
    yield from re.findall(r"^(\w+)[^#:\n]*:", (ROOT / "crates.txt").read_text(), re.M)


def sources(crate):
    return {path.stem: path.read_text() for path in sorted((ROOT / "crates" / crate / "src").glob("*.rt"))}


def structs(crate):
    """The fields of each struct of a crate, with their types."""
    for text in sources(crate).values():
        for name, body in re.findall(r"pub struct (\w+)(?:<[^>]*>)? \{(.*?)\n\}", text, re.S):
            yield name, dict(re.findall(r"^ +(?:pub )?(\w+): (.*?),$", body, re.M))


def fields_of(name, crate, text):
    """The fields of a struct as a source of a crate names it."""
    home = re.search(rf"^(?:pub )?use (\w+)::(?:\w+::)*(?:\{{[^}}]*\b{name}\b[^}}]*\}}|{name});", text, re.M)
    home = home.group(1) if home and home.group(1) in crates() else crate
    return dict(structs(home)).get(name, {})


def joins_in(text, crate, fields):
    """The definitions that a source names, of the form `f r b .. = record {..}`, which hold all of r and of each b."""
    for home, file, names in re.findall(r"^ghost use Rattle\.(\w+)\.specs\.(\w+)\.\{([^}]*)\}", text, re.M):
        path = ROOT / "crates" / home / "specs" / (file + ".antt")
        body = path.read_text() if path.exists() else ""
        for name, _, here in (part.strip().partition(" as ") for part in names.split(",")):
            found = re.search(rf"^{re.escape(name)} (\w+)((?: \w+)+) = record \{{ (.*) \}}$", body, re.M)
            if found and holds_all(found.group(3), found.group(1), found.group(2).split(), fields):
                yield here or name


def holds_all(body, result, buffers, fields):
    values = {part.partition("=")[2].strip() for part in body.split(";")}
    return set(buffers) <= values and (result in values or (bool(fields) and {f"{result}.{field}" for field in fields} <= values))


def reachable(lib):
    modules = set(re.findall(r"^pub mod (\w+);", lib, re.M))
    names = set()
    for module, what in re.findall(r"^pub use (?:crate::)?(\w+)::(\{[^}]*\}|\w+);", lib, re.M):
        names.update((module, name) for name in re.findall(r"\w+", what))
    return modules, names


def functions(crate, holders):
    """Each function that another crate can call: its name, it, the fields of what it hands back, and the joins that it may use."""
    files = sources(crate)
    if "lib" not in files:
        return
    modules, names = reachable(files["lib"])
    for module, text in files.items():
        owner, lines = None, text.splitlines()
        for at, line in enumerate(lines):
            impl = re.match(r"^impl(?:<[^>]*>)? (\w+)", line)
            owner = impl.group(1) if impl else None if line.startswith("}") else owner
            found = re.match(r"^\s*pub (?:extern \"C\" )?fn (\w+)", line)
            if not found or not (owner or module == "lib" or module in modules or (module, found.group(1)) in names):
                continue
            function = Function("\n".join(lines[at:]), holders)
            kind = re.sub(r"<.*>", "", function.result or "").replace("Self", owner or "Self")
            fields = fields_of(kind, crate, text) if kind.isidentifier() else {}
            prefix = owner or ("" if module == "lib" or (module, function.name) in names else module)
            yield (prefix + "::" if prefix else "") + function.name, function, fields, set(joins_in(text, crate, fields))


def page():
    """The page, and what is wrong."""
    holders = {name for crate in crates() for name, fields in structs(crate) if any(MUTABLE.search(kind) for kind in fields.values())}
    rows, others, free, wrong, needless = [], [], [], [], set(OTHERWISE) | set(EXCEPTIONS)
    admitted = EXCEPTIONS_PAGE.read_text()
    for crate in crates():
        for name, function, fields, joins in functions(crate, holders):
            key, (words, open_) = f"{crate} {name}", seen(function, fields, joins)
            if function.requires:
                wrong.append(f"{key}: a public function with a requires")
            if not open_ and function.facts:
                rows.append(f"| `{crate}`: `{name}` | {words} |")
                continue
            needless.discard(key)
            if key in OTHERWISE:
                others.append(f"| `{crate}`: `{name}` | {words} | {OTHERWISE[key]} |")
            elif key in EXCEPTIONS:
                free.append(f"| `{crate}`: `{name}` | {words} | {EXCEPTIONS[key]} |")
                if not re.search(rf"`{function.name}` of `{crate}`", admitted):
                    wrong.append(f"{key}: docs/EXCEPTIONS.md does not name it")
            else:
                wrong.append(f"{key}: no equation for {', '.join(sorted(open_)) or 'anything'}, and in neither table")
    wrong += [f"{key}: in a table of the tool, and needs not be" for key in sorted(needless)]
    return HEAD + "\n".join(rows) + "\n" + OTHERS + "\n".join(others) + "\n" + FREE + "\n".join(free) + "\n", wrong


# Made-up functions, with what the reader must find left open. The result's struct is said to have the fields `state` and `due`.
MADE_UP = [
    ("pub fn f(s: &[u8]) -> usize\n ensures { (result ≡ g s.now) × (result < 256) }", set()),
    ("pub fn f(s: &[u8]) -> &[u8]\n ensures { result.now ≡ take 3 s.now }", set()),
    ("pub fn f(buf: &mut [u8], at: usize)\n ensures { buf.new ≡ laid at buf.old }", set()),
    ("pub fn f(\n a: &mut [u8],\n b: &mut [u8],\n) -> u8\n ensures value { result ≡ g }\n ensures a_after { a.new ≡ h }\n{ a[0] }", {"b"}),
    ("pub fn f(buf: &mut [u8]) -> usize\n ensures { result ≡ size_of buf.old }", {"buf"}),
    ("pub fn read(&mut self) -> u8\n ensures { result ≡ next_of self.old }", {"self"}),
    ("pub fn f(buf: &'a mut [u8])\n ensures { length buf.new ≡ 4 }", {"buf"}),
    ("pub fn f(s: State, held: Holder) -> u8\n ensures { result ≡ g s }", {"held"}),
    ("pub fn f(s: &[u8]) -> usize\n ensures { result ≡ 0 → (s ≡ s) }", {"result"}),
    ("pub fn f(s: &[u8]) -> usize\n ensures { (result ≡ 0) ⊎ (result ≡ 1) }", {"result"}),
    ("pub fn f(s: &[u8]) -> usize\n ensures { (result ≡ 0) × (result ≡ result) → (result ≡ 1) }", {"result"}),
    ("pub fn f(s: &[u8]) -> usize\n ensures { result ≡ result + 0 }", {"result"}),
    ("pub fn f(s: &[u8]) -> usize\n ensures { result < 4 }", {"result"}),
    ("pub fn f(s: &[u8]) -> Value\n ensures { held result ≡ value_for s }", {"result"}),
    ("pub fn f(buf: &mut [u8]) -> usize\n ensures { result ≡ length buf.new }", {"buf", "result"}),
    ("pub fn f() -> Step\n ensures { (result.state ≡ fresh) × (result.due ≡ 0) }", set()),
    ("pub fn f() -> Step\n ensures { result.state ≡ fresh }", {"result"}),
    ("pub fn f(buf: &mut [u8]) -> Step\n ensures { played result buf.new ≡ moved s buf.old }", set()),
    ("pub fn f(buf: &mut [u8]) -> Step\n ensures { summed result buf.new ≡ moved s }", {"buf", "result"}),
    ("pub fn f(a: &mut [u8], b: &mut [u8]) -> Step\n ensures { played result a.new ≡ moved s }", {"b"}),
    ("pub fn f(a: &mut [u8], b: &mut [u8]) -> Step\n ensures { played result a.new b.new ≡ moved s }", set()),
    ("pub fn f(rt: &impl Print) -> Result<(), E>\n ensures { IfOk result (λ r. r ≡ tt) }", {"result"}),
    ("pub fn f(s: &[u8]) -> usize {", {"result"}),
    ("pub fn f(s: &[u8]) -> usize {\n 0\n}\npub fn g() -> usize\n ensures { result ≡ 0 }\n{ 0 }", {"result"}),
]


def selftest():
    bad = 0
    fields = {"state": "State", "due": "Due"}
    for text, expected in MADE_UP:
        _, open_ = seen(Function(text, {"Holder"}), fields, {"played"})
        if open_ != expected:
            bad += 1
            print(f"left open {sorted(open_)}, and should be {sorted(expected)}:\n{text}\n")
    joins = [("state = r.state; due = r.due; buffer = out", True), ("answer = r; tape = out", True),
             ("state = r.state; buffer = out", False), ("state = r.state; due = r.due; buffer = length out", False)]
    for body, expected in joins:
        if holds_all(body, "r", ["out"], fields) != expected:
            bad += 1
            print(f"{body}: should {'' if expected else 'not '}hold all")
    print(f"{len(MADE_UP) + len(joins)} tried, {bad} wrong")
    return 1 if bad else 0


def main():
    if "--selftest" in sys.argv[1:]:
        return selftest()
    text, wrong = page()
    for line in wrong:
        print(line)
    if "--check" in sys.argv[1:]:
        same = PAGE.exists() and PAGE.read_text() == text
        print("docs/FUNCTIONS.md is " + ("as the sources are" if same else "not as the sources are"))
        return 1 if wrong or not same else 0
    PAGE.write_text(text)
    return 1 if wrong else 0


if __name__ == "__main__":
    sys.exit(main())
