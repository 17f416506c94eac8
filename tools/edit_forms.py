"""Whether an edit was refused for a fact, or for its form alone. Shared by tools/edits-refused and tools/try-edits.

An edit shows that a promise shuts a wrong answer out only where the check refuses a fact. Where its first error says that a field, a name or
a type is not there, that the edited file cannot be read, or that the prover met a limit of its own, the edit shows nothing. The toolchain says
for each edit what it came to in a line, and behind it the first error.
"""
import re

# What the toolchain says of an edit: its crate, its name, and what it came to.
SAID = re.compile(r"^rt: must-fail (\w+)/([\w.-]+)\.edit: (.*)$", re.M)

REFUSED = "refused, as it must be"

# A first error stands at a place of a file.
ERROR = re.compile(r"(?:\./)?(\S+?):\d+:\d+: (?:error: )?(.*)", re.S)

# What the checker says of a field, a name or a type that is not there, and of a proof that no longer has the code's shape.
FORM = re.compile(
    r"has no field|missing field|no such field|has no `[^`]*` that can be named from here|is not in scope|not a constructor"
    r"|expects \d+ argument|takes \d+ argument|this tuple has \d+ components|is applied to|cannot be read|unexpected|was read as"
    r"|has \d+ argument|no function|no module|unknown|undeclared|not declared|mismatched types|cannot find"
)


def tried(output):
    """Each edit that an output of `rt ci` or `rt must-fail` speaks of: its crate, its name, and what it came to. The last word counts."""
    return {(crate, name): what for crate, name, what in SAID.findall(output)}


def form(what):
    """What is wrong with an edit by what it came to, in a line; empty where a fact was refused."""
    if not what.startswith(REFUSED):
        return what[:160]
    rest = what[len(REFUSED):].lstrip(": ")
    if rest.startswith("(only by a limit"):
        return "refused only by a limit of the prover"
    if rest.startswith("("):
        return "refused for its form: " + rest[1:160]
    found = ERROR.match(rest.replace("note: ", "", 1))
    if not found:
        return "no error behind it"
    place, text = found.groups()
    if place.startswith("src/") and not text.startswith("it is not proved"):
        return "refused before any proof: " + text[:160]
    said = FORM.search(text)
    return f"refused for its form ({said[0]}): {text[:160]}" if said else ""


def selftest():
    """Forms and facts, as the toolchain says them."""
    refused = "refused, as it must be: "
    facts = ["./proofs/lay/Answers.antt:45:38: error: `returns`: `omega`: the goal does not follow from what it read.",
             "note: src/head.rt:27:1: it is not proved that what the function ensures holds when it returns (`returns-then-form-le128`)",
             "proofs/Counting.antt:12:35: error: `returns`: as printed, the two types first differ where one has `1`"]
    forms = ["refused, as it must be (only because a proof file names what the edit took away, so this says little of the contract): proofs/a",
             "refused, as it must be (only by a limit of the prover, which gave no verdict): proofs/A.antt:3:1: error: antt ran out of stack",
             "refused, as it must be", "NOT REFUSED: the crate is still proved with this edit", "BAD EDIT: it changes nothing",
             refused + "proofs/A.antt:14:62: error: `returns`: record `x.After-slice` has no field `if1`", refused + "src/lib.rt:3:1: error: x"]
    text = "rt: a proved\n" + "".join(f"rt: must-fail a/one{n}.edit: {refused}{fact}\n" for n, fact in enumerate(facts))
    read = list(tried(text).values()) == [refused + fact for fact in facts] and ("a", "one0") in tried(text)
    return read and not any(form(refused + fact) for fact in facts) and all(form(what) for what in forms)


if __name__ == "__main__":
    raise SystemExit(0 if selftest() else 1)
