#!/usr/bin/env python3
"""Writes what lab_tapes runs on in the gate: tapes in crates/lab_tapes/data, and the stdin and stdout that belong to them.

The tapes are made by reference/ and by hand, the verdicts are those of `reference judge`, and what was due is what `reference due` says:
nothing here comes from the program itself. For each verdict, each code and each length of START the smallest made tape is taken; for each
kind of entry and each verdict the smallest where such an entry was due last; beside them some with zeros, an empty one, a ragged one and one
that is too long. Lines that ask for nothing stand between them: what they are answered is what the program's head says.

    cd reference && cargo build --release --offline && cd .. && tools/lab-vectors.py
"""
import pathlib
import shutil
import subprocess
import sys
import tempfile

ROOT = pathlib.Path(__file__).resolve().parent.parent
REFERENCE = ROOT / "reference/target/release/reference"
CRATE = ROOT / "crates/lab_tapes"
BLOCK = 512
MADE, SEED = 4000, 36
TRIED = 3000
DUE = {"START", "COMMAND", "ANSWER", "HOST", "RESULTS", "DECISION", "NOTHING"}


def judged(paths):
    """What the reference says of each file."""
    said = subprocess.run([REFERENCE, "judge", *paths], capture_output=True, text=True, check=True).stdout.splitlines()
    if len(said) != len(paths):
        sys.exit("the reference has not judged every tape")
    return [line[len(path.name) + 1:] for path, line in zip(paths, said)]


def due(path):
    """The lines that the reference says before its verdict."""
    return subprocess.run([REFERENCE, "due", path], capture_output=True, text=True, check=True).stdout.splitlines()[:-1]


def start_length(data):
    """The length of the first entry's payload, where it is START."""
    return int.from_bytes(data[10:12], "big") if len(data) >= BLOCK and data[8] == 1 else 0


def chosen(folder):
    """The smallest tape of each kind, by a name that says the kind."""
    paths = sorted(pathlib.Path(folder).glob("*.tape"))
    kinds = {}
    for path, line in zip(paths, judged(paths)):
        verdict, place, code, zeros = line.split()
        data = path.read_bytes()
        kind = [verdict.lower(), code if verdict == "UNREADABLE" else "at-0" if place == "0" else "later", str(start_length(data))]
        if zeros != "0":
            kind.append("zeros")
        if start_length(data) not in (74, 77) or len(data) > 40 * BLOCK:
            continue
        name = "-".join(kind) + ".tape"
        if name not in kinds or len(data) < len(kinds[name]):
            kinds[name] = data
    return kinds


def by_due(folder):
    """The smallest tape of each verdict where an entry of each kind was due last, by a name that says both."""
    paths = sorted(pathlib.Path(folder).glob("*.tape"), key=lambda path: (path.stat().st_size, path.name))[:TRIED]
    kinds = {}
    for path, line in zip(paths, judged(paths)):
        lines = due(path)
        if lines:
            kinds.setdefault(f"due-{lines[-1].split()[2].lower()}-{line.split()[0].lower()}.tape", path.read_bytes())
    return kinds


def main():
    data = CRATE / "data"
    shutil.rmtree(data, ignore_errors=True)
    data.mkdir(parents=True)
    with tempfile.TemporaryDirectory() as folder:
        subprocess.run([REFERENCE, "make", folder, str(MADE), str(SEED)], stdout=subprocess.DEVNULL, check=True)
        tapes = {**chosen(folder), **by_due(folder)}
    whole = next(tapes[name] for name in sorted(tapes) if name.startswith("pass-later-77"))
    tapes["empty.tape"] = b""
    tapes["one byte.tape"] = whole[:1]
    tapes["ragged.tape"] = whole[:-1]
    tapes["a byte more.tape"] = whole + b"\0"
    tapes["one block short.tape"] = whole[:-BLOCK]
    tapes["twice.tape"] = whole + whole
    tapes["too-long.tape"] = bytes(1025 * BLOCK)
    tapes["zeros.tape"] = bytes(3 * BLOCK)
    names = sorted(tapes)
    for name in names:
        (data / name).write_bytes(tapes[name])
    lines = dict(zip(names, judged([data / name for name in names])))
    seen = {line.split()[0] for line in lines.values()} | {line.split()[2] for line in lines.values() if line.startswith("UNREADABLE")}
    missing = {"PASS", "FAIL", "INCONCLUSIVE", "UNREADABLE", *"123456789"} - seen
    if missing:
        sys.exit(f"no tape for {sorted(missing)}")
    followed = {name: due(data / name) for name in names}
    missing = DUE - {line.split()[2] for lines_of in followed.values() for line in lines_of}
    if missing:
        sys.exit(f"no tape where {sorted(missing)} is due")
    long = "x" * 4096
    asked = [(f"JUDGE {name}", f"{lines[name]} {name}") for name in names]
    errors = [("JUDGE missing.tape", "ERROR opening missing.tape"), ("JUDGE .", "ERROR reading ."), ("JUDGE", "ERROR word JUDGE"),
              ("", "ERROR word "), ("JUDGE ", "ERROR opening "), ("judge empty.tape", "ERROR word judge empty.tape"),
              (" JUDGE empty.tape", "ERROR word  JUDGE empty.tape"), (f"JUDGE {long}", f"ERROR opening {long}"),
              (f"JUDGE {long}x", "ERROR length"), ("JUDGE  empty.tape", "ERROR opening  empty.tape")]
    for k, pair in enumerate(errors):
        asked.insert(1 + 3 * k, pair)
    asked.append(asked[0])
    asked += [(line.replace("JUDGE", "PLAIN", 1), said.replace("JUDGE", "PLAIN", 1)) for line, said in asked if line.startswith("JUDGE")]
    asked += [(f"DUE {name}", "\n".join([*followed[name], f"{lines[name]} {name}"])) for name in names]
    asked += [("DUE missing.tape", "ERROR opening missing.tape"), ("DUE .", "ERROR reading ."), ("DUE", "ERROR word DUE"),
              ("due empty.tape", "ERROR word due empty.tape"), ("DUE ", "ERROR opening ")]
    (CRATE / "stdin").write_text("\n".join(line for line, _ in asked))
    (CRATE / "stdout").write_text("".join(line + "\n" for _, line in asked))
    print(f"{len(names)} tapes, {len(asked)} lines")


main()
