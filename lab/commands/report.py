"""bin/report: the findings of a night as one HTML file."""
import gc
import os

from lab import books, files, judging, numbers, programs, recovery, report_explained, report_page, report_style, report_tapes, verdicts
from lab.words import NOT_ALL, UNDONE, Undone, command, text, voice

USAGE = """
bin/report [--by folder|name] [--title TEXT] [--tapes N] [--books NAME] [--list-only] VERDICTS.jsonl OUT.html
                      a report of what bin/judge --jsonl has written

OUT.html is one file without script that fetches nothing: the four counts and what each means, how many tapes are evidence for nothing,
each terminal, the worst first, with its tapes in the order of their numbers, failures by what was due and what stood there, unfinished
tapes by what was waited for, damaged ones by code, and where all of it comes from.

Each cause opens to tapes with the lines of bin/explain. For these the files are opened that the list names, as seen from here: a tape is
explained where its file is there, has the sha256 of the line and is judged as the line says. A file that is not there is said, and the
tape told from the list alone; one that has changed, or is judged otherwise now, is said at the top too, and the status is 2. Up to {}
tapes are explained, the first of each cause before the second of any; each list says how many are not. No account number is shown whole.
The same list and the same tapes give the same file, byte for byte.

--by folder    a tape belongs to the terminal that its folder is named after, without what all folders have in common; so if not said
--by name      .. or that its own name begins with, without the digits before .tape: aster-T4-000417.tape is a tape of aster-T4
--title TEXT   what stands at the top; the list's own name if not said
--tapes N      so many tapes there must be, judged or not: where the list has another number of names, that is said at the top
--books NAME   a book, or a campaign's folder: its books are asked for their counts, and stand in the foot with their sha256
--list-only    no tape is opened: everything comes from the list, and the same list gives the same file

A tape is a name with a sha256. Lines that say the same of one are one tape; of lines that disagree about the same bytes the worst counts;
a file that had other bytes the next time is two tapes. Tapes that could not be judged are counted and listed apart. Every line is read
strictly: one that is not of the form is named with its number, and no report is written. An old report at OUT.html is taken away first;
any other file there is left alone.

Example:  bin/judge --jsonl night.jsonl /data/night; bin/report night.jsonl night.html
Status:   0 every tape is PASS; 1 some tape is not; 2 some tape could not be judged, is missing, has changed or could not be explained,
          lines disagree, or no report could be written
""".replace("{}", str(report_explained.MOST))


def take_old(out, source):
    """Takes away an old report; anything else that stands there stays, and is said."""
    if not os.path.lexists(out):
        return
    try:
        descriptor = files.open_file(out)
    except files.Unusable as why:
        raise Undone(f"{text(out)}: {why}; no report is written there") from None
    with os.fdopen(descriptor, "rb") as file:
        if os.path.samestat(os.fstat(file.fileno()), os.stat(source)):
            raise Undone(f"{text(out)}: is the list of findings itself")
        mark = report_style.MARK.encode()
        if file.read(len(mark)) != mark:
            raise Undone(f"{text(out)}: is there already and is no report; it is left as it is")
    os.unlink(out)


def book_lines(named):
    """Each book with its sha256 and its own counts."""
    names = [named]
    if os.path.isdir(named):
        names = sorted(os.path.join(named, name) for name in os.listdir(named) if books.IN_FOLDER.fullmatch(name))
    if not names:
        raise Undone(f"{text(named)}: no book in this folder")
    lines = []
    for book in names:
        try:
            told = books.counts(book)
        except books.Refused as why:
            raise Undone(str(why)) from None
        said = "PASS %d FAIL %d INCONCLUSIVE %d UNREADABLE %d TOTAL %d" % tuple(told)
        lines.append(f"{text(book)}, {said}, sha256 {programs.sha256_of(book)}")
    return lines


def origin(source, listed, night, named, explained):
    """The foot: the list, the judges that its lines name, the tapes' folders, the books, and by whom tapes were explained."""
    folders = sorted({report_tapes.folder_of(line.name) for line in listed.lines})
    common = b"/".join(folders[0].split(b"/")[:report_tapes.shared(folders)]) if len(folders) > 1 else folders[0]
    where = f"{text(common)[-200:] or '/'}" + (f", {len(folders):,} folders below it" if len(folders) > 1 else "")
    judges = [f"{judge[:200]} ({count:,} lines)" for judge, count in sorted(night.judges.items(), key=lambda one: (-one[1], one[0]))]
    if len(judges) > 20:
        judges[20:] = [f"and {len(judges) - 20:,} more"]
    told = [("findings", [f"{text(source)}, {len(listed.lines):,} lines, {listed.size:,} bytes, sha256 {listed.sha256}"]),
            ("judge", judges), ("tapes", [where])]
    return told + ([("books", book_lines(named))] if named else []) + [("explained", report_explained.by_whom(explained))]


def number_asked(asked):
    try:
        return numbers.number(asked.get("--tapes")) if "--tapes" in asked.options else None
    except numbers.NoNumber as why:
        raise Undone(f"--tapes: {why}") from None


def conclude(night, expected, explained):
    """The status that a night comes to, and lines on standard error where something is missing or could not be explained."""
    counts, left = report_tapes.counts(night.tapes), len(night.errors) - night.settled
    names = len({line.name for line in (*night.tapes, *night.errors)})
    if len(night.tapes) != counts["PASS"]:
        voice.worse(NOT_ALL)
    if left or night.disputed or expected not in (None, names):
        voice.worse(UNDONE)
        missing = "" if expected is None else f", {names} of {expected} tapes in the list"
        voice.note(f"{left} not judged, {len(night.disputed)} judged differently{missing}: the report says so")
    gone, undone = (explained.count(report_explained.GONE), explained.undone()) if explained else (0, "")
    if gone:
        voice.note(f"{gone} not explained, with no file where the list names one: the report says so")
    if undone:
        voice.worse(UNDONE)
        voice.note(f"{undone}: the report says so")
    return " ".join(f"{verdict} {count}" for verdict, count in counts.items())


def main(asked):
    if len(asked.rest) != 2:
        raise Undone("the list of findings and the report's name are needed, in this order (--help)")
    by, (source, out), expected = asked.get("--by", b"folder"), asked.rest, number_asked(asked)
    if by not in (b"folder", b"name"):
        raise Undone(f"--by {text(by)}: a terminal is known by folder or by name")
    take_old(out, source)
    # Nothing here is left in circles, and looking for them among 200,000 tapes takes a third of the time.
    gc.disable()
    listed = verdicts.read(source)
    night = report_tapes.gathered(listed.lines)
    opened = report_tapes.opened(night)
    explained = None if asked.get("--list-only") else report_explained.explained(opened)
    told, title = origin(source, listed, night, asked.get("--books"), explained), text(asked.get("--title", os.path.basename(source)))
    files.write_new(out, report_page.page(title, night, by, told, opened, explained, expected))
    voice.line(f"{conclude(night, expected, explained)} TOTAL {len(night.tapes)}: ", text(out))


def start():
    command(USAGE, [books.PROGRAM, judging.PROGRAM, recovery.PROGRAM], main, flags=("--list-only",),
            valued=("--by", "--title", "--tapes", "--books"))
