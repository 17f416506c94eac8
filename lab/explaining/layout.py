"""An explanation as text: lines with a style each, and the colours of the styles."""
import textwrap

from lab.explaining.parts import count, offsets

# Bytes to a row: all of them where they fit, else so many; and more rows than these are not all shown.
WIDTH, FITS, ROW, ROWS = 124, 36, 32, 4
ENTRY, INNER, NOTE = " " * 15, " " * 6, "  "
COLOURS = {"PASS": "32", "FAIL": "31", "INCONCLUSIVE": "33", "UNREADABLE": "35", "wrong": "31", "quiet": "2", "": None}


def wrapped(front, text):
    """Text behind a front, wrapped so that it stays in its column."""
    inner = " " * (len(text) - len(text.lstrip(" ")))
    return textwrap.wrap(text.lstrip(" "), WIDTH, initial_indent=front + inner, subsequent_indent=" " * len(front) + inner + "  ",
                         break_long_words=False, break_on_hyphens=False) or [front.rstrip()]


def headline(finding):
    zeros = f"; {count(finding.zeros, 'list entry', 'list entries')} filled with zeros" if finding.zeros else ""
    entries = count(finding.place, "entry", "entries")
    if finding.verdict == "UNREADABLE":
        return f"UNREADABLE at block {finding.place}, code {finding.code}"
    return f"FAIL at entry {finding.place}{zeros}" if finding.verdict == "FAIL" else f"{finding.verdict} after {entries}{zeros}"


def entry_lines(told, front="  "):
    head = f"{front}{told.index:>3} {told.kind:<8} "
    lines = []
    for k, line in enumerate(told.lines or [""]):
        lines += wrapped(head if k == 0 else ENTRY, line)
    return lines


def octet_rows(octets, marks, wanted=None):
    """Rows of bytes with marks below, and places in front where there are several; of many rows those without a mark are left out."""
    if len(octets) <= FITS:
        return octet_row("", octets, 0, marks)
    starts = range(0, len(octets), ROW)
    kept = [k for k in starts if len(starts) <= ROWS or k == 0 or any(k <= place < k + ROW for place in wanted or marks)]
    lines, at = [], 0
    for k in [*kept, len(octets)]:
        if at < k:
            lines.append((f"     .. {count(k - at, 'byte')} at {offsets(range(at, k))}", "quiet"))
        if k < len(octets):
            lines += octet_row(f"{k:>3}: ", octets[k:k + ROW], k, marks)
        at = k + ROW
    return lines


def octet_row(front, octets, at, marks):
    lines = [(front + " ".join(octets), "")] if octets else []
    below = " " * len(front) + " ".join("^^" if at + k in marks else "  " for k in range(len(octets)))
    return lines + ([(below.rstrip(), "wrong")] if below.strip() else [])


def labelled(label, text):
    return wrapped(f"{INNER}{label:<13}", text)


def side_lines(label, told, marks, wanted):
    """What was due, or what stood there: its kind and words, and its bytes below."""
    first, *rest = told.lines or [""]
    lines = [(line, "") for line in labelled(label, f"{told.kind}: {first}" if first else told.kind)]
    for line in rest if told.kind != "DECISION" else ():
        lines += [(one, "") for one in labelled("", line)]
    for text, style in octet_rows(told.octets or [], marks, wanted):
        lines.append((INNER + " " * 13 + text, style))
    return lines


def failure_lines(found):
    lines = [(f"> {found.stood.index:>3} {found.stood.kind:<8} cannot be here", "wrong")]
    stood = {place for one in found.differs for place in one.stood}
    due = {place for one in found.differs for place in one.due}
    lines += side_lines("due", found.due, due, stood | due)
    lines += side_lines("stood there", found.stood, stood, stood | due)
    for one in found.differs:
        lines += [(line, "wrong") for line in labelled("differs", f"{one.words}.  {one.source}")]
    if not found.differs:
        lines += [(line, "wrong") for line in labelled("differs", "in what could not be named here: the bytes are shown as they are")]
    return lines + why_lines(found)


def why_lines(found):
    lines = [(line, "") for about, why in found.because for line in labelled("because", f"{about}: {why}")]
    if found.underived:
        lines += [(line, "") for line in labelled("because", found.underived)]
    return lines


def zeros_note(finding, zeros):
    """Which list entries were zeros, or that they could not be accounted for."""
    if zeros is None:
        return [("zeros", f"{finding.zeros}, which could not be accounted for here. 02, R-6")] if finding.verdict != "UNREADABLE" else []
    lists = {}
    for tag, entry in zeros:
        lists.setdefault(tag, []).append(entry.in_words())
    return [("zeros", "; ".join(f"in {tag}: {', '.join(entries)}" for tag, entries in lists.items()) + ".  02, R-6")] if lists else []


DISPLAY = "verdict, place, code, zeros and due are the proved programs' words; everything else is display"


def note_lines(notes, style=""):
    return [(line, style) for label, text in notes for line in wrapped(f"{NOTE}{label:<11}", text)]


def body_lines(finding, found):
    """What is said of this tape and of no other: the lines between its name and what such a verdict means. Text and style."""
    lines = []
    if found.before:
        lines.append((f"      ..       {count(found.before, 'entry', 'entries')} before (--last 0 shows them)", "quiet"))
    for told in found.entries:
        lines += [(line, "") for line in entry_lines(told)]
    if found.stood:
        lines += failure_lines(found)
    elif found.due:
        lines += side_lines("due", found.due, set(), set()) + why_lines(found)
    return lines + note_lines([*zeros_note(finding, found.zeros), *found.notes])


def text_lines(name, judged, found):
    """All lines of a tape: text and style."""
    finding = judged.finding
    session = "" if judged.session is None else f", session {judged.session}"
    lines = [(f"{name}: {headline(finding)}", finding.verdict)]
    lines += note_lines([("tape", f"{count(judged.size, 'byte')}{session}, sha256 {judged.sha256}")], "quiet")
    lines += body_lines(finding, found)
    return lines + note_lines([("meaning", found.meaning), *([("note", DISPLAY)] if found.stood or found.because else [])])


def painted(lines, colour):
    """One text of all lines, with colours or without."""
    if not colour:
        return "\n".join(text for text, _ in lines)
    return "\n".join(f"\x1b[{COLOURS[style]}m{text}\x1b[0m" if COLOURS[style] else text for text, style in lines)
