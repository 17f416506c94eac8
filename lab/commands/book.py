"""bin/book: one campaign book."""

from lab import books, files, findings, numbers, programs
from lab.words import NOT_ALL, Undone, command, text, voice

USAGE = """
bin/book FILE add NUMBER < LINE    enters what the judge's line says of the tape with this number
bin/book FILE add - < LINES        the same for many: NUMBER and the judge's line, a line each
bin/book FILE counts               the four counts, and their sum
bin/book FILE list                 an entry a line: tape number, verdict, place, code
bin/book FILE check                whether the file is a book, and how many entries it has

A tape is entered once under its number. `no verdict`, `already entered` and `full` are refusals and change nothing. An entry is on the
disk when `entered` is said. Two at once wait for each other. Where the last block was not stored whole, it is said how to cut it off.

Example:  bin/judge samples/unable.tape | cut -d' ' -f2- | bin/book night.book add 3
Status:   0 entered, shown, or good; 1 some entry was refused; 2 the file is no book, or something could not be read or written
"""


def entries_asked(third):
    """The lines to enter, each `number verdict place code zeros`, checked in full."""
    try:
        data = files.read_input()
    except OSError as error:
        raise Undone("standard input: " + error.strerror) from None
    if third != b"-":
        number = numbers.number(third)
        if not findings.finding(data):
            raise Undone("standard input is not one whole line of the judge's")
        return [b"%d " % number + data]
    rows = data.split(b"\n")
    if rows.pop() != b"":
        raise Undone("standard input does not end with a whole line")
    for k, row in enumerate(rows, 1):
        digits, _, line = row.partition(b" ")
        if not findings.finding(line + b"\n"):
            raise Undone(f"line {k} is not a number and a line of the judge's; nothing was entered")
        numbers.number(digits)
    if not rows:
        raise Undone("no line on standard input")
    return [row + b"\n" for row in rows]


def add(book, third):
    try:
        lines = entries_asked(third)
    except numbers.NoNumber as why:
        raise Undone(f"tape number: {why}") from None
    if book.endswith(b".tape"):
        raise Undone(f"{text(book)}: the name of a tape, not of a book")
    with books.locked(book, wait=10, tidy=True) as lock:
        used = books.check(book)
        note_unknown(book, used)
        talk = programs.Talk(books.words() + [books.name_for(book), "add", "-"], keep=(lock,))
        try:
            for line in lines:
                reply = talk.ask(line)
                if reply not in findings.REPLIES:
                    raise Undone(f"{text(book)}: {reply.decode('utf-8', 'backslashreplace').strip()}")
                if reply != b"entered\n":
                    voice.worse(NOT_ALL)
                voice.line(reply[:-1])
        except programs.Ended as why:
            raise Undone(f"{text(book)}: {why}; the entry was not made") from None
        finally:
            talk.close()


def note_unknown(book, used):
    """A book of a campaign has a list beside it: lines behind the last entry are cut off, so that none is taken for this one's."""
    lines, ends = books.listed(books.list_of(book))
    if len(lines) > used:
        with open(books.list_of(book), "r+b") as file:
            file.truncate(ends[used])


def main(asked):
    if len(asked.rest) < 2:
        raise Undone("a file and what to do with it: add, counts, list or check (--help)")
    book, what, rest = asked.rest[0], asked.rest[1], asked.rest[2:]
    if what == b"add" and len(rest) == 1:
        programs.ready(books.PROGRAM)
        try:
            return add(book, rest[0])
        except books.Refused as why:
            raise Undone(str(why)) from None
    if what not in (b"counts", b"list", b"check") or rest:
        raise Undone("what to do is: add NUMBER, counts, list or check (--help)")
    try:
        show(book, what)
    except books.Refused as why:
        raise Undone(str(why)) from None


def show(book, what):
    if what == b"check":
        voice.line(f"good {books.check(book)}")
    elif what == b"counts":
        voice.line("PASS %d FAIL %d INCONCLUSIVE %d UNREADABLE %d TOTAL %d" % tuple(books.counts(book)))
    else:
        for entry in books.entries(book):
            voice.line(f"{entry.number} {entry.line()}")


def start():
    command(USAGE, [books.PROGRAM], main)
