"""bin/tape-from-log: a tape from the log of a card's exchanges."""
import os

from lab import files, judging, log_formats, log_reading, log_side, log_t0, numbers, programs, reports, tapes
from lab.words import NOT_ALL, Undone, command, text, voice

USAGE = """
bin/tape-from-log [--over] --format NAME --side FILE LOG TAPE SESSION    a tape from a log, judged

NAME is scriptor (pcsc-tools), gppro (GlobalPlatformPro --debug), opensc-tool, pcscd (--apdu), or sheet (source 004's). A log holds one
session's commands and answers; a line that the format does not have is an error with its number. FILE says what no card's log has, in
the tape's order, a line each:

    # words                        a remark
    LEVEL APDU, or LEVEL TPDU      the log's commands are whole; or they are those of T=0 (scriptor and pcscd), and GET RESPONSE and '6C'
                                   are put together by exchange_t0
    LE hex                         a command that the log has without Le was sent with this one; needed with TPDU
    START hex                      the terminal's data; bin/start makes it
    EXCHANGES n                    the next n exchanges of the log stand here
    RESULTS hex, HOST hex, DECISION hex, SILENCE       and these

Nothing is made up: no decision, no silence and no status that neither of the two says. SESSION is the tape's session number. TAPE is new,
unless --over says that it may be written over; then it is judged, and the judge's line is printed. bin/log-from-tape goes the other way.

Example:  bin/tape-from-log --format pcscd --side samples/online-over-t0.side samples/online-over-t0.log /tmp/session.tape 7
Status:   0 the tape is written and is PASS; 1 it is not PASS; 2 no tape was written, or it could not be judged
"""


def text_of(name):
    """A whole text file."""
    try:
        descriptor = files.open_file(name)
    except files.Unusable as why:
        raise Undone(f"{text(name)}: {why}") from None
    with os.fdopen(descriptor, "rb") as file:
        data = file.read()
    try:
        return data.decode("utf-8")
    except UnicodeDecodeError:
        raise Undone(f"{text(name)}: no text in UTF-8, at byte {len(data.decode('utf-8', 'ignore').encode())} or before") from None


def format_asked(asked):
    name = text(asked.get("--format", b""))
    if name not in log_formats.FORMATS:
        raise Undone(f"--format {name}: there are {', '.join(log_formats.FORMATS)}")
    return name


def exchanges_of(name, log, side):
    """The exchanges of a log as the terminal had them."""
    form, lines = log_formats.FORMATS[name](), text_of(log)
    if side.level == "TPDU" and not form.tpdu:
        raise Undone(f"LEVEL TPDU: a log of {name} has whole commands")
    try:
        found, protocol = form.read(lines)
        if side.level == "TPDU" and protocol == "1":
            raise Undone("LEVEL TPDU: the log says T=1")
        if side.level == "TPDU":
            return log_t0.assembled(found, side.le)
    except (log_reading.NotOfTheFormat, Undone) as why:
        raise Undone(f"{text(log)}: {why}") from None
    return [one._replace(command=log_t0.with_le(one.command, side.le)) for one in found]


def tape_of(asked, session):
    side_name, log = asked.get("--side"), asked.rest[0]
    try:
        side = log_side.read(text_of(side_name))
        entries = log_side.joined_with(side, exchanges_of(format_asked(asked), log, side))
        return tapes.written(session, entries)
    except (log_side.NoSide, tapes.NoTape) as why:
        raise Undone(f"{text(side_name)}: {why}") from None


def judge(name):
    """The judge's line of a tape, said."""
    with judging.Judges(1) as judges:
        [[judged]] = judges.in_order([(name, None)])
    if judged.error:
        raise Undone(f"{text(name)}: {judged.error}")
    if judged.finding.verdict != "PASS":
        voice.worse(NOT_ALL)
    voice.line(reports.line(judged))


def main(asked):
    if len(asked.rest) != 3 or not asked.get("--side") or not asked.get("--format"):
        raise Undone("--format NAME, --side FILE, the log, the tape and the session number are needed (--help)")
    tape = asked.rest[1]
    try:
        session = numbers.number(asked.rest[2])
    except numbers.NoNumber as why:
        raise Undone(f"session number: {why}") from None
    if os.path.lexists(tape) and not asked.get("--over"):
        raise Undone(f"{text(tape)}: is there already; --over writes over it")
    programs.ready(judging.PROGRAM)
    files.write_new(tape, tape_of(asked, session), over=bool(asked.get("--over")))
    judge(tape)


def start():
    command(USAGE, [judging.PROGRAM, log_t0.PROGRAM], main, flags=("--over",), valued=("--format", "--side"))
