"""bin/log-from-tape: the log of a tape's exchanges, and its side file."""
import os

from lab import files, judging, log_formats, log_reading, log_side, tapes
from lab.commands.tape_from_log import format_asked
from lab.words import Undone, command, text, voice

USAGE = """
bin/log-from-tape [--over] --format NAME --side FILE TAPE LOG    the exchanges of a tape as a log, and the rest as its side file

The tape is judged first: of one that is UNREADABLE no log is made. Any other is taken as it stands; bin/tape-from-log of LOG and FILE gives
the same tape again under the same session number. Where a format wants what no tape has, a time, there stands nought. What the format
cannot say is refused: a command without bytes or without an answer in the middle, an answer without a status. LOG and FILE are new,
unless --over says that they may be written over.

Example:  bin/log-from-tape --format scriptor --side /tmp/session.side samples/online-pin.tape /tmp/session.log
Status:   0 both are written; 2 not
"""


def tape_bytes(name):
    """The bytes of a tape that the judge can read."""
    with judging.Judges(1) as judges:
        [[judged]] = judges.in_order([(name, None)])
        if judged.error:
            raise Undone(f"{text(name)}: {judged.error}")
        if judged.finding.verdict == "UNREADABLE":
            raise Undone(f"{text(name)}: {judged.finding.line()}: no log is made of it (bin/recover says what is left)")
        return judges.all[0].copy.whole()


def main(asked):
    if len(asked.rest) != 2 or not asked.get("--side") or not asked.get("--format"):
        raise Undone("--format NAME, --side FILE, the tape and the log are needed (--help)")
    (tape, log), side, form = asked.rest, asked.get("--side"), format_asked(asked)
    for name in (log, side):
        if os.path.lexists(name) and not asked.get("--over"):
            raise Undone(f"{text(name)}: is there already; --over writes over it")
    if os.path.abspath(log) == os.path.abspath(side):
        raise Undone("the log and the side file are two files")
    try:
        session, entries = tapes.entries(tape_bytes(tape))
        exchanges, items = log_side.apart(entries)
        lines = log_formats.written(form, [log_reading.Exchange(*one) for one in exchanges])
        beside = log_side.written(items)
    except (tapes.NoTape, log_side.NoSide, log_reading.NotOfTheFormat) as why:
        raise Undone(f"{text(tape)}: {why}") from None
    over = bool(asked.get("--over"))
    files.write_new(side, beside.encode(), over)
    try:
        files.write_new(log, lines.encode(), over)
    except OSError:
        os.unlink(side)
        raise
    voice.line(f"session {session}, {len(exchanges)} exchanges: ", text(log))


def start():
    command(USAGE, [judging.PROGRAM], main, flags=("--over",), valued=("--format", "--side"))
