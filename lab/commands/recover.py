"""bin/recover: what is left of damaged tapes."""
import os
import sys

from lab import files, findings, programs, recovery
from lab.explaining.hiding import Hider
from lab.words import NOT_ALL, Undone, command, shown, voice

USAGE = """
bin/recover [--hide-pan] [FILE ..]    lists the good blocks of any files; alone, of the bundled damaged sample

For each file: its name, a line for each good block (step, number, session, kind, payload in hexadecimal), END with the whole steps and the
bytes after the last of them, how many blocks were found, at which steps there is none, and which sessions were met with which numbers.
A file that cannot be read to its end gets a line on standard error and nothing else, and does not stop the others.

--hide-pan    stars for digits of account numbers and for what names the cardholder, as bin/explain shows them: for a list that is handed
              on. Without it payloads are whole, as they stand on the tape

Example:  bin/recover samples/damaged.tape
Status:   0 every step of every file holds a good block; 1 some step does not, or bytes follow the last; 2 some file could not be read, or
          something could not be written
"""


def payload_of(line):
    """The payload that a line of a block tells; none where it is the last line."""
    found = findings.BLOCK.fullmatch(line)
    return bytes.fromhex(found.group(5).decode().strip("-")) if found else b""


def masked(lines):
    """The lines with stars for account numbers, each as the whole file tells them."""
    hider = Hider((payload_of(line) for line in lines), False)
    lines.seek(0)
    for line in lines:
        payload = payload_of(line)
        yield line[:-1 - 2 * len(payload)] + hider.hex(payload).encode() + b"\n" if payload else line


def recover(name, words, hide):
    try:
        descriptor = files.open_file(name)
    except files.Unusable as why:
        return voice.fault(shown(name), b": ", str(why))
    try:
        with recovery.listed(words, descriptor) as (lines, left):
            voice.line(shown(name))
            for line in masked(lines) if hide else lines:
                voice.line(line[:-1])
            for line in left.lines():
                voice.line(line)
            if not left.whole():
                voice.worse(NOT_ALL)
    except recovery.Unread as said:
        voice.fault(shown(name), b": not read to its end", f" ({said})" if str(said) else "")
    finally:
        os.close(descriptor)


def main(asked):
    names = asked.rest
    if not names:
        sample = os.path.join(programs.ROOT, "samples", "damaged.tape")
        if len(sys.argv) > 1:
            raise Undone("no file is named")
        voice.note("no file is named: this is the bundled damaged sample")
        names = [os.fsencode(sample)]
    [words] = programs.ready(recovery.PROGRAM)
    for name in names:
        recover(name, words, asked.get("--hide-pan"))


def start():
    command(USAGE, [recovery.PROGRAM], main, flags=("--hide-pan",))
