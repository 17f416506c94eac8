"""bin/run: any proved program by its name."""
import os

from lab import programs
from lab.words import Undone, command

USAGE = """
bin/run NAME [WORD ..]    starts a proved program with these words, on this standard input and output; it is built first where it must be

Example:  printf 'COLD 3B6700009C732000179000\\n' | bin/run read_atr
Status:   2 where it could not be started; else the program's own, which says nothing: what a program has to say stands in its lines
Programs: {}
"""


def main(asked):
    if not asked.rest:
        raise Undone("no program is named (--help says which there are)")
    name = asked.rest[0].decode("utf-8", "backslashreplace")
    if not programs.is_program(name):
        raise Undone(f"{name} is no program here; there are: {' '.join(programs.all_programs())}")
    [words] = programs.ready(name)
    os.execv(words[0], words + asked.rest[1:])


def start():
    command(USAGE.format(" ".join(programs.all_programs())), programs.all_programs(), main, rest_free=True)
