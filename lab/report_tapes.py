"""From lines of findings to what a report shows: tapes, terminals, and groups of tapes with one cause. Nothing that a line says gets lost.

A tape is a name with a sha256. Two lines of one tape that say the same are one tape; where they say different things of the same bytes the
worst counts, and both are shown. One name with two sha256 is two tapes: a file that has changed since does not take its FAIL along. An
ERROR is settled by a verdict under the same name in a later line, and shown all the same.
"""
import os
import re
from typing import NamedTuple

from lab import report_words
from lab.findings import Finding
from lab.verdicts import VERDICTS

# From the worst to the best: what counts where lines of one tape disagree.
WORST = ("FAIL", "UNREADABLE", "INCONCLUSIVE", "PASS")
IN_NAME = re.compile(rb"(.*?)[-_. ]*[0-9]*\.tape", re.DOTALL)
# So many groups have a line of their own; the rarer ones stand together in one more. So many tapes of each verdict are listed.
MOST_GROUPS = 150
LISTED = {"FAIL": 900, "INCONCLUSIVE": 350, "UNREADABLE": 350}


class Night(NamedTuple):
    """All that a report is made from, the tapes in order. `disputed` are lists of lines that say different things of the same bytes."""
    tapes: list
    errors: list
    settled: int
    disputed: list
    changed: list
    copies: int
    judges: dict


class Terminal:
    """A terminal's tapes in order, and how many could not be judged."""

    def __init__(self, name):
        self.name, self.tapes, self.errors = name, [], 0

    def worst_first(self):
        """Most failures first, then most of what is no evidence, then by name."""
        told = counts(self.tapes)
        return -told["FAIL"], -(told["INCONCLUSIVE"] + told["UNREADABLE"] + self.errors), self.name


class Group(NamedTuple):
    """Tapes with one cause, in words; or the rarer causes together."""
    words: str
    tapes: list
    mixed: bool = False


def finding(line):
    return Finding(line.verdict, line.place, line.code, line.zeros)


def gathered(lines):
    tapes, disputed, errors, last, judges = {}, {}, [], {}, {}
    for at, line in enumerate(lines):
        judges[line.judge] = judges.get(line.judge, 0) + 1
        if line.verdict == "ERROR":
            errors.append((at, line))
            continue
        last[line.name] = at
        key = line.name, line.sha256
        old = tapes.setdefault(key, line)
        if finding(old) != finding(line):
            disputed.setdefault(key, [old]).append(line)
            tapes[key] = min(old, line, key=lambda one: WORST.index(one.verdict))
    names = {}
    for name, _ in tapes:
        names[name] = names.get(name, 0) + 1
    settled = sum(last.get(line.name, -1) > at for at, line in errors)
    return Night(sorted(tapes.values(), key=in_order), [line for _, line in errors], settled, list(disputed.values()),
                 sorted(name for name, count in names.items() if count > 1), len(tapes) - len({sha256 for _, sha256 in tapes}), judges)


def in_order(tape):
    """By number; those without one behind the others; then by name."""
    return tape.number is None, tape.number or 0, tape.name


def folder_of(name):
    return name.rpartition(b"/")[0] or (b"/" if name.startswith(b"/") else b".")


def shared(folders):
    """How many parts at their beginning all folders have in common, where there are several."""
    return len(os.path.commonprefix([folder.split(b"/") for folder in folders])) if len(folders) > 1 else 0


def terminal_names(names, by):
    """The terminal of each tape's name: the folder it lies in, without what all folders have in common; or what stands in the file's own
    name before the digits at its end."""
    if by == b"name":
        found = {name: IN_NAME.fullmatch(os.path.basename(name)) for name in names}
        return {name: (match.group(1) if match else os.path.basename(name)) or b"(no name)" for name, match in found.items()}
    folders = {name: folder_of(name) for name in names}
    apart = set(folders.values())
    common = shared(apart)
    terminal = {folder: b"/".join(folder.split(b"/")[common:]) or b"." for folder in apart}
    return {name: terminal[folder] for name, folder in folders.items()}


def terminals(night, by):
    """Each terminal with its tapes in order, the worst first."""
    named = terminal_names({line.name for line in (*night.tapes, *night.errors)}, by)
    found = {}
    for name in set(named.values()):
        found[name] = Terminal(name)
    for tape in night.tapes:
        found[named[tape.name]].tapes.append(tape)
    for line in night.errors:
        found[named[line.name]].errors += 1
    return sorted(found.values(), key=Terminal.worst_first), named


def counts(tapes):
    verdicts = [tape.verdict for tape in tapes]
    return {verdict: verdicts.count(verdict) for verdict in VERDICTS}


def groups(night, verdict):
    """The tapes of a verdict by what is told of their cause, the largest group first; each in order."""
    found = {}
    for tape in night.tapes:
        if tape.verdict == verdict:
            found.setdefault(report_words.cause(tape), []).append(tape)
    made = sorted((Group(words, tapes) for words, tapes in found.items()), key=lambda group: (-len(group.tapes), group.words))
    rare = made[MOST_GROUPS:]
    if not rare:
        return made
    return made[:MOST_GROUPS] + [Group(f"{len(rare)} rarer causes together", [tape for group in rare for tape in group.tapes], True)]


def opened(night):
    """The groups of each verdict, each with those of its tapes that are listed."""
    made = {}
    for verdict, most in LISTED.items():
        found = groups(night, verdict)
        listed = share([len(group.tapes) for group in found], most)
        made[verdict] = [(group, group.tapes[:listed]) for group in found]
    return made


def share(sizes, most):
    """How many of each group are listed, where `most` are listed in all: small groups whole, the others alike."""
    left, limit = sorted(sizes), 0
    while left and len(left) * (left[0] - limit) <= most:
        most -= len(left) * (left[0] - limit)
        limit = left.pop(0)
    return limit + most // len(left) if left else limit
