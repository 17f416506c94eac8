"""Books: one in a file, and a campaign's folder of them.

A campaign's folder holds 0001.book, 0002.book and so on, 4,096 entries each, and beside each its list, 0001.sha256, which `sha256sum -c`
takes: line k of the list belongs to entry k of the book. A line that begins with # stands for an entry whose tape is not known, as one
entered by hand. The list's lines are on the disk before their entries, so after an interruption it may have lines too many: those behind
the last entry are cut off when the campaign goes on.

Whoever adds to a book holds a lock (flock) on its file; a campaign holds one on its folder's file `lock` as well. The program that adds
holds them too: where its front is killed, they last until it has ended.
"""
import contextlib
import fcntl
import os
import re
import shlex
import tempfile
import time

from lab import files, findings, programs
from lab.words import Undone, named, shown, text

PROGRAM = "book_file"
BLOCK, FULL = 512, 4096
# How long a second process waits for the first, in seconds, before it is told.
WAIT = 1.0
IN_FOLDER = re.compile(rb"[0-9]{4,9}\.book")
LISTED = re.compile(rb"(\\?)([0-9a-f]{64})  (.+)", re.DOTALL)
UNKNOWN = b"# no tape known for this entry"


class Refused(Exception):
    """A file is no book, or cannot be opened; the text says why and what can be done."""


def words():
    [found] = programs.ready(PROGRAM)
    return found


def ask(book, *asked):
    """What the program says of a book that is there, in whole lines."""
    try:
        os.close(files.open_file(book))
    except files.Unusable as why:
        raise Refused(f"{text(book)}: {why}") from None
    said, errors, status = programs.said(words() + [name_for(book), *asked])
    if errors or status != 0 or (said and not said.endswith(b"\n")):
        raise Refused(f"{text(book)}: {errors or 'not told whole'}")
    if said.startswith(b"refused "):
        raise Refused(f"{text(book)}: {said.decode().strip()}: {advice(book, said)}")
    return said


def name_for(book):
    """A name that no program takes for an option."""
    return b"./" + book if book.startswith(b"-") else book


def advice(book, said):
    """What is known of a file that the program refuses as a book, and what can be done. The whole blocks are opened first."""
    size = os.stat(book).st_size
    if size > BLOCK * FULL:
        return "too long for a book"
    whole = good_blocks(book, size // BLOCK)
    if whole == 0:
        return "it is no book: no valid entry stands at its start"
    if whole == size // BLOCK or whole == size // BLOCK - 1 and size % BLOCK == 0:
        part = "was not stored whole" if size % BLOCK else "fails its check"
        return (f"its last block {part}; the {whole} before it are good. If its power went while it was written, cut it off with: "
                f"truncate -s {whole * BLOCK} -- {shlex.quote(text(book))}  and enter its tape again")
    return f"block {whole} of {size // BLOCK} is damaged, and others stand behind it; nothing can be cut off without losing them"


def good_blocks(book, count):
    """How many of the first blocks are a book by themselves: all, all but the last, or as far as the program says that they are good."""
    with open(book, "rb") as file:
        data = file.read(BLOCK * count)
    while data:
        with tempfile.NamedTemporaryFile() as copy:
            copy.write(data)
            copy.flush()
            said = programs.said(words() + [os.fsencode(copy.name), "check"])[0]
        if findings.GOOD.fullmatch(said):
            return len(data) // BLOCK
        found = findings.REFUSED.fullmatch(said)
        if not found or int(found.group(1)) * BLOCK >= len(data):
            return 0
        data = data[:int(found.group(1)) * BLOCK]
    return 0


def check(book):
    """How many entries a book has."""
    found = findings.GOOD.fullmatch(ask(book, "check"))
    if not found:
        raise Refused(f"{text(book)}: the program's word is not one of its own")
    return int(found.group(1))


def entries(book):
    """The entries of a book, in order."""
    said = ask(book, "list")
    listed = [findings.entry(line) for line in said.split(b"\n")[:-1]]
    if None in listed or len(listed) * BLOCK != os.stat(book).st_size:
        raise Refused(f"{text(book)}: its list was not told whole")
    return listed


def counts(book):
    told = findings.numbers(findings.COUNTS, ask(book, "counts"))
    if told is None or sum(told[:4]) != told[4]:
        raise Refused(f"{text(book)}: its counts were not told whole")
    return told


def take_lock(name, until):
    """A descriptor that holds the lock on the file of this name."""
    while True:
        descriptor = os.open(name, os.O_RDWR | os.O_CREAT | os.O_CLOEXEC, 0o666)
        try:
            fcntl.flock(descriptor, fcntl.LOCK_EX | fcntl.LOCK_NB)
            # where the name was taken away meanwhile, the lock is on nothing
            if os.path.exists(name) and os.path.samestat(os.stat(name), os.fstat(descriptor)):
                return descriptor
        except BlockingIOError:
            if time.monotonic() > until:
                os.close(descriptor)
                raise Undone(f"{text(name)}: another process is adding to it; nothing was added by this one") from None
        os.close(descriptor)
        time.sleep(0.02)


@contextlib.contextmanager
def locked(name, wait=0.0, tidy=False):
    """Holds the lock on a file, which is made where it is missing; to be tidy it is taken away again where it is still empty."""
    made = not os.path.lexists(name)
    descriptor = take_lock(name, time.monotonic() + wait)
    try:
        yield descriptor
    finally:
        if tidy and made and os.fstat(descriptor).st_size == 0:
            os.unlink(name)
        os.close(descriptor)


def listed(name):
    """The lines of a book's list: (sha256, tape), or None for a line of no tape; and the places where each line ends."""
    try:
        with open(name, "rb") as file:
            data = file.read()
    except FileNotFoundError:
        return [], [0]
    lines, ends, at = [], [0], 0
    for row in data.split(b"\n")[:-1]:
        at += len(row) + 1
        found = LISTED.fullmatch(row)
        if not found and not row.startswith(b"#"):
            raise Refused(f"{text(name)}: line {len(lines) + 1} is none of a list of sha256")
        lines.append((found.group(2).decode(), named(found.group(1) + found.group(3))) if found else None)
        ends.append(at)
    return lines, ends


def list_line(sha256, tape):
    name = shown(tape)
    return (b"\\" if name.startswith(b"\\") else b"") + sha256.encode() + b"  " + (name[1:] if name.startswith(b"\\") else name) + b"\n"


def list_of(book):
    return book[:-5] + b".sha256" if book.endswith(b".book") else book + b".sha256"


def sync_folder(folder):
    descriptor = os.open(folder, os.O_RDONLY)
    try:
        os.fsync(descriptor)
    finally:
        os.close(descriptor)


class Open:
    """The book that a campaign adds to: its program, its lock and its list."""

    def __init__(self, book, used, folder_lock):
        self.book, self.used = book, used
        self.lock = contextlib.ExitStack()
        locks = (folder_lock, self.lock.enter_context(locked(book, WAIT)))
        lines, ends = listed(list_of(book))
        self.list = os.open(list_of(book), os.O_RDWR | os.O_CREAT | os.O_CLOEXEC, 0o666)
        os.ftruncate(self.list, ends[min(used, len(lines))])
        os.lseek(self.list, 0, os.SEEK_END)
        self.write(b"".join([UNKNOWN + b"\n"] * (used - len(lines))))
        sync_folder(os.path.dirname(book) or b".")
        self.talk = programs.Talk(words() + [name_for(book), "add", "-"], keep=locks)

    def write(self, data):
        while data:
            data = data[os.write(self.list, data):]

    def announce(self, tapes):
        """The list's lines for the entries that follow, on the disk."""
        try:
            self.write(b"".join(list_line(sha256, tape) for sha256, tape in tapes))
            os.fdatasync(self.list)
        except OSError as error:
            raise Undone(f"{text(list_of(self.book))}: {error.strerror}; its entries are not made") from None

    def enter(self, number, found):
        """One entry; it is on the disk when this comes back."""
        try:
            reply = self.talk.ask(f"{number} {found.line()}\n".encode())
        except programs.Ended as why:
            raise Undone(f"{text(self.book)}: {why}; tape {number} is not entered") from None
        if reply != b"entered\n":
            said = reply.decode("utf-8", "backslashreplace").strip()
            raise Undone(f"{text(self.book)}: tape {number} was not entered: {said}")
        self.used += 1

    def close(self):
        self.talk.close()
        os.close(self.list)
        self.lock.close()


class Campaign:
    """A folder of books: what stands in them, and the one that is added to."""

    def __init__(self, folder):
        self.folder, self.held, self.open = folder, {}, None
        self.stack = contextlib.ExitStack()

    def begin(self):
        try:
            os.mkdir(self.folder)
        except FileExistsError:
            if not os.path.isdir(self.folder):
                raise Undone(f"{text(self.folder)}: is a file; a campaign keeps its books in a folder, which is named first") from None
        self.lock = self.stack.enter_context(locked(os.path.join(self.folder, b"lock"), WAIT))
        self.books = sorted((name for name in os.listdir(self.folder) if IN_FOLDER.fullmatch(name)), key=lambda name: int(name[:-5]))
        self.books = [os.path.join(self.folder, name) for name in self.books]
        for book in self.books:
            self.learn(book)

    def learn(self, book):
        try:
            found, (lines, _) = entries(book), listed(list_of(book))
        except Refused as why:
            raise Undone(str(why)) from None
        for k, entry in enumerate(found):
            if entry.number in self.held:
                raise Undone(f"{text(book)}: tape {entry.number} stands in another book of this folder too")
            self.held[entry.number] = (entry, lines[k] if k < len(lines) else None)
        self.last_used = len(found)

    def entry(self, number):
        """The entry under a number with (sha256, tape), in whichever book, or None."""
        return self.held.get(number)

    def ready(self):
        """The book to add to, the next one where it is full."""
        if self.open is not None and self.open.used == FULL:
            self.open.close()
            self.open = None
            self.last_used = FULL
        if self.open is None:
            if not self.books or self.last_used >= FULL:
                self.books.append(self.next_name())
                self.last_used = 0
            self.open = Open(self.books[-1], self.last_used, self.lock)
        return self.open

    def next_name(self):
        last = int(os.path.basename(self.books[-1])[:-5]) if self.books else 0
        return os.path.join(self.folder, b"%04d.book" % (last + 1))

    def enter(self, judged):
        """Enters tapes (with number, finding and sha256) in order, and hands back each when it is on the disk."""
        while judged:
            book = self.ready()
            some, judged = judged[:FULL - book.used], judged[FULL - book.used:]
            book.announce([(one.sha256, os.path.abspath(one.name)) for one in some])
            for one in some:
                book.enter(one.number, one.finding)
                self.held[one.number] = (findings.Entry(one.number, *one.finding[:3]), (one.sha256, os.path.abspath(one.name)))
                yield one

    def counts(self):
        """The four counts of all books and their sum."""
        if self.open is not None:
            self.open.close()
            self.open = None
        total = [0] * 5
        for book in self.books:
            if os.path.exists(book):
                total = [a + b for a, b in zip(total, counts(book))]
        return total

    def close(self):
        if self.open is not None:
            self.open.close()
        self.stack.close()
