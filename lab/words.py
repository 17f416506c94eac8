"""What is said: names, lines on standard output and standard error, progress, statuses, and what a command was asked.

Statuses, everywhere: 0 everything asked for was done and is PASS; 1 it was done, and not all is PASS; 2 something was not done, or
could not be said.
"""
import contextlib
import os
import signal
import sys

DONE, NOT_ALL, UNDONE = 0, 1, 2


class Undone(Exception):
    """Nothing more can be done; the text says why."""


class Interrupted(BaseException):
    """Somebody wants an end."""


def shown(name):
    """A name in a line. Where it holds a line feed, a carriage return or a backslash, these are escaped and a backslash stands in front,
    as sha256sum has it: no name can look like a line of its own."""
    name = os.fsencode(name)
    if not any(mark in name for mark in (b"\n", b"\r", b"\\")):
        return name
    return b"\\" + name.replace(b"\\", b"\\\\").replace(b"\n", b"\\n").replace(b"\r", b"\\r")


def named(line):
    """The name that `shown` has written."""
    if not line.startswith(b"\\"):
        return line
    marks = {b"\\": b"\\", b"n": b"\n", b"r": b"\r"}
    name, rest = b"", line[1:]
    while rest:
        if rest[:1] == b"\\":
            if rest[1:2] not in marks:
                raise ValueError("an escape that is none")
            name, rest = name + marks[rest[1:2]], rest[2:]
        else:
            name, rest = name + rest[:1], rest[1:]
    return name


def printable(name):
    """A name as text for the eye: as `shown` has it, and whatever a terminal might obey as \\xNN or \\uNNNN too."""
    return "".join(one if one.isprintable() else one.encode("unicode_escape").decode() for one in text(shown(name)))


def text(name):
    """A name as text; bytes that are no UTF-8 as \\xNN."""
    return os.fsencode(name).decode("utf-8", "backslashreplace")


class Signals:
    """SIGINT and SIGTERM raise Interrupted, but never in the middle of a line."""

    def __init__(self):
        self.whole, self.pending = 0, False

    def catch(self):
        for number in (signal.SIGINT, signal.SIGTERM):
            signal.signal(number, self.arrived)

    def arrived(self, number, frame):
        if self.whole:
            self.pending = True
        else:
            raise Interrupted()

    @contextlib.contextmanager
    def held(self):
        self.whole += 1
        try:
            yield
        finally:
            self.whole -= 1
        if self.pending and not self.whole:
            self.pending = False
            raise Interrupted()


signals = Signals()


def write_all(descriptor, data):
    while data:
        data = data[os.write(descriptor, data):]


class Voice:
    """Standard output and standard error, a whole line at a time, and the status that all of it comes to."""

    def __init__(self):
        self.status, self.progressing = DONE, False
        self.terminal = False
        self.deaf = False

    def worse(self, status):
        self.status = max(self.status, status)

    def open(self):
        """A stream that is closed would lend its number to the next file: it is taken, and reading or writing it fails."""
        for number in (0, 1, 2):
            try:
                os.fstat(number)
            except OSError:
                os.open("/dev/null", os.O_WRONLY if number == 0 else os.O_RDONLY)
        try:
            self.terminal = os.isatty(2)
        except OSError:
            self.terminal = False

    def line(self, *parts):
        """One line on standard output."""
        data = b"".join(part if isinstance(part, bytes) else part.encode() for part in parts) + b"\n"
        with signals.held():
            self.clear()
            try:
                write_all(1, data)
            except OSError as error:
                raise Undone("standard output: " + error.strerror + ": a line was not written") from None

    def note(self, *parts):
        """One line on standard error."""
        data = b"".join(part if isinstance(part, bytes) else part.encode() for part in parts) + b"\n"
        with signals.held():
            self.clear()
            self.mutter(data)

    def fault(self, *parts):
        """Something was not done."""
        self.worse(UNDONE)
        self.note(*parts)

    def mutter(self, data):
        try:
            write_all(2, data)
        except OSError:
            self.deaf = True
            self.worse(UNDONE)

    def progress(self, *parts):
        """How far it is, where somebody looks at it."""
        if self.terminal:
            data = b"".join(part if isinstance(part, bytes) else part.encode() for part in parts)
            self.mutter(b"\r\x1b[K" + data.replace(b"\n", b" ")[:200])
            self.progressing = True

    def clear(self):
        if self.progressing:
            self.progressing = False
            self.mutter(b"\r\x1b[K")


voice = Voice()


class Asked:
    """The words of a command: options, and what is left."""

    def __init__(self, words, flags=(), valued=(), rest_free=False):
        self.options, self.rest = {}, []
        words = [os.fsencode(word) for word in words]
        while words:
            word = words.pop(0)
            if word == b"--":
                self.rest += words
                break
            if word == b"-" or not word.startswith(b"-"):
                self.rest.append(word)
                if rest_free:
                    self.rest += words
                    break
                continue
            name, equals, value = word.decode("utf-8", "backslashreplace").partition("=")
            if name in ("--help", "--version") or name in flags:
                if equals:
                    raise Undone(f"{name} takes no value")
                self.options[name] = True
            elif name in valued:
                if not equals and not words:
                    raise Undone(f"{name} needs a value")
                self.options[name] = os.fsencode(value) if equals else words.pop(0)
            else:
                raise Undone(f"{name} is no option here (--help says which there are; -- stands before names with a dash in front)")

    def get(self, name, default=None):
        return self.options.get(name, default)


def command(usage, programs, main, flags=(), valued=(), rest_free=False):
    """Starts a command and ends with its status."""
    voice.open()
    signals.catch()
    own = os.path.basename(sys.argv[0])
    try:
        asked = Asked(sys.argv[1:], flags, valued, rest_free)
        if asked.get("--help"):
            voice.line(usage.strip())
        elif asked.get("--version"):
            from lab import programs as running
            for line in running.versions(programs):
                voice.line(line)
        else:
            main(asked)
    except Undone as why:
        voice.fault(f"{own}: {why}")
    except Interrupted:
        voice.fault(f"{own}: interrupted; the same command goes on from here")
    except OSError as error:
        voice.fault(f"{own}: ", shown(error.filename) + b": " if error.filename is not None else b"", error.strerror or str(error))
    sys.exit(voice.status)
