"""What the tests of the front share: a folder for each, commands started in it, tapes."""
import contextlib
import os
import pathlib
import resource
import shutil
import signal
import subprocess
import sys
import tempfile
import unittest

ROOT = pathlib.Path(os.environ.get("LAB_ROOT") or pathlib.Path(__file__).resolve().parent.parent.parent)
SAMPLES = ROOT / "samples"
PASS, FAIL, INCONCLUSIVE, UNREADABLE = (SAMPLES / f"{name}.tape" for name in ("approved-offline", "no-such-day", "silent-card", "damaged"))
# A block of a book that is none: what a tape, a text and random bytes have at their start.
BLOCK = 512


def children(process):
    """The processes that one has started, and those that these have started."""
    found = []
    for task in pathlib.Path("/proc").glob("[0-9]*"):
        with contextlib.suppress(OSError, IndexError, ValueError):
            if int((task / "stat").read_text().rpartition(")")[2].split()[1]) == process:
                found += [int(task.name), *children(int(task.name))]
    return found


class Done:
    """What came of a command."""

    def __init__(self, status, out, err):
        self.status, self.out, self.err = status, out, err

    def __repr__(self):
        return f"status {self.status}\nout {self.out!r}\nerr {self.err!r}"

    def lines(self):
        return self.out.decode("utf-8", "backslashreplace").splitlines()


class Trial(unittest.TestCase):
    """A test with a folder of its own, in whose name there is a space."""
    maxDiff = None

    def setUp(self):
        self.folder = pathlib.Path(tempfile.mkdtemp(prefix="lab trial "))
        self.addCleanup(shutil.rmtree, self.folder, ignore_errors=True)

    def start(self, name, *words, **more):
        more.setdefault("stdin", subprocess.PIPE)
        more.setdefault("stdout", subprocess.PIPE)
        more.setdefault("stderr", subprocess.PIPE)
        return subprocess.Popen([ROOT / "bin" / name, *words], cwd=self.folder, **more)

    def bin(self, name, *words, given=b"", seconds=120, **more):
        """A command with its status and its words. One that does not end is a fault of its own."""
        process = self.start(name, *words, **more)
        try:
            out, err = process.communicate(given, seconds)
        except subprocess.TimeoutExpired:
            for ended in (process, *children(process.pid)):
                with contextlib.suppress(ProcessLookupError):
                    os.kill(ended if isinstance(ended, int) else ended.pid, signal.SIGKILL)
            process.communicate()
            self.fail(f"bin/{name} did not end within {seconds} s")
        return Done(process.returncode, out, err)

    def tape(self, name, source=PASS):
        """A copy of a sample, or some bytes, under a name."""
        path = os.path.join(os.fsencode(self.folder), os.fsencode(name))
        os.makedirs(os.path.dirname(path), exist_ok=True)
        with open(path, "wb") as file:
            file.write(source if isinstance(source, bytes) else source.read_bytes())
        return path

    def tapes(self, folder, count, first=1):
        """So many copies of the samples, numbered."""
        sources = [PASS.read_bytes(), FAIL.read_bytes(), INCONCLUSIVE.read_bytes(), UNREADABLE.read_bytes()]
        (self.folder / folder).mkdir(parents=True, exist_ok=True)
        for k in range(first, first + count):
            (self.folder / folder / f"t-{k}.tape").write_bytes(sources[k % 4])
        return self.folder / folder

    def check(self, done, status, *, out=(), err=(), no_out=(), no_err=()):
        """The status, and texts that stand, or do not stand, in what was said."""
        self.assertEqual(done.status, status, done)
        for words, said, there in ((out, done.out, True), (err, done.err, True), (no_out, done.out, False), (no_err, done.err, False)):
            for word in (words,) if isinstance(words, str) else words:
                self.assertEqual(word.encode() in said, there, f"{word!r} {'is missing' if there else 'stands there'}\n{done}")
        return done

    def counts(self, books):
        """The five numbers of all books of a folder, by the program itself."""
        total = [0] * 5
        for book in sorted((self.folder / books).glob("*.book")):
            done = self.bin("book", book, "counts")
            self.assertEqual(done.status, 0, done)
            total = [a + int(b) for a, b in zip(total, done.out.split()[1::2])]
        return total


def limited(size):
    """For a child: no file may grow beyond so many bytes, and a write that would is short or refused."""
    def before():
        signal.signal(signal.SIGXFSZ, signal.SIG_IGN)
        resource.setrlimit(resource.RLIMIT_FSIZE, (size, size))
    return before


def closed(*numbers):
    """For a child: these streams are closed."""
    def before():
        for number in numbers:
            os.close(number)
    return before


def program(name):
    """The words that start a proved program."""
    from lab import programs
    if ROOT != pathlib.Path(programs.ROOT):
        return programs.words_for(str(ROOT / "target" / "bin" / name))
    [words] = programs.ready(name)
    return words


def without_kit():
    """An environment with Python and git and no `rt`."""
    folder = tempfile.mkdtemp(prefix="no kit ")
    for name in ("python3", "env", "git", "sh", "uname"):
        found = os.path.realpath(sys.executable) if name == "python3" else shutil.which(name)
        if found:
            os.symlink(found, os.path.join(folder, name))
    return folder, {"PATH": folder, "HOME": folder}
