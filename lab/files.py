"""Files, opened once. What is hashed is a copy in memory, and the copy is what is judged; a file that changes meanwhile is an error."""
import errno
import hashlib
import os
import stat
import tempfile

from lab import kinds

PIECE = 1 << 20
# A longer file is copied to the disk and not into memory.
LARGE = 1 << 24
KINDS = ((stat.S_ISDIR, "is a folder"), (stat.S_ISFIFO, "is a named pipe, not a file"), (stat.S_ISSOCK, "is a socket, not a file"),
         (stat.S_ISCHR, "is a device, not a file"), (stat.S_ISBLK, "is a device, not a file"))


class Unusable(Exception):
    """A file cannot be used; the text says why."""


def open_file(name):
    """A descriptor on a regular file. Nothing here waits: a named pipe that nobody writes is refused like any other."""
    try:
        descriptor = os.open(name, os.O_RDONLY | os.O_NONBLOCK | os.O_CLOEXEC | os.O_NOCTTY)
    except OSError as error:
        why = "is a socket, not a file" if error.errno == errno.ENXIO else error.strerror
        raise Unusable("cannot be opened: " + why if error.errno != errno.ENXIO else why) from None
    except ValueError:
        raise Unusable("cannot be opened: a name with a zero byte") from None
    mode = os.fstat(descriptor).st_mode
    if not stat.S_ISREG(mode):
        os.close(descriptor)
        raise Unusable(next((word for test, word in KINDS if test(mode)), "is not a file"))
    return descriptor


def state(descriptor):
    known = os.fstat(descriptor)
    return known.st_dev, known.st_ino, known.st_size, known.st_mtime_ns, known.st_ctime_ns


BLOCK = 512


class Copy:
    """A place for the bytes of one file at a time, which another process can open by name."""

    def __init__(self):
        self.memory = os.memfd_create("tape", os.MFD_CLOEXEC) if hasattr(os, "memfd_create") else None
        self.disk = self.taken = None

    def place(self, size):
        if self.memory is not None and size <= LARGE:
            return self.memory
        if self.disk is None:
            self.disk = tempfile.TemporaryFile()
        return self.disk.fileno()

    def take(self, name):
        """Copies a file: its size, its sha256, its first bytes, and the name of the copy."""
        descriptor = open_file(name)
        try:
            before = state(descriptor)
            size, place = before[2], self.place(before[2])
            self.taken = place
            os.ftruncate(place, 0)
            os.lseek(place, 0, os.SEEK_SET)
            digest, done, head = hashlib.sha256(), 0, b""
            while True:
                try:
                    piece = os.read(descriptor, PIECE)
                except OSError as error:
                    raise Unusable("cannot be read: " + error.strerror) from None
                if not piece:
                    break
                head = head or piece[:512]
                digest.update(piece)
                done += len(piece)
                if done > size:
                    raise Unusable("has changed while it was read")
                while piece:
                    piece = piece[os.write(place, piece):]
            if done != size or state(descriptor) != before:
                raise Unusable("has changed while it was read")
        finally:
            os.close(descriptor)
        return size, digest.hexdigest(), head, b"/proc/%d/fd/%d" % (os.getpid(), place)

    def block(self, index):
        """A block of the tape that was taken, or what there is of it."""
        return os.pread(self.taken, BLOCK, index * BLOCK)

    def from_start(self):
        """A descriptor on the tape that was taken, at its start."""
        os.lseek(self.taken, 0, os.SEEK_SET)
        return self.taken

    def entry(self, index):
        """The entry in a block of the tape that was taken, for display: the judge has read it."""
        block = self.block(index)
        return {"kind": kinds.name_of(block[8]), "bytes": block[12:12 + int.from_bytes(block[10:12], "big")].hex().upper()}

    def whole(self):
        """The bytes of the tape that was taken."""
        return os.pread(self.taken, os.fstat(self.taken).st_size, 0)

    def close(self):
        if self.memory is not None:
            os.close(self.memory)
        if self.disk is not None:
            self.disk.close()


def below(folder):
    """The tapes in a folder and the folders below it, in order of their names; what cannot be looked into is handed to `missed`."""
    found, missed = [], []
    for path, folders, names in os.walk(folder, onerror=missed.append):
        folders.sort()
        found += [os.path.join(path, name) for name in sorted(names) if name.endswith(b".tape")]
    return found, missed


def names_in(data):
    """Names on standard input: each ends with a zero byte, where there is one, and else with a line feed."""
    mark = b"\0" if b"\0" in data else b"\n"
    names = data.split(mark)
    if names[-1] == b"":
        names.pop()
    return names


def read_input():
    pieces = []
    while True:
        piece = os.read(0, PIECE)
        if not piece:
            return b"".join(pieces)
        pieces.append(piece)


def write_new(name, data, over=True):
    """A file written whole or not at all, and on its device; one that is there is written over, or is an error."""
    folder, base = os.path.split(os.path.abspath(os.fsencode(name)))
    number, temporary = tempfile.mkstemp(prefix=b"." + base + b".", dir=folder)
    try:
        with os.fdopen(number, "wb") as file:
            file.write(data)
            file.flush()
            os.fsync(file.fileno())
        os.chmod(temporary, 0o644)
        if not over:
            os.close(os.open(name, os.O_WRONLY | os.O_CREAT | os.O_EXCL | os.O_CLOEXEC))
        os.replace(temporary, name)
    except BaseException:
        os.unlink(temporary)
        raise
