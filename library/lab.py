"""For x86-64 Linux alone. The proved judge, tape, book and answer to reset as a library, written by tools/lab-headers from
crates/lab/src: what each function promises stands there as an equation. There is no state, and no call that has to come first.
A pointer is never null, also where its length is 0; what is lent to be written may not overlap anything else that is lent.

Bytes that are read are `bytes`, those that are written a `bytearray`; an array of numbers is `(ctypes.c_uint64 * n)()`."""
import ctypes


def read(data):
    """A pointer to a copy of bytes, and their number."""
    return (ctypes.c_ubyte * max(1, len(data))).from_buffer_copy(bytes(data) or bytes(1)), len(data)


def written(data):
    """A pointer to the bytes of a bytearray themselves, and their number."""
    if not isinstance(data, bytearray):
        raise TypeError("a bytearray is written to")
    return ((ctypes.c_ubyte * len(data)).from_buffer(data) if data else (ctypes.c_ubyte * 1)()), len(data)


def number(value, bits):
    """A number that fits; ctypes would cut off what does not."""
    if not 0 <= value < 1 << bits:
        raise ValueError(f"{value} is no number of {bits} bits")
    return value


def numbers(array, count):
    """An array of so many numbers."""
    if not isinstance(array, ctypes.c_uint64 * count):
        raise TypeError(f"an array of {count} numbers is written to")
    return array


class Lab:
    """The library in a shared object, by its name."""

    def __init__(self, name):
        self.linked = ctypes.CDLL(name)
        self.declare("lab_book_open", ctypes.c_uint8, ctypes.c_void_p, ctypes.c_size_t, ctypes.c_void_p)
        self.declare(
            "lab_book_enter",
            ctypes.c_uint8,
            ctypes.c_uint32,
            ctypes.c_uint32,
            ctypes.c_uint8,
            ctypes.c_uint32,
            ctypes.c_uint32,
            ctypes.c_void_p,
            ctypes.c_size_t
        )
        self.declare("lab_judge", None, ctypes.c_void_p, ctypes.c_size_t, ctypes.c_void_p)
        self.declare("lab_judge_quick", None, ctypes.c_void_p, ctypes.c_size_t, ctypes.c_void_p)
        self.declare("lab_due", None, ctypes.c_void_p, ctypes.c_size_t, ctypes.c_void_p, ctypes.c_void_p, ctypes.c_size_t)
        self.declare("lab_atr", ctypes.c_bool, ctypes.c_void_p, ctypes.c_size_t, ctypes.c_bool, ctypes.c_void_p)
        self.declare(
            "lab_append",
            ctypes.c_uint8,
            ctypes.c_size_t,
            ctypes.c_uint32,
            ctypes.c_uint8,
            ctypes.c_void_p,
            ctypes.c_size_t,
            ctypes.c_void_p,
            ctypes.c_size_t
        )
        self.declare("lab_recover", ctypes.c_bool, ctypes.c_void_p, ctypes.c_size_t, ctypes.c_size_t, ctypes.c_void_p)

    def declare(self, name, result, *types):
        function = getattr(self.linked, name)
        function.restype, function.argtypes = result, types

    def lab_book_open(self, bytes, end):
        """Any bytes reopened. 0: the blocks used and the four counts, PASS, FAIL, INCONCLUSIVE, UNREADABLE. Else the fault, and the
        block first."""
        return self.linked.lab_book_open(*read(bytes), numbers(end, 5))

    def lab_book_enter(self, used, tape, verdict, place, code, bytes):
        """An entry handed in to a book that has so many blocks used: 0 entered, 1 no verdict, 2 already entered, 3 full."""
        return self.linked.lab_book_enter(
            number(used, 32),
            number(tape, 32),
            number(verdict, 8),
            number(place, 32),
            number(code, 32),
            *written(bytes)
        )

    def lab_judge(self, tape, finding):
        """The verdict of a tape (1 PASS, 2 FAIL, 3 INCONCLUSIVE, 4 UNREADABLE), its place, its code, and the number of zeros."""
        return self.linked.lab_judge(*read(tape), numbers(finding, 4))

    def lab_judge_quick(self, tape, finding):
        """The same numbers by the quick judge."""
        return self.linked.lab_judge_quick(*read(tape), numbers(finding, 4))

    def lab_due(self, tape, next, out):
        """What is due after the entries of a tape: its kind, and the number of its bytes, which stand at the start of `out`, or of
        what is wanted. Kind 0: nothing is due; 255: its bytes do not fit; 254: the tape is unreadable, beside the code."""
        return self.linked.lab_due(*read(tape), numbers(next, 2), *written(out))

    def lab_atr(self, capture, warm, told):
        """An answer to reset, after a cold or a warm one. True: inverse, F, D, N, interval, specific, the protocol, its parameters
        (WI; or IFSC, BWI and CWI) with zeros behind them, and where the historical bytes start and end. False: inverse, the rules
        broken, the first, its place."""
        return self.linked.lab_atr(*read(capture), number(warm, 1), numbers(told, 12))

    def lab_append(self, used, session, kind, payload, tape):
        """One entry more on a tape that has so many blocks used, under a session number: 0, or the number under which it is turned
        away."""
        return self.linked.lab_append(number(used, 64), number(session, 32), number(kind, 8), *read(payload), *written(tape))

    def lab_recover(self, bytes, step, block):
        """The next good block of any bytes at or after a step: the step it stands at, its number, session number and kind, and where
        its payload starts and how long it is. False, and nothing changes, where there is none."""
        return self.linked.lab_recover(*read(bytes), number(step, 64), numbers(block, 6))
