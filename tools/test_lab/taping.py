"""Tapes made for the tests, block by block (01, "The tape"), and what bin/explain says of them."""
import zlib

from trying import SAMPLES, Trial

START, COMMAND, ANSWER, SILENCE, HOST, DECISION, RESULTS = range(1, 8)


def block(number, kind, payload=b"", session=7, **fields):
    """A block with its check made good; `fields` are bytes to stand at other places, as at9=b"x"."""
    body = bytearray(number.to_bytes(4, "big") + session.to_bytes(4, "big") + bytes((kind, 0)) + len(payload).to_bytes(2, "big")
                     + payload.ljust(496, b"\0"))
    for name, value in fields.items():
        place = int(name[2:])
        body[place:place + len(value)] = value
    return bytes(body) + zlib.crc32(body).to_bytes(4, "big")


def tape(entries):
    return b"".join(block(k, kind, payload) for k, (kind, payload) in enumerate(entries))


def sample(name):
    return (SAMPLES / f"{name}.tape").read_bytes()


def entries(name):
    """The entries of a sample."""
    data = sample(name)
    blocks = [data[k:k + 512] for k in range(0, len(data), 512)]
    return [(one[8], one[12:12 + int.from_bytes(one[10:12], "big")]) for one in blocks]


def changed(name, index, kind=None, payload=None):
    """A sample with one entry changed."""
    made = entries(name)
    old = made[index]
    payload = bytes.fromhex(payload) if isinstance(payload, str) else payload
    made[index] = (old[0] if kind is None else kind, old[1] if payload is None else payload)
    return tape(made)


def record(*objects):
    """An answer to READ RECORD with these objects: tag and value in hexadecimal."""
    values = [(bytes.fromhex(tag), bytes.fromhex(value)) for tag, value in objects]
    inner = b"".join(tag + bytes((len(value),)) + value for tag, value in values)
    return b"\x70" + (bytes((len(inner),)) if len(inner) < 128 else bytes((0x81, len(inner)))) + inner + b"\x90\x00"


def joined(text):
    """A text with its line breaks and indents taken away."""
    return " ".join(text.split())


class Explaining(Trial):
    """A test of what is said of a tape. The line with its sha256 is left out."""

    def said(self, data, *words, status=1):
        """The lines that are said of one tape."""
        self.tape("t.tape", data)
        done = self.check(self.bin("explain", *words, "t.tape"), status)
        self.assertEqual(done.err, b"")
        return [line for line in done.lines() if "sha256" not in line]

    def whole(self, data, expected, *words, status=1):
        """The lines that are said, to the letter."""
        self.assertEqual(self.said(data, *words, status=status), expected.strip("\n").split("\n"))

    def told(self, data, *expected, words=(), status=1):
        """Texts that stand in what is said, wherever its lines are broken."""
        said = joined("\n".join(self.said(data, *words, status=status)))
        for text in expected:
            self.assertIn(joined(text), said)

    def marks(self, data, stood, below):
        """Bytes that stood there, and the row right below them."""
        said = self.said(data)
        at = next(k for k, line in enumerate(said) if "stood there" in line) + 1
        self.assertEqual(said[at:at + 2], [" " * 19 + stood, " " * 19 + below])
