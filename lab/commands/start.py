"""bin/start: the terminal's data of START from named fields, and back."""
import re

from lab import sessions, terminal
from lab.numbers import NoNumber, number
from lab.words import NOT_ALL, Undone, command, voice

USAGE = """
bin/start FIELD=VALUE ..    the line START of these fields, as play takes it
bin/start HEX               the fields of such bytes, or of a line START HEX
bin/start --fields          every field: its place, its form, and what it is where it is not named

Fields that are not named are as --fields says. `length` says how many bytes START has; fields that have no room in it are left out, and
`rest` is what stands behind the last. Whether such a START is valid is the kernel's word and is asked of it: behind the line stands
on standard error `accepted`, or `refused` and its number.

Example:  bin/start amount=125.00 currency=826 date=2026-06-30 | bin/play
Status:   0 the kernel accepts it; 1 the kernel refuses it; 2 a field or a value is none, or the kernel could not be asked
"""
MOST = 496


def refuse(name, value, form):
    raise Undone(f"{name}={value}: not {form}")


def digits(size):
    """A number in so many bytes of two digits each."""
    form = f"a number of at most {2 * size} digits"

    def write(name, value):
        if not re.fullmatch(r"[0-9]{1,%d}" % (2 * size), value):
            refuse(name, value, form)
        return bytes.fromhex(value.zfill(2 * size))

    return form, write, lambda data: data.hex().upper().lstrip("0") or "0"


def money(size):
    """An amount, with two digits behind a point where there is one (125.00), or in the smallest unit (12500)."""
    form = f"an amount: 125.00, or 12500 in the smallest unit, at most {2 * size} digits"

    def write(name, value):
        if not re.fullmatch(r"[0-9]+(\.[0-9]{2})?", value) or len(value.replace(".", "")) > 2 * size:
            refuse(name, value, form)
        return bytes.fromhex(value.replace(".", "").zfill(2 * size))

    def read(data):
        text = data.hex().upper().lstrip("0").zfill(3)
        return text[:-2] + "." + text[-2:]

    return form, write, read


def octets(size):
    """Bytes in hexadecimal."""
    form = f"{size} bytes in hexadecimal"

    def write(name, value):
        if not re.fullmatch(r"(?:[0-9A-Fa-f]{2}){%d}" % size, value):
            refuse(name, value, form)
        return bytes.fromhex(value)

    return form, write, lambda data: data.hex().upper()


def small():
    """One byte as a number."""
    form = "a number from 0 to 255"

    def write(name, value):
        if not re.fullmatch(r"[0-9]{1,3}", value) or int(value) > 255:
            refuse(name, value, form)
        return bytes([int(value)])

    return form, write, lambda data: str(data[0])


def day():
    """A date, of which the tape keeps the last two digits of the year."""
    form = "a date as 2026-06-30, from 1950 to 2049"

    def write(name, value):
        found = re.fullmatch(r"([0-9]{4})-([0-9]{2})-([0-9]{2})", value)
        if not found or not 1950 <= int(found.group(1)) <= 2049:
            refuse(name, value, form)
        return bytes.fromhex(found.group(1)[2:] + found.group(2) + found.group(3))

    def read(data):
        text = data.hex().upper()
        if not text.isdigit():
            return text
        return f"{'20' if int(text[:2]) < 50 else '19'}{text[:2]}-{text[2:4]}-{text[4:]}"

    return form, write, read


def identifier():
    """The AID: its length, and its bytes in a room of sixteen."""
    form = "at most 16 bytes in hexadecimal"

    def write(name, value):
        if not re.fullmatch(r"(?:[0-9A-Fa-f]{2}){0,16}", value):
            refuse(name, value, form)
        data = bytes.fromhex(value)
        return bytes([len(data)]) + data.ljust(16, b"\0")

    def read(data):
        kept = data[1:1 + min(data[0], 16)]
        rest = data[1 + len(kept):]
        return data.hex().upper() if data[0] > 16 or any(rest) else kept.hex().upper()

    return form, write, read


# the form of each field, and its value where it is not named; where it stands is in lab/terminal.py
FORMS = {
    "type": (small(), "2"), "amount": (money(6), "125.00"), "other": (money(6), "0.00"), "country": (digits(2), "826"),
    "currency": (digits(2), "826"), "date": (day(), "2026-06-30"), "transaction": (octets(1), "00"),
    "unpredictable": (octets(4), "1A2B3C4D"), "floor": (money(6), "100.00"), "random": (small(), "50"), "target": (small(), "10"),
    "threshold": (money(6), "50.00"), "maximum": (small(), "40"), "version": (octets(2), "0001"),
    "denial": (octets(5), "0000000000"), "online": (octets(5), "0000008000"),
    "default": (octets(5), "0000000000"), "aid": (identifier(), "A0000000031010"), "capabilities": (octets(3), "60E0C8"),
}
FIELDS = tuple((field.name, field.place, field.size, *FORMS[field.name]) for field in terminal.FIELDS)
LONGEST = max(place + size for _, place, size, _, _ in FIELDS)


def fitting(length):
    """The fields that such a START has room for, and where the last of them ends."""
    fields = [field for field in FIELDS if field[1] + field[2] <= length]
    return fields, max((field[1] + field[2] for field in fields), default=0)


def made(words):
    """The bytes of START from fields."""
    values, known = {}, {field[0] for field in FIELDS} | {"length", "rest"}
    for word in words:
        name, equals, value = word.partition("=")
        if not equals or name not in known:
            raise Undone(f"{word}: no field (bin/start --fields says which there are)")
        if name in values:
            raise Undone(f"{name} is named twice")
        values[name] = value
    try:
        length = number(values.pop("length", str(LONGEST)).encode(), MOST)
    except NoNumber as why:
        raise Undone(f"length: {why}") from None
    fields, end = fitting(length)
    data = bytearray(length)
    for name, place, size, (_, write, _), default in fields:
        data[place:place + size] = write(name, values.pop(name, default))
    if "rest" in values or end < length:
        data[end:] = octets(length - end)[1]("rest", values.pop("rest", "00" * (length - end)))
    if values:
        raise Undone(f"{next(iter(values))}: a START of {length} bytes has no such field")
    return bytes(data)


def told(data):
    """The fields of bytes, as `made` takes them."""
    fields, end = fitting(len(data))
    lines = []
    for name, place, size, (_, write, read), _ in fields:
        value = read(data[place:place + size])
        try:
            whole = write(name, value) == data[place:place + size]
        except Undone:
            whole = False
        lines.append(f"{name}={value}" if whole else f"{name} is no value that can be named: {data[place:place + size].hex().upper()}")
    if end < len(data):
        lines.append(f"rest={data[end:].hex().upper()}")
    return lines + [f"length={len(data)}"]


def main(asked):
    words = [word.decode("utf-8", "backslashreplace") for word in asked.rest]
    if asked.get("--fields"):
        for name, place, size, (form, _, _), default in FIELDS:
            voice.line(f"{name}={default}  bytes {place} to {place + size - 1}: {form}")
        return voice.line(f"length={LONGEST}  how many bytes START has, at most {MOST}")
    if not words:
        raise Undone("no field and no bytes (--help)")
    if words[0] == "START":
        words.pop(0)
    if len(words) == 1 and re.fullmatch(r"(?:[0-9A-Fa-f]{2})+", words[0]):
        data = bytes.fromhex(words[0])
        for field in told(data):
            voice.line(field)
    else:
        data = made(words)
        voice.line("START " + data.hex().upper())
    said = sessions.begins(data)
    if said.startswith(b"COMMAND"):
        voice.note("accepted")
    else:
        voice.note(said.decode().strip().lower())
        voice.worse(NOT_ALL)


def start():
    command(USAGE, ["play"], main, flags=("--fields",))
