#!/usr/bin/env python3
"""Questions on data objects for the program bench_objects, and the answers it must give.

  objects-vectors.py --stdin     the questions, a line each: crates/bench_objects/stdin
  objects-vectors.py --stdout    the answers, a line each: crates/bench_objects/stdout

The answers come from the reader and writer below. They were written from document 01, "Data objects" and refusals 9 to
11, and share nothing with the proved code.
"""
import sys

MOST = 4096


# The rules

def head(data, at):
    """The object whose tag is at a place, as (tag, start, end) of its value, or None where no whole object is there."""
    try:
        tag = data[at]
        at += 1
        if tag & 0x1F == 0x1F:
            if data[at] > 0x7F:
                return None
            tag = tag << 8 | data[at]
            at += 1
        size = data[at]
        at += 1
        if size > 0x7F:
            more = {0x81: 1, 0x82: 2}.get(size)
            if more is None or at + more > len(data):
                return None
            size = int.from_bytes(data[at:at + more], "big")
            at += more
    except IndexError:
        return None
    return (tag, at, at + size) if at + size <= len(data) else None


def walk(data):
    """The objects up to the end or to the first bytes that are none, and whether the end was reached."""
    found, at = [], 0
    while at < len(data):
        if data[at] == 0:
            at += 1
            continue
        part = head(data, at)
        if part is None:
            return found, False
        tag, start, at = part
        found.append((tag, data[start:at]))
    return found, True


def constructed(tag):
    return bool((tag >> 8 or tag) & 0x20)


def is_list(data):
    found, whole = walk(data)
    return whole and all(is_list(value) for tag, value in found if constructed(tag))


def is_tag(number):
    if number <= 0xFF:
        return number != 0 and number & 0x1F != 0x1F
    return number <= 0xFFFF and number >> 8 & 0x1F == 0x1F and number & 0xFF <= 0x7F


def tag_bytes(tag):
    return bytes([tag]) if tag <= 0xFF else tag.to_bytes(2, "big")


def length_forms(size):
    """The length fields that hold a size, the shortest first."""
    if size <= 0x7F:
        yield bytes([size])
    if size <= 0xFF:
        yield bytes([0x81, size])
    yield b"\x82" + size.to_bytes(2, "big")


def encoded(tag, value):
    return tag_bytes(tag) + next(length_forms(len(value))) + value


# A question and its answer

def text(data):
    return data.hex().upper() or "-"


def is_read(data):
    return len(data) <= MOST and is_list(data)


def ask_list(data):
    answer = "refused 9"
    if is_read(data):
        answer = " ".join(member(*found) for found in walk(data)[0]) or "-"
    return f"LIST {text(data)}", answer


def ask_find(tag, data):
    answer = "refused 9"
    if is_read(data):
        values = [value for t, value in walk(data)[0] if t == tag]
        answer = "absent" if not values else "once " + text(values[0]) if len(values) == 1 else "twice"
    return f"FIND {tag:X} {text(data)}", answer


def member(tag, value):
    return f"{tag_bytes(tag).hex()}:{value.hex()}".upper()


def ask_held(data):
    return f"HELD {text(data)}", " ".join(["held"] + [member(*found) for found in walk(data)[0]])


def ask_nth(n, data):
    found = walk(data)[0]
    return f"NTH {n} {text(data)}", member(*found[n]) if n < len(found) else "-"


def ask_data(answer):
    return f"DATA {text(answer)}", text(answer[:-2])


def ask_write(tag, value, room):
    answer = "refused 10"
    if is_tag(tag) and len(encoded(tag, value)) <= MOST and (is_list(value) or not constructed(tag)):
        data = encoded(tag, value)
        answer = text(data) if len(data) <= room else "refused 11"
    return f"WRITE {tag:X} {text(value)} {room}", answer


# The questions

def hexed(s):
    return bytes.fromhex(s)


def counting(size):
    return bytes(i % 251 for i in range(size))


class Chance:
    """A sequence of numbers that is the same everywhere (Knuth's MMIX generator, its upper bits)."""

    def __init__(self, seed):
        self.state = seed

    def below(self, n):
        self.state = (self.state * 6364136223846793005 + 1442695040888963407) % 2 ** 64
        return (self.state >> 33) % n

    def of(self, choices):
        return choices[self.below(len(choices))]


def worked_cases():
    for s in ("5A81021234", "5A0212", "5A80", "0000"):
        yield ask_list(hexed(s))


def first_length_bytes():
    """Each first length byte with all the bytes it asks for and with one fewer. Those that are refused count the bytes of a
    length here, as in wider rules, and some are tried as a plain length too."""
    asked = []
    for first in range(0x100):
        if first <= 0x80:
            asked.append(bytes([first]) + counting(first & 0x7F))
        elif first == 0x81:
            asked += [bytes([first, n]) + counting(n) for n in (0x00, 0x05, 0x7F, 0x80, 0xFF)]
        elif first == 0x82:
            asked += [bytes([first]) + n.to_bytes(2, "big") + counting(n) for n in (0x0000, 0x0005, 0x0080, 0x0100)]
        else:
            asked.append(bytes([first]) + bytes((first & 0x7F) - 1) + hexed("01AA"))
    asked += [bytes([first]) + counting(first) for first in (0x80, 0x81, 0x82, 0x83, 0xFF)]
    for rest in asked:
        yield ask_list(b"\x5A" + rest)
        yield ask_list(b"\x5A" + rest[:-1])
    yield ask_list(hexed("5A800000"))


def nested(levels, inner):
    for _ in range(levels):
        inner = encoded(0x61, inner)
    return inner


def depths():
    for levels in (1, 2, 150):
        for inner in ("", "5A0112", "00", "5A01", "5A80", "9F8000"):
            yield ask_list(nested(levels, hexed(inner)))
    for level in range(1, 6):
        yield ask_list(nested(5 - level, nested(level, b"") + hexed("5A02FF")))


def deepest(inner, form):
    """Constructed objects one in the other, as many as fit, each with the length field that `form` gives; '00' bytes fill up the rest."""
    while True:
        outer = b"\xE1" + form(len(inner)) + inner
        if len(outer) > MOST:
            return inner + bytes(MOST - len(inner))
        inner = outer


def deepest_nesting():
    """With the shortest length form (1,066 levels), with '81' where it can hold the length, and with '82' throughout (1,024 levels);
    with a fault at the bottom; one byte more, and one level more."""
    forms = (lambda n: next(length_forms(n)), lambda n: next(f for f in length_forms(n) if len(f) > 1), lambda n: list(length_forms(n))[-1])
    for form in forms:
        yield ask_list(deepest(b"", form))
    full = deepest(b"", forms[0])
    yield ask_list(deepest(hexed("5A01"), forms[0]))
    yield ask_list(full + b"\x00")
    yield ask_list(encoded(0xE1, full))
    yield ask_find(0xE1, full + b"\x00")
    yield from rooms(0xE1, full[4:])
    yield ask_write(0xE1, full, 5000)


def sizes():
    for n in (4096, 4097):
        yield ask_list(bytes(n))
        yield ask_list(encoded(0x5A, counting(n - 4)))
    yield ask_list(encoded(0x70, encoded(0x5A, counting(4088))))
    yield ask_list(encoded(0x70, encoded(0x5A, counting(4089))))


def tags():
    for tag in ("9F00", "1F00", "9F7F", "9F80", "9FFF", "1F7F", "1F80", "BF0C", "3F00", "3F80", "5F24", "00", "01", "1E", "FF00", "FF80", "FE"):
        for value in ("00", "0112", "020000", "025A00"):
            yield ask_list(hexed(tag + value))


def fillers():
    for s in ("", "00", "005A0112", "5A011200", "5A0112005A0134", "0000005A0112000000", "7000", "70020000", "7004005A0000",
              "70055A01120000", "700400000000", "70045A000000", "5A0000", "5A000000", "6F00840500"):
        yield ask_list(hexed(s))


def truncated_heads():
    heads = ("5A0512", "5A8105", "5A82000512", "9F0206AA", "9F028106AA", "9F02820006AA", "7002", "708102", "70820002", "BF0C02", "BF0C8102",
             "BF0C820002", "5A82FFFF", "5A81FF")
    for whole in map(hexed, heads):
        for n in range(1, len(whole) + 1):
            yield ask_list(whole[:n])
            yield ask_list(hexed("9A0112") + whole[:n])
            yield ask_list(encoded(0x70, hexed("9A0112") + whole[:n]))


def any_list(chance, depth):
    data = b""
    for _ in range(1 + chance.below(5)):
        data += bytes(max(0, chance.below(6) - 3))
        tag = chance.of([0x5A, 0x82, 0x94, 0x9F02, 0x9F36, 0x5F24, 0x9F00, 0x01, 0x70, 0x77, 0xA5, 0xBF0C])
        if constructed(tag):
            value = any_list(chance, depth - 1) if depth else b""
        else:
            value = bytes(chance.below(256) for _ in range(chance.below(7)))
        data += tag_bytes(tag) + chance.of(list(length_forms(len(value)))) + value
    return data


def mutated(chance, data):
    data = bytearray(data)
    for _ in range(chance.below(3)):
        at = chance.below(len(data) + 1)
        byte = chance.of([0x00, 0x01, 0x05, 0x1F, 0x5A, 0x70, 0x7F, 0x80, 0x81, 0x82, 0x83, 0x9F, 0xFF, chance.below(256)])
        kind = chance.below(4)
        if kind == 0:
            data[at:at + 1] = bytes([byte])
        elif kind == 1:
            data[at:at] = bytes([byte])
        elif kind == 2:
            del data[at:at + 1]
        else:
            del data[at:]
    return bytes(data)


def random_lists():
    chance = Chance(20240601)
    for _ in range(300):
        data = mutated(chance, any_list(chance, 3))
        yield ask_list(data)
        yield ask_find(chance.of([0x5A] + [tag for tag, _ in walk(data)[0]]), data)


def rooms(tag, value):
    size = len(encoded(tag, value))
    return ask_write(tag, value, size), ask_write(tag, value, size - 1)


def writes():
    for n in (0, 1, 127, 128, 255, 256, 4091, 4092, 4093, 4096):
        yield from rooms(0x5A, counting(n))
    for n in (0, 127, 128, 256, 4091, 4092):
        yield from rooms(0x9F02, counting(n))
    yield ask_write(0x5A, hexed("1234"), 0)
    yield ask_write(0x5A, hexed("1234"), 5000)
    for tag in (0x00, 0x1F, 0x5F, 0x7F, 0xFF, 0x100, 0x9F80, 0x9FFF, 0x5A01, 0x5A1F, 0x10000, 0x19F02, 0x9F0201, 0x5A000000, 0xFFFFFFFF):
        yield ask_write(tag, hexed("12"), 100)
        yield ask_write(tag, hexed("12"), 0)
    for tag in (0x01, 0x1E, 0x40, 0x80, 0xDE, 0x1F00, 0x1F7F, 0x9F00, 0x9F7F, 0xDF01):
        yield from rooms(tag, hexed("5A05"))
    for tag in (0x20, 0x61, 0x70, 0xE1, 0x3F00, 0xBF0C, 0xFF7F):
        for value in ("", "00", "5A0112", "5A01120070025A00", "5A01", "5A80", "70025A01", "9F8000"):
            yield from rooms(tag, hexed(value))
    yield from rooms(0x70, nested(150, b""))
    yield from rooms(0x70, nested(150, hexed("5A01")))
    yield from rooms(0x70, bytes(4092))
    yield from rooms(0x70, bytes(4093))


def finds():
    data = hexed("5A0112820219809F0200005A0134")
    for tag in (0x5A, 0x82, 0x9F02, 0x94, 0x9F, 0x02, 0x00, 0xFFFFFFFF):
        yield ask_find(tag, data)
    # twice, but once or never as a direct member
    for s in ("70065A01125A0134", "5A011270035A0134", "70035A011270035A0134", "77085A01125A0134820077005A00"):
        yield ask_find(0x5A, hexed(s))
        yield ask_find(0x70, hexed(s))
    # bytes that are no list are refused, also where the tag stands once or twice before the break
    for s in ("", "00", "5A", "5A02", "5A0112FF", "5A01125A", "5A01125A02", "5A01129F80005A0134", "5A01125A805A0134", "5A01129F02835A0134",
              "9F80005A0112", "00005A0112005A02", "70025A015A0112", "70065A015A0112", "5A00"):
        yield ask_find(0x5A, hexed(s))


def data_fields():
    for n in (0, 1, 2, 3, 4, 258, 259, 496):
        yield ask_data(counting(n))
    for s in ("9000", "6A82", "6F009000", "5A011290", "000000"):
        yield ask_data(hexed(s))


def spellings():
    """Letters in lower case, and a digit too many, which counts for nothing."""
    for s in ("5a81021234", "9f0201ff", "bF0c035A01fE"):
        yield "LIST " + s, ask_list(hexed(s))[1]
    yield "LIST 5A01120", ask_list(hexed("5A0112"))[1]
    yield "FIND 9f02 9f0201ff", ask_find(0x9F02, hexed("9F0201FF"))[1]


def held_reader():
    """The reader that holds the bytes: on lists, and up to the break on bytes that are none; each object by its count, and past
    the last."""
    chance = Chance(20240602)
    asked = [hexed(s) for s in ("", "00", "5A", "5A81021234", "5A0212", "0000005A0112000000", "5A01129F80005A0134", "70025A015A0112")]
    asked += [any_list(chance, 2) for _ in range(60)]
    asked += [mutated(chance, any_list(chance, 2)) for _ in range(60)]
    for data in asked:
        yield ask_held(data)
        for n in range(len(walk(data)[0]) + 1):
            yield ask_nth(n, data)
    yield ask_nth(10 ** 9, hexed("5A0112820219805A0134"))


PARTS = (worked_cases, first_length_bytes, depths, deepest_nesting, sizes, tags, fillers, truncated_heads, random_lists, writes, finds, data_fields, spellings,
         held_reader)


def main():
    sys.setrecursionlimit(10000)
    column = {"--stdin": 0, "--stdout": 1}.get(sys.argv[1]) if len(sys.argv) == 2 else None
    if column is None:
        sys.exit(__doc__)
    for part in PARTS:
        for line in part():
            print(line[column])


main()
