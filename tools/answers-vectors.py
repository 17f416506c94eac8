#!/usr/bin/env python3
"""Card answers for crates/bench_answers: writes its stdin, and the stdout that it must give.

The expected lines come from `reference answers`, a program that was written from the scope paper and shares nothing with the
proved code. Build it first (cd reference && cargo build --release --offline), then run this in the repository's root.
"""
import itertools
import random
import subprocess

FOLDER = "crates/bench_answers/"
REFERENCE = "reference/target/release/reference"

GOOD = b"\x90\x00"
AIDS = [bytes.fromhex(aid) for aid in ("A000000003", "A0000000031010", "A0000000031010" + "0102030405060708" + "09")]


def hexed(s):
    return bytes.fromhex(s.replace(" ", ""))


def counting(size):
    return bytes(i % 251 for i in range(size))


def tlv(tag, value, form=0):
    """An object with the shortest length field, or with one or two bytes more."""
    lengths = [bytes([len(value)])] if len(value) < 0x80 else []
    lengths += [b"\x81" + bytes([len(value)])] if len(value) < 0x100 else []
    lengths += [b"\x82" + len(value).to_bytes(2, "big")]
    return hexed(f"{tag:02X}") + lengths[min(form, len(lengths) - 1)] + value


def filled(tag, members, size):
    """An answer of so many bytes: an object that is not named fills it up."""
    for n in range(size):
        answer = tlv(tag, members + tlv(0x57, bytes(n))) + GOOD
        if len(answer) == size:
            return answer
    # one length byte too many or too few: a '00' before the object
    return b"\x00" + filled(tag, members, size - 1)


def start(aid):
    """Valid terminal data with this AID."""
    return (
        b"\x02" + hexed("000000007500" + "000000000000" + "0826" + "0826" + "250630" + "00" + "11223344" + "000000010000")
        + bytes([40, 10]) + hexed("000000005000") + bytes([70]) + hexed("0002") + bytes(15)
        + bytes([len(aid)]) + aid.ljust(16, b"\x00") + hexed("60E0C8")
    )


# Questions

def text(data):
    return data.hex().upper() or "-"


def select(answer, aid=AIDS[0], size=77):
    return f"SELECT {text(start(aid)[:size])} {text(answer)}"


def gpo(answer):
    return f"GPO {text(answer)}"


def records(*answers):
    return " ".join(["RECORDS", *map(text, answers)])


def formerly(*answers):
    return " ".join(["RECORDS74", *map(text, answers)])


def cryptogram(answer, request="TC", turn=1):
    return f"AC{turn} {request} {text(answer)}"


# What any answer can get wrong, by the question that takes it and the object that it must be

def frames(ask, tag, members):
    whole = tlv(tag, members)
    yield ask(whole + GOOD)
    # 1: sizes
    for n in (0, 1, 2, 3, 258, 259, 260, 496):
        yield ask(bytes(n))
    for n in (100, 257, 258, 259, 260):
        yield ask(filled(tag, members, n))
    # 2: statuses
    for status in ("6985", "6A82", "6283", "6100", "9001", "9100", "0090", "0000", "9F00"):
        yield ask(whole + hexed(status))
        yield ask(hexed(status))
    # 3: one object, with '00' around it
    for before, after in ((0, 1), (1, 0), (3, 2)):
        yield ask(bytes(before) + whole + bytes(after) + GOOD)
    for form in (1, 2):
        yield ask(tlv(tag, members, form) + GOOD)
    for other in (0x6F, 0x70, 0x77, 0x80, 0x61, 0xA5, 0x84, 0x5A):
        yield ask(tlv(other, members) + GOOD)
    for data in (whole + whole, whole + tlv(0x57, b""), tlv(0x57, b"") + whole, tlv(0x61, whole)):
        yield ask(data + GOOD)
    for data in (whole[:-1], whole + b"\x5A", whole + b"\xFF", b"\xFF" + whole, hexed(f"{tag:02X}") + b"\x80" + members):
        yield ask(data + GOOD)
    for inner in ("5A02FF", "5A", "61025A01", "6104610257FF", "9F8000", "5A83000000"):
        yield ask(tlv(tag, members + hexed(inner)) + GOOD)
    # objects that are not named, at whatever depth, and fillers
    for inner in ("00", "000000", "5700", "57005700", "61045A000000", "BF0C00", "BF0C0361015A", "1F00009F7F00"):
        yield ask(tlv(tag, members + hexed(inner)) + GOOD)
        yield ask(tlv(tag, hexed(inner) + members) + GOOD)


def together(ask, faults, build, good):
    """Every fault by itself and every two at once; a fault changes some of the parts that an answer is built of."""
    for some in itertools.chain(((),), itertools.combinations(faults, 1), itertools.combinations(faults, 2)):
        parts = dict(good)
        for fault in some:
            parts.update(fault)
        answer = build(parts)
        answer += bytes(259 - len(answer)) if parts.get("long") else b""
        yield ask(answer)


LONG, STATUS, SECOND, TWICE = {"long": True}, {"status": b"\x6A\x82"}, {"second": tlv(0x57, b"")}, {"again": True}


def framed(tag, parts, members):
    return tlv(tag, members) + parts.get("second", b"") + parts.get("status", GOOD)


# SELECT

def a5(*members):
    return tlv(0xA5, b"".join(members))


def pdol(value):
    return tlv(0x9F38, value)


def built_select(parts):
    inner = a5(pdol(parts["list"])) if parts["a5"] else b""
    name = tlv(0x84, parts["name"]) if parts["name"] is not None else b""
    return framed(0x6F, parts, (inner if parts.get("again") else b"") + name + inner)


def selects():
    aid = AIDS[0]
    name = tlv(0x84, aid)
    yield from frames(select, 0x6F, name + a5())
    for aid in AIDS:
        for n in range(4, 18):
            yield select(tlv(0x6F, tlv(0x84, (aid + counting(16))[:n]) + a5()) + GOOD, aid)
        for at in range(len(aid)):
            other = aid[:at] + bytes([aid[at] ^ 1]) + aid[at + 1:]
            yield select(tlv(0x6F, tlv(0x84, other) + a5()) + GOOD, aid)
    for n in (0, 4, 5, 16, 17, 32):
        yield select(tlv(0x6F, tlv(0x84, (AIDS[0] + counting(40))[:n]) + a5()) + GOOD)
    members = [
        a5() + name, name, a5(), b"", name + name + a5(), name + a5() + a5(), a5() + name + a5(), a5(name), name + a5(name), name + a5(a5()),
        name + a5(pdol(b"") + pdol(b"")), name + a5() + pdol(b"\x95"), name + a5() + pdol(b"") + pdol(b""), name + a5(tlv(0x61, pdol(b"\x95"))),
        name + a5(tlv(0x50, b"X") + tlv(0x50, b"Y")), name + a5(tlv(0x50, b"X") + pdol(hexed("9F3704")) + tlv(0x87, b"\x01")),
        name + tlv(0xA5, pdol(hexed("9505")), 2), name + a5(tlv(0x9F38, hexed("9505"), 1)), tlv(0x61, name) + a5(), tlv(0x61, name + a5()),
    ]
    lists = [
        "", "9F0206", "9F0204", "9F020C", "9F0206 9F0306 9F1A02 5F2A02 9A03 9C01 9F3704 9F0902", "9F3702", "9505 9B02", "8202 5A0A 8A02", "9500",
        "95FC", "95FD", "9F02FF", "957E 957E", "957E 957F", "9580", "957F", "00", "0001", "9500 00", "95", "9F", "9F02", "9F8001", "9F0206 95",
        "1F0001", "9F0001", "7F0001", "FF7F02", "5A01 5A01", "9F0206 00",
    ]
    members += [name + a5(pdol(hexed(value))) for value in lists]
    members += [name + a5(pdol(hexed("9500") * n)) for n in (1, 60, 115)]
    for member in members:
        yield select(tlv(0x6F, member) + GOOD)
    # Terminal Capabilities, where START has them
    for value in ("9F3303", "9F3300", "9F3302", "9F3305 9F3301", "9F0206 9F3303 8E02 9F4202"):
        for size in (77, 74):
            yield select(tlv(0x6F, name + a5(pdol(hexed(value)))) + GOOD, size=size)
    good = {"name": AIDS[0], "a5": True, "list": hexed("9505")}
    faults = [LONG, STATUS, SECOND, TWICE, {"name": AIDS[1][1:]}, {"name": None}, {"a5": False}, {"list": b"\x95"}, {"list": hexed("95FD")}]
    yield from together(select, faults, built_select, good)


# GPO

ENTRY = hexed("08010301")
AIP = tlv(0x82, hexed("0800"))

LOCATORS = [
    "", "08", "0801", "080103", "08010301", "0801030108", "0801030108010301", "080103010801", "08000100", "08010100", "08013A00", "08013B00",
    "0801FF00", "0801FFFF", "08013A3A", "08013A3B", "08FFFF01", "08FFFF02", "08FEFF02", "08FEFF03", "08020100", "08020101", "08000000", "00010100",
    "50010100", "58010100", "F8010100", "09010100", "0A010100", "0C010100", "0F010100", "07010100", "08010102", "08010101", "08010203", "08030500",
    "08030503", "08030504", "08011D0010011D00", "08011D0010011E00", "08013B0000010100", "0800010008013B00", "08013A0000010100", "08013A0008010100",
    "0801010108010101", "10020200080101005003040018050501", "08013900100A0A00", "08013900100A0B00",
]


def built_options(parts):
    profile = tlv(0x82, parts["profile"]) if parts["profile"] is not None else b""
    locator = tlv(0x94, parts["locator"]) if parts["locator"] is not None else b""
    return framed(0x77, parts, (tlv(0x94, ENTRY) if parts.get("again") else b"") + profile + locator)


def options():
    both = AIP + tlv(0x94, ENTRY)
    yield from frames(gpo, 0x77, both)
    yield from frames(gpo, 0x80, hexed("0800") + ENTRY)
    for locator in map(hexed, LOCATORS + ["08010100" * n for n in (2, 57, 58, 59, 61)]):
        yield gpo(tlv(0x77, AIP + tlv(0x94, locator)) + GOOD)
        yield gpo(tlv(0x77, tlv(0x94, locator) + AIP) + GOOD)
        yield gpo(tlv(0x77, tlv(0x94, locator)) + GOOD)
        yield gpo(tlv(0x80, hexed("1980") + locator) + GOOD)
        yield gpo(tlv(0x80, hexed("19") + locator) + GOOD)
    for n in range(5):
        yield gpo(tlv(0x77, tlv(0x82, counting(n)) + tlv(0x94, ENTRY)) + GOOD)
        yield gpo(tlv(0x77, tlv(0x82, counting(n))) + GOOD)
    for n in range(16):
        yield gpo(tlv(0x80, (hexed("0800") + 4 * ENTRY)[:n]) + GOOD)
    for members in (AIP + both, both + tlv(0x94, ENTRY), both + tlv(0x94, b""), AIP + AIP, tlv(0x61, both), AIP + tlv(0x61, tlv(0x94, ENTRY)),
                    both + tlv(0x80, b"") + tlv(0x80, b""), tlv(0x80, hexed("0800") + ENTRY), both + tlv(0x61, both), b""):
        yield gpo(tlv(0x77, members) + GOOD)
    good = {"profile": hexed("1980"), "locator": ENTRY}
    faults = [LONG, STATUS, SECOND, TWICE, {"profile": b"\x19"}, {"locator": ENTRY + b"\x08"}, {"locator": hexed("08000100")},
              {"locator": hexed("08013B00")}, {"locator": hexed("08013B0000010100")}, {"profile": None}, {"locator": None}]
    yield from together(gpo, faults, built_options, good)


# Records

NUMBER, EXPIRY = tlv(0x5A, hexed("123456789F")), tlv(0x5F24, hexed("271231"))
MANDATORY = {0x5A: hexed("12345F"), 0x5F24: hexed("271231"), 0x8C: hexed("9F02069505"), 0x8D: hexed("8A02")}
OTHERS = {0x5F25: hexed("200101"), 0x9F08: hexed("0002"), 0x9F0D: bytes(5), 0x9F0E: counting(5), 0x9F0F: b"\xFF" * 5}
VERIFYING = {0x8E: hexed("00000000 000003E8 4103 1E00"), 0x9F42: hexed("0826")}

VALUES = {
    0x5A: ["", "12", "1F", "F1", "FF", "0F", "1A", "A1", "1E", "19", "12FF", "12F3", "12FFFF", "1FF1", "1F12", "1FF2", "123F", "12FE", "9" * 20, "9" * 22,
           "1" + "F" * 19, "1" + "F" * 21, "1234567890123456789F", "F" * 20],
    0x5F24: ["", "2712", "271231", "27123100", "271331", "270031", "271200", "271232", "271201", "270101", "991231", "000101", "2A1231", "271A31",
             "27123A", "27120A", "A71231", "270230", "271031", "270930"],
    0x9F08: ["", "00", "0002", "000200", "FFFF"],
    0x8C: ["", "00", "9F0206", "95", "95FC", "95FD", "9F8001", "957F957D", "957F957E"],
    0x8D: ["", "00", "9F0206", "95", "95FD", "9F8001"],
    0x9F0D: ["", "00000000", "0000000000", "000000000000", "FFFFFFFFFF"],
}
VALUES[0x5F25] = VALUES[0x5F24]
VALUES[0x9F0E] = VALUES[0x9F0F] = VALUES[0x9F0D]
VALUES[0x8E] = ["00" * n for n in (0, 1, 2, 6, 7, 8, 9, 10, 11, 12, 50, 51)]
VALUES[0x9F42] = ["", "08", "0826", "082600", "FFFF", "00000826"]


def record(*members):
    return tlv(0x70, b"".join(members)) + GOOD


def all_of(values):
    return record(*(tlv(tag, value) for tag, value in values.items()))


def built_record(parts):
    values = {tag: parts.get(tag, value) for tag, value in MANDATORY.items()}
    twice = tlv(0x9F08, hexed("0002")) * (2 if parts.get("again") else 1)
    return framed(0x70, parts, b"".join(tlv(tag, value) for tag, value in values.items() if value is not None) + twice)


def former_records(whole):
    """Under a START of 74 bytes: 8E and 9F42 have no name."""
    yield formerly(all_of(whole))
    for tag, value in VERIFYING.items():
        one = tlv(tag, value)
        yield formerly(all_of(MANDATORY), record(one, one), record(one))
        yield formerly(record(tlv(tag, b"\x01")), all_of(whole))
    yield formerly(all_of({**whole, 0x9F08: b""}))
    yield formerly(all_of(whole), all_of(OTHERS))
    yield formerly(all_of({tag: value for tag, value in whole.items() if tag != 0x8D}))


def all_records():
    yield from frames(records, 0x70, NUMBER + EXPIRY)
    whole = {**MANDATORY, **OTHERS, **VERIFYING}
    yield records(all_of(whole))
    yield records(all_of(MANDATORY), all_of(OTHERS))
    yield records(all_of(OTHERS), all_of(MANDATORY))
    yield records(*(record(tlv(tag, value)) for tag, value in whole.items()))
    yield records(record(), record(), all_of(whole), record())
    for tag, values in VALUES.items():
        for value in map(hexed, values):
            yield records(record(tlv(tag, value)))
            yield records(all_of({**whole, tag: value}))
    for tag, value in whole.items():
        one = tlv(tag, value)
        yield records(all_of({t: v for t, v in whole.items() if t != tag}))
        yield records(record(one, one))
        yield records(record(one), record(one))
        yield records(record(one), record(), record(tlv(tag, b"\xFF" * 40)))
        yield records(record(tlv(0x72, one)), record(one), record(tlv(0x72, one + one)))
        yield records(record(tlv(tag, value, 1)), record(tlv(tag, value, 2)))
    yield from former_records(whole)
    # the longest list that an answer can hold, and one over the total
    for n in (248, 249, 250):
        yield records(all_of(MANDATORY), record(tlv(0x8E, counting(n))))
    yield records(all_of({t: v for t, v in MANDATORY.items() if t != 0x8C}), record(tlv(0x8C, hexed("9500") * 125)))
    yield records(all_of({t: v for t, v in MANDATORY.items() if t != 0x8D}), record(tlv(0x8D, hexed("9501") * 125)))
    yield records(all_of({t: v for t, v in MANDATORY.items() if t != 0x8C}), record(tlv(0x8C, hexed("9502") * 125)))
    yield records(all_of({t: v for t, v in MANDATORY.items() if t != 0x8C}), record(tlv(0x8C, hexed("9503") * 125)))
    # a bad record behind good ones, and one whose bad status hides the rest
    for bad in (b"", b"\x90", hexed("6A83"), GOOD, record(b"\x5A"), record(NUMBER, NUMBER), record(tlv(0x9F08, b""))):
        yield records(all_of(OTHERS), record(NUMBER), bad, all_of(MANDATORY))
    faults = [LONG, STATUS, SECOND, TWICE, {0x5A: hexed("F1")}, {0x8D: None}, {0x5F24: None}, {0x8C: b"\x95"}, {0x8D: b"\x95"}]
    yield from together(records, faults, built_record, {})
    yield from together(lambda answer: records(all_of(OTHERS), answer), faults, built_record, {})


# GENERATE AC

PARTS = {0x9F27: b"\x80", 0x9F36: hexed("0001"), 0x9F26: counting(8)}
REQUESTS = ("AAC", "TC", "ARQC")


def built_cryptogram(parts):
    values = {tag: parts.get(tag, value) for tag, value in PARTS.items()}
    twice = tlv(0x9F10, b"") * (2 if parts.get("again") else 1)
    return framed(0x77, parts, twice + b"".join(tlv(tag, value) for tag, value in values.items() if value is not None))


def template(values, more=b""):
    return tlv(0x77, b"".join(tlv(tag, value) for tag, value in values.items()) + more) + GOOD


def joined(first, size):
    return tlv(0x80, (first + counting(60))[:size]) + GOOD


def cryptograms():
    yield from frames(cryptogram, 0x77, b"".join(tlv(tag, value) for tag, value in PARTS.items()))
    yield from frames(cryptogram, 0x80, b"\x40" + counting(10))
    for turn, request in itertools.product((1, 2), REQUESTS):
        for first in (0x00, 0x01, 0x3F, 0x40, 0x7F, 0x80, 0xBF, 0xC0, 0xFF):
            yield cryptogram(template({**PARTS, 0x9F27: bytes([first])}), request, turn)
            yield cryptogram(joined(bytes([first]), 11), request, turn)
    for n in list(range(0, 15)) + list(range(40, 48)):
        for first in (b"\x00", b"\xC0"):
            yield cryptogram(joined(first, n))
            yield cryptogram(joined(first, n), "AAC", 2)
    for tag, sizes in ((0x9F27, range(4)), (0x9F36, range(5)), (0x9F26, (0, 1, 7, 8, 9, 16)), (0x9F10, (0, 1, 31, 32, 33, 64))):
        for n in sizes:
            yield cryptogram(template({**PARTS, tag: counting(n)}))
    for tag, value in PARTS.items():
        one = tlv(tag, value)
        yield cryptogram(template({t: v for t, v in PARTS.items() if t != tag}))
        yield cryptogram(template({t: v for t, v in PARTS.items() if t != tag}, tlv(0x61, one)))
        yield cryptogram(template(PARTS, one))
        yield cryptogram(template(PARTS, tlv(tag, b"")))
        yield cryptogram(template(PARTS, tlv(0x61, one + one)))
    yield cryptogram(template(dict(reversed(PARTS.items())), tlv(0x9F10, counting(7))))
    yield cryptogram(template(PARTS, tlv(0x9F10, b"") * 2))
    yield cryptogram(template({}))
    good = {}
    faults = [LONG, STATUS, SECOND, TWICE, {0x9F36: b"\x01"}, {0x9F27: b""}, {0x9F26: None}, {0x9F27: None}, {0x9F27: b"\xC0"}]
    yield from together(cryptogram, faults, built_cryptogram, good)
    yield from together(lambda answer: cryptogram(answer, "AAC", 2), faults, built_cryptogram, good)


# Good answers with some bytes changed, put in or taken away

def mutations():
    draw = random.Random(258)
    bytes_drawn = [0x00, 0x01, 0x05, 0x1F, 0x5A, 0x70, 0x77, 0x7F, 0x80, 0x81, 0x82, 0x84, 0x94, 0x9F, 0xA5, 0xFF]
    asked = [
        (select, tlv(0x6F, tlv(0x84, AIDS[0]) + a5(tlv(0x50, b"X"), pdol(hexed("9F02069505")))) + GOOD),
        (gpo, tlv(0x77, AIP + tlv(0x94, ENTRY + ENTRY)) + GOOD),
        (gpo, tlv(0x80, hexed("1980") + ENTRY) + GOOD),
        (records, all_of({**MANDATORY, **OTHERS})),
        (cryptogram, template(PARTS, tlv(0x9F10, counting(4)))),
        (cryptogram, joined(b"\x40", 20)),
    ]
    for ask, answer in asked:
        for _ in range(60):
            data = bytearray(answer)
            for _ in range(1 + draw.randrange(2)):
                at = draw.randrange(len(data))
                byte = draw.choice(bytes_drawn + [draw.randrange(256)])
                kind = draw.randrange(3)
                data[at:at + (kind != 1)] = b"" if kind == 2 else bytes([byte])
            yield ask(bytes(data))


def main():
    lines = [line for part in (selects, options, all_records, cryptograms, mutations) for line in part()]
    lines = list(dict.fromkeys(lines))
    given = "".join(line + "\n" for line in lines)
    wanted = subprocess.run([REFERENCE, "answers"], input=given, capture_output=True, text=True, check=True).stdout
    with open(FOLDER + "stdin", "w") as file:
        file.write(given)
    with open(FOLDER + "stdout", "w") as file:
        file.write(wanted)


main()
