"""What was due, worked out from the tape's own entries: the parts of a command or a decision by name, and the why of bits and requests.

It is display: it holds where it comes to exactly the bytes that the judge says were due (`holds`), and is not used where it does not.
"""
from typing import NamedTuple

from lab.explaining import deciding, lists, names, objects
from lab.explaining.parts import Part, count
from lab.explaining.words import aid_of

NO_TVR, NO_TSI = bytes(5), bytes(2)
LISTS = ("8C", "8D")


class Derived(NamedTuple):
    """What is worked out: the bytes, their parts; the list that was filled, its tag and its entries; the bits of TVR and TSI by their tags;
    why the request is what it is, and the bits of the TVR that matter to it."""
    payload: bytes
    parts: list
    list_tag: str = ""
    entries: list = ()
    bits: dict = {}
    request: str = ""
    matter: list = ()


def header(cla, ins, p1, p2):
    return bytes((cla, ins, p1, p2)), [Part(name, k, 1) for k, name in enumerate(("CLA", "INS", "P1", "P2"))]


def listed(entries, at):
    """The parts that a filled list makes, from a place on."""
    found = []
    for entry in entries:
        found.append(Part(entry.in_words(), at, len(entry.value), entry.tag))
        at += len(entry.value)
    return found


def whole(head, parts, data, inner):
    """A command of header, data with its length, and Le."""
    if data:
        parts, inner = parts + [Part("Lc", 4, 1)], [Part(name, at + 5, size, tag) for name, at, size, tag in inner]
        head = head + bytes((len(data),)) + data
    return head + b"\0", parts + inner * bool(data) + [Part("Le", len(head), 1)]


def selecting(learnt):
    head, parts = header(0x00, 0xA4, 0x04, 0x00)
    aid = bytes.fromhex(aid_of(learnt.fields["aid"]))
    return Derived(*whole(head, parts, aid, [Part("AID", 0, len(aid))]))


def optioning(learnt):
    head, parts = header(0x80, 0xA8, 0x00, 0x00)
    entries = lists.filled(learnt.pdol, lists.known(learnt, NO_TVR, NO_TSI, None))
    if entries is None:
        return None
    data = b"".join(entry.value for entry in entries)
    length = bytes((len(data),)) if len(data) < 0x80 else bytes((0x81, len(data)))
    inner = [Part("tag 83", 0, 1), Part("length of 83", 1, len(length)), *listed(entries, 1 + len(length))]
    return Derived(*whole(head, parts, b"\x83" + length + data, inner), "9F38", entries)


def reading(learnt):
    files = objects.files_in(learnt.afl) or []
    if learnt.records >= len(files):
        return None
    sfi, record = files[learnt.records]
    head, parts = header(0x00, 0xB2, record, 8 * sfi + 4 & 0xFF)
    return Derived(*whole(head, parts, b"", []))


def generating(learnt):
    """The first or the second GENERATE AC."""
    bits = {"95": deciding.tvr_bits(learnt), "9B": deciding.tsi_bits(learnt, learnt.second())}
    tvr, tsi = deciding.joined_bits(bits["95"], 5), deciding.joined_bits(bits["9B"], 2)
    if learnt.second():
        p1, response, why, matter = deciding.second_request(learnt, tvr)
    else:
        (p1, why, matter), response = deciding.first_request(learnt, tvr), None
    tag = LISTS[learnt.second()]
    entries = lists.filled(learnt.facts.get(tag, b""), lists.known(learnt, tvr, tsi, response))
    if entries is None:
        return None
    head, parts = header(0x80, 0xAE, p1, 0x00)
    data = b"".join(entry.value for entry in entries)
    return Derived(*whole(head, parts, data, listed(entries, 0)), tag, entries, bits, why, matter)


COMMANDS = {0xA4: selecting, 0xA8: optioning, 0xB2: reading, 0xAE: generating}


def deciding_now(learnt, due):
    """The decision, with outcome and reason as they were due: these follow from the card's last answer, which is shown."""
    reason = due[1]
    if learnt.asked or reason == 9 and learnt.all_read():
        answered = learnt.second() and (len(learnt.asked) > 1 or due[0] != 3 or reason == 9)
        bits = {"95": deciding.tvr_bits(learnt), "9B": deciding.tsi_bits(learnt, answered)}
        values = deciding.joined_bits(bits["95"], 5) + deciding.joined_bits(bits["9B"], 2)
    else:
        none = (False, "the session ends before the facts set any bit", deciding.FACTS)
        bits, values = {"95": dict.fromkeys(deciding.TVR_PLACES, none), "9B": dict.fromkeys(deciding.TSI_PLACES, none)}, NO_TVR + NO_TSI
    return Derived(due[:2] + values, decision_parts(), bits=bits)


def decision_parts():
    return [Part("outcome", 0, 1), Part("reason", 1, 1), Part("TVR", 2, 5, "95"), Part("TSI", 7, 2, "9B")]


def derived(learnt, kind, due):
    """What the display comes to where a command or a decision was due; None where it does not come to exactly that."""
    found = None
    if kind == "COMMAND" and learnt.fields and len(due) > 1 and due[1] in COMMANDS:
        found = COMMANDS[due[1]](learnt)
    elif kind == "DECISION" and learnt.fields and len(due) == 9:
        found = deciding_now(learnt, due)
    return found if found is not None and found.payload == due else None


def command_in_words(payload):
    """A command: SELECT A000000003, READ RECORD 2 of SFI 1, GENERATE AC, ARQC."""
    if len(payload) < 4:
        return f"no command, {count(len(payload), 'byte')}" if payload else "no byte"
    ins, p1, p2 = payload[1:4]
    if payload[:2] == b"\x00\xA4":
        length = payload[4] if len(payload) > 4 else 0
        return "SELECT " + (payload[5:5 + length].hex().upper() or "of no name")
    if payload[:2] == b"\x80\xA8":
        return "GET PROCESSING OPTIONS"
    if payload[:2] == b"\x00\xB2":
        return f"READ RECORD {p1} of SFI {p2 >> 3}"
    if payload[:2] == b"\x80\xAE":
        return f"GENERATE AC, {names.CRYPTOGRAMS.get(p1, f'P1 {p1:02X}, which asks for no cryptogram')}"
    return f"no command of 01: CLA {payload[0]:02X}, INS {ins:02X}"


def decision_in_words(payload):
    if len(payload) != 9:
        return f"no decision, {count(len(payload), 'byte')}"
    outcome = names.OUTCOMES.get(payload[0], f"outcome {payload[0]}, which there is not")
    reason = payload[1] and f", reason {payload[1]} ({names.REASONS.get(payload[1], 'which there is not')})" or ""
    return f"{outcome}{reason}, TVR {payload[2:7].hex().upper()}, TSI {payload[7:].hex().upper()}"
