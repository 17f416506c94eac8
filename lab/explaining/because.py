"""The lines "because": display, from the tape's own values. They stand only where they lead to exactly what was due."""
from lab.explaining import lists, names, objects
from lab.explaining.learnt import MANDATORY
from lab.explaining.parts import count

# What a difference is called where the whole entry is another.
WHOLE = {"kind", "command"}


def lines(learnt, due, derived, parts):
    """Why what was due was due, in the parts that differ: pairs of what is explained, and why."""
    payload = bytes.fromhex(due["bytes"])
    if due["kind"] == "DECISION":
        return [*outcome(learnt, payload, parts), *bits(derived, parts)]
    if payload[1] == 0xAE:
        return [*request(derived, parts), *bits(derived, parts)]
    if payload[1] == 0xB2 and parts & {"P1", "P2", *WHOLE}:
        return [record(learnt)]
    return []


def request(derived, parts):
    """A request, with the bits of the TVR that matter to it."""
    if not parts & {"P1", *WHOLE}:
        return []
    found = [("request", derived.request)]
    for byte, bit, _ in derived.matter:
        if f"TVR byte {byte} b{bit}" not in parts and (byte, bit) in derived.bits["95"]:
            found.append((f"TVR byte {byte} b{bit}", derived.bits["95"][byte, bit][1]))
    return found


def bits(derived, parts):
    """The bits of TVR and TSI that differ."""
    found = []
    for tag, (label, _) in names.BITS.items():
        for (byte, bit), (_, why, _) in derived.bits.get(tag, {}).items():
            if f"{label} byte {byte} b{bit}" in parts:
                found.append((f"{label} byte {byte} b{bit}", why))
    return found


def record(learnt):
    files = objects.files_in(learnt.afl)
    sfi, number = files[learnt.records]
    before = f"{count(learnt.records, 'record')} of {len(files)} read" if learnt.records else f"none of {len(files)} read yet"
    return "record", f"the AFL is {learnt.afl.hex().upper()}, {before}: record {number} of SFI {sfi} is next"


def outcome(learnt, payload, parts):
    """Outcome and reason, from the card's last answer."""
    if not parts & {"outcome", "reason", *WHOLE}:
        return []
    asked = names.CRYPTOGRAMS.get(learnt.asked[-1]) if learnt.asked else None
    given = names.CRYPTOGRAMS.get(learnt.given[-1], "none of the three") if learnt.given and learnt.given[-1] is not None else None
    if payload[0] != 3:
        return [("outcome", f"{asked} was asked for and the card gave {given}")] if asked and given else []
    why = reason(learnt, payload[1], f"{asked} was asked for and the card gave {given}")
    return [("reason", why)] if why else []


def reason(learnt, number, cryptogram):
    """What in the card's last answer gives a reason, where that is told in a word."""
    members = objects.read(objects.body(learnt.answer))
    if number == 1:
        return f"the answer has {count(len(learnt.answer), 'byte')}"
    if number == 2:
        return f"the answer's status is {learnt.answer[-2:].hex().upper()}"
    if number == 3:
        tags = " ".join(one.tag for one in members or ()) or "none"
        return "its data is no list of objects" if members is None else f"the objects of its data are: {tags}"
    if number == 8 and learnt.question == "READ":
        return "no record told " + " and ".join(tag for tag in MANDATORY if tag not in learnt.facts)
    if number == 9:
        tag = "9F38" if not learnt.records else "8D" if learnt.given else "8C"
        return f"{tag} is {lists.in_words(learnt.pdol if tag == '9F38' else learnt.facts.get(tag, b''))}"
    return cryptogram if number == 10 else None
