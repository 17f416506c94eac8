"""The card's answers in words. Of an object that no rule names at its place only the tag and the size are shown, and a label: nothing of
it can have counted (02, R-13)."""
from lab.explaining import lists, names, objects, verifying
from lab.explaining.hiding import printable
from lab.explaining.parts import count
from lab.explaining.words import day_in_words

# What counts at each place (01, "What the card must answer"): the question, and the tags of the objects around it.
NAMED = {
    ("SELECT", ()): ("6F",), ("SELECT", ("6F",)): ("84", "A5"), ("SELECT", ("6F", "A5")): ("9F38",),
    ("GPO", ()): ("77", "80"), ("GPO", ("77",)): ("82", "94"), ("READ", ()): ("70",),
    ("AC", ()): ("77", "80"), ("AC", ("77",)): ("9F27", "9F36", "9F26", "9F10"),
}
# The values that stand joined in 80, with their sizes; None for the rest of them.
JOINED = {"GPO": (("82", 2), ("94", None)), "AC": (("9F27", 1), ("9F36", 2), ("9F26", 8), ("9F10", None))}
TEXTS = ("50", "9F12")


def label(tag):
    return f"{tag} {names.TAGS[tag]}" if tag in names.TAGS else tag


def locator_in_words(value):
    """An AFL, file by file."""
    if not value or len(value) % 4:
        return f"{value.hex().upper()}, which is no AFL"
    told = []
    for k in range(0, len(value), 4):
        first, last = value[k + 1], value[k + 2]
        told.append(f"SFI {value[k] >> 3} " + (f"record {first}" if first == last else f"records {first}-{last}"))
    return "; ".join(told)


def value_in_words(tag, value, hider):
    """The value of an object that is named at its place."""
    if tag in ("9F38", "8C", "8D"):
        return lists.in_words(value)
    if tag in names.BITS and len(value) == len(names.BITS[tag][1]):
        bits = names.bits_in_words(tag, value)
        return value.hex().upper() + (f" ({bits})" if bits else "")
    if tag == "94":
        return locator_in_words(value)
    if tag == "5A" and value and not value.hex().strip("0123456789").strip("f"):
        return hider.number(value)
    if tag in ("5F24", "5F25") and len(value) == 3 and value.hex().isdigit():
        return f"{value.hex()} ({day_in_words(value)})"
    if tag == "9F27" and len(value) == 1:
        return f"{value.hex().upper()} ({names.CRYPTOGRAMS.get(value[0] & 0xC0, 'no cryptogram')})"
    if tag == "8E" and len(value) >= 8 and len(value) % 2 == 0:
        return verifying.list_in_words(value)
    return hider.hex(value, ((0, len(value)),) if tag == "5A" else ()) or "empty"


def other_in_words(one):
    """An object that no rule names where it stands."""
    if one.tag in TEXTS:
        return f"{label(one.tag)} = {printable(one.value)}, not looked at"
    return f"{label(one.tag)}, {count(len(one.value), 'byte')}, not looked at"


def joined_in_words(question, value, hider):
    lines, at = [], 0
    for tag, size in JOINED.get(question, ()):
        piece = value[at:] if size is None else value[at:at + size]
        at += len(piece)
        if piece:
            lines.append(f"{label(tag)} = {value_in_words(tag, piece, hider)}")
    return lines


def members_in_words(members, question, around, record_tags, hider):
    """The lines of a list of objects, members of constructed ones further in."""
    named = record_tags if (question, around) == ("READ", ("70",)) else NAMED.get((question, around), ())
    lines = []
    for one in members:
        if one.tag not in named:
            lines.append(other_in_words(one))
        elif one.inner is not None:
            lines.append(label(one.tag))
            lines += ["  " + line for line in members_in_words(one.inner, question, around + (one.tag,), record_tags, hider)]
        elif one.tag == "80":
            lines.append(label(one.tag))
            lines += ["  " + line for line in joined_in_words(question, one.value, hider)]
        else:
            lines.append(f"{label(one.tag)} = {value_in_words(one.tag, one.value, hider)}")
    return lines


def answer_in_words(payload, learnt, hider):
    """An answer to the question that was asked last."""
    if len(payload) < 2:
        return [f"no status: {count(len(payload), 'byte')}" + (f", {hider.hex(payload)}" if payload else "")]
    size = f", {len(payload)} bytes in all" if len(payload) > 258 else ""
    data, lines = objects.body(payload), [f"status {payload[-2:].hex().upper()}{size}"]
    members = objects.read(data)
    if members is None:
        octets = hider.octets(payload)[:-2]
        more = f" .. and {len(octets) - 32} bytes more" if len(octets) > 32 else ""
        return lines + [f"data that is no list of objects, {count(len(data), 'byte')}: {' '.join(octets[:32])}{more}"]
    if not data:
        return [lines[0] + ", no data"]
    return lines + members_in_words(members, learnt.question, (), learnt.names(), hider)
