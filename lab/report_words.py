"""What a report says of a tape in words, from its line alone. What was due is the proved program's word, what stood there the tape's own
bytes, both with stars for digits of account numbers; where a line has them whole, no bytes are shown."""
from lab.explaining.names import CRYPTOGRAMS, OUTCOMES
from lab.verdicts import COUNTED

# 01, "The commands"
COMMANDS = {"00A4": "SELECT", "80A8": "GET PROCESSING OPTIONS", "00B2": "READ RECORD", "80AE": "GENERATE AC"}
# 01, "The tape"
CODES = {1: "longer than a tape may be", 2: "not whole blocks of 512 bytes", 3: "a block fails its check (CRC-32)",
         4: "a block has another number than its place", 5: "a block has another session number than the first",
         6: "a block of a kind that there is none", 7: "a block whose byte 9 is not zero", 8: "a block whose length is over 496",
         9: "a block with bytes behind its payload"}
MEANINGS = {"PASS": "a finished session, and every entry of it is the one that the rules name",
            "FAIL": "an entry stands there that cannot be",
            "INCONCLUSIVE": "the session is not finished: nothing in it is wrong, and it is evidence for nothing",
            "UNREADABLE": "the tape is damaged: nothing is said of the terminal"}
WAITED = {"ANSWER": "the card's answer", "HOST": "the issuer's word (HOST)", "START": "the terminal's data (START): the tape is empty"}


def octets_of(told):
    """An entry's bytes, two digits each; either may be a star."""
    digits = told.get("bytes", "")
    return [digits[k:k + 2] for k in range(0, len(digits), 2)]


def number(digits):
    """The number that two digits are; None where they are not two, or hidden."""
    return int(digits, 16) if len(digits) == 2 and "*" not in digits else None


def command(head):
    name = COMMANDS.get(head[:4], "that is none of the four")
    if name != "GENERATE AC":
        return "COMMAND " + name
    return f"COMMAND GENERATE AC ({CRYPTOGRAMS.get(number(head[4:6]), 'no cryptogram')})"


def decision(digits):
    if len(digits) != 18:
        return f"DECISION of {len(digits) // 2} bytes"
    reason = number(digits[2:4])
    said = f", reason {digits[2:4] if reason is None else reason}" if reason != 0 or digits[:2] == "03" else ""
    return f"DECISION {OUTCOMES.get(number(digits[:2]), 'with no outcome')}{said}"


def entry(told):
    """An entry in words: its kind, and as much of its bytes as tells tapes with one cause from others."""
    kind, digits = told["kind"], told.get("bytes", "")
    if kind == "COMMAND":
        return command(digits[:6])
    if kind == "DECISION":
        return decision(digits)
    if kind in COUNTED:
        return f"{kind} ({told['count'] if 'count' in told else len(digits) // 2})"
    if kind == "SILENCE" and digits:
        return "SILENCE with bytes"
    return "nothing more" if kind == "NOTHING" else kind


def otherwise(due, stood):
    """How two entries differ that are the same in words."""
    if due["kind"] == "DECISION":
        a, b = octets_of(due), octets_of(stood)
        parts = [name for name, first, last in (("TVR", 2, 7), ("TSI", 7, 9)) if a[first:last] != b[first:last]]
        return "with another " + " and another ".join(parts) if parts and len(b) == 9 else "with other bytes"
    if due["kind"] == "COMMAND":
        return "of another record" if entry(due) == "COMMAND READ RECORD" else "with other bytes"
    return "with bytes that cannot be"


def cause(line):
    """What stands behind a verdict, in words: tapes of which the same is said stand in one group."""
    if line.verdict == "FAIL":
        due, stood = entry(line.due), entry(line.stood)
        return f"{due} was due, {f'{stood} {otherwise(line.due, line.stood)}' if due == stood else stood} stood there"
    if line.verdict == "INCONCLUSIVE":
        return "waiting for " + WAITED.get(line.due["kind"], entry(line.due))
    return f"code {line.code}: {CODES[line.code]}"


def where(line):
    """The place of a verdict in words."""
    if line.verdict == "FAIL":
        return f"FAIL at entry {line.place}"
    if line.verdict == "UNREADABLE":
        return f"UNREADABLE at block {line.place}, code {line.code}"
    return f"{line.verdict} after {line.place} entr{'y' if line.place == 1 else 'ies'}"


WINDOW = 36


def window(data, other):
    """So much of some octets as can be read at a glance, the first that differs from the other's within it: its place, and the octets."""
    if len(data) <= WINDOW:
        return 0, data
    differs = next((k for k, (a, b) in enumerate(zip(data, other)) if a != b), min(len(data), len(other)))
    first = max(0, min(differs - WINDOW // 3, len(data) - WINDOW))
    return first, data[first:first + WINDOW]


def compared(data, other):
    """Octets in pieces, each with whether it differs from what the other has there; dots stand for what is left out."""
    first, part = window(data, other)
    pieces = []
    for k, octet in enumerate(part, first):
        differs = k >= len(other) or other[k] != octet
        if pieces and pieces[-1][1] == differs:
            pieces[-1] = (f"{pieces[-1][0]} {octet}", differs)
        else:
            pieces.append((octet, differs))
    if first:
        pieces.insert(0, (f"from byte {first} ..", False))
    if first + len(part) < len(data):
        pieces.append((f".. {len(data)} bytes", False))
    return pieces


NOT_MASKED = "bytes, not shown: the list may have account numbers whole"
HIDDEN_ALONE = "in digits that are hidden, and nowhere else"


def pieces_of(told, other, masked):
    """An entry's bytes beside another's; its words where it has none, or where they must not be shown."""
    if not told.get("bytes"):
        return [(entry(told), False)]
    return compared(octets_of(told), octets_of(other)) if masked else [(f"{entry(told)}, {len(told['bytes']) // 2} {NOT_MASKED}", False)]


def in_line(line):
    """What is said of a tape that is not explained, where its group is opened: pairs of a label and pieces of text, each with whether it
    is to be marked."""
    if line.verdict == "FAIL":
        beside = line.due if line.due.get("bytes") else line.stood
        alone = [("differs", [(HIDDEN_ALONE, False)])] if line.masked and line.due == line.stood else []
        return [("due", pieces_of(line.due, line.stood, line.masked)), ("stood there", pieces_of(line.stood, beside, line.masked)), *alone]
    if line.verdict == "INCONCLUSIVE":
        return [("waited for", pieces_of(line.due, line.due, line.masked))]
    return [("damaged", [(f"block {line.place} of {line.size // 512}, {line.size:,} bytes in all: {CODES[line.code]}", False)])]
