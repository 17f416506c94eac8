"""In what an entry that cannot be differs from what was due: each difference by name, with its sentence of the documents."""
from lab import kinds
from lab.explaining import deciding, deriving, lists, names, objects
from lab.explaining.parts import Difference, Part, count, offsets
from lab.explaining.words import WORDS

COMMANDS = "01, \"The commands\""
TAPE = "01, \"The tape\""
ANSWERS = "01, \"What the card must answer\""


class Pair:
    """The bytes that were due and those that stood there, with what is hidden of them."""

    def __init__(self, kind, due, stood, learnt, derived, hider):
        self.kind, self.due, self.stood, self.learnt, self.derived = kind, due, stood, learnt, derived
        self.parts = derived.parts if derived else plain_parts(kind, due)
        spans = account_spans(self.parts)
        self.shown = hider.octets(due, spans), hider.octets(stood, spans)
        self.source = COMMANDS if kind == "COMMAND" else TAPE

    def values(self, part):
        return self.due[part.at:part.at + part.size], self.stood[part.at:part.at + part.size]

    def hex(self, part):
        """Both values in hexadecimal. Where they differ in hidden digits alone, that is said."""
        right, wrong = ("".join(octets[part.at:part.at + part.size]) for octets in self.shown)
        return [right, f"{wrong} (other digits, which are hidden)" if right == wrong else wrong]

    def places(self, part):
        return tuple(k for k in range(part.at, part.at + part.size) if self.due[k] != self.stood[k])


def account_spans(parts):
    """Where a list that was filled holds an account number."""
    return tuple((part.at, part.size) for part in parts if part.tag == "5A")


def of_entry(due, stood, payload, learnt, derived, hider):
    """All differences between what was due (its kind, and its bytes or its number) and the entry that stood there."""
    if due["kind"] == "NOTHING":
        return [Difference("kind", f"kind: nothing was due, {stood} stood there", kinds.NAMED["NOTHING"].source)]
    if due["kind"] == "ANSWER" and stood == "SILENCE":
        words = f"length: a silence of {count(len(payload), 'byte')} stood there; a silence has none"
        return [Difference("length", words, kinds.NAMED["ANSWER"].source, tuple(range(len(payload))))]
    if due["kind"] != stood:
        same = " with the very bytes that were due" if "bytes" in due and bytes.fromhex(due["bytes"]) == payload else ""
        return [Difference("kind", f"kind: {due['kind']} was due, {stood} stood there{same}", kinds.NAMED[due["kind"]].source)]
    if stood in WORDS:
        return WORDS[stood].faults(payload, learnt, due.get("count"))
    if "bytes" in due:
        return of_bytes(Pair(stood, bytes.fromhex(due["bytes"]), payload, learnt, derived, hider))
    return []


def of_bytes(pair):
    another = pair.kind == "COMMAND" and pair.due[:2] != pair.stood[:2] and len(pair.stood) > 1
    if another:
        return other_command(pair)
    return of_parts(pair, pair.parts) if len(pair.due) == len(pair.stood) else of_length(pair)


def plain_parts(kind, due):
    """The parts of bytes that could not be worked out: the header, and the rest by places."""
    if kind == "DECISION" and len(due) == 9:
        return deriving.decision_parts()
    parts = [Part(name, k, 1) for k, name in enumerate(("CLA", "INS", "P1", "P2"))] if kind == "COMMAND" else []
    return parts + [Part(f"byte {k}", k, 1) for k in range(len(parts), len(due))]


def of_parts(pair, parts):
    """Part by part, as far as both have bytes."""
    found = []
    for part in parts:
        if pair.places(part) and part.tag in names.BITS:
            found += of_bits(pair, part)
        elif pair.places(part):
            found.append(of_part(pair, part))
    return found


def of_bits(pair, part):
    """TVR, TSI or AIP, bit by bit. A list may ask for more bytes than it has, which are zeros."""
    label, table = names.BITS[part.tag]
    found = []
    for k, (right, wrong) in enumerate(zip(*pair.values(part)), 1):
        for bit in range(8, 0, -1):
            if (right ^ wrong) >> (bit - 1) & 1:
                name = table[k - 1][8 - bit] if k <= len(table) else None
                said = "due and not set" if right >> (bit - 1) & 1 else "set and not due"
                found.append(Difference(f"{label} byte {k} b{bit}", f"{label} {names.bit_in_words(k, bit, name)}: {said}",
                                        bit_source(pair, part, k, bit), (part.at + k - 1,)))
    return found


def bit_source(pair, part, byte, bit):
    if part.tag == "82":
        return f"{COMMANDS}: as the card told it"
    known = pair.derived and pair.derived.bits.get(part.tag, {}).get((byte, bit))
    places = deciding.TVR_PLACES if part.tag == "95" else deciding.TSI_PLACES
    return known[2] if known else deciding.FACTS + ("" if (byte, bit) in places else ": no rule sets it")


def of_part(pair, part):
    """Any other part: what was due there, and what stood there."""
    said, source = pair.hex(part), COMMANDS
    values = [value[0] for value in pair.values(part)]
    if pair.kind == "DECISION":
        said, source = decision_values(part, values)
    elif part.name == "P1" and pair.due[1] == 0xAE:
        said = [names.CRYPTOGRAMS.get(value, f"'{value:02X}', which asks for no cryptogram,") for value in values]
        source = f"{deciding.FACTS}: the request"
    elif pair.due[1] == 0xB2 and part.name in ("P1", "P2"):
        said = [f"record {value}" if part.name == "P1" else f"{value:02X} (SFI {value >> 3})" for value in values]
        source = f"{COMMANDS}: records in the order of the AFL, P2 is 8*SFI+4"
    elif part.tag:
        source = f"{COMMANDS}: {lists.rule_of(part.tag, pair.derived, part.name)}"
    places = pair.places(part)
    return Difference(part.name, f"{part.name}, {offsets(places)}: {said[0]} was due, {said[1]} stood there", source, places)


def decision_values(part, values):
    if part.name == "outcome":
        return [f"{names.OUTCOMES.get(value, 'none')} ({value})" for value in values], deciding.FACTS
    return [f"{value} ({names.REASONS.get(value, 'which there is not') if value else 'none'})" for value in values], ANSWERS


def other_command(pair):
    """A command other than the one that was due."""
    due, stood = pair.due, pair.stood
    parts = [f"{name} {due[k]:02X} was due, {stood[k]:02X} stood there" for k, name in enumerate(("CLA", "INS")) if due[k] != stood[k]]
    words = f"command: {deriving.command_in_words(due)} was due, {deriving.command_in_words(stood)} stood there ({'; '.join(parts)})"
    found = [Difference("command", words, COMMANDS, tuple(k for k in range(len(stood)) if k >= len(due) or due[k] != stood[k]))]
    return found + ([length_line(pair)] if len(due) != len(stood) else [])


def length_line(pair):
    were, tag = "was" if len(pair.due) == 1 else "were", other_list(pair)
    words = f"length: {count(len(pair.due), 'byte')} {were} due, {len(pair.stood) or 'none'} stood there"
    return Difference("length", words + (f", as many as with {tag} instead of {pair.derived.list_tag}" if tag else ""), pair.source)


def other_list(pair):
    """Of a GENERATE AC: the other of the two lists, where it asks for as many bytes as stood there."""
    for tag in deriving.LISTS if pair.derived and pair.derived.list_tag in deriving.LISTS else ():
        wanted = objects.wanted(pair.learnt.facts.get(tag, b""))
        if tag != pair.derived.list_tag and wanted and sum(size for _, size in wanted) == len(pair.stood) - 6:
            return tag
    return None


def of_length(pair):
    """Payloads of two lengths: bytes that are missing or too many at one place, where Lc may tell it, or else the parts up to where the
    shorter ends."""
    due, stood, short = pair.due, pair.stood, min(len(pair.due), len(pair.stood))
    length = [part for part in pair.parts if part.name == "Lc" and part.at < short and pair.places(part)]
    for part in length:
        due = due[:part.at] + stood[part.at:part.at + 1] + due[part.at + 1:]
    front = next((k for k in range(short) if due[k] != stood[k]), short)
    back = next((k for k in range(short - front) if due[-1 - k] != stood[-1 - k]), short - front)
    if front + back == short:
        return [length_line(pair), *of_parts(pair, length), one_gap(pair, front)]
    kept = [part for part in pair.parts if part.at + part.size <= short]
    return [length_line(pair), *of_parts(pair, kept), *rest_of(pair, kept)]


def one_gap(pair, front):
    """Bytes missing or too many at one place."""
    change, missing = abs(len(pair.due) - len(pair.stood)), len(pair.stood) < len(pair.due)
    places = tuple(range(front, front + change))
    if missing:
        gone = ", ".join(part.name for part in pair.parts if any(part.at <= place < part.at + part.size for place in places))
        return Difference("bytes", f"{count(change, 'byte')} missing, {offsets(places)}: {gone}", pair.source, (), places)
    part = next((part for part in pair.parts if part.at <= front < part.at + part.size), None)
    where = f"{'before' if part.at == front else 'in'} {part.name}" if part else "behind the last"
    return Difference("bytes", f"{count(change, 'byte')} too many, {offsets(places)}, {where}", pair.source, places)


def rest_of(pair, kept):
    """What lies behind the last part that both have room for."""
    at = max((part.at + part.size for part in kept), default=0)
    if pair.due[at:] == pair.stood[at:] or not pair.stood[at:]:
        return []
    right, wrong = ("".join(octets[at:]) for octets in pair.shown)
    places = tuple(k for k in range(at, len(pair.stood)) if k >= len(pair.due) or pair.due[k] != pair.stood[k])
    return [Difference("rest", f"from offset {at} on: {right or 'nothing'} was due, {wrong} stood there", pair.source, places)]
