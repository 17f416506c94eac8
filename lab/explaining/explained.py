"""A judged tape explained: its entries in words, what was due and what stood there, what is waited for, what cannot be read."""
from typing import NamedTuple, Optional

from lab import kinds, recovery
from lab.explaining import because, deriving, differences, names, unreadable
from lab.explaining.answers import answer_in_words
from lab.explaining.hiding import Hider
from lab.explaining.learnt import Learnt
from lab.explaining.parts import count
from lab.explaining.words import WORDS

MEANING = {
    "PASS": "a finished session of the rulebook: every command and the decision are those that were due. 00, demand 3",
    "FAIL": "a session can begin with the entries before this one, and none goes on with it. 00, demand 3",
    "INCONCLUSIVE": "evidence for nothing: no finished session, and no entry in it that cannot be; absence of failure is not evidence "
                    "(clause 9). 00, demand 3",
    "UNREADABLE": "nothing is said of the terminal: the evidence is damaged. 01, \"The tape\"; 02, R-9",
}


NO_BEGINNING = "no session begins with this entry. 00, demand 3"
UNDERIVED = "what was due could not be worked out here from the entries before it: its bytes are the judge's, and not all have names"
OTHERS_DUE = {"NOTHING": "the session was over", "ANSWER": "the card's answer, or a silence without payload"}


class Told(NamedTuple):
    """An entry, or what was due in its place: its kind, its bytes as they are shown (None where only its kind is known), and its words."""
    index: int
    kind: str
    octets: Optional[list]
    lines: list


class Explained(NamedTuple):
    """All that is said of a tape beside its finding. `notes` are lines with a label; `zeros` are those list entries that were zeros for
    want of a value, each with its list, or None where they could not be accounted for; `meaning` is what such a verdict says."""
    before: int = 0
    entries: list = []
    zeros: Optional[list] = []
    due: Optional[Told] = None
    stood: Optional[Told] = None
    differs: list = []
    because: list = []
    underived: Optional[str] = None
    notes: list = []
    meaning: str = ""


def hidden(found, hider):
    """The same with no account number in any of its words, in whichever value it stood."""
    def quiet(told):
        return told and told._replace(lines=[hider.words(line) for line in told.lines])
    return found._replace(entries=[quiet(told) for told in found.entries], due=quiet(found.due), stood=quiet(found.stood),
                          differs=[one._replace(words=hider.words(one.words)) for one in found.differs],
                          because=[(about, hider.words(why)) for about, why in found.because],
                          notes=[(label, hider.words(words)) for label, words in found.notes])


def entry_in_words(kind, payload, learnt, hider):
    """An entry as it stands."""
    if kind in WORDS:
        return WORDS[kind].told(payload, learnt)
    if kind == "COMMAND":
        return [deriving.command_in_words(payload)]
    if kind == "ANSWER":
        return answer_in_words(payload, learnt, hider)
    if kind == "SILENCE":
        return ["the card said nothing" if not payload else f"with a payload of {count(len(payload), 'byte')}"]
    if kind == "DECISION":
        return [deriving.decision_in_words(payload), *decided_bits(payload)]
    return [count(len(payload), "byte")]


def decided_bits(payload):
    """The bits of a decision by name."""
    if len(payload) != 9:
        return []
    said = [(names.BITS[tag][0], names.bits_in_words(tag, value)) for tag, value in (("95", payload[2:7]), ("9B", payload[7:]))]
    return [f"{label} {bits}" for label, bits in said if bits]


class Walk:
    """The entries that may stand where they stand, gone through in order."""

    def __init__(self, entries, last, hider):
        self.learnt, self.told, self.zeros, self.hider = Learnt(), [], [], hider
        self.before = max(0, len(entries) - last) if last else 0
        for index, (kind, payload) in enumerate(entries):
            spans = self.count_zeros(payload) if kind == "COMMAND" else ()
            if index >= self.before:
                self.told.append(self.tell(index, kind, payload, spans))
            self.learnt.take(kind, payload)

    def tell(self, index, kind, payload, spans=()):
        return Told(index, kind, self.hider.octets(payload, spans), entry_in_words(kind, payload, self.learnt, self.hider))

    def count_zeros(self, command):
        """Keeps the entries of a command's list that had no value (02, R-6); none can be told where the command is not the one worked out.
        Answers where the command holds an account number."""
        found = deriving.derived(self.learnt, "COMMAND", command)
        if found is None or self.zeros is None:
            self.zeros = None
        else:
            self.zeros += [(found.list_tag, one) for one in found.entries if not one.supplied]
        return differences.account_spans(found.parts) if found else ()

    def accounted(self, finding):
        return self.zeros if self.zeros is not None and len(self.zeros) == finding.zeros else None


def entries_of(copy, number):
    """The first entries of the tape that was judged."""
    blocks = [copy.block(k) for k in range(number)]
    return [(kinds.name_of(block[8]), block[12:12 + int.from_bytes(block[10:12], "big")]) for block in blocks]


def due_told(due, walk, derived, index):
    """What was due, in words."""
    if "bytes" in due:
        payload = bytes.fromhex(due["bytes"])
        spans = differences.account_spans(derived.parts) if derived else ()
        return walk.tell(index, due["kind"], payload, spans)
    kind = due["kind"]
    return Told(index, kind, None, [WORDS[kind].due(due.get("count")) if kind in WORDS else OTHERS_DUE[kind]])


def failed(copy, judged, last, show):
    place, due = judged.finding.place, judged.due
    entries = entries_of(copy, place + 1)
    kind, payload = entries[-1]
    walk = Walk(entries[:-1], last, Hider([one for _, one in entries], show))
    derived, underived = derived_of(walk, due)
    differs = differences.of_entry(due, kind, payload, walk.learnt, derived, walk.hider)
    spans = differences.account_spans(derived.parts) if derived and kind == due["kind"] else ()
    why = because.lines(walk.learnt, due, derived, {one.part for one in differs}) if derived else []
    found = Explained(walk.before, walk.told, walk.accounted(judged.finding), due_told(due, walk, derived, place),
                      walk.tell(place, kind, payload, spans), differs, why, underived, ended_note(due, entries))
    return hidden(found, walk.hider)


def derived_of(walk, due):
    """What the display comes to for what was due, and what is said where it does not. The list of a command that is due is counted."""
    if "bytes" not in due:
        return None, None
    payload = bytes.fromhex(due["bytes"])
    if due["kind"] == "COMMAND":
        walk.count_zeros(payload)
    derived = deriving.derived(walk.learnt, due["kind"], payload)
    return derived, None if derived else UNDERIVED


def ended_note(due, entries):
    """Behind which entry nothing was due."""
    if due["kind"] != "NOTHING":
        return []
    kind = entries[-2][0] if len(entries) > 1 else "nothing"
    return [("ended", f"the session was over with the {kind} at entry {len(entries) - 2}")]


def open_tape(copy, judged, told, last, show):
    """An unfinished tape: what is waited for, and of whom."""
    place = judged.finding.place
    entries = entries_of(copy, place)
    walk = Walk(entries, last, Hider([one for _, one in entries], show))
    derived, underived = derived_of(walk, judged.due)
    notes, closed = [], bool(told) and told[-1]["kind"] == "NOTHING"
    if closed:
        notes.append(("waiting", "NOTHING: a closing silence stands after the command; the card owed its answer and never gave it"))
    else:
        notes.append(("waiting", f"{judged.due['kind']}, of {kinds.NAMED[judged.due['kind']].of}"))
    asked = next((payload for kind, payload in reversed(entries) if kind == "COMMAND"), None)
    notes.append(("last asked", deriving.command_in_words(asked) if asked else "no command yet"))
    due = due_told(judged.due, walk, derived, place) if "bytes" in judged.due or "count" in judged.due else None
    why = because.lines(walk.learnt, judged.due, derived, because.WHOLE) if derived else []
    found = Explained(walk.before, walk.told, walk.accounted(judged.finding), due, because=why, underived=underived, notes=notes)
    return hidden(found, walk.hider)


def passed(copy, judged, last, show):
    entries = entries_of(copy, judged.finding.place)
    walk = Walk(entries, last, Hider([one for _, one in entries], show))
    return hidden(Explained(walk.before, walk.told, walk.accounted(judged.finding)), walk.hider)


def damaged(copy, judged, words):
    """What cannot be read, and what `recover_tape` finds. The place of code 2 is behind the last whole block."""
    found = judged.finding
    told = unreadable.there(found.code, copy.block(found.place), copy.block(0), found.place, judged.size)
    notes = [("why", f"code {found.code}: {unreadable.TESTS.get(found.code, 'which there is not')}")]
    if told:
        notes += [("there", told[0]), ("right", told[1])]
    else:
        notes.append(("there", "what the code says was not seen here"))
    with recovery.listed(words, copy.from_start()) as (_, left):
        notes.append(("left", left_in_words(left)))
        notes += [("", f"session {session}: blocks {numbers}") for session, numbers in left.sessions.items()]
    return Explained(notes=notes)


def masked(judge, judged):
    """The same with stars for account numbers in what was due and what stood there, as they are shown everywhere; for `then` of a judge.
    Where the display fails there are stars for all of it: what cannot be looked at is not handed on."""
    if not any(told and "bytes" in told for told in (judged.due, judged.stood)):
        return judged
    try:
        found = failed(judge.copy, judged, 1, False) if judged.stood else open_tape(judge.copy, judged, judge.told, 1, False)
    except Exception:
        found = Explained()

    def starred(told, shown):
        return {**told, "bytes": "".join(shown.octets) if shown else "*" * len(told["bytes"])} if told and "bytes" in told else told
    return judged._replace(due=starred(judged.due, found.due), stood=starred(judged.stood, found.stood), masked=True)


def left_in_words(left):
    """What `recover_tape` finds."""
    said = f"{left.found} of {count(left.steps, 'block')} good by {'itself' if left.steps == 1 else 'themselves'}"
    if left.gaps.pairs:
        said += f"; none at {'step' if str(left.gaps).isdigit() else 'steps'} {left.gaps}"
    if left.tail:
        said += f"; {count(left.tail, 'byte')} behind the last whole block"
    return said + (" (bin/recover lists them)" if left.found else "")


def explain(judge, judged, recover_words, last, show):
    """A tape that `judge` has judged just now, and holds."""
    verdict = judged.finding.verdict
    if verdict == "FAIL":
        found = failed(judge.copy, judged, last, show)
    elif verdict == "INCONCLUSIVE":
        found = open_tape(judge.copy, judged, judge.told, last, show)
    elif verdict == "PASS":
        found = passed(judge.copy, judged, last, show)
    else:
        found = damaged(judge.copy, judged, recover_words)
    meaning = NO_BEGINNING if verdict == "FAIL" and judged.finding.place == 0 else MEANING[verdict]
    return found._replace(meaning=meaning)
