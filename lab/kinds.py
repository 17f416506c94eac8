"""The kinds of a tape's entries (01, "The tape"; 02, R-7), in one table. A new kind is a row here."""
from typing import NamedTuple, Optional

# What the line DUE tells of an entry that is due: its bytes, how many of them are wanted, or its kind alone.
BYTES, COUNT, ALONE = "bytes", "count", ""


class Kind(NamedTuple):
    number: int
    name: str
    # None: it is never due by itself
    told: Optional[str]
    # who owes it where it is due, and where the documents say that it is
    of: str
    source: str


KINDS = (
    Kind(0, "NOTHING", ALONE, "nobody: the session was over", "00, demand 3: a finished session is never the beginning of a longer one"),
    Kind(1, "START", ALONE, "the bench: the terminal's data", "01, \"Terminal data\": a session begins with START"),
    Kind(2, "COMMAND", BYTES, "the terminal", "01, \"The commands\""),
    Kind(3, "ANSWER", ALONE, "the card: its answer to the command above",
         "01, \"The tape\": a command is followed by the card's answer, or closed by a silence without payload"),
    Kind(4, "SILENCE", None, "", ""),
    Kind(5, "HOST", ALONE, "the issuer: its reply to the ARQC", "01, \"From facts to a decision\": an ARQC waits for the issuer's reply"),
    Kind(6, "DECISION", BYTES, "the terminal", "01, \"From facts to a decision\""),
    Kind(7, "RESULTS", COUNT, "the attendant: a result for each rule of 8E",
         "02, R-7: due after the last record, where the card supports verification and told 8E"),
)
NAMED = {kind.name: kind for kind in KINDS}
# The words of those that an entry can have.
WORDS = tuple(kind.name for kind in KINDS[1:])
NUMBERS = range(1, len(KINDS))


def name_of(number):
    return KINDS[number].name if number in NUMBERS else f"kind {number}"
