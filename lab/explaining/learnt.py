"""What the entries of a tape have told so far: START's fields, what the card's answers hold, what was asked and said."""
from lab import terminal
from lab.explaining import objects

QUESTIONS = {0xA4: "SELECT", 0xA8: "GPO", 0xB2: "READ", 0xAE: "AC"}
# What records tell (01, "What the card must answer"); the last two where START has capabilities (02, R-7).
RECORD_TAGS = ("5A", "5F24", "5F25", "9F08", "8C", "8D", "9F0D", "9F0E", "9F0F")
VERIFICATION_TAGS = ("8E", "9F42")
MANDATORY = ("5A", "5F24", "8C", "8D")


def joined(members):
    """The value of an answer's one object, where its values are joined (80), or None."""
    return members[0].value if members and members[0].tag == "80" else None


class Learnt:
    """All of it, one entry on at a time. Only entries that may stand where they stand are handed in."""

    def __init__(self):
        self.start, self.fields, self.question = b"", {}, None
        self.pdol, self.aip, self.afl, self.facts = b"", None, None, {}
        self.records, self.results, self.host = 0, None, None
        self.asked, self.given, self.answer = [], [], b""

    def take(self, kind, payload):
        if kind == "START":
            self.start, self.fields = payload, terminal.values(payload)
        elif kind == "COMMAND":
            self.question = QUESTIONS.get(payload[1]) if len(payload) > 1 else None
            if self.question == "AC":
                self.asked.append(payload[2])
        elif kind == "ANSWER":
            self.answered(payload)
        elif kind == "HOST":
            self.host = payload
        elif kind == "RESULTS":
            self.results = payload

    def names(self):
        return RECORD_TAGS + (VERIFICATION_TAGS if "capabilities" in self.fields else ())

    def answered(self, payload):
        self.answer = payload
        members = objects.read(objects.body(payload)) or []
        inner = (members[0].inner if members else None) or []
        if self.question == "SELECT":
            fci = next((one.inner for one in inner if one.tag == "A5"), None)
            self.pdol = objects.first(fci, "9F38") or b""
        elif self.question == "GPO":
            values = joined(members)
            self.aip = values[:2] if values is not None else objects.first(inner, "82")
            self.afl = values[2:] if values is not None else objects.first(inner, "94")
        elif self.question == "READ":
            self.records += 1
            for one in inner:
                if one.tag in self.names():
                    self.facts.setdefault(one.tag, one.value)
        elif self.question == "AC":
            values = joined(members)
            cid = values[:1] if values is not None else objects.first(inner, "9F27")
            self.given.append(cid[0] & 0xC0 if cid else None)

    def all_read(self):
        """Whether every record was read."""
        return self.records > 0 and self.records == len(objects.files_in(self.afl) or ())

    def second(self):
        """Whether the first cryptogram was given, so that 8D is the next list."""
        return len(self.given) > 0

    def type(self):
        return self.fields["type"][0]

    def number(self, field):
        """A field of digits as a number."""
        return int(self.fields[field].hex())

    def octet(self, field):
        return self.fields[field][0]
