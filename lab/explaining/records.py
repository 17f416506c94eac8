"""An explanation as a JSON object."""
from lab.explaining.layout import zeros_note
from lab.words import text

FIELDS = """
tape        the name (tape_hex beside it where it is no UTF-8); bytes, session, sha256 of the bytes that were judged; judge
verdict     verdict, place, code and zeros: the judge's line
entries     those shown: index, kind, bytes (stars where digits are hidden), words
due         what was due at FAIL's place, or is waited for: kind, bytes or null, words
stood       what stood there: kind, bytes, words
differs     each difference: part, words, source (the sentence of 01 or 02), at (places in stood), missing (places in due)
because     about, words: display, worked out from the tape's own values; underived says where that did not lead to what was due
zeros_of    list, tag, length of each list entry that was zeros; null where they could not be accounted for
notes       label and words of every other line
"""


def told_record(told):
    return {"kind": told.kind, "bytes": None if told.octets is None else "".join(told.octets), "words": told.lines}


def record(judged, found, judge):
    """A tape as one object; its fields are those of FIELDS."""
    finding = judged.finding
    notes = [*zeros_note(finding, found.zeros), *found.notes, ("meaning", found.meaning)]
    made = {"tape": text(judged.name), "bytes": judged.size, "session": judged.session, "sha256": judged.sha256, "judge": judge,
            "verdict": finding.verdict, "place": finding.place, "code": finding.code, "zeros": finding.zeros,
            "entries": [{"index": told.index, **told_record(told)} for told in found.entries],
            "due": found.due and told_record(found.due), "stood": found.stood and told_record(found.stood),
            "differs": [{"part": one.part, "words": one.words, "source": one.source, "at": list(one.stood), "missing": list(one.due)}
                        for one in found.differs],
            "because": [{"about": about, "words": why} for about, why in found.because], "underived": found.underived,
            "zeros_of": found.zeros and [{"list": tag, "tag": one.tag, "length": len(one.value)} for tag, one in found.zeros],
            "notes": [{"label": label, "words": words} for label, words in notes]}
    try:
        judged.name.decode("utf-8")
    except UnicodeDecodeError:
        made["tape_hex"] = judged.name.hex()
    return made
