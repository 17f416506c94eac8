"""START, the terminal's data: its fields and where they stand (01, "Terminal data"; 02, R-7), in one table.

A START of another length is a length more and rows for the fields that it has in other places; a field names the lengths that have it.
"""
from typing import NamedTuple, Optional


class Field(NamedTuple):
    name: str
    place: int
    size: int
    # the tag by which the card's object lists ask for it
    tag: Optional[str]
    lengths: tuple


BASE, WITH_CAPABILITIES = 74, 77
LENGTHS = (BASE, WITH_CAPABILITIES)

FIELDS = (
    Field("type", 0, 1, None, LENGTHS), Field("amount", 1, 6, "9F02", LENGTHS), Field("other", 7, 6, "9F03", LENGTHS),
    Field("country", 13, 2, "9F1A", LENGTHS), Field("currency", 15, 2, "5F2A", LENGTHS), Field("date", 17, 3, "9A", LENGTHS),
    Field("transaction", 20, 1, "9C", LENGTHS), Field("unpredictable", 21, 4, "9F37", LENGTHS), Field("floor", 25, 6, None, LENGTHS),
    Field("random", 31, 1, None, LENGTHS), Field("target", 32, 1, None, LENGTHS), Field("threshold", 33, 6, None, LENGTHS),
    Field("maximum", 39, 1, None, LENGTHS), Field("version", 40, 2, "9F09", LENGTHS), Field("denial", 42, 5, None, LENGTHS),
    Field("online", 47, 5, None, LENGTHS), Field("default", 52, 5, None, LENGTHS), Field("aid", 57, 17, None, LENGTHS),
    Field("capabilities", 74, 3, "9F33", (WITH_CAPABILITIES,)),
)


def values(data):
    """The bytes of each field by its name; nothing where no START has that length."""
    return {field.name: data[field.place:field.place + field.size] for field in FIELDS if len(data) in field.lengths}


def by_tag(data):
    """The bytes of each field that object lists can ask for, by its tag."""
    return {field.tag: data[field.place:field.place + field.size] for field in FIELDS if field.tag and len(data) in field.lengths}
