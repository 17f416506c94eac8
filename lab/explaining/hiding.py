"""Account numbers and names of cardholders, kept out of what is shown.

Of an account number (PAN) the first six and the last four digits stay, of one with fewer than thirteen the last four, of one with fewer
than eight nothing. It is hidden where an object holds it (5A, 57), where an object list asked for it, and wherever eight of its digits
stand in a row, since a terminal that fails may have put it in any place. Values that name the cardholder are hidden whole.
"""
import re

from lab.explaining import names, objects
from lab.explaining.parts import count

FIRST, LAST, WHOLE, SHORT = 6, 4, 13, 8
# So many digits in a row are taken for a part of the number.
RUN = 8
NUMBERED = re.compile(rb"[\x5A\x57](?:\x81|\x82\x00)?([\x01-\x13])")


def hidden_digits(count):
    """The places of the digits that are not shown of a number with so many."""
    if count >= WHOLE:
        return set(range(FIRST, count - LAST))
    return set(range(count - LAST)) if count >= SHORT else set(range(count))


def digits_of(value):
    """The digits that stand at the start of a value, up to the first nibble that is none."""
    return re.match("[0-9]*", value.hex()).group()


def personal(members):
    """The objects, at any depth, that tell who the cardholder is."""
    for one in members:
        if one.tag in names.PERSONAL:
            yield one
        yield from personal(one.inner or ())


def personal_spans(payload):
    """Where personal values stand in a payload: tag, place, value. Bytes that cannot be read as objects are searched."""
    for data in (objects.body(payload), payload):
        members = objects.read(data)
        if members:
            return [(one.tag, one.at, one.value) for one in personal(members)]
    found = []
    for match in NUMBERED.finditer(payload):
        value = payload[match.end():match.end() + match.group(1)[0]]
        if len(digits_of(value)) >= SHORT:
            found.append((match.group()[:1].hex().upper(), match.end(), value))
    return found


class Hider:
    """What is hidden of one tape's bytes."""

    def __init__(self, payloads, show):
        self.show, self.forms = show, {}
        if show:
            return
        for payload in payloads:
            for tag, _, value in personal_spans(payload):
                if tag in ("5A", "57") and len(digits_of(value)) >= SHORT:
                    self.learn(digits_of(value))

    def learn(self, digits):
        places = hidden_digits(len(digits))
        self.forms[digits] = (RUN, places)
        self.forms["".join("3" + digit for digit in digits)] = (2 * RUN, {2 * k + half for k in places for half in (0, 1)})

    def known(self, text):
        """The places in a text where a digit of a number that the tape told must not stand."""
        found = set()
        for form, (run, places) in self.forms.items():
            for k in range(len(form) - run + 1):
                part, at = form[k:k + run], text.find(form[k:k + run])
                while at >= 0 and part.strip("0"):
                    found.update(at + place - k for place in places if k <= place < k + run)
                    at = text.find(part, at + 1)
        return found

    def placed(self, tag, at, value):
        """The nibbles of a payload that hide a personal value in it."""
        digits = digits_of(value) if tag in ("5A", "57") else ""
        if tag == "5A" and not digits.strip("0"):
            return set()
        rest = range(2 * at + len(digits), 2 * at + 2 * len(value)) if tag != "5A" else ()
        return {2 * at + k for k in hidden_digits(len(digits))} | set(rest)

    def octets(self, payload, spans=()):
        """A payload in hexadecimal, byte by byte, with stars for what is hidden. `spans` are places (from, size) of an account number."""
        text = payload.hex().upper()
        if self.show:
            return [text[k:k + 2] for k in range(0, len(text), 2)]
        hidden = self.known(text)
        for tag, at, value in personal_spans(payload):
            hidden |= self.placed(tag, at, value)
        for at, size in spans:
            hidden |= self.placed("5A", at, payload[at:at + size])
        text = "".join("*" if k in hidden else digit for k, digit in enumerate(text))
        return [text[k:k + 2] for k in range(0, len(text), 2)]

    def hex(self, payload, spans=()):
        return "".join(self.octets(payload, spans))

    def number(self, value):
        """An account number in words."""
        digits = digits_of(value)
        places = set() if self.show else hidden_digits(len(digits))
        return "".join("*" if k in places else digit for k, digit in enumerate(digits)) + f" ({count(len(digits), 'digit')})"

    def words(self, text):
        """Words with no account number among them."""
        hidden = self.known(text)
        return "".join("*" if k in hidden else one for k, one in enumerate(text)) if hidden else text


def printable(value):
    """Text of the card's, such as a label: nothing of it reaches a terminal but printable characters."""
    return "".join(chr(one) if 0x20 <= one <= 0x7E and one != 0x5C else f"\\x{one:02X}" for one in value)
