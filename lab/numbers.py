"""Numbers, read strictly: decimal digits of ASCII and nothing else, and none that does not fit."""
import re

MOST = 0xFFFF_FFFF

DIGITS = re.compile(rb"[0-9]+")
IN_FRONT = re.compile(rb"([0-9]+)=(.*)", re.DOTALL)
IN_NAME = re.compile(rb".*?([0-9]+)\.tape", re.DOTALL)


class NoNumber(ValueError):
    """Not a number that fits; the text says why."""


def number(digits, most=MOST):
    if not DIGITS.fullmatch(digits):
        raise NoNumber("not a number")
    if len(digits.lstrip(b"0")) > 20 or int(digits) > most:
        raise NoNumber(f"not a number from 0 to {most}")
    return int(digits)


def in_front(word):
    """The number and the name of NUMBER=NAME, or None."""
    found = IN_FRONT.fullmatch(word)
    return found and (found.group(1), found.group(2))


def in_name(name):
    """The digits right before `.tape` at the end of a file's name, or None."""
    found = IN_NAME.fullmatch(name.rpartition(b"/")[2])
    return found and found.group(1)


def number_in_name(name):
    """The number that a file's name gives, or None where it gives none that fits."""
    digits = in_name(name)
    try:
        return None if digits is None else number(digits)
    except NoNumber:
        return None
