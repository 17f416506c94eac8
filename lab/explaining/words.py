"""What somebody other than the card says: START, HOST and RESULTS, in words, and which of their tests fail.

A new word is a row of WORDS: what is said where it is due, what it says, and its faults.
"""
from typing import Callable, NamedTuple

from lab import terminal
from lab.explaining import names
from lab.explaining.parts import Difference, count

START_SOURCE = "01, \"Terminal data\""
DAYS = (31, 28, 31, 30, 31, 30, 31, 31, 30, 31, 30, 31)


def year_of(digits):
    """A year of two digits (02, R-2)."""
    return int(digits) + (2000 if int(digits) < 50 else 1900)


def day_in_words(value):
    """A date of three bytes with its whole year; its digits where it is none."""
    digits = value.hex()
    return f"{year_of(digits[:2])}-{digits[2:4]}-{digits[4:]}" if digits.isdigit() and len(digits) == 6 else digits.upper()


def aid_of(value):
    """The AID in its field of seventeen bytes."""
    return value[1:1 + min(value[0], 16)].hex().upper()


def start_told(data, learnt):
    fields = terminal.values(data)
    if not fields:
        return [f"of {count(len(data), 'byte')}, which is no length that START has"]
    told = {name: value.hex().upper() for name, value in fields.items()}
    kind = names.TYPES[fields["type"][0]] if fields["type"][0] < len(names.TYPES) else "none of 0 to 2"
    lines = [
        f"type {fields['type'][0]} ({kind}), amount {told['amount']}, other amount {told['other']}, country {told['country']}, "
        f"currency {told['currency']}",
        f"date {told['date']}, transaction type {told['transaction']}, unpredictable number {told['unpredictable']}, "
        f"version {told['version']}",
        f"floor limit {told['floor']}, threshold {told['threshold']}, random {fields['random'][0]}, target {fields['target'][0]} %, "
        f"maximum {fields['maximum'][0]} %",
        f"TAC denial {told['denial']}, online {told['online']}, default {told['default']}, AID {aid_of(fields['aid'])}"]
    if "capabilities" in told:
        lines[-1] += f", capabilities {told['capabilities']}"
    return lines


def at(field):
    """The offset of a field."""
    return next(one.place for one in terminal.FIELDS if one.name == field)


def fault(place, size, words, source=START_SOURCE):
    return Difference(f"offset {place}", f"offset {place}: {words}", source, tuple(range(place, place + size)))


def digit_faults(data):
    """Bytes that must be two decimal digits and are not: those at 1-20, 25-30, 33-38."""
    for field in terminal.FIELDS:
        if field.name in ("amount", "other", "country", "currency", "date", "transaction", "floor", "threshold"):
            for place in range(field.place, field.place + field.size):
                if not data[place:place + 1].hex().isdigit():
                    yield fault(place, 1, f"'{data[place]:02X}' in {START_NAMES[field.name]} is not two decimal digits")


def date_faults(value):
    """A month and a day that there are (02, R-5)."""
    place, digits = at("date"), value.hex()
    if not digits.isdigit():
        return
    year, month, day = year_of(digits[:2]), int(digits[2:4]), int(digits[4:])
    if not 1 <= month <= 12:
        yield fault(place + 1, 1, f"month {digits[2:4]} is none of 01 to 12")
    if not 1 <= day <= 31:
        yield fault(place + 2, 1, f"day {digits[4:]} is none of 01 to 31")
    elif 1 <= month <= 12:
        leap = year % 4 == 0 and (year % 100 != 0 or year % 400 == 0)
        if day > DAYS[month - 1] + (month == 2 and leap):
            yield fault(place + 2, 1, f"{year}-{digits[2:4]} has no day {digits[4:]}", f"{START_SOURCE}; 02, R-5")


def number_faults(fields):
    random, target, maximum = (fields[name][0] for name in ("random", "target", "maximum"))
    floor, threshold = (fields[name].hex() for name in ("floor", "threshold"))
    if fields["type"][0] > 2:
        yield fault(at("type"), 1, f"type {fields['type'][0]} is none of 0 to 2")
    if not 1 <= random <= 99:
        yield fault(at("random"), 1, f"random number {random} is none of 1 to 99")
    if target > maximum:
        yield fault(at("target"), 1, f"target percentage {target} is above the maximum, {maximum}")
    if maximum > 99:
        yield fault(at("maximum"), 1, f"maximum target percentage {maximum} is above 99")
    if floor.isdigit() and threshold.isdigit() and int(threshold) and int(threshold) >= int(floor):
        yield fault(at("threshold"), 6, f"threshold {threshold} is neither zero nor below the floor limit {floor}")


def aid_faults(value):
    length = value[0]
    if not 5 <= length <= 16:
        yield fault(at("aid"), 1, f"AID length {length} is none of 5 to 16")
        return
    for place in range(1 + length, 17):
        if value[place]:
            yield fault(at("aid") + place, 1, f"'{value[place]:02X}' behind the AID, where zeros are due")


def start_faults(data, learnt, wanted):
    fields = terminal.values(data)
    if not fields:
        lengths = " or ".join(str(length) for length in terminal.LENGTHS)
        return [Difference("length", f"length: START has {count(len(data), 'byte')}; {lengths} are due", f"{START_SOURCE}; 02, R-7",
                           tuple(range(min(terminal.LENGTHS), len(data))))]
    found = [*number_faults(fields), *digit_faults(data), *date_faults(fields["date"]), *aid_faults(fields["aid"])]
    return sorted(found, key=lambda one: one.stood)


START_NAMES = {"amount": "the amount", "other": "the other amount", "country": "the country", "currency": "the currency",
               "date": "the date", "transaction": "the transaction type", "floor": "the floor limit", "threshold": "the threshold"}


def host_told(data, learnt):
    if host_faults(data, learnt, None):
        return ["no reply that there is"]
    return [names.REPLIES[data[0]] + (f", response code {data[1:].hex().upper()}" if data[0] != 3 else "")]


def host_faults(data, learnt, wanted):
    source = "01, \"From facts to a decision\": 1 approve, 2 decline or 3 unable, and a response code, two zero bytes when unable"
    if len(data) != 3:
        return [Difference("length", f"length: HOST has {count(len(data), 'byte')}; 3 are due", source, tuple(range(3, len(data))))]
    if data[0] not in names.REPLIES:
        return [Difference("reply", f"reply, offset 0: {data[0]} is none of 1, 2 and 3", source, (0,))]
    if data[0] == 3 and any(data[1:]):
        places, code = tuple(k for k in (1, 2) if data[k]), data[1:].hex().upper()
        words = f"response code, offset {places[0]}: {code} stands behind 'unable', where zeros are due"
        return [Difference("response code", words, source, places)]
    return []


def results_told(data, learnt):
    if not data:
        return ["none: 8E has no rule"]
    return [", ".join(names.RESULTS[byte] if byte < len(names.RESULTS) else f"{byte} (no result)" for byte in data)]


def results_faults(data, learnt, wanted):
    source, found = "02, R-7: a byte from 0 to 4 for each rule of 8E", []
    if wanted is not None and len(data) != wanted:
        words = f"length: {count(len(data), 'result')} stood there; {wanted} {'is' if wanted == 1 else 'are'} due, one for each rule of 8E"
        found.append(Difference("length", words, source, tuple(range(wanted, len(data)))))
    for k, byte in enumerate(data):
        if byte >= len(names.RESULTS):
            words = f"result {k + 1}, offset {k}: {byte} is none of 0 to {len(names.RESULTS) - 1}"
            found.append(Difference(f"result {k + 1}", words, source, (k,)))
    return found


class Word(NamedTuple):
    """A word where it is due, given the number that the judge tells of it or None; what it says, from its bytes and what was learnt before;
    and its faults, with that number too."""
    due: Callable
    told: Callable
    faults: Callable


WORDS = {
    "START": Word(lambda wanted: "valid terminal data", start_told, start_faults),
    "HOST": Word(lambda wanted: "the issuer's reply", host_told, host_faults),
    "RESULTS": Word(lambda wanted: f"{count(wanted, 'byte')}, one for each rule of 8E", results_told, results_faults),
}
