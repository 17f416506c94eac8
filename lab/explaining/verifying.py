"""Cardholder verification (02, R-7; 003, 7.5 and Annex A3): the rules of 8E gone through with the results, for the lines "because"."""
from lab.explaining import names

UNSUCCESSFUL, UNRECOGNISED, USED_UP, NO_PAD, NOT_ENTERED, ENTERED = 0x80, 0x40, 0x20, 0x10, 0x08, 0x04
OFFLINE, ONLINE, SIGNATURE = 0x80, 0x40, 0x20
# the means that a method needs, byte 2 of 9F33
MEANS = {0x00: 0, 0x01: OFFLINE, 0x02: ONLINE, 0x03: OFFLINE | SIGNATURE, 0x1E: SIGNATURE, 0x1F: 0}
PIN_BITS = {2: NO_PAD, 3: NOT_ENTERED, 4: USED_UP}


def rules_of(value):
    """The rules of a verification list, two bytes each."""
    return [(value[k], value[k + 1]) for k in range(8, len(value) - 1, 2)]


def rule_in_words(first, condition):
    method = names.METHODS.get(first & 0x3F, f"method {first & 0x3F:02X}")
    return f"{method} {names.CONDITIONS.get(condition, f'under condition {condition:02X}')}" + (", else the next" if first & 0x40 else "")


def list_in_words(value):
    x, y = (int.from_bytes(value[k:k + 4], "big") for k in (0, 4))
    return f"X {x}, Y {y}: " + ("; ".join(rule_in_words(*rule) for rule in rules_of(value)) or "no rule")


def supported(learnt, method):
    return method in MEANS and learnt.fields["capabilities"][1] & MEANS[method] == MEANS[method]


def satisfied(learnt, method, condition):
    """Whether a rule is tried."""
    cash = learnt.fields["transaction"] == b"\x01" or learnt.number("other") != 0
    if condition <= 0x04:
        return (True, cash, not cash, supported(learnt, method), not supported(learnt, method))[condition]
    if not 0x06 <= condition <= 0x09 or learnt.facts.get("9F42") != learnt.fields["currency"]:
        return False
    place = 0 if condition < 0x08 else 4
    limit, amount = int.from_bytes(learnt.facts["8E"][place:place + 4], "big"), learnt.number("amount")
    return amount < limit if condition in (0x06, 0x08) else amount > limit


def tried(learnt, method, result):
    """Whether a rule that is tried succeeds, and the bits that it sets."""
    if method not in names.METHODS:
        return False, UNRECOGNISED
    if method in (0x00, 0x1F):
        return method == 0x1F, 0
    if method == 0x1E:
        return supported(learnt, method) and result == 1, 0
    if not learnt.fields["capabilities"][1] & MEANS[method] & (OFFLINE | ONLINE):
        return False, NO_PAD
    if result != 1:
        return False, PIN_BITS.get(result, 0)
    if method == 0x03:
        return supported(learnt, method), 0
    return True, ENTERED if method == 0x02 else 0


def verified(learnt):
    """TVR byte 3 after the results, and what came of each rule in words."""
    bits, told = 0, []
    for k, ((first, condition), result) in enumerate(zip(rules_of(learnt.facts["8E"]), learnt.results), 1):
        rule = f"rule {k} ({rule_in_words(first, condition)})"
        if not satisfied(learnt, first & 0x3F, condition):
            told.append(f"{rule} is passed over")
            continue
        success, more = tried(learnt, first & 0x3F, result)
        bits |= more
        told.append(f"{rule}, result {result} ({names.RESULTS[result]}): {'succeeds' if success else 'fails'}")
        if success:
            return bits, told
        if not first & 0x40:
            return bits | UNSUCCESSFUL, told + ["no further rule is asked for"]
    return bits | UNSUCCESSFUL, told + ["the list is exhausted"]
