"""From facts to TVR, TSI and requests (01, "From facts to a decision"; 02, R-2), with the why of each: display, for the lines "because".

What is worked out here is shown only where it leads to exactly the bytes that the judge says were due.
"""
from lab.explaining import names, verifying
from lab.explaining.words import day_in_words

FACTS = "01, \"From facts to a decision\""
YEARS = f"{FACTS}; 02, R-2"
VERIFICATION = "02, R-7; 003, 7.5"
DATED = {(2, 7): ("5F24", "before", "not before"), (2, 6): ("5F25", "after", "not after")}
# The bits that some rule can set.
TVR_PLACES = ((1, 8), (2, 8), (2, 7), (2, 6), (3, 8), (3, 7), (3, 6), (3, 5), (3, 4), (3, 3), (4, 8), (4, 5))
TSI_PLACES = ((1, 7), (1, 6), (1, 4))
CODES = {"denial": ("9F0E", 0x00), "online": ("9F0F", 0xFF), "default": ("9F0D", 0xFF)}


def risk_wanted(learnt):
    return learnt.aip is not None and len(learnt.aip) > 0 and learnt.aip[0] & 0x08 != 0


def version_bit(learnt):
    card, own = learnt.facts.get("9F08"), learnt.fields["version"]
    if card is None:
        return False, "no record told 9F08"
    return card != own, f"the card's version 9F08 is {card.hex().upper()}, the terminal's {own.hex().upper()}"


def date_bit(learnt, place):
    """Dates are compared with their whole years (02, R-2)."""
    tag, is_so, is_not = DATED[place]
    value, today = learnt.facts.get(tag), learnt.fields["date"]
    if value is None:
        return False, f"no record told {tag}"
    there, here = day_in_words(value), day_in_words(today)
    found = there < here if tag == "5F24" else there > here
    return found, f"{tag} is {value.hex()}, {there}: {is_so if found else is_not} the date {today.hex()}, {here}"


def floor_bit(learnt):
    if not risk_wanted(learnt):
        return False, "AIP byte 1 has no '08', so that the floor limit is not looked at"
    amount, floor = learnt.number("amount"), learnt.number("floor")
    return amount >= floor, f"AIP byte 1 has '08', and amount {amount} {'>=' if amount >= floor else '<'} floor limit {floor}"


def random_bit(learnt):
    amount, floor, threshold = (learnt.number(name) for name in ("amount", "floor", "threshold"))
    random, target, maximum = (learnt.octet(name) for name in ("random", "target", "maximum"))
    if not risk_wanted(learnt):
        return False, "AIP byte 1 has no '08', so that nothing is selected"
    if learnt.type() != 2:
        return False, f"type {learnt.type()}: only type 2 selects at random"
    if amount >= floor:
        return False, f"amount {amount} >= floor limit {floor}, so that nothing is selected at random"
    if amount < threshold:
        found = random <= target
        return found, f"amount {amount} < threshold {threshold}, and random {random} {'<=' if found else '>'} target {target}"
    left, right = (random - target) * (floor - threshold), (maximum - target) * (amount - threshold)
    return left <= right, (f"amount {amount} from threshold {threshold} on: ({random}-{target})*({floor}-{threshold}) = {left} "
                           f"{'<=' if left <= right else '>'} {right} = ({maximum}-{target})*({amount}-{threshold}), nothing rounded")


def verification_bits(learnt):
    """TVR byte 3: each bit with what came of the rules."""
    if learnt.results is None or "8E" not in learnt.facts:
        return {(3, bit): (False, "no cardholder verification took place") for bit in range(8, 2, -1)}
    byte, told = verifying.verified(learnt)
    return {(3, bit): (byte >> (bit - 1) & 1 == 1, "; ".join(told)) for bit in range(8, 2, -1)}


def tvr_bits(learnt):
    """Every bit of the TVR that the rules speak of: whether it is set, why, and where the documents say so."""
    found = {
        (1, 8): (True, "set in every session after the last record", FACTS),
        (2, 8): (*version_bit(learnt), FACTS),
        (2, 7): (*date_bit(learnt, (2, 7)), YEARS),
        (2, 6): (*date_bit(learnt, (2, 6)), YEARS),
        (4, 8): (*floor_bit(learnt), FACTS),
        (4, 5): (*random_bit(learnt), f"{FACTS}; 003, 7.6.2"),
    }
    found.update({place: (*told, VERIFICATION) for place, told in verification_bits(learnt).items()})
    return found


def joined_bits(bits, size):
    value = bytearray(size)
    for (byte, bit), told in bits.items():
        value[byte - 1] |= told[0] << (bit - 1)
    return bytes(value)


def tsi_bits(learnt, answered):
    """The same of the TSI; `answered` is whether an allowed first cryptogram was given."""
    there = learnt.results is not None
    return {
        (1, 7): (there, f"the results of cardholder verification are {'there' if there else 'not there'}", VERIFICATION),
        (1, 6): (answered, "an allowed first cryptogram was given" if answered else "no allowed first cryptogram was given", FACTS),
        (1, 4): (risk_wanted(learnt), f"AIP byte 1 has {'' if risk_wanted(learnt) else 'no '}'08'", FACTS),
    }


def joined_code(learnt, which):
    """The issuer's code joined with the terminal's, and both in words."""
    tag, absent = CODES[which]
    issuer, own = learnt.facts.get(tag), learnt.fields[which]
    there = issuer if issuer is not None else bytes([absent]) * 5
    joined = bytes(a | b for a, b in zip(there, own))
    said = f"{tag} {there.hex().upper()}" + ("" if issuer is not None else " as it is absent")
    return joined, f"{which} code {joined.hex().upper()} ({said}, TAC {own.hex().upper()})"


def matching(learnt, which, tvr):
    """Whether a code meets the TVR, and in which bits, in words."""
    joined, said = joined_code(learnt, which)
    both = names.bits_of("95", bytes(a & b for a, b in zip(joined, tvr)))
    if not both:
        return [], f"{said} meets no bit of it"
    return both, f"{said} meets " + " and ".join(names.bit_in_words(*bit) for bit in both)


def first_request(learnt, tvr):
    """P1 of the first GENERATE AC, why, and the bits that matter."""
    kind, told = learnt.type(), [f"TVR {tvr.hex().upper()}"]
    bits, said = matching(learnt, "denial", tvr)
    told.append(said)
    if bits:
        return 0x00, f"{'; '.join(told)}: AAC", bits
    if kind == 1:
        return 0x80, f"{'; '.join(told)}; type 1: ARQC", []
    bits, said = matching(learnt, "default" if kind == 0 else "online", tvr)
    found = (0x00 if kind == 0 else 0x80) if bits else 0x40
    return found, f"{'; '.join(told)}; type {kind}: {said}: {names.CRYPTOGRAMS[found]}", bits


def second_request(learnt, tvr):
    """P1 of the second GENERATE AC, the response code, why, and the bits that matter."""
    if learnt.type() != 0 and learnt.host and learnt.host[0] in (1, 2):
        found = 0x40 if learnt.host[0] == 1 else 0x00
        return found, learnt.host[1:], f"the issuer's reply is {names.REPLIES[learnt.host[0]]}: {names.CRYPTOGRAMS[found]}", []
    said = "type 0 has no issuer's reply and goes on as unable" if learnt.type() == 0 else "the issuer could not be reached"
    if learnt.type() == 1:
        return 0x00, b"Z3", f"{said}; type 1: AAC", []
    bits, match = matching(learnt, "default", tvr)
    found = 0x00 if bits else 0x40
    return found, b"Z3" if bits else b"Y3", f"{said}; TVR {tvr.hex().upper()}; {match}: {names.CRYPTOGRAMS[found]}", bits
