"""Changes of tapes (01, "The tape"), for tools/quick-changed: of blocks and payloads, sealed again; and decisions behind an answer.

A tape is worked on as a list of bodies, bytes 0 to 507 of each block, and `sealed` puts the check behind each. A change is a function of a
source of chance, the bodies, and other tapes. It may find nothing to change; `changed` and `reasoned` go on until something is.
"""
import zlib

from object_changes import other_answer, other_bytes, pick

BLOCK, BODY, HEAD, ROOM = 512, 508, 12, 496
COMMAND, ANSWER, HOST, DECISION = 2, 3, 5, 6
# As long as a tape may be (02, R-8); one of that length takes longer than a hundred others.
MOST, RARELY = 1024 * BLOCK, 125
REASONS = range(1, 13)


def bodies_of(tape):
    return [bytearray(tape[at:at + BODY]) for at in range(0, len(tape), BLOCK)]


def sealed(bodies):
    return b"".join(bytes(body) + zlib.crc32(body).to_bytes(4, "big") for body in bodies)


def payload_of(body):
    return bytes(body[HEAD:HEAD + int.from_bytes(body[10:12], "big")])


def put_payload(body, payload):
    """As much of it as a block has room for, and zeros behind it."""
    payload = payload[:ROOM]
    body[10:] = len(payload).to_bytes(2, "big") + payload + bytes(ROOM - len(payload))


def put_numbers(bodies):
    """Each block's own number, and the first one's session number."""
    for number, body in enumerate(bodies):
        body[:8] = number.to_bytes(4, "big") + bodies[0][4:8]


def answer_changed(chance, bodies, others):
    for body in pick(chance, [body for body in bodies if body[8] == ANSWER]):
        put_payload(body, other_answer(chance, payload_of(body))[0])


def payload_changed(chance, bodies, others):
    body = chance.choice(bodies)
    put_payload(body, other_bytes(chance, payload_of(body)))


def length_changed(chance, bodies, others):
    body = chance.choice(bodies)
    size = int.from_bytes(body[10:12], "big")
    body[10:12] = chance.choice((0, max(0, size - 1), size + 1, 495, 496, 497, 512, 0xFFFF)).to_bytes(2, "big")


def padding_changed(chance, bodies, others):
    body = chance.choice(bodies)
    behind = min(BODY - 1, HEAD + len(payload_of(body)))
    body[chance.choice((behind, BODY - 1, chance.randrange(behind, BODY)))] = chance.choice((1, 0x80, 0xFF))


def kind_changed(chance, bodies, others):
    chance.choice(bodies)[8] = chance.choice((0, 1, 2, 3, 4, 5, 6, 7, 8, 9, 0x40, 0xFF))


def spare_changed(chance, bodies, others):
    chance.choice(bodies)[9] = chance.choice((1, 0x80))


def number_changed(chance, bodies, others):
    chance.choice(bodies)[chance.randrange(4)] = chance.choice((0, 1, 2, 0x80, 0xFF))


def session_changed(chance, bodies, others):
    """In one block, in the first, or in all of them: then it is a good tape of another number."""
    place, value = 4 + chance.randrange(4), chance.randrange(256)
    for body in chance.choice(([chance.choice(bodies)], bodies[:1], bodies)):
        body[place] = value


def blocks_cut(chance, bodies, others):
    del bodies[chance.randrange(len(bodies)):]


def block_moved(chance, bodies, others):
    """One taken out, doubled, exchanged with another, or put in from another tape; mostly with the numbers that are due."""
    how, at, to = chance.randrange(4), chance.randrange(len(bodies)), chance.randrange(len(bodies))
    if how == 0:
        del bodies[at]
    elif how == 1:
        bodies.insert(to, bytearray(bodies[at]))
    elif how == 2:
        bodies[at], bodies[to] = bodies[to], bodies[at]
    else:
        bodies.insert(to, chance.choice(bodies_of(chance.choice(others))))
    if bodies and chance.randrange(8):
        put_numbers(bodies)


def block_behind(chance, bodies, others):
    bodies.append(chance.choice((bytearray(BODY), bytearray(bodies[-1]), bytearray(bodies[0]))))
    if chance.randrange(3):
        put_numbers(bodies)


CHANGES = (answer_changed,) * 14 + (payload_changed,) * 7 + (block_moved,) * 3 + (
    length_changed, padding_changed, kind_changed, spare_changed, number_changed, session_changed, blocks_cut, block_behind)


def unsealed(chance, tape):
    """Something that no check is made good after: a bit, bytes behind the last or off the end; at times as many as may be, or more."""
    if tape and not chance.randrange(RARELY):
        return (tape * ((MOST + 513) // len(tape) + 1))[:MOST + chance.choice((0, 1, 511, 512, 513))]
    how = chance.randrange(4)
    if how == 0 or not tape:
        return tape + bytes([chance.randrange(256)]) * chance.choice((1, 2, 511, 512, 513))
    if how == 1:
        return tape[:chance.randrange(len(tape))]
    at = chance.randrange(len(tape))
    return tape[:at] + bytes([tape[at] ^ 1 << chance.randrange(8)]) + tape[at + 1:]


def changed(chance, tape, others):
    """A tape changed, sealed again in 15 of 16, and the names of the changes."""
    while True:
        bodies, names = bodies_of(tape), []
        for _ in range(chance.choice((1, 1, 1, 2, 3))):
            if bodies:
                change = chance.choice(CHANGES)
                change(chance, bodies, others)
                names.append(change.__name__)
        made = sealed(bodies)
        if not chance.randrange(16):
            made, names = unsealed(chance, made), names + ["unsealed"]
        if made != tape:
            return made, names


# A changed answer and a decision behind it.

def first_request(bodies):
    """The entry of the first GENERATE AC, or of the decision where there is none."""
    return next((k for k, body in enumerate(bodies) if body[8] == COMMAND and body[HEAD + 1] == 0xAE), len(bodies) - 1)


def reached_at(bodies, at, reason):
    """TVR and TSI of a session that ends behind the entry `at` with a reason, as far as the tape's own decision tells them (01, "From
    facts to a decision"): zeros up to the last record, and behind it too but for reason 9; TSI byte 1 b6 from an allowed answer on."""
    own, request = payload_of(bodies[-1]), first_request(bodies)
    if at < request - 1 or at == request - 1 and reason != 9:
        return bytes(7)
    allowed = at > request + 1 or at == request + 1 and reason == 9
    return own[2:7] + bytes([own[7] | 0x20 if allowed else own[7] & 0xDF]) + own[8:]


def reasoned(chance, tape):
    """A good tape up to a changed answer, or up to a later entry at which its fault may show, and behind that the decision with each
    reason: twelve tapes, and the name of the change."""
    bodies = bodies_of(tape)
    at = chance.choice([k for k, body in enumerate(bodies) if body[8] == ANSWER])
    before, name = payload_of(bodies[at]), None
    while payload_of(bodies[at]) == before:
        payload, name = other_answer(chance, before)
        put_payload(bodies[at], payload)
    later = [k for k in range(at + 1, len(bodies) - 1) if bodies[k][8] == HOST or k == first_request(bodies) - 1]
    end = chance.choice(later) if later and not chance.randrange(3) else at
    return [sealed(bodies[:end + 1] + [decision(bodies, end, reason)]) for reason in REASONS], name


def decision(bodies, end, reason):
    body = bytearray(BODY)
    body[:9] = (end + 1).to_bytes(4, "big") + bodies[0][4:8] + bytes([DECISION])
    put_payload(body, bytes([3, reason]) + reached_at(bodies, end, reason))
    return body
