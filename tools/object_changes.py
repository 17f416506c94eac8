"""Changes of the objects in a card's answer (01, "Data objects"), for tools/quick-changed.

Each change is a function of a source of chance, all objects of the answer, and one list among them that is not empty. It may find
nothing to change.
"""

EDGES = (0x00, 0x01, 0x09, 0x0A, 0x0F, 0x10, 0x13, 0x32, 0x40, 0x7F, 0x80, 0x81, 0x82, 0x83, 0x99, 0xC0, 0xF0, 0xFE, 0xFF)
# What 01 and 02 name in answers, and some that they do not.
TAGS = [bytes.fromhex(tag) for tag in ("5A 5F24 5F25 9F08 8C 8D 8E 9F0D 9F0E 9F0F 9F42 82 94 84 A5 9F38 6F 70 77 80 9F27 9F36 9F26 9F10 "
                                       "57 9F07 9F80 BF0C 1F 00").split()]
STATUSES = [bytes.fromhex(status) for status in "9000 9001 9100 6A82 6283 6985 6300 0090 61FF".split()]
FLAWS = [bytes.fromhex(flaw) for flaw in "9F 00 9F8001 95FF95FF 9F02FF 9F0200 9F3704 95 DF7F01 8A02 9F021F 82819502".split()]


class Node:
    """An object, or a '00' byte between objects, which has no tag but '00'. `lie` is by how much its length is told wrongly."""

    def __init__(self, tag, value=b"", form=0, lie=0):
        self.tag, self.value, self.form, self.lie = tag, value, form, lie

    def copy(self):
        value = [node.copy() for node in self.value] if isinstance(self.value, list) else self.value
        return Node(self.tag, value, self.form, self.lie)

    def written(self):
        if self.tag == b"\0":
            return self.tag
        value = written(self.value) if isinstance(self.value, list) else self.value
        return self.tag + length_bytes(self.form, max(0, len(value) + self.lie)) + value


def length_bytes(form, size):
    """The forms are the shortest one, '81', '82', and two that 01 refuses: '83' and '80'."""
    if form == 4:
        return b"\x80"
    form = max(form, 0 if size < 0x80 else 1 if size < 0x100 else 2)
    return bytes([0x80 + form]) + size.to_bytes(form, "big") if form else bytes([size])


def written(nodes):
    return b"".join(node.written() for node in nodes)


def nodes_of(data):
    """The objects of a list, or None where it is none."""
    nodes, at = [], 0
    while at < len(data):
        wide = 2 if data[at] & 0x1F == 0x1F else 1
        tag = data[at:at + wide]
        at += wide
        if tag == b"\0":
            nodes.append(Node(tag))
            continue
        form = data[at] - 0x80 if data[at:at + 1] > b"\x80" else 0
        size = int.from_bytes(data[at + 1:at + 1 + form] if form else data[at:at + 1], "big")
        at += 1 + form
        if len(tag) < wide or form > 2 or at > len(data) or at + size > len(data):
            return None
        value = data[at:at + size]
        inner = nodes_of(value) if tag[0] & 0x20 else value
        if inner is None:
            return None
        nodes.append(Node(tag, inner, form))
        at += size
    return nodes


def lists_in(nodes):
    return [nodes] + [inner for node in nodes if isinstance(node.value, list) for inner in lists_in(node.value)]


def with_value(nodes, tags=None):
    """The objects that are not constructed, of these tags if some are named."""
    return [node for inner in lists_in(nodes) for node in inner
            if node.tag != b"\0" and not isinstance(node.value, list) and (tags is None or node.tag.hex().upper() in tags)]


def other_bytes(chance, data):
    """A byte changed, put in or taken out; the rest cut off, or more behind it."""
    how, at = chance.randrange(8), chance.randrange(len(data) + 1)
    one = bytes([chance.choice(EDGES) if chance.randrange(2) else chance.randrange(256)])
    if how < 4 and at < len(data):
        return data[:at] + (one if how < 3 else bytes([data[at] ^ 1 << chance.randrange(8)])) + data[at + 1:]
    if how == 4:
        return data[:at] + one + data[at:]
    if how == 5:
        return data[:at] + data[at + 1:]
    if how == 6:
        return data[:at]
    return data + one * chance.choice((1, 1, 2, 5, 240))


def doubled(chance, nodes, inner):
    inner.insert(chance.randrange(len(inner) + 1), chance.choice(inner).copy())


def doubled_wrong(chance, nodes, inner):
    twice = chance.choice(inner)
    again = twice.copy()
    if not isinstance(twice.value, list):
        twice.value = other_bytes(chance, twice.value)
    inner.insert(chance.randrange(len(inner) + 1), again)


def gone(chance, nodes, inner):
    del inner[chance.randrange(len(inner))]


def exchanged(chance, nodes, inner):
    i, j = chance.randrange(len(inner)), chance.randrange(len(inner))
    inner[i], inner[j] = inner[j], inner[i]


def other_form(chance, nodes, inner):
    chance.choice(inner).form = chance.choice((0, 1, 1, 2, 2, 3, 4))


def zero_byte(chance, nodes, inner):
    for _ in range(chance.choice((1, 1, 3))):
        inner.insert(chance.randrange(len(inner) + 1), Node(b"\0"))


def wrong_length(chance, nodes, inner):
    chance.choice(inner).lie = chance.choice((-2, -1, 1, 2, 100))


def other_tag(chance, nodes, inner):
    chance.choice(inner).tag = chance.choice(TAGS)


def more_objects(chance, nodes, inner):
    value = bytes(chance.choice(EDGES) for _ in range(chance.choice((0, 1, 2, 3, 5, 8, 10, 40))))
    inner.insert(chance.randrange(len(inner) + 1), Node(chance.choice(TAGS), value, chance.choice((0, 0, 1, 2))))


def other_depth(chance, nodes, inner):
    at = chance.randrange(len(inner))
    if isinstance(inner[at].value, list) and chance.randrange(2):
        inner[at:at + 1] = inner[at].value
    else:
        inner[at] = Node(chance.choice((b"\x70", b"\x77", b"\xa5", b"\xe1")), [inner[at]])


def other_value(chance, nodes, inner):
    for node in pick(chance, with_value(nodes)):
        node.value = other_bytes(chance, node.value)


def flawed_list(chance, nodes, inner):
    for node in pick(chance, with_value(nodes, ("8C", "8D", "9F38"))):
        flaw, at = chance.choice(FLAWS), chance.choice((0, len(node.value), chance.randrange(len(node.value) + 1)))
        node.value = node.value[:at] + flaw + node.value[at:]


def other_locator(chance, nodes, inner):
    """Another AFL (94, or 80 behind its first two bytes), up to more records than there may be."""
    for node in pick(chance, with_value(nodes, ("94", "80"))):
        last = chance.choice((1, 2, 167, 250, 251, 255))
        entry = bytes([chance.choice((8, 16, 80, 88, 9, 0)), chance.choice((1, 1, 1, 0, 2)), last, chance.choice((0, 0, 1, last, 255))])
        node.value = (node.value[:2] if node.tag == b"\x80" else b"") + entry * chance.choice((1, 1, 2, 2, 3))


def other_cryptogram(chance, nodes, inner):
    for node in pick(chance, with_value(nodes, ("9F27", "80"))):
        node.value = bytes([chance.choice((0x00, 0x40, 0x80, 0xC0))]) + node.value[1:]


def other_size(chance, answer):
    """Fewer than 2 bytes or just enough; 258, or more, the objects as they were."""
    if chance.randrange(2):
        return answer[:chance.randrange(3)]
    return answer[:-2].ljust(chance.choice((256, 257, 300)), b"\0") + answer[-2:]


def pick(chance, found):
    """One of them, if there are any."""
    return [chance.choice(found)] if found else []


CHANGES = (doubled, doubled_wrong, gone, gone, exchanged, other_form, zero_byte, wrong_length, other_tag, more_objects, other_depth,
           other_value, other_value, flawed_list, other_locator, other_cryptogram)


def other_answer(chance, answer):
    """An answer with its objects, its bytes or its status changed, and the name of the change."""
    how = chance.randrange(16)
    nodes = nodes_of(answer[:-2])
    if how == 0:
        return answer[:-2] + chance.choice(STATUSES), "other_status"
    if how == 1:
        return other_size(chance, answer), "other_size"
    inner = chance.choice([one for one in lists_in(nodes or []) if one] or [None])
    if how == 2 or inner is None:
        return other_bytes(chance, answer), "other_bytes"
    change = chance.choice(CHANGES)
    change(chance, nodes, inner)
    return written(nodes) + answer[-2:], change.__name__
