"""Datagrams that may cost whoever reads them much: one has at most 4,096 bytes, and in one of its places many keys that stand in no
order, or in none that is theirs. A plain one has its length, and one long string in their place."""

import random

from shared.messages import KEY, identifier, tag

LONGEST = 4096
DEEPEST = 16  # dictionaries and lists one in another
ASKER = identifier(7)


def names(count, size):
    """So many keys of this many bytes, ascending. Each is above those that a message of KRPC has."""
    return [bytes([122 + number // 256, number % 256]).ljust(size, b".") for number in range(count)]


def falling(keys):
    return keys[::-1]


def shuffled(keys):
    mixed = keys[:]
    random.Random(55).shuffle(mixed)
    return mixed


def pairs(keys):
    return b"".join(b"%d:" % len(key) + key + b"0:" for key in keys)


# How a place may be filled: the order of a dictionary's keys, how long they are, what they begin with, and how many each of many
# small dictionaries has; 0: there is one; None: they stand one in another.
ORDERS = {
    "falling": (falling, 2, b"", 0),
    "any order": (shuffled, 2, b"", 0),
    "falling, long": (falling, 30, b"", 0),
    "any order, long": (shuffled, 30, b"", 0),
    "any order, alike": (shuffled, 10, b"z" * 8, 0),
    "any order, nine bytes alike": (shuffled, 9, b"z" * 7, 0),
    "any order, long, alike": (shuffled, 30, b"z" * 28, 0),
    "falling, five each": (falling, 1, b"", 5),
    "falling, fourteen each": (falling, 1, b"", 14),
    "falling, one in another": (falling, 1, b"", None),
    "ascending, one in another": (list, 1, b"", None),
}
UNDER = b"2:zz"  # the key of what is no pairs
LEVELS = 12  # dictionaries one in another, as many as each place has room for


def small(keys, room):
    """A list of small dictionaries."""
    one = b"d" + pairs(keys) + b"e"
    return UNDER + b"l" + one * ((room - len(UNDER) - 2) // len(one)) + b"e"


def nested(order, room):
    """Dictionaries one in another, with one more key in each, and numbers in the innermost."""
    front, behind = (b"", b"1:a0:") if order([0, 1]) == [1, 0] else (b"1:a0:", b"")
    begin, end = UNDER + (b"d" + front + b"1:b") * LEVELS + b"l", b"e" + (behind + b"e") * LEVELS
    return begin + b"i1e" * (max(room - len(begin + end), 0) // 3) + end


def depth(fill):
    """How many lists and dictionaries stand one in another in these pairs; any number if they are none."""
    at = deep = most = 0
    while at < len(fill):
        first, colon = fill[at : at + 1], fill.find(b":", at)
        if first.isdigit() and fill[at:colon].isdigit():
            at = colon + int(fill[at:colon])
        elif first in b"ld":
            deep += 1
            most = max(most, deep)
        elif first == b"i":
            at = fill.find(b"e", at) if b"e" in fill[at:] else len(fill)
        else:
            deep -= first == b"e"
        at += 1
    return min(most, DEEPEST - 2)


def fills(room):
    """Pairs of about so many bytes, by each of the orders: as they stand, and ascending."""
    made = []
    for order, size, front, each in ORDERS.values():
        if each is None:
            made.append((nested(order, room), nested(list, room)))
            continue
        if each:
            keys = [bytes([99 + number]) for number in range(each)]
            made.append((small(order(keys), room), small(keys, room)))
            continue
        keys = [front + name for name in names(room // len(pairs([bytes(size)])), size - len(front))]
        made.append((pairs(order(keys)), pairs(keys)))
    return made


# --------------------------------------------------------------------------------------------------------- the places


def text(value):
    return b"%d:" % len(value) + value


def put_in(place, fill, parts, front=b"", behind=b""):
    """A message with pairs in one of its places. `parts` has its own dictionary, by `front` its key and by `behind` what
    stands after it."""
    key, inner = parts
    own, more, top = b"", b"", b""
    if place == "top":
        top = fill
    elif place == "e" and key == b"r":
        front += b"1:ed" + fill + b"e"
    elif place == key.decode():
        own = fill
    elif place == key.decode() + "'s v":
        own = b"1:vd" + fill + b"e"
    elif place == "v":
        more = b"1:vd" + fill + b"e"
    elif place == "nested":
        outer = DEEPEST - 2 - depth(fill)
        more = b"1:v" + b"d1:k" * outer + b"d" + fill + b"e" * (outer + 1)
    elif place == "plain":
        more = b"1:v" + text(fill)
    else:
        more = text(place.encode()) + b"d" + fill + b"e"
    return b"d" + front + text(key) + b"d" + inner + own + b"e" + behind + more + b"1:y" + text(KINDS[key]) + top + b"e"


KINDS = {b"a": b"q", b"r": b"r"}
QUERY_PLACES = ("top", "a", "v", "a's v", "r", "e", "nested")
REPLY_PLACES = ("top", "r", "v", "r's v", "e", "nested")


def asking(place, fill, tx=b"aa", method=b"find_node", arguments=b"6:target20:" + bytes(20)):
    """A query with pairs in one of its places."""
    inner = b"2:id20:" + ASKER + arguments
    return put_in(place, fill, (b"a", inner), behind=b"1:q" + text(method) + b"1:t" + text(tx))


def saying(place, fill, tx, name, more=b"", tag=b""):
    """An answer of the node `name` with pairs in one of its places."""
    sealed = b"2:sg" + text(tag) if tag else b""
    return put_in(place, fill, (b"r", b"2:id20:" + name + more), behind=sealed + b"1:t" + text(tx))


def tagged(place, fill, ascending, tx, name, more=b""):
    """The same with the tag of the group, which is of the written form, whose keys ascend."""
    return saying(place, fill, tx, name, more, tag(KEY, name, saying(place, ascending, tx, name, more)))


# What an answer gives: sixteen nodes, a token and peers.
GIVEN = b"5:nodes" + text(bytes(16 * 26)) + b"5:token8:xxxxxxxx" + b"6:valuesl" + 16 * text(bytes(6)) + b"e"


def putting(fill, token, plain=False):
    """A `put` whose value has these pairs, or is one string of this length."""
    value = text(fill) if plain else b"d" + fill + b"e"
    return asking("top", b"", method=b"put", arguments=b"5:token" + text(token) + b"1:v" + value)


def within(make, part=1):
    """A datagram for each of the orders, with so many keys as 4,096 bytes have room for, or with a part of them."""
    frame = len(make(b"x" * 3000, b"")) - 3000
    return [make(fill, ascending) for fill, ascending in fills((LONGEST - frame) // part)]


def plain_ones(make, plain):
    """Plain datagrams of the lengths that those have."""
    frame = len(plain(b"x" * 3000, b"")) - 3000
    return [plain(b"x" * max(len(datagram) - frame, 0), b"") for datagram in within(make)]
