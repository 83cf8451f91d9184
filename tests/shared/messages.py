"""Bencode as BEP 3 has it, queries and answers as BEP 5, 32 and 43 have them, tags of a group, and the lines and words that the
program reads and prints. It opens no socket."""

import collections
import hashlib
import hmac
import ipaddress
import os
import socket

# One of the two networks: the family of its sockets, the bytes of a compact node (identifier, address, port), the key of an
# answer that has such nodes (BEP 5, BEP 32), what a query for nodes says besides so that it is there, and what words say
# to the program that it is to look there.
Family = collections.namedtuple("Family", "socket record nodes want words")
IPV4 = Family(socket.AF_INET, 26, b"nodes", {}, ())
IPV6 = Family(socket.AF_INET6, 38, b"nodes6", {b"want": [b"n6"]}, ("--family", "6"))

TARGET = "00" * 20  # what is looked up where nothing else is said, as a word
OWN = b"\x0f" * 20  # the identifier of the node that is tested
KEY, OTHER_KEY = bytes(range(32)), bytes(32)  # of groups


# ----------------------------------------------------------------------------------------------------------- bencode


def bencode(value):
    if isinstance(value, int):
        return b"i%de" % value
    if isinstance(value, bytes):
        return b"%d:" % len(value) + value
    if isinstance(value, list):
        return b"l" + b"".join(map(bencode, value)) + b"e"
    return b"d" + b"".join(bencode(key) + bencode(value[key]) for key in sorted(value)) + b"e"


def bdecode(data, any_order=False):
    """The one value that the bytes spell; ValueError where they spell none. It takes only ascending keys, as BEP 3 asks, or keys in
    any order."""
    try:
        value, end = _value(data, 0, 0, any_order)
    except (IndexError, RecursionError):
        raise ValueError("it ends too early") from None
    if end != len(data):
        raise ValueError("%d bytes stand behind it" % (len(data) - end))
    return value


def _value(data, at, depth, any_order):
    lead = data[at : at + 1]
    if depth > 32:
        raise ValueError("nested too deep")
    if lead == b"i":
        end = data.index(b"e", at)
        return _number(data[at + 1 : end]), end + 1
    if lead == b"l":
        items, at = [], at + 1
        while data[at] != 0x65:
            item, at = _value(data, at, depth + 1, any_order)
            items.append(item)
        return items, at + 1
    if lead == b"d":
        pairs, last, at = {}, None, at + 1
        while data[at] != 0x65:
            key, at = _value(data, at, depth + 1, any_order)
            if not isinstance(key, bytes) or last is not None and key <= last and not any_order:
                raise ValueError("keys out of order")
            pairs[key], at = _value(data, at, depth + 1, any_order)
            last = key
        return pairs, at + 1
    colon = data.index(b":", at)
    end = colon + 1 + _number(data[at:colon])
    if not data[at : at + 1].isdigit() or end > len(data):
        raise ValueError("no value at %d" % at)
    return data[colon + 1 : end], end


def _number(digits):
    number = int(digits)
    if b"%d" % number != digits:
        raise ValueError("%r is no number" % digits)
    return number


# ------------------------------------------------------------------------------------------------ queries and answers


def query(tx, method, arguments, read_only=False):
    """A query of BEP 5; `ro` is BEP 43's."""
    message = {b"t": tx, b"y": b"q", b"q": method, b"a": arguments}
    if read_only:
        message[b"ro"] = 1
    return bencode(message)


def keyed(more):
    """Python's keywords as keys of a message."""
    return {key.encode(): value for key, value in more.items()}


def asks(method, tx=b"aa", **more):
    """A query of the node 7."""
    return query(tx, method, {b"id": identifier(7), **keyed(more)})


def reply(tx, name, **more):
    """The reply of the node `name` with this transaction id."""
    return bencode({b"r": {b"id": name, **keyed(more)}, b"t": tx, b"y": b"r"})


def gives(query, name, **more):
    """The answer of the node `name` to a query, with what it gives beside its name."""
    return reply(bdecode(query)[b"t"], name, **more)


def answer(query, name, nodes=b""):
    """The answer of the node `name` to a find_node query."""
    return gives(query, name, nodes=nodes)


def tag(key, name, body):
    """The tag of what the node `name` says, by HMAC-SHA-1 (RFC 2104)."""
    return hmac.new(key, name + body, hashlib.sha1).digest()


def tagged(key, name, body):
    """What a node says, with the tag of the node `name`."""
    return bencode({**bdecode(body), b"sg": tag(key, name, body)})


def in_group(key):
    """The environment with a group's key."""
    return {**os.environ, "NOLZAVIRT_GROUP": key.hex()}


# ---------------------------------------------------------------------------------------------- identifiers, addresses


def identifier(number):
    return number.to_bytes(20, "big")


def minted(number):
    """The identifier that solves puzzles of no bits, and its key: it is the SHA-1 of the key (S/Kademlia, 4.1)."""
    key = hashlib.sha256(b"%d" % number).digest()
    return hashlib.sha1(key).digest(), key


def distance(one, other):
    """Kademlia's distance of two identifiers, which bytes order as numbers do."""
    return bytes(a ^ b for a, b in zip(one, other))


def family_of(host):
    return IPV6 if ":" in host else IPV4


def compact(host, port):
    return socket.inet_pton(family_of(host).socket, host) + port.to_bytes(2, "big")


def address_of(piece):
    """Host and port of a compact address: of IPv4 where it has 6 bytes, of IPv6 where it has 18."""
    family = IPV6 if len(piece) == 18 else IPV4
    return socket.inet_ntop(family.socket, piece[:-2]), int.from_bytes(piece[-2:], "big")


def record(name, host, port):
    """A compact node."""
    return name + compact(host, port)


def nodes_of(answer, family=IPV4):
    """The contacts (identifier, address) of an answer's compact nodes."""
    text, size = answer.get(family.nodes, b""), family.record
    if len(text) % size:
        raise ValueError("`%s` has %d bytes" % (family.nodes.decode(), len(text)))
    return [(text[at : at + 20], address_of(text[at + 20 : at + size])) for at in range(0, len(text), size)]


# ---------------------------------------------------------------------------------------------- the program's own lines


def words_of(address):
    """The address as the program reads and prints it; one of IPv6 has all eight groups of four digits."""
    host, port = address
    return "%s:%d" % ("[%s]" % ipaddress.ip_address(host).exploded if family_of(host) is IPV6 else host, port)


def contact_line(name, address):
    return "%s %s\n" % (name.hex(), words_of(address))


def line(name, host, port):
    return contact_line(name, (host, port))


def find(target):
    """The line of a node's input that names what is looked for."""
    return "find %s\n" % target.hex()


def counts(found, asked, failed=0, turned=0):
    return "found %d asked %d failed %d turned %d" % (found, asked, failed, turned)


def found(*lines, **more):
    """The output of a lookup that found these."""
    return "".join(lines) + counts(len(lines), **more) + "\n"
