"""A plain model of what docs/RULES says of contacts: their puzzles, the routing table, and a lookup on one path. It is written
apart from the crates, as flat lists, and knows nothing of memory."""

import hashlib
import ipaddress

SIBLINGS, REPORTS, MOST_OF_A_PATH = 16, 16, 256


class Contact:
    """An identifier and an address; with puzzles, its key and X."""

    def __init__(self, name, host, port, key=bytes(32), x=bytes(20)):
        self.name, self.host, self.port, self.key, self.x = name, host, port, key, x
        self.packed = ipaddress.ip_address(host).packed
        self.compact = name + self.packed + port.to_bytes(2, "big")

    def line(self, proof=False):
        text = "%s %s" % (self.name.hex(), address(self.packed, self.port))
        return "%s %s %s" % (text, self.key.hex(), self.x.hex()) if proof else text

    def proof(self):
        return self.key + self.x

    def report(self):
        """As `snodes` has it: with the proof between identifier and address."""
        return self.name + self.proof() + self.compact[20:]

    def holder(self):
        """Who has its address: of IPv6 the holder of the subnet (RFC 4291, 2.5.1)."""
        return self.packed if len(self.packed) == 4 else self.packed[:8]


def address(packed, port):
    if len(packed) == 4:
        return "%s:%d" % (".".join(map(str, packed)), port)
    return "[%s]:%d" % (":".join(packed[at : at + 2].hex() for at in range(0, 16, 2)), port)


def distance(one, other):
    return int.from_bytes(one, "big") ^ int.from_bytes(other, "big")


def closest(count, target, contacts):
    return sorted(contacts, key=lambda c: (distance(c.name, target), c.compact))[:count]


def zero_bits(data):
    return len(data) * 8 - int.from_bytes(data, "big").bit_length()


def passes(contact, c1, c2):
    """The puzzles of S/Kademlia, 4.1: the identifier is the hash of the key, and both hashes begin with as many zeros."""
    named = hashlib.sha1(contact.key).digest()
    mixed = bytes(a ^ b for a, b in zip(contact.name, contact.x))
    both = zero_bits(hashlib.sha1(named).digest()) >= c1 and zero_bits(hashlib.sha1(mixed).digest()) >= c2
    return named == contact.name and both


def bits_of(name):
    return format(int.from_bytes(name, "big"), "0160b")


class Table:
    """The routing table of Kademlia, 2.2 and 4.2: buckets that split by `bits`, spares, and the 16 closest to `own`. With a limit
    it holds at most so many of one address."""

    def __init__(self, own, k, bits, limit=0):
        self.own, self.k, self.bits, self.limit = own, k, bits, limit
        self.rows = [["", [], []]]
        self.siblings = []

    def held(self):
        return {c.compact: c for _, live, spares in self.rows for c in live + spares + self.siblings}.values()

    def turns_away(self, contact):
        """Whether its identifier is new to the rows, and its address has as many others as it may."""
        if not self.limit or any(c.name == contact.name for _, live, _ in self.rows for c in live):
            return False
        others = [c for c in self.held() if c.holder() == contact.holder() and c.compact != contact.compact]
        return len(others) >= self.limit

    def seen(self, contact):
        way = bits_of(contact.name)
        if contact.name == self.own or self.turns_away(contact):
            return
        if any(contact.key):
            contact = self.as_held(contact)
        while True:
            at = next(i for i, row in enumerate(self.rows) if way.startswith(row[0]))
            prefix, live, spares = self.rows[at]
            same = [c for c in live if c.name == contact.name]
            if same and same[0].compact != contact.compact:
                return
            if same:
                live.remove(same[0])
            if len(live) < self.k:
                live.append(contact)
                break
            if not bits_of(self.own).startswith(prefix) and len(prefix) % self.bits == 0:
                spares[:] = [c for c in spares if c.name != contact.name][-(self.k - 1) or len(spares) :] + [contact]
                break
            halves = [[prefix + bit, [], []] for bit in "01"]
            for one in live:
                halves[bits_of(one.name)[len(prefix)] == "1"][1].append(one)
            self.rows[at : at + 1] = halves
        if all(c.compact != contact.compact for c in self.siblings):
            self.siblings = closest(SIBLINGS, self.own, self.siblings + [contact])

    def as_held(self, contact):
        """The contact with the proof that it showed first, if the table holds it."""
        return next((c for c in self.held() if c.compact == contact.compact), contact)

    def closest(self, target):
        return closest(self.k, target, {c.compact: c for _, live, _ in self.rows for c in live + self.siblings}.values())

    def text(self):
        lines = ["table %s %d %d" % (self.own.hex(), self.k, self.bits)]
        for prefix, live, spares in self.rows:
            lines.append("row " + (prefix or "-"))
            lines += ["live %s 0" % c.line() for c in live] + ["spare " + c.line() for c in spares]
        return "\n".join(lines + ["sibling " + c.line() for c in self.siblings] + ["end", ""])


class SavedTable:
    """What a printed table has, as lines of contacts: whose it is with its k and bits, its rows, and its siblings."""

    def __init__(self, text):
        first, *lines, last = text.splitlines()
        word, own, k, bits = first.split()
        self.front, self.rows, self.siblings = (own, int(k), int(bits)), [], []
        self.is_whole = (word, last) == ("table", "end") and text.endswith("\n")
        for line in lines:
            word, _, rest = line.partition(" ")
            if word == "row":
                self.rows.append((rest.strip("-"), [], []))
            elif word == "live":
                self.rows[-1][1].append(rest.removesuffix(" 0"))
            elif word == "spare":
                self.rows[-1][2].append(rest)
            else:
                self.siblings.append(rest)


class OnePath:
    """A lookup on one path with one query open at a time, in which whoever is asked answers: `names` gives whom a contact names.
    Who is found, nearest first, how many were asked, and how many contacts were turned away."""

    def __init__(self, target, seeds, k, limit, names):
        self.target, self.limit = target, limit
        self.taken, self.turned = [], 0
        for contact in seeds:
            if not self.is_crowded(contact):
                self.taken.append(contact)
        self.asked = []
        while one := self.next(k):
            self.asked.append(one)
            for contact in names(one)[:REPORTS]:
                self.settle(contact)
        self.found = closest(k, target, self.taken)

    def is_crowded(self, contact):
        return bool(self.limit) and sum(c.holder() == contact.holder() for c in self.taken) >= self.limit

    def next(self, k):
        return next((c for c in closest(k, self.target, self.taken) if c not in self.asked), None)

    def settle(self, contact):
        if contact in self.taken:
            return
        if len(self.taken) >= MOST_OF_A_PATH or self.is_crowded(contact):
            self.turned += 1
        else:
            self.taken.append(contact)
