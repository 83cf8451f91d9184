"""What a drawn session has: values of bencode, the words of a command, and a network on loopback that answers it."""

import hashlib
import ipaddress
import itertools
import selectors
import socket
import struct
import threading

from shared.messages import bdecode, bencode, tagged
from shared.peers import Crowd
from shared.table_model import Contact, Table, closest, passes

LONGEST = 4096  # bytes of a datagram that is read
PATIENCE = 60_000  # milliseconds that a node has to answer: the longest, since a busy machine may keep it waiting
IMPATIENCE = 300  # where what is lost is to show


# -------------------------------------------------------------------------------------------------------------- values


def value_of(draw, depth, size):
    """A value of bencode of about so many bytes, nested at most so deep."""
    shape = draw.choice(("number", "text", "list", "pairs")) if depth else draw.choice(("number", "text"))
    if shape == "number" or size < 4:
        return draw.choice((0, 1, -1, draw.randrange(-(10**18), 10**18)))
    if shape == "text":
        return draw.randbytes(draw.randrange(size))
    count = draw.randrange(1, 6)
    parts = [value_of(draw, depth - 1, size // count - 8) for _ in range(count)]
    return parts if shape == "list" else {draw.randbytes(draw.randrange(1, 8)): part for part in parts}


def value_of_length(draw, length):
    """A value whose written form has exactly so many bytes, two at least."""
    for digits in range(1, 5):
        size = length - digits - 1
        if size >= 0 and len(str(size)) == digits:
            return draw.randbytes(size)
    return [value_of_length(draw, length - 2)]


def any_value(draw, depth):
    """A value that an item may have, nested at most so deep."""
    drawn = value_of(draw, depth, 900)
    return drawn if draw.random() < 0.5 and len(bencode(drawn)) <= 1000 else value_of_length(draw, draw.randrange(2, 1001))


def with_more(draw, message, part, longest=LONGEST):
    """The message with keys that nobody knows, in itself and in its part, of at most so many bytes with a tag."""
    room = longest - len(bencode(message)) - 200
    if room < 40 or draw.random() < 0.3:
        return message
    more = lambda: {b"z" + draw.randbytes(4): value_of(draw, draw.randrange(12), draw.choice((20, room // 3, room // 2)))}
    spoiled = {**message, **more(), part: {**message[part], **more()}}
    return spoiled if len(bencode(spoiled)) <= longest - 32 else message


# --------------------------------------------------------------------------------------------------------------- words


class Words:
    """What a session draws of a command's words; of a program that loses datagrams, so that five come at least."""

    def __init__(self, draw, family=4, losing=None):
        self.own = draw.randbytes(20)
        self.k, self.bits = draw.randrange(1, 21), draw.randrange(1, 6)
        self.paths, self.alpha = draw.choice((1, draw.randrange(1, 9))), draw.choice((1, draw.randrange(1, 5)))
        self.group = draw.randbytes(32) if draw.random() < 0.3 else None
        self.puzzle = (draw.randrange(4), draw.randrange(4)) if draw.random() < 0.3 else None
        self.limit = draw.choice((1, 2, 3, 8, 40, 255)) if draw.random() < 0.4 else 0
        self.family, self.patience = family, PATIENCE
        if losing:
            self.k, self.limit, self.patience = max(self.k, 5), 0, IMPATIENCE

    def of_table(self):
        given = ["--own", self.own.hex(), "--k", str(self.k), "--bits", str(self.bits)]
        return given + (["--c1", str(self.puzzle[0]), "--c2", str(self.puzzle[1])] if self.puzzle else [])

    def of_limit(self):
        return ["--per-address", str(self.limit)] if self.limit else []

    def of_group(self):
        return ["--group", self.group.hex()] if self.group else []

    def of_lookup(self):
        given = ["--paths", str(self.paths), "--alpha", str(self.alpha), "--timeout", str(self.patience)]
        return given + self.of_table() + self.of_group() + self.of_limit()

    def contact(self, draw, host, port):
        """A contact that passes the session's puzzles, if it has any."""
        if not self.puzzle:
            return Contact(draw.randbytes(20), host, port)
        while True:
            key = draw.randbytes(32)
            name = hashlib.sha1(key).digest()
            if passes(Contact(name, host, port, key), self.puzzle[0], 0):
                break
        tried = (Contact(name, host, port, key, draw.randbytes(20)) for _ in itertools.count())
        return next(c for c in tried if passes(c, *self.puzzle))

    def input(self, contacts):
        return "".join(c.line(bool(self.puzzle)) + "\n" for c in contacts)

    def table_of(self, contacts, limit=0):
        made = Table(self.own, self.k, self.bits, limit)
        for contact in contacts:
            made.seen(contact)
        return made


def some_contacts(draw, words, most):
    """Contacts that nobody asks, some of one address."""
    count, shared = draw.choice((0, 1, words.k, 50, most)), draw.choice((1, 1, 3))
    hosts = (ipaddress.ip_address(10 * 2**24 + number // shared) for number in itertools.count())
    return [words.contact(draw, str(next(hosts)), draw.randrange(1, 65536)) for _ in range(count)]


# ------------------------------------------------------------------------------------------------------------- networks


class Net:
    """Nodes on loopback: over IPv4 at some addresses, of some ports each, over IPv6 at some ports. Each names the sixteen closest
    of all; `says` gives what else it answers to a query. A stranger may send a ping in front of an answer. Each has a socket, so
    that what all jobs of a node tell it at once has a place there."""

    SOCKETS = 1000

    def __init__(self, draw, words, count, says=lambda contact, query: {}, strangers=False):
        self.draw, self.words, self.says = draw, words, says
        # All answers that may be on their way at once have a place in a socket.
        self.longest = min(LONGEST, 64 * 1024 // (words.paths * words.alpha))
        self.sockets, self.nodes, self.heard, self.closed = {}, [], [], False
        self.waiting = selectors.DefaultSelector()
        family, host = (socket.AF_INET6, "::1") if words.family == 6 else (socket.AF_INET, "0.0.0.0")
        ports = [self.bind(family, host) for _ in range(min(count, self.SOCKETS))]
        of_one = len(ports) if len(ports) < count else draw.randrange(1, 9)
        for number in range(count):
            place = number // of_one
            self.add("::1" if words.family == 6 else "127.9.%d.%d" % (place >> 8, place & 255), ports[number % len(ports)])
        self.by_place = {(c.host, c.port): c for c in self.nodes}
        self.stranger = socket.socket(socket.AF_INET, socket.SOCK_DGRAM) if strangers else None
        self.pings = 0
        self.thread = threading.Thread(target=self.listen, daemon=True)
        self.thread.start()

    def bind(self, family, host):
        """The port of one more socket."""
        one = socket.socket(family, socket.SOCK_DGRAM)
        if family == socket.AF_INET:
            one.setsockopt(socket.IPPROTO_IP, Crowd.PACKET_INFO, 1)
        one.bind((host, 0))
        port = one.getsockname()[1]
        self.sockets[port] = one
        self.waiting.register(one, selectors.EVENT_READ, port)
        return port

    def add(self, host, port):
        self.nodes.append(self.words.contact(self.draw, host, port))

    def listen(self):
        while not self.closed:
            for key, _ in self.waiting.select(0.05):
                data, info, _, source = key.fileobj.recvmsg(65536, 64)
                host = socket.inet_ntoa(info[0][2][8:12]) if self.words.family == 4 else "::1"
                contact, query = self.by_place[host, key.data], bdecode(data)
                self.heard.append((contact, query))
                if query[b"q"] in (b"ping", b"find_node", b"get_peers", b"get"):
                    self.ping(source)
                    self.send(key.fileobj, contact, self.answer(contact, query), source)

    def send(self, from_socket, contact, text, to):
        packed = struct.pack("=i4s4s", 0, contact.packed, bytes(4)) if self.words.family == 4 else None
        from_host = [(socket.IPPROTO_IP, Crowd.PACKET_INFO, packed)] if packed else []
        from_socket.sendmsg([text], from_host, 0, to)

    def ping(self, to):
        """A stranger's query, some of the times."""
        if self.stranger and self.draw.random() < 0.2:
            query = {b"a": {b"id": bytes(20)}, b"q": b"ping", b"ro": 1, b"t": b"%d" % self.pings, b"y": b"q"}
            self.stranger.sendto(bencode(query), to)
            self.pings += 1

    def near(self, contact, target):
        """Whom a contact names."""
        return closest(16, target, self.nodes) if target else []

    def answer(self, contact, query):
        asked = query[b"a"]
        target = asked.get(b"target", asked.get(b"info_hash", b""))
        near = self.near(contact, target)
        named = b"snodes" if self.words.puzzle else b"nodes"
        named += b"6" if self.words.family == 6 else b""
        says = {b"id": contact.name, **self.says(contact, query)}
        if len(near) == 16:
            near = near + self.draw.choices(self.nodes, k=self.draw.choice((0, 0, 1, 8)))  # of which nothing is read
        if near:
            says[named] = b"".join(c.report() if self.words.puzzle else c.compact for c in near)
        message = with_more(self.draw, {b"r": says, b"t": query[b"t"], b"y": b"r"}, b"r", self.longest)
        text = bencode(message)
        return tagged(self.words.group, contact.name, text) if self.words.group else text

    def asked(self, method, target=None):
        """Those that were asked so, for this key if it is given."""
        some = [(contact, query[b"a"]) for contact, query in self.heard if query[b"q"] == method]
        return [contact for contact, says in some if target in (None, says.get(b"target"), says.get(b"info_hash"))]

    def most_of_one(self):
        """How many nodes of one address there are at most."""
        holders = [c.holder() for c in self.nodes]
        return max(map(holders.count, set(holders)))

    def pongs(self):
        """What came to the stranger."""
        self.stranger.settimeout(10)
        return [bdecode(self.stranger.recv(65536)) for _ in range(self.pings)]

    def close(self):
        self.closed = True
        self.thread.join(5)
        for one in [*self.sockets.values(), *([self.stranger] if self.stranger else [])]:
            one.close()
        self.waiting.close()


class Chains(Net):
    """Nodes in as many chains as there are paths: each names the next few of its chain, which are nearer to the target, and a path
    that begins with the first of one goes through all of it."""

    SOCKETS = 8

    def __init__(self, draw, words, target, says, length):
        self.target, self.stride = target, draw.randrange(1, 5)
        super().__init__(draw, words, words.paths * length, says)
        far = closest(len(self.nodes), target, self.nodes)[::-1]
        self.chains = [far[at :: words.paths] for at in range(words.paths)]
        self.places = {c: (chain, at) for chain in self.chains for at, c in enumerate(chain)}

    def near(self, contact, target):
        chain, at = self.places[contact]
        return chain[at + 1 : at + 1 + self.stride]
