"""What a lookup takes of the answers that it gets: odd ones, many reports, many names, and peers."""

import hashlib
import socket
import threading

from shared.case import ProgramTest
from shared.messages import answer, bdecode, bencode, counts, found, gives, identifier, minted, record
from shared.peers import answers
from shared.program import limited, lookup, path, peers, run, until


def nested(lists):
    return "1:v" + "l" * lists + "e" * lists


# What comes in the place of an answer, "d{r}{t}{y}e", and whether it is one all the same.
ODD_ANSWERS = {
    "nothing": ("", False),
    "16 open lists and dictionaries": ("d{r}{t}" + nested(15) + "{y}e", True),
    "17 open ones": ("d{r}{t}" + nested(16) + "{y}e", False),
    "100 open ones": ("d{r}{t}" + nested(99) + "{y}e", False),
    "the greatest number of 64 bits": ("d{r}{t}1:vi9223372036854775807e{y}e", True),
    "one more": ("d{r}{t}1:vi9223372036854775808e{y}e", False),
    "the least number": ("d{r}{t}1:vi-9223372036854775808e{y}e", True),
    "one less": ("d{r}{t}1:vi-9223372036854775809e{y}e", False),
    "a number of 100 digits": ("d{r}{t}1:vi" + "1" * 100 + "e{y}e", False),
    "a zero in front": ("d{r}{t}1:vi01e{y}e", False),
    "a zero below zero": ("d{r}{t}1:vi-0e{y}e", False),
    "keys out of order": ("d{y}{t}{r}e", True),
    "a key twice": ("d{r}{t}1:v0:1:w0:1:v0:{y}e", False),
    "`t` twice": ("d{r}{t}{t}{y}e", False),
    "a byte behind it": ("d{r}{t}{y}ee", False),
    "the answer twice": ("d{r}{t}{y}ed{r}{t}{y}e", False),
    "no end": ("d{r}{t}{y}", False),
    "a list": ("l{r}{t}{y}e", False),
    "no `t`": ("d{r}{y}e", False),
    "no `r`": ("d{t}{y}e", False),
    "no `y`": ("d{r}{t}e", False),
    "another kind": ("d{r}{t}1:y1:xe", False),
    "a name of 19 bytes": ("d1:rd2:id19:" + "n" * 19 + "e{t}{y}e", False),
    "nodes of 25 bytes": ("d1:rd2:id20:" + "\0" * 19 + "\1" + "5:nodes25:" + "n" * 25 + "e{t}{y}e", False),
    "another `t`": ("d{r}1:t4:____{y}e", False),
    "a longer `t`": ("d{r}1:t5:{t4}_{y}e", False),
}


def peer_lines(peers):
    """The lines of these peers, each six bytes, in their order."""
    return "".join("%s:%d\n" % (socket.inet_ntoa(p[:4]), int.from_bytes(p[4:], "big")) for p in sorted(set(peers)))


class FirstContacts:
    """Nodes of one test, by how far they are from the key of a value, of whom a first contact, 10, is hostile.

    It and its own nodes, 1 and 2, name these and the two honest nodes that are closest to the key, 3 and 4, which have the
    value. The other first contact, 11, is honest and names these two too; it answers once 1 was asked, so that what 10 named is
    settled by then."""

    VALUE = bencode(b"on a path of its own")
    HOSTILE, NAMED = (10, 1, 2), {10: (1, 2, 3, 4), 1: (1, 2, 3, 4), 2: (1, 2, 3, 4), 11: (3, 4), 3: (3, 4), 4: (3, 4)}

    def __init__(self, make):
        self.key = hashlib.sha1(self.VALUE).digest()
        self.is_led, self.stored = threading.Event(), set()
        self.peers = {}
        for far in self.NAMED:
            name = self.key[:19] + bytes([self.key[19] ^ far])
            self.peers[far] = make(name, play=lambda peer, query, source, far=far: self.play(far, peer, query, source))

    def play(self, far, peer, query, source):
        if bdecode(query)[b"q"] == b"put":
            self.stored.add(far)
            return
        if far == 1:
            self.is_led.set()
        if far == 11:
            self.is_led.wait(10)
        nodes = b"".join(record(one.name, one.host, one.port) for one in map(self.peers.get, self.NAMED[far]))
        more = {"v": bdecode(self.VALUE)} if far in (3, 4) else {}
        peer.socket.sendto(gives(query, peer.name, nodes=nodes, token=b"%d" % far, **more), source)

    def begin(self):
        return self.peers[10].line() + self.peers[11].line()


def some_peers(numbers):
    return [bytes([10, 0, n // 256, n % 256]) + (6881 + n % 7).to_bytes(2, "big") for n in numbers]


class Lookups(ProgramTest):
    def test_an_odd_datagram_is_no_answer(self):
        """A refusal of the codec (Deep, NumberTooBig, KeyTwice, Trailing) that ends the lookup, or loses the contact."""
        for what, (text, is_answer) in ODD_ANSWERS.items():

            def play(peer, query, source):
                t4 = bdecode(query)[b"t"].decode("latin-1")
                parts = {"r": "1:rd2:id20:%se" % peer.name.decode("latin-1"), "t": "1:t4:" + t4, "y": "1:y1:r", "t4": t4}
                peer.socket.sendto(text.format(**parts).encode("latin-1"), source)
                if not is_answer:
                    answers(peer, query, source)

            with self.subTest(what):
                peer = self.peer(play=play)
                self.assertEnds(run(lookup("--timeout", "20000"), peer.line()), 0, found(peer.line(), asked=1))

    def test_the_first_sixteen_reports_are_read(self):
        """17 and more `snodes` or `nodes` that end the lookup, or of which others are read."""
        for kind, most in (("nodes", 155), ("snodes", 51)):
            for count in (0, 1, 15, 16, 17, 18, 31, 32, 33, 51, most):
                with self.subTest(kind, count=count):
                    self.look_up_among(kind, count)

    def look_up_among(self, kind, count):
        """A lookup whose first contact names so many others, under puzzles or without."""
        nobody = bytes(20)
        hosts = {bytes([127, 2, 0, 1 + number]): minted(number) for number in range(count + 1)}
        first, *others = sorted(hosts)

        def report(host):
            proof = hosts[host][1] + nobody if kind == "snodes" else b""
            return hosts[host][0] + proof + host + crowd.port.to_bytes(2, "big")

        def play(host, query):
            return gives(query, hosts[host][0], **{kind: b"".join(map(report, others)) if host == first else b""})

        crowd = self.crowd(play)
        self.assertEqual(len(report(first)), 26 if kind == "nodes" else 78, "bytes of the test's own report")
        begin, policy = crowd.line(hosts[first][0], first), []
        if kind == "snodes":
            begin, policy = "%s %s %s\n" % (begin.strip(), hosts[first][1].hex(), nobody.hex()), ["--c1", "0"]
        ended = run(lookup("--k", "20", "--paths", "1", "--timeout", "20000", *policy), begin)
        read = sorted((hosts[h][0], h) for h in sorted(hosts)[:17])
        self.assertEnds(ended, 0, found(*(crowd.line(*one) for one in read), asked=len(read)))
        crowd.close()

    def test_one_identifier_at_two_addresses_is_two_contacts(self):
        """A responder whose identifier the table knows at another address taken for lack of memory."""
        name, near, far = identifier(1), bytes([127, 3, 0, 1]), bytes([127, 3, 0, 2])
        crowd = self.crowd(lambda host, query: answer(query, name, crowd.record(name, far) if host == near else b""))
        for paths in ("1", "2"):
            ended = run(lookup("--paths", paths, "--timeout", "20000"), crowd.line(name, near))
            self.assertEnds(ended, 0, found(crowd.line(name, near), crowd.line(name, far), asked=2))

    def test_a_lookup_of_more_than_4096_names_ends(self):
        """A book of claims that has no place for them, or that takes much more memory than they need.

        Each of eight paths begins with one contact. Whoever is asked on a path names 16 contacts that nobody named, nearer
        than all before. After 16 answers the path has its 256, and one was turned away. Of the 20 nearest of these, 15 of
        the last answer and 5 of the one before, one was asked. The 19 others name 16 each, for which there is no place."""
        names, asked = {}, [0] * 8

        def contact(path, step, place):
            host = bytes([127, 64 + path, step, 1 + place])
            names[host] = identifier((50 - step) * 2**16 + place * 2**8 + path)
            return names[host], host

        def play(host, query):
            path = host[1] - 64
            asked[path] += 1
            told = [crowd.record(*contact(path, asked[path], place)) for place in range(16)]
            return answer(query, names[host], b"".join(told))

        crowd = self.crowd(play)
        begin = [contact(path, 0, 0) for path in range(8)]
        words = lookup("--paths", "8", "--k", "20", "--alpha", "1", "--timeout", "20000")
        ended = run(words, "".join(crowd.line(*one) for one in begin), preexec_fn=limited(96))
        nearest = [contact(path, 16, place) for place in range(3) for path in range(8)][:20]
        self.assertEnds(ended, 0, found(*(crowd.line(*one) for one in nearest), asked=8 * 35, turned=8 * (35 * 16 - 255)))
        self.assertEqual(len(names), 8 + 8 * 35 * 16, "named are others")
        self.assertGreater(len(names), 4096)


class Claims(ProgramTest):
    """By hand: the path that 10 begins takes 1, 2, 3 and 4, asks 1 and 2, and has its two closest. Where a name is a claim, 3 and
    4 are on that path, and the other path has 11 alone. Where an ask is one, the other path takes both and asks them."""

    def test_a_hostile_first_contact_takes_nodes_by_naming_them(self):
        """A lookup to which a name is a claim although an ask should be one, or the other way round; a default that isn't `named`."""
        value = "value %s\n" % FirstContacts.VALUE.hex()
        for words, asked, out in (((), 4, "none\n"), (("--claim", "named"), 4, "none\n"), (("--claim", "asked"), 6, value)):
            with self.subTest(words=words):
                nodes = FirstContacts(self.peer)
                ended = run([path(), "get", "--key", nodes.key.hex(), "--k", "2", "--paths", "2", *words], nodes.begin())
                self.assertEnds(ended, 0, out + counts(2, asked) + "\n")

    def test_a_value_is_spread_to_whom_each_path_asked(self):
        """A put with `--spread yes` that goes to nodes that the path doesn't have, or leaves out those that it has by an ask."""
        for claim, asked, told in (("named", 4, {1, 2, 11}), ("asked", 6, {1, 2, 3, 4})):
            with self.subTest(claim):
                nodes = FirstContacts(self.peer)
                words = [path(), "put", "--value", nodes.VALUE.hex(), "--k", "2", "--paths", "2", "--spread", "yes", "--claim", claim]
                ended = run(words, nodes.begin())
                self.assertEnds(ended, 0, "key %s\n%s stored %d\n" % (nodes.key.hex(), counts(2, asked), len(told)))
                until(lambda: len(nodes.stored) >= len(told), 5, 0.005)
                self.assertEqual(nodes.stored, told)


class Peers(ProgramTest):
    def test_five_hundred_peers_of_an_answer_are_printed(self):
        """A room for peers that is less than a datagram may bring, or peers that two answers name printed twice."""
        given = [some_peers(range(500)), some_peers(range(899, 399, -1))]
        play = lambda p, q, s: p.socket.sendto(gives(q, p.name, values=given[p.name[-1] - 1]), s)
        both = [self.peer(identifier(n), play=play) for n in (1, 2)]
        ended = run(peers("--paths", "1"), "".join(p.line() for p in both))
        self.assertEnds(ended, 0, peer_lines(some_peers(range(900))) + "peers 900 %s announced 0\n" % counts(2, 2))

    def test_the_peers_of_honest_answers_alone_count(self):
        """Peers of an answer in another name, or an announcement to who gave it; an honest answer whose peers are left out.

        The first contact answers in another name. The second one names the third, whose token is so long that the
        announcement has more than 4,096 bytes."""
        own, key = b"\xff" * 20, bytes(20)
        hosts = {bytes([127, 4, 0, n]): identifier(n) for n in (1, 2, 3)}
        first, second, third = sorted(hosts)
        given = {first: some_peers([1, 2]), second: some_peers([2, 9]), third: some_peers([3])}
        tokens = {first: b"lie", second: b"aoeusnth", third: b"T" * 4000}
        told = []

        def play(host, query):
            if bdecode(query)[b"q"] == b"announce_peer":
                told.append((host, query))
                return None
            name = identifier(9) if host == first else hosts[host]
            more = {"nodes": crowd.record(hosts[third], third)} if host == second else {}
            return gives(query, name, token=tokens[host], values=given[host], **more)

        crowd = self.crowd(play)
        begin = "".join(crowd.line(hosts[host], host) for host in (first, second))
        for paths in ("1", "4"):
            told.clear()
            ended = run(peers("--announce", "6882", "--paths", paths), begin)
            wanted = "peers 3 %s announced 2\n" % counts(2, 3, failed=1)
            self.assertEnds(ended, 0, peer_lines(given[second] + given[third]) + wanted)
            until(lambda: len(told) >= 2, 5, 0.005)
            self.assertEqual([host for host, _ in told], [second, third], "who is told")
            for host, query in told:
                says = {b"id": own, b"info_hash": key, b"port": 6882, b"token": tokens[host]}
                tx = bdecode(query)[b"t"]
                wanted = bencode({b"a": says, b"q": b"announce_peer", b"ro": 1, b"t": tx, b"y": b"q"})
                self.assertEqual(query, wanted, "the announcement has %d bytes" % len(query))
