"""Runs nodes through sessions that are drawn at random, with memory enough, and shows that each answers and ends as a plain model
does: see test_ample, whose rules these follow. A session of `serve` has up to seven hundred queries of some hosts, one of `node` as
many lines of each kind as may be, so that what it tells behind its lookups is past each room that it has.

The last tests go through all sizes: of a value, of a token that is given and brought back, of one that is brought and is none."""

import hashlib
import os
import random

from shared import program
from shared.drawn import Net, Words, any_value, some_contacts, value_of_length, with_more
from shared.hosts import Hosts
from shared.messages import asks, bdecode, bencode, query, tagged
from shared.preload import LOSING, Clock
from shared.program import Server, check, library
from shared.sessions import Sessions, is_counted, own_port, run
from shared.table_model import Contact, SavedTable, address, closest

TOO_MANY = {b"e": [202, b"Server Error"]}
BAD_TOKEN = {b"e": [203, b"Bad Token"]}
UNKNOWN = {b"e": [204, b"Method Unknown"]}
TOO_BIG = {b"e": [205, b"Value Too Big"]}
LISTED = 50  # peers of one reply


# ------------------------------------------------------------------------------------------------------------- serving


class Answering:
    """A model of a node that answers: its table, and the peers and items that it holds."""

    def __init__(self, words, table):
        self.words, self.table, self.limit = words, table, words.limit
        self.tokens, self.peers, self.items = {}, {}, {}

    def near(self, target):
        found = self.table.closest(target)
        says = {b"nodes": b"".join(c.compact for c in found)}
        if self.words.puzzle:
            says[b"snodes"] = b"".join(c.report() for c in found)
        return says

    def reply(self, asker, method, asked, proved, read_only):
        """The reply by the state before, and then who asks is told to the table."""
        said = self.said(asker, method, asked)
        if method not in (b"get", b"put", b"vote") and not read_only and proved in (True, None):
            self.table.seen(asker)
        return said

    def is_crowded(self, host, holders):
        return bool(self.limit) and sum(one == host for one in holders) >= self.limit

    def said(self, asker, method, asked):
        if method == b"vote":
            return UNKNOWN
        says, host = {b"id": self.words.own}, asker.packed
        if method in (b"announce_peer", b"put") and asked[b"token"] != self.tokens[host]:
            return BAD_TOKEN
        if method == b"find_node":
            says.update(self.near(asked[b"target"]))
        if method == b"get_peers":
            says.update(self.near(asked[b"info_hash"]), token=None)
            says[b"values"] = sorted(self.peers.get(asked[b"info_hash"], ()))
        if method == b"get":
            says.update(self.near(asked[b"target"]), token=None)
            if asked[b"target"] in self.items:
                says[b"v"] = self.items[asked[b"target"]][0]
        if method == b"announce_peer" and not self.announce(asked, host, asker.port):
            return TOO_MANY
        if method == b"put" and (refusal := self.put(asked[b"v"], host)):
            return refusal
        if says.pop("token", "") is None:
            says[b"token"] = self.tokens[host]
        return {b"r": {key: value for key, value in says.items() if value != []}}

    def announce(self, asked, host, port):
        peer = host + (port if asked.get(b"implied_port") else asked[b"port"]).to_bytes(2, "big")
        held = self.peers.setdefault(asked[b"info_hash"], set())
        if peer not in held and self.is_crowded(host, (one[:4] for some in self.peers.values() for one in some)):
            return False
        held.add(peer)
        return True

    def put(self, value, host):
        text = bencode(value)
        key = hashlib.sha1(text).digest()
        if len(text) > 1000:
            return TOO_BIG
        if key not in self.items and self.is_crowded(host, (first for _, first in self.items.values())):
            return TOO_MANY
        self.items.setdefault(key, (value, host))
        return None


def is_right(came, wanted, is_limited):
    """Whether a reply is the wanted one. With a limit a list of peers begins anywhere and goes round, and one of too many has any
    fifty that come one after another; without one it has the first fifty."""
    if b"values" not in wanted.get(b"r", {}):
        return came == bencode(wanted)
    peers, given = wanted[b"r"][b"values"], bdecode(came)[b"r"].get(b"values", [])
    begins = range(len(peers)) if is_limited else (0,)
    lists = [(peers[at:] + peers[:at])[:LISTED] for at in begins]
    return given in lists and came == bencode({**wanted, b"r": {**wanted[b"r"], b"values": given}})


class Serving:
    """A session with a node that serves, or has nothing else to do: some hosts ask, each under some names."""

    def __init__(self, draw, environment=None, count=None, crowded=False):
        self.draw, self.words = draw, Words(draw)
        if crowded:
            self.words.limit = draw.randrange(1, 4)
        words, self.workers = self.words, draw.choice((1, 1, 1, 2, 8))
        self.command = draw.choice(("serve", "node")) if self.workers == 1 else "serve"
        contacts = some_contacts(draw, words, 60 if words.puzzle else 3000 if not words.limit else 300)
        self.model = Answering(words, words.table_of(contacts, words.limit))
        self.count, self.sent = count or draw.choice((5, 30, 100, 700)), 0
        self.names = 5 if crowded else draw.choice((1, 5))
        hosts = [bytes([127, 0, 0, draw.randrange(1, 250)]) for _ in range(draw.randrange(1, 5))]
        self.hosts = sorted(set(hosts))
        more = [*words.of_table()[2:], *words.of_group(), *words.of_limit()]
        more += ["--workers", str(self.workers)] if self.command == "serve" else []
        more += ["--minutes", str(draw.randrange(5, 10_081))] if draw.random() < 0.3 else []
        more += ["--table", "yes"]
        if self.workers == 1:
            more += ["--receives", str(self.count + len(self.hosts))]
        env = {**os.environ, **(environment or {})}
        options = dict(text=words.input(contacts), port=own_port(), command=self.command, env=env)
        self.server = Server("--own", words.own.hex(), *more, **options)
        self.asker = Hosts(self.server, 2 if environment else 60)
        self.askers = [self.contact(host) for host in self.hosts for _ in range(self.names)]
        keys = [draw.randbytes(20) for _ in range(3)]
        self.values = [any_value(draw, 12) for _ in range(3)] + [value_of_length(draw, draw.randrange(1001, 3000))]
        self.keys = keys + [hashlib.sha1(bencode(value)).digest() for value in self.values]

    def contact(self, host):
        return self.words.contact(self.draw, ".".join(map(str, host)), self.asker.port)

    def begin(self):
        """Each host asks for its token."""
        for host in self.hosts:
            text = query(b"aa", b"get_peers", {b"id": bytes(20), b"info_hash": bytes(20)}, True)
            self.model.tokens[host] = bdecode(self.ask(host, text))[b"r"][b"token"]

    def ask(self, host, text):
        self.sent += 1
        return self.asker.ask([(host, text)])[0]

    def arguments(self, asker, method):
        draw, token = self.draw, self.model.tokens[asker.packed]
        asked = {b"id": asker.name}
        if method in (b"find_node", b"get"):
            asked[b"target"] = draw.choice(self.keys)
        if method in (b"get_peers", b"announce_peer"):
            asked[b"info_hash"] = draw.choice(self.keys)
        if method in (b"announce_peer", b"put"):
            asked[b"token"] = draw.choice((token, token, token, b"", draw.randbytes(draw.randrange(900))))
        if method == b"announce_peer":
            asked.update(draw.choice(({b"port": draw.randrange(1, 65536)}, {b"port": 1, b"implied_port": 1})))
        if method == b"put":
            asked[b"v"] = draw.choice(self.values) if draw.random() < 0.5 else value_of_length(draw, draw.randrange(2, 1001))
        return asked

    def proof(self, asker):
        """What a query shows as its proof, and whether that passes; None where nobody asks for one."""
        if not self.words.puzzle:
            return self.draw.choice(({}, {b"sk": asker.proof()})), None
        spoiled = self.draw.choice(("none", "other", "right", "right"))
        if spoiled == "none":
            return {}, False
        if spoiled == "other":
            return {b"sk": self.draw.randbytes(52)}, False
        return {b"sk": asker.proof()}, True

    def step(self, number):
        """One query, whose reply has to be the model's."""
        draw, words = self.draw, self.words
        asker = draw.choice(self.askers)
        method = draw.choice((b"ping", b"find_node", b"get_peers", b"announce_peer", b"get", b"put", b"vote"))
        asked, read_only = self.arguments(asker, method), draw.random() < 0.3
        shown, proved = self.proof(asker)
        message = {b"a": {**asked, **shown}, b"q": method, b"t": draw.randbytes(draw.randrange(33)), b"y": b"q"}
        message.update({b"ro": 1} if read_only else {})
        if len(bencode(message)) < 2500:
            message = with_more(draw, message, b"a")
        came = self.ask(asker.packed, bencode(message))
        wanted = self.model.reply(asker, method, asked, proved, read_only)
        if words.group:
            says = bdecode(came)
            sealed = says.pop(b"sg", None)
            check(came == tagged(words.group, words.own, bencode(says)) and sealed, "%d: the tag is wrong" % number)
            came = bencode(says)
        wanted = {**wanted, b"t": message[b"t"], b"y": b"r" if b"r" in wanted else b"e"}
        check(is_right(came, wanted, words.limit), "%d, %r: %r, wanted %r" % (number, method, came[:300], bencode(wanted)[:300]))

    def ends(self):
        """Its last lines, where it ends by itself: what it counted, and its table."""
        if self.workers == 1:
            ended = self.server.ended()
            wanted = "received %d replied %d\n" % (self.sent, self.sent) + self.model.table.text()
            check((ended.status, ended.out.decode()) == (0, wanted), "it ends with %s, wanted %r" % (ended, wanted[:300]))

    def close(self):
        self.server.close()
        if hasattr(self, "asker"):
            self.asker.close()


def serve_session(draw, environment=None, crowded=False):
    session = Serving(draw, environment, 30 if environment else 100 if crowded else None, crowded)
    try:
        session.begin()
        for number in range(session.count):
            session.step(number)
        session.ends()
    finally:
        session.close()


def clock_session(draw):
    """A node that serves for some minutes, of which its clock says that they are over."""
    clock, minutes, count = Clock(), draw.randrange(1, 10_081), draw.randrange(1, 40)
    workers = str(draw.choice((1, 2, 8)))
    env = {**os.environ, **clock.environment}
    server = Server("--minutes", str(minutes), "--workers", workers, port=own_port(), env=env)
    try:
        for _ in range(count):
            server.ask(asks(b"ping"))
            clock.move(minutes * 60_000 // (count + 1))
        clock.move(minutes * 60_000)
        server.socket.send(asks(b"ping"))  # which wakes it
        ended = server.ended()
        wanted = [b"received %d replied %d\n" % (count + more, count + more) for more in (0, 1)]
        check(ended.status == 0 and ended.out in wanted, "it ends with %s, wanted %r" % (ended, wanted))
    finally:
        server.close()
        clock.close()


# ------------------------------------------------------------------------------------------------- looking up meanwhile


class Job:
    """A line of a node's input: what it looks for, and how, and what those who are asked answer."""

    METHODS = {"find": b"find_node", "peers": b"get_peers", "announce": b"get_peers", "get": b"get", "put": b"get"}

    def __init__(self, draw, kind, value=None):
        self.kind, self.method = kind, self.METHODS[kind]
        self.value = value if value is not None else any_value(draw, 12)
        has_value = kind in ("get", "put")
        self.target = hashlib.sha1(bencode(self.value)).digest() if has_value else draw.randbytes(20)
        self.port = draw.randrange(65536)
        self.tokens, self.named, self.has, self.lengths = {}, {}, {}, {}

    def line(self):
        if self.kind == "put":
            return "put " + bencode(self.value).hex()
        return "%s %s%s" % (self.kind, self.target.hex(), " %d" % self.port if self.kind == "announce" else "")

    def says(self, draw, contact):
        """What a contact answers besides."""
        if self.kind == "find":
            return {}
        token = draw.choice((None, draw.randbytes(draw.randrange(900)), draw.randbytes(8), draw.randbytes(8)))
        if self.lengths:
            token = draw.randbytes(self.lengths.get(contact, 8))
        self.tokens[contact] = token
        says = {} if token is None else {b"token": token}
        if self.method == b"get_peers":
            self.named[contact] = [draw.randbytes(4) + bytes([1, number]) for number in range(draw.choice((0, 1, 30)))]
            says[b"values"] = self.named[contact]
        elif self.kind == "get":
            self.has[contact] = draw.random() < 0.3
            says.update({b"v": self.value} if self.has[contact] else draw.choice(({}, {b"v": [self.value]})))
        return says

    def told(self):
        """What those are told that gave a token."""
        if self.kind == "announce":
            return b"announce_peer", {b"info_hash": self.target, **({b"port": self.port} if self.port else {b"implied_port": 1})}
        return (b"put", {b"v": self.value}) if self.kind == "put" else None

    def front(self, asked):
        """What stands before the line of counts, in lines, and at its beginning, in words."""
        first = ["put " + self.target.hex() if self.kind == "put" else self.line()]
        if self.method == b"get_peers":
            peers = sorted({peer for contact in asked for peer in self.named[contact]})
            return first + [address(peer[:4], int.from_bytes(peer[4:], "big")) for peer in peers], ["peers", str(len(peers))]
        if self.kind == "get":
            return first + ["value " + bencode(self.value).hex() if any(self.has[c] for c in asked) else "none"], []
        return first + (["key " + self.target.hex()] if self.kind == "put" else []), []


class Looking:
    """A session with a node that has some jobs, among nodes that answer and strangers that ask meanwhile."""

    def __init__(self, draw, jobs=None, losing=None):
        self.draw, self.words = draw, Words(draw, 4, losing)
        words, self.is_long = self.words, draw.random() < 0.2
        if self.is_long or jobs:  # more is told behind the lookups than any room holds
            words.k, words.paths, words.alpha, words.limit = 20, 1, 1, 0
        if jobs:
            words.puzzle = None
        self.jobs = jobs or self.some_jobs()
        self.by_target = {(job.method, job.target): job for job in self.jobs}
        self.proof = self.own_proof()
        count = 40 if self.is_long or jobs else draw.randrange(10 if losing else 1, 41)
        self.net = Net(draw, words, count, self.says, strangers=not losing)
        self.begin = draw.sample(self.net.nodes, draw.randrange(1, len(self.net.nodes) + 1))

    def some_jobs(self):
        most = min(16, max(64 // (self.words.paths * self.words.alpha), 1))
        kinds = ("announce", "put") if self.is_long else tuple(Job.METHODS)
        count = most if self.is_long else self.draw.randrange(most) + 1
        some = {job.target: job for job in (Job(self.draw, self.draw.choice(kinds)) for _ in range(count))}
        return list(some.values())  # each looks for something else, so that it shows whose an answer is

    def own_proof(self):
        """A proof of its own identifier, or none."""
        if self.draw.random() < 0.5:
            return None
        contact = self.words.contact(self.draw, "127.0.0.1", 1)
        if not self.words.puzzle:
            key = self.draw.randbytes(32)
            contact = Contact(hashlib.sha1(key).digest(), "127.0.0.1", 1, key, self.draw.randbytes(20))
        self.words.own = contact.name
        return contact

    def says(self, contact, query):
        asked = query[b"a"]
        key = asked.get(b"target", asked.get(b"info_hash"))
        job = self.by_target.get((query[b"q"], key))
        return job.says(self.draw, contact) if job else {}

    def given(self):
        words = ["node", *self.words.of_lookup(), "--bind", "0.0.0.0:0", "--table", "yes"]
        words += ["--minutes", str(self.draw.randrange(1, 10_081))] if self.draw.random() < 0.3 else []
        if self.proof:
            words += ["--proof", "%s,%s" % (self.proof.key.hex(), self.proof.x.hex())]
            at = words.index("--own")
            words[at : at + 2] = self.draw.choice((words[at : at + 2], []))
        return words

    def play(self, losing=None):
        lines = [job.line() + "\n" for job in self.jobs]
        text = self.words.input(self.begin)
        lines = run(self.given(), "".join(self.draw.choice(([text, *lines], [*lines, text]))), losing).splitlines()
        for job in self.jobs:
            lines = self.printed(job, lines)
        asked = sum(query[b"q"] in Job.METHODS.values() for _, query in self.net.heard)
        wanted = "received %d replied %d" % (asked + self.net.pings, self.net.pings)
        check(lines[0] == wanted, "at the end %r, wanted %r" % (lines[0], wanted))
        self.holds(SavedTable("\n".join(lines[1:]) + "\n"))
        if self.net.stranger:
            pongs = sorted(self.net.pongs(), key=lambda says: int(says[b"t"]))
            check([says[b"r"][b"id"] for says in pongs] == [self.words.own] * self.net.pings, "its pongs are %r" % pongs[:3])
        self.brings_its_proof()

    def found(self, job):
        """Who is found, and how many are turned away, or None where that follows from the order of the answers."""
        words, net = self.words, self.net
        seeds = words.table_of(self.begin, words.limit).closest(job.target)
        if words.limit and words.limit < net.most_of_one():
            return closest(words.k, job.target, net.asked(job.method, job.target)), None
        everybody = {c.compact: c for c in seeds + closest(16, job.target, net.nodes)}.values()
        return closest(words.k, job.target, everybody), 0

    def printed(self, job, lines):
        """Checks what was printed of a job, and whom it told; the lines behind."""
        (found, turned), asked = self.found(job), self.net.asked(job.method, job.target)
        before, words = job.front(asked)
        before += [c.line() for c in found] if job.kind == "find" else []
        check(lines[: len(before)] == before, "printed %r, wanted %r" % (lines[:4], before[:4]))
        count, rest = is_counted(lines[len(before)], len(found), words, turned)
        check(len(set(asked)) == len(asked) == count, "%d were asked, and %d heard it" % (count, len(asked)))
        self.tells(job, found, rest)
        return lines[len(before) + 1 :]

    def tells(self, job, found, rest):
        told = job.told()
        if told is None:
            check(rest == (["announced", "0"] if job.kind == "peers" else []), "behind the counts %r" % rest)
            return
        method, wanted = told
        owed = {c: job.tokens[c] for c in found if job.tokens[c] is not None}
        check(rest == [{"announce": "announced", "put": "stored"}[job.kind], str(len(owed))], "behind the counts %r" % rest)
        of_job = lambda says: says[b"v"] == job.value if method == b"put" else says[b"info_hash"] == job.target
        heard = lambda: [(c, query) for c, query in self.net.heard if query[b"q"] == method and of_job(query[b"a"])]
        program.until(lambda: len(heard()) >= len(owed), 10)
        came = heard()
        check(sorted(c.compact for c, _ in came) == sorted(c.compact for c in owed), "it was sent to %d others" % len(came))
        for contact, query in came:
            says = query[b"a"]
            check(b"ro" not in query and says[b"token"] == owed[contact], "%r says %r" % (method, says))
            check(all(says.get(key) == value for key, value in wanted.items()), "%r says %r" % (method, says))

    def holds(self, table):
        """Checks what its table may hold at the end, which follows from the order of the answers: those that it begins with or met,
        each in its row."""
        words = self.words
        check(table.is_whole and table.front == (words.own.hex(), words.k, words.bits), "the table is %r" % (table.front,))
        known = {c.line(): c for c in self.net.nodes}
        for prefix, live, spares in table.rows:
            check(all(line in known for line in live + spares), "a row has a contact that nobody named")
            check(len(live) <= words.k and len(spares) <= words.k, "a row has %d and %d" % (len(live), len(spares)))
            names = [int(line.split()[0], 16) for line in live + spares]
            check(all(format(name, "0160b").startswith(prefix) for name in names), "a row of %r has another's" % prefix)
        siblings = [known[line] for line in table.siblings]
        check(siblings == closest(16, words.own, siblings), "the siblings are out of order")
        held = {line for _, live, spares in table.rows for line in live + spares + table.siblings}
        if words.limit:
            holders = [known[line].holder() for line in held]
            check(all(holders.count(one) <= words.limit for one in holders), "more of one address than may be")

    def brings_its_proof(self):
        """Whatever it asks and tells has the proof of its own identifier, or none has one."""
        proof = self.proof.proof() if self.proof else None
        for _, query in self.net.heard:
            check(query[b"a"].get(b"sk") == proof and query[b"a"][b"id"] == self.words.own, "it shows %r" % query[b"a"])


def node_session(draw, losing=None):
    session = Looking(draw, losing=losing)
    try:
        session.play(losing)
    finally:
        session.net.close()


class Nodes(Sessions):
    """Sessions of nodes that answer."""

    def test_serves_as_the_model_does(self):
        """`serve`, or `node` without a job, with memory enough that ends as 'no memory', at some query or for some size or host, or
        replies otherwise."""
        self.play(serve_session)

    def test_serves_hosts_that_have_their_places(self):
        """The same where each host has as many nodes, peers and items as it may: what it asks for then is refused, and ends nothing."""

        def crowded(draw):
            serve_session(draw, crowded=True)

        self.play(crowded, 20)

    def test_serves_until_its_minutes_are_over(self):
        """`serve` with memory enough that ends as 'no memory' where its minutes are over, or earlier, or later."""
        self.play(clock_session, 16)

    def test_nodes_do_each_job(self):
        """`node` with memory enough that ends as 'no memory', at some query or follow-up, or tells or prints something else."""
        self.play(node_session)


class LostDatagrams(Sessions):
    """As in test_ample: a program that loses each fifth datagram fails at its one try."""

    def test_who_loses_a_datagram_in_five_fails(self):
        """Sessions that pass whatever is lost, which then show nothing."""
        losing = {"LD_PRELOAD": library(LOSING, self.folder())}
        for kind in (serve_session, node_session):
            name = kind.__name__
            with self.subTest(name):
                ended = list(self.played(name, lambda draw: kind(draw, losing), 16))
                self.assertEqual([number for number, error in ended if not isinstance(error, AssertionError)], [])


# ------------------------------------------------------------------------------------------------------------ each size


class EachSize(Sessions):
    """What a node refuses, or ends at, for one size alone."""

    LENGTHS = range(2, 1001)

    def test_each_length_of_a_value_is_kept(self):
        """A put of some length that ends a node, or that isn't kept; one that is too big and is."""
        server = self.server("--own", "11" * 20)
        token, draw = server.token(), random.Random(0)
        for length in self.LENGTHS:
            value = value_of_length(draw, length)
            self.assertIn(b"1:y1:r", server.ask(asks(b"put", token=token, v=value)), "%d bytes" % length)
            got = server.ask(asks(b"get", target=hashlib.sha1(bencode(value)).digest()))
            self.assertEqual(bdecode(got)[b"r"].get(b"v"), value, "%d bytes" % length)
        for length in range(1001, 3900):
            said = bdecode(server.ask(asks(b"put", token=token, v=value_of_length(draw, length))))
            self.assertEqual(said.get(b"e"), TOO_BIG[b"e"], "%d bytes" % length)

    def test_each_length_of_a_token_is_judged(self):
        """A token of some length that ends a node, or that is taken for its own."""
        server = self.server("--own", "11" * 20)
        for length in range(3900):
            query = asks(b"announce_peer", info_hash=bytes(20), port=1, token=b"x" * length)
            self.assertEqual(bdecode(server.ask(query)).get(b"e"), BAD_TOKEN[b"e"], "%d bytes" % length)

    def test_each_length_of_a_value_is_put_and_got(self):
        """A value of some length that ends a node which hands it out or gets it."""
        lengths = list(self.LENGTHS)

        def each_value(draw):
            at, kind = draw.number // 2 * 16, ("put", "get")[draw.number % 2]
            self.looks(draw, [Job(draw, kind, value_of_length(draw, length)) for length in lengths[at : at + 16]])

        self.play(each_value, 2 * -(-len(lengths) // 16))

    def test_each_length_of_a_token_comes_back(self):
        """A token of some length that ends what is to bring it back, or comes back as another."""

        def each_token(draw):
            jobs = [Job(draw, ("announce", "put")[draw.number % 2], value_of_length(draw, 100)) for _ in range(16)]
            self.looks(draw, jobs, draw.number // 2 * 16 * 20)

        self.play(each_token, 2 * 2880 // (16 * 20))

    def looks(self, draw, jobs, length=None):
        """A session with these jobs; the tokens that those give who are told something are of so many bytes, and one more each."""
        session = Looking(draw, jobs)
        try:
            for at, job in enumerate(jobs if length is not None else ()):
                job.lengths = {c: length + 20 * at + rank for rank, c in enumerate(closest(20, job.target, session.net.nodes))}
            session.play()
        finally:
            session.net.close()
