"""Runs the program through sessions that are drawn at random, with memory enough, and shows that each ends with the answer that a
plain model gives: no contract refuses a program that ends as 'no memory' for a reason of its own. test_ample_nodes has those of
nodes that answer.

A session is one run of a command, over 127.0.0.0/8 or ::1, with drawn words, input and answers: up to forty nodes that answer it
or two thousand in chains, so that a lookup asks more than it has room for at once; tables of thousands, values and keys nobody
knows nested up to twelve deep, datagrams of up to 4,096 bytes, with tags, puzzles and limits of one address or without. What a
session is follows from its kind and its number: `--seed N --sessions 1 -k KIND` plays the one that failed.

None is tried again. So a program that loses datagrams can't pass by luck, and the last class shows that by one which loses each
fifth: whatever is lost counts as failed, or isn't answered. Where a machine is busy a session takes long, and no more: nodes have
the longest time to answer, and no more answers are on their way than have a place in a socket."""

import hashlib
import ipaddress
import time

from shared.drawn import Chains, Net, Words, any_value, some_contacts
from shared.messages import bencode
from shared.preload import LOSING
from shared.program import check, library
from shared.sessions import Sessions, is_counted, run
from shared.table_model import Contact, OnePath, address, closest, passes


class LookedUp:
    """A run of a command that looks something up among nodes that answer, `says` giving what else they do."""

    def __init__(self, draw, command, method, target, says, *more, losing=None, most=False):
        self.method, self.target, self.k = method, target, 0
        self.words = words = Words(draw, draw.choice((4, 4, 6)), losing)
        chained = most or words.family == 4 and draw.random() < 0.15 and not losing
        if most:
            words.family, words.paths, words.k = 4, 8, 20
        if chained:
            words.limit, words.k = 0, max(words.k, words.paths)
            self.net = Chains(draw, words, target, says, 250 if most else draw.choice((3, 60, 250)))
        else:
            self.net = Net(draw, words, draw.randrange(10 if losing else 1, 41), says)
        try:
            self.begin = [chain[0] for chain in self.net.chains] if chained else self.some_of(draw, self.net.nodes)
            bind = address(ipaddress.ip_address("::" if words.family == 6 else "0.0.0.0").packed, 0)
            given = [command, *more, *words.of_lookup(), "--family", str(words.family), "--bind", bind]
            self.lines = run(given, words.input(self.begin), losing).splitlines()
            self.model()
        except BaseException:
            self.net.close()
            raise

    def some_of(self, draw, nodes):
        return draw.sample(nodes, draw.randrange(1, len(nodes) + 1))

    def model(self):
        """Who is found, and how many are turned away, or None where that follows from the order in which answers come."""
        words, net = self.words, self.net
        seeds = words.table_of(self.begin).closest(self.target)
        if isinstance(net, Chains):
            self.found, self.turned = closest(words.k, self.target, net.nodes), 0
        elif not words.limit or words.limit >= net.most_of_one():
            everybody = {c.compact: c for c in seeds + closest(16, self.target, net.nodes)}.values()
            self.found, self.turned = closest(words.k, self.target, everybody), 0
        elif words.paths == words.alpha == 1:
            path = OnePath(self.target, seeds, words.k, words.limit, lambda c: net.near(c, self.target))
            self.found, self.turned = path.found, path.turned
        else:
            # All that the k closest of a path answered (Kademlia, 2.3), so they are the closest of those that were asked.
            self.found, self.turned = closest(words.k, self.target, net.asked(self.method)), None

    def __enter__(self):
        return self

    def __exit__(self, *_):
        self.net.close()

    def is_counted(self, line, front=()):
        """Checks the line of counts, and gives what stands behind: whoever was asked heard it, once, and no more of one address
        than may be."""
        asked, rest = is_counted(line, len(self.found), front, self.turned)
        heard = self.net.asked(self.method)
        check(len(heard) == len(set(heard)) == asked, "%d were asked, and %d heard it" % (asked, len(heard)))
        if self.words.limit:
            holders = [contact.holder() for contact in heard]
            most = max(map(holders.count, set(holders)))
            check(most <= self.words.paths * self.words.limit, "%d of one address were asked" % most)
        return rest

    def followed(self, is_spread):
        """Whom those may be, and must be, that are told something: the result, or the closest of each path."""
        if not is_spread or self.words.paths == 1:
            return self.found, self.found
        if isinstance(self.net, Chains):
            each = [one for chain in self.net.chains for one in closest(self.words.k, self.target, chain)]
            return each, each
        return self.found, self.net.asked(self.method)

    def hears(self, method, count, is_spread, tokens, told):
        """So many hear this, each once: each that must and gave a token, and nobody who may not."""
        must, may = ([c for c in some if tokens[c] is not None] for some in self.followed(is_spread))
        until = time.monotonic() + 10
        while len(self.net.asked(method)) < count and time.monotonic() < until:
            time.sleep(0.005)
        came = [(contact, query[b"a"]) for contact, query in self.net.heard if query[b"q"] == method]
        to = {contact for contact, _ in came}
        sent = "%r was sent %d times to %d, and counted %d times" % (method, len(came), len(to), count)
        check(len(came) == len(to) == count, sent)
        check(set(must) <= to <= set(may), "%r was sent to %d others than it should" % (method, len(to ^ set(must))))
        check(count <= self.words.k * (self.words.paths if is_spread else 1), "%r was sent to %d" % (method, count))
        for contact, says in came:
            for key, value in {**told, b"token": tokens[contact]}.items():
                check(says.get(key) == value, "%r says %r" % (method, says))


def some_token(draw):
    """A token of any length that an answer has room for, or none."""
    return draw.choice((None, draw.randbytes(draw.choice((0, 1, 8, draw.randrange(1500)))), draw.randbytes(8)))


def lookup_session(draw, losing=None, most=False):
    target = draw.randbytes(20)
    with LookedUp(draw, "lookup", b"find_node", target, lambda *_: {}, "--target", target.hex(), losing=losing, most=most) as ran:
        found = [contact.line() for contact in ran.found]
        check(ran.lines[:-1] == found, "found %r, wanted %r" % (ran.lines[:-1], found))
        check(ran.is_counted(ran.lines[-1]) == [], ran.lines[-1])


def peers_session(draw, losing=None, most=False):
    target, port = draw.randbytes(20), draw.randrange(65536) if most else draw.choice((None, draw.randrange(65536)))
    is_spread = most or draw.random() < 0.4
    some = [draw.randbytes(4) + draw.randrange(1, 65536).to_bytes(2, "big") for _ in range(200)]
    given, tokens = {}, {}

    def says(contact, query):
        if query[b"q"] != b"get_peers":
            return {}
        given[contact], tokens[contact] = draw.sample(some, draw.choice((0, 1, 5, 40))), some_token(draw)
        token = {} if tokens[contact] is None else {b"token": tokens[contact]}
        return {b"values": given[contact], **token}

    more = ["--announce", str(port)] if port is not None else []
    more += ["--spread", "yes"] if is_spread else []
    with LookedUp(draw, "peers", b"get_peers", target, says, "--key", target.hex(), *more, losing=losing, most=most) as ran:
        printed, counts = ran.lines[:-1], ran.lines[-1]
        named = {peer for contact in ran.net.asked(b"get_peers") for peer in given[contact]}
        wanted = [address(peer[:4], int.from_bytes(peer[4:], "big")) for peer in sorted(named)]
        check(printed == wanted, "the peers are others: %r, wanted %r" % (printed[:5], wanted[:5]))
        rest = ran.is_counted(counts, ["peers", str(len(printed))])
        check(len(rest) == 2 and rest[0] == "announced", counts)
        told = {b"info_hash": target, **({b"port": port} if port else {b"implied_port": 1})}
        ran.hears(b"announce_peer", int(rest[1]), is_spread, tokens if port is not None else dict.fromkeys(tokens), told)


def get_session(draw, losing=None, most=False):
    value = any_value(draw, 12)
    target, has = hashlib.sha1(bencode(value)).digest(), {}

    def says(contact, query):
        has[contact] = draw.random() < 0.3
        return {b"v": value} if has[contact] else draw.choice(({}, {b"v": [value]}, {b"v": [draw.randbytes(9)]}))

    with LookedUp(draw, "get", b"get", target, says, "--key", target.hex(), losing=losing, most=most) as ran:
        some = any(has[contact] for contact in ran.net.asked(b"get"))
        wanted = "value " + bencode(value).hex() if some else "none"
        check(ran.lines[0] == wanted and len(ran.lines) == 2, "printed %r, wanted %r" % (ran.lines[0][:80], wanted[:80]))
        check(ran.is_counted(ran.lines[1]) == [], ran.lines[1])


def put_session(draw, losing=None, most=False):
    value, tokens, is_spread = any_value(draw, 13), {}, most or draw.random() < 0.4
    target = hashlib.sha1(bencode(value)).digest()

    def says(contact, query):
        if query[b"q"] != b"get":
            return {}
        tokens[contact] = some_token(draw)
        return {} if tokens[contact] is None else {b"token": tokens[contact]}

    more = ["--value", bencode(value).hex(), *(["--spread", "yes"] if is_spread else [])]
    with LookedUp(draw, "put", b"get", target, says, *more, losing=losing, most=most) as ran:
        check(ran.lines[0] == "key " + target.hex() and len(ran.lines) == 2, "printed %r" % ran.lines)
        rest = ran.is_counted(ran.lines[1])
        check(len(rest) == 2 and rest[0] == "stored", ran.lines[1])
        ran.hears(b"put", int(rest[1]), is_spread, tokens, {b"v": value})


def refresh_session(draw, losing=None):
    words = Words(draw, 4, losing)
    words.puzzle = None
    net = Net(draw, words, draw.randrange(10 if losing else 1, 41))
    try:
        held = words.table_of(net.nodes)
        text = held.text()
        heads = [live[0] for _, live, _ in held.rows if live]
        is_all = draw.random() < 0.3 or losing
        for _, live, _ in held.rows:
            live[:] = live if is_all else live[1:] + live[:1]
        pinged = [c for _, live, _ in held.rows for c in live] if is_all else heads
        more = [*words.of_group(), *(["--all", "yes"] if is_all else [])]
        printed = run(["refresh", "--timeout", str(words.patience), "--bind", "127.0.0.1:0", *more], text, losing)
        check(printed == held.text(), "another table than that in which each that was pinged is behind the others")
        check(net.asked(b"ping") == pinged, "%d were pinged, and not %d, each once" % (len(net.asked(b"ping")), len(pinged)))
    finally:
        net.close()


class Lookups(Sessions):
    """Sessions of what looks something up."""

    def test_lookups_find_the_closest(self):
        """A lookup with memory enough that ends as 'no memory', or finds others than the closest."""
        self.play(lookup_session)

    def test_peers_are_all_that_were_named_and_are_told(self):
        """`peers` with memory enough that ends as 'no memory', prints others, or announces to others or by another token."""
        self.play(peers_session)

    def test_gets_give_the_value(self):
        """`get` with memory enough that ends as 'no memory', or prints another value."""
        self.play(get_session)

    def test_puts_reach_who_gave_a_token(self):
        """`put` with memory enough that ends as 'no memory', or hands another value to others."""
        self.play(put_session)

    def test_refreshes_ping_each_once(self):
        """`refresh` with memory enough that ends as 'no memory', pings others or one twice, or prints another table."""
        self.play(refresh_session)


# ------------------------------------------------------------------------------------------------------ without a socket


def table_session(draw):
    words = Words(draw)
    contacts = some_contacts(draw, words, 100 if words.puzzle else 4000)
    printed = run(["table", *words.of_table()], words.input(contacts))
    check(printed == words.table_of(contacts).text(), "another table of %d contacts" % len(contacts))


def check_session(draw):
    words = Words(draw)
    words.puzzle = (draw.randrange(5), draw.randrange(5))
    lines, wanted = [], []
    for contact in some_contacts(draw, words, 300):
        spoiled = draw.choice(("", "", "key", "x", "name", "none"))
        if spoiled == "key":
            contact.key = draw.randbytes(32)
        elif spoiled == "x":
            contact.x = draw.randbytes(20)
        elif spoiled == "name":
            contact.name = draw.randbytes(20)
        lines.append(contact.line(spoiled != "none") + draw.choice(("\n", "\r\n", "\n\n", "\n# a comment\n")))
        wanted.append(spoiled != "none" and passes(contact, *words.puzzle))
    printed = run(["check", "--c1", str(words.puzzle[0]), "--c2", str(words.puzzle[1])], "".join(lines)).splitlines()
    check(printed[:-1] == ["pass" if one else "fail" for one in wanted], "another judgement of %d lines" % len(wanted))
    check(printed[-1] == "passed %d of %d" % (sum(wanted), len(wanted)), printed[-1])


def mint_session(draw):
    c1, c2 = draw.randrange(11), draw.randrange(11)
    name, key, x = run(["mint", "--c1", str(c1), "--c2", str(c2), "--seed", draw.randbytes(32).hex()]).split()
    made = Contact(bytes.fromhex(name), "127.0.0.1", 1, bytes.fromhex(key), bytes.fromhex(x))
    check(passes(made, c1, c2), "no proof of %d and %d bits: %s %s %s" % (c1, c2, name, key, x))


def sim_session(draw):
    nodes, hostile, k = draw.choice((1, 20, 300, 2000)), draw.choice((0, 5, 50, 100)), draw.randrange(1, 21)
    words = ["sim", "--seed", draw.randbytes(32).hex(), "--nodes", str(nodes), "--hostile", str(hostile), "--k", str(k)]
    words += ["--paths", str(draw.randrange(1, 9)), "--alpha", str(draw.randrange(1, 5))]
    given = run(words).split()
    found, asked, failed, turned, honest = map(int, given[1::2])
    check(given[0::2] == ["found", "asked", "failed", "turned", "honest"], "printed %r" % given)
    check(honest <= found <= k and found + failed <= asked, "counts %r" % given)
    if not hostile:
        check(found == min(k, nodes) and failed == 0, "nobody is hostile: %r" % given)


class PlainCommands(Sessions):
    """Sessions of what asks nobody."""

    def test_tables_hold_who_has_a_place(self):
        """`table` with memory enough that ends as 'no memory', or prints another table."""
        self.play(table_session)

    def test_checks_judge_each_line(self):
        """`check` with memory enough that ends as 'no memory', or judges a line otherwise."""
        self.play(check_session)

    def test_mints_solve_both_puzzles(self):
        """`mint` with memory enough that ends as 'no memory', or prints what doesn't solve."""
        self.play(mint_session)

    def test_sims_count_what_was_found(self):
        """`sim` with memory enough that ends as 'no memory', or whose counts can't be."""
        self.play(sim_session)


class TheMost(Sessions):
    """Sessions of as many queries as a lookup may make, two thousand, of which those that tell tell a hundred or more."""

    def test_lookups_of_two_thousand_queries(self):
        """A lookup that ends as 'no memory' at some query, past each room that it has."""
        self.play_most(lookup_session)

    def test_peers_of_two_thousand_queries(self):
        """`peers` that ends as 'no memory' at some query, answer or announcement."""
        self.play_most(peers_session)

    def test_gets_of_two_thousand_queries(self):
        """`get` that ends as 'no memory' at some query or answer."""
        self.play_most(get_session)

    def test_puts_of_two_thousand_queries(self):
        """`put` that ends as 'no memory' at some query, answer or put."""
        self.play_most(put_session)

    def play_most(self, kind):
        def most(draw):
            kind(draw, most=True)

        self.play(most, 4)


class LostDatagrams(Sessions):
    """Sessions with a program that loses each fifth datagram: each has five at least, and fails at its one try."""

    def test_who_loses_a_datagram_in_five_fails(self):
        """Sessions that pass whatever is lost, which then show nothing."""
        losing = {"LD_PRELOAD": library(LOSING, self.folder())}
        for kind in (lookup_session, peers_session, get_session, put_session, refresh_session):
            name = kind.__name__
            with self.subTest(name):
                ended = list(self.played(name, lambda draw: kind(draw, losing), 20))
                self.assertEqual([number for number, error in ended if not isinstance(error, AssertionError)], [])
