"""Gives the program once, twice and four times the work, and shows that its processor time grows no more than that.

Four times the work may take at most nine times the processor time, three for each doubling, and once the work is so much that
the start counts for little: a program that goes over all that it holds at each step takes sixteen times. Over two doublings,
since one alone takes more than its share where the work grows past a processor's cache. Each time is the least of several
runs, and where they don't show it at once there are more of them, so that a busy machine changes nothing.

What is old costs no more than what is fresh, on a clock that is moved. And of what strangers bring, as much again adds nothing to
the memory that a node holds: that is counted.

Each test prints a row of a table. With `--part N` they give an Nth of the work, for a program that was built slow."""

import contextlib
import hashlib
import os
import subprocess

from shared import program
from shared.case import ProgramTest, second_try
from shared.hosts import Hosts, host_of, token_in
from shared.measured_node import OWN, Measured
from shared.messages import TARGET, asks, bencode, counts, gives, identifier, line, minted, query
from shared.peers import Crowd
from shared.preload import Clock, Counts
from shared.program import SETTINGS, Failure, Server, check
from shared.rows import row
from shared.timed import run_of, used_by

MOST = 9  # times the processor time of a quarter of the work
FEW, MANY = 2, 12  # runs of each work: so many at first, and at most
BUSY = "a machine that others keep busy may let a node wait until its lookups are over"


def run(words, text, wanted):
    return run_of([program.path(), *words], text, wanted)


def look_up(crowd, text, wanted, *more):
    with contextlib.closing(crowd):
        return run(["lookup", "--target", TARGET, "--own", OWN.hex(), "--paths", "8", *more], text, wanted)


def serve(make, text="", *more):
    """The processor time of a node that answers the queries that are made with its token."""
    asked = make(b"")
    receives = len(asked) + 1
    with contextlib.closing(Server("--own", OWN.hex(), "--receives", str(receives), *more, text=text)) as server:
        server.ask_all(make(server.token()))
        last, took = used_by(server.child)
    check(last == "received %d replied %d" % (receives, receives), last)
    return took


def far_contacts(count):
    """So many contacts that a table of k 20 and b 5 around OWN has a place for: of each number of leading bits that are
    OWN's, by five, 20 for each way to go on but OWN's and the target's."""
    lines = []
    for at in range(count):
        place, way, shared = at % 20, 1 + at // 20 % 30, at // 600 * 5
        bits = "1" * shared + format(way, "05b") + format(place, "05b")
        name = int(bits.ljust(160, "0"), 2).to_bytes(20, "big")
        lines.append(line(name, "10.0.%d.%d" % (at // 250, at % 250), 6881))
    return "".join(lines)


def announces(key, ports, token):
    return [asks(b"announce_peer", info_hash=key, port=port, token=token) for port in ports]


def puts(numbers, token):
    return [asks(b"put", token=token, v=b"%d" % number) for number in numbers]


@second_try(BUSY)
class FourTimesTheWork(ProgramTest):
    """Each of these goes over all that it holds at each step, and so takes sixteen times the time of a quarter of the work."""

    HEADING = "| Case | Once, ms | Twice | Four times |"

    def assertGrowsNoMore(self, name, case):
        times = [float("inf")] * 3
        try:
            for runs in range(1, MANY + 1):
                for at in range(3):
                    times[at] = min(times[at], self.undisturbed(name, case, 2**at))
                if runs >= FEW and times[2] <= MOST * times[0]:
                    return
        finally:
            once, twice, four = (1000 * time for time in times)
            parts = (name, once, twice, twice / once, four, four / twice)
            row(self.HEADING, "| %s | %.1f | %.1f, %.2f times | %.1f, %.2f times |" % parts)
        self.fail("four times the work takes more than %d times as long" % MOST)

    def undisturbed(self, name, case, work):
        """The processor time of this work. A run that doesn't end as it should is made again, and that is said: on a machine
        that is busy an answer may be late."""
        for _ in range(3):
            try:
                return case(work)
            except Failure as error:
                print("growth: %s: a run is made again, since: %s" % (name, error), flush=True)
        return case(work)

    def test_a_lookup_that_is_named_more(self):
        """Whoever is named looked for among all. On each of eight paths whoever is asked names one that is nearer, and 15 that the
        path has."""

        def names(work):
            steps = 64 * work // SETTINGS.part
            hosts = {}

            def contact(path, step):
                host = bytes([127, 64 + path, step // 256, step % 256])
                hosts[host] = identifier((1000 - step) * 2**16 + path)
                return hosts[host], host

            def play(host, query):
                path, step = host[1] - 64, host[2] * 256 + host[3]
                told = [min(step + 1, steps - 1)] + [max(step - back, 0) for back in range(15)]
                return gives(query, hosts[host], nodes=b"".join(crowd.record(*contact(path, other)) for other in told))

            crowd = Crowd(play)
            begin = "".join(crowd.line(*contact(path, 0)) for path in range(8))
            return look_up(crowd, begin, counts(8, 8 * steps), "--alpha", "1", "--timeout", "60000")

        self.assertGrowsNoMore("names", names)

    def test_a_lookup_that_loses_more(self):
        """Whoever is lost looked for in a table of many contacts. On each of eight paths whoever answers names one that is nearer,
        and 15 that are nearer still and silent. It begins with eight who answer so, and twelve who name nobody."""

        def losses(work):
            steps = 3 * work
            hosts = {}

            def contact(path, step, place):
                host = bytes([127, 64 + path, step, place])
                hosts[host] = identifier((1000 - step) * 2**16 + (16 - place) * 2**8 + path)
                return hosts[host], host

            def play(host, query):
                path, step, place = host[1] - 64, host[2], host[3]
                if place > 0:
                    return None
                told = [contact(path, step + 1, other) for other in range(16)] if path < 8 and step < steps else []
                return gives(query, hosts[host], nodes=b"".join(crowd.record(*one) for one in told))

            crowd = Crowd(play)
            begin = "".join(crowd.line(*contact(path, 0, 0)) for path in range(20))
            wanted = counts(20, 20 + 8 * 16 * steps, failed=8 * 15 * steps)
            more = ["--k", "20", "--bits", "5", "--alpha", "4", "--timeout", "60"]
            return look_up(crowd, begin + far_contacts(4000 * work // SETTINGS.part), wanted, *more)

        self.assertGrowsNoMore("losses", losses)

    def test_pings_with_more_keys(self):
        """A key put in its place by going over those before: each is below all before it."""

        def keys(work):
            falling = {b"%c%c" % (126 - at // 90, 125 - at % 90): b"" for at in range(160 * work)}
            front = b"d" + b"".join(bencode(key) + bencode(value) for key, value in falling.items())
            return serve(lambda token: [front + asks(b"ping")[1:]] * (400 // SETTINGS.part))

        self.assertGrowsNoMore("keys", keys)

    def announcements(self, work, token):
        return announces(bytes(20), range(1, 4000 * work // SETTINGS.part + 1), token)

    def test_more_peers_of_a_key(self):
        """A peer that is announced looked for among all of its key."""
        self.assertGrowsNoMore("peers", lambda work: serve(lambda token: self.announcements(work, token)))

    def test_a_list_of_more_peers(self):
        """A list of peers that goes over all of its key: as many are announced, and then asked for as often."""
        ask = asks(b"get_peers", info_hash=bytes(20))

        def listed(work):
            return serve(lambda token: self.announcements(work, token) + [ask] * (4000 * work // SETTINGS.part))

        self.assertGrowsNoMore("listed", listed)

    def test_more_items(self):
        """An item looked for among all: many are put, and each is then asked for."""

        def items(work):
            count = 1000 * work // SETTINGS.part
            gets = [asks(b"get", target=hashlib.sha1(bencode(b"%d" % number)).digest()) for number in range(count)]
            return serve(lambda token: puts(range(count), token) + gets)

        self.assertGrowsNoMore("items", items)

    def test_more_contacts_in_the_table(self):
        """The closest looked for among all contacts: a node has many, and is asked for the closest as often."""

        def contacts(work):
            count = 2000 * work // SETTINGS.part
            ask = asks(b"find_node", target=bytes(20))
            return serve(lambda token: [ask] * count, far_contacts(count), "--k", "20", "--bits", "5")

        self.assertGrowsNoMore("contacts", contacts)

    TABLE = ["--own", OWN.hex(), "--k", "20", "--bits", "5"]

    def test_a_table_of_more_contacts(self):
        """A contact's row looked for among all."""
        make = lambda work: run(["table", *self.TABLE], far_contacts(2000 * work // SETTINGS.part), "end")
        self.assertGrowsNoMore("table", make)

    def test_a_refresh_of_more_contacts(self):
        """All contacts gone over for each that is pinged: one of each row, and none answers."""

        def refreshed(work):
            text = far_contacts(1000 * work // SETTINGS.part).replace(" 10.", " 127.")
            words = [program.path(), "table", *self.TABLE]
            made = subprocess.run(words, input=text.encode(), stdout=subprocess.PIPE).stdout
            return run(["refresh", "--timeout", "1"], made.decode(), "end")

        self.assertGrowsNoMore("refreshed", refreshed)

    def test_more_lines_that_are_checked(self):
        """The input gone over for each line."""

        def lines(work):
            count = 4000 * work // SETTINGS.part
            return run(["check", "--c1", "8"], far_contacts(count), "passed 0 of %d" % count)

        self.assertGrowsNoMore("lines", lines)

    def test_a_simulation_of_more_nodes(self):
        """All nodes of a network in memory gone over for each that is made or asked."""

        def nodes(work):
            words = ["sim", "--nodes", str(5000 * work // SETTINGS.part), "--seed", "00" * 32, "--paths", "8", "--k", "20"]
            return run(words, "", None)

        self.assertGrowsNoMore("nodes", nodes)


# ---------------------------------------------------------------------------------------------------------- old things

HELD = 30_000  # peers that are announced
PEER_AGE, ITEM_AGE = 30 * 60_000, 120 * 60_000  # milliseconds after which one is old
ITEMS = 4_096
ASKS = 512
TOKEN_AGE = 120_000


def each(node, queries):
    """What each of the queries takes, in seconds."""
    return node.spends(lambda: node.ask_all(queries)) / len(queries)


def aging(node, clock, count, age, make):
    """So many are kept, one at a time while as much time passes as makes one old, and then more while the first go. What
    each of the last few takes that came before, and of the first few that came then."""
    step, times, made = age // count + 1, [], 0
    for _ in range(count // ASKS + 8):
        token, began = node.token(), clock.ahead
        queries = make(range(made + 1, made + 1 + ASKS), token)
        made += ASKS
        spent = 0.0
        for at in range(0, ASKS, 32):
            if clock.ahead > began + TOKEN_AGE:
                token, began = node.token(), clock.ahead
                queries = make(range(made + 1 - ASKS, made + 1), token)
            spent += node.spends(lambda: node.ask_all(queries[at : at + 32]))
            clock.move(32 * step)
        times.append(spent / ASKS)
    return min(times[count // ASKS - 3 : count // ASKS - 1]), min(times[-3:])


@second_try(BUSY)
class OldThings(ProgramTest):
    """What is asked of what a node holds costs no more once that is old, or while it goes, than it did while it was fresh."""

    TIMES = 2
    HEADING = "| Case | Fresh, µs | Old, or going | Times |"

    def assertCostsNoMore(self, name, measure):
        least = [float("inf")] * 2
        for _ in range(3):
            with contextlib.closing(Clock()) as clock:
                with contextlib.closing(Measured("serve", environment=clock.environment)) as node:
                    least = [min(pair) for pair in zip(least, measure(node, clock))]
            if least[1] <= self.TIMES * least[0]:
                break
        fresh, old = least
        row(self.HEADING, "| %s | %.1f | %.1f | %.1f |" % (name, 1e6 * fresh, 1e6 * old, old / fresh))
        self.assertLessEqual(old, self.TIMES * fresh, "it takes %.1f times as long" % (old / fresh))

    def test_a_list_of_old_peers(self):
        """A list that goes over the many old peers of its key."""

        def old_peers(node, clock):
            key = bytes(20)
            node.ask_all(announces(key, range(1, HELD // SETTINGS.part + 1), node.token()))
            ask = [asks(b"get_peers", info_hash=key)] * ASKS
            fresh = each(node, ask)
            clock.move(PEER_AGE + 60_000)
            return fresh, each(node, ask)

        self.assertCostsNoMore("old_peers", old_peers)

    def test_announcements_while_others_grow_old(self):
        """All peers gone over for each that goes."""
        make = lambda ports, token: announces(bytes(20), ports, token)
        self.assertCostsNoMore("peers_going", lambda node, clock: aging(node, clock, HELD // SETTINGS.part, PEER_AGE, make))

    def test_puts_while_others_grow_old(self):
        """All items gone over for each that goes."""
        self.assertCostsNoMore("items_going", lambda node, clock: aging(node, clock, ITEMS, ITEM_AGE, puts))


# ------------------------------------------------------------------------------------------------- what strangers bring

GENERATIONS = 10  # generations of which the first five are one half
SLACK = 1.05  # since what isn't held any more leaves at times, not at the same place of both halves


class WhatStrangersBring(ProgramTest):
    """What is kept for each stranger that ever came, and not only for those that a node holds. The first half of them and the
    second come to the same peak of what it holds, by the C library's own count."""

    HEADING = "| Case | Half | At most, bytes | All | At most |"

    def assertAddsNothing(self, name, half, words, generation, age):
        """`generation(hosts, numbers)` brings those of these numbers, a tenth of all, and then they grow old."""
        clock, counts = self.closed_at_the_end(Clock()), self.closed_at_the_end(Counts())
        libraries = " ".join(one.environment["LD_PRELOAD"] for one in (clock, counts))
        environment = {**os.environ, **clock.environment, **counts.environment, "LD_PRELOAD": libraries}
        server = self.server("--own", OWN.hex(), *words, env=environment)
        hosts = self.closed_at_the_end(Hosts(server))
        size, most = 2 * half // GENERATIONS, []
        for number in range(GENERATIONS):
            peak = 0
            for at in range(number * size, (number + 1) * size, size // 16):
                generation(hosts, range(at, at + size // 16))
                peak = max(peak, counts.held())
            most.append(peak)
            clock.move(age)
        first, second = max(most[: GENERATIONS // 2]), max(most[GENERATIONS // 2 :])
        row(self.HEADING, "| %s | %d | %d | %d | %d |" % (name, half, first, 2 * half, second))
        self.assertLessEqual(second, SLACK * first, "%d of them make it hold %.2f times as much" % (2 * half, second / first))

    def test_hosts_that_announce(self):
        """A host that announced a peer kept in the index by host once the peer is old."""

        def generation(hosts, numbers):
            some = [host_of(number) for number in numbers]
            ask = query(b"aa", b"get_peers", {b"id": bytes(20), b"info_hash": bytes(20)}, True)
            tokens = [token_in(reply) for reply in hosts.ask([(host, ask) for host in some])]
            told = [asks(b"announce_peer", info_hash=bytes(20), port=6881, token=token) for token in tokens]
            replies = hosts.ask(list(zip(some, told)))
            self.assertTrue(all(b"1:y1:r" in reply for reply in replies), "an announcement is refused")

        self.assertAddsNothing("hosts that announce", 80_000, ["--per-address", "2"], generation, PEER_AGE + 60_000)

    def test_hosts_that_ask(self):
        """The seat of a host kept once the table holds none of its nodes."""

        def generation(hosts, numbers):
            ask = lambda number: query(b"aa", b"ping", {b"id": hashlib.sha1(b"%d" % number).digest()})
            hosts.ask([(host_of(number), ask(number)) for number in numbers])

        self.assertAddsNothing("hosts that ask", 80_000, ["--per-address", "2"], generation, 60_000)

    def test_proofs_that_are_shown(self):
        """The proof of a node kept once the table doesn't hold it."""

        def ping(number):
            name, key = minted(number)
            return query(b"aa", b"ping", {b"id": name, b"sk": key + bytes(20)})

        def generation(hosts, numbers):
            hosts.ask([(host_of(number), ping(number)) for number in numbers])

        self.assertAddsNothing("proofs", 20_000, ["--c1", "0", "--c2", "0"], generation, 60_000)

    def test_items_that_are_put(self):
        """An item, or whose it is, kept once it is old."""

        def generation(hosts, numbers):
            some = [host_of(number // 4) for number in numbers]
            ask = query(b"aa", b"get_peers", {b"id": bytes(20), b"info_hash": bytes(20)}, True)
            tokens = [token_in(reply) for reply in hosts.ask([(host, ask) for host in some])]
            told = [asks(b"put", token=token, v=b"%090d" % number) for token, number in zip(tokens, numbers)]
            replies = hosts.ask(list(zip(some, told)))
            self.assertTrue(all(b"1:y1:r" in reply for reply in replies), "an item is refused")

        self.assertAddsNothing("items", 8_000, ["--per-address", "4"], generation, ITEM_AGE + 60_000)
