"""Sends the program datagrams with keys in no order, beside plain ones, and shows what they cost.

The tests are of each command, with a group's key and without. `strays` is what anybody may send: queries and answers to nobody,
with keys in each place of them where some may stand, falling and in any order, short, long and with a front that is alike, of one
dictionary, of many small ones, and of some that stand one in another. `answers` is what those who were asked may answer. There the
work is the number of keys, up to those that 4,096 bytes have room for. Where the keys stand may at most triple the time, since
nothing of them is wanted, and of dictionaries one in another a lower key behind each nested one may at most double it. And the
dearest may take at most eight times a plain one of its length, which has one long string in their place, the two in turn with a
pause of 20 ms before each, as datagrams come; an answer with a wrong tag, whose written form is made, fifteen times, and so may one
that was asked for, which comes at once after the one before, over the whole run. A quiet machine shows about half of that: the
table has what it was.

`memory` counts what is allocated for the same datagrams: what is copied or written before anything shows that it is wanted. Such a
count is exact, however busy the machine is."""

import time
from contextlib import closing
from operator import gt

from shared import program
from shared.case import ProgramTest, second_try
from shared.chosen_datagrams import (
    KEY,
    LONGEST,
    ORDERS,
    REPLY_PLACES,
    fills,
    plain_ones,
    saying,
    tagged,
    within,
)
from shared.measured_node import COMMANDS, FINDS, HASH, OWN, WORDS, Measured, Walk, strays
from shared.messages import TARGET, find
from shared.preload import Counts
from shared.rows import row
from shared.timed import run_of

MOST = 9  # times the processor time of a datagram with a quarter of the keys
OTHER = 3  # times the processor time of a datagram with the same keys in another place
NESTED = 2  # times that of dictionaries one in another whose keys ascend, if their keys fall
FALLING, ASCENDING = (list(ORDERS).index(order + ", one in another") for order in ("falling", "ascending"))
UNASKED, ASKED = 8, 15  # times the processor time of a plain one, of what nobody asked for, and of an answer to an open query
PARTS = 4, 1  # a datagram has a quarter of the keys, and all
ANEW = 20  # seconds after which a node is started anew, whose lookups wait for 60
TRIES = 6  # of what a datagram takes beside a plain one
FEW, AGAIN = 2, 6  # runs of datagrams: so many at first, and at most
STEPS = 30  # answers on each path
TARGETS = {"node": TARGET, "lookup": TARGET, "get": HASH, "put": HASH, "peers": TARGET}
BUSY = "a machine that others keep busy may let a node wait until its lookups are over"
HEADING = "| Case | The dearest place | µs: a quarter of the keys, all | Alone | Plain | Times |"


def some_of(wrong):
    """The first of what is wrong."""
    return "; ".join(wrong[:3] + ["and %d more" % (len(wrong) - 3)] * (len(wrong) > 3))


def for_each(commands, kind):
    """A class with a test for each of the commands, in a group and without, that makes its `judge`."""

    def with_tests(made):
        for command in commands:
            for sealed in (False, True):
                name = "%s_%s%s" % (command, "sealed_" if sealed else "", kind)

                def test(self, name=name, command=command, sealed=sealed):
                    self.judge(name, command, sealed)

                test.__doc__ = "%s `%s`%s" % (made.SHOWS, command, " in a group" * sealed)
                setattr(made, "test_" + name, test)
        return made

    return with_tests


class Place:
    """A place of a kind of datagram, where keys stand: how it is measured with a part of the keys, which gives a time for each
    order that they may have, and what each run of it gave."""

    def __init__(self, name, measure):
        self.kind, self.name, self.measure = name.rpartition(", ")[0], name, measure
        self.runs = {part: [] for part in PARTS}

    def take(self):
        for part in PARTS:
            self.runs[part].append(self.measure(part))

    def times(self, part):
        """What each order takes with a part of the keys: of two or three runs the least, and of more the second. Where a host
        takes processors for others, a time may be counted too long, and a later one too short."""
        return [sorted(times)[len(times) // 4] for times in zip(*self.runs[part])]

    def whole(self):
        return max(self.times(1))

    def dearest(self):
        """Which order is the dearest."""
        return self.times(1).index(self.whole())

    def most(self):
        """How many times a plain one it may take."""
        return ASKED if self.name.startswith(("an answer with a wrong tag", "an answer, ")) else UNASKED

    def compared(self, places):
        """How many times as long as a quarter of the keys all of them take, and as all in the cheapest place of its kind: of
        the orders those that show the most."""
        others = [other.times(1) for other in places if other.kind == self.kind]
        quarter = max(all_keys / some for all_keys, some in zip(self.times(1), self.times(4)))
        return quarter, max(here / min(there) for here, *there in zip(self.times(1), *others))

    def wrong_with(self, places):
        """What is wrong with what it takes, beside fewer keys and beside other places of its kind."""
        quarter, other = self.compared(places)
        if quarter > MOST:
            return "%s: four times the keys take %.1f times as long" % (self.name, quarter)
        if other > OTHER:
            return "%s: it takes %.1f times what it takes in another place" % (self.name, other)
        orders = self.times(1)
        if len(orders) > 1 and orders[FALLING] > NESTED * orders[ASCENDING]:
            times = orders[FALLING] / orders[ASCENDING]
            return "%s: dictionaries one in another take %.1f times as long if their keys fall" % (self.name, times)
        return None


def measured(places):
    """What is wrong, once all places were measured often enough."""
    left = places
    for runs in range(1, AGAIN + 1):
        for place in left:
            place.take()
        if runs >= FEW:
            left = [place for place in places if place.wrong_with(places)]
            if not left:
                break
            left += [min(places, key=Place.whole)]
    return [wrong for place in places if (wrong := place.wrong_with(places))]


def judged(name, places, beside):
    """What is wrong, and prints the row of the dearest, of which `beside` gives a time of a plain one and one of itself."""
    wrong = measured(places)
    dearest = max(places, key=Place.whole)
    plain, dear = least_times(dearest, beside)
    if dear > dearest.most() * plain:
        wrong.append("%s: it takes %.1f times a plain one" % (dearest.name, dear / plain))
    steps = [1e6 * dearest.times(part)[dearest.dearest()] for part in PARTS]
    shown = (name, dearest.name, *steps, 1e6 * dear, 1e6 * plain, dear / plain)
    row(HEADING, "| %s | %s | %.1f, %.1f | %.1f | %.1f | %.1f |" % shown)
    return wrong


def least_times(place, beside):
    """The pair of times, of a plain one and of a dear one, whose quotient is the least of some tries."""
    best = None
    for _ in range(TRIES):
        pair = beside(place)
        best = pair if best is None or pair[1] / pair[0] < best[1] / best[0] else best
        if best[1] <= place.most() * best[0] / 2:
            break
    return best


class Strays:
    """The datagrams that anybody may send to a command, and the node that is sent them, made anew where its lookups would soon be
    over."""

    def __init__(self, command, sealed):
        self.command, self.sealed, self.node = command, sealed, None

    def places(self):
        return [Place(name, lambda part, name=name: self.takes(name, part)) for name in self.ones()]

    def ones(self):
        if self.node is None or time.monotonic() > self.began + ANEW:
            self.close()
            self.made, self.began = {}, time.monotonic()
            self.node = Measured(self.command, self.sealed)
            for name, make, plain, host in strays(self.node, self.sealed):
                self.made[name] = {part: within(make, part) for part in PARTS}, plain_ones(make, plain), host
        return self.made

    def takes(self, name, part):
        return [self.usual(name, part, at) for at in range(len(ORDERS))]

    def usual(self, name, part, at):
        ones, _, host = self.ones()[name]
        return self.node.usual(ones[part][at], host)

    def beside(self, place):
        ones, plain, host = self.ones()[place.name]
        at = place.dearest()
        return self.node.alone([plain[at], ones[1][at]], host)

    def close(self):
        if self.node:
            self.node.close()


@second_try(BUSY)
@for_each(COMMANDS, "strays")
class WhatAnybodyMaySend(ProgramTest):
    """Datagrams that nobody asked for, and that cost more than their bytes."""

    SHOWS = "A stray datagram whose keys cost more by their number, their order or their place, sent to"

    def judge(self, name, command, sealed):
        ones = self.closed_at_the_end(Strays(command, sealed))
        wrong = judged(name, ones.places(), ones.beside)
        self.assertFalse(wrong, some_of(wrong))


class Answers:
    """What those whom a command asks answer, with the tag of the group or without."""

    def __init__(self, command, sealed):
        self.command, self.sealed = command, sealed

    def places(self):
        return [Place("an answer, " + name, lambda part, name=name: [self.walk(name, part)]) for name in REPLY_PLACES]

    def beside(self, place):
        name = place.name.rpartition(", ")[2]
        return self.walk("plain", 1, name), min(self.walk(name, 1), place.whole())

    def make(self, place, fill, ascending, *more):
        return tagged(place, fill, ascending, *more) if self.sealed else saying(place, fill, *more)

    def fillings(self, place, part, as_long_as):
        """What stands in the place, falling and ascending; of a plain one, which is as long as one with keys in the other place, a
        text."""
        frame = bytes(4), OWN, b"5:nodes26:" + bytes(26) + b"5:token8:xxxxxxxx"
        room = LONGEST - len(self.make(as_long_as or place, b"", b"", *frame))
        some = fills(room // part)
        if as_long_as:
            plain = len(self.make("plain", b"x" * 3000, b"x" * 3000, *frame)) - 3000
            some = [(b"x" * (len(fill) + LONGEST - room - plain),) * 2 for fill, _ in some]
        return some

    def walk(self, place, part, as_long_as=None):
        """The processor time for each answer of a whole run, its start with it."""
        some = self.fillings(place, part, as_long_as)
        finds, paths, steps = (FINDS, 1, STEPS // 3) if self.command == "node" else (1, 8, STEPS)
        count = finds * paths * steps
        says = lambda number, *more: self.make(place, *some[number % len(some)], *more)
        words = [self.command, "--own", OWN.hex(), "--paths", str(paths), "--alpha", "1", "--timeout", "60000"]
        words += ["--group", KEY.hex()] if self.sealed else []
        with closing(Walk(bytes.fromhex(TARGETS[self.command]), steps, says)) as crowd:
            if self.command == "node":
                text, last = crowd.lines(paths) + find(bytes(20)) * finds, "received %d replied 0" % count
                return run_of([program.path(), *words], text, last) / count
            words += WORDS[self.command][:2]
            return run_of([program.path(), *words], crowd.lines(paths), "asked %d failed 0 turned 0" % count, True) / count


@second_try(BUSY)
@for_each(TARGETS, "answers")
class WhatWasAskedFor(ProgramTest):
    """Answers that cost more than their bytes."""

    SHOWS = "An answer whose keys cost more by their number, their order or their place, to"

    def judge(self, name, command, sealed):
        ones = Answers(command, sealed)
        wrong = judged(name, ones.places(), ones.beside)
        self.assertFalse(wrong, some_of(wrong))


@second_try(BUSY)
@for_each(COMMANDS, "memory")
class WhatIsAllocated(ProgramTest):
    """Memory that datagrams take, which is counted: an answer to nobody takes none, and a query no more with all of the keys than
    with half of them. Only an answer to an open query takes more, since its tag is that of its written form."""

    HEADING = "| Case | Datagrams | That which takes the most | Allocations, bytes |"
    SHOWS = "A datagram that is copied or written before anything shows that it is wanted, sent to"

    def judge(self, name, command, sealed):
        counts = self.closed_at_the_end(Counts())
        node = self.closed_at_the_end(Measured(command, sealed, environment=counts.environment))
        wrong, most, tried = [], (0, 0, ""), 0
        for kind, make, _, host in strays(node, sealed):
            if kind.startswith("an answer with a wrong tag"):
                continue
            half, whole = ([counts.taken(node, one, host) for one in within(make, part)] for part in (2, 1))
            allowed = [(0, 0)] * len(half) if kind.startswith("an answer") else half
            taken = [here for here, may in zip(whole, allowed) if any(map(gt, here, may))]
            wrong += ["%s: %d allocations, %d bytes" % (kind, *here) for here in taken]
            most, tried = max(most, *((*here, kind) for here in whole)), tried + len(whole)
        row(self.HEADING, "| %s | %d | %s | %d, %d |" % (name, tried, most[2], *most[:2]))
        self.assertFalse(wrong, some_of(wrong))
