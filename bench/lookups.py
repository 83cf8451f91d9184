"""A second simulator of lookups on disjoint paths, written from docs/RULES.md and apart from the crates: the words that a
seed draws, the network that crates/path_study makes of them, and lookups in it. The programs beside it measure by it, and
bench/second_lookup lays it beside the product's own lookup. It needs Python 3 and nothing else.

A contact of a lookup is the distance of its identifier to the target, a number: no two contacts of one lookup have the
same."""

import bisect
import collections
import hashlib
import heapq
import math
import struct

TIMEOUT = 2_000  # milliseconds that a node has to answer
REPORTS = 16  # contacts of an answer that a lookup reads
CAPACITY = 256  # contacts that a path may have
ROUND = 32  # receives of a round
KNOWN = 8  # nodes of each of its buckets that a node knows
SIXTEENS = 4  # of hostile nodes, one of which a hostile node names where they scatter
ATTACKS = ("misroute", "silent", "dead", "scatter")

# ------------------------------------------------------------------------------------------------------- drawn words


def quarter(lines, a, b, c, d):
    for left, right, far, by in ((a, b, d, 16), (c, d, b, 12), (a, b, d, 8), (c, d, b, 7)):
        lines.append("x%d=(x%d+x%d)&M" % (left, left, right))
        lines.append("x%d^=x%d" % (far, left))
        lines.append("x%d=((x%d<<%d)|(x%d>>%d))&M" % (far, far, by, far, 32 - by))


def block_maker():
    """A function of the sixteen words that ChaCha20 (RFC 8439) begins a block with, made without loops so that it is quick."""
    lines = []
    for a, b, c, d in ((0, 4, 8, 12), (1, 5, 9, 13), (2, 6, 10, 14), (3, 7, 11, 15)):
        quarter(lines, a, b, c, d)
    for a, b, c, d in ((0, 5, 10, 15), (1, 6, 11, 12), (2, 7, 8, 13), (3, 4, 9, 14)):
        quarter(lines, a, b, c, d)
    names = ["x%d" % i for i in range(16)]
    text = ["def block(start):", " M=0xffffffff", " %s=start" % ",".join(names), " for _ in range(10):"]
    text += ["  " + line for line in lines]
    text += [" return [%s]" % ",".join("(x%d+start[%d])&M" % (i, i) for i in range(16))]
    made = {}
    exec("\n".join(text), made)
    return made["block"]


block = block_maker()


class Draws:
    """The words of a seed, one after the other: the key stream of ChaCha20 with a block number of 64 bits from 0 on."""

    def __init__(self, seed):
        self.key = struct.unpack("<8I", seed)
        self.number = 0
        self.words = []

    def word(self):
        if not self.words:
            number = (self.number & 0xFFFFFFFF, self.number >> 32, 0, 0)
            self.words = block((0x61707865, 0x3320646E, 0x79622D32, 0x6B206574) + self.key + number)
            self.words.reverse()
            self.number += 1
        return self.words.pop()

    def below(self, count):
        return self.word() % count

    def identifier(self):
        return int.from_bytes(struct.pack("<5I", *[self.word() for _ in range(5)]), "big")

    def some_below(self, count, wanted):
        """So many different numbers below `count`, or all (Floyd's algorithm: Bentley and Floyd, 1987)."""
        if count <= wanted:
            return list(range(count))
        chosen = []
        for last in range(count - wanted, count):
            drawn = self.below(last + 1)
            chosen.append(last if drawn in chosen else drawn)
        return chosen


# --------------------------------------------------------------------------------------------------------- the network


class Network:
    """Nodes in the order of their identifiers, whom each knows, how long each takes to answer, and in which order they turn
    hostile: at a share of s in a hundred the first s hundredths of `turning`."""

    def __init__(self, draws, count):
        self.ids = sorted(draws.identifier() for _ in range(count))
        self.number = {identifier: number for number, identifier in enumerate(self.ids)}
        self.delays = [20 + draws.below(180) for _ in range(count)]
        # The hostile flags stand in front and are shuffled, so the place from which a node's flag came says when it turns.
        came = list(range(count))
        for at in range(count):
            other = at + draws.below(count - at)
            came[at], came[other] = came[other], came[at]
        self.came = came
        self.known = [self.buckets(draws, identifier) for identifier in self.ids]

    def buckets(self, draws, own):
        """Of each bucket, from the farthest on, up to eight nodes."""
        low, high, known = 0, len(self.ids), []
        for bit in range(160):
            if high - low <= 1:
                break
            # The nodes from `low` to `high` share `bit` leading bits with the node's own.
            middle = bisect.bisect_left(self.ids, (own >> (160 - bit) << 1 | 1) << (159 - bit), low, high)
            if own >> (159 - bit) & 1:
                bucket, low = (low, middle), middle
            else:
                bucket, high = (middle, high), middle
            places = draws.some_below(bucket[1] - bucket[0], KNOWN)
            known.append([self.ids[bucket[0] + place] for place in places])
        return known

    def hostile(self, share):
        count = len(self.ids) * share // 100
        return [place < count for place in self.came]


def nearest(count, known, own, target):
    """The distances of the `count` closest to the target of those that a node knows, nearest first. Of its buckets that of the
    target is closest, then come those with more bits of its own, and then each with fewer."""
    shared = 160 - (own ^ target).bit_length()
    found = []
    if shared < len(known):
        found = sorted([identifier ^ target for identifier in known[shared]])
        if len(found) < count:
            found += sorted([identifier ^ target for bucket in known[shared + 1 :] for identifier in bucket])
    for bucket in reversed(known[:shared]):
        if len(found) >= count:
            break
        found += sorted([identifier ^ target for identifier in bucket])
    return found[:count]


class Field:
    """What a lookup of one target meets at one share of hostile nodes under one attack."""

    def __init__(self, network, target, k, hostile, attack, answers):
        self.network, self.target, self.k = network, target, k
        self.hostile, self.attack, self.answers = hostile, attack, answers
        self.snare = []
        if attack in ("misroute", "scatter"):
            traitors = [identifier ^ target for identifier, is_hostile in zip(network.ids, hostile) if is_hostile]
            self.snare = heapq.nsmallest(REPORTS * (SIXTEENS if attack == "scatter" else 1), traitors)

    def answer(self, contact):
        """After how many milliseconds a contact answers, and whom it names; None where it answers nothing."""
        number = self.network.number.get(contact ^ self.target)
        if number is None:
            return None
        if not self.hostile[number]:
            named = self.answers.get(number)
            if named is None:
                network = self.network
                named = nearest(self.k, network.known[number], network.ids[number], self.target)[:REPORTS]
                self.answers[number] = named
        elif self.attack == "silent":
            return None
        elif self.attack == "misroute":
            named = self.snare
        elif self.attack == "scatter":
            place = number % SIXTEENS * REPORTS
            named = self.snare[place : place + REPORTS]
        else:
            named = [number * REPORTS + at for at in range(1, REPORTS + 1)]
        return self.network.delays[number], named

    def misleads(self, contact):
        number = self.network.number.get(contact ^ self.target)
        return number is None or self.hostile[number]


# ------------------------------------------------------------------------------------------------------------ a lookup

FRESH, OPEN, ANSWERED, FAILED = range(4)


def is_among(ordered, contact):
    place = bisect.bisect_left(ordered, contact)
    return place < len(ordered) and ordered[place] == contact


class Path:
    """A path's contacts that didn't fail and that no other path asked, nearest first; how many it had, how many of its queries
    are open, and what its answers named that is not settled."""

    __slots__ = ("alive", "count", "open", "heard", "changed")

    def __init__(self):
        self.alive, self.count, self.open, self.heard, self.changed = [], 0, 0, [], True


class Lookup:
    """A lookup from these seeds, which are distances, on so many disjoint paths. A contact is a path's, so that no other takes it,
    once it is named to the path, or, if the claim is "asked", once the path asks it. `answered` has who answered, `asked` counts
    the queries, `hostile` those to hostile nodes and to contacts that they invented, and `moment` says when it ended."""

    def __init__(self, field, own, seeds, k, paths, alpha, capacity=CAPACITY, claim="named"):
        self.field, self.k, self.alpha, self.capacity = field, k, alpha, capacity
        self.is_shared = claim == "asked" and paths > 1  # whether a contact may be on the lists of several paths
        self.paths = [Path() for _ in range(paths)]
        self.states = {own: FAILED}  # so that no path takes it
        self.answered = set()
        self.asked = self.hostile = self.open = 0
        self.moment, self.waiting, self.deadlines = 0, [], collections.deque()
        for rank, seed in enumerate(sorted(seeds)):
            self.take(self.paths[rank % paths], seed)
        while self.ask_all():
            self.receive_round()
            self.settle_all()

    def take(self, path, contact):
        self.states[contact] = FRESH
        bisect.insort(path.alive, contact)
        path.count += 1

    def may_ask(self, path):
        """The closest contact that was never asked among the k closest of the path's that didn't fail, while fewer than
        alpha of its queries are open."""
        if path.open < self.alpha:
            states = self.states
            for contact in path.alive[: self.k]:
                if states[contact] == FRESH:
                    return contact
        return None

    def ask_all(self):
        """Asks all that the paths may ask, path by path; whether a query is open then. A path on which nothing came and
        nothing was lost has nothing new to ask."""
        for path in self.paths:
            if path.changed:
                path.changed = False
                while (contact := self.may_ask(path)) is not None:
                    self.ask(path, contact)
        return self.open > 0

    def ask(self, path, contact):
        self.states[contact] = OPEN
        path.open += 1
        self.open += 1
        self.asked += 1
        self.hostile += self.field.misleads(contact)
        if self.is_shared:
            self.lend(path, contact)
        self.deadlines.append((self.moment + TIMEOUT, contact, path))
        answer = self.field.answer(contact)
        if answer is not None:
            heapq.heappush(self.waiting, (self.moment + answer[0], self.asked, contact, path, answer[1]))

    def lend(self, asker, contact):
        """Takes a contact that a path asks from the lists of the others. None of them has something new to ask by that: where it
        was among the k closest of another, that one has as many open as it may."""
        for path in self.paths:
            if path is not asker and is_among(path.alive, contact):
                del path.alive[bisect.bisect_left(path.alive, contact)]

    def end(self, path, contact, state):
        self.states[contact] = state
        path.open -= 1
        self.open -= 1
        path.changed = True

    def expire(self):
        """Loses the queries whose deadline has come: they have one timeout, so the oldest are due first."""
        deadlines = self.deadlines
        while deadlines and (deadlines[0][0] <= self.moment or self.states[deadlines[0][1]] != OPEN):
            _, contact, path = deadlines.popleft()
            if self.states[contact] == OPEN:
                self.end(path, contact, FAILED)
                del path.alive[bisect.bisect_left(path.alive, contact)]

    def receive(self, until):
        """One receive: the answer that comes first, where it comes by then; whether one did."""
        came = bool(self.waiting) and self.waiting[0][0] <= until
        if came:
            at, _, contact, path, named = heapq.heappop(self.waiting)
            self.moment = max(self.moment, at)
            if self.states[contact] == OPEN:
                self.end(path, contact, ANSWERED)
                self.answered.add(contact)
                path.heard += named
        else:
            self.moment = max(self.moment, until)
        self.expire()
        return came

    def receive_round(self):
        """A receive that waits until the earliest deadline, and further ones that wait for nothing."""
        self.expire()
        came = self.receive(self.deadlines[0][0])
        receives = 1
        while came and receives < ROUND and self.open:
            came = self.receive(self.moment)
            receives += 1

    def is_held(self, path, contact):
        """Whether a contact that the path is told of is a path's already."""
        state = self.states.get(contact)
        if state == FRESH and self.is_shared:
            return is_among(path.alive, contact)
        return state is not None

    def settle_all(self):
        for path in self.paths:
            if path.heard:
                for contact in path.heard:
                    if not self.is_held(path, contact) and path.count < self.capacity:
                        self.take(path, contact)
                path.heard = []

    def found(self, count):
        """The closest of all that the paths have and that didn't fail, each once."""
        return heapq.nsmallest(count, {contact for path in self.paths for contact in path.alive})

    def spread(self, count):
        """The closest of each path that didn't fail: who is told by `--spread yes`."""
        return {contact for path in self.paths for contact in path.alive[:count]}


# ------------------------------------------------------------------------------------------------- ways of looking up


class Way:
    """How one who looks a target up spends his queries. `united` has who is found, nearest first, and `spread` the k closest of
    each path."""

    def __init__(self, lookups, k):
        self.spread = set().union(*[lookup.spread(k) for lookup in lookups])
        self.united = sorted({contact for lookup in lookups for contact in lookup.found(k)})[:k]
        self.answered = set().union(*[lookup.answered for lookup in lookups])
        self.asked = sum(lookup.asked for lookup in lookups)
        self.hostile = sum(lookup.hostile for lookup in lookups)
        self.time = max(lookup.moment for lookup in lookups)


def disjoint(field, own, seeds, k, paths, alpha, claim="named"):
    """One lookup on so many disjoint paths."""
    return Way([Lookup(field, own, seeds, k, paths, alpha, claim=claim)], k)


def wide(field, own, seeds, k, look, alpha, capacity=CAPACITY):
    """One path that goes on until the `look` closest have answered; of these the k closest count."""
    return Way([Lookup(field, own, seeds, look, 1, alpha, capacity)], k)


def apart(field, own, seeds, k, paths, alpha):
    """So many lookups on one path each that know nothing of one another. Each begins with the seeds that a path would."""
    seeds = sorted(seeds)
    return Way([Lookup(field, own, seeds[path::paths], k, 1, alpha) for path in range(paths)], k)


# ----------------------------------------------------------------------------------------------------------- intervals

STUDENT = {1: 12.706, 2: 4.303, 3: 3.182, 4: 2.776, 5: 2.571, 6: 2.447, 7: 2.365, 8: 2.306, 9: 2.262}


def mean_and_reach(values):
    """The mean of what several networks gave, and how far its 95 % interval reaches (Student, 1908)."""
    mean = math.fsum(values) / len(values)
    if len(values) < 2:
        return mean, 0.0
    spread = math.fsum((value - mean) ** 2 for value in values) / (len(values) - 1)
    return mean, STUDENT[len(values) - 1] * math.sqrt(spread / len(values))


def seed_of(number):
    """The seed of the network with that number: its byte, 32 times."""
    return bytes([number]) * 32


def drawn_bytes(count, *words):
    """Bytes that are drawn by words (SHAKE-128, FIPS 202)."""
    return hashlib.shake_128(repr(words).encode()).digest(count)
