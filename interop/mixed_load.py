"""What bench/soak, bench/keep and interop/node ask one node that serves: mixed queries, of which every tenth datagram is damaged, and
what each answer should be.

It needs Python 3 on Linux and nothing else."""

import collections
import hashlib
import os
import random
import select
import socket
import sys
import time

sys.path.insert(0, os.path.join(os.path.dirname(os.path.dirname(os.path.realpath(__file__))), "tests"))

from shared import chosen_datagrams as chosen  # noqa: E402
from shared.messages import address_of, bdecode, bencode, compact, contact_line, nodes_of, query  # noqa: E402

ASKERS = 8  # sockets, at addresses of their own
WATCHED, WATCHED_PEERS = 200, 12  # keys whose peers are held against what get_peers gives, and peers of each
MOST_PEERS, OLD = 65_536, 1_800  # peers that a node holds, and the seconds after which one is old
WAIT = 10.0
SHOWN = 10


class Source:
    """A socket that asks. The identifiers that it asks under are told from its number and theirs."""

    def __init__(self, host, number):
        self.socket = socket.socket(socket.AF_INET, socket.SOCK_DGRAM)
        self.socket.setsockopt(socket.SOL_SOCKET, socket.SO_RCVBUF, 1 << 22)
        self.socket.bind((host, 0))
        self.socket.setblocking(False)
        self.address, self.number, self.told, self.token, self.made = self.socket.getsockname(), number, 0, None, 0.0

    def identifier(self, number):
        front = hashlib.sha1(b"%d %d" % (self.number, number)).digest()[:16]
        return front + number.to_bytes(4, "big")

    def next(self):
        self.told += 1
        return self.identifier(self.told)

    def has_asked(self, name):
        number = int.from_bytes(name[16:], "big")
        return 0 < number <= self.told and name == self.identifier(number)


class Open:
    """A good query that wants its answer. `wanted` says what is wrong with an answer, or nothing."""

    __slots__ = ("kind", "sent", "datagram", "wanted", "done")

    def __init__(self, kind, datagram, wanted, done=None):
        self.kind, self.datagram, self.wanted, self.done, self.sent = kind, datagram, wanted, done, time.monotonic()


class Peers:
    """The peers that were announced, with the moments at which that was sent and answered."""

    def __init__(self):
        self.sent, self.kept = collections.defaultdict(dict), collections.OrderedDict()

    def announced(self, key, peer, moment):
        self.sent[key][peer] = moment

    def answered(self, key, peer, moment):
        self.kept[key, peer] = moment
        self.kept.move_to_end((key, peer))

    def forget(self, moment):
        while self.kept and next(iter(self.kept.values())) < moment - OLD - 60:
            (key, peer), _ = self.kept.popitem(last=False)
            if self.sent[key].get(peer, 0) < moment - OLD - 60:
                self.sent[key].pop(peer, None)
            if not self.sent[key]:
                del self.sent[key]

    def must(self, key, moment):
        """Those that a query which is sent now has to find, and is answered within a minute."""
        return {peer for peer in self.sent.get(key, ()) if self.kept.get((key, peer), 0) > moment - OLD + 60}

    def may(self, key):
        return set(self.sent.get(key, ()))


class Load:
    """The load on a node, which may name those who asked it and the contacts (identifier, address) of `known`."""

    read_only = 0.5  # the share of the good queries that say so

    def __init__(self, network, node, seed, known=()):
        self.node, self.random, self.known = node, random.Random(seed), set(known)
        self.askers = [Source(network.host(20 + number), number) for number in range(ASKERS)]
        self.noise = Source(network.host(60), 99)
        self.open, self.peers, self.counts = {}, Peers(), collections.Counter()
        self.wrong, self.late, self.sent, self.damaged, self.slowest = [], 0, 0, 0, 0.0
        self.is_full = False
        self.keys = [self.random.randbytes(20) for _ in range(WATCHED)]
        self.kinds = [self.ping] * 4 + [self.find_node] * 6 + [self.get_peers] * 5 + [self.announce] * 4 + [self.unknown]
        self.kinds += [self.wrong_token]

    # ---- the good queries

    def send(self, asker, kind, method, arguments, wanted, done=None):
        tx = (self.sent.to_bytes(6, "big") + self.random.randbytes(26))[: self.random.choice((6, 6, 6, 8, 20, 32))]
        read_only = self.random.random() < self.read_only
        name = asker.identifier(max(asker.told, 1)) if read_only else asker.next()
        datagram = query(tx, method, {b"id": name, **arguments}, read_only)
        self.sent += 1
        self.open[tx] = Open(kind, datagram, lambda message: wanted(message, tx), done)
        asker.socket.sendto(datagram, self.node.address)

    def said(self, tx, more=None):
        return {b"t": tx, b"y": b"r", b"r": {b"id": self.node.name, **(more or {})}}

    def ping(self, asker):
        self.send(asker, "ping", b"ping", {}, lambda message, tx: "" if message == self.said(tx) else "not the answer")

    def unknown(self, asker):
        method = self.random.choice((b"vote", b"gets", b"puts", b"sample_infohashes", b"x" * 40))

        def wanted(message, tx):
            return "" if message == {b"t": tx, b"y": b"e", b"e": [204, b"Method Unknown"]} else "not the error 204"

        self.send(asker, "unknown method", method, {b"target": self.random.randbytes(20)}, wanted)

    def wanting(self, arguments):
        """The arguments, now and then with a `want`: whatever it says, contacts of IPv4 are answered."""
        want = self.random.choice(([], [], [b"n4"], [b"n6"], [b"n4", b"n6"]))
        return {**arguments, b"want": want} if want else arguments

    def find_node(self, asker):
        target = self.random.randbytes(20)

        def wanted(message, tx):
            answer = message.get(b"r", {})
            if message != self.said(tx, {b"nodes": answer.get(b"nodes", b"")}):
                return "not the form of an answer"
            return self.wrong_nodes(answer, target)

        self.send(asker, "find_node", b"find_node", self.wanting({b"target": target}), wanted)

    def get_peers(self, asker):
        key = self.random.choice(self.keys) if self.random.random() < 0.7 else self.random.randbytes(20)
        must = self.peers.must(key, time.monotonic())

        def wanted(message, tx):
            answer = message.get(b"r", {})
            parts = {part: answer[part] for part in (b"nodes", b"token", b"values") if part in answer}
            if message != self.said(tx, parts) or len(answer.get(b"token", b"")) != 8:
                return "not the form of an answer"
            asker.token, asker.made = answer[b"token"], time.monotonic()
            values = [address_of(six) for six in answer.get(b"values", [])]
            order = [compact(*peer) for peer in values]
            if order != sorted(set(order)) or not must <= set(values) <= self.peers.may(key):
                return "not the peers of the key: %r, of %r" % (values, sorted(must))
            return self.wrong_nodes(answer, key)

        self.send(asker, "get_peers", b"get_peers", self.wanting({b"info_hash": key}), wanted)

    def announce(self, asker):
        if asker.token is None or time.monotonic() > asker.made + 240:
            return self.get_peers(asker)
        if self.random.random() < 0.5:
            key = self.random.choice(self.keys)
            port = 7000 + self.random.randrange(WATCHED_PEERS // 4)
        else:
            key, port = self.random.randbytes(20), self.random.randrange(1, 65_536)
        implied = self.random.random() < 0.1 and port < 7000
        peer = (asker.address[0], asker.address[1] if implied else port)
        arguments = {b"info_hash": key, b"port": port, b"token": asker.token, **({b"implied_port": 1} if implied else {})}
        self.peers.announced(key, peer, time.monotonic())

        def wanted(message, tx):
            if message == self.said(tx):
                self.peers.answered(key, peer, time.monotonic())
                return ""
            if message == {b"t": tx, b"y": b"e", b"e": [202, b"Server Error"]}:
                return self.refused(key, peer)
            return "not the answer"

        self.send(asker, "announce_peer", b"announce_peer", arguments, wanted)

    def refused(self, key, peer):
        """What is wrong where a peer found no place."""
        self.counts["announce_peer refused since full"] += 1
        held = len(self.peers.kept) + len(self.open)  # some answers may not have been read yet
        self.is_full = self.is_full or held >= MOST_PEERS
        if self.peers.kept.get((key, peer), 0) > time.monotonic() - OLD + 60:
            return "a peer that is held was refused"
        if key not in self.keys:
            del self.peers.sent[key]
        return "" if held >= MOST_PEERS else "refused where %d peers are held at most" % held

    def wrong_token(self, asker):
        arguments = {b"info_hash": self.random.choice(self.keys), b"port": 1, b"token": self.random.randbytes(8)}

        def wanted(message, tx):
            return "" if message == {b"t": tx, b"y": b"e", b"e": [203, b"Bad Token"]} else "not the error 203"

        self.send(asker, "wrong token", b"announce_peer", arguments, wanted)

    def wrong_nodes(self, answer, target):
        nodes = nodes_of(answer)
        distances = [bytes(a ^ b for a, b in zip(name, target)) for name, _ in nodes]
        if distances != sorted(set(distances)) or len(nodes) > 8:
            return "not in the order of distance, or more than eight"
        for name, address in nodes:
            if address != self.noise.address and (name, address) not in self.known and not any(
                asker.address == address and asker.has_asked(name) for asker in self.askers
            ):
                return "names %s, which didn't ask" % contact_line(name, address).strip()
        return ""

    # ---- the damaged ones

    def damage(self):
        kind = self.random.choice((b"ping", b"find_node", b"get_peers", b"announce_peer", b"other"))
        arguments = {b"id": self.noise.next(), b"target": self.random.randbytes(20), b"info_hash": self.random.randbytes(20)}
        arguments.update({b"port": 6881, b"token": self.random.randbytes(8)})  # no token of any address
        datagram = bytearray(query(self.random.randbytes(4), kind, arguments))
        draw, way = self.random.randrange, self.random.randrange(9)
        if way == 0:
            del datagram[draw(len(datagram)) :]
        elif way == 1:
            for _ in range(draw(1, 9)):
                datagram[draw(len(datagram))] ^= 1 << draw(8)
        elif way == 2:
            at = draw(len(datagram))
            datagram[at:at] = self.random.randbytes(draw(1, 30))
        elif way == 3:
            datagram = self.random.randbytes(draw(0, 400))
        elif way == 4:
            datagram = self.random.choice((b"l", b"d1:a", b"ld1:a")) * draw(1, 800)
        elif way == 5:
            datagram = datagram + b"x" * draw(4096, 9000)
        elif way == 6:
            datagram = query(self.random.randbytes(draw(33, 3000)), kind, arguments)
        elif way == 7:
            datagram = self.in_no_order()
        else:
            datagram = b"d1:ai%de1:q99999999999999999999:ping1:t2:aa1:y1:qe" % draw(1 << 70)
        self.damaged += 1
        self.noise.socket.sendto(datagram, self.node.address)

    def in_no_order(self):
        """A query, an answer to nobody or a value that is put, with keys in no order in one of its places."""
        fill, _ = self.random.choice(chosen.fills(self.random.randrange(200, 3_600)))
        name = self.noise.next()
        if self.random.random() < 0.2:
            return chosen.putting(fill, self.noise.token or self.random.randbytes(8))
        if self.random.random() < 0.5:
            method = self.random.choice((b"find_node", b"get"))
            return chosen.asking(self.random.choice(chosen.QUERY_PLACES), fill, self.random.randbytes(4), method)
        return chosen.saying(self.random.choice(chosen.REPLY_PLACES), fill, self.random.randbytes(4), name)

    # ---- going on

    def hear(self, asker):
        while True:
            try:
                data, source = asker.socket.recvfrom(65536)
            except BlockingIOError:
                return
            if source != self.node.address:
                continue  # others may ask whom the node named
            if asker is self.noise:
                self.keep_token(data)
            else:
                self.judge(data)

    def keep_token(self, data):
        """Keeps the token of an answer to a damaged query, if it is one, so that values are put by it."""
        try:
            self.noise.token = bdecode(data)[b"r"].get(b"token", self.noise.token)
        except (ValueError, KeyError, TypeError, AttributeError):
            pass

    def judge(self, data):
        try:
            message = bdecode(data)
            one = self.open.pop(message[b"t"], None)
        except (ValueError, KeyError, TypeError):
            return self.is_wrong("an answer", b"", "it is no message", data)
        if one is None:
            return self.is_wrong("an answer", b"", "nobody asked for it, or it came twice or late", data)
        self.counts[one.kind] += 1
        self.slowest = max(self.slowest, time.monotonic() - one.sent)
        why = one.wanted(message) or ("" if bencode(message) == data else "not the written form")
        if why:
            self.is_wrong(one.kind, one.datagram, why, data)

    def is_wrong(self, kind, datagram, why, data):
        self.wrong.append(kind)
        if len(self.wrong) <= SHOWN:
            print("wrong: %s: %s\n  asked    %s\n  answered %s" % (kind, why, datagram.hex(), data.hex()), flush=True)

    def overdue(self):
        now = time.monotonic()
        for tx in [tx for tx, one in self.open.items() if now > one.sent + WAIT]:
            one = self.open.pop(tx)
            self.late += 1
            if self.late <= SHOWN:
                print("unanswered: %s %s" % (one.kind, one.datagram.hex()), flush=True)

    def go_on(self, width, rate, until):
        sockets = {asker.socket: asker for asker in (*self.askers, self.noise)}
        looked, began, before = 0.0, time.monotonic(), self.sent + self.damaged
        while time.monotonic() < until:
            most = float("inf") if rate is None else before + rate * (time.monotonic() - began)
            while len(self.open) < width and self.sent + self.damaged < most:
                if (self.sent + self.damaged) % 10 == 9:
                    self.damage()
                else:
                    self.random.choice(self.kinds)(self.random.choice(self.askers))
            for ready in select.select(list(sockets), [], [], 0.1 if rate is None else 0.01)[0]:
                self.hear(sockets[ready])
            if time.monotonic() > looked + 0.5:
                looked = time.monotonic()
                self.overdue()
                self.peers.forget(looked)

    def finish(self):
        until = time.monotonic() + WAIT
        while self.open and time.monotonic() < until:
            for asker in self.askers:
                self.hear(asker)
            time.sleep(0.01)
        self.late += len(self.open)
