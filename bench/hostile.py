"""Hostile nodes of a script's own, which real processes meet on loopback.

It needs Python 3 on Linux and nothing else."""

import heapq
import os
import select
import socket
import sys
import threading
import time

ROOT = os.path.dirname(os.path.dirname(os.path.realpath(__file__)))
sys.path[:0] = [os.path.join(ROOT, "bench"), os.path.join(ROOT, "tests")]

from first_contact import named_by  # noqa: E402
from shared.messages import bdecode, bencode, compact, distance  # noqa: E402

NAMED = 16


def beside(key, number):
    """An identifier whose distance to the key is that number."""
    return (int.from_bytes(key, "big") ^ number).to_bytes(20, "big")


class Hostile:
    """Nodes on a socket each, at some hosts in turn, answered by one thread so many seconds after each query."""

    wait = 0.0

    def __init__(self, hosts, names):
        self.names = {}
        for place, name in enumerate(names):
            own = socket.socket(socket.AF_INET, socket.SOCK_DGRAM)
            own.bind((hosts[place % len(hosts)], 0))
            own.setblocking(False)
            self.names[own] = name
        self.contacts = {name: own.getsockname() for own, name in self.names.items()}
        self.due = []
        self.going = True
        self.thread = threading.Thread(target=self.listen, daemon=True)
        self.thread.start()

    def nodes(self, target):
        """What it names: its own nodes, nearest first."""
        closest = sorted(self.contacts, key=lambda name: distance(name, target))
        return [(name, self.contacts[name]) for name in closest[:NAMED]]

    def answer(self, own, asked):
        target = asked[b"a"].get(b"target") or asked[b"a"].get(b"info_hash")
        answer = {b"id": self.names[own], b"token": b"hostile"}
        if target:
            answer[b"nodes"] = b"".join(name + compact(*address) for name, address in self.nodes(target))
        return answer

    def hear(self, own):
        """Reads a query, whose answer is due after the wait."""
        data, source = own.recvfrom(65536)
        asked = bdecode(data)
        if asked.get(b"y") == b"q":
            reply = bencode({b"t": asked[b"t"], b"y": b"r", b"r": self.answer(own, asked)})
            heapq.heappush(self.due, (time.monotonic() + self.wait, own.fileno(), reply, source))

    def send_due(self):
        sockets = {own.fileno(): own for own in self.names}
        while self.due and self.due[0][0] <= time.monotonic():
            _, number, reply, source = heapq.heappop(self.due)
            sockets[number].sendto(reply, source)

    def listen(self):
        while self.going:
            until = min(0.1, max(0.0, self.due[0][0] - time.monotonic())) if self.due else 0.1
            for own in select.select(list(self.names), [], [], until)[0]:
                try:
                    self.hear(own)
                except (OSError, ValueError, KeyError, TypeError, AttributeError):
                    continue
            self.send_due()

    def close(self):
        self.going = False
        self.thread.join()
        for own in self.names:
            own.close()


class FirstContact(Hostile):
    """A hostile first contact, `leader`, and its own nodes next to the key, at a host each."""

    def __init__(self, hosts, leader, key, manner, honest):
        own = [beside(key, place + 1) for place in range(manner.own)]
        closest = sorted(honest, key=lambda name: distance(name, key))
        self.leader, self.wait, self.honest = leader, manner.wait / 1000, honest
        self.named = named_by(manner, own, closest)
        super().__init__(hosts, [leader, *own])

    def nodes(self, target):
        return [(name, self.contacts.get(name) or self.honest[name]) for name in self.named]
