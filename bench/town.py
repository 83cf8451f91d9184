"""Nodes of `serve` on loopback, each behind a relay that hands on what it is asked a while later, as over a network, and told of
the others; and commands that begin with seven of them and a hostile first contact.

It needs Python 3 on Linux and nothing else."""

import hashlib
import os
import sys
import time

ROOT = os.path.dirname(os.path.dirname(os.path.realpath(__file__)))
sys.path[:0] = [os.path.join(ROOT, place) for place in ("bench", "interop", "tests")]

from hostile import FirstContact  # noqa: E402
from loopback import Ours, Refusal, run_ours  # noqa: E402
from relays import Relays  # noqa: E402
from shared.messages import bencode, contact_line, distance  # noqa: E402
from shared.peers import Asker  # noqa: E402

SEEDS, KEPT = 8, 8
SOONEST, LATE = 20, 199  # milliseconds that relays wait


def drawn_name(draws):
    return draws.getrandbits(160).to_bytes(20, "big")


class Town:
    """So many nodes, whose relays wait `late` milliseconds at most."""

    def __init__(self, program, network, many, late, draws):
        self.program, self.network, self.late = program, network, late
        own = {drawn_name(draws): (network.host(60 + place), 7000) for place in range(many)}
        self.addresses, self.contacts = own, {name: (host, 7001) for name, (host, _) in own.items()}
        lines = self.lines(self.contacts.items())
        self.nodes = [Ours(program, address, lines, name) for name, address in own.items()]
        self.relays = Relays([(self.contacts[name], own[name], self.wait(draws)) for name in own])
        self.asker = Asker(network.host(2))

    @staticmethod
    def lines(contacts):
        return "".join(contact_line(name, address) for name, address in contacts)

    def wait(self, draws):
        return draws.randint(min(SOONEST, self.late), self.late) / 1000

    def by_distance(self, key):
        return sorted(self.addresses, key=lambda name: distance(name, key))

    def closest(self, key):
        return [self.addresses[name] for name in self.by_distance(key)[:KEPT]]

    def keep(self, value):
        """Puts the value at the nodes closest to its key, and gives the key."""
        key = hashlib.sha1(bencode(value)).digest()
        for address in self.closest(key):
            token = self.asker.answer(address, b"get", {b"target": key})[b"token"]
            if not self.asker.answer(address, b"put", {b"token": token, b"v": value}):
                raise Refusal("a node of `serve` doesn't keep a value")
        return key

    def have(self, key):
        """How many of the nodes closest to a key have its value."""
        return sum(b"v" in self.asker.answer(address, b"get", {b"target": key}) for address in self.closest(key))

    def run(self, words, key, manner, draws):
        """What a command prints, word by word, that begins with the hostile first contact and with nodes that aren't among the
        closest to the key."""
        hosts = [self.network.host(130 + place) for place in range(1 + manner.own)]
        hostile = FirstContact(hosts, drawn_name(draws), key, manner, self.contacts)
        seeds = [(name, self.contacts[name]) for name in draws.sample(self.by_distance(key)[KEPT:], SEEDS - 1)]
        seeds.insert(draws.randrange(SEEDS), (hostile.leader, hostile.contacts[hostile.leader]))
        out, status, _ = run_ours(self.program, words, self.lines(seeds))
        hostile.close()
        if status:
            raise Refusal("`%s` ended with status %d: %s" % (" ".join(words), status, out.strip()))
        time.sleep(0.1 + self.late / 1000)  # until the relays handed on what was sent last
        return out.split()

    def stop(self):
        self.asker.close()
        self.relays.close()
        for node in self.nodes:
            node.process.stop()
