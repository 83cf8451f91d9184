"""A hostile first contact that takes honest nodes from other paths by naming them, as the programs beside it try it: whom it
names and when, and what a simulated lookup meets then.

One first contact of a lookup is hostile. It and live nodes of its own, which are next to the key, answer each query with the
same list: those of its own, and of the honest nodes those that are closest to the key. Where a name is a claim (`--claim named`)
the honest ones are on its path from then on, and on no other. Its path never asks them, since its own nodes are closer.

It needs Python 3 and nothing else."""

import collections

# How many nodes of its own it names, how many honest ones, and after how many milliseconds it answers.
Manner = collections.namedtuple("Manner", "own honest wait")
MANNERS = {"fast": Manner(8, 8, 0), "slow": Manner(8, 8, 300), "one honest": Manner(7, 1, 0)}
CLAIMS = ("named", "asked")


def named_by(manner, own, honest):
    """Whom it names, of its own nodes and of the honest ones, both nearest first."""
    return [*own[: manner.own], *honest[: manner.honest]]


class Led:
    """What a simulated lookup meets in a field where all are honest but the first contact `leader`, and its own nodes. Contacts are
    their distances to the target, as in lookups.py."""

    def __init__(self, field, leader, manner, honest):
        self.field, self.leader, self.wait = field, leader, manner.wait
        own = list(range(1, manner.own + 1))
        self.named = named_by(manner, own, honest)
        self.liars = {leader, *own}

    def answer(self, contact):
        return (self.wait, self.named) if contact in self.liars else self.field.answer(contact)

    def misleads(self, contact):
        return contact in self.liars
