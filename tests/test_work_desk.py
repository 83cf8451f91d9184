"""Every order in which the steps of the two sides of a desk may come (crates/work_desk), from the source as it stands.

One thread gives rounds of jobs, as many as it likes, and closes the desk; the other helps. Each access to the word or to the
board is one step; a sleeper may wake for no reason, as with a futex. All states that these steps lead to are tried, so what is
shown holds of any number of rounds. A third thread, with a desk of its own, is tried in the same way. Each wrong body below
differs from the source in one place, and is refused."""

import unittest
from collections import defaultdict
from pathlib import Path

from shared.program import ROOT
from shared.stepwise import Job, Machine, Unread, stand

NAMES = "waiting.rt", "laying.rt", "helping.rt", "posting.rt"
TEXTS = [(Path(ROOT) / "crates/work_desk/src" / name).read_text() for name in NAMES]
# How often a side looks before it sleeps, and how often it lets others go first: any number shows the same orders.
FEWER = {"LOOKS": 1, "YIELDS": 1}
STATES = "ABSENT READY ASLEEP ORDERED AWAITED DONE CLOSED".split()
# What changes the word, by who does it.
GIVER, HELPER = 0, 1
CHANGES = {
    GIVER: """ABSENT CLOSED, READY ORDERED, READY CLOSED, ASLEEP ORDERED, ASLEEP CLOSED, ORDERED READY, ORDERED AWAITED,
        ORDERED CLOSED, DONE ORDERED, DONE CLOSED""",
    HELPER: "ABSENT READY, READY ASLEEP, ORDERED DONE, AWAITED DONE, DONE ASLEEP",
}
SLEEPS = "a thread sleeps for good"
SPINS = "a thread spins"
WAITS = "an order waits at a sleeper"
LEAVES = "a helper leaves before the desk is closed"
NEVER = "what has to happen never does"
HAS_TO_HAPPEN = {(who, what) for who in (GIVER, HELPER) for what in ("work", "asleep", "finished")}
# Steps that may take long: a job, and what the giver does between two rounds.
LONG = ("work", "choose", "finished")
ENDS = ("finished", "wrong")


def opened(machine, desks):
    """The two sides of each desk."""
    machine.first = []
    pairs = []
    for _ in range(desks):
        opening = machine.call(None, "open", [()])
        try:
            raise AssertionError("a step of open: %s" % (next(opening),))
        except StopIteration as end:
            pairs.append(end.value.parts[0])
    return pairs


def giver(machine, desks):
    posts, at = [pair[0] for pair in opened(machine, desks)], 0
    while at < desks and (yield from machine.call("Vacant", "is_met", [posts[at]])):
        at += 1
    at = 0
    while True:
        jobs = yield ("choose", "jobs")
        if jobs == 0:
            break
        crew = [Job(number) for number in range(jobs)]
        yield from machine.call(None, "work_out", ["runtime", "doer", posts, crew])
        said = [(job.number, job.done) for job in crew]
        assert said == [(number, 1) for number in range(jobs)], "jobs that came back, and how often they were done: %s" % said
        assert len(posts) == desks, "a post is lost"
        del crew, said, jobs
    while at < desks:
        yield from machine.call("Vacant", "close", [posts[at]])
        at += 1


def helper(machine, desks, number):
    own = opened(machine, desks)[number][1]
    yield from machine.call("Helper", "help", [own, "runtime", "doer"])


class Side:
    """One thread: all stands that it comes to, found as they are needed. A stand is reached again by telling a new thread the
    same outcomes."""

    def __init__(self, make):
        self.make = make
        self.numbers, self.histories, self.asks, self.next = {}, [], [], {}
        self.number(())

    def number(self, history):
        thread = self.make()
        try:
            ask = thread.send(None)
            for outcome in history:
                ask = thread.send(outcome)
            key = stand(thread)
        except StopIteration:
            ask = key = ("finished",)
        except AssertionError as wrong:
            ask = key = ("wrong", str(wrong))
        if key not in self.numbers:
            self.numbers[key] = len(self.asks)
            self.histories.append(history)
            self.asks.append(ask)
        return self.numbers[key]

    def after(self, number, outcome):
        if (number, outcome) not in self.next:
            self.next[number, outcome] = self.number(self.histories[number] + (outcome,))
        return self.next[number, outcome]


class Orders:
    """All states that the steps lead to: of what is shared, of where each thread stands, and of who sleeps."""

    def __init__(self, texts, desks):
        machine = Machine(texts, FEWER)
        self.desks = desks
        self.sides = [Side(lambda: giver(machine, desks))]
        self.sides += [Side(lambda number=number: helper(machine, desks, number)) for number in range(desks)]
        opened(machine, desks)
        self.words = [at for at, value in enumerate(machine.first) if value is not None]
        self.boards = [at for at, value in enumerate(machine.first) if value is None]
        self.start = tuple(machine.first), (0,) * (desks + 1), (False,) * (desks + 1)
        self.wrong, self.changes, self.happened = {}, defaultdict(set), set()
        self.steps = {}

    def ask(self, state, who):
        return self.sides[who].asks[state[1][who]]

    def moved(self, state, who, outcome=None, shared=None):
        """The state in which one thread has gone on."""
        stands = list(state[1])
        stands[who] = self.sides[who].after(stands[who], outcome)
        asleep = state[2][:who] + (False,) + state[2][who + 1 :]
        return shared or state[0], tuple(stands), asleep

    def with_value(self, state, who, at, value):
        if at in self.words and value != state[0][at]:
            self.changes[min(who, HELPER)].add("%s %s" % (STATES[state[0][at]], STATES[value]))
        return state[0][:at] + (value,) + state[0][at + 1 :]

    def steps_of(self, state, who):
        """Where one thread may go on to."""
        name, *details = self.ask(state, who)
        if state[2][who] or name in ENDS:
            return []
        if name in ("work", "choose"):
            outcomes = {"work": [None], "is worth": [True, False], "jobs": range(self.desks + 2)}[details[0] if details else name]
            return [self.moved(state, who, outcome) for outcome in outcomes]
        at = details[0]
        seen = state[0][at]
        if name == "park" and seen & 0xFFFFFFFF == details[1]:
            return [(state[0], state[1], state[2][:who] + (True,) + state[2][who + 1 :])]
        if name == "wake":
            return self.woken(state, who, at)
        new = {"store": details[-1], "swap": details[-1], "pop": None}.get(name, seen)
        if name == "exchange" and seen == details[1]:
            new = details[2]
        if name == "push":
            new = seen or details[1]
        outcome = {"push": seen is None, "park": None, "store": None}.get(name, seen)
        return [self.moved(state, who, outcome, self.with_value(state, who, at, new))]

    def woken(self, state, who, at):
        sleepers = [other for other in range(len(self.sides)) if state[2][other] and self.ask(state, other)[1] == at]
        after = self.moved(state, who)
        return [self.moved(after, other) for other in sleepers] or [after]

    def refuse(self, what, state):
        self.wrong.setdefault(what, state)

    def look(self, state):
        """What no state may be."""
        asks = [self.ask(state, who) for who in range(len(self.sides))]
        for name, *details in asks:
            if name == "wrong":
                self.refuse(details[0], state)
        if not any(steps for steps, _ in self.steps[state].values()) and any(name not in ENDS for name, *_ in asks):
            self.refuse(SLEEPS, state)
        for number in range(self.desks):
            word, lies = state[0][self.words[number]], state[0][self.boards[number]]
            if lies and lies[1] == "Order" and state[2][number + 1] and asks[GIVER][0] in LONG:
                self.refuse(WAITS, state)
            if asks[number + 1][0] == "finished" and STATES[word] != "CLOSED":
                self.refuse(LEAVES, state)

    def try_all(self):
        waiting = [self.start]
        while waiting:
            state = waiting.pop()
            if state in self.steps:
                continue
            self.steps[state] = {}
            for who, asleep in enumerate(state[2]):
                self.happened.add((min(who, HELPER), "asleep" if asleep else self.ask(state, who)[0]))
                steps = self.steps_of(state, who)
                for_no_reason = [self.moved(state, who)] if asleep else []
                self.steps[state][who] = steps, for_no_reason
                waiting += steps + for_no_reason
            self.look(state)
        self.look_for_circles()
        if HAS_TO_HAPPEN - self.happened:
            self.refuse(NEVER, HAS_TO_HAPPEN - self.happened)
        return self

    def idle_steps(self, state):
        """Steps that neither do a job nor begin a round."""
        for who, (steps, _) in self.steps[state].items():
            if self.ask(state, who)[0] not in ("work", "choose"):
                for step in steps:
                    yield who, step

    def look_for_circles(self):
        """Whoever goes in a circle without a job spins, unless another thread is between two steps that take no time."""
        for circle in circles(self.steps, lambda state: [step for _, step in self.idle_steps(state)]):
            inside = set(circle)
            goes = {who for state in circle for who, step in self.idle_steps(state) if step in inside}
            state = circle[0]
            others = [who for who in range(len(self.sides)) if who not in goes]
            if all(state[2][who] or self.ask(state, who)[0] in LONG for who in others):
                self.refuse(SPINS, state)


def circles(states, steps_of):
    """The strongly connected components that a step leads back into (Tarjan 1972, without recursion)."""
    order, low, on_path, path = {}, {}, set(), []

    def call_of(state):
        order[state] = low[state] = len(order)
        path.append(state)
        on_path.add(state)
        return state, iter(steps_of(state))

    for first in states:
        calls = [call_of(first)] if first not in order else []
        while calls:
            state, steps = calls[-1]
            for step in steps:
                if step not in order:
                    calls.append(call_of(step))
                    break
                if step in on_path:
                    low[state] = min(low[state], order[step])
            else:
                calls.pop()
                if calls:
                    low[calls[-1][0]] = min(low[calls[-1][0]], low[state])
                if low[state] == order[state]:
                    part = [path.pop()]
                    while part[-1] != state:
                        part.append(path.pop())
                    on_path.difference_update(part)
                    if len(part) > 1 or state in steps_of(state):
                        yield part


TOLD_DONE = "if !self.change(ORDERED, DONE) && self.change(AWAITED, DONE) {"
PASSED = "if self.state.swap(next, Ordering::SeqCst) == sleeping {"
STORED = "let seen = self.state();\n        self.state.store(next, Ordering::SeqCst);\n        if seen == sleeping {"
WOKEN = "self.state.wake_one();\n        if self.state.swap(next, Ordering::SeqCst) == ABSENT {"
ENTERED = "let _ = self.state.swap(READY, Ordering::SeqCst);\n        true\n"
IS_READY = "state == READY || state == ASLEEP || state == DONE"
LAID = "Mail::Order(job))\n        {\n            Ok(()) => "
BACK = "give_back(rt, desk, token, job);\n"
WORKED = "doer.work(rt, &mut job);\n                job\n"
AGAIN = "Mail::Done(job) => { let mut job = job; doer.work(rt, &mut job); job }"
ONE = "do_one(rt, desk, token, doer);"
TWICE = "jobs that came back, and how often they were done: [(0, 2)]"
UNDONE = "jobs that came back, and how often they were done: [(0, 0)]"
# What is wrong with the body, the text that is changed, into which, and what refuses it.
WRONG = (
    ("an order doesn't wake", "pass_to(ORDERED, ASLEEP)", "pass_to(ORDERED, CLOSED)", WAITS),
    ("a done order doesn't wake", TOLD_DONE + "\n            self.state.wake_one();", TOLD_DONE, SLEEPS),
    ("closing doesn't wake", "self.pass_to(CLOSED, ASLEEP);", "self.pass_to(CLOSED, ABSENT);", SLEEPS),
    ("closing isn't told", "self.pass_to(CLOSED, ASLEEP);", "", SLEEPS),
    ("who sleeps doesn't say so", "let _ = self.change(seen, sleeping);", "", SPINS),
    ("nobody sleeps", "self.state.park(rt, (sleeping & 7) as u32);", "", SPINS),
    ("who waits for the end sleeps in another state", "(sleeping & 7)", "(sleeping & 3)", SPINS),
    ("who waits for the end sleeps as a helper", "sleep(rt, state, AWAITED)", "sleep(rt, state, ASLEEP)", SLEEPS),
    ("who waits for the end only looks", "self.sleep(rt, state, AWAITED);", "", SPINS),
    ("a helper only looks", "self.sleep(rt, state, ASLEEP);", "", SPINS),
    ("a helper takes a desk at rest for an order", "ORDERED || state == AWAITED", "ORDERED || state == READY", SPINS),
    ("a helper doesn't look whether the desk is closed", "if state == CLOSED {", "if state == ABSENT {", SLEEPS),
    ("a helper goes after one order", ONE, ONE + "\n        return;", LEAVES),
    ("a helper enters a closed desk", "self.change(ABSENT, READY)\n", ENTERED, SLEEPS),
    ("who is done opens a closed desk", TOLD_DONE, "if self.state.swap(DONE, Ordering::SeqCst) == AWAITED {", SLEEPS),
    ("a state is read and then written", PASSED, STORED, SLEEPS),
    ("who wakes tells afterwards", PASSED, WOKEN, SLEEPS),
    ("an order isn't told", "self.desk.word.tell_order();", "", WAITS),
    ("an order is told when it may be done", LAID + "{}", LAID + "self.desk.word.tell_order(),", SPINS),
    ("what is taken back isn't told", "self.desk.word.tell_taken_back();", "", SPINS),
    ("what is done isn't told", "desk.word.tell_done();", "", SPINS),
    ("an order is dropped", BACK + "        }", "}", SPINS),
    ("a helper does an order twice", BACK, "doer.work(rt, &mut job);\n" + BACK, TWICE),
    ("a done order is done again", "Mail::Done(job) => job,", AGAIN, TWICE),
    ("what is taken back isn't done", WORKED, "job\n", UNDONE),
    ("an order goes to a desk that isn't ready", IS_READY, "state != CLOSED", LEAVES),
    ("nobody is asked to help", IS_READY, "state == CLOSED", NEVER),
)
# What the reader would have to guess: an order of memory that it doesn't try, and a loop that it doesn't know.
UNREAD = (
    ("swap(next, Ordering::SeqCst)", "swap(next, Ordering::Relaxed)"),
    ("for _ in 0..LOOKS {", "while self.is_ready() {"),
    ("self.pass_to(CLOSED, ASLEEP);", "self.state.fetch_max(CLOSED, Ordering::SeqCst);"),
)


def changed(old, new):
    """The sources with one text in the place of another, which stands there once."""
    assert sum(text.count(old) for text in TEXTS) == 1, old
    return [text.replace(old, new) for text in TEXTS]


class EveryOrder(unittest.TestCase):
    def try_all(self, desks):
        orders = Orders(TEXTS, desks).try_all()
        self.assertEqual(orders.wrong, {}, "each with a state in which it is so")
        for who, changes in CHANGES.items():
            self.assertEqual(orders.changes[who], {" ".join(change.split()) for change in changes.split(",")})

    def test_two_threads(self):
        """A side that sleeps or spins for good, an order that is lost, done twice or left at a sleeper, or a change of the word
        that isn't in the table above."""
        self.try_all(1)

    def test_three_threads(self):
        """The same, where one thread gives orders at two desks."""
        self.try_all(2)


class WrongBodies(unittest.TestCase):
    def test_each_is_refused(self):
        """A check that lets a wrong body pass."""
        for name, old, new, by in WRONG:
            with self.subTest(name):
                self.assertIn(by, Orders(changed(old, new), 1).try_all().wrong)

    def test_what_is_not_known_is_not_guessed(self):
        """A source that is read as another one than it is."""
        for old, new in UNREAD:
            with self.subTest(new), self.assertRaises(Unread):
                Orders(changed(old, new), 1).try_all()
