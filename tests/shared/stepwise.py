"""Runs functions of a Rattle source step by step: each access to what threads share is one step, which a caller answers.

So a test can try every order in which the steps of several threads may come (tests/test_work_desk.py). It reads the source
itself, and only the part of the language that crates/work_desk is written in: anything else is refused, never guessed."""

import re

TOKEN = re.compile(
    r"\s+|//[^\n]*|(?P<number>\d[\d_]*)|(?P<name>[A-Za-z_]\w*(?:!(?=[(\[]))?)"
    r"|(?P<sign>::|->|=>|==|!=|\|\||&&|\.\.|[^\s])"
)
CLOSING = {"(": ")", "[": "]", "{": "}", "<": ">"}


class Unread(Exception):
    """The source has something that this reader doesn't know."""


class Node:
    """A part of a function: its kind, and what it is made of. Two are the same only if they stand at one place."""

    def __init__(self, kind, *parts):
        self.kind, self.parts = kind, parts


class Function:
    def __init__(self, name, takes, body):
        self.name, self.takes, self.body = name, takes, body


class Reader:
    """Reads the constants and the functions of one file."""

    def __init__(self, text):
        self.tokens = [found.group() for found in TOKEN.finditer(text) if found.lastgroup]
        self.at = 0
        self.constants, self.functions = {}, {}

    def peek(self, ahead=0):
        return self.tokens[self.at + ahead] if self.at + ahead < len(self.tokens) else ""

    def next(self):
        self.at += 1
        return self.tokens[self.at - 1]

    def has(self, token):
        if self.peek() != token:
            return False
        self.at += 1
        return True

    def need(self, token):
        if not self.has(token):
            before = " ".join(self.tokens[max(self.at - 9, 0) : self.at])
            raise Unread("%r stands where %r is needed, behind %s" % (self.peek(), token, before))

    def skip_group(self):
        """Goes behind the bracket that closes the one here."""
        opening = self.next()
        closing, depth = CLOSING[opening], 1
        while depth:
            token = self.next()
            depth += {opening: 1, closing: -1}.get(token, 0)

    def skip_to(self, *ends):
        while self.peek() not in ends:
            self.skip_group() if self.peek() in CLOSING else self.next()

    def skip_contract(self):
        while self.peek() in ("requires", "ensures"):
            self.skip_to("{")
            self.skip_group()

    def items(self, owner=None):
        """Reads the items up to the end or to a closing brace."""
        while self.peek() not in ("", "}"):
            if self.peek() == "#":
                self.next()
                self.has("!")
                self.skip_group()
            elif self.has("pub"):
                if self.peek() == "(":
                    self.skip_group()
            else:
                self.item(self.next(), owner)

    def item(self, word, owner):
        if word == "const":
            name = self.next()
            self.skip_to("=")
            self.need("=")
            self.constants[name] = int(self.next().replace("_", ""))
            self.need(";")
        elif word == "fn":
            self.function(owner)
        elif word == "impl":
            self.implementation()
        elif word in ("ghost", "use", "mod", "type"):
            self.skip_to(";")
            self.need(";")
        elif word in ("struct", "enum", "trait"):
            self.skip_to("{", ";")
            self.need(";") if self.peek() == ";" else self.skip_group()
        else:
            raise Unread("an item that begins with " + word)

    def implementation(self):
        if self.peek() == "<":
            self.skip_group()
        owner = self.next()
        self.skip_to("{", "for")
        if self.has("for"):
            owner = self.next()
            self.skip_to("{")
        self.need("{")
        self.items(owner)
        self.need("}")

    def function(self, owner):
        name, takes = self.next(), []
        if self.peek() == "<":
            self.skip_group()
        self.need("(")
        while not self.has(")"):
            while self.peek() in ("&", "mut"):
                self.next()
            takes.append(self.next())
            self.skip_to(",", ")")
            self.has(",")
        if self.has("->"):
            self.skip_to("{", "requires", "ensures")
        self.skip_contract()
        self.functions[owner, name] = Function(name, takes, self.block())

    def block(self):
        self.need("{")
        steps, last = [], None
        while not self.has("}"):
            last = self.statement()
            steps.append(last)
            if self.has(";"):
                last = None
            elif self.peek() != "}" and steps[-1].kind not in ("if", "match", "for", "block"):
                raise Unread("no end of a statement before " + self.peek())
        return Node("block", steps, last is not None)

    def statement(self):
        if self.has("let"):
            pattern = self.pattern()
            self.need("=")
            value = self.expression()
            other = self.block() if self.has("else") else None
            return Node("let", pattern, value, other)
        if self.has("for"):
            self.need("_")
            self.need("in")
            return Node("for", self.expression(plain=True), self.block())
        return self.expression()

    def pattern(self):
        first = self.one_pattern()
        if self.peek() != "|":
            return first
        all_of_them = [first]
        while self.has("|"):
            all_of_them.append(self.one_pattern())
        return Node("any of", all_of_them)

    def one_pattern(self):
        if self.peek() == "(":
            return Node("tuple", self.patterns("(", ")"))
        self.has("mut")
        name = self.next()
        while self.has("::"):
            name = self.next()
        if self.peek() == "(":
            return Node("variant", name, self.patterns("(", ")"))
        if self.peek() == "{":
            return Node("struct", name, self.patterns("{", "}"))
        if not re.match(r"[A-Za-z_]", name):
            raise Unread("a pattern " + name)
        return Node("variant", name, []) if name[0].isupper() else Node("bind", name)

    def patterns(self, opening, closing):
        self.need(opening)
        found = []
        while not self.has(closing):
            found.append(self.pattern())
            self.has(",")
        return found

    def expression(self, plain=False):
        """An expression; a plain one ends before a brace, as behind `if` and `match`."""
        return self.binary(plain, [".."], ["||"], ["&&"], ["==", "!="], ["&"], ["+", "-"])

    def binary(self, plain, *levels):
        if not levels:
            return self.unary(plain)
        left = self.binary(plain, *levels[1:])
        while self.peek() in levels[0]:
            left = Node(self.next(), left, self.binary(plain, *levels[1:]))
        return left

    def unary(self, plain):
        if self.peek() in ("&", "*"):
            self.next()
            self.has("mut")
            return self.unary(plain)
        if self.has("!"):
            return Node("not", self.unary(plain))
        found = self.postfix(self.primary(plain))
        while self.has("as"):
            self.next()
        return found

    def primary(self, plain):
        token = self.peek()
        if token == "{":
            return self.block()
        if token == "(":
            parts = self.arguments()
            return parts[0] if len(parts) == 1 else Node("tuple", parts)
        if token[0].isdigit():
            return Node("value", int(self.next().replace("_", "")))
        if not re.match(r"[A-Za-z_]", token):
            raise Unread("an expression that begins with " + token)
        self.next()
        special = {"if": self.choice, "match": self.matching, "return": self.returning}.get(token)
        return special() if special else self.path([token], plain)

    def choice(self):
        test, then = self.expression(plain=True), self.block()
        if not self.has("else"):
            return Node("if", test, then, None)
        return Node("if", test, then, self.choice() if self.has("if") else self.block())

    def matching(self):
        looked, arms = self.expression(plain=True), []
        self.need("{")
        while not self.has("}"):
            pattern = self.pattern()
            self.need("=>")
            arms.append((pattern, self.expression()))
            self.has(",")
        return Node("match", looked, arms)

    def returning(self):
        return Node("return", None if self.peek() in (";", "}", ",") else self.expression())

    def path(self, names, plain):
        while self.has("::"):
            if self.peek() == "<":
                self.skip_group()
            else:
                names.append(self.next())
        if self.peek() == "(":
            return Node("call", names, self.arguments())
        if self.peek() == "{" and not plain and names[-1][0].isupper():
            return self.literal(names[-1])
        return Node("path", names)

    def literal(self, name):
        fields = {}
        self.need("{")
        while not self.has("}"):
            field = self.next()
            fields[field] = self.expression() if self.has(":") else Node("path", [field])
            self.has(",")
        return Node("literal", name, fields)

    def arguments(self):
        self.need("(")
        found = []
        while not self.has(")"):
            found.append(self.expression())
            self.has(",")
        return found

    def postfix(self, found):
        while True:
            if self.has("?"):
                found = Node("or return", found)
            elif self.has("."):
                name = self.next()
                if self.has("::"):
                    self.skip_group()
                found = Node("method", found, name, self.arguments()) if self.peek() == "(" else Node("field", found, name)
            else:
                return found


class Variant:
    """A value of an enum, as Some(x)."""

    def __init__(self, name, *parts):
        self.name, self.parts = name, list(parts)


class Struct:
    def __init__(self, name, fields):
        self.name, self.fields = name, fields


class Job:
    """What is ordered: which job it is, and how often it was done."""

    def __init__(self, number, done=0):
        self.number, self.done = number, done


class Shared:
    """The name of what threads share: an atomic word or a board."""

    def __init__(self, kind, number):
        self.kind, self.number = kind, number


class Returned(Exception):
    def __init__(self, value):
        super().__init__()
        self.value = value


NOTHING = Variant("None")
UNIT = ()


def frozen(value):
    """The value as one that can be compared and kept."""
    if isinstance(value, Variant):
        return ("variant", value.name) + tuple(map(frozen, value.parts))
    if isinstance(value, Struct):
        return ("struct", value.name) + tuple((name, frozen(part)) for name, part in sorted(value.fields.items()))
    if isinstance(value, Job):
        return ("job", value.number, value.done)
    if isinstance(value, Shared):
        return ("shared", value.kind, value.number)
    if isinstance(value, (list, tuple)):
        return (type(value).__name__,) + tuple(map(frozen, value))
    if isinstance(value, dict):
        return ("dict",) + tuple((name, frozen(part)) for name, part in sorted(value.items()))
    return value


def thawed(form):
    """A job, or an enum with a job in it, from its frozen form."""
    if form[0] == "job":
        return Job(*form[1:])
    return Variant(form[1], *map(thawed, form[2:]))


def stand(thread):
    """Where a thread stands, and with which values: equal for two that go on alike."""
    found = []
    while thread is not None and getattr(thread, "gi_frame", None):
        frame = thread.gi_frame
        values = tuple((name, frozen(part)) for name, part in frame.f_locals.items())
        found.append((frame.f_code.co_name, frame.f_lasti, values))
        thread = thread.gi_yieldfrom
    return tuple(found)


class Machine:
    """Runs the functions. Its generators yield each step and are sent its outcome:

    ("load", word), ("store", word, new), ("swap", word, new), ("exchange", word, old, new), ("wake", word),
    ("park", word, value), ("push", board, what), ("pop", board), ("work",), ("choose", "is worth")."""

    def __init__(self, texts, constants):
        self.constants, self.functions = {"true": True, "false": False}, {}
        for text in texts:
            reader = Reader(text)
            reader.items()
            self.constants.update(reader.constants)
            self.functions.update(reader.functions)
        self.constants.update(constants)
        self.first = []

    def __repr__(self):
        return "machine"

    def call(self, owner, name, values):
        function = self.functions.get((owner, name))
        if function is None:
            raise Unread("a call of %s::%s" % (owner, name))
        try:
            return (yield from self.block(function.body, dict(zip(function.takes, values))))
        except Returned as back:
            return back.value

    def block(self, node, scope):
        steps, has_value = node.parts
        value, at, inner = UNIT, 0, dict(scope)
        while at < len(steps):
            value = yield from self.value(steps[at], inner)
            at += 1
        return value if has_value else UNIT

    def value(self, node, scope):
        return (yield from getattr(self, "do_" + NAMES.get(node.kind, node.kind))(node, scope))

    def values(self, nodes, scope):
        found, at = [], 0
        while at < len(nodes):
            found.append((yield from self.value(nodes[at], scope)))
            at += 1
        return found

    def do_block(self, node, scope):
        return (yield from self.block(node, scope))

    def do_value(self, node, scope):
        yield from ()
        return node.parts[0]

    def do_tuple(self, node, scope):
        return tuple((yield from self.values(node.parts[0], scope)))

    def do_path(self, node, scope):
        yield from ()
        names = node.parts[0]
        if names[-1] in scope:
            return scope[names[-1]]
        if names[-1] in self.constants:
            return self.constants[names[-1]]
        if names[-1][0].isupper():
            return Variant(names[-1])
        raise Unread("a name " + names[-1])

    def do_literal(self, node, scope):
        names = list(node.parts[1])
        values = yield from self.values([node.parts[1][name] for name in names], scope)
        return Struct(node.parts[0], dict(zip(names, values)))

    def do_let(self, node, scope):
        pattern, of_what, other = node.parts
        value = yield from self.value(of_what, scope)
        if not self.fits(pattern, value, scope):
            if other is None:
                raise Unread("a let whose pattern doesn't fit")
            yield from self.block(other, scope)
        return UNIT

    def do_return(self, node, scope):
        raise Returned((yield from self.value(node.parts[0], scope)) if node.parts[0] else UNIT)

    def do_try(self, node, scope):
        value = yield from self.value(node.parts[0], scope)
        if value.name == "Err":
            raise Returned(value)
        return value.parts[0]

    def do_not(self, node, scope):
        return not (yield from self.value(node.parts[0], scope))

    def do_or(self, node, scope):
        return (yield from self.value(node.parts[0], scope)) or (yield from self.value(node.parts[1], scope))

    def do_and(self, node, scope):
        return (yield from self.value(node.parts[0], scope)) and (yield from self.value(node.parts[1], scope))

    def do_two(self, node, scope):
        left, right = yield from self.values(node.parts, scope)
        return {
            "==": lambda: left == right,
            "!=": lambda: left != right,
            "&": lambda: left & right,
            "+": lambda: left + right,
            "-": lambda: left - right,
            "..": lambda: right - left,
        }[node.kind]()

    def do_if(self, node, scope):
        test, then, other = node.parts
        if (yield from self.value(test, scope)):
            return (yield from self.block(then, scope))
        return (yield from self.value(other, scope)) if other else UNIT

    def do_match(self, node, scope):
        looked, arms = node.parts
        value = yield from self.value(looked, scope)
        for pattern, result in arms:
            inner = dict(scope)
            if self.fits(pattern, value, inner):
                break
        else:
            raise Unread("a match without an arm for the value")
        del arms, pattern, looked
        return (yield from self.value(result, inner))

    def do_for(self, node, scope):
        times = yield from self.value(node.parts[0], scope)
        while times is None or times > 0:
            yield from self.block(node.parts[1], scope)
            times = None if times is None else times - 1
        return UNIT

    def do_field(self, node, scope):
        owner = yield from self.value(node.parts[0], scope)
        return owner[int(node.parts[1])] if isinstance(owner, tuple) else owner.fields[node.parts[1]]

    def do_call(self, node, scope):
        names = node.parts[0]
        values = yield from self.values(node.parts[1], scope)
        owner, name = names[-2] if len(names) > 1 else None, names[-1]
        if (owner, name) in self.functions:
            return (yield from self.call(owner, name, values))
        if name[0].isupper():
            return Variant(name, *values)
        if name in ("yield_now", "spin_loop"):
            return UNIT
        if name == "unreachable!":
            raise AssertionError("what can't be reached is reached")
        if (owner, name) == ("AtomicU64", "new"):
            return self.made("word", values[0])
        if (owner, name) == ("Board", "ruled"):
            return Variant("Ok", (self.made("board", None), UNIT))
        if owner == "Arc" and name in ("new", "try_clone"):
            return Variant("Ok", values[-1])
        raise Unread("a call of %s" % "::".join(names))

    def made(self, kind, first):
        self.first.append(first)
        return Shared(kind, len(self.first) - 1)

    def do_method(self, node, scope):
        receiver, name, arguments = node.parts
        owner = yield from self.value(receiver, scope)
        values = yield from self.values(arguments, scope)
        if isinstance(owner, Struct):
            return (yield from self.call(owner.name, name, [owner] + values))
        if isinstance(owner, Shared):
            return (yield from self.shared(owner, name, values))
        if isinstance(owner, list):
            return self.of_list(owner, name, values)
        if isinstance(owner, Variant) and name == "is_ok":
            return owner.name == "Ok"
        if owner == "runtime" and name == "forever":
            return None
        if owner == "doer" and name == "work":
            yield ("work",)
            values[1].done += 1
            return UNIT
        if owner == "doer" and name == "is_worth":
            return (yield ("choose", "is worth"))
        raise Unread("a method " + name)

    def shared(self, what, name, values):
        if (what.kind, name) == ("board", "another"):
            return UNIT
        if (what.kind, name) == ("board", "push_as"):
            is_laid = yield ("push", what.number, frozen(values[2]))
            return Variant("Ok", UNIT) if is_laid else Variant("Err", values[2])
        if (what.kind, name) == ("board", "try_pop_as"):
            form = yield ("pop", what.number)
            return Variant("Some", thawed(form)) if form else NOTHING
        if what.kind != "word" or name not in WORD_STEPS:
            raise Unread("a step " + name)
        step, places = WORD_STEPS[name]
        if name not in ("wake_one", "park") and {frozen(order) for order in values[len(places) :]} != {("variant", "SeqCst")}:
            raise Unread("a step that is not in one order with all others: " + name)
        seen = yield (step, what.number) + tuple(values[place] for place in places)
        if name == "compare_exchange":
            return Variant("Ok" if seen == values[0] else "Err", seen)
        return seen

    @staticmethod
    def of_list(items, name, values):
        if name == "pop":
            return Variant("Some", items.pop()) if items else NOTHING
        if name == "last":
            return Variant("Some", items[-1]) if items else NOTHING
        if name == "push_reserved":
            return items.append(values[0]) or UNIT
        raise Unread("a method of a list: " + name)

    def fits(self, pattern, value, scope):
        """Whether the value fits the pattern; binds the pattern's names in the scope."""
        if pattern.kind == "any of":
            return any(self.fits(one, value, scope) for one in pattern.parts[0])
        if pattern.kind == "bind":
            if pattern.parts[0] != "_":
                scope[pattern.parts[0]] = value
            return True
        if pattern.kind == "tuple":
            return len(pattern.parts[0]) == len(value) and all(self.fits(*pair, scope) for pair in zip(pattern.parts[0], value))
        name, parts = pattern.parts
        if pattern.kind == "struct":
            return all(self.fits(part, value.fields[part.parts[0]], scope) for part in parts)
        if name in self.constants:
            return value == self.constants[name]
        return value.name == name and all(self.fits(*pair, scope) for pair in zip(parts, value.parts))


WORD_STEPS = {
    "load": ("load", ()),
    "store": ("store", (0,)),
    "swap": ("swap", (0,)),
    "compare_exchange": ("exchange", (0, 1)),
    "wake_one": ("wake", ()),
    "park": ("park", (1,)),
}
NAMES = {"||": "or", "&&": "and", "or return": "try"}
NAMES.update(dict.fromkeys(["==", "!=", "&", "+", "-", ".."], "two"))

