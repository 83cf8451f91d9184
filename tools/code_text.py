"""Rattle's code as text for the tools of this folder: what stands in which bracket, arm or block. It makes no syntax tree."""

import re

OPENS, CLOSES = "([{", ")]}"


def blank(text):
    """As many blanks and ends of lines."""
    return re.sub(r"[^\n]", " ", text)


def without_comments(text):
    """The text with comments and strings blanked, at the same places."""
    return re.sub(r"//[^\n]*|\"(?:\\.|[^\"\\])*\"|'(?:\\.|[^'\\])'", lambda found: blank(found.group()), text)


def blanked(text):
    """The text with imports, contracts and ghost items blanked too."""
    code = re.sub(r"^\s*(?:pub )?(?:ghost )?use [^;]*;", lambda found: blank(found.group()), without_comments(text), flags=re.M)
    out = code
    for found in re.finditer(r"^\s*ghost [^={;]*= *\{|\b(?:ensures|requires)\b[^{\n]*\{", code, re.M):
        depth, at = 1, found.end()
        while at < len(code) and depth:
            depth += {"{": 1, "}": -1}.get(code[at], 0)
            at += 1
        out = out[: found.start()] + blank(out[found.start() : at]) + out[at:]
    return out


class Function:
    """One function: its name, whose it is, whether it takes `self`, the names and types of what else it takes, and where its body
    begins and ends."""

    def __init__(self, name, owner, has_self, takes, start, end):
        self.name, self.owner, self.has_self, self.takes, self.start, self.end = name, owner, has_self, takes, start, end

    def is_called(self, before):
        """Whether its name, behind this text, is of a call of it, as far as text can tell."""
        if self.has_self:
            return before.endswith(".")
        if self.owner:
            return bool(re.search(r"\b(?:%s|Self)(?:::<[^()]*>)?::$" % self.owner, before))
        return not before.endswith(".") and not re.search(r"\bfn $", before)


class Code:
    """One file: its brackets are paired, so that each place knows what it stands in."""

    def __init__(self, text):
        self.text = text
        self.close, self.open = {}, {}
        waiting = []
        for at, sign in enumerate(text):
            if sign in OPENS:
                waiting.append(at)
            elif sign in CLOSES and waiting:
                start = waiting.pop()
                self.close[start], self.open[at] = at, start
        self.functions = list(self.each_function())
        self.calls = [
            (found.group(1), found.start(), self.arguments(found.end() - 1))
            for found in re.finditer(r"(?<!fn )\b(\w+)(?:::<[^()]*>)?\(", text)
        ]

    def arguments(self, opening):
        """What stands between the bracket and the one that closes it."""
        given = self.text[opening + 1 : self.close.get(opening, opening + 1)]
        return [one.strip() for one in split_outside(given.rstrip().removesuffix(","), ",")]

    def each_function(self):
        for found in re.finditer(r"\bfn (\w+)[^{};]*?\(", self.text):
            opening = found.end() - 1
            body = re.compile(r"[^{};]*(?=\{)").match(self.text, self.close.get(opening, opening))
            if body:
                given = self.arguments(opening)
                takes = [re.match(r"\s*(?:mut )?(\w+)\s*:\s*(.*?)\s*$", one, re.S) for one in given]
                has_self = bool(re.match(r"\s*(?:&\s*)?(?:mut )?self\b", given[0]))
                block = self.around(found.start())
                head = re.search(r"\bimpl\b[^;{}]*$", self.text[: max(block, 0)])
                owner = re.search(r"\b([A-Z]\w*)(?:<[^{}]*>)?\s*$", head.group().split(" where ")[0]) if head else None
                names = [one.groups() for one in takes if one]
                yield Function(found.group(1), owner and owner.group(1), has_self, names, body.end(), self.close[body.end()])

    def function(self, at):
        """The innermost function that the place stands in."""
        around = [function for function in self.functions if function.start < at < function.end]
        return max(around, key=lambda function: function.start, default=Function("", None, False, [], 0, len(self.text)))

    def around(self, at):
        """The bracket that the place stands in; -1 outside all."""
        at -= 1
        while at >= 0:
            if self.text[at] in OPENS:
                return at
            at = self.open.get(at, at) - 1
        return -1

    def block(self, at):
        """The brace that the place stands in, and the place of the expression in it that holds this one."""
        bracket = self.around(at)
        while bracket >= 0 and self.text[bracket] != "{":
            at, bracket = bracket, self.around(bracket)
        return bracket, at

    def before(self, at):
        """What stands before the place, up to the end of a statement or of an arm, with the place where it begins."""
        start = at
        while start > 0:
            sign = self.text[start - 1]
            if sign in ";,{([" or self.text.startswith("=>", start - 2):
                break
            if sign == "}" and re.match(r"\s*\n\s*\S", self.text[start:]) and not self.text[start:].lstrip().startswith("else"):
                break
            start = self.open[start - 1] if sign in CLOSES else start - 1
        return self.text[start:at].strip(), start

    def is_pattern(self, at):
        """Whether the name at the place is in a pattern or in a type, and makes nothing."""
        bracket = self.around(at)
        while bracket >= 0 and self.text[bracket] != "{":
            if re.search(r"\bmatches!\s*$", self.text[:bracket]):
                return True
            at, bracket = self.close[bracket] + 1, self.around(bracket)
        at = re.compile(r"\w*").match(self.text, at).end()
        while at < len(self.text):
            rest = self.text[at:]
            if rest.startswith("=>") or re.match(r"=(?!=)", rest) or re.match(r"if\b", rest):
                return True
            if rest[0] in ",;}>":
                return False
            at = self.close[at] + 1 if rest[0] in OPENS else at + 1
        return False


def arm_of(code, at):
    """The pattern of the arm that the place stands in without a block between, and the place where the pattern begins."""
    block, at = code.block(at)
    while at > block + 1:
        at -= 1
        sign = code.text[at]
        if sign in CLOSES:
            at = code.open[at]
        elif sign in ",;":
            return None
        elif code.text.startswith("=>", at):
            head, start = pattern_before(code, at)
            return head, start
    return None


def pattern_before(code, arrow):
    """The pattern that ends at the arrow."""
    block = code.block(arrow)[0]
    start = arrow
    while start > block + 1:
        sign = code.text[start - 1]
        if sign == ",":
            break
        if sign == "}":
            lines = code.text[start:arrow]
            if "\n" in lines[: len(lines) - len(lines.lstrip())]:
                break
        start = code.open[start - 1] if sign in CLOSES else start - 1
    return code.text[start:arrow].strip(), start


def split_outside(text, sign):
    """The parts of the text between such signs, where these are in no bracket of it."""
    parts, depth, start = [], 0, 0
    for at, one in enumerate(text):
        depth += (one in OPENS) - (one in CLOSES)
        if one == sign and depth == 0:
            parts.append(text[start:at])
            start = at + 1
    return parts + [text[start:]]


def alternatives(pattern):
    """Each of the patterns that one with `|`, outside or in a bracket, stands for."""
    parts = split_outside(pattern, "|")
    if len(parts) > 1:
        return [one for part in parts for one in alternatives(part)]
    for start, end in sorted(Code(pattern).close.items()):
        fields = split_outside(pattern[start + 1 : end], ",")
        for place, field in enumerate(fields):
            if "|" in field:
                each = [",".join(fields[:place] + [one] + fields[place + 1 :]) for one in alternatives(field)]
                return [one for inner in each for one in alternatives(pattern[: start + 1] + inner + pattern[end:])]
    return [pattern.strip()]
