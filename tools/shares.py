"""What it costs to prove each crate: by tools/shares.txt, where bench/gate --write puts what it measured, and by its lines if it
isn't there. A crate that has grown since then costs more by as much."""

import collections
import glob
import os
import re
import sys

sys.dont_write_bytecode = True
ROOT = os.path.dirname(os.path.dirname(os.path.realpath(__file__)))
FILE = os.path.join(ROOT, "tools", "shares.txt")
PROGRAM = "node_main"
# Seconds of a crate, of a thousand of its lines of code, of its specs and proofs, and of all that stands below it: fitted to the
# measured crates, of which it missed the most by a quarter, and none by half.
FIXED, OF_CODE, OF_LOGIC, OF_BELOW = 8, 66, 5, 1.2

# Seconds of processor time, functions, and whether they are a guess.
Share = collections.namedtuple("Share", "seconds functions is_guess")


def uses():
    """Each crate of the repository in the order of crates.txt, and those of the repository that it uses."""
    found = {}
    with open(os.path.join(ROOT, "crates.txt"), encoding="utf-8") as file:
        for line in file:
            if ":" in line and not line.startswith("#"):
                front, rest = line.split(":", 1)
                found[front.split()[0]] = rest.split()
    return {name: [below for below in names if below in found] for name, names in found.items()}


def built(program=PROGRAM):
    """The program and the crates below it, lowest first, as `uses` has them."""
    all_uses, order = uses(), []

    def visit(name):
        if name not in order:
            for below in all_uses[name]:
                visit(below)
            order.append(name)

    visit(program)
    return {name: all_uses[name] for name in order}


def text_of(name, *parts):
    """All source of these parts of a crate."""
    text = b""
    for part in parts:
        for ending in ("rt", "antt"):
            for path in glob.glob(os.path.join(ROOT, "crates", name, part, "**", "*." + ending), recursive=True):
                with open(path, "rb") as file:
                    text += file.read()
    return text


def lines_of(name):
    """Lines of code, and of specs and proofs."""
    return text_of(name, "src").count(b"\n"), text_of(name, "specs", "proofs").count(b"\n")


def measured():
    """The rows of tools/shares.txt by crate: seconds, functions and lines."""
    with open(FILE, encoding="utf-8") as file:
        rows = [line.split() for line in file if not line.startswith("#")]
    return {row[0]: [int(word) for word in row[1:]] for row in rows if len(row) in (3, 4)}


def shares(crates):
    """The share of each of these crates, as `built` has them."""
    rows, found = measured(), {}
    lines = {name: lines_of(name) for name in crates}
    below = {name: set() for name in crates}
    for name, names in crates.items():
        below[name].update(*({one} | below[one] for one in names))
    for name, (code, logic) in lines.items():
        if name in rows:
            seconds, functions, *then = rows[name]
            grown = (code + logic) / then[0] if then and then[0] else 1
            found[name] = Share(max(seconds * grown, 1), functions, False)
        else:
            under = sum(sum(lines[one]) for one in below[name])
            seconds = FIXED + (OF_CODE * code + OF_LOGIC * logic + OF_BELOW * under) / 1000
            functions = len(re.findall(rb"^\s*(?:pub(?:\(\w+\))? )?(?:const )?fn ", text_of(name, "src"), re.M))
            found[name] = Share(seconds, functions, True)
    return found


def after(crates, seconds):
    """Of each crate the seconds of the longest chain that begins with it and goes up to the program."""
    longest = dict.fromkeys(crates, 0.0)
    for name in reversed(list(crates)):
        longest[name] += seconds[name]
        for below in crates[name]:
            longest[below] = max(longest[below], longest[name])
    return longest
