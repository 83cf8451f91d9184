"""What the crates' sources keep to, and no contract says: who uses whom."""

import re

from shared.case import ProgramTest
from shared.launcher import page


def storeys():
    """The storeys of the house, the lowest first, each as a list of crates: by the headings of crates.txt, or if it has none by
    docs/ARCHITECTURE."""
    found = []
    for line in page("crates.txt").splitlines():
        if re.match(r"# [a-z ]+: ", line):
            found.append([])
        elif re.match(r"\w+[^#]*:", line) and found:
            found[-1].append(line.split(":")[0].split()[0])
    if not found:
        text = page("docs/ARCHITECTURE.md")
        for row in text[text.index("## The storeys") : text.index("## The outside")].splitlines():
            cells = [cell.strip() for cell in row.split("|")]
            if len(cells) < 4 or cells[1] == "Storey" or set(cells[1]) == {"-"}:
                continue
            if cells[1]:
                found.append([])
            found[-1] += re.findall(r"`(\w+)`", cells[2])
    return found if "kad_base" in found[0] else found[::-1]


class Sources(ProgramTest):
    def test_a_crate_uses_its_own_storey_and_those_below(self):
        """A crate that uses one of a storey above its own, one that stands in no storey, or one that docs/ARCHITECTURE leaves out."""
        uses, wrong, at = {}, [], {}
        for line in page("crates.txt").splitlines():
            if ":" in line and not line.startswith("#"):
                front, behind = line.split(":")
                uses[front.split()[0]] = behind.split()
        for number, names in enumerate(storeys()):
            at.update(dict.fromkeys(names, number))
        tests = max(at.values()) + 1
        place = lambda crate: at.get(crate, tests if crate.endswith("_trials") else None)
        named = page("docs/ARCHITECTURE.md")
        for crate, below in uses.items():
            if place(crate) is None:
                wrong.append("%s stands in no storey" % crate)
                continue
            wrong += ["%s uses %s" % (crate, one) for one in below if one in uses and place(one) is not None and place(one) > place(crate)]
            if "`%s`" % crate not in named and not crate.endswith("_trials"):
                wrong.append("docs/ARCHITECTURE doesn't name %s" % crate)
        self.assertGreater(len(at), 20, "crates in storeys")
        self.assertEqual(wrong, [])
