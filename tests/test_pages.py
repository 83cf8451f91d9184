"""The pages: their lines are run and print what they say, and what they name is there."""

import os
import re
import subprocess

from shared.case import ProgramTest, second_try
from shared.launcher import launcher, page
from shared.program import ROOT, bound, free_port, until

DOCS = sorted(name for name in os.listdir(os.path.join(ROOT, "docs")) if name.endswith(".md"))
PAGES = ["README.md", "CHANGELOG.md", *("docs/" + name for name in DOCS)]


def steps(text):
    """What the fenced blocks of a page have a shell do, in order: lines, and what they print, or None if the page doesn't say.

    A block `sh` is lines, and what they print is the block that follows it without a line of `$ `. Lines that begin so are
    lines too, and what they print follows them; but `$ cat FILE` shows what FILE is to have."""
    found, fences = [], re.findall(r"^```(\w*)\n(.*?)^```$", text, re.M | re.S)
    for (kind, body), (before, _) in zip(fences, [("", ""), *fences]):
        if kind == "sh":
            found.append([body, None])
        elif re.match(r"\$ ", body):
            for command, said in re.findall(r"^\$ (.*)\n((?:(?!\$ ).*\n)*)", body, re.M):
                shown_file = re.fullmatch(r"cat (\S+)", command)
                found.append(["cat >%s <<'END'\n%sEND\n" % (shown_file[1], said), ""] if shown_file else [command + "\n", said])
        elif before == "sh" and not kind:
            found[-1][1] = body
    return [(lines, said) for lines, said in found if not re.match(r"\./nolzavirt (--build|test)\b", lines)]


class Lines(ProgramTest):
    def assertPrint(self, steps):
        """Runs lines in order in one shell, `--unproved` left out, on free ports, with longer sleeps, and compares what they print."""
        numbers = re.findall(r"(?<![0-9a-f])70\d\d(?!\w)", "".join(lines for lines, _ in steps))
        ports = {port: str(free_port()) for port in numbers}
        self.assertEqual(len(set(ports.values())), len(ports), "two of the ports %r are one" % ports)
        self.assertGreaterEqual(len(steps), 5)

        def here(text):
            text = re.sub(r"(?<![0-9a-f])70\d\d(?!\w)", lambda it: ports[it[0]], text)
            return text.replace("--unproved ", "").replace("sleep 1\n", "sleep 3\n")

        script = "set -m\n" + "".join("%secho '=== end of step'\n" % here(lines) for lines, _ in steps)
        streams = {"stdin": subprocess.DEVNULL, "stdout": subprocess.PIPE, "stderr": subprocess.PIPE, "text": True}
        with launcher() as folder, subprocess.Popen(["bash", "-c", script], cwd=folder, **streams) as shell:
            out, error = shell.communicate(timeout=200)
        came = out.split("=== end of step\n")
        for (lines, said), one in zip(steps, came):
            if said is not None:
                self.assertEqual(one, here(said), "%r printed it; it said %r" % (lines, error[-300:]))
        self.assertEqual((len(came), came[-1]), (len(steps) + 1, ""), "steps that ended: %r" % error[-300:])
        self.assertTrue(until(lambda: not any(bound(int(port)) for port in ports.values())), "a node is left")

    @second_try("a machine that is busy may begin a node of the page later than its lines wait for")
    def test_the_lines_of_the_readme_print_what_it_says(self):
        """A line of README that prints something else than the page says, when all are run in order; a page that is too long."""
        text = page("README.md")
        self.assertPrint(steps(text))
        self.assertLessEqual(len(text.encode()), 8192, "bytes of README")
        helped = page("share/help/network.txt")
        for lines, said in steps(text)[1:2]:
            wrong = [one for one in (lines + said).replace("< ", "<").replace("> ", ">").splitlines() if one not in helped]
            self.assertEqual(wrong, [], "the launcher's help has another network of three")

    @second_try("a machine that is busy may begin a node of the page later than its lines wait for")
    def test_the_lines_of_other_pages_print_what_they_say(self):
        """Lines of docs/COMMANDS or docs/RUNNING that print something else than the page says, over the network of README."""
        begin = [(lines, None) for lines, _ in steps(page("README.md")) if "others.txt" in lines][:1]
        end = [("kill %1 %2 %3\n", "")]
        for name in ("docs/COMMANDS.md", "docs/RUNNING.md"):
            with self.subTest(name):
                self.assertPrint(begin + steps(page(name)) + end)


def anchors(text):
    """The places of a page that a link may name, as GitHub makes them of its headings."""
    found = re.findall(r"^#+ (.*)$", re.sub(r"^```.*?^```$", "", text, flags=re.M | re.S), re.M)
    return {re.sub(r"[^\w\- ]", "", heading.lower()).replace(" ", "-") for heading in found}


def is_there(*parts):
    return os.path.exists(os.path.join(ROOT, *parts))


def files_in(*parts):
    """The names of all files below a folder, but for what is built."""
    for folder, _, files in os.walk(os.path.join(ROOT, *parts)):
        if "/out" not in folder:
            yield from (os.path.join(folder, file) for file in files)


def stems(*parts):
    return {os.path.splitext(os.path.basename(name))[0] for name in files_in(*parts)}


def sources(*parts, crate=""):
    """All code of the crates or of one, or these parts of them."""
    names = [name for name in files_in("crates", crate) if any("/%s" % part in os.path.dirname(name) for part in parts or ["src"])]
    return "\n".join(page(name) for name in names)


CRATES = set(os.listdir(os.path.join(ROOT, "crates")))
EDITS = {os.path.basename(name)[:-5] for top in ("crates", "edits") for name in files_in(top) if name.endswith(".edit")}


def wrong_links(name, text):
    for target, anchor in re.findall(r"\]\(([^)#\s]*)#?([^)\s]*)\)", text):
        at = os.path.normpath(os.path.join(os.path.dirname(name), target)) if target else name
        if not re.match(r"https?:", target) and (not is_there(at) or anchor and anchor not in anchors(page(at))):
            yield "link %s#%s" % (target, anchor)


def wrong_names(name, text):
    """Files, and names of crates, that a page names and that aren't there."""
    for path in re.findall(r"`((?:tests|tools|bench|interop|share|docs)/[\w./]*\w)[` ]", text):
        if not is_there(path):
            yield path
    for crate, word in re.findall(r"`(\w+)` `([\w']+)`", text):
        if crate in CRATES and (word in CRATES or any(word in stems("crates", crate, part) for part in ("src", "specs"))):
            continue
        if crate in CRATES and not re.search(r"\b%s\b" % word, sources("src", "specs", "proofs", crate=crate)):
            yield "%s has no %s" % (crate, word)
    for crate, part, rest in re.findall(r"\b(\w+)/(proofs|specs|src)/([\w/]+)", text):
        is_module = crate in CRATES and rest.split("/")[-1] in stems("crates", crate, part)
        if crate in CRATES and not is_module and not is_there("crates", crate, part, rest):
            yield "%s/%s/%s" % (crate, part, rest)


def wrong_specs(text):
    """Specs that a row of docs/RULES names, and that aren't there."""
    for row in text.splitlines():
        cells, crate = row.split(" | "), None
        for word in re.findall(r"`([\w/]+)`", cells[-1]) if row.startswith("| ") and len(cells) == 3 else []:
            if word in CRATES:
                crate = word
            elif not is_there("crates", str(crate), "specs", word + ".antt"):
                yield "%s has no specs %s" % (crate, word)


class Names(ProgramTest):
    def test_the_page_of_contracts_lists_what_run_rests_on(self):
        """A list of the spec files that have to be believed which isn't the one that the imports give, or a field or clause that
        the page shows and no contract has."""
        said = subprocess.run([os.path.join(ROOT, "tools/to_believe")], capture_output=True, text=True)
        self.assertEqual(said.returncode, 0, said.stderr)
        held = " ".join(sources("src", "specs").split())
        shown = re.findall(r"^ *((?:pub \w+ :|ensures \w+ \{|record \w+ \().*)$", page("docs/CONTRACTS.md"), re.M)
        wrong = [one for one in shown if not re.search(".{,400}?".join(map(re.escape, one.split(".."))), held)]
        self.assertGreater(len(shown), 15, "fields and clauses that the page shows")
        self.assertEqual(wrong, [], "what no contract has")

    def test_the_documents_name_what_is_there(self):
        """A link, a file, a test, an edit or a crate's name that a page names and that isn't there; a clause of the top calls that
        isn't listed."""
        for name in PAGES:
            with self.subTest(name):
                text = page(name)
                self.assertEqual([*wrong_links(name, text), *wrong_names(name, text)], [], "what isn't there")
        with self.subTest("the specs of docs/RULES.md"):
            self.assertEqual(list(wrong_specs(page("docs/RULES.md"))), [], "what isn't there")
        with self.subTest("the clauses of docs/GUARANTEES.md"):
            promised, clauses = page("docs/GUARANTEES.md"), re.findall(r"^ +ensures (\w+)", page("crates/node_top/src/top.rt"), re.M)
            self.assertGreater(len(clauses), 0)
            self.assertEqual([one for one in sorted(set(clauses)) if "`%s`" % one not in promised], [], "what it leaves out")
        with self.subTest("the tests and edits of docs/PROVING.md"):
            self.assertNamesTests(page("docs/PROVING.md").partition("## What no clause")[2])

    def test_the_page_of_contracts_counts_what_may_wait(self):
        """A number of functions that may wait which isn't the sum of crates.txt, or of places that wait which isn't that of WAITS."""
        text = page("docs/CONTRACTS.md").partition("## What may wait")[2].partition("\n## ")[0]
        (lines, said), = steps(text)
        ran = subprocess.run(["bash", "-c", lines], cwd=ROOT, capture_output=True, text=True, check=True)
        self.assertEqual(ran.stdout, said)
        places = re.search(r"^WAITS = \{\n(.*?)^\}", page("tools/made_up"), re.M | re.S)[1].splitlines()
        numbers = {"eight": 8, "nine": 9, "ten": 10, "eleven": 11}
        self.assertEqual(numbers[re.search(r"waits in (\w+) places", text)[1]], len(places))

    def assertNamesTests(self, text):
        named = re.findall(r"`([a-z]+(?:_[a-z0-9]+){2,})`", text)
        there = EDITS | set(re.findall(r"\bfn (\w+)", sources()))
        there |= {test for name in files_in("tests") if name.endswith(".py") for test in re.findall(r"def test_(\w+)\(", page(name))}
        self.assertGreater(len(named), 0)
        self.assertEqual([word for word in named if word not in there], [], "no test and no edit")
