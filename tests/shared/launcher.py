"""The launcher `nolzavirt`, run in a folder of its own as if it had built the program that is tested; and its tables and pages."""

import contextlib
import os
import shutil
import subprocess
import tempfile

from shared import program
from shared.program import ROOT

LAUNCHER = os.path.join(ROOT, "nolzavirt")


@contextlib.contextmanager
def launcher():
    """A folder of its own with the launcher, where the program that it built is the one that is tested."""
    with tempfile.TemporaryDirectory() as folder:
        out = os.path.join(folder, "crates/node_main/out")
        os.makedirs(out)
        for name in ("nolzavirt", "nolzavirt-keep", "crates.txt"):
            shutil.copy(os.path.join(ROOT, name), folder)
        for name in ("share", "interop", "tools"):
            os.symlink(os.path.join(ROOT, name), os.path.join(folder, name))
        os.symlink(program.path(), os.path.join(out, "node_main"))
        open(os.path.join(out, "launcher.stamp"), "w").close()
        yield folder


def launch(words, text=None, **options):
    """What the launcher makes of words."""
    with launcher() as folder:
        words = [os.path.join(folder, "nolzavirt"), *words]
        return subprocess.run(words, input=text, capture_output=True, text=True, timeout=100, **options)


def page(name):
    """The text of a file of the repository."""
    with open(os.path.join(ROOT, name), encoding="utf-8") as file:
        return file.read()


def first_cells(name):
    """The first cell of each row of a table of share/."""
    return [line.split("|")[0] for line in page(os.path.join("share", name)).splitlines()]


def options():
    """The rows of the launcher's table: an option, its values, and the commands that take it."""
    ended = subprocess.run([LAUNCHER, "--options"], capture_output=True, text=True, check=True)
    table = ended.stdout.partition("\n\n")[0]
    rows = [[cell.strip() for cell in row.split("|")[1:-1]] for row in table.splitlines()[2:]]
    return [(row[0].strip("`"), row[1], row[3].split()) for row in rows]
