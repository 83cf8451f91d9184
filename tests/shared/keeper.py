"""The script nolzavirt-keep in a folder of its own, beside the program or what stands for it."""

import os
import shutil
import subprocess
import tempfile

from shared.case import ProgramTest
from shared.messages import identifier, line
from shared.program import ROOT, check

# Stands for the program: a minute is a tenth of a second, whoever has port 9 is dead, nobody takes an announcement of port 9, and the
# value 00 is none. It writes a table in two pieces.
STAND_IN = r"""#!/bin/sh
echo "$*" >>"$PLACE/words"
[ "$1" != node ] || echo $$ >>"$PLACE/nodes"
command=$1 own= minutes=0 value=
shift
while [ $# -gt 0 ]; do
    [ "$1" != --own ] || own=$2
    [ "$1" != --minutes ] || minutes=$2
    [ "$1" != --value ] || value=$2
    shift 2
done
[ "$value" != 00 ] || { echo 'bad value' && exit 12; }
status=$(cat "$PLACE/$command.status" 2>/dev/null) && echo 'bad line 3' && exit "$status"
case $command in
    mint) echo "$(printf %040d 4) $(printf %064d 5) $(printf %040d 6)" ;;
    refresh) grep -v ' 127.0.0.1:9 ' ;;
    table) awk -v own="$own" '{ print "live", $0, 0; last = last "sibling " $0 "\n" } BEGIN { print "table " own " 8 1\nrow -" } END { print last "end" }' ;;
    peers) echo 'peers 0 found 1 asked 1 failed 0 turned 0 announced 1' ;;
    put) printf 'key\nfound 1 asked 1 failed 0 turned 0 stored 1\n' ;;
    node)
        input=$(cat)
        printf '%s\n' "$input" >>"$PLACE/inputs"
        trap 'kill $!; exit 143' TERM
        sleep "$((minutes / 10)).$((minutes % 10))" >/dev/null 2>&1 &
        wait $!
        printf '%s\n' "$input" | awk -v own="$own" '
            $1 == "find" { finds[$2] }
            $1 == "announce" { told = told $0 "\n127.0.0.1:7\npeers 1 found 1 asked 1 failed 0 turned 0 announced " ($3 != 9) "\n" }
            $1 == "put" { told = told "put 0\nkey 0\nfound 1 asked 1 failed 0 turned 0 stored 1\n" }
            NF == 2 && $2 ~ /:/ { live[$1] = $2; alive += $2 !~ /:9$/ }
            END {
                for (id in finds) print "find " id "\nfound " alive + 0 " asked 1 failed 0 turned 0"
                printf "%s", told
                print "received 7 replied 5\ntable " own " 8 1\nrow -"
                for (id in live) print "live", id, live[id], 0
                fflush()
                system("sleep 0.01")
                for (id in live) print "sibling", id, live[id]
                print "end"
            }' || exit 5
        ;;
esac
"""

# The table of such a program with one node.
SAVED = "table %s 8 1\nrow -\nlive %s 127.0.0.1:7 0\nsibling %s 127.0.0.1:7\nend\n" % ("4".zfill(40), "1".zfill(40), "1".zfill(40))
# The line of a node there that is dead.
DEAD = "live %s 127.0.0.1:9 0\n" % "9".zfill(40)
OWN_BY_STAND_IN = "4".zfill(40)  # the identifier that it mints
FIRST = line(identifier(1), "127.0.0.1", 7)  # a first contact that answers it
SHELLS = [shell for shell in (("dash",), ("bash", "--posix"), ("busybox", "sh")) if shutil.which(shell[0])]
SCRIPT = os.path.join(ROOT, "nolzavirt-keep")


def is_whole(table):
    return table.startswith("table ") and table.endswith("\nend\n") and table.count("live ") == table.count("sibling ")


class Kept:
    """A folder with the script as it is installed, and in it the folder `node` that it keeps. Its end ends the scripts."""

    def __init__(self):
        self.folder = tempfile.TemporaryDirectory()
        self.place = self.folder.name
        self.children = []
        os.chmod(self.place, 0o777)
        os.mkdir(self.file("node"))

    def file(self, name):
        return os.path.join(self.place, name)

    def put(self, name, text):
        with open(self.file(name), "w") as file:
            file.write(text)

    def text(self, name):
        """What a file has, empty if there is none."""
        try:
            with open(self.file(name)) as file:
                return file.read()
        except OSError:
            return ""

    def start(self, *more, shell=(), before=(), env=None, **options):
        """The script at work, with words before the folder's and behind. A minute of its own is a tenth of a second, too."""
        env = {**os.environ, "PLACE": self.place, "NOLZAVIRT_KEEP_MINUTE": "1", **(env or {})}
        words = [*shell, self.file("nolzavirt-keep"), *before, self.file("node"), *more]
        streams = {"stdin": subprocess.DEVNULL, "stdout": subprocess.PIPE, "stderr": subprocess.PIPE, "text": True}
        self.children.append(subprocess.Popen(words, env=env, **streams, **options))
        return self.children[-1]

    def run(self, *more, **options):
        """What the script said, and its status, once it has ended."""
        child = self.start(*more, **options)
        out, error = child.communicate(timeout=100)
        check(not out, "it wrote %r" % out)
        return subprocess.CompletedProcess(child.args, child.returncode, out, error)

    def periods(self):
        """The lines of the log for periods, each as its words behind the moment."""
        rows = [line.split() for line in self.text("node/log").splitlines()]
        return [dict(zip(row[1::2], row[2::2])) for row in rows if row[1:4:2] == ["period", "minutes"]]

    def each(self, *names):
        """What the periods say of these."""
        return [row[names[0]] if len(names) == 1 else {name: row[name] for name in names} for row in self.periods()]

    def inputs(self):
        """The lines of all that the stand-in's `node` was given."""
        return self.text("inputs").splitlines()

    def commands(self):
        """The words that the stand-in was given, a line for each run."""
        return self.text("words").splitlines()

    def close(self):
        for child in self.children:
            if child.poll() is None:
                child.terminate()
                child.communicate(timeout=100)
        self.folder.cleanup()


class KeeperTest(ProgramTest):
    def kept(self, **files):
        """The script beside the stand-in, and these files of the folder that it keeps."""
        kept = self.closed_at_the_end(Kept())
        shutil.copy(SCRIPT, kept.place)
        os.mkdir(kept.file("nolzavirt-files"))
        os.symlink(os.path.join(ROOT, "share"), kept.file("nolzavirt-files/share"))
        kept.put("nolzavirt", STAND_IN)
        os.chmod(kept.file("nolzavirt"), 0o755)
        for name, text in files.items():
            kept.put("node/" + name, text)
        return kept
