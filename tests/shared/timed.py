"""The processor time of runs that end by themselves."""

import os
import tempfile

from shared import program
from shared.program import check


def used_by(child):
    """The last line of a child's output once it has ended, and the processor time that it took, in seconds."""
    out = child.stdout.read().decode()
    child.stdout.close()
    _, status, used = os.wait4(child.pid, 0)
    child.returncode = os.waitstatus_to_exitcode(status)
    check(child.returncode == 0, "status %d, %r" % (child.returncode, out[-200:]))
    return out[:-1].rpartition("\n")[2], used.ru_utime + used.ru_stime


def run_of(words, text, wanted, is_end=False):
    """The processor time of a run with this last line, or with a last line that holds this, or with any where it is None."""
    with tempfile.TemporaryFile() as file:
        file.write(text.encode())
        file.seek(0)
        child = program.start(words, stdin=file)
    last, took = used_by(child)
    check(wanted in (last, None) or is_end and wanted in last, "%r in the place of %r" % (last, wanted))
    return took
