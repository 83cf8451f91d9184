#!/usr/bin/env python3
"""Runs the kit's command with less work for its stamps.

    tools/stamps.py RT WORD ..

RT is the kit's command, WORD .. are its words. A crate's stamp is a sum of its files and of the stamps of the crates that it uses.
The kit makes the stamps below anew on each way down to them, so that one of the program reads the lowest crate some thousand times,
and `rt run` takes a minute for them. Here a crate is read once for each stamp that is asked for: what is summed is the same."""

import importlib.machinery
import importlib.util
import os
import sys
import threading

sys.dont_write_bytecode = True


def load(file):
    """The kit's command as a module."""
    loader = importlib.machinery.SourceFileLoader("rt", os.path.realpath(file))
    made = importlib.util.module_from_spec(importlib.util.spec_from_loader("rt", loader))
    loader.exec_module(made)
    return made


def make_each_once(rt):
    """Has the kit make each crate's stamp once while it makes that of a crate above."""
    made, kept = rt.rtlib.Crate.stamp, threading.local()

    def stamp(crate):
        stamps = getattr(kept, "stamps", None)
        if stamps is None:
            kept.stamps = {}
            try:
                return made(crate)
            finally:
                kept.stamps = None
        if crate not in stamps:
            stamps[crate] = made(crate)
        return stamps[crate]

    rt.rtlib.Crate.stamp = stamp


def main():
    kit, words = sys.argv[1], sys.argv[2:]
    try:
        rt = load(kit)
        make_each_once(rt)
        run = rt.main
    except (AttributeError, OSError, TypeError):
        # The kit is another than this file knows.
        os.execv(kit, [kit, *words])
    return run(words)


if __name__ == "__main__":
    sys.exit(main())
