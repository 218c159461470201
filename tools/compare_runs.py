#!/usr/bin/env python3
"""Runs scripts through the program and compares what it prints with what is expected.

    tools/compare_runs.py [FOLDER]

FOLDER has the scripts, NAME.script, and what is printed of each with --pass, NAME.out; crates/yefrannir/data if none
is given. The program is built first, if need be. The last line is 'N runs agree, M differ'; the status is 1 if one
differs, or if there is none.
"""
import glob
import itertools
import os
import subprocess
import sys

TOP = os.path.realpath(os.path.join(os.path.dirname(os.path.abspath(__file__)), ".."))


def agrees(script):
    """Whether a script's run prints what is expected. Where it does not, the first such line is told."""
    ran = subprocess.run([os.path.join(TOP, "yefrannir"), "run", script, "--pass"], capture_output=True, text=True)
    with open(script[:-len("script")] + "out", encoding="utf-8") as file:
        wanted = file.read().splitlines()
    if ran.returncode:
        print("%s: status %d: %s" % (script, ran.returncode, ran.stderr.strip()))
        return False
    for at, (got, want) in enumerate(itertools.zip_longest(ran.stdout.splitlines(), wanted), 1):
        if got != want:
            print("%s: line %d of what is printed:\n  is       %s\n  expected %s" % (script, at, got, want))
            return False
    return True


def main():
    folder = sys.argv[1] if len(sys.argv) > 1 else os.path.join(TOP, "crates", "yefrannir", "data")
    answers = [agrees(script) for script in sorted(glob.glob(os.path.join(folder, "*.script")))]
    print("%d runs agree, %d differ" % (answers.count(True), answers.count(False)))
    return 0 if answers and all(answers) else 1


sys.exit(main())
