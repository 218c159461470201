#!/usr/bin/env python3
"""Compiles and runs the examples of the README.

    tools/examples.py

tools/examples has whole programs, NAME.txt, and what each prints, NAME.out. Each block of Rust in README.md has to
be a run of lines of one of them, and each of them has to have such a block. Each is compiled and run, and has to print
what is expected. Nothing is proved here; the status is 1 where something is not so.
"""
import glob
import os
import re
import sys
import tempfile

sys.dont_write_bytecode = True
from clients import TOP, compiled, prepare, read

FOLDER = os.path.join(TOP, "tools", "examples")


def tell(name, well, said):
    print(f"examples: {name}: {said}", flush=True)
    return well


def shown(programs):
    """Whether the README's blocks are lines of the programs, and leave none of the programs out."""
    blocks = re.findall(r"^```rust\n(.*?)^```", read(os.path.join(TOP, "README.md")), re.M | re.S)
    of = {block: [name for name, text in programs.items() if f"\n{block}" in f"\n{text}"] for block in blocks}
    strangers = [block for block in blocks if not of[block]]
    for block in strangers:
        tell("README.md", False, f"these lines stand in no example:\n{block}")
    left_out = [name for name in programs if not any(name in names for names in of.values())]
    for name in left_out:
        tell(name, False, "README.md shows no line of it")
    return not strangers and not left_out


def runs(room, name, text):
    """Whether the program compiles, runs and prints what is expected of it."""
    status, printed, said = compiled(room, text)
    if status:
        return tell(name, False, f"does not run:\n{said[:600]}")
    if printed != read(os.path.join(FOLDER, f"{name}.out")).strip():
        return tell(name, False, f"prints something else than expected:\n{printed[:600]}")
    return tell(name, True, "runs, and prints what is expected")


def main():
    paths = sorted(glob.glob(os.path.join(FOLDER, "*.txt")))
    programs = {os.path.basename(path)[:-len(".txt")]: read(path) for path in paths}
    with tempfile.TemporaryDirectory(prefix="examples-") as room:
        prepare(room)
        answers = [shown(programs)] + [runs(room, name, text) for name, text in programs.items()]
    return 0 if programs and all(answers) else 1


sys.exit(main())
