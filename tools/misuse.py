#!/usr/bin/env python3
"""Shows that calls which a phase does not offer are no program.

    tools/misuse.py

tools/misuse/client.txt is a program over the encoder. It must compile and run as it stands. With each
tools/misuse/*.edit (the compiler's error, a text that stands once in the client, and what comes in its
place) it must be refused by the compiler with that error. Nothing is proved here, so it takes seconds;
the status is 1 where something is not so.
"""
import glob
import os
import re
import sys
import tempfile

sys.dont_write_bytecode = True
from clients import TOP, compiled, prepare, read

FOLDER = os.path.join(TOP, "tools", "misuse")


def tell(name, well, said):
    print(f"misuse: {name}: {said}", flush=True)
    return well


def misused(room, client, path):
    """Whether the client with this edit is refused as the edit says."""
    name = os.path.basename(path)
    error, old, new = (found[1] for found in re.finditer(r"^(?:error|old|new): (.*)$", read(path), re.M))
    if client.count(old) != 1:
        return tell(name, False, "its text does not stand once in the client")
    status, _, said = compiled(room, client.replace(old, new))
    if status == 0:
        return tell(name, False, "NOT REFUSED")
    told = next((line for line in said.split("\n") if f"error[{error}]" in line), None)
    if told is None:
        return tell(name, False, f"refused for another reason than {error}:\n{said[:600]}")
    return tell(name, True, f"refused, as it must be: {told[:160]}")


def main():
    with tempfile.TemporaryDirectory(prefix="misuse-") as room:
        prepare(room)
        client = read(os.path.join(FOLDER, "client.txt"))
        status, printed, said = compiled(room, client)
        ran = tell("client", status == 0, f"runs, and prints {printed}" if status == 0
                   else f"does not run:\n{said[:600]}")
        edits = sorted(glob.glob(os.path.join(FOLDER, "*.edit")))
        refused = [misused(room, client, path) for path in edits]
    return 0 if ran and edits and all(refused) else 1


sys.exit(main())
