"""Programs over the crates that are compiled and run with no proof: what tools/misuse.py and tools/examples.py share."""
import os
import shutil
import subprocess

TOP = os.path.realpath(os.path.join(os.path.dirname(os.path.abspath(__file__)), ".."))
DEPS = "command_list list_writer device list_bytes labels resources layouts bindings passes encoder runs list_encode"


def read(path):
    with open(path, encoding="utf-8") as file:
        return file.read()


def prepare(room):
    """Lays the crates, as far as a compiler reads them, and an empty one for the client into the folder."""
    shutil.copytree(os.path.join(TOP, "crates"), os.path.join(room, "crates"),
                    ignore=shutil.ignore_patterns("out", "must-fail", "data"))
    os.makedirs(os.path.join(room, "crates", "client", "src"))
    with open(os.path.join(room, "crates.txt"), "w", encoding="utf-8") as file:
        file.write(f"{read(os.path.join(TOP, 'crates.txt'))}\nclient: {DEPS}\n")


def compiled(room, text):
    """What becomes of the client with this text: its status, what it printed, and what was said of it."""
    with open(os.path.join(room, "crates", "client", "src", "main.rt"), "w", encoding="utf-8") as file:
        file.write(text)
    ran = subprocess.run(["rt", "try"], cwd=os.path.join(room, "crates", "client"), stdin=subprocess.DEVNULL,
                         capture_output=True, text=True, errors="replace")
    return ran.returncode, ran.stdout.strip(), ran.stderr.strip()
