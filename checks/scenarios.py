"""The scenarios of crates/scenarios, as they stand in its files, and the program that plays them, without its proof."""
import os
import re
import tempfile

from building import build

ROOT = os.path.dirname(os.path.dirname(os.path.realpath(__file__)))
FOLDER = f"{ROOT}/crates/scenarios"
PROGRAM = f"{FOLDER}/out/unproved"


def read(path):
    with open(path, encoding="utf-8") as it:
        return it.read()


def files():
    """The files, those of parts first."""
    return sorted(os.listdir(f"{FOLDER}/data"), key=lambda it: (not it.endswith(".parts"), it))


def scenarios(file):
    """The scenarios of a file: (name, rows), where one without rows has None."""
    found = []
    for block in read(f"{FOLDER}/data/{file}").split("\n== ")[1:]:
        name, _, lines = block.partition("\n")
        if not name.startswith("part "):
            _, *rows = re.split(r"^each ", lines, maxsplit=1, flags=re.M) if file.endswith(".script") else [lines]
            said = [it for it in rows[0].split("\n")[1:] if it and not re.match("#|each ", it)] if rows else []
            found.append((name, len(said) if rows else None))
    return found


def alone(file):
    """The text of a file with each of its scenarios by itself, beside all its parts."""
    head, *blocks = read(f"{FOLDER}/data/{file}").split("\n== ")
    for place, block in enumerate(blocks):
        if not block.startswith("part "):
            kept = [it for at, it in enumerate(blocks) if at == place or it.startswith("part ")]
            yield "\n== ".join([head, *kept]) + "\n"


def printed():
    """What the program is to print where each scenario passes. One with rows is played once for each."""
    found = [rows for file in files() for _, rows in scenarios(file)]
    plays = sum(1 if rows is None else rows for rows in found)
    return f"{len(files())} files\n{plays} plays\n{len(found)} scenarios passed\n0 scenarios failed\n"


def youngest():
    """When the last file of code was written."""
    found = [os.path.getmtime(f"{ROOT}/crates.txt")]
    for name in os.listdir(f"{ROOT}/crates"):
        for at, _, names in os.walk(f"{ROOT}/crates/{name}/src"):
            found += [os.path.getmtime(f"{at}/{it}") for it in names]
    return max(found)


def program():
    """The program, built anew where a file of code is younger than it."""
    if not os.path.isfile(PROGRAM) or os.path.getmtime(PROGRAM) < youngest():
        os.makedirs(os.path.dirname(PROGRAM), exist_ok=True)
        with tempfile.TemporaryDirectory(prefix="talks-") as room:
            build(room, ROOT, "scenarios", PROGRAM)
    return PROGRAM
