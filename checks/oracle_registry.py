"""checks/oracle_registry.py: the commands that the oracle knows, and their texts, by the files of oracle_commands/."""
import glob
import importlib
import os

import oracle_words

FOLDER = os.path.join(os.path.dirname(os.path.realpath(__file__)), "oracle_commands")


def put_all(found, more, file):
    """Adds what a file has, none of which may stand elsewhere."""
    twice = sorted(set(found) & set(more))
    if twice:
        raise SystemExit(f"checks/oracle_commands/{file}.py: {twice[0]} stands twice")
    found.update(more)


# Each file by its name.
FILES = {}
for path in sorted(glob.glob(f"{FOLDER}/*.py")):
    FILES[os.path.basename(path)[:-3]] = importlib.import_module(f"oracle_commands.{os.path.basename(path)[:-3]}")

COMMANDS, TEXTS = {}, dict(oracle_words.TEXTS)
for name, it in FILES.items():
    put_all(COMMANDS, it.COMMANDS, name)
    put_all(TEXTS, getattr(it, "TEXTS", {}), name)
