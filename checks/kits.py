"""The toolchain's own `rt`, as a module: for scripts that call parts of it."""
import importlib.machinery
import importlib.util
import os
import shutil
import sys


def load_kit(asker):
    """The `rt` on the path, in which what is worked out of a crate's sources is worked out once for each crate.

    `rt` itself sums them up once for each path through crates.txt, which takes it minutes in the highest crates. So nothing may
    change a crate's sources while this is used.
    """
    found = shutil.which("rt") or sys.exit(f"{asker}: there is no rt on the path")
    loader = importlib.machinery.SourceFileLoader("rt_kit", os.path.realpath(found))
    kit = importlib.util.module_from_spec(importlib.util.spec_from_loader("rt_kit", loader))
    loader.exec_module(kit)
    crate = getattr(getattr(kit, "rtlib", None), "Crate", None)
    if not all(hasattr(crate, it) for it in ("stamp", "below")):
        sys.exit(f"{asker}: this rt has no parts that could be called")
    once(crate, "stamp")
    once(crate, "below")
    return kit


def once(kind, name):
    """Has a method of a crate be called once for each folder."""
    made, known = getattr(kind, name), {}

    def call(self):
        if self.folder not in known:
            known[self.folder] = made(self)
        it = known[self.folder]
        return [*it] if isinstance(it, list) else it

    setattr(kind, name, call)
