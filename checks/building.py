"""Builds a program of this repository by the toolchain's clang, from the code that `rt try` makes.

With its checks in it stops at an index out of bounds, an overflow or a failed `unwrap`, as `rt try` does. As the proof lets
the compiler build it, each of these is taken not to happen, which holds for what the gate has proved and for nothing else.
Nothing is proved of such a program either way: `rt run` builds the proved one.
"""
import os
import re
import shutil
import subprocess
import sys
import time

# What stands in the place of clang while `rt try` builds: it keeps the code, and how it was to be built, and builds nothing.
KEEPER = """#!/bin/sh
case "$*" in *-fsanitize=address*) /bin/cp module.bc '{room}/module.bc'; echo "$@" > '{room}/words'; exit 1 ;; esac
exec '{clang}' "$@"
"""

TARGET = "--target=x86_64-unknown-linux-gnu"

# What is proved: what a program is made from.
PROVED = ("crates", "crates.txt", "HANDLES")

# In LLVM's text: where a check has failed; what looks at a value before it is used.
FAILED, CHECK = "call void @llvm.trap()", 'call void @"rattle-llvm-checks::'

# What `halld --version` says of its commit, in whose place the first digits of one may stand.
UNSTAMPED = b"(commit unspecified)"

# A fresh local is filled with 0xAA.
FILL, WITH = "call void @llvm.memset", ", i8 -86, i64"

# The flag that is looked at after each call, whether another thread has failed.
FLAG = "load volatile i8, ptr @static.0"


def end(why):
    sys.exit(f"{os.path.basename(sys.argv[0])}: {why}")


def run(words, folder, **how):
    ran = subprocess.run(words, cwd=folder, stdin=subprocess.DEVNULL, capture_output=True, text=True, errors="replace", **how)
    if ran.returncode:
        end(f"{os.path.basename(words[0])} failed\n{ran.stdout}{ran.stderr}")
    return ran.stdout


def link_all(folder, to, but):
    os.makedirs(to)
    for name in os.listdir(folder):
        if name not in but:
            os.symlink(f"{folder}/{name}", f"{to}/{name}")


def kit_that_keeps(kit, room):
    """The toolchain's folder once more, with another clang, and without the check of names that `rt try` runs beside. Its
    `rt` finds the rest by its own path, so that is copied."""
    link_all(kit, f"{room}/kit", ["bin", "toolchain"])
    link_all(f"{kit}/bin", f"{room}/kit/bin", ["rt", "rtlib.py", "rattle"])
    os.symlink(shutil.which("true"), f"{room}/kit/bin/rattle")
    link_all(f"{kit}/toolchain", f"{room}/kit/toolchain", ["bin"])
    link_all(f"{kit}/toolchain/bin", f"{room}/kit/toolchain/bin", ["clang"])
    for name in ("rt", "rtlib.py"):
        shutil.copy(f"{kit}/bin/{name}", f"{room}/kit/bin/{name}")
    with open(f"{room}/kit/toolchain/bin/clang", "w", encoding="utf-8") as it:
        it.write(KEEPER.format(room=room, clang=f"{kit}/toolchain/bin/clang"))
    os.chmod(f"{room}/kit/toolchain/bin/clang", 0o755)


def link(kit, room, program):
    libraries = f"{kit}/toolchain/lib"
    words = [f"{kit}/toolchain/bin/ld.lld", "-m", "elf_x86_64", "-pie", "--gc-sections", "--eh-frame-hdr", "-o", program]
    words += ["--dynamic-linker", "/lib64/ld-linux-x86-64.so.2"]
    words += [f"{libraries}/{it}" for it in ("Scrt1.o", "crti.o", "crtbeginS.o")]
    words += [f"{room}/module.o", f"{kit}/c/libos_c.a", f"{kit}/c/liblibc_c.a"]
    ends = ("libm.so.6", "libc.so.6", "libc_nonshared.a", "ld-linux-x86-64.so.2", "libgcc.a", "crtendS.o", "crtn.o")
    run([*words, *[f"{libraries}/{it}" for it in ends]], room)


def kit_of():
    """The toolchain's folder."""
    rt = shutil.which("rt") or end("there is no rt on the path")
    return os.path.dirname(os.path.dirname(os.path.realpath(rt)))


def git(root, *words):
    """What git says in a folder, or nothing where it fails."""
    try:
        ran = subprocess.run(["git", "-C", root, *words], stdin=subprocess.DEVNULL, capture_output=True, text=True, errors="replace")
    except OSError:
        return None
    return ran.stdout if ran.returncode == 0 else None


def unproved(root):
    """Why it can't be taken for granted that the gate has proved the crates as they stand here; nothing where it can."""
    top = git(root, "rev-parse", "--show-toplevel")
    if top is None or os.path.realpath(top.strip()) != os.path.realpath(root):
        return "this is no checkout of git"
    if git(root, "rev-parse", "--verify", "--quiet", "refs/remotes/origin/main") is None:
        return "there is no origin/main"
    if git(root, "merge-base", "--is-ancestor", "HEAD", "refs/remotes/origin/main") is None:
        return "this commit isn't on origin/main"
    changed = git(root, "status", "--porcelain", "--untracked-files=all", "--", *PROVED)
    if changed is None:
        return "git doesn't tell what has changed"
    return f"{changed.splitlines()[0][3:]} has changed" if changed else ""


def commit_of(root):
    """The first eleven digits of the commit whose crates these are; nothing where they have changed, or git can't tell."""
    changed = git(root, "status", "--porcelain", "--untracked-files=all", "--", *PROVED)
    head = git(root, "rev-parse", "HEAD")
    return head.strip()[:11] if head and changed == "" else None


def stamp(program, commit):
    """Has a program's `--version` tell this commit, where it says that it tells none."""
    with open(program, "rb") as it:
        code = it.read()
    if commit and code.count(UNSTAMPED) == 1:
        with open(program, "r+b") as it:
            it.seek(code.index(UNSTAMPED))
            it.write(f"(commit {commit})".encode())


def without_checks(room, kept):
    """Takes the checks out of the code. Functions whose names begin so stay functions, for who counts them."""
    with open(f"{room}/module.ll", encoding="utf-8", errors="replace") as it, open(f"{room}/free.ll", "w", encoding="utf-8") as to:
        for line in it:
            said = line.strip()
            if said == FAILED or said.startswith(CHECK) or said.startswith(FILL) and WITH in said:
                continue
            if FLAG in line:
                line = line.replace("load volatile", "load")
            elif line.startswith("attributes"):
                line = re.sub(r' sanitize_address|"frame-pointer"="all" ?', "", line)
                line = re.sub(r"\{\s*\}", "{ nounwind }", line)
            elif kept and line.startswith("define") and any(f'@"{name}' in line for name in kept):
                line = re.sub(r"\) (#\d+ \{)$", r") noinline \1", line)
            to.write(line)


def code_of(kit, room, root, crate, more):
    """Has `rt try` make a program's code, and answers how it was to be compiled."""
    kit_that_keeps(kit, room)
    how = {"stdin": subprocess.DEVNULL, "capture_output": True, "text": True, "errors": "replace"}
    ran = subprocess.run([sys.executable, f"{room}/kit/bin/rt", "try", *more], cwd=f"{root}/crates/{crate}", **how)
    if not os.path.isfile(f"{room}/module.bc"):
        end(f"{crate} isn't built\n{ran.stdout}{ran.stderr}")
    with open(f"{room}/words", encoding="utf-8") as it:
        return [it for it in it.read().split() if it not in ("-O0", "-fsanitize=address")]


def build(room, root, crate, program, more=(), as_proved=False, tell=None, kept=()):
    """Builds a crate's program to this file, in a room of its own; its tests with `--test`. `tell` is told each step, and
    how many seconds it took."""
    tell, kit, begun = tell or (lambda *_: None), kit_of(), time.monotonic()

    def done(step):
        nonlocal begun
        tell(step, time.monotonic() - begun)
        begun = time.monotonic()

    words = code_of(kit, room, root, crate, more)
    done("code made")
    clang = f"{kit}/toolchain/bin/clang"
    if as_proved:
        run([clang, TARGET, "-S", "-emit-llvm", "-x", "ir", "module.bc", "-o", "module.ll", "-O0", "-Xclang", "-disable-llvm-passes"], room)
        without_checks(room, kept)
        words = ["free.ll" if it == "module.bc" else it for it in words]
        done("checks taken out")
    run([clang, *words, "-O3"], room)
    link(kit, room, program)
    stamp(program, commit_of(root))
    done("compiled")
