"""A machine apart: this one's files, with namespaces of its own, in which systemd runs.

What is written there is gone with it, its network is a loopback of its own, and its processes end with it. It wants root,
Debian's packages systemd and util-linux, overlayfs, and control groups of version 2.
"""
import contextlib
import os
import re
import shutil
import signal
import subprocess
import tempfile
import threading
import time

SYSTEMD = "/lib/systemd/systemd"

# Makes it, in namespaces that are new. Its root is this machine's with a layer above it; /proc/sys and /sys can't be
# written, and systemd knows none of this machine's units. Then the visitor's words are run, which come after those of this
# script, and systemd is the first process.
SCRIPT = r"""
set -e
room=$1 sees=$2; shift 2
mount --make-rprivate /
mount -t tmpfs none "$room"
mkdir "$room/upper" "$room/work" "$room/root"
mount -t overlay -o "lowerdir=/,upperdir=$room/upper,workdir=$room/work" none "$room/root"
cd "$room/root"
mount -t proc none proc
mount -o bind,ro proc/sys proc/sys
mount -t sysfs -o ro none sys
mount -t cgroup2 none sys/fs/cgroup
mount -t tmpfs -o mode=755 none dev
for it in null zero full random urandom tty; do touch "dev/$it"; mount --bind "/dev/$it" "dev/$it"; done
mkdir dev/shm dev/pts
ln -s pts/ptmx dev/ptmx
mount -t devpts -o newinstance none dev/pts
for it in run usr/lib/systemd/system etc/systemd/system; do mount -t tmpfs -o mode=755 none "$it"; done
for it in tmp var/tmp; do mount -t tmpfs -o mode=1777 none "$it"; done
for it in $sees; do mkdir -p ".$it"; mount --bind "$it" ".$it"; mount -o remount,bind,ro ".$it"; done
for it in basic multi-user network-online shutdown sysinit; do
  printf '[Unit]\nDefaultDependencies=no\n' > "usr/lib/systemd/system/$it.target"
done
rm -f usr/sbin/policy-rc.d
pivot_root . mnt
cd /
umount -l mnt
mount --make-rshared /
( for _ in $(seq 100); do [ -S run/systemd/private ] && break; sleep 0.1; done
  set +e; "$@"; echo "apart: ended with $?" ) &
exec env -i container=other PATH=/usr/sbin:/usr/bin:/sbin:/bin "$SYSTEMD" --system --unit=basic.target
"""


def group():
    """This process's own folder of control groups; nothing where there is none."""
    with open("/proc/self/mounts", encoding="utf-8") as it:
        places = [line.split()[1] for line in it if line.split()[2] == "cgroup2"]
    with open("/proc/self/cgroup", encoding="utf-8") as it:
        own = [line.strip()[3:] for line in it if line.startswith("0::")]
    return places[0] + own[0].rstrip("/") if places and own else None


def missing():
    """Why there can be no such machine here; nothing where there can."""
    if os.geteuid() != 0:
        return "only root can make a machine apart"
    for it in (SYSTEMD, "systemctl", "unshare"):
        if shutil.which(it) is None:
            return f"there is no {os.path.basename(it)} (Debian's packages systemd and util-linux)"
    with open("/proc/filesystems", encoding="utf-8") as it:
        if "overlay" not in it.read().split():
            return "there is no overlayfs"
    return "" if group() else "there are no control groups of version 2"


@contextlib.contextmanager
def group_of_its_own():
    """A control group below this process's own. It is removed at the end, with all below it."""
    place = f"{group()}/apart-{os.getpid()}"
    os.mkdir(place)
    try:
        yield place
    finally:
        until = time.monotonic() + 5
        while os.path.isdir(place) and time.monotonic() < until:
            time.sleep(0.02)
            for at, _, _ in os.walk(place, topdown=False):
                with contextlib.suppress(OSError):
                    os.rmdir(at)


def enter(place):
    with open(f"{place}/cgroup.procs", "w", encoding="utf-8") as it:
        it.write("0")


def visit(words, sees, seconds=300):
    """Runs words in such a machine, which sees these folders of this one as they are, and gives their status, or nothing
    where there was no such machine, or it took longer. What is said there is printed."""
    status = None
    with group_of_its_own() as place, tempfile.TemporaryDirectory(prefix="apart-") as room:
        apart = ["unshare", "--mount", "--pid", "--fork", "--kill-child", "--mount-proc", "--cgroup", "--uts", "--ipc", "--net"]
        apart += ["bash", "-c", SCRIPT, "apart", room, " ".join(sees), *words]
        how = {"stdin": subprocess.DEVNULL, "stdout": subprocess.PIPE, "stderr": subprocess.STDOUT, "text": True}
        how |= {"preexec_fn": lambda: enter(place), "start_new_session": True}
        with subprocess.Popen(apart, env={**os.environ, "SYSTEMD": SYSTEMD}, **how) as ran:
            late = threading.Timer(seconds, ran.kill)
            late.start()
            for line in ran.stdout:
                ended = re.fullmatch(r"apart: ended with (\d+)\n", line)
                if ended:
                    status = int(ended[1])
                    break
                print(line, end="", flush=True)
            late.cancel()
            ran.send_signal(signal.SIGKILL)
    return status
