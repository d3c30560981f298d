"""A server that is tried over the loopback, and its clients by TCP."""
import contextlib
import multiprocessing
import os
import re
import resource
import socket
import struct
import subprocess
import threading
import time

# The longest that an answer may take, in seconds.
SLOW = 2.0

# Threads of a server beside its workers, however many clients it has: the one that accepts, the one that reads
# standard input, and, unless it is to be quiet, the one that writes to standard error.
BESIDE_WORKERS = 3

# What a server says where its journal was rolled: how often, and how many records were dropped.
ROLLED = re.compile(r"halld: journal rolled: (\d+), records dropped: (\d+)\n")

# What a server says where it turned connections away: how many.
REFUSED = re.compile(r"halld: connections refused: (\d+)\n")

# What a server says that ends with its standard input, unless it is to be quiet.
INPUT_ENDED = "halld: standard input ended\n"

# What a client is told at last that has quit.
CLIENT_QUIT = "ERROR :Closing Link: 127.0.0.1 (Client Quit)"

# An address of which the system chooses the port.
ANY_PORT = "127.0.0.1:0"


class Server:
    """A server with these words after `serve`, which takes WebSockets where `has_web`. What it says goes to a pipe of
    its own, or to `errors`: the two ends of one."""

    def __init__(self, program, *words, limits=(), env=None, has_web=False, stdin=subprocess.PIPE, errors=None):
        self.program = program
        words = [program, "serve", "--tcp", ANY_PORT, *(["--ws", ANY_PORT] if has_web else []), *words]
        set_limits = lambda: [resource.setrlimit(it, (most, most)) for it, most in dict(limits).items()]
        how = {"stdin": stdin, "stdout": subprocess.PIPE, "stderr": errors[1] if errors else subprocess.PIPE}
        self.process = subprocess.Popen(words, **how, preexec_fn=set_limits, env=env)
        self.errors = os.fdopen(errors[0], "rb") if errors else self.process.stderr
        self.is_refused = False
        # How many connections it turned away, as those saw that made them.
        self.turned_away = 0
        self.port, self.ws = self.port_said(), self.port_said() if has_web else None
        workers = int(words[words.index("--workers") + 1]) if "--workers" in words else 2
        self.threads_at_rest = workers + BESIDE_WORKERS - ("--quiet" in words)
        wait_until(lambda: self.process.poll() is not None or self.threads() == self.threads_at_rest)
        self.descriptors_at_rest = self.descriptors() if self.process.poll() is None else 0

    def port_said(self):
        """On which port it says that it listens."""
        said = self.errors.readline().decode()
        if said == "refused\n":
            self.is_refused, said = True, self.errors.readline().decode()
        found = re.fullmatch(r"halld: listening on 127\.0\.0\.1:(\d+)\n", said)
        assert found, f"it said {said!r}"
        return int(found[1])

    def threads(self):
        return len(os.listdir(f"/proc/{self.process.pid}/task"))

    def ticks(self):
        """Ticks of the processor that it took."""
        with open(f"/proc/{self.process.pid}/stat", encoding="utf-8") as it:
            return sum(int(word) for word in it.read().rpartition(")")[2].split()[11:13])

    def memory(self):
        with open(f"/proc/{self.process.pid}/status", encoding="utf-8") as it:
            return int(re.search(r"VmRSS:\s+(\d+)", it.read())[1])

    def descriptors(self):
        return len(os.listdir(f"/proc/{self.process.pid}/fd"))

    def settles(self):
        """Whether it has the threads of a server with no client, however many it has."""
        return wait_until(lambda: self.threads() == self.threads_at_rest)

    def stop(self, seconds=30):
        """Ends its standard input, and gives its status and the rest of what it said, but that its input ended."""
        self.process.stdin.close()
        status = self.process.wait(seconds)
        return status, self.errors.read().decode().removesuffix(INPUT_ENDED)

    def kill(self):
        if self.process.poll() is None:
            self.process.kill()
            self.process.wait()

    def __enter__(self):
        return self

    def __exit__(self, *_):
        self.kill()


def rolls_in(said):
    """How often the journal was rolled, by what a server said."""
    return sum(int(count) for count, _ in ROLLED.findall(said))


def take_little(it):
    """Has a socket that isn't connected yet take little, and the system keep little of what the other side writes: it
    keeps a number of segments, which are short here."""
    it.setsockopt(socket.SOL_SOCKET, socket.SO_RCVBUF, 4096)
    it.setsockopt(socket.IPPROTO_TCP, socket.TCP_MAXSEG, 1000)


class Client:
    def __init__(self, server, name=None, rest="", small=False):
        self.socket = socket.socket()
        self.socket.settimeout(10)
        if small:
            take_little(self.socket)
        self.socket.connect(("127.0.0.1", server.port))
        self.socket.setsockopt(socket.IPPROTO_TCP, socket.TCP_NODELAY, 1)
        self.left, self.name = b"", name
        if name:
            self.send(f"NICK {name}", f"USER {name} 0 * :{name}")
            self.hear(f" 422 {name} ")
        if rest:
            self.send(*rest.split("\n"))

    def send(self, *lines):
        self.socket.sendall("".join(f"{it}\r\n" for it in lines).encode("latin-1"))

    def line(self):
        """The next line, or nothing at the end. A PING of the server is answered, and isn't told."""
        line = self.any_line()
        while line == ":irc.example PING irc.example":
            self.send("PONG irc.example")
            line = self.any_line()
        return line

    def any_line(self):
        while b"\n" not in self.left:
            got = self.socket.recv(65536)
            if not got:
                return ""
            self.left += got
        line, _, self.left = self.left.partition(b"\n")
        return line.decode("latin-1").rstrip("\r")

    def hear(self, part):
        """Reads lines until one has this part."""
        for line in iter(self.line, ""):
            if part in line:
                return line
        raise AssertionError(f"the stream ended before {part!r}")

    def rest(self):
        """All lines until the end."""
        lines = []
        with contextlib.suppress(ConnectionResetError):
            lines += iter(self.line, "")
        return lines

    def reset(self):
        self.socket.setsockopt(socket.SOL_SOCKET, socket.SO_LINGER, struct.pack("ii", 1, 0))
        self.socket.close()

    def close(self):
        self.socket.close()


class Bystander(threading.Thread):
    """A client that pings, and notes the longest wait for an answer."""

    def __init__(self, server):
        super().__init__(daemon=True)
        self.client, self.worst, self.count, self.fault, self.ends = Client(server, "bystander"), 0.0, 0, None, False
        self.start()

    def run(self):
        try:
            while not self.ends:
                began = time.monotonic()
                self.client.send(f"PING {self.count}")
                self.client.hear(f"PONG irc.example {self.count}")
                self.worst, self.count = max(self.worst, time.monotonic() - began), self.count + 1
                time.sleep(0.01)
        except (OSError, AssertionError) as fault:
            self.fault = fault

    def leave(self):
        self.ends = True
        self.join(10)
        assert self.fault is None, f"the bystander: {self.fault!r}"
        assert self.count > 0, "the bystander was never answered"
        assert self.worst < SLOW, f"the bystander waited for {self.worst:.1f} s"
        self.client.close()


def wait_until(test, seconds=20):
    for _ in range(int(seconds * 50)):
        if test():
            return True
        time.sleep(0.02)
    return False


def is_taken(server):
    """Whether a client that comes now is answered. One that is turned away may be reset, since it has sent
    something."""
    client = Client(server)
    is_answered = False
    with contextlib.suppress(ConnectionError):
        client.send("PING x")
        is_answered = client.line() != ""
    client.close()
    server.turned_away += not is_answered
    return is_answered


def is_on(client, nick, channel):
    """Whether a client sees this nickname on a channel. Who is shut for not reading is there until its writer gives
    up."""
    client.send(f"NAMES {channel}")
    names = client.hear(" 353 ")
    client.hear(" 366 ")
    return nick in names


def percentile(waits, part):
    """The wait, in milliseconds, that so many hundredths of them don't pass."""
    return sorted(waits)[min(len(waits) - 1, len(waits) * part // 100)] * 1000


def pings(client, count, pause=0.01):
    """How long a client waits for the answers to so many PINGs."""
    waits = []
    for number in range(count):
        began = time.monotonic()
        client.send(f"PING {number}")
        client.hear(f" PONG irc.example {number}")
        waits.append(time.monotonic() - began)
        time.sleep(pause)
    return waits


class Beside:
    """What a process of its own does to a server meanwhile: a function of these words, and of when it is to end."""

    def __init__(self, server, function, *words):
        self.server, self.function, self.ends = server, function, multiprocessing.Event()
        self.process = multiprocessing.Process(target=self.run, args=words, daemon=True)

    def run(self, *words):
        # (else the server's standard input would have no end before that of this process)
        self.server.process.stdin.close()
        with contextlib.suppress(ConnectionError, TimeoutError):
            self.function(*words, self.ends)

    def __enter__(self):
        self.process.start()
        return self

    def __exit__(self, *_):
        self.ends.set()
        self.process.join(10)
