"""A server from its start to its end: what it says, what it is refused, and how it ends."""
import contextlib
import fcntl
import os
import re
import resource
import subprocess
import tempfile
import time

from hostile_marks import alone
from refusing import Clocks, Orders, refuser
from served import ANY_PORT, CLIENT_QUIT, INPUT_ENDED, REFUSED, ROLLED
from served import Client, Server, is_taken, pings, rolls_in, wait_until
from web_client import WebClient


def ended(program, *words, given=b""):
    ran = subprocess.run([program, *words], input=given, capture_output=True, timeout=30)
    return ran.returncode, ran.stdout.decode(), ran.stderr.decode()


@alone
def everybody_hears_of_the_end(program):
    """At the end everybody is told, whoever reads and whoever doesn't."""
    server = Server(program)
    clients = [Client(server, f"n{it}", "JOIN #a") for it in range(20)]
    for client in clients:
        client.hear(" 366 ")
    deaf = Client(server, "deaf", "JOIN #a")
    time.sleep(0.2)
    began = time.monotonic()
    status, said = server.stop()
    assert (status, said) == (0, ""), f"it ended with {status} and said {said!r}"
    assert time.monotonic() - began < 15
    for client in clients:
        assert client.rest()[-1] == "ERROR :Closing Link: 127.0.0.1 (Server shutting down)"
    deaf.close()


@alone
def journal_that_is_full(program):
    """Where the journal is full it is rolled, and the server goes on. It takes as many clients as the journal has room
    for."""
    server = Server(program, "--limit", "20")
    clients = [Client(server, f"n{it}") for it in range(9)]
    more = Client(server)
    assert more.rest() == [], "one more got a line"
    more.close()
    clients[0].send("JOIN #a", *[f"PING {it}" for it in range(1000)])
    clients[0].hear(" 366 ")
    for number in range(1000):
        line = clients[0].line()
        assert line == f":irc.example PONG irc.example {number}", line
    clients[8].send("WHOIS n0", "QUIT")
    assert clients[8].hear(" 319 ") == ":irc.example 319 n8 n0 :@#a"
    clients[8].hear(" 318 ")
    assert clients[8].rest() == [CLIENT_QUIT]
    assert wait_until(lambda: is_taken(server)), "nobody is taken after one left"
    for client in clients:
        client.close()
    status, said = server.stop()
    refused = sum(map(int, REFUSED.findall(said)))
    rest = REFUSED.sub("", ROLLED.sub("", said))
    assert (status, rest) == (0, "") and refused > 0, f"it ended with {status} and said {said!r}"
    # 9 clients, 1,000 lines and more, in room for 20 records
    assert rolls_in(said) > 60, said
    assert all(int(dropped) <= 20 * int(count) for count, dropped in ROLLED.findall(said)), said


@alone
def journal_of_few_octets(program):
    """The journal is rolled where clients have sent more octets than it is to keep, and nobody notices."""
    server = Server(program, "--journal-bytes", "65536")
    client, text = Client(server, "al"), "x" * 400
    for number in range(2000):
        client.send(f"PING {number} :{text}")
    for number in range(2000):
        assert client.line() == f":irc.example PONG irc.example {number}"
    time.sleep(1.5)
    client.send("WHOIS al", "QUIT")
    assert client.hear(" 311 ").startswith(":irc.example 311 al al al 127.0.0.1 ")
    client.rest()
    client.close()
    status, said = server.stop()
    assert (status, ROLLED.sub("", said)) == (0, ""), f"it ended with {status} and said {said!r}"
    # 2,000 lines have some 820,000 octets
    assert 10 <= rolls_in(said) <= 14, said
    quiet = Server(program, "--limit", "10")
    client = Client(quiet, "al")
    client.send(*["PING x"] * 1000)
    for _ in range(1000):
        client.hear("PONG")
    client.close()
    status, said = quiet.stop()
    assert status == 0 and rolls_in(said) > 0, f"it ended with {status} and said {said!r}"


def visit(server, name):
    """Says a few things as a new client, and answers whether all was served, up to its end."""
    client = Client(server)
    lines = []
    with contextlib.suppress(ConnectionError):
        client.send(f"NICK {name}", f"USER {name} 0 * :{name}", "JOIN #a", f"PRIVMSG #a,{name} :hi")
        client.send(f"WHOIS {name}", "LIST", "QUIT")
        lines = client.rest()
    client.close()
    served = lines[-1:] == [CLIENT_QUIT] and f":{name}!{name}@127.0.0.1 PRIVMSG {name} :hi" in lines
    ended = lines[-1:] in ([], ["ERROR :Closing Link: 127.0.0.1 (Out of memory)"])
    assert served or ended, lines
    return served


@alone
def memory_that_is_refused(program):
    """One allocation fails: at most one client is turned away or ended for it, or the server says so and doesn't
    start. So for each of the first 120 allocations, and then for each seventh."""
    counts, number, is_there = [0, 0, 0], 0, True
    with tempfile.TemporaryDirectory() as room:
        env = {"LD_PRELOAD": refuser(room)}
        while is_there:
            number += 1 if number < 120 else 7
            try:
                server = Server(program, env={**env, "REFUSED": str(number)})
            except AssertionError as fault:
                assert re.search("out of memory|cannot listen|settings", str(fault)), fault
                counts[0] += 1
                continue
            if server.process.poll() is not None:
                ended_so = server.stop()
                assert ended_so == (1, "refused\nhalld: out of memory\n"), f"growth {number}: {ended_so}"
                counts[0] += 1
                continue
            served = [visit(server, name) for name in ("al", "bo", "cy")]
            status, said = server.stop()
            is_there = server.is_refused or "refused\n" in said
            rest = said.replace("refused\n", "")
            is_well = status == 0 and rest in ("", "halld: connections refused: 1\n")
            assert is_well, f"growth {number}: it ended with {status} and said {said!r}"
            assert served.count(False) <= (1 if is_there else 0), f"growth {number}: {served}"
            counts[1 if False in served else 2] += is_there
    return "passed; it didn't start {} times, a client was ended {} times, and nobody noticed {} times".format(*counts)


@alone
def all_memory_that_is_refused_from_now_on(program):
    """Every allocation fails from some moment on, while twenty talk: they are told and closed, and the server ends
    soon after its standard input. So for a number of moments."""
    with tempfile.TemporaryDirectory() as room:
        orders, most = Orders(room), 0
        for moment in range(1, 1200, 171):
            orders.refuse_none()
            with Server(program, env=orders.env) as server:
                clients = [Client(server, f"n{it}", "JOIN #a") for it in range(20)]
                for client in clients:
                    client.hear(" 366 ")
                orders.refuse(moment, 1)
                for lines in ["PRIVMSG #a :x", "PING x", "WHOIS n1"] * 5, ["PING y"]:
                    for client in clients:
                        with contextlib.suppress(ConnectionError):
                            client.send(*lines)
                    time.sleep(0.2)
                for client in clients:
                    assert client.rest()[-1:] == ["ERROR :Closing Link: 127.0.0.1 (Out of memory)"]
                    client.close()
                began = time.monotonic()
                assert server.stop(8) == (0, "")
                most = max(most, time.monotonic() - began)
        return f"passed; it ended after {most:.1f} s at most"


class Talk:
    """Twenty clients on a channel, six of them by WebSocket, of which each that ends is followed by another."""

    def __init__(self, server):
        self.server, self.number, self.ended, self.refused = server, 0, 0, 0
        self.clients = [None] * 20
        self.last = [{} for _ in self.clients]

    def come(self, at):
        """Another client at this place. Where one is turned away, or is ended before it is there, others follow."""
        while not self.clients[at] and self.refused < 300:
            self.number += 1
            client = None
            try:
                client = (WebClient if at < 6 else Client)(self.server, f"n{self.number}")
                client.send("JOIN #a")
                client.hear(" 366 ")
                self.clients[at], self.last[at] = client, {}
            except (AssertionError, ConnectionError, EOFError):
                # (a stream that stays open and silent is none of these, but a timeout)
                self.refused += 1

    def leave(self, at, line):
        """The client at this place was ended, for want of memory."""
        client, self.clients[at] = self.clients[at], None
        is_told = line == "ERROR :Closing Link: 127.0.0.1 (Out of memory)"
        assert is_told or at < 6 and client.code in (1011, 1013), f"{line!r}, {at}"
        client.close()
        self.ended += 1

    def say(self, at, turn):
        """The client at this place says a text, and hears what the others said since."""
        client, line = self.clients[at], ""
        with contextlib.suppress(ConnectionError):
            client.send(f"PRIVMSG #a :{turn}", f"PING {turn}")
            for heard in iter(client.line, ""):
                line = heard
                if line == f":irc.example PONG irc.example {turn}":
                    return
                head, _, text = line.partition(" PRIVMSG #a :")
                if text:
                    last = self.last[at].get(head, int(text) - 1)
                    assert int(text) == last + 1, f"{head}: {text} after {last}"
                    self.last[at][head] = int(text)
        self.leave(at, line)


@alone
def one_allocation_in_so_many_is_refused(program):
    """One allocation in a thousand, in 311 and in 97 is refused, while twenty talk over a journal that is rolled again
    and again: some are ended for that and told so, who stays hears each text once and in order, nobody's stream stays
    open and silent, and the server goes on."""
    told = []
    with tempfile.TemporaryDirectory() as room:
        orders = Orders(room)
        for step in (1000, 311, 97):
            orders.refuse_none()
            with Server(program, "--limit", "200", has_web=True, env=orders.env) as server:
                talk = Talk(server)
                for at, _ in enumerate(talk.clients):
                    talk.come(at)
                orders.refuse(step, step)
                for turn in range(30):
                    for at, _ in enumerate(talk.clients):
                        talk.come(at)
                        if talk.clients[at]:
                            talk.say(at, turn)
                orders.refuse_none()
                assert talk.ended > 0
                assert visit(server, "al")
                for client in filter(None, talk.clients):
                    client.close()
                status, said = server.stop()
                rest = REFUSED.sub("", ROLLED.sub("", said))
                assert (status, rest) == (0, "") and rolls_in(said) > 0, f"it ended with {status} and said {said!r}"
                told.append(f"one in {step}: {talk.ended} were ended, {talk.refused} turned away")
    return f"passed; {'; '.join(told)}"


def comes_without(server, orders, number):
    """A client comes, and the allocation of this number from then on fails: the first line that it gets, or nothing
    where it is closed without one; and whether that allocation was asked for."""
    before, line = orders.refused(), ""
    orders.refuse(number)
    client = Client(server)
    with contextlib.suppress(ConnectionError):
        client.send("PING x")
        line = client.line()
    orders.refuse_none()
    client.close()
    ended = "", "ERROR :Closing Link: 127.0.0.1 (Out of memory)"
    assert line in (":irc.example PONG irc.example x", *ended), line
    return line, orders.refused() > before


def closed_for_memory(program, orders, lines):
    """How many who come are closed without a line, where somebody has said so many lines: for each allocation that
    fails meanwhile. Who was there goes on, and the next who comes is served."""
    closed, number, is_there = 0, 0, True
    while is_there:
        number += 1
        with Server(program, "--limit", "20", env=orders.env) as server:
            al = Client(server, "al")
            pings(al, lines, 0)
            line, is_there = comes_without(server, orders, number)
            closed += line == ""
            pings(al, 1, 0)
            assert visit(server, "bo")
            al.close()
            status, said = server.stop()
            rest = ROLLED.sub("", said).replace("halld: connections refused: 1\n", "")
            assert (status, rest) == (0, ""), f"growth {number}: it ended with {status} and said {said!r}"
    return closed


@alone
def roll_that_is_refused_to_who_comes(program):
    """A client that comes when the journal is full is closed without a line where the roll finds no memory."""
    with tempfile.TemporaryDirectory() as room:
        orders = Orders(room)
        before = closed_for_memory(program, orders, 0)
        closed = closed_for_memory(program, orders, 15)
    assert closed > before, f"{closed} were closed, and {before} where the journal isn't full"
    return f"passed; {closed} were closed, and {before} where the journal isn't full"


@alone
def no_descriptors_left(program):
    """Where the system gives no more descriptors the server neither spins nor ends, says so at most once a second, and
    who waits is served when one is free."""
    server = Server(program, limits={resource.RLIMIT_NOFILE: 64})
    began = time.monotonic()
    held = [Client(server) for _ in range(100)]
    time.sleep(0.5)
    before = server.ticks()
    time.sleep(2)
    spent = server.ticks() - before
    assert spent <= 10, f"it took {spent} ticks in two seconds"
    answered = 0
    while held:
        client = held.pop(0)
        client.send("PING x")
        assert client.line() == ":irc.example PONG irc.example x"
        answered += 1
        client.close()
    assert answered == 100
    status, said = server.stop()
    told = said.count("halld: connections wait: Too many open files (os error 24)\n")
    assert (status, said.count("\n")) == (0, told) and 2 <= told <= 2 + time.monotonic() - began, said


@alone
def quiet(program):
    """With --quiet it says nothing of where it listens, nor of whom it refuses; a fault is said all the same."""
    assert ended(program, "serve", "--quiet", "--tcp", ANY_PORT) == (0, "", "")
    wanted = (1, "", "halld: settings\nhalld: --name a b: no host name\n")
    assert ended(program, "serve", "--quiet", "--tcp", ANY_PORT, "--name", "a b") == wanted


@alone
def standard_input_that_has_ended(program):
    """Where standard input is closed from the start the server ends, and says why."""
    wanted = rf"halld: listening on 127\.0\.0\.1:\d+\n{INPUT_ENDED}"
    for how in ({}, {"stdin": None, "preexec_fn": lambda: os.close(0)}):
        status, said = ended_by([program, "serve", "--tcp", ANY_PORT], **how)
        assert status == 0 and re.fullmatch(wanted, said), said


@alone
def standard_input_that_does_not_wait(program):
    """Where standard input has nothing now and says so, the server goes on, until it has an end."""
    reading, writing = os.pipe()
    os.set_blocking(reading, False)
    with Server(program, stdin=reading) as server:
        os.close(reading)
        client = Client(server, "al")
        time.sleep(1)
        os.write(writing, b"x")
        pings(client, 100)
        os.close(writing)
        assert client.rest() == ["ERROR :Closing Link: 127.0.0.1 (Server shutting down)"]
        client.close()
        assert server.process.wait(8) == 0


@alone
def standard_error_that_nobody_reads(program):
    """Where standard error takes no more, connections are accepted, who is silent is pinged, and the server ends."""
    reading, writing = os.pipe()
    fcntl.fcntl(writing, fcntl.F_SETPIPE_SZ, 4096)
    with tempfile.TemporaryDirectory() as room:
        clocks = Clocks(room)
        with Server(program, "--limit", "9", errors=(reading, writing), env=clocks.env) as server:
            os.write(writing, b"x" * 4080)
            os.close(writing)
            silent, *others = [Client(server) for _ in range(4)]
            for client in (silent, *others):
                pings(client, 1)
            for _ in range(30):
                # (it tells of those that it refuses once a second)
                more = Client(server)
                more.rest()
                more.close()
                time.sleep(0.1)
            others.pop().close()
            assert wait_until(lambda: is_taken(server), 5), "nobody is taken after one left"
            clocks.pass_by(125)
            Client(server).close()
            assert silent.any_line() == ":irc.example PING irc.example"
            server.process.stdin.close()
            assert server.process.wait(8) == 0


def knock(server):
    """Somebody connects, which has the server look at its clock."""
    Client(server).close()
    time.sleep(0.5)


@alone
def clock_that_is_set_forward(program):
    """The clock is set on by an hour, or an hour passes while nobody could be heard, as on a machine that slept: who
    answers a PING goes on, and who doesn't is ended by a later beat, if any."""
    with tempfile.TemporaryDirectory() as room:
        clocks = Clocks(room)
        for jump, is_time in ((clocks.set_day, False), (clocks.pass_by, True)):
            with Server(program, env=clocks.env) as server:
                clients = [Client(server, f"n{it}") for it in range(10)]
                jump(3600)
                knock(server)
                for client in clients[:5]:
                    pings(client, 1)
                clocks.pass_by(11)
                knock(server)
                for client in clients[:5]:
                    pings(client, 1)
                ends = [client.rest()[-1:] for client in clients[5:]] if is_time else []
                assert ends == [["ERROR :Closing Link: 127.0.0.1 (Ping timeout)"]] * len(ends), ends
                for client in clients:
                    client.close()


@alone
def clock_that_is_set_back(program):
    """The clock is set back by an hour: who is silent is pinged after two minutes, and ended after four, all the
    same."""
    with tempfile.TemporaryDirectory() as room:
        clocks = Clocks(room)
        with Server(program, env=clocks.env) as server:
            silent = Client(server, "silent")
            clocks.set_day(-3600)
            knock(server)
            silent.socket.settimeout(3)
            # (in steps, since a beat that comes late ends nobody)
            for _ in range(5):
                clocks.pass_by(25)
                knock(server)
            assert silent.any_line() == ":irc.example PING irc.example"
            for _ in range(5):
                clocks.pass_by(25)
                knock(server)
            assert silent.rest() == ["ERROR :Closing Link: 127.0.0.1 (Ping timeout)"]
            silent.close()


@alone
def port_that_is_taken(program):
    """A port that is taken is a fault."""
    server = Server(program)
    at = f"127.0.0.1:{server.port}"
    told = f"halld: cannot listen on {at}\nhalld: {at}: Address already in use (os error 98)\n"
    assert ended(program, "serve", "--tcp", at) == (1, "", told)
    assert server.stop() == (0, "")


# Messages of the day with which a server doesn't start, and what it says of them.
MOTDS = [
    (b"hello\n\n" + b"x" * 401, "3 has more than 400 octets"),
    (b"hello\r\nthere\r\n", "1 ends with CR"),
    (b"hello\nth\0ere\n", "2 has NUL or CR"),
]


@alone
def files_with_faults(program):
    """Files that aren't there, that are empty, and that have a fault in a line."""
    digest = "ba7816bf8f01cfea414140de5dae2223b00361a396177a9cb410ff61f20015ad"
    with tempfile.TemporaryDirectory() as room:
        path = f"{room}/file"
        serve = lambda option: ended(program, "serve", "--tcp", ANY_PORT, option, path)
        missing = f"halld: cannot read {path}\nhalld: {path}: No such file or directory (os error 2)\n"
        assert serve("--accounts") == serve("--motd") == (1, "", missing)
        faults = [
            ("al a", "1: Shape"),
            (f"\nal a {digest}\n9 a {digest}", "3: BadName"),
            ("al a abc", "1: BadDigest"),
            (f"al a {digest}\nAL b {digest}\n", "2: Twice"),
        ]
        for text, fault in faults:
            with open(path, "w", encoding="utf-8") as it:
                it.write(text)
            assert serve("--accounts") == (1, "", f"halld: accounts line {fault}\n"), text
        for text, reason in MOTDS:
            with open(path, "wb") as it:
                it.write(text)
            assert serve("--motd") == (1, "", f"halld: settings\nhalld: motd line {reason}\n"), text
        for text in ("", f"al a {digest}\n"):
            with open(path, "w", encoding="utf-8") as it:
                it.write(text)
            for option in ("--accounts", "--motd"):
                status, out, said = serve(option)
                assert (status, out) == (0, "") and "listening" in said, said
        with open(path, "w", encoding="utf-8") as it:
            it.write("hello\n\nthere\n")
        server = Server(program, "--motd", path)
        client = Client(server)
        client.send("NICK al", "USER al 0 * :al")
        client.hear(" 375 al ")
        assert [client.line() for _ in range(4)] == [
            ":irc.example 372 al :- hello",
            ":irc.example 372 al :- ",
            ":irc.example 372 al :- there",
            ":irc.example 376 al :End of MOTD command",
        ]
        client.close()
        assert server.stop() == (0, "")


@alone
def account_that_logs_in(program):
    """An account of the file logs in, and another password doesn't."""
    with tempfile.TemporaryDirectory() as room:
        with open(f"{room}/accounts", "w", encoding="utf-8") as it:
            it.write("al a ba7816bf8f01cfea414140de5dae2223b00361a396177a9cb410ff61f20015ad\n")
        server = Server(program, "--accounts", f"{room}/accounts")
        for answer, numeric in (("AGFsAGJj", " 903 "), ("AGFsAGJk", " 904 ")):
            client = Client(server)
            client.send("CAP LS 302", "CAP REQ :sasl", "AUTHENTICATE PLAIN")
            client.hear("AUTHENTICATE +")
            client.send(f"AUTHENTICATE {answer}")
            client.hear(numeric)
            client.close()
        assert server.stop() == (0, "")


@alone
def command_lines(program):
    """Command lines that are refused, and those that ask for help or the version."""
    beyond = [("--workers", "0"), ("--workers", "65"), ("--sendq-bytes", "65535"), ("--journal-bytes", "x")]
    beyond += [("--sendq", "4097"), ("--limit", "0"), ("--ws", "x")]
    refused = [[], ["sing"], ["serve"], ["serve", "--tcp", "localhost"], ["serve", "--ws", "localhost"]]
    refused += [["serve", "--tcp", ANY_PORT, *words] for words in beyond]
    for words in refused:
        status, out, said = ended(program, *words)
        assert (status, out) == (2, "") and said, words
    for words in (["--help"], ["serve", "--help"], ["--version"]):
        status, out, said = ended(program, *words)
        assert (status, said) == (0, "") and out, words
    assert re.fullmatch(r"halld 1 \(commit ([0-9a-f]{11}|unspecified)\)\n", out), out
    _, steps, _ = ended(program, "play", "--help")
    for word in "connect feed pick begin put end back take hang sweep tick reap do tidy beat drain timeout".split():
        assert re.search(rf"\b{word}\b", steps), word


def ended_by(words, **how):
    """The status of a program that is run so, and what it says on standard error, where that isn't elsewhere."""
    ran = subprocess.run(words, **{"stdin": subprocess.DEVNULL, "stderr": subprocess.PIPE, "timeout": 30, **how})
    return ran.returncode, (ran.stderr or b"").decode()


@alone
def streams_that_fail(program):
    """What nobody can be told of, and what is played from and to streams that fail."""
    played = {"stdin": None, "input": b"connect h1 0\n" * 10_000}
    folder = os.open("/", os.O_RDONLY)
    with open("/dev/full", "wb") as full:
        assert ended_by([program, "sing"], stderr=full) == (2, "")
        for words in (["--help"], ["--version"], ["play", "--help"]):
            assert ended_by([program, *words], stdout=full) == (1, "halld: output failed\n")
        reading, writing = os.pipe()
        os.close(reading)
        assert ended_by([program, "--help"], stdout=writing) == (1, "halld: output failed\n")
        os.close(writing)
        assert ended_by([program, "play"], stdin=folder) == (1, "halld: input failed\n")
        assert ended_by([program, "play"], stdout=full, **played) == (1, "halld: output failed\n")
    os.close(folder)
    with tempfile.TemporaryDirectory() as room:
        said = set()
        for number in range(1, 60):
            env = {"LD_PRELOAD": refuser(room), "REFUSED": str(number)}
            said.add(ended_by([program, "play"], env=env, stdout=subprocess.DEVNULL, **played))
        assert (1, "refused\nhalld: out of memory\n") in said, said


@alone
def channel_that_overflows(program):
    """A thousand and twenty-four with room for one item each, in one channel: all others miss the second text of the
    first, and are shut and swept; the first is told of one sweep, misses the next, and is swept at last."""
    said = ["sendq 1"]
    for number in range(1, 1025):
        said += [f"connect h{number} 0", f'feed {number} "NICK n{number}\\r\\nUSER u 0 * :u\\r\\nJOIN #a\\r\\n"']
        said += [f"do {number} 0", f"do {number} 0", f"drain {number}", f"do {number} 0"]
        said += [f"drain {it}" for it in range(1, number + 1)]
    said += ['feed 1 "PRIVMSG #a :x\\r\\nPRIVMSG #a :y\\r\\n"', "do 1 0", "do 1 0"]
    said += ["tidy 0"] * 1025 + ["take 1", "take 1"]
    status, out, faults = ended(program, "play", given="".join(f"{it}\n" for it in said).encode())
    assert (status, faults) == (0, ""), faults
    notes = out.splitlines()
    notes = notes[notes.index("record 4097") :]
    wanted = ["record 4097", "record 4098", *(f"missed {it}" for it in range(2, 1025))]
    wanted += ["sweep 4099", "sweep 4100", "missed 1", *(f"sweep {it}" for it in range(4101, 5123)), "sweep none"]
    wanted += ["1> :n2!u@h2 QUIT :Max SendQ exceeded", "empty"]
    differ = [pair for pair in zip(notes, wanted) if pair[0] != pair[1]][:3]
    assert notes == wanted, (len(notes), len(wanted), differ)


@alone
def first_of_many_faults(program):
    """Of many faults the first is told: of the command line, the accounts, the message of the day, where it listens,
    and the settings."""
    with Server(program) as server, tempfile.TemporaryDirectory() as room:
        with open(f"{room}/accounts", "w", encoding="utf-8") as it:
            it.write("al\n")
        with open(f"{room}/motd", "wb") as it:
            it.write(b"x" * 401)
        taken = f"127.0.0.1:{server.port}"
        faults = [(["--workers", "0"], None, "error: ")]
        faults += [(["--accounts", f"{room}/accounts"], [], "halld: accounts line 1: Shape\n")]
        faults += [(["--motd", f"{room}/none"], ["--motd", f"{room}/motd"], "halld: cannot read ")]
        faults += [(["--tcp", taken], ["--tcp", ANY_PORT], "halld: cannot listen on ")]
        faults += [(["--name", "a_b"], ["--name", "a.b"], "halld: settings\nhalld: --name a_b: ")]
        faults += [([], [], "halld: settings\nhalld: motd line 1 has more ")]
        for at, (_, _, told) in enumerate(faults):
            words = [word for _, right, _ in faults[:at] for word in right or []]
            words += [word for wrong, _, _ in faults[at:] for word in wrong]
            status, out, said = ended(program, "serve", *words)
            assert (status, out) == (2 if at == 0 else 1, "") and said.startswith(told), (words, said)


@alone
def journal_that_lets_no_client_in(program):
    """It is said at the start where the journal is to keep so few records that nobody is let in."""
    for limit, is_told in ((1, True), (2, True), (3, False)):
        with Server(program, "--limit", str(limit)) as server:
            client = Client(server)
            client.send("PING x")
            is_served = bool(client.rest() if is_told else client.line())
            client.close()
            _, said = server.stop()
            assert is_served != is_told, limit
            assert (f"halld: --limit {limit} lets no client in" in said) == is_told, said
