"""What an operator asks of the program beside serving: an account's line, whether a server would start, and a log."""
import base64
import hashlib
import os
import pty
import re
import subprocess
import tempfile
import time

from hostile_marks import alone
from hostile_programs import ended, ended_by
from served import ANY_PORT, Client, Server, wait_until

# Passwords that a shell's `printf` or quotes would spoil.
PASSWORDS = [b"x7100%sure", b"%s%n", rb"a\nb\\", b"it's \"one\"", "gr\u00fc\u00df".encode(), b" a ", b"x" * 800]

# A line of the log: when, how bad, what, and more of it.
LOGGED = re.compile(r"\d{4}-\d\d-\d\dT\d\d:\d\d:\d\d\.\d{3}Z \[(INFO|WARN) +halld\] ([a-z ]+?)((?: [a-z]+=\S+| why=.*)*)")


def plain(name, password):
    """What a client sends by SASL PLAIN, in pieces."""
    text = base64.b64encode(b"\0" + name.encode() + b"\0" + password).decode()
    pieces = [text[at : at + 400] for at in range(0, len(text), 400)]
    return pieces + ["+"] * (len(text) % 400 == 0)


def logs_in(server, name, password):
    client = Client(server)
    client.send("CAP LS 302", "CAP REQ :sasl", "AUTHENTICATE PLAIN")
    client.hear("AUTHENTICATE +")
    client.send(*[f"AUTHENTICATE {piece}" for piece in plain(name, password)])
    answer = client.hear(" 90")
    client.close()
    return " 900 " in answer


@alone
def accounts_that_are_printed(program):
    """The line of an account has another salt each time, and lets its user in by the password that was given, whatever
    that has in it, and by no other."""
    lines = []
    for number, password in enumerate(PASSWORDS):
        for given in (password, password + b"\n"):
            status, line, said = ended(program, "account", f"al{number}", given=given)
            found = re.fullmatch(rf"al{number} ([0-9a-f]{{16}}) ([0-9a-f]{{64}})\n", line)
            assert (status, said) == (0, "") and found, (password, line, said)
            assert found[2] == hashlib.sha256(found[1].encode() + password).hexdigest(), password
            assert line not in lines
        lines.append(line)
    with tempfile.TemporaryDirectory() as room:
        with open(f"{room}/accounts", "w", encoding="utf-8") as it:
            it.write("".join(lines))
        with Server(program, "--accounts", f"{room}/accounts") as server:
            for number, password in enumerate(PASSWORDS):
                assert logs_in(server, f"al{number}", password), password
                assert not logs_in(server, f"al{number}", password[:-1] + b"?"), password
            assert server.stop() == (0, "")


@alone
def accounts_that_are_refused(program):
    """A name or a password that can't be an account's is refused with its reason, and nothing is printed."""
    faults = [("9al", b"x", "the account's name is no nickname"), ("a l", b"x", "the account's name is no nickname")]
    faults += [("al", b"", "the password is empty"), ("al", b"\nx\n", "the password is empty")]
    faults += [("al", b"x" * 801, "the password has more than 800 octets")]
    faults += [("al", b"x\0", "the password has NUL or CR"), ("al", b"x\r\n", "the password has NUL or CR")]
    for name, given, why in faults:
        assert ended(program, "account", name, given=given) == (1, "", f"halld: {why}\n"), (name, given)
    assert ended(program, "account")[0] == ended(program, "account", "al", "b")[0] == 2


@alone
def account_at_a_terminal(program):
    """At a terminal the password is asked for twice, and a slip is told."""
    for second, status, said in ((b"secret", 0, b""), (b"secrat", 1, b"halld: the passwords differ\r\n")):
        ours, theirs = pty.openpty()
        how = {"stdin": theirs, "stderr": theirs, "stdout": subprocess.PIPE}
        with subprocess.Popen([program, "account", "al"], **how) as it:
            os.close(theirs)
            told = b""
            for asked, answer in ((b"Password (the terminal shows it): ", b"secret"), (b"Once more: ", second)):
                while asked not in told:
                    told += os.read(ours, 1000)
                os.write(ours, answer + b"\n")
            line = it.stdout.read()
            told = b""
            try:
                while got := os.read(ours, 1000):
                    told += got
            except OSError:
                pass
            assert it.wait(10) == status and told.endswith(said) and bool(line) == (status == 0), (told, line)
        os.close(ours)


@alone
def options_that_are_checked(program):
    """`check` says what `serve` would do, or refuses what that would refuse by the same words; it listens nowhere."""
    with Server(program) as server, tempfile.TemporaryDirectory() as room:
        with open(f"{room}/accounts", "w", encoding="utf-8") as it:
            it.write("al\n")
        with open(f"{room}/motd", "w", encoding="utf-8") as it:
            it.write("hello\n\nthere\n")
        at = f"127.0.0.1:{server.port}"
        right = ["--tcp", at, "--ws", "[::1]:0", "--workers", "3", "--motd", f"{room}/motd"]
        wanted = f"would listen on {at}\nwould listen on [::1]:0 for WebSocket\nas irc.example, with 3 workers\n"
        wanted += "accounts: 0\nlines of the message of the day: 3\n"
        assert ended(program, "check", *right) == (0, wanted, "")
        wanted = f"would listen on {at}\nas a.b, with 2 workers\naccounts: 0\nno message of the day\n"
        few = "halld: --limit 2 lets no client in: 3 is the least that does\n"
        assert ended(program, "check", "--tcp", at, "--name", "a.b", "--limit", "2") == (0, wanted, few)
        wrong = [["--accounts", f"{room}/accounts"], ["--accounts", f"{room}/none"], ["--motd", room], ["--name", "a_b"]]
        for words in wrong:
            checked = ended(program, "check", "--tcp", ANY_PORT, *words)
            assert checked[0] == 1 and checked == ended(program, "serve", "--tcp", ANY_PORT, *words), words
        for words in ([], ["--tcp", "x"], ["--tcp", at, "--workers", "0"]):
            status, out, said = ended(program, "check", *words)
            assert (status, out) == (2, "") and said.endswith("For more information, try '--help'.\n"), (words, said)
            assert words or re.search(r"Usage: \S+ check \[OPTIONS\]", said), said
        with open("/dev/full", "wb") as full:
            assert ended_by([program, "check", *right], stdout=full) == (1, "halld: output failed\n")
        assert server.stop() == (0, "")


def logged(said):
    """The lines of a log: each as how bad, what, and what else it says."""
    found = [LOGGED.fullmatch(line) for line in said.splitlines()]
    assert all(found), [line for line, it in zip(said.splitlines(), found) if not it][:3]
    return [(it[1], it[2], dict(re.findall(r"(\w+)=(.*?)(?= \w+=|$)", it[3]))) for it in found]


@alone
def log_of_all_that_happens(program):
    """With --log it is told when the server starts and stops, who comes, by which name, and who goes and why; whom it
    refuses, and each roll."""
    with Server(program, "--log", "--limit", "7") as server:
        al, bo, ca = Client(server, "al"), Client(server, "bo"), Client(server)
        # it has its place before the fourth comes
        ca.send("PING x")
        ca.hear(" PONG ")
        port = al.socket.getsockname()[1]
        over = Client(server)
        over.rest()
        al.send("QUIT :bye")
        al.rest()
        bo.reset()
        # its end is told before a roll drops the record
        assert wait_until(lambda: server.descriptors() == server.descriptors_at_rest + 1)
        ca.send(*["PING x"] * 30)
        for _ in range(30):
            ca.hear(" PONG ")
        wait_until(lambda: False, 0.5)
        ca.close()
        time.sleep(0.5)
        status, said = server.stop()
    told = logged(said)
    assert status == 0 and told[0][:2] == ("INFO", "started") and told[0][2] == {"workers": "2"}, said
    assert [it[1] for it in told[-2:]] == ["stopping", "ended"], said
    assert told[-2][2] == {"why": "standard input ended"}, said
    assert ("INFO", "came", {"session": "1", "from": f"127.0.0.1:{port}", "by": "tcp"}) in told, said
    assert ("INFO", "named", {"session": "1", "nick": "al"}) in told, said
    assert ("INFO", "went", {"session": "1", "why": "quit"}) in told, said
    assert [it[0] for it in told if it[1] == "went" and it[2] == {"session": "2", "why": "readfail"}] == ["WARN"], said
    assert ("INFO", "went", {"session": "3", "why": "ended"}) in told, said
    refused = [it[2] for it in told if it[1] == "refused"]
    assert [it["why"] for it in refused] == ["no place"], said
    assert any(it[:2] == ("INFO", "rolled") and "dropped" in it[2] for it in told), said


@alone
def log_that_nobody_reads(program):
    """Where nobody reads the log, clients are served all the same, and the server ends; it is told what was lost."""
    reading, writing = os.pipe()
    with Server(program, "--log", errors=(reading, writing)) as server:
        os.close(writing)
        for _ in range(20):
            for client in [Client(server) for _ in range(250)]:
                client.close()
            assert wait_until(lambda: server.descriptors() <= server.descriptors_at_rest + 250)
        client = Client(server, "al")
        client.send("PING x")
        assert client.line() == ":irc.example PONG irc.example x"
        assert wait_until(lambda: server.descriptors() == server.descriptors_at_rest + 1)
        said = b""
        os.set_blocking(reading, False)
        end = time.monotonic() + 15
        while b"events lost" not in said and time.monotonic() < end:
            client.send("PING x")
            client.line()
            time.sleep(0.1)
            try:
                said += os.read(reading, 1 << 20)
            except BlockingIOError:
                pass
        os.set_blocking(reading, True)
        told = logged(said[: said.rindex(b"\n")].decode())
        went, lost = sum(it[1] == "went" for it in told), sum(int(it[2]["count"]) for it in told if it[1] == "events lost")
        assert lost > 0 and went > 1000, (went, lost)
        assert server.stop()[0] == 0
