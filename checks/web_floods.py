"""Clients that come by WebSocket and keep others waiting, or are cut off where much is under way."""
import contextlib
import select
import socket
import tempfile
import time

from refusing import Clocks
from served import Beside, Client, Server, percentile, pings, wait_until
from web_client import HEAD, Raw, masked, whole
from web_trials import trial

# A message that never ends, of fragments that are empty, and one after another of fragments of an octet.
EMPTY = masked(0x01, b""), masked(0x00, b"") * 40_000
OCTETS = b"", masked(0x01, b"x") + masked(0x00, b"x") * 8000 + masked(0x80, b"x")

CLOSED, BROKEN = b"\x03\xe8", b"\x03\xea"


def flood(port, lines, octets, ends):
    """A client that says these lines, and then sends octets without end, and drops what comes."""
    client = Raw(port)
    for line in lines:
        client.text_line(line)
    if lines:
        client.until(b" 366 ")
    first, again = octets
    client.send(first)
    while not ends.is_set():
        client.send(again)
        if select.select([client.socket], [], [], 0)[0] and not client.socket.recv(65536):
            return


def beside_a_flood(server, lines, octets, bystander):
    """How long a bystander waits for its PINGs beside such a client, and before: 50 ms at worst, beside what the
    machine takes by itself."""
    before = max(pings(bystander, 100))
    with Beside(server, flood, server.ws, lines, octets):
        time.sleep(0.3)
        worst = max(pings(bystander, 200))
    assert worst <= 0.05 + 2 * before, f"it waited {worst * 1000:.0f} ms, and {before * 1000:.0f} ms before"
    return f"it waited {worst * 1000:.0f} ms at worst, and {before * 1000:.0f} ms before"


@trial
def empty_fragments_keep_nobody_waiting(server):
    """Of the same worker."""
    with Server(server.program, "--workers", "1", has_web=True) as own:
        return beside_a_flood(own, [], EMPTY, Client(own, "calm"))


@trial
def fragments_of_an_octet_keep_nobody_waiting(server):
    with Server(server.program, "--workers", "1", has_web=True) as own:
        return beside_a_flood(own, [], OCTETS, Client(own, "calm"))


@trial
def empty_fragments_keep_nobody_waiting_who_speaks_on_their_channel(server):
    with Server(server.program, "--workers", "4", has_web=True) as own:
        speaker = Client(own, "speaker", "JOIN #a")
        speaker.hear(" 366 ")
        lines = ["NICK endless", "USER e 0 * :e", "JOIN #a"]
        with Beside(own, flood, own.ws, lines, EMPTY):
            speaker.hear(" JOIN ")
            time.sleep(0.3)
            for number in range(100):
                speaker.send(f"PRIVMSG #a :{number}")
                pings(speaker, 1, 0)
            return all(max(pings(Client(own, f"new{it}"), 1)) < 2 for it in range(4))


@trial
def empty_fragments_keep_nobody_out_after_a_beat(server):
    """One who never registers is pinged while it sends them; then others connect."""
    with tempfile.TemporaryDirectory() as room:
        clocks = Clocks(room)
        with Server(server.program, "--workers", "4", has_web=True, env=clocks.env) as own:
            with Beside(own, flood, own.ws, [], EMPTY):
                time.sleep(0.3)
                clocks.pass_by(125)
                knocks = Client(own)
                time.sleep(0.3)
                knocks.close()
                return all(max(pings(Client(own, f"new{it}"), 1)) < 2 for it in range(8))


@trial
def empty_fragments_do_not_keep_a_server_from_its_end(server):
    with Server(server.program, "--workers", "4", has_web=True) as own:
        speaker = Client(own, "speaker", "JOIN #a")
        speaker.hear(" 366 ")
        with Beside(own, flood, own.ws, ["NICK endless", "USER e 0 * :e", "JOIN #a"], EMPTY):
            speaker.hear(" JOIN ")
            time.sleep(0.3)
            began = time.monotonic()
            assert own.stop(12) == (0, "")
            took = time.monotonic() - began
            assert took < 7, f"it ended after {took:.1f} s"
            return f"it ended after {took:.1f} s"


@trial
def end_of_the_stream_with_a_request_is_seen(server):
    with Server(server.program, has_web=True) as own:
        for _ in range(20):
            client = Raw(own.ws, greet=False)
            client.socket.send((HEAD + "\r\n").encode(), socket.MSG_MORE)
            client.socket.shutdown(socket.SHUT_WR)
            client.socket.settimeout(5)
            got = client.rest()
            assert got.startswith(b"HTTP/1.1 101 "), got
            client.socket.close()
        return wait_until(lambda: own.descriptors() == own.descriptors_at_rest, 5)


@trial
def message_right_behind_a_request_is_answered(server):
    """Behind one of 4,096 octets, which are read at a time: nothing of a message is read with it."""
    head = HEAD + "X-Filler: "
    request = (head + "y" * (4096 - len(head) - 4) + "\r\n\r\n").encode()
    answers = []
    for message in (masked(0x81, b"PING x"), masked(0x89, b"x")):
        client = Raw(server.ws, greet=False)
        client.socket.settimeout(5)
        client.send(request + message)
        client.until(b"\r\n\r\n")
        answers.append(client.frame())
    return answers == [(0x81, b":irc.example PONG irc.example x"), (0x8A, b"x")]


def cut_while_behind(program, octets, number):
    """A client of which much is to be written sends these octets, then reads slowly: the frames that come, without
    those before its last lines."""
    with Server(program, "--sendq", "4096", has_web=True) as own:
        client = Raw(own.ws, small=True)
        for line in (f"NICK slow", "USER s 0 * :s", "JOIN #a"):
            client.text_line(line)
        client.until(b" 366 ")
        speaker = Client(own, "speaker", "JOIN #a")
        speaker.hear(" 366 ")
        speaker.send(*(f"PRIVMSG #a :{it} {'x' * 400}" for it in range(600 + 20 * number)))
        pings(speaker, 1)
        client.send(octets)
        got = b""
        with contextlib.suppress(ConnectionError):
            while piece := client.socket.recv(1500):
                got += piece
                time.sleep(0.0005)
        # (the line of which the client read a part before ends with its frame)
        frames, cut = whole(got[got.index(b"\x81\x7e") :])
        return frames[-1], cut


@trial
def close_is_answered_while_much_is_under_way(server):
    ends = [cut_while_behind(server.program, masked(0x88, CLOSED), it) for it in range(8)]
    right = ends.count(((0x88, CLOSED), b""))
    assert right == 8, f"{right} of 8 were closed; {sum(bool(cut) for _, cut in ends)} were cut within a frame"
    return f"{right} of 8 were closed"


@trial
def breach_is_told_while_much_is_under_way(server):
    ends = [cut_while_behind(server.program, b"\x81\x05Hello", it) for it in range(5)]
    right = ends.count(((0x88, BROKEN), b""))
    assert right == 5, f"{right} of 5 were told; {sum(bool(cut) for _, cut in ends)} were cut within a frame"
    return f"{right} of 5 were told"


def send_on(port, count, octets, ends):
    """So many clients by TCP that send octets without end."""
    clients = [socket.create_connection(("127.0.0.1", port)) for _ in range(count)]
    for client in clients:
        client.setblocking(False)
    while not ends.is_set():
        for client in clients:
            with contextlib.suppress(BlockingIOError):
                client.send(octets)


def web_ping(client, number):
    """How long a client waits by WebSocket for the answer to a PING."""
    began = time.monotonic()
    client.text_line(f"PING {number}")
    assert client.frame()[1].endswith(b" %d" % number)
    return time.monotonic() - began


@trial
def ping_beside_two_hundred_that_flood_by_tcp(server):
    """By WebSocket it is answered about as soon as by TCP."""
    with Server(server.program, "--workers", "1", has_web=True) as own:
        plain, web, waits = Client(own, "plain"), Raw(own.ws), []
        two = [Beside(own, send_on, own.port, 100, b"\n" * 65536) for _ in range(2)]
        with two[0], two[1]:
            time.sleep(2)
            for number in range(200):
                waits.append((pings(plain, 1)[0], web_ping(web, number)))
        by_tcp, by_web = (percentile(it, 50) for it in zip(*waits))
        assert by_web <= 3 * by_tcp + 0.3, f"{by_web:.1f} ms by WebSocket, and {by_tcp:.1f} by TCP, in the median"
        return f"{by_web:.1f} ms by WebSocket, and {by_tcp:.1f} by TCP, in the median"
