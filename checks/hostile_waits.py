"""How long clients wait for each other."""
import contextlib
import multiprocessing
import os
import selectors
import socket
import threading
import time

from hostile_marks import test
from served import Beside, Client, percentile, pings

# The share of a core that the bystander's PINGs may take, a hundred a second.
QUIET = 0.005


def those_who_dont_read(server, count, channel, are_there=True):
    """So many members of a channel that read nothing after they came. Unless `are_there` holds, they may still be
    coming."""
    clients = []
    for number in range(count):
        client = Client(server)
        client.socket.setsockopt(socket.SOL_SOCKET, socket.SO_RCVBUF, 4096)
        client.send(f"NICK deaf{number}", f"USER deaf 0 * :deaf", f"JOIN {channel}")
        clients.append(client)
    for client in clients if are_there else []:
        client.hear(" 366 ")
    return clients


def read_drop_by_drop(clients, ends):
    """Reads a few octets of each client at a time, until this ends."""
    while not ends.is_set():
        for client in clients:
            client.socket.setblocking(False)
            with contextlib.suppress(BlockingIOError):
                client.socket.recv(64)
        time.sleep(0.005)


def waits_of_a_member(server, channel, lines=2000, pause=0.005):
    """How long a member who reads waits for each of many lines of 400 octets, 200 of them a second. None may be
    missing."""
    speaker, reader = Client(server, "speaker", f"JOIN {channel}"), Client(server, "reader", f"JOIN {channel}")
    reader.hear(" 366 ")
    sent, waits, text = {}, [], "x" * 380

    def speak():
        for number in range(lines):
            sent[number] = time.monotonic()
            speaker.send(f"PRIVMSG {channel} :{number} {text}")
            time.sleep(max(0, sent[0] + (number + 1) * pause - time.monotonic()))

    speaking = threading.Thread(target=speak, daemon=True)
    speaking.start()
    for number in range(lines):
        line = reader.hear(" PRIVMSG ")
        assert line.split(" ")[3] == f":{number}", f"wanted {number}, came {line[:60]}"
        waits.append(time.monotonic() - sent[number])
    speaking.join()
    speaker.close()
    reader.close()
    return waits


def member_beside(server, deaf, drops=0):
    """A member who reads beside some who don't, and some who read drop by drop: 25 ms at the 99th percentile."""
    others = those_who_dont_read(server, deaf + drops, "#a")
    ends = threading.Event()
    dropping = threading.Thread(target=read_drop_by_drop, args=(others[deaf:], ends), daemon=True)
    dropping.start()
    waits = waits_of_a_member(server, "#a")
    ends.set()
    dropping.join()
    for client in others:
        client.close()
    assert percentile(waits, 99) <= 25, f"a member waited {percentile(waits, 99):.1f} ms at the 99th percentile"
    return f"a member waited {percentile(waits, 50):.1f} ms, {percentile(waits, 99):.1f} ms at the 99th percentile"


@test(growth=400_000, words=["--sendq", "4096"])
def member_beside_ten_who_dont_read(server):
    """A member who reads isn't slowed by ten who don't."""
    return member_beside(server, 10)


@test(growth=400_000, words=["--sendq", "4096"])
def member_beside_a_hundred_who_dont_read(server):
    """A member who reads isn't slowed by a hundred who don't."""
    return member_beside(server, 100)


@test(growth=2_000_000, words=["--sendq", "4096"])
def member_beside_nine_hundred_who_dont_read(server):
    """A member who reads isn't slowed by nine hundred who don't."""
    return member_beside(server, 900)


@test(growth=2_000_000, words=["--sendq", "4096"])
def member_while_nine_hundred_join(server):
    """While nine hundred join who don't read, a member who reads waits a quarter of a second at most."""
    others = those_who_dont_read(server, 900, "#a", are_there=False)
    waits = waits_of_a_member(server, "#a", lines=200)
    for client in others:
        client.close()
    longest = max(waits) * 1000
    assert longest <= 250, f"a member waited {longest:.1f} ms"
    return f"a member waited {percentile(waits, 50):.1f} ms, {longest:.1f} ms at most"


@test(growth=400_000, words=["--sendq", "4096"])
def member_beside_fifty_who_read_drop_by_drop(server):
    """A member who reads isn't slowed by fifty who read drop by drop."""
    return member_beside(server, 0, 50)


@test(growth=2_000_000, words=["--sendq", "4096"])
def thousand_that_are_behind_and_quiet(server):
    """A thousand that are behind, while nobody says anything, take at most a hundredth of a core."""
    others = those_who_dont_read(server, 1000, "#a")
    speaker = Client(server, "speaker", "JOIN #a")
    speaker.hear(" 366 ")
    for number in range(1000):
        speaker.send(f"PRIVMSG #a :{number} {'x' * 380}")
    speaker.send("PING all")
    speaker.hear("PONG irc.example all")
    time.sleep(1)
    before = server.ticks()
    time.sleep(5)
    share = (server.ticks() - before) / os.sysconf("SC_CLK_TCK") / 5
    for client in others + [speaker]:
        client.close()
    assert share <= 0.01 + QUIET, f"it took {share * 100:.1f} % of a core"
    return f"it took {share * 100:.1f} % of a core"


def flood(port, count, ends):
    """So many clients that send PINGs as quickly as they are taken, and read all."""
    text = b"".join(b"PING %d\r\n" % it for it in range(200))
    clients = [socket.create_connection(("127.0.0.1", port)) for _ in range(count)]
    for client in clients:
        client.setblocking(False)
    while not ends.is_set():
        for client in clients:
            with contextlib.suppress(BlockingIOError):
                client.send(text)
            with contextlib.suppress(BlockingIOError):
                client.recv(1 << 20)


@test(growth=400_000)
def ping_beside_twenty_that_flood(server):
    """A client's PINGs are answered beside twenty that send as much as they can: 50 ms at the 99th percentile."""
    ends = multiprocessing.Event()
    flooding = multiprocessing.Process(target=flood, args=(server.port, 20, ends), daemon=True)
    flooding.start()
    client, waits = Client(server, "calm"), []
    for number in range(500):
        began = time.monotonic()
        client.send(f"PING {number}")
        client.hear(f"PONG irc.example {number}")
        waits.append(time.monotonic() - began)
        time.sleep(0.01)
    ends.set()
    flooding.join()
    client.close()
    assert percentile(waits, 99) <= 50, f"it waited {percentile(waits, 99):.1f} ms at the 99th percentile"
    return f"it waited {percentile(waits, 50):.1f} ms, {percentile(waits, 99):.1f} ms at the 99th percentile"


def read_all(port, count, joined, start, ends):
    """So many members of a channel who read all that they are sent; their nicknames start so."""
    clients, waiting = [], selectors.DefaultSelector()
    for number in range(count):
        client = socket.create_connection(("127.0.0.1", port))
        client.sendall(f"NICK {start}{number}\r\nUSER m 0 * :m\r\nJOIN #a\r\n".encode())
        waiting.register(client, selectors.EVENT_READ)
        clients.append(client)
        for key, _ in waiting.select(0):
            key.fileobj.recv(1 << 20)
    joined.set()
    while not ends.is_set():
        for key, _ in waiting.select(0.1):
            key.fileobj.recv(1 << 20)


def speak_on(client, ends):
    """Says a hundred texts a second on a channel."""
    began = time.monotonic()
    for number in range(100_000):
        if ends.is_set():
            return
        client.send(f"PRIVMSG #a :{number} {'x' * 64}")
        time.sleep(max(0, began + number / 100 - time.monotonic()))


def ping_on(client, ends, waits):
    """Pings fifty times a second, and notes each wait."""
    while not ends.is_set():
        began = time.monotonic()
        client.send(f"PING {len(waits)}")
        client.hear(f"PONG irc.example {len(waits)}")
        waits.append(time.monotonic() - began)
        time.sleep(0.02)


@test(growth=600_000, words=["--sendq", "4096"])
def ping_beside_a_thousand_who_are_told(server):
    """Clients' PINGs are answered beside one who says a hundred texts a second to a thousand: 50 ms at the 99th
    percentile."""
    joined, ends, waits = multiprocessing.Event(), multiprocessing.Event(), [[] for _ in range(4)]
    reading = multiprocessing.Process(target=read_all, args=(server.port, 1000, joined, "m", ends), daemon=True)
    reading.start()
    assert joined.wait(30), "they don't come"
    clients = [Client(server, f"p{it}") for it in range(4)]
    speaker = Client(server, "speaker", "JOIN #a")
    speaker.hear(" 366 ")
    time.sleep(1)
    threads = [threading.Thread(target=ping_on, args=(client, ends, waits[it])) for it, client in enumerate(clients)]
    threads.append(threading.Thread(target=speak_on, args=(speaker, ends)))
    for thread in threads:
        thread.start()
    time.sleep(5)
    ends.set()
    for thread in threads:
        thread.join(10)
    reading.join(10)
    for client in (*clients, speaker):
        client.close()
    whole = sum(waits, [])
    assert percentile(whole, 99) <= 50, f"they waited {percentile(whole, 99):.1f} ms at the 99th percentile"
    return f"they waited {percentile(whole, 50):.1f} ms, {percentile(whole, 99):.1f} ms at the 99th percentile"


@test(growth=400_000)
def thousand_that_connect_at_once(server):
    """As many as are taken connect at once, and each is registered soon."""
    sockets = []
    began = time.monotonic()
    for _ in range(1000):
        it = socket.socket()
        it.setblocking(False)
        it.connect_ex(("127.0.0.1", server.port))
        sockets.append(it)
    for number, it in enumerate(sockets):
        it.settimeout(10)
        it.sendall(f"NICK c{number}\r\nUSER c 0 * :c\r\n".encode())
    for it in sockets:
        said = b""
        while b" 422 " not in said:
            got = it.recv(65536)
            assert got, "one was closed"
            said += got
    took = time.monotonic() - began
    for it in sockets:
        it.close()
    assert took <= 10, f"it took {took:.1f} s"
    return f"all were registered after {took:.1f} s"


@test(words=["--workers", "64"])
def sixty_four_workers(server):
    """With many more workers than clients each is served."""
    al, bo = Client(server, "al", "JOIN #a"), Client(server, "bo", "JOIN #a")
    bo.hear(" 366 ")
    al.send(*[f"PRIVMSG #a :{it}" for it in range(200)])
    for number in range(200):
        assert bo.hear(" PRIVMSG ").endswith(f" #a :{number}")
    al.close()
    bo.close()


@test(words=["--limit", "205", "--workers", "1", "--sendq", "4096"], says=None)
def arrivals_while_one_floods(server):
    """Who connects first is served first: where a server takes a hundred more, and three hundred connect at once while
    another floods, the first are served, and the others aren't."""
    with Beside(server, flood, server.port, 1):
        time.sleep(0.5)
        arrivals = []
        for _ in range(300):
            it = socket.socket()
            it.setblocking(False)
            it.connect_ex(("127.0.0.1", server.port))
            arrivals.append(it)
        served = []
        for it in arrivals:
            it.settimeout(10)
            with contextlib.suppress(ConnectionError, BrokenPipeError):
                it.sendall(b"PING x\r\n")
            with contextlib.suppress(ConnectionError):
                served.append(it.recv(100) != b"")
                continue
            served.append(False)
        for it in arrivals:
            it.close()
    count = sum(served)
    late = count - sum(served[:count])
    assert count >= 90 and late == 0, f"{late} of {count} were served before others that came first"
    return f"{count} were served"


@test(growth=400_000, words=["--sendq", "2048"])
def half_of_a_channel_that_vanishes(server):
    """Of nine hundred members of a channel half vanish at once, and a client that pings waits for at most 60 ms more
    than before."""
    joined = multiprocessing.Event()
    with Beside(server, read_all, server.port, 450, joined, "stays"):
        assert joined.wait(30), "they don't come"
        vanishing = multiprocessing.Event()
        gone = Beside(server, read_all, server.port, 450, vanishing, "goes")
        with gone:
            assert vanishing.wait(30), "they don't come"
            calm, waits = Client(server, "calm"), []
            time.sleep(1)
            before = max(pings(calm, 100))
            waiting = threading.Thread(target=lambda: waits.extend(pings(calm, 300)))
            waiting.start()
            time.sleep(0.2)
            gone.process.kill()
            waiting.join()
        calm.send("WHO #a")
        there = sum(" 352 " in it for it in iter(calm.line, ":irc.example 315 calm #a :End of WHO list"))
        assert there == 450, f"{there} are there"
    worst = max(waits)
    assert worst <= 0.06 + 2 * before, f"it waited {worst * 1000:.0f} ms, and {before * 1000:.0f} ms before"
    return f"it waited {worst * 1000:.0f} ms, and {before * 1000:.0f} ms before"
