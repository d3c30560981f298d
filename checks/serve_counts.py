"""Counts the instructions and the allocations that a server takes for a line over a socket, by valgrind's callgrind.

Each load is played twice, the second time more of it. What the second takes beyond the first, by how much more there was,
is what one takes: so the start of a server, its clients' registration and its end aren't counted.
"""
import os

from counting import calls_of, functions_of
from served import Client, Server

# A server under valgrind, which writes its counts where it ends.
UNDER = """#!/bin/sh
exec valgrind -q --tool=callgrind --compress-strings=no --callgrind-out-file='{counts}' '{program}' "$@"
"""

# What a server is started with: one worker, so that nobody waits for another.
WORDS = ("--workers", "1", "--sendq", "4096")

WITH_LABELS = "CAP REQ :labeled-response batch"


def says(client, line, answer):
    client.send(line)
    client.hear(answer)


def leave(*clients):
    """Each quits, and is let go of before the server ends, whose end takes now more and now less."""
    for client in clients:
        client.send("QUIT")
        client.rest()


def pings(server, count):
    client = Client(server, "al")
    for turn in range(count):
        says(client, f"PING {turn}", f" PONG irc.example {turn}")
    leave(client)


def labelled_pings(server, count):
    client = Client(server, "al")
    says(client, WITH_LABELS, " ACK ")
    for turn in range(count):
        says(client, f"@label={turn} PING x", f"@label={turn} ")
    leave(client)


def private_texts(server, count):
    al, bo = Client(server, "al"), Client(server, "bo")
    for turn in range(count):
        al.send(f"PRIVMSG bo :a text of some length {turn}")
        bo.hear(f"length {turn}")
    leave(al, bo)


def members(server, count, channel="#c"):
    """So many who are on a channel, each of whom has heard of all."""
    found = [Client(server, f"m{it}") for it in range(count)]
    for client in found:
        says(client, f"JOIN {channel}", " 366 ")
    for client in found[:-1]:
        client.hear(f":m{count - 1}!")
    return found


def channel_texts(server, count):
    speaker, *others = members(server, 100)
    for turn in range(count):
        speaker.send(f"PRIVMSG #c :a text of some length {turn}")
        for other in others:
            other.hear(f"length {turn}")
    leave(speaker, *others)


def names(server, count):
    first, *others = members(server, 100)
    for _ in range(count):
        says(first, "NAMES #c", " 366 ")
    leave(first, *others)


def joins(server, count):
    first, *others = members(server, 100)
    comer = Client(server, "comer")
    for _ in range(count):
        says(comer, "JOIN #c", " 366 ")
        says(comer, "PART #c", " PART #c")
        for other in (first, *others):
            other.hear(":comer!comer@127.0.0.1 PART #c")
    leave(comer, first, *others)


def crowd(server, count):
    """So many join six channels, part from them and quit."""
    channels = ",".join(f"#c{it}" for it in range(6))
    clients = [Client(server, f"m{it}") for it in range(count)]
    for client in clients:
        client.send(f"JOIN {channels}")
        for _ in range(6):
            client.hear(" 366 ")
    for place, client in enumerate(clients):
        says(client, f"PART {channels}", f":m{place}!m{place}@127.0.0.1 PART #c5")
    leave(*clients)


def connections(server, count):
    for _ in range(count):
        client = Client(server)
        client.send("QUIT")
        client.rest()
        client.close()


# What is counted: its name, what plays it, how much of it the first and the second time, and of how many parts each is.
LOADS = [
    ("a PING", pings, 100, 500, 1),
    ("a labelled PING", labelled_pings, 100, 500, 1),
    ("a private text", private_texts, 100, 500, 1),
    ("a delivery in a channel of 100", channel_texts, 10, 50, 99),
    ("a JOIN and a PART in a channel of 100", joins, 5, 25, 1),
    ("a name in NAMES of 100", names, 5, 45, 100),
    ("60 more of 120 clients that join 6 channels, part and quit", crowd, 60, 120, 1 / 60),
    ("a connection that is opened and quits", connections, 50, 250, 1),
]


# How many functions are listed of a load whose functions are.
LISTED = 25


def played(program, room, play, count):
    """The instructions in each function, and the allocations, of a server by which so much is played."""
    counts, starter = f"{room}/counts", f"{room}/under"
    with open(starter, "w", encoding="utf-8") as it:
        it.write(UNDER.format(counts=counts, program=program))
    os.chmod(starter, 0o755)
    server = Server(starter, *WORDS)
    try:
        play(server, count)
        server.stop()
    finally:
        server.kill()
    return functions_of(counts), calls_of(counts, ("malloc", "calloc", "realloc"))


def tell_loads(program, room, profiled):
    """A line a load, and of each its dearest functions where that is asked for."""
    for name, play, first, second, parts in LOADS:
        (low, few), (high, many) = played(program, room, play, first), played(program, room, play, second)
        of = (second - first) * parts
        more = {it: (count - low.get(it, 0)) / of for it, count in high.items()}
        print(f"{name}: {sum(more.values()):,.0f} instructions, {(many - few) / of:,.1f} allocations", flush=True)
        if profiled:
            for function, count in sorted(more.items(), key=lambda it: -it[1])[:LISTED]:
                print(f"  {count:12,.1f}  {function}", flush=True)
