"""Clients that come, do something, and break it off."""
import contextlib
import socket

from served import Client
from web_client import REQUEST, Raw, masked


def cut_request(server, chance):
    client = Raw(server.ws, greet=False)
    client.send(REQUEST[: chance.randrange(len(REQUEST))])
    return client


def request_and_end(server, chance):
    client = Raw(server.ws, greet=False)
    client.socket.send(REQUEST, socket.MSG_MORE)
    client.socket.shutdown(socket.SHUT_WR)
    if chance.random() < 0.5:
        # (what it has read, its close tells nobody of)
        client.until(b"\r\n\r\n")
    return client


def cut_fragments(server, chance):
    client = Raw(server.ws)
    client.send(masked(0x01, b"PRIV") + masked(0x00, b"") * chance.randrange(100) + masked(0x80, b"")[:-1])
    return client


def burst_of_pings(server, chance):
    client = Raw(server.ws)
    client.send(masked(0x89, b"x" * 100) * chance.randrange(400))
    return client


def breach(server, chance):
    client = Raw(server.ws)
    client.send(b"\x81\x05Hello" + chance.randbytes(chance.randrange(100)))
    return client


def close_and_more(server, chance):
    client = Raw(server.ws)
    client.send(masked(0x88, b"\x03\xe8") + masked(0x81, b"PING x") * chance.randrange(2))
    return client


def half_line(server, chance):
    client = Client(server)
    client.socket.sendall(b"PING x\r\n" * chance.randrange(3) + b"NICK half"[: chance.randrange(10)])
    return client


def burst_unread(server, chance):
    client = Client(server)
    client.socket.sendall(b"NICK b%d\r\nUSER b 0 * :b\r\nJOIN #b\r\n" % chance.randrange(10**9))
    client.socket.sendall(b"PRIVMSG #b :x\r\nWHOIS b\r\nPING x\r\n" * chance.randrange(300))
    return client


def quit_and_go(server, chance):
    client = Client(server)
    client.send("NICK q%d" % chance.randrange(10**9), "USER q 0 * :q", "JOIN #b", "QUIT")
    if chance.random() < 0.5:
        client.rest()
    return client


LIVES = (cut_request, request_and_end, cut_fragments, burst_of_pings, breach, close_and_more, half_line)
LIVES += (burst_unread, quit_and_go)


def go(client, chance):
    """Closes a client's stream in one of the ways that there are."""
    way = chance.randrange(4)
    if way == 0:
        client.socket.setsockopt(socket.SOL_SOCKET, socket.SO_LINGER, b"\1\0\0\0\0\0\0\0")
    elif way < 3:
        with contextlib.suppress(OSError):
            client.socket.shutdown((socket.SHUT_WR, socket.SHUT_RD)[way - 1])
    client.socket.close()
