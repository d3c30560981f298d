"""Clients that come by WebSocket: frame by frame, and by Debian's package python3-websockets."""
import asyncio
import socket
import struct

from served import Client, take_little

KEY = "dGhlIHNhbXBsZSBub25jZQ=="

HEAD = (
    "GET / HTTP/1.1\r\nHost: a\r\nUpgrade: websocket\r\nConnection: Upgrade\r\n"
    f"Sec-WebSocket-Key: {KEY}\r\nSec-WebSocket-Version: 13\r\n"
)

REQUEST = (HEAD + "\r\n").encode()


class Raw:
    """A client that sends what it likes."""

    def __init__(self, port, head="", greet=True, small=False):
        self.socket = socket.socket()
        if small:
            take_little(self.socket)
        self.socket.connect(("127.0.0.1", port))
        self.socket.settimeout(20)
        self.left = b""
        if greet:
            self.greet(head)

    def greet(self, head=""):
        self.send((HEAD + head + "\r\n").encode())
        self.head = self.until(b"\r\n\r\n")

    def send(self, octets):
        self.socket.sendall(octets)

    def more(self):
        got = self.socket.recv(65536)
        self.left += got
        return got

    def until(self, end):
        while end not in self.left:
            if not self.more():
                raise EOFError(self.left)
        got, end, self.left = self.left.partition(end)
        return got + end

    def take(self, count):
        while len(self.left) < count:
            if not self.more():
                raise EOFError(self.left)
        got, self.left = self.left[:count], self.left[count:]
        return got

    def frame(self):
        """The next frame: its first octet and its payload."""
        first, size = self.take(2)
        if size == 126:
            size = int.from_bytes(self.take(2), "big")
        return first, self.take(size)

    def rest(self):
        """All that comes until the other side ends."""
        try:
            while self.more():
                pass
        except ConnectionError:
            pass
        return self.left

    def text_line(self, text):
        self.send(masked(0x81, text.encode()))


class WebClient(Client):
    """A client that comes by WebSocket, of which the rest sees its lines. `code` is that of the server's close, and
    none where its stream ended without one."""

    def __init__(self, server, name):
        self.raw, self.left, self.name, self.code = Raw(server.ws), b"", name, None
        self.socket = self.raw.socket
        self.send(f"NICK {name}", f"USER {name} 0 * :{name}")
        self.hear(f" 422 {name} ")

    def send(self, *lines):
        for line in lines:
            self.raw.text_line(line)

    def any_line(self):
        try:
            first, payload = self.raw.frame()
        except EOFError:
            return ""
        if first == 0x88:
            self.code = int.from_bytes(payload[:2], "big")
            return ""
        return payload.decode("latin-1")


def masked(first, payload, mask=b"\x01\x02\x03\x04"):
    """A client's frame."""
    if len(payload) < 126:
        size = bytes([0x80 | len(payload)])
    elif len(payload) < 65536:
        size = b"\xfe" + struct.pack(">H", len(payload))
    else:
        size = b"\xff" + struct.pack(">Q", len(payload))
    return bytes([first]) + size + mask + bytes(octet ^ mask[at % 4] for at, octet in enumerate(payload))


async def enter(client, nick, channel="#a"):
    for line in (f"NICK {nick}", f"USER {nick} 0 * :{nick}", f"JOIN {channel}"):
        await client.send(line if client.subprotocol != "binary.ircv3.net" else line.encode())
    while " 366 " not in plain(await asyncio.wait_for(client.recv(), 20)):
        pass


def plain(message):
    return message if isinstance(message, str) else message.decode("latin-1")


def tcp_in(port, nick, channel="#a"):
    client = socket.create_connection(("127.0.0.1", port))
    client.settimeout(20)
    client.sendall(f"NICK {nick}\r\nUSER {nick} 0 * :{nick}\r\nJOIN {channel}\r\n".encode())
    got = b""
    while b" 366 " not in got:
        got += client.recv(65536)
    return client


def whole(octets):
    """The frames of these octets: the first octet and the payload of each; and what is left of one that is cut."""
    frames = []
    while len(octets) >= 2:
        size, head = octets[1], 2
        if size == 126:
            size, head = int.from_bytes(octets[2:4], "big"), 4
        if len(octets) < head + size:
            break
        frames.append((octets[0], octets[head : head + size]))
        octets = octets[head + size :]
    return frames, octets


def answers(client):
    """Whether a session's PING is answered."""
    client.text_line("PING still")
    return client.frame()[1] == b":irc.example PONG irc.example still"
