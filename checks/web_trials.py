"""What a server's WebSocket does for clients, whatever they send."""
import asyncio
import os
import socket
import struct
import sys
import time

from web_client import HEAD, Raw, answers, enter, masked, plain, tcp_in

try:
    import websockets
except ImportError:
    sys.exit("checks/web: there is no package websockets (Debian's python3-websockets)")

TRIALS = []


def trial(function):
    """A trial of a server that others are tried on, too: it answers whether all is well."""
    TRIALS.append(function)
    return function


@trial
def unregistered_ping_is_answered(server):
    client = Raw(server.ws)
    client.text_line("PING x")
    return client.frame() == (0x81, b":irc.example PONG irc.example x")


@trial
def subprotocols_are_chosen(server):
    async def go():
        url = f"ws://127.0.0.1:{server.ws}"
        offers = ([], None), (["text.ircv3.net"], "text.ircv3.net"), (["binary.ircv3.net"], "binary.ircv3.net")
        offers += ((["binary.ircv3.net", "text.ircv3.net"], "binary.ircv3.net"),)
        offers += ((["chat", "text.ircv3.net"], "text.ircv3.net"),)
        for offer, wanted in offers:
            async with websockets.connect(url, subprotocols=offer or None) as client:
                if client.subprotocol != wanted:
                    return False
        return True

    return asyncio.run(go())


@trial
def lines_go_both_ways(server):
    async def go():
        url = f"ws://127.0.0.1:{server.ws}"
        async with websockets.connect(url, subprotocols=["text.ircv3.net"]) as text:
            await enter(text, "wanda", "#both")
            async with websockets.connect(url, subprotocols=["binary.ircv3.net", "text.ircv3.net"]) as binary:
                await enter(binary, "wilma", "#both")
                if ":wilma!wilma@127.0.0.1 JOIN #both" not in plain(await text.recv()):
                    return False
                other = tcp_in(server.port, "theo", "#both")
                await asyncio.gather(text.recv(), binary.recv())
                other.sendall(b"PRIVMSG #both :\xff\xfe\r\n")
                said = await asyncio.gather(text.recv(), binary.recv())
                head = ":theo!theo@127.0.0.1 PRIVMSG #both :"
                wanted = [head + "\ufffd\ufffd", head.encode() + b"\xff\xfe"]
                await text.send("PRIVMSG #both :one\r\nPRIVMSG #both :two")
                heard = [await binary.recv(), await binary.recv()]
                got = b""
                while got.count(b"PRIVMSG") < 2:
                    got += other.recv(65536)
                lines = [b":wanda!wanda@127.0.0.1 PRIVMSG #both :one", b":wanda!wanda@127.0.0.1 PRIVMSG #both :two"]
                return said == wanted and heard == lines and got == b"\r\n".join(lines) + b"\r\n"

    return asyncio.run(go())


@trial
def quit_ends_with_error_and_a_close(server):
    client = Raw(server.ws)
    client.text_line("QUIT")
    return client.rest() == b"\x81\x2cERROR :Closing Link: 127.0.0.1 (Client Quit)\x88\x02\x03\xe8"


@trial
def close_is_answered_and_nothing_else_sent(server):
    client = Raw(server.ws)
    client.send(masked(0x88, b"\x03\xe8"))
    return client.rest() == b"\x88\x02\x03\xe8"


@trial
def breaches_are_told(server):
    cases = [
        (b"\x81\x05Hello", 1002, "no mask"),
        (masked(0xC1, b"x"), 1002, "a reserved bit"),
        (masked(0x83, b"x"), 1002, "an unknown opcode"),
        (masked(0x81, b"\xff\xfe"), 1007, "no UTF-8"),
        (masked(0x81, b"x" * 8193), 1009, "a payload of 8,193 octets"),
        (masked(0x82, b"x" * 1_000_000), 1009, "a payload of a megabyte"),
        (masked(0x01, b"x" * 8000) + masked(0x80, b"x" * 193), 1009, "a message of 8,193 octets in two frames"),
    ]
    for octets, code, what in cases:
        client = Raw(server.ws)
        client.send(octets[:8400])
        if not client.rest().startswith(b"\x88\x02" + struct.pack(">H", code)):
            print(f"  {what}: {client.left!r}")
            return False
    return True


@trial
def a_megabyte_takes_no_memory(server):
    other, before = Raw(server.ws), server.memory()
    for _ in range(20):
        client = Raw(server.ws)
        try:
            client.send(masked(0x82, b"x" * 1_000_000))
        except ConnectionError:
            pass
        client.rest()
    return answers(other) and server.memory() < before + 2048


@trial
def long_line_is_417(server):
    client = Raw(server.ws)
    client.text_line("x" * 8192)
    return b" 417 " in client.frame()[1] and answers(client)


@trial
def fragments_are_joined(server):
    client = Raw(server.ws)
    client.send(masked(0x01, b"PI") + masked(0x89, b"hey") + masked(0x80, b"NG x"))
    return client.frame() == (0x8A, b"hey") and client.frame()[1] == b":irc.example PONG irc.example x"


@trial
def frames_may_be_cut_anywhere(server):
    octets = masked(0x81, b"PING a") + masked(0x81, b"PING b")
    for cut in range(1, len(octets)):
        client = Raw(server.ws)
        client.send(octets[:cut])
        time.sleep(0.001)
        client.send(octets[cut:])
        if [client.frame()[1][-1:], client.frame()[1][-1:]] != [b"a", b"b"]:
            return False
    return True


@trial
def ten_thousand_pings_are_answered(server):
    client = Raw(server.ws)
    client.send(masked(0x89, b"ping") * 10_000 + masked(0x81, b"PING x"))
    got = 0
    while client.frame() == (0x8A, b"ping"):
        got += 1
    return got == 10_000


@trial
def pings_of_who_never_reads_take_no_memory(server):
    other, client = Raw(server.ws), Raw(server.ws, small=True)
    client.socket.settimeout(2)
    before = server.memory()
    try:
        for _ in range(200):
            client.send(masked(0x89, b"x" * 100) * 1000)
    except TimeoutError:
        pass
    return answers(other) and server.memory() < before + 2048


@trial
def a_lasting_flood_of_pings_keeps_nobody_waiting(server):
    other, client = Raw(server.ws), Raw(server.ws)
    client.socket.settimeout(0.05)
    longest, until = 0, time.monotonic() + 3
    octets = masked(0x89, b"x" * 100) * 100
    while time.monotonic() < until:
        try:
            client.send(octets)
            client.more()
            client.left = b""
        except TimeoutError:
            pass
        before = time.monotonic()
        if not answers(other):
            return False
        longest = max(longest, time.monotonic() - before)
    print(f"  the longest wait was {longest * 1000:.0f} ms")
    return longest < 0.5


@trial
def handshakes_may_come_in_pieces(server):
    octets = (HEAD + "\r\n").encode()
    for cut in range(1, len(octets), 7):
        client = Raw(server.ws, greet=False)
        client.send(octets[:cut])
        time.sleep(0.001)
        client.send(octets[cut:])
        if not client.until(b"\r\n\r\n").startswith(b"HTTP/1.1 101 ") or not answers(client):
            return False
    return True


@trial
def a_handshake_an_octet_at_a_time_is_answered_426(server):
    client = Raw(server.ws, greet=False)
    client.socket.setsockopt(socket.IPPROTO_TCP, socket.TCP_NODELAY, 1)
    try:
        for octet in (HEAD + "\r\n").encode():
            client.send(bytes([octet]))
            time.sleep(0.002)
    except ConnectionError:
        pass
    return client.rest().startswith(b"HTTP/1.1 426 ")


@trial
def who_is_gone_in_the_middle_of_a_frame_is_given_up(server):
    other, before = Raw(server.ws), server.descriptors()
    whole = masked(0x81, b"PING x")
    for cut in range(1, len(whole)):
        client = Raw(server.ws)
        client.send(whole[:cut])
        client.socket.close()
    for _ in range(100):
        if server.descriptors() == before:
            return answers(other)
        time.sleep(0.05)
    return False


@trial
def what_opens_none_is_answered_426(server):
    older = HEAD.replace(": 13", ": 8").encode() + b"\r\n"
    for octets in (b"GET / HTTP/1.1\r\nHost: a\r\n\r\n", older, b"NICK bo\r\n\r\n"):
        client = Raw(server.ws, greet=False)
        client.send(octets)
        got = client.rest()
        if not got.startswith(b"HTTP/1.1 426 ") or b"Sec-WebSocket-Version: 13\r\n" not in got:
            print(f"  {got!r}")
            return False
    return True


@trial
def a_head_of_more_than_8_kb_is_closed(server):
    client = Raw(server.ws, greet=False)
    client.send((HEAD + "X: " + "y" * 9000).encode())
    return not client.rest().startswith(b"HTTP/1.1 101 ")


@trial
def who_greets_too_long_is_closed(server):
    clients = [Raw(server.ws, greet=False) for _ in range(300)]
    begun = time.monotonic()
    clients[299].send(HEAD.encode())
    clients[299].rest()
    took = time.monotonic() - begun
    print(f"  after {took:.1f} s")
    return 8 < took < 14 and all(it.rest() == b"" for it in clients[:299])


@trial
def noise_after_a_handshake_harms_nobody(server):
    other = Raw(server.ws)
    clients = [Raw(server.ws) for _ in range(64)]
    for client in clients:
        client.send(os.urandom(3000))
    time.sleep(0.5)
    return answers(other)


@trial
def sixty_four_pings_and_an_end_in_one_segment_are_seen(server):
    """As many messages without a payload as one turn reads, and the stream's end right behind them: the session ends."""
    for count in (64, 128):
        client = Raw(server.ws)
        client.socket.setsockopt(socket.IPPROTO_TCP, socket.TCP_CORK, 1)
        client.send(b"\x89\x80\0\0\0\0" * count)
        client.socket.shutdown(socket.SHUT_WR)
        client.socket.settimeout(5)
        if client.rest().count(b"\x8a\x00") != count:
            return False
        client.socket.close()
    return True


@trial
def who_never_reads_in_a_busy_channel_is_ended(server):
    async def go():
        url = f"ws://127.0.0.1:{server.ws}"
        slow = Raw(server.ws, small=True)
        for line in ("NICK slow", "USER slow 0 * :slow", "JOIN #busy"):
            slow.text_line(line)
        longest, heard, over = 0, set(), ":slow!slow@127.0.0.1 QUIT :Max SendQ exceeded"
        async with websockets.connect(url) as talker:
            await enter(talker, "talker", "#busy")
            for turn in range(20_000):
                await talker.send("PRIVMSG #busy :" + "x" * 400)
                if turn % 200 == 0:
                    begun = time.monotonic()
                    await talker.send(f"PING {turn}")
                    while f":irc.example PONG irc.example {turn}" not in heard:
                        heard.add(await asyncio.wait_for(talker.recv(), 20))
                    longest = max(longest, time.monotonic() - begun)
            print(f"  the longest wait was {longest * 1000:.0f} ms")
            # (a client that takes nothing has five seconds to take what waits, more on a busy machine)
            while over not in heard:
                heard.add(await asyncio.wait_for(talker.recv(), 60))
        return longest < 1

    return asyncio.run(go())
