"""Clients that come by WebSocket and go: where memory is wanting, and whatever they break off."""
import contextlib
import random
import re
import tempfile
import threading
import time

from lives import LIVES, go
from refusing import Orders
from served import Server, wait_until
from web_client import REQUEST, Raw, answers, whole
from web_trials import trial

# How a session ends that is told why: by ERROR and a close, or by the close of a server that found no memory, or that
# can't take one more now.
TOLD = re.compile(rb"ERROR :Closing Link: 127\.0\.0\.1 \((Client Quit|Out of memory)\)")
GONE, WANTING = (0x88, b"\x03\xe8"), [(0x88, b"\x03\xf3"), (0x88, b"\x03\xf5")]


def said_to(server, lines):
    """All that a client is sent that says these."""
    client = Raw(server.ws, greet=False)
    with contextlib.suppress(ConnectionError):
        client.send(REQUEST)
        while b"\r\n\r\n" not in client.left and client.more():
            pass
        for line in lines:
            client.text_line(line)
    got = client.rest()
    client.socket.close()
    return got


def fault_of(got):
    """What is wrong in all that a client was sent that sent a right request, spoke and quit: nothing where it was
    turned away without an octet or by 503, its session was served, or it ended with ERROR or by a close that says why.
    """
    if not got or got.startswith(b"HTTP/1.1 503 "):
        return None
    head, _, rest = got.partition(b"\r\n\r\n")
    if not head.startswith(b"HTTP/1.1 101 "):
        return head.split(b"\r\n")[0].decode()
    frames, cut = whole(rest)
    if cut or not frames:
        return "cut within a frame" if cut else "ended without a frame"
    is_told = len(frames) > 1 and frames[-1] in [GONE, *WANTING] and TOLD.fullmatch(frames[-2][1])
    return None if is_told or frames[-1] in WANTING else f"ended with {frames[-1]}"


@trial
def who_finds_no_memory_is_told(server):
    """Each allocation of a life refused in turn: a right request isn't answered 426, and a session that ends is told
    why."""
    lines = ["NICK al", "USER a 0 * :a", "JOIN #a", "PRIVMSG al,#a :hi", "PING x", "WHOIS al", "QUIT"]
    number, faults, last = 0, {}, -1
    with tempfile.TemporaryDirectory() as room:
        orders = Orders(room)
        with Server(server.program, "--workers", "1", has_web=True, env=orders.env) as own:
            while orders.refused() != last:
                last, number = orders.refused(), number + 1
                orders.refuse(number)
                fault = fault_of(said_to(own, lines))
                if fault:
                    faults.setdefault(fault, []).append(number)
                are_back = wait_until(lambda: own.descriptors() == own.descriptors_at_rest, 8)
                assert are_back, f"a descriptor is left after the allocation {number}"
                orders.refuse_none()
            assert own.stop()[0] == 0
    told = "; ".join(f"{len(numbers)} {fault}" for fault, numbers in faults.items())
    assert not faults, f"of {number - 1} refused allocations: {told}"
    return f"{number - 1} allocations refused"


def live(server, seed, count, rate, faults):
    """So many lives, so many a second."""
    chance, began = random.Random(seed), time.monotonic()
    for number in range(count):
        time.sleep(max(0, began + number / rate - time.monotonic()))
        try:
            go(chance.choice(LIVES)(server, chance), chance)
        except (ConnectionError, EOFError):
            pass
        except OSError as fault:
            faults.append(fault)


@trial
def hundred_lives_a_second_leave_nothing(server):
    """For a minute: requests, lines and fragments that are cut, half closes, resets, and bursts that nobody reads."""
    with Server(server.program, has_web=True) as own:
        other, faults, began = Raw(own.ws), [], time.monotonic()
        there = own.descriptors_at_rest + 1
        lives = [threading.Thread(target=live, args=(own, seed, 1500, 25, faults)) for seed in range(4)]
        for thread in lives:
            thread.start()
        for thread in lives:
            thread.join()
        took, most = time.monotonic() - began, own.memory()
        assert wait_until(lambda: own.descriptors() == there, 15), f"{own.descriptors() - there} descriptors are left"
        assert not faults, faults[:3]
        assert answers(other) and own.threads() == own.threads_at_rest
        other.socket.close()
        status, _ = own.stop()
        return status == 0 and f"6000 lives in {took:.0f} s; {most:,} KB"
