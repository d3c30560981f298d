"""Clients that use a server badly, and what becomes of others meanwhile."""
import contextlib
import random
import socket
import threading
import time

from hostile_marks import test
from served import CLIENT_QUIT, SLOW, Client, is_on, is_taken, wait_until
from web_client import Raw


@test()
def client_that_never_reads(server):
    """One that never reads while 100,000 lines are sent to its channel is shut, and its memory is bounded."""
    deaf = Client(server)
    deaf.socket.setsockopt(socket.SOL_SOCKET, socket.SO_RCVBUF, 4096)
    deaf.send("NICK deaf", "USER deaf 0 * :deaf", "JOIN #a")
    time.sleep(0.2)
    speaker = Client(server, "speaker")
    speaker.send("JOIN #a")
    assert "deaf" in speaker.hear(" 353 ")
    speaker.hear(" 366 ")
    text = "x" * 100
    for block in range(100):
        speaker.send(*[f"PRIVMSG #a :{block} {text}"] * 1000, f"PING {block}")
        speaker.hear(f"PONG irc.example {block}")
    assert wait_until(lambda: not is_on(speaker, "deaf", "#a")), "who never reads is there still"
    deaf.close()
    speaker.close()


@test()
def megabyte_without_a_line_end(server):
    """One that sends a megabyte without a line end is told that it was too long, once."""
    long = Client(server, "long")
    for _ in range(16):
        long.socket.sendall(b"x" * 65536)
    long.send("", "PING after")
    assert "417" in long.line()
    assert long.line() == ":irc.example PONG irc.example after"
    long.close()


@test()
def reset_in_the_middle_of_a_line(server):
    """One that is reset in the middle of a line is seen to leave."""
    other = Client(server, "other", "JOIN #a")
    other.hear(" 366 ")
    cut = Client(server, "cut", "JOIN #a")
    cut.hear(" 366 ")
    cut.socket.sendall(b"PRIVMSG #a :half of a li")
    cut.reset()
    seen = other.hear(" QUIT :")
    assert seen.startswith(":cut!cut@127.0.0.1 QUIT :") and "half" not in seen, seen
    other.close()


@test()
def end_of_what_a_client_sends(server):
    """One that sends no more is told so, and closed."""
    half = Client(server, "half")
    half.send("PING last")
    half.socket.sendall(b"PING unfinished")
    half.socket.shutdown(socket.SHUT_WR)
    assert half.rest() == [":irc.example PONG irc.example last", "ERROR :Closing Link: 127.0.0.1 (Connection closed)"]
    half.close()


@test()
def quit_with_lines_after_it(server):
    """One that goes on sending after its QUIT gets all its answers, ERROR and the end of the stream, each of a hundred
    times."""
    wanted = [*(f":irc.example PONG irc.example {it}" for it in range(400)), CLIENT_QUIT, ""]
    for number in range(100):
        client = Client(server, f"q{number}")
        client.send(*[f"PING {it}" for it in range(400)], "QUIT :bye", *["PING late"] * 2000)
        if number % 2:
            time.sleep(0.02)
            client.send("PING later")
        got = b"".join(iter(lambda: client.socket.recv(4096), b"")).decode().split("\r\n")
        assert got == wanted, got[-2:]
        client.close()


@test(growth=300_000)
def two_thousand_who_quit_and_stay(server):
    """Of those who quit and don't close their side at most 1,024 keep a descriptor, and none after five seconds."""
    before, most, left = server.descriptors(), 0, []
    for number in range(2000):
        client = Client(server)
        client.send(f"NICK w{number}", "USER w 0 * :w", "QUIT")
        client.hear(CLIENT_QUIT)
        left.append(client)
        most = max(most, server.descriptors()) if number % 50 == 49 else most
    assert most - before <= 1024 + 8, f"{most - before} descriptors more"
    are_given_back = wait_until(lambda: server.descriptors() == before, 8)
    assert are_given_back, f"{server.descriptors() - before} descriptors are left"
    for client in left:
        client.close()
    return f"{most - before} descriptors at most"


@test(growth=100_000)
def answer_of_several_megabytes(server):
    """LIST of 20,000 channels with topics, some seven megabytes, goes out to who reads."""
    text, clients = "t" * 300, []
    for number in range(1000):
        client = Client(server)
        channels = [f"#{number}-{it}" for it in range(20)]
        made = [line for it in channels for line in (f"JOIN {it}", f"TOPIC {it} :{text}")]
        client.send(f"NICK l{number}", "USER l 0 * :l", *made, "PING made")
        client.hear(" PONG irc.example made")
        clients.append(client)
    clients[0].send("LIST", "PING listed")
    lines = list(iter(clients[0].line, ":irc.example PONG irc.example listed"))
    assert len(lines) == 20_001 and lines[-1] == ":irc.example 323 l0 :End of LIST", (len(lines), lines[-1])
    for client in clients:
        client.close()
        time.sleep(0.005)
    return f"{sum(len(it) + 2 for it in lines):,} octets"


@test()
def room_for_an_answer_is_given_back(server):
    """Three hundred ask for a LIST of 50 KB, one after another, read it and stay: each took room for 64 KB, and the next
    uses that again."""
    makers = [Client(server, f"m{number}") for number in range(8)]
    for number, maker in enumerate(makers):
        channels = [f"#{number}-{it}" for it in range(20)]
        maker.send(*(line for it in channels for line in (f"JOIN {it}", f"TOPIC {it} :{'t' * 300}")), "PING made")
        maker.hear(" PONG irc.example made")
    clients = [Client(server, f"c{number}") for number in range(300)]
    before = server.memory()
    for client in clients:
        client.send("LIST")
        client.hear(" 323 ")
    grown = server.memory() - before
    for client in makers + clients:
        client.close()
    assert grown < 6000, f"the server grew by {grown:,} KB"
    return f"it grew by {grown:,} KB for them"


@test(growth=64_000)
def repeated_list_by_eight_who_dont_read(server):
    """Eight ask for LIST four hundred times each and don't read: their own answers wait for themselves. Then they
    read, and each gets every answer, and what it asked after them."""
    makers = []
    for number in range(50):
        client = Client(server, f"m{number}")
        client.send(*(f"JOIN #{number}-{it}" for it in range(20)), "PING made")
        client.hear(" PONG irc.example made")
        makers.append(client)
    before, deaf = server.memory(), []
    for number in range(8):
        client = Client(server, f"d{number}")
        client.socket.settimeout(60)
        client.send(*["LIST"] * 400, "PING after")
        deaf.append(client)
    time.sleep(3)
    grown = server.memory() - before
    assert grown < 16_000, f"the server grew by {grown:,} KB"
    answers = [0] * 8

    def read(number):
        for line in iter(deaf[number].line, ":irc.example PONG irc.example after"):
            answers[number] += line.startswith(":irc.example 322 ")

    readers = [threading.Thread(target=read, args=[number]) for number in range(8)]
    for reader in readers:
        reader.start()
    for reader in readers:
        reader.join(100)
    assert answers == [400 * 1000] * 8, answers
    for client in makers + deaf:
        client.close()
    return f"{grown:,} KB waited"


@test(words=["--sendq", "4096", "--sendq-bytes", "262144"])
def member_who_doesnt_read_is_bounded(server):
    """One that reads nothing in a busy channel is ended where more octets wait for it than may, and the others see
    why."""
    other = Client(server, "other", "JOIN #a")
    other.hear(" 366 ")
    deaf = Client(server)
    deaf.socket.setsockopt(socket.SOL_SOCKET, socket.SO_RCVBUF, 4096)
    deaf.send("NICK deaf", "USER deaf 0 * :deaf", "JOIN #a")
    other.hear(" JOIN ")
    speaker = Client(server, "speaker", "JOIN #a")
    speaker.hear(" 366 ")
    text, before, most = "x" * 400, server.memory(), 0
    reader = threading.Thread(target=other.hear, args=[":deaf!deaf@127.0.0.1 QUIT :Max SendQ exceeded"])
    reader.start()
    for block in range(60):
        speaker.send(*[f"PRIVMSG #a :{block} {text}"] * 400, f"PING {block}")
        speaker.hear(f"PONG irc.example {block}")
        most = max(most, server.memory() - before)
    reader.join(10)
    assert not reader.is_alive(), "the others don't see it leave"
    # the journal has some nine megabytes of lines
    assert most < 16_000, f"the server grew by {most:,} KB"
    for client in (deaf, speaker, other):
        client.close()
    return f"{most:,} KB"


@test()
def two_megabytes_of_nothing(server):
    """One that sends two megabytes of empty lines before it registers ends nothing."""
    empty = Client(server)
    for _ in range(100):
        empty.socket.sendall(b":\n" * 10_000)
    empty.send("NICK empty", "USER e 0 * :e", "PING x")
    empty.hear("PONG irc.example x")
    empty.close()


def say_in_turn(clients, number, count):
    """A client says numbered texts on its channel, and hears the others' of its channel, in order."""
    client, last = clients[number], {}
    for turn in range(count):
        client.send(f"PRIVMSG #{number % 5} :{turn}")
        if turn % 20 == 19:
            client.send(f"PING {turn}")
            for line in iter(client.line, f":irc.example PONG irc.example {turn}"):
                note_text(line, last)
    return last


def note_text(line, last):
    """A text has the number after that of the one before it."""
    head, _, text = line.partition(" PRIVMSG ")
    if text:
        who, turn = head[1:].partition("!")[0], int(text.rpartition(":")[2])
        assert turn == last.get(who, -1) + 1, f"{who}: {turn} after {last.get(who)}"
        last[who] = turn


@test(words=["--limit", "200"], growth=30_000)
def fifty_over_a_journal_of_two_hundred(server):
    """Fifty on five channels say 4,000 numbered texts each, over a journal that is rolled all the time, while others
    join and quit: nothing is lost, doubled or out of order."""
    clients, heard, passing = [], {}, [0, False]
    for number in range(50):
        client = Client(server, f"n{number}", f"JOIN #{number % 5}")
        client.hear(" 366 ")
        clients.append(client)
    for client in clients:
        client.send("PING all")
        client.hear(" PONG irc.example all")

    def talk(number):
        heard[number] = say_in_turn(clients, number, 4000)

    def come_and_go():
        while not passing[1]:
            client = Client(server, f"p{passing[0]}", "JOIN #0,#1")
            client.send("QUIT :bye")
            assert client.rest()[-1] == CLIENT_QUIT
            client.close()
            passing[0] += 1

    talkers = [threading.Thread(target=talk, args=[number]) for number in range(50)]
    walker = threading.Thread(target=come_and_go)
    walker.start()
    for talker in talkers:
        talker.start()
    for talker in talkers:
        talker.join(200)
    passing[1] = True
    walker.join(10)
    assert sorted(heard) == list(range(50)), f"{50 - len(heard)} didn't hear all"
    for number, client in enumerate(clients):
        client.send("PING end")
        for line in iter(client.line, ":irc.example PONG irc.example end"):
            note_text(line, heard[number])
        others = {f"n{it}": 3999 for it in range(number % 5, 50, 5) if it != number}
        assert heard[number] == others, heard[number]
    for client in clients:
        client.close()
    return f"{passing[0]} came and went"


@test()
def client_that_reads_no_more(server):
    """One that reads no more, and goes on sending, is closed in the end."""
    half = Client(server, "half")
    half.socket.shutdown(socket.SHUT_RD)
    with contextlib.suppress(OSError):
        for _ in range(2000):
            half.send("PING x")
    half.close()


@test(growth=300_000)
def as_many_as_may_be_and_one_more(server):
    """With as many clients as a server takes, one more is closed without a line, and nobody else notices."""
    clients = []
    for number in range(1023):
        clients.append(Client(server))
        clients[-1].send(f"NICK n{number}", f"USER n{number} 0 * :n")
    for number, client in enumerate(clients):
        client.name = f"n{number}"
        client.hear(f" 422 n{number} ")
    more = Client(server)
    assert more.rest() == [], "one more got a line"
    more.close()
    server.turned_away += 1
    for client in clients:
        client.send("PING all")
    for client in clients:
        client.hear("PONG irc.example all")
    clients.pop().close()
    assert wait_until(lambda: is_taken(server)), "nobody is taken after one left"
    for client in clients:
        client.close()


@test()
def thousand_that_connect_and_leave(server):
    """A thousand connect and leave, each in one of four ways."""
    for number in range(1000):
        client = Client(server)
        if number % 4 == 1:
            client.send("NICK passing")
        elif number % 4 == 2:
            client.send(f"NICK p{number}", f"USER p 0 * :p", "JOIN #p", "QUIT :bye")
            assert client.rest()[-1] == CLIENT_QUIT
        elif number % 4 == 3:
            client.socket.sendall(b"NICK half")
            client.reset()
            continue
        client.close()


@test()
def ten_thousand_lines_at_once(server):
    """One that sends 10,000 lines at once, and reads, is answered each in order."""
    many = Client(server, "many")
    sender = threading.Thread(target=many.send, args=[f"PING {it}" for it in range(10_000)])
    sender.start()
    for number in range(10_000):
        line = many.line()
        assert line == f":irc.example PONG irc.example {number}", line
    sender.join()
    many.close()


@test()
def random_octets(server):
    """Random octets on 64 connections harm nobody."""
    chance = random.Random(1)
    octet = lambda: chance.choice(b"\r\n :@#,") if chance.random() < 0.2 else chance.randrange(256)
    clients = [Client(server) for _ in range(64)]
    for _ in range(20):
        for client in clients:
            with contextlib.suppress(OSError):
                client.socket.sendall(bytes(octet() for _ in range(1000)))
    for client in clients:
        client.close()


@test()
def eight_bit_text(server):
    """Octets that are no UTF-8 arrive unchanged."""
    al, bo = Client(server, "al"), Client(server, "bo")
    al.send("PRIVMSG bo :\xff\xfe")
    assert bo.line() == ":al!al@127.0.0.1 PRIVMSG bo :\xff\xfe"
    al.close()
    bo.close()


@test(words=["--sendq", "1"])
def smallest_outbox(server):
    """With room for one item, whoever reads what is sent is served."""
    al = Client(server, "al", "JOIN #a")
    al.hear(" 366 ")
    al.send("PING x")
    al.hear("PONG irc.example x")
    al.close()


def gather(server, count):
    """So many members of a channel, each of whom was told of those who came later."""
    members = []
    for number in range(count):
        members.append(Client(server, f"m{number}", "JOIN #a"))
        members[-1].hear(" 366 ")
        for member in members[:-1]:
            member.hear(f":m{number}!")
    return members


@test(growth=100_000)
def quiet_members_are_told_at_once(server):
    """Three hundred members of a channel are quiet, but for a text that each says in turn: all others are told it within
    two seconds, also those of a worker that rests."""
    members, worst = gather(server, 300), 0.0
    for number, speaker in enumerate(members):
        began = time.monotonic()
        speaker.send(f"PRIVMSG #a :{number}")
        for member in members[:number] + members[number + 1 :]:
            assert member.line() == f":m{number}!m{number}@127.0.0.1 PRIVMSG #a :{number}"
        worst = max(worst, time.monotonic() - began)
    for member in members:
        member.close()
    assert worst <= SLOW, f"one was told after {worst:.1f} s"
    return f"all were told after {worst * 1000:.0f} ms at most"


@test(growth=100_000, words=["--sendq", "16"])
def three_hundred_with_small_outboxes(server):
    """With room for sixteen items, three hundred who read are told each of two hundred texts that are said at once, in
    order."""
    members = gather(server, 300)
    for block in range(20):
        members[150].send(*[f"PRIVMSG #a :{block * 10 + it}" for it in range(10)])
        for member in members[:150] + members[151:]:
            for number in range(block * 10, block * 10 + 10):
                assert member.line() == f":m150!m150@127.0.0.1 PRIVMSG #a :{number}"
    for member in members:
        member.close()


def is_let_send(client):
    """Whether a client may send a line more that was told its end: nobody reset it."""
    try:
        client.socket.sendall(b"late\r\n")
        return True
    except ConnectionError:
        return False


@test(words=["--workers", "64"])
def thirty_who_quit_and_stay_with_many_workers(server):
    """Thirty who quit one after another, and stay, are each let send for a while, however many workers there are."""
    left = []
    for number in range(30):
        client = Client(server)
        client.send(f"NICK w{number}", "USER w 0 * :w", "QUIT")
        client.hear(CLIENT_QUIT)
        left.append(client)
    kept = left
    for _ in range(4):
        kept = [client for client in kept if is_let_send(client)]
        time.sleep(0.1)
    for client in left:
        client.close()
    assert len(kept) == 30, f"{30 - len(kept)} of 30 were reset"


@test(words=["--workers", "64"], has_web=True, growth=300_000)
def six_who_greet_one_worker_of_many(server):
    """Six who greet one worker, which has the fewest clients, are each let greet, however many workers there are."""
    clients = [Client(server) for _ in range(63 + 7 * 64)]
    for client in clients:
        client.send("PING x")
    for client in clients:
        client.hear(" PONG ")
    # (the first of all, the bystander, went to the first worker, and each of the others to the next)
    alone = clients[7::64]
    for client in alone:
        client.close()
    time.sleep(0.5)
    guests = [Raw(server.ws, greet=False) for _ in range(6)]
    time.sleep(0.5)
    let_in = 0
    for guest in guests:
        with contextlib.suppress(ConnectionError, EOFError):
            guest.greet()
            let_in += 1
        guest.socket.close()
    for client in clients:
        client.close()
    assert let_in == 6, f"{6 - let_in} of 6 were given up"


@test()
def who_is_shut_is_gone_at_once(server):
    """One whose outbox overflows while its stream takes nothing loses its nickname and its channels at once."""
    deaf, told = Client(server, small=True), ":deaf!deaf@127.0.0.1 QUIT :Max SendQ exceeded"
    deaf.send("NICK deaf", "USER deaf 0 * :deaf", "JOIN #a")
    time.sleep(0.2)
    speaker, heard = Client(server, "speaker", "JOIN #a"), []
    assert "deaf" in speaker.hear(" 353 "), "it isn't there"
    # (a pause between them, since the system takes more for a stream a moment after it took nothing)
    for block in range(48):
        speaker.send(*[f"PRIVMSG #a :{'x' * 400}"] * 20, f"PING {block}")
        heard += iter(speaker.line, f":irc.example PONG irc.example {block}")
        time.sleep(0.06)
    began = time.monotonic()
    if told not in heard:
        speaker.hear(told)
    took = time.monotonic() - began
    other = Client(server, "deaf")
    for client in (deaf, speaker, other):
        client.close()
    assert took < 1.5, f"others saw it {took:.1f} s later"
    return f"others saw it {took:.1f} s later"
