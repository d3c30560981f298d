#!/usr/bin/env python3
"""bridge.py: bridges a channel of one server and one of another: what is said on either is said on both.

  bridge.py HOST:PORT CHANNEL HOST:PORT CHANNEL [--nick NICK]

A text comes as `<nick> text`, once and in order, also where a server is stopped and started meanwhile: what was said on the
other then comes when the bridge is back and somebody else is on the channel. A text is taken as said when the server has
answered its labelled request, and is said again where the connection ended before; so where a network breaks one text may
come twice. What is said where the bridge isn't, or in the moment in which a server ends, may be lost. At most 10,000 texts
wait for a server; then the oldest go, and that is told. Give the servers `--sendq 4096`: texts come in bursts.
"""
import argparse
import asyncio
import collections
import sys

from labelled import Connection, nick_of

PAUSE = 1
MOST = 10000

# Octets of a text that fit into a line, whoever sends it; a longer one comes in parts.
LENGTH = 380


def parts(head, text):
    """A text as lines say it, cut between letters."""
    octets = text.encode(errors="surrogateescape")
    while True:
        end = LENGTH - len(head)
        while len(octets) > end > LENGTH // 2 and octets[end] & 0xC0 == 0x80:
            end -= 1
        yield head + octets[:end].decode(errors="surrogateescape")
        octets = octets[end:]
        if not octets:
            return


class Side:
    """A server's channel, and what waits to be said there."""

    def __init__(self, address, channel, nick):
        self.host, _, self.port = address.rpartition(":")
        self.channel, self.nick, self.other, self.connection = channel, nick, None, None
        self.texts, self.has_more, self.dropped = collections.deque(), asyncio.Event(), 0

    def tell(self, what):
        print(f"{self.host}:{self.port} {self.channel}: {what}", file=sys.stderr, flush=True)

    def say(self, text):
        """Has a text said here."""
        if len(self.texts) == MOST:
            # (the first may be on its way)
            del self.texts[1]
            self.dropped += 1
        self.texts.append(text)
        self.has_more.set()

    def heard(self, connection, line):
        """Hands on what is said here."""
        if line.command == "KICK" and line.params[1] == connection.nick:
            connection.close()
        if line.command != "PRIVMSG" or line.params[0].lower() != self.channel.lower():
            return
        nick, text = nick_of(line.source), line.params[1]
        if text.startswith("\x01ACTION "):
            head, text = f"* {nick} ", text[8:].rstrip("\x01")
        else:
            head = f"<{nick}> "
        if not text.startswith("\x01"):
            for it in parts(head, text):
                self.other.say(it)

    async def is_alone(self, connection):
        lines = await connection.ask(f"NAMES {self.channel}")
        return [name for it in lines if it.command == "353" for name in it.params[-1].split()][1:] == []

    async def serve(self, connection):
        """Says what waits, one after another, as long as the connection lasts."""
        while True:
            while self.texts:
                refused = [it.params[-1] for it in await connection.ask(f"PRIVMSG {self.channel} :{self.texts[0]}")]
                self.texts.popleft()
                if refused:
                    self.tell(f"a text was refused: {refused[0]}")
            self.has_more.clear()
            more = asyncio.ensure_future(self.has_more.wait())
            await asyncio.wait([more, connection.ended], return_when=asyncio.FIRST_COMPLETED)
            more.cancel()
            if connection.ended.done():
                raise ConnectionError("the connection has ended")

    async def run(self):
        while True:
            connection = None
            try:
                connection = await Connection.open(self.host, self.port, self.nick, self.heard)
                refused = [it.params[-1] for it in await connection.ask(f"JOIN {self.channel}") if it.command[0] == "4"]
                if refused:
                    raise ConnectionError(refused[0])
                while await self.is_alone(connection):
                    await asyncio.sleep(PAUSE)
                self.tell(f"{len(self.texts)} texts have waited, {self.dropped} were dropped")
                self.dropped = 0
                await self.serve(connection)
            except OSError as fault:
                self.tell(fault)
            if connection:
                connection.close()
            await asyncio.sleep(PAUSE)


async def run(asked):
    first, second = (Side(*it, asked.nick) for it in ((asked.address, asked.channel), (asked.address2, asked.channel2)))
    first.other, second.other = second, first
    await asyncio.gather(first.run(), second.run())


def main():
    words = argparse.ArgumentParser(description=__doc__, formatter_class=argparse.RawDescriptionHelpFormatter)
    for name in ("address", "channel", "address2", "channel2"):
        words.add_argument(name)
    words.add_argument("--nick", default="bridge")
    try:
        asyncio.run(run(words.parse_args()))
    except KeyboardInterrupt:
        pass


main()
