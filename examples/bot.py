#!/usr/bin/env python3
"""bot.py: a bot that asks its server by labelled requests, many at a time, and knows which answer is whose.

  bot.py HOST PORT NICK CHANNEL [--seconds N]

On CHANNEL it does what it is told by its nickname: `NICK: who`, `NICK: whois al`, `NICK: topic some words`. A request that
isn't answered in N seconds (5) is told as such, and its answer, if it comes later, is nobody's. The bot comes back when the
server does.
"""
import argparse
import asyncio
import sys

from labelled import Connection, nick_of

PAUSE = 2


def numeric(lines, number):
    """The first line of an answer with this number."""
    return next((it for it in lines if it.command == number), None)


def refusal(lines):
    """What refuses the request, by the first numeric of an answer that does."""
    return next((it.params[-1] for it in lines if it.command[0] in "45"), None)


class Bot:
    def __init__(self, channel, seconds):
        self.channel, self.seconds, self.tasks = channel, seconds, set()

    async def who(self, connection, _):
        lines = await connection.ask(f"NAMES {self.channel}", self.seconds)
        names = [name for it in lines if it.command == "353" for name in it.params[-1].split()]
        return f"{len(names)} are here: {' '.join(names)}"

    async def whois(self, connection, nick):
        lines = await connection.ask(f"WHOIS {nick or connection.nick}", self.seconds)
        user = numeric(lines, "311")
        return f"{user.params[1]} is {user.params[2]}@{user.params[3]}" if user else f"{nick}: {refusal(lines)}"

    async def topic(self, connection, text):
        lines = await connection.ask(f"TOPIC {self.channel} :{text}", self.seconds)
        return refusal(lines) or "done"

    async def serve(self, connection, asker, word, rest):
        """Does what one was asked, and says how it went."""
        try:
            said = await getattr(self, word)(connection, rest)
        except TimeoutError as fault:
            said = f"{word} {rest}: {fault}"
        except ConnectionError:
            return
        connection.write(f"PRIVMSG {self.channel} :{asker}: {said}")

    def heard(self, connection, line):
        """Begins what one is asked: nobody waits for who asked before."""
        if line.command != "PRIVMSG" or line.params[0].lower() != self.channel.lower():
            return
        name, _, asked = line.params[1].partition(": ")
        word, _, rest = asked.strip().partition(" ")
        if name == connection.nick and word in ("who", "whois", "topic"):
            task = asyncio.create_task(self.serve(connection, nick_of(line.source), word, rest))
            self.tasks.add(task)
            task.add_done_callback(self.tasks.discard)


async def run(asked):
    bot = Bot(asked.channel, asked.seconds)
    while True:
        try:
            connection = await Connection.open(asked.host, asked.port, asked.nick, bot.heard)
            refused = refusal(await connection.ask(f"JOIN {asked.channel}"))
            print(refused or f"{connection.nick} is on {asked.channel}", file=sys.stderr, flush=True)
            if refused:
                connection.close()
            else:
                await connection.ended
        except OSError as fault:
            print(fault, file=sys.stderr, flush=True)
        await asyncio.sleep(PAUSE)


def main():
    words = argparse.ArgumentParser(description=__doc__, formatter_class=argparse.RawDescriptionHelpFormatter)
    words.add_argument("host")
    words.add_argument("port", type=int)
    words.add_argument("nick")
    words.add_argument("channel")
    words.add_argument("--seconds", type=float, default=5)
    try:
        asyncio.run(run(words.parse_args()))
    except KeyboardInterrupt:
        pass


main()
