"""An IRC connection on which each request has a label, so that its answer is known by it (IRCv3 labeled-response)."""
import asyncio
import collections
import itertools

Line = collections.namedtuple("Line", "tags source command params")


def parse(text):
    """A line of the server."""
    tags, source = {}, ""
    if text.startswith("@"):
        words, _, text = text[1:].partition(" ")
        tags = dict(it.partition("=")[::2] for it in words.split(";"))
    if text.startswith(":"):
        source, _, text = text[1:].partition(" ")
    text, colon, last = text.partition(" :")
    command, *params = text.split()
    return Line(tags, source, command, params + [last] if colon else params)


def nick_of(source):
    return source.partition("!")[0]


class Connection:
    """A session. `heard` is called with each line that is no part of an answer."""

    def __init__(self, reader, writer, heard):
        self.reader, self.writer, self.heard, self.nick = reader, writer, heard, ""
        self.labels, self.waiting, self.batches = itertools.count(1), {}, {}
        self.ended = asyncio.ensure_future(self.listen())

    @classmethod
    async def open(cls, host, port, nick, heard, seconds=10):
        """Connects and registers. Where the nickname is in use, `_` is put behind it."""
        it = cls(*await asyncio.wait_for(asyncio.open_connection(host, port), seconds), heard)
        try:
            it.write("CAP REQ :batch labeled-response message-tags")
            it.write("CAP END")
            it.write(f"USER {nick} 0 * :{nick}")
            while any(line.command == "433" for line in await it.ask(f"NICK {nick}", seconds)):
                nick += "_"
            it.nick = nick
        except BaseException:
            it.close()
            raise
        return it

    def close(self):
        self.ended.cancel()
        self.writer.close()

    def write(self, line):
        # (octets that aren't UTF-8 stay what they are)
        self.writer.write(line.encode(errors="surrogateescape") + b"\r\n")

    async def ask(self, line, seconds=10):
        """Sends a line, and gives the lines of its answer, none where it was just done. TimeoutError says that no answer came
        in time, ConnectionError that the connection ended before it came."""
        if self.ended.done():
            raise ConnectionError("the connection has ended")
        label = str(next(self.labels))
        self.waiting[label] = asyncio.get_running_loop().create_future()
        try:
            self.write(f"@label={label} {line}")
            return await asyncio.wait_for(self.waiting[label], seconds)
        except asyncio.TimeoutError:
            raise TimeoutError(f"no answer within {seconds} seconds") from None
        finally:
            del self.waiting[label]

    def answer(self, label, lines):
        """Hands an answer to who waits for it. Nobody does where it came too late."""
        waiting = self.waiting.get(label)
        if waiting and not waiting.done():
            waiting.set_result(lines)

    def take(self, line):
        """Takes a line: a part of an answer, or one that is just heard."""
        first = line.params[0] if line.params else ""
        if line.command == "PING":
            self.write(f"PONG :{line.params[-1]}")
        elif line.command == "BATCH" and first.startswith("+"):
            self.batches[first[1:]] = (line.tags.get("label"), [])
        elif line.command == "BATCH":
            self.answer(*self.batches.pop(first[1:], (None, [])))
        elif line.tags.get("batch") in self.batches:
            self.batches[line.tags["batch"]][1].append(line)
        elif "label" in line.tags:
            self.answer(line.tags["label"], [] if line.command == "ACK" else [line])
        else:
            self.heard(self, line)

    async def listen(self):
        """Takes lines until the connection ends."""
        try:
            while text := (await self.reader.readline()).decode(errors="surrogateescape").rstrip("\r\n"):
                self.take(parse(text))
        except OSError:
            pass
        finally:
            for waiting in self.waiting.values():
                if not waiting.done():
                    waiting.set_exception(ConnectionError("the connection ended before the answer"))
            self.writer.close()
