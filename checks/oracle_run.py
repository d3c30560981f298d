"""checks/oracle_run.py: what a script of `halld play` prints, by the facts of its steps and of its history.

`Run().line(LINE)` gives the notes of one more line of the script, or raises BadLine or BadSettings; `end()` is called at its
end.
"""
import re

from oracle_model import Effects, History
from oracle_words import (HOST, LAST_MOMENT, LATE_AFTER, NICK, PING_AFTER, RANGES, REASONS, SERVER, escape, fold, lines_of,
                          time_text)


class BadLine(Exception):
    """A line of a script that can't be read."""


class BadSettings(Exception):
    """A header line that is out of range."""


class Refused(Exception):
    """A step that is refused, by the name of what refused it."""


class Settings:
    def __init__(self):
        self.numbers, self.accounts, self.motd = {}, [], []

    def __getattr__(self, name):
        return self.numbers.get(name.encode(), RANGES[name.encode()][2])

    def are_good(self):
        ranges = all(RANGES[name][0] <= it <= RANGES[name][1] for name, it in self.numbers.items())
        return ranges and all(len(it) <= 400 and not re.search(rb"[\0\r]", it) for it in self.motd)

    def read(self, line):
        """Takes a header line, and says whether it was one."""
        name, space, rest = line.partition(b" ")
        if name == b"motd" and space:
            self.motd.append(rest)
        elif name == b"account":
            words = rest.split(b" ")
            if len(words) != 3 or not all(words) or not NICK.fullmatch(words[0]):
                raise BadLine
            if not re.fullmatch(rb"[0-9A-Fa-f]{64}", words[2]) or fold(words[0]) in [fold(it[0]) for it in self.accounts]:
                raise BadLine
            self.accounts.append(words)
        elif name in RANGES:
            self.numbers[name] = number(rest)
        else:
            return False
        return True


def number(word, most=2**64 - 1):
    if not re.fullmatch(rb"0*[0-9]{1,20}", word) or int(word.lstrip(b"0") or b"0") > most:
        raise BadLine
    return int(word.lstrip(b"0") or b"0")


def typed(text):
    """The octets of a feed's text between its quotes."""
    if not re.fullmatch(rb'(?:[^\\"]|\\[rn\\"]|\\x[0-9A-Fa-f]{2})*', text, re.S):
        raise BadLine
    octets = {b"r": b"\r", b"n": b"\n", b"\\": b"\\", b'"': b'"'}
    return re.sub(rb"\\(x..|.)", lambda it: octets.get(it[1]) or bytes.fromhex(it[1][1:].decode()), text)


def printed(line):
    return b"".join(b"%c" % it if 32 <= it <= 126 and it != 92 else b"\\x%02x" % it for it in line)


# What stands behind a step's name: a host, a number, a moment, a reason's word.
WORDS = {b"connect": b"hm", b"pick": b"nn", b"begin": b"nm", b"put": b"n", b"end": b"n", b"back": b"n", b"take": b"n",
         b"hang": b"nnwm", b"sweep": b"nm", b"reap": b"n", b"do": b"nm", b"tidy": b"m", b"drain": b"n", b"tick": b"nm",
         b"beat": b"m"}


def read_step(line):
    """A step's name and its values."""
    if line.startswith(b"feed "):
        found = re.fullmatch(rb'feed ([0-9]+) "(.*)"', line, re.S)
        if not found:
            raise BadLine
        return "feed", [number(found[1]), typed(found[2])]
    name, *words = line.split(b" ")
    shape = WORDS.get(name, b"")
    if name not in WORDS or len(words) != len(shape):
        raise BadLine
    for kind, word in zip(shape, words):
        if kind == ord("h") and not HOST.fullmatch(word) or kind == ord("w") and word not in REASONS:
            raise BadLine
    return name.decode(), [number(word, 2**63 - 1 if kind == ord("m") else 2**64 - 1) if kind in b"nm" else word
                           for kind, word in zip(shape, words)]


class Run:
    """A run of a script. Its steps stand among the facts too: what was fed, who holds the lock, what was put and taken."""

    def __init__(self):
        self.h, self.settings, self.has_begun = History(), Settings(), False

    def line(self, line):
        """The notes of one more line of a script."""
        if not line:
            return []
        if not self.has_begun and self.settings.read(line):
            return []
        name, values = read_step(line)
        if not self.has_begun and not self.settings.are_good():
            raise BadSettings
        self.has_begun = True
        try:
            return getattr(self, "step_" + name)(*values)
        except Refused as it:
            return [b"refused " + it.args[0]]

    def end(self):
        if not self.has_begun and not self.settings.are_good():
            raise BadSettings

    # What the facts say of the run.

    def length(self):
        return self.h.count("record")

    def held(self):
        return sum(0 if self.h.gone(s) else 1 if self.h.shut(s) else 2 for s in self.h.sessions())

    def is_known(self, s):
        return self.h.count("host", s) > 0 and not self.h.count("reaped", s)

    def rest(self):
        """For whom a delivery is still to be put, in order."""
        plan = self.h.last("plan") or ()
        return plan[len(self.h.every("put", since=self.h.place("plan"))):]

    def outbox(self, s):
        """What a session is owed, without what is still to be put and what was taken."""
        missed = self.h.every("missed", s)
        owed = [it for it in self.h.every("due", s) if it[0] not in missed]
        return owed[self.h.count("took", s):len(owed) - (s in self.rest())]

    def pieces(self, s):
        fed = self.h.every("fed", s)
        key, kept = ("pieces", s), self.h.read.get(("pieces", s), (0, []))
        if kept[0] != len(fed):
            kept = self.h.read[key] = (len(fed), lines_of(b"".join(fed)))
        return kept[1]

    def unread(self, s):
        return self.pieces(s)[self.h.count("said", s):]

    def demand(self, is_so, name):
        if not is_so:
            raise Refused(name)

    def demand_worker(self, w):
        self.demand(1 <= w <= self.settings.workers, b"NoWorker")

    def demand_known(self, s):
        self.demand(self.is_known(s), b"NoSession")

    def demand_free(self):
        self.demand(not self.h.last("lock"), b"Locked")

    def demand_moment(self, moment):
        self.demand((self.h.last("record") or 0) <= moment <= LAST_MOMENT, b"BadMoment")

    # Steps.

    def step_connect(self, host, moment):
        h = self.h
        self.demand_free()
        self.demand(sum(self.is_known(s) for s in h.sessions()) < self.settings.sessions, b"TooManySessions")
        self.demand(self.length() + self.held() + 3 <= self.settings.limit, b"JournalFull")
        self.demand_moment(moment)
        s = len(h.sessions()) + 1
        h.add("record", value=moment)
        h.add("opened", value=s)
        h.add("host", s, value=host)
        h.add("heard", s, value=moment)
        return [b"session %d" % s]

    def step_feed(self, s, octets):
        self.demand_known(s)
        before = len(self.pieces(s))
        self.h.add("fed", s, value=octets)
        return [b"read %d" % (len(self.pieces(s)) - before)]

    def step_pick(self, w, s):
        self.demand_worker(w)
        self.demand_known(s)
        self.demand(not self.h.last("job", w) and self.h.last("lock") != w, b"HasJob")
        self.demand(not self.h.last("baton", s), b"InFlight")
        self.demand(self.unread(s), b"NothingRead")
        self.h.add("baton", s, value=w)
        self.h.add("job", w, value=s)
        return [b"picked"]

    def step_begin(self, w, moment):
        h = self.h
        self.demand_worker(w)
        self.demand_free()
        s = h.last("job", w)
        self.demand(s, b"NoJob")
        self.demand(not h.shut(s), b"Shut")
        self.demand(self.length() + self.held() + 1 <= self.settings.limit, b"JournalFull")
        self.demand_moment(moment)
        open_before = [t for t in h.sessions() if not h.shut(t)]
        piece = self.unread(s)[0]
        h.add("record", value=moment)
        h.add("said", s, value=piece)
        h.add("heard", s, value=moment)
        effects = Effects(h, self.settings, s)
        label = effects.said(piece)
        lines = {t: self.spelled(effects, t, [(None, it) for u, it in effects.due if u == t], moment) for t in open_before}
        whole = self.wrapped(label, effects.reply) + [(None, it) for it in effects.copies]
        lines[s] = self.spelled(effects, s, whole, moment)
        if h.count("quit", s):
            lines[s] = [b"ERROR :Closing Link: %s (%s)" % (h.host(s), REASONS[b"quit"])]
        self.plan(w, [s, *(t for t in open_before if t != s)], lines)
        return [b"record %d" % self.length()]

    def plan(self, w, sessions, lines):
        """Gives the lock to a worker, with the deliveries that have a line."""
        for t in sessions:
            if lines[t]:
                self.h.add("due", t, value=(self.length(), lines[t]))
        self.h.add("plan", value=[t for t in sessions if lines[t]])
        self.h.add("lock", value=w)

    def wrapped(self, label, reply):
        """The lines of an answer, each with the tag that the server puts first."""
        if label is None:
            return [(None, it) for it in reply]
        tag, n = b"label=" + escape(label), self.length()
        if len(reply) == 1:
            return [(tag, reply[0])]
        if not reply:
            return [(tag, (b":%s ACK" % SERVER, ()))]
        begin, end = b":%s BATCH +%d labeled-response" % (SERVER, n), b":%s BATCH -%d" % (SERVER, n)
        return [(tag, (begin, ())), *((b"batch=%d" % n, it) for it in reply), (None, (end, ()))]

    def spelled(self, effects, t, lines, moment):
        """Lines as they are sent to a session, by the capabilities that it had before the record."""
        texts, caps = [], effects.caps[t]
        for front, (text, relayed_tags) in lines:
            tags = [front] if front else []
            tags += [b"time=" + time_text(moment)] if b"server-time" in caps else []
            tags += relayed_tags if b"message-tags" in caps else []
            texts.append((b"@%s " % b";".join(tags) if tags else b"") + text)
        return texts

    def step_put(self, w):
        h, rest = self.h, self.rest()
        self.demand_worker(w)
        self.demand(h.last("lock") == w, b"NotHolding")
        self.demand(rest, b"NothingLeft")
        is_full = len(self.outbox(rest[0])) >= self.settings.sendq
        h.add("put", value=rest[0])
        if is_full:
            h.add("missed", rest[0], value=self.length())
        return [b"%s %d" % (b"missed" if is_full else b"put", rest[0])]

    def step_end(self, w):
        h = self.h
        self.demand_worker(w)
        self.demand(h.last("lock") == w, b"NotHolding")
        self.demand(not self.rest(), b"PutsLeft")
        h.add("lock", value=None)
        if h.last("job", w):
            h.add("baton", h.last("job", w), value=None)
            h.add("job", w, value=None)
        return [b"done %d" % self.length()]

    def step_back(self, w):
        h = self.h
        self.demand_worker(w)
        self.demand(h.last("job", w), b"NoJob")
        self.demand(h.last("lock") != w, b"Locked")
        h.add("baton", h.last("job", w), value=None)
        h.add("job", w, value=None)
        return [b"back"]

    def step_take(self, s):
        self.demand_known(s)
        items = self.outbox(s)
        if not items:
            return [b"empty"]
        self.h.add("took", s)
        return [b"%d> %s" % (s, printed(it)) for it in items[0][1]]

    def step_hang(self, w, s, why, moment):
        h = self.h
        self.demand_worker(w)
        self.demand_free()
        self.demand_known(s)
        self.demand(not h.shut(s), b"Shut")
        self.demand_moment(moment)
        is_full = len(self.outbox(s)) >= self.settings.sendq
        h.add("record", value=moment)
        h.add("hung", s, value=why)
        h.add("due", s, value=(self.length(), [b"ERROR :Closing Link: %s (%s)" % (h.host(s), REASONS[why])]))
        if is_full:
            h.add("missed", s, value=self.length())
        return [b"hung %d" % self.length() + b" missed" * is_full]

    def step_sweep(self, w, moment):
        h = self.h
        self.demand_worker(w)
        self.demand_free()
        self.demand(not h.last("job", w), b"HasJob")
        self.demand_moment(moment)
        s = next((it for it in h.sessions() if h.shut(it) and not h.gone(it)), None)
        if s is None:
            return [b"sweep none"]
        open_before = [t for t in h.sessions() if not h.shut(t)]
        h.add("record", value=moment)
        effects = Effects(h, self.settings, s)
        effects.show(h.sharers(s), b":%s QUIT :%s" % (h.source(s), h.reason(s)))
        h.add("gone", s)
        lines = {t: self.spelled(effects, t, [(None, it) for u, it in effects.due if u == t], moment) for t in open_before}
        self.plan(w, open_before, lines)
        return [b"sweep %d" % self.length()]

    def is_quiet(self, s, span, moment):
        """Whether a session that isn't shut said nothing for so long, nor was opened since."""
        return not self.h.shut(s) and self.h.last("heard", s) + span <= moment

    def step_tick(self, w, moment):
        h = self.h
        self.demand_worker(w)
        self.demand_free()
        self.demand(not h.last("job", w), b"HasJob")
        self.demand_moment(moment)
        pinged = [s for s in h.sessions()
                  if self.is_quiet(s, PING_AFTER, moment) and h.place("pinged", s) < h.place("heard", s)]
        if not pinged:
            return [b"tick none"]
        self.demand(self.length() + self.held() + 1 <= self.settings.limit, b"JournalFull")
        h.add("record", value=moment)
        effects = Effects(h, self.settings, None)
        ping = (None, (b":%s PING %s" % (SERVER, SERVER), ()))
        for s in pinged:
            h.add("pinged", s)
        self.plan(w, pinged, {s: self.spelled(effects, s, [ping], moment) for s in pinged})
        return [b"tick %d" % self.length()]

    def step_reap(self, s):
        h = self.h
        self.demand_known(s)
        self.demand_free()
        self.demand(not h.last("baton", s), b"InFlight")
        self.demand(h.gone(s), b"NotGone")
        left = len(self.outbox(s))
        h.add("reaped", s)
        return [b"left %d" % left]

    def finished(self, notes):
        """Worker 1 puts all and ends; those missed are told."""
        while self.rest():
            notes += [it for it in self.step_put(1) if it.startswith(b"missed")]
        self.step_end(1)
        return notes

    def step_do(self, s, moment):
        self.step_pick(1, s)
        try:
            notes = self.step_begin(1, moment)
        except Refused:
            self.step_back(1)
            raise
        return self.finished(notes)

    def step_tidy(self, moment):
        notes = self.step_sweep(1, moment)
        return notes if notes == [b"sweep none"] else self.finished(notes)

    def step_beat(self, moment):
        notes = self.step_tick(1, moment)
        notes = notes if notes == [b"tick none"] else self.finished(notes)
        for s in self.h.sessions():
            if self.is_quiet(s, LATE_AFTER, moment):
                notes += self.step_hang(1, s, b"timeout", moment)
        return notes

    def step_drain(self, s):
        notes = []
        while notes[-1:] != [b"empty"]:
            notes += self.step_take(s)
        return notes
