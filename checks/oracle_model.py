"""checks/oracle_model.py: what each record of a history does, worked out by looking back alone.

It shares nothing with the server. Where the server keeps tables of sessions, channels and members, this keeps one list of
facts, and answers each question (who is on a channel, who has a nick, who may speak) by reading that list again. What was
read is remembered by key and by how long the list was, which changes no answer.
"""
from oracle_registry import COMMANDS, TEXTS
from oracle_words import (CREATED, LINE, REASONS, SERVER, TOKENS, TOO_LONG, VERSION, fold, matches, needs_colon, parse, tags_of,
                          time_text)


class Facts:
    """A list of facts, each a key and a value. It only grows."""

    def __init__(self):
        self.keys, self.values, self.read = [], [], {}

    def add(self, *key, value=True):
        self.keys.append(key)
        self.values.append(value)

    def places(self, *key):
        """Where the facts with this key stand, in order: the list is read from where it was last read for this key."""
        at, found = self.read.get(key, (0, []))
        if at < len(self.keys):
            while key in self.keys[at:]:
                at = self.keys.index(key, at) + 1
                found.append(at - 1)
            self.read[key] = (len(self.keys), found)
        return found

    def every(self, *key, since=-1):
        return [self.values[at] for at in self.places(*key) if at > since]

    def count(self, *key):
        return len(self.places(*key))

    def place(self, *key):
        """Where the last fact with this key stands; -1 where there is none."""
        found = self.places(*key)
        return found[-1] if found else -1

    def last(self, *key, since=-1):
        """The value of the last fact with this key that stands behind `since`, or None."""
        at = self.place(*key)
        return self.values[at] if at > since else None


class History(Facts):
    """What the accepted records say of sessions and channels."""

    def sessions(self):
        return self.every("opened")

    def host(self, s):
        return self.last("host", s)

    def nick(self, s):
        return self.last("nick", s)

    def user(self, s):
        return self.last("user", s)

    def source(self, s):
        return b"%s!%s@%s" % (self.nick(s) or b"*", self.user(s) or b"*", self.host(s))

    def caps(self, s):
        return self.last("caps", s) or ()

    def registered(self, s):
        return self.count("registered", s) > 0

    def gone(self, s):
        return self.count("gone", s) > 0

    def shut(self, s):
        return self.count("quit", s) + self.count("hung", s) + self.count("missed", s) > 0

    def reason(self, s):
        """What others are told of a session's end."""
        if self.count("quit", s):
            return self.last("quit", s) or REASONS[b"quit"]
        return REASONS[self.last("hung", s) or b"sendq"]

    def holder(self, nick):
        """Who holds a nick, registered or not."""
        return next((s for s in self.sessions() if fold(self.nick(s) or b"") == fold(nick) and not self.gone(s)), None)

    def find(self, nick):
        s = self.holder(nick) if nick else None
        return s if s is not None and self.registered(s) else None

    def on(self, s, c):
        return bool(self.last("on", s, c)) and not self.gone(s)

    def members(self, c):
        return sorted((s for s in self.sessions() if self.on(s, c)), key=lambda s: self.place("on", s, c))

    def channels(self):
        """The channels with a member, by making."""
        names = self.every("made")
        last = [c for at, c in enumerate(names) if c not in names[at + 1:]]
        return [c for c in last if self.members(c)]

    def channels_of(self, s):
        return sorted((c for c in set(self.every("made")) if self.on(s, c)), key=lambda c: self.place("on", s, c))

    def sharers(self, s):
        mine = self.channels_of(s)
        return [t for t in self.sessions() if t != s and any(self.on(t, c) for c in mine)]

    def name(self, c):
        return self.last("name", c)

    def of_channel(self, what, c):
        """A channel's topic, key, limit or flag: read back no further than its making."""
        return self.last(what, c, since=self.place("name", c))

    def bans(self, c):
        masks = []
        for is_set, mask in self.every("ban", c, since=self.place("name", c)):
            masks = [it for it in masks if fold(it) != fold(mask)] + [mask] * is_set
        return masks

    def rank(self, which, s, c):
        return self.on(s, c) and bool(self.last(which, s, c, since=self.place("on", s, c)))

    def operator(self, s, c):
        return self.rank("o", s, c)

    def sign(self, s, c):
        return b"@" if self.operator(s, c) else b"+" if self.rank("v", s, c) else b""

    def invited(self, s, c):
        return self.last("invited", s, c, since=max(self.place("name", c), self.place("on", s, c)))

    def banned(self, s, c):
        return any(matches(mask, self.source(s)) for mask in self.bans(c))

    def sees(self, s, c):
        return bool(self.members(c)) and (self.on(s, c) or not self.of_channel("s", c))


class Effects:
    """What one record does: the facts that it adds to the history, and the lines that it is answered with and shown by.

    A line is a pair of its text and the tags that go with it.
    """

    def __init__(self, history, settings, s):
        self.h, self.settings, self.s = history, settings, s
        self.caps = {t: history.caps(t) for t in history.sessions()}
        self.reply, self.copies, self.due = [], [], []
        self.tags, self.command, self.is_quiet = [], None, False

    # How lines are made and shown.

    def answer(self, text, tags=()):
        self.reply.append((text[:LINE], tags))

    def show(self, sessions, text, tags=()):
        for t in sessions:
            if t == self.s:
                self.answer(text, tags)
            else:
                self.due.append((t, (text[:LINE], tags)))

    def head(self, code, *middles):
        words = [b"*" if needs_colon(it) else it for it in (self.h.nick(self.s) or b"*", *middles)]
        return b":%s %03d %s" % (SERVER, code, b" ".join(words))

    def tell(self, code, *middles, text=None):
        text = TEXTS.get(code) if text is None else text
        if not self.is_quiet:
            self.answer(self.head(code, *middles) + (b"" if text is None else b" :" + text))

    def tell_list(self, code, *middles, words):
        """A list over as few lines as hold it."""
        head = self.head(code, *middles) + b" :"
        while words:
            fit = next(n for n in range(len(words), 0, -1) if len(head + b" ".join(words[:n])) <= LINE)
            self.answer(head + b" ".join(words[:fit]))
            words = words[fit:]

    # A line of a client.

    def said(self, piece):
        """Does a piece, and gives its label where it has one that counts."""
        if piece is TOO_LONG:
            self.tell(417)
            return None
        message = parse(piece)
        if message is None:
            return None
        data, given, params = message
        self.tags, self.command = tags_of(data), given.upper()
        known = COMMANDS.get(self.command)
        was = self.h.registered(self.s)
        self.is_quiet = known is not None and known.is_quiet
        if known is None:
            self.tell(421, given)
        elif len(params) < known.least:
            self.tell(461, self.command)
        elif known.refuses(self, params):
            pass
        elif was or known.is_early:
            known.does(self, params)
        else:
            self.tell(451)
        if not was:
            self.complete()
        labels = [value for key, value in self.tags if key == b"label"][-1:]
        counts = b"batch" in self.caps[self.s] and b"labeled-response" in self.caps[self.s]
        return labels[0] if labels and counts and 0 < len(labels[0]) <= 64 else None

    def complete(self):
        """The welcome, where this line made the session registered."""
        s, h = self.s, self.h
        if not h.nick(s) or not h.user(s) or h.last("hold", s):
            return
        h.add("registered", s)
        if h.last("sasl", s) is not None:
            h.add("sasl", s, value=None)
            self.tell(906)
        self.tell(1, text=b"Welcome to the Internet Relay Network " + h.source(s))
        self.tell(2, text=b"Your host is %s, running version %s" % (SERVER, VERSION))
        self.tell(3, text=b"This server was created " + time_text(CREATED))
        self.tell(4, SERVER, VERSION, b"i", b"biklmnostv")
        self.tell(5, *TOKENS.split(b" "))
        COMMANDS[b"MOTD"].does(self, [])

    # What several commands ask and show.

    def with_cap(self, cap, sessions):
        """Those of some sessions that had a capability before this record."""
        return [t for t in sessions if cap in self.caps[t]]

    def is_barred(self, given, on=True, operator=False):
        """Tells why a command about a channel fails: no such channel, not on it, no operator."""
        c = fold(given)
        if not self.h.members(c):
            self.tell(403, given)
        elif on and not self.h.on(self.s, c):
            self.tell(442, self.h.name(c))
        elif operator and not self.h.operator(self.s, c):
            self.tell(482, self.h.name(c))
        else:
            return False
        return True
