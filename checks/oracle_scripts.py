"""checks/oracle_scripts.py: scripts of `halld play` by a seed, whose steps are likely to meet.

A script is made with the oracle's run beside it, so that it can name sessions, nicks and workers that are there.
"""
import hashlib
import random

from oracle_commands.authenticate import PASSWORDS, a_login
from oracle_registry import COMMANDS
from oracle_run import BadLine, BadSettings, Run
from oracle_words import CAPABILITIES, LAST_MOMENT, REASONS

OTHER = bytes.maketrans(b"[]\\~{}|^", b"{}|^[]\\~")

NICKS = [b"al", b"bo", b"cy", b"AL", b"Bo", b"a[", b"A{", b"d^e", b"d~e", b"nobody", b"1a", b"x" * 30, b"x" * 31, b"a-1",
         b"-a", b"", b":a", b"a b", b"~", b"\xff", b"`"]
CHANNELS = [b"#a", b"#a", b"#a", b"#a", b"#A", b"#b", b"#b", b"&l", b"#x[", b"#X{", b"#s:t", b"#none", b"#" + b"y" * 49,
            b"#" + b"y" * 50, b"#", b"&", b"a", b"0", b"+a", b"!a", b"", b"#c\x07", b"#\xff", b":#a", b"#d e", b"*", b"@#a",
            b"$a"]
TEXTS = [b"hi", b"hi there", b"", b"", b":x", b" a  b ", b"\xff\xfe", b"\xc3\xa9", b"\x01ACTION x\x01", b"a\\b", b'say "x"',
         b"~%~", b"x,y", b"*", b"t" * 90, b"u" * 199, b"u" * 201, b"v" * 310, b"w" * 440, b"irc.example"]
LONG = [b"".join(b"%04d " % at for at in range(count // 5)) + b"." * it for count in (100, 200, 300) for it in range(3)]
USERS = [b"a", b"b", b"c", b"u!v@w", b"!", b"@@!", b"!:a", b"a\x01b", b"u" * 17, b"~u", b"\xff", b"\x1f", b":"]
KEYS = [b"k", b"key", b"KEY", b"", b"k,l", b":k", b"k l", b"q" * 23, b"q" * 30, b"\xfe"]
LABELS = [b"1", b"x", b"", b"a\\sb", b"a\\:b", b"\\", b"\\\\", b"l" * 64, b"l" * 65, b"\xc3\xa9", b"\xff", b"a=b",
          b"\\s" * 64, b"\\b", b"q", b"a\\r\\nb", b"\xc3\xa9" * 32, b"\xc3\xa9" * 33]
VALUES = [b"", b"1", b"a\\:b", b"a\\sb\\", b"\\r\\n", b"\\q", b"\xc3\xa9", b"\xff", b"v=w", b"v" * 60, b"x\\\\y",
          b"\\\xc3\xa9"]
TAGS = [b"+k", b"+k", b"+x", b"+v.w/k", b"k", b"+", b"+a_b", b"++k", b"+v/", b"/k", b"time", b"batch", b"+label", b"+k/l/m",
        b"a/label", b"Label", b""]
HOSTS = [b"h1", b"h2", b"h3", b"h4", b"10.0.0.7", b"0::1", b"a-b.c", b"H2", b"h" * 63]
OTHER_LINES = [b"FOO", b"OPER a b", b"VERSION", b"123", b"12", b"1234", b"F00", b"lusers", b"USERHOST al", b"KILL al x", b"TIME",
               b"", b":", b":x", b": PING y", b":al!a@h1 PING :z"]
BROKEN = [b"\0", b"\xff", b" ", b":", b",", b"@", b"\x01", b"  ", b"\\", b"\t"]
# Milliseconds between two moments, and about those after which something is due.
SPANS = [1, 999, 10000, 20000, 40000, 60000]
ABOUT = [119999, 120000, 120001]

FLAVOURS = ["plain", "plain", "plain", "tight", "tight", "hands", "hands", "crowd", "tags", "odd", "ticks", "ticks"]
ODD = [b"do 1", b"do  1 0", b"do 1 0 ", b"foo", b"connect :h 0", b"connect h_1 0", b"limit 5", b"motd x", b'feed 1 "a',
       b'feed 1 "\\q"', b'feed 1 ""x"', b"do 18446744073709551616 0", b"do 1 9223372036854775808", b"hang 1 1 Timeout 0",
       b"hang 1 1 killed 0", b"tick 1", b"beat 1 0", b"tick 0 1 0", b"beat", b"take -1", b"take", b"DO 1 0", b"take 1\r", b"# x", b'feed 1 "\\xg0"',
       b"feed 1 x", b' feed 1 "x"', b"end 1 1", b"connect " + b"h" * 64 + b" 0", b"tidy +0", b'feed 1 "\\"']
ODD_HEADERS = [b"limit 0", b"limit 10000001", b"sendq 0", b"sendq 4097", b"workers 0", b"workers 65", b"sessions 0",
               b"sessions 1025", b"motd", b"motd " + b"m" * 401, b"motd a\rb", b"motd a\0b", b"account al a",
               b"account 1 a " + b"0" * 64, b"account al a " + b"0" * 63, b"account al  a " + b"0" * 64, b"limit",
               b"limit x", b"limit 18446744073709551616", b"sendq 1 1", b"account al a " + b"g" * 64]


def spelled(octets, how):
    """Octets as the text of a feed; `how` picks, for those that may stand as they are, whether they do."""
    plain = {10: b"\\n", 92: b"\\\\", 34: b'\\"'}
    out = []
    for it in octets:
        if it == 13:
            out.append(b"\\r" if how.random() < 0.95 else b"\r")
        elif it in plain:
            out.append(plain[it] if how.random() < 0.97 else b"\\x%02X" % it)
        elif 32 <= it <= 126:
            out.append(b"%c" % it)
        else:
            out.append(b"\\x%02x" % it if how.random() < 0.8 else b"%c" % it)
    return b"".join(out)


class Script:
    """A script in the making. `steps` are its lines, each with its notes."""

    def __init__(self, seed, length=None):
        self.random = random.Random(seed)
        self.length = length or self.random.randint(60, 300)
        self.is_long = length is not None
        self.run, self.steps, self.moment, self.fault, self.speaker = Run(), [], 0, None, 0
        self.has_bans = False
        self.flavour = self.random.choice(["plain", "hands", "tags", "ticks"] if self.is_long else FLAVOURS)
        self.make()

    # Choices.

    def chance(self, share):
        return self.random.random() < share

    def pick(self, *choices):
        return self.random.choice(choices)

    def sessions(self):
        return [s for s in self.run.h.sessions() if self.run.is_known(s)]

    def session(self):
        known = self.sessions()
        lively = [s for s in known if not self.run.h.shut(s)]
        if lively and self.chance(0.93):
            return self.random.choice(lively)
        if known and self.chance(0.9):
            return self.random.choice(known)
        return self.random.randint(0, len(self.run.h.sessions()) + 1)

    def worker(self):
        most = self.run.settings.workers
        return self.random.randint(1, most) if self.chance(0.97) else self.pick(0, most + 1)

    def now(self):
        if self.chance(0.02):
            return self.pick(0, LAST_MOMENT + 1, 2**63 - 1, max(0, self.moment - 1))
        if self.chance(0.2):
            is_short = self.flavour == "ticks" and self.chance(0.98)
            self.moment += self.pick(*SPANS) if is_short else self.pick(1, 999, 1000, 86399999, 3600000 * 24 * 31)
        return min(self.moment, LAST_MOMENT)

    def spelled_otherwise(self, name):
        return name if self.chance(0.8) else self.pick(name.swapcase(), name.lower().translate(OTHER), name.translate(OTHER))

    def nick(self):
        here = [self.run.h.nick(s) for s in self.run.h.sessions() if self.run.h.nick(s) and not self.run.h.gone(s)]
        if here and self.chance(0.8):
            return self.spelled_otherwise(self.random.choice(here))
        return self.any_nick()

    def any_nick(self):
        return self.random.choice(NICKS)

    def user(self):
        return self.random.choice(USERS)

    def channel(self):
        """A channel's name: of the speaker's, of all that are there, or any."""
        h, s = self.run.h, self.speaker
        theirs = [c for c in h.channels_of(s) if h.operator(s, c)] or h.channels_of(s) if s in h.sessions() else []
        for names, share in ((theirs, 0.6), (h.channels(), 0.6)):
            if names and self.chance(share):
                return self.spelled_otherwise(h.name(self.random.choice(names)))
        return self.random.choice(CHANNELS[:11] if self.chance(0.8) else CHANNELS)

    def other_channel(self):
        """A channel's name, most likely of one that the speaker isn't on."""
        h = self.run.h
        others = [c for c in h.channels() if not h.on(self.speaker, c)]
        if others and self.chance(0.75):
            return self.spelled_otherwise(h.name(self.random.choice(others)))
        return self.random.choice(CHANNELS[:11] if self.chance(0.7) else CHANNELS)

    def key(self):
        keys = [it for it in (self.run.h.of_channel("k", c) for c in self.run.h.channels()) if it]
        return self.random.choice(keys) if keys and self.chance(0.6) else self.any_key()

    def any_key(self):
        return self.random.choice(KEYS)

    def list_of(self, make, most=3):
        count = 1 if self.chance(0.6) else self.random.randint(1, most)
        return self.pick(b",", b",", b",", b",,").join(make() for _ in range(count))

    # Lines.

    def words(self, *params):
        """Parameters as a line spells them: the last with a colon where it needs one, or by chance."""
        params = [it for it in params if it is not None]
        if self.chance(0.02):
            params = params[:-1]
        if self.chance(0.02):
            params.append(self.pick(b"more", b"", b":", b"z z"))
        out = []
        for at, it in enumerate(params):
            is_last = at == len(params) - 1
            colon = is_last and (not it or b" " in it or it[:1] == b":" or self.chance(0.15))
            out.append(b":" + it if colon else it)
        return (b" " if self.chance(0.97) else b"   ").join(out)

    def maybe(self, make, share=0.5):
        return make() if self.chance(share) else None

    def text(self):
        return self.random.choice(TEXTS[:14] if self.chance(0.8) else TEXTS)

    def long_text(self):
        """A text that is shown and may be cut."""
        return self.random.choice(LONG) if self.chance(0.25) else self.text()

    def operates(self):
        h, s = self.run.h, self.speaker
        return any(h.operator(s, c) for c in h.channels_of(s))

    def command(self):
        """The name of a command by its share, or None for one that isn't known."""
        if self.operates() and self.chance(0.35):
            shares = {name: it.by_operators for name, it in COMMANDS.items()}
        else:
            shares = {name: it.share for name, it in COMMANDS.items()} | {None: 10}
        return self.random.choices(list(shares), list(shares.values()))[0]

    def message(self):
        """A command and its parameters."""
        name = self.command()
        if name is None:
            return self.random.choice(OTHER_LINES)
        word = name if self.chance(0.9) else name.lower() if self.chance(0.7) else name.swapcase().title()
        return (word + b" " + COMMANDS[name].draws(self)).rstrip(b" ")

    def target(self):
        return self.channel() if self.chance(0.55) else self.nick()

    def tags(self):
        tags = []
        for _ in range(self.random.randint(0, 4)):
            key = b"label" if self.chance(0.5) else self.random.choice(TAGS)
            value = self.random.choice(LABELS if key == b"label" else VALUES)
            tags.append(key if self.chance(0.1) else key + b"=" + value)
        if self.chance(0.01):
            tags.append(b"long=" + b"v" * self.pick(4000, 4080, 4085, 4090))
        return b"@" + b";".join(tags) + (b" " if self.chance(0.97) else b"  ")

    def edge(self):
        """A line at a limit of length, or of no sense."""
        tags = b"@" + b"k=" + b"v" * self.pick(4090, 4091, 4092, 4093, 4094) if self.chance(0.5) else b""
        rest = self.pick(b"PING ", b"PRIVMSG #a :", b"TOPIC #a :", b"NICK ", b"JOIN #", b"FOO", b"AWAY :", b"QUIT :",
                         b"CAP REQ :", b"PRIVMSG ")
        rest += b"x" * (self.pick(508, 509, 510, 511, 512) - len(rest))
        octets = bytes(self.random.choice(b" :@;=\\\0\xff#&,!*+-aA1PING") for _ in range(self.random.randint(1, 40)))
        return self.pick(tags + b" " + rest, tags + b" " + rest, tags + b" PING x", tags, rest, octets,
                         b"@" + octets + b" PING x", octets + b" PING x",
                         self.pick(b"MODE #a ", b"PRIVMSG ", b"JOIN ", b"CAP REQ :", b"PING ") + octets)

    def a_line(self):
        if self.chance(0.03):
            return self.edge()
        line = self.message()
        if not self.run.h.registered(self.speaker) and self.chance(0.5):
            line = self.pick(b"CAP END", b"CAP END", b"NICK n%d" % self.speaker, b"USER u 0 * :Us Er")
        if self.chance(0.03):
            line = self.pick(b":al ", b": ", b" ", b":x!y@z   ") + line
        if self.chance(0.7 if self.flavour == "tags" else 0.35):
            line = self.tags() + line
        if line.startswith(b"TAGMSG") and self.chance(0.8):
            line = b"@%s=%s " % (self.random.choice(TAGS[:4]), self.random.choice(VALUES)) + line
        if self.chance(0.01):
            line = line + b" " * self.pick(1, 400) + b"x" * self.pick(1, 100, 509 - min(509, len(line)), 510, 700)
        if self.chance(0.03):
            at = self.random.randint(0, len(line))
            line = line[:at] + self.random.choice(BROKEN) + line[at + self.pick(0, 1):]
        if self.chance(0.03):
            line += self.pick(b" ", b"   ", b" :", b" a b c d e f g h i j k l m n o p  ")
        return line

    # Steps.

    def step(self, line):
        if self.fault:
            return
        try:
            self.steps.append((line, self.run.line(line)))
        except BadLine:
            self.fault = b"halld: script line %d\n" % (len(self.steps) + 1)
            self.steps.append((line, []))
        except BadSettings:
            self.fault = b"halld: settings\n"
            self.steps.append((line, []))

    def feed(self, s, octets):
        cuts = [octets]
        if self.chance(0.08) and len(octets) > 1:
            at = self.random.randint(1, len(octets) - 1)
            cuts = [octets[:at], octets[at:]]
        for cut in cuts:
            self.step(b'feed %d "%s"' % (s, spelled(cut, self.random)))

    def ended(self, lines):
        ends = [self.pick(b"\r\n", b"\r\n", b"\n", b"\r", b"\r\n\r\n", b"\n\r") if self.chance(0.99) else b"" for _ in lines]
        return b"".join(line + end for line, end in zip(lines, ends))

    def talk(self):
        h, s = self.run.h, self.session()
        operators = [it for it in h.sessions() if not h.shut(it) and any(h.operator(it, c) for c in h.channels_of(it))]
        if operators and self.chance(0.03):
            self.gate(self.random.choice(operators))
            return
        if operators and self.chance(0.35):
            s = self.random.choice(operators)
        self.speaker = s
        if self.chance(0.05):
            lines = a_login(self)
        else:
            lines = [self.a_line() for _ in range(self.pick(1, 1, 1, 2, 2, 3, 4))]
        self.feed(s, self.ended(lines))
        self.do_all(s)

    def gate(self, s):
        """A channel is closed in some way, and one who isn't on it tries to come in."""
        h = self.run.h
        c = h.name(self.random.choice([it for it in h.channels_of(s) if h.operator(s, it)]))
        others = [it for it in h.sessions() if h.registered(it) and not h.shut(it) and it != s] or [s]
        t = self.random.choice(others)
        nick = h.nick(t)
        way = self.pick(b"+i", b"+k key", b"+l 1", b"+b " + nick, b"+b *!*@" + h.host(t), b"+ik key", b"+ib *", b"+mb *!*", b"-n+m",
                        b"+s")
        key = self.pick(b"key", b"Key", b"")
        said = [(t, b"PART %s" % c), (s, b"MODE %s %s" % (c, way)), (t, b"JOIN %s" % c), (t, b"PRIVMSG %s :x" % c),
                (s, b"INVITE %s %s" % (nick, c)), (t, b"JOIN %s %s" % (c, key)), (t, b"MODE %s" % c), (t, b"MODE %s b" % c),
                (s, b"WHOIS %s" % nick), (t, b"WHO %s" % c), (t, b"LIST"), (t, b"NAMES %s" % c), (t, b"PART %s" % c),
                (t, b"JOIN %s" % c), (t, b"INVITE %s %s" % (h.nick(self.random.choice(others)), c)), (t, b"KICK %s %s" % (c, nick))]
        for speaker, line in said:
            if self.chance(0.7) and not self.fault:
                self.feed(speaker, line + b"\r\n")
                self.do_all(speaker)

    def do_all(self, s):
        for _ in range(len(self.run.unread(s)) if self.chance(0.95) else 0):
            if self.run.h.shut(s) or self.fault:
                break
            if self.flavour == "hands" and self.chance(0.5):
                self.by_hand(s)
            else:
                self.step(b"do %d %d" % (s, self.now()))

    def by_hand(self, s):
        """A line in all its steps, with others between."""
        w = self.worker()
        self.step(b"pick %d %d" % (w, s))
        self.between(0.15)
        self.step(b"begin %d %d" % (w, self.now()))
        for _ in range(30):
            if self.run.h.last("lock") != w or self.fault:
                break
            self.between(0.25)
            if self.run.h.last("lock") == w:
                self.step(b"%s %d" % (b"put" if self.run.rest() else b"end", w))

    def between(self, share):
        if self.chance(share):
            self.single()

    def single(self):
        """A step by itself, whatever the run's state."""
        s, w, now = self.session(), self.worker(), self.now()
        if self.chance(0.05):
            self.step(self.pick(b"take 00%d" % s, b"do 0%d 0%d" % (s, now), b'feed %d ""' % s, b"take %d" % (2**64 - 1),
                                b"pick %d 1" % (2**64 - 1), b'feed 0 "x"'))
            return
        kinds = [b"pick %d %d" % (w, s), b"begin %d %d" % (w, now), b"put %d" % w, b"end %d" % w, b"back %d" % w, b"take %d" % s,
                 b"take %d" % s, b"drain %d" % s, b"drain %d" % s, b"sweep %d %d" % (w, now), b"tidy %d" % now, b"tidy %d" % now,
                 b"reap %d" % s, b"do %d %d" % (s, now), b"do %d %d" % (s, now), b"tick %d %d" % (w, now),
                 b"beat %d" % now]
        if self.chance(0.12):
            kinds = [b"hang %d %d %s %d" % (w, s, self.random.choice(list(REASONS)), now)]
        self.step(self.random.choice(kinds))

    def beat(self):
        """Some speak, time passes, and who is quiet is pinged or ended; or who is pinged is so step by step."""
        for s in self.sessions():
            if self.chance(0.3) and not self.run.h.shut(s) and not self.fault:
                self.feed(s, self.pick(b"PONG x\r\n", b"PING x\r\n", b"PRIVMSG #a :x\r\n"))
                self.do_all(s)
        self.moment = min(self.moment + self.pick(0, 1, *SPANS, *ABOUT), LAST_MOMENT)
        if self.chance(0.6):
            self.step(b"beat %d" % self.moment)
            return
        w = self.worker()
        self.step(b"tick %d %d" % (w, self.moment))
        for _ in range(30):
            if self.run.h.last("lock") != w or self.fault:
                break
            self.between(0.25)
            if self.run.h.last("lock") == w:
                self.step(b"%s %d" % (b"put" if self.run.rest() else b"end", w))

    def release(self):
        """Ends what workers still have in hand, in most cases."""
        w = self.run.h.last("lock")
        while w and not self.fault and self.chance(0.9):
            self.step(b"%s %d" % (b"put" if self.run.rest() else b"end", w))
            w = self.run.h.last("lock")
        for w in range(1, self.run.settings.workers + 1):
            if self.run.h.last("job", w) and self.chance(0.4):
                self.step(self.pick(b"back %d" % w, b"begin %d %d" % (w, self.now())))

    def start(self):
        """A session that is opened and, in most cases, registered."""
        self.speaker = len(self.run.h.sessions()) + 1
        self.step(b"connect %s %d" % (self.random.choice(HOSTS), self.now()))
        s = len(self.run.h.sessions())
        if self.fault or not s or self.run.h.nick(s):
            return
        names = (b"al", b"bo", b"cy", b"a[", b"d^e", b"x" * 30, b"e1", b"f-g", b"`h")
        free = [it for it in names if not self.run.h.holder(it)]
        nick = free[0] if free else b"n%d" % s
        if self.flavour == "crowd":
            nick = b"n%d" % s + b"z" * self.pick(3, 20, 25)
        is_odd = self.chance(0.2)
        user, real = (self.user(), self.long_text()) if is_odd else (nick[:1], nick.title())
        lines = [b"NICK " + nick, b"USER %s 0 * :%s" % (user, real)]
        if self.chance(0.75):
            count = 6 if self.chance(0.3) else self.random.randint(1, 6)
            lines = [b"CAP REQ :" + b" ".join(self.random.sample(CAPABILITIES, count)), *lines, b"CAP END"]
        elif self.chance(0.3):
            lines.insert(0, self.pick(b"CAP LIST", b"CAP LS", b"CAP REQ :none", b"CAP FOO", b"CAP END"))
        if self.chance(0.15):
            lines.insert(self.random.randint(0, len(lines)), self.a_line())
        if self.chance(0.2):
            lines[1:1] = a_login(self)
        if self.chance(0.1):
            self.random.shuffle(lines)
        if self.chance(0.1):
            lines.pop()
        if self.chance(0.8):
            lines.append(b"JOIN #a")
            if self.flavour == "crowd":
                lines.append(b"JOIN " + b",".join(b"#%d" % at + b"w" * 46 for at in range(10, 19)))
                lines.append(b"JOIN " + b",".join(b"#%d" % at + b"v" * 46 for at in range(10, 19)))
        self.feed(s, self.ended(lines))
        self.do_all(s)
        if self.chance(0.7):
            self.step(b"drain %d" % s)

    def make_room(self):
        for line in [b"tidy %d" % self.moment, *(b"reap %d" % s for s in self.sessions() if self.run.h.shut(s))]:
            if not self.fault:
                self.step(line)

    def bans(self):
        """Many bans by an operator, where there is one."""
        h = self.run.h
        speakers = [(s, c) for c in h.channels() for s in h.members(c) if h.operator(s, c) and not h.shut(s)]
        for at in range(17 if speakers else 0):
            self.has_bans = True
            masks = b" ".join(b"m%d" % (it + at * 4) for it in range(4))
            self.feed(speakers[0][0], b"MODE %s %s %s\r\n" % (h.name(speakers[0][1]), self.pick(b"+bbbb", b"bbbb"), masks))
            self.do_all(speakers[0][0])
        if speakers:
            self.feed(speakers[0][0], b"MODE %s b\r\n" % speakers[0][1])

    def headers(self):
        tight = self.flavour == "tight"
        lines = []
        if tight or self.chance(0.15):
            lines.append(b"sendq %d" % self.pick(1, 1, 2, 3, 5))
        if (tight and self.chance(0.5) or self.chance(0.03)) and not self.is_long:
            lines.append(b"limit %d" % self.pick(3, 10, 30, 60, 100))
        if self.flavour == "hands" or self.chance(0.3):
            lines.append(b"workers %d" % self.pick(1, 2, 3, 4, 64))
        if self.chance(0.1) and self.flavour != "crowd":
            lines.append(b"sessions %d" % self.pick(2, 3, 4, 6))
        for name, (salt, password) in PASSWORDS.items():
            if self.chance(0.7):
                digest = hashlib.sha256(salt + password).hexdigest().encode()
                lines.append(b"account %s %s %s" % (name, salt, digest if self.chance(0.7) else digest.upper()))
        for _ in range(self.pick(0, 0, 0, 1, 2)):
            lines.append(b"motd " + self.random.choice([it for it in TEXTS if len(it) < 400]))
        if not self.is_long and self.flavour == "odd" and self.chance(0.3):
            lines.append(self.random.choice(ODD_HEADERS))
        self.random.shuffle(lines)
        for line in lines:
            self.step(line)
            if self.chance(0.1) and not self.is_long:
                self.step(b"")
            if self.fault:
                return

    def make(self):
        self.headers()
        if self.is_long:
            self.length += len(self.steps) - 40
        if self.chance(0.03):
            self.moment = LAST_MOMENT - 5000
        most = self.pick(20, 24) if self.flavour == "crowd" else self.pick(2, 3, 4, 5, 7)
        while len(self.steps) < self.length and not self.fault:
            if self.steps and self.steps[-1][1] == [b"refused JournalFull"]:
                self.length = min(self.length, len(self.steps) + 20)
            if self.steps and self.steps[-1][1] == [b"refused TooManySessions"]:
                self.make_room()
                most = 1
            lively = [s for s in self.sessions() if not self.run.h.shut(s)]
            if len(lively) < (most if self.chance(0.3) else 1) or self.chance(0.01):
                self.start()
            elif self.chance(0.003) and self.flavour in ("plain", "tags") and not self.has_bans:
                self.bans()
            elif self.chance(0.12 if self.flavour == "ticks" else 0.004):
                self.beat()
            elif self.chance(0.72):
                self.talk()
            elif self.chance(0.7 if self.flavour != "tight" else 0.5):
                self.step(b"drain %d" % self.session())
            else:
                self.single()
            if self.run.h.last("lock") or self.chance(0.1):
                self.release()
            if self.flavour == "odd" and self.chance(0.01):
                self.step(self.random.choice(ODD))
        self.finish()
        while self.is_long and len(self.steps) < self.length + 40:
            self.step(b"drain %d" % self.session())
        del self.steps[self.length + 40 if self.is_long else len(self.steps):]

    def finish(self):
        """Takes and ends what is left."""
        for s in self.sessions():
            if not self.fault and self.chance(0.3):
                self.step(b"hang 1 %d %s %d" % (s, self.random.choice(list(REASONS)), self.moment))
        for line in [b"tidy %d" % self.moment] * 4:
            if not self.fault:
                self.step(line)
        for s in self.sessions():
            lines = [b"drain %d" % s, b"reap %d" % s]
            for line in lines if self.chance(0.8) else lines[::-1]:
                if not self.fault and (self.run.h.gone(s) or line == lines[0] or self.chance(0.2)):
                    self.step(line)
        if not self.fault:
            try:
                self.run.end()
            except BadSettings:
                self.fault = b"halld: settings\n"
