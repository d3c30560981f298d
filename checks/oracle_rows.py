"""checks/oracle_rows.py: runs whose notes were worked out by hand, on which the oracle is tried before it is believed.

`== NAME` begins a run. `al starts with CAPS` connects al, as the next session, from a host hS, names it, and drains it; `al: X`
feeds X as a line and does it; `al < Y` is the next line that al takes; `al .` says that nothing is left for al. Another line
is a line of the script, and those below it with four spaces are its notes. `~` is irc.example and {N x} is N times x. What shows
one command stands in its file of oracle_commands/.
"""
import re

from oracle_registry import FILES
from oracle_run import Run
from oracle_words import TOKENS, is_utf8, lines_of, matches, tags_of, time_text

ROWS = r"""
== nothing
== a registration
connect h1 0
    session 1
feed 1 "NICK al\r"
    read 1
feed 1 "\nUSER a 0 * :Al\n"
    read 1
do 1 0
    record 2
do 1 0
    record 3
drain 1
    1> :~ 001 al :Welcome to the Internet Relay Network al!a@h1
    1> :~ 002 al :Your host is ~, running version halld-1
    1> :~ 003 al :This server was created 1970-01-01T00:00:00.000Z
    1> :~ 004 al ~ halld-1 i biklmnostv
    1> :~ 005 al TOKENS :are supported by this server
    1> :~ 422 al :MOTD File is missing
    empty
== long lines
al starts
al: PING {505 x}
al < :~ PONG ~ {480 x}
al: PING {506 x}
al < :~ 417 al :Input line was too long
al .
== long tags
al starts with batch labeled-response
al: @k={4092 v} PING x
al < :~ PONG ~ x
al: @label=q;k={4085 v} PING x
al < :~ 417 al :Input line was too long
== labels
al starts with batch labeled-response
al: @label=7 PING x
al < @label=7 :~ PONG ~ x
al: @label=8 PONG x
al < @label=8 :~ ACK
== a labelled join
al starts with batch labeled-response
bo starts
bo: JOIN #a
bo < :bo!b@h2 JOIN #a
bo < :~ 353 bo = #a :@bo
bo < :~ 366 bo #a :End of NAMES list
al: @label=j JOIN #a
bo < :al!a@h1 JOIN #a
al < @label=j :~ BATCH +10 labeled-response
al < @batch=10 :al!a@h1 JOIN #a
al < @batch=10 :~ 353 al = #a :@bo al
al < @batch=10 :~ 366 al #a :End of NAMES list
al < :~ BATCH -10
al .
== labels of what fails
al starts with batch labeled-response
al: @label=n NOTICE nobody :x
al < @label=n :~ ACK
al: @label=p PRIVMSG nobody :x
al < @label=p :~ 401 al nobody :No such nick/channel
== labels that don't count
al starts with batch labeled-response
al: @label={65 l} PING x
al < :~ PONG ~ x
al: @label={64 l} PING x
al < @label={64 l} :~ PONG ~ x
al: @label=q CAP REQ :-labeled-response
al < @label=q :~ CAP al ACK :-labeled-response
al: @label=r PING x
al < :~ PONG ~ x
== a full outbox
sendq 1
al starts
bo starts
al: JOIN #a
drain 1
bo: JOIN #a
drain 1
feed 1 "PRIVMSG #a :hi\r\n"
    read 1
do 1 0
    record 9
    missed 2
take 2
    2> :bo!b@h2 JOIN #a
    2> :~ 353 bo = #a :@al bo
    2> :~ 366 bo #a :End of NAMES list
take 2
    empty
tidy 0
    sweep 10
al < :bo!b@h2 QUIT :Max SendQ exceeded
reap 2
    left 0
== an outbox that is emptied in time
sendq 1
al starts
bo starts
al: JOIN #a
drain 1
bo: JOIN #a
drain 1
feed 1 "PRIVMSG #a :hi\r\n"
pick 1 1
    picked
begin 1 0
    record 9
take 2
    2> :bo!b@h2 JOIN #a
    2> :~ 353 bo = #a :@al bo
    2> :~ 366 bo #a :End of NAMES list
put 1
    put 2
== a full journal
limit 4
connect h1 0
    session 1
feed 1 "NICK al\nPING x\n"
    read 2
do 1 0
    record 2
do 1 0
    refused JournalFull
hang 1 1 shutdown 0
    hung 3
reap 1
    refused NotGone
drain 1
    1> ERROR :Closing Link: h1 (Server shutting down)
    empty
tidy 0
    sweep 4
reap 1
    left 0
== a full journal, nothing taken
limit 4
connect h1 0
feed 1 "NICK al\n"
do 1 0
hang 1 1 shutdown 0
tidy 0
reap 1
    left 1
== moments
al starts with server-time
feed 1 "PING x\nPING x\n"
do 1 951782400123
    record 6
al < @time=2000-02-29T00:00:00.123Z :~ PONG ~ x
do 1 951782400122
    refused BadMoment
== a label and a moment
al starts with batch labeled-response server-time
al: @label=7 PING x
al < @label=7;time=1970-01-01T00:00:00.000Z :~ PONG ~ x
al: @label=8 JOIN #a
al < @label=8;time=1970-01-01T00:00:00.000Z :~ BATCH +7 labeled-response
al < @batch=7;time=1970-01-01T00:00:00.000Z :al!a@h1 JOIN #a
al < @batch=7;time=1970-01-01T00:00:00.000Z :~ 353 al = #a :@al
al < @batch=7;time=1970-01-01T00:00:00.000Z :~ 366 al #a :End of NAMES list
al < @time=1970-01-01T00:00:00.000Z :~ BATCH -7
al: QUIT
al < ERROR :Closing Link: h1 (Client Quit)
== two workers
al starts
bo starts
feed 1 "PING x\n"
feed 2 "PING x\n"
pick 1 1
    picked
pick 2 1
    refused InFlight
pick 1 2
    refused HasJob
pick 2 2
    picked
begin 1 0
    record 7
begin 2 0
    refused Locked
end 1
    refused PutsLeft
put 2
    refused NotHolding
put 1
    put 1
put 1
    refused NothingLeft
end 1
    done 7
begin 2 0
    record 8
put 2
    put 2
end 2
    done 8
begin 2 0
    refused NoJob
pick 1 1
    refused NothingRead
pick 3 1
    refused NoWorker
take 9
    refused NoSession
== a worker's line when its session is hung
al starts
feed 1 "PING x\n"
pick 1 1
    picked
hang 2 1 ended 0
    hung 4
begin 1 0
    refused Shut
sweep 2 0
    sweep 5
pick 2 1
    refused HasJob
end 2
    done 5
reap 1
    refused InFlight
back 1
    back
reap 1
    left 1
== one session
sessions 1
connect h1 0
    session 1
connect h1 0
    refused TooManySessions
== before registration
connect h1 0
al: JOIN #a
al < :~ 451 * :You have not registered
al: JOIN
al < :~ 461 * JOIN :Not enough parameters
al: FOO
al < :~ 421 * FOO :Unknown command
al .
== who is quiet is pinged, and then ended
al starts
beat 119999
    tick none
beat 120000
    tick 4
al < :~ PING ~
al .
beat 200000
    tick none
beat 240000
    tick none
    hung 5
drain 1
    1> ERROR :Closing Link: h1 (Ping timeout)
    empty
== who is pinged and heard of is pinged again
al starts
beat 120000
    tick 4
al < :~ PING ~
feed 1 "PONG x\n"
    read 1
do 1 130000
    record 5
beat 249999
    tick none
beat 250000
    tick 6
al < :~ PING ~
beat 369999
    tick none
beat 370000
    tick none
    hung 7
"""


def script_line(text):
    return text.replace("~", "irc.example").encode("latin-1")


class Row:
    """A run of ROWS, played line by line. `script` and `notes` are what was played and what came."""

    def __init__(self, name):
        self.name, self.run, self.sessions, self.taken = name, Run(), [], {}
        self.script, self.notes, self.step, self.faults = [], [], [], []

    def play(self, line):
        self.step = self.run.line(line)
        self.script.append(line)
        self.notes += self.step
        return self.step

    def say(self, s, line):
        self.play(b'feed %d "%s\\r\\n"' % (s, line.replace(b'"', b'\\"')))
        self.play(b"do %d 0" % s)

    def read(self, text):
        text = re.sub(r"\{(\d+) (.)\}", lambda it: int(it[1]) * it[2], text.replace("TOKENS", TOKENS.decode()))
        starts = re.fullmatch(r"(\w+) starts(?: with (.+))?", text)
        says = re.fullmatch(r"(\w+)(: | < | \.)(.*)", text)
        if text.startswith("    "):
            if not self.step or self.step.pop(0) != script_line(text[4:]):
                self.faults.append(text)
        elif starts:
            nick = starts[1].encode()
            self.sessions.append(starts[1])
            s = len(self.sessions)
            self.play(b"connect h%d 0" % s)
            lines = [b"NICK %s" % nick, b"USER %s 0 * :%s" % (nick[:1], nick.capitalize())]
            for line in [b"CAP REQ :" + starts[2].encode(), *lines, b"CAP END"] if starts[2] else lines:
                self.say(s, line)
            self.play(b"drain %d" % s)
        elif says:
            s = self.sessions.index(says[1]) + 1 if self.sessions else 1
            self.says(s, says[2].strip(), script_line(says[3]), text)
        else:
            self.play(script_line(text))

    def says(self, s, how, line, text):
        if how == ":":
            self.say(s, line)
            return
        taken = self.taken.setdefault(s, [])
        if not taken:
            taken += [it.removeprefix(b"%d> " % s) for it in self.play(b"take %d" % s)]
        if taken.pop(0) != (line if how == "<" else b"empty"):
            self.faults.append(text)


def rows():
    """The runs, each played by the oracle."""
    found = []
    for text in [ROWS, *(file.ROWS for file in FILES.values())]:
        for line in text.strip("\n").split("\n"):
            if line.startswith("== "):
                found.append(Row(line[3:]))
            else:
                found[-1].read(line)
    return found


def wrong_words():
    """What the oracle's own readings of words get wrong, by name."""
    told = {
        "a tag's last value": tags_of(b"k=x;k=a\\:\\s\\\\\\b\\")[-1] == (b"k", b"a; \\b"),
        "a mask that is of a source": matches(b"b?!*@H2", b"BO!b@h2"),
        "a mask that isn't": not matches(b"b", b"bo"),
        "a leap day": time_text(951782400123) == b"2000-02-29T00:00:00.123Z",
        "the last moment": time_text(253370764799999) == b"9998-12-31T23:59:59.999Z",
        "a line of 510": lines_of(b"x" * 510 + b"\r") == [b"x" * 510],
        "a line of 511": lines_of(b"x" * 511 + b"\n") == [None],
        "tags of 4094": lines_of(b"@" + b"k" * 4094 + b" PING x\r") != [None],
        "tags of 4095": lines_of(b"@" + b"k" * 4095 + b" PING x\r") == [None],
        "tags alone": lines_of(b"@" + b"k" * 4095 + b"\r") == [None],
        "octets that aren't UTF-8": not is_utf8(b"\xff"),
    }
    return [name for name, is_so in told.items() if not is_so]
