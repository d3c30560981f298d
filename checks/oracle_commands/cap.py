"""CAP: capabilities are listed, asked for and refused, and registration waits for its end."""
from oracle_command import Command
from oracle_words import CAPABILITIES, SERVER

LISTS = [b"nothing", b"sasl=PLAIN", b"BATCH", b"-", b"", b"batch batch", b"-batch batch", b"batch nothing", b"--sasl",
         b"echo-message -echo-message"]
WORDS = [b"LS", b"ls", b"LS 302", b"LS 301", b"LS 0302", b"LS x", b"LS 302x", b"LS +302", b"LS " + b"9" * 40, b"LIST",
         b"LIST", b"END", b"END", b"REQ", b"REQ", b"REQ", b"Req", b"ACK", b"FOO", b":", b""]


def refuses(effects, params):
    sub = params[0].upper() if params else b""
    if not params or sub == b"REQ" and len(params) < 2:
        effects.tell(461, b"CAP")
    elif sub not in (b"LS", b"LIST", b"REQ", b"END"):
        effects.tell(410, params[0])
    else:
        return False
    return True


def cap(effects, params):
    s, h, sub = effects.s, effects.h, params[0].upper()
    to = h.nick(s) or b"*"
    on = h.caps(s)
    if sub in (b"LS", b"REQ") and not h.registered(s):
        h.add("hold", s)
    if sub == b"LS":
        version = params[1] if len(params) > 1 else b""
        names = [it + b"=PLAIN" * (it == b"sasl" and version.isdigit() and int(version) >= 302) for it in CAPABILITIES]
        effects.answer(b":%s CAP %s LS :%s" % (SERVER, to, b" ".join(names)))
    elif sub == b"LIST":
        effects.answer(b":%s CAP %s LIST :%s" % (SERVER, to, b" ".join(sorted(on))))
    elif sub == b"REQ":
        words = [it for it in params[1].split(b" ") if it]
        is_known = all(it.removeprefix(b"-") in CAPABILITIES for it in words)
        effects.answer(b":%s CAP %s %s :%s" % (SERVER, to, b"ACK" if is_known else b"NAK", b" ".join(words)))
        for word in words if is_known else ():
            on = {it for it in on if it != word.removeprefix(b"-")} | {it for it in CAPABILITIES if it == word}
        h.add("caps", s, value=on)
    else:
        h.add("hold", s, value=False)


def names(script):
    if script.chance(0.1):
        return script.random.choice(LISTS)
    words = script.random.sample(CAPABILITIES, script.random.randint(1, len(CAPABILITIES)))
    return script.pick(b" ", b" ", b"  ").join((b"-" if script.chance(0.15) else b"") + it for it in words)


def draws(script):
    sub = script.random.choice(WORDS)
    return sub + b" " + script.words(names(script)) if sub.upper() == b"REQ" else sub


COMMANDS = {b"CAP": Command(cap, draws, refuses=refuses, is_early=True, share=20)}
TEXTS = {410: b"Invalid CAP command"}
ROWS = r"""
== capabilities are listed and asked for
connect h1 0
al: CAP LS
al < :~ CAP * LS :away-notify batch echo-message extended-join labeled-response message-tags sasl server-time
al: CAP LS 302
al < :~ CAP * LS :away-notify batch echo-message extended-join labeled-response message-tags sasl=PLAIN server-time
al: CAP REQ :batch sasl -batch
al < :~ CAP * ACK :batch sasl -batch
al: CAP LIST
al < :~ CAP * LIST :sasl
al: CAP REQ :batch none
al < :~ CAP * NAK :batch none
al: CAP LIST
al < :~ CAP * LIST :sasl
al: CAP
al < :~ 461 * CAP :Not enough parameters
al: CAP REQ
al < :~ 461 * CAP :Not enough parameters
al: CAP foo
al < :~ 410 * foo :Invalid CAP command
al .
== registration waits for the end of capabilities
connect h1 0
al: CAP REQ batch
al < :~ CAP * ACK :batch
al: NICK al
al: USER a 0 * :Al
al .
al: CAP END
al < :~ 001 al :Welcome to the Internet Relay Network al!a@h1
al < :~ 002 al :Your host is ~, running version halld-1
al < :~ 003 al :This server was created 1970-01-01T00:00:00.000Z
al < :~ 004 al ~ halld-1 i biklmnostv
al < :~ 005 al TOKENS :are supported by this server
al < :~ 422 al :MOTD File is missing
al .
"""
