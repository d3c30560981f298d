"""WHO: who is on a channel, with names and hosts."""
from oracle_command import Command
from oracle_words import SERVER, fold


def who(effects, params):
    s, h, given = effects.s, effects.h, params[0] if params else b"*"
    c = fold(given)
    if not h.sees(s, c):
        effects.tell(315, given)
        return
    for t in h.members(c):
        if h.on(s, c) or not h.last("invisible", t):
            flags = (b"G" if h.last("away", t) else b"H") + h.sign(t, c)
            text = b"0 " + h.last("real", t)
            effects.tell(352, h.name(c), h.user(t), h.host(t), SERVER, h.nick(t), flags, text=text)
    effects.tell(315, h.name(c))


def draws(script):
    return script.words(script.maybe(script.target, 0.9))


COMMANDS = {b"WHO": Command(who, draws)}
TEXTS = {315: b"End of WHO list"}
ROWS = r"""
== a question about a channel
al starts
al: JOIN #a
drain 1
al: WHO #a
al < :~ 352 al #a a h1 ~ al H@ :0 Al
al < :~ 315 al #a :End of WHO list
al .
"""
