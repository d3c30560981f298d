"""KICK: an operator has members leave a channel."""
from oracle_command import Command
from oracle_words import TARGETS, fold, names_in

# The most octets of its text.
KICK = 200


def kick(effects, params):
    s, h, c, nicks = effects.s, effects.h, fold(params[0]), names_in(params[1])
    if effects.is_barred(params[0], operator=True):
        return
    if len(nicks) > TARGETS:
        effects.tell(407, nicks[TARGETS])
        return
    text = b"".join(params[2:3])[:KICK] or h.nick(s)
    for given in nicks:
        t = h.find(given)
        if t is None:
            effects.tell(401, given)
        elif not h.on(t, c):
            effects.tell(441, h.nick(t), h.name(c))
        else:
            effects.show(h.members(c), b":%s KICK %s %s :%s" % (h.source(s), h.name(c), h.nick(t), text))
            h.add("on", t, c, value=False)


def draws(script):
    return script.words(script.channel(), script.list_of(script.nick, 7), script.maybe(script.long_text))


COMMANDS = {b"KICK": Command(kick, draws, least=2, share=30, by_operators=10)}
ROWS = r"""
== two channels shared
al starts
bo starts
cy starts
al: JOIN #a,#b
bo: JOIN #a,#b
cy: JOIN #a,#b
drain 1
drain 2
drain 3
al: KICK #a bo :out
al < :al!a@h1 KICK #a bo :out
bo < :al!a@h1 KICK #a bo :out
cy < :al!a@h1 KICK #a bo :out
al: QUIT
tidy 0
    sweep 15
bo < :al!a@h1 QUIT :Client Quit
bo .
cy < :al!a@h1 QUIT :Client Quit
cy .
"""
