"""INVITE: a member asks somebody to a channel."""
from oracle_command import Command
from oracle_commands.away import tell_away
from oracle_words import fold


def invite(effects, params):
    s, h, t, c = effects.s, effects.h, effects.h.find(params[0]), fold(params[1])
    if t is None:
        effects.tell(401, params[0])
    elif effects.is_barred(params[1]):
        return
    elif h.on(t, c):
        effects.tell(443, h.nick(t), h.name(c))
    elif not effects.is_barred(params[1], operator=bool(h.of_channel("i", c))):
        h.add("invited", t, c, value="by an operator" if h.operator(s, c) else "by a member")
        effects.show([t], b":%s INVITE %s %s" % (h.source(s), h.nick(t), h.name(c)))
        effects.tell(341, h.nick(t), h.name(c))
        tell_away(effects, t)


def draws(script):
    return script.words(script.nick(), script.channel())


COMMANDS = {b"INVITE": Command(invite, draws, least=2, share=20, by_operators=10)}
TEXTS = {443: b"is already on channel"}
ROWS = r"""
== invitations
al starts
bo starts
al: JOIN #a
drain 1
bo: PRIVMSG #a :x
bo < :~ 404 bo #a :Cannot send to channel
bo: NOTICE #a :x
bo .
al: MODE #a +i
drain 1
bo: JOIN #a
bo < :~ 473 bo #a :Cannot join channel (+i)
al: INVITE bo #a
al < :~ 341 al bo #a
bo < :al!a@h1 INVITE bo #a
bo: JOIN #a
bo < :bo!b@h2 JOIN #a
bo < :~ 353 bo = #a :@al bo
bo < :~ 366 bo #a :End of NAMES list
bo: PART #a
bo < :bo!b@h2 PART #a
bo: JOIN #a
bo < :~ 473 bo #a :Cannot join channel (+i)
"""
