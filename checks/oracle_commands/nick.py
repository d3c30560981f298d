"""NICK: a session has a nickname."""
from oracle_command import Command
from oracle_words import NICK


def refuses(effects, params):
    if params and params[0]:
        return False
    effects.tell(431)
    return True


def nick(effects, params):
    s, h, given = effects.s, effects.h, params[0]
    if not NICK.fullmatch(given):
        effects.tell(432, given)
    elif h.holder(given) not in (None, s):
        effects.tell(433, given)
    elif given != h.nick(s):
        if h.registered(s):
            effects.show([s, *h.sharers(s)], b":%s NICK %s" % (h.source(s), given))
        h.add("nick", s, value=given)


def draws(script):
    return script.words(script.nick() if script.chance(0.3) else script.any_nick())


COMMANDS = {b"NICK": Command(nick, draws, refuses=refuses, is_early=True, share=20)}
TEXTS = {432: b"Erroneous nickname", 433: b"Nickname is already in use"}
ROWS = r"""
== nicknames
al starts
bo starts
al: JOIN #a
bo: JOIN #a
drain 1
drain 2
al: NICK alf
al < :al!a@h1 NICK alf
bo < :al!a@h1 NICK alf
bo: NICK ALF
bo < :~ 433 bo ALF :Nickname is already in use
"""
