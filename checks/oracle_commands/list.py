"""LIST: the channels that the session sees, with how many are there and their topics."""
from oracle_command import Command
from oracle_commands.names import draws
from oracle_words import fold, names_in


def channels(effects, params):
    h = effects.h
    for c in [fold(it) for it in names_in(params[0])] if params else h.channels():
        if h.sees(effects.s, c):
            effects.tell(322, h.name(c), b"%d" % len(h.members(c)), text=h.of_channel("topic", c) or b"")
    effects.tell(323)


COMMANDS = {b"LIST": Command(channels, draws)}
TEXTS = {323: b"End of LIST"}
ROWS = r"""
== a list of channels
al starts
al: JOIN #a
drain 1
al: LIST
al < :~ 322 al #a 1 :
al < :~ 323 al :End of LIST
al .
"""
