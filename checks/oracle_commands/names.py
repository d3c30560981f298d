"""NAMES: who is on channels, as far as the session sees it."""
from oracle_command import Command
from oracle_words import fold, names_in


def names(effects, params):
    if not params:
        effects.tell(366, b"*")
    for given in names_in(params[0]) if params else ():
        if effects.h.sees(effects.s, fold(given)):
            tell_names(effects, fold(given))
        else:
            effects.tell(366, given)


def tell_names(effects, c):
    s, h = effects.s, effects.h
    shown = [t for t in h.members(c) if h.on(s, c) or not h.last("invisible", t)]
    sign = b"@" if h.of_channel("s", c) else b"="
    effects.tell_list(353, sign, h.name(c), words=[h.sign(t, c) + h.nick(t) for t in shown])
    effects.tell(366, h.name(c))


def draws(script):
    return script.words(script.maybe(lambda: script.list_of(script.channel), 0.8))


def many_members():
    """A run of a channel whose names take two lines."""
    nicks = [f"n{at:09d}" for at in range(1, 45)]
    starts = "\n".join(f"{nick} starts\n{nick}: JOIN #a" for nick in nicks)
    return (f"== many members\nal starts\nal: JOIN #a\n{starts}\ndrain 1\nal: NAMES #a\n"
            f"al < :~ 353 al = #a :@al {' '.join(nicks[:43])}\nal < :~ 353 al = #a :n000000044\n"
            "al < :~ 366 al #a :End of NAMES list\nal .\n")


COMMANDS = {b"NAMES": Command(names, draws, share=20)}
TEXTS = {366: b"End of NAMES list"}
ROWS = r"""
== a secret channel
al starts
bo starts
al: JOIN #a
al: MODE #a +s
bo: NAMES #a
bo < :~ 366 bo #a :End of NAMES list
bo: NAMES
bo < :~ 366 bo * :End of NAMES list
bo: LIST
bo < :~ 323 bo :End of LIST
bo .
""" + many_members()
