"""PART: a session leaves channels."""
from oracle_command import Command
from oracle_words import fold, names_in


def part(effects, params):
    s, h = effects.s, effects.h
    text = b"".join(params[1:2])
    for given in names_in(params[0]):
        if not effects.is_barred(given):
            c = fold(given)
            effects.show(h.members(c), b":%s PART %s" % (h.source(s), h.name(c)) + (b" :" + text if text else b""))
            h.add("on", s, c, value=False)


def draws(script):
    return script.words(script.list_of(script.channel), script.maybe(script.text))


COMMANDS = {b"PART": Command(part, draws, least=1, share=20)}
ROWS = r"""
== channels are left
al starts
bo starts
al: JOIN #a
bo: JOIN #a
drain 1
drain 2
bo: PART #A :bye
al < :bo!b@h2 PART #a :bye
al .
bo < :bo!b@h2 PART #a :bye
bo: PART #a,,#b
bo < :~ 442 bo #a :You're not on that channel
bo < :~ 403 bo #b :No such channel
bo .
al: PART #a :
al < :al!a@h1 PART #a
al: PART #a
al < :~ 403 al #a :No such channel
al .
"""
