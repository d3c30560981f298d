"""AWAY: a session is away with a text, or here again; who asks for it, and who writes to it, is told."""
from oracle_command import Command

# The most octets of its text.
AWAY = 200


def away(effects, params):
    s, h = effects.s, effects.h
    text = b"".join(params[:1])[:AWAY]
    if text != (h.last("away", s) or b""):
        show_away(effects, h.sharers(s), text)
    h.add("away", s, value=text)
    effects.tell(306 if text else 305)


def show_away(effects, sessions, text):
    """Tells who asked for it that the session is away with a text, or here again."""
    line = b":%s AWAY" % effects.h.source(effects.s) + (b" :" + text if text else b"")
    effects.show(effects.with_cap(b"away-notify", sessions), line)


def tell_away(effects, t):
    """Tells the session that another is away."""
    if effects.h.last("away", t):
        effects.tell(301, effects.h.nick(t), text=effects.h.last("away", t))


def draws(script):
    return script.words(script.maybe(script.long_text, 0.7))


COMMANDS = {b"AWAY": Command(away, draws, share=20)}
TEXTS = {305: b"You are no longer marked as being away", 306: b"You have been marked as being away"}
ROWS = r"""
== who joins and who is away
al starts
bo starts with away-notify extended-join
cy starts
bo: JOIN #a
bo < :bo!b@h2 JOIN #a * :Bo
bo < :~ 353 bo = #a :@bo
bo < :~ 366 bo #a :End of NAMES list
al: JOIN #a
bo < :al!a@h1 JOIN #a * :Al
al < :al!a@h1 JOIN #a
al < :~ 353 al = #a :@bo al
al < :~ 366 al #a :End of NAMES list
cy: JOIN #a
bo < :cy!c@h3 JOIN #a * :Cy
al: AWAY :out
al < :cy!c@h3 JOIN #a
al < :~ 306 al :You have been marked as being away
bo < :al!a@h1 AWAY :out
al: AWAY :out
al < :~ 306 al :You have been marked as being away
bo .
bo: JOIN #b
bo < :bo!b@h2 JOIN #b * :Bo
bo < :~ 353 bo = #b :@bo
bo < :~ 366 bo #b :End of NAMES list
al: JOIN #b
take 2
    2> :al!a@h1 JOIN #b * :Al
    2> :al!a@h1 AWAY :out
al < :al!a@h1 JOIN #b
al < :~ 353 al = #b :@bo al
al < :~ 366 al #b :End of NAMES list
al: AWAY
bo < :al!a@h1 AWAY
bo .
al < :~ 305 al :You are no longer marked as being away
al .
cy < :cy!c@h3 JOIN #a
cy < :~ 353 cy = #a :@bo al cy
cy < :~ 366 cy #a :End of NAMES list
cy .
"""
