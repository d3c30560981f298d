"""WHOIS: what is known of a session, and on which channels it is seen."""
from oracle_command import Command
from oracle_commands.away import tell_away
from oracle_words import INFO, SERVER


def refuses(effects, params):
    if params and (params[1] if len(params) > 1 else params[0]):
        return False
    effects.tell(431)
    return True


def whois(effects, params):
    s, h, given = effects.s, effects.h, params[1] if len(params) > 1 else params[0]
    t = h.find(given)
    if t is None:
        effects.tell(401, given)
        effects.tell(318, given)
        return
    effects.tell(311, h.nick(t), h.user(t), h.host(t), b"*", text=h.last("real", t))
    shown = [h.sign(t, c) + h.name(c) for c in h.channels_of(t) if h.sees(s, c)]
    effects.tell_list(319, h.nick(t), words=shown)
    effects.tell(312, h.nick(t), SERVER, text=INFO)
    tell_away(effects, t)
    effects.tell(318, h.nick(t))


def draws(script):
    return script.words(script.maybe(script.nick, 0.15), script.nick())


COMMANDS = {b"WHOIS": Command(whois, draws, refuses=refuses, share=20)}
TEXTS = {318: b"End of WHOIS list"}
ROWS = r"""
== a question about a user
al starts
al: JOIN #a
drain 1
al: WHOIS al
al < :~ 311 al al a h1 * :Al
al < :~ 319 al al :@#a
al < :~ 312 al al ~ :halld
al < :~ 318 al al :End of WHOIS list
al .
"""
