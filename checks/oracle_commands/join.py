"""JOIN: a session comes to channels, which may have a key."""
from oracle_command import Command
from oracle_commands.away import show_away
from oracle_commands.names import tell_names
from oracle_words import CHANNEL, fold, names_in

# On how many channels a session may be.
MOST = 20


def join(effects, params):
    s, h = effects.s, effects.h
    keys = params[1].split(b",") if len(params) > 1 else []
    listed = params[0].split(b",")
    for given in names_in(params[0]):
        at, c = listed.index(given), fold(given)
        key = keys[at] if at < len(keys) else b""
        members, needed, most = h.members(c), h.of_channel("k", c), h.of_channel("l", c)
        name = h.name(c) if members else given
        if not CHANNEL.fullmatch(given):
            effects.tell(403, given)
        elif s in members:
            continue
        elif len(h.channels_of(s)) >= MOST:
            effects.tell(405, name)
        elif members and needed and key != needed:
            effects.tell(475, name)
        elif members and h.banned(s, c) and h.invited(s, c) != "by an operator":
            effects.tell(474, name)
        elif members and h.of_channel("i", c) and not h.invited(s, c):
            effects.tell(473, name)
        elif members and most and len(members) >= most:
            effects.tell(471, name)
        else:
            come(effects, c, name, given)


def come(effects, c, name, given):
    """The session is on a channel, which it makes where nobody is there."""
    s, h = effects.s, effects.h
    is_new = not h.members(c)
    if is_new:
        h.add("made", value=c)
        h.add("name", c, value=given)
        h.add("n", c)
        h.add("t", c)
    h.add("on", s, c)
    if is_new:
        h.add("o", s, c)
    show_join(effects, c, name)
    if h.of_channel("topic", c):
        effects.tell(332, name, text=h.of_channel("topic", c))
    tell_names(effects, c)


def show_join(effects, c, name):
    """Each member takes the JOIN in the form that it asked for; of who is away, the others are told that as well."""
    s, h = effects.s, effects.h
    plain = b":%s JOIN %s" % (h.source(s), name)
    for t in h.members(c):
        is_extended = t in effects.with_cap(b"extended-join", [t])
        effects.show([t], plain + b" %s :%s" % (h.last("account", s) or b"*", h.last("real", s)) if is_extended else plain)
    if h.last("away", s):
        show_away(effects, [t for t in h.members(c) if t != s], h.last("away", s))


def draws(script):
    if script.chance(0.03):
        start = script.random.randint(1, 10)
        return b",".join(b"#%d" % at for at in range(start, start + script.random.randint(5, 21)))
    return script.words(script.list_of(script.other_channel), script.maybe(lambda: script.list_of(script.key), 0.3))


COMMANDS = {b"JOIN": Command(join, draws, least=1, share=50)}
TEXTS = {
    405: b"You have joined too many channels", 471: b"Cannot join channel (+l)", 473: b"Cannot join channel (+i)",
    474: b"Cannot join channel (+b)", 475: b"Cannot join channel (+k)",
}
ROWS = r"""
== a join with an account
account Al a ba7816bf8f01cfea414140de5dae2223b00361a396177a9cb410ff61f20015ad
dee starts with extended-join sasl
dee: AUTHENTICATE PLAIN
dee < AUTHENTICATE +
dee: AUTHENTICATE AGFsAGJj
dee < :~ 900 dee dee!d@h1 Al :You are now logged in as Al
dee < :~ 903 dee :SASL authentication successful
dee: JOIN #a
dee < :dee!d@h1 JOIN #a Al :Dee
dee < :~ 353 dee = #a :@dee
dee < :~ 366 dee #a :End of NAMES list
dee .
== names that are the same
al starts
al: JOIN #A[1],#a{1}
al < :al!a@h1 JOIN #A[1]
al < :~ 353 al = #A[1] :@al
al < :~ 366 al #A[1] :End of NAMES list
al .
al: JOIN #1,#2,#3,#4,#5,#6,#7,#8,#9,#10,#11,#12,#13,#14,#15,#16,#17,#18,#19
drain 1
al: JOIN #20
al < :~ 405 al #20 :You have joined too many channels
al .
== names that are the same, of two
al starts
bo starts
al: JOIN #A[1]
drain 1
bo: JOIN #a{1}
al < :bo!b@h2 JOIN #A[1]
"""
