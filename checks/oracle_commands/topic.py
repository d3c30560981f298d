"""TOPIC: a channel's topic is asked or set."""
from oracle_command import Command
from oracle_words import fold

# The most octets of a topic.
TOPIC = 300


def topic(effects, params):
    s, h, c = effects.s, effects.h, fold(params[0])
    if effects.is_barred(params[0], operator=len(params) > 1 and bool(h.of_channel("t", c))):
        return
    if len(params) > 1:
        text = params[1][:TOPIC]
        h.add("topic", c, value=text)
        effects.show(h.members(c), b":%s TOPIC %s :%s" % (h.source(s), h.name(c), text))
    elif h.of_channel("topic", c):
        effects.tell(332, h.name(c), text=h.of_channel("topic", c))
    else:
        effects.tell(331, h.name(c))


def draws(script):
    return script.words(script.channel(), script.maybe(script.long_text, 0.6))


COMMANDS = {b"TOPIC": Command(topic, draws, least=1, share=20, by_operators=10)}
TEXTS = {331: b"No topic is set"}
ROWS = r"""
== topics
al starts
bo starts
al: JOIN #a
bo: JOIN #a
drain 1
drain 2
al: TOPIC #a
al < :~ 331 al #a :No topic is set
bo: TOPIC #a :mine
bo < :~ 482 bo #a :You're not channel operator
al: TOPIC #a :{301 t}
al < :al!a@h1 TOPIC #a :{300 t}
bo < :al!a@h1 TOPIC #a :{300 t}
bo: TOPIC #A
bo < :~ 332 bo #a :{300 t}
al: TOPIC #a :
al < :al!a@h1 TOPIC #a :
bo < :al!a@h1 TOPIC #a :
bo: TOPIC #a
bo < :~ 331 bo #a :No topic is set
bo: PART #a
drain 1
drain 2
bo: TOPIC #a
bo < :~ 442 bo #a :You're not on that channel
bo: TOPIC #b
bo < :~ 403 bo #b :No such channel
bo .
al .
"""
