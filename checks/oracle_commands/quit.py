"""QUIT: a session ends itself."""
from oracle_command import Command


def leave(effects, params):
    effects.h.add("quit", effects.s, value=params[0] if params else b"")


def draws(script):
    return script.words(script.maybe(script.text, 0.7))


COMMANDS = {b"QUIT": Command(leave, draws, is_early=True, share=3)}
ROWS = r"""
== a quit
al starts
bo starts
al: JOIN #a
bo: JOIN #a
drain 1
drain 2
al: PRIVMSG #a :hi
bo: QUIT :bye
feed 2 "PING x\n"
    read 1
do 2 0
    refused Shut
drain 2
    2> :al!a@h1 PRIVMSG #a :hi
    2> ERROR :Closing Link: h2 (Client Quit)
    empty
tidy 0
    sweep 11
al < :bo!b@h2 QUIT :bye
al .
"""
