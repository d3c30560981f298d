"""MOTD: the message of the day, which stands in the settings."""
from oracle_command import Command
from oracle_words import SERVER, fold


def motd(effects, params):
    if params and fold(params[0]) != fold(SERVER):
        effects.tell(402, params[0])
    elif not effects.settings.motd:
        effects.tell(422)
    else:
        effects.tell(375, text=b"- %s Message of the day - " % SERVER)
        for line in effects.settings.motd:
            effects.tell(372, text=b"- " + line)
        effects.tell(376)


def draws(script):
    return script.words(script.maybe(lambda: script.pick(b"irc.example", b"IRC.example", b"other", b"", b"a b"), 0.7))


COMMANDS = {b"MOTD": Command(motd, draws, share=3)}
TEXTS = {376: b"End of MOTD command", 402: b"No such server", 422: b"MOTD File is missing"}
ROWS = r"""
== a message of the day
motd hello
connect h1 0
al: NICK al
al: USER a 0 * :Al
al < :~ 001 al :Welcome to the Internet Relay Network al!a@h1
al < :~ 002 al :Your host is ~, running version halld-1
al < :~ 003 al :This server was created 1970-01-01T00:00:00.000Z
al < :~ 004 al ~ halld-1 i biklmnostv
al < :~ 005 al TOKENS :are supported by this server
al < :~ 375 al :- ~ Message of the day - 
al < :~ 372 al :- hello
al < :~ 376 al :End of MOTD command
al .
== the message of the day is asked for
al starts
al: MOTD
al < :~ 422 al :MOTD File is missing
al: MOTD IRC.Example
al < :~ 422 al :MOTD File is missing
al: MOTD other
al < :~ 402 al other :No such server
al .
"""
