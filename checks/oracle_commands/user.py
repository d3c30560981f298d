"""USER and PASS: who registers says what name and what real name it has; a password isn't looked at."""
from oracle_command import Command

# The most octets of a user name, and of a real name.
USER, REAL = 16, 100


def user_name(given):
    return bytes(it for it in given if it > 32 and it not in b"!@")[:USER]


def refuses(effects, params):
    if user_name(params[0]):
        return False
    effects.tell(461, b"USER")
    return True


def user(effects, params):
    if effects.h.user(effects.s):
        effects.tell(462)
    else:
        effects.h.add("user", effects.s, value=user_name(params[0]))
        effects.h.add("real", effects.s, value=params[3][:REAL])


def password(effects, params):
    if effects.h.registered(effects.s):
        effects.tell(462)


def draws(script):
    return script.words(script.user(), b"0", b"*", script.text())


def draws_password(script):
    return script.words(script.text())


COMMANDS = {
    b"PASS": Command(password, draws_password, least=1, is_early=True, share=3),
    b"USER": Command(user, draws, least=4, refuses=refuses, is_early=True, share=3),
}
TEXTS = {462: b"Unauthorized command (already registered)"}
ROWS = r"""
== who registers
connect h1 0
al: PASS
al < :~ 461 * PASS :Not enough parameters
al: PASS x
al: NICK al
al: USER a 0 *
al < :~ 461 al USER :Not enough parameters
al: USER !@ 0 * :Al
al < :~ 461 al USER :Not enough parameters
al: USER a!b@cdefghijklmnopqrst 0 * :Al
al < :~ 001 al :Welcome to the Internet Relay Network al!abcdefghijklmnop@h1
al < :~ 002 al :Your host is ~, running version halld-1
al < :~ 003 al :This server was created 1970-01-01T00:00:00.000Z
al < :~ 004 al ~ halld-1 i biklmnostv
al < :~ 005 al TOKENS :are supported by this server
al < :~ 422 al :MOTD File is missing
al: USER x 0 * :X
al < :~ 462 al :Unauthorized command (already registered)
al: PASS x
al < :~ 462 al :Unauthorized command (already registered)
al .
"""
