"""PING and PONG: a session asks whether the server is there, or says that it is itself."""
from oracle_command import Command
from oracle_words import SERVER, needs_colon


def refuses(effects, params):
    if params and params[0]:
        return False
    effects.tell(409)
    return True


def ping(effects, params):
    effects.answer(b":%s PONG %s %s%s" % (SERVER, SERVER, b":" * needs_colon(params[0]), params[0]))


def pong(effects, params):
    pass


def draws(script):
    return script.words(script.text(), script.maybe(script.text, 0.2))


COMMANDS = {
    b"PING": Command(ping, draws, refuses=refuses, is_early=True),
    b"PONG": Command(pong, draws, is_early=True, share=3),
}
TEXTS = {409: b"No origin specified"}
ROWS = r"""
== pings
al starts
al: PING x
al < :~ PONG ~ x
al: PING :a b
al < :~ PONG ~ :a b
al: PING
al < :~ 409 al :No origin specified
al: PING :
al < :~ 409 al :No origin specified
al: PONG x
al: PONG
al .
"""
