"""AUTHENTICATE: a login by SASL PLAIN, in pieces."""
import base64
import binascii
import hashlib

from oracle_command import Command
from oracle_words import fold

# The most octets of a piece, and of all of a login.
PIECE, WHOLE = 400, 1200

# Accounts that scripts have, each with its salt and its password.
PASSWORDS = {b"al": (b"a", b"bc"), b"Bo[": (b"salt", b"\xffpass word"), b"x": (b":s", b"p"), b"two": (b"s", b"w" * 295),
             b"long": (b"s", b"w" * 600)}
PIECES = [b"PLAIN", b"PLAIN", b"plain", b"PLAIN", b"EXTERNAL", b"*", b"+", b"", b"A" * 400, b"A" * 401, b"B" * 400, b"A" * 399,
          b"AGFsAGJk", b"AGFsAGJ=", b"AGFsAGJ", b"AGFsAGJjZB==", b"AGFs AGJj"]


def plain_login(text):
    """User and password of a PLAIN answer, or None."""
    try:
        raw = base64.b64decode(text, validate=True)
    except binascii.Error:
        return None
    parts = raw.split(b"\0")
    if base64.b64encode(raw) != text or len(parts) != 3 or not parts[1] or not parts[2]:
        return None
    return parts[1:] if fold(parts[0]) in (b"", fold(parts[1])) else None


def log_in(effects, login):
    for name, salt, digest in effects.settings.accounts if login else ():
        if fold(name) == fold(login[0]) and hashlib.sha256(salt + login[1]).hexdigest().encode() == digest.lower():
            effects.h.add("account", effects.s, value=name)
            effects.tell(900, effects.h.source(effects.s), name, text=b"You are now logged in as " + name)
            effects.tell(903)
            return
    effects.tell(904)


def authenticate(effects, params):
    s, h, piece = effects.s, effects.h, params[0]
    pieces = h.last("sasl", s)
    if h.last("account", s):
        effects.tell(907)
    elif b"sasl" not in h.caps(s):
        h.add("sasl", s, value=None)
        effects.tell(904)
    elif pieces is None and piece.upper() == b"PLAIN":
        h.add("sasl", s, value=b"")
        effects.answer(b"AUTHENTICATE +")
    elif pieces is None:
        effects.tell(908, b"PLAIN")
        effects.tell(904)
    elif piece == b"*":
        h.add("sasl", s, value=None)
        effects.tell(906)
    else:
        whole = pieces + (b"" if piece == b"+" else piece)
        if len(piece) > PIECE or len(whole) > WHOLE:
            h.add("sasl", s, value=None)
            effects.tell(905)
        elif len(piece) == PIECE:
            h.add("sasl", s, value=whole)
        else:
            h.add("sasl", s, value=None)
            log_in(effects, plain_login(whole))


def login(script):
    name = script.random.choice(list(PASSWORDS))
    identity = script.pick(b"", b"", name, name.swapcase(), b"zz")
    password = PASSWORDS[name if script.chance(0.8) else script.random.choice(list(PASSWORDS))][1]
    raw = b"\0".join([identity, name if script.chance(0.8) else name.swapcase(), password])
    raw = raw if script.chance(0.9) else script.pick(b"", b"\0", b"\0\0", b"\0al\0", b"al\0bc", b"\0al\0bc\0")
    return base64.b64encode(raw)


def draws(script):
    return script.words(script.random.choice(PIECES) if script.chance(0.7) else login(script))


def a_login(script):
    """The lines of a login, with odd ones between."""
    lines = [b"CAP REQ sasl", b"AUTHENTICATE PLAIN"]
    lines += [b"AUTHENTICATE " + b"A" * 400] * script.pick(0, 0, 0, 0, 0, 0, 1, 2, 3)
    if script.chance(0.7):
        text = login(script)
        pieces = [text[at:at + 400] for at in range(0, len(text), 400)] + [b"+"] * (len(text) % 400 == 0)
        lines += [b"AUTHENTICATE " + it for it in pieces]
    else:
        lines += [b"AUTHENTICATE " + script.pick(b"+", b"*", b":", b"A", b"A" * 400, b"AGFs")]
    if script.chance(0.3):
        between = script.pick(b"CAP REQ -sasl", b"CAP END", b"PING x", b"NICK zz", script.a_line())
        lines.insert(script.random.randint(1, len(lines)), between)
    if script.chance(0.2):
        lines.pop()
    return lines


COMMANDS = {b"AUTHENTICATE": Command(authenticate, draws, least=1, is_early=True, share=20)}
TEXTS = {
    903: b"SASL authentication successful", 904: b"SASL authentication failed", 905: b"SASL message too long",
    906: b"SASL authentication aborted", 907: b"You have already authenticated using SASL",
    908: b"are available SASL mechanisms",
}
ROWS = r"""
== a login
account al a ba7816bf8f01cfea414140de5dae2223b00361a396177a9cb410ff61f20015ad
connect h1 0
al: CAP REQ sasl
al < :~ CAP * ACK :sasl
al: AUTHENTICATE PLAIN
al < AUTHENTICATE +
al: AUTHENTICATE AGFsAGJj
al < :~ 900 * *!*@h1 al :You are now logged in as al
al < :~ 903 * :SASL authentication successful
== logins that fail
account al a ba7816bf8f01cfea414140de5dae2223b00361a396177a9cb410ff61f20015ad
connect h1 0
al: CAP REQ sasl
al < :~ CAP * ACK :sasl
al: AUTHENTICATE PLAIN
al < AUTHENTICATE +
al: AUTHENTICATE AGFsAGJk
al < :~ 904 * :SASL authentication failed
al: AUTHENTICATE PLAIN
al < AUTHENTICATE +
al: AUTHENTICATE *
al < :~ 906 * :SASL authentication aborted
al: AUTHENTICATE PLAIN
al < AUTHENTICATE +
al: AUTHENTICATE {400 A}
al .
al: AUTHENTICATE +
al < :~ 904 * :SASL authentication failed
al: AUTHENTICATE PLAIN
al < AUTHENTICATE +
al: AUTHENTICATE {400 A}
al: AUTHENTICATE {400 A}
al: AUTHENTICATE {400 A}
al .
al: AUTHENTICATE A
al < :~ 905 * :SASL message too long
al: AUTHENTICATE PLAIN
al < AUTHENTICATE +
al: NICK al
al: USER a 0 * :Al
al .
al: CAP END
al < :~ 906 al :SASL authentication aborted
al < :~ 001 al :Welcome to the Internet Relay Network al!a@h1
al < :~ 002 al :Your host is ~, running version halld-1
al < :~ 003 al :This server was created 1970-01-01T00:00:00.000Z
al < :~ 004 al ~ halld-1 i biklmnostv
al < :~ 005 al TOKENS :are supported by this server
al < :~ 422 al :MOTD File is missing
al .
"""
