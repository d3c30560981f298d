"""checks/oracle_words.py: the limits, texts and shapes by which checks/oracle reads and writes lines."""
import datetime
import re

SERVER, INFO, VERSION, CREATED = b"irc.example", b"halld", b"halld-1", 0
CAPABILITIES = (b"away-notify", b"batch", b"echo-message", b"extended-join", b"labeled-response", b"message-tags", b"sasl",
                b"server-time")
TOKENS = (b"AWAYLEN=200 CASEMAPPING=rfc1459 CHANLIMIT=#&:20 CHANMODES=b,k,l,imnst CHANNELLEN=50 CHANTYPES=#& KICKLEN=200 "
          b"MAXLIST=b:60 MODES=4 NICKLEN=30 PREFIX=(ov)@+ TOPICLEN=300")
LAST_MOMENT = 253370764799999
LINE, TAG_DATA = 510, 4094
# How many targets a message or a KICK has.
TARGETS = 4
RANGES = {b"limit": (1, 10_000_000, 1_000_000), b"sendq": (1, 4096, 256), b"workers": (1, 64, 2), b"sessions": (1, 1024, 1024)}
# After how many milliseconds a session that says nothing is sent a PING, and after how many it is ended.
PING_AFTER, LATE_AFTER = 120000, 240000
REASONS = {b"quit": b"Client Quit", b"sendq": b"Max SendQ exceeded", b"ended": b"Connection closed", b"readfail": b"Read error",
           b"writefail": b"Write error", b"memory": b"Out of memory", b"shutdown": b"Server shutting down",
           b"timeout": b"Ping timeout"}
# The texts of numerics that several commands have, or none.
TEXTS = {
    5: b"are supported by this server", 401: b"No such nick/channel", 403: b"No such channel", 407: b"Too many targets",
    417: b"Input line was too long", 421: b"Unknown command", 431: b"No nickname given", 441: b"They aren't on that channel",
    442: b"You're not on that channel", 451: b"You have not registered", 461: b"Not enough parameters",
    482: b"You're not channel operator",
}
TOO_LONG = None
LOWER = bytes.maketrans(b"ABCDEFGHIJKLMNOPQRSTUVWXYZ[]\\~", b"abcdefghijklmnopqrstuvwxyz{}|^")
NICK = re.compile(rb"[A-Za-z\[\]\\`_^{|}][A-Za-z0-9\[\]\\`_^{|}-]{0,29}")
CHANNEL = re.compile(rb"[#&][^\0\a\r\n ,]{0,49}")
HOST = re.compile(rb"[A-Za-z0-9.-][A-Za-z0-9.:-]{0,62}")
TAG_KEY = re.compile(rb"\+?([A-Za-z0-9.-]+/)?[A-Za-z0-9-]+")
UNESCAPED = {b":": b";", b"s": b" ", b"r": b"\r", b"n": b"\n"}
ESCAPED = {b";": b"\\:", b" ": b"\\s", b"\\": b"\\\\", b"\r": b"\\r", b"\n": b"\\n"}


# Lines, names and tags.

def fold(text):
    return text.translate(LOWER)


def lines_of(stream):
    """The pieces that a CR or LF ends; TOO_LONG stands for one that is too long."""
    pieces = []
    for piece in re.split(rb"[\r\n]", stream)[:-1]:
        if piece:
            data, rest = b"", piece
            if piece.startswith(b"@"):
                data, _, rest = piece[1:].partition(b" ")
            pieces.append(TOO_LONG if len(data) > TAG_DATA or len(rest) > LINE else piece)
    return pieces


def parse(piece):
    """The tag data, command and parameters of a piece, or None where it isn't a message."""
    data, rest = b"", piece
    if piece.startswith(b"@"):
        data, _, rest = piece[1:].partition(b" ")
    rest = rest.lstrip(b" ")
    if rest.startswith(b":"):
        rest = rest.partition(b" ")[2].lstrip(b" ")
    command, space, rest = rest.partition(b" ")
    if b"\0" in piece or not re.fullmatch(rb"[A-Za-z]+|[0-9]{3}", command):
        return None
    params = []
    rest = rest.lstrip(b" ")
    while rest:
        if rest.startswith(b":") or len(params) == 14:
            params.append(rest.removeprefix(b":"))
            break
        word, space, rest = rest.partition(b" ")
        params.append(word)
        rest = rest.lstrip(b" ")
    return data, command, params


def is_utf8(text):
    try:
        return text.decode("utf-8") is not None
    except UnicodeDecodeError:
        return False


def unescape(value):
    return re.sub(rb"\\(.?)", lambda it: UNESCAPED.get(it[1], it[1]), value, flags=re.S)


def escape(value):
    return re.sub(rb"[; \\\r\n]", lambda it: ESCAPED[it[0]], value)


def tags_of(data):
    """The tags that count, as pairs of key and meaning, in order."""
    pairs = [tag.partition(b"=")[::2] for tag in data.split(b";")]
    return [(key, unescape(value)) for key, value in pairs if TAG_KEY.fullmatch(key) and is_utf8(value)]


def matches(mask, text):
    """Whether a mask with * and ? is of this text. `ends` are the lengths of what the mask read so far may be of."""
    mask, text, ends = fold(mask), fold(text), {0}
    for it in mask:
        if it == ord("*"):
            ends = set(range(min(ends), len(text) + 1)) if ends else ends
        else:
            ends = {end + 1 for end in ends if end < len(text) and it in (ord("?"), text[end])}
    return len(text) in ends


def needs_colon(text):
    return not text or b" " in text or text.startswith(b":")


def time_text(moment):
    at = datetime.datetime(1970, 1, 1) + datetime.timedelta(milliseconds=moment)
    return b"%s.%03dZ" % (at.strftime("%Y-%m-%dT%H:%M:%S").encode(), moment % 1000)


def names_in(text):
    """The names of a list: empty ones skipped, one that stands twice told once."""
    names = []
    for name in text.split(b","):
        if name and fold(name) not in [fold(it) for it in names]:
            names.append(name)
    return names
