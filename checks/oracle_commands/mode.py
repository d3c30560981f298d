"""MODE: modes of a channel and of a user are asked and changed."""
from oracle_command import Command
from oracle_words import fold, needs_colon

# How many masks a channel bans, how many parameters a MODE takes, and the most octets of a key.
BANS, MODES, KEY = 60, 4, 23

MASKS = [b"al", b"*", b"*!*@*", b"bo!*@*", b"*@h1", b"a?", b"?o!*", b"x!y", b"x@y", b"a@b!c", b"*!b@*", b"A[*", b"a{*!*@*",
         b"", b":m", b"m n", b"!", b"@", b"*!*@h2", b"cy!*@*", b"CY!*@*", b"n" * 60, b"**?", b"\xff"]
NUMBERS = [b"1", b"2", b"3", b"0", b"007", b"65535", b"65536", b"-1", b"+2", b"x", b"", b"99999999999999999999999", b"1 ",
           b"10"]
OF_USERS = [b"+i", b"-i", b"i", b"+x", b"+i-i", b"-i+i", b"+ix", b"", b"+", b"ii-x:i", b"+w"]
ASKED = [b"b", b"+b", b"-b", b"+", b"", b"-", b"be"]


def completed(mask):
    """A ban's mask with all its three parts, or None where there is none."""
    if needs_colon(mask):
        return None
    nick, bang, rest = mask.partition(b"!")
    if bang:
        return mask if b"@" in rest else mask + b"@*"
    return b"*!" + mask if b"@" in mask else mask + b"!*@*"


def mode(effects, params):
    if params[0][:1] in (b"#", b"&"):
        mode_of_channel(effects, params[0], params[1:])
    else:
        mode_of_user(effects, params[0], params[1:])


def mode_of_user(effects, given, params):
    s, h = effects.s, effects.h
    was = bool(h.last("invisible", s))
    if h.find(given) is None:
        effects.tell(401, given)
    elif h.find(given) != s:
        effects.tell(502)
    elif not params:
        effects.tell(221, b"+i" if was else b"+")
    else:
        sign, now = b"+", was
        for letter in (params[0][at:at + 1] for at in range(len(params[0]))):
            sign = letter if letter in b"+-" else sign
            now = sign == b"+" if letter == b"i" else now
        if params[0].strip(b"+-i"):
            effects.tell(501)
        if now != was:
            h.add("invisible", s, value=now)
            effects.answer(b":%s MODE %s %si" % (h.source(s), h.nick(s), b"+" if now else b"-"))


def mode_of_channel(effects, given, params):
    s, h, c = effects.s, effects.h, fold(given)
    if effects.is_barred(given, on=False):
        return
    name = h.name(c)
    if not params:
        letters = b"".join(it for it in (b"i", b"k", b"l", b"m", b"n", b"s", b"t") if h.of_channel(it.decode(), c))
        values = [h.of_channel("k", c) if h.on(s, c) else b"*"] * (b"k" in letters)
        values += [b"%d" % (h.of_channel("l", c) or 0)] * (b"l" in letters)
        effects.tell(324, name, b"+" + letters, *values)
    elif len(params) == 1 and params[0].translate(None, b"+-") == b"b":
        for mask in h.bans(c):
            effects.tell(367, name, mask)
        effects.tell(368, name)
    elif not effects.is_barred(given, on=False, operator=True):
        changes = list(changed_by(effects, c, params[0], params[1:]))
        signs = [sign if at == 0 or changes[at - 1][0] != sign else b"" for at, (sign, _, _) in enumerate(changes)]
        text = b"".join(sign + letter for sign, (_, letter, _) in zip(signs, changes))
        if changes:
            words = [text, *(value for _, _, value in changes if value is not None)]
            effects.show(h.members(c), b":%s MODE %s %s" % (h.source(s), name, b" ".join(words)))


def changed_by(effects, c, letters, params):
    """Serves the letters of a MODE, and gives those that changed something: sign, letter, what is shown beside it."""
    sign, served = b"+", 0
    for letter in (letters[at:at + 1] for at in range(len(letters))):
        if letter in b"+-":
            sign = letter
            continue
        value = None
        takes = letter in (b"o", b"v", b"b", b"k") or letter == b"l" and sign == b"+"
        if takes and params:
            value, params, served = params[0], params[1:], served + 1
            if served > MODES:
                continue
        elif takes and letter != b"b" and (letter, sign) != (b"k", b"-"):
            effects.tell(461, b"MODE")
            continue
        if letter in (b"i", b"m", b"n", b"s", b"t"):
            changed, shown = set_flag(effects, c, letter, sign == b"+"), None
        elif letter in (b"o", b"v"):
            changed, shown = set_rank(effects, c, letter, sign == b"+", value)
        elif letter == b"b":
            changed, shown = set_ban(effects, c, sign == b"+", value)
        elif letter == b"k":
            changed, shown = set_key(effects, c, sign == b"+", value)
        elif letter == b"l":
            changed, shown = set_limit(effects, c, sign == b"+", value)
        else:
            effects.tell(472, letter, text=b"is unknown mode char to me for " + effects.h.name(c))
            continue
        if changed:
            yield sign, letter, shown


def set_flag(effects, c, letter, on):
    changed = bool(effects.h.of_channel(letter.decode(), c)) != on
    if changed:
        effects.h.add(letter.decode(), c, value=on)
    return changed


def set_rank(effects, c, letter, on, given):
    h, t = effects.h, effects.h.find(given)
    if t is None:
        effects.tell(401, given)
    elif not h.on(t, c):
        effects.tell(441, h.nick(t), h.name(c))
    elif h.rank(letter.decode(), t, c) != on:
        h.add(letter.decode(), t, c, value=on)
        return True, h.nick(t)
    return False, None


def set_ban(effects, c, on, given):
    mask, bans = completed(given or b""), effects.h.bans(c)
    is_there = mask is not None and fold(mask) in [fold(it) for it in bans]
    if mask is None or is_there == on or on and len(bans) >= BANS:
        return False, None
    effects.h.add("ban", c, value=(on, mask))
    return True, mask


def set_key(effects, c, on, given):
    now = effects.h.of_channel("k", c)
    if on and (needs_colon(given) or b"," in given):
        return False, None
    key = given[:KEY] if on else None
    if key != now:
        effects.h.add("k", c, value=key)
    return key != now, key if on else b"*"


def set_limit(effects, c, on, given):
    now = effects.h.of_channel("l", c)
    if on and not (given.isdigit() and 1 <= int(given) <= 65535):
        return False, None
    most = int(given) if on else None
    if most != now:
        effects.h.add("l", c, value=most)
    return most != now, b"%d" % most if on else None


def letters_and_values(script):
    letters, params = b"", []
    for _ in range(script.pick(1, 1, 1, 2, 2, 3, 4, 5, 6, 7, 8)):
        letter = script.random.choice(b"iiimnsttoooovvvbbbbkkkllqx+-:" if script.chance(0.98) else b" \xff\x01#aIOB")
        letters += script.pick(b"", b"", b"+", b"-") + b"%c" % letter
        makers = dict(zip(b"ovbkl", (script.nick, script.nick, lambda: script.random.choice(MASKS), script.any_key,
                                     lambda: script.random.choice(NUMBERS))))
        if letter in makers and script.chance(0.9):
            params.append(makers[letter]())
    return letters, params


def draws(script):
    if script.chance(0.15):
        mine = script.run.h.nick(script.speaker) if script.chance(0.6) else None
        return script.words(mine or script.nick(), script.maybe(lambda: script.random.choice(OF_USERS), 0.8))
    if script.chance(0.15):
        return script.words(script.channel(), script.maybe(lambda: script.random.choice(ASKED), 0.6))
    letters, params = letters_and_values(script)
    middles = [it for it in params[:-1] if it and b" " not in it and it[:1] != b":"]
    return script.words(script.channel(), letters, *middles, *params[-1:])


COMMANDS = {b"MODE": Command(mode, draws, least=1, share=60, by_operators=30)}
TEXTS = {
    368: b"End of channel ban list", 501: b"Unknown MODE flag", 502: b"Cannot change mode for other users",
}
ROWS = r"""
== modes and bans
al starts
bo starts
al: JOIN #a
bo: JOIN #a
drain 1
drain 2
al: MODE #a +ov-t bo bo
al < :al!a@h1 MODE #a +ov-t bo bo
bo < :al!a@h1 MODE #a +ov-t bo bo
al: MODE #a +b cy
al < :al!a@h1 MODE #a +b cy!*@*
bo < :al!a@h1 MODE #a +b cy!*@*
cy starts
cy: JOIN #a
cy < :~ 474 cy #a :Cannot join channel (+b)
al: INVITE cy #a
cy < :al!a@h1 INVITE cy #a
cy: JOIN #a
cy < :cy!c@h3 JOIN #a
"""
