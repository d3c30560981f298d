"""PRIVMSG, NOTICE and TAGMSG: a session speaks to others, and to channels; a notice is never answered by a numeric."""
from oracle_command import Command
from oracle_commands.away import tell_away
from oracle_words import LINE, TARGETS, escape, fold, names_in


def relayed(tags):
    """The client-only tags as they are sent on: the last of each key, in the order of those."""
    last = [(key, value) for at, (key, value) in enumerate(tags) if key not in [later for later, _ in tags[at + 1:]]]
    return [key + (b"=" + escape(value) if value else b"") for key, value in last if key.startswith(b"+")]


def lacks_target(effects, params):
    if params and params[0]:
        return False
    effects.tell(411, text=b"No recipient given (%s)" % effects.command)
    return True


def lacks_text(effects, params):
    if lacks_target(effects, params):
        return True
    if len(params) > 1 and params[1]:
        return False
    effects.tell(412)
    return True


def message(effects, params):
    s, h, command, tags = effects.s, effects.h, effects.command, relayed(effects.tags)
    targets, text = names_in(params[0]), b"" if command == b"TAGMSG" else b" :" + params[1]
    if len(targets) > TARGETS:
        effects.tell(407, targets[TARGETS])
        return
    for given in targets:
        c, t = fold(given), h.find(given)
        if given[:1] in (b"#", b"&"):
            if effects.is_barred(given, on=False):
                continue
            if is_mute(effects, c):
                effects.tell(404, h.name(c))
                continue
            target, to = h.name(c), [it for it in h.members(c) if it != s]
        elif t is None:
            effects.tell(401, given)
            continue
        else:
            target, to = h.nick(t), [t]
        line = b":%s %s %s%s" % (h.source(s), command, target, text)
        hear = [it for it in h.sessions() if command != b"TAGMSG" or tags and b"message-tags" in effects.caps[it]]
        effects.show([it for it in to if it in hear and it != s], line, tags)
        if s in hear and b"echo-message" in effects.caps[s]:
            effects.answer(line, tags)
        if s in hear and s in to:
            effects.copies.append((line[:LINE], tags))
        if command == b"PRIVMSG" and given[:1] not in (b"#", b"&"):
            tell_away(effects, t)


def is_mute(effects, c):
    """Whether the session may not speak on a channel."""
    s, h = effects.s, effects.h
    is_outside = h.of_channel("n", c) and not h.on(s, c)
    return is_outside or not h.sign(s, c) and (bool(h.of_channel("m", c)) or h.banned(s, c))


def draws(script):
    return script.words(script.list_of(script.target, 6), script.text())


def draws_tags(script):
    return script.words(script.list_of(script.target, 6), script.maybe(script.text, 0.1))


COMMANDS = {
    b"PRIVMSG": Command(message, draws, refuses=lacks_text, share=50),
    b"NOTICE": Command(message, draws, refuses=lacks_text, is_quiet=True, share=20),
    b"TAGMSG": Command(message, draws_tags, refuses=lacks_target, share=20),
}
TEXTS = {404: b"Cannot send to channel", 412: b"No text to send"}
ROWS = r"""
== tags sent on
al starts with message-tags
bo starts with message-tags
al: @+k=a;+k=b\\:\\b\\ PRIVMSG bo :hi
bo < @+k=b\x5c:b :al!a@h1 PRIVMSG bo :hi
al: @+x=1;y=2 TAGMSG bo
bo < @+x=1 :al!a@h1 TAGMSG bo
bo .
al .
== an echo and a copy
al starts with batch echo-message labeled-response
al: @label=s PRIVMSG al :hi
take 1
    1> @label=s :al!a@h1 PRIVMSG al :hi
    1> :al!a@h1 PRIVMSG al :hi
al .
== messages
al starts
bo starts
al: PRIVMSG bo :hi there
bo < :al!a@h1 PRIVMSG bo :hi there
al: NOTICE bo hi
bo < :al!a@h1 NOTICE bo :hi
al: PRIVMSG nobody :x
al < :~ 401 al nobody :No such nick/channel
al: NOTICE nobody :x
al: NOTICE
al .
al: PRIVMSG
al < :~ 411 al :No recipient given (PRIVMSG)
al: TAGMSG
al < :~ 411 al :No recipient given (TAGMSG)
al: PRIVMSG bo
al < :~ 412 al :No text to send
al: PRIVMSG a,b,,B,c,d,e :x
al < :~ 407 al e :Too many targets
bo: AWAY :out
drain 2
al: PRIVMSG BO :hi
bo < :al!a@h1 PRIVMSG bo :hi
al < :~ 301 al bo :out
al: NOTICE bo :hi
bo < :al!a@h1 NOTICE bo :hi
bo .
al .
"""
