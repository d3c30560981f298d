"""Scenes: sessions on one server, of which the first says a line again and again, as scripts of `halld play`.

checks/instructions counts them, and checks/bench times them.
"""
import os
import string
import subprocess
import sys
from typing import NamedTuple

# How many sessions a server has at most.
MAX_SESSIONS = 1024

# A scene with more lines before those that are measured is played where it is named.
MANY = 100_000

TEXT = "PRIVMSG #room :hello, all"
USER = "USER u 0 * :Some One"
LABELS = ("CAP REQ :batch labeled-response", USER, "CAP END")
TAG_LETTERS = string.ascii_letters + string.digits


def tagged(count, line):
    """A line with so many tags of a client."""
    return "@" + ";".join(f"+example.com/key-{number}=value" for number in range(count)) + f" {line}"


def short_tagged(count, line):
    """The same with keys of three octets, of which a line may have a thousand."""
    keys = [f"+{first}{second}" for first in TAG_LETTERS for second in TAG_LETTERS]
    return "@" + ";".join(keys[:count]) + f" {line}"


def on_the_channel(*capabilities):
    """What a member says once it has a nickname: it turns these capabilities on, registers and joins the channel."""
    return (*[f"CAP REQ {it}" for it in capabilities], USER, *["CAP END" for _ in capabilities[:1]], "JOIN #room")


class Scene(NamedTuple):
    name: str
    members: int = 2
    # sessions beside them that are registered and on no channel, and sessions that come and go before the line is said
    idle: int = 0
    gone: int = 0
    sendq: int = 200
    # what each member says once it has a nickname, and how many channels of its own it makes
    start: tuple = on_the_channel()
    channels: int = 0
    # what the first says, and the first and the last of those who are told of it
    line: str = TEXT
    told: tuple = (2, 2)
    # how often the line is said before it is measured, and then
    before: int = 0
    lines: int = 14286


PAIR = Scene("2 sessions")
TAKES_TAGS = PAIR._replace(start=on_the_channel("message-tags"))
HUNDRED = PAIR._replace(name="100 sessions", members=100, told=(2, 100), lines=4927)
THOUSAND = PAIR._replace(name="1,000 sessions", members=1000, sendq=1200, told=(2, 1000), lines=500)
ALONE = PAIR._replace(name="PINGs", members=1, start=(USER,), line="PING x", told=(1, 1), lines=100000)

SCENES = [
    HUNDRED,
    HUNDRED._replace(name="100 sessions with server-time", start=on_the_channel("server-time")),
    ALONE._replace(name="labelled PINGs", start=LABELS, line="@label=7 PING x"),
    PAIR._replace(name="2 sessions after 10,000 records", before=10000),
    THOUSAND,
    PAIR._replace(name="2 sessions after 1,000,000 records", before=1000000),
    THOUSAND._replace(name="NAMES of 1,000", line="NAMES #room", told=(1, 1), lines=100),
    ALONE._replace(name="LIST of 1,000 channels", members=50, channels=20, line="LIST", lines=100),
    TAKES_TAGS._replace(name="TAGMSG of 100 tags", line=tagged(100, "TAGMSG #room"), lines=1000),
    PAIR,
    PAIR._replace(name="2 sessions with 1,000 idle beside", idle=1000),
    HUNDRED._replace(name="100 sessions with 1,000 idle beside", idle=1000),
    THOUSAND._replace(name="1,000 sessions with 1,000 idle beside", idle=1000),
    PAIR._replace(name="2 sessions after 10,000 came and went", gone=10000),
    ALONE,
    TAKES_TAGS._replace(name="TAGMSG of 1 tag", line=tagged(1, "TAGMSG #room")),
    TAKES_TAGS._replace(name="TAGMSG of 10 tags", line=tagged(10, "TAGMSG #room"), lines=5000),
    TAKES_TAGS._replace(name="TAGMSG of 1,000 short tags", line=short_tagged(1000, "TAGMSG #room"), lines=500),
    TAKES_TAGS._replace(name="a text with 1 tag", line=tagged(1, TEXT)),
    TAKES_TAGS._replace(name="a text with 10 tags", line=tagged(10, TEXT), lines=5000),
]


def say(session, *lines):
    """Steps in which a session says these lines."""
    yield f'feed {session} "' + "".join(f"{it}\\r\\n" for it in lines) + '"'
    for _ in lines:
        yield f"do {session} 0"


def enter(session, *lines):
    yield "connect host.example 0"
    yield from say(session, f"NICK n{session}", *lines)


def enter_alone(session):
    yield from enter(session, USER)
    yield f"drain {session}"


def come_and_go(session):
    """Of four in a row two register first; of these one quits and one's input ends, and so it is with the other two."""
    yield from enter_alone(session) if session % 2 == 0 else ["connect host.example 0"]
    yield from say(session, "QUIT :bye") if session % 4 < 2 else [f"hang 1 {session} ended 0"]
    yield from ["tidy 0", f"drain {session}", f"reap {session}"]


def filled(scene):
    """Steps in which the sessions of a scene come, and take what waits for them."""
    for session in range(1, scene.members + 1):
        yield from enter(session, *scene.start, *[f"JOIN #c{session}-{number}" for number in range(scene.channels)])
    for session in range(1, scene.members + 1):
        yield f"drain {session}"
    for session in range(scene.members + 1, scene.members + scene.idle + 1):
        yield from enter_alone(session)
    others = scene.members + scene.idle
    for session in range(others + 1, others + scene.gone + 1):
        yield from come_and_go(session)


def said(scene, lines):
    """Steps in which the first says its line so often, and whoever is told takes it."""
    steps = [*say(1, scene.line), *[f"take {it}" for it in range(scene.told[0], scene.told[1] + 1)]]
    for _ in range(lines):
        yield from steps


def sessions_of(scene):
    """How many sessions a scene has at a time."""
    return scene.members + scene.idle + min(scene.gone, 1)


def steps_of(scene):
    """How many steps a line is: feed, pick, begin, a put that finds nothing, end, and two for each who is told."""
    return 5 + 2 * (scene.told[1] - scene.told[0] + 1)


def headers(scene):
    yield from ["limit 10000000", "workers 1", f"sendq {scene.sendq}"]
    if sessions_of(scene) > MAX_SESSIONS:
        yield f"sessions {sessions_of(scene)}"


def script(scene, lines):
    """The script of a scene that says so many lines."""
    yield from headers(scene)
    yield from filled(scene)
    yield from said(scene, scene.before)
    yield from said(scene, lines)


def empty_script(scene, lines):
    """The script of the same steps, each of which is refused, since nobody is there."""
    yield from headers(scene)
    yield from said(scene, lines)


def end(why):
    sys.exit(f"{os.path.basename(sys.argv[0])}: {why}")


def play(words, steps, room):
    """Plays a script by a program, and answers what the process used. The room's file `notes` has what it printed."""
    with open(f"{room}/script", "w", encoding="utf-8") as it:
        it.writelines(f"{step}\n" for step in steps)
    script, notes, faults = open(f"{room}/script", "rb"), open(f"{room}/notes", "wb"), open(f"{room}/faults", "wb")
    with script, notes, faults:
        process = subprocess.Popen([*words, "play"], cwd=room, stdin=script, stdout=notes, stderr=faults)
        _, status, used = os.wait4(process.pid, 0)
        process.returncode = os.waitstatus_to_exitcode(status)
    if process.returncode:
        with open(f"{room}/faults", encoding="utf-8", errors="replace") as it:
            end(f"{words[-1]} ended with {process.returncode}\n{it.read()}")
    return used


def play_scene(words, scene, lines, room):
    """Plays a scene, of which no step is to be refused, no delivery missed, and something taken at each `take`."""
    used = play(words, script(scene, lines), room)
    with open(f"{room}/script", encoding="utf-8") as it:
        empty = sum(step.startswith("drain ") for step in it)
    with open(f"{room}/notes", encoding="utf-8") as it:
        for note in it:
            empty -= note == "empty\n"
            if note.startswith(("refused ", "missed ")):
                end(f"{scene.name}: {note.strip()}")
    if empty:
        end(f"{scene.name}: nothing was to be taken")
    return used


def chosen(numbers, sessions):
    """The scenes with these numbers, or those that are soon made. A server has so many sessions at most."""
    scenes = {str(number): scene for number, scene in enumerate(SCENES, 1)}
    unknown = [it for it in numbers if it not in scenes]
    if unknown:
        end(f"there is no scene {unknown[0]}")
    for number in numbers or [it for it in scenes if scenes[it].before <= MANY]:
        scene = scenes[number]
        if sessions_of(scene) > sessions:
            print(f"{number} {scene.name}: not measured, for a server has {sessions} sessions at most", flush=True)
        else:
            yield number, scene


def listed():
    return "".join(f"{number} {it.name}\n" for number, it in enumerate(SCENES, 1))
