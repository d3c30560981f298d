"""What is said: texts, rooms, people, commands."""
import re
import time

from page_scene import go, names_here, octets, room_row, trial


@trial()
def five_thousand_lines(it):
    """They don't hold the tab, and the newest is in sight."""
    page = it.enter()
    ben = it.person("ben")
    page.ask("Performance.enable", timeDomain="threadTicks")
    began, worked = time.monotonic(), page.work()
    for start in range(0, 5000, 250):
        ben.tell("#lobby", *(f"line {number} of a long night" for number in range(start, start + 250)))
        ben.settle()
    last = "(document.querySelector('#lines').lastElementChild?.textContent ?? '').includes('line 4999 ')"
    page.until(last, 60, "the last of 5,000 lines doesn't come in a minute")
    took, worked = time.monotonic() - began, page.work() - worked
    assert worked < 12, f"the page worked for {worked:.1f} s"
    count = page.js("document.querySelector('#lines').childElementCount")
    assert count <= 1001, f"{count} lines are kept"
    below = page.js("(() => { const it = document.querySelector('#lines'); "
                    "return it.scrollHeight - it.scrollTop - it.clientHeight; })()")
    assert below < 40, f"the end is {below} px below"
    return f"shown after {took:.1f} s, of which the page worked {worked:.1f} s; {count} kept"


@trial()
def who_reads_above_stays_there(it):
    """Lines that come don't move who reads older ones; a button leads to them."""
    page = it.enter()
    ben = it.person("ben")
    ben.tell("#lobby", *(f"old {number}" for number in range(120)))
    page.reads("old 119")
    page.settle()
    page.js("document.querySelector('#lines').scrollTop = 300")
    page.settle()
    ben.tell("#lobby", "a new one")
    page.reads("a new one")
    page.settle()
    top = page.js("document.querySelector('#lines').scrollTop")
    assert abs(top - 300) < 3, f"moved to {top}"
    page.click("#newer")
    page.settle()
    below = page.js("(() => { const it = document.querySelector('#lines'); "
                    "return it.scrollHeight - it.scrollTop - it.clientHeight; })()")
    assert below < 40, f"the end is {below} px below"
    return f"stayed at {top} px, then went to the end"


@trial()
def texts_are_escaped(it):
    """What looks like HTML is shown as it was said, and nothing of it runs."""
    page = it.enter()
    ben = it.person("ben")
    bad = '<img src=x onerror="window.ran = 1"><b>&amp;</b>'
    ben.tell("#lobby", bad)
    page.reads(bad)
    page.say(f"own {bad}")
    page.reads(f"own {bad}")
    ben.send(f"TOPIC #lobby :{bad}", f"NICK b[e]n`", "PART #lobby :<i>out</i>")
    page.reads("<i>out</i>")
    page.say(f"/topic topic {bad}")
    page.reads(f"topic {bad}", "#topic")
    assert not page.js("window.ran"), "it ran"
    assert page.js("document.querySelectorAll('#chat img, #lines i').length") == 0, "it became an element"
    return f"{bad} as text in lines, topic and reasons"


@trial(1280)
def letters_that_break_lines(it):
    """A text with U+2028 and the like is shown whole."""
    page = it.enter()
    ben = it.person("ben")
    ben.tell("#lobby", "one\u2028two\u2029three", "a \u202e backwards", "after")
    page.reads("after")
    shown = page.js("document.querySelector('#lines').textContent")
    assert "one\u2028two\u2029three" in shown, "the text is lost"
    page.say("four\u2028five")
    heard = ben.heard("four")
    assert "four\u2028five" in heard, heard
    return "shown, and sent"


@trial(1280)
def a_line_that_is_wrong(it):
    """One that no server should send is shown in the server's room, and the talk goes on."""
    page = it.enter()
    ben = it.person("ben")
    page.js("hear(':ben!ben@host KICK #lobby'); hear(''); hear(':x')")
    ben.tell("#lobby", "and on")
    page.reads("and on")
    assert page.faults(), "the console has nothing of it"
    page.browser.events.clear()
    go(page, "server")
    return page.reads("doesn't understand")


@trial(1280)
def long_texts_go_out_in_parts(it):
    """A text that is too long for a line is sent in several, whole; so is one of /me."""
    page = it.enter()
    ben = it.person("ben")
    page.say("é" * 700)
    got = ""
    while len(got) < 700:
        got += ben.heard(" PRIVMSG #lobby :").split(" PRIVMSG #lobby :", 1)[1]
    assert got == "é" * 700, f"{len(got)} letters, {got[:20]}"
    page.say("/me " + "x" * 600)
    acts = [ben.hear(" PRIVMSG ").split(":", 2)[2] for _ in range(2)]
    assert all(re.fullmatch(r"\x01ACTION x+\x01", act) for act in acts), acts
    assert sum(act.count("x") for act in acts) == 600
    page.until("document.querySelector('#lines').textContent.split('x').length > 600")
    return "700 letters of two octets, and two actions"


@trial()
def modes_are_read(it):
    """Who is made an operator, or gets the voice, has the mark; the line is told in words."""
    page = it.enter()
    wee, cat = it.person("wee"), it.person("cat")
    page.until("document.querySelector('#people').textContent.includes('cat')")
    assert "@anna" in names_here(page)
    page.say("/op wee")
    page.say("/voice cat")
    page.until("document.querySelector('#people').textContent.includes('+')", why="the marks don't change")
    assert set(names_here(page)) == {"@anna", "@wee", "+cat"}, names_here(page)
    page.say("/voice wee")
    wee.hear(" +v wee")
    page.say("/deop wee")
    page.until("[...document.querySelectorAll('#people .rank')].filter((it) => it.textContent == '+').length == 2")
    page.say("/devoice cat")
    cat.hear(" -v cat")
    page.until("[...document.querySelectorAll('#people .rank')].filter((it) => it.textContent == '+').length == 1")
    wee.settle()
    told = page.reads("anna made wee an operator")
    return f"{names_here(page)}, and {told!r}"


@trial()
def who_was_kicked_sees_it(it):
    """People and title are gone, and a button leads back."""
    ben = it.person("ben", "#x")
    page = it.enter("anna", "#x")
    page.until("document.querySelector('#people').textContent.includes('ben')")
    ben.send("KICK #x anna :go away")
    page.reads("go away")
    page.until("document.querySelectorAll('#people li').length == 0", 2, "the people are still shown")
    hint = page.js("document.querySelector('#text').placeholder")
    assert "You aren't here" in hint, hint
    page.say("still here?")
    assert page.field() == "still here?", "the text is gone"
    it.shot(page, "kicked")
    page.say("")
    page.click("#lines .bad button")
    page.until("document.querySelector('#people').textContent.includes('ben')")
    return f"{hint!r}, and back by its button"


@trial(1280)
def people_are_no_older_than_the_join(it):
    """Who left while one was out isn't shown after one's own join."""
    ben, vic, dora = it.person("ben", "#x"), it.person("vic", "#x"), it.person("dora", "#x")
    page = it.enter("anna", "#x")
    page.until("document.querySelectorAll('#people li').length == 4")
    ben.send("KICK #x anna :out")
    page.reads("out)")
    vic.send("QUIT")
    ben.hear(" QUIT ")
    dora.send("NICK dora2")
    ben.hear(" NICK ")
    page.say("/join #x")
    page.until("document.querySelector('#people').textContent.includes('dora2')")
    names = sorted(names_here(page))
    assert names == ["@ben", "anna", "dora2"], names
    return str(names)


@trial()
def a_focus_stays(it):
    """A line that comes leaves the focus on a room's button."""
    page = it.enter()
    it.join(page, "#two")
    ben = it.person("ben")
    page.js(f"{room_row('#lobby')}.focus()")
    ben.tell("#lobby", "hello")
    page.until(f"{room_row('#lobby')}.closest('li').className.includes('unread')")
    page.settle()
    here = page.js(f"document.activeElement === {room_row('#lobby')}")
    assert here, f"the focus is on {page.js('document.activeElement.tagName')}"
    page.press("Enter")
    page.until("document.querySelector('#name').textContent == '#lobby'")
    return "on the button of #lobby, and Enter shows it"


@trial()
def a_click_stays(it):
    """A line that comes between the mouse's press and release doesn't lose the click."""
    page = it.enter()
    it.join(page, "#two")
    ben = it.person("ben")
    page.js(f"{room_row('#lobby')}.id = 'wanted'")
    page.mouse("Pressed", "#wanted")
    ben.tell("#lobby", "hello")
    page.until(f"{room_row('#lobby')}.closest('li').className.includes('unread')")
    page.settle()
    page.js(f"{room_row('#lobby')}.id = 'wanted'")
    page.mouse("Released", "#wanted")
    page.until("document.querySelector('#name').textContent == '#lobby'", 2, "the click is lost")
    return "the click shows #lobby"


@trial()
def a_private_room_follows_its_nickname(it):
    """There is one room before and after, and what is typed there arrives."""
    page = it.enter()
    al = it.person("al")
    page.until("document.querySelector('#people').textContent.includes('al')")
    page.say("/msg al hello")
    al.hear(" PRIVMSG ")
    go(page, "al")
    al.tell("anna", "hi yourself")
    page.reads("hi yourself")
    al.send("NICK al[x]")
    page.until(f"!!{room_row('al[x]')}", why="the room has the old name")
    al.tell("anna", "after")
    page.reads("after")
    assert not page.js(room_row("al") + " ? 1 : 0"), "there are two rooms"
    assert page.text("#name") == "al[x]", page.text("#name")
    page.say("found you")
    heard = al.hear("found you")
    page.reads("hi yourself")
    page.say("/query al2")
    al.send("NICK al2")
    page.until(f"!{room_row('al[x]')}", why="al[x] and al2 are two rooms")
    page.reads("found you")
    return f"one room al[x], then one al2, and al heard {heard.split(':', 2)[2]!r}"


@trial()
def an_invitation_in_words(it):
    """An INVITE says what it is, in the room that is shown, and a button takes it."""
    page = it.enter()
    ben = it.person("ben", "#secret")
    ben.send("INVITE anna #secret")
    told = page.reads("invites you to #secret")
    page.click("#lines .note:last-child button")
    page.until("document.querySelector('#name').textContent == '#secret'")
    return told


@trial(1280)
def the_server_says_what_matters(it):
    """002 to 005 don't stand in the server's room; the message of the day does."""
    page = it.enter()
    go(page, "server")
    page.reads("Be kind.")
    text = page.text("#lines")
    noise = [it for it in ("CASEMAPPING", "created", "running", "halld-1") if it in text]
    assert not noise, f"{noise} in {text!r}"
    return " / ".join(text.split("\n"))


@trial()
def mentions_count_in_the_title(it):
    """Who is named sees it in the line, in the room's button and in the title."""
    stub = """window.shown = [];
    window.Notification = class {
      static permission = 'granted';
      static requestPermission() { return Promise.resolve('granted'); }
      constructor(title, { body }) { window.shown.push(`${title}: ${body}`); }
    };"""
    page = it.enter(before=stub)
    it.join(page, "#two")
    page.js("document.querySelector('#notify')?.click()")
    ben = it.person("ben")
    ben.tell("#lobby", "annabel and joanna aren't meant", "ANNA: are you there?")
    page.until("document.title.includes('(1)')", why=f"the title is {page.js('document.title')!r}")
    shown = page.js("window.shown")
    assert shown == ["ben in #lobby: ANNA: are you there?"], shown
    ben.tell("anna", "psst")
    page.until("document.title.startsWith('(2)')")
    tally = page.js(f"{room_row('#lobby')}.querySelector('.tally').textContent")
    go(page, "#lobby")
    page.until("document.title.startsWith('(1)')")
    assert page.js("document.querySelectorAll('#lines .called').length") == 1, "the line isn't marked"
    it.shot(page, "mention")
    go(page, "ben")
    page.until("!document.title.includes('(')")
    return f"{shown[0]!r}, {tally} on the button, (2) in the title, then {page.js('document.title')!r}"


@trial(1280)
def a_sound_where_it_is_wanted(it):
    """The sound is off until it is switched on."""
    stub = """window.tones = 0;
    const gain = { setValueAtTime() {}, exponentialRampToValueAtTime() {} };
    const node = () => ({ connect: (it) => it, frequency: {}, gain, start() { window.tones += 1; }, stop() {} });
    window.AudioContext = class { currentTime = 0; createOscillator = node; createGain = node; };"""
    page = it.enter(before=stub)
    ben = it.person("ben")
    it.join(page, "#two")
    ben.tell("anna", "one")
    page.until("document.title.startsWith('(1)')")
    before = page.js("window.tones")
    page.js("document.querySelector('#sound').click()")
    ben.tell("anna", "two")
    page.until("document.title.startsWith('(2)')")
    assert (before, page.js("window.tones")) == (0, 1), f"{before}, {page.js('window.tones')}"
    return "none, then one"


@trial()
def tab_completes(it):
    """Tab completes nicknames, channels and commands, and else goes on to the button."""
    page = it.enter()
    ben, bea = it.person("ben"), it.person("bea")
    ben.tell("#lobby", "I spoke last")
    page.reads("I spoke last")
    saw = []
    for typed, presses in (("b", 1), ("b", 2), ("hi b", 1), ("/whoi", 1), ("join #lo", 1)):
        page.js("document.querySelector('#text').value = ''")
        page.type(typed)
        for _ in range(presses):
            page.press("Tab")
        saw.append(page.field())
    assert saw == ["ben: ", "bea: ", "hi ben ", "/whois ", "join #lobby "], saw
    page.js("document.querySelector('#text').value = ''")
    page.press("Tab")
    focus = page.js("document.activeElement.textContent")
    assert focus == "Send", f"an empty field's Tab goes to {focus}"
    return str(saw)


@trial(1280)
def arrows_bring_back_what_was_said(it):
    """Arrow up and down go through it, and back to what stood in the field."""
    page = it.enter()
    page.say("first")
    page.say("second")
    page.reads("second")
    page.type("draft")
    saw = []
    for key in ("ArrowUp", "ArrowUp", "ArrowUp", "ArrowDown", "ArrowDown"):
        page.press(key)
        saw.append(page.field())
    assert saw == ["second", "first", "first", "second", "draft"], saw
    return str(saw)


@trial(1280)
def a_room_keeps_its_draft(it):
    """What stands in the field belongs to its room."""
    page = it.enter()
    it.join(page, "#two")
    page.type("for two")
    go(page, "#lobby")
    assert page.field() == "", f"in #lobby stands {page.field()!r}"
    page.press("ArrowDown", 1)
    page.until("document.querySelector('#name').textContent == '#two'")
    assert page.field() == "for two", f"in #two stands {page.field()!r}"
    return "'' in #lobby, 'for two' in #two, which Alt with the arrow shows"


@trial()
def commands_do_what_they_say(it):
    """Each is answered in words."""
    page = it.enter()
    ben, cat = it.person("ben"), it.person("cat")
    ben.send("AWAY :at lunch")
    ben.settle()
    saw = {}
    for typed, answer in (
        ("/whois ben", "ben is away: at lunch"),
        ("/whois nemo", "Nobody is called nemo"),
        ("/names", "On #lobby are @anna"),
        ("/list", "#lobby: 3 people"),
        ("/away tea", "You are away"),
        ("/away", "You are back"),
        ("/topic on hats", "anna set the topic: on hats"),
        ("/topic", "The topic of #lobby is: on hats"),
        ("/ban *!*@example.org", "banned *!*@example.org"),
        ("/ban", "#lobby bans *!*@example.org"),
        ("/unban *!*@example.org", "lifted the ban on"),
        ("/mode +m", "set the mode +m"),
        ("/mode", "#lobby has the mode"),
        ("/invite dan", "Nobody is called dan"),
        ("/kick cat too loud", "cat was kicked by anna (too loud)"),
        ("/invite cat", "You invited cat to #lobby"),
        ("/me waves", "* anna waves"),
        ("/notice #lobby ahem", "ahem"),
        ("/help kick", "/kick NICK"),
    ):
        page.say(typed)
        saw[typed] = page.reads(answer)
    cat.hear(" INVITE ")
    page.say("/query ben and back?")
    page.until("document.querySelector('#name').textContent == 'ben'")
    ben.hear("and back?")
    it.shot(page, "commands")
    return f"{len(saw) + 1} commands, as {saw['/kick cat too loud']!r}"


@trial(1280)
def a_command_used_wrongly(it):
    """A word says how it is used, and what was typed stays."""
    page = it.enter()
    saw = []
    for typed, answer in (
        ("/msg dora", "/msg NAME TEXT"),
        ("/kick", "/kick NICK"),
        ("/frobnicate", "There is no /frobnicate"),
        ("/op", "/op NICK"),
        ("/part #nowhere", "#nowhere"),
    ):
        page.say(typed)
        saw.append(page.reads(answer, "#chat"))
        assert page.field() in (typed, "") and (page.field() == typed or "nowhere" in typed), f"{typed} is gone"
    go(page, "server")
    for typed, answer in (("hello", "Join a channel first"), ("/op ben", "in a channel"), ("/names", "#CHANNEL")):
        page.say(typed)
        saw.append(page.reads(answer, "#chat"))
    return " / ".join(saw[:3])


@trial()
def a_text_that_is_refused(it):
    """One that reaches nobody is marked, with the reason."""
    page = it.enter()
    page.say("/query nemo are you there?")
    told = page.reads("not delivered")
    assert "Nobody is called nemo" in told, told
    ben = it.person("ben", "#quiet")
    ben.send("MODE #quiet +m")
    it.join(page, "#quiet")
    page.say("may I?")
    page.reads("You may not speak in #quiet")
    return told


@trial(1280)
def own_texts_keep_the_servers_order(it):
    """What one says stands once, where everybody sees it; one to oneself once, too."""
    page = it.enter()
    ben = it.person("ben")
    for number in range(10):
        page.say(f"mine {number}")
        ben.tell("#lobby", f"his {number}")
    ben.hear("mine 9")
    page.reads("mine 9")
    page.reads("his 9")
    time.sleep(0.3)
    shown = re.findall(r"mine \d", page.text("#lines"))
    assert shown == [f"mine {number}" for number in range(10)], shown
    page.say("/msg anna note to self")
    go(page, "anna")
    page.reads("note to self")
    time.sleep(0.3)
    count = page.text("#lines").count("note to self")
    assert count == 1, f"a text to oneself is shown {count} times"
    return "ten in order, and one to oneself"


@trial(1280)
def names_are_folded_as_the_server_does(it):
    """#A and #a are one channel, as are [ and {; letters beyond ASCII have no case."""
    page = it.enter()
    it.join(page, "#Ü")
    it.join(page, "#ü")
    ben = it.person("ben", "#Ü")
    ben.tell(octets("#Ü"), "in the great one")
    page.until(f"{room_row('#Ü')}.closest('li').className.includes('unread')")
    al = it.person("a[l")
    al.tell("anna", "one")
    page.until(f"!!{room_row('a[l')}")
    page.say("/query A{L two")
    al.hear("two")
    rooms = page.js("document.querySelectorAll('#rooms li').length")
    assert rooms == 5, page.text("#rooms")
    return f"{rooms} rooms: {page.text('#rooms').split()}"


@trial()
def programs_ask_and_are_answered(it):
    """CTCP: a request is told in words, VERSION is answered, and an action is one."""
    page = it.enter()
    robo = it.person("robo")
    robo.tell("anna", "\x01VERSION\x01")
    answer = robo.hear(" NOTICE ")
    assert "VERSION halld" in answer, answer
    robo.tell("#lobby", "\x01PING 123\x01", "\x01ACTION hums\x01")
    told = page.reads("robo asks for PING")
    page.reads("* robo hums")
    assert "\x01" not in page.js("document.querySelector('#lines').textContent"), "a control character is shown"
    return f"{told!r}, answered by {answer.split(' ', 3)[3]!r}"
