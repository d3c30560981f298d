"""How the page looks: colours, formats, links, a phone, and what a reader of screens is told."""
import json

from page_browser import SIZES
from page_scene import go, names_here, room_row, trial

# The texts that are seen, each with its contrast to what is behind it, by WCAG 2: the worst first.
CONTRASTS = """(() => {
  const canvas = document.createElement('canvas').getContext('2d', { willReadFrequently: true });
  const rgba = (colour) => {
    canvas.clearRect(0, 0, 1, 1);
    canvas.fillStyle = colour;
    canvas.fillRect(0, 0, 1, 1);
    return [...canvas.getImageData(0, 0, 1, 1).data];
  };
  const part = (value) => (value /= 255) <= 0.04045 ? value / 12.92 : ((value + 0.055) / 1.055) ** 2.4;
  const light = ([r, g, b]) => 0.2126 * part(r) + 0.7152 * part(g) + 0.0722 * part(b);
  const behind = (it) => {
    const found = it ? rgba(getComputedStyle(it).backgroundColor) : [255, 255, 255, 255];
    return found[3] === 255 ? found : behind(it.parentElement);
  };
  const found = [];
  const texts = document.createTreeWalker(document.body, NodeFilter.SHOW_TEXT);
  for (let text = texts.nextNode(); text; text = texts.nextNode()) {
    const it = text.parentElement, style = getComputedStyle(it);
    const isSeen = it.getClientRects().length && style.visibility === 'visible' && !it.closest('.unseen, script');
    if (!text.data.trim() || !isSeen) continue;
    const [one, other] = [light(rgba(style.color)), light(behind(it))].sort((a, b) => b - a);
    found.push({ contrast: (one + 0.05) / (other + 0.05), text: text.data.trim().slice(0, 30) });
  }
  return found.sort((a, b) => a.contrast - b.contrast);
})()"""


def talk(it, page):
    """Has the page show a talk with a line of each kind, and three more rooms. Answers who talks."""
    ben, robo = it.person("ben", "#lobby", "#plans"), it.person("robo", "#lobby")
    page.reads("robo joined")
    it.join(page, "#garden")
    go(page, "#lobby")
    page.say("/topic Notes of the week: https://example.org/notes")
    page.say("/voice robo")
    ben.hear(" +v robo")
    ben.tell("#lobby", "Good morning! The plan stands at https://example.org/plan (the second page is new).")
    ben.tell("#lobby", "anna: shall we begin?")
    page.reads("shall we begin")
    page.say("Yes, I have read it. Two questions first.")
    ben.hear("Two questions")
    ben.tell("#lobby", "\x01ACTION puts the kettle on\x01")
    ben.settle()
    robo.send("NOTICE #lobby :Build 7 is \x0303green\x03, \x02412\x02 tests passed.", "JOIN #garden")
    robo.tell("#garden", "12 mm of rain")
    robo.settle()
    looks = "\x02bold\x02, \x1ditalic\x1d, \x1funderlined\x1f, \x0304red\x03, \x033,8green on yellow\x03 and "
    ben.tell("#lobby", looks + "\x11code\x11")
    ben.send("INVITE anna #plans")
    ben.tell("anna", "I'll bring the figures.")
    ben.settle()
    page.reads("invites you")
    page.until(f"!!{room_row('ben')}")
    return ben, robo


def fits(page):
    """Sees that the page has no more than the screen shows, nor the lines more than their place."""
    wide, high, lines = page.js("""(() => {
        const [all, lines] = [document.scrollingElement, document.querySelector('#lines')];
        return [all.scrollWidth, all.scrollHeight, lines.scrollWidth - lines.clientWidth];
    })()""")
    assert (wide, high) == (page.width, SIZES[page.width]), f"the page is {wide} px wide and {high} px high"
    assert lines <= 0, f"the lines are wider than their place by {lines} px"
    return f"the page is {wide} px wide and {high} px high"


@trial()
def contrasts(it):
    """Each text and name stands at 4.5:1 or better, in both schemes."""
    page = it.enter()
    talk(it, page)
    it.shot(page, "talk")
    page.scheme("dark")
    it.shot(page, "talk-dark")
    page.js("for (let n = 0; n < 700; n += 1) hear(`:name${n}!u@h JOIN #lobby`)")
    page.js("for (let n = 0; n < 99; n += 1) hear(`:ben!u@h PRIVMSG #lobby :\\x03${n}colour ${n}`)")
    page.js("for (let n = 0; n < 99; n += 1) hear(`:ben!u@h PRIVMSG #lobby :\\x03${n},${98 - n}colours ${n}`)")
    page.js("for (let n = 0; n < 99; n += 1) hear(`:name${n}!u@h PRIVMSG #lobby :anna, what about ${n}?`)")
    page.reads("what about 98")
    fits(page)
    page.say("/frobnicate")
    if it.is_phone:
        page.js("document.querySelector('#who')?.click()")
    saw = []
    for scheme in ("light", "dark"):
        page.scheme(scheme)
        found = page.js(CONTRASTS)
        assert len(found) > 700, f"only {len(found)} texts"
        low = [it for it in found if it["contrast"] < 4.5]
        assert not low, f"{scheme}: {found[0]}, of {len(low)} such"
        saw.append(f"{scheme}: {len(found)} texts, the worst at {found[0]['contrast']:.2f} ({found[0]['text']})")
    return "; ".join(saw)


@trial()
def codes_are_shown(it):
    """Bold, colours and the like are seen, and no box is; a lone control character has a name."""
    page = it.enter()
    ben, _ = talk(it, page)
    ben.tell("#lobby", "bell \x07 here", "\x03,5x", "\x0f\x0f plain")
    page.reads("plain")
    looks = page.js("""(() => { const all = [...document.querySelectorAll('#lines span')];
        const own = (text) => all.findLast((it) => it.textContent == text && !it.children.length);
        const of = (text) => getComputedStyle(own(text) ?? document.body);
        return [of('bold').fontWeight, of('italic').fontStyle, of('underlined').textDecorationLine, of('red').color,
                of('green on yellow').backgroundColor, of('code').fontFamily]; })()""")
    assert looks[:3] == ["700", "italic", "underline"], looks
    assert "oklch" in looks[3] and "oklch" in looks[4] and "mono" in looks[5], looks
    shown = page.js("document.querySelector('#lines').textContent")
    boxes = [f"{ord(letter):02x}" for letter in shown if ord(letter) < 32 and letter != "\n"]
    assert not boxes, f"the characters {boxes} are shown"
    assert "bell ^G here" in shown
    return f"{looks[:4]}, and 'bell ^G here'"


@trial()
def a_notice_looks_like_one(it):
    """It can be told from a text."""
    page = it.enter()
    robo = it.person("robo")
    robo.send("NOTICE #lobby :same words", "PRIVMSG #lobby :same words", "NOTICE anna :for you")
    robo.settle()
    page.until("document.querySelectorAll('#lines > *').length >= 3")
    page.until("document.querySelector('#lines').textContent.split('same words').length == 3")
    texts = "[...document.querySelectorAll('#lines > *')].map((it) => it.innerText.replace(/\\s+/g, ' '))"
    kinds = page.js(f"{texts}.filter((it) => it.includes('same words'))")
    assert kinds[0] != kinds[1] and "notice" in kinds[0], f"{kinds}"
    return str(kinds)


@trial(1280)
def links_are_safe(it):
    """Addresses of http and https can be clicked, and lead nowhere else."""
    page = it.enter()
    ben = it.person("ben")
    ben.tell(
        "#lobby",
        "see https://example.org/a_(b)?x=1&y=2, or (http://example.org/c).",
        "not javascript:alert(1) ftp://x.example data:text/html,x",
        'https://example.org/"><img src=x onerror=alert(1)>',
        "no address: https://%zz",
    )
    page.reads("no address")
    found = page.js("[...document.querySelectorAll('#lines a')].map((it) => [it.href, it.rel, it.target])")
    expected = ["https://example.org/a_(b)?x=1&y=2", "http://example.org/c", "https://example.org/"]
    assert [it[0] for it in found] == expected, found
    assert all("noopener" in it[1] and it[2] == "_blank" for it in found), found
    assert page.js("document.querySelectorAll('#lines img').length") == 0
    return str([it[0] for it in found])


@trial()
def long_words_wrap(it):
    """Nothing makes the page wider than the window."""
    page = it.enter()
    ben = it.person("ben")
    ben.tell("#lobby", "w" * 380, "https://example.org/" + "x" * 300)
    ben.send("NICK " + "W" * 30)
    page.say("/topic " + "T" * 250)
    page.reads("T" * 20, "#topic")
    page.reads("is now WWW")
    return fits(page)


@trial(390)
def many_rooms_on_a_phone(it):
    """With nine rooms the bar stays one row, the room that is shown is in sight, the field too."""
    page = it.enter("a-nickname-of-thirty-letters__")
    it.shot(page, "phone-one-room")
    before = page.box("nav")["height"]
    for number in range(8):
        it.join(page, f"#channel-{number}", "a-nickname-of-thirty-letters__")
    after = page.box("nav")["height"]
    it.shot(page, "phone-many-rooms")
    assert after == before and after < 70, f"the bar grew from {before} to {after} px"
    page.js(f"{room_row('#channel-7')}.id = 'wanted'")
    assert page.is_seen("#wanted"), "the room that is shown isn't in sight"
    assert page.is_seen("#text") and page.is_seen("#say button"), "the field isn't in sight"
    for _ in range(8):
        page.press("ArrowUp", 1)
    page.until("document.querySelector('#name').textContent == '#lobby'", why="Alt with the arrow doesn't step")
    page.press("ArrowUp", 1)
    page.js(f"{room_row('server')}.id = 'first'")
    assert page.is_seen("#first"), "the first room isn't in sight when it is shown"
    rows = page.js("[...document.querySelectorAll('#rooms button')].map((it) => it.getBoundingClientRect().height)")
    assert max(rows) < 50, f"a button is {max(rows)} px high"
    return f"the bar is {after:.0f} px high, {fits(page)}"


@trial(390)
def unread_rooms_out_of_sight(it):
    """On a phone a button leads to the rooms with unread texts, first to the one that calls."""
    page = it.enter()
    for number in range(6):
        it.join(page, f"#channel-{number}")
    ben = it.person("ben", "#lobby", "#channel-0", "#channel-1")
    ben.tell("#channel-0", "one")
    ben.tell("#channel-1", "anna: two")
    page.until("document.title.includes('(1)')")
    page.until("document.querySelector('#next')?.textContent == '2'", why="nothing tells of two rooms")
    page.settle()
    page.js(f"{room_row('#channel-5')}.id = 'wanted'")
    right, left = page.box("#wanted"), page.box("#next")
    assert right["x"] + right["width"] <= left["x"] + 1, "the button hides the room that is shown"
    it.shot(page, "phone-unread")
    saw = []
    for _ in range(2):
        page.click("#next")
        page.settle()
        saw.append(page.text("#name"))
    assert saw == ["#channel-1", "#channel-0"], saw
    assert not page.is_seen("#next"), "the button is still there"
    return " then ".join(saw)


@trial(390)
def people_on_a_phone(it):
    """A button shows who is there, and Escape closes it."""
    it.person("ben")
    page = it.enter()
    assert not page.is_seen("#people"), "the people are shown over the talk"
    assert page.is_seen("#who"), "there is no button that shows who is there"
    told = page.text("#who")
    page.click("#who")
    page.until("getComputedStyle(document.querySelector('#side')).visibility == 'visible'")
    assert page.is_seen("#people li:first-child button"), "nobody is in sight"
    it.shot(page, "phone-people")
    names = names_here(page)
    page.press("Escape")
    page.until("getComputedStyle(document.querySelector('#side')).visibility == 'hidden'")
    assert page.js("document.activeElement.id") == "who", "the focus is lost"
    page.click("#who")
    page.click("#people li:last-child button")
    page.until("document.querySelector('#name').textContent == 'anna'")
    return f"{told!r} shows {names}"


@trial(390)
def as_high_as_what_is_seen(it):
    """The page is as high as the window without a browser's bars."""
    page = it.enter()
    rules = "[...document.styleSheets].flatMap((it) => [...it.cssRules]).map((it) => it.cssText).join('')"
    css = page.js(f"{rules}.match(/#chat {{[^}}]*}}/)[0]")
    assert "100dvh" in css, css
    return f"{page.box('#chat')['height']:.0f} px by 100dvh"


@trial()
def landmarks_and_roles(it):
    """The log is one, each landmark has a name, the room that is shown is told, times have dates."""
    page = it.enter()
    it.join(page, "#two")
    ben = it.person("ben")
    ben.tell("#lobby", "hello", "anna: you")
    page.until(f"{room_row('#lobby')}.closest('li').className.includes('unread')")
    page.settle()
    tree = page.ask("Accessibility.getFullAXTree")["nodes"]
    found = [(it["role"]["value"], it.get("name", {}).get("value", "")) for it in tree if not it["ignored"]]
    roles = {role: name for role, name in found}
    for role in ("log", "navigation", "main"):
        assert roles.get(role), f"{role}: {roles.get(role)!r}"
    assert it.is_phone or roles.get("complementary"), "the people have no name"
    buttons = [name for role, name in found if role == "button"]
    assert any("#lobby" in it and "unread" in it for it in buttons), f"{buttons}"
    now = page.js("[...document.querySelectorAll('#rooms [aria-current]')].map((it) => it.textContent)")
    assert now == ["#two"], f"aria-current is on {now}"
    time = page.js("document.querySelector('#lines .entry time').dateTime")
    assert time.startswith("20") and "T" in time, time
    unnamed = [role for role, name in found if role in ("button", "textbox", "checkbox", "link") and not name]
    assert not unnamed, f"without a name: {unnamed}"
    lobby = [it for it in buttons if "#lobby" in it][0]
    return f"{roles['log']}, {roles['navigation']}, {roles['main']}; {lobby!r}; {time}"


@trial()
def a_line_at_midnight(it):
    """Between two days stands the date."""
    page = it.enter()
    for moment, text in (("2026-03-01T12:00:00.000Z", "on the first"), ("2026-03-02T12:00:00.000Z", "on the second"),
                         ("2026-03-02T12:01:00.000Z", "also then")):
        page.js("hear(" + json.dumps(f"@time={moment} :ben!b@h PRIVMSG #lobby :{text}") + ")")
    page.reads("also then")
    shown = page.text("#lines").split("\n")
    days = [line for line in shown if "March 2026" in line]
    second = [line for line in shown if "on the second" in line]
    assert len(days) == 2 and shown.index(days[1]) < shown.index(second[0]), shown
    return str(days)


@trial(1280)
def all_by_keys(it):
    """Tab reaches each control, and a room is shown by Enter."""
    page = it.page()
    page.js("document.querySelector('#nick').focus()")
    page.press("Enter")
    page.until("document.querySelector('#people').textContent.includes('anna')")
    it.join(page, "#two")
    seen = []
    for _ in range(16):
        page.press("Tab")
        seen.append(page.js("document.activeElement.id || document.activeElement.textContent"))
    for wanted in ("#lobby", "more", "leave", "lines", "text", "notify", "sound"):
        assert any(wanted in it for it in seen), f"{wanted} isn't among {seen}"
    page.js(f"{room_row('#lobby')}.focus()")
    page.press(" ")
    page.until("document.querySelector('#name').textContent == '#lobby'")
    assert page.js("document.activeElement.id") == "text"
    return " > ".join(it for it in seen if len(it) < 20)
