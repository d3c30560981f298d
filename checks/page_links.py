"""What the page does about its connection: coming in, losing it, coming back, logging in, being loaded anew."""
import os
import socket
import time

from page_browser import Page
from page_scene import ACCOUNT, PASSWORD, go, names_here, room_row, trial


@trial()
def comes_in(it):
    """The entrance leads to a channel."""
    ben = it.person("ben")
    page = it.page()
    it.shot(page, "entrance")
    page.click("#entrance > button")
    page.until("document.querySelector('#people').textContent.includes('anna')")
    ben.hear(" JOIN ")
    is_there = page.js("document.querySelector('#entrance').getClientRects().length > 0")
    assert not is_there, "the entrance is still there"
    return f"{', '.join(names_here(page))} on {page.text('#name')}"


@trial(1280)
def opened_as_a_file(it):
    """The page works without a web server."""
    page = it.enter(site=f"file://{os.path.realpath(it.folder)}")
    return f"{page.js('location.protocol')} shows {page.text('#name')}"


@trial(1280)
def nobody_answers(it):
    """No server, and no address, are told in words."""
    page = it.page(server="ws://127.0.0.1:1")
    page.click("#entrance > button")
    told = page.reads("Nobody answers", "#trouble")
    page.js("document.querySelector('#server').value = 'foo bar'")
    page.click("#entrance > button")
    return f"{told} {page.reads('no address', '#trouble')}"


@trial()
def text_typed_while_the_server_is_down(it):
    """It is shown as one that waits, and comes once when the server is back."""
    page = it.enter()
    it.stop()
    page.reads("The connection")
    page.say("kept over a restart")
    page.settle()
    is_kept = page.has("kept over a restart") or "kept over a restart" in page.field()
    assert is_kept, "the text is gone"
    assert page.has("waits for the connection"), "the text isn't said to wait"
    it.shot(page, "down")
    page.js("clearTimeout(retryTimer)")
    it.start()
    ben = it.person("ben")
    page.click("#again")
    line = ben.hear(" PRIVMSG ")
    assert "kept over a restart" in line, line
    page.until("!document.querySelector('#lines').innerText.includes('waits')")
    ben.settle()
    page.reads("kept over a restart")
    count = page.text("#lines").count("kept over a restart")
    assert count == 1, f"it is shown {count} times"
    return f"shown as waiting, then ben heard {line.split(' ', 1)[1]!r}"


@trial()
def text_to_a_server_that_hangs(it):
    """A text that was sent and never answered is doubted, and can be sent again."""
    page = it.enter()
    os.kill(it.server.process.pid, 19)
    page.say("into the silence")
    page.reads("on its way")
    it.stop()
    page.reads("perhaps not delivered")
    it.shot(page, "doubted")
    it.start()
    ben = it.person("ben")
    page.until("!document.querySelector('#status') || document.querySelector('#status').hidden")
    page.click("#lines .unsure button")
    line = ben.hear(" PRIVMSG ")
    page.until("!document.querySelector('#lines').innerText.includes('perhaps')")
    return f"doubted, sent again, and ben heard {line.split(':', 2)[2]!r}"


@trial()
def comes_back_by_itself(it):
    """After a restart of the server the page is on its channels again, under its nickname."""
    page = it.enter()
    it.join(page, "#two")
    it.stop()
    page.reads("The connection")
    began, told = time.monotonic(), page.text("#status")
    it.start()
    ben = it.person("ben", "#lobby", "#two")
    page.until("document.querySelector('#people').textContent.includes('ben')", why="it doesn't come back")
    took = time.monotonic() - began
    page.say("back")
    heard = ben.hear(" PRIVMSG ")
    assert page.text("#name") == "#two", page.text("#name")
    assert heard.startswith(":anna!") and "#two" in heard, heard
    assert "Not connected" in told, f"while it was lost the page said {told!r}"
    return f"{told.splitlines()[0]!r}, back on #two after {took:.1f} s as anna"


@trial(1280)
def a_channel_that_stays_shut(it):
    """A channel that can't be joined again is told, and what waits for it is told not to be delivered."""
    ben = it.person("ben", "#x")
    page = it.enter("anna", "#x")
    ben.send("MODE #x +i")
    page.reads("set the mode +i")
    page.js("link.socket.close()")
    page.reads("The connection has ended")
    page.js("clearTimeout(retryTimer)")
    page.say("do you hear me?")
    page.reads("waits for the connection")
    page.click("#again")
    told = page.reads("takes invited people only")
    page.reads("not delivered: you aren't on #x")
    ben.settle()
    return told


@trial(1280)
def pauses_grow(it):
    """The tries to connect again come ever later."""
    page = it.enter()
    it.stop()
    door = socket.create_server(("127.0.0.1", it.ws))
    door.settimeout(12)
    moments = []
    for _ in range(4):
        other, _ = door.accept()
        other.close()
        moments.append(time.monotonic())
    door.close()
    pauses = [later - earlier for earlier, later in zip(moments, moments[1:])]
    assert pauses[0] < pauses[1] < pauses[2], f"{pauses}"
    page.click("#again")
    page.reads("tries again", "#status")
    return "pauses of " + ", ".join(f"{pause:.1f}" for pause in pauses) + " s"


@trial()
def a_reload_keeps_all(it):
    """Nickname, rooms, what was said, and what stands in the field."""
    page = it.enter()
    it.join(page, "#two")
    ben = it.person("ben", "#two")
    ben.tell("#two", "said before")
    page.reads("said before")
    page.type("half a sen")
    page.reload()
    page.until("document.querySelector('#people').textContent.includes('ben')", why="the page isn't back on #two")
    names, rooms = names_here(page), page.text("#rooms")
    assert page.text("#name") == "#two" and "@anna" in names or "anna" in names, f"{page.text('#name')} {names}"
    assert "#lobby" in rooms, rooms
    page.reads("said before")
    assert page.field() == "half a sen", f"the field has {page.field()!r}"
    go(page, "#lobby")
    page.until("document.querySelector('#people').textContent.includes('anna')", why="the page isn't back on #lobby")
    return f"{names} on #two, what was said and {'half a sen'!r}"


@trial(1280)
def another_tab_begins_anew(it):
    """What one tab keeps is no other's."""
    page = it.enter()
    other = Page(it.browser, it.width, beside=page)
    other.load(it.address("anna"))
    time.sleep(0.5)
    is_in, has_nick = not other.is_seen("#entrance"), other.js("document.querySelector('#nick').value") == "anna"
    other.ask("Page.close")
    assert has_nick and not is_in, "the other tab is in"
    return "the entrance"


@trial(1280)
def quitting_is_for_good(it):
    """After /quit the page is at its entrance, and stays there when it is loaded anew."""
    page = it.enter()
    ben = it.person("ben")
    page.say("/quit good night")
    told = ben.hear(" QUIT ")
    page.until("document.querySelector('#chat').hidden", why="the chat is still there")
    page.reload()
    time.sleep(0.3)
    assert page.is_seen("#entrance"), "the page came back by itself"
    return told.split(" ", 1)[1]


@trial()
def a_bad_nickname(it):
    """Which letters may be is told at the entrance, and another nickname can be chosen."""
    page = it.page("Jürgen")
    page.click("#entrance > button")
    time.sleep(0.5)
    assert page.is_seen("#nick"), "there is no way to choose another"
    told = page.reads("letters A to Z", "#trouble")
    it.shot(page, "bad-nickname")
    page.js("document.querySelector('#nick').value = 'juergen'")
    page.click("#entrance > button")
    page.until("document.querySelector('#people').textContent.includes('juergen')")
    page.say("/nick 1abc")
    assert "1abc" in page.reads("can't be a nickname", "#chat")
    return told


@trial(1280)
def a_nickname_that_the_server_refuses(it):
    """The server's own refusal leads back to the entrance, too."""
    page = it.page("anna", before="window.isLax = true")
    page.js("typeof isNickname == 'function' && 0")
    page.js("nickLength = 99")
    page.js("document.querySelector('#nick').value = 'a'.repeat(31)")
    page.click("#entrance > button")
    told = page.reads("can't be a nickname", "#trouble")
    assert page.is_seen("#nick"), "there is no way to choose another"
    return told[:60]


@trial()
def a_nickname_in_use(it):
    """That one is somebody else is told."""
    it.person("anna", "#other")
    page = it.enter("anna")
    told = page.reads("is in use")
    assert "anna_" in told, told
    return told


@trial(1280)
def the_own_nickname_is_taken_back(it):
    """After a lost connection the old session may hold the nickname for a while."""
    page = it.enter()
    it.stop()
    page.reads("The connection")
    page.js("clearTimeout(retryTimer)")
    it.start()
    anna = it.person("anna")
    page.click("#again")
    page.reads("is in use")
    anna.send("QUIT")
    page.reads("You are now anna")
    return page.text("#self")


@trial()
def logs_in(it):
    """SASL PLAIN, and no password is kept."""
    page = it.page()
    page.click("#login summary")
    it.shot(page, "login")
    page.type(ACCOUNT, "#account")
    page.type(PASSWORD, "#password")
    page.click("#entrance > button")
    page.until("document.querySelector('#people').textContent.includes('anna')")
    told = page.js("document.querySelector('#self').textContent")
    assert "logged in as anna" in told, told
    kept = page.js("JSON.stringify({ ...sessionStorage, ...localStorage }) + location.href + document.cookie")
    kept += page.js("[...document.querySelectorAll('input')].map((it) => it.value).join()")
    kept += page.js("JSON.stringify([link, wish])")
    assert "se%cret" not in kept, "the password is kept"
    page.reload()
    page.reads("/login asks for it")
    page.say("/login")
    page.until("document.querySelector('#asking').open")
    it.shot(page, "login-again")
    page.type(PASSWORD, "#againPassword")
    page.press("Enter")
    return f"{told}; after a reload {page.reads('You are logged in as')!r}"


@trial(1280)
def where_a_password_goes(it):
    """A link may name any server, so the page says to which a password is sent, and how."""
    page = it.page(server="ws://chat.example.org/irc")
    page.click("#login summary")
    open_way = page.text("#where")
    page.js("document.querySelector('#server').select()")
    page.type("wss://chat.example.org/irc", "#server")
    safe_way = page.text("#where")
    assert "chat.example.org, where others" in open_way and "others" not in safe_way, (open_way, safe_way)
    page.type(ACCOUNT, "#account")
    page.click("#entrance > button")
    return f"{open_way} {page.reads('needs its password', '#trouble')}"


@trial(1280)
def a_wrong_password(it):
    """It is told at the entrance."""
    page = it.page()
    page.js("document.querySelector('#login').open = true")
    page.type(ACCOUNT, "#account")
    page.type("wrong", "#password")
    page.click("#entrance > button")
    told = page.reads("wrong", "#trouble")
    assert page.js("document.querySelector('#password').value") == "", "the field keeps it"
    return told


@trial(1280)
def a_silent_server_is_left(it):
    """A connection on which nothing comes any more is given up."""
    page = it.enter()
    page.js("link.heardAt -= 80_000")
    os.kill(it.server.process.pid, 19)
    page.until("link && link.askedAt > 0", why="the server isn't asked")
    page.js("link.askedAt -= 31_000")
    told = page.reads("The server is silent")
    os.kill(it.server.process.pid, 18)
    page.until("document.querySelector('#status').hidden", 15)
    return told
