"""What a trial of the page has: a server, people by TCP, and tabs."""
import contextlib
import hashlib
import os
import tempfile
import urllib.parse

from page_browser import Frozen, Page
from served import Client, Server

TRIALS = []

# The one account, and its password.
ACCOUNT, PASSWORD = "anna", "se%cret\\ü"


def trial(*widths):
    """Marks a trial, which is run at these widths, or at both."""

    def mark(function):
        function.widths = widths or (1280, 390)
        TRIALS.append(function)
        return function

    return mark


def octets(text):
    """A text as the lines of `served` have it: an octet a letter."""
    return text.encode().decode("latin-1")


class Person(Client):
    """Somebody by TCP, on these channels."""

    def __init__(self, server, name, *channels):
        super().__init__(server)
        self.name = name
        self.send(f"NICK {name}", f"USER {name} 0 * :{name}")
        self.hear(f" 376 {name} ")
        for channel in channels:
            self.send(f"JOIN {octets(channel)}")
            self.hear(" 366 ")

    def tell(self, target, *said):
        self.send(*(f"PRIVMSG {target} :{octets(text)}" for text in said))

    def settle(self):
        """Waits until the server has done all that was sent."""
        self.send("PING settled")
        self.hear(" PONG ")

    def heard(self, part):
        return self.hear(octets(part)).encode("latin-1").decode(errors="replace")


class Scene:
    def __init__(self, browser, width, program, folder, site, shots):
        self.browser, self.width, self.program = browser, width, program
        self.folder, self.site, self.shots = folder, site, shots
        self.pages, self.people = [], []
        self.files = tempfile.TemporaryDirectory(prefix="page-")
        with open(f"{self.files.name}/accounts", "w", encoding="utf-8") as it:
            it.write(f"{ACCOUNT} x7 {hashlib.sha256(('x7' + PASSWORD).encode()).hexdigest()}\n")
        with open(f"{self.files.name}/motd", "w", encoding="utf-8") as it:
            it.write("Be kind.\n")
        self.options = ["--sendq", "4096", "--accounts", f"{self.files.name}/accounts"]
        self.options += ["--motd", f"{self.files.name}/motd"]
        self.server = Server(program, *self.options, has_web=True)
        self.ws = self.server.ws

    @property
    def is_phone(self):
        return self.width < 700

    def stop(self):
        self.server.kill()
        for person in self.people:
            person.close()
        self.people = []

    def start(self):
        """Starts the server anew, where its WebSocket was."""
        self.server = Server(self.program, *self.options, "--ws", f"127.0.0.1:{self.ws}")
        self.server.ws = self.ws

    def person(self, name, *channels):
        self.people.append(Person(self.server, name, *(channels or ("#lobby",))))
        return self.people[-1]

    def address(self, nick, channel="#lobby", server=None, site=None):
        words = {"nick": nick, "channel": channel, "server": server or f"ws://127.0.0.1:{self.ws}"}
        return f"{site or self.site}/index.html?{urllib.parse.urlencode(words)}"

    def page(self, nick="anna", channel="#lobby", before="", **where):
        """A tab at the entrance."""
        page = Page(self.browser, self.width, before)
        self.pages.append(page)
        page.load(self.address(nick, channel, **where))
        return page

    def enter(self, nick="anna", channel="#lobby", before="", **where):
        """A tab that has joined a channel."""
        page = self.page(nick, channel, before, **where)
        page.js("document.querySelector('#entrance').requestSubmit()")
        page.until(f"document.querySelector('#people').textContent.includes({nick!r})", why=f"{nick} didn't come in")
        return page

    def join(self, page, channel, nick="anna"):
        page.say(f"/join {channel}")
        here = f"document.querySelector('#people').textContent.includes({nick!r})"
        page.until(f"document.querySelector('#name').textContent == {channel!r} && {here}")

    def shot(self, page, name):
        if self.shots:
            page.picture(f"{self.shots}/{name}-{self.width}.png")

    def close(self, is_frozen=False):
        """Ends all, and answers whether the browser can be used on."""
        for page in self.pages if not is_frozen else []:
            try:
                page.close()
            except (AssertionError, Frozen, OSError):
                is_frozen = True
        for person in self.people:
            with contextlib.suppress(OSError):
                person.close()
        self.server.kill()
        self.files.cleanup()
        return not is_frozen


def room_row(name):
    """Finds a room's button, as an expression."""
    own = "it.querySelector('.title')?.textContent ?? it.textContent"
    return f"[...document.querySelectorAll('#rooms button')].find((it) => ({own}) == {name!r})"


def go(page, name):
    """Shows a room by its button, once there is one."""
    page.until(f"!!{room_row(name)}", why=f"there is no button of {name}")
    page.js(f"{room_row(name)}.click()")


def names_here(page):
    """The people that are shown, each with the rank."""
    rows = "[...document.querySelectorAll('#people li')]"
    own = "(it.querySelector('.rank')?.textContent ?? '') + it.lastElementChild.textContent"
    return page.js(f"{rows}.map((it) => {own})")

