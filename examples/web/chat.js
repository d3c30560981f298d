// A small IRC client over WebSocket: a message is a line (https://ircv3.net/specs/extensions/websocket).
"use strict";

// ---- What is known ----

const LINES = 1000; // that a room keeps
const SAVED = 200; // of them that a reload keeps
const A_FRAME = 200; // lines that are shown at a time, so that many don't hold the tab
const PAUSES = [1, 2, 4, 8, 16, 32, 60]; // seconds before each try to connect again
const SILENCE = 45_000; // milliseconds after which the server is asked whether it is there: before proxies give up
const PATIENCE = 30_000; // milliseconds that its answer, or its welcome, may take
const OCTETS = 340; // of a text in one line, which has 510 with the sender's name and the channel's

const at = (id) => document.getElementById(id);
const rooms = new Map(); // by folded name, "" for the server's own
const texts = new Map(); // by label: what was said and isn't answered yet
let current = ""; // the folded name of the room that is shown
let nick = "";
let nickLength = 30;
let wish = null; // { server, nick, account, channels } while the user wants to be connected
let link = null; // the connection, where there is one
let tries = 0; // to connect again, since the last connection that lasted
let retryAt = 0; // when the next is
let retryTimer = 0;
let isLeaving = false; // the page is about to be loaded anew, or closed
let labels = 0; // given so far

function newLink(socket, password) {
  return {
    socket,
    password,
    isOpen: false,
    isRegistered: false,
    offered: [],
    caps: new Set(),
    batches: new Map(), // by their names: the label that each answers
    welcomedAt: 0,
    heardAt: Date.now(),
    askedAt: 0,
    nickTries: 0,
    isBack: isEntered(), // it takes the place of one that was lost
    account: "", // that it is logged in to
    askedNames: new Set(), // channels whose names the page asks for itself
    names: new Map(), // by channel: the people of an answer to NAMES that isn't whole yet
    news: [], // for the first room that is entered
    end: "", // why the server ended it
  };
}

const isOnline = () => Boolean(link && link.isRegistered);
const hasLabels = () => ["labeled-response", "batch", "echo-message"].every((it) => link.caps.has(it));

// ---- Names ----

// RFC 1459's letters: A to Z, and in names {|}^ are []\~ in another case. Other letters have no case.
function fold(name) {
  const lower = (letter) => String.fromCharCode(letter.charCodeAt(0) + 32);
  return name.replace(/[A-Z[\\\]]/g, lower).replaceAll("~", "^");
}

const isSame = (one, other) => fold(one) === fold(other);
const isMe = (name) => isSame(name, nick);
const isChannel = (name) => /^[#&]/.test(name);
const asChannel = (name) => (isChannel(name) ? name : `#${name}`);
const isNickname = (name) => /^[A-Za-z[\]\\`_^{|}][A-Za-z0-9[\]\\`_^{|}-]*$/.test(name) && name.length <= nickLength;

function nickFault(name) {
  const letters = "letters A to Z, digits and - _ [ ] { } \\ | ^ `; the first is no digit and no “-”";
  return `“${name}” can't be a nickname. It has 1 to ${nickLength} of these: ${letters}.`;
}

// ---- Lines ----

function parse(line) {
  const [, tagged = "", source = "", rest] = /^(?:@(\S*) +)?(?::(\S*) +)?(.*)$/s.exec(line);
  const [, front, last] = /^(.*?)(?: :(.*))?$/s.exec(rest);
  const words = front.split(" ").filter((it) => it);
  const tags = new Map(tagged.split(";").map((it) => it.split(/=(.*)/s, 2)));
  const time = new Date(tags.get("time") || Date.now());
  return {
    source,
    nick: source.split("!")[0],
    command: words[0] || "",
    parameters: words.slice(1).concat(last === undefined ? [] : [last]),
    time: isNaN(time) ? new Date() : time,
    label: tags.get("label"),
    batch: tags.get("batch"),
  };
}

function send(...words) {
  link.socket.send(words.join(" ").replace(/[\r\n\0]/g, " "));
}

// A text in parts that fit into a line each.
function parts(text) {
  const found = [];
  let part = "";
  let size = 0;
  for (const letter of text) {
    const octets = new TextEncoder().encode(letter).length;
    if (size + octets > OCTETS) {
      found.push(part);
      part = "";
      size = 0;
    }
    part += letter;
    size += octets;
  }
  return [...found, part];
}

// ---- Rooms: a channel's, a person's, and the server's own ----

let roomsMade = 0;

function roomOf(name) {
  const key = fold(name);
  if (!rooms.has(key)) rooms.set(key, newRoom(name));
  return rooms.get(key);
}

function newRoom(name) {
  return {
    id: ++roomsMade,
    name,
    topic: "",
    people: new Map(), // by folded nickname: { name, rank, spoke }
    lines: [],
    unread: 0,
    called: 0, // texts of these that name the user, or are for nobody else
    draft: "",
    away: "", // what was told of it
    isOn: false, // the user is on the channel
    isComing: false, // and is to be, after a connection was lost
    isTold: false, // who is there
  };
}

const currentRoom = () => roomOf(rooms.has(current) ? current : "");
const currentName = () => currentRoom().name;

// The room that a line is about, or the one that is shown.
const placeOf = (name) => (name && rooms.has(fold(name)) ? roomOf(name).name : currentName());

function say(name, line) {
  const room = roomOf(name);
  line.time = line.time || new Date();
  room.lines.push(line);
  if (room.lines.length > LINES) room.lines.shift();
  if (room === rooms.get(current)) unpainted.push(line);
  if (unpainted.length > 2 * LINES) unpainted = unpainted.slice(-LINES);
  paintSoon();
  return line;
}

const note = (name, text, time, action) => say(name, { kind: "note", text, time, action });
const fault = (name, text, time, action) => say(name, { kind: "note bad", text, time, action });

function show(name) {
  const field = at("text");
  if (rooms.has(current)) currentRoom().draft = field.value;
  current = fold(name);
  const room = roomOf(name);
  field.value = room.draft;
  hint("");
  completing = null;
  saidAt = said.length;
  isFollowing = true;
  unpainted = [...room.lines];
  elements = new WeakMap();
  lastDay = dayOf(new Date());
  at("lines").replaceChildren();
  seen();
  closePeople();
  paint();
  if (!matchMedia("(pointer: coarse)").matches) field.focus();
}

function removeRoom(name) {
  const [isShown, all] = [fold(name) === current, [...rooms.keys()]];
  const next = all[all.indexOf(fold(name)) - 1] || all[all.indexOf(fold(name)) + 1] || "";
  for (const [label, text] of [...texts]) if (text.room === roomOf(name)) texts.delete(label);
  rooms.delete(fold(name));
  if (isShown) show(rooms.has(next) ? roomOf(next).name : "");
  save();
  paintSoon();
}

// A private room goes on under the other's new nickname. Where that has one already, it gets the lines.
function renameRoom(from, to) {
  const room = rooms.get(fold(from));
  if (!room) return;
  const wasShown = current === fold(from);
  const other = rooms.get(fold(to));
  const isOther = other && other !== room;
  if (isOther) room.lines = [...other.lines, ...room.lines].sort((a, b) => a.time - b.time).slice(-LINES);
  for (const text of texts.values()) if (text.room === other) text.room = room;
  room.name = to;
  const all = [...rooms.values()].filter((it) => it !== other || it === room);
  rooms.clear();
  for (const it of all) rooms.set(fold(it.name), it);
  if (wasShown) current = fold(to);
  if (isOther && (wasShown || current === fold(to))) show(to);
  save();
}

// ---- Who is where ----

function addPerson(people, name, rank) {
  people.set(fold(name), { name, rank, spoke: 0 });
}

function forget(room, name) {
  return room.people.delete(fold(name));
}

function entered(channel, time) {
  const room = roomOf(channel);
  const wasComing = room.isComing;
  Object.assign(room, { name: channel, isOn: true, isComing: false, isTold: false, topic: "" });
  room.people.clear();
  wish.channels = wish.channels.filter((it) => !isSame(it, channel));
  if (!wasComing) show(channel);
  note(channel, wasComing ? "You are back" : "You joined", time);
  for (const text of link.news.splice(0)) fault(channel, text);
  sendWaiting();
  save();
}

// The user is off a channel that it would rather be on.
function shutOut(room) {
  Object.assign(room, { isOn: false, isComing: false, topic: "" });
  room.people.clear();
  refuseWaiting(room);
  save();
  paintSoon();
}

// ---- The looks of a text ----

const COLOUR = "\\x03(?:(\\d{1,2})(?:,(\\d{1,2}))?)?";
const HEX_COLOUR = "\\x04(?:[\\da-f]{6}(?:,[\\da-f]{6})?)?"; // (is read, and not shown)
const CODE = new RegExp(`${COLOUR}|${HEX_COLOUR}|[\\x02\\x0f\\x11\\x16\\x1d\\x1e\\x1f]`, "gi");
const LOOKS = {
  "\x02": "bold",
  "\x11": "mono",
  "\x16": "reversed",
  "\x1d": "italic",
  "\x1e": "struck",
  "\x1f": "underlined",
};
// The hues of mIRC's colours: of the first 16, where those without one are black, white and grey; of 16 to 87 in turn.
const HUES = [null, null, 265, 145, 29, 45, 320, 60, 100, 135, 195, 205, 255, 345, null, null];
const MORE_HUES = [29, 55, 110, 130, 142, 158, 195, 245, 264, 295, 328, 5];
const LINK = /\bhttps?:\/\/[^\s<>"]+/gi;

const plain = (text) => text.replace(CODE, "");

function hueOf(number) {
  if (number < 16) return HUES[number];
  return number < 88 ? MORE_HUES[(number - 16) % 12] : null;
}

// The parts of a text that look alike, each with its looks.
function runs(text) {
  const found = [];
  let looks = new Set();
  let colour = {};
  let from = 0;
  const add = (to) => from < to && found.push({ part: text.slice(from, to), looks: [...looks], ...colour });
  for (const it of text.matchAll(CODE)) {
    add(it.index);
    const [code, ink, paper] = it;
    from = it.index + code.length;
    if (code === "\x0f") [looks, colour] = [new Set(), {}];
    else if (code[0] === "\x03") colour = ink ? { ink: Number(ink), paper: paper ? Number(paper) : colour.paper } : {};
    else if (looks.has(LOOKS[code])) looks.delete(LOOKS[code]);
    else if (LOOKS[code]) looks.add(LOOKS[code]);
  }
  add(text.length);
  return found;
}

function element(name, text, className) {
  const made = document.createElement(name);
  made.textContent = text;
  if (className) made.className = className;
  return made;
}

const classes = (...names) => names.filter((it) => it).join(" ");

function runElement({ part, looks, ink, paper }) {
  const made = element("span", "", looks.join(" "));
  const hue = ink === undefined ? null : hueOf(ink);
  if (hue !== null) {
    made.classList.add("ink");
    made.style.setProperty("--hue", hue);
  }
  if (paper !== undefined && paper !== 99) {
    const under = hueOf(paper);
    made.classList.add(under === null ? "grey" : "paper");
    if (under !== null) made.style.setProperty("--under", under);
  }
  made.append(...linked(part));
  return made;
}

// An address without the sentence's stop and without a bracket that was open before it.
function trimmed(address) {
  const cut = address.replace(/[.,;:!?'”’]+$/, "");
  const isOpen = cut.endsWith(")") && !cut.includes("(");
  return isOpen ? trimmed(cut.slice(0, -1)) : cut;
}

function urlOf(text) {
  try {
    return new URL(text);
  } catch {
    return null;
  }
}

const isAddress = (text) => ["http:", "https:"].includes(urlOf(text)?.protocol);

function linked(text) {
  const found = [];
  let from = 0;
  for (const it of text.matchAll(LINK)) {
    const address = trimmed(it[0]);
    if (!isAddress(address)) continue;
    const anchor = element("a", address);
    Object.assign(anchor, { href: address, target: "_blank", rel: "noopener noreferrer" });
    found.push(...visible(text.slice(from, it.index)), anchor);
    from = it.index + address.length;
  }
  return [...found, ...visible(text.slice(from))];
}

// Control characters that mean nothing here are shown by their names, as ^G.
function visible(text) {
  return text.split(/([\x00-\x1f\x7f])/).filter((it) => it).map((it) => {
    if (!/^[\x00-\x1f\x7f]$/.test(it)) return it;
    return element("span", `^${String.fromCharCode(it.charCodeAt(0) ^ 64)}`, "code");
  });
}

function colourOf(name) {
  let sum = 0;
  for (const letter of fold(name)) sum = (sum * 31 + letter.codePointAt(0)) % 360;
  return sum;
}

function nameElement(tag, name) {
  const made = element(tag, name, "name");
  made.style.setProperty("--hue", colourOf(name));
  return made;
}

// ---- A line as it is seen ----

const MARKS = {
  waiting: "waits for the connection",
  sending: "on its way",
  unsure: "perhaps not delivered",
};

const dayOf = (time) => time.toDateString();
const dates = new Intl.DateTimeFormat("en-GB", { dateStyle: "full" });
const dateOf = (time) => dates.format(time);

function twoDigits(number) {
  return String(number).padStart(2, "0");
}

function dayElement(time) {
  const made = element("div", "", "day");
  const date = element("time", dateOf(time));
  date.dateTime = [time.getFullYear(), twoDigits(time.getMonth() + 1), twoDigits(time.getDate())].join("-");
  made.append(date);
  return made;
}

function timeElement(time) {
  const made = element("time", `${twoDigits(time.getHours())}:${twoDigits(time.getMinutes())}`);
  made.dateTime = time.toISOString();
  made.title = `${dateOf(time)}, ${time.toTimeString().slice(0, 8)}`;
  return made;
}

function lineElement(line) {
  const made = element("div", "", classes("entry", line.kind, line.state, line.isCall && "called"));
  const body = element("div", "");
  if (line.who) body.append(...speakerOf(line));
  const said = element("span", "", "said");
  said.dir = "auto";
  said.append(...runs(line.text).map(runElement));
  body.append(said);
  if (line.state) body.append(" ", element("span", MARKS[line.state] || `not delivered: ${line.why}`, "fault"));
  if (line.state === "unsure") body.append(button("Send again", () => sayAgain(line)));
  if (line.action) body.append(button(line.action.label, () => speak(line.action.say)));
  made.append(timeElement(line.time), body);
  return made;
}

function speakerOf({ kind, who }) {
  const name = nameElement("b", who);
  if (kind === "action") return ["* ", name, " "];
  if (kind === "notice") return [name, " ", element("span", "notice", "tag"), " "];
  return [name, element("span", ":", "unseen"), " "];
}

function button(label, run) {
  const made = element("button", label, "plain");
  made.type = "button";
  made.onclick = run;
  return made;
}

// ---- The page as it is seen ----

let unpainted = []; // lines of the room that is shown
let elements = new WeakMap(); // by line
let lastDay = "";
let isFollowing = true; // the newest line is in sight, and is to stay so
let isDue = false;

// However many lines come, the page is laid out once a frame.
function paintSoon() {
  tellTitle();
  if (isDue) return;
  isDue = true;
  requestAnimationFrame(() => {
    isDue = false;
    paint(A_FRAME);
  });
}

function paint(most = LINES) {
  if (at("chat").hidden || !rooms.has(current)) return;
  const room = currentRoom();
  paintRooms();
  paintNext();
  paintHead(room);
  paintPeople(room);
  paintLines(most);
  paintState();
  tellTitle();
}

function paintLines(most) {
  const list = at("lines");
  const fresh = document.createDocumentFragment();
  const isMore = unpainted.length > 0;
  unpainted = unpainted.slice(-LINES);
  for (const line of unpainted.splice(0, most)) {
    const day = dayOf(line.time);
    if (day !== lastDay) fresh.append(dayElement(line.time));
    lastDay = day;
    const made = lineElement(line);
    elements.set(line, made);
    fresh.append(made);
  }
  list.append(fresh);
  while (list.childElementCount > LINES) list.firstElementChild.remove();
  if (isFollowing) list.scrollTop = list.scrollHeight;
  at("newer").hidden = isFollowing || (at("newer").hidden && !isMore);
  if (unpainted.length) paintSoon();
}

// Takes the mark from a line, and leaves the rest, so that nobody is read it twice.
function settle(line) {
  const made = elements.get(line);
  if (!made) return;
  made.classList.remove("waiting", "sending");
  made.querySelector(".fault")?.remove();
}

// A line that is shown already has changed.
function repaint(line) {
  const old = elements.get(line);
  if (!old) return;
  const made = lineElement(line);
  elements.set(line, made);
  old.replaceWith(made);
}

function removeLine(line, room) {
  room.lines = room.lines.filter((it) => it !== line);
  unpainted = unpainted.filter((it) => it !== line);
  elements.get(line)?.remove();
}

// Has a list show these items, each in the row that it had: the focus and a click that has begun stay where they are.
function paintList(list, items, keyOf, make, update) {
  const keys = new Set(items.map(keyOf));
  for (const row of [...list.children]) if (!keys.has(row.dataset.key)) row.remove();
  const old = new Map([...list.children].map((it) => [it.dataset.key, it]));
  let next = list.firstElementChild;
  for (const item of items) {
    const key = keyOf(item);
    const row = old.get(key) || make(item);
    row.dataset.key = key;
    update(row, item);
    if (row === next) next = next.nextElementSibling;
    else list.insertBefore(row, next);
  }
}

// Writes a text where it isn't there yet, so that nobody is told it twice.
function write(it, text) {
  if (it.textContent !== text) it.textContent = text;
}

function paintRooms() {
  const isNew = !document.querySelector(`#rooms [data-key="${currentRoom().id}"] [aria-current]`);
  paintList(at("rooms"), [...rooms.values()], (it) => String(it.id), roomRow, updateRoom);
  if (isNew) showCurrentRow();
}

function showCurrentRow() {
  document.querySelector("#rooms [aria-current]")?.scrollIntoView({ block: "nearest", inline: "nearest" });
}

// On a phone the bar shows some of the rooms, and beside them a button to the next that has something to read: first
// those that call the user.
const waitingRoom = () => [...rooms.values()].find((it) => it.called) || [...rooms.values()].find((it) => it.unread);

function paintNext() {
  const unread = [...rooms.values()].filter((it) => it.unread).length;
  at("next").hidden = !unread;
  write(at("next"), String(unread));
  const label = `Show the next of ${unread} room${unread === 1 ? "" : "s"} with unread texts`;
  at("next").setAttribute("aria-label", label);
}

function roomRow(room) {
  const row = element("li", "");
  const made = element("button", "");
  made.type = "button";
  made.append(element("span", "", "title"), element("span", "", "unseen"), element("span", "", "tally"));
  made.lastChild.setAttribute("aria-hidden", "true");
  made.onclick = () => show(room.name);
  row.append(made);
  return row;
}

function updateRoom(row, room) {
  const made = row.firstChild;
  const [title, told, tally] = made.children;
  if (room === currentRoom()) made.setAttribute("aria-current", "true");
  else made.removeAttribute("aria-current");
  const isOff = isChannel(room.name) && !room.isOn;
  row.className = classes(isOff && "off", room.unread && "unread", room.called && "called");
  write(title, room.name || "server");
  write(told, room.unread ? ` (${room.unread} unread${room.called ? `, ${room.called} for you` : ""})` : "");
  write(tally, room.unread ? String(room.called || room.unread) : "");
}

function paintHead(room) {
  const isGone = isChannel(room.name) && !room.isOn;
  write(at("name"), room.name || "server");
  if (at("topic").dataset.topic !== room.topic) {
    at("topic").dataset.topic = room.topic;
    at("topic").replaceChildren(...runs(room.topic).map(runElement));
  }
  at("leave").hidden = !room.name;
  write(at("self"), `You are ${nick}${link && link.account ? `, logged in as ${link.account}` : ""}`);
  at("text").placeholder = placeholderOf(room, isGone);
}

function placeholderOf(room, isGone) {
  if (!isOnline()) return "Not connected: what you send waits";
  if (!room.name) return "/join #channel";
  return isGone ? `You aren't here: /join ${room.name}` : `Say something in ${room.name}`;
}

function paintPeople(room) {
  const order = ({ rank }) => ["@", "+", ""].indexOf(rank);
  const people = [...room.people].sort(([one, a], [other, b]) => order(a) - order(b) || (one < other ? -1 : 1));
  paintList(at("people"), people.map(([, it]) => it), (it) => it.name, personRow, updatePerson);
  write(at("count"), isChannel(room.name) ? String(people.length) : "");
}

function personRow(person) {
  const row = element("li", "");
  const made = nameElement("button", person.name);
  made.type = "button";
  made.title = `Talk to ${person.name}`;
  made.onclick = () => show(person.name);
  row.append(element("span", "", "rank"), element("span", "", "unseen"), made);
  row.firstChild.setAttribute("aria-hidden", "true");
  return row;
}

function updatePerson(row, { rank }) {
  const [sign, told] = row.children;
  write(sign, rank);
  write(told, { "@": "operator ", "+": "voiced " }[rank] || "");
}

function openPeople() {
  at("side").classList.add("open");
  at("who").setAttribute("aria-expanded", "true");
  at("close").focus();
}

function closePeople() {
  at("side").classList.remove("open");
  at("who").setAttribute("aria-expanded", "false");
}

// ---- What calls the user: the title, notifications, a sound ----

const isLooking = () => document.hasFocus() && !document.hidden && !at("chat").hidden;

// The user sees the room that is shown.
function seen() {
  if (!rooms.has(current)) return;
  Object.assign(currentRoom(), { unread: 0, called: 0 });
  paintSoon();
}

function tellTitle() {
  let calls = 0;
  for (const room of rooms.values()) calls += room.called;
  const place = at("chat").hidden ? "halld" : `${currentName() || "server"} · halld`;
  const title = calls ? `(${calls}) ${place}` : place;
  if (document.title !== title) document.title = title;
}

function namesMe(text) {
  return fold(plain(text)).split(/[^\p{L}\p{N}\-_`^{|}]+/u).includes(fold(nick));
}

// Counts a text of another that the user may not have seen. One for nobody else calls, too.
function countUnread(room, line) {
  if (room === rooms.get(current) && isLooking()) return;
  room.unread += 1;
  if (!line.isCall && isChannel(room.name)) return;
  room.called += 1;
  if (at("notify").checked) notify(room, line);
  if (at("sound").checked) beep();
}

function notify(room, line) {
  if (!("Notification" in window) || Notification.permission !== "granted") return;
  const where = isChannel(room.name) ? `${line.who} in ${room.name}` : line.who;
  try {
    const shown = new Notification(where, { body: plain(line.text), tag: room.name });
    shown.onclick = () => {
      window.focus();
      show(room.name);
    };
  } catch {
    // (some browsers of phones let no page notify, and say so only here)
  }
}

async function wantNotifications() {
  if (!at("notify").checked) return save();
  const answer = "Notification" in window ? await Notification.requestPermission() : "denied";
  at("notify").checked = answer === "granted";
  if (answer !== "granted") hint("The browser doesn't let this page notify you.");
  save();
}

let audio = null;

function beep() {
  audio = audio || new AudioContext();
  const [tone, volume] = [audio.createOscillator(), audio.createGain()];
  volume.gain.setValueAtTime(0.1, audio.currentTime);
  volume.gain.exponentialRampToValueAtTime(0.001, audio.currentTime + 0.25);
  tone.frequency.value = 660;
  tone.connect(volume).connect(audio.destination);
  tone.start();
  tone.stop(audio.currentTime + 0.25);
}

// ---- What the server says ----

const heard = {
  PING({ parameters: [token] }) { send("PONG", `:${token}`); },
  PONG() {},
  CAP({ parameters: [, verb, ...lists] }) { negotiate(verb, lists); },
  AUTHENTICATE({ parameters: [piece] }) { if (piece === "+") sendPassword(); },
  BATCH({ parameters: [name], label }) {
    if (name[0] === "+" && label) link.batches.set(name.slice(1), label);
    else link.batches.delete(name.slice(1));
  },
  ACK({ label }) { refuse(label, "it reached nobody"); },
  JOIN({ nick: who, parameters: [channel], time }) {
    if (isMe(who)) return entered(channel, time);
    addPerson(roomOf(channel).people, who, "");
    note(channel, `${who} joined`, time);
  },
  PART({ nick: who, parameters: [channel, why], time }) {
    if (isMe(who)) return removeRoom(channel);
    forget(roomOf(channel), who);
    note(channel, `${who} left${why ? ` (${why})` : ""}`, time);
  },
  KICK({ nick: who, parameters: [channel, whom, why], time }) {
    if (isMe(whom)) return kicked(channel, who, why, time);
    forget(roomOf(channel), whom);
    note(channel, `${whom} was kicked by ${who} (${why})`, time);
  },
  QUIT({ nick: who, parameters: [why], time }) {
    for (const room of rooms.values()) {
      if (forget(room, who) || isSame(room.name, who)) note(room.name, `${who} left (${why})`, time);
    }
    if (isOnline() && isSame(who, wish.nick)) send("NICK", wish.nick);
  },
  NICK({ nick: who, parameters: [now], time }) { renamed(who, now, time); },
  TOPIC({ nick: who, parameters: [channel, topic], time }) {
    roomOf(channel).topic = topic;
    note(channel, topic ? `${who} set the topic: ${topic}` : `${who} cleared the topic`, time);
  },
  MODE({ nick: who, parameters: [target, ...modes], time }) {
    if (!isChannel(target)) return note("", `Your mode is now ${modes.join(" ")}`, time);
    for (const change of changesOf(modes)) changeMode(target, who, change, time);
  },
  INVITE({ nick: who, parameters: [, channel], time }) {
    note(currentName(), `${who} invites you to ${channel}`, time, { label: "Join", say: `/join ${channel}` });
  },
  PRIVMSG(message) { hearText(message); },
  NOTICE(message) { hearText(message); },
  TAGMSG() {},
  ERROR({ parameters: [text] }) { link.end = text; },
};

function hear(line) {
  const message = parse(line);
  if (!message.command) return;
  Object.assign(link, { heardAt: Date.now(), askedAt: 0 });
  if (message.label === undefined) message.label = link.batches.get(message.batch);
  try {
    understand(message);
  } catch (error) {
    console.error(error);
    fault("", `The page doesn't understand this line: ${line}`);
  }
}

function understand(message) {
  if (Object.hasOwn(heard, message.command)) return heard[message.command](message);
  if (Object.hasOwn(numerics, message.command)) return numerics[message.command](message);
  const isNumeric = /^\d/.test(message.command);
  const text = message.parameters.slice(isNumeric ? 1 : 0).join(" ");
  if (/^[45]/.test(message.command)) complain(message, text);
  else note("", isNumeric ? text : `${message.command} ${text}`, message.time);
}

function kicked(channel, who, why, time) {
  shutOut(roomOf(channel));
  const action = { label: "Join again", say: `/join ${channel}` };
  fault(channel, `You were kicked by ${who} (${why})`, time, action);
}

function renamed(who, now, time) {
  const isOwn = isMe(who);
  if (isOwn) {
    nick = now;
    if (wish) wish.nick = now;
    note(currentName(), `You are now ${now}`, time);
    save();
  } else {
    renameRoom(who, now);
  }
  for (const room of rooms.values()) {
    const person = room.people.get(fold(who));
    if (!person && isOwn) continue;
    if (!person && !isSame(room.name, now)) continue;
    if (person) {
      forget(room, who);
      room.people.set(fold(now), { ...person, name: now });
    }
    if (!isOwn || room !== currentRoom()) note(room.name, `${who} is now ${now}`, time);
  }
}

// The changes of a channel's MODE: each a sign, a letter, and a parameter where the letter has one.
function changesOf([letters, ...parameters]) {
  const found = [];
  let sign = "+";
  for (const letter of letters) {
    if (letter === "+" || letter === "-") sign = letter;
    else found.push({ sign, letter, given: takesOne(sign, letter) ? parameters.shift() : "" });
  }
  return found;
}

const takesOne = (sign, letter) => "ovbk".includes(letter) || (letter === "l" && sign === "+");

const RANKS = {
  "+o": (who, name) => `${who} made ${name} an operator`,
  "-o": (who, name) => `${who} took the rank of operator from ${name}`,
  "+v": (who, name) => `${who} gave ${name} the voice`,
  "-v": (who, name) => `${who} took the voice from ${name}`,
};

function changeMode(channel, who, { sign, letter, given }, time) {
  const isSet = sign === "+";
  if (RANKS[sign + letter]) {
    changeRank(roomOf(channel), given, letter, isSet);
    return note(channel, RANKS[sign + letter](who, given), time);
  }
  if (letter === "b") return note(channel, `${who} ${isSet ? "banned" : "lifted the ban on"} ${given}`, time);
  note(channel, `${who} set the mode ${sign}${letter}${given ? ` ${given}` : ""}`, time);
}

// Of an operator the server doesn't tell whether a voice is left, so it is asked.
function changeRank(room, name, letter, isSet) {
  const person = room.people.get(fold(name));
  if (!person) return;
  if (letter === "o") person.rank = isSet ? "@" : "";
  else if (person.rank !== "@") person.rank = isSet ? "+" : "";
  if (letter === "o" && !isSet && isOnline()) askNames(room.name);
}

function askNames(channel) {
  link.askedNames.add(fold(channel));
  send("NAMES", channel);
}

function hearText({ source, nick: who, command, parameters: [target, text = ""], time, label }) {
  if (source && !source.includes("!")) return note("", text, time);
  const isOwn = isMe(who);
  // What one says to oneself comes twice: as the answer, and as any text.
  if (isOwn && isMe(target) && hasLabels() && !label) return;
  if (isOwn && label && delivered(label, time)) return;
  const name = isChannel(target) || isOwn ? target : who;
  const [, request, rest] = /^\x01([^\s\x01]+) ?(.*?)\x01?$/s.exec(text) || [];
  if (request && request !== "ACTION") return hearRequest(command, name, who, request, rest, time);
  const kind = request ? "action" : command === "NOTICE" ? "notice" : "text";
  const said = request ? rest : text;
  const line = say(name, { kind, who, text: said, time, isCall: isChannel(name) && !isOwn && namesMe(said) });
  if (isOwn) return;
  countUnread(roomOf(name), line);
  const person = roomOf(name).people.get(fold(who));
  if (person) person.spoke = Date.now();
}

// CTCP: what programs ask of one another. An answer is a NOTICE.
function hearRequest(command, name, who, request, rest, time) {
  if (isMe(who)) return note(name, `You asked for ${request} (CTCP)`, time);
  if (command === "NOTICE") return note(placeOf(who), `${who} answers ${request}: ${rest}`, time);
  note(isChannel(name) ? name : placeOf(who), `${who} asks for ${request} (CTCP)`, time);
  const answers = { VERSION: "halld's web page", PING: rest };
  if (isChannel(name) || !Object.hasOwn(answers, request)) return;
  answerRequest(who, `\x01${request} ${answers[request]}\x01`);
}

let answeredAt = 0;

function answerRequest(who, text) {
  if (Date.now() - answeredAt < 1000) return;
  answeredAt = Date.now();
  send("NOTICE", who, `:${text}`);
}

// ---- Numerics in words ----

const FAULTS = {
  401: (name) => `Nobody is called ${name}`,
  402: (name) => `There is no server ${name}`,
  403: (name) => `${name} is no channel`,
  404: (name) => `You may not speak in ${name}`,
  405: (name) => `You are on too many channels to join ${name}`,
  407: (name) => `Too many names at once: ${name}`,
  432: (name) => nickFault(name),
  433: (name) => `The nickname ${name} is in use`,
  441: (name, channel) => `${name} isn't on ${channel}`,
  442: (channel) => `You aren't on ${channel}`,
  443: (name, channel) => `${name} is on ${channel} already`,
  461: (command) => `${command} needs more words`,
  471: (channel) => `${channel} is full`,
  472: (letter) => `There is no mode ${letter}`,
  473: (channel) => `${channel} takes invited people only`,
  474: (channel) => `You are banned from ${channel}`,
  475: (channel) => `${channel} has a key: /join ${channel} KEY`,
  482: (channel) => `Only operators of ${channel} may do that`,
};

const JOIN_FAULTS = ["403", "405", "471", "473", "474", "475"];

function complain({ command, parameters: [, name, ...more], time, label }, text) {
  const words = Object.hasOwn(FAULTS, command) && name ? FAULTS[command](name, ...more) : text;
  if (refuse(label, words)) return;
  const room = name && rooms.get(fold(name));
  if (name && JOIN_FAULTS.includes(command)) wish.channels = wish.channels.filter((it) => !isSame(it, name));
  if (room && JOIN_FAULTS.includes(command) && !room.isOn) shutOut(room);
  fault(placeOf(name), words, time);
}

const answerTo = (words) => ({ parameters: [, ...given], time }) => note(placeOf(given[0]), words(...given), time);
const nothing = () => {};

const numerics = {
  "001"({ parameters: [own, text], time }) { welcomed(own, text, time); },
  "002": nothing,
  "003": nothing,
  "004": nothing,
  "005"({ parameters }) {
    const length = parameters.map((it) => /^NICKLEN=(\d+)$/.exec(it)).find((it) => it);
    if (length) nickLength = Number(length[1]);
  },
  221: answerTo((modes) => `Your mode is ${modes}`),
  301({ parameters: [, name, text], time }) {
    const room = rooms.get(fold(name));
    if (room && room.away === text) return;
    if (room) room.away = text;
    note(placeOf(name), `${name} is away: ${text}`, time);
  },
  305() { note(currentName(), "You are back"); },
  306() { note(currentName(), "You are away: /away says that you are back"); },
  311: answerTo((name, user, host, sign, real) => `${name} is ${user}@${host} (${real})`),
  312: nothing,
  315: nothing,
  318: nothing,
  319: answerTo((name, channels) => `${name} is on ${channels.trim().split(" ").join(", ")}`),
  321: nothing,
  322({ parameters: [, channel, count, topic], time }) {
    const people = count === "1" ? "1 person" : `${count} people`;
    const action = { label: "Join", say: `/join ${channel}` };
    note(currentName(), `${channel}: ${people}${topic ? `, ${topic}` : ""}`, time, action);
  },
  323() { note(currentName(), "These are all channels"); },
  324: answerTo((channel, ...modes) => `${channel} has the mode ${modes.join(" ")}`),
  329: nothing,
  331: answerTo((channel) => `${channel} has no topic`),
  332({ parameters: [, channel, topic], time }) {
    const room = rooms.get(fold(channel));
    if (!room || room.topic === topic) note(placeOf(channel), `The topic of ${channel} is: ${topic}`, time);
    if (room) room.topic = topic;
    paintSoon();
  },
  333: nothing,
  341: answerTo((name, channel) => `You invited ${name} to ${channel}`),
  352: answerTo((channel, user, host, server, name, flags) => `${name} is ${user}@${host} ${flags}`),
  353({ parameters: [, , channel, names] }) {
    const people = link.names.get(fold(channel)) || new Map();
    for (const name of wordsOf(names)) {
      const [, rank, who] = /^([@+]?)(.*)$/.exec(name);
      addPerson(people, who, rank);
    }
    link.names.set(fold(channel), people);
  },
  366({ parameters: [, channel], time }) { namesTold(channel, time); },
  367: answerTo((channel, mask) => `${channel} bans ${mask}`),
  368: answerTo((channel) => `These are all bans of ${channel}`),
  372({ parameters: [, text], time }) { note("", text, time); },
  375: nothing,
  376: nothing,
  422: nothing,
  432({ parameters: [, name], time }) {
    if (isOnline()) return fault(currentName(), nickFault(name), time);
    giveUp(nickFault(name), "nick");
  },
  433({ parameters: [, taken], time }) {
    if (isOnline()) return fault(currentName(), `The nickname ${taken} is in use`, time);
    anotherNick(taken);
  },
  900({ parameters: [, , account] }) {
    link.account = account;
    if (isOnline()) note(currentName(), `You are logged in as ${account}`);
  },
  903() { if (!isOnline()) send("CAP", "END"); },
  904() { loginFailed("The account or the password is wrong."); },
  905() { loginFailed("The account or the password is too long."); },
  906: nothing,
  907() { hint("You are logged in already."); },
  908: nothing,
};

// An answer to NAMES is whole. Who asked is told; after a join nobody is.
function namesTold(channel, time) {
  const people = link.names.get(fold(channel)) || new Map();
  link.names.delete(fold(channel));
  const room = rooms.get(fold(channel));
  const isAsked = !link.askedNames.delete(fold(channel)) && !(room && room.isOn && !room.isTold);
  if (room && room.isOn) {
    for (const [key, person] of people) person.spoke = room.people.get(key)?.spoke || 0;
    Object.assign(room, { people, isTold: true });
  }
  const names = [...people.values()].map((it) => it.rank + it.name).join(", ");
  if (isAsked) note(placeOf(channel), names ? `On ${channel} are ${names}` : `You see nobody on ${channel}`, time);
  paintSoon();
}

// ---- What the user says ----

// Each with how it is used, what it does, and where it is said, if not anywhere. `run` is given what follows the verb,
// and its words, and answers false where it can't be done. Those that need no connection are `offline`.
const commands = {
  away: {
    usage: "/away [TEXT]",
    help: "says that you are away, and why; without a text that you are back",
    run: (rest) => send("AWAY", ...trailing(rest)),
  },
  ban: {
    usage: "/ban [MASK]",
    help: "bans who fits NICK!USER@HOST, in which * stands for anything; without a mask it tells the bans",
    where: "channel",
    run: (rest) => send("MODE", here(), "+b", rest),
  },
  deop: {
    usage: "/deop NICK ..",
    help: "takes the rank of operator",
    where: "channel",
    run: (rest, names) => changeRanks("-o", names),
  },
  devoice: {
    usage: "/devoice NICK ..",
    help: "takes the voice",
    where: "channel",
    run: (rest, names) => changeRanks("-v", names),
  },
  help: {
    usage: "/help [COMMAND]",
    help: "tells what there is to say",
    offline: true,
    run: (rest) => help(rest.replace(/^\//, "").toLowerCase()),
  },
  invite: {
    usage: "/invite NICK [#CHANNEL]",
    help: "invites somebody to this channel, or to another",
    run: (rest, [who, channel]) => withChannel(channel, (to) => send("INVITE", who, to)),
  },
  join: {
    usage: "/join #CHANNEL [KEY]",
    help: "joins a channel",
    offline: true,
    run: (rest, [names, key]) => join(names, key),
  },
  kick: {
    usage: "/kick NICK [WHY]",
    help: "sends somebody out of the channel",
    where: "channel",
    run: (rest, [who]) => send("KICK", here(), who, ...trailing(after(rest))),
  },
  list: {
    usage: "/list [#CHANNEL]",
    help: "tells the channels",
    run: (rest) => send("LIST", rest),
  },
  login: {
    usage: "/login",
    help: "asks for your account and its password",
    run: () => askPassword(),
  },
  me: {
    usage: "/me TEXT",
    help: "says what you do",
    where: "room",
    offline: true,
    run: (rest) => tell(here(), rest, "ACTION"),
  },
  mode: {
    usage: "/mode [MODES]",
    help: "tells the channel's modes, or changes them",
    where: "channel",
    run: (rest) => send("MODE", here(), rest),
  },
  msg: {
    usage: "/msg NAME TEXT",
    help: "says something to somebody, or to a channel",
    offline: true,
    run: (rest, [to]) => tellEach(to, after(rest)),
  },
  names: {
    usage: "/names [#CHANNEL]",
    help: "tells who is on this channel, or on another",
    run: (rest) => withChannel(rest, (channel) => send("NAMES", channel)),
  },
  nick: {
    usage: "/nick NICK",
    help: "changes your nickname",
    offline: true,
    run: (rest) => newNick(rest),
  },
  notice: {
    usage: "/notice NAME TEXT",
    help: "says something that no program is to answer",
    offline: true,
    run: (rest, [to]) => tellEach(to, after(rest), "NOTICE"),
  },
  op: {
    usage: "/op NICK ..",
    help: "makes operators",
    where: "channel",
    run: (rest, names) => changeRanks("+o", names),
  },
  part: {
    usage: "/part [#CHANNEL]",
    help: "leaves this room, or another",
    offline: true,
    run: (rest) => part(rest || here()),
  },
  query: {
    usage: "/query NICK [TEXT]",
    help: "opens a private room",
    offline: true,
    run: (rest, [who]) => query(who, after(rest)),
  },
  quit: {
    usage: "/quit [TEXT]",
    help: "ends the connection",
    offline: true,
    run: (rest) => quit(rest),
  },
  raw: {
    usage: "/raw LINE",
    help: "sends a line as it is",
    run: (rest) => send(rest),
  },
  topic: {
    usage: "/topic [TEXT]",
    help: "tells the topic, or sets it; /topic - clears it",
    where: "channel",
    run: (rest) => send("TOPIC", here(), ...(rest === "-" ? [":"] : trailing(rest))),
  },
  unban: {
    usage: "/unban MASK",
    help: "lifts a ban",
    where: "channel",
    run: (rest) => send("MODE", here(), "-b", rest),
  },
  voice: {
    usage: "/voice NICK ..",
    help: "gives the voice",
    where: "channel",
    run: (rest, names) => changeRanks("+v", names),
  },
  whois: {
    usage: "/whois NICK",
    help: "tells who somebody is",
    run: (rest, [who]) => send("WHOIS", who),
  },
};

const here = () => currentName();
const after = (rest) => rest.replace(/^\S+ */, "");
const trailing = (text) => (text ? [`:${text}`] : []);
const wordsOf = (text) => text.split(" ").filter((it) => it);

function hint(text) {
  at("hint").textContent = text;
}

// Does what the user typed, and answers whether it could.
function speak(typed) {
  const [, verb, rest] = /^\/(\w+) ?(.*)$/s.exec(typed) || [];
  if (verb) return command(verb.toLowerCase(), rest.trim());
  const text = typed.startsWith("//") ? typed.slice(1) : typed;
  if (!here()) return refusal("Join a channel first: /join #channel");
  if (isOnline() && isChannel(here()) && !currentRoom().isOn && !currentRoom().isComing) {
    return refusal(`You aren't on ${here()}: /join ${here()}`);
  }
  tell(here(), text);
  return true;
}

function refusal(text) {
  hint(text);
  return false;
}

function command(verb, rest) {
  if (!Object.hasOwn(commands, verb)) return refusal(`There is no /${verb}. /help tells what there is.`);
  const { usage, where, offline, run } = commands[verb];
  const words = wordsOf(rest);
  const needed = wordsOf(usage).filter((it) => /^#?[A-Z]+$/.test(it));
  if (words.length < needed.length) return refusal(`Usage: ${usage}`);
  if (where === "channel" && !isChannel(here())) return refusal(`/${verb} is said in a channel.`);
  if (where === "room" && !here()) return refusal(`/${verb} is said in a channel or a private room.`);
  if (!offline && !isOnline()) return refusal(`There is no connection: /${verb} can't be done now.`);
  return run(rest, words) !== false;
}

function help(verb) {
  if (verb && !Object.hasOwn(commands, verb)) return refusal(`There is no /${verb}. /help tells what there is.`);
  for (const it of verb ? [commands[verb]] : Object.values(commands)) note(here(), `${it.usage}: ${it.help}`);
  if (verb) return true;
  note(here(), "A text that begins with / is said after another one: //text");
  note(here(), "Tab completes a name, ↑ and ↓ bring back what you said, Page Up and Page Down scroll.");
  note(here(), "Alt with ↑ or ↓ changes the room.");
  return true;
}

// Does something with the channel that is named, or else with the one that is shown.
function withChannel(name, run) {
  const channel = name || here();
  if (!isChannel(channel)) return refusal("Name a channel: #CHANNEL");
  run(channel);
  return true;
}

// (a channel that is joined already is shown)
function join(names, given = "") {
  for (const [place, name] of names.split(",").filter((it) => it).map(asChannel).entries()) {
    const key = given.split(",")[place] || "";
    if (key) keys.set(fold(name), key);
    const room = rooms.get(fold(name));
    if (room && room.isOn) show(name);
    else if (isOnline()) send("JOIN", name, key);
    else wish.channels.push(name);
  }
  if (!isOnline()) hint("The channel is joined when there is a connection.");
  paintSoon();
  save();
}

const keys = new Map(); // of channels, for joining again; a reload keeps none

function newNick(name) {
  if (!isNickname(name)) return refusal(nickFault(name));
  if (isOnline()) send("NICK", name);
  else wish.nick = nick = name;
  paintSoon();
  return true;
}

function part(name) {
  if (!name) return refusal("The server's room can't be left: /quit ends the connection.");
  const room = rooms.get(fold(name));
  if (isChannel(name) && isOnline() && (!room || room.isOn)) send("PART", name);
  else if (room && room.name) removeRoom(name);
  else return refusal(`There is no room ${name}.`);
  return true;
}

function query(who, text) {
  if (who.includes(",")) return refusal("Usage: /query NICK [TEXT], with one nickname");
  show(who);
  if (text) tell(who, text);
  save();
  return true;
}

function quit(text) {
  if (isOnline()) send("QUIT", ...trailing(text));
  giveUp("You left.");
}

// (a line changes four at most)
function changeRanks([sign, letter], names) {
  for (let from = 0; from < names.length; from += 4) {
    const some = names.slice(from, from + 4);
    send("MODE", here(), sign + letter.repeat(some.length), ...some);
  }
}

// ---- Texts on their way: each is shown at once, and marked until the server has answered it ----

function tell(target, said, form = "PRIVMSG") {
  const kind = { ACTION: "action", NOTICE: "notice", PRIVMSG: "text" }[form];
  for (const text of parts(said)) {
    const line = say(target, { kind, who: nick, text, form, state: "waiting" });
    keepText(roomOf(target), line);
    if (isReady(roomOf(target))) transmit(line.label);
  }
}

function tellEach(targets, said, form) {
  for (const target of targets.split(",").filter((it) => it)) tell(target, said, form);
}

function keepText(room, line) {
  line.label = `t${++labels}`;
  texts.set(line.label, { room, line });
}

// Whether a text may go out now: there is a connection, and its channel is joined again.
const isReady = (room) => isOnline() && !room.isComing;

function transmit(label) {
  const { room, line } = texts.get(label);
  const text = line.form === "ACTION" ? `\x01ACTION ${line.text}\x01` : line.text;
  const words = [line.form === "NOTICE" ? "NOTICE" : "PRIVMSG", room.name, `:${text}`];
  if (hasLabels()) {
    send(`@label=${label}`, ...words);
    return become(line, "sending");
  }
  send(...words);
  texts.delete(label);
  become(line, "");
}

function become(line, state, why = "") {
  Object.assign(line, { state, why });
  repaint(line);
  paintSoon();
}

function sendWaiting() {
  for (const [label, { room, line }] of [...texts]) if (line.state === "waiting" && isReady(room)) transmit(label);
}

// The server has answered a text by its copy. Answers whether the line stands where the copy would: before nothing but
// texts that are on their way themselves. Another is taken away for the copy.
function delivered(label, time) {
  const text = texts.get(label);
  if (!text) return false;
  texts.delete(label);
  const { room, line } = text;
  const later = room.lines.slice(room.lines.indexOf(line) + 1);
  if (!later.every((it) => it.state === "sending")) {
    removeLine(line, room);
    return false;
  }
  Object.assign(line, { time, state: "" });
  settle(line);
  return true;
}

function refuse(label, why) {
  const text = texts.get(label);
  if (!text) return false;
  texts.delete(label);
  become(text.line, "refused", why);
  return true;
}

function refuseWaiting(room) {
  for (const [label, text] of [...texts]) {
    if (text.line.state === "waiting" && text.room === room) refuse(label, `you aren't on ${room.name}`);
  }
}

// What was sent and not answered before the connection ended may have been delivered or not: the user decides.
function doubtSent() {
  for (const { line } of texts.values()) if (line.state === "sending") become(line, "unsure");
}

function sayAgain(line) {
  const { room } = texts.get(line.label);
  texts.delete(line.label);
  removeLine(line, room);
  tell(room.name, line.text, line.form);
}

// ---- The field: what was said before, completion, keys ----

const said = []; // the newest last
let saidAt = 0; // which of them is in the field
let unsaid = ""; // what was in the field before
let completing = null;

function remember(text) {
  if (said[said.length - 1] !== text) said.push(text);
  if (said.length > 100) said.shift();
  saidAt = said.length;
}

function recall(step) {
  const next = saidAt + step;
  if (next < 0 || next > said.length) return;
  if (saidAt === said.length) unsaid = at("text").value;
  saidAt = next;
  fill(saidAt === said.length ? unsaid : said[saidAt]);
}

function fill(text, cursor = text.length) {
  at("text").value = text;
  at("text").setSelectionRange(cursor, cursor);
}

// What a word may go on to: commands, channels, and the people here, who spoke last first.
function candidates(word, isFirst) {
  const fits = (name) => fold(name).startsWith(fold(word));
  if (isFirst && word[0] === "/") return Object.keys(commands).map((it) => `/${it} `).filter(fits);
  const channels = [...rooms.values()].map((it) => it.name).filter(isChannel);
  if (isChannel(word)) return channels.filter(fits).map((it) => `${it} `);
  const people = [...currentRoom().people.values()].filter((it) => fits(it.name) && !isMe(it.name));
  people.sort((a, b) => b.spoke - a.spoke || (fold(a.name) < fold(b.name) ? -1 : 1));
  const found = people.map((it) => it.name);
  if (here() && !isChannel(here()) && fits(here())) found.push(here());
  return found.map((it) => it + (isFirst ? ": " : " "));
}

// Completes the word before the cursor, or goes on to the next that fits. Answers whether there was one.
function complete() {
  const isFirst = !completing;
  if (isFirst) completing = completionOf(at("text").value, at("text").selectionStart);
  const { front, found, rest, next } = completing;
  if (!found.length || (!isFirst && found.length === 1)) {
    completing = null;
    return false;
  }
  completing.next = (next + 1) % found.length;
  fill(front + found[next] + rest, front.length + found[next].length);
  return true;
}

function completionOf(text, cursor) {
  const word = /\S*$/.exec(text.slice(0, cursor))[0];
  const front = text.slice(0, cursor - word.length);
  return { front, found: word ? candidates(word, !front) : [], rest: text.slice(cursor), next: 0 };
}

function scroll(pages) {
  at("lines").scrollBy({ top: pages * at("lines").clientHeight * 0.9 });
}

function stepRoom(step) {
  const all = [...rooms.values()];
  const next = all[all.indexOf(currentRoom()) + step];
  if (next) show(next.name);
}

const FIELD_KEYS = {
  ArrowUp: () => recall(-1),
  ArrowDown: () => recall(1),
  PageUp: () => scroll(-1),
  PageDown: () => scroll(1),
};

at("text").onkeydown = (event) => {
  if (event.isComposing) return;
  const isTab = event.key === "Tab" && !event.shiftKey && !event.ctrlKey && !event.altKey;
  if (isTab) {
    if (complete()) event.preventDefault();
    return;
  }
  completing = null;
  if (event.altKey || event.ctrlKey || event.metaKey || event.shiftKey) return;
  if (!Object.hasOwn(FIELD_KEYS, event.key)) return;
  event.preventDefault();
  FIELD_KEYS[event.key]();
};

at("text").oninput = () => {
  completing = null;
  hint("");
};

// (a field of one line would run the pasted lines together)
at("text").onpaste = (event) => {
  const text = event.clipboardData.getData("text");
  if (!/[\r\n]/.test(text)) return;
  event.preventDefault();
  const { value, selectionStart, selectionEnd } = at("text");
  const pasted = text.trim().replace(/[\r\n]+/g, " ");
  fill(value.slice(0, selectionStart) + pasted + value.slice(selectionEnd), selectionStart + pasted.length);
};

at("say").onsubmit = (event) => {
  event.preventDefault();
  const text = at("text").value;
  if (!text.trim()) return;
  at("text").value = "";
  hint("");
  isFollowing = true;
  // (what can't be done stays, so that it can be mended)
  if (speak(text)) remember(text);
  else if (!at("text").value) at("text").value = text;
  paintSoon();
};

document.onkeydown = (event) => {
  if (event.key === "Escape" && at("side").classList.contains("open")) {
    closePeople();
    at("who").focus();
  }
  if (at("chat").hidden || !event.altKey || !["ArrowUp", "ArrowDown"].includes(event.key)) return;
  event.preventDefault();
  stepRoom(event.key === "ArrowUp" ? -1 : 1);
};

// ---- The connection ----

function newSocket(address) {
  if (!/^wss?:\/\//i.test(address)) return null;
  try {
    return new WebSocket(address, ["text.ircv3.net"]);
  } catch {
    return null;
  }
}

function addressFault(address) {
  const isUnsafe = location.protocol === "https:" && /^ws:/i.test(address);
  if (isUnsafe) return "A page that came by https may connect to wss:// alone.";
  return `${address} is no address of a WebSocket, such as ws://127.0.0.1:8067.`;
}

function connect(password = "") {
  clearTimeout(retryTimer);
  const socket = newSocket(wish.server);
  if (!socket) return giveUp(addressFault(wish.server), "server");
  const own = (link = newLink(socket, password));
  const ifOwn = (run) => (event) => own === link && run(event);
  socket.onopen = ifOwn(register);
  socket.onmessage = ifOwn(({ data }) => hear(data));
  socket.onclose = ifOwn(() => isLeaving || closed());
  setTimeout(ifOwn(() => link.isRegistered || lost(`Nobody welcomes us at ${wish.server}.`)), PATIENCE);
}

const closed = () => lost(link.isOpen ? "The connection has ended." : `Nobody answers at ${wish.server}.`);

function register() {
  link.isOpen = true;
  nick = wish.nick;
  send("CAP", "LS", "302");
  send("NICK", nick);
  send("USER", isNickname(nick) ? nick : "page", "0", "*", `:${nick}`);
}

const WANTED = ["message-tags", "server-time", "echo-message", "labeled-response", "batch"];

function negotiate(verb, lists) {
  const list = wordsOf(lists[lists.length - 1] || "").map((it) => it.split("=")[0]);
  if (verb === "LS") {
    link.offered.push(...list);
    if (lists[0] !== "*") requestCaps();
  }
  if (verb === "ACK") for (const cap of list) link.caps.add(cap);
  if (verb === "ACK" && link.password && link.caps.has("sasl")) return send("AUTHENTICATE", "PLAIN");
  if ((verb === "ACK" || verb === "NAK") && !isOnline()) send("CAP", "END");
}

// (an echo is of use where it can be told which text it is of)
function requestCaps() {
  const wanted = WANTED.every((it) => link.offered.includes(it)) ? [...WANTED] : WANTED.slice(0, 2);
  if (link.password) wanted.push("sasl");
  const found = wanted.filter((it) => link.offered.includes(it));
  if (link.password && !found.includes("sasl")) return giveUp("This server has no login.", "account");
  if (found.length) send("CAP", "REQ", `:${found.join(" ")}`);
  else send("CAP", "END");
}

// SASL PLAIN (RFC 4616), in pieces of 400 letters. The password is forgotten as soon as it is sent.
function sendPassword() {
  const octets = new TextEncoder().encode(`\0${wish.account}\0${link.password}`);
  const letters = btoa(String.fromCharCode(...octets));
  link.password = "";
  for (let from = 0; from < letters.length; from += 400) send("AUTHENTICATE", letters.slice(from, from + 400));
  if (letters.length % 400 === 0) send("AUTHENTICATE", "+");
}

function loginFailed(why) {
  if (isOnline()) return fault(currentName(), why);
  giveUp(why, "account");
}

function askPassword() {
  at("againAccount").value = wish.account;
  at("asking").returnValue = "";
  at("asking").showModal();
}

at("asking").onclose = () => {
  const [account, password] = [at("againAccount").value.trim(), at("againPassword").value];
  at("againPassword").value = "";
  if (at("asking").returnValue !== "login" || !isOnline()) return;
  Object.assign(wish, { account });
  link.password = password;
  if (link.caps.has("sasl")) send("AUTHENTICATE", "PLAIN");
  else send("CAP", "REQ", "sasl");
  save();
};

// Another has the nickname. After a reload that is most likely the page's last connection, which is about to end.
function anotherNick(taken) {
  link.nickTries += 1;
  if (link.isBack && link.nickTries <= 3) {
    const own = link;
    return setTimeout(() => own === link && !link.isRegistered && send("NICK", wish.nick), 400 * link.nickTries);
  }
  const places = link.nickTries - (link.isBack ? 3 : 0);
  if (places > 5) return giveUp(`The nickname ${wish.nick} is in use.`, "nick");
  nick = wish.nick.slice(0, nickLength - places) + "_".repeat(places);
  send("NICK", nick);
}

const isEntered = () => !at("chat").hidden;

function welcomed(own, text, time) {
  nick = own;
  Object.assign(link, { isRegistered: true, password: "", welcomedAt: Date.now() });
  if (!isEntered()) openChat();
  note("", text, time);
  tellNews(own);
  if (!link.isBack) wish.nick = own;
  for (const channel of wish.channels) send("JOIN", channel, keys.get(fold(channel)) || "");
  for (const room of rooms.values()) if (room.isComing) send("JOIN", room.name, keys.get(fold(room.name)) || "");
  sendWaiting();
  save();
  paintSoon();
}

function tellNews(own) {
  const { news, account } = link;
  const { nick: wanted } = wish;
  if (!isSame(own, wanted)) news.push(`The nickname ${wanted} is in use, so you are ${own}. /nick takes another.`);
  if (wish.account && !account) news.push("You aren't logged in: the page keeps no password. /login asks for it.");
  if (account) note("", `You are logged in as ${account}`);
  for (const it of news) fault("", it);
}

// The connection is no more, and the user didn't want that.
function lost(why) {
  const { isRegistered, end, socket, welcomedAt } = link;
  // (a server that welcomes and ends at once isn't tried ever again at once)
  if (isRegistered && Date.now() - welcomedAt > PATIENCE) tries = 0;
  link = null;
  socket.onclose = null;
  socket.close();
  const text = end ? `${why} The server said: ${end}` : why;
  if (!isEntered()) return giveUp(text, "server");
  doubtSent();
  for (const room of rooms.values()) {
    if (isRegistered && (room.isOn || !room.name)) fault(room.name, text);
    if (room.isOn) Object.assign(room, { isOn: false, isComing: true });
  }
  retry();
  paintSoon();
}

// Tries again after a pause, which grows.
function retry() {
  const pause = PAUSES[Math.min(tries, PAUSES.length - 1)] * (1 + Math.random() / 5);
  tries += 1;
  retryAt = Date.now() + pause * 1000;
  clearTimeout(retryTimer);
  retryTimer = setTimeout(() => connect(), pause * 1000);
}

function retryNow() {
  if (wish && !link) connect();
}

function paintState() {
  at("status").hidden = isOnline();
  if (isOnline()) return;
  write(at("state"), link ? "Connecting again …" : "Not connected. The page tries again by itself.");
  const seconds = Math.max(0, Math.ceil((retryAt - Date.now()) / 1000));
  write(at("pause"), link ? "" : `(${seconds} s)`);
  at("again").hidden = Boolean(link);
}

// Looks once a second how the connection is.
function look() {
  if (isEntered() && !isOnline()) paintState();
  if (!isOnline()) return;
  const now = Date.now();
  if (link.askedAt && now - link.askedAt > PATIENCE) return lost("The server is silent.");
  if (link.askedAt || now - link.heardAt < SILENCE) return;
  link.askedAt = now;
  send("PING", "page");
}

// Ends what there is for good, and goes back to the entrance.
function giveUp(text, field) {
  const socket = link && link.socket;
  clearTimeout(retryTimer);
  [wish, link, tries] = [null, null, 0];
  if (socket) socket.close();
  rooms.clear();
  texts.clear();
  at("chat").hidden = true;
  at("door").hidden = false;
  trouble(text);
  save();
  tellTitle();
  if (field === "account" || field === "password") at("login").open = true;
  if (!field) return;
  at(field).focus();
  at(field).select();
}

// Tells where a password would go: the address may come from a link that somebody else made.
function tellWhere() {
  const { host, hostname, protocol } = urlOf(at("server").value) || {};
  const isOpen = protocol === "ws:" && !["127.0.0.1", "[::1]", "localhost"].includes(hostname);
  const where = host ? `The password is sent to ${host}${isOpen ? ", where others on the way can read it" : ""}.` : "";
  write(at("where"), `${where} The page doesn't keep it.`.trim());
}

function trouble(text, isCalm) {
  at("trouble").textContent = text;
  at("trouble").className = isCalm ? "calm" : "";
}

function openChat() {
  trouble("");
  at("door").hidden = true;
  at("chat").hidden = false;
  if (!rooms.has(current)) show("");
}

function enter() {
  const name = at("nick").value.trim();
  const [account, password] = [at("account").value.trim(), at("password").value];
  at("password").value = "";
  if (link) giveUp("");
  if (!isNickname(name)) return giveUp(nickFault(name), "nick");
  if (account && !password) return giveUp("An account needs its password.", "password");
  const channels = at("channel").value.split(/[\s,]+/).filter((it) => it).map(asChannel);
  at("channel").value = channels.join(",");
  wish = { server: at("server").value.trim(), nick: name, account: password ? account || name : "", channels };
  trouble("Connecting …", true);
  connect(password);
}

// ---- What a reload keeps: in the tab's own storage, without passwords and keys ----

const STORED = "halld";

function save() {
  try {
    if (!wish) return sessionStorage.removeItem(STORED);
    const kept = [...rooms.values()].map(saved);
    const settings = { notify: at("notify").checked, sound: at("sound").checked };
    if (rooms.has(current)) kept.find((it) => it.name === currentName()).draft = at("text").value;
    sessionStorage.setItem(STORED, JSON.stringify({ page: location.href, wish, current, kept, settings }));
  } catch {
    // (the storage is full, or there is none: a reload keeps what it kept before)
  }
}

function saved({ name, topic, lines, draft, isOn, isComing }) {
  const last = lines.filter((it, place) => place >= lines.length - SAVED || it.state);
  return { name, topic, lines: last, draft, isOn: isOn || isComing };
}

const OPEN = ["waiting", "sending", "unsure"]; // a text that isn't done with

function restored() {
  try {
    const kept = JSON.parse(sessionStorage.getItem(STORED));
    return kept && kept.page === location.href ? kept : null;
  } catch {
    return null;
  }
}

function restore(kept) {
  wish = kept.wish;
  nick = wish.nick;
  for (const { name, topic, lines, draft, isOn } of kept.kept) {
    const room = Object.assign(roomOf(name), { topic, draft, isComing: isOn });
    room.lines = lines.map((it) => ({ ...it, time: new Date(it.time) }));
    for (const line of room.lines.filter((it) => OPEN.includes(it.state))) keepText(room, line);
  }
  doubtSent();
  at("notify").checked = kept.settings.notify;
  at("sound").checked = kept.settings.sound;
  openChat();
  current = "";
  at("text").value = roomOf("").draft;
  show(rooms.has(kept.current) ? roomOf(kept.current).name : "");
  connect();
}

// ---- What the user does ----

at("entrance").onsubmit = (event) => {
  event.preventDefault();
  enter();
};

at("server").oninput = tellWhere;

at("lines").onscroll = () => {
  const list = at("lines");
  isFollowing = list.scrollHeight - list.scrollTop - list.clientHeight < 40;
  if (isFollowing) at("newer").hidden = true;
};

at("newer").onclick = () => {
  isFollowing = true;
  paint();
  at("text").focus();
};

at("who").onclick = () => {
  if (at("side").classList.contains("open")) closePeople();
  else openPeople();
};
at("close").onclick = () => {
  closePeople();
  at("who").focus();
};
at("leave").onclick = () => command("part", "");
at("next").onclick = () => {
  if (waitingRoom()) show(waitingRoom().name);
};
at("again").onclick = retryNow;
at("notify").onchange = wantNotifications;
at("sound").onchange = save;
at("more").onclick = () => {
  fill("/join #");
  at("text").focus();
};

new ResizeObserver(showCurrentRow).observe(at("rooms"));
new ResizeObserver(() => {
  if (isFollowing) at("lines").scrollTop = at("lines").scrollHeight;
}).observe(at("lines"));

window.onfocus = seen;
window.ononline = retryNow;
document.onvisibilitychange = () => {
  if (document.hidden) save();
  else seen();
};
// (some browsers end the connection before the page is hidden: no reason to tell of it)
window.onbeforeunload = () => {
  isLeaving = true;
  setTimeout(() => {
    isLeaving = false;
    if (link && link.socket.readyState === WebSocket.CLOSED) closed();
  }, 2000);
};
window.onpagehide = () => {
  save();
  if (link) link.socket.close();
};
window.onpageshow = ({ persisted }) => {
  if (persisted) retryNow();
};
setInterval(look, 1000);

// ---- The start: what the tab kept, or the entrance ----

// Where nothing else is said (?nick=..&channel=..&server=..): the machine that the page came from, or this one.
const asked = new URLSearchParams(location.search);
const isSecure = location.protocol === "https:";
const usual = isSecure ? `wss://${location.host}/irc` : `ws://${location.hostname || "127.0.0.1"}:8067`;
const kept = restored();
at("server").value = asked.get("server") || kept?.wish.server || usual;
at("channel").value = asked.get("channel") || "#lobby";
at("nick").value = asked.get("nick") || kept?.wish.nick || "";
tellWhere();
if (kept) restore(kept);
