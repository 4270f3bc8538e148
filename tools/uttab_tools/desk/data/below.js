// What stands below the week: a room's closures, the classes of a course or a teacher, the classes and sections of a student.
import { $, app, isRunning, perform, valueOf } from "./app.js";
import { closureWeeks, ownClosures } from "./closures.js";
import { button, classLink, link, plainList, table } from "./parts.js";
import { head, part } from "./talk.js";
import * as W from "./words.js";
import { add } from "./grid.js";

// A room.

const field = (form, words, value, id) => {
  const label = add(form, "label", `${words} `), made = add(label, "input");
  made.value = value;
  made.size = 7;
  made.id = id;
  return made;
};
const dayBoxes = form => {
  const set = add(form, "fieldset");
  add(set, "legend", "Days");
  return head.days.map((name, day) => {
    const label = add(set, "label", undefined, "check"), box = add(label, "input");
    box.type = "checkbox";
    box.checked = true;
    box.id = `day${day}`;
    label.append(name.slice(0, 3));
    return box;
  });
};
const closureLine = (room, days, from, to, weeks, said) => {
  const start = W.slotAt(from), end = W.slotAt(to), weekSet = W.weekText(weeks);
  if (start === null || end === null || end <= start) { said.textContent = "Hours are written as 13:00, the later one behind."; return null; }
  if (!weekSet) { said.textContent = "Weeks are written as 5-14, or 1, 3, 5."; return null; }
  if (!days.includes("1")) { said.textContent = "No day is chosen."; return null; }
  return `close ${room} ${days} ${start} ${end - start} ${weekSet}`;
};
const drawCloser = (below, room) => {
  const form = add(below, "form", undefined, "close");
  add(form, "h3", "Close this room");
  const days = dayBoxes(form), from = field(form, "from", "00:00", "closeFrom"), to = field(form, "to", "24:00", "closeTo");
  const weeks = field(form, "weeks", head.weekCount > 1 ? `1-${head.weekCount}` : "1", "closeWeeks");
  const made = add(form, "button", "Close");
  made.id = "close";
  made.disabled = isRunning();
  const said = add(form, "p", "", "bad");
  said.id = "closeSaid";
  said.setAttribute("role", "status");
  form.addEventListener("submit", event => {
    event.preventDefault();
    const line = closureLine(room, days.map(box => (box.checked ? "1" : "0")).join(""), from.value, to.value, weeks.value, said);
    if (!line) return;
    made.focus();
    perform([line], `${W.roomWord(room)} closed`, "closeSaid");
  });
};
const drawClosures = (below, room) => {
  const own = ownClosures(room), name = W.roomWord(room);
  const hit = app.shown.ids.filter(id => valueOf(id)?.r === room && app.shown.explained.get(id).closed);
  if (own.length) {
    add(below, "h3", "Closed here");
    const list = plainList(below);
    for (const one of own) add(list, "li", `${W.daysWord(one.days)} ${W.hours(one)}, ${closureWeeks(one.text)}`);
    const again = button(below, "Reopen the room", () => perform([`reopen ${room}`], `${name} reopened`));
    again.id = "reopen";
    again.disabled = isRunning();
  }
  if (!hit.length) return;
  add(below, "h3", `${W.many(hit.length, "class meets", "classes meet")} here while it is closed`);
  const list = plainList(below);
  for (const id of hit) classLink(add(list, "li"), id);
  const out = button(below, hit.length > 1 ? `Take out these ${hit.length}` : "Take it out", () =>
    perform(hit.map(id => `unassign ${id}`), `${W.many(hit.length, "class", "classes")} of ${name} taken out`));
  out.id = "takeOutHit";
  out.disabled = isRunning();
};

// The classes of a course or a teacher.

const classRow = (body, id) => {
  const one = part("class", id), found = app.shown.explained.get(id), value = valueOf(id), row = add(body, "tr");
  const name = add(row, "th");
  name.scope = "row";
  classLink(name, id, app.shown.view.kind === "course" ? one.name || `Class ${id}` : one.label);
  add(row, "td", one.part);
  const time = value && W.timeOf(id, value);
  add(row, "td", time ? W.when(time) : "not placed", time ? "" : "bad");
  add(row, "td", time ? W.weeksWord(time) : "");
  const room = add(row, "td");
  if (value && value.r !== "-") link(room, "room", value.r); else room.textContent = value ? "no room" : "";
  add(row, "td", W.seats(one, found.students));
  add(row, "td", found.conflicts ? W.count(found.conflicts) : "", found.conflicts ? "odd" : "");
  add(row, "td", app.shown.locked.has(id) ? "locked" : "");
};
const drawClasses = (below, ids, caption) => {
  const body = table(below, ["Class", "Part", "Time", "Weeks", "Room", "Students", "Conflicts", "Lock"], caption);
  for (const id of ids) classRow(body, id);
  const free = ids.filter(id => valueOf(id) && !app.shown.locked.has(id));
  if (!free.length) return;
  const lock = button(below, free.length > 1 ? `Lock these ${free.length} classes` : "Lock this class", () =>
    perform(free.map(id => `lock ${id}`), `${W.many(free.length, "class", "classes")} locked`));
  lock.id = "lockThese";
  lock.disabled = isRunning();
};

// A student.

const partsOf = course => {
  const parts = new Map();
  for (const id of course.classes) {
    const words = part("class", id).part;
    if (!parts.has(words)) parts.set(words, []);
    parts.get(words).push(id);
  }
  return parts;
};
const optionWords = id => {
  const one = part("class", id), value = valueOf(id);
  return `${one.name || `class ${id}`}: ${value ? W.whenShort(W.timeOf(id, value)) : "not placed"}, ${W.seats(one, app.shown.explained.get(id).students)}`;
};
const conflictWords = id => app.shown.student.pairs.filter(pair => pair.includes(id)).map(pair => W.say(pair.find(other => other !== id))).join("; ");
const sectionRow = (body, course, words, ids, first) => {
  const row = add(body, "tr"), name = add(row, first ? "th" : "td"), had = ids.find(id => app.shown.student.classes.includes(id));
  if (first) {
    name.scope = "row";
    link(name, "course", course.id, course.label);
  }
  add(row, "td", words);
  const select = add(add(row, "td"), "select");
  select.setAttribute("aria-label", `${course.label}, ${words}`);
  add(select, "option", "–").value = "";
  for (const id of ids) add(select, "option", optionWords(id)).value = id;
  select.value = had === undefined ? "" : String(had);
  add(row, "td", had === undefined ? "" : conflictWords(had), "bad");
  return select;
};
const drawStudent = (below, id) => {
  const student = part("student", id), picked = [], name = student.label;
  const body = table(below, ["Course", "Part", "Class", "Conflicts with"], "Courses and classes of the student");
  for (const course of student.courses) {
    let first = true;
    for (const [words, ids] of partsOf(course)) { picked.push(sectionRow(body, course, words, ids, first)); first = false; }
  }
  const acts = add(below, "p", undefined, "acts"), said = add(below, "p", "", "bad");
  said.id = "sectionSaid";
  said.setAttribute("role", "status");
  const act = (words, line, label, own) => {
    const made = button(acts, words, () => perform([line()], label, "sectionSaid"));
    made.id = own;
    made.disabled = isRunning();
  };
  act("Take these classes", () => ["section", id, ...picked.map(pick => pick.value).filter(Boolean)].join(" "), `${name} sectioned`, "section");
  act("Enrol with the fewest conflicts", () => `enrol ${id}`, `${name} enrolled`, "enrol");
  if (app.shown.student.classes.length) act("Take all classes away", () => `drop ${id}`, `${name} dropped`, "drop");
};

const isWriting = below => below.contains(document.activeElement) && ["INPUT", "SELECT"].includes(document.activeElement.tagName);
export const drawBelow = () => {
  const below = $("below"), { kind, id } = app.shown.view, of = `${kind} ${id}`;
  if (isWriting(below) && below.dataset.of === of) return;
  const focus = below.contains(document.activeElement) ? document.activeElement.id : "";
  below.dataset.of = of;
  below.replaceChildren();
  if (kind === "room") { drawClosures(below, id); drawCloser(below, id); }
  else if (kind === "student") drawStudent(below, id);
  else drawClasses(below, app.shown.ids, `Classes of ${W.labelOf(kind, id)}`);
  if (focus) $(focus)?.focus({ preventScroll: true });
};
