// The week of a room, a course, a student or a teacher, and in it the places that the chosen class may have.
import { $, app, beside, choose, draw, look, onDraw, valueOf } from "./app.js";
import { drawBelow } from "./below.js";
import { closureWeeks, ownClosures } from "./closures.js";
import { find } from "./find.js";
import { button, keepingFocus } from "./parts.js";
import { head, listOf, part, weekSets } from "./talk.js";
import { haveSeveralWeeks, kindClass, placeAt, sayValue, shortOf, wordsOf } from "./values.js";
import * as W from "./words.js";
import { add, addBox, drawWeek, inLanes } from "./grid.js";

const MOST_PICKS = 400, MOST_KINDS_OF_WEEKS = 60, COLOURS = 6;
const KINDS = [["room", "a room"], ["course", "a course"], ["student", "a student"], ["teacher", "a teacher"]];

const frame = { firstHour: head.firstHour, lastHour: head.lastHour, heading: "h3",
  days: head.days.slice(0, head.shownDays).map((name, day) => [day, name]) };
let lists = new Map();

// Which week.

let picksOf = null;
const drawPicks = async () => {
  const { kind, id } = app.shown.view, which = $("which"), few = head.counts[kind] <= MOST_PICKS;
  $("kind").value = kind;
  $("weekHead").textContent = W.labelOf(kind, id);
  which.hidden = !few;
  $("pick").hidden = few;
  if (few && picksOf !== kind) {
    picksOf = kind;
    const all = await listOf(kind);
    if (picksOf !== kind) return;
    which.replaceChildren();
    for (const [one, label] of all) add(which, "option", label).value = one;
  }
  which.value = String(app.shown.view.id);
};

const has = (set, week) => weekSets[set].text[week] === "1";
// The weeks in which the same of these sets hold: each as a list of weeks, from 0.
const alike = sets => {
  const groups = new Map();
  for (let week = 0; week < head.weekCount; week += 1) {
    const key = sets.map(set => weekSets[set].text[week]).join("");
    if (!groups.has(key)) groups.set(key, []);
    groups.get(key).push(week);
  }
  return [...groups.values()];
};
const drawWeeks = sets => {
  const select = $("weeks"), groups = alike([...new Set(sets)]), own = app.weeks === "all" ? "all" : JSON.stringify(app.weeks);
  select.replaceChildren();
  add(select, "option", "all weeks together").value = "all";
  if (groups.length > 1) for (const group of groups.slice(0, MOST_KINDS_OF_WEEKS)) add(select, "option", (group.length > 1 ? "weeks " : "week ") + W.runs(group)).value = JSON.stringify(group);
  if (![...select.options].some(option => option.value === own)) app.weeks = "all";
  select.value = app.weeks === "all" ? "all" : own;
};
const inShownWeeks = set => app.weeks === "all" || has(set, app.weeks[0]);

const onEachDay = (items, put) => {
  for (const [day, list] of lists) put(list, items.filter(item => item.time.days >> day & 1).map(item => ({ ...item, start: item.time.start, end: item.time.end })));
};

const drawClosed = room => {
  const first = head.firstHour * 60, last = head.lastHour * 60;
  const own = ownClosures(room).filter(one => app.weeks === "all" || one.text[app.weeks[0]] === "1").map(one => ({ time: one, words: closureWeeks(one.text) }));
  const given = part("room", room).closed.filter(one => inShownWeeks(one.weeks)).map(one => ({ time: one, words: W.weeksWord(one) }));
  onEachDay([...given, ...own], (list, items) => {
    for (const item of items) {
      const start = Math.max(item.start, first), end = Math.min(item.end, last);
      if (start >= end) continue;
      const box = addBox(list, frame, { start, end }, "z");
      add(box, "span", `closed ${W.hours(item.time)}${app.weeks === "all" ? `, ${item.words}` : ""}`);
    }
  });
};

// The meetings.

export const classesInView = () => {
  const { view, ids, student } = app.shown;
  if (view.kind === "student") return student.classes;
  return view.kind === "room" ? ids.filter(id => valueOf(id)?.r === view.id) : ids;
};
export const marksOf = id => {
  const found = app.shown.explained.get(id);
  const pairs = app.shown.student?.pairs.filter(pair => pair.includes(id)).length ?? 0;
  return [found.closed && "room closed", found.clashes.length && "clash", found.rules.some(rule => rule.required) && "rule broken",
    pairs && W.many(pairs, "conflict")].filter(Boolean);
};
const boxWords = (own, id, time) => {
  const one = part("class", id), found = app.shown.explained.get(id), { view } = app.shown;
  const name = one.name || `Class ${id}`;
  add(own, "strong", view.kind === "course" ? name : one.courseLabel);
  if (view.kind !== "course") own.append(` ${one.name || `class ${id}`}`);
  add(own, "br");
  const where = view.kind === "room" ? [] : [W.roomWord(valueOf(id).r)];
  own.append([...where, ...(app.weeks === "all" && W.weeksWord(time) !== "all weeks" ? [W.weeksWord(time)] : []), W.hours(time)].join(", "));
  if (view.kind !== "student") add(own, "span", W.many(found.students, "student") + (found.conflicts ? `, ${W.many(found.conflicts, "conflict")}` : ""), "count");
};
const drawMeeting = (list, item) => {
  const { id, time } = item, marks = marksOf(id), colour = part("class", id).colour % COLOURS;
  const box = addBox(list, frame, item, `m k${colour}${marks.length ? " x" : ""}${id === app.shown.chosen ? " chosen" : ""}`);
  const whole = button(box, undefined, () => choose(id), "box"), own = add(whole, "span");
  whole.dataset.id = id;
  if (id === app.shown.chosen) whole.setAttribute("aria-current", "true");
  if (marks.length) { add(own, "b", marks.join(", "), "bad"); own.append(" "); }
  if (app.shown.locked.has(id)) { add(own, "b", "locked", "lock"); own.append(" "); }
  boxWords(own, id, time);
};

// The places of the chosen class: in a room's week those in the room, else the best room of each time. Times that differ
// in their weeks alone stand as the best of them, while all weeks are shown together.
const rank = value => ({ free: 0, out: 1, locked: 2, closed: 3, rule: 3 })[value.kind] * 1e15 + (value.out || 0) * 1e12 + (value.trial || 0);
const ghostValues = () => {
  const { chosen, view, values } = app.shown;
  if (chosen === null || !values || (view.kind !== "room" && !app.shown.ids.includes(chosen))) return [];
  const one = part("class", chosen), present = valueOf(chosen), groups = new Map();
  for (const [key, value] of values) {
    const time = one.times[value.t - 1];
    if (!inShownWeeks(time.weeks) || (view.kind === "room" && value.r !== view.id && value.r !== "-")) continue;
    if (value.kind === "closed" || value.kind === "rule" || (present?.t === value.t && present?.r === value.r)) continue;
    const group = app.weeks === "all" ? `${time.days} ${time.start} ${time.end}` : value.t;
    const known = groups.get(group);
    if (!known) groups.set(group, { key, value, time, weeks: new Set([time.weeks]) });
    else {
      known.weeks.add(time.weeks);
      if (rank(value) < rank(known.value)) Object.assign(known, { key, value, time });
    }
  }
  return [...groups.values()];
};
const drawGhost = (list, item) => {
  const box = addBox(list, frame, item, `g ${kindClass(item.value)}${item.lanes > 1 ? " narrow" : ""}${app.armed === item.key ? " armed" : ""}`);
  const own = button(box, undefined, () => placeAt(item.key), "box");
  own.dataset.key = item.key;
  own.setAttribute("aria-label", wordsOf(item.key));
  add(own, "strong", shortOf(item.key));
  add(own, "span", W.hours(item.time), "hours");
  if (app.shown.view.kind !== "room") add(own, "span", W.roomWord(item.value.r));
  if (app.weeks === "all" && haveSeveralWeeks(app.shown.chosen)) add(own, "span", W.weeksWord(item.time) + (item.weeks.size > 1 ? `, best of ${item.weeks.size}` : ""));
  const others = on => document.querySelectorAll(`#grid .g .box[data-key="${item.key}"]`).forEach(same => same.parentElement.classList.toggle("on", on));
  for (const [event, on] of [["pointerenter", true], ["focus", true], ["pointerleave", false], ["blur", false]]) {
    own.addEventListener(event, () => { others(on); if (on) sayValue(item.key); });
  }
};
export const drawGhosts = dragged => {
  document.querySelectorAll("#grid .g").forEach(one => one.remove());
  const all = $("ghosts").checked || dragged ? ghostValues() : [];
  $("grid").classList.toggle("placing", all.length > 0);
  onEachDay(all, (list, items) => {
    list.classList.toggle("split", items.length > 0);
    list.classList.toggle("many", inLanes(items).some(item => item.lanes > 1));
    for (const item of items) drawGhost(list, item);
  });
};

const drawGrid = () => {
  const { view } = app.shown, placed = classesInView().filter(id => valueOf(id));
  const items = placed.map(id => ({ id, time: W.timeOf(id, valueOf(id)) }));
  const closed = view.kind === "room" ? part("room", view.id).closed : [];
  drawWeeks([...items.map(item => item.time.weeks), ...closed.map(time => time.weeks)]);
  keepingFocus($("grid"), () => {
    $("grid").replaceChildren();
    lists = drawWeek($("grid"), frame);
    if (view.kind === "room") drawClosed(view.id);
    onEachDay(items.filter(item => inShownWeeks(item.time.weeks)), (list, own) => { for (const item of inLanes(own)) drawMeeting(list, item); });
    drawGhosts();
  });
};

const changeKind = () => {
  const kind = $("kind").value, one = app.chosen === null ? null : part("class", app.chosen), room = valueOf(app.chosen)?.r;
  const of = { course: one?.course, room: typeof room === "number" ? room : undefined, teacher: one?.teachers[0]?.[0] };
  look(kind, of[kind] ?? head.first[kind]);
};

export const setUpWeek = () => {
  for (const [kind, words] of KINDS) if (head.counts[kind]) add($("kind"), "option", words).value = kind;
  $("kind").addEventListener("change", changeKind);
  $("which").addEventListener("change", () => look(app.view.kind, Number($("which").value)));
  $("pick").addEventListener("click", () => find(app.view.kind));
  $("before").addEventListener("click", () => beside(-1));
  $("after").addEventListener("click", () => beside(1));
  $("weeks").addEventListener("change", () => { app.weeks = $("weeks").value === "all" ? "all" : JSON.parse($("weeks").value); draw(); });
  $("ghosts").addEventListener("change", () => drawGhosts());
  onDraw(drawPicks);
  onDraw(drawGrid);
  onDraw(drawBelow);
};
