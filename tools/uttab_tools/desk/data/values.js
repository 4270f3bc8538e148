// The chosen class: what it costs, all its places with what each would cost, and what may be done with it.
import { $, app, ask, draw, isRunning, letGo, onDraw, perform, request, setBusy, tell, valueOf } from "./app.js";
import { about, button, classLink, keepingFocus, link, plainList, ruleItem } from "./parts.js";
import * as R from "./replies.js";
import { know, part } from "./talk.js";
import * as W from "./words.js";
import { add } from "./grid.js";

const MOST_ROOMS = 12, MOST_NAMES = 200, LEVELS = 4;

// A value of the chosen class, by "T R".

export const valueAt = key => app.shown.values?.get(key);
const totalNow = () => R.totals(app.state.totals).total;
const stepOf = value => W.signed(value.trial - totalNow());

// How dear a free place is among the free ones: 0 is the cheapest.
let levels = { least: 0, most: 0 };
const findLevels = () => {
  const trials = [...app.shown.values.values()].filter(value => value.kind === "free").map(value => value.trial);
  levels = trials.length ? { least: trials.reduce((a, b) => Math.min(a, b)), most: trials.reduce((a, b) => Math.max(a, b)) } : { least: 0, most: 0 };
};
const levelOf = value => (levels.most === levels.least ? 0 : Math.min(LEVELS - 1, Math.floor(LEVELS * (value.trial - levels.least) / (levels.most - levels.least))));
export const kindClass = value => (value.kind === "free" ? `free c${levelOf(value)}` : value.kind === "closed" || value.kind === "rule" ? "blocked" : value.kind);

export const shortOf = key => {
  const value = valueAt(key);
  if (value.kind === "closed") return "closed";
  if (value.kind === "rule") return `rule ${value.rule}`;
  if (value.kind === "locked") return "locked";
  if (app.armed === key) return `move ${value.out} out?`;
  return value.kind === "out" ? `${value.out} out ${stepOf(value)}` : stepOf(value);
};
const judgement = (key, value) => {
  if (value.kind === "closed") return "the room is closed then";
  if (value.kind === "rule") return `rule ${value.rule} forbids it: ${W.ruleWords(value.rule)}`;
  if (value.kind === "locked") return `${W.say(value.locked)} is in the way, and is locked`;
  const cost = `total ${W.count(value.trial)} (${stepOf(value)})`;
  if (value.kind === "free") return `free; ${cost}`;
  const why = app.shown.whys.get(key);
  return `${value.out} would have to go${why ? `: ${why.map(W.say).join("; ")}` : ""}; ${cost} with them still there`
    + (app.armed === key ? ". Once more to do it, Esc to let it be." : "");
};
export const wordsOf = key => {
  const value = valueAt(key), time = W.timeOf(app.shown.chosen, value);
  return `${W.whenLong(time)}, ${W.roomWord(value.r)}: ${judgement(key, value)}`;
};

// Says a value in words, and asks who would have to go.
let saying = null;
export const sayValue = async key => {
  const value = valueAt(key), { shown } = app, detail = $("detail");
  if (!value || !detail) return;
  saying = key;
  const write = () => { detail.className = kindClass(value); detail.textContent = wordsOf(key); };
  write();
  if (value.kind !== "out" || shown.whys.has(key)) return;
  const answer = await ask([`why ${shown.chosen} ${key}`]);
  if (!answer || shown !== app.shown) return;
  const classes = R.why(answer.replies[0]).out.map(out => out.id);
  await know({ class: classes });
  shown.whys.set(key, classes);
  if (saying === key && shown === app.shown) write();
};

// Places the chosen class. Where others have to go it asks first, unless the class was dragged there.
export const placeAt = async (key, dragged = false) => {
  const value = valueAt(key), { chosen } = app.shown;
  if (!value) return;
  if (isRunning()) { tell("A search is running: stop it first.", "bad"); return; }
  if (value.kind !== "free" && value.kind !== "out") { sayValue(key); return; }
  if (value.kind === "out" && !dragged && app.armed !== key) {
    app.armed = key;
    draw();
    sayValue(key);
    return;
  }
  app.armed = null;
  const label = `${W.say(chosen)} to ${W.when(W.timeOf(chosen, value))}, ${W.roomWord(value.r)}`;
  await perform([`${value.kind === "out" ? "force" : "assign"} ${chosen} ${key}`], label, "detail");
};
export const disarm = () => { app.armed = null; draw(); };

// The table of places: times × rooms.

const shownRooms = (one, all) => {
  if (!one.rooms.length) return ["-"];
  if (all || one.rooms.length <= MOST_ROOMS) return one.rooms;
  const best = new Map();
  for (const value of app.shown.values.values()) {
    const rank = value.kind === "free" ? value.trial : value.kind === "out" ? 1e12 * value.out + value.trial : 1e15;
    if (!(best.get(value.r) <= rank)) best.set(value.r, rank);
  }
  const wanted = new Set([valueOf(app.shown.chosen)?.r, app.shown.view.kind === "room" ? app.shown.view.id : null]);
  const rank = room => (wanted.has(room) ? -1 : best.get(room) ?? 1e16);
  const some = new Set([...one.rooms].sort((a, b) => rank(a) - rank(b)).slice(0, MOST_ROOMS));
  return one.rooms.filter(room => some.has(room));
};
const roomHead = (row, room) => {
  const cell = add(row, "th");
  cell.scope = "col";
  if (room === "-") { cell.textContent = "no room"; return; }
  const own = link(cell, "room", room);
  if (app.shown.view.kind === "room" && app.shown.view.id === room) own.setAttribute("aria-current", "true");
};
// Whether the times of a class are in different weeks.
export const haveSeveralWeeks = id => new Set(part("class", id).times.map(time => time.weeks)).size > 1;
const timeHead = (row, time) => {
  const name = add(row, "th");
  name.scope = "row";
  name.append(`${W.daysWord(time.days)} `);
  add(name, "span", W.hours(time), "h");
  if (haveSeveralWeeks(app.shown.chosen)) add(name, "span", W.weeksWord(time), "w");
};
const valueCell = (row, key, first) => {
  const cell = add(row, "td"), value = valueAt(key), present = valueOf(app.shown.chosen);
  if (present && key === `${present.t} ${present.r}`) { cell.className = "here"; cell.textContent = "here"; return false; }
  if (!value) { cell.textContent = "…"; return false; }
  const best = value.kind === "free" && value.trial === levels.least;
  const made = button(cell, shortOf(key), () => placeAt(key), `value ${kindClass(value)}${best ? " best" : ""}${app.armed === key ? " armed" : ""}`);
  made.dataset.key = key;
  made.setAttribute("aria-label", wordsOf(key));
  made.tabIndex = first ? 0 : -1;
  made.addEventListener("pointerenter", () => sayValue(key));
  made.addEventListener("focus", () => sayValue(key));
  return true;
};
let allRooms = false;
const drawValues = panel => {
  const { chosen, valuesLeft } = app.shown, one = part("class", chosen), rooms = shownRooms(one, allRooms);
  findLevels();
  add(panel, "h3", "Places");
  add(panel, "p", "What the total would change by; “out” tells how many classes would have to go.", "soft small");
  const table = add(add(panel, "div", undefined, "values"), "table"), header = add(add(table, "thead"), "tr");
  table.id = "values";
  add(table, "caption", "Times and rooms of the class, with the change of the total", "v");
  add(header, "th", "Time").scope = "col";
  for (const room of rooms) roomHead(header, room);
  const body = add(table, "tbody");
  let first = true;
  one.times.forEach((time, at) => {
    const row = add(body, "tr");
    timeHead(row, time);
    for (const room of rooms) if (valueCell(row, `${at + 1} ${room}`, first)) first = false;
  });
  if (rooms.length < one.rooms.length) {
    const more = add(panel, "p", `The ${rooms.length} best of ${one.rooms.length} rooms. `, "soft small");
    button(more, "Show all", () => { allRooms = true; draw(); }, "link");
  }
  if (valuesLeft) add(panel, "p", `${W.count(valuesLeft)} more places aren’t shown.`, "soft small");
};

export const moveInValues = event => {
  const cell = event.target.closest("td"), row = cell.parentElement, rows = [...row.parentElement.children];
  const cells = which => [...which.children];
  let line = rows.indexOf(row), place = cells(row).indexOf(cell);
  const [down, right] = { ArrowDown: [1, 0], ArrowUp: [-1, 0], ArrowRight: [0, 1], ArrowLeft: [0, -1] }[event.key];
  for (;;) {
    line += down;
    place += right;
    const next = rows[line] && cells(rows[line])[place];
    if (!next) return;
    const made = next.querySelector(".value");
    if (made) {
      event.preventDefault();
      document.querySelectorAll("#values .value[tabindex='0']").forEach(one => { one.tabIndex = -1; });
      made.tabIndex = 0;
      made.focus();
      return;
    }
  }
};

// What the class costs.

const drawCosts = (panel, id) => {
  const found = app.shown.explained.get(id), list = plainList(panel, "costs"), one = part("class", id);
  const item = add(list, "li", W.seats(one, found.students));
  if (found.conflicts) item.append(`, ${W.many(found.conflicts, "conflict")}`);
  if (valueOf(id)) add(list, "li", `Penalties: time ${found.time}, room ${found.room}`);
  if (found.closed) add(list, "li", "Its room is closed then", "bad");
  for (const other of found.clashes) classLink(add(list, "li", "Clash with ", "bad"), other);
  for (const rule of found.rules) ruleItem(list, rule.k, rule.required ? `required, amount ${rule.amount}` : `costs ${rule.cost}`, rule.required ? "bad" : "");
  if (!app.shown.meets.length) return;
  const whole = add(add(list, "li"), "details");
  add(whole, "summary", `Conflicts with ${W.many(app.shown.meets.length, "class", "classes")}`);
  const others = plainList(whole);
  for (const meet of [...app.shown.meets].sort((a, b) => b.count - a.count)) {
    const own = add(others, "li");
    classLink(own, meet.id);
    own.append(` ${W.many(meet.count, "student")}`);
  }
};

// What was asked of the class beside: suggestions, whom it pushed out, who attends it.

const advise = async (kind, inquire) => {
  const id = app.shown.chosen;
  app.advice = { kind, id, items: [], waiting: true };
  draw();
  await inquire(app.advice, id);
  if (app.advice?.id !== id) return;
  app.advice.waiting = false;
  draw();
};
export const suggest = () => advise("suggest", async (advice, id) => {
  for (const depth of [1, 2, 3]) {
    const slow = setTimeout(() => setBusy(true), 400);
    const answer = await ask([`suggest ${id} ${depth}`]);
    clearTimeout(slow);
    setBusy(false);
    if (!answer || app.advice !== advice) return;
    const reply = answer.replies[0], found = R.suggest(reply);
    await know({ class: found.sets.map(set => set.id) });
    advice.items.push({ depth, refused: R.refusal(reply), ...found });
    draw();
  }
});
const pushedOut = () => advise("stats", async (advice, id) => {
  const answer = await ask([`stats ${id}`]);
  if (!answer) return;
  advice.items = R.stats(answer.replies[0]).sort((a, b) => b.count - a.count).slice(0, 30);
  await know({ class: advice.items.map(one => one.out) });
});
const attending = () => advise("attending", async (advice, id) => { advice.items = (await request("attending", { id }))?.students ?? []; });

const carryOut = one => perform(one.sets.map(set => `force ${set.id} ${set.t} ${set.r}`), `Suggestion for ${W.say(app.shown.chosen)}`, "detail", one.sets.map(set => set.id));
const drawSuggestion = (list, one, before) => {
  const item = add(list, "li"), scope = one.depth === 1 ? "This class alone" : `At most ${one.depth} classes`;
  if (one.refused) { add(item, "p", `${scope}: ${W.refusalWords(one.refused)}`, "bad"); return; }
  if (!one.sets.length) { add(item, "p", `${scope}: none, of ${W.many(one.tried, "place")} tried`, "soft"); return; }
  if (before && JSON.stringify(before.sets) === JSON.stringify(one.sets)) { add(item, "p", `${scope}: the same`, "soft"); return; }
  const step = one.total - totalNow(), line = add(item, "p", `${scope}: total ${W.count(one.total)} `);
  add(line, "b", W.signed(step), step > 0 ? "worse" : "better");
  if (one.moved !== null) line.append(`, moved ${one.moved}`);
  const sets = add(item, "ol");
  for (const set of one.sets) add(sets, "li", `${W.say(set.id)} → ${W.whereOf(set.id, set)}`);
  const own = button(item, one.sets.length > 1 ? `Do these ${one.sets.length}` : "Do this", () => carryOut(one), "main");
  own.id = `advice-${one.depth}`;
  own.disabled = isRunning();
};
const ADVICE = {
  suggest: ["Suggestions", (list, items) => items.forEach((one, at) => drawSuggestion(list, one, items[at - 1])), ""],
  stats: ["Whom it has pushed out", (list, items) => { for (const one of items) { const item = add(list, "li"); classLink(item, one.out); item.append(` ${W.many(one.count, "time")}`); } }, "Nobody so far."],
  attending: ["Who attends it", (list, items) => {
    for (const [id, label] of items.slice(0, MOST_NAMES)) link(add(list, "li"), "student", id, label);
    if (items.length > MOST_NAMES) add(list, "li", `and ${W.count(items.length - MOST_NAMES)} more`, "soft");
  }, "Nobody so far."],
};
const drawAdvice = panel => {
  const { advice } = app, box = add(panel, "div");
  box.id = "advice";
  if (!advice || advice.id !== app.shown.chosen) return;
  const [words, write, none] = ADVICE[advice.kind];
  add(box, "h3", words);
  const list = plainList(box, advice.kind);
  write(list, advice.items);
  if (advice.waiting) add(box, "p", "Looking …", "soft");
  else if (!advice.items.length) add(box, "p", none, "soft");
};

// The panel.

const drawNobody = panel => {
  add(panel, "h2", "No class is chosen");
  add(panel, "p", "Choose a class in the week, in a list, or by its name at the top. All its places are shown here and in the week, with what each would cost. Click one, or drag the class there.", "soft");
  add(panel, "p", "? shows the keys.", "soft");
};
const drawHead = (panel, id, value) => {
  const one = part("class", id);
  add(panel, "h2", one.label).id = "panelHead";
  const line = add(panel, "p", `${about(id)} · `, "soft");
  link(line, "course", one.course, "its course");
  for (const [teacher, name] of one.teachers) { line.append(" · "); link(line, "teacher", teacher, name); }
  if (one.parent) { line.append(" · with "); classLink(line, ...one.parent); }
  const place = add(panel, "p", undefined, "place");
  if (!value) {
    add(place, "strong", "Not placed", "bad");
    if (!app.shown.valuesLeft) place.append(`: ${W.placesWords(app.shown.values)}`);
    return;
  }
  place.append(`${W.whenLong(one.times[value.t - 1])}, `);
  if (value.r === "-") place.append("no room"); else link(place, "room", value.r);
  if (app.shown.locked.has(id)) { place.append(" "); add(place, "b", "locked", "lock"); }
};
const drawActs = (panel, id, value) => {
  const acts = add(panel, "p", undefined, "acts"), locked = app.shown.locked.has(id), name = W.say(id);
  const act = (words, run, own, changes = false) => { const made = button(acts, words, run); made.id = own; made.disabled = changes && isRunning(); };
  act("Suggest", suggest, "suggest");
  if (value) act(locked ? "Unlock" : "Lock", () => toggleLock(), "lock", true);
  if (value) act("Take out", () => perform([`unassign ${id}`], `${name} taken out`, "detail"), "takeOut", true);
  act("Who attends", attending, "attending");
  act("Pushed out", pushedOut, "stats");
  act("Let go", letGo, "letGo");
};
export const toggleLock = () => {
  const { chosen: id, locked } = app.shown;
  if (id === null || !valueOf(id)) return null;
  return perform([`${locked.has(id) ? "unlock" : "lock"} ${id}`], `${W.say(id)} ${locked.has(id) ? "unlocked" : "locked"}`, "detail");
};
let scrolled = 0;  // how far the panel is scrolled
const drawPanel = () => {
  const whole = $("panel"), id = app.shown.chosen, same = whole.dataset.of === String(id);
  if (!same) { allRooms = false; scrolled = 0; }
  whole.dataset.of = id;
  keepingFocus(whole, () => {
    whole.replaceChildren();
    const panel = add(whole, "div", undefined, "scroll");
    if (id === null) { drawNobody(panel); return; }
    const value = valueOf(id);
    drawHead(panel, id, value);
    drawActs(panel, id, value);
    drawCosts(panel, id);
    drawAdvice(panel);
    drawValues(panel);
    const detail = add(whole, "p", "Point at a place, or move to it, to see who would have to go.", "soft");
    detail.id = "detail";
    detail.setAttribute("aria-live", "polite");
    if (scrolled) panel.scrollTop = scrolled;
    panel.addEventListener("scroll", () => { scrolled = panel.scrollTop; }, { passive: true });
  });
};

export const setUpPanel = () => { onDraw(drawPanel); };
