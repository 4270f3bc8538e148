// What the page shows, and how it learns of it. Each part of the page draws itself when it is told to, by `onDraw`.
import * as R from "./replies.js";
import { head, know, LOST, part, post } from "./talk.js";
import * as W from "./words.js";

export const MOST_LISTED = 200;
// How many lines of a reply are handed over: the first, or those of the largest numbers.
const MOST = { violations: MOST_LISTED, values: 20_000, costs: 50 };
const LARGEST = { costs: R.COSTS };

export const $ = id => document.getElementById(id);

const FIRST = ["room", "course", "student"].find(kind => head.counts[kind]);

export const app = {
  state: null,                                    // what the server said last
  earlier: null,                                  // the totals before the last change
  view: { kind: FIRST, id: head.first[FIRST] },   // whose week it is
  weeks: "all",                                   // which weeks are shown: all, or a list of alike ones, from 0
  chosen: null,                                   // the class that is chosen
  armed: null,                                    // the value that was clicked once, and has classes that would go
  advice: null,                                   // what was asked of the chosen class beside
  tab: "unplaced",
  shown: null,                                    // what the program said of all this
};

// Each part of the page draws itself; where another list is all that changes, those that draw the list.
const draws = [], listDraws = [];
export const onDraw = draw => { draws.push(draw); };
export const onDrawOfList = draw => { draws.push(draw); listDraws.push(draw); };
export const draw = () => { if (app.shown) draws.forEach(one => one()); };

export const tell = (words, className = "") => {
  $("told").textContent = words;
  $("told").className = className;
};

// Talking to the server.

// What takes longer is told, so that nobody clicks again.
let awaited = 0;
const told = async answer => {
  let late = false;
  const slow = setTimeout(() => { late = true; awaited += 1; document.body.classList.add("waiting"); }, 700);
  try {
    return await answer;
  } finally {
    clearTimeout(slow);
    if (late) awaited -= 1;
    document.body.classList.toggle("waiting", awaited > 0);
  }
};

export const request = async (place, body) => {
  let answer;
  try {
    answer = await told(post(place, body));
  } catch (error) {
    tell(error.message, "bad");
    return null;
  }
  if (answer.error) tell(answer.error, "bad");
  adopt(answer.state);
  return answer;
};

export const ask = async (lines, more = {}) => {
  const answer = await request("ask", { lines, ...more });
  return answer && !answer.error ? answer : null;
};

// Sends what changes something, and shows what came of it. The words of a refusal stand at the top and in `where`.
let underWay = 0, was = null;
export const change = async (place, body, where) => {
  if (!underWay) was = app.state.totals;
  const slow = setTimeout(() => setBusy(true), 300);
  underWay += 1;
  const answer = await request(place, body);
  underWay -= 1;
  clearTimeout(slow);
  setBusy(false);
  if (!answer || answer.error) {
    if (answer) await refresh();
    return null;
  }
  const refused = answer.replies.map(R.refusal).find(Boolean);
  if (refused) {
    await know({ class: refused.words.map(Number).filter(Number.isInteger), rule: refused.words.map(Number).filter(Number.isInteger) });
    const words = W.refusalWords(refused);
    tell(words, "bad");
    const near = $(where);
    if (near) { near.textContent = words; near.className = "bad"; }
    return answer;
  }
  app.earlier = R.totals(was);
  const gone = [...new Set(answer.replies.flatMap(R.outs))].filter(id => !(body.moving || []).includes(id));
  await know({ class: gone });
  const own = answer.replies.flatMap(R.others);
  tell(`${body.label}${own.length ? ` (${own.join("; ")})` : ""}.${gone.length ? ` Out: ${gone.map(W.say).join("; ")}.` : ""}`);
  await refresh();
  return answer;
};
export const perform = (lines, label, where, moving) => change("do", { lines, label, moving }, where);
export const undo = (steps = 1) => {
  const last = app.state.steps.at(-1);
  return change("undo", { count: steps, label: steps > 1 ? `${steps} steps undone` : `Undone${last ? `: ${last.label}` : ""}` });
};

// While a command runs long, it can be stopped.
export const setBusy = busy => {
  if (document.body.classList.contains("busy") === busy) return;
  document.body.classList.toggle("busy", busy);
  drawState();
};

// What the server says of the desk's state.

const stateDraws = [];
export const onState = draw => { stateDraws.push(draw); };
const drawState = () => stateDraws.forEach(one => one());

export const adopt = next => {
  if (!next || (app.state && next.seen < app.state.seen)) return;
  const old = app.state;
  app.state = next;
  if (next.search) app.earlier = R.totals(next.search.from);
  else if (old && old.totals !== next.totals) app.earlier = R.totals(underWay ? was : old.totals);
  if (next.fault) tell(next.fault, "bad");
  else if (old?.search && !next.search && next.notice) sayNotice(next.notice);
  drawState();
  if (old && Boolean(old.search) !== Boolean(next.search)) draw();
};
const sayNotice = ({ word, why, turns, seconds, from }) => {
  if (from) app.earlier = R.totals(from);
  tell(`${word}: ${why}${turns === undefined ? "" : `, after ${W.turnsWord(word, turns)} in ${seconds.toFixed(1)} s`}.`);
};

// Shows what changed without this page: a search's slices, another page's commands. While a search runs, a quarter of the
// time at most goes into it.
let handled = -1, catching = false, lately = 0, took = 0;
const catchUp = async () => {
  const { state } = app;
  if (underWay || catching || state.replaying || state.fault || state.version === handled) return;
  if (state.search && Date.now() - lately < Math.max(2000, 4 * took)) return;
  catching = true;
  const began = Date.now();
  try {
    await refresh();
  } finally {
    lately = Date.now();
    took = lately - began;
    catching = false;
  }
  if (handled >= 0) catchUp();
};
export const follow = () => {
  const events = new EventSource("events");
  events.onmessage = event => { adopt(JSON.parse(event.data)); catchUp(); };
  events.onerror = () => tell(LOST, "bad");
  events.onopen = () => { if ($("told").textContent === LOST) tell("The desk answers again."); };
};

// What is shown: asked for anew after each change, all of it at once, but for a list that takes longer, which follows.

let turn = 0;
export const refresh = async () => {
  const own = ++turn, { view, chosen, tab, state: { version } } = app;
  handled = version;
  const shown = await load({ view, chosen, tab, version }, () => own === turn);
  if (own !== turn) return;
  if (!shown) { handled = -1; return; }
  app.shown = shown;
  app.armed = null;
  draw();
  if (shown.list.version !== version) await showList(shown);
};

// The list alone, beside what is shown already.
const showList = async shown => {
  const own = ++turn, { tab, state: { version } } = app, question = QUESTION[tab];
  const answer = question ? await ask([question], { most: MOST, largest: LARGEST }) : null;
  if ((question && !answer) || own !== turn) return;
  const list = await newList(tab, version, answer?.replies[0], answer?.left[0]);
  await know(namedInList(list));
  if (own !== turn) return;
  shown.list = list;
  listDraws.forEach(one => one());
};

// What is asked for each list; `version` is that of the timetable of which it tells.
const QUESTION = { unplaced: "violations", look: "violations", costs: "costs" };
const SLOW = "costs";
const newList = async (tab, version, reply, left = {}) => {
  const list = { tab, version, left, text: [...reply?.slice(0, -1) ?? [], left.class].join("\n") }, old = app.shown?.list;
  if (tab === "unplaced" && old?.tab === tab && old.text === list.text) return Object.assign(old, { version });
  if (QUESTION[tab] === "violations") list.violations = R.violations(reply);
  if (tab === "costs") list.costs = topCosts(R.costs(reply));
  if (tab === "look") list.places = await placesOf([...list.violations.clashes.map(pair => pair[0]), ...list.violations.closed]);
  if (tab === "moved") list.moved = (await request("moved", {}))?.moved ?? [];
  return list;
};
// The list that stands, where it still holds or the new one takes longer.
const keptList = (tab, version) => {
  const list = app.shown?.list;
  if (list?.tab === tab && (list.version === version || tab === SLOW)) return list;
  return tab === SLOW ? { tab } : null;
};

const load = async ({ view, chosen, tab, version }, wanted) => {
  const shown = { view, chosen, version, whys: new Map(), list: keptList(tab, version) };
  if (view.kind === "student") {
    const answer = await ask([`student ${view.id}`]);
    if (!answer) return null;
    shown.student = R.student(answer.replies[0]);
  }
  await know({ [view.kind]: [view.id] });
  shown.ids = part(view.kind, view.id).classes;
  const ids = [...new Set(chosen === null ? shown.ids : [...shown.ids, chosen])];
  const lines = ids.map(id => `explain ${id}`);
  if (chosen !== null) lines.push(`values ${chosen}`, `meets ${chosen}`);
  if (!shown.list && QUESTION[tab]) lines.push(QUESTION[tab]);
  const answer = wanted() ? await ask(lines, { most: MOST, largest: LARGEST, locked: ids }) : null;
  if (!answer) return null;
  const { replies, left, locked } = answer;
  shown.explained = new Map(ids.map((id, at) => [id, R.explain(replies[at])]));
  shown.locked = new Set(locked);
  if (chosen !== null) {
    shown.values = R.values(replies[ids.length]);
    shown.valuesLeft = left[ids.length].value || 0;
    shown.meets = R.meets(replies[ids.length + 1]);
  }
  shown.list ??= await newList(tab, version, replies.at(-1), left.at(-1));
  const week = namedInWeek(shown), list = namedInList(shown.list);
  await know({ class: [...week.class, ...list.class], rule: [...week.rule, ...list.rule], student: list.student });
  return shown;
};

// Where some placed classes are.
const placesOf = async classes => {
  const ids = [...new Set(classes)], answer = ids.length ? await ask(ids.map(id => `explain ${id}`)) : null;
  return new Map(answer ? ids.map((id, at) => [id, R.explain(answer.replies[at]).value]) : []);
};

const top = (list, key) => list.filter(key).sort((a, b) => key(b) - key(a)).slice(0, MOST.costs);
const topCosts = ({ rules, classes }) => ({
  rules: top(rules, one => one.cost), conflicts: top(classes, one => one.conflicts), penalties: top(classes, one => one.time + one.room) });

// The parts that are named by the week and the chosen class.
const namedInWeek = ({ explained, meets = [], values }) => {
  const classes = [...explained.keys(), ...meets.map(one => one.id)], rules = [];
  for (const one of explained.values()) {
    classes.push(...one.clashes);
    rules.push(...one.rules.map(rule => rule.k));
  }
  for (const value of values?.values() || []) {
    if (value.rule) rules.push(value.rule);
    if (value.locked !== undefined) classes.push(value.locked);
  }
  return { class: classes, rule: rules };
};

// The parts that are named by a list.
const namedInList = ({ violations, costs, moved = [] }) => {
  const classes = moved.slice(0, MOST_LISTED).map(one => one.id), rules = [], students = [];
  if (violations) {
    const { missing, clashes, closed, pairs, amounts, students: without } = violations;
    classes.push(...missing, ...clashes.flat(), ...closed, ...pairs.flatMap(pair => pair.classes));
    rules.push(...pairs.map(pair => pair.k), ...amounts.map(one => one.k));
    students.push(...without.slice(0, MOST_LISTED));
  }
  if (costs) {
    rules.push(...costs.rules.map(rule => rule.k));
    classes.push(...costs.conflicts.map(one => one.id), ...costs.penalties.map(one => one.id));
  }
  return { class: classes, rule: rules, student: students };
};

// Choosing what is shown.

export const explained = id => app.shown?.explained.get(id);
export const valueOf = id => explained(id)?.value ?? null;
export const isRunning = () => Boolean(app.state.search || document.body.classList.contains("busy"));

export const showPart = name => { document.body.dataset.part = name; };

export const choose = async (id, fromList = false) => {
  if (app.chosen !== id) { app.chosen = id; app.armed = null; app.advice = null; }
  await know({ class: [id] });
  if (!part("class", id)) return;
  if (fromList) await bringIntoView(id);
  await refresh();
};
const bringIntoView = async id => {
  const { rooms, course } = part("class", id);
  const answer = await ask([`explain ${id}`]);
  if (!answer) return;
  const { value } = R.explain(answer.replies[0]);
  const { view } = app;
  if (view.kind === "student" && app.shown?.student?.classes.includes(id)) return;
  if (view.kind === "course" && view.id === course) return;
  if (view.kind === "room" && (value ? value.r === view.id : rooms.includes(view.id))) return;
  const room = value ? value.r : rooms[0] ?? "-";
  app.view = room === "-" ? { kind: "course", id: course } : { kind: "room", id: room };
  app.weeks = "all";
};
export const letGo = () => {
  app.chosen = null;
  app.armed = null;
  app.advice = null;
  return refresh();
};
export const look = async (kind, id) => {
  app.view = { kind, id };
  app.weeks = "all";
  showPart("week");
  await refresh();
};
export const beside = async by => {
  const answer = await request("beside", { kind: app.view.kind, id: app.view.id, by });
  if (answer && !answer.error) await look(app.view.kind, answer.id);
};
export const setTab = async tab => {
  app.tab = tab;
  const { shown } = app, holds = shown && shown.version === app.state.version && shown.view === app.view && shown.chosen === app.chosen;
  await (holds ? showList(shown) : refresh());
};
