// The lists: what is unplaced, what is to be looked at, where the total comes from, what has moved, the steps.
import { $, app, isRunning, MOST_LISTED, onDrawOfList, onState, setTab, undo } from "./app.js";
import { about, button, classItem, classLink, keepingFocus, link, plainList, ruleItem } from "./parts.js";
import * as R from "./replies.js";
import { head } from "./talk.js";
import * as W from "./words.js";
import { add, clock } from "./grid.js";

const totals = () => R.totals(app.state.totals);
const TABS = [
  ["unplaced", "Unplaced", () => totals().unplaced], ["look", "To look at", () => totals().hard],
  ["costs", "Costs", () => null], ["moved", "Moved", () => totals().moved], ["steps", "Steps", () => app.state.stepCount]];

const section = (list, words, items, write, left = 0) => {
  add(list, "h3", words);
  if (!items.length) { add(list, "p", "None.", "soft"); return; }
  const made = plainList(list);
  for (const item of items.slice(0, MOST_LISTED)) write(made, item);
  const more = left + Math.max(0, items.length - MOST_LISTED);
  if (more) add(list, "p", `and ${W.count(more)} more`, "soft");
};

const drawUnplaced = (list, { violations, left }) => {
  if (!violations.missing.length) { add(list, "p", "Every class has its place.", "soft"); return; }
  const made = plainList(list);
  for (const id of violations.missing) classItem(made, id, about(id));
  if (left.class) add(list, "p", `and ${W.count(left.class)} more`, "soft");
};

const pairItem = (list, words, [one, other], after = "") => {
  const item = add(list, "li", words);
  classLink(item, one);
  item.append(" and ");
  classLink(item, other);
  item.append(after);
};
const drawLook = (list, { violations, left, places }) => {
  const { clashes, closed, pairs, amounts, students } = violations;
  const where = id => (places.get(id) ? W.whereOf(id, places.get(id)) : about(id));
  section(list, "Clashes in a room", clashes, (made, pair) => pairItem(made, "", pair, `: ${where(pair[0])}`), left.clash);
  section(list, "In a room while it is closed", closed, (made, id) => classItem(made, id, where(id)), left.closed);
  section(list, "Required rules that are broken", [...pairs, ...amounts], (made, one) => {
    if (one.classes) pairItem(made, `${W.ruleWords(one.k)}: `, one.classes); else ruleItem(made, one.k, `amount ${one.amount}`, "bad");
  }, left.rule);
  section(list, "Students without valid classes", students, (made, id) => link(add(made, "li"), "student", id), left.student);
};

const drawCosts = (list, { costs, left }) => {
  if (!costs) { add(list, "p", "They are being added up.", "soft"); return; }
  section(list, "Most students in conflict", costs.conflicts, (made, one) => classItem(made, one.id, W.many(one.conflicts, "conflict")));
  section(list, "Dearest places", costs.penalties, (made, one) => classItem(made, one.id, `penalties: time ${one.time}, room ${one.room}`));
  if (left.class) add(list, "p", `and ${W.many(left.class, "more class", "more classes")} with conflicts or penalties`, "soft");
  section(list, "Rules that cost", costs.rules, (made, rule) => ruleItem(made, rule.k, `costs ${rule.cost}`), left.rule);
};

const dayBits = text => [...text].reduce((all, bit, day) => all + (bit === "1" ? 2 ** day : 0), 0);
const drawMoved = (list, { moved }) => {
  if (totals().moved === null) { add(list, "p", "Nothing is published yet.", "soft"); return; }
  if (!moved.length) { add(list, "p", "All is as it is published.", "soft"); return; }
  const made = plainList(list);
  for (const one of moved.slice(0, MOST_LISTED)) {
    const start = clock(Math.floor(Number(one.start) * 1440 / head.slots));
    classItem(made, one.id, `published: ${W.daysWord(dayBits(one.days))} ${start}, ${W.roomWord(one.room)}`);
  }
  if (moved.length > MOST_LISTED) add(list, "p", `and ${W.count(moved.length - MOST_LISTED)} more`, "soft");
};

const drawSteps = list => {
  const { steps, stepCount } = app.state;
  if (!steps.length) { add(list, "p", "Nothing is done yet.", "soft"); return; }
  const made = add(list, "ol", undefined, "plain steps");
  [...steps].reverse().forEach((step, back) => {
    const item = add(made, "li"), now = R.totals(step.totals);
    add(item, "span", step.label);
    add(item, "span", `total ${W.count(now.total)}, unplaced ${W.count(now.unplaced)}, hard ${W.count(now.hard)}`
      + (step.count > 1 ? ` · ${step.count} commands` : ""), "soft");
    const own = button(item, back ? "Undo to here" : "Undo", () => undo(back + 1), "small");
    own.dataset.key = `step-${stepCount - back}`;
    own.title = back ? `Takes back these ${back + 1} steps` : "";
    own.setAttribute("aria-label", `Undo ${back ? `${back + 1} steps, back to before` : "the last step"}: ${step.label}`);
    own.disabled = isRunning();
  });
  if (stepCount > steps.length) add(list, "p", `and ${W.count(stepCount - steps.length)} earlier ones`, "soft");
};

const DRAW = { unplaced: drawUnplaced, look: drawLook, costs: drawCosts, moved: drawMoved, steps: drawSteps };

const drawTabs = () => {
  if (!app.state) return;
  keepingFocus($("tabs"), () => {
    $("tabs").replaceChildren();
    for (const [key, words, number] of TABS) {
      const made = button($("tabs"), words, () => setTab(key)), count = number();
      made.id = `tab-${key}`;
      made.setAttribute("role", "tab");
      made.setAttribute("aria-selected", key === app.tab);
      made.setAttribute("aria-controls", "list");
      made.tabIndex = key === app.tab ? 0 : -1;
      if (count !== null) add(made, "span", W.count(count), count && key !== "steps" ? "badge on" : "badge");
    }
  });
};
export const moveInTabs = async by => {
  const at = TABS.findIndex(([key]) => key === app.tab);
  await setTab(TABS[(at + by + TABS.length) % TABS.length][0]);
  $(`tab-${app.tab}`).focus();
};

// A list that is the same as before has only another class that is chosen.
let drawn = null, whileSearching = false;
const markChosen = list => {
  for (const one of list.querySelectorAll(".class")) {
    if (one.dataset.id === String(app.shown.chosen)) one.setAttribute("aria-current", "true"); else one.removeAttribute("aria-current");
  }
};
const drawList = () => {
  const list = $("list"), own = app.shown.list, { tab } = own, searching = Boolean(app.state.search);
  list.setAttribute("aria-labelledby", `tab-${tab}`);
  list.setAttribute("aria-busy", !(own.version >= app.shown.version));
  if (own === drawn && searching === whileSearching) { markChosen(list); return; }
  drawn = own;
  whileSearching = searching;
  const draw = () => {
    list.replaceChildren();
    if (searching && tab !== "steps") add(list, "p", "While a search runs, this is a moment old.", "soft");
    DRAW[tab](list, own);
  };
  if (list.dataset.of === tab) keepingFocus(list, draw); else { list.dataset.of = tab; list.scrollTop = 0; draw(); }
};

export const setUpLists = () => {
  onState(drawTabs);
  onDrawOfList(drawTabs);
  onDrawOfList(drawList);
};
