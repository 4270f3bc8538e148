// The keys.
import { $, app, ask, beside, choose, letGo, showPart, tell, undo } from "./app.js";
import { find } from "./find.js";
import { moveInTabs } from "./lists.js";
import { disarm, moveInValues, suggest, toggleLock } from "./values.js";
import * as R from "./replies.js";
import { drawGhosts } from "./weekview.js";
import { add } from "./grid.js";

const KEYS = [["/", "find"], ["n", "the next unplaced class"], ["s", "suggest for the chosen class"], ["l", "lock it, or unlock it"],
  ["p", "go to its places"], ["w", "go to the week"], ["g", "its places in the week, on or off"], ["Arrows", "move among its places, or the lists"],
  ["Enter", "put it there"], ["Ctrl+Z", "undo"], ["Alt+← →", "the week before, the next"], ["Esc", "let it be, let go"], [":", "write a command"], ["?", "these keys"]];

const MOST_MISSING = 20_000;
const nextUnplaced = async () => {
  const answer = await ask(["violations"], { most: { violations: MOST_MISSING } });
  if (!answer) return;
  const { missing } = R.violations(answer.replies[0]);
  if (!missing.length) { tell("Every class has its place."); return; }
  await choose(missing[(missing.indexOf(app.chosen) + 1) % missing.length], true);
  showPart("panel");
};
const toPlaces = () => document.querySelector("#values .value[tabindex='0']")?.focus();
const LETTERS = {
  "/": () => find(), ":": () => $("command").focus(), "?": () => $("keys").showModal(), n: nextUnplaced, p: toPlaces,
  s: () => { if (app.chosen !== null) suggest(); }, l: () => toggleLock(), w: () => $("week").focus(),
  g: () => { $("ghosts").checked = !$("ghosts").checked; drawGhosts(); },
};

const escape = (event, writing) => {
  if (app.armed) disarm();
  else if (writing) event.target.blur();
  else if (app.chosen !== null) letGo();
};
const arrows = event => {
  if (event.target.classList?.contains("value")) { moveInValues(event); return; }
  if (event.target.getAttribute?.("role") !== "tab") return;
  const by = { ArrowRight: 1, ArrowDown: 1, ArrowLeft: -1, ArrowUp: -1 }[event.key];
  event.preventDefault();
  moveInTabs(by);
};
const pressed = event => {
  const writing = ["INPUT", "SELECT", "TEXTAREA"].includes(event.target.tagName) && event.target.type !== "checkbox";
  const command = event.ctrlKey || event.metaKey;
  if ($("keys").open) return;
  if (command && event.key.toLowerCase() === "z" && !event.shiftKey && !(writing && event.target.value)) {
    event.preventDefault();
    if (!$("undo").disabled) undo();
  } else if (event.altKey && (event.key === "ArrowLeft" || event.key === "ArrowRight")) {
    event.preventDefault();
    beside(event.key === "ArrowLeft" ? -1 : 1);
  } else if (event.key === "Escape") escape(event, writing);
  else if (writing || command || event.altKey) return;
  else if (event.key.startsWith("Arrow")) arrows(event);
  else if ($("letters").checked && LETTERS[event.key]) { event.preventDefault(); LETTERS[event.key](); }
};

export const setUpKeys = () => {
  for (const [key, words] of KEYS) {
    add(add($("keyList"), "dt"), "kbd", key);
    add($("keyList"), "dd", words);
  }
  $("help").addEventListener("click", () => $("keys").showModal());
  document.addEventListener("keydown", pressed);
};
