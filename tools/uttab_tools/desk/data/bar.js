// What stands at the top: the totals, what was said last, a running search, and what is done to all at once. At the foot a
// line for any command.
import { $, app, ask, change, draw, onDraw, onState, perform, request, tell, undo } from "./app.js";
import * as R from "./replies.js";
import { head } from "./talk.js";
import * as W from "./words.js";
import { add } from "./grid.js";

const NUMBERS = [["unplaced", "Unplaced"], ["hard", "Hard conflicts"], ["total", "Total"], ["student", "Student"], ["time", "Time"],
  ["room", "Room"], ["distribution", "Rules"], ["unsectioned", "Unsectioned"], ["moved", "Moved"]];
const ALARMING = ["unplaced", "hard", "unsectioned"];

const drawTotals = () => {
  const now = R.totals(app.state.totals), before = app.earlier, list = $("totals");
  for (const [key, words] of NUMBERS) {
    const cell = $(`cell-${key}`) || cellOf(list, key, words);
    const step = before && now[key] !== null && before[key] !== null ? now[key] - before[key] : 0;
    cell.className = ALARMING.includes(key) && now[key] ? "warn" : key === "total" ? "main" : "";
    $(`total-${key}`).textContent = now[key] === null ? "–" : W.count(now[key]);
    $(`step-${key}`).textContent = step ? W.signed(step) : "";
    $(`step-${key}`).className = step > 0 ? "worse" : "better";
  }
};
const cellOf = (list, key, words) => {
  const cell = add(list, "div");
  cell.id = `cell-${key}`;
  add(cell, "dt", words);
  add(cell, "dd").id = `total-${key}`;
  add(cell, "dd").id = `step-${key}`;
  return cell;
};

const drawRunning = () => {
  const { search, replaying, said } = app.state, busy = document.body.classList.contains("busy");
  $("running").hidden = !search && !busy && !replaying;
  if (search) {
    $("progress").max = search.seconds;
    $("progress").value = Math.min(search.gone, search.seconds);
    $("how").textContent = searchWords(search);
  } else {
    $("progress").removeAttribute("value");
    $("how").textContent = replaying ? `The program is begun anew, and carries out the log: ${replaying}` : `Working. ${said || ""}`;
  }
  $("waits").hidden = !search;
  $("stop").hidden = !search || search.stopping;
  $("stopNow").hidden = !((search && search.stopping) || (busy && !replaying));
};
const searchWords = search => {
  const from = R.totals(search.from), now = R.totals(app.state.totals);
  return `${search.word}: ${Math.floor(search.gone)} of ${search.seconds} s, ${W.turnsWord(search.word, search.turns)}, `
    + `unplaced ${W.count(from.unplaced)} → ${W.count(now.unplaced)}, total ${W.count(from.total)} → ${W.count(now.total)}`
    + (search.idle ? `; nothing better in the last ${search.idle > 1 ? `${search.idle} tries` : "try"}` : "")
    + (search.stopping ? "; stopping" : "");
};

const drawControls = () => {
  const running = Boolean(app.state.search), last = app.state.steps.at(-1);
  for (const id of ["publish", "enrolAll", "lockAll", "unlockAll"]) $(id).disabled = running;
  $("undo").disabled = running || !app.state.stepCount;
  $("undo").title = last ? `Ctrl+Z: ${last.label}` : "There is nothing to undo";
  $("recall").disabled = running || !app.state.published;
  for (const made of document.querySelectorAll("#publishMenu a")) {
    const name = made.getAttribute("href");
    made.hidden = !head.made.includes(name) || (name === "changes.html" && !app.state.published);
  }
  drawSearches();
};

// The searches that the program has.
const SEARCHES = [
  ["search", "Place classes", "Places what is unplaced, and takes out what is in the way. The best moment is kept."],
  ["place", "Place, more stubbornly", "As “Place classes”, but what was often pushed out becomes harder to push out."],
  ["improve", "Lower the total", "Small changes, each of which lowers the total or is left out."],
  ["deluge", "Lower the total, over hills", "Changes of which some raise the total for a while. The best moment is kept."],
  ["repair", "Repair", "Places what is unplaced, and keeps all else where it is published as far as it can."],
];
const offered = () => SEARCHES.filter(([word]) =>
  (word !== "repair" || app.state.published) && (!["place", "deluge"].includes(word) || app.state.knows.includes(word)));
const drawSearches = () => {
  const select = $("word"), kinds = offered(), was = select.value;
  if (select.options.length !== kinds.length) {
    select.replaceChildren();
    for (const [word, words] of kinds) add(select, "option", `${words} (${word})`).value = word;
    if (kinds.some(([word]) => word === was)) select.value = was;
  }
  $("wordSays").textContent = kinds.find(([word]) => word === select.value)?.[2] ?? "";
};

const closeMenus = () => document.querySelectorAll("details.menu[open]").forEach(menu => { menu.open = false; });
const setUpMenus = () => {
  for (const menu of document.querySelectorAll("details.menu")) {
    menu.addEventListener("toggle", () => {
      if (menu.open) document.querySelectorAll("details.menu[open]").forEach(other => { if (other !== menu) other.open = false; });
    });
    menu.addEventListener("keydown", event => {
      if (event.key === "Escape" && menu.open) { menu.open = false; menu.firstElementChild.focus(); event.stopPropagation(); }
    });
    menu.addEventListener("click", event => { if (event.target.closest(".items button, .items a")) { menu.open = false; menu.firstElementChild.focus(); } });
  }
  document.addEventListener("pointerdown", event => { if (!event.target.closest("details.menu")) closeMenus(); });
};

const publish = async () => {
  const answer = await change("publish", { label: "Published" });
  if (answer && !R.refusal(answer.replies[0])) tell(`Published, and written to ${answer.file}.`);
};
const startSearch = async event => {
  event.preventDefault();
  const answer = await request("start", { word: $("word").value, seconds: Number($("seconds").value), seed: Number($("seed").value) });
  if (answer && !answer.error) { tell(""); closeMenus(); draw(); $("stop").focus(); }
};
const stopAtOnce = () => {
  if (confirm("The program is ended and begun anew: the log is carried out again, which takes as long as its searches took. Go on?")) request("stop", { atOnce: true });
};

// A line for any command.

const QUESTIONS = ["totals", "explain", "why", "stats", "suggest", "values", "violations", "student", "meets", "costs"];
const REPLY_LINES = 12;
const ELSEWHERE = { draft: "“Publish” above has it: Save as a draft.", quit: "The desk ends where it was begun, with Ctrl+C." };

const answerOf = async line => {
  const [word] = line.split(/\s+/);
  if (QUESTIONS.includes(word)) return ask([line], { most: { [word]: REPLY_LINES } });
  if (word === "undo") return undo();
  if (word === "publish") return publish();
  return perform([line], line);
};
const showReply = (text, className = "") => {
  $("reply").textContent = text;
  $("reply").className = className;
  $("replyGone").hidden = !text;
};
const command = async event => {
  event.preventDefault();
  const line = $("command").value.trim().replace(/\s+/g, " "), elsewhere = ELSEWHERE[line.split(" ")[0]];
  if (!line) return;
  showReply(elsewhere || "");
  if (elsewhere) return;
  const answer = await answerOf(line), own = answer?.replies?.[0];
  if (!own) { showReply($("told").textContent); return; }
  const more = Object.values(answer.left?.[0] || {}).reduce((sum, left) => sum + left, 0);
  const lines = own.slice(0, -1);
  const refused = R.refusal(own);
  showReply([...lines, ...(more ? [`and ${W.count(more)} more lines`] : []), own.at(-1)].map(text => text.slice(0, 300)).join("\n"), refused ? "bad" : "");
  if (!refused) $("command").value = "";
};

export const setUpBar = () => {
  document.title = `Desk: ${head.name || "timetable"}`;
  $("name").textContent = head.name || "Desk";
  onState(drawTotals);
  onState(drawRunning);
  onState(drawControls);
  onDraw(drawControls);
  setUpMenus();
  $("undo").addEventListener("click", () => undo());
  $("publish").addEventListener("click", publish);
  $("enrolAll").addEventListener("click", () => perform(["enrol all"], "All students enrolled"));
  $("lockAll").addEventListener("click", () => perform(["lock all"], "All placed classes locked"));
  $("unlockAll").addEventListener("click", () => perform(["unlock all"], "All classes unlocked"));
  $("recall").addEventListener("click", () => perform(["recall"], "Back to what is published"));
  for (const made of document.querySelectorAll("#publishMenu a")) {
    made.addEventListener("click", () => tell(`“${made.textContent}” is being made. Of a large timetable that takes a while.`));
  }
  $("word").addEventListener("change", drawSearches);
  $("search").addEventListener("submit", startSearch);
  $("stop").addEventListener("click", () => request("stop", {}));
  $("stopNow").addEventListener("click", stopAtOnce);
  $("line").addEventListener("submit", command);
  $("command").addEventListener("keydown", event => { if (event.key === "Escape") showReply(""); });
  $("replyGone").addEventListener("click", () => { showReply(""); $("command").focus(); });
};
