// Finds a class, a room, a course, a student or a teacher by a part of its name or its number.
import { $, choose, look, request, showPart } from "./app.js";
import { isolated } from "./talk.js";
import { add } from "./grid.js";

const what = $("what"), found = $("found");
const PLACEHOLDER = what.placeholder;
let hits = [], active = -1, kinds = [], asked = 0;

const close = () => {
  found.hidden = true;
  what.setAttribute("aria-expanded", "false");
  what.removeAttribute("aria-activedescendant");
};
const mark = () => {
  [...found.children].forEach((item, at) => item.setAttribute("aria-selected", String(at === active)));
  if (active < 0) return;
  what.setAttribute("aria-activedescendant", `hit${active}`);
  found.children[active].scrollIntoView({ block: "nearest" });
};
const drawHits = () => {
  found.replaceChildren();
  hits.forEach(([kind, id, label], at) => {
    const item = add(found, "li", isolated(label));
    item.id = `hit${at}`;
    item.setAttribute("role", "option");
    add(item, "span", `${kind} ${id}`, "soft");
    item.addEventListener("pointerdown", event => { event.preventDefault(); pick(at); });
  });
  if (!hits.length) { close(); return; }
  found.hidden = false;
  what.setAttribute("aria-expanded", "true");
  mark();
};
const search = async () => {
  const own = ++asked, text = what.value;
  const answer = text.trim() ? await request("find", { text, kinds }) : { hits: [] };
  if (own !== asked || !answer || answer.error) return;
  hits = answer.hits;
  active = hits.length ? 0 : -1;
  drawHits();
};
const leave = () => {
  asked += 1;
  what.value = "";
  hits = [];
  kinds = [];
  what.placeholder = PLACEHOLDER;
  close();
};
const pick = async at => {
  const hit = hits[at];
  if (!hit) return;
  leave();
  const [kind, id] = hit, own = asked, isClass = kind === "class";
  await (isClass ? choose(id, true) : look(kind, id));
  if (isClass) showPart("panel");
  // Whoever has gone elsewhere meanwhile, or writes again, stays there.
  if (own === asked) $(isClass ? "panel" : "week").focus();
};

// Begins to find: among all, or the parts of one kind.
export const find = kind => {
  kinds = kind ? [kind] : [];
  what.placeholder = kind ? `Find a ${kind}` : PLACEHOLDER;
  what.focus();
};
const pressed = async event => {
  if (event.key === "ArrowDown" || event.key === "ArrowUp") {
    event.preventDefault();
    if (hits.length) active = (active + (event.key === "ArrowDown" ? 1 : hits.length - 1)) % hits.length;
    mark();
  } else if (event.key === "Escape") {
    event.stopPropagation();
    leave();
    what.blur();
  }
};
export const setUpFind = () => {
  what.addEventListener("input", search);
  what.addEventListener("blur", leave);
  what.addEventListener("keydown", pressed);
  $("find").addEventListener("submit", async event => { event.preventDefault(); await search(); pick(active); });
};
