// Small parts that several parts of the page are made of.
import { app, choose, look, showPart } from "./app.js";
import { know, part } from "./talk.js";
import * as W from "./words.js";
import { add } from "./grid.js";

export const button = (parent, words, act, className) => {
  const made = add(parent, "button", words, className);
  made.type = "button";
  made.addEventListener("click", act);
  return made;
};

export const link = (parent, kind, id, words) => button(parent, words ?? W.labelOf(kind, id), () => look(kind, id), "link");

export const classLink = (parent, id, words) => {
  const made = button(parent, words ?? W.say(id), () => { choose(id, true); showPart("panel"); }, "link");
  made.dataset.id = id;
  return made;
};

// A class as an item of a list, with what is to be said of it. It can be dragged into the week.
export const classItem = (list, id, words) => {
  const item = add(list, "li", undefined, "whole"), made = button(item, undefined, () => { choose(id, true); showPart("panel"); }, "class");
  made.dataset.id = id;
  if (id === app.shown.chosen) made.setAttribute("aria-current", "true");
  add(made, "span", W.say(id));
  add(made, "span", words, "soft");
  return item;
};

export const about = id => [`Class ${id}`, part("class", id)?.part].filter(Boolean).join(" · ");

// A rule, with its members when it is opened.
export const ruleItem = (list, k, words, className) => {
  const item = add(list, "li"), whole = add(item, "details"), rule = part("rule", k);
  add(whole, "summary", `${W.ruleWords(k)}: ${words}`, className);
  if (rule) add(whole, "p", `Rule ${k}, ${rule.kind}, ${rule.required ? "required" : "it costs"}`, "soft");
  whole.addEventListener("toggle", async () => {
    if (!rule || whole.querySelector("ul")) return;
    const members = add(whole, "ul", undefined, "plain"), some = rule.classes.slice(0, 60);
    await know({ class: some });
    for (const id of some) classLink(add(members, "li"), id);
    if (rule.classes.length > some.length) add(members, "li", `and ${rule.classes.length - some.length} more`, "soft");
  });
  return item;
};

export const plainList = (parent, className = "") => add(parent, "ul", undefined, `plain ${className}`.trim());

export const table = (parent, heads, caption) => {
  const made = add(add(parent, "div", undefined, "wide"), "table");
  add(made, "caption", caption, "v");
  const row = add(add(made, "thead"), "tr");
  for (const head of heads) add(row, "th", head).scope = "col";
  return add(made, "tbody");
};

// What had the focus in a part that is drawn anew gets it again, or, where it is gone, the part that it was in. Where the part is scrolled to isn't asked or set: that stays,
// as long as nothing asks for the layout in between, which would take as long as the drawing.
export const keepingFocus = (whole, draw) => {
  const inside = whole.contains(document.activeElement) ? document.activeElement : null;
  const mark = inside && (inside.id ? `#${CSS.escape(inside.id)}` : inside.dataset.key ? `[data-key="${inside.dataset.key}"]`
    : inside.dataset.id ? `[data-id="${inside.dataset.id}"]` : null);
  draw();
  if (inside && inside !== whole) ((mark && whole.querySelector(mark)) || whole.closest("[tabindex]"))?.focus({ preventScroll: true });
};
