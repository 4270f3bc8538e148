// Dragging a class, from the week or a list, to one of its places in the week or the table.
import { $, app, choose, isRunning } from "./app.js";
import { kindClass, placeAt, sayValue, shortOf, valueAt } from "./values.js";
import { drawGhosts } from "./weekview.js";
import * as W from "./words.js";
import { add } from "./grid.js";

const FAR = 6;
let drag = null;

const begin = () => {
  drag.label = add(document.body, "div", W.say(drag.id), "dragged");
  document.body.classList.add("dragging");
  if (app.chosen !== drag.id) choose(drag.id); else if (!$("ghosts").checked) drawGhosts(true);
};
const showTarget = key => {
  drag.over = key;
  document.querySelectorAll("#grid .g").forEach(one => one.classList.toggle("on", one.firstChild.dataset.key === key));
  drag.label.textContent = W.say(drag.id) + (key ? ` → ${shortOf(key)}` : "");
  drag.label.className = key ? `dragged ${kindClass(valueAt(key))}` : "dragged";
  if (key) sayValue(key);
};
const moved = event => {
  if (!drag.label && Math.hypot(event.clientX - drag.x, event.clientY - drag.y) < FAR) return;
  if (!drag.label) begin();
  event.preventDefault();
  drag.label.style.transform = `translate(${event.clientX + 12}px, ${event.clientY + 12}px)`;
  const under = document.elementFromPoint(event.clientX, event.clientY)?.closest(".g .box, .value");
  const key = app.shown.chosen === drag.id ? under?.dataset.key ?? null : null;
  if (key !== drag.over) showTarget(key);
};
const end = event => {
  for (const [name, act] of EVENTS) document.removeEventListener(name, act, name === "keydown");
  const { id, label, over } = drag;
  drag = null;
  if (!label) return;
  label.remove();
  document.body.classList.remove("dragging");
  // The click that follows is no choice.
  const swallow = click => { click.stopPropagation(); click.preventDefault(); };
  window.addEventListener("click", swallow, { capture: true, once: true });
  setTimeout(() => window.removeEventListener("click", swallow, { capture: true }), 0);
  if (event.type === "pointerup" && over && app.shown.chosen === id) placeAt(over, true); else drawGhosts();
};
const escaped = event => { if (event.key === "Escape") { event.stopPropagation(); end(event); } };
const EVENTS = [["pointermove", moved], ["pointerup", end], ["pointercancel", end], ["keydown", escaped]];

export const setUpDrag = () => {
  document.addEventListener("pointerdown", event => {
    const own = event.target.closest?.("#grid .m .box, #list .class");
    if (!own || event.button !== 0 || event.pointerType === "touch" || isRunning() || drag) return;
    drag = { id: Number(own.dataset.id), x: event.clientX, y: event.clientY, label: null, over: null };
    for (const [name, act] of EVENTS) document.addEventListener(name, act, name === "keydown");
  });
  document.addEventListener("dragstart", event => event.preventDefault());
};
