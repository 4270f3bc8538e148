// The page of a desk. All that it shows of the timetable is what the program replied; the only numbers that it makes itself
// are differences of two of the program's.
import { app, follow, refresh, request, showPart, tell } from "./app.js";
import { setUpBar } from "./bar.js";
import { setUpDrag } from "./drag.js";
import { setUpFind } from "./find.js";
import { setUpKeys } from "./keys.js";
import { setUpLists } from "./lists.js";
import { Unanswered } from "./talk.js";
import { setUpPanel } from "./values.js";
import { setUpWeek } from "./weekview.js";
import { many } from "./words.js";

// What got no answer is told, wherever it was asked.
window.addEventListener("unhandledrejection", event => {
  if (!(event.reason instanceof Unanswered)) return;
  event.preventDefault();
  tell(event.reason.message, "bad");
});

setUpBar();
setUpLists();
setUpPanel();
setUpWeek();
setUpFind();
setUpDrag();
setUpKeys();
for (const one of document.querySelectorAll("#parts button")) one.addEventListener("click", () => showPart(one.dataset.part));
showPart("week");

await request("ask", { lines: [] });
tell(app.state.stepCount ? `The log goes on after ${many(app.state.stepCount, "step")}.` : "A new desk.");
await refresh();
follow();
document.body.dataset.ready = "1";
