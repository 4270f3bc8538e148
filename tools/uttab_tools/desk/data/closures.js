// The closures that were made here and aren't lifted, as the steps of the desk have them.
import { app } from "./app.js";
import { head } from "./talk.js";
import * as W from "./words.js";

const minutes = slot => Math.floor(slot * 1440 / head.slots);

// Those of a room, as times of it; `text` has their weeks.
export const ownClosures = room => app.state.closures.filter(([id]) => id === room).map(([, days, start, length, text]) => ({
  days: [...days].reduce((all, bit, day) => all + (bit === "1" ? 2 ** day : 0), 0), start: minutes(start), end: minutes(start + length), text }));

export const closureWeeks = text => {
  const weeks = [...text].flatMap((bit, week) => (bit === "1" ? [week] : []));
  return weeks.length === head.weekCount ? "all weeks" : `${weeks.length > 1 ? "weeks" : "week"} ${W.runs(weeks)}`;
};
