// Says classes, times, rooms and refusals in words.
import { head, part, roomLabels, weekSets } from "./talk.js";
import { clock } from "./grid.js";

const numbers = new Intl.NumberFormat("en");
export const count = number => numbers.format(number);
export const many = (number, one, more = one + "s") => `${count(number)} ${number === 1 ? one : more}`;
// What a search has made, as its command counts it.
export const turnsWord = (word, turns) => many(turns, ["improve", "deluge"].includes(word) ? "round" : "turn");
// A difference of two numbers of the program.
export const signed = number => (number > 0 ? "+" : number < 0 ? "−" : "±") + count(Math.abs(number));

export const say = id => part("class", id)?.label ?? `class ${id}`;
export const roomWord = room => (room === "-" || room === null ? "no room" : roomLabels.get(room) ?? `Room ${room}`);
export const labelOf = (kind, id) => (kind === "room" ? roomWord(id) : part(kind, id)?.label ?? `${kind} ${id}`);

const daysOf = days => head.days.filter((_, day) => days >> day & 1);
const shortDays = days => daysOf(days).map(day => day.slice(0, 3)).join(", ");
export const daysWord = days => (daysOf(days).length === 1 ? daysOf(days)[0] : shortDays(days));
export const hours = time => `${clock(time.start)}–${clock(time.end)}`;
export const when = time => `${daysWord(time.days)} ${hours(time)}`;
export const whenShort = time => `${shortDays(time.days)} ${hours(time)}`;
export const weeksWord = time => weekSets[time.weeks].words;
export const whenLong = time => `${when(time)}, ${weeksWord(time)}`;
export const timeOf = (id, value) => part("class", id).times[value.t - 1];
export const whereOf = (id, value) => `${when(timeOf(id, value))}, ${roomWord(value.r)}`;
export const seats = (one, students) => (one.limit === null ? many(students, "student") : `${count(students)} of ${count(one.limit)} seats`);

export const ruleWords = k => {
  const rule = part("rule", k);
  return rule ? rule.name || `${rule.kind} over ${rule.classes.length} classes` : `rule ${k}`;
};

// What keeps a class from its places.
export const placesWords = values => {
  const all = [...values.values()], of = kind => all.filter(value => value.kind === kind);
  const free = of("free").length, least = of("out").reduce((a, value) => Math.min(a, value.out), Infinity), is = number => (number === 1 ? "is" : "are");
  const places = all.length === 1 ? "its one place" : `its ${count(all.length)} places`;
  if (free) return all.length === 1 ? `${places} is free` : `${count(free)} of ${places} ${is(free)} free`;
  const words = [["out", `taken, by ${many(least, "other class", "other classes")} at the least`], ["closed", "in a room that is closed then"],
    ["rule", "against a required rule"], ["locked", "held by a locked class"]].map(([kind, told]) => [of(kind).length, told]).filter(([number]) => number);
  if (words.length === 1) return all.length === 1 ? `${places} is ${words[0][1]}` : `all of ${places} are ${words[0][1]}`;
  return `of ${places} ${words.map(([number, told]) => `${count(number)} ${is(number)} ${told}`).join(", ")}`;
};

const blockedWords = words => {
  if (words[0] === "closed") return "the room is closed then";
  if (words[0] === "locked") return `${say(Number(words[1]))} is locked`;
  return `${ruleWords(Number(words[1]))} (rule ${words[1]}) forbids it`;
};

const REFUSALS = {
  10: () => "the line is no command", 11: () => "there is no such class", 12: () => "there is no such student",
  13: () => "the class has no such time", 14: () => "the room isn’t in the class’s list", 15: () => "there is no such room",
  16: () => "the class isn’t placed", 17: words => blockedWords(words.slice(1)),
  18: () => "the student can’t have these classes, or gets none with the seats that are left",
  19: words => `there is no seat in ${say(Number(words[4]))}`, 20: () => "the student has no classes", 21: () => "there is nothing to undo",
  22: words => `the timetable isn’t ready: ${many(Number(words[2]), "class", "classes")} unplaced, `
    + `${many(Number(words[3]), "student")} without classes, ${many(Number(words[4]), "hard conflict")}`,
  23: () => "nothing is published yet", 24: () => "the days, weeks or hours aren’t right", 25: () => "the room has no closure to lift",
  26: () => "there are too many values to try", 27: () => "there are too many closures", 28: () => "the class is locked already",
  29: () => "the class isn’t locked",
};
export const refusalWords = ({ line, number, words }) => `Refused: ${(REFUSALS[number] || (() => words.join(" ")))(words)}. (${line})`;

// The time of day that someone wrote, as a slot, or none.
export const slotAt = text => {
  const found = /^\s*(\d{1,2})(?:[:.]?(\d\d))?\s*$/.exec(text);
  return found && Math.round((Number(found[1]) * 60 + Number(found[2] || 0)) * head.slots / 1440);
};
// The weeks that someone wrote, such as "5-14" or "1, 3", as a text of 0 and 1, or none.
export const weekText = text => {
  const set = new Array(head.weekCount).fill("0");
  for (const piece of text.split(",")) {
    const found = /^\s*(\d+)\s*(?:[-–]\s*(\d+)\s*)?$/.exec(piece);
    if (!found) return null;
    const first = Number(found[1]), last = Number(found[2] || first);
    if (first < 1 || last > head.weekCount || last < first) return null;
    set.fill("1", first - 1, last);
  }
  return set.join("");
};
export const runs = weeks => {
  const all = [];
  for (const week of weeks.map(place => place + 1)) {
    if (all.length && all[all.length - 1][1] === week - 1) all[all.length - 1][1] = week;
    else all.push([week, week]);
  }
  return all.map(([first, last]) => (first === last ? first : `${first}–${last}`)).join(", ");
};
