// Talks to the server: questions, changes, and what the problem file says, which is asked for as it is shown.

export const LOST = "The desk doesn’t answer. Is it still running?";

// A request that got no answer, or was refused. The text is what is told of it.
export class Unanswered extends Error {}

export const post = async (place, body) => {
  let reply, text;
  try {
    reply = await fetch(place, { method: "POST", headers: { "Content-Type": "application/json" }, body: JSON.stringify(body) });
    text = await reply.text();
  } catch {
    throw new Unanswered(LOST);
  }
  if (!reply.ok) throw new Unanswered(text.trim());
  return JSON.parse(text);
};

// A name that goes from right to left keeps its place among other words.
const turning = /[\u0590-\u08ff\u202a-\u202e\u2066-\u2069\ufb1d-\ufdff\ufe70-\ufeff]/;
export const isolated = name => (turning.test(name) ? `\u2068${name}\u2069` : name);

export const head = await (await fetch("problem")).json();
export const roomLabels = new Map(head.rooms.map(([id, label]) => [id, isolated(label)]));
export const weekSets = head.weeks.map(([text, words]) => ({ text, words }));

const minutes = slot => Math.floor(slot * 1440 / head.slots);
const time = ([days, start, length, weeks]) => ({ days, start: minutes(start), end: minutes(start + length), startSlot: start, length, weeks });

const known = { class: new Map(), room: new Map(), course: new Map(), student: new Map(), teacher: new Map(), rule: new Map() };
const readers = {
  class: one => ({ ...one, label: isolated(one.label), name: isolated(one.name), courseLabel: isolated(one.courseLabel), times: one.times.map(time) }),
  room: one => ({ ...one, label: isolated(one.label), closed: one.closed.map(time) }),
  student: one => ({ ...one, label: isolated(one.label), courses: one.courses.map(course => ({ ...course, label: isolated(course.label) })),
    classes: one.courses.flatMap(course => course.classes) }),
  course: one => ({ ...one, label: isolated(one.label) }),
  teacher: one => ({ ...one, label: isolated(one.label) }),
  rule: one => ({ ...one, name: isolated(one.name) }),
};

export const part = (kind, id) => known[kind].get(id);

// Asks for what isn't known yet of the parts of these ids.
export const know = async wanted => {
  const missing = {};
  for (const [kind, ids] of Object.entries(wanted)) {
    const own = [...new Set(ids)].filter(id => !known[kind].has(id));
    if (own.length) missing[kind] = own;
  }
  if (!Object.keys(missing).length) return;
  const answer = await post("facts", missing);
  for (const [kind, reader] of Object.entries(readers)) for (const one of answer[kind]) known[kind].set(one.id, reader(one));
};

const parts = new Map();
// All parts of a kind, of which there are few.
export const listOf = async kind => {
  if (!parts.has(kind)) parts.set(kind, (await post("list", { kind })).parts.map(([id, label]) => [id, isolated(label)]));
  return parts.get(kind);
};
