// The lines of the program's replies, as docs/COMMANDS.md has them. A reply is a list of lines; the last is that of totals,
// or a refusal. This is the one place that knows their form.

const room = word => (word === "-" ? "-" : Number(word));
const amount = word => (word === "-" ? null : Number(word));
const wordsOf = reply => reply.slice(0, -1).map(line => line.split(" "));

// The refusal of a reply: its line, its number and the words after that, or none.
export const refusal = reply => {
  const line = reply[reply.length - 1];
  if (!line.startsWith("refused ")) return null;
  const [, number, ...words] = line.split(" ");
  return { line, number: Number(number), words };
};

export const totals = line => {
  const words = line.split(" ").slice(1), found = {};
  for (let at = 0; at < words.length; at += 2) found[words[at]] = amount(words[at + 1]);
  return found;
};

const rule = ([, k, type, , amountWord, kind, cost]) =>
  ({ k: Number(k), type, amount: Number(amountWord), required: kind === "required", cost: Number(cost || 0) });

export const explain = reply => {
  const found = { value: null, time: 0, room: 0, closed: false, clashes: [], rules: [], students: 0, conflicts: 0 };
  for (const words of wordsOf(reply)) {
    const [word, first, second, third] = words;
    if (word === "value" && first !== "none") found.value = { t: Number(first), r: room(second) };
    else if (word === "penalty") { found.time = Number(second); found.room = Number(words[4]); }
    else if (word === "closed") found.closed = true;
    else if (word === "clash") found.clashes.push(Number(first));
    else if (word === "rule") found.rules.push(rule(words));
    else if (word === "students") { found.students = Number(first); found.conflicts = Number(third); }
  }
  return found;
};

export const why = reply => {
  const found = { out: [], trial: null, blocked: null };
  for (const [word, ...rest] of wordsOf(reply)) {
    if (word === "blocked") found.blocked = rest;
    else if (word === "out") found.out.push({ id: Number(rest[0]), t: Number(rest[1]), r: room(rest[2]), count: Number(rest[4]) });
    else if (word === "trial") found.trial = Number(rest[0]);
  }
  return found;
};

// Each value of a class, by "T R", in the order of its domain.
export const values = reply => new Map(wordsOf(reply).map(([, t, r, kind, first, , weight, , trial]) => {
  const value = { t: Number(t), r: room(r), kind };
  if (kind === "rule") value.rule = Number(first);
  else if (kind === "locked") value.locked = Number(first);
  else if (kind === "out") Object.assign(value, { out: Number(first), weight: Number(weight), trial: Number(trial), kind: first === "0" ? "free" : "out" });
  return [`${t} ${r}`, value];
}));

export const suggest = reply => {
  const found = { tried: 0, sets: [], total: null, moved: null };
  for (const [word, ...rest] of wordsOf(reply)) {
    if (word === "tried") found.tried = Number(rest[0]);
    else if (word === "set") found.sets.push({ id: Number(rest[0]), t: Number(rest[1]), r: room(rest[2]) });
    else if (word === "result") { found.total = Number(rest[1]); found.moved = amount(rest[3]); }
  }
  return found;
};

export const violations = reply => {
  const found = { missing: [], students: [], clashes: [], closed: [], pairs: [], amounts: [], count: 0 };
  for (const [word, first, second, third, fourth] of wordsOf(reply)) {
    if (word === "class") found.missing.push(Number(first));
    else if (word === "student") found.students.push(Number(first));
    else if (word === "clash") found.clashes.push([Number(first), Number(second)]);
    else if (word === "closed") found.closed.push(Number(first));
    else if (word === "rule" && second === "pair") found.pairs.push({ k: Number(first), classes: [Number(third), Number(fourth)] });
    else if (word === "rule") found.amounts.push({ k: Number(first), amount: Number(third) });
    else if (word === "violations") found.count = Number(first);
  }
  return found;
};

export const student = reply => {
  const found = { classes: [], pairs: [] };
  for (const [word, first, second] of wordsOf(reply)) {
    if (word === "class") found.classes.push(Number(first));
    else if (word === "pair") found.pairs.push([Number(first), Number(second)]);
  }
  return found;
};

export const meets = reply => wordsOf(reply).map(([, id, count]) => ({ id: Number(id), count: Number(count) }));

// By which numbers the lines of `costs` are large.
export const COSTS = { rule: ["cost"], class: ["conflicts", "time room"] };

export const costs = reply => {
  const found = { rules: [], classes: [] };
  for (const words of wordsOf(reply)) {
    if (words[0] === "rule") found.rules.push(rule(words));
    else found.classes.push({ id: Number(words[1]), time: Number(words[3]), room: Number(words[5]), conflicts: Number(words[7]) });
  }
  return found;
};

export const stats = reply => wordsOf(reply).map(words =>
  ({ t: Number(words[1]), r: room(words[2]), out: Number(words[4]), from: { t: Number(words[5]), r: room(words[6]) }, count: Number(words[7]) }));

// The classes that the reply to a command says were taken out, and its other own lines.
export const outs = reply => wordsOf(reply).filter(([word]) => word === "out").map(([, id]) => Number(id));
export const others = reply => reply.slice(0, -1).filter(line => !line.startsWith("out ") && !line.startsWith("{"));
