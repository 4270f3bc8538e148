// Weeks of a timetable, drawn by what stands in grid.js, which comes before this in the page's one script. `data` has the
// classes in columns, as the page gives them. It builds with `document` alone, and no text of the data is ever taken for
// markup.
const makeWeeks = data => {
  const COLOURS = 6, LAST_HOUR = 48;
  const travel = new Map(data.travel.map(([a, b, slots]) => [Math.min(a, b) * data.rooms.length + Math.max(a, b), slots]));

  // A part by its name, set apart from the text around it, or by its kind and id.
  const addLabel = (parent, kind, id) => {
    const name = data.names[kind][id];
    if (name) add(parent, "bdi", name);
    else parent.append(kind[0].toUpperCase() + kind.slice(1) + " " + id);
  };

  const minutes = slot => Math.floor(slot * 1440 / data.slots);
  const clockOf = slot => {
    const days = Math.floor(minutes(slot) / 1440);
    return clock(minutes(slot) % 1440) + (days === 0 ? "" : days === 1 ? " next day" : ` ${days} days later`);
  };

  const meeting = place => {
    const [id, course, days, start, length, week, room, other] = data.classes[place];
    const [weeks, words] = data.weeks[week];
    return { id, course, days, start, end: start + length, weeks, words, room, other, notes: [] };
  };
  const hasWeek = (one, week) => Math.floor(one.weeks[Math.floor(week / 32)] / 2 ** (week % 32)) % 2 === 1;
  const weeksOf = one => Array.from({ length: data.weekCount }, (_, week) => week).filter(week => hasWeek(one, week));
  const daysOf = one => data.days.filter((_, day) => one.days >> day & 1).length;
  const hoursAWeek = all =>
    all.reduce((sum, one) => sum + (one.end - one.start) * weeksOf(one).length * daysOf(one), 0) * 24 / data.slots / data.weekCount;

  // Notes each pair that can't both be attended at its two classes, and counts the pairs.
  const noteConflicts = all => {
    let pairs = 0;
    all.forEach((a, place) => all.slice(place + 1).forEach(b => {
      const days = a.days & b.days;
      if (!days || !a.weeks.some((bits, part) => bits & b.weeks[part])) return;
      const key = Math.min(a.room, b.room) * data.rooms.length + Math.max(a.room, b.room);
      const way = a.room < 0 || b.room < 0 ? 0 : travel.get(key) || 0;
      if (a.start >= b.end + way || b.start >= a.end + way) return;
      const words = a.start < b.end && b.start < a.end ? "Same time as " : "Too far from ";
      a.notes.push({ words, days, other: b });
      b.notes.push({ words, days, other: a });
      pairs += 1;
    }));
    return pairs;
  };

  // The hours shown: from the first start to the last end, but none after the second midnight.
  const hoursOf = all => {
    const first = Math.min(LAST_HOUR - 1, Math.floor(Math.min(...all.map(one => minutes(one.start))) / 60));
    return [first, Math.min(LAST_HOUR, Math.max(first + 1, Math.ceil(Math.max(...all.map(one => minutes(one.end))) / 60)))];
  };

  const addMeeting = (list, frame, box, day) => {
    const { one } = box, notes = one.notes.filter(note => note.days >> day & 1 && note.other.shown), colour = one.course % COLOURS;
    const item = addBox(list, frame, box, "m" + (colour ? " k" + colour : "") + (notes.length ? " x" : one.other ? " y" : ""));
    const link = add(item, "a");
    link.href = "#k" + one.id;
    addLabel(link, "class", one.id);
    const changed = ["", "Changed time", "Changed room", "Changed time, changed room"][one.other];
    if (changed) { item.append(" "); add(item, "em", changed); }
    item.append(" ");
    addLabel(item, "course", data.courses[one.course]);
    add(item, "br");
    item.append(clockOf(one.start) + "–" + clockOf(one.end) + ", " + one.words + ", ");
    if (one.room < 0) item.append("no room");
    else {
      const room = add(item, "a");
      room.href = "#r" + data.rooms[one.room];
      addLabel(room, "room", data.rooms[one.room]);
    }
    notes.forEach(note => {
      add(item, "br");
      add(item, "strong", note.words);
      addLabel(item, "class", note.other.id);
    });
  };

  const addGrid = (view, all, hours, words) => {
    add(view, "h4", words);
    all.forEach(one => { one.shown = true; });
    const frame = { firstHour: hours[0], lastHour: hours[1], heading: "h5", days: data.days.map((name, day) => [day, name]) };
    for (const [day, list] of drawWeek(view, frame)) {
      const own = all.filter(one => one.days >> day & 1).map(one => ({ one, start: minutes(one.start), end: minutes(one.end) }));
      for (const box of inLanes(own)) addMeeting(list, frame, box, day);
    }
    all.forEach(one => { one.shown = false; });
  };

  // Weeks in words, as the data has them for sets that classes have; else by their numbers.
  const inWords = weeks => {
    const bits = data.weeks.length ? data.weeks[0][0].map((_, part) =>
      weeks.filter(week => Math.floor(week / 32) === part).reduce((sum, week) => sum + 2 ** (week % 32), 0)) : [];
    const known = data.weeks.find(([own]) => own.every((part, place) => part === bits[place]));
    if (known) return known[1];
    if (weeks.length === data.weekCount) return "all weeks";
    const runs = [];
    weeks.forEach(week => {
      if (runs.length && runs.at(-1)[1] === week) runs.at(-1)[1] = week + 1;
      else runs.push([week + 1, week + 1]);
    });
    return (weeks.length > 1 ? "weeks " : "week ")
      + runs.map(([from, to]) => from === to ? from : from + 1 === to ? from + ", " + to : from + " to " + to).join(", ");
  };

  // The grids of some meetings: one for each kind of weeks, or one for all together where there are too many kinds.
  const addGrids = (view, all) => {
    const kinds = new Map();
    for (let week = 0; week < data.weekCount; week += 1) {
      const own = all.filter(one => hasWeek(one, week));
      const key = own.map(one => one.id).join(" ");
      if (own.length) kinds.set(key, { own, weeks: [...(kinds.get(key) || { weeks: [] }).weeks, week] });
    }
    const hours = hoursOf(all);
    view.style.setProperty("--hours", hours[1] - hours[0]);
    view.style.setProperty("--g", Math.min(2, kinds.size > data.grids ? 1 : kinds.size));
    if (kinds.size > data.grids) addGrid(view, all, hours, "All weeks together: classes side by side may be in different weeks");
    else kinds.forEach(({ own, weeks }) => {
      const words = inWords(weeks);
      addGrid(view, own, hours, words[0].toUpperCase() + words.slice(1));
    });
  };

  return { addLabel, meeting, noteConflicts, hoursAWeek, addGrids };
};
