// A week as a grid: the hours, then a column a day, with a box for each meeting. Times of day are minutes from midnight.

export const add = (parent, tag, text, className) => {
  const element = document.createElement(tag);
  if (text !== undefined && text !== null) element.textContent = text;
  if (className) element.className = className;
  parent.append(element);
  return element;
};

export const clock = minutes => String(Math.floor(minutes / 60)).padStart(2, "0") + ":" + String(minutes % 60).padStart(2, "0");

// Gives each item of a day a lane, so that those that overlap in time of day stand side by side.
export const inLanes = items => {
  let group = [], ends = [];
  const close = () => group.forEach(one => { one.lanes = ends.length; });
  items.sort((a, b) => a.start - b.start || b.end - a.end).forEach(one => {
    if (group.length && one.start >= Math.max(...ends)) { close(); group = []; ends = []; }
    let lane = ends.findIndex(end => end <= one.start);
    if (lane < 0) lane = ends.length;
    ends[lane] = one.end;
    one.lane = lane;
    group.push(one);
  });
  close();
  return items;
};

// Draws an empty week. A frame is {firstHour, lastHour, days: [[day, name], ..], heading}, `heading` being the tag of a
// day's name. The answer has the list of each day.
export const drawWeek = (parent, frame) => {
  const grid = add(parent, "div", undefined, "grid");
  grid.style.setProperty("--days", frame.days.length);
  grid.style.setProperty("--hours", frame.lastHour - frame.firstHour);
  const hours = Array.from({ length: frame.lastHour - frame.firstHour }, (_, hour) => clock((frame.firstHour + hour) % 24 * 60));
  add(grid, "pre", hours.join("\n"), "axis").setAttribute("aria-hidden", "true");
  return new Map(frame.days.map(([day, name]) => {
    const column = add(grid, "section", undefined, "day e");
    add(column, frame.heading, name);
    return [day, add(column, "ul")];
  }));
};

// Adds a box to a day's list. What begins after the last hour stands at the end.
export const addBox = (list, frame, item, className) => {
  const box = add(list, "li", undefined, className);
  const top = Math.min(item.start / 60, frame.lastHour - 0.5);
  const high = Math.max(0.25, Math.min(item.end / 60, frame.lastHour) - top);
  const places = { "--t": top - frame.firstHour, "--l": high, "--i": item.lane || 0, "--n": item.lanes || 1 };
  for (const [key, value] of Object.entries(places)) box.style.setProperty(key, value);
  list.parentElement.classList.remove("e");
  return box;
};
