// The search of a timetable's page, and a student's week in it.
(() => {
  const data = JSON.parse(document.getElementById("data").textContent);
  const lines = document.getElementById("students").textContent;
  const view = document.getElementById("student");
  const told = document.getElementById("told");
  const form = document.getElementById("find");
  const kind = document.getElementById("kind");
  const what = document.getElementById("what");
  const kinds = { s: "student", k: "class", c: "course", r: "room" };
  const withStudents = "student" in data.names;
  const { addLabel, meeting, noteConflicts, hoursAWeek, addGrids } = makeWeeks(data);

  // The line of a student: his id, then the places of his classes.
  const lineOf = id => {
    const at = lines.indexOf("\n" + id + " ");
    return at < 0 ? null : lines.slice(at + 1, lines.indexOf("\n", at + 1)).split(" ").slice(1).filter(place => place !== "");
  };

  // Empties the part of the student's week, and says something there.
  const tell = (words, className) => {
    view.replaceChildren();
    document.body.classList.remove("one-student");
    told.textContent = words;
    told.className = className || "";
    (document.getElementById("student-part") || told).scrollIntoView();
  };

  const showStudent = id => {
    const line = lineOf(id);
    tell(line ? "" : "There is no student " + id + ".", "bad");
    if (!line) return;
    const all = line.map(place => meeting(Number(place)));
    const head = add(view, "h3", "Student " + id);
    const name = data.names.student[id];
    if (name) { head.append(": "); add(head, "bdi", name); }
    head.tabIndex = -1;
    head.focus({ preventScroll: true });
    const pairs = noteConflicts(all);
    const about = add(view, "p", all.length === 0 ? "This student has no classes."
      : `${all.length} class${all.length > 1 ? "es" : ""}, ${hoursAWeek(all).toFixed(1)} hours a week`, "soft");
    if (pairs) {
      about.append("; ");
      add(about, "span", `${pairs} pair${pairs > 1 ? "s" : ""} of classes can’t both be attended`, "bad");
    }
    // While a student's week is shown, it is what is printed, by the button or otherwise.
    document.body.classList.add("one-student");
    if (!all.length) return;
    addGrids(view, all);
    const button = add(view, "button", "Print this week", "print");
    button.type = "button";
    button.onclick = () => window.print();
  };

  const inPage = (letter, id) => letter === "s" ? lineOf(id) : document.getElementById(letter + id);
  const follow = () => {
    const match = /^#s(\d+)$/.exec(location.hash);
    if (match && withStudents) showStudent(match[1]);
    else document.body.classList.remove("one-student");
  };
  const go = (letter, id) => {
    if (location.hash !== "#" + letter + id) location.hash = letter + id;
    else if (letter === "s") follow();
    else inPage(letter, id).scrollIntoView();
  };

  // A number is an id where there is such a part; else it, like any text, is a part of a name.
  const search = (letter, text) => {
    const of = kinds[letter];
    const id = /^\d+$/.test(text) ? String(BigInt(text)) : null;
    if (id !== null && inPage(letter, id)) { go(letter, id); return; }
    const wanted = text.toLowerCase();
    const found = Object.entries(data.names[of]).filter(([own, name]) => name.toLowerCase().includes(wanted) && inPage(letter, own));
    if (found.length === 1) { go(letter, found[0][0]); return; }
    if (!found.length) { tell(`No ${of} “${text}” in this timetable.`, "bad"); return; }
    tell(`${found.length} of this name` + (found.length > 50 ? ", the first 50:" : ":"));
    const list = add(view, "ul", undefined, "cols");
    found.slice(0, 50).forEach(([own]) => {
      const link = add(add(list, "li"), "a");
      link.href = "#" + letter + own;
      addLabel(link, of, own);
      link.append(" (" + own + ")");
    });
  };

  form.hidden = false;
  if (withStudents) told.textContent = "Choose “student” above, and write the student’s number or a part of the name.";
  form.addEventListener("submit", event => {
    event.preventDefault();
    if (what.value.trim()) search(kind.value, what.value.trim());
  });
  window.addEventListener("hashchange", follow);
  follow();
})();
