// What a person who doesn't see well, or has no mouse, would stumble over: what is found is told as a list of texts.
(() => {
  const found = [], shown = element => {
    if (!element.checkVisibility({ checkOpacity: true, checkVisibilityCSS: true })) return false;
    const box = element.getBoundingClientRect();
    return box.width > 1 && box.height > 1;
  };
  const tell = (words, element) => found.push(`${words}: ${element.outerHTML.replace(/\s+/g, " ").slice(0, 160)}`);
  const all = css => [...document.querySelectorAll(css)];
  const textOf = id => document.getElementById(id)?.textContent ?? "";
  const nameOf = element => (element.getAttribute("aria-label") || (element.getAttribute("aria-labelledby") || "").split(" ").map(textOf).join(" ")
    || [...(element.labels || [])].map(label => label.textContent).join(" ") || element.caption?.textContent || element.querySelector?.("legend")?.textContent
    || (["BUTTON", "A", "SUMMARY", "LI", "OPTION"].includes(element.tagName) ? element.textContent : "") || element.title || "").trim();

  // Names and roles.
  for (const element of all("button, a, input, select, progress, table, fieldset, dialog, nav, [role=listbox], [role=tablist], [role=tabpanel], [role=tab], summary, output"))
    if (!nameOf(element) && element.tagName !== "OUTPUT") tell("has no name", element);
  for (const element of all("section[aria-label], section[aria-labelledby]")) if (!nameOf(element)) tell("has no name", element);
  for (const element of all("[aria-controls], [aria-labelledby], [aria-activedescendant], label[for]"))
    for (const name of ["aria-controls", "aria-labelledby", "aria-activedescendant", "for"])
      for (const id of (element.getAttribute(name) || "").split(" ").filter(Boolean)) if (!document.getElementById(id)) tell(`${name} names nothing`, element);
  const ids = all("[id]").map(element => element.id);
  for (const id of new Set(ids.filter((id, at) => ids.indexOf(id) !== at))) found.push(`the id ${id} stands twice`);
  for (const [outer, inner] of [["[role=tablist]", "[role=tab]"], ["[role=listbox]", "[role=option]"], ["ul, ol", "li"]])
    for (const element of all(outer)) for (const child of element.children) if (!child.matches(inner)) tell(`stands in ${outer}`, child);
  for (const element of all("button button, a button, button a, button input, label label")) tell("stands inside another control", element);
  if (all("[role=tab][aria-selected=true]").length !== 1) found.push("not one tab is selected");
  if (!document.documentElement.lang || !document.title.trim()) found.push("the page has no language or no title");
  if (all("main").length !== 1 || all("h1").length !== 1) found.push("the page has not one main part and one heading");
  if (!all("[role=status]").length) found.push("no part tells what happened");
  let level = 1;
  for (const heading of all("h1, h2, h3, h4, h5").filter(one => one.checkVisibility())) {
    const own = Number(heading.tagName[1]);
    if (own > level + 1) tell("a level of headings is skipped before", heading);
    level = own;
  }
  for (const element of all("[tabindex]")) if (Number(element.getAttribute("tabindex")) > 0) tell("has its own order of focus", element);
  for (const head of all("th")) if (!head.scope) tell("has no scope", head);

  // Contrast: 4.5, or 3 where the text is large, and 3 for the edge of a control.
  const canvas = document.createElement("canvas").getContext("2d", { willReadFrequently: true });
  const colour = text => {
    canvas.clearRect(0, 0, 1, 1);
    canvas.fillStyle = text;
    canvas.fillRect(0, 0, 1, 1);
    const [r, g, b, a] = canvas.getImageData(0, 0, 1, 1).data;
    return [r, g, b, a / 255];
  };
  const over = ([r, g, b, a], below) => [r, g, b].map((value, at) => value * a + below[at] * (1 - a));
  const groundsOf = element => {
    if (!element) return [over(colour(getComputedStyle(document.body).backgroundColor), [255, 255, 255])];
    const style = getComputedStyle(element), own = colour(style.backgroundColor);
    const striped = style.backgroundImage.match(/(rgba?|color|oklab)\([^)]*\)/g) || [];
    const below = own[3] === 1 ? [[0, 0, 0]] : groundsOf(element.parentElement);
    const grounds = below.map(one => over(own, one));
    return element.matches(".day ul") ? grounds : striped.flatMap(text => grounds.map(one => over(colour(text), one))).concat(striped.length ? [] : grounds);
  };
  const light = rgb => rgb.map(value => value / 255).map(value => (value <= 0.04045 ? value / 12.92 : ((value + 0.055) / 1.055) ** 2.4))
    .reduce((sum, value, at) => sum + value * [0.2126, 0.7152, 0.0722][at], 0);
  const contrast = (a, b) => { const [x, y] = [light(a), light(b)].sort((one, other) => other - one); return (x + 0.05) / (y + 0.05); };
  const walker = document.createTreeWalker(document.body, NodeFilter.SHOW_TEXT), seen = new Set();
  while (walker.nextNode()) {
    const element = walker.currentNode.parentElement;
    if (!walker.currentNode.textContent.trim() || seen.has(element) || ["SCRIPT", "STYLE", "OPTION"].includes(element.tagName) || !shown(element)) continue;
    seen.add(element);
    if (element.closest(":disabled, .v")) continue;
    const style = getComputedStyle(element), size = parseFloat(style.fontSize), large = size >= 24 || (size >= 18.66 && Number(style.fontWeight) >= 700);
    for (const ground of groundsOf(element)) {
      const ratio = contrast(over(colour(style.color), ground), ground);
      if (ratio < (large ? 3 : 4.5) - 0.005) { tell(`contrast ${ratio.toFixed(2)}`, element); break; }
    }
  }
  for (const element of all("input:not([type=checkbox]), select").filter(shown)) {
    const style = getComputedStyle(element), ground = groundsOf(element.parentElement)[0];
    if (contrast(over(colour(style.borderTopColor), ground), ground) < 2.995) tell("the edge has too little contrast", element);
  }

  // Room: nothing is wider than the window, and what is pressed is large enough.
  if (document.documentElement.scrollWidth > innerWidth + 1) found.push(`the page is ${document.documentElement.scrollWidth} wide in a window of ${innerWidth}`);
  for (const element of all("button:not(.link), select, input, summary").filter(shown)) {
    const box = element.getBoundingClientRect();
    if (box.width > 0 && (box.height < 15 || box.width < 15)) tell(`is ${Math.round(box.width)} by ${Math.round(box.height)}`, element);
  }
  return found;
})()
