// Looks at a page by a list of rules, after the Web Content Accessibility Guidelines 2.2 (levels A and AA), and answers
// with what breaks one: a line for each, which begins with the name of the rule. Everything that can be opened is opened.
(() => {
  const found = [];
  const all = (query, within) => Array.from((within || document).querySelectorAll(query));
  const short = (element) => element.outerHTML.slice(0, 120);
  const breaks = (rule, element) => found.push(rule + ": " + (typeof element === "string" ? element : short(element)));
  const isShown = (element) => element.checkVisibility({ visibilityProperty: true });
  const byId = (id) => document.getElementById(id);

  all("details").forEach((it) => { it.open = true; });

  // The name that a screen reader tells.
  function nameOf(element) {
    const labelledBy = (element.getAttribute("aria-labelledby") || "").split(" ").filter(Boolean).map(byId);
    const labels = Array.from(element.labels || []);
    const texts = [...labelledBy, ...labels].map((it) => (it ? it.textContent : ""));
    return [element.getAttribute("aria-label") || "", ...texts, element.textContent].join(" ").trim();
  }

  // The page as a whole.
  if (!document.documentElement.lang) breaks("language", "the page does not say its language");
  if (!document.title.trim()) breaks("title", "the page has no title");
  const viewport = document.querySelector("meta[name=viewport]");
  if (!viewport || /user-scalable\s*=\s*no|maximum-scale/.test(viewport.content)) breaks("zoom", "it can't be enlarged");
  for (const part of ["main", "header", "footer"]) {
    if (all("body > " + part).length !== 1) breaks("landmarks", "there is not just one " + part);
  }
  all("body > *").forEach((it) => {
    if (!["HEADER", "NAV", "MAIN", "FOOTER", "SCRIPT"].includes(it.tagName)) breaks("landmarks", it);
  });
  all("nav").forEach((it) => { if (!nameOf(it)) breaks("landmarks", it); });

  // Headings.
  const levels = all("h1, h2, h3, h4, h5, h6").filter(isShown).map((it) => Number(it.tagName[1]));
  if (levels.filter((it) => it === 1).length !== 1) breaks("headings", "there is not just one heading of the first level");
  levels.forEach((level, at) => {
    if (at && level > levels[at - 1] + 1) breaks("headings", "a level is passed over: " + levels.join(" "));
  });
  all("h1, h2, h3, h4, h5, h6").forEach((it) => { if (!it.textContent.trim()) breaks("headings", it); });

  // Places and references to them.
  const ids = all("[id]").map((it) => it.id);
  ids.forEach((id, at) => { if (ids.indexOf(id) !== at) breaks("unique ids", id); });
  for (const name of ["aria-labelledby", "aria-describedby", "aria-controls", "for"]) {
    all(`[${name}]`).forEach((it) => {
      it.getAttribute(name).split(" ").forEach((id) => { if (!byId(id)) breaks("references", it); });
    });
  }
  all("a").forEach((it) => {
    const to = it.getAttribute("href");
    if (!to || (to.startsWith("#") && !byId(to.slice(1)))) breaks("links", it);
  });

  // What can be used has a name, and is not within another such thing.
  const usable = "a[href], button, input, select, textarea, summary";
  all(usable).forEach((it) => {
    if (!nameOf(it)) breaks("names", it);
    if (it.parentElement.closest(usable)) breaks("nested controls", it);
    if (it.closest("[aria-hidden=true]")) breaks("hidden controls", it);
  });
  all("input, select, textarea").forEach((it) => {
    if (!it.labels.length && !it.getAttribute("aria-label")) breaks("labels", it);
  });
  all("[tabindex]").forEach((it) => { if (it.tabIndex > 0) breaks("order of the keyboard", it); });
  all("button, input, summary").filter(isShown).forEach((it) => {
    const box = it.getBoundingClientRect();
    if (box.height < 23.9 || box.width < 23.9) breaks("size of targets", it);
  });

  // Pictures, tables, lists.
  all("img").forEach((it) => { if (!it.hasAttribute("alt")) breaks("pictures", it); });
  all("svg").forEach((it) => { if (it.getAttribute("role") !== "img" || !nameOf(it)) breaks("pictures", it); });
  all("table").forEach((table) => {
    if (!table.querySelector("th")) breaks("tables", table);
    all("th", table).forEach((it) => { if (!["row", "col"].includes(it.scope)) breaks("tables", it); });
    all("tbody tr", table).forEach((it) => { if (!it.querySelector("th")) breaks("tables", it); });
  });
  all("ul, ol").forEach((list) => {
    Array.from(list.children).forEach((it) => { if (it.tagName !== "LI") breaks("lists", it); });
  });
  all("li").forEach((it) => { if (!["UL", "OL"].includes(it.parentElement.tagName)) breaks("lists", it); });
  const roles = ["search", "img", "note", "group", "region", "status"];
  all("[role]").forEach((it) => { if (!roles.includes(it.getAttribute("role"))) breaks("roles", it); });

  // What scrolls within the page can be scrolled by the keyboard.
  all("main *").filter(isShown).forEach((it) => {
    const scrolls = ["auto", "scroll"].includes(getComputedStyle(it).overflowX) && it.scrollWidth > it.clientWidth + 1;
    if (scrolls && it.tabIndex < 0) breaks("scrolling by the keyboard", it);
  });
  if (document.documentElement.scrollWidth > window.innerWidth) breaks("width", "the page is wider than its window");

  // Contrast.
  const parsed = (colour) => {
    const numbers = colour.match(/[\d.]+/g).map(Number);
    return { rgb: numbers.slice(0, 3), alpha: numbers.length > 3 ? numbers[3] : 1 };
  };
  const over = (front, back) => front.rgb.map((it, at) => it * front.alpha + back[at] * (1 - front.alpha));
  function background(element) {
    const layers = [];
    for (let at = element; at; at = at.parentElement) {
      layers.push(parsed(getComputedStyle(at).backgroundColor));
      if (layers[layers.length - 1].alpha === 1) break;
    }
    return layers.reverse().reduce((back, front) => over(front, back), [255, 255, 255]);
  }
  const lightness = (rgb) => {
    const parts = rgb.map((it) => it / 255).map((it) => (it <= 0.04045 ? it / 12.92 : ((it + 0.055) / 1.055) ** 2.4));
    return 0.2126 * parts[0] + 0.7152 * parts[1] + 0.0722 * parts[2];
  };
  function contrast(element) {
    const back = background(element);
    const front = over(parsed(getComputedStyle(element).color), back);
    const [low, high] = [lightness(back), lightness(front)].sort((one, other) => one - other);
    return (high + 0.05) / (low + 0.05);
  }
  const seen = new Set();
  all("body *").filter((it) => isShown(it) && !it.closest("svg, script")).forEach((it) => {
    const hasText = Array.from(it.childNodes).some((node) => node.nodeType === 3 && node.data.trim());
    const style = getComputedStyle(it);
    const key = style.color + background(it) + style.opacity;
    if (!hasText || seen.has(key)) return;
    seen.add(key);
    if (contrast(it) < 4.5 || Number(style.opacity) < 1) breaks("contrast " + contrast(it).toFixed(2), it);
  });
  return found;
})()
