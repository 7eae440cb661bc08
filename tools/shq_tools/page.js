"use strict";
// Search, folding, links into what is folded, and copying. Without it the page can still be read.
(function () {
  const all = (query, within) => Array.from((within || document).querySelectorAll(query));

  function openAround(element) {
    for (let at = element; at; at = at.parentElement) {
      if (at.tagName === "DETAILS") at.open = true;
    }
  }

  // Search: entries that have the text stay, with what they stand in.
  const field = document.getElementById("search");
  const found = document.getElementById("found");
  let entries = null;
  let foldedBefore = null;

  function readEntries() {
    return all("[data-entry]").map((element) => {
      const own = element.querySelector(":scope > details > summary, :scope > summary") || element;
      const titles = all("[title]", own).map((it) => it.title).join(" ");
      return { element, text: (own.textContent + " " + titles).toLowerCase() };
    });
  }

  function showEverything() {
    entries.forEach((it) => { it.element.hidden = false; });
    if (foldedBefore) foldedBefore.forEach(([details, open]) => { details.open = open; });
    foldedBefore = null;
    all("[data-part]").forEach((it) => { it.hidden = false; });
    found.textContent = "";
  }

  function search() {
    entries = entries || readEntries();
    const wanted = field.value.trim().toLowerCase();
    if (!wanted) {
      showEverything();
      return;
    }
    foldedBefore = foldedBefore || all("main details").map((it) => [it, it.open]);
    const kept = new Set();
    let count = 0;
    entries.forEach((it) => {
      if (!it.text.includes(wanted)) return;
      count += 1;
      for (let at = it.element; at && !kept.has(at); at = at.parentElement) {
        kept.add(at);
        if (at !== it.element && at.tagName === "DETAILS") at.open = true;
      }
    });
    entries.forEach((it) => { it.element.hidden = !kept.has(it.element); });
    all("[data-part]").forEach((it) => { it.hidden = !kept.has(it); });
    found.textContent = count + " found";
  }

  function stopSearch() {
    if (field && field.value) {
      field.value = "";
      search();
    }
  }

  if (field) {
    let waiting = 0;
    field.addEventListener("input", () => {
      clearTimeout(waiting);
      waiting = setTimeout(search, 80);
    });
    field.addEventListener("keydown", (event) => { if (event.key === "Escape") stopSearch(); });
  }

  // Folding.
  all("button[data-fold]").forEach((button) => {
    button.addEventListener("click", () => {
      const open = button.dataset.fold === "open";
      all("details", document.getElementById(button.dataset.within)).forEach((it) => { it.open = open; });
    });
  });

  // Links: what they lead to is opened first.
  function goToTarget() {
    const target = document.getElementById(decodeURIComponent(location.hash.slice(1)));
    if (!target) return;
    if (target.closest("[hidden]")) stopSearch();
    openAround(target);
    target.scrollIntoView({ block: "center" });
  }
  document.addEventListener("click", (event) => {
    const link = event.target.closest("a[href^='#']");
    if (link && link.getAttribute("href") === location.hash) goToTarget();
  });
  window.addEventListener("hashchange", goToTarget);
  if (location.hash) goToTarget();

  // Copying.
  function copied(text) {
    if (navigator.clipboard && window.isSecureContext) return navigator.clipboard.writeText(text);
    const area = document.createElement("textarea");
    area.value = text;
    document.body.append(area);
    area.select();
    const done = document.execCommand("copy");
    area.remove();
    return done ? Promise.resolve() : Promise.reject(new Error("copying is not allowed"));
  }
  document.addEventListener("click", (event) => {
    const button = event.target.closest("button.copy");
    if (!button) return;
    const text = button.parentElement.querySelector("[data-copy]").textContent;
    copied(text).then(() => { button.textContent = "copied"; }, () => { button.textContent = "not copied"; });
    setTimeout(() => { button.textContent = "copy"; }, 2000);
  });
  all("[data-copy]").forEach((it) => {
    const button = document.createElement("button");
    button.type = "button";
    button.className = "copy";
    button.textContent = "copy";
    button.setAttribute("aria-label", "copy: " + it.textContent);
    it.parentElement.append(" ", button);
  });

  // On paper everything is open.
  let foldedOnScreen = [];
  window.addEventListener("beforeprint", () => {
    foldedOnScreen = all("details:not([open])");
    foldedOnScreen.forEach((it) => { it.open = true; });
  });
  window.addEventListener("afterprint", () => { foldedOnScreen.forEach((it) => { it.open = false; }); });

  all("[data-needs-script]").forEach((it) => { it.hidden = false; });
})();
