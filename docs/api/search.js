// Finds names of items and definitions: NAMES of names.js has them by their pages, and FIRST of first.js what programs name.
// No network is used.
"use strict";
(() => {
  const box = document.getElementById("page-search");
  const list = document.getElementById("page-found");
  const says = document.getElementById("page-says");
  const MOST = 60;
  // Of names that are equally near, types come first.
  const ORDER = ["crate", "struct", "enum", "trait", "type", "fn", "const", "variant", "mod", "definition"];
  const rows = [];

  // Whether programs name the item at a place, or the item that it is a member of.
  function isFirst(places, at) {
    for (let it = at; it; it = it.slice(0, Math.max(it.lastIndexOf("."), 0))) if (places.has(it)) return true;
    return false;
  }

  for (const [page, names] of NAMES) {
    const places = new Set(FIRST[page]);
    for (const [name, kind, at] of names) {
      const last = name.slice(name.lastIndexOf(":") + 1);
      const href = page + "#" + (at || name);
      const near = isFirst(places, at || name) ? -1.5 : 0;
      rows.push({ name, kind, href, near, page: page.split(".")[0], low: name.toLowerCase(), last: last.toLowerCase() });
    }
  }
  let chosen = -1;

  // The lower, the nearer; -1 where it doesn't match.
  function distance(row, asked) {
    if (row.last === asked || row.low === asked) return 0;
    if (row.low.startsWith(asked) || row.last.startsWith(asked)) return 1;
    const at = row.low.indexOf(asked);
    if (at >= 0) return row.low[at - 1] === "_" || row.low[at - 1] === ":" ? 2 : 3;
    return -1;
  }

  function find(asked) {
    const words = asked.toLowerCase().replaceAll(".", "::").split(/\s+/).filter(Boolean);
    const found = [];
    for (const row of rows) {
      const far = words.map((word) => (row.page.includes(word) && words.length > 1 ? 0.5 : distance(row, word)));
      if (far.every((it) => it >= 0)) found.push([far.reduce((a, b) => a + b, row.near) + ORDER.indexOf(row.kind) / 20, row]);
    }
    found.sort(([a, one], [b, two]) => a - b || one.name.length - two.name.length || one.name.localeCompare(two.name));
    return found.map((it) => it[1]);
  }

  function choose(at) {
    const shown = [...list.querySelectorAll("[role=option]")];
    chosen = shown.length ? (at + shown.length) % shown.length : -1;
    shown.forEach((it, place) => it.setAttribute("aria-selected", String(place === chosen)));
    if (chosen >= 0) {
      shown[chosen].scrollIntoView({ block: "nearest" });
      box.setAttribute("aria-activedescendant", shown[chosen].id);
    }
  }

  function entry(row, place) {
    const item = document.createElement("li");
    item.id = "page-found-" + place;
    item.setAttribute("role", "option");
    const link = document.createElement("a");
    link.href = row.href;
    link.tabIndex = -1;
    const name = document.createElement("code");
    name.textContent = row.name;
    const kind = document.createElement("span");
    kind.textContent = row.kind + ", " + row.page;
    link.append(name, kind);
    item.append(link);
    return item;
  }

  function close() {
    list.hidden = true;
    box.setAttribute("aria-expanded", "false");
    box.removeAttribute("aria-activedescendant");
  }

  function show() {
    const asked = box.value.trim();
    if (!asked) return close();
    const found = find(asked);
    list.replaceChildren(...found.slice(0, MOST).map(entry));
    if (found.length > MOST || !found.length) {
      const rest = document.createElement("li");
      rest.className = "none";
      rest.textContent = found.length ? found.length - MOST + " more" : "Nothing has this name";
      list.append(rest);
    }
    list.hidden = false;
    box.setAttribute("aria-expanded", "true");
    choose(0);
  }

  box.addEventListener("input", show);
  box.addEventListener("focus", () => box.value && show());
  box.addEventListener("keydown", (event) => {
    if (event.key === "ArrowDown" || event.key === "ArrowUp") {
      event.preventDefault();
      choose(chosen + (event.key === "ArrowDown" ? 1 : -1));
    } else if (event.key === "Enter" && !list.hidden && chosen >= 0) {
      list.querySelectorAll("[role=option] a")[chosen].click();
      close();
    } else if (event.key === "Escape") {
      close();
      box.blur();
    }
  });
  document.addEventListener("click", (event) => event.target.closest(".search") || close());
  list.addEventListener("click", close);
  document.addEventListener("keydown", (event) => {
    const writes = event.target.closest("input, textarea");
    if (event.key === "/" && !writes && !event.ctrlKey && !event.metaKey && !event.altKey) {
      event.preventDefault();
      box.focus();
      box.select();
    }
  });

  // What a definition says, at the foot of the page, for who goes by keys.
  document.addEventListener("focusin", (event) => {
    const word = event.target.closest("a.word");
    says.hidden = !word;
    says.textContent = word ? word.title : "";
  });

  const fold = document.getElementById("page-fold");
  if (fold) {
    fold.addEventListener("click", () => {
      const folds = fold.getAttribute("aria-pressed") === "false";
      fold.setAttribute("aria-pressed", String(folds));
      fold.textContent = folds ? "Unfold contracts" : "Fold contracts";
      for (const it of document.querySelectorAll("details.contract")) it.open = !folds;
    });
  }
  const contents = document.querySelector("details.contents");
  if (contents && !matchMedia("(min-width: 64rem)").matches) contents.open = false;

  // A link from elsewhere may lead to something that is folded.
  function unfold() {
    const target = document.getElementById(decodeURIComponent(location.hash.slice(1)));
    for (let it = target; it; it = it.parentElement) if (it.tagName === "DETAILS") it.open = true;
  }
  addEventListener("hashchange", unfold);
  unfold();
  if (location.search.startsWith("?find=")) {
    box.value = decodeURIComponent(location.search.slice(6));
    box.focus();
  }
})();
