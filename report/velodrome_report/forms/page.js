"use strict";
const at = (id) => document.getElementById(id);
const items = [...document.querySelectorAll("nav li")];
const linkOf = (item) => item.querySelector("a");
const articleOf = (item) => at(linkOf(item).hash.slice(1));
let chosen = null;

/** Shows one finding; the others stay in the page, hidden. */
const choose = (item) => {
  for (const other of items) {
    linkOf(other).removeAttribute("aria-current");
    articleOf(other).hidden = other !== item;
  }
  chosen = item;
  if (!item) return;
  const folded = item.closest("details");
  if (folded) folded.open = true;
  linkOf(item).setAttribute("aria-current", "true");
  item.scrollIntoView({ block: "nearest" });
};

const visible = () => items.filter((item) => !item.hidden);

const filter = () => {
  const wanted = at("filter").value.trim().toLowerCase();
  for (const item of items) item.hidden = !item.dataset.words.toLowerCase().includes(wanted);
  const left = visible();
  at("count").textContent = wanted === "" ? "" : `${left.length} of ${items.length}`;
  at("none").hidden = left.length > 0;
  if (!left.includes(chosen)) choose(left[0] ?? null);
};

const move = (steps) => {
  const left = visible();
  if (left.length === 0) return;
  const place = left.indexOf(chosen) + steps;
  choose(left[Math.min(Math.max(place, 0), left.length - 1)]);
};

const empty = () => {
  at("filter").value = "";
  at("filter").blur();
  filter();
};

const KEYS = {
  j: () => move(1), k: () => move(-1), ArrowDown: () => move(1), ArrowUp: () => move(-1),
  Home: () => move(-Infinity), End: () => move(Infinity), "/": () => at("filter").focus(), Escape: empty,
};
const IN_FILTER = ["ArrowDown", "ArrowUp", "Escape"];

document.addEventListener("keydown", (pressed) => {
  if (pressed.ctrlKey || pressed.altKey || pressed.metaKey || !Object.hasOwn(KEYS, pressed.key)) return;
  const typing = pressed.target === at("filter");
  const scrolling = pressed.target.closest("section") && /^(Arrow|Home|End)/.test(pressed.key);
  if (scrolling || (typing && !IN_FILTER.includes(pressed.key))) return;
  pressed.preventDefault();
  KEYS[pressed.key]();
});

const byHash = () => items.find((item) => linkOf(item).hash === location.hash);
addEventListener("hashchange", () => choose(byHash() ?? chosen));
if (items.length > 0) {
  at("filter").addEventListener("input", filter);
  at("tools").hidden = false;
  choose(byHash() ?? items[0]);
}
