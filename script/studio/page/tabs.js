// The tabs: one panel is shown at a time; arrow keys go from tab to tab.
import { find, make } from "./dom.js";

const TABS = { ask: "Ask", map: "Map", solution: "Solution", game: "Game", files: "Files", save: "Save" };

export function fill() {
  const names = Object.keys(TABS);
  const open = (name) => names.forEach((it, at) => {
    buttons[at].setAttribute("aria-selected", String(it === name));
    buttons[at].tabIndex = it === name ? 0 : -1;
    find(`panel-${it}`).hidden = it !== name;
  });
  const buttons = names.map((it) => {
    find(`panel-${it}`).setAttribute("aria-labelledby", `tab-${it}`);
    return make("button", { type: "button", role: "tab", id: `tab-${it}`, "aria-controls": `panel-${it}`, onclick: () => open(it) }, TABS[it]);
  });
  find("tabs").append(...buttons);
  find("tabs").addEventListener("keydown", (event) => {
    const step = { ArrowRight: 1, ArrowLeft: -1 }[event.key], at = buttons.indexOf(event.target);
    if (!step || at < 0) return;
    event.preventDefault();
    const next = (at + step + names.length) % names.length;
    open(names[next]);
    buttons[next].focus();
  });
  open("ask");
  return open;
}
