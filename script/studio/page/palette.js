// The tools above the board: the hand, the men that can be set, and the remover. One of them is chosen; arrow keys go from one to the next.
import { figure } from "./draw.js";
import { button, find, make } from "./dom.js";
import { kindName, sideName } from "./position.js";

const MEN = "KQRBNPCAZH";

function icon(side, kind) {
  const made = make("span", { className: "icon" });
  made.innerHTML = `<svg viewBox="4 2 36 40" aria-hidden="true">${figure(side, kind)}</svg>`;
  return made;
}

export function fill(board) {
  const bar = find("palette"), tools = [{ kind: "hand", label: "Move men and the board", sign: "✥" }];
  const men = (side) => [...MEN].map((kind) => ({ kind: "man", side, man: kind, label: `Set ${sideName(side)}'s ${kindName(kind)}` }));
  tools.push(...men("W"), { kind: "remove", label: "Remove men", sign: "✕" }, ...men("B"));
  const choose = (tool) => {
    board.tool = tool;
    buttons.forEach((it, at) => {
      it.setAttribute("aria-pressed", String(tools[at] === tool));
      it.tabIndex = tools[at] === tool ? 0 : -1;
    });
    board.element.dataset.tool = tool.kind;
  };
  const buttons = tools.map((tool) => {
    const sign = tool.kind === "man" ? icon(tool.side, tool.man) : tool.sign;
    const name = tool.man ? tool.side + tool.man : tool.kind;
    return button(sign, () => choose(tool), { title: tool.label, "aria-label": tool.label, "data-tool": name });
  });
  bar.append(...buttons);
  bar.addEventListener("keydown", (event) => {
    const step = { ArrowRight: 1, ArrowDown: 1, ArrowLeft: -1, ArrowUp: -1 }[event.key], at = buttons.indexOf(event.target);
    if (!step || at < 0) return;
    event.preventDefault();
    buttons[(at + step + buttons.length) % buttons.length].focus();
  });
  choose(tools[0]);
}
