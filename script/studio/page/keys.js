// The board by keys: a cursor that goes from square to square, takes men up and puts them down, sets and removes them.
import { manOn } from "./position.js";

const STEPS = { ArrowLeft: [-1n, 0n], ArrowRight: [1n, 0n], ArrowUp: [0n, 1n], ArrowDown: [0n, -1n] };
const MEN = "KQRBNPCAZH";

/** `on` has what is done: move(number, at), set(side, kind, at), put(at), remove(number), rectangle(from, to), undo, redo. */
export function listen(board, on) {
  let corner = null;

  /** Moves the cursor, and opens a fold that it comes into. */
  function step([x, y], count) {
    board.cursor = [board.cursor[0] + x * count, board.cursor[1] + y * count];
    board.refold(() => (board.hasCursor = true));
    if (corner) board.rectangle = [corner, board.cursor];
    if (!board.view.isSeen(board.slots(board.cursor), board.inset())) board.view.centre(board.slots(board.cursor));
  }

  /** Moves the cursor to the next man in a direction, or past the next fold. */
  function leap([x, y]) {
    const axis = x ? 0 : 1, to = board.slots(board.cursor), by = x || y;
    const seen = [...board.men().map((it) => board.slots(it.man.at)[axis]), ...board.axes[axis].folds.map((it) => it.slot + by)];
    const ahead = seen.map((it) => (it - to[axis]) * by).filter((it) => it > 0n).reduce((one, two) => (one === null || two < one ? two : one), null);
    to[axis] += by * (ahead ?? 1n);
    board.cursor = [0, 1].map((it) => board.axes[it].in(to[it]).at ?? board.cursor[it]);
    step([0n, 0n], 0n);
  }

  /** Takes up, puts down, or does what the tool does. */
  function act() {
    const number = manOn(board.position, board.cursor), { selected } = board;
    if (board.tool.kind === "rectangle") return frame();
    if (board.tool.kind === "remove") return number && on.remove(number);
    board.selected = 0;
    if (selected && selected !== number) on.move(selected, board.cursor);
    else if (number && !selected) board.selected = number;
    else if (!number && board.tool.kind === "man") on.put(board.cursor);
  }

  function frame() {
    if (!corner) {
      corner = board.cursor;
      board.rectangle = [corner, corner];
      return;
    }
    const from = corner;
    letGo();
    on.rectangle(from, board.cursor);
  }

  function letGo() {
    corner = null;
    board.selected = 0;
    board.rectangle = null;
  }

  const plain = {
    Enter: act, " ": act, Escape: letGo, "0": () => board.fit(),
    "+": () => board.zoom(1.2), "=": () => board.zoom(1.2), "-": () => board.zoom(1 / 1.2),
    Delete: () => remove(), Backspace: () => remove(),
  };

  function remove() {
    const number = manOn(board.position, board.cursor);
    if (number) on.remove(number);
  }

  board.element.addEventListener("keydown", (event) => {
    if (event.target !== board.element || event.altKey) return;
    const { key } = event, kind = key.toUpperCase();
    if (STEPS[key] && (event.ctrlKey || event.metaKey)) leap(STEPS[key]);
    else if (event.ctrlKey || event.metaKey) {
      if (kind !== "Z" && kind !== "Y") return;
      if (kind === "Y" || event.shiftKey) on.redo();
      else on.undo();
    } else if (STEPS[key]) step(STEPS[key], event.shiftKey ? 10n : 1n);
    else if (plain[key]) plain[key]();
    else if (key.length === 1 && MEN.includes(kind)) on.set(key === kind ? "W" : "B", kind, board.cursor);
    else return;
    event.preventDefault();
    board.hasCursor = true;
    board.draw();
    board.tellCursor();
  });
  board.element.addEventListener("focus", () => {
    // Men who are far away have their arrows; the cursor begins where something is seen.
    if (!board.view.isSeen(board.slots(board.cursor), board.inset())) board.cursor = board.middle();
    if (board.element.matches(":focus-visible")) {
      board.hasCursor = true;
      board.tellCursor();
    }
    board.draw();
  });
  board.element.addEventListener("blur", () => {
    board.hasCursor = false;
    board.draw();
  });
}
