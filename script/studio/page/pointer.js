// The board by mouse, pen and fingers: a man is dragged to a square, the board is dragged to be moved, two fingers or the wheel scale it.
import { manOn } from "./position.js";

// How far a pointer goes, in pixels, before it drags.
const SLACK = 5;

/** `on` has what is done: move(number, at), put(at), remove(number), rectangle(from, to), win(number, at). */
export function listen(board, on) {
  const pointers = new Map(), svg = board.drawing;
  let begun = null;

  const place = (event) => {
    const box = board.element.getBoundingClientRect();
    return [event.clientX - box.left - board.element.clientLeft, event.clientY - box.top - board.element.clientTop];
  };

  function down(event) {
    if (event.button > 0 || event.target.closest("[data-go]")) return;
    const [x, y] = place(event);
    pointers.set(event.pointerId, [x, y]);
    board.element.setPointerCapture(event.pointerId);
    if (pointers.size > 1) {
      drop();
      return;
    }
    const at = board.squareAt(x, y), number = at ? manOn(board.position, at) : 0;
    const win = event.target.closest("[data-man]");
    begun = { x, y, lastX: x, lastY: y, at, number: board.tool.kind === "hand" ? number : 0, win, isDrag: false };
  }

  function drop() {
    board.dragged = null;
    board.rectangle = null;
    begun = null;
    board.draw();
  }

  /** Scales and moves the board as two fingers move. */
  function pinch(event, at) {
    const [still] = [...pointers].filter(([id]) => id !== event.pointerId).map(([, it]) => it), before = pointers.get(event.pointerId);
    const apart = (it) => Math.hypot(it[0] - still[0], it[1] - still[1]) || 1;
    board.view.pan((at[0] - before[0]) / 2, (at[1] - before[1]) / 2);
    board.zoom(apart(at) / apart(before), (at[0] + still[0]) / 2, (at[1] + still[1]) / 2);
    pointers.set(event.pointerId, at);
  }

  function move(event) {
    if (!pointers.has(event.pointerId)) return;
    const [x, y] = place(event);
    if (pointers.size > 1) {
      pinch(event, [x, y]);
      return;
    }
    pointers.set(event.pointerId, [x, y]);
    if (!begun) return;
    begun.isDrag ||= Math.hypot(x - begun.x, y - begun.y) > SLACK;
    if (!begun.isDrag) return;
    if (board.tool.kind === "rectangle" && begun.at) {
      board.rectangle = [begun.at, board.squareAt(x, y) || board.rectangle?.[1] || begun.at];
    } else if (begun.number) {
      board.dragged = { number: begun.number, x, y, at: board.squareAt(x, y) };
    } else {
      board.view.pan(x - begun.lastX, y - begun.lastY);
    }
    [begun.lastX, begun.lastY] = [x, y];
    board.draw();
  }

  function up(event) {
    if (!pointers.delete(event.pointerId) || !begun) return;
    const { isDrag, number, at, x, y, win } = begun, end = place(event), rectangle = board.rectangle;
    drop();
    if (!isDrag) click(at, x, y, win);
    else if (rectangle) on.rectangle(...rectangle);
    else if (number) {
      const to = board.squareAt(...end);
      if (to) on.move(number, to);
      else board.tell("these squares are folded: click the fold to open it");
    }
  }

  function click(at, x, y, win) {
    if (!at) {
      board.open(x, y);
      return;
    }
    board.cursor = at;
    board.hasCursor = false;
    const number = manOn(board.position, at), selected = board.selected;
    board.selected = 0;
    if (board.tool.kind === "man") on.put(at);
    else if (board.tool.kind === "remove") number && on.remove(number);
    else if (board.tool.kind === "rectangle") on.rectangle(at, at);
    else if (selected && selected !== number) on.move(selected, at);
    else if (number && !selected) board.selected = number;
    else if (win) on.win(Number(win.dataset.man), win.dataset.at.split(" ").map(BigInt));
    board.draw();
    board.tellCursor();
  }

  function wheel(event) {
    event.preventDefault();
    board.zoom(Math.exp(-event.deltaY * (event.deltaMode ? 0.05 : 0.0018)), ...place(event));
  }

  function goTo(event) {
    const it = event.target.closest("[data-go]");
    if (!it || (event.type === "keydown" && event.key !== "Enter" && event.key !== " ")) return;
    event.preventDefault();
    event.stopPropagation();
    board.go(board.position.men[Number(it.dataset.go) - 1].at);
    board.element.focus({ preventScroll: true });
  }

  svg.addEventListener("click", goTo);
  svg.addEventListener("keydown", goTo);
  board.element.addEventListener("pointerdown", down);
  board.element.addEventListener("pointermove", move);
  board.element.addEventListener("pointerup", up);
  board.element.addEventListener("pointercancel", (event) => {
    pointers.delete(event.pointerId);
    drop();
  });
  board.element.addEventListener("wheel", wheel, { passive: false });
}
