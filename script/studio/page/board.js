// The board: what is seen of a position, and what is marked on it. Pointers are in pointer.js, keys in keys.js.
import { Axis, View } from "./axis.js";
import { drawing, short } from "./draw.js";
import { find } from "./dom.js";
import { isSame, manOn, nameOf, squareName } from "./position.js";

const NOTHING = { rays: [], arrows: [], places: [], map: new Map() };

export class Board {
  constructor() {
    this.element = find("board");
    this.drawing = find("drawing");
    this.view = new View();
    this.axes = [new Axis([], false), new Axis([], false)];
    this.position = { men: [], turn: "W", winner: "W" };
    this.marks = { ...NOTHING };
    // Squares that are not folded although nothing stands on them.
    this.opened = [];
    this.isFolded = true;
    this.cursor = [0n, 0n];
    this.hasCursor = false;
    this.selected = 0;
    this.dragged = null;
    this.rectangle = null;
    this.tool = { kind: "hand" };
    this.frame = 0;
    new ResizeObserver(() => this.resize()).observe(this.element);
  }

  resize() {
    const { clientWidth, clientHeight } = this.element, isFirst = !this.isSized;
    if (!clientWidth) return;
    this.view.size = [clientWidth, clientHeight];
    this.drawing.setAttribute("viewBox", `0 0 ${clientWidth} ${clientHeight}`);
    this.isSized = true;
    if (isFirst) this.fit();
    this.draw();
  }

  /** Draws the board before the next frame. */
  draw() {
    if (!this.frame) this.frame = requestAnimationFrame(() => this.drawNow());
  }

  drawNow() {
    this.frame = 0;
    const focused = document.activeElement?.dataset?.go;
    this.drawing.innerHTML = drawing(this);
    if (focused) (this.drawing.querySelector(`[data-go="${focused}"]`) || this.element).focus({ preventScroll: true });
  }

  men() {
    return this.position.men.map((man, at) => ({ man, number: at + 1 })).filter((it) => it.man.at);
  }

  slots(at) {
    return [this.axes[0].slotOf(at[0]), this.axes[1].slotOf(at[1])];
  }

  corner(at) {
    const [x, y] = this.slots(at);
    return [this.view.left(x), this.view.top(y)];
  }

  /** Returns the square at a place in pixels, or null where it is folded away. */
  squareAt(x, y) {
    const slots = this.view.slotAt(x, y), found = [0, 1].map((it) => this.axes[it].in(slots[it]));
    return found.some((it) => it.fold) ? null : found.map((it) => it.at);
  }

  /** Returns the square in the middle of what is seen. */
  middle() {
    return [0, 1].map((it) => {
      const found = this.axes[it].in(this.view.base[it]);
      return found.fold ? found.fold.low : found.at;
    });
  }

  /** Returns the width of the names of the ranks, and the height of those of the files, of what is seen and of the men. */
  inset() {
    const [columns, rows] = this.view.slots(this.axes), ends = (line) => [line[0], line.at(-1)].filter((it) => it && !it.fold).map((it) => it.at);
    const shown = [columns, rows].map((line, axis) => {
      const near = this.axes[axis].folds.length ? this.men().map((it) => it.man.at[axis]) : [];
      return Math.max(1, ...[...ends(line), ...near].map((it) => short(it).length));
    });
    return [Math.max(30, shown[1] * 7.5 + 14), shown[0] > 4 ? shown[0] * 7.5 + 12 : 22];
  }

  /** Takes a position, and keeps in the middle what is there. */
  show(position, { fits = false, keepsMarks = false } = {}) {
    const middle = this.middle();
    this.position = position;
    if (!keepsMarks) this.marks = { ...NOTHING };
    this.selected = 0;
    this.dragged = null;
    this.fold();
    if (fits) this.fit();
    else this.view.base = this.slots(middle);
    this.draw();
  }

  /** Folds what is empty: all but the squares of the men, of marks and of what was opened. */
  fold() {
    const { places, arrows, rays } = this.marks;
    const kept = [...this.men().map((it) => it.man.at), ...this.opened, ...places, ...arrows.flat(), ...rays.map((it) => it.nearest)];
    if (this.hasCursor) kept.push(this.cursor);
    this.axes = [0, 1].map((it) => new Axis(kept.map((at) => at[it]), this.isFolded));
  }

  refold(change) {
    const middle = this.middle();
    change();
    this.fold();
    this.view.base = this.slots(middle);
    this.draw();
  }

  setFolded(isFolded) {
    this.refold(() => {
      this.isFolded = isFolded;
      this.opened = [];
    });
    this.fit();
  }

  /** Opens a fold by some squares at both of its ends. */
  open(x, y) {
    const slots = this.view.slotAt(x, y), here = this.middle();
    const folds = [0, 1].map((it) => this.axes[it].in(slots[it]).fold);
    this.refold(() => {
      folds.forEach((fold, it) => {
        for (const at of fold ? [fold.low + 2n, fold.high - 2n] : []) this.opened.push(it === 0 ? [at, here[1]] : [here[0], at]);
      });
    });
    return folds.some(Boolean);
  }

  mark(marks) {
    this.refold(() => (this.marks = { ...this.marks, ...marks }));
  }

  clearMarks() {
    this.mark({ ...NOTHING });
  }

  fit() {
    this.view.fit(this.men().map((it) => this.slots(it.man.at)), this.inset());
    this.draw();
  }

  zoom(factor, x, y) {
    this.view.zoom(factor, x, y);
    this.draw();
  }

  /** Shows a square in the middle, with the cursor on it. */
  go(at) {
    if (this.isFolded && !this.men().some((it) => isSame(it.man.at, at))) this.refold(() => this.opened.push(at));
    this.cursor = at;
    this.view.centre(this.slots(at));
    this.draw();
    this.tellCursor();
  }

  /** Says what stands on the cursor's square, for those who do not see it. */
  tellCursor() {
    const number = manOn(this.position, this.cursor);
    const man = number ? `: ${nameOf(this.position.men[number - 1])}, man ${number}` : ": empty";
    const held = this.selected ? `; man ${this.selected} is taken up` : "";
    find("cursor").textContent = `file ${this.cursor[0]}, rank ${this.cursor[1]}${man}${held}`;
  }

  tell(text) {
    find("cursor").textContent = text;
  }

  squareName(at) {
    return squareName(at);
  }
}
