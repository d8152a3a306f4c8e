// Positions. A man has a side, a kind and a square of two BigInts, or null where he is captured. Men are numbered from 1 by their places.

const MOST_MEN = 8;
let facts = { kinds: {}, sides: {} };

export function setFacts(found) {
  facts = found;
}

export const other = (side) => (side === "W" ? "B" : "W");
export const sideName = (side) => facts.sides[side];
export const kindName = (kind) => facts.kinds[kind];
export const nameOf = (man) => `${facts.sides[man.side]}'s ${facts.kinds[man.kind]}`;
export const letterOf = (man) => (man.side === "W" ? man.kind : man.kind.toLowerCase());
export const isSame = (one, two) => one !== null && two !== null && one[0] === two[0] && one[1] === two[1];
export const squareName = (at) => `${at[0]} ${at[1]}`;

export function fromServer(told) {
  const men = told.men.map((it) => ({ ...it, at: it.at && it.at.map(BigInt) }));
  return { men, turn: told.turn, winner: told.winner, isCrowd: told.isCrowd };
}

/** Returns the number of the man on a square, or 0. */
export function manOn(position, at) {
  return position.men.findIndex((it) => isSame(it.at, at)) + 1;
}

/** Returns the position as a text. `form` is "chess" or "crowd"; without it the position's own. */
export function textOf(position, form = isCrowd(position) ? "crowd" : "chess") {
  const turn = `turn ${position.turn}${position.winner === "B" ? " for B" : ""}`;
  const men = position.men.map((it) => `${it.side} ${it.kind} ${it.at ? squareName(it.at) : "gone"}`);
  return [`infinite ${form} 1`, turn, ...men, "end", ""].join("\n");
}

export const isCrowd = (position) => position.isCrowd || position.men.length > MOST_MEN;

/** Returns the position after a move of a game: who stood on the square is captured, and the other side is to move. */
export function afterMove(position, number, to) {
  const men = position.men.map((it, at) => (at === number - 1 ? { ...it, at: to } : isSame(it.at, to) ? { ...it, at: null } : it));
  return { ...position, men, turn: other(position.turn) };
}

/** Returns the position with a man put on a square, in place of who stood there. */
export function withManAt(position, number, to) {
  const men = position.men.map((it, at) => (at === number - 1 ? { ...it, at: to } : it));
  return { ...position, men: men.filter((it, at) => at === number - 1 || !isSame(it.at, to)) };
}

export function withNewMan(position, side, kind, at) {
  return { ...position, men: [...position.men.filter((it) => !isSame(it.at, at)), { side, kind, at }] };
}

export function withoutMan(position, number) {
  return { ...position, men: position.men.filter((_, at) => at !== number - 1) };
}

/** The position that the page shows, with what it was before, and who is to be told of a change. */
export class Store {
  constructor() {
    this.position = { men: [], turn: "W", winner: "W", isCrowd: false };
    this.before = [];
    this.later = [];
    this.listeners = [];
  }

  onChange(listener) {
    this.listeners.push(listener);
  }

  /** Takes a position. `from` says who changes it: "text", "board", "game" or "answer". */
  set(position, from) {
    if (from !== "game") {
      this.before.push(this.position);
      this.later = [];
    }
    this.show(position, from);
  }

  show(position, from) {
    this.position = position;
    for (const it of this.listeners) it(position, from);
  }

  undo() {
    if (!this.before.length) return;
    this.later.push(this.position);
    this.show(this.before.pop(), "undo");
  }

  redo() {
    if (!this.later.length) return;
    this.before.push(this.position);
    this.show(this.later.pop(), "undo");
  }
}
