// A map: within how few moves the winner mates, for each square of a rectangle that a man stands on.
import { answer, bar, button, error, field, find, hint, make, number } from "./dom.js";
import { isSame, nameOf, textOf, withManAt } from "./position.js";
import { Entry, endOf, stream } from "./runs.js";

const MOST_SQUARES = 10000n;
const SIGNS = { none: ".", over: "?", unsound: "", stopped: "~" };
const NAMES = { none: "no mate", over: "past the budget", unsound: "not sound", stopped: "not asked" };
const COLOURS = { none: "#8a817133", over: "#b3321b55", unsound: "#8a817111", stopped: "#00000000" };

const together = (...parts) => make("span", { className: "together" }, ...parts);

/** Returns the colour of a number of moves. */
function colourOf(moves) {
  return `hsl(${(150 + moves * 47) % 360} 55% 52% / 0.75)`;
}

export class Maps {
  constructor(store, board) {
    Object.assign(this, { store, board });
    this.man = make("select", { id: "map-man" });
    this.most = number(0, 20, 2, { id: "map-most" });
    this.budget = number(1, 200000, 50000, { id: "map-budget" });
    this.seconds = number(1, 86400, 20, { id: "map-seconds" });
    const rule = { type: "text", inputMode: "numeric", pattern: "0|-?[1-9][0-9]{0,18}", required: true, size: 4 };
    const end = (name, at) => make("input", { ...rule, value: at % 2 ? "4" : "-4", "aria-label": name, id: `map-${at}` });
    this.range = ["first file", "last file", "first rank", "last rank"].map(end);
    this.draw = button("Drag a rectangle on the board", () => this.toggle(), { id: "map-draw", "aria-pressed": "false" });
    this.told = make("div", { "aria-live": "polite" });
    const [left, right, low, high] = this.range;
    const form = make("form", { className: "fields", onsubmit: (event) => {
      event.preventDefault();
      this.ask();
    } }, hint("In how few moves the winner mates, by where one man stands."), field("man", this.man),
    bar(together("files ", left, " to ", right), together("ranks ", low, " to ", high), this.draw),
    bar(field("moves up to", this.most), field("budget", this.budget), field("seconds a square", this.seconds),
      make("button", { className: "main", id: "map-ask" }, "Make the map")));
    find("panel-map").append(form, this.told);
    store.onChange((position) => this.fill(position));
  }

  fill(position) {
    const chosen = this.man.value;
    const told = (it) => `${nameOf(it)}${it.at ? ` on ${it.at.join(" ")}` : ", captured"}`;
    this.man.replaceChildren(...position.men.map((it, at) => make("option", { value: at + 1 }, `${at + 1}: ${told(it)}`)));
    if (chosen && chosen <= position.men.length) this.man.value = chosen;
  }

  toggle() {
    const isOn = this.board.tool.kind !== "rectangle";
    this.board.tool = { kind: isOn ? "rectangle" : "hand" };
    this.draw.setAttribute("aria-pressed", String(isOn));
    this.board.tell(isOn ? "drag a rectangle, or set two corners with Enter" : "");
  }

  /** Takes a rectangle that was dragged. */
  take(one, other) {
    const ends = [0, 1].flatMap((it) => (one[it] < other[it] ? [one[it], other[it]] : [other[it], one[it]]));
    ends.forEach((it, at) => (this.range[at].value = String(it)));
    this.toggle();
  }

  /** Asks for each square, those nearest to the middle first, and colours it as soon as its answer is there. */
  async ask() {
    const { position } = this.store, man = Number(this.man.value), [left, right, low, high] = this.range.map((it) => BigInt(it.value));
    const count = (right - left + 1n) * (high - low + 1n);
    if (!man || left > right || low > high || count > MOST_SQUARES) {
      this.told.replaceChildren(error(man ? "A map goes from a file and a rank to none that is less, and has at most 10000 squares." : "There is no man."));
      return;
    }
    const squares = [];
    for (let y = high; y >= low; y -= 1n) for (let x = left; x <= right; x += 1n) squares.push([x, y]);
    const free = squares.filter((at) => !position.men.some((it, index) => index !== man - 1 && isSame(it.at, at)));
    const entry = new Entry(`map of ${count} squares`), map = new Map(), tally = {};
    this.board.mark({ map, rays: [] });
    let done = 0, refused = null;
    const one = async (at) => {
      const told = await this.answer(position, man, at, entry);
      if (told.why) refused ||= told.why;
      const [sign, colour, name] = told.moves === undefined ? [SIGNS[told.word], COLOURS[told.word], NAMES[told.word]]
        : [String(told.moves), colourOf(told.moves), `mate in ${told.moves}`];
      map.set(at.join(" "), { sign, colour });
      tally[name] = (tally[name] || 0) + 1;
      done += 1;
      entry.note = `${done} of ${free.length}, about ${Math.ceil((entry.seconds / done) * (free.length - done))} s left`;
      if (this.store.position !== position) entry.controller.abort();
      else this.board.draw();
    };
    const queue = [...free], worker = async () => {
      while (queue.length && !refused && !entry.signal.aborted) await one(queue.shift());
    };
    await Promise.all([1, 2, 3].map(worker));
    entry.end();
    const sorted = Object.entries(tally).sort(([one], [other]) => one.localeCompare(other, "en", { numeric: true }));
    const words = sorted.map(([name, count]) => make("li", {}, `${name}: ${count} ${count === 1 ? "square" : "squares"}`));
    const title = `Map of man ${man}, ${nameOf(position.men[man - 1])}${entry.signal.aborted ? ", cancelled" : ""}:`;
    this.told.replaceChildren(refused ? error(refused) : answer(title),
      make("ul", {}, ...words), button("Clear the map", () => this.board.mark({ map: new Map() })));
    this.found = { position, man, map };
  }

  /** Returns the number of moves for one square, or a word where there is none. */
  async answer(position, man, at, entry) {
    const text = textOf(withManAt(position, man, at), "chess"), words = ["least", this.most.value, this.budget.value];
    try {
      const found = await stream("run", { words, text, seconds: Number(this.seconds.value), isLive: false }, entry);
      if (found.code === 0) return found.lines[0].startsWith("least") ? { moves: Number(found.lines[0].split(" ")[1]) } : { word: "none" };
      if (found.code === 4 || found.code === 8) return { word: found.code === 4 ? "unsound" : "over" };
      return { word: "stopped", why: found.stopped ? undefined : endOf(found).join(" ") };
    } catch (why) {
      return { word: "stopped", why: why.message };
    }
  }
}
