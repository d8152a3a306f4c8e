// The solution as a tree: the winner's moves, the replies to each, and so on. What stands below a branch is asked for when it is opened.
import { answer, bar, button, error, field, find, hint, make, number, save } from "./dom.js";
import { fromServer, textOf } from "./position.js";
import { Entry, endOf, inPlace, post, stream } from "./runs.js";

export class Solutions {
  constructor(store, board) {
    Object.assign(this, { store, board });
    this.moves = number(1, 20, 3, { id: "solution-moves" });
    this.budget = number(1, 200000, 50000, { id: "solution-budget" });
    this.seconds = number(1, 86400, 120, { id: "solution-seconds" });
    this.depth = number(1, 20, 2, { id: "solution-depth" });
    this.tries = make("input", { type: "checkbox", id: "solution-tries" });
    this.tree = make("div", { id: "tree" });
    this.text = make("pre", { id: "solution-text", hidden: true });
    const form = make("form", { className: "fields", onsubmit: (event) => {
      event.preventDefault();
      this.grow();
    } }, bar(field("moves up to", this.moves), field("budget", this.budget), field("seconds", this.seconds),
      make("button", { className: "main", id: "solve" }, "Solve")),
    bar(field("as text, depth", this.depth), make("label", {}, this.tries, " with tries"),
      button("Solution as text", () => this.write(), { id: "solve-text" }), button("Save it", () => save("solution.txt", "text/plain", this.text.textContent))));
    find("panel-solution").append(form, this.tree, this.text);
    store.onChange((_, from) => from !== "answer" && this.tree.replaceChildren());
  }

  /** Begins the tree with the position of the board. */
  async grow() {
    const { position } = this.store, isWinner = position.turn === position.winner, moves = Number(this.moves.value);
    const list = make("div", {}, make("p", {}, "The program computes."));
    this.tree.replaceChildren(list);
    await this.open(list, textOf(position, "chess"), moves, isWinner, 1, true);
  }

  /** Fills a branch with what the server says of its position. */
  async open(list, text, moves, isWinner, count, isRoot = false) {
    const entry = new Entry(`solution, ${isWinner ? "moves" : "replies"} within ${moves}`);
    let found;
    try {
      const body = { text, moves, budget: this.budget.value, seconds: Number(this.seconds.value) };
      found = await inPlace(entry, () => post("branches", body, entry.signal));
    } catch (why) {
      found = { told: why.name === "AbortError" ? "cancelled" : why.message };
    }
    entry.end();
    if (found.told) {
      list.replaceChildren(error([found.told, ...(found.sentences || [])].join(": ")));
      return false;
    }
    const title = found.least === null ? `No mate within ${moves}.` : isWinner ? `Mate in ${found.least}.` : `Replies, if it is mate within ${moves}:`;
    list.replaceChildren(...(isRoot ? [answer(title)] : []));
    list.append(make("ul", { className: "tree" }, ...found.moves.map((it) => this.branch(it, isWinner, count))));
    if (found.more.length) list.append(hint(`Not all squares were asked for: ${found.more.join(", ")} may go elsewhere.`));
    return true;
  }

  branch(it, isWinner, count) {
    const name = `${count}${isWinner ? "." : "..."} ${it.text}`, among = it.among ? make("code", {}, it.among) : null;
    const isEnd = !it.after || (isWinner && it.left === 0) || (!isWinner && it.left === 0);
    const show = it.after ? button("show", () => this.show(it), { "aria-label": `show the position after ${name}` }) : null;
    if (isEnd) return make("li", {}, make("span", { className: "leaf" }, name, " ", among), show);
    const below = make("div", {}, make("p", {}, "The program computes."));
    const details = make("details", {}, make("summary", {}, name, " ", among), below);
    details.addEventListener("toggle", async () => {
      if (!details.open || details.dataset.isAsked) return;
      details.dataset.isAsked = "yes";
      if (!(await this.open(below, it.after, it.left, !isWinner, isWinner ? count : count + 1))) delete details.dataset.isAsked;
    });
    return make("li", {}, details, show);
  }

  /** Shows the position after a move on the board, with the move, and leaves the text as it is. */
  async show(it) {
    const { position } = await post("read", { text: it.after });
    const to = it.to.map(BigInt);
    this.store.set(fromServer(position), "answer");
    this.board.mark({ places: [to] });
  }

  /** Has ./solve write the solution. */
  async write() {
    const entry = new Entry("solution as text");
    this.text.hidden = false;
    this.text.textContent = "";
    const [moves, seconds, depth] = [this.moves, this.seconds, this.depth].map((it) => Number(it.value));
    const body = { text: textOf(this.store.position, "chess"), moves, budget: this.budget.value, seconds, depth, tries: this.tries.checked };
    try {
      const found = await stream("solution", body, entry, (line) => (this.text.textContent += `${line}\n`));
      if (found.code !== 0) this.text.textContent += `${endOf(found).join(" ")}\n`;
    } catch (why) {
      this.text.textContent = why.message;
    }
    entry.end();
  }
}
