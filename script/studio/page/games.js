// Games: the user plays the loser against the winner's strategy, or the winner against the defender. A run of the program plays; moves are dragged.
import { bar, button, field, find, hint, make, number } from "./dom.js";
import { afterMove, letterOf, manOn, other, sideName, squareName, textOf } from "./position.js";
import { endOf, post, run } from "./runs.js";

const MOVE = /^(white|black) (\d+) (-?\d+) (-?\d+)$/;
const SECONDS = 3600;
const ENDS = {
  mate: "Mate. The game is over.", held: "Held: you had all your moves, and he is not mated. The game is over.",
  stuck: "The side to move has no legal move. The game is over.", ended: "The game is ended.",
};

export class Games {
  constructor(store, board) {
    Object.assign(this, { store, board, game: null });
    this.role = make("select", { id: "game-role", onchange: () => this.choose() }, make("option", { value: "play" }, "the loser, against the engine's mate"),
      make("option", { value: "defend" }, "the winner, against the defender"));
    this.moves = number(0, 20, 3, { id: "game-moves" });
    this.budget = number(1, 200000, 50000, { id: "game-budget" });
    this.hint = hint("");
    this.status = make("p", { id: "game-status", role: "status", "aria-live": "assertive" });
    this.list = make("ol", { id: "game-moves-made" });
    this.quit = button("End the game", () => this.say("quit"), { disabled: true, id: "game-quit" });
    this.back = button("Back to its start", () => this.store.set(this.start, "board"), { disabled: true, id: "game-back" });
    const form = make("form", { className: "fields", onsubmit: (event) => {
      event.preventDefault();
      this.begin();
    } }, field("you play", this.role), bar(field("moves", this.moves), field("budget", this.budget),
      make("button", { className: "main", id: "game-begin" }, "Begin"), this.quit, this.back), this.hint);
    find("panel-game").append(form, this.status, this.list);
    store.onChange((_, from) => from !== "game" && this.leave());
    this.choose();
  }

  choose() {
    this.hint.textContent = this.role.value === "play"
      ? "The least number of moves up to this one is looked for, and the engine mates within it whatever you reply."
      : "There has to be no mate within this number of moves; the engine defends for so long.";
  }

  get isOn() {
    return this.game !== null;
  }

  /** Begins a game from the position of the board. */
  async begin() {
    const { position } = this.store, text = textOf(position, "chess"), budget = this.budget.value;
    let moves = this.moves.value;
    this.leave();
    this.list.replaceChildren();
    try {
      if (this.role.value === "play") {
        this.tell("The program looks for the least number of moves.");
        const found = await run(`least ${moves}`, ["least", moves, budget], text, SECONDS);
        if (found.code !== 0) return this.tell(endOf(found).join(" "));
        if (!found.lines[0].startsWith("least ")) return this.tell(`There is no mate within ${moves} moves: you can play the winner against the defender.`);
        moves = found.lines[0].split(" ")[1];
      }
      if (position !== this.store.position) return this.tell("The position has changed, so the game did not begin.");
      await this.play(this.role.value, [this.role.value, moves, budget], position, text, moves);
    } catch (why) {
      this.tell(why.message);
    }
  }

  /** Plays a game by a run of `play`, `defend` or `resume`, to its end. */
  async play(kind, words, position, text, moves) {
    const mine = kind === "defend" ? position.winner : other(position.winner);
    const game = { kind, mine, count: 0, pending: null, name: null, told: null };
    this.game = game;
    this.start = position;
    this.store.before.push(position);
    this.store.set(position, "game");
    this.list.replaceChildren();
    this.setControls(true);
    this.tell(position.turn === mine ? this.yourMove() : "The engine computes its move.");
    const onLine = (line) => this.game === game && this.take(line);
    const found = await run(`game, ${words.slice(0, 2).join(" ")}`, words, text, SECONDS, { isLive: true, onLine, onStart: (name) => (game.name = name) });
    if (this.game !== game) return;
    this.game = null;
    this.setControls(false);
    const last = found.lines.at(-1) || "";
    if (found.code === 0 && last.startsWith("mate in")) this.tell(`${last}: the winner mates within ${moves} moves, so there is no defence, and no game.`);
    else if (found.code === 0 && last.startsWith("no mate in")) this.tell(`${last}, so there is no game.`);
    else if (found.code === 0 || found.code === 12) this.tell(ENDS[last] || last);
    else this.tell(endOf(found).join(" "));
  }

  yourMove() {
    return `Your move: drag one of ${sideName(this.game.mine)}'s men.`;
  }

  /** Takes a line of the program. */
  async take(line) {
    const { game } = this, found = MOVE.exec(line);
    if (line === "illegal" || line === "unreadable") return this.refuse();
    this.settle();
    if (!found) return this.tell(ENDS[line] || line);
    const number = Number(found[2]), to = [BigInt(found[3]), BigInt(found[4])];
    this.make(number, to);
    this.tell(`The engine played ${this.list.lastChild.textContent}. ${game.mine === this.store.position.turn ? this.yourMove() : ""}`);
  }

  /** Makes a move on the board, and writes it down. */
  make(number, to) {
    const { position } = this.store, man = position.men[number - 1];
    const written = `${letterOf(man)}${number}${manOn(position, to) ? "x" : " "}${squareName(to)}`;
    this.store.set(afterMove(position, number, to), "game");
    this.board.mark({ arrows: [[man.at, to]], places: [to] });
    const made = this.list.children.length, count = Math.floor(made / 2) + 1;
    this.list.append(make("li", {}, `${count}${made % 2 ? "..." : "."} ${written}`));
    if (!this.board.view.isSeen(this.board.slots(to), this.board.inset())) this.board.fit();
  }

  settle() {
    this.game.pending = null;
  }

  /** Takes a move of the user, which the program allows or refuses. */
  async move(number, to) {
    const { game, store } = this, { position } = store;
    if (game.pending) return this.tell("The program still looks at your last move.");
    if (position.turn !== game.mine) return this.tell("The engine is to move.");
    if (!game.name) return this.tell("The program has not begun yet.");
    game.count += 1;
    game.pending = { before: position, number, to, marks: { ...this.board.marks } };
    this.make(number, to);
    this.tell("The program looks at your move.");
    await this.say(`${number} ${squareName(to)}`);
  }

  async say(line) {
    try {
      await post("say", { run: this.game?.name || "", line });
    } catch (why) {
      this.tell(why.message);
    }
  }

  /** Takes back a move that is not legal, and says why it is not. */
  async refuse() {
    const { game } = this, { before, number, to, marks } = game.pending;
    game.pending = null;
    this.store.set(before, "game");
    this.board.mark(marks);
    this.list.lastChild.remove();
    const noun = game.kind === "defend" ? "move" : "reply";
    const asked = { text: textOf(before, "chess"), noun, number: game.count, move: [number, ...to].map(String) };
    const { sentence } = await post("why", asked).catch((why) => ({ sentence: why.message }));
    this.tell(`Not legal. ${sentence}`);
  }

  /** Leaves a game whose position is changed otherwise. */
  leave() {
    if (!this.game) return;
    this.say("quit");
    this.game = null;
    this.setControls(false);
    this.tell("The position was changed, and the game is ended.");
  }

  setControls(isOn) {
    this.quit.disabled = !isOn;
    this.back.disabled = isOn || !this.start;
    // The hand is the first tool.
    find("palette").firstElementChild.click();
    for (const id of ["text", "turn", "winner", "examples", "undo", "redo", "clear"]) find(id).disabled = isOn;
    for (const it of find("palette").children) it.disabled = isOn;
  }

  tell(text) {
    this.status.textContent = text;
  }
}
