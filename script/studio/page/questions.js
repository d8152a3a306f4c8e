// Questions about the position, and their answers in words and on the board.
import { answer, bar, button, error, field, find, hint, make, number } from "./dom.js";
import { afterMove, isCrowd, squareName, textOf } from "./position.js";
import { inWords, parse, setOf, wayOf } from "./rays.js";
import { endOf, run } from "./runs.js";

const BUDGETS = { value: 50000, most: 200000 };
const OVER_BUDGET = 8;
// The most men of a table.
const MOST_OF_TABLES = 5;
// What can be asked, where the program has the command: the question, the label of its number, the greatest and the usual one, and the form of its text.
const QUESTIONS = {
  least: { says: "In how few moves does the winner mate?", label: "up to", most: 20, usual: 3 },
  decide: { says: "Does the winner mate within N moves?", label: "N", most: 20, usual: 2 },
  first: { says: "Which first moves mate? The nearest squares", label: "N", most: 20, usual: 2 },
  describe: { says: "Which first moves mate? All squares", label: "N", most: 20, usual: 2 },
  crowd: { says: "Does the winner mate? For up to 32 men", label: "N", most: 2, usual: 1, form: "crowd" },
  checks: { says: "Does he mate within N moves, all but Q of them checks?", label: "N", most: 20, usual: 4, second: { label: "Q", most: 20, usual: 0 } },
  ever: { says: "Does the winner ever mate, and in how few moves?", label: "up to", most: 99, usual: 20 },
  table: { says: "From where do these men mate? A table", label: "up to", most: 99, usual: 12, form: "stock" },
  family: { says: "For which numbers in a letter's place is it mate?", label: "N", most: 20, usual: 1, form: "family" },
};

/** Returns the stock text of the men on the board: their sides and kinds. */
function stockOf(position) {
  const men = position.men.filter((it) => it.at).map((it) => `${it.side} ${it.kind}`);
  return ["infinite stock 1", `winner ${position.winner}`, ...men, "end", ""].join("\n");
}

export class Questions {
  constructor(store, board, facts, loadText) {
    Object.assign(this, { store, board, facts, loadText });
    const known = Object.keys(QUESTIONS).filter((it) => it in facts.commands);
    const options = known.map((it) => make("option", { value: it }, QUESTIONS[it].says));
    this.command = make("select", { id: "question", onchange: () => this.choose() }, ...options);
    this.number = number(0, 20, 3, { id: "number" });
    this.second = number(0, 20, 0, { id: "second" });
    this.budget = number(1, BUDGETS.most, BUDGETS.value, { id: "budget" });
    this.seconds = number(1, 86400, 60, { id: "seconds" });
    this.own = make("textarea", { rows: 8, spellcheck: false, id: "own-text", "aria-label": "text of the question" });
    this.numberLabel = make("span");
    this.secondLine = make("label", {}, make("span", {}, "Q "), this.second);
    this.ownLine = make("div", {}, hint("Write a or b, or sums as a+3, in the place of numbers."), this.own);
    this.help = make("pre");
    find("ask").append(field("question", this.command), bar(make("label", {}, this.numberLabel, " ", this.number), this.secondLine,
      field("budget", this.budget), field("seconds", this.seconds), make("button", { id: "ask-now", className: "main" }, "Ask")), this.ownLine,
    make("details", {}, make("summary", {}, "What this asks"), this.help));
    find("ask").addEventListener("submit", (event) => {
      event.preventDefault();
      this.ask(this.command.value, [this.number.value, ...(QUESTIONS[this.command.value].second ? [this.second.value] : [])], this.budget.value);
    });
    store.onChange((position) => this.follow(position));
    this.choose();
  }

  choose() {
    const asked = QUESTIONS[this.command.value];
    this.numberLabel.textContent = asked.label;
    this.number.max = asked.most;
    this.number.value = asked.usual;
    this.secondLine.hidden = !asked.second;
    this.ownLine.hidden = asked.form !== "family";
    this.help.textContent = this.facts.commands[this.command.value];
  }

  /** Lets the text of a family follow the board, where nothing is written into it yet. */
  follow(position) {
    if (this.own.value === this.prefilled || !this.own.value) this.own.value = this.prefilled = textOf(position, "family");
  }

  textFor(command) {
    const { form } = QUESTIONS[command], { position } = this.store;
    if (form === "stock") return stockOf(position);
    if (form === "family") return this.own.value.endsWith("\n") ? this.own.value : `${this.own.value}\n`;
    return textOf(position, form || "chess");
  }

  /** Asks, and shows the answer above the earlier ones. */
  async ask(command, numbers, budget) {
    const { position } = this.store, title = [command, ...numbers].join(" ");
    const body = make("div", {}, make("p", {}, "The program computes.")), article = make("article", {}, make("h3", {}, title), body);
    find("answers").prepend(article);
    let found;
    try {
      found = await run(title, [command, ...numbers, budget], this.textFor(command), Number(this.seconds.value));
    } catch (why) {
      found = { lines: [], sentences: [why.message], code: 1 };
    }
    article.querySelector("h3").append(make("small", {}, ` budget ${budget}${found.seconds === undefined ? "" : `, ${found.seconds.toFixed(1)} s`}`));
    if (found.code !== 0) body.replaceChildren(...endOf(found).map(error), ...this.advice(command, numbers, budget, found));
    else body.replaceChildren(...this.answer(command, numbers, found.lines, position));
    const [verb, least] = (found.lines[0] || "").split(" ");
    const isAsked = found.code === 0 && command === "least" && verb === "least" && least !== "0" && position.turn === position.winner;
    if (isAsked && position === this.store.position) await this.ask("describe", [least], budget);
    return found;
  }

  /** Returns what to try where a run had no answer: a larger budget, or another question. */
  advice(command, numbers, budget, found) {
    const { position } = this.store, made = [], moves = Number(numbers[0]), { commands } = this.facts;
    const offer = (told, ...asked) => made.push(button(told, () => this.ask(...asked)));
    if (found.code === OVER_BUDGET && Number(budget) < BUDGETS.most) offer(`Ask with the budget ${BUDGETS.most}`, command, numbers, BUDGETS.most);
    if (found.code === OVER_BUDGET || found.stopped) {
      const isFewer = moves > 0 && !["crowd", "table", "family"].includes(command), isSmall = position.men.filter((it) => it.at).length <= MOST_OF_TABLES;
      if (isFewer) offer(`Ask within ${moves - 1}`, command, [moves - 1, ...numbers.slice(1)], budget);
      if (["decide", "least"].includes(command)) offer("Ask crowd 1", "crowd", [1], budget);
      if (["decide", "least"].includes(command) && moves > 1) offer("Ask crowd 2", "crowd", [2], budget);
      if (command !== "ever" && "ever" in commands && isSmall) offer("Ask ever", "ever", [20], budget);
      if (command === "describe") offer("Ask for the nearest squares", "first", numbers, budget);
    }
    if (isCrowd(position) && command !== "crowd") offer("Ask as a crowd", "crowd", [Math.min(moves, 2)], budget);
    return made.length ? [make("p", { className: "bar" }, "To try: ", ...made)] : [];
  }

  answer(command, numbers, lines, position) {
    if (command === "first" || command === "describe") return this.rays(numbers[0], lines, position);
    if (command === "table") return [make("p", {}, lines[0]), ...this.positions(lines.slice(1))];
    if (command === "family") return lines.slice(0, -1).map((it) => make("p", {}, this.familyLine(it)));
    return [answer(this.sentence(lines[0], numbers)), ...(lines.length > 1 ? [make("pre", {}, lines.slice(1).join("\n"))] : [])];
  }

  sentence(line, [moves]) {
    const [verb, count] = line.split(" "), noun = count === "1" ? "move" : "moves";
    if (line === "least 0") return "least 0: it is mate.";
    if (verb === "least") return `${line}: mate in ${count}, that is within ${count} ${noun} and not within fewer.`;
    if (line.startsWith("none up to")) return `${line}: no mate within ${moves} ${moves === "1" ? "move" : "moves"}.`;
    if (line === "never") return "never: the winner cannot force mate, however long he plays.";
    if (line.startsWith("mate in")) return `${line}: the winner mates within ${moves} of his moves, whatever is replied.`;
    if (line.startsWith("no mate in")) return `${line}: the winner cannot force mate within ${moves} of his moves.`;
    return line;
  }

  /** Shows the rays of first moves on the board, and lists them. */
  rays(moves, lines, position) {
    const rays = lines.slice(0, -1).map((it) => parse(it, position)).filter(Boolean);
    if (position === this.store.position) this.board.mark({ rays: rays.filter((it) => it.distance !== null), arrows: [] });
    if (!rays.length) {
      const why = position.turn === position.winner ? `No first move mates within ${moves}.` : "The loser is to move, so the winner has no first move.";
      return [answer(why)];
    }
    const show = (at) => button(`show ${squareName(at)}`, () => this.board.go(at), { title: "the nearest square" });
    const acts = (it) => (it.distance === null ? [] : [show(it.nearest),
      button("make the move", () => this.makeMove(position, it), { "aria-label": `make the move of man ${it.man} to ${squareName(it.nearest)}` })]);
    const row = (it) => make("li", {}, `${wayOf(it, position)}: `, make("b", {}, it.words), ...acts(it), make("code", {}, it.line));
    return [answer(`First moves that mate within ${moves}:`), make("ul", { className: "rays" }, ...rays.map(row)),
      button("Clear the board of rays", () => this.board.clearMarks())];
  }

  /** Shows the position after a first move. */
  makeMove(position, { man, nearest }) {
    this.store.set(afterMove(position, man, nearest), "board");
    this.board.mark({ places: [nearest], arrows: [[position.men[man - 1].at, nearest]] });
  }

  familyLine(line) {
    const found = /^(unsound )?(up|down) (.+)$/.exec(line), set = found && setOf(found[3]);
    if (!set) return line;
    const way = found[2] === "up" ? "upward from 0" : "downward from -1";
    return `${found[1] ? "not sound" : "mate"}, ${way}: ${inWords(set)} (${line})`;
  }

  /** Shows the positions that stand in an answer of a table. */
  positions(lines) {
    const made = [];
    let name = "", text = [];
    for (const line of lines) {
      if (line === "hardest" || line === "never") name = line;
      else if (name) text.push(line);
      if (name && line === "end") {
        const whole = `${text.join("\n")}\n`;
        const says = name === "hardest" ? "A position that takes the most moves: " : "A position that is never won: ";
        made.push(make("p", {}, says, button("show it", () => this.loadText(whole))));
        [name, text] = ["", []];
      }
    }
    return made;
  }
}
