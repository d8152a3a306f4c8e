// The text of the position: it follows the board, and the board follows it. The server reads it, by the rules of the program.
import { find, make } from "./dom.js";
import { fromServer, isCrowd, setFacts, sideName, textOf } from "./position.js";
import { post } from "./runs.js";

// The server takes questions of 16 KB.
const PAUSE = 250, MOST_LETTERS = 8000;
const SOUND = 0, OURS = /^\s*infin/;

export class TextPane {
  constructor(store, facts) {
    this.store = store;
    this.area = find("text");
    this.asked = 0;
    setFacts(facts);
    this.area.addEventListener("input", () => {
      clearTimeout(this.timer);
      this.timer = setTimeout(() => this.take(), PAUSE);
      this.number(0);
    });
    this.area.addEventListener("scroll", () => (find("gutter").scrollTop = this.area.scrollTop));
    for (const it of ["turn", "winner"]) find(it).addEventListener("change", () => store.set({ ...store.position, [it]: find(it).value }, "board"));
    this.fillExamples(facts.examples);
    store.onChange((position, from) => this.follow(position, from));
  }

  fillExamples(examples) {
    const select = find("examples");
    select.append(...Object.keys(examples).map((it) => make("option", { value: it }, it.replaceAll("-", " "))));
    select.addEventListener("change", () => {
      if (!select.value) return;
      this.load(examples[select.value]);
      select.value = "";
    });
  }

  /** Shows a text as if it were typed, without what follows its line `end`. */
  load(text) {
    this.area.value = `${text.split("\nend\n")[0]}\nend\n`;
    return this.take();
  }

  follow(position, from) {
    find("turn").value = position.turn;
    find("winner").value = position.winner;
    if (from === "text") return;
    this.area.value = textOf(position);
    this.number(0);
    clearTimeout(this.timer);
    this.timer = setTimeout(() => this.check(), from === "game" ? 0 : PAUSE);
  }

  /** Reads what was typed or pasted. */
  async take() {
    const typed = this.area.value;
    if (typed.length > MOST_LETTERS) return this.refuse(0, [`A text has at most ${MOST_LETTERS} letters here.`]);
    if (!typed.trim()) return this.refuse(0, ["There is no text: write a position, or set men on the board."]);
    if (OURS.test(typed)) return this.check(true);
    const asked = ++this.asked;
    try {
      const { text, told, form, refused } = await post("notation", { text: typed.trim(), form: "" });
      if (asked !== this.asked) return;
      if (refused) return this.refuse(0, [`This is no position text, and not read as ICN or FEN: ${refused}.`]);
      this.area.value = text;
      await this.check(true);
      find("verdict").append(` Read as ${form}. `, make("span", { className: "left-out" }, told.length ? `${told.join("; ")}.` : ""));
    } catch (why) {
      if (asked === this.asked) this.refuse(0, [why.message]);
    }
  }

  /** Has the text read, and shows its position, or where it is refused. */
  async check(isTyped = false) {
    const asked = ++this.asked, typed = this.area.value;
    let found;
    try {
      found = await post("read", { text: typed.endsWith("\n") ? typed : `${typed}\n` });
    } catch (why) {
      found = { line: 0, sentences: [why.message] };
    }
    if (asked !== this.asked) return;
    if (!found.position) return this.refuse(found.line, found.sentences.length ? found.sentences : [found.told]);
    if (isTyped) this.store.set(fromServer(found.position), "text");
    if (found.code !== SOUND) return this.refuse(0, found.sentences.length ? found.sentences : found.told);
    this.number(0);
    find("refusal").textContent = "";
    this.area.setAttribute("aria-invalid", "false");
    find("verdict").textContent = this.verdict(found.told);
    find("verdict").className = "good";
  }

  verdict(told) {
    const { position } = this.store, turn = `${sideName(position.turn)} to move`;
    if (isCrowd(position)) return `A sound crowd of ${position.men.length} men. ${turn}.`;
    return `Sound. ${turn}, ${told.includes("check yes") ? "in check" : "not in check"}.`;
  }

  refuse(line, sentences) {
    this.number(line);
    find("verdict").textContent = line ? "The text is refused; the board shows the last position that was read." : "";
    find("verdict").className = "";
    find("refusal").textContent = sentences.join(" ");
    this.area.setAttribute("aria-invalid", "true");
  }

  /** Numbers the lines, and marks one that is refused. */
  number(refused) {
    const row = (_, at) => (at + 1 === refused ? make("div", { className: "refused" }, `✗ ${at + 1}`) : make("div", {}, at + 1));
    find("gutter").replaceChildren(...this.area.value.split("\n").map(row));
    find("gutter").scrollTop = this.area.scrollTop;
  }
}
