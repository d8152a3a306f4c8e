// Strategy files: kept of the board's position, uploaded, checked, played by, and downloaded. They lie in a folder that ends with the server.
import { bar, button, field, find, hint, make, number } from "./dom.js";
import { fromServer, textOf } from "./position.js";
import { endOf, get, put, run } from "./runs.js";

const MOST_BYTES = 2 ** 28;

export class Files {
  constructor(store, games, openTab) {
    Object.assign(this, { store, games, openTab });
    const rule = { pattern: "[a-z0-9_]{1,32}", title: "1 to 32 of the letters a to z, digits and _", required: true };
    this.name = make("input", { id: "keep-name", value: "strategy", size: 14, ...rule });
    this.moves = number(0, 20, 2, { id: "keep-moves" });
    this.budget = number(1, 200000, 50000, { id: "keep-budget" });
    this.seconds = number(1, 86400, 120, { id: "keep-seconds" });
    this.upload = make("input", { type: "file", id: "upload", onchange: () => this.send() });
    this.told = make("p", { role: "status", id: "files-told" });
    this.list = make("ul", { className: "files" });
    const form = make("form", { className: "fields", onsubmit: (event) => {
      event.preventDefault();
      this.keep();
    } }, hint("A strategy file has the winner's moves against every reply. Files are gone when the server ends: download what you want to keep."),
    bar(field("name", this.name), field("moves", this.moves), field("budget", this.budget), field("seconds", this.seconds),
      make("button", { className: "main", id: "keep" }, "Keep")), field("upload a file", this.upload));
    find("panel-files").append(form, this.told, this.list);
    this.refresh();
  }

  tell(text) {
    this.told.textContent = text;
  }

  async refresh() {
    const files = await get("files");
    this.list.replaceChildren(...files.map((it) => this.row(it)));
  }

  row(it) {
    const says = it.why ? it.why : `said to be mate in ${it.moves}`, link = make("a", { href: `file/${it.name}`, download: it.name }, "download");
    const act = (text, name, does) => button(text, does, { "aria-label": `${name} ${it.name}` });
    const more = it.why ? [] : [act("Show", "show the position of", () => this.store.set(fromServer(it.position), "board")),
      act("Play against it", "play against", () => this.resume(it))];
    return make("li", {}, make("b", {}, it.name), ` ${it.bytes} bytes, ${says} `, act("Check", "check", () => this.check(it.name)), ...more, link);
  }

  /** Runs the program on a file, and says what it answers. */
  async ask(words, text) {
    this.tell("The program computes.");
    try {
      const found = await run(words.slice(0, 3).join(" "), words, text, Number(this.seconds.value));
      this.tell(found.code === 0 ? `${words.join(" ")}: ${found.lines[0]}` : `${words[0]}: ${[found.lines.at(-1) || "", ...endOf(found)].join(". ")}`);
    } catch (why) {
      this.tell(why.message);
    }
    await this.refresh();
  }

  keep() {
    return this.ask(["keep", this.moves.value, this.name.value, this.budget.value], textOf(this.store.position, "chess"));
  }

  check(name) {
    return this.ask(["check", name, this.budget.value], "");
  }

  async resume(it) {
    this.openTab("game");
    const words = ["resume", it.name, this.budget.value];
    await this.games.play("resume", words, fromServer(it.position), "", it.moves).catch((why) => this.games.tell(why.message));
  }

  async send() {
    const [file] = this.upload.files;
    if (!file) return;
    const name = file.name.toLowerCase().replace(/[^a-z0-9_]/g, "_").slice(0, 32);
    if (file.size > MOST_BYTES) {
      this.tell(`${file.name} has more than ${MOST_BYTES} bytes, the most that a strategy file has.`);
      return;
    }
    try {
      await put(`file/${name}`, file);
      this.tell(`${file.name} is here as ${name}.`);
    } catch (why) {
      this.tell(why.message);
    }
    this.upload.value = "";
    await this.refresh();
  }
}
