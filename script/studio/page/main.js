// Puts the page together: the position, the board, its text, and what is asked of it.
import { Board } from "./board.js";
import { setShapes } from "./draw.js";
import { find, make } from "./dom.js";
import { Files } from "./files.js";
import { Games } from "./games.js";
import { listen as listenToKeys } from "./keys.js";
import { Maps } from "./map.js";
import { fill as fillPalette } from "./palette.js";
import { listen as listenToPointers } from "./pointer.js";
import { manOn, setFacts, Store, withManAt, withNewMan, withoutMan } from "./position.js";
import { Questions } from "./questions.js";
import { get, setProcessors } from "./runs.js";
import { Saves } from "./save.js";
import { Solutions } from "./solution.js";
import { fill as fillTabs } from "./tabs.js";
import { TextPane } from "./text.js";

const FIRST = "ladder-in-one";

/** Returns what mouse and keys do to the position: they set it up, or make the moves of a game. */
function actions(store, board, games, maps) {
  const edit = (change) => {
    if (games.isOn) games.tell("A game is played: end it to set men.");
    else store.set(change(store.position), "board");
  };
  const put = (at) => edit((it) => withNewMan(it, board.tool.side, board.tool.man, at));
  return {
    put,
    move: (number, at) => (games.isOn ? games.move(number, at) : edit((it) => withManAt(it, number, at))),
    set: (side, kind, at) => edit((it) => withNewMan(it, side, kind, at)),
    remove: (number) => edit((it) => withoutMan(it, number)),
    rectangle: (one, other) => maps.take(one, other),
    // A click on a square that wins says so.
    win: (number, at) => !manOn(store.position, at) && board.tell(`man ${number} mates in time by going to ${at.join(" ")}`),
    undo: () => games.isOn || store.undo(),
    redo: () => games.isOn || store.redo(),
  };
}

function listenToBar(store, board, games, on) {
  const click = (id, act) => find(id).addEventListener("click", act);
  click("zoom-in", () => board.zoom(1.25));
  click("zoom-out", () => board.zoom(0.8));
  click("fit", () => board.fit());
  click("clear", () => games.isOn || store.set({ ...store.position, men: [], isCrowd: false }, "board"));
  click("undo", on.undo);
  click("redo", on.redo);
  find("folds").addEventListener("change", () => board.setFolded(find("folds").checked));
  find("go").addEventListener("submit", (event) => {
    event.preventDefault();
    const words = [find("go-file").value, find("go-rank").value].map((it) => it.trim());
    if (words.every((it) => /^-?\d{1,40}$/.test(it))) board.go(words.map(BigInt));
    else board.tell("a square is two numbers, its file and its rank");
  });
}

async function begin() {
  const facts = await get("facts"), store = new Store();
  setFacts(facts);
  setShapes(facts.shapes);
  setProcessors(facts.processors);
  find("about").textContent = facts.about;
  find("about").dataset.kind = facts.kind;
  const board = new Board();
  let isFirst = true;
  store.onChange((position, from) => {
    board.show(position, { fits: isFirst || from === "text" });
    isFirst = false;
  });
  fillPalette(board);
  const openTab = fillTabs(), games = new Games(store, board), maps = new Maps(store, board);
  const pane = new TextPane(store, facts);
  new Questions(store, board, facts, (text) => pane.load(text));
  new Solutions(store, board);
  new Files(store, games, openTab);
  new Saves(store, board);
  const on = actions(store, board, games, maps);
  listenToPointers(board, on);
  listenToKeys(board, on);
  listenToBar(store, board, games, on);
  await pane.load(facts.examples[FIRST] || Object.values(facts.examples)[0]);
  // For the console, and for trials of the page.
  window.studio = { board, store };
  document.body.dataset.isReady = "yes";
}

begin().catch((why) => {
  document.body.prepend(make("p", { className: "error", role: "alert" }, `The page could not begin: ${why.message}`));
  console.error(why);
});
