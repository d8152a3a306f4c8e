// What goes out: the position as text, ICN or FEN, and the board as it is seen as SVG or PNG.
import { bar, button, find, hint, make, save } from "./dom.js";
import { textOf } from "./position.js";
import { post } from "./runs.js";

const STYLES = ["fill", "fill-opacity", "stroke", "stroke-opacity", "stroke-width", "stroke-dasharray", "stroke-linejoin", "stroke-linecap", "paint-order",
  "font-family", "font-size", "font-weight", "text-anchor"];
const SPACE = "http://www.w3.org/2000/svg";
// How many pixels of a PNG stand for one of the screen.
const FINENESS = 2;

/** Returns the board as a drawing that needs no style sheet, and its size. */
function drawingOf(svg) {
  const made = svg.cloneNode(true), [, , width, height] = svg.getAttribute("viewBox").split(" ").map(Number);
  const from = svg.querySelectorAll("*"), to = made.querySelectorAll("*");
  from.forEach((it, at) => {
    const style = getComputedStyle(it);
    for (const name of STYLES) {
      const value = style.getPropertyValue(name);
      if (name === "fill" || !["", "none", "normal"].includes(value)) to[at].setAttribute(name, value);
    }
    for (const name of ["class", "tabindex", "role"]) to[at].removeAttribute(name);
  });
  made.querySelectorAll("[data-go]").forEach((it) => it.remove());
  for (const [name, value] of Object.entries({ xmlns: SPACE, width, height })) made.setAttribute(name, value);
  made.removeAttribute("id");
  return { text: new XMLSerializer().serializeToString(made), width, height };
}

async function pngOf({ text, width, height }) {
  const image = new Image();
  image.src = `data:image/svg+xml;charset=utf-8,${encodeURIComponent(text)}`;
  await image.decode();
  const canvas = make("canvas", { width: width * FINENESS, height: height * FINENESS });
  canvas.getContext("2d").drawImage(image, 0, 0, canvas.width, canvas.height);
  return new Promise((done) => canvas.toBlob(done, "image/png"));
}

export class Saves {
  constructor(store, board) {
    const told = make("p", { role: "status", id: "save-told" });
    const shown = make("textarea", { rows: 4, readOnly: true, id: "save-text", "aria-label": "what was written" });
    const drawing = () => {
      board.drawNow();
      return drawingOf(board.drawing);
    };
    const write = (name, text, remarks = []) => {
      shown.value = text;
      told.textContent = [`Saved as ${name}.`, ...remarks].join(" ");
      save(name, "text/plain", text);
    };
    const notation = async (form) => {
      try {
        const found = await post("notation", { text: textOf(store.position), form });
        if (found.refused) told.textContent = `Not written: ${found.refused}.`;
        else write(`position.${form}`, `${found.text}\n`, found.told.map((it) => `${it}.`));
      } catch (why) {
        told.textContent = why.message;
      }
    };
    const copy = () => navigator.clipboard.writeText(shown.value).then(() => (told.textContent = "Copied."), () => shown.select());
    const buttons = bar(button("Text", () => write("position.txt", textOf(store.position)), { id: "save-position" }),
      button("SVG", () => write("board.svg", drawing().text), { id: "save-svg" }),
      button("PNG", async () => {
        const png = await pngOf(drawing());
        told.textContent = `Saved as board.png, ${png.size} bytes.`;
        save("board.png", "image/png", png);
      }, { id: "save-png" }),
      button("ICN", () => notation("icn"), { id: "save-icn" }), button("FEN", () => notation("fen"), { id: "save-fen" }),
      button("Copy", copy, { title: "copies what was written" }));
    const says = "The drawing is the board as it is seen now, with rays and maps. The solution as text is saved beside the solution.";
    find("panel-save").append(hint(says), buttons, told, shown);
  }
}
