// The drawing of a board: squares, men, names of files and ranks, rays, maps, and arrows to men who are far away. All of it is markup made of numbers and
// known words alone.
import { isSame, letterOf, nameOf } from "./position.js";

// The size of an arrow to a man who is far away, and the head of the arrow of a move.
const BOX = [96, 26];
const HEAD = '<defs><marker id="head" viewBox="0 0 10 10" refX="7" refY="5" markerWidth="4" markerHeight="4" orient="auto">'
  + '<path class="head" d="M0 0L10 5L0 10z"/></marker></defs>';
let shapes = {};

export function setShapes(found) {
  shapes = found;
}

/** Returns the drawing of a man in a square of 44. */
export function figure(side, kind) {
  const [outline, within, balls] = shapes[kind];
  const base = "M11 38.5h22v-2.5q-3-.5-3-3.5h-16q0 3-3 3.5z";
  const dots = balls.map(([x, y]) => `<circle cx="${x}" cy="${y}" r="2"/>`).join("");
  return `<g class="man ${side === "W" ? "white" : "black"}"><path d="${outline}"/><path d="${base}"/>${dots}<path class="within" d="${within}"/></g>`;
}

/** Returns a number so that it can be read at a glance: a long one by its first and last digits. */
export function short(at) {
  const text = String(at);
  return text.length > 8 ? `${text.slice(0, text.startsWith("-") ? 3 : 2)}…${text.slice(-3)}` : text;
}

function squares(board, columns, rows) {
  const { scale, size } = board.view;
  const dark = [], bands = [], dots = [];
  for (const x of columns) {
    if (x.fold) {
      bands.push(`M${x.px} 0h${scale}v${size[1]}h-${scale}z`);
      dots.push(`M${x.px + scale / 2} 0v${size[1]}`);
    } else for (const y of rows) {
      if (!y.fold && ((x.at + y.at) & 1n) === 0n) dark.push(`M${x.px} ${y.px}h${scale}v${scale}h-${scale}z`);
    }
  }
  for (const y of rows.filter((it) => it.fold)) {
    bands.push(`M0 ${y.px}h${size[0]}v${scale}h-${size[0]}z`);
    dots.push(`M0 ${y.px + scale / 2}h${size[0]}`);
  }
  return `<rect class="light" width="${size[0]}" height="${size[1]}"/><path class="dark" d="${dark.join("")}"/>`
    + `<path class="band" d="${bands.join("")}"/><path class="dots" d="${dots.join("")}"/>`;
}

function cell(board, at, name) {
  const [x, y] = board.corner(at), { scale } = board.view;
  return `<rect class="${name}" x="${x}" y="${y}" width="${scale}" height="${scale}"/>`;
}

const middle = (board, at) => board.corner(at).map((it) => it + board.view.scale / 2);
const text = (x, y, told, fields) => `<text x="${x.toFixed(1)}" y="${y.toFixed(1)}" ${fields}>${told}</text>`;

/** Returns the squares of a ray that are seen, with their distances, the nearest first. */
function seen(ray, columns, rows) {
  const [dx, dy] = ray.step.map(BigInt), [x, y] = ray.start, found = [];
  const take = (distance, at) => distance > 0n && found.push({ distance, at });
  if (dx) {
    const ranks = new Set(rows.filter((it) => !it.fold).map((it) => it.at));
    for (const it of columns.filter((it) => !it.fold)) {
      const distance = (it.at - x) / dx, rank = y + distance * dy;
      if ((it.at - x) % dx === 0n && ranks.has(rank)) take(distance, [it.at, rank]);
    }
  } else if (columns.some((it) => it.at === x)) {
    for (const it of rows.filter((it) => !it.fold)) if ((it.at - y) % dy === 0n) take((it.at - y) / dy, [x, it.at]);
  }
  return found.sort((one, two) => (one.distance < two.distance ? -1 : 1));
}

/** Returns the line of a ray, and the discs on the squares that win. */
function ray(board, it, columns, rows) {
  const places = seen(it, columns, rows), wins = places.filter((place) => it.has(place.distance));
  if (!wins.length) return ["", ""];
  const way = places.filter((place) => place.distance <= wins.at(-1).distance).map((place) => middle(board, place.at));
  const line = `<polyline class="ray" points="${[middle(board, it.start), ...way].map((at) => at.map((n) => n.toFixed(1)).join(",")).join(" ")}"/>`;
  const r = board.view.scale * 0.3;
  return [line, wins.map(({ distance, at }) => {
    const [x, y] = middle(board, at), told = String(distance);
    const size = Math.min(r * 1.1, (r * 2.6) / told.length);
    return `<circle class="win" data-man="${it.man}" data-at="${at.join(" ")}" cx="${x.toFixed(1)}" cy="${y.toFixed(1)}" r="${r.toFixed(1)}"/>`
      + (size >= 6 && told.length < 5 ? text(x, y + size * 0.36, told, `class="count" font-size="${size.toFixed(1)}"`) : "");
  }).join("")];
}

function arrow(board, [from, to]) {
  const [x, y] = middle(board, from), [toX, toY] = middle(board, to);
  const length = Math.hypot(toX - x, toY - y) || 1, cut = Math.min(board.view.scale * 0.3, length / 2) / length;
  return `<path class="arrow" d="M${x + (toX - x) * cut} ${y + (toY - y) * cut}L${toX - (toX - x) * cut} ${toY - (toY - y) * cut}" marker-end="url(#head)"/>`;
}

function map(board, columns, rows) {
  const { scale } = board.view, numbers = scale >= 20, made = [];
  for (const x of columns) for (const y of rows) {
    const it = !x.fold && !y.fold && board.marks.map.get(`${x.at} ${y.at}`);
    if (!it) continue;
    made.push(`<rect class="told" x="${x.px}" y="${y.px}" width="${scale}" height="${scale}" fill="${it.colour}"/>`);
    if (numbers) made.push(text(x.px + scale / 2, y.px + scale / 2 + scale * 0.14, it.sign, `class="sign" font-size="${scale * 0.4}"`));
  }
  return made.join("");
}

function names(board, columns, rows) {
  const { scale, size } = board.view, [wide, high] = board.inset();
  const every = [1, 2, 5, 10, 20].find((it) => it * scale >= 30) || 20;
  const isNamed = (it, axis) => !it.fold && (board.axes[axis].folds.length > 0 ? scale >= 18 || it.at % 2n === 0n : it.at % BigInt(every) === 0n);
  const made = [`<rect class="gutter" width="${wide}" height="${size[1]}"/><rect class="gutter" y="${size[1] - high}" width="${size[0]}" height="${high}"/>`];
  for (const y of rows.filter((it) => it.fold)) made.push(text(wide - 5, y.px + scale / 2 + 5, "⋮", 'class="name" text-anchor="end"'));
  for (const x of columns.filter((it) => it.fold)) made.push(text(x.px + scale / 2, size[1] - high + 15, "…", 'class="name" text-anchor="middle"'));
  for (const y of rows.filter((it) => isNamed(it, 1) && it.px + scale / 2 < size[1] - high)) {
    made.push(text(wide - 5, y.px + scale / 2 + 4, short(y.at), 'class="name" text-anchor="end"'));
  }
  for (const x of columns.filter((it) => isNamed(it, 0) && it.px + scale / 2 > wide)) {
    const middle = x.px + scale / 2, told = short(x.at), y = size[1] - high;
    if (told.length * 7.5 < scale * every || high < 30) made.push(text(middle, y + 15, told, 'class="name" text-anchor="middle"'));
    else made.push(text(middle + 4, y + 6, told, `class="name" text-anchor="end" transform="rotate(-90 ${middle + 4} ${y + 6})"`));
  }
  return made.join("");
}

/** Returns how far a man is from what is seen, as "990→ 12↑", and in words. */
function distance(board, at) {
  const here = board.middle(), [x, y] = [at[0] - here[0], at[1] - here[1]];
  const size = (it) => (it < 0n ? -it : it);
  const parts = [x && `${short(size(x))}${x > 0n ? "→" : "←"}`, y && `${short(size(y))}${y > 0n ? "↑" : "↓"}`].filter(Boolean);
  const words = [x && `${size(x)} files to the ${x > 0n ? "right" : "left"}`, y && `${size(y)} ranks ${y > 0n ? "up" : "down"}`].filter(Boolean);
  return [parts.join(" "), words.join(", ")];
}

function farArrows(board) {
  const { view } = board, [wide, high] = board.inset(), taken = [];
  const box = [wide + 2, 2, view.size[0] - BOX[0] - 2, view.size[1] - high - BOX[1] - 2];
  const clamp = (it, least, most) => Math.min(Math.max(it, least), Math.max(least, most));
  return board.men().map(({ man, number }) => {
    const slots = board.slots(man.at);
    if (view.isSeen(slots, [wide, high])) return "";
    const x = clamp(view.left(slots[0]) - BOX[0] / 2, box[0], box[2]);
    let y = clamp(view.top(slots[1]) - BOX[1] / 2, box[1], box[3]);
    const isFree = (y) => taken.every(([otherX, otherY]) => Math.abs(otherX - x) >= BOX[0] || Math.abs(otherY - y) >= BOX[1]);
    for (let step = BOX[1] + 2; !isFree(y) && step < 2 * view.size[1]; step += BOX[1] + 2) {
      const found = [y - step, y + step].find((it) => it >= box[1] && it <= box[3] && isFree(it));
      if (found !== undefined) y = found;
    }
    taken.push([x, y]);
    const [told, words] = distance(board, man.at), size = told.length > 9 ? 10 : 12;
    const name = text(x + BOX[0] / 2, y + 17, `${letterOf(man)}${number} ${told}`, `font-size="${size}"`);
    return `<g class="far" role="button" tabindex="0" data-go="${number}" aria-label="man ${number}, ${nameOf(man)}, is ${words}: go there">`
      + `<rect x="${x}" y="${y}" width="${BOX[0]}" height="${BOX[1]}" rx="6"/>${name}</g>`;
  }).join("");
}

/** Returns the markup of the whole board. */
export function drawing(board) {
  const [columns, rows] = board.view.slots(board.axes), { marks, dragged } = board, made = [squares(board, columns, rows)];
  made.push(map(board, columns, rows));
  for (const it of marks.places) made.push(cell(board, it, "last"));
  if (board.selected) made.push(cell(board, board.position.men[board.selected - 1].at, "selected"));
  if (dragged && dragged.at) made.push(cell(board, dragged.at, "aim"));
  const rays = marks.rays.map((it) => ray(board, it, columns, rows));
  made.push(...rays.map(([line]) => line));
  for (const { man, number } of board.men()) {
    const [x, y] = dragged && dragged.number === number ? [dragged.x - board.view.scale / 2, dragged.y - board.view.scale / 2] : board.corner(man.at);
    made.push(`<g transform="translate(${x} ${y}) scale(${board.view.scale / 44})" data-number="${number}">${figure(man.side, man.kind)}</g>`);
  }
  made.push(...rays.map(([, discs]) => discs));
  for (const it of marks.arrows) if (!isSame(...it)) made.push(arrow(board, it));
  if (board.rectangle) {
    const [[x, y], [farX, farY]] = board.rectangle.map((it) => board.corner(it)), { scale } = board.view;
    const size = [Math.abs(farX - x) + scale, Math.abs(farY - y) + scale];
    made.push(`<rect class="rectangle" x="${Math.min(x, farX)}" y="${Math.min(y, farY)}" width="${size[0]}" height="${size[1]}"/>`);
  }
  if (board.hasCursor) made.push(cell(board, board.cursor, "cursor"));
  return HEAD + made.join("") + names(board, columns, rows) + farArrows(board);
}
