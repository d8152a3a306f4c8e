// The lines of `first` and `describe`: which distances along a ray win, in words and for the board.
import { listed } from "./dom.js";
import { nameOf } from "./position.js";

const LINE = /^man (\d+) step (-?\d+) (-?\d+) (.+)$/;
const LEAST = /^least (\d+|wide) (only|more)$/;
export const RUNS = /^runs (\S+) from (\d+) every (\d+) rests (\S+)$/;
const UNKNOWN = {
  "no period up to 60": "the distances that win do not repeat with a period up to 60",
  far: "the distances that win repeat only beyond 2^100", many: "the distances that win have more than 100 runs",
};
const ORDINALS = ["", "", "second", "third", "fourth", "fifth", "sixth", "seventh", "eighth", "ninth", "tenth"];
const DIRECTIONS = {
  "0 1": "up", "1 1": "up and to the right", "1 0": "to the right", "1 -1": "down and to the right",
  "0 -1": "down", "-1 -1": "down and to the left", "-1 0": "to the left", "-1 1": "up and to the left",
};

/** Returns the set of numbers that a line `runs .. from .. every .. rests ..` tells, or null. */
export function setOf(told) {
  const found = RUNS.exec(told);
  if (!found) return null;
  const runs = found[1] === "none" ? [] : found[1].split(",").map((it) => it.split(/(?<=\d)-/).map(BigInt));
  const rests = found[4] === "none" ? [] : found[4].split(",").map(BigInt);
  const [from, every] = [BigInt(found[2]), BigInt(found[3])];
  return { runs, from, every, rests };
}

export function has({ runs, from, every, rests }, number) {
  return number < from ? runs.some(([low, high]) => low <= number && number <= high) : rests.includes(number % every);
}

/** Returns the least number of a set, or null. */
export function least(set) {
  if (set.runs.length) return set.runs[0][0];
  const firsts = set.rests.map((it) => set.from + ((((it - set.from) % set.every) + set.every) % set.every));
  return firsts.length ? firsts.reduce((one, two) => (one < two ? one : two)) : null;
}

/** Returns a set in words, as "1 to 3, 5, and every second from 8 on". */
export function inWords(set) {
  const parts = set.runs.map(([low, high]) => (low === high ? `${low}` : high === low + 1n ? `${low}, ${high}` : `${low} to ${high}`));
  const { every, from, rests } = set;
  if (rests.length === Number(every)) parts.push(`every number from ${from} on`);
  else if (rests.length === 1) {
    const first = least({ ...set, runs: [] });
    parts.push(`every ${ORDINALS[Number(every)] || `${every}th`} from ${first} on`);
  } else if (rests.length) parts.push(`from ${from} on those that leave ${listed(rests.map(String), "or")} when divided by ${every}`);
  return parts.length ? listed(parts) : "none";
}

/** Returns the ray that a line names, or null: the man, his square, the step, the nearest square that wins, which distances win, and words. */
export function parse(line, position) {
  const found = LINE.exec(line);
  if (!found) return null;
  const [man, step, told] = [Number(found[1]), [Number(found[2]), Number(found[3])], found[4]];
  const start = position.men[man - 1].at, place = (distance) => start.map((it, axis) => it + distance * BigInt(step[axis]));
  const made = { man, start, step, line, place };
  const nearest = LEAST.exec(told), set = setOf(told);
  if (set) {
    const first = least(set);
    return { ...made, distance: first, nearest: place(first), has: (it) => has(set, it), words: distances(set) };
  }
  if (nearest && nearest[1] !== "wide") {
    const distance = BigInt(nearest[1]), more = nearest[2] === "more" ? ", and at greater ones" : "";
    return { ...made, distance, nearest: place(distance), has: (it) => it === distance, words: `at distance ${distance}${more}` };
  }
  const words = nearest ? "squares that no number of 64 bits names" : UNKNOWN[told] || told;
  return { ...made, distance: null, nearest: start, has: () => false, words };
}

/** Returns the distances of a set in words. */
function distances(set) {
  if (!set.runs.length && set.rests.length === Number(set.every)) return `at every distance from ${set.from} on`;
  const isOne = !set.rests.length && set.runs.length === 1 && set.runs[0][0] === set.runs[0][1];
  return `at distance${isOne ? "" : "s"} ${inWords(set)}`;
}

const isLeap = ([x, y]) => Math.abs(x) + Math.abs(y) === 3;

/** Returns who goes where, as "man 4, White's bishop on 5 0, up and to the right". */
export function wayOf(ray, position) {
  const [x, y] = ray.step, man = position.men[ray.man - 1];
  const leap = `by leaps of ${Math.abs(x)} ${x > 0 ? "right" : "left"} and ${Math.abs(y)} ${y > 0 ? "up" : "down"}`;
  return `man ${ray.man}, ${nameOf(man)} on ${man.at.join(" ")}, ${isLeap(ray.step) ? leap : DIRECTIONS[ray.step.join(" ")]}`;
}
