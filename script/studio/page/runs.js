// Runs of the program: asked of the server, shown with their time and memory, and cancelled.
import { button, find, make } from "./dom.js";

// The browser lets a page have six connections to one server; some are left for short questions.
const MOST_AT_ONCE = 4;
const PAUSE = 400, WAITS = "waits for a processor";
let most = MOST_AT_ONCE, running = 0;
const waiting = [];

export function setProcessors(count) {
  most = Math.min(count, MOST_AT_ONCE);
}

/** A request was refused: `status` is that of HTTP, the message says why. */
export class Failed extends Error {
  constructor(status, why) {
    super(why);
    this.status = status;
  }
}

const sleep = (milliseconds) => new Promise((done) => setTimeout(done, milliseconds));

async function request(path, options) {
  let response;
  try {
    response = await fetch(path, options);
  } catch (why) {
    if (why.name === "AbortError") throw why;
    throw new Failed(0, "the server does not answer: is ./studio still running?");
  }
  if (response.ok) return response;
  const told = await response.json().catch(() => ({ why: response.statusText }));
  throw new Failed(response.status, told.why);
}

export async function get(path) {
  return (await request(path)).json();
}

export async function post(path, body, signal) {
  const options = { method: "POST", headers: { "Content-Type": "application/json" }, body: JSON.stringify(body), signal };
  return (await request(path, options)).json();
}

export async function put(path, data) {
  return (await request(path, { method: "PUT", body: data })).json();
}

/** What is under way, as the page shows it: a title, the time, and a button that cancels. */
export class Entry {
  constructor(title) {
    this.controller = new AbortController();
    this.begun = performance.now();
    this.memory = "";
    this.note = "";
    this.time = make("span", { className: "time" });
    this.element = make("div", { className: "run" }, make("span", {}, title), this.time,
      button("Cancel", () => this.controller.abort(), { "aria-label": `Cancel ${title}` }));
    find("runs").append(this.element);
    this.timer = setInterval(() => this.show(), 200);
    this.show();
  }

  get signal() {
    return this.controller.signal;
  }

  get seconds() {
    return (performance.now() - this.begun) / 1000;
  }

  show() {
    this.time.textContent = [`${this.seconds.toFixed(1)} s`, this.memory, this.note].filter(Boolean).join(", ");
  }

  end() {
    clearInterval(this.timer);
    this.element.remove();
  }
}

async function place() {
  if (running >= most) await new Promise((done) => waiting.push(done));
  else running += 1;
}

function release() {
  const next = waiting.shift();
  if (next) next();
  else running -= 1;
}

/** Waits for a place among the runs, of this page and at the server, and does what is asked then. */
export async function inPlace(entry, act) {
  await place();
  try {
    for (;;) {
      try {
        entry.signal.throwIfAborted();
        return await act();
      } catch (why) {
        if (why.status !== 503) throw why;
        entry.note = WAITS;
        await sleep(PAUSE);
      }
    }
  } finally {
    release();
  }
}

/** Reads the lines of an answer as they come, and returns the last event of it. */
async function events(response, onEvent) {
  const reader = response.body.pipeThrough(new TextDecoderStream()).getReader();
  let rest = "", last = {};
  for (;;) {
    const { done, value } = await reader.read();
    if (done) return last;
    const lines = (rest + value).split("\n");
    rest = lines.pop();
    for (const line of lines) {
      last = JSON.parse(line);
      onEvent(last);
    }
  }
}

/** Asks for an answer that comes line by line. Returns its lines, its code, its sentences, and where it was stopped why. */
export async function stream(path, body, entry, onLine = () => {}, onStart = () => {}) {
  const lines = [];
  const onEvent = (event) => {
    if (entry.note === WAITS) entry.note = "";
    if (event.run) onStart(event.run);
    if (event.memory !== undefined) entry.memory = event.memory ? `${Math.round(event.memory)} MB` : "";
    if (event.line !== undefined) {
      lines.push(event.line);
      onLine(event.line);
    }
  };
  const options = { method: "POST", headers: { "Content-Type": "application/json" }, body: JSON.stringify(body), signal: entry.signal };
  try {
    const last = await inPlace(entry, async () => events(await request(path, options), onEvent));
    if (last.code === undefined && !last.stopped) return { lines, stopped: "server", sentences: [] };
    return { lines, sentences: [], ...last };
  } catch (why) {
    if (why.name === "AbortError") return { lines, stopped: "cancelled", sentences: [] };
    if (why instanceof TypeError) return { lines, stopped: "server", sentences: [] };
    throw why;
  }
}

/** Runs the program, with an entry of its own. */
export async function run(title, words, text, seconds, { onLine, onStart, isLive = false } = {}) {
  const entry = new Entry(title);
  try {
    const found = await stream("run", { words: words.map(String), text, seconds, isLive }, entry, onLine, onStart);
    return { ...found, seconds: entry.seconds };
  } finally {
    entry.end();
  }
}

const STOPS = {
  cancelled: "Cancelled.", time: "The time limit is over. A longer limit, fewer moves or a smaller budget may bring an answer.",
  server: "The server ended the run.", output: "The answer is too long.", page: "The run ended with its page.",
};

/** Returns sentences on how a run ended without an answer. */
export function endOf(found) {
  if (found.stopped) return [STOPS[found.stopped] || found.stopped];
  if (found.code < 0) return [`The program ended by signal ${-found.code}.`];
  return found.sentences.length ? found.sentences : [`The program ended with code ${found.code}: ${found.lines.at(-1) || "it wrote nothing"}.`];
}
