// Small helpers for elements.

export const find = (id) => document.getElementById(id);

/** Makes an element. Fields that begin with `on` are handlers, `data-` and `aria-` fields and the like are attributes, and the others are properties. */
export function make(tag, fields = {}, ...parts) {
  const made = document.createElement(tag);
  for (const [name, value] of Object.entries(fields)) {
    if (name.startsWith("on")) made.addEventListener(name.slice(2), value);
    else if (name.includes("-") || name === "role" || name === "for") made.setAttribute(name, value);
    else made[name] = value;
  }
  made.append(...parts.filter((it) => it !== null && it !== undefined && it !== false));
  return made;
}

export const hint = (text) => make("p", { className: "hint" }, text);
export const error = (text) => make("p", { className: "error" }, text);
export const answer = (text) => make("p", { className: "answer" }, text);
export const bar = (...parts) => make("div", { className: "bar" }, ...parts);
export const button = (text, onclick, fields = {}) => make("button", { type: "button", onclick, ...fields }, text);

/** Makes a field with its label before it. */
export function field(label, input) {
  return make("label", {}, `${label} `, input);
}

export function number(least, most, value, fields = {}) {
  return make("input", { type: "number", min: least, max: most, step: 1, value, required: true, ...fields });
}

/** Hands a file to the user. */
export function save(name, kind, data) {
  const url = URL.createObjectURL(data instanceof Blob ? data : new Blob([data], { type: kind }));
  const link = make("a", { href: url, download: name });
  document.body.append(link);
  link.click();
  link.remove();
  setTimeout(() => URL.revokeObjectURL(url), 10000);
}

/** Returns a list in words: "a, b and c". */
export function listed(parts, word = "and") {
  return parts.length < 2 ? parts.join("") : `${parts.slice(0, -1).join(", ")} ${word} ${parts.at(-1)}`;
}
