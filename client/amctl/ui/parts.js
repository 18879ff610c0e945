// What all views share. Every text is put in as text, never as HTML: intents come from apps.

export const WORDS = JSON.parse(document.getElementById("words").textContent);
export const byId = (id) => document.getElementById(id);

export function make(tag, fields = {}, ...children) {
  const made = Object.assign(document.createElement(tag), fields);
  made.append(...children.filter((it) => it !== null && it !== ""));
  return made;
}

export function button(text, action, className = "") {
  return make("button", { type: "button", textContent: text, className, onclick: action });
}

export function line(text, small) {
  return make("li", {}, text, small ? make("small", { className: "small", textContent: small }) : "");
}

export function some(children, none) {
  return children.length ? children : [make("li", { className: "quiet", textContent: none, style: "list-style: none" })];
}

// what is the same isn't put in again, so that it isn't read out again and keeps the focus
export function replaceIfOther(place, children) {
  const made = make("div", {}, ...children);
  if (made.innerHTML !== place.innerHTML) place.replaceChildren(...made.childNodes);
}

// rows under their label, drawn once they are looked at; what a person opened is kept open by its key
const opened = new Map();

export function fold(label, rows, { key = "", isOpen = false } = {}) {
  const inside = make("div");
  const made = make("details", { className: "fold" }, make("summary", { textContent: label }), inside);
  const fill = () => {
    if (made.open && !inside.childNodes.length) inside.append(...rows());
  };
  made.open = opened.get(key) ?? isOpen;
  made.ontoggle = () => {
    if (key) opened.set(key, made.open);
    fill();
  };
  fill();
  return made;
}

export function search(label, draw) {
  const field = make("input", { type: "search", autocomplete: "off", spellcheck: false });
  field.oninput = () => draw(field.value.trim().toLowerCase());
  return make("label", { className: "find" }, label, field);
}

// links to parts of a view, each of which begins with what takes the focus; one that is folded is opened
export function contents(labels, parts) {
  const links = labels.map((label, at) => button(label, () => {
    if (parts[at].matches("details")) parts[at].open = true;
    parts[at].scrollIntoView({ block: "start" });
    parts[at].firstElementChild.focus({ preventScroll: true });
  }, "link"));
  const nav = make("nav", { className: "contents" }, ...links);
  nav.setAttribute("aria-label", WORDS.contents);
  return nav;
}

// ---- the gateway

export function showGone(sentence) {
  byId("gone").textContent = sentence;
  byId("gone").hidden = false;
}

export async function call(path, fields) {
  const options = fields === undefined ? {} : { method: "POST", headers: { "Content-Type": "application/json" }, body: JSON.stringify(fields) };
  let body;
  try {
    const got = await fetch(path, options);
    body = await got.json();
  } catch {
    showGone(WORDS.gone_gateway);
    return null;
  }
  if (body.gone) {
    showGone(body.gone);
    return null;
  }
  byId("gone").hidden = true;
  return body;
}
