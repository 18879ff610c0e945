import { WORDS, button, byId, call, contents, fold, make, search } from "./parts.js";

// an answer with more components than this has a search and contents
const FEW = 12;
const LONG_REASON = 200;
const SORTS = ["text", "number", "truth"];
const form = byId("question");
let changes = [];

// ---- the question

function question() {
  const fields = new FormData(form);
  const texts = Object.fromEntries(["from", "kind", "action", "data", "type", "package", "component"].map((it) => [it, fields.get(it)]));
  const permission = texts.kind === "receiver" ? fields.get("permission") : "";
  return { ...texts, permission, categories: fields.get("categories").split(/\s+/).filter(Boolean), flags: fields.getAll("flag"), extras: extras(), changes };
}

function extras() {
  return [...byId("extras").children].map((row) => Object.fromEntries(["key", "sort", "value"].map((it) => [it, row.querySelector(`.${it}`).value])));
}

function addExtra() {
  const named = (made, label) => {
    made.setAttribute("aria-label", label);
    return made;
  };
  const plain = { autocomplete: "off", spellcheck: false };
  const row = make("div", { className: "extra" },
    named(make("input", { className: "key", placeholder: WORDS.extra_key, ...plain }), WORDS.extra_key),
    named(make("select", { className: "sort" }, ...SORTS.map((it) => make("option", { value: it, textContent: WORDS[it] }))), WORDS.extra_sort),
    named(make("input", { className: "value", placeholder: WORDS.extra_value, ...plain }), WORDS.extra_value));
  row.append(button(WORDS.remove, () => {
    row.remove();
    showSet();
    byId("add").focus();
  }));
  byId("extras").append(row);
  return row;
}

// what is set in the folded part of the form is said in its summary
function showSet() {
  const asked = question();
  const many = asked.extras.filter((it) => it.key).length;
  const set = [...asked.flags, many ? (many === 1 ? WORDS.one_extra : `${many} ${WORDS.many_extras}`) : "", asked.permission].filter(Boolean);
  byId("set").textContent = set.length ? `${WORDS.set} ${set.join(", ")}` : "";
  byId("permission").hidden = asked.kind !== "receiver";
}

function fill(fields) {
  form.reset();
  byId("extras").replaceChildren();
  for (const [name, value] of Object.entries(fields)) form.elements[name].value = value;
  showSet();
}

// ---- the answer

async function ask(note = "") {
  const found = await call("/api/ask", question());
  if (!found) return;
  // the line alone is read out; a search redraws the rest
  byId("line").textContent = found.error || found.line;
  byId("accounts").replaceChildren(...(found.error ? [] : answer(found, note)));
}

function answer(found, note) {
  const sections = [{ label: `${WORDS.deciding} (${found.accounts.length})`, accounts: found.accounts, isDeciding: true }, ...found.groups];
  const isLong = sections.reduce((sum, it) => sum + it.accounts.length, 0) > FEW;
  const place = make("div");
  const draw = (wanted) => place.replaceChildren(...drawn(sections, wanted, isLong));
  draw("");
  return [
    ...copyNote(found.changes),
    ...(note ? [make("p", { className: "quiet", textContent: note })] : []),
    ...(isLong ? [search(WORDS.find, draw)] : []),
    place,
  ];
}

// the sections with what is looked for alone; those in which something was found are open
function drawn(sections, wanted, isLong) {
  const has = (it) => `${it.to} ${it.says}`.toLowerCase().includes(wanted);
  const left = sections.map((it) => ({ ...it, found: it.accounts.filter(has) })).filter((it) => it.found.length);
  const made = left.map((it) => section(it, wanted, isLong));
  if (!made.length) return [make("p", { className: "quiet", textContent: WORDS.nothing_found })];
  return isLong ? [contents(left.map((it) => it.label), made), ...made] : made;
}

function section(it, wanted, isLong) {
  const label = it.found.length < it.accounts.length ? `${it.found.length} ${WORDS.found_of} ${it.label}` : it.label;
  if (!it.isDeciding) return fold(label, () => it.found.map(account), { isOpen: Boolean(wanted) });
  const head = make("h2", { textContent: label, tabIndex: -1 });
  return make("section", {}, isLong ? head : "", ...it.found.map(account));
}

function copyNote(made) {
  if (!made.length) return [];
  const back = button(WORDS.back_to_device, async () => {
    changes = [];
    await ask();
    byId("line").focus();
  });
  return [make("div", { className: "copy" }, make("span", { textContent: `${WORDS.on_copy}: ${made.map((it) => it.label).join("; ")}` }), back)];
}

function account(found) {
  const card = make("div", { className: found.reached ? "card reached" : "card" }, make("b", { textContent: found.to }), reason(found.says));
  if (found.change) card.append(make("p", { className: "quiet", textContent: `→ ${found.change}` }));
  for (const it of found.buttons) card.append(button(it.label, async () => {
    changes = [...changes, it];
    await ask();
    byId("accounts").querySelector(".copy button")?.focus();
  }));
  return card;
}

// a component with many filters has as many reasons
function reason(says) {
  if (says.length <= LONG_REASON) return make("p", { textContent: says });
  return make("details", {}, make("summary", { textContent: `${says.slice(0, LONG_REASON)} …` }), make("p", { textContent: says }));
}

export function startAsk(about) {
  form.elements.from.replaceChildren(...about.callers.map((it) => make("option", { textContent: it })));
  for (const it of ["packages", "components", "actions"]) byId(it).replaceChildren(...about[it].map((name) => make("option", { value: name })));
  const asked = (note) => {
    changes = [];
    return ask(note);
  };
  const example = () => {
    fill(about.example);
    return asked(WORDS.an_example);
  };
  form.oninput = showSet;
  form.onsubmit = (event) => {
    event.preventDefault();
    asked();
  };
  byId("add").onclick = () => addExtra().querySelector("input").focus();
  byId("example").onclick = example;
  byId("clear").onclick = () => {
    fill({});
    byId("line").textContent = "";
    byId("accounts").replaceChildren();
    form.elements.action.focus();
  };
  return example();
}
