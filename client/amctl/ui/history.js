import { stack } from "./now.js";
import { WORDS, button, byId, call, line, make, replaceIfOther, some } from "./parts.js";

const ROW_HEIGHT = 46;
const PAGE_LENGTH = 64;
const timeline = byId("timeline");
const filters = byId("filters");
// only the rows that are seen are in the page; a row's index is its place among those that the filters take
let pages = new Map();
let total = 0;
let chosen = { index: -1, at: -1 };

// ---- the timeline

export async function loadHistory(note) {
  await page(Math.floor(timeline.scrollTop / ROW_HEIGHT / PAGE_LENGTH) * PAGE_LENGTH, true, note);
}

async function page(start, isNew, note = "") {
  if (pages.has(start) && !isNew) return;
  if (!pages.has(start)) pages.set(start, []);
  const of = pages;
  const found = await call(`/api/history?${new URLSearchParams([["from", start], ...new FormData(filters)])}`);
  // the filters may have changed meanwhile
  if (of !== pages) return;
  if (!found || found.error) {
    pages.delete(start);
    return;
  }
  pages.set(start, found.rows);
  total = found.total;
  byId("count").textContent = [found.count, found.note, total ? "" : note].filter(Boolean).join(" · ");
  byId("all").style.height = `${total * ROW_HEIGHT}px`;
  showNames("caller", found.names.caller, WORDS.every_caller);
  showNames("call", found.names.call, WORDS.every_request);
  drawRows();
}

// what can be chosen grows with the history
function showNames(field, names, every) {
  const select = filters.elements[field];
  if (select.options.length === names.length + 1) return;
  const chosenName = select.value;
  select.replaceChildren(make("option", { value: "", textContent: every }), ...names.map((it) => make("option", { value: it, textContent: it })));
  select.value = chosenName;
}

function filtered() {
  pages = new Map();
  total = 0;
  chosen = { index: -1, at: -1 };
  timeline.scrollTop = 0;
  return page(0, true);
}

function drawRows() {
  const first = Math.max(Math.floor(timeline.scrollTop / ROW_HEIGHT) - 5, 0);
  const last = Math.min(first + Math.ceil(timeline.clientHeight / ROW_HEIGHT) + 10, total);
  const rows = [];
  for (let index = first; index < last; index += 1) rows.push(row(index));
  replaceIfOther(byId("all"), rows);
  const current = rows.find((it) => it.getAttribute("aria-selected") === "true");
  if (current) timeline.setAttribute("aria-activedescendant", current.id);
  else timeline.removeAttribute("aria-activedescendant");
}

function known(index) {
  const start = Math.floor(index / PAGE_LENGTH) * PAGE_LENGTH;
  return (pages.get(start) || [])[index - start];
}

function row(index) {
  const found = known(index);
  if (!found) page(Math.floor(index / PAGE_LENGTH) * PAGE_LENGTH, false);
  const made = make("div", { className: found && found.refused ? "row refused" : "row", id: found ? `call-${found.at}` : `row-${index}`, onclick: () => choose(index) });
  made.setAttribute("role", "option");
  made.setAttribute("aria-selected", String(index === chosen.index));
  made.setAttribute("aria-setsize", String(total));
  made.setAttribute("aria-posinset", String(index + 1));
  made.style.top = `${index * ROW_HEIGHT}px`;
  if (!found) {
    made.append(WORDS.loading);
    return made;
  }
  // a long name must not hide what was called, and how it went
  made.append(`${found.at} · ${found.call}`);
  if (found.refused) made.append(make("span", { className: "why", textContent: `${WORDS.refused} ${found.refused}` }));
  made.append(` · ${found.caller}`);
  made.append(make("small", { textContent: [found.moment, found.what].filter(Boolean).join(" · ") }));
  return made;
}

// ---- one call

async function choose(index) {
  if (index < 0 || index >= total) return;
  await page(Math.floor(index / PAGE_LENGTH) * PAGE_LENGTH, false);
  const at = known(index)?.at;
  if (at === undefined) return;
  chosen = { index, at };
  const top = index * ROW_HEIGHT;
  if (top < timeline.scrollTop) timeline.scrollTop = top;
  if (top + ROW_HEIGHT > timeline.scrollTop + timeline.clientHeight) timeline.scrollTop = top + ROW_HEIGHT - timeline.clientHeight;
  drawRows();
  const found = await call(`/api/entry?at=${at}`);
  // a slow answer must not replace that of a later choice
  if (!found || at !== chosen.at) return;
  const step = document.activeElement.dataset.step;
  byId("entry").replaceChildren(...(found.error ? [found.error] : entry(found, index)));
  // who steps by the keyboard goes on stepping
  if (step) byId("entry").querySelector(`[data-step=${step}]`)?.focus();
}

function entry(found, index) {
  const before = button(WORDS.before, () => choose(index - 1));
  const next = button(WORDS.next, () => choose(index + 1));
  before.dataset.step = "before";
  next.dataset.step = "next";
  before.disabled = index === 0;
  next.disabled = index + 1 >= total;
  const changed = found.changed.length ? make("ul", { className: "plain" }, ...found.changed.map((it) => line(it))) : make("p", { className: "quiet", textContent: WORDS.nothing_changed });
  const parts = [
    make("h2", { textContent: `${found.at} · ${found.call} · ${found.caller}` }),
    make("p", { className: "quiet", textContent: found.moment }),
    make("div", { className: "buttons" }, before, next),
    make("h3", { textContent: WORDS.request }), make("pre", { textContent: JSON.stringify(found.request, null, 1) }),
    make("h3", { textContent: WORDS.reply }),
  ];
  if (found.reply) parts.push(make("pre", { className: found.refused ? "refused" : "", textContent: `${found.reply.status} ${JSON.stringify(found.reply.body)}` }));
  parts.push(make("p", { className: "small", textContent: found.note }), make("h3", { textContent: WORDS.changed }), changed, ...copying(found));
  parts.push(make("h3", { textContent: WORDS.after }), make("div", { className: "stacks" }, ...some(found.tasks.map(stack), WORDS.no_tasks)));
  return parts;
}

// ---- copies

function copying(found) {
  const said = make("span", { className: "quiet" });
  said.setAttribute("role", "status");
  const copied = make("pre", { className: "copied", hidden: true, tabIndex: 0 });
  const single = ["curl", "pytest", "amctl"].map((it) => button(WORDS[`copy_${it}`], () => copy(found.copies[it], said, copied)));
  const whole = button(WORDS.copy_test, async () => {
    const made = await call(`/api/test?at=${found.at}`);
    if (made) copy(made.error || made.test, said, copied);
  });
  whole.dataset.copy = "test";
  return [make("div", { className: "buttons" }, ...single, whole, said), copied];
}

async function copy(text, said, copied) {
  copied.textContent = text;
  copied.hidden = false;
  try {
    await navigator.clipboard.writeText(text);
    said.textContent = WORDS.copied;
  } catch {
    said.textContent = WORDS.not_copied;
  }
}

export function startHistory() {
  timeline.onscroll = () => drawRows();
  timeline.onkeydown = (event) => {
    const many = Math.floor(timeline.clientHeight / ROW_HEIGHT);
    const at = chosen.index;
    const to = { ArrowDown: at + 1, ArrowUp: at - 1, PageDown: Math.min(at + many, total - 1), PageUp: Math.max(at - many, 0), Home: 0, End: total - 1 }[event.key];
    if (to === undefined) return;
    event.preventDefault();
    choose(to);
  };
  filters.oninput = () => filtered();
  filters.onsubmit = (event) => event.preventDefault();
  byId("goto").onsubmit = async (event) => {
    event.preventDefault();
    // a call that the filters leave out is shown too
    filters.reset();
    await filtered();
    choose(Number(new FormData(byId("goto")).get("at")));
  };
}
