import { WORDS, byId, call, fold, line, make, replaceIfOther, some } from "./parts.js";

// of more rows than these the others are folded
const MOST = 12;

export async function loadNow(note) {
  const found = await call("/api/now");
  if (!found) return;
  byId("moment").textContent = found.error || [found.moment, found.note, note].filter(Boolean).join(" · ");
  if (found.error) return;
  const results = found.results.map((it) => make("div", { className: "card reached" }, make("b", { textContent: it })));
  const services = found.services.map((it) => () => line(`${it.component}, ${it.starts}`, it.intent));
  const registered = found.registered.map((it) => () => line(`${it.number} ${it.owner}`, it.filter));
  replaceIfOther(byId("tasks"), some(found.tasks.map(stack), WORDS.no_tasks));
  replaceIfOther(byId("broadcasts"), some([...found.broadcasts.map(broadcast), ...results], WORDS.no_broadcasts));
  replaceIfOther(byId("services"), some(first(services, "services"), WORDS.no_services));
  replaceIfOther(byId("registered"), some(first(registered, "registered"), WORDS.no_registered));
}

// the first rows of a list, and the others under how many they are
function first(rows, key) {
  const more = rows.slice(MOST);
  const shown = rows.slice(0, MOST).map((it) => it());
  if (!more.length) return shown;
  return [...shown, make("li", {}, fold(`${more.length} ${WORDS.more}`, () => [make("ul", { className: "plain" }, ...more.map((it) => it()))], { key }))];
}

export function stack(task, index) {
  const items = task.instances.map((it, at) => {
    const place = [at === 0 ? WORDS.top : "", at === task.instances.length - 1 ? WORDS.root : ""].filter(Boolean).join(", ");
    return make("li", {}, it.component, make("small", { textContent: [`${WORDS.instance} ${it.instance}`, place].filter(Boolean).join(" · ") }), make("small", { textContent: it.intent }));
  });
  const name = `${WORDS.task} ${task.task}${index === 0 ? ` (${WORDS.front})` : ""}`;
  const made = make("div", { className: index === 0 ? "stack front" : "stack" }, make("strong", { textContent: name }), make("ol", {}, ...items));
  made.setAttribute("role", "group");
  made.setAttribute("aria-label", name);
  return made;
}

// of many receivers those that had their turn and those that wait are counted
function broadcast(found) {
  const name = `${WORDS.broadcast} ${found.broadcast}, ${found.ordered ? WORDS.ordered : WORDS.normal}`;
  const head = [make("strong", { textContent: name }), make("small", { className: "small", textContent: found.intent })];
  const states = ["done", "turn", "gets", "waits"].map((state) => found.rows.filter((it) => it.state === state)).filter((it) => it.length);
  const lists = found.rows.length > MOST ? states.map((rows) => turnsFolded(found, rows)) : [turns(found.rows, 1)];
  return make("div", { className: "card reached" }, ...head, ...lists);
}

function turnsFolded(found, rows) {
  const state = rows[0].state;
  const list = () => turns(rows, found.rows.indexOf(rows[0]) + 1);
  return state === "turn" ? list() : fold(`${rows.length} ${WORDS[`many_${state}`]}`, () => [list()], { key: `${found.broadcast} ${state}` });
}

function turns(rows, start) {
  return make("ol", { className: "turns", start }, ...rows.map((it) => {
    const texts = [it.so_far, it.left].filter(Boolean).join(" · ");
    return make("li", { className: it.state }, `${it.to} ${WORDS[it.state]}`, texts ? make("small", { className: "small", textContent: texts }) : "");
  }));
}
