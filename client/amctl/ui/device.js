import { WORDS, byId, call, contents, fold, make, search } from "./parts.js";

// a device with more packages than this has them folded, with a search and contents
const FEW = 8;

export async function loadDevice() {
  const found = await call("/api/device");
  if (!found) return;
  if (found.error) byId("installed").replaceChildren(found.error);
  else byId("installed").replaceChildren(...device(found.packages));
}

function device(packages) {
  const place = make("div");
  const isLong = packages.length > FEW;
  const draw = (wanted) => {
    const left = packages.map((it) => matching(it, wanted)).filter((it) => it !== null);
    const made = left.map((it) => installed(it, !isLong || Boolean(wanted)));
    const none = made.length ? [] : [make("p", { className: "quiet", textContent: WORDS.nothing_found })];
    place.replaceChildren(...(isLong ? [contents(left.map((it) => it.name), made)] : []), ...made, ...none);
  };
  draw("");
  return isLong ? [search(WORDS.find_device, draw), place] : [place];
}

// a package of that name is shown whole, and of another one the components that have the words
function matching(found, wanted) {
  if (found.name.toLowerCase().includes(wanted)) return found;
  const components = found.components.filter((it) => [it.name, it.reach, ...it.filters].join(" ").toLowerCase().includes(wanted));
  return components.length ? { ...found, components } : null;
}

function installed(found, isOpen) {
  const rights = [...found.grants.map((it) => `${WORDS.holds} ${it}`), ...found.links.map((it) => `${WORDS.approved} ${it}`)].join(" · ");
  const head = make("tr", {}, ...[WORDS.component, WORDS.kind, WORDS.reach, WORDS.filters].map((it) => make("th", { textContent: it, scope: "col" })));
  return fold(found.label, () => [
    ...(rights ? [make("p", { className: "quiet", textContent: rights })] : []),
    make("table", {}, make("thead", {}, head), make("tbody", {}, ...found.components.map(component))),
  ], { isOpen });
}

function component(it) {
  const filters = it.filters.map((filter) => make("div", { textContent: filter }));
  return make("tr", {}, ...[it.name, it.kind, it.reach].map((text) => make("td", { textContent: text })), make("td", {}, ...filters));
}
