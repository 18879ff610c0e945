import { startAsk } from "./ask.js";
import { loadDevice } from "./device.js";
import { loadHistory, startHistory } from "./history.js";
import { loadNow } from "./now.js";
import { byId, call } from "./parts.js";

const VIEWS = ["ask", "now", "history", "device"];
const POLL_MILLISECONDS = 1000;
let shown = "ask";
let note = "";

function show(view, isFocused) {
  shown = view;
  for (const it of VIEWS) {
    const tab = byId(`tab-${it}`);
    byId(it).hidden = it !== view;
    tab.setAttribute("aria-selected", String(it === view));
    tab.tabIndex = it === view ? 0 : -1;
  }
  if (isFocused) byId(`tab-${view}`).focus();
  history.replaceState(null, "", `#${view}`);
  ({ ask: () => {}, now: loadNow, history: loadHistory, device: loadDevice })[view](note);
}

function startTabs() {
  for (const it of VIEWS) {
    byId(`tab-${it}`).onclick = () => show(it, false);
    byId(`tab-${it}`).onkeydown = (event) => {
      const step = { ArrowRight: 1, ArrowLeft: -1 }[event.key];
      if (step) show(VIEWS[(VIEWS.indexOf(it) + step + VIEWS.length) % VIEWS.length], true);
    };
  }
}

async function start() {
  startTabs();
  startHistory();
  const about = await call("/api/about");
  if (about && !about.error) {
    note = about.note;
    byId("name").textContent = [about.file, about.url].filter(Boolean).join(" · ");
    await startAsk(about);
  }
  show(VIEWS.find((it) => `#${it}` === location.hash) || "ask", false);
  // one question at a time: the next is asked once the last is answered
  for (;;) {
    await new Promise((resolve) => setTimeout(resolve, POLL_MILLISECONDS));
    if (document.hidden) continue;
    // nothing changes in a session of its own
    if (note || shown === "ask" || shown === "device") await call("/api/alive");
    else if (shown === "now") await loadNow(note);
    else await loadHistory(note);
  }
}

start();
