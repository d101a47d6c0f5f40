"use strict";
// The page of an office. Every text of a report, a name or a problem becomes a text node, and never markup.

const $ = id => document.getElementById(id);
const VIEWS = ["facts", "changes", "history", "sessions", "commits", "amend"];
const CORE = ["concept", "period", "entity", "unit", "language"];
const LONG = 400;

// Which report and version is looked at, and what was fetched of them.
const state = { current: 0, version: 0, follows: true, wanted: null, facts: [], commits: [], editing: null, key: null, turn: 0 };

// ---- elements

function element(tag, attributes = {}, ...children) {
  const made = document.createElement(tag);
  for (const [name, value] of Object.entries(attributes)) {
    if (value === undefined || value === null || value === false) continue;
    if (name.startsWith("on")) made.addEventListener(name.slice(2), value);
    else made.setAttribute(name, value === true ? "" : value);
  }
  made.append(...children.filter(child => child !== null && child !== undefined && child !== ""));
  return made;
}

// A long text shows its beginning, and the whole of it where it is asked for.
function text(value) {
  const whole = String(value);
  if (whole.length <= LONG) return whole;
  return element("details", {}, element("summary", {}, `${whole.slice(0, 120)} … (${whole.length} characters)`), whole);
}

// How a cell is laid out: short texts stay in one line, and long ones break anywhere.
function layout(parts) {
  if (parts[0] instanceof HTMLButtonElement) return "buttons";
  const length = parts.reduce((sum, part) => sum + (typeof part === "object" ? part.textContent : String(part)).length, 0);
  return length === 0 ? "empty" : length <= 24 ? "short" : "long";
}

// A table that stays one for a screen reader where narrow screens show it as cards.
function table(caption, headings, rows) {
  const head = element("tr", { role: "row" }, ...headings.map(heading => element("th", { role: "columnheader", scope: "col" }, heading)));
  const body = rows.map(({ cells, kind }) => element("tr", { role: "row", class: kind }, ...cells.map((cell, place) => {
    const parts = Array.isArray(cell) ? cell : [cell === null || cell === undefined ? "" : cell];
    return element("td", { role: "cell", "data-label": headings[place], class: layout(parts) }, ...parts.map(part => typeof part === "object" ? part : text(part)));
  })));
  return element("table", { role: "table" }, element("caption", {}, caption), element("thead", { role: "rowgroup" }, head), element("tbody", { role: "rowgroup" }, ...body));
}

const button = (name, label, onclick) => element("button", { type: "button", class: "plain", "aria-label": label, onclick }, name);
const say = words => { $("said").textContent = words; };
const plural = (count, one, many = `${one}s`) => `${count} ${count === 1 ? one : many}`;

// ---- facts in words

const valueOf = fact => fact.value === null || fact.value === undefined ? "nil" : fact.value;
const othersOf = fact => Object.entries(fact.dimensions).filter(([name]) => !CORE.includes(name) && name !== "noteId");
const dimensionsIn = dimensions => Object.entries(dimensions).map(([name, value]) => `${name}=${value ?? "nil"}`).join(", ");
const factIn = fact => `${valueOf(fact)} (${dimensionsIn(fact.dimensions)}${fact.decimals === undefined ? "" : `, decimals ${fact.decimals}`})`;
const who = version => version.user ?? "unknown";
const sessionOf = ({ user, session }) => session === null ? "a load" : `${user ?? "unknown"}/${session}`;
const when = version => version.time ? new Date(version.time).toLocaleString() : "unknown";

function thingIn([kind, report, ...rest]) {
  if (kind === "report") return `whether there is a report ${report}`;
  if (kind === "id") return `the fact ${rest[0]} of ${report}`;
  if (kind === "cell") return `the cell ${dimensionsIn(rest[0])} of ${report}`;
  if (kind === "policy") return `which duplicates ${report} allows`;
  return `the facts of concept ${rest[0]} in ${report}`;
}

function endIn(end) {
  if (!end) return "open or abandoned";
  if (end[0] === "committed") return `committed version ${end[1]}`;
  if (end[0] === "conflict") return `conflict with version ${end[1]} on ${thingIn(end[2])}`;
  if (end[0] === "disallowed") return `disallowed: ${end[2]} duplicates ${end[3].join(", ")} in ${end[1]}`;
  return end[0];
}

// ---- asking

class Problem extends Error {
  constructor(details) { super(details.detail && details.detail !== details.title ? `${details.title}: ${details.detail}` : details.title); this.details = details; }
}

async function ask(path, options) {
  const response = await fetch(path, options);
  if (!response.ok) {
    let details = { title: `the server answered ${response.status}` };
    try { details = await response.json(); } catch { /* no problem details: the status alone */ }
    throw new Problem(details);
  }
  return response.json();
}

const query = parts => new URLSearchParams(Object.entries(parts).filter(([, value]) => value !== "" && value !== null && value !== undefined)).toString();
const reportPath = () => `/reports/${encodeURIComponent($("report").value)}`;

// Does some work; what fails is told in the page, and only the last work asked for is drawn.
async function shown(work) {
  const turn = ++state.turn;
  try {
    const draw = await work();
    if (turn !== state.turn) return;
    $("problem").hidden = true;
    if (draw) draw();
    document.body.dataset.drawn = view();
  } catch (fault) {
    if (turn !== state.turn) return;
    $("problem").textContent = fault instanceof Problem ? fault.message : `The server cannot be reached: ${fault.message}`;
    $("problem").hidden = false;
  }
}

// ---- which report, which version

async function lookUp() {
  const { version, reports } = await ask(`/reports?${query({ at: state.follows ? "" : state.version })}`);
  state.version = version;
  state.current = Math.max(state.current, version);
  $("report").replaceChildren(...reports.map(({ name, facts, declared }) => element("option", { value: name }, `${name} (${plural(facts, "fact")}, duplicates: ${declared})`)));
  if (reports.some(({ name }) => name === state.wanted)) $("report").value = state.wanted;
  showVersion();
}

function showVersion() {
  for (const id of ["slider", "at", "from", "to"]) $(id).max = state.current;
  for (const id of ["slider", "at"]) $(id).value = state.version;
  $("slider").setAttribute("aria-valuetext", `version ${state.version} of ${state.current}`);
  $("follow").checked = state.follows;
  if (!$("newest").textContent) $("newest").textContent = `version ${state.current}`;
}

function goTo(version) {
  state.version = Math.min(Math.max(0, version), state.current);
  state.follows = state.version === state.current;
  showVersion();
  redraw();
}

// ---- facts

function fetchFacts(after) {
  const period = $("period").value.trim();
  return ask(`${reportPath()}/facts?${query({ at: state.version, text: $("text").value, concept: $("concept").value.trim(), period, after, limit: 100 })}`);
}

async function facts(after) {
  if (!$("report").value) return () => { $("facts").replaceChildren(); $("found").textContent = `Version ${state.version} has no report.`; $("more").hidden = true; };
  const got = await fetchFacts(after);
  return () => {
    state.facts = after === undefined ? got.facts : [...state.facts, ...got.facts];
    $("concepts").replaceChildren(...[...new Set(state.facts.map(({ fact }) => fact.dimensions.concept))].map(value => element("option", { value })));
    $("found").textContent = `${got.found} of ${plural(got.of, "fact")} found, ${state.facts.length} shown`;
    const rows = state.facts.map(({ id, fact }) => ({ cells: [id, fact.dimensions.concept, fact.dimensions.period ?? "", valueOf(fact), fact.dimensions.unit ?? "", fact.decimals ?? "",
      [fact.dimensions.entity, fact.dimensions.language, ...othersOf(fact).map(([name, value]) => `${name}=${value ?? "nil"}`)].filter(Boolean).join(", "),
      [button("History", `History of ${id}`, () => trace(id)), button("Replace", `Replace ${id}`, () => edit(id, fact))]] }));
    $("facts").replaceChildren(rows.length ? table(`Facts of ${$("report").value} in version ${state.version}`, ["Identifier", "Concept", "Period", "Value", "Unit", "Decimals", "Other dimensions", "Actions"], rows) : "");
    $("more").hidden = !got.more;
  };
}

// ---- changes

async function changes() {
  const [start, end] = [Number($("from").value), Number($("to").value)];
  const report = $("only").checked ? $("report").value : "";
  const { differences } = await ask(`/diff/${start}/${end}?${query({ report })}`);
  const words = value => value === undefined ? "" : typeof value === "string" ? value : factIn(value);
  return () => {
    $("differs").textContent = differences.length ? `${plural(differences.length, "difference")} from version ${start} to version ${end}` : `Versions ${start} and ${end} do not differ.`;
    const rows = differences.map(({ kind, report: name, id, from, to }) => ({ kind, cells: [{ report: "report is new", "no-report": "report is gone", declared: "allowed duplicates" }[kind] ?? kind, name, id ?? "",
      from === undefined ? "" : element("span", { class: "old" }, text(words(from))), words(to)] }));
    $("changes").replaceChildren(rows.length ? table(`From version ${start} to version ${end}`, ["Change", "Report", "Identifier", "Before", "After"], rows) : "");
  };
}

function compare(from, to) {
  [$("from").value, $("to").value] = [from, to];
  location.hash === "#changes" ? draw() : location.hash = "#changes";
}

// ---- one fact's history

function trace(id) {
  $("traced").value = id;
  location.hash = "#history";
}

async function history() {
  const id = $("traced").value;
  if (!id || !$("report").value) return () => { $("past").textContent = "Choose a fact in the list of facts, or write its identifier."; $("history").replaceChildren(); };
  const got = await ask(`${reportPath()}/facts/${encodeURIComponent(id)}/history`);
  return () => {
    $("past").textContent = `${id} of ${got.report}: ${plural(got.history.length, "change")}`;
    const rows = got.history.map(it => ({ kind: it.change, cells: [it.version, it.change, who(it), when(it), sessionOf(it), it.fact ? factIn(it.fact) : "",
      [button("What else", `What else version ${it.version} changed`, () => compare(it.version - 1, it.version))]] }));
    $("history").replaceChildren(table(`Each version that changed ${id}`, ["Version", "Change", "Who", "When", "Session", "Fact", "Actions"], rows));
  };
}

// ---- sessions and versions

async function sessions() {
  const got = await ask("/log?limit=200");
  return () => {
    const first = got.sessions.length ? got.sessions[got.sessions.length - 1].session : 1;
    const image = element("img", { src: `/log.svg?first=${first}&of=${got.of}.${state.current}`, alt: "Versions along, a bar for each session, and an arrow from a commit to each session that met it; the table below says the same" });
    $("picture").replaceChildren(got.of ? image : "");
    const rows = got.sessions.map(it => ({ cells: [sessionOf(it), when(it), it.kind, `version ${it.opened}`, it.staged, endIn(it.end), it.met === null ? "" : sessionOf(got.sessions.find(other => other.session === it.met) ?? { session: it.met })] }));
    $("sessions").replaceChildren(table(`${got.sessions.length} of ${plural(got.of, "session")}, the last first`, ["Session", "When", "Kind", "Opened at", "Changes staged", "End", "Met"], rows));
  };
}

async function commits(before) {
  const got = await ask(`/versions?${query({ limit: 100, before })}`);
  return () => {
    state.commits = before === undefined ? got.versions : [...state.commits, ...got.versions];
    const rows = state.commits.map(it => ({ cells: [it.version, who(it), when(it), sessionOf(it), it.reports.join(", "), it.kind === "load" ? "" : it.changes,
      [button("What changed", `What version ${it.version} changed`, () => compare(it.version - 1, it.version)), button("Look at it", `Look at version ${it.version}`, () => { goTo(it.version); location.hash = "#facts"; })]] }));
    $("commits").replaceChildren(table("Each load and commit, the last first", ["Version", "Who", "When", "Session", "Reports", "Changes", "Actions"], rows));
    const last = state.commits[state.commits.length - 1];
    $("earlier").hidden = !last || last.version === 1;
  };
}

// ---- the form

const FIELDS = { "f-concept": "concept", "f-period": "period", "f-entity": "entity", "f-unit": "unit", "f-language": "language" };

// Begins a fact anew, or the replacement of one as it was shown.
function edit(id, fact) {
  state.editing = id === undefined ? null : { id, fact, report: $("report").value };
  state.key = null;
  $("amend").reset();
  if (state.editing) {
    $("f-id").value = id;
    for (const [field, name] of Object.entries(FIELDS)) $(field).value = fact.dimensions[name] ?? "";
    $("f-others").value = Object.entries(fact.dimensions).filter(([name]) => !CORE.includes(name)).map(([name, value]) => value === null ? name : `${name}=${value}`).join("\n");
    $("f-value").value = fact.value ?? "";
    $("f-nil").checked = fact.value === null || fact.value === undefined;
    $("f-decimals").value = fact.decimals ?? "";
  }
  $("outcome").replaceChildren();
  location.hash === "#amend" ? draw() : location.hash = "#amend";
}

function showForm() {
  const editing = state.editing;
  $("h-amend").textContent = editing ? `Replace ${editing.id} of ${editing.report}` : `Add a fact to ${$("report").value || "a report"}`;
  $("f-put").textContent = editing ? "Replace" : "Add";
  $("f-id").readOnly = Boolean(editing);
  for (const id of ["f-remove", "f-new"]) $(id).hidden = !editing;
  $("seen").replaceChildren(...(editing ? ["It was read as ", element("strong", {}, text(factIn(editing.fact))), ". If somebody changes it meanwhile, you are told, and nothing is changed."] : []));
}

function writtenFact() {
  const dimensions = {};
  for (const [field, name] of Object.entries(FIELDS)) if ($(field).value.trim()) dimensions[name] = $(field).value.trim();
  for (const line of $("f-others").value.split("\n")) {
    const at = line.indexOf("=");
    if (line.trim()) dimensions[(at < 0 ? line : line.slice(0, at)).trim()] = at < 0 ? null : line.slice(at + 1).trim();
  }
  const fact = { dimensions, value: $("f-nil").checked ? null : $("f-value").value };
  if ($("f-decimals").value.trim()) fact.decimals = Number($("f-decimals").value);
  if (state.editing && state.editing.fact.links) fact.links = state.editing.fact.links;
  return fact;
}

function amendment(isRemoval) {
  const report = state.editing ? state.editing.report : $("report").value, id = $("f-id").value;
  const reply = state.editing ? ["fact", state.editing.fact] : ["none"];
  return {
    reads: [{ line: ["get", report, id], reply }],
    removes: state.editing ? [{ report, id }] : [],
    adds: isRemoval ? [] : [{ report, id, fact: writtenFact() }],
  };
}

// A key stays with the text of an amendment until it is answered, so that one sent again is one.
function keyFor(body) {
  if (!state.key || state.key.body !== body) {
    const bytes = crypto.getRandomValues(new Uint8Array(16));
    state.key = { body, text: [...bytes].map(byte => byte.toString(16).padStart(2, "0")).join("") };
  }
  return state.key.text;
}

async function send(isRemoval) {
  const body = JSON.stringify(amendment(isRemoval)), id = $("f-id").value;
  $("f-put").disabled = $("f-remove").disabled = true;
  try {
    const done = await ask("/amendments", { method: "POST", headers: { "Content-Type": "application/json", "Idempotency-Key": keyFor(body) }, body });
    edit();
    $("outcome").replaceChildren(element("div", { class: "outcome passed" }, element("p", {}, `Committed: ${id} is in version ${done.version}${isRemoval ? " no more" : ""}.`)));
  } catch (fault) {
    refuse(fault, id);
  } finally {
    $("f-put").disabled = $("f-remove").disabled = false;
  }
}

function refuse(fault, id) {
  const details = fault instanceof Problem ? fault.details : { title: `the server cannot be reached (${fault.message}). What became of it is not known: send it again as it is, and it is one amendment` };
  if (fault instanceof Problem && details.word !== "restarting") state.key = null;
  const told = element("dl");
  const tell = (name, value) => told.append(element("dt", {}, name), element("dd", {}, text(value)));
  if (details.word) tell("Word", details.word);
  if (details.reply && details.reply[0] === "disallowed") tell("Duplicates", `${details.reply[3].join(", ")} in ${details.reply[1]} would be ${details.reply[2]} duplicates`);
  if (details.thing) tell("What was touched", thingIn(details.thing));
  if (details.version) tell("By version", details.version);
  if (details.found) tell("There is now", details.found[0] === "fact" ? factIn(details.found[1]) : details.found[0] === "none" ? "no such fact" : JSON.stringify(details.found));
  const again = details.found && details.found[0] === "fact" ? [element("p", {}, button("Begin from what is there now", `Replace ${id} as it is now`, () => edit(id, details.found[1])))] : [];
  $("outcome").replaceChildren(element("div", { class: "outcome refused" }, element("p", {}, element("strong", {}, "Refused: "), fault instanceof Problem ? fault.message : details.title), told, ...again));
}

// ---- views

const view = () => VIEWS.includes(location.hash.slice(1)) ? location.hash.slice(1) : "facts";

function draw() {
  const now = view();
  for (const name of VIEWS) $(`view-${name}`).hidden = name !== now;
  for (const link of document.querySelectorAll("nav a")) {
    if (link.hash === `#${now}`) link.setAttribute("aria-current", "page");
    else link.removeAttribute("aria-current");
  }
  document.title = `${$(`h-${now}`).textContent} – Filing office`;
  delete document.body.dataset.drawn;
  if (now === "amend") showForm();
  return shown({ facts: () => facts(), changes, history, sessions, commits: () => commits(), amend: async () => null }[now]);
}

const redraw = async () => { await shown(async () => { await lookUp(); return null; }); await draw(); };

// ---- as it comes

// A hidden page listens to nothing, since a browser has six connections to a server for all of its pages.
function follow() {
  if (state.events) state.events.close();
  state.events = null;
  if (document.hidden) return;
  const events = state.events = new EventSource("/events");
  events.onopen = () => {
    const wasLost = $("state").textContent === "not connected";
    $("state").textContent = "live";
    $("state").className = "live";
    if (wasLost && state.follows && view() !== "amend") redraw();
  };
  events.onerror = () => {
    $("state").textContent = "not connected";
    $("state").className = "";
    if (events.readyState === EventSource.CLOSED) setTimeout(() => { if (state.events === events) follow(); }, 3000);
  };
  events.addEventListener("version", message => come(JSON.parse(message.data)));
}

// A version has come: it is told, and what is shown of the newest is drawn again, once for those that come together.
function come(told) {
  state.current = Math.max(state.current, told.version);
  const words = `version ${told.version}: ${told.kind} by ${who(told)}${told.reports.length ? ` on ${told.reports.join(", ")}` : ""}`;
  $("newest").textContent = words;
  say(words);
  clearTimeout(state.later);
  state.later = setTimeout(renew, 250);
}

function renew() {
  if (state.follows && view() === "amend") lookUp().catch(() => {});
  else if (state.follows) redraw();
  else {
    showVersion();
    if (["commits", "sessions"].includes(view())) draw();
  }
}

// ---- what a user does

$("report").addEventListener("change", () => { state.wanted = $("report").value; draw(); });
$("slider").addEventListener("input", () => { $("at").value = $("slider").value; });
$("slider").addEventListener("change", () => { goTo(Number($("slider").value)); });
$("at").addEventListener("change", () => { goTo(Number($("at").value)); });
$("follow").addEventListener("change", () => { state.follows = $("follow").checked; if (state.follows) redraw(); });
$("which").addEventListener("submit", event => { event.preventDefault(); goTo(Number($("at").value)); });
$("search").addEventListener("submit", event => { event.preventDefault(); draw(); });
$("compare").addEventListener("submit", event => { event.preventDefault(); draw(); });
$("trace").addEventListener("submit", event => { event.preventDefault(); draw(); });
$("amend").addEventListener("submit", event => { event.preventDefault(); send(false); });
$("f-remove").addEventListener("click", () => send(true));
$("f-new").addEventListener("click", () => edit());
$("more").addEventListener("click", () => shown(() => facts(state.facts[state.facts.length - 1].id)));
$("earlier").addEventListener("click", () => shown(() => commits(state.commits[state.commits.length - 1].version)));
document.addEventListener("visibilitychange", () => { follow(); if (!document.hidden && state.follows && view() !== "amend") redraw(); });
window.addEventListener("pagehide", () => { if (state.events) state.events.close(); });
window.addEventListener("pageshow", event => { if (event.persisted) follow(); });
window.addEventListener("hashchange", () => { draw(); $("main").focus({ preventScroll: true }); window.scrollTo(0, 0); });

redraw().then(() => {
  $("from").value = Math.max(0, state.current - 1);
  $("to").value = state.current;
  follow();
});
