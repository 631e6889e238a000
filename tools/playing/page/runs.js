// Calls, what came of them, live objects, and host events as a timeline.

import { at, counted, element, fill } from "./dom.js";
import { moduleOf, state } from "./state.js";

const MOST_RUNS = 30;
const MOST_ROWS = 200;
const HOST = /^host (\S+) (\d+) (\d+) (\S+) (\(\S*\)) (.+)$/;
const END = /^end (\d+) (#\d+)$/;
const MOST_LEVELS = 20;
let runs = []; // commands with events, calls, and builds with a fault: the last one first
let last = null; // the call or build with a fault that is shown below the form
let follow = () => {}; // goes to a line of a trace
let count = 0; // of commands that ran

export function whenFollowed(handler) {
  follow = handler;
}

/** Draws the form of a call: the chosen module's functions. */
export function drawCall() {
  const module = moduleOf();
  const functions = module ? module.functions : [];
  const before = at("function").value;
  const none = element("option", { value: "" }, noneOf(module));
  const options = functions.map(optionOf);
  const callable = functions.map((it, number) => (it.isCallable ? String(number) : "")).filter(Boolean);
  fill(at("function"), ...(callable.length ? options : [none, ...options]));
  at("function").value = callable.includes(before) ? before : callable[0] ?? "";
  at("call-of").textContent = state.chosen;
  at("do-call").disabled = callable.length === 0;
  drawValues();
}

function noneOf(module) {
  if (!module) {
    return "none";
  }
  return module.builtMask === null ? "none: build it first" : "none that can be called from outside";
}

function optionOf(it, number) {
  const note = it.isCallable ? "" : " (for scripts alone)";
  return element("option", { value: String(number), disabled: !it.isCallable }, `${it.declaration}${note}`);
}

/** Draws a field for each parameter of the function. */
export function drawValues() {
  const parameters = calledFunction()?.parameters ?? [];
  fill(at("values"), ...parameters.map((it, number) => {
    const first = /\bbool\b/.test(it) ? "true" : "1";
    const field = element("input", { size: 8, autocomplete: "off", spellcheck: "false", value: first, "data-value": number });
    return element("label", {}, `${it} `, field);
  }));
}

/** The function that is chosen to be called. */
export function calledFunction() {
  return moduleOf()?.functions[Number(at("function").value)];
}

export function givenValues() {
  return [...at("values").querySelectorAll("input")].map((it) => it.value);
}

/** Shows how the last run ended: where a fault stood, and the ticks. */
function showOutcome(step) {
  const [outcome, word] = outcomeOf(step);
  const told = element("p", { class: `outcome ${word}` }, element("code", {}, outcome), step.means ? ` ${step.means}.` : "");
  const parts = [element("p", { class: "quiet" }, step.text.split("\n")[0]), told, ...stackOf(step, "")];
  if (!outcome.startsWith("refused") || step.trace.length > 0) {
    const text = `${counted(step.ticks, "tick")} of ${state.budget.toLocaleString("en")}`;
    const meter = element("meter", { min: 0, max: state.budget, value: step.ticks, "aria-label": "Ticks of the budget" });
    parts.push(element("p", { class: "ticks", id: "ticks" }, text, " ", meter));
  }
  fill(at("result"), ...parts);
}

/** Shows why a call could not be made. */
export function showProblem(problem) {
  fill(at("result"), element("p", { class: "outcome fault" }, problem));
}

function outcomeOf(step) {
  const outcome = step.lines[step.lines.length - 1];
  return [outcome, outcome.split(" ")[0]];
}

/** What was running when a fault came, innermost first. Each line leads to its place in an editor. */
function stackOf(step, run, most = MOST_LEVELS) {
  if (step.trace.length === 0) {
    return [];
  }
  const levels = step.trace.slice(0, most).map((it, number) => levelOf(it, number, run));
  const title = element("p", { class: "quiet" }, "It was running, the innermost function first:");
  const list = element("ol", { class: "stack", "aria-label": `Stack of the fault${run}` }, ...levels);
  if (step.trace.length <= most) {
    return [title, list];
  }
  const rest = step.trace.length - most;
  const more = element("button", { type: "button", class: "small" }, `Show ${counted(rest, "more line")} of the stack${run}`);
  more.addEventListener("click", () => {
    list.replaceChildren(...step.trace.map((it, number) => levelOf(it, number, run)));
    more.remove();
  });
  return [title, list, more];
}

function levelOf(level, number, run) {
  const place = `${level.section}:${level.line}:${level.column}`;
  const label = `Go to ${level.module}, section ${level.section}, line ${level.line}, column ${level.column}: level ${number} of the stack${run}`;
  const go = element("button", { type: "button", class: "place", "aria-label": label, click: () => follow(level) }, place);
  const times = level.times > 1 ? ` ${level.times} times` : "";
  const where = level.known ? "" : ", declared there";
  const note = element("span", { class: "quiet" }, `${times}${where}`);
  const name = element("span", { class: "name" }, element("b", {}, level.module), " ", element("code", {}, level.name), note);
  return element("li", {}, go, " ", name, element("code", { class: "source" }, level.source.trim()));
}

/** Adds commands to the timeline, and shows how the last run ended, which it gives. */
export function addRuns(steps) {
  const telling = steps.filter((it) => isRun(it) || it.lines.some((line) => /^(host|end) /.test(line)));
  if (telling.length === 0) {
    return null;
  }
  for (const it of telling) {
    it.number = ++count;
  }
  runs = [...telling.reverse(), ...runs].slice(0, MOST_RUNS);
  const run = telling.find(isRun) ?? null;
  if (run) {
    last = run;
    showOutcome(run);
  }
  drawTimeline();
  return run;
}

/** Whether it is a call, or a build with a fault. */
function isRun(step) {
  return step.text.startsWith("call ") || step.trace.length > 0;
}

export function forgetRuns() {
  [runs, last, count] = [[], null, 0];
  fill(at("result"));
  drawTimeline();
}

function drawTimeline() {
  const none = element("p", { class: "quiet" }, "Nothing ran yet.");
  fill(at("timeline"), ...(runs.length ? runs.map((it, number) => runOf(it, number === 0)) : [none]));
}

function runOf(step, isOpen) {
  const events = step.lines.map(eventOf).filter(Boolean);
  const [outcome, word] = outcomeOf(step);
  const told = element("code", {}, step.text.split("\n")[0]);
  const ended = element("span", { class: `outcome ${word}` }, outcome);
  const ticks = step.ticks > 0 ? `, ${counted(step.ticks, "tick")}` : "";
  const title = [told, " ", ended, " ", element("span", { class: "quiet" }, `${counted(events.length, "event")}${ticks}`)];
  const it = element("details", { class: "run", open: isOpen }, element("summary", {}, ...title));
  let isDrawn = false;
  const draw = () => {
    if (it.open && !isDrawn) {
      isDrawn = true;
      it.append(...(step === last ? [] : stackOf(step, ` of run ${step.number}`)), eventsOf(events, MOST_ROWS));
    }
  };
  it.addEventListener("toggle", draw);
  draw();
  return it;
}

function eventOf(line) {
  const host = HOST.exec(line);
  if (host) {
    const [, caller, entry, driver, object, values, answer] = host;
    return { caller, entry: Number(entry), driver, object, values, answer };
  }
  const end = END.exec(line);
  return end ? { caller: null, driver: end[1], object: end[2] } : null;
}

/** A run's events: a lane for each module that asked, and one for each driver. */
function eventsOf(events, most) {
  if (events.length === 0) {
    return element("p", { class: "quiet" }, "It asked the host nothing.");
  }
  const callers = [...new Set(events.map((it) => it.caller).filter((it) => it !== null))];
  const drivers = [...new Set(events.map((it) => it.driver))].sort((one, other) => one - other);
  const lanes = [...callers, ...drivers.map(driverName)];
  const columnOf = (kind, ...inside) => element("th", { scope: "col", class: kind }, ...inside);
  const kinds = lanes.map((_, place) => (place < callers.length ? "lane" : "lane driver"));
  const laneHeads = lanes.map((it, place) => columnOf(kinds[place], element("span", {}, it)));
  const head = element("tr", {}, columnOf("number", "#"), ...laneHeads, columnOf("asked", "Host call"), columnOf("answer", "Answer"));
  const rows = events.slice(0, most).map((it, number) => eventRow(it, number, callers, drivers));
  const table = element("table", { class: "events" }, element("thead", {}, head), element("tbody", {}, ...rows));
  const scrolls = element("div", { class: "scrolls", tabindex: "0", role: "region", "aria-label": "Host events of this run" }, table);
  if (events.length <= most) {
    return scrolls;
  }
  const showAll = () => scrolls.replaceWith(eventsOf(events, events.length));
  scrolls.append(element("button", { type: "button", click: showAll }, `Show all ${counted(events.length, "event")}`));
  return scrolls;
}

function eventRow(it, number, callers, drivers) {
  const from = it.caller === null ? -1 : callers.indexOf(it.caller);
  const to = callers.length + drivers.indexOf(it.driver);
  const lanes = Array.from({ length: callers.length + drivers.length }, (_, lane) => {
    const between = from >= 0 && lane > from && lane < to;
    const kind = lane === from ? "from" : lane === to ? (it.caller === null ? "end" : "to") : between ? "between" : "";
    return element("td", { class: `lane ${kind}`, "aria-hidden": "true" });
  });
  const texts = it.caller === null ? [`${typeOf(it.driver)}${it.object} ends`, ""] : [askedText(it), it.answer];
  const isFault = /^(fault|memory|full)/.test(texts[1]);
  const by = it.caller === null ? `${driverName(it.driver)}: ` : `${it.caller} to ${driverName(it.driver)}: `;
  const said = element("td", {}, element("span", { class: "unseen" }, by), texts[0]);
  const answer = element("td", { class: isFault ? "fault" : "" }, texts[1]);
  return element("tr", {}, element("td", { class: "number" }, String(number)), ...lanes, said, answer);
}

function askedText(it) {
  const entry = state.entries[it.entry];
  const name = entry ? entry.told.replace(/ of the type .*/, "").replace(/\(.*/, "").split(" ").pop() : `entry ${it.entry}`;
  const of = it.object === "-" ? "" : `${typeOf(it.driver)}${it.object}.`;
  if (entry && (entry.word === "property" || entry.word === "global")) {
    return it.values === "()" ? `${of}${name}` : `${of}${name} = ${it.values.slice(1, -1)}`;
  }
  const made = entry && entry.word === "factory" ? typeOf(it.driver) : `${of}${name}`;
  return `${made}${it.values}`;
}

function typeOf(driver) {
  return state.types.get(Number(driver)) ?? "";
}

function driverName(driver) {
  const type = typeOf(driver);
  return type ? `driver ${driver}, ${type}` : `driver ${driver}`;
}

function objectRow(it) {
  const name = element("th", { scope: "row" }, `${it.type}#${it.key}`);
  return element("tr", {}, name, element("td", {}, it.maker), element("td", { class: "number" }, String(it.calls)));
}

/** Draws the host's objects that are alive, and how much scripts hold. */
export function drawObjects() {
  const most = (name) => (state.limits[name] === undefined ? "" : ` of ${state.limits[name].toLocaleString("en")}`);
  const [objects, slots] = [state.used.objects ?? 0, state.used.slots ?? 0];
  const held = `${counted(objects, "object")}${most("objects")}; ${counted(slots, "slot")}${most("slots")} of scripts' own objects.`;
  const parts = [element("p", { class: "quiet" }, held)];
  if (state.objects.length > 0) {
    const heads = ["Object", "Made by", "Host calls"].map((it) => element("th", { scope: "col" }, it));
    const table = element("table", { class: "plain" }, element("thead", {}, element("tr", {}, ...heads)));
    table.append(element("tbody", {}, ...state.objects.map(objectRow)));
    parts.push(element("div", { class: "scrolls", tabindex: "0", role: "region", "aria-label": "Live objects" }, table));
  }
  if (state.alive > state.objects.length) {
    parts.push(element("p", { class: "quiet" }, `and ${counted(state.alive - state.objects.length, "more object")}`));
  }
  fill(at("objects"), ...parts);
}
