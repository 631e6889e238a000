// The page of tools/play.py --web: what its controls do, and what is drawn again after that.

import { at, counted, element, fill, setText } from "./dom.js";
import { drawEditors, showLine, showMarks } from "./editors.js";
import { drawImports } from "./imports.js";
import { drawBits, drawTabs, showMask } from "./masks.js";
import { drawProblems } from "./problems.js";
import { addRuns, calledFunction, drawCall, drawObjects, drawValues, forgetRuns, givenValues, showProblem, whenFollowed } from "./runs.js";
import { ask, askInOrder, leave, whenGone } from "./server.js";
import { linkOf, save, sessionAnew, textsIn, writeTexts } from "./share.js";
import { ended, hex, isEdited, moduleOf, state, textsOf } from "./state.js";
import { chooseColumn, drawTable, find, paintModule, showChange } from "./table.js";

const PAUSE = 400; // milliseconds without a key before the text is checked
const ALIVE = 30000;
const wanted = new Map(); // of each module: the mask that it is to have, until the engine has heard of it
let checking = 0; // counts checks, so that an old one's answer is not shown

// ---- what is shown

function say(problem) {
  at("message").hidden = !problem;
  at("message").textContent = problem || "";
}

/** Takes what an answer says of modules, objects and commands. */
function take(answer) {
  for (const name of ["modules", "objects", "alive", "used", "budget", "groups"]) {
    state[name] = answer[name] ?? state[name];
  }
  for (const number of answer.removed ?? []) {
    Object.assign(state.entries[number], { word: "blank", told: "", masks: [] });
  }
  for (const module of state.modules) {
    module.mask = wanted.get(module.name)?.mask ?? module.mask;
  }
  state.steps.push(...(answer.steps ?? []));
}

/** Draws all that depends on which module is chosen. */
function drawModule() {
  drawTabs(choose);
  drawBits(flip);
  chooseColumn();
  drawEditors(edited, removeSection);
  drawProgram();
  drawProblems(setBit, noteOf());
}

/** Draws what depends on the chosen module's program. */
function drawProgram() {
  const module = moduleOf();
  at("module-name").textContent = module ? module.name : "";
  at("module-state").textContent = module ? stateOf(module) : "Make a module first.";
  for (const id of ["build", "check", "add-section", "discard"]) {
    at(id).disabled = !module;
  }
  drawImports(bind, unbind);
  drawCall();
  drawObjects();
  at("budget").value = state.budget;
}

function stateOf(module) {
  const edited = isEdited(module.name) ? ", edited since" : "";
  if (module.builtMask === null) {
    return `not built${edited}`;
  }
  const other = module.builtMask === module.mask ? "" : `; its mask is ${hex(module.mask)} now`;
  return `built under ${hex(module.builtMask)}${other}${edited}`;
}

function noteOf() {
  return moduleOf()?.builtMask != null ? "None." : "Nothing was built or checked yet.";
}

function hintAtBits() {
  fill(at("changed"), element("p", { class: "quiet" }, "A click on a bit changes the mask for the next build. What appears and what goes stands here then."));
}

/** Draws everything. */
function draw() {
  hintAtBits();
  drawTable();
  drawGroups();
  drawModule();
  at("profile").value = state.profile;
  at("answers").value = state.answers;
}

// ---- pages

/** Opens a profile and a session in the place of what is there. */
async function open(texts, send = askInOrder) {
  say("");
  const before = state.page;
  const answer = await send("open", { profile: texts.profile, session: texts.session });
  if (answer.problem) {
    say(answer.problem);
    return false;
  }
  state.steps = [];
  state.lit = null;
  for (const name of ["page", "profile", "answers", "entries", "limits"]) {
    state[name] = answer[name];
  }
  state.types = new Map(answer.entries.filter((it) => it.word === "type").map((it) => [it.driver, it.told.replace(/^type /, "")]));
  take(answer);
  takeSections(answer);
  state.chosen = (moduleOf() ?? firstRefused() ?? state.modules[0])?.name ?? "";
  forgetRuns();
  draw();
  ran(state.steps);
  say(answer.note);
  ask("close", { page: before });
  await write();
  return true;
}

/** Has another engine do all again, where that of the page was ended. What was edited stays. */
async function openAgain() {
  const texts = state.texts;
  const head = state.answers === "asrun" ? [] : [`#answers ${state.answers}`];
  const session = [...head, ...state.steps.map((it) => it.text)].map((it) => `${it}\n`).join("");
  const done = await open({ profile: state.profile, session }, ask);
  if (done) {
    texts.forEach((own, name) => state.texts.has(name) && state.texts.set(name, own));
    drawModule();
    at("share-note").textContent = "The engine had been ended. Another one has done all again.";
  }
  return done;
}

function takeSections(answer) {
  state.texts = new Map(answer.sections.map((it) => [it.name, it.texts.length ? it.texts : [""]]));
  state.tried = new Map(answer.sections.map((it) => [it.name, it.tried]));
  state.problems = new Map(answer.problems.map((it) => [it.name, it.problems]));
}

function firstRefused() {
  return state.modules.find((it) => (state.problems.get(it.name) ?? []).length > 0);
}

/** Does a command. Its answer is taken, and what can't be done is said. */
async function command(operation, fields) {
  const answer = await askInOrder(operation, { name: state.chosen, ...fields });
  say(answer.problem);
  if (answer.modules) {
    take(answer);
    ran(answer.steps);
  }
  return answer;
}

/** Shows what commands did, and lights the line where the last of them had a fault. */
function ran(steps) {
  const run = addRuns(steps);
  if (run) {
    state.lit = run.trace[0] ?? null;
    showMarks();
  }
}

/** Goes to a line of a trace, in the module that has it. */
function follow(level) {
  if (!moduleOf(level.module)) {
    say(`There is no module ${level.module} any more.`);
    return;
  }
  if (state.chosen !== level.module) {
    choose(level.module);
  }
  state.lit = level;
  say(showLine(level) ? "" : `Section ${level.section} of ${level.module} has been edited: the line is not there any more.`);
}

// ---- modules and masks

function choose(name) {
  state.chosen = name;
  hintAtBits();
  drawModule();
}

/** Shows another mask at once, and tells the engine of it. */
async function setMask(mask) {
  const module = moduleOf();
  const told = { mask: mask >>> 0 };
  wanted.set(module.name, told);
  const before = showChosenMask(told.mask);
  const answer = await command("mask", { mask: told.mask });
  if (wanted.get(module.name) === told) {
    wanted.delete(module.name);
    if (answer.problem && module.name === state.chosen) {
      showChosenMask(before);
    }
  }
  checkSoon();
}

/** Shows that the chosen module has a mask, and gives the one before. */
function showChosenMask(mask) {
  const module = moduleOf();
  const before = module.mask;
  module.mask = mask;
  paintModule(module);
  showMask();
  showChange(module, before);
  setText(at("module-state"), stateOf(module));
  return before;
}

function flip(bit) {
  setMask(moduleOf().mask ^ (1 << bit));
}

function setBit(bit) {
  setMask(moduleOf().mask | (1 << bit));
}

async function addModule(event) {
  event.preventDefault();
  const name = at("new-name").value.trim();
  const answer = await command("module", { name, mask: 1 });
  const outcome = answer.steps?.at(-1)?.lines.at(-1);
  if (outcome === "ok") {
    at("new-name").value = "";
    state.chosen = name;
    state.texts.set(name, [""]);
    draw();
  } else if (outcome) {
    say(`The module was not made: ${outcome}`);
  }
}

/** Draws a button for each group of entries that can be removed. */
function drawGroups() {
  const buttons = state.groups.map((it) => element("button", { type: "button", click: () => removeGroup(it) }, `Remove ${it}`));
  at("groups").hidden = buttons.length === 0;
  fill(at("groups"), "Groups of entries ", ...buttons);
}

/** Takes the entries of a group away, unless a built module uses one of them. */
async function removeGroup(group) {
  const answer = await command("remove", { name: group });
  const step = answer.steps?.at(-1);
  if (step?.lines.at(-1) === "ok") {
    draw();
    checkSoon();
  } else if (step) {
    say(`The group ${group} was not removed: ${step.means}.`);
  }
}

async function discard() {
  const name = state.chosen;
  await command("discard", {});
  for (const kept of [state.texts, state.tried, state.problems]) {
    kept.delete(name);
  }
  state.chosen = state.modules[0]?.name ?? "";
  draw();
}

// ---- sections

let pause = 0;

function edited() {
  state.problems.delete(state.chosen);
  at("module-state").textContent = stateOf(moduleOf());
  showMarks();
  checkSoon();
}

function checkSoon() {
  clearTimeout(pause);
  if (at("check-always").checked) {
    pause = setTimeout(check, PAUSE);
  }
}

function addSection() {
  textsOf(state.chosen).push("");
  drawEditors(edited, removeSection);
  edited();
}

function removeSection(number) {
  textsOf(state.chosen).splice(number, 1);
  state.problems.delete(state.chosen);
  drawEditors(edited, removeSection);
  edited();
}

/** Has the engine check the sections as they stand. The built program runs on. */
async function check() {
  const module = moduleOf();
  if (!module) {
    return;
  }
  const number = ++checking;
  const answer = await askInOrder("check", { name: module.name, sections: textsOf(module.name) });
  if (number !== checking || module.name !== state.chosen) {
    return;
  }
  state.problems.set(module.name, answer.problems ?? []);
  const fine = answer.outcome === "ok" ? `None: it can be built under ${hex(module.mask)}.` : `${answer.outcome}: ${answer.means}.`;
  drawProblems(setBit, answer.problem ?? fine);
  showMarks();
}

async function build() {
  checking++;
  clearTimeout(pause);
  const name = state.chosen;
  const answer = await command("build", { sections: textsOf(name) });
  if (answer.problem) {
    return;
  }
  state.tried.set(name, textsOf(name).map(ended));
  state.problems.set(name, answer.problems);
  paintModule(moduleOf(name));
  drawProgram();
  if (name === state.chosen) {
    hintAtBits();
    drawProblems(setBit, builtNote(answer));
    showMarks();
  }
}

function builtNote(answer) {
  const step = answer.steps.at(-1);
  const where = step.trace.length > 0 ? " Its stack stands below, at Runs." : "";
  return step.means ? `${step.lines.at(-1)}: ${step.means}.${where}` : "None: it is built.";
}

async function bind(number, exporter, declaration) {
  bound(await command("bind", { number, exporter, declaration }));
}

async function unbind(number) {
  bound(await command("unbind", { number }));
}

function bound(answer) {
  const outcome = answer.steps?.at(-1)?.lines.at(-1);
  if (outcome && outcome !== "ok") {
    say(`It was not done: ${outcome}`);
  }
  drawImports(bind, unbind);
}

// ---- runs

async function call(event) {
  event.preventDefault();
  const called = calledFunction();
  const answer = await command("call", { declaration: called.declaration, values: givenValues(), parameters: called.parameters });
  if (answer.problem) {
    showProblem(answer.problem);
    return;
  }
  drawObjects();
}

async function setBudget(event) {
  event.preventDefault();
  const answer = await command("budget", { ticks: Number(at("budget").value) });
  const step = answer.steps?.at(-1);
  if (step?.means) {
    say(`It was not done: ${step.means}.`);
  }
  at("budget").value = state.budget;
}

// ---- sharing

async function write() {
  const texts = await writeTexts();
  if (texts.problem) {
    say(texts.problem);
  }
  at("share-note").textContent = texts.problem ? "" : `These are the texts of the ${counted(state.steps.length, "command")} so far.`;
  return texts;
}

async function copyLink() {
  const texts = await write();
  if (texts.problem) {
    return;
  }
  const link = await linkOf(texts);
  at("link").value = link;
  const copied = await navigator.clipboard?.writeText(link).then(() => true, () => false);
  const where = `The link ${copied ? "is copied, and " : ""}stands below.`;
  at("share-note").textContent = `${where} Its address is that of this page; in another page it is loaded by pasting it.`;
}

async function saveText(which) {
  const texts = await write();
  if (!texts.problem) {
    save(`page.${which}`, texts[which]);
  }
}

async function loadLink(link) {
  try {
    const texts = await textsIn(link);
    if (texts) {
      return await open(texts);
    }
    say("This is no link of such a page.");
  } catch (error) {
    say(`The link can't be read: ${error.message}`);
  }
  return false;
}

async function useProfile() {
  const answers = state.answers;
  state.answers = at("answers").value;
  const session = sessionAnew();
  if (!(await open({ profile: at("profile").value, session }))) {
    state.answers = answers;
  }
}

async function openSample() {
  const answer = await ask("sample", { name: at("sample").value });
  if (answer.problem) {
    say(answer.problem);
  } else {
    state.chosen = "";
    await open(answer);
  }
}

// ---- the beginning

function listen() {
  const clicks = {
    "use-profile": useProfile, "build": build, "check": check, "add-section": addSection, "discard": discard,
    "write": write, "copy-link": copyLink, "save-profile": () => saveText("profile"), "save-session": () => saveText("session"),
    "load": () => open({ profile: at("share-profile").value, session: at("share-session").value }),
    "anew": () => open({ profile: state.profile, session: sessionAnew() }),
  };
  for (const [id, done] of Object.entries(clicks)) {
    at(id).addEventListener("click", done);
  }
  at("add-module").addEventListener("submit", addModule);
  at("call").addEventListener("submit", call);
  at("budget-form").addEventListener("submit", setBudget);
  at("link-form").addEventListener("submit", (event) => {
    event.preventDefault();
    loadLink(at("link").value);
  });
  at("function").addEventListener("change", drawValues);
  at("find").addEventListener("input", find);
  at("sample").addEventListener("change", openSample);
  window.addEventListener("hashchange", () => location.hash.startsWith("#state=") && loadLink(location.hash));
  window.addEventListener("pagehide", leave);
  window.addEventListener("pageshow", (event) => event.persisted && location.reload());
  whenGone(openAgain);
  whenFollowed(follow);
  setInterval(() => ask("alive"), ALIVE);
}

async function begin() {
  const answer = await ask("begin");
  if (answer.problem) {
    say(answer.problem);
    return;
  }
  listen();
  const names = answer.name ? answer.samples : ["", ...answer.samples];
  fill(at("sample"), ...names.map((it) => element("option", { value: it }, it || "own")));
  if (!(location.hash.startsWith("#state=") && (await loadLink(location.hash)))) {
    await open(answer);
  }
  document.body.dataset.ready = "yes";
}

begin();
