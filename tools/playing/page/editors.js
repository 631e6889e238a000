// An editor for each section of the chosen module, with marks where its errors are.

import { at, element, fill } from "./dom.js";
import { moduleOf, state, textsOf } from "./state.js";

const LINES_LEAST = 6;
const LINES_MOST = 26;
const MOST_SOURCE = 200; // characters of a line that a trace tells
let shown = []; // the editors, in the order of their sections

/** Draws the editors of the chosen module. `edited` is called when a text changes, `remove` with the number of a section. */
export function drawEditors(edited, remove) {
  const module = moduleOf();
  const texts = module ? textsOf(module.name) : [];
  shown = texts.map((text, number) => editorOf(module.name, text, number, texts.length > 1, edited, remove));
  fill(at("editors"), ...shown.map((it) => it.whole));
  showMarks();
}

function editorOf(name, text, number, canGo, edited, remove) {
  const numbers = element("pre", { class: "numbers", "aria-hidden": "true" });
  const marks = element("pre", { class: "marks", "aria-hidden": "true" });
  const id = `section-${number}`;
  const area = element("textarea", { id, spellcheck: "false", wrap: "off", autocapitalize: "off", autocomplete: "off" });
  area.value = text;
  const lit = element("div", { class: "lit", "aria-hidden": "true", hidden: true });
  const it = { numbers, marks, area, number, lit, line: 0 };
  area.addEventListener("input", () => {
    textsOf(name)[number] = area.value;
    fit(it);
    edited();
  });
  area.addEventListener("scroll", () => follow(it));
  const title = [element("label", { for: id }, `Section ${number} of ${name}`)];
  if (canGo) {
    title.push(element("button", { type: "button", class: "small", click: () => remove(number) }, `Remove section ${number}`));
  }
  const body = element("div", { class: "text" }, lit, marks, area);
  it.whole = element("div", { class: "section" }, element("div", { class: "line" }, ...title), element("div", { class: "editor" }, numbers, body));
  fit(it);
  return it;
}

/** Gives an editor the height of its text, and its lines their numbers. */
function fit(it) {
  const lines = it.area.value.split("\n").length;
  it.area.rows = Math.min(Math.max(lines + 1, LINES_LEAST), LINES_MOST);
  it.numbers.textContent = Array.from({ length: lines }, (_, line) => line + 1).join("\n");
  fill(it.marks, it.area.value);
  follow(it);
}

function follow(it) {
  it.marks.scrollTop = it.numbers.scrollTop = it.area.scrollTop;
  it.marks.scrollLeft = it.area.scrollLeft;
  it.lit.hidden = it.line === 0;
  if (it.line > 0) {
    const style = getComputedStyle(it.area);
    const top = parseFloat(style.paddingTop) + (it.line - 1) * parseFloat(style.lineHeight) - it.area.scrollTop;
    it.lit.style.transform = `translateY(${top}px)`;
  }
}

/** Marks the places of the chosen module's errors, where the texts are those that were judged. */
export function showMarks() {
  const problems = state.problems.get(state.chosen) ?? [];
  for (const it of shown) {
    const own = problems.filter((problem) => problem.section === it.number && problem.end <= it.area.value.length);
    fill(it.marks, ...markedParts(it.area.value, own));
    const isLit = state.lit?.module === state.chosen && state.lit.section === it.number;
    it.line = isLit ? lineOf(it.area.value, state.lit) : 0;
    follow(it);
  }
}

function markedParts(text, problems) {
  const parts = [];
  let from = 0;
  for (const problem of [...problems].sort((one, other) => one.start - other.start)) {
    const start = Math.min(problem.start, text.length - 1);
    const end = Math.max(problem.end, start + 1);
    if (start >= from) {
      const kind = problem.denials.length > 0 ? "denied" : "wrong";
      parts.push(text.slice(from, start), element("mark", { class: kind }, text.slice(start, end)));
      from = end;
    }
  }
  return [...parts, text.slice(from)];
}

/** The line of a level in a text, from 1; 0 where it is not there any more. */
function lineOf(text, level) {
  const lines = text.split("\n");
  const isIt = (line) => (level.source.length < MOST_SOURCE ? lines[line - 1] === level.source : lines[line - 1].startsWith(level.source));
  const found = lines.map((_, place) => place + 1).filter(isIt);
  const far = (line) => Math.abs(line - level.line);
  return found.reduce((best, line) => (best === 0 || far(line) < far(best) ? line : best), 0);
}

/** Lights the line of a level in the chosen module, and puts the cursor there. Gives whether it is there. */
export function showLine(level) {
  showMarks();
  const it = shown[level.section];
  if (!it || it.line === 0) {
    return false;
  }
  const lines = it.area.value.split("\n");
  const start = lines.slice(0, it.line - 1).join("\n").length + (it.line > 1 ? 1 : 0) + level.before;
  it.area.focus({ preventScroll: true });
  it.area.setSelectionRange(start, start + level.size);
  showInside(it);
  it.lit.scrollIntoView({ block: "center" });
  return true;
}

/** Scrolls an editor so that its lit line is in it. */
function showInside(it) {
  const tall = parseFloat(getComputedStyle(it.area).lineHeight);
  const top = (it.line - 1) * tall;
  if (top < it.area.scrollTop || top + 2 * tall > it.area.scrollTop + it.area.clientHeight) {
    it.area.scrollTop = top - it.area.clientHeight / 2;
  }
  follow(it);
}

/** Puts the cursor to a place, with the word there selected. */
export function goTo(problem) {
  const it = shown[problem.section];
  if (it) {
    it.area.focus();
    it.area.setSelectionRange(problem.start, problem.end);
    it.area.scrollIntoView({ block: "nearest" });
  }
}
