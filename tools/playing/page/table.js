// The table of registrations: a row for each entry, a column for each module. Rows are made in blocks, and only those in and near
// view are there, so that a change shows at once in a long table; a block that is not has its height alone. Roles say what elements
// of a table say by themselves elsewhere.

import { at, counted, element, fill } from "./dom.js";
import { bitsOf, hex, lookOf, moduleOf, sees, state } from "./state.js";

const WORDS = { seen: "seen", next: "seen from the next build on", still: "seen by the built program alone", hidden: "hidden" };
const NAMED = 6; // entries that are named of those which appear or go
const CELLS = new Map(Object.entries(WORDS).map(([look, word]) => [look, element("td", { role: "cell", class: `cell ${look}`, "aria-label": word })]));
const BLOCK = 5; // rows
const TALL = 25; // pixels of a row, as long as it has not been there
const FEW = 40; // rows of a table that is there as a whole
const NEAR = "100px 0px"; // around the view: blocks that come so near are made
let columns = new Map(); // of each module: its place, and where the head tells how many entries it sees
let blocks = [];
const watch = new IntersectionObserver(heedView, { root: at("table-scrolls"), rootMargin: NEAR });

/** Draws the whole table, but for what depends on which module is chosen. */
export function drawTable() {
  columns = new Map(state.modules.map((it, place) => [it.name, { place, sum: element("span", { class: "sum" }) }]));
  at("table").classList.toggle("many", state.modules.length > 6);
  fill(at("table"), headOf());
  find();
}

/** Shows the entries that have the text which is looked for. */
export function find() {
  const wanted = at("find").value.toLowerCase();
  const found = state.entries.map((_, number) => number).filter((number) => textOf(number).includes(wanted));
  drawBlocks(found);
  const all = counted(state.entries.length, "entry", "entries");
  at("registrations-sum").textContent = wanted ? `${found.length} of ${all}` : `${all}, ${counted(state.modules.length, "module")}`;
}

function drawBlocks(found) {
  const starts = found.map((_, place) => place).filter((place) => place % BLOCK === 0);
  watch.disconnect();
  blocks.forEach((it) => it.body.remove());
  blocks = starts.map((start) => newBlock(found.slice(start, start + BLOCK), start));
  blocks.slice(0, FEW / BLOCK).forEach(make);
  at("table").append(...blocks.map((it) => it.body));
  at("table").setAttribute("aria-rowcount", found.length + 1);
  if (found.length > FEW) {
    blocks.forEach((it) => watch.observe(it.body));
  }
}

function textOf(number) {
  const entry = state.entries[number];
  return `${number} ${entry.word} ${entry.told} ${hex(entry.mask)}`.toLowerCase();
}

function headOf() {
  const heads = state.modules.map((it) =>
    element("th", { role: "columnheader", class: "of-module" }, element("span", { class: "name" }, it.name), columns.get(it.name).sum));
  for (const module of state.modules) {
    showSum(module);
  }
  const fixed = [["#", "number"], ["Declaration", "told"], ["Mask, bit 31 to bit 0", "mask-cell"]];
  const firsts = fixed.map(([text, name]) => element("th", { role: "columnheader", class: name }, text));
  return element("thead", { role: "rowgroup" }, element("tr", { role: "row", "aria-rowindex": 1 }, ...firsts, ...heads));
}

// ---- the blocks in view

function newBlock(numbers, start) {
  const it = { numbers, start, rows: [], body: element("tbody", { role: "none" }) };
  leave(it, numbers.length * TALL);
  return it;
}

/** Makes the blocks that come near the view, and leaves of others their height alone, but where their text is selected. */
function heedView(changes) {
  const blockOf = new Map(blocks.map((it) => [it.body, it]));
  for (const { target, isIntersecting, boundingClientRect } of changes) {
    const block = blockOf.get(target);
    const isThere = block?.rows.length > 0;
    if (block && isIntersecting && !isThere) {
      make(block);
    } else if (isThere && !isIntersecting && !getSelection().containsNode(target, true)) {
      leave(block, boundingClientRect.height);
    }
  }
}

function make(block) {
  block.rows = block.numbers.map((number, place) => rowOf(number, block.start + place));
  block.body.style.height = "";
  fill(block.body, ...block.rows.map((it) => it.row));
}

function leave(block, tall) {
  block.rows = [];
  block.body.style.height = `${tall}px`;
  fill(block.body);
}

function rowOf(number, place) {
  const entry = state.entries[number];
  const picture = maskPicture(entry);
  const told = element("th", { role: "rowheader", class: "told" }, element("span", { class: "word" }, entry.word), ` ${entry.told.replace(/^(type|enum) /, "")}`);
  const mask = element("td", { role: "cell", class: "mask-cell" }, element("code", {}, hex(entry.mask)), picture.whole);
  const cells = state.modules.map((module) => CELLS.get(lookOf(entry, module)).cloneNode());
  const firsts = [element("td", { role: "cell", class: "number" }, String(number)), told, mask];
  const row = element("tr", { role: "row", "aria-rowindex": place + 2 }, ...firsts, ...cells);
  paintMask(entry, picture);
  return { row, entry, picture, cells };
}

/** A mask as 32 cells. Those that the chosen module meets are brighter. */
function maskPicture(entry) {
  const bits = bitsOf(entry.mask);
  const cells = bits.map((bit) => element("i", { class: `at-${bit}` }));
  const label = `bits ${bits.join(", ")}`;
  return { cells, bits, whole: element("span", { class: "cells", role: "img", "aria-label": label }, ...cells) };
}

/** Shows of an entry which bits the chosen module meets. */
function paintMask(entry, picture) {
  const met = entry.mask & (moduleOf()?.mask ?? 0);
  picture.bits.forEach((bit, place) => picture.cells[place].classList.toggle("met", Boolean((met >>> bit) & 1)));
}

function paintMasks() {
  blocks.flatMap((it) => it.rows).forEach((it) => paintMask(it.entry, it.picture));
}

/** Shows how a module stands to the entries: those cells change that look otherwise now. */
export function paintModule(module) {
  const { place } = columns.get(module.name);
  for (const { entry, cells } of blocks.flatMap((it) => it.rows)) {
    const look = lookOf(entry, module);
    if (!cells[place].classList.contains(look)) {
      cells[place].className = `cell ${look}`;
      cells[place].setAttribute("aria-label", WORDS[look]);
    }
  }
  showSum(module);
  if (module.name === state.chosen) {
    paintMasks();
  }
}

/** Marks the chosen module's column. */
export function chooseColumn() {
  const index = state.modules.findIndex((it) => it.name === state.chosen);
  const heads = at("table").querySelectorAll("thead .of-module");
  heads.forEach((it, number) => it.classList.toggle("chosen", number === index));
  paintMasks();
  if (index >= 0) {
    bringIntoView(heads[index]);
  }
}

/** Scrolls the table to a column that is out of view, or behind the first columns, which stay where they are. */
function bringIntoView(head) {
  const box = at("table-scrolls");
  const left = head.offsetLeft;
  const stays = at("table").querySelector("thead .number").offsetWidth + at("table").querySelector("thead .told").offsetWidth;
  if (left < box.scrollLeft + stays || left + head.offsetWidth > box.scrollLeft + box.clientWidth) {
    box.scrollLeft = left - (stays + box.clientWidth) / 2;
  }
}

function showSum(module) {
  const seen = state.entries.filter((it) => sees(it, module.mask)).length;
  columns.get(module.name).sum.textContent = `${seen}`;
}

/** Says what appears and what goes as a module's mask changes. */
export function showChange(module, before) {
  const appears = state.entries.filter((it) => sees(it, module.mask) && !sees(it, before));
  const goes = state.entries.filter((it) => !sees(it, module.mask) && sees(it, before));
  const still = module.builtMask === null ? 0 : state.entries.filter((it) => lookOf(it, module) === "still").length;
  const parts = [named("Appears", appears), named("Goes", goes)];
  if (still > 0) {
    const hidden = counted(still, "hidden entry", "hidden entries");
    parts.push(element("p", { class: "still-note" }, `Until its next build the program of ${module.name} still sees ${hidden}.`));
  }
  const nothing = element("p", {}, `${module.name} sees the same under ${hex(module.mask)} as under ${hex(before)}.`);
  fill(at("changed"), ...(appears.length + goes.length ? parts.filter(Boolean) : [nothing]));
}

function named(title, entries) {
  if (entries.length === 0) {
    return null;
  }
  const names = entries.slice(0, NAMED).map((it) => element("code", {}, it.told));
  const more = entries.length > NAMED ? [`and ${entries.length - NAMED} more`] : [];
  const listed = [...names, ...more].flatMap((it) => [it, " "]);
  return element("p", { class: title.toLowerCase() }, element("b", {}, `${title}: `), ...listed);
}
