// The chosen module's imports with their bindings, and all bindings as arrows between modules.

import { at, drawn, element, fill } from "./dom.js";
import { moduleOf, state } from "./state.js";

/** Draws the imports of the chosen module. `bind` and `unbind` are given an import's number. */
export function drawImports(bind, unbind) {
  const module = moduleOf();
  const imports = module ? module.imports : [];
  const none = module && module.builtMask !== null ? "It imports nothing." : "It has no program. What it imports shows once it is built.";
  const rows = imports.map((it, number) => importOf(it, number, bind, unbind));
  fill(at("imports"), rows.length ? element("ul", { class: "imports" }, ...rows) : element("p", { class: "quiet" }, none));
  drawArrows();
}

function importOf(it, number, bind, unbind) {
  const others = state.modules.filter((other) => other.functions.length > 0);
  const chosen = it.bound ?? suggested(it, others);
  const exporter = element("select", {}, ...others.map((other) => choice(other.name, chosen[0])));
  const exported = element("select", {});
  const offer = () => {
    const functions = others.find((other) => other.name === exporter.value)?.functions ?? [];
    const like = functions.find((one) => formOf(one.declaration) === formOf(chosen[1]));
    fill(exported, ...functions.map((one) => choice(one.declaration, like?.declaration)));
  };
  exporter.addEventListener("change", offer);
  offer();
  const whether = it.bound ? " is bound" : " is not bound";
  const title = element("p", {}, element("b", {}, `Import ${number} `), element("code", {}, it.declaration), whether);
  const from = element("label", {}, `Module for import ${number} `, exporter);
  const to = element("label", {}, `Function for import ${number} `, exported);
  const press = element("button", { type: "button", click: () => bind(number, exporter.value, exported.value) }, `Bind import ${number}`);
  const parts = others.length ? [from, to, press] : [];
  if (it.bound) {
    parts.push(element("button", { type: "button", click: () => unbind(number) }, `Unbind import ${number}`));
  }
  return element("li", { class: it.bound ? "bound" : "unbound" }, title, element("div", { class: "line" }, ...parts));
}

function choice(text, chosen) {
  const it = element("option", { value: text }, text);
  it.selected = text === chosen;
  return it;
}

/** The module after `from`, and its function of the import's form; else any module. */
function suggested(it, others) {
  const named = others.find((other) => other.name === it.exporter) ?? others[0];
  const like = named?.functions.find((one) => formOf(one.declaration) === formOf(it.declaration));
  return [named?.name ?? "", like?.declaration ?? ""];
}

/** A declaration without the names of its parameters, in which white space is nothing. */
function formOf(declaration) {
  const [front, listed = ""] = declaration.split(/[()]/);
  return [front, ...listed.split(",")].map((it, place) => (place === 0 ? it.replace(/\s+/g, " ").trim() : typeIn(it))).join(";");
}

function typeIn(parameter) {
  let isNamed = false;
  const words = parameter.match(/\w+|[@&+]/g) ?? [];
  return words.filter((it) => {
    const isName = /^\w/.test(it) && !["const", "in", "out", "inout"].includes(it);
    const stays = !isName || !isNamed;
    isNamed ||= isName;
    return stays;
  }).join(" ");
}

const WIDE = 620;
const ROW = 30;
const BOX = 150;
const MOST_IN_BOX = 20; // letters
const MOST_ON_ARROW = 44;

/** Draws modules that import on the left, those that they are bound to on the right, and the bindings between. */
function drawArrows() {
  const lines = state.modules.flatMap((module) =>
    module.imports.map((it) => ({ from: module.name, to: it.bound?.[0] ?? null, text: it.declaration, wanted: it.exporter })));
  if (lines.length === 0) {
    fill(at("arrows"));
    return;
  }
  const lefts = [...new Set(lines.map((it) => it.from))];
  const rights = [...new Set(lines.map((it) => it.to ?? `${it.wanted} ?`))];
  const tall = Math.max(lines.length, rights.length) * ROW + 10;
  const label = lines.map((it) => `${it.from} imports ${it.text}, ${it.to ? `bound to ${it.to}` : "not bound"}`).join("; ");
  const svg = drawn("svg", { class: "arrows", viewBox: `0 0 ${WIDE} ${tall}`, role: "img", "aria-label": label }, headOfArrow());
  const leftAt = new Map(lefts.map((name) => [name, middle(lines, (it) => it.from === name)]));
  const rightAt = new Map(rights.map((name, place) => [name, ((place + 0.5) * (tall - 10)) / rights.length + 5]));
  lines.forEach((it, number) => svg.append(...arrow(it, number, rightAt.get(it.to ?? `${it.wanted} ?`))));
  leftAt.forEach((y, name) => svg.append(...box(0, y, name)));
  rightAt.forEach((y, name) => svg.append(...box(WIDE - BOX, y, name)));
  fill(at("arrows"), svg);
}

function middle(lines, isOwn) {
  const own = lines.map((it, number) => (isOwn(it) ? number : -1)).filter((it) => it >= 0);
  return ((own[0] + own[own.length - 1]) / 2 + 0.5) * ROW + 5;
}

function headOfArrow() {
  const head = drawn("marker", { id: "head", viewBox: "0 0 8 8", refX: 7, refY: 4, markerWidth: 7, markerHeight: 7, orient: "auto" });
  head.append(drawn("path", { d: "M0 0 8 4 0 8z" }));
  return drawn("defs", {}, head);
}

function arrow(it, number, to) {
  const from = (number + 0.5) * ROW + 5;
  const end = WIDE - BOX - 3;
  const path = `M${BOX} ${from} H${end - 90} C${end - 40} ${from} ${end - 50} ${to} ${end} ${to}`;
  const line = drawn("path", { class: it.to ? "bound" : "unbound", d: path, "marker-end": "url(#head)" });
  return [line, drawn("text", { x: BOX + 8, y: from - 4 }, cut(it.text, MOST_ON_ARROW))];
}

function box(x, y, name) {
  const frame = drawn("rect", { x, y: y - 12, width: BOX, height: 24, rx: 5 });
  return [frame, drawn("text", { class: "box", x: x + BOX / 2, y: y + 4 }, cut(name, MOST_IN_BOX))];
}

function cut(text, most) {
  return text.length > most ? `${text.slice(0, most - 1)}…` : text;
}
