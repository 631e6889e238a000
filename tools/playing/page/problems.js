// The errors of the chosen module's sections, and for each what its mask hides.

import { at, counted, element, fill } from "./dom.js";
import { goTo } from "./editors.js";
import { bitsOf, hex, moduleOf, state } from "./state.js";

/** Draws the list. `setBit` is given a bit that the module is to have. */
export function drawProblems(setBit, note = "") {
  const problems = state.problems.get(state.chosen) ?? [];
  const list = element("ol", { class: "problems" }, ...problems.map((it) => problemOf(it, setBit)));
  const denials = problems.filter((it) => it.denials.length > 0).length;
  const which = problems.length > 1 ? ` ${denials} of them` : "";
  const reason = denials > 0 ? `,${which} because a mask hides what is named` : "";
  const sum = problems.length ? `${counted(problems.length, "error")}${reason}.` : note;
  fill(at("problems"), element("p", { class: "quiet" }, sum), list);
}

function problemOf(problem, setBit) {
  const place = `${problem.section}:${problem.line}:${problem.column}`;
  const label = `Go to section ${problem.section}, line ${problem.line}, column ${problem.column}`;
  const go = element("button", { type: "button", class: "place", "aria-label": label, title: label, click: () => goTo(problem) }, place);
  const hints = problem.hints.map((it) => element("p", { class: "hint" }, it));
  const denials = problem.denials.map((it) => denialOf(it, setBit));
  const kind = problem.denials.length > 0 ? "denied" : "wrong";
  const message = element("p", {}, go, " ", problem.message, " ", element("code", { class: "kind" }, problem.kind));
  return element("li", { class: kind }, message, ...denials, ...hints);
}

function denialOf(denial, setBit) {
  const bits = bitsOf(denial.mask);
  const any = bits.length > 1 ? `Any one of the bits ${bits.join(", ")} would do` : `Bit ${bits[0]} would do`;
  const told = element("p", {}, "The host has ", element("code", {}, denial.told), `, entry ${denial.entry}.`);
  const [its, own] = [denial.mask, denial.module_mask].map((it) => element("code", {}, hex(it)));
  const masks = element("p", {}, "Its mask is ", its, ", the module's ", own, `: no bit in common. ${any}.`);
  const missing = bits.filter((bit) => !((moduleOf().mask >>> bit) & 1));
  const buttons = missing.map((bit) =>
    element("button", { type: "button", class: "small", click: () => setBit(bit) }, `Set bit ${bit} of ${state.chosen}`));
  return element("div", { class: "denial" }, told, masks, element("div", { class: "line" }, ...buttons));
}
