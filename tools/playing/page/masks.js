// The modules to choose from, and the bits of the chosen one's mask.

import { at, counted, element, fill, setText } from "./dom.js";
import { hex, moduleOf, state } from "./state.js";

/** Draws a choice for each module. `choose` is given the name that is chosen. */
export function drawTabs(choose) {
  fill(at("tabs"), ...state.modules.map((it) => tabOf(it, choose)));
  if (state.modules.length === 0) {
    fill(at("tabs"), element("span", { class: "quiet" }, "There is none yet: give one a name."));
  }
}

function tabOf(module, choose) {
  const radio = element("input", { type: "radio", name: "module", value: module.name, change: () => choose(module.name) });
  radio.checked = module.name === state.chosen;
  const mask = element("code", { "data-mask-of": module.name }, hex(module.mask));
  return element("label", { class: "tab" }, radio, element("span", {}, module.name, " ", mask));
}

/** Draws the 32 bits of the chosen module's mask. `flip` is given the number of a bit. */
export function drawBits(flip) {
  const module = moduleOf();
  const bits = Array.from({ length: 32 }, (_, place) => 31 - place);
  fill(at("bits"), ...(module ? bits.map((bit) => bitOf(module, bit, flip)) : []));
  showMask();
}

function bitOf(module, bit, flip) {
  const entries = state.entries.filter((it) => (it.mask >>> bit) & 1).length;
  const label = `Bit ${bit} of ${module.name}, in the masks of ${counted(entries, "entry", "entries")}`;
  const box = element("input", { type: "checkbox", "aria-label": label, "data-bit": bit, change: () => flip(bit) });
  return element("label", { class: entries ? "bit" : "bit unused", title: label }, box, element("span", {}, String(bit)));
}

/** Shows the chosen module's mask as it is. */
export function showMask() {
  const module = moduleOf();
  setText(at("mask-of"), module ? module.name : "no module");
  setText(at("mask-hex"), module ? hex(module.mask) : "");
  for (const box of at("bits").querySelectorAll("input")) {
    box.checked = Boolean((module.mask >>> Number(box.dataset.bit)) & 1);
  }
  if (module) {
    setText(document.querySelector(`[data-mask-of="${CSS.escape(module.name)}"]`), hex(module.mask));
  }
}
