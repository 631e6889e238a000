// What the page knows: the registrations, the modules, what was done, and what was edited.

export const state = {
  page: "",
  profile: "",
  answers: "asrun",
  entries: [],
  types: new Map(), // of each driver: the type whose objects it keeps
  modules: [],
  chosen: "",
  budget: 0,
  limits: {},
  groups: [], // of entries: the names of those that can be removed
  used: {},
  objects: [],
  alive: 0,
  steps: [],
  texts: new Map(), // of each module: its sections as they stand in the editors
  tried: new Map(), // of each module: its sections as they were last built
  problems: new Map(), // of each module: what is wrong with its sections
  lit: null, // the level of a trace whose line is lit
};

/** The module of a name, or the one that is chosen. */
export function moduleOf(name = state.chosen) {
  return state.modules.find((it) => it.name === name);
}

/** Whether a mask meets all that an entry wants to be met. */
export function sees(entry, mask) {
  return entry.masks.length > 0 && entry.masks.every((it) => (it & mask) !== 0);
}

/** How a module stands to an entry. */
export function lookOf(entry, module) {
  const now = sees(entry, module.mask);
  const built = module.builtMask === null ? now : sees(entry, module.builtMask);
  return now ? (built ? "seen" : "next") : built ? "still" : "hidden";
}

export function hex(mask) {
  return (mask >>> 0).toString(16).padStart(8, "0");
}

/** The numbers of a mask's bits, from 0. */
export function bitsOf(mask) {
  return Array.from({ length: 32 }, (_, bit) => bit).filter((bit) => (mask >>> bit) & 1);
}

/** A module's sections as they stand in the editors. */
export function textsOf(name) {
  if (!state.texts.has(name)) {
    state.texts.set(name, [""]);
  }
  return state.texts.get(name);
}

/** Whether a module's sections differ from those that were last built. */
export function isEdited(name) {
  const tried = state.tried.get(name) ?? [];
  const texts = textsOf(name);
  const isEmpty = tried.length === 0 && texts.every((it) => it === "");
  return !isEmpty && (texts.length !== tried.length || texts.some((it, number) => ended(it) !== tried[number]));
}

/** A section as the engine is given it: its last line ends. */
export function ended(text) {
  return text.endsWith("\n") ? text : `${text}\n`;
}
