// The whole state as two texts and as a link.

import { at, element } from "./dom.js";
import { ask } from "./server.js";
import { hex, isEdited, state, textsOf } from "./state.js";

const MARK = "#state=";
const MOST = 8 << 20; // bytes that a link may be unpacked to

/** The state as a profile, a session, and the lines that are printed. */
export async function shared() {
  const edited = state.modules.map((it) => it.name).filter(isEdited);
  const drafts = Object.fromEntries(edited.map((name) => [name, textsOf(name)]));
  return ask("share", { drafts });
}

/** Shows the texts, where they can be changed. */
export async function writeTexts() {
  const texts = await shared();
  if (!texts.problem) {
    at("share-profile").value = texts.profile;
    at("share-session").value = texts.session;
    at("lines").textContent = texts.lines.map((it) => `${it}\n`).join("");
  }
  return texts;
}

/** Has the browser save a text as a file. */
export function save(name, text) {
  const link = element("a", { href: URL.createObjectURL(new Blob([text], { type: "text/plain" })), download: name });
  link.click();
  setTimeout(() => URL.revokeObjectURL(link.href), 10000);
}

/** A link that has the texts in it. */
export async function linkOf(texts) {
  const packed = await packedText(JSON.stringify({ profile: texts.profile, session: texts.session }));
  return `${location.origin}${location.pathname}${MARK}${packed}`;
}

/** The texts in a link, or null where there are none. */
export async function textsIn(link) {
  const place = link.indexOf(MARK);
  if (place < 0) {
    return null;
  }
  const texts = JSON.parse(await unpackedText(link.slice(place + MARK.length)));
  return typeof texts.profile === "string" && typeof texts.session === "string" ? texts : null;
}

async function packedText(text) {
  const bytes = await through(new TextEncoder().encode(text), new CompressionStream("deflate-raw"));
  const letters = Array.from(bytes, (it) => String.fromCharCode(it)).join("");
  return btoa(letters).replaceAll("+", "-").replaceAll("/", "_").replaceAll("=", "");
}

async function unpackedText(packed) {
  const letters = atob(packed.replaceAll("-", "+").replaceAll("_", "/"));
  const bytes = Uint8Array.from(letters, (it) => it.charCodeAt(0));
  return new TextDecoder().decode(await through(bytes, new DecompressionStream("deflate-raw")));
}

/** What a stream makes of bytes, up to a bound. */
async function through(bytes, stream) {
  const parts = [];
  let size = 0;
  const reader = new Blob([bytes]).stream().pipeThrough(stream).getReader();
  for (let part = await reader.read(); !part.done; part = await reader.read()) {
    parts.push(part.value);
    size += part.value.length;
    if (size > MOST) {
      throw new Error("it is too long");
    }
  }
  return new Uint8Array(await new Blob(parts).arrayBuffer());
}

/** A session that makes, builds and binds the modules as they are now, and does nothing else. */
export function sessionAnew() {
  const head = state.answers === "asrun" ? [] : [`#answers ${state.answers}`];
  const made = state.modules.flatMap((it) => [`module ${it.name} ${hex(it.mask)}`, ...sectionsOf(it), `build ${it.name}`]);
  const bound = state.modules.flatMap((it) =>
    it.imports.flatMap((one, number) => (one.bound ? [`bind ${it.name} ${number} ${one.bound[0]} ${one.bound[1]}`] : [])));
  return [...head, `budget ${state.budget}`, ...made, ...bound].map((it) => `${it}\n`).join("");
}

function sectionsOf(module) {
  return textsOf(module.name).map((text) => {
    const lines = (text.endsWith("\n") ? text.slice(0, -1) : text).split("\n");
    return [`section ${module.name} ${lines.length}`, ...lines].join("\n");
  });
}
