// Small helpers for elements. All text goes into the page as text.

export const at = (id) => document.getElementById(id);

/** A new element. Attributes that are functions are listeners; one that is true stands alone, one that is false doesn't. */
export function element(tag, attributes = {}, ...children) {
  const it = document.createElement(tag);
  for (const [name, value] of Object.entries(attributes)) {
    if (typeof value === "function") {
      it.addEventListener(name, value);
    } else if (value === true) {
      it.setAttribute(name, "");
    } else if (value !== false && value !== undefined) {
      it.setAttribute(name, value);
    }
  }
  it.append(...children);
  return it;
}

const DRAWN = "http://www.w3.org/2000/svg";

/** A new element of a drawing. */
export function drawn(tag, attributes = {}, ...children) {
  const it = document.createElementNS(DRAWN, tag);
  for (const [name, value] of Object.entries(attributes)) {
    it.setAttribute(name, value);
  }
  it.append(...children);
  return it;
}

/** Gives an element a text. Where it has that already it is not laid out again. */
export function setText(it, text) {
  if (it.textContent !== text) {
    it.textContent = text;
  }
}

/** Puts these children in the place of those that an element has. */
export function fill(it, ...children) {
  it.replaceChildren(...children);
}

/** A number with its noun. */
export function counted(number, noun, nouns = `${noun}s`) {
  return `${number.toLocaleString("en")} ${number === 1 ? noun : nouns}`;
}
