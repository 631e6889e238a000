// Asks the server. Commands of this page go one after the other.

import { state } from "./state.js";

const MOST = 4 << 20; // bytes of a request, of which the server takes no more
let last = Promise.resolve();
let openAgain = async () => false; // has another engine where that of the page was ended
let opening = null; // that being done

export function whenGone(handler) {
  openAgain = handler;
}

/** Does an operation, and gives its answer. What can't be done, or not be asked, has a `problem`. */
export async function ask(operation, fields = {}) {
  const answer = await asked(operation, fields);
  if (!answer.gone) {
    return answer;
  }
  opening ??= openAgain().finally(() => {
    opening = null;
  });
  return (await opening) ? asked(operation, fields) : answer;
}

async function asked(operation, fields) {
  const body = new Blob([JSON.stringify({ page: state.page, ...fields })]);
  if (body.size > MOST) {
    return { problem: `These texts are too long: they have ${body.size.toLocaleString("en")} bytes in all, and may have ${MOST.toLocaleString("en")}.` };
  }
  try {
    const answer = await fetch(operation, { method: "POST", headers: { "Content-Type": "application/json" }, body });
    return answer.ok ? await answer.json() : { problem: await answer.text() };
  } catch (error) {
    return { problem: `The server does not answer (${error.message}). Is tools/play.py still running?` };
  }
}

/** Does an operation once those before it are done. */
export function askInOrder(operation, fields = {}) {
  last = last.then(() => ask(operation, fields));
  return last;
}

/** Ends this page's engine, as the page is left. */
export function leave() {
  if (state.page) {
    const body = JSON.stringify({ page: state.page });
    fetch("close", { method: "POST", headers: { "Content-Type": "application/json" }, body, keepalive: true });
  }
}
