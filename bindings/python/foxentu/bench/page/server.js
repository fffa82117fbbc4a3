// Requests to the bench. The token stands in the page's own address, so paths are relative.

export class Refused extends Error {
  constructor(told) {
    super(told.words);
    Object.assign(this, { words: told.words, number: told.number, row: told.row, column: told.column });
  }
}

async function answered(response) {
  const told = await response.json();
  if (!response.ok) throw new Refused(told);
  return told;
}

async function sent(path, settings) {
  try {
    return await fetch(path, settings);
  } catch {
    throw new Refused({ words: 'The bench does not answer: it may have ended. Edits made so far are kept beside the case.' });
  }
}

export async function ask(name, words = {}) {
  return answered(await sent(`api/${name}?${new URLSearchParams(words)}`));
}

// changes go one after the other, in the order in which they were made
let last = Promise.resolve();

export function tell(name, body) {
  const settings = { method: 'POST', headers: { 'Content-Type': 'application/json' }, body: JSON.stringify(body) };
  const next = last.then(() => sent(`api/${name}`, settings)).then(answered);
  last = next.catch(() => undefined);
  return next;
}
