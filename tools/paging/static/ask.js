// Asks the server: an answer is a row of parts, which come one behind the other.

/** Calls `told` with each part of the answer; gives whether all of it came. */
export async function ask(name, question, told, signal) {
  try {
    const answer = await fetch(name, { method: "POST", body: JSON.stringify(question), signal });
    if (!answer.ok) return false;
    await readParts(answer.body.getReader(), told);
    return true;
  } catch (error) {
    if (error.name !== "AbortError") console.warn(`${name}: ${error.message}`);
    return false;
  }
}

async function readParts(reader, told) {
  const decoder = new TextDecoder();
  let left = "";
  for (;;) {
    const { done, value } = await reader.read();
    if (done) return;
    const lines = (left + decoder.decode(value, { stream: true })).split("\n");
    left = lines.pop();
    for (const line of lines) told(JSON.parse(line));
  }
}

/** The first part of an answer; null where none came. */
export async function askOnce(name, question) {
  let first = null;
  await ask(name, question, (part) => { first ??= part; });
  return first;
}

/** One question at a time: while one is under way, the last of those that come waits for it, and the others are dropped. */
export class Latest {
  constructor(work) {
    this.work = work;
    this.waits = null;
    this.isBusy = false;
  }

  async put(question) {
    this.waits = question;
    if (this.isBusy) return;
    this.isBusy = true;
    while (this.waits !== null) {
      const next = this.waits;
      this.waits = null;
      await this.work(next);
    }
    this.isBusy = false;
  }
}
