// A module without a problem.
import { readFile } from "node:fs/promises";

export class Store {
  static #limit = 1_000;
  #rows = new Map();

  async load(path) {
    const text = await readFile(path, "utf8");
    for (const row of JSON.parse(text)?.rows ?? []) {
      if (row.id === null || this.#rows.size >= Store.#limit) continue;
      this.#rows.set(row.id, { ...row, read: true });
    }
    return `${this.#rows.size} rows of ${path}`;
  }

  *names(pattern = /^[a-z]+$/iu) {
    for (const [id, { name = id }] of this.#rows) {
      if (pattern.test(name)) yield name;
    }
  }
}
