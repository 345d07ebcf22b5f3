export async function load(open, name) {
  debugger;
  const text = await open(name);
  return text?.split("\n") ?? [];
}

export class Rows {
  #rows = new Map();

  add(row) {
    if (this.#rows.has(row.id)) debugger;
    this.#rows.set(row.id, row);
  }
}
