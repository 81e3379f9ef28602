// The table of all blobs, a page at a time. The worker sorts; a heading is a button.
import { element } from "./dom.js";
import { TYPES } from "./format.js";
import { number } from "./numbers.js";
import { NAMES } from "./states.js";
import { STATE_WORDS } from "./texts.js";

const PAGE = 25;
const yes = (there) => (there ? "yes" : "no");
// Each column: the worker's name of it, its heading, and how its cells are.
const COLUMNS = [
  ["blob", "Blob", ({ blob }) => [blob]],
  ["offset", "Offset", ({ offset }) => [offset]],
  ["bytes", "Bytes", ({ bytes }) => [bytes]],
  ["kind", "Type", ({ kind }) => TYPES[kind]],
  ["precision", "Precision", ({ precision }) => [precision]],
  ["count", "Vertices", ({ count }) => [count]],
  ["size", "Size", ({ size }) => yes(size)],
  ["box", "Box", ({ box }) => yes(box)],
  ["state", "In this scan", ({ state }) => STATE_WORDS[NAMES[state]]],
  ["read", "Bytes read", ({ read }) => [read]],
];

export class BlobTable {
  // `ask(wish)` asks the worker for rows, `pick(blob)` picks one, and `caption` says what the table has.
  constructor(table, caption, buttons, ask, pick) {
    Object.assign(this, { table, caption, buttons, ask, pick });
    this.clear();
    this.heads = COLUMNS.map(([name, heading, cell]) => this.head(name, heading, cell));
    table.tHead.rows[0].replaceChildren(...this.heads);
    this.turns("first", () => 0);
    this.turns("back", () => this.from - PAGE);
    this.turns("next", () => this.from + PAGE);
    this.turns("last", () => Math.floor((this.total - 1) / PAGE) * PAGE);
  }

  // A button that leads nowhere keeps the focus, which one that is disabled would lose.
  turns(name, to) {
    this.buttons[name].onclick = () => this.buttons[name].ariaDisabled !== "true" && this.turn(to());
  }

  // The rows of the layer before go at once.
  clear() {
    Object.assign(this, { column: "blob", down: false, from: 0, total: 0, picked: null });
    this.table.tBodies[0].replaceChildren();
    this.buttons.pages.textContent = "";
  }

  get order() {
    return { column: this.column, down: this.down };
  }

  // Marks a blob's row, and turns to the page with it.
  choose(blob, position) {
    this.picked = blob;
    if (blob === null) this.mark();
    else this.turn(Math.floor(position / PAGE) * PAGE);
  }

  mark() {
    for (const row of this.table.tBodies[0].rows) {
      if (Number(row.dataset.blob) === this.picked && this.picked !== null) row.setAttribute("aria-current", "true");
      else row.removeAttribute("aria-current");
    }
  }

  // The row that is marked, where the page of the table has it.
  get marked() {
    return this.table.querySelector("tr[aria-current]");
  }

  head(name, heading, cell) {
    const head = element("th"), button = element("button", heading);
    Object.assign(head, { scope: "col", className: Array.isArray(cell({ state: 0 })) && name !== "state" ? "number" : "" });
    head.dataset.column = button.dataset.column = name;
    button.type = "button";
    button.onclick = () => this.sort(name);
    head.append(button);
    return head;
  }

  sort(column) {
    this.down = this.column === column ? !this.down : false;
    this.column = column;
    this.turn(0);
  }

  turn(from) {
    this.from = Math.max(0, from);
    this.refresh();
  }

  refresh() {
    this.ask({ ...this.order, from: this.from, count: PAGE });
  }

  show({ rows, total, blobs, wish }) {
    this.total = total;
    for (const head of this.heads) {
      const sorted = head.dataset.column === wish.column;
      head.toggleAttribute("aria-sort", sorted);
      if (sorted) head.setAttribute("aria-sort", wish.down ? "descending" : "ascending");
    }
    this.table.tBodies[0].replaceChildren(...rows.map((row) => this.row(row)));
    const few = total < blobs ? ` The table has the first ${number(total)} of ${number(blobs)}.` : "";
    this.caption.textContent = `What the header of each blob says, and what the scan did with it. A heading sorts; a row selects its shape on the map.${few}`;
    this.mark();
    const pages = total ? `${number(wish.from + 1)} to ${number(wish.from + rows.length)} of ${number(total)}` : "no blobs";
    // A screen reader says each text that is written, and all scans ask for rows.
    if (this.buttons.pages.textContent !== pages) this.buttons.pages.textContent = pages;
    const off = { first: wish.from === 0, back: wish.from === 0, next: wish.from + PAGE >= total, last: wish.from + PAGE >= total };
    for (const [name, is] of Object.entries(off)) this.buttons[name].setAttribute("aria-disabled", String(is));
  }

  row(values) {
    const row = element("tr");
    row.dataset.blob = values.blob;
    row.onclick = () => this.pick(values.blob);
    COLUMNS.forEach(([name, , cell]) => {
      const made = cell(values);
      if (name === "state") row.append(this.done(made, values.state));
      else if (name === "blob") row.append(this.picks(values.blob));
      else row.append(Array.isArray(made) ? element("td", number(made[0]), "number") : element("td", made));
    });
    return row;
  }

  done(text, state) {
    const cell = element("td", text);
    cell.prepend(element("i", undefined, `mark ${NAMES[state]}`));
    return cell;
  }

  picks(blob) {
    const cell = element("td", undefined, "number"), button = element("button", number(blob));
    button.type = "button";
    button.setAttribute("aria-label", `Select blob ${number(blob)} on the map`);
    cell.append(button);
    return cell;
  }
}
