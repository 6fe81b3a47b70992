// A table of which only those rows are drawn at which one looks. All rows have one height.

import { element, keepingFocus, saveCsv, text } from "./parts.js";

const ROW = 30; // As the style sheet has it; a table may have higher ones.
const MORE = 8; // So many rows are drawn above and below.
const STEPS = { ArrowDown: 1, ArrowUp: -1 };

export class Table {
  // A column has a `name`, `of`, which gives a row's value, by which it is sorted, and `shown`, what is seen of it: a text or an
  // element. `words` is the text where an element is seen. `key` gives what a row is known by; `choose` is told of the chosen one.
  constructor(holder, { id, label, columns, key, choose = null, rowClass = () => "", none = "", sorted = "", height = ROW }) {
    Object.assign(this, { holder, columns, key, choose, rowClass, none, height });
    this.rows = [];
    this.view = [];
    this.sought = [];
    this.keeps = () => true;
    this.column = columns.find((column) => column.name === sorted) ?? null;
    this.isDown = false;
    this.active = "";
    this.chosen = "";
    this.drawn = "";
    this.haystacks = new WeakMap();
    this.make(id, label);
  }

  make(id, label) {
    this.made = new Map(); // The rows that are drawn.
    this.above = this.space();
    this.below = this.space();
    this.body = element("tbody", [this.above, this.below]);
    this.body.style.setProperty("--row", `${this.height}px`);
    this.heads = element("tr", this.columns.map((column) => this.head(column)));
    this.table = element("table", [element("colgroup", this.columns.map((column) => {
      const col = element("col", []);
      col.style.width = `${column.width}rem`;
      return col;
    })), element("thead", [this.heads]), this.body], { id });
    this.table.style.minWidth = `${this.columns.reduce((sum, column) => sum + column.width, 0)}rem`;
    this.table.setAttribute("role", "grid");
    this.table.setAttribute("aria-label", label);
    this.note = element("p", "", { className: "none" });
    this.holder.classList.add("rows");
    this.holder.tabIndex = -1;
    this.holder.replaceChildren(this.table, this.note);
    this.holder.addEventListener("scroll", () => this.drawSoon(), { passive: true });
    this.holder.addEventListener("keydown", (event) => this.press(event));
    this.body.addEventListener("click", (event) => this.click(event));
    this.body.addEventListener("focusin", (event) => this.enter(event));
    new ResizeObserver(() => this.drawSoon()).observe(this.holder);
  }

  head(column) {
    const words = column.head ?? text(column.name);
    const sorting = element("button", words, { type: "button", title: text("sort", { column: words }) });
    sorting.dataset.column = column.name;
    sorting.addEventListener("click", () => {
      this.isDown = this.column === column && !this.isDown;
      this.column = column;
      this.arrangeFromTop();
    });
    return element("th", [sorting], { scope: "col" });
  }

  setRows(rows) {
    this.rows = rows;
    this.arrange();
  }

  search(words) { // Each word must be somewhere in a row.
    this.sought = words.toLowerCase().split(/\s+/).filter(Boolean);
    this.arrangeFromTop();
  }

  filter(keeps) {
    this.keeps = keeps;
    this.arrangeFromTop();
  }

  arrangeFromTop() { // What was looked at may be elsewhere now.
    this.holder.scrollTop = 0;
    this.arrange();
  }

  words(row, column) {
    return String(column.words ? column.words(row) : column.shown ? column.shown(row) : column.of(row));
  }

  haystack(row) {
    if (!this.haystacks.has(row)) {
      const words = this.columns.map((column) => `${this.words(row, column)} ${column.of(row)}`);
      this.haystacks.set(row, words.join(" ").toLowerCase());
    }
    return this.haystacks.get(row);
  }

  arrange() { // Which rows are there, and in which order.
    this.view = this.rows.filter((row) => this.keeps(row) && this.sought.every((word) => this.haystack(row).includes(word)));
    if (this.column) {
      const { of } = this.column;
      const way = this.isDown ? -1 : 1;
      this.view.sort((one, other) => {
        const [a, b] = [of(one), of(other)];
        return (a < b ? -1 : a > b ? 1 : 0) * way;
      });
    }
    [...this.heads.cells].forEach((cell, place) => {
      const sort = this.columns[place] !== this.column ? "none" : this.isDown ? "descending" : "ascending";
      cell.setAttribute("aria-sort", sort);
    });
    this.table.setAttribute("aria-rowcount", this.view.length + 1);
    this.note.textContent = this.view.length ? "" : this.none;
    this.drawn = "";
    this.draw();
    this.told?.(this.view.length, this.rows.length);
  }

  drawSoon() {
    this.drawing ??= requestAnimationFrame(() => {
      this.drawing = null;
      this.draw();
    });
  }

  draw() {
    if (!this.holder.clientHeight) return; // Nobody sees it now.
    const most = Math.ceil(this.holder.clientHeight / this.height) + 2 * MORE;
    const first = Math.max(0, Math.min(Math.floor(this.holder.scrollTop / this.height) - MORE, this.view.length - most));
    const last = Math.min(this.view.length, first + most);
    const range = `${first} ${last}`;
    if (range === this.drawn) return;
    this.drawn = range;
    const before = this.made;
    this.made = new Map();
    const rows = this.view.slice(first, last).map((row, place) => this.row(row, first + place, before));
    this.above.firstChild.style.height = `${first * this.height}px`;
    this.below.firstChild.style.height = `${(this.view.length - last) * this.height}px`;
    const hadFocus = this.body.contains(document.activeElement);
    keepingFocus(() => this.put([this.above, ...rows, this.below]));
    this.markActive(first);
    // Whoever scrolled away from the row with the keyboard has it still in the table.
    if (hadFocus && !this.body.contains(document.activeElement)) (this.activeRow() ?? this.holder).focus({ preventScroll: true });
  }

  put(rows) { // What hasn't changed stays where it is, so that a click that has begun on it ends on it.
    const now = [...this.body.children];
    if (now.length === rows.length && rows.every((row, place) => now[place] === row || !row.isConnected)) {
      rows.forEach((row, place) => now[place] === row || now[place].replaceWith(row));
    } else {
      this.body.replaceChildren(...rows);
    }
  }

  space() {
    const made = element("tr", [element("td", "", { colSpan: this.columns.length })], { className: "space" });
    made.setAttribute("aria-hidden", "true");
    return made;
  }

  row(row, place, before) {
    const key = this.key(row);
    const told = JSON.stringify([place, this.rowClass(row), key === this.chosen, this.columns.map((column) => this.words(row, column))]);
    const known = before.get(key);
    const made = known?.told === told ? known.made : this.newRow(row, key, place);
    this.made.set(key, { told, made });
    return made;
  }

  newRow(row, key, place) {
    const cells = this.columns.map((column) => {
      const content = column.shown ? column.shown(row) : column.of(row);
      const cell = element("td", content, { className: column.className ?? "" });
      if (!(content instanceof Node)) cell.title = String(content);
      return cell;
    });
    const made = element("tr", cells, { className: this.rowClass(row), tabIndex: -1 });
    made.dataset.row = key;
    made.dataset.key = `${this.table.id} ${key}`;
    made.setAttribute("aria-rowindex", place + 2);
    made.setAttribute("aria-selected", key === this.chosen ? "true" : "false");
    return made;
  }

  rowOf(key) {
    return key ? this.body.querySelector(`[data-row="${CSS.escape(key)}"]`) : null;
  }

  activeRow() {
    return this.rowOf(this.active);
  }

  markActive(first) { // One row is reached by the tabulator, and all others by arrows.
    const row = this.activeRow() ?? this.body.querySelectorAll("[data-row]")[first ? MORE : 0];
    this.body.querySelectorAll('[tabindex="0"]').forEach((one) => { one.tabIndex = -1; });
    if (row) row.tabIndex = 0;
  }

  enter(event) { // The keyboard is in a row.
    const row = event.target.closest("[data-row]");
    if (!row || row.dataset.row === this.active && row.tabIndex === 0) return;
    this.body.querySelectorAll('[tabindex="0"]').forEach((one) => { one.tabIndex = -1; });
    this.active = row.dataset.row;
    row.tabIndex = 0;
  }

  press(event) {
    if (event.target.closest("thead, button, a")) return;
    if (["Enter", " "].includes(event.key) && this.active) {
      event.preventDefault();
      this.pick(this.active);
      return;
    }
    const page = Math.max(1, Math.floor(this.holder.clientHeight / this.height) - 2);
    const now = this.view.findIndex((row) => this.key(row) === this.active);
    const goal = { Home: 0, End: this.view.length - 1, PageDown: now + page, PageUp: now - page }[event.key] ?? (event.key in STEPS ? now + STEPS[event.key] : null);
    if (goal === null || !this.view.length) return;
    event.preventDefault();
    this.goTo(Math.max(0, Math.min(this.view.length - 1, goal)));
  }

  goTo(place) {
    this.active = this.key(this.view[place]);
    const top = place * this.height;
    const room = this.holder.clientHeight - this.heads.offsetHeight - this.height;
    if (top < this.holder.scrollTop) this.holder.scrollTop = top;
    else if (top > this.holder.scrollTop + room) this.holder.scrollTop = top - room;
    this.drawn = "";
    this.draw();
    this.activeRow()?.focus({ preventScroll: true });
  }

  click(event) {
    const row = event.target.closest("tr[data-row]");
    if (!row || event.target.closest("button, a")) return;
    this.active = row.dataset.row;
    this.pick(row.dataset.row);
  }

  pick(key) {
    const row = this.view.find((one) => this.key(one) === key);
    if (row) this.choose?.(row);
  }

  mark(key) { // The chosen row.
    if (key === this.chosen) return;
    this.chosen = key;
    this.drawn = "";
    this.draw();
  }

  save(name) {
    saveCsv(name, this.columns.map((column) => column.name), this.view.map((row) => this.columns.map((column) => column.saved ? column.saved(row) : column.of(row))));
  }
}
