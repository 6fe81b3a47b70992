// The map: places where they lie, lines between them, and where promised wagons go. It is moved by one transform; only what
// has the same size on the screen, as letters, is drawn again when a movement is over.

import { keepingFocus, nameOf, placeText, text } from "./parts.js";

const WORLD = 1000; // The longer side of the network, in its own units.
const EDGE = 40; // Pixels that stay free round it.
const CLOSEST = 80; // So many times nearer than where all is seen.
const STILL = 120; // So many milliseconds without a movement end it.
const REACH = 14; // A click so many pixels from a place is meant for it.
const MOVED = 4; // Pixels from which on a press is a movement.
const MOST_LABELS = 90;
const MOST_KILOMETRES = 70;
const LETTER = 11; // Pixels.
const APART = 30; // Places that lie nearer to each other, in pixels, are drawn smaller.
const SMALLEST = 0.3;
const KEYS = { ArrowRight: [1, 0], ArrowLeft: [-1, 0], ArrowUp: [0, -1], ArrowDown: [0, 1] };
const ZOOMS = { "+": 1.5, "=": 1.5, "-": 1 / 1.5 };
const BEND = 0.12; // How far an arrow is bent away from the lines, as a part of its length.

function svg(name, attributes = {}, words = "") {
  const made = document.createElementNS("http://www.w3.org/2000/svg", name);
  for (const [key, value] of Object.entries(attributes)) made.setAttribute(key, value);
  made.textContent = words;
  return made;
}

const size = (place) => place.wagons.length || place.orders.length ? Math.min(16, 4 + 1.6 * Math.sqrt(place.wagons.length + place.lacks)) : 2;
const kind = (place) => (place.lacks ? "short" : place.free ? "free" : place.promised || place.orders.length ? "promised" : place.wagons.length ? "busy" : "empty")
  + (place.isOutside ? " outside" : "");

export class OfficeMap {
  constructor(holder, choose) {
    Object.assign(this, { holder, choose, x: 0, y: 0, k: 1, network: null, points: new Map(), places: new Map(), moves: [], circles: new Map(), pressed: new Map() });
    this.told = []; // All moves, whether their places are drawn or not.
    this.active = "";
    this.chosen = "";
    this.isMoved = false; // Until someone moves it, all of it is seen.
    this.drawnNetwork = "";
    this.parts = Object.fromEntries(["lines", "ways", "places", "moves", "labels"].map((name) => [name, svg("g", { class: name })]));
    this.world = svg("g");
    this.world.append(...Object.values(this.parts));
    const tip = svg("marker", { id: "tip", viewBox: "0 0 8 8", refX: 8, refY: 4, markerWidth: 5, markerHeight: 5, orient: "auto" });
    tip.append(svg("path", { d: "M0 0L8 4L0 8z" }));
    const definitions = svg("defs");
    definitions.append(tip);
    this.picture = svg("svg", { role: "group", "aria-label": text("map_label") });
    this.picture.append(definitions, this.world);
    holder.replaceChildren(this.picture);
    this.listen();
  }

  listen() {
    const on = (name, act) => this.picture.addEventListener(name, act);
    on("pointerdown", (event) => this.press(event));
    on("pointermove", (event) => this.move(event));
    for (const name of ["pointerup", "pointercancel"]) on(name, (event) => this.release(event));
    on("click", (event) => this.click(event));
    on("keydown", (event) => this.type(event));
    on("focusin", (event) => this.enter(event.target.dataset.place));
    this.picture.addEventListener("wheel", (event) => {
      event.preventDefault();
      this.zoom(Math.exp(-event.deltaY * (event.ctrlKey ? 0.01 : 0.002)), ...this.at(event));
    }, { passive: false });
    new ResizeObserver(() => (this.isMoved ? this.settle() : this.fit())).observe(this.holder);
  }

  // What is drawn.

  setNetwork(network) {
    const told = JSON.stringify([network.places, network.lines]);
    if (told === this.drawnNetwork) return;
    this.drawnNetwork = told;
    this.shownMoves = "";
    this.network = network;
    this.setPoints(network.places.filter(([, , at]) => at));
    const drawn = network.lines.filter(([from, to]) => from !== to && this.points.has(from) && this.points.has(to));
    this.lines = drawn.map(([from, to, km, , isBoth]) => ({ from: this.points.get(from), to: this.points.get(to), km, isBoth }));
    // All lines are one path, which is drawn faster than each by itself.
    const path = (lines) => svg("path", { d: lines.map(({ from, to }) => `M${from}L${to}`).join("") });
    this.parts.lines.replaceChildren(path(this.lines.filter((line) => line.isBoth)));
    this.parts.ways.replaceChildren(path(this.lines.filter((line) => !line.isBoth)));
    keepingFocus(() => this.setCircles());
    if (this.isMoved) this.settle();
    else this.fit();
  }

  setPoints(places) {
    const xs = places.map(([, , at]) => at[0]);
    const ys = places.map(([, , at]) => at[1]);
    const [left, right, low, high] = [Math.min(...xs), Math.max(...xs), Math.min(...ys), Math.max(...ys)];
    const scale = WORLD / (Math.max(right - left, high - low) || 1);
    this.points = new Map(places.map(([code, , [x, y]]) => [code, [+((x - left) * scale).toFixed(2), +((high - y) * scale).toFixed(2)]]));
    this.extent = [Math.max((right - left) * scale, 1) || 1, Math.max((high - low) * scale, 1) || 1];
  }

  setCircles() {
    this.circles = new Map([...this.points].map(([code, [cx, cy]]) => [code, svg("circle", { cx, cy, tabindex: -1, role: "button", "data-place": code, "data-key": `place ${code}` })]));
    this.parts.places.replaceChildren(...this.circles.values());
    if (!this.circles.has(this.active)) this.active = this.circles.keys().next().value ?? "";
    this.circles.get(this.active)?.setAttribute("tabindex", 0);
    this.showPlaces();
  }

  setState(places, moves) {
    this.places = places;
    this.told = moves;
    this.showPlaces();
    this.settle();
  }

  showPlaces() { // Only what has changed.
    for (const [code, circle] of this.circles) {
      const place = this.places.get(code);
      if (!place) continue;
      const label = text("place_label", { place: placeText(code), wagons: place.wagons.length, free: place.free, orders: place.orders.length, lacks: place.lacks });
      const shown = `${kind(place)}|${size(place)}|${label}|${code === this.chosen}`;
      if (circle.shown === shown) continue;
      circle.shown = shown;
      circle.pixels = size(place);
      circle.setAttribute("class", kind(place) + (code === this.chosen ? " chosen" : ""));
      circle.setAttribute("aria-label", label);
      circle.setAttribute("r", this.radius(circle.pixels) / this.k);
    }
  }

  mark(code) { // The chosen place.
    this.chosen = code;
    this.showPlaces();
  }

  // Where one looks.

  get room() {
    return [this.holder.clientWidth, this.holder.clientHeight];
  }

  fit() {
    const [width, height] = this.room;
    if (!this.points.size || !width) return;
    const [wide, high] = this.extent;
    this.whole = this.k = Math.min((width - 2 * EDGE) / wide, (height - 2 * EDGE) / high);
    this.x = (width - wide * this.k) / 2;
    this.y = (height - high * this.k) / 2;
    this.isMoved = false;
    this.show();
    this.settle();
  }

  show() {
    this.world.setAttribute("transform", `translate(${this.x} ${this.y}) scale(${this.k})`);
  }

  showSoon() {
    this.isMoved = true;
    this.showing ??= requestAnimationFrame(() => {
      this.showing = null;
      this.show();
    });
    clearTimeout(this.settling);
    this.settling = setTimeout(() => this.settle(), STILL);
  }

  zoom(times, x = this.room[0] / 2, y = this.room[1] / 2) {
    if (!this.whole) return; // Nothing is drawn yet.
    const k = Math.max(this.whole / 2, Math.min(this.whole * CLOSEST, this.k * times));
    this.x = x - (x - this.x) * k / this.k;
    this.y = y - (y - this.y) * k / this.k;
    this.k = k;
    this.showSoon();
  }

  seen([x, y], edge = 0) {
    const [width, height] = this.room;
    const [left, top] = [this.x + x * this.k, this.y + y * this.k];
    return left >= -edge && top >= -edge && left <= width + edge && top <= height + edge;
  }

  // What has one size on the screen.

  settle() {
    if (!this.points.size || !this.room[0]) return;
    this.showMoves();
    if (this.settled !== this.k) {
      this.settled = this.k;
      for (const name of ["lines", "ways", "moves", "places"]) this.parts[name].setAttribute("stroke-width", (name === "moves" ? 1.8 * this.part : 1) / this.k);
      this.parts.ways.setAttribute("stroke-dasharray", `${6 / this.k} ${3 / this.k}`);
      this.parts.moves.setAttribute("stroke-dasharray", `${5 / this.k} ${3 / this.k}`);
      this.parts.labels.setAttribute("font-size", LETTER / this.k);
      this.parts.labels.setAttribute("stroke-width", 3 / this.k);
      for (const circle of this.circles.values()) circle.setAttribute("r", this.radius(circle.pixels ?? 2) / this.k);
    }
    this.parts.labels.replaceChildren(...this.labels());
  }

  get part() { // Of its size, so that places that lie close together are seen.
    const apart = Math.sqrt(this.extent[0] * this.extent[1] / this.points.size) * this.k;
    return Math.max(SMALLEST, Math.min(1, apart / APART));
  }

  radius(pixels) {
    return Math.max(1.2, pixels * this.part);
  }

  bent({ from, to }) {
    const [[ax, ay], [bx, by]] = [this.points.get(from), this.points.get(to)];
    return [(ax + bx) / 2 - (by - ay) * BEND, (ay + by) / 2 + (bx - ax) * BEND];
  }

  showMoves() {
    const told = JSON.stringify(this.told);
    if (told === this.shownMoves) return;
    this.shownMoves = told;
    this.moves = this.told.filter(({ from, to }) => this.points.has(from) && this.points.has(to));
    this.parts.moves.replaceChildren(...this.moves.map((move) =>
      svg("path", { d: `M${this.points.get(move.from)}Q${this.bent(move)} ${this.points.get(move.to)}`, "marker-end": "url(#tip)" })));
  }

  labels() {
    const taken = new Set(); // Fields of the screen that have letters.
    const labels = [];
    const put = (x, y, words, name, most) => {
      const wide = words.length * LETTER * 0.55;
      const [left, top] = [this.x + x * this.k - (name.endsWith("end") ? wide : 0), this.y + y * this.k];
      const fields = [];
      const row = Math.floor(top / 8);
      for (let field = Math.floor(left / 12); field <= Math.floor((left + wide) / 12); field += 1) fields.push(`${field} ${row}`, `${field} ${row - 1}`);
      if (labels.length >= most || fields.some((field) => taken.has(field))) return;
      fields.forEach((field) => taken.add(field));
      labels.push(svg("text", { x, y, class: name }, words));
    };
    const seen = [...this.points].filter(([, at]) => this.seen(at)).map(([code, at]) => ({ code, at, place: this.places.get(code) })).filter(({ place }) => place);
    const most = Math.round(MOST_LABELS * this.part);
    const weight = ({ code, place }) => (code === this.chosen ? 1e6 : 0) + 100 * place.lacks + place.wagons.length + place.orders.length;
    seen.sort((one, other) => weight(other) - weight(one));
    for (const { code, at: [x, y], place } of seen) {
      const words = (nameOf(code) || code) + (place.wagons.length ? `: ${place.wagons.length}` : "");
      const aside = (this.radius(size(place)) + 3) / this.k;
      // At the right edge it stands to the left of its place.
      const isEnd = this.x + (x + aside) * this.k + words.length * LETTER * 0.6 > this.room[0];
      put(isEnd ? x - aside : x + aside, y + 4 / this.k, words, isEnd ? "name end" : "name", most);
    }
    const near = this.lines.map(({ from, to, km }) => ({ at: [(from[0] + to[0]) / 2, (from[1] + to[1]) / 2], km })).filter(({ at }) => this.seen(at));
    if (near.length <= MOST_KILOMETRES) near.forEach(({ at: [x, y], km }) => put(x, y, `${km} km`, "km", most + MOST_KILOMETRES));
    for (const move of this.moves.filter((one) => one.wagons > 1)) {
      const at = this.bent(move);
      if (this.seen(at)) put(...at, String(move.wagons), "count", 2 * most + MOST_KILOMETRES);
    }
    return labels;
  }

  // Pointers: one moves the map, two move it nearer; and keys.

  at(event) {
    const { left, top } = this.holder.getBoundingClientRect();
    return [event.clientX - left, event.clientY - top];
  }

  press(event) {
    if (event.button) return;
    this.pressed.set(event.pointerId, { at: this.at(event), from: this.at(event) });
    if (this.pressed.size === 1) this.hasMoved = false;
  }

  move(event) {
    const pointer = this.pressed.get(event.pointerId);
    if (!pointer) return;
    const now = this.at(event);
    if (!this.hasMoved && Math.hypot(now[0] - pointer.from[0], now[1] - pointer.from[1]) < MOVED) return;
    if (!this.hasMoved) this.picture.setPointerCapture?.(event.pointerId);
    this.hasMoved = true;
    const other = [...this.pressed].find(([id]) => id !== event.pointerId)?.[1].at;
    const before = pointer.at;
    pointer.at = now;
    if (other) {
      const far = (one) => Math.hypot(one[0] - other[0], one[1] - other[1]) || 1;
      this.zoom(far(now) / far(before), ...other);
    } else {
      this.x += now[0] - before[0];
      this.y += now[1] - before[1];
      this.showSoon();
    }
  }

  release(event) {
    this.pressed.delete(event.pointerId);
  }

  click(event) {
    if (this.hasMoved && event.detail) return; // It was the end of a movement.
    const [x, y] = this.at(event);
    let nearest = event.target.dataset.place ?? "";
    let least = REACH;
    for (const [code, [px, py]] of nearest ? [] : this.points) {
      const far = Math.hypot(this.x + px * this.k - x, this.y + py * this.k - y);
      if (far < least) [nearest, least] = [code, far];
    }
    if (nearest) this.choose(nearest);
  }

  type(event) {
    if (event.key in ZOOMS) this.zoom(ZOOMS[event.key]);
    else if (event.key === "0") this.fit();
    else if (["Enter", " "].includes(event.key) && event.target.dataset.place) this.choose(event.target.dataset.place);
    else if (event.key in KEYS && event.target.dataset.place) this.goOn(event.target.dataset.place, KEYS[event.key]);
    else return;
    event.preventDefault();
  }

  goOn(from, [right, down]) { // To the nearest place in that direction.
    const [x, y] = this.points.get(from);
    let [next, least] = ["", Infinity];
    for (const [code, [px, py]] of this.points) {
      const along = (px - x) * right + (py - y) * down;
      const aside = Math.abs((px - x) * down) + Math.abs((py - y) * right);
      if (code !== from && along > 0 && along >= aside && along + aside < least) [next, least] = [code, along + aside];
    }
    if (next) this.circles.get(next).focus();
  }

  enter(code) { // The keyboard is at a place.
    if (!code) return;
    this.circles.get(this.active)?.setAttribute("tabindex", -1);
    this.active = code;
    this.circles.get(code).setAttribute("tabindex", 0);
    const at = this.points.get(code);
    if (this.seen(at, -EDGE / 2)) return;
    const [width, height] = this.room;
    this.x = width / 2 - at[0] * this.k;
    this.y = height / 2 - at[1] * this.k;
    this.showSoon();
  }
}
