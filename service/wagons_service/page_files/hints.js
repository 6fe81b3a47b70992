// What a person should know of an order before it is sent, at its fields, from the state that the page has. It only tells: what
// is right the program says.

import { momentText, text } from "./parts.js";

const PAUSE = 300; // Milliseconds without a key.
const HAS_ZONE = /(Z|[+-]\d\d:\d\d)$/i; // Other moments the program refuses.

const hints = {
  place(order, { office, network }) { // The map's network may be older than the office.
    const isKnown = network.journal === office.journal && (office.network === null || network.network === office.network);
    const isThere = network.places.some(([code, , , isOutside]) => code === order.place && !isOutside);
    return order.place && isKnown && !isThere ? text("hint_place", order) : "";
  },
  classes(order, { office }) {
    const there = new Set(office.wagons.map((wagon) => wagon.class));
    const missing = order.classes.filter((name) => !there.has(name));
    return missing.length ? text("hint_classes", { classes: missing.join(", ") }) : "";
  },
  load(order, { office }) {
    const loads = office.wagons.filter((wagon) => order.classes.includes(wagon.class)).map((wagon) => wagon.load);
    const most = Math.max(...loads);
    return loads.length && Number(order.load) > most ? text("hint_load", { load: order.load, most }) : "";
  },
  latest(order, { newest }) {
    const isMoment = HAS_ZONE.test(order.latest) && !Number.isNaN(Date.parse(order.latest));
    return isMoment && Date.parse(order.latest) < Date.parse(newest) ? text("hint_latest", { last: momentText(newest) }) : "";
  },
};

export class OrderHints {
  constructor(form, stateNow) {
    Object.assign(this, { form, stateNow, telling: null });
    form.addEventListener("input", () => this.tellSoon(PAUSE));
    form.addEventListener("change", () => this.tell());
    form.addEventListener("reset", () => this.tellSoon(0)); // The fields are empty behind it.
  }

  tellSoon(after) {
    clearTimeout(this.telling);
    this.telling = setTimeout(() => this.tell(), after);
  }

  tell() { // Also when the office has changed.
    const state = this.stateNow();
    const value = (name) => this.form.elements[name].value.trim();
    const order = { place: value("place"), load: value("load"), latest: value("latest"), classes: value("classes").split(",").map((word) => word.trim()).filter(Boolean) };
    for (const shown of this.form.querySelectorAll("[data-hint]")) {
      const words = state.office.journal ? hints[shown.dataset.hint](order, state) : "";
      if (shown.textContent !== words) shown.textContent = words;
    }
  }
}
