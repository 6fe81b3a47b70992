// What all parts of the page share. All that comes from outside is put in as text, never as HTML.

const TEXTS = JSON.parse(document.getElementById("texts").textContent);

export const byId = (id) => document.getElementById(id);
export const text = (key, values = {}) => (TEXTS[key] ?? key).replace(/\{(\w+)\}/g, (whole, name) => String(values[name] ?? whole));
export const textParts = (key, values) => (TEXTS[key] ?? key).split(/\{(\w+)\}/).map((part, place) => (place % 2 ? values[part] ?? `{${part}}` : part));
export const named = (key, word) => TEXTS[key + word] ?? word;

export function element(name, content = "", properties = {}) {
  const made = Object.assign(document.createElement(name), properties);
  made.append(...(Array.isArray(content) ? content : [content instanceof Node ? content : String(content)]));
  return made;
}

export function button(words, act, { label = words, key = "", className = "quiet" } = {}) {
  const made = element("button", words, { type: "button", className });
  if (label !== words) made.setAttribute("aria-label", label);
  if (key) made.dataset.key = key;
  made.addEventListener("click", () => act(made));
  return made;
}

export function keepingFocus(show) { // What is shown again doesn't take the keyboard from whoever is in it.
  const key = document.activeElement?.dataset.key;
  show();
  if (key && document.activeElement === document.body) document.querySelector(`[data-key="${CSS.escape(key)}"]`)?.focus({ preventScroll: true });
}

export const say = (words) => { byId("said").textContent = words; };

// Wagons as people write their numbers, places with their names, moments in the zone.

export const wagonText = (number) => number.replace(/^(\d{4})(\d{4})(\d{3})(\d)$/, "$1 $2 $3-$4");

const names = new Map();
export function setNames(places) {
  names.clear();
  for (const [code, name] of places) names.set(code, name);
}
export const nameOf = (place) => names.get(place) ?? "";
export const placeText = (place) => nameOf(place) ? `${place} ${nameOf(place)}` : place;

let clock = null;
export let zone = "";
export function setZone(given) {
  if ((given ?? "") === zone) return;
  zone = given ?? "";
  shownMoments.clear();
  clock = null;
  if (!zone) return;
  const fields = { year: "numeric", month: "2-digit", day: "2-digit", hour: "2-digit", minute: "2-digit", second: "2-digit" };
  try {
    clock = new Intl.DateTimeFormat("en-GB", { ...fields, hourCycle: "h23", timeZone: zone, timeZoneName: "longOffset" });
  } catch {
    zone = ""; // This browser doesn't know it.
  }
}

const shownMoments = new Map();
const MOST_MOMENTS = 20000;
export function momentText(moment) { // As clocks in the zone show it, with their offset; without a zone as the program prints it.
  if (!clock || !moment || Number.isNaN(Date.parse(moment))) return moment;
  if (!shownMoments.has(moment)) {
    if (shownMoments.size > MOST_MOMENTS) shownMoments.clear();
    const { year, month, day, hour, minute, second, timeZoneName } = Object.fromEntries(
      clock.formatToParts(new Date(moment)).map(({ type, value }) => [type, value]));
    const offset = timeZoneName.replace("GMT", "") || "+00:00";
    shownMoments.set(moment, `${year}-${month}-${day} ${hour}:${minute}${second === "00" ? "" : `:${second}`} ${offset}`);
  }
  return shownMoments.get(moment);
}
export const dayOf = (moment) => (clock ? momentText(moment) : moment).slice(0, 10);

export function momentElement(moment) {
  const made = element("time", momentText(moment), { dateTime: moment });
  if (clock && moment) made.title = moment;
  return made;
}

// The service.

export class NotAnswered extends Error {
  constructor(words, status) {
    super(words);
    this.status = status;
  }
}

async function answered(answer) { // What isn't plain text is a proxy's, and says nothing of the office.
  if (answer.ok) return answer;
  const isOurs = answer.headers.get("Content-Type")?.startsWith("text/plain");
  throw new NotAnswered(isOurs ? (await answer.text()).trim() : text("no_answer", { status: answer.status }), isOurs ? answer.status : 0);
}

export const ask = async (path, signal = undefined) => answered(await fetch(path, { credentials: "same-origin", signal }));
export const askJson = async (path, signal = undefined) => (await ask(path, signal)).json();
export const post = async (path, body) => answered(await fetch(path, { method: "POST", body, credentials: "same-origin" }));
export const send = async (line) => JSON.parse(await (await post("/lines", line + "\n")).text()); // A line's reply, with its number.

export async function doing(work) {
  try {
    await work();
  } catch (fault) {
    say(text("not_sent", { words: fault.message }));
  }
}

const entries = new Map();
export function explained(code) { // The manual's entry of a refusal.
  if (!entries.has(code)) {
    entries.set(code, askJson(`/explain/${encodeURIComponent(code)}`));
    entries.get(code).catch(() => entries.delete(code));
  }
  return entries.get(code);
}

export const wordsOf = (reply) => reply.split("\n", 1)[0].split(" ").slice(1);

export async function refusalText(words) { // ["refused", "25", "wagon", "12"]: the meaning of 12, which the field has.
  return text("refused", await explained(words[1] === "25" ? words[3] : words[1]));
}

// Files.

const cell = (value) => /[",\r\n]/.test(String(value)) ? `"${String(value).replaceAll('"', '""')}"` : String(value);

export function saveCsv(name, heads, rows) {
  const lines = [heads, ...rows].map((row) => row.map(cell).join(","));
  const url = URL.createObjectURL(new Blob([lines.join("\n") + "\n"], { type: "text/csv;charset=utf-8" }));
  element("a", "", { href: url, download: name }).click();
  setTimeout(() => URL.revokeObjectURL(url), 10000);
}
