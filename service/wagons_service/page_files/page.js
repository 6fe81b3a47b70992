// The page of the fleet office: what the office's sheet says now, and what a dispatcher sends. What is right the program says.

import {
  NotAnswered, ask, askJson, button, byId, dayOf, doing, element, explained, keepingFocus, momentElement, momentText, nameOf, named, placeText, post,
  refusalText, say, send, setNames, setZone, text, wagonText, wordsOf, zone,
} from "./parts.js";
import { OrderHints } from "./hints.js";
import { OfficeMap } from "./map.js";
import { Notes } from "./notes.js";
import { OPEN, addWants, isFree, movesOf, placesOf, readSheet } from "./sheet.js";
import { Table } from "./table.js";

const WAIT = 250; // Milliseconds, as all others here.
const MOST_WAIT = 3000;
const AGAIN = 2000; // Where no events come, or the last answer failed, it is asked again after so long.
const LATER = 1500; // What is printed from the journal may be older than the sheet, and is then asked for again.
const SLOW = 4000;
const LOST = 8000; // What gives no answer for so long is asked again, since the connection may be gone without a sign.
const ASLEEP = 5000;
const NO_SIGN = 20000; // Whoever follows the events gives a sign each 5 seconds.
const EVENTS = "wagons events";
const MOST_REASONS = 200;
const ROSTER = "wagon,class,load,status,place,moment";

let office = { journal: 0, line: 0, version: 0, wagons: [], orders: [], network: null, byWagon: new Map(), byOrder: new Map(), refused: 0 };
let network = { places: [], lines: [], network: null, waits: false, words: "" };
let places = new Map();
let wants = new Map(); // Of each order its classes and its load.
let movements = { journal: 0, line: -1, byWagon: new Map() }; // Of promised wagons.
let askingMovements = null;
let stuck = { journal: 0, refused: -1, line: 0, byWagon: new Map() }; // Wagons with refused messages behind the last accepted one.
let askingStuck = null;
const notes = new Notes((kind, id) => choose(kind, id));
const orderHints = new OrderHints(byId("order-form"), () => ({ office, network, newest: newest() }));
let plan = null;
let refusals = [];
let chosen = { kind: "", id: "" };
let shownChosen = "";

// Tables.

const yes = (is) => (is ? text("yes") : "");
const placeColumns = (of) => [
  { name: "place", width: 5.5, of },
  { name: "name", width: 8, of: (row) => nameOf(of(row)) },
];
const moment = (name, width = 11.5) => ({ name, width, of: (row) => row[name] ?? "", shown: (row) => momentElement(row[name] ?? ""), words: (row) => momentText(row[name] ?? "") });
const wagonColumn = { name: "wagon", width: 9.5, of: (row) => row.wagon, shown: (row) => wagonText(row.wagon) };
const list = (name, width) => ({ name, width, of: (row) => row[name].join(" "), shown: (row) => row[name].map(wagonText).join(", ") });
const plain = (name, width, className = "") => ({ name, width, className, of: (row) => row[name] ?? "" });
const number = (name, width) => plain(name, width, "number");

const tables = {
  short: new Table(byId("short-rows"), {
    id: "short-table", label: text("short"), key: (row) => row.order, sorted: "latest", none: text("none_short"), choose: (row) => choose("order", row.order),
    columns: [plain("order", 4.6), number("lacks", 2.7), { name: "name", head: text("place"), width: 4.9, of: (row) => nameOf(row.place) || row.place }, moment("latest", 9.2)] }),
  late: new Table(byId("late-rows"), {
    id: "late-table", label: text("late"), key: (row) => row.wagon, none: text("none_late"), choose: (row) => choose("wagon", row.wagon),
    columns: [{ ...wagonColumn, width: 7.6 }, plain("order", 5.4), plain("margin", 8)] }),
  stuck: new Table(byId("stuck-rows"), {
    id: "stuck-table", label: text("stuck"), key: (row) => row.wagon, none: text("none_stuck"), choose: (row) => choose("wagon", row.wagon),
    columns: [{ ...wagonColumn, width: 7.2 }, { name: "status", width: 5.6, of: (row) => named("status_", row.status) },
      { name: "name", head: text("place"), width: 4.6, of: (row) => nameOf(row.place) || row.place }, { ...number("refused", 3.6), head: text("times") }] }),
  orders: new Table(byId("orders-rows"), {
    id: "orders-table", label: text("orders"), key: (row) => row.order, none: text("no_orders"), choose: (row) => choose("order", row.order),
    rowClass: (row) => (row.lacks ? "waiting" : ""),
    columns: [plain("order", 7.5), number("lacks", 4), number("wants", 4), ...placeColumns((row) => row.place),
      { name: "classes", width: 9, of: (row) => row.classes.join(" "), shown: (row) => row.classes.join(", ") }, number("load", 6.5), moment("latest"),
      number("penalty", 6), { name: "state", width: 6, of: (row) => named("state_", row.state) }, list("promised", 12), list("filled", 12)] }),
  wagons: new Table(byId("wagons-rows"), {
    id: "wagons-table", label: text("wagons"), key: (row) => row.wagon, sorted: "wagon", none: text("none_found"), choose: (row) => choose("wagon", row.wagon),
    rowClass: (row) => (isFree(row) ? "free" : ""),
    columns: [wagonColumn, plain("class", 6), number("load", 6.5), { name: "status", width: 9, of: (row) => named("status_", row.status) },
      ...placeColumns((row) => row.place), moment("last"), { name: "held", width: 4, of: (row) => yes(row.held) }, plain("promise", 7.5)] }),
  places: new Table(byId("places-rows"), {
    id: "places-table", label: text("places"), key: (row) => row.place, sorted: "place", none: text("none_found"), choose: (row) => choose("place", row.place),
    rowClass: (row) => (row.lacks ? "waiting" : ""),
    columns: [...placeColumns((row) => row.place), { name: "wagons", width: 5, className: "number", of: (row) => row.wagons.length }, number("free", 4.5), number("promised", 5.5),
      { name: "orders", width: 5.5, className: "number", of: (row) => row.orders.length }, number("lacks", 4.5)] }),
  promises: new Table(byId("promises-rows"), {
    id: "promises-table", label: text("promises"), key: (row) => row.wagon, sorted: "order", none: text("no_promises"), choose: (row) => choose("wagon", row.wagon),
    columns: [wagonColumn, plain("class", 6), plain("order", 7.5), { name: "from", width: 10, of: (row) => placeText(row.from) }, { name: "to", width: 10, of: (row) => placeText(row.to) },
      number("km", 4), moment("arrival"), moment("latest"), plain("margin", 9), plain("status", 9)] }),
};

function listen(name, keeps) { // A table's search, filter and file.
  const table = tables[name];
  const search = byId(`${name}-search`);
  const filter = byId(`${name}-filter`);
  search?.addEventListener("input", () => table.search(search.value));
  filter?.addEventListener("change", () => table.filter(keeps[filter.value]));
  if (filter) table.filter(keeps[filter.value]);
  byId(`${name}-save`)?.addEventListener("click", () => table.save(`${name}.csv`));
  table.told = (shown, all) => { byId(`${name}-shown`).textContent = text("rows_shown", { shown, all }); };
}

const FILTERS = {
  orders: { open: (order) => OPEN.includes(order.state), short: (order) => order.lacks > 0 && OPEN.includes(order.state), all: () => true },
  wagons: { all: () => true, free: isFree, promised: (wagon) => Boolean(wagon.promise), held: (wagon) => wagon.held },
  places: { used: (place) => place.wagons.length || place.orders.length, short: (place) => place.lacks > 0, all: () => true },
  promises: {},
};

// Parts of the middle.

let wanted = "map"; // It is hidden where the token may not send.

function showTab(name) {
  wanted = name;
  const known = document.querySelector(`[role="tab"][data-tab="${CSS.escape(name)}"]`);
  const tab = known?.offsetParent ? known : document.querySelector("[role=tab]");
  for (const one of document.querySelectorAll("[role=tab]")) {
    one.setAttribute("aria-selected", one === tab ? "true" : "false");
    one.tabIndex = one === tab ? 0 : -1;
    byId(`panel-${one.dataset.tab}`).hidden = one !== tab;
  }
  if (location.hash !== `#${tab.dataset.tab}`) history.replaceState(null, "", `#${tab.dataset.tab}`);
}

function pressTab(event) {
  const tabs = [...document.querySelectorAll("[role=tab]")].filter((tab) => tab.offsetParent);
  const step = { ArrowRight: 1, ArrowLeft: -1 }[event.key];
  if (!step) return;
  event.preventDefault();
  const next = tabs[(tabs.indexOf(event.target) + step + tabs.length) % tabs.length];
  showTab(next.dataset.tab);
  next.focus();
}

// The state.

function showState(words = null, isWrong = true) {
  const state = byId("state");
  const shown = element("span", words === null ? text("live", office) + (office.network === null ? "" : ` ${text("network", office)}`) : words);
  state.classList.toggle("lost", words !== null && isWrong);
  if (shown.textContent !== state.textContent) state.replaceChildren(shown);
}

function showOffice() {
  if (office.state === "starting") showState(text("starting", office));
  else if (!office.is_up) showState(text("stopped", office));
  else if (office.role === "standby") showState(text("standby", office), false);
  else showState();
}

function showFault(fault) {
  if (fault instanceof NotAnswered && fault.status === 401) showState([fault.message, " ", element("a", text("log_in_again"), { href: "/login" })]);
  else if (fault instanceof NotAnswered && fault.status) showState(text("not_shown", { words: fault.message }));
  else showState(text("lost"));
}

function showRoom() {
  byId("lines-left").textContent = Number(office.lines_left).toLocaleString("en");
  byId("entries-left").textContent = Number(office.entries_left).toLocaleString("en");
  byId("used").value = office.used;
  byId("used-text").textContent = text("used_text", office);
  byId("capacity-warning").textContent = office.warning ?? "";
}

// Refusals.

async function showRefusals() {
  const today = dayOf(new Date().toISOString());
  const last = refusals.filter(({ taken }) => !taken || dayOf(taken) === today).reverse();
  byId("refusals-count").textContent = last.length;
  const items = await Promise.all(last.map(async ({ number: line, reply, line: sent, taken, sender }) => {
    const words = wordsOf(reply);
    const entry = await explained(words[1] === "25" ? words[3] : words[1]).catch(() => ({ meaning: "", remedy: "" }));
    return element("li", [
      text("refusal", { number: line, reply: words.join(" ") }), " ", ...(taken ? [momentElement(taken.replace(/\.\d+Z$/, "Z")), sender ? `, ${sender}. ` : ". "] : []),
      entry.meaning, " ", text("remedy", entry), element("br"), element("code", sent)]);
  }));
  byId("refusals-list").replaceChildren(...(items.length ? items : [element("li", text("no_refusals"))]));
}

async function readRefusals() {
  try {
    refusals = await askJson("/refusals");
    await showRefusals();
  } catch {
    setTimeout(readRefusals, AGAIN);
  }
}

// Sending.

async function withdraw(order, pressed) {
  if (!confirm(text("withdraw_sure", order))) return;
  pressed.disabled = true;
  await doing(async () => {
    const words = wordsOf((await send(JSON.stringify({ type: "withdraw", order: order.order }))).reply);
    say(words[0] === "accepted" ? text("withdrawn_done", order) : await refusalText(words));
  });
  pressed.disabled = false;
}

async function placeOrder(event) { // What is wrong is said by the program, and shown at its field.
  event.preventDefault();
  const form = event.target;
  const value = (name) => form.elements[name].value.trim();
  const line = { type: "order" };
  for (const name of ["order", "place", "latest"]) if (value(name)) line[name] = value(name);
  if (value("classes")) line.classes = value("classes").split(",").map((word) => word.trim());
  for (const name of ["load", "penalty", "wagons"]) if (value(name)) line[name] = numberOr(value(name));
  await sendForm(form, line, async (words) => {
    say(text("order_done", { entry: words[1] }));
    form.reset();
  });
}

async function sendMessage(event) { // As a railway would: what is right the program says.
  event.preventDefault();
  const form = event.target;
  const value = (name) => form.elements[name].value.trim();
  const line = { type: value("type") };
  for (const name of ["company", "wagon", "place", "moment"]) if (value(name)) line[name] = value(name);
  if (value("number")) line.number = numberOr(value("number"));
  if (line.type === "exception") line.hold = value("hold") === "true";
  await sendForm(form, line, async (words) => {
    say(text(words[0] === "repeated" ? "message_repeated" : "message_done", { entry: words[1] }));
    form.reset();
  });
}

const numberOr = (word) => /^(0|[1-9][0-9]*)$/.test(word) && Number.isSafeInteger(Number(word)) ? Number(word) : word;

async function sendForm(form, line, accepted) {
  form.querySelectorAll("[data-field]").forEach((place) => { place.textContent = ""; });
  const pressed = form.querySelector("button");
  pressed.disabled = true;
  say("");
  await doing(async () => {
    const { number: at, reply } = await send(JSON.stringify(line));
    const words = wordsOf(reply);
    if (words[0] === "refused") await showWrong(form, words);
    else await accepted(words, reply, at);
  });
  pressed.disabled = false;
}

const FIELD_OF_REFUSAL = { 31: "moment", 32: "type", 33: "place", 71: "number", 73: "wagon", 74: "order", 75: "wagons" };

async function showWrong(form, words) {
  const field = ["24", "25"].includes(words[1]) ? words[2] : FIELD_OF_REFUSAL[words[1]] ?? "";
  const place = form.querySelector(`[data-field="${CSS.escape(field)}"]`) ?? form.querySelector("[data-field]");
  place.textContent = words[1] === "24" ? text("missing") : await refusalText(words);
  form.elements[field]?.focus();
}

function corrections() { // Corrected rows and wagons that leave, where there are any.
  const rows = byId("correct-rows").value.trim();
  const leaving = byId("correct-leaving").value.split(",").map((word) => word.replace(/[\s-]/g, "")).filter(Boolean);
  return rows || leaving.length ? JSON.stringify({ with: rows && `${ROSTER}\n${rows}\n`, without: leaving }) : "";
}

async function beginNext() {
  if (!confirm(text("next_sure"))) return;
  await doing(async () => {
    const { journal } = await (await post("/next", corrections())).json();
    say(text("next_done", { journal }));
    byId("correct-rows").value = byId("correct-leaving").value = "";
    refreshSoon(0);
  });
}

// Promised movements, as the program reckons them at the moment of the newest message.

const newest = () => office.wagons.map((wagon) => wagon.last).sort().at(-1) ?? "";
const areMovementsOld = () => (movements.journal !== office.journal || movements.line < office.line) && office.wagons.some((wagon) => wagon.promise);
const marginText = ({ spare, late }) => late ? text("late_by", { minutes: late }) : spare === undefined ? text("no_way") : text("spare", { minutes: spare });

async function readMovements() { // They may be older than the office; then they are asked for again.
  const journal = office.journal;
  try {
    const told = await askJson(`/v1/movements?at=${encodeURIComponent(newest())}`);
    movements = { journal, line: told.line, byWagon: new Map(told.movements.map((movement) => [movement.wagon, movement])) };
  } catch {
    // They are asked for again.
  }
  showOfficeParts();
  askingMovements = areMovementsOld() ? setTimeout(readMovements, LATER) : null;
}

// Wagons with refused messages behind their last accepted one. The list is read again where a line was refused since, and
// where one may have been accepted.

const isStuckOld = () => stuck.journal !== office.journal || stuck.refused !== office.refused || (stuck.byWagon.size > 0 && stuck.line < office.line);

async function readStuck() {
  const { journal, refused } = office;
  try {
    const told = await askJson("/v1/stuck");
    stuck = { journal, refused, line: told.line, byWagon: new Map(told.wagons.map((wagon) => [wagon.wagon, wagon])) };
  } catch {
    // It is asked again.
  }
  showOfficeParts();
  askingStuck = isStuckOld() ? setTimeout(readStuck, LATER) : null;
}

function promises() {
  return office.wagons.filter((wagon) => wagon.promise).map((wagon) => {
    const order = office.byOrder.get(wagon.promise);
    const movement = movements.journal === office.journal ? movements.byWagon.get(wagon.wagon) : undefined;
    const isKnown = movement?.order === wagon.promise && movement.since === wagon.last;
    return {
      wagon: wagon.wagon, class: wagon.class, order: wagon.promise, from: wagon.place, to: order?.place ?? "", latest: order?.latest ?? "",
      km: (isKnown && movement.km) ?? "", arrival: (isKnown && movement.arrival) || "", margin: isKnown ? marginText(movement) : "",
      isLate: isKnown && movement.state !== "in time", status: named("status_", wagon.status) };
  });
}

async function askPlan(event) {
  event.preventDefault();
  plan = null; // Nobody accepts the plan before, who has asked for another.
  showPlan();
  const at = byId("plan-at").value.trim();
  await sendForm(event.target, at ? { type: "plan", at } : { type: "plan" }, async (words, reply, line) => {
    plan = readPlan(words, reply, at, line);
    showPlan();
    const asked = plan;
    const reasons = await askJson(`/why?line=${line}&at=${encodeURIComponent(at)}`);
    if (plan === asked) addReasons(reasons);
  });
}

function readPlan(words, reply, at, line) {
  const lines = reply.split("\n").slice(1);
  const read = { line, at, free: words[2], orders: words[3], cost: Number(words[4]), pairs: [], missing: new Map() };
  read.certificate = lines.pop();
  for (const row of lines) {
    const [kind, ...rest] = row.split(" ");
    if (kind === "assign") {
      read.pairs.push({
        wagon: rest[0], order: rest[1], km: Number(rest[2]), from: office.byWagon.get(rest[0])?.place ?? "", to: office.byOrder.get(rest[1])?.place ?? "", arrival: "", reason: "" });
    }
    if (kind === "refuse") read.missing.set(rest[0], { order: rest[0], misses: (read.missing.get(rest[0])?.misses ?? 0) + 1, penalty: Number(rest[1]), reason: "" });
  }
  read.km = read.pairs.reduce((sum, pair) => sum + pair.km, 0);
  read.penalties = read.cost - read.km;
  return read;
}

function addReasons(reasons) { // They come after the plan, and nothing that is there already moves its place.
  const wagons = new Map(reasons.filter((reason) => reason.wagon).map((reason) => [reason.wagon, reason]));
  const orders = new Map(reasons.filter((reason) => reason.order && !reason.wagon).map((reason) => [reason.order, reason]));
  for (const pair of plan.pairs) {
    pair.arrival = wagons.get(pair.wagon)?.arrival ?? "";
    pair.reason = whyGoes(wagons.get(pair.wagon));
  }
  for (const order of plan.missing.values()) order.reason = whyMissing(orders.get(order.order));
  plan.tables.forEach((table) => table.arrange());
}

const TESTS = ["class", "load", "way", "time", "cheaper"];

function whyMissing(reason) {
  if (!reason) return "";
  // The first test that no more wagons pass than the order gets.
  const test = TESTS.find((name) => reason[name] <= reason.gets);
  const further = reason.further === null ? "" : typeof reason.further === "string" ? text(`further_${reason.further}`) : text("further", { km: reason.further });
  return (test ? text(`why_${test}`, { n: reason[test] }) : text("why_others")) + " " + further;
}

const whyGoes = (reason) => !reason ? "" : reason.without === 0 ? text("without_0") : text("without", { km: reason.without });

function showPlan() {
  const shown = byId("plan-shown");
  byId("plan-head").textContent = plan ? text(plan.pairs.length || plan.missing.size ? "plan_head" : "plan_none", plan) : "";
  if (!plan) {
    shown.replaceChildren();
    return;
  }
  const accept = button(text("accept"), acceptPlan, { className: "" });
  accept.id = "accept";
  const drop = button(text("drop"), () => { plan = null; showPlan(); });
  const pairs = element("div", [], { className: "some" });
  const missing = element("div", [], { className: "some" });
  const parts = [...(plan.pairs.length ? [pairs] : []), ...(plan.missing.size ? [element("h3", text("plan_missing")), missing] : [])];
  const save = button(text("save_csv"), () => plan.tables[0].save("plan.csv"));
  shown.replaceChildren(element("p", [accept, " ", drop, ...(plan.pairs.length ? [" ", save] : [])]), ...parts);
  plan.tables = [
    new Table(pairs, {
      id: "plan-table", label: text("plan"), key: (row) => row.wagon, choose: (row) => choose("wagon", row.wagon),
      columns: [wagonColumn, plain("order", 7.5), { name: "from", width: 10, of: (row) => placeText(row.from) }, { name: "to", width: 10, of: (row) => placeText(row.to) },
        number("km", 4), moment("arrival"), plain("reason", 26)] }),
    new Table(missing, {
      id: "missing-table", label: text("plan_missing"), key: (row) => row.order, choose: (row) => choose("order", row.order),
      columns: [plain("order", 7.5), number("misses", 5), number("penalty", 6), plain("reason", 40)] }),
  ];
  plan.tables[0].setRows(plan.pairs);
  plan.tables[1].setRows([...plan.missing.values()]);
}

async function acceptPlan(pressed) {
  pressed.disabled = true;
  await doing(async () => {
    const words = wordsOf((await send(plan.certificate)).reply);
    if (words[0] === "accepted") {
      say(text("accepted", { entry: words[1] }));
      plan = null;
      showPlan();
      showTab("promises");
    } else {
      say(await refusalText(words) + (words.length > 2 ? ` (${words.slice(2).join(" ")})` : ""));
    }
  });
  pressed.disabled = false;
}

// What is chosen: a wagon, an order or a place, with what can be done with it.

function choose(kind, id) {
  chosen = { kind, id };
  byId("reasons").replaceChildren();
  byId("reasons-head").replaceChildren();
  shownChosen = "";
  showChosen();
  if (matchMedia("(max-width: 60rem)").matches) byId("right").scrollIntoView({ block: "start" });
}

const link = (kind, id, words = id) => button(words, () => choose(kind, id), { className: "link", key: `to ${kind} ${id}` });
const links = (kind, ids) => ids.length ? element("ul", ids.map((id) => element("li", link(kind, id, kind === "wagon" ? wagonText(id) : id)))) : "–";

function showChosen() {
  const shown = { wagon: aboutWagon, order: aboutOrder, place: aboutPlace }[chosen.kind]?.(chosen.id);
  const one = office.byWagon.get(chosen.kind === "wagon" ? chosen.id : "") ?? office.byOrder.get(chosen.kind === "order" ? chosen.id : "");
  tables.wagons.mark(chosen.kind === "wagon" ? chosen.id : "");
  for (const table of [tables.promises, tables.late, tables.stuck]) table.mark(chosen.kind === "wagon" ? chosen.id : "");
  for (const name of ["orders", "short"]) tables[name].mark(chosen.kind === "order" ? chosen.id : "");
  tables.places.mark(chosen.kind === "place" ? chosen.id : "");
  map.mark(chosen.kind === "place" ? chosen.id : one?.place ?? "");
  if (!shown) return;
  const told = JSON.stringify([chosen, shown.told]);
  if (told === shownChosen) return;
  shownChosen = told;
  const facts = element("dl", shown.facts.flatMap(([name, value]) => [element("dt", text(name)), element("dd", value === "" || value === null ? "–" : value)]));
  keepingFocus(() => byId("chosen-shown").replaceChildren(element("h3", shown.title), facts, element("p", shown.acts, { className: "acts" })));
}

const sends = (made) => {
  made.classList.add("sends");
  return made;
};
const traceButton = (kind, id) => button(text("trace"), () => askTrace(kind, id), { key: `trace ${kind} ${id}` });
const whyButton = (kind, id) => button(text(`why_${kind}`), () => askWhy(kind, id), { key: `why ${kind} ${id}` });

function aboutWagon(id) {
  const wagon = office.byWagon.get(id);
  if (!wagon) return { told: "", title: wagonText(id), facts: [], acts: [text("gone")] };
  const waits = stuck.byWagon.get(id);
  return {
    told: [wagon, waits, nameOf(wagon.place), zone], title: wagonText(id),
    facts: [["number", id], ["class", wagon.class], ["load_limit", wagon.load], ["status", named("status_", wagon.status)], ["place", link("place", wagon.place, placeText(wagon.place))],
      ["last", momentElement(wagon.last)], ["held", yes(wagon.held)], ["promise", wagon.promise ? link("order", wagon.promise) : ""], ...(waits ? aboutStuck(waits) : [])],
    acts: [traceButton("wagon", id), ...(isFree(wagon) ? [whyButton("wagon", id)] : []), sends(button(text("correct_it"), () => correct(wagon), { key: "correct" })),
      sends(button(text("message_of"), () => messageOf(wagon, waits), { key: "message" }))] };
}

const aboutStuck = ({ refused, since, message }) => [
  ["stuck_times", element("span", [text("stuck_times_text", { refused }), " ", since ? momentElement(since.replace(/\.\d+Z$/, "Z")) : "–"])],
  ["stuck_last", element("span", [`${wordsOf(message.reply).join(" ")}: `, element("code", message.line)])]];

function messageOf(wagon, waits) { // Where the wagon stands, and whose message was refused last: most likely the one before is missing.
  showTab("new_message");
  let company = "";
  try {
    company = JSON.parse(waits?.message.line ?? "{}").company ?? "";
  } catch {
    // Its members are written in a way that the program alone reads.
  }
  for (const [name, value] of [["company", company], ["number", ""], ["wagon", wagon.wagon], ["place", wagon.place], ["moment", ""]]) byId(`message-${name}`).value = value;
  byId("message-type").focus();
}

function aboutOrder(id) {
  const order = office.byOrder.get(id);
  if (!order) return { told: "", title: id, facts: [], acts: [text("gone")] };
  return {
    told: [order, nameOf(order.place), zone], title: id,
    facts: [["state", named("state_", order.state)], ["lacks", order.lacks], ["wants", order.wants], ["place", link("place", order.place, placeText(order.place))],
      ["classes", order.classes.join(", ")], ["load_each", order.load], ["latest", momentElement(order.latest)], ["penalty", order.penalty],
      ["promised", links("wagon", order.promised)], ["filled", links("wagon", order.filled)]],
    acts: [traceButton("order", id), ...(OPEN.includes(order.state) ? [...(order.lacks ? [whyButton("order", id)] : []),
      sends(button(text("withdraw"), (pressed) => withdraw(order, pressed), { label: text("withdraw_order", order), key: `withdraw ${id}` }))] : [])] };
}

function aboutPlace(id) {
  const place = places.get(id) ?? { wagons: [], orders: [], free: 0, isOutside: true };
  return {
    told: [place, nameOf(id)], title: placeText(id),
    facts: [["at_place", text("at_place_text", { wagons: place.wagons.length, free: place.free, orders: place.orders.length })],
      ...(place.isOutside ? [["network_name", text("outside")]] : []),
      ["orders", links("order", place.orders.map((order) => order.order))], ["wagons", links("wagon", place.wagons.map((wagon) => wagon.wagon))]],
    acts: [sends(button(text("order_here"), () => orderHere(id), { key: "order here" }))] };
}

function correct(wagon) {
  showTab("journal");
  byId("corrections").open = true;
  byId("correct-rows").value = [wagon.wagon, wagon.class, wagon.load, wagon.status, wagon.place, wagon.last].join(",");
  byId("correct-rows").focus();
}

function orderHere(place) {
  showTab("new_order");
  byId("order-place").value = place;
  orderHints.tell();
  byId("order-order").focus();
}

async function askWhy(kind, id) {
  const [head, shown] = [byId("reasons-head"), byId("reasons")];
  const at = byId("plan-at").value.trim();
  shown.replaceChildren();
  head.replaceChildren(text("why_waits"));
  try {
    const reasons = await askJson(`/why?line=${office.line}&at=${encodeURIComponent(at)}&${kind}=${encodeURIComponent(id)}`);
    if (chosen.kind !== kind || chosen.id !== id) return;
    const about = reasons.slice(1, MOST_REASONS + 1).map((reason) => element("li", [aboutPair(reason, kind)]));
    head.replaceChildren(text(`why_${kind}_at`), " ", momentElement(at));
    shown.replaceChildren(
      element("ul", about.length ? about : [element("li", text("none_found"))]),
      ...(reasons.length > MOST_REASONS + 1 ? [element("p", text("more", { n: reasons.length - MOST_REASONS - 1 }))] : []));
  } catch (fault) {
    head.replaceChildren(element("span", fault.message, { className: "wrong" }));
  }
}

async function askTrace(kind, id) {
  const [head, shown] = [byId("reasons-head"), byId("reasons")];
  shown.replaceChildren();
  head.replaceChildren(text("why_waits"));
  try {
    const { line, steps } = await askJson(`/v1/${kind}s/${encodeURIComponent(id)}/trace`);
    if (chosen.kind !== kind || chosen.id !== id) return;
    head.replaceChildren(text("trace_head", { line }));
    const about = steps.slice(-MOST_REASONS).reverse().map((step) => element("li", [aboutStep(step, kind)]));
    shown.replaceChildren(
      element("ul", about.length ? about : [element("li", text("trace_none"))]),
      ...(steps.length > MOST_REASONS ? [element("p", text("more", { n: steps.length - MOST_REASONS }))] : []));
  } catch (fault) {
    head.replaceChildren(element("span", fault.message, { className: "wrong" }));
  }
}

function aboutStep(step, kind) { // What a line said, and what the office knew behind it.
  const said = text("trace_line", step) + (step.company ? text("trace_by", step) : "");
  const knew = step.refused !== null ? text("trace_refused", step)
    : kind === "order" ? text("trace_order", { ...step, state: named("state_", step.state) })
    : text("trace_wagon", { status: named("status_", step.status), place: placeText(step.place) }) + (step.held ? text("trace_held") : "")
      + (step.order ? text("trace_promised", step) : step.was_order ? text("trace_ended", step) : "");
  return element("span", [said, ...(step.moment ? [", ", momentElement(step.moment)] : []), ": ", knew]);
}

function aboutPair(reason, kind) { // What is compared stands beside the test that fails.
  const test = ["fits", "class", "load", "way", "late", "costly"].find((name) => name in reason);
  const values = { ...reason, wants: [].concat(reason.wants ?? []).join(", "), arrival: momentText(reason.arrival ?? ""), latest: momentText(reason.latest ?? "") };
  if (kind === "order" && test === "class") return element("span", [text("pairs_class", values)]); // one line counts them all
  const other = kind === "order" ? link("wagon", reason[test], wagonText(reason[test])) : link("order", reason.order);
  return element("span", [other, ": ", text(test === "fits" && reason.planned ? "pair_planned" : `pair_${test}`, values)]);
}

// The map.

const map = new OfficeMap(byId("map-shown"), (place) => choose("place", place));
let askingNetwork = null;

const knows = (place) => network.byPlace?.has(place);
const isOld = () => network.waits || (office.network !== null && network.network !== office.network) || network.journal !== office.journal
  || !office.wagons.every((wagon) => knows(wagon.place)) || !office.orders.every((order) => !OPEN.includes(order.state) || knows(order.place));

async function readNetwork() { // It may be older than the office, or be laid out still; then it is asked for again.
  clearTimeout(askingNetwork);
  let later = LATER;
  try {
    const journal = office.journal;
    network = await askJson("/network");
    network.journal = journal;
    network.byPlace = new Set(network.places.map(([code]) => code));
    setNames(network.places);
    byId("map-note").textContent = network.waits ? text("map_waits") : network.words ? text("map_failed", network) : "";
    if (!network.waits) map.setNetwork(network);
    showOfficeParts();
  } catch (fault) {
    byId("map-note").textContent = text("map_none", { words: fault.message });
    later = 2 * LATER;
  }
  askingNetwork = isOld() ? setTimeout(readNetwork, later) : null;
}

// What happens.

let shownOffice = ""; // The answer that is shown.
let asking = null; // Ends the question that is on its way.
let askedAt = 0;
let isAskedAgain = false;
let wait = WAIT; // Longer where the office is large and takes long to be shown, so that a third of the time goes into it at most.
let isFailing = false;
let isOpen = false; // Whether events come.
let trouble = ""; // What the service had with the page's own program.
let refreshing = null;
let askingWants = null;

function showOfficeParts() { // What hasn't changed isn't shown again, so that whoever is on their way to a button finds it.
  places = placesOf(office, network);
  keepingFocus(() => {
    tables.short.setRows(office.orders.filter(FILTERS.orders.short));
    byId("short-count").textContent = tables.short.rows.length;
    tables.orders.setRows(office.orders);
    tables.wagons.setRows(office.wagons);
    tables.places.setRows([...places.values()]);
    const promised = promises();
    tables.promises.setRows(promised);
    tables.late.setRows(promised.filter((row) => row.isLate).sort((one, other) => (one.latest < other.latest ? -1 : 1)));
    byId("late-count").textContent = tables.late.rows.length;
    tables.stuck.setRows(stuck.journal === office.journal ? [...stuck.byWagon.values()] : []);
    byId("stuck-count").textContent = tables.stuck.rows.length;
    for (const name of ["late", "stuck"]) byId(name).classList.toggle("empty", !tables[name].rows.length);
    notes.show();
    orderHints.tell();
    plan?.tables?.forEach((table) => table.arrange());
    showChosen();
  });
  map.setState(places, movesOf(office));
}

async function readWants() { // Of the orders that came since.
  const journal = office.journal;
  try {
    const told = await askJson(wants.size ? `/wants?behind=${wants.size}` : "/wants");
    if (journal === office.journal) told.forEach(([order, classes, load]) => wants.set(order, [classes, Number(load)]));
  } catch {
    // It is asked again.
  }
  addWants(office, wants);
  showOfficeParts();
  askingWants = wants.size < office.orders.length ? setTimeout(readWants, LATER) : null;
}

function take(told) {
  const isNew = told.journal !== office.journal;
  const hasRefused = isNew || told.refused !== office.refused;
  office = Object.assign(readSheet(told.sheet), told);
  setZone(told.zone);
  const maySend = told.may_send ? "yes" : "no";
  if (maySend !== document.body.dataset.maySend) {
    document.body.dataset.maySend = maySend;
    showTab(wanted);
  }
  if (isNew) {
    wants = new Map();
    plan = null; // Its certificate isn't kept by the new one.
    showPlan();
    byId("plan-at").value = newest();
  }
  addWants(office, wants);
  showRoom();
  showOfficeParts();
  if (wants.size < office.orders.length && !askingWants) askingWants = setTimeout(readWants, 0);
  if (areMovementsOld() && !askingMovements) askingMovements = setTimeout(readMovements, 0);
  if (isStuckOld() && !askingStuck) askingStuck = setTimeout(readStuck, 0);
  if (isOld() && !askingNetwork) askingNetwork = setTimeout(readNetwork, 0);
  if (hasRefused) readRefusals();
  if (isNew || !isOpen) notes.askSoon(); // Else the stream of events says when there are more.
  if (!isNew && told.trouble && told.trouble !== trouble) say(told.trouble);
  trouble = told.trouble;
}

async function refresh() {
  refreshing = null;
  if (asking) {
    isAskedAgain = true;
    return;
  }
  asking = new AbortController();
  askedAt = Date.now();
  try {
    const told = await (await ask("/office", asking.signal)).text();
    isFailing = false;
    if (told !== shownOffice) {
      const read = JSON.parse(told);
      if (read.build !== document.body.dataset.build) return location.reload(); // Another page belongs to the service now.
      take(read);
      shownOffice = told;
    }
    showOffice();
  } catch (fault) {
    isFailing = true;
    showFault(fault);
  } finally {
    asking = null;
    wait = Math.min(MOST_WAIT, Math.max(WAIT, 2 * (Date.now() - askedAt)));
    if (isAskedAgain) refreshSoon(wait);
    isAskedAgain = false;
  }
}

function refreshSoon(after) { // A tab that nobody sees asks when someone looks at it.
  if (document.hidden) {
    shownOffice = "";
    return;
  }
  refreshing ??= setTimeout(refresh, after);
}

let worker = null;
let signed = 0;

function hear(said) {
  signed = Date.now();
  const wasOpen = isOpen;
  isOpen = said !== "lost";
  if (said === "opened") notes.askAnew();
  if (said === "noted") notes.askSoon();
  else if (said === "happened") refreshSoon(Math.max(0, askedAt + 1.5 * wait - Date.now())); // At once, where nobody has asked lately.
  else if (!isOpen || !wasOpen || said === "opened") refreshSoon(0);
}

function connect() { // To the stream that all tabs of this browser share.
  signed = Date.now();
  if (!window.SharedWorker) {
    elect();
    return;
  }
  leave();
  worker = new SharedWorker(`/static/events.js?${document.body.dataset.build}`);
  worker.port.onmessage = ({ data }) => hear(data);
}

let isElected = false;
function elect() { // Without shared workers one tab follows and tells the others; the next one where it is closed.
  if (isElected) return;
  isElected = true;
  const others = new BroadcastChannel(EVENTS);
  others.onmessage = ({ data }) => hear(data);
  const follow = () => import("./events.js").then(() => self.followEvents((said) => {
    hear(said);
    others.postMessage(said);
  }));
  // Only over TLS, or on the service's own machine, a browser lets tabs elect one; else each follows by itself.
  (navigator.locks ? navigator.locks.request(EVENTS, follow) : follow()).catch(() => {
    isElected = false;
    others.close();
  });
}

function leave() {
  worker?.port.postMessage("closed");
  worker?.port.close();
}

let ticked = Date.now();
function tick() {
  const now = Date.now();
  if (now - ticked > ASLEEP) { // The machine slept, and what was on its way is lost.
    asking?.abort();
    refreshSoon(0);
  }
  ticked = now;
  if (asking && now - askedAt > LOST) asking.abort();
  else if (asking && now - askedAt > SLOW) showState(text("slow", { seconds: Math.round((now - askedAt) / 1000) }));
  else if (!asking && (!isOpen || isFailing) && now - askedAt > AGAIN) refreshSoon(0);
  if (now - signed > NO_SIGN) {
    isOpen = false;
    connect();
  }
}

function start() {
  for (const name of Object.keys(FILTERS)) listen(name, FILTERS[name]);
  for (const tab of document.querySelectorAll("[role=tab]")) {
    tab.addEventListener("click", () => showTab(tab.dataset.tab));
    tab.addEventListener("keydown", pressTab);
  }
  addEventListener("hashchange", () => showTab(location.hash.slice(1)));
  showTab(location.hash.slice(1) || "map");
  byId("next").addEventListener("click", beginNext);
  byId("plan-form").addEventListener("submit", askPlan);
  byId("order-form").addEventListener("submit", placeOrder);
  byId("message-form").addEventListener("submit", sendMessage);
  for (const [id, act] of [["map-nearer", () => map.zoom(1.5)], ["map-farther", () => map.zoom(1 / 1.5)], ["map-all", () => map.fit()]]) byId(id).addEventListener("click", act);
  document.addEventListener("visibilitychange", () => {
    refreshSoon(0);
    notes.look();
  });
  addEventListener("online", () => refreshSoon(0));
  addEventListener("pagehide", leave);
  addEventListener("pageshow", (event) => event.persisted && connect());
  setInterval(tick, 1000);
  setInterval(showRefusals, 60000); // A day ends.
  refreshSoon(0);
  connect();
}

start();
