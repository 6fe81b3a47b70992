// The sheet that the program prints, as rows.

export const OPEN = ["waiting", "promised"];

const readers = {
  wagon: ([wagon, wagonClass, load, status, place, last, hold, promise]) => ({
    wagon, class: wagonClass, load: Number(load), status, place, last, held: hold === "held", promise: promise === "-" ? "" : promise }),
  order([order, place, latest, penalty, state, wants, list]) {
    const listed = list === "-" ? [] : list.split(",");
    return {
      order, place, latest, penalty: Number(penalty), state, wants: Number(wants), classes: [], load: null,
      promised: listed.filter((wagon) => !wagon.endsWith("*")), filled: listed.filter((wagon) => wagon.endsWith("*")).map((wagon) => wagon.slice(0, -1)),
      lacks: state === "withdrawn" ? 0 : Number(wants) - listed.length };
  },
};

export function readSheet(sheet) { // Wagons and orders by their names too.
  const [head, ...rows] = sheet.split("\n");
  const office = { version: Number(head.split(" ")[2]), wagons: [], orders: [], network: null, byWagon: new Map(), byOrder: new Map() };
  for (const row of rows) {
    const [kind, ...words] = row.split(" ");
    if (kind === "wagon") office.wagons.push(readers.wagon(words));
    else if (kind === "order") office.orders.push(readers.order(words));
    else if (kind === "network") office.network = Number(words[0]);
  }
  for (const wagon of office.wagons) office.byWagon.set(wagon.wagon, wagon);
  for (const order of office.orders) office.byOrder.set(order.order, order);
  return office;
}

export function addWants(office, wants) { // Classes and loads, which no sheet has: those that are known.
  for (const order of office.orders) [order.classes, order.load] = wants.get(order.order) ?? [[], null];
}

export const isFree = (wagon) => wagon.status === "empty" && !wagon.held && !wagon.promise;

export function placesOf(office, network) { // Each place with what is there, those of the network first.
  const places = new Map();
  const at = (code) => {
    if (!places.has(code)) places.set(code, { place: code, wagons: [], orders: [], free: 0, promised: 0, lacks: 0, isOutside: true, at: null });
    return places.get(code);
  };
  for (const [code, , where, isOutside] of network.places) Object.assign(at(code), { isOutside, at: where });
  for (const wagon of office.wagons) {
    const place = at(wagon.place);
    place.wagons.push(wagon);
    place.free += isFree(wagon);
    place.promised += Boolean(wagon.promise);
  }
  for (const order of office.orders) {
    if (!OPEN.includes(order.state)) continue;
    at(order.place).orders.push(order);
    at(order.place).lacks += order.lacks;
  }
  return places;
}

export function movesOf(office) { // From where promised wagons go and where to, with their number, as on the program's map.
  const moves = new Map();
  for (const wagon of office.wagons) {
    const to = office.byOrder.get(wagon.promise)?.place;
    if (!to || to === wagon.place) continue;
    const key = `${wagon.place} ${to}`;
    moves.set(key, { from: wagon.place, to, wagons: (moves.get(key)?.wagons ?? 0) + 1 });
  }
  return [...moves.values()];
}
