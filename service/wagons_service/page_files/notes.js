// The newest notes of the journal: what its lines did that a person should hear of. They are asked for when the page opens, and
// again when the service says that there are more.

import { askJson, byId, element, momentElement, momentText, nameOf, named, text, textParts, wagonText } from "./parts.js";
import { Table } from "./table.js";

const MOST = 100;
const LEAST_WAIT = 500; // Milliseconds between two questions.
const AGAIN = 2000; // Where no answer came.
const LATER = 5000; // Where the service said why there are no notes.
const LOST = 30000; // No answer for so long: the connection may be gone without a sign.
const HEIGHT = 46; // Three lines of a sentence.
const FORBIDDEN = 403;
const MOMENTS = ["latest", "last", "since", "moment"];
const SHOWN = { wagon: wagonText, place: (place) => nameOf(place) || place, status: (status) => named("status_", status) };

function keyOf(note) { // Which sentence says it.
  if (note.note === "filled") return note.late ? "note_filled_late" : "note_filled";
  if (note.note === "ended") return `note_ended_${note.why}`;
  if (note.note === "refused") return note.times > 1 ? "note_refused_again" : "note_refused";
  return `note_${note.note}`;
}

function sentenceOf(note, sentence, momentOf) {
  const values = { ...note };
  for (const name of Object.keys(SHOWN).filter((name) => name in note)) values[name] = SHOWN[name](note[name]);
  for (const name of MOMENTS.filter((name) => name in note)) values[name] = momentOf(note[name]);
  const key = keyOf(note);
  return sentence(text(key) === key ? "note_other" : key, values);
}

const wordsOfNote = (note) => sentenceOf(note, text, momentText);
const shownNote = (note) => element("span", sentenceOf(note, textParts, momentElement), { className: "sentence", title: wordsOfNote(note) });

export class Notes {
  constructor(choose) { // It is told what kind of thing a note is about, and which one.
    this.known = { journal: 0, line: 0, rows: [] };
    this.serial = 0;
    this.isOld = false;
    this.asking = null; // What waits to ask.
    this.stop = null; // Ends the question that is on its way.
    this.table = new Table(byId("notes-rows"), {
      id: "notes-table", label: text("notes"), key: (row) => row.key, none: text("none_noted"), height: HEIGHT,
      choose: ({ note }) => (note.wagon ? choose("wagon", note.wagon) : note.order && choose("order", note.order)),
      columns: [{ name: "line", width: 3.6, className: "number", of: ({ note }) => note.line },
        { name: "note", width: 16, of: ({ note }) => wordsOfNote(note), shown: ({ note }) => shownNote(note), words: ({ note }) => wordsOfNote(note) }] });
  }

  show() { // The newest first.
    const { rows } = this.known;
    this.table.setRows([...rows].reverse());
    byId("notes-count").textContent = rows.length;
    byId("notes").classList.toggle("empty", !rows.length);
  }

  tellFault(words) {
    byId("notes-fault").textContent = words;
  }

  askSoon(after = 0) { // A tab that nobody sees asks when someone looks at it.
    this.isOld = true;
    if (!document.hidden && !this.stop) this.asking ??= setTimeout(() => this.ask(), after);
  }

  askAnew() { // What is on its way may never come.
    this.stop?.abort();
    this.stop = null;
    this.askSoon();
  }

  look() { // The tab is seen now, or hidden: then it keeps no connection from others.
    if (document.hidden) this.stop?.abort();
    else if (this.isOld) this.askSoon();
  }

  async ask() {
    this.asking = null;
    this.isOld = false;
    const stop = this.stop = new AbortController();
    const late = setTimeout(() => stop.abort(), LOST);
    let wait = LEAST_WAIT;
    try {
      this.take(await askJson(`/v1/notes?since=${this.known.line}&newest=${MOST}`, stop.signal));
    } catch (fault) {
      wait = fault.status ? LATER : AGAIN;
      this.fail(fault);
    }
    clearTimeout(late);
    if (this.stop === stop) this.stop = null;
    if (this.isOld) this.askSoon(wait);
  }

  take(told) {
    byId("notes").hidden = false;
    this.tellFault("");
    const { journal, line, rows } = this.known;
    const isAnother = told.journal !== journal || told.line < line;
    if (isAnother && line) { // These are notes behind a line of the journal before; of this one all are asked for.
      this.known = { journal: told.journal, line: 0, rows: [] };
      this.isOld = true;
    } else {
      const added = told.notes.map((note) => ({ note, key: String(this.serial += 1) }));
      this.known = { journal: told.journal, line: told.line, rows: [...(isAnother ? [] : rows), ...added].slice(-MOST) };
    }
    this.show();
  }

  fail(fault) { // Who may not read notes sees nothing of them.
    const isForbidden = fault.status === FORBIDDEN;
    this.isOld ||= !isForbidden;
    if (isForbidden) {
      byId("notes").hidden = true;
      this.known = { journal: 0, line: 0, rows: [] };
    } else if (fault.status) {
      byId("notes").hidden = false;
      this.tellFault(text("notes_not_shown", { words: fault.message }));
    }
  }
}
