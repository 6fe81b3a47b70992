"""What `trace` must print, by the model of office.py: a row for each line that changed or named a wagon or an order."""

from collections.abc import Iterator

import office
from checkpoints import Files, History, new_office

# A row as JSON has it.
Row = dict[str, object]
LINE = "line entry refused event company moment version".split()
WAGON = [*LINE, *"was_status was_place was_place_name was_held was_order status place place_name ready held order".split()]
ORDER = [*LINE, *"wagon was_state was_promised was_filled state missing promised filled".split()]


def seen_wagon(state: office.Office, number: str) -> Row | None:
    wagon = state.wagons.get(number)
    if wagon is None:
        return None
    return {"status": wagon.status, "place": wagon.place, "last": wagon.last, "ready": office.moment_text(wagon.ready) if wagon.status == "empty" else None,
            "held": "held" if wagon.held else None, "order": wagon.promise}


def seen_order(state: office.Office, name: str) -> Row | None:
    order = state.orders.get(name)
    if order is None:
        return None
    return {"state": order.state(), "missing": order.lack(), "promised": " ".join(sorted(order.promised)) or None, "filled": " ".join(order.filled) or None}


def names(kind: str, fields: office.Fields, asked: str) -> bool:
    """Whether a line names this wagon or this order."""
    if kind == "commit":
        return any(asked in pair for pair in fields["pairs"])
    return asked in (fields.get("wagon") if kind in office.KINDS else None, fields.get("order"))


def answer_of(state: office.Office, kind: str, fields: office.Fields) -> tuple[int | None, int | None]:
    """The entry that a line became, or the number of its refusal; neither where it is repeated or no event."""
    try:
        word, _, number = state.do(kind, fields).partition(" ")
    except office.Refused as fault:
        return None, int(str(fault).split()[0])
    return (int(number), None) if word == "accepted" else (None, None)


def events(files: Files, lines: list[str]) -> Iterator[tuple[int, str, office.Fields, office.Office]]:
    """Each line that can be read and doesn't begin a problem, with its number and the office before it. Whoever takes a line has the
    office do it."""
    state = new_office(files)
    for line, text in enumerate(lines, 1):
        try:
            kind, fields = office.read_command(text.encode())
        except office.Refused:
            continue
        if kind in ("plan", "begin"):
            state.begin(fields)
        else:
            yield line, kind, fields, state


def trace_rows(history: History, asked: str) -> list[Row]:
    """The rows of a wagon's or an order's trace over a history's lines."""
    is_wagon = asked.isdigit() and len(asked) == 12
    see = seen_wagon if is_wagon else seen_order
    rows: list[Row] = []
    for line, kind, fields, state in events(history.files, history.lines):
        before = see(state, asked)
        entry, refused = answer_of(state, kind, fields)
        after = see(state, asked)
        named = names(kind, fields, asked)
        if (entry is not None and (named or before != after)) or (refused is not None and named):
            rows.append(row(is_wagon, line, kind, fields, (entry, refused), before or {}, after or {}))
    return rows


def row(is_wagon: bool, line: int, kind: str, fields: office.Fields, answer: tuple[int | None, int | None], before: Row, after: Row) -> Row:
    moment = fields["moment"] if kind in office.KINDS else fields["at"] if kind == "commit" else None
    told: Row = {
        "line": line, "entry": answer[0], "refused": answer[1], "event": kind, "company": fields.get("company"),
        "moment": None if moment is None else office.moment_text(moment), "version": fields.get("version"), "wagon": fields.get("wagon")}
    told |= {f"was_{name}": value for name, value in before.items()} | after
    return {name: told.get(name) for name in (WAGON if is_wagon else ORDER)}
