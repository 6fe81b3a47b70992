"""The state as JSON: what the addresses of /v1 answer over the example day, beside the document that describes them."""

import json
from datetime import UTC, datetime, timedelta
from pathlib import Path
from typing import Any

import jsonschema

from conftest import Start
from running import DAY, Service, line

LINES = b"".join((DAY / "day.jsonl").read_bytes().splitlines(keepends=True)[:26])
MALT = {
    "wagon": "318127710016", "class": "Habbins", "status": "journey_empty", "place": "DE10002", "since": "2026-03-02T08:40:00Z",
    "order": "MALT-1", "to": "DE10003", "km": 90, "minutes": 100, "latest": "2026-03-02T12:00:00Z"}


def answered(service: Service, path: str, address: str) -> Any:
    """An answer, which is as the document says of its address."""
    document = json.loads(service.get("/v1/openapi.json").body)
    schema = document["paths"][address]["get"]["responses"]["200"]["content"]["application/json"]["schema"]
    answer = service.get(path)
    assert (answer.status, answer.headers["Content-Type"].partition(";")[0]) == (200, "application/json"), answer
    told = json.loads(answer.body)
    jsonschema.Draft202012Validator(schema | {"components": document["components"]}).validate(told)
    return told


def test_the_state_of_the_day(start: Start) -> None:
    service = start().until_running()
    assert answered(service, "/v1/orders", "/v1/orders") == {"line": 0, "orders": []}
    service.post(LINES)
    told = answered(service, "/v1/wagons", "/v1/wagons")
    assert told["line"] == 26 and len(told["wagons"]) == 40
    numbers = [wagon["wagon"] for wagon in told["wagons"]]
    assert numbers == sorted(numbers)
    wagon = answered(service, "/v1/wagons/318127710016", "/v1/wagons/{number}")["wagon"]
    assert wagon in told["wagons"] and wagon == {
        "wagon": "318127710016", "class": "Habbins", "load_limit": 52000, "status": "journey_empty", "place": "DE10002", "place_name": None,
        "last": "2026-03-02T08:40:00Z", "ready": None, "held": None, "order": "MALT-1"}
    held = answered(service, "/v1/wagons/315466400076", "/v1/wagons/{number}")["wagon"]
    assert (held["held"], held["status"], held["order"]) == ("held", "empty", None)
    orders = answered(service, "/v1/orders", "/v1/orders")["orders"]
    assert [order["order"] for order in orders] == ["MALT-1", "STEEL-1", "SCRAP-1", "SUGAR-1", "SALT-1"]
    assert answered(service, "/v1/orders/SUGAR-1", "/v1/orders/{name}")["order"] == orders[3] == {
        "order": "SUGAR-1", "place": "CZ20002", "place_name": None, "classes": ["Falns"], "load": 60000, "latest": "2026-03-02T16:00:00Z", "penalty": 500,
        "state": "waiting", "wanted": 3, "missing": 1, "promised": ["315466400068"], "filled": ["315466400084"]}
    # None of this stands in the journal.
    assert service.journal == LINES


def test_what_happened_to_a_wagon_and_an_order(start: Start) -> None:
    service = start().until_running()
    path, address = "/v1/wagons/318127710016/trace", "/v1/wagons/{number}/trace"
    assert answered(service, path, address) == {"line": 0, "wagon": "318127710016", "steps": []}
    service.post(LINES)
    told = answered(service, path, address)
    assert told["line"] == 26
    # Its promise, its departure, a yard, one that isn't its own, and its departure from there.
    assert [(step["line"], step["entry"], step["refused"], step["event"], step["status"]) for step in told["steps"]] == [
        (10, 8, None, "commit", "empty"), (16, 13, None, "departure", "journey_empty"), (23, 18, None, "yard_arrival", "yard_empty"),
        (25, None, 33, "yard_departure", "yard_empty"), (26, 20, None, "yard_departure", "journey_empty")]
    told = answered(service, "/v1/orders/SUGAR-1/trace", "/v1/orders/{name}/trace")
    assert [(step["line"], step["event"], step["wagon"], step["missing"], step["promised"], step["filled"]) for step in told["steps"]] == [
        (4, "order", None, 3, [], []), (10, "commit", None, 0, ["315466400068", "315466400076", "315466400084"], []),
        (18, "exception", "315466400076", 1, ["315466400068", "315466400084"], []),
        (19, "delivery", "315466400084", 1, ["315466400068"], ["315466400084"])]
    assert answered(service, "/v1/orders/NONE-1/trace", "/v1/orders/{name}/trace")["steps"] == []


def test_the_movements_of_the_day(start: Start) -> None:
    service = start(options=["--places", str(DAY / "places.csv")]).until_running()
    service.post(LINES)
    path, address = "/v1/movements?at=2026-03-02T09:00:00Z", "/v1/movements"
    told = answered(service, path, address)
    assert (told["line"], told["at"], told["silent"]) == (26, "2026-03-02T09:00:00Z", [])
    # One on its way that may be there by now, one between two yards, and one that stands where it is wanted.
    assert [(row["wagon"], row["arrival"], row["spare"]) for row in told["movements"]] == [
        ("315466400068", "2026-03-02T09:00:00Z", 420), ("318127710016", "2026-03-02T10:20:00Z", 100), ("318127710024", "2026-03-02T09:00:00Z", 0)]
    names = {"place_name": "Moorburg", "to_name": "Lindenau"}
    assert told["movements"][1] == MALT | names | {"arrival": "2026-03-02T10:20:00Z", "spare": 100, "state": "in time"}
    assert [(row["order"], row["state"]) for row in told["orders"]] == [
        ("MALT-1", "promised"), ("STEEL-1", "filled"), ("SUGAR-1", "short"), ("SALT-1", "short")]
    # An hour past the latest moment.
    told = answered(service, "/v1/movements?at=2026-03-02T13:00:00Z&late=yes", address)
    assert [(row["wagon"], row["late"]) for row in told["movements"]] == [("318127710016", 60), ("318127710024", 240)]
    assert [(row["order"], row["state"]) for row in told["orders"]] == [("MALT-1", "past"), ("SUGAR-1", "short"), ("SALT-1", "short and past")]
    told = answered(service, f"{path}&order=MALT-1", address)
    assert [row["wagon"] for row in told["movements"]] == ["318127710016"] and [row["order"] for row in told["orders"]] == ["MALT-1"]
    told = answered(service, f"{path}&wagon=318127710016&silent=1", address)
    assert [row["wagon"] for row in told["movements"]] == ["318127710016"] and told["orders"] == told["silent"] == []
    # Only those that sent something within the hour aren't silent.
    told = answered(service, f"{path}&silent=1", address)
    assert len(told["silent"]) == 39 and "318127710016" not in [row["wagon"] for row in told["silent"]]
    # Where no moment is given it is now.
    at = datetime.fromisoformat(answered(service, "/v1/movements", address)["at"])
    assert abs(datetime.now(UTC) - at) < timedelta(seconds=60)


def test_the_wagons_that_wait_for_a_message(start: Start) -> None:
    service = start().until_running()
    assert answered(service, "/v1/stuck", "/v1/stuck") == {"line": 0, "wagons": []}
    service.post(LINES)
    # A wrong yard was put right at once; an older message comes of one wagon, and of another its departure is missing.
    old = line(kind="delivery", company="1003", number=50, wagon="318127710016", place="DE10002", moment="2026-03-02T08:00:00Z")
    early = [line(kind=kind, company="1003", number=51 + k, wagon="318053700015", place="DE10001", moment=f"2026-03-02T09:0{k}:00Z")
             for k, kind in enumerate(["yard_arrival", "yard_departure", "yard_arrival"])]
    service.post([old, *early])
    told = answered(service, "/v1/stuck", "/v1/stuck")
    taken = [json.loads(record)["taken"] for record in (service.last / "senders.jsonl").read_text().splitlines()]
    assert told == {"line": 30, "wagons": [
        {"wagon": "318053700015", "status": "empty", "place": "DE10004", "last": "2026-03-01T15:10:00Z", "refused": 3, "since": taken[-1],
         "message": {"journal": 1, "number": 30, "reply": "30 refused 32", "line": early[2].decode(), "sender": "anyone"}},
        {"wagon": "318127710016", "status": "journey_empty", "place": "DE10002", "last": "2026-03-02T08:40:00Z", "refused": 1, "since": taken[-1],
         "message": {"journal": 1, "number": 27, "reply": "27 refused 31", "line": old.decode(), "sender": "anyone"}}]}
    # One that is put right with a new journal waits no more; what is known of the other goes along.
    row = "wagon,class,load,status,place,moment\n3180 5370 001-5,Eanos,58000,yard_empty,DE10001,2026-03-02T09:02:00Z\n"
    assert service.post(json.dumps({"with": row}).encode(), path="/next").status == 200
    more = line(kind="delivery", company="1003", number=60, wagon="318127710016", place="DE10002", moment="2026-03-02T08:00:00Z")
    service.post([more])
    told = answered(service, "/v1/stuck", "/v1/stuck")
    assert [(row["wagon"], row["refused"], row["since"]) for row in told["wagons"]] == [("318127710016", 2, taken[-1])]
    assert (told["wagons"][0]["message"]["journal"], told["wagons"][0]["message"]["line"]) == (2, more.decode())


def test_a_wrong_parameter_leaves_no_exception_behind(start: Start) -> None:
    """The program ends before it has read the journal, which is more than a pipe holds."""
    service = start().until_running()
    service.post([b'{"x":"%b"}' % (b"y" * 1000)] * 2000)
    for query in "wagon=318127710017", "silent=0", "silent=x", "wagon=318127710016&order=MALT-1":
        answer = service.get(f"/v1/movements?{query}")
        assert answer.status == 400 and answer.text.startswith("error: "), (query, answer)
    # What nobody asked for is logged when it is swept away, at the latest at the end.
    assert service.stop() == 0
    assert not any(words in told for told in service.log for words in ("exception", "Traceback", "ERROR")), service.log


def test_what_the_state_refuses(start: Start, tmp_path: Path) -> None:
    (tmp_path / "tokens").write_text("railway-1001-token railway 1001\nreader-s-long-token reader\n")
    service = start(options=["--tokens", str(tmp_path / "tokens")]).until_running()
    for path, status in [
        ("/v1/wagons/318127710016", 200), ("/v1/wagons/218124712173", 404), ("/v1/wagons/1", 404), ("/v1/orders/NONE-1", 404), ("/v1/movements?at=now", 400),
        ("/v1/movements?wagon=318127710017", 400), ("/v1/movements?wagon=%00", 400), ("/v1/movements?silent=0", 400), ("/v1/movements?silent=x", 400),
        ("/v1/movements?wagon=318127710016&order=MALT-1", 400), ("/v1/movements?order=NONE-1", 200), ("/v1/wagons/318127710017/trace", 400), ("/v1/wagons/1/trace", 404), ("/v1/openapi.json", 200), ("/v1/", 404),
    ]:
        answer = service.get(path, "reader-s-long-token")
        assert answer.status == status, (path, answer)
    # What a railway sees stands in `test_railways.py`.
    for path in "/v1/orders", "/v1/orders/MALT-1", "/v1/orders/MALT-1/trace", "/v1/wagons/318127710016/trace":
        assert service.get(path, "railway-1001-token").status == 403, path
    for path in "/v1/wagons", "/v1/wagons/318127710016", "/v1/orders", "/v1/orders/MALT-1", "/v1/movements", "/v1/stuck":
        assert service.get(path).status == 401, path
