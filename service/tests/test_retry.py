"""Messages that come late or never: with `--retry` late ones are made good, and wagons that wait for lost ones are listed."""

import json
import random
import time
from collections.abc import Sequence
from pathlib import Path
from typing import Any

import pytest

import made_up
from conftest import Start
from running import Service, line, message
from test_railways import DISPATCHER, ONE, READER, TOKENS
from wagons_service.retry import MOST_OF_A_SENDER, MOST_OF_A_WAGON, EarlyMessages

WAGONS = 200
PLACES = 40
START = 1772409600  # 2026-03-02T00:00:00Z
WAGON = made_up.wagon_number("31805370000")


def numbers(count: int) -> list[str]:
    return [made_up.wagon_number(f"3180537{k:04}") for k in range(count)]


def journeys(rng: random.Random) -> list[list[bytes]]:
    """What happens to each wagon, one message after another: a journey with a load, and one without."""
    return [journey(rng, k, wagon) for k, wagon in enumerate(numbers(WAGONS))]


def journey(rng: random.Random, k: int, wagon: str) -> list[bytes]:
    at = k % PLACES
    moment = START + rng.randrange(3600)
    told: list[bytes] = []

    def tell(kind: str) -> None:
        nonlocal moment
        moment += rng.randrange(60, 7200)
        told.append(line(kind=kind, company="1001", number=100 * k + len(told), wagon=wagon, place=made_up.place(at), moment=made_up.moment(moment)))

    tell("release")
    for load in "loaded", "empty":
        tell("departure")
        for _ in range(rng.randrange(3)):
            at = rng.randrange(PLACES)
            tell("yard_arrival")
            tell("yard_departure")
        at = rng.randrange(PLACES)
        tell("arrival")
        tell("delivery")
        if load == "loaded":
            tell("release")
    return told


@pytest.fixture
def fleet(tmp_path: Path) -> dict[str, Any]:
    """The files of a made-up fleet; its wagons are being loaded."""
    rows = [f"{wagon},Eanos,60000,loading,{made_up.place(k % PLACES)},{made_up.moment(START)}" for k, wagon in enumerate(numbers(WAGONS))]
    (tmp_path / "roster.csv").write_text("\n".join(["wagon,class,load,status,place,moment", *rows]) + "\n")
    lines = [f"{made_up.place(k)},{made_up.place((k + 1) % PLACES)},20,30,both" for k in range(PLACES)]
    (tmp_path / "network.csv").write_text("\n".join(["from,to,km,minutes,way", *lines]) + "\n")
    return {"roster": tmp_path / "roster.csv", "networks": [tmp_path / "network.csv"]}


def sheet(service: Service) -> list[str]:
    """Where all wagons stand, as a program prints it that reads the journal anew."""
    printed = service.run_again(b'{"type":"sheet"}\n')
    return [row for row in printed.splitlines() if row.startswith("wagon ")]


def send_in_rounds(service: Service, told: Sequence[Sequence[bytes]]) -> list[set[str]]:
    """Sends the next message of each wagon, round by round: after each of them the wagons that are stuck. Between two messages of a
    wagon there are hours, so what is kept aside is offered before the next round."""
    stuck = []
    for turn in range(max(map(len, told))):
        service.post([messages[turn] for messages in told if turn < len(messages)])
        until_nothing_is_due(service)
        listed = json.loads(service.get("/v1/stuck").body)["wagons"]
        stuck.append({row["wagon"] for row in listed})
    return stuck


def until_nothing_is_due(service: Service) -> None:
    for _ in range(600):
        told = service.get("/metrics").text
        if "wagons_early_due" not in told or "\nwagons_early_due 0\n" in told:
            return
        time.sleep(0.02)
    raise AssertionError(told)


def until_none_is_stuck(service: Service) -> None:
    """A wagon isn't stuck any more once a message was accepted; what was kept aside of it may still be offered then."""
    for _ in range(600):
        if not json.loads(service.get("/v1/stuck").body)["wagons"] and "\nwagons_early_messages 0\n" in service.get("/metrics").text:
            return
        time.sleep(0.05)
    raise AssertionError(service.get("/v1/stuck").text)


@pytest.mark.parametrize("percent", [1, 2, 5])
def test_late_messages_leave_no_wagon_wrong(start: Start, tmp_path: Path, fleet: dict[str, Any], percent: int) -> None:
    rng = random.Random(percent)
    told = journeys(rng)
    ordered = start(tmp_path / "ordered", **fleet).until_running()
    ordered.post(sent for messages in told for sent in messages)
    assert all(" accepted " in reply for reply in ordered.kept)
    late = 0
    for messages in told:
        place = 0
        while place + 1 < len(messages):
            if rng.random() < percent / 100:
                messages[place], messages[place + 1] = messages[place + 1], messages[place]
                late, place = late + 1, place + 1
            place += 1
    service = start(options=["--retry", "60"], **fleet).until_running()
    seen = send_in_rounds(service, told)
    until_none_is_stuck(service)
    assert late > 10 * percent and any(seen)
    assert sheet(service) == sheet(ordered)
    # Each offer is a line of the journal under its sender's name, with its own reply.
    sent = sum(map(len, told))
    offers = service.get(f"/replies?from={sent - 50}").records
    assert len(service.kept) >= sent + late and {record["sender"] for record in offers} == {"anyone"}
    assert "".join(reply + "\n" for reply in service.kept) == service.run_again()
    metrics = service.get("/metrics").text
    assert f"wagons_offered_total {len(service.kept) - sent}\n" in metrics and "wagons_early_messages 0\n" in metrics


@pytest.mark.parametrize("percent", [1, 2, 5])
def test_wagons_that_wait_for_lost_messages_are_listed(start: Start, fleet: dict[str, Any], percent: int) -> None:
    rng = random.Random(10 + percent)
    told = journeys(rng)
    service = start(options=["--retry", "60"], **fleet).until_running()
    # Of each wagon at most one message is lost, and never its last one, of which nobody hears.
    lost = {}
    for k, messages in enumerate(told):
        place = next((place for place in range(len(messages) - 1) if rng.random() < percent / 100), None)
        if place is not None:
            lost[numbers(WAGONS)[k]] = place, messages.pop(place)
    seen = send_in_rounds(service, told)
    assert len(lost) > 10 * percent
    # The message behind a lost one is refused, and the wagon is listed from then on until one is accepted.
    for wagon, (place, _) in lost.items():
        assert wagon in seen[place], wagon
    assert all(stuck <= lost.keys() for stuck in seen)
    listed = {row["wagon"]: row for row in json.loads(service.get("/v1/stuck").body)["wagons"]}
    assert listed.keys() == seen[-1]
    for row in listed.values():
        assert row["refused"] >= 1 and row["since"] and row["message"]["reply"].split()[1:] in (["refused", "32"], ["refused", "33"])
        assert json.loads(row["message"]["line"])["wagon"] == row["wagon"] and row["message"]["sender"] == "anyone"


def test_a_lost_message_that_is_sent_later_makes_the_others_good(start: Start, fleet: dict[str, Any]) -> None:
    service = start(options=["--retry", "60"], **fleet).until_running()
    told = journey(random.Random(1), 0, WAGON)[:6]
    service.post(told[1:])
    (row,) = json.loads(service.get("/v1/stuck").body)["wagons"]
    assert (row["wagon"], row["status"], row["refused"], row["message"]["number"], row["message"]["line"]) == (WAGON, "loading", 5, 5, told[5].decode())
    service.post(told[0])
    until_none_is_stuck(service)
    assert service.journal.splitlines() == [*told[1:], told[0], *told[1:]]
    assert service.kept[5:] == [f"{5 + k} accepted {k}" for k in range(1, 7)]


def test_what_is_offered_and_what_is_not(start: Start, tmp_path: Path, fleet: dict[str, Any]) -> None:
    (tmp_path / "tokens").write_text(TOKENS)
    options = ["--tokens", str(tmp_path / "tokens"), "--retry", "0.15"]
    service = start(options=options, **fleet).until_running()
    told = journey(random.Random(1), 0, WAGON)
    # Refused by its moment, its wagon, or for what isn't there; then an early one that comes again by itself, and one too late.
    old = line(kind="release", company="1001", number=900, wagon=WAGON, place="DE00000", moment="2026-03-01T00:00:00Z")
    unknown = line(kind="release", company="1001", number=901, wagon="318127710016", place="DE00000", moment="2026-03-02T12:00:00Z")
    service.post([old, unknown, b'{"type":"release","company":"1001","number":902}', told[1]], ONE)
    service.post([told[0], told[1]], ONE)
    time.sleep(1.5)
    # What was accepted meanwhile may have been offered once more before, and is repeated then.
    assert set(service.journal.splitlines()[6:]) <= {told[1]}
    lines = len(service.journal.splitlines())
    service.post([told[3]], ONE)
    time.sleep(10)
    assert service.post([told[2]], ONE).replies[0].split()[1] == "accepted"
    time.sleep(1.5)
    assert len(service.journal.splitlines()) == lines + 2
    # A railway sees the reply to what was offered for it, and a dispatcher under which name.
    assert [record["sender"] for record in service.get("/replies", DISPATCHER).records] == ["railway-1001"] * (lines + 2)
    assert len(service.get("/replies", ONE).records) == lines + 2
    assert service.get("/v1/stuck", ONE).status == 403 and service.get("/v1/stuck").status == 401
    (row,) = json.loads(service.get("/v1/stuck", READER).body)["wagons"] or [None]
    assert row is None or "sender" not in row["message"]


def test_what_is_kept_aside_is_made_again_at_a_start(start: Start, fleet: dict[str, Any]) -> None:
    service = start(options=["--retry", "60"], **fleet).until_running()
    told = journey(random.Random(1), 0, WAGON)[:3]
    service.post(told[1:])
    assert service.stop() == 0
    service = start(options=["--retry", "60"], **fleet).until_running()
    assert "wagons_early_messages 2\n" in service.get("/metrics").text
    # Also in the next journal.
    assert service.post(b"", path="/next").status == 200
    (row,) = json.loads(service.get("/v1/stuck").body)["wagons"]
    assert (row["refused"], row["message"]["journal"], row["message"]["number"], row["message"]["line"]) == (2, 1, 2, told[2].decode())
    service.post(told[0])
    until_none_is_stuck(service)
    assert service.journal.splitlines() == told
    # Without the option nothing is offered.
    assert service.stop() == 0
    service = start(**fleet).until_running()
    again = journey(random.Random(2), 1, numbers(2)[1])
    service.post([again[1], again[0]])
    time.sleep(1)
    assert len(service.journal.splitlines()) == 5 and "early" not in service.get("/metrics").text


def early(number: int, wagon: str = WAGON, kind: str = "departure", moment: int = START) -> bytes:
    return line(kind=kind, company="1001", number=number, wagon=wagon, place="DE00001", moment=made_up.moment(moment))


def test_how_many_messages_are_kept_aside() -> None:
    kept = EarlyMessages(1)
    for number in range(2 * MOST_OF_A_WAGON):
        kept.take(early(number), b"refused", b"1 refused 32", "a", 0)
    assert [it.key[1] for it in kept] == [str(number) for number in range(MOST_OF_A_WAGON, 2 * MOST_OF_A_WAGON)]
    # Another sender's aren't pushed out.
    kept.take(early(100), b"refused", b"1 refused 33", "b", 0)
    for number in range(1000, 1000 + 2 * MOST_OF_A_SENDER):
        kept.take(early(number, str(number)), b"refused", b"1 refused 32", "a", 0)
    assert len(kept) == MOST_OF_A_SENDER + 1 and [it.sender for it in kept][0] == "b"
    kept.take(early(1)[:-1] + b',"more":"' + b"x" * 1000 + b'"}', b"refused", b"1 refused 32", "c", 0)
    kept.take(b'{"type":"departure","company":"1001","number":1,"wagon":"%b","moment":7}' % WAGON.encode(), b"refused", b"1 refused 32", "c", 0)
    assert len(kept) == MOST_OF_A_SENDER + 1
    kept.drop_old(59)
    assert len(kept) == MOST_OF_A_SENDER + 1
    kept.drop_old(61)
    assert len(kept) == 0


def test_what_makes_a_message_due() -> None:
    kept = EarlyMessages(1)
    late, soon = early(1, moment=START + 60), early(2, moment=START)
    for sent in late, soon, message("1001", 9, WAGON):
        kept.take(sent, b"refused", b"1 refused 32", "a", 0)
    assert kept.due() == {} and not kept.take(early(3, "318127710016"), b"accepted", b"2 accepted 1", "a", 0)
    # An accepted message of the wagon does, where it isn't a later one; then the one that happened first comes first.
    kept.take(early(5, moment=START - 60), b"refused", b"1 refused 32", "a", 0)
    assert kept.take(early(4), b"accepted", b"3 accepted 2", "a", 0)
    assert [it.line for it in kept.due()["a"]] == [soon]
    # Offered and refused it waits for the next one, and the one behind it has its turn.
    kept.take(soon, b"refused", b"4 refused 33", "a", 1000)
    assert [it.line for it in kept.due()["a"]] == [late]
    # What is too old now, or repeated, or accepted, isn't offered any more.
    kept.take(late, b"refused", b"5 refused 31", "a", 0)
    kept.take(message("1001", 9, WAGON), b"repeated", b"6 repeated 1", "a", 0)
    assert [it.line for it in kept] == [soon]
    # Another message of its number says nothing of it.
    kept.take(early(2, kind="release"), b"refused", b"7 refused 31", "a", 0)
    assert len(kept) == 1 and [it.until for it in kept] == [60]
    kept.take(soon, b"accepted", b"8 accepted 3", "a", 0)
    assert len(kept) == 0
