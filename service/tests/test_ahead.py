"""Moments that are far ahead, and how an office is put right."""

import json
from datetime import UTC, datetime, timedelta
from pathlib import Path

import pytest

from conftest import Start
from running import DAY, WAGONS, line, message, order
from test_xml import MAP, movement
from wagons_service.moments import seconds_of

TOKENS = "railway-1001-token railway 1001\ndispatcher-s-token dispatcher\nreader-s-long-token reader\n"


@pytest.fixture
def tokens(tmp_path: Path) -> Path:
    file = tmp_path / "tokens"
    file.write_text(TOKENS)
    return file


def hours_ahead(hours: float) -> str:
    return (datetime.now(UTC) + timedelta(hours=hours)).strftime("%Y-%m-%dT%H:%M:%SZ")


def test_a_railway_sends_no_moment_far_ahead(start: Start, tokens: Path) -> None:
    service = start(options=["--tokens", str(tokens), "--ahead", "2", "--map", str(MAP)]).until_running()
    mine = "railway-1001-token"
    near, far = message("1001", 1, WAGONS[0], moment=hours_ahead(1.9)), message("1001", 2, WAGONS[0], moment=hours_ahead(2.1))
    answer = service.post([near, far], mine)
    assert (answer.status, answer.text) == (422, f"Line 2 of the request names a moment that is too far past this service's clock: {far.decode()}\n")
    assert service.journal == b""
    for moment in ("2099-01-01T00:00:00Z", "20990101t00z", "2099-01-01 00:00+25:59:59[Europe/Berlin]", "+002099-01-01T00:00:00,5Z", r"209\u0039-01-01T00:00Z"):
        odd = message("1001", 3, WAGONS[0]).replace(b"2026-03-02T06:00:00Z", moment.encode())
        assert service.post(odd, mine).status == 422, moment
    xml = movement("A").replace(b"2026-03-02T06:00:00Z", b"2099-01-01T00:00:00Z")
    answer = service.post(xml, mine, "/xml")
    assert answer.status == 422 and answer.text.startswith("Line 1 of the request names a moment that is too far past this service's clock: {")
    assert service.journal == b"" and not (service.folder / "identifiers.jsonl").read_bytes()
    assert service.post(near, mine).replies == ["1 accepted 1"]
    # What is no moment is the program's to refuse.
    none = [near.replace(hours_ahead(1.9)[:4].encode(), b"2099x"), line(kind="release", company="1001"), line(kind="release", company="1001", moment=4)]
    assert [reply.split(" ")[1] for reply in service.post(none, mine).replies] == ["refused"] * 3


def test_all_moments_that_the_program_takes_are_read(start: Start) -> None:
    service = start().until_running()
    texts = [
        "2090-03-02T06:00:00Z", "2090-03-02t06:00:00z", "2090-03-02 06:00:00+00:00", "20900302T060000Z", "20900302T06Z", "2090-03-02T06+0130", "20900302T06:00:00-25",
        "+002090-03-02T06:00:00.123456789Z", "2090-03-02T06:00:60Z", "2090-03-02T06:00:00+01[Europe/Berlin]", "2090-03-02T06:00:00-25:59:59[u-ca=hebrew]", "2090-03-02T060000,5-002959",
        "2090-03-02T06:00:00Z[!+01]", "+0020900302T0600+010203.4", "2090-03-02T06:00:00+01:02:03.9"]
    replies = service.post([message("1001", n, WAGONS[n], moment=text) for n, text in enumerate(texts)]).replies
    assert [reply.split(" ")[1] for reply in replies] == ["accepted"] * len(texts), replies
    sheet = service.post(line(kind="sheet")).replies[0].splitlines()
    last = {row.split(" ")[1]: row.split(" ")[6] for row in sheet if row.startswith("wagon ")}
    for n, text in enumerate(texts):
        read, told = seconds_of(text), datetime.fromisoformat(last[WAGONS[n]]).timestamp()
        assert read is not None and abs(read - told) <= 1, text
    # Others it refuses.
    others = ["2090-03-02", "2090-03-02T06:00:00", "2090-0302T06:00:00Z", " 2090-03-02T06:00:00Z", "2090-02-30T06:00:00Z", "-002090-03-02T06:00:00Z", "090-03-02T06:00:00Z", "2090-W10-1T06:00:00Z"]
    assert not any(map(seconds_of, others))
    replies = service.post([message("1001", 90 + n, WAGONS[n], moment=text) for n, text in enumerate(others)]).replies
    assert [reply.split(" ")[1] for reply in replies] == ["refused"] * len(others)


@pytest.mark.parametrize("text", [
    "2026-03-02T06:00:00Z", "2090-12-31T23:59:60Z", "2096-02-29T24:00:00Z", "2097-02-29T00:00:00Z", "0000-01-01T00:00:00Z", "1969-12-31T23:59:59Z",
    "2090-W10-1T06:00:00Z", "2090-03-02x06:00:00Z", "2090-03-02T06:00+00Z", "2090-03-02T06-00-00Z", "2090-03-02T06:00:0\u0660Z", "20900302T060000.000Z",
    "2090-03-02T06.00.00Z", "2090-03-02T0600:00.Z", "2090-03-02T06:00:00z"])
def test_plain_moments_are_read_as_others(text: str) -> None:
    # What stands in brackets behind a moment says nothing of it, and isn't read the quick way.
    assert seconds_of(text) == seconds_of(f"{text}[UTC]")


def test_a_frozen_wagon_is_put_right(start: Start, tokens: Path) -> None:
    service = start(options=["--tokens", str(tokens)]).until_running()
    first = "dispatcher-s-token"
    service.post((DAY / "day.jsonl").read_bytes(), first)
    frozen, leaving = WAGONS[0], WAGONS[1]
    assert "accepted" in service.post(message("1001", 900, frozen, moment="2099-01-01T00:00:00Z"), first).replies[0]
    assert "refused" in service.post(message("1001", 901, frozen, moment=hours_ahead(0)), first).replies[0]
    promises = [row for row in service.post(line(kind="sheet"), first).replies[0].splitlines() if row.startswith("order ")]
    rows = (DAY / "roster.csv").read_text().splitlines()
    body = json.dumps({"with": f"{rows[0]}\n{rows[1]}\n", "without": [leaving]}).encode()
    for token, sent, status in (
            (first, b"[1]", 400), (first, b'{"with":1}', 400), (first, b'{"without":["\\ud800"]}', 400), (first, b'{"with":"\\ud800"}', 422), (first, b"{", 400),
            (first, b'{"without":["--help"]}', 422), ("reader-s-long-token", body, 403), ("railway-1001-token", body, 403)):
        assert service.post(sent, token, "/next").status == status, sent
    # A promised wagon may not leave; the program's words say so, and the office goes on.
    promised = next(row.split(" ")[8] for row in service.post(line(kind="sheet"), first).replies[0].splitlines() if row.startswith("wagon ") and row[-1] != "-")
    kept = service.post(json.dumps({"without": [WAGONS[2], "318127710024"]}).encode(), first, "/next")
    assert promised and kept.status == 422 and kept.text.startswith("wagons: 89 "), kept.text
    answer = service.post(body, first, "/next")
    assert (answer.status, answer.text) == (200, '{"journal": 2}')
    assert service.post(message("1001", 902, frozen, moment=hours_ahead(0)), first).replies == ["1 accepted 1"]
    sheet = service.post(line(kind="sheet"), first).replies[0]
    assert leaving not in sheet and all(order_row in sheet.splitlines() for order_row in promises if " withdrawn " not in order_row and " filled " not in order_row)
    assert service.post(order("N1"), first).replies == ["4 accepted 2"]
