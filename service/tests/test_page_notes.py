"""Notes on the page: what a line did that a person should hear of, as one sentence each; it comes by itself, and goes on."""

import json
import os
import time
from collections.abc import Iterator
from pathlib import Path

import pytest

from browsing import Browser, Proxy, seconds_since
from conftest import Browse, Start
from running import DAY, Service, line, message, order
from test_notes import MALT, NOTES
from test_state import LINES

PLACES = ["--places", str(DAY / "places.csv")]
SALT, HELD = "318127710024", "315466400019"
# The newest ones first, as people read them; by hand from the notes of the day.
SAID = [
    (25, "Wagon 3181 2771 001-6: a message was refused (33). It is in a yard, empty at Moorburg, last message 2026-03-02T08:20:00Z."),
    (24, "The promise of wagon 3180 5370 007-2 to SCRAP-1 ended: the order is withdrawn."),
    (24, "The promise of wagon 3180 5370 005-6 to SCRAP-1 ended: the order is withdrawn."),
    (19, "Wagon 3154 6640 008-4 is delivered to SUGAR-1."),
    (18, "Order SUGAR-1 now lacks 1 of its wagons."),
    (18, "The promise of wagon 3154 6640 007-6 to SUGAR-1 ended: the wagon is held."),
    (15, "Order STEEL-1 has all its wagons, in time."),
    (15, "Wagon 3181 2771 003-2 is delivered to STEEL-1."),
    (10, "Order SUGAR-1 lacks no wagon now.")]
# The requests for notes that the page has sent.
QUESTIONS = "return performance.getEntriesByType('resource').filter(({ name }) => name.includes('/v1/notes')).length"
# What a service answers to a role that may not read notes.
FORBIDDEN = """
const fetchNow = window.fetch;
window.fetch = async (address, ...rest) => {
  if (!/notes/.test(address)) return fetchNow(address, ...rest);
  window.refused_ = (window.refused_ ?? 0) + 1;
  return new Response("This token doesn't see notes.", { status: 403, headers: { "Content-Type": "text/plain" } });
};
"""


def said(page: Browser, many: int) -> list[tuple[int, str]]:
    """The newest notes that are shown, with their lines."""
    return [(int(number), words) for number, words in page.rows("#notes-table")[:many]]


def until_said(page: Browser, *wanted: str, seconds: float = 30) -> None:
    """The newest notes are these; the newest one first."""
    shown: list[str] = []

    def holds() -> bool:
        shown[:] = [words for _, words in said(page, len(wanted))]
        return shown == [*wanted]

    try:
        page.until(holds, "", seconds)
    except Exception:
        raise AssertionError(f"the page says {shown}, not {wanted}") from None


def move(kind: str, wagon: str, place: str, moment: str, number: int) -> bytes:
    return line(kind=kind, company="1001", number=number, wagon=wagon, place=place, moment=f"2026-03-02T{moment}Z")


def held(moment: str = "2026-03-02T13:11:00Z", hold: bool = True, number: int = 77) -> bytes:
    return message("1003", number, HELD, hold=hold, moment=moment)


@pytest.fixture
def proxies() -> Iterator[list[Proxy]]:
    opened: list[Proxy] = []
    yield opened
    for proxy in opened:
        proxy.end()


def test_the_notes_of_the_day(start: Start, browse: Browse) -> None:
    service = start(options=PLACES).until_running()
    service.post(LINES)
    page = browse(service).open()
    until_said(page, *(words for _, words in SAID))
    assert said(page, len(SAID)) == SAID and page.find("#notes-count").text == str(len(NOTES))
    # One chooses its wagon or its order by it.
    page.click("#notes-table tr[data-row]:nth-child(2)")
    page.until_says("#chosen-shown h3", "3181 2771 001-6")
    page.click("#notes-table tr[data-row]:nth-child(6)")
    page.until_says("#chosen-shown h3", "SUGAR-1")
    # Nothing happens, and nobody is asked; then something happens, and is seen by itself.
    time.sleep(3)
    questions = page.run(QUESTIONS)
    assert questions <= 2
    time.sleep(4)
    assert page.run(QUESTIONS) == questions
    begun = time.monotonic()
    service.post([held()])
    until_said(page, "Order SALT-1 is overdue since 2026-03-02T09:00:00Z, with 1 missing and 1 promised.",
               "Order MALT-1 is overdue since 2026-03-02T12:00:00Z, with 0 missing and 1 promised.", *(words for _, words in SAID[:3]))
    assert seconds_since(begun) < 5 and page.run(QUESTIONS) == questions + 1
    # A line without a note brings no question.
    service.post([held("2026-03-02T13:12:00Z", False, 78)])
    page.until_says("#state", "28 lines")
    time.sleep(2)
    assert page.run(QUESTIONS) == questions + 1 and page.faults == []


def test_each_kind_of_note(start: Start, browse: Browse) -> None:
    service = start().until_running()
    service.post(LINES.splitlines()[:10])
    page = browse(service).open()
    page.until_says("#notes-count", "12")
    far = line(kind="arrival", company="1001", number=9, wagon="318053700056", place="DE10001", moment="2027-03-02T12:00:00Z")
    for lines, wanted in (
        ([order("A", place="DE99999")], ["Order A: no given network has its place DE99999."]),
        ([order("B", classes=["Zzz"])], ["Order B: no wagon of the office is of its classes."]),
        ([order("C", load=99000)], ["Order C: no wagon of its classes carries its load of 99000 kg."]),
        ([order("D", latest="2026-02-01T00:00:00Z")], ["Order D: its latest moment 2026-02-01T00:00:00Z is before some wagon's last message."]),
        ([move("departure", MALT, "DE10001", "09:00:00", 11), move("arrival", MALT, "DE10003", "12:00:00", 12), move("delivery", MALT, "DE10003", "12:20:30", 13)],
         ["Order C is overdue since 2026-03-02T12:00:00Z, with 1 missing and 0 promised."]),
        ([move("departure", SALT, "AT30002", "12:30:00", 14), move("arrival", SALT, "DE10001", "12:40:00", 15), move("delivery", SALT, "DE10001", "12:50:00", 16)],
         ["Order SALT-1 now lacks 2 of its wagons.", "The promise of wagon 3181 2771 002-4 to SALT-1 ended: the wagon was delivered at another place."]),
        ([move("arrival", SALT, "DE10001", "12:55:00", 17), move("arrival", SALT, "DE10001", "12:56:00", 18)],
         ["Wagon 3181 2771 002-4: 2 messages were refused, now with 32. It is empty at DE10001, last message 2026-03-02T12:50:00Z."]),
        ([far, move("arrival", MALT, "DE10003", "12:57:00", 19)], ["The message of wagon 3180 5370 005-6 in line 23 has a moment far ahead, 2027-03-02T12:00:00Z."]),
    ):
        service.post(lines)
        until_said(page, *wanted)
    page.until(lambda: "Order MALT-1 has all its wagons, 21 min late." in [words for _, words in said(page, 100)], "an order that was filled late")
    assert page.faults == []


def test_only_the_newest_notes(start: Start, browse: Browse, tmp_path: Path) -> None:
    """Names from a file are text in a sentence, and moments are those of the zone."""
    (tmp_path / "places.csv").write_text("place,name,x,y\nDE10001,<img src=x onerror=document.title='hit'>,1,2\n")
    service = start(options=["--places", str(tmp_path / "places.csv"), "--zone", "Europe/Berlin"]).until_running()
    service.post([order(f"O{k}", classes=["Zzz"]) for k in range(150)])
    service.post([move("delivery", MALT, "DE10003", "12:20:30", 1)])
    page = browse(service).open()
    until_said(page, "Wagon 3181 2771 001-6: a message was refused (32). It is empty at <img src=x onerror=document.title='hit'>, "
               "last message 2026-03-01 20:00 +01:00.", "Order O149: no wagon of the office is of its classes.")
    assert page.find("#notes-count").text == "100" and page.driver.title == "Fleet office"
    assert page.find("#notes-table time").get_attribute("datetime") == "2026-03-01T19:00:00Z"
    page.run("document.querySelector('#notes-rows').scrollTop = 1e6")
    page.until(lambda: page.rows("#notes-table")[-1] == ["52", "Order O51: no wagon of the office is of its classes."], "the last of them")
    assert len(page.rows("#notes-table")) < 60
    service.post([order("NEW", classes=["Zzz"])])
    page.run("document.querySelector('#notes-rows').scrollTop = 0")
    until_said(page, "Order NEW: no wagon of the office is of its classes.")
    assert page.find("#notes-count").text == "100" and page.faults == []


def test_notes_go_on(start: Start, browse: Browse, proxies: list[Proxy]) -> None:
    """After a restart, a proxy's errors and a new journal."""
    service = start(options=PLACES).until_running()
    proxies.append(Proxy(service.port))
    page = browse(proxies[0].port)
    service.post(LINES)
    page.open()
    page.run("window.isSame = true")
    until_said(page, SAID[0][1])
    proxies[0].answer_502(5)
    service.post([order("A", classes=["Zzz"])])
    until_said(page, "Order A: no wagon of the office is of its classes.", SAID[0][1])
    port = service.port
    service.stop()
    page.until_says("#state", "The connection is lost")
    again = start(options=[*PLACES, "--listen", f"127.0.0.1:{port}"]).until_running()
    again.post([order("B", classes=["Zzz"])])
    until_said(page, "Order B: no wagon of the office is of its classes.", "Order A: no wagon of the office is of its classes.", SAID[0][1])
    # A new journal has notes of its own, whose lines are counted from 1 again.
    assert again.post(b"", path="/next").status == 200
    page.until_says("#notes-rows", "No line has a note yet.")
    assert page.find("#notes-count").text == "0"
    again.post([line(kind="withdraw", order="SUGAR-1")])
    until_said(page, "The promise of wagon 3154 6640 006-8 to SUGAR-1 ended: the order is withdrawn.")
    assert said(page, 9) == [(1, "The promise of wagon 3154 6640 006-8 to SUGAR-1 ended: the order is withdrawn.")]
    # One begins while nobody looks, with more lines than the page knew.
    page.driver.switch_to.new_window("tab")
    assert again.post(b"", path="/next").status == 200
    again.post([order(f"C{k}", classes=["Zzz"]) for k in range(3)])
    page.driver.close()
    page.driver.switch_to.window(page.driver.window_handles[0])
    until_said(page, *(f"Order C{k}: no wagon of the office is of its classes." for k in (2, 1, 0)))
    assert page.find("#notes-count").text == "3" and page.run("return window.isSame")


def test_a_program_without_notes(start: Start, browse: Browse, tmp_path: Path, program: str) -> None:
    """The page says why there are none, and shows the rest."""
    other = tmp_path / "program"
    broken = tmp_path / "broken"
    broken.touch()
    other.write_text(f'#!/bin/sh\nif [ "$1" = review ] && [ -e {broken} ]; then echo "no notes here" >&2; exit 2; fi\nexec {os.path.abspath(program)} "$@"\n')
    other.chmod(0o755)
    service = start(program=str(other)).until_running()
    service.post(LINES)
    page = browse(service).open()
    page.until_says("#notes-fault", "Notes can't be shown now; it is tried again. There are no notes now: no notes here")
    page.until_says("#state", "26 lines")
    broken.unlink()
    page.until_says("#notes-count", str(len(NOTES)))
    assert page.find("#notes-fault").text == ""


def test_a_role_that_may_not_read_notes(start: Start, browse: Browse) -> None:
    """It sees no such section, and the page goes on without it."""
    service = start(options=PLACES).until_running()
    service.post(LINES)
    page = browse(service, "--disable-shared-workers")
    page.driver.execute_cdp_cmd("Page.addScriptToEvaluateOnNewDocument", {"source": FORBIDDEN})
    page.open("/#orders")
    page.until(lambda: page.run("return window.refused_") >= 2, "a question and a stream that are refused")
    page.until_says("#state", "26 lines")
    assert not page.find("#notes").is_displayed()
    # The stream without notes goes on to tell of the rest.
    begun = time.monotonic()
    service.post([order("O1", classes=["Zzz"])])
    page.until(lambda: "O1" in [row[0] for row in page.rows("#orders-table")], "the order")
    assert seconds_since(begun) < 5 and not page.find("#notes").is_displayed() and asked_notes(service)[-1] == {"line": 27, "note": "class", "order": "O1"}


def asked_notes(service: Service) -> list[dict[str, object]]:
    notes: list[dict[str, object]] = json.loads(service.get("/v1/notes").body)["notes"]
    return notes
