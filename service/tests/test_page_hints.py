"""What the form of an order says at its fields before the order is sent. It only tells: the program alone refuses."""

from pathlib import Path

from browsing import Browser
from conftest import Browse, Start
from running import DAY, line, message
from test_page_notes import HELD, until_said
from test_state import LINES

PLACES = ["--places", str(DAY / "places.csv")]
FIELDS = ("place", "classes", "load", "latest")
UNKNOWN = {"place": "DE99999", "classes": "Habbins, Zzz", "load": "52001", "latest": "2026-03-02T08:39:59Z"}
SAID = {
    "place": "The network in force doesn't have the place DE99999.",
    "classes": "No wagon of the office is of class Zzz.",
    "load": "No wagon of these classes carries 52001 kg; the most is 52000 kg.",
    "latest": "This moment is before some wagon's last message, 2026-03-02T08:40:00Z."}
KNOWN = {"place": "DE10003", "classes": "Habbins,Falns", "load": "52000", "latest": "2026-03-02T09:40:00+01:00"}


def hints(page: Browser) -> dict[str, str]:
    """What is said at the fields, where something is."""
    return {field: words for field in FIELDS if (words := page.find(f"#hint-{field}").text)}


def until_hints(page: Browser, wanted: dict[str, str]) -> None:
    page.until(lambda: hints(page) == wanted, f"{wanted}", 20)


def test_hints_before_sending(start: Start, browse: Browse) -> None:
    service = start(options=PLACES).until_running()
    service.post(LINES)
    page = browse(service).open("/#new_order")
    page.until_says("#state", "26 lines")
    assert hints(page) == {}
    # Each field by itself, before another one has the keyboard; nothing moves meanwhile.
    top = page.find("#order-send").location["y"]
    for field, words in UNKNOWN.items():
        page.fill(f"#order-{field}", words)
        until_hints(page, {name: SAID[name] for name in list(SAID)[:list(SAID).index(field) + 1]})
        assert page.find("#order-send").location["y"] == top
        described = page.find(f"#order-{field}").get_attribute("aria-describedby")
        assert described == f"hint-{field} wrong-{field}"
    for field, words in KNOWN.items():
        page.fill(f"#order-{field}", words)
    until_hints(page, {})
    # Of several classes all that nobody has are named; a load is compared with wagons of the others.
    page.fill("#order-classes", "zzz,Habbins,Eano")
    until_hints(page, {"classes": "No wagon of the office is of class zzz, Eano."})
    page.fill("#order-classes", "Zzz")
    page.fill("#order-load", "99000")
    until_hints(page, {"classes": SAID["classes"]})
    # Only moments with a zone are compared.
    page.fill("#order-latest", "2020-03-02T08:39:59")
    page.fill("#order-classes", "Habbins")
    until_hints(page, {"load": "No wagon of these classes carries 99000 kg; the most is 52000 kg."})
    assert len(service.kept) == 26 and page.faults == []


def test_hints_change_with_the_office(start: Start, browse: Browse, tmp_path: Path) -> None:
    # The second network is without Lindenau.
    rows = [row for row in (DAY / "network.csv").read_text().splitlines() if "DE10003" not in row]
    (tmp_path / "smaller.csv").write_text("\n".join([*rows, ""]))
    service = start(options=PLACES, networks=[DAY / "network.csv", tmp_path / "smaller.csv"]).until_running()
    service.post(LINES)
    page = browse(service).open("/#new_order")
    page.until_says("#state", "26 lines")
    for field, words in {"order": "NEW-1", "penalty": "400", **KNOWN}.items():
        page.fill(f"#order-{field}", words)
    page.fill("#order-classes", "Habbins")
    until_hints(page, {})
    service.post([message("1003", 77, HELD, hold=True, moment="2026-03-02T11:00:00Z"), line(kind="network", revision=2)])
    wanted = {"place": "The network in force doesn't have the place DE10003.", "latest": "This moment is before some wagon's last message, 2026-03-02T11:00:00Z."}
    until_hints(page, wanted)
    # The program takes the order, and notes the same where it is so; the form is empty behind it.
    page.click("#order-send")
    page.until_says("#said", "The order is placed: entry")
    until_hints(page, {})
    until_said(page, "Order NEW-1: its latest moment 2026-03-02T08:40:00Z is before some wagon's last message.")
    # A place is chosen for an order by a button.
    page.tab("places")
    page.choose("#places-filter", "all")
    page.click('#places-table [data-row="DE10003"]')
    page.click('#chosen-shown [data-key="order here"]')
    until_hints(page, {"place": wanted["place"]})
    assert page.faults == []


def test_a_moment_in_the_zone(start: Start, browse: Browse) -> None:
    service = start(options=[*PLACES, "--zone", "Europe/Berlin"]).until_running()
    service.post(LINES)
    page = browse(service).open("/#new_order")
    page.until_says("#state", "26 lines")
    page.fill("#order-latest", UNKNOWN["latest"])
    until_hints(page, {"latest": "This moment is before some wagon's last message, 2026-03-02 09:40 +01:00."})
