"""The page of a large office: 1,000 wagons, 500 orders and 2,000 places, 20,000 rows; and how the map is laid out."""

import json
import os
import re
import subprocess
import sys
import time
from pathlib import Path

import pytest
from selenium.webdriver.common.keys import Keys

from browsing import Browser, seconds_since
from conftest import ROOT, Browse, Start
from running import DAY, Service, order

# A generous bound: a frame is drawn 60 times a second where the machine does nothing else.
LEAST_FRAMES = 15
SECONDS_OF_PANNING = 3.0


@pytest.fixture(scope="session")
def fleet(program: str, tmp_path_factory: pytest.TempPathFactory) -> Path:
    """A fleet of 1,000 wagons, 2,000 places and 500 orders, of which two thirds are planned."""
    folder = tmp_path_factory.mktemp("fleet")
    subprocess.run([sys.executable, str(ROOT / "examples" / "fleet.py"), program, str(folder), "1000", "2000", "500"], check=True)
    return folder


def served(start: Start, fleet: Path, options: list[str]) -> Service:
    service = start(roster=fleet / "roster.csv", networks=[fleet / "network.csv"], options=options).until_running()
    assert service.post((fleet / "fleet.jsonl").read_bytes()).status == 200
    return service


def drawn(page: Browser, places: int) -> None:
    page.until(lambda: page.run("return document.querySelectorAll('#map-shown circle').length") == places, f"{places} places on the map", 90)


def test_one_screen(start: Start, browse: Browse, fleet: Path) -> None:
    service = served(start, fleet, ["--places", str(fleet / "places.csv"), "--zone", "Europe/Berlin"])
    page = browse(service)
    page.screen(1280, 800)
    page.open()
    drawn(page, 2000)
    page.until_says("#short-count", "1")
    size = "return [document.documentElement.scrollWidth, document.documentElement.scrollHeight]"
    assert page.run(size) == [1280, 800]
    inside = """return [...document.querySelectorAll(arguments[0])].filter((one) => one.offsetParent).map((one) => one.getBoundingClientRect())
      .every((one) => one.left >= 0 && one.top >= 0 && one.right <= 1280 && one.bottom <= 800 && one.width > 100 && one.height > 20)"""
    assert page.run(inside, "#short, #refusals, #capacity, #map-shown, #right, [role=tablist]")
    page.driver.save_screenshot(str(ROOT / "out" / "page_large.png"))
    page.tab("orders")
    page.until_says("#orders-shown", "500 of 500")
    assert page.run(size) == [1280, 800] and page.run(inside, "#orders-rows, #right")
    # Only what one looks at is drawn, and all of it is found: by name, class and place.
    assert len(page.rows("#orders-table")) < 80
    page.fill("#orders-search", "O499")
    page.until_says("#orders-shown", "1 of 500")
    page.tab("wagons")
    name = page.rows("#wagons-table")[0][5]
    page.fill("#wagons-search", f"{name} eanos")
    page.until(lambda: page.rows("#wagons-table") and all(name in row[5] and row[1] == "Eanos" for row in page.rows("#wagons-table")) or not page.rows("#wagons-table"), "a place's wagons")
    page.driver.save_screenshot(str(ROOT / "out" / "page_tables.png"))
    assert page.faults == []


def frames_while_panning(page: Browser) -> float:
    """Frames a second, while the map is drawn about by the mouse."""
    page.run("""window.frames_ = 0; window.isCounting = true;
      requestAnimationFrame(function count() { window.frames_ += 1; if (window.isCounting) requestAnimationFrame(count); })""")
    left, top = page.run("const box = document.querySelector('#map-shown').getBoundingClientRect(); return [box.left + box.width / 2, box.top + box.height / 2]")

    def mouse(kind: str, x: float, y: float) -> None:
        page.driver.execute_cdp_cmd("Input.dispatchMouseEvent", {
            "type": kind, "x": x, "y": y, "button": "left", "buttons": 1, "clickCount": 1})

    mouse("mousePressed", left, top)
    begun, step = time.monotonic(), 0
    first = page.run("return [window.frames_, document.querySelector('#map-shown g').getAttribute('transform')]")
    while seconds_since(begun) < SECONDS_OF_PANNING:
        step += 1
        mouse("mouseMoved", left + 5 * (step % 40), top + 3 * (step % 30))
    last = page.run("return [window.frames_, document.querySelector('#map-shown g').getAttribute('transform')]")
    seconds = seconds_since(begun)
    mouse("mouseReleased", left, top)
    page.run("window.isCounting = false")
    assert first[1] != last[1] and step > 20, step
    frames: int = last[0] - first[0]
    return frames / seconds


def test_the_map_is_panned(start: Start, browse: Browse, fleet: Path) -> None:
    page = browse(served(start, fleet, ["--places", str(fleet / "places.csv")]))
    page.screen(1280, 800)
    page.open()
    drawn(page, 2000)
    assert page.run("return document.querySelectorAll('#map-shown .moves path').length") > 100
    far = frames_while_panning(page)
    for _ in range(6):
        page.click("#map-nearer")
    page.until(lambda: " km" in page.find("#map-shown .labels").get_attribute("textContent"), "kilometres near by")
    near = frames_while_panning(page)
    print(f"frames a second: {far:.0f} where all is seen, {near:.0f} near by")
    assert far > LEAST_FRAMES and near > LEAST_FRAMES
    page.driver.save_screenshot(str(ROOT / "out" / "page_near.png"))
    # Two fingers move it nearer.
    scale = "return Number(document.querySelector('#map-shown g').getAttribute('transform').match(/scale\\(([^)]*)/)[1])"
    before = page.run(scale)
    for kind, gap in ("touchStart", 40), ("touchMove", 80), ("touchMove", 160), ("touchEnd", 0):
        points = [{"x": 640 - gap, "y": 400, "id": 1}, {"x": 640 + gap, "y": 400, "id": 2}] if gap else []
        page.driver.execute_cdp_cmd("Input.dispatchTouchEvent", {"type": kind, "touchPoints": points})
    page.until(lambda: page.run(scale) > 2 * before, "nearer by two fingers", 5)
    page.click("#map-all")
    page.until(lambda: page.run(scale) < before, "all of it", 5)


def test_twenty_thousand_rows(start: Start, browse: Browse) -> None:
    service = start().until_running()
    for first in range(0, 20_000, 5_000):
        lines = [it for k in range(first, first + 5_000) for it in (order(f"O{k:05}"), b'{"type":"withdraw","order":"O%05d"}' % k)]
        assert service.post(lines).status == 200
    page = browse(service)
    page.screen(1280, 800)
    page.open("/#orders")
    page.until_says("#state", "40000 lines")
    page.choose("#orders-filter", "all")
    page.until_says("#orders-shown", "20000 of 20000")
    assert len(page.rows("#orders-table")) < 80 and page.find("#orders-table").get_attribute("aria-rowcount") == "20001"
    begun = time.monotonic()
    page.fill("#orders-search", "o1234")
    page.until_says("#orders-shown", "10 of 20000")
    page.fill("#orders-search", "")
    page.until_says("#orders-shown", "20000 of 20000")
    page.click('#orders-table [data-column="order"]')
    page.click('#orders-table [data-column="order"]')
    page.until(lambda: page.rows("#orders-table")[0][0] == "O19999", "the last order first")
    assert seconds_since(begun) < 15
    # By the keyboard to the other end, and a page back.
    page.press('#orders-table [data-row="O19999"]', Keys.END)
    page.until(lambda: page.run("return document.activeElement.dataset.row") == "O00000", "the last row")
    page.press_here(Keys.PAGE_UP)
    row = page.run("return document.activeElement.dataset.row")
    assert "O00005" < row < "O00060", row
    page.press_here(Keys.ENTER)
    page.until_says("#chosen-shown h3", row)
    # Something happens, and the keyboard stays where it is.
    service.post(order("LAST"))
    page.until_says("#orders-shown", "of 20001")
    assert page.run("return document.activeElement.dataset.row") == row


def network(service: Service) -> dict[str, object]:
    told: dict[str, object] = json.loads(service.get("/network").body)
    return told


def until_laid_out(service: Service) -> dict[str, object]:
    begun = time.monotonic()
    while (told := network(service))["waits"]:
        assert seconds_since(begun) < 60
        time.sleep(0.1)
    return told


def test_a_map_without_coordinates(start: Start, browse: Browse, tmp_path: Path) -> None:
    service = start().until_running()
    told = until_laid_out(service)
    places = told["places"]
    assert isinstance(places, list) and len(places) == 12 and all(at for _, _, at, _ in places) and told["words"] == ""
    assert len({tuple(at) for _, _, at, _ in places}) == 12
    page = browse(service).open()
    drawn(page, 12)
    page.until(lambda: "60 km" in page.find("#map-shown .labels").get_attribute("textContent"), "kilometres")
    service.stop()
    # Where one place has none, the others stay where they lie, and it is set beside those to which it has lines.
    rows = [row for row in (DAY / "places.csv").read_text().splitlines() if not row.startswith("DE10006")]
    (tmp_path / "places.csv").write_text("\n".join([*rows, "DE10006,Kiesgrube,,"]) + "\n")
    told = until_laid_out(start(options=["--places", str(tmp_path / "places.csv")]).until_running())
    at = {code: (name, where) for code, name, where, _ in told["places"]}  # type: ignore[attr-defined]
    assert at["DE10005"] == ("Hüttenstadt", [150, 220]) and at["DE10006"][0] == "Kiesgrube"
    x, y = at["DE10006"][1]
    # Between Hüttenstadt, Lindenau and Horka.
    assert 130 < x < 250 and 110 < y < 220, (x, y)


def test_two_thousand_places_are_laid_out(start: Start, fleet: Path) -> None:
    told = until_laid_out(served(start, fleet, []))
    places = told["places"]
    assert isinstance(places, list) and len(places) == 2000 and all(at for _, _, at, _ in places), told["words"]


@pytest.mark.parametrize("script, words", [("echo the disk is gone >&2; exit 3", "the disk is gone"), ("exec sleep 600", "")])
def test_a_layout_that_fails_or_takes_long(start: Start, tmp_path: Path, monkeypatch: pytest.MonkeyPatch, script: str, words: str) -> None:
    folder = tmp_path / "bin"
    folder.mkdir()
    (folder / "neato").write_text(f"#!/bin/sh\necho once >> {tmp_path}/times\n{script}\n")
    (folder / "neato").chmod(0o755)
    monkeypatch.setenv("PATH", f"{folder}:{os.environ['PATH']}")
    service = start().until_running()
    assert network(service)["waits"]
    if words:
        assert words in str(until_laid_out(service)["words"])
    # It was begun once, and the state waits for none.
    for k in range(5):
        service.post(order(f"O{k}"))
        begun = time.monotonic()
        told = json.loads(service.get("/office").body)
        assert told["line"] == k + 1 and re.search(rf"^order O{k} ", told["sheet"], re.M)
        network(service)
        assert seconds_since(begun) < 2
    assert (tmp_path / "times").read_text() == "once\n"
