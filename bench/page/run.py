#!/usr/bin/python3
"""Times the service's page in headless Chromium: bench/page/run.py [CHANGES | --smoke].

A fleet of 1,000 wagons, 2,000 places and 500 orders, of which two thirds are planned. It prints how long the page takes from
its address to the first picture with the whole map, how long after its reply a change is seen (CHANGES of them, 50 where
nothing is said: the median and the worst), and how much memory the page's script holds at first and after 10,000 more lines.
WAGONS=FILE times another build. --smoke takes the example day and three changes, and prints no time.
"""

import json
import os
import statistics
import subprocess
import sys
import tempfile
import time
import urllib.request
from collections.abc import Iterator
from contextlib import contextmanager

HERE = os.path.dirname(os.path.abspath(__file__))
ROOT = os.path.dirname(os.path.dirname(HERE))
sys.path += [f"{ROOT}/tools", f"{ROOT}/service/tests"]
import programs  # noqa: E402
from browsing import Browser  # noqa: E402
from ports import free_port  # noqa: E402

PACKAGES = ("python3-aiohttp", "python3-jinja2", "python3-lxml", "python3-selenium", "graphviz", "chromium", "chromium-driver")
DAY = f"{ROOT}/examples/day"
MORE_LINES, LINES_A_REQUEST = 10_000, 500
# Notes when all places are on the map first, and when each count of lines is shown first, at the next frame.
WATCH = """
window.seen = {};
requestAnimationFrame(function look() {
  const places = document.querySelectorAll("#map-shown circle").length;
  if (places === PLACES && window.firstPicture === undefined) window.firstPicture = performance.now();
  const lines = /([0-9]+) lines/.exec(document.querySelector("#state")?.textContent ?? "");
  if (lines && !(lines[1] in window.seen)) window.seen[lines[1]] = Date.now();
  requestAnimationFrame(look);
});
"""


@contextmanager
def serving(program: str, room: str, fleet: str) -> Iterator[int]:
    port = free_port()
    command = [f"{ROOT}/service/wagons-service", "--journal", f"{room}/journal", "--program", program, "--listen", f"127.0.0.1:{port}",
               "--roster", f"{fleet}/roster.csv", "--network", f"{fleet}/network.csv", "--places", f"{fleet}/places.csv"]
    child = subprocess.Popen(command, stderr=subprocess.DEVNULL)
    try:
        deadline = time.monotonic() + 60
        while True:
            try:
                with urllib.request.urlopen(f"http://127.0.0.1:{port}/health"):
                    break
            except OSError:
                if time.monotonic() > deadline:
                    raise SystemExit("bench/page: the service doesn't start") from None
                time.sleep(0.05)
        yield port
    finally:
        child.terminate()
        child.wait()


def post(port: int, lines: bytes) -> bytes:
    with urllib.request.urlopen(f"http://127.0.0.1:{port}/lines", lines) as answer:
        told: bytes = answer.read()
    return told


def change(k: int, wagon: str) -> bytes:
    """Holds a wagon, or lets it go."""
    fields = {"type": "exception", "company": "0099", "number": k + 1, "wagon": wagon, "place": "DE10003", "moment": "2026-12-31T00:00:00Z", "hold": k % 2 == 0}
    return json.dumps(fields).encode() + b"\n"


def first_wagon(fleet: str) -> str:
    with open(f"{fleet}/roster.csv", encoding="utf-8") as file:
        return file.readlines()[1].partition(",")[0]


def seen_after(page: Browser, port: int, line: int, changed: bytes) -> float:
    """Milliseconds from a change's reply until the page shows it."""
    if b" accepted " not in post(port, changed):
        raise SystemExit("bench/page: a change was refused")
    replied = time.time()
    page.until(lambda: page.run("return arguments[0] in window.seen", str(line)), f"line {line}")
    shown: float = page.run("return window.seen[arguments[0]]", str(line))
    return max(0.0, shown - 1000 * replied)


def held(page: Browser) -> float:
    """Megabytes that the page's script holds, once what it dropped is gone."""
    page.driver.execute_cdp_cmd("HeapProfiler.collectGarbage", {})
    told = page.driver.execute_cdp_cmd("Performance.getMetrics", {})["metrics"]
    return next(float(metric["value"]) for metric in told if metric["name"] == "JSHeapUsedSize") / 1e6


def tried(port: int, wagon: str, lines: bytes, places: int, count: int, more: int) -> tuple[float, list[float], float, float]:
    post(port, lines)
    line = lines.count(b"\n")
    page = Browser(port)
    try:
        page.screen(1280, 800)
        page.driver.execute_cdp_cmd("Page.addScriptToEvaluateOnNewDocument", {"source": WATCH.replace("PLACES", str(places))})
        page.driver.execute_cdp_cmd("Performance.enable", {})
        page.open()
        page.until(lambda: page.run("return window.firstPicture !== undefined"), "the map", 120)
        first: float = page.run("return window.firstPicture")
        page.until_says("#state", f"{line} lines")
        taken = [seen_after(page, port, line + k + 1, change(k, wagon)) for k in range(count)]
        line += count
        before = held(page)
        for at in range(count, count + more, LINES_A_REQUEST):
            post(port, b"".join(change(k, wagon) for k in range(at, min(at + LINES_A_REQUEST, count + more))))
        page.until_says("#state", f"{line + more} lines", 300)
        return first, taken, before, held(page)
    finally:
        page.driver.quit()


def main(arguments: list[str]) -> None:
    is_smoke = arguments == ["--smoke"]
    program = programs.find("wagons", os.environ.get("WAGONS", ""))
    subprocess.run([f"{ROOT}/tools/packages", "bench/page", *PACKAGES], check=True)
    with tempfile.TemporaryDirectory() as room:
        if is_smoke:
            with serving(program, room, DAY) as port, open(f"{DAY}/day.jsonl", "rb") as file:
                tried(port, first_wagon(DAY), b"".join(file.readlines()[:10]), 12, 3, 4)
            print("bench/page: the map, three changes and four more lines were shown")
            return
        subprocess.run([sys.executable, f"{ROOT}/examples/fleet.py", program, room, "1000", "2000", "500"], check=True)
        with serving(program, room, room) as port, open(f"{room}/fleet.jsonl", "rb") as file:
            count = int(arguments[0]) if arguments else 50
            first, taken, before, after = tried(port, first_wagon(room), file.read(), 2000, count, MORE_LINES)
    print(f"1,000 wagons, 500 orders, 2,000 places: the first whole picture after {first / 1000:.2f} s (aim 1.00)")
    print(f"a change is shown after its reply: median {statistics.median(taken):.0f} ms, worst {max(taken):.0f} ms (aim 100)")
    print(f"the script holds {before:.0f} MB at first, {after:.0f} MB after {MORE_LINES:,} more lines (aim 150)")


if __name__ == "__main__":
    main(sys.argv[1:])
