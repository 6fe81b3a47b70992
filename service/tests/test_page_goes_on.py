"""The page goes on by itself, whatever happens between it and the service; and all tabs of a browser share one stream."""

import os
import re
import signal
import time
from collections.abc import Iterator
from pathlib import Path

import pytest

from browsing import Browser, Proxy, seconds_since
from conftest import Browse, Start
from running import WAGONS, Service, message, order

# Within so many seconds the page has gone on.
MOST_SECONDS = 5.0
TABS = 20
# A stream is opened two seconds late.
LATE_EVENTS = """
const fetchNow = window.fetch;
window.fetch = async (address, ...rest) => {
  if (address.startsWith("/events")) await new Promise((done) => setTimeout(done, 2000));
  return fetchNow(address, ...rest);
};
"""


@pytest.fixture
def proxies() -> Iterator[list[Proxy]]:
    opened: list[Proxy] = []
    yield opened
    for proxy in opened:
        proxy.end()


def opened(page: Browser) -> Browser:
    """The page, which is marked, so that a reload is seen."""
    page.open("/#orders")
    page.until_says("#state", "The office runs")
    page.run("window.isSame = true")
    return page


def until_it_shows(page: Browser, name: str, begun: float) -> None:
    page.until(lambda: name in [row[0] for row in page.rows("#orders-table")], name, 30)
    assert seconds_since(begun) < MOST_SECONDS and page.run("return window.isSame")


def listeners(service: Service) -> int:
    found = re.search(r"^wagons_listeners ([0-9]+)$", service.get("/metrics").text, re.M)
    assert found
    return int(found[1])


def until_listeners(service: Service, count: int) -> None:
    begun = time.monotonic()
    while listeners(service) != count:
        assert seconds_since(begun) < 30, listeners(service)
        time.sleep(0.1)


def test_after_a_restart(start: Start, browse: Browse) -> None:
    service = start().until_running()
    page = opened(browse(service))
    port = service.port
    service.stop()
    page.until_says("#state", "The connection is lost")
    time.sleep(10)
    again = start(options=["--listen", f"127.0.0.1:{port}"]).until_running()
    begun = time.monotonic()
    page.until_says("#state", "The office runs", 30)
    assert seconds_since(begun) < MOST_SECONDS and page.run("return window.isSame")
    begun = time.monotonic()
    again.post([message("1001", 1, WAGONS[0]), order("O1")])
    until_it_shows(page, "O1", begun)


def test_after_502_of_a_proxy(start: Start, browse: Browse, proxies: list[Proxy]) -> None:
    service = start().until_running()
    proxies.append(Proxy(service.port))
    page = opened(browse(proxies[0].port))
    # Once, and for all that a page asks in some seconds.
    for name, times in ("ONCE", 1), ("OFTEN", 8):
        until_listeners(service, 1)
        proxies[0].answer_502(times)
        begun = time.monotonic()
        service.post(order(name))
        if times == 1:
            until_it_shows(page, name, begun)
        else:
            page.until(lambda: name in [row[0] for row in page.rows("#orders-table")], name, 60)  # noqa: B023
    # The stream is there again too: what comes now is shown at once.
    until_listeners(service, 1)
    begun = time.monotonic()
    service.post(order("LAST"))
    until_it_shows(page, "LAST", begun)


def chromium(page: Browser) -> list[int]:
    """The processes of a browser."""
    found, queue = [], [page.driver.service.process.pid]
    while queue:
        pid = queue.pop()
        for task in Path(f"/proc/{pid}/task").glob("*/children"):
            queue += map(int, task.read_text().split())
        found.append(pid)
    return found[1:]


def test_after_a_sleep(start: Start, browse: Browse, proxies: list[Proxy]) -> None:
    service = start().until_running()
    proxies.append(Proxy(service.port))
    page = opened(browse(proxies[0].port))
    until_listeners(service, 1)
    pids = chromium(page)
    for pid in pids:
        os.kill(pid, signal.SIGSTOP)
    proxies[0].forget()
    service.post(order("O1"))
    time.sleep(8)
    for pid in pids:
        os.kill(pid, signal.SIGCONT)
    until_it_shows(page, "O1", time.monotonic())
    service.post(order("O2"))
    until_it_shows(page, "O2", time.monotonic())


def test_with_a_new_journal_and_another_role(start: Start, browse: Browse, tmp_path: Path) -> None:
    tokens = tmp_path / "tokens"
    tokens.write_text("token-of-the-browser reader name=a.becker\ntoken-of-someone-else dispatcher\n")
    service = start(options=["--tokens", str(tokens)]).until_running()
    page = browse(service).open("/login")
    page.fill("input[name=token]", "token-of-the-browser")
    page.find("button").click()
    page = opened(page)
    begun = time.monotonic()
    assert service.post(b"", "token-of-someone-else", "/next").status == 200
    page.until_says("#state", "0 lines in journal 2", 30)
    assert seconds_since(begun) < MOST_SECONDS
    begun = time.monotonic()
    service.post(order("O1"), "token-of-someone-else")
    until_it_shows(page, "O1", begun)
    # A reader becomes a dispatcher.
    assert not page.find("#tab-new_order").is_displayed()
    tokens.write_text("token-of-the-browser dispatcher name=a.becker\ntoken-of-someone-else dispatcher\n")
    begun = time.monotonic()
    service.process.send_signal(signal.SIGHUP)
    page.until(lambda: page.find("#tab-new_order").is_displayed(), "a dispatcher's parts", 30)
    assert seconds_since(begun) < MOST_SECONDS and page.run("return window.isSame")
    # The token is taken away, and given back.
    tokens.write_text("token-of-someone-else dispatcher\n")
    begun = time.monotonic()
    service.process.send_signal(signal.SIGHUP)
    page.until_says("#state", "A token is needed that this service knows", 30)
    assert seconds_since(begun) < MOST_SECONDS
    tokens.write_text("token-of-the-browser reader name=a.becker\ntoken-of-someone-else dispatcher\n")
    begun = time.monotonic()
    service.process.send_signal(signal.SIGHUP)
    page.until_says("#state", "The office runs", 30)
    assert seconds_since(begun) < MOST_SECONDS and page.run("return window.isSame")
    begun = time.monotonic()
    service.post(order("O2"), "token-of-someone-else")
    until_it_shows(page, "O2", begun)


def in_tabs(page: Browser) -> list[str]:
    """Opens the page in as many tabs as a browser opens connections to a host, and more."""
    opened(page)
    for _ in range(TABS - 1):
        page.driver.switch_to.new_window("tab")
        opened(page)
    tabs: list[str] = page.driver.window_handles
    assert len(tabs) == TABS
    return tabs


def show_in_all(page: Browser, tabs: list[str], name: str) -> None:
    for tab in tabs:
        page.driver.switch_to.window(tab)
        until_it_shows(page, name, time.monotonic())


def test_twenty_tabs_share_one_stream(start: Start, browse: Browse) -> None:
    service = start().until_running()
    page = browse(service)
    tabs = in_tabs(page)
    assert listeners(service) == 1
    service.post(order("O1"))
    show_in_all(page, tabs, "O1")
    # The tab that was opened first is closed, and the others go on.
    page.driver.switch_to.window(tabs[0])
    page.driver.close()
    service.post(order("O2"))
    show_in_all(page, tabs[1:], "O2")
    until_listeners(service, 1)


def test_without_shared_workers_one_tab_follows_for_all(start: Start, browse: Browse) -> None:
    service = start().until_running()
    # As in browsers on phones.
    page = browse(service, "--disable-shared-workers")
    tabs = in_tabs(page)
    assert page.run("return window.SharedWorker === undefined") and listeners(service) == 1
    service.post(order("O1"))
    show_in_all(page, tabs, "O1")
    for tab in tabs[1:]:
        page.driver.switch_to.window(tab)
        page.run(LATE_EVENTS)
    page.driver.switch_to.window(tabs[0])
    page.driver.close()
    # No tab has a stream now, and none hears of this order.
    service.post(order("O2"))
    show_in_all(page, tabs[1:], "O2")
    until_listeners(service, 1)
