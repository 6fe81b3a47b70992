"""A real browser for the tests of the page, and a proxy between it and the service."""
# Selenium's calls have no types.
# mypy: allow-untyped-calls

import socket
import struct
import threading
import time
from collections.abc import Callable
from contextlib import suppress
from typing import Any

from selenium import webdriver
from selenium.common.exceptions import (
    ElementClickInterceptedException,
    ElementNotInteractableException,
    NoSuchElementException,
    StaleElementReferenceException,
)
from selenium.webdriver.common.by import By
from selenium.webdriver.common.keys import Keys
from selenium.webdriver.remote.webelement import WebElement
from selenium.webdriver.support.wait import WebDriverWait

SECONDS = 60
# What the driver says of an element that the page shows again while it is used. Nothing was done to it then.
SHOWN_AGAIN = (ElementClickInterceptedException, ElementNotInteractableException, NoSuchElementException, StaleElementReferenceException)
ROWS = "return [...document.querySelectorAll(arguments[0] + ' tr[data-row]')].map(row => [...row.cells].map(cell => cell.innerText))"


class Browser:
    def __init__(self, port: int, *more: str) -> None:
        self.port = port
        options = webdriver.ChromeOptions()
        for word in "--headless=new", "--no-sandbox", "--disable-gpu", "--disable-dev-shm-usage", "--window-size=1280,1500", *more:
            options.add_argument(word)
        options.set_capability("goog:loggingPrefs", {"browser": "ALL"})
        self.driver = webdriver.Chrome(options=options, service=webdriver.chrome.service.Service("/usr/bin/chromedriver"))

    def open(self, path: str = "/") -> "Browser":
        self.driver.get(f"http://127.0.0.1:{self.port}{path}")
        return self

    def screen(self, width: int, height: int, is_phone: bool = False) -> None:
        """Chromium's windows are larger than what the page has of them, and none is as narrow as a phone."""
        self.driver.execute_cdp_cmd("Emulation.setDeviceMetricsOverride", {
            "width": width, "height": height, "deviceScaleFactor": 2 if is_phone else 1, "mobile": is_phone})

    def run(self, script: str, *arguments: Any) -> Any:
        return self.driver.execute_script(script, *arguments)

    def find(self, css: str) -> WebElement:
        return self.driver.find_element(By.CSS_SELECTOR, css)

    def until(self, holds: Callable[[], object], what: str, seconds: float = SECONDS) -> None:
        WebDriverWait(self.driver, seconds, poll_frequency=0.1, ignored_exceptions=(Exception,)).until(lambda _: holds(), what)

    def until_says(self, css: str, words: str, seconds: float = SECONDS) -> None:
        shown = ""

        def holds() -> bool:
            nonlocal shown
            shown = self.find(css).text
            return words in shown

        try:
            self.until(holds, "", seconds)
        except Exception:
            raise AssertionError(f"{css} says {shown!r}, not {words!r}") from None

    def rows(self, table: str) -> list[list[str]]:
        """The rows of a table that are drawn."""
        rows: list[list[str]] = self.run(ROWS, table)
        return rows

    def use(self, css: str, use: Callable[[WebElement], None]) -> None:
        """Uses an element, which is found again where the page shows it again in between."""

        def used(_: object) -> bool:
            use(self.find(css))
            return True

        WebDriverWait(self.driver, SECONDS, poll_frequency=0.1, ignored_exceptions=SHOWN_AGAIN).until(used, css)

    def click(self, css: str) -> None:
        def clicked(element: WebElement) -> None:
            self.run("arguments[0].scrollIntoView({block: 'center'})", element)
            element.click()

        self.use(css, clicked)

    def tab(self, name: str) -> None:
        self.click(f"#tab-{name}")

    def press(self, css: str, key: str) -> None:
        def pressed(element: WebElement) -> None:
            self.run("arguments[0].focus()", element)
            element.send_keys(key)

        self.use(css, pressed)

    def press_here(self, *keys: str) -> None:
        self.driver.switch_to.active_element.send_keys(*keys)

    def fill(self, css: str, words: str) -> None:
        field = self.find(css)
        field.send_keys(Keys.CONTROL, "a")
        field.send_keys(words if words else Keys.DELETE)

    def choose(self, css: str, value: str) -> None:
        self.click(f'{css} option[value="{value}"]')

    def order(self, name: str, **fields: str) -> None:
        values = {"order": name, "place": "DE10003", "classes": "Habbins", "load": "45000", "latest": "2026-03-02T12:00:00Z", "penalty": "400", "wagons": "1"}
        for field, words in (values | fields).items():
            self.fill(f"#order-{field}", words)
        self.click("#order-send")

    def plan(self, at: str) -> None:
        self.tab("plan")
        self.fill("#plan-at", at)
        self.click("#plan-ask")
        self.until_says("#plan-head", "this plan costs")

    @property
    def faults(self) -> list[str]:
        """What the browser complains of, but for answers that aren't 200."""
        return [entry["message"] for entry in self.driver.get_log("browser") if "Failed to load resource" not in entry["message"]]


class Proxy:
    """Passes connections on to a service, and can fail as proxies and networks do."""

    def __init__(self, port: int) -> None:
        self._to = port
        self._listener = socket.create_server(("127.0.0.1", 0))
        self.port: int = self._listener.getsockname()[1]
        self._open: list[socket.socket] = []
        self._bad = 0
        # Connections of which nothing is known any more: nothing comes by them, and what is sent is answered by a reset.
        self._forgotten: set[socket.socket] = set()
        threading.Thread(target=self._accept, daemon=True).start()

    def answer_502(self, times: int) -> None:
        """Cuts all connections, and answers the next ones so."""
        self._bad = times
        for connection in self._open:
            with suppress(OSError):
                connection.shutdown(socket.SHUT_RDWR)

    def forget(self) -> None:
        self._forgotten.update(self._open)

    def _accept(self) -> None:
        while True:
            try:
                connection, _ = self._listener.accept()
            except OSError:
                return
            threading.Thread(target=self._serve, args=(connection,), daemon=True).start()

    def _serve(self, connection: socket.socket) -> None:
        if self._bad:
            self._bad -= 1
            with suppress(OSError):
                connection.recv(1 << 16)
                connection.sendall(b"HTTP/1.1 502 Bad Gateway\r\nContent-Type: text/html\r\nContent-Length: 20\r\nConnection: close\r\n\r\n<h1>Bad Gateway</h1>")
            connection.close()
            return
        try:
            service = socket.create_connection(("127.0.0.1", self._to))
        except OSError:
            connection.close()
            return
        self._open += [connection, service]
        threading.Thread(target=self._pass, args=(service, connection), daemon=True).start()
        self._pass(connection, service)

    def _pass(self, start: socket.socket, end: socket.socket) -> None:
        with suppress(OSError):
            while data := start.recv(1 << 16):
                if start in self._forgotten:
                    start.setsockopt(socket.SOL_SOCKET, socket.SO_LINGER, struct.pack("ii", 1, 0))
                    start.close()
                    return
                end.sendall(data)
        for connection in () if start in self._forgotten else (start, end):
            with suppress(OSError):
                connection.shutdown(socket.SHUT_RDWR)

    def end(self) -> None:
        self._listener.close()
        for connection in self._open:
            connection.close()


def seconds_since(begun: float) -> float:
    return time.monotonic() - begun
