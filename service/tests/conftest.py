"""What the tests share: the program that is tried, and services over folders of their own."""

import sys
from collections.abc import Callable, Iterator
from pathlib import Path
from typing import TYPE_CHECKING, Any

import pytest

ROOT = Path(__file__).resolve().parents[2]
sys.path[:0] = [str(ROOT / "service"), str(ROOT / "tools"), str(Path(__file__).parent)]

import programs  # noqa: E402
from running import Service  # noqa: E402

if TYPE_CHECKING:
    from browsing import Browser

Start = Callable[..., Service]
Browse = Callable[..., "Browser"]


def pytest_addoption(parser: pytest.Parser) -> None:
    parser.addoption("--kills", type=int, default=100, help="how often the service and the program are killed")
    parser.addoption("--lines", type=int, default=100_000, help="how many lines sixteen senders send in all")
    parser.addoption("--requests", type=int, default=10_000, help="how many random requests are sent")


@pytest.fixture(scope="session")
def program() -> str:
    """The real program: the one that `WAGONS` names, or the proved one."""
    return programs.wagons()


@pytest.fixture
def start(program: str, tmp_path: Path) -> Iterator[Start]:
    """Starts services; all of them are ended with the test."""
    started: list[Service] = []

    def one(folder: Path | None = None, **options: Any) -> Service:
        options.setdefault("program", program)
        service = Service(folder or tmp_path / "journal", **options)
        started.append(service)
        return service

    yield one
    for service in started:
        service.end()


@pytest.fixture
def browse() -> Iterator[Browse]:
    """Opens the page of a service, or of a proxy's port, in browsers of their own; all of them are ended with the test."""
    # Only these tests need selenium.
    from browsing import Browser
    opened: list[Browser] = []

    def one(where: Service | int, *options: str) -> Browser:
        opened.append(Browser(where if isinstance(where, int) else where.port, *options))
        return opened[-1]

    yield one
    for browser in opened:
        browser.driver.quit()
