"""What the tests share: the program that is tried, Redis servers, and services over their streams."""

import os
import sys
from collections.abc import Callable, Iterator, Sequence
from pathlib import Path
from typing import Any

import pytest

ROOT = Path(__file__).resolve().parents[2]
sys.path[:0] = [str(ROOT / "service"), str(ROOT / "tools"), str(ROOT / "service" / "tests"), str(Path(__file__).parent)]

import programs  # noqa: E402
from servers import Office, RedisServer, Router, server_port  # noqa: E402

StartServer = Callable[..., RedisServer]
StartOffice = Callable[..., Office]
StartRouter = Callable[..., Router]


def pytest_addoption(parser: pytest.Parser) -> None:
    parser.addoption("--kills", type=int, default=100, help="how often the office, the router and the server are killed")


@pytest.fixture
def kills(request: pytest.FixtureRequest) -> int:
    return int(request.config.getoption("--kills"))


@pytest.fixture(scope="session")
def program(tmp_path_factory: pytest.TempPathFactory) -> str:
    """The real program: the one that `WAGONS` names, or the proved one."""
    # Services that are killed leave their copies of journals behind.
    os.environ["TMPDIR"] = str(tmp_path_factory.mktemp("copies"))
    return programs.wagons()


@pytest.fixture
def start_server(tmp_path: Path) -> Iterator[StartServer]:
    """Starts Redis servers, each in a folder of its own; all of them are ended with the test."""
    started: list[RedisServer] = []

    def one(**options: Any) -> RedisServer:
        port = server_port()
        server = RedisServer(tmp_path / f"redis-{port}", port, **options)
        started.append(server)
        return server.start()

    yield one
    for server in started:
        server.kill()


@pytest.fixture
def server(start_server: StartServer) -> RedisServer:
    return start_server()


@pytest.fixture
def start_office(program: str) -> Iterator[StartOffice]:
    """Starts services over streams; all of them are ended with the test."""
    started: list[Office] = []

    def one(address: str, **options: Any) -> Office:
        office = Office(address, options.pop("program", program), **options)
        started.append(office)
        return office

    yield one
    for office in started:
        office.end()


@pytest.fixture
def start_router(tmp_path: Path) -> Iterator[StartRouter]:
    started: list[Router] = []

    def one(inbox: str, offices: dict[str, str], options: Sequence[str] = ()) -> Router:
        router = Router(inbox, offices, tmp_path / "offices.csv", options)
        started.append(router)
        return router

    yield one
    for router in started:
        router.end()
