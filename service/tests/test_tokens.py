"""Tokens in cookies, and what a revoked one has open."""

import signal
import socket
from pathlib import Path

import pytest

from conftest import Start
from running import Service, order

TOKENS = "railway-1001-token railway 1001\ndispatcher-s-token dispatcher\nreader-s-long-token reader\n"


@pytest.fixture
def tokens(tmp_path: Path) -> Path:
    file = tmp_path / "tokens"
    file.write_text(TOKENS)
    return file


COOKIES = [
    ("a/b=1; wagons_token=reader-s-long-token", 200), ("wagons_token=reader-s-long-token;a/b", 200), ('x="; wagons_token="reader-s-long-token"', 200),
    ("a/b=1", 401), ("wagons_token=", 401), ("wagons_token", 401), ("wagons_token =reader-s-long-token", 401), ("my_wagons_token=reader-s-long-token", 401),
    ('wagons_token="\\999', 401), ("wagons_token=a/b reader-s-long-token", 401)]


def test_cookies_of_other_programs(start: Start, tokens: Path) -> None:
    service = start(options=["--tokens", str(tokens)])
    for cookies, status in COOKIES:
        assert service.request("GET", "/metrics", headers={"Cookie": cookies}).status == status, cookies


def listen(service: Service, token: str) -> socket.socket:
    connection = socket.create_connection(("127.0.0.1", service.port), timeout=5)
    connection.sendall(f"GET /events HTTP/1.1\r\nHost: 127.0.0.1\r\nAuthorization: Bearer {token}\r\n\r\n".encode())
    while b"retry" not in connection.recv(1000):
        pass
    return connection


def test_a_revoked_token_ends_its_open_streams(start: Start, tokens: Path) -> None:
    service = start(options=["--tokens", str(tokens)]).until_running()
    revoked, changed, kept = (listen(service, token) for token in ("reader-s-long-token", "railway-1001-token", "dispatcher-s-token"))
    tokens.write_text(TOKENS.replace("reader-s-long", "another-reader-s").replace("1001\n", "1002\n"))
    service.process.send_signal(signal.SIGHUP)
    for connection in revoked, changed:
        data = b""
        while not data.endswith(b"0\r\n\r\n"):
            part = connection.recv(1000)
            assert part
            data += part
    service.post(order("O1"), "dispatcher-s-token")
    assert b"1 accepted 1" in kept.recv(1000)
    for connection in revoked, changed, kept:
        connection.close()
