"""What stands around the service: nginx in front of it, and systemd."""

import os
import re
import signal
import socket
import subprocess
import time
from collections.abc import Iterator
from pathlib import Path

import pytest

from conftest import ROOT, Start
from ports import free_port
from running import Service, order

MAIN = """daemon off; user root; worker_processes 1; pid {folder}/pid; error_log {folder}/error.log;
events {{}}
http {{
  access_log off; client_body_temp_path {folder}/body; proxy_temp_path {folder}/proxy; fastcgi_temp_path {folder}/fastcgi;
  uwsgi_temp_path {folder}/uwsgi; scgi_temp_path {folder}/scgi;
  include {folder}/wagons;
}}
"""


@pytest.fixture
def proxied(start: Start, tmp_path: Path) -> Iterator[tuple[Service, str]]:
    """A service behind nginx with the configuration as it is, but for ports and the certificate; and its address."""
    service = start().until_running()
    subprocess.run(["openssl", "req", "-x509", "-newkey", "rsa:2048", "-nodes", "-days", "1", "-subj", "/CN=localhost", "-keyout", tmp_path / "key.pem",
                    "-out", tmp_path / "certificate.pem"], check=True, capture_output=True)
    port = free_port()
    site = (ROOT / "service" / "nginx.conf").read_text()
    for old, new in ("listen 443", f"listen 127.0.0.1:{port}"), ("listen 80", f"listen 127.0.0.1:{free_port()}"), ("127.0.0.1:8080", f"127.0.0.1:{service.port}"), ("/etc/wagons", str(tmp_path)):
        assert old in site
        site = site.replace(old, new)
    (tmp_path / "wagons").write_text(site)
    (tmp_path / "main").write_text(MAIN.format(folder=tmp_path))
    nginx = subprocess.Popen(["nginx", "-c", str(tmp_path / "main"), "-p", str(tmp_path)], stderr=subprocess.PIPE, text=True)
    while True:
        try:
            socket.create_connection(("127.0.0.1", port)).close()
            break
        except ConnectionRefusedError:
            assert nginx.poll() is None
            time.sleep(0.01)
    yield service, f"https://localhost:{port}"
    nginx.terminate()
    nginx.wait()
    assert nginx.stderr is not None
    nginx.stderr.close()


def curl(*words: str, given: bytes | None = None) -> str:
    return subprocess.run(["curl", "-sk", *words], input=given, capture_output=True, timeout=60).stdout.decode()


def test_nginx_in_front(proxied: tuple[Service, str], tmp_path: Path) -> None:
    service, address = proxied
    told = curl("-w", "%{http_version} %{http_code}", "--data-binary", order("O1").decode(), f"{address}/lines")
    assert told == '{"number":1,"reply":"1 accepted 1"}\n2 200'
    # A page's own requests pass, and those of another site's page don't.
    for origin, status in (address, "200"), ("https://evil.example", "403"):
        assert curl("-o", "/dev/null", "-w", "%{http_code}", "-H", f"Origin: {origin}", "-d", "x", f"{address}/lines") == status
    assert "; Secure" in curl("-i", "-d", "token=whatever-it-is-here", f"{address}/login")
    assert curl("-o", "/dev/null", "-w", "%{http_code}", f"{address}/metrics") == "403"
    (tmp_path / "large").write_bytes(b"x" * 9_000_000)
    assert curl("-o", "/dev/null", "-w", "%{http_code}", "-H", "Expect:", "--data-binary", f"@{tmp_path}/large", f"{address}/lines") == "413"


def test_nginx_passes_events_on_as_they_come(proxied: tuple[Service, str]) -> None:
    service, address = proxied
    listener = subprocess.Popen(["curl", "-skN", f"{address}/events?from=1"], stdout=subprocess.PIPE, text=True)
    assert listener.stdout is not None and listener.stdout.readline() == "retry: 1000\n"
    for number in 1, 2:
        sent = time.monotonic()
        service.post(order(f"O{number}"))
        while not (told := listener.stdout.readline()).startswith("data: "):
            pass
        assert f'"reply":"{number} accepted {number}"' in told and time.monotonic() - sent < 3
    # One address has so many listeners, and no more.
    told = curl("--parallel", "--parallel-immediate", "--parallel-max", "60", "-m", "2", "-o", "/dev/null", "-w", "%{http_code} ", f"{address}/events?k=[1-60]")
    assert told.split().count("429") == 60 - 39 and told.split().count("200") == 39
    listener.kill()
    listener.wait()
    listener.stdout.close()


UNITS = ["wagons-service.service", "wagons-office@.service", "wagons-router@.service"]


@pytest.mark.parametrize("unit", UNITS)
def test_a_unit(unit: str, tmp_path: Path) -> None:
    text = (ROOT / "service" / unit).read_text()
    file = tmp_path / unit.replace("@", "@north")
    # What isn't installed here is another program, so that the rest is verified.
    file.write_text(re.sub(r"^ExecStart=/usr/local/bin/[a-z-]+", "ExecStart=/bin/true", text, flags=re.M))
    verified = subprocess.run(["systemd-analyze", "verify", "--man=no", file], capture_output=True, text=True)
    assert (verified.returncode, verified.stdout + verified.stderr) == (0, "")
    judged = subprocess.run(["systemd-analyze", "security", "--offline=true", "--threshold=20", "--no-pager", file], capture_output=True, text=True)
    assert judged.returncode == 0, judged.stdout[-400:] + judged.stderr
    for setting in "LimitNOFILE=", "MemoryMax=", "WatchdogSec=", "Type=notify":
        assert f"\n{setting}" in text, setting


def signs(socket_of: socket.socket, seconds: float) -> list[str]:
    """What comes within so many seconds."""
    found, until = [], time.monotonic() + seconds
    while (left := until - time.monotonic()) > 0:
        socket_of.settimeout(left)
        try:
            found.append(socket_of.recv(100).decode())
        except TimeoutError:
            break
    return found


def test_the_watchdog_hears_whether_the_service_runs(start: Start, tmp_path: Path, monkeypatch: pytest.MonkeyPatch) -> None:
    with socket.socket(socket.AF_UNIX, socket.SOCK_DGRAM) as systemd:
        systemd.bind(str(tmp_path / "notify"))
        monkeypatch.setenv("NOTIFY_SOCKET", str(tmp_path / "notify"))
        monkeypatch.setenv("WATCHDOG_USEC", "400000")
        service = start().until_running()
        assert signs(systemd, 1)[:3] == ["READY=1", "WATCHDOG=1", "WATCHDOG=1"]
        os.kill(service.process.pid, signal.SIGSTOP)
        signs(systemd, 0.3)
        assert signs(systemd, 0.6) == []
        os.kill(service.process.pid, signal.SIGCONT)
        assert "WATCHDOG=1" in signs(systemd, 1)
        service.stop()
        assert signs(systemd, 0.5)[-1] == "STOPPING=1"
