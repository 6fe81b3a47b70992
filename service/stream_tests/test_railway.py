"""examples/service/railway.py, which sends the lines of a file."""

import subprocess
import time
from pathlib import Path

import pytest
import redis
from conftest import StartOffice
from railways import keys
from running import ROOT, WAGONS, message
from servers import RedisServer
from wagons_service.streams import LIBRARY

LINES, REPLIES = keys("north")


def railway(server: RedisServer, file: Path, *seconds: str) -> "subprocess.CompletedProcess[str]":
    command = [str(ROOT / "examples" / "service" / "railway.py"), f"127.0.0.1:{server.port}", "north", "1002", str(file), *seconds]
    return subprocess.run(command, stdout=subprocess.PIPE, stderr=subprocess.PIPE, text=True, check=False, timeout=30)


def test_lines_end_with_line_feeds_alone(server: RedisServer, start_office: StartOffice, tmp_path: Path) -> None:
    """Signs that end a line elsewhere stand in a line like any other, and so do bytes that are no UTF-8. And a line whose
    reply was trimmed isn't waited for."""
    start_office(server.address("north")).until_first()
    lines = [f'{{"order":"O{sign}1"}}'.encode() for sign in "\u2028\u2029\u0085\u000b\u000c\u001c\r"]
    lines += [b"\xff", message("1002", 1, WAGONS[0]) + b"\r", message("1002", 2, WAGONS[1])]
    file = tmp_path / "lines.jsonl"
    file.write_bytes(b"\n".join(lines))
    done = railway(server, file)
    there: list[tuple[bytes, dict[bytes, bytes]]] = server.client.xrange(LINES)
    assert [fields[b"line"] for _, fields in there] == lines
    assert [told.split()[0] for told in done.stdout.splitlines()] == [id.decode() for id, _ in there]
    assert done.returncode == 0 and done.stdout.endswith("10 accepted 2\n")
    # More is sent later, and what was answered last isn't kept any more.
    file.write_bytes(b"\n".join([*lines, lines[-1], b""]))
    server.client.xadd(REPLIES, {"reply": "x"}, id=there[-1][0].decode() + "1")
    server.client.xtrim(REPLIES, maxlen=1, approximate=False)
    assert railway(server, file, "2").stdout.startswith(f"{there[-1][0].decode()} the reply isn't kept any more\n")


@pytest.mark.parametrize("state", ["without an office", "stopped", "away"])
def test_it_does_not_wait_for_ever(server: RedisServer, tmp_path: Path, state: str) -> None:
    server.client.execute_command("FUNCTION", "LOAD", LIBRARY)
    file = tmp_path / "lines.jsonl"
    file.write_bytes(b"{}\n")
    if state == "stopped":
        server.pause()
    elif state == "away":
        server.kill()
    start = time.monotonic()
    done = railway(server, file, "0.5")
    assert done.returncode == 1 and done.stdout == "" and "after 0.5 seconds" in done.stderr
    assert time.monotonic() - start < 10


def test_a_file_whose_last_line_is_another(server: RedisServer, tmp_path: Path) -> None:
    """A file only grows. Where its last line isn't the one that was sent, nothing is appended."""
    client: "redis.Redis[bytes]" = server.client
    client.execute_command("FUNCTION", "LOAD", LIBRARY)
    file = tmp_path / "lines.jsonl"
    file.write_bytes(b"{}\n")
    railway(server, file, "0.1")
    file.write_bytes(b"[]\n{}\n")
    done = railway(server, file, "0.1")
    assert done.returncode == 1 and "number 1 was sent with other lines" in done.stderr and client.xlen(LINES) == 1
