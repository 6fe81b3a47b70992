"""Backups, journals that are compressed, and another build of the program."""

import gzip
import http.client
import os
import shutil
import signal
import subprocess
import threading
import time
from collections.abc import Iterator
from contextlib import suppress
from pathlib import Path

import pytest

from conftest import ROOT, Start
from running import DAY, NETWORKS, Service, line

LINES = (DAY / "day.jsonl").read_bytes()
# It is refused, so the sheet stays as it is.
NO_ORDER = line(kind="withdraw", order="NONE")


def sheet(service: Service) -> str:
    """What the office says of all wagons and orders, without the line's number."""
    return service.post(line(kind="sheet")).replies[0].partition(" ")[2]


def command(name: str, service: Service, *words: object, program: str = "") -> "subprocess.CompletedProcess[str]":
    given = [ROOT / "service" / "wagons-service", name, *words, "--journal", service.folder, "--program", program or service.program, *service.office]
    return subprocess.run(list(map(str, given)), capture_output=True, text=True, timeout=60)


@pytest.fixture
def sending(start: Start, tmp_path: Path) -> Iterator[Service]:
    """A service in its second journal, with files of its own, to which lines come all the time."""
    files = [shutil.copy(path, tmp_path) for path in (DAY / "roster.csv", *NETWORKS)]
    service = start(roster=Path(files[0]), networks=list(map(Path, files[1:]))).until_running()
    service.post(LINES)
    assert service.post(b"", path="/next").status == 200
    over = threading.Event()

    def send() -> None:
        with suppress(OSError, http.client.HTTPException):
            while not over.is_set():
                service.post([NO_ORDER] * 20)

    sender = threading.Thread(target=send)
    sender.start()
    yield service
    over.set()
    sender.join()


def test_back_up_lose_everything_and_restore(sending: Service, start: Start, tmp_path: Path) -> None:
    service = sending
    backup = tmp_path / "backup"
    places = (DAY / "places.csv").read_bytes()
    (tmp_path / "places.csv").write_bytes(places)
    done = command("backup", service, backup, "--places", tmp_path / "places.csv")
    assert done.returncode == 0 and done.stdout.startswith(f"{backup}: 2 journals with "), done.stderr
    before, first, second = sheet(service), service.get("/replies?journal=1").records, service.kept
    os.kill(service.process.pid, signal.SIGKILL)
    shutil.rmtree(service.folder)
    for file in tmp_path.glob("*.csv"):
        file.unlink()
    shutil.copytree(backup / "journal", tmp_path / "restored")
    again = start(tmp_path / "restored", roster=backup / "roster.csv", networks=[backup / "network-1.csv", backup / "network-2.csv"]).until_running()
    kept = again.kept
    assert len(kept) >= 20 and kept == second[:len(kept)]
    assert sheet(again) == before and again.get("/replies?journal=1").records == first
    assert (backup / "places.csv").read_bytes() == places


def test_what_is_no_backup(start: Start, tmp_path: Path) -> None:
    service = start().until_running()
    service.post(LINES)
    service.stop()
    roster = tmp_path / "roster.csv"
    roster.write_text("".join(row + "\n" for row in (DAY / "roster.csv").read_text().splitlines()[:-9]))
    service.office[1] = str(roster)
    done = command("backup", service, tmp_path / "backup")
    assert done.returncode == 2 and "was answered otherwise before" in done.stderr
    service.office[1] = str(DAY / "roster.csv")
    journal = service.folder / "1" / "journal.jsonl"
    journal.write_bytes(LINES.replace(b'"penalty":300', b'"penalty":301', 1) + b"{}\n")
    done = command("backup", service, tmp_path / "backup")
    assert done.returncode == 2 and f"{service.folder}/1/journal.jsonl isn't what was written: its lines 1 to 42 aren't" in done.stderr
    assert sorted(it.name for it in tmp_path.iterdir()) == ["journal", "roster.csv"]
    journal.write_bytes(LINES + b"{}\n")
    assert command("backup", service, tmp_path / "backup").returncode == 0
    done = command("backup", service, tmp_path / "backup")
    assert done.returncode == 2 and done.stderr == f"wagons-service: {tmp_path}/backup is there already; a backup has a folder of its own\n"


def test_older_journals_are_compressed_and_found_as_before(start: Start) -> None:
    service = start().until_running()
    service.post(LINES)
    for _ in range(2):
        assert service.post(b"", path="/next").status == 200
    records = service.get("/replies?journal=1").records
    lines = (service.folder / "1" / "journal.jsonl").read_bytes()
    service.stop()
    for number, days in ("1", 31), ("2", 29), ("3", 99):
        old = time.time() - 86_400 * days
        os.utime(service.folder / number / "journal.jsonl", (old, old))
    service = start(options=["--keep-days", "30"]).until_running()
    for _ in range(1000):
        if (found := sorted(it.name for it in (service.folder / "1").iterdir())) == ["checksums.jsonl", "journal.jsonl.gz", "replies.jsonl.gz", "senders.jsonl.gz"]:
            break
        time.sleep(0.01)
    assert found[1] == "journal.jsonl.gz" and gzip.decompress((service.folder / "1" / "journal.jsonl.gz").read_bytes()) == lines
    assert len(records) == 42 and service.get("/replies?journal=1").records == records
    assert not list((service.folder / "2").glob("*.gz")) and not list((service.folder / "3").glob("*.gz"))
    assert sorted(it.name for it in (service.folder / "1").iterdir()) == found
    assert command("backup", service, service.folder.parent / "backup").returncode == 0
    service.stop()
    # Where those behind it are gone, it is written again.
    for number in "2", "3":
        shutil.rmtree(service.folder / number)
    service = start().until_running()
    assert service.post(NO_ORDER).replies == ["43 refused 76"] and service.journal == lines + NO_ORDER + b"\n"


def test_a_compressed_journal_that_was_spoiled_is_not_shown(start: Start) -> None:
    service = start().until_running()
    service.post(LINES)
    assert service.post(b"", path="/next").status == 200
    journal = service.folder / "1" / "journal.jsonl"
    packed = gzip.compress(journal.read_bytes())
    journal.unlink()
    for wrong in packed[:-9], packed[:99] + b"x" + packed[100:]:
        (service.folder / "1" / "journal.jsonl.gz").write_bytes(wrong)
        answer = service.get("/replies?journal=1")
        assert answer.status == 503 and "1/journal.jsonl.gz can't be unpacked" in answer.text


# What stands between the service and the program ends when either does.
OTHER_BUILD = """#!/usr/bin/python3
import os, subprocess, sys, threading
command = [PROGRAM, *sys.argv[1:]]
if sys.argv[1] != "run":
    os.execv(command[0], command)
run = subprocess.Popen(command, stdin=subprocess.PIPE, stdout=subprocess.PIPE)

def feed():
    while chunk := os.read(0, 65536):
        run.stdin.write(chunk)
        run.stdin.flush()
    run.stdin.close()

threading.Thread(target=feed, daemon=True).start()
for line in run.stdout:
    os.write(1, line.replace(b" refused 76\\n", b" refused 77\\n"))
sys.exit(run.wait())
"""


def open_rows(text: str) -> list[str]:
    """A sheet's wagons and the orders that a checkpoint keeps, those that are open."""
    return [row for row in text.split("\n")[1:] if not (row.startswith("order ") and row.split(" ")[5] in ("filled", "withdrawn"))]


def test_a_build_that_answers_otherwise(start: Start, program: str, tmp_path: Path) -> None:
    other = tmp_path / "other"
    other.write_text(OTHER_BUILD.replace("PROGRAM", repr(program)))
    other.chmod(0o755)
    service = start().until_running()
    service.post(LINES)
    assert service.post(NO_ORDER).replies == ["43 refused 76"]
    before = sheet(service)
    done = command("next", service)
    assert done.returncode == 2 and "another service has the folder" in done.stderr
    assert service.stop() == 0
    # With the other build alone the office doesn't go on.
    stopped = start(program=str(other))
    assert "line 43 was answered" in stopped.until_state("stopped")["words"]
    stopped.stop()
    done = command("next", service)
    assert (done.returncode, done.stdout) == (0, f"{service.folder}: journal 2 begins\n")
    again = start(program=str(other)).until_running()
    assert open_rows(sheet(again)) == open_rows(before)
    assert again.post(NO_ORDER).replies == ["3 refused 77"] and again.get("/replies?journal=1&from=43&to=43").replies == ["43 refused 76"]
