"""A disk that is full, and one that can't be written."""

import subprocess
import threading
from collections.abc import Iterator
from pathlib import Path

import pytest

from conftest import Start
from running import line, order


@pytest.fixture
def small_disk(tmp_path: Path) -> Iterator[Path]:
    """A disk of 512 kB."""
    folder = tmp_path / "disk"
    folder.mkdir()
    if subprocess.run(["mount", "-t", "tmpfs", "-o", "size=512k", "tmpfs", str(folder)], capture_output=True).returncode:
        pytest.skip("mounting isn't allowed here")
    yield folder
    subprocess.run(["umount", "-l", str(folder)], check=True)


def test_a_full_disk(start: Start, small_disk: Path) -> None:
    service = start(small_disk / "journal").until_running()
    filler = small_disk / "filler"
    filler.write_bytes(bytes(200_000))
    taken: list[bytes] = []
    while True:
        lines = [order(f"O{len(taken) + k}", x="y" * 900) for k in range(30)]
        answer = service.post(lines)
        if answer.status != 200:
            break
        taken += lines
    assert answer.status == 503 and answer.text.endswith("nothing of the request was taken\n")
    assert "No space left on device" in answer.text or "the disk is full" in answer.text
    assert taken and service.journal == b"".join(it + b"\n" for it in taken)
    for _ in range(3):
        assert service.post(b"x" * 60_000).status == 503
    assert service.journal == b"".join(it + b"\n" for it in taken)
    assert len(service.get("/replies").records) == len(taken)
    # There is room again, and all goes on.
    filler.unlink()
    answer = service.post(lines)
    assert answer.status == 200 and [record["number"] for record in answer.records] == list(range(len(taken) + 1, len(taken) + 31))
    assert "".join(reply + "\n" for reply in service.kept) == service.run_again()


def test_a_sheet_waits_for_room(start: Start, small_disk: Path) -> None:
    """The line by which a sheet ends has no room at first."""
    service = start(small_disk / "journal").until_running()
    service.post(b"{}" + b" " * 4070)
    filler = small_disk / "filler"
    with open(filler, "wb", buffering=0) as file, pytest.raises(OSError):
        while True:
            file.write(bytes(4096))
    assert len(service.journal) == 4073
    sheet = line(kind="sheet")
    sheet += b" " * (4096 - len(service.journal) - len(sheet) - 1)
    answers: list[list[str]] = []
    sender = threading.Thread(target=lambda: answers.append(service.post(sheet).replies))
    sender.start()
    sender.join(1.5)
    assert sender.is_alive() and len(service.journal) == 4096
    filler.unlink()
    sender.join(10)
    assert answers[0][0].startswith("2 sheet 0\nwagon ")
    assert "".join(reply + "\n" for reply in service.kept) == service.run_again()


def test_a_folder_that_cannot_be_written(start: Start, small_disk: Path) -> None:
    subprocess.run(["mount", "-o", "remount,ro", str(small_disk)], check=True)
    service = start(small_disk / "journal")
    assert service.until_ended() == 2 and "Read-only file system" in service.log[-1]
