"""What was written is what is read: lines that changed on the disk, and lines that a killed service left in memory."""

import json
import os
import signal
import subprocess
from pathlib import Path

import pytest

from conftest import Start
from running import order
from wagons_service.journal import Journal, Unreadable


def change(file: Path, old: bytes, new: bytes) -> None:
    data = file.read_bytes()
    assert data.count(old) == 1 and len(old) == len(new)
    file.write_bytes(data.replace(old, new))


def test_a_line_that_changed_on_the_disk_is_not_answered(start: Start, tmp_path: Path) -> None:
    folder = tmp_path / "journal" / "1"
    service = start().until_running()
    service.post([order("O1"), order("O2", penalty=400)])
    os.kill(service.process.pid, signal.SIGKILL)
    service.until_ended()
    # The program answers the line as before, so nothing but its checksum tells.
    change(folder / "journal.jsonl", b'"O2","place":"DE10003"', b'"O2","place":"DE10002"')
    service = start()
    assert service.until_ended() == 2
    assert service.log[-1] == (f"wagons-service: {folder}/journal.jsonl isn't what was written: its lines 1 to 2 aren't those that were written, "
                               "or the checkpoint before them isn't; put a copy of it in its place")
    change(folder / "journal.jsonl", b'"O2","place":"DE10002"', b'"O2","place":"DE10003"')
    assert start().until_running().post(order("O3")).replies == ["3 accepted 3"]


def test_an_older_journal_that_changed_is_not_shown(start: Start, tmp_path: Path) -> None:
    service = start().until_running()
    service.post([order("O1"), order("O2")])
    assert service.post(b"", path="/next").status == 200
    change(tmp_path / "journal" / "1" / "journal.jsonl", b'"O2"', b'"O3"')
    answer = service.get("/replies?journal=1")
    assert answer.status == 503 and "its lines 1 to 2 aren't those that were written" in answer.text
    service.stop()
    change(tmp_path / "journal" / "2" / "checkpoint.jsonl", b'"O1"', b'"O7"')
    service = start()
    assert service.until_ended() == 2 and "or the checkpoint before them isn't" in service.log[-1]


@pytest.fixture
def folder(tmp_path: Path) -> Path:
    """A folder with a journal of 3,500 lines, added in parts of many sizes."""
    journal, first = Journal(str(tmp_path)), 1
    for size in (1, 998, 1, 1, 1500, 7, 992):
        journal.add([b"line %d" % number for number in range(first, first + size)])
        first += size
    journal.close()
    return tmp_path


def test_the_first_bad_block_is_named(folder: Path) -> None:
    records = [json.loads(line) for line in (folder / "checksums.jsonl").read_text().splitlines()]
    assert [record["lines"] for record in records] == [1000, 2000, 3000, 3500]
    change(folder / "journal.jsonl", b"line 1700\n", b"line 170x\n")
    change(folder / "journal.jsonl", b"line 3400\n", b"line 340x\n")
    with pytest.raises(Unreadable, match="its lines 1,001 to 2,000 aren't those that were written; put"):
        Journal(str(folder))
    change(folder / "journal.jsonl", b"line 170x\n", b"line 1700\n")
    with pytest.raises(Unreadable, match="its lines 3,001 to 3,500 aren't those that were written; put"):
        Journal(str(folder))


def test_a_journal_that_lost_its_end_is_refused(folder: Path) -> None:
    os.truncate(folder / "journal.jsonl", 1000)
    with pytest.raises(Unreadable, match="it ends with line 123, and 3,500 lines were written"):
        Journal(str(folder))


@pytest.mark.parametrize("place", [0, 1, 3])
def test_a_sum_that_was_spoiled_is_made_again(folder: Path, place: int) -> None:
    sums = folder / "checksums.jsonl"
    before = sums.read_bytes()
    digit = 128 * place + before[128 * place:].index(b'256":"') + 6
    # One that can't be read, and one that reads otherwise while the next one fits.
    other = before[128 * place:digit] + (b"1" if before[digit:digit + 1] == b"0" else b"0") + before[digit + 1:128 * (place + 1)]
    for record in [bytes(128), other][:1 if place == 3 else 2]:
        sums.write_bytes(before[:128 * place] + record + before[128 * (place + 1):])
        Journal(str(folder)).close()
        assert sums.read_bytes() == before


def test_sums_of_a_journal_that_had_none(folder: Path) -> None:
    before = (folder / "checksums.jsonl").read_bytes()
    (folder / "checksums.jsonl").unlink()
    Journal(str(folder)).close()
    assert (folder / "checksums.jsonl").read_bytes() == before


# Says each sync that succeeds, and of which file or folder it is.
NOTES_SYNCS = """
import os

def noted(name):
    real = getattr(os, name)

    def sync(file):
        real(file)
        print(name, os.readlink(f"/proc/self/fd/{file}"))

    setattr(os, name, sync)

noted("fsync")
noted("fdatasync")
"""


def test_lines_that_were_only_in_memory_are_synced_first(tmp_path: Path) -> None:
    """What a start asks of the disk before anything else."""
    for name in "journal.jsonl", "identifiers.jsonl":
        (tmp_path / name).write_bytes(b'["1001","A",2147483648]\n')
    script = f"from wagons_service.journal import Journal; from wagons_service.identifiers import Identifiers; Journal('{tmp_path}'); Identifiers('{tmp_path}/identifiers.jsonl')"
    synced = subprocess.run(["/usr/bin/python3", "-c", NOTES_SYNCS + script], check=True, stdout=subprocess.PIPE, text=True,
                            env={"PYTHONPATH": str(Path(__file__).parents[1]), "PYTHONDONTWRITEBYTECODE": "1"}).stdout.splitlines()
    for path in "journal.jsonl", "identifiers.jsonl":
        assert f"fdatasync {tmp_path}/{path}" in synced
    assert synced.count(f"fsync {tmp_path}") == 2
