"""The files of the folder."""

import errno
import json
import os
import subprocess
from collections.abc import Iterator
from pathlib import Path

import pytest

from wagons_service.journal import Broken, FileOfLines, Folder, FolderInUse, Journal, KeptReplies, NotKept, Unreadable


def test_lines_are_found_again(tmp_path: Path) -> None:
    journal = Journal(str(tmp_path))
    journal.add([b"one", b"", b"three"])
    journal.add([b"four"])
    journal.close()
    again = Journal(str(tmp_path))
    assert again.lines.count == 4 and again.last_line == 4
    assert again.lines.read(2, 3) == b"\nthree\n"
    assert (tmp_path / "journal.jsonl").read_bytes() == b"one\n\nthree\nfour\n"


def test_long_files_are_read_in_parts(tmp_path: Path) -> None:
    lines = [b"x" * (k % 5000) for k in range(2000)]
    journal = Journal(str(tmp_path))
    journal.add(lines)
    journal.close()
    again = Journal(str(tmp_path))
    assert again.lines.read(1, 2000).split(b"\n")[:-1] == lines
    assert [again.line(k + 1) for k in range(0, 2000, 97)] == lines[::97]


def test_the_last_line_that_is_not_blank(tmp_path: Path) -> None:
    journal = Journal(str(tmp_path))
    assert journal.last_line == 0
    journal.add([b"one", b" \t\r", b""])
    assert journal.last_line == 1
    journal.add([b" "])
    assert journal.last_line == 1
    journal.close()
    assert Journal(str(tmp_path)).last_line == 1


@pytest.mark.parametrize("piece", [b"t", b'{"type":"she', b"x" * 70_000])
def test_a_torn_last_line_is_cut_off(tmp_path: Path, piece: bytes) -> None:
    (tmp_path / "journal.jsonl").write_bytes(b"one\ntwo\n" + piece)
    journal = Journal(str(tmp_path))
    assert journal.lines.torn == piece[:65536] and journal.lines.count == 2
    journal.add([b"three"])
    assert (tmp_path / "journal.jsonl").read_bytes() == b"one\ntwo\nthree\n"


def test_a_folder_has_one_service(tmp_path: Path) -> None:
    folder = Folder(str(tmp_path))
    with pytest.raises(FolderInUse):
        Folder(str(tmp_path))
    folder.close()
    Folder(str(tmp_path)).close()


def test_a_new_journal_is_there_wholly_or_not_at_all(tmp_path: Path) -> None:
    folder = Folder(str(tmp_path))
    assert folder.journal().checkpoint is None
    (tmp_path / "new").mkdir()
    (tmp_path / "new" / "checkpoint.jsonl").write_bytes(b"what a crash left")
    folder.begin_next(b"saved")
    folder.close()
    again = Folder(str(tmp_path))
    assert again.last == 2 and sorted(it.name for it in tmp_path.iterdir()) == ["1", "2", "lock"]
    journal = again.journal()
    assert journal.number == 2 and journal.checkpoint and Path(journal.checkpoint).read_bytes() == b"saved"


def test_a_journal_begins_again(tmp_path: Path) -> None:
    """What stands in its place is renamed, and what stands behind it; a cache alone drops them."""
    folder = Folder(str(tmp_path))
    folder.begin_next(b"two")
    folder.begin_next(b"three")
    folder.journal(2).add([b"{}"])
    for number, text in (2, b"other"), (2, b"again"):
        folder.begin_again(number, {"checkpoint.jsonl": text})
        assert folder.last == 2 and folder.has(1) and not folder.has(3)
        journal = folder.journal()
        assert journal.lines.count == 0 and journal.checkpoint and Path(journal.checkpoint).read_bytes() == text
    replaced = sorted((it.name.partition(".replaced-")[0], (it / "checkpoint.jsonl").read_bytes(), (it / "journal.jsonl").read_bytes())
                      for it in tmp_path.glob("*.replaced-*") if (it / "journal.jsonl").exists())
    assert replaced == [("2", b"other", b""), ("2", b"two", b"{}\n")] and len(list(tmp_path.glob("3.replaced-*"))) == 1
    folder.drop_before(2)
    assert sorted(it.name for it in tmp_path.iterdir()) == ["2", "lock"]
    folder.begin_again(1, {})
    assert folder.last == 1 and folder.journal().checkpoint is None


def test_replies_are_found_by_their_lines_number(tmp_path: Path) -> None:
    path = str(tmp_path / "replies.jsonl")
    replies = KeptReplies(path)
    records = [KeptReplies.record(n, b"%d sheet 0\nwagon \"x\"" % n) for n in (1, 4, 5)]
    replies.keep([1, 4, 5], records)
    for kept in replies, KeptReplies(path):
        assert kept.last == 5
        assert kept.read(1, 3) == records[0] + b"\n"
        assert kept.read(2, 3) == b""
        assert kept.read(2, 9) == records[1] + b"\n" + records[2] + b"\n"
        assert kept.until(1, 5, 1) in (1, 2, 3) and kept.until(1, 5, 10_000) == 5


def test_what_was_added_last_is_read_as_the_file(tmp_path: Path) -> None:
    path = str(tmp_path / "lines")
    lines = FileOfLines(path)
    for size in 3, 1, 4, 2:
        lines.append([b"line %d" % (lines.count + 1 + k) for k in range(size)], is_synced=False)
        again = FileOfLines(path)
        for first in range(1, lines.count + 1):
            for last in range(first, lines.count + 1):
                assert lines.read(first, last) == again.read(first, last)
                assert lines.first_bytes(first, 20, last) == min(again.first_bytes(first, 20), last)
    lines.cut(9)
    lines.append([b"another"], is_synced=False)
    assert lines.read(9, 10) == b"line 9\nanother\n"


def test_records_of_many_are_those_of_each() -> None:
    plain = [(n, b"%d refused 25 wagon 12" % n) for n in range(1, 9)]
    tries: list[list[tuple[int, bytes]]] = [plain, [*plain, (9, b'9 plan 0 0 0 0\n{"at":"x"}')], []]
    for replies in tries:
        records = KeptReplies.records([number for number, _ in replies], [text for _, text in replies])
        assert records == [KeptReplies.record(*reply) for reply in replies]
        assert [json.loads(record) for record in records] == [{"number": n, "reply": text.decode()} for n, text in replies]


def test_replies_of_another_journal_are_refused(tmp_path: Path) -> None:
    journal = Journal(str(tmp_path))
    journal.add([b"{}"])
    journal.replies.keep([1], [KeptReplies.record(1, b"1 refused 24 type")])
    journal.close()
    (tmp_path / "journal.jsonl").write_bytes(b"")
    with pytest.raises(Unreadable, match="line 1 has a reply, but the journal ends with line 0"):
        Journal(str(tmp_path))


@pytest.mark.parametrize("spoiled", [
    b"3 refused 24 type", b"", bytes(40), b'{"number":2,"reply":"2 accepted 2"}', b'{"number":3,"reply":"3 acc', b'{"number":3,"reply":"3 \0\0\0 3"}'])
def test_replies_that_were_spoiled_are_made_again(tmp_path: Path, spoiled: bytes) -> None:
    good = [KeptReplies.record(n, b"%d accepted %d" % (n, n)) for n in (1, 2, 4)]
    file = tmp_path / "replies.jsonl"
    file.write_bytes(b"\n".join([*good[:2], spoiled, good[2], b""]))
    replies = KeptReplies(str(file))
    assert replies.spoiled == 3 and replies.last == 2 and file.read_bytes() == b"\n".join([*good[:2], b""])


def test_a_disk_that_fails_is_not_trusted_any_more(tmp_path: Path, monkeypatch: pytest.MonkeyPatch) -> None:
    journal = Journal(str(tmp_path))
    journal.add([b"one"])

    def fails(_file: int) -> None:
        raise OSError(errno.EIO, "Input/output error")

    monkeypatch.setattr(os, "fdatasync", fails)
    with pytest.raises(Broken, match="Input/output error"):
        journal.add([b"two"])
    assert journal.lines.count == 1


@pytest.fixture
def small_disk(tmp_path: Path) -> Iterator[Path]:
    """A disk of 256 kB."""
    folder = tmp_path / "disk"
    folder.mkdir()
    mount = subprocess.run(["mount", "-t", "tmpfs", "-o", "size=256k", "tmpfs", str(folder)], capture_output=True)
    if mount.returncode:
        pytest.skip("mounting isn't allowed here")
    yield folder
    subprocess.run(["umount", "-l", str(folder)], check=True)


def test_a_full_disk_takes_all_lines_or_none(small_disk: Path) -> None:
    journal = Journal(str(small_disk))
    taken = 0
    with pytest.raises(NotKept):
        while True:
            journal.add([b"x" * 999] * 30)
            taken += 30
    assert taken and journal.lines.count == taken
    assert os.path.getsize(small_disk / "journal.jsonl") == taken * 1000


def test_replies_wait_while_the_disk_is_full(small_disk: Path) -> None:
    replies = KeptReplies(str(small_disk / "replies.jsonl"))
    filler = small_disk / "filler"
    with open(filler, "wb", buffering=0) as file, pytest.raises(OSError):
        while True:
            file.write(bytes(4096))
    records = [KeptReplies.record(n, b"%d accepted %d" % (n, n)) for n in range(1, 1001)]
    replies.keep(range(1, 501), records[:500])
    replies.keep(range(501, 1001), records[500:])
    assert replies.are_behind and replies.read(499, 502) == b"".join(r + b"\n" for r in records[498:502])
    filler.unlink()
    replies.write()
    assert not replies.are_behind and FileOfLines(str(small_disk / "replies.jsonl")).count == 1000
    assert replies.read(499, 502) == b"".join(r + b"\n" for r in records[498:502])
