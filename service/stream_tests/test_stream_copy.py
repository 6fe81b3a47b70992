"""The copy of a stream: nothing of it goes, it goes on where it ends, and it can be put back."""

import json
import subprocess
from pathlib import Path

from conftest import StartOffice, StartServer
from running import ROOT, WAGONS, message
from servers import Office, RedisServer, until
from test_streams import LINES, answered, appended, replies, run

JOURNAL_LINES = 20
OPTIONS = ["--journal-lines", str(JOURNAL_LINES)]


def files(folder: Path) -> dict[str, bytes]:
    """What a copy has, as it stands on the disk. A start adds the checksums of lines that have none yet."""
    return {str(it.relative_to(folder)): it.read_bytes() for it in folder.rglob("*") if it.is_file() and it.name not in ("lock", "checksums.jsonl")}


def lines(first: int, last: int) -> list[bytes]:
    return [message("R001", n, WAGONS[n % 40]) for n in range(first, last)]


def copied(server: RedisServer, start_office: StartOffice, folder: Path, count: int) -> tuple[Office, dict[bytes, bytes]]:
    """An office that has answered so many lines and has a copy of them, and the replies."""
    office = start_office(server.address("north"), options=[*OPTIONS, "--copy", str(folder)]).until_first()
    answered(server, appended(server, lines(0, count))[-1:])
    until("the copy has all", lambda: sum(it.read_bytes().count(b"\n") for it in folder.glob("*/replies.jsonl")) == count)
    return office, replies(server)


def restore(folder: Path, address: str) -> "subprocess.CompletedProcess[str]":
    command = [str(ROOT / "service" / "wagons-service"), "restore", "--from", str(folder), "--to", address]
    return subprocess.run(command, capture_output=True, text=True, check=False)


def test_a_copy_outlives_a_wrong_stream(server: RedisServer, start_office: StartOffice, program: str, tmp_path: Path) -> None:
    """A mistyped name leaves the last copy of an office as it is, and where the server is emptied it can be put back."""
    folder = tmp_path / "copy"
    office, told = copied(server, start_office, folder, 50)
    assert office.stop() == 0
    before = files(folder)
    wrong = start_office(server.address("nort"), options=[*OPTIONS, "--copy", str(folder)]).until_listening()
    words = wrong.until_state("stopped")["words"]
    assert f"the copy {folder} is of another stream" in words and "wagons-service restore" in words
    assert not server.client.keys("{nort}:*") and files(folder) == before
    assert "another service has the folder" in restore(folder, server.address("north")).stderr
    wrong.end()
    server.client.flushall()
    done = restore(folder, server.address("north"))
    assert done.returncode == 0 and "{north}:lines has the 30 lines of journal 2 and 3 again, and 30 replies" in done.stdout, done.stderr
    assert "isn't empty" in restore(folder, server.address("north")).stderr and files(folder) == before
    # Each reply stands under its line's id again, and the next line is answered as if nothing had been.
    assert replies(server) == told
    start_office(server.address("north"), options=[*OPTIONS, "--copy", str(folder)]).until_first()
    ids = appended(server, lines(50, 60))
    assert answered(server, ids) == run(program, lines(40, 60), ["--from", str(folder / "3" / "checkpoint.jsonl")])[10:]


def test_a_backup_of_a_copy_is_put_back(server: RedisServer, start_office: StartOffice, tmp_path: Path) -> None:
    """A backup that is made while the office runs knows its stream and the id of each line, so it goes back into an empty one."""
    folder, backup = tmp_path / "copy", tmp_path / "backup"
    office, told = copied(server, start_office, folder, 50)
    command = [ROOT / "service" / "wagons-service", "backup", backup, "--journal", folder, "--program", office.program, *office.office]
    done = subprocess.run(list(map(str, command)), capture_output=True, text=True, check=False)
    assert done.returncode == 0, done.stderr
    there = server.client.xrange(LINES)
    assert office.stop() == 0
    server.client.flushall()
    done = restore(backup / "journal", server.address("north"))
    assert done.returncode == 0 and "the 30 lines of journal 2 and 3 again" in done.stdout, done.stderr
    assert replies(server) == told and server.client.xrange(LINES) == there
    # The office goes on with the backup as its copy.
    office = start_office(server.address("north"), options=[*OPTIONS, "--copy", str(backup / "journal")]).until_first()
    assert len(answered(server, appended(server, lines(50, 55)))) == 5


def test_an_emptied_stream_is_put_back(server: RedisServer, start_office: StartOffice, tmp_path: Path) -> None:
    """A service whose stream is emptied stops. Where its restore is ended, no service begins with a part of the lines, and the
    restore is begun once more."""
    folder = tmp_path / "copy"
    office, told = copied(server, start_office, folder, 30)
    before = files(folder)
    server.client.flushall()
    assert "{north}:lines has no identity" in office.until_state("stopped")["words"] and files(folder) == before
    office.end()
    identity = json.loads((folder / "1" / "stream.json").read_text())["identity"]
    server.client.xadd(LINES, {"line": lines(0, 1)[0]}, id=next(iter(told)).decode())
    server.client.set("{north}:identity", f"restoring {identity}")
    early = start_office(server.address("north"), options=OPTIONS).until_listening()
    assert "is being put back" in early.until_state("stopped")["words"]
    assert "the 30 lines of journal 1 and 2 again" in restore(folder, server.address("north")).stdout
    # A service without a copy reads the same office.
    again = start_office(server.address("north")).until_first()
    assert replies(server) == told and again.health()["lines"] == 10


def test_a_copy_goes_on_where_it_ends(server: RedisServer, start_office: StartOffice, tmp_path: Path) -> None:
    """What was read while its service was away is added, and the journals' files are the same ones."""
    folder = tmp_path / "copy"
    (folder / "1").mkdir(parents=True)
    # A copy without a line is anybody's.
    (folder / "1" / "stream.json").write_text('{"identity":"other","after":"0-0","journal_lines":20}')
    office, _ = copied(server, start_office, folder, 30)
    office.stop()
    identity = server.client.get("{north}:identity")
    assert identity and json.loads((folder / "1" / "stream.json").read_text())["identity"] == identity.decode()
    before, files_before = files(folder), {it: it.stat().st_ino for it in folder.rglob("journal.jsonl")}
    # As a machine that fails may leave it, since nothing of a copy is synced: lines without ids, and replies without lines.
    for name, lost in ("2/ids", 2), ("2/journal.jsonl", 1):
        (folder / name).write_bytes(b"".join(before[name].splitlines(keepends=True)[:-lost]))
    start_office(server.address("north"), options=OPTIONS).until_first()
    answered(server, appended(server, lines(30, 55))[-1:])
    # The last checkpoint has the identity too.
    server.client.delete("{north}:identity")
    start_office(server.address("north"), options=[*OPTIONS, "--copy", str(folder)]).until_ready()
    until("the copy has all", lambda: sum(it.read_bytes().count(b"\n") for it in folder.glob("*/replies.jsonl")) == 55)
    now = files(folder)
    # Of how many lines together it is said who sent them may differ now.
    assert all(now[name].startswith(content) for name, content in before.items() if not name.endswith("/senders.jsonl"))
    assert all(it.stat().st_ino == number for it, number in files_before.items())
    assert b"".join(now[f"{k}/journal.jsonl"] for k in (1, 2, 3)).splitlines() == lines(0, 55)
    assert server.client.get("{north}:identity") == identity
    (replaced,) = folder.rglob("*replaced*")
    assert replaced.name.startswith("replies.jsonl.") and replaced.read_bytes() == before["2/replies.jsonl"]


def test_a_copy_with_more_than_its_stream(start_server: StartServer, start_office: StartOffice, tmp_path: Path) -> None:
    """A server that lost its last lines: the service that has them stops, while it runs and at a start."""
    server, folder = start_server(), tmp_path / "copy"
    office, _ = copied(server, start_office, folder, 25)
    sizes = {file: file.stat().st_size for file in server.folder.glob("appendonlydir/*.incr.aof")}
    answered(server, appended(server, lines(25, 30)))
    until("the copy has all", lambda: (folder / "2" / "replies.jsonl").read_bytes().count(b"\n") == 10)
    server.kill()
    before = files(folder)
    for file, size in sizes.items():
        with open(file, "rb+") as aof:
            aof.truncate(size)
    server.start()
    for _ in range(2):
        words = office.until_state("stopped")["words"]
        assert f"journal 2 of the copy {folder} has 10 lines, and {{north}}:lines has 5 of them" in words
        assert files(folder) == before
        office.end()
        office = start_office(server.address("north"), options=[*OPTIONS, "--copy", str(folder)]).until_listening()
    # Nor does it go on where another line came in the place of a lost one.
    appended(server, lines(40, 45))
    office.end()
    office = start_office(server.address("north"), options=[*OPTIONS, "--copy", str(folder)]).until_listening()
    assert f"line 6 of journal 2 of the copy {folder} isn't the one" in office.until_state("stopped")["words"] and files(folder) == before


def test_a_lost_line_whose_id_came_again(start_server: StartServer, start_office: StartOffice, program: str) -> None:
    """Another line stands under the id of one that the server lost, with its reply. Both services notice it, though neither
    stayed connected: what is there now counts."""
    server = start_server()
    offices = [start_office(server.address("north"), options=OPTIONS) for _ in range(2)]
    until("one writes and both have read", lambda: sorted(it.health()["role"] + it.health()["state"] for it in offices) == ["firstrunning", "standbyrunning"])
    answered(server, appended(server, lines(0, 5)))
    sizes = {file: file.stat().st_size for file in server.folder.glob("appendonlydir/*.incr.aof")}
    lost = appended(server, lines(5, 6))
    answered(server, lost)
    until("both have read it", lambda: all(it.health()["answered"] == 6 for it in offices))
    for office in offices:
        office.pause()
    server.kill()
    for file, size in sizes.items():
        with open(file, "rb+") as aof:
            aof.truncate(size)
    server.start()
    there = [*lines(0, 5), lines(6, 7)[0]]
    server.client.xadd(LINES, {"line": there[-1]}, id=lost[0].decode())
    server.client.xadd("{north}:replies", {"reply": run(program, there)[-1]}, id=lost[0].decode())
    for office in offices:
        office.go_on()
    for office in offices:
        office.until_logged("isn't the one that was read")
        until("it has read what is there", lambda: [it["line"].encode() for it in office.get("/replies").records] == there)
