"""Who sent each line of a stream, and when it was taken: in its entries, at the service, and in a copy."""

import json
import os
import re
import subprocess
import time
from datetime import UTC, datetime
from pathlib import Path
from typing import Any

import pytest
from conftest import StartOffice, StartRouter
from railways import keys
from running import ROOT, WAGONS, line, message
from servers import Office, RedisServer, until
from test_stream_copy import JOURNAL_LINES, OPTIONS, lines, restore
from test_stream_kill import moments, railways
from test_streams import LINES, answered, replies, run

DISPATCHER, READER, RAILWAY = "dispatcher-s-token", "reader-s-long-token", "railway-1001-token"
TOKENS = f"""{RAILWAY} railway 1001 name=north-yard
{DISPATCHER} dispatcher name=a.dispatcher
{READER} reader
"""
RECORD = re.compile(r'\{"first":[1-9][0-9]*,"last":[1-9][0-9]*,"sender":"[A-Za-z0-9._-]{0,64}","taken":"[-0-9]{10}T[:0-9]{8}\.[0-9]{3}Z"\}')
INBOX, RECORDS = keys("fleet")
Entries = list[tuple[bytes, dict[bytes, bytes]]]


@pytest.fixture
def tokens(tmp_path: Path) -> list[str]:
    """The options of a service that knows these senders."""
    file = tmp_path / "tokens"
    file.write_text(TOKENS)
    return ["--tokens", str(file)]


def entries(server: RedisServer, key: str = LINES) -> Entries:
    found: Entries = server.client.xrange(key)
    return found


def append(server: RedisServer, name: str, sent: list[bytes], stream: str = "north", number: int = 1) -> list[bytes]:
    ids: list[bytes] = server.client.execute_command("FCALL", "append", 2, keys(stream)[0], f"{{{stream}}}:sent:{name}", number, *sent)
    return ids


def taken(id: bytes) -> str:
    """The moment in an id."""
    seconds, milliseconds = divmod(int(id.partition(b"-")[0]), 1000)
    return f"{datetime.fromtimestamp(seconds, UTC):%Y-%m-%dT%H:%M:%S}.{milliseconds:03}Z"


def said(office: Office, token: str | None = DISPATCHER, journal: str = "") -> list[tuple[str, str]]:
    """Who sent the lines of a journal, and when, as a dispatcher is told."""
    return [(record["sender"], record["taken"]) for record in office.get(f"/replies?{journal}", token).records]


def names(office: Office, token: str | None = DISPATCHER, journal: str = "") -> list[str]:
    return [name for name, _ in said(office, token, journal)]


def until_said(office: Office, expected: list[str], token: str | None = DISPATCHER) -> None:
    until("all is answered, and its senders are known", lambda: [record.get("sender") for record in office.get("/replies", token).records] == expected)


def test_a_dispatcher_sees_who_sent_each_line(server: RedisServer, start_office: StartOffice, program: str, tokens: list[str]) -> None:
    """Of those who send over HTTP, by `append` and by hand; also after a start, at a standby, and when that took over."""
    office = start_office(server.address("north"), options=tokens).until_first()
    assert office.post([message("1001", 1, WAGONS[0]), message("1001", 2, WAGONS[1])], RAILWAY).status == 200
    append(server, "1002", [message("1002", 1, WAGONS[2])])
    by_hand: list[dict[str, Any]] = [
        {"line": message("1002", 2, WAGONS[2])}, {"sender": "R7", "line": "{}"}, {"line": "{}", "other": "line", "sender": "x" * 64},
        {"line": "{}", "sender": "x" * 65}, {"line": "{}", "sender": b"\xff\""}, {"line": "{}", "sender": ""}]
    for fields in by_hand:
        server.client.xadd(LINES, fields)
    assert office.post([line(kind="sheet")], DISPATCHER).status == 200
    expected = ["north-yard"] * 2 + ["1002", "", "R7", "x" * 64, "", "", "", "a.dispatcher", "wagons-service"]
    until_said(office, expected)
    there = entries(server)
    assert [fields.get(b"sender", b"none") for _, fields in there] == [
        b"north-yard", b"north-yard", b"1002", b"none", b"R7", b"x" * 64, b"x" * 65, b"\xff\"", b"", b"a.dispatcher", b"wagons-service"]
    known = [(name, taken(id)) for name, (id, _) in zip(expected, there)]
    assert said(office) == known
    # Nobody else sees it, and the program was given the lines as they came.
    for token in READER, RAILWAY:
        told = office.get("/replies", token).records
        assert told and all(record.keys() == {"number", "reply", "line"} for record in told)
    assert list(replies(server).values()) == run(program, [fields[b"line"] for _, fields in there])
    standby = start_office(server.address("north"), options=tokens).until_ready()
    until_said(standby, expected)
    assert office.stop() == 0
    office = start_office(server.address("north"), options=tokens).until_ready()
    for service in office, standby:
        until_said(service, expected)
        assert said(service) == known
    first, other = (office, standby) if office.health()["role"] == "first" else (standby, office)
    first.kill()
    other.until_first()
    assert other.post([message("1001", 3, WAGONS[0])], RAILWAY).status == 200
    until_said(other, [*expected, "north-yard"])
    assert said(other)[:-1] == known


def test_without_tokens(server: RedisServer, start_office: StartOffice) -> None:
    office = start_office(server.address("north")).until_first()
    office.post([line(kind="sheet")])
    assert names(office, None) == ["anyone", "wagons-service"]


def test_any_id_has_a_moment(server: RedisServer, start_office: StartOffice) -> None:
    office = start_office(server.address("north")).until_first()
    ids = [server.client.xadd(LINES, {"line": "{}", "sender": "R001"}, id=id) for id in ("1-1", "1795769207209-7", "18446744073709551615-1")]
    answered(server, ids)
    until("all is answered", lambda: office.health()["answered"] == 3)
    assert [moment for _, moment in said(office, None)] == ["1970-01-01T00:00:00.001Z", taken(ids[1]), "9999-12-31T23:59:59.999Z"]


def test_a_router_carries_names(server: RedisServer, start_office: StartOffice, start_router: StartRouter, tokens: list[str]) -> None:
    """As they stand, under the inbox's ids; and once more to an office whose node lost its lines."""
    client = server.client
    offices = {name: start_office(server.address(f"fleet/{name}"), options=tokens).until_first() for name in ("north", "south")}
    router = start_router(server.address("fleet"), {wagon: "south" if k % 2 else "north" for k, wagon in enumerate(WAGONS)})

    def are_there() -> bool:
        """Whether each line of the inbox has its record, and its office has the entry as the inbox does."""
        records, sent = dict(entries(server, RECORDS)), entries(server, INBOX)
        return len(records) == len(sent) and all(entries(server, keys(name)[0]) == [
            (id, {key: value for key, value in fields.items() if key != b"office"}) for id, fields in sent if records[id] == {b"office": name.encode()}]
            for name in offices)

    assert offices["north"].post([line(kind="sheet")], DISPATCHER).status == 200
    assert offices["south"].post([message("1001", 1, WAGONS[1])], RAILWAY).status == 200
    append(server, "1002", [message("1002", n, WAGONS[n]) for n in range(4)], "fleet")
    client.xadd(INBOX, {"sender": "by hand \u00fc", "office": "south", "line": "{}"})
    until("they are brought", are_there)
    expected = {"north": ["a.dispatcher", "wagons-service", "1002", "1002"], "south": ["north-yard", "1002", "1002", ""]}
    for name, office in offices.items():
        until_said(office, expected[name])
        assert [moment for _, moment in said(office)] == [taken(id) for id, _ in entries(server, keys(name)[0])]
    before = client.dump(LINES)
    assert before
    append(server, "1002", [message("1002", n, WAGONS[0]) for n in (5, 6)], "fleet", 2)
    until("they are brought", are_there)
    router.end()
    client.restore(LINES, 0, before, replace=True)
    assert not are_there()
    router.again()
    until("they are brought again", are_there)
    until_said(offices["north"], [*expected["north"], "1002", "1002"])


def records(folder: Path, journal: int) -> list[str]:
    """Whom the file beside a journal names for each of its lines, one after the other."""
    found: list[str] = []
    for record in (folder / str(journal) / "senders.jsonl").read_text().splitlines():
        assert RECORD.fullmatch(record), record
        told = json.loads(record)
        assert told["first"] == len(found) + 1
        found += [told["sender"]] * (told["last"] + 1 - told["first"])
    return found


NAMES = ["1002"] * 25 + [""] + ["a.dispatcher"] * 4


def copied(server: RedisServer, start_office: StartOffice, folder: Path, tokens: list[str]) -> Office:
    """An office with a copy, after one journal and a half by several senders."""
    office = start_office(server.address("north"), options=[*OPTIONS, "--copy", str(folder), *tokens]).until_first()
    ids = append(server, "1002", lines(0, 25)) + [server.client.xadd(LINES, {"line": lines(25, 26)[0]})]
    answered(server, ids)
    assert office.post(lines(26, 30), DISPATCHER).status == 200
    assert records(folder, 1) + records(folder, 2) == NAMES
    return office


def test_a_copy_has_them(server: RedisServer, start_office: StartOffice, tmp_path: Path, tokens: list[str]) -> None:
    """Beside each of its journals, also of those that the stream hasn't any more; so a backup has them, and a compressed journal."""
    folder, backup = tmp_path / "copy", tmp_path / "backup"
    office = copied(server, start_office, folder, tokens)
    told = {journal: said(office, journal=f"journal={journal}") for journal in (1, 2)}
    assert [name for journal in (1, 2) for name, _ in told[journal]] == NAMES
    assert [moment for journal in (1, 2) for _, moment in told[journal]] == [taken(id) for id, _ in entries(server)]
    command = [ROOT / "service" / "wagons-service", "backup", backup, "--journal", folder, "--program", office.program, *office.office]
    assert subprocess.run(list(map(str, command)), check=False).returncode == 0
    assert records(backup / "journal", 1) + records(backup / "journal", 2) == NAMES
    office.stop()
    old = time.time() - 86_400 * 31
    os.utime(folder / "1" / "journal.jsonl", (old, old))
    office = start_office(server.address("north"), options=[*OPTIONS, "--copy", str(folder), *tokens]).until_first()
    until("the first journal is compressed", lambda: (folder / "1" / "journal.jsonl.gz").exists())
    assert (folder / "1" / "senders.jsonl.gz").exists()
    assert {journal: said(office, journal=f"journal={journal}") for journal in (1, 2)} == told


def test_what_a_copy_lacks_is_read_anew(server: RedisServer, start_office: StartOffice, tmp_path: Path, tokens: list[str]) -> None:
    """A copy of before has no names, and a machine that fails may lose the last ones. What the stream still has is added."""
    folder = tmp_path / "copy"
    office = copied(server, start_office, folder, tokens)
    told = said(office)
    # As a machine that fails leaves it: names of a line that isn't there, or no names of the last lines.
    for lost in ("2/journal.jsonl", 1), ("2/senders.jsonl", 2), ("2/senders.jsonl", 99):
        office.stop()
        file = folder / lost[0]
        file.write_bytes(b"".join(file.read_bytes().splitlines(keepends=True)[:-lost[1]]))
        office = start_office(server.address("north"), options=[*OPTIONS, "--copy", str(folder), *tokens]).until_first()
        until_said(office, NAMES[20:])
        assert said(office) == told and records(folder, 2) == NAMES[20:]
    office.stop()
    (folder / "1" / "senders.jsonl").unlink()
    (folder / "2" / "senders.jsonl").unlink()
    office = start_office(server.address("north"), options=[*OPTIONS, "--copy", str(folder), *tokens]).until_first()
    assert said(office) == told
    # The lines of the first journal aren't read any more.
    assert [record.keys() for record in office.get("/replies?journal=1", DISPATCHER).records] == [{"number", "reply", "line"}] * JOURNAL_LINES


def test_a_restore_puts_them_back(server: RedisServer, start_office: StartOffice, tmp_path: Path, tokens: list[str]) -> None:
    folder = tmp_path / "copy"
    office = copied(server, start_office, folder, tokens)
    told = said(office)
    answered(server, append(server, "1003", lines(30, 45)))
    office.stop()
    there = entries(server)
    # The line before the second journal, that journal and the third one.
    assert [fields.get(b"sender", b"").decode() for _, fields in there] == [*NAMES[19:], *["1003"] * 15]
    server.client.flushall()
    assert restore(folder, server.address("north")).returncode == 0
    assert entries(server) == there
    office = start_office(server.address("north"), options=[*OPTIONS, *tokens]).until_first()
    assert names(office) == ["1003"] * 5
    office.stop()
    office = start_office(server.address("north"), options=[*OPTIONS, "--copy", str(folder), *tokens]).until_first()
    assert said(office, journal="journal=2")[:10] == told
    office.stop()
    # A copy of before has no names.
    for file in folder.glob("*/senders.jsonl"):
        file.unlink()
    server.client.flushall()
    assert restore(folder, server.address("north")).returncode == 0
    assert entries(server) == [(id, {b"line": fields[b"line"]}) for id, fields in there]


def test_an_office_with_a_copy_that_is_killed(server: RedisServer, start_office: StartOffice, kills: int, tmp_path: Path) -> None:
    """Each line of each journal has its sender, whenever the office is killed."""
    folder, options = tmp_path / "copy", ["--journal-lines", "3000", "--copy", str(tmp_path / "copy")]
    office = start_office(server.address("north"), options=options).until_first()
    with railways(server) as senders:
        for _ in moments(max(kills // 10, 2)):
            office.kill()
            office = start_office(server.address("north"), options=options).until_listening()
            time.sleep(0.3)
    ids = [id for railway in senders for id in railway.acknowledged]
    last = max(ids, key=lambda id: list(map(int, id.split(b"-"))))
    answered(server, [last])
    office.stop()
    companies: list[str] = []
    for journal in sorted(int(it.name) for it in folder.iterdir() if it.name.isdigit()):
        there = [json.loads(it)["company"] for it in (folder / str(journal) / "journal.jsonl").read_bytes().splitlines()]
        assert records(folder, journal) == there
        companies += there
    assert len(companies) == sum(len(railway.sent) for railway in senders)
