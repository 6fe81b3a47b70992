"""What a router does for an office whose stream isn't what it was: lost lines come again, and what can't come is refused."""

import asyncio
import threading
from collections.abc import Iterator
from contextlib import contextmanager
from pathlib import Path

import pytest
import redis
from conftest import StartOffice, StartRouter, StartServer
from railways import Judge, keys
from running import WAGONS, message
from servers import RedisServer, until
from test_stream_kill import moments, railways
from wagons_service import router as routing
from wagons_service.address import Address

INBOX, RECORDS = keys("fleet")
LINES, REPLIES = keys("north")
LATE = b"refused 101"


class Pair:
    """A cluster of two nodes: one has the office north, the other one the inbox and all else."""

    def __init__(self, start_server: StartServer) -> None:
        self.inbox, self.north = start_server(is_node=True), start_server(is_node=True)
        slot = self.north.client.execute_command("CLUSTER", "KEYSLOT", LINES)
        self.north.client.execute_command("CLUSTER", "ADDSLOTS", slot)
        self.inbox.client.execute_command("CLUSTER", "ADDSLOTSRANGE", 0, slot - 1, slot + 1, 16383)
        self.inbox.client.execute_command("CLUSTER", "MEET", "127.0.0.1", self.north.port)
        until("they are a cluster", lambda: all(
            b"cluster_state:ok" in node.client.execute_command("CLUSTER", "INFO") for node in (self.inbox, self.north)))

    def address(self, path: str) -> str:
        return self.inbox.address(path)


def north_loses(node: RedisServer, size: int) -> None:
    """The node is killed, and its file has lost what is behind so many bytes."""
    node.kill()
    (file,) = node.folder.glob("appendonlydir/*.incr.aof")
    with open(file, "rb+") as aof:
        aof.truncate(size)
    node.start()


def size_of(node: RedisServer) -> int:
    (file,) = node.folder.glob("appendonlydir/*.incr.aof")
    return file.stat().st_size


def sent(client: "redis.Redis[bytes]", first: int, last: int, wagon: str = WAGONS[0]) -> list[bytes]:
    """The ids of messages that were appended to the inbox."""
    return [client.xadd(INBOX, {"line": message("R001", number, wagon)}) for number in range(first, last)]


def ids_of(client: "redis.Redis[bytes]", key: str) -> list[bytes]:
    return [id for id, _ in client.xrange(key)]


def test_a_node_that_loses_its_end(
        start_server: StartServer, start_office: StartOffice, start_router: StartRouter, program: str, kills: int, tmp_path: Path) -> None:
    """Whatever the office's node loses comes again from the inbox, in its place and under its id, and is answered."""
    pair = Pair(start_server)
    start_office(pair.address("fleet/north")).until_first()
    router = start_router(pair.address("fleet"), {wagon: "north" for wagon in WAGONS})
    with railways(pair.inbox, "fleet") as senders:
        for kill in moments(max(kills // 10, 1)):
            before = size_of(pair.north)
            more = len(ids_of(pair.inbox.client, RECORDS)) + 50
            until("more is brought", lambda: len(ids_of(pair.inbox.client, RECORDS)) > more)
            if kill % 2:
                router.again()
            north_loses(pair.north, (before + size_of(pair.north)) // 2)
    until("all lines are there again", lambda: ids_of(pair.north.client, LINES) == ids_of(pair.inbox.client, INBOX))
    judge = Judge("north", lambda: pair.north.client, program, tmp_path)
    judge.judge(senders)
    assert set(ids_of(pair.inbox.client, RECORDS)) == set(judge.lines)


def test_what_cannot_come_again_is_said(server: RedisServer, start_router: StartRouter) -> None:
    """The stream has a later line than those that it lost: each of them is among the lost ones, and those behind come."""
    client = server.client
    router = start_router(server.address("fleet"), {WAGONS[0]: "north"})
    kept = sent(client, 0, 3)
    until("they have their records", lambda: ids_of(client, RECORDS) == kept)
    before = client.dump(LINES)
    lost = sent(client, 3, 6)
    until("they have their records", lambda: ids_of(client, RECORDS) == kept + lost)
    router.end()
    client.restore(LINES, 0, before, replace=True)
    foreign = client.xadd(LINES, {"line": "{}"})
    for start in range(2):
        router.again()
        kept += sent(client, 6 + start, 7 + start)
        until("the next line has its record", lambda: ids_of(client, RECORDS)[-1] == kept[-1])
        assert client.hgetall("{fleet}:lost") == {id: LATE + b" north" for id in lost}
    assert ids_of(client, LINES) == sorted([*kept, foreign])
    # Said once, though the later line is lost as well.
    router.end()
    client.restore(LINES, 0, before, replace=True)
    router.again()
    until("what isn't among the lost ones comes again", lambda: ids_of(client, LINES) == kept)


@contextmanager
def router_inside(server: RedisServer, offices: dict[str, str]) -> Iterator[None]:
    """A router in a thread of this process."""
    router = routing.Router(Address.read(server.address("fleet")), routing.Offices(list(offices.values()), offices), 24)
    loop = asyncio.new_event_loop()
    task = loop.create_task(router.run())
    thread = threading.Thread(target=loop.run_until_complete, args=(asyncio.wait([task]),))
    thread.start()
    try:
        yield
    finally:
        loop.call_soon_threadsafe(task.cancel)
        thread.join(10)
        loop.close()


def test_each_minute_is_compared(server: RedisServer, monkeypatch: pytest.MonkeyPatch) -> None:
    """A proxy may hide that a server was away: the connection stays, and lines are gone. Another office holds the records
    up, so some of these lines have one and others don't."""
    monkeypatch.setattr(routing, "SECONDS_BETWEEN_COMPARISONS", 0.1)
    client = server.client
    client.set(keys("south")[0], "no stream")
    with router_inside(server, {WAGONS[0]: "north", WAGONS[1]: "south"}):
        ids = sent(client, 0, 3)
        until("they have their records", lambda: ids_of(client, RECORDS) == ids)
        before = client.dump(LINES)
        ids += sent(client, 3, 6)
        until("they have their records", lambda: ids_of(client, RECORDS) == ids)
        held = sent(client, 6, 7, WAGONS[1])
        more = sent(client, 7, 10)
        until("they are brought", lambda: ids_of(client, LINES) == ids + more)
        client.restore(LINES, 0, before, replace=True)
        until("they are brought again", lambda: ids_of(client, LINES) == ids + more)
        assert ids_of(client, RECORDS) == ids
        client.delete(keys("south")[0])
        until("all have their records", lambda: ids_of(client, RECORDS) == ids + held + more)


def test_more_is_lost_than_the_inbox_keeps(server: RedisServer, start_router: StartRouter) -> None:
    """The router doesn't go on with a part of the lines, unless the keeper says that nothing older is missing."""
    client, offices = server.client, {WAGONS[0]: "north", WAGONS[1]: "south"}
    router = start_router(server.address("fleet"), offices)
    ids = sent(client, 0, 8)
    until("they have their records", lambda: ids_of(client, RECORDS) == ids)
    router.end()
    client.delete(LINES)
    for key in INBOX, RECORDS:
        client.xtrim(key, minid=ids[3].decode(), approximate=False)
    router.again()
    other = sent(client, 8, 9, WAGONS[1])
    router.until_logged("has lost more than the inbox keeps")
    until("the other office has its line", lambda: ids_of(client, keys("south")[0]) == other)
    assert client.exists(LINES) == 0
    router.end()
    assert start_router(server.address("fleet"), offices, ["--complete", "west"]).process.wait() == 2
    start_router(server.address("fleet"), offices, ["--complete", "north"])
    until("it has what the inbox keeps", lambda: ids_of(client, LINES) == ids[3:])
