"""Servers with replicas: the one that takes writes is found, also by a Sentinel, and lines may wait for replicas."""

import subprocess
from collections.abc import Iterator
from pathlib import Path

import pytest
from conftest import StartOffice, StartServer
from running import WAGONS, message
from servers import RedisServer, server_port, until
from test_streams import answered, appended, replies


def replica_of(master: RedisServer, start_server: StartServer) -> RedisServer:
    replica = start_server(more=["--replicaof", "127.0.0.1", str(master.port), "--repl-diskless-sync-delay", "0"])
    until("the replica follows", lambda: replica.client.info("replication")["master_link_status"] == "up")
    return replica


def one_more(server: RedisServer, number: int) -> bytes:
    (reply,) = answered(server, appended(server, [message("R001", number, WAGONS[number])]))
    return reply


def test_the_one_that_takes_writes(start_server: StartServer, start_office: StartOffice) -> None:
    """The service takes the master, whatever stands first in its address; and another one when that became a replica."""
    master = start_server(more=["--repl-diskless-sync-delay", "0"])
    replica = replica_of(master, start_server)
    hosts = ",".join(f"127.0.0.1:{it.port}" for it in (replica, master))
    office = start_office(f"redis://{hosts}/north", lease=500).until_first()
    assert one_more(master, 1) == b"1 accepted 1"
    until("the replica has it", lambda: replies(replica) == replies(master))
    replica.client.replicaof("NO", "ONE")
    master.client.replicaof("127.0.0.1", str(replica.port))
    office.until_logged("the stream can't be reached")
    assert one_more(replica, 2) == b"2 accepted 2"
    assert office.post([message("R001", 3, WAGONS[3])]).replies == ["3 accepted 3"]


def test_only_what_replicas_have_is_answered(start_server: StartServer, start_office: StartOffice) -> None:
    """While the replica is away a line waits; when it has it, the line is answered. Without the option it's answered at once."""
    master = start_server(more=["--repl-diskless-sync-delay", "0"])
    replica = replica_of(master, start_server)
    office = start_office(master.address("north"), options=["--replicas", "1"]).until_first()
    start_office(master.address("south")).until_first()
    assert one_more(master, 1) == b"1 accepted 1"
    replica.pause()
    (id,) = appended(master, [message("R001", 2, WAGONS[2])])
    answered(master, appended(master, [b"{}"], "south"), "south")
    office.until_logged("0 of 1 replicas have them")
    assert id not in replies(master) and office.health()["answered"] == 1
    replica.go_on()
    assert answered(master, [id]) == [b"2 accepted 2"]
    office.until_logged("1 replicas have the lines again")


@pytest.fixture
def sentinel(tmp_path: Path) -> Iterator[int]:
    """The port of a Sentinel, which watches nothing yet."""
    port, file = server_port(), tmp_path / "sentinel.conf"
    file.write_text(f"port {port}\nbind 127.0.0.1\ndir {tmp_path}\n")
    with open(tmp_path / "sentinel.log", "ab") as log:
        process = subprocess.Popen(["redis-server", str(file), "--sentinel"], stdout=log, stderr=log, start_new_session=True)
    yield port
    process.kill()
    process.wait()


def test_a_sentinel_says_which(start_server: StartServer, start_office: StartOffice, sentinel: int) -> None:
    """The address names the Sentinel alone. The master is killed, and the office goes on with the one that took its place."""
    master = start_server(more=["--repl-diskless-sync-delay", "0"])
    replica = replica_of(master, start_server)
    watched = RedisServer(master.folder, sentinel).client
    until("the Sentinel answers", watched.ping)
    watched.execute_command("SENTINEL", "MONITOR", "trains", "127.0.0.1", master.port, 1)
    for name, value in ("down-after-milliseconds", 500), ("failover-timeout", 2000):
        watched.execute_command("SENTINEL", "SET", "trains", name, value)
    start_office(f"redis://127.0.0.1:{sentinel}/north", lease=500).until_first()
    assert one_more(master, 1) == b"1 accepted 1"
    until("the Sentinel knows the replica", lambda: watched.execute_command("SENTINEL", "REPLICAS", "trains"))
    until("the replica has all", lambda: replies(replica) == replies(master))
    master.kill()
    until("the replica takes its place", lambda: replica.client.info("replication")["role"] == "master")
    assert one_more(replica, 2) == b"2 accepted 2"
