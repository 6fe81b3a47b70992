"""Sixteen offices over a cluster of three nodes."""

import subprocess
from collections.abc import Callable, Iterable, Mapping, Sequence
from pathlib import Path

import redis
from conftest import StartOffice, StartRouter, StartServer
from railways import Judge, Railway, keys
from running import DAY, WAGONS, line, message, order
from servers import RedisServer, until

OFFICES = [f"office-{k:02}" for k in range(16)]


class Cluster:
    def __init__(self, nodes: list[RedisServer]) -> None:
        self.nodes = nodes
        names = [f"127.0.0.1:{node.port}" for node in nodes]
        subprocess.run(["redis-cli", "--cluster", "create", *names, "--cluster-yes"], check=True, stdout=subprocess.DEVNULL)
        until("the cluster is one", lambda: all(b"cluster_state:ok" in node.client.execute_command("CLUSTER", "INFO") for node in nodes))
        client = nodes[0].client
        self._slots = client.execute_command("CLUSTER", "SLOTS")
        self._slot = {name: client.execute_command("CLUSTER", "KEYSLOT", keys(name)[0]) for name in ("fleet", *OFFICES)}

    def address(self, path: str) -> str:
        return f"redis://{','.join(f'127.0.0.1:{node.port}' for node in self.nodes)}/{path}"

    def node(self, stream: str) -> RedisServer:
        """The node that has a stream."""
        port = next(node[1] for first, last, node in self._slots if first <= self._slot[stream] <= last)
        return next(node for node in self.nodes if node.port == port)


class Fleet:
    """The offices, and a judge for each."""

    def __init__(self, cluster: Cluster, start_office: StartOffice, program: str, folder: Path) -> None:
        rows = (DAY / "roster.csv").read_text().splitlines()
        self.cluster = cluster
        self.offices = {wagon: OFFICES[k % 16] for k, wagon in enumerate(WAGONS)}
        self.judges = {}
        for name in OFFICES:
            roster = folder / f"{name}.csv"
            roster.write_text("\n".join([rows[0], *(row for row in rows[1:] if self.offices[row.split(",")[0]] == name)]) + "\n")
            start_office(cluster.address(f"fleet/{name}"), roster=roster)
            self.judges[name] = Judge(name, self._connect(cluster.node(name)), program, folder, roster)

    @staticmethod
    def _connect(node: RedisServer) -> "Callable[[], redis.Redis[bytes]]":
        return lambda: node.client

    def office(self, line: bytes) -> str:
        return self.offices[line.partition(b'"wagon":"')[2][:12].decode()]

    def judge(self, acknowledged: Mapping[bytes, bytes], names: Iterable[str] = OFFICES) -> None:
        """Each message is in its wagon's stream under its id, and has its reply there."""
        for name in names:
            mine = {id: line for id, line in acknowledged.items() if self.office(line) == name}
            judge = self.judges[name]
            judge.until_answered(list(mine))
            assert all(judge.lines[id] == line for id, line in mine.items())
            assert all(self.office(line) == name for line in judge.lines.values() if b'"wagon"' in line)
            judge.judge_all()


def acknowledged(railways: Sequence[Railway]) -> dict[bytes, bytes]:
    return {id: line for railway in railways for id, line in railway.acknowledged.items()}


def test_sixteen_offices(start_server: StartServer, start_office: StartOffice, start_router: StartRouter, program: str, tmp_path: Path) -> None:
    cluster = Cluster([start_server(is_node=True) for _ in range(3)])
    fleet = Fleet(cluster, start_office, program, tmp_path)
    assert len({cluster.node(name).port for name in OFFICES}) == 3
    router = start_router(cluster.address("fleet"), fleet.offices)
    inbox = cluster.node("fleet")

    def connect() -> "redis.Redis[bytes]":
        return inbox.client

    until("the function is there", lambda: b"wagons" in str(connect().execute_command("FUNCTION", "LIST")).encode())
    railways = [Railway(k, "fleet", connect) for k in range(3)]
    for railway in railways:
        railway.start()
    fleet.judge(acknowledged(railways))
    for away in cluster.nodes:
        away.kill()
        if away is not inbox:
            # The offices of the other nodes are answered all the same.
            before = acknowledged(railways)
            until("more is sent", lambda: len(acknowledged(railways)) > len(before) + 200)
            fleet.judge(acknowledged(railways), [name for name in OFFICES if cluster.node(name) is not away])
        # And what waits for the node isn't lost with the router.
        router.again()
        away.start()
        fleet.judge(acknowledged(railways))
    for railway in railways:
        railway.end()
    fleet.judge(acknowledged(railways))
    assert sum(len(judge.lines) for judge in fleet.judges.values()) == inbox.client.xlen(keys("fleet")[0])


def test_lines_go_where_they_say(server: RedisServer, start_office: StartOffice, start_router: StartRouter, tmp_path: Path) -> None:
    """A message goes to its wagon's office, an order where it says, and what nobody can read to the first office."""
    rows = (DAY / "roster.csv").read_text().splitlines()
    offices = {wagon: "north" if k < 20 else "south" for k, wagon in enumerate(WAGONS)}
    started = {}
    for name in ("north", "south"):
        roster = tmp_path / f"{name}.csv"
        roster.write_text("\n".join([rows[0], *(row for row in rows[1:] if offices[row.split(",")[0]] == name)]) + "\n")
        started[name] = start_office(server.address(f"fleet/{name}"), roster=roster).until_first()
    start_router(server.address("fleet"), offices)
    client, inbox = server.client, keys("fleet")[0]

    def add(text: bytes, **fields: str) -> bytes:
        id: bytes = client.xadd(inbox, {"line": text, **fields})
        return id

    north, south = WAGONS[0], WAGONS[20]
    spaced = f"{south[:2]} {south[2:4]} {south[4:8]} {south[8:11]}-{south[11]}"
    sent = [
        (add(message("R001", 1, north)), "north", b"accepted"), (add(message("R001", 2, south)), "south", b"accepted"),
        (add(message("R001", 3, spaced)), "south", b"accepted"), (add(message("R001", 4, "338447961008")), "north", b"refused 73"),
        (add(message("R001", 5, north[:-1] + "x")), "north", b"refused 25 wagon 11"), (add(b"no JSON"), "north", b"refused 21"),
        (add(b"y" * 70_000), "north", b"refused 92"), (add(b"[1]"), "north", b"refused 22"), (add(b'{"type":5}'), "north", b"refused 25 type 19"),
        (add(order("O1"), office="south"), "south", b"accepted"), (add(order("O2", office="north")), "north", b"accepted"),
        (add(order("O3")), None, b"refused 24 office"), (add(order("O4"), office="west"), None, b"refused 25 office 20"),
        (add(line(kind="sheet", office=7)), None, b"refused 25 office 20"), (add(message("R001", 6, north), office="south"), "south", b"refused 73"),
        (client.xadd(inbox, {"text": "{}"}), "north", b"refused 21")]
    records = until("each line has its record", lambda: (now := dict(client.xrange(keys("fleet")[1]))) and len(now) == len(sent) and now)
    assert list(records) == [id for id, _, _ in sent]
    for id, where, said in sent:
        if where is None:
            assert records[id] == {b"reply": said}
        else:
            assert records[id] == {b"office": where.encode()}
            reply = reply_under(server, where, id)
            number, _, words = reply.partition(b" ")
            assert number.isdigit() and words.startswith(said), (reply, said)
    # A dispatcher's lines by HTTP take the same way, to the office whose service it is.
    for name, office in started.items():
        answer = office.post([order("O5"), message("R002", 1 if name == "north" else 2, north)])
        assert [reply.split(" ")[1] for reply in answer.replies] == ["accepted", "accepted" if name == "north" else "refused"]


def reply_under(server: RedisServer, office: str, id: bytes) -> bytes:
    found = until("its reply is there", lambda: server.client.xrange(keys(office)[1], id.decode(), id.decode()))
    reply: bytes = found[0][1][b"reply"]
    return reply


def test_a_line_that_comes_too_late(server: RedisServer, start_router: StartRouter) -> None:
    """Who appends to an office's stream beside the inbox makes no line vanish: it is refused, and the rest goes on."""
    client, inbox = server.client, keys("fleet")[0]
    client.xadd(keys("south")[0], {"line": "{}"}, id="99999999999999-0")
    # The inbox lost its last lines, and gave their ids again: to the same line, and to another one.
    sent = [message("R001", n, wagon) for n, wagon in enumerate([WAGONS[0], WAGONS[0], WAGONS[0], WAGONS[20], WAGONS[0]])]
    ids = [client.xadd(inbox, {"line": text}, id=f"1-{n}") for n, text in enumerate(sent[:2], 1)]
    for id, text in zip(ids, [sent[0], b"{}"]):
        client.xadd(keys("north")[0], {"line": text}, id=id)
    router = start_router(server.address("fleet"), {WAGONS[0]: "north", WAGONS[20]: "south"})
    ids += [client.xadd(inbox, {"line": text}) for text in sent[2:]]
    records = until("each line has its record", lambda: (now := client.xrange(keys("fleet")[1])) and len(now) == 5 and now)
    north, late = {b"office": b"north"}, {b"reply": b"refused 101"}
    assert records == list(zip(ids, [north, late, north, late, north]))
    assert [id for id, _ in client.xrange(keys("north")[0])] == ids[:3] + ids[4:] and client.xlen(keys("south")[0]) == 1
    router.until_logged("has a later line")
