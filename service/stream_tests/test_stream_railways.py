"""What a railway sees of an office behind a stream: the wagons that it moved last, in each service and over its journals."""

import json
from pathlib import Path

import pytest
from conftest import StartOffice
from running import WAGONS, line, message
from servers import Office, RedisServer, until

ONE, TWO, DISPATCHER = "railway-1001-token", "railway-1002-token", "dispatcher-s-token"
JOURNAL_LINES = ["--journal-lines", "5", "--entries", "5"]


@pytest.fixture
def options(tmp_path: Path) -> list[str]:
    (tmp_path / "tokens").write_text(f"{ONE} railway 1001\n{TWO} railway 1002\n{DISPATCHER} dispatcher\n")
    return ["--tokens", str(tmp_path / "tokens"), *JOURNAL_LINES]


def seen(office: Office, token: str) -> list[str]:
    answer = office.get("/v1/wagons", token)
    assert answer.status == 200, answer
    return [wagon["wagon"] for wagon in json.loads(answer.body)["wagons"]]


def test_a_railway_s_wagons_behind_a_stream(server: RedisServer, start_office: StartOffice, options: list[str], tmp_path: Path) -> None:
    first = start_office(server.address("north"), options=[*options, "--copy", str(tmp_path / "copy")]).until_first()
    standby = start_office(server.address("north"), options=options).until_ready()
    first.post([message("1001", k, wagon) for k, wagon in enumerate(WAGONS[:4])], ONE)
    first.post([message("1002", 1, WAGONS[1])], TWO)
    # The journal is full, and what is known goes along into the next ones.
    first.post([message("1001", 10 + k, WAGONS[5]) for k in range(7)], ONE)
    for office in first, standby:
        until("the third journal begins", lambda: office.health()["journal"] == 3 and office.health()["answered"] == 2)
        assert (seen(office, ONE), seen(office, TWO)) == (sorted([WAGONS[0], *WAGONS[2:4], WAGONS[5]]), [WAGONS[1]])
    # A refusal says where the wagon stands, and it is listed as one that waits for a message.
    early = line(kind="delivery", company="1001", number=50, wagon=WAGONS[0], place="DE10001", moment="2026-03-02T07:00:00Z")
    (record,) = first.post([early], ONE).records
    assert record["reply"] == "3 refused 32" and record["wagon"]["status"] == "empty"
    (row,) = json.loads(first.get("/v1/stuck", DISPATCHER).body)["wagons"]
    assert (row["wagon"], row["refused"], row["message"]["sender"]) == (WAGONS[0], 1, "railway-1001")
    # A service that has no copy begins at the checkpoint, and knows of no message before it.
    assert first.stop() == 0 and standby.stop() == 0
    again = start_office(server.address("north"), options=options).until_first()
    assert seen(again, ONE) == [WAGONS[5]]
    copied = start_office(server.address("north"), options=[*options, "--copy", str(tmp_path / "copy")]).until_ready()
    assert seen(copied, TWO) == [WAGONS[1]]


def test_early_messages_behind_a_stream(server: RedisServer, start_office: StartOffice) -> None:
    office = start_office(server.address("north"), options=["--retry", "5"])
    assert office.until_ended() == 2
    assert "argument --retry: messages are kept aside where the journal is a folder" in office.log[-1]
