"""Sixteen senders at once."""

import asyncio
import json
import random
import subprocess
from array import array

import aiohttp
import pytest

from conftest import Start
from running import WAGONS, Service, line, message, order

SENDERS = 16


def company(sender: int) -> str:
    return f"S{sender:03}"


class Sender:
    """Sends messages of its own company, half of them of wagons that others send of too."""

    def __init__(self, k: int, lines: int) -> None:
        self.draw = random.Random(k)
        self.company = company(k)
        own = WAGONS[k * 2:k * 2 + 2]
        shared = WAGONS[SENDERS * 2:]
        self.lines = [message(self.company, n, self.draw.choice(own if n % 2 else shared), hold=bool(self.draw.getrandbits(1))) for n in range(lines)]
        self.records: list[dict[str, object]] = []

    async def send(self, service: Service) -> None:
        async with aiohttp.ClientSession(f"http://127.0.0.1:{service.port}") as session:
            at = 0
            while at < len(self.lines):
                part = self.lines[at:at + self.draw.choice([1, 2, 30, 200, 500])]
                at += len(part)
                async with session.post("/lines", data=b"\n".join(part)) as answer:
                    assert answer.status == 200, await answer.text()
                    records = [json.loads(line) for line in (await answer.read()).splitlines()]
                assert len(records) == len(part)
                self.records += records


@pytest.fixture
def lines(request: pytest.FixtureRequest) -> int:
    return int(request.config.getoption("--lines"))


def test_each_sender_gets_just_its_replies(start: Start, lines: int) -> None:
    service = start(options=["--entries", "1000000"]).until_running()
    senders = [Sender(k, lines // SENDERS) for k in range(SENDERS)]

    async def all_at_once() -> None:
        await asyncio.gather(*(sender.send(service) for sender in senders))

    asyncio.run(all_at_once())
    journal = service.journal.splitlines()
    assert len(journal) == lines // SENDERS * SENDERS
    for sender in senders:
        # Each of its lines once, in its order, and with each the reply to that line.
        numbers = [int(str(record["number"])) for record in sender.records]
        assert [journal[number - 1] for number in numbers] == sender.lines and numbers == sorted(numbers)
    told = {record["number"]: record["reply"] for sender in senders for record in sender.records}
    printed = service.run_again(options=["--entries", "1000000"]).splitlines()
    assert [told[k + 1] for k in range(len(journal))] == printed == service.kept


class Told:
    """A hash of each reply that senders were told, by journal and number, and the hash of the line that each is for."""

    def __init__(self) -> None:
        self.journals: dict[int, array[int]] = {}

    def add(self, journal: int, number: int, sent: bytes, reply: str) -> None:
        told = self.journals.setdefault(journal, array("q"))
        if len(told) < number:
            told.extend([0] * (number - len(told)))
        assert not told[number - 1], "told twice"
        told[number - 1] = hash((sent, reply))


async def send_many(service: Service, k: int, lines: int, told: Told) -> None:
    """Sends so many lines of a company; each must come back with one reply."""
    draw, number = random.Random(k), 0
    async with aiohttp.ClientSession(f"http://127.0.0.1:{service.port}") as session:
        while number < lines:
            part = [message(company(k), n, WAGONS[n % 40]) for n in range(number, min(number + draw.choice([100, 500]), lines))]
            number += len(part)
            async with session.post("/lines", data=b"\n".join(part)) as answer:
                assert answer.status == 200, await answer.text()
                records = [json.loads(it) for it in (await answer.read()).splitlines()]
            for sent, record in zip(part, records, strict=True):
                told.add(int(answer.headers["Journal"]), int(str(record["number"])), sent, str(record["reply"]))


def test_senders_over_many_journals(start: Start, lines: int) -> None:
    """Each line that was answered is in one journal, with its reply, however many journals begin meanwhile."""
    entries = ["--entries", str(max(lines // 100, 8_000))]
    service = start(options=[*entries, "--share", "lines=1000000,bytes=100000000"]).until_running()
    told = Told()

    async def all_at_once() -> None:
        await asyncio.gather(*(send_many(service, k, lines // SENDERS, told) for k in range(SENDERS)))

    asyncio.run(all_at_once())
    folders = sorted((it for it in service.folder.iterdir() if it.name.isdigit()), key=lambda it: int(it.name))
    assert len(folders) >= 4 and sum(map(len, told.journals.values())) == lines // SENDERS * SENDERS
    for folder in folders:
        journal = (folder / "journal.jsonl").read_bytes().splitlines()
        replies = [str(json.loads(record)["reply"]) for record in (folder / "replies.jsonl").read_text().splitlines()]
        assert [hash(both) for both in zip(journal, replies, strict=True)] == told.journals.get(int(folder.name), array("q")).tolist()
        checkpoint = folder / "checkpoint.jsonl"
        office = ["--from", str(checkpoint), *service.office[2:]] if checkpoint.exists() else service.office
        printed = subprocess.run([service.program, "run", *office, *entries], input=b"\n".join([*journal, b""]), stdout=subprocess.PIPE, check=False).stdout
        assert printed.decode() == "".join(reply + "\n" for reply in replies)


def test_plans_and_sheets_among_others(start: Start) -> None:
    """Replies of several lines are whole, whoever else sends at that moment."""
    service = start().until_running()
    told: dict[int, str] = {}

    async def send(k: int) -> None:
        draw = random.Random(k)
        async with aiohttp.ClientSession(f"http://127.0.0.1:{service.port}") as session:
            for n in range(30):
                choices = [line(kind="sheet"), line(kind="plan", at=f"2026-03-02T06:00:{n:02}Z"), message(company(k), n, draw.choice(WAGONS)), order(f"O{k}-{n}"), b"", b"x"]
                part = draw.choices(choices, k=draw.choice([1, 1, 3]))
                async with session.post("/lines", data=b"\n".join([*part, b""])) as answer:
                    records = [json.loads(it) for it in (await answer.read()).splitlines()]
                assert len(records) == sum(map(bool, part))
                for sent, record in zip(filter(None, part), records):
                    is_sheet, is_plan = b"sheet" in sent, b"plan" in sent
                    assert record["reply"].count("\nwagon ") == (40 if is_sheet else 0)
                    assert record["reply"].splitlines()[-1].startswith("{") == is_plan
                    told[record["number"]] = record["reply"]

    async def all_at_once() -> None:
        await asyncio.gather(*(send(k) for k in range(8)))

    asyncio.run(all_at_once())
    assert "".join(reply + "\n" for reply in service.kept) == service.run_again()
    ours = {number for number, sent in enumerate(service.journal.splitlines(), 1) if sent == b"{}"}
    kept = {int(reply.split(" ", 1)[0]): reply for reply in service.kept}
    assert {number: reply for number, reply in kept.items() if number not in ours} == told
