"""How replies are cut out of what the program prints, and what is left of a program that stops to read."""

import asyncio
import gc
import random

import pytest

from wagons_service.answers import Refusal
from wagons_service.processes import run
from wagons_service.program import Ended, NoReply, Program, ReplyCutter

PRINTED = b"""1 accepted 1
3 plan 1 2 1 465
assign 318127710016 MALT-1 25
refuse SALT-1 300
{"at":"2026-03-02T11:00:00Z"}
4 sheet 1
wagon 318127710016 Habbins 52000 empty DE10008 2026-03-02T10:50:00Z - MALT-1
network 2
5 refused 25 wagon 12
6 sheet 1
network 2
7 refused 24 type
8 accepted 2
9 repeated 2
10 begun 2 1 1
"""


def test_replies_are_whole_however_they_come() -> None:
    draw = random.Random(1)
    for _ in range(300):
        cutter, at = ReplyCutter(), 0
        found: list[tuple[int, bytes, bytes]] = []
        while at < len(PRINTED):
            more = draw.randint(1, draw.choice([60, 400]))
            found += zip(*cutter.cut(PRINTED[at:at + more]))
            at += more
        assert [number for number, _, _ in found] == [1, 3, 4, 5, 6, 7, 8, 9, 10]
        assert b"".join(text + b"\n" for _, _, text in found) == PRINTED
        assert [kind for _, kind, _ in found] == [
            b"accepted", b"plan", b"sheet", b"refused", b"sheet", b"refused", b"accepted", b"repeated", b"begun"]


def test_refusals() -> None:
    assert ReplyCutter().cut(b"1 refused 25 wagon 12\n2 accepted 1\n3 refused 73\n").refused == [(1, b"1 refused 25 wagon 12"), (3, b"3 refused 73")]
    assert ReplyCutter().cut(b"1 accepted 1\n").refused == []


@pytest.mark.parametrize("printed", [
    b"1 accepted 1\n2 accepted 2\n", b"2 accepted 1\n4 accepted 2\n", b"1 accepted 1\n2 accepted \n", b"1 accepted 1 2 accepted 3\n3 accepted 4\n",
    b"1 accepted  1\n", b"1 accepted 1\n2 repeated 1\n", b"01 accepted 1\n"])
def test_many_that_are_accepted_are_cut_as_each_by_itself(printed: bytes) -> None:
    whole, single = ReplyCutter().cut(printed), ReplyCutter()
    assert [*zip(*whole)] == [reply for line in printed.splitlines(True) for reply in zip(*single.cut(line))]
    assert b"".join(text + b"\n" for text in whole.texts) == printed


def test_a_plan_ends_with_its_certificate() -> None:
    cutter = ReplyCutter()
    assert not cutter.cut(b"3 plan 1 2 1 465\nrefuse SALT-1 300\n").numbers and cutter.open_sheet is None
    assert cutter.cut(b"{}\n").numbers == [3]


def test_a_sheet_is_open_until_the_next_reply() -> None:
    cutter = ReplyCutter()
    assert not cutter.cut(b"4 sheet 1\nwagon ..\n").numbers and cutter.open_sheet == 4
    assert cutter.cut(b"5 accepted 9\n").numbers == [4, 5]
    assert cutter.open_sheet is None


def test_a_sheet_is_whole_when_the_program_has_done_its_lines() -> None:
    cutter = ReplyCutter()
    cutter.cut(b"4 sheet 1\nnetwork 1\n")
    assert cutter.end().texts == [b"4 sheet 1\nnetwork 1"]


@pytest.mark.parametrize("printed", [b"wagon ..\n", b"1 king 1\n2 accepted 2\nx\n", b"1 accepted 1\nx\n", b"2 accepted 1\n2 accepted 2\n", b"2 accepted 1\n1 accepted 2\n",
                                     b"5 accepted 6 7 accepted 8\n\n", b" accepted 1\n", b"\n"])
def test_other_text_is_no_reply(printed: bytes) -> None:
    with pytest.raises(NoReply):
        ReplyCutter().cut(printed)


# More than a pipe holds.
MUCH = b"x" * 4_000_000


def test_a_program_that_stops_to_read(caplog: pytest.LogCaptureFixture) -> None:
    """Its own words say why, and asyncio logs no exception of the pipe."""
    async def work() -> None:
        command = ["sh", "-c", "head -c 10 > /dev/null; echo enough >&2; exit 3"]
        for _ in range(3):
            with pytest.raises(Refusal, match="enough"):
                await run(command, MUCH)
            program = await Program.start(command, lambda _: None)
            program.send(MUCH)
            await program.drain()
            assert await program.ended == Ended("enough", 3)
        other = await Program.start(["sh", "-c", "echo no reply; exec sleep 600"], lambda _: None)
        other.send(MUCH)
        assert (await other.ended).words.startswith("the program printed what is no reply")

    asyncio.run(work())
    gc.collect()
    assert caplog.text == ""
