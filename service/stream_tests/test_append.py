"""The function `append`: what has a number is appended once."""

import pytest
import redis
from conftest import StartOffice
from railways import keys
from servers import RedisServer
from test_streams import answered
from wagons_service.streams import LIBRARY

LINES = keys("north")[0]
MARK = "{north}:sent:R001"
WORDS = ["FCALL", "append", 2, LINES, MARK]


@pytest.fixture
def client(server: RedisServer) -> "redis.Redis[bytes]":
    server.client.execute_command("FUNCTION", "LOAD", "REPLACE", LIBRARY)
    return server.client


def test_a_number_appends_once(server: RedisServer, start_office: StartOffice) -> None:
    """A sender that isn't sure sends the same number again, and gets the same ids."""
    start_office(server.address("north")).until_first()
    client = server.client
    first = client.execute_command(*WORDS, 1, b"{}", b"[]")
    assert client.execute_command(*WORDS, 1, b"{}", b"[]") == first and len(first) == 2
    second = client.execute_command(*WORDS, 2, b"{}")
    assert client.execute_command(*WORDS, 2, b"{}") == second and client.xlen(LINES) == 3
    with pytest.raises(redis.ResponseError, match="number 1 is below the last one, 2"):
        client.execute_command(*WORDS, 1, b"{}")
    assert answered(server, first + second) == [b"1 refused 24 type", b"2 refused 22", b"3 refused 24 type"]


def test_numbers_are_texts(client: "redis.Redis[bytes]") -> None:
    """Numbers that Lua's own can't tell apart are two; what is no such text is refused."""
    numbers = ["0", "9", "10", "9007199254740992", "9007199254740993", "9" * 17 + "8", "9" * 18]
    ids = [client.execute_command(*WORDS, number, number) for number in numbers]
    assert [entry for entry in client.xrange(LINES)] == [(id, {b"line": number.encode(), b"sender": b"R001"}) for (id,), number in zip(ids, numbers)]
    for number in numbers[:-1]:
        with pytest.raises(redis.ResponseError, match=f"number {number} is below the last one, {'9' * 18}"):
            client.execute_command(*WORDS, number, "{}")
    client.delete(MARK)
    for bad in ("", "00", "01", "-1", "+1", "1.5", "1e3", "0x1", " 1", "1 ", "1\n", "\u0661", "9" * 19):
        with pytest.raises(redis.ResponseError, match="a number has 1 to 18 digits and no zero in front"):
            client.execute_command(*WORDS, bad, "{}")
    for words in ([*WORDS, 1], WORDS, ["FCALL", "append", 1, LINES, 1, "{}"]):
        with pytest.raises(redis.ResponseError, match="append takes two keys, a number and one or more lines"):
            client.execute_command(*words)
    assert client.xlen(LINES) == len(numbers) and not client.exists(MARK)


def test_the_same_number_with_other_lines(client: "redis.Redis[bytes]") -> None:
    ids = client.execute_command(*WORDS, 5, b"{}", b"[]")
    for others in ([b"{}"], [b"{}[]"], [b"[]", b"{}"], [b"{}", b"[]", b""], [b"{}", b"[] "], [b"2:[]", b"{}"]):
        with pytest.raises(redis.ResponseError, match="number 5 was sent with other lines"):
            client.execute_command(*WORDS, 5, *others)
    assert client.execute_command(*WORDS, 5, b"{}", b"[]") == ids and client.xlen(LINES) == 2


def test_the_mark_names_the_sender(client: "redis.Redis[bytes]") -> None:
    """Each entry has the NAME of the mark, and nothing where the key has none. What is sent is the same as ever."""
    ids = client.execute_command(*WORDS, 5, b"{}", b"[]")
    for key in "{north}:sent:a:sent:b.c", "{north}:sent:", "{north}:other", "{north:sent:a}:other", "other:sent:a":
        ids += client.execute_command("FCALL", "append", 2, LINES, key, 5, b"{}")
    assert client.execute_command(*WORDS, 5, b"{}", b"[]") == ids[:2]
    named = {b"line": b"{}", b"sender": b"R001"}
    bare = {b"line": b"{}"}
    assert client.xrange(LINES) == list(zip(ids, [named, named | {b"line": b"[]"}, bare | {b"sender": b"a:sent:b.c"}, bare, bare, bare, bare]))


def test_marks_of_before(client: "redis.Redis[bytes]") -> None:
    """A mark that has no digest is gone on with, and one that somebody spoiled is said to be none."""
    client.set(MARK, "7 1-1 1-2")
    assert client.execute_command(*WORDS, 7, b"x") == [b"1-1", b"1-2"] and not client.exists(LINES)
    with pytest.raises(redis.ResponseError, match="number 6 is below the last one, 7"):
        client.execute_command(*WORDS, 6, b"x")
    (id,) = client.execute_command(*WORDS, 8, b"x")
    assert client.execute_command(*WORDS, 8, b"x") == [id]
    client.set(MARK, "spoiled")
    with pytest.raises(redis.ResponseError, match="is no mark of append"):
        client.execute_command(*WORDS, 9, b"x")
