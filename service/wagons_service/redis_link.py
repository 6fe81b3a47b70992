"""A connection to Redis: packed commands go out, and their replies come back in order.

It never connects again by itself. So whoever uses one knows that all its commands reach one and the same server process,
one after the other: what was found there at the beginning holds until the connection breaks.
"""

import asyncio
import ssl
from collections import deque
from collections.abc import Sequence
from typing import Any

import hiredis  # type: ignore[import]

from .address import Address, host_of

CHUNK = 1 << 18
SECONDS_TO_CONNECT = 5
SECONDS_FOR_A_REPLY = 15
# So often one server may name another one as the key's.
MOST_MOVES = 5


class Lost(Exception):
    """The connection broke, or none could be made. Whether its last commands were done isn't known."""


class Refused(Exception):
    """Redis refused a command; the text is its own."""


def pack(*words: bytes) -> bytes:
    """A command as Redis reads it."""
    return b"*%d\r\n" % len(words) + packed(words)


def packed(words: Sequence[bytes]) -> bytes:
    """Words of a command."""
    return b"".join(b"$%d\r\n%b\r\n" % (len(word), word) for word in words)


def number(value: int) -> bytes:
    return b"%d" % value


MULTI, EXEC = pack(b"MULTI"), pack(b"EXEC")


class Link:
    def __init__(self, reader: asyncio.StreamReader, writer: asyncio.StreamWriter) -> None:
        self._reader, self._writer = reader, writer
        # The server's address.
        self.peer = writer.get_extra_info("peername")
        self._parser = hiredis.Reader()
        # What was asked and isn't answered yet: how many replies are still to come, those that came, and who waits.
        self._asked: deque[tuple[int, list[Any], asyncio.Future[list[Any]]]] = deque()
        self._fault: str | None = None
        self._task = asyncio.create_task(self._read())

    @classmethod
    async def open(cls, address: Address, key: bytes) -> "Link":
        """A connection to the server that has the key and takes writes: the first host that is that one, or says which is."""
        faults = []
        for host, port in address.hosts:
            try:
                return await cls._follow(address, host, port, key)
            except (Lost, Refused) as fault:
                faults.append(f"{host}:{port}: {fault}")
        raise Lost("; ".join(faults))

    @classmethod
    async def _follow(cls, address: Address, host: str, port: int, key: bytes) -> "Link":
        for _ in range(MOST_MOVES):
            link = await cls._connect(address, host, port)
            try:
                there = await link._elsewhere(address, host, key)
            except (Lost, Refused):
                link.close()
                raise
            if there is None:
                return link
            link.close()
            host, port = there
        raise Lost("one server names another, and none has the stream")

    @classmethod
    async def _connect(cls, address: Address, host: str, port: int) -> "Link":
        secure = ssl.create_default_context() if address.is_tls else None
        try:
            async with asyncio.timeout(SECONDS_TO_CONNECT):
                link = cls(*await asyncio.open_connection(host, port, ssl=secure, limit=CHUNK))
        except (OSError, TimeoutError) as fault:
            raise Lost(str(fault) or "no answer") from None
        if address.password:
            words = [address.user, address.password] if address.user else [address.password]
            try:
                await link.one(pack(b"AUTH", *(word.encode() for word in words)))
            except Refused:
                # A Sentinel may have no password, or another one.
                if await link._watched() is None:
                    link.close()
                    raise
        return link

    async def _elsewhere(self, address: Address, host: str, key: bytes) -> tuple[str, int] | None:
        """Which server has the key, where it isn't this one. A write that changes nothing is asked for: a node of a cluster
        names the key's, and one that takes no writes now, as a replica, says so."""
        try:
            await self.one(pack(b"XTRIM", key, b"MINID", b"0"))
            return None
        except Refused as refusal:
            words = str(refusal).split()
            if words[0] == "MOVED":
                return host_of(words[2] if not words[2].startswith(":") else host + words[2], words[2])
            masters = await self._watched()
            if masters is None:
                raise
        if address.stream not in masters and len(masters) != 1:
            raise Lost(f"this Sentinel has the masters {', '.join(masters)}, and none is called {address.stream}")
        name = address.stream if address.stream in masters else masters[0]
        found = await self.one(pack(b"SENTINEL", b"GET-MASTER-ADDR-BY-NAME", name.encode()))
        return found[0].decode(), int(found[1])

    async def _watched(self) -> list[str] | None:
        """Which masters this Sentinel watches; nothing where it is none."""
        role = (await self.ask(pack(b"ROLE")))[0]
        return [name.decode() for name in role[1]] if isinstance(role, list) and role[0] == b"sentinel" else None

    async def ask(self, data: bytes, count: int = 1) -> list[Any]:
        """Sends packed commands, and gives so many replies to them. A refusal among them is a value of `hiredis.ReplyError`."""
        if self._fault is not None:
            raise Lost(self._fault)
        answer: asyncio.Future[list[Any]] = asyncio.get_running_loop().create_future()
        self._asked.append((count, [], answer))
        self._writer.write(data)
        try:
            async with asyncio.timeout(SECONDS_FOR_A_REPLY):
                return await answer
        except TimeoutError:
            self._fail("no answer")
            raise Lost("no answer") from None

    async def one(self, data: bytes) -> Any:
        """The reply to one command."""
        return good((await self.ask(data))[0])

    async def transaction(self, commands: Sequence[bytes]) -> list[Any]:
        """The replies to commands that are done together, with no other's in between, or not at all."""
        answers = await self.ask(b"".join([MULTI, *commands, EXEC]), len(commands) + 2)
        for answer in answers[:-1]:
            good(answer)
        done = good(answers[-1])
        assert isinstance(done, list)
        return done

    async def until_lost(self) -> None:
        """Waits until the connection breaks, and raises `Lost` then."""
        await asyncio.wait([self._task])
        raise Lost(self._fault or "the connection broke")

    def close(self) -> None:
        self._fail("the connection was closed")

    def _fail(self, why: str) -> None:
        if self._fault is None:
            self._fault = why
            self._task.cancel()
            self._writer.close()
            for _, _, answer in self._asked:
                if not answer.done():
                    answer.set_exception(Lost(why))
                    answer.exception()
            self._asked.clear()

    async def _read(self) -> None:
        try:
            while chunk := await self._reader.read(CHUNK):
                self._parser.feed(chunk)
                self._hand_out()
            self._fail("Redis ended the connection")
        except (OSError, hiredis.ProtocolError) as fault:
            self._fail(str(fault))

    def _hand_out(self) -> None:
        gets = self._parser.gets
        while self._asked:
            count, answers, answer = self._asked[0]
            while len(answers) < count:
                reply = gets()
                if reply is False:
                    return
                answers.append(reply)
            self._asked.popleft()
            if not answer.done():
                answer.set_result(answers)


def good(answer: Any) -> Any:
    if isinstance(answer, hiredis.ReplyError):
        raise Refused(str(answer))
    return answer
