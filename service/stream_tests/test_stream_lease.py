"""The lease: who writes doesn't hang on anybody's clock."""

import asyncio
import time

from conftest import StartOffice
from running import WAGONS, message
from servers import RedisServer, until
from test_streams import LINES, answered, appended
from wagons_service.address import Address
from wagons_service.lease import Lease
from wagons_service.redis_link import Link

LEASE = "{north}:lease"


def test_a_server_whose_clock_steps(server: RedisServer, start_office: StartOffice) -> None:
    """The server's clock goes back an hour, as keys feel it: what would have ended soon ends in an hour. The standby takes
    the lease within three times its length all the same."""
    lease = 1500
    first = start_office(server.address("north"), lease=lease).until_first()
    standby = start_office(server.address("north"), lease=lease).until_ready()
    answered(server, appended(server, [message("R001", 1, WAGONS[0])]))
    first.kill()
    server.client.pexpire(LEASE, 3_600_000)
    start = time.monotonic()
    until("the standby writes", lambda: standby.health()["role"] == "first", 3 * lease / 1000)
    assert answered(server, appended(server, [message("R001", 2, WAGONS[1])])) and time.monotonic() - start > 0.5 * lease / 1000
    # And on an hour: whatever has an end is gone.
    server.client.pexpire(LEASE, 1)
    assert answered(server, appended(server, [message("R001", 3, WAGONS[2])]))
    until("it holds the lease", lambda: server.client.get(LEASE) and standby.health()["role"] == "first", 3 * lease / 1000)


def test_a_lease_is_held_by_renewing_it(server: RedisServer) -> None:
    """It stays with the one that renews it, however long, and with nobody else; who renews it no more loses it."""
    async def tried() -> None:
        address = Address.read(server.address("north"))
        links = [await Link.open(address, LINES.encode()) for _ in range(3)]
        one, other, third = (Lease(LEASE.encode(), token, 300) for token in (b"one", b"other", b"third"))
        seen = set()
        for _ in range(8):
            assert await one.ask(links[0]) and not await other.ask(links[1])
            seen.add(server.client.get(LEASE))
            await asyncio.sleep(0.1)
        assert len(seen) == 8 and server.client.pttl(LEASE) == -1
        # Nobody renews it: one of those that wait takes it, and no other.
        assert not await third.ask(links[2])
        await asyncio.sleep(0.35)
        assert sorted(await asyncio.gather(other.ask(links[1]), third.ask(links[2]))) == [False, True]
        assert not await one.ask(links[0])
        holder, link = (other, links[1]) if await other.ask(links[1]) else (third, links[2])
        await one.release(links[0])
        assert server.client.get(LEASE) and await holder.ask(link)
        await holder.release(link)
        assert await one.ask(links[0])
        for link in links:
            link.close()

    asyncio.run(tried())
