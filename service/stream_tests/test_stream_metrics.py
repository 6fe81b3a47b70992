"""What a keeper of offices behind streams is told of."""

import subprocess
import urllib.request
from pathlib import Path

from conftest import ROOT, StartOffice
from ports import free_port
from running import WAGONS
from servers import RedisServer, until


def metrics(port: int) -> dict[str, float]:
    with urllib.request.urlopen(f"http://127.0.0.1:{port}/metrics", timeout=10) as answer:
        rows = [row.rsplit(" ", 1) for row in answer.read().decode().splitlines() if not row.startswith("#")]
    return {name: float(value) for name, value in rows}


def test_role_lease_and_replicas(server: RedisServer, start_office: StartOffice) -> None:
    address = f"redis://127.0.0.1:{server.port}/north"
    first = start_office(address).until_first()
    standby = start_office(address).until_ready()
    server.client.xadd("{north}:lines", {"line": "x"})
    until("it is answered", lambda: metrics(first.port)["wagons_oldest_unanswered_seconds"] == 0)
    told = metrics(first.port)
    assert told["wagons_is_first"] == 1 and 0 < told["wagons_lease_seconds"] <= 1 and told["wagons_replicas"] == 0
    assert metrics(standby.port)["wagons_is_first"] == 0 and "wagons_lease_seconds" not in metrics(standby.port)
    first.pause()
    until("the standby has the lease", lambda: metrics(standby.port)["wagons_is_first"] == 1)
    first.go_on()


def test_what_the_router_holds(server: RedisServer, tmp_path: Path) -> None:
    (tmp_path / "offices.csv").write_text(f"wagon,office\n{WAGONS[0]},north\n{WAGONS[1]},south\n")
    # No line can be appended to what is no stream.
    server.client.set("{north}:lines", "x")
    port = free_port()
    router = subprocess.Popen([ROOT / "service" / "wagons-router", "--inbox", f"redis://127.0.0.1:{server.port}/fleet", "--offices", tmp_path / "offices.csv",
                               "--metrics", f"127.0.0.1:{port}"], stderr=subprocess.DEVNULL)
    try:
        for office in "north", "north", "south":
            server.client.xadd("{fleet}:lines", {"line": "{}", "office": office})

        def has_held() -> bool:
            try:
                return metrics(port)['wagons_router_held_lines{office="north"}'] == 2
            except OSError:
                return False

        until("two lines are held", has_held)
        until("the other office has its own", lambda: metrics(port)['wagons_router_held_lines{office="south"}'] == 0)
        assert 0 < metrics(port)["wagons_router_delay_seconds"] < 60
        server.client.delete("{north}:lines")
        until("the office has them", lambda: metrics(port)['wagons_router_held_lines{office="north"}'] == 0)
        until("they are recorded", lambda: metrics(port)["wagons_router_delay_seconds"] == 0)
    finally:
        router.kill()
        router.wait()
