"""What a keeper is told of, and the rules by which Prometheus tells it."""

import os
import re
import shutil
import signal
import subprocess
import time
from pathlib import Path

from conftest import ROOT, Start
from running import WAGONS, Service, message, order

RULES = ROOT / "service" / "alerts.yml"
# Those of a stream and of the router; service/stream_tests tries them.
ELSEWHERE = {"wagons_lease_seconds", "wagons_replicas", "wagons_router_held_lines", "wagons_router_delay_seconds", "wagons_is_first"}


def metrics(service: Service) -> dict[str, float]:
    rows = [row.rsplit(" ", 1) for row in service.get("/metrics", "dispatcher-s-token").text.splitlines() if not row.startswith("#")]
    return {name: float(value) for name, value in rows}


def test_what_a_keeper_is_told_of(start: Start, tmp_path: Path) -> None:
    (tmp_path / "tokens").write_text("railway-1001-token railway 1001 name=north until=2099-01-01T00:00:00Z\ndispatcher-s-token dispatcher\n")
    options = ["--tokens", str(tmp_path / "tokens"), "--map", str(ROOT / "examples" / "service" / "map.toml"), "--entries", "1000"]
    service = start(options=options).until_running()
    service.post([message("1001", k, WAGONS[0], moment=moment) for k, moment in enumerate(["2026-03-02T06:00:00Z", "2026-03-02T05:00:00Z"])], "railway-1001-token")
    service.post([order("O1"), order("O1"), b"x"], "dispatcher-s-token")
    told = metrics(service)
    expected = {
        'wagons_refusals_total{code="31",company="1001"}': 1, 'wagons_refusals_total{code="74",company=""}': 1,
        "wagons_lines_left": 999_994, "wagons_entries_left": 998, "wagons_capacity_left_ratio": 0.998, "wagons_oldest_unanswered_seconds": 0,
        "wagons_is_first": 1, "wagons_identifiers": 0, "wagons_identifiers_left": 1_000_000,
        'wagons_token_expiry_timestamp_seconds{sender="north"}': 4_070_908_800}
    assert {name: told.get(name) for name in expected} == expected
    disk = shutil.disk_usage(service.folder)
    assert abs(told["wagons_disk_free_bytes"] - disk.free) < 1e9
    # A program that hangs has a line that waits.
    os.kill(service.children[0], signal.SIGSTOP)
    sender = subprocess.Popen(["curl", "-s", "-H", "Authorization: Bearer dispatcher-s-token", "-d", "x", f"http://127.0.0.1:{service.port}/lines"], stdout=subprocess.PIPE)
    time.sleep(1)
    assert 0.5 < metrics(service)["wagons_oldest_unanswered_seconds"] < 60
    os.kill(service.children[0], signal.SIGCONT)
    assert sender.communicate(timeout=20)[0] == b'{"number":6,"reply":"6 refused 21"}\n'
    assert metrics(service)["wagons_oldest_unanswered_seconds"] == 0


def test_the_rules(start: Start, tmp_path: Path) -> None:
    shutil.copy(RULES, tmp_path)
    shutil.copy(Path(__file__).parent / "alerts_test.yml", tmp_path)
    for words in ["check", "rules", "alerts.yml"], ["test", "rules", "alerts_test.yml"]:
        done = subprocess.run(["promtool", *words], cwd=tmp_path, capture_output=True, text=True)
        assert done.returncode == 0, done.stdout + done.stderr
    # Each rule is about something that is there.
    service = start(options=["--map", str(ROOT / "examples" / "service" / "map.toml")]).until_running()
    subprocess.run([ROOT / "service" / "wagons-service", "backup", tmp_path / "backup", "--journal", service.folder, "--program", service.program,
                    *service.office], check=True)
    named = set(re.findall(r"wagons_\w+", "".join(re.findall(r"expr: .*", RULES.read_text()))))
    there = set(re.findall(r"# TYPE (\w+)", service.get("/metrics").text))
    assert len(named) > 12 and named - there <= ELSEWHERE
