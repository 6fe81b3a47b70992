"""A program that hangs."""

import json
import os
import re
import signal
import threading
import time
from pathlib import Path

from conftest import Start
from running import Answer, order


def test_a_program_that_hangs_is_started_again(start: Start) -> None:
    service = start(options=["--answer-within", "2"]).until_running()
    service.post(order("O1"))
    os.kill(service.children[0], signal.SIGSTOP)
    answers: list[Answer] = []
    sender = threading.Thread(target=lambda: answers.append(service.post([order("O2"), order("O3")])))
    begun = time.monotonic()
    sender.start()
    # It is said before the program is killed, by a status and a metric, with how long the oldest line has waited.
    while (health := service.get("/health")).status == 200:
        assert time.monotonic() < begun + 10
        time.sleep(0.02)
    said = json.loads(health.body)
    assert (said["state"], said["lines"], said["answered"]) == ("running", 3, 1)
    assert said["words"].startswith("the program has given no reply for ") and 0.9 <= said["oldest_unanswered_seconds"] < 2
    metrics = service.get("/metrics").text
    assert "\nwagons_up 0\n" in metrics and re.search(r"\nwagons_oldest_unanswered_seconds [12](\.\d+)?\n", metrics)
    # Then it is started again, and who waits gets the replies.
    sender.join(10)
    assert answers[0].replies == ["2 accepted 2", "3 accepted 3"] and time.monotonic() < begun + 9
    assert any("the program has given no reply for 2 seconds; it is started again" in text for text in service.log)
    assert json.loads(service.until_running().get("/health").body)["oldest_unanswered_seconds"] == 0
    assert "".join(reply + "\n" for reply in service.kept) == service.run_again()


def test_a_program_that_hangs_at_its_start(start: Start, tmp_path: Path) -> None:
    script = tmp_path / "hangs"
    script.write_text("#!/bin/sh\nexec sleep 99\n")
    script.chmod(0o755)
    service = start(program=str(script), options=["--answer-within", "0.2"], is_awaited=False)
    said = "the program hasn't ended over no lines within 0.2 seconds"
    deadline = time.monotonic() + 10
    while sum(said in text for text in service.log) < 2:
        assert time.monotonic() < deadline, service.log
        time.sleep(0.02)
    health = json.loads(service.get("/health").body)
    assert (health["state"], health["words"]) == ("starting", f"{said}; it reads the journal again")


def test_a_program_that_is_only_idle_is_left_alone(start: Start) -> None:
    service = start(options=["--answer-within", "0.5"]).until_running()
    service.post(order("O1"))
    service.post(b"\n \n")
    program = service.children[0]
    time.sleep(1.5)
    assert service.children == [program]
    health = json.loads(service.get("/health").body)
    assert (health["state"], health["oldest_unanswered_seconds"]) == ("running", 0)
