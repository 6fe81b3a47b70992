"""What is said where one of Debian's packages isn't there."""

import subprocess
import sys

import pytest

from running import ROOT


@pytest.mark.parametrize("program, packages", [
    ("wagons-service", "python3-aiohttp python3-jinja2 python3-lxml"), ("wagons-router", "python3-hiredis"), ("wagons-xml", "python3-lxml")])
def test_what_is_missing_is_said(program: str, packages: str) -> None:
    # Without `site` no package of Debian's is found.
    said = subprocess.run([sys.executable, "-S", ROOT / "service" / program, "--help"], capture_output=True, text=True)
    assert (said.returncode, said.stdout) == (2, "")
    assert said.stderr.startswith(f"{program}: ") and f"`apt-get install {packages}`" in said.stderr
    assert said.stderr.count("\n") == 1
