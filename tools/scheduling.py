"""How many checks of the kit go side by side, and which crates take longest."""

import os
import re

import repository

# What crates took when they were last measured, a crate and its seconds on each line.
SECONDS = f"{repository.ROOT}/bench/proof_seconds.txt"
# What a proof takes of memory, in kB, with some to spare.
MEMORY_A_PROOF = 4_000_000


def measured() -> dict[str, float]:
    """What crates took when they were last measured, in seconds."""
    with open(SECONDS, encoding="ascii") as file:
        rows = [line.split() for line in file if line.strip() and not line.startswith("#")]
    return {crate: float(seconds) for crate, seconds in rows}


def lanes() -> int:
    """How many libraries are proved side by side: one a processor, as many as memory holds."""
    with open("/proc/meminfo", encoding="ascii") as file:
        found = re.search(r"MemAvailable:\s+(\d+)", file.read())
    return max(1, min(len(os.sched_getaffinity(0)), int(found[1]) // MEMORY_A_PROOF if found else 1))
