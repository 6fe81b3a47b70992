"""What is proved of the program `wagons`: for each of its crates a checksum, and how many functions were proved of exactly that.

The kit prints a crate's count when it proves it, and none where an earlier run on the machine proved identical files. So counts
are kept in out/functions, each beside the checksum of all that the proof stood on.
"""

import hashlib
import os
import re
from dataclasses import dataclass

import programs
import repository

PROGRAM = "wagons"
COUNTS = f"{repository.ROOT}/out/functions"
GATE = f"{repository.ROOT}/out/test.log"
# Its time is when the gate that built the program began.
TESTED = f"{repository.ROOT}/out/tested"
# What stands in a count's place where no run here printed one.
UNKNOWN = "reused"


@dataclass(frozen=True)
class Source:
    """What a program is made from."""

    version: str
    commit: str
    # The commit's time, in seconds.
    moment: int
    # Whether files here differ from the commit's.
    has_changed: bool
    # The kit's name, and the checksum of its logic.
    kit: str
    logic: str

    def lines(self) -> list[str]:
        """What it is, as a verdict begins."""
        changed = ", and changes that no commit has" if self.has_changed else ""
        return [f"version   {self.version}", f"commit    {self.commit}{changed}", f"kit       {self.kit}", f"logic     {self.logic}"]


def here() -> Source:
    """What stands in this repository now."""
    kit, _, logic = repository.kit().partition(" logic ")
    commit, moment = repository.git("log", "-1", "--format=%H %ct").split()
    return Source(repository.version(), commit, int(moment), bool(repository.git("status", "--porcelain")), kit, logic)


def proved_in(log: str) -> dict[str, int]:
    """The crates that a log of the kit says are proved, each with how many functions."""
    found, crate, functions = dict[str, int](), "", -1
    for line in log.splitlines():
        if begun := re.fullmatch(r"== (\w+)", line):
            crate, functions = begun[1], -1
        elif count := re.match(r"logic=proved functions=(\d+) ", line):
            functions = int(count[1])
        elif line == f"rt: {crate} proved" and functions >= 0:
            found[crate] = functions
    return found


def counts() -> dict[str, int]:
    """How many functions were proved, by the checksum of what the proof stood on."""
    if not os.path.exists(COUNTS):
        return {}
    with open(COUNTS, encoding="ascii") as file:
        rows = [line.split() for line in file]
    return {checksum: int(functions) for checksum, _, functions in rows}


def note(log: str, sums: dict[str, str]) -> None:
    """Keeps the counts that a log of the kit has, for the crates with these checksums."""
    with open(log, encoding="utf-8", errors="replace") as file:
        proved = proved_in(file.read())
    known = counts()
    new = {crate: functions for crate, functions in proved.items() if crate in sums and known.get(sums[crate]) != functions}
    with open(COUNTS, "a", encoding="ascii") as file:
        file.writelines(f"{sums[crate]} {crate} {functions}\n" for crate, functions in new.items())


def gate(program: str) -> str:
    """Whether the gate built the proved program, and the kit's last line then."""
    if not os.path.exists(TESTED) or os.stat(TESTED).st_mtime_ns != os.stat(program).st_mtime_ns:
        return "the last make test didn't build this program"
    with open(GATE, encoding="utf-8", errors="replace") as file:
        lines = file.read().splitlines()
    return f"make test built this program; the kit's last line was: {lines[-1] if lines else 'none'}"


def digest_of(path: str) -> str:
    with open(path, "rb") as file:
        return hashlib.sha256(file.read()).hexdigest()


def text(source: Source, program: str, installed: str = "") -> str:
    """The verdict on the proved program, which must be of the sources as they are now; and where it is installed without its
    table of symbols, that file's checksum too."""
    if programs.is_older(program, PROGRAM):
        raise SystemExit(f"{program} is older than its sources, so there is no verdict on it; `make prove` makes it anew")
    sums, known = repository.checksums(PROGRAM), counts()
    rows = [(str(known.get(checksum, UNKNOWN)), crate, checksum) for crate, checksum in sums.items()]
    whole = sum(known.get(checksum, 0) for checksum in sums.values())
    missing = sum(1 for row in rows if row[0] == UNKNOWN)
    return "\n".join([
        f"The verdict of the proofs on the program {PROGRAM}", "",
        *source.lines(), f"program   SHA-256 {digest_of(program)}",
        *([f"installed SHA-256 {digest_of(installed)}, the program without its table of symbols"] if installed else []),
        f"gate      {gate(program)}", "",
        "Of each crate how many functions are proved, and the checksum of its files, the crates below it and the kit's line:", "",
        *(f"{count:>6}  {crate:<18} {checksum}" for count, crate, checksum in rows), "",
        f"{whole} functions of {len(rows) - missing} crates are proved.",
        *([f"Those marked {UNKNOWN} were proved by an earlier run on the building machine, of identical files; it printed their counts."] if missing else []),
        "In a clone of the commit, tools/verdict prints these checksums again. docs/PROOFS.md says what a proof rests on.", ""])


def none(source: Source, program: str) -> str:
    """What stands in the verdict's place where a program was named that isn't the proved one."""
    return "\n".join([f"There is no verdict: the program of these packages is {program}, a build that was named by hand.", "", *source.lines(), ""])
