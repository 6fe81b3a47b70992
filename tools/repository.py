"""What the tools ask of this repository: its version, its crates, the files that a program is made from, and where programs stand."""

import hashlib
import os
import re
import shutil
import subprocess

ROOT = os.path.dirname(os.path.dirname(os.path.abspath(__file__)))
# What names the program's version.
VERSION = "crates/wagons/src/version.rt"
# The parts of a crate that a proof reads.
PARTS = ("src", "specs", "proofs")
# What a program's run on its stored files reads beside them.
STORED = ("stdin", "stdout", "args", "status", "data")


def long_version() -> str:
    """What `wagons --version` prints behind the program's name, as the program's source has it."""
    with open(f"{ROOT}/{VERSION}", encoding="utf-8") as file:
        found = re.search(r'^pub\(crate\) const VERSION: &str = "(.*)";$', file.read(), re.M)
    if not found:
        raise SystemExit(f"{VERSION} names no VERSION")
    return found[1]


def version() -> str:
    """The number of the version."""
    return long_version().partition(" ")[0]


def lines_of_crates() -> dict[str, str]:
    """The lines of crates.txt, by crate."""
    with open(f"{ROOT}/crates.txt", encoding="utf-8") as file:
        lines = [line.partition("#")[0].strip() for line in file]
    return {line.partition(":")[0].split()[0]: line for line in lines if line}


def stands_on(program: str) -> list[str]:
    """The crates of this repository that a program stands on and the program itself, each after those below it."""
    lines, found = lines_of_crates(), []

    def add(crate: str) -> None:
        if crate in lines and crate not in found:
            for below in lines[crate].partition(":")[2].split():
                add(below)
            found.append(crate)

    if program not in lines:
        raise SystemExit(f"crates.txt has no line for {program}")
    add(program)
    return found


def sources(program: str) -> list[str]:
    """The files that a program is made from, as paths below the top of the repository, and their folders, whose times
    change where a file comes or goes."""
    found = ["HANDLES"]
    for crate in stands_on(program):
        for part in PARTS:
            for at, folders, files in os.walk(f"{ROOT}/crates/{crate}/{part}"):
                folders.sort()
                found += [os.path.relpath(path, ROOT) for path in (at, *(f"{at}/{name}" for name in sorted(files)))]
    return found


def kit() -> str:
    """The line of the proof kit on this machine."""
    if not shutil.which("rt"):
        raise SystemExit("this needs the proof kit, whose command is rt (README.md, \"Try it\")")
    return subprocess.run(["rt", "version"], check=True, capture_output=True, text=True).stdout.strip()


def git(*words: str) -> str:
    """What git says of this repository."""
    done = subprocess.run(["git", "-C", ROOT, *words], capture_output=True, text=True, check=False)
    if done.returncode:
        raise SystemExit(f"git {words[0]}: {done.stderr.strip()}")
    return done.stdout.strip()


def checksums(program: str, top: str = ROOT) -> dict[str, str]:
    """Of each crate a checksum of all that its proof stands on: its files below `top`, the crates below it, and the kit."""
    lines, crates, line_of_kit, found = lines_of_crates(), stands_on(program), kit(), dict[str, str]()
    for crate in crates:
        below = [it for it in lines[crate].partition(":")[2].split() if it in crates]
        whole = hashlib.sha256("\n".join([line_of_kit, lines[crate], *(found[it] for it in below)]).encode())
        for path in files_of(f"{top}/crates/{crate}"):
            with open(path, "rb") as file:
                whole.update(os.path.relpath(path, top).encode() + b"\n" + hashlib.sha256(file.read()).digest())
        found[crate] = whole.hexdigest()
    return found


def files_of(folder: str) -> list[str]:
    """The files of a crate that its proof, or its run on stored files, reads."""
    parts = [f"{folder}/{part}" for part in (*PARTS, *STORED)]
    found = [it for it in parts if os.path.isfile(it)]
    return sorted(found + [f"{at}/{name}" for it in parts for at, _, names in os.walk(it) for name in names])


def built(program: str) -> str:
    """Where the proved build of a program stands."""
    return f"{ROOT}/out/{program}"
