"""Where the build of a program stands that is to be tried or timed."""

import os
import subprocess
import sys
import time

import repository


def is_older(path: str, program: str) -> bool:
    """Whether something that the program is made from has changed since it was built."""
    built = os.stat(path).st_mtime_ns
    return any(os.stat(f"{repository.ROOT}/{it}").st_mtime_ns > built for it in repository.sources(program))


def find(program: str, other: str) -> str:
    """The other build, where one is named; else the proved one, which is made where it isn't there. Standard error gets
    which one it is."""
    if other:
        path = os.path.realpath(other)
        if not os.access(path, os.X_OK):
            raise SystemExit(f"{path} is no program")
        print(f"uses {path}, the build that was named", file=sys.stderr)
        return path
    path = repository.built(program)
    if not os.path.isfile(path):
        print(f"{path} isn't there, so it is proved and built first", file=sys.stderr)
        subprocess.run([f"{repository.ROOT}/tools/prove", program], check=True, stdout=sys.stderr)
    when = time.strftime("%Y-%m-%d %H:%M", time.localtime(os.stat(path).st_mtime))
    older = "; its sources have changed since" if is_older(path, program) else ""
    print(f"uses {path}, proved and built {when}{older}", file=sys.stderr)
    return path


def timed(words: list[str], given: str, output: str = os.devnull) -> float:
    """How long a program takes over a file of lines, in milliseconds. A line may be refused."""
    with open(given, "rb") as lines, open(output, "wb") as out:
        begun = time.perf_counter()
        status = subprocess.run(words, stdin=lines, stdout=out, check=False).returncode
        if status not in (0, 1):
            raise SystemExit(f"{' '.join(words)} ended with status {status}")
        return (time.perf_counter() - begun) * 1000


def wagons() -> str:
    """The build of `wagons`: the one that WAGONS names, or the proved one."""
    return find("wagons", os.environ.get("WAGONS", ""))
