"""The scripts of crates/wagons_scripts, and what the proved program that plays them needs beside them."""

import os

import repository

SCRIPTS = f"{repository.ROOT}/crates/wagons_scripts/data"


def text(lines: list[str]) -> str:
    return "".join(f"{line}\n" for line in lines)


def all_scripts() -> list[str]:
    return sorted(name for name in os.listdir(SCRIPTS) if name.endswith(".script"))


def content(script: str) -> str:
    with open(f"{SCRIPTS}/{script}", encoding="utf-8") as file:
        return file.read()


def played() -> list[str]:
    """The scripts that the proved program plays: those that give it none of its own streams as a file."""
    return [it for it in all_scripts() if not any(line.startswith("$ ") and "/dev/std" in line for line in content(it).splitlines())]


def stored() -> dict[str, str]:
    """The files that the proved program needs beside the scripts: which it plays, and what it must print."""
    return {f"{SCRIPTS}/scripts.txt": text(played()), f"{os.path.dirname(SCRIPTS)}/stdout": "".join(map(content, played()))}
