"""What a new journal may begin with beside the office as it was: corrected rows of a roster, and wagons that leave."""

import json
import os
from collections.abc import Iterator, Sequence
from contextlib import contextmanager
from dataclasses import dataclass

from .answers import Refusal
from .senders import NOT_READ


@dataclass(frozen=True, slots=True)
class Corrections:
    rows: str = ""
    leaving: Sequence[str] = ()

    @classmethod
    def read(cls, body: bytes) -> "Corrections":
        """`{"with": "a roster", "without": ["a wagon", ..]}`; an empty body corrects nothing."""
        if not body.strip():
            return cls()
        try:
            given = json.loads(body)
        except (ValueError, RecursionError):
            raise Refusal(400, "The body is no JSON.") from None
        if not isinstance(given, dict) or not given.keys() <= {"with", "without"}:
            raise Refusal(400, "The body must be an object with `with`, a roster, and `without`, a list of wagons; either may be left out.")
        rows, leaving = given.get("with", ""), given.get("without", [])
        if not isinstance(rows, str) or not isinstance(leaving, list) or not all(isinstance(it, str) and it.isascii() and it.isprintable() for it in leaving):
            raise Refusal(400, "`with` must be a text, the roster's, and `without` a list of texts, the wagons' numbers.")
        return cls(rows, leaving)

    def __bool__(self) -> bool:
        return bool(self.rows or self.leaving)

    @property
    def wagons(self) -> list[str]:
        """The wagons that are put right or leave."""
        numbers = [row.partition(",")[0] for row in self.rows.splitlines()[1:]]
        return [number.translate(NOT_READ) for number in (*numbers, *self.leaving)]

    @contextmanager
    def options(self) -> Iterator[tuple[list[str], Sequence[int]]]:
        """The options of `wagons save` that say so, and the files that it needs open; none is left behind, whatever ends first."""
        words = [f"--without={number}" for number in self.leaving]
        if not self.rows:
            yield words, ()
            return
        file = os.memfd_create("rows")
        try:
            with open(file, "wb", closefd=False) as rows:
                rows.write(self.rows.encode("utf-8", "surrogatepass"))
            yield [*words, "--with", f"/dev/fd/{file}"], (file,)
        finally:
            os.close(file)
