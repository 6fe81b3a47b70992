"""`wagons-xml`: XML messages on standard input become lines on standard output."""

import argparse
import sys
from collections.abc import Sequence

from .identifiers import Identifiers, NoNumberLeft
from .journal import Broken, NotKept
from .xml_lines import BadMap, BadXml, Map, documents


def main(arguments: Sequence[str]) -> int:
    """The status is 0, or 1 where a document was refused, or 2 where the map or the identifiers can't be used."""
    parser = argparse.ArgumentParser(
        prog="wagons-xml", description="Turns XML messages into lines for `wagons run`. Several documents may follow each "
        "other, where each begins with `<?xml` at a line's start. Nothing of a refused document is printed.")
    parser.add_argument("--map", metavar="FILE", required=True, help="how XML becomes lines")
    parser.add_argument("--identifiers", metavar="FILE", help="where the numbers of textual identifiers are kept")
    given = parser.parse_args(arguments)
    try:
        rules = Map.read(given.map)
        if rules.has_identifiers and not given.identifiers:
            parser.error("the map has identifiers, so --identifiers FILE is needed")
        identifiers = Identifiers(given.identifiers) if given.identifiers else None
        return convert(rules, identifiers)
    except (BadMap, NoNumberLeft, NotKept, Broken, OSError) as fault:
        print(f"wagons-xml: {fault}", file=sys.stderr)
        return 2


def convert(rules: Map, identifiers: Identifiers | None) -> int:
    status = 0
    for place, document in enumerate(documents(sys.stdin.buffer.read()), 1):
        try:
            lines = rules.lines(document, identifiers)
        except BadXml as fault:
            print(f"wagons-xml: document {place}: {fault}", file=sys.stderr)
            status = 1
            if identifiers:
                identifiers.forget()
            continue
        if identifiers:
            identifiers.keep()
        sys.stdout.buffer.write(b"".join(line + b"\n" for line in lines))
        sys.stdout.buffer.flush()
    return status
