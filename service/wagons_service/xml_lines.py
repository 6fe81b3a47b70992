"""XML messages become lines, as a map says.

The map is a TOML file of the office's own. It names XPaths; an XML message names nothing that is looked for elsewhere:
no document type, no entity of its own, no other file, no network.
"""

import json
import re
import tomllib
from collections.abc import Callable, Mapping, Sequence
from dataclasses import dataclass
from typing import Any, NamedTuple

from lxml import etree  # type: ignore[import]

from .identifiers import MOST_LENGTH, Identifiers

MESSAGE = {"company": "text", "number": "number", "wagon": "text", "place": "text", "moment": "text"}
# The fields of each kind of line that XML may become, in the manual's order, and what JSON value each is.
KINDS: Mapping[str, Mapping[str, str]] = {
    **dict.fromkeys(["release", "departure", "yard_arrival", "yard_departure", "arrival", "delivery"], MESSAGE),
    "exception": MESSAGE | {"hold": "flag"},
    "order": {"order": "text", "place": "text", "classes": "list", "load": "number", "latest": "text", "penalty": "number", "wagons": "number"},
    "withdraw": {"order": "text"},
}
# Encodings in which the bytes of `<!DOCTYPE` are those of ASCII.
ENCODINGS = frozenset(["utf-8", "us-ascii", "iso-8859-1", "iso-8859-15", "windows-1252"])
DECLARATION = re.compile(rb"""<\?xml[^>]*?encoding\s*=\s*["']([A-Za-z0-9._-]*)["']""")
DOCTYPE = b"<!DOCTYPE"
# As many as a request may have lines.
MOST_MESSAGES = 10_000
MOST_BETWEEN = 8192
NUMBER = re.compile("0|[1-9][0-9]{0,18}")
FLAGS = {"true": True, "1": True, "false": False, "0": False}

Find = Callable[[Any], Any]
# Stands in a line where the number of a textual identifier comes; no map gives a negative number.
NO_NUMBER_YET = -1
NUMBER_PLACE = f'"number":{NO_NUMBER_YET}'


class BadMap(Exception):
    """A map that can't be used; the text says why."""


class BadXml(Exception):
    """XML that can't be read, or that the map has no words for; the text says where."""


@dataclass(frozen=True, slots=True)
class Field:
    name: str
    kind: str
    find: Find
    values: Mapping[str, str] | None
    is_identifier: bool


@dataclass(frozen=True, slots=True)
class Kind:
    name: str
    holds: Find
    fields: Sequence[Field]


class Row(NamedTuple):
    """A line, and the company and the text of the identifier whose number it wants, if it wants one; or why there is no line."""

    line: str
    company: str
    text: str | None
    fault: str = ""

    def numbered(self, identifiers: Identifiers | None) -> bytes:
        if self.text is None:
            return self.line.encode()
        if identifiers is None:
            raise BadXml("`number` is an identifier, and no file keeps their numbers.")
        before, _, after = self.line.partition(NUMBER_PLACE)
        return f'{before}"number":{identifiers.number(self.company, self.text)}{after}'.encode()


class Map:
    """How XML becomes lines."""

    def __init__(self, text: str) -> None:
        self.text = text
        try:
            given = tomllib.loads(text)
        except tomllib.TOMLDecodeError as fault:
            raise BadMap(f"the map is no TOML: {fault}") from None
        known(given, {"messages", "namespaces", "fields", "values", "kinds"}, "the map")
        self._spaces: dict[str, str] = given.get("namespaces", {})
        self._values: dict[str, dict[str, str]] = given.get("values", {})
        self._messages = self._path(given.get("messages"), "messages")
        common = given.get("fields", {})
        known(common, {field for fields in KINDS.values() for field in fields}, "fields")
        self._kinds = [self._kind(name, rules, common) for name, rules in given.get("kinds", {}).items()]

    @classmethod
    def read(cls, path: str) -> "Map":
        try:
            with open(path, encoding="utf-8") as file:
                return cls(file.read())
        except (OSError, UnicodeDecodeError) as fault:
            raise BadMap(f"the map couldn't be read: {fault}") from None

    @property
    def has_identifiers(self) -> bool:
        return any(field.is_identifier for kind in self._kinds for field in kind.fields)

    def _path(self, path: object, where: str) -> Find:
        if not isinstance(path, str):
            raise BadMap(f"{where} must be an XPath")
        try:
            found: Find = etree.XPath(path, namespaces=self._spaces)
        except etree.XPathError as fault:
            raise BadMap(f"{where} has no XPath: {fault}") from None
        return found

    def _kind(self, name: str, rules: dict[str, Any], common: dict[str, Any]) -> Kind:
        if name not in KINDS:
            raise BadMap(f"kinds.{name}: there is no such kind of line here")
        known(rules, {"when", "fields"}, f"kinds.{name}")
        own = rules.get("fields", {})
        known(own, set(KINDS[name]), f"kinds.{name}.fields")
        fields = {field: rule for field, rule in (common | own).items() if field in KINDS[name]}
        holds = self._path(rules.get("when", "true()"), f"kinds.{name}.when")
        return Kind(name, holds, [self._field(name, field, fields[field]) for field in KINDS[name] if field in fields])

    def _field(self, kind: str, name: str, rule: object) -> Field:
        where = f"{name} of {kind}"
        rules = {"path": rule} if isinstance(rule, str) else rule
        if not isinstance(rules, dict):
            raise BadMap(f"{where} must be an XPath, or a table with `path`")
        known(rules, {"path", "values", "identifier"}, where)
        values = rules.get("values")
        if isinstance(values, str):
            if values not in self._values:
                raise BadMap(f"{where}: there is no table values.{values}")
            values = self._values[values]
        is_identifier = rules.get("identifier", False) is True
        if is_identifier and name != "number":
            raise BadMap(f"{where}: only `number` can be an identifier")
        return Field(name, KINDS[kind][name], self._path(rules.get("path"), where), values, is_identifier)

    def lines(self, document: bytes, identifiers: Identifiers | None) -> list[bytes]:
        """The lines of a document's messages, in their order. New identifiers have numbers then, and must be kept."""
        return [row.numbered(identifiers) for row in self.rows(document)]

    def rows(self, document: bytes, begin: Callable[[str], None] = lambda _: None, is_partial: bool = False) -> list[Row]:
        """The lines before identifiers have numbers; `begin` is told of each message before it is done. Where it `is_partial`,
        a message that becomes no line leaves the others."""
        root = parsed(document)
        found = self._messages(root.getroottree())
        if not isinstance(found, list) or not found:
            raise BadXml("There is no message in it.")
        if len(found) > MOST_MESSAGES:
            raise BadXml(f"There are {len(found):,} messages in it; {MOST_MESSAGES:,} are the most.")
        rows = []
        for element in found:
            begin(f"line {element.sourceline}, {etree.QName(element).localname}")
            try:
                rows.append(self._row(element))
            except BadXml as fault:
                if not is_partial:
                    raise
                rows.append(Row("", "", None, str(fault)))
        return rows

    def _row(self, element: Any) -> Row:
        kind = next((kind for kind in self._kinds if kind.holds(element)), None)
        if kind is None:
            raise BadXml(f"Line {element.sourceline}: the map has no kind for this {etree.QName(element).localname}.")
        line: dict[str, Any] = {"type": kind.name}
        identifier = None
        for field in kind.fields:
            texts = texts_of(field.find(element))
            if texts:
                where = f"Line {element.sourceline}: {field.name}"
                line[field.name] = self._value(field, texts, where)
                if field.is_identifier:
                    identifier, line[field.name] = line[field.name], NO_NUMBER_YET
        return Row(json.dumps(line, separators=(",", ":"), ensure_ascii=False), str(line.get("company", "")), identifier)

    @staticmethod
    def _value(field: Field, texts: list[str], where: str) -> Any:
        if field.values is not None:
            for text in texts:
                if text not in field.values:
                    raise BadXml(f"{where} is {text[:64]!r}, for which the map has no value.")
            texts = [field.values[text] for text in texts]
        if field.kind == "list":
            return texts
        if len(texts) > 1:
            raise BadXml(f"{where} stands there {len(texts)} times.")
        text = texts[0]
        if field.is_identifier:
            if len(text) > MOST_LENGTH:
                raise BadXml(f"{where} has over {MOST_LENGTH} characters.")
            return text
        # What is no number or flag goes on as it came, and the office refuses it by its own words.
        if field.kind == "number" and NUMBER.fullmatch(text):
            return int(text)
        return FLAGS.get(text, text) if field.kind == "flag" else text


def known(table: object, names: set[str], where: str) -> None:
    if not isinstance(table, dict):
        raise BadMap(f"{where} must be a table")
    for name in table:
        if name not in names:
            raise BadMap(f"{where} has {name!r}, which is none of {', '.join(sorted(names))}")


def parsed(document: bytes) -> Any:
    """The root of a document, read with entities, external references and networks off."""
    declared = DECLARATION.match(document.removeprefix(b"\xef\xbb\xbf"))
    encoding = declared[1].decode().lower() if declared else "utf-8"
    if encoding not in ENCODINGS or b"\0" in document:
        raise BadXml(f"The encoding must be one of {', '.join(sorted(ENCODINGS))}.")
    at = document.find(DOCTYPE)
    if at >= 0:
        raise BadXml(f"{where(document, at)}: a document type isn't taken.")
    # The reader compares each attribute of an element with each other one, so an element has no room for many.
    at = 0
    for part in document.split(b"<"):
        if len(part) > MOST_BETWEEN:
            raise BadXml(f"{where(document, at)}: over {MOST_BETWEEN:,} bytes stand between two `<`.")
        at += len(part) + 1
    parser = etree.XMLParser(encoding=encoding, resolve_entities=False, no_network=True, load_dtd=False, dtd_validation=False,
                             huge_tree=False, remove_comments=True, remove_pis=True)
    try:
        return etree.fromstring(document, parser)
    except etree.XMLSyntaxError as fault:
        line, column = fault.position
        said = re.sub(r", line \d+, column \d+.*", "", fault.msg or "it can't be read", flags=re.S)
        raise BadXml(f"Line {line}, column {column}: {said[:200]}.") from None


def where(document: bytes, at: int) -> str:
    line, before = document.count(b"\n", 0, at) + 1, document.rfind(b"\n", 0, at)
    return f"Line {line}, column {at - before}"


def texts_of(found: Any) -> list[str]:
    """What an XPath found, each as text without the space around it."""
    if isinstance(found, bool):
        return ["true" if found else "false"]
    if isinstance(found, float):
        return [f"{found:.0f}" if found.is_integer() else str(found)]
    items = found if isinstance(found, list) else [found]
    return [("".join(item.itertext()) if isinstance(item, etree._Element) else str(item)).strip() for item in items]


def documents(text: bytes) -> list[bytes]:
    """The documents of a stream: each but the first begins with its declaration at a line's start."""
    return [part for part in re.split(rb"(?m)^(?=<\?xml\s)", text) if part.strip()]
