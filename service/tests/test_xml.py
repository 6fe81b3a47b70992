"""XML messages become lines."""

import json
import signal
import subprocess
import sys
import threading
import time
from pathlib import Path

import pytest

from conftest import ROOT, Start
from running import WAGONS, Answer
from wagons_service.identifiers import FIRST_NUMBER, Identifiers
from wagons_service.xml_lines import BadMap, BadXml, Map, documents

EXAMPLE = ROOT / "examples" / "service"
MAP = EXAMPLE / "map.toml"
MOVEMENTS = (EXAMPLE / "movements.xml").read_bytes()
HEAD = b'<Movements xmlns="urn:example:wagon-movements"><Sender>1001</Sender>'


def movement(reference: str, event: str = "held", station: str = "Lindenau", company: str = "1001", wagon: str = WAGONS[0]) -> bytes:
    return (f'<Movements xmlns="urn:example:wagon-movements"><Sender>{company}</Sender><Movement event="{event}"><Reference>{reference}</Reference>'
            f'<Wagon number="{wagon}"/><Station>{station}</Station><When>2026-03-02T06:00:00Z</When></Movement></Movements>').encode()


@pytest.fixture
def identifiers(tmp_path: Path) -> Identifiers:
    return Identifiers(str(tmp_path / "identifiers.jsonl"))


def test_the_example(identifiers: Identifiers) -> None:
    lines = [json.loads(line) for line in Map.read(str(MAP)).lines(MOVEMENTS, identifiers)]
    assert [line["type"] for line in lines] == ["departure", "arrival", "exception"]
    assert lines[0] == {"type": "departure", "company": "1001", "number": FIRST_NUMBER, "wagon": "3181 2771 003-2", "place": "DE10005",
                        "moment": "2026-03-02T07:30:00+01:00"}
    assert lines[2]["hold"] is True


def test_an_order(identifiers: Identifiers) -> None:
    xml = HEAD + (b'<Order name="O1"><Station>Lindenau</Station><Class>Eanos</Class><Class> Falns </Class><Load>50000</Load>'
                  b"<Until>2026-03-02T12:00:00Z</Until><Penalty>-4</Penalty></Order></Movements>")
    assert [json.loads(line) for line in Map.read(str(MAP)).lines(xml, identifiers)] == [
        {"type": "order", "order": "O1", "place": "DE10003", "classes": ["Eanos", "Falns"], "load": 50000, "latest": "2026-03-02T12:00:00Z", "penalty": "-4"}]


def test_an_identifier_has_one_number_for_good(identifiers: Identifiers, tmp_path: Path) -> None:
    assert [identifiers.number("1001", text) for text in ("A", "B", "A")] == [FIRST_NUMBER, FIRST_NUMBER + 1, FIRST_NUMBER]
    assert identifiers.number("1002", "B") == FIRST_NUMBER
    identifiers.keep()
    identifiers.number("1001", "C")
    identifiers.forget()
    again = Identifiers(str(tmp_path / "identifiers.jsonl"))
    for one in identifiers, again:
        assert one.number("1001", "B") == FIRST_NUMBER + 1 and one.number("1002", "B") == FIRST_NUMBER
        assert one.number("1001", "D") == FIRST_NUMBER + 2
    assert len((tmp_path / "identifiers.jsonl").read_text().splitlines()) == 3


BOMB = b'<!DOCTYPE x [<!ENTITY a "aaaaaaaaaa">' + b"".join(b'<!ENTITY %c "&%c;&%c;&%c;&%c;&%c;&%c;&%c;&%c;">' % ((k + 1,) + (k,) * 8) for k in range(97, 110)) + b"]>"


@pytest.mark.parametrize(("xml", "said"), [
    (b"<a><b></a>", "Line 1, column 11: Opening and ending tag mismatch: b line 1 and a."),
    (b"\n\n  <a>&nothing;</a>", "Line 3, column "),
    (b"", "Line 1, column 1: Document is empty."),
    (b"<a/>", "There is no message in it."),
    (b"<?xml version='1.0'?>\n <!DOCTYPE a SYSTEM 'file:///etc/passwd'><a/>", "Line 2, column 2: a document type isn't taken."),
    (b"<!DOCTYPE a [<!ENTITY f SYSTEM 'file:///etc/passwd'>]><a>&f;</a>", "Line 1, column 1: a document type isn't taken."),
    (BOMB + b"<a>&n;</a>", "Line 1, column 1: a document type isn't taken."),
    ((BOMB + b"<a>&n;</a>").decode().encode("utf-16"), "The encoding must be one of"),
    (b"<?xml version='1.0' encoding='utf-7'?>+ADwAIQ-DOCTYPE a+AD4-<a/>", "The encoding must be one of"),
    (b"<?xml version='1.0' encoding='utf-16'?><a/>", "The encoding must be one of"),
    (b"<a>\xff</a>", "Line 1, column 4"),
    (b"<a>" * 300, "Line 1, column"),
    (HEAD + b"<Movement/>" * 10_001 + b"</Movements>", "There are 10,001 messages in it; 10,000 are the most."),
    (b"<a>\n<b " + b" ".join(b"x%d='>'" % k for k in range(20_000)) + b"/></a>", "Line 2, column 2: over 8,192 bytes stand between two `<`."),
    (movement("A", event="lost"), "Line 1: the map has no kind for this Movement."),
    (movement("A", station="Nowhere"), "Line 1: place is 'Nowhere', for which the map has no value."),
    (movement("A" * 257), "Line 1: number has over 256 characters."),
    (movement("A").replace(b"<When>", b"<When>x</When><When>"), "Line 1: moment stands there 2 times."),
])
def test_wrong_xml(identifiers: Identifiers, xml: bytes, said: str) -> None:
    with pytest.raises(BadXml) as fault:
        Map.read(str(MAP)).lines(xml, identifiers)
    assert str(fault.value).startswith(said)


def test_what_is_missing_is_left_out(identifiers: Identifiers) -> None:
    xml = HEAD + b'<Movement event="arrived"><Reference>A</Reference></Movement></Movements>'
    assert Map.read(str(MAP)).lines(xml, identifiers) == [b'{"type":"arrival","company":"1001","number":%d}' % FIRST_NUMBER]


@pytest.mark.parametrize(("text", "said"), [
    ("messages = 1", "messages must be an XPath"),
    ("messages = '//['", "messages has no XPath"),
    ("message = '/a'", "the map has 'message', which is none of"),
    ("messages = '/a'\nkinds.king.when = 'true()'", "kinds.king: there is no such kind of line here"),
    ("messages = '/a'\nkinds.order.fields.number = 'x'", "kinds.order.fields has 'number'"),
    ("messages = '/a'\nkinds.arrival.fields.place = {path = 'x', values = 'y'}", "place of arrival: there is no table values.y"),
    ("messages = '/a'\nkinds.arrival.fields.place = {path = 'x', identifier = true}", "place of arrival: only `number` can be an identifier"),
    ("messages = ", "the map is no TOML"),
])
def test_wrong_maps(text: str, said: str) -> None:
    with pytest.raises(BadMap) as fault:
        Map(text)
    assert str(fault.value).startswith(said)


def test_a_stream_of_documents() -> None:
    one, two = b"<?xml version='1.0'?>\n<a/>\n", b"<?xml version='1.0'?><b/>\n"
    assert documents(one + two) == [one, two] and documents(b"<a/>") == [b"<a/>"] and documents(b"\n") == []


def test_the_command(tmp_path: Path) -> None:
    command = [str(ROOT / "service" / "wagons-xml"), "--map", str(MAP), "--identifiers", str(tmp_path / "identifiers")]
    stream = MOVEMENTS + b'<?xml version="1.0"?>\n<a>' + b"\n" + MOVEMENTS
    done = subprocess.run(command, input=stream, capture_output=True)
    lines = done.stdout.splitlines()
    assert done.returncode == 1 and len(lines) == 6 and lines[:3] == lines[3:]
    assert done.stderr.startswith(b"wagons-xml: document 2: Line ")
    done = subprocess.run(command[:3], input=b"", capture_output=True)
    assert done.returncode == 2 and b"--identifiers FILE is needed" in done.stderr


def test_xml_is_sent(start: Start, tmp_path: Path) -> None:
    (tmp_path / "tokens").write_text("railway-1001-token railway 1001\ndispatcher-s-token dispatcher\nreader-s-long-token reader\n")
    service = start(options=["--tokens", str(tmp_path / "tokens"), "--map", str(MAP)]).until_running()
    mine = "railway-1001-token"
    assert service.post(MOVEMENTS, mine, "/xml").replies[0].startswith("1 ")
    assert service.post(movement("A"), mine, "/xml").replies == ["4 accepted 4"]
    assert service.post(movement("A"), mine, "/xml").replies == ["5 repeated 4"]
    for token, xml, status, said in [
        (mine, b"<a>", 400, "Line 1, column 4: "),
        (mine, BOMB + b"<a>&n;</a>", 400, "Line 1, column 1: a document type isn't taken."),
        (mine, movement("B", company="1002"), 403, "Line 1 of the request isn't a message of company 1001"),
        (mine, HEAD + b'<Order name="O1"/></Movements>', 403, "Line 1 of the request isn't a movement message"),
        ("reader-s-long-token", MOVEMENTS, 403, "A reader's token sends no lines."),
        (None, MOVEMENTS, 401, "A token is needed"),
        (mine, b"x" * 8_000_001, 413, "The request has over 8,000,000 bytes."),
    ]:
        answer = service.post(xml, token, "/xml")
        assert (answer.status, answer.text[:len(said)]) == (status, said)
    assert len(service.journal.splitlines()) == 5
    kept = (tmp_path / "journal" / "identifiers.jsonl").read_text()
    assert '"B"' not in kept and len(kept.splitlines()) == 4
    service.stop()
    service = start(options=["--tokens", str(tmp_path / "tokens"), "--map", str(MAP)]).until_running()
    assert service.post(movement("A"), mine, "/xml").replies == ["6 repeated 4"]
    assert service.post(movement("B"), mine, "/xml").replies == ["7 accepted 5"]


def test_messages_that_can_be_read_are_taken(start: Start, tmp_path: Path) -> None:
    (tmp_path / "tokens").write_text("railway-1001-token railway 1001\ndispatcher-s-token dispatcher\n")
    service = start(options=["--tokens", str(tmp_path / "tokens"), "--map", str(MAP)]).until_running()
    mine, path = "railway-1001-token", "/xml?partial=yes"
    element = (b'\n<Movement event="held"><Reference>%b</Reference><Wagon number="%b"/><Station>%b</Station>'
               b"<When>2026-03-02T06:00:00Z</When></Movement>")
    wagon = WAGONS[0].encode()
    document = HEAD + b"".join([
        element % (b"A", wagon, b"Lindenau"), element % (b"B", wagon, b"Nowhere"), b'\n<Movement event="lost"/>',
        element % (b"C", b"12", b"Lindenau"), element % (b"A", wagon, b"Lindenau")]) + b"</Movements>"
    assert service.post(document, mine, "/xml").status == 400 and service.journal == b""
    answer = service.post(document, mine, path)
    assert (answer.status, answer.headers["Journal"]) == (200, "1")
    assert answer.records == [
        {"message": 1, "number": 1, "reply": "1 accepted 1"},
        {"message": 2, "fault": "Line 3: place is 'Nowhere', for which the map has no value."},
        {"message": 3, "fault": "Line 4: the map has no kind for this Movement."},
        {"message": 4, "number": 2, "reply": "2 refused 25 wagon 11"},
        {"message": 5, "number": 3, "reply": "3 repeated 1"}]
    # No number is used for a message that became no line, and nothing is taken where none did.
    assert '"B"' not in (tmp_path / "journal" / "identifiers.jsonl").read_text()
    assert service.post(movement("D", station="Nowhere"), mine, path).records == [
        {"message": 1, "fault": "Line 1: place is 'Nowhere', for which the map has no value."}]
    # What the token may not send, and what is no XML, is refused as without it.
    for body, status in (movement("B", company="1002"), 403), (b"<a>", 400), (b"<a/>", 400):
        assert service.post(body, mine, path).status == status
    assert service.post(document, mine, "/xml?partial=no").status == 400
    assert len(service.journal.splitlines()) == 3


# Each message looks for its sender among all that stand before it.
SLOW = b'<Movements xmlns="urn:example:wagon-movements">' + b"<a/>" * 200_000 + b'<Movement event="held"/>\n' * 2000 + b"</Movements>"
TOKENS = "railway-1001-token railway 1001\nrailway-1002-token railway 1002\ndispatcher-s-token dispatcher\n"


def test_xml_that_takes_long_holds_up_nobody(start: Start, tmp_path: Path) -> None:
    (tmp_path / "tokens").write_text(TOKENS)
    service = start(options=["--tokens", str(tmp_path / "tokens"), "--map", str(MAP)]).until_running()
    answers: list[Answer] = []
    sender = threading.Thread(target=lambda: answers.append(service.post(SLOW, "railway-1001-token", "/xml")))
    sender.start()
    time.sleep(0.5)
    for k in range(5):
        assert service.post(movement(f"A{k}", company="1002"), "railway-1002-token", "/xml").replies == [f"{k + 1} accepted {k + 1}"]
    assert sender.is_alive()
    sender.join(30)
    assert answers[0].status == 413
    assert answers[0].text.startswith("Turning the document into lines took over 5 seconds, and had come to line ")
    assert answers[0].text.endswith(", Movement; send it in parts.\n")
    # The process that was ended is made again.
    assert service.post(movement("A5"), "railway-1001-token", "/xml").replies == ["6 accepted 6"]


def test_xml_that_needs_much_memory_is_refused(start: Start) -> None:
    service = start(options=["--map", str(MAP)]).until_running()
    answer = service.post(b'<Movements xmlns="urn:example:wagon-movements">' + b'<a b=""/>' * 800_000 + b"</Movements>", path="/xml")
    assert (answer.status, answer.text) == (
        413, "Turning the document into lines needs over 256 MB of memory, at its beginning, before the first message; send it in parts.\n")
    assert service.post(b"", path="/xml").text == "Line 1, column 1: Document is empty.\n"
    # A map that takes the sender's text into each line makes much of little.
    large = HEAD.replace(b"1001", b"x" * 8000) + b'<Movement event="held"/>' * 2000 + b"</Movements>"
    answer = service.post(large, path="/xml")
    assert (answer.status, answer.text) == (413, "The lines of the document would have over 8,000,000 bytes; send it in parts.\n")


def test_the_service_ends_while_xml_is_read(start: Start) -> None:
    service = start(options=["--map", str(MAP)]).until_running()
    answers: list[Answer] = []
    sender = threading.Thread(target=lambda: answers.append(service.post(SLOW, path="/xml")))
    sender.start()
    time.sleep(1)
    service.process.send_signal(signal.SIGTERM)
    assert service.process.wait(20) == 0
    sender.join()
    assert (answers[0].status, answers[0].text) == (503, "the service is being stopped; nothing of the request was taken\n")


def test_a_service_that_hangs_is_ended() -> None:
    """Neither the loop nor the interpreter gets to see that it should end."""
    script = """
import asyncio, ctypes, os, signal
from wagons_service.ending import end_on_signals

async def hang():
    end_on_signals(asyncio.Event(), asyncio.get_running_loop(), 0.5)
    os.kill(os.getpid(), signal.SIGTERM)
    ctypes.PyDLL(None).sleep(60)

asyncio.run(hang())
"""
    hung = subprocess.run([sys.executable, "-c", script], env={"PYTHONPATH": str(ROOT / "service")}, capture_output=True, timeout=20)
    assert hung.returncode == 1 and b"Timeout" in hung.stderr and b"in hang" in hung.stderr


def test_without_a_map_there_is_no_xml(start: Start) -> None:
    assert start().until_running().post(MOVEMENTS, path="/xml").status == 404


def test_a_wrong_map_is_no_start(start: Start, tmp_path: Path) -> None:
    (tmp_path / "map").write_text("messages = 1")
    service = start(options=["--map", str(tmp_path / "map")])
    assert service.until_ended() == 2 and service.log[-1] == "wagons-service: messages must be an XPath"
