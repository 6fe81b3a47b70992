"""One service over the real program: the example day, what is refused, and how it stops and starts again."""

import http.client
import json
import os
import re
import shutil
import signal
import socket
import subprocess
import threading
import time
from pathlib import Path

import pytest

from conftest import Start
from running import DAY, WAGONS, line, message, order

LINES = (DAY / "day.jsonl").read_bytes()


def test_the_day(start: Start) -> None:
    service = start().until_running()
    answer = service.post(LINES)
    assert answer.status == 200 and answer.headers["Content-Type"] == "application/jsonl"
    assert [record["number"] for record in answer.records] == list(range(1, 42))
    assert answer.replies[8].startswith("9 plan 7 20 5 660\nassign 318127710016 MALT-1 150\n")
    # The sheet stood last, so a line came that changes nothing.
    assert service.journal == LINES + b"{}\n"
    printed = service.run_again()
    assert "".join(reply + "\n" for reply in service.kept) == printed
    assert answer.replies == service.kept[:41]


def test_a_start_replays_the_journal(start: Start) -> None:
    service = start().until_running()
    service.post(LINES)
    kept = service.kept
    assert service.stop() == 0
    service = start().until_running()
    assert service.kept == kept
    assert service.post(b'{"type":"begin","at":"2026-03-02T16:00:00Z"}').replies == ["43 begun 30 14 1"]


def test_replies_that_were_lost_are_made_again(start: Start, tmp_path: Path) -> None:
    service = start().until_running()
    service.post(LINES)
    kept = service.kept
    service.stop()
    file = tmp_path / "journal" / "1" / "replies.jsonl"
    file.write_bytes(file.read_bytes()[:1000])
    service = start().until_running()
    assert "replies.jsonl ended in the middle of a line" in "\n".join(service.log)
    assert service.kept == kept


def test_a_torn_last_line_is_cut_off(start: Start, tmp_path: Path) -> None:
    folder = tmp_path / "journal" / "1"
    folder.mkdir(parents=True)
    (folder / "journal.jsonl").write_bytes(order("O1") + b'\n{"type":"withdr')
    service = start().until_running()
    assert "journal.jsonl ended in the middle of a line, which was cut off: b'{\"type\":\"withdr'" in "\n".join(service.log)
    assert service.post(order("O2")).replies == ["2 accepted 2"]
    assert service.journal == order("O1") + b"\n" + order("O2") + b"\n"


def test_a_connection_that_dies_finds_its_replies_again(start: Start) -> None:
    service = start().until_running()
    lines = order("O1") + b"\n" + order("O2") + b"\n"
    with socket.create_connection(("127.0.0.1", service.port)) as connection:
        connection.sendall(b"POST /lines HTTP/1.1\r\nHost: 127.0.0.1\r\nContent-Length: %d\r\n\r\n%s" % (len(lines), lines))
    for _ in range(500):
        if len(found := service.get("/replies?from=1").replies) == 2:
            break
        time.sleep(0.01)
    assert found == ["1 accepted 1", "2 accepted 2"] and service.journal == lines


def test_an_answer_comes_in_one_piece(start: Start) -> None:
    service = start().until_running()
    with socket.create_connection(("127.0.0.1", service.port), timeout=10) as connection:
        for sent, status, body in (
                (b"POST /lines HTTP/1.1\r\nHost: 127.0.0.1\r\nContent-Length: 2\r\n\r\n{}", b"200 OK", b'{"number":1,"reply":"1 refused 24 type"}\n'),
                (b"HEAD /health HTTP/1.1\r\nHost: 127.0.0.1\r\n\r\n", b"200 OK", b""),
                (b"GET /replies?from=x HTTP/1.1\r\nHost: 127.0.0.1\r\n\r\n", b"400 Bad Request", b"`from` must be a line's number, from 1 on.\n")):
            connection.sendall(sent)
            head, _, rest = connection.recv(65536).partition(b"\r\n\r\n")
            assert head.startswith(b"HTTP/1.1 " + status) and rest == body


def test_a_sheet_alone_is_whole(start: Start) -> None:
    service = start().until_running()
    for k in range(3):
        answer = service.post(line(kind="sheet"))
        assert answer.replies[0].startswith(f"{2 * k + 1} sheet 0\nwagon ") and answer.replies[0].endswith("\nnetwork 1")
    assert service.journal == b'{"type":"sheet"}\n{}\n' * 3


def test_a_sheet_before_blank_lines_is_whole(start: Start) -> None:
    service = start().until_running()
    assert len(service.post(b'{"type":"sheet"}\n\n \n').records) == 1
    assert service.journal == b'{"type":"sheet"}\n\n \n{}\n'


def test_a_journal_that_ends_with_a_sheet(start: Start, tmp_path: Path) -> None:
    (tmp_path / "journal" / "1").mkdir(parents=True)
    (tmp_path / "journal" / "1" / "journal.jsonl").write_bytes(b'{"type":"sheet"}\n')
    service = start().until_running()
    assert service.journal == b'{"type":"sheet"}\n{}\n' and service.kept[1] == "2 refused 24 type"


def test_blank_lines_have_numbers_and_no_replies(start: Start) -> None:
    service = start().until_running()
    assert service.post(b"\n \t\r\n").body == b""
    assert service.post(b"").body == b""
    assert service.post(b"\n" + order("O1") + b"\n\n").replies == ["4 accepted 1"]
    assert service.get("/replies?from=1").replies == ["4 accepted 1"]
    service.stop()
    assert start().until_running().post(order("O1")).replies == ["6 refused 74"]


def test_lines_go_as_they_came(start: Start) -> None:
    service = start().until_running()
    odd = [b'{"type":"order"', b"\xff\xfe", b"[]", b'\t{"type" : "sheet"} \r', b'{"type":"\xc3\xa4"}', b"\0", b"x" * 65_536]
    answer = service.post(odd)
    assert answer.status == 200
    assert service.journal == b"".join(it + b"\n" for it in odd)
    assert "".join(reply + "\n" for reply in service.kept) == service.run_again()
    assert len(answer.records) == len(odd)


def test_replies_are_found_again_with_their_lines(start: Start) -> None:
    service = start().until_running()
    service.post(LINES)
    records = service.get("/replies?from=39&to=41").records
    assert [record["number"] for record in records] == [39, 40, 41]
    assert json.loads(records[0]["line"])["type"] == "delivery" and records[0]["reply"] == "39 accepted 30"
    assert len(service.get("/replies?from=2").records) == 41
    assert service.get("/replies?from=99").body == b""
    for wrong in "0", "-1", "x", "1e3", "9999999999", "%D9%A1":
        answer = service.get(f"/replies?from={wrong}")
        assert (answer.status, answer.text) == (400, "`from` must be a line's number, from 1 on.\n")


def test_events_tell_each_line_with_its_reply(start: Start) -> None:
    service = start().until_running()
    service.post(order("O1"))
    command = ["curl", "-sN", f"http://127.0.0.1:{service.port}/events?from=1"]
    listener = subprocess.Popen(command, stdout=subprocess.PIPE, text=True)
    assert listener.stdout is not None
    told: list[dict[str, object]] = []

    def listen(until: int) -> None:
        assert listener.stdout is not None
        while len(told) < until:
            text = listener.stdout.readline()
            if text.startswith("data: "):
                told.append(json.loads(text.removeprefix("data: ")))

    listen(1)
    service.post(order("O2"))
    service.post(line(kind="plan", at="2026-03-02T06:00:00Z"))
    listen(3)
    assert [event["number"] for event in told] == [1, 2, 3]
    assert told[1] == {"number": 2, "reply": "2 accepted 2", "line": order("O2").decode()}
    assert service.stop() == 0  # A listener doesn't keep the service.
    listener.wait(60)
    listener.stdout.close()


def test_what_the_page_asks_for(start: Start) -> None:
    service = start().until_running()
    service.post(LINES[:LINES.index(b'{"type":"begin"')])
    office = json.loads(service.get("/office").body)
    # The sheet comes as the program prints it, and with it how the office is.
    head, *rows = office["sheet"].split("\n")
    assert head.endswith(" sheet 7") and [row.split()[0] for row in rows] == ["wagon"] * 40 + ["order"] * 5 + ["network"]
    assert rows[44] == "order SALT-1 AT30002 2026-03-02T09:00:00Z 300 waiting 2 -"
    assert (office["journal"], office["line"], office["state"], office["is_up"], office["refused"], office["lines_left"], office["entries_left"]) == (
        1, 7, "running", True, 0, 999_992, 99_993)
    assert (office["may_send"], office["zone"], office["role"], office["trouble"]) == (True, None, None, "")
    wants = json.loads(service.get("/wants").body)
    assert [name for name, _, _ in wants] == ["MALT-1", "STEEL-1", "SCRAP-1", "SUGAR-1", "SALT-1"] and wants[4] == ["SALT-1", ["Habbins"], "40000"]
    network = json.loads(service.get("/network").body)
    assert (network["network"], len(network["places"]), len(network["lines"])) == (1, 12, 15)
    assert network["lines"][0] == ["DE10001", "DE10002", 60, 70, True]
    why = json.loads(service.get("/why?line=7&at=2026-03-02T06:00:00Z").body)
    assert why[0] == {"why": 7, "free": 20, "orders": 5, "cost": 660, "go": 8, "stay": 12, "miss": 1}
    why = json.loads(service.get("/why?line=7&at=2026-03-02T06:00:00Z&order=SALT-1").body)
    assert why[0]["order"] == "SALT-1" and why[1] == {"fits": "318127710024", "order": "SALT-1", "km": 0, "more": 0, "planned": True}
    entry = json.loads(service.get("/explain/82").body)
    assert entry["name"] == "WagonChanged" and entry["meaning"].startswith("A wagon of the commit isn't free now")
    assert entry["remedy"].startswith("plan again.")
    for path, status in [
        ("/explain/999", 404), ("/explain/x", 404), ("/why?at=now", 400), ("/why?at=--help", 400), ("/why?at=2026-03-02T06:00:00Z&order=--help%20x", 400),
        ("/why?at=2026-03-02T06:00:00Z&wagon=1", 400), ("/why?at=2026-03-02T06:00:00Z&wagon=318053700099", 400),
        ("/why?at=2026-03-02T06:00:00Z&order=NONE-1", 404), ("/why?at=2026-03-02T06:00:00Z&wagon=218124712173", 404), ("/static/x", 404), ("/static/..%2Fpage.py", 404),
    ]:
        assert service.get(path).status == status, path
    assert service.journal.count(b"\n") == 7
    # Also of orders that come later, as they may be written, and of those that are closed; none of what is refused.
    odd = b'{"typ\\u0065":"\\u006frder","order":"x","order":"ODD-1","place":"DE10003","classes":["Eanos","Falns"],"load":7,"latest":"2026-03-02T12:00:00Z","penalty":1}'
    service.post([odd, order("MALT-1"), order("LAST-1"), b'{"type":"withdraw","order":"ODD-1"}', b'{"order":"NONE-1"}'])
    assert json.loads(service.get("/office").body)["line"] == 12
    assert json.loads(service.get("/wants?behind=5").body) == [["ODD-1", ["Eanos", "Falns"], "7"], ["LAST-1", ["Habbins"], "45000"]]
    assert service.post(b"", path="/next").status == 200
    service.post(order("NEW-1"))
    sheet = json.loads(service.get("/office").body)["sheet"]
    assert [name for name, _, _ in json.loads(service.get("/wants").body)] == re.findall("^order ([^ ]*)", sheet, re.M)


def test_limits_of_a_request(start: Start) -> None:
    service = start().until_running()
    for body, said in [
        (b"{}\n" * 10_001, "The request has 10,001 lines; 10,000 are the most.\n"),
        (b"{}\n" + b"x" * 65_537, "Line 2 of the request has over 65,536 bytes, at which the program would stop (92).\n"),
        (b"x" * 8_000_001, "The request has over 8,000,000 bytes.\n"),
    ]:
        answer = service.post(body)
        assert (answer.status, answer.text) == (413, said)
    assert service.journal == b""
    assert len(service.post(b"{}\n" * 10_000).records) == 10_000


def test_a_connection_goes_on_or_is_closed_after_a_refusal(start: Start, tokens: Path) -> None:
    service = start(options=["--tokens", str(tokens)]).until_running()
    connection = http.client.HTTPConnection("127.0.0.1", service.port, timeout=60)
    for path, token, size, status, is_closed in [
        ("/lines", "no-such-token-at-all", 300_000, 401, True), ("/lines", "reader-s-long-token", 300_000, 403, True),
        ("/lines", "railway-1001-token", 300_000, 413, False), ("/nothing", "dispatcher-s-token", 300_000, 404, True),
        ("/lines", "reader-s-long-token", 10, 403, True), ("/lines", "railway-1001-token", 10, 400, False),
    ]:
        connection.request("POST", path, b"x" * size, {"Authorization": f"Bearer {token}"})
        answer = connection.getresponse()
        answer.read()
        assert (answer.status, answer.getheader("Connection") == "close") == (status, is_closed)
    connection.close()
    assert service.journal == b""


def test_other_statuses(start: Start) -> None:
    service = start().until_running()
    assert service.get("/lines").status == 405
    assert service.get("/nothing").status == 404
    port = service.port
    for headers, status in [
        ({"Host": "evil.example"}, 403), ({"Host": "[::1"}, 403), ({"Host": "127.0.0.1.evil.example"}, 403), ({"Origin": "http://[::1"}, 403), ({"Host": f"localhost:{port}"}, 200), ({"Host": f"[::1]:{port}"}, 200),
        ({"Origin": "http://evil.example"}, 403), ({"Origin": f"http://127.0.0.1:{port}"}, 200), ({"Origin": "null"}, 403),
        ({"Content-Encoding": "gzip"}, 415),
    ]:
        assert service.request("POST", "/lines", b"{}", headers).status == status, headers
    assert service.journal == b"{}\n" * 3


def test_metrics(start: Start) -> None:
    service = start().until_running()
    service.post(LINES)
    text = service.get("/metrics").text
    for expected in ["wagons_up 1", "wagons_lines_total 42", f"wagons_journal_bytes {len(LINES) + 3}", 'wagons_replies_total{kind="accepted"} 30',
                     'wagons_refusals_total{code="82",company=""} 1', 'wagons_requests_total{status="200"}', "wagons_line_seconds_count 41"]:
        assert expected in text, expected


def test_a_new_journal(start: Start) -> None:
    service = start().until_running()
    service.post(LINES)
    command = ["curl", "-sN", f"http://127.0.0.1:{service.port}/events?from=42"]
    listener = subprocess.Popen(command, stdout=subprocess.PIPE, text=True)
    # The stream must be open before the new journal begins.
    while "wagons_listeners 1\n" not in service.get("/metrics").text:
        time.sleep(0.01)
    before = service.kept
    answer = service.post(b"", path="/next")
    assert (answer.status, answer.text) == (200, '{"journal": 2}')
    assert "event: next\ndata: a new journal begins\n" in listener.communicate(timeout=60)[0]
    for path, last in ("/events?journal=1&from=1", ""), ("/events", "1-41"):
        assert service.request("GET", path, headers={"Last-Event-ID": last}).text.endswith("event: next\ndata: a new journal begins\n\n")
    # The office goes on: SALT-1 still lacks a wagon, and Habbins 002 is still promised to it.
    answer = service.post([order("SALT-1"), line(kind="sheet")])
    assert answer.headers["Journal"] == "2" and answer.replies[0] == "1 refused 74"
    assert "order SALT-1 AT30002 2026-03-02T09:00:00Z 300 waiting 2 318127710024\n" in answer.replies[1]
    assert "".join(reply + "\n" for reply in service.kept) == service.run_again()
    # The journal before is kept, and its replies are found.
    assert service.get("/replies?journal=1").replies == before
    assert service.get("/replies?journal=1").headers["Journal"] == "1"
    assert service.get("/replies?journal=3").status == 400
    kept = service.kept
    service.stop()
    service = start().until_running()
    assert service.kept == kept and json.loads(service.get("/health").body)["journal"] == 2
    assert service.post(b"", path="/next").status == 200
    assert service.post(order("SALT-1")).replies == ["1 refused 74"]


def test_a_full_book_goes_on_in_a_new_journal(start: Start) -> None:
    service = start(options=["--entries", "2", "--next-at", "0"]).until_running()
    service.post([order("O1"), order("O2"), order("O3")])
    assert service.post(order("O3")).status == 503
    assert service.post(b"", path="/next").status == 200
    service.until_running()
    assert service.post(order("O3")).replies == ["1 accepted 1"]


def test_no_line_is_lost_between_two_journals(start: Start) -> None:
    service = start().until_running()
    told: dict[int, tuple[str, int]] = {}

    def send(k: int) -> None:
        for n in range(40):
            while (answer := service.post(order(f"O{k}-{n}"))).status == 503:
                assert answer.text.endswith("nothing of the request was taken\n"), answer.text
            told[k * 100 + n] = answer.headers["Journal"], answer.records[0]["number"]

    senders = [threading.Thread(target=send, args=(k,)) for k in range(4)]
    for sender in senders:
        sender.start()
    for _ in range(3):
        time.sleep(0.1)
        assert service.post(b"", path="/next").status == 200
    for sender in senders:
        sender.join()
    assert len(told) == 160
    journals = {name: (service.folder / name / "journal.jsonl").read_bytes().splitlines() for name in "1234"}
    assert all(journals[journal][number - 1] == order(f"O{key // 100}-{key % 100}") for key, (journal, number) in told.items())
    assert sum(map(len, journals.values())) == 160


def test_a_copy_of_the_folder_is_a_journal_of_before(start: Start, tmp_path: Path) -> None:
    service = start().until_running()
    over = threading.Event()

    def send() -> None:
        n = 0
        while not over.is_set():
            service.post([message("1001", n + k, WAGONS[k]) for k in range(30)])
            n += 30

    sender = threading.Thread(target=send)
    sender.start()
    for k in range(5):
        time.sleep(0.1)
        copy = tmp_path / f"copy_{k}"
        copy.mkdir()
        subprocess.run(["cp", service.folder / "1" / "replies.jsonl", service.folder / "1" / "journal.jsonl", copy], check=True)
        shutil.copytree(copy, tmp_path / f"folder_{k}" / "1")
    over.set()
    sender.join()
    for k in range(5):
        again = start(tmp_path / f"folder_{k}").until_running()
        assert again.kept and again.kept == service.kept[:len(again.kept)]
        assert service.journal.startswith(again.journal)


# Tokens.

TOKENS = """# who may send what
railway-1001-token railway 1001
railway-1002-token railway 1002
dispatcher-s-token dispatcher
reader-s-long-token reader
"""


@pytest.fixture
def tokens(tmp_path: Path) -> Path:
    file = tmp_path / "tokens"
    file.write_text(TOKENS)
    return file


def test_roles(start: Start, tokens: Path) -> None:
    service = start(options=["--tokens", str(tokens)]).until_running()
    mine, other = message("1001", 1, WAGONS[0]), message("1002", 1, WAGONS[0])
    no_message = "Line 2 of the request isn't a movement message; a railway's token sends no other line.\n"
    unknown = "A token is needed that this service knows: send `Authorization: Bearer TOKEN`.\n"
    for token, lines, status, said in [
        (None, [mine], 401, unknown),
        ("no-such-token-here", [mine], 401, unknown),
        ("railway-1001-toke", [mine], 401, unknown),
        ("reader-s-long-token", [mine], 403, "A reader's token sends no lines.\n"),
        ("railway-1002-token", [mine], 403, "Line 1 of the request isn't a message of company 1002, which the token is for.\n"),
        ("railway-1001-token", [mine, other], 403, "Line 2 of the request isn't a message of company 1001, which the token is for.\n"),
        ("railway-1001-token", [mine, order("O1")], 403, no_message),
        ("railway-1001-token", [mine, b'{"type":["release"],"company":"1001"}'], 403, no_message),
        ("railway-1001-token", [mine, b'{"company":"1001"}'], 403, no_message),
        ("railway-1001-token", [mine, b"[1]"], 403, no_message),
        ("railway-1001-token", [mine, b'{"type":"release","company":"1001"'], 400, "Line 2 of the request isn't JSON, so nobody can say whose it is.\n"),
        ("railway-1001-token", [mine, b"\xff"], 400, "Line 2 of the request isn't JSON, so nobody can say whose it is.\n"),
        ("railway-1001-token", [mine, b""], 400, "Line 2 of the request isn't JSON, so nobody can say whose it is.\n"),
        ("railway-1001-token", [mine, b"[" * 60_000], 400, "Line 2 of the request isn't JSON, so nobody can say whose it is.\n"),
        ("railway-1001-token", [b'{"type":"release","company":"1001","company":"1002"}'], 403,
         "Line 1 of the request isn't a message of company 1001, which the token is for.\n"),
    ]:
        answer = service.post(lines, token)
        assert (answer.status, answer.text) == (status, said), lines
    assert service.journal == b""
    assert service.post([mine], "railway-1001-token").replies == ["1 accepted 1"]
    assert service.post([b'{"type":"release","company":"1002","company":"1001"}'], "railway-1001-token").replies == ["2 refused 24 number"]
    assert service.post([other, order("O1"), b"x"], "dispatcher-s-token").replies == ["3 accepted 2", "4 accepted 3", "5 refused 21"]


def test_what_each_role_sees(start: Start, tokens: Path) -> None:
    service = start(options=["--tokens", str(tokens)]).until_running()
    service.post([message("1001", 1, WAGONS[0]), message("1002", 1, WAGONS[0]), order("O1"), b"x"], "dispatcher-s-token")
    for token, numbers in ("railway-1001-token", [1]), ("railway-1002-token", [2]), ("dispatcher-s-token", [1, 2, 3, 4]), ("reader-s-long-token", [1, 2, 3, 4]):
        assert [record["number"] for record in service.get("/replies", token).records] == numbers
    for path in "/replies", "/events", "/metrics", "/lines", "/nothing":
        assert service.get(path).status == 401
    assert service.get("/metrics", "railway-1001-token").status == 403
    assert service.get("/metrics", "reader-s-long-token").status == 200
    assert service.get("/health").status == 200
    for token in "railway-1001-token", "reader-s-long-token":
        assert service.post(b"", token, "/next").status == 403
    assert service.post(b"", path="/next").status == 401


def test_tokens_are_read_again(start: Start, tokens: Path) -> None:
    service = start(options=["--tokens", str(tokens)]).until_running()
    tokens.write_text("another-token-of-it dispatcher\n")
    service.process.send_signal(signal.SIGHUP)
    while service.post(b"{}", "another-token-of-it").status != 200:
        pass
    assert service.post(b"{}", "dispatcher-s-token").status == 401
    tokens.write_text("short dispatcher\n")
    service.process.send_signal(signal.SIGHUP)
    while not any("stay as they were" in text for text in service.log):
        pass
    assert service.post(b"{}", "another-token-of-it").status == 200
    assert "short" not in "".join(service.log)


@pytest.mark.parametrize(("text", "said"), [
    ("abc dispatcher", "line 1 has a token of under 16 characters"),
    ("\n# x\n0123456789abcdef king", "line 3 must be TOKEN dispatcher, TOKEN reader or TOKEN railway COMPANY"),
    ("0123456789abcdef", "line 1 must be"),
    ("0123456789abcdef reader 1001", "line 1 must be"),
    ("0123456789abcdef railway", "line 1: behind `railway` stands one company"),
    ("0123456789abcdef railway 10", "line 1: behind `railway` stands one company"),
    ("0123456789abcdef reader\n0123456789abcdef dispatcher", "line 2 has a token that stands there already"),
])
def test_wrong_tokens_are_no_start(start: Start, tokens: Path, text: str, said: str) -> None:
    tokens.write_text(text)
    service = start(options=["--tokens", str(tokens)])
    assert service.until_ended() == 2 and said in service.log[-1]
    assert "0123456789abcdef" not in "".join(service.log)


# Starts and stops.


def test_arguments(start: Start) -> None:
    for options, said in [
        (["--listen", "0.0.0.0:0"], "without --tokens only a loopback address is listened to"),
        (["--listen", "nothing"], "is no HOST:PORT"),
        (["--from", "x"], "not allowed with argument --roster"),
    ]:
        service = start(options=options)
        assert service.until_ended() == 2 and said in service.log[-1]


def test_a_second_service_is_refused(start: Start, tmp_path: Path) -> None:
    service = start().until_running()
    second = start()
    assert second.until_ended() == 2
    assert second.log == [f"wagons-service: another service has the folder {tmp_path}/journal"]
    assert service.post(b"{}").replies == ["1 refused 24 type"]


def test_a_folder_that_cannot_be_made(start: Start) -> None:
    service = start(Path("/proc/nothing"))
    assert service.until_ended() == 2 and "/proc/nothing" in service.log[-1]


def test_a_program_that_cannot_be_started(start: Start, tmp_path: Path) -> None:
    service = start(program=str(tmp_path / "nothing"))
    words = service.until_state("stopped")["words"]
    assert f"{tmp_path}/nothing couldn't be started" in words
    answer = service.post(b"{}")
    assert answer.status == 503 and answer.text == f"{words}; nothing of the request was taken\n"


def test_a_roster_that_is_wrong(start: Start, tmp_path: Path) -> None:
    roster = tmp_path / "roster.csv"
    roster.write_text("wagon,class,load,status,place,moment\nx,Eanos,1,empty,DE10001,2026-03-01T00:00:00Z\n")
    service = start(roster=roster)
    words = service.until_state("stopped")["words"]
    told = f'{roster}, record 2, wagon: "x" is no wagon number: twelve digits, of which the last is the check digit of the others'
    assert words.splitlines() == ["wagons: 78 2", told]
    assert service.post(b"{}").text == f"{words}; nothing of the request was taken\n"
    assert service.journal == b""


def test_a_line_that_is_too_long_stops_the_office(start: Start, tmp_path: Path) -> None:
    (tmp_path / "journal" / "1").mkdir(parents=True)
    (tmp_path / "journal" / "1" / "journal.jsonl").write_bytes(order("O1") + b"\n" + b"x" * 65_537 + b"\n{}\n")
    service = start()
    assert service.until_state("stopped")["words"].splitlines() == ["wagons: 92 2", "standard input, line 2: it has over 65536 bytes"]
    assert service.post(b"{}").status == 503
    assert service.get("/replies?from=1").replies == ["1 accepted 1"]


def test_a_full_book_is_said_to_all(start: Start, tmp_path: Path) -> None:
    service = start(options=["--entries", "2", "--next-at", "0"]).until_running()
    assert service.post([order("O1"), order("O2"), order("O3"), b"x"]).replies == ["1 accepted 1", "2 accepted 2", "3 refused 72", "4 refused 21"]
    for again in range(2):
        answer = service.post(order("O4"))
        assert (answer.status, answer.text) == (503, "3 refused 72: the book is full; begin a new journal; nothing of the request was taken\n")
        assert len(service.get("/replies").records) == 4
        if not again:
            service.stop()
            service = start(options=["--entries", "2", "--next-at", "0"])
            service.until_state("full")


def test_a_full_journal_is_said_to_all(start: Start, tmp_path: Path) -> None:
    folder = tmp_path / "journal" / "1"
    folder.mkdir(parents=True)
    (folder / "journal.jsonl").write_bytes(b'{"type":"x"}\n' * 999_997)
    service = start(options=["--next-at", "0"])
    service.until_running(100)
    answer = service.post([b"x"] * 3)
    assert answer.status == 503 and answer.text == "91: the journal would have over 999,999 lines; begin a new one; nothing of the request was taken\n"
    assert service.post(b"x").replies == ["999998 refused 21"]
    # The last line is left for the one by which a sheet ends.
    assert service.post(line(kind="sheet")).replies[0].startswith("999999 sheet 0\n")
    assert service.post(b"x").status == 503 and service.journal.endswith(b'{"type":"sheet"}\n{}\n')
    assert service.post(b"", path="/next").status == 200
    assert service.post(b"x").replies == ["1 refused 21"]


def test_another_office_is_not_gone_on_with(start: Start) -> None:
    service = start(options=["--entries", "2", "--next-at", "0"]).until_running()
    service.post([order("O1"), order("O2"), order("O3")])
    service.stop()
    words = start(options=["--entries", "3"]).until_state("stopped")["words"]
    assert "line 3 was answered" in words and "3 refused 72" in words and "is now answered '3 accepted 3'" in words


def test_a_program_that_is_killed_is_started_again(start: Start) -> None:
    service = start().until_running()
    # Of these none is refused by where its wagon stands, which the page's own program would be asked for.
    service.post(LINES.splitlines()[:24])
    kept = service.kept
    for _ in range(3):
        os.kill(service.children[0], signal.SIGKILL)
        while not any("ended by signal 9" in text for text in service.log):
            pass
        service.log.clear()
        service.until_running()
    assert service.kept == kept
    assert service.post(b"x").replies == ["25 refused 21"]
    assert "wagons_program_restarts_total 3" in service.get("/metrics").text


def test_a_program_that_ends_at_once_is_given_up(start: Start, tmp_path: Path) -> None:
    script = tmp_path / "killed"
    script.write_text("#!/bin/sh\nkill -9 $$\n")
    script.chmod(0o755)
    assert start(program=str(script)).until_state("stopped")["words"] == "the program was ended by signal 9 10 times, soon after its start"


def test_a_program_that_says_other_things_is_stopped(start: Start, tmp_path: Path) -> None:
    script = tmp_path / "talks"
    script.write_text("#!/bin/sh\nread line || exit 0; echo hello; exec sleep 9\n")
    script.chmod(0o755)
    service = start(program=str(script)).until_running()
    answer = service.post(b"{}")
    assert answer.status == 503 and "the program printed what is no reply" in answer.text
    assert "lines 1 to 1 are in the journal, and their replies come at /replies?journal=1&from=1" in answer.text
