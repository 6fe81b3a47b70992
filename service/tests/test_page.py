"""The page in a real browser: the example day by clicks, and by keys."""

import json
import os
import signal
import time
from pathlib import Path

from selenium.webdriver.common.by import By
from selenium.webdriver.common.keys import Keys

from conftest import ROOT, Browse, Start
from running import DAY, WAGONS, Service, line, message, order

LINES = (DAY / "day.jsonl").read_bytes().splitlines()
PLACES = ["--places", str(DAY / "places.csv")]
FALNS = "315466400019"
# The page with a plan, for whoever wants to see it before it is tried.
PICTURE = ROOT / "out" / "page.png"


def test_the_day_by_clicks(start: Start, browse: Browse) -> None:
    service = start(options=PLACES).until_running()
    page = browse(service).open()
    page.until_says("#state", "The office runs: 0 lines in journal 1, version 0.")
    page.tab("wagons")
    page.until_says("#wagons-shown", "40 of 40")
    page.until(lambda: page.rows("#wagons-table")[0][:2] == ["3154 6640 001-9", "Falns"], "the first wagon")

    # Five orders, and one that isn't right at first.
    page.tab("new_order")
    page.order("malt 1", place="Lindenau")
    page.until_says('[data-field="order"]', "Refused, 16 BadOrderId")
    page.order("MALT-1", place="Lindenau")
    page.until_says('[data-field="place"]', "Refused, 13 BadPlace: A place isn't two letters A-Z and five digits.")
    page.order("MALT-1", load="")
    page.until_says('[data-field="load"]', "This field is missing.")
    page.order("MALT-1", penalty="a lot")
    page.until_says('[data-field="penalty"]', "Refused, 19 WrongKind")
    page.order("MALT-1")
    page.until_says("#said", "The order is placed: entry 1 of the book.")
    page.order("MALT-1")
    page.until_says('[data-field="order"]', "Refused, 74")
    page.order("STEEL-1", place="DE10005", load="50000", latest="2026-03-02T10:00:00Z")
    page.until_says("#said", "entry 2")
    page.order("SCRAP-1", place="DE10001", classes="Eanos", load="55000", wagons="2")
    page.until_says("#said", "entry 3")
    page.order("SUGAR-1", place="CZ20002", classes="Falns", load="60000", latest="2026-03-02T16:00:00Z", penalty="500", wagons="3")
    page.until_says("#said", "entry 4")
    page.order("SALT-1", place="AT30002", load="40000", latest="2026-03-02T09:00:00Z", penalty="300", wagons="2")
    page.until_says("#said", "entry 5")
    page.tab("orders")
    page.until(lambda: [row[0] for row in page.rows("#orders-table")] == ["MALT-1", "STEEL-1", "SCRAP-1", "SUGAR-1", "SALT-1"], "five orders")
    # What needs a person now stands on the left, the most urgent first.
    assert [row[:3] for row in page.rows("#short-table")] == [
        ["SALT-1", "2", "Salzhof"], ["STEEL-1", "1", "Hüttenstadt"], ["MALT-1", "1", "Lindenau"], ["SCRAP-1", "2", "Seehafen"], ["SUGAR-1", "3", "Cukrov"]]
    page.until(lambda: page.rows("#orders-table")[4] == [
        "SALT-1", "2", "2", "AT30002", "Salzhof", "Habbins", "40000", "2026-03-02T09:00:00Z", "300", "waiting", "", ""], "class and load")

    # Railways send; a plan is looked at and accepted.
    assert service.post(LINES[5:7]).replies[1].endswith("accepted 7")
    page.until_says("#state", "version 7")
    page.plan("2026-03-02T06:00:00Z")
    page.until_says("#plan-head", "20 free wagons, 5 waiting orders: this plan costs 660, 360 km and 300 for missing wagons. None costs less.")
    page.until(lambda: page.rows("#plan-table")[0][5], "an arrival")
    pairs = page.rows("#plan-table")
    assert pairs[0] == ["3181 2771 001-6", "MALT-1", "DE10001 Seehafen", "DE10003 Lindenau", "150", "2026-03-02T08:50:00Z",
                        "The best plan without it costs 250 km more."]
    assert len(pairs) == 8 and any("The best plan without it costs 300 km more." == pair[6] for pair in pairs)
    assert page.rows("#missing-table") == [["SALT-1", "1", "300", "Free wagons that suit and are there in time: 1. No plan gives it more."]]
    page.click("#accept")
    page.until_says("#said", "The plan is accepted: entry 8 of the book.")
    # Its promises stand in a list, with their ways from the moment of the newest message, a quarter of an hour before the plan's.
    promise = ["3181 2771 001-6", "Habbins", "MALT-1", "DE10001 Seehafen", "DE10003 Lindenau", "150", "2026-03-02T08:35:00Z", "2026-03-02T12:00:00Z", "205 min to spare", "empty"]
    page.until(lambda: page.rows("#promises-table")[0] == promise, "a promise")
    assert page.rows("#late-table") == []
    page.open("/#promises")
    page.until(lambda: page.rows("#promises-table")[0] == promise, "the promise again")
    assert page.find("#promises-shown").text == "8 of 8"
    page.tab("map")
    page.click('#short-table [data-row="SALT-1"]')
    page.until(lambda: page.find('#map-shown circle.chosen[data-place="AT30002"]'), "the order's place")
    page.screen(1280, 800)
    PICTURE.parent.mkdir(exist_ok=True)
    page.driver.save_screenshot(str(PICTURE))
    page.driver.execute_cdp_cmd("Emulation.clearDeviceMetricsOverride", {})
    page.tab("orders")
    page.until(lambda: page.rows("#orders-table")[1][10] == "3181 2771 003-2", "a promised wagon")
    assert [row[1] for row in page.rows("#orders-table")] == ["0", "0", "0", "0", "1"]

    # Messages come, and are seen without a reload.
    service.post(LINES[10:23])
    page.until_says("#refusals-list", "25 wagon 12")
    page.choose("#orders-filter", "all")
    page.until(lambda: ["STEEL-1", "filled"] in [[row[0], row[9]] for row in page.rows("#orders-table")], "a filled order")
    page.click('#orders-table [data-row="SCRAP-1"]')
    page.until_says("#chosen-shown", "DE10001 Seehafen")
    page.click('button[aria-label="Withdraw order SCRAP-1"]')
    page.driver.switch_to.alert.accept()
    page.until_says("#said", "Order SCRAP-1 is withdrawn.")
    page.until(lambda: ["SCRAP-1", "withdrawn"] in [[row[0], row[9]] for row in page.rows("#orders-table")], "a withdrawn order")
    service.post(LINES[24:30])
    page.until_says("#state", "version 24")
    # A plan whose wagon is held in between is refused, and says why.
    page.plan("2026-03-02T11:00:00Z")
    page.until_says("#plan-head", "this plan costs 465, 165 km and 300 for missing wagons")
    service.post(message("1003", 77, "315466400019", hold=True, moment="2026-03-02T10:55:00Z"))
    page.click("#accept")
    page.until_says("#said", "Refused, 82 WagonChanged: A wagon of the commit isn't free now as it was in the problem.")
    page.until_says("#said", "(315466400019)")
    page.plan("2026-03-02T11:00:00Z")
    page.click("#accept")
    page.until_says("#said", "The plan is accepted")

    # The sheet that ends the day is what the page shows.
    service.post(line(kind="sheet"))
    sheet = service.kept[-2].splitlines()
    page.tab("orders")
    page.until(lambda: ["MALT-1", "promised"] in [[row[0], row[9]] for row in page.rows("#orders-table")], "the end")
    page.tab("wagons")
    page.until(lambda: len(page.rows("#wagons-table")) == 40, "all wagons")
    shown: list[str] = page.run("return [...document.querySelectorAll('#wagons-table tr[data-row]')].map(row => row.dataset.row)")
    assert shown == sorted(row.split()[1] for row in sheet if row.startswith("wagon "))
    assert page.faults == []
    # What the page asked for itself is in no journal: only lines that were sent, and one for the sheet's end.
    kinds = [json.loads(it).get("type") for it in service.journal.splitlines() if it.endswith(b"}")]
    assert kinds.count("sheet") == 1 and kinds.count(None) == 1

    # A new journal begins by a button, and the page goes on with it.
    page.tab("journal")
    page.click("#next")
    page.driver.switch_to.alert.accept()
    page.until_says("#state", "0 lines in journal 2")
    page.tab("orders")
    page.until(lambda: page.rows("#orders-table")[0][0] == "MALT-1", "the open orders")

    # A wagon that stands wrong is put right with the next one.
    page.tab("wagons")
    page.until(lambda: any(not row[8] for row in page.rows("#wagons-table")), "a wagon without a promise")
    number = next(shown[place] for place, row in enumerate(page.rows("#wagons-table")) if not row[8])
    page.click(f'#wagons-table [data-row="{number}"]')
    page.until_says("#chosen-shown", number)
    page.use("#chosen-shown .acts .sends", lambda button: button.click())
    row = page.find("#correct-rows").get_attribute("value")
    assert row is not None and row.startswith(f"{number},")
    wagon_class = row.split(",")[1]
    page.fill("#correct-rows", f"{number},{wagon_class},51000,empty,DE10002,2026-03-02T16:00:00Z")
    page.click("#next")
    page.driver.switch_to.alert.accept()
    page.until_says("#state", "0 lines in journal 3")
    page.tab("wagons")
    page.until(lambda: ["51000", "empty", "DE10002", "Moorburg"] in [row[2:6] for row in page.rows("#wagons-table")], "the wagon as it was put right")


def test_a_promise_that_will_be_late(start: Start, browse: Browse) -> None:
    service = start(options=PLACES).until_running()
    service.post(b"".join(line + b"\n" for line in LINES[:10]))
    page = browse(service).open("/#promises")
    page.until(lambda: all(row[8] for row in page.rows("#promises-table")) and len(page.rows("#promises-table")) == 8, "eight promises")
    assert page.rows("#late-table") == []
    # Eleven minutes past nine nobody has left. From there it takes 170 minutes to MALT-1, until twelve; SALT-1 was wanted at nine.
    service.post(message("1003", 77, "315466400019", hold=True, moment="2026-03-02T09:11:00Z"))
    page.until(lambda: [row[:3] for row in page.rows("#late-table")] == [
        ["3181 2771 002-4", "SALT-1", "late by 11 min"], ["3181 2771 001-6", "MALT-1", "late by 1 min"]], "two late ones")
    page.click('#late-table [data-row="318127710016"]')
    page.until_says("#chosen-shown", "MALT-1")


def test_what_comes_from_outside_is_text(start: Start, browse: Browse, tmp_path: Path) -> None:
    script = "<script>document.title='hit'</script><img src=x onerror=\"document.title='hit'\">"
    name = "<img src=x onerror=document.title='hit'>\\&amp;"
    (tmp_path / "places.csv").write_text(f"place,name,x,y\nDE10001,{name},1,2\nDE10003,=1+1,2,3\n")
    service = start(options=["--places", str(tmp_path / "places.csv")]).until_running()
    page = browse(service).open()
    page.until_says("#state", "The office runs")
    service.post([line(kind="order", order=script), line(kind=script), script.encode(), line(**{script: 1})])
    page.until_says("#refusals-list", script)
    page.tab("new_order")
    page.order(script)
    page.until_says('[data-field="order"]', "Refused, 16")
    page.tab("places")
    page.until(lambda: ["DE10001", name] in [row[:2] for row in page.rows("#places-table")], "the name")
    page.click('#places-table [data-row="DE10001"]')
    page.until_says("#chosen-shown h3", f"DE10001 {name}")
    assert page.driver.title == "Fleet office" and not page.driver.find_elements(By.CSS_SELECTOR, "main img, main script")
    page.open()
    page.until_says("#refusals-list", script)
    assert page.driver.title == "Fleet office"


def test_all_is_reached_by_keys(start: Start, browse: Browse) -> None:
    service = start(options=PLACES).until_running()
    page = browse(service).open()
    page.until_says("#state", "The office runs")
    # Parts of the middle, by arrows.
    page.press("#tab-map", Keys.ARROW_RIGHT)
    page.press_here(Keys.ARROW_RIGHT)
    page.until_says("#wagons-shown", "40 of 40")
    page.fill("#wagons-search", "habbins empty")
    page.until(lambda: 0 < len(page.rows("#wagons-table")) < 12, "fewer wagons")
    assert all(row[1] == "Habbins" and "empty" in row[3] for row in page.rows("#wagons-table"))
    # A number as people write it, a place's name.
    page.fill("#wagons-search", "3181 2771 001-6")
    page.until_says("#wagons-shown", "1 of 40")
    page.fill("#wagons-search", "318127710016 seehafen")
    page.until_says("#wagons-shown", "1 of 40")
    page.fill("#wagons-search", "")
    page.press('#wagons-table [data-column="place"]', Keys.ENTER)
    page.until(lambda: len(page.rows("#wagons-table")) == 40, "all wagons")
    shown = [row[4] for row in page.rows("#wagons-table")]
    assert shown == sorted(shown)
    page.use('#wagons-table [data-column="place"]:focus', lambda column: column.send_keys(Keys.ENTER))
    assert [row[4] for row in page.rows("#wagons-table")] == sorted(shown, reverse=True)
    assert page.find('#wagons-table th[aria-sort="descending"]').text.startswith("Place")
    # Rows by arrows; Enter chooses.
    page.press_here(Keys.TAB)
    for _ in range(10):
        if page.run("return document.activeElement.matches('#wagons-table tr')"):
            break
        page.press_here(Keys.TAB)
    first = page.run("return document.activeElement.dataset.row")
    page.press_here(Keys.ARROW_DOWN, Keys.ARROW_DOWN, Keys.ENTER)
    third = page.run("return document.querySelectorAll('#wagons-table tr[data-row]')[2].dataset.row")
    assert first != third
    page.until_says("#chosen-shown", third)
    assert page.find('#wagons-table tr[aria-selected="true"]').get_attribute("data-row") == third
    # A place of the map by its key, and the next one to the right.
    page.tab("map")
    page.press('[data-place="DE10005"]', Keys.ENTER)
    count = shown.count("DE10005")
    page.until_says("#chosen-shown", f"{count} wagons, 0 of them free; 0 open orders" if count == 0 else f"{count} wagons")
    label = page.find('[data-place="DE10005"]').get_attribute("aria-label") or ""
    assert label.startswith(f"DE10005 Hüttenstadt: {count} wagons")
    # What is shown again doesn't take the keyboard away.
    service.post(order("O1", place="DE10005"))
    page.until_says("#chosen-shown", "1 open orders")
    page.until(lambda: page.find('[data-place="DE10005"]:focus'), "the keyboard at its place")
    page.press_here(Keys.ARROW_RIGHT)
    # DE10006 lies farther down than right.
    assert page.run("return document.activeElement.dataset.place") == "AT30001"
    # Every field and button has a name.
    nameless = page.run("""return [...document.querySelectorAll('button, input, select, textarea, [role=grid], [role=tabpanel], section')].filter((one) =>
      !(one.textContent.trim() || one.getAttribute('aria-label') || one.labels?.length || one.getAttribute('aria-labelledby'))).map((one) => one.outerHTML)""")
    assert nameless == []
    assert page.faults == []


def test_a_file_for_a_spreadsheet(start: Start, browse: Browse, tmp_path: Path) -> None:
    page = browse(start(options=PLACES).until_running()).open("/#wagons")
    page.driver.execute_cdp_cmd("Browser.setDownloadBehavior", {"behavior": "allow", "downloadPath": str(tmp_path)})
    page.until_says("#wagons-shown", "40 of 40")
    page.until(lambda: page.rows("#wagons-table")[0][5], "names")
    page.fill("#wagons-search", "318127710016")
    page.until_says("#wagons-shown", "1 of 40")
    page.click("#wagons-save")
    page.until(lambda: (tmp_path / "wagons.csv").exists(), "the file")
    assert (tmp_path / "wagons.csv").read_text() == (
        "wagon,class,load,status,place,name,last,held,promise\n"
        "318127710016,Habbins,52000,empty,DE10001,Seehafen,2026-03-01T19:00:00Z,,\n")


def test_a_phone(start: Start, browse: Browse) -> None:
    page = browse(start(options=PLACES).until_running())
    page.screen(390, 844, is_phone=True)
    page.open("/#wagons")
    page.until_says("#wagons-shown", "40 of 40")
    assert page.run("return document.documentElement.scrollWidth") <= 390
    # One column: what needs a person, the parts, what is chosen.
    at = page.run("return ['left', 'middle', 'right'].map((id) => document.getElementById(id).getBoundingClientRect()).map((it) => [it.left, it.top])")
    lefts, tops = zip(*at)
    assert len(set(lefts)) == 1 and list(tops) == sorted(tops)
    page.click('#wagons-table [data-row="318127710016"]')
    page.until_says("#chosen-shown", "318127710016")
    page.until(lambda: page.run("return document.getElementById('right').getBoundingClientRect().top") < 844, "what is chosen in sight")


def test_moments_in_the_zone(start: Start, browse: Browse) -> None:
    service = start(options=["--zone", "Europe/Berlin"]).until_running()
    service.post([order("WINTER", latest="2026-03-28T23:30:00Z"), order("SUMMER", latest="2026-03-29T01:00:00Z")])
    page = browse(service).open("/#orders")
    page.until(lambda: [row[7] for row in page.rows("#orders-table")] == ["2026-03-29 00:30 +01:00", "2026-03-29 03:00 +02:00"], "clocks of Berlin")
    assert page.find('#orders-table [data-row="SUMMER"] time').get_attribute("title") == "2026-03-29T01:00:00Z"
    assert page.find('#orders-table [data-row="SUMMER"] time').get_attribute("datetime") == "2026-03-29T01:00:00Z"


def test_names_and_zones_that_cannot_be_used(start: Start, tmp_path: Path) -> None:
    (tmp_path / "places.csv").write_text("place,name,x,y\nDE10001,Seehafen,east,2\n")
    for options, words in (["--places", str(tmp_path / "places.csv")], "wagons: 41 2"), (["--zone", "Europe/Lindenau"], "wagons: 93"):
        service = start(options=options, is_awaited=False)
        assert service.until_ended() == 2
        assert words in "\n".join(service.log), service.log


def command_of(pid: int) -> list[bytes]:
    try:
        return Path(f"/proc/{pid}/cmdline").read_bytes().split(b"\0")
    except OSError:
        return []  # It has ended.


def the_page_s_own(service: Service, before: list[int]) -> int:
    """The program that is asked for sheets."""
    for _ in range(600):
        found = [pid for pid in set(service.children) - set(before) if b"run" in command_of(pid)]
        if len(found) == 1:
            return found[0]
        time.sleep(0.05)
    raise AssertionError(service.children)


def test_the_page_s_own_program_hangs(start: Start, browse: Browse) -> None:
    service = start(options=["--answer-within", "2"]).until_running()
    before = service.children
    page = browse(service).open("/#orders")
    page.until_says("#state", "The office runs")
    own = the_page_s_own(service, before)
    os.kill(own, signal.SIGSTOP)
    service.post(order("O1"))
    page.until_says("#said", "the page's own program was killed and is started again, since the program has given no reply for 2", 20)
    page.until(lambda: [row[0] for row in page.rows("#orders-table")] == ["O1"], "the order", 10)
    page.until_says("#state", "The office runs: 1 lines")
    assert own not in service.children and json.loads(service.get("/health").body)["state"] == "running"


def test_who_could_go(start: Start, browse: Browse) -> None:
    service = start(options=PLACES).until_running()
    service.post(LINES[:7])
    page = browse(service).open("/#plan")
    page.until_says("#state", "version 7")
    page.fill("#plan-at", "2026-03-02T06:00:00Z")
    page.click('#short-table [data-row="SALT-1"]')
    page.until_says("#chosen-shown", "Habbins")
    page.use('[data-key="why order SALT-1"]', lambda button: button.click())
    page.until_says("#reasons", "3181 2771 002-4: ")
    said = page.find("#reasons").text
    assert "km, as planned" in said and "Free wagons of other classes than Habbins: " in said


def test_what_happened(start: Start, browse: Browse) -> None:
    service = start(options=PLACES).until_running()
    service.post(LINES[:26])
    page = browse(service).open("/#wagons")
    page.until_says("#state", "version 20")
    page.click('#wagons-table [data-row="318127710016"]')
    page.until_says("#chosen-shown", "Habbins")
    page.use('[data-key="trace wagon 318127710016"]', lambda button: button.click())
    page.until_says("#reasons-head", "up to line 26")
    said = [row.text for row in page.driver.find_elements(By.CSS_SELECTOR, "#reasons li")]
    assert len(said) == 5 and said[0].startswith("line 26: yard_departure, 1001, ") and said[0].endswith(": on its way, empty at DE10002 Moorburg, promised to MALT-1")
    assert said[1].endswith(": refused 33") and said[4].startswith("line 10: commit, ")
    page.click('#short-table [data-row="SUGAR-1"]')
    page.use('[data-key="trace order SUGAR-1"]', lambda button: button.click())
    page.until_says("#reasons", "line 18: exception, 1003")
    assert page.driver.find_elements(By.CSS_SELECTOR, "#reasons li")[0].text.endswith(": waiting, 1 missing")


def test_tokens_are_asked_for(start: Start, browse: Browse, tmp_path: Path) -> None:
    (tmp_path / "tokens").write_text("a-token-to-read-with reader\nsend-by-this-token-1 dispatcher\nrailway-1001-token railway 1001\n")
    service = start(options=["--tokens", str(tmp_path / "tokens")]).until_running()
    page = browse(service).open()
    page.fill("input[name=token]", "not-any-of-the-tokens")
    page.find("button").click()
    page.until_says("[role=alert]", "This token isn't known.")
    page.fill("input[name=token]", "a-token-to-read-with")
    page.find("button").click()
    page.until_says("#state", "The office runs")
    assert page.find(".looks").is_displayed() and not any(one.is_displayed() for one in page.driver.find_elements(By.CSS_SELECTOR, ".sends"))
    page.driver.delete_all_cookies()
    page.open()
    page.fill("input[name=token]", "send-by-this-token-1")
    page.find("button").click()
    page.until_says("#state", "The office runs")
    page.tab("new_order")
    page.order("O1")
    page.until_says("#said", "The order is placed")
    page.until(lambda: page.rows("#short-table")[0][0] == "O1", "the order")
    service.post(message("1001", 1, WAGONS[0]), "railway-1001-token")
    page.until_says("#state", "2 lines in journal 1")
    for path in "/", "/office", "/network", "/wants", "/why?at=x", "/refusals", "/v1/stuck":
        assert service.get(path, "railway-1001-token").status == 403
    for path in "/office", "/network", "/wants", "/why?at=x", "/refusals", "/explain/82":
        assert service.get(path).status == 401


def test_a_wagon_that_waits_for_a_lost_message(start: Start, browse: Browse) -> None:
    service = start(options=[*PLACES, "--retry", "60"]).until_running()
    # Its departure is lost.
    service.post([line(kind="yard_arrival", company="1001", number=2, wagon=FALNS, place="DE10002", moment="2026-03-02T08:00:00Z"),
                  line(kind="yard_departure", company="1001", number=3, wagon=FALNS, place="DE10002", moment="2026-03-02T09:00:00Z")])
    page = browse(service).open()
    page.until(lambda: page.rows("#stuck-table") == [["3154 6640 001-9", "empty", "Kiesgrube", "2"]], "a wagon that waits")
    assert page.find("#stuck-count").text == "1"
    page.click(f'#stuck-table [data-row="{FALNS}"]')
    page.until_says("#chosen-shown", "2 messages, the first at")
    page.until_says("#chosen-shown", 'refused 32: {"type":"yard_departure"')
    # The dispatcher sends it by hand; the form knows the wagon, where it stands, and whose message was refused.
    page.click('#chosen-shown [data-key="message"]')
    page.until(lambda: page.find("#message-wagon").get_attribute("value") == FALNS, "the form")
    assert [page.find(f"#message-{name}").get_attribute("value") for name in ("company", "place", "number", "moment")] == ["1001", "DE10006", "", ""]
    page.choose("#message-type", "departure")
    page.click("#message-send")
    page.until_says('#message-form [data-field="number"]', "This field is missing.")
    page.fill("#message-number", "1")
    page.fill("#message-moment", "2026-03-01T07:00:00Z")
    page.click("#message-send")
    page.until_says('#message-form [data-field="moment"]', "Refused, 31 Earlier")
    page.fill("#message-moment", "2026-03-02T07:00:00Z")
    page.click("#message-send")
    page.until_says("#said", "The message is accepted: entry 1 of the book.")
    # What came early is offered again behind it.
    page.until(lambda: page.rows("#stuck-table") == [], "no wagon that waits")
    page.until_says("#chosen-shown", "on its way, empty")
    assert [reply.split(" ", 1)[1] for reply in service.kept[-3:]] == ["accepted 1", "accepted 2", "accepted 3"]
    assert page.faults == []
