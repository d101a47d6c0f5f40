"""The page in headless Chromium: each view, hostile texts, the keyboard, a narrow screen."""

from __future__ import annotations

import os
import shutil
import tempfile
from typing import Any, Callable, Iterator
from urllib.parse import quote

import pytest
from conftest import WAIT, Office, fact, report, until

selenium = pytest.importorskip("selenium.webdriver", reason="python3-selenium is missing")
from selenium.common.exceptions import WebDriverException  # noqa: E402
from selenium.webdriver.chrome.options import Options  # noqa: E402
from selenium.webdriver.chrome.service import Service  # noqa: E402
from selenium.webdriver.common.by import By  # noqa: E402
from selenium.webdriver.common.keys import Keys  # noqa: E402

HOSTILE = "<img src=x onerror=\"document.title='owned'\"><script>document.title='owned'</script>&amp;"
NAME = "<b>r1</b>\"'&lt;"
SIZES = [1280, 400]


class Page:
    """The page in a browser."""

    def __init__(self, driver: Any, office: Office) -> None:
        self.driver, self.office = driver, office

    def open(self, width: int = 1280) -> None:
        size = {"width": width, "height": 900, "deviceScaleFactor": 1, "mobile": False}
        self.driver.execute_cdp_cmd("Emulation.setDeviceMetricsOverride", size)
        self.driver.get("about:blank")
        self.driver.get(self.office.url)
        self.drawn("facts")
        until(lambda: self.text("state") == "live", "events come")
        if self.js("return [...document.getElementById('report').options].some(o => o.value === 'annual')"):
            self.choose("annual")

    def choose(self, report: str) -> None:
        self.js(
            "const r = document.getElementById('report'); r.value = arguments[0]; r.dispatchEvent(new Event('change'))",
            report,
        )
        until(
            lambda: self.js("return document.querySelector('#facts caption')?.textContent ?? ''").startswith(
                f"Facts of {report} in"
            ),
            "its facts",
        )

    def drawn(self, view: str) -> None:
        """Waits until a view is drawn."""
        until(lambda: self.js("return document.body.dataset.drawn") == view, f"the view {view} is drawn")

    def show(self, view: str) -> None:
        self.driver.find_element(By.CSS_SELECTOR, f"nav a[href='#{view}']").click()
        self.drawn(view)

    def js(self, script: str, *arguments: Any) -> Any:
        return self.driver.execute_script(script, *arguments)

    def id(self, name: str) -> Any:
        return self.driver.find_element(By.ID, name)

    def text(self, name: str) -> str:
        text: str = self.id(name).text
        return text

    def fill(self, name: str, text: str) -> None:
        self.js(
            "arguments[0].value = arguments[1]; arguments[0].dispatchEvent(new Event('change'))", self.id(name), text
        )

    def rows(self, name: str) -> list[list[str]]:
        found: list[list[str]] = self.js(
            """const rows = document.querySelectorAll('#' + arguments[0] + ' tbody tr');
            return [...rows].map(row => [...row.cells].map(cell => cell.textContent))""",
            name,
        )
        return found

    def press(self, label: str) -> None:
        self.driver.find_element(By.CSS_SELECTOR, f"button[aria-label='{label}']").click()


def browser(folder: str) -> Any:
    options: Any = Options()
    words = [
        "--headless=new",
        "--no-sandbox",
        "--disable-gpu",
        "--disable-dev-shm-usage",
        "--disable-extensions",
        "--disable-background-networking",
    ]
    for word in (*words, f"--user-data-dir={folder}"):
        options.add_argument(word)
    options.set_capability("goog:loggingPrefs", {"browser": "ALL"})
    return selenium.Chrome(service=Service(str(shutil.which("chromedriver"))), options=options)


@pytest.fixture(scope="module")
def driver() -> Iterator[Any]:
    if not shutil.which("chromedriver"):
        pytest.skip("chromium-driver is missing")
    with tempfile.TemporaryDirectory(ignore_cleanup_errors=True) as folder:
        running = browser(folder)
        running.set_page_load_timeout(60)
        yield running
        running.quit()


@pytest.fixture(scope="module")
def sampled(shared: Office) -> Office:
    """An office with two reports, hostile texts, a conflict and some versions."""
    facts = {f"f{n}": fact(f"C{n % 7}", f"value {n}", period=str(2020 + n % 3), entity="ex:Acme") for n in range(130)}
    facts |= {
        HOSTILE: fact("Hostile", HOSTILE, **{"ex:Remark": HOSTILE, "period": HOSTILE}),
        "long": fact("Long", "word " * 500),
    }
    assert shared.load("annual", report(facts)).status == 201
    assert shared.load(quote(NAME, safe=""), report({"x": fact("A", HOSTILE)})).status == 201
    anna, ben = shared.client(), shared.client()
    anna.ask(["open", "s", "amend"], ["get", "s", "annual", "f3"])
    ben.ask(
        ["open", "s", "amend"],
        ["remove", "s", "annual", "f3"],
        ["add", "s", "annual", "f3", fact("C3", "better", period="2020")],
        ["commit", "s"],
    )
    assert anna.ask(["remove", "s", "annual", "f4"], ["commit", "s"])[1][0] == "conflict"
    ben.ask(["open", "s", "amend"], ["remove", "s", "annual", "f5"], ["commit", "s"])
    return shared


@pytest.fixture
def page(driver: Any, sampled: Office) -> Iterator[Page]:
    shown = Page(driver, sampled)
    driver.get_log("browser")
    yield shown
    assert driver.title != "owned"
    said = [it["message"] for it in driver.get_log("browser") if "Failed to load resource" not in it["message"]]
    assert said == []


def test_facts_are_listed_and_searched(page: Page) -> None:
    page.open()
    assert page.text("found") == "131 of 131 facts found, 100 shown"
    page.id("more").click()
    until(lambda: len(page.rows("facts")) == 131, "all are shown")
    page.id("text").send_keys("value 12", Keys.ENTER)
    until(lambda: page.text("found").startswith("12 of 131"), "the search is done")
    page.id("text").clear()
    page.id("concept").send_keys("ex:C2")
    page.id("period").send_keys("2021", Keys.ENTER)
    until(
        lambda: page.rows("facts") and all(row[1:3] == ["ex:C2", "2021"] for row in page.rows("facts")),
        "concept and period are asked for",
    )


def test_an_earlier_version_is_looked_at(page: Page) -> None:
    page.open()
    page.id("text").send_keys("f3 c3", Keys.ENTER)
    until(lambda: [row[3] for row in page.rows("facts") if row[0] == "f3"] == ["better"], "it is found")
    page.js(
        """const slider = document.getElementById('slider');
        slider.value = 2;
        for (const kind of ['input', 'change']) slider.dispatchEvent(new Event(kind))"""
    )
    until(lambda: [row[3] for row in page.rows("facts") if row[0] == "f3"] == ["value 3"], "the earlier fact is shown")
    assert not page.id("follow").is_selected() and page.id("at").get_attribute("value") == "2"
    page.id("follow").click()
    until(lambda: [row[3] for row in page.rows("facts") if row[0] == "f3"] == ["better"], "the newest is shown again")


def test_what_changed_is_shown(page: Page) -> None:
    page.open()
    page.show("changes")
    page.fill("from", "2")
    page.fill("to", "4")
    page.id("compare").submit()
    until(lambda: [row[0] for row in page.rows("changes")] == ["changed", "removed"], "two changes")
    assert page.rows("changes")[0][3].startswith("value 3") and page.rows("changes")[0][4].startswith("better")
    page.fill("to", "2")
    page.id("compare").submit()
    until(lambda: page.text("differs") == "Versions 2 and 2 do not differ.", "no change")


def test_a_fact_has_its_history(page: Page) -> None:
    page.open()
    page.id("text").send_keys("f3 c3", Keys.ENTER)
    until(lambda: len(page.rows("facts")) < 100, "the search is done")
    page.press("History of f3")
    page.drawn("history")
    assert [row[:2] for row in page.rows("history")] == [["1", "loaded"], ["3", "changed"]]
    assert page.rows("history")[0][2] == "guest" and page.rows("history")[1][4].endswith("/2")
    page.fill("traced", "nobody")
    page.id("trace").submit()
    until(lambda: "no version has a fact" in page.text("problem"), "it is told that there is none")


def test_who_met_whom_is_drawn(page: Page) -> None:
    page.open()
    page.show("sessions")
    until(
        lambda: page.js("const i = document.querySelector('#picture img'); return i && i.naturalWidth"),
        "the picture is there",
    )
    met = [row for row in page.rows("sessions") if row[0].endswith("/1")][0]
    assert met[5] == "conflict with version 3 on the fact f3 of annual" and met[6].endswith("/2")


def test_commits_come_while_the_page_is_open(page: Page) -> None:
    page.open()
    page.show("commits")
    client = page.office.client()
    before = page.office.get("/seal").json["version"]
    client.ask(["open", "s", "amend"], ["add", "s", "annual", "live", fact("Live", "now")], ["commit", "s"])
    until(lambda: page.rows("commits")[0][0] == str(before + 1), "the commit is shown")
    until(lambda: f"version {before + 1}: commit by " in page.text("newest"), "the newest version is told")
    assert f"version {before + 1}" in page.js("return document.getElementById('said').textContent")
    page.press(f"What version {before + 1} changed")
    until(lambda: [row[:3] for row in page.rows("changes")] == [["added", "annual", "live"]], "what changed")
    client.close()


def write(page: Page, **fields: str) -> None:
    for name, text in fields.items():
        page.fill(f"f-{name}", text)


def test_a_fact_is_added_and_replaced(page: Page) -> None:
    page.open()
    page.show("amend")
    write(page, id="new", concept="ex:New", value="one", others="ex:Part=ä\nex:Typed", period="2024")
    page.id("f-put").click()
    until(lambda: "Committed: new is in version" in page.text("outcome"), "it is committed")
    kept = page.office.get("/reports/annual/facts?text=ex:new").json["facts"][0]["fact"]
    assert kept == {
        "dimensions": {"concept": "ex:New", "ex:Part": "ä", "ex:Typed": None, "period": "2024"},
        "value": "one",
    }
    page.show("facts")
    page.id("text").send_keys("ex:New", Keys.ENTER)
    until(lambda: [row[0] for row in page.rows("facts")] == ["new"], "it is found")
    page.press("Replace new")
    page.drawn("amend")
    page.fill("f-value", "two")
    page.id("f-put").click()
    until(lambda: "Committed" in page.text("outcome"), "it is replaced")
    assert page.office.get("/reports/annual/facts/new/history").json["history"][-1]["fact"] == kept | {"value": "two"}


def test_refusals_have_their_reason(page: Page) -> None:
    page.open()
    page.show("amend")
    write(page, id="f6", concept="ex:New", value="x")
    page.id("f-put").click()
    until(
        lambda: "Refused" in page.text("outcome") and "the fact f6 of annual" in page.text("outcome"),
        "there is such a fact",
    )
    page.press("Replace f6 as it is now")
    assert page.id("f-value").get_attribute("value") == "value 6"
    client = page.office.client()
    client.ask(["open", "s", "amend"], ["remove", "s", "annual", "f6"], ["commit", "s"])
    page.fill("f-value", "mine")
    page.id("f-put").click()
    until(lambda: "no such fact" in page.text("outcome"), "somebody has removed it meanwhile")
    page.id("f-new").click()
    write(page, id="bad", concept="zz:Unbound", value="x")
    page.id("f-put").click()
    until(lambda: "a name has no prefix that the report binds" in page.text("outcome"), "the reason is told")
    client.close()


def test_hostile_texts_stay_texts(page: Page) -> None:
    page.open()
    page.choose(NAME)
    until(lambda: [row[3] for row in page.rows("facts")] == [HOSTILE], "the report of a hostile name")
    page.choose("annual")
    page.id("text").send_keys("onerror", Keys.ENTER)
    until(lambda: [row[0] for row in page.rows("facts")] == [HOSTILE], "the hostile fact")
    assert page.rows("facts")[0][2:4] == [HOSTILE, HOSTILE]
    page.js("trace(arguments[0])", HOSTILE)
    until(lambda: len(page.rows("history")) == 1 and HOSTILE in page.rows("history")[0][5], "its history")
    page.js("edit(arguments[0], {value: arguments[0], dimensions: {concept: arguments[0]}})", HOSTILE)
    page.drawn("amend")
    page.id("f-put").click()
    until(lambda: "Refused" in page.text("outcome"), "it is refused")
    for view in ("commits", "sessions", "changes"):
        page.show(view)
    assert page.js("return document.querySelectorAll('main script, main b, main img[src=x]').length") == 0


def test_the_keyboard_is_enough(page: Page) -> None:
    page.open()
    page.js("document.activeElement.blur()")
    names = []
    for _ in range(16):
        page.driver.switch_to.active_element.send_keys(Keys.TAB)
        names.append(page.js("const e = document.activeElement; return e.id || e.hash || e.textContent"))
    assert names[:11] == [
        "#main",
        "#facts",
        "#changes",
        "#history",
        "#sessions",
        "#commits",
        "#amend",
        "report",
        "slider",
        "at",
        "follow",
    ], names
    assert names[11:15] == ["text", "concept", "period", "Search"], names
    page.id("slider").send_keys(Keys.HOME)
    until(lambda: page.text("found") == "Version 0 has no report.", "version 0 by the keyboard")
    page.driver.find_element(By.CSS_SELECTOR, "nav a[href='#commits']").send_keys(Keys.ENTER)
    page.drawn("commits")
    assert page.js("return document.activeElement.id") == "main"


def test_a_screen_reader_finds_its_way(page: Page) -> None:
    page.open()
    for view in ("facts", "changes", "history", "sessions", "commits", "amend"):
        page.show(view)
        nameless = page.js(
            """return [...document.querySelectorAll('input, select, textarea, button, img')]
            .filter(e => e.checkVisibility())
            .filter(e => !(e.labels && e.labels.length) && !e.ariaLabel && !e.textContent.trim() && !e.alt)
            .map(e => e.outerHTML)"""
        )
        assert nameless == []
        assert page.js("return document.querySelectorAll('main section:not([hidden]) h2').length") == 1
        assert page.js("return document.querySelector('nav a[aria-current=page]').hash") == f"#{view}"
        assert page.js(
            "return [...document.querySelectorAll('table')].every(t => t.caption && t.querySelectorAll('th[scope=col]').length)"
        )
    assert page.js("return document.documentElement.lang") == "en"
    tree = page.driver.execute_cdp_cmd("Accessibility.getFullAXTree", {})["nodes"]
    roles = {node["role"]["value"] for node in tree}
    assert {"navigation", "main", "heading", "status", "form", "link", "textbox"} <= roles


@pytest.mark.parametrize("width", SIZES)
def test_each_view_fits_its_screen(page: Page, width: int, request: pytest.FixtureRequest) -> None:
    page.open(width)
    shots = os.environ.get("SHOTS")
    for view in ("facts", "changes", "history", "sessions", "commits", "amend"):
        page.show(view)
        if view == "history":
            page.js("trace('f3'); document.getElementById('trace').requestSubmit()")
            until(lambda: page.rows("history"), "a history")
        assert page.js("return document.documentElement.scrollWidth") <= width, view
        if shots:
            page.driver.save_screenshot(f"{shots}/{view}-{width}.png")
    if width < 720:
        page.show("facts")
        page.driver.execute_cdp_cmd("Accessibility.enable", {})
        roles = [
            node["role"]["value"] for node in page.driver.execute_cdp_cmd("Accessibility.getFullAXTree", {})["nodes"]
        ]
        assert "table" in roles and "row" in roles and "cell" in roles  # cards are a table still


def test_nothing_is_fetched_from_elsewhere(page: Page) -> None:
    page.open()
    for view in ("sessions", "commits"):
        page.show(view)
    fetched = page.js("return performance.getEntriesByType('resource').map(e => e.name)")
    assert fetched and all(name.startswith(page.office.url) for name in fetched)


def test_an_office_that_is_gone_is_told(page: Page, start: Callable[..., Office], driver: Any) -> None:
    office = start()
    gone = Page(driver, office)
    gone.open()
    assert gone.text("found") == "Version 0 has no report."
    office.stop()
    until(lambda: gone.text("state") == "not connected", "the page says so")
    gone.js("document.getElementById('search').requestSubmit(); draw()")
    again = start()
    assert again.get("/").status == 200
    driver.get_log("browser")
    try:
        driver.get("about:blank")
    except WebDriverException:
        pass
    assert WAIT
