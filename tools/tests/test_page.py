"""The page of a report in a browser: it opens, steps, and says what the report says."""
from __future__ import annotations

import importlib.util
import re
import shutil
from pathlib import Path

import pytest
from conftest import Smv

from smv_tools.report import Report

MODEL = "examples/philosophers.smv"
HAS_REPORT = all(importlib.util.find_spec(f"smv_tools.reports.{it}") for it in ("command", "page"))
HAS_BROWSER = shutil.which("chromium") and shutil.which("chromedriver") and importlib.util.find_spec("selenium")

pytestmark = pytest.mark.skipif(not HAS_REPORT or not importlib.util.find_spec("jinja2"), reason="no report or no jinja2 here")


@pytest.fixture(scope="module")
def page(smv: Smv, tmp_path_factory: pytest.TempPathFactory) -> Path:
    out = tmp_path_factory.mktemp("page") / "page.html"
    assert smv("report", MODEL, "-o", str(out)).returncode == 1
    return out


def test_the_page_asks_for_no_network(page: Path) -> None:
    text = page.read_text()
    assert not re.search(r"(?:src|href)=\"(?!#)", text) and "@import" not in text


@pytest.mark.skipif(not HAS_BROWSER, reason="no chromium, chromedriver or selenium here")
def test_a_browser_steps_through_a_path(smv: Smv, page: Path) -> None:
    from selenium import webdriver
    from selenium.webdriver.common.by import By
    from selenium.webdriver.common.keys import Keys
    from selenium.webdriver.chrome.service import Service

    options = webdriver.ChromeOptions()
    for word in ("--headless=new", "--no-sandbox", "--disable-dev-shm-usage", "--disable-gpu", "--window-size=1200,1400"):
        options.add_argument(word)
    browser = webdriver.Chrome(options=options, service=Service(shutil.which("chromedriver")))
    try:
        browser.get(page.as_uri())
        report = Report.read(smv("check", MODEL).stdout.encode())
        sections = browser.find_elements(By.CSS_SELECTOR, "section.spec")
        assert [it.get_attribute("data-verdict") for it in sections] == [it.verdict for it in report.parts]
        place, part = next((k, it) for k, it in enumerate(report.parts) if it.trace and it.trace.loop is not None)
        assert part.trace
        stepper = sections[place].find_element(By.CSS_SELECTOR, ".stepper")
        for k, state in enumerate(part.trace.states):
            rows = [[cell.text for cell in row.find_elements(By.TAG_NAME, "td")]
                    for row in stepper.find_elements(By.CSS_SELECTOR, ".values tr")]
            assert {name: value for name, value, _ in rows if name in state} == {name: str(it) for name, it in state.items()}
            changed = {name for name, _, word in rows if word and name in state}
            assert changed == {name for name in state if part.trace.changed(k, name)}
            assert f"State {k} of" in stepper.find_element(By.CSS_SELECTOR, ".where").text
            if k + 1 < len(part.trace.states):
                stepper.send_keys(Keys.ARROW_RIGHT)
        stepper.find_element(By.CSS_SELECTOR, "[data-go=next]").click()
        assert f"State {part.trace.loop} of" in stepper.find_element(By.CSS_SELECTOR, ".where").text
        stepper.find_element(By.CSS_SELECTOR, "[data-go=mark]").click()
        assert "here it is decided" in stepper.find_element(By.CSS_SELECTOR, ".where").text
    finally:
        browser.quit()
