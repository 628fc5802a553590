"""The page over a register in Chromium: it draws, takes clicks and keys, lists and accepts violations, moves corners,
and shows what others change. It needs Debian's chromium-driver and python3-selenium."""

import shutil
import subprocess
import time
from collections.abc import Iterator
from pathlib import Path
from typing import Any

import pytest

from overlayd.register.model import Must
from overlayd.register.package import GeoPackage
from overlayd.register.registers import Register
from overlayd.register.ruling import add_rule

from . import register_works as works
from .common import OVERLAY, SECONDS, SOURCES, Programs
from .register_works import PAIRS, land
from .test_register_transactions import box

pytestmark = [pytest.mark.features, pytest.mark.skipif(shutil.which("chromedriver") is None, reason="no chromedriver")]
SIZE = {"width": 1280, "height": 800, "deviceScaleFactor": 1, "mobile": False}
MARKUP = "<img src=x onerror=alert(1)>"
FLAGS = ("--headless=new", "--no-sandbox", "--disable-gpu", "--disable-dev-shm-usage")
Owned = tuple["Page", GeoPackage]


class Page:
    """The page in a browser."""

    def __init__(self, driver: Any, address: str) -> None:
        self.driver, self.address = driver, address
        driver.execute_cdp_cmd("Emulation.setDeviceMetricsOverride", SIZE)

    def open(self, view: str = "") -> None:
        self.driver.get("about:blank")
        self.driver.get(f"{self.address}{view}")
        self.until("document.body.dataset.ready === 'yes'")

    def value(self, text: str) -> Any:
        """What a text of JavaScript comes to; the page forbids `eval`, by which selenium's own way takes it."""
        words = {"expression": text, "returnByValue": True, "awaitPromise": True}
        found = self.driver.execute_cdp_cmd("Runtime.evaluate", words)
        assert "exceptionDetails" not in found, (text, found)
        return found["result"].get("value")

    def until(self, text: str) -> None:
        """Waits until it is so."""
        end = time.monotonic() + SECONDS
        while not self.value(f"Boolean({text})"):
            assert time.monotonic() < end, (text, self.told(), self.driver.get_log("browser"))
            time.sleep(0.02)

    def told(self) -> str:
        return str(self.value("document.getElementById('told').textContent"))

    def text(self, name: str) -> str:
        return str(self.value(f"document.getElementById('{name}').innerText"))

    def keys(self, *words: str) -> None:
        self.driver.switch_to.active_element.send_keys(*words)

    def click(self, text: str) -> None:
        """The button with a text."""
        self.value(f"[...document.querySelectorAll('button')].find(one => one.innerText.startsWith('{text}')).click()")


@pytest.fixture(scope="module")
def driver(tmp_path_factory: pytest.TempPathFactory) -> Iterator[Any]:
    webdriver: Any = pytest.importorskip("selenium.webdriver")
    options = webdriver.ChromeOptions()
    for word in (*FLAGS, f"--user-data-dir={tmp_path_factory.mktemp('profile')}"):
        options.add_argument(word)
    made = webdriver.Chrome(options=options)
    yield made
    made.quit()


@pytest.fixture
def page(driver: Any, tmp_path: Path) -> Iterator[Owned]:
    """Two rows of parcels over a zone, one of them 2 m over its neighbour, and the page over them."""
    own = land(tmp_path / "land.gpkg", 1, (PAIRS,), parcels=0, zones=0)
    engine = GeoPackage(str(own.path), writes_layers=True)
    for number, (x, y) in enumerate([(x, y) for y in (0, 10) for x in (0, 10, 20)], 1):
        engine.ask("INSERT INTO parcels (geom, nr) VALUES (?, ?)", works.blob(box(x, y, x + 10, y + 10)), f"p{number}")
    engine.ask("INSERT INTO zones (geom, nr) VALUES (?, ?)", works.blob(box(0, 0, 30, 20)), MARKUP)
    engine.ask("UPDATE parcels SET geom = ? WHERE fid = 3", works.blob(box(18, 0, 30, 10)))
    own.register.engine.close()
    own.register = Register(engine)
    own.refresh()
    add_rule(own.register, Must.NOT_OVERLAP, "parcels", None, own.program)
    words = [*OVERLAY, "serve", str(own.path), "--writable", "--port", "0", "--program", str(Programs.features)]
    run = subprocess.Popen(words, stdout=subprocess.PIPE, stderr=subprocess.DEVNULL, text=True, env=SOURCES)
    assert run.stdout is not None
    try:
        made = Page(driver, run.stdout.readline().strip())
        made.open()
        yield made, engine
        driver.get("about:blank")
    finally:
        run.terminate()
        run.wait(SECONDS)


def pixel(x: float, y: float) -> str:
    """The colour of the parcels' tile at a place, as numbers of red, green, blue and alpha."""
    at = f"registerPage.map.latLngToContainerPoint([{works.NORTH + y}, {works.EAST + x}])"
    return f"""(() => {{ const p = {at}.add(registerPage.map.getContainer().getBoundingClientRect());
      for (const canvas of document.querySelectorAll('.leaflet-tile-pane canvas')) {{
        const box = canvas.getBoundingClientRect();
        if (p.x < box.left || p.y < box.top || p.x >= box.right || p.y >= box.bottom) continue;
        const found = [...canvas.getContext('2d').getImageData(p.x - box.left, p.y - box.top, 1, 1).data];
        if (found[3] === 255) return found.join(); }}
      return ''; }})()"""


def test_it_draws_takes_a_click_and_shows_texts_as_they_are(page: Owned) -> None:
    own, _ = page
    own.until(f"{pixel(5, 4)} === '251,249,242,255'")
    assert own.value(pixel(35, 5)) == ""
    own.value(f"registerPage.take({{lng: {works.EAST + 5}, lat: {works.NORTH + 5}}})")
    assert "p1" in own.text("chosen") and "100 m²" in own.text("chosen") and "zones 1" in own.text("chosen")
    own.value(f"registerPage.take({{lng: {works.EAST + 5}, lat: {works.NORTH + 5}}})")
    assert own.value("registerPage.chosen.chosen.name") == "zones" and MARKUP in own.text("chosen")
    assert own.value("document.querySelectorAll('aside img').length") == 0
    own.value(f"registerPage.take({{lng: {works.EAST + 50}, lat: {works.NORTH + 5}}})")
    assert own.value("document.getElementById('chosen').hidden")


def test_by_keys_alone_a_violation_is_found_and_accepted_and_the_address_leads_back(page: Owned) -> None:
    own, engine = page
    assert "p2 and p3" in own.text("violations")
    own.keys("n")
    own.until("registerPage.chosen.chosen !== null")
    assert "p2 and p3" in own.told() and own.value("location.hash").endswith("/parcels.2")
    view = own.value("location.hash")
    own.value("document.querySelector('#accepting input').focus()")
    own.keys(MARKUP, "\ue007")
    own.until("document.getElementById('violations').children.length === 0")
    assert engine.ask("SELECT why FROM overlay_violation") == [(MARKUP,)]
    own.open(view)
    assert own.value("location.hash") == view and own.value("registerPage.chosen.chosen.id") == 2
    own.value("document.getElementById('accepted').click()")
    own.until("document.getElementById('violations').children.length === 1")
    own.value("document.activeElement.blur()")
    own.keys("/")
    own.keys("p5", "\ue007")
    own.until("registerPage.chosen.chosen.id === 5")
    own.keys("\ue00c")
    own.until("registerPage.chosen.chosen === null")


def test_a_corner_is_moved_for_all_or_refused_and_undone_whole(page: Owned) -> None:
    own, engine = page
    before = engine.ask("SELECT geom FROM parcels")
    own.value("registerPage.chosen.choose('parcels', 1, true)")
    own.keys("e")
    own.until("document.activeElement.ariaLabel === 'corner 1 of 4'")
    own.value(f"""registerPage.chosen.corners.handles.getLayers().find(one => one.getLatLng().equals(
        [{works.NORTH + 10}, {works.EAST + 10}])).getElement().focus()""")
    own.keys("\ue014" * 20)  # 2 m to the right
    own.until("/^Corner 2 m away, shared by p1, p2, p4, p5/.test(document.getElementById('saving')?.textContent)")
    own.value("document.getElementById('only').click()")
    own.click("Save")
    own.until("document.getElementById('told').className.includes('bad')")
    assert "p1 and p2: 10.00 m²" in own.told() and engine.ask("SELECT geom FROM parcels") == before
    own.value("document.getElementById('only').click()")
    own.click("Save")
    own.until("document.getElementById('told').textContent.startsWith('saved: 4 features')")
    assert len({change for change, in engine.ask("SELECT change FROM overlay_log ORDER BY id DESC LIMIT 4")}) == 1
    own.until("document.getElementById('chosen').innerText.includes('110 m²')")
    own.click("Undo")
    own.until("document.getElementById('told').textContent.includes('is undone: 4 features')")
    assert engine.ask("SELECT geom FROM parcels") == before


def test_what_another_changes_is_drawn_and_told(page: Owned) -> None:
    own, engine = page
    own.until(f"{pixel(5, 4)} === '251,249,242,255'")
    own.value("registerPage.chosen.choose('parcels', 1, false)")
    engine.ask("UPDATE parcels SET geom = ? WHERE fid = 1", works.blob(box(2, 5, 10, 10)))
    own.until("document.getElementById('chosen').innerText.includes('40 m²')")
    own.until(f"{pixel(5, 4)} === ''")
    own.keys("e")
    own.until("document.activeElement.ariaLabel === 'corner 1 of 4'")
    own.keys("\ue012")
    own.until("document.getElementById('saving')")
    engine.ask("UPDATE parcels SET geom = ? WHERE fid = 1", works.blob(box(3, 5, 10, 10)))
    own.until("document.getElementById('told').textContent.includes('has just been changed by another program')")
    own.click("Save")
    own.until("document.getElementById('told').textContent.includes('has been changed since')")
