"""The page over a store in Chromium: its picture is what the store has, it defines, drops and asks, tells a refusal
where it is seen, and lays nothing over another thing. It needs Debian's chromium-driver and python3-selenium."""

import json
import pathlib
import shutil
import urllib.request
from collections.abc import Iterator
from typing import Any

import pytest
from osgeo import gdal

from overlayd.program import Server

from . import test_register_page, testing
from .test_process import running
from .test_register_page import SIZE, Page
from .testing import SHIFTED, SQUARE

pytestmark = [pytest.mark.live, pytest.mark.skipif(shutil.which("chromedriver") is None, reason="no chromedriver")]
driver = test_register_page.driver
EDGES = (0, 5, 10, 15)  # of the squares A and B, from 0 to 10 and from 5 to 15 both ways
STEP, NEAR = 23, 4  # pixels between points that are looked at, and from an edge at which none is
# Of each point of the map its pixel and its place in the world; and the layers that are seen, as they are drawn.
POINTS = f"""(() => {{ const {{map}} = overlayPage.plot, size = map.getSize(), found = [];
  for (let y = 11; y < size.y - 6; y += {STEP}) for (let x = 11; x < size.x - 6; x += {STEP}) {{
    const at = map.containerPointToLatLng([x + .5, y + .5]); found.push([x, y, at.lng, at.lat]); }}
  const near = map.containerPointToLatLng([{NEAR}, 0]).lng - map.containerPointToLatLng([0, 0]).lng;
  return [near, found]; }})()"""
LAYERS = """[...overlayPage.layers].map(layer => [layer.id, overlayPage.plot.drawn.get(layer.id)])
  .filter(([name]) => !overlayPage.plot.hidden.has(name))
  .sort(([, a], [, b]) => a.derived - b.derived)
  .map(([name, {shape}]) => [name, shape.options.color, shape.options.fillOpacity])"""
BARE = """for (const one of document.querySelectorAll('.leaflet-control-container, .leaflet-lines-pane, '
  + '.leaflet-marker-pane, .leaflet-popup-pane, .leaflet-overlay-pane')) one.style.visibility = '%s'"""
# What an eye would find wrong: texts that lie over one another, are cut off, or go out of the window.
FAULTS = """(() => { const found = [], seen = element => { const box = element.getBoundingClientRect();
    const within = element.closest('aside').getBoundingClientRect();
    return box.width > 0 && box.top >= within.top - 1 && box.bottom <= within.bottom + 1; };
  const leaves = [...document.querySelectorAll('aside *')].filter(one => seen(one) && one.checkVisibility()
    && (one.matches('input, button') || [...one.childNodes].some(node => node.nodeType === 3 && node.data.trim())));
  const text = one => `${one.tagName} ${(one.value ?? one.textContent).trim().slice(0, 30)}`;
  leaves.forEach((one, place) => { const a = one.getBoundingClientRect();
    if (a.left < -1 || a.right > innerWidth + 1) found.push(`${text(one)}: out of the window`);
    if (!one.matches('input') && one.scrollWidth > one.clientWidth + 1 && one.clientWidth)
      found.push(`${text(one)}: cut`);
    for (const other of leaves.slice(place + 1)) {
      if (getComputedStyle(one.closest('.tools') ?? one).opacity === '0' || other.closest('.tools')) continue;
      const meets = [...one.getClientRects()].some(c => [...other.getClientRects()].some(d =>
        Math.min(c.right, d.right) - Math.max(c.left, d.left) > 1
        && Math.min(c.bottom, d.bottom) - Math.max(c.top, d.top) > 1));
      if (meets && !one.contains(other) && !other.contains(one)) found.push(`${text(one)} over ${text(other)}`); } });
  const map = document.getElementById('map').getBoundingClientRect();
  for (const popup of document.querySelectorAll('.leaflet-popup')) { const box = popup.getBoundingClientRect();
    if (box.left < map.left - 1 || box.right > map.right + 1 || box.top < map.top - 1)
      found.push('a popup out of the map'); }
  if (document.documentElement.scrollWidth > innerWidth) found.push('the page is wider than the window');
  return found; })()"""


@pytest.fixture
def page(driver: Any, tmp_path: pathlib.Path) -> Iterator[Page]:
    """The page over a store of two squares, what both have and what one of them has."""
    store = tmp_path / "map.db"
    with Server(store, create=True, program=testing.PROGRAM) as server:
        server.sessions[0].batch([f"PUT A {SQUARE}", f"PUT B {SHIFTED}", "DEFINE both = A & B", "DEFINE one = A ^ B"])
    with running("--store", store, "--writable") as (_, address):
        found = Page(driver, address)
        opened(found)
        yield found
        driver.get("about:blank")


def send(address: str, method: str, path: str, body: object) -> None:
    """A change by another client."""
    asked = urllib.request.Request(f"{address}{path}", json.dumps(body).encode(), {"Content-Type": "application/json"},
                                   method=method)
    urllib.request.urlopen(asked).close()


def opened(page: Page) -> None:
    page.open()
    page.until("overlayPage.layers.length > 0 && overlayPage.plot.drawn.size === overlayPage.layers.length")


def check_picture(page: Page) -> None:
    """Whether each point has the colour of the layers that have it, and all kinds of points occur."""
    page.value(BARE % "hidden")
    gdal.FileFromMemBuffer("/vsimem/page.png", page.driver.get_screenshot_as_png())
    picture, layers = gdal.Open("/vsimem/page.png").ReadAsArray(), page.value(LAYERS)
    page.value(BARE % "")
    near, points = page.value(POINTS)
    found = set()
    for x, y, *place in points:
        if any(abs(own - edge) < near for own in place for edge in EDGES):
            continue
        a, b = (all(edge < own < edge + 10 for own in place) for edge in (0, 5))
        colour: tuple[float, ...] = (0xF5, 0xF7, 0xF9)
        for _, paint, opacity in (layer for layer in layers if {"A": a, "B": b, "both": a & b, "one": a ^ b}[layer[0]]):
            parts = [int(paint[at : at + 2], 16) for at in (1, 3, 5)]
            colour = tuple(opacity * part + (1 - opacity) * under for part, under in zip(parts, colour))
        assert max(abs(int(own) - wanted) for own, wanted in zip(picture[:3, y, x], colour)) <= 4, (place, colour)
        found.add((a, b))
    assert len(found) == 4


def fill(page: Page, form: str, **words: str) -> None:
    """Fills a form, and sends it."""
    page.value(f"(() => {{ const form = document.getElementById('{form}'); for (const [name, value] of Object.entries("
               f"{json.dumps(words)})) form.elements[name].value = value; form.requestSubmit(); }})()")


def check_refused(page: Page, place: str, text: str) -> None:
    """Whether a refusal stands in its place, and an eye sees it there without scrolling."""
    page.until(f"document.getElementById('{place}').classList.contains('bad')")
    assert text in page.text(place)
    assert page.value(f"""(() => {{ const told = document.getElementById('{place}'), box = told.getBoundingClientRect();
        return [3, box.height - 3].every(y => told.contains(document.elementFromPoint(box.left + 3, box.top + y)));
        }})()"""), place


def test_its_picture_is_what_the_store_has_and_a_click_is_answered(page: Page) -> None:
    check_picture(page)
    page.value("document.querySelector('#layers li:nth-child(4) input').click()")
    check_picture(page)
    fill(page, "asking", x="15/2", y="10")
    page.until("document.querySelectorAll('#places tr').length === 4")
    assert page.text("places").split() == ["A", "edge", "B", "in", "both", "edge", "one", "edge"]
    page.value("void overlayPage.plot.map.fire('click', {latlng: L.latLng(12, 12)})")
    page.until("document.getElementById('places').innerText.split(/\\s+/).join() === 'A,out,B,in,both,out,one,in'")


def test_a_layer_is_defined_and_dropped_and_what_another_defines_is_drawn(page: Page) -> None:
    assert "version 1" in page.text("status") and "durable 1" in page.text("status")
    fill(page, "define", id="N", definition="A - B")
    page.until("/N is built/.test(document.getElementById('told-define').textContent)")
    page.until("document.getElementById('columns').hidden && overlayPage.plot.drawn.has('N')")
    page.value("[...document.querySelectorAll('#layers button')].at(-1).click()")
    page.until("/N is dropped/.test(document.getElementById('told-layers').textContent)")
    assert page.value("[...overlayPage.plot.drawn.keys()].sort()") == ["A", "B", "both", "one"]
    send(page.address, "PUT", "collections/either", {"definition": "A | B"})
    page.until("overlayPage.plot.drawn.has('either')")
    assert "version 4" in page.text("status")


def test_a_refusal_is_seen_beside_what_was_refused_though_the_panel_is_long(page: Page) -> None:
    many = [{"define": f"L{number}", "definition": "A"} for number in range(25)]
    send(page.address, "POST", "batch", {"commands": many})
    opened(page)
    fill(page, "define", id="M", definition="A - nowhere")
    check_refused(page, "told-define", "error 10 unknown layer")
    fill(page, "asking", x="1", y="x")
    check_refused(page, "told-asking", "y: a number is wanted")
    page.value("document.querySelector('#layers li:nth-child(1) button[title^=drop]').click()")
    check_refused(page, "told-layer-A", "error 14")


@pytest.mark.parametrize("width, height", [(SIZE["width"], SIZE["height"]), (420, 900)])
def test_nothing_lies_over_another_thing(page: Page, width: int, height: int) -> None:
    fill(page, "asking", x="7", y="7")
    page.until("document.querySelectorAll('#places tr').length === 4")
    page.driver.execute_cdp_cmd("Emulation.setDeviceMetricsOverride", SIZE | {"width": width, "height": height})
    page.until(f"innerWidth === {width}")
    page.until(f"{FAULTS}.length === 0")  # once the map has taken its room
    page.driver.execute_cdp_cmd("Emulation.setDeviceMetricsOverride", SIZE)


def test_a_front_that_reads_offers_no_change(driver: Any, tmp_path: pathlib.Path) -> None:
    with running("--store", testing.square_store(tmp_path)) as (_, address):
        page = Page(driver, address)
        opened(page)
        assert page.value("[document.getElementById('defining').hidden, "
                          "document.querySelectorAll('#layers button[title^=drop]').length]") == [True, 0]
        assert "read only" in page.text("status")
        driver.get("about:blank")
