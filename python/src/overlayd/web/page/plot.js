// The map: layers as polygons, the tiles of a layer while they are built, and the point that was asked.

import {ask} from "./ask.js";
import {graticule, measure} from "./graticule.js";

const COLOURS = ["#4e79a7", "#c98518", "#8a5fa8", "#3f8f5a", "#c2474a", "#2f8f8f", "#8c6445", "#c0568c"];
const ITEMS = 10000;
export const colour = place => COLOURS[place % COLOURS.length];

export class Plot {
  constructor(id, state) {
    this.state = state;
    // A position of the store's own system as Leaflet has it, y first.
    this.placed = ([a, b]) => state.y_first ? L.latLng(a, b) : L.latLng(b, a);
    this.drawn = new Map();    // name: {revision, shape, features}
    this.hidden = new Set();
    this.map = L.map(id, {
      crs: state.geographic ? L.CRS.EPSG3857 : L.CRS.Simple, minZoom: -24, maxZoom: 24, zoomSnap: 0.25, zoomDelta: 0.5,
      wheelPxPerZoomLevel: 120, attributionControl: false, fadeAnimation: false, worldCopyJump: false});
    this.fit([state.limits]);
    const pane = (name, z) => { this.map.createPane(name).style.zIndex = z; return L.canvas({pane: name, padding: 0.5}); };
    this.renderers = {lines: pane("lines", 350), base: pane("base", 410), derived: pane("derived", 420), tiles: pane("tiles", 430)};
    this.tiles = L.layerGroup().addTo(this.map);
    this.mark = L.layerGroup().addTo(this.map);
    graticule(this.map, this.renderers.lines);
    if (state.geographic) L.control.scale({imperial: false, position: "bottomright"}).addTo(this.map);
    else measure(this.map, state.unit);
    // Its room changes by what the panel below it holds as well.
    new ResizeObserver(() => this.map.invalidateSize({animate: false})).observe(this.map.getContainer());
  }

  fit(boxes) {
    const bounds = L.latLngBounds(boxes.flatMap(([x, y, right, top]) => [[y, x], [top, right]]));
    this.map.fitBounds(bounds.pad(0.06), {animate: false});
  }

  // How many digits behind the point a tenth of a pixel is told with.
  digits() {
    const y = this.map.getSize().y / 2;
    const width = this.map.containerPointToLatLng([1, y]).lng - this.map.containerPointToLatLng([0, y]).lng;
    return Math.min(9, Math.max(0, 1 - Math.floor(Math.log10(width))));
  }

  // Draws a layer at its present revision: all of its items, page by page.
  async draw(layer, place) {
    if (this.drawn.get(layer.id)?.revision === layer.revision) return;
    const features = [];
    const system = this.state.storage ? `&crs=${encodeURIComponent(this.state.storage)}` : "";
    let next = `collections/${layer.id}/items?limit=${ITEMS}${system}`, revision;
    while (next) {
      const page = await ask(next);
      features.push(...page.features);
      revision = page.revision;
      next = page.links.find(link => link.rel === "next")?.href;
    }
    this.forget(layer.id);
    const derived = Boolean(layer.definition);
    const style = {
      color: colour(place), weight: derived ? 2 : 1.25, fillOpacity: derived ? 0.4 : 0.12, fillRule: "evenodd",
      renderer: derived ? this.renderers.derived : this.renderers.base, smoothFactor: 0, interactive: false, coordsToLatLng: this.placed};
    const shape = L.geoJSON({type: "FeatureCollection", features}, style);
    this.drawn.set(layer.id, {revision, shape, place, derived, features});
    this.show(layer.id, !this.hidden.has(layer.id));
  }

  forget(name) {
    this.drawn.get(name)?.shape.remove();
    this.drawn.delete(name);
  }

  show(name, shown) {
    this.hidden[shown ? "delete" : "add"](name);
    const shape = this.drawn.get(name)?.shape;
    if (shape && shown) shape.addTo(this.map);
    else if (shape) shape.remove();
  }

  // The columns of a layer that is to be built: grey strips from where each begins.
  pending(begins) {
    const [, low, right, high] = this.state.limits;
    this.strips = begins.map((x, column) => L.rectangle([[low, x], [high, begins[column + 1] ?? right]], {
      renderer: this.renderers.tiles, interactive: false, weight: 1, color: "#a9b3bd", fillColor: "#5b6773", fillOpacity: 0.3}));
    this.strips.forEach(strip => this.tiles.addLayer(strip));
  }

  // A column that is built: its strip clears up and shows its part of the boundary.
  tile({column, lines}) {
    this.strips[column].setStyle({fillOpacity: 0.03});
    this.tiles.addLayer(L.polyline(lines.map(line => line.map(([x, y]) => [y, x])), {
      renderer: this.renderers.tiles, interactive: false, smoothFactor: 0, color: "#1d7d4f", weight: 2}));
  }

  // Marks the point that was asked, and tells what is there.
  asked([x, y], contents) {
    this.told([x, y], contents);
    L.circleMarker([y, x], {radius: 5, weight: 2, color: "#1d2733", fillColor: "#fff", fillOpacity: 1, interactive: false}).addTo(this.mark);
  }

  told([x, y], contents) {
    const box = document.createElement("div");
    box.append(...contents);
    this.mark.clearLayers();
    L.popup({closeButton: false, offset: [0, -2], autoPan: false}).setLatLng([y, x]).setContent(box).addTo(this.mark);
  }
}
