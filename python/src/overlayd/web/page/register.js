// The page of a register: a map of tiles, what breaks rules, one feature chosen, its corners, and what others change.

import {ask, at, button, make, tell, telling} from "./ask.js";
import {Chosen} from "./chosen.js";
import {measure} from "./graticule.js";
import {makeTiles, spent} from "./tiles.js";
import {Violations} from "./violations.js";

const LOOKS = 1000;    // milliseconds between two looks at what has changed
const LINES = ["#8a8578", "#2b6cb0", "#2f7d4f", "#7a4fa0", "#8a5a2b", "#3b7f8c"], PALE = ["#a8a395", "#7fa6cf", "#86b79b", "#b198c9", "#bd9f80", "#8cb3bb"];

class Page {
  constructor(state) {
    this.state = state;
    this.spent = spent;
    // The smallest features lie lowest, and are filled; those of other layers are lines over them.
    this.layers = state.layers.filter(layer => layer.count).sort((a, b) => a.wide - b.wide);
    const boxes = this.layers.map(layer => layer.box), [west, south] = [0, 1].map(k => Math.min(...boxes.map(box => box[k])));
    const [east, north] = [2, 3].map(k => Math.max(...boxes.map(box => box[k])));
    this.box = boxes.length ? [west, south, east, north] : [0, 0, 1, 1];
    const side = Math.max(this.box[2] - this.box[0], this.box[3] - this.box[1], state.grid);
    this.map = L.map("map", {crs: L.CRS.Simple, minZoom: Math.floor(Math.log2(300 / side)), maxZoom: Math.ceil(Math.log2(8 / state.grid)),
      attributionControl: false, fadeAnimation: false, keyboardPanDelta: 120});
    this.fit(this.box, 0.02);
    this.pen = L.canvas({padding: 0.3});
    this.tiles = new Map(this.layers.map((layer, k) => {
      const look = {fill: k ? null : "#fbf9f2", line: LINES[k % LINES.length], pale: PALE[k % PALE.length], width: k ? 1.6 : 1};
      return [layer.name, makeTiles(layer.name, look, {minZoom: layer.first, maxZoom: 64, zIndex: k + 2}).addTo(this.map)];
    }));
    measure(this.map, state.unit);
    this.map.on("zoomend", () => this.shade());
    new ResizeObserver(() => this.map.invalidateSize({animate: false})).observe(this.map.getContainer());
  }

  // An area in words.
  area(value) {
    if (value === null || value === undefined) return "no answer";
    return this.squared(value >= 1e-3 || value === 0 ? value.toFixed(value >= 1 ? 2 : 4) : value.toExponential(2));
  }

  squared = text => this.state.unit ? `${text} ${this.state.unit}²` : text;

  // A position as the front sends it, as Leaflet has it.
  placed = ([a, b]) => this.state.y_first ? L.latLng(a, b) : L.latLng(b, a);
  position = ({lng, lat}) => this.state.y_first ? [lat, lng] : [lng, lat];

  shape(geometry, look) {
    return L.geoJSON(geometry, {...look, renderer: this.pen, coordsToLatLng: this.placed, interactive: false, smoothFactor: 0});
  }

  fit([west, south, east, north], room = 0, options = {}) {
    this.map.fitBounds(L.latLngBounds([south, west], [north, east]).pad(room), {animate: false, ...options});
  }

  // The box that is to be seen, and some room about it.
  view(room = 0) {
    const box = this.map.getBounds().pad(room);
    return [box.getWest(), box.getSouth(), box.getEast(), box.getNorth()];
  }

  of = name => this.layers.find(layer => layer.name === name);

  // Where the smallest features are, as long as they cannot be drawn.
  async shade() {
    const layer = this.layers[0];
    if (!layer) return;
    const isWanted = this.map.getZoom() < layer.first && this.map.hasLayer(this.tiles.get(layer.name));
    if (isWanted && !this.ground) {
      const {x, y, side, width, height, counts} = await ask(`collections/${encodeURIComponent(layer.name)}/shade`);
      const canvas = Object.assign(make("canvas"), {width, height}), pen = canvas.getContext("2d"), image = pen.createImageData(width, height);
      const most = counts.reduce((a, b) => Math.max(a, b), 1);
      counts.forEach((count, k) => image.data.set([138, 133, 120, count ? 40 + 100 * count / most : 0], 4 * ((height - 1 - Math.floor(k / width)) * width + k % width)));
      pen.putImageData(image, 0, 0);
      this.ground = L.imageOverlay(canvas.toDataURL(), [[y, x], [y + height * side, x + width * side]], {pane: "tilePane", zIndex: 1, alt: "", className: "shade"});
    }
    if (this.ground) this.ground[isWanted ? "addTo" : "removeFrom"](this.map);
  }

  legend() {
    const shown = layer => this.map.hasLayer(this.tiles.get(layer.name));
    at("legend").replaceChildren(...this.layers.map((layer, k) => {
      const item = make("li"), label = make("label"), box = make("input"), key = make("i", "", "k");
      Object.assign(box, {type: "checkbox", checked: shown(layer), onchange: () => {
        this.tiles.get(layer.name)[box.checked ? "addTo" : "removeFrom"](this.map);
        this.shade();
      }});
      key.style.borderColor = LINES[k % LINES.length];
      label.append(box, key, make("span", `${layer.name} (${layer.count.toLocaleString("en")})`));
      item.append(label);
      return item;
    }), ...this.violations.legend());
  }

  status(pending) {
    document.title = at("title").textContent = this.state.title;
    at("status").replaceChildren(...[`version ${this.state.version}`, this.state.crs ?? "no named system", this.state.writable ? "writable" : "read only"]
      .map(text => make("span", text, "chip")), make("span", pending ? "results are being worked out" : "current", pending ? "chip warn" : "chip good"));
  }

  // The view in the address, which goes back to it.
  remember() {
    const {lng, lat} = this.map.getCenter(), digits = Math.max(0, Math.ceil(this.map.getZoom() * 0.302) + 1), {chosen} = this.chosen;
    const own = chosen ? `/${encodeURIComponent(chosen.name)}.${chosen.id}` : "";
    this.own = `#${this.map.getZoom()}/${lng.toFixed(digits)}/${lat.toFixed(digits)}${own}`;
    history.replaceState(null, "", this.own);
  }

  async recall() {
    const found = /^#(-?\d+)\/(-?[\d.]+)\/(-?[\d.]+)(?:\/([^/]+)\.(\d+))?$/.exec(location.hash);
    if (!found || location.hash === this.own) return;
    const [, zoom, x, y, name, id] = found;
    this.map.setView([Number(y), Number(x)], Number(zoom), {animate: false});
    if (name) await this.chosen.choose(decodeURIComponent(name), Number(id), false);
    this.remember();
  }

  async take({lat, lng}) {
    const found = [];
    for (const layer of this.layers) {
      if (!this.map.hasLayer(this.tiles.get(layer.name))) continue;
      const told = await ask(`collections/${encodeURIComponent(layer.name)}/locate?x=${lng}&y=${lat}`);
      found.push(...told.features.map(({id}) => ({name: layer.name, id})));
    }
    const {chosen} = this.chosen, now = chosen ? found.findIndex(one => one.name === chosen.name && one.id === chosen.id) : -1;
    if (!found.length) { this.chosen.leave(); tell("nothing there: a gap, or outside"); return; }
    const next = found[(now + 1) % found.length];    // of several in one place each click takes the next
    tell(found.length > 1 ? `${found.length} features there: click again for the next` : "");
    await this.chosen.choose(next.name, next.id, false);
  }

  async find(text) {
    const {features} = await ask(`find?text=${encodeURIComponent(text)}`);
    at("found").replaceChildren(...features.slice(0, 8).map(({collection, id, name}) => {
      const item = make("li");
      item.append(button(`${name}  (${collection})`, () => telling(() => this.chosen.choose(collection, id, true))));
      return item;
    }));
    if (!features.length) { tell(`nothing is called ${text}`, true); return; }
    tell("");
    await this.chosen.choose(features[0].collection, features[0].id, true);
  }

  // Asks each second what has changed. Changes that results do not have yet come again.
  async listen() {
    let after = this.state.last, seen = `${this.state.version} ${after}`, isSilent = false;
    for (;;) {
      await new Promise(done => setTimeout(done, LOOKS));
      if (document.hidden) continue;
      try {
        const said = await ask(`map/changes?after=${after}`, {cache: "no-store"});
        if (isSilent) tell("");
        isSilent = false;
        Object.assign(this.state, {version: said.version, last: said.last});
        this.status(said.pending);
        if (!said.pending) after = said.last;
        if (seen === (seen = `${said.version} ${said.last}`)) continue;
        await this.heard(said);
      } catch (fault) {
        isSilent = true;
        tell(`the register does not answer, so what is shown may be old: ${fault.message}`, true);
      }
    }
  }

  async heard({changes, all}) {
    this.changed = {at: performance.now(), changes};
    for (const [name, tiles] of this.tiles) {
      const boxes = changes.filter(one => one.collection === name).flatMap(one => one.boxes);
      if (all || boxes.length) tiles.again(all ? null : boxes);
    }
    await Promise.all([this.violations.show(true), this.violations.list(), this.chosen.heard(changes, all)]);
  }

  attend() {
    const {map} = this, find = at("find"), word = find.elements.text;
    map.on("moveend", () => { this.remember(); telling(() => this.violations.moved()); });
    map.on("click", ({latlng}) => telling(() => this.take(latlng)));
    map.on("mousemove", ({latlng}) => { at("under").textContent = `${latlng.lng.toFixed(2)}  ${latlng.lat.toFixed(2)}`; });
    find.onsubmit = event => { event.preventDefault(); telling(() => this.find(word.value.trim())); };
    addEventListener("hashchange", () => telling(() => this.recall()));
    const keys = {"/": () => word.focus(), n: () => this.violations.step(1), p: () => this.violations.step(-1),
      e: () => this.chosen.edit(), Escape: () => this.chosen.leave(), Enter: () => this.take(map.getCenter())};
    addEventListener("keydown", event => {
      if (event.target.closest("input, select, textarea") && event.key !== "Escape" || event.ctrlKey || event.altKey || event.metaKey) return;
      if (!keys[event.key] || event.key === "Enter" && event.target !== map.getContainer()) return;
      event.preventDefault();
      telling(keys[event.key]);
    });
  }
}

async function begin() {
  const state = await ask("map");
  if (!globalThis.L) throw new Error("Leaflet is missing: install Debian's package libjs-leaflet, or name its folder by --leaflet");
  const page = globalThis.registerPage = new Page(state);    // for scripts that look at the page
  page.violations = new Violations(page);
  page.chosen = new Chosen(page);
  page.status(false);
  page.legend();
  page.attend();
  await Promise.all([page.shade(), page.violations.show(true), page.violations.list()]);
  await page.recall();
  document.body.dataset.ready = "yes";
  page.listen();
}

telling(begin);
