// One feature: what it is, what it overlaps, what was done to it.

import {ask, at, button, make, send, tell, telling} from "./ask.js";
import {Corners} from "./corners.js";
import {meets} from "./tiles.js";
import {rowsOf} from "./violations.js";

function table(rows) {
  const made = make("table");
  for (const cells of rows) {
    made.insertRow().append(...cells.map(cell => { const td = make("td"); td.append(cell); return td; }));
  }
  return made;
}

// The area of a geometry in whole units of the grid, as a text in those of the layers with all its digits.
export function areaOf({type, coordinates}, grid) {
  const whole = value => BigInt(Math.round(value / grid));
  let twice = 0n;
  for (const rings of type === "Polygon" ? [coordinates] : coordinates) {
    rings.forEach((ring, k) => {
      let sum = 0n;
      for (let i = 1; i < ring.length; i++) sum += whole(ring[i - 1][0]) * whole(ring[i][1]) - whole(ring[i][0]) * whole(ring[i - 1][1]);
      twice += (sum < 0n ? -sum : sum) * (k ? -1n : 1n);
    });
  }
  const digits = Math.round(-Math.log10(grid) * 2);    // after the point of a square unit
  if (Math.abs(10 ** (-digits / 2) - grid) > 1e-12 || digits < 0) return String(Number(twice) / 2 * grid * grid);
  const text = String(twice * 5n).padStart(digits + 2, "0");
  return `${text.slice(0, -digits - 1)}.${text.slice(-digits - 1)}`.replace(/\.?0+$/, "");
}

export class Chosen {
  constructor(page) {
    this.page = page;
    this.chosen = null;    // {name, id, geometry, properties, ..}
    this.marked = L.layerGroup().addTo(page.map);
    this.corners = new Corners(page, this);
  }

  path = (name, id) => `collections/${encodeURIComponent(name)}/items/${id}`;
  system = () => this.page.state.storage ? `?crs=${encodeURIComponent(this.page.state.storage)}` : "";

  async choose(name, id, isMoved) {
    const turn = this.turn = {};
    this.corners.stop();
    const [item, results, {changes}] = await Promise.all([ask(this.path(name, id) + this.system()), ask(`${this.path(name, id)}/results`), ask(`${this.path(name, id)}/history`)]);
    if (turn !== this.turn) return;
    this.chosen = {name, id, ...item};
    this.show(results.tables, rowsOf(results.violations), changes);
    this.marked.clearLayers();
    this.box = null;
    if (item.geometry) {
      const shape = this.page.shape(L.GeoJSON.asFeature(item.geometry), {color: "#111", weight: 4, fillColor: "#7aa7ff", fillOpacity: 0.12}).addTo(this.marked);
      const box = shape.getBounds();
      this.box = [box.getWest(), box.getSouth(), box.getEast(), box.getNorth()];
      if (isMoved) this.page.fit(this.box, 0.4, {maxZoom: (this.page.of(name)?.first ?? 0) + 5});
    }
    this.page.remember();
  }

  title() {
    const {name, id, properties} = this.chosen, own = this.page.of(name)?.ident;
    return `${name} ${own && properties[own] !== null ? properties[own] : id}`;
  }

  show(tables, broken, changes) {
    const {page, chosen} = this, head = make("div", undefined, "head"), parts = [head];
    head.append(make("h2", this.title()));
    if (page.state.writable && chosen.geometry) head.append(button("Edit corners", () => this.edit()));
    head.append(Object.assign(button("×", () => this.leave()), {ariaLabel: "close"}));
    const own = Object.entries(chosen.properties).map(([key, value]) => [key, value === null ? "" : String(value)]);
    parts.push(table([...own, ...chosen.geometry ? [["area", page.squared(areaOf(chosen.geometry, page.state.grid))]] : []]));
    if (broken.length) {
      parts.push(make("h3", "Breaks rules"), table(broken.map(row => {
        const [mark, name, area] = page.violations.cells(row);
        return [mark, button(name.textContent, () => telling(() => page.violations.goTo(row)), "link"), area];
      })));
    }
    for (const {name, kind, rows} of tables) {
      parts.push(make("h3", kind === "check" ? `Overlaps in ${chosen.name} (${name})` : `Overlaps (${name})`));
      parts.push(rows.length ? table(rows.map(row => [button(row.name ?? `${row.collection} ${row.id}`, () => telling(() => this.choose(row.collection, row.id, true)), "link"),
        row.relation, page.area(row.area)])) : make("p", "none", "dust"));
    }
    parts.push(make("h3", "History"), changes.length ? table(changes.slice(0, 20).map((row, k) => [row.at.slice(0, 16).replace("T", " "), `${row.what}, ${row.who ?? "elsewhere"}`,
      k || !page.state.writable ? "" : button("Undo", () => telling(() => this.undo(row.change)))])) : make("p", "as it was taken in", "dust"));
    at("chosen").replaceChildren(...parts);
    at("chosen").hidden = false;
  }

  async undo(change) {
    const {features} = await send("POST", `changes/${change}/undo`, {});
    tell(`change ${change} is undone: ${features.length} ${features.length === 1 ? "feature" : "features"}`);
    if (this.chosen) await this.again();
  }

  leave() {
    this.turn = {};
    this.corners.stop();
    this.chosen = null;
    this.marked.clearLayers();
    at("chosen").hidden = true;
    this.page.remember();
  }

  edit() { if (this.chosen?.geometry && this.page.state.writable) this.corners.begin(); }

  // Shows it anew, or leaves it where it is there no more.
  async again() {
    const {name, id} = this.chosen;
    await this.choose(name, id, false).catch(fault => { if (fault.status !== 404) throw fault; this.leave(); });
  }

  // What others have changed: the feature itself, or one that lies at it, so that results may be others.
  async heard(changes, all) {
    const {chosen} = this, isNear = box => !this.box || meets(box, this.box);
    if (!chosen) return;
    const own = changes.find(one => one.collection === chosen.name && one.id === chosen.id);
    if (!this.corners.isOpen()) { if (all || own || changes.some(one => one.boxes.some(isNear))) await this.again(); return; }
    if (own) tell(`${this.title()} has just been changed by ${own.who ?? "another program"}: your change is of the older one`, true);
  }
}
