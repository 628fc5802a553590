// A corner is moved with all features that have it, as one change; what the front refuses is drawn on the map.

import {ask, at, button, make, send, tell, telling} from "./ask.js";
import {KINDS, kindOf} from "./violations.js";

const STEPS = {ArrowLeft: [-1, 0], ArrowRight: [1, 0], ArrowUp: [0, 1], ArrowDown: [0, -1]};
const polygons = ({type, coordinates}) => type === "Polygon" ? [coordinates] : coordinates;

export class Corners {
  constructor(page, owner) {
    this.page = page;
    this.owner = owner;
    this.handles = L.layerGroup().addTo(page.map);
    this.ghost = L.layerGroup().addTo(page.map);
    this.begun = null;    // {from, goal, changes}
  }

  isOpen() { return this.handles.getLayers().length > 0; }

  stop() {
    this.begun = null;
    this.handles.clearLayers();
    this.ghost.clearLayers();
    at("saving")?.remove();
  }

  begin() {
    const rings = polygons(this.owner.chosen.geometry).flat(), corners = rings.flatMap(ring => ring.slice(0, -1));
    this.stop();
    corners.forEach((place, k) => {
      const one = L.marker(this.page.placed(place), {draggable: true, keyboard: true, alt: `corner ${k + 1}`, icon: L.divIcon({className: "handle", iconSize: [14, 14]})}).addTo(this.handles);
      one.on("dragend", () => telling(() => this.moved(place, one.getLatLng())));
      one.getElement().setAttribute("aria-label", `corner ${k + 1} of ${corners.length}`);
      one.getElement().addEventListener("keydown", event => {
        const step = STEPS[event.key], far = this.page.state.grid * (event.ctrlKey ? 1 : event.shiftKey ? 10 : 100);
        if (!step) return;
        event.preventDefault();
        event.stopPropagation();
        const {lng, lat} = one.getLatLng();
        one.setLatLng([lat + step[1] * far, lng + step[0] * far]);
        telling(() => this.moved(place, one.getLatLng()));
      });
    });
    tell("Drag a corner, or go to it by Tab and move it by arrows: 100 units of the grid, with Shift 10, with Ctrl 1. Then Save.");
    this.handles.getLayers()[0]?.getElement().focus();    // so that Tab goes on to the next corner
  }

  async moved(from, to) {
    const {page, owner} = this, grid = page.state.grid, goal = page.position(to).map(value => Number((Math.round(value / grid) * grid).toFixed(9)));
    const turn = this.turn = {}, at_ = page.placed(from);
    if (this.begun?.from !== from) this.begun = {from, asked: ask(`collections/${encodeURIComponent(owner.chosen.name)}/corner?x=${at_.lng}&y=${at_.lat}`)};
    const now = this.begun, {features} = await now.asked;
    if (turn !== this.turn || now !== this.begun) return;
    const isHere = place => place.every((value, k) => Math.abs(value - from[k]) < grid / 2);
    const moved = value => typeof value[0] === "number" ? isHere(value) ? goal : value : value.map(moved);
    now.changes = features.map(({id, etag, geometry}) => ({update: owner.chosen.name, id, etag, feature: {type: "Feature", geometry: {...geometry, coordinates: moved(geometry.coordinates)}}}));
    this.ghost.clearLayers();
    for (const {feature} of now.changes) this.ghost.addLayer(page.shape(feature, {color: "#0a58ca", weight: 2, dashArray: "6 4", fill: false}));
    const added = features.reduce((sum, one) => sum + one.added, 0), far = Math.hypot(goal[0] - from[0], goal[1] - from[1]);
    this.bar(`Corner ${Number(far.toFixed(6))} ${page.state.unit} away, shared by ${features.map(one => one.name).join(", ")}`
      + `${added ? `; ${added} ${added === 1 ? "corner" : "corners"} of others on these borders stay` : ""}`);
  }

  bar(text) {
    const box = at("saving") ?? make("div"), only = make("input"), label = make("label");
    Object.assign(only, {type: "checkbox", id: "only"});
    label.append(only, " this feature alone");
    box.id = "saving";
    box.replaceChildren(make("p", text), button("Save", () => telling(() => this.save(only.checked)), "main"),
      button("Cancel", () => { this.stop(); tell(""); }), label);
    at("chosen").firstChild.after(box);
  }

  async save(isAlone) {
    const {page, owner, begun} = this, changes = begun.changes.filter(one => !isAlone || one.id === owner.chosen.id);
    const headers = page.state.storage ? {"Content-Crs": `<${page.state.storage}>`} : {};
    try {
      const {change, features} = await send("POST", "transaction", {changes}, headers);    // neighbours may be among these
      tell(`saved: ${features.length} ${features.length === 1 ? "feature" : "features"} as change ${change}`);
      await owner.again();
    } catch (fault) {
      const broken = fault.value?.broken ?? [];
      for (const one of broken) {
        if (one.new?.geometry) this.ghost.addLayer(page.shape(L.GeoJSON.asFeature(one.new.geometry), {...KINDS[kindOf(one.rule)], weight: 2, fillOpacity: 0.85}));
      }
      tell([fault.message, ...broken.map(one => `${one.features.map(own => own.name ?? own.id).join(" and ") || "a gap"}: ${page.area(one.new.area)}`)].join("; "), true);
    }
  }
}
