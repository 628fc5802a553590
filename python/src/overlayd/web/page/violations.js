// What breaks rules: marks on the map and a list. A mark is of one size, and its form tells of which kind it is.

import {ask, at, button, make, send, tell, telling} from "./ask.js";

const MARKS = 3000, OUTLINES = 300, LISTED = 100;
export const KINDS = {
  over: {name: "overlap", color: "#b0122b", fillColor: "#d7263d", corners: null},
  gap: {name: "gap", color: "#9a5b00", fillColor: "#ffb52e", dashArray: "4 3", corners: [[0, -1.2], [1.2, 0], [0, 1.2], [-1.2, 0]]},
  cover: {name: "not covered", color: "#6b3fa0", fillColor: "#9a73c9", corners: [[-0.9, -0.9], [0.9, -0.9], [0.9, 0.9], [-0.9, 0.9]]},
};
// Of which kind a rule's violations are.
export const kindOf = rule => / gaps$/.test(rule) ? "gap" : / covered by /.test(rule) ? "cover" : "over";

// Rows of columns as objects.
export const rowsOf = ({columns, rows}) => rows.map(row => Object.fromEntries(row.map((value, k) => [columns[k], value])));

export class Violations {
  constructor(page) {
    this.page = page;
    this.marks = L.layerGroup().addTo(page.map);
    this.rows = [];
    this.at = null;
    this.kinds = new Map(page.state.rules.map(({number, rule}) => [number, kindOf(rule)]));
    at("ruled").hidden = !page.state.rules.length;
    at("rule").append(...page.state.rules.map(({number, rule}) => Object.assign(make("option", rule), {value: number})));
    at("least").append(...[0, 0.01, 0.1, 1, 10, 100].map(value => Object.assign(make("option", value ? page.area(value) : "any area"), {value})));
    for (const id of ["rule", "least", "accepted"]) at(id).onchange = () => telling(() => Promise.all([this.show(true), this.list()]));
    at("here").onchange = () => telling(() => this.list());
    // A circle, or the corners of another form, of one size at each zoom.
    this.Mark = L.CircleMarker.extend({_updatePath() {
      const {_renderer: to, _point: {x, y}, options: {corners, radius}} = this;
      if (!corners) { to._updateCircle(this); return; }
      if (!to._drawing || this._empty()) return;
      to._ctx.beginPath();
      for (const [i, j] of corners) to._ctx.lineTo(x + i * radius, y + j * radius);
      to._ctx.closePath();
      to._fillStroke(to._ctx, this);
    }});
  }

  legend() {
    return [...new Set(this.kinds.values())].map(kind => {
      const item = make("li");
      item.append(make("i", "", `k ${kind}`), make("span", KINDS[kind].name));
      return item;
    });
  }

  async asked(words) {
    const found = await ask(`violations?${new URLSearchParams({
      rule: at("rule").value, least: at("least").value, accepted: Number(at("accepted").checked), ...words})}`);
    return {count: found.count, rows: rowsOf(found)};
  }

  // Where outlines can be seen, they are drawn beside the marks.
  isClose() { return this.page.map.getZoom() >= (this.page.layers[0]?.first ?? 0) + 2; }

  moved() { return Promise.all([this.show(false), at("here").checked ? this.list() : null]); }

  // Draws what is in the view; asks only where the view has left what was asked, or where all is wanted anew.
  async show(isNew) {
    const {page} = this, close = this.isClose(), view = page.view();
    if (!page.state.rules.length) return;
    const has = this.has, isInside = has && has.close === close && view[0] >= has.box[0] && view[1] >= has.box[1] && view[2] <= has.box[2] && view[3] <= has.box[3];
    if (!isNew && isInside && (has.count <= has.rows.length || has.zoom === page.map.getZoom() && has.view.join() === view.join())) return;
    const turn = this.turn = {}, box = page.view(0.4);
    const {count, rows} = await this.asked({bbox: box.join(), limit: close ? OUTLINES : MARKS, outlines: Number(close)});
    if (turn !== this.turn) return;    // a later answer may come first
    this.has = {box, view, close, count, rows, zoom: page.map.getZoom()};
    this.marks.clearLayers();
    for (const row of [...rows].reverse()) {    // the largest lie highest
      const kind = KINDS[this.kinds.get(row.rule)] ?? KINDS.over, look = {...kind, weight: 2, interactive: false, renderer: page.pen, opacity: row.accepted ? 0.45 : 1};
      if (row.outline) this.marks.addLayer(page.shape(L.GeoJSON.asFeature(row.outline), {...look, fillOpacity: row.accepted ? 0.2 : 0.55, coordsToLatLng: ([x, y]) => L.latLng(y, x)}));
      const spot = [(row.miny + row.maxy) / 2, (row.minx + row.maxx) / 2];
      this.marks.addLayer(new this.Mark(spot, {...look, dashArray: null, radius: close ? 9 : 4, fill: !close, fillOpacity: row.accepted ? 0.2 : 0.55}));
    }
  }

  named = row => [row.a_id ?? row.a, row.b_id ?? row.b].filter(name => name !== null).join(" and ") || "a gap";
  same = (a, b) => a.id === b.id || a.rule === b.rule && a.a !== null && a.a === b.a && a.b === b.b;    // a row is new after its feature has changed

  // A table's cells for one: what it is, of whom, how large.
  cells(row) {
    const kind = this.kinds.get(row.rule) ?? "over";
    return [make("i", "", `k ${kind}${row.accepted ? " accepted" : ""}`), make("span", this.named(row)), make("span", this.page.area(row.area))];
  }

  async list() {
    const {page} = this;
    if (!page.state.rules.length) return;
    const {count, rows} = await this.asked({limit: LISTED, ...at("here").checked ? {bbox: page.view().join()} : {}});
    this.rows = rows;
    at("count").textContent = `${count.toLocaleString("en")}${count > rows.length ? `, the ${rows.length} largest` : ""}`;
    at("violations").replaceChildren(...rows.map(row => {
      const kind = this.kinds.get(row.rule) ?? "over", made = button("", () => telling(() => this.goTo(row)));
      made.append(...this.cells(row));
      made.setAttribute("aria-label", `${KINDS[kind].name}: ${this.named(row)}, ${page.area(row.area)}${row.accepted ? ", accepted" : ""}`);
      const item = make("li");
      item.append(made);
      return item;
    }));
    this.mark();
  }

  mark() {
    [...at("violations").children].forEach((item, k) => item.firstChild.setAttribute("aria-current", String(Boolean(this.at) && this.same(this.rows[k], this.at))));
  }

  async goTo(row) {
    const {page} = this, room = Math.max(row.maxx - row.minx, row.maxy - row.miny) / 2 + 200 * page.state.grid;
    this.at = row;
    this.mark();
    page.fit([row.minx - room, row.miny - room, row.maxx + room, row.maxy + room], 0, {maxZoom: (page.layers[0]?.first ?? 0) + 8});
    if (row.a !== null) await page.chosen.choose(page.state.rules.find(rule => rule.number === row.rule).a, row.a, false);
    else page.chosen.leave();
    tell(`${KINDS[this.kinds.get(row.rule) ?? "over"].name}: ${this.named(row)}, ${page.area(row.area)}`);
    this.tools(row);
  }

  // What may be done with the one in hand: it is accepted, with a reason.
  tools(row) {
    const box = at("accepting") ?? make("form", undefined, "row"), why = make("input");
    box.id = "accepting";
    Object.assign(why, {name: "why", placeholder: "why it is accepted", required: true, maxLength: 1000});
    why.setAttribute("aria-label", "why it is accepted");
    box.replaceChildren(...row.accepted ? [make("p", `accepted by ${row.who}: ${row.why}`, "hint")] : this.page.state.writable ? [why, make("button", "Accept")] : []);
    box.onsubmit = event => {
      event.preventDefault();
      telling(async () => {
        await send("POST", `violations/${row.id}/accept`, {why: why.value});
        await Promise.all([this.show(true), this.list()]);
        tell(`accepted: ${this.named(row)}`);
        box.replaceChildren();
      });
    };
    at("violations").after(box);
  }

  async step(by) {
    const now = this.at ? this.rows.findIndex(row => this.same(row, this.at)) : by > 0 ? -1 : 0, {length} = this.rows;
    if (!length) { tell("there is no violation in the list"); return; }
    const next = (now + by + length) % length;
    await this.goTo(this.rows[next]);
    at("violations").children[next].scrollIntoView({block: "nearest"});
  }
}
