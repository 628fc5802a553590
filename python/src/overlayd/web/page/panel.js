// The panel beside the map: the version, the layers, the columns of a layer that is built, and where a point lies.

import {at, make} from "./ask.js";
import {colour} from "./plot.js";

// Where what is about a layer is told: in its row.
export const toldOf = name => `told-layer-${name}`;

export function showStatus(state) {
  document.title = at("title").textContent = state.title;
  const kept = state.durable === null ? make("span", "in memory only", "chip warn")
    : make("span", `durable ${state.durable}`, state.durable === state.version ? "chip good" : "chip warn");
  at("status").replaceChildren(
    make("span", `version ${state.version}`, "chip"), kept, make("span", state.writable ? "writable" : "read only", "chip"),
    systemChip(state),
    ...state.lost.map(text => make("span", text, "chip bad")));
  at("defining").hidden = !state.writable;
}

// The coordinate system: by its name, which Well-Known Text has at its begin, and all of it where the mouse rests.
function systemChip(state) {
  const named = state.crs && (/^\s*[A-Z_]+\s*[[(]\s*"([^"]*)"/.exec(state.crs) || [null, state.crs])[1];
  const made = make("span", named || `coordinate system unknown${state.unit ? `, ${state.unit}` : ""}`, "chip");
  made.title = state.crs || "";
  return made;
}

function button(text, title, action) {
  const made = make("button", text);
  made.type = "button";
  made.title = title;
  made.onclick = action;
  return made;
}

function kind(layer) {
  return layer.definition ? `= ${layer.definition}` : "base layer";
}

function row(layer, place, plot, state, drop) {
  const made = make("li"), box = make("input"), swatch = make("span", "", "swatch");
  box.type = "checkbox";
  box.checked = !plot.hidden.has(layer.id);
  box.setAttribute("aria-label", `show ${layer.id}`);
  box.onchange = () => plot.show(layer.id, box.checked);
  swatch.style.borderColor = colour(place);
  swatch.style.background = layer.definition ? colour(place) : "none";
  const text = make("div", undefined, "text");
  const told = make("p", "", "told");
  told.id = toldOf(layer.id);
  told.setAttribute("role", "status");
  text.append(make("span", layer.id, "name"), make("code", kind(layer)), told);
  const tools = make("span", undefined, "tools");
  if (layer.box) tools.append(button("\u2316", "go there", () => plot.fit([layer.box])));
  if (state.writable) tools.append(button("\u00d7", `drop ${layer.id}`, () => drop(layer.id)));
  made.append(box, swatch, text, tools);
  return made;
}

export function showLayers(layers, plot, state, drop) {
  at("layers").replaceChildren(...layers.map((layer, place) => row(layer, place, plot, state, drop)));
}

// One cell for each column, green where it is built.
export function showColumns(built) {
  at("columns").hidden = false;
  at("columns").replaceChildren(...built.map(is => make("i", "", is ? "built" : "")));
}

export function showPlaces({places, asked: [x, y, w], exact}) {
  at("places").replaceChildren(...Object.entries(places).map(([name, place]) => {
    const made = make("tr");
    made.append(make("td", name), make("td", place, place));
    return made;
  }));
  const stored = w === 1 ? `${x}, ${y}` : `${x}/${w}, ${y}/${w}`;
  at("asked").textContent = `asked at ${stored} of the store${exact ? "" : ", the nearest place to the given point"}`;
}

// The layers that have a point, in few words.
export function summary(places) {
  const made = make("span"), kinds = ["in", "edge"];
  for (const kind of kinds) {
    const names = Object.keys(places).filter(name => places[name] === kind);
    if (names.length) made.append(make("b", `${kind} `, kind), `${names.join(", ")}  `);
  }
  if (!made.childNodes.length) made.append(make("b", "out", "out"), " of all layers");
  return made;
}
