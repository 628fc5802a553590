// Lines of round coordinates with their numbers, and the measure of a plane that is nowhere on the earth.

import {make} from "./ask.js";

const TARGET = 110;    // pixels between two lines, about
const HEAD = 78, FOOT = 36, BAR = 140;    // pixels of the upper and the lower border, and of the measure

// 1, 2 or 5 times a power of ten, the first that is not less.
function round(length) {
  const power = 10 ** Math.floor(Math.log10(length));
  return [1, 2, 5, 10].map(n => n * power).find(n => n >= length * 0.999);
}

function spelled(value, step) {
  return value.toFixed(Math.max(0, -Math.floor(Math.log10(step) + 1e-9)));
}

// The multiples of a step between two numbers, with a little beyond.
function multiples(least, most, step) {
  const found = [];
  for (let n = Math.ceil(least / step); n * step <= most; n++) found.push(n * step);
  return found;
}

function label(at, text, anchor) {
  const icon = L.divIcon({className: "graticule", html: make("span", text), iconSize: null, iconAnchor: anchor});
  return L.marker(at, {icon, interactive: false, keyboard: false});
}

export function graticule(map, renderer) {
  const group = L.layerGroup().addTo(map);
  const style = {color: "#dce2e8", weight: 1, interactive: false, renderer, smoothFactor: 0};
  function draw() {
    group.clearLayers();
    const bounds = map.getBounds(), size = map.getSize();
    const [west, south, east, north] = [bounds.getWest(), bounds.getSouth(), bounds.getEast(), bounds.getNorth()];
    const across = round((east - west) / size.x * TARGET), up = round((north - south) / size.y * TARGET);
    for (const x of multiples(west, east, across)) {
      group.addLayer(L.polyline([[south, x], [north, x]], style));
      // At the right stands the measure.
      if (map.latLngToContainerPoint([south, x]).x < size.x - BAR) group.addLayer(label([south, x], spelled(x, across), [-3, 17]));
    }
    for (const y of multiples(south, north, up)) {
      group.addLayer(L.polyline([[y, west], [y, east]], style));
      // At the lower border stand the numbers of the other lines, at the upper one the buttons.
      const {y: down} = map.latLngToContainerPoint([y, west]);
      if (down > HEAD && down < size.y - FOOT) group.addLayer(label([y, west], spelled(y, up), [-4, -1]));
    }
  }
  map.on("moveend resize", draw);
  draw();
}

// A bar of a round length in the unit of the plane.
export function measure(map, unit) {
  const control = L.control({position: "bottomright"});
  control.onAdd = () => {
    const box = L.DomUtil.create("div", "measure");
    const update = () => {
      const y = map.getSize().y / 2;
      const width = map.containerPointToLatLng([100, y]).lng - map.containerPointToLatLng([0, y]).lng;
      const length = round(width * 0.6);
      box.style.width = `${length / width * 100}px`;
      box.textContent = `${spelled(length, length)} ${unit}`;
    };
    map.on("zoomend moveend resize", update);
    update();
    return box;
  };
  control.addTo(map);
}
