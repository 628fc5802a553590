// The page: it reads the front's layers, draws them, asks where a click lies, and defines layers.

import {ask, at, send, tell, telling} from "./ask.js";
import {showColumns, showLayers, showPlaces, showStatus, summary, toldOf} from "./panel.js";

const LOOKS = 2000;    // milliseconds between two looks at the version
const AT_ONCE = 4;    // columns of a question for tiles
const page = {plot: null, state: null, layers: [], waiting: false};    // waiting: a layer is to be asked again
globalThis.overlayPage = page;    // for scripts that look at the page

const path = name => `collections/${encodeURIComponent(name)}`;
const pause = time => new Promise(done => setTimeout(done, time));

async function refresh() {
  page.state = await ask("status");
  page.layers = (await ask("collections")).collections;
  const {plot, state, layers} = page;
  showStatus(state);
  showLayers(layers, plot, state, drop);
  for (const name of [...plot.drawn.keys()]) {
    if (!layers.some(layer => layer.id === name)) plot.forget(name);
  }
  const done = await Promise.allSettled(layers.map((layer, place) => plot.draw(layer, place)));
  page.waiting = done.some(one => one.reason?.again);
  done.forEach(({reason}, place) => {
    if (reason) tell(reason.message, !reason.again, toldOf(layers[place].id));
  });
}

const drop = name => telling(async () => {
  const made = await ask(path(name), {method: "DELETE"});
  await refresh();
  tell(`version ${made.version}: ${name} is dropped`, false, "told-layers");
}, toldOf(name));

// Draws the tiles of a layer as they are built, and gives how many milliseconds it took until all were.
async function watch(name) {
  const {plot} = page, began = performance.now();
  const built = page.state.columns.map(() => false);
  let waiting = [...built.keys()];
  plot.pending(page.state.columns);
  while (waiting.length) {
    const {tiles} = await ask(`${path(name)}/tiles?columns=${waiting.slice(0, AT_ONCE)}`);
    const done = tiles.filter(tile => tile.lines !== null);
    for (const tile of done) {
      plot.tile(tile);
      built[tile.column] = true;
    }
    // What is pending is asked again after the others.
    waiting = [...waiting.slice(AT_ONCE), ...tiles.filter(tile => tile.lines === null).map(tile => tile.column)];
    showColumns(built);
    tell(`${name}: ${built.length - waiting.length} of ${built.length} columns are built`, false, "told-define");
    if (!done.length) await pause(40);
  }
  return Math.round(performance.now() - began);
}

async function define(id, definition) {
  const made = await send("PUT", path(id), {definition});
  try {
    const took = await watch(id);
    await refresh();
    tell(`version ${made.version}: ${id} is built, ${took} ms`, false, "told-define");
    await pause(900);    // so that an eye sees the tiles
  } finally {
    page.plot.tiles.clearLayers();
    at("columns").hidden = true;
  }
}

async function locate(x, y) {
  const found = await ask(`locate?x=${encodeURIComponent(x)}&y=${encodeURIComponent(y)}`);
  showPlaces(found);
  page.plot.asked(found.point, [summary(found.places)]);
  tell("", false, "told-asking");
}

function listen() {
  const {map} = page.plot, form = at("asking"), defining = at("define"), {id, definition} = defining.elements;
  if (page.state.geographic) [form.elements.x.placeholder, form.elements.y.placeholder] = ["longitude", "latitude"];
  map.on("click", ({latlng}) => telling(async () => {
    const digits = page.plot.digits();
    form.elements.x.value = latlng.lng.toFixed(digits);
    form.elements.y.value = latlng.lat.toFixed(digits);
    await locate(form.elements.x.value, form.elements.y.value);
  }, "told-asking"));
  map.on("mousemove", ({latlng}) => {
    const digits = Math.max(0, page.plot.digits() - 1);
    at("under").textContent = `${latlng.lng.toFixed(digits)}, ${latlng.lat.toFixed(digits)}`;
  });
  form.onsubmit = event => {
    event.preventDefault();
    telling(() => locate(form.elements.x.value.trim(), form.elements.y.value.trim()), "told-asking");
  };
  defining.onsubmit = event => {
    event.preventDefault();
    telling(() => define(id.value, definition.value), "told-define");
  };
  for (const button of defining.querySelectorAll("[data-mark]")) {
    button.onclick = () => {
      definition.setRangeText(` ${button.dataset.mark} `, definition.selectionStart, definition.selectionEnd, "end");
      definition.focus();
    };
  }
}

// Looks now and then whether somebody else has changed a layer.
async function look() {
  for (;;) {
    await pause(LOOKS);
    const state = await ask("status").catch(fault => tell(`the front does not answer: ${fault.message}`, true));
    if (!state) continue;
    tell("");
    if (state.version !== page.state.version || page.waiting) await telling(refresh);
    else if (`${state.durable} ${state.lost}` !== `${page.state.durable} ${page.state.lost}`) showStatus(page.state = state);
  }
}

async function begin() {
  page.state = await ask("status");
  showStatus(page.state);
  if (!globalThis.L) throw new Error("Leaflet is missing: install Debian's package libjs-leaflet, or name its folder by --leaflet");
  const {Plot} = await import("./plot.js");
  page.plot = new Plot("map", page.state);
  await refresh();
  const boxes = page.layers.flatMap(layer => layer.box ? [layer.box] : []);
  if (boxes.length) page.plot.fit(boxes);
  listen();
  document.body.dataset.ready = "yes";
  look();
}

telling(begin);
