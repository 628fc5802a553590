// Tiles: read from the bytes of a Mapbox Vector Tile, and each drawn on a canvas of its own.

const SIDE = 512;
const TOGETHER = 20;    // rings of a path: one path of 5,000 takes fifty times as long

// A tile of one layer of polygons: its side, names, rings as x y x y .. in one array, ends[k] where ring k ends, and
// rings[k] up to which ring feature k goes.
export function readTile(bytes) {
  let at = 0;
  const number = () => {
    let value = 0, factor = 1, byte;
    do { byte = bytes[at++]; value += (byte & 127) * factor; factor *= 128; } while (byte > 127);
    return value;
  };
  const text = end => { const got = new TextDecoder().decode(bytes.subarray(at, end)); at = end; return got; };
  const fields = (end, each) => {
    while (at < end) {
      const key = number(), value = number();    // all that stands here is a varint or has a length
      if ((key & 7) === 2) { const stop = at + value; each(key >> 3, stop); at = stop; } else each(key >> 3, value);
    }
  };
  const rings = [], ends = [], points = [], tags = [], values = [];
  let extent = 4096;
  const shape = end => {
    let x = 0, y = 0;
    while (at < end) {
      const command = number(), count = command >> 3;
      if ((command & 7) === 7) { ends.push(points.length); continue; }
      for (let k = 0; k < count; k++) {
        const a = number(), b = number();
        points.push(x += (a >> 1) ^ -(a & 1), y += (b >> 1) ^ -(b & 1));
      }
    }
  };
  fields(bytes.length, (layer, stop) => fields(stop, (kind, value) => {
    if (kind === 2) {
      fields(value, (part, inner) => {
        if (part === 2) { number(); tags.push(number()); } else if (part === 4) { shape(inner); rings.push(ends.length); }
      });
    } else if (kind === 4) fields(value, (_, end) => values.push(text(end)));
    else if (kind === 5) extent = value;
  }));
  return {extent, rings, ends, points, names: tags.map(tag => values[tag])};
}

function draw(canvas, tile, look, ratio) {
  const pen = canvas.getContext("2d"), scale = SIDE * ratio / tile.extent, {points, ends} = tile, paths = [];
  pen.clearRect(0, 0, canvas.width, canvas.height);
  for (let k = 0, at = 0; k < ends.length;) {
    const path = new Path2D();
    for (const stop = Math.min(ends.length, k + TOGETHER); k < stop; k++) {
      path.moveTo(points[at] * scale, points[at + 1] * scale);
      for (at += 2; at < ends[k]; at += 2) path.lineTo(points[at] * scale, points[at + 1] * scale);
      path.closePath();
    }
    paths.push(path);
  }
  if (look.fill) { pen.fillStyle = look.fill; for (const path of paths) pen.fill(path); }
  [pen.strokeStyle, pen.lineWidth] = [look.line, look.width * ratio];
  for (const path of paths) pen.stroke(path);
  if (tile.names.length) label(pen, tile, scale, ratio);
}

// The names of features that are wide enough for them, in the middle of the first ring.
function label(pen, {points, ends, rings, names}, scale, ratio) {
  pen.font = `${11 * ratio}px system-ui, "DejaVu Sans", sans-serif`;
  [pen.textAlign, pen.textBaseline, pen.fillStyle] = ["center", "middle", "#4a463c"];
  names.forEach((name, k) => {
    const first = k ? rings[k - 1] : 0, begin = first ? ends[first - 1] : 0, end = ends[first];
    let sum = 0, x = 0, y = 0, low = Infinity, high = -Infinity;
    for (let a = begin; a < end; a += 2) {
      const b = a + 2 < end ? a + 2 : begin, part = points[a] * points[b + 1] - points[b] * points[a + 1];
      sum += part; x += (points[a] + points[b]) * part; y += (points[a + 1] + points[b + 1]) * part;
      low = Math.min(low, points[a + 1]); high = Math.max(high, points[a + 1]);
    }
    const wide = Math.abs(sum) / 2 / (high - low);    // on the whole
    if (sum && wide * scale > pen.measureText(name).width + 4 * ratio) pen.fillText(name, x / sum / 3 * scale, y / sum / 3 * scale);
  });
}

// What a tile shows that the front does not send: that it has too much.
function refused(canvas, text, ratio) {
  const pen = canvas.getContext("2d");
  pen.clearRect(0, 0, canvas.width, canvas.height);
  [pen.fillStyle, pen.font, pen.textAlign] = ["#b9b4a655", `${12 * ratio}px system-ui, sans-serif`, "center"];
  pen.fillRect(0, 0, canvas.width, canvas.height);
  pen.fillStyle = "#4a463c";
  pen.fillText(text, canvas.width / 2, canvas.height / 2);
}

// The box of a tile: least x, least y, greatest x, greatest y.
export function boxOf({x, y, z}) {
  const side = SIDE / 2 ** z;
  return [x * side, -(y + 1) * side, (x + 1) * side, -y * side];
}

export const meets = (a, b) => a[0] <= b[2] && a[2] >= b[0] && a[1] <= b[3] && a[3] >= b[1];

// spent: what all tiles have taken, for who measures.
export const spent = {tiles: 0, read: 0, draw: 0, slowest: 0, features: 0, bytes: 0};

export const makeTiles = (name, look, options) => new (L.GridLayer.extend({
  options: {tileSize: SIDE, keepBuffer: 1, updateWhenZooming: false},
  createTile(coords, done) {
    const canvas = L.DomUtil.create("canvas"), ratio = devicePixelRatio || 1;
    canvas.width = canvas.height = SIDE * ratio;
    canvas.setAttribute("role", "presentation");
    this.fill(canvas, coords, ratio).then(() => done(null, canvas), fault => done(fault, canvas));
    return canvas;
  },
  async fill(canvas, {x, y, z}, ratio) {
    const turn = canvas.turn = (canvas.turn ?? 0) + 1;    // a later answer may come first
    const reply = await fetch(`tiles/${encodeURIComponent(name)}/${z}/${x}/${y}.mvt`, {cache: "no-cache"});
    const bytes = new Uint8Array(await reply.arrayBuffer()), began = performance.now();
    if (turn !== canvas.turn) return;
    if (!reply.ok) { refused(canvas, reply.status === 413 ? "too many to be drawn: look closer" : `status ${reply.status}`, ratio); return; }
    const tile = readTile(bytes), read = performance.now();
    const isThin = z - this.options.minZoom < 2;    // near the zoom where the layer begins
    draw(canvas, tile, {...look, ...isThin ? {width: look.width * 0.6, line: look.pale} : {}}, ratio);
    const drawn = performance.now();
    spent.tiles++; spent.read += read - began; spent.draw += drawn - read; spent.bytes += bytes.length;
    spent.features += tile.rings.length; spent.slowest = Math.max(spent.slowest, drawn - began);
  },
  // Draws those tiles anew that meet one of some boxes, or all.
  again(boxes) {
    for (const {coords, el} of Object.values(this._tiles)) {
      if (!boxes || boxes.some(box => meets(box, boxOf(coords)))) this.fill(el, coords, devicePixelRatio || 1);
    }
  },
}))(options);
