'use strict';
// What the page reckons, apart from what it shows: no function here knows of the document.
const Picture = (() => {
  const NEAR_VERTEX = 9, NEAR_EDGE = 6, MOST_NAMES = 160, MOST_OF_ALL = 1500, SIDE = 32, EYE = 4;
  const KINDS = ['faces', 'edges', 'vertices'];

  // The model after a change: for each kind the new rows by number, null for what has gone.
  function changed(model, change) {
    const next = {};
    for (const kind of KINDS) {
      const rows = Object.entries(change[kind] || {});
      next[kind] = rows.length || !model[kind] ? Object.assign({}, model[kind]) : model[kind];
      for (const [number, row] of rows) {
        if (row === null) delete next[kind][number]; else next[kind][number] = row;
      }
    }
    return next;
  }

  const dot = (a, b) => a[0] * b[0] + a[1] * b[1] + a[2] * b[2];
  const minus = (a, b) => [a[0] - b[0], a[1] - b[1], a[2] - b[2]];
  const cross = (a, b) => [a[1] * b[2] - a[2] * b[1], a[2] * b[0] - a[0] * b[2], a[0] * b[1] - a[1] * b[0]];

  const distance = (a, b) => Math.hypot(a[0] - b[0], a[1] - b[1], a[2] - b[2]);
  const areaOf = (a, b, c) => Math.hypot(...cross(minus(b, a), minus(c, a))) / 2;

  // The middle and the radius of all points.
  function bounds(points) {
    const low = [Infinity, Infinity, Infinity], high = [-Infinity, -Infinity, -Infinity];
    for (const point of points) for (let i = 0; i < 3; i++) {
      low[i] = Math.min(low[i], point[i]);
      high[i] = Math.max(high[i], point[i]);
    }
    if (low[0] > high[0]) return {middle: [0, 0, 0], radius: 1};
    const span = minus(high, low);
    return {middle: low.map((x, i) => (x + high[i]) / 2), radius: Math.sqrt(dot(span, span)) / 2 || 1};
  }

  // The directions to the right, upwards and to the viewer, who is turned about z and lifted, and one over the viewer's distance.
  function axes({turn, lift, perspective}) {
    const c = Math.cos(turn), s = Math.sin(turn), u = Math.cos(lift), v = Math.sin(lift);
    return {right: [-s, c, 0], up: [-v * c, -v * s, u], stand: [u * c, u * s, v], inverse: perspective ? 1 / EYE : 0};
  }

  // Where spots, three numbers each, lie on the screen: x, y and how near, for each. What is straight stays so, nearness too.
  function placed(spots, {right, up, stand, inverse}, {x, y, zoom}) {
    const on = new Float64Array(spots.length);
    for (let i = 0; i < spots.length; i += 3) {
      const p = spots[i], q = spots[i + 1], r = spots[i + 2];
      const depth = stand[0] * p + stand[1] * q + stand[2] * r, scale = 1 / (1 - inverse * depth);
      on[i] = x + zoom * scale * (right[0] * p + right[1] * q + right[2] * r);
      on[i + 1] = y - zoom * scale * (up[0] * p + up[1] * q + up[2] * r);
      on[i + 2] = depth * scale;
    }
    return on;
  }

  const middleOf = view => ({x: view.width / 2 + view.right, y: view.height / 2 + view.down, zoom: view.zoom});
  const inBall = (point, ball) => point.map((x, i) => (x - ball.middle[i]) / ball.radius);

  // How far points of the unit ball reach to the right and upwards from the middle, in radii.
  function extent(spots, view) {
    const on = placed(spots, axes(view), {x: 0, y: 0, zoom: 1}), reach = [.05, .05];
    for (let i = 0; i < on.length; i++) if (i % 3 < 2) reach[i % 3] = Math.max(reach[i % 3], Math.abs(on[i]));
    return reach;
  }

  // A model with the solids switched off left out, brought to the unit ball. Spots are three numbers each: first the vertices',
  // then the middles of the faces' largest triangles, then the middles of the edges; `things` are the numbers of what they stand for.
  // Solids are moved by shifts, where there are some.
  function sceneOf(model, ball, off, shifts = null) {
    const faces = Object.entries(model.faces).filter(([, row]) => !off.has(row[0])).map(([number, row]) => [+number, row]);
    const scene = {at: {v: {}, f: {}, e: {}}, spots: [], things: [], sides: sidesOf(faces), greatest: 0, model, gone: null, areNone: []};
    scene.greatest = faces.reduce((most, [number]) => Math.max(most, number), 0);
    scene.solidOf = face => face < 0 ? -face : model.faces[face][0];
    const edges = Object.entries(model.edges).filter(([number]) => scene.sides.plus[number]).map(([number, ends]) => [+number, ends]);
    const shift = shifts && shiftsOf(scene, edges, shifts);
    for (const number of verticesOf(faces, edges)) put(scene, 'v', number, moved(inBall(model.vertices[number], ball), shift && shift[number]));
    scene.firstFace = scene.things.length;
    scene.triangles = cutFaces(scene, faces);
    scene.firstEdge = scene.things.length;
    scene.edges = edgeRows(scene, edges);
    scene.spots = new Float64Array(scene.spots);
    return scene;
  }

  const moved = (point, shift) => shift ? point.map((x, i) => x + shift[i]) : point;

  // The shift of each vertex, which is that of its solid.
  function shiftsOf({sides}, edges, shifts) {
    const found = [];
    for (const [number, ends] of edges) for (const end of ends) found[end] = shifts.get(sides.plus[number].solid);
    return found;
  }

  function put(scene, kind, number, p) {
    scene.at[kind][number] = scene.things.push(number) - 1;
    scene.spots.push(p[0], p[1], p[2]);
  }

  const kindOf = (scene, i) => i < scene.firstFace ? 'v' : i < scene.firstEdge ? 'f' : 'e';
  const pointOf = ({spots}, i) => [spots[3 * i], spots[3 * i + 1], spots[3 * i + 2]];

  // For each edge's two sides the face, the loop and the solid.
  function sidesOf(faces) {
    const plus = [], minus = [];
    for (const [face, [solid, loops]] of faces) for (const [loop, halves] of loops) {
      const side = {face, loop, solid};
      for (const half of halves) if (half > 0) plus[half] = side; else minus[-half] = side;
    }
    return {plus, minus, of: half => half > 0 ? plus[half] : minus[-half]};
  }

  // The vertices of faces, each once, rising.
  function verticesOf(faces, edges) {
    const found = new Set();
    for (const [, [start, end]] of edges) found.add(start).add(end);
    for (const [, [, loops]] of faces) for (const [, , lone] of loops) if (lone) found.add(lone);
    return [...found].sort((a, b) => a - b);
  }

  // The triangles that have an area: their corners, their normals, where their planes lie along them, and their faces.
  function cutFaces(scene, faces) {
    const corners = [], normals = [], offsets = [], owners = [];
    for (const [face, row] of faces) {
      let widest = 0, middle = null;
      for (let i = 0; i < row[4].length; i += 3) {
        const three = [0, 1, 2].map(k => scene.at.v[row[4][i + k]]), [a, b, c] = three.map(corner => pointOf(scene, corner));
        const across = cross(minus(b, a), minus(c, a)), size = Math.sqrt(dot(across, across));
        if (!(size > 0)) continue;
        const normal = across.map(x => x / size);
        corners.push(...three);
        normals.push(...normal);
        offsets.push(dot(normal, a));
        owners.push(face);
        if (size > widest) [widest, middle] = [size, a.map((x, k) => (x + b[k] + c[k]) / 3)];
      }
      if (middle) put(scene, 'f', face, middle); else scene.areNone.push(face);
    }
    return {corners: new Int32Array(corners), normals: new Float64Array(normals), offsets: new Float64Array(offsets), faces: new Int32Array(owners)};
  }

  // The normals of the flat faces that have an area, by face.
  function faceNormals({triangles, model}) {
    const found = [];
    triangles.faces.forEach((face, i) => { if (face > 0 && !found[face] && model.faces[face][3]) found[face] = pointOf({spots: triangles.normals}, i); });
    return found;
  }

  // The edges: their numbers, the spots of their ends, the faces beside them, and the cosine of the angle between these, -1 where there is none.
  function edgeRows(scene, edges) {
    const normals = faceNormals(scene), {plus, minus: other} = scene.sides;
    const rows = {numbers: [], starts: [], ends: [], lefts: [], rights: [], cosines: []};
    for (const [number, [start, end]] of edges) {
      const a = scene.at.v[start], b = scene.at.v[end], left = plus[number].face, right = other[number].face, p = pointOf(scene, a), q = pointOf(scene, b);
      rows.numbers.push(number);
      rows.starts.push(a);
      rows.ends.push(b);
      rows.lefts.push(left);
      rows.rights.push(right);
      rows.cosines.push(normals[left] && normals[right] ? dot(normals[left], normals[right]) : -1);
      put(scene, 'e', number, p.map((x, k) => (x + q[k]) / 2));
    }
    return edgesOf(rows, normals);
  }

  function edgesOf(rows, normals) {
    const made = {normals, cosines: new Float32Array(rows.cosines)};
    for (const name of ['numbers', 'starts', 'ends', 'lefts', 'rights']) made[name] = new Int32Array(rows[name]);
    return made;
  }

  // The triangles that face the viewer.
  function frontOf({normals, offsets}, {stand, inverse}) {
    const front = new Int32Array(offsets.length);
    let count = 0;
    for (let i = 0; i < offsets.length; i++) {
      const facing = normals[3 * i] * stand[0] + normals[3 * i + 1] * stand[1] + normals[3 * i + 2] * stand[2] - inverse * offsets[i];
      if (facing > 1e-9) front[count++] = i;
    }
    return front.subarray(0, count);
  }

  // A row that says of each face whether it looks to the viewer somewhere, or has no area.
  function seenOf(scene, front) {
    const seen = new Uint8Array(scene.greatest + 1);
    for (const face of scene.areNone) seen[face] = 1;
    for (const i of front) if (scene.triangles.faces[i] > 0) seen[scene.triangles.faces[i]] = 1;
    return seen;
  }

  // The scene on the screen: the spots, the triangles that face the viewer, and the faces seen, each reckoned when it is first asked for.
  function screenOf(scene, view) {
    const basis = axes(view), middle = middleOf(view);
    let on = null, front = null, seen = null;
    return {scene, basis, middle, width: view.width, height: view.height,
            get on() { return on = on || placed(scene.spots, basis, middle); },
            get front() { return front = front || frontOf(scene.triangles, basis); },
            get seenFaces() { return seen = seen || seenOf(scene, this.front); },
            spot(i) { return [this.on[3 * i], this.on[3 * i + 1], this.on[3 * i + 2]]; }};
  }

  // The squares of the screen that the triangle reaches into: the first and last column and row, or null where it lies beside the screen.
  function reach({triangles: {corners}}, {on, width, height}, i) {
    const a = 3 * corners[3 * i], b = 3 * corners[3 * i + 1], c = 3 * corners[3 * i + 2];
    const left = Math.min(on[a], on[b], on[c]), right = Math.max(on[a], on[b], on[c]);
    const top = Math.min(on[a + 1], on[b + 1], on[c + 1]), bottom = Math.max(on[a + 1], on[b + 1], on[c + 1]);
    if (right < 0 || bottom < 0 || left > width || top > height) return null;
    return [Math.max(0, left), Math.min(width, right), Math.max(0, top), Math.min(height, bottom)].map(x => Math.floor(x / SIDE));
  }

  // The triangles that face the viewer by the squares of the screen that they reach into; made once, when first asked for.
  function squaresOf(scene, screen) {
    if (screen.squares) return screen.squares;
    const rows = Math.floor(screen.height / SIDE) + 1, squares = screen.squares = {rows, held: []};
    for (const i of screen.front) {
      const found = reach(scene, screen, i);
      if (!found) continue;
      for (let x = found[0]; x <= found[1]; x++) for (let key = x * rows + found[2]; key <= x * rows + found[3]; key++) {
        if (squares.held[key]) squares.held[key].push(i); else squares.held[key] = [i];
      }
    }
    return squares;
  }

  // The nearest triangle's face at a place (below zero for the cap of a solid), and how near it is, or null.
  function faceAt(scene, screen, x, y) {
    if (!(x >= 0 && y >= 0 && x <= screen.width && y <= screen.height)) return null;
    const {on} = screen, {corners} = scene.triangles, {rows, held} = squaresOf(scene, screen);
    let number = -1, depth = -Infinity;
    for (const i of held[Math.floor(x / SIDE) * rows + Math.floor(y / SIDE)] || []) {
      const a = 3 * corners[3 * i], b = 3 * corners[3 * i + 1], c = 3 * corners[3 * i + 2];
      const ax = on[a] - x, bx = on[b] - x, cx = on[c] - x;
      if (ax < 0 && bx < 0 && cx < 0 || ax > 0 && bx > 0 && cx > 0) continue;
      const ay = on[a + 1] - y, by = on[b + 1] - y, cy = on[c + 1] - y;
      if (ay < 0 && by < 0 && cy < 0 || ay > 0 && by > 0 && cy > 0) continue;
      const u = bx * cy - cx * by, v = cx * ay - ax * cy, w = ax * by - bx * ay, all = u + v + w;
      if (all === 0 || u * all < 0 || v * all < 0 || w * all < 0) continue;
      const here = (u * on[a + 2] + v * on[b + 2] + w * on[c + 2]) / all;
      if (here > depth) [number, depth] = [i, here];
    }
    return number < 0 ? null : {number: scene.triangles.faces[number], depth};
  }

  // Whether nothing lies before a spot.
  function isSeen(scene, screen, spot) {
    const found = faceAt(scene, screen, spot[0], spot[1]);
    return found === null || found.depth <= spot[2] + 2e-3;
  }

  // Where on a segment of the screen a place is nearest: its distance, and the spot.
  function onSegment(a, b, x, y) {
    const dx = b[0] - a[0], dy = b[1] - a[1], long = dx * dx + dy * dy;
    const way = long ? Math.max(0, Math.min(1, ((x - a[0]) * dx + (y - a[1]) * dy) / long)) : 0;
    const spot = [a[0] + way * dx, a[1] + way * dy, a[2] + way * (b[2] - a[2])];
    return {away: Math.hypot(spot[0] - x, spot[1] - y), spot};
  }

  // The vertices near a place.
  function verticesNear(scene, screen, x, y) {
    const found = [], {on} = screen;
    for (let i = 0; i < scene.firstFace; i++) {
      const away = Math.hypot(on[3 * i] - x, on[3 * i + 1] - y);
      if (away <= NEAR_VERTEX && !(scene.gone && scene.gone[i])) found.push({kind: 'v', number: scene.things[i], spot: screen.spot(i), away});
    }
    return found;
  }

  // The edges near a place.
  function edgesNear(scene, screen, x, y) {
    const found = [], {on} = screen, {numbers, starts, ends} = scene.edges;
    const far = (p, q, z) => (p < z - NEAR_EDGE && q < z - NEAR_EDGE) || (p > z + NEAR_EDGE && q > z + NEAR_EDGE);
    for (let i = 0; i < numbers.length; i++) {
      const a = 3 * starts[i], b = 3 * ends[i];
      if (!numbers[i] || far(on[a], on[b], x) || far(on[a + 1], on[b + 1], y)) continue;
      const nearest = onSegment(screen.spot(starts[i]), screen.spot(ends[i]), x, y);
      if (nearest.away <= NEAR_EDGE) found.push({kind: 'e', number: numbers[i], ...nearest});
    }
    return found;
  }

  // What is seen at a place: a vertex before an edge before a face, a solid where its cap is, or null.
  function pick(scene, screen, x, y) {
    for (const list of [verticesNear(scene, screen, x, y), edgesNear(scene, screen, x, y)]) {
      list.sort((a, b) => Math.round(a.away - b.away) || b.spot[2] - a.spot[2]);
      const found = list.find(it => isSeen(scene, screen, it.spot));
      if (found) return {kind: found.kind, number: found.number};
    }
    const face = faceAt(scene, screen, x, y);
    return face && (face.number < 0 ? {kind: 's', number: -face.number} : {kind: 'f', number: face.number});
  }

  // The things within a limit of a place, by their places in the scene.
  function thingsNear(scene, {on}, [x, y], limit) {
    const found = [], {gone} = scene;
    for (let i = 0; i < scene.things.length; i++) {
      const dx = on[3 * i] - x, dy = on[3 * i + 1] - y;
      if (dx * dx + dy * dy < limit * limit && !(gone && gone[i])) found.push(i);
    }
    return found;
  }

  // The things to be named, the most wanted ones first: those that are chosen, and those nearer than a limit that are seen.
  function named(scene, screen, chosen, place, limit) {
    const isThere = i => i >= 0 && !(scene.gone && scene.gone[i]), rank = {f: 0, v: 1, e: 2};
    const firsts = new Set(chosen.map(key => (scene.at[key[0]] || {})[key.slice(1)]).filter(isThere));
    const found = [...firsts, ...(limit > 0 ? thingsNear(scene, screen, place, limit).filter(i => !firsts.has(i)) : [])].map(i => {
      const spot = screen.spot(i);
      return {kind: kindOf(scene, i), number: scene.things[i], first: firsts.has(i), away: Math.hypot(spot[0] - place[0], spot[1] - place[1]), spot};
    });
    const nearest = [], isShown = it => it.first || ((it.kind !== 'f' || screen.seenFaces[it.number]) && isSeen(scene, screen, it.spot));
    for (const it of found.sort((a, b) => b.first - a.first || a.away - b.away)) {
      if (nearest.length === (limit === Infinity ? MOST_OF_ALL : MOST_NAMES)) break;
      if (isShown(it)) nearest.push(it);
    }
    return nearest.sort((a, b) => b.first - a.first || rank[a.kind] - rank[b.kind] || a.away - b.away);
  }

  // Places for labels, the first ones first, none over another; what finds no place is left out.
  function placeLabels(wanted, width, height) {
    const placed = [], steps = [[0, 0], [0, -1], [1, 0], [-1, 0], [0, 1], [1, -1], [-1, -1], [1, 1], [-1, 1]];
    const meets = (a, b) => Math.abs(a.x - b.x) * 2 < a.wide + b.wide + 4 && Math.abs(a.y - b.y) * 2 < a.high + b.high + 2;
    for (const label of wanted) {
      for (const [right, down] of label.kind === 'f' ? steps : steps.slice(1)) {
        const at = {...label, x: label.x + right * (label.wide / 2 + 7), y: label.y + down * (label.high / 2 + 6)};
        const inside = at.x > at.wide / 2 && at.y > at.high / 2 && at.x < width - at.wide / 2 && at.y < height - at.high / 2;
        if (inside && !placed.some(other => meets(at, other))) {
          placed.push(at);
          break;
        }
      }
    }
    return placed;
  }

  // What a list of numbers means: words of a kind (f, e, v, s) and a number. A bare number is of every kind, a loop its edges.
  function wantedIn(text, model) {
    const found = new Set(), means = {'': 'fev', '+': 'e', '-': 'e'};
    const loops = /[l@]/.test(text) ? Object.values(model.faces).flatMap(([, rows]) => rows) : [];
    for (const [, kind, number] of text.matchAll(/([fevsl@+-]?)(\d+)/g)) {
      if (kind !== 'l' && kind !== '@') {
        for (const one of kind in means ? means[kind] : kind) found.add(one + number);
        continue;
      }
      for (const [, halves, vertex] of loops.filter(([loop]) => loop === +number)) {
        for (const half of halves) found.add('e' + Math.abs(half));
        if (vertex) found.add('v' + vertex);
      }
    }
    return found;
  }

  return {distance, areaOf, changed, bounds, axes, extent, placed, middleOf, inBall, sceneOf, screenOf, pointOf, edgesOf, pick, named, isSeen, placeLabels, wantedIn};
})();
