'use strict';
// Draws a scene without WebGL: faces from the farthest to the nearest, and edges over them, or, where they are many, among them.
const Flat = (() => {
  const MANY = 2000;

  // How near the triangles are that face the viewer.
  function triangleDepths({triangles: {corners, faces}}, {on, front}) {
    const depths = new Float64Array(faces.length);
    for (const i of front) for (let k = 3 * i; k < 3 * i + 3; k++) depths[i] += on[3 * corners[k] + 2] / 3;
    return depths;
  }

  // How near the edges are: a little nearer than the triangles of which they are sides, or where there is none, as near as their middles.
  function edgeDepths(scene, {on, front}, depths) {
    const {triangles: {corners}, edges: {starts, ends}} = scene, count = scene.spots.length / 3, sides = new Map();
    const key = (a, b) => Math.min(a, b) * count + Math.max(a, b);
    for (const i of front) for (let k = 0; k < 3; k++) {
      const side = key(corners[3 * i + k], corners[3 * i + (k + 1) % 3]);
      sides.set(side, Math.max(depths[i], sides.get(side) ?? -Infinity));
    }
    return Float64Array.from(starts, (start, i) => (sides.get(key(start, ends[i])) ?? (on[3 * start + 2] + on[3 * ends[i] + 2]) / 2) + 1e-9);
  }

  // A triangle, and, where nothing is seen through it, its sides, so that no gap is left between it and its neighbours.
  function drawTriangle(pen, scene, screen, look, i) {
    const {on} = screen, {corners, faces, normals} = scene.triangles;
    const light = screen.basis.stand.reduce((sum, x, k) => sum + x * normals[3 * i + k], 0);
    pen.fillStyle = pen.strokeStyle = look.css(look.fill(faces[i]).map(x => x * (.6 + .4 * light)));
    pen.beginPath();
    for (let k = 3 * i; k < 3 * i + 3; k++) pen.lineTo(on[3 * corners[k]], on[3 * corners[k] + 1]);
    pen.closePath();
    pen.fill();
    pen.lineWidth = .7;
    if (!look.isXray) pen.stroke();
  }

  function drawFaces(pen, scene, screen, look, depths) {
    pen.globalAlpha = look.isXray ? .35 : 1;
    for (const i of Int32Array.from(screen.front).sort((a, b) => depths[a] - depths[b])) drawTriangle(pen, scene, screen, look, i);
    pen.globalAlpha = 1;
  }

  // Whether an edge is seen: exactly where they are few, else by the faces beside it.
  function isSeen(scene, screen, i) {
    const {numbers, starts, ends, lefts, rights} = scene.edges;
    if (numbers.length > MANY) return lefts[i] < 0 || screen.seenFaces[lefts[i]] || screen.seenFaces[rights[i]];
    const [a, b] = [screen.spot(starts[i]), screen.spot(ends[i])];
    return Picture.isSeen(scene, screen, a.map((x, k) => (x + b[k]) / 2));
  }

  // How an edge is drawn: lit, seen or hidden, or, by its angle, not at all.
  function kindOf(scene, screen, look, i) {
    if (look.isLit(i)) return 'lit';
    if (scene.edges.cosines[i] > look.cosine) return '';
    return look.isXray || isSeen(scene, screen, i) ? 'seen' : 'hidden';
  }

  function addEdge(path, {edges: {starts, ends}}, {on}, i) {
    path.moveTo(on[3 * starts[i]], on[3 * starts[i] + 1]);
    path.lineTo(on[3 * ends[i]], on[3 * ends[i] + 1]);
  }

  function setInk(pen, ink, wide, alpha) {
    pen.strokeStyle = ink;
    pen.lineWidth = wide;
    pen.globalAlpha = alpha;
  }

  // Draws the edges of some kinds over all that is drawn.
  function drawEdges(pen, scene, screen, look, kinds) {
    const paths = {lit: new Path2D(), seen: new Path2D(), hidden: new Path2D()};
    kinds.forEach((kind, i) => { if (kind) addEdge(paths[kind], scene, screen, i); });
    setInk(pen, look.ink, 2 * look.pen.half, .25);
    if (look.isHidden) pen.stroke(paths.hidden);
    setInk(pen, look.ink, 2 * look.pen.half, look.pen.alpha);
    pen.stroke(paths.seen);
    setInk(pen, '#e04000', 3.5, 1);
    pen.stroke(paths.lit);
  }

  // Draws faces and the edges that are seen in one order, so that what is nearer covers both.
  function drawAmong(pen, scene, screen, look, depths, kinds) {
    const count = depths.length, nears = edgeDepths(scene, screen, depths), near = i => i < count ? depths[i] : nears[i - count];
    const edges = kinds.flatMap((kind, i) => kind === 'seen' ? [count + i] : []);
    for (const i of Int32Array.from([...screen.front, ...edges]).sort((a, b) => near(a) - near(b))) {
      pen.globalAlpha = 1;
      if (i < count) {
        drawTriangle(pen, scene, screen, look, i);
        continue;
      }
      setInk(pen, look.ink, 2 * look.pen.half, look.pen.alpha);
      pen.beginPath();
      addEdge(pen, scene, screen, i - count);
      pen.stroke();
    }
  }

  // Draws the scene; `look` says how: colours, what is lit, hidden lines, x-ray and the pen.
  function draw(canvas, view, scene, screen, look) {
    const pen = canvas.getContext('2d'), depths = triangleDepths(scene, screen);
    const kinds = Array.from(scene.edges.numbers, (_, i) => kindOf(scene, screen, look, i)), areAmong = kinds.length > MANY && !look.isXray;
    pen.setTransform(canvas.width / view.width, 0, 0, canvas.height / view.height, 0, 0);
    pen.clearRect(0, 0, view.width, view.height);
    if (areAmong) drawAmong(pen, scene, screen, look, depths, kinds); else drawFaces(pen, scene, screen, look, depths);
    drawEdges(pen, scene, screen, look, areAmong ? kinds.map(kind => kind === 'seen' ? '' : kind) : kinds);
    pen.globalAlpha = 1;
  }

  return {draw};
})();
