'use strict';
// A scene cut by a plane: what lies beyond it, along its normal, is left out, and each solid is closed by a cap.
const Section = (() => {
  const TOUCHING = 1e-9;

  // The cut scene. The plane has a normal of length one and lies so far along it, in the unit ball.
  function cut(scene, plane) {
    const far = heights(scene.spots, plane), gone = new Uint8Array(far.length);
    for (let i = 0; i < far.length; i++) gone[i] = far[i] > TOUCHING ? 1 : 0;
    const work = {scene, heights: far, gone, count: far.length, added: [], crossings: new Map(), segments: new Map()};
    const rows = {corners: [], normals: [], offsets: [], faces: []}, edges = keptEdges(work), kept = cutTriangles(work, rows);
    for (const [solid, segments] of work.segments) putCap(work, rows, edges, solid, segments, plane);
    return {...scene, gone, spots: joined(scene.spots, work.added), triangles: keptTriangles(scene.triangles, kept, rows),
            edges: Picture.edgesOf(edges, scene.edges.normals)};
  }

  function joined(first, more) {
    const made = new Float64Array(first.length + more.length);
    made.set(first);
    made.set(more, first.length);
    return made;
  }

  // The triangles that are kept whole, and more.
  function keptTriangles({corners, normals, offsets, faces}, kept, rows) {
    const both = (numbers, more, each) => {
      const made = new numbers.constructor(each * kept.length + more.length);
      for (let at = 0; at < kept.length; at++) for (let k = 0; k < each; k++) made[each * at + k] = numbers[each * kept[at] + k];
      made.set(more, each * kept.length);
      return made;
    };
    return {corners: both(corners, rows.corners, 3), normals: both(normals, rows.normals, 3), offsets: both(offsets, rows.offsets, 1), faces: both(faces, rows.faces, 1)};
  }

  // Cuts the triangles that the plane crosses: the numbers of those that are kept whole.
  function cutTriangles(work, rows) {
    const {corners, faces} = work.scene.triangles, {gone} = work, kept = [];
    for (let i = 0; i < faces.length; i++) {
      const count = gone[corners[3 * i]] + gone[corners[3 * i + 1]] + gone[corners[3 * i + 2]];
      if (count === 0) kept.push(i); else if (count < 3) cutTriangle(work, rows, faces[i], i, count);
    }
    return kept;
  }

  // How far spots lie beyond the plane.
  function heights(spots, {normal, offset}) {
    const found = new Float64Array(spots.length / 3);
    for (let i = 0; i < found.length; i++) found[i] = normal[0] * spots[3 * i] + normal[1] * spots[3 * i + 1] + normal[2] * spots[3 * i + 2] - offset;
    return found;
  }

  // The spot at which the plane crosses the way between two spots: one for each way.
  function crossing(work, a, b) {
    if (a > b) return crossing(work, b, a);
    const key = a * work.count + b, {heights: height, added, scene: {spots}} = work;
    if (!work.crossings.has(key)) {
      const way = height[a] / (height[a] - height[b]);
      work.crossings.set(key, work.count + added.length / 3);
      for (let k = 0; k < 3; k++) added.push(spots[3 * a + k] + way * (spots[3 * b + k] - spots[3 * a + k]));
    }
    return work.crossings.get(key);
  }

  function putTriangle(rows, corners, normal, offset, face) {
    rows.corners.push(...corners);
    rows.normals.push(...normal);
    rows.offsets.push(offset);
    rows.faces.push(face);
  }

  // What is left of a triangle that the plane crosses, so many of whose corners are gone; where it crosses is a side of the cap.
  function cutTriangle(work, rows, face, i, count) {
    const {corners, normals, offsets} = work.scene.triangles, three = corners.subarray(3 * i, 3 * i + 3), normal = normals.subarray(3 * i, 3 * i + 3);
    const alone = [0, 1, 2].find(k => work.gone[three[k]] === (count === 1 ? 1 : 0)), [tip, next, last] = [0, 1, 2].map(k => three[(alone + k) % 3]);
    const there = crossing(work, tip, next), back = crossing(work, tip, last), solid = work.scene.solidOf(face);
    if (count === 2) putTriangle(rows, [tip, there, back], normal, offsets[i], face);
    else for (const kept of [[there, next, last], [there, last, back]]) putTriangle(rows, kept, normal, offsets[i], face);
    if (work.segments.has(solid)) work.segments.get(solid).push([there, back]); else work.segments.set(solid, [[there, back]]);
  }

  function putEdge(rows, number, start, end, left, right, cosine) {
    rows.numbers.push(number);
    rows.starts.push(start);
    rows.ends.push(end);
    rows.lefts.push(left);
    rows.rights.push(right);
    rows.cosines.push(cosine);
  }

  // The edges that are left, or what is left of them.
  function keptEdges(work) {
    const {numbers, starts, ends, lefts, rights, cosines} = work.scene.edges;
    const rows = {numbers: [], starts: [], ends: [], lefts: [], rights: [], cosines: []};
    for (let i = 0; i < numbers.length; i++) {
      let a = starts[i], b = ends[i];
      if (work.gone[a] && work.gone[b]) continue;
      if (work.gone[a]) a = crossing(work, a, b); else if (work.gone[b]) b = crossing(work, a, b);
      putEdge(rows, numbers[i], a, b, lefts[i], rights[i], cosines[i]);
    }
    return rows;
  }

  // Two directions across a normal of length one and each other.
  function axesOf(normal) {
    const across = Math.abs(normal[2]) < .9 ? [-normal[1], normal[0], 0] : [0, -normal[2], normal[1]], long = Math.hypot(...across);
    const u = across.map(x => x / long), v = [0, 1, 2].map(k => normal[(k + 1) % 3] * u[(k + 2) % 3] - normal[(k + 2) % 3] * u[(k + 1) % 3]);
    return [u, v];
  }

  // The cap of a solid, as the face below zero that has the solid's number, and its outline, as edges without a number.
  function putCap(work, rows, edges, solid, segments, {normal, offset}) {
    const [u, v] = axesOf(normal);
    const flat = spot => [u, v].map(axis => axis.reduce((sum, x, k) => sum + x * work.added[3 * (spot - work.count) + k], 0));
    const put = ([x, y]) => work.count + work.added.push(...normal.map((n, k) => n * offset + u[k] * x + v[k] * y)) / 3 - 1;
    for (const [start, end] of segments) putEdge(edges, 0, start, end, -solid, -solid, -1);
    for (const corners of trapezoids(segments.map(ends => ends.map(flat)))) {
      const [a, b, c, d] = corners.map(put);
      putTriangle(rows, [a, b, c], normal, offset, -solid);
      putTriangle(rows, [a, c, d], normal, offset, -solid);
    }
  }

  // How far to the right a side lies at a level.
  const rightOf = ({low, high}, level) => low[0] + (level - low[1]) / (high[1] - low[1]) * (high[0] - low[0]);

  // The region that closed outlines bound, each place inside an odd number of them, as trapezoids with level sides: their corners, to the left.
  // The lines from each corner to the right and left cut it into them.
  function trapezoids(segments) {
    const sides = segments.filter(([p, q]) => p[1] !== q[1]).map(([p, q]) => p[1] < q[1] ? {low: p, high: q} : {low: q, high: p});
    const levels = [...new Set(sides.flatMap(({low, high}) => [low[1], high[1]]))].sort((a, b) => a - b), found = [];
    sides.sort((a, b) => a.low[1] - b.low[1]);
    let active = [], next = 0, open = new Map();
    levels.forEach((level, k) => {
      active = active.filter(({high}) => high[1] > level);
      while (next < sides.length && sides[next].low[1] <= level) active.push(sides[next++]);
      const still = pairs(active, k + 1 < levels.length ? (level + levels[k + 1]) / 2 : level);
      for (const [left, begun] of open) {
        if (still.has(left) && still.get(left).right === begun.right) still.get(left).bottom = begun.bottom;
        else found.push(trapezoid(left, begun.right, begun.bottom, level));
      }
      for (const begun of still.values()) if (begun.bottom === null) begun.bottom = level;
      open = still;
    });
    return found;
  }

  // The sides between which the region lies at a level: by the left one the right one.
  function pairs(active, level) {
    const order = active.map(side => [rightOf(side, level), side]).sort((a, b) => a[0] - b[0]), found = new Map();
    for (let i = 0; i + 1 < order.length; i += 2) found.set(order[i][1], {right: order[i + 1][1], bottom: null});
    return found;
  }

  const trapezoid = (left, right, bottom, top) =>
    [[left, bottom], [right, bottom], [right, top], [left, top]].map(([side, level]) => [rightOf(side, level), level]);

  return {axesOf, cut};
})();
