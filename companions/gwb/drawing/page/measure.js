'use strict';
// Measures of things, exactly: whole numbers of any size, fractions and roots of fractions. No function here knows of the document.
const Measure = (() => {
  const big = values => values.map(BigInt);
  const dot = (a, b) => a[0] * b[0] + a[1] * b[1] + a[2] * b[2];
  const minus = (a, b) => a.map((x, i) => x - b[i]);
  const cross = (a, b) => [a[1] * b[2] - a[2] * b[1], a[2] * b[0] - a[0] * b[2], a[0] * b[1] - a[1] * b[0]];
  const abs = x => x < 0n ? -x : x;

  function divisor(a, b) {
    while (b) [a, b] = [b, a % b];
    return abs(a);
  }

  // The greatest whole number whose square is at most n, by Newton's steps from above.
  function rootBelow(n) {
    if (n < 2n) return n;
    let root = 1n << BigInt((n.toString(2).length + 1) >> 1);
    for (let next = (root + n / root) >> 1n; next < root; next = (root + n / root) >> 1n) root = next;
    return root;
  }

  // How many millimetres a coordinate has, above and below the line of a fraction.
  let unit = [1n, 1n];
  function setUnit(parts) { unit = big(parts); }

  const SIGNS = ['', ' mm', ' mm²', ' mm³'], powers = (above, below, power) => [above * unit[0] ** BigInt(power), below * unit[1] ** BigInt(power)];
  // A coordinate in millimetres, in ten digits where it is none of fewer; and a length, of which the square is given.
  const place = x => fraction(...powers(BigInt(x), 1n, 1)).split('≈ ').pop();
  const length = (above, below = 1n) => root(...powers(above, below, 2)) + SIGNS[1];

  // A plane for people: along an axis where it lies so, else by its shortest whole normal; and where it looks to.
  function plane(numbers) {
    const [a, b, c, d] = big(numbers), shared = [a, b, c].reduce(divisor) || 1n, normal = [a, b, c].map(x => x / shared);
    const axes = [0, 1, 2].filter(k => normal[k]), sign = axes.length === 1 ? normal[axes[0]] : 1n;
    const away = fraction(...powers(-d * sign, shared, 1)).split('≈ ').pop();
    if (axes.length === 1) return `${'xyz'[axes[0]]} = ${away} mm, looks to ${sign < 0n ? '-' : '+'}${'xyz'[axes[0]]}`;
    const terms = axes.map((k, i) => `${normal[k] < 0n ? '- ' : i ? '+ ' : ''}${abs(normal[k]) === 1n ? '' : abs(normal[k])}${'xyz'[k]}`);
    return axes.length ? `${terms.join(' ')} = ${away} mm, looks to ${normal.join(' ')}` : 'no plane';
  }

  const rounded = x => String(Number(x.toPrecision(10)));
  // A length of the model, which may lie between coordinates, in millimetres.
  const about = x => rounded(x * Number(unit[0]) / Number(unit[1]));

  // A fraction as text.
  function fraction(above, below = 1n) {
    const shared = divisor(above, below) || 1n, [n, d] = [above / shared, below / shared];
    return d === 1n ? String(n) : `${n}/${d} ≈ ${rounded(Number(n) / Number(d))}`;
  }

  // The root of a fraction as text, and whether it is a fraction itself.
  function root(above, below = 1n) {
    const shared = divisor(above, below) || 1n, [n, d] = [above / shared, below / shared], [p, q] = [rootBelow(n), rootBelow(d)];
    if (p * p === n && q * q === d) return fraction(p, q);
    return `√${d === 1n ? n : `(${n}/${d})`} ≈ ${rounded(Math.sqrt(Number(n) / Number(d)))}`;
  }

  // The angle whose cosine is a number over the root of another.
  function angle(above, squared) {
    const quarters = 4n * above * above, whole = [90, 60, 45, 30, 0].find((_, i) => quarters === [0n, 1n, 2n, 3n, 4n][i] * squared);
    if (whole !== undefined) return `${above < 0n ? 180 - whole : whole}°`;
    const cosine = Number(above) / Math.sqrt(Number(squared));
    return `≈ ${rounded(Math.acos(cosine) * 180 / Math.PI)}°, its cosine squared ${fraction(above * above, squared).split(' ')[0]}`;
  }

  // The thing as what is reckoned with: a point, and for an edge its direction, for a face its normal.
  function shape(model, {kind, number}) {
    if (kind === 'v') return {kind, point: big(model.vertices[number])};
    if (kind === 'e') {
      const [point, end] = model.edges[number].map(vertex => big(model.vertices[vertex]));
      return {kind, point, end, along: minus(end, point)};
    }
    const [, loops, plane] = model.faces[number], [, [half], lone] = loops[0];
    const corner = lone || (half > 0 ? model.edges[half][0] : model.edges[-half][1]);
    return {kind, point: big(model.vertices[corner]), normal: big(plane.slice(0, 3))};
  }

  const isFlat = (model, {kind, number}) => kind !== 'f' || (model.faces[number][3] && model.faces[number][2].slice(0, 3).some(x => x !== '0'));

  // A vertex and an edge: the distance from the edge, which ends, and from its line where that differs.
  function fromEdge(point, {point: start, end, along}) {
    const way = dot(minus(point, start), along), long = dot(along, along), across = cross(minus(point, start), along);
    if (long === 0n) return [['distance', length(dot(minus(point, start), minus(point, start)))]];
    const line = length(dot(across, across), long), nearest = way <= 0n ? start : way >= long ? end : null;
    if (!nearest) return [['distance', line]];
    return [['distance', length(dot(minus(point, nearest), minus(point, nearest)))], ['from its line', line]];
  }

  function fromPlane(point, {point: on, normal}) {
    const away = dot(minus(point, on), normal);
    return length(away * away, dot(normal, normal));
  }

  function betweenEdges(a, b) {
    const normal = cross(a.along, b.along), between = minus(b.point, a.point), square = dot(normal, normal), lines = dot(a.along, a.along) * dot(b.along, b.along);
    if (lines === 0n) return [['', 'an edge has no length']];
    if (square === 0n) {
      const across = cross(between, a.along);
      return [['angle', '0°'], ['distance of the lines', length(dot(across, across), dot(a.along, a.along))]];
    }
    const away = dot(between, normal);
    return [['angle', angle(abs(dot(a.along, b.along)), lines)], ['distance of the lines', length(away * away, square)]];
  }

  function edgeAndFace(edge, face) {
    const lean = dot(edge.along, face.normal), both = dot(edge.along, edge.along) * dot(face.normal, face.normal);
    if (both === 0n) return [['', 'the edge has no length']];
    if (lean === 0n) return [['angle', '0°'], ['distance from the plane', fromPlane(edge.point, face)]];
    const across = cross(edge.along, face.normal), sine = dot(across, across);
    return [['angle', sine === 0n ? '90°' : angle(sine, both * sine)]];
  }

  function betweenFaces(a, b) {
    const across = cross(a.normal, b.normal), both = dot(a.normal, a.normal) * dot(b.normal, b.normal);
    const told = [['angle of the normals', angle(dot(a.normal, b.normal), both)]];
    return across.some(Boolean) ? told : [...told, ['distance of the planes', fromPlane(a.point, b)]];
  }

  // What lies between two things, in lines of a name and a value.
  function between(model, first, second) {
    const bent = [first, second].find(it => !isFlat(model, it));
    if (bent) return [['', `face ${bent.number} isn't flat, or has no area`]];
    const order = 'vef', [a, b] = [first, second].map(it => shape(model, it)).sort((p, q) => order.indexOf(p.kind) - order.indexOf(q.kind));
    const way = minus(b.point, a.point);
    return {vv: () => [['distance', length(dot(way, way))], ['across x, y, z', `${way.map(x => place(abs(x))).join(' ')} mm`]], ve: () => fromEdge(a.point, b),
            vf: () => [['distance from the plane', fromPlane(a.point, b)]], ee: () => betweenEdges(a, b), ef: () => edgeAndFace(a, b),
            ff: () => betweenFaces(a, b)}[a.kind + b.kind]();
  }

  const number = values => values.map(Number);
  const along = (point, way, by) => point.map((x, i) => x + by * way[i]);
  const foot = (point, {point: on, normal}) => along(point, normal, -dot(minus(point, on), normal) / dot(normal, normal));
  const middle = ({point, end}) => end ? point.map((x, i) => (x + end[i]) / 2) : point;

  // Where the line of an edge, or with `isBounded` the edge itself, is nearest to a point.
  function onEdge(point, edge, isBounded) {
    const way = dot(minus(point, edge.point), edge.along) / (dot(edge.along, edge.along) || 1);
    return along(edge.point, edge.along, isBounded ? Math.max(0, Math.min(1, way)) : way);
  }

  // The points of two lines at which they are nearest; of parallel ones, those beside the middle of the first edge.
  function onLines(a, b) {
    const normal = cross(a.along, b.along), square = dot(normal, normal), between = minus(b.point, a.point);
    if (square === 0) return [middle(a), onEdge(middle(a), b, false)];
    return [along(a.point, a.along, dot(cross(between, b.along), normal) / square), along(b.point, b.along, dot(cross(between, a.along), normal) / square)];
  }

  // The two points whose distance is told of two things, as rounded numbers; null where no distance is.
  function ends(model, first, second) {
    if (![first, second].every(it => isFlat(model, it))) return null;
    const asNumbers = it => Object.fromEntries(Object.entries(shape(model, it)).map(([name, held]) => [name, name === 'kind' ? held : number(held)]));
    const order = 'vef', [a, b] = [first, second].map(asNumbers).sort((p, q) => order.indexOf(p.kind) - order.indexOf(q.kind));
    const isParallel = (p, q) => dot(p, q) === 0, {point} = a;
    return {vv: () => [point, b.point], ve: () => [point, onEdge(point, b, true)], vf: () => [point, foot(point, b)], ee: () => onLines(a, b),
            ef: () => isParallel(a.along, b.normal) ? [middle(a), foot(middle(a), b)] : null,
            ff: () => cross(a.normal, b.normal).some(Boolean) ? null : [point, foot(point, b)]}[a.kind + b.kind]();
  }

  const area = plane => root(...powers(dot(big(plane.slice(0, 3)), big(plane.slice(0, 3))), 4n, 4)) + SIGNS[2];
  const facesOf = (model, solid) => Object.values(model.faces).filter(row => row[0] === solid);

  // The vertices and edges of faces.
  function partsOf(model, faces) {
    const edges = new Set(), vertices = new Set();
    for (const [, loops] of faces) for (const [, halves, lone] of loops) {
      for (const half of halves) edges.add(Math.abs(half));
      if (lone) vertices.add(lone);
    }
    for (const edge of edges) for (const vertex of model.edges[edge]) vertices.add(vertex);
    return {edges, vertices};
  }

  // The volume, the area, the box and the counts of a solid, in lines of a name and a value.
  function solid(model, number) {
    const faces = facesOf(model, number), {edges, vertices} = partsOf(model, faces);
    const points = [...vertices].map(vertex => model.vertices[vertex]);
    const [low, high] = [Math.min, Math.max].map(one => [0, 1, 2].map(k => points.reduce((least, point) => one(least, point[k]), points[0][k])));
    const six = faces.reduce((sum, [, , plane]) => sum - BigInt(plane[3]), 0n);
    const sum = faces.reduce((all, [, , plane]) => all + Math.sqrt(Number(dot(big(plane.slice(0, 3)), big(plane.slice(0, 3))))) / 2, 0);
    const size = Number(unit[0]) / Number(unit[1]), points3 = [low, high].map(point => point.map(place).join(' '));
    return [['volume', fraction(...powers(six, 6n, 3)) + SIGNS[3]], ['area', `≈ ${rounded(sum * size * size)} mm²`], ['box', `${points3.join(' to ')} mm`],
            ['size', `${high.map((x, i) => place(x - low[i])).join(' × ')} mm`],
            ['counts', `${vertices.size} vertices, ${edges.size} edges, ${faces.length} faces`]];
  }

  // The measure of one thing: its length or its area.
  function own(model, {kind, number}) {
    if (kind === 'e') {
      const {along} = shape(model, {kind, number});
      return [['length', length(dot(along, along))], ['along', along.join(' ')]];
    }
    return kind === 'f' ? [['area', area(model.faces[number][2])]] : [];
  }

  return {about, between, ends, own, solid, facesOf, plane, place, setUnit};
})();
