'use strict';
// What the page does: its state, its frames, the pointer, the keys and the address.
const View = (() => {
  const {at, element, say} = Panels;
  const PALETTE = [[.45, .65, .86], [.93, .72, .42], [.55, .77, .53], [.83, .56, .62], [.66, .6, .82], [.5, .76, .76], [.8, .75, .5], [.68, .68, .7]];
  const LIT = [1, .55, .15], MADE = [1, .8, .3], APART = .6, FILM = 6000, SHOT = 800, STILL = 300, FADE = 250, CORNER = {turn: Math.atan2(-3, 2), lift: .507};
  const degrees = angle => Math.cos(angle * Math.PI / 180) + 1e-6;
  // Which edges are drawn: by the least angle of the faces beside them, as its cosine.
  const EDGES = [{name: 'auto', cosine: null}, {name: 'all', cosine: 2}, {name: 'from 5°', cosine: degrees(5)}, {name: 'from 15°', cosine: degrees(15)},
                 {name: 'from 30°', cosine: degrees(30)}, {name: 'none', cosine: -2}];
  const MANY_SHALLOW = 500, SHALLOW = 3, HANDLE = 9;
  const data = JSON.parse(at('data').textContent), over = at('labels'), pen = over.getContext('2d');
  const isCalm = matchMedia('(prefers-reduced-motion: reduce)'), isDark = matchMedia('(prefers-color-scheme: dark)');
  const state = {step: 0, off: new Set(), isHidden: false, isXray: false, isPerspective: false, numbers: 0, edges: 0, cut: null, picked: null,
                 measured: null, wanted: '', lit: new Set(), made: new Set(), apart: 0, pointer: null, copied: '', labels: []};
  const view = {...CORNER, zoom: 1, right: 0, down: 0, width: 1, height: 1, perspective: false};
  const models = new Map([[0, Picture.changed({}, data.frames[0].change)]]);
  // The rows of the list of steps: what each is called, and its first and last frame.
  const rows = [];
  data.frames.forEach(({row}, i) => {
    if (!i || row) rows.push({name: row || 'the empty workbench', first: i, last: i}); else rows[rows.length - 1].last = i;
  });
  const fingers = new Map();
  const fitted = {zoom: 1, is: true, glide: 0};
  let front = at('solid'), moved = 0, whole = null, screen = null, gl = null, isLost = false;
  let ball = null, points = [], spots = null, asked = false, timer = null, held = null;
  const drawnEdges = {cosine: 2, room: Infinity};
  let drawn = '', placed = '', look = null, isCutStale = false, isSceneStale = false;

  // The model after a step; one in 32 is kept to start from.
  function modelAt(step) {
    let from = step;
    while (!models.has(from)) from--;
    let found = models.get(from);
    while (from < step) {
      found = Picture.changed(found, data.frames[++from].change);
      if (from % 32 === 0) models.set(from, found);
    }
    return found;
  }

  // --- how things look
  const theme = name => getComputedStyle(document.documentElement).getPropertyValue(name).trim();
  const css = rgb => `rgb(${rgb.map(x => Math.round(255 * Math.min(1, x))).join(',')})`;
  const parts = hex => [1, 3, 5].map(i => parseInt(hex.slice(i, i + 2), 16));
  const given = {f: new Map(), s: new Map()};
  for (const [key, colour] of Object.entries(data.colours || {})) given[key[0]].set(+key.slice(1), parts(colour).map(x => x / 255));

  // The colour of a face; of one below zero that of the solid with its number.
  function colourOf(face) {
    const solid = face < 0 ? -face : app.model.faces[face][0];
    return given.f.get(face) || given.s.get(solid) || PALETTE[(solid - 1) % PALETTE.length];
  }

  const chosen = () => [...state.lit, ...[state.picked, ...(state.measured || [])].filter(Boolean).map(it => it.kind + it.number)];

  // The least angle of faces whose edge is drawn: by choice, or, where edges of shallow angles are many, such as are none.
  function cosineOf({cosines}) {
    if (EDGES[state.edges].cosine !== null) return EDGES[state.edges].cosine;
    return cosines.filter(cosine => cosine > EDGES[SHALLOW].cosine).length > MANY_SHALLOW ? EDGES[SHALLOW].cosine : EDGES[1].cosine;
  }

  // How much room the faces have for each length of the edges that are drawn, in radii; endless where there are none.
  function roomOf({spots: all, triangles: {corners}, areNone, edges: {starts, ends, lefts, cosines}}, cosine) {
    const [point, bare] = [i => Picture.pointOf({spots: all}, i), new Set(areNone)];
    let length = 0, area = 0;
    for (let i = 0; i < starts.length; i++) if (cosines[i] <= cosine && !bare.has(lefts[i])) length += Picture.distance(point(starts[i]), point(ends[i]));
    for (let i = 0; i < corners.length; i += 3) area += Picture.areaOf(point(corners[i]), point(corners[i + 1]), point(corners[i + 2]));
    return area / length || Infinity;
  }

  // Which edges are drawn, and how much room the faces leave them: reckoned where the whole scene, or the choice, is another.
  function chooseEdges() {
    drawnEdges.cosine = cosineOf(whole.edges);
    drawnEdges.room = roomOf(whole, drawnEdges.cosine);
  }

  // What is lit, by kinds.
  function litNow() {
    const lit = {f: new Set(), e: new Set(), s: new Set(), v: new Set()};
    for (const key of chosen()) lit[key[0]].add(+key.slice(1));
    return lit;
  }

  // Colours what is drawn anew.
  function recolour() {
    const lit = litNow(), {scene} = app, {numbers, lefts} = scene.edges, {made} = state;
    for (const key of made) if (key[0] === 'e') lit.e.add(+key.slice(1));
    const isAny = lit.e.size + lit.s.size > 0;
    look = {cosine: drawnEdges.cosine, css, ink: parts(theme('--edge')),
            fill: face => lit.f.has(face) || lit.s.has(scene.solidOf(face)) ? LIT : made.size && made.has('f' + face) ? MADE : colourOf(face),
            isEdgeLit: i => isAny && (lit.e.has(numbers[i]) || lit.s.has(scene.solidOf(lefts[i])))};
    if (gl) gl.dress(look);
    drawn = '';
  }

  // Half the width of an edge and how dense its ink is: edges that are many, or far away, are thin and pale, so that a quarter of the
  // faces is covered at most: half of the edges is seen, and half of the half of the faces' area that looks to the viewer.
  function penOf() {
    const wide = Math.min(99, .25 * view.zoom * drawnEdges.room), most = Math.max(.75, 1 / (devicePixelRatio || 1));
    return {half: Math.max(.4, Math.min(most, wide / 2)), alpha: Math.max(.06, Math.min(1, wide / .8))};
  }

  // --- numbers
  function wanted() {
    const near = state.pointer && !fingers.size ? 80 : 0, {scene} = app;
    return Picture.named(scene, screen, chosen(), state.pointer || [view.width / 2, view.height / 2],
                         [near, fingers.size && scene.things.length > 5000 ? 0 : Infinity, 0][state.numbers]);
  }

  // The vertices that are lit, or all where there is no edge.
  function drawVertices() {
    const {scene} = app, lit = new Set(chosen().filter(key => key[0] === 'v').map(key => +key.slice(1)));
    const shown = scene.edges.numbers.length ? [...lit].filter(number => number in scene.at.v) : Object.keys(scene.at.v).map(Number);
    for (const number of shown) {
      const spot = screen.spot(scene.at.v[number]);
      pen.fillStyle = lit.has(number) ? '#e04000' : theme('--edge');
      pen.beginPath();
      pen.arc(spot[0], spot[1], lit.has(number) ? 6 : 4, 0, 7);
      pen.fill();
    }
    return shown.length;
  }

  // The edges that are lit, where edges are drawn too thin to show it.
  function drawLitEdges() {
    const {scene} = app, shown = penOf().half < 1.2 ? [...chosen(), ...state.made].filter(key => key[0] === 'e' && scene.at.e[key.slice(1)] >= 0) : [];
    const spots = scene.at.v, ends = shown.map(key => app.model.edges[key.slice(1)].map(vertex => screen.spot(spots[vertex])));
    pen.strokeStyle = '#e04000';
    pen.lineWidth = 3;
    for (const [a, b] of ends) {
      pen.beginPath();
      pen.moveTo(a[0], a[1]);
      pen.lineTo(b[0], b[1]);
      pen.stroke();
    }
    return shown.length;
  }

  // A line of several screen points.
  function strokeLine(points, isClosed = false) {
    pen.beginPath();
    points.forEach(([x, y], i) => i ? pen.lineTo(x, y) : pen.moveTo(x, y));
    if (isClosed) pen.closePath();
    pen.stroke();
  }

  // The line along which a distance was measured, with a stroke at each end, and its length.
  function drawMeasured() {
    const things = state.measured || [], ends = things.length === 2 && !state.apart ? Measure.ends(app.model, ...things) : null;
    state.line = ends && ends.map(app.place);
    if (!ends) return 0;
    const [[ax, ay], [bx, by]] = state.line, long = Math.hypot(bx - ax, by - ay) || 1, [x, y] = [6 * (ay - by) / long, 6 * (bx - ax) / long];
    const [, told = ''] = Measure.between(app.model, ...things).find(([name]) => name.startsWith('distance')) || [];
    for (const [colour, width] of [[theme('--halo'), 6], [theme('--point'), 2]]) {
      [pen.strokeStyle, pen.lineWidth] = [colour, width];
      strokeLine(state.line);
      for (const [u, v] of state.line) strokeLine([[u - x, v - y], [u + x, v + y]]);
    }
    pen.font = 'bold 14px system-ui, sans-serif';
    [pen.lineWidth, pen.strokeStyle, pen.fillStyle] = [4, theme('--halo'), theme('--point')];
    const text = [told.split('≈ ').pop(), (ax + bx) / 2 + 2.2 * x, (ay + by) / 2 + 2.2 * y];
    pen.strokeText(...text);
    pen.fillText(...text);
    return 1;
  }

  // The outline of the section's plane, and its handle with the way along which it is dragged.
  function drawHandle() {
    const handle = cutHandle();
    if (!handle) return 0;
    const {at: [x, y], way: [u, v], outline} = handle, long = Math.hypot(u, v), [p, q] = long > 1e-6 ? [u / long, v / long] : [0, 0];
    pen.strokeStyle = theme('--side');
    pen.lineWidth = 1.5;
    pen.setLineDash([6, 4]);
    strokeLine(outline, true);
    pen.setLineDash([]);
    pen.fillStyle = theme('--key');
    pen.beginPath();
    pen.arc(x, y, HANDLE, 0, 7);
    pen.fill();
    pen.stroke();
    pen.lineWidth = 2;
    for (const sign of p || q ? [1, -1] : []) {
      const tip = [x + 24 * sign * p, y + 24 * sign * q], back = side => [tip[0] - 7 * sign * p - 5 * side * q, tip[1] - 7 * sign * q + 5 * side * p];
      strokeLine([[x + HANDLE * sign * p, y + HANDLE * sign * q], tip]);
      strokeLine([back(1), tip, back(-1)]);
    }
    return 1;
  }

  function drawLabels() {
    pen.setTransform(over.width / view.width, 0, 0, over.height / view.height, 0, 0);
    if (state.written) pen.clearRect(0, 0, view.width, view.height);
    pen.textAlign = 'center';
    pen.textBaseline = 'middle';
    const marks = drawVertices() + drawLitEdges(), colours = {f: theme('--face'), e: theme('--side'), v: theme('--point')}, names = data.names || {};
    const font = kind => `${kind === 'f' ? 'bold 15' : '13'}px system-ui, sans-serif`;
    const labels = wanted().map(it => {
      pen.font = font(it.kind);
      const text = [it.number, names[it.kind + it.number]].filter(Boolean).join(' ');
      return {...it, text, x: it.spot[0], y: it.spot[1], wide: pen.measureText(text).width, high: 14};
    });
    state.labels = Picture.placeLabels(labels, view.width, view.height);
    for (const label of state.labels) {
      pen.font = font(label.kind);
      pen.lineWidth = 3.5;
      pen.strokeStyle = theme('--halo');
      pen.fillStyle = colours[label.kind];
      pen.strokeText(label.text, label.x, label.y);
      pen.fillText(label.text, label.x, label.y);
    }
    state.written = marks + state.labels.length + drawMeasured() + drawHandle();
    over.style.opacity = state.written ? 1 : 0;
  }

  // --- frames: the model is drawn where something of it changed; while it turns and a frame takes long, less sharply, at last without edges
  const pace = {level: 1, frames: [], last: 0, timer: null};
  const sharpness = () => {
    const sharp = Math.min(gl ? Math.max(2, devicePixelRatio || 1) : devicePixelRatio || 1, 4096 / Math.max(view.width, view.height));
    return pace.timer ? [sharp, 1, .6, .4, .4][pace.level] : sharp;
  };

  function measureSize() {
    const scale = sharpness(), wide = Math.round(view.width * scale), high = Math.round(view.height * scale);
    if (front.width !== wide || front.height !== high) [front.width, front.height] = [wide, high];
  }

  // Goes by the middle one of the last frames' times.
  function keepPace(time) {
    if (time - pace.last < 2000) pace.frames.push(time - pace.last);
    pace.last = time;
    const middle = [...pace.frames].sort((a, b) => a - b)[pace.frames.length >> 1];
    const change = pace.frames.length > 3 && middle > 26 ? 1 : pace.frames.length > 30 && middle < 18 ? -1 : 0;
    if (pace.frames.length > 30 || change) pace.frames = [];
    pace.level = Math.max(0, Math.min(4, pace.level + change));
  }

  // Sharp again, where no finger is down and nothing was drawn for a while.
  function rest() {
    pace.timer = fingers.size ? setTimeout(rest, 200) : null;
    if (pace.timer) return;
    pace.frames = [];
    pace.last = 0;
    ask();
  }

  function restLater() {
    clearTimeout(pace.timer);
    pace.timer = setTimeout(rest, 200);
  }

  function move() {
    restLater();
    ask();
  }

  function draw(time) {
    asked = false;
    if (isSceneStale) show();
    if (isCutStale) recut();
    if (pace.timer) restLater();
    if (time && pace.timer) keepPace(time);
    measureSize();
    const place = [view.turn, view.lift, view.zoom, view.right, view.down, view.perspective, view.width, view.height].join();
    const now = [place, front.width, front.height, state.isHidden, state.isXray].join();
    if (now !== drawn) paint(place);
    drawn = now;
    drawLabels();
  }

  function paint(place) {
    if (place !== placed || screen.scene !== app.scene) screen = Picture.screenOf(app.scene, view);
    placed = place;
    Panels.showTriad(screen.basis);
    if (soft.of !== screen) soft.level = 0;
    const how = {isHidden: state.isHidden, isXray: state.isXray, pen: penOf(), softness: soft.level};
    if (gl && !isLost) gl.draw(view, screen, how, pace.timer ? pace.level : 0);
    clearTimeout(soft.timer);
    if (!soft.level) soft.timer = setTimeout(softenSlowly, STILL);
    if (!gl) Flat.draw(front, view, app.scene, screen, {...look, ...how, ink: theme('--edge'), isLit: look.isEdgeLit});
  }

  // Soft occlusion comes in by and by where the picture stands still, so it costs a model that turns nothing.
  const soft = {of: null, level: 0, timer: null};

  function soften(level) {
    if (!gl || isLost || !screen || state.isXray) return false;
    if (soft.of !== screen) gl.soften(view, screen);
    Object.assign(soft, {of: screen, level});
    drawn = '';
    ask();
    return true;
  }

  function softenSlowly() {
    const now = screen, begun = performance.now();
    const step = time => screen === now && soften(Math.max(.01, Math.min(1, isCalm.matches ? 1 : (time - begun) / FADE))) && soft.level < 1 && requestAnimationFrame(step);
    if (!pace.timer) requestAnimationFrame(step);
  }

  function ask() {
    if (!asked) requestAnimationFrame(draw);
    asked = true;
  }

  // A lost context of WebGL comes back; where it doesn't for some seconds, the model is drawn without it.
  function watchContext() {
    let waiting = null;
    front.addEventListener('webglcontextlost', event => {
      event.preventDefault();
      isLost = true;
      waiting = setTimeout(withoutWebGL, 3000);
    });
    front.addEventListener('webglcontextrestored', () => {
      clearTimeout(waiting);
      isLost = false;
      gl = Painter.on(front);
      soft.of = null;
      if (gl) gl.take(app.scene); else withoutWebGL();
      recolour();
      ask();
    });
  }

  function withoutWebGL() {
    const next = front.cloneNode();
    front.replaceWith(next);
    [front, gl, isLost, drawn] = [next, null, false, ''];
    ask();
  }

  // --- what is shown
  function choose(picked) {
    if (state.measured) {
      const before = state.measured.length < 2 ? state.measured.filter(it => !picked || it.kind !== picked.kind || it.number !== picked.number) : [];
      if (picked && picked.kind !== 's') state.measured = [...before, picked];
      if (picked) say(`${Panels.title(app, picked)} measured`);
    } else {
      state.picked = picked;
      if (picked) Panels.copy(app, (picked.kind === 'e' ? '+' : '') + picked.number, `${Panels.title(app, picked)} picked, `); else say('nothing picked');
    }
    Panels.showInfo(app);
    recolour();
    ask();
  }

  function unpick() {
    if (state.measured) toggleMeasure(); else choose(null);
  }

  function toggleMeasure() {
    state.measured = state.measured ? null : state.picked && state.picked.kind !== 's' ? [state.picked] : [];
    state.picked = null;
    Panels.showInfo(app);
    recolour();
  }

  const isThere = ({kind, number}) => kind === 's' ? app.solids.includes(number)
    : {f: app.model.faces, e: app.model.edges, v: app.model.vertices}[kind][number] && (kind !== 'e' || whole.sides.of(number));

  function show() {
    app.model = modelAt(state.step);
    app.solids = [...new Set(Object.values(app.model.faces).map(row => row[0]))].sort((a, b) => a - b);
    isSceneStale = false;
    whole = Picture.sceneOf(app.model, ball, state.off, shifts());
    if (state.apart) {
      spots = whole.spots;
      refit();
    }
    if (state.picked && !isThere(state.picked)) state.picked = null;
    if (state.measured) state.measured = state.measured.filter(isThere);
    state.lit = Picture.wantedIn(state.wanted, app.model);
    chooseEdges();
    recut();
    Panels.showList(app);
    Panels.showInfo(app);
    ask();
  }

  // How far each solid is moved from the middle of all, in the unit ball: as far as it lies from it, times the place of the slider; null where none is.
  function shifts() {
    if (!state.apart || app.solids.length < 2) return null;
    const held = new Map();
    for (const [solid, loops] of Object.values(app.model.faces)) {
      if (!held.has(solid)) held.set(solid, []);
      for (const [, halves] of loops) for (const half of halves) held.get(solid).push(app.model.vertices[app.model.edges[Math.abs(half)][0]]);
    }
    return new Map([...held].map(([solid, all]) => [solid, Picture.inBall(Picture.bounds(all).middle, ball).map(x => x * state.apart)]));
  }

  // Moves solids apart: the ball grows with them, so that all of it stays in sight.
  function moveApart(by) {
    state.apart = by;
    at('apart').value = by;
    ball = {...Picture.bounds(points)};
    ball.radius *= 1 + by;
    spots = Float64Array.from(points.flatMap(point => Picture.inBall(point, ball)).map(x => x * (1 + by)));
    isSceneStale = true;
    refit();
  }

  // The scene as it is cut.
  function recut() {
    isCutStale = false;
    const plane = state.cut && cutPlane();
    app.scene = plane ? Section.cut(whole, plane) : whole;
    if (gl) gl.take(app.scene);
    recolour();
  }

  function turnOff(solids, isOff) {
    for (const solid of solids) if (isOff) state.off.add(solid); else state.off.delete(solid);
    show();
  }

  // One solid alone; where it is that already, all.
  function isolate(solid) {
    const isAlone = !state.off.has(solid) && state.off.size === app.solids.length - 1;
    state.off = new Set(isAlone ? [] : app.solids.filter(other => other !== solid));
    show();
  }

  // --- the section
  // Its normal and the place at which it begins, or null where its face has gone.
  function cutAxis() {
    const {axis, face} = state.cut;
    if (axis !== 'f') return {normal: [0, 1, 2].map(k => k === axis ? 1 : 0), base: 0};
    const row = app.model.faces[face];
    if (!row) return null;
    const across = row[2].slice(0, 3).map(Number), long = Math.hypot(...across), normal = across.map(x => x / long);
    return {normal, base: -Number(row[2][3]) / long};
  }

  // The plane in the unit ball, beyond which all is left out.
  function cutPlane() {
    const found = cutAxis();
    if (!found) return null;
    const {normal, base} = found, middle = normal.reduce((sum, x, k) => sum + x * ball.middle[k], 0), sign = state.cut.isTurned ? -1 : 1;
    return {normal: normal.map(x => sign * x), offset: sign * (base + state.cut.place - middle) / ball.radius};
  }

  // The section's handle on the screen: where it is, how far it goes with a length of the model, and the corners of the plane's outline; null
  // where there is no section.
  function cutHandle() {
    const found = state.cut && cutAxis();
    if (!found) return null;
    const {normal, base} = found, away = base + state.cut.place - normal.reduce((sum, x, k) => sum + x * ball.middle[k], 0);
    const middle = ball.middle.map((x, k) => x + away * normal[k]), unit = .2 * ball.radius, [u, v] = Section.axesOf(normal);
    const by = (p, q) => middle.map((x, k) => x + .75 * ball.radius * (p * u[k] + q * v[k]));
    const [here, there] = [middle, middle.map((x, k) => x + unit * normal[k])].map(point => app.place(point));
    return {at: here, way: [(there[0] - here[0]) / unit, (there[1] - here[1]) / unit],
            outline: [[-1, -1], [1, -1], [1, 1], [-1, 1]].map(([p, q]) => app.place(by(p, q)))};
  }

  // Whether a place of the screen is on the handle.
  function isOnHandle(x, y) {
    const handle = cutHandle();
    return handle !== null && Math.hypot(handle.at[0] - x, handle.at[1] - y) <= HANDLE + 8;
  }

  // Moves the section with the pointer: by so much of its move as lies along the handle's way.
  function dragCut(right, down) {
    const {way: [u, v]} = cutHandle(), square = u * u + v * v, {min, max, step} = at('cut-at');
    if (square < 1e-9) return;
    held.place = Math.max(+min, Math.min(+max, held.place + (right * u + down * v) / square));
    cutAt(Math.round(held.place / step) * step);
  }

  // Where the slider begins and ends, in lengths of the model, and its step.
  function cutRange({normal, base}) {
    let [low, high] = [Infinity, -Infinity];
    for (let i = 0; i < spots.length; i += 3) {
      const place = normal.reduce((sum, x, k) => sum + x * (spots[i + k] * ball.radius + ball.middle[k]), -base);
      [low, high] = [Math.min(low, place), Math.max(high, place)];
    }
    return {low, high, step: 10 ** Math.floor(Math.log10((high - low || 1) / 100))};
  }

  // Cuts along x, y or z, or along a face, in the middle, with what is cut off on the viewer's side.
  function cutAlong(axis, face = null) {
    state.cut = {axis, face, place: 0, isTurned: false};
    const found = cutAxis(), {low, high, step} = cutRange(found), {stand} = Picture.axes(view);
    state.cut.isTurned = found.normal.reduce((sum, x, k) => sum + x * stand[k], 0) < 0;
    const [start, end] = [Math.floor(low / step) * step, Math.ceil(high / step) * step];
    Object.assign(at('cut-at'), {min: start, max: end, step});
    at('cut-axis').value = axis;
    cutAt(Math.round((start + end) / 2 / step) * step);
  }

  function cutAt(place) {
    state.cut.place = place;
    at('cut-at').value = place;
    const told = `${Measure.about(place)} mm`, name = state.cut.axis === 'f' ? null : 'xyz'[state.cut.axis];
    at('cut-told').textContent = name ? `${name} = ${told}` : `${told} from face ${state.cut.face}`;
    at('cut-at').setAttribute('aria-valuetext', at('cut-told').textContent);
    isCutStale = true;
    ask();
  }

  function toggleCut() {
    at('cut').hidden = Boolean(state.cut);
    if (state.cut) state.cut = null; else cutAlong(0);
    isCutStale = true;
    refit();
  }

  function startCut() {
    at('cut-at').oninput = event => cutAt(+event.target.value);
    at('cut-close').onclick = () => {
      toggleCut();
      Panels.showTools(app);
      over.focus();
    };
    at('cut-turn').onclick = () => { state.cut.isTurned = !state.cut.isTurned; cutAt(state.cut.place); };
    at('cut-axis').onchange = event => {
      const face = state.picked && state.picked.kind === 'f' && app.model.faces[state.picked.number][3] ? state.picked.number : null;
      if (event.target.value !== 'f') return cutAlong(+event.target.value);
      if (face) return cutAlong('f', face);
      say('pick a flat face first');
      event.target.value = state.cut.axis;
    };
  }

  // --- steps
  const rowNow = () => rows.findIndex(({last}) => state.step <= last);

  // The last frame of the row that is so many rows away; of the row itself where that isn't reached yet.
  function rowFrom(way) {
    const here = rowNow(), to = way > 0 && state.step < rows[here].last ? here : here + way;
    return rows[Math.max(0, Math.min(rows.length - 1, to))].last;
  }

  // What the row of a step has made until then: its new faces, or else edges, or what it changed.
  function madeNow() {
    const row = rows[rowNow()], changes = data.frames.slice(row.first, state.step + 1).map(frame => frame.change);
    if (!data.steps || !state.step) return new Set();
    const before = modelAt(row.first - 1), {model} = app;
    const touched = kind => [...new Set(changes.flatMap(change => Object.keys(change[kind] || {})))].filter(number => model[kind][number]);
    const fresh = kind => touched(kind).filter(number => !before[kind][number]);
    const faces = fresh('faces'), edges = faces.length ? [] : fresh('edges');
    return new Set([...(faces.length || edges.length ? faces : touched('faces')).map(number => 'f' + number), ...edges.map(number => 'e' + number)]);
  }

  function go(step) {
    state.step = Math.max(0, Math.min(data.frames.length - 1, step));
    app.model = modelAt(state.step);
    state.made = madeNow();
    Panels.showStep(app);
    show();
    if (data.steps) say(`step ${rowNow()} of ${rows.length - 1}: ${rows[rowNow()].name}`);
  }

  function play() {
    if (timer) {
      clearInterval(timer);
      timer = null;
    } else {
      if (state.step === data.frames.length - 1) go(0);
      timer = setInterval(() => { if (state.step < data.frames.length - 1) go(rowFrom(1)); else play(); }, 700);
    }
    at('play').textContent = timer ? 'stop' : 'play';
  }

  // --- where the viewer stands
  // How the model fits into the room beside the panels, seen from somewhere.
  function fitFrom(looking) {
    const isNarrow = view.width <= 760, list = isNarrow ? 0 : Math.max(...['list', 'steps'].map(name => at(name).hidden ? 0 : at(name).offsetWidth + 14));
    const [lists, info] = ['left', 'info'].map(name => isNarrow && view.height > 420 ? at(name).offsetHeight : 0);
    const top = document.querySelector('header').offsetHeight + 8 + lists, cut = at('cut').offsetHeight;
    const bottom = document.querySelector('footer').offsetHeight + 12 + (cut ? cut + 30 : 0) + info;
    const [wide, high] = Picture.extent(spots, {...view, ...looking});
    const zoom = .5 * Math.max(20, Math.min((view.width - list - 60) / wide, (view.height - top - bottom - 50) / high));
    return {...looking, zoom, right: list / 2, down: (top - bottom) / 2};
  }

  // Goes to a view, by and by where motion is wished for.
  function aim(looking) {
    const to = fitFrom(looking), from = {...view}, begun = performance.now(), glide = ++fitted.glide;
    [fitted.zoom, fitted.is] = [to.zoom, true];
    if (isCalm.matches) {
      Object.assign(view, to);
      return move();
    }
    to.turn -= 2 * Math.PI * Math.round((to.turn - from.turn) / (2 * Math.PI));
    requestAnimationFrame(function step(now) {
      if (glide !== fitted.glide) return;
      const way = Math.max(0, Math.min(1, (now - begun) / 250)), eased = way * (2 - way);
      for (const name of Object.keys(to)) view[name] = from[name] + eased * (to[name] - from[name]);
      move();
      if (way < 1) requestAnimationFrame(step);
    });
  }

  const fit = () => aim({turn: view.turn, lift: view.lift});

  // Fits at once, where nothing was moved by hand; else keeps what is seen in its size to the window.
  function refit() {
    document.documentElement.style.setProperty('--top', `${document.querySelector('header').offsetHeight + 16}px`);
    document.documentElement.style.setProperty('--cut', `${at('cut').offsetHeight ? at('cut').offsetHeight + 10 : 0}px`);
    const to = fitFrom({turn: view.turn, lift: view.lift}), kept = to.zoom / fitted.zoom;
    fitted.zoom = to.zoom;
    if (fitted.is) Object.assign(view, to); else Object.assign(view, {zoom: view.zoom * kept, right: view.right * kept, down: view.down * kept});
    drawn = '';
    ask();
  }

  function resize() {
    const ratio = devicePixelRatio || 1;
    view.width = Math.max(1, innerWidth);
    view.height = Math.max(1, innerHeight);
    over.width = view.width * ratio;
    over.height = view.height * ratio;
    refit();
  }

  const within = (x, bound) => Math.max(-bound, Math.min(bound, x));

  // Moves the model on the screen, never quite out of it.
  function pan(right, down) {
    fitted.is = false;
    view.right = within(view.right + right, view.zoom + view.width / 2 - 20);
    view.down = within(view.down + down, view.zoom + view.height / 2 - 20);
    move();
  }

  // Comes nearer, about a place of the screen: from an eighth of the fitting size to twenty thousand times it.
  function zoomBy(factor, x, y) {
    fitted.glide++;
    const zoom = Math.max(fitted.zoom / 8, Math.min(fitted.zoom * 2e4, view.zoom * factor)), by = zoom / view.zoom;
    view.zoom = zoom;
    pan((view.right - x + view.width / 2) * by + x - view.width / 2 - view.right, (view.down - y + view.height / 2) * by + y - view.height / 2 - view.down);
  }

  function turnBy(turn, lift) {
    fitted.glide++;
    view.turn += turn;
    view.lift = within(view.lift + lift, Math.PI / 2);
    move();
  }

  // --- the pointer
  function movePointer(event) {
    state.pointer = [event.clientX, event.clientY];
    const before = fingers.get(event.pointerId);
    if (!before) {
      over.style.cursor = isOnHandle(...state.pointer) ? 'grab' : '';
      return ask();
    }
    const dx = event.clientX - before[0], dy = event.clientY - before[1];
    moved += Math.abs(dx) + Math.abs(dy);
    if (held) dragCut(dx, dy);
    else if (fingers.size === 2) {
      const other = [...fingers].find(([id]) => id !== event.pointerId)[1];
      const span = p => Math.hypot(p[0] - other[0], p[1] - other[1]) || 1;
      zoomBy(span(state.pointer) / span(before), other[0], other[1]);
      pan(dx / 2, dy / 2);
    } else if (event.buttons & 2 || event.shiftKey) pan(dx, dy);
    else if (moved > 3) turnBy(-dx * .01, dy * .01);
    fingers.set(event.pointerId, state.pointer);
  }

  function startPointer() {
    over.onpointerdown = event => {
      if (!fingers.size) moved = 0;
      if (!at('help').hidden) KEYS['?']();
      Panels.showTools(app);
      held = !fingers.size && isOnHandle(event.clientX, event.clientY) ? {place: state.cut.place} : null;
      fingers.set(event.pointerId, [event.clientX, event.clientY]);
      over.setPointerCapture(event.pointerId);
    };
    over.onpointermove = movePointer;
    over.onpointerup = event => {
      fingers.delete(event.pointerId);
      if (event.pointerType === 'touch') state.pointer = null;
    };
    // Not when the finger goes up: the click that follows would fall on the panel that a pick shows.
    over.onclick = event => { if (moved < 5 && !held) choose(Picture.pick(app.scene, screen, event.clientX, event.clientY)); };
    over.onpointercancel = event => fingers.delete(event.pointerId);
    over.onpointerleave = () => { state.pointer = null; ask(); };
    over.oncontextmenu = event => event.preventDefault();
    over.addEventListener('wheel', event => {
      event.preventDefault();
      zoomBy(Math.exp(-event.deltaY * .0015), event.clientX, event.clientY);
    }, {passive: false});
  }

  // --- the keys
  const STEPS = {ArrowLeft: () => go(rowFrom(-1)), ArrowRight: () => go(rowFrom(1))};
  const TURNS = {ArrowLeft: [.1, 0], ArrowRight: [-.1, 0], ArrowUp: [0, -.1], ArrowDown: [0, .1]};
  const middle = factor => () => zoomBy(factor, view.width / 2 + view.right, view.height / 2 + view.down);
  const KEYS = {
    f: fit, h: () => { state.isHidden = !state.isHidden; }, n: () => { state.numbers = (state.numbers + 1) % 3; },
    x: () => { state.isXray = !state.isXray; }, p: () => { state.isPerspective = view.perspective = !view.perspective; },
    e: () => { state.edges = (state.edges + 1) % EDGES.length; chooseEdges(); recolour(); }, c: toggleCut, m: toggleMeasure,
    i: () => picture(), v: () => film(), k: () => copyLink(), a: () => moveApart(state.apart ? 0 : APART), d: () => hidePicked(),
    l: () => at('list-button').click(),
    '0': () => aim(CORNER), '1': () => aim({turn: -Math.PI / 2, lift: Math.PI / 2}), '2': () => aim({turn: -Math.PI / 2, lift: 0}), '3': () => aim({turn: 0, lift: 0}),
    '+': middle(1.2), '-': middle(1 / 1.2), ',': STEPS.ArrowLeft, '.': STEPS.ArrowRight, ' ': () => data.steps && play(),
    '/': () => at('wanted').focus(), '?': () => { at('help').hidden = !at('help').hidden; },
    Escape: () => { if (at('help').hidden) unpick(); at('help').hidden = true; },
  };

  // What a key does: with the arrows the model turns, moves with shift, and steps where the model hasn't the focus.
  function doesOf({key, shiftKey, target}) {
    if (!TURNS[key]) return KEYS[key];
    if (data.steps && target !== over && STEPS[key]) return STEPS[key];
    const [turn, lift] = TURNS[key];
    return shiftKey ? () => pan(-200 * turn, 200 * lift) : () => turnBy(turn, lift);
  }

  function onKey(event) {
    const {target, key} = event, does = doesOf(event);
    if (event.ctrlKey || event.metaKey || event.altKey) return;
    if (key === 'Escape' && target.matches('input, select')) return over.focus();
    if (key === 'Enter' && target === at('wanted')) return pickWanted();
    if (target.matches('input:not([type=checkbox]):not([type=range]), select')) return;
    if (target.matches('input, .scroll') && /^Arrow|^Page|^Home|^End/.test(key)) return;
    if (!does || ((key === ' ' || key === 'Enter') && target.matches('button, input'))) return;
    event.preventDefault();
    does();
    Panels.showTools(app);
    ask();
  }

  function light(text) {
    state.wanted = text;
    state.lit = Picture.wantedIn(text, app.model);
    recolour();
    ask();
  }

  // Picks the first thing that the field names and the model has.
  function pickWanted() {
    const found = [...state.lit].map(key => ({kind: key[0], number: +key.slice(1)})).find(isThere);
    if (found) choose(found); else say(`there is no ${state.wanted || 'number'} in the model`);
  }

  // --- a picture of what is shown, or a film, as a file
  function save(blob, ending) {
    const link = element('a', '', document.body, {href: URL.createObjectURL(blob), download: `${document.title}.${ending}`});
    link.click();
    link.remove();
    setTimeout(() => URL.revokeObjectURL(link.href), 10000);
    say(`saved ${document.title}.${ending}`);
  }

  // What is shown, on a canvas.
  function drawOn(canvas) {
    drawn = '';
    draw();
    const flat = canvas.getContext('2d');
    const ground = flat.createLinearGradient(0, 0, 0, canvas.height);
    ground.addColorStop(0, theme('--sky'));
    ground.addColorStop(1, theme('--ground'));
    flat.fillStyle = ground;
    flat.fillRect(0, 0, canvas.width, canvas.height);
    for (const layer of [front, over]) flat.drawImage(layer, 0, 0, canvas.width, canvas.height);
  }

  const ofFront = () => Object.assign(document.createElement('canvas'), {width: front.width, height: front.height});

  function picture() {
    const canvas = ofFront();
    draw();
    soften(1);
    drawOn(canvas);
    canvas.toBlob(blob => save(blob, 'png'));
  }

  // A turn of the model, during which each step is shown with what it made.
  function film() {
    const canvas = ofFront(), turn = view.turn, shots = data.steps ? rows.slice(1).map(row => row.last) : [state.step], pieces = [];
    if (!canvas.captureStream || !window.MediaRecorder) return say('this browser records no film');
    const recorder = new MediaRecorder(canvas.captureStream(25)), long = Math.max(FILM, (shots.length + 2) * SHOT), begun = performance.now();
    recorder.ondataavailable = ({data: piece}) => pieces.push(piece);
    recorder.onstop = () => save(new Blob(pieces, {type: recorder.mimeType}), recorder.mimeType.includes('mp4') ? 'mp4' : 'webm');
    recorder.start();
    say('recording a film');
    requestAnimationFrame(function frame(now) {
      const since = Math.max(0, now - begun), shot = shots[Math.min(shots.length - 1, Math.floor(since / SHOT))];
      view.turn = turn + 2 * Math.PI * Math.min(1, since / long);
      if (shot !== state.step) go(shot);
      drawOn(canvas);
      if (since < long) requestAnimationFrame(frame); else recorder.stop();
    });
  }

  // --- the address: words after # in it. What isn't understood is said.
  const ANGLES = ['turn', 'lift'], FLAGS = {hidden: 'isHidden', xray: 'isXray', perspective: 'isPerspective'};
  const CHOICES = {numbers: ['near', 'all', 'none'], edges: ['auto', 'all', '5', '15', '30', 'none']}, OTHERS = ['lit', 'step', 'flat', 'section', 'side', 'apart', 'off', 'zoom', 'pan', 'bare'];

  function readAddress() {
    const words = new URLSearchParams(location.hash.slice(1)), wrong = [], last = data.frames.length - 1;
    const number = (name, isRight) => {
      const text = words.get(name), value = text === null || text.trim() === '' ? NaN : Number(text);
      if (text !== null && !isRight(value)) wrong.push(`${name}=${text}`);
      return isRight(value) ? value : null;
    };
    for (const [name, flag] of Object.entries(FLAGS)) state[flag] = words.has(name);
    view.perspective = state.isPerspective;
    for (const name of ANGLES) view[name] = number(name, Number.isFinite) ?? CORNER[name];
    for (const [name, choices] of Object.entries(CHOICES)) {
      state[name] = Math.max(0, choices.indexOf(words.get(name)));
      if (words.has(name) && !choices.includes(words.get(name))) wrong.push(`${name}=${words.get(name)}`);
    }
    const step = number('step', value => Number.isInteger(value) && value >= 0 && value <= last);
    for (const name of words.keys()) if (![...ANGLES, ...Object.keys(FLAGS), ...Object.keys(CHOICES), ...OTHERS].includes(name)) wrong.push(name);
    document.body.classList.toggle('bare', words.has('bare'));
    state.cut = state.picked = state.measured = null;
    at('cut').hidden = fitted.is = isCutStale = true;
    state.off = new Set((words.get('off') || '').split(',').filter(Boolean).map(Number));
    moveApart(number('apart', value => value >= 0 && value <= 2) ?? 0);
    go(step ?? last);
    light(words.get('lit') || '');
    if (words.has('section')) cutByAddress(words, wrong);
    const zoom = number('zoom', value => value > 0), pan = (words.get('pan') || '').split(',').map(Number);
    if (zoom) [view.zoom, view.right, view.down, fitted.is] = [view.zoom * zoom, (pan[0] || 0) * view.width, (pan[1] || 0) * view.height, false];
    Panels.showTools(app);
    if (wrong.length) say(`in the address, ${wrong.join(' and ')} isn't understood${words.has('step') && step === null ? `: steps are 0 to ${last}` : ''}`);
  }

  // A cut that the address asks for: an axis, and perhaps a place on it.
  function cutByAddress(words, wrong) {
    const text = words.get('section'), [, axis, face, place] = /^(?:([xyz])|f(\d+),)(-?\d+(?:\.\d+)?)?$/.exec(text) || [];
    if (!axis && !(app.model.faces[face] || [])[3]) return wrong.push(`section=${text}`);
    at('cut').hidden = false;
    cutAlong(axis ? 'xyz'.indexOf(axis) : 'f', face ? +face : null);
    if (words.has('side')) state.cut.isTurned = words.get('side') === 'above';
    if (place) cutAt(+place);
    refit();
  }

  // The words of an address that shows what is seen now.
  function addressWords() {
    const words = [`turn=${+view.turn.toFixed(3)}`, `lift=${+view.lift.toFixed(3)}`], {cut} = state, lit = state.wanted || chosen().join();
    for (const [name, flag] of Object.entries(FLAGS)) if (state[flag]) words.push(name);
    for (const [name, choices] of Object.entries(CHOICES)) if (state[name]) words.push(`${name}=${choices[state[name]]}`);
    if (!fitted.is) words.push(`zoom=${+(view.zoom / fitted.zoom).toFixed(3)}`, `pan=${[view.right / view.width, view.down / view.height].map(x => +x.toFixed(3)).join()}`);
    if (cut) words.push(`section=${cut.axis === 'f' ? `f${cut.face},` : 'xyz'[cut.axis]}${+cut.place.toFixed(6)}`, `side=${cut.isTurned ? 'above' : 'below'}`);
    if (state.apart) words.push(`apart=${state.apart}`);
    if (state.off.size) words.push(`off=${[...state.off].join()}`);
    if (lit) words.push(`lit=${lit.replace(/\s+/g, ',')}`);
    if (data.steps) words.push(`step=${state.step}`);
    return words.join('&');
  }

  // Copies the address of what is seen. A page within another one has none of its own: there the words alone.
  function copyLink() {
    const words = '#' + addressWords();
    Panels.copy(app, (/^(file|https?):/.test(location.protocol) ? location.href.split('#')[0] : '') + words);
  }

  // Hides the solid of what is picked.
  function hidePicked() {
    const solid = state.picked && Panels.solidOf(app, state.picked) || state.picked && state.picked.number;
    if (!solid) return say('pick what is to be hidden first');
    state.picked = null;
    turnOff([solid], true);
    say(`solid ${solid} hidden; the list of solids shows it again`);
  }

  const app = {soft, cutHandle, data, rows, rowNow, rowFrom, hidePicked, moveApart, addressWords, state, view, EDGES, css, colourOf, choose, unpick, turnOff, isolate, go, play, refit, aim, ask, draw, light,
               model: models.get(0), scene: null, solids: [], listed: null,
               place: point => [...Picture.placed(Picture.inBall(point, ball), Picture.axes(view), Picture.middleOf(view))]};

  function start() {
    gl = new URLSearchParams(location.hash.slice(1)).has('flat') ? null : Painter.on(front);
    points = [...new Map(data.frames.flatMap(frame => Object.values(frame.change.vertices || {})).filter(Boolean).map(point => [point.join(), point])).values()];
    ball = Picture.bounds(points);
    spots = Float64Array.from(points.flatMap(point => Picture.inBall(point, ball)));
    Measure.setUnit(data.unit || [1, 1]);
    if (data.steps) Panels.startSteps(app);
    Panels.startList(app);
    Panels.startInfo(app);
    Panels.startTriad(app);
    Panels.startTools(app, KEYS);
    startCut();
    startPointer();
    watchContext();
    onkeydown = onKey;
    at('wanted').oninput = event => light(event.target.value);
    at('apart').oninput = event => moveApart(+event.target.value);
    show();
    const isWide = innerWidth > 760 && innerHeight > 420;
    if (data.steps) Panels.fold(app, 'steps', isWide);
    Panels.fold(app, 'list', isWide && app.solids.length > 1);
    onresize = resize;
    onhashchange = readAddress;
    onbeforeprint = () => draw();
    isDark.onchange = () => { recolour(); ask(); };
    resize();
    readAddress();
  }

  start();
  return app;
})();
