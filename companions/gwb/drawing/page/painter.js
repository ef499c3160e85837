'use strict';
// Draws a scene by WebGL. All of it is uploaded once, also which way the faces beside an edge look; of a frame only where the viewer stands is.
const Painter = (() => {
  const LIT_EDGE = [230, 64, 0], THIN_EDGES = 4000, CAP = 0, WIDE = 255, NARROW = 120;
  const PLACE = `uniform vec3 right, up, stand, light, size; uniform vec2 middle; uniform float inverse, halfWidth; varying vec4 ink;
vec3 spot(vec3 point) { float depth = dot(stand, point), scale = 1. / (1. - inverse * depth);
return vec3(size.z * scale * vec2(dot(right, point), dot(up, point)) + middle * vec2(1, -1), depth * scale); }
vec4 shown(vec3 spot, float nearer) { return vec4(2. * spot.xy / size.xy, -.7 * spot.z - nearer * halfWidth / size.z, 1.); }
`;
  const FILL = `attribute vec3 point, normal; attribute vec4 colour; ${PLACE}void main() {
ink = vec4(colour.rgb * (.58 + .24 * max(0., dot(normal, stand)) + .3 * max(0., dot(normal, light))), colour.a);
gl_Position = shown(spot(point), 0.); }`;
  // Which way faces look, as a colour.
  const NORMAL = `attribute vec3 point, normal; ${PLACE}void main() { ink = vec4(.5 + .5 * vec3(dot(normal, right), dot(normal, up), dot(normal, stand)), 1);
gl_Position = shown(spot(point), 0.); }`;
  // The shadow that the model throws on the ground, which lies as deep as its lowest point, by a light that stands a little beside the zenith.
  const SHADOW = `attribute vec3 point; uniform vec3 ground; ${PLACE}void main() { ink = vec4(0, 0, 0, 1);
gl_Position = shown(spot(vec3(point.xy + ground.yz * (point.z - ground.x), ground.x)), 0.); gl_Position.z = 0.; }`;
  // Shadows of so many lights are laid over each other, if all have so few triangles; in so great haste there are none.
  const LIGHTS = 8, MOST_SHADED = 40000, DARK = .3, IN_HASTE = 3;
  // An edge is drawn where a face beside it looks to the viewer; a face without a normal does always.
  const SIDES = `attribute vec3 left, beside; attribute vec4 colour; uniform float all; ${PLACE}
float facing(vec3 normal, vec3 point) { return dot(normal, stand) - inverse * dot(normal, point); }
bool seen(vec3 point) { return all > 0. || max(facing(left, point), facing(beside, point)) > -.0002; }
`;
  // An edge has four corners; the colour's last part is its width.
  const LINE = `attribute vec3 point, end; attribute vec2 corner; ${SIDES}void main() { ink = colour;
vec3 a = spot(point), b = spot(end); vec2 along = b.xy - a.xy; float far = length(along); along = far > 0. ? along / far : vec2(1, 0);
vec3 at = mix(a, b, corner.x); float wide = halfWidth * colour.a * 2. * (colour.a > .9 ? 1. : clamp(far / 9., .3, 1.));
at.xy += vec2(-along.y, along.x) * corner.y * wide + along * (corner.x * 2. - 1.) * halfWidth * .5;
gl_Position = seen(point) ? shown(at, 1.5) : vec4(2, 2, 2, 1); }`;
  const THIN = `attribute vec3 point; ${SIDES}void main() { ink = colour; gl_Position = seen(point) ? shown(spot(point), 1.5) : vec4(2, 2, 2, 1); }`;
  // Caps are hatched.
  const INK = `precision mediump float; varying vec4 ink; uniform float alpha, hatch;
void main() { float dark = ink.a < .1 && mod(gl_FragCoord.x + gl_FragCoord.y, hatch * 7.) < hatch * 1.4 ? .72 : 1.; gl_FragColor = vec4(ink.rgb * dark, alpha); }`;
  const CORNERS = [[0, -1], [1, -1], [0, 1], [1, 1]], QUAD = [0, 1, 2, 2, 1, 3];
  const UNIFORMS = ['right', 'up', 'stand', 'light', 'size', 'middle', 'inverse', 'halfWidth', 'alpha', 'hatch', 'all', 'ground', 'nears', 'normals', 'dark', 'zoom'];

  // Four bytes as one number, in the order that the machine has.
  const packed = rgba => new Uint32Array(Uint8Array.from(rgba).buffer)[0];

  // A program, and the places of its words.
  function program(gl, vertex, fragment = INK) {
    const made = gl.createProgram(), at = {}, places = {};
    for (const [type, text] of [[gl.VERTEX_SHADER, vertex], [gl.FRAGMENT_SHADER, fragment]]) {
      const shader = gl.createShader(type);
      gl.shaderSource(shader, text);
      gl.compileShader(shader);
      gl.attachShader(made, shader);
    }
    gl.linkProgram(made);
    for (const name of UNIFORMS) at[name] = gl.getUniformLocation(made, name);
    for (const [, name] of vertex.matchAll(/attribute (?:vec\d) ([^;]+)/g)) {
      for (const one of name.split(', ')) places[one] = gl.getAttribLocation(made, one);
    }
    return {made, at, places};
  }

  // The corners of the triangles: those of a flat face are shared among its triangles.
  function cornersOf({spots, triangles}) {
    const {corners, normals, faces} = triangles, count = faces.length, indices = new Uint32Array(3 * count);
    const known = new Int32Array(spots.length / 3), since = new Int32Array(spots.length / 3).fill(-1), numbers = new Float32Array(18 * count), owners = new Int32Array(3 * count);
    let begun = 0, made = 0;
    for (let i = 0; i < count; i++) {
      if (faces[i] !== faces[begun] || [0, 1, 2].some(k => Math.abs(normals[3 * i + k] - normals[3 * begun + k]) > 1e-6)) begun = i;
      for (let k = 3 * i; k < 3 * i + 3; k++) {
        const corner = corners[k];
        if (since[corner] !== begun) {
          [since[corner], known[corner], owners[made]] = [begun, made, faces[i]];
          for (let m = 0; m < 3; m++) [numbers[6 * made + m], numbers[6 * made + 3 + m]] = [spots[3 * corner + m], normals[3 * begun + m]];
          made++;
        }
        indices[k] = known[corner];
      }
    }
    return {numbers: numbers.subarray(0, 6 * made), owners: owners.subarray(0, made), indices};
  }

  // For each edge its corners: two where it is thin, else four, each with both ends and where it stands about them.
  function linesOf({spots, edges: {starts, ends}}, isThin) {
    const each = isThin ? 3 : 8, corners = isThin ? 2 : 4, numbers = new Float32Array(each * corners * starts.length);
    for (let i = 0, to = 0; i < starts.length; i++) for (let corner = 0; corner < corners; corner++, to += each) {
      const from = 3 * (isThin && corner ? ends[i] : starts[i]);
      for (let k = 0; k < 3; k++) numbers[to + k] = spots[from + k];
      if (isThin) continue;
      for (let k = 0; k < 3; k++) numbers[to + 3 + k] = spots[3 * ends[i] + k];
      numbers[to + 6] = CORNERS[corner][0];
      numbers[to + 7] = CORNERS[corner][1];
    }
    return numbers;
  }

  // The normals of the faces beside each edge, for each of its corners.
  function sidesOf({edges: {lefts, rights, normals}}, corners) {
    const sides = new Int16Array(8 * corners * lefts.length), none = [0, 0, 0];
    for (let i = 0, to = 0; i < lefts.length; i++) {
      const left = normals[lefts[i]] || none, right = normals[rights[i]] || none;
      for (let corner = 0; corner < corners; corner++, to += 8) for (let k = 0; k < 3; k++) {
        sides[to + k] = 32767 * left[k];
        sides[to + 4 + k] = 32767 * right[k];
      }
    }
    return sides;
  }

  // A painter on a canvas, or null where there is no WebGL with long indices.
  function on(canvas) {
    const gl = canvas.getContext('webgl', {antialias: false, stencil: true});
    if (!gl || gl.isContextLost() || !gl.getExtension('OES_element_index_uint')) return null;
    const fill = program(gl, FILL), line = program(gl, LINE), thin = program(gl, THIN), shadow = program(gl, SHADOW), normals = program(gl, NORMAL);
    const occlusion = Occlusion.on(gl, program);
    const [corners, cornerColours, lines, lineSides, lineColours, faceIndex, lineIndex] = Array.from({length: 7}, () => gl.createBuffer());
    let scene = null, held = null, isThin = false, edgeCount = 0, low = 0;

    function put(kind, buffer, numbers) {
      gl.bindBuffer(kind, buffer);
      gl.bufferData(kind, numbers, gl.STATIC_DRAW);
    }

    // Takes a scene, which is drawn from then on.
    function take(next) {
      scene = next;
      isThin = scene.edges.numbers.length > THIN_EDGES;
      held = cornersOf(scene);
      low = Infinity;
      for (let i = 2; i < held.numbers.length; i += 6) low = Math.min(low, held.numbers[i]);
      put(gl.ARRAY_BUFFER, corners, held.numbers);
      put(gl.ELEMENT_ARRAY_BUFFER, faceIndex, held.indices);
      put(gl.ARRAY_BUFFER, lines, linesOf(scene, isThin));
      put(gl.ARRAY_BUFFER, lineSides, sidesOf(scene, isThin ? 2 : 4));
    }

    // Dresses what is taken: the colours of faces, and the edges that are drawn, in ink or lit.
    function dress(look) {
      dressFaces(look);
      const shape = isThin ? [0, 1] : QUAD, each = isThin ? 2 : 4, {cosines} = scene.edges;
      const index = new Uint32Array(shape.length * cosines.length), colours = new Uint32Array(each * cosines.length);
      const lit = packed([...LIT_EDGE, WIDE]), dark = packed([...look.ink, NARROW]);
      edgeCount = 0;
      for (let i = 0; i < cosines.length; i++) {
        const isLit = look.isEdgeLit(i);
        colours.fill(isLit ? lit : dark, each * i, each * i + each);
        if (isLit || cosines[i] <= look.cosine) for (const k of shape) index[edgeCount++] = each * i + k;
      }
      put(gl.ARRAY_BUFFER, lineColours, colours);
      put(gl.ELEMENT_ARRAY_BUFFER, lineIndex, index.subarray(0, edgeCount));
    }

    function dressFaces(look) {
      const fills = new Uint32Array(held.owners.length);
      const known = [CAP, 255].map(() => new Map()), packedOnce = (rgb, isFace) => {
        if (!known[isFace].has(rgb)) known[isFace].set(rgb, packed([...rgb.map(x => 255 * x), isFace ? 255 : CAP]));
        return known[isFace].get(rgb);
      };
      for (let i = 0; i < fills.length; i++) {
        const owner = held.owners[i];
        fills[i] = i && held.owners[i - 1] === owner ? fills[i - 1] : packedOnce(look.fill(owner), owner < 0 ? 0 : 1);
      }
      put(gl.ARRAY_BUFFER, cornerColours, fills);
    }

    function attribute(what, name, buffer, size, type, each, offset) {
      const place = what.places[name];
      gl.bindBuffer(gl.ARRAY_BUFFER, buffer);
      gl.enableVertexAttribArray(place);
      gl.vertexAttribPointer(place, size, type, type !== gl.FLOAT, each, offset);
    }

    function use(what, view, {basis}, halfWidth) {
      const {right, up, stand, inverse} = basis, light = up.map((x, i) => x * .8 + stand[i] * .4 - right[i] * .5), {at} = what;
      for (let place = 0; place < 8; place++) gl.disableVertexAttribArray(place);
      gl.useProgram(what.made);
      gl.uniform3fv(at.right, right);
      gl.uniform3fv(at.up, up);
      gl.uniform3fv(at.stand, stand);
      gl.uniform3fv(at.light, light.map(x => x / Math.sqrt(1.05)));
      gl.uniform3f(at.size, view.width, view.height, view.zoom);
      gl.uniform2f(at.middle, view.right, view.down);
      gl.uniform1f(at.inverse, inverse);
      gl.uniform1f(at.halfWidth, halfWidth);
      gl.uniform1f(at.hatch, canvas.width / view.width);
    }

    // Each shadow darkens a place once, however many triangles throw it.
    function drawShadow(view, screen) {
      use(shadow, view, screen, 0);
      attribute(shadow, 'point', corners, 3, gl.FLOAT, 24, 0);
      gl.disable(gl.DEPTH_TEST);
      gl.disable(gl.CULL_FACE);
      gl.enable(gl.BLEND);
      gl.enable(gl.STENCIL_TEST);
      gl.stencilOp(gl.KEEP, gl.KEEP, gl.REPLACE);
      gl.bindBuffer(gl.ELEMENT_ARRAY_BUFFER, faceIndex);
      gl.uniform1f(shadow.at.alpha, DARK / LIGHTS);
      for (let i = 0; i < LIGHTS; i++) {
        const [way, far] = [i * 2 * Math.PI / LIGHTS, i % 2 ? .1 : .2];
        gl.uniform3f(shadow.at.ground, low, .12 + far * Math.cos(way), .12 + far * Math.sin(way));
        gl.stencilFunc(gl.NOTEQUAL, i + 1, 255);
        gl.drawElements(gl.TRIANGLES, held.indices.length, gl.UNSIGNED_INT, 0);
      }
      gl.disable(gl.STENCIL_TEST);
      gl.enable(gl.DEPTH_TEST);
    }

    function drawFaces(view, screen, isXray) {
      use(fill, view, screen, 1);
      attribute(fill, 'point', corners, 3, gl.FLOAT, 24, 0);
      attribute(fill, 'normal', corners, 3, gl.FLOAT, 24, 12);
      attribute(fill, 'colour', cornerColours, 4, gl.UNSIGNED_BYTE, 4, 0);
      gl.uniform1f(fill.at.alpha, isXray ? .22 : 1);
      gl[isXray ? 'disable' : 'enable'](gl.CULL_FACE);
      gl[isXray ? 'enable' : 'disable'](gl.BLEND);
      gl.depthMask(!isXray);
      gl.bindBuffer(gl.ELEMENT_ARRAY_BUFFER, faceIndex);
      gl.drawElements(gl.TRIANGLES, held.indices.length, gl.UNSIGNED_INT, 0);
    }

    // Reckons the soft occlusion of what is drawn from here on, at half of the picture's sharpness.
    function soften(view, screen) {
      const [width, height] = [canvas.width, canvas.height].map(x => Math.max(1, x >> 1));
      if (occlusion) occlusion.reckon(width, height, view.zoom * width / view.width, () => {
        gl.clearColor(.5, .5, 1, 1);
        gl.depthMask(true);
        gl.clear(gl.COLOR_BUFFER_BIT | gl.DEPTH_BUFFER_BIT);
        gl.enable(gl.DEPTH_TEST);
        gl.enable(gl.CULL_FACE);
        use(normals, view, screen, 0);
        attribute(normals, 'point', corners, 3, gl.FLOAT, 24, 0);
        attribute(normals, 'normal', corners, 3, gl.FLOAT, 24, 12);
        gl.uniform1f(normals.at.alpha, 1);
        gl.bindBuffer(gl.ELEMENT_ARRAY_BUFFER, faceIndex);
        gl.drawElements(gl.TRIANGLES, held.indices.length, gl.UNSIGNED_INT, 0);
      });
    }

    function useEdges(view, screen, pen, all) {
      const what = isThin ? thin : line, each = isThin ? 12 : 32;
      use(what, view, screen, pen.half);
      attribute(what, 'point', lines, 3, gl.FLOAT, each, 0);
      if (!isThin) {
        attribute(what, 'end', lines, 3, gl.FLOAT, each, 12);
        attribute(what, 'corner', lines, 2, gl.FLOAT, each, 24);
      }
      attribute(what, 'left', lineSides, 3, gl.SHORT, 16, 0);
      attribute(what, 'beside', lineSides, 3, gl.SHORT, 16, 8);
      attribute(what, 'colour', lineColours, 4, gl.UNSIGNED_BYTE, 4, 0);
      gl.uniform1f(what.at.all, all ? 1 : 0);
      return what;
    }

    function drawEdges(view, screen, pen, isHidden, isXray) {
      const what = useEdges(view, screen, pen, isHidden || isXray), kind = isThin ? gl.LINES : gl.TRIANGLES;
      gl.disable(gl.CULL_FACE);
      gl.enable(gl.BLEND);
      gl.depthMask(false);
      gl.bindBuffer(gl.ELEMENT_ARRAY_BUFFER, lineIndex);
      if (isHidden && !isXray) {
        gl.depthFunc(gl.GREATER);
        gl.uniform1f(what.at.alpha, .28 * pen.alpha);
        gl.drawElements(kind, edgeCount, gl.UNSIGNED_INT, 0);
        gl.depthFunc(gl.LEQUAL);
      }
      gl.uniform1f(what.at.alpha, pen.alpha);
      gl.drawElements(kind, edgeCount, gl.UNSIGNED_INT, 0);
      gl.depthMask(true);
    }

    // Draws what was taken: without edges in the greatest haste, if they are many. The pen has half a line's width and how dense it is; so much of
    // the soft occlusion that was reckoned is laid over the faces.
    function draw(view, screen, {isHidden, isXray, pen, softness}, haste) {
      gl.viewport(0, 0, canvas.width, canvas.height);
      gl.clearColor(0, 0, 0, 0);
      gl.depthMask(true);
      gl.clear(gl.COLOR_BUFFER_BIT | gl.DEPTH_BUFFER_BIT | gl.STENCIL_BUFFER_BIT);
      gl.enable(gl.DEPTH_TEST);
      gl.depthFunc(gl.LEQUAL);
      gl.blendFuncSeparate(gl.SRC_ALPHA, gl.ONE_MINUS_SRC_ALPHA, gl.ONE, gl.ONE_MINUS_SRC_ALPHA);
      if (!isXray && haste < IN_HASTE && screen.basis.stand[2] > .05 && LIGHTS * held.indices.length <= 3 * MOST_SHADED) drawShadow(view, screen);
      drawFaces(view, screen, isXray);
      if (occlusion && softness > 0 && !isXray) occlusion.lay(softness);
      if (haste < 4 || !isThin) drawEdges(view, screen, pen, isHidden, isXray);
    }

    return {take, dress, draw, soften};
  }

  return {on};
})();
