'use strict';
// Soft occlusion: the less of the sky a place sees, the darker it is. It is reckoned on the screen, from which way faces look and how near they are.
const Occlusion = (() => {
  // How far what darkens may lie, in radii of the model, and how dark it may become.
  const REACH = .2, MOST = .6;
  const OVER = 'attribute vec2 corner; varying vec2 at; void main() { at = .5 + .5 * corner; gl_Position = vec4(corner, 0, 1); }';
  // Looks to 14 places about each; which ones is another in each of 4 by 4 pixels, and these are mixed.
  const DARK = `precision highp float; uniform sampler2D nears, normals; uniform vec2 size; uniform float zoom;
void main() { vec2 here = gl_FragCoord.xy; float near = texture2D(nears, here / size).r, sum = 0.;
vec3 normal = 2. * texture2D(normals, here / size).rgb - 1.; vec2 cell = mod(floor(here), 4.); float turned = 4. * cell.x + cell.y;
for (int i = 0; i < 14; i++) { float far = (float(i) + fract(turned * .618)) / 14., angle = turned * .3927 + 2.4 * float(i);
vec2 there = clamp(floor(here + zoom * ${REACH} * far * vec2(cos(angle), sin(angle))) + .5, vec2(.5), size - .5);
vec3 way = vec3((there - here) / zoom, (near - texture2D(nears, there / size).r) / .35) / ${REACH}; float square = dot(way, way);
sum += max(0., dot(way, normal) - .04 * sqrt(square)) / (square + .02) * max(0., 1. - square * .3); }
gl_FragColor = vec4(near < 1. ? min(${MOST}, sum * .055) : 0.); }`;
  const MIXED = `precision mediump float; varying vec2 at; uniform sampler2D dark; uniform vec2 size;
void main() { vec2 by = 1. / size, side = vec2(by.x, -by.y);
gl_FragColor = .25 * (texture2D(dark, at + by) + texture2D(dark, at - by) + texture2D(dark, at + side) + texture2D(dark, at - side)); }`;
  // The picture is drawn anew at each click, so this looks to one place alone.
  const LAID = `precision mediump float; varying vec2 at; uniform sampler2D dark; uniform float alpha;
void main() { gl_FragColor = vec4(.03, .05, .09, alpha * texture2D(dark, at).r); }`;

  // A texture without content, and a frame to draw into.
  function textureOf(gl, [format, type], [width, height], filter) {
    const made = gl.createTexture();
    gl.bindTexture(gl.TEXTURE_2D, made);
    gl.texImage2D(gl.TEXTURE_2D, 0, format, width, height, 0, format, type, null);
    for (const name of ['TEXTURE_MIN_FILTER', 'TEXTURE_MAG_FILTER']) gl.texParameteri(gl.TEXTURE_2D, gl[name], filter);
    for (const name of ['TEXTURE_WRAP_S', 'TEXTURE_WRAP_T']) gl.texParameteri(gl.TEXTURE_2D, gl[name], gl.CLAMP_TO_EDGE);
    return made;
  }

  function frameOf(gl, colour, nears) {
    const made = gl.createFramebuffer();
    gl.bindFramebuffer(gl.FRAMEBUFFER, made);
    gl.framebufferTexture2D(gl.FRAMEBUFFER, gl.COLOR_ATTACHMENT0, gl.TEXTURE_2D, colour, 0);
    if (nears) gl.framebufferTexture2D(gl.FRAMEBUFFER, gl.DEPTH_ATTACHMENT, gl.TEXTURE_2D, nears, 0);
    return made;
  }

  // What darkens pictures, by programs that `program` makes; null where how near things are can't be kept.
  function on(gl, program) {
    if (!gl.getExtension('WEBGL_depth_texture')) return null;
    const [dark, mixed, laid] = [DARK, MIXED, LAID].map(text => program(gl, OVER, text)), square = gl.createBuffer();
    let size = [0, 0], held = {};
    gl.bindBuffer(gl.ARRAY_BUFFER, square);
    gl.bufferData(gl.ARRAY_BUFFER, new Float32Array([-1, -1, 1, -1, -1, 1, 1, 1]), gl.STATIC_DRAW);

    // Makes the textures anew where the size is another.
    function measure(width, height) {
      if (width === size[0] && height === size[1]) return;
      for (const name of ['normals', 'nears', 'darks', 'mixes']) gl.deleteTexture(held[name] || null);
      for (const name of ['seen', 'darkened', 'smoothed']) gl.deleteFramebuffer(held[name] || null);
      size = [width, height];
      const [bytes, depths] = [[gl.RGBA, gl.UNSIGNED_BYTE], [gl.DEPTH_COMPONENT, gl.UNSIGNED_INT]];
      held = {nears: textureOf(gl, depths, size, gl.NEAREST), mixes: textureOf(gl, bytes, size, gl.LINEAR)};
      for (const name of ['normals', 'darks']) held[name] = textureOf(gl, bytes, size, gl.NEAREST);
      held.seen = frameOf(gl, held.normals, held.nears);
      [held.darkened, held.smoothed] = [held.darks, held.mixes].map(texture => frameOf(gl, texture, null));
    }

    // Draws the square with textures by their names.
    function over(what, textures) {
      gl.useProgram(what.made);
      for (let place = 0; place < 8; place++) gl.disableVertexAttribArray(place);
      textures.forEach(([name, texture], i) => {
        gl.activeTexture(gl.TEXTURE0 + i);
        gl.bindTexture(gl.TEXTURE_2D, texture);
        gl.uniform1i(what.at[name], i);
      });
      gl.uniform2fv(what.at.size, size);
      gl.bindBuffer(gl.ARRAY_BUFFER, square);
      gl.enableVertexAttribArray(what.places.corner);
      gl.vertexAttribPointer(what.places.corner, 2, gl.FLOAT, false, 0, 0);
      gl.disable(gl.DEPTH_TEST);
      gl.disable(gl.CULL_FACE);
      gl.drawArrays(gl.TRIANGLE_STRIP, 0, 4);
      gl.enable(gl.DEPTH_TEST);
    }

    // Reckons how dark places are; `drawNormals` draws the model's normals as colours. A radius of the model has so many of its pixels.
    function reckon(width, height, zoom, drawNormals) {
      measure(width, height);
      gl.viewport(0, 0, width, height);
      gl.disable(gl.BLEND);
      gl.bindFramebuffer(gl.FRAMEBUFFER, held.seen);
      drawNormals();
      gl.bindFramebuffer(gl.FRAMEBUFFER, held.darkened);
      gl.useProgram(dark.made);
      gl.uniform1f(dark.at.zoom, zoom);
      over(dark, [['nears', held.nears], ['normals', held.normals]]);
      gl.bindFramebuffer(gl.FRAMEBUFFER, held.smoothed);
      over(mixed, [['dark', held.darks]]);
      gl.bindFramebuffer(gl.FRAMEBUFFER, null);
    }

    // Lays what was reckoned over the picture.
    function lay(alpha) {
      gl.enable(gl.BLEND);
      gl.useProgram(laid.made);
      gl.uniform1f(laid.at.alpha, alpha);
      over(laid, [['dark', held.mixes]]);
    }

    return {reckon, lay};
  }

  return {on};
})();
