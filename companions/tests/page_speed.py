#!/usr/bin/env python3
"""How long gwb-view's page takes for a frame of a large model, in Chromium, which draws here without a GPU, by SwiftShader.

    companions/tests/page_speed.py [--kind blocks|ball] [--size N] [--window W,H] [--frames COUNT] [--gpu]

The blocks are N * N * N, so 12 makes 20,736 triangles in 10,368 faces and 21 makes 111,132 in 55,566; the ball is one solid of about 2 * N * N
triangles, each a face. Each line, in milliseconds: what is done; the middle one of the times from frame to frame; of the page's own reckoning,
without WebGL; and the processor time of a frame, of the page's process and of the one that draws. The last two don't depend on what else the
machine does. `--gpu` leaves it to Chromium how it draws.
"""

import argparse
import json
import math
import re
import time
from pathlib import Path
from typing import Any, Dict, List, Tuple

from chromium import SOFTWARE, Chromium, Tab
from support import Point, box, listing, model_in

from gwb.drawing.page import page_of
from gwb.geometry.model import Model

# What the page is made to do for so many frames; its answer is the times from frame to frame, and those of its own reckoning.
MEASURE = """(async () => {
  const over = document.getElementById('labels'), whole = [], own = [], next = () => new Promise(done => spentFrame(done));
  const move = (kind, [x, y]) => over.dispatchEvent(new PointerEvent(kind, {clientX: x, clientY: y, pointerId: 1, button: 0, bubbles: true}));
  const around = i => [innerWidth / 2 + 150 * Math.cos(i / 9), innerHeight / 2 + 100 * Math.sin(i / 7)];
  const slider = document.getElementById('cut-at');
  const steps = {
    turning: i => move('pointermove', around(i)), pointing: i => move('pointermove', around(i)),
    picking: i => { for (const kind of ['pointerdown', 'pointerup', 'click']) move(kind, around(i)); },
    cutting: i => { slider.value = +slider.min + (slider.max - slider.min) * (.5 + .3 * Math.sin(i / 9)); slider.dispatchEvent(new Event('input')); }};
  over.setPointerCapture = () => 0;
  if (NAME === 'turning') move('pointerdown', around(0));
  if (NAME === 'cutting') document.querySelector('[data-key=c]').click();
  let before = await next();
  for (let i = 0; i < COUNT; i++) {
    spent = 0;
    const begun = performance.now();
    steps[NAME](i);
    spent += performance.now() - begun;
    const now = await next();
    whole.push(now - before);
    own.push(spent);
    before = now;
  }
  if (NAME === 'turning') move('pointerup', around(COUNT));
  return {whole, own};
})()"""
TIMED = """
let spent = 0;
for (const name of Object.getOwnPropertyNames(WebGLRenderingContext.prototype)) {
  const about = Object.getOwnPropertyDescriptor(WebGLRenderingContext.prototype, name);
  if (typeof about.value === 'function') WebGLRenderingContext.prototype[name] = function (...words) {
    const begun = performance.now(), made = about.value.apply(this, words);
    spent -= performance.now() - begun;
    return made;
  };
}
const spentFrame = requestAnimationFrame.bind(window);
window.requestAnimationFrame = draw => spentFrame(time => {
  const begun = performance.now();
  draw(time);
  spent += performance.now() - begun;
});
"""
TASKS = ('turning', 'pointing', 'picking', 'cutting')


def blocks(size: int) -> Model:
    """The model of so many blocks in a row, a layer and a pile."""
    points, solids = [], []
    for place in range(size ** 3):
        x, y, z = (3 * (place // size ** axis % size) for axis in range(3))
        more, faces = box((x, y, z), (x + 2, y + 2, z + 2), len(points) + 1)
        points += more
        solids.append(faces)
    return model_in(listing(points, *solids))


def ball(size: int) -> Model:
    """A ball of triangles: so many meridians, and half as many and a half parallels."""
    rings, far = size, 1_000_000
    points: List[Point] = [(0, 0, far)]
    for ring in range(1, rings):
        level, out = math.cos(math.pi * ring / rings), math.sin(math.pi * ring / rings)
        points += [(round(far * out * math.cos(angle)), round(far * out * math.sin(angle)), round(far * level))
                   for angle in (2 * math.pi * i / size for i in range(size))]
    points.append((0, 0, -far))

    def at(ring: int, i: int) -> int:
        return 1 if ring == 0 else len(points) if ring == rings else 2 + (ring - 1) * size + i % size
    faces = [[corners] for ring in range(rings) for i in range(size)
             for corners in ((at(ring, i), at(ring + 1, i), at(ring + 1, i + 1)), (at(ring, i), at(ring + 1, i + 1), at(ring, i + 1)))
             if len(set(corners)) == 3]
    return model_in(listing(points, faces))


def processor_times(process: int) -> Dict[str, float]:
    """The milliseconds of processor that the process and those that it started have taken, by what each is for."""
    rows: Dict[int, Tuple[int, str, int]] = {}
    for stat in Path('/proc').glob('[0-9]*/stat'):
        try:
            words = stat.read_text().rpartition(')')[2].split()
            kind = re.search(rb'--type=([a-z-]+)', stat.with_name('cmdline').read_bytes())
        except OSError:
            continue
        rows[int(stat.parent.name)] = (int(words[1]), kind[1].decode() if kind else '', 10 * (int(words[11]) + int(words[12])))
    times = {'renderer': 0.0, 'gpu-process': 0.0}
    for number, (parent, kind, spent) in rows.items():
        while parent in rows and parent != process and number != process:
            parent = rows[parent][0]
        if parent == process and kind in times:
            times[kind] += spent
    return times


def measured(chromium: Chromium, tab: Tab, task: str, count: int) -> Dict[str, Any]:
    """What a task takes: the times of its frames, and the processor times of one."""
    time.sleep(1)
    before = processor_times(chromium.process.pid)
    told: Dict[str, Any] = tab.value(MEASURE.replace('NAME', json.dumps(task)).replace('COUNT', str(count)))
    after = processor_times(chromium.process.pid)
    return {**told, **{kind: (after[kind] - before[kind]) / count for kind in after}}


def times_of(model: Model, window: Tuple[int, int], count: int, words: Tuple[str, ...] = SOFTWARE) -> Dict[str, Dict[str, Any]]:
    """The times of all tasks, by name, and of opening the page."""
    chromium, page = Chromium(None, words), page_of(model)
    try:
        begun = time.perf_counter()
        tab = chromium.open(page, window, before=TIMED)
        tab.settle()
        opened = 1000 * (time.perf_counter() - begun)
        return {'opening': {'whole': [opened], 'own': [0], 'renderer': 0, 'gpu-process': 0}, **{task: measured(chromium, tab, task, count) for task in TASKS}}
    finally:
        chromium.close()


def main() -> None:
    """Prints the times."""
    parser = argparse.ArgumentParser(description=__doc__)
    parser.add_argument('--kind', choices=('blocks', 'ball'), default='blocks')
    parser.add_argument('--size', type=int, default=12)
    parser.add_argument('--window', default='1280,800')
    parser.add_argument('--frames', type=int, default=60)
    parser.add_argument('--gpu', action='store_true')
    options = parser.parse_args()
    model = {'blocks': blocks, 'ball': ball}[options.kind](options.size)
    width, height = map(int, options.window.split(','))
    told = times_of(model, (width, height), options.frames, () if options.gpu else SOFTWARE)
    print(len(model.faces), 'faces,', len(model.edges), 'edges,', len(page_of(model)), 'bytes')
    print(f'{"":10}{"frame":>9}{"own":>9}{"page":>9}{"drawing":>9}')
    for name, times in told.items():
        row = [*(sorted(times[kind])[len(times[kind]) // 2] for kind in ('whole', 'own')), times['renderer'], times['gpu-process']]
        print(f'{name:10}', *(f'{value:8.1f}' for value in row))


if __name__ == '__main__':
    main()
