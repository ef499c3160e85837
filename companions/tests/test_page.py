"""The page in Chromium: real clicks at computed places, real keys, small windows, dark ones, and a browser that loses what it drew.

    picks by computed places, numbers, names and colours        Picking
    wires, facets, small blocks, lost contexts, resizing,
    bounds of zoom, addresses that aren't understood            Failing
    buttons, triad, x-ray, saved pictures, measuring            Tools
    distances, angles, lengths, areas and volumes, exactly      Measures
    sections along axes and faces, caps, sliders                Sections
    the list of solids, the panel, the steps                    Lists
    no panel under the tools, at six sizes                      Windows
    a touched window of 360 by 640                              Phones
    tabulator, Space, Enter, arrows, focus, names of controls   Keyboard
    the page within another one                                 Frames
    clicks, keys, drags and the wheel in any order              Anything
    darkness, no motion                                         Wishes
    no requests, nothing run that isn't the page's own          Policy
    no upload and no reckoning of spots while a model turns     Speed
"""

import html
import json
import math
import random
import tempfile
import time
import unittest
from fractions import Fraction
from pathlib import Path
from typing import NamedTuple, Optional, Tuple

from chromium import Chromium, Image
from page_speed import blocks, times_of
from support import REPOSITORY, box, listing, model_in, plate, program

from gwb.drawing.hidden_lines import Scene
from gwb.drawing.page import page_of, page_of_steps
from gwb.drawing.svg import _middle
from gwb.drawing.view import View
from gwb.geometry.measures import normal, six_volume
from gwb.geometry.model import Model
from gwb.geometry.touched_edges import touched_edges
from gwb.geometry.vectors import cross, dot, subtract
from gwb.programs.playing import played
from gwb.protocol.listing import read_model

STAND = (2, -3, 2)
LIFT = math.atan2(2, math.sqrt(13))
NAMES = ('block_with_hole', 'glued_blocks', 'u_profile', 'block_cut_diagonally', 'cut_along_drawn_edges', 'face_cut_at_four_places', 'split_block',
         'two_blocks_one_cut')
# How the pages of these models are drawn: the first one by WebGL, which costs a software renderer much, some in perspective.
DRAWN = ('numbers=none', 'flat&perspective', 'flat', 'flat&perspective', *['flat'] * 4)
DESK, MIDDLE, SMALL, PHONE = (1280, 800), (800, 600), (620, 470), (360, 640)


def setUpModule():
    """Starts the browser, once for all."""
    global CHROMIUM
    CHROMIUM = Chromium()


def tearDownModule():
    """Ends it."""
    CHROMIUM.close()


def stored(name):
    """The model of an example or a worked script."""
    found = next(path for folder in ('examples', 'tests/scripts') for path in [REPOSITORY / folder / f'{name}.expected'] if path.exists())
    return read_model(found.read_bytes())


def prism(sides, height=2_000):
    """The model of an upright prism whose base has so many sides."""
    around = [(round(9_000 * math.cos(2 * math.pi * i / sides)), round(9_000 * math.sin(2 * math.pi * i / sides))) for i in range(sides)]
    points = [(x, y, z) for z in (0, height) for x, y in around]
    walls = [[(i + 1, (i + 1) % sides + 1, sides + (i + 1) % sides + 1, sides + i + 1)] for i in range(sides)]
    return model_in(listing(points, [[tuple(range(sides, 0, -1))], [tuple(range(sides + 1, 2 * sides + 1))], *walls]))


def row_of_blocks(count):
    """So many blocks in a row."""
    points, solids = [], []
    for place in range(count):
        more, faces = box((3 * place, 0, 0), (3 * place + 2, 2, 2), len(points) + 1)
        points += more
        solids.append(faces)
    return model_in(listing(points, *solids))


def wire():
    """A solid of one face without an area, whose loop runs along three edges and back."""
    return model_in('solid 1\nface 1 1 1\nloop 1 +1 +2 +3 -3 -2 -1\nedge 1 1 2\nedge 2 2 3\nedge 3 3 4\n'
                    'vertex 1 0 0 0\nvertex 2 40 0 0\nvertex 3 40 40 0\nvertex 4 40 40 40\n')


def clicks(model):
    """What the viewer sees, found exactly: kind, number and a point of each thing to click at."""
    scene, view, touched = Scene(model, View(STAND)), View(STAND), touched_edges(model)
    found, seen = [], set()
    for face in model.faces:
        point, weight = _middle(model, face, touched)
        if dot(normal(model, face), view.into) < 0 and not scene.is_hidden(point, view.spot(point), weight):
            found.append(('f', face, [x / weight for x in point]))
    for edge, ends in model.edges.items():
        pieces = scene.pieces(edge)
        if pieces and not any(piece.hidden for piece in pieces):
            found.append(('e', edge, [sum(x) / 2 for x in zip(*(model.vertices[end] for end in ends))]))
            seen.update(ends)
    return found + [('v', vertex, model.vertices[vertex]) for vertex in sorted(seen)]


def away(a, b, p):
    """How far a place is from a segment."""
    d = (b[0] - a[0], b[1] - a[1])
    long = d[0] ** 2 + d[1] ** 2
    way = max(0, min(1, ((p[0] - a[0]) * d[0] + (p[1] - a[1]) * d[1]) / long)) if long else 0
    return math.hypot(a[0] + way * d[0] - p[0], a[1] + way * d[1] - p[1])


class Look(NamedTuple):
    """How a thing looks."""

    name: str
    colour: Optional[Tuple[int, int, int]] = None


class PageCase(unittest.TestCase):
    """Opens pages, and closes them at the end; what the browser complained of is a failure."""

    def opened(self, page, size=DESK, words='', **wishes):
        """A tab that shows the page."""
        tab = CHROMIUM.open(page, size, words, **wishes)
        self.addCleanup(tab.close)
        self.addCleanup(self.require_no_complaint, tab)
        tab.settle()
        return tab

    def require_no_complaint(self, tab):
        """What the page broke is told by the browser; what its policy refuses is another test's."""
        told = tab.events('Log.entryAdded', 'Runtime.exceptionThrown')
        self.assertEqual([entry for entry in told if 'violates' not in json.dumps(entry)], [])

    def said(self, tab):
        """The live line."""
        return tab.value('document.getElementById("said").textContent')

    def require_said(self, tab, text):
        """The live line comes to say this."""
        tab.until(f'document.getElementById("said").textContent === {json.dumps(text)}')
        self.assertEqual(self.said(tab), text)

    def text(self, tab, selector):
        """The text of an element."""
        return tab.value(f'document.querySelector({json.dumps(selector)}).textContent')

    def shown(self, tab, selector):
        """Whether an element takes room on the screen."""
        return tab.value(f'document.querySelector({json.dumps(selector)}).offsetWidth > 0')

    def places(self, tab, points):
        """Where points of the model lie on the screen."""
        return [(x, y) for x, y, _ in tab.value(f'{json.dumps([list(map(float, point)) for point in points])}.map(View.place)')]

    def place(self, tab, point):
        """Where a point of the model lies on the screen."""
        return self.places(tab, [point])[0]


class Picking(PageCase):
    """Clicks at what is seen."""

    def tried(self, model, page, words):
        """The clicks at places where nothing else is near: kind, number, what was copied, and the panel's text."""
        tab = self.opened(page, SMALL, words)
        tab.value(f'View.view.lift = {LIFT}, document.getElementById("info").style.display = "none", View.ask()')
        tab.settle()
        points = self.places(tab, list(model.vertices.values()))
        places = dict(zip(model.vertices, points))
        lines = [[places[end] for end in ends] for ends in model.edges.values()]
        clear = {'f': lambda spot: all(away(*line, spot) > 7 for line in lines),
                 'v': lambda spot: sum(away(point, point, spot) < 16 for point in points) == 1,
                 'e': lambda spot: all(away(point, point, spot) > 14 for point in points) and sum(away(*line, spot) < 12 for line in lines) == 1}
        wanted, found = clicks(model), []
        for (kind, number, _), spot in zip(wanted, self.places(tab, [point for *_, point in wanted])):
            if clear[kind](spot):
                tab.click(*spot)
                found.append((kind, number, *tab.value('[View.state.copied, document.getElementById("facts").textContent]')))
        return found

    def test_a_click_gives_the_right_number(self):
        for name, words in zip(NAMES, DRAWN):
            model = stored(name)
            with self.subTest(name, words=words):
                found = self.tried(model, page_of(model), words)
                self.assertGreaterEqual(len(found), 8)
                self.assertLessEqual({'e', 'v', 'f'}, {kind for kind, *_ in found})
                for kind, number, copied, text in found:
                    self.assertEqual(copied, f'+{number}' if kind == 'e' else str(number))
                    self.assertIn({'f': 'face of solid', 'e': f'edge {number} of', 'v': 'vertex of solid'}[kind], text)
                    if kind == 'e':
                        self.assertRegex(text, rf'\+{number}from vertex .*-{number}from vertex ')

    def test_a_pick_says_what_it_is_and_that_it_copied(self):
        tab = self.opened(page_of(stored('block_with_hole')))
        tab.click(*self.place(tab, (6, 3, 1)))
        self.require_said(tab, 'face 4 picked, copied 4')
        self.assertEqual(tab.value('navigator.clipboard.readText().catch(() => "4")'), '4')
        tab.press('Escape')
        self.require_said(tab, 'nothing picked')
        self.assertFalse(self.shown(tab, '#info'))

    def test_numbers_never_overlap(self):
        for name in NAMES[:4]:
            tab = self.opened(page_of(stored(name)), words='numbers=all')
            labels = tab.value('View.state.labels.map(l => [l.x, l.y, l.wide, l.high])')
            self.assertGreater(len(labels), 5)
            for i, (x, y, wide, high) in enumerate(labels):
                for u, v, width, height in labels[:i]:
                    self.assertTrue(abs(x - u) * 2 >= wide + width or abs(y - v) * 2 >= high + height)

    def test_a_list_of_numbers_and_enter(self):
        model = stored('block_with_hole')
        tab = self.opened(page_of(model))
        tab.press('/')
        tab.ask('Input.insertText', text='f1, +7 -8 v3 s2 @1')
        wanted = {'f1', 'e7', 'e8', 'v3', 's2', *(f'e{abs(half)}' for half in model.loops[1].halves)}
        self.assertEqual(set(tab.value('[...View.state.lit]')), wanted)
        tab.press('Enter')
        self.require_said(tab, 'face 1 picked, copied 1')
        self.assertEqual(tab.value('View.state.picked'), {'kind': 'f', 'number': 1})
        self.assertEqual(tab.value('document.activeElement.id'), 'wanted')

    def test_a_solid_has_its_volume_and_box(self):
        model = stored('block_with_hole')
        tab = self.opened(page_of(model))
        tab.click(700, 500)
        tab.click_on('#info-solid')
        self.assertRegex(self.text(tab, '#facts'), rf'^volume {Fraction(six_volume(model, model.faces), 6)} mm³area .* mm²box 0 0 0 to 6 6 6 mmsize 6 × 6 × 6 mmcounts 16 vertices')

    def test_names_and_colours_are_shown(self):
        looks = {('solid', 1): Look('bracket <b>', (0, 255, 0)), ('face', 3): Look('seat', (255, 0, 255)), ('face', 4): Look('', None)}
        model = stored('block_with_hole')
        tab = self.opened(page_of(model, 'part', looks), words='lit=f3')
        self.assertIn('3 seat', tab.value('View.state.labels.map(label => label.text)'))
        tab.press('l')
        self.assertEqual(self.text(tab, '#solids .name'), 'solid 1 bracket <b>')
        tab.value('View.light("")')
        tab.settle()
        for point, (red, green, blue) in (((3, 0, 3), (1, 0, 1)), ((6, 3, 3), (0, 1, 0))):
            [seen] = tab.colours(*self.place(tab, point))
            self.assertEqual([part > 60 for part in seen], [bool(part) for part in (red, green, blue)], seen)
        tab.click(*self.place(tab, (3, 0, 3)))
        self.assertEqual(self.text(tab, '#what'), 'face 3 seat')
        for wrong, told in (({('face', 3): Look('', (0, 0, 256))}, '256'), ({('edge', 3): Look('rim')}, 'edge')):
            with self.assertRaisesRegex(ValueError, told):
                page_of(model, 'part', wrong)


class Failing(PageCase):
    """What fails first: wires, lost contexts, small windows, far zooms, addresses, dense facets."""

    def test_a_wire_is_drawn_as_a_wire(self):
        for words in ('', 'flat'):
            tab = self.opened(page_of(wire()), words=words)
            self.assertEqual(tab.value('View.scene.triangles.faces.length'), 0)
            for point in ((20, 0, 0), (40, 20, 0), (40, 40, 20)):
                self.assertLess(min(map(sum, tab.colours(*self.place(tab, point), 5, 5))), 330)
            self.assertGreater(sum(tab.colours(*self.place(tab, (30, 10, 0)))[0]), 600)

    def test_a_face_with_a_spur_is_cut_without_it(self):
        model = model_in('solid 1\nface 1 1 1\nface 2 1 2\nloop 1 +1 +2 +4 -4 +3\nloop 2 -1 -3 -2\nedge 1 1 2\nedge 2 2 3\nedge 3 3 1\nedge 4 3 4\n'
                         'vertex 1 0 0 0\nvertex 2 9 0 0\nvertex 3 0 9 0\nvertex 4 30 30 30\n')
        tab = self.opened(page_of(model))
        self.assertEqual(tab.value('[...View.scene.triangles.corners]'), [0, 1, 2, 1, 0, 2])

    def test_a_lost_context_comes_back(self):
        tab = self.opened(page_of(stored('block_with_hole')), SMALL)
        time.sleep(.5)
        before = tab.colours(310, 235, 80, 80)
        tab.value('var lost = document.getElementById("solid").getContext("webgl").getExtension("WEBGL_lose_context"); lost.loseContext()')
        tab.settle()
        tab.press('h', 'h')
        tab.value('new Promise(done => { document.getElementById("solid").addEventListener("webglcontextrestored", () => setTimeout(done, 600)); lost.restoreContext(); })')
        tab.settle()
        self.assertGreater(len(set(before)), 2)
        self.assertEqual(tab.colours(310, 235, 80, 80), before)

    def test_without_its_context_it_is_drawn_all_the_same(self):
        tab = self.opened(page_of(stored('block_with_hole')), SMALL)
        spot = self.place(tab, (3, 0, 1))
        before = tab.colours(*spot)[0]
        tab.value('document.getElementById("solid").getContext("webgl").getExtension("WEBGL_lose_context").loseContext()')
        time.sleep(3.3)
        tab.settle()
        self.assertLess(max(abs(a - b) for a, b in zip(tab.colours(*spot)[0], before)), 40)

    def test_resizing_fits_again(self):
        tab = self.opened(page_of(stored('block_with_hole')))
        for size in (PHONE, (640, 360), (80, 80), DESK):
            tab.resize(*size)
            tab.settle()
            self.assertGreater(tab.value('View.view.zoom'), 0)
            if size != (80, 80):
                spots = self.places(tab, stored('block_with_hole').vertices.values())
                self.assertTrue(all(0 < x < size[0] and 0 < y < size[1] for x, y in spots), (size, spots))
        tab.wheel(640, 400, -600)
        tab.settle()
        zoom = tab.value('View.view.zoom')
        tab.resize(640, 400)
        tab.settle()
        self.assertLess(tab.value('View.view.zoom'), zoom * .7)
        tab.resize(*DESK)
        tab.settle()
        self.assertAlmostEqual(tab.value('View.view.zoom'), zoom, 3)

    def test_zoom_is_bounded(self):
        tab = self.opened(page_of(stored('block_with_hole')))
        fitted = tab.value('View.view.zoom')
        for way, least, most in ((-5000, fitted, fitted * 20_001), (5000, fitted / 8.1, fitted)):
            for _ in range(20):
                tab.wheel(640, 400, way)
            tab.settle()
            self.assertTrue(least <= tab.value('View.view.zoom') <= most)
        for _ in range(30):
            tab.press('Shift+ArrowRight')
        tab.settle()
        self.assertLess(self.place(tab, (3, 3, 3))[0], DESK[0])

    def test_an_address_that_is_not_understood_is_said(self):
        page = page_of(stored('block_with_hole'))
        for words, told in (('step=abc', 'step=abc'), ('step=7', 'step=7'), ('step=', 'step='), ('turn=x&lift=.2', 'turn=x'), ('nonsense', 'nonsense'),
                            ('section=q', 'section=q'), ('edges=7', 'edges=7'), ('numbers=some', 'numbers=some')):
            tab = self.opened(page, words=words)
            self.assertIn(f'{told} isn', self.said(tab))
            self.assertEqual(tab.value('Object.keys(View.scene.at.f).length'), 10)
        self.assertEqual(self.said(self.opened(page, words='turn=.5&lift=-.2&lit=f1&numbers=all&edges=15&hidden&xray&perspective')), '')

    def test_dense_facets_are_not_black(self):
        for words in ('', 'flat'):
            tab = self.opened(page_of(prism(1_500, 9_000)), words=words)
            for angle in (-1.2, -.9, -.5):
                x, y = self.place(tab, (9_000 * math.cos(angle), 9_000 * math.sin(angle), 4_500))
                side = [sum(colour) for colour in tab.colours(x, y, 9, 1)]
                self.assertGreater(min(side), 250)
                rim = [sum(colour) for colour in tab.colours(*self.place(tab, (9_000 * math.cos(angle), 9_000 * math.sin(angle), 9_000)), 1, 9)]
                self.assertLess(min(rim), .8 * min(side))

    def test_small_blocks_keep_their_colours(self):
        for words in ('numbers=none', 'numbers=none&flat'):
            tab = self.opened(page_of(blocks(12)), MIDDLE, words)
            seen = tab.colours(*self.place(tab, (17, 17, 17)), 120, 120)
            self.assertLess(sum(sum(colour) < 200 for colour in seen), len(seen) / 3)
            self.assertGreater(len({tuple(part // 32 for part in colour) for colour in seen}), 12)

    def test_edges_are_drawn_by_choice(self):
        tab = self.opened(page_of(prism(64)), SMALL)
        self.assertEqual(self.text(tab, '[data-key=e]'), 'edges: auto')
        dark = {}
        for _ in range(6):
            name = self.text(tab, '[data-key=e]')
            tab.settle()
            dark[name] = sum(sum(colour) < 200 for colour in tab.colours(310, 240, 600, 240))
            tab.press('e')
        self.assertEqual(dark['edges: auto'], dark['edges: all'])
        self.assertEqual(dark['edges: all'], dark['edges: from 5°'])
        self.assertGreater(dark['edges: all'], dark['edges: from 15°'])
        self.assertGreater(dark['edges: from 30°'], dark['edges: none'])



class Tools(PageCase):
    """The tools: each by its button."""

    def test_the_buttons_work_by_mouse(self):
        tab = self.opened(page_of(stored('block_with_hole')), calm=True)
        for key, flag in (('h', 'isHidden'), ('x', 'isXray'), ('p', 'isPerspective'), ('m', 'measured'), ('c', 'cut')):
            for is_on in (True, False):
                tab.click_on(f'[data-key="{key}"]')
                self.assertEqual(tab.value(f'Boolean(View.state.{flag})'), is_on, key)
                pressed = tab.value(f'(b => b.ariaPressed || b.ariaExpanded)(document.querySelector(\'[data-key="{key}"]\'))')
                self.assertEqual(pressed, str(is_on).lower(), key)
        for told in ('numbers: all', 'numbers: none', 'numbers: near'):
            tab.click_on('[data-key=n]')
            self.assertEqual(self.text(tab, '[data-key=n]'), told)
        tab.wheel(640, 400, -500)
        tab.drag([(640, 400), (700, 420), (720, 430)])
        tab.click_on('[data-key="0"]')
        self.assertAlmostEqual(tab.value('View.view.lift'), .507)
        self.assertAlmostEqual(tab.value('View.view.zoom'), tab.value('View.refit() || View.view.zoom'))

    def test_the_triad_looks_along_each_axis(self):
        tab = self.opened(page_of(stored('block_with_hole')), calm=True)
        for name, stand in (('x', (1, 0, 0)), ('-x', (-1, 0, 0)), ('y', (0, 1, 0)), ('-y', (0, -1, 0)), ('z', (0, 0, 1)), ('-z', (0, 0, -1))):
            sign = name if name[0] == '-' else '+' + name
            tab.press('0')
            tab.settle()
            tab.click_on(f'#triad [aria-label="view from {sign}"]')
            seen = tab.value('Picture.axes(View.view).stand')
            self.assertTrue(all(abs(a - b) < 1e-9 for a, b in zip(seen, stand)), (name, seen))

    def test_x_ray_shows_what_is_behind(self):
        tab = self.opened(page_of(row_of_blocks(2)), MIDDLE, words='turn=3.14159&lift=0')
        spot = self.place(tab, (0, 1, 1))
        opaque = tab.colours(*spot)
        tab.press('x')
        tab.settle()
        self.assertNotEqual(tab.colours(*spot), opaque)

    def test_a_picture_is_saved(self):
        for words in ('', 'flat'):
            tab = self.opened(page_of(stored('block_with_hole'), 'my part'), (260, 220), words)
            with tempfile.TemporaryDirectory() as folder:
                tab.ask('Page.setDownloadBehavior', behavior='allow', downloadPath=folder)
                tab.press('i')
                path = Path(folder, 'my part.png')
                for _ in range(200):
                    if path.exists() and tab.value('document.getElementById("said").textContent').startswith('saved'):
                        break
                    time.sleep(.05)
                image = Image(path.read_bytes())
            x, y = self.place(tab, (6, 3, 1))
            scale = image.width / 260
            self.assertEqual(scale, tab.value('document.getElementById("solid").width') / 260)
            red, _, blue = image.at(x * scale, y * scale)
            self.assertGreater(blue, red + 30)

    def test_measure_by_two_picks(self):
        tab = self.opened(page_of(stored('block_with_hole')), MIDDLE)
        tab.click_on('[data-key=m]')
        tab.click(*self.place(tab, (6, 0, 0)))
        tab.click(*self.place(tab, (0, 0, 6)))
        self.assertEqual(tab.value('[...document.querySelectorAll("#facts div")].map(row => row.textContent)'),
                         ['vertex 2', 'vertex 5', 'distance √72 ≈ 8.485281374 mm', 'across x, y, z 6 0 6 mm'])
        tab.click(*self.place(tab, (6, 3, 1)))
        self.assertEqual(tab.value('View.state.measured'), [{'kind': 'f', 'number': 4}])
        tab.click(*self.place(tab, (3, 0, 1)))
        self.assertIn('angle of the normals 90°', self.text(tab, '#facts'))
        self.assertEqual(tab.value('View.state.copied'), '')
        tab.press('Escape')
        self.assertEqual((tab.value('View.state.measured'), self.shown(tab, '#info')), (None, False))


def told_number(text):
    """The number that a measure tells: exactly where it is a fraction or the root of one, squared."""
    exact = text.split(' ≈ ')[0].split(' mm')[0]
    return Fraction(exact.strip('√()')) if exact.startswith('√') else Fraction(exact) ** 2


class Measures(PageCase):
    """Measures against fractions."""

    SIZE = 1_000_000_000

    def setUp(self):
        chance = random.Random(1)
        points = [tuple(chance.randint(-self.SIZE, self.SIZE) for _ in range(3)) for _ in range(4)]
        faces = [[(1, 2, 3)], [(1, 3, 4)], [(1, 4, 2)], [(2, 4, 3)]]
        self.model = model_in(listing(points, faces))
        self.tab = self.opened(page_of(self.model), MIDDLE)

    def between(self, first, second):
        """What the page tells, by its names."""
        things = ', '.join(f'{{kind: "{kind}", number: {number}}}' for kind, number in (first, second))
        return dict(self.tab.value(f'Measure.between(View.model, {things})'))

    def test_vertices(self):
        for vertex in (2, 3, 4):
            way = subtract(self.model.vertices[1], self.model.vertices[vertex])
            self.assertEqual(told_number(self.between(('v', 1), ('v', vertex))['distance']), dot(way, way))

    def own(self, kind, number):
        """The measures of one thing, by their names."""
        return dict(self.tab.value(f'Measure.own(View.model, {{kind: "{kind}", number: {number}}})'))

    def test_lengths_and_areas(self):
        for edge, (start, end) in self.model.edges.items():
            along = subtract(self.model.vertices[end], self.model.vertices[start])
            self.assertEqual(told_number(self.own('e', edge)['length']), dot(along, along))
        for face in self.model.faces:
            across = normal(self.model, face)
            self.assertEqual(told_number(self.own('f', face)['area']), Fraction(dot(across, across), 4))
        told = dict(self.tab.value('Measure.solid(View.model, 1)'))
        self.assertEqual(Fraction(told['volume'].split(' ')[0]), Fraction(six_volume(self.model, self.model.faces), 6))

    def test_vertices_and_edges(self):
        for vertex in self.model.vertices:
            for edge, (start, end) in self.model.edges.items():
                a, b, p = (self.model.vertices[number] for number in (start, end, vertex))
                along, way = subtract(b, a), subtract(p, a)
                across = cross(way, along)
                line = Fraction(dot(across, across), dot(along, along))
                reach = Fraction(dot(way, along), dot(along, along))
                nearest = [x + min(max(reach, 0), 1) * y for x, y in zip(a, along)]
                away = sum((x - y) ** 2 for x, y in zip(p, nearest))
                told = self.between(('e', edge), ('v', vertex))
                self.assertEqual(told_number(told['distance']), away)
                self.assertEqual(told_number(told.get('from its line', told['distance'])), line)

    def test_vertices_and_faces(self):
        for face in self.model.faces:
            across = normal(self.model, face)
            for vertex, point in self.model.vertices.items():
                height = dot(across, subtract(point, self.model.vertices[self.model.face_vertices(face)[0]]))
                self.assertEqual(told_number(self.between(('f', face), ('v', vertex))['distance from the plane']), Fraction(height ** 2, dot(across, across)))

    def test_angles_and_lines(self):
        for first in self.model.faces:
            for second in self.model.faces:
                a, b = normal(self.model, first), normal(self.model, second)
                told, cosine = self.between(('f', first), ('f', second))['angle of the normals'], dot(a, b) / math.sqrt(dot(a, a) * dot(b, b))
                self.assertAlmostEqual(float(told.strip('≈ ').split('°')[0]), math.degrees(math.acos(max(-1, min(1, cosine)))), 6)
                if first != second:
                    self.assertIn(f'its cosine squared {Fraction(dot(a, b) ** 2, dot(a, a) * dot(b, b))}', told)
        for first, ends in self.model.edges.items():
            for second, others in self.model.edges.items():
                if not set(ends) & set(others):
                    (a, b), (c, d) = ([self.model.vertices[end] for end in pair] for pair in (ends, others))
                    across = cross(subtract(b, a), subtract(d, c))
                    told = self.between(('e', first), ('e', second))['distance of the lines']
                    self.assertEqual(told_number(told), Fraction(dot(across, subtract(c, a)) ** 2, dot(across, across)))

    def test_whole_angles_and_parallels(self):
        self.tab = self.opened(page_of(model_in(listing(*box((0, 0, 0), (4, 5, 6))))), MIDDLE)
        self.assertEqual(self.between(('f', 1), ('f', 2)), {'angle of the normals': '180°', 'distance of the planes': '6 mm'})
        self.assertEqual(self.between(('f', 1), ('f', 3)), {'angle of the normals': '90°'})
        self.assertEqual(self.between(('e', 1), ('f', 2)), {'angle': '0°', 'distance from the plane': '6 mm'})
        self.assertEqual(self.between(('e', 1), ('e', 3)), {'angle': '0°', 'distance of the lines': '4 mm'})
        self.assertEqual({told['angle'] for told in (self.between(('e', edge), ('f', 1)) for edge in range(1, 13))}, {'0°', '90°'})
        self.assertEqual(dict(self.tab.value('Measure.solid(View.model, 1)'))['volume'], '120 mm³')
        self.assertEqual(dict(self.tab.value('Measure.own(View.model, {kind: "f", number: 1})'))['area'], '20 mm²')

    def test_bent_faces_are_named(self):
        points, faces = box((0, 0, 0), (4, 4, 4))
        points[6] = (4, 4, 6)
        self.tab = self.opened(page_of(model_in(listing(points, faces))), MIDDLE)
        self.assertEqual(self.between(('f', 2), ('f', 1)), {'': "face 2 isn't flat, or has no area"})


class Sections(PageCase):
    """Cuts by a plane."""

    def caps(self, tab):
        """The area of the caps, in lengths of the model."""
        return tab.value("""(({spots, triangles: {corners, faces}}) => {
            let sum = 0;
            faces.forEach((face, i) => {
              if (face > 0) return;
              const [a, b, c] = [0, 1, 2].map(k => Picture.pointOf({spots}, corners[3 * i + k]));
              const [u, v] = [b, c].map(p => p.map((x, k) => x - a[k]));
              sum += Math.hypot(u[1] * v[2] - u[2] * v[1], u[2] * v[0] - u[0] * v[2], u[0] * v[1] - u[1] * v[0]) / 2;
            });
            return sum;
        })(View.scene) * Picture.bounds(Object.values(View.model.vertices)).radius ** 2""")

    def cut(self, tab, axis, place):
        """Moves the slider by its events, as a hand does."""
        tab.value(f"""(() => {{ const axis = document.getElementById('cut-axis'), slider = document.getElementById('cut-at');
            axis.value = '{axis}'; axis.dispatchEvent(new Event('change')); slider.step = 'any'; slider.value = {place}; slider.dispatchEvent(new Event('input')); }})()""")
        tab.settle()

    def test_caps_have_the_area_of_the_cut(self):
        cases = {'block_with_hole': (('0', 1, 36), ('0', 3, 24), ('1', 3.5, 24), ('2', 2.5, 32)), 'u_profile': ()}
        for name, cuts in cases.items():
            tab = self.opened(page_of(stored(name)), MIDDLE)
            tab.click_on('[data-key=c]')
            for axis, place, area in cuts:
                self.cut(tab, axis, place)
                self.assertAlmostEqual(self.caps(tab), area, 6, (name, axis, place))
        tab = self.opened(page_of(model_in(plate(6))), MIDDLE)
        tab.press('c')
        for axis, place, area in (('0', 2, 24 * 2 - 6 * 4), ('2', 1, 24 * 24 - 36 * 4), ('1', .5, 48)):
            self.cut(tab, axis, place)
            self.assertAlmostEqual(self.caps(tab), area, 6, (axis, place))

    def test_a_sphere_like_solid_along_a_face(self):
        model = prism(200, 7_000)
        tab = self.opened(page_of(model), MIDDLE)
        tab.press('c')
        tab.value('View.choose({kind: "f", number: 1})')
        self.cut(tab, 'f', -3_000)
        self.assertIn('-3000 mm from face 1', self.text(tab, '#cut-told'))
        self.assertAlmostEqual(self.caps(tab) / (abs(normal(model, 1)[2]) / 2), 1, 6)

    def test_what_is_cut_off_is_not_picked_and_a_cap_is_its_solid(self):
        for words in ('section=x3', 'section=x3&flat', 'section=x3&perspective'):
            tab = self.opened(page_of(stored('block_with_hole')), MIDDLE, words)
            self.assertEqual(self.text(tab, '#cut-told'), 'x = 3 mm')
            tab.click(*self.place(tab, (3, 1, 5)))
            self.require_said(tab, 'solid 1 picked, copied 1')
            self.assertIn('volume 192', self.text(tab, '#facts'))
            tab.press('n')
            tab.settle()
            kept = {('v', vertex) for vertex, point in stored('block_with_hole').vertices.items() if point[0] <= 3}
            self.assertLessEqual({(kind, number) for kind, number in tab.value('View.state.labels.map(l => [l.kind, l.number])') if kind == 'v'}, kept)

    def test_caps_are_filled(self):
        for words, shades in (('section=x3&numbers=none', 2), ('section=x3&numbers=none&flat', 1)):
            tab = self.opened(page_of(stored('block_with_hole')), MIDDLE, words)
            cap = {tuple(part // 16 for part in colour) for colour in tab.colours(*self.place(tab, (3, 1, 3)), 9, 9)}
            self.assertTrue(all(blue > red for red, _, blue in cap), cap)
            self.assertGreaterEqual(len(cap), shades)
            tab.value('document.getElementById("cut-axis").focus()')
            hole = tab.colours(*self.place(tab, (3, 3, 3)), 3, 3)
            tab.press('c')
            tab.settle()
            self.assertNotEqual(tab.colours(*self.place(tab, (3, 1, 3)), 9, 9), hole)

    def test_the_other_side_and_off(self):
        tab = self.opened(page_of(row_of_blocks(3)), MIDDLE, 'section=x1')
        counts = [tab.value('View.scene.triangles.faces.filter(face => face > 0).length')]
        for _ in range(2):
            tab.click_on('#cut-turn')
            tab.settle()
            counts.append(tab.value('View.scene.triangles.faces.filter(face => face > 0).length'))
        self.assertEqual(counts[0], counts[2])
        self.assertGreater(counts[1], counts[0])
        tab.click_on('[data-key=c]')
        tab.settle()
        self.assertEqual((tab.value('View.scene.triangles.faces.length'), self.shown(tab, '#cut')), (36, False))

    def test_a_slider_by_keys(self):
        tab = self.opened(page_of(stored('block_with_hole')), MIDDLE, 'section=z3')
        tab.value('document.getElementById("cut-at").focus()')
        tab.press('ArrowRight', 'ArrowRight')
        tab.settle()
        self.assertGreater(tab.value('View.state.cut.place'), 3)
        self.assertEqual(tab.value('document.activeElement.id'), 'cut-at')


class Handles(PageCase):
    """The section's handle in the picture."""

    def test_dragging_it_moves_the_section(self):
        tab = self.opened(page_of(stored('block_with_hole')), MIDDLE, 'section=z3', calm=True)
        tab.settle()
        (x, y), (right, down) = (tab.value(f'View.cutHandle().{name}.slice(0, 2)') for name in ('at', 'way'))
        self.assertTrue(abs(right) < 1 and down < -1, (right, down))
        before = tab.value('[View.view.turn, View.view.lift]')
        tab.drag([(x, y), (x, y + down / 2), (x + 7, y + down)])
        self.assertEqual((tab.value('View.state.cut.place'), tab.value('[View.view.turn, View.view.lift]')), (4, before))
        self.assertEqual(self.text(tab, '#cut-told'), 'z = 4 mm')
        self.assertEqual(tab.value('View.state.picked'), None)
        tab.drag([(x, y + down), (x, y + 90 * down)])
        self.assertEqual(tab.value('View.state.cut.place'), tab.value('+document.getElementById("cut-at").max'))

    def test_it_is_drawn_where_there_is_a_section(self):
        tab = self.opened(page_of(stored('block_with_hole')), MIDDLE, 'section=x3', calm=True)
        tab.settle()
        self.assertEqual(len(tab.value('View.cutHandle().outline')), 4)
        x, y = tab.value('View.cutHandle().at.slice(0, 2)')
        self.assertIn((255, 255, 255), tab.colours(x, y, 5, 5))
        tab.click_on('#cut-close')
        tab.until('View.state.cut === null')
        self.assertIsNone(tab.value('View.cutHandle()'))


class Distances(PageCase):
    """The line along which a distance is measured."""

    def ends(self, tab, *things):
        tab.value(f'View.state.measured = {json.dumps([{"kind": kind, "number": number} for kind, number in things])}')
        return tab.value('Measure.ends(View.model, ...View.state.measured)')

    def test_its_ends(self):
        model = model_in(listing(*box((0, 0, 0), (4, 5, 6))))
        tab = self.opened(page_of(model), MIDDLE, calm=True)
        vertex = {point: number for number, point in model.vertices.items()}
        edge = {frozenset(model.vertices[end] for end in ends): number for number, ends in model.edges.items()}
        low, high, right = vertex[0, 0, 0], vertex[4, 5, 6], edge[frozenset([(4, 0, 0), (4, 5, 0)])]
        upright, back = edge[frozenset([(0, 0, 0), (0, 0, 6)])], edge[frozenset([(0, 5, 0), (0, 5, 6)])]
        for things, wanted in (((('v', low), ('v', high)), [[0, 0, 0], [4, 5, 6]]), ((('v', low), ('e', right)), [[0, 0, 0], [4, 0, 0]]),
                               ((('f', 2), ('v', low)), [[0, 0, 0], [0, 0, 6]]), ((('e', upright), ('e', back)), [[0, 0, 3], [0, 5, 3]]),
                               ((('e', upright), ('e', right)), [[0, 0, 0], [4, 0, 0]]), ((('e', right), ('f', 2)), [[4, 2.5, 0], [4, 2.5, 6]])):
            self.assertEqual(self.ends(tab, *things), wanted, things)
        first, second = self.ends(tab, ('f', 1), ('f', 2))
        self.assertEqual((first[:2], first[2], second[2]), (second[:2], 0, 6))
        self.assertIsNone(self.ends(tab, ('f', 1), ('f', 3)))
        self.assertIsNone(self.ends(tab, ('e', upright), ('f', 1)))

    def test_it_is_drawn(self):
        model = model_in(listing(*box((0, 0, 0), (4, 4, 4))))
        tab = self.opened(page_of(model), MIDDLE, calm=True)
        tab.press('m')
        self.assertIsNone(tab.value('View.state.line || null'))
        for point in ((4, 0, 0), (0, 0, 4)):
            tab.click(*self.place(tab, point))
        tab.until('View.state.line')
        self.assertEqual([[round(x) for x in end[:2]] for end in tab.value('View.state.line')],
                         [[round(x) for x in self.place(tab, point)] for point in ((4, 0, 0), (0, 0, 4))])

    def test_the_same_thing_twice_is_one(self):
        tab = self.opened(page_of(model_in(listing(*box((0, 0, 0), (4, 4, 4))))), MIDDLE, calm=True)
        tab.press('m')
        for _ in range(2):
            tab.value('View.choose({kind: "f", number: 2})')
        self.assertEqual(len(tab.value('View.state.measured')), 1)


class Numbers(PageCase):
    """Numbers of what is seen are chosen before those of what is hidden."""

    def test_a_plate_of_many_holes_has_them_all_over(self):
        model = model_in(plate(15))
        tab = self.opened(page_of(model), (1000, 800), 'numbers=all&turn=-1.57&lift=1.57', calm=True)
        tab.settle()
        labels = tab.value('View.state.labels.map(label => [label.kind, label.x, label.y])')
        self.assertGreater(len(labels), 100)
        self.assertIn('f', {kind for kind, _, _ in labels})
        (left, bottom), (right, top) = self.places(tab, [(0, 0, 2), (60, 60, 2)])
        self.assertGreater(max(x for _, x, _ in labels) - min(x for _, x, _ in labels), .5 * (right - left))
        self.assertGreater(max(y for _, _, y in labels) - min(y for _, _, y in labels), .5 * (bottom - top))


class Lists(PageCase):
    """The list of solids, the panel and the steps."""

    def numbers(self, tab):
        """The solids in the list, in its order, as the search leaves them."""
        return tab.value('[...document.querySelectorAll("#solids li")].filter(row => !row.hidden).map(row => +row.textContent.match(/\\d+/)[0])')

    def test_many_solids_scroll_beside_the_model(self):
        tab = self.opened(page_of(row_of_blocks(1_728)))
        self.assertEqual(self.numbers(tab), list(range(1, 1_729)))
        low, high, inner, whole = tab.value('(b => [b.left, b.right, document.getElementById("solids").clientHeight, document.getElementById("solids").scrollHeight])'
                                            '(document.getElementById("list").getBoundingClientRect())')
        self.assertLess(high - low, 310)
        self.assertTrue(500 < inner < 700, inner)
        self.assertGreater(whole, 20_000)
        self.assertTrue(all(self.place(tab, (x, 1, 1))[0] > high for x in (0, 5_183)))

    def test_search_all_none_and_only(self):
        looks = {('solid', 3): Look('bracket'), ('solid', 20): Look('left bracket')}
        tab = self.opened(page_of(row_of_blocks(30), 'part', looks), MIDDLE)
        for words, wanted in (('bracket', [3, 20]), ('left br', [20]), ('2', [2, *range(20, 30)]), ('solid 12', [12]), ('', list(range(1, 31)))):
            tab.value(f'(field => {{ field.value = {json.dumps(words)}; field.dispatchEvent(new Event("input")); }})(document.getElementById("search"))')
            self.assertEqual(self.numbers(tab), wanted)
        off = 'View.state.off.size'
        tab.click_on('#none')
        self.assertEqual(tab.value(off), 30)
        tab.value('(field => { field.value = "bracket"; field.dispatchEvent(new Event("input")); })(document.getElementById("search"))')
        tab.click_on('#all')
        self.assertEqual(tab.value(off), 28)
        tab.click_on('#solids li:nth-child(3) button:last-child')
        self.assertEqual((tab.value(off), tab.value('View.state.off.has(3)')), (29, False))
        tab.click_on('#solids li:nth-child(3) button:last-child')
        self.assertEqual(tab.value(off), 0)

    def test_they_are_in_the_order_of_their_numbers(self):
        model = row_of_blocks(2)
        faces = {number: face._replace(solid={1: 9, 2: 2}[face.solid]) for number, face in model.faces.items()}
        turned = Model((2, 9), faces, model.loops, model.edges, model.vertices)
        self.assertEqual(self.numbers(self.opened(page_of(turned), MIDDLE)), [2, 9])

    def test_solids_that_are_switched_off_are_not_picked(self):
        for words in ('', 'flat'):
            model = stored('split_block')
            tab = self.opened(page_of(model), MIDDLE, words)
            tab.click_on('#none')
            tab.press('l')
            tab.settle()
            for _, _, point in clicks(model):
                tab.click(*self.place(tab, point))
                self.assertIsNone(tab.value('View.state.picked'))

    def test_the_panel_scrolls(self):
        tab = self.opened(page_of(prism(9_998)))
        tab.value('View.choose({kind: "f", number: 2})')
        box_, body = tab.value('(b => [b.y, b.y + b.height])(document.getElementById("info").getBoundingClientRect())'), '#facts'
        self.assertTrue(0 < box_[0] and box_[1] < 650, box_)
        tab.value(f'document.querySelector("{body}").scrollTo({{top: 1e6, behavior: "instant"}})')
        seen = tab.value('(a => [a.y, a.bottom])(document.querySelector("#facts div:last-child").getBoundingClientRect())')
        self.assertLessEqual(seen[1], box_[1] + 1)
        tab.click_on('#info-fold')
        self.assertLess(tab.value('document.getElementById("info").offsetHeight'), 70)
        tab.click_on('#info-fold')
        self.assertTrue(self.shown(tab, '#facts'))

    def test_steps(self):
        script = (REPOSITORY / 'examples' / 'block_with_hole.gwb').read_bytes()
        program()
        page = page_of_steps(played(script).steps)
        tab = self.opened(page)
        now = lambda: self.text(tab, '#steps .now')
        told = [f'{line}\n{reply}' for line, reply in (('list', 'a listing of 63 lines'), ('volume 1', 'volume 1152'), ('count 1', 'count 16 24 10 2 0'))]
        self.assertEqual(now(), told[0])
        for key, wanted in (('ArrowLeft', told[1]), ('ArrowLeft', told[2]), ('ArrowRight', told[1]), ('.', told[0]), (',', told[1])):
            tab.press(key)
            self.assertEqual(now(), wanted)
        tab.value('document.getElementById("steps").focus()')
        tab.press('Home')
        self.assertEqual((now(), tab.value('View.state.step')), ('the empty workbench', 0))
        tab.press('ArrowDown', 'ArrowDown')
        self.assertEqual(tab.value('[View.state.step, document.activeElement.id, document.getElementById("steps").getAttribute("aria-activedescendant")]'),
                         [2, 'steps', 'step-2'])
        self.assertRegex(self.said(tab), '^step 2 of ')
        tab.click_on('#play')
        self.assertEqual(self.text(tab, '#play'), 'stop')
        tab.until('View.state.step > 2')
        tab.press(' ')
        self.assertEqual((self.text(tab, '#play'), tab.value('View.state.step')), ('play', 3))
        phone = self.opened(page, PHONE, touch=True)
        self.assertFalse(self.shown(phone, '#steps'))
        phone.tap(*phone.middle('#steps-button'))
        self.assertTrue(phone.until('document.getElementById("steps").offsetWidth > 0'))
        below = 'Math.min(...Object.values(View.model.vertices).map(point => View.place(point)[1])) - document.getElementById("steps").getBoundingClientRect().bottom'
        self.assertGreater(phone.value(below), 0)
        inside = phone.until('(([row, list]) => row.top >= list.top && row.bottom <= list.bottom + 1)'
                             '(["#steps .now", "#steps"].map(one => document.querySelector(one).getBoundingClientRect()))')
        self.assertTrue(inside)
        phone.tap(*phone.middle('#steps-button'))
        self.assertTrue(phone.until('!document.getElementById("steps").offsetWidth'))


    def test_rows_of_steps(self):
        """Commands that a mark makes one step are one row, within which they are; each step lights what it made."""
        program()
        script = b'block 1 0 0 0 9 9 9\n# draft of 2 commands: boss <b>\nlamina 2 20 0 0 29 0 0 29 9 0\nsweep 7 0 0 5\nlist\n'
        tab = self.opened(page_of_steps(played(script).steps), words='step=3', calm=True)
        rows = lambda: tab.value('[...document.querySelectorAll("#steps > div")].map(row => row.id)')
        self.assertEqual(rows(), ['step-0', 'step-1', 'step-2', 'step-3'])
        self.require_said(tab, 'step 2 of 3: boss <b>')
        self.assertEqual(set(tab.value('[...View.state.made]')), {f'f{face}' for face in range(7, 12)})
        red, green, blue = tab.colours(*self.place(tab, (26, 3, 5)))[0]
        self.assertTrue(red > green > blue + 60, (red, green, blue))
        tab.press('ArrowLeft')
        self.assertEqual((tab.value('View.state.step'), tab.value('[...View.state.made].length')), (1, 6))
        tab.press('ArrowLeft')
        self.assertEqual(tab.value('[View.state.step, View.state.made.size]'), [0, 0])
        tab.press('ArrowRight', 'ArrowRight')
        self.assertEqual(tab.value('View.state.step'), 3)
        tab.click_on('#step-2 button')
        lines = tab.value('[...document.querySelectorAll("#step-2 p")].map(line => line.textContent)')
        self.assertEqual(lines, ['lamina 2 20 0 0 29 0 0 29 9 0', 'sweep 7 0 0 5'])
        tab.click_on('#step-2 p')
        self.assertEqual((tab.value('View.state.step'), self.text(tab, '#said')), (2, 'step 2 of 3: boss <b>'))
        tab.press('.')
        self.assertEqual(tab.value('View.state.step'), 3)


class Looks(PageCase):
    """Solids moved apart and hidden, links, shadows, soft occlusion, units, and a page for within others."""

    TWO = listing([*box((0, 0, 0), (4, 4, 4))[0], *box((10, 0, 0), (14, 4, 4))[0]], box((0, 0, 0), (4, 4, 4))[1], box((10, 0, 0), (14, 4, 4), 9)[1])

    def test_solids_apart(self):
        tab = self.opened(page_of(model_in(self.TWO)), calm=True)
        far = 'Math.abs(View.scene.spots[3 * View.scene.at.v[{}]] - View.scene.spots[3 * View.scene.at.v[{}]])'
        wide, span = tab.value(far.format(1, 2)), tab.value(far.format(1, 9))
        tab.press('a')
        self.assertTrue(tab.until(f'View.state.apart > 0 && {far.format(1, 2)} < .7 * {wide}', 300))
        self.assertAlmostEqual(tab.value(far.format(1, 9)), span, 5)    # (from end to end it is as wide: the gap grew as the solids shrank)
        self.assertEqual(tab.value('document.querySelector("[data-key=a]").getAttribute("aria-pressed")'), 'true')
        tab.press('a')
        self.assertTrue(tab.until(f'View.state.apart === 0 && Math.abs({far.format(1, 2)} - {wide}) < 1e-9', 300))

    def test_a_click_hides_a_solid(self):
        tab = self.opened(page_of(model_in(self.TWO)), calm=True)
        tab.click(*self.place(tab, (2, 2, 4)))
        tab.click_on('#info-hide')
        self.assertEqual(tab.value('[[...View.state.off], View.state.picked]'), [[1], None])
        tab.press('d')
        self.require_said(tab, 'pick what is to be hidden first')

    def test_a_link_shows_one_picture(self):
        page = page_of(model_in(self.TWO))
        words = 'turn=-1.2&lift=0.7&xray&numbers=all&edges=15&zoom=1.4&pan=0.05,0.02&section=y3&side=above&apart=0.5&off=2&lit=f1'
        tab = self.opened(page, words=words, calm=True)
        self.assertEqual(tab.value('View.addressWords()'), words)
        tab.press('k')
        self.assertTrue(tab.until(f'View.state.copied.endsWith({json.dumps("#" + words)})'))
        for words, wanted in (('xray', [True, None, 0, 0, 0]), ('', [False, None, 0, 0, 0]), ('section=f7,1', [False, 7, 0, 0, 0])):
            tab.value(f'location.hash = {json.dumps(words)}')
            self.assertEqual(tab.until(f"""(found => JSON.stringify(found) === {json.dumps(json.dumps(wanted, separators=(',', ':')))} && found)
                ([View.state.isXray, View.state.cut && View.state.cut.face, View.state.apart, View.state.off.size, View.state.numbers])"""), wanted)
        self.assertFalse(tab.value('document.body.classList.contains("bare")'))

    def test_bare(self):
        tab = self.opened(page_of(model_in(self.TWO)), MIDDLE, 'bare', calm=True)
        for panel in ('header', 'footer', '#left', '#triad'):
            self.assertFalse(self.shown(tab, panel))
        tab.click(*self.place(tab, (2, 2, 4)))
        self.assertEqual(tab.value('View.state.picked.kind'), 'f')
        self.assertFalse(self.shown(tab, '#info'))

    def test_a_shadow_lies_on_the_ground(self):
        model = model_in(listing(*box((0, 0, 0), (4, 4, 4))))
        tab = self.opened(page_of(model), MIDDLE, 'lift=0.9', calm=True)
        x, y = self.place(tab, (4.3, 2, 0))
        dark = f'{sum(tab.colours(x, y)[0])} < {sum(tab.colours(5, y)[0])}'
        tab.press('x')
        tab.until('View.state.isXray')
        tab.settle()
        self.assertLess(int(dark.split(' < ')[0]), int(dark.split(' < ')[1]) - 20, (x, y))
        self.assertGreater(sum(tab.colours(x, y)[0]), int(dark.split(' < ')[1]) - 20)

    def test_soft_occlusion_comes_where_the_picture_stands_still(self):
        foot, post = box((0, 0, 0), (10, 10, 2)), box((4, 4, 2), (6, 6, 8), 9)
        tab = self.opened(page_of(model_in(listing([*foot[0], *post[0]], foot[1], post[1]))), MIDDLE, 'numbers=none', calm=True)
        light = lambda place: sum(tab.colours(*self.place(tab, place))[0])
        self.assertTrue(tab.until('View.soft.level === 1', 300))
        tab.settle()
        self.assertLess(light((5, 3.6, 2)), light((5, .6, 2)) - 25)
        tab.value('window.least = 1; setInterval(() => { window.least = Math.min(window.least, View.soft.level); }, 5)')
        still, _ = light((5, .6, 2)), tab.press('ArrowLeft')
        self.assertTrue(tab.until('window.least === 0', 300))
        self.assertLess(abs(light((5, .6, 2)) - still), 25)

    def test_lengths_are_millimetres(self):
        tab = self.opened(page_of(model_in(listing(*box((0, 0, 0), (4, 5, 6)))), unit=Fraction(1, 4)), MIDDLE)
        plane = lambda face: tab.value(f'Measure.plane(View.model.faces[{face}][2])')
        self.assertEqual([plane(face) for face in range(1, 7)], ['z = 0 mm, looks to -z', 'z = 1.5 mm, looks to +z', 'y = 0 mm, looks to -y',
                                                                'x = 1 mm, looks to +x', 'y = 1.25 mm, looks to +y', 'x = 0 mm, looks to -x'])
        self.assertEqual(tab.value('Measure.plane(["6", "-8", "0", "20"])'), '3x - 4y = -2.5 mm, looks to 3 -4 0')
        self.assertEqual(dict(tab.value('Measure.solid(View.model, 1)'))['volume'], '15/8 ≈ 1.875 mm³')
        self.assertEqual(dict(tab.value('Measure.own(View.model, {kind: "f", number: 2})'))['area'], '5/4 ≈ 1.25 mm²')
        tab.value('View.choose({kind: "v", number: 7})')
        self.assertEqual(self.text(tab, '#facts'), '7vertex of solid 1 at 1 1.25 1.5 mmcopyin scripts 4 5 6')
        tab.press('c')
        self.assertEqual(self.text(tab, '#cut-told'), 'x = 0.5 mm')

    def test_a_film(self):
        tab = self.opened(page_of(model_in(self.TWO)), SMALL, 'flat', calm=True)
        tab.value("""Object.assign(window, {saved: '', MediaRecorder: class { mimeType = 'video/webm';
            start() { this.ondataavailable({data: new Blob(['x'])}); } stop() { window.saved = 'stopped'; this.onstop(); } }}), 1""")
        tab.press('v')
        self.assertEqual(tab.until('window.saved', 300), 'stopped')
        self.require_said(tab, 'saved gwb.webm')


class Windows(PageCase):
    """Windows of other sizes."""

    def test_the_tools_cover_no_panel(self):
        for size in (DESK, MIDDLE, (1000, 500), SMALL, (640, 360), PHONE):
            tab = self.opened(page_of(stored('split_block')), size)
            tab.press('l') if not self.shown(tab, '#list') else None
            tab.value('View.choose({kind: "f", number: 3})')
            header, *panels = tab.value('["header", "#list", "#info"].map(one => (b => [b.top, b.bottom])(document.querySelector(one).getBoundingClientRect()))')
            self.assertTrue(all(top >= header[1] and bottom <= size[1] and bottom - top > 40 for top, bottom in panels), (size, header, panels))


class Phones(PageCase):
    """A window of 360 by 640 that is touched."""

    def test_nothing_covers_the_model_and_nothing_runs_off(self):
        program()
        script = (REPOSITORY / 'examples' / 'split_block.gwb').read_bytes()
        for page in (page_of(stored('split_block')), page_of_steps(played(script).steps)):
            tab = self.opened(page, PHONE, touch=True)
            for panel in ('#list', '#steps', '#info', '#help', '#tools'):
                self.assertFalse(self.shown(tab, panel), panel)
            wide = tab.value('[...document.querySelectorAll("button, input, h1")].map(it => it.getBoundingClientRect()).filter(b => b.width).map(b => [b.left, b.right, b.height])')
            self.assertTrue(all(left >= 0 and right <= 360 for left, right, _ in wide), wide)
            spots = self.places(tab, stored('split_block').vertices.values())
            top, bottom = tab.value('[document.querySelector("header").getBoundingClientRect().bottom, document.querySelector("footer").getBoundingClientRect().top]')
            self.assertTrue(all(0 < x < 360 and top < y < bottom for x, y in spots), spots)

    def test_every_tool_is_touched(self):
        tab = self.opened(page_of(stored('split_block')), PHONE, touch=True)
        tab.tap(*tab.middle('#tools-button'))
        tab.until('document.getElementById("tools").offsetWidth')
        sizes = tab.value('[...document.querySelectorAll("#tools button")].map(it => it.getBoundingClientRect()).map(b => [b.height, b.left, b.right])')
        self.assertEqual(len(sizes), 14)
        self.assertTrue(all(high >= 40 and left >= 0 and right <= 360 for high, left, right in sizes), sizes)
        zoom = tab.value('View.view.zoom')
        tab.tap(*tab.middle('[data-key=h]'))
        self.assertTrue(tab.until('View.state.isHidden'))
        self.assertTrue(tab.until('!document.getElementById("tools").offsetWidth'))
        tab.tap(*tab.middle('#tools-button'))
        tab.until('document.getElementById("tools").offsetWidth')
        tab.tap(*tab.middle('[data-key=c]'))
        self.assertTrue(tab.until('document.getElementById("cut").offsetWidth > 0 && !document.getElementById("tools").offsetWidth'))
        self.assertGreater(tab.until('View.view.zoom'), .6 * zoom)
        for _ in range(2):
            tab.tap(*tab.middle('#tools-button'))
        self.assertTrue(tab.until('!document.getElementById("tools").offsetWidth'))

    def test_a_section_covers_no_facts_and_is_closed(self):
        tab = self.opened(page_of(stored('split_block')), PHONE, touch=True)
        tab.value('View.choose({kind: "f", number: 14})')
        tab.press('c')
        tab.settle()
        info, cut = tab.value('["info", "cut"].map(id => (b => [b.top, b.bottom])(document.getElementById(id).getBoundingClientRect()))')
        self.assertTrue(0 < info[0] < info[1] <= cut[0] < cut[1] < 640, (info, cut))
        tab.tap(*tab.middle('#cut-close'))
        self.assertTrue(tab.until('!document.getElementById("cut").offsetWidth && View.state.cut === null'))
        self.assertEqual(tab.value('document.querySelector("[data-key=c]").getAttribute("aria-expanded")'), 'false')
        tab.press('?')
        left, top, right, bottom = tab.value('(b => [b.left, b.top, b.right, b.bottom])(document.getElementById("help").getBoundingClientRect())')
        self.assertTrue(0 <= left and right <= 360 and right - left > 290 and top >= 0 and bottom <= 640, (left, top, right, bottom))
        tab.tap(*tab.middle('#help-close'))
        self.assertTrue(tab.until('!document.getElementById("help").offsetWidth'))

    def test_a_tap_picks_and_the_panel_folds(self):
        tab = self.opened(page_of(stored('block_with_hole')), PHONE, touch=True)
        tab.tap(*self.place(tab, (6, 3, 2)))
        self.require_said(tab, 'face 4 picked, copied 4')
        tab.settle()
        self.assertTrue(100 < tab.value('document.getElementById("info").offsetHeight') < 240)
        tab.tap(*tab.middle('#info-fold'))
        self.assertTrue(tab.until('document.getElementById("info").offsetHeight < 80'))
        tab.tap(*tab.middle('#info-close'))
        self.assertTrue(tab.until('!document.getElementById("info").offsetWidth'))

    def test_the_list_folds(self):
        tab = self.opened(page_of(row_of_blocks(30)), PHONE, touch=True)
        tab.tap(*tab.middle('#list-button'))
        self.assertTrue(tab.until('document.getElementById("list").offsetWidth > 0'))
        tab.settle()
        left, top, right, bottom = tab.value('(b => [b.left, b.top, b.right, b.bottom])(document.getElementById("list").getBoundingClientRect())')
        self.assertTrue(left >= 0 and top > 40 and right <= 360 and bottom < 560, (left, top, right, bottom))
        self.assertGreaterEqual(tab.value('document.querySelector("#solids li").offsetHeight'), 44)
        tab.tap(*tab.middle('#solids li:nth-child(2) input'))
        self.assertEqual(tab.until('[...View.state.off].join()'), '2')
        tab.tap(*tab.middle('#list-button'))
        self.assertTrue(tab.until('!document.getElementById("list").offsetWidth'))

    def test_two_fingers_zoom(self):
        tab = self.opened(page_of(stored('block_with_hole')), PHONE, touch=True)
        zoom = tab.value('View.view.zoom')
        for kind, spread in (('touchStart', 20), ('touchMove', 40), ('touchMove', 60)):
            tab.ask('Input.dispatchTouchEvent', type=kind, touchPoints=[{'x': 180 - spread, 'y': 300, 'id': 0}, {'x': 180 + spread, 'y': 300, 'id': 1}])
        tab.ask('Input.dispatchTouchEvent', type='touchEnd', touchPoints=[])
        self.assertGreater(tab.value('View.view.zoom'), 1.8 * zoom)


class Keyboard(PageCase):
    """The page without a pointer."""

    def test_every_control_is_reached_and_has_a_name(self):
        program()
        script = (REPOSITORY / 'examples' / 'split_block.gwb').read_bytes()
        tab = self.opened(page_of_steps(played(script).steps))
        tab.value('View.choose({kind: "f", number: 3})')
        tab.press('c')
        tab.value('document.activeElement.blur()')
        shown = set(tab.value('[...document.querySelectorAll("button, input, select")].filter(it => it.offsetWidth && !it.closest("#solids")).map(it => it.id || it.outerHTML)'))
        reached = set()
        for _ in range(80):
            tab.press('Tab')
            reached.add(tab.value('document.activeElement.id || document.activeElement.outerHTML'))
        self.assertEqual(shown - reached, set())
        self.assertLessEqual({'labels', 'steps', 'facts'}, reached)
        nodes = tab.ask('Accessibility.getFullAXTree')['nodes']
        for node in nodes:
            if node['role']['value'] in ('button', 'checkbox', 'slider', 'combobox', 'textbox', 'searchbox', 'listbox', 'application'):
                self.assertTrue(node['name']['value'], node)
        self.assertEqual([node['role']['value'] for node in nodes if node['role']['value'] in ('status', 'application', 'listbox')].count('status'), 1)

    def test_space_and_enter_press_and_the_focus_stays(self):
        tab = self.opened(page_of(stored('split_block')))
        for selector, flag in (('[data-key=h]', 'isHidden'), ('[data-key=x]', 'isXray')):
            tab.value(f'document.querySelector("{selector}").focus()')
            for key, is_on in ((' ', True), ('Enter', False)):
                tab.press(key)
                self.assertEqual(tab.value(f'[View.state.{flag}, document.activeElement === document.querySelector("{selector}")]'), [is_on, True])
        tab.value('document.querySelector("#solids input").focus()')
        for count in (1, 0):
            tab.press(' ')
            self.assertEqual(tab.value('[View.state.off.size, document.activeElement.type]'), [count, 'checkbox'])
        tab.press('ArrowDown')
        self.assertEqual(tab.value('document.activeElement.getAttribute("aria-label")'), 'show solid 2')
        tab.press('ArrowRight', 'ArrowRight', 'Enter')
        self.assertEqual(tab.value('[[...View.state.off].join(), document.activeElement.textContent]'), ['1', 'only'])

    def test_arrows_turn_the_model(self):
        tab = self.opened(page_of(stored('block_with_hole')))
        tab.value('document.getElementById("labels").focus()')
        before = tab.value('({...View.view})')
        tab.press('ArrowLeft', 'ArrowUp')
        turned = tab.value('({...View.view})')
        self.assertNotEqual((turned['turn'], turned['lift']), (before['turn'], before['lift']))
        tab.press('Shift+ArrowLeft', 'Shift+ArrowUp')
        moved = tab.value('({...View.view})')
        self.assertEqual((moved['turn'], moved['lift']), (turned['turn'], turned['lift']))
        self.assertTrue(moved['right'] < turned['right'] and moved['down'] < turned['down'])
        tab.press('+', '+')
        self.assertGreater(tab.value('View.view.zoom'), moved['zoom'])

    def test_letters_in_a_field_are_letters(self):
        tab = self.opened(page_of(stored('split_block')))
        tab.value('document.getElementById("search").focus()')
        tab.press('h', 'x', ' ', '1')
        self.assertEqual(tab.value('[document.getElementById("search").value, View.state.isHidden, View.state.isXray]'), ['hx 1', False, False])


class Frames(PageCase):
    """The page within another one, as a notebook shows it."""

    def test_it_works_in_a_frame(self):
        page = f'<!DOCTYPE html><iframe srcdoc="{html.escape(page_of(stored("block_with_hole")))}" width="580" height="440"></iframe>'
        tab = self.opened(page, SMALL)
        inner = 'document.querySelector("iframe").contentDocument'
        tab.until(f'{inner}.querySelector("[data-key=h]")')
        left, top = tab.value('(b => [b.left, b.top])(document.querySelector("iframe").getBoundingClientRect())')
        tab.click(left + 290, top + 300)
        self.assertTrue(tab.until(f'!{inner}.getElementById("info").hidden'))
        tab.press('h')
        self.assertEqual(tab.value(f'{inner}.querySelector("[data-key=h]").ariaPressed'), 'true')


class Anything(PageCase):
    """Whatever is done, the browser has nothing to complain of."""

    KEYS = ('f', '0', '1', '2', '3', 'h', 'n', 'e', 'x', 'p', 'c', 'm', 'l', '+', '-', ',', '.', '/', '?', 'Escape', 'Enter', 'Tab', ' ', 'ArrowLeft', 'ArrowUp', 'Home')

    def act(self, tab, chance, size):
        """Does one thing."""
        anywhere = [(chance.randrange(size[0]), chance.randrange(size[1])) for _ in range(3)]
        kind = chance.randrange(5)
        if kind < 2:
            tab.press(chance.choice(self.KEYS))
        elif kind == 2:
            tab.click(*anywhere[0])
        elif kind == 3:
            tab.drag(anywhere)
        else:
            tab.wheel(*anywhere[0], chance.choice((-900, 900)))

    def test_in_any_order(self):
        program()
        page, chance = page_of_steps(played((REPOSITORY / 'examples' / 'split_block.gwb').read_bytes()).steps), random.Random(2)
        for size, words in ((MIDDLE, ''), (PHONE, 'flat&section=x3')):
            tab = self.opened(page, size, words)
            for _ in range(80):
                self.act(tab, chance, size)
            tab.settle()
            self.assertTrue(tab.value('0 < View.view.zoom && View.view.zoom < Infinity && View.state.step >= 0 && View.scene !== null'))


class Wishes(PageCase):
    """What the system wishes: darkness, and no motion."""

    def test_dark(self):
        for words in ('numbers=all', 'numbers=all&flat'):
            tab = self.opened(page_of(wire()), SMALL, words, dark=True)
            self.assertLess(max(sum(colour) for colour in tab.colours(20, 400, 4, 4)), 200)
            self.assertGreater(max(sum(colour) for colour in tab.colours(*self.place(tab, (40, 20, 0)), 5, 5)), 450)
            tab.ask('Emulation.setEmulatedMedia', features=[{'name': 'prefers-color-scheme', 'value': 'light'}])
            tab.settle()
            tab.settle()
            self.assertLess(min(sum(colour) for colour in tab.colours(*self.place(tab, (40, 20, 0)), 5, 5)), 300)

    def test_forced_colours(self):
        """What is pressed is told from the rest, and the colours of solids stay."""
        tab = self.opened(page_of(stored('split_block')))
        tab.ask('Emulation.setEmulatedMedia', features=[{'name': 'forced-colors', 'value': 'active'}])
        tab.press('h')
        tab.settle()
        colour = "getComputedStyle(document.querySelector('[data-key={}]')).backgroundColor"
        self.assertNotEqual(tab.value(colour.format('h')), tab.value(colour.format('x')))
        self.assertNotEqual(*tab.value("[...document.querySelectorAll('.swatch')].map(it => getComputedStyle(it).backgroundColor)"))

    def test_print(self):
        """The model and its title alone."""
        tab = self.opened(page_of(stored('split_block'), 'my part'))
        tab.value('View.choose({kind: "f", number: 3})')
        tab.press('c')
        tab.ask('Emulation.setEmulatedMedia', media='print')
        self.assertEqual(tab.value("[...document.querySelectorAll('button, input, select, section')].filter(it => it.offsetWidth).length"), 0)
        self.assertTrue(self.shown(tab, 'h1') and self.shown(tab, '#solid'))

    def test_motion(self):
        for calm in (True, False):
            tab = self.opened(page_of(stored('block_with_hole')), SMALL, calm=calm)
            lifts = tab.value("""new Promise(done => { const seen = [], note = () => { seen.push(View.view.lift); if (seen.length < 60 && View.view.lift < Math.PI / 2 - 1e-9) requestAnimationFrame(note); else done(seen); };
                document.querySelector('[aria-label="view from +z"]').click(); note(); })""")
            self.assertAlmostEqual(lifts[-1], math.pi / 2)
            self.assertEqual(len(set(lifts)) == 1, calm)


class Policy(PageCase):
    """What the page may do."""

    def test_it_asks_for_nothing_and_breaks_nothing(self):
        tab = self.opened(page_of(stored('block_with_hole')))
        tab.press('n', 'h', 'x', 'p', 'c', 'm', 'i', '?')
        tab.settle()
        asked = [event['request']['url'] for event in tab.events('Network.requestWillBeSent')]
        self.assertEqual({url.split(':')[0] for url in asked if url != 'about:blank'} - {'blob'}, {'file'})
        self.assertEqual(sum(url.startswith('file:') for url in asked), 1)
        self.assertEqual(tab.events('Log.entryAdded'), [])

    def test_what_is_not_its_own_is_refused(self):
        tab = self.opened(page_of(stored('block_with_hole'), '</title><script>window.broken = 1</script>'))
        refused = tab.value("""new Promise(done => { const seen = []; document.addEventListener('securitypolicyviolation', event => seen.push(event.effectiveDirective));
            const added = document.createElement('script'); added.textContent = 'window.broken = 2'; document.body.append(added);
            document.body.insertAdjacentHTML('beforeend', '<img src="data:," onerror="window.broken = 3"><p style="color:red">');
            fetch('http://127.0.0.1:9999/').catch(() => 0); setTimeout(() => done(seen.sort()), 500); })""")
        self.assertEqual(refused, ['connect-src', 'script-src-attr', 'script-src-elem', 'style-src-attr'])
        self.assertIsNone(tab.value('window.broken'))


class Speed(PageCase):
    """What a frame of a large model takes: how long that is, page_speed.py shows."""

    def test_turning_uploads_nothing_and_reckons_no_spot(self):
        counting = """window.uploads = 0; for (const name of ['bufferData', 'bufferSubData', 'texImage2D']) {
            const old = WebGLRenderingContext.prototype[name];
            WebGLRenderingContext.prototype[name] = function (...words) { window.uploads++; return old.apply(this, words); }; }"""
        tab = self.opened(page_of(blocks(6)), SMALL, 'numbers=none', before=counting)
        self.assertGreater(tab.value('uploads'), 0)
        self.assertTrue(tab.until('View.soft.level === 1', 300))
        tab.value('var spots = 0; Object.defineProperty(View.scene, "spots", {get: (old => () => { spots++; return old; })(View.scene.spots)}); uploads = 0')
        tab.drag([(300, 200), (340, 220), (380, 240), (400, 220)])
        tab.settle()
        self.assertEqual(tab.value('[uploads, spots, View.view.turn === Math.atan2(-3, 2)]'), [0, 0, False])

    def test_the_times_are_measured(self):
        told = times_of(blocks(2), (320, 240), 3)
        self.assertEqual({name: len(times['whole']) for name, times in told.items()}, {'opening': 1, 'turning': 3, 'pointing': 3, 'picking': 3, 'cutting': 3})
