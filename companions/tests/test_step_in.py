"""STEP as it is read: units, placements, names, colours, and what isn't understood."""

import re
import unittest

from support import STORED, InFolder, box, listing, model_in, run

from gwb.errors import CompanionError
from gwb.formats.appearance import Appearance
from gwb.formats.importing import read_file
from gwb.formats.step.write import step_text
from gwb.geometry.measures import six_volume

MILLIMETRE = '(LENGTH_UNIT()NAMED_UNIT(*)SI_UNIT(.MILLI.,.METRE.))'
INCH = """(CONVERSION_BASED_UNIT('INCH',#901)LENGTH_UNIT()NAMED_UNIT(#903));
#901=LENGTH_MEASURE_WITH_UNIT(LENGTH_MEASURE(25.4),#902);
#902=(LENGTH_UNIT()NAMED_UNIT(*)SI_UNIT(.MILLI.,.METRE.));
#903=DIMENSIONAL_EXPONENTS(1.,0.,0.,0.,0.,0.,0.)"""
SHAPE = 'ADVANCED_BREP_SHAPE_REPRESENTATION'


def block(high=(4, 5, 6)):
    """The text of a block as another program might write it, without names."""
    text = step_text(model_in(listing(*box((0, 0, 0), high))))
    return text.replace("'gwb-step'", "'other'").replace("'solid 1'", "''").replace("PRODUCT('gwb','gwb'", "PRODUCT('','Lid'")


def entity(text, kind):
    """The reference of the first entity of a kind."""
    line = next(line for line in text.splitlines() if f'={kind}(' in line)
    return line.split('=')[0]


def with_lines(text, *lines):
    """The text with more entities."""
    return text.replace('ENDSEC;\nEND-ISO', ''.join(f'{line};\n' for line in lines) + 'ENDSEC;\nEND-ISO')


def axes(first, origin, axis=(0, 0, 1), beside=(1, 0, 0)):
    """The lines of an axis system, of four numbers from the first on."""
    numbers = [','.join(map(str, vector)) for vector in (origin, axis, beside)]
    return [f"#{first}=AXIS2_PLACEMENT_3D('',#{first + 1},#{first + 2},#{first + 3})", f"#{first + 1}=CARTESIAN_POINT('',({numbers[0]}))",
            f"#{first + 2}=DIRECTION('',({numbers[1]}))", f"#{first + 3}=DIRECTION('',({numbers[2]}))"]


def assembled(*places, text=None):
    """A block as often as places are given, in an assembly; a place is the words of axes."""
    text = text or block()
    shape, context = entity(text, SHAPE), text.split(f'{SHAPE}(')[1].split(';')[0].split(',')[-1].rstrip(')')
    held = ','.join(f'#{2000 + 10 * number}' for number in range(len(places)))
    lines = [*axes(1000, (0, 0, 0)), f"#1100=SHAPE_REPRESENTATION('',(#1000,{held}),{context})"]
    for number, place in enumerate(places):
        lines += axes(2000 + 10 * number, *place)
        lines += [f"#{3000 + 10 * number}=(REPRESENTATION_RELATIONSHIP('','',{shape},#1100)"
                  f'REPRESENTATION_RELATIONSHIP_WITH_TRANSFORMATION(#{3001 + 10 * number})SHAPE_REPRESENTATION_RELATIONSHIP())',
                  f"#{3001 + 10 * number}=ITEM_DEFINED_TRANSFORMATION('','',#1000,#{2000 + 10 * number})"]
    return with_lines(text, *lines)


class Reads(InFolder):
    """What the tests share."""

    def read(self, text, **words):
        return read_file(self.file('part.step', text), **words)

    def boxes(self, text, **words):
        """The box of each solid."""
        model = self.read(text, **words).model
        found = []
        for solid in model.solids:
            self.assertGreater(six_volume(model, model.faces_of(solid)), 0)
            points = {point for face in model.faces_of(solid) for point in model.face_points(face)}
            found.append((tuple(map(min, zip(*points))), tuple(map(max, zip(*points)))))
        return found

    def refuse(self, part, text, **words):
        with self.assertRaises(CompanionError) as caught:
            self.read(text, **words)
        self.assertIn(part, str(caught.exception))


class Placements(Reads):
    """Assemblies."""

    def test_several_instances_moved_and_turned(self):
        text = assembled([(0, 0, 0)], [(10, 20, 30)], [(0, 0, 0), (1, 0, 0), (0, 1, 0)])
        self.assertEqual(self.boxes(text), [((0, 0, 0), (4, 5, 6)), ((10, 20, 30), (14, 25, 36)), ((0, 0, 0), (6, 4, 5))])

    def test_a_quarter_that_is_exact_but_for_noise(self):
        text = assembled([(0, 0, 0), ('6.1E-17', 0, 1), (0, 1, '-2.E-16')])
        found = self.read(text)
        self.assertEqual(self.boxes(text), [((-5, 0, 0), (0, 4, 6))])
        self.assertGreater(found.square_moved, 0)
        self.assertLess(found.square_moved, 1e-20)

    def test_a_placement_that_leaves_whole_places(self):
        text = assembled([(0, 0, 0), (0, 0, 1), ('0.8660254037844387', '0.5', 0)])
        self.refuse('is not whole', text)
        exact = assembled([(0, 0, 0), (0, 0, 1), (3, 4, 0)], text=block((5, 5, 5)))
        self.assertEqual(self.boxes(exact), [((-4, 0, 0), (3, 7, 5))])

    def test_assemblies_of_assemblies(self):
        text = assembled([(10, 0, 0)], [(20, 0, 0)])
        context = text.split("#1100=SHAPE_REPRESENTATION('',(#1000,#2000,#2010),")[1].split(')')[0]
        outer = with_lines(text, *axes(4000, (0, 100, 0)), *axes(4010, (0, 200, 0)), f"#4100=SHAPE_REPRESENTATION('',(#1000,#4000,#4010),{context})",
                           *(f"#{5000 + i}=(REPRESENTATION_RELATIONSHIP('','',#1100,#4100)REPRESENTATION_RELATIONSHIP_WITH_TRANSFORMATION("
                             f"#{5002 + i})SHAPE_REPRESENTATION_RELATIONSHIP())" for i in (0, 1)),
                           *(f"#{5002 + i}=ITEM_DEFINED_TRANSFORMATION('','',#1000,#{4000 + 10 * i})" for i in (0, 1)))
        self.assertEqual([low for low, _ in self.boxes(outer)], [(10, 100, 0), (20, 100, 0), (10, 200, 0), (20, 200, 0)])

    def test_the_assembly_may_be_named_first(self):
        text = assembled([(10, 20, 30)])
        shape = entity(text, SHAPE)
        turned = text.replace(f"REPRESENTATION_RELATIONSHIP('','',{shape},#1100)", f"REPRESENTATION_RELATIONSHIP('','',#1100,{shape})")
        turned = turned.replace("ITEM_DEFINED_TRANSFORMATION('','',#1000,#2000)", "ITEM_DEFINED_TRANSFORMATION('','',#2000,#1000)")
        definition = entity(text, 'PRODUCT_DEFINITION')
        said = with_lines(turned, f"#4000=PRODUCT_DEFINITION('','',{entity(text, 'PRODUCT_DEFINITION_FORMATION')},$)",
                          "#4001=PRODUCT_DEFINITION_SHAPE('','',#4000)", '#4002=SHAPE_DEFINITION_REPRESENTATION(#4001,#1100)',
                          f"#4003=NEXT_ASSEMBLY_USAGE_OCCURRENCE('1','','',#4000,{definition},$)",
                          "#4004=PRODUCT_DEFINITION_SHAPE('','',#4003)", '#4005=CONTEXT_DEPENDENT_SHAPE_REPRESENTATION(#3000,#4004)')
        self.assertEqual(self.boxes(said), [((10, 20, 30), (14, 25, 36))])

    def test_mapped_items(self):
        text = block()
        shape, context = entity(text, SHAPE), text.split(f'{SHAPE}(')[1].split(';')[0].split(',')[-1].rstrip(')')
        mapped = with_lines(text, *axes(1000, (0, 0, 0)), *axes(1010, (7, 0, 0)), f'#1100=REPRESENTATION_MAP(#1000,{shape})',
                            "#1101=MAPPED_ITEM('',#1100,#1000)", "#1102=MAPPED_ITEM('',#1100,#1010)",
                            f"#1103=SHAPE_REPRESENTATION('',(#1101,#1102),{context})")
        self.assertEqual([low for low, _ in self.boxes(mapped)], [(0, 0, 0), (7, 0, 0)])

    def test_representations_of_one_shape(self):
        text = block()
        shape, context = entity(text, SHAPE), text.split(f'{SHAPE}(')[1].split(';')[0].split(',')[-1].rstrip(')')
        apart = with_lines(text, f"#1000=SHAPE_REPRESENTATION('',(),{context})", f"#1001=SHAPE_REPRESENTATION_RELATIONSHIP('','',#1000,{shape})")
        self.assertEqual(len(self.boxes(apart)), 1)

    def test_placements_that_go_round(self):
        text = assembled([(10, 20, 30)])
        shape = entity(text, SHAPE)
        self.refuse('go round in a circle', text.replace(f"'',{shape},#1100)", f"'',{shape},{shape})"))

    def test_placements_that_double_at_each_level(self):
        lines, context = [], '$'
        text = block()
        context = text.split(f'{SHAPE}(')[1].split(';')[0].split(',')[-1].rstrip(')')
        child = entity(text, SHAPE)
        for level in range(30):
            first = 1000 + 100 * level
            lines += [*axes(first, (level, 0, 0)), f"#{first + 10}=REPRESENTATION_MAP(#{first},{child})",
                      f"#{first + 11}=MAPPED_ITEM('',#{first + 10},#{first})", f"#{first + 12}=MAPPED_ITEM('',#{first + 10},#{first})",
                      f"#{first + 13}=SHAPE_REPRESENTATION('',(#{first + 11},#{first + 12}),{context})"]
            child = f'#{first + 13}'
        self.refuse('there are more than 200,000 solids and placements', with_lines(text, *lines))


class Units(Reads):
    """Lengths."""

    def test_inches(self):
        text = block((10, 20, 30)).replace(MILLIMETRE, INCH)
        found = self.read(text)
        self.assertEqual(found.said, ['lengths in INCH were multiplied by 25.4, to millimetres'])
        self.assertEqual(max(found.model.vertices.values()), (254, 508, 762))
        self.refuse('the point 101.6 127 0 is not whole', block((4, 5, 6)).replace(MILLIMETRE, INCH))

    def test_a_number_without_its_kind(self):
        bare = block((10, 20, 30)).replace(MILLIMETRE, INCH.replace('LENGTH_MEASURE(25.4)', '25.4'))
        self.assertEqual(max(self.read(bare).model.vertices.values()), (254, 508, 762))
        self.refuse('no number: $', bare.replace('(25.4,#902)', '($,#902)'))
        self.refuse('the measure #901 has no number or no unit', bare.replace('(25.4,#902)', '(25.4)'))

    def test_metres(self):
        found = self.read(block().replace(MILLIMETRE, MILLIMETRE.replace('.MILLI.', '$')))
        self.assertEqual(found.said, ['lengths in METRE were multiplied by 1000, to millimetres'])
        self.assertEqual(max(found.model.vertices.values()), (4000, 5000, 6000))

    def test_unknown_units(self):
        self.refuse('is not understood', block().replace(MILLIMETRE, MILLIMETRE.replace('.METRE.', '.GRAM.')))
        text = block().replace(MILLIMETRE, INCH).replace('LENGTH_MEASURE(25.4),#902', f"LENGTH_MEASURE(25.4),{self.unit()}")
        self.refuse('is said by itself', text)

    @staticmethod
    def unit():
        """The reference of the unit of length."""
        return next(line for line in block().splitlines() if MILLIMETRE in line).split('=')[0]


class Looks(Reads):
    """Names and colours."""

    def styled(self, item, text):
        return with_lines(text, f"#800=STYLED_ITEM('',(#801),{item})", '#801=PRESENTATION_STYLE_ASSIGNMENT((#810,#802))',
                          '#802=SURFACE_STYLE_USAGE(.BOTH.,#803)', "#803=SURFACE_SIDE_STYLE('',(#804))", '#804=SURFACE_STYLE_FILL_AREA(#805)',
                          "#805=FILL_AREA_STYLE('',(#806))", "#806=FILL_AREA_STYLE_COLOUR('',#807)", "#807=COLOUR_RGB('',1.,0.5,0.)",
                          "#810=CURVE_STYLE('',#811,#811,#812)", "#812=COLOUR_RGB('',0.,0.,1.)", "#811=DRAUGHTING_PRE_DEFINED_CURVE_FONT('x')")

    def test_products_and_solids(self):
        text = block()
        self.assertEqual(self.read(text).looks, {('solid', 1): Appearance('Lid')})
        self.assertEqual(self.read(text.replace("BREP(''", "BREP('D\\X2\\00FC\\X0\\se ''4'''")).looks, {('solid', 1): Appearance("D\u00fcse '4'")})

    def test_colours(self):
        text = block()
        self.assertEqual(self.read(self.styled(entity(text, 'MANIFOLD_SOLID_BREP'), text)).looks, {('solid', 1): Appearance('Lid', (255, 128, 0))})
        found = self.read(self.styled(entity(text, 'ADVANCED_FACE'), text)).looks
        self.assertEqual(found, {('solid', 1): Appearance('Lid'), ('face', 1): Appearance('', (255, 128, 0))})

    def test_they_are_comments_of_the_script(self):
        path = self.folder / 'part.step'
        path.write_text(self.styled(entity(block(), 'MANIFOLD_SOLID_BREP'), block()))
        outcome = run('import', str(path))
        self.assertEqual((outcome.status, outcome.out.splitlines()[0]), (0, '# solid 1 name "Lid" colour #FF8000'))


class Refused(Reads):
    """What is curved or isn't understood: nothing of it is left out."""

    def test_all_that_is_curved(self):
        text = block().replace('=PLANE(', '=CONICAL_SURFACE(')
        faces = [line.split('=')[0] for line in text.splitlines() if '=ADVANCED_FACE(' in line]
        self.refuse('6 faces are curved: ' + ', '.join(f'{face} CONICAL_SURFACE' for face in faces), text)
        self.refuse('12 edges are curved: ', block().replace('=LINE(', '=CIRCLE('))

    def test_lines_on_surfaces(self):
        for kind in ('SURFACE_CURVE', 'SEAM_CURVE', 'INTERSECTION_CURVE'):
            text = block()
            line = entity(text, 'LINE')
            text = with_lines(text.replace(f',{line},.T.)', ',#900,.T.)'), f"#900={kind}('',{line},(),.PCURVE_S1.)")
            self.assertEqual(len(self.boxes(text)), 1, kind)
            self.refuse('1 edge is curved: ', text.replace(f"{kind}('',{line}", f"{kind}('',#900"))

    def test_a_sphere_is_curved(self):
        """Its face is bounded by a vertex alone."""
        text = block()
        face = entity(text, 'ADVANCED_FACE')
        bound = next(line for line in text.splitlines() if line.startswith(face + '=')).split('(')[2].split(')')[0]
        loop = next(line for line in text.splitlines() if line.startswith(bound + '=')).split(',')[1]
        held = next(line for line in text.splitlines() if line.startswith(loop + '='))
        sphere = text.replace(held, f"{loop}=VERTEX_LOOP('',{entity(text, 'VERTEX_POINT')});", 1)
        plane = entity(text, 'PLANE')
        self.refuse(f'1 face is curved: {face} SPHERICAL_SURFACE', sphere.replace(f'{plane}=PLANE(', f'{plane}=SPHERICAL_SURFACE(', 1))

    def test_flat_solids_alone(self):
        """A block whose first face is curved, and beside it one that isn't, and a curve."""
        text = assembled([(0, 0, 0)])
        shape = text.split(f'{SHAPE}(')[1].split(';')[0]
        second = block((7, 8, 9)).split('DATA;')[1].split('ENDSEC;')[0]
        second = re.sub(r'#(\d+)', lambda found: f'#{int(found[1]) + 5000}', second)
        solid = next(line for line in second.splitlines() if '=MANIFOLD_SOLID_BREP(' in line).split('=')[0]
        plane = entity(text, 'PLANE')
        first = entity(text, 'MANIFOLD_SOLID_BREP')
        text = with_lines(text.replace(f'{plane}=PLANE(', f'{plane}=CONICAL_SURFACE('),
                          *(line.rstrip(';') for line in second.splitlines() if line and 'REPRESENTATION' not in line and 'PRODUCT' not in line),
                          "#900=GEOMETRIC_CURVE_SET('',())").replace(shape, shape.replace(f'{first}', f'{first},{solid},#900'))
        face = entity(text, 'ADVANCED_FACE')
        self.refuse(f'1 face is curved: {face} CONICAL_SURFACE; the shape has what is not understood: 1 GEOMETRIC_CURVE_SET (#900): --flat takes', text)
        found = self.read(text, flat=True)
        self.assertEqual([six_volume(found.model, found.model.faces_of(solid)) for solid in found.model.solids], [6 * 7 * 8 * 9])
        self.assertEqual(found.wrong, ['1 GEOMETRIC_CURVE_SET (#900) is left out: it is no solid',
                                       f'solid {first} (Lid) is left out: 1 face is curved: {face} CONICAL_SURFACE'])
        path = self.folder / 'part.step'
        path.write_text(text)
        outcome = run('import', '--flat', str(path))
        self.assertEqual((outcome.status, outcome.err.splitlines()), (1, [f'gwb-import: warning: {wrong}' for wrong in found.wrong]))
        self.refuse('there is no flat solid in the STEP file: solid ', block().replace('=PLANE(', '=CONICAL_SURFACE('), flat=True)

    def test_shapes_that_bound_no_solid(self):
        text = block()
        inside = text.replace(f"{SHAPE}('',(", f"{SHAPE}('',(#900,")
        self.refuse('the shape has what is not understood: 1 FACE_BASED_SURFACE_MODEL (#900)', with_lines(inside, "#900=FACE_BASED_SURFACE_MODEL('',())"))
        self.refuse('the SHELL_BASED_SURFACE_MODEL #900 has no shell', with_lines(inside, "#900=SHELL_BASED_SURFACE_MODEL('',())"))
        self.refuse('there is no solid in the STEP file', text.replace('MANIFOLD_SOLID_BREP(', 'SHELL_BASED_SURFACE_MODEL(').replace(SHAPE, 'X'))
        self.refuse('no closed shell but OPEN_SHELL', text.replace('=CLOSED_SHELL', '=OPEN_SHELL'))

    def test_placements_that_are_not_understood(self):
        text = assembled([(1, 2, 3)])
        self.refuse('not understood: OTHER', text.replace('ITEM_DEFINED_TRANSFORMATION', 'OTHER'))
        self.refuse('lie on a line', text.replace("#2003=DIRECTION('',(1,0,0))", "#2003=DIRECTION('',(0,0,2))"))

    def test_what_is_named_and_is_not_there(self):
        self.refuse('has no #9999', re.sub(r"VERTEX_POINT\('vertex 1',#\d+\)", "VERTEX_POINT('',#9999)", block()))


def as_surfaces(text):
    """The text with its solids as surface models of one shell each."""
    return re.sub(r"MANIFOLD_SOLID_BREP\('([^']*)',(#\d+)\)", r"SHELL_BASED_SURFACE_MODEL('\1',(\2))", text).replace(SHAPE, 'MANIFOLD_SURFACE_SHAPE_REPRESENTATION')


def two_shells(low, high, text=None):
    """A block of ten, and one surface model that has its shell and that of another block."""
    first = as_surfaces(text or block((10, 10, 10)))
    other = step_text(model_in(listing(*box(low, high)))).split('DATA;')[1].split('ENDSEC;')[0]
    other = re.sub(r'#(\d+)', lambda found: f'#{int(found[1]) + 5000}', other)
    held = (line.rstrip(';') for line in other.splitlines() if line and not any(word in line for word in ('REPRESENTATION', 'PRODUCT', 'SOLID_BREP')))
    shells = f'{entity(first, "CLOSED_SHELL")},{entity(other, "CLOSED_SHELL")}'
    return with_lines(re.sub(r"(SHELL_BASED_SURFACE_MODEL\('',\()#\d+", rf'\g<1>{shells}', first), *held)


class SurfaceModels(Reads):
    """Shells that bound solids, though the file holds them as surfaces."""

    def volumes(self, text, **words):
        model = self.read(text, **words).model
        return [six_volume(model, model.faces_of(solid)) for solid in model.solids]

    def test_a_closed_shell(self):
        solid, text = self.read(block()), as_surfaces(block())
        for held in (text, text.replace('=CLOSED_SHELL(', '=OPEN_SHELL(')):
            found = self.read(held)
            self.assertEqual((found.model, found.looks, found.wrong), (solid.model, {('solid', 1): Appearance('Lid')}, []))
        self.assertEqual(self.read(text.replace("MODEL(''", "MODEL('Box'")).looks, {('solid', 1): Appearance('Box')})
        self.assertEqual(self.boxes(as_surfaces(block((10, 20, 30))).replace(MILLIMETRE, INCH)), [((0, 0, 0), (254, 508, 762))])
        self.assertEqual(self.boxes(as_surfaces(assembled([(0, 0, 0)], [(10, 20, 30)]))), [((0, 0, 0), (4, 5, 6)), ((10, 20, 30), (14, 25, 36))])

    def test_colours(self):
        text = as_surfaces(block())
        for kind in ('SHELL_BASED_SURFACE_MODEL', 'CLOSED_SHELL'):
            found = self.read(Looks.styled(self, entity(text, kind), text)).looks
            self.assertEqual(found, {('solid', 1): Appearance('Lid', (255, 128, 0))}, kind)

    def test_a_shell_that_is_turned(self):
        text = as_surfaces(block())
        shell = entity(text, 'CLOSED_SHELL')
        for kind in ('ORIENTED_CLOSED_SHELL', 'ORIENTED_OPEN_SHELL'):
            turned = with_lines(text.replace(f"MODEL('',({shell})", "MODEL('',(#900)"), f"#900={kind}('',*,{shell},.F.)")
            self.assertEqual(self.volumes(turned), [6 * 4 * 5 * 6], kind)

    def test_shells_of_one_model(self):
        for low, high, wanted in (((20, 0, 0), (25, 5, 5), [6000, 750]), ((2, 2, 2), (5, 5, 5), [6000 - 162]), ((10, 0, 0), (12, 10, 10), [6000, 1200]),
                                  ((10, 10, 0), (12, 12, 10), [6000, 240])):
            with self.subTest(low=low):
                text = two_shells(low, high)
                if len(wanted) == 1:  # (a hollow looks inwards)
                    inner = text.split('SURFACE_MODEL(')[1].split(',')[2].rstrip(');\n').split(')')[0]
                    text = with_lines(text.replace(f',{inner}))', ',#900))'), f"#900=ORIENTED_CLOSED_SHELL('',*,{inner},.F.)")
                self.assertEqual(sorted(self.volumes(text)), sorted(wanted))

    def test_an_open_shell(self):
        text = as_surfaces(block())
        shell, face, model = entity(text, 'CLOSED_SHELL'), entity(text, 'ADVANCED_FACE'), entity(text, 'SHELL_BASED_SURFACE_MODEL')
        for kind in ('CLOSED_SHELL', 'OPEN_SHELL'):
            opened = text.replace(f'({face},', '(', 1).replace('=CLOSED_SHELL(', f'={kind}(')
            self.refuse(f'shell {shell} of {model} is open: 4 edges are not used by two faces, once each way: --flat takes', opened)
            self.refuse(f'there is no flat solid in the STEP file: shell {shell} of {model} (Lid) is left out: it is open: 4 edges', opened, flat=True)

    def test_an_open_shell_beside_a_closed_one(self):
        text = two_shells((20, 0, 0), (25, 5, 5))
        opened = text.replace(f'({entity(text, "ADVANCED_FACE")},', '(', 1)
        shell, model = entity(text, 'CLOSED_SHELL'), entity(text, 'SHELL_BASED_SURFACE_MODEL')
        self.refuse(f'shell {shell} of {model} is open: 4 edges are not used by two faces, once each way: --flat takes', opened)
        found = self.read(opened, flat=True)
        self.assertEqual(self.boxes(opened, flat=True), [((20, 0, 0), (25, 5, 5))])
        self.assertEqual(found.wrong, [f'shell {shell} of {model} (Lid) is left out: it is open: 4 edges are not used by two faces, once each way'])

    def test_a_face_that_runs_against_the_others(self):
        text = as_surfaces(block())
        first = next(line for line in text.splitlines() if '=FACE_OUTER_BOUND(' in line)
        self.refuse('is open: 4 edges are not used by two faces, once each way', text.replace(first, first.replace('.T.', '.F.')))

    def test_a_curved_shell(self):
        self.refuse('6 faces are curved: ', as_surfaces(block()).replace('=PLANE(', '=CONICAL_SURFACE('))

    def test_what_is_no_shell(self):
        text = as_surfaces(block())
        self.refuse('is no shell but CONNECTED_FACE_SET', text.replace('=CLOSED_SHELL(', '=CONNECTED_FACE_SET('))


class HeldAsSplines(Reads):
    """Flat faces and straight edges that are held as splines, polylines or parts of others."""

    SPLINE = ".UNSPECIFIED.,.F.,.F.,(2,2),(0.,1.),.UNSPECIFIED."

    def edge_as(self, text, curve, *points):
        """The text with another curve in the place of the line of its first edge; points are numbered from 901 on."""
        line = entity(text, 'LINE')
        return with_lines(text.replace(f',{line},.T.)', ',#900,.T.)'), f'#900={curve}',
                          *(f"#{901 + place}=CARTESIAN_POINT('',({x},{y},{z}))" for place, (x, y, z) in enumerate(points)))

    def ends(self, text):
        """The points at the ends of the first edge."""
        model = self.read(text).model
        edge = next(line for line in text.splitlines() if '=EDGE_CURVE(' in line)
        vertices = edge.split('(')[1].split(',')[1:3]
        lines = dict(line.split('=', 1) for line in text.splitlines() if line.startswith('#'))
        points = [lines[lines[vertex].split(',')[1].rstrip(');')] for vertex in vertices]
        found = [tuple(int(float(part)) for part in point.split('(')[2].split(')')[0].split(',')) for point in points]
        self.assertLessEqual(set(found), set(model.vertices.values()))
        return found

    def test_straight_edges(self):
        text = block()
        start, end = self.ends(text)
        middle = tuple((a + b) / 2 for a, b in zip(start, end))
        line = entity(text, 'LINE')
        for curve, points in ((f"B_SPLINE_CURVE_WITH_KNOTS('',1,(#901,#902),{self.SPLINE})", (start, end)),
                              (f"B_SPLINE_CURVE_WITH_KNOTS('',2,(#901,#902,#903),{self.SPLINE})", (start, middle, end)),
                              ("(BOUNDED_CURVE()B_SPLINE_CURVE(1,(#901,#902),.UNSPECIFIED.,.F.,.F.)CURVE()RATIONAL_B_SPLINE_CURVE((1.,2.)))", (start, end)),
                              ("BEZIER_CURVE('',2,(#901,#902,#903),.UNSPECIFIED.,.F.,.F.)", (start, middle, end)),
                              ("POLYLINE('',(#901,#902))", (end, start)), (f"TRIMMED_CURVE('',{line},(0.),(1.),.T.,.PARAMETER.)", ()),
                              ("SURFACE_CURVE('',#901,(),.CURVE_3D.);#901=TRIMMED_CURVE('',#902,(0.),(1.),.T.,.PARAMETER.);#902=POLYLINE('',(#903,#904));"
                               "#903=CARTESIAN_POINT('',({},{},{}));#904=CARTESIAN_POINT('',({},{},{}))".format(*start, *end), ())):
            self.assertEqual(self.boxes(self.edge_as(text, curve, *points)), [((0, 0, 0), (4, 5, 6))], curve)

    def test_curved_edges(self):
        text = block()
        start, end = self.ends(text)
        beside = (7, 7, 7)
        for curve, points in ((f"B_SPLINE_CURVE_WITH_KNOTS('',2,(#901,#902,#903),{self.SPLINE})", (start, beside, end)),
                              ("POLYLINE('',(#901,#902,#903))", (start, end, beside)), ("PARABOLA('',#901,1.)", (start, )),
                              ("TRIMMED_CURVE('',#900,(0.),(1.),.T.,.PARAMETER.)", ())):
            self.refuse(f'1 edge is curved: {entity(text, "EDGE_CURVE")} {curve.split("(")[0]}', self.edge_as(text, curve, *points))

    def test_edges_of_several_straight_pieces(self):
        """The edge goes round by two corners: both of its faces have them, and are bent by them."""
        text = block()
        start, end = self.ends(text)
        around = ((9, 8, 7), (9, 9, 9))
        for points in ((start, *around, end), (end, *around[::-1], start)):
            for curve in ("POLYLINE('',(#901,#902,#903,#904))", f"B_SPLINE_CURVE_WITH_KNOTS('',1,(#901,#902,#903,#904),{self.SPLINE})"):
                found = self.read(self.edge_as(text, curve, *points))
                self.assertEqual((len(found.model.edges), len(found.model.vertices)), (14, 10))
                self.assertLessEqual(set(around), set(found.model.vertices.values()))
                self.assertEqual(len(found.wrong), 1)

    def surface_as(self, surface, *points):
        """A block whose first face has another surface; points are numbered from 901 on."""
        text = block()
        plane = entity(text, 'PLANE')
        return with_lines(text.replace(f',{plane},.T.)', ',#900,.T.)', 1), f'#900={surface.replace("PLANE", plane)}',
                          *(f"#{901 + place}=CARTESIAN_POINT('',({x},{y},{z}))" for place, (x, y, z) in enumerate(points)))

    def test_flat_faces(self):
        flat, line = ((-1, -1, 0), (9, -1, 0), (-1, 9, 0), (9, 9, 0)), entity(block(), 'LINE')
        for surface, points in ((f"B_SPLINE_SURFACE_WITH_KNOTS('',1,1,((#901,#902),(#903,#904)),{self.SPLINE})", flat),
                                ("(BOUNDED_SURFACE()B_SPLINE_SURFACE(1,1,((#901,#902),(#903,#904)),.UNSPECIFIED.,.F.,.F.,.F.)SURFACE())", flat),
                                ("RECTANGULAR_TRIMMED_SURFACE('',PLANE,0.,1.,0.,1.,.T.,.T.)", ()), ("CURVE_BOUNDED_SURFACE('',PLANE,(),.T.)", ()),
                                (f"SURFACE_OF_LINEAR_EXTRUSION('',{line},#901)", flat)):
            self.assertEqual(self.boxes(self.surface_as(surface, *points)), [((0, 0, 0), (4, 5, 6))], surface)

    def test_curved_faces(self):
        bent, face = ((-1, -1, 0), (9, -1, 0), (-1, 9, 0), (9, 9, '1.E-9')), entity(block(), 'ADVANCED_FACE')
        for surface, points in ((f"B_SPLINE_SURFACE_WITH_KNOTS('',1,1,((#901,#902),(#903,#904)),{self.SPLINE})", bent),
                                ("RECTANGULAR_TRIMMED_SURFACE('',#900,0.,1.,0.,1.,.T.,.T.)", ()), ("SURFACE_OF_REVOLUTION('',#901,#902)", bent),
                                ("SURFACE_OF_LINEAR_EXTRUSION('',#905,#901);#905=CIRCLE('',#901,1.)", bent)):
            self.refuse(f'1 face is curved: {face} {surface.split("(")[0]}', self.surface_as(surface, *points))


class Stored(unittest.TestCase):
    """Files as other programs write them; test_programs has what they hold."""

    def test_names_of_an_assembly(self):
        found = read_file(str(STORED / 'programs' / 'freecad_assembly.step'))
        self.assertEqual(found.looks, {('solid', 1): Appearance('A'), ('solid', 2): Appearance('B')})

    def test_a_nested_assembly_with_turns_and_colours(self):
        found = read_file(str(STORED / 'programs' / 'opencascade_assembly.step'))
        boxes = [tuple(tuple(map(end, zip(*(point for face in found.model.faces_of(solid) for point in found.model.face_points(face)))))
                       for end in (min, max)) for solid in found.model.solids]
        self.assertEqual(boxes, [((0, 0, 0), (10, 20, 30)), ((80, 0, 0), (100, 10, 30)), ((0, 0, 500), (30, 10, 520)),
                                 ((0, 80, 500), (30, 100, 510)), ((-5, -55, 2), (0, -50, 7))])
        self.assertLess(found.square_moved, 1e-24)
        self.assertEqual(found.looks, {**{('solid', solid): Appearance('Plate', (255, 188, 0)) for solid in (1, 2, 3, 4)},
                                       ('solid', 5): Appearance('Cube', (0, 0, 255)), ('face', 25): Appearance('', (0, 255, 0))})
