"""A model as STEP AP214 with advanced boundary representations.

Each shell that holds material is a solid; one that bounds a hollow is a void of the solid around it. Rings are further bounds
of their faces. Solids and faces have the names that are known of them, else gwb's numbers, as edges and vertices have.
"""

from fractions import Fraction
from functools import partial
from typing import Callable, Dict, Hashable, List, Mapping, NamedTuple, Optional, Sequence

from ...geometry.measures import normal, require_fit
from ...geometry.model import Model
from ...geometry.nesting import Nest, nests
from ...geometry.vectors import Vector, negative, reduced, subtract
from ..appearance import NO_APPEARANCES, Appearances, Colour, look_of, unique_names
from .lexer import quoted

_HEAD = """ISO-10303-21;
HEADER;
FILE_DESCRIPTION(('boundary model of gwb'),'2;1');
FILE_NAME('gwb.step','1970-01-01T00:00:00',(''),(''),'gwb-step','gwb','');
FILE_SCHEMA(('AUTOMOTIVE_DESIGN { 1 0 10303 214 1 1 1 1 }'));
ENDSEC;
DATA;"""
_FOOT = """ENDSEC;
END-ISO-10303-21;
"""


class _Entities:
    """The numbered lines of the data section."""

    def __init__(self) -> None:
        self.lines: List[str] = []
        self._made: Dict[Hashable, str] = {}

    def put(self, text: str) -> str:
        """A new entity; its reference."""
        self.lines.append(f'#{len(self.lines) + 1}={text};')
        return f'#{len(self.lines)}'

    def once(self, key: Hashable, make: Callable[[], str]) -> str:
        """The reference of the entity with this key, made where it isn't there."""
        if key not in self._made:
            self._made[key] = make()
        return self._made[key]


def _triple(vector: Vector) -> str:
    return '({}.,{}.,{}.)'.format(*vector)


def _references(items: Sequence[str]) -> str:
    return '(' + ','.join(items) + ')'


class _Placed(NamedTuple):
    """A part: its definition, the representation of its shape, and the axes in which it stands."""

    definition: str
    representation: str
    axes: str


class _Shapes:
    """The geometry and topology of a model as entities."""

    def __init__(self, model: Model, entities: _Entities, looks: Appearances) -> None:
        self._model, self._looks = model, looks
        self.names = unique_names(model.solids, looks, 'solid ')
        self._put, self._once = entities.put, entities.once
        self.styled: List[str] = []

    def direction(self, vector: Vector) -> str:
        """A unit vector, given by a whole one."""
        short = reduced(vector)
        return self._once(('direction', short), lambda: self._put(f"DIRECTION('',{_triple(short)})"))

    def axes(self) -> str:
        """The axes of the whole, at the origin."""
        origin = self._put("CARTESIAN_POINT('',(0.,0.,0.))")
        return self._put(f"AXIS2_PLACEMENT_3D('',{origin},{self.direction((0, 0, 1))},{self.direction((1, 0, 0))})")

    def _point(self, vertex: int) -> str:
        point = self._model.vertices[vertex]
        return self._once(('point', vertex), lambda: self._put(f"CARTESIAN_POINT('vertex {vertex}',{_triple(point)})"))

    def _vertex(self, vertex: int) -> str:
        return self._once(('vertex', vertex), lambda: self._put(f"VERTEX_POINT('vertex {vertex}',{self._point(vertex)})"))

    def _edge(self, edge: int) -> str:
        return self._once(('edge', edge), lambda: self._new_edge(edge))

    def _new_edge(self, edge: int) -> str:
        start, end = self._model.edges[edge]
        along = subtract(self._model.vertices[end], self._model.vertices[start])
        vector = self._put(f"VECTOR('',{self.direction(along)},1.)")
        line = self._put(f"LINE('',{self._point(start)},{vector})")
        return self._put(f"EDGE_CURVE('edge {edge}',{self._vertex(start)},{self._vertex(end)},{line},.T.)")

    def _loop(self, loop: int) -> str:
        halves = [self._put(f"ORIENTED_EDGE('',*,*,{self._edge(abs(half))},.{'T' if half > 0 else 'F'}.)")
                  for half in self._model.loops[loop].halves]
        return self._put(f"EDGE_LOOP('loop {loop}',{_references(halves)})")

    def _face(self, face: int, turned: bool) -> str:
        """A face; turned for a void, whose shell looks out of the hollow."""
        outer, *rings = self._model.faces[face].loops
        plane = self._plane(face, turned)
        sense = 'F' if turned else 'T'
        bounds = [self._put(f"FACE_OUTER_BOUND('',{self._loop(outer)},.{sense}.)")]
        bounds += [self._put(f"FACE_BOUND('',{self._loop(ring)},.{sense}.)") for ring in rings]
        look = look_of(self._looks, 'face', face)
        made = self._put(f'ADVANCED_FACE({quoted(look.name or f"face {face}")},{_references(bounds)},{plane},.T.)')
        self._paint(made, look.colour)
        return made

    def _paint(self, item: str, colour: Optional[Colour]) -> None:
        """Gives a solid or a face its colour, where it has one."""
        if colour is not None:
            style = self._once(('style', colour), partial(self._style, colour))
            self.styled.append(self._put(f"STYLED_ITEM('',({style}),{item})"))

    def _style(self, colour: Colour) -> str:
        red, green, blue = map(_real, colour)
        shade = self._put(f"COLOUR_RGB('',{red},{green},{blue})")
        fill = self._put(f"FILL_AREA_STYLE_COLOUR('',{shade})")
        area = self._put(f"FILL_AREA_STYLE('',({fill}))")
        surface = self._put(f'SURFACE_STYLE_FILL_AREA({area})')
        side = self._put(f"SURFACE_SIDE_STYLE('',({surface}))")
        usage = self._put(f'SURFACE_STYLE_USAGE(.BOTH.,{side})')
        return self._put(f'PRESENTATION_STYLE_ASSIGNMENT(({usage}))')

    def _plane(self, face: int, turned: bool) -> str:
        first = self._model.loops[self._model.faces[face].outer].halves[0]
        across = normal(self._model, face)
        along = subtract(self._model.point(-first), self._model.point(first))
        axes = f'{self.direction(negative(across) if turned else across)},{self.direction(along)}'
        place = self._put(f"AXIS2_PLACEMENT_3D('',{self._point(self._model.tail(first))},{axes})")
        return self._put(f"PLANE('',{place})")

    def _shell(self, faces: Sequence[int], turned: bool = False) -> str:
        return self._put(f"CLOSED_SHELL('',{_references([self._face(face, turned) for face in faces])})")

    def solid(self, number: int, nest: Nest) -> str:
        """A shell with material within, less its voids."""
        outside, name = self._shell(nest.outer), quoted(self.names[number])
        if nest.voids:
            voids = [self._put(f"ORIENTED_CLOSED_SHELL('',*,{self._shell(void, turned=True)},.F.)") for void in nest.voids]
            made = self._put(f'BREP_WITH_VOIDS({name},{outside},{_references(voids)})')
        else:
            made = self._put(f'MANIFOLD_SOLID_BREP({name},{outside})')
        self._paint(made, look_of(self._looks, 'solid', number).colour)
        return made


def _real(part: int) -> str:
    """A part of a colour from 0 to 255 as one of 1; three digits tell all 256 apart."""
    return f'{part / 255:.4f}'


class _Products:
    """The parts whose shapes the file holds, and the assembly that they stand in."""

    def __init__(self, entities: _Entities) -> None:
        self._put = entities.put
        self._application = self._put("APPLICATION_CONTEXT('core data for automotive mechanical design processes')")
        self._put(f"APPLICATION_PROTOCOL_DEFINITION('international standard','automotive_design',2000,{self._application})")
        self._context = self._put(f"PRODUCT_CONTEXT('',{self._application},'mechanical')")

    def product(self, name: str, representation: str) -> str:
        """A part with its shape: its definition."""
        product = self._put(f"PRODUCT({quoted(name)},{quoted(name)},'',({self._context}))")
        self._put(f"PRODUCT_RELATED_PRODUCT_CATEGORY('part','',({product}))")
        formation = self._put(f"PRODUCT_DEFINITION_FORMATION('','',{product})")
        stage = self._put(f"PRODUCT_DEFINITION_CONTEXT('part definition',{self._application},'design')")
        definition = self._put(f"PRODUCT_DEFINITION('design','',{formation},{stage})")
        shape = self._put(f"PRODUCT_DEFINITION_SHAPE('','',{definition})")
        self._put(f'SHAPE_DEFINITION_REPRESENTATION({shape},{representation})')
        return definition

    def put_in(self, whole: _Placed, part: _Placed, name: str) -> None:
        """Puts a part in an assembly, in which it stands as it is."""
        move = self._put(f"ITEM_DEFINED_TRANSFORMATION('','',{part.axes},{whole.axes})")
        relation = self._put(f"(REPRESENTATION_RELATIONSHIP('','',{part.representation},{whole.representation})"
                             f'REPRESENTATION_RELATIONSHIP_WITH_TRANSFORMATION({move})SHAPE_REPRESENTATION_RELATIONSHIP())')
        usage = self._put(f"NEXT_ASSEMBLY_USAGE_OCCURRENCE({quoted(name)},{quoted(name)},'',{whole.definition},{part.definition},$)")
        shape = self._put(f"PRODUCT_DEFINITION_SHAPE('','',{usage})")
        self._put(f'CONTEXT_DEPENDENT_SHAPE_REPRESENTATION({relation},{shape})')


def _accuracy(model: Model) -> str:
    """How exact lengths are in the arithmetic of other programs, which has 16 digits: a millionth, or more for coordinates past 10**8."""
    farthest = max(abs(part) for point in model.vertices.values() for part in point)
    return f'1.E-{min(6, 14 - len(str(max(farthest - 1, 1)))):02}'


def _put_length_unit(entities: _Entities, unit: Fraction) -> str:
    """The unit of lengths, of which one has so many millimetres."""
    millimetre = entities.put('(LENGTH_UNIT()NAMED_UNIT(*)SI_UNIT(.MILLI.,.METRE.))')
    if unit == 1:
        return millimetre
    exponents = entities.put('DIMENSIONAL_EXPONENTS(1.,0.,0.,0.,0.,0.,0.)')
    measure = entities.put(f'LENGTH_MEASURE_WITH_UNIT(LENGTH_MEASURE({_decimal(unit)}),{millimetre})')
    return entities.put(f"(CONVERSION_BASED_UNIT('{unit} MILLIMETRE',{measure})LENGTH_UNIT()NAMED_UNIT({exponents}))")


def _decimal(unit: Fraction) -> str:
    """A fraction as a real of STEP, to 17 digits."""
    mantissa, exponent = f'{float(unit):.16E}'.split('E')
    return f'{mantissa}E{int(exponent)}'


def _put_context(entities: _Entities, accuracy: str, unit: Fraction) -> str:
    """The units, millimetres or what one of them is divided into, and radians, and how exact lengths are."""
    put = entities.put
    length = _put_length_unit(entities, unit)
    angle = put('(NAMED_UNIT(*)PLANE_ANGLE_UNIT()SI_UNIT($,.RADIAN.))')
    solid_angle = put('(NAMED_UNIT(*)SI_UNIT($,.STERADIAN.)SOLID_ANGLE_UNIT())')
    exact = put(f"UNCERTAINTY_MEASURE_WITH_UNIT(LENGTH_MEASURE({accuracy}),{length},'distance_accuracy_value','')")
    return put(f'(GEOMETRIC_REPRESENTATION_CONTEXT(3)GLOBAL_UNCERTAINTY_ASSIGNED_CONTEXT(({exact}))'
               f"GLOBAL_UNIT_ASSIGNED_CONTEXT(({length},{angle},{solid_angle}))REPRESENTATION_CONTEXT('',''))")


def step_text(model: Model, looks: Appearances = NO_APPEARANCES, unit: Fraction = Fraction(1)) -> str:
    """The whole file, with the names and colours of solids and faces that are given, its coordinates in a unit of so many millimetres; raises
    Unfit where a face isn't a plain flat one, or a shell no boundary of a solid. Several solids of which one has a name are an assembly of
    parts with their names."""
    require_fit(model)
    entities = _Entities()
    shapes = _Shapes(model, entities, looks)
    solids = {solid: [shapes.solid(solid, nest) for nest in nests(model, solid)] for solid in model.solids}
    axes = shapes.axes()
    context = _put_context(entities, _accuracy(model), unit)
    names = [look_of(looks, 'solid', solid).name for solid in solids]
    if len(solids) > 1 and any(names):
        _put_assembly(entities, solids, shapes, axes, context)
    else:
        shape = _put_shape(entities, [item for held in solids.values() for item in held], axes, context)
        _Products(entities).product(names[0] if len(solids) == 1 and names[0] else 'gwb', shape)
    if shapes.styled:
        entities.put(f"MECHANICAL_DESIGN_GEOMETRIC_PRESENTATION_REPRESENTATION('',{_references(shapes.styled)},{context})")
    return '\n'.join([_HEAD, *entities.lines, _FOOT])


def _put_shape(entities: _Entities, items: Sequence[str], axes: str, context: str) -> str:
    return entities.put(f"ADVANCED_BREP_SHAPE_REPRESENTATION('',{_references([*items, axes])},{context})")


def _put_assembly(entities: _Entities, solids: Mapping[int, Sequence[str]], shapes: _Shapes, axes: str, context: str) -> None:
    """A part for each solid, in an assembly."""
    products = _Products(entities)
    shape = entities.put(f"SHAPE_REPRESENTATION('',({axes}),{context})")
    whole = _Placed(products.product('gwb', shape), shape, axes)
    for solid, items in solids.items():
        own = shapes.axes()
        shape = _put_shape(entities, items, own, context)
        products.put_in(whole, _Placed(products.product(shapes.names[solid], shape), shape, own), shapes.names[solid])
