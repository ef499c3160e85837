"""Names and colours in a STEP file: those of products and solids, and those of styled solids and faces."""

from typing import Callable, Dict, Iterator, Optional, Set, Tuple

from ..appearance import Appearance, Colour, colour_of_parts
from .lexer import StepFile, text_of

# Styles of what isn't a surface; the colours in them aren't that of the solid or the face.
_OTHERS = ('CURVE_STYLE', 'POINT_STYLE', 'SURFACE_STYLE_BOUNDARY', 'SURFACE_STYLE_SEGMENTATION_CURVE', 'SURFACE_STYLE_PARAMETER_LINE')
_DEFINITIONS = ('PRODUCT_DEFINITION', 'PRODUCT_DEFINITION_WITH_ASSOCIATED_DOCUMENTS')
# How the name begins that OpenCASCADE gives to a shape without one.
_NAMELESS = 'Open CASCADE STEP translator'
_NAMED_COLOURS = {'red': (255, 0, 0), 'green': (0, 255, 0), 'blue': (0, 0, 255), 'yellow': (255, 255, 0), 'magenta': (255, 0, 255),
                  'cyan': (0, 255, 255), 'black': (0, 0, 0), 'white': (255, 255, 255)}


class StepLooks:
    """Names and colours by references of solids, faces and representations; `group` says which representations are one shape."""

    def __init__(self, file: StepFile, group: Callable[[str], str]) -> None:
        self._file, self._group = file, group
        self._colours: Dict[str, Colour] = dict(self._styled())
        self._products = self._product_names()

    def of_solid(self, solid: str, representation: str) -> Appearance:
        """The look of a solid: its own name, else that of the product whose shape it is."""
        items = self._file.at(solid).items
        product = self._products.get(self._group(representation), '') if representation else ''
        shells = {self._colours.get(shell) for shell in (items[1] if isinstance(items[1], list) else items[1:2])}
        return Appearance(text_of(items[0]) or product, self._colours.get(solid) or (shells.pop() if len(shells) == 1 else None))

    def of_face(self, face: str) -> Appearance:
        """The look of a face."""
        return Appearance(text_of(self._file.at(face).items[0]), self._colours.get(face))

    def _styled(self) -> Iterator[Tuple[str, Colour]]:
        for reference in self._file.of_kinds('STYLED_ITEM', 'OVER_RIDING_STYLED_ITEM'):
            _, styles, item = self._file.at(reference).items[:3]
            colour = next(filter(None, map(self._colour_in, styles)), None)
            if colour and isinstance(item, str):
                yield item, colour

    def _colour_in(self, style: str) -> Optional[Colour]:
        """The first colour of a surface that a style leads to."""
        seen: Set[str] = set()
        waiting = [style]
        while waiting:
            here = waiting.pop()
            kind = self._file.kind(here)
            if here in seen or kind in _OTHERS:
                continue
            seen.add(here)
            if kind == 'COLOUR_RGB':
                red, green, blue = map(float, self._file.at(here).items[1:4])
                return colour_of_parts(red, green, blue)
            if kind == 'DRAUGHTING_PRE_DEFINED_COLOUR':
                return _NAMED_COLOURS.get(text_of(self._file.at(here).items[0]).lower())
            waiting += reversed(self._file.named_by(here))
        return None

    def _product_names(self) -> Dict[str, str]:
        """The names of products by the representations of their shapes."""
        found: Dict[str, str] = {}
        for reference in self._file.of_kinds('SHAPE_DEFINITION_REPRESENTATION'):
            shape, representation = self._file.at(reference).items[:2]
            definition = self._file.at(self._file.at(shape).items[2])
            if definition.kind in _DEFINITIONS:
                product = self._file.at(self._file.at(definition.items[2]).items[2])
                name = text_of(product.items[1]) or text_of(product.items[0])
                found[self._group(representation)] = '' if name.startswith(_NAMELESS) else name
        return found
