"""Polygons and regions joined to the faces and surfaces of solids."""
