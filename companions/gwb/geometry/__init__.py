"""Exact geometry of boundary models: points, planes, polygons, faces and solids."""
