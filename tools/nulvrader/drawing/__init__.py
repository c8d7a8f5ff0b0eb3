"""Draws a warehouse: places its nodes in a plane, and makes an SVG of it."""
