"""Pictures of a trace: an SVG, or a page with zoom and a cursor."""
