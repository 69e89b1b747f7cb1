"""Draws diagrams of recordings as SVG: which triangle has which ray, and the synchronization."""
