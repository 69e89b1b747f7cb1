"""Reads the hits that a run of vkray prints: shows them, draws them, and compares them with others."""

from .hits import Hit, HitsError, read_hits

__all__ = ["Hit", "HitsError", "read_hits"]
