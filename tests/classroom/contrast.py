"""The contrast of two colours, as WCAG 2 defines it."""
from __future__ import annotations

LEAST = 4.5  # the least contrast of a text


def luminance(colour: list[float]) -> float:
    """Returns the luminance of a colour, from 0 for black to 1 for white. The colour has red, green and blue from 0 to
    255. Each of them is made proportional to its light, and is weighted by how bright the eye sees it."""
    parts = [part / 255 for part in colour]
    red, green, blue = (part / 12.92 if part <= 0.04045 else ((part + 0.055) / 1.055) ** 2.4 for part in parts)
    lightness: float = 0.2126 * red + 0.7152 * green + 0.0722 * blue
    return lightness


def contrast(front: list[float], back: list[float]) -> float:
    """Returns the contrast of two colours, from 1 to 21."""
    darker, lighter = sorted((luminance(front), luminance(back)))
    return (lighter + 0.05) / (darker + 0.05)
