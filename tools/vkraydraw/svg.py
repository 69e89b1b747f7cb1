"""The few elements of SVG that the diagrams need."""

from xml.sax.saxutils import escape


def document(width, height, elements, title):
    """Returns an SVG document of so many pixels, on white."""
    return "\n".join([
        f'<svg xmlns="http://www.w3.org/2000/svg" width="{width}" height="{height}" '
        f'viewBox="0 0 {width} {height}" font-family="sans-serif">',
        f"<title>{escape(title)}</title>", f'<rect width="{width}" height="{height}" fill="white"/>',
        *elements, "</svg>",
    ])


def text(x, y, words, size=13, color="#222", anchor="middle", weight="normal"):
    """Returns words whose baseline is at y."""
    return (f'<text x="{x:g}" y="{y:g}" font-size="{size}" fill="{color}" text-anchor="{anchor}" '
            f'font-weight="{weight}">{escape(words)}</text>')


def box(x, y, width, height, fill, line="none", thick=1):
    """Returns a rectangle with round corners."""
    return (f'<rect x="{x:g}" y="{y:g}" width="{width:g}" height="{height:g}" rx="5" fill="{fill}" '
            f'stroke="{line}" stroke-width="{thick}"/>')


def line(x, y, to_x, to_y, color, thick=1, dashes=""):
    """Returns a line."""
    more = f' stroke-dasharray="{dashes}"' if dashes else ""
    return (f'<line x1="{x:g}" y1="{y:g}" x2="{to_x:g}" y2="{to_y:g}" stroke="{color}" '
            f'stroke-width="{thick}"{more}/>')


def polygon(points, fill, color="none", thick=1):
    """Returns a polygon."""
    places = " ".join(f"{x:g},{y:g}" for x, y in points)
    return f'<polygon points="{places}" fill="{fill}" stroke="{color}" stroke-width="{thick}" stroke-linejoin="round"/>'


def disc(x, y, radius, fill, color="none", thick=1):
    """Returns a disc."""
    return f'<circle cx="{x:g}" cy="{y:g}" r="{radius:g}" fill="{fill}" stroke="{color}" stroke-width="{thick}"/>'
