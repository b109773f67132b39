"""A picture of a cell file: its layers in colours, its marks hatched, its unchecked areas outlined."""

from xml.sax.saxutils import escape, quoteattr

from kolasieve import rects
from kolasieve.mag import MARKS, UNCHECKED

# Colours that people who can't tell red from green tell apart too (Okabe and Ito 2008).
COLOURS = ("#0072b2", "#d55e00", "#009e73", "#cc79a7", "#e69f00", "#56b4e9", "#f0e442", "#999999")


class Picture:
    """The rectangles of each section of a cell file, as numbers of that file, and what rules forbid, if that is known."""

    def __init__(self, cell, rules=()):
        self.sections = cell.sections
        self.rules = rules
        self.layers = list(cell.layers)

    def bounds(self):
        """Returns the lines round all rectangles but those of unchecked areas, which may be large; a default for none."""
        shown = [rect for name, section in self.sections.items() if name != UNCHECKED for rect in section]
        return rects.bounds(shown or self.sections.get(UNCHECKED, []) or [(0, 0, 10, 10)])

    def svg(self, width=900):
        """Returns the picture as SVG. A square of the layout is a unit; up is up."""
        left, bottom, right, top = self.bounds()
        edge = max(2, (right - left) // 20, (top - bottom) // 20)
        left, bottom, right, top = left - edge, bottom - edge, right + edge, top + edge
        unit = max(right - left, top - bottom) / width
        height = (top - bottom) / unit
        out = [
            f'<svg xmlns="http://www.w3.org/2000/svg" width="{width}" height="{height + 24 * (len(self.layers) + len(self.rules) + 3):.0f}">',
            # Patterns are drawn in units of where they lie: of the layout, and of the legend.
            f"<defs>{hatch('marked', unit)}{hatch('hatch', 1)}</defs>",
            f'<svg class="layout" width="{width}" height="{height:.0f}" viewBox="{left} {-top} {right - left} {top - bottom}">',
            f'<rect x="{left}" y="{-top}" width="{right - left}" height="{top - bottom}" fill="white"/>',
        ]
        for index, name in enumerate(self.layers):
            colour = COLOURS[index % len(COLOURS)]
            out.append(f'<g fill="{colour}" fill-opacity="0.6" data-layer={quoteattr(name)}>')
            out.extend(box(rect) for rect in self.sections[name])
            out.append("</g>")
        out.append(f'<g fill="url(#marked)" stroke="#b00000" stroke-width="{unit}" class="marks">')
        out.extend(box(rect) for rect in self.sections.get(MARKS, []))
        out.append(f'</g><g fill="none" stroke="#555" stroke-dasharray="{4 * unit} {3 * unit}" stroke-width="{1.5 * unit}" class="unchecked">')
        out.extend(box(rect) for rect in self.sections.get(UNCHECKED, []))
        out.append("</g></svg>")
        out.extend(self.legend(height, unit))
        out.append("</svg>")
        return "\n".join(out) + "\n"

    def legend(self, height, unit):
        rows = [(name, f'fill="{COLOURS[index % len(COLOURS)]}" fill-opacity="0.6"') for index, name in enumerate(self.layers)]
        rows.append((f"marks ({len(self.sections.get(MARKS, []))} strips)", 'fill="url(#hatch)" stroke="#b00000"'))
        rows.append((f"unchecked ({len(self.sections.get(UNCHECKED, []))} areas)", 'fill="none" stroke="#555" stroke-dasharray="4 3"'))
        rows.extend((f"[{number}] {text} ({len(strips)} strips)", 'fill="none"') for number, text, strips in self.rules)
        for index, (name, style) in enumerate(rows):
            y = height + 24 * index + 8
            yield f'<rect x="8" y="{y:.0f}" width="24" height="14" {style}/>'
            yield f'<text x="40" y="{y + 12:.0f}" font-family="sans-serif" font-size="13">{escape(name)}</text>'
        squares = scale(200 * unit)
        y = height + 24 * len(rows) + 16
        yield f'<path d="M8 {y:.0f} h{squares / unit:.1f}" stroke="black" stroke-width="2"/>'
        yield f'<text x="{16 + squares / unit:.0f}" y="{y + 4:.0f}" font-family="sans-serif" font-size="13">{squares} squares</text>'


def hatch(name, unit):
    """Returns a pattern of slanted lines, 3 of these units wide."""
    return (
        f'<pattern id="{name}" width="6" height="6" patternUnits="userSpaceOnUse" patternTransform="rotate(45) scale({unit})">'
        '<rect width="3" height="6" fill="#b00000"/></pattern>'
    )


def box(rect):
    left, bottom, right, top = rect
    return f'<rect x="{left}" y="{-top}" width="{right - left}" height="{top - bottom}"/>'


def scale(most):
    """Returns the greatest of 1, 2, 5, 10, 20, 50, .. that is at most this many squares, and at least 1."""
    best, power = 1, 1
    while power <= most:
        for digit in (1, 2, 5):
            if digit * power <= most:
                best = digit * power
        power *= 10
    return best
