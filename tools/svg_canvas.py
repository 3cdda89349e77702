"""Drawing in SVG, for tools/draw and tools/crates-diagram: shapes, and texts with a guess of their width."""
from html import escape

WIDTH = 900
FONT = 'DejaVu Sans, Verdana, sans-serif'
INK = '#222222'


def wide(text, size):
    """About how many pixels a text takes; rather too many."""
    return 0.6 * size * len(text)


def fitting(texts, room, size):
    """The first of the texts that has room, or none."""
    return next((text for text in texts if wide(text, size) <= room), '')


def wrapped(text, size, room):
    """A text in lines that have room."""
    lines = ['']
    for word in text.split(' '):
        if lines[-1] and wide(f'{lines[-1]} {word}', size) > room:
            lines.append('')
        lines[-1] = f'{lines[-1]} {word}'.strip()
    return lines


class Canvas:
    """What is drawn, from the top down to `y`; texts in bars come last, so that no line crosses them."""

    def __init__(self):
        self.items, self.over, self.y = [], [], 0

    def add(self, item):
        self.items.append(item)

    def rect(self, x, y, w, h, fill, stroke='none', more=''):
        size = f'x="{x:.1f}" y="{y:.1f}" width="{max(w, 1):.1f}" height="{h:.1f}"'
        self.add(f'<rect {size} fill="{fill}" stroke="{stroke}" {more}/>')

    def path(self, d, stroke, more=''):
        self.add(f'<path d="{d}" fill="none" stroke="{stroke}" {more}/>')

    def line(self, x, y, x2, y2, stroke, more=''):
        self.add(f'<line x1="{x:.1f}" y1="{y:.1f}" x2="{x2:.1f}" y2="{y2:.1f}" stroke="{stroke}" {more}/>')

    def text(self, x, y, text, size=12, more=''):
        if text:
            self.add(f'<text x="{x:.1f}" y="{y:.1f}" font-size="{size}" fill="{INK}" {more}>{escape(text)}</text>')

    def text_over(self, x, y, text, size, halo):
        if text:
            at = f'x="{x:.1f}" y="{y:.1f}" font-size="{size}" fill="{INK}"'
            around = f'stroke="{halo}" stroke-width="3" paint-order="stroke" stroke-linejoin="round"'
            self.over.append(f'<text {at} {around}>{escape(text)}</text>')

    def svg(self):
        size = f'width="{WIDTH}" height="{self.y:.0f}"'
        box = f'viewBox="0 0 {WIDTH} {self.y:.0f}"'
        head = f'<svg xmlns="http://www.w3.org/2000/svg" {size} {box} font-family="{FONT}">'
        arrow = ('<defs><marker id="a" viewBox="0 0 8 8" refX="7" refY="4" markerWidth="7" markerHeight="7" '
                 'orient="auto"><path d="M0,0 L8,4 L0,8 z" fill="#8a5200"/></marker></defs>')
        return '\n'.join([head, arrow, f'<rect {size} fill="#ffffff"/>', *self.items, *self.over, '</svg>\n'])
