"""Words for a picture in SVG: each answers the text of one shape."""
from html import escape

STYLE = '''
  text { font: 11px "DejaVu Sans", Verdana, sans-serif; fill: #222; stroke-linejoin: round }
  .head { font-weight: bold; font-size: 13px }
  .row { font: 11px "DejaVu Sans Mono", Menlo, monospace; fill: #444 }
  .moment { font-size: 10px; fill: #222 }
  .small { stroke: #fff; stroke-width: 3px; paint-order: stroke }
  .control { font-size: 10px; stroke: #fff; stroke-width: 3px; paint-order: stroke }
'''


def number(value):
    return '%g' % round(value, 1)


def printable(words):
    return ''.join(mark if mark.isprintable() else '?' for mark in words)


def line(x1, y1, x2, y2, colour, width=1.0, dash=None):
    dashes = ' stroke-dasharray="%s"' % dash if dash else ''
    return '<line x1="%s" y1="%s" x2="%s" y2="%s" stroke="%s" stroke-width="%s"%s/>' % (
        *map(number, (x1, y1, x2, y2)), colour, number(width), dashes)


def dot(x, y, radius, colour, filled=True):
    fill = colour if filled else '#fff'
    return '<circle cx="%s" cy="%s" r="%s" fill="%s" stroke="%s" stroke-width="1.5"/>' % (
        *map(number, (x, y, radius)), fill, colour)


def cross(x, y, size, colour):
    places = tuple(map(number, (x - size, y - size, x + size, y + size, x - size, y + size, x + size, y - size)))
    return '<path d="M%s,%sL%s,%sM%s,%sL%s,%s" stroke="%s" stroke-width="2.5"/>' % (*places, colour)


def arrow(x1, y1, x2, y2, colour, dash=None):
    """A line with a head at its second end."""
    length = max(1.0, ((x2 - x1) ** 2 + (y2 - y1) ** 2) ** 0.5)
    ux, uy = (x2 - x1) / length, (y2 - y1) / length
    points = [(x2, y2), (x2 - 9 * ux - 4 * uy, y2 - 9 * uy + 4 * ux), (x2 - 9 * ux + 4 * uy, y2 - 9 * uy - 4 * ux)]
    return line(x1, y1, x2, y2, colour, 1.8, dash) + '<polygon points="%s" fill="%s"/>' % (
        ' '.join('%s,%s' % (number(x), number(y)) for x, y in points), colour)


def text(x, y, words, kind='small', anchor='start', colour=None):
    fill = ' style="fill:%s"' % colour if colour else ''
    side = '' if anchor == 'start' else ' text-anchor="%s"' % anchor
    return '<text x="%s" y="%s" class="%s"%s%s>%s</text>' % (
        number(x), number(y), kind, side, fill, escape(printable(words), quote=False))


def group(shapes, title='', move=None):
    """Shapes that have one title between them, and are moved down together."""
    moved = '' if move is None else ' transform="translate(0,%s)"' % number(move)
    named = '<title>%s</title>' % escape(printable(title), quote=False) if title else ''
    return '<g%s>%s%s</g>' % (moved, named, ''.join(shapes))


def whole(width, height, shapes):
    """The text of a picture."""
    head = '<svg xmlns="http://www.w3.org/2000/svg" width="%d" height="%d" viewBox="0 0 %d %d">' % (width, height, width, height)
    ground = '<rect width="100%" height="100%" fill="#fff"/>'
    return '\n'.join([head, '<style>%s</style>' % STYLE, ground, *shapes, '</svg>', ''])
