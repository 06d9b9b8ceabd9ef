"""The legend of a picture: each kind of mark with what it says, in lines of a given width."""
import svg
from picture_words import CONTROL, DROPPED, REFUSED

COLOUR = '#1f6fb4'
MARK = 36
LINE = 18
MARKS = (
    (svg.dot(4, 0, 4, COLOUR) + svg.line(8, 0, 26, 0, COLOUR, 2.6), 'a copy is sent, and stands in a queue'),
    (svg.arrow(0, 0, 26, 0, COLOUR), 'it goes over a link'),
    (svg.arrow(0, 0, 26, 0, COLOUR, '4,3'), 'it goes, and nobody takes it'),
    (svg.dot(18, 0, 4, COLOUR), 'it is delivered'),
    (svg.dot(18, 0, 4, COLOUR, False), 'it waits'),
    (svg.cross(18, 0, 5, DROPPED), 'it is dropped, or a connection ends'),
    (svg.line(0, 0, 26, 0, '#555', 1.4, '5,4'), 'a link is made'),
    (svg.dot(18, 0, 2.2, REFUSED), 'gone, pending, idle or false'),
    (svg.text(0, 4, 'a → b', 'control', colour=CONTROL), 'item a is put into queue b'),
)


def legend(width):
    """The shapes, and their height in all."""
    shapes, x, y = [], 10, 14
    for mark, words in MARKS:
        wide = MARK + 6.3 * len(words) + 16
        if x > 10 and x + wide > width:
            x, y = 10, y + LINE
        colour = REFUSED if words.startswith('gone') else '#444'
        shapes.append('<g transform="translate(%s,%s)">%s%s</g>' % (
            svg.number(x), svg.number(y), mark, svg.text(MARK, 4, words, colour=colour)))
        x += wide
    return shapes, y + LINE
