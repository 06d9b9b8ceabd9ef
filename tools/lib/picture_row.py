"""A row of a picture: what stands at one entry. Its heights count from the line of the entry."""
import svg
from picture_words import short

ROW = 24
LABEL = 13
# How wide a letter is at most, of the two sizes in which labels are written.
WIDE = {'small': 6.4, 'control': 5.7}


class Row:
    """The words of an entry, its shapes, and its labels, which fill each column line by line."""

    def __init__(self, number, title, at=None):
        self.number = number
        self.title = title
        self.at = at
        self.words = ''
        self.shapes = []
        self.lines = 1
        self.ends = {}
        self.said = set()
        self.right = 0

    @property
    def height(self):
        return ROW + LABEL * (self.lines - 1)

    def add(self, shape):
        self.shapes.append(shape)

    def below(self, shape):
        """A shape that lies below the others."""
        self.shapes.insert(0, shape)

    def tell(self, column, words, colour):
        """Words in the column of the row's own words, below these."""
        self.ends.setdefault(column[0], (1, column[0]))
        self.label(column, words, colour)

    def label(self, column, words, colour, kind='small'):
        """Words in a column, given by its left end and its width, cut where it ends; once for what is said there twice."""
        left, width = column
        words = short(words, int(width / WIDE[kind]))
        if (left, words) in self.said:
            return
        self.said.add((left, words))
        wide = WIDE[kind] * len(words)
        line, x = self.ends.get(left, (0, left))
        if x > left and x + wide > left + width:
            line, x = line + 1, left
        self.ends[left] = line, x + wide + 8
        self.lines = max(self.lines, line + 1)
        self.right = max(self.right, x + wide)
        self.add(svg.text(x, 4 + LABEL * line, words, kind, colour=colour))
