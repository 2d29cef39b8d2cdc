"""Reads the bytes of images by docs/IMAGE.md, Bytes, and by nothing of the program: for bench/images.py."""
MARK = b'HALI\x01'
# Of an instruction the fields behind its code: numbers of so many bytes, or a form below.
FIELDS = {
    1: [4], 2: [1, 4], 3: ['text'], 4: [4], 5: [4], 6: [], 7: [], 8: [], 9: [], 10: [], 11: [2], 12: [1], 13: [1], 14: [1], 15: [1], 16: [1],
    17: [8], 18: [8], 19: [8], 20: [4], 21: [], 22: [1, 1, 1, 1, 2, 8], 23: [1, 1], 24: [1, 1], 25: [], 26: [], 27: [4], 28: [4], 29: [4, 4], 30: [],
    32: [], 33: [], 34: [1, 'start', 1, 1, 'cycle', 'limit'], 35: [1], 36: [1], 37: ['pause'], 38: [2], 39: [2], 40: [2], 41: [1], 42: [], 43: [1],
    44: [1, 'kind', 8], 45: [], 46: [2], 47: [],
}
# Of a form the fields behind its first byte.
FORMS = {
    'time': {0: [], 1: [], 2: [8]},
    'start': {0: [], 1: ['time'], 2: ['time'], 3: [4]},
    'cycle': {0: [], 1: [], 2: ['time'], 3: ['time']},
    'limit': {0: [], 1: [4], 2: [4], 3: ['time']},
    'pause': {0: ['time'], 1: ['time'], 2: [4], 3: []},
    'item': {0: [2], 1: [], 2: [], 3: []},
    'named': {0: [], 1: [1], 2: []},
    'target': {0: ['kind'], 1: [4]},
}
SINGLE, DOUBLE, BITS, TEXT, REFERENCE = 1, 2, 3, 4, 5
DIMENSIONS = 4


class NotImage(Exception):
    """No image has these bytes."""


class Reader:
    """Bytes that are read from the front."""

    def __init__(self, data):
        self.data, self.at = data, 0

    def take(self, count):
        taken = self.data[self.at:self.at + count]
        if len(taken) < count:
            raise NotImage
        self.at += count
        return taken

    def number(self, size):
        return int.from_bytes(self.take(size), 'little')

    def fields(self, fields):
        """Some numbers and forms, one behind the other."""
        for field in fields:
            if isinstance(field, int):
                self.take(field)
            elif field in FORMS:
                self.form(FORMS[field])
            else:
                {'kind': self.kind, 'text': self.text}[field]()

    def form(self, rows):
        """A byte that decides which fields follow it."""
        byte = self.number(1)
        if byte not in rows:
            raise NotImage
        self.fields(rows[byte])

    def text(self):
        self.take(self.number(1))

    def kind(self):
        code, second = self.take(2)
        if code not in (SINGLE, DOUBLE, BITS, TEXT) or code in (SINGLE, DOUBLE) and second != 0:
            raise NotImage
        return code

    def value(self, code):
        self.text() if code == TEXT else self.take(4)

    def cell(self):
        code = self.kind()
        self.take(1)
        self.value(code)

    def place(self):
        if self.data[self.at:self.at + 1] == bytes([REFERENCE]):
            if self.number(2) != REFERENCE:
                raise NotImage
            self.take(4)
        else:
            self.value(self.kind())

    def rows(self, row):
        """A list of rows."""
        for _ in range(self.number(4)):
            row()

    def runs(self, row):
        """A list of runs: none is empty, and none stands behind one of the same row."""
        before = None
        for _ in range(self.number(4)):
            if self.number(4) == 0:
                raise NotImage
            began = self.at
            row()
            if self.data[began:self.at] == before:
                raise NotImage
            before = self.data[began:self.at]

    def process(self):
        self.text()
        self.take(4)
        self.runs(self.place)

    def view(self):
        self.take(8 if self.number(1) == 2 else 4)
        count = self.number(1)
        if count > DIMENSIONS:
            raise NotImage
        self.take(8 * count)
        self.form(FORMS['target'])

    def name(self):
        self.take(self.number(2))
        self.fields(['named', 4, 4, 4])
        self.take(4 * self.number(1))

    def instruction(self):
        self.form(FIELDS)

    def image(self):
        """A whole image, and the number of its instructions."""
        if self.take(len(MARK)) != MARK:
            raise NotImage
        self.runs(self.cell)
        self.rows(lambda: self.take(1))
        self.runs(self.place)
        self.rows(self.process)
        self.take(1)
        self.rows(lambda: self.runs(self.kind))
        self.rows(self.view)
        self.rows(lambda: self.rows(lambda: self.form(FORMS['item'])))
        self.rows(lambda: self.take(18))
        self.rows(self.name)
        count = self.number(8)
        for _ in range(count):
            self.instruction()
        if self.at != len(self.data):
            raise NotImage
        return count


def instruction_count(data):
    """How many instructions the image with these bytes has; None where none has them."""
    try:
        return Reader(data).image()
    except NotImage:
        return None
