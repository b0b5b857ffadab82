"""The run of an accepted text: figures, rolls, and an interpreter that goes straight over the tree.

Every statement is a Python generator that yields its place before each step and makes the step when it is resumed. A go to
is an exception that travels outward to the nearest for body, or to the whole text, that has the label.
"""

LIMIT = 2_000_000_000


class Fault(Exception):
    def __init__(self, number, roll_place=None):
        super().__init__(number, roll_place)
        self.number, self.roll_place = number, roll_place


class Jump(Exception):
    def __init__(self, label):
        super().__init__(label)
        self.label = label


class Stop(Exception):
    pass


# ---------------------------------------------------------------- figures

def cut(a, b):
    """a / b with the fraction dropped toward zero."""
    q = abs(a) // abs(b)
    return q if (a < 0) == (b < 0) else -q


class Whole:
    """A figure is a Python int, `unit` of which make one whole."""
    unit = 1

    def fit(self, n):
        if not -LIMIT <= n <= LIMIT:
            raise Fault(31)
        return n

    def of(self, n):
        return self.fit(n * self.unit)

    def add(self, a, b):
        return self.fit(a + b)

    def subtract(self, a, b):
        return self.fit(a - b)

    def multiply(self, a, b):
        return self.fit(cut(a * b, self.unit))

    def divide(self, a, b):
        if b == 0:
            raise Fault(32)
        return self.fit(cut(a * self.unit, b))

    def nearest(self, a):
        return (2 * a + self.unit) // (2 * self.unit)

    def round(self, a):
        return self.nearest(a) * self.unit


class Hundredths(Whole):
    unit = 100


# ---------------------------------------------------------------- rolls: a list of figures and an ending

def roll(data, figure):
    """The figures of the leading good lines. The ending is None, or the place of the first line that is none; `figure`
    gives a line's figure, or None."""
    figures, at = [], 0
    while at < len(data):
        end = data.find(b"\n", at)
        value = figure(data[at:end]) if end >= 0 else None
        if value is None or abs(value) > LIMIT:
            return figures, at
        figures.append(value)
        at = end + 1
    return figures, None


def digits(text, least, most):
    return int(text) if least <= len(text) <= most and all(48 <= d <= 57 for d in text) else None


def whole_line(line):
    size = digits(line.removeprefix(b"-"), 1, 10)
    return -size if size and line.startswith(b"-") else size


def amount_line(line):
    """Units, and perhaps a point and two digits: a number of hundredths."""
    units, point, part = line.removeprefix(b"-").partition(b".")
    units = digits(units, 1, 10)
    part = digits(part, 2, 2) if point else 0
    if units is None or part is None:
        return None
    return -(100 * units + part) if line.startswith(b"-") else 100 * units + part


def text_roll(data):
    return roll(data, whole_line)


def amount_roll(data):
    return roll(data, amount_line)


def leaver_filter(figures, group):
    kept = []
    for at in range(0, len(figures), group):
        if figures[at] != 0:
            kept += figures[at:at + group]
    return kept


# ---------------------------------------------------------------- the run

class Run:
    def __init__(self, statements, table, kind, cells, figures, ending, book_length):
        self.kind, self.table = kind, table
        self.first, self.named = table.cells()
        self.cells = list(cells) if cells is not None else [0] * self.named
        self.figures, self.ending = list(figures), ending
        self.book, self.book_length = [], book_length
        self.count, self.fault = 0, None
        self.steps = self.until_stop(("block", statements))
        self.place = next(self.steps, None)

    def advance(self, steps):
        """Makes at most so many steps."""
        for _ in range(steps):
            if self.place is None or self.fault:
                return
            try:
                self.place = next(self.steps, None)
                self.count += 1
            except Fault as f:
                self.fault = (f.number, self.place, f.roll_place)

    def status(self):
        if self.fault:
            return {"fault": self.fault[0], "place": self.fault[1], "roll_place": self.fault[2]}
        return "end" if self.place is None else "going"

    # expressions

    def value(self, exp):
        form, kind = exp[0], self.kind
        if form == "number":
            return kind.of(exp[1])
        if form == "name":
            return self.cells[self.first[exp[1]]]
        if form == "element":
            return self.cells[self.element_cell(exp)]
        if form == "bracket":
            return self.value(exp[2])
        if form == "sign":
            v = self.value(exp[3])
            return -v if exp[2] == "-" else v
        if form == "not":
            return self.truth(self.value(exp[2]) == 0)
        left = self.value(exp[3] if form == "compare" else exp[2])
        right = self.value(exp[4] if form == "compare" else exp[3])
        if form == "compare":
            return self.truth({"<": left < right, "<=": left <= right, "=": left == right,
                               "/=": left != right, ">=": left >= right, ">": left > right}[exp[2]])
        if form == "and":
            return self.truth(left != 0 and right != 0)
        if form == "or":
            return self.truth(left != 0 or right != 0)
        if form == "eqv":
            return self.truth((left != 0) == (right != 0))
        operation = {"+": kind.add, "-": kind.subtract, "*": kind.multiply, "/": kind.divide}[form]
        return operation(left, right)

    def truth(self, yes):
        return self.kind.of(1 if yes else 0)

    def element_cell(self, target):
        _, spelling, _, inner = target
        low, high, _ = self.table.bounds[spelling]
        k = self.kind.nearest(self.value(inner))
        if not low <= k <= high:
            raise Fault(36)
        return self.first[spelling] + k - low

    def cell(self, target):
        return self.element_cell(target) if target[0] == "element" else self.first[target[1]]

    def store(self, spelling, cell, figure):
        declared = self.table.types.get(spelling)
        if declared == "integer":
            figure = self.kind.round(figure)
        elif declared == "boolean":
            figure = self.truth(figure != 0)
        self.cells[cell] = figure

    # statements

    def until_stop(self, program):
        try:
            yield from self.body(program)
        except Stop:
            pass

    def body(self, statement):
        """A for's body or the whole text: the reach of the go tos to labels inside it."""
        target = None
        while True:
            try:
                yield from self.perform(statement, target)
                return
            except Jump as jump:
                if not has_label(statement, jump.label):
                    raise
                target = jump.label

    def perform(self, statement, target):
        """From the start, or from the label `target` inside."""
        form = statement[0]
        if form == "label":
            yield from self.perform(statement[2], None if target == statement[1] else target)
        elif form == "block":
            for part in statement[1]:
                if target is None or has_label(part, target):
                    yield from self.perform(part, target)
                    target = None
        elif form == "if":
            if target is None:
                yield statement[1]
                if self.value(statement[2]) == 0:
                    return
            yield from self.perform(statement[3], target)
        elif form == "for":
            yield from self.perform_for(statement)
        elif form == "assign":
            _, place, variable, exp = statement
            yield place
            cell = self.cell(variable)
            self.store(variable[1], cell, self.value(exp))
        elif form == "go":
            yield statement[1]
            raise Jump(statement[2][0])
        elif form == "switch":
            yield statement[1]
            k = self.kind.nearest(self.value(statement[3]))
            labels = self.table.labels[statement[2][0]]
            if 1 <= k <= len(labels):
                raise Jump(labels[k - 1])
        elif form == "in":
            yield statement[1]
            cell = self.cell(statement[2])
            if not self.figures:
                raise Fault(33) if self.ending is None else Fault(34, self.ending)
            self.store(statement[2][1], cell, self.figures.pop(0))
        elif form == "print":
            for exp in statement[2]:
                yield statement[1]
                figure = self.value(exp)
                if len(self.book) >= self.book_length:
                    raise Fault(35)
                self.book.append(figure)
        elif form == "stop":
            yield statement[1]
            raise Stop

    def perform_for(self, statement):
        _, place, (control, _), elements, body = statement
        cell = self.first[control]
        for element in elements:
            yield place
            self.store(control, cell, self.value(element[1]))
            yield from self.body(body)
            while element[0] == "progression":
                yield place
                self.store(control, cell, self.kind.add(self.cells[cell], self.value(element[2])))
                yield place
                step = self.value(element[2])
                limit = self.value(element[3])
                if (self.cells[cell] < limit) if step < 0 else (self.cells[cell] > limit):
                    break
                yield from self.body(body)


def has_label(statement, label):
    """Is the label there, outside of the bodies of inner fors?"""
    form = statement[0]
    if form == "label":
        return statement[1] == label or has_label(statement[2], label)
    if form == "block":
        return any(has_label(part, label) for part in statement[1])
    if form == "if":
        return has_label(statement[3], label)
    return False
