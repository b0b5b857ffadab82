"""Words, sentences and rules on names: from the bytes of a text to a tree, or a refusal.

Written from docs/ alone, as a second opinion on the definitions in crates/. A tree is made of plain tuples; the first
element names the form. A refusal is a number and a place, the byte's number from 0.
"""

RESERVED = set("begin end if for go to switch integer boolean array comment in print stop and or not eqv".split())
MARKS2 = [":=", "=:", "/=", "<=", ">="]
MARKS1 = list(";:,()[]+-*/=<>")
RELATIONS = {"<", "<=", "=", "/=", ">=", ">"}
LETTERS = set("ABCDEFGHIJKLMNOPQRSTUVWXYZabcdefghijklmnopqrstuvwxyz")
DIGITS = set("0123456789")


class Refused(Exception):
    def __init__(self, number, place):
        super().__init__(number, place)
        self.number, self.place = number, place


# ---------------------------------------------------------------- words

def words_of(text):
    """(class, spelling, place) of each word; class is 'name', 'number' or the fixed word itself."""
    if len(text) > 8192:
        raise Refused(1, 8192)
    chars = text.decode("latin-1")
    words, at = [], 0
    while at < len(chars):
        c = chars[at]
        if c in " \n":
            at += 1
            continue
        end = at + 1
        if c in LETTERS:
            while end < len(chars) and chars[end] in LETTERS | DIGITS:
                end += 1
            word = chars[at:end]
            cls = word if word in RESERVED else "name"
            too_long = len(word) > 16
        elif c in DIGITS:
            while end < len(chars) and chars[end] in DIGITS:
                end += 1
            word, cls = chars[at:end], "number"
            too_long = len(word) > 9
        else:
            word = chars[at:at + 2] if chars[at:at + 2] in MARKS2 else c
            if word not in MARKS2 and word not in MARKS1:
                raise Refused(2, at)
            cls, end, too_long = word, at + len(word), False
        if too_long:
            raise Refused(3, at)
        if len(words) == 500:
            raise Refused(4, at)
        words.append((cls, word, at))
        if cls == "comment":
            while end < len(chars) and chars[end] != ";":
                end += 1
        at = end
    return words


# ---------------------------------------------------------------- sentences

class Parser:
    """Recursive descent with one word of lookahead; `self.names` collects every name where it stands."""

    def __init__(self, words, length):
        self.words, self.length, self.at, self.level, self.names = words, length, 0, 0, []

    def look(self):
        return self.words[self.at][0] if self.at < len(self.words) else None

    def place(self):
        return self.words[self.at][2] if self.at < len(self.words) else self.length

    def take(self, *classes):
        if self.look() not in classes:
            raise Refused(5, self.place())
        word = self.words[self.at]
        self.at += 1
        return word

    def open(self, cls):
        word = self.take(cls)
        self.level += 1
        if self.level > 32:
            raise Refused(6, word[2])
        return word[2]

    def close(self, cls):
        self.take(cls)
        self.level -= 1

    def name(self, role, detail=None):
        _, spelling, place = self.take("name")
        self.names.append((spelling, place, role, detail))
        return spelling, place

    def program(self):
        items = [self.item()]
        while self.look() == ";":
            self.take(";")
            items.append(self.item())
        if self.look() is not None:
            raise Refused(5, self.place())
        return items

    def item(self):
        word = self.look()
        if word == "comment":
            self.take("comment")
            return ("comment",)
        if word in ("integer", "boolean"):
            self.take(word)
            self.open("(")
            self.name_list(word)
            self.close(")")
            return ("declaration",)
        if word == "array":
            self.take("array")
            self.open("(")
            self.group()
            while self.look() == ",":
                self.take(",")
                self.group()
            self.close(")")
            return ("declaration",)
        if word == "switch":
            self.take("switch")
            spelling, _ = self.name("switch")
            entry = len(self.names) - 1
            self.take(":=")
            self.open("(")
            labels = self.name_list("in switch")
            self.close(")")
            self.names[entry] = self.names[entry][:3] + (labels,)
            return ("declaration",)
        return self.statement()

    def name_list(self, role):
        listed = [self.name(role)[0]]
        while self.look() == ",":
            self.take(",")
            listed.append(self.name(role)[0])
        return listed

    def group(self):
        first = len(self.names)
        self.name_list("array")
        bracket = self.open("[")
        low = self.bound()
        self.take(":")
        high = self.bound()
        self.close("]")
        for i in range(first, len(self.names)):
            self.names[i] = self.names[i][:3] + ((low, high, bracket),)

    def bound(self):
        sign = -1 if self.look() == "-" else 1
        if self.look() in ("+", "-"):
            self.take("+", "-")
        return sign * int(self.take("number")[1])

    def statement(self):
        word = self.look()
        if word == "name":
            return self.named_statement()
        if word == "if":
            place = self.open("if")
            condition = self.exp()
            self.take(";")
            governed = self.statement()
            self.level -= 1
            return ("if", place, condition, governed)
        if word == "for":
            place = self.open("for")
            control = self.name("variable")
            self.take(":=")
            elements = [self.element()]
            while self.look() == ",":
                self.take(",")
                elements.append(self.element())
            self.take(";")
            body = self.statement()
            self.level -= 1
            return ("for", place, control, elements, body)
        if word == "begin":
            self.open("begin")
            parts = [self.statement()]
            while self.look() == ";":
                self.take(";")
                parts.append(self.statement())
            self.close("end")
            return ("block", parts)
        if word == "go":
            place = self.take("go")[2]
            self.take("to")
            name = self.name("target")
            if self.look() != "[":
                return ("go", place, name)
            self.names[-1] = self.names[-1][:2] + ("selector", None)
            self.open("[")
            selector = self.exp()
            self.close("]")
            return ("switch", place, name, selector)
        if word == "in":
            place = self.take("in")[2]
            self.take("=:")
            self.open("(")
            target = self.variable()
            self.close(")")
            return ("in", place, target)
        if word == "print":
            place = self.take("print")[2]
            self.open("(")
            printed = [self.exp()]
            while self.look() == ",":
                self.take(",")
                printed.append(self.exp())
            self.close(")")
            return ("print", place, printed)
        return ("stop", self.take("stop")[2])

    def named_statement(self):
        spelling, place = self.name("variable")
        if self.look() == ":":
            self.names[-1] = (spelling, place, "label", None)
            self.take(":")
            return ("label", spelling, self.statement())
        target = self.subscript(spelling, place)
        self.take(":=")
        return ("assign", place, target, self.exp())

    def variable(self):
        return self.subscript(*self.name("variable"))

    def subscript(self, spelling, place):
        if self.look() != "[":
            return ("name", spelling, place)
        self.names[-1] = (spelling, place, "element", None)
        self.open("[")
        inner = self.exp()
        self.close("]")
        return ("element", spelling, place, inner)

    def element(self):
        start = self.exp()
        if self.look() != "(":
            return ("single", start)
        self.open("(")
        step = self.exp()
        self.close(")")
        return ("progression", start, step, self.exp())

    def exp(self):
        return self.row(["eqv"], lambda: self.row(["or"], lambda: self.row(["and"], self.negation)))

    def row(self, operators, part):
        left = part()
        while self.look() in operators:
            operator = self.take(*operators)[0]
            left = (operator, first_byte(left), left, part())
        return left

    def negation(self):
        if self.look() == "not":
            place = self.take("not")[2]
            return ("not", place, self.negation())
        return self.sum()

    def sum(self):
        if self.look() in ("+", "-"):
            sign, _, place = self.take("+", "-")
            left = ("sign", place, sign, self.term())
        else:
            left = self.term()
        while self.look() in ("+", "-"):
            operator = self.take("+", "-")[0]
            left = (operator, first_byte(left), left, self.term())
        return left

    def term(self):
        return self.row(["*", "/"], self.factor)

    def factor(self):
        if self.look() == "number":
            _, digits, place = self.take("number")
            return ("number", int(digits), place)
        if self.look() == "name":
            return self.variable()
        place = self.open("(")
        left = self.exp()
        if self.look() in RELATIONS:
            relation = self.take(*RELATIONS)[0]
            right = self.exp()
            self.close(")")
            return ("compare", place, relation, left, right)
        self.close(")")
        return ("bracket", place, left)


def first_byte(exp):
    return exp[2] if exp[0] in ("number", "name", "element") else exp[1]


# ---------------------------------------------------------------- names, types, jumps, cells

class Table:
    """What every name of a text is; made from the places where names stand, in the order of the text."""

    def __init__(self, names):
        self.kinds, self.types, self.appearance = {}, {}, {}
        self.labels, self.bounds = {}, {}
        for spelling, place, role, detail in names:
            self.appearance.setdefault(spelling, place)
            if role in ("label", "switch", "array"):
                self.kinds.setdefault(spelling, role)
            if role == "switch":
                self.labels.setdefault(spelling, detail)
            if role == "array":
                self.bounds.setdefault(spelling, detail)
            if role in ("integer", "boolean"):
                self.types.setdefault(spelling, role)

    def kind(self, spelling):
        return self.kinds.get(spelling, "variable")

    def is_boolean(self, spelling):
        return self.types.get(spelling) == "boolean"

    def size(self, spelling):
        kind = self.kind(spelling)
        if kind == "array":
            low, high, _ = self.bounds[spelling]
            return max(0, high - low + 1)
        return 1 if kind == "variable" else 0

    def cells(self):
        """First cell of each name, and how many there are."""
        first, total = {}, 0
        for spelling in self.appearance:
            first[spelling] = total
            total += self.size(spelling)
        return first, total


def rule_7(names, table):
    defined, typed = set(), set()
    for spelling, place, role, _ in names:
        if role in ("label", "switch", "array"):
            if spelling in defined:
                yield place
            defined.add(spelling)
        if role in ("integer", "boolean"):
            if spelling in typed or table.kind(spelling) in ("label", "switch"):
                yield place
            typed.add(spelling)


def rule_8(names, table):
    right = {"target": "label", "in switch": "label", "selector": "switch", "variable": "variable", "element": "array"}
    for spelling, place, role, _ in names:
        if role in right and table.kind(spelling) != right[role]:
            yield place


def exp_offences(exp, boolean, table):
    """Places of the parts that are not of the wanted type."""
    form = exp[0]
    if form == "number":
        if boolean and exp[1] not in (0, 1):
            yield exp[2]
    elif form in ("name", "element"):
        if table.is_boolean(exp[1]) != boolean:
            yield exp[2]
        if form == "element":
            yield from exp_offences(exp[3], False, table)
    elif form == "bracket":
        yield from exp_offences(exp[2], boolean, table)
    else:
        gives = form in ("not", "and", "or", "eqv", "compare")
        wants = form in ("not", "and", "or", "eqv")
        if gives != boolean:
            yield exp[1]
        operands = exp[3:] if form in ("compare", "sign") else exp[2:]
        for operand in operands:
            yield from exp_offences(operand, wants, table)


def rule_9(statement, table):
    form = statement[0]
    if form == "label":
        yield from rule_9(statement[2], table)
    elif form == "block":
        for part in statement[1]:
            yield from rule_9(part, table)
    elif form == "if":
        yield from exp_offences(statement[2], True, table)
        yield from rule_9(statement[3], table)
    elif form == "for":
        _, _, (spelling, place), elements, body = statement
        if table.is_boolean(spelling):
            yield place
        for element in elements:
            for exp in element[1:]:
                yield from exp_offences(exp, False, table)
        yield from rule_9(body, table)
    elif form == "assign":
        target = statement[2]
        if target[0] == "element":
            yield from exp_offences(target[3], False, table)
        yield from exp_offences(statement[3], table.is_boolean(target[1]), table)
    elif form == "switch":
        yield from exp_offences(statement[3], False, table)
    elif form == "in":
        yield from exp_offences(statement[2], False, table)
    elif form == "print":
        for exp in statement[2]:
            yield from exp_offences(exp, False, table)


def label_homes(statement, fors, homes):
    """The fors around each label."""
    form = statement[0]
    if form == "label":
        homes.setdefault(statement[1], fors)
        label_homes(statement[2], fors, homes)
    elif form == "block":
        for part in statement[1]:
            label_homes(part, fors, homes)
    elif form == "if":
        label_homes(statement[3], fors, homes)
    elif form == "for":
        label_homes(statement[4], fors + (statement[1],), homes)


def is_around(outer, inner):
    return inner[:len(outer)] == outer


def rule_10(statement, fors, homes, table):
    form = statement[0]
    if form in ("go", "switch"):
        spelling, place = statement[2]
        targets = [spelling] if form == "go" else table.labels.get(spelling, [])
        if any(not is_around(homes.get(t, ()), fors) for t in targets):
            yield place
    elif form == "label":
        yield from rule_10(statement[2], fors, homes, table)
    elif form == "block":
        for part in statement[1]:
            yield from rule_10(part, fors, homes, table)
    elif form == "if":
        yield from rule_10(statement[3], fors, homes, table)
    elif form == "for":
        yield from rule_10(statement[4], fors + (statement[1],), homes, table)


def rule_11(names):
    for _, _, role, detail in names:
        if role == "array":
            low, high, bracket = detail
            if low > high or abs(low) > 9999 or abs(high) > 9999:
                yield bracket


def for_places(statement):
    form = statement[0]
    if form == "for":
        yield statement[1]
        yield from for_places(statement[4])
    elif form == "label":
        yield from for_places(statement[2])
    elif form == "if":
        yield from for_places(statement[3])
    elif form == "block":
        for part in statement[1]:
            yield from for_places(part)


def rule_12(statements, table):
    total = 0
    for spelling, place in table.appearance.items():
        total += table.size(spelling)
        if total > 2048:
            yield place
            return
    for statement in statements:
        for place in for_places(statement):
            total += 1
            if total > 2048:
                yield place
                return


def read(text):
    """The statements and the table of a text; raises Refused."""
    parser = Parser(words_of(text), len(text))
    items = parser.program()
    names, table = parser.names, Table(parser.names)
    statements = [i for i in items if i[0] not in ("comment", "declaration")]
    homes = {}
    for s in statements:
        label_homes(s, (), homes)
    rules = [
        (7, rule_7(names, table)),
        (8, rule_8(names, table)),
        (9, (p for s in statements for p in rule_9(s, table))),
        (10, (p for s in statements for p in rule_10(s, (), homes, table))),
        (11, rule_11(names)),
        (12, rule_12(statements, table)),
    ]
    for number, offences in rules:
        places = list(offences)
        if places:
            raise Refused(number, min(places))
    return statements, table
