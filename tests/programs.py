"""Random programs of the language, by a random source: both versions, all operators, pairs, nested sequences, functions that
are called and mapped, and several results. Every program has a type at each line."""

FOLDS = ("add", "mul", "and", "or", "xor", "min", "max")
ALIKE = FOLDS + ("sub",)
WORDS_AT_MOST = 48


class Type:
    """A word kind with its width, a pair of atoms, or a sequence, by its spelling."""

    def __init__(self, spelling, widths, length=None, of=None, parts=None):
        self.spelling, self.widths, self.length, self.of, self.parts = spelling, widths, length, of, parts

    def __eq__(self, other):
        return self.spelling == other.spelling

    def is_word(self):
        return not self.length and not self.parts

    def lengths(self):
        return [self.length, *self.of.lengths()] if self.length else []

    def atom(self):
        return self.of.atom() if self.length else self


def word(kind, width):
    return Type(f"{kind}{width}", [width])


def pair(first, second):
    return Type(f"({first.spelling},{second.spelling})", first.widths + second.widths, parts=(first, second))


def sequence(length, of):
    return Type(f"[{length}]{of.spelling}", of.widths * length, length, of)


def shaped(lengths, atom):
    for length in reversed(lengths):
        atom = sequence(length, atom)
    return atom


class Maker:
    """Makes one program. Functions stand in the order in which they were finished."""

    def __init__(self, random):
        self.random = random
        self.version = random.choice((1, 2, 2))
        self.functions = []  # name, types of parameters, type of the result
        self.lines = ["aeth 2"] if self.version == 2 else []
        self.count = 0

    def name(self):
        self.count += 1
        return self.random.choice("abxyzXY_") + str(self.count)

    def word(self):
        kind = self.random.choice("ui") if self.version == 2 else "u"
        return word(kind, self.random.choice((1, 2, 3, 4, 7, 8, 8, 8, 16, 31, 32, 33, 63, 64)))

    def atom(self, depth=0):
        if depth < 2 and self.random.random() < 0.25:
            return pair(self.atom(depth + 1), self.atom(depth + 1))
        return self.word()

    def sequence(self):
        lengths = [self.random.choice((1, 2, 3, 4, 4, 5, 6, 8, 12)) for _ in range(self.random.choice((1, 1, 1, 2, 2, 3)))]
        made = shaped(lengths, self.atom())
        return made if len(made.widths) <= WORDS_AT_MOST else self.sequence()

    def value(self, widths):
        chosen = []
        for width in widths:
            top = 2**width - 1
            chosen.append(self.random.choice((0, 1, top, top // 2, top // 2 + 1, self.random.randint(0, top))) % (top + 1))
        return " ".join(map(str, chosen))

    def function(self, params, depth):
        """The number of a new function on parameters of these types."""
        name = f"f{self.name()}"
        body, items = [], [(self.name(), ty) for ty in params]
        head = f"fn {name} " + " ".join(f"{item}:{ty.spelling}" for item, ty in items)
        for _ in range(self.random.randint(1, 5)):
            self.node(body, items, depth)
        result = items[-1] if self.random.random() < 0.8 else self.random.choice(items)
        self.lines += [head, *body, f"end {result[0]}"]
        self.functions.append((name, params, result[1]))
        return self.functions[-1]

    def for_types(self, params, depth):
        """A function on parameters of these types, if there may be a new one."""
        known = [function for function in self.functions if function[1] == params]
        if known and (depth > 2 or self.random.random() < 0.5):
            return self.random.choice(known)
        return self.function(params, depth + 1) if depth <= 2 else None

    def other(self, body, items, fits, made):
        """An item for which `fits` holds, or else a constant of type `made`."""
        fitting = [item for item in items if fits(item[1])]
        if fitting and self.random.random() < 0.9:
            return self.random.choice(fitting)
        return self.add(body, items, f"const {made.spelling} {self.value(made.widths)}", made)

    def add(self, body, items, operator, ty):
        item = (self.name(), ty)
        body.append(f"{item[0]} = {operator}")
        items.append(item)
        return item

    def node(self, body, items, depth):
        """Adds a node on one of the items, by its type; now and then a constant before it."""
        name, ty = self.random.choice(items[-3:] if self.random.random() < 0.7 else items)
        while True:
            form = self.random.choice(self.forms(ty))
            made = getattr(self, f"made_{form}")(body, items, name, ty, depth)
            if made and len(made[1].widths) <= WORDS_AT_MOST:
                self.add(body, items, *made)
                return

    def forms(self, ty):
        forms = ["call", "constant"]
        if not ty.length:
            forms += ["pair"]
        if ty.parts:
            forms += ["part"] * 4
        if ty.is_word():
            forms += ["alike"] * 4 + ["compared"] * 2 + ["chosen"] * 2 + ["turned", "shifted", "cast", "cast"]
        if ty.length:
            forms += ["map"] * 4 + ["map2"] * 3 + ["zip"] * 2 + ["shift", "select", "fold", "partition"] * 2
            forms += ["scan"] * 2 * (self.version == 2) + ["up"] * 4 * (ty.length == 1)
            forms += ["unpartition"] * 4 * bool(ty.of.length)
        return forms

    def made_constant(self, body, items, name, ty, depth):
        made = self.random.choice((ty, self.word(), self.sequence()))
        return f"const {made.spelling} {self.value(made.widths)}", made

    def made_alike(self, body, items, name, ty, depth):
        other = self.other(body, items, lambda known: known == ty, ty)[0]
        return f"{self.random.choice(ALIKE)} {name} {other}", ty

    def made_compared(self, body, items, name, ty, depth):
        other = self.other(body, items, lambda known: known == ty, ty)[0]
        return f"{self.random.choice(('lt', 'eq'))} {name} {other}", word("u", 1)

    def made_chosen(self, body, items, name, ty, depth):
        condition = self.other(body, items, lambda known: known.spelling == "u1", word("u", 1))[0]
        other = self.other(body, items, lambda known: known == ty, ty)[0]
        return f"mux {condition} {name} {other}", ty

    def made_turned(self, body, items, name, ty, depth):
        return f"not {name}", ty

    def made_shifted(self, body, items, name, ty, depth):
        by = self.random.randint(0, min(63, ty.widths[0] + 2))
        return f"{self.random.choice(('shl', 'shr'))} {by} {name}", ty

    def made_cast(self, body, items, name, ty, depth):
        made = self.word()
        return f"cast {made.spelling} {name}", made

    def made_pair(self, body, items, name, ty, depth):
        other = self.other(body, items, lambda known: not known.length, self.word())
        made = pair(ty, other[1])
        return (f"pair {name} {other[0]}", made) if len(made.widths) <= 4 else None

    def made_part(self, body, items, name, ty, depth):
        at = self.random.choice((0, 1))
        return f"{('fst', 'snd')[at]} {name}", ty.parts[at]

    def made_zip(self, body, items, name, ty, depth):
        made = shaped(ty.lengths(), self.word())
        other = self.other(body, items, lambda known: known.length and known.lengths() == ty.lengths(), made)
        joined = pair(ty.atom(), other[1].atom())
        return (f"zip {name} {other[0]}", shaped(ty.lengths(), joined)) if len(joined.widths) <= 4 else None

    def made_call(self, body, items, name, ty, depth):
        others = [self.random.choice(items) for _ in range(self.random.choice((0, 0, 1, 1, 2, 7)))]
        function = self.for_types([ty] + [known for _, known in others], depth)
        return function and (f"call {function[0]} " + " ".join([name] + [other for other, _ in others]), function[2])

    def made_map(self, body, items, name, ty, depth):
        function = self.for_types([ty.of], depth)
        return function and (f"map {function[0]} {name}", sequence(ty.length, function[2]))

    def made_map2(self, body, items, name, ty, depth):
        other = self.other(body, items, lambda known: known.length == ty.length, ty)
        function = self.for_types([ty.of, other[1].of], depth)
        return function and (f"map2 {function[0]} {name} {other[0]}", sequence(ty.length, function[2]))

    def made_fold(self, body, items, name, ty, depth):
        return f"reduce {self.random.choice(FOLDS)} {name}", sequence(1, ty.of)

    def made_scan(self, body, items, name, ty, depth):
        return f"scan {self.random.choice(FOLDS)} {name}", ty

    def made_shift(self, body, items, name, ty, depth):
        return f"shift {self.random.randint(0, ty.length)} {name}", ty

    def made_select(self, body, items, name, ty, depth):
        return f"select {self.random.randint(0, ty.length - 1)} {name}", sequence(1, ty.of)

    def made_up(self, body, items, name, ty, depth):
        count = self.random.randint(1, 8)
        return f"up {count} {name}", sequence(count, ty.of)

    def made_partition(self, body, items, name, ty, depth):
        size = self.random.choice([size for size in range(1, ty.length + 1) if ty.length % size == 0])
        if len(ty.lengths()) == 6:
            return None
        made = sequence(ty.length // size, sequence(size, ty.of))
        return f"partition {made.length} {size} {name}", made

    def made_unpartition(self, body, items, name, ty, depth):
        return f"unpartition {name}", sequence(ty.length * ty.of.length, ty.of.of)

    def program(self, rows):
        """The text of a program with so many rows, and the types of its parameters."""
        count = self.random.choice((1, 1, 2, 2, 3))
        params = [self.random.choice((self.sequence, self.sequence, self.atom))() for _ in range(count)]
        body, items = [], [(self.name(), ty) for ty in params]
        head = "fn main " + " ".join(f"{item}:{ty.spelling}" for item, ty in items)
        for _ in range(self.random.randint(1, 8)):
            self.node(body, items, 0)
        ends = [items[-1]]
        if self.version == 2:
            ends += [self.random.choice(items) for _ in range(self.random.choice((0, 0, 1, 2, 7)))]
        widths = [width for ty in params for width in ty.widths]
        shown = [self.value(widths) for _ in range(rows)]
        self.lines += [head, *body, "end " + " ".join(item for item, _ in ends), "%%", *shown]
        return "\n".join(self.lines) + "\n", [[int(part) for part in row.split()] for row in shown], params
