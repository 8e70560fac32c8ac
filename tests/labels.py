"""Programs that only move words, at random, run on labels in place of words; and where the words of an item stand, by its layout
as `plan` tells it. So a search over the labels says how late a result has to be, without the compiler's own moves."""
from common import slots
from programs import pair, sequence, shaped, word

WORDS_AT_MOST = 48


def value(ty, words):
    """A value of a type by its words, an iterator: a pair as a tuple, a sequence as a list."""
    if ty.length:
        return [value(ty.of, words) for _ in range(ty.length)]
    return tuple(value(part, words) for part in ty.parts) if ty.parts else next(words)


def flat(found):
    return [word for part in found for word in flat(part)] if isinstance(found, (list, tuple)) else [found]


def nothing(found):
    """The same shape, without labels."""
    return type(found)(map(nothing, found)) if isinstance(found, (list, tuple)) else 0


def zipped(first, second):
    return [zipped(*both) for both in zip(first, second)] if isinstance(first, list) else (first, second)


class Mover:
    """Makes one program of moves. An item is its name, its type and its value on labels: the words of the parameters are numbered
    from 1, and 0 is no word."""

    def __init__(self, source):
        self.source = source
        params = [self.type() for _ in range(source.choice((1, 1, 2, 3)))]
        self.words = [(i, n) for i, ty in enumerate(params) for n in range(len(ty.widths))]
        labels = iter(range(1, len(self.words) + 1))
        self.items = [(f"p{i}", ty, value(ty, labels)) for i, ty in enumerate(params)]
        self.params = params
        lines = ["aeth 2", "fn main " + " ".join(f"{name}:{ty.spelling}" for name, ty, _ in self.items)]
        for number in range(source.choice((0, 1, 2, 3, 4, 6, 8))):
            operator, ty, made = self.node()
            if len(ty.widths) <= WORDS_AT_MOST:
                lines.append(f"n{number} = {operator}")
                self.items.append((f"n{number}", ty, made))
        last = range(max(0, len(self.items) - 3), len(self.items))
        self.results = [source.choice(last) for _ in range(source.choice((1, 1, 1, 2, 3)))]
        lines.append("end " + " ".join(self.items[item][0] for item in self.results))
        self.text = "\n".join(lines) + "\n"

    def sources(self, item):
        """Of each word of an item the parameter and the number of the word that it is, or None."""
        return [self.words[label - 1] if label else None for label in flat(self.items[item][2])]

    def type(self):
        atom = word(self.source.choice("ui"), self.source.choice((1, 3, 8, 8, 16)))
        if self.source.random() < 0.2:
            atom = pair(atom, word("u", 4))
        lengths = [self.source.choice((1, 2, 3, 4, 4, 6, 8, 12)) for _ in range(self.source.choice((0, 1, 1, 1, 1, 2, 2, 2)))]
        made = shaped(lengths, atom)
        return made if len(made.widths) <= WORDS_AT_MOST else self.type()

    def node(self):
        """An operator on some items, its type and its value."""
        name, ty, had = self.source.choice(self.items[-4:])
        forms = [form for form in dir(self) if form.startswith("by_")]
        while True:
            made = getattr(self, self.source.choice(forms))(name, ty, had)
            if made:
                return made

    def alike(self, lengths):
        """An item with these lengths at its levels."""
        return self.source.choice([item for item in self.items if item[1].lengths() == lengths])

    def by_pairs(self, name, ty, had):
        other, its, others = self.alike(ty.lengths())
        made = shaped(ty.lengths(), pair(ty.atom(), its.atom()))
        return (f"{'zip' if ty.length else 'pair'} {name} {other}", made, zipped(had, others)) if len(made.spelling) < 60 else None

    def by_parts(self, name, ty, had):
        part = self.source.randrange(2)
        return (f"{('fst', 'snd')[part]} {name}", ty.parts[part], had[part]) if ty.parts else None

    def by_shift(self, name, ty, had):
        if not ty.length:
            return None
        by = self.source.randint(0, ty.length)
        return f"shift {by} {name}", ty, [nothing(part) for part in had[:by]] + had[: ty.length - by]

    def by_up(self, name, ty, had):
        times = self.source.choice((1, 2, 3, 4, 6))
        return (f"up {times} {name}", sequence(times, ty.of), had * times) if ty.length == 1 else None

    def by_select(self, name, ty, had):
        if not ty.length:
            return None
        at = self.source.randrange(ty.length)
        return f"select {at} {name}", sequence(1, ty.of), [had[at]]

    def by_partition(self, name, ty, had):
        if not ty.length:
            return None
        size = self.source.choice([size for size in range(1, ty.length + 1) if ty.length % size == 0])
        cut = [had[at : at + size] for at in range(0, ty.length, size)]
        return f"partition {len(cut)} {size} {name}", sequence(len(cut), sequence(size, ty.of)), cut

    def by_joining(self, name, ty, had):
        if not (ty.length and ty.of.length):
            return None
        return f"unpartition {name}", sequence(ty.length * ty.of.length, ty.of.of), [part for row in had for part in row]


class Layout:
    """Where the words of an item stand."""

    def __init__(self, spelling):
        self.places, _, self.lanes, self.words = slots(spelling)
        self.columns = self.lanes * self.words

    def clock(self, number):
        return self.places[number // self.words][0]

    def column(self, number):
        return self.places[number // self.words][1] * self.words + number % self.words


def lead(sources, out, ins):
    """By how many clocks some word comes later than it is due, at most."""
    return max([0, *(ins[found[0]].clock(found[1]) - out.clock(number) for number, found in enumerate(sources) if found)])
