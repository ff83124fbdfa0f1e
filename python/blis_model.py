"""Models in fixed MPS, read and judged in exact numbers.

`Model.read(text)` takes the profile that `docs/formats.md` states, without its checks: what it
accepts may be refused by the program, which names the fault. Numbers are fractions, so a verdict on
a point is exact.
"""
from fractions import Fraction


class Row:
    """A row: its least and greatest sum (None where there is none) and its terms by column."""

    def __init__(self, kind):
        self.kind, self.right, self.range, self.terms = kind, Fraction(0), None, {}

    def ends(self):
        """The least and the greatest sum that the row allows."""
        right, size = self.right, self.range
        if size is None:
            return {"L": (None, right), "G": (right, None), "E": (right, right)}[self.kind]
        if self.kind == "L":
            return right - abs(size), right
        if self.kind == "G" or size >= 0:
            return right, right + abs(size)
        return right - abs(size), right


class Model:
    """An integer program: `columns` maps names to [low, high], `rows` names to rows."""

    def __init__(self):
        self.columns, self.rows, self.costs = {}, {}, {}
        self.offset, self.objective, self.is_max = Fraction(0), None, False
        self.passed_over = set()
        self.numbers = {"RHS": [], "RANGES": []}

    @classmethod
    def read(cls, text):
        """The model that the text gives; ValueError where the text is none."""
        model, section, is_whole, cards, whole = cls(), None, False, {}, set()
        for number, line in enumerate(text.split("\n"), 1):
            words = line.split()
            if not words or line.startswith("*"):
                continue
            if not line[0].isspace():
                section = words[0]
                if section == "OBJSENSE" and len(words) > 1:
                    model.is_max = words[1] in ("MAX", "MAXIMIZE")
                if section == "ENDATA":
                    break
                continue
            try:
                if section == "OBJSENSE":
                    model.is_max = words[0] in ("MAX", "MAXIMIZE")
                elif section == "ROWS":
                    model._row(*words)
                elif section == "COLUMNS" and words[1] == "'MARKER'":
                    is_whole = words[2] == "'INTORG'"
                elif section == "COLUMNS":
                    model._column(words)
                    if is_whole:
                        whole.add(words[0])
                elif section in ("RHS", "RANGES"):
                    model.numbers[section].append(words)
                elif section == "BOUNDS":
                    model._card(words, cards)
            except (KeyError, IndexError, ValueError, TypeError) as cause:
                raise ValueError(f"line {number} is not understood: {line.strip()}") from cause
        if model.objective is None:
            raise ValueError("there is no objective")
        model._finish(cards, whole)
        return model

    def _row(self, kind, name):
        if kind != "N":
            self.rows[name] = Row(kind)
        elif self.objective is None:
            self.objective = name
        else:
            self.passed_over.add(name)

    def _column(self, words):
        self.columns.setdefault(words[0], None)
        for row, number in zip(words[1::2], words[2::2]):
            if row == self.objective:
                self.costs[words[0]] = Fraction(number)
            elif row not in self.passed_over and Fraction(number):
                self.rows[row].terms[words[0]] = Fraction(number)

    def _card(self, words, cards):
        kind, rest = words[0], words[1:]
        has_number = kind in ("UP", "LO", "FX", "UI", "LI")
        if has_number:
            name, number = rest[-2], Fraction(rest[-1])
        else:
            name, number = rest[0] if len(rest) == 1 else rest[1], None
        cards.setdefault(name, []).append((kind, number))

    def _finish(self, cards, whole):
        for section, lines in self.numbers.items():
            first = None
            for words in lines:
                name = words[0] if len(words) % 2 else None
                first = first if first is not None else name
                if name is not None and name != first:
                    continue
                pairs = words[len(words) % 2 :]
                for row, number in zip(pairs[::2], pairs[1::2]):
                    self._given(section, row, Fraction(number))
        for name in self.columns:
            low, high = Fraction(0), None if name in cards else Fraction(1)
            kinds = {kind for kind, _ in cards.get(name, [])}
            if name not in whole and not kinds & {"BV", "LI", "UI"}:
                raise ValueError(f"column {name} is not whole")
            has_low = False
            for kind, number in cards.get(name, []):
                if kind in ("UP", "UI"):
                    high = number
                    low = None if number < 0 and not has_low else low
                elif kind in ("LO", "LI"):
                    low, has_low = number, True
                elif kind == "FX":
                    low, high, has_low = number, number, True
                elif kind == "FR":
                    low, high, has_low = None, None, True
                elif kind == "MI":
                    low, has_low = None, True
                elif kind == "PL":
                    high = None
                elif kind == "BV":
                    low, high, has_low = Fraction(0), Fraction(1), True
            self.columns[name] = [low, high]

    def _given(self, section, row, number):
        if row == self.objective:
            if section == "RHS":
                self.offset = -number
        elif row not in self.passed_over:
            if section == "RHS":
                self.rows[row].right = number
            else:
                self.rows[row].range = number

    def value(self, point):
        """The objective's value at the point."""
        return self.offset + sum(cost * point.get(name, 0) for name, cost in self.costs.items())

    def broken(self, point):
        """What the point breaks, in words; None where it is feasible."""
        for name, (low, high) in self.columns.items():
            entry = Fraction(point.get(name, 0))
            if entry.denominator != 1:
                return f"{name} = {float(entry)} is not whole"
            if low is not None and entry < low or high is not None and high < entry:
                return f"{name} = {entry} is outside its bounds"
        for name, row in self.rows.items():
            total = sum(number * point.get(column, 0) for column, number in row.terms.items())
            low, high = row.ends()
            if low is not None and total < low or high is not None and high < total:
                return f"row {name} sums to {shown(total)}"
        return None


def shown(number):
    """The number as a decimal, or as a fraction where it has none."""
    number, places = Fraction(number), 0
    while (number * 10**places).denominator != 1:
        places += 1
        if places > 30:
            return str(number)
    digits = str(abs(int(number * 10**places))).rjust(places + 1, "0")
    text = digits if places == 0 else f"{digits[:-places]}.{digits[-places:]}"
    return f"-{text}" if number < 0 else text
