"""What tools/table does with the columns of a file: what their values are, and what they become.

A column is looked at a batch of rows at a time. The values of a batch become shapes, in which each digit is a 0: so numbers
are told by their few shapes, and only what is no plain number is looked at by itself, once for each value.
"""
import collections
import datetime
import itertools
import operator
import re

MOST_CHARACTERS = 65_535
GREATEST_INTEGER, MOST_DECIMALS, SAFE_DIGITS = 2**63 - 1, 18, 18
MISSING = frozenset(("na", "n/a", "nan", "null", "none"))
KEY_WORDS = frozenset(("ID", "KEY", "CODE"))
VERSION_WORDS = frozenset(("VERSION", "VERSIONS", "RELEASE"))
SOME_VALUES = 100_000

Place = collections.namedtuple("Place", "line, text")
Number = collections.namedtuple("Number", "digits, decimals, written, mark, is_open, is_padded, exponent")
Days = collections.namedtuple("Days", "mark, day_first, month_first")


class Fault(Exception):
    """Why a file can't be made, with its path, and the line where it shows."""

    def __init__(self, what, line=None):
        super().__init__(what)
        self.line, self.path = line, None

    def __str__(self):
        said = f"line {self.line} {self.args[0]}" if self.line else self.args[0]
        return f"{self.path}: {said}" if self.path else said


def changed():
    return Fault("has changed since it was first read")


def shown(text):
    """A text as a comment shows it: in quotes, in one line, and not too long."""
    return repr(text if len(text) <= 40 else text[:37] + "...")


def words_of(header):
    """The words of a header, in upper case."""
    return [it.upper() for it in re.findall("[A-Z]+(?![a-z])|[A-Z]?[a-z]+|[0-9]+", header)]


# ---- numbers

GROUPS = "([+-]?[1-9][0-9]{0,2}(?:%s[0-9]{3})+)([.,][0-9]*)?"
GROUPED = re.compile("[+-]?[1-9][0-9]{0,2}([.,' _\u00a0\u2009\u202f])[0-9]{3}(?:\\1[0-9]{3})*([.,][0-9]*)?")
WHOLE = re.compile("-?[1-9][0-9]{0,17}|0")
NUMBER = re.compile("([+-]?)([0-9]{0,60})(?:([.,])([0-9]{0,60}))?(?:[eE]([+-]?[0-9]{1,3}))?")
MOST_POWER = 40


class Notation:
    """How numbers are written, as far as the arguments say it, and to how many decimals they are rounded."""

    def __init__(self, decimal, thousands, rounded):
        self.decimal, self.thousands, self.rounded = decimal, thousands, rounded
        self.groups = re.compile(GROUPS % re.escape(thousands)) if thousands else None

    def number_of(self, text):
        """The number that a text is, or None. An exponent needs its sign, or decimals before it: 12E5 may be a code."""
        if self.thousands and self.thousands in text:
            text = text.replace(self.thousands, "") if self.groups.fullmatch(text) else ""
        found = NUMBER.fullmatch(text)
        if not found:
            return None
        sign, whole, mark, part, exponent = found.groups("")
        if not (whole or part) or mark and self.decimal and mark != self.decimal:
            return None
        if exponent.isdigit() and not mark:
            return None
        needed, power = part.rstrip("0"), int(exponent or 0)
        digits, decimals = int(sign + (whole + needed or "0")), len(needed) - power
        if decimals < 0 or not digits:
            digits, decimals = digits * 10 ** min(max(-decimals, 0), MOST_POWER), 0
        is_padded = len(whole) > 1 and whole[0] == "0"
        written = max(len(part) - power, 0)
        return Number(digits, decimals, written, mark, self.is_open(whole, part, exponent), is_padded, exponent)

    def is_open(self, whole, part, exponent):
        """Whether the sign in a number may be that of decimals or of thousands, as in 1,234."""
        if len(part) != 3 or len(whole) > 3 or exponent or self.decimal or self.thousands:
            return False
        return whole[:1] not in ("", "0")

    def changes_of(self, text, value):
        """In what a number is written otherwise than its value."""
        if self.thousands and self.thousands in text:
            yield "without separators of thousands"
        if "," in text and self.thousands != ",":
            yield "with a decimal comma"
        if "e" in text or "E" in text:
            yield "with an exponent"
        if text[0] == "+":
            yield "without the plus sign"
        if text[0] == "-" and value == "0":
            yield "without the minus sign of 0"


def scaled_size(size, decimals, scale):
    """A number's digits when it has `scale` decimals in place of `decimals`."""
    return size * 10 ** (scale - decimals) if scale >= decimals else divided(size, decimals - scale)


class Numbers:
    """What the numbers of a column have in common."""

    def __init__(self):
        self.greatest = {}  # by their decimals that aren't 0: the greatest of those that were looked at by themselves
        self.lengths = {}  # by their decimals: of those known by their shape the most digits before them
        self.written, self.has_part = 0, False
        self.padded, self.exponent = None, None
        self.open, self.plain = {}, {}
        self.parts = {}  # by how many decimals are written: the first such number with a point
        self.trailing = {}  # of these the first whose last of two decimals or more is 0
        self.is_whole = True

    def take(self, number, line, text):
        """Takes note of a number by itself."""
        place = Place(line, text)
        self.written = max(self.written, number.written)
        size, kept = abs(number.digits), self.greatest.get(number.decimals)
        if kept is None or size > kept[0]:
            self.greatest[number.decimals] = (size, place)
        self.has_part = self.has_part or number.decimals > 0
        if number.is_padded and not self.padded:
            self.padded = place
        if number.exponent and not self.exponent:
            self.exponent = place
        if number.decimals or str(number.digits) != text:
            self.is_whole = False
        if number.mark:
            (self.open if number.is_open else self.plain).setdefault(number.mark, place)
        if number.mark == "." and not number.exponent:
            self.take_part(text.partition(".")[2], place)

    def take_part(self, part, place):
        self.parts.setdefault(len(part), place)
        if len(part) > 1 and part[-1] == "0":
            self.trailing.setdefault(len(part), place)

    def take_shape(self, shape, is_open, place):
        """Takes note of a shape of numbers, of which this is the first."""
        kept = self.lengths.get(len(shape.part))
        if kept is None or len(shape.whole) > kept[0]:
            self.lengths[len(shape.part)] = (len(shape.whole), place)
        self.written = max(self.written, len(shape.part))
        if shape.mark:
            self.is_whole = False
            (self.open if is_open else self.plain).setdefault(shape.mark, place)
        if shape.mark == ".":
            self.parts.setdefault(len(shape.part), place)

    def needed(self):
        """How many decimals it takes to lose none."""
        return max(*self.greatest, *(it for it in self.lengths if self.has_part), 0, 0)

    def past(self, decimals):
        """A number that is no INTEGER when so many decimals are multiplied away, or None."""
        found = [place for it, (size, place) in self.greatest.items() if scaled_size(size, it, decimals) > GREATEST_INTEGER]
        found += [place for length, place in self.lengths.values() if length + decimals > SAFE_DIGITS + 1]
        return min(found, default=None)

    def is_unsure(self, scale):
        """Whether it takes each number by itself to know whether all are INTEGER with this scale."""
        digits = max((length for length, _ in self.lengths.values()), default=0)
        return bool(self.lengths) and (digits + scale == SAFE_DIGITS + 1 or self.written > MOST_DECIMALS)

    def scale(self, rounded=None):
        """How many decimals are multiplied away: as many as are written, or as are needed where those are too many."""
        needed = self.needed()
        scale = needed if needed == 0 or self.written > MOST_DECIMALS or self.past(self.written) else self.written
        return scale if rounded is None else min(scale, rounded)

    def versions(self):
        """Two numbers that show that all may be versions, as 3.9 and 3.10: one ends with a 0, one has fewer decimals."""
        found = ((place, self.parts[fewer]) for count, place in self.trailing.items() for fewer in self.parts
                 if 0 < fewer < count <= 3)
        return next(found, None)

    def doubtful(self, separator):
        """The first number whose sign may be that of decimals or of thousands, or None. Where no semicolons separate
        fields, a point is that of decimals."""
        used = {*self.open, *self.plain}
        if len(used) == 1 and (self.plain or used == {"."} and separator != ";"):
            return None
        return min(self.open.values(), default=None)

    def objection(self, header, separator, notation):
        """Why the column can't be INTEGER, or None."""
        if self.padded:
            return f"line {self.padded.line} has {shown(self.padded.text)}, with leading zeros"
        if not notation.decimal and notation.rounded is None:
            found = self.versions()
            if found:
                first, second = (f"line {it.line} {word}{shown(it.text)}" for it, word in zip(found, ("has ", "")))
                return f"{first} and {second}, which may be versions: --decimal . makes them numbers"
            if self.parts and VERSION_WORDS & set(words_of(header)):
                return "the header says that they are versions: --decimal . makes them numbers"
        place = self.doubtful(separator)
        if place:
            digits = place.text.lstrip("+-")
            meant = f"{digits.replace(',', '.')} or {re.sub('[.,]', '', digits)}"
            return f"line {place.line} has {shown(place.text)}, which may be {meant}: --decimal or --thousands says which"
        return self.excess(notation.rounded)

    def excess(self, rounded, scale=None):
        """Why the numbers don't fit an INTEGER, or None."""
        if self.exponent and rounded is None:
            return f"line {self.exponent.line} has {shown(self.exponent.text)}, with an exponent{ROUND}"
        scale = max(self.scale(rounded), scale or 0)
        hint = ROUND if scale and rounded is None else UNROUNDED
        if scale > MOST_DECIMALS:
            place = max((it for it in (*self.greatest.items(), *self.lengths.items())), key=lambda it: it[0])[1][1]
            return f"line {place.line} has {shown(place.text)}, with more than {MOST_DECIMALS} decimals{hint}"
        place = self.past(scale)
        if place:
            times = f" times {power_word(scale)}" if scale else ""
            return f"line {place.line} has {shown(place.text)}, which{times} is past the greatest INTEGER{hint}"
        return None


UNROUNDED = ". Texts compare as texts, so '10' is less than '9'"
ROUND = ": --round N makes numbers with N decimals of them" + UNROUNDED


def power_word(scale):
    """A power of ten as it can be read, also as a part of a name."""
    return str(10**scale) if scale <= 6 else f"1E{scale}"


def divided(size, power):
    """A size divided by a power of ten, the half rounded away from 0."""
    whole, rest = divmod(abs(size), 10**power)
    whole += 2 * rest >= 10**power
    return -whole if size < 0 else whole


class Integers:
    """A column whose values are numbers."""

    def __init__(self, numbers, notation, scale=None):
        self.notation = notation
        self.scale = numbers.scale(notation.rounded) if scale is None else scale
        self.type = "INTEGER"
        self.suffix = f"_X{power_word(self.scale)}" if self.scale else ""
        self.said = None
        self.is_same = not self.scale and numbers.is_whole
        self.plain = {}  # the shapes of plain numbers among them

    def made(self, text):
        """The value, and what was changed."""
        if text.lower() in MISSING:
            return "", (f"{shown(text)} made NULL",)
        if not self.scale and WHOLE.fullmatch(text):
            return text, ()
        number = self.notation.number_of(text)
        if not number or number.decimals > self.scale and self.notation.rounded is None:
            raise changed()
        is_rounded = number.decimals > self.scale
        size = scaled_size(number.digits, number.decimals, self.scale)
        if abs(size) > GREATEST_INTEGER:
            raise changed()
        value = str(size)
        if value == text:
            return value, ()
        rounding = (self.rounding(),) if is_rounded else ()
        return value, (*self.scaled(number), *rounding, *self.notation.changes_of(text, value))

    def scaled(self, number):
        if self.scale:
            yield f"multiplied by {power_word(self.scale)}"
        elif number.mark and not number.decimals:
            yield "without decimals of 0"

    def made_together(self, joined, counts):
        """The values of a batch, joined by line ends, where all are plain numbers that were seen before, else None. The
        changes are counted."""
        shapes = {*joined.translate(SHAPE).split("\n")} - {""}
        if not self.scale or not shapes or not shapes <= self.plain.keys() or joined.startswith("-0") or "\n-0" in joined:
            return None
        parts, scale = {len(self.plain[it].part) for it in shapes}, self.scale
        commas = joined.count(",")
        joined = joined.replace(",", ".")
        fields = joined.split("\n")
        counts[f"multiplied by {power_word(scale)}"] += len(fields) - fields.count("") - fields.count("0")
        if max(parts) > scale:
            made = [rounded_text(it, scale) if it else "" for it in fields]
            counts[self.rounding()] += sum(1 for it in fields if it.partition(".")[2][scale:].strip("0"))
        elif parts == {scale} and "" not in fields:
            made = [*map(str, map(int, joined.replace(".", "").split("\n")))]
        else:
            made = [
                str(int(whole + part.ljust(scale, "0"))) if whole else ""
                for whole, _, part in map(operator.methodcaller("partition", "."), fields)
            ]
        if commas:
            counts["with a decimal comma"] += commas
        return made

    def rounding(self):
        return f"rounded to {self.scale} decimal{'s' * (self.scale != 1)}"


def rounded_text(text, scale):
    """A plain number times a power of ten, rounded."""
    whole, _, part = text.partition(".")
    return str(divided(int(whole + part[: scale + 1].ljust(scale + 1, "0")), 1))


# ---- dates

MONTHS = {it[:3]: (number, it) for number, it in enumerate(
    "january february march april may june july august september october november december".split(), 1)}
YEAR_FIRST = re.compile("([0-9]{4})([-/.])([0-9]{1,2})\\2([0-9]{1,2})")
ISO = re.compile("[0-9]{4}-[0-9]{2}-[0-9]{2}")
YEAR_LAST = re.compile("([0-9]{1,2})([-/.])([0-9]{1,2})\\2([0-9]{4})")
SHORT_YEAR = re.compile("[0-9]{1,2}([-/.])[0-9]{1,2}\\1[0-9]{2}")
MONTH_SECOND = re.compile("([0-9]{1,2})[ -]([A-Za-z]{3,9})[ -]([0-9]{4})")
MONTH_FIRST = re.compile("([A-Za-z]{3,9}) ([0-9]{1,2}),? ([0-9]{4})")


def day_of(year, month, day):
    if not 1 <= int(month) <= 12:
        return None
    try:
        return datetime.date(int(year), int(month), int(day))
    except ValueError:
        return None


def month_of(word):
    """The number of an English month, written out or as its first three letters; 0 for other words."""
    number, whole = MONTHS.get(word[:3].lower(), (0, ""))
    return number if word.lower() in (whole, whole[:3]) else 0


def days_of(text):
    """The day that a text is, with the day first and with the month first, or None where it is no date."""
    found = YEAR_LAST.fullmatch(text)
    if found:
        one, mark, other, year = found.groups()
        days = Days(mark, day_of(year, other, one), day_of(year, one, other))
        return days if days.day_first or days.month_first else None
    for form, order in ((YEAR_FIRST, (1, 3, 4)), (MONTH_SECOND, (3, 2, 1)), (MONTH_FIRST, (3, 1, 2))):
        found = form.fullmatch(text)
        if found:
            year, month, day = (found[it] for it in order)
            day = day_of(year, month if month.isdigit() else month_of(month), day)
            return Days(None, day, day) if day else None
    return None


class Dates:
    """What the dates of a column show: for each sign in them, whether the day comes first or the month."""

    def __init__(self):
        self.day_first, self.month_first, self.open = {}, {}, {}
        self.is_same = True

    def take(self, days, place):
        if not ISO.fullmatch(place.text):
            self.is_same = False
        if days.day_first == days.month_first:
            return
        if days.day_first and days.month_first:
            self.open.setdefault(days.mark, place)
        else:
            (self.day_first if days.day_first else self.month_first).setdefault(days.mark, place)

    def objection(self):
        """Why the column can't be dates, or None."""
        for mark in sorted(self.day_first.keys() & self.month_first.keys()):
            one, other = self.day_first[mark], self.month_first[mark]
            return f"line {one.line} has {shown(one.text)}, and line {other.line} {shown(other.text)}"
        for mark, place in self.open.items():
            if mark not in self.day_first and mark not in self.month_first:
                return f"line {place.line} has {shown(place.text)}, and no line shows which is the day"
        return None

    def said(self):
        """By which values the order is known."""
        known = [("day", it) for it in self.day_first.values()] + [("month", it) for it in self.month_first.values()]
        return "; ".join(f"the {word} comes first, as line {it.line} shows: {shown(it.text)}" for word, it in known)


class DateTexts:
    """A column whose values are dates."""

    def __init__(self, dates):
        self.dates, self.said, self.is_same = dates, dates.said(), dates.is_same
        self.type, self.suffix = "VARCHAR(10)", ""

    def made(self, text):
        """The value, and what was changed."""
        if text.lower() in MISSING:
            return "", (f"{shown(text)} made NULL",)
        days = days_of(text)
        day = days and (days.month_first if days.mark in self.dates.month_first else days.day_first)
        if not day:
            raise changed()
        return day.isoformat(), () if day.isoformat() == text else ("written as YYYY-MM-DD",)


# ---- columns

NUMBER_FIT, GROUPED_FIT, DATE_FIT, SHORT_FIT, MISSING_FIT, OTHER_FIT = range(6)
HINTS = {
    GROUPED_FIT: ": --thousands says which sign is that of thousands",
    SHORT_FIT: ", and no line shows the century",
}
MOST_KNOWN, MOST_OF_KNOWN = 10_000, 40
STARTS = frozenset("0123456789+-.,")
MOST_OF_DATE = len("September 30, 2025")
BLANKS = " \t\r\x0b\x0c\x1c\x1d\x1e\x1f"
SHAPE = {ord(it): "0" for it in "123456789"}
PLAIN = re.compile("-?(0{1,18})(?:([.,])(0{1,60}))?")
PART = re.compile("[.,]0*[1-9]")
PADDED = re.compile("(?:^|\n)-?0[0-9]")
MINUS_ZERO = re.compile("(?:^|\n)-0(?:\n|$)")
TRAILING = re.compile("\\.[0-9]*[0-9]0(?=\n|$)")
# Of a column of other values it is enough to know so many, where they are three of four.
MANY_OTHERS = 1_000

Shape = collections.namedtuple("Shape", "whole, mark, part")


def may_have_blanks(text):
    return not text.isascii() or any(it in text for it in BLANKS)


class Texts:
    """A column of other values."""

    is_same = True

    def __init__(self, longest, why):
        self.longest = longest
        self.type, self.suffix = f"VARCHAR({max(longest, 1)})", ""
        self.said = why

    def made(self, text):
        """The value, and what was changed."""
        if len(text) > self.longest:
            raise changed()
        return text, ()


class Batch:
    """Rows that were read together: their fields, column by column, and the lines that they begin in."""

    def __init__(self, columns, first, numbers):
        """`numbers` gives the number of each row's line, or is None where the first stands in `first` and one in each line."""
        self.columns, self.first, self.numbers, self.lines = columns, first, numbers, None

    def line(self, at):
        if not self.numbers:
            return self.first + at
        self.lines = self.lines or self.numbers()
        return self.lines[at]


class Made(dict):
    """What fields become, and how each is changed, as far as it is known."""

    def __init__(self, column):
        super().__init__()
        self.column, self.changes = column, {}

    def __missing__(self, field):
        value, changes = self.column.made(field)
        if changes:
            self.changes[field] = changes
        self[field] = value
        return value


class Column:
    """A column: what its values are, and then what they become."""

    def __init__(self, at, header, name, given):
        self.at, self.header, self.name = at, header, name
        self.notation, self.null = given.notation, frozenset(given.null)
        self.stays, self.follows = name in given.texts, given.indexes
        self.is_exact = False
        self.begin()

    def begin(self):
        """Before the file is read: nothing is known."""
        self.numbers, self.dates = Numbers(), Dates()
        self.fits, self.first, self.known = [0] * 6, {}, {}
        self.plain, self.odd = {}, set()
        self.is_text, self.is_trimmed, self.nulls = False, False, 0
        self.longest, self.bytes, self.values, self.empty = 0, 0, 0, 0
        self.kind, self.made_values, self.changes = None, None, collections.Counter()
        self.hashes, self.some = (set() if self.follows else None), set()
        self.header_again = None

    # -- the first time

    def look(self, batch):
        """Takes note of the fields of a batch."""
        values = batch.columns[self.at]
        joined = "\n".join(values)
        has_breaks = joined.count("\n") >= len(values)
        if has_breaks or may_have_blanks(joined):
            stripped = tuple(map(str.strip, values))
            if stripped != values:
                self.is_trimmed, values, joined = True, stripped, "\n".join(stripped)
        if self.null:
            kept = tuple("" if it in self.null else it for it in values)
            if kept != values:
                self.nulls, values, joined = self.nulls + 1, kept, "\n".join(kept)
        empty = values.count("")
        self.empty += empty
        self.values += len(values) - empty
        self.bytes += (len(joined) if joined.isascii() else len(joined.encode(errors="surrogatepass"))) - len(values) + 1
        if self.header_again is None and self.header and self.header in values:
            self.header_again = Place(batch.line(values.index(self.header)), self.header)
        if self.follows:
            self.follow(values, empty)
        if self.is_text or has_breaks:
            self.measure(values, batch)
        if not self.is_text:
            self.fit_together(values, joined, batch, has_breaks)

    def measure(self, values, batch):
        longest = max(map(len, values))
        if longest > self.longest:
            self.take_length(longest, values, batch)

    def take_length(self, longest, values, batch):
        if longest > MOST_CHARACTERS:
            at = next(at for at, it in enumerate(values) if len(it) > MOST_CHARACTERS)
            raise Fault(f"has a text of {len(values[at])} characters, and a column {MOST_CHARACTERS} at most", batch.line(at))
        self.longest = longest

    def fit_together(self, values, joined, batch, has_breaks):
        """Takes note of what the values are."""
        shapes = [it.translate(SHAPE) for it in values] if has_breaks else joined.translate(SHAPE).split("\n")
        different = {*shapes} - {""}
        longest = max(map(len, different), default=0)
        if longest > self.longest:
            self.take_length(longest, values, batch)
        others = {it for it in different if it not in self.plain and not self.new_shape(it, values, shapes, batch)}
        if self.plain:
            self.look_at_zeros(values, joined, batch, any(self.plain[it].part for it in different - others))
        if others:
            are_others = [*map(others.__contains__, shapes)]
            self.fit_others(values, are_others, batch)
            self.fits[NUMBER_FIT] += len(values) - values.count("") - are_others.count(True)
        else:
            self.fits[NUMBER_FIT] += len(values) - values.count("")

    def new_shape(self, text, values, shapes, batch):
        """The shape of plain numbers that this is, or None where its values are looked at by themselves."""
        found = None if self.is_exact else PLAIN.fullmatch(text)
        if not found:
            return None
        shape, notation = Shape(*found.groups("")), self.notation
        if shape.mark and (notation.decimal not in (None, shape.mark) or notation.thousands == shape.mark):
            return None
        is_open = len(shape.part) == 3 and len(shape.whole) <= 3 and not notation.decimal and not notation.thousands
        if is_open and len(shape.whole) == 1:
            return None
        at = shapes.index(text)
        place = Place(batch.line(at), values[at])
        self.numbers.take_shape(shape, is_open, place)
        self.take_first(NUMBER_FIT, place)
        self.plain[text] = shape
        return shape

    def take_first(self, fit, place):
        kept = self.first.get(fit)
        if kept is None or place < kept:
            self.first[fit] = place

    def look_at_zeros(self, values, joined, batch, parts):
        """Looks for leading zeros, and whether decimals are all 0, or end with one, in numbers known by their shape."""
        numbers = self.numbers
        if parts and not numbers.has_part:
            numbers.has_part = bool(PART.search(joined))
        if not numbers.padded and (joined[:1] in "0-" or "\n0" in joined or "\n-0" in joined):
            found = PADDED.search(joined) if max(map(len, self.plain)) > 1 else None
            if found:
                at = joined.count("\n", 0, found.end() - 1)
                numbers.padded = Place(batch.line(at), values[at])
        if numbers.is_whole and ("\n-0" in joined or joined.startswith("-0")):
            numbers.is_whole = not MINUS_ZERO.search(joined)
        if parts and not numbers.trailing and max(numbers.parts, default=0) > 1:
            found = TRAILING.search(joined)
            if found:
                at = joined.count("\n", 0, found.end() - 1)
                numbers.trailing.setdefault(len(found[0]) - 1, Place(batch.line(at), values[at]))

    def fit_others(self, values, are_others, batch):
        """Takes note of values that are no plain numbers, each by itself."""
        where = None
        for text, count in collections.Counter(itertools.compress(values, are_others)).items():
            fit = self.known.get(text)
            if fit is None:
                where = where or dict(zip(reversed(values), range(len(values) - 1, -1, -1)))
                place = Place(batch.line(where[text]), text)
                fit = self.fit_of(text, place)
                self.take_first(fit, place)
                if len(self.known) < MOST_KNOWN and len(text) <= MOST_OF_KNOWN:
                    self.known[text] = fit
            self.fits[fit] += count
        others = self.fits[OTHER_FIT]
        self.is_text = others > MANY_OTHERS and 4 * others > 3 * sum(self.fits)

    def fit_of(self, text, place):
        if text.lower() in MISSING:
            return MISSING_FIT
        number = self.notation.number_of(text) if text[0] in STARTS else None
        if number:
            self.numbers.take(number, *place)
            return NUMBER_FIT
        days = days_of(text) if len(text) <= MOST_OF_DATE else None
        if days:
            self.dates.take(days, place)
            return DATE_FIT
        return GROUPED_FIT if GROUPED.fullmatch(text) else SHORT_FIT if SHORT_YEAR.fullmatch(text) else OTHER_FIT

    def follow(self, values, empty):
        """Takes note of hashes: of all values, as long as none came twice, and of the first ones."""
        if self.hashes is not None:
            wanted = len(self.hashes) + len(values)
            self.hashes.update(map(hash, values))
            if empty or len(self.hashes) < wanted:
                self.hashes = None
        if self.values <= SOME_VALUES:
            self.some.update(map(hash, filter(None, {*values})))

    # -- between

    def has_values(self):
        return self.longest > 0

    def most_bytes(self):
        """What its texts have at most together."""
        return 10 * self.values if isinstance(self.kind, DateTexts) else self.bytes

    def is_unsure(self):
        """Whether its values have to be looked at by themselves, before it can be decided what they become."""
        are_numbers = not self.stays and self.fits[NUMBER_FIT] and self.fits[NUMBER_FIT] == self.some_values()
        return bool(are_numbers and self.numbers.is_unsure(self.numbers.scale(self.notation.rounded)))

    def some_values(self):
        return sum(self.fits) - self.fits[MISSING_FIT]

    def decide(self, separator):
        """What the column becomes."""
        values = self.some_values()
        why = None
        self.objection = None
        if self.stays:
            self.kind = Texts(self.longest, None)
        elif values and self.fits[NUMBER_FIT] == values:
            why = self.numbers.objection(self.header, separator, self.notation)
            self.kind = None if why else Integers(self.numbers, self.notation)
        elif values and self.fits[DATE_FIT] == values:
            why = self.dates.objection()
            self.kind = None if why else DateTexts(self.dates)
        elif self.has_values():
            why = self.mixture(values)
        self.keep(why)

    def keep(self, why):
        """Keeps the values as texts, unless it was decided that they become something else."""
        if why:
            self.kind, self.objection = None, why
        said = f"kept as texts: {why}" if why else None if self.has_values() else "has no values"
        self.kind = self.kind or Texts(self.longest, said)
        if isinstance(self.kind, Integers):
            self.kind.plain = self.plain

    def rescale(self, scale):
        """Gives numbers a scale that they share with those of other files. Where they don't fit, they stay texts."""
        if scale != self.kind.scale:
            why = self.numbers.excess(self.notation.rounded, scale)
            self.kind = Integers(self.numbers, self.notation, scale)
            self.keep(why)

    def mixture(self, values):
        """The first value that differs from most others, where these are numbers or dates; else None."""
        for like, near in ((NUMBER_FIT, GROUPED_FIT), (DATE_FIT, SHORT_FIT)):
            if 0 < values <= 2 * (self.fits[like] + self.fits[near]):
                fit, place = min((it for it in self.first.items() if it[0] not in (like, MISSING_FIT)), key=lambda it: it[1])
                return f"line {place.line} has {shown(place.text)}{HINTS.get(fit, '')}"
        return None

    def is_same(self):
        """Whether its values are those that LOAD takes, as they are."""
        makes_null = self.fits[MISSING_FIT] and not isinstance(self.kind, Texts)
        return not (self.is_trimmed or self.nulls or makes_null) and self.kind.is_same

    def finish_looking(self):
        """When all values are known: what only helped to know them is forgotten."""
        is_missing = self.fits[MISSING_FIT] and not isinstance(self.kind, Texts)
        self.is_unique = self.hashes is not None and len(self.hashes) > 1 and not is_missing
        self.hashes = self.hashes if self.is_unique else None
        self.known, self.made_values = {}, Made(self)

    # -- the second time

    def values_of(self, batch):
        """What the fields of a batch become."""
        values = batch.columns[self.at]
        if self.is_same():
            return values
        joined = "\n".join(values)
        if joined.count("\n") < len(values):
            if isinstance(self.kind, Integers) and not may_have_blanks(joined) and not self.nulls:
                made = self.kind.made_together(joined, self.changes)
                if made:
                    return made
        if len(self.made_values) > 10 * MOST_KNOWN:
            self.made_values = Made(self)
        made = [*map(self.made_values.__getitem__, values)]
        self.count(values)
        return made

    def count(self, values):
        """Counts what was changed in these fields."""
        changes = self.made_values.changes
        if changes:
            for field, count in collections.Counter(filter(changes.__contains__, values)).items():
                for change in changes[field]:
                    self.changes[change] += count

    def made(self, field):
        text = field.strip()
        if not text:
            return "", ("of white space made NULL",) if field else ()
        trimmed = () if text == field else ("without white space around it",)
        if text in self.null:
            return "", (*trimmed, f"{shown(text)} made NULL")
        value, changes = self.kind.made(text)
        return value, (*trimmed, *changes)

    # -- what is said

    def looks_like_key(self):
        named = words_of(self.header)[-1:]
        return not self.kind.suffix and (self.is_unique or bool(named) and named[0] in KEY_WORDS)

    def told(self):
        changed = ", ".join(f"{count} {change}" for change, count in self.changes.items() if count)
        said = "; ".join(filter(None, (changed, self.kind.said)))
        named = "" if self.header.upper() == self.name else f" is {shown(self.header)}"
        if named or said:
            yield self.name + named + (": " if said else "") + said
