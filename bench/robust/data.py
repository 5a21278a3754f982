"""The seeded data of bench/robust, as CSV files of the tables in bench/robust/queries.py.

The film database is skewed and correlated, as such data is. Each film has a country, some genres and a weight. Number n
of countries, genres, persons, companies and keywords is drawn as often as 1/(n + shift). Genres go with countries;
companies and persons are mostly of the film's country; keywords go with genres, and some with stars; certificates, and
the years of film noir, go with genres; a film of more weight has more of everything, and more votes.

The order database comes in two kinds. In `uniform` each column is drawn uniformly and by itself. In `skewed` customers,
parts, nations, suppliers, quantities and weeks are drawn by such frequencies, suppliers are mostly of the customer's
nation, and a nation's customers are mostly of one segment.
"""
import bisect
import itertools
import os
import random

from words import (
    CERTIFICATES,
    COMPANY_KINDS,
    COUNTRIES,
    FIRST,
    GENRES,
    INFO_TYPES,
    KINDS,
    LAST,
    NATIONS,
    REGION_OF,
    REGIONS,
    ROLES,
    SEGMENTS,
    THINGS,
    USUAL_CERTIFICATES,
)

ACTOR, ACTRESS, PRODUCER, WRITER = 1, 2, 3, 4
STARS = 2000
DAYS = 2400


class Frequent:
    """Draws numbers below `most`, number n as often as 1/(n + 1 + shift)."""

    def __init__(self, draw, most, shift=0):
        self.draw = draw
        self.most = most
        self.sums = list(itertools.accumulate(1 / (it + 1 + shift) for it in range(most)))

    def __call__(self):
        return min(bisect.bisect(self.sums, self.draw.random() * self.sums[-1]), self.most - 1)


def named(number, first, second):
    """A name of two words for each number, with a number behind it from the second round on."""
    many = len(first) * len(second)
    at = number * 7 % many
    text = f"{first[at % len(first)]} {second[at // len(first)]}"
    return text if number < many else f"{text} {number // many + 1}"


class Makers:
    """Persons or companies, the most frequent first: their keys in any order, and draws by country."""

    def __init__(self, draw, most, shift):
        self.draw = draw
        self.keys = draw.sample(range(1, most + 1), most)
        country = Frequent(draw, len(COUNTRIES))
        self.countries = [it if it < len(COUNTRIES) else country() for it in range(most)]
        self.of = [[] for _ in COUNTRIES]
        for rank, at in enumerate(self.countries):
            self.of[at].append(rank)
        self.all = Frequent(draw, most, shift)
        self.place = [Frequent(draw, len(it), shift) for it in self.of]

    def drawn(self, country):
        """The rank of one: of this country in five cases of six."""
        return self.of[country][self.place[country]()] if self.draw.random() < 5 / 6 else self.all()

    def by_key(self):
        """The ranks in the order of the keys."""
        return sorted(range(len(self.keys)), key=self.keys.__getitem__)


class Film:
    """The film database: what tables share, and the rows of each, which are to be taken in the order of `tables`."""

    def __init__(self, scale, seed):
        self.draw = random.Random(f"{seed} film")
        self.persons = Makers(self.draw, max(400, int(160_000 * scale)), 50)
        self.companies = Makers(self.draw, max(100, int(20_000 * scale)), 3)
        self.keywords = max(400, int(12_000 * scale))
        self.titles = list(self.drawn_titles(max(400, int(140_000 * scale))))
        self.word_place = Frequent(self.draw, self.keywords // len(GENRES), 3)

    def drawn_titles(self, most):
        """The country, genres, weight and year of each film."""
        country, genre, names = Frequent(self.draw, len(COUNTRIES)), Frequent(self.draw, len(GENRES), 1), list(GENRES)
        for _ in range(most):
            at = country()
            liked = list(COUNTRIES.values())[at][2]
            likings = [*(names.index(it) for it in liked), *(it for it in range(len(names)) if names[it] not in liked)]
            genres = sorted({likings[genre()] for _ in range(2)})
            year = 2023 - min(120, int(self.draw.expovariate(1 / 22)))
            if names.index("Film-Noir") in genres:
                year = self.draw.randint(1940, 1958)
            yield at, genres, min(40, self.draw.paretovariate(1.2)), None if self.draw.random() < 0.02 else year

    def names(self):
        """The names that queries speak of: of frequent things, but for the rare word."""
        star, other = self.persons.of[0][2], self.persons.of[5][0]
        return {
            "star": named(star, FIRST, LAST),
            "star_word": self.word(self.signature(star)),
            "other_word": self.word(self.signature(other)),
            "company": named(self.companies.of[0][1], THINGS, COMPANY_KINDS),
            "rare_word": self.word(self.keywords - 7),
            "title": title_name(max(range(len(self.titles)), key=lambda it: self.titles[it][2])),
        }

    def word(self, number):
        """The text of a keyword. Number n goes with genre n modulo the number of genres."""
        words, at = list(GENRES.values())[number % len(GENRES)], number // len(GENRES)
        return words[at] if at < len(words) else f"{words[at % 3]}-{THINGS[at % len(THINGS)].lower()}-{at}"

    def signature(self, rank):
        """The keyword of a star's films."""
        return (rank * 37 + 61) % (self.keywords // 4)

    def tables(self):
        for name, values in (("KIND", KINDS), ("ROLE", ROLES), ("INFO_TYPE", INFO_TYPES)):
            yield name, enumerate(values, 1)
        yield "COMPANY", self.company_rows()
        yield "KEYWORD", ((it + 1, self.word(it)) for it in range(self.keywords))
        yield "PERSON", self.person_rows()
        yield "TITLE", self.title_rows()
        yield "RATING", self.rating_rows()
        yield "TITLE_COMPANY", self.title_company_rows()
        yield "TITLE_INFO", self.title_info_rows()
        casts = [self.cast(it) for it in self.titles]
        yield "TITLE_KEYWORD", self.title_keyword_rows(casts)
        yield "CAST_INFO", self.cast_info_rows(casts)

    def company_rows(self):
        codes = list(COUNTRIES)
        for rank in self.companies.by_key():
            name = named(rank, THINGS, COMPANY_KINDS)
            yield self.companies.keys[rank], name, codes[self.companies.countries[rank]]

    def person_rows(self):
        for rank in self.persons.by_key():
            gender = None if self.draw.random() < 0.1 else "mf"[is_woman(rank)]
            born = None if self.draw.random() < 0.4 else 2003 - int(self.draw.expovariate(1 / 35))
            yield self.persons.keys[rank], named(rank, FIRST, LAST), gender, born

    def title_rows(self):
        kind = Frequent(self.draw, len(KINDS))
        for number, (_, _, _, year) in enumerate(self.titles):
            yield number + 1, title_name(number), kind() + 1, year

    def rating_rows(self):
        for number, (_, _, weight, _) in enumerate(self.titles):
            if self.draw.random() < 0.1 + weight / 10:
                score = round(self.draw.gauss(60 + weight / 4, 15))
                yield number + 1, min(100, max(10, score)), 5 + int(weight**2 * self.draw.lognormvariate(3, 1.5))

    def title_company_rows(self):
        for number, (country, _, weight, _) in enumerate(self.titles):
            for at in range(1 + int(weight / 4 + self.draw.random())):
                part = "distribution" if at % 2 else "production"
                yield number + 1, self.companies.keys[self.companies.drawn(country)], part

    def title_info_rows(self):
        types = {name: number for number, name in enumerate(INFO_TYPES, 1)}
        lands, names = list(COUNTRIES.values()), list(GENRES)
        for number, (country, genres, weight, _) in enumerate(self.titles):
            for it in genres:
                yield number + 1, types["genre"], names[it]
            for at in {country, self.draw.randrange(len(lands)) if self.draw.random() < 0.1 else country}:
                yield number + 1, types["country"], lands[at][0]
            yield number + 1, types["language"], lands[country][1]
            if self.draw.random() < 0.1 + weight / 20:
                allowed = next((CERTIFICATES[names[it]] for it in genres if names[it] in CERTIFICATES), USUAL_CERTIFICATES)
                given = self.draw.choice(allowed if self.draw.random() < 0.95 else USUAL_CERTIFICATES)
                yield number + 1, types["certificate"], given

    def cast(self, title):
        """The ranks of a film's persons."""
        country, _, weight, _ = title
        return list(dict.fromkeys(self.persons.drawn(country) for _ in range(1 + int(1.8 * weight + self.draw.random()))))

    def title_keyword_rows(self, casts):
        for number, ((_, genres, weight, _), cast) in enumerate(zip(self.titles, casts)):
            words = {self.signature(it) for it in cast if it < STARS and self.draw.random() < 0.5}
            for _ in range(int(weight * 0.8 + self.draw.random())):
                genre = self.draw.choice(genres) if self.draw.random() < 0.7 else self.draw.randrange(len(GENRES))
                words.add(self.word_place() * len(GENRES) + genre)
            for it in sorted(words):
                yield number + 1, it + 1

    def cast_info_rows(self, casts):
        for number, cast in enumerate(casts):
            billing = 0
            for rank in cast:
                role = self.role(rank)
                billing += role <= ACTRESS
                yield number + 1, self.persons.keys[rank], role, billing if role <= ACTRESS else None
                if self.draw.random() < 0.03:
                    yield number + 1, self.persons.keys[rank], WRITER, None

    def role(self, rank):
        """Who acts, acts mostly; who doesn't, has mostly the profession of the own number."""
        if rank % 10 < 7 and self.draw.random() < 0.9:
            return ACTOR + is_woman(rank)
        return PRODUCER + (rank if self.draw.random() < 0.8 else self.draw.randrange(100)) % (len(ROLES) - ACTRESS)


def is_woman(rank):
    return rank % 3 == 0


def title_name(number):
    return "The " + named(number, THINGS, THINGS)


class Orders:
    """The order database, uniform or skewed."""

    def __init__(self, scale, seed, skewed):
        self.draw = random.Random(f"{seed} orders {skewed}")
        self.skewed = skewed
        self.customers, self.suppliers, self.parts, self.orders = (
            max(least, int(most * scale)) for least, most in ((200, 10_000), (75, 1_000), (200, 20_000), (400, 100_000))
        )
        nation = self.drawn(len(NATIONS))
        self.nation_of = [nation() for _ in range(self.customers)]
        self.supplier_nation = [it if it < len(NATIONS) else nation() for it in range(self.suppliers)]
        self.suppliers_of = [[] for _ in NATIONS]
        for number, at in enumerate(self.supplier_nation):
            self.suppliers_of[at].append(number)

    def drawn(self, most, shift=0):
        return Frequent(self.draw, most, shift) if self.skewed else lambda: self.draw.randrange(most)

    def names(self):
        """The part that queries speak of is the most frequent one, where parts have frequencies."""
        return {"part": named(0, THINGS, LAST)}

    def tables(self):
        yield "REGION", enumerate(REGIONS, 1)
        yield "NATION", ((it + 1, name, REGION_OF[it] + 1) for it, name in enumerate(NATIONS))
        yield "SUPPLIER", ((it + 1, f"Supplier {it + 1}", at + 1) for it, at in enumerate(self.supplier_nation))
        yield "CUSTOMER", self.customer_rows()
        yield "PART", self.part_rows()
        orders = list(self.order_rows())
        yield "ORDERS", orders
        yield "LINEITEM", self.line_rows(orders)

    def customer_rows(self):
        for number, nation in enumerate(self.nation_of):
            usual = self.skewed and self.draw.random() < 0.7
            segment = SEGMENTS[nation % 5] if usual else self.draw.choice(SEGMENTS)
            yield number + 1, f"Customer {number + 1}", nation + 1, segment

    def part_rows(self):
        for number in range(self.parts):
            brand = f"Brand {self.draw.randint(1, 5)}{self.draw.randint(1, 5)}"
            yield number + 1, named(number, THINGS, LAST), brand, self.draw.randint(1, 50)

    def order_rows(self):
        customer, week = self.drawn(self.customers, 10), self.drawn(52)
        for number in range(self.orders):
            day = self.draw.randrange(DAYS)
            if self.skewed:
                day = min(DAYS - 1, day // 364 * 364 + (26 + week()) % 52 * 7 + day % 7)
            status = "O" if day > DAYS * 9 // 10 or self.draw.random() < 0.02 else "F"
            yield number + 1, customer() + 1, day, status

    def line_rows(self, orders):
        part, supplier, quantity = self.drawn(self.parts, 10), self.drawn(self.suppliers), self.drawn(50)
        for order, customer, _, status in orders:
            near = self.suppliers_of[self.nation_of[customer - 1]]
            for _ in range(self.draw.randint(1, 5)):
                at = self.draw.choice(near) if self.skewed and self.draw.random() < 0.8 else supplier()
                amount = quantity() + 1
                returned = "N" if status == "O" else "R" if self.draw.random() < 0.25 else "A"
                yield order, part() + 1, at + 1, amount, amount * self.draw.randint(900, 2000), returned


def database(name, scale, seed):
    return Film(scale, seed) if name == "film" else Orders(scale, seed, name == "skewed")


def write_files(data, folder, tables):
    """Writes the file of each table into a new folder, unless the folder is there."""
    if os.path.isdir(folder):
        return
    os.makedirs(folder + ".part", exist_ok=True)
    headers = {it.name: ",".join(column.name for column in it.columns) for it in tables}
    for name, rows in data.tables():
        with open(os.path.join(folder + ".part", f"{name}.csv"), "w") as file:
            file.write(headers[name] + "\n")
            for row in rows:
                file.write(",".join("" if it is None else str(it) for it in row) + "\n")
    os.rename(folder + ".part", folder)
