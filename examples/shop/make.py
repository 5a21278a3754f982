#!/usr/bin/env python3
"""usage: examples/shop/make.py [--check]

Makes the files of the web shop of docs/TUTORIAL.md, from a seed. With --check it writes nothing, and ends with 1 where a
file isn't what it makes.

  customers.csv  2,000: a few of them order most of what is ordered. 40 live in Iceland, and 34 of these are hotels
  products.csv     240: twenty of each of twelve categories
  orders.csv    16,000: what is ordered depends on the country, and the hotels of Iceland order wool blankets
  returns.csv    about 2,000: how many orders come back depends on the category; next to nothing comes from these hotels

Fields of SINCE and of REASON are empty where nobody knows. `late.csv` has faults on purpose, and is written by hand.

Only random() of random.Random is asked, which draws the same numbers in every version of Python.
"""
import bisect
import csv
import datetime
import io
import itertools
import pathlib
import random
import sys

HERE = pathlib.Path(__file__).resolve().parent
SEED = 20250301
ORDERS = 16_000
FIRST_DAY, DAYS = datetime.date(2025, 1, 1), 365

COUNTRIES = {
    "Germany": 460,
    "France": 320,
    "Norway": 240,
    "Sweden": 200,
    "Denmark": 160,
    "Netherlands": 140,
    "Poland": 120,
    "Austria": 100,
    "Finland": 90,
    "Ireland": 70,
    "Iceland": 40,
    "Estonia": 30,
    "Malta": 30,
}
FAVOURITES = {
    "Austria": ("skis", "boots"),
    "Denmark": ("cups", "lamps"),
    "Estonia": ("lamps", "rugs"),
    "Finland": ("lamps", "tents"),
    "France": ("maps", "cups"),
    "Germany": ("boots", "maps"),
    "Iceland": ("blankets", "tents"),
    "Ireland": ("jackets", "maps"),
    "Malta": ("bags", "cups"),
    "Netherlands": ("jackets", "bags"),
    "Norway": ("skis", "jackets", "blankets"),
    "Poland": ("tents", "boots"),
    "Sweden": ("tents", "lamps"),
}
NOUNS = ("bag", "blanket", "boots", "cup", "jacket", "knife", "lamp", "map", "rug", "skis", "soap", "tent")
CATEGORIES = tuple(noun if noun.endswith("s") else {"knife": "knives"}.get(noun, noun + "s") for noun in NOUNS)
LOOKS = (
    "wool",
    "grey",
    "red",
    "blue",
    "green",
    "small",
    "large",
    "light",
    "warm",
    "striped",
    "plain",
    "folding",
    "classic",
    "winter",
    "summer",
    "travel",
    "coast",
    "forest",
    "mountain",
    "island",
)
RETURNED = {"boots": 0.30, "jackets": 0.28, "skis": 0.20, "tents": 0.12}
RETURNED_ELSE, RETURNED_BY_HOTELS = 0.07, 0.006
REASONS = ("too small", "too large", "broken", "late", "wrong colour")
FIRST_NAMES = ("Anna", "Ben", "Clara", "David", "Emma", "Felix", "Greta", "Hugo", "Ida", "Jonas", "Karin", "Leo", "Mia", "Nils")
LAST_NAMES = ("Berg", "Dahl", "Eder", "Falk", "Gruber", "Holm", "Jansen", "Kowalski", "Lund", "Martin", "Novak", "Olsen", "Petit")
HOTEL_NAMES = ("Aurora", "Bay", "Crater", "Dawn", "Falls", "Fjord", "Geyser", "Glacier", "Harbour", "Lava", "Moss", "North", "Puffin")
ICELANDIC_HOTELS, OTHER_HOTELS = 34, 16
BLANKET = 1 + NOUNS.index("blanket")


class Draw:
    """Draws from the seed."""

    def __init__(self):
        self.random = random.Random(SEED).random

    def below(self, end):
        return int(self.random() * end)

    def of(self, values):
        return values[self.below(len(values))]

    def happens(self, chance):
        return self.random() < chance

    def shuffled(self, values):
        return [value for _, value in sorted((self.random(), value) for value in values)]

    def often_first(self, values):
        """Draws of these values, number n as often as 1/n."""
        sums = list(itertools.accumulate(1 / n for n in range(1, len(values) + 1)))
        return lambda: values[min(bisect.bisect(sums, self.random() * sums[-1]), len(values) - 1)]


class Shop:
    def __init__(self):
        self.draw = Draw()
        self.customers = self.drawn_customers()
        self.products = self.made_products()
        self.orders = self.drawn_orders()
        self.returns = self.drawn_returns()

    def drawn_customers(self):
        """ID, NAME, COUNTRY, KIND, SINCE."""
        countries = self.draw.shuffled([name for name, count in COUNTRIES.items() for _ in range(count)])
        icelandic = [at for at, country in enumerate(countries) if country == "Iceland"]
        others = [at for at, country in enumerate(countries) if country != "Iceland"]
        hotels = set(self.draw.shuffled(icelandic)[:ICELANDIC_HOTELS] + self.draw.shuffled(others)[:OTHER_HOTELS])
        rows = []
        for at, country in enumerate(countries):
            kind = "hotel" if at in hotels else "office" if self.draw.happens(0.1) else "person"
            since = "" if self.draw.happens(0.06) else 2012 + self.draw.below(13)
            rows.append((at + 1, self.name(kind), country, kind, since))
        return rows

    def name(self, kind):
        if kind == "hotel":
            return f"{self.draw.of(HOTEL_NAMES)} Hotel"
        if kind == "office":
            return f"{self.draw.of(LAST_NAMES)}, {self.draw.of(LAST_NAMES)} & Co"
        return f"{self.draw.of(FIRST_NAMES)} {self.draw.of(LAST_NAMES)}"

    def made_products(self):
        """ID, NAME, CATEGORY, PRICE in cents."""
        rows = []
        for at in range(len(LOOKS) * len(NOUNS)):
            noun = at % len(NOUNS)
            price = 900 + 50 * self.draw.below(20 + 30 * noun)
            rows.append((at + 1, f"{LOOKS[at // len(NOUNS)]} {NOUNS[noun]}", CATEGORIES[noun], price))
        return rows

    def drawn_orders(self):
        """ID, CUSTOMER, PRODUCT, DAY, PIECES, in order of the day."""
        hotels = [row for row in self.customers if row[2:4] == ("Iceland", "hotel")]
        others = [row for row in self.customers if row not in hotels]
        hotel, other = (self.draw.often_first(self.draw.shuffled(rows)) for rows in (hotels, others))
        numbers = [row[0] for row in self.products]
        of_category = {
            name: self.draw.often_first([row[0] for row in self.products if row[2] == name]) for name in CATEGORIES
        }
        anything = self.draw.often_first(self.draw.shuffled(numbers))
        rows = []
        for number in range(ORDERS):
            customer = hotel() if self.draw.happens(0.11) else other()
            if customer in hotels and self.draw.happens(0.7):
                product = BLANKET
            elif self.draw.happens(0.7):
                product = of_category[self.draw.of(FAVOURITES[customer[2]])]()
            else:
                product = anything()
            pieces = 1 + self.draw.below({"hotel": 40, "office": 10, "person": 3}[customer[3]])
            day = FIRST_DAY + datetime.timedelta(number * DAYS // ORDERS)
            rows.append((number + 1, customer[0], product, day, pieces))
        return rows

    def drawn_returns(self):
        """ORDER_ID, DAY, REASON, in order of the order."""
        rows = []
        for number, customer, product, day, _ in self.orders:
            is_icelandic_hotel = self.customers[customer - 1][2:4] == ("Iceland", "hotel")
            chance = RETURNED.get(self.products[product - 1][2], RETURNED_ELSE)
            if self.draw.happens(RETURNED_BY_HOTELS if is_icelandic_hotel else chance):
                reason = "" if self.draw.happens(0.4) else self.draw.of(REASONS)
                rows.append((number, day + datetime.timedelta(3 + self.draw.below(25)), reason))
        return rows

    def files(self):
        return {
            "customers.csv": csv_text("ID,NAME,COUNTRY,KIND,SINCE", self.customers),
            "products.csv": csv_text("ID,NAME,CATEGORY,PRICE", self.products),
            "orders.csv": csv_text("ID,CUSTOMER,PRODUCT,DAY,PIECES", self.orders),
            "returns.csv": csv_text("ORDER_ID,DAY,REASON", self.returns),
        }


def csv_text(header, rows):
    text = io.StringIO()
    text.write(header + "\n")
    csv.writer(text, lineterminator="\n").writerows(rows)
    return text.getvalue().encode()


def main():
    words = sys.argv[1:]
    if words not in ([], ["--check"]):
        sys.exit(__doc__.splitlines()[0])
    different = []
    for name, content in Shop().files().items():
        path = HERE / name
        if not words:
            path.write_bytes(content)
        elif not path.is_file() or path.read_bytes() != content:
            different.append(name)
    if different:
        sys.exit(f"examples/shop: {', '.join(different)}: not what make.py makes")


if __name__ == "__main__":
    main()
