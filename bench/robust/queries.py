"""The tables and the queries of bench/robust: a film database, and the core of an order database.

The film database is in the manner of the Join Order Benchmark (Leis and others, VLDB 2015), and the orders are in that
of TPC-H. A query is what a user of the data would ask, written down before any was measured. Its conditions keep what
it gives to some thousands of rows at most. Words in braces are names from the data (bench/robust/data.py).

Indexed are keys, foreign keys, and the columns by which a user looks something up. Where a table has a key it is its first
column, ID.
"""
import collections

Column = collections.namedtuple("Column", "name, kind, optional")
Query = collections.namedtuple("Query", "name, database, text")


class Table:
    """A table: its name, its columns, and the names of those that are indexed, the key among them."""

    def __init__(self, name, columns, indexed):
        self.name = name
        self.columns = [self.column(it.split()) for it in columns.split(",")]
        self.indexed = indexed.split()
        self.has_key = self.columns[0].name == "ID"

    @staticmethod
    def column(words):
        """A column is written as its name, its kind, and a question mark where it may be NULL."""
        return Column(words[0], words[1], words[2:] == ["?"])

    def created(self, key=""):
        """The statement that makes it, with these words behind the key's column."""
        lines = [f"{it.name} {it.kind}" + ("" if it.optional else " NOT NULL") for it in self.columns]
        if self.has_key:
            lines[0] += key
        return f"CREATE TABLE {self.name} ({', '.join(lines)});\n"

    def indexes(self, with_key):
        names = [it for it in self.indexed if with_key or it != "ID"]
        return "".join(f"CREATE INDEX BY_{self.name}_{it} ON {self.name} ({it});\n" for it in names)


TABLES = {
    "film": [
        Table("KIND", "ID INTEGER, NAME VARCHAR(20)", "ID"),
        Table("ROLE", "ID INTEGER, NAME VARCHAR(20)", "ID"),
        Table("INFO_TYPE", "ID INTEGER, NAME VARCHAR(20)", "ID"),
        Table("COMPANY", "ID INTEGER, NAME VARCHAR(40), COUNTRY VARCHAR(2)", "ID NAME COUNTRY"),
        Table("KEYWORD", "ID INTEGER, WORD VARCHAR(40)", "ID WORD"),
        Table("PERSON", "ID INTEGER, NAME VARCHAR(40), GENDER VARCHAR(1) ?, BORN INTEGER ?", "ID NAME"),
        Table("TITLE", "ID INTEGER, NAME VARCHAR(60), KIND_ID INTEGER, YEAR INTEGER ?", "ID NAME KIND_ID YEAR"),
        Table("RATING", "TITLE_ID INTEGER, SCORE INTEGER, VOTES INTEGER", "TITLE_ID"),
        Table("TITLE_COMPANY", "TITLE_ID INTEGER, COMPANY_ID INTEGER, PART VARCHAR(12)", "TITLE_ID COMPANY_ID"),
        Table("TITLE_KEYWORD", "TITLE_ID INTEGER, KEYWORD_ID INTEGER", "TITLE_ID KEYWORD_ID"),
        Table("TITLE_INFO", "TITLE_ID INTEGER, TYPE_ID INTEGER, INFO VARCHAR(20)", "TITLE_ID TYPE_ID INFO"),
        Table(
            "CAST_INFO",
            "TITLE_ID INTEGER, PERSON_ID INTEGER, ROLE_ID INTEGER, BILLING INTEGER ?",
            "TITLE_ID PERSON_ID ROLE_ID",
        ),
    ],
    "orders": [
        Table("REGION", "ID INTEGER, NAME VARCHAR(20)", "ID"),
        Table("NATION", "ID INTEGER, NAME VARCHAR(20), REGION_ID INTEGER", "ID REGION_ID"),
        Table("SUPPLIER", "ID INTEGER, NAME VARCHAR(20), NATION_ID INTEGER", "ID NATION_ID"),
        Table("CUSTOMER", "ID INTEGER, NAME VARCHAR(20), NATION_ID INTEGER, SEGMENT VARCHAR(12)", "ID NATION_ID"),
        Table("PART", "ID INTEGER, NAME VARCHAR(20), BRAND VARCHAR(10), SIZE INTEGER", "ID NAME"),
        Table("ORDERS", "ID INTEGER, CUSTOMER_ID INTEGER, DAY INTEGER, STATUS VARCHAR(1)", "ID CUSTOMER_ID DAY"),
        Table(
            "LINEITEM",
            "ORDER_ID INTEGER, PART_ID INTEGER, SUPPLIER_ID INTEGER, QUANTITY INTEGER, PRICE INTEGER, "
            "RETURNED VARCHAR(1)",
            "ORDER_ID PART_ID SUPPLIER_ID",
        ),
    ],
}
DATABASES = {"film": "film", "uniform": "orders", "skewed": "orders"}

FILM = {
    "sequels of German companies": """
        SELECT t.NAME, c.NAME FROM COMPANY c, TITLE_COMPANY tc, TITLE t, TITLE_KEYWORD tk, KEYWORD k
        WHERE c.ID = tc.COMPANY_ID AND tc.TITLE_ID = t.ID AND t.ID = tk.TITLE_ID AND tk.KEYWORD_ID = k.ID
        AND c.COUNTRY = 'de' AND k.WORD = 'sequel'""",
    "what a star played in": """
        SELECT t.YEAR, t.NAME FROM PERSON p, CAST_INFO ci, TITLE t
        WHERE p.ID = ci.PERSON_ID AND ci.TITLE_ID = t.ID AND p.NAME = '{star}' AND t.YEAR >= 2000""",
    "who played beside a star": """
        SELECT other.NAME, r.SCORE FROM PERSON star, CAST_INFO one, CAST_INFO two, PERSON other, RATING r
        WHERE star.ID = one.PERSON_ID AND one.TITLE_ID = two.TITLE_ID AND two.PERSON_ID = other.ID
        AND one.TITLE_ID = r.TITLE_ID AND star.NAME = '{star}' AND two.BILLING <= 3 AND r.SCORE >= 75""",
    "Italian Westerns": """
        SELECT t.NAME, t.YEAR FROM TITLE t, TITLE_INFO g, INFO_TYPE gt, TITLE_INFO l, INFO_TYPE lt
        WHERE t.ID = g.TITLE_ID AND g.TYPE_ID = gt.ID AND t.ID = l.TITLE_ID AND l.TYPE_ID = lt.ID
        AND gt.NAME = 'genre' AND g.INFO = 'Western' AND lt.NAME = 'country' AND l.INFO = 'Italy'""",
    "Western musicals of Iceland": """
        SELECT t.NAME, t.YEAR FROM TITLE t, TITLE_INFO g, TITLE_INFO h, TITLE_INFO l
        WHERE t.ID = g.TITLE_ID AND t.ID = h.TITLE_ID AND t.ID = l.TITLE_ID
        AND g.INFO = 'Western' AND h.INFO = 'Musical' AND l.INFO = 'Iceland'""",
    "the best films": """
        SELECT r.SCORE, t.NAME FROM RATING r, TITLE t, KIND k
        WHERE r.TITLE_ID = t.ID AND t.KIND_ID = k.ID AND k.NAME = 'movie' AND r.SCORE >= 85 AND r.VOTES >= 1000""",
    "directors of film noir": """
        SELECT p.NAME, t.NAME FROM PERSON p, CAST_INFO ci, ROLE ro, TITLE t, TITLE_INFO g
        WHERE p.ID = ci.PERSON_ID AND ci.ROLE_ID = ro.ID AND ci.TITLE_ID = t.ID AND t.ID = g.TITLE_ID
        AND ro.NAME = 'director' AND g.INFO = 'Film-Noir' AND t.YEAR BETWEEN 1940 AND 1950""",
    "women who produced in France": """
        SELECT p.NAME, t.NAME, c.NAME FROM PERSON p, CAST_INFO ci, ROLE ro, TITLE t, TITLE_COMPANY tc, COMPANY c
        WHERE p.ID = ci.PERSON_ID AND ci.ROLE_ID = ro.ID AND ci.TITLE_ID = t.ID AND t.ID = tc.TITLE_ID
        AND tc.COMPANY_ID = c.ID AND p.GENDER = 'f' AND ro.NAME = 'producer' AND c.COUNTRY = 'fr'
        AND t.YEAR BETWEEN 2005 AND 2010""",
    "a star and a fitting keyword": """
        SELECT t.YEAR, t.NAME FROM PERSON p, CAST_INFO ci, TITLE t, TITLE_KEYWORD tk, KEYWORD k
        WHERE p.ID = ci.PERSON_ID AND ci.TITLE_ID = t.ID AND t.ID = tk.TITLE_ID AND tk.KEYWORD_ID = k.ID
        AND p.NAME = '{star}' AND k.WORD = '{star_word}'""",
    "a star and an unfitting keyword": """
        SELECT t.YEAR, t.NAME FROM PERSON p, CAST_INFO ci, TITLE t, TITLE_KEYWORD tk, KEYWORD k
        WHERE p.ID = ci.PERSON_ID AND ci.TITLE_ID = t.ID AND t.ID = tk.TITLE_ID AND tk.KEYWORD_ID = k.ID
        AND p.NAME = '{star}' AND k.WORD = '{other_word}'""",
    "films without a year": """
        SELECT t.NAME FROM TITLE t, TITLE_KEYWORD tk, KEYWORD k
        WHERE t.ID = tk.TITLE_ID AND tk.KEYWORD_ID = k.ID AND t.YEAR IS NULL AND k.WORD IN ('love', 'murder', 'hero')""",
    "good films of a company": """
        SELECT r.SCORE, t.NAME, t.YEAR FROM COMPANY c, TITLE_COMPANY tc, TITLE t, RATING r
        WHERE c.ID = tc.COMPANY_ID AND tc.TITLE_ID = t.ID AND t.ID = r.TITLE_ID
        AND c.NAME = '{company}' AND tc.PART = 'production' AND r.SCORE > 70""",
    "films in Japanese from America": """
        SELECT t.NAME, c.NAME FROM TITLE_INFO l, TITLE t, TITLE_COMPANY tc, COMPANY c
        WHERE l.TITLE_ID = t.ID AND t.ID = tc.TITLE_ID AND tc.COMPANY_ID = c.ID
        AND l.INFO = 'Japanese' AND tc.PART = 'distribution' AND c.COUNTRY = 'us' AND t.YEAR > 2010""",
    "murder and revenge": """
        SELECT t.NAME, t.YEAR FROM KEYWORD a, TITLE_KEYWORD ta, TITLE t, TITLE_KEYWORD tb, KEYWORD b
        WHERE a.ID = ta.KEYWORD_ID AND ta.TITLE_ID = t.ID AND t.ID = tb.TITLE_ID AND tb.KEYWORD_ID = b.ID
        AND a.WORD = 'murder' AND b.WORD = 'revenge'""",
    "young leads of good films": """
        SELECT p.NAME, t.NAME, r.SCORE FROM PERSON p, CAST_INFO ci, TITLE t, RATING r
        WHERE p.ID = ci.PERSON_ID AND ci.TITLE_ID = t.ID AND t.ID = r.TITLE_ID
        AND p.BORN >= 1990 AND ci.BILLING = 1 AND r.SCORE >= 80""",
    "comedy series of the nineties": """
        SELECT t.NAME, l.INFO FROM KIND k, TITLE t, TITLE_INFO g, TITLE_INFO l, INFO_TYPE lt
        WHERE k.ID = t.KIND_ID AND t.ID = g.TITLE_ID AND t.ID = l.TITLE_ID AND l.TYPE_ID = lt.ID
        AND k.NAME = 'tv series' AND g.INFO = 'Comedy' AND lt.NAME = 'language' AND t.YEAR BETWEEN 1990 AND 1999""",
    "writers who act in their films": """
        SELECT p.NAME, t.NAME FROM CAST_INFO w, ROLE wr, CAST_INFO a, PERSON p, TITLE t
        WHERE w.ROLE_ID = wr.ID AND w.TITLE_ID = a.TITLE_ID AND w.PERSON_ID = a.PERSON_ID AND a.PERSON_ID = p.ID
        AND a.TITLE_ID = t.ID AND wr.NAME = 'writer' AND a.BILLING <= 5 AND t.YEAR = 2015""",
    "who was in films of a rare keyword": """
        SELECT k.WORD, t.NAME, p.NAME FROM KEYWORD k, TITLE_KEYWORD tk, TITLE t, CAST_INFO ci, PERSON p
        WHERE k.ID = tk.KEYWORD_ID AND tk.TITLE_ID = t.ID AND t.ID = ci.TITLE_ID AND ci.PERSON_ID = p.ID
        AND k.WORD = '{rare_word}'""",
    "leads of Icelandic films": """
        SELECT p.NAME, t.NAME, c.NAME FROM COMPANY c, TITLE_COMPANY tc, TITLE t, CAST_INFO ci, PERSON p
        WHERE c.ID = tc.COMPANY_ID AND tc.TITLE_ID = t.ID AND t.ID = ci.TITLE_ID AND ci.PERSON_ID = p.ID
        AND c.COUNTRY = 'is' AND ci.BILLING <= 2 AND t.YEAR >= 2000""",
    "the cast of a film": """
        SELECT ci.BILLING, p.NAME, ro.NAME FROM TITLE t, CAST_INFO ci, PERSON p, ROLE ro
        WHERE t.ID = ci.TITLE_ID AND ci.PERSON_ID = p.ID AND ci.ROLE_ID = ro.ID AND t.NAME = '{title}'""",
    "heroes of American blockbusters": """
        SELECT t.NAME, r.VOTES, c.NAME FROM KEYWORD k, TITLE_KEYWORD tk, TITLE t, RATING r, TITLE_COMPANY tc, COMPANY c
        WHERE k.ID = tk.KEYWORD_ID AND tk.TITLE_ID = t.ID AND t.ID = r.TITLE_ID AND t.ID = tc.TITLE_ID
        AND tc.COMPANY_ID = c.ID AND k.WORD IN ('hero', 'explosion', 'battle') AND r.VOTES > 20000
        AND c.COUNTRY = 'us' AND t.YEAR BETWEEN 2000 AND 2015""",
    "family films for adults": """
        SELECT t.NAME, r.SCORE FROM TITLE_INFO g, TITLE_INFO a, TITLE t, RATING r
        WHERE g.TITLE_ID = t.ID AND a.TITLE_ID = t.ID AND r.TITLE_ID = t.ID
        AND g.INFO = 'Family' AND a.INFO = 'R'""",
}

ORDERS = {
    "large lines of a week": """
        SELECT c.NAME, o.ID, l.QUANTITY FROM CUSTOMER c, ORDERS o, LINEITEM l
        WHERE c.ID = o.CUSTOMER_ID AND o.ID = l.ORDER_ID
        AND c.SEGMENT = 'BUILDING' AND o.DAY BETWEEN 1000 AND 1006 AND l.QUANTITY >= 40""",
    "local suppliers in Europe": """
        SELECT n.NAME, o.ID, l.PRICE FROM CUSTOMER c, ORDERS o, LINEITEM l, SUPPLIER s, NATION n, REGION r
        WHERE c.ID = o.CUSTOMER_ID AND o.ID = l.ORDER_ID AND l.SUPPLIER_ID = s.ID AND c.NATION_ID = s.NATION_ID
        AND s.NATION_ID = n.ID AND n.REGION_ID = r.ID AND r.NAME = 'EUROPE' AND o.DAY BETWEEN 1000 AND 1059""",
    "small lines of a brand": """
        SELECT p.NAME, o.DAY, c.NAME FROM PART p, LINEITEM l, ORDERS o, CUSTOMER c
        WHERE p.ID = l.PART_ID AND l.ORDER_ID = o.ID AND o.CUSTOMER_ID = c.ID
        AND p.BRAND = 'Brand 23' AND p.SIZE <= 10 AND l.QUANTITY <= 2""",
    "what a nation's suppliers got back": """
        SELECT s.NAME, l.PART_ID, l.PRICE FROM NATION n, SUPPLIER s, LINEITEM l
        WHERE n.ID = s.NATION_ID AND s.ID = l.SUPPLIER_ID
        AND n.NAME = 'PERU' AND l.RETURNED = 'R' AND l.PRICE >= 60000""",
    "who sent back in a quarter": """
        SELECT c.NAME, o.DAY, l.PRICE FROM NATION n, CUSTOMER c, ORDERS o, LINEITEM l
        WHERE n.ID = c.NATION_ID AND c.ID = o.CUSTOMER_ID AND o.ID = l.ORDER_ID
        AND n.NAME = 'JAPAN' AND o.DAY BETWEEN 730 AND 820 AND l.RETURNED = 'R'""",
    "from France to Germany": """
        SELECT o.DAY, l.PRICE, s.NAME FROM NATION a, SUPPLIER s, LINEITEM l, ORDERS o, CUSTOMER c, NATION b
        WHERE a.ID = s.NATION_ID AND s.ID = l.SUPPLIER_ID AND l.ORDER_ID = o.ID AND o.CUSTOMER_ID = c.ID
        AND c.NATION_ID = b.ID AND a.NAME = 'FRANCE' AND b.NAME = 'GERMANY' AND o.DAY >= 1200""",
    "open orders of a part": """
        SELECT o.ID, o.DAY, l.QUANTITY FROM PART p, LINEITEM l, ORDERS o
        WHERE p.ID = l.PART_ID AND l.ORDER_ID = o.ID AND p.NAME = '{part}' AND o.STATUS = 'O'""",
}


def queries(names):
    """All queries, with the names of each database's data put in."""
    asked = [(name, "film", text) for name, text in FILM.items()]
    asked += [(name, it, text) for it in ("uniform", "skewed") for name, text in ORDERS.items()]
    return [Query(f"{it}: {name}", it, " ".join(text.format(**names[it]).split())) for name, it, text in asked]
