"""Single faults, and pairs of faults of different numbers."""

from operations import OPERATIONS, by
from world import TABLES, f32, f64, kinds, rows

# What makes a table's rows ascend, its first key's columns first.
KEYS = {
    "stopkeys": ("id",),
    "tripkeys": ("id",),
    "shapes": ("id",),
    "aliases": ("id",),
    "lines": ("token", "trip"),
    "calendars": ("feed",),
    "ranges": ("feed", "service"),
    "exceptions": ("feed", "service", "date", "removed"),
    "updates": ("sequence",),
}
# The bound of a table's rows. A sample of a calibration is a stop time.
ROWS = {
    "stops": "stops",
    "stopkeys": "stops",
    "trips": "trips",
    "tripkeys": "trips",
    "times": "calls",
    "shapes": "others",
    "aliases": "others",
    "lines": "others",
    "calendars": "others",
    "ranges": "others",
    "exceptions": "others",
    "updates": "updates",
    "along.line": "points",
    "samples.line": "points",
    "samples.at": "calls",
}
# Rows of other tables, by their number: a column, and the table that it points to.
INDICES = {
    ("stopkeys", "row"): "stops",
    ("trips", "shape"): "shapes",
    ("tripkeys", "row"): "trips",
    ("times", "stop"): "stops",
    ("lines", "trip"): "trips",
}
# Rows of other tables, by a first and a count.
RANGES = {"trips": "times", "shapes": "points"}
MOMENTS = (("updates", "arrival"), ("updates", "departure"), ("sailing", "now"), ("journey", "departure"))
OFFSETS = (("sailing", "offset"), ("journey", "offset"))
SECONDS = (("times", "arrival"), ("times", "departure"))
DATES = (("ranges", "first"), ("ranges", "last"), ("exceptions", "date"), ("service", "date"))
DISTANCES = (("times", "dist"), ("along.dists", "dist"), ("samples.at", "dist"))
NUMBERS = (("along.numbers", "number"), ("samples.numbers", "number"))
POSITIONS = ("stops", "points", "along.line", "along.ends", "samples.line", "samples.at")
IDS = [(table, column) for table in TABLES for column, kind in kinds(table) if kind == "i"]


class Fault:
    """A refusal's number, the operations that give it, and the change that makes it."""

    def __init__(self, number, seen, change):
        self.number = number
        self.seen = seen
        self.change = change


def fault(number, change, *tables):
    """A fault that shows where all of these tables are lent."""
    return Fault(number, by(number, *tables), change)


def more_rows(w, table, n):
    """A table with n rows."""
    return {w.count(key): n for column, _ in kinds(table) for key in w.parts(table, column)}


def table_faults(w):
    """One column that runs past its pool (1), and a row more than the bound (2), for each table."""
    for table in TABLES:
        key = w.parts(table, kinds(table)[-1][0])[0]
        yield fault(1, {w.at(key): 4294967295}, table)
        if table in ROWS:
            change = more_rows(w, table, rows(table) + 1)
            change[w.bound(ROWS[table])] = rows(table)
            yield fault(2, change, table)


def id_faults(w):
    """Of each column of ids: too long (2), past the pool (5), a bad byte, empty (7).

    A change of row 0 makes its id less, one of the last row makes it greater, so that ids still ascend."""
    for table, column in IDS:
        last = rows(table) - 1
        yield fault(2, {w.length(table, column, last): 97}, table)
        yield fault(5, {w.start(table, column, 0): w.size["b"]}, table)
        yield fault(7, {w.byte(table, column, last, 1): 127}, table)
        if column != "raw":
            start = w.start(table, column, 0)
            yield fault(7, {start: w.cells[start], w.length(table, column, 0): 0}, table)


def same_key(w, table, row, other):
    """The key of a row becomes that of another."""
    change = {}
    for column in KEYS[table]:
        if w.columns[table, column][0] == "i":
            change[w.start(table, column, row)] = w.cells[w.start(table, column, other)]
            change[w.length(table, column, row)] = w.cells[w.length(table, column, other)]
        else:
            change[w.cell(table, column, row)] = w.cells[w.cell(table, column, other)]
    return change


def row_faults(w):
    """The faults of rows that are no ids."""
    last = 3
    for table in POSITIONS:
        for column, least in (("lat", 90.00000000000001), ("lon", -180.00000000000003)):
            yield fault(3, {w.cell(table, column, last): f64(least)}, table)
    for table in KEYS:
        yield fault(4, same_key(w, table, 2, 1), table)
    for (table, column), other in INDICES.items():
        yield fault(5, {w.cell(table, column, last): rows(other)}, table, other)
    for table, other in RANGES.items():
        yield fault(5, {w.cell(table, "first", last): rows(other), w.cell(table, "count", last): 1}, table, other)
    yield fault(2, {w.cell("shapes", "count", 1): 8193}, "shapes")
    for table, column in SECONDS:
        yield fault(6, {w.cell(table, column, last): 604800}, table)
    for table, column in MOMENTS:
        yield fault(6, {w.cell(table, column, rows(table) - 1): 4102444800}, table)
    for table, column in OFFSETS:
        yield fault(6, {w.cell(table, column, 0): -50401}, table)
    for table, column in DISTANCES:
        yield fault(8, {w.cell(table, column, last): f32(float("inf"))}, table)
    for table, column in NUMBERS:
        yield fault(8, {w.cell(table, column, last): f64(float("nan"))}, table)
    for table, column in DATES:
        yield fault(10, {w.cell(table, column, rows(table) - 1): 20990229}, table)


def faults(w):
    return [*table_faults(w), *id_faults(w), *row_faults(w)]


def singles(w):
    """Each fault, asked of every operation."""
    for f in faults(w):
        yield f.change, {o: f.number if o in f.seen else 0 for o in OPERATIONS}


def pairs(w):
    """Each two faults of different numbers, asked of every operation that is lent both: the smaller number.

    Two faults that change one place are no pair. Of refusal 1 there is one fault for each table here; sizes() has
    every column."""
    every = faults(w)
    for f in every:
        for g in every:
            both = [o for o in f.seen if o in g.seen]
            if f.number < g.number and both and not set(f.change) & set(g.change):
                yield {**f.change, **g.change}, {o: f.number for o in both}


def sizes(w):
    """Each column, alone: a row short, a row long, past the end of its pool, past 2^32."""
    for key in w.spans:
        table, column, _ = key
        n = w.cells[w.count(key)]
        seen = by(1, table)
        # a table of a single column has nothing to differ from; ids are two columns
        unequal = seen if len(kinds(table)) > 1 or w.columns[table, column][0] == "i" else []
        for change, seen_by in (
            ({w.count(key): n - 1}, unequal),
            ({w.count(key): n + 1}, unequal),
            ({w.at(key): w.size[w.pool_of(key)] - n + 1}, seen),
            ({w.at(key): 4294967295}, seen),
        ):
            yield change, {o: 1 if o in seen_by else 0 for o in OPERATIONS}
