"""The clean world: where each column stands in the pools, and what it holds.

A change of it is a dict from places to numbers; a place is a pool's letter and an index."""

import struct

# The structs of crates/tables/src/lent.rt, field by field, in their order. Kinds of columns: i ids, w words,
# b flags, t times, r reals, d dists.
TABLES = {
    "stops": "own:i raw:i lat:r lon:r positioned:b",
    "stopkeys": "id:i row:w",
    "trips": "feed:i service:i shape:w shaped:b frequency:b first:w count:w",
    "tripkeys": "id:i row:w",
    "times": "sequence:w stop:w arrival:w departure:w dist:d measured:b",
    "shapes": "id:i first:w count:w",
    "points": "lat:r lon:r",
    "aliases": "id:i trip:i",
    "lines": "token:i trip:w",
    "calendars": "feed:i",
    "ranges": "feed:i service:i first:w last:w weekdays:b",
    "exceptions": "feed:i service:i date:w removed:b",
    "updates": "sequence:w stop:i named:b arrival:t arrives:b departure:t departs:b"
               " arrdelay:t arrdelayed:b depdelay:t depdelayed:b",
    "sailing": "feed:i key:i route:i routed:b cancelled:b now:t offset:t",
    "journey": "key:i route:i routed:b departure:t departs:b offset:t",
    "service": "feed:i service:i date:w",
    "leg": "trip:i",
    # what interpolation and calibration are lent is several tables each
    "along.line": "lat:r lon:r",
    "along.ends": "lat:r lon:r",
    "along.dists": "dist:d",
    "along.numbers": "number:r",
    "samples.line": "lat:r lon:r",
    "samples.at": "lat:r lon:r dist:d",
    "samples.numbers": "number:r",
}
ONE_ROW = ("sailing", "journey", "service", "leg")
BOUNDS = ("stops", "trips", "calls", "points", "updates", "id", "others")
POOLS = "bwtrd"
LAYOUT = 256  # words before the first column


def f64(x):
    return struct.unpack("<Q", struct.pack("<d", x))[0]


def f32(x):
    return struct.unpack("<I", struct.pack("<f", x))[0]


def kinds(table):
    """The columns of a table, each with its kind."""
    return [tuple(field.split(":")) for field in TABLES[table].split()]


def rows(table):
    return 1 if table in ONE_ROW else 4


# What row k of a column holds; a row more than the table has is there too, for faults that need it. No trip has the
# last stop time, no shape the last point, no id the last stop, trip or shape: those rows are read by nothing.
VALUES = {
    ("stops", "lat"): (0.0, 48.5, -33.25, 89.0, 1.0),
    ("stops", "lon"): (0.0, 2.25, 151.5, -179.0, 1.0),
    ("points", "lat"): (1.0, -2.0, 3.0, -4.0, 5.0),
    ("points", "lon"): (1.0, 20.0, -30.0, 40.0, -50.0),
    ("stopkeys", "row"): (2, 0, 1, 1, 0),
    ("trips", "shape"): (0, 2, 1, 0, 1),
    ("trips", "first"): (0, 2, 3, 0, 0),
    ("trips", "count"): (2, 1, 0, 3, 1),
    ("tripkeys", "row"): (1, 1, 0, 2, 0),
    ("times", "sequence"): (5, 3, 3, 9, 1),
    ("times", "stop"): (0, 2, 1, 0, 1),
    ("times", "arrival"): (0, 30000, 90000, 604799, 5),
    ("times", "departure"): (60, 30060, 90060, 604799, 5),
    ("times", "dist"): (0.0, 1200.5, -3.0, 7.0, 1.0),
    ("shapes", "first"): (0, 1, 3, 0, 0),
    ("shapes", "count"): (2, 2, 0, 1, 1),
    ("lines", "trip"): (2, 0, 1, 0, 1),
    ("ranges", "first"): (19700101, 20240229, 20991231, 20250101, 20250102),
    ("ranges", "last"): (20991231, 20240301, 20240101, 20251231, 20251231),
    ("ranges", "weekdays"): (0, 127, 255, 31, 1),
    ("exceptions", "date"): (20240229, 20241225, 20000229, 20991231, 20240101),
    ("exceptions", "removed"): (0, 1, 1, 0, 1),
    ("updates", "sequence"): (1, 2, 5, 4294967294, 4294967295),
    ("updates", "arrival"): (0, 1700000000, 1700000600, 4102444799, 4102444799),
    ("updates", "departure"): (0, 1700000060, 1700000660, 4102444799, 4102444799),
    ("updates", "arrdelay"): (0, -60, 9223372036854775807, 5, 0),
    ("updates", "depdelay"): (0, 120, -9223372036854775807, 5, 0),
    ("sailing", "now"): (1700000300, 1700000300),
    ("sailing", "offset"): (3600, 3600),
    ("sailing", "cancelled"): (0, 0),
    ("journey", "departure"): (1700000060, 1700000060),
    ("journey", "offset"): (-3600, -3600),
    ("service", "date"): (20240229, 20240229),
}


class World:
    def __init__(self):
        self.cells = {}
        self.size = {"b": 0, "w": LAYOUT, "t": 0, "r": 0, "d": 0}
        self.spans = {}  # (table, column, part) -> the place in the layout of its first row and count
        self.columns = {}  # (table, column) -> kind, and where row 0 stands (ids: starts, lengths, first byte)
        for table in TABLES:
            for column, kind in kinds(table):
                self.add(table, column, kind)
        self.long = self.run("b", [121] * 97)  # a text of 97 bytes that is after every id
        self.run("b", [32])  # the last byte of the pool is the least that an id has
        for k in range(len(BOUNDS)):
            self.cells["w", k] = 0  # document 01's
        for k, pool in enumerate(POOLS):
            self.cells["w", 7 + k] = self.size[pool]

    def run(self, pool, numbers):
        """Numbers at the end of a pool."""
        at = self.size[pool]
        for k, n in enumerate(numbers):
            self.cells[pool, at + k] = n
        self.size[pool] += len(numbers)
        return at

    def span(self, key, at, n):
        place = 12 + 2 * len(self.spans)
        self.spans[key] = place
        self.cells["w", place] = at
        self.cells["w", place + 1] = n

    def add(self, table, column, kind):
        n = rows(table)
        if kind == "i":
            name = "%c%c" % (97 + len(self.columns) // 16, 97 + len(self.columns) % 16)
            texts = [name + digit for digit in "13579"[: n + 1]]
            at = self.run("b", [ord(c) for text in texts for c in text])
            starts = self.run("w", [at + 3 * k for k in range(n + 1)])
            lens = self.run("w", [3] * (n + 1))
            self.span((table, column, "starts"), starts, n)
            self.span((table, column, "lens"), lens, n)
            self.columns[table, column] = ("i", starts, lens, at)
            return
        numbers = VALUES.get((table, column), (1,) * (n + 1))[: n + 1]
        if kind == "r":
            numbers = [f64(x) for x in numbers]
        if kind == "d":
            numbers = [f32(x) for x in numbers]
        at = self.run(kind, numbers)
        self.span((table, column, ""), at, n)
        self.columns[table, column] = (kind, at)

    # Places.

    def cell(self, table, column, row):
        kind, at = self.columns[table, column]
        return (kind, at + row)

    def start(self, table, column, row):
        return ("w", self.columns[table, column][1] + row)

    def length(self, table, column, row):
        return ("w", self.columns[table, column][2] + row)

    def byte(self, table, column, row, k):
        return ("b", self.columns[table, column][3] + 3 * row + k)

    def at(self, key):
        return ("w", self.spans[key])

    def count(self, key):
        return ("w", self.spans[key] + 1)

    def bound(self, name):
        return ("w", BOUNDS.index(name))

    def parts(self, table, column):
        """The spans of a column."""
        if self.columns[table, column][0] == "i":
            return [(table, column, "starts"), (table, column, "lens")]
        return [(table, column, "")]

    def pool_of(self, key):
        kind = self.columns[key[0], key[1]][0]
        return "w" if kind == "i" else kind
