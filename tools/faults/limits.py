"""Each limit of document 01: at it, one below, one above; and what is no fault."""

from faults import (
    DATES, DISTANCES, IDS, INDICES, KEYS, MOMENTS, NUMBERS, OFFSETS, POSITIONS, RANGES, ROWS, SECONDS, more_rows,
    same_key,
)
from operations import OPERATIONS, by
from world import BOUNDS, ONE_ROW, POOLS, TABLES, f32, f64, kinds, rows

INFINITY = float("inf")
NAN64 = 0x7FF8000000000000
NAN32 = 0x7FC00000
LARGEST = 4294967295  # the largest word

# Large columns stand past the clean world and stay there: 65,536 ids in the bytes; in the words where they begin, their
# lengths and a date; then zeros, as in the other pools. Any bytes but zeros serve as flags.
MANY = 65536
LARGE = 2048
STARTS, LENGTHS, MANY_DATES, ZEROS = (LARGE + MANY * k for k in range(4))
SIZES = {"b": 262144, "w": 393216, "t": 4096, "r": 131072, "d": 131072}
LAY_LARGE = "b%d i%d w%d =%d s3 n%d w%d =3 n%d w%d =20000229 n%d" % (
    LARGE, MANY, STARTS, LARGE, MANY - 1, LENGTHS, MANY - 1, MANY_DATES, MANY - 1)


def answers(number, seen):
    return {o: number if o in seen else 0 for o in OPERATIONS}


def case(change, number, seen):
    return change, answers(number, seen)


def none(change):
    return case(change, 0, [])


def values(w, part, row, good, bad, number, *others):
    """Numbers of a column that are no fault, and some that are where the other tables are lent too."""
    place = w.cell(*part, row)
    for n in good:
        yield none({place: n})
    for n in bad:
        yield case({place: n}, number, by(number, part[0], *others))


# Refusal 2.


def large(w, table, n):
    """A table of n rows, all but the ids alike."""
    change = {("w", 7 + k): SIZES[pool] for k, pool in enumerate(POOLS)}
    for column, kind in kinds(table):
        for key in w.parts(table, column):
            at = {"i": STARTS, "w": ZEROS, "b": LARGE, "t": LARGE, "r": LARGE, "d": LARGE}[kind]
            if key[2] == "lens":
                at = LENGTHS
            if (table, column) in DATES:
                at = MANY_DATES
            if (table, column) == ("updates", "sequence"):
                at = STARTS
            change[w.at(key)] = at
            change[w.count(key)] = n
    return change


def counts(w):
    """65,534 to 65,536 rows, 255 to 257 updates, 8,191 to 8,193 points of a line.

    1,000,000 stop times do not fit into a program's memory: 120,000 are no fault here, smaller_bounds() tries the
    bound, and question 0 asks what it is."""
    for table in ROWS:
        most = {"updates": 256, "calls": 120000, "points": 8192}.get(ROWS[table], 65535)
        yield none(large(w, table, most - 1))
        yield none(large(w, table, most))
        if ROWS[table] != "calls":
            yield case(large(w, table, most + 1), 2, by(2, table))


def no_rows(w):
    """Tables without rows, each alone and all at once, at the start and at the end of their pools: a fault only where
    another table points into them. What has one row has neither none nor two."""
    whole = {}
    at_end = {}
    for table in TABLES:
        if table in ONE_ROW:
            for n in (0, 2):
                yield case(more_rows(w, table, n), 1, by(1, table))
            continue
        pointers = [t for (t, _), other in INDICES.items() if other == table]
        pointers += [t for t, other in RANGES.items() if other == table]
        seen = [o for t in pointers for o in by(5, t, table)]
        change = more_rows(w, table, 0)
        yield case(change, 5, seen)
        whole.update(change)
        for column, _ in kinds(table):
            at_end.update({w.at(key): w.size[w.pool_of(key)] for key in w.parts(table, column)})
    yield none(whole)
    yield none({**whole, **at_end})


def smaller_bounds(w):
    """Every bound is a parameter. The tables have 4 rows, shapes at most 2 points, ids 3 bytes."""
    for name in BOUNDS:
        has = {o: 4 for t in ROWS if ROWS[t] == name for o in by(2, t)}
        if name == "points":
            has.update({o: 2 for o in by(2, "shapes")})
        if name == "id":
            has.update({o: 3 for table, _ in IDS for o in by(2, table)})
        for most in range(1, 6):
            yield case({w.bound(name): most}, 2, [o for o in has if has[o] > most])
    for table in ROWS:
        bound = w.bound(ROWS[table])
        yield none({bound: 5, **more_rows(w, table, 5)})
        yield case({bound: 4, **more_rows(w, table, 5)}, 2, by(2, table))


def points(w):
    """8,191 to 8,193 points of a shape; points of no shape have no bound."""
    many = {("w", 7 + POOLS.index("r")): SIZES["r"]}
    for column in ("lat", "lon"):
        many[w.at(("points", column, ""))] = LARGE
        many[w.count(("points", column, ""))] = 100000
    for row in range(4):
        first, count = w.cell("shapes", "first", row), w.cell("shapes", "count", row)
        for n in (0, 8191, 8192):
            yield none({**many, first: 0, count: n})
        for n in (8193, 100000, LARGEST):
            yield case({**many, first: 0, count: n}, 2, by(2, "shapes"))


# Ids: refusals 2, 5 and 7.


def ids(w):
    for table, column in IDS:
        last = rows(table) - 1
        start, length = w.start(table, column, last), w.length(table, column, last)
        for n in (1, 95, 96):
            yield none({start: w.long, length: n})
        yield case({start: w.long, length: 97}, 2, by(2, table))
        yield case({length: LARGEST}, 2, by(2, table))
        # row 0 is the least: an id of the pool's last byte, one of a byte more, one past 2^32
        start, length = w.start(table, column, 0), w.length(table, column, 0)
        yield none({start: w.size["b"] - 1, length: 1})
        for at, n in ((w.size["b"] - 1, 2), (w.size["b"], 1), (LARGEST, 1), (LARGEST, 96)):
            yield case({start: at, length: n}, 5, by(5, table))
        if column == "raw":
            yield none({length: 0})
        else:
            yield case({length: 0}, 7, by(7, table))
            yield case({start: w.size["b"], length: 0}, 7, by(7, table))
        for k in range(3):
            yield none({w.byte(table, column, 0, k): 32})
            yield none({w.byte(table, column, last, k): 126})
            for byte in (0, 31):
                yield case({w.byte(table, column, 0, k): byte}, 7, by(7, table))
            for byte in (127, 128, 255):
                yield case({w.byte(table, column, last, k): byte}, 7, by(7, table))


# Refusal 3.


def positions(w):
    for table in POSITIONS:
        for column, most in (("lat", 90.0), ("lon", 180.0)):
            for row in range(4):
                place = w.cell(table, column, row)
                for x in (f64(most), f64(-most), f64(most) - 1, f64(-most) - 1, f64(0.0), f64(-0.0), 1):
                    yield none({place: x})
                for x in (f64(most) + 1, f64(-most) + 1, f64(INFINITY), f64(-INFINITY), NAN64, NAN64 + 2**63):
                    yield case({place: x}, 3, by(3, table))


# Refusal 4.


def orders(w):
    for table in KEYS:
        seen = by(4, table)
        for row in range(1, 4):
            yield case(same_key(w, table, row, row - 1), 4, seen)  # equal
        yield case(same_key(w, table, 3, 0), 4, seen)  # descending
        yield case({**same_key(w, table, 0, 1), **same_key(w, table, 1, 0)}, 4, seen)
        yield none({**same_key(w, table, 1, 2), **same_key(w, table, 2, 3), **same_key(w, table, 3, 4)})


def first_ids(w):
    """Ids ascend by bytes: a prefix is before the whole, and no id is before another for being shorter."""
    for table, keys in KEYS.items():
        if table == "updates":
            continue
        seen = by(4, table)
        column = keys[0]
        cut = {w.start(table, column, 0): w.cells[w.start(table, column, 1)]}
        yield none({**cut, w.length(table, column, 0): 2})
        yield case({**cut, w.length(table, column, 0): 4}, 4, seen)
        longer = {w.start(table, column, 1): w.cells[w.start(table, column, 0)]}
        yield case({**longer, w.length(table, column, 1): 2}, 4, seen)
        yield case({w.byte(table, column, 0, 2): 57}, 4, seen)  # x9 before x3
        yield case({w.byte(table, column, 1, 0): 32}, 4, seen)
        yield none({w.byte(table, column, 1, 2): 52})  # x1, x4, x5
        yield none({w.length(table, column, 0): 4})  # longer, and less


def later_keys(w):
    """Where the first keys are equal the next decides, and only there."""

    def same(table, names):
        change = {}
        for column in names:
            for place in (w.start, w.length):
                change[place(table, column, 2)] = w.cells[place(table, column, 1)]
        return change

    lines = by(4, "lines")
    for trips, number in (((1, 2), 0), ((1, 1), 4), ((2, 1), 4), ((0, 3), 0)):
        change = {w.cell("lines", "trip", 1 + k): n for k, n in enumerate(trips)}
        yield case({**same("lines", ["token"]), **change}, number, lines)
        yield none(change)
    # a service that descends, where the feeds are equal and where they ascend
    for table in ("ranges", "exceptions"):
        seen = by(4, table)
        back = {
            w.start(table, "service", 2): w.cells[w.start(table, "service", 0)],
            w.length(table, "service", 2): 3,
        }
        yield none(same(table, ["feed"]))
        yield case({**same(table, ["feed"]), **back}, 4, seen)
        yield none(back)
        if table == "ranges":
            yield case(same(table, ["feed", "service"]), 4, seen)
    seen = by(4, "exceptions")
    names = same("exceptions", ["feed", "service"])
    dates = w.cell("exceptions", "date", 1), w.cell("exceptions", "date", 2)
    kind = w.cell("exceptions", "removed", 1), w.cell("exceptions", "removed", 2)
    for a, b, first, second, number in (
        (20240101, 20240102, 1, 0, 0),
        (20240102, 20240101, 0, 1, 4),
        (20240101, 20240101, 0, 1, 0),
        (20240101, 20240101, 0, 255, 0),
        (20240101, 20240101, 0, 0, 4),
        (20240101, 20240101, 1, 0, 4),
        (20240101, 20240101, 1, 1, 4),
        (20240101, 20240101, 1, 2, 4),
        (20240101, 20240101, 2, 1, 4),
    ):
        change = {dates[0]: a, dates[1]: b, kind[0]: first, kind[1]: second}
        yield case({**names, **change}, number, seen)
        yield none(change)


def unordered(w):
    """What need not ascend: records, and the sequence of stop times."""
    for table, column in IDS:
        if table not in KEYS and rows(table) > 1:
            for row, other in ((1, 0), (2, 0)):
                yield none({w.start(table, column, row): w.cells[w.start(table, column, other)]})
    for n in (0, 3, 5, 7, LARGEST):
        yield none({w.cell("times", "sequence", 1): n})


# Refusal 5.


def indices(w):
    for part, other in INDICES.items():
        for row in range(4):
            n = rows(other)
            yield from values(w, part, row, (0, n - 1), (n, n + 1, 65536, LARGEST), 5, other)


def ranges(w):
    """A first row and a count: at the end of the rows, one past it, past 2^32. An empty range may begin at the end."""
    for table, other in RANGES.items():
        n = rows(other)
        for row in range(4):
            first, count = w.cell(table, "first", row), w.cell(table, "count", row)
            for a, c in ((0, 0), (0, n), (n, 0), (n - 1, 1)):
                yield none({first: a, count: c})
            for a, c in ((0, n + 1), (n, 1), (n - 1, 2), (n + 1, 0), (LARGEST, 0), (LARGEST, 1), (LARGEST, 5),
                         (4294967290, 8)):
                yield case({first: a, count: c}, 5, by(5, table, other))
    for a, c in ((1, LARGEST), (5, LARGEST), (LARGEST, LARGEST)):
        change = {w.cell("trips", "first", 3): a, w.cell("trips", "count", 3): c}
        yield case(change, 5, by(5, "trips", "times"))


# Refusals 6, 8 and 10.


def numbers(w):
    for part in MOMENTS:
        for row in range(rows(part[0])):
            good, bad = (0, 1, 4102444798, 4102444799), (-1, 4102444800, 2**63 - 1, 1 - 2**63)
            yield from values(w, part, row, good, bad, 6)
    for part in OFFSETS:
        good, bad = (0, 50399, 50400, -50399, -50400), (50401, -50401, 2**63 - 1, 1 - 2**63)
        yield from values(w, part, 0, good, bad, 6)
    for part in SECONDS:
        for row in range(4):
            yield from values(w, part, row, (0, 604798, 604799), (604800, 604801, LARGEST), 6)
    for part in (("updates", "arrdelay"), ("updates", "depdelay")):
        yield from values(w, part, 1, (-1, 2**63 - 1, 1 - 2**63), (), 6)
    greatest = 0x7F7FFFFF
    for part in DISTANCES:
        for row in range(4):
            good = (0, 1, greatest, greatest + 2**31, 2**31, f32(0.5))
            bad = (greatest + 1, greatest + 1 + 2**31, NAN32, NAN32 + 2**31, greatest + 2)
            yield from values(w, part, row, good, bad, 8)
    for part in NUMBERS:
        for row in range(4):
            good = (f64(0.0), f64(-0.0), f64(-2.5), f64(1e300), f64(INFINITY), f64(-INFINITY))
            bad = (NAN64, NAN64 + 2**63, f64(INFINITY) + 1, f64(-INFINITY) + 1, 2**64 - 1)
            yield from values(w, part, row, good, bad, 8)
    for part in DATES:
        for row in range(rows(part[0])):
            good = (10101, 99991231, 20000229, 20240229, 19700101, 20991231, 19040229)
            bad = (0, 101, 20990229, 19000229, 21000229, 20001301, 20000001, 20000100, 20000132, 20000431, 20230229,
                   100000101, 99991232, LARGEST)
            yield from values(w, part, row, good, bad, 10)


# Values that are missing.


def missing(w):
    """Under a flag that is not set nothing is tested, and any byte but 0 sets it."""
    nan = {"lat": f64(91.0), "lon": NAN64}
    for column in nan:
        yield from flagged(w, "positioned", ("stops", column), {w.cell("stops", column, 2): nan[column]}, 3)
    yield from flagged(w, "shaped", ("trips", "shape"), {w.cell("trips", "shape", 2): LARGEST}, 5, "shapes")
    yield from flagged(w, "measured", ("times", "dist"), {w.cell("times", "dist", 2): NAN32}, 8)
    yield from flagged(w, "arrives", ("updates", "arrival"), {w.cell("updates", "arrival", 2): -1}, 6)
    yield from flagged(w, "departs", ("updates", "departure"), {w.cell("updates", "departure", 2): 2**62}, 6)
    yield from flagged(w, "departs", ("journey", "departure"), {w.cell("journey", "departure", 0): -1}, 6)
    for table, column, flag in (
        ("updates", "stop", "named"),
        ("sailing", "route", "routed"),
        ("journey", "route", "routed"),
    ):
        part = (table, column)
        row = rows(table) // 2
        start, length = w.start(*part, row), w.length(*part, row)
        yield from flagged(w, flag, part, {length: 97}, 2)
        yield from flagged(w, flag, part, {start: w.size["b"]}, 5)
        yield from flagged(w, flag, part, {start: LARGEST, length: LARGEST}, 2)
        yield from flagged(w, flag, part, {length: 0}, 7)
        yield from flagged(w, flag, part, {w.byte(*part, row, 1): 127}, 7)
    for flag in ("arrdelayed", "depdelayed"):
        yield none({w.cell("updates", flag, 2): 0})
    for part in (("trips", "frequency"), ("sailing", "cancelled"), ("ranges", "weekdays")):
        for n in (0, 1, 128, 255):
            yield none({w.cell(*part, 0): n})


def flagged(w, flag, part, change, number, *others):
    table = part[0]
    place = w.cell(table, flag, rows(table) // 2)
    seen = by(number, table, *others)
    yield none({place: 0})
    yield none({place: 0, **change})
    for n in (1, 2, 128, 255):
        yield case({place: n, **change}, number, seen)


def limits(w):
    for part in (counts, no_rows, smaller_bounds, points, ids, positions, orders, first_ids, later_keys, unordered,
                 indices, ranges, numbers, missing):
        yield part.__name__, list(part(w))
