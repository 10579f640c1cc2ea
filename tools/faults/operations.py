"""What each operation is lent, and the refusals that it has by document 01 ("What each operation turns down").

Document 01 has the checks made "over all of each table lent": all columns, all rows. An index is tested where the table
that it points into is lent too."""

from world import TABLES

CALENDARS = {"calendars", "ranges", "exceptions"}
GEOMETRY = {"stops", "trips", "times", "shapes", "points"}
MATCHING = {"trips", "times", "tripkeys", "aliases", "lines"} | CALENDARS
ALONG = {"along.line", "along.ends", "along.dists", "along.numbers"}
SAMPLES = {"samples.line", "samples.at", "samples.numbers"}
ESTIMATE = set(TABLES) - {"journey", "service", "leg"} - ALONG - SAMPLES

# The number of the question, the refusals in their order, and the tables that are lent.
OPERATIONS = {
    "estimate": (1, (1, 2, 3, 4, 5, 6, 7, 8, 10), ESTIMATE),
    "geometry": (2, (1, 2, 3, 4, 5, 7, 8), GEOMETRY),
    "leg": (3, (1, 2, 3, 4, 5, 7, 8), GEOMETRY | {"tripkeys", "leg"}),
    "matching": (4, (1, 2, 4, 5, 6, 7, 10), MATCHING | {"journey"}),
    "service": (5, (1, 2, 4, 5, 6, 7, 10), CALENDARS | {"service"}),
    "interpolation": (6, (1, 2, 3, 8), ALONG),
    "calibration": (7, (1, 2, 3, 8), SAMPLES),
}


def by(number, *tables):
    """The operations that have the refusal and are lent all of these tables."""
    return [o for o, (_, numbers, lent) in OPERATIONS.items() if number in numbers and set(tables) <= lent]
