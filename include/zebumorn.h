/* Zebumorn in C: where a ferry is between her calls, and the operations below that.
 *
 * What is lent, who owns it, and how answers come back is told in docs/INTERFACE.md; what each operation means,
 * in docs/OPERATIONS.md. In short:
 *
 *   - Tables are columns, and a column is a span of one of five pools, which the caller owns. Nothing is kept
 *     after a call returns, nothing is allocated, and only what is named an output is written.
 *   - Every function answers for all numbers that tables and pools may hold: what is wrong is refused by its
 *     number, and nothing is read past what is lent. The pointers themselves have to be good: each to as many
 *     cells as its count says, aligned, not null (of no cells too), and outputs apart from all else that is lent.
 *   - A function may be called from any thread; two calls may share what neither writes.
 *
 *   archive of target/staticlib     names
 *   libexports_estimate.a           zebumorn_estimate
 *   libexports_timetable.a          zebumorn_match_trip, zebumorn_service_runs, zebumorn_read_date,
 *                                   zebumorn_day_of, zebumorn_weekday_of
 *   libexports_drawing.a            zebumorn_leg_geometry, zebumorn_journey_geometry
 *   libexports_backfill.a           zebumorn_backfill_trips, zebumorn_backfill_trip
 *   libtrip_records.a               zebumorn_backfill_records
 *   libexports_stops.a              zebumorn_project_trip, zebumorn_project_stop
 *   libexports_line.a               zebumorn_interpolate, zebumorn_calibrate, zebumorn_snap_scale
 *   libexports_measure.a            zebumorn_haversine_m, zebumorn_bearing_deg
 *
 * `tools/staticlib NAME` proves a crate and makes libNAME.a of it; link that with -lm. */
#ifndef ZEBUMORN_H
#define ZEBUMORN_H

#include <stdbool.h>
#include <stddef.h>
#include <stdint.h>

#ifdef __cplusplus
extern "C" {
#endif

/* ---- Refusals -------------------------------------------------------------------------------------------------
 * An operation makes its checks over all of each table that it is lent, in the order of these numbers, and gives
 * the first that applies. docs/OPERATIONS.md lists which numbers an operation can give. */
enum {
    ZEBUMORN_OK = 0,
    ZEBUMORN_REFUSED_UNEQUAL = 1,     /* columns of one table have unequal lengths, or one runs past its pool */
    ZEBUMORN_REFUSED_OVER_BOUND = 2,  /* a count or an id is over its bound */
    ZEBUMORN_REFUSED_OFF_GLOBE = 3,   /* a position is off the globe, or not a number */
    ZEBUMORN_REFUSED_UNSORTED = 4,    /* ids of a table, or sequences of updates, do not ascend */
    ZEBUMORN_REFUSED_OUTSIDE = 5,     /* an index, or a range of rows, is outside its table */
    ZEBUMORN_REFUSED_TIME = 6,        /* a moment, the offset or a schedule second is out of bounds */
    ZEBUMORN_REFUSED_ID = 7,          /* an id has a byte outside 32..126, or is empty */
    ZEBUMORN_REFUSED_NOT_FINITE = 8,  /* a distance is not finite, or a fraction or calibration number is NaN */
    ZEBUMORN_REFUSED_NO_ROOM = 9,     /* an output is too short */
    ZEBUMORN_REFUSED_DATE = 10        /* a date is not one */
};

/* ---- Bounds: more is refused with 2 --------------------------------------------------------------------------- */
enum {
    ZEBUMORN_MOST_STOPS = 65535,
    ZEBUMORN_MOST_TRIPS = 65535,
    ZEBUMORN_MOST_STOP_TIMES = 1000000,
    ZEBUMORN_MOST_POINTS = 8192,      /* of one shape */
    ZEBUMORN_MOST_UPDATES = 256,
    ZEBUMORN_MOST_ID_BYTES = 96,
    ZEBUMORN_MOST_ROWS = 65535        /* of each other table */
};

/* ---- Pools and columns ----------------------------------------------------------------------------------------
 * All tables lie in five pools. These are the parameters by which an operation is lent them. */
#define ZEBUMORN_POOLS                                                                                  \
    const uint8_t *bytes, size_t byte_count,   /* texts of ids, flags, weekdays */                      \
    const uint32_t *words, size_t word_count,  /* starts and lengths of ids, indices, counts, seconds, dates */ \
    const int64_t *times, size_t time_count,   /* moments, delays, the offset */                        \
    const double *reals, size_t real_count,    /* latitudes, longitudes */                              \
    const float *dists, size_t dist_count      /* distances */

/* A column: `n` cells from cell `at` on, of the pool that the column's type names. */
typedef struct {
    uint32_t at, n;
} zebumorn_span;

/* A column of ids, both spans of words: row k's id is lens[k] bytes of `bytes`, from starts[k] on. */
typedef struct {
    zebumorn_span starts, lens;
} zebumorn_ids;

/* ---- Tables ---------------------------------------------------------------------------------------------------
 * All columns of a table have as many rows. Beside each column stands its pool. A flag is a byte, zero or not; a
 * row whose flag is zero has no value in the column that the flag is for, and what stands there is not tested.
 * A table without rows is all zeros. */

/* Stops, in the caller's order. `raw` may be empty. */
typedef struct {
    zebumorn_ids own, raw;
    zebumorn_span lat, lon;    /* reals, degrees */
    zebumorn_span positioned;  /* bytes: has a position */
} zebumorn_stops;

/* Ids that ascend by their bytes, each naming a row of another table. Two ids may name one row. */
typedef struct {
    zebumorn_ids id;
    zebumorn_span row;  /* words */
} zebumorn_id_rows;

/* Static trips, in the caller's order. A trip's stop times are `count` from `first` on. */
typedef struct {
    zebumorn_ids feed, service;
    zebumorn_span shape;      /* words: the shape's row */
    zebumorn_span shaped;     /* bytes: has a shape */
    zebumorn_span frequency;  /* bytes: has frequency windows; matching passes it over */
    zebumorn_span first;      /* words */
    zebumorn_span count;      /* words */
} zebumorn_trips;

typedef struct {
    zebumorn_span sequence;   /* words: stop_sequence */
    zebumorn_span stop;       /* words: the stop's row */
    zebumorn_span arrival;    /* words: schedule seconds, 0 to 604,799 */
    zebumorn_span departure;  /* words: likewise */
    zebumorn_span dist;       /* dists: shape_dist_traveled */
    zebumorn_span measured;   /* bytes: has a distance */
} zebumorn_stop_times;

/* Shapes, whose ids ascend. A shape's points are `count` from `first` on. */
typedef struct {
    zebumorn_ids id;
    zebumorn_span first;  /* words */
    zebumorn_span count;  /* words */
} zebumorn_shapes;

typedef struct {
    zebumorn_span lat, lon;  /* reals, degrees */
} zebumorn_points;

/* Aliases, which ascend, each with the trip id that it stands for. */
typedef struct {
    zebumorn_ids id, trip;
} zebumorn_aliases;

/* Trips by the token of their line; rows ascend by token, then trip. */
typedef struct {
    zebumorn_ids token;
    zebumorn_span trip;  /* words: the trip's row */
} zebumorn_lines;

/* The feeds that have a calendar, which ascend. A feed that is not here runs every day. */
typedef struct {
    zebumorn_ids feed;
} zebumorn_calendars;

/* When services run; rows ascend by feed, then service. Both ends are included. */
typedef struct {
    zebumorn_ids feed, service;
    zebumorn_span first, last;  /* words: dates, yyyymmdd */
    zebumorn_span weekdays;     /* bytes: the low seven bits, Monday lowest */
} zebumorn_ranges;

/* Single days; rows ascend by feed, service, date, then added before removed. */
typedef struct {
    zebumorn_ids feed, service;
    zebumorn_span date;     /* words: yyyymmdd */
    zebumorn_span removed;  /* bytes: zero where the day is added */
} zebumorn_exceptions;

/* What the realtime feed says of her calls; rows ascend by sequence. */
typedef struct {
    zebumorn_span sequence;    /* words: stop_sequence */
    zebumorn_ids stop;
    zebumorn_span named;       /* bytes: has a stop id */
    zebumorn_span arrival;     /* times: seconds from 1970, UTC */
    zebumorn_span arrives;     /* bytes: has an arrival */
    zebumorn_span departure;   /* times */
    zebumorn_span departs;     /* bytes: has a departure */
    zebumorn_span arrdelay;    /* times: seconds */
    zebumorn_span arrdelayed;  /* bytes: has an arrival delay */
    zebumorn_span depdelay;    /* times: seconds */
    zebumorn_span depdelayed;  /* bytes: has a departure delay */
} zebumorn_updates;

/* The sailing asked of: a table of one row. */
typedef struct {
    zebumorn_ids feed;
    zebumorn_ids key;         /* the trip key of the realtime feed */
    zebumorn_ids route;
    zebumorn_span routed;     /* bytes: has a route id */
    zebumorn_span cancelled;  /* bytes */
    zebumorn_span now;        /* times: the clock, seconds from 1970, UTC */
    zebumorn_span offset;     /* times: local time less UTC, seconds */
} zebumorn_sailing;

/* Everything that an estimate is lent. The other operations read, and test, only the tables named with them. */
typedef struct {
    zebumorn_stops stops;
    zebumorn_id_rows stopkeys;  /* stops by id */
    zebumorn_trips trips;
    zebumorn_id_rows tripkeys;  /* trips by id */
    zebumorn_stop_times times;
    zebumorn_shapes shapes;
    zebumorn_points points;     /* of all shapes */
    zebumorn_aliases aliases;
    zebumorn_lines lines;
    zebumorn_calendars calendars;
    zebumorn_ranges ranges;
    zebumorn_exceptions exceptions;
    zebumorn_updates updates;
    zebumorn_sailing sailing;
} zebumorn_tables;

/* ---- The estimate: libexports_estimate.a ----------------------------------------------------------------------- */

/* How an estimate was found. */
enum {
    ZEBUMORN_STOPPED_AT = 1,
    ZEBUMORN_INCOMING_AT = 2,
    ZEBUMORN_ON_SHAPE = 3,
    ZEBUMORN_ON_STOP_CHAIN = 4,
    ZEBUMORN_IN_TRANSIT_TO = 5
};

/* Kinds of place. Calls count from 1, and leg K is the one that ends at call K. */
enum {
    ZEBUMORN_AT_CALL = 1,        /* at call `number` */
    ZEBUMORN_AT_START = 2,       /* at the start of leg `number` */
    ZEBUMORN_AT_END = 3,         /* at its end */
    ZEBUMORN_ON_STRETCH = 4,     /* on a stretch of it */
    ZEBUMORN_AT_LAST_VERTEX = 5  /* at the last vertex of its path, where the target met no stretch */
};

/* The path of a leg. */
enum {
    ZEBUMORN_LINE_SHAPE = 1,    /* the trip's shape */
    ZEBUMORN_LINE_CHAIN = 2,    /* the stops between */
    ZEBUMORN_LINE_STRAIGHT = 3  /* a straight line */
};

/* Which way the vertices of the path run. */
enum {
    ZEBUMORN_WAY_WITH = 1,    /* as she sails */
    ZEBUMORN_WAY_AGAINST = 2  /* against her */
};

/* Where an estimate is, other than by coordinates, which are drawn from it. A number that its kind does not have
 * is 0. */
typedef struct {
    double fraction;  /* of the stretch, from `vertex` on */
    uint64_t vertex;  /* the stretch's lower vertex, from 0; on a shape, counted over the whole shape */
    uint32_t kind;    /* ZEBUMORN_AT_CALL .. ZEBUMORN_AT_LAST_VERTEX */
    uint32_t number;  /* the call or leg */
    uint32_t line;    /* ZEBUMORN_LINE_.. */
    uint32_t way;     /* ZEBUMORN_WAY_.. */
} zebumorn_place;

/* A refusal (`refusal` is not 0), silence (`refusal` and `answered` are 0), or an estimate. All else is 0 without
 * an estimate. */
typedef struct {
    double lat, lon;    /* degrees */
    double bearing;     /* degrees from north, where `bears` */
    uint64_t stop;      /* the row of the stop that she is at, or sails to */
    uint32_t sequence;  /* its stop_sequence */
    uint32_t status;    /* ZEBUMORN_STOPPED_AT .. ZEBUMORN_IN_TRANSIT_TO */
    uint32_t bears;     /* 1 where there is a bearing */
    uint32_t answered;  /* 1 with an estimate */
    uint32_t refusal;   /* ZEBUMORN_OK or ZEBUMORN_REFUSED_.. */
    zebumorn_place place;
} zebumorn_answer;

/* Where the sailing is at its clock. Refusals: 1 2 3 4 5 6 7 8 10. */
zebumorn_answer zebumorn_estimate(ZEBUMORN_POOLS, zebumorn_tables tables);

/* ---- Trip matching, services and dates: libexports_timetable.a ------------------------------------------------- */

/* What matching is asked of: a table of one row. */
typedef struct {
    zebumorn_ids key;         /* the trip key before its last '@' */
    zebumorn_ids route;
    zebumorn_span routed;     /* bytes: has a route id */
    zebumorn_span departure;  /* times: the first departure, seconds from 1970, UTC */
    zebumorn_span departs;    /* bytes: has a first departure */
    zebumorn_span offset;     /* times: local time less UTC, seconds */
} zebumorn_journey;

/* What a calendar is asked of: a table of one row. */
typedef struct {
    zebumorn_ids feed, service;
    zebumorn_span date;  /* words: yyyymmdd */
} zebumorn_service;

/* The static trip that a journey stands for: its row into *trip, which stays as it was where there is none, and
 * where it is refused; so set *trip to SIZE_MAX before. Lent: trips, tripkeys, times, aliases, lines, calendars,
 * ranges, exceptions. Refusals: 1 2 4 5 6 7 10. */
uint32_t zebumorn_match_trip(ZEBUMORN_POOLS, zebumorn_tables tables, zebumorn_journey journey, size_t *trip);

/* Whether a service runs on a date: 1 or 0 into *runs, which stays as it was where it is refused. Lent: calendars,
 * ranges, exceptions. Refusals: 1 2 4 5 7 10. */
uint32_t zebumorn_service_runs(ZEBUMORN_POOLS, zebumorn_tables tables, zebumorn_service service, size_t *runs);

/* 0 where yyyymmdd is a date, else 10. */
uint32_t zebumorn_read_date(uint32_t yyyymmdd);

/* Of a date: its day (1970-01-01 is 0), and its weekday (Monday is 0). */
int64_t zebumorn_day_of(uint32_t yyyymmdd);
uint32_t zebumorn_weekday_of(uint32_t yyyymmdd);

/* ---- Leg drawing: libexports_drawing.a ------------------------------------------------------------------------- */

/* The legs of a journey, a row each, and their points. */
typedef struct {
    zebumorn_span walk;      /* bytes: a walk; else transit */
    zebumorn_span first;     /* words: the leg's points are `count` from `first` on */
    zebumorn_span count;     /* words */
    zebumorn_points start;   /* where a walk starts */
    zebumorn_span started;   /* bytes: has a start */
    zebumorn_points end;     /* where it ends */
    zebumorn_span ended;     /* bytes: has an end */
    zebumorn_points points;  /* of all legs */
} zebumorn_journey_legs;

/* The points from one stop of a trip to another, offsets from its first stop, along its shape if it has one. They
 * are written to `lat` and `lon`, and how many to *points; where it is refused nothing is written. `trip` is a
 * column of one id; an id that no trip has draws no points. Lent: stops, trips, tripkeys, times, shapes, points.
 * Refusals: 1 2 3 4 5 7 8 9. */
uint32_t zebumorn_leg_geometry(ZEBUMORN_POOLS, zebumorn_tables tables, zebumorn_ids trip, uint32_t from, uint32_t to,
                               double *lat, size_t lat_count, double *lon, size_t lon_count, size_t *points);

/* The points of a journey's legs, stitched. Outputs as above. Refusals: 1 2 3 5 9. */
uint32_t zebumorn_journey_geometry(ZEBUMORN_POOLS, zebumorn_journey_legs legs, double *lat, size_t lat_count,
                                   double *lon, size_t lon_count, size_t *points);

/* ---- Backfill: libexports_backfill.a, libtrip_records.a ---------------------------------------------------------- */

/* Writes the distance of every stop time, and 1 where it has one, after the missing ones of all trips are filled in
 * as far as they can be told. A flag that was there keeps its byte. Outputs have a row for each stop time or more;
 * rows past these keep theirs. Lent: stops, trips, times, shapes, points. Refusals: 1 2 3 4 5 7 8 9. */
uint32_t zebumorn_backfill_trips(ZEBUMORN_POOLS, zebumorn_tables tables, float *dist, size_t dist_out_count,
                                 uint8_t *measured, size_t measured_count);

/* The same, with those of one trip filled in, by its row; of a row past the table, of none. */
uint32_t zebumorn_backfill_trip(ZEBUMORN_POOLS, zebumorn_tables tables, size_t trip, float *dist,
                                size_t dist_out_count, uint8_t *measured, size_t measured_count);

/* A stop time as a record. What `dist` holds where `measured` is false is no distance. */
typedef struct {
    uint32_t stop;  /* the stop's row */
    uint32_t arrival, departure, sequence;
    bool measured;
    float dist;
} zebumorn_stop_time;

/* What a trip's records are lent with: the stops, and the points of its shape. */
typedef struct {
    zebumorn_stops stops;
    zebumorn_points line;
} zebumorn_beside;

/* Fills in the missing distances of one trip's records, in place; every other field stays as it was. `at`, `dists`
 * and `known` are columns to work in, a row for each record or more. Refusals: 1 2 3 5 7 8 9. */
uint32_t zebumorn_backfill_records(zebumorn_stop_time *records, size_t record_count, const uint8_t *bytes,
                                   size_t byte_count, const uint32_t *words, size_t word_count, const double *reals,
                                   size_t real_count, zebumorn_beside beside, uint32_t *at, size_t at_count,
                                   float *dists, size_t dist_count, uint8_t *known, size_t known_count);

/* ---- Projection of stops: libexports_stops.a -------------------------------------------------------------------- */

/* The vertex of a stop without a position. */
#define ZEBUMORN_NO_VERTEX UINT32_MAX

/* How many rows of the output are written; 0 where it is refused. */
typedef struct {
    size_t rows;
    uint32_t refusal;
} zebumorn_rows;

/* The vertices of the trip's shape that its stops lie at, in the order of its stop times. `trip` is a column of one
 * id; of an id that no trip has, no row is written. Lent: stops, trips, tripkeys, times, shapes, points.
 * Refusals: 1 2 3 4 5 7 8 9. */
zebumorn_rows zebumorn_project_trip(ZEBUMORN_POOLS, zebumorn_tables tables, zebumorn_ids trip, uint32_t *vertices,
                                    size_t vertex_count);

/* The vertex of a stop, and the cursor that the next stop is looked for from; both 0 where it is refused. */
typedef struct {
    size_t cursor, vertex;
    uint32_t refusal;
} zebumorn_step;

/* The vertex of one stop on a line, from a cursor on; the first stop's cursor is 0. Refusals: 1 2 3. */
zebumorn_step zebumorn_project_stop(const double *lat, size_t lat_count, const double *lon, size_t lon_count,
                                    size_t cursor, double stop_lat, double stop_lon);

/* ---- A line alone: libexports_line.a ----------------------------------------------------------------------------
 * Each is lent the points of one line, and may be lent more than its question reads, or less: then there is no
 * answer. `answered` is 1 with an answer, else it is 0, and so is all else but the refusal. Refusals: 1 2 3 8. */

/* What interpolation is asked. The fraction is the first of the numbers. */
enum {
    ZEBUMORN_BY_DISTANCE = 1,       /* between two distances in metres */
    ZEBUMORN_BY_FEED_DISTANCE = 2,  /* between two of a feed, calibrated: numbers are fraction, shift, scale */
    ZEBUMORN_ALONG_LINE = 3,        /* along the whole line */
    ZEBUMORN_BETWEEN_ENDS = 4       /* along the part of it between the vertices nearest to two ends */
};

typedef struct {
    double lat, lon, bearing;
    uint32_t answered, refusal;
} zebumorn_position;

/* The position at a fraction of the way. A question that is none of the four gets 1. */
zebumorn_position zebumorn_interpolate(ZEBUMORN_POOLS, uint32_t question, zebumorn_points line, zebumorn_points ends,
                                       zebumorn_span distances, zebumorn_span numbers);

/* A feed's distance d stands for shift + scale * d metres along the line. */
typedef struct {
    double shift, scale;
    uint32_t answered, refusal;
} zebumorn_metres;

/* The metres that a feed's distances stand for, by samples: each a position `at` and its distance. */
zebumorn_metres zebumorn_calibrate(ZEBUMORN_POOLS, zebumorn_points line, zebumorn_points at, zebumorn_span dist,
                                   zebumorn_span numbers);

typedef struct {
    double scale;
    uint32_t answered, refusal;
} zebumorn_scale;

/* The unit (metre, kilometre, foot, mile) that a ratio, the first of the numbers, is near; else the ratio. */
zebumorn_scale zebumorn_snap_scale(ZEBUMORN_POOLS, zebumorn_points line, zebumorn_points at, zebumorn_span dist,
                                   zebumorn_span numbers);

/* ---- Measure: libexports_measure.a ----------------------------------------------------------------------------- */

/* Metres, and degrees from north, of the way between two positions in degrees, into *out, which stays as it was
 * where it is refused. Refusals: 3. */
uint32_t zebumorn_haversine_m(double lat1, double lon1, double lat2, double lon2, double *out);
uint32_t zebumorn_bearing_deg(double lat1, double lon1, double lat2, double lon2, double *out);

#ifdef __cplusplus
}
#endif

#endif
