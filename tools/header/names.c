/* Calls each C name from C, once where it answers and once where it refuses, on a small world: trip t of feed f and
 * service s, from stop a at 0, 0 to stop b at 0, 1, along shape w, which has a vertex between at 0.1, 0.5. */
#include <math.h>
#include <stdio.h>

#include "zebumorn.h"

static int failed = 0;

#define CHECK(holds)                                           \
    do {                                                       \
        if (!(holds)) {                                        \
            failed = 1;                                        \
            printf("line %d: not so: %s\n", __LINE__, #holds); \
        }                                                      \
    } while (0)

/* texts; then at 6 two flags that are set, at 8 two that are not, at 10 all weekdays */
static const uint8_t bytes[] = {'f', 's', 't', 'a', 'b', 'w', 1, 1, 0, 0, 0x7f};
/* at 0 starts of a and b, at 2 their lengths, at 4 starts of f, s, t, w; at 8 zero, one; at 10 the trip's rows, the
 * shape's points; at 12 sequences; at 14 seconds; at 16 dates: the range, one in it, none */
static const uint32_t words[] = {3, 4, 1, 1, 0,   1,   2,        5,        0,        1,
                                 2, 3, 1, 2, 100, 200, 20240101, 20241231, 20240229, 20990229};
static const int64_t times[] = {100, 0};
/* latitudes and longitudes of the stops, of the shape; a fraction; not a number */
static const double reals[] = {0.0, 0.0, 0.0, 1.0, 0.0, 0.1, 0.0, 0.0, 0.5, 1.0, 0.5, NAN};
/* of the stops, in kilometres */
static const float dists[] = {0.0f, 113.4f};

#define POOLS bytes, sizeof bytes, words, sizeof words / 4, times, 2, reals, sizeof reals / 8, dists, 2

static const zebumorn_span set = {6, 1}, unset = {8, 1}, both_set = {6, 2}, both_unset = {8, 2}, zero = {8, 1},
                           none = {0, 0};
static const zebumorn_ids f = {{4, 1}, {2, 1}}, s = {{5, 1}, {2, 1}}, t = {{6, 1}, {2, 1}}, w = {{7, 1}, {2, 1}};
static const zebumorn_ids ab = {{0, 2}, {2, 2}}, empty = {{8, 1}, {8, 1}};
static const zebumorn_points line = {{4, 3}, {7, 3}}, ends = {{0, 2}, {2, 2}}, no_points = {{0, 0}, {0, 0}};

static zebumorn_tables world(void) {
    const zebumorn_tables tables = {
        .stops = {.own = ab, .raw = ab, .lat = {0, 2}, .lon = {2, 2}, .positioned = both_set},
        .stopkeys = {.id = ab, .row = {8, 2}},
        .trips = {.feed = f,
                  .service = s,
                  .shape = zero,
                  .shaped = set,
                  .frequency = unset,
                  .first = zero,
                  .count = {10, 1}},
        .tripkeys = {.id = t, .row = zero},
        .times = {.sequence = {12, 2},
                  .stop = {8, 2},
                  .arrival = {14, 2},
                  .departure = {14, 2},
                  .dist = {0, 2},
                  .measured = both_unset},
        .shapes = {.id = w, .first = zero, .count = {11, 1}},
        .points = line,
        .calendars = {.feed = f},
        .ranges = {.feed = f, .service = s, .first = {16, 1}, .last = {17, 1}, .weekdays = {10, 1}},
    };
    return tables;
}

static void estimate(void) {
    zebumorn_tables tables = world();
    zebumorn_answer answer = zebumorn_estimate(POOLS, tables);
    CHECK(answer.refusal == ZEBUMORN_REFUSED_UNEQUAL && !answer.answered); /* there is no sailing */
    tables.sailing = (zebumorn_sailing){
        .feed = f, .key = t, .route = empty, .routed = unset, .cancelled = unset, .now = {0, 1}, .offset = {1, 1}};
    answer = zebumorn_estimate(POOLS, tables);
    CHECK(answer.refusal == ZEBUMORN_OK && !answer.answered); /* there are no updates */
    tables.updates = (zebumorn_updates){.sequence = {12, 1},
                                        .stop = {{0, 1}, {2, 1}},
                                        .named = set,
                                        .arrival = {0, 1},
                                        .arrives = set,
                                        .departure = {0, 1},
                                        .departs = set,
                                        .arrdelay = {0, 1},
                                        .arrdelayed = unset,
                                        .depdelay = {0, 1},
                                        .depdelayed = unset};
    answer = zebumorn_estimate(POOLS, tables);
    CHECK(answer.refusal == ZEBUMORN_OK && answer.answered && answer.status == ZEBUMORN_STOPPED_AT && !answer.bears);
    CHECK(answer.stop == 0 && answer.sequence == 1 && answer.place.kind == ZEBUMORN_AT_CALL &&
          answer.place.number == 1);
}

static void timetable(void) {
    zebumorn_journey journey = {
        .key = t, .route = empty, .routed = unset, .departure = {0, 1}, .departs = set, .offset = {1, 1}};
    size_t trip = SIZE_MAX;
    CHECK(zebumorn_match_trip(POOLS, world(), journey, &trip) == ZEBUMORN_OK && trip == 0);
    trip = SIZE_MAX;
    journey.key = w;
    CHECK(zebumorn_match_trip(POOLS, world(), journey, &trip) == ZEBUMORN_OK && trip == SIZE_MAX);
    journey.key = empty;
    CHECK(zebumorn_match_trip(POOLS, world(), journey, &trip) == ZEBUMORN_REFUSED_ID && trip == SIZE_MAX);

    zebumorn_service service = {.feed = f, .service = s, .date = {18, 1}};
    size_t runs = 7;
    CHECK(zebumorn_service_runs(POOLS, world(), service, &runs) == ZEBUMORN_OK && runs == 1);
    service.service = w;
    CHECK(zebumorn_service_runs(POOLS, world(), service, &runs) == ZEBUMORN_OK && runs == 0);
    service.date.at = 19;
    CHECK(zebumorn_service_runs(POOLS, world(), service, &runs) == ZEBUMORN_REFUSED_DATE && runs == 0);

    CHECK(zebumorn_read_date(20000229) == ZEBUMORN_OK && zebumorn_read_date(20990229) == ZEBUMORN_REFUSED_DATE);
    CHECK(zebumorn_day_of(20000229) == 11016 && zebumorn_weekday_of(20000229) == 1);
}

static void drawing(void) {
    double lat[4] = {9, 9, 9, 9}, lon[4] = {9, 9, 9, 9};
    size_t points = 7;
    CHECK(zebumorn_leg_geometry(POOLS, world(), t, 0, 1, lat, 2, lon, 2, &points) == ZEBUMORN_REFUSED_NO_ROOM);
    CHECK(points == 7 && lat[0] == 9);
    CHECK(zebumorn_leg_geometry(POOLS, world(), t, 0, 1, lat, 4, lon, 4, &points) == ZEBUMORN_OK && points == 3);
    CHECK(lat[0] == 0.0 && lat[1] == 0.1 && lat[2] == 0.0 && lat[3] == 9 && lon[0] == 0.0 && lon[1] == 0.5 &&
          lon[2] == 1.0);

    const zebumorn_points nowhere = {zero, zero};
    zebumorn_journey_legs legs = {.walk = unset,
                                  .first = zero,
                                  .count = {10, 1},
                                  .start = nowhere,
                                  .started = unset,
                                  .end = nowhere,
                                  .ended = unset,
                                  .points = line};
    CHECK(zebumorn_journey_geometry(POOLS, legs, lat, 4, lon, 4, &points) == ZEBUMORN_OK && points == 2 &&
          lon[1] == 0.5);
    legs.points.lat.n = 1;
    legs.points.lon.n = 1;
    CHECK(zebumorn_journey_geometry(POOLS, legs, lat, 4, lon, 4, &points) == ZEBUMORN_REFUSED_OUTSIDE && points == 2);
}

static void backfill(void) {
    float dist[3] = {9, 9, 9};
    uint8_t measured[3] = {9, 9, 9};
    CHECK(zebumorn_backfill_trips(POOLS, world(), dist, 1, measured, 1) == ZEBUMORN_REFUSED_NO_ROOM && dist[0] == 9);
    CHECK(zebumorn_backfill_trip(POOLS, world(), 1, dist, 3, measured, 3) == ZEBUMORN_OK);
    CHECK(measured[0] == 0 && measured[1] == 0 && measured[2] == 9); /* there is no trip 1 */
    CHECK(zebumorn_backfill_trips(POOLS, world(), dist, 3, measured, 3) == ZEBUMORN_OK);
    CHECK(dist[0] == 0 && dist[1] > 113000 && dist[2] == 9 && measured[0] == 1 && measured[1] == 1 && measured[2] == 9);
    const float whole = dist[1];

    zebumorn_stop_time records[] = {{0, 100, 100, 1, false, 9}, {1, 200, 200, 2, false, 9}};
    const zebumorn_beside beside = {.stops = world().stops, .line = line};
    uint32_t at[2];
    CHECK(zebumorn_backfill_records(records, 2, bytes, sizeof bytes, words, sizeof words / 4, reals, sizeof reals / 8,
                                    beside, at, 2, dist, 2, measured, 1) == ZEBUMORN_REFUSED_NO_ROOM &&
          !records[0].measured);
    CHECK(zebumorn_backfill_records(records, 2, bytes, sizeof bytes, words, sizeof words / 4, reals, sizeof reals / 8,
                                    beside, at, 2, dist, 2, measured, 2) == ZEBUMORN_OK);
    CHECK(records[0].measured && records[0].dist == 0 && records[1].measured && records[1].dist == whole);
    CHECK(records[1].stop == 1 && records[1].arrival == 200 && records[1].sequence == 2);
}

static void stops(void) {
    uint32_t vertices[3] = {9, 9, 9};
    zebumorn_rows rows = zebumorn_project_trip(POOLS, world(), t, vertices, 1);
    CHECK(rows.refusal == ZEBUMORN_REFUSED_NO_ROOM && rows.rows == 0 && vertices[0] == 9);
    rows = zebumorn_project_trip(POOLS, world(), t, vertices, 3);
    CHECK(rows.refusal == ZEBUMORN_OK && rows.rows == 2 && vertices[0] == 0 && vertices[1] == 2 && vertices[2] == 9);

    zebumorn_step step = zebumorn_project_stop(reals + 4, 3, reals + 7, 3, 0, 0.1, 0.5);
    CHECK(step.refusal == ZEBUMORN_OK && step.cursor == 1 && step.vertex == 1);
    step = zebumorn_project_stop(reals + 4, 3, reals + 7, 3, 0, 91.0, 0.5);
    CHECK(step.refusal == ZEBUMORN_REFUSED_OFF_GLOBE && step.cursor == 0 && step.vertex == 0);
}

static void line_alone(void) {
    const zebumorn_span half = {10, 1}, nan = {11, 1};
    zebumorn_position position = zebumorn_interpolate(POOLS, ZEBUMORN_ALONG_LINE, line, no_points, none, half);
    CHECK(position.refusal == ZEBUMORN_OK && position.answered && fabs(position.lat - 0.1) < 1e-6 &&
          fabs(position.lon - 0.5) < 1e-6);
    position = zebumorn_interpolate(POOLS, ZEBUMORN_BETWEEN_ENDS, line, no_points, none, half);
    CHECK(position.refusal == ZEBUMORN_OK && !position.answered); /* no ends are lent */
    position = zebumorn_interpolate(POOLS, 5, line, no_points, none, half);
    CHECK(position.refusal == ZEBUMORN_REFUSED_UNEQUAL && !position.answered);

    const zebumorn_metres metres = zebumorn_calibrate(POOLS, line, ends, (zebumorn_span){0, 2}, none);
    CHECK(metres.refusal == ZEBUMORN_OK && metres.answered && metres.shift == 0.0 && metres.scale == 1000.0);

    zebumorn_scale scale = zebumorn_snap_scale(POOLS, no_points, no_points, none, half);
    CHECK(scale.refusal == ZEBUMORN_OK && scale.answered && scale.scale == 0.5);
    scale = zebumorn_snap_scale(POOLS, no_points, no_points, none, nan);
    CHECK(scale.refusal == ZEBUMORN_REFUSED_NOT_FINITE && !scale.answered);
}

static void measure(void) {
    double out = 9;
    CHECK(zebumorn_haversine_m(91, 0, 0, 1, &out) == ZEBUMORN_REFUSED_OFF_GLOBE && out == 9);
    CHECK(zebumorn_haversine_m(0, 0, 0, 1, &out) == ZEBUMORN_OK && fabs(out - 111194.9) < 0.1);
    CHECK(zebumorn_bearing_deg(0, 0, 0, 1, &out) == ZEBUMORN_OK && out == 90);
}

int main(void) {
    estimate();
    timetable();
    drawing();
    backfill();
    stops();
    line_alone();
    measure();
    return failed;
}
