/* Where a ferry is, halfway in time between two calls: two stops on the equator, a degree apart.
 *
 *     tools/staticlib exports_estimate
 *     cc -Iinclude examples/c/estimate.c target/staticlib/libexports_estimate.a -lm -o /tmp/estimate && /tmp/estimate */
#include <stdio.h>

#include "zebumorn.h"

int main(void) {
    /* the pools: ids f, t, f:a, f:b, then flags; starts and lengths of ids, sequences, rows; moments; degrees */
    const uint8_t bytes[] = {'f', 't', 'f', ':', 'a', 'f', ':', 'b', 1, 1, 0, 0};
    const uint32_t words[] = {2, 5, 3, 3, 1, 2, 0, 1, 0, 0};
    const int64_t times[] = {100, 400, 250, 0};
    const double reals[] = {0.0, 0.0, 1.0};
    const float dists[] = {0};

    const zebumorn_span set = {8, 2}, unset = {10, 2}, moments = {0, 2}, sequences = {4, 2}, rows = {6, 2};
    const zebumorn_ids stops = {{0, 2}, {2, 2}}, empty = {{8, 2}, {8, 2}};
    const zebumorn_ids f = {{6, 1}, {4, 1}}, t = {{4, 1}, {4, 1}}, no_route = {{8, 1}, {8, 1}};
    const zebumorn_span no = {10, 1}, now = {2, 1}, offset = {3, 1};

    const zebumorn_tables tables = {
        .stops = {.own = stops, .raw = empty, .lat = {0, 2}, .lon = {1, 2}, .positioned = set},
        .stopkeys = {.id = stops, .row = rows},
        .updates = {.sequence = sequences, .stop = stops, .named = set, .arrival = moments, .arrives = set,
                    .departure = moments, .departs = set, .arrdelay = moments, .arrdelayed = unset,
                    .depdelay = moments, .depdelayed = unset},
        .sailing = {.feed = f, .key = t, .route = no_route, .routed = no, .cancelled = no, .now = now,
                    .offset = offset},
    };

    const zebumorn_answer a = zebumorn_estimate(bytes, 12, words, 10, times, 4, reals, 3, dists, 0, tables);
    if (a.refusal != ZEBUMORN_OK) {
        printf("refused: %u\n", a.refusal);
    } else if (!a.answered) {
        printf("silence\n");
    } else {
        printf("call %u, stop %u, status %u: ", a.sequence, (unsigned)a.stop, a.status);
        printf("latitude %g, longitude %g", a.lat, a.lon);
        if (a.bears) printf(", bearing %g", a.bearing);
        printf("\n");
    }
    return a.refusal != ZEBUMORN_OK;
}
