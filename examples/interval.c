/* How long between rounds: from a station's settings to the precision after one round or more, and from that to the interval. Every
 * cabinet starts so many rounds anew each time its clock, as the rounds have set it, reads an interval more. docs/INTERVAL.md says
 * what the numbers mean.
 * Ends with 1 where the planner refuses.
 *
 *     gcc -Iinclude examples/interval.c target/staticlib/libtohiranga.a -o interval && ./interval
 */
#include "tohiranga.h"
#include <inttypes.h>
#include <stdio.h>

/* The drift is twice what a clock's rate may be wrong either way, in parts per million. */
static int show(struct tohiranga_settings settings, uint32_t accuracy, uint32_t drift, uint32_t most) {
    printf("N %d, m %d, window %" PRIu32 ", drift %" PRIu32 "\n", settings.n, settings.m, settings.window, drift);
    for (uint32_t rounds = 1; rounds <= most; rounds++) {
        const struct tohiranga_planning planned = tohiranga_plan(settings, accuracy, rounds);
        if (tohiranga_number(planned.answer) != 0) {
            fprintf(stderr, "refused %" PRIu32 ": %s\n", tohiranga_number(planned.answer),
                    tohiranga_refusal_text(tohiranga_number(planned.answer)));
            return 1;
        }
        const uint32_t precision = planned.plan.settings.window;
        printf("rounds %" PRIu32 ", precision %" PRIu32 ": ", rounds, precision);
        const struct tohiranga_interval given = tohiranga_interval(settings.window, precision, drift);
        if (tohiranga_number(given.answer) != 0) {
            printf("refused %" PRIu32 ", %s\n", tohiranga_number(given.answer), tohiranga_refusal_text(tohiranga_number(given.answer)));
            continue;
        }
        const uint64_t milliseconds = given.greatest * 1000 / TOHIRANGA_TICKS_PER_SECOND;
        printf("%" PRIu64 " to %" PRIu64 " ticks, at most %" PRIu64 ".%03" PRIu64 " seconds\n", given.least, given.greatest,
               milliseconds / 1000, milliseconds % 1000);
    }
    return 0;
}

int main(void) {
    const struct tohiranga_settings station = {7, 2, TOHIRANGA_FCA, TOHIRANGA_MEDIAN, 16777};
    const struct tohiranga_settings narrow = {4, 1, TOHIRANGA_FCA, TOHIRANGA_MEDIAN, 2};
    return show(station, 16777, 100, 5) || show(station, 16777, 20, 3) || show(narrow, 2, 100, 1);
}
