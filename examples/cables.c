/* Cable runs that differ: two sound cabinets of one station settle their sheets with a spread. The last m cabinets lie. The one
 * cabinet reads 0 of each good one, the other reads the spread of each, and the liars tell either as much as is still accepted.
 * Prints both new values, how far they are apart, and how far they can be where at most m lie. Ends with 1 where a call refuses.
 *
 *     gcc -Iinclude examples/cables.c target/staticlib/libtohiranga.a -o cables && ./cables
 */
#include "tohiranga.h"
#include <inttypes.h>
#include <stdio.h>

/* The new value of a cabinet that reads this of the good ones and that of the liars; the first refusal of a call, or 0. */
static uint32_t settle(struct tohiranga_settings settings, uint32_t spread, int32_t good, int32_t liars, int32_t *value) {
    uint8_t marks[TOHIRANGA_MAX_CABINETS], sheet[TOHIRANGA_SHEET_SIZE(64, TOHIRANGA_FCA)], answer[TOHIRANGA_MAX_ANSWER];
    int32_t readings[TOHIRANGA_MAX_CABINETS];
    for (int r = 0; r < settings.n; r++) {
        marks[r] = 1;
        readings[r] = r < settings.n - settings.m ? good : liars;
    }
    const uint64_t size = tohiranga_write(settings, marks, settings.n, readings, settings.n, sheet, sizeof sheet);
    if (tohiranga_number(size) != 0)
        return tohiranga_number(size);
    const uint64_t length = tohiranga_settle_spread(sheet, (size_t)size, spread, answer, sizeof answer);
    if (tohiranga_number(length) != 0)
        return tohiranga_number(length);
    *value = tohiranga_ticks(tohiranga_answer_value(answer, (size_t)length));
    return 0;
}

static int show(struct tohiranga_settings settings, uint32_t spread) {
    const int32_t D = (int32_t)spread, span = (int32_t)(settings.window + spread);
    int32_t low, high;
    uint32_t refused = settle(settings, spread, 0, -span, &low);
    if (refused == 0)
        refused = settle(settings, spread, D, D + span, &high);
    if (refused != 0) {
        fprintf(stderr, "refused %" PRIu32 ": %s\n", refused, tohiranga_refusal_text(refused));
        return 1;
    }
    /* the quotient's whole part and one more; of an odd N no mean is a half, and the quotient rounded up is enough */
    const int32_t parts = 2 * settings.m * span, n = settings.n, limit = D + (n % 2 == 0 ? parts / n + 1 : (parts + n - 1) / n);
    printf("N %d, m %d, window %" PRIu32 ", spread %" PRIu32 ": new values %" PRId32 " and %" PRId32 ", %" PRId32
           " apart; at most %" PRId32 "\n",
           settings.n, settings.m, settings.window, spread, low, high, high - low, limit);
    return 0;
}

int main(void) {
    const struct tohiranga_settings four = {4, 1, TOHIRANGA_FCA, TOHIRANGA_MEDIAN, 1};
    const struct tohiranga_settings station = {7, 2, TOHIRANGA_FCA, TOHIRANGA_MEDIAN, 16777};
    const struct tohiranga_settings halves = {4, 1, TOHIRANGA_FCA, TOHIRANGA_MEDIAN, 2};
    return show(four, 2) || show(halves, 4) || show(station, 0) || show(station, 1677);
}
