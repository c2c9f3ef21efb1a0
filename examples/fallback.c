/* When the crusaders round can't settle: every sound cabinet of a station has a CCA sheet and an FCA sheet of one
 * round, and settles the first or falls back to the second. Prints for each which it was, the new value, and after a
 * fallback the readings that it went by; then how far they are apart, how far they can be, and what a dispatcher does.
 * The example knows how many are faulty. With at most m the plan is stepped. With more the wider limit holds, whether
 * or not a cabinet fell back; where one did, all stamps of the round are marked, and where none did, nobody is told.
 * Ends with 1 where a call refuses.
 *
 *     gcc -Iinclude examples/fallback.c target/staticlib/libtohiranga.a -o fallback && ./fallback
 */
#include "tohiranga.h"
#include <inttypes.h>
#include <stdio.h>

enum { MOST = 7 };

/* The first cabinets are good and read `first`. The others send `high` to cabinet 1 and `low` to the rest; they relay
 * to the first `helped` cabinets what each of these heard itself, and to the rest nothing. */
struct station {
    struct tohiranga_settings settings;
    int good, helped;
    int32_t low, high, first[MOST];
};

static int32_t sent(const struct station *st, int r, int s) {
    return r < st->good ? st->first[r] : s == 1 ? st->high : st->low;
}

/* The CCA sheet of cabinet p: entry r * N + s is the copy of r's value that s relayed to p. */
static uint64_t relayed(const struct station *st, int p, uint8_t *sheet, size_t sheet_len) {
    uint8_t marks[MOST * MOST];
    int32_t copies[MOST * MOST];
    const int n = st->settings.n;
    const size_t entries = TOHIRANGA_ENTRIES(n, TOHIRANGA_CCA);
    for (int r = 0; r < n; r++)
        for (int s = 0; s < n; s++) {
            marks[r * n + s] = s < st->good || p < st->helped;
            copies[r * n + s] = s < st->good ? sent(st, r, s) : p < st->helped ? sent(st, r, p) : 0;
        }
    return tohiranga_write(st->settings, marks, entries, copies, entries, sheet, sheet_len);
}

/* The FCA sheet of cabinet p: what it heard from each. N, m and the window are the same. */
static uint64_t heard(const struct station *st, int p, uint8_t *sheet, size_t sheet_len) {
    struct tohiranga_settings settings = st->settings;
    uint8_t marks[MOST];
    int32_t readings[MOST];
    for (int r = 0; r < settings.n; r++) {
        marks[r] = 1;
        readings[r] = sent(st, r, p);
    }
    settings.rule = TOHIRANGA_FCA;
    return tohiranga_write(settings, marks, settings.n, readings, settings.n, sheet, sheet_len);
}

static int32_t reading(const uint8_t *at) {
    return tohiranga_ticks(at[0] + 256 * (at[1] + 256 * (at[2] + (uint64_t)256 * at[3])));
}

/* Cabinet p settles one of its sheets: its new value, and whether it fell back; the first refusal of a call, or 0. */
static uint32_t settle(const struct station *st, int p, int32_t *value, int *fell_back) {
    uint8_t crusaders[TOHIRANGA_SHEET_SIZE(MOST, TOHIRANGA_CCA)], direct[TOHIRANGA_SHEET_SIZE(MOST, TOHIRANGA_FCA)];
    uint8_t answer[TOHIRANGA_ANSWER_SIZE(MOST)];
    const uint64_t size = relayed(st, p, crusaders, sizeof crusaders), other = heard(st, p, direct, sizeof direct);
    if (tohiranga_number(size) != 0 || tohiranga_number(other) != 0)
        return tohiranga_number(size) != 0 ? tohiranga_number(size) : tohiranga_number(other);
    const struct tohiranga_fallback given =
        tohiranga_fallback(crusaders, (size_t)size, direct, (size_t)other, answer, sizeof answer);
    if (tohiranga_number(given.answer) != 0)
        return tohiranga_number(given.answer);
    *value = tohiranga_ticks(tohiranga_answer_value(answer, (size_t)given.answer));
    *fell_back = given.settled_by == TOHIRANGA_BY_DIRECT;
    printf("cabinet %d: settled by %s, new value %" PRId32, p, *fell_back ? "direct" : "crusaders", *value);
    for (uint32_t at = 0; *fell_back && at < given.length; at += 4)
        printf("%s %" PRId32, at == 0 ? ", heard" : "", reading(direct + given.start + at));
    printf("\n");
    return 0;
}

/* How far two sound cabinets can be apart where so many are bad, fewer than N - m: the quotient's whole part and one
 * more; of an odd N no mean is a half, and the quotient rounded up is enough. */
static int32_t limit(struct tohiranga_settings settings, int bad) {
    const int32_t n = settings.n, parts = (n + 2 * bad + 2 * settings.m) * (int32_t)settings.window;
    return n % 2 == 0 ? parts / n + 1 : (parts + n - 1) / n;
}

static int show(const struct station *st, uint32_t accuracy) {
    const struct tohiranga_settings settings = st->settings;
    const int bad = settings.n - st->good;
    int32_t low = 0, high = 0;
    int fallen = 0;
    printf("N %d, m %d, window %" PRIu32 ", faulty %d\n", settings.n, settings.m, settings.window, bad);
    for (int p = 0; p < st->good; p++) {
        int32_t value = 0;
        int fell_back = 0;
        const uint32_t refused = settle(st, p, &value, &fell_back);
        if (refused != 0) {
            fprintf(stderr, "refused %" PRIu32 ": %s\n", refused, tohiranga_refusal_text(refused));
            return 1;
        }
        low = p == 0 || value < low ? value : low;
        high = p == 0 || value > high ? value : high;
        fallen += fell_back;
    }
    printf("%" PRId32 " apart, ", high - low);
    if (bad <= settings.m) {
        const struct tohiranga_planning next = tohiranga_step(tohiranga_plan(settings, accuracy, 0).plan);
        const uint32_t window = next.plan.settings.window;
        printf("at most %" PRIu32 "; nobody fell back: the next window is %" PRIu32 "\n", window, window);
        return 0;
    }
    const uint32_t planned = tohiranga_plan(settings, accuracy, 1).plan.settings.window;
    printf("at most %" PRId32 "; ", limit(settings, bad));
    if (fallen == 0)
        printf("nobody fell back, and nobody is told");
    else
        printf("%d fell back: mark the stamps", fallen);
    printf("; %" PRIu32 " was planned, and does not follow\n", planned);
    return 0;
}

int main(void) {
    const struct tohiranga_settings four = {4, 1, TOHIRANGA_CCA, TOHIRANGA_MEDIAN, 2};
    const struct tohiranga_settings seven = {7, 2, TOHIRANGA_CCA, TOHIRANGA_MEDIAN, 7};
    const struct station few = {four, 3, 1, -2, 4, {0, 2, 2}};
    const struct station mixed = {four, 2, 1, -2, 4, {0, 2}};
    const struct station untold = {four, 2, 2, -2, 4, {0, 2}};
    const struct station odd = {seven, 4, 1, -7, 14, {0, 0, 7, 7}};
    return show(&few, 1) || show(&mixed, 1) || show(&untold, 1) || show(&odd, 7);
}
