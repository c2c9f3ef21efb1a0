/* Bad input through the C interface. Every buffer that is lent stands between two pages that may not be touched, once against
 * the page before and once against the page after, so a byte read or written outside of it ends the test. */
#define _DEFAULT_SOURCE
#include "tohiranga.h"
#include <inttypes.h>
#include <stdio.h>
#include <stdlib.h>
#include <string.h>
#include <sys/mman.h>
#include <unistd.h>

static unsigned long tried;

static void expect(int holds, const char *what, int line) {
    tried++;
    if (!holds) {
        printf("FAILED: line %d: %s\n", line, what);
        exit(1);
    }
}
#define EXPECT(holds) expect((holds), #holds, __LINE__)

#define REFUSED(number, place) (((uint64_t)(number) << 32) + (place))

/* ---- Lent buffers */

enum { OLD = 0xa5, PAGE = 4096, LARGEST = 8 * PAGE, LONGEST = TOHIRANGA_MAX_TRACE + PAGE };

struct lent {
    uint8_t *pages, *start;
    size_t len, room;
};

static int against_the_end;

/* A buffer of old contents between two forbidden pages. */
static struct lent lend(size_t len) {
    struct lent l = {.len = len, .room = (len + PAGE - 1) / PAGE * PAGE + (len == 0 ? PAGE : 0)};
    l.pages = mmap(NULL, l.room + 2 * PAGE, PROT_NONE, MAP_PRIVATE | MAP_ANONYMOUS, -1, 0);
    EXPECT(l.pages != MAP_FAILED);
    EXPECT(mprotect(l.pages + PAGE, l.room, PROT_READ | PROT_WRITE) == 0);
    memset(l.pages + PAGE, OLD, l.room);
    l.start = l.pages + PAGE + (against_the_end ? l.room - len : 0);
    return l;
}

/* Whether every byte from `from` on, and every byte of the page beside the buffer, is as it was. */
static int kept_from(struct lent l, size_t from) {
    for (uint8_t *p = l.pages + PAGE; p < l.pages + PAGE + l.room; p++)
        if (*p != OLD && !(p >= l.start && p < l.start + from))
            return 0;
    return 1;
}

static int kept(struct lent l) { return kept_from(l, 0); }

static void give_back(struct lent l) { munmap(l.pages, l.room + 2 * PAGE); }

static struct lent lend_copy(const void *bytes, size_t len) {
    struct lent l = lend(len);
    if (len != 0)
        memcpy(l.start, bytes, len);
    return l;
}

/* ---- A sheet that settles: every reading is present, cabinet r reads r. With a trimming rule all but m at either end are left. */

static size_t make_sheet(uint8_t *sheet, uint8_t n, uint8_t rule) {
    size_t entries = TOHIRANGA_ENTRIES(n, rule);
    memset(sheet, 0, TOHIRANGA_SHEET_SIZE(n, rule));
    sheet[0] = n;
    sheet[1] = (uint8_t)((n - 1) / 3);
    sheet[2] = rule;
    sheet[3] = rule <= TOHIRANGA_CCA ? TOHIRANGA_MEDIAN : 0;
    sheet[4] = 100;
    memset(sheet + 8, 1, entries);
    for (size_t e = 0; e < entries; e++)
        sheet[8 + entries + 4 * e] = (uint8_t)(rule == TOHIRANGA_CCA ? e / n : e);
    return 8 + 5 * entries;
}

static int is_left(const uint8_t *good, uint32_t r) {
    return good[2] <= TOHIRANGA_CCA || (good[1] <= r && r < (uint32_t)(good[0] - good[1]));
}

static uint8_t left(const uint8_t *good) { return (uint8_t)(good[2] <= TOHIRANGA_CCA ? good[0] : good[0] - 2 * good[1]); }

static uint64_t settle(struct lent sheet, struct lent answer) {
    return tohiranga_settle(sheet.start, sheet.len, answer.start, answer.len);
}

static void settle_bad(const uint8_t *good, size_t len, uint8_t n) {
    size_t size = TOHIRANGA_ANSWER_SIZE(n);
    struct lent sheet = lend_copy(good, len), room = lend(size), wide = lend(size + 7), tight = lend(size - 1), none = lend(0);
    EXPECT(settle(sheet, room) == size && kept_from(room, size));
    EXPECT(settle(sheet, wide) == size && kept_from(wide, size));
    EXPECT(memcmp(room.start, wide.start, size) == 0 && room.start[0] == n && room.start[1] == left(good));
    EXPECT(settle(sheet, tight) == REFUSED(7, 0) && kept(tight));
    EXPECT(settle(sheet, none) == REFUSED(7, 0) && kept(none));
    EXPECT(tohiranga_settle(sheet.start, sheet.len, NULL, 0) == REFUSED(7, 0));
    EXPECT(tohiranga_settle(NULL, 0, NULL, 0) == REFUSED(1, 0));
    EXPECT(memcmp(sheet.start, good, len) == 0);
    give_back(room), room = lend(size);
    EXPECT(tohiranga_settle(NULL, 0, room.start, room.len) == REFUSED(1, 0) && kept(room));
    for (size_t cut = 0; cut < len; cut = cut < 9 ? cut + 1 : cut + 97 < len - 1 ? cut + 97 : cut < len - 1 ? len - 1 : len) {
        struct lent part = lend_copy(good, cut);
        EXPECT(settle(part, room) == (cut < 8 ? REFUSED(1, 0) : REFUSED(6, 0)) && kept(room));
        give_back(part);
    }
    struct lent longer = lend(len + 1);
    memcpy(longer.start, good, len);
    EXPECT(settle(longer, room) == REFUSED(6, 0) && kept(room));
    sheet.start[len - 1] = 1; /* the top byte of the last reading */
    sheet.start[8] = 2;
    EXPECT(settle(sheet, room) == REFUSED(8, 0) && kept(room));
    sheet.start[8] = 1;
    size_t last = (len - 8) / 5 - 1;
    sheet.start[8 + last] = 0;
    EXPECT(settle(sheet, room) == REFUSED(9, last) && kept(room));
    give_back(sheet), give_back(room), give_back(wide), give_back(tight), give_back(none), give_back(longer);
}

/* ---- Settling with a spread */

static uint64_t settle_spread(struct lent sheet, uint32_t spread, struct lent answer) {
    return tohiranga_settle_spread(sheet.start, sheet.len, spread, answer.start, answer.len);
}

static void spread_refused(struct lent sheet, uint32_t spread, struct lent answer, uint64_t wanted) {
    EXPECT(settle_spread(sheet, spread, answer) == wanted && kept(answer));
}

/* 16 is for a spread above 100,000, or above 0 by another rule than FCA; it comes after 5, and before 6. */
static void spread_bad(const uint8_t *good, size_t len, uint8_t n, uint8_t rule) {
    const size_t size = TOHIRANGA_ANSWER_SIZE(n);
    const uint32_t most = TOHIRANGA_MAX_SPREAD, fit[] = {1, 2, 99999, most}, unfit[] = {most + 1, 1u << 31, UINT32_MAX};
    struct lent sheet = lend_copy(good, len), cut = lend_copy(good, len - 1), stub = lend_copy(good, 7);
    struct lent room = lend(size), plain = lend(size), tight = lend(size - 1);
    for (size_t i = 0; i < sizeof unfit / sizeof *unfit; i++) {
        spread_refused(sheet, unfit[i], room, REFUSED(16, 0));
        spread_refused(sheet, unfit[i], tight, REFUSED(16, 0));
        spread_refused(cut, unfit[i], room, REFUSED(16, 0));
        spread_refused(stub, unfit[i], room, REFUSED(1, 0));
        EXPECT(tohiranga_settle_spread(sheet.start, sheet.len, unfit[i], NULL, 0) == REFUSED(16, 0));
        EXPECT(tohiranga_settle_spread(NULL, 0, unfit[i], NULL, 0) == REFUSED(1, 0));
        sheet.start[7] = 1; /* a window above 1,000,000 */
        spread_refused(sheet, unfit[i], room, REFUSED(5, 0));
        sheet.start[7] = 0;
    }
    EXPECT(settle(sheet, plain) == size);
    for (size_t i = 0; i < sizeof fit / sizeof *fit; i++) {
        spread_refused(cut, fit[i], tight, rule != TOHIRANGA_FCA ? REFUSED(16, 0) : REFUSED(6, 0));
        spread_refused(sheet, fit[i], tight, rule != TOHIRANGA_FCA ? REFUSED(16, 0) : REFUSED(7, 0));
        if (rule != TOHIRANGA_FCA)
            spread_refused(sheet, fit[i], room, REFUSED(16, 0));
        else /* all are accepted without a spread */
            EXPECT(settle_spread(sheet, fit[i], room) == size && memcmp(room.start, plain.start, size) == 0 && kept_from(room, size));
    }
    give_back(room), room = lend(size);
    spread_refused(cut, 0, room, REFUSED(6, 0));
    spread_refused(sheet, 0, tight, REFUSED(7, 0));
    EXPECT(settle_spread(sheet, 0, room) == size && memcmp(room.start, plain.start, size) == 0 && kept_from(room, size));
    EXPECT(memcmp(sheet.start, good, len) == 0);
    give_back(sheet), give_back(cut), give_back(stub), give_back(room), give_back(plain), give_back(tight);
}

/* Four cabinets, planned for one fault, FCA with median: the answer, and the new value where there is one. */
static uint64_t settle_four(uint32_t window, const int32_t *readings, uint32_t spread, int32_t *value) {
    const struct tohiranga_settings settings = {4, 1, TOHIRANGA_FCA, TOHIRANGA_MEDIAN, window};
    const uint8_t marks[4] = {1, 1, 1, 1};
    uint8_t sheet[TOHIRANGA_SHEET_SIZE(4, TOHIRANGA_FCA)], answer[TOHIRANGA_ANSWER_SIZE(4)];
    EXPECT(tohiranga_write(settings, marks, 4, readings, 4, sheet, sizeof sheet) == sizeof sheet);
    memset(answer, OLD, sizeof answer);
    const uint64_t said = tohiranga_settle_spread(sheet, sizeof sheet, spread, answer, sizeof answer);
    if (tohiranga_number(said) == 0)
        *value = tohiranga_ticks(tohiranga_answer_value(answer, (size_t)said));
    else
        for (size_t i = 0; i < sizeof answer; i++)
            EXPECT(answer[i] == OLD);
    return said;
}

static int four_give(uint32_t window, const int32_t *readings, uint32_t spread, int32_t wanted) {
    int32_t value;
    return settle_four(window, readings, spread, &value) == TOHIRANGA_ANSWER_SIZE(4) && value == wanted;
}

static void spreads(void) {
    /* request 2's own numbers: 4 apart, as the limit allows; with a tick less the liar's reading is not accepted */
    const int32_t low[4] = {0, 0, 0, -3}, high[4] = {2, 2, 2, 5};
    EXPECT(four_give(1, low, 2, -1) && four_give(1, high, 2, 3));
    EXPECT(four_give(1, low, 1, 0) && four_give(1, high, 1, 2));
    /* request 4: where the quotient is whole and the means are halves, 8 apart, as 28/4 plus one allows */
    const int32_t lowest[4] = {0, 0, 0, -6}, highest[4] = {4, 4, 4, 10};
    EXPECT(four_give(2, lowest, 4, -2) && four_give(2, highest, 4, 6));
    /* cases 1 and 2 of the scope: the span is window and spread together, also for too many faults */
    const int32_t cases[4] = {0, 4, 10, 500};
    int32_t none;
    EXPECT(four_give(10, cases, 0, 4) && four_give(9, cases, 1, 4) && four_give(0, cases, 10, 4));
    EXPECT(settle_four(9, cases, 0, &none) == REFUSED(10, 0) && settle_four(0, cases, 9, &none) == REFUSED(10, 0));
    /* the widest span, at either end of the readings */
    const int32_t bottom[4] = {INT32_MIN, INT32_MIN, INT32_MIN + 1100000, 0}, top[4] = {0, INT32_MAX, INT32_MAX, INT32_MAX - 1100000};
    EXPECT(four_give(TOHIRANGA_MAX_WINDOW, bottom, TOHIRANGA_MAX_SPREAD, INT32_MIN + 275000));
    EXPECT(four_give(TOHIRANGA_MAX_WINDOW, top, TOHIRANGA_MAX_SPREAD, INT32_MAX - 275000));
    EXPECT(settle_four(TOHIRANGA_MAX_WINDOW, bottom, TOHIRANGA_MAX_SPREAD - 1, &none) == REFUSED(10, 0));
    EXPECT(settle_four(TOHIRANGA_MAX_WINDOW, top, TOHIRANGA_MAX_SPREAD - 1, &none) == REFUSED(10, 0));
    EXPECT(settle_four(TOHIRANGA_MAX_WINDOW, bottom, TOHIRANGA_MAX_SPREAD + 1, &none) == REFUSED(16, 0));
}

/* ---- Halves */

/* Request 4: a half goes to the even neighbour of the new value, at either end of the readings and below zero too. */
static void halves(void) {
    const int32_t lows[] = {INT32_MIN, INT32_MIN + 1, -4, -3, -2, -1, 0, 1, 2, 3, INT32_MAX - 2, INT32_MAX - 1};
    for (size_t i = 0; i < sizeof lows / sizeof *lows; i++) {
        const int32_t low = lows[i], even = low % 2 == 0 ? low : low + 1, of_two[4] = {low, low, low + 1, low + 1};
        EXPECT(four_give(1, of_two, 0, even));
        const int32_t under[4] = {low, low, low, low + 1}, over[4] = {low, low + 1, low + 1, low + 1};
        EXPECT(four_give(1, under, 0, low) && four_give(1, over, 0, low + 1));
    }
    /* the liar says 3 to one and -1 to the other: 6/4 goes to 2, 2/4 to 0, as far apart as the next window, 2 */
    const int32_t one[4] = {0, 1, 2, 3}, another[4] = {0, 1, 2, -1};
    EXPECT(four_give(2, one, 0, 2) && four_give(2, another, 0, 0));
    const struct tohiranga_settings c = {4, 1, TOHIRANGA_FCA, TOHIRANGA_MEDIAN, 2};
    EXPECT(tohiranga_plan(c, 0, 1).plan.settings.window == 2);
}

/* ---- The trimming rules */

/* A sheet of a trimming rule settles with this new value and these marks; all else of its answer follows from them. */
static int trim(uint8_t rule, uint8_t n, uint8_t m, const uint8_t *marks, const int32_t *readings, int32_t value, const uint8_t *wanted) {
    const struct tohiranga_settings settings = {n, m, rule, 0, 0};
    uint8_t sheet[TOHIRANGA_SHEET_SIZE(64, TOHIRANGA_TRIMMED_MEAN)], answer[TOHIRANGA_MAX_ANSWER];
    const uint64_t size = tohiranga_write(settings, marks, n, readings, n, sheet, sizeof sheet);
    EXPECT(size == TOHIRANGA_SHEET_SIZE(n, rule) && size == 8 + 5 * (size_t)n);
    memset(answer, OLD, sizeof answer);
    const size_t len = TOHIRANGA_ANSWER_SIZE(n);
    EXPECT(tohiranga_settle(sheet, (size_t)size, answer, sizeof answer) == len && (n == 64 || answer[len] == OLD));
    EXPECT(tohiranga_answer_cabinets(answer, len) == n && tohiranga_answer_count(answer, len) == (uint64_t)(n - 2 * m));
    EXPECT(tohiranga_answer_estimate(answer, len) == tohiranga_answer_value(answer, len));
    int as_wanted = tohiranga_ticks(tohiranga_answer_value(answer, len)) == value;
    for (uint32_t r = 0; r < n; r++) {
        as_wanted &= tohiranga_answer_mark(answer, len, r) == wanted[r];
        as_wanted &= tohiranga_ticks(tohiranga_answer_used(answer, len, r)) == (wanted[r] == 1 ? readings[r] : value);
    }
    return as_wanted;
}

/* All readings present, by rule 2 and by rule 3. */
static int both_trim(uint8_t n, uint8_t m, const int32_t *readings, int32_t midpoint, int32_t mean, const uint8_t *wanted) {
    uint8_t marks[64];
    memset(marks, 1, sizeof marks);
    return trim(TOHIRANGA_TRIMMED_MIDPOINT, n, m, marks, readings, midpoint, wanted) &&
           trim(TOHIRANGA_TRIMMED_MEAN, n, m, marks, readings, mean, wanted);
}

/* Request 5: m lowest and m highest are dropped, equal ones in order of number, a missing one counting as 0. */
static void trims(void) {
    const int32_t four[4] = {0, 4, 10, 500}, seven[7] = {11, 900, 1, 3, -8, 4, 700}, equal[4] = {5, 5, 5, 5};
    const uint8_t of_four[4] = {2, 1, 1, 2}, of_seven[7] = {1, 2, 2, 1, 2, 1, 2}, all[2] = {1, 1};
    EXPECT(both_trim(4, 1, four, 7, 7, of_four) && both_trim(7, 2, seven, 7, 6, of_seven));
    EXPECT(both_trim(4, 1, equal, 5, 5, of_four));
    /* the sheet examples/trimmed.sheet, where a missing reading is left: 7/2 and 12/3 */
    const int32_t gap[7] = {-8, 5, 0, 9, 900, -3, 7};
    const uint8_t present[7] = {1, 1, 0, 1, 1, 1, 1}, of_gap[7] = {2, 1, 0, 2, 2, 2, 1};
    EXPECT(trim(TOHIRANGA_TRIMMED_MIDPOINT, 7, 2, present, gap, 4, of_gap));
    EXPECT(trim(TOHIRANGA_TRIMMED_MEAN, 7, 2, present, gap, 4, of_gap));
    /* sums that 32 bits do not hold, and halves */
    const int32_t lows[] = {INT32_MIN, INT32_MIN + 1, -3, -2, -1, 0, 1, INT32_MAX - 2, INT32_MAX - 1};
    for (size_t i = 0; i < sizeof lows / sizeof *lows; i++) {
        const int32_t low = lows[i], even = low % 2 == 0 ? low : low + 1, two[2] = {low, low + 1}, same[2] = {low, low};
        EXPECT(both_trim(2, 0, two, even, even, all) && both_trim(2, 0, same, low, low, all) && both_trim(1, 0, two, low, low, all));
    }
    const int32_t ends[2] = {INT32_MIN, INT32_MAX};
    EXPECT(both_trim(2, 0, ends, 0, 0, all));
    /* what one liar says to two cabinets parts them by 2, as 2/2 plus one allows */
    const int32_t low[4] = {0, 1, 2, -9}, high[4] = {0, 1, 2, 9};
    const uint8_t of_low[4] = {1, 1, 2, 2}, of_high[4] = {2, 1, 1, 2};
    EXPECT(both_trim(4, 1, low, 0, 0, of_low) && both_trim(4, 1, high, 2, 2, of_high));
}

/* The estimator byte is 0 and the spread is 0; there is no plan and no replay. */
static void trims_refused(void) {
    uint8_t sheet[TOHIRANGA_SHEET_SIZE(4, 2)], answer[TOHIRANGA_ANSWER_SIZE(4)], trace[TOHIRANGA_TRACE_SIZE(4, 0)] = {4, 1};
    for (uint8_t rule = TOHIRANGA_TRIMMED_MIDPOINT; rule <= TOHIRANGA_TRIMMED_MEAN; rule++) {
        const struct tohiranga_settings settings = {4, 1, rule, 0, 100};
        const struct tohiranga_plan start = {settings, 0, 0};
        const size_t len = make_sheet(sheet, 4, rule);
        EXPECT(tohiranga_settle_spread(sheet, len, 0, answer, sizeof answer) == sizeof answer);
        EXPECT(tohiranga_settle_spread(sheet, len, 1, answer, sizeof answer) == REFUSED(16, 0));
        EXPECT(tohiranga_plan(settings, 0, 0).answer == REFUSED(4, 0) && tohiranga_step(start).answer == REFUSED(4, 0));
        EXPECT(tohiranga_target(settings, 0, 100) == REFUSED(4, 0));
        trace[2] = rule, trace[3] = 0;
        EXPECT(tohiranga_replay(trace, sizeof trace, answer, sizeof answer) == REFUSED(13, 0));
        trace[3] = sheet[3] = TOHIRANGA_MEDIAN;
        EXPECT(tohiranga_replay(trace, sizeof trace, answer, sizeof answer) == REFUSED(4, 0));
        EXPECT(tohiranga_settle(sheet, len, answer, sizeof answer) == REFUSED(4, 0));
        EXPECT(tohiranga_settle_spread(sheet, len, 1, answer, sizeof answer) == REFUSED(4, 0));
        EXPECT(tohiranga_read(sheet, len, NULL, 0, NULL, 0).answer == REFUSED(4, 0) && tohiranga_row(sheet, len, 0) == 0);
        sheet[2] = 4, sheet[3] = 0;
        EXPECT(tohiranga_settle(sheet, len, answer, sizeof answer) == REFUSED(4, 0));
    }
}

/* ---- The reader and the writer */

static struct tohiranga_opening read_into(struct lent sheet, struct lent marks, struct lent readings) {
    return tohiranga_read(sheet.start, sheet.len, marks.start, marks.len, (int32_t *)(void *)readings.start, readings.len / 4);
}

static uint64_t write_from(struct tohiranga_settings settings, struct lent marks, struct lent readings, struct lent sheet) {
    return tohiranga_write(settings, marks.start, marks.len, (const int32_t *)(const void *)readings.start, readings.len / 4,
                           sheet.start, sheet.len);
}

static int refused_opening(struct tohiranga_opening o, uint64_t answer) {
    return o.answer == answer && o.settings.n == 0 && o.settings.m == 0 && o.settings.rule == 0 && o.settings.estimator == 0 &&
           o.settings.window == 0;
}

static void read_and_write_bad(const uint8_t *good, size_t len, uint8_t n, uint8_t rule) {
    size_t entries = TOHIRANGA_ENTRIES(n, rule);
    struct lent sheet = lend_copy(good, len), none = lend(0);
    struct lent marks = lend(entries), readings = lend(4 * entries);
    struct lent few_marks = lend(entries - 1), few_readings = lend(4 * entries - 4);
    EXPECT(refused_opening(read_into(sheet, few_marks, readings), REFUSED(7, 0)));
    EXPECT(refused_opening(read_into(sheet, marks, few_readings), REFUSED(7, 0)));
    EXPECT(refused_opening(tohiranga_read(sheet.start, sheet.len, NULL, 0, NULL, 0), REFUSED(7, 0)));
    EXPECT(refused_opening(tohiranga_read(NULL, 0, NULL, 0, NULL, 0), REFUSED(1, 0)));
    EXPECT(refused_opening(read_into(none, marks, readings), REFUSED(1, 0)));
    EXPECT(kept(marks) && kept(readings) && kept(few_marks) && kept(few_readings));
    struct tohiranga_opening o = read_into(sheet, marks, readings);
    EXPECT(o.answer == entries && o.settings.n == n && o.settings.rule == rule && o.settings.window == 100);
    EXPECT(o.settings.m == (n - 1) / 3 && o.settings.estimator == good[3]);
    EXPECT(kept_from(marks, entries) && kept_from(readings, 4 * entries));

    struct lent room = lend(len), wide = lend(len + 9), tight = lend(len - 1);
    EXPECT(write_from(o.settings, marks, readings, tight) == REFUSED(7, 0) && kept(tight));
    EXPECT(write_from(o.settings, few_marks, readings, room) == REFUSED(6, 0) && kept(room));
    EXPECT(write_from(o.settings, marks, few_readings, room) == REFUSED(6, 0) && kept(room));
    EXPECT(tohiranga_write(o.settings, NULL, 0, NULL, 0, NULL, 0) == REFUSED(6, 0));
    EXPECT(tohiranga_write(o.settings, marks.start, marks.len, (int32_t *)(void *)readings.start, entries, NULL, 0) == REFUSED(7, 0));
    struct tohiranga_settings zeros = {0, 0, 0, 0, 0};
    EXPECT(tohiranga_write(zeros, NULL, 0, NULL, 0, NULL, 0) == REFUSED(2, 0));
    EXPECT(write_from(o.settings, marks, readings, room) == len && memcmp(room.start, good, len) == 0 && kept_from(room, len));
    EXPECT(write_from(o.settings, marks, readings, wide) == len && memcmp(wide.start, good, len) == 0 && kept_from(wide, len));
    give_back(sheet), give_back(none), give_back(marks), give_back(readings), give_back(few_marks), give_back(few_readings);
    give_back(room), give_back(wide), give_back(tight);
}

/* ---- Rows */

static void rows_bad(const uint8_t *good, size_t len, uint8_t n, uint8_t rule) {
    size_t width = rule == TOHIRANGA_CCA ? n : 1, entries = width * n;
    struct lent sheet = lend_copy(good, len), cut = lend_copy(good, len - 1);
    for (uint32_t r = 0; r < n; r++) {
        uint64_t row = tohiranga_row(sheet.start, sheet.len, r);
        EXPECT(tohiranga_row_start(row) == 8 + entries + 4 * width * r && tohiranga_row_length(row) == 4 * width);
        EXPECT(sheet.start[tohiranga_row_start(row)] == r);
        EXPECT(tohiranga_row(cut.start, cut.len, r) == 0);
    }
    EXPECT(tohiranga_row(sheet.start, sheet.len, n) == 0);
    EXPECT(tohiranga_row(sheet.start, sheet.len, UINT32_MAX) == 0);
    EXPECT(tohiranga_row(NULL, 0, 0) == 0);
    give_back(sheet), give_back(cut);
}

/* ---- The answer sheet */

static void answers_bad(const uint8_t *good, size_t len, uint8_t n) {
    size_t size = TOHIRANGA_ANSWER_SIZE(n);
    struct lent sheet = lend_copy(good, len), answer = lend(size);
    EXPECT(settle(sheet, answer) == size);
    EXPECT(tohiranga_answer_cabinets(answer.start, size) == n && tohiranga_answer_count(answer.start, size) == left(good));
    EXPECT(tohiranga_answer_estimate(answer.start, size) == answer.start[2]);
    EXPECT(tohiranga_answer_value(answer.start, size) == answer.start[6]);
    for (uint32_t r = 0; r < n; r++) {
        EXPECT(tohiranga_answer_mark(answer.start, size, r) == (is_left(good, r) ? 1 : 2));
        EXPECT(tohiranga_answer_used(answer.start, size, r) == (is_left(good, r) ? r : answer.start[6]));
    }
    const uint32_t past[] = {n, (uint32_t)n + 1, 255, 1u << 30, UINT32_MAX};
    for (size_t i = 0; i < sizeof past / sizeof *past; i++) {
        EXPECT(tohiranga_answer_mark(answer.start, size, past[i]) == REFUSED(7, 0));
        EXPECT(tohiranga_answer_used(answer.start, size, past[i]) == REFUSED(7, 0));
    }
    for (size_t cut = 0; cut < size; cut = cut < 16 ? cut + 1 : cut + 31 < size ? cut + 31 : size) {
        struct lent part = lend_copy(answer.start, cut);
        const uint64_t no = cut == 0 ? REFUSED(2, 0) : REFUSED(6, 0);
        EXPECT(tohiranga_answer_cabinets(part.start, cut) == no && tohiranga_answer_count(part.start, cut) == no);
        EXPECT(tohiranga_answer_estimate(part.start, cut) == no && tohiranga_answer_value(part.start, cut) == no);
        EXPECT(tohiranga_answer_mark(part.start, cut, 0) == no && tohiranga_answer_used(part.start, cut, n) == no);
        give_back(part);
    }
    EXPECT(tohiranga_answer_value(NULL, 0) == REFUSED(2, 0) && tohiranga_answer_used(NULL, 0, 0) == REFUSED(2, 0));
    memset(answer.start + 2, 0xff, 4), memset(answer.start + 6, 0, 3), answer.start[9] = 0x80;
    memset(answer.start + size - 4, 0xfe, 4);
    EXPECT(tohiranga_ticks(tohiranga_answer_estimate(answer.start, size)) == -1);
    EXPECT(tohiranga_ticks(tohiranga_answer_value(answer.start, size)) == INT32_MIN);
    EXPECT(tohiranga_ticks(tohiranga_answer_used(answer.start, size, n - 1u)) == -16843010);
    answer.start[0] = 0;
    EXPECT(tohiranga_answer_count(answer.start, size) == REFUSED(2, 0));
    answer.start[0] = 65;
    EXPECT(tohiranga_answer_mark(answer.start, size, 0) == REFUSED(2, 0));
    give_back(sheet), give_back(answer);
}

/* ---- Plans */

static int refused_planning(struct tohiranga_planning p, uint64_t answer) {
    return p.answer == answer && p.plan.settings.n == 0 && p.plan.settings.m == 0 && p.plan.settings.rule == 0 &&
           p.plan.settings.estimator == 0 && p.plan.settings.window == 0 && p.plan.accuracy == 0 && p.plan.rounds == 0;
}

/* The next window is by 2mw/N, or by mw/N for CCA with median: the whole part and one more, and 0 where m or w is 0. After 32 rounds
 * it is what the header says of refusal 12. */
static void next_windows(void) {
    const uint32_t windows[] = {0, 1, 2, 3, 4, 7, 64, 100, 999999, TOHIRANGA_MAX_WINDOW};
    for (uint8_t n = 1; n <= TOHIRANGA_MAX_CABINETS; n++)
        for (uint8_t m = 0; 3 * m < n; m++)
            for (uint8_t method = 0; method < 6; method++)
                for (size_t i = 0; i < sizeof windows / sizeof *windows; i++) {
                    const struct tohiranga_settings c = {n, m, method / 3, method % 3, windows[i]};
                    const int narrow = c.rule == TOHIRANGA_CCA && c.estimator == TOHIRANGA_MEDIAN;
                    const uint32_t w = windows[i], share = m * w, whole = (narrow ? share : 2 * share) / n;
                    const struct tohiranga_plan next = tohiranga_plan(c, 5, 1).plan;
                    EXPECT(next.settings.window == (m == 0 || w == 0 ? 0 : whole + 1) && next.accuracy == 5 + (share + n - 1) / n);
                    const uint32_t last = tohiranga_plan(c, 5, 32).plan.settings.window;
                    EXPECT((last == 0) == (m == 0 || w == 0) && (last >= 2 || w < 2 || narrow || n > 4 * m));
                }
}

static void plans(void) {
    struct tohiranga_settings c = {4, 1, TOHIRANGA_FCA, TOHIRANGA_MEDIAN, 100}, bad = c;
    const uint32_t windows[4] = {100, 51, 26, 14}, accuracies[4] = {100, 125, 138, 145};
    struct tohiranga_plan p = tohiranga_plan(c, 100, 0).plan;
    for (uint32_t k = 0; k < 4; k++) {
        struct tohiranga_planning at = tohiranga_plan(c, 100, k);
        EXPECT(at.answer == k && at.plan.rounds == k && at.plan.settings.window == windows[k] && at.plan.accuracy == accuracies[k]);
        EXPECT(memcmp(&at.plan, &p, sizeof p) == 0);
        p = tohiranga_step(p).plan;
    }
    EXPECT(tohiranga_plan(c, TOHIRANGA_MAX_ACCURACY, TOHIRANGA_MAX_ROUNDS).answer == 32);
    EXPECT(refused_planning(tohiranga_plan(c, TOHIRANGA_MAX_ACCURACY + 1, 0), REFUSED(11, 0)));
    EXPECT(refused_planning(tohiranga_plan(c, 100, 33), REFUSED(11, 0)));
    EXPECT(refused_planning(tohiranga_plan(c, UINT32_MAX, UINT32_MAX), REFUSED(11, 0)));
    p.rounds = 31, p.accuracy = 1100000000;
    EXPECT(tohiranga_step(p).answer == 32);
    EXPECT(refused_planning(tohiranga_step(tohiranga_step(p).plan), REFUSED(11, 0)));
    p.accuracy++;
    EXPECT(refused_planning(tohiranga_step(p), REFUSED(11, 0)));
    EXPECT(refused_planning(tohiranga_step(tohiranga_step(p).plan), REFUSED(2, 0)));
    bad.n = 3;
    EXPECT(refused_planning(tohiranga_plan(bad, 100, 0), REFUSED(3, 0)) && tohiranga_target(bad, 100, 1) == REFUSED(3, 0));
    bad.n = 65;
    EXPECT(refused_planning(tohiranga_plan(bad, 100, 0), REFUSED(2, 0)) && tohiranga_target(bad, 100, 1) == REFUSED(2, 0));
    bad = c, bad.rule = 2;
    EXPECT(refused_planning(tohiranga_plan(bad, 100, 0), REFUSED(4, 0)) && tohiranga_target(bad, 100, 1) == REFUSED(4, 0));
    bad = c, bad.window = TOHIRANGA_MAX_WINDOW + 1;
    EXPECT(refused_planning(tohiranga_plan(bad, 100, 0), REFUSED(5, 0)) && tohiranga_target(bad, 100, 1) == REFUSED(5, 0));
    EXPECT(tohiranga_target(c, TOHIRANGA_MAX_ACCURACY + 1, 1) == REFUSED(11, 0));
    EXPECT(tohiranga_target(c, 100, 0) == REFUSED(12, 0) && tohiranga_target(c, 100, 1) == REFUSED(12, 0));
    uint64_t rounds = tohiranga_target(c, 100, 2);
    EXPECT(rounds <= 32 && tohiranga_plan(c, 100, (uint32_t)rounds).plan.settings.window <= 2);
    EXPECT(tohiranga_plan(c, 100, 32).plan.settings.window == 2);
}

/* ---- Intervals */

static int gives(uint32_t d, uint32_t c, uint32_t r, uint64_t least, uint64_t greatest) {
    const struct tohiranga_interval given = tohiranga_interval(d, c, r);
    return given.answer == 0 && given.least == least && given.greatest == greatest;
}

static int refused_interval(uint32_t d, uint32_t c, uint32_t r, uint32_t number) {
    const struct tohiranga_interval given = tohiranga_interval(d, c, r);
    return given.answer == REFUSED(number, 0) && given.least == 0 && given.greatest == 0;
}

/* The two limits of request 6 over whole numbers; R is at most 10^12 in the first, and 4,000,000 in the second. */
static int within_window(uint64_t d, uint64_t c, uint64_t r, uint64_t R) { return d >= c && 2 * r * R <= (d - c) * (2000000 - r); }

static int not_too_soon(uint64_t c, uint64_t r, uint64_t R) {
    return R * (4000000000000u - 4000000 * r - r * r) >= 2 * c * (2000000 + r) * 1000000;
}

/* Each end meets its limit, and the next number outward does not. Where it is refused, the least of at least 1 that meets the second
 * limit misses the first. */
static void interval_is_right(uint32_t d, uint32_t c, uint32_t r) {
    const struct tohiranga_interval given = tohiranga_interval(d, c, r);
    if (given.answer == 0) {
        const uint64_t least = given.least, greatest = given.greatest;
        EXPECT(1 <= least && least <= greatest && least <= 4000000 && greatest <= 999999500000);
        EXPECT(not_too_soon(c, r, least) && (least == 1 || !not_too_soon(c, r, least - 1)));
        EXPECT(within_window(d, c, r, greatest) && !within_window(d, c, r, greatest + 1));
    } else {
        EXPECT(refused_interval(d, c, r, 18));
        uint64_t below = 0, from = 4000000; /* it is above the one, and at most the other */
        while (from - below > 1) {
            const uint64_t middle = (below + from) / 2;
            if (not_too_soon(c, r, middle))
                from = middle;
            else
                below = middle;
        }
        EXPECT(not_too_soon(c, r, from) && !within_window(d, c, r, from));
    }
}

static void intervals(void) {
    /* request 6's own numbers */
    EXPECT(gives(998, 997, 1000, 999, 999) && refused_interval(1001, 1000, 1000, 18) && gives(1, 0, 1, 1, 999999));
    /* a station of seven, after one round and after three; drift 100 and 20 */
    EXPECT(gives(16777, 9587, 100, 9589, 71896405) && gives(16777, 3131, 100, 3132, 136453177) && gives(16777, 3131, 20, 3132, 682293177));
    /* more than 32 bits; the square of rho decides; the precision is not the window */
    EXPECT(gives(1000000, 0, 1, 1, 999999500000) && gives(4296, 0, 1, 1, 4295997852) && gives(1000000, 666, 1000, 668, 998834333));
    EXPECT(gives(9, 4, 1000, 5, 4997) && refused_interval(4, 9, 1000, 18));
    /* the ends of the ranges; a window that is not wider than the precision */
    const uint32_t ends[] = {0, 1, 999999, 1000000}, drifts[] = {1, 2, 999, 1000}, past[] = {1000001, 1u << 31, UINT32_MAX};
    for (size_t i = 0; i < 4; i++)
        for (size_t k = 0; k < 4; k++) {
            EXPECT(refused_interval(ends[i], ends[i], drifts[k], 18));
            EXPECT(refused_interval(ends[i] / 2, ends[i], drifts[k], 18));
            EXPECT(refused_interval(ends[i], ends[k], 0, 17) && refused_interval(ends[i], ends[k], 1001, 17));
            EXPECT(refused_interval(ends[i], ends[k], 1u << 31, 17) && refused_interval(ends[i], ends[k], UINT32_MAX, 17));
        }
    for (size_t i = 0; i < sizeof past / sizeof *past; i++)
        for (size_t k = 0; k < 4; k++) {
            EXPECT(refused_interval(past[i], ends[k], drifts[k], 17) && refused_interval(ends[k], past[i], drifts[k], 17));
            EXPECT(refused_interval(past[i], past[i], drifts[k], 17) && refused_interval(past[i], past[i], past[i], 17));
        }
    EXPECT(gives(TOHIRANGA_MAX_WINDOW, 0, TOHIRANGA_MAX_DRIFT, 1, 999500000));
    EXPECT(refused_interval(TOHIRANGA_MAX_WINDOW, TOHIRANGA_MAX_PRECISION, TOHIRANGA_MAX_DRIFT, 18));
    const uint32_t some[] = {0, 1, 2, 3, 4, 7, 500, 666, 997, 998, 999, 1000, 1001, 1002, 3131, 16777, 500000, 998003, 999001, 999999, 1000000};
    const uint32_t rates[] = {1, 2, 3, 20, 100, 500, 998, 999, 1000};
    for (size_t i = 0; i < sizeof some / sizeof *some; i++)
        for (size_t j = 0; j < sizeof some / sizeof *some; j++)
            for (size_t k = 0; k < sizeof rates / sizeof *rates; k++)
                interval_is_right(some[i], some[j], rates[k]);
}

/* ---- Two sheets: falling back */

static struct tohiranga_fallback fall_back(struct lent crusaders, struct lent direct, struct lent answer) {
    return tohiranga_fallback(crusaders.start, crusaders.len, direct.start, direct.len, answer.start, answer.len);
}

static int refused_fallback(struct tohiranga_fallback given, uint64_t answer) {
    return given.answer == answer && given.settled_by == 0 && given.start == 0 && given.length == 0;
}

/* 1 to 6 of either sheet, 19 and 7, or 0. Without an answer buffer a sheet that passes 1 to 6 is refused under 7. */
static uint64_t refuses_pair(struct lent crusaders, struct lent direct, size_t answer_len) {
    const uint8_t *a = crusaders.start, *b = direct.start;
    const uint64_t first = tohiranga_settle(a, crusaders.len, NULL, 0);
    if (first != REFUSED(7, 0))
        return first;
    const uint64_t second = tohiranga_settle(b, direct.len, NULL, 0);
    if (second != REFUSED(7, 0))
        return second;
    if (a[0] != b[0] || a[1] != b[1] || memcmp(a + 4, b + 4, 4) != 0 || a[2] != TOHIRANGA_CCA || b[2] != TOHIRANGA_FCA)
        return REFUSED(19, 0);
    return answer_len < TOHIRANGA_ANSWER_SIZE(a[0]) ? REFUSED(7, 0) : 0;
}

/* It gives what settling one of the sheets alone gives. Hands back its number of refusal, or 100 and settled_by. */
static uint32_t falls_back(struct lent crusaders, struct lent direct, size_t answer_len) {
    struct lent answer = lend(answer_len), alone = lend(answer_len);
    const struct tohiranga_fallback given = fall_back(crusaders, direct, answer);
    struct lent sheet = crusaders;
    uint64_t wanted = refuses_pair(crusaders, direct, answer_len);
    if (wanted == 0)
        wanted = settle(crusaders, alone);
    if (wanted == REFUSED(10, 0)) {
        sheet = direct;
        wanted = settle(direct, alone);
    }
    if (tohiranga_number(wanted) != 0) {
        EXPECT(refused_fallback(given, wanted) && kept(answer));
    } else {
        const size_t n = sheet.start[0], entries = sheet.start == crusaders.start ? n * n : n;
        EXPECT(given.settled_by == (sheet.start == crusaders.start ? TOHIRANGA_BY_CRUSADERS : TOHIRANGA_BY_DIRECT));
        EXPECT(given.answer == 10 + 5 * n && given.start == 8 + entries && given.length == 4 * entries);
        EXPECT(given.start + given.length == sheet.len && kept_from(answer, 10 + 5 * n));
        EXPECT(memcmp(answer.start, alone.start, 10 + 5 * n) == 0);
    }
    give_back(answer), give_back(alone);
    return tohiranga_number(given.answer) != 0 ? tohiranga_number(given.answer) : 100 + given.settled_by;
}

/* Ways to change a sheet of make_sheet: its length, its sizes, its entries. */
enum { AS_IT_IS, CUT, LONGER, STUB };
enum { NOBODY = STUB + 1, FAULTS, RULE, WINDOW, OTHER_RULE, TRIMS, FEWER, NARROWER, WIDER, WIDEST, AVERAGES };
enum { MARK = AVERAGES + 1, GHOST, NONE, NONE_MARK, WAYS };

static struct lent lend_changed(const uint8_t *good, size_t len, int way) {
    const size_t entries = (len - 8) / 5, readings = 8 + entries;
    struct lent l = lend(way == CUT ? len - 1 : way == LONGER ? len + 1 : way == STUB ? 7 : len);
    memcpy(l.start, good, l.len < len ? l.len : len);
    uint8_t *s = l.start;
    switch (way) {
    case NOBODY: s[0] = 0; break;
    case FAULTS: s[1] = 22; break;
    case RULE: s[2] = 4; break;
    case WINDOW: s[7] = 1; break;
    case OTHER_RULE: s[2] = s[2] == TOHIRANGA_CCA ? TOHIRANGA_FCA : TOHIRANGA_CCA; break;
    case TRIMS: s[2] = TOHIRANGA_TRIMMED_MEAN, s[3] = 0; break;
    case FEWER: s[1] = (uint8_t)(s[1] - (s[1] > 0)); break;
    case NARROWER: s[4] = 99; break;
    case WIDER: s[5] = 1; break;
    case WIDEST: s[6] = 1; break;
    case AVERAGES: s[3] = TOHIRANGA_AVERAGE; break;
    case MARK: s[readings - 1] = 2; break;
    case GHOST: s[8] = 0, s[readings] = 1; break;
    case NONE_MARK:
    case NONE: memset(s + 8, 0, len - 8); break;
    default: break;
    }
    if (way == NONE_MARK)
        s[readings - 1] = 255;
    return l;
}

/* Every change of the one sheet with every change of the other, at four lengths of the answer buffer; of larger sheets
 * fewer. Sheets of one cabinet are as long by CCA as by FCA. */
static void fallbacks_bad(const uint8_t *a, size_t a_len, const uint8_t *b, size_t b_len) {
    const size_t size = TOHIRANGA_ANSWER_SIZE(a[0]), rooms[] = {size, size + 7, size - 1, 0};
    for (int i = 0; i < WAYS; i++)
        for (int k = 0; k < WAYS; k++) {
            if (a[0] > 4 && i != AS_IT_IS && i != NONE && k != AS_IT_IS)
                continue;
            struct lent crusaders = lend_changed(a, a_len, i), direct = lend_changed(b, b_len, k);
            for (size_t room = 0; room < sizeof rooms / sizeof *rooms; room++)
                falls_back(crusaders, direct, rooms[room]);
            give_back(crusaders), give_back(direct);
        }
    struct lent crusaders = lend_copy(a, a_len), direct = lend_copy(b, b_len), room = lend(size);
    struct lent none = lend_changed(a, a_len, NONE);
    EXPECT(refused_fallback(fall_back(direct, crusaders, room), REFUSED(19, 0)));
    EXPECT(refused_fallback(fall_back(crusaders, crusaders, room), REFUSED(19, 0)));
    EXPECT(refused_fallback(fall_back(direct, direct, room), REFUSED(19, 0)));
    EXPECT(refused_fallback(tohiranga_fallback(NULL, 0, NULL, 0, NULL, 0), REFUSED(1, 0)));
    EXPECT(refused_fallback(tohiranga_fallback(crusaders.start, a_len, NULL, 0, NULL, 0), REFUSED(1, 0)));
    EXPECT(refused_fallback(tohiranga_fallback(crusaders.start, a_len, direct.start, b_len, NULL, 0), REFUSED(7, 0)));
    EXPECT(kept(room) && memcmp(crusaders.start, a, a_len) == 0 && memcmp(direct.start, b, b_len) == 0);
    EXPECT(falls_back(crusaders, direct, size) == 101 && falls_back(none, direct, size) == 102);
    give_back(crusaders), give_back(direct), give_back(none), give_back(room);
}

/* The order of the checks, and what is not looked at: by hand, for four cabinets planned for one fault. */
static void fallback_order(void) {
    uint8_t a[TOHIRANGA_SHEET_SIZE(4, TOHIRANGA_CCA)], b[TOHIRANGA_SHEET_SIZE(4, TOHIRANGA_FCA)];
    const size_t a_len = make_sheet(a, 4, TOHIRANGA_CCA), b_len = make_sheet(b, 4, TOHIRANGA_FCA);
    const struct {
        int crusaders, direct;
        size_t room;
        uint32_t wanted;
    } order[] = {
        {AS_IT_IS, AS_IT_IS, 30, 101}, {AVERAGES, AS_IT_IS, 30, 101}, {NONE, AVERAGES, 30, 102},
        {CUT, STUB, 0, 6},             {AS_IT_IS, STUB, 0, 1},        {MARK, CUT, 0, 6},
        {MARK, WINDOW, 0, 5},          {FEWER, RULE, 0, 4},           {AS_IT_IS, FEWER, 0, 19},
        {NARROWER, AS_IT_IS, 0, 19},   {AS_IT_IS, TRIMS, 30, 19},     {FEWER, FEWER, 29, 7},
        {MARK, AS_IT_IS, 29, 7},       {NONE, NONE, 29, 7},           {NARROWER, NARROWER, 30, 101},
        {MARK, MARK, 30, 8},           {GHOST, MARK, 30, 9},          {NONE_MARK, AS_IT_IS, 30, 8},
        {AS_IT_IS, MARK, 30, 101},     {AS_IT_IS, GHOST, 30, 101},    {AS_IT_IS, NONE, 30, 101},
        {AS_IT_IS, NONE_MARK, 30, 101}, {NONE, MARK, 30, 8},          {NONE, GHOST, 30, 9},
        {NONE, NONE_MARK, 30, 8},      {NONE, NONE, 30, 10},          {NONE, TRIMS, 30, 19},
    };
    for (size_t i = 0; i < sizeof order / sizeof *order; i++) {
        struct lent crusaders = lend_changed(a, a_len, order[i].crusaders);
        struct lent direct = lend_changed(b, b_len, order[i].direct);
        EXPECT(falls_back(crusaders, direct, order[i].room) == order[i].wanted);
        give_back(crusaders), give_back(direct);
    }
    /* another N; the places of 8 are in the sheet that is refused */
    uint8_t five[TOHIRANGA_SHEET_SIZE(5, TOHIRANGA_FCA)], answer[TOHIRANGA_ANSWER_SIZE(5)];
    make_sheet(five, 5, TOHIRANGA_FCA);
    EXPECT(refused_fallback(tohiranga_fallback(a, a_len, five, sizeof five, answer, sizeof answer), REFUSED(19, 0)));
    a[8 + 15] = b[8 + 3] = 2;
    EXPECT(refused_fallback(tohiranga_fallback(a, a_len, b, b_len, answer, sizeof answer), REFUSED(8, 15)));
    memset(a + 8, 0, a_len - 8);
    EXPECT(refused_fallback(tohiranga_fallback(a, a_len, b, b_len, answer, sizeof answer), REFUSED(8, 3)));
}

/* Good cabinets send all what they read; faulty ones send `high` to cabinet 1 and `low` to the others, and relay
 * `told`, the value of cabinet 0, of 1 and so on, to cabinet 0 alone. */
struct station {
    struct tohiranga_settings settings;
    uint8_t good;
    int32_t low, high;
    int32_t first[7], told[7];
};

static int32_t sent(const struct station *st, uint8_t r, uint8_t s) {
    return r < st->good ? st->first[r] : s == 1 ? st->high : st->low;
}

/* Cabinet p settles by this sheet with this new value, and the readings of that sheet are shown. */
static int settles_by(const struct station *st, uint8_t p, uint32_t by, int32_t value) {
    const uint8_t n = st->settings.n;
    struct tohiranga_settings settings = st->settings;
    uint8_t crusaders[TOHIRANGA_SHEET_SIZE(7, TOHIRANGA_CCA)], direct[TOHIRANGA_SHEET_SIZE(7, TOHIRANGA_FCA)];
    uint8_t marks[49], heard[7];
    int32_t copies[49], readings[7];
    for (uint8_t r = 0; r < n; r++) {
        heard[r] = 1, readings[r] = sent(st, r, p);
        for (uint8_t s = 0; s < n; s++) {
            marks[r * n + s] = s < st->good || p == 0;
            copies[r * n + s] = s < st->good ? sent(st, r, s) : p == 0 ? st->told[r] : 0;
        }
    }
    const size_t entries = (size_t)n * n;
    const size_t a = (size_t)tohiranga_write(settings, marks, entries, copies, entries, crusaders, sizeof crusaders);
    settings.rule = TOHIRANGA_FCA;
    const size_t b = (size_t)tohiranga_write(settings, heard, n, readings, n, direct, sizeof direct);
    uint8_t answer[TOHIRANGA_ANSWER_SIZE(7)];
    const struct tohiranga_fallback given = tohiranga_fallback(crusaders, a, direct, b, answer, sizeof answer);
    const int32_t *shown = by == TOHIRANGA_BY_CRUSADERS ? copies : readings;
    const uint8_t *sheet = by == TOHIRANGA_BY_CRUSADERS ? crusaders : direct;
    int as_wanted = given.answer == TOHIRANGA_ANSWER_SIZE(n) && given.settled_by == by;
    as_wanted &= given.length == 4 * (by == TOHIRANGA_BY_CRUSADERS ? entries : n);
    for (size_t e = 0; as_wanted && e < given.length / 4; e++) {
        const uint8_t *at = sheet + given.start + 4 * e;
        as_wanted = tohiranga_ticks(at[0] + 256u * at[1] + 65536u * at[2] + 16777216u * at[3]) == shown[e];
    }
    return as_wanted && tohiranga_ticks(tohiranga_answer_value(answer, (size_t)given.answer)) == value;
}

/* Request 7: one sound cabinet settles its crusaders sheet and another falls back, as far apart as the limit allows,
 * 6 of four and 17 of seven; the planned windows are 1 and 3. */
static void fallbacks(void) {
    const struct tohiranga_settings of_four = {4, 1, TOHIRANGA_CCA, TOHIRANGA_MEDIAN, 2};
    const struct tohiranga_settings of_seven = {7, 2, TOHIRANGA_CCA, TOHIRANGA_MEDIAN, 7};
    const struct station four = {of_four, 2, -2, 4, {0, 2}, {0, 2, -2, -2}};
    const struct station seven = {of_seven, 4, -7, 14, {0, 0, 7, 7}, {0, 0, 7, 7, -7, -7, -7}};
    EXPECT(settles_by(&four, 0, TOHIRANGA_BY_CRUSADERS, -2) && settles_by(&four, 1, TOHIRANGA_BY_DIRECT, 4));
    EXPECT(settles_by(&seven, 0, TOHIRANGA_BY_CRUSADERS, -5) && settles_by(&seven, 1, TOHIRANGA_BY_DIRECT, 12));
    EXPECT(settles_by(&seven, 2, TOHIRANGA_BY_DIRECT, -5) && settles_by(&seven, 3, TOHIRANGA_BY_DIRECT, -5));
    EXPECT(tohiranga_plan(of_four, 1, 1).plan.settings.window == 1);
    EXPECT(tohiranga_plan(of_seven, 7, 1).plan.settings.window == 3);
    /* one faulty cabinet of four is planned for: nobody falls back */
    const struct station planned = {of_four, 3, -2, 4, {0, 2, 2}, {0, 2, 2, 4}};
    for (uint8_t p = 0; p < planned.good; p++)
        EXPECT(settles_by(&planned, p, TOHIRANGA_BY_CRUSADERS, 2));
}

/* ---- Case 1 of the scope, with old bytes behind the answer sheet */

static void case_1(void) {
    const uint8_t sheet[28] = {4, 1, 0, 1, 10, 0, 0, 0, 1, 1, 1, 1, 0, 0, 0, 0, 4, 0, 0, 0, 10, 0, 0, 0, 0xf4, 1, 0, 0};
    const uint8_t wanted[31] = {4, 3, 4, 0, 0, 0, 4, 0, 0, 0, 1, 1, 1, 2, 0, 0, 0, 0, 4, 0, 0, 0, 10, 0, 0, 0, 4, 0, 0, 0, OLD};
    uint8_t answer[31];
    memset(answer, OLD, sizeof answer);
    EXPECT(tohiranga_settle(sheet, sizeof sheet, answer, sizeof answer) == 30 && memcmp(answer, wanted, sizeof answer) == 0);
    uint8_t narrow[28];
    memcpy(narrow, sheet, sizeof narrow);
    narrow[4] = 9; /* case 2 */
    memset(answer, OLD, sizeof answer);
    EXPECT(tohiranga_settle(narrow, sizeof narrow, answer, sizeof answer) == REFUSED(10, 0));
    for (size_t i = 0; i < sizeof answer; i++)
        EXPECT(answer[i] == OLD);
}

/* ---- Replays */

static void put(uint8_t *bytes, int32_t ticks) {
    for (int i = 0; i < 4; i++)
        bytes[i] = (uint8_t)((uint32_t)ticks >> (8 * i));
}

static int32_t get(const uint8_t *bytes) {
    uint64_t bits = 0;
    for (int i = 3; i >= 0; i--)
        bits = 256 * bits + bytes[i];
    return tohiranga_ticks(bits);
}

/* The parts of a trace. */
static uint8_t *roles_of(uint8_t *trace) { return trace + 9; }
static uint8_t *first_of(uint8_t *trace) { return trace + 9 + trace[0]; }
static uint8_t *marks_of(uint8_t *trace) { return trace + 9 + 5 * trace[0]; }
static size_t entries_of(const uint8_t *trace) { return (size_t)trace[8] * trace[0] * trace[0]; }
static uint8_t *readings_of(uint8_t *trace) { return marks_of(trace) + entries_of(trace); }

/* The last m cabinets are faulty, and send each cabinet something else in each round; sound cabinet r reads r at first. */
static size_t make_trace(uint8_t *trace, uint8_t n, uint8_t rounds, uint8_t estimator) {
    const uint8_t m = (uint8_t)((n - 1) / 3);
    memset(trace, 0, TOHIRANGA_TRACE_SIZE(n, rounds));
    trace[0] = n, trace[1] = m, trace[2] = TOHIRANGA_FCA, trace[3] = estimator, trace[4] = 100, trace[8] = rounds;
    memset(roles_of(trace), 1, (size_t)(n - m));
    for (int r = 0; r < n; r++)
        put(first_of(trace) + 4 * r, r);
    for (size_t e = 0; e < entries_of(trace); e++)
        if (e / n % n >= (size_t)(n - m) && e % 5 != 0) {
            marks_of(trace)[e] = 1;
            put(readings_of(trace) + 4 * e, (int32_t)(e * 7 % 251) - 100);
        }
    return TOHIRANGA_TRACE_SIZE(n, rounds);
}

/* The same run as a loop over write, settle and step: fills in what the cabinets hold at the end. */
static void replay_by_hand(uint8_t *trace, int32_t *held) {
    const uint8_t n = trace[0], *roles = roles_of(trace);
    struct tohiranga_settings settings = {n, trace[1], TOHIRANGA_FCA, trace[3], trace[4]};
    struct tohiranga_planning planned = tohiranga_plan(settings, 0, 0);
    for (int r = 0; r < n; r++)
        held[r] = roles[r] == 1 ? get(first_of(trace) + 4 * r) : 0;
    for (size_t round = 0; round < trace[8]; round++) {
        int32_t next[64] = {0};
        for (size_t p = 0; p < n; p++)
            if (roles[p] == 1) {
                uint8_t marks[64], sheet[TOHIRANGA_SHEET_SIZE(64, TOHIRANGA_FCA)], answer[TOHIRANGA_MAX_ANSWER];
                int32_t readings[64];
                for (size_t s = 0; s < n; s++) {
                    const size_t e = (round * n + s) * n + p;
                    marks[s] = roles[s] == 1 ? 1 : marks_of(trace)[e];
                    readings[s] = roles[s] == 1 ? held[s] : get(readings_of(trace) + 4 * e);
                }
                const uint64_t size = tohiranga_write(planned.plan.settings, marks, n, readings, n, sheet, sizeof sheet);
                EXPECT(size == TOHIRANGA_SHEET_SIZE(n, TOHIRANGA_FCA));
                EXPECT(tohiranga_settle(sheet, (size_t)size, answer, sizeof answer) == TOHIRANGA_ANSWER_SIZE(n));
                next[p] = get(answer + 6);
            }
        memcpy(held, next, sizeof next);
        planned = tohiranga_step(planned.plan);
        EXPECT(planned.answer == round + 1);
    }
}

static uint64_t replay(struct lent trace, struct lent values) {
    return tohiranga_replay(trace.start, trace.len, values.start, values.len);
}

static void replays(uint8_t *good, size_t len) {
    const uint8_t n = good[0];
    const size_t size = TOHIRANGA_VALUES_SIZE(n);
    struct lent trace = lend_copy(good, len), room = lend(size), wide = lend(size + 7), tight = lend(size - 1), none = lend(0);
    int32_t held[64];
    replay_by_hand(good, held);
    EXPECT(replay(trace, room) == size && replay(trace, wide) == size && kept_from(wide, size));
    for (size_t r = 0; r < n; r++)
        EXPECT(get(room.start + 4 * r) == held[r] && get(wide.start + 4 * r) == held[r]);
    EXPECT(replay(trace, tight) == REFUSED(7, 0) && kept(tight) && replay(trace, none) == REFUSED(7, 0) && kept(none));
    EXPECT(tohiranga_replay(trace.start, trace.len, NULL, 0) == REFUSED(7, 0));
    EXPECT(tohiranga_replay(NULL, 0, NULL, 0) == REFUSED(1, 0));
    EXPECT(memcmp(trace.start, good, len) == 0);
    give_back(trace), give_back(room), give_back(wide), give_back(tight), give_back(none);
}

/* One byte of a trace is set, the refusal is as it must be, and the byte is set back. */
static void replay_with(struct lent trace, uint8_t *at, uint8_t byte, struct lent room, uint64_t wanted) {
    const uint8_t was = *at;
    *at = byte;
    EXPECT(replay(trace, room) == wanted && kept(room));
    *at = was;
}

static void replays_bad(const uint8_t *good, size_t len) {
    struct lent trace = lend_copy(good, len), room = lend(TOHIRANGA_VALUES_SIZE(good[0]));
    uint8_t *t = trace.start;
    const size_t last = entries_of(t) - 1;
    EXPECT(tohiranga_replay(NULL, 0, room.start, room.len) == REFUSED(1, 0) && kept(room));
    const size_t cuts[] = {0, 1, 7, 8, 9, 10, len / 2, len - 1};
    for (size_t i = 0; i < sizeof cuts / sizeof *cuts; i++) {
        struct lent part = lend_copy(good, cuts[i]);
        EXPECT(replay(part, room) == (cuts[i] < 8 ? REFUSED(1, 0) : REFUSED(13, 0)) && kept(room));
        give_back(part);
    }
    struct lent longer = lend(len + 1);
    memcpy(longer.start, good, len);
    EXPECT(replay(longer, room) == REFUSED(13, 0) && kept(room));
    replay_with(trace, t, 0, room, REFUSED(2, 0));
    replay_with(trace, t + 1, 22, room, REFUSED(3, 0));
    replay_with(trace, t + 2, 2, room, REFUSED(4, 0));
    replay_with(trace, t + 3, 3, room, REFUSED(4, 0));
    replay_with(trace, t + 7, 1, room, REFUSED(5, 0));
    replay_with(trace, t + 2, TOHIRANGA_CCA, room, REFUSED(13, 0));
    replay_with(trace, t + 8, (uint8_t)(t[8] + 1), room, REFUSED(13, 0));
    replay_with(trace, marks_of(t), 2, room, REFUSED(8, 0));
    replay_with(trace, marks_of(t) + last, 255, room, REFUSED(8, last));
    replay_with(trace, readings_of(t) + 3, 1, room, REFUSED(9, 0));
    replay_with(trace, roles_of(t), 2, room, REFUSED(14, 0));
    replay_with(trace, roles_of(t) + t[0] - 1, 255, room, REFUSED(14, 0));
    replay_with(trace, marks_of(t), 1, room, REFUSED(14, 0));
    replay_with(trace, marks_of(t) + t[0] - 1, 1, room, REFUSED(14, 0)); /* from 0 to the last, which is faulty from N 4 on */
    EXPECT(memcmp(t, good, len) == 0);
    give_back(trace), give_back(room), give_back(longer);
}

/* Two cabinets, planned for no fault, of which cabinet 0 lies: 0 and 10 give 5, and then the window is 0. */
static void replay_stops(void) {
    uint8_t trace[TOHIRANGA_TRACE_SIZE(2, 33)] = {2, 0, TOHIRANGA_FCA, TOHIRANGA_AVERAGE, 10, 0, 0, 0, 2, 0, 1};
    uint8_t values[9];
    memset(values, OLD, sizeof values);
    marks_of(trace)[1] = marks_of(trace)[5] = 1;
    put(readings_of(trace) + 4 * 1, 10), put(readings_of(trace) + 4 * 5, 6);
    EXPECT(tohiranga_replay(trace, TOHIRANGA_TRACE_SIZE(2, 2), values, sizeof values) == REFUSED(15, 64 * 2 + 1));
    put(readings_of(trace) + 4 * 1, 11);
    EXPECT(tohiranga_replay(trace, TOHIRANGA_TRACE_SIZE(2, 2), values, sizeof values) == REFUSED(15, 64 * 1 + 1));
    for (size_t i = 0; i < sizeof values; i++)
        EXPECT(values[i] == OLD);
    put(readings_of(trace) + 4 * 1, 10), put(readings_of(trace) + 4 * 5, 5);
    EXPECT(tohiranga_replay(trace, TOHIRANGA_TRACE_SIZE(2, 2), values, sizeof values) == 8);
    EXPECT(get(values) == 0 && get(values + 4) == 5 && values[8] == OLD);
    memset(trace + 8, 0, sizeof trace - 8);
    trace[8] = 33, trace[9] = trace[10] = 1;
    EXPECT(tohiranga_replay(trace, sizeof trace, values, sizeof values) == REFUSED(13, 0));
    trace[8] = 32;
    EXPECT(tohiranga_replay(trace, TOHIRANGA_TRACE_SIZE(2, 32), values, sizeof values) == 8 && get(values + 4) == 0);
}

int main(void) {
    EXPECT(sysconf(_SC_PAGESIZE) == PAGE);
    EXPECT(sizeof(struct tohiranga_settings) == 8 && sizeof(struct tohiranga_plan) == 16);
    EXPECT(sizeof(struct tohiranga_opening) == 16 && sizeof(struct tohiranga_planning) == 24);
    EXPECT(sizeof(struct tohiranga_interval) == 24 && offsetof(struct tohiranga_interval, answer) == 0);
    EXPECT(offsetof(struct tohiranga_interval, least) == 8 && offsetof(struct tohiranga_interval, greatest) == 16);
    EXPECT(sizeof(struct tohiranga_fallback) == 24 && offsetof(struct tohiranga_fallback, answer) == 0);
    EXPECT(offsetof(struct tohiranga_fallback, settled_by) == 8 && offsetof(struct tohiranga_fallback, start) == 12);
    EXPECT(offsetof(struct tohiranga_fallback, length) == 16);
    EXPECT(tohiranga_version() == TOHIRANGA_VERSION);
    case_1();
    plans();
    next_windows();
    intervals();
    spreads();
    halves();
    trims();
    trims_refused();
    fallbacks();
    replay_stops();
    static uint8_t sheet[LARGEST], direct[LARGEST], trace[LONGEST];
    const uint8_t sizes[] = {1, 2, 4, 7, 16, 33, 64}, rounds[] = {0, 1, 2, 6, 32};
    for (against_the_end = 0; against_the_end < 2; against_the_end++) {
        fallback_order();
        for (size_t i = 0; i < sizeof sizes; i++) {
            for (uint8_t rule = TOHIRANGA_FCA; rule <= TOHIRANGA_TRIMMED_MEAN; rule++) {
                size_t len = make_sheet(sheet, sizes[i], rule);
                settle_bad(sheet, len, sizes[i]);
                spread_bad(sheet, len, sizes[i], rule);
                read_and_write_bad(sheet, len, sizes[i], rule);
                rows_bad(sheet, len, sizes[i], rule);
                answers_bad(sheet, len, sizes[i]);
            }
            size_t len = make_sheet(sheet, sizes[i], TOHIRANGA_CCA);
            fallbacks_bad(sheet, len, direct, make_sheet(direct, sizes[i], TOHIRANGA_FCA));
            for (size_t k = 0; k < sizeof rounds; k++)
                replays(trace, make_trace(trace, sizes[i], rounds[k], rounds[k] % 3));
            replays_bad(trace, make_trace(trace, sizes[i], 2, TOHIRANGA_MEDIAN));
        }
    }
    printf("bad input through C: %lu expectations met\n", tried);
    return 0;
}
