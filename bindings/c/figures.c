/* Prints every public number, name and text of tohiranga.h, a line each, and what its helpers make of some answers. It is C99, C11 and
 * C++17. tests/check_library compares it with what the definitions say (tests/figures.py). */
#include "tohiranga.h"
#include <inttypes.h>
#include <stdio.h>

#define NUMBER(name) printf("%s %" PRIu64 "\n", #name, (uint64_t)TOHIRANGA_##name)

#define REFUSED(number, place) (((uint64_t)(number) << 32) + (place))

/* The estimate of the readings 0, 1, 10 and 500, of which 500 is not accepted: another for each estimator. */
static void show_method(const char *name, uint8_t rule, uint8_t estimator) {
    struct tohiranga_settings settings = {4, 1, rule, estimator, 10};
    const int32_t value[4] = {0, 1, 10, 500};
    uint8_t marks[16], sheet[TOHIRANGA_MAX_SHEET], answer[TOHIRANGA_MAX_ANSWER];
    int32_t readings[16];
    size_t entries = TOHIRANGA_ENTRIES(4, rule);
    for (size_t e = 0; e < entries; e++) {
        marks[e] = 1;
        readings[e] = value[e * 4 / entries];
    }
    uint64_t size = tohiranga_write(settings, marks, entries, readings, entries, sheet, sizeof sheet);
    uint64_t length = tohiranga_settle(sheet, (size_t)size, answer, sizeof answer);
    printf("estimate of %s %" PRIu64 " %" PRId32 "\n", name, size, tohiranga_ticks(tohiranga_answer_estimate(answer, (size_t)length)));
}

/* The new value of the readings 0, 1, 2, 10 and 500, of which 1, 2 and 10 are left: another for each trimming rule. */
static void show_trimmed(const char *name, uint8_t rule) {
    struct tohiranga_settings settings = {5, 1, rule, 0, 10};
    const uint8_t marks[5] = {1, 1, 1, 1, 1};
    const int32_t readings[5] = {0, 1, 2, 10, 500};
    uint8_t sheet[TOHIRANGA_MAX_SHEET], answer[TOHIRANGA_MAX_ANSWER];
    uint64_t size = tohiranga_write(settings, marks, 5, readings, 5, sheet, sizeof sheet);
    uint64_t length = tohiranga_settle(sheet, (size_t)size, answer, sizeof answer);
    printf("new value of %s %" PRIu64 " %" PRId32 "\n", name, size, tohiranga_ticks(tohiranga_answer_value(answer, (size_t)length)));
}

/* Which sheet settles the round where every copy is 0, or none is there, and every direct reading 100; its part. */
static void show_fallback(uint8_t present) {
    struct tohiranga_settings settings = {4, 1, TOHIRANGA_CCA, TOHIRANGA_MEDIAN, 10};
    uint8_t marks[16], crusaders[TOHIRANGA_MAX_SHEET], direct[TOHIRANGA_MAX_SHEET], answer[TOHIRANGA_MAX_ANSWER];
    const uint8_t heard[4] = {1, 1, 1, 1};
    const int32_t copies[16] = {0}, readings[4] = {100, 100, 100, 100};
    for (size_t e = 0; e < 16; e++)
        marks[e] = present;
    uint64_t size = tohiranga_write(settings, marks, 16, copies, 16, crusaders, sizeof crusaders);
    settings.rule = TOHIRANGA_FCA;
    uint64_t other = tohiranga_write(settings, heard, 4, readings, 4, direct, sizeof direct);
    struct tohiranga_fallback given =
        tohiranga_fallback(crusaders, (size_t)size, direct, (size_t)other, answer, sizeof answer);
    printf("settled by %" PRIu32 ", %" PRIu64, given.settled_by, given.answer);
    printf(", from %" PRIu32 " on %" PRIu32, given.start, given.length);
    printf(", new value %" PRId32 "\n", tohiranga_ticks(tohiranga_answer_value(answer, (size_t)given.answer)));
}

int main(void) {
    NUMBER(MAX_CABINETS);
    NUMBER(MAX_WINDOW);
    NUMBER(MAX_SPREAD);
    NUMBER(MAX_PRECISION);
    NUMBER(MAX_DRIFT);
    NUMBER(MAX_ACCURACY);
    NUMBER(MAX_ROUNDS);
    NUMBER(TICKS_PER_SECOND);
    NUMBER(MAX_SHEET);
    NUMBER(MAX_ANSWER);
    NUMBER(MAX_TRACE);
    NUMBER(MAX_VALUES);
    NUMBER(FCA);
    NUMBER(CCA);
    NUMBER(TRIMMED_MIDPOINT);
    NUMBER(TRIMMED_MEAN);
    NUMBER(AVERAGE);
    NUMBER(MEDIAN);
    NUMBER(MIDPOINT);
    NUMBER(BY_CRUSADERS);
    NUMBER(BY_DIRECT);
    NUMBER(TOO_SHORT);
    NUMBER(BAD_CABINETS);
    NUMBER(BAD_FAULTS);
    NUMBER(BAD_METHOD);
    NUMBER(BAD_WINDOW);
    NUMBER(BAD_LENGTH);
    NUMBER(NO_ROOM);
    NUMBER(BAD_MARK);
    NUMBER(BAD_MISSING);
    NUMBER(TOO_MANY_FAULTS);
    NUMBER(BAD_PLAN);
    NUMBER(TARGET_MISSED);
    NUMBER(BAD_TRACE);
    NUMBER(BAD_ROLES);
    NUMBER(RUN_STOPPED);
    NUMBER(BAD_SPREAD);
    NUMBER(BAD_INTERVAL);
    NUMBER(NO_INTERVAL);
    NUMBER(BAD_PAIR);
    for (unsigned number = 0; number < 21; number++)
        printf("refusal %u: %s\n", number, tohiranga_refusal_text(number));
    for (unsigned n = 0; n < 256; n += 7)
        printf("entries of %u %zu %zu\n", n, TOHIRANGA_ENTRIES(n, TOHIRANGA_FCA), TOHIRANGA_ENTRIES(n, TOHIRANGA_CCA));
    show_method("FCA AVERAGE", TOHIRANGA_FCA, TOHIRANGA_AVERAGE);
    show_method("FCA MEDIAN", TOHIRANGA_FCA, TOHIRANGA_MEDIAN);
    show_method("FCA MIDPOINT", TOHIRANGA_FCA, TOHIRANGA_MIDPOINT);
    show_method("CCA AVERAGE", TOHIRANGA_CCA, TOHIRANGA_AVERAGE);
    show_method("CCA MEDIAN", TOHIRANGA_CCA, TOHIRANGA_MEDIAN);
    show_method("CCA MIDPOINT", TOHIRANGA_CCA, TOHIRANGA_MIDPOINT);
    show_trimmed("TRIMMED_MIDPOINT", TOHIRANGA_TRIMMED_MIDPOINT);
    show_trimmed("TRIMMED_MEAN", TOHIRANGA_TRIMMED_MEAN);
    show_fallback(1);
    show_fallback(0);
    printf("version %s\n", TOHIRANGA_VERSION_TEXT);
    printf("version of the library %" PRIu32 "\n", tohiranga_version());

    /* what Rust has no like of */
    NUMBER(VERSION_MAJOR);
    NUMBER(VERSION_MINOR);
    NUMBER(VERSION_PATCH);
    NUMBER(VERSION);
    for (unsigned n = 0; n < 256; n += 7)
        printf("bytes of %u %zu %zu %zu\n", n, TOHIRANGA_SHEET_SIZE(n, TOHIRANGA_FCA), TOHIRANGA_SHEET_SIZE(n, TOHIRANGA_CCA),
               TOHIRANGA_ANSWER_SIZE(n));
    for (unsigned n = 0; n < 256; n += 7)
        printf("bytes of a replay of %u %zu %zu %zu\n", n, TOHIRANGA_TRACE_SIZE(n, 0), TOHIRANGA_TRACE_SIZE(n, 32),
               TOHIRANGA_VALUES_SIZE(n));
    for (uint32_t number = 0; number < 3; number++)
        for (uint32_t place = 0; place < 3; place++) {
            uint64_t answer = REFUSED(number * 2147483647u, place * 2147483647u);
            printf("taken apart %" PRIu32 " %" PRIu32 "\n", tohiranga_number(answer), tohiranga_place(answer));
            printf("part of a sheet %zu %zu\n", tohiranga_row_start(answer), tohiranga_row_length(answer));
            printf("ticks %" PRId32 " %" PRId32 "\n", tohiranga_ticks(answer), tohiranga_ticks(answer + 1));
        }
    return 0;
}
