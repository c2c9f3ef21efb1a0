/* Writes the round sheet of four cabinets that read 0, 4, 10 and 500, settles it, and prints what the program `settle` would;
 * then the windows of three rounds; then replays a round and prints what the program `replay` would. Ends with 1 where a call
 * refuses. */
#include "tohiranga.h"
#include <inttypes.h>
#include <stdio.h>

static int refused(uint64_t answer) {
    uint32_t number = tohiranga_number(answer);
    if (number == 0)
        return 0;
    fprintf(stderr, "refused %" PRIu32 " %" PRIu32 ": %s\n", number, tohiranga_place(answer), tohiranga_refusal_text(number));
    return 1;
}

static int show_answer(const uint8_t *answer, size_t length) {
    const uint64_t n = tohiranga_answer_cabinets(answer, length), count = tohiranga_answer_count(answer, length);
    const uint64_t estimate = tohiranga_answer_estimate(answer, length), value = tohiranga_answer_value(answer, length);
    if (refused(n) || refused(count) || refused(estimate) || refused(value))
        return 1;
    printf("round %" PRIu64 " %" PRIu64 " %" PRId32 " %" PRId32 "\n", n, count, tohiranga_ticks(estimate), tohiranga_ticks(value));
    for (uint32_t r = 0; r < n; r++) {
        const uint64_t mark = tohiranga_answer_mark(answer, length, r), used = tohiranga_answer_used(answer, length, r);
        if (refused(mark) || refused(used))
            return 1;
        printf("%" PRIu32 " %" PRIu64 " %" PRId32 "\n", r, mark, tohiranga_ticks(used));
    }
    return 0;
}

static void put(uint8_t *bytes, int32_t ticks) {
    for (int i = 0; i < 4; i++)
        bytes[i] = (uint8_t)((uint32_t)ticks >> (8 * i));
}

static int32_t get(const uint8_t *bytes) {
    uint64_t bits = 0;
    for (int i = 3; i >= 0; i--)
        bits = 256 * bits + bytes[i];
    return tohiranga_ticks(bits);
}

/* Cabinets 0, 1 and 2 read 0, 4 and 10 at first; cabinet 3, faulty, sends 14 to cabinet 0, -6 to 1 and nothing to 2. */
static int show_replay(void) {
    enum { N = 4, ROUNDS = 1, LIAR = 3 };
    static uint8_t trace[TOHIRANGA_TRACE_SIZE(N, ROUNDS)] = {N, 1, TOHIRANGA_FCA, TOHIRANGA_MEDIAN, 10, 0, 0, 0, ROUNDS};
    uint8_t *roles = trace + 9, *first = roles + N, *marks = first + 4 * N, *readings = marks + ROUNDS * N * N;
    roles[0] = roles[1] = roles[2] = 1;
    put(first, 0), put(first + 4, 4), put(first + 8, 10);
    marks[LIAR * N] = marks[LIAR * N + 1] = 1;
    put(readings + 4 * (LIAR * N), 14), put(readings + 4 * (LIAR * N + 1), -6);

    uint8_t values[TOHIRANGA_VALUES_SIZE(N)];
    if (refused(tohiranga_replay(trace, sizeof trace, values, sizeof values)))
        return 1;
    printf("replay %d %d\n", N, ROUNDS);
    for (int cabinet = 0; cabinet < N; cabinet++)
        printf("%d %d %" PRId32 "\n", cabinet, roles[cabinet], get(values + 4 * cabinet));
    return 0;
}

int main(void) {
    struct tohiranga_settings settings = {4, 1, TOHIRANGA_FCA, TOHIRANGA_MEDIAN, 10};
    const uint8_t marks[4] = {1, 1, 1, 1};
    const int32_t readings[4] = {0, 4, 10, 500};
    uint8_t sheet[TOHIRANGA_SHEET_SIZE(4, TOHIRANGA_FCA)];
    uint8_t answer[TOHIRANGA_MAX_ANSWER];

    const uint64_t size = tohiranga_write(settings, marks, 4, readings, 4, sheet, sizeof sheet);
    if (refused(size))
        return 1;
    const uint64_t length = tohiranga_settle(sheet, (size_t)size, answer, sizeof answer);
    if (refused(length) || show_answer(answer, (size_t)length))
        return 1;

    settings.window = 100;
    struct tohiranga_planning planned = tohiranga_plan(settings, 100, 0);
    if (refused(planned.answer))
        return 1;
    while (planned.plan.rounds < 3) {
        planned = tohiranga_step(planned.plan);
        if (refused(planned.answer))
            return 1;
        printf("after round %" PRIu32 ": window %" PRIu32 ", accuracy %" PRIu32 "\n", planned.plan.rounds,
               planned.plan.settings.window, planned.plan.accuracy);
    }
    return show_replay();
}
