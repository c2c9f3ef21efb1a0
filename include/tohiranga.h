/* Tohiranga: Byzantine clock agreement, proved. The calls of libtohiranga.a (built by `tests/build_archive`).
 *
 * Answers. An answer below 2^32 is a grant: a length, a count or a field. Any other is a refusal, number * 2^32 + place;
 * tohiranga_number and tohiranga_place take it apart. After a refusal nothing lent has been written, and settings and
 * plans handed back are zeros, which every call refuses in turn; both ends of an interval are 0, and so is all that
 * stands beside the answer of tohiranga_fallback.
 *
 * Buffers. Any contents and any length are allowed; nothing is presumed checked. A pointer is to as many elements as the
 * length after it says, and may be null where that length is 0. A buffer that a call writes overlaps no other buffer of the
 * call. Bytes past what a call writes keep what they had. No call allocates, blocks, keeps a pointer or has state, so calls
 * may run at the same time on several threads.
 *
 * Cabinets are numbered from 0. A tick is 1/16,777,216 second.
 *
 * Refusals, checked in this order (13 in the place of 6, 14 and 15 after 9, 16 between 5 and 6), each call only those that
 * concern it. 17 and 18 are of tohiranga_interval alone, which has no other: 17 first, 18 last. tohiranga_fallback has
 * two sheets: 1 to 6 of the CCA sheet, 1 to 6 of the FCA sheet, 19, 7, 8 and 9 of the CCA sheet; and where the CCA
 * sheet accepts no reading, instead of its 10, 8 to 10 of the FCA sheet.
 * tohiranga_refusal_text says what each means; this is what to do about it:
 *
 *    1   the transfer was cut off: fetch the sheet again
 *    2   correct the number of cabinets in the sheet or the settings
 *    3   plan for fewer faults m, or add cabinets
 *    4   rule 0 or 1 with estimator 0, 1 or 2, or rule 2 or 3 with estimator 0; a plan is for rules 0 and 1 alone
 *    5   narrow the window; a larger one is not supported
 *    6   E is N * N for rule 1 and N for the others: fetch the sheet again, or give arrays of exactly E
 *    7   lend TOHIRANGA_ANSWER_SIZE, TOHIRANGA_SHEET_SIZE, TOHIRANGA_VALUES_SIZE or E elements; from an answer sheet ask for a
 *        cabinet below N
 *    8   place is the lowest such entry: what filled it is at fault
 *    9   place is the lowest such entry: set the reading to 0, or the mark to 1 if the reading was really received
 *   10   hold a missing reading for the next round; do not use an old value. More cabinets are bad than planned for, or the
 *        window is too narrow. By rule 1 tohiranga_fallback can settle what was heard directly instead
 *   11   start from a smaller accuracy, or for fewer rounds; a plan that has run out is made anew by tohiranga_plan
 *   12   raise the target: a window above 0 becomes 0 only where m is 0, and with N at most 4m one of 2 or more falls below 2 by
 *        rule 1 with the median alone
 *   13   rule 0, at most 32 rounds and TOHIRANGA_TRACE_SIZE bytes: fetch the trace again; a longer run is not supported
 *   14   mark the entries of sound senders missing, since the replay supplies them
 *   15   place / 64 is the round and place % 64 the cabinet: look at what it heard. More are faulty than planned for, or the
 *        first readings of sound cabinets lie too far apart
 *   16   give a spread of at most TOHIRANGA_MAX_SPREAD with rule 0, and of 0 with the others
 *   17   give a window of at most TOHIRANGA_MAX_WINDOW and a precision of at most TOHIRANGA_MAX_PRECISION ticks, and a drift of 1 to
 *        TOHIRANGA_MAX_DRIFT parts per million
 *   18   widen the window, or do more rounds at a time, which narrows the precision; where the window is wider than the precision,
 *        clocks that drift less help too
 *   19   give the CCA sheet first and the FCA sheet second, with the same N, m and window; estimators may differ
 */
#ifndef TOHIRANGA_H
#define TOHIRANGA_H

#include <stddef.h>
#include <stdint.h>

#ifdef __cplusplus
extern "C" {
#endif

/* The version. tohiranga_version() is that of the archive; as one number it is major * 2^16 + minor * 2^8 + patch. */
#define TOHIRANGA_VERSION_MAJOR 0
#define TOHIRANGA_VERSION_MINOR 7
#define TOHIRANGA_VERSION_PATCH 0
#define TOHIRANGA_VERSION (TOHIRANGA_VERSION_MAJOR * 65536 + TOHIRANGA_VERSION_MINOR * 256 + TOHIRANGA_VERSION_PATCH)
#define TOHIRANGA_VERSION_TEXT "0.7.0"

#define TOHIRANGA_MAX_CABINETS 64
#define TOHIRANGA_MAX_WINDOW 1000000
#define TOHIRANGA_MAX_SPREAD 100000
#define TOHIRANGA_MAX_PRECISION 1000000
#define TOHIRANGA_MAX_DRIFT 1000
#define TOHIRANGA_MAX_ACCURACY 1000000000
#define TOHIRANGA_MAX_ROUNDS 32
#define TOHIRANGA_TICKS_PER_SECOND 16777216

/* The rules, of which the last two are the trimming rules, and the estimators of the first two. */
enum { TOHIRANGA_FCA = 0, TOHIRANGA_CCA = 1, TOHIRANGA_TRIMMED_MIDPOINT = 2, TOHIRANGA_TRIMMED_MEAN = 3 };
enum { TOHIRANGA_AVERAGE = 0, TOHIRANGA_MEDIAN = 1, TOHIRANGA_MIDPOINT = 2 };

/* Which sheet settled the round, in struct tohiranga_fallback: the CCA sheet or the FCA sheet. */
enum { TOHIRANGA_BY_CRUSADERS = 1, TOHIRANGA_BY_DIRECT = 2 };

enum tohiranga_refusal {
    TOHIRANGA_TOO_SHORT = 1,
    TOHIRANGA_BAD_CABINETS = 2,
    TOHIRANGA_BAD_FAULTS = 3,
    TOHIRANGA_BAD_METHOD = 4,
    TOHIRANGA_BAD_WINDOW = 5,
    TOHIRANGA_BAD_LENGTH = 6,
    TOHIRANGA_NO_ROOM = 7,
    TOHIRANGA_BAD_MARK = 8,
    TOHIRANGA_BAD_MISSING = 9,
    TOHIRANGA_TOO_MANY_FAULTS = 10,
    TOHIRANGA_BAD_PLAN = 11,
    TOHIRANGA_TARGET_MISSED = 12,
    TOHIRANGA_BAD_TRACE = 13,
    TOHIRANGA_BAD_ROLES = 14,
    TOHIRANGA_RUN_STOPPED = 15,
    TOHIRANGA_BAD_SPREAD = 16,
    TOHIRANGA_BAD_INTERVAL = 17,
    TOHIRANGA_NO_INTERVAL = 18,
    TOHIRANGA_BAD_PAIR = 19
};

/* The entries of a sheet of n cabinets; the bytes of a sheet and of an answer sheet; the bytes of the longest of each. */
#define TOHIRANGA_ENTRIES(n, rule) ((rule) == TOHIRANGA_CCA ? (size_t)(n) * (size_t)(n) : (size_t)(n))
#define TOHIRANGA_SHEET_SIZE(n, rule) (8 + 5 * TOHIRANGA_ENTRIES(n, rule))
#define TOHIRANGA_ANSWER_SIZE(n) (10 + 5 * (size_t)(n))
#define TOHIRANGA_MAX_SHEET 20488
#define TOHIRANGA_MAX_ANSWER 330

/* The bytes of a trace of n cabinets and so many rounds, and of the values that a replay writes; the most of each. */
#define TOHIRANGA_TRACE_SIZE(n, rounds) (9 + 5 * (size_t)(n) + 5 * (size_t)(rounds) * (size_t)(n) * (size_t)(n))
#define TOHIRANGA_VALUES_SIZE(n) (4 * (size_t)(n))
#define TOHIRANGA_MAX_TRACE 655689
#define TOHIRANGA_MAX_VALUES 256

/* The settings: n cabinets, m faults planned for, the window in ticks. */
struct tohiranga_settings {
    uint8_t n, m, rule, estimator;
    uint32_t window;
};

/* A plan: the settings with the next round's window, the accuracy planned by then, the rounds done. */
struct tohiranga_plan {
    struct tohiranga_settings settings;
    uint32_t accuracy, rounds;
};

/* What the reader hands back, and what the planner and a step do. */
struct tohiranga_opening {
    uint64_t answer;
    struct tohiranga_settings settings;
};

struct tohiranga_planning {
    uint64_t answer;
    struct tohiranga_plan plan;
};

/* An interval between rounds, in ticks: both ends belong to it. */
struct tohiranga_interval {
    uint64_t answer, least, greatest;
};

/* What settling one of two sheets hands back: settled_by is TOHIRANGA_BY_CRUSADERS or TOHIRANGA_BY_DIRECT; the
 * readings of that sheet stand in it from byte start on, length bytes of them. */
struct tohiranga_fallback {
    uint64_t answer;
    uint32_t settled_by, start, length;
};

/* The number of refusal in an answer, 0 for a grant; its place: the entry for 8 and 9, 64 * round + cabinet for 15, else 0. */
static inline uint32_t tohiranga_number(uint64_t answer) { return (uint32_t)(answer >> 32); }
static inline uint32_t tohiranga_place(uint64_t answer) { return (uint32_t)answer; }

/* What a number of refusal means, in English. */
static inline const char *tohiranga_refusal_text(unsigned number) {
    switch (number) {
    case TOHIRANGA_TOO_SHORT: return "the sheet has under 8 bytes";
    case TOHIRANGA_BAD_CABINETS: return "N is 0 or above 64";
    case TOHIRANGA_BAD_FAULTS: return "N is below 3m+1";
    case TOHIRANGA_BAD_METHOD: return "unknown rule or estimator";
    case TOHIRANGA_BAD_WINDOW: return "the window is above 1,000,000";
    case TOHIRANGA_BAD_LENGTH: return "the sheet (or an array to write) is not as long as its settings say";
    case TOHIRANGA_NO_ROOM: return "the lent buffer or array is too short";
    case TOHIRANGA_BAD_MARK: return "a mark is not 0 or 1; the place is its entry";
    case TOHIRANGA_BAD_MISSING: return "a missing reading's bytes are not zero; the place is its entry";
    case TOHIRANGA_TOO_MANY_FAULTS: return "too many faults: no reading is accepted";
    case TOHIRANGA_BAD_PLAN:
        return "starting accuracy above 1,000,000,000, more than 32 rounds, or a plan that can go no further";
    case TOHIRANGA_TARGET_MISSED: return "no count of rounds up to 32 reaches the target";
    case TOHIRANGA_BAD_TRACE: return "the trace is not one of an FCA run of at most 32 rounds, or not as long as it says";
    case TOHIRANGA_BAD_ROLES: return "a role is not 0 or 1, or a sound sender's entry is present";
    case TOHIRANGA_RUN_STOPPED: return "too many faults for a sound cabinet; the place is 64 x round (from 1) + cabinet";
    case TOHIRANGA_BAD_SPREAD: return "the spread is above 100,000, or above 0 with another rule than FCA";
    case TOHIRANGA_BAD_INTERVAL:
        return "the window or the precision is above 1,000,000, or the drift is not 1 to 1,000";
    case TOHIRANGA_NO_INTERVAL: return "no interval of at least one tick meets both limits";
    case TOHIRANGA_BAD_PAIR: return "the two sheets differ in N, m or the window, or are not CCA then FCA";
    default: return "no refusal of this library";
    }
}

/* The version of the archive: TOHIRANGA_VERSION of the header that belongs to it. */
uint32_t tohiranga_version(void);

/* Settles a round sheet: fills the answer sheet and answers its length, 10 + 5N. Refuses under 1 to 10.
 *
 * The sheet, least significant byte first: byte 0 N, 1 m, 2 rule, 3 estimator, 4 to 7 the window; E marks of one byte
 * (1 present, 0 missing); E readings of four bytes, signed, 0 where missing. Entry r * N + s of rule 1 is the copy of
 * cabinet r's value that s relayed.
 * The answer sheet: byte 0 N, 1 the number accepted, 2 to 5 the estimate, 6 to 9 the new value; N marks (0 missing or known
 * faulty, 1 accepted, 2 present and not accepted); N used values of four bytes. The new value is the mean of the used values to
 * the nearest whole number, a half going to the even neighbour: 1/2 and -1/2 give 0, 3/2 gives 2. Average and midpoint are
 * rounded down.
 *
 * Rules 2 and 3 have E = N and the estimator byte 0; the window is checked and plays no part. A missing reading counts as 0. The m
 * lowest and the m highest of the N readings are dropped, equal ones ordered by cabinet. The new value is half the sum of the
 * lowest and the highest left (rule 2), or the mean of the N - 2m left (rule 3), rounded as above. The answer sheet has N - 2m for
 * the number accepted; mark 1 for a present reading that is left, 2 for one that is dropped, 0 for a missing one; as used value the
 * reading where the mark is 1, and the new value elsewhere and for the estimate. Refusal 10 does not arise.
 * Let at most m cabinets be faulty, t of them, and let all sound readings be present, within w of each other, and read alike by
 * every sound cabinet. Then each new value is within the range of the sound readings, and two sound cabinets' new values are at most
 * w/2 apart (rule 2), or tw/(N - 2m) (rule 3), by the quotient's whole part plus one. A sound cabinet whose reading is missing may
 * be counted as faulty. Where the faulty and the missing are more than m together nothing is promised, and no refusal tells. */
uint64_t tohiranga_settle(const uint8_t *sheet, size_t sheet_len, uint8_t *answer, size_t answer_len);

/* Settles a round sheet of rule 0 where cable runs differ: two sound cabinets' readings of a good one differ by up to the
 * spread, 0 to TOHIRANGA_MAX_SPREAD ticks. A span is then as wide as the window and the spread together; all else is as for
 * tohiranga_settle, which is this call with the spread 0. Refuses under 1 to 5, 16, and 6 to 10, in this order.
 *
 * All cabinets of a station give the same spread. It is no part of the sheet, and no call can tell whether it is true. Let w be
 * the window, D the spread, t at most m the number of bad cabinets, and let each sound cabinet's readings of the good ones lie
 * within w + D of each other and within k of true time. Then no sound cabinet is refused under 10, after one round two new values are
 * at most D + 2t(w + D)/N apart, by the quotient's whole part plus one (for an odd N: the quotient rounded up), and each is within
 * k + t(w + D)/N of true time, by the quotient rounded up. More rounds, or more than m bad, are promised for the spread 0 alone. */
uint64_t tohiranga_settle_spread(const uint8_t *sheet, size_t sheet_len, uint32_t spread, uint8_t *answer, size_t answer_len);

/* Settles a cabinet's CCA sheet, or where that accepts no reading (10) its FCA sheet of the same round: what it
 * heard directly. Fills the answer sheet of the one that settles the round and answers its length, 10 + 5N;
 * settled_by says which it is. Shown are that sheet's readings without the marks, four bytes each, E of them: start
 * is 8 + E and length 4E, E being N * N for the CCA sheet and N for the FCA sheet. Beside a refusal all three are 0.
 *
 * N, m and the window are the same in both sheets, and estimators may differ; there is no spread. Refuses under 1 to
 * 6 of the CCA sheet, 1 to 6 of the FCA sheet, 19, 7, 8 and 9 of the CCA sheet, and 8, 9 and 10 of the FCA sheet, in
 * this order. The last three are looked at only where the CCA sheet accepts no reading: while it settles, the FCA
 * sheet may have any marks and readings. A refusal does not say of which sheet it is: a 7 is of neither sheet, and a
 * 10 and a 19 of both; any other is of the CCA sheet where tohiranga_settle refuses that alike, and else of the FCA
 * sheet.
 *
 * With at most m bad cabinets no sound one falls back. So TOHIRANGA_BY_DIRECT tells a sound cabinet that more than m
 * are bad: do not step the plan, since no planned window follows, and mark the time stamps. A cabinet that settles
 * its CCA sheet in the same round is not told. Let w be the window, t the number of bad cabinets, and let the good
 * ones' readings lie within w of each other and within k of true time, as in a first round. For t below N - m two
 * sound cabinets that are not refused, each by either of its sheets, are at most (N + 2t + 2m)w/N apart, by the
 * quotient's whole part plus one (for an odd N: the quotient rounded up), and each is within k + (m + t)w/N of true
 * time, by the quotient rounded up. */
struct tohiranga_fallback tohiranga_fallback(const uint8_t *crusaders, size_t crusaders_len, const uint8_t *direct,
                                             size_t direct_len, uint8_t *answer, size_t answer_len);

/* The fields of an answer sheet of any bytes: N, the number accepted, the estimate, the new value; a cabinet's mark and used
 * value. answer_len is the answer sheet's own length, as tohiranga_settle answers it, not the buffer's. Each refuses under 2
 * where byte 0 is 0 or above 64 (an empty sheet has N 0), under 6 where the length is not 10 + 5N, and the last two under 7
 * where the cabinet is N or above. Estimate, new value and used value are answered as 32 bits, which tohiranga_ticks reads. */
uint64_t tohiranga_answer_cabinets(const uint8_t *answer, size_t answer_len);
uint64_t tohiranga_answer_count(const uint8_t *answer, size_t answer_len);
uint64_t tohiranga_answer_estimate(const uint8_t *answer, size_t answer_len);
uint64_t tohiranga_answer_value(const uint8_t *answer, size_t answer_len);
uint64_t tohiranga_answer_mark(const uint8_t *answer, size_t answer_len, uint32_t cabinet);
uint64_t tohiranga_answer_used(const uint8_t *answer, size_t answer_len, uint32_t cabinet);

/* The signed number that the lower 32 bits of a grant are, in two's complement. */
static inline int32_t tohiranga_ticks(uint64_t granted) {
    uint32_t bits = (uint32_t)granted;
    return bits < 2147483648u ? (int32_t)bits : -(int32_t)(4294967295u - bits) - 1;
}

/* Reads a round sheet: fills the first E marks and readings, hands back the settings and answers E. Refuses under 1 to 9,
 * 7 where either array is shorter than E. */
struct tohiranga_opening tohiranga_read(const uint8_t *sheet, size_t sheet_len, uint8_t *marks, size_t marks_len,
                                        int32_t *readings, size_t readings_len);

/* Writes a round sheet of E marks and E readings and answers its length, 8 + 5E. Refuses under 2 to 9. */
uint64_t tohiranga_write(struct tohiranga_settings settings, const uint8_t *marks, size_t marks_len,
                         const int32_t *readings, size_t readings_len, uint8_t *sheet, size_t sheet_len);

/* Where the row of readings of a cabinet stands in the sheet: start * 2^32 + length, within the sheet, and 0 where there is
 * none: for a sheet that 1 to 6, 8 or 9 refuse, and for a cabinet of N or above. It is no refusal. For
 * cabinet r of rule 1 the start is 8 + E + 4rN and the length 4N; of the others the start is 8 + E + 4r and the length 4. */
uint64_t tohiranga_row(const uint8_t *sheet, size_t sheet_len, uint32_t cabinet);
static inline size_t tohiranga_row_start(uint64_t row) { return (size_t)(row >> 32); }
static inline size_t tohiranga_row_length(uint64_t row) { return (size_t)(uint32_t)row; }

/* The plan that many rounds on from the settings and the accuracy at the start. Answers the rounds done. Refuses under 2 to
 * 5 and 11, rules 2 and 3 under 4. A fresh plan is the one for 0 rounds. One round on from the window w, the window is 0 where m
 * or w is 0, and else the whole part of 2mw/N plus one, or of mw/N plus one for rule 1 with the median; the accuracy grows by
 * mw/N, rounded up. */
struct tohiranga_planning tohiranga_plan(struct tohiranga_settings settings, uint32_t accuracy, uint32_t rounds);

/* The plan one round on. Answers the rounds done. Refuses under 2 to 5 and 11. */
struct tohiranga_planning tohiranga_step(struct tohiranga_plan plan);

/* A number of rounds, at most 32, after which the window is at or below the target. Several may fit, and which one is
 * answered is not promised. Refuses under 2 to 5, 11 and 12. */
uint64_t tohiranga_target(struct tohiranga_settings settings, uint32_t accuracy, uint32_t target);

/* How long between rounds: the least and the greatest whole number of ticks, of at least 1, that meets both limits below; every whole
 * number between them does too. Answers 0. Refuses under 17, and then 18. The greatest can take more than 32 bits.
 *
 * Every cabinet starts a round, or several in a row, each time its clock, as the rounds have set it, reads that many ticks more: at
 * the readings X, X + R, X + 2R and so on, the same at all cabinets. (Timers that no round sets would drift apart without end.) The
 * window d is that of the first of these rounds, 0 to TOHIRANGA_MAX_WINDOW ticks. The precision c, 0 to TOHIRANGA_MAX_PRECISION ticks, is how far apart
 * they leave sound clocks at most: the window of tohiranga_plan after them. The drift is rho in parts per million, 1 to
 * TOHIRANGA_MAX_DRIFT. A sound clock's rate is within 1 - rho/2 and 1 + rho/2, so clocks that are good to 50 parts per million either
 * way have a drift of 100, and not of 50.
 * R ticks meet both limits where R <= (d - c)(2 - rho)/(2 rho), so that two sound clocks are no farther apart than the window until
 * the slower has gone R ticks, and R >= 2(R + c)/(2 - rho) - 2R/(2 + rho), so that the slowest clock, c behind, comes to its next rounds at most R, in true time,
 * after the fastest. They are compared over whole numbers, without loss. The time that the rounds themselves take, and errors of
 * reading a clock, are in neither. */
struct tohiranga_interval tohiranga_interval(uint32_t window, uint32_t precision, uint32_t drift);

/* Replays a recorded FCA run: fills in the final values and answers their length, 4N. Refuses under 1 to 5, 13, 7, 8, 9, 14 and
 * 15, in this order; 8, 9 and 14 look at every entry.
 *
 * The trace, least significant byte first: bytes 0 to 7 as of a sheet, rule 0; byte 8 the number of rounds, 0 to 32; N roles of
 * one byte (1 sound, 0 faulty); N first readings of four bytes, signed; then the marks (1 present, 0 missing) and then the
 * readings (four bytes, signed, 0 where missing) of what each sender sent each receiver in each round: entry
 * (round * N + sender) * N + receiver, the round from 0. A sound sender's entries are missing: it sends every cabinet what it
 * holds.
 * The values: four bytes a cabinet, signed, 0 for faulty ones. In each round every sound cabinet settles what it hears, with
 * the plan's window of that round; after 0 rounds the values are the first readings. A faulty cabinet's first reading, and what
 * it receives, change no value and no 15. */
uint64_t tohiranga_replay(const uint8_t *trace, size_t trace_len, uint8_t *values, size_t values_len);

#ifdef __cplusplus
}
#endif

#endif
