#!/usr/bin/env bash
# Sees that tests/check_library fails for a header or a Rust wrapper that is wrong in one number, name or text. For maintainers, after a
# change of either: it takes a minute or two and is not part of the gate. It works on a copy, with the archive of this repository.
#
#     bash tests/sabotage_library.sh
set -eu -o pipefail
top=$(cd "$(dirname "$0")/.." && pwd)
"$top/tests/build_archive" >/dev/null
room=$(mktemp -d)
trap 'rm -rf "$room"' EXIT
bad=0
tried=0

fresh() {
    rm -rf "$room/copy"
    mkdir -p "$room/copy/target/staticlib"
    (cd "$top" && tar cf - --exclude=target include bindings examples/cables.* examples/interval.* \
        examples/fallback.* tests README.md crates/model/specs crates/trace/specs crates/interval/specs \
        crates/sheet_pairs/specs crates/version/specs) | tar xf - -C "$room/copy"
    printf '#!/usr/bin/env bash\necho "%s/target/staticlib"\n' "$top" >"$room/copy/tests/build_archive"
}

# sabotage WHAT FILE OLD NEW: each OLD is replaced, which must be there
sabotage() {
    fresh
    tried=$((tried + 1))
    if ! python3 - "$room/copy/$2" "$3" "$4" <<'PY'; then
import sys
path, old, new = sys.argv[1:]
with open(path, encoding="utf-8") as file:
    text = file.read()
if old not in text:
    sys.exit(f"'{old}' is not in {path}")
with open(path, "w", encoding="utf-8") as file:
    file.write(text.replace(old, new))
PY
        bad=1
    elif (cd "$room/copy" && CARGO_TARGET_DIR=$room/cargo tests/check_library) >"$room/log" 2>&1; then
        echo "PASSES: $1"
        bad=1
    else
        echo "fails, as it must: $1 ($(grep -m 1 '^[<>] \|FAILED\|error\|is not shown' "$room/log"))"
    fi
}

header=include/tohiranga.h
wrapper=bindings/rust/src/lib.rs
fresh
if ! (cd "$room/copy" && CARGO_TARGET_DIR=$room/cargo tests/check_library) >"$room/log" 2>&1; then
    tail -n 20 "$room/log"
    echo "tests/check_library fails without any sabotage"
    exit 1
fi

sabotage "header: average and midpoint swapped" $header "TOHIRANGA_AVERAGE = 0, TOHIRANGA_MEDIAN = 1, TOHIRANGA_MIDPOINT = 2" \
    "TOHIRANGA_AVERAGE = 2, TOHIRANGA_MEDIAN = 1, TOHIRANGA_MIDPOINT = 0"
sabotage "header: the rules swapped" $header "TOHIRANGA_FCA = 0, TOHIRANGA_CCA = 1" "TOHIRANGA_FCA = 1, TOHIRANGA_CCA = 0"
sabotage "header: 16777215 ticks per second" $header "TICKS_PER_SECOND 16777216" "TICKS_PER_SECOND 16777215"
sabotage "header: the place from the wrong bits" $header "tohiranga_place(uint64_t answer) { return (uint32_t)answer; }" \
    "tohiranga_place(uint64_t answer) { return (uint32_t)(answer >> 16); }"
sabotage "header: 63 cabinets" $header "MAX_CABINETS 64" "MAX_CABINETS 63"
sabotage "header: a window of 1000001" $header "MAX_WINDOW 1000000" "MAX_WINDOW 1000001"
sabotage "header: 33 rounds" $header "MAX_ROUNDS 32" "MAX_ROUNDS 33"
sabotage "header: the text of refusal 8" $header "a mark is not 0 or 1;" "a mark is not 1 or 2;"
sabotage "header: refusals 8 and 9 swapped" $header "TOHIRANGA_BAD_MARK = 8,
    TOHIRANGA_BAD_MISSING = 9," "TOHIRANGA_BAD_MARK = 9,
    TOHIRANGA_BAD_MISSING = 8,"
sabotage "header: the text of refusal 15" $header "64 x round (from 1)" "64 x round (from 0)"
sabotage "header: refusals 14 and 15 swapped" $header "TOHIRANGA_BAD_ROLES = 14,
    TOHIRANGA_RUN_STOPPED = 15" "TOHIRANGA_BAD_ROLES = 15,
    TOHIRANGA_RUN_STOPPED = 14"
sabotage "header: the text of refusal 16" $header "with another rule than FCA" "with another rule than CCA"
sabotage "header: the trimming rules swapped" $header "TRIMMED_MIDPOINT = 2, TOHIRANGA_TRIMMED_MEAN = 3" "TRIMMED_MIDPOINT = 3, TOHIRANGA_TRIMMED_MEAN = 2"
sabotage "header: a spread of 1000000" $header "MAX_SPREAD 100000" "MAX_SPREAD 1000000"
sabotage "header: the spread before the sheet" $header "tohiranga_settle_spread(const uint8_t *sheet, size_t sheet_len, uint32_t spread," \
    "tohiranga_settle_spread(uint32_t spread, const uint8_t *sheet, size_t sheet_len,"
sabotage "header: traces of 8 + 5N + 5 rounds N N" $header "TRACE_SIZE(n, rounds) (9 +" "TRACE_SIZE(n, rounds) (8 +"
sabotage "header: values of 5N" $header "VALUES_SIZE(n) (4 *" "VALUES_SIZE(n) (5 *"
sabotage "header: the longest trace" $header "MAX_TRACE 655689" "MAX_TRACE 655688"
sabotage "header: answer sheets of 9 + 5N" $header "ANSWER_SIZE(n) (10 +" "ANSWER_SIZE(n) (9 +"
sabotage "header: -1 read as -2" $header "(4294967295u - bits) - 1" "(4294967295u - bits) - 2"
sabotage "header: another version" $header "VERSION_MINOR 7" "VERSION_MINOR 8"
sabotage "header: a precision of 100000" $header "MAX_PRECISION 1000000" "MAX_PRECISION 100000"
sabotage "header: a drift of 1001" $header "MAX_DRIFT 1000" "MAX_DRIFT 1001"
sabotage "header: refusals 17 and 18 swapped" $header "TOHIRANGA_BAD_INTERVAL = 17,
    TOHIRANGA_NO_INTERVAL = 18" "TOHIRANGA_BAD_INTERVAL = 18,
    TOHIRANGA_NO_INTERVAL = 17"
sabotage "header: the text of refusal 17" $header "or the drift is not 1 to 1,000" "or the drift is not 0 to 1,000"
sabotage "header: least and greatest swapped" $header "uint64_t answer, least, greatest;" "uint64_t answer, greatest, least;"
sabotage "header: an interval of 32 bits" $header "    uint64_t answer, least, greatest;" "    uint64_t answer;
    uint32_t least, greatest;"
sabotage "header: refusal 19 as 20" $header "TOHIRANGA_BAD_PAIR = 19" "TOHIRANGA_BAD_PAIR = 20"
sabotage "header: the text of refusal 19" $header "or are not CCA then FCA" "or are not FCA then CCA"
sabotage "header: crusaders and direct swapped" $header "BY_CRUSADERS = 1, TOHIRANGA_BY_DIRECT = 2" \
    "BY_CRUSADERS = 2, TOHIRANGA_BY_DIRECT = 1"
sabotage "header: start and length swapped" $header "uint32_t settled_by, start, length;" \
    "uint32_t settled_by, length, start;"
sabotage "header: settled_by after start" $header "uint32_t settled_by, start, length;" \
    "uint32_t start, settled_by, length;"
sabotage "header: a part of 64 bits" $header "    uint32_t settled_by, start, length;" "    uint32_t settled_by;
    uint64_t start, length;"
sabotage "header: the answer after settled_by" $header "    uint64_t answer;
    uint32_t settled_by, start, length;" "    uint32_t settled_by, start, length;
    uint64_t answer;"
sabotage "header: the length before the sheet" $header \
    "tohiranga_fallback(const uint8_t *crusaders, size_t crusaders_len," \
    "tohiranga_fallback(size_t crusaders_len, const uint8_t *crusaders,"
sabotage "header: a call that is not in the archive" $header "uint32_t tohiranga_version(void);" "uint32_t tohiranga_versions(void);"
sabotage "header: a number that nothing holds" $header "#define TOHIRANGA_MAX_ROUNDS 32" "#define TOHIRANGA_MAX_ROUNDS 32
#define TOHIRANGA_LEAST_CABINETS 4"
sabotage "wrapper: average and midpoint swapped" $wrapper "AVERAGE: u8 = 0;
pub const MEDIAN: u8 = 1;
pub const MIDPOINT: u8 = 2;" "AVERAGE: u8 = 2;
pub const MEDIAN: u8 = 1;
pub const MIDPOINT: u8 = 0;"
sabotage "wrapper: wrong ticks" $wrapper "TICKS_PER_SECOND: u32 = 16_777_216" "TICKS_PER_SECOND: u32 = 16_777_215"
sabotage "wrapper: MAX_ANSWER 30" $wrapper "MAX_ANSWER: usize = 330" "MAX_ANSWER: usize = 30"
sabotage "wrapper: MAX_SHEET 28" $wrapper "MAX_SHEET: usize = 20_488" "MAX_SHEET: usize = 28"
sabotage "wrapper: the numbers of 8 and 10 swapped" $wrapper "BAD_MARK: u32 = 8;
    pub const BAD_MISSING: u32 = 9;
    pub const TOO_MANY_FAULTS: u32 = 10;" "BAD_MARK: u32 = 10;
    pub const BAD_MISSING: u32 = 9;
    pub const TOO_MANY_FAULTS: u32 = 8;"
sabotage "wrapper: the meaning of 8" $wrapper "a mark is not 0 or 1; the place is its entry" "too many faults: no reading is accepted"
sabotage "wrapper: the meaning of 14" $wrapper "a role is not 0 or 1, or" "a role is not 1 or 2, or"
sabotage "wrapper: MAX_TRACE 20488" $wrapper "MAX_TRACE: usize = 655_689" "MAX_TRACE: usize = 20_488"
sabotage "wrapper: trace and values swapped" $wrapper "tohiranga_replay(trace.as_ptr(), trace.len(), values.as_mut_ptr(), values.len())" \
    "tohiranga_replay(values.as_ptr(), values.len(), trace.as_ptr() as *mut u8, trace.len())"
sabotage "wrapper: MAX_SPREAD 10000" $wrapper "MAX_SPREAD: u32 = 100_000" "MAX_SPREAD: u32 = 10_000"
sabotage "wrapper: no spread is given on" $wrapper "            spread,
            answer.as_mut_ptr()," "            spread & 0,
            answer.as_mut_ptr(),"
sabotage "wrapper: MAX_DRIFT 100" $wrapper "MAX_DRIFT: u32 = 1_000" "MAX_DRIFT: u32 = 100"
sabotage "wrapper: MAX_PRECISION 1001" $wrapper "MAX_PRECISION: u32 = 1_000_000" "MAX_PRECISION: u32 = 1_001"
sabotage "wrapper: window and precision swapped" $wrapper "tohiranga_interval(window, precision, drift) }" "tohiranga_interval(precision, window, drift) }"
sabotage "wrapper: least and greatest swapped" $wrapper "least: given.least, greatest: given.greatest" "least: given.greatest, greatest: given.least"
sabotage "wrapper: the greatest cut to 32 bits" $wrapper "greatest: given.greatest }" "greatest: given.greatest as u32 as u64 }"
sabotage "wrapper: the example of the interval" $wrapper "(3_132, 136_453_177)" "(3_131, 136_453_177)"
sabotage "wrapper: refusal 19 as 18" $wrapper "BAD_PAIR: u32 = 19" "BAD_PAIR: u32 = 18"
sabotage "wrapper: the meaning of 19" $wrapper "the two sheets differ in N, m or the window" \
    "the two sheets differ in N or m"
sabotage "wrapper: direct as 0" $wrapper "    Direct = 2," "    Direct = 0,"
sabotage "wrapper: the sheets swapped" $wrapper "            crusaders.as_ptr(),
            crusaders.len(),
            direct.as_ptr(),
            direct.len()," "            direct.as_ptr(),
            direct.len(),
            crusaders.as_ptr(),
            crusaders.len(),"
sabotage "wrapper: never fallen back" $wrapper "(SettledBy::Direct, direct)" "(SettledBy::Crusaders, direct)"
sabotage "wrapper: readings of the other sheet" $wrapper "(SettledBy::Crusaders, crusaders)" \
    "(SettledBy::Crusaders, direct)"
sabotage "wrapper: the part a byte shorter" $wrapper "&sheet[start..start + given.length as usize]" \
    "&sheet[start..start + given.length as usize - 1]"
sabotage "wrapper: the part from the sheet's start" $wrapper "let start = given.start as usize;" \
    "let start = given.start as usize * 0;"
sabotage "wrapper: start and length swapped" $wrapper "    settled_by: u32,
    start: u32,
    length: u32," "    settled_by: u32,
    length: u32,
    start: u32,"
sabotage "wrapper: the part's length for the answer's" $wrapper "let length = granted(given.answer)?;" \
    "let length = granted(given.answer).map(|_| given.length as usize)?;"
sabotage "example: nobody fell back, so as planned" examples/fallback.c "bad <= settings.m" "fallen == 0"
sabotage "wrapper: the example of the fallback" $wrapper "assert_eq!(fell.readings, &direct[12..]);" \
    "assert_eq!(fell.readings, &direct[8..]);"
sabotage "wrapper: estimate and new value swapped" $wrapper "self.field(tohiranga_answer_value)" "self.field(tohiranga_answer_estimate)"
sabotage "wrapper: mark and used value swapped" $wrapper "self.field_of(tohiranga_answer_mark, cabinet)" "self.field_of(tohiranga_answer_used, cabinet)"
sabotage "wrapper: another version" bindings/rust/Cargo.toml 'version = "0.7.0"' 'version = "0.7.1"'
sabotage "README: the text of refusal 8" README.md "| 8 | a mark is not 0 or 1;" "| 8 | a mark is not 1 or 2;"
sabotage "definitions: a spread of 100001" crates/model/specs/Ensemble.antt "max_spread = 100_000" "max_spread = 100_001"
sabotage "definitions: a drift of 1001" crates/interval/specs/Interval.antt "max_drift = 1_000" "max_drift = 1_001"
sabotage "definitions: direct before crusaders" crates/sheet_pairs/specs/Fallback.antt "  crusaders : Source
  direct : Source" "  direct : Source
  crusaders : Source"
sabotage "definitions: readings with the marks" crates/sheet_pairs/specs/Fallback.antt \
    "readings_length c = 4 * entry_count c" "readings_length c = 5 * entry_count c"
sabotage "definitions: 63 cabinets" crates/model/specs/Ensemble.antt "max_cabinets = 64" "max_cabinets = 63"

echo "$tried sabotages tried"
exit $bad
