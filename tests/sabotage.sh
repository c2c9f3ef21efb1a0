#!/usr/bin/env bash
# Sabotages a scratch copy of the repository in each way that a test is there to find, and sees that the test fails. For a maintainer, outside the gate:
# some minutes. It wants what a `bash test` leaves in target/.
#
#     bash tests/sabotage.sh            all of it
#     bash tests/sabotage.sh WORD..     the sabotages whose names have one of these words
set -u
top=$(cd "$(dirname "$0")/.." && pwd)
room=$(mktemp -d) || exit 2
trap 'rm -rf "$room"' EXIT
words=("$@")
tried=0
missed=()

git clone -q "$top" "$room/repo" || exit 2
# what is not committed yet counts too
(cd "$top" && git ls-files -z -m -o --exclude-standard | xargs -0 -r cp --parents -t "$room/repo" 2>/dev/null)
cd "$room/repo" || exit 2
git add -A && git -c user.name=sabotage -c user.email=none commit -q --allow-empty -m "as it is"
cp -R "$top/target" target || exit 2
mkdir -p outside/target
[ ! -f target/ci.log ] || cp target/ci.log "$room/ci.log"
# the library and the programs stay as they are: no sabotage here is of what they do
keep_built() { find target/staticlib target/bin -type f -exec touch {} + 2>/dev/null; }

asked() { # NAME
    local word
    [ ${#words[@]} -eq 0 ] && return 0
    for word in "${words[@]}"; do [[ $1 == *"$word"* ]] && return 0; done
    return 1
}

again() {
    git reset -q --hard
    git clean -q -fd -e target -e outside/target
    [ ! -f "$room/ci.log" ] || cp "$room/ci.log" target/ci.log
}

# sabotage NAME CHANGE TEST [TEXT]: after the change the test must fail, and say the text
sabotage() {
    asked "$1" || return 0
    tried=$((tried + 1))
    if ! eval "$2" || git diff --quiet && [ -z "$(git status --porcelain)" ]; then
        echo "$1: NOTHING WAS CHANGED"
        missed+=("$1")
    elif keep_built; eval "$3" >"$room/said" 2>&1; then
        echo "$1: NOT FOUND by $3"
        missed+=("$1")
    elif [ -n "${4:-}" ] && ! grep -q -- "$4" "$room/said"; then
        echo "$1: $3 fails, and does not say: $4"
        tail -n 5 "$room/said"
        missed+=("$1")
    else
        echo "$1: found"
    fi
    again
}

# a test that fails without any sabotage shows nothing
sound() { # TEST
    asked "$2" || return 0
    if ! eval "$1" >"$room/said" 2>&1; then
        echo "$1 FAILS WITHOUT SABOTAGE"
        tail -n 5 "$room/said"
        missed+=("$1 without sabotage")
    fi
}

# ---- the hostile station
hostile="(cd outside && cargo test --release --offline -q -p hostile)"
sound "$hostile" hostile
sabotage "hostile: a broken limit is not counted" "sed -i 's/self.broken += (used > limit) as u64;/self.broken += 0;/' outside/hostile/src/limits.rs" "$hostile"
sabotage "hostile: limits are held a tick wide" "sed -i 's/used > limit/used > limit + 1/' outside/hostile/src/limits.rs" "$hostile" "finds no tick"
sabotage "hostile: refusals allowed at t ≤ m" "sed -i 's/tally.few_refused += few_bad as u64;/tally.few_refused += 0;/' outside/hostile/src/run.rs" "$hostile" "refuse-need"
sabotage "hostile: the wide limits are not held" "sed -i 's/self.wide_limits(tally, &sets, &values);//' outside/hostile/src/run.rs" "$hostile" "never held"
sabotage "hostile: what was not reached is passed over" "sed -i '/never reached: /d' outside/hostile/src/run.rs" "$hostile"
sabotage "hostile: plans are not compared" "sed -i 's/number(answer) != 0 || given != right/false/' outside/hostile/src/run.rs" "$hostile"
sabotage "hostile: replays are not compared" "sed -i 's/answer != right || values != station/false/' outside/hostile/src/tape.rs" "$hostile" "replay-"
sabotage "hostile: refused replays allowed at t ≤ m" "sed -i 's/few_refused_replays += (.*) as u64;/few_refused_replays += 0;/' outside/hostile/src/tape.rs" "$hostile" "no replay is refused\\|ends as the station did"
sabotage "hostile: limits with cables are not held" "sed -i '/hold(tally, 2[01], /d' outside/hostile/src/cables.rs" "$hostile" "by Lemma 16: 0 0"
sabotage "hostile: Lemma 16's limit with cables" "sed -i 's/+ 3 \* spread as i64/+ 2 * spread as i64/' outside/hostile/src/limits.rs" "$hostile"
sabotage "hostile: refusals with cables allowed" "sed -i 's/tally.refused_with_cables += 1;/tally.refused_with_cables += 0;/' outside/hostile/src/cables.rs" "$hostile" "spread-ignored"
sabotage "hostile: cables that shift nothing" "sed -i 's/let (w, d) = (settings.window as i64, spread as i64);/let (w, d) = (settings.window as i64, 0 * spread as i64);/' outside/hostile/src/cables.rs" "$hostile" "by Lemma 16: 0 0"
sabotage "hostile: good readings wider apart than a span" "sed -i 's/.min(base + w + d)/.min(base + w + 2 * d)/' outside/hostile/src/cables.rs" "$hostile" "read as document 02 says"
sabotage "hostile: what was met with cables is passed over" "sed -i '/: the limits not met/d' outside/hostile/src/run.rs" "$hostile" "a_station_without_runs_fails"
sabotage "hostile: no run" "sed -i 's/runs: 100_000/runs: 0/' outside/hostile/src/main.rs" "(cd outside && cargo run -q --release --offline -p hostile)" "never held"

# ---- the comparison
compare="(cd outside && cargo build --release --offline -q -p reference -p compare && cargo test --release --offline -q -p compare)"
sound "$compare" compare
sabotage "compare: replays by hand are not compared" "sed -i '/self.same_replay(\"by hand\", &given, &by_hand, &bytes);/d' outside/compare/src/calls.rs" "$compare" "by hand\\|step-wide"
sabotage "compare: no spread" "sed -i 's/self.settle_spread(random);/()/' outside/compare/src/calls.rs" "$compare" "not met\\|not found"
sabotage "compare: a spread of 0 is not compared with settling" "sed -i 's/answers.0 == answers.1 \&\& with == without/true/' outside/compare/src/calls.rs" "$compare" "a_spread_of_0"
sabotage "compare: no trace" "sed -i 's/now.is_multiple_of(SHEETS_FOR_A_TRACE)/false/' outside/compare/src/calls.rs" "$compare" "not met\\|not found"

# ---- what must run
required=tests/check_required
sound "$required" required
sabotage "required: a test deleted" "rm tests/check_plan" "$required" "gone: test tests/check_plan"
sabotage "required: a test is a link to nowhere" "ln -sf nowhere tests/check_plan" "$required" "leads nowhere"
sabotage "required: a test that can't be run" "chmod -x tests/check_plan" "$required" "can't be run"
sabotage "required: all edits of a crate deleted" "rm -r crates/settling/must-fail" "$required" "gone: edits settling"
sabotage "required: one edit deleted" "rm \$(ls crates/settling/must-fail/*.edit | head -n 1)" "$required" "edits settling"
sabotage "required: a program deleted with its line" "rm -r crates/planner_vectors && sed -i '/^planner_vectors:/d' crates.txt" "$required" "gone: program planner_vectors"
sabotage "required: a case deleted with its files" "rm examples/case-07.*" "$required" "gone: case case-07"
sabotage "promises: an edit of a public promise deleted" "rm crates/hearing/must-fail/all_hear_as_cabinet_0.edit" tests/check_promises "hearing::hear has 1 of 2"
sabotage "required: vectors deleted" "sed -i '10,20d' crates/sheet_vectors/stdout" "$required" "lines sheet_vectors"
sabotage "required: tests of outside/ deleted" "rm outside/hostile/tests/limits.rs" "$required" "outside-tests"
sabotage "required: the list deleted" "rm tests/REQUIRED" "$required" "REQUIRED is gone"
sabotage "required: .ci/run calls nothing" "echo 'exit 0' >.ci/run" "$required" ".ci/run"
sabotage "required: .ci/run loses the status" "echo 'bash test || true' >.ci/run" "$required" ".ci/run"
sabotage "gate: test reads fewer names" "sed -i 's|tests=(tests/check_\*)|tests=(tests/check_[a-m]*)|' test" tests/check_gate
sabotage "gate: test does not look at the list" "sed -i 's|tests/check_required ran \"\$log\" \"\${ran\[@\]}\"|true|' test" tests/check_gate "WRONG"
sabotage "links: a page gone" "git rm -q docs/FORMAT.md" tests/check_links "FORMAT.md is not there"

# ---- numbers of README.md and docs/ANSWER.md
sabotage "numbers: m 20" "sed -i 's/(N 7, m 2)/(N 7, m 20)/' docs/ANSWER.md" tests/check_answer "m 2)"
sabotage "numbers: up to 320" "sed -i 's/rounds up to 32\\./rounds up to 320./' docs/ANSWER.md" tests/check_answer "up to 32"
sabotage "numbers: number 103" "sed -i 's/number 10,/number 103,/' docs/ANSWER.md" tests/check_answer "number 10"
sabotage "numbers: a number word" "sed -i 's/^- three bad:/- four bad:/' README.md" tests/check_answer "three bad"
sabotage "numbers: a row of a table" "sed -i '/^| 167,772/d' docs/ANSWER.md" tests/check_answer "a table"
sabotage "numbers: README's limit" "sed -i 's/^1 to 64 cabinets/1 to 63 cabinets/' README.md" tests/check_answer "64 cabinets"
sabotage "numbers: the kit" "sed -i 's/rattle-kit-5b-plain/rattle-kit-5c-plain/' README.md" tests/check_answer "rattle-kit"
sabotage "numbers: a half of docs/FORMAT.md" "sed -i 's|3/2 becomes 2,|3/2 becomes 1,|' docs/FORMAT.md" tests/check_answer "3/2 becomes 2"
sabotage "numbers: the next window of docs/FORMAT.md" "sed -i 's|⌊2mδ/N⌋ + 1, or|⌈2mδ/N⌉, or|' docs/FORMAT.md" tests/check_answer "the window becomes"
sabotage "numbers: a run that does not need the tick more" "sed -i 's/window 2$/window 3/' examples/halves.run && python3 examples/trace.py examples/halves.run examples/halves.trace" tests/check_answer "halves.trace"
sabotage "numbers: a definition" "sed -i 's/^max_rounds = 32/max_rounds = 31/' crates/model/specs/Planner.antt" tests/check_answer "31"
if asked "numbers: each in turn"; then
    tried=$((tried + 1))
    tests/sabotage_numbers.py 2>/dev/null || missed+=("numbers: each in turn")
fi

# ---- the interval
interval=tests/check_interval
sound "$interval" interval
sabotage "interval: the greatest of docs/INTERVAL.md" "sed -i 's/^greatest 136453177 ticks/greatest 136453178 ticks/' docs/INTERVAL.md" "$interval" "its code blocks are not these"
sabotage "interval: the drift not doubled" "sed -i 's/have a drift of 100, and/have a drift of 50, and/' docs/INTERVAL.md" "$interval" "have a drift of 100"
sabotage "interval: a row of the table" "sed -i '/^| 4 | 1,790/d' docs/INTERVAL.md" "$interval" "a table"
sabotage "interval: a limit of docs/FORMAT.md" "sed -i 's/ × r - r²) ≥ / × r) ≥ /' docs/FORMAT.md" "$interval" "R(4 × 10^12"
sabotage "interval: no rounding to the safe side" "sed -i 's/^least 3132 ticks (0.000186682/least 3132 ticks (0.000186681/' docs/FORMAT.md" "$interval" "0.000186682"
sabotage "interval: another example" "sed -i 's/^rounds 2, precision 5479: 5480/rounds 2, precision 5479: 5479/' examples/interval.stdout" "$interval" "interval.stdout"
sabotage "interval: an old picture" "sed -i 's/136,453,177 ticks/136,453,178 ticks/' docs/interval.svg" "$interval" "it does not say"
sabotage "interval: teeth out of scale" "sed -i 's/{y(precision + length \* apart):g}/{y(window + 500):g}/' docs/pictures.py && python3 docs/pictures.py" "$interval" "its teeth"
sabotage "interval: the window's line elsewhere" "sed -i 's/page.line(left, y(window), 740, y(window)/page.line(left, y(window - 500), 740, y(window - 500)/' docs/pictures.py && python3 docs/pictures.py" "$interval" "no line at 16777"

# ---- rows of the maps
for page in TRACEABILITY PROOF-MAP; do
    asked "rows: $page" || continue
    check=tests/check_$([ $page = TRACEABILITY ] && echo traceability || echo proof_map)
    sound "$check" "rows"
    rows=0
    while read -r line; do
        tried=$((tried + 1)) rows=$((rows + 1))
        sed -i "${line}d" "docs/$page.md"
        if $check >/dev/null 2>&1; then
            echo "rows: line $line of docs/$page.md deleted: NOT FOUND"
            missed+=("rows: line $line of docs/$page.md")
        fi
        git checkout -q "docs/$page.md"
    done < <(grep -n '^| ' "docs/$page.md" | grep -v -- '^[0-9]*:| \(Demand\|Paper\|What\|Edit\) |' | cut -d: -f1)
    echo "rows: $rows of docs/$page.md, one after the other"
done
sabotage "reading list: a page not listed" "sed -i '/model\/specs\/Steps.antt/d' docs/ARCHITECTURE.md" tests/check_reading_list "stands in no table"
sabotage "reading list: a definition longer" "echo '-- more' >>crates/model/specs/Steps.antt" tests/check_reading_list "out of date"
sabotage "imports: a line too long" "printf -- '-- %0126d\n' 0 >>crates/model/specs/Steps.antt" tests/check_imports "a line of 129 characters"
sabotage "imports: a line of code too long" "printf -- '// %0130d\n' 0 >>crates/shares/src/lib.rt" tests/check_imports "a line of 133 characters"

# ---- must-fail edits
rewrite='# a correct rewrite, with its branches exchanged
file: src/lib.rt
old: if i < s.len() { s[i] } else { 0 }
new: if i >= s.len() { 0 } else { s[i] }'
ill_typed='# an ill-typed contract
file: src/lib.rt
old: result ≡ byte s.now i
new: result ≡ byte s.now byte'
# the prover is asked of this edit alone; of the others it said what the last gate has
edited() { # TEXT
    mkdir -p "$room/edits"
    mv crates/words/must-fail/*.edit "$room/edits"
    echo "$1" >crates/words/must-fail/sabotage.edit
    rt must-fail words >>target/ci.log 2>&1
    mv "$room"/edits/*.edit crates/words/must-fail
    tests/edits_differ words/sabotage >/dev/null 2>&1
    return 0
}
sabotage "edits: a correct rewrite" 'edited "$rewrite"' tests/check_must_fail_reasons "words/sabotage, byte_at: no program tells it from the engine"
sabotage "edits: an ill-typed contract" 'edited "$ill_typed"' tests/check_must_fail_reasons "words/sabotage: BAD EDIT"
sabotage "edits: one not tried" "sed -i 's/^new: /new: 0 + /' crates/words/must-fail/base_255.edit" tests/check_must_fail_reasons "words/base_255, word_at: not tried as it is"
sabotage "edits: a wrong function that is not refused alone" "sed -i 's/^\(means.mean_truncates floor_mean [0-9a-f]*\) .*/\1 NOT REFUSED: it is proved/' tests/alone.txt" \
    tests/check_must_fail_reasons "means/mean_truncates, floor_mean: alone: NOT REFUSED"
sabotage "edits: one that a limit of the prover refuses" "sed -i 's/\(must-fail words.base_255.edit: refused, as it must be\): .*/\1 (only by a limit of the prover): x/' target/ci.log; echo >>README.md" \
    tests/check_must_fail_reasons "words/base_255: refused, as it must be (only by a limit"
sabotage "edits: a definition that nothing refuses" "printf '# nothing\nold: {byte, settings_at}\nnew: {settings_at, byte}\n' >>crates/answer_laws/must-fail/count_reads_back_as_the_cabinets.edit
    tests/edits_alone answer_laws || true" tests/check_must_fail_reasons "count_reads_back_as_the_cabinets, -3: alone: NOT REFUSED"
sabotage "edits: one not in the table" "sed -i '/words.base_255/d' docs/MUST-FAIL.md" tests/check_must_fail_table "words/base_255"

# ---- sheets and plans
sheets=tests/check_examples
sound "$sheets" sheets
sabotage "sheets: a half that goes up" "sed -i 's/^round 2 2 0 0$/round 2 2 0 1/' examples/case-05b.txt" "$sheets" "case-05b.sheet: WRONG"
sabotage "sheets: make.py's half goes up" "sed -i 's/round 4 3 4 4/round 4 3 4 5/' examples/make.py" "$sheets" "make.py writes otherwise: WRONG"
sabotage "sheets: a byte of the answer sheet of docs/FORMAT.md" "sed -i 's/^      04   03   04   00   00   00   04/      04   03   04   00   00   00   05/' docs/FORMAT.md" "$sheets" "the answer sheet: WRONG"
sabotage "sheets: what that byte is said to be" "sed -i 's/new value 4 [.]/new value 5 ./' docs/FORMAT.md" "$sheets" "the answer sheet's bytes mean: WRONG"
sabotage "sheets: the listing of docs/FORMAT.md" "sed -i 's/^round 4 3 4 4$/round 4 3 4 5/' docs/FORMAT.md" "$sheets" "the listing: WRONG"
sabotage "sheets: a window of docs/FORMAT.md" "sed -i 's/windows are 51, 26, 14, 8,/windows are 51, 26, 14, 7,/' docs/FORMAT.md" tests/check_plan "does not say"

# ---- two sheets
sabotage "pairs: the other sheet" "sed -i 's/^settled by direct$/settled by crusaders/' examples/pair-fell-back.txt" \
    "$sheets" "pair-fell-back: WRONG"
sabotage "pairs: a direct sheet gone" "rm examples/pair-settled.direct.sheet" \
    "$sheets" "a direct sheet for each crusaders sheet: WRONG"
sabotage "pairs: no pair that falls back" "for part in crusaders.sheet direct.sheet txt; do
    cp examples/pair-settled.\$part examples/pair-fell-back.\$part; done" \
    "$sheets" "a pair for each sheet that can settle a round: WRONG"
sabotage "pairs: make.py relays more to cabinet 1" \
    "sed -i 's/\[0, 0, None, None\]/[0, 0, 0, None]/' examples/make.py" "$sheets" "make.py writes otherwise: WRONG"
sabotage "pairs: a byte of docs/FORMAT.md" \
    "sed -i 's/^      00   00   00   00   02/      00   00   00   00   03/' docs/FORMAT.md" \
    "$sheets" "16: bytes: WRONG"
sabotage "pairs: another pair" \
    "sed -i 's/fca(4, 1, 2, \[0, 2, 4, 4\])/fca(4, 1, 2, [2, 2, 4, 4])/' examples/make.py &&
    python3 examples/make.py" \
    tests/check_answer "the pairs of examples/ are not those"
sabotage "pairs: 7 before 19" "sed -i '/^| 19 | both /{h;d};/^| 7 | neither /{G}' docs/FORMAT.md" \
    tests/check_answer "Of which sheet"
sabotage "pairs: the direct sheet is always looked at" \
    "sed -i 's/^own_checks crusaders b = \[\]/own_checks crusaders b = entry_checks b/' crates/sheet_pairs/specs/*.antt" \
    tests/check_answer "the definitions no longer say: own_checks crusaders"
sabotage "pairs: another example" "sed -i 's/^6 apart/5 apart/' examples/fallback.stdout" \
    tests/check_answer "examples/fallback.c"
sabotage "pairs: planned limits where nobody is told" \
    "sed -i 's/at most 6; nobody fell back, and nobody is told/at most 1; nobody fell back/' examples/fallback.stdout README.md" \
    tests/check_answer "examples/fallback.c"
sabotage "pairs: 7 is of a sheet" "sed -i 's/A 7 is of neither sheet, and a/A/' docs/FORMAT.md" \
    tests/check_answer "is of neither sheet"
sabotage "pairs: checks are not asked for" "sed -i 's/ whose sheets pass the checks before 10 settles/ settles/' docs/FORMAT.md" \
    tests/check_answer "whose sheets pass the checks"
sabotage "pairs: mended clocks read anything" "sed -i 's/ and their clocks set$/ and their clocks go on/' docs/ANSWER.md" \
    tests/check_answer "their clocks set within these limits"
sabotage "pairs: run takes one sheet" "sed -i 's/-ne \${#files\[@\]} /-gt \${#files[@]} /' run" \
    tests/check_install "run fallback of one sheet: status: WRONG"

# ---- the replay
replay=tests/check_replay
sound "$replay" replay
sabotage "replay: another final value" "sed -i 's/^0 1 3583$/0 1 3584/' examples/two-faced.txt" "$replay" "two-faced.trace, --rounds: WRONG"
sabotage "replay: a half that goes up" "sed -i 's/^after 1 2 0 1 0$/after 1 2 1 1 0/' examples/halves.txt" "$replay" "halves.trace, --rounds: WRONG"
sabotage "replay: windows rounded up" "sed -i 's|return factor \* m \* window // n + 1|return -(-factor * m * window // n)|' docs/pictures.py" "$replay" "the windows: WRONG"
sabotage "replay: a round left out of a text" "sed -i '/^after 2 /d' examples/too-many-faults.txt" "$replay" "too-many-faults.trace, --rounds: WRONG"
sabotage "replay: a run whose trace is old" "sed -i 's/0: -1400/0: -1401/' examples/two-faced.run" "$replay" "two-faced.trace as trace.py writes it: WRONG"
sabotage "replay: a trace without its text" "rm examples/all-well.run" "$replay" "a text and an answer for each .trace: WRONG"
sabotage "replay: trace.py swaps sender and receiver" "sed -i 's/for s in range(run.n) for entry in sent.get(s, silent)\]/for p in range(run.n) for entry in [sent.get(s, silent)[p] for s in range(run.n)]]/' examples/trace.py" "$replay" "as trace.py writes it: WRONG"
sabotage "replay: trace.py shows only what all got" "sed -i 's/for p in range(n) if got\[p\] != most\]/for p in range(0)]/' examples/trace.py" "$replay" "shown, and written again: WRONG"
sabotage "replay: trace.py counts lines from 0" "sed -i 's/enumerate(text.splitlines(), 1)/enumerate(text.splitlines())/' examples/trace.py" "$replay" "a text: cabinets: WRONG"
sabotage "replay: trace.py lets a sound sender's entry pass" "sed -i 's/mark == 1 and roles\[e .. n % n\] == SOUND/False/' examples/trace.py" "$replay" "a sound sender to a faulty receiver, shown: WRONG"
sabotage "replay: a byte of docs/FORMAT.md" "sed -i 's/^      f4   01/      f4   02/' docs/FORMAT.md" "$replay" "the trace that is drawn: WRONG"
sabotage "replay: a listing of docs/FORMAT.md" "sed -i 's/^2 1 6$/2 1 5/' docs/FORMAT.md" "$replay" "the listings: WRONG"
sabotage "replay: an old picture" "sed -i 's/cabinet 0 after 1: 1600/cabinet 0 after 1: 1601/' docs/replay.svg" "$replay" "docs/replay.svg is the picture"
sabotage "replay: a picture of other values" "sed -i 's/{replay.after\[k\]\[p\]}/{replay.after[k][p] + 1}/' docs/replay_picture.py" "$replay" "the values: WRONG"
sabotage "replay: a picture of the first window" "sed -i 's/windows.append(next_window(.*/windows.append(windows[0])/' docs/replay_picture.py" "$replay" "the windows: WRONG"
sabotage "replay: a picture of what another was told" "sed -i 's/yield k, s, p, sent\[s\]\[p\]/yield k, s, p, sent[s][self.sound[0]]/' docs/replay_picture.py" "$replay" "the claims: WRONG"
sabotage "replay: a picture with points out of scale" "sed -i 's/self.y(held\[p\])/self.y(held[p]) - k/' docs/replay_picture.py" "$replay" "values out of scale: WRONG"
sabotage "replay: a picture with bands out of place" "sed -i 's/replay.middle(k) + side \* window \/ 2) for side in (1, -1)/replay.middle(0) + side * window \/ 2) for side in (1, -1)/' docs/replay_picture.py" "$replay" "bands out of scale: WRONG"
sabotage "replay: a picture that says how far apart wrongly" "sed -i 's/{max(values) - min(values):,}/{max(values):,}/' docs/replay_picture.py" "$replay" "how far apart, in figures: WRONG"
sabotage "replay: a picture of any words" "sed -i 's/self.check(lines, rest)$/pass/' docs/replay_picture.py" "$replay" "other first readings: WRONG"

# ---- what users compile in
if asked "library" && [ -f tests/sabotage_library.sh ]; then
    tried=$((tried + 1))
    (cd "$top" && bash tests/sabotage_library.sh) || missed+=("library: tests/sabotage_library.sh")
fi

for name in ${missed[@]+"${missed[@]}"}; do
    echo "MISSED: $name"
done
echo "$tried sabotages, ${#missed[@]} missed"
[ ${#missed[@]} -eq 0 ]
