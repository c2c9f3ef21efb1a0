//! Every call of the wrapper, granted and refused, with empty buffers and buffers shorter by one.
use tohiranga::*;

const SETTINGS: Settings = Settings { n: 4, m: 1, rule: FCA, estimator: MEDIAN, window: 10 };
const READINGS: [i32; 4] = [-7, 4, 10, 500];

fn refused<T>(number: u32, place: u32) -> Result<T, Refusal> {
    Err(Refusal { number, place })
}

fn sheet() -> [u8; 28] {
    let mut sheet = [0; 28];
    assert_eq!(write(SETTINGS, &[1; 4], &READINGS, &mut sheet), Ok(28));
    sheet
}

#[test]
fn settles() {
    let mut answer = [0xa5; 31];
    assert_eq!(settle(&sheet(), &mut answer), refused(10, 0));
    assert_eq!(answer, [0xa5; 31]);
    let mut wide = sheet();
    wide[4] = 20;
    assert_eq!(settle(&wide, &mut answer), Ok(30));
    assert_eq!((answer[1], answer[30]), (3, 0xa5));
    assert_eq!(settle(&wide, &mut answer[..29]), refused(7, 0));
    assert_eq!(settle(&wide[..27], &mut answer), refused(6, 0));
    assert_eq!(settle(&[], &mut []), refused(1, 0));
}

/// The new value of four cabinets, planned for one fault, FCA with median.
fn settled(window: u32, readings: [i32; 4], spread: u32) -> Result<i32, Refusal> {
    let (mut sheet, mut answer) = ([0; 28], [0xa5; 31]);
    write(Settings { window, ..SETTINGS }, &[1; 4], &readings, &mut sheet)?;
    let given = settle_spread(&sheet, spread, &mut answer);
    assert_eq!(answer[30], 0xa5);
    if given.is_err() {
        assert_eq!(answer, [0xa5; 31]);
    }
    given.map(|length| Answer::new(&answer[..length]).unwrap().value())
}

#[test]
fn settles_with_a_spread() {
    // request 2's own numbers; a tick less, and the liar's reading is not accepted
    assert_eq!((settled(1, [0, 0, 0, -3], 2), settled(1, [2, 2, 2, 5], 2)), (Ok(-1), Ok(3)));
    assert_eq!((settled(1, [0, 0, 0, -3], 1), settled(1, [2, 2, 2, 5], 1)), (Ok(0), Ok(2)));
    // request 4: means of -6/4 and 22/4, as far apart as 28/4 plus one allows
    assert_eq!((settled(2, [0, 0, 0, -6], 4), settled(2, [4, 4, 4, 10], 4)), (Ok(-2), Ok(6)));
    assert_eq!(
        (settled(9, [0, 4, 10, 500], 0), settled(9, [0, 4, 10, 500], 1)),
        (refused(10, 0), Ok(4))
    );
    assert_eq!(settled(MAX_WINDOW, [0, 0, 1_100_000, i32::MIN], MAX_SPREAD), Ok(275_000));
    assert_eq!(settled(MAX_WINDOW, [0, 0, 1_100_000, i32::MIN], MAX_SPREAD - 1), refused(10, 0));
    assert_eq!(settled(MAX_WINDOW, [0; 4], MAX_SPREAD + 1), refused(Refusal::BAD_SPREAD, 0));
    // without one it is `settle`
    let mut wide = sheet();
    wide[4] = 20;
    let (mut plain, mut answer) = ([0xa5; 31], [0xa5; 31]);
    assert_eq!(settle(&wide, &mut plain), settle_spread(&wide, 0, &mut answer));
    assert_eq!(plain, answer);
}

/// Request 4: a half goes to the even neighbour, below zero too; the liar of [0, 1, 2, 3] and [0, 1, 2, -1] parts two by it.
#[test]
fn settles_halves_to_the_even_tick() {
    for low in [i32::MIN, -3, -2, -1, 0, 1, 2, i32::MAX - 1] {
        let even = if low % 2 == 0 { low } else { low + 1 };
        assert_eq!(settled(1, [low, low + 1, low, low + 1], 0), Ok(even));
    }
    assert_eq!(settled(10, [0, 4, 10, 500], 0), Ok(4));
    assert_eq!((settled(2, [0, 1, 2, 3], 0), settled(2, [0, 1, 2, -1], 0)), (Ok(2), Ok(0)));
}

/// The new value, the marks and the used values of a sheet by a trimming rule; missing readings are none.
fn trimmed(rule: u8, m: u8, readings: &[Option<i32>]) -> (i32, Vec<u8>, Vec<i32>) {
    let n = readings.len();
    let settings = Settings { n: n as u8, m, rule, estimator: 0, window: 0 };
    assert_eq!(settings.entries(), n);
    let marks: Vec<u8> = readings.iter().map(|reading| reading.is_some() as u8).collect();
    let readings: Vec<i32> = readings.iter().map(|reading| reading.unwrap_or(0)).collect();
    let (mut sheet, mut bytes) = ([0; MAX_SHEET], [0xa5; MAX_ANSWER]);
    let size = write(settings, &marks, &readings, &mut sheet).unwrap();
    let length = settle(&sheet[..size], &mut bytes).unwrap();
    assert!(bytes[length..].iter().all(|&byte| byte == 0xa5));
    let answer = Answer::new(&bytes[..length]).unwrap();
    assert_eq!((answer.cabinets() as usize, answer.count()), (n, n as u32 - 2 * m as u32));
    assert_eq!(answer.estimate(), answer.value());
    let marks = (0..n as u32).map(|r| answer.mark(r).unwrap()).collect();
    let used = (0..n as u32).map(|r| answer.used(r).unwrap()).collect();
    (answer.value(), marks, used)
}

/// Request 5: of seven 3, 4 and 11 are left; then the sheet examples/trimmed.sheet, where a missing reading is left.
#[test]
fn settles_by_the_trimming_rules() {
    let seven = [11, 900, 1, 3, -8, 4, 700].map(Some);
    let marks = vec![1, 2, 2, 1, 2, 1, 2];
    let used = |new: i32| vec![11, new, new, 3, new, 4, new];
    assert_eq!(trimmed(TRIMMED_MIDPOINT, 2, &seven), (7, marks.clone(), used(7)));
    assert_eq!(trimmed(TRIMMED_MEAN, 2, &seven), (6, marks, used(6)));
    let gap = [Some(-8), Some(5), None, Some(9), Some(900), Some(-3), Some(7)];
    for rule in [TRIMMED_MIDPOINT, TRIMMED_MEAN] {
        let (new, marks, used) = trimmed(rule, 2, &gap);
        assert_eq!((new, marks, used), (4, vec![2, 1, 0, 2, 2, 2, 1], vec![4, 5, 4, 4, 4, 4, 7]));
        assert_eq!(trimmed(rule, 1, &[5; 4].map(Some)).1, [2, 1, 1, 2], "equal ones by number");
        assert_eq!(trimmed(rule, 0, &[i32::MIN, i32::MAX].map(Some)).0, 0);
        assert_eq!(trimmed(rule, 0, &[i32::MAX; 64].map(Some)).0, i32::MAX);
        for low in [i32::MIN, -3, -2, -1, 0, 1, 2, i32::MAX - 1] {
            let even = if low % 2 == 0 { low } else { low + 1 };
            assert_eq!(trimmed(rule, 0, &[Some(low + 1), Some(low)]).0, even);
        }
    }
}

#[test]
fn refuses_a_trimming_rule() {
    for rule in [TRIMMED_MIDPOINT, TRIMMED_MEAN] {
        let settings = Settings { rule, estimator: 0, ..SETTINGS };
        let (mut sheet, mut answer) = ([0; 28], [0xa5; 30]);
        assert_eq!(write(settings, &[1; 4], &READINGS, &mut sheet), Ok(28));
        assert_eq!(settle_spread(&sheet, 1, &mut answer), refused(Refusal::BAD_SPREAD, 0));
        assert_eq!(settings.plan(0, 0), refused(Refusal::BAD_METHOD, 0));
        assert_eq!(settings.rounds_for(0, 10), refused(4, 0));
        assert_eq!(Plan { settings, accuracy: 0, rounds: 0 }.step(), refused(4, 0));
        let mut run = trace();
        (run[2], run[3]) = (rule, 0);
        assert_eq!(replay(&run, &mut answer), refused(Refusal::BAD_TRACE, 0));
        (run[3], sheet[3]) = (MEDIAN, MEDIAN);
        assert_eq!(replay(&run, &mut answer), refused(4, 0));
        assert_eq!(settle(&sheet, &mut answer), refused(4, 0));
        assert_eq!(read(&sheet, &mut [0; 4], &mut [0; 4]), refused(4, 0));
        let other = Settings { estimator: MEDIAN, ..settings };
        assert_eq!(write(other, &[1; 4], &READINGS, &mut [0; 28]), refused(4, 0));
        assert!(row(&sheet, 0).is_empty());
        assert_eq!(answer, [0xa5; 30]);
    }
    let unknown = Settings { rule: 4, estimator: 0, ..SETTINGS };
    assert_eq!(write(unknown, &[1; 4], &READINGS, &mut [0; 28]), refused(4, 0));
}

/// 16 comes after 5, and before 6 and 7.
#[test]
fn refuses_a_spread() {
    let mut answer = [0xa5; 30];
    let (fits, above) = (MAX_SPREAD, MAX_SPREAD + 1);
    assert_eq!(settle_spread(&sheet(), above, &mut answer), refused(16, 0));
    assert_eq!(settle_spread(&sheet(), u32::MAX, &mut []), refused(16, 0));
    assert_eq!(settle_spread(&sheet()[..27], above, &mut answer), refused(16, 0));
    assert_eq!(settle_spread(&sheet()[..27], fits, &mut answer), refused(6, 0));
    assert_eq!(settle_spread(&sheet(), fits, &mut answer[..29]), refused(7, 0));
    assert_eq!(settle_spread(&[], above, &mut []), refused(1, 0));
    let mut window = sheet();
    window[7] = 1;
    assert_eq!(settle_spread(&window, above, &mut answer), refused(5, 0));
    assert_eq!(answer, [0xa5; 30]);
    let (crusaders, mut relayed) = (Settings { rule: CCA, ..SETTINGS }, [0; 88]);
    write(crusaders, &[1; 16], &[0; 16], &mut relayed).unwrap();
    for spread in [1, fits, above] {
        assert_eq!(settle_spread(&relayed, spread, &mut answer), refused(16, 0));
    }
    assert_eq!(answer, [0xa5; 30]);
    assert_eq!(settle_spread(&relayed, 0, &mut answer), Ok(30));
}

/// The first cabinets are good and read `first`. The others send `high` to cabinet 1 and `low` to the rest, and relay
/// `told`, the value of cabinet 0, of 1 and so on, to cabinet 0 alone.
struct Station<'a> {
    settings: Settings,
    first: &'a [i32],
    low: i32,
    high: i32,
    told: &'a [i32],
}

impl Station<'_> {
    fn sent(&self, r: usize, s: usize) -> i32 {
        self.first.get(r).copied().unwrap_or(if s == 1 { self.high } else { self.low })
    }

    fn copy(&self, r: usize, s: usize, p: usize) -> Option<i32> {
        if s < self.first.len() {
            Some(self.sent(r, s))
        } else {
            (p == 0).then(|| self.told[r])
        }
    }

    /// The two sheets of cabinet p.
    fn sheets(&self, p: usize) -> (Vec<u8>, Vec<u8>) {
        let n = self.settings.n as usize;
        let copies: Vec<_> = (0..n * n).map(|e| self.copy(e / n, e % n, p)).collect();
        let direct: Vec<_> = (0..n).map(|r| Some(self.sent(r, p))).collect();
        (made(self.settings, &copies), made(Settings { rule: FCA, ..self.settings }, &direct))
    }

    /// Which sheet settles the round of cabinet p, and its new value.
    fn settled(&self, p: usize) -> (SettledBy, i32) {
        let (crusaders, direct) = self.sheets(p);
        let mut answer = [0xa5; MAX_ANSWER];
        let given = fallback(&crusaders, &direct, &mut answer).unwrap();
        assert_eq!(given.length, 10 + 5 * self.settings.n as usize);
        assert!(answer[given.length..].iter().all(|&byte| byte == 0xa5));
        let sheet = if given.settled_by == SettledBy::Direct { &direct } else { &crusaders };
        let entries = (sheet.len() - 8) / 5;
        assert_eq!(given.readings, &sheet[8 + entries..]);
        assert_eq!(
            given.readings.as_ptr(),
            sheet[8 + entries..].as_ptr(),
            "a part of the lent sheet"
        );
        let (mut alone, length) = ([0xa5; MAX_ANSWER], given.length);
        assert_eq!((settle(sheet, &mut alone), alone), (Ok(length), answer));
        (given.settled_by, Answer::new(&answer[..length]).unwrap().value())
    }
}

fn made(settings: Settings, entries: &[Option<i32>]) -> Vec<u8> {
    let marks: Vec<u8> = entries.iter().map(|entry| entry.is_some() as u8).collect();
    let readings: Vec<i32> = entries.iter().map(|entry| entry.unwrap_or(0)).collect();
    let mut sheet = vec![0; 8 + 5 * entries.len()];
    assert_eq!(write(settings, &marks, &readings, &mut sheet), Ok(sheet.len()));
    sheet
}

fn four() -> Station<'static> {
    let settings = Settings { rule: CCA, window: 2, ..SETTINGS };
    Station { settings, first: &[0, 2], low: -2, high: 4, told: &[0, 2, -2, -2] }
}

/// Request 7: 6 and 17 ticks apart, as far as the limits allow, where the planned windows are 1 and 3.
#[test]
fn falls_back() {
    use SettledBy::{Crusaders, Direct};
    assert_eq!([0, 1].map(|p| four().settled(p)), [(Crusaders, -2), (Direct, 4)]);
    let settings = Settings { n: 7, m: 2, window: 7, ..four().settings };
    let told = [0, 0, 7, 7, -7, -7, -7];
    let seven = Station { settings, first: &told[..4], low: -7, high: 14, told: &told };
    let values = [(Crusaders, -5), (Direct, 12), (Direct, -5), (Direct, -5)];
    assert_eq!([0, 1, 2, 3].map(|p| seven.settled(p)), values);
    assert_eq!(four().settings.plan(1, 1).unwrap().settings.window, 1);
    assert_eq!(settings.plan(7, 1).unwrap().settings.window, 3);
    // as many faulty as are planned for: nobody falls back
    let planned = Station { first: &[0, 2, 2], told: &[0, 2, 2, 4], ..four() };
    assert_eq!([0, 1, 2].map(|p| planned.settled(p)), [(Crusaders, 2); 3]);
}

/// 1 to 6 of the CCA sheet, 1 to 6 of the FCA sheet, 19, 7, 8 and 9 of the CCA sheet, and after its 10 the FCA sheet's
/// 8 to 10.
#[test]
fn refuses_to_fall_back() {
    let ((settled, direct), (crusaders, _)) = (four().sheets(0), four().sheets(1));
    let mut answer = [0xa5; 30];
    let mut both = |crusaders: &[u8], direct: &[u8], room: usize| {
        fallback(crusaders, direct, &mut answer[..room]).map(|given| given.settled_by)
    };
    let with = |sheet: &[u8], at: usize, byte: u8| {
        let mut sheet = sheet.to_vec();
        sheet[at] = byte;
        sheet
    };
    assert_eq!(both(&[], &[], 0), refused(1, 0));
    assert_eq!(both(&settled[..87], &[], 0), refused(6, 0));
    assert_eq!(both(&settled, &[], 0), refused(1, 0));
    assert_eq!(both(&with(&settled, 8, 2), &direct[..27], 0), refused(6, 0));
    assert_eq!(both(&settled, &direct, 29), refused(7, 0));
    assert_eq!(both(&settled, &with(&direct, 1, 0), 29), refused(19, 0));
    assert_eq!(both(&settled, &with(&direct, 4, 3), 29), refused(19, 0));
    assert_eq!(both(&direct, &settled, 0), refused(Refusal::BAD_PAIR, 0));
    assert_eq!(both(&settled, &settled, 30), refused(19, 0));
    assert_eq!(both(&direct, &direct, 30), refused(19, 0));
    for rule in [TRIMMED_MIDPOINT, TRIMMED_MEAN] {
        assert_eq!(both(&settled, &with(&with(&direct, 2, rule), 3, 0), 30), refused(19, 0));
    }
    let five = made(Settings { n: 5, window: 2, ..SETTINGS }, &[None; 5]);
    assert_eq!(both(&settled, &five, 30), refused(19, 0));
    // places are of the sheet that is refused
    let (marked, ghost) =
        (with(&settled, 8 + 15, 2), with(&with(&settled, 8 + 6, 0), 24 + 4 * 6, 1));
    let (bad_mark, no_mark) = (with(&direct, 8 + 3, 2), with(&direct, 8 + 1, 0));
    assert_eq!(both(&marked, &direct, 29), refused(7, 0));
    assert_eq!(both(&marked, &bad_mark, 30), refused(8, 15));
    assert_eq!(both(&ghost, &bad_mark, 30), refused(9, 6));
    assert_eq!(both(&crusaders, &bad_mark, 30), refused(8, 3));
    assert_eq!(both(&crusaders, &no_mark, 30), refused(9, 1));
    let silent = made(Settings { window: 2, ..SETTINGS }, &[None; 4]);
    assert_eq!(both(&crusaders, &silent, 30), refused(10, 0));
    assert_eq!(answer, [0xa5; 30]);
    // while the CCA sheet settles, the other's entries are not looked at; estimators may differ
    let both = |crusaders: &[u8], direct: &[u8]| {
        fallback(crusaders, direct, &mut [0; 30]).map(|given| given.settled_by)
    };
    for other in [&bad_mark, &no_mark, &silent, &with(&direct, 3, MIDPOINT)] {
        assert_eq!(both(&settled, other), Ok(SettledBy::Crusaders));
    }
    assert_eq!(both(&with(&crusaders, 3, AVERAGE), &direct), Ok(SettledBy::Direct));
}

#[test]
fn reads_back_what_was_written() {
    let (mut marks, mut readings) = ([9; 5], [9; 5]);
    assert_eq!(read(&sheet(), &mut marks, &mut readings), Ok(SETTINGS));
    assert_eq!((marks, readings), ([1, 1, 1, 1, 9], [-7, 4, 10, 500, 9]));
    assert_eq!(read(&sheet(), &mut marks[..3], &mut readings), refused(7, 0));
    assert_eq!(read(&sheet(), &mut marks, &mut readings[..3]), refused(7, 0));
    assert_eq!(read(&[], &mut [], &mut []), refused(1, 0));
    assert_eq!(SETTINGS.entries(), 4);
}

#[test]
fn refuses_to_write() {
    let mut buffer = [0xa5; 28];
    assert_eq!(write(SETTINGS, &[1; 4], &READINGS, &mut buffer[..27]), refused(7, 0));
    assert_eq!(write(SETTINGS, &[1; 3], &READINGS, &mut buffer), refused(6, 0));
    assert_eq!(write(SETTINGS, &[1; 4], &READINGS[..3], &mut buffer), refused(6, 0));
    assert_eq!(write(SETTINGS, &[1, 1, 2, 1], &READINGS, &mut buffer), refused(8, 2));
    assert_eq!(write(SETTINGS, &[1, 1, 1, 0], &READINGS, &mut buffer), refused(9, 3));
    assert_eq!(write(SETTINGS, &[], &[], &mut []), refused(6, 0));
    assert_eq!(buffer, [0xa5; 28]);
}

#[test]
fn shows_rows() {
    let sheet = sheet();
    for (cabinet, reading) in READINGS.iter().enumerate() {
        assert_eq!(row(&sheet, cabinet as u32), reading.to_le_bytes());
    }
    assert!(row(&sheet, 4).is_empty() && row(&sheet, u32::MAX).is_empty());
    assert!(row(&sheet[..27], 0).is_empty() && row(&[], 0).is_empty());
}

#[test]
fn plans() {
    let settings = Settings { window: 100, ..SETTINGS };
    let mut plan = settings.plan(100, 0).unwrap();
    for (rounds, window, accuracy) in [(1, 51, 125), (2, 26, 138), (3, 14, 145)] {
        plan = plan.step().unwrap();
        assert_eq!((plan.rounds, plan.settings.window, plan.accuracy), (rounds, window, accuracy));
        assert_eq!(settings.plan(100, rounds), Ok(plan));
    }
    assert_eq!(settings.plan(1_000_000_001, 0), refused(11, 0));
    assert_eq!(settings.plan(100, 33), refused(11, 0));
    assert_eq!(settings.plan(100, 32).unwrap().step(), refused(11, 0));
    assert_eq!(Plan::default().step(), refused(2, 0));
    assert_eq!(settings.rounds_for(100, 0), refused(12, 0));
    assert_eq!(settings.rounds_for(100, 1), refused(12, 0));
    let rounds = settings.rounds_for(100, 2).unwrap();
    assert!(settings.plan(100, rounds).unwrap().settings.window <= 2);
    // no fault, or no window: 0
    let none = Settings { m: 0, ..settings };
    assert_eq!(none.plan(100, 1).unwrap().settings.window, 0);
    let none = Settings { window: 0, ..settings };
    assert_eq!(none.plan(100, 1).unwrap().settings.window, 0);
}

fn ticks(least: u64, greatest: u64) -> Result<Interval, Refusal> {
    Ok(Interval { least, greatest })
}

/// Request 6's own numbers; then a station of seven after one round and after three, and with a drift of 20.
#[test]
fn gives_intervals() {
    assert_eq!(interval(998, 997, 1000), ticks(999, 999));
    assert_eq!(interval(1, 0, 1), ticks(1, 999_999));
    let station = Settings { n: 7, m: 2, window: 16_777, ..SETTINGS };
    let after = |rounds| station.plan(16_777, rounds).unwrap().settings.window;
    assert_eq!(interval(station.window, after(1), 100), ticks(9_589, 71_896_405));
    assert_eq!(interval(station.window, after(3), 100), ticks(3_132, 136_453_177));
    assert_eq!(interval(station.window, after(3), 20), ticks(3_132, 682_293_177));
    // more than 32 bits; the square of the drift decides; window and precision are not the same
    assert_eq!(interval(MAX_WINDOW, 0, 1), ticks(1, 999_999_500_000));
    assert_eq!(interval(4_296, 0, 1), ticks(1, 4_295_997_852));
    assert_eq!(interval(MAX_WINDOW, 666, MAX_DRIFT), ticks(668, 998_834_333));
    assert_eq!(interval(MAX_WINDOW, 571, MAX_DRIFT), ticks(572, 998_929_285));
    assert_eq!(interval(9, 4, 1000), ticks(5, 4_997));
}

/// 17 is first, 18 last.
#[test]
fn refuses_an_interval() {
    let none = refused(Refusal::NO_INTERVAL, 0);
    assert_eq!(interval(1001, 1000, 1000), none);
    assert_eq!(interval(4, 9, 1000), none);
    for window in [0, 1, 16_777, MAX_WINDOW] {
        assert_eq!(interval(window, window, 1), none);
    }
    assert_eq!(interval(MAX_WINDOW, MAX_PRECISION, MAX_DRIFT), none);
    for past in [MAX_WINDOW + 1, u32::MAX] {
        assert_eq!(interval(past, 0, 1), refused(Refusal::BAD_INTERVAL, 0));
        assert_eq!(interval(0, past, 1), refused(17, 0));
        assert_eq!(interval(past, past, past), refused(17, 0));
    }
    for drift in [0, MAX_DRIFT + 1, u32::MAX] {
        assert_eq!(interval(1, 0, drift), refused(17, 0));
        assert_eq!(interval(0, 1, drift), refused(17, 0));
    }
}

#[test]
fn shows_the_answer_sheet() {
    let mut sheet = sheet();
    sheet[4] = 20;
    let mut buffer = [0xa5; 31];
    let length = settle(&sheet, &mut buffer).unwrap();
    let answer = Answer::new(&buffer[..length]).unwrap();
    assert_eq!(
        (answer.cabinets(), answer.count(), answer.estimate(), answer.value()),
        (4, 3, 4, 3)
    );
    for (cabinet, (mark, used)) in [(1, -7), (1, 4), (1, 10), (2, 4)].into_iter().enumerate() {
        assert_eq!(
            (answer.mark(cabinet as u32), answer.used(cabinet as u32)),
            (Ok(mark), Ok(used))
        );
    }
    for cabinet in [4, 5, u32::MAX] {
        assert_eq!(answer.mark(cabinet), refused(7, 0));
        assert_eq!(answer.used(cabinet), refused(7, 0));
    }
    assert_eq!(Answer::new(&buffer), refused(6, 0));
    assert_eq!(Answer::new(&buffer[..29]), refused(6, 0));
    assert_eq!(Answer::new(&[]), refused(2, 0));
    assert_eq!(Answer::new(&[0; 10]), refused(2, 0));
    assert_eq!(Answer::new(&[65; 335]), refused(2, 0));
    assert_eq!(Answer::new(&[64; 330]).unwrap().used(63), Ok(0x4040_4040));
}

/// One round of four cabinets: 0, 1 and 2 read 0, 4 and 10 at first, and 3, faulty, sends 14 to 0 and -6 to 1.
fn trace() -> Vec<u8> {
    let mut trace = vec![4, 1, FCA, MEDIAN, 10, 0, 0, 0, 1, 1, 1, 1, 0];
    trace.extend([0i32, 4, 10, -1].map(i32::to_le_bytes).concat());
    let (mut marks, mut readings) = ([0; 16], [0i32; 16]);
    (marks[12], marks[13]) = (1, 1);
    (readings[12], readings[13]) = (14, -6);
    trace.extend(marks);
    trace.extend(readings.map(i32::to_le_bytes).concat());
    trace
}

#[test]
fn replays() {
    let mut values = [0xa5; 17];
    assert_eq!(replay(&trace(), &mut values), Ok(16));
    assert_eq!(values[..16], [7i32, 2, 4, 0].map(i32::to_le_bytes).concat());
    assert_eq!(values[16], 0xa5);
}

#[test]
fn refuses_to_replay() {
    let mut values = [0xa5; 16];
    let mut with = |at: usize, byte: u8| {
        let mut trace = trace();
        trace[at] = byte;
        replay(&trace, &mut values)
    };
    assert_eq!(with(0, 65), refused(2, 0));
    assert_eq!(with(2, CCA), refused(Refusal::BAD_TRACE, 0));
    assert_eq!(with(8, 33), refused(Refusal::BAD_TRACE, 0));
    assert_eq!(with(29 + 5, 2), refused(8, 5));
    assert_eq!(with(45 + 4 * 11, 1), refused(9, 11));
    assert_eq!(with(12, 2), refused(Refusal::BAD_ROLES, 0));
    assert_eq!(with(29 + 11, 1), refused(Refusal::BAD_ROLES, 0));
    assert_eq!(with(4, 9), refused(Refusal::RUN_STOPPED, 64));
    assert_eq!(replay(&trace()[..108], &mut values), refused(Refusal::BAD_TRACE, 0));
    assert_eq!(replay(&trace(), &mut values[..15]), refused(7, 0));
    assert_eq!(replay(&[], &mut []), refused(1, 0));
    assert_eq!(values, [0xa5; 16]);
}

/// The most cabinets and the most rounds: all read the same, and nothing is sent.
#[test]
fn replays_the_longest_trace() {
    let mut trace = vec![0; MAX_TRACE];
    trace[..2].copy_from_slice(&[MAX_CABINETS, 21]);
    trace[8] = MAX_ROUNDS as u8;
    trace[9..9 + 64].fill(1);
    trace[9 + 64..9 + 5 * 64].fill(0xff);
    let mut values = [0; MAX_VALUES];
    assert_eq!(replay(&trace, &mut values), Ok(MAX_VALUES));
    assert_eq!(values, [0xff; MAX_VALUES]);
    trace.push(0);
    assert_eq!(replay(&trace, &mut values), refused(Refusal::BAD_TRACE, 0));
}

#[test]
fn refusals_are_errors() {
    let refusal = Refusal { number: Refusal::BAD_MARK, place: 2 };
    let error: &dyn core::error::Error = &refusal;
    assert_eq!(error.to_string(), format!("refused 8 2: {}", refusal.meaning()));
}
