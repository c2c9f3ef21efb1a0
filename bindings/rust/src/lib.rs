//! Byzantine clock agreement, proved: a safe wrapper of the static library, without std.
//! include/tohiranga.h says what each call does and what to do about each refusal. Cabinets are numbered from 0.
#![no_std]

use core::error::Error;
use core::fmt;
use core::mem::{offset_of, size_of};

pub const FCA: u8 = 0;
pub const CCA: u8 = 1;
/// The trimming rules: the m lowest and the m highest readings are dropped. The estimator is 0.
pub const TRIMMED_MIDPOINT: u8 = 2;
pub const TRIMMED_MEAN: u8 = 3;

pub const AVERAGE: u8 = 0;
pub const MEDIAN: u8 = 1;
pub const MIDPOINT: u8 = 2;

pub const TICKS_PER_SECOND: u32 = 16_777_216;

pub const MAX_CABINETS: u8 = 64;
pub const MAX_WINDOW: u32 = 1_000_000;
pub const MAX_SPREAD: u32 = 100_000;
pub const MAX_PRECISION: u32 = 1_000_000;
/// In parts per million.
pub const MAX_DRIFT: u32 = 1_000;
pub const MAX_ACCURACY: u32 = 1_000_000_000;
pub const MAX_ROUNDS: u32 = 32;

/// The bytes of the longest sheet, answer sheet and trace, and the most that a replay writes.
pub const MAX_SHEET: usize = 20_488;
pub const MAX_ANSWER: usize = 330;
pub const MAX_TRACE: usize = 655_689;
pub const MAX_VALUES: usize = 256;

/// The version of this wrapper, and of the library that belongs to it.
pub const VERSION: &str = env!("CARGO_PKG_VERSION");

/// The version of the library that is linked: major × 2^16 + minor × 2^8 + patch.
pub fn version() -> u32 {
    // SAFETY: no pointer is handed over.
    unsafe { tohiranga_version() }
}

/// The settings: n cabinets, m faults planned for, the window in ticks. Any numbers at all.
#[repr(C)]
#[derive(Clone, Copy, Debug, Default, PartialEq, Eq)]
pub struct Settings {
    pub n: u8,
    pub m: u8,
    pub rule: u8,
    pub estimator: u8,
    pub window: u32,
}

impl Settings {
    /// E: the marks, and the readings, of a sheet with these settings.
    pub fn entries(&self) -> usize {
        let n = self.n as usize;
        if self.rule == CCA {
            n * n
        } else {
            n
        }
    }

    /// The plan that many rounds on from an accuracy at the start. A fresh plan is the one for 0 rounds. A round on, the
    /// window w becomes the whole part of 2mw/N plus one (of mw/N for CCA with median), and 0 where m or w is 0; the
    /// accuracy grows by mw/N, rounded up. There is none for a trimming rule, which is refused under 4.
    pub fn plan(&self, accuracy: u32, rounds: u32) -> Result<Plan, Refusal> {
        // SAFETY: no pointer is handed over.
        let given = unsafe { tohiranga_plan(*self, accuracy, rounds) };
        granted(given.answer).map(|_| given.plan)
    }

    /// A number of rounds, at most 32, after which the window is at or below the target.
    pub fn rounds_for(&self, accuracy: u32, target: u32) -> Result<u32, Refusal> {
        // SAFETY: no pointer is handed over.
        granted(unsafe { tohiranga_target(*self, accuracy, target) }).map(|rounds| rounds as u32)
    }
}

/// The settings with the next round's window, the accuracy planned by then, the rounds done.
#[repr(C)]
#[derive(Clone, Copy, Debug, Default, PartialEq, Eq)]
pub struct Plan {
    pub settings: Settings,
    pub accuracy: u32,
    pub rounds: u32,
}

impl Plan {
    /// The plan one round on.
    pub fn step(self) -> Result<Plan, Refusal> {
        // SAFETY: no pointer is handed over.
        let given = unsafe { tohiranga_step(self) };
        granted(given.answer).map(|_| given.plan)
    }
}

/// How many ticks there may be between rounds: both ends, and every whole number between them.
#[derive(Clone, Copy, Debug, PartialEq, Eq)]
pub struct Interval {
    pub least: u64,
    pub greatest: u64,
}

/// Which of its two sheets settled a cabinet's round.
#[derive(Clone, Copy, Debug, PartialEq, Eq)]
pub enum SettledBy {
    /// The CCA sheet, as planned.
    Crusaders = 1,
    /// The FCA sheet, after the CCA sheet's 10: more than m cabinets are bad, and no planned window follows.
    Direct = 2,
}

/// A round that one of two sheets settled.
#[derive(Clone, Copy, Debug, PartialEq, Eq)]
pub struct Fallback<'a> {
    pub settled_by: SettledBy,
    /// The answer sheet's length, 10 + 5N.
    pub length: usize,
    /// The readings of the sheet that settled the round, without the marks: that part of it, four bytes an entry.
    pub readings: &'a [u8],
}

/// A numbered refusal. The place is the lowest entry at fault for 8 and 9, 64 × round + cabinet for 15, else 0.
#[derive(Clone, Copy, Debug, PartialEq, Eq)]
pub struct Refusal {
    pub number: u32,
    pub place: u32,
}

impl Refusal {
    pub const TOO_SHORT: u32 = 1;
    pub const BAD_CABINETS: u32 = 2;
    pub const BAD_FAULTS: u32 = 3;
    pub const BAD_METHOD: u32 = 4;
    pub const BAD_WINDOW: u32 = 5;
    pub const BAD_LENGTH: u32 = 6;
    pub const NO_ROOM: u32 = 7;
    pub const BAD_MARK: u32 = 8;
    pub const BAD_MISSING: u32 = 9;
    pub const TOO_MANY_FAULTS: u32 = 10;
    pub const BAD_PLAN: u32 = 11;
    pub const TARGET_MISSED: u32 = 12;
    pub const BAD_TRACE: u32 = 13;
    pub const BAD_ROLES: u32 = 14;
    pub const RUN_STOPPED: u32 = 15;
    pub const BAD_SPREAD: u32 = 16;
    pub const BAD_INTERVAL: u32 = 17;
    pub const NO_INTERVAL: u32 = 18;
    pub const BAD_PAIR: u32 = 19;

    /// What the number means.
    pub fn meaning(&self) -> &'static str {
        match self.number {
            Self::TOO_SHORT => "the sheet has under 8 bytes",
            Self::BAD_CABINETS => "N is 0 or above 64",
            Self::BAD_FAULTS => "N is below 3m+1",
            Self::BAD_METHOD => "unknown rule or estimator",
            Self::BAD_WINDOW => "the window is above 1,000,000",
            Self::BAD_LENGTH => "the sheet (or an array to write) is not as long as its settings say",
            Self::NO_ROOM => "the lent buffer or array is too short",
            Self::BAD_MARK => "a mark is not 0 or 1; the place is its entry",
            Self::BAD_MISSING => "a missing reading's bytes are not zero; the place is its entry",
            Self::TOO_MANY_FAULTS => "too many faults: no reading is accepted",
            Self::BAD_PLAN => {
                "starting accuracy above 1,000,000,000, more than 32 rounds, or a plan that can go no further"
            }
            Self::TARGET_MISSED => "no count of rounds up to 32 reaches the target",
            Self::BAD_TRACE => {
                "the trace is not one of an FCA run of at most 32 rounds, or not as long as it says"
            }
            Self::BAD_ROLES => "a role is not 0 or 1, or a sound sender's entry is present",
            Self::RUN_STOPPED => {
                "too many faults for a sound cabinet; the place is 64 x round (from 1) + cabinet"
            }
            Self::BAD_SPREAD => "the spread is above 100,000, or above 0 with another rule than FCA",
            Self::BAD_INTERVAL => {
                "the window or the precision is above 1,000,000, or the drift is not 1 to 1,000"
            }
            Self::NO_INTERVAL => "no interval of at least one tick meets both limits",
            Self::BAD_PAIR => "the two sheets differ in N, m or the window, or are not CCA then FCA",
            _ => "no refusal of this library",
        }
    }
}

impl fmt::Display for Refusal {
    fn fmt(&self, f: &mut fmt::Formatter<'_>) -> fmt::Result {
        write!(f, "refused {} {}: {}", self.number, self.place, self.meaning())
    }
}

impl Error for Refusal {}

/// An answer sheet: bytes that are one, with the fields that stand in them.
#[derive(Clone, Copy, Debug, PartialEq, Eq)]
pub struct Answer<'a> {
    bytes: &'a [u8],
}

impl<'a> Answer<'a> {
    /// Any bytes. Refused under 2 where byte 0 is 0 or above 64, and under 6 where the length is not 10 + 5N.
    pub fn new(bytes: &'a [u8]) -> Result<Answer<'a>, Refusal> {
        let answer = Answer { bytes };
        answer.field(tohiranga_answer_cabinets).map(|_| answer)
    }

    fn field(&self, call: unsafe extern "C" fn(*const u8, usize) -> u64) -> Result<u32, Refusal> {
        // SAFETY: the pointer goes with its slice's length.
        granted(unsafe { call(self.bytes.as_ptr(), self.bytes.len()) }).map(|number| number as u32)
    }

    fn field_of(
        &self,
        call: unsafe extern "C" fn(*const u8, usize, u32) -> u64,
        cabinet: u32,
    ) -> Result<u32, Refusal> {
        // SAFETY: the pointer goes with its slice's length.
        granted(unsafe { call(self.bytes.as_ptr(), self.bytes.len(), cabinet) })
            .map(|number| number as u32)
    }

    /// N. These four are never refused, since `new` refuses what they would.
    pub fn cabinets(&self) -> u32 {
        self.field(tohiranga_answer_cabinets).unwrap_or_default()
    }

    /// How many readings were accepted; by a trimming rule N-2m, the missing ones that are left among them.
    pub fn count(&self) -> u32 {
        self.field(tohiranga_answer_count).unwrap_or_default()
    }

    /// The estimate, in ticks; by a trimming rule the new value.
    pub fn estimate(&self) -> i32 {
        self.field(tohiranga_answer_estimate).unwrap_or_default() as i32
    }

    /// The new value, in ticks: the mean of the used values, or what a trimming rule takes of the readings left, to the
    /// nearest, a half going to the even neighbour.
    pub fn value(&self) -> i32 {
        self.field(tohiranga_answer_value).unwrap_or_default() as i32
    }

    /// A cabinet's mark: 0 missing or known faulty, 1 accepted, 2 present and not accepted; by a trimming rule 1 is left,
    /// 2 dropped. A cabinet of N or above is refused under 7.
    pub fn mark(&self, cabinet: u32) -> Result<u8, Refusal> {
        self.field_of(tohiranga_answer_mark, cabinet).map(|mark| mark as u8)
    }

    /// A cabinet's used value, in ticks. A cabinet of N or above is refused under 7.
    pub fn used(&self, cabinet: u32) -> Result<i32, Refusal> {
        self.field_of(tohiranga_answer_used, cabinet).map(|bits| bits as i32)
    }
}

fn granted(answer: u64) -> Result<usize, Refusal> {
    match (answer >> 32) as u32 {
        0 => Ok(answer as usize),
        number => Err(Refusal { number, place: answer as u32 }),
    }
}

#[repr(C)]
struct Opening {
    answer: u64,
    settings: Settings,
}

#[repr(C)]
struct Planning {
    answer: u64,
    plan: Plan,
}

#[repr(C)]
struct Timing {
    answer: u64,
    least: u64,
    greatest: u64,
}

#[repr(C)]
struct PairSettled {
    answer: u64,
    settled_by: u32,
    start: u32,
    length: u32,
}

// as include/tohiranga.h lays it out
const _: () = assert!(
    size_of::<PairSettled>() == 24
        && offset_of!(PairSettled, answer) == 0
        && offset_of!(PairSettled, settled_by) == 8
        && offset_of!(PairSettled, start) == 12
        && offset_of!(PairSettled, length) == 16
);

extern "C" {
    fn tohiranga_settle(
        sheet: *const u8,
        sheet_len: usize,
        answer: *mut u8,
        answer_len: usize,
    ) -> u64;
    fn tohiranga_settle_spread(
        sheet: *const u8,
        sheet_len: usize,
        spread: u32,
        answer: *mut u8,
        answer_len: usize,
    ) -> u64;
    fn tohiranga_fallback(
        crusaders: *const u8,
        crusaders_len: usize,
        direct: *const u8,
        direct_len: usize,
        answer: *mut u8,
        answer_len: usize,
    ) -> PairSettled;
    fn tohiranga_read(
        sheet: *const u8,
        sheet_len: usize,
        marks: *mut u8,
        marks_len: usize,
        readings: *mut i32,
        readings_len: usize,
    ) -> Opening;
    fn tohiranga_write(
        settings: Settings,
        marks: *const u8,
        marks_len: usize,
        readings: *const i32,
        readings_len: usize,
        sheet: *mut u8,
        sheet_len: usize,
    ) -> u64;
    fn tohiranga_row(sheet: *const u8, sheet_len: usize, cabinet: u32) -> u64;
    fn tohiranga_plan(settings: Settings, accuracy: u32, rounds: u32) -> Planning;
    fn tohiranga_step(plan: Plan) -> Planning;
    fn tohiranga_target(settings: Settings, accuracy: u32, target: u32) -> u64;
    fn tohiranga_interval(window: u32, precision: u32, drift: u32) -> Timing;
    fn tohiranga_answer_cabinets(answer: *const u8, answer_len: usize) -> u64;
    fn tohiranga_answer_count(answer: *const u8, answer_len: usize) -> u64;
    fn tohiranga_answer_estimate(answer: *const u8, answer_len: usize) -> u64;
    fn tohiranga_answer_value(answer: *const u8, answer_len: usize) -> u64;
    fn tohiranga_answer_mark(answer: *const u8, answer_len: usize, cabinet: u32) -> u64;
    fn tohiranga_answer_used(answer: *const u8, answer_len: usize, cabinet: u32) -> u64;
    fn tohiranga_replay(
        trace: *const u8,
        trace_len: usize,
        values: *mut u8,
        values_len: usize,
    ) -> u64;
    fn tohiranga_version() -> u32;
}

/// Settles a round sheet: the answer sheet fills the start of the buffer, and its length is given back. By a trimming rule
/// a missing reading counts as 0, and the new value is half the sum of the extremes left (`TRIMMED_MIDPOINT`) or the mean of
/// those left (`TRIMMED_MEAN`).
pub fn settle(sheet: &[u8], answer: &mut [u8]) -> Result<usize, Refusal> {
    // SAFETY: each pointer goes with its slice's length, and the borrows keep the slices apart.
    granted(unsafe {
        tohiranga_settle(sheet.as_ptr(), sheet.len(), answer.as_mut_ptr(), answer.len())
    })
}

/// Settles a round sheet where two sound cabinets' readings of a good one differ by up to a spread, 0 to `MAX_SPREAD`
/// ticks. All cabinets of a station give the same one; above 0 it is for FCA alone. `settle` is this with the spread 0.
/// include/tohiranga.h says how far two new values can then be apart.
pub fn settle_spread(sheet: &[u8], spread: u32, answer: &mut [u8]) -> Result<usize, Refusal> {
    // SAFETY: each pointer goes with its slice's length, and the borrows keep the slices apart.
    granted(unsafe {
        tohiranga_settle_spread(
            sheet.as_ptr(),
            sheet.len(),
            spread,
            answer.as_mut_ptr(),
            answer.len(),
        )
    })
}

/// Settles a cabinet's CCA sheet, or where that is refused under 10 its FCA sheet: what it heard directly. N, m and
/// the window are the same in both, and estimators may differ; else it is refused under 19. The answer sheet fills the
/// start of the buffer. The readings shown are a part of the sheet that settled the round.
///
/// Where a cabinet falls back more than m are bad. Where these are fewer than N - m its new value keeps the wider
/// limits of a first round: include/tohiranga.h says how far apart two cabinets can then be. No planned window
/// follows.
///
/// ```
/// use tohiranga::{fallback, write, Answer, SettledBy, Settings, CCA, FCA, MAX_ANSWER, MEDIAN};
///
/// let settings = Settings { n: 4, m: 1, rule: CCA, estimator: MEDIAN, window: 2 };
/// // cabinets 2 and 3 told cabinet 0 -2 and this one, cabinet 1, 4; they relay nothing to it
/// let marks = [1, 1, 0, 0].repeat(4);
/// let copies = [[0, 0, 0, 0], [2, 2, 0, 0], [-2, 4, 0, 0], [-2, 4, 0, 0]].concat();
/// let (mut crusaders, mut direct) = ([0; 88], [0; 28]);
/// write(settings, &marks, &copies, &mut crusaders)?;
/// write(Settings { rule: FCA, ..settings }, &[1; 4], &[0, 2, 4, 4], &mut direct)?;
///
/// let mut answer = [0; MAX_ANSWER];
/// let fell = fallback(&crusaders, &direct, &mut answer)?;
/// assert_eq!(fell.settled_by, SettledBy::Direct);
/// assert_eq!(fell.readings, &direct[12..]);
/// assert_eq!(Answer::new(&answer[..fell.length])?.value(), 4);
/// # Ok::<(), tohiranga::Refusal>(())
/// ```
pub fn fallback<'a>(
    crusaders: &'a [u8],
    direct: &'a [u8],
    answer: &mut [u8],
) -> Result<Fallback<'a>, Refusal> {
    // SAFETY: each pointer goes with its slice's length, and the borrows keep the answer apart from the sheets.
    let given = unsafe {
        tohiranga_fallback(
            crusaders.as_ptr(),
            crusaders.len(),
            direct.as_ptr(),
            direct.len(),
            answer.as_mut_ptr(),
            answer.len(),
        )
    };
    let length = granted(given.answer)?;
    let (settled_by, sheet) = if given.settled_by == SettledBy::Direct as u32 {
        (SettledBy::Direct, direct)
    } else {
        (SettledBy::Crusaders, crusaders)
    };
    let start = given.start as usize;
    Ok(Fallback { settled_by, length, readings: &sheet[start..start + given.length as usize] })
}

/// How long between rounds, where every cabinet starts anew each time its clock, as the rounds have set it, reads so many ticks
/// more, at the same readings everywhere. The window is that of the first round, the precision how far apart the rounds leave sound clocks at most: the window of the plan after
/// them. The drift, 1 to `MAX_DRIFT` parts per million, is twice what a clock's rate may be wrong either way: clocks that are
/// good to 50 parts per million have a drift of 100. Refused under 17, and under 18 where no interval meets both limits of
/// include/tohiranga.h.
///
/// ```
/// use tohiranga::{interval, Settings, FCA, MEDIAN, TICKS_PER_SECOND};
///
/// let station = Settings { n: 7, m: 2, rule: FCA, estimator: MEDIAN, window: 16_777 };
/// let three_rounds = station.plan(16_777, 3)?;
/// let ticks = interval(station.window, three_rounds.settings.window, 100)?;
/// assert_eq!((ticks.least, ticks.greatest), (3_132, 136_453_177));
/// assert_eq!(ticks.greatest / u64::from(TICKS_PER_SECOND), 8);
/// # Ok::<(), tohiranga::Refusal>(())
/// ```
#[inline]
pub fn interval(window: u32, precision: u32, drift: u32) -> Result<Interval, Refusal> {
    // SAFETY: no pointer is handed over.
    let given = unsafe { tohiranga_interval(window, precision, drift) };
    granted(given.answer).map(|_| Interval { least: given.least, greatest: given.greatest })
}

/// Replays a recorded FCA run: the final values, four bytes for each cabinet and 0 for faulty ones, fill the start of the
/// buffer, and their length, 4N, is given back.
pub fn replay(trace: &[u8], values: &mut [u8]) -> Result<usize, Refusal> {
    // SAFETY: each pointer goes with its slice's length, and the borrows keep the slices apart.
    granted(unsafe {
        tohiranga_replay(trace.as_ptr(), trace.len(), values.as_mut_ptr(), values.len())
    })
}

/// Reads a round sheet into the first E marks and readings, and gives the settings back.
pub fn read(sheet: &[u8], marks: &mut [u8], readings: &mut [i32]) -> Result<Settings, Refusal> {
    // SAFETY: each pointer goes with its slice's length, and the borrows keep the slices apart.
    let given = unsafe {
        tohiranga_read(
            sheet.as_ptr(),
            sheet.len(),
            marks.as_mut_ptr(),
            marks.len(),
            readings.as_mut_ptr(),
            readings.len(),
        )
    };
    granted(given.answer).map(|_| given.settings)
}

/// Writes a round sheet of E marks and E readings to the start of the buffer, and gives its length back.
pub fn write(
    settings: Settings,
    marks: &[u8],
    readings: &[i32],
    sheet: &mut [u8],
) -> Result<usize, Refusal> {
    // SAFETY: each pointer goes with its slice's length, and the borrows keep the slices apart.
    granted(unsafe {
        tohiranga_write(
            settings,
            marks.as_ptr(),
            marks.len(),
            readings.as_ptr(),
            readings.len(),
            sheet.as_mut_ptr(),
            sheet.len(),
        )
    })
}

/// The part of the sheet that holds a cabinet's readings; empty for a bad sheet and for a cabinet of N or above.
pub fn row(sheet: &[u8], cabinet: u32) -> &[u8] {
    // SAFETY: the pointer goes with its slice's length.
    let part = unsafe { tohiranga_row(sheet.as_ptr(), sheet.len(), cabinet) };
    let start = (part >> 32) as usize;
    &sheet[start..start + part as u32 as usize]
}
