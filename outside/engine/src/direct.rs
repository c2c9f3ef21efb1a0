//! Settling and reading by direct calls of the library, and of that of an earlier commit beside it in the same
//! program, both in the same way, so that their times can be compared. The earlier archive has `tohiranga_settle`,
//! `tohiranga_read` and, with the feature `before_spread`, `tohiranga_settle_spread` under names with `before` for
//! `tohiranga`, and exports no other; tests/bench_before builds both.

use crate::whole::{tohiranga_read, Opening};
use crate::{Engine, Fallen, Plan, Settings, Spacing};

type Settle = unsafe extern "C" fn(*const u8, usize, *mut u8, usize) -> u64;
type SettleSpread = unsafe extern "C" fn(*const u8, usize, u32, *mut u8, usize) -> u64;
type Read = unsafe extern "C" fn(*const u8, usize, *mut u8, usize, *mut i32, usize) -> Opening;

extern "C" {
    fn tohiranga_settle(sheet: *const u8, len: usize, answer: *mut u8, room: usize) -> u64;
    fn tohiranga_settle_spread(s: *const u8, n: usize, d: u32, a: *mut u8, room: usize) -> u64;
    fn before_settle(sheet: *const u8, len: usize, answer: *mut u8, room: usize) -> u64;
    #[cfg(feature = "before_spread")]
    fn before_settle_spread(s: *const u8, n: usize, d: u32, a: *mut u8, room: usize) -> u64;
    fn before_read(
        sheet: *const u8,
        len: usize,
        marks: *mut u8,
        marks_len: usize,
        readings: *mut i32,
        readings_len: usize,
    ) -> Opening;
}

pub struct Direct {
    name: &'static str,
    settle: Settle,
    settle_spread: Option<SettleSpread>,
    read: Read,
}

/// The library of this tree.
pub const NOW: Direct = Direct {
    name: "now",
    settle: tohiranga_settle,
    settle_spread: Some(tohiranga_settle_spread),
    read: tohiranga_read,
};

/// The library of the earlier commit.
pub const BEFORE: Direct = Direct {
    name: "before",
    settle: before_settle,
    #[cfg(feature = "before_spread")]
    settle_spread: Some(before_settle_spread),
    #[cfg(not(feature = "before_spread"))]
    settle_spread: None,
    read: before_read,
};

impl Engine for Direct {
    fn name(&self) -> String {
        self.name.into()
    }

    fn settle(&self, sheet: &[u8], answer: &mut [u8]) -> u64 {
        let (answer, room) = (answer.as_mut_ptr(), answer.len());
        // SAFETY: each pointer goes with its slice's length, and the borrows keep the slices apart.
        unsafe { (self.settle)(sheet.as_ptr(), sheet.len(), answer, room) }
    }

    fn settle_spread(&self, sheet: &[u8], spread: u32, answer: &mut [u8]) -> u64 {
        let Some(call) = self.settle_spread else {
            return crate::Reference.settle_spread(sheet, spread, answer);
        };
        let (answer, room) = (answer.as_mut_ptr(), answer.len());
        // SAFETY: each pointer goes with its slice's length, and the borrows keep the slices apart.
        unsafe { call(sheet.as_ptr(), sheet.len(), spread, answer, room) }
    }

    fn has_spread(&self) -> bool {
        self.settle_spread.is_some()
    }

    fn read(
        &self,
        sheet: &[u8],
        settings: &mut Settings,
        marks: &mut [u8],
        readings: &mut [i32],
    ) -> u64 {
        let (len, marks_len, readings_len) = (sheet.len(), marks.len(), readings.len());
        let (marks, readings) = (marks.as_mut_ptr(), readings.as_mut_ptr());
        // SAFETY: each pointer goes with its slice's length, and the borrows keep the slices apart.
        let given =
            unsafe { (self.read)(sheet.as_ptr(), len, marks, marks_len, readings, readings_len) };
        *settings = crate::linked::settings_from(given.settings);
        given.answer
    }

    fn interval(&self, window: u32, precision: u32, drift: u32) -> Spacing {
        crate::Reference.interval(window, precision, drift)
    }

    fn fallback(&self, crusaders: &[u8], direct: &[u8], answer: &mut [u8]) -> Fallen {
        crate::Reference.fallback(crusaders, direct, answer)
    }

    fn replay(&self, trace: &[u8], values: &mut [u8]) -> u64 {
        crate::Reference.replay(trace, values)
    }

    others_by_reference!();
}
