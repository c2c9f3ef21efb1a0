//! Calls of the C interface of which the Rust wrapper hands on a part only: what stands in the
//! structures that a refused call gives back, and the fields of bytes that are no answer sheet.

use crate::{Fallen, Spacing};
use tohiranga::{Plan, Settings};

#[repr(C)]
pub struct Opening {
    pub answer: u64,
    pub settings: Settings,
}

#[repr(C)]
pub struct Planning {
    pub answer: u64,
    pub plan: Plan,
}

#[repr(C)]
struct Interval {
    answer: u64,
    least: u64,
    greatest: u64,
}

#[repr(C)]
struct Fallback {
    answer: u64,
    settled_by: u32,
    start: u32,
    length: u32,
}

extern "C" {
    pub fn tohiranga_read(
        sheet: *const u8,
        sheet_len: usize,
        marks: *mut u8,
        marks_len: usize,
        readings: *mut i32,
        readings_len: usize,
    ) -> Opening;
    fn tohiranga_plan(settings: Settings, accuracy: u32, rounds: u32) -> Planning;
    fn tohiranga_step(plan: Plan) -> Planning;
    fn tohiranga_interval(window: u32, precision: u32, drift: u32) -> Interval;
    fn tohiranga_fallback(
        crusaders: *const u8,
        crusaders_len: usize,
        direct: *const u8,
        direct_len: usize,
        answer: *mut u8,
        answer_len: usize,
    ) -> Fallback;
    fn tohiranga_answer_cabinets(answer: *const u8, answer_len: usize) -> u64;
    fn tohiranga_answer_count(answer: *const u8, answer_len: usize) -> u64;
    fn tohiranga_answer_estimate(answer: *const u8, answer_len: usize) -> u64;
    fn tohiranga_answer_value(answer: *const u8, answer_len: usize) -> u64;
    fn tohiranga_answer_mark(answer: *const u8, answer_len: usize, cabinet: u32) -> u64;
    fn tohiranga_answer_used(answer: *const u8, answer_len: usize, cabinet: u32) -> u64;
}

pub fn read(sheet: &[u8], marks: &mut [u8], readings: &mut [i32]) -> Opening {
    let (marks_len, readings_len) = (marks.len(), readings.len());
    let (marks, readings) = (marks.as_mut_ptr(), readings.as_mut_ptr());
    // SAFETY: each pointer goes with its slice's length, and the borrows keep the slices apart.
    unsafe { tohiranga_read(sheet.as_ptr(), sheet.len(), marks, marks_len, readings, readings_len) }
}

pub fn plan(settings: Settings, accuracy: u32, rounds: u32) -> Planning {
    // SAFETY: no pointer is handed over.
    unsafe { tohiranga_plan(settings, accuracy, rounds) }
}

pub fn step(plan: Plan) -> Planning {
    // SAFETY: no pointer is handed over.
    unsafe { tohiranga_step(plan) }
}

pub fn interval(window: u32, precision: u32, drift: u32) -> Spacing {
    // SAFETY: no pointer is handed over.
    let Interval { answer, least, greatest } =
        unsafe { tohiranga_interval(window, precision, drift) };
    Spacing { answer, least, greatest }
}

pub fn fallback(crusaders: &[u8], direct: &[u8], answer: &mut [u8]) -> Fallen {
    // SAFETY: each pointer goes with its slice's length, and the borrows keep the answer apart from the sheets.
    let Fallback { answer, settled_by, start, length } = unsafe {
        tohiranga_fallback(
            crusaders.as_ptr(),
            crusaders.len(),
            direct.as_ptr(),
            direct.len(),
            answer.as_mut_ptr(),
            answer.len(),
        )
    };
    Fallen { answer, settled_by, start, length }
}

/// N, the number accepted, the estimate and the new value.
pub fn fields(answer: &[u8]) -> [u64; 4] {
    let calls = [
        tohiranga_answer_cabinets,
        tohiranga_answer_count,
        tohiranga_answer_estimate,
        tohiranga_answer_value,
    ];
    // SAFETY: the pointer goes with its slice's length.
    calls.map(|call| unsafe { call(answer.as_ptr(), answer.len()) })
}

/// A cabinet's mark and used value.
pub fn fields_of(answer: &[u8], cabinet: u32) -> [u64; 2] {
    let calls = [tohiranga_answer_mark, tohiranga_answer_used];
    // SAFETY: the pointer goes with its slice's length.
    calls.map(|call| unsafe { call(answer.as_ptr(), answer.len(), cabinet) })
}
