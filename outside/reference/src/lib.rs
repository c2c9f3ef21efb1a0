//! Document 01, and papers 1 to 7 of document 02, in plain safe Rust, as simply as it can be said. Nothing
//! here is fast. It was written from the documents alone, without sight of the proved code.
#![forbid(unsafe_code)]

mod checks;
mod distances;
mod fallback;
mod fraction;
mod interval;
mod planner;
mod replay;
mod round;
mod sheet;
mod text;
mod trimming;
mod vectors;

pub use checks::{
    Refusal, Settings, AVERAGE, CCA, FCA, MEDIAN, MIDPOINT, TRIMMED_MEAN, TRIMMED_MIDPOINT,
};
pub use distances::Distances;
pub use fallback::{fallback, Fallback, Source};
pub use fraction::Fraction;
pub use interval::{interval, meets, stays_in_order, stays_within, Interval};
pub use planner::{
    counts_that_fit, next_accuracy, next_window, plan, step, sums_apart, target, Plan,
};
pub use replay::{replay, Run, Trace, FAULTY, SOUND};
pub use round::{accepted, decide, estimate, mean, settle, settle_readings, settle_spread, Round};
pub use sheet::{
    bytes_of, entries_of, marks_and_readings, numbers_in, read, readings_of, row, settings_of,
    sheet_bytes, write,
};
pub use text::{fallback_text, replay_text, settle_text, INPUT_LIMIT, TRACE_LIMIT};
pub use trimming::{in_order, trim, trimmed_value};
pub use vectors::{
    answers, fallback_answers, replay_answers, settle_answers, FallingBack, Replaying, Settling,
};
