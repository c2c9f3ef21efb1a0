//! The replay of a recorded FCA run: entries are read in place, and what the cabinets hold stands in
//! local arrays of 64.
#![allow(clippy::needless_range_loop)]

use crate::{reading, refusal, sizes, Rule, Sizes, Steps, HEADER, MOST};

const MOST_ROUNDS: usize = 32;

/// A trace that passes checks 1 to 5 and 13.
struct Trace<'a> {
    sizes: Sizes,
    rounds: usize,
    roles: &'a [u8],
    first: &'a [u8],
    marks: &'a [u8],
    /// Four bytes for each entry.
    readings: &'a [u8],
}

/// The length of the final values, 4N, or number × 2^32 + place.
pub fn replay<S: Steps>(trace: &[u8], values: &mut [u8]) -> u64 {
    let trace = match open(trace) {
        Err(refusal) => return refusal,
        Ok(trace) => trace,
    };
    let length = 4 * trace.sizes.n;
    if values.len() < length {
        return refusal(7, 0);
    }
    if let Err(refusal) = S::check_entries(trace.marks, trace.readings) {
        return refusal;
    }
    if !trace.roles_fit() {
        return refusal(14, 0);
    }
    match trace.run::<S>() {
        Err(refusal) => refusal,
        Ok(held) => {
            for (place, value) in values[..length].chunks_exact_mut(4).zip(held) {
                place.copy_from_slice(&value.to_le_bytes());
            }
            length as u64
        }
    }
}

/// Checks 1 to 5 and 13.
fn open(trace: &[u8]) -> Result<Trace<'_>, u64> {
    let sizes = sizes(trace)?;
    let n = sizes.n;
    let Some(&rounds) = trace.get(HEADER) else { return Err(refusal(13, 0)) };
    let rounds = rounds as usize;
    let entries = rounds * n * n;
    if sizes.rule != Rule::Direct
        || rounds > MOST_ROUNDS
        || trace.len() != HEADER + 1 + 5 * n + 5 * entries
    {
        return Err(refusal(13, 0));
    }
    let (roles, rest) = trace[HEADER + 1..].split_at(n);
    let (first, rest) = rest.split_at(4 * n);
    let (marks, readings) = rest.split_at(entries);
    Ok(Trace { sizes, rounds, roles, first, marks, readings })
}

impl Trace<'_> {
    /// Check 14. The entries of one sender in one round stand together.
    fn roles_fit(&self) -> bool {
        let n = self.sizes.n;
        let missing = |marks: &[u8]| marks.iter().fold(0, |most, &mark| mark.max(most)) == 0;
        let mut rows = self.marks.chunks_exact(n).enumerate();
        self.roles.iter().all(|&role| role < 2)
            && rows.all(|(row, marks)| self.roles[row % n] == 0 || missing(marks))
    }

    fn run<S: Steps>(&self) -> Result<[i32; MOST], u64> {
        let mut sizes = self.sizes;
        let mut held = [0; MOST];
        for cabinet in 0..sizes.n {
            if self.roles[cabinet] == 1 {
                held[cabinet] = reading(self.first, cabinet);
            }
        }
        for round in 0..self.rounds {
            held = self.round::<S>(round, &sizes, &held)?;
            // A trace has no spread, so the span is the window.
            sizes.span = sizes.next_window();
        }
        Ok(held)
    }

    /// What the cabinets hold after a round, from 0 on.
    fn round<S: Steps>(
        &self,
        round: usize,
        sizes: &Sizes,
        held: &[i32; MOST],
    ) -> Result<[i32; MOST], u64> {
        let n = sizes.n;
        let mut next = [0; MOST];
        for receiver in 0..n {
            if self.roles[receiver] == 1 {
                let heard = |sender: usize| {
                    let entry = (round * n + sender) * n + receiver;
                    if self.roles[sender] == 1 {
                        Some(held[sender])
                    } else if self.marks[entry] == 1 {
                        Some(reading(self.readings, entry))
                    } else {
                        None
                    }
                };
                match S::settle_heard(sizes, heard) {
                    None => return Err(refusal(15, 64 * (round + 1) + receiver)),
                    Some(settled) => next[receiver] = settled.new_value(n),
                }
            }
        }
        Ok(next)
    }
}
