//! Falling back to the direct sheet, in the form that the proved library has: the pair is checked, the CCA sheet settled,
//! and after a 10 the FCA sheet.

use crate::{open, refusal, settle, Rule, Sizes, Steps, HEADER};

/// The length of the answer sheet, which sheet settled, 1 the CCA sheet and 2 the FCA sheet, and where its readings begin
/// and how long they are; or number × 2^32 + place, and three times 0.
pub struct Fallback {
    pub answer: u64,
    pub settled_by: u32,
    pub start: u32,
    pub length: u32,
}

impl Fallback {
    fn refused(answer: u64) -> Fallback {
        Fallback { answer, settled_by: 0, start: 0, length: 0 }
    }

    /// By a sheet of so many entries, unless the answer is a refusal.
    fn settled(answer: u64, settled_by: u32, entries: usize) -> Fallback {
        if answer >> 32 != 0 {
            return Fallback::refused(answer);
        }
        let (start, length) = ((HEADER + entries) as u32, 4 * entries as u32);
        Fallback { answer, settled_by, start, length }
    }
}

pub fn fallback<S: Steps>(crusaders: &[u8], direct: &[u8], answer: &mut [u8]) -> Fallback {
    let n = match check_pair(crusaders, direct) {
        Err(refusal) => return Fallback::refused(refusal),
        Ok(sizes) => sizes.n,
    };
    let settled = settle::<S>(crusaders, answer);
    if settled >> 32 != 10 {
        return Fallback::settled(settled, 1, n * n);
    }
    Fallback::settled(settle::<S>(direct, answer), 2, n)
}

/// Checks 1 to 6 of the CCA sheet, then of the FCA sheet, then 19.
fn check_pair(crusaders: &[u8], direct: &[u8]) -> Result<Sizes, u64> {
    let first = open(crusaders, 0)?.sizes;
    let second = open(direct, 0)?.sizes;
    let alike = first.n == second.n && first.m == second.m && first.span == second.span;
    if !alike || first.rule != Rule::Crusaders || second.rule != Rule::Direct {
        return Err(refusal(19, 0));
    }
    Ok(first)
}
