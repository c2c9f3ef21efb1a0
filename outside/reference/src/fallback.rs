//! Fall back to the direct sheet: document 02, paper 7.

use crate::checks::{Refusal, CCA, FCA};
use crate::round::settle;
use crate::sheet::settings_of;

/// Which sheet settled the round.
#[derive(Clone, Copy, Debug, PartialEq, Eq)]
pub enum Source {
    Crusaders = 1,
    Direct = 2,
}

/// A round that one of two sheets settled: the length of the answer sheet, which one, and the part of it that holds its
/// readings.
#[derive(Clone, Copy, Debug, PartialEq, Eq)]
pub struct Fallback<'a> {
    pub length: usize,
    pub source: Source,
    pub readings: &'a [u8],
}

/// Settles a CCA sheet and, after a 10, an FCA sheet in its place.
pub fn fallback<'a>(
    crusaders: &'a [u8],
    direct: &'a [u8],
    answer: &mut [u8],
) -> Result<Fallback<'a>, Refusal> {
    check_pair(crusaders, direct)?;
    // Of settling, check 7 is the first that is left, and asks the same of both sheets.
    match settle(crusaders, answer) {
        Ok(length) => {
            Ok(Fallback { length, source: Source::Crusaders, readings: readings_in(crusaders) })
        }
        Err(Refusal { number: 10, .. }) => {
            let length = settle(direct, answer)?;
            Ok(Fallback { length, source: Source::Direct, readings: readings_in(direct) })
        }
        Err(refusal) => Err(refusal),
    }
}

/// Checks 1 to 6 of the CCA sheet, then of the FCA sheet, then 19.
fn check_pair(crusaders: &[u8], direct: &[u8]) -> Result<(), Refusal> {
    let (first, second) = (settings_of(crusaders)?, settings_of(direct)?);
    let alike = first.n == second.n && first.m == second.m && first.window == second.window;
    if !alike || first.rule != CCA || second.rule != FCA {
        return Err(Refusal::new(19));
    }
    Ok(())
}

/// The part of a sheet behind its marks.
fn readings_in(sheet: &[u8]) -> &[u8] {
    settings_of(sheet).map_or(&[], |settings| &sheet[8 + settings.entries()..])
}
