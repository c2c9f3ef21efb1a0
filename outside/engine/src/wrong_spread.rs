//! Settlings with a spread whose checks are wrong in a named way: see `sabotage`.

use crate::{number, packed, Engine, Refusal};
use reference::{settings_of, CCA, FCA};

const MOST: u32 = 100_000;

/// The answer of a settling with a spread that is wrong in that way; None where it is the engine's own.
pub fn wrong_spread(
    engine: &dyn Engine,
    how: &str,
    sheet: &[u8],
    spread: u32,
    answer: &mut [u8],
) -> Option<u64> {
    if !how.starts_with("spread-") {
        return None;
    }
    let call = Call { engine, how, sheet, spread };
    let given = engine.settle_spread(sheet, spread, &mut answer.to_vec());
    match number(given) {
        1..=4 => None,
        5 => (how == "spread-early" && spread > MOST).then(refused),
        16 => call.wrong_refusal(answer),
        _ => call.wrong_pass(answer),
    }
}

fn refused() -> u64 {
    packed(Refusal::new(16))
}

/// A call, and the way in which it is wrong.
struct Call<'a> {
    engine: &'a dyn Engine,
    how: &'a str,
    sheet: &'a [u8],
    spread: u32,
}

impl Call<'_> {
    /// Of a spread that check 16 refuses.
    fn wrong_refusal(&self, answer: &mut [u8]) -> Option<u64> {
        let (engine, sheet) = (self.engine, self.sheet);
        match self.how {
            "spread-late" => settings_of(sheet).err().map(packed),
            "spread-last" => Some(engine.settle(sheet, &mut answer.to_vec()))
                .filter(|later| (6..=9).contains(&number(*later))),
            "spread-crusaders" if self.spread <= MOST && sheet[2] == CCA => {
                Some(engine.settle(sheet, answer))
            }
            "spread-trimmed" if self.spread <= MOST && sheet[2] > CCA => {
                Some(engine.settle(sheet, answer))
            }
            "spread-over" if self.spread == MOST + 1 => {
                Some(engine.settle_spread(sheet, MOST, answer))
            }
            "spread-place" => Some(packed(Refusal { number: 16, place: self.spread })),
            "spread-writes" if !answer.is_empty() => {
                answer[0] ^= 1;
                Some(refused())
            }
            _ => None,
        }
    }

    /// Of a spread that check 16 lets through.
    fn wrong_pass(&self, answer: &mut [u8]) -> Option<u64> {
        match self.how {
            "spread-under" if self.spread == MOST => Some(refused()),
            "spread-direct" if self.sheet[2] == CCA => Some(refused()),
            "spread-one" if self.spread == 0 && self.sheet[2] == FCA => {
                Some(self.engine.settle_spread(self.sheet, 1, answer))
            }
            _ => None,
        }
    }
}
