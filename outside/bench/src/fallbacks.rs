//! The pairs of sheets that are timed: a CCA sheet, and an FCA sheet to fall back to.

use crate::sheets::{sheets, Kind};
use engine::{number, Engine, BY_CRUSADERS, BY_DIRECT};
use reference::{CCA, FCA};
use std::hint::black_box;
use std::time::{Duration, Instant};

/// How a pair is settled: the kinds of its two sheets.
pub const ENDS: [End; 3] = [
    End {
        name: "CCA settles",
        kinds: [Kind::SomeLiars, Kind::SomeLiars],
        number: 0,
        by: BY_CRUSADERS,
    },
    End {
        name: "falls back",
        kinds: [Kind::WorstRefusal, Kind::SomeLiars],
        number: 0,
        by: BY_DIRECT,
    },
    End { name: "both refuse", kinds: [Kind::WorstRefusal; 2], number: 10, by: 0 },
];

pub struct End {
    pub name: &'static str,
    pub kinds: [Kind; 2],
    number: usize,
    by: u32,
}

pub type Pair = (Vec<u8>, Vec<u8>);

/// Pairs of one size, of like estimators and not.
pub fn pairs(n: u8, end: &End) -> Vec<Pair> {
    let [crusaders, mut direct] =
        [(CCA, end.kinds[0]), (FCA, end.kinds[1])].map(|(rule, kind)| sheets(n, rule, kind));
    direct[3..].rotate_left(1);
    crusaders.into_iter().zip(direct).collect()
}

/// All engines give the same answers, and end as they should.
pub fn agree(engines: &[Box<dyn Engine>], pairs: &[Pair], end: &End) -> bool {
    let fell = |engine: &dyn Engine, (crusaders, direct): &Pair| {
        let mut tray = [0; 330];
        let given = engine.fallback(crusaders, direct, &mut tray);
        (given, if number(given.answer) == 0 { tray } else { [0; 330] })
    };
    pairs.iter().all(|pair| {
        let first = fell(&*engines[0], pair);
        let same = engines[1..].iter().all(|engine| fell(&**engine, pair) == first);
        same && (number(first.0.answer), first.0.settled_by) == (end.number, end.by)
    })
}

/// Falls back for each, so many times over.
pub fn time(engine: &dyn Engine, pairs: &[Pair], times: u32) -> Duration {
    let mut answer = [0; 330];
    let start = Instant::now();
    for _ in 0..times {
        for (crusaders, direct) in pairs {
            let (crusaders, direct) = (black_box(crusaders), black_box(direct));
            black_box(engine.fallback(crusaders, direct, black_box(&mut answer)));
        }
    }
    start.elapsed()
}
