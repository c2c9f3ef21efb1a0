//! The record of a station's FCA run, and its replay, which must end as the station did.

use crate::liars::Reading;
use crate::limits::{gap, GoodSets};
use crate::run::{hold, Run, Tally};
use engine::traces::redraw_for_faulty;
use engine::{number, packed, words, Engine, Plan, Refusal};
use random::Random;
use reference::{bytes_of, numbers_in, Trace, FAULTY, FCA, SOUND};

/// The cabinets that the liars show one face, and what these hear.
pub struct Heard {
    pub members: Vec<usize>,
    pub entries: Vec<Reading>,
}

/// What a run left: where t ≤ m the good sets, and the plan after its last round.
pub struct End<'a> {
    pub few: &'a [GoodSets],
    pub plan: Plan,
    pub start: i64,
}

pub struct Tape {
    trace: Trace,
    /// The first refusal that a sound cabinet met, as a replay gives it.
    stopped: Option<Refusal>,
}

impl Tape {
    /// An FCA run before its first round. A trace has no place for a sound cabinet without a first reading.
    pub fn start(run: &Run) -> Option<Tape> {
        let role = |&faulty: &bool| if faulty { FAULTY } else { SOUND };
        let roles: Vec<u8> = run.faulty.iter().map(role).collect();
        let silent = (0..run.n()).any(|c| !run.faulty[c] && run.held[c].is_none());
        if run.settings.rule != FCA || silent {
            return None;
        }
        let first = run.held.iter().map(|reading| reading.unwrap_or(0)).collect();
        let trace = Trace::silent(run.settings, run.rounds as u8, roles, first);
        Some(Tape { trace, stopped: None })
    }

    pub fn stopped(&self) -> bool {
        self.stopped.is_some()
    }

    /// A round, from 1 on: what was heard, and what the cabinets hold after it.
    pub fn record(&mut self, round: u32, heard: &[Heard], held: &[Reading]) {
        let at = round as usize - 1;
        for Heard { members, entries } in heard {
            for &receiver in members {
                for sender in self.trace.of_role(FAULTY) {
                    self.trace.send(at, sender, receiver, entries[sender]);
                }
            }
        }
        let refused = self.trace.of_role(SOUND).into_iter().find(|&c| held[c].is_none());
        let place = refused.map(|cabinet| Refusal::at(15, 64 * round as usize + cabinet));
        self.stopped = self.stopped.or(place);
    }

    /// Replays the run, over a tray with old contents.
    pub fn replay(
        mut self,
        random: &Random,
        engine: &dyn Engine,
        held: &[Reading],
        end: &End,
        tally: &mut Tally,
        show: bool,
    ) {
        redraw_for_faulty(random, &mut self.trace);
        let length = 4 * self.trace.n();
        let old = random.bytes(length + random.below(3));
        let mut values = old.clone();
        let answer = engine.replay(&self.trace.bytes(), &mut values);
        if show {
            println!("replay {}: {:?}", words(answer), numbers_in(&values[..length]));
        }
        let (right, station) = match self.stopped {
            Some(refusal) => (packed(refusal), old),
            None => (length as u64, [&self.station(held)[..], &old[length..]].concat()),
        };
        tally.replays += 1;
        tally.stopped_replays += self.stopped() as u64;
        if answer != right || values != station {
            tally.wrong_replays += 1;
            tally
                .broken(|| format!("the replay: {}, the station: {}", words(answer), words(right)));
        }
        if !end.few.is_empty() {
            tally.few_replays += 1;
            tally.few_refused_replays += (number(answer) != 0) as u64;
            if number(answer) == 0 && self.trace.rounds > 0 {
                self.hold_limits(&numbers_in(&values[..length]), end, tally);
            }
        }
    }

    /// What the station's cabinets hold, as a replay writes it.
    fn station(&self, held: &[Reading]) -> Vec<u8> {
        let value = |c: usize| held[c].filter(|_| self.trace.sound(c)).unwrap_or(0);
        bytes_of(&(0..self.trace.n()).map(value).collect::<Vec<_>>())
    }

    /// Where t ≤ m: the planned window and the planned accuracy after the last round.
    fn hold_limits(&self, values: &[i32], end: &End, tally: &mut Tally) {
        let sound: Vec<i64> = self.trace.of_role(SOUND).iter().map(|&c| values[c] as i64).collect();
        hold(tally, 18, gap(&sound), end.plan.settings.window as i64, 0);
        for set in end.few {
            for &value in &sound {
                let error = set.error(value, end.start);
                hold(tally, 19, error, end.plan.accuracy as i64, end.start);
            }
        }
    }
}
