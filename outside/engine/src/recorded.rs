//! The proved library with a running digest of all that it answers and all that it was lent, so
//! that two archives can be compared.

use crate::linked::{plan_from, plan_to, settings_from, settings_to, Linked};
use crate::{number, whole, Engine, Fallen, Plan, Settings, Spacing};
use std::cell::Cell;

/// FNV-1a, of 64 bits.
pub struct Recorded(Cell<u64>);

impl Recorded {
    pub fn new() -> Recorded {
        Recorded(Cell::new(0xcbf2_9ce4_8422_2325))
    }

    fn bytes(&self, bytes: impl IntoIterator<Item = u8>) {
        let fold = |sum: u64, byte: u8| (sum ^ byte as u64).wrapping_mul(0x100_0000_01b3);
        self.0.set(bytes.into_iter().fold(self.0.get(), fold));
    }

    fn number(&self, number: u64) {
        self.bytes(number.to_le_bytes());
    }

    fn numbers(&self, numbers: &[i32]) {
        self.bytes(numbers.iter().flat_map(|number| number.to_le_bytes()));
    }

    fn settings(&self, settings: &Settings) {
        let Settings { n, m, rule, estimator, window } = *settings;
        self.bytes([n, m, rule, estimator]);
        self.bytes(window.to_le_bytes());
    }

    /// The fields of any bytes, of each cabinet, of one too many and of the last number.
    fn fields(&self, answer: &[u8]) {
        whole::fields(answer).into_iter().for_each(|field| self.number(field));
        let n = answer.first().copied().unwrap_or(0) as u32;
        for cabinet in (0..=n).chain([u32::MAX]) {
            whole::fields_of(answer, cabinet).into_iter().for_each(|field| self.number(field));
        }
    }

    fn settled(&self, given: u64, answer: &[u8]) -> u64 {
        self.number(given);
        self.bytes(answer.iter().copied());
        let length = if number(given) == 0 { given as usize } else { answer.len() };
        self.fields(answer.get(..length).unwrap_or(answer));
        given
    }

    fn planning(&self, given: whole::Planning, plan: &mut Plan) -> u64 {
        let handed = plan_from(given.plan);
        self.number(given.answer);
        self.settings(&handed.settings);
        self.bytes(handed.accuracy.to_le_bytes());
        self.bytes(handed.rounds.to_le_bytes());
        if number(given.answer) == 0 {
            *plan = handed;
        }
        given.answer
    }
}

impl Engine for Recorded {
    fn name(&self) -> String {
        "recorded".into()
    }

    fn settle(&self, sheet: &[u8], answer: &mut [u8]) -> u64 {
        self.settled(Linked.settle(sheet, answer), answer)
    }

    fn settle_spread(&self, sheet: &[u8], spread: u32, answer: &mut [u8]) -> u64 {
        self.settled(Linked.settle_spread(sheet, spread, answer), answer)
    }

    fn read(
        &self,
        sheet: &[u8],
        settings: &mut Settings,
        marks: &mut [u8],
        readings: &mut [i32],
    ) -> u64 {
        let given = whole::read(sheet, marks, readings);
        let handed = settings_from(given.settings);
        self.number(given.answer);
        self.settings(&handed);
        self.bytes(marks.iter().copied());
        self.numbers(readings);
        if number(given.answer) == 0 {
            *settings = handed;
        }
        given.answer
    }

    fn write(&self, settings: &Settings, marks: &[u8], readings: &[i32], sheet: &mut [u8]) -> u64 {
        let given = Linked.write(settings, marks, readings, sheet);
        self.number(given);
        self.bytes(sheet.iter().copied());
        given
    }

    fn row<'a>(&self, sheet: &'a [u8], cabinet: u32) -> &'a [u8] {
        let part = Linked.row(sheet, cabinet);
        self.number((part.as_ptr() as usize - sheet.as_ptr() as usize) as u64);
        self.number(part.len() as u64);
        part
    }

    fn plan(&self, settings: &Settings, accuracy: u32, rounds: u32, plan: &mut Plan) -> u64 {
        self.planning(whole::plan(settings_to(settings), accuracy, rounds), plan)
    }

    fn step(&self, plan: &Plan, next: &mut Plan) -> u64 {
        self.planning(whole::step(plan_to(plan)), next)
    }

    fn target(&self, settings: &Settings, accuracy: u32, target: u32) -> u64 {
        let given = Linked.target(settings, accuracy, target);
        self.number(given);
        given
    }

    fn interval(&self, window: u32, precision: u32, drift: u32) -> Spacing {
        let given = whole::interval(window, precision, drift);
        [given.answer, given.least, given.greatest].into_iter().for_each(|part| self.number(part));
        given
    }

    fn fallback(&self, crusaders: &[u8], direct: &[u8], answer: &mut [u8]) -> Fallen {
        let given = whole::fallback(crusaders, direct, answer);
        self.number(given.answer);
        let beside = [given.settled_by, given.start, given.length];
        beside.into_iter().for_each(|part| self.bytes(part.to_le_bytes()));
        self.bytes(answer.iter().copied());
        given
    }

    fn replay(&self, trace: &[u8], values: &mut [u8]) -> u64 {
        let given = Linked.replay(trace, values);
        self.number(given);
        self.bytes(values.iter().copied());
        given
    }

    fn digest(&self) -> Option<u64> {
        Some(self.0.get())
    }
}
