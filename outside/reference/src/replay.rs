//! The replay of a recorded FCA run: document 02, paper 1.

use crate::checks::{Refusal, Settings, FCA};
use crate::planner::next_window;
use crate::round::settle_readings;
use crate::sheet::{bytes_of, check_entries, numbers_in, size_bytes, sizes_of};

pub const FAULTY: u8 = 0;
pub const SOUND: u8 = 1;

/// What a trace holds. Of its arrays the lengths alone are presumed checked.
#[derive(Clone, Debug, PartialEq, Eq)]
pub struct Trace {
    pub settings: Settings,
    pub rounds: u8,
    /// For each cabinet 1 sound, 0 faulty.
    pub roles: Vec<u8>,
    pub first: Vec<i32>,
    /// What each sender sent each receiver in each round: ordered by round, sender, receiver.
    pub marks: Vec<u8>,
    pub readings: Vec<i32>,
}

/// What the sound cabinets hold before the first round and after each; places of faulty ones are 0. It ends
/// before the first round in which a sound cabinet met "too many faults", with refusal 15.
#[derive(Clone, Debug, PartialEq, Eq)]
pub struct Run {
    pub after: Vec<Vec<i32>>,
    pub stopped: Option<Refusal>,
}

impl Trace {
    /// A trace in which nothing was sent.
    pub fn silent(settings: Settings, rounds: u8, roles: Vec<u8>, first: Vec<i32>) -> Trace {
        let entries = rounds as usize * roles.len() * roles.len();
        let (marks, readings) = (vec![0; entries], vec![0; entries]);
        Trace { settings, rounds, roles, first, marks, readings }
    }

    /// A trace under checks 1 to 5, and 13 in the place of 6.
    pub fn open(bytes: &[u8]) -> Result<Trace, Refusal> {
        let settings = sizes_of(bytes)?;
        let n = settings.n as usize;
        let Some(&rounds) = bytes.get(8) else { return Err(Refusal::new(13)) };
        let entries = rounds as usize * n * n;
        if settings.rule != FCA || rounds > 32 || bytes.len() != 9 + 5 * n + 5 * entries {
            return Err(Refusal::new(13));
        }
        let (roles, rest) = bytes[9..].split_at(n);
        let (first, rest) = rest.split_at(4 * n);
        let (marks, readings) = rest.split_at(entries);
        Ok(Trace {
            settings,
            rounds,
            roles: roles.to_vec(),
            first: numbers_in(first),
            marks: marks.to_vec(),
            readings: numbers_in(readings),
        })
    }

    /// A trace under every check but 15, with a tray of so many bytes.
    pub fn checked(bytes: &[u8], tray: usize) -> Result<Trace, Refusal> {
        let trace = Trace::open(bytes)?;
        if tray < 4 * trace.n() {
            return Err(Refusal::new(7));
        }
        check_entries(&trace.marks, &trace.readings)?;
        trace.check_roles()?;
        Ok(trace)
    }

    /// Check 14: a role byte not 0 or 1, or a sound sender's entry present.
    fn check_roles(&self) -> Result<(), Refusal> {
        let present = |entry: &usize| self.marks[*entry] == 1;
        let sender = |entry: usize| entry / self.n() % self.n();
        let of_sound = |entry: usize| self.sound(sender(entry));
        if self.roles.iter().any(|&role| role > 1)
            || (0..self.marks.len()).filter(present).any(of_sound)
        {
            return Err(Refusal::new(14));
        }
        Ok(())
    }

    pub fn n(&self) -> usize {
        self.settings.n as usize
    }

    pub fn sound(&self, cabinet: usize) -> bool {
        self.roles[cabinet] == SOUND
    }

    /// The cabinets with that role, in order of number.
    pub fn of_role(&self, role: u8) -> Vec<usize> {
        (0..self.n()).filter(|&cabinet| self.roles[cabinet] == role).collect()
    }

    /// The entry of what a sender sent a receiver in a round, from 0 on.
    pub fn entry(&self, round: usize, sender: usize, receiver: usize) -> usize {
        (round * self.n() + sender) * self.n() + receiver
    }

    /// What the cabinets hold before the first round.
    pub fn start(&self) -> Vec<i32> {
        (0..self.n()).map(|c| if self.sound(c) { self.first[c] } else { 0 }).collect()
    }

    /// Records what a sender sent a receiver in a round, from 0 on.
    pub fn send(&mut self, round: usize, sender: usize, receiver: usize, sent: Option<i32>) {
        let entry = self.entry(round, sender, receiver);
        self.marks[entry] = sent.is_some() as u8;
        self.readings[entry] = sent.unwrap_or(0);
    }

    /// What a sender sent a receiver in a round, from 0 on.
    fn sent(&self, round: usize, sender: usize, receiver: usize) -> Option<i32> {
        let entry = self.entry(round, sender, receiver);
        (self.marks[entry] == 1).then(|| self.readings[entry])
    }

    /// What a cabinet hears in a round, from 0 on, where the sound ones hold these values.
    pub fn heard(&self, round: usize, receiver: usize, held: &[i32]) -> Vec<Option<i32>> {
        let from = |sender: usize| match self.sound(sender) {
            true => Some(held[sender]),
            false => self.sent(round, sender, receiver),
        };
        (0..self.n()).map(from).collect()
    }

    /// What the cabinets hold after a round, from 0 on, with this window; or the lowest sound one that met
    /// "too many faults".
    pub fn round(&self, round: usize, window: u32, held: &[i32]) -> Result<Vec<i32>, usize> {
        let settings = Settings { window, ..self.settings };
        let mut next = vec![0; self.n()];
        for cabinet in self.of_role(SOUND) {
            match settle_readings(&settings, 0, &self.heard(round, cabinet, held)) {
                Ok(settled) => next[cabinet] = settled.new as i32,
                Err(_) => return Err(cabinet),
            }
        }
        Ok(next)
    }

    /// The run on planned windows.
    pub fn run(&self) -> Run {
        let mut run = Run { after: vec![self.start()], stopped: None };
        let mut settings = self.settings;
        for round in 0..self.rounds as usize {
            match self.round(round, settings.window, &run.after[round]) {
                Ok(held) => run.after.push(held),
                Err(cabinet) => {
                    run.stopped = Some(Refusal::at(15, 64 * (round + 1) + cabinet));
                    break;
                }
            }
            settings.window = next_window(&settings);
        }
        run
    }

    /// The trace in bytes.
    pub fn bytes(&self) -> Vec<u8> {
        let mut bytes = size_bytes(&self.settings);
        bytes.push(self.rounds);
        bytes.extend(&self.roles);
        bytes.extend(bytes_of(&self.first));
        bytes.extend(&self.marks);
        bytes.extend(bytes_of(&self.readings));
        bytes
    }
}

impl Run {
    /// The values after the last round, or refusal 15.
    pub fn last(&self) -> Result<&[i32], Refusal> {
        match self.stopped {
            Some(refusal) => Err(refusal),
            None => Ok(self.after.last().expect("the first readings at least")),
        }
    }
}

/// Replays a trace: the final values, four bytes each. Answers how many bytes these are.
pub fn replay(trace: &[u8], values: &mut [u8]) -> Result<usize, Refusal> {
    let run = Trace::checked(trace, values.len())?.run();
    let bytes = bytes_of(run.last()?);
    values[..bytes.len()].copy_from_slice(&bytes);
    Ok(bytes.len())
}
