//! What faulty cabinets send. They know everything: all settings and all sound readings.

use engine::Settings;
use random::Random;

/// Where a face of the liars wants its receivers to go.
#[derive(Clone, Copy, Debug, PartialEq, Eq)]
pub enum Aim {
    Low,
    High,
    Any,
}

pub type Reading = Option<i32>;

pub struct Liars<'a> {
    random: &'a Random,
    need: usize,
    window: i64,
    faulty: &'a [bool],
    held: &'a [Reading],
    /// The present readings of sound cabinets.
    sound: Vec<i64>,
    /// They act as one: all say the outermost reading that is accepted, or a tick beside it.
    united: bool,
}

/// CCA: what each cabinet told each relay, and the low and high value each faulty row favours.
pub struct Told {
    sent: Vec<Reading>,
    favoured: Vec<[Reading; 2]>,
}

impl Told {
    /// What a sound cabinet was told by each.
    pub fn heard(&self, cabinet: usize) -> Vec<Reading> {
        let n = self.favoured.len();
        (0..n).map(|r| self.sent[r * n + cabinet]).collect()
    }
}

impl<'a> Liars<'a> {
    pub fn new(
        random: &'a Random,
        settings: &Settings,
        faulty: &'a [bool],
        held: &'a [Reading],
        united: bool,
    ) -> Liars<'a> {
        let sound = (0..held.len()).filter(|&c| !faulty[c]).filter_map(|c| held[c]);
        Liars {
            random,
            need: settings.need(),
            window: settings.window as i64,
            faulty,
            held,
            sound: sound.map(i64::from).collect(),
            united,
        }
    }

    fn n(&self) -> usize {
        self.held.len()
    }

    fn number_of_faulty(&self) -> usize {
        self.faulty.iter().filter(|&&faulty| faulty).count()
    }

    /// The lowest and the highest sound reading.
    fn ends(&self) -> (i64, i64) {
        let lowest = self.sound.iter().copied().min().unwrap_or(0);
        let highest = self.sound.iter().copied().max().unwrap_or(0);
        (lowest, highest)
    }

    /// The outermost reading that is accepted when so many cabinets agree on it.
    fn edge(&self, low: bool, helpers: usize) -> i64 {
        outermost(&self.sound, self.need, self.window, low, helpers)
    }

    /// One lie: most often exactly at the edge of acceptance.
    fn lie(&self, low: bool, helpers: usize) -> Reading {
        let random = self.random;
        let out = if low { -1 } else { 1 };
        let edge = self.edge(low, helpers);
        let (lowest, highest) = self.ends();
        let outermost = if low { lowest } else { highest };
        let w = self.window;
        let value = match random.below(20) {
            0..=7 => edge,
            8 => edge - out,
            9 => edge + out,
            10 => outermost + out * w,
            11 => outermost + out * (w + 1),
            12 => outermost + out * (w - 1),
            13 => outermost,
            14 => self.edge(!low, helpers),
            15 => random.between(lowest - 2 * w, highest + 2 * w),
            16 => random.between(lowest, highest),
            17 => random.pick(&[i32::MIN, i32::MAX, 0, random.draw() as i32]) as i64,
            _ => return None,
        };
        Some(clamp(value))
    }

    /// What united liars say.
    fn one_lie(&self, low: bool) -> i32 {
        let beside = self.random.pick(&[0, 0, 0, 0, 0, 0, 0, 0, 1, -1]);
        clamp(self.edge(low, self.number_of_faulty()) + beside)
    }

    fn is_low(&self, aim: Aim) -> bool {
        match aim {
            Aim::Low => true,
            Aim::High => false,
            Aim::Any => self.random.percent(50),
        }
    }

    /// FCA: the entries of a sheet for one face.
    pub fn direct(&self, aim: Aim) -> Vec<Reading> {
        if self.united {
            let lie = Some(self.one_lie(self.is_low(aim)));
            return (0..self.n())
                .map(|c| if self.faulty[c] { lie } else { self.held[c] })
                .collect();
        }
        let f = self.number_of_faulty();
        let together = self.random.percent(60);
        let speaking = match self.random.percent(80) {
            true => f,
            false => self.random.below(f + 1),
        };
        let mut spoken = 0;
        let entry = |c: usize| {
            if !self.faulty[c] {
                return self.held[c];
            }
            spoken += 1;
            let low = self.is_low(aim);
            match together {
                _ if spoken > speaking => None,
                true if aim != Aim::Any => Some(clamp(self.edge(low, speaking))),
                _ => self.lie(low, speaking),
            }
        };
        (0..self.n()).map(entry).collect()
    }

    /// CCA, first exchange: what everybody tells the relays.
    pub fn tell(&self) -> Told {
        let (random, n) = (self.random, self.n());
        let f = self.number_of_faulty();
        let sound = n - f;
        let together = random.percent(60);
        // More than m liars can have a row decided low at one face and high at another.
        let both = f + self.need > n && (self.united || random.percent(60));
        let favour = if both { 2 } else { random.below(4) };
        let just = self.need.saturating_sub(f).min(sound);
        let draw_spread =
            || random.pick(&[just, just, just, just + 1, sound / 2, sound]).min(sound);
        let for_all_rows = match self.united {
            true => Some(just),
            false => random.percent(70).then(draw_spread),
        };
        let said = self.united.then(|| [Some(self.one_lie(true)), Some(self.one_lie(false))]);
        let mut told = Told { sent: vec![None; n * n], favoured: vec![[None; 2]; n] };
        for r in 0..n {
            if !self.faulty[r] {
                told.sent[r * n..(r + 1) * n].fill(self.held[r]);
                continue;
            }
            let value = |low| match together {
                true => Some(clamp(self.edge(low, f))),
                false => self.lie(low, f),
            };
            let [low, high] = said.unwrap_or_else(|| [value(true), value(false)]);
            told.favoured[r] = [low, high];
            let spread = for_all_rows.unwrap_or_else(draw_spread);
            let (tell_low, tell_high) = match favour {
                0 => (spread, 0),
                1 => (0, spread),
                2 => (spread, sound - spread),
                _ if random.percent(50) => (spread, 0),
                _ => (0, spread),
            };
            let rest = random.pick(&[None, None, low, high, Some(random.draw() as i32)]);
            let first = random.below(n);
            let relays = (0..n).map(|i| (first + i) % n).filter(|&s| !self.faulty[s]);
            for (relay, s) in relays.enumerate() {
                told.sent[r * n + s] = match relay {
                    i if i < tell_low => low,
                    i if i < tell_low + tell_high => high,
                    _ => rest,
                };
            }
        }
        told
    }

    /// The same of liars that act as one: all of them tell some relays the low lie, just as many as its decision needs
    /// beside themselves or all but so many, and the others the high one.
    pub fn tell_as_one(&self) -> Told {
        let (random, n) = (self.random, self.n());
        let f = self.number_of_faulty();
        let just = self.need.saturating_sub(f).min(n - f);
        let low = random.pick(&[just, n - f - just]);
        let said = [Some(self.one_lie(true)), Some(self.one_lie(false))];
        let first = random.below(n);
        let relays = (0..n).map(|i| (first + i) % n).filter(|&s| !self.faulty[s]);
        let relays: Vec<usize> = relays.collect();
        let mut told = Told { sent: vec![None; n * n], favoured: vec![[None; 2]; n] };
        for r in 0..n {
            if !self.faulty[r] {
                told.sent[r * n..(r + 1) * n].fill(self.held[r]);
                continue;
            }
            told.favoured[r] = said;
            for (relay, &s) in relays.iter().enumerate() {
                told.sent[r * n + s] = said[(relay >= low) as usize];
            }
        }
        told
    }

    /// CCA, second exchange: the entries of a sheet to whose cabinet faulty relays pass on nothing.
    pub fn withheld(&self, told: &Told) -> Vec<Reading> {
        let n = self.n();
        let entry = |e: usize| if self.faulty[e % n] { None } else { told.sent[e] };
        (0..n * n).map(entry).collect()
    }

    /// CCA, second exchange: the entries of a sheet for one face. Sound relays pass on what
    /// they were told; faulty ones help some rows to a decision and hinder others.
    pub fn relayed(&self, told: &Told, aim: Aim) -> Vec<Reading> {
        let (random, n) = (self.random, self.n());
        let (lowest, highest) = self.ends();
        let of_sound_rows = if self.united { 0 } else { random.below(4) };
        let steady = self.united || random.percent(70);
        let mut entries = told.sent.clone();
        for r in 0..n {
            let low = self.is_low(aim);
            let support = match (self.faulty[r], self.held[r]) {
                (true, _) if steady => told.favoured[r][!low as usize],
                (true, _) => random.pick(&[None, told.favoured[r][0], told.favoured[r][1]]),
                (false, truth) => match of_sound_rows {
                    0 => truth,
                    1 => None,
                    2 if truth.is_some_and(|v| (2 * v as i64 <= lowest + highest) == low) => truth,
                    2 => None,
                    _ => random.pick(&[truth, None, self.lie(low, 1)]),
                },
            };
            for s in (0..n).filter(|&s| self.faulty[s]) {
                let astray = !steady && random.percent(20);
                entries[r * n + s] =
                    if astray { random.pick(&[None, self.lie(low, 1)]) } else { support };
            }
        }
        entries
    }
}

/// The outermost reading that some span of the window accepts, when `helpers` cabinets say it
/// and the sound ones hold these readings. Without such a span, the window past the last one.
pub fn outermost(sound: &[i64], need: usize, window: i64, low: bool, helpers: usize) -> i64 {
    let holds = |start: i64| sound.iter().filter(|&&v| start <= v && v <= start + window).count();
    let enough = |start: i64| holds(start) + helpers >= need;
    if low {
        let starts = sound.iter().map(|&v| v - window);
        let lowest = starts.clone().min().unwrap_or(0);
        starts.filter(|&start| enough(start)).min().unwrap_or(lowest)
    } else {
        let highest = sound.iter().copied().max().unwrap_or(0);
        let start = sound.iter().copied().filter(|&start| enough(start)).max().unwrap_or(highest);
        start + window
    }
}

pub fn clamp(value: i64) -> i32 {
    value.clamp(i32::MIN as i64, i32::MAX as i64) as i32
}
