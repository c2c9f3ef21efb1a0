//! Traces for the checks.

use random::Random;
use reference::{next_window, Trace, FAULTY};

/// Fills a trace round by round: `tell` records what is sent in a round, from 0 on, and is told the window
/// and what the cabinets hold. After a round in which a sound one refuses they hold what they held.
pub fn fill(trace: &mut Trace, mut tell: impl FnMut(&mut Trace, usize, u32, &[i32])) {
    let mut settings = trace.settings;
    let mut held = trace.start();
    for round in 0..trace.rounds as usize {
        tell(trace, round, settings.window, &held);
        if let Ok(next) = trace.round(round, settings.window, &held) {
            held = next;
        }
        settings.window = next_window(&settings);
    }
}

/// Draws anew the first readings of faulty cabinets, and what these send each other. No sound cabinet
/// hears of it.
pub fn redraw_for_faulty(random: &Random, trace: &mut Trace) {
    let faulty = trace.of_role(FAULTY);
    for &receiver in &faulty {
        trace.first[receiver] = random.draw() as i32;
        for round in 0..trace.rounds as usize {
            for &sender in &faulty {
                let sent = random.pick(&[None, Some(random.draw() as i32)]);
                trace.send(round, sender, receiver, sent);
            }
        }
    }
}
