//! The vectors of the programs `planner_vectors`, `settle_vectors`, `sheet_vectors`, `replay_vectors` and
//! `fallback_vectors`, answered by the reference: each line of a program's file `stdin`, and below a vector its answer.
//! crates/vectors says what a line may be.

use crate::sheet::numbers_in;
use crate::text::refused;
use crate::{
    fallback, interval, plan, read, replay, row, settle_spread, step, target, write, Fallback,
    Plan, Refusal, Settings,
};

/// The bytes of a vector without its call's name, or nothing for a heading.
fn numbers(line: &str) -> Option<(&str, Vec<u8>)> {
    let text = line.split('#').next().unwrap();
    let mut words = text.split_whitespace();
    let call = words.next()?;
    let mut bytes = Vec::new();
    for word in words.filter(|w| !w.chars().all(|c| c.is_ascii_alphabetic())) {
        let (times, number) = word.split_once('*').unwrap_or(("1", word));
        let times: usize = times.parse().expect("how many times");
        let value: i64 = number.parse().expect("a number");
        assert!((-0x8000_0000..=0xffff_ffff).contains(&value), "{word}: a number of four bytes");
        for _ in 0..times {
            if number.starts_with(['+', '-']) {
                bytes.extend((value as u32).to_le_bytes());
            } else {
                bytes.push(u8::try_from(value).expect("a number of one byte"));
            }
        }
    }
    Some((call, bytes))
}

fn word(bytes: &[u8], at: usize) -> u32 {
    u32::from_le_bytes(bytes[at..at + 4].try_into().unwrap())
}

fn listed<T: ToString>(values: &[T]) -> String {
    values.iter().map(|v| format!(" {}", v.to_string())).collect()
}

fn settings(bytes: &[u8]) -> Settings {
    Settings {
        n: bytes[0],
        m: bytes[1],
        rule: bytes[2],
        estimator: bytes[3],
        window: word(bytes, 4),
    }
}

fn planned(answer: Result<Plan, Refusal>) -> String {
    match answer {
        Ok(plan) => format!("granted {} {} {}", plan.settings.window, plan.accuracy, plan.rounds),
        Err(refusal) => refused(refusal),
    }
}

fn spaced(bytes: &[u8]) -> String {
    match interval(word(bytes, 0), word(bytes, 4), word(bytes, 8)) {
        Ok(given) => format!("granted {} {}", given.least, given.greatest),
        Err(refusal) => refused(refusal),
    }
}

fn of_planner(call: &str, bytes: &[u8]) -> String {
    if call == "interval" {
        return spaced(bytes);
    }
    let settings = settings(bytes);
    let (accuracy, last) = (word(bytes, 8), word(bytes, 12));
    match call {
        "plan" => planned(plan(&settings, accuracy, last)),
        "step" => planned(step(&Plan { settings, accuracy, rounds: last })),
        "target" => match target(&settings, accuracy, last) {
            Ok(counts) => {
                assert!(!counts.is_empty());
                "granted".to_string()
            }
            Err(refusal) => refused(refusal),
        },
        _ => panic!("no such call: {call}"),
    }
}

/// A call that settles a sheet with a spread into a lent buffer.
pub type Settling = fn(&[u8], u32, &mut [u8]) -> Result<usize, Refusal>;

/// A call that replays a trace into a lent buffer.
pub type Replaying = fn(&[u8], &mut [u8]) -> Result<usize, Refusal>;

/// A call that settles one of two sheets into a lent buffer, a CCA sheet and an FCA sheet.
pub type FallingBack = for<'a> fn(&'a [u8], &'a [u8], &mut [u8]) -> Result<Fallback<'a>, Refusal>;

/// The answer of a call that is lent a buffer of the length with which a vector begins.
fn into_buffer(
    bytes: &[u8],
    call: impl Fn(&mut [u8]) -> Result<usize, Refusal>,
    shown: impl Fn(&[u8]) -> String,
) -> String {
    let call = |buffer: &mut [u8]| call(buffer).map(|size| (size, size.to_string()));
    into_buffer_with(bytes, call, shown)
}

/// The same of a call that answers more than a length, and how all of that is written.
fn into_buffer_with(
    bytes: &[u8],
    call: impl Fn(&mut [u8]) -> Result<(usize, String), Refusal>,
    shown: impl Fn(&[u8]) -> String,
) -> String {
    let mut buffer = vec![165; word(bytes, 0) as usize];
    match call(&mut buffer) {
        Ok((size, answer)) => {
            let (filled, behind) = buffer.split_at(size);
            format!("granted {answer}; {}; behind{}", shown(filled), listed(behind))
        }
        Err(refusal) => format!("{}; behind{}", refused(refusal), listed(&buffer)),
    }
}

fn answer_sheet(answer: &[u8]) -> String {
    let n = answer[0] as usize;
    format!(
        "round {} {}{}; marks{}; used{}",
        n,
        answer[1],
        listed(&numbers_in(&answer[2..10])),
        listed(&answer[10..10 + n]),
        listed(&numbers_in(&answer[10 + n..])),
    )
}

fn final_values(values: &[u8]) -> String {
    format!("values{}", listed(&numbers_in(values)))
}

fn of_sheet(call: &str, bytes: &[u8]) -> String {
    match call {
        "read" => {
            let mut marks = vec![7; word(bytes, 0) as usize];
            let mut readings = vec![7; word(bytes, 4) as usize];
            let answer = match read(&bytes[8..], &mut marks, &mut readings) {
                Ok(s) => format!("granted {} {} {} {} {}", s.n, s.m, s.rule, s.estimator, s.window),
                Err(refusal) => refused(refusal),
            };
            format!("{answer}; marks{}; readings{}", listed(&marks), listed(&readings))
        }
        "show" => {
            // the reference takes cabinets of 32 bits; from 2^32 on none is below N
            let cabinet = if word(bytes, 4) == 0 { word(bytes, 0) } else { u32::MAX };
            format!("row{}", listed(row(&bytes[8..], cabinet)))
        }
        "write" => {
            let (room, count, places) =
                (word(bytes, 8) as usize, word(bytes, 12) as usize, word(bytes, 16) as usize);
            let readings = numbers_in(&bytes[20 + count..]);
            assert_eq!(readings.len(), places);
            let mut buffer = vec![7; room];
            let answer =
                match write(&settings(bytes), &bytes[20..20 + count], &readings, &mut buffer) {
                    Ok(size) => format!("granted {size}"),
                    Err(refusal) => refused(refusal),
                };
            format!("{answer}; bytes{}", listed(&buffer))
        }
        _ => panic!("no such call: {call}"),
    }
}

/// What the program of that name writes for these lines.
pub fn answers(program: &str, lines: &str) -> String {
    match program {
        "planner_vectors" => answered(lines, of_planner),
        "settle_vectors" => settle_answers(settle_spread, lines),
        "sheet_vectors" => answered(lines, of_sheet),
        "replay_vectors" => replay_answers(replay, lines),
        "fallback_vectors" => fallback_answers(fallback, lines),
        _ => panic!("no such program: {program}"),
    }
}

/// What `settle_vectors` would write for these lines if it settled by this call. A vector of `with` has the
/// spread before the sheet.
pub fn settle_answers(settle: Settling, lines: &str) -> String {
    answered(lines, |call, bytes| {
        let (spread, sheet) = match call {
            "settle" => (0, &bytes[4..]),
            "with" => (word(bytes, 4), &bytes[8..]),
            _ => panic!("no such call: {call}"),
        };
        into_buffer(bytes, |buffer| settle(sheet, spread, buffer), answer_sheet)
    })
}

/// What `replay_vectors` would write for these lines if it replayed by this call.
pub fn replay_answers(replay: Replaying, lines: &str) -> String {
    answered(lines, |call, bytes| {
        assert_eq!(call, "replay");
        into_buffer(bytes, |buffer| replay(&bytes[4..], buffer), final_values)
    })
}

/// What `fallback_vectors` would write for these lines if it fell back by this call. A vector has the length of the CCA
/// sheet before the two sheets; an answer says which of them settled, and where its readings begin and how long they are.
pub fn fallback_answers(fallback: FallingBack, lines: &str) -> String {
    answered(lines, |call, bytes| {
        assert_eq!(call, "fall");
        let (crusaders, direct) = bytes[8..].split_at(word(bytes, 4) as usize);
        let fall = |buffer: &mut [u8]| {
            let Fallback { length, source, readings } = fallback(crusaders, direct, buffer)?;
            let sheet = [crusaders, direct][source as usize - 1];
            let start = readings.as_ptr() as usize - sheet.as_ptr() as usize;
            let shown = format!("shown {start} {}", readings.len());
            Ok((length, format!("{length} {}; {shown}", source as u32)))
        };
        into_buffer_with(bytes, fall, answer_sheet)
    })
}

fn answered(lines: &str, answer: impl Fn(&str, &[u8]) -> String) -> String {
    let mut text = String::new();
    for line in lines.lines() {
        text += line;
        text += "\n";
        if let Some((call, bytes)) = numbers(line) {
            text += &format!("  {}\n", answer(call, &bytes));
        }
    }
    text
}
