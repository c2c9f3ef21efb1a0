//! The stored outputs of the programs of vectors are what the reference answers to their inputs, and
//! those of settling, of replay and of falling back what both of outside/plain answer.

use plain::{Plain, Steps, Tuned};
use reference::{
    answers, fallback_answers, replay_answers, settle_answers, Fallback, Refusal, Source,
};

fn held(program: &str, answers: impl Fn(&str) -> String) {
    let folder =
        std::path::Path::new(env!("CARGO_MANIFEST_DIR")).join("../../crates").join(program);
    let lines = std::fs::read_to_string(folder.join("stdin")).expect("the file stdin");
    let stored = std::fs::read_to_string(folder.join("stdout")).expect("the file stdout");
    let wanted = answers(&lines);
    for (at, (is, should)) in stored.lines().zip(wanted.lines()).enumerate() {
        assert_eq!(is, should, "{program}: line {} of stdout", at + 1);
    }
    assert_eq!(stored, wanted, "{program}: stdout");
}

fn unpacked(given: u64) -> Result<usize, Refusal> {
    match given >> 32 {
        0 => Ok(given as usize),
        number => Err(Refusal { number: number as u8, place: given as u32 }),
    }
}

fn settle<S: Steps>(sheet: &[u8], spread: u32, answer: &mut [u8]) -> Result<usize, Refusal> {
    unpacked(plain::settle_spread::<S>(sheet, spread, answer))
}

fn replay<S: Steps>(trace: &[u8], values: &mut [u8]) -> Result<usize, Refusal> {
    unpacked(plain::replay::<S>(trace, values))
}

fn fallback<'a, S: Steps>(
    crusaders: &'a [u8],
    direct: &'a [u8],
    answer: &mut [u8],
) -> Result<Fallback<'a>, Refusal> {
    let given = plain::fallback::<S>(crusaders, direct, answer);
    let length = unpacked(given.answer)?;
    let (source, sheet) = match given.settled_by {
        1 => (Source::Crusaders, crusaders),
        _ => (Source::Direct, direct),
    };
    let start = given.start as usize;
    Ok(Fallback { length, source, readings: &sheet[start..start + given.length as usize] })
}

#[test]
fn planner_vectors() {
    held("planner_vectors", |lines| answers("planner_vectors", lines));
}

#[test]
fn settle_vectors() {
    held("settle_vectors", |lines| answers("settle_vectors", lines));
}

#[test]
fn settle_vectors_by_plain() {
    held("settle_vectors", |lines| settle_answers(settle::<Plain>, lines));
}

#[test]
fn settle_vectors_by_tuned() {
    held("settle_vectors", |lines| settle_answers(settle::<Tuned>, lines));
}

/// Document 02's example, and a spread that is too great before a sheet that is too short.
#[test]
fn a_vector_with_a_spread() {
    let settled = "with buffer +31 spread +2 sheet 4 1 0 1 +1 4*1 3*+2 +5\n";
    let refused = "with buffer +2 spread +100001 sheet 4 1 0 1 +1\n";
    let right = [
        settled,
        "  granted 30; round 4 4 2 3; marks 1 1 1 1; used 2 2 2 5; behind 165\n",
        refused,
        "  refused 16 0; behind 165 165\n",
    ];
    let lines = [settled, refused].concat();
    assert_eq!(answers("settle_vectors", &lines), right.concat());
    assert_eq!(settle_answers(settle::<Tuned>, &lines), right.concat());
}

#[test]
fn sheet_vectors() {
    held("sheet_vectors", |lines| answers("sheet_vectors", lines));
}

#[test]
fn replay_vectors() {
    held("replay_vectors", |lines| answers("replay_vectors", lines));
}

#[test]
fn replay_vectors_by_plain() {
    held("replay_vectors", |lines| replay_answers(replay::<Plain>, lines));
}

#[test]
fn replay_vectors_by_tuned() {
    held("replay_vectors", |lines| replay_answers(replay::<Tuned>, lines));
}

#[test]
fn fallback_vectors() {
    held("fallback_vectors", |lines| answers("fallback_vectors", lines));
}

#[test]
fn fallback_vectors_by_plain() {
    held("fallback_vectors", |lines| fallback_answers(fallback::<Plain>, lines));
}

#[test]
fn fallback_vectors_by_tuned() {
    held("fallback_vectors", |lines| fallback_answers(fallback::<Tuned>, lines));
}

/// One cabinet settles by CCA, falls back, and hears nothing on either sheet.
#[test]
fn a_vector_of_a_fallback() {
    let crusaders = "fall buffer +16 crusaders +13 1 0 1 1 +0 1 -5 direct 1 0 0 1 +0 1 +7\n";
    let direct = "fall buffer +15 crusaders +13 1 0 1 1 +0 0 +0 direct 1 0 0 1 +0 1 +7\n";
    let refused = "fall buffer +1 crusaders +13 1 0 1 1 +0 1 -5 direct 1 0 1 1 +0 0 +0\n";
    let right = [
        crusaders,
        "  granted 15 1; shown 9 4; round 1 1 -5 -5; marks 1; used -5; behind 165\n",
        direct,
        "  granted 15 2; shown 9 4; round 1 1 7 7; marks 1; used 7; behind\n",
        refused,
        "  refused 19 0; behind 165\n",
    ];
    let lines = [crusaders, direct, refused].concat();
    assert_eq!(answers("fallback_vectors", &lines), right.concat());
    assert_eq!(fallback_answers(fallback::<Tuned>, &lines), right.concat());
}
