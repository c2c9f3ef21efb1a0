//! Paper 1 of document 02: the replay of a station run.

use reference::*;

/// Four cabinets, planned for one fault, of which cabinet 3 is faulty: FCA, median.
fn four(window: u32, first: [i32; 3], rounds: &[[Option<i32>; 3]]) -> Trace {
    let settings = Settings { n: 4, m: 1, rule: FCA, estimator: MEDIAN, window };
    let first = [&first[..], &[12345]].concat();
    let mut trace = Trace::silent(settings, rounds.len() as u8, vec![1, 1, 1, 0], first);
    for (round, sent) in rounds.iter().enumerate() {
        for (receiver, reading) in sent.iter().enumerate() {
            trace.send(round, 3, receiver, *reading);
        }
    }
    trace
}

/// Replays over a tray with old contents, which must survive past the values, or wholly.
fn replayed_bytes(trace: &[u8]) -> Result<Vec<i32>, (u8, u32)> {
    let mut tray = [0xa5; 300];
    let given = replay(trace, &mut tray).map_err(|refusal| (refusal.number, refusal.place));
    let written = given.unwrap_or(0);
    assert!(tray[written..].iter().all(|&byte| byte == 0xa5));
    given.map(|length| numbers_in(&tray[..length]))
}

fn replayed(trace: &Trace) -> Result<Vec<i32>, (u8, u32)> {
    replayed_bytes(&trace.bytes())
}

/// All three hear what case 1 of document 01 has, so all take over 4; then 4 stands.
#[test]
fn case_1_as_a_run() {
    let round = [Some(500); 3];
    assert_eq!(replayed(&four(10, [0, 4, 10], &[round])), Ok(vec![4, 4, 4, 0]));
    assert_eq!(replayed(&four(10, [0, 4, 10], &[round; 32])), Ok(vec![4, 4, 4, 0]));
}

/// Cabinet 0 hears 14 and all are accepted, 1 hears -6 likewise, 2 hears nothing and uses the
/// median 4: 28/4, 8/4 and 18/4. Then the window is 6: 12 is not accepted beside 7, 2, 4; 0 and 10 are.
const TWO_FACED: [[Option<i32>; 3]; 2] =
    [[Some(14), Some(-6), None], [Some(12), Some(0), Some(10)]];

#[test]
fn a_two_faced_cabinet() {
    assert_eq!(replayed(&four(10, [0, 4, 10], &TWO_FACED[..1])), Ok(vec![7, 2, 4, 0]));
    assert_eq!(replayed(&four(10, [0, 4, 10], &TWO_FACED)), Ok(vec![4, 3, 6, 0]));
}

/// The planned windows are 10, 6 and 4. With 10 in the second round 12 would be accepted: 25/4.
#[test]
fn the_window_is_the_round_s() {
    let held = [7, 2, 4, 0];
    let trace = four(10, [0, 4, 10], &TWO_FACED);
    assert_eq!(trace.round(1, 6, &held), Ok(vec![4, 3, 6, 0]));
    assert_eq!(trace.round(1, 10, &held), Ok(vec![6, 3, 6, 0]));
}

#[test]
fn no_rounds_give_the_first_readings_of_the_sound() {
    assert_eq!(
        replayed(&four(0, [i32::MIN, 4, i32::MAX], &[])),
        Ok(vec![i32::MIN, 4, i32::MAX, 0])
    );
}

#[test]
fn nobody_sound_and_nobody_faulty() {
    let mut trace = four(0, [1, 2, 3], &[[Some(1); 3]]);
    trace.roles = vec![0; 4];
    assert_eq!(replayed(&trace), Ok(vec![0; 4]));
    let mut trace = four(10, [0, 4, 10], &[[None; 3]]);
    trace.roles = vec![1; 4];
    trace.first[3] = 500;
    assert_eq!(replayed(&trace), Ok(vec![4; 4]), "case 1");
}

/// Case 2 of document 01 at cabinets 1 and 2; cabinet 0 hears 5, and 0, 4, 5 lie within 9.
#[test]
fn the_place_of_15_is_the_lowest_cabinet_of_the_first_round() {
    let place = |round: u32, cabinet: u32| Err((15, 64 * round + cabinet));
    let no_help = [Some(500); 3];
    assert_eq!(replayed(&four(9, [0, 4, 10], &[no_help])), place(1, 0));
    assert_eq!(replayed(&four(9, [0, 4, 10], &[[Some(5), Some(500), None]])), place(1, 1));
    assert_eq!(replayed(&four(9, [0, 4, 10], &[[Some(5), Some(5), None]; 2])), place(1, 2));
    let help = [Some(9), Some(1), Some(9)];
    assert_eq!(replayed(&four(9, [0, 4, 10], &[help])), Ok(vec![6, 4, 6, 0]));
    assert_eq!(replayed(&four(9, [0, 4, 10], &[help, [None; 3]])), Ok(vec![6, 6, 6, 0]));
}

/// Cabinet 1 is the sound one of two, planned for none. 0 and 10 give 5, and the next window is 0.
fn two(sent: &[i32]) -> Trace {
    let settings = Settings { n: 2, m: 0, rule: FCA, estimator: AVERAGE, window: 10 };
    let mut trace = Trace::silent(settings, sent.len() as u8, vec![0, 1], vec![77, 0]);
    for (round, &sent) in sent.iter().enumerate() {
        trace.send(round, 0, 1, Some(sent));
    }
    trace
}

#[test]
fn a_later_round_can_stop_the_run() {
    let place = |round: u32| Err((15, 64 * round + 1));
    assert_eq!(replayed(&two(&[10])), Ok(vec![0, 5]));
    assert_eq!(replayed(&two(&[11])), place(1));
    assert_eq!(replayed(&two(&[10, 5])), Ok(vec![0, 5]));
    assert_eq!(replayed(&two(&[10, 6])), place(2));
    assert_eq!(replayed(&two(&[10, 6, 5])), place(2));
    let mut sent = [5; 32];
    sent[0] = 10;
    assert_eq!(replayed(&two(&sent)), Ok(vec![0, 5]));
    sent[31] = 4;
    assert_eq!(replayed(&two(&sent)), place(32));
}

#[test]
fn what_faulty_cabinets_receive_changes_nothing() {
    for trace in [four(10, [0, 4, 10], &TWO_FACED), four(9, [0, 4, 10], &TWO_FACED)] {
        let mut other = trace.clone();
        other.first[3] = -1;
        for round in 0..2 {
            other.send(round, 3, 3, Some(4));
        }
        assert_ne!(other, trace);
        assert_eq!(replayed(&other), replayed(&trace));
    }
}

/// The bytes of a trace of two rounds with some of them changed.
fn with(changes: &[(usize, u8)]) -> Vec<u8> {
    let mut bytes = four(10, [0, 4, 10], &TWO_FACED).bytes();
    for &(at, byte) in changes {
        bytes[at] = byte;
    }
    bytes
}

fn refusal(bytes: &[u8]) -> (u8, u32) {
    replayed_bytes(bytes).expect_err("refused")
}

/// Marks start at byte 29, readings at byte 61; entry 28 is the first of cabinet 3 in round 2.
#[test]
fn order_of_checks() {
    let good = with(&[]);
    assert_eq!(good.len(), 9 + 5 * 4 + 5 * 2 * 16);
    assert_eq!(refusal(&good[..7]), (1, 0));
    assert_eq!(refusal(&good[..8]), (13, 0), "a trace of eight bytes has no byte of rounds");
    assert_eq!(refusal(&with(&[(0, 65), (1, 9), (2, 7), (7, 9), (8, 33)])), (2, 0));
    assert_eq!(refusal(&with(&[(1, 9), (2, 7), (7, 9), (8, 33)])), (3, 0));
    assert_eq!(refusal(&with(&[(2, 2), (7, 9), (8, 33)])), (4, 0));
    assert_eq!(refusal(&with(&[(7, 9), (8, 33)])), (5, 0));
    assert_eq!(refusal(&with(&[(2, 1), (29, 2)])), (13, 0), "CCA");
    assert_eq!(replay(&with(&[(8, 1)]), &mut []), Err(Refusal::new(13)), "13 before 7");
    assert_eq!(replay(&with(&[(29, 2)]), &mut [0; 15]), Err(Refusal::new(7)), "7 before 8");
    assert_eq!(refusal(&with(&[(61, 1), (50, 2), (49, 3), (9, 2)])), (8, 20), "8 before 9 and 14");
    assert_eq!(refusal(&with(&[(61 + 4 * 5, 1), (61 + 4 * 4 + 3, 128), (9, 2)])), (9, 4));
    let mut stopped = four(9, [0, 4, 10], &[[None; 3]]);
    assert_eq!(replayed(&stopped), Err((15, 64)));
    stopped.roles[3] = 2;
    assert_eq!(replayed(&stopped), Err((14, 0)), "14 before 15");
}

#[test]
fn roles_and_entries_of_sound_senders() {
    assert_eq!(refusal(&with(&[(12, 2)])), (14, 0));
    assert_eq!(refusal(&with(&[(9, 255)])), (14, 0));
    assert_eq!(refusal(&with(&[(29, 1)])), (14, 0), "from 0 to 0, in round 1");
    assert_eq!(refusal(&with(&[(29 + 16 + 11, 1)])), (14, 0), "from 2 to the faulty 3, in round 2");
    assert!(replayed_bytes(&with(&[(29 + 16 + 15, 1)])).is_ok(), "from 3 to 3");
    assert_eq!(refusal(&with(&[(29 + 16 + 11, 2)])), (8, 27), "8 is asked of such entries too");
    assert_eq!(refusal(&with(&[(61 + 4 * 27, 1)])), (9, 27), "and 9");
}

#[test]
fn lengths() {
    let good = with(&[]);
    let longer = [&good[..], &[0]].concat();
    assert_eq!(refusal(&good[..good.len() - 1]), (13, 0));
    assert_eq!(refusal(&longer), (13, 0));
    let rounds = |rounds: usize| replayed(&four(10, [0, 4, 10], &vec![[None; 3]; rounds]));
    assert_eq!(rounds(32), Ok(vec![4, 4, 4, 0]));
    assert_eq!(rounds(33), Err((13, 0)), "as long as 33 rounds are");
    let mut tray = [0; 16];
    assert_eq!(replay(&good, &mut tray[..15]), Err(Refusal::new(7)));
    assert_eq!(replay(&good, &mut tray), Ok(16));
}

/// 64 cabinets and 32 rounds.
#[test]
fn the_longest_trace() {
    let settings = Settings { n: 64, m: 21, rule: FCA, estimator: MIDPOINT, window: 1_000_000 };
    let mut roles = vec![1; 64];
    roles[..21].fill(0);
    let mut bytes = Trace::silent(settings, 32, roles, vec![i32::MAX; 64]).bytes();
    assert_eq!(bytes.len(), 655_689);
    let values = [vec![0; 21], vec![i32::MAX; 43]].concat();
    assert_eq!(replayed_bytes(&bytes), Ok(values));
    assert!(replay_text(&bytes, false).starts_with("replay 64 32\n0 0 0\n"));
    bytes.push(0);
    assert_eq!(replay_text(&bytes, false), "refused 13 0\n");
    bytes.resize(1_000_000, 0);
    assert_eq!(replay_text(&bytes, false), "refused 13 0\n");
    bytes[3] = 3;
    assert_eq!(replay_text(&bytes, false), "refused 4 0\n");
}

#[test]
fn listing() {
    let stopped = two(&[-9, 6, 7]).bytes();
    assert_eq!(replay_text(&stopped, false), "refused 15 129\n");
    assert_eq!(replay_text(&stopped, true), "after 0 0 0\nafter 1 0 -4\nrefused 15 129\n");
    let trace = four(10, [0, 4, 10], &TWO_FACED).bytes();
    let block = "replay 4 2\n0 1 4\n1 1 3\n2 1 6\n3 0 0\n";
    assert_eq!(replay_text(&trace, false), block);
    let rounds = "after 0 0 4 10 0\nafter 1 7 2 4 0\nafter 2 4 3 6 0\n";
    assert_eq!(replay_text(&trace, true), rounds.to_string() + block);
    assert_eq!(replay_text(&trace[..7], true), "refused 1 0\n");
}
