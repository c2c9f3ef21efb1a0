//! Prints every public number, name and text of the wrapper, a line each. tests/check_library compares it with what the definitions say
//! (tests/figures.py).
use tohiranga::*;

macro_rules! numbers {
    ($($name:ident)*) => { $(println!("{} {}", stringify!($name), $name);)* };
}

macro_rules! refusals {
    ($($name:ident)*) => { $(println!("{} {}", stringify!($name), Refusal::$name);)* };
}

fn settings(n: u8, rule: u8, estimator: u8) -> Settings {
    Settings { n, m: 1, rule, estimator, window: 10 }
}

/// The estimate of the readings 0, 1, 10 and 500, of which 500 is not accepted: another for each estimator.
fn show_method(name: &str, rule: u8, estimator: u8) -> Result<(), Refusal> {
    let settings = settings(4, rule, estimator);
    let entries = settings.entries();
    let readings: Vec<i32> = (0..entries).map(|e| [0, 1, 10, 500][e * 4 / entries]).collect();
    let (mut sheet, mut answer) = ([0; MAX_SHEET], [0; MAX_ANSWER]);
    let size = write(settings, &vec![1; entries], &readings, &mut sheet)?;
    let length = settle(&sheet[..size], &mut answer)?;
    println!("estimate of {name} {size} {}", Answer::new(&answer[..length])?.estimate());
    Ok(())
}

/// The new value of the readings 0, 1, 2, 10 and 500, of which 1, 2 and 10 are left: another for each trimming rule.
fn show_trimmed(name: &str, rule: u8) -> Result<(), Refusal> {
    let (mut sheet, mut answer) = ([0; MAX_SHEET], [0; MAX_ANSWER]);
    let size = write(settings(5, rule, 0), &[1; 5], &[0, 1, 2, 10, 500], &mut sheet)?;
    let length = settle(&sheet[..size], &mut answer)?;
    println!("new value of {name} {size} {}", Answer::new(&answer[..length])?.value());
    Ok(())
}

/// Which sheet settles the round where every copy is 0, or none is there, and every direct reading 100; its part.
fn show_fallback(present: u8) -> Result<(), Refusal> {
    let (mut crusaders, mut direct, mut answer) = ([0; MAX_SHEET], [0; MAX_SHEET], [0; MAX_ANSWER]);
    let size = write(settings(4, CCA, MEDIAN), &[present; 16], &[0; 16], &mut crusaders)?;
    let other = write(settings(4, FCA, MEDIAN), &[1; 4], &[100; 4], &mut direct)?;
    let (crusaders, direct) = (&crusaders[..size], &direct[..other]);
    let given = fallback(crusaders, direct, &mut answer)?;
    let sheet = if given.settled_by == SettledBy::Crusaders { crusaders } else { direct };
    println!(
        "settled by {}, {}, from {} on {}, new value {}",
        given.settled_by as u32,
        given.length,
        given.readings.as_ptr() as usize - sheet.as_ptr() as usize,
        given.readings.len(),
        Answer::new(&answer[..given.length])?.value()
    );
    Ok(())
}

fn main() -> Result<(), Refusal> {
    numbers! {
        MAX_CABINETS MAX_WINDOW MAX_SPREAD MAX_PRECISION MAX_DRIFT MAX_ACCURACY MAX_ROUNDS TICKS_PER_SECOND
        MAX_SHEET MAX_ANSWER MAX_TRACE MAX_VALUES FCA CCA TRIMMED_MIDPOINT TRIMMED_MEAN AVERAGE MEDIAN MIDPOINT
    }
    println!("BY_CRUSADERS {}", SettledBy::Crusaders as u32);
    println!("BY_DIRECT {}", SettledBy::Direct as u32);
    refusals! {
        TOO_SHORT BAD_CABINETS BAD_FAULTS BAD_METHOD BAD_WINDOW BAD_LENGTH NO_ROOM BAD_MARK BAD_MISSING TOO_MANY_FAULTS
        BAD_PLAN TARGET_MISSED BAD_TRACE BAD_ROLES RUN_STOPPED BAD_SPREAD BAD_INTERVAL NO_INTERVAL BAD_PAIR
    }
    for number in 0..21 {
        println!("refusal {number}: {}", Refusal { number, place: 0 }.meaning());
    }
    for n in (0..=255).step_by(7) {
        println!(
            "entries of {n} {} {}",
            settings(n, FCA, MEDIAN).entries(),
            settings(n, CCA, MEDIAN).entries()
        );
    }
    show_method("FCA AVERAGE", FCA, AVERAGE)?;
    show_method("FCA MEDIAN", FCA, MEDIAN)?;
    show_method("FCA MIDPOINT", FCA, MIDPOINT)?;
    show_method("CCA AVERAGE", CCA, AVERAGE)?;
    show_method("CCA MEDIAN", CCA, MEDIAN)?;
    show_method("CCA MIDPOINT", CCA, MIDPOINT)?;
    show_trimmed("TRIMMED_MIDPOINT", TRIMMED_MIDPOINT)?;
    show_trimmed("TRIMMED_MEAN", TRIMMED_MEAN)?;
    show_fallback(1)?;
    show_fallback(0)?;
    println!("version {VERSION}");
    println!("version of the library {}", version());
    Ok(())
}
