//! Settles a round sheet and prints what the program `settle` would: the sheet in the file that is named, or case 1 of the scope.
use std::io::Read;
use tohiranga::{settle, write, Answer, Refusal, Settings, FCA, MAX_ANSWER, MAX_SHEET, MEDIAN};

fn case_1(sheet: &mut [u8]) -> usize {
    let settings = Settings { n: 4, m: 1, rule: FCA, estimator: MEDIAN, window: 10 };
    write(settings, &[1; 4], &[0, 4, 10, 500], sheet).expect("a sheet of four cabinets")
}

fn show(sheet: &[u8]) -> Result<(), Refusal> {
    let mut buffer = [0; MAX_ANSWER];
    let length = settle(sheet, &mut buffer)?;
    let answer = Answer::new(&buffer[..length])?;
    println!(
        "round {} {} {} {}",
        answer.cabinets(),
        answer.count(),
        answer.estimate(),
        answer.value()
    );
    for r in 0..answer.cabinets() {
        println!("{r} {} {}", answer.mark(r)?, answer.used(r)?);
    }
    Ok(())
}

fn main() -> std::io::Result<()> {
    let mut sheet = [0; MAX_SHEET + 1];
    let length = match std::env::args_os().nth(1) {
        None => case_1(&mut sheet),
        Some(path) => {
            let mut bytes = Vec::new();
            std::fs::File::open(path)?.take(sheet.len() as u64).read_to_end(&mut bytes)?;
            sheet[..bytes.len()].copy_from_slice(&bytes);
            bytes.len()
        }
    };
    if let Err(refusal) = show(&sheet[..length]) {
        println!("refused {} {}", refusal.number, refusal.place);
        eprintln!("{refusal}");
        std::process::exit(3);
    }
    Ok(())
}
