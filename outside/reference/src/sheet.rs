//! The round sheet: reader, writer and row.

use crate::checks::{Refusal, Settings, CCA};

/// The settings in the first eight bytes of a sheet or a trace, under checks 1 to 5.
pub fn sizes_of(bytes: &[u8]) -> Result<Settings, Refusal> {
    if bytes.len() < 8 {
        return Err(Refusal::new(1));
    }
    let settings = Settings {
        n: bytes[0],
        m: bytes[1],
        rule: bytes[2],
        estimator: bytes[3],
        window: u32::from_le_bytes([bytes[4], bytes[5], bytes[6], bytes[7]]),
    };
    settings.check()?;
    Ok(settings)
}

/// The settings of a sheet, under checks 1 to 6.
pub fn settings_of(sheet: &[u8]) -> Result<Settings, Refusal> {
    settings_with_spread(sheet, 0)
}

/// The settings of a sheet that is settled with a spread, under checks 1 to 5, 16 and 6.
pub fn settings_with_spread(sheet: &[u8], spread: u32) -> Result<Settings, Refusal> {
    let settings = sizes_of(sheet)?;
    settings.check_spread(spread)?;
    if sheet.len() != settings.sheet_length() {
        return Err(Refusal::new(6));
    }
    Ok(settings)
}

/// Checks 8 and 9: all marks before any ghost.
pub fn check_entries(marks: &[u8], readings: &[i32]) -> Result<(), Refusal> {
    for (entry, &mark) in marks.iter().enumerate() {
        if mark > 1 {
            return Err(Refusal::at(8, entry));
        }
    }
    for (entry, &reading) in readings.iter().enumerate() {
        if marks[entry] == 0 && reading != 0 {
            return Err(Refusal::at(9, entry));
        }
    }
    Ok(())
}

/// Marks and readings of a sheet that passed checks 1 to 6, themselves unchecked.
fn arrays_of(sheet: &[u8], entries: usize) -> (Vec<u8>, Vec<i32>) {
    (sheet[8..8 + entries].to_vec(), numbers_in(&sheet[8 + entries..]))
}

/// The signed numbers of four bytes each.
pub fn numbers_in(bytes: &[u8]) -> Vec<i32> {
    bytes.chunks_exact(4).map(|b| i32::from_le_bytes([b[0], b[1], b[2], b[3]])).collect()
}

/// Signed numbers as four bytes each.
pub fn bytes_of(numbers: &[i32]) -> Vec<u8> {
    numbers.iter().flat_map(|number| number.to_le_bytes()).collect()
}

/// The entries of a sheet that passed checks 1 to 6, under checks 8 and 9.
pub fn entries_of(sheet: &[u8], settings: &Settings) -> Result<Vec<Option<i32>>, Refusal> {
    let (marks, readings) = arrays_of(sheet, settings.entries());
    check_entries(&marks, &readings)?;
    Ok(readings_of(&marks, &readings))
}

pub fn readings_of(marks: &[u8], readings: &[i32]) -> Vec<Option<i32>> {
    marks
        .iter()
        .zip(readings)
        .map(|(&mark, &reading)| if mark == 1 { Some(reading) } else { None })
        .collect()
}

/// The mark and the reading of each entry.
pub fn marks_and_readings(entries: &[Option<i32>]) -> (Vec<u8>, Vec<i32>) {
    let marks = entries.iter().map(|entry| entry.is_some() as u8).collect();
    let readings = entries.iter().map(|entry| entry.unwrap_or(0)).collect();
    (marks, readings)
}

/// The reader: fills the two lent arrays from their start and gives back the settings.
pub fn read(sheet: &[u8], marks: &mut [u8], readings: &mut [i32]) -> Result<Settings, Refusal> {
    let settings = settings_of(sheet)?;
    let entries = settings.entries();
    if marks.len() < entries || readings.len() < entries {
        return Err(Refusal::new(7));
    }
    let (sheet_marks, sheet_readings) = arrays_of(sheet, entries);
    check_entries(&sheet_marks, &sheet_readings)?;
    marks[..entries].copy_from_slice(&sheet_marks);
    readings[..entries].copy_from_slice(&sheet_readings);
    Ok(settings)
}

/// The writer: answers the length of the sheet.
pub fn write(
    settings: &Settings,
    marks: &[u8],
    readings: &[i32],
    buffer: &mut [u8],
) -> Result<usize, Refusal> {
    settings.check()?;
    let entries = settings.entries();
    if marks.len() != entries || readings.len() != entries {
        return Err(Refusal::new(6));
    }
    let length = settings.sheet_length();
    if buffer.len() < length {
        return Err(Refusal::new(7));
    }
    check_entries(marks, readings)?;
    buffer[..length].copy_from_slice(&sheet_bytes(settings, marks, readings));
    Ok(length)
}

/// The bytes of a sheet with these settings and arrays, unchecked.
pub fn sheet_bytes(settings: &Settings, marks: &[u8], readings: &[i32]) -> Vec<u8> {
    let mut bytes = size_bytes(settings);
    bytes.extend(marks);
    bytes.extend(bytes_of(readings));
    bytes
}

/// The first eight bytes of a sheet or a trace.
pub fn size_bytes(settings: &Settings) -> Vec<u8> {
    let mut bytes = vec![settings.n, settings.m, settings.rule, settings.estimator];
    bytes.extend(settings.window.to_le_bytes());
    bytes
}

/// The part of the sheet that holds one cabinet's readings, or an empty part.
pub fn row(sheet: &[u8], cabinet: u32) -> &[u8] {
    let Ok(settings) = settings_of(sheet) else { return &[] };
    if entries_of(sheet, &settings).is_err() || cabinet >= settings.n as u32 {
        return &[];
    }
    let in_row = if settings.rule == CCA { settings.n as usize } else { 1 };
    let readings = &sheet[8 + settings.entries()..];
    let first = cabinet as usize * in_row;
    &readings[4 * first..4 * (first + in_row)]
}
