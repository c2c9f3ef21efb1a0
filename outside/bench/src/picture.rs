//! The times as a picture: one panel for each rule and kind, both axes logarithmic.

use crate::sheets::{KINDS, RULES, SIZES};
use crate::Cell;
use std::fmt::Write;

const WIDE: f64 = 300.0;
const HIGH: f64 = 220.0;
const LEFT: f64 = 70.0;
const TOP: f64 = 80.0;
const COLOURS: [&str; 4] = ["#1f5fa8", "#c05a00", "#2f8f4e", "#7a3fa0"];

pub fn svg(names: &[String], cells: &[Cell]) -> String {
    let times = || cells.iter().flat_map(|cell| cell.ns.iter().copied());
    let lowest = times().fold(f64::MAX, f64::min).log10().floor();
    let highest = times().fold(1.0, f64::max).log10().ceil();
    let (width, height) = (LEFT + 3.0 * (WIDE + 60.0), TOP + 2.0 * (HIGH + 70.0));
    let mut svg = format!(
        "<svg xmlns='http://www.w3.org/2000/svg' viewBox='0 0 {width} {height}' \
         font-family='sans-serif' font-size='12'>\n\
         <rect width='{width}' height='{height}' fill='white'/>\n\
         <text x='{LEFT}' y='24' font-size='16'>Time to settle a round sheet, ns, by N</text>\n"
    );
    for (i, (name, colour)) in names.iter().zip(COLOURS).enumerate() {
        let x = LEFT + 160.0 * i as f64;
        let end = x + 24.0;
        let after = x + 30.0;
        let _ = writeln!(
            svg,
            "<path d='M{x} 40 H{end}' stroke='{colour}' stroke-width='2'/>\
             <text x='{after}' y='44'>{name}</text>"
        );
    }
    for (row, (rule, rule_name)) in RULES.iter().enumerate() {
        for (column, kind) in KINDS.iter().enumerate() {
            let left = LEFT + column as f64 * (WIDE + 60.0);
            let top = TOP + row as f64 * (HIGH + 70.0);
            let x = |n: u8| left + WIDE * (n as f64 / 4.0).log2() / 4.0;
            let y = |ns: f64| top + HIGH * (highest - ns.log10()) / (highest - lowest);
            let _ = writeln!(
                svg,
                "<text x='{left}' y='{}'>{rule_name}, {}</text>",
                top - 8.0,
                kind.name()
            );
            for power in lowest as i32..=highest as i32 {
                let at = y(10f64.powi(power));
                let _ = writeln!(
                    svg,
                    "<path d='M{left} {at} h{WIDE}' stroke='#ddd'/>\
                     <text x='{}' y='{}' text-anchor='end'>{}</text>",
                    left - 6.0,
                    at + 4.0,
                    10i64.pow(power as u32)
                );
            }
            for n in SIZES {
                let at = x(n);
                let _ = writeln!(
                    svg,
                    "<path d='M{at} {top} v{HIGH}' stroke='#eee'/>\
                     <text x='{at}' y='{}' text-anchor='middle'>{n}</text>",
                    top + HIGH + 16.0
                );
            }
            let here = cells.iter().filter(|cell| cell.rule == *rule && cell.kind == *kind);
            for (i, colour) in COLOURS.iter().take(names.len()).enumerate() {
                let points: Vec<String> = here
                    .clone()
                    .map(|cell| format!("{:.1},{:.1}", x(cell.n), y(cell.ns[i])))
                    .collect();
                let _ = writeln!(
                    svg,
                    "<polyline points='{}' fill='none' stroke='{colour}' stroke-width='2'/>",
                    points.join(" ")
                );
            }
        }
    }
    svg + "</svg>\n"
}
