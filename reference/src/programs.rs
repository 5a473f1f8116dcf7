//! What the programs write, apart from reading files and arguments.

use crate::text::lines;
use crate::{check, fit, run, Fitted, Rooms, DEAD_ROW, FUEL_LIMIT, NODE_ROW};

/// Bytes of output that `expand` has room for; of the second one too, where it is
/// asked for.
pub const OUTPUT_ROOM: usize = 65_536;

/// What `expand` writes.
pub struct Expanded {
    /// To standard output: the run's output, then its end.
    pub printed: Vec<u8>,
    /// To the file for channel 4.
    pub second: Vec<u8>,
    /// To the file for the usage report: nothing where no run began.
    pub report: Vec<u8>,
}

/// Expands a text. Channel 4 has no room unless `second_room` gives it one.
pub fn expand(text: &[u8], second_room: usize) -> Expanded {
    let mut rooms = Rooms::with_outputs(OUTPUT_ROOM, second_room);
    let ran = run(text, FUEL_LIMIT, NODE_ROW, DEAD_ROW, &mut rooms);
    let Rooms { output: mut printed, second, report, .. } = rooms.written(&ran);
    let end = format!("END {} {} {}\n", ran.number, ran.line, ran.events);
    printed.extend_from_slice(end.as_bytes());
    Expanded { printed, second, report }
}

/// The line of `check_text` for one file.
pub fn check_row(name: &str, text: &[u8]) -> String {
    let checked = check(text, NODE_ROW);
    format!("{name} {} {}\n", checked.number, checked.line)
}

/// The lines of `fit_line` for each line of `lines_text`.
pub fn fit_rows(text: &[u8], lines_text: &[u8]) -> String {
    lines(lines_text).map(|line| fit_row(&fit(text, NODE_ROW, DEAD_ROW, line))).collect()
}

/// Number, template's line, start and length of each piece, then places and bytes.
fn fit_row(fitted: &Fitted) -> String {
    let mut row = format!("{} {}", fitted.number, fitted.line);
    for (start, length) in fitted.start.iter().zip(&fitted.length) {
        row.push_str(&format!(" {start} {length}"));
    }
    row.push_str(&format!(" {} {}\n", fitted.places, fitted.bytes));
    row
}
