//! An independent implementation of document 01, STAGE2 for name tables and
//! export, with requests 1 (UTF-8), 2 (values of 64 bits), 3 (places), 4 (two
//! outputs, and input lines copied to them), 5 (bytes read), 6 (children side by
//! side) and 7 (usage report) of document 02. It is written from the documents alone
//! so that others can be compared with it.
//!
//! The public calls are [`check`], [`fit`] and [`run`]. Each takes the text
//! itself.

mod atoms;
mod code;
pub mod generate;
mod load;
mod machine;
mod number;
mod output;
pub mod programs;
mod report;
mod row;
mod search;
mod store;
mod text;
mod tree;
mod utf8;
mod value;

pub use number::Number;
pub use row::{Element, RowNode};
pub use search::Looks;

/// The largest legal fuel.
pub const FUEL_LIMIT: u64 = 1_000_000;

/// The least legal length of the node row.
pub const NODE_ROW: usize = load::NODE_LIMIT;

/// The least legal length of the row of dead places: a bit for each node at each
/// position of a line.
pub const DEAD_ROW: usize = 51_456;

/// The least legal length of the store's room.
pub const STORE_ROOM: usize = store::LISTING_ROOM;

/// The least legal length of the report's room.
pub const REPORT_ROOM: usize = report::ROOM;

/// What checking a text gives.
#[derive(Clone, Copy, Debug, Default, PartialEq, Eq)]
pub struct Checked {
    pub number: u64,
    pub line: u64,
}

/// What fitting a line gives: the template's line, 0 for no call, where the nine
/// pieces lie in the line, how many places were taken up, and how many bytes were
/// read where an atom was looked for.
#[derive(Clone, Copy, Debug, Default, PartialEq, Eq)]
pub struct Fitted {
    pub number: u64,
    pub line: u64,
    pub start: [u64; 9],
    pub length: [u64; 9],
    pub places: u64,
    pub bytes: u64,
}

/// The rooms that a run writes to: channel 3, channel 4, the store's listing and the
/// usage report.
#[derive(Clone, Debug, PartialEq, Eq)]
pub struct Rooms {
    pub output: Vec<u8>,
    pub second: Vec<u8>,
    pub store: Vec<u8>,
    pub report: Vec<u8>,
}

impl Rooms {
    /// Rooms with so many bytes for the outputs, and the least that are legal for the
    /// others.
    pub fn with_outputs(output: usize, second: usize) -> Rooms {
        Rooms {
            output: vec![0; output],
            second: vec![0; second],
            store: vec![0; STORE_ROOM],
            report: vec![0; REPORT_ROOM],
        }
    }

    /// What a run with this answer wrote to them, without the bytes beyond.
    pub fn written(mut self, ran: &Ran) -> Rooms {
        self.output.truncate(ran.output as usize);
        self.second.truncate(ran.second as usize);
        self.store.truncate(ran.store as usize);
        self.report.truncate(ran.report as usize);
        self
    }
}

/// What a run gives; `output` (channel 3), `second` (channel 4), `store` and `report`
/// are lengths.
#[derive(Clone, Copy, Debug, Default, PartialEq, Eq)]
pub struct Ran {
    pub number: u64,
    pub line: u64,
    pub events: u64,
    pub output: u64,
    pub second: u64,
    pub store: u64,
    pub report: u64,
}

/// Checks whether a text loads. `nodes` is the length of the lent node row.
pub fn check(text: &[u8], nodes: usize) -> Checked {
    match load::load(text, nodes) {
        Ok(program) => Checked { number: 0, line: program.section_end },
        Err(refusal) => Checked { number: refusal.number.into(), line: refusal.line },
    }
}

/// Fits a line, taken whole, against the templates of a text. `nodes` and `dead`
/// are the lengths of the lent rows of nodes and of dead places.
pub fn fit(text: &[u8], nodes: usize, dead: usize, line: &[u8]) -> Fitted {
    if dead < DEAD_ROW {
        return Fitted { number: Number::Rooms.into(), ..Fitted::default() };
    }
    let program = match load::load(text, nodes) {
        Ok(program) => program,
        Err(refusal) => {
            return Fitted { number: refusal.number.into(), line: refusal.line, ..Fitted::default() };
        }
    };
    if line.len() > text::LINE_LIMIT {
        return Fitted { number: Number::LongInput.into(), ..Fitted::default() };
    }
    let fitting = search::fit(&program.tree, line, &program.marks);
    let mut fitted = Fitted { places: fitting.places, bytes: fitting.looks.bytes, ..Fitted::default() };
    if let Some(reading) = fitting.reading {
        fitted.line = program.macros[reading.template].line;
        fitted.start = reading.pieces.map(|piece| piece.start as u64);
        fitted.length = reading.pieces.map(|piece| piece.length as u64);
    }
    fitted
}

/// The most places that fitting a line may take up: the nodes of the text's tree
/// times the positions in the line. `None` if the text does not load.
pub fn most_places(text: &[u8], line: &[u8]) -> Option<u64> {
    let program = load::load(text, NODE_ROW).ok()?;
    Some((program.tree.size() * (line.len() + 1)) as u64)
}

/// How often fitting a line looks for an atom, by what it finds. `None` if the text
/// does not load, or the line is too long.
pub fn looks(text: &[u8], line: &[u8]) -> Option<Looks> {
    let program = load::load(text, NODE_ROW).ok()?;
    (line.len() <= text::LINE_LIMIT).then(|| search::fit(&program.tree, line, &program.marks).looks)
}

/// The tree of a text's templates as a row of nodes, each node's children side by
/// side. `None` if the text does not load.
pub fn row(text: &[u8]) -> Option<Vec<RowNode>> {
    Some(row::row(&load::load(text, NODE_ROW).ok()?.tree))
}

/// How much a text has of what document 01 limits in a section.
#[derive(Clone, Copy, Debug, PartialEq, Eq)]
pub struct Counts {
    pub macros: usize,
    /// Layouts included.
    pub code_lines: usize,
    pub nodes: usize,
}

/// Counts what a text has. `None` if it does not load.
pub fn counts(text: &[u8]) -> Option<Counts> {
    let program = load::load(text, NODE_ROW).ok()?;
    Some(Counts { macros: program.macros.len(), code_lines: program.code_lines, nodes: program.tree.size() })
}

/// Expands a text's input lines with at most `fuel` events. Bytes of the rooms beyond
/// the lengths in the result stay as they were.
pub fn run(text: &[u8], fuel: u64, nodes: usize, dead: usize, rooms: &mut Rooms) -> Ran {
    run_telling(text, fuel, nodes, dead, rooms, &mut |_| {})
}

/// The same, with each line that is offered told to `offered` once its event is counted.
pub fn run_telling(
    text: &[u8],
    fuel: u64,
    nodes: usize,
    dead: usize,
    rooms: &mut Rooms,
    offered: &mut dyn FnMut(&[u8]),
) -> Ran {
    let Rooms { output, second, store, report } = rooms;
    let short = dead < DEAD_ROW || store.len() < STORE_ROOM || report.len() < REPORT_ROOM;
    if !(1..=FUEL_LIMIT).contains(&fuel) || short {
        return Ran { number: Number::Rooms.into(), ..Ran::default() };
    }
    match load::load(text, nodes) {
        Err(refusal) => Ran { number: refusal.number.into(), line: refusal.line, ..Ran::default() },
        Ok(program) => {
            let outcome = machine::expand(&program, fuel, output, second, offered);
            Ran {
                number: outcome.number.into(),
                line: outcome.line,
                events: outcome.events,
                output: outcome.output as u64,
                second: outcome.second as u64,
                store: outcome.store.list(store) as u64,
                report: outcome.uses.report(&program.macros, report) as u64,
            }
        }
    }
}
