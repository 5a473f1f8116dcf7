//! The proved calls, wrapped so that they can be called from safe Rust, with
//! answers of the reference's types.

pub mod cases;
pub mod lent;
pub mod sets;

use stage2_reference::{Checked, Fitted, Ran, Rooms};

/// A node's `element` where it is no literal byte.
pub const END_KEY: u16 = 256;
pub const PLACEHOLDER_KEY: u16 = 257;
pub const ROOT_KEY: u16 = 258;

/// An element of the lent node row.
#[repr(C)]
#[derive(Clone, Copy, Debug, Default)]
pub struct Node {
    pub element: u16,
    pub first: u16,
    pub count: u16,
    pub template: u16,
    pub height: u16,
    pub holes: u16,
}

#[repr(C)]
struct RawChecked {
    number: u64,
    line: u64,
}

#[repr(C)]
struct RawFitted {
    number: u64,
    line: u64,
    start: [u64; 9],
    length: [u64; 9],
    places: u64,
    bytes: u64,
}

#[repr(C)]
struct RawRan {
    number: u64,
    line: u64,
    events: u64,
    output: u64,
    second: u64,
    store: u64,
    report: u64,
}

// As include/stage2.h declares them.
extern "C" {
    fn stage2_check(text: *const u8, text_count: usize, nodes: *mut Node, nodes_count: usize) -> RawChecked;
    fn stage2_fit(
        text: *const u8,
        text_count: usize,
        nodes: *mut Node,
        nodes_count: usize,
        dead: *mut u8,
        dead_count: usize,
        line: *const u8,
        line_count: usize,
    ) -> RawFitted;
    fn stage2_run(
        text: *const u8,
        text_count: usize,
        fuel: u64,
        nodes: *mut Node,
        nodes_count: usize,
        dead: *mut u8,
        dead_count: usize,
        output: *mut u8,
        output_count: usize,
        second: *mut u8,
        second_count: usize,
        store: *mut u8,
        store_count: usize,
        report: *mut u8,
        report_count: usize,
    ) -> RawRan;
}

/// Checks a text.
pub fn check(text: &[u8], nodes: &mut [Node]) -> Checked {
    let raw = unsafe { stage2_check(text.as_ptr(), text.len(), nodes.as_mut_ptr(), nodes.len()) };
    Checked { number: raw.number, line: raw.line }
}

/// Fits a line against the templates of a text. `dead` is the row of dead places.
pub fn fit(text: &[u8], nodes: &mut [Node], dead: &mut [u8], line: &[u8]) -> Fitted {
    let raw = unsafe {
        stage2_fit(
            text.as_ptr(),
            text.len(),
            nodes.as_mut_ptr(),
            nodes.len(),
            dead.as_mut_ptr(),
            dead.len(),
            line.as_ptr(),
            line.len(),
        )
    };
    Fitted {
        number: raw.number,
        line: raw.line,
        start: raw.start,
        length: raw.length,
        places: raw.places,
        bytes: raw.bytes,
    }
}

/// Runs a text.
pub fn run(text: &[u8], fuel: u64, nodes: &mut [Node], dead: &mut [u8], rooms: &mut Rooms) -> Ran {
    let Rooms { output, second, store, report } = rooms;
    let raw = unsafe {
        stage2_run(
            text.as_ptr(),
            text.len(),
            fuel,
            nodes.as_mut_ptr(),
            nodes.len(),
            dead.as_mut_ptr(),
            dead.len(),
            output.as_mut_ptr(),
            output.len(),
            second.as_mut_ptr(),
            second.len(),
            store.as_mut_ptr(),
            store.len(),
            report.as_mut_ptr(),
            report.len(),
        )
    };
    Ran {
        number: raw.number,
        line: raw.line,
        events: raw.events,
        output: raw.output,
        second: raw.second,
        store: raw.store,
        report: raw.report,
    }
}
