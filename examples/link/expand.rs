//! Expands one text with the library, and prints both outputs, the answer, the stored names and the usage report.
//!
//! In a package:
//!
//!     rustc -O -L lib -l static=stage2 examples/link/expand.rs -o expand_rust
//!
//! In the repository, after `tools/build api`:
//!
//!     rustc -O -L target/staticlib -l static=api examples/link/expand.rs -o expand_rust

use std::io::{stdout, Write};

#[repr(C)]
struct Ran {
    number: u64,
    line: u64,
    events: u64,
    output: u64,
    second: u64,
    store: u64,
    report: u64,
}

#[repr(C)]
#[derive(Clone, Copy, Default)]
struct Node {
    element: u16,
    first: u16,
    count: u16,
    template: u16,
    height: u16,
    holes: u16,
}

// As include/stage2.h declares it.
extern "C" {
    fn stage2_run(
        text: *const u8,
        text_count: usize,
        fuel: u64,
        nodes: *mut Node,
        nodes_count: usize,
        dead: *mut u8,
        dead_count: usize,
        output: *mut u8,
        output_count: usize,
        second: *mut u8,
        second_count: usize,
        store: *mut u8,
        store_count: usize,
        report: *mut u8,
        report_count: usize,
    ) -> Ran;
}

/// What a run leaves: its answer, both outputs, the store's listing and the usage report.
struct Left {
    ran: Ran,
    output: Vec<u8>,
    second: Vec<u8>,
    store: Vec<u8>,
    report: Vec<u8>,
}

fn run(text: &[u8], fuel: u64) -> Left {
    let mut nodes = vec![Node::default(); 2048];
    let mut dead = vec![0; 51456];
    let (mut output, mut second) = (vec![0; 65536], vec![0; 65536]);
    let (mut store, mut report) = (vec![0; 8704], vec![0; 2048]);
    // Every slice is passed with its own length, and the mutable ones don't overlap.
    let ran = unsafe {
        stage2_run(
            text.as_ptr(),
            text.len(),
            fuel,
            nodes.as_mut_ptr(),
            nodes.len(),
            dead.as_mut_ptr(),
            dead.len(),
            output.as_mut_ptr(),
            output.len(),
            second.as_mut_ptr(),
            second.len(),
            store.as_mut_ptr(),
            store.len(),
            report.as_mut_ptr(),
            report.len(),
        )
    };
    output.truncate(ran.output as usize);
    second.truncate(ran.second as usize);
    store.truncate(ran.store as usize);
    report.truncate(ran.report as usize);
    Left { ran, output, second, store, report }
}

fn main() {
    let text = b"$!$!0 (+-*/)\n\
        NAME !&amp;!$\nNAME !10&!20$\n$\n\
        NAME !$\n!10!26$\nfamily!16$\n!F3$\n!20!F13$\nh1 { font-family: !20; }!F14$\n$$\n\
        NAME Kern &amp; Co$\n";
    let Left { ran, output, second, store, report } = run(text, 1_000_000);
    println!("channel 3:");
    stdout().write_all(&output).unwrap();
    println!("channel 4:");
    stdout().write_all(&second).unwrap();
    println!("number {}, line {}, events {}", ran.number, ran.line, ran.events);
    stdout().write_all(&store).unwrap();
    stdout().write_all(&report).unwrap();
}
