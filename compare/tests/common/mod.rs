//! What several test files share.
//!
//! `STAGE2_COUNT` is how many texts of each size are tried, `STAGE2_SEED`
//! the seed.

// No test file uses all of it.
#![allow(dead_code)]

use std::collections::BTreeMap;
use std::env;
use std::sync::mpsc;
use std::thread;
use std::time::{Duration, Instant};

use stage2_compare::lent::Lent;
use stage2_compare::Node;
use stage2_reference::generate::{Generator, Size};
use stage2_reference::{DEAD_ROW, NODE_ROW};

/// How many texts are tried unless `STAGE2_COUNT` says otherwise: enough to
/// meet every number.
const USUAL_COUNT: u64 = 20_000;

fn count() -> u64 {
    setting("STAGE2_COUNT", USUAL_COUNT)
}

fn setting(name: &str, usual: u64) -> u64 {
    match env::var(name) {
        Ok(value) => value.parse().unwrap_or_else(|_| panic!("{name} is no number: {value}")),
        Err(_) => usual,
    }
}

/// Calls `test` with random texts of a size.
pub fn for_texts(size: Size, test: impl FnMut(&mut Generator, &[u8])) {
    for_made(&format!("{size:?}"), |generator| generator.text(size), test);
}

/// Calls `test` with random texts about values.
pub fn for_value_texts(test: impl FnMut(&mut Generator, &[u8])) {
    for_made("values", Generator::value_text, test);
}

/// Calls `test` with random texts about places, of a size.
pub fn for_places_texts(size: Size, test: impl FnMut(&mut Generator, &[u8])) {
    for_made(&format!("{size:?}, places"), |generator| generator.places_text(size), test);
}

/// Calls `test` with random texts about brackets, of a size.
pub fn for_brackets_texts(size: Size, test: impl FnMut(&mut Generator, &[u8])) {
    for_made(&format!("{size:?}, brackets"), |generator| generator.brackets_text(size), test);
}

/// Calls `test` with random texts about outputs, of a size.
pub fn for_output_texts(size: Size, test: impl FnMut(&mut Generator, &[u8])) {
    for_made(&format!("{size:?}, outputs"), |generator| generator.output_text(size), test);
}

/// Calls `test` with random texts about uses, of a size.
pub fn for_uses_texts(size: Size, test: impl FnMut(&mut Generator, &[u8])) {
    for_made(&format!("{size:?}, uses"), |generator| generator.uses_text(size), test);
}

/// Calls `test` with random texts of templates alone.
pub fn for_tree_texts(test: impl FnMut(&mut Generator, &[u8])) {
    for_made("trees", Generator::tree_text, test);
}

/// Calls `test` with the texts that `make` makes, and prints the seed.
fn for_made(
    kind: &str,
    make: impl Fn(&mut Generator) -> Vec<u8>,
    mut test: impl FnMut(&mut Generator, &[u8]),
) {
    let (seed, count) = (setting("STAGE2_SEED", 20_261_115), count());
    println!("STAGE2_SEED={seed} STAGE2_COUNT={count} {kind}");
    let mut generator = Generator::new(seed);
    for _ in 0..count {
        let text = make(&mut generator);
        test(&mut generator, &text);
    }
}

/// How often each number was answered.
#[derive(Default)]
pub struct Numbers(BTreeMap<u64, u64>);

impl Numbers {
    pub fn add(&mut self, number: u64) {
        *self.0.entry(number).or_insert(0) += 1;
    }

    /// Each of `expected` must be among them, unless few texts were tried.
    pub fn assert_met(&self, expected: &[u64]) {
        println!("{:?}", self.0);
        let met = expected.iter().all(|number| self.0.contains_key(number));
        assert!(met || count() < USUAL_COUNT, "a number is never answered: {:?}", self.0);
    }
}

/// A node row whose contents mean nothing.
fn node_row(length: usize) -> Vec<Node> {
    (0..length)
        .map(|at| at as u16)
        .map(|x| Node { element: x, first: x, count: x, template: x, height: x, holes: x })
        .collect()
}

/// The rows that calls are lent. They are used again and again, so that a call
/// meets what others left.
pub struct Rows {
    nodes: Vec<Node>,
    dead: Vec<u8>,
    turn: u64,
}

impl Rows {
    /// Rows of which at most so many nodes and bytes are lent.
    pub fn up_to(nodes: usize, dead: usize) -> Rows {
        Rows { nodes: node_row(nodes), dead: vec![0; dead], turn: 0 }
    }

    /// Rows of the least legal lengths.
    pub fn least() -> Rows {
        Rows::up_to(NODE_ROW, DEAD_ROW)
    }

    /// So many nodes, for a call that takes no other row.
    pub fn nodes(&mut self, nodes: usize) -> &mut [Node] {
        &mut self.nodes[..nodes]
    }

    /// So many nodes, and so many bytes for dead places: random ones in one turn,
    /// marks for every place in the next, and then what the last call left.
    pub fn lend(&mut self, nodes: usize, dead: usize) -> (&mut [Node], &mut [u8]) {
        let row = &mut self.dead[..dead];
        match self.turn % 3 {
            0 => fill(row, self.turn),
            1 => row.fill(0xFF),
            _ => {}
        }
        self.turn += 1;
        (&mut self.nodes[..nodes], row)
    }
}

/// Fills a row with random bytes, the high ones of a multiplicative generator.
fn fill(row: &mut [u8], seed: u64) {
    let mut word = seed;
    for bytes in row.chunks_mut(4) {
        word = word.wrapping_mul(6_364_136_223_846_793_005).wrapping_add(1_442_695_040_888_963_407);
        bytes.copy_from_slice(&word.to_be_bytes()[..bytes.len()]);
    }
}

/// Lengths of a row of dead places: the least that is legal, longer ones, and now
/// and then one that is too short.
pub fn any_dead(turn: u64) -> usize {
    match turn % 61 {
        7 => DEAD_ROW - 1,
        27 => 0,
        odd if odd % 2 == 1 => DEAD_ROW,
        even => DEAD_ROW + even as usize,
    }
}

/// The longest of them.
pub const LONGEST_DEAD: usize = DEAD_ROW + 60;

/// The least times of proved runs, each taken so often, in turn with the others.
pub fn least_times<const N: usize>(rounds: usize, texts: [&[u8]; N]) -> [Duration; N] {
    let mut lent = Lent::default();
    let mut least = [Duration::MAX; N];
    for _ in 0..rounds {
        for (least, text) in least.iter_mut().zip(texts) {
            let start = Instant::now();
            let ran = lent.run_proved(text);
            *least = start.elapsed().min(*least);
            assert_eq!(ran.number, 0);
        }
    }
    least
}

/// What a call gives, which must answer within a minute.
pub fn answered<T: Send + 'static>(call: impl FnOnce() -> T + Send + 'static) -> T {
    let (answer, answered) = mpsc::channel();
    thread::spawn(move || answer.send(call()));
    answered.recv_timeout(Duration::from_secs(60)).expect("an answer within a minute")
}

pub fn shown(bytes: &[u8]) -> String {
    bytes.escape_ascii().to_string()
}
