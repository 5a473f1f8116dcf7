//! Looks for lines that take up many places, and for lines with many bytes read for
//! atoms: `worst_places [SEED] [ROUNDS]`.
//!
//! Each round begins with a random text about places, or about brackets, and a line,
//! and changes them as long as the count does not fall. Both libraries must agree on
//! every line. Prints the most places that were found, the largest share of their
//! bound, the nodes of the tree times the positions of the line, and the most bytes,
//! and how long the proved library takes for them.

use std::env;
use std::time::{Duration, Instant};

use stage2_compare::{fit, Node};
use stage2_reference::generate::{Generator, Size};
use stage2_reference::{self as reference, most_places, Fitted, DEAD_ROW, NODE_ROW};

/// How many changes are tried in a round.
const CHANGES: usize = 20_000;

/// How many bytes of a text are shown; the seed gives the others.
const SHOWN: usize = 300;

fn main() {
    let argument =
        |place, default| env::args().nth(place).and_then(|word| word.parse().ok()).unwrap_or(default);
    let (seed, rounds) = (argument(1, 1), argument(2, 10));
    println!("seed {seed}, {rounds} rounds of {CHANGES} changes");
    let mut generator = Generator::new(seed);
    let mut rows = Rows { nodes: vec![Node::default(); NODE_ROW], dead: vec![0; DEAD_ROW] };
    let mut climb = |make: Make, count: Count| -> Vec<Case> {
        (0..rounds).map(|_| rows.climb(&mut generator, make, count)).collect()
    };
    let busy = climb(Generator::places_text, |fitted| fitted.places);
    let deep = climb(Generator::brackets_text, |fitted| fitted.bytes);
    if let Some(case) = busy.iter().max_by_key(|case| case.fitted.places) {
        rows.print("most places", case);
    }
    if let Some(case) = busy.iter().max_by(|a, b| a.share().total_cmp(&b.share())) {
        rows.print("largest share", case);
    }
    if let Some(case) = deep.iter().max_by_key(|case| case.fitted.bytes) {
        rows.print("most bytes", case);
    }
}

/// Makes the text that a round begins with.
type Make = fn(&mut Generator, Size) -> Vec<u8>;

/// What a round makes large.
type Count = fn(&Fitted) -> u64;

/// A line that was fitted, and the answer.
struct Case {
    text: Vec<u8>,
    line: Vec<u8>,
    fitted: Fitted,
}

impl Case {
    /// How many places there may be; none where the text does not load.
    fn bound(&self) -> u64 {
        most_places(&self.text, &self.line).unwrap_or(0)
    }

    fn share(&self) -> f64 {
        self.fitted.places as f64 / self.bound().max(1) as f64
    }
}

/// Rows that are used again and again.
struct Rows {
    nodes: Vec<Node>,
    dead: Vec<u8>,
}

impl Rows {
    fn fit(&mut self, text: &[u8], line: &[u8]) -> Fitted {
        fit(text, &mut self.nodes, &mut self.dead, line)
    }

    fn compare(&mut self, text: Vec<u8>, line: Vec<u8>) -> Case {
        let fitted = self.fit(&text, &line);
        let expected = reference::fit(&text, NODE_ROW, DEAD_ROW, &line);
        assert_eq!(fitted, expected, "{} line: {}", text.escape_ascii(), line.escape_ascii());
        Case { text, line, fitted }
    }

    /// What a round comes to.
    fn climb(&mut self, generator: &mut Generator, make: Make, count: Count) -> Case {
        let text = make(generator, Size::Large);
        let line = generator.line(&text, Size::Large);
        let mut best = self.compare(text, line);
        for change in 0..CHANGES {
            let (text, line) = match change % 4 {
                0 => (best.text.clone(), generator.line(&best.text, Size::Large)),
                1 => (best.text.clone(), generator.changed(&best.line)),
                _ => (generator.changed(&best.text), best.line.clone()),
            };
            let tried = self.compare(text, line);
            if count(&tried.fitted) >= count(&best.fitted) {
                best = tried;
            }
        }
        best
    }

    /// The least of several times.
    fn time(&mut self, case: &Case) -> Duration {
        let mut least = Duration::MAX;
        for _ in 0..10 {
            let start = Instant::now();
            self.fit(&case.text, &case.line);
            least = least.min(start.elapsed());
        }
        least
    }

    fn print(&mut self, what: &str, case: &Case) {
        let (time, bound, length) = (self.time(case), case.bound(), case.line.len());
        let nodes = bound / (length as u64 + 1);
        let Fitted { places, bytes, .. } = case.fitted;
        println!("{what}: {places} places of {bound}, {nodes} nodes times ({length} bytes + 1), {time:.1?}");
        println!("  {bytes} bytes read of {}, places times {length}", places * length as u64);
        let text = &case.text[..case.text.len().min(SHOWN)];
        println!("  text of {} bytes: {}", case.text.len(), text.escape_ascii());
        println!("  line: {}", case.line.escape_ascii());
    }
}
