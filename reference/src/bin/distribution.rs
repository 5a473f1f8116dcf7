//! Prints how many random texts gave each number and wrote to each output, and how
//! many places the lines of texts about places and brackets take up, how many bytes
//! are read and where: `distribution [SEED] [COUNT]`.

use std::collections::BTreeMap;
use std::env;
use std::time::Instant;

use stage2_reference::generate::{Generator, Size};
use stage2_reference::{fit, looks, most_places, run, Rooms, DEAD_ROW, NODE_ROW};

fn main() {
    let argument =
        |place, default| env::args().nth(place).and_then(|word| word.parse().ok()).unwrap_or(default);
    let seed = argument(1, 1);
    let count = argument(2, 20_000);
    for size in [Size::Small, Size::Large] {
        print(&format!("{size:?}"), seed, count, |generator| generator.text(size));
        print(&format!("{size:?}, about outputs"), seed, count, |generator| generator.output_text(size));
        print(&format!("{size:?}, about uses"), seed, count, |generator| generator.uses_text(size));
    }
    let kinds: [(&str, fn(&mut Generator, Size) -> Vec<u8>); 2] =
        [("places", Generator::places_text), ("brackets", Generator::brackets_text)];
    for (kind, make) in kinds {
        for size in [Size::Small, Size::Large] {
            let make = |generator: &mut Generator| make(generator, size);
            print(&format!("{size:?}, about {kind}"), seed, count, make);
            print_places(seed, count, make);
        }
    }
}

/// The numbers of the runs of texts, and how many of them wrote to each output.
fn print(kind: &str, seed: u64, count: u64, make: impl Fn(&mut Generator) -> Vec<u8>) {
    let mut generator = Generator::new(seed);
    let mut numbers: BTreeMap<u64, u64> = BTreeMap::new();
    let (mut events, mut bytes, mut outputs, mut seconds) = (0, 0, 0, 0);
    let start = Instant::now();
    for _ in 0..count {
        let text = make(&mut generator);
        let mut rooms = Rooms::with_outputs(generator.room(), generator.room());
        let ran = run(&text, generator.fuel(), NODE_ROW, DEAD_ROW, &mut rooms);
        *numbers.entry(ran.number).or_default() += 1;
        events += ran.events;
        bytes += text.len() as u64;
        outputs += u64::from(ran.output > 0);
        seconds += u64::from(ran.second > 0);
    }
    println!("{kind}: {count} texts, {bytes} bytes, {events} events, {:?}", start.elapsed());
    println!("{outputs} wrote to channel 3, {seconds} to channel 4");
    for (number, texts) in numbers {
        println!("{number:4} {texts:7}");
    }
}

/// How many places the lines of texts take up and how many bytes are read, by calls
/// and others, and in how many lines atoms are looked for where there is none.
fn print_places(seed: u64, count: u64, make: impl Fn(&mut Generator) -> Vec<u8>) {
    let mut generator = Generator::new(seed);
    // Lines by the magnitude of both counts: calls and others by places, then by bytes.
    let mut lines: BTreeMap<u64, [u64; 4]> = BTreeMap::new();
    let (mut most_taken, mut most_read) = ((0, 0), (0, 0));
    let [mut rights, mut lefts, mut ends] = [0; 3];
    for _ in 0..count {
        let text = make(&mut generator);
        for line in text.split(|&byte| byte == b'\n') {
            let fitted = fit(&text, NODE_ROW, DEAD_ROW, line);
            let (Some(bound), Some(looks)) = (most_places(&text, line), looks(&text, line)) else { continue };
            let other = usize::from(fitted.line == 0);
            lines.entry(magnitude(fitted.places)).or_default()[other] += 1;
            lines.entry(magnitude(fitted.bytes)).or_default()[2 + other] += 1;
            most_taken = most_taken.max((fitted.places, bound));
            most_read = most_read.max((fitted.bytes, fitted.places * line.len() as u64));
            rights += u64::from(looks.right_brackets > 0);
            lefts += u64::from(looks.left_brackets > 0);
            ends += u64::from(looks.line_ends > 0);
        }
    }
    println!("from           places: calls  no calls   bytes: calls  no calls");
    for (magnitude, [calls, others, reading_calls, reading_others]) in lines {
        println!("{magnitude:7} {calls:20} {others:9} {reading_calls:14} {reading_others:9}");
    }
    println!("at most {} places, where {} are allowed", most_taken.0, most_taken.1);
    println!("at most {} bytes, where {} are allowed", most_read.0, most_read.1);
    println!("lines with looks at a right bracket: {rights}");
    println!("at a left bracket without a partner: {lefts}, at the line's end: {ends}");
}

/// The power of ten that a number begins with, or 0.
fn magnitude(number: u64) -> u64 {
    number.checked_ilog10().map_or(0, |digits| 10u64.pow(digits))
}
