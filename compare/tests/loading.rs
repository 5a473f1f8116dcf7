//! How long loading takes: its time must not grow with the square of the macros.

mod common;

use common::{answered, least_times};
use stage2_compare::sets::{sharing, text_of};

/// How often times are taken in turn. The least of each counts, which other work on
/// the machine disturbs least.
const ROUNDS: usize = 200;

/// How much more than n log n a time may grow, since times are never exact. With the
/// square of the macros it would grow up to 4.6 times as much.
const ALLOWANCE: f64 = 2.0;

fn n_log_n(macros: usize) -> f64 {
    macros as f64 * (macros as f64).log2()
}

/// Templates that are equal but for their last bytes, in an order that looks random, in
/// that of their bytes, and in the opposite one.
#[test]
fn loading_does_not_grow_with_the_square_of_the_macros() {
    const FEW: usize = 16;
    const MANY: usize = 128;
    let allowed = n_log_n(MANY) / n_log_n(FEW) * ALLOWANCE;
    let orders: [(&str, fn(&mut Vec<Vec<u8>>)); 3] = [
        ("as they come", |_| {}),
        ("ascending", |templates| templates.sort()),
        ("descending", |templates| templates.sort_by(|a, b| b.cmp(a))),
    ];
    for (order, arrange) in orders {
        let texts = [FEW, MANY].map(|macros| {
            let mut templates = sharing(macros);
            arrange(&mut templates);
            text_of(&templates)
        });
        let [few, many] = answered(move || least_times(ROUNDS, texts.each_ref().map(|text| &text[..])));
        let growth = many.as_secs_f64() / few.as_secs_f64();
        println!("{order:12} {few:>8.1?} and {many:>8.1?}: {growth:.1} times as long, {allowed:.1} allowed");
        assert!(growth <= allowed, "{order}: {growth:.1} times as long, {allowed:.1} allowed");
    }
}
