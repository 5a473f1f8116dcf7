//! Prints, for the proved library and the reference, how long runs take, and
//! the ratio of the two times. Both are timed in turn, and the shortest of many
//! times counts, which other work on the machine disturbs least. A run loads its
//! text first; where the same text is timed without input too, a last column has
//! the ratio of what the input adds. The last lines say how loading grows with the
//! macros.

use std::time::{Duration, Instant};

use stage2_compare::cases::{bracket_lines, bracket_separators, each_depth};
use stage2_compare::lent::Lent;
use stage2_compare::sets::{apart, largest, sharing, text_of};
use stage2_reference::{self as reference, Ran, DEAD_ROW, FUEL_LIMIT, NODE_ROW};

/// How long both libraries are timed on a case.
const LEAST: Duration = Duration::from_millis(1_500);

const FLAG: &str = "$!$!0 (+-*/)\n";

fn main() {
    println!(
        "{:60} {:>8} {:>12} {:>12} {:>6} {:>6}",
        "case", "events", "proved", "reference", "ratio", "input"
    );
    let mut lent = Lent::default();
    let mut print =
        |case: &str, text: &str, loading: Option<Times>| print(&mut lent, case, text.as_bytes(), loading);
    print("1,000,000 events: passes of an iteration", &passes(), None);
    print("1,000,000 events: calls in an iteration", &calls(), None);
    print("900 order lines through name templates", &orders(""), None);
    print("900 order lines to two outputs", &orders("4"), None);
    print("100,000 expressions with names and brackets", &expressions(), None);
    let loading = print("three templates, no line", &short(0), None);
    print("three templates, 10,000 short lines", &short(10_000), Some(loading));
    for (end, fits) in [("", "nowhere"), ("b", "at the last place")] {
        let loading = print(&format!("nine placeholders, fits {fits}, no line"), &slow(end, 0), None);
        print(&format!("nine placeholders, fits {fits}, 300 x 200"), &slow(end, 300), Some(loading));
    }
    for (set, text) in [("( between nine", bracket_separators()), ("each depth", each_depth())] {
        let loading = print(&format!("{set}, no line"), &text, None);
        for (name, line) in bracket_lines() {
            let fitted = reference::fit(text.as_bytes(), NODE_ROW, DEAD_ROW, line.as_bytes());
            let case = format!("{set}, 250 of {name}: {} places, {} bytes", fitted.places, fitted.bytes);
            print(&case, &(text.clone() + &(line + "\n").repeat(250)), Some(loading));
        }
    }
    // Table 2.4.6 of the source: 0, 3 and 6 code lines, 1 to 100 macros.
    for codes in [0, 3, 6] {
        for macros in [1, 10, 50, 100] {
            let set = format!("{macros} macros, {codes} code lines");
            let loading = print(&format!("{set}, no call"), &table(macros, codes, 0, 1), None);
            for called in if macros < 100 { vec![1] } else { vec![1, macros] } {
                print(
                    &format!("{set}, 100 calls of {called}"),
                    &table(macros, codes, 100, called),
                    Some(loading),
                );
            }
        }
    }
    print_loading(&mut lent);
}

/// How many macros are loaded.
const LOADED: [usize; 5] = [1, 10, 50, 100, 128];

/// Sets without input, and how their times grow from ten macros to 128.
fn print_loading(lent: &mut Lent) {
    let sets: [(&str, fn(usize) -> Vec<Vec<u8>>); 2] = [("nothing", apart), ("180 bytes", sharing)];
    let times = sets.map(|(shared, templates)| {
        LOADED.map(|macros| {
            let case = format!("{macros} macros that share {shared}, no line");
            print(lent, &case, &text_of(&templates(macros)), None)
        })
    });
    print(lent, "largest set: 65,536 bytes, 1,024 code lines, 2,048 nodes", &largest(), None);
    println!();
    let n_log_n = |macros: usize| macros as f64 * (macros as f64).ln();
    let allowed = n_log_n(LOADED[4]) / n_log_n(LOADED[1]);
    for ((shared, _), [_, ten, _, _, most]) in sets.iter().zip(times) {
        let proved = most.proved.as_secs_f64() / ten.proved.as_secs_f64();
        let reference = most.reference.as_secs_f64() / ten.reference.as_secs_f64();
        println!(
            "128 macros over 10, sharing {shared}: proved {proved:.1}, reference {reference:.1}, n log n {allowed:.1}"
        );
    }
}

/// Two iterations in each other, until the fuel is used.
fn passes() -> String {
    format!("{FLAG}GO!$\n1000!F7\n1000!F7\n!10x!26\n!F8\n!F8\n$$\nGOname\n")
}

/// The same, with a call in each pass.
fn calls() -> String {
    format!("{FLAG}GO!$\n1000!F7\n1000!F7\nADD !10 TO x\n!F8\n!F8\n$\nADD ! TO !$\n!F3\n$$\nGOname\n")
}

/// An export of 900 lines: names with an entity to replace, styles that are
/// numbered, which go to a channel, and lines that are no call.
fn orders(channel: &str) -> String {
    let section = format!(
        "NAME !$\n!10!F1\n$\nNAME !&amp;!$\nNAME !10&!20\n$\nSTYLE ! WEIGHT !$\n!12 !10 !24!F1{channel}\n$$\n"
    );
    let lines: String = (0..300)
        .map(|at| {
            let weight = at % 9 * 100 + 100;
            format!("NAME Kern &amp; Co {at}$\nSTYLE Bold{} WEIGHT {weight}+1$\nplain line {at}$\n", at % 40)
        })
        .collect();
    format!("{FLAG}{section}{lines}")
}

/// Ten expressions in a line that is built 10,000 times and dropped; all values
/// are of 32 bits.
fn expressions() -> String {
    let section = "SET !=!$\n!F3\n$\n\
        GO !,!,!,!,!$\n100!F7\n100!F7\n!14 !24 !34 !44 !54 !14 !24 !34 !44 !54!F10\n!F8\n!F8\n$$\n";
    let names = "SET views=125000\nSET rate=17\nSET styles=4\nSET discount=-1500\n";
    let line = "GO views*rate/100+discount,(styles+2)*(rate-3)*12/7,-(views-1000)/(styles*25)+rate,\
        ((12+3)*4-(7-2)*6)/(1+1),1024*768/16-views/(rate+8)\n";
    format!("{FLAG}{section}{names}{line}")
}

/// So many lines of two and three bytes in turn, for the templates of document 01's
/// examples; the longest text has room for 20,000 of them.
fn short(lines: usize) -> String {
    let input: String = ["AB\n", "XB\n", "A=B\n", "x\n"].into_iter().cycle().take(lines).collect();
    format!("{FLAG}AB!$\n$\n!B$\n$\n!=!$\n$$\n{input}")
}

/// So many lines of 200 bytes, all alike but for the end. Without an end they fit
/// nowhere, and are written; with b at the last place of all.
fn slow(end: &str, lines: usize) -> String {
    let line = format!("{}{end}\n", "a".repeat(200 - end.len()));
    format!("{FLAG}!a!a!a!a!a!a!a!a!c$\n$\n!ab!!!!!!!!$\n$$\n{}", line.repeat(lines))
}

/// As in the source's table: so many macros with short heads and so many code
/// lines each, and so many calls of one of them, counted from 1.
fn table(macros: usize, codes: usize, calls: usize, called: usize) -> String {
    let bodies: Vec<String> =
        (1..=macros).map(|at| format!("M{at} !$\n{}", "LINE !10!F1\n".repeat(codes))).collect();
    let input = format!("M{called} A\n").repeat(calls);
    format!("{FLAG}{}$$\n{input}", bodies.join("$\n"))
}

/// The shortest times of one text.
#[derive(Clone, Copy)]
struct Times {
    proved: Duration,
    reference: Duration,
}

impl Times {
    fn ratio(self) -> f64 {
        self.proved.as_secs_f64() / self.reference.as_secs_f64()
    }

    /// What these have more than the times of the text without input.
    fn beyond(self, loading: Times) -> Times {
        Times { proved: self.proved - loading.proved, reference: self.reference - loading.reference }
    }
}

/// One row: both libraries run the text and agree.
fn print(lent: &mut Lent, case: &str, text: &[u8], loading: Option<Times>) -> Times {
    let start = Instant::now();
    let mut shortest = Times { proved: Duration::MAX, reference: Duration::MAX };
    while start.elapsed() < LEAST {
        let (proved_ran, time) = timed(|| lent.run_proved(text));
        shortest.proved = shortest.proved.min(time);
        let (ran, time) = timed(|| lent.run_reference(text));
        shortest.reference = shortest.reference.min(time);
        assert_eq!(proved_ran, ran, "{case}");
        assert!(ran.number == 0 || ran.events == FUEL_LIMIT, "{case}: {ran:?}");
    }
    let ran = lent.run_reference(text);
    let input = loading.map_or(String::new(), |times| format!("{:6.2}", shortest.beyond(times).ratio()));
    let (proved, reference) = (shown(shortest.proved), shown(shortest.reference));
    println!("{case:60} {:8} {proved:>12} {reference:>12} {:6.2} {input}", ran.events, shortest.ratio());
    shortest
}

fn shown(time: Duration) -> String {
    format!("{:.1} us", time.as_secs_f64() * 1e6)
}

/// A run's answer and its time.
fn timed(call: impl FnOnce() -> Ran) -> (Ran, Duration) {
    let start = Instant::now();
    let ran = call();
    (ran, start.elapsed())
}
