//! Writes a module of equations for the proof checker: what the definitions of
//! document 01 give on random small texts, claimed to be what the reference gives.
//!
//!     equations SEED FIRST COUNT SPECS
//!
//! writes texts FIRST to FIRST + COUNT - 1 of the seed; SPECS is the folder of
//! the definitions, from which the names to unfold are read.

use stage2_reference::generate::{Generator, Size};
use stage2_reference::Rooms;
use std::fmt::{Display, Write};

const NODES: usize = 2048;
const DEAD: usize = 51456;
const STORE: usize = 8704;
const REPORT: usize = 2048;

/// Of so many texts one each is about characters, about outputs, about uses, about
/// values, about places and about brackets, beside those that any text may hold.
const ROUND: u64 = 13;

/// Where these six stand in a round.
const CHARACTERS: u64 = 0;
const OUTPUTS: u64 = 3;
const USES: u64 = 4;
const VALUES: u64 = 6;
const PLACES: u64 = 9;
const BRACKETS: u64 = 12;

/// One text of so many has too short a row of dead places, another one too short a
/// room for the report.
const SHORT_ROW: u64 = 41;

fn main() {
    let words: Vec<String> = std::env::args().collect();
    if words.len() != 5 {
        println!("equations SEED FIRST COUNT SPECS");
        return;
    }
    let number = |k: usize| words[k].parse::<u64>().expect("a number");
    let (seed, first, count) = (number(1), number(2), number(3));
    let (uses, unfolds) = names(&words[4]);
    println!("-- What the definitions give on random texts, by computation.");
    println!("use Rattle.std.specs.Prelude.{{◌≡◌, [], ◌∷◌}}");
    println!("use Rattle.std.proofs.Common.{{refl}}");
    print!("{uses}");
    for k in first..first + count {
        let mut generator = Generator::new(seed.wrapping_mul(1_000_003).wrapping_add(k));
        print!("{}", equations(k, &mut generator, &unfolds));
    }
}

/// The three equations of one text.
fn equations(k: u64, generator: &mut Generator, unfolds: &str) -> String {
    let case = Case::any(k, generator);
    let mut page = String::new();
    for (name, left, right) in [case.check(), case.fit(), case.run()] {
        write!(page, "\n{name}{k} : {left} ≡ {right}\nunfolding {unfolds}\n{name}{k} = refl\n")
            .expect("a string takes all text");
    }
    page
}

/// What the three calls are given.
struct Case {
    text: Vec<u8>,
    line: Vec<u8>,
    fuel: u64,
    room: usize,
    second_room: usize,
    dead: usize,
    report: usize,
}

/// The name of an equation and its two sides.
type Equation = (&'static str, String, String);

impl Case {
    fn any(k: u64, generator: &mut Generator) -> Case {
        let text = match k % ROUND {
            CHARACTERS => generator.character_text(),
            OUTPUTS => generator.output_text(Size::Small),
            USES => generator.uses_text(Size::Small),
            VALUES => generator.value_text(),
            PLACES => generator.places_text(Size::Small),
            BRACKETS => generator.brackets_text(Size::Small),
            _ => generator.text(Size::Small),
        };
        Case {
            line: generator.line(&text, Size::Small),
            fuel: generator.fuel().clamp(1, 60),
            room: generator.room().min(400),
            second_room: generator.room().min(400),
            dead: if k % SHORT_ROW == 1 { DEAD - 1 } else { DEAD },
            report: if k % SHORT_ROW == 2 { REPORT - 1 } else { REPORT },
            text,
        }
    }

    fn check(&self) -> Equation {
        let checked = stage2_reference::check(&self.text, NODES);
        let right = format!("record {{ number = {}; line = {} }}", checked.number, checked.line);
        ("check", format!("check_text {NODES} {}", list(&self.text)), right)
    }

    fn fit(&self) -> Equation {
        let fitted = stage2_reference::fit(&self.text, NODES, self.dead, &self.line);
        let right = format!(
            "record {{ number = {}; line = {}; start = {}; length = {}; places = {}; bytes = {} }}",
            fitted.number,
            fitted.line,
            list(&fitted.start),
            list(&fitted.length),
            fitted.places,
            fitted.bytes
        );
        let left = format!("fit_of_line {NODES} {} {} {}", self.dead, list(&self.text), list(&self.line));
        ("fit", left, right)
    }

    fn run(&self) -> Equation {
        let Case { fuel, room, second_room, dead, report, .. } = *self;
        let mut rooms = Rooms { report: vec![0; report], ..Rooms::with_outputs(room, second_room) };
        let ran = stage2_reference::run(&self.text, fuel, NODES, dead, &mut rooms);
        let written = rooms.written(&ran);
        let right = format!(
            "record {{ number = {}; line = {}; events = {}; output = {}; store = {}; report = {} }}",
            ran.number,
            ran.line,
            ran.events,
            both(list(&written.output), list(&written.second)),
            list(&written.store),
            list(&written.report)
        );
        let outputs = both(room, second_room);
        let left = format!("run_text {fuel} {NODES} {dead} {outputs} {STORE} {report} {}", list(&self.text));
        ("run", left, right)
    }
}

/// What both outputs have, as a record of the checker's.
fn both<T: Display>(first: T, second: T) -> String {
    format!("(record {{ first = {first}; second = {second} }})")
}

/// Numbers as a list of the checker's.
fn list<T: Copy + Into<u64>>(items: &[T]) -> String {
    let mut shown = String::from("(");
    for &item in items {
        let value: u64 = item.into();
        write!(shown, "{value} ∷ ").expect("a string takes all text");
    }
    shown + "[])"
}

/// The modules of the definitions that the equations compute.
const MODULES: [&str; 12] = [
    "Text", "Utf8", "Reading", "Code", "Store", "Value", "Load", "Report", "Machine", "Parts", "Places",
    "Results",
];

/// The `use` lines for all definitions, and the names that the equations unfold.
fn names(specs: &str) -> (String, String) {
    let (mut uses, mut unfolds) = (String::new(), Vec::new());
    for module in MODULES {
        let source =
            std::fs::read_to_string(format!("{specs}/{module}.antt")).expect("the definitions can be read");
        let found: Vec<&str> = source.lines().filter_map(|line| unfoldable(&source, line)).collect();
        writeln!(uses, "use Rattle.model.specs.{module}.{{{}}}", found.join(", "))
            .expect("a string takes all text");
        unfolds.extend(found.iter().map(|name| name.to_string()));
    }
    (uses, unfolds.join(" "))
}

/// The name that a line of a module declares, if it can be unfolded. A declaration
/// may be indented: in a module with arguments, and in a mutual block.
fn unfoldable<'a>(source: &str, line: &'a str) -> Option<&'a str> {
    let rest = line.trim_start();
    let marked = rest.strip_prefix("unfoldable pub ");
    let (name, _) = marked.or(line.strip_prefix("  pub "))?.split_once(" :")?;
    (marked.is_some() || is_mutual(source, name)).then_some(name)
}

/// A member of a mutual block is indented, and has clauses as indented as its type.
fn is_mutual(source: &str, name: &str) -> bool {
    source.contains("unfoldable mutual") && source.contains(&format!("\n  {name} ("))
}
