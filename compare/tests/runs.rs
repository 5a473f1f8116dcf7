//! The proved run and the reference's, on random texts, fuels and rooms.

mod common;

use std::fs;
use std::path::{Path, PathBuf};

use common::{
    answered, any_dead, for_output_texts, for_places_texts, for_texts, for_uses_texts, for_value_texts,
    shown, Numbers, Rows, LONGEST_DEAD,
};
use stage2_compare::run;
use stage2_reference::generate::{pattern, Generator, Size};
use stage2_reference::{
    self as reference, Ran, Rooms, DEAD_ROW, FUEL_LIMIT, NODE_ROW, REPORT_ROOM, STORE_ROOM,
};

/// The sizes that a run is called with.
#[derive(Clone, Copy, Debug)]
struct Sizes {
    nodes: usize,
    dead: usize,
    output: usize,
    second: usize,
    store: usize,
    report: usize,
}

impl Sizes {
    fn with_outputs(output: usize, second: usize) -> Sizes {
        Sizes { nodes: NODE_ROW, dead: DEAD_ROW, output, second, store: STORE_ROOM, report: REPORT_ROOM }
    }

    /// For texts that write to channel 3 alone, which shall need no other room.
    fn with_output(output: usize) -> Sizes {
        Sizes::with_outputs(output, 0)
    }

    /// Rooms that are filled with the pattern.
    fn rooms(self) -> Rooms {
        Rooms {
            output: pattern(self.output),
            second: pattern(self.second),
            store: pattern(self.store),
            report: pattern(self.report),
        }
    }
}

/// A run's answer, with every byte of the rooms.
#[derive(Debug, PartialEq, Eq)]
struct Left {
    ran: Ran,
    rooms: Rooms,
}

impl Left {
    /// What the run wrote to each output.
    fn written(&self) -> [&[u8]; 2] {
        let Left { ran, rooms } = self;
        [&rooms.output[..ran.output as usize], &rooms.second[..ran.second as usize]]
    }

    /// The run's report.
    fn report(&self) -> &str {
        str::from_utf8(&self.rooms.report[..self.ran.report as usize]).unwrap()
    }

    /// Whether each output goes on where that of an earlier run ended.
    fn continues(&self, earlier: &Left) -> bool {
        self.written().iter().zip(earlier.written()).all(|(whole, start)| whole.starts_with(start))
    }
}

/// Runs a text by `run`, with patterns in the rooms.
fn left_by(run: impl FnOnce(&mut Rooms) -> Ran, sizes: Sizes) -> Left {
    let mut rooms = sizes.rooms();
    let ran = run(&mut rooms);
    Left { ran, rooms }
}

/// Runs a text. What lies beyond the lengths in the answer must still be the
/// pattern.
fn run_proved(text: &[u8], fuel: u64, sizes: Sizes, rows: &mut Rows) -> Left {
    let (nodes, dead) = rows.lend(sizes.nodes, sizes.dead);
    let left = left_by(|rooms| run(text, fuel, nodes, dead, rooms), sizes);
    let changed = left.rooms.changed_beyond(&left.ran);
    assert_eq!(changed, None, "fuel {fuel}, {sizes:?}: {}", shown(text));
    left
}

/// Compares both runs of a text; gives what they left.
fn compare(text: &[u8], fuel: u64, sizes: Sizes, rows: &mut Rows) -> Left {
    let left = run_proved(text, fuel, sizes, rows);
    let Sizes { nodes, dead, .. } = sizes;
    let expected = left_by(|rooms| reference::run(text, fuel, nodes, dead, rooms), sizes);
    // The bytes are not printed: there are many.
    assert_eq!(left.ran, expected.ran, "fuel {fuel}, {sizes:?}: {}", shown(text));
    assert_eq!(left.report(), expected.report(), "fuel {fuel}, {sizes:?}: {}", shown(text));
    assert!(left == expected, "bytes, fuel {fuel}, {sizes:?}: {}", shown(text));
    left
}

/// Sizes that are mostly legal.
fn any_sizes(generator: &mut Generator, turn: u64) -> Sizes {
    Sizes {
        nodes: if turn.is_multiple_of(50) { NODE_ROW - 1 } else { NODE_ROW + (turn % 3) as usize * 400 },
        dead: any_dead(turn),
        output: generator.room(),
        second: generator.room(),
        store: if turn % 50 == 1 { STORE_ROOM - 1 } else { STORE_ROOM + (turn % 2) as usize * 100 },
        report: generator.report_room(),
    }
}

/// Runs with random fuels and rooms, and how often each number was answered.
struct Trial {
    rows: Rows,
    numbers: Numbers,
    turn: u64,
}

impl Trial {
    fn new() -> Trial {
        Trial { rows: Rows::up_to(3_000, LONGEST_DEAD), numbers: Numbers::default(), turn: 0 }
    }

    fn compare(&mut self, generator: &mut Generator, text: &[u8]) {
        let (fuel, sizes) = (generator.fuel(), any_sizes(generator, self.turn));
        self.numbers.add(compare(text, fuel, sizes, &mut self.rows).ran.number);
        self.turn += 1;
    }
}

/// Random texts. All of `expected` must be met among the numbers of the answers.
fn compare_random(size: Size, expected: &[u64]) {
    let mut trial = Trial::new();
    for_texts(size, |generator, text| trial.compare(generator, text));
    trial.numbers.assert_met(expected);
}

/// The same for texts about places.
fn compare_places(size: Size, expected: &[u64]) {
    let mut trial = Trial::new();
    for_places_texts(size, |generator, text| trial.compare(generator, text));
    trial.numbers.assert_met(expected);
}

/// The same for texts about uses. One report in ten, at least, must have templates that
/// are used, some that aren't, and lines passed through.
fn compare_uses(size: Size, expected: &[u64]) {
    let mut trial = Trial::new();
    let mut all_kinds = 0;
    for_uses_texts(size, |generator, text| {
        trial.compare(generator, text);
        let left =
            compare(text, generator.fuel().clamp(1, 500), Sizes::with_outputs(999, 999), &mut trial.rows);
        let counts: Vec<&str> = left.report().lines().map(|row| row.split_once(',').unwrap().1).collect();
        let [_, templates @ .., passed] = &counts[..] else { panic!("no report: {}", shown(text)) };
        let used = templates.iter().filter(|&&count| count != "0").count();
        all_kinds += u64::from(used > 1 && used < templates.len() && *passed != "0");
    });
    trial.numbers.assert_met(expected);
    let texts = trial.turn;
    println!("of {texts} texts {all_kinds} used some templates, others not, and passed lines");
    assert!(all_kinds >= texts / 10, "{all_kinds} of {texts}");
}

/// The same for texts about outputs, and then each with rooms of just what it
/// writes, and with a byte less in one of them.
fn compare_outputs(size: Size, expected: &[u64]) {
    let mut trial = Trial::new();
    let (mut outputs, mut seconds) = (0, 0);
    for_output_texts(size, |generator, text| {
        trial.compare(generator, text);
        let [output, second] = compare_edges(text, generator.fuel().clamp(1, 500), &mut trial.rows);
        outputs += u64::from(output > 0);
        seconds += u64::from(second > 0);
    });
    trial.numbers.assert_met(expected);
    let texts = trial.turn;
    println!("of {texts} texts {outputs} wrote to channel 3, {seconds} to channel 4");
    assert!(texts < 1_000 || outputs * 4 > texts && seconds * 5 > texts, "{outputs} {seconds}");
}

/// Rooms of just what a text writes are enough, and one that is a byte shorter is
/// full. Gives the two lengths.
fn compare_edges(text: &[u8], fuel: u64, rows: &mut Rows) -> [usize; 2] {
    let whole = compare(text, fuel, Sizes::with_outputs(8_192, 8_192), rows);
    let [output, second] = whole.written().map(<[u8]>::len);
    let just = compare(text, fuel, Sizes::with_outputs(output, second), rows);
    assert!(just.ran == whole.ran && just.written() == whole.written(), "{output} {second}: {}", shown(text));
    let mut assert_full = |output: usize, second: usize| {
        let left = compare(text, fuel, Sizes::with_outputs(output, second), rows);
        assert_eq!(left.ran.number, 13, "{output} {second}: {}", shown(text));
        assert!(whole.continues(&left), "{output} {second}: {}", shown(text));
    };
    if output > 0 {
        assert_full(output - 1, second);
    }
    if second > 0 {
        assert_full(output, second - 1);
    }
    [output, second]
}

/// Random texts with fuels that lie close together: 1, one event too few, just
/// enough, and more.
struct Fuels {
    rows: Rows,
    texts: u64,
    /// How many spent runs wrote more with more fuel, to each output.
    grown: [u64; 2],
}

impl Fuels {
    fn new() -> Fuels {
        Fuels { rows: Rows::least(), texts: 0, grown: [0; 2] }
    }

    /// More fuel changes nothing of a run that ended, and only adds to the outputs
    /// of a spent one.
    fn compare(&mut self, generator: &mut Generator, text: &[u8]) {
        let sizes = Sizes::with_outputs(generator.room(), generator.room());
        let less = generator.fuel().clamp(1, 2_000);
        let more = less + generator.fuel().clamp(1, 2_000);
        let mut run = |fuel| compare(text, fuel, sizes, &mut self.rows);
        let (first, then) = (run(less), run(more));
        if first.ran.number == 20 {
            assert_eq!(first.ran.events, less, "{}", shown(text));
            assert!(then.continues(&first), "fuels {less} and {more}: {}", shown(text));
            self.grown[0] += u64::from(then.ran.output > first.ran.output);
            self.grown[1] += u64::from(then.ran.second > first.ran.second);
        } else {
            assert!(first == then, "fuels {less} and {more}: {}", shown(text));
        }
        let events = then.ran.events;
        if events > 0 && then.ran.number != 20 {
            assert!(run(events) == then, "fuel {events}: {}", shown(text));
        }
        if events > 1 {
            let short = run(events - 1);
            assert_eq!((short.ran.number, short.ran.events), (20, events - 1), "{}", shown(text));
        }
        run(1);
        self.texts += 1;
    }
}

fn compare_fuels(size: Size) {
    let mut fuels = Fuels::new();
    for_texts(size, |generator, text| fuels.compare(generator, text));
    for_output_texts(size, |generator, text| fuels.compare(generator, text));
    let Fuels { texts, grown, .. } = fuels;
    println!("{grown:?} of {texts} wrote more to each output with more fuel");
    assert!(texts < 1_000 || grown.iter().all(|&count| count * 100 > texts), "{grown:?} of {texts}");
}

/// Bytes on both sides of the ends of the ranges in RFC 3629, section 4.
const EDGES: [u8; 12] = [0x41, 0x7F, 0x80, 0x8F, 0x90, 0x9F, 0xA0, 0xBF, 0xC0, 0xC2, 0xE0, 0xF0];

/// Compares the length, the value and the passes of a row of bytes. The name is
/// stored first, so that the listing shows it after every number.
fn compare_row(bytes: &[u8], rows: &mut Rows) {
    for body in ["!15!F1", "!18!F1", "!10!27\n<!20!23>!F1\n!F8"] {
        let text = [b"$!$!0 (+-*/)\nC:!$\n!F3\n", body.as_bytes(), b"\n$$\nC:", bytes, b"\n"].concat();
        compare(&text, 1_000, Sizes::with_output(100), rows);
    }
}

/// Operands on both sides of the ends of 32 and 64 bits, and of the root of the
/// greatest value. The least value has to be computed.
const OPERANDS: [&str; 18] = [
    "0",
    "1",
    "(-1)",
    "7",
    "2147483647",
    "2147483648",
    "(-2147483648)",
    "(-2147483649)",
    "4294967295",
    "4294967296",
    "3037000499",
    "3037000500",
    "4611686018427387904",
    "9223372036854775806",
    "9223372036854775807",
    "9223372036854775808",
    "(-9223372036854775807)",
    "(-9223372036854775807-1)",
];

/// What is done with an expression: its value written, stored and valued again, a
/// skip and passes by it.
const VALUED: [&str; 4] =
    ["!14!F1", "!14!26\nA!16\n!F3\nA*1!16\n!14!F1", "!F4\nx!F1\ny!F1", "!10!F7\nx!F1\n!F8"];

/// Compares what bodies do with an expression in parameter 1.
fn compare_expression(expression: &str, rows: &mut Rows) {
    for body in VALUED {
        let text = format!("$!$!0 (+-*/)\nV:!$\n{body}\n$$\nV:{expression}\none\ntwo\nthree\n");
        compare(text.as_bytes(), 100, Sizes::with_output(100), rows);
    }
}

/// Compares the four comparisons of two values.
fn compare_sides(a: &str, b: &str, rows: &mut Rows) {
    for function in ["60", "61", "6-", "6+"] {
        let text = format!("$!$!0 (+-*/)\nC:!,!$\n1!36\n!F{function}\nno!F1\nend!F1\n$$\nC:{a},{b}\n");
        compare(text.as_bytes(), 100, Sizes::with_output(100), rows);
    }
}

/// The vectors about the greatest value.
fn greatest_texts() -> Vec<PathBuf> {
    let folder = Path::new(env!("CARGO_MANIFEST_DIR")).join("../vectors/run");
    let mut texts: Vec<PathBuf> = fs::read_dir(folder).unwrap().map(|entry| entry.unwrap().path()).collect();
    texts.retain(|path| {
        let name = path.file_name().unwrap().to_str().unwrap();
        name.contains("greatest") && name.ends_with(".text")
    });
    texts
}

/// 01's session.
const SESSION: &[u8] = b"$!$!0 (+-*/)\nNAME !$\n!10!F1$\n$\nNAME !&amp;!$\nNAME !10&!20$\n$$\n\
    NAME Kern &amp; Co$\nplain$\n";

/// Writes 11 bytes to channel 3, and 8 to channel 4: by function 1 and by a copy.
const BOTH: &[u8] = b"$!$!0 (+-*/)\nNAME !$\n!10!F1$\n.!10!F14$\n$\nCSS !$\n!F24$\n$$\n\
    NAME Kern$\nCSS END$\na$\nEND$\nplain$\n";

/// Compares runs of a text for both outputs, with rooms of every kind for the report. No
/// room of an output gives 1.
fn compare_sizes(sizes: Sizes, rows: &mut Rows) {
    for report in [0, 2_047, 2_048, 2_049, 70_000] {
        let sizes = Sizes { report, ..sizes };
        let left = compare(BOTH, FUEL_LIMIT, sizes, rows);
        let rows_legal = sizes.nodes >= 2_048 && sizes.dead >= 51_456;
        let number = match (sizes.output, sizes.second) {
            _ if !rows_legal || sizes.store < 8_704 || report < 2_048 => 1,
            (11.., 8..) => 0,
            _ => 13,
        };
        assert_eq!(left.ran.number, number, "{sizes:?}");
    }
}

/// Input lines for copies that E and EF stop: lines that stop both, one or none,
/// empty ones, one that would be a call, and such as are at the limit and past it.
fn copied_lines() -> Vec<String> {
    let long = |start: &str, length| format!("{start:x<length$}\n");
    let mut lines = ["", "E", "EF", "a", "a$EF", "$EF", "CE"].map(|line| format!("{line}\n")).to_vec();
    lines.extend([long("", 200), long("", 201), long("E", 201), long("EF", 201)]);
    lines
}

/// All inputs of at most three of these lines.
fn copied_inputs() -> Vec<String> {
    let mut inputs = vec![String::new()];
    let mut longest = inputs.clone();
    for _ in 0..3 {
        let lines = copied_lines();
        longest =
            longest.iter().flat_map(|input| lines.iter().map(move |line| format!("{input}{line}"))).collect();
        inputs.extend_from_slice(&longest);
    }
    inputs
}

/// Compares runs of all these inputs behind a call, in rooms that have enough for
/// all lines, for the short ones, and for just one long one.
fn compare_copies(code: &str, rows: &mut Rows) {
    for input in copied_inputs() {
        for stop in ["E", "EF", ""] {
            let text = format!("$!$!0 (+-*/)\nC!$\n{code}\n.!F14\n$$\nC{stop}\n{input}");
            for room in [1_000, 5, 203] {
                compare(text.as_bytes(), 100, Sizes::with_outputs(room, room), rows);
            }
        }
    }
}

/// Stores a name, and would make more passes than any fuel allows.
const ENDLESS: &[u8] = b"$!$!0 (+-*/)\nGO!$\n1000!F7\n1000!F7\n!12!36\n!F8\n!F8\n$$\nGOname\n";

#[test]
fn small_texts() {
    compare_random(Size::Small, &[0, 1, 3, 4, 5, 6, 7, 8, 11, 12, 13, 14, 15, 16, 17, 18, 20, 21]);
}

#[test]
fn large_texts() {
    compare_random(Size::Large, &[0, 1, 2, 3, 4, 5, 6, 7, 8, 9, 11, 12, 13, 14, 15, 16, 17, 18, 19, 20, 21]);
}

#[test]
fn fuels_of_small_texts() {
    compare_fuels(Size::Small);
}

#[test]
fn fuels_of_large_texts() {
    compare_fuels(Size::Large);
}

#[test]
fn fuels_at_the_limits() {
    let mut rows = Rows::least();
    for fuel in [0, 1, 2, 4, 5, 6, 999_999, FUEL_LIMIT, FUEL_LIMIT + 1, 1 << 32, u64::MAX] {
        for text in [SESSION, BOTH, ENDLESS, b""] {
            let left = compare(text, fuel, Sizes::with_outputs(1_000, 1_000), &mut rows);
            let legal = (1..=FUEL_LIMIT).contains(&fuel);
            assert_eq!(left.ran.number == 1, !legal, "fuel {fuel}");
            if text == ENDLESS && legal {
                assert_eq!((left.ran.number, left.ran.events), (20, fuel), "fuel {fuel}");
            }
        }
    }
}

#[test]
fn sizes_of_every_kind() {
    let mut rows = Rows::up_to(70_000, 70_000);
    for nodes in [0, 2_047, 2_048, 2_049, 65_535, 65_536, 70_000] {
        for dead in [0, 51_455, 51_456, 51_457, 70_000] {
            for store in [0, 8_703, 8_704, 8_705, 70_000] {
                for output in [0, 4, 5, 10, 11, 70_000] {
                    for second in [0, 5, 6, 7, 8, 70_000] {
                        let sizes = Sizes { nodes, dead, store, ..Sizes::with_outputs(output, second) };
                        compare_sizes(sizes, &mut rows);
                    }
                }
            }
        }
    }
}

#[test]
fn rows_of_one_and_two_bytes() {
    let mut rows = Rows::least();
    for a in 0..=255 {
        compare_row(&[a], &mut rows);
        for b in 0..=255 {
            compare_row(&[a, b], &mut rows);
        }
    }
}

#[test]
fn rows_of_three_and_four_bytes() {
    let mut rows = Rows::least();
    for a in 0xC0..=0xFF {
        for b in EDGES {
            for c in EDGES {
                compare_row(&[a, b, c], &mut rows);
                if a >= 0xEF {
                    EDGES.iter().for_each(|&d| compare_row(&[a, b, c, d], &mut rows));
                }
            }
        }
    }
}

#[test]
fn texts_about_values() {
    let mut rows = Rows::least();
    let mut numbers = Numbers::default();
    for_value_texts(|generator, text| {
        let (fuel, room) = (generator.fuel().clamp(1, 2_000), generator.room());
        numbers.add(compare(text, fuel, Sizes::with_output(room), &mut rows).ran.number);
    });
    numbers.assert_met(&[0, 13, 15, 18, 20]);
}

#[test]
fn small_texts_about_places() {
    compare_places(Size::Small, &[0, 1, 12, 13, 20]);
}

#[test]
fn large_texts_about_places() {
    compare_places(Size::Large, &[0, 1, 5, 6, 11, 12, 13, 14, 20]);
}

#[test]
fn small_texts_about_outputs() {
    compare_outputs(Size::Small, &[0, 1, 7, 11, 13, 20]);
}

#[test]
fn large_texts_about_outputs() {
    compare_outputs(Size::Large, &[0, 1, 7, 11, 13, 18, 20]);
}

#[test]
fn small_texts_about_uses() {
    compare_uses(Size::Small, &[0, 1, 11, 13, 14, 18, 20, 21]);
}

#[test]
fn large_texts_about_uses() {
    compare_uses(Size::Large, &[0, 1, 11, 13, 14, 18, 20, 21]);
}

/// Compares runs with all the fuel, and the report with these rows, which stand here in
/// one line.
fn compare_report(text: &str, output: usize, end: [u64; 3], rows: &str) {
    let left = compare(text.as_bytes(), FUEL_LIMIT, Sizes::with_output(output), &mut Rows::least());
    let ran = left.ran;
    assert_eq!([ran.number, ran.line, ran.events], end, "{rows}");
    assert_eq!(left.report(), format!("template,calls\n{}\n", rows.replace(' ', "\n")));
}

/// A template that is called once, and one that is called in so many passes.
#[test]
fn counts_of_every_length() {
    for calls in [0, 1, 9, 10, 11, 99, 100, 999, 1_000, 9_999, 10_000, 99_999, 100_000, 333_332] {
        let text = format!("$!$!0 (+-*/)\nGO$\n{calls}!F7\nA\n!F8\n$\nA$\n$$\nGO\n");
        compare_report(&text, 0, [0, 9, 2 + 3 * calls], &format!("2,1 7,{calls} 0,0"));
    }
}

/// As many lines offered as can be, nearly: empty ones, of which 64,823 are input lines,
/// and each of the others, in a body of 683, takes two events. All are passed through.
#[test]
fn the_greatest_count() {
    let (built, input) = ("\n".repeat(683), "\n".repeat(64_823));
    let text = format!("$!$!0 (+-*/)\nG\n999!F7\n{built}!F8\n$$\n{input}G");
    assert_eq!(text.len(), 65_536);
    compare_report(&text, 600_000, [20, 65_512, 1_000_000], "2,1 0,532068");
}

/// The second template stands at every line that it can.
#[test]
fn lines_of_every_length() {
    for codes in 0..=1_024 {
        let text = format!("$!$!0 (+-*/)\nA$\n{}$\nB$\n$$\nB\nx\n", "\n".repeat(codes));
        let line = codes as u64 + 4;
        compare_report(&text, 10, [0, line + 3, 2], &format!("2,0 {line},1 0,1"));
    }
}

/// So many templates, in an order that is not the tree's, of which every eleventh is not
/// called and the others up to ten times.
#[test]
fn every_number_of_templates() {
    for templates in 1..=128 {
        let place = |at: usize| at * 67 % 128;
        let calls = |at: usize| at % 11;
        let section: Vec<String> = (0..templates).map(|at| format!("M{}.$\n", place(at))).collect();
        let input: String = (0..templates).map(|at| format!("M{}.\n", place(at)).repeat(calls(at))).collect();
        let text = format!("$!$!0 (+-*/)\n{}$$\n{input}M\n", section.join("$\n"));
        let offered = 1 + (0..templates).map(calls).sum::<usize>();
        let end = 1 + 2 * templates + offered;
        let rows: String = (0..templates).map(|at| format!("{},{} ", 2 + 2 * at, calls(at))).collect();
        compare_report(&text, 10, [0, end as u64, offered as u64], &(rows + "0,1"));
    }
}

#[test]
fn copies_of_every_kind() {
    let mut rows = Rows::least();
    for code in ["!F2", "!F23", "!F24", "!F20", "!F2 4", "2!F7\n!F24\n!F8"] {
        compare_copies(code, &mut rows);
    }
}

/// Function 1, in a line and with a layout, and function 2 before every byte.
#[test]
fn digits_of_every_kind() {
    let mut rows = Rows::least();
    // No byte 0 and no end of the line.
    for byte in (1..=255).filter(|byte| ![b'\n', b'$'].contains(byte)) {
        for code in [&b"x!F1"[..], b"!F1", b"!F2", b"x!F2"] {
            let text = [b"$!$!0 (+-*/)\nC!$\n", code, &[byte], b"\n1.1\n$$\nCE\na\nE\n"].concat();
            let number = compare(&text, 100, Sizes::with_outputs(100, 100), &mut rows).ran.number;
            let malformed = b"1256789".contains(&byte) || code == b"x!F2";
            assert_eq!(number, if malformed { 7 } else { 0 }, "{}", shown(&text));
        }
    }
}

#[test]
fn steps_and_comparisons_at_the_ends() {
    let mut rows = Rows::least();
    for a in OPERANDS {
        compare_expression(&format!("-{a}"), &mut rows);
        for b in OPERANDS {
            for operator in ["+", "-", "*", "/"] {
                compare_expression(&format!("{a}{operator}{b}"), &mut rows);
            }
            compare_sides(a, b, &mut rows);
        }
    }
}

/// A skip costs what it passes over, and passes cost their events, whatever the
/// value. A run that counts the value down would never answer.
#[test]
fn the_greatest_value_takes_no_time_of_its_own() {
    let texts = greatest_texts();
    assert!(texts.len() > 5);
    for path in texts {
        let (text, out) = (fs::read(&path).unwrap(), fs::read_to_string(path.with_extension("out")).unwrap());
        println!("{}", path.display());
        let ran =
            answered(move || compare(&text, FUEL_LIMIT, Sizes::with_output(65_536), &mut Rows::least()).ran);
        let end = format!("END {} {} {}", ran.number, ran.line, ran.events);
        assert_eq!(end, out.lines().last().unwrap(), "{}", path.display());
    }
}

#[test]
fn texts_of_the_greatest_length() {
    for length in [65_535, 65_536, 65_537] {
        let mut text = SESSION.to_vec();
        text.resize(length, b'\n');
        compare(&text, FUEL_LIMIT, Sizes::with_output(70_000), &mut Rows::least());
    }
}
