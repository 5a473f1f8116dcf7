//! Writes the vectors that stand at a limit and one past it, those whose lines would
//! keep a search busy that takes up places again, and those with long reports.
//!
//! They are too long to write by hand. What each of them gives is worked out
//! here from document 01 and not taken from the library, so that the library
//! can be compared with it.

use std::path::Path;
use std::process::ExitCode;
use std::{env, fs, io};

const FLAG: &str = "$!$!0 (+-*/)\n";

/// A text and what `expand` writes for it; with room for channel 4 where that has
/// a file too, and with the usage report where it has one.
struct Vector {
    name: String,
    text: String,
    out: String,
    second: Option<String>,
    report: Option<String>,
}

impl Vector {
    /// Gives it a report with these rows, which stand here in one line.
    fn reporting(&mut self, rows: &str) {
        self.report = Some(format!("template,calls\n{}\n", rows.replace(' ', "\n")));
    }
}

fn main() -> ExitCode {
    let Some(folder) = env::args().nth(1) else {
        println!("limits: give the folder to write to");
        return ExitCode::FAILURE;
    };
    match vectors().iter().try_for_each(|vector| write(Path::new(&folder), vector)) {
        Ok(()) => ExitCode::SUCCESS,
        Err(_) => {
            println!("limits: {folder} cannot be written to");
            ExitCode::FAILURE
        }
    }
}

fn write(folder: &Path, vector: &Vector) -> io::Result<()> {
    let file = |ending| folder.join(format!("{}.{ending}", vector.name));
    fs::write(file("text"), &vector.text)?;
    fs::write(file("out"), &vector.out)?;
    vector.second.iter().try_for_each(|second| fs::write(file("second"), second))?;
    vector.report.iter().try_for_each(|report| fs::write(file("report"), report))
}

fn vectors() -> Vec<Vector> {
    let mut all = Vec::new();
    contents(&mut all);
    texts(&mut all);
    counts(&mut all);
    nodes(&mut all);
    nesting(&mut all);
    built_lines(&mut all);
    names(&mut all);
    memory(&mut all);
    output(&mut all);
    fuel(&mut all);
    separators(&mut all);
    copies(&mut all);
    copies_into_full_rooms(&mut all);
    both_outputs(&mut all);
    reports(&mut all);
    all
}

/// Adds a vector; `body` is what follows the flag line.
fn add<'a>(all: &'a mut Vec<Vector>, name: &str, body: String, out: String) -> &'a mut Vector {
    let text = FLAG.to_string() + &body;
    all.push(Vector { name: name.to_string(), text, out, second: None, report: None });
    all.last_mut().expect("it was added")
}

/// Adds a vector with what is written to channel 4.
fn add_both(all: &mut Vec<Vector>, name: &str, body: String, out: String, second: String) {
    add(all, name, body, out).second = Some(second);
}

/// The output's last line.
fn end(number: u64, line: u64, events: u64) -> String {
    format!("END {number} {line} {events}\n")
}

fn contents(all: &mut Vec<Vector>) {
    let row = |byte: &str, count: usize| byte.repeat(count);

    let template = |count| format!("{0}$ ignored\nfits!F1\n$$\n{0}$ ignored\n", row("A", count));
    add(all, "limit-template-200", template(200), "fits\n".to_string() + &end(0, 5, 2));
    add(all, "number-04-template-201", template(201), end(4, 2, 0));

    // The content is the row and the three bytes of the function.
    let code = |count: usize| format!("T$\n{}!F1$ ignored\n$$\nT\n", row("A", count - 3));
    add(all, "limit-code-200", code(200), row("A", 197) + "\n" + &end(0, 5, 2));
    add(all, "number-04-code-201", code(201), end(4, 3, 0));
    let malformed = format!("T$\n{}!!\n$$\n", row("A", 199));
    add(all, "number-04-code-201-and-malformed", malformed, end(4, 3, 0));

    let layout = |count| format!("T$\n!F1\n{}$ ignored\n$$\nT\n", row("A", count));
    add(all, "limit-layout-200", layout(200), row("A", 200) + "\n" + &end(0, 6, 2));
    add(all, "number-04-layout-201", layout(201), end(4, 4, 0));

    let input = |count| format!("T$\n$$\nfirst\n{}$ ignored\nlast\n", row("x", count));
    let written = format!("first\n{}\nlast\n", row("x", 200));
    add(all, "limit-input-200", input(200), written + &end(0, 6, 3));
    // The long line is not offered.
    let too_long = "first\n".to_string() + &end(11, 5, 1);
    add(all, "number-11-input-201", input(201), too_long).reporting("2,0 0,1");

    // Limits count bytes: 100 characters of two bytes are a content of 200.
    let accents = |count| format!("!$\n!15!F1\n$$\n{}\n", row("é", count));
    add(all, "limit-input-200-in-100-characters", accents(100), "100\n".to_string() + &end(0, 5, 2));
    add(all, "number-11-input-202-in-101-characters", accents(101), end(11, 5, 0));

    let dropped = format!("S:!$\n!F4\n$$\nS:1\n{}\nlast\n", row("x", 201));
    add(all, "limit-input-201-dropped", dropped, "last\n".to_string() + &end(0, 7, 3));
}

fn texts(all: &mut Vec<Vector>) {
    // The padding lies behind the source end mark of the only input line.
    let text = |size: usize| {
        let start = "T$\n$$\nline$";
        start.to_string() + &"x".repeat(size - FLAG.len() - start.len())
    };
    add(all, "limit-text-65536", text(65_536), "line\n".to_string() + &end(0, 4, 1));
    // Without a run the report's file stays empty.
    add(all, "number-02-text-65537", text(65_537), end(2, 0, 0)).report = Some(String::new());
}

fn counts(all: &mut Vec<Vector>) {
    // Two lines a macro, so template n has line 2n; the last ends the section.
    let macros = |count: usize| {
        let bodies: String = (1..count).map(|n| format!("M{n}$\n$\n")).collect();
        format!("{bodies}M{count}$\n$$\nM{count}\n")
    };
    add(all, "limit-macros-128", macros(128), end(0, 258, 1));
    add(all, "number-09-macros-129", macros(129), end(9, 258, 0));
    let unended: String = (1..=129).map(|n| format!("M{n}$\n$\n")).collect();
    let on_last_line = unended.trim_end_matches("$\n").to_string() + "$\n";
    add(all, "number-08-beats-09-on-the-last-line", on_last_line, end(8, 258, 0));

    let code = |count: usize| format!("A$\n!F9\n{}$$\nA\n", "\n".repeat(count - 1));
    add(all, "limit-code-lines-1024", code(1_024), end(0, 1_028, 2));
    add(all, "number-09-code-lines-1025", code(1_025), end(9, 1_027, 0));

    let layouts = |first: &str| format!("A$\n{first}{}$$\nA\n", "!F1\nx\n".repeat(512));
    let written = "x\n".repeat(512);
    add(all, "limit-code-lines-1024-with-layouts", layouts(""), written + &end(0, 1_028, 513));
    add(all, "number-09-code-lines-1025-with-layouts", layouts("x\n"), end(9, 1_027, 0));

    // The count runs over all bodies: 600 and then 424 or 425 code lines.
    let two = |second: usize| format!("A$\n{}$\nB$\n{}$$\n", "\n".repeat(600), "\n".repeat(second));
    add(all, "limit-code-lines-1024-of-two-macros", two(424), end(0, 1_029, 0));
    add(all, "number-09-code-lines-1025-of-two-macros", two(425), end(9, 1_029, 0));
}

fn nodes(all: &mut Vec<Vector>) {
    // The root, and ten templates of 200 bytes and an end: 2,011 nodes.
    let ten: String = (b'A'..=b'J').map(|byte| (byte as char).to_string().repeat(200) + "$\n$\n").collect();
    let last = |count: usize| format!("{ten}{0}$\n$$\n{0}\n", "K".repeat(count));
    add(all, "limit-nodes-2048", last(36), end(0, 24, 1));
    add(all, "number-09-nodes-2049", last(37), end(9, 22, 0));

    // A template that shares 199 bytes adds its last byte and its end.
    let shared = |count: usize| format!("{ten}{}B$\n$\n{}$\n$$\n", "A".repeat(199), "K".repeat(count));
    add(all, "limit-nodes-2048-with-a-shared-beginning", shared(34), end(0, 25, 0));
    add(all, "number-09-nodes-2049-with-a-shared-beginning", shared(35), end(9, 24, 0));

    // A template that is another's beginning adds its end alone.
    let beginning = |count: usize| format!("{ten}{}$\n$\n{}$\n$$\n", "A".repeat(100), "K".repeat(count));
    add(all, "limit-nodes-2048-with-a-beginning", beginning(35), end(0, 25, 0));
    add(all, "number-09-nodes-2049-with-a-beginning", beginning(36), end(9, 24, 0));

    let nine = "!!!!!!!!!$\n!10,!20,!30,!40,!50,!60,!70,!80,!90!F1\n$$\nABC\n";
    add(all, "limit-placeholders-9", nine.to_string(), ",,,,,,,,ABC\n".to_string() + &end(0, 5, 2));
}

fn nesting(all: &mut Vec<Vector>) {
    // Four iterations of one pass, in a call and in the call it makes.
    let body = |inner: &str| "1!F7\n".repeat(3) + "A!27,\n" + inner + &"!F8\n".repeat(4);
    let nested = format!("O$\n{}$\nI$\n{}$$\nO\n", body("I\n"), body("x!F1\n"));
    add(all, "limit-nesting-4-in-each-call", nested, "x\n".to_string() + &end(0, 24, 20));

    // Each call offers the next template's line; the last writes.
    let calls = |count: usize| {
        let chain: String = (1..count).map(|n| format!("C{n}.$\nC{}.\n$\n", n + 1)).collect();
        format!("{chain}C{count}.$\nx!F1\n$$\nC1.\n")
    };
    // Three lines a macro; each template is chosen once, the thirteenth too, which opens no call.
    let chosen = |count: usize| (1..=count).map(|n| format!("{},1 ", 3 * n - 1)).collect::<String>() + "0,0";
    add(all, "limit-calls-12", calls(12), "x\n".to_string() + &end(0, 38, 24)).reporting(&chosen(12));
    add(all, "number-14-calls-13", calls(13), end(14, 41, 25)).reporting(&chosen(13));
}

fn built_lines(all: &mut Vec<Vector>) {
    let text = |code: &str| format!("D:!$\n{code}\n$$\nD:{}\n", "A".repeat(100));
    let row = "A".repeat(200) + "\n";
    add(all, "limit-built-200", text("!10!10!F1"), row.clone() + &end(0, 5, 2));
    add(all, "limit-built-200-offered", text("!10!10"), row + &end(0, 5, 3));
    add(all, "number-12-built-201", text("!10!10x!F1"), end(12, 5, 2));
    add(all, "number-12-built-201-offered", text("!10!10x"), end(12, 5, 2)).reporting("2,1 0,0");
    add(all, "number-12-before-the-functions-cause", text("!10!10/!F7\n!F8"), end(12, 6, 2));
    add(all, "number-12-before-a-later-conversion", text("!10!10x!98"), end(12, 5, 2));
    add(all, "number-15-before-bytes-that-would-give-12", text("!10!14x!10"), end(15, 5, 2));
}

fn names(all: &mut Vec<Vector>) {
    // Parameter 2 counts the passes; each stores it under the name `n+1`. The
    // last line of the body replaces a text, which needs no further name.
    let stored = |count: u64| {
        format!("N:!$\n0!26\n!10!F7\n!20+1!16\n!14!26\n!F3\n!F8\n0+1!16\n!F3\n!11!F1\n$$\nN:{count}\n")
    };
    // Offer, two lines, four lines a pass, three lines.
    let fits = "256\n".to_string() + &end(0, 13, 3 + 4 * 256 + 3);
    add(all, "limit-names-256", stored(256), fits);
    add(all, "number-19-names-257", stored(257), end(19, 13, 3 + 4 * 256 + 3)).reporting("2,1 0,0");

    let numbered =
        |count: u64| format!("N:!$\n0!26\n!10!F7\n!20+1!16\n!14!26\n!12!36\n!F8\n<!32>!F1\n$$\nN:{count}\n");
    add(all, "number-19-names-257-by-conversion-2", numbered(257), end(19, 11, 3 + 4 * 256 + 3));
    // The loop's numbers 1 to 255, and then one for the empty name.
    let fits = "<256>\n".to_string() + &end(0, 11, 3 + 4 * 255 + 1);
    add(all, "limit-names-256-by-conversion-2", numbered(255), fits);
}

fn memory(all: &mut Vec<Vector>) {
    // 41 names of 3 bytes with texts of 194 bytes are 8,077 bytes; a name of 3
    // and a text of 112 fill memory.
    let row = |byte: &str, count: usize| byte.repeat(count);
    let start: String = (10..51).map(|n| format!("S:a{n}={}\n", row("x", 194))).collect();
    let text = |rest: String| format!("S:!=!$\n!F3\n$$\n{start}{rest}");
    let replaced = format!("S:b10={}\nS:a10={}\n", row("x", 112), row("y", 194));
    add(all, "limit-memory-8192", text(replaced), end(0, 47, 86));
    add(all, "number-19-memory-8193", text(format!("S:b10={}\n", row("x", 113))), end(19, 46, 84));
    let longer = format!("S:b10={}\nS:b10={}\n", row("x", 112), row("y", 113));
    add(all, "number-19-memory-8193-by-a-replaced-text", text(longer), end(19, 47, 86));
    let name = format!("S:b10x={}\n", row("x", 112));
    add(all, "number-19-memory-8193-by-a-name", text(name), end(19, 46, 84));
}

fn output(all: &mut Vec<Vector>) {
    // 512 lines of 127 bytes and byte 10 fill the room of 65,536.
    let line = "A".repeat(127);
    let text = |rest: &str| format!("T$\n512!F7\n{line}!F1\n!F8\ndropped!F10\n$$\nT\n{rest}");
    let written = (line.clone() + "\n").repeat(512);
    let events = 1 + 1 + 2 * 512 + 1;
    add(all, "limit-output-65536", text(""), written.clone() + &end(0, 8, events));
    // The line that lacks room is decided, and counts.
    let full = written + &end(13, 9, events + 1);
    add(all, "number-13-no-room-for-byte-10", text("\n"), full).reporting("2,1 0,1");

    // 508 lines of 129 bytes leave four bytes, of which none is written.
    let long = "A".repeat(128);
    let cut = format!("T$\n512!F7\n{long}!F1\n!F8\n$$\nT\n");
    // Function 1 offers nothing.
    let full = (long + "\n").repeat(508) + &end(13, 7, 2 + 2 * 508 + 1);
    add(all, "number-13-no-room-in-a-body", cut, full).reporting("2,1 0,0");

    // A built line without a reading: its code line is begun, and then it is offered.
    let built = format!("T$\n512!F7\n{line}!F1\n!F8\nx\n$$\nT\n");
    let full = (line + "\n").repeat(512) + &end(13, 8, 2 + 2 * 512 + 2);
    add(all, "number-13-no-room-for-a-built-line", built, full).reporting("2,1 0,1");
}

fn fuel(all: &mut Vec<Vector>) {
    // The offer, the opening line, and an event for each pass.
    let text = |passes: u64, rest: &str| format!("T$\n{passes}!F7\n!F8\n$$\nT\n{rest}");
    add(all, "limit-fuel-used-exactly", text(999_998, ""), end(0, 6, 1_000_000)).reporting("2,1 0,0");
    add(all, "number-20-one-event-more", text(999_999, ""), end(20, 6, 1_000_000)).reporting("2,1 0,0");
    // The line beyond the fuel is not offered, and not counted; the one before is both.
    let beyond = end(20, 7, 1_000_000);
    add(all, "number-20-at-the-next-input-line", text(999_998, "x\n"), beyond.clone()).reporting("2,1 0,0");
    let last = "x\n".to_string() + &end(0, 7, 1_000_000);
    add(all, "limit-fuel-used-exactly-by-a-passed-line", text(999_997, "x\n"), last).reporting("2,1 0,1");
    let long = "x".repeat(201) + "\n";
    let too_long = end(11, 7, 1_000_000);
    add(all, "number-11-before-number-20", text(999_998, &long), too_long).reporting("2,1 0,0");
    let offered = "T$\n999997!F7\n!F8\nx\n$$\nT\n".to_string();
    add(all, "number-20-at-a-built-line", offered, beyond).reporting("2,1 0,0");
    // The copy is one event, whatever it copies.
    let copy = |passes: u64, rest: &str| format!("T !$\n{passes}!F7\n!F8\n!F2\n$$\nT .\na\nb\n.\n{rest}");
    let copied = |end: String| "a\nb\n".to_string() + &end;
    add(all, "limit-fuel-used-exactly-by-a-copy", copy(999_997, ""), copied(end(0, 10, 1_000_000)));
    add(all, "number-20-after-a-copy", copy(999_997, "c\n"), copied(end(20, 11, 1_000_000)));
    add(all, "number-20-before-a-copy", copy(999_998, ""), end(20, 7, 1_000_000));
}

fn separators(all: &mut Vec<Vector>) {
    let row = |count: usize| "a".repeat(count);

    // Without a b no line fits. With one at its end the last piece has what the
    // eight separators leave.
    let lines = (row(200) + "\n").repeat(100);
    let nowhere = format!("!a!a!a!a!a!a!a!a!b$\n<!10>!90!F1\n$$\n{lines}{}b\n", row(199));
    let written = format!("{lines}<>{}\n", row(191));
    add(all, "fitting-equal-separators-nowhere", nowhere, written + &end(0, 105, 102));

    // The second template needs the longest of all first pieces. Its line is an
    // input line of 200 bytes, and then a built line of 199.
    let last = "!a!a!a!a!a!a!a!a!c$\n$\n!ab!!!!!!!!$\n!15!F1\n$\nD:!$\n!10!10b\n$$\n";
    let input = format!("{}b\nD:{}\n", row(199), row(99));
    let out = "198\n197\n".to_string() + &end(0, 11, 6);
    add(all, "fitting-equal-separators-at-the-last-place", last.to_string() + &input, out);
}

fn copies(all: &mut Vec<Vector>) {
    let row = |byte: &str, count: usize| byte.repeat(count);

    let x = row("x", 200);
    let copied = format!("C3 !$\n!F23\n$\nC4 !$\n!F24\n$$\nC3 .\n{x}\n.\nC4 .\n{x}$ ignored\n.\n");
    let written = x.clone() + "\n";
    add_both(all, "limit-copied-200", copied, written.clone() + &end(0, 13, 4), written);

    let long = |code: &str| format!("COPY !$\n{code}\nafter!F1\n$$\nCOPY END\na\n{x}x\nb\n");
    let too_long = "a\n".to_string() + &end(11, 8, 2);
    add(all, "number-11-copied-201", long("!F2"), too_long).reporting("2,1 0,0");
    let name = "number-11-copied-201-to-the-second-output";
    add_both(all, name, long("!F24"), end(11, 8, 2), "a\n".to_string());
    let no_room = format!("COPY !$\n!F24\n$$\nCOPY END\n{x}x\n");
    add(all, "number-11-before-number-13-at-a-copied-line", no_room, end(11, 6, 2));

    // Lines that are dropped are not measured, the stopping one neither.
    let dropped = format!("DROP !$\n!F20\n$$\nDROP END\n{x}x\n{}\nEND\nlast\n", row("x", 5_000));
    add(all, "limit-copy-drops-lines-of-201", dropped, "last\n".to_string() + &end(0, 9, 3));
    let (calls, y) = ("COPY !$\n!F2\n$\nDROP !$\n!F20\n$$\n", row("y", 201));
    let stops = format!("{calls}COPY x\na\n{x}x\nDROP y\nb\n{y}\nlast\n");
    add(all, "limit-copy-stops-at-a-line-of-201", stops, "a\nlast\n".to_string() + &end(0, 14, 5));

    // A line of 199 bytes is only a beginning of the parameter.
    let short = row("x", 199);
    let whole = format!("!$\n!F2\n$$\n{x}\n{short}\nB\n{x}\n");
    add(all, "limit-copy-stops-at-200-bytes", whole, format!("{short}\nB\n") + &end(0, 8, 2));
}

fn copies_into_full_rooms(all: &mut Vec<Vector>) {
    // 511 lines of 128 bytes leave 128 of 65,536, which a line of 101 and one of
    // 27 bytes fill.
    let row = |byte: &str, count: usize| byte.repeat(count);
    let line = row("A", 127);
    let b = row("b", 100);
    let text = |channel: &str, rest: &str| {
        format!("T !$\n511!F7\n{line}!F1{channel}\n!F8\n!F2{channel}\nafter!F1\n$$\nT .\n{b}\n{rest}.\n")
    };
    let written = format!("{}{b}\n", (line.clone() + "\n").repeat(511));
    // The line offered, the opening line, two lines a pass and the copy.
    let events = 2 + 2 * 511 + 1;
    let fits = row("c", 26) + "\n";

    let out = "after\n".to_string() + &end(0, 12, events + 1);
    let name = "limit-copy-fills-the-second-output";
    add_both(all, name, text("4", &fits), out, written.clone() + &fits);
    let name = "number-13-midway-through-a-copy-to-the-second-output";
    add_both(all, name, text("4", &format!("c{fits}")), end(13, 11, events), written.clone());
    // There is no room for the byte 10 of an empty line.
    let empty = text("", &format!("{fits}\n"));
    add(all, "number-13-midway-through-a-copy", empty, written + &fits + &end(13, 12, events));
}

fn both_outputs(all: &mut Vec<Vector>) {
    // 512 lines of 127 bytes and byte 10 fill a room.
    let (a, b) = ("A".repeat(127), "B".repeat(127));
    let written = |line: &str| format!("{line}\n").repeat(512);

    let each = format!("T !$\n512!F7\n{a}!F1\n{b}!F14\n!F8\nC!F10\n!F20\n$$\nT .\na\n.\n");
    let out = written(&a) + &end(0, 12, 2 + 3 * 512 + 2);
    add_both(all, "limit-outputs-65536-each", each, out, written(&b));

    let first = format!("T$\n512!F7\n{a}!F1\n!F8\nstyle!F14\n$$\nT\nx\n");
    let out = written(&a) + &end(13, 9, 2 + 2 * 512 + 2);
    add_both(all, "number-13-first-output-full-second-not", first, out, "style\n".to_string());

    let second = format!("T$\n512!F7\n{a}!F14\n!F8\nroom!F1\n!90!F14\n$$\nT\n");
    let out = "room\n".to_string() + &end(13, 9, 2 + 2 * 512 + 2);
    add_both(all, "number-13-second-output-no-room-for-byte-10", second, out, written(&a));
}

fn reports(all: &mut Vec<Vector>) {
    // As many code lines and macros as there may be. The first macro calls each of the 127
    // others eight times a pass, and passes six lines through; the next template has line
    // 1,028, and each macro from there on two lines.
    let names: Vec<String> = (1..128).map(|n| format!("M{n}")).collect();
    let calls = (names.join("\n") + "\n").repeat(8) + &"p\n".repeat(6);
    let others = names.join("$\n$\n");
    let text = format!("GO$\n488!F7\n{calls}!F8\n$\n{others}$\n$$\nGO\n");
    // The line offered, the opening line, two events for each of 1,022 lines, and the pass's end.
    let out = "p\n".repeat(488 * 6) + &end(0, 1_282, 2 + 488 * (2 * 1_022 + 1));
    let uses: String = (0..127).map(|n| format!("{},{} ", 1_028 + 2 * n, 488 * 8)).collect();
    add(all, "limit-report-of-128-templates", text, out).reporting(&format!("2,1 {uses}0,{}", 488 * 6));

    // A built line takes two events, an input line one, of which a text has fewer than 65,536.
    // So no count is above 532,767, and this text has one near it: the empty template is
    // chosen for 64,820 input lines, and for 683 built ones in each of 684 passes. The fuel's
    // last 150 events are 75 more.
    let (built, input) = (683, 64_820);
    let text = format!("G\n999!F7\n{}!F8\n$\n\n$$\n{}G", "\n".repeat(built), "\n".repeat(input));
    assert_eq!(FLAG.len() + text.len(), 65_536);
    assert_eq!(input + 2 + 684 * (2 * built + 1) + 150, 1_000_000);
    let uses = input + 684 * built + 75;
    add(all, "number-20-greatest-count", text, end(20, 65_511, 1_000_000))
        .reporting(&format!("2,1 689,{uses} 0,0"));

    // Empty lines fill the output with a byte 10 each, and one more lacks room for its own.
    let text = "GO$\n256!F7\n256!F7\n\n!F8\n!F8\n\n$$\nGO\n".to_string();
    let events = 2 + 256 * (1 + 256 * 3 + 1) + 2;
    let out = "\n".repeat(65_536) + &end(13, 10, events);
    add(all, "number-13-after-65536-empty-lines", text, out).reporting("2,1 0,65537");
}
