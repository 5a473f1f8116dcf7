//! Random texts near a limit, which random bodies hardly ever reach.

use super::random::Random;
use super::Size;

/// The first line of all these texts.
const FLAG: &str = "$!$!0 (+-*/)\n";

/// A text near some limit. A small one may be too long, and is then refused by
/// the caller.
pub fn text(random: &mut Random, size: Size) -> Vec<u8> {
    let weights: &[usize] = match size {
        Size::Small => &[20, 4, 12, 10, 25, 20, 6],
        Size::Large => &[16, 8, 12, 10, 14, 10, 3, 10, 8, 8, 2, 6],
    };
    let body = match random.weighted(weights) {
        0 => long_content(random),
        1 => names(random),
        2 => memory(random),
        3 => deep_calls(random),
        4 => built_line(random),
        5 => nested_iterations(random),
        6 => ten_placeholders(random),
        7 => macros(random),
        8 => code_lines(random),
        9 => nodes(random),
        10 => whole_text(random),
        _ => nine_placeholders(random),
    };
    (FLAG.to_string() + &body).into_bytes()
}

/// Contents of 199 to 202 bytes where they are measured.
fn long_content(random: &mut Random) -> String {
    let row = "A".repeat(random.between(199, 202));
    match random.below(6) {
        0 => format!("{row}$\n$$\n"),
        1 => format!("T$\n{row}\n$$\nT\n"),
        2 => format!("T$\n!F1\n{row}\n$$\nT\n"),
        3 => format!("T$\n$$\n{row}$\n"),
        4 => format!("T!$\n!F4\n$$\nT1\n{row}\n"),
        _ => {
            let (channel, stop) = (random.pick(&["", "3", "4", "0"]), random.pick(&["A", "B"]));
            format!("T!$\n!F2{channel}\n$$\nT{stop}\n{row}\nB\nA\n")
        }
    }
}

/// About 256 names, stored by function 3 or conversion 2.
fn names(random: &mut Random) -> String {
    let count = random.between(254, 258);
    let store = random.pick(&["!F3", "!12!36", "!22!36"]);
    format!("N:!$\n0!26\n!10!F7\n!20+1!16\n!14!26\n{store}\n!F8\n!11!F1\n$$\nN:{count}\n")
}

/// About 8,192 bytes: names of one length, texts of another.
fn memory(random: &mut Random) -> String {
    let text = "A".repeat(random.between(20, 50));
    let extra = "B".repeat(random.below(40));
    let count = random.between(30, 60);
    let last = random.pick(&["!F3", "!10C!16\n!F3", "!20D!26\n!F3", "!26\n!F3", "!92!F1"]);
    format!("M:!$\n{text}!26\n!20!20!20!20{extra}!26\n!10!F7\n!10A!16\n!F3\n!F8\n{last}\n$$\nM:{count}\n")
}

/// A call that calls itself, for as many levels as its line has bytes.
fn deep_calls(random: &mut Random) -> String {
    let line = "x".repeat(random.between(10, 14));
    let body = random.pick(&["R:!10\n!10!F1\n", "!10!27\nR:!10\n!F9\n!F8\n", "R:!10\n"]);
    format!("R:x!$\n{body}$\nR:!$\nend!F1\n$$\nR:{line}\n")
}

/// Built lines of about 200 bytes.
fn built_line(random: &mut Random) -> String {
    let row = "A".repeat(random.between(49, 50));
    let tail = "B".repeat(random.below(5));
    let end = random.pick(&["!F1", "", "!16\n!15!F1", "!27\n!F9\n!F8", "!F7\n!F8", "!05", "!15", "!12"]);
    format!("D:!$\n!10!10!10!10{tail}{end}\n$$\nD:{row}\nD:A\n")
}

/// Three to five iterations in each other.
fn nested_iterations(random: &mut Random) -> String {
    let depth = random.between(3, 5);
    let mut body = String::new();
    for _ in 0..depth {
        body += random.pick(&["1!F7\n", "2!F7\n", "!10!27,\n", "!10!17,\n", "A,B!37,\n"]);
    }
    body += random.pick(&["!10!20!30!F1\n", "!F4\n", "x!F1\n", ""]);
    body += &"!F8\n".repeat(if random.chance(90) { depth } else { depth - 1 });
    format!("T:!$\n{body}!13!23!33.!F1\n$$\nT:A,B\nT:1\n")
}

/// About 128 macros.
fn macros(random: &mut Random) -> String {
    let count = random.between(126, 130);
    let macros: String = (1..count).map(|n| format!("M{n}$\n$\n")).collect();
    let end = random.pick(&["$$\n", "$$\n", "$\n", ""]);
    format!("{macros}M{count}$\n{end}M1\nM128\n")
}

/// About 1,024 code lines.
fn code_lines(random: &mut Random) -> String {
    let first = random.between(0, 500);
    let pairs = random.between(0, 200);
    let rest = random.between(1_022, 1_026) - first - 2 * pairs;
    let end = random.pick(&["$$\n", "$$\n", "$\n", ""]);
    let (first, rest) = ("\n".repeat(first), "\n".repeat(rest));
    format!("A$\n{first}$\nB$\n{}{rest}{end}A\n", "!F1\nx\n".repeat(pairs))
}

/// About 2,048 nodes.
fn nodes(random: &mut Random) -> String {
    let ten: String = (b'A'..=b'J').map(|byte| (byte as char).to_string().repeat(200) + "$\n$\n").collect();
    let last = "K".repeat(random.between(34, 38));
    let shared = random.pick(&["", "A$\n$\n", "B!$\n$\n"]);
    format!("{ten}{shared}{last}$\n$$\n{last}\n")
}

/// About 65,536 bytes.
fn whole_text(random: &mut Random) -> String {
    let start = "T$\n$$\nT$";
    let size = random.between(65_535, 65_538);
    start.to_string() + &"x".repeat(size - FLAG.len() - start.len())
}

/// Ten placeholders and more, which no text may have.
fn ten_placeholders(random: &mut Random) -> String {
    let template = "A!!".repeat(random.between(5, 6));
    format!("A!$\n$\n{template}$\n$$\nAB\n")
}

/// Eight to ten placeholders, and lines of up to 200 bytes and more.
fn nine_placeholders(random: &mut Random) -> String {
    let count = random.between(8, 10);
    let separator = random.pick(&["", ",", "="]);
    let template = vec!["!"; count].join(separator);
    let mut lines = String::new();
    for _ in 0..random.between(1, 4) {
        let most = random.pick(&[12, 12, 40, 120]);
        for _ in 0..random.between(0, most) {
            lines += random.pick(&["A", "A", ",", ",", "=", "(A)", "(,)"]);
        }
        lines += "\n";
    }
    format!("{template}$\n!10.!20.!30.!40.!50.!60.!70.!80.!90!F1\n!F1\n1 22 9\n$$\n{lines}")
}
