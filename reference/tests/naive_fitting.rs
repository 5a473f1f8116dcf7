//! Fitting against a function that lists all readings, and places and bytes against
//! the words of requests 3 and 5, carried out over beginnings of templates.

mod common;

use std::cmp::Ordering;
use std::collections::HashSet;

use common::Dice;
use stage2_reference::{fit, looks, most_places, Fitted, Looks, DEAD_ROW, NODE_ROW};

/// One element of a reading.
#[derive(Clone, Copy, Debug, PartialEq, Eq)]
enum Element {
    Literal,
    End,
    Piece { start: usize, length: usize },
}

/// Document 01's order of two elements at the first difference.
fn order(a: Element, b: Element) -> Ordering {
    let rank = |element| match element {
        Element::Literal | Element::End => 0,
        Element::Piece { length, .. } => 1 + length,
    };
    rank(a).cmp(&rank(b))
}

/// Whether a row is one byte that is no bracket, or a left bracket through its
/// partner.
fn is_atom(row: &[u8]) -> bool {
    match row {
        [byte] => *byte != b'(' && *byte != b')',
        [b'(', inner @ .., b')'] => is_row_of_atoms(inner),
        _ => false,
    }
}

fn is_row_of_atoms(row: &[u8]) -> bool {
    row.is_empty() || (1..=row.len()).any(|end| is_atom(&row[..end]) && is_row_of_atoms(&row[end..]))
}

/// All readings of the line from `at` on by what is left of one template.
fn readings(template: &[u8], line: &[u8], at: usize) -> Vec<Vec<Element>> {
    let with = |element: Element, rest: Vec<Vec<Element>>| -> Vec<Vec<Element>> {
        rest.into_iter().map(|reading| [vec![element], reading].concat()).collect()
    };
    match template.split_first() {
        None if at == line.len() => vec![vec![Element::End]],
        None => vec![],
        Some((b'!', rest)) => (at..=line.len())
            .filter(|&end| is_row_of_atoms(&line[at..end]))
            .flat_map(|end| {
                let piece = Element::Piece { start: at, length: end - at };
                with(piece, readings(rest, line, end))
            })
            .collect(),
        Some((byte, rest)) if line.get(at) == Some(byte) => {
            with(Element::Literal, readings(rest, line, at + 1))
        }
        Some(_) => vec![],
    }
}

/// The line of a template's text by the template's place.
fn line_of(place: usize) -> u64 {
    2 + 2 * place as u64
}

/// Lists all readings by all templates and takes the first; says nothing of
/// places and bytes.
fn naive(templates: &[Vec<u8>], line: &[u8]) -> Fitted {
    let mut all: Vec<(Vec<Element>, u64)> = Vec::new();
    for (place, template) in templates.iter().enumerate() {
        all.extend(readings(template, line, 0).into_iter().map(|reading| (reading, line_of(place))));
    }
    let by_first_difference = |a: &Vec<Element>, b: &Vec<Element>| {
        a.iter().zip(b).map(|(&a, &b)| order(a, b)).find(|order| order.is_ne()).unwrap_or(Ordering::Equal)
    };
    let Some((reading, line)) = all.into_iter().min_by(|(a, _), (b, _)| by_first_difference(a, b)) else {
        return Fitted::default();
    };
    let mut fitted = Fitted { line, ..Fitted::default() };
    let pieces = reading.iter().filter_map(|element| match *element {
        Element::Piece { start, length } => Some((start, length)),
        _ => None,
    });
    for (place, (start, length)) in pieces.enumerate() {
        fitted.start[place] = start as u64;
        fitted.length[place] = length as u64;
    }
    fitted
}

/// Where the atom at a position ends, if there is one: found by the depth of
/// brackets, because the rules as they stand take too long on long lines.
fn atom_end(line: &[u8], at: usize) -> Option<usize> {
    let mut depth = 0;
    for (place, byte) in line.iter().enumerate().skip(at) {
        match byte {
            b'(' => depth += 1,
            b')' if depth == 0 => return None,
            b')' => depth -= 1,
            _ => {}
        }
        if depth == 0 {
            return Some(place + 1);
        }
    }
    None
}

/// What stands at the end of a template. No line here has this byte or `!`.
const END: u8 = b'$';

/// A tree node together with a position in the line. The node is the beginning
/// of a template that it stands for.
type Place = (Vec<u8>, usize);

/// Request 3's fitting, with what request 5 counts, word by word.
struct Placing<'a> {
    /// With their ends.
    templates: Vec<Vec<u8>>,
    line: &'a [u8],
    /// The places found to lead nowhere.
    dead: HashSet<Place>,
    /// The places taken up, in this order.
    taken: Vec<Place>,
    /// How often a marked place was met again.
    met_again: u64,
    /// Where an atom was looked for, in this order.
    looks: Vec<Place>,
}

impl Placing<'_> {
    /// Takes up the root; gives the template's line, 0 for none, places and looks.
    fn of<'a>(templates: &[Vec<u8>], line: &'a [u8]) -> (u64, Placing<'a>) {
        let mut placing = Placing {
            templates: templates.iter().map(|template| [&template[..], &[END]].concat()).collect(),
            line,
            dead: HashSet::new(),
            taken: Vec::new(),
            met_again: 0,
            looks: Vec::new(),
        };
        let found = placing.take_up(Vec::new(), 0);
        (found.map_or(0, line_of), placing)
    }

    /// The node for one element more, where a template begins with it.
    fn child(&self, node: &[u8], element: u8) -> Option<Vec<u8>> {
        let child = [node, &[element]].concat();
        self.templates.iter().any(|template| template.starts_with(&child)).then_some(child)
    }

    /// Takes up a place, unless it is marked; gives the template that it leads to.
    fn take_up(&mut self, node: Vec<u8>, at: usize) -> Option<usize> {
        let place = (node, at);
        if self.dead.contains(&place) {
            self.met_again += 1;
            return None;
        }
        self.taken.push(place.clone());
        let found = self.onward(&place.0, at);
        if found.is_none() {
            self.dead.insert(place);
        }
        found
    }

    fn onward(&mut self, node: &[u8], at: usize) -> Option<usize> {
        // until a template ends
        if node.last() == Some(&END) {
            return self.templates.iter().position(|template| template == node);
        }
        // the child for the next byte or the line's end
        let direct = match self.line.get(at) {
            Some(&byte) => self.child(node, byte).and_then(|child| self.take_up(child, at + 1)),
            None => self.child(node, END).and_then(|child| self.take_up(child, at)),
        };
        if direct.is_some() {
            return direct;
        }
        // if that leads nowhere the placeholder child there
        let piece = self.child(node, b'!').and_then(|child| self.take_up(child, at));
        if piece.is_some() || node.last() != Some(&b'!') {
            return piece;
        }
        // and last, on a placeholder, that node past the next atom
        self.looks.push((node.to_vec(), at));
        let past = (node.to_vec(), atom_end(self.line, at)?);
        // A node's places are taken up from left to right: pieces are balanced, so all of
        // them lie at the same depth of brackets, and none inside an atom that is passed.
        assert!(!self.dead.contains(&past), "a marked place past an atom: {past:?}");
        self.take_up(past.0, past.1)
    }

    /// The looks by what they found, and the bytes read there.
    fn counted(&self) -> Looks {
        let mut looks = Looks::default();
        for &(_, at) in &self.looks {
            let rest = &self.line[at..];
            let (count, bytes) = match (atom_end(self.line, at), rest.first()) {
                // the atom's length
                (Some(end), _) => (&mut looks.atoms, end - at),
                // 1 at a right bracket
                (None, Some(b')')) => (&mut looks.right_brackets, 1),
                // 0 at the line's end
                (None, None) => (&mut looks.line_ends, 0),
                // the rest of the line where a left bracket has no partner
                (None, Some(_)) => (&mut looks.left_brackets, rest.len()),
            };
            *count += 1;
            looks.bytes += bytes as u64;
        }
        looks
    }

    /// Whether each place was taken up once, and none beyond the tree and the line.
    fn is_bounded(&self) -> bool {
        let mut nodes: HashSet<&[u8]> = HashSet::from([&[][..]]);
        for template in &self.templates {
            nodes.extend((1..=template.len()).map(|length| &template[..length]));
        }
        let distinct: HashSet<&Place> = self.taken.iter().collect();
        let legal = |(node, at): &Place| nodes.contains(&node[..]) && *at <= self.line.len();
        distinct.len() == self.taken.len()
            && self.taken.iter().all(legal)
            && self.taken.len() <= nodes.len() * (self.line.len() + 1)
    }
}

/// Compares places and bytes of fitting a line with the requests' words; gives the
/// answer, and how it came about.
fn compare_places<'a>(text: &[u8], templates: &[Vec<u8>], line: &'a [u8]) -> (Fitted, Placing<'a>) {
    let got = fit(text, NODE_ROW, DEAD_ROW, line);
    let (template_line, placing) = Placing::of(templates, line);
    let shown = (String::from_utf8_lossy(text), String::from_utf8_lossy(line));
    let counted = placing.counted();
    let expected = (template_line, placing.taken.len() as u64, counted.bytes);
    assert_eq!((got.line, got.places, got.bytes), expected, "{shown:?}");
    assert_eq!(looks(text, line), Some(counted), "{shown:?}");
    assert!(placing.is_bounded(), "{shown:?}");
    assert!(got.places <= most_places(text, line).unwrap(), "{shown:?}");
    assert!(got.bytes <= got.places * line.len() as u64, "{shown:?}");
    (got, placing)
}

/// Compares fitting a line with the list of all its readings, and its places.
fn compare(text: &[u8], templates: &[Vec<u8>], line: &[u8]) -> Fitted {
    let (got, _) = compare_places(text, templates, line);
    let expected = Fitted { places: got.places, bytes: got.bytes, ..naive(templates, line) };
    let shown = (String::from_utf8_lossy(text), String::from_utf8_lossy(line));
    assert_eq!(got, expected, "{shown:?}");
    for at in 0..line.len() {
        let end = (at + 1..=line.len()).find(|&end| is_atom(&line[at..end]));
        assert_eq!(atom_end(line, at), end, "{shown:?}");
    }
    got
}

fn text_of(templates: &[Vec<u8>]) -> Vec<u8> {
    let mut text = b"$!$!0 (+-*/)\n".to_vec();
    for (place, template) in templates.iter().enumerate() {
        text.extend_from_slice(template);
        let end: &[u8] = if place + 1 == templates.len() { b"$\n$$\n" } else { b"$\n$\n" };
        text.extend_from_slice(end);
    }
    text
}

impl Dice {
    fn row(&mut self, bytes: &[u8], most: u64) -> Vec<u8> {
        (0..self.below(most + 1)).map(|_| bytes[self.below(bytes.len() as u64) as usize]).collect()
    }

    /// Different templates, often with a common beginning.
    fn templates(&mut self) -> Vec<Vec<u8>> {
        let mut templates: Vec<Vec<u8>> = Vec::new();
        for _ in 0..1 + self.below(5) {
            let mut template = match templates.last() {
                Some(last) if self.below(2) == 0 => last[..last.len() / 2].to_vec(),
                _ => Vec::new(),
            };
            template.extend(self.row(b"AAB!!!()", 5));
            if placeholders(&template) <= 5 && !templates.contains(&template) {
                templates.push(template);
            }
        }
        templates
    }

    /// Different templates of up to nine placeholders with the same few
    /// separators, most of which share all but what stands at their ends.
    fn busy_templates(&mut self) -> Vec<Vec<u8>> {
        let separators: &[&[u8]] = &[b"A", b"A", b"AB", b"(", b")", b"", b"()"];
        let separator = separators[self.below(separators.len() as u64) as usize];
        let row = [&b"!"[..]; 9].join(separator);
        let mut templates: Vec<Vec<u8>> = Vec::new();
        for _ in 0..1 + self.below(6) {
            let shared = if self.below(3) == 0 { self.below(row.len() as u64) as usize } else { row.len() };
            let template = [&row[..shared], &self.row(b"AAB!()", 3)].concat();
            if placeholders(&template) <= 9 && !templates.contains(&template) {
                templates.push(template);
            }
        }
        templates
    }

    /// A line of up to 200 bytes, most of them alike.
    fn busy_line(&mut self) -> Vec<u8> {
        let rows: &[&[u8]] = &[b"A", b"A", b"AAAAAAAAAB", b"AAAAA()", b"AAA(A)", b"()", b"(", b"(A(A)A)"];
        let row = rows[self.below(rows.len() as u64) as usize];
        let mut line: Vec<u8> = row.iter().copied().cycle().take(self.below(198) as usize).collect();
        line.extend(self.row(b"AB()", 3));
        line
    }

    /// Different templates that go through some brackets one by one before they look
    /// for atoms.
    fn bracketed_templates(&mut self) -> Vec<Vec<u8>> {
        let mut templates: Vec<Vec<u8>> = Vec::new();
        for _ in 0..1 + self.below(12) {
            let mut template = vec![b'('; self.below(6) as usize];
            template.extend(self.row(b"!!!!()A", 7));
            template.extend(self.row(b"B)", 1));
            if !templates.contains(&template) {
                templates.push(template);
            }
        }
        templates
    }

    /// Nested brackets with partners or without, some of which are moved.
    fn bracketed_line(&mut self) -> Vec<u8> {
        let depth = 1 + self.below(99) as usize;
        let rights = [0, depth, depth, depth.saturating_sub(1), depth + 1][self.below(5) as usize];
        let mut line = [vec![b'('; depth], self.row(b"AB()", 2), vec![b')'; rights]].concat();
        line.truncate(200);
        for _ in 0..self.below(6) {
            let from = self.below(line.len() as u64) as usize;
            let byte = line.remove(from);
            line.insert(self.below(line.len() as u64 + 1) as usize, byte);
        }
        line
    }
}

fn placeholders(template: &[u8]) -> usize {
    template.iter().filter(|&&byte| byte == b'!').count()
}

fn rows<const N: usize>(rows: [&str; N]) -> Vec<Vec<u8>> {
    rows.iter().map(|row| row.as_bytes().to_vec()).collect()
}

#[test]
fn search_gives_the_first_of_all_readings() {
    let mut dice = Dice(2);
    let (mut calls, mut several) = (0, 0);
    for _ in 0..4_000 {
        let templates = dice.templates();
        if templates.is_empty() {
            continue;
        }
        let text = text_of(&templates);
        for _ in 0..10 {
            let line = dice.row(b"AAABBB()", 9);
            let fitted = compare(&text, &templates, &line);
            calls += u32::from(fitted.line > 0);
            several += u32::from(fitted.line > 2);
        }
    }
    // The comparison says little unless many lines fit, and not one template alone.
    assert!(calls > 8_000, "{calls}");
    assert!(several > 2_000, "{several}");
}

#[test]
fn every_short_line() {
    let templates = rows(["A!B", "!A!", "!", "(!", "A!A!A", "!!B"]);
    let text = text_of(&templates);
    for length in 0..=6 {
        for code in 0..4usize.pow(length) {
            let line: Vec<u8> = (0..length).map(|at| b"AB()"[code >> (2 * at) & 3]).collect();
            compare(&text, &templates, &line);
        }
    }
}

/// Of the lines compared, how many are of each sort.
#[derive(Debug, Default)]
struct Seen {
    calls: u32,
    none: u32,
    met_again: u32,
    many_places: u32,
    many_bytes: u32,
    right_brackets: u32,
    left_brackets: u32,
    line_ends: u32,
}

/// Compares long lines, whose readings are too many to be listed, four for each
/// row of templates.
fn compare_long(
    seed: u64,
    count: u32,
    templates: fn(&mut Dice) -> Vec<Vec<u8>>,
    line: fn(&mut Dice) -> Vec<u8>,
) -> Seen {
    let mut dice = Dice(seed);
    let mut seen = Seen::default();
    for _ in 0..count {
        let templates = templates(&mut dice);
        if templates.is_empty() {
            continue;
        }
        let text = text_of(&templates);
        for _ in 0..4 {
            let line = line(&mut dice);
            let (fitted, placing) = compare_places(&text, &templates, &line);
            let looks = placing.counted();
            for (count, is_so) in [
                (&mut seen.calls, fitted.line > 0),
                (&mut seen.none, fitted.line == 0),
                (&mut seen.met_again, placing.met_again > 0),
                (&mut seen.many_places, fitted.places > 1_000),
                (&mut seen.many_bytes, fitted.bytes > 1_000),
                (&mut seen.right_brackets, looks.right_brackets > 0),
                (&mut seen.left_brackets, looks.left_brackets > 0),
                (&mut seen.line_ends, looks.line_ends > 0),
            ] {
                *count += u32::from(is_so);
            }
        }
    }
    println!("{seen:?}");
    seen
}

#[test]
fn long_lines_take_up_each_place_once() {
    let seen = compare_long(3, 1_000, Dice::busy_templates, Dice::busy_line);
    // Lines fit and don't, the marks are needed, and the search is long.
    assert!(seen.calls > 400 && seen.none > 2_000, "{seen:?}");
    assert!(seen.met_again > 800 && seen.many_places > 300, "{seen:?}");
}

#[test]
fn long_brackets_are_read_at_each_look() {
    let seen = compare_long(4, 3_000, Dice::bracketed_templates, Dice::bracketed_line);
    // Lines fit and don't, much is read, and atoms are looked for where there is none.
    assert!(seen.calls > 1_000 && seen.none > 1_000 && seen.many_bytes > 1_000, "{seen:?}");
    assert!(seen.right_brackets > 1_000 && seen.left_brackets > 1_000 && seen.line_ends > 1_000, "{seen:?}");
}

/// Places, each as its node and position.
fn shown(places: &[Place]) -> Vec<String> {
    places.iter().map(|(node, at)| format!("{} {at}", String::from_utf8_lossy(node))).collect()
}

/// The places taken up.
#[test]
fn places_in_order() {
    let taken = |templates: &[Vec<u8>], line: &str| -> Vec<String> {
        compare(&text_of(templates), templates, line.as_bytes());
        shown(&Placing::of(templates, line.as_bytes()).1.taken)
    };
    let three = rows(["AB!", "!B", "!=!"]);
    assert_eq!(taken(&three, "AB"), [" 0", "A 1", "AB 2", "AB! 2", "AB!$ 2"]);
    assert_eq!(taken(&three, "B"), [" 0", "! 0", "!B 1", "!B$ 1"]);
    assert_eq!(taken(&three, ""), [" 0", "! 0"]);
    // The bracket through its partner is one step; no place is inside it.
    assert_eq!(taken(&three, "(=)B"), [" 0", "! 0", "! 3", "!B 4", "!B$ 4"]);
    assert_eq!(taken(&three, "(="), [" 0", "! 0"]);
    // The second placeholder's places are dead when the first is lengthened.
    let two = rows(["!A!B"]);
    assert_eq!(taken(&two, "AA"), [" 0", "! 0", "!A 1", "!A! 1", "!A! 2", "! 1", "!A 2", "! 2"]);
}

/// The places where an atom is looked for, and the bytes read there.
#[test]
fn looks_in_order() {
    let looked = |templates: &[Vec<u8>], line: &str| -> (Vec<String>, u64) {
        let fitted = compare(&text_of(templates), templates, line.as_bytes());
        (shown(&Placing::of(templates, line.as_bytes()).1.looks), fitted.bytes)
    };
    let none = (vec![], 0);
    let at = |places: &[&str], bytes| (places.iter().map(|place| place.to_string()).collect(), bytes);
    let one = rows(["!B"]);
    // A byte, an atom, a right bracket, and left brackets without a partner.
    assert_eq!(looked(&one, "AB"), at(&["! 0"], 1));
    assert_eq!(looked(&one, "(A)B"), at(&["! 0"], 3));
    assert_eq!(looked(&one, "A)B"), at(&["! 0", "! 1"], 2));
    assert_eq!(looked(&one, "A((B)B"), at(&["! 0", "! 1"], 6));
    // The line's end.
    assert_eq!(looked(&one, ""), at(&["! 0"], 0));
    assert_eq!(looked(&one, "A"), at(&["! 0", "! 1"], 1));
    // None on the root and on literals, and none where a child leads on.
    assert_eq!(looked(&one, "B"), none);
    assert_eq!(looked(&rows(["(A)B", "A"]), "(A)"), none);
    // Each node looks, but not at its marked place a second time.
    assert_eq!(looked(&rows(["!!B"]), "(A)"), at(&["!! 0", "!! 3", "! 0", "! 3"], 6));
    assert_eq!(looked(&rows(["!A!B"]), "AA"), at(&["!A! 1", "!A! 2", "! 0", "! 1", "! 2"], 3));
}
