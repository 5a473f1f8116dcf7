//! Request 6: the node row that the proved fit and run leave, and the reference's, on
//! all vectors and examples that load and on random texts.

mod common;
mod files;

use common::{for_places_texts, for_texts, for_tree_texts, shown};
use files::{files_below, read, root};
use stage2_compare::{fit, run, Node, END_KEY, PLACEHOLDER_KEY, ROOT_KEY};
use stage2_reference::generate::{Generator, Size};
use stage2_reference::{self as reference, most_places, Element, Rooms, RowNode, DEAD_ROW, NODE_ROW};

/// What every node of a row holds before a call: nothing that a tree has.
const UNTOUCHED: Node =
    Node { element: 0xAAAA, first: 0xAAAA, count: 0xAAAA, template: 0xAAAA, height: 0xAAAA, holes: 0xAAAA };

/// How many elements may follow the root: 200 bytes and the end.
const ROOT_HEIGHT: u16 = 201;

/// A run's fuel: the row is the same after few events as after many.
const FUEL: u64 = 300;

/// The key of a node that is led to by an element.
fn key(element: Option<Element>) -> u16 {
    match element {
        Some(Element::Literal(byte)) => byte.into(),
        Some(Element::End) => END_KEY,
        Some(Element::Placeholder) => PLACEHOLDER_KEY,
        None => ROOT_KEY,
    }
}

/// How long the beginning of a node is, and how many placeholders it has.
#[derive(Clone, Copy, Default)]
struct Beginning {
    length: u16,
    placeholders: u16,
}

/// The beginnings of the reference's nodes, from the root on.
fn beginnings(row: &[RowNode]) -> Vec<Beginning> {
    let mut beginnings = vec![Beginning::default(); row.len()];
    for (at, node) in row.iter().enumerate() {
        let Beginning { length, placeholders } = beginnings[at];
        for child in node.first..node.first + node.count {
            let more = u16::from(row[child].element == Some(Element::Placeholder));
            beginnings[child] = Beginning { length: length + 1, placeholders: placeholders + more };
        }
    }
    beginnings
}

/// Whether a node is the reference's. A node without children may say that they start
/// anywhere, and the template is asked for at ends alone.
fn agrees(node: &Node, expected: &RowNode, beginning: Beginning) -> bool {
    let [first, count, template] = [node.first, node.count, node.template].map(usize::from);
    node.element == key(expected.element)
        && count == expected.count
        && (count == 0 || first == expected.first)
        && expected.template.is_none_or(|place| template == place)
        && node.height == ROOT_HEIGHT - beginning.length
        && node.holes == beginning.placeholders
}

/// How many nodes the links of a row reach from its root, which stands first.
fn reached(row: &[Node]) -> usize {
    let mut met = vec![false; row.len()];
    let mut open = vec![0];
    while let Some(at) = open.pop() {
        if !std::mem::replace(&mut met[at], true) {
            let first = usize::from(row[at].first);
            open.extend((first..first + usize::from(row[at].count)).filter(|&child| child < row.len()));
        }
    }
    met.into_iter().filter(|&met| met).count()
}

/// A difference between a row and the reference's. What stands behind the tree is free.
fn difference(row: &[Node], expected: &[RowNode]) -> Option<String> {
    let nodes = reached(row);
    if nodes != expected.len() {
        return Some(format!("{nodes} nodes for {}", expected.len()));
    }
    let begun = expected.iter().zip(beginnings(expected));
    let at =
        row.iter().zip(begun).position(|(node, (expected, beginning))| !agrees(node, expected, beginning))?;
    Some(format!("node {at}: {:?} for {:?}", row[at], expected[at]))
}

/// What calls are lent, apart from the row.
struct Others {
    dead: Vec<u8>,
    rooms: Rooms,
}

impl Others {
    fn new() -> Others {
        Others { dead: vec![0; DEAD_ROW], rooms: Rooms::with_outputs(65_536, 65_536) }
    }

    /// The row that fitting a line leaves.
    fn fitted(&mut self, text: &[u8], line: &[u8]) -> Vec<Node> {
        let mut row = vec![UNTOUCHED; NODE_ROW];
        let fitted = fit(text, &mut row, &mut self.dead, line);
        assert_eq!(fitted.number, 0, "fit: {}", shown(text));
        row
    }

    /// The row that a run leaves.
    fn ran(&mut self, text: &[u8]) -> Vec<Node> {
        let mut row = vec![UNTOUCHED; NODE_ROW];
        let ran = run(text, FUEL, &mut row, &mut self.dead, &mut self.rooms);
        assert!(ran.number == 0 || ran.number > 10, "run, {}: {}", ran.number, shown(text));
        row
    }

    /// Compares the rows that both calls leave with the reference's, and gives it;
    /// `None` for a text that does not load.
    fn compare(&mut self, text: &[u8], line: &[u8]) -> Option<Vec<RowNode>> {
        let expected = reference::row(text)?;
        // On an empty line there is one place for each node.
        assert_eq!(Some(expected.len() as u64), most_places(text, b""), "{}", shown(text));
        for (call, row) in [("fit", self.fitted(text, line)), ("run", self.ran(text))] {
            let difference = difference(&row, &expected);
            assert!(difference.is_none(), "{call}: {}: {}", difference.unwrap(), shown(text));
        }
        Some(expected)
    }
}

/// What the trees of many texts had in them.
#[derive(Debug, Default)]
struct Met {
    /// Texts that load.
    texts: usize,
    /// Trees of more than 1,000 nodes.
    large: usize,
    /// Nodes with more than 60 children.
    wide: usize,
    /// Nodes with literals, an end and a placeholder child.
    all_kinds: usize,
    /// Nodes with literals over 127 and others.
    high_bytes: usize,
    empty_templates: usize,
}

impl Met {
    fn add(&mut self, row: &[RowNode]) {
        self.texts += 1;
        self.large += usize::from(row.len() > 1_000);
        for node in row {
            let children = &row[node.first..node.first + node.count];
            let has =
                |wanted: fn(Element) -> bool| children.iter().any(|child| child.element.is_some_and(wanted));
            let low = has(|element| matches!(element, Element::Literal(..=127)));
            let high = has(|element| matches!(element, Element::Literal(128..)));
            let (end, placeholder) = (has(|is| is == Element::End), has(|is| is == Element::Placeholder));
            self.wide += usize::from(node.count > 60);
            self.all_kinds += usize::from((low || high) && end && placeholder);
            self.high_bytes += usize::from(low && high);
            self.empty_templates += usize::from(node.element.is_none() && end);
        }
    }
}

#[test]
fn vectors_and_examples() {
    let mut others = Others::new();
    for (folder, least) in [("vectors", 250), ("examples", 25)] {
        let mut met = Met::default();
        for file in files_below(&root().join(folder), "text") {
            if let Some(row) = others.compare(&read(&file), b"AB") {
                met.add(&row);
            }
        }
        println!("{folder}: {met:?}");
        assert!(met.texts >= least, "{folder}: {met:?}");
    }
}

/// Compares the rows of random texts, each with a line that resembles a template. Of a
/// hundred texts so many must load.
fn compare_random(least: usize, for_texts: impl FnOnce(&mut dyn FnMut(&mut Generator, &[u8]))) -> Met {
    let mut others = Others::new();
    let (mut tried, mut met) = (0, Met::default());
    for_texts(&mut |generator, text| {
        tried += 1;
        let mut line = generator.line(text, Size::Large);
        line.truncate(200);
        if let Some(row) = others.compare(text, &line) {
            met.add(&row);
        }
    });
    println!("of {tried} texts: {met:?}");
    assert!(met.texts * 100 >= tried * least, "of {tried} texts: {met:?}");
    met
}

#[test]
fn small_texts() {
    compare_random(75, |test| for_texts(Size::Small, test));
}

#[test]
fn large_texts() {
    compare_random(75, |test| for_texts(Size::Large, test));
}

#[test]
fn texts_about_places() {
    compare_random(90, |test| for_places_texts(Size::Large, test));
}

/// Texts of many templates; all kinds of trees and nodes must be among theirs: one in so
/// many texts, at least.
#[test]
fn texts_of_templates_alone() {
    let met = compare_random(95, |test| for_tree_texts(test));
    for (count, texts) in
        [(met.large, 60), (met.wide, 250), (met.all_kinds, 2), (met.high_bytes, 1), (met.empty_templates, 4)]
    {
        assert!(count >= met.texts / texts, "{count} in {texts} texts each: {met:?}");
    }
}

/// The row as the library would leave it.
fn proved(row: &[RowNode]) -> Vec<Node> {
    let proved = |(node, beginning): (&RowNode, Beginning)| Node {
        element: key(node.element),
        first: node.first as u16,
        count: node.count as u16,
        template: node.template.unwrap_or(0) as u16,
        height: ROOT_HEIGHT - beginning.length,
        holes: beginning.placeholders,
    };
    row.iter().zip(beginnings(row)).map(proved).collect()
}

/// The comparison itself: a row with one thing changed is told apart.
#[test]
fn wrong_rows_are_told_apart() {
    // Node 1 is A, with the children B, C, end and placeholder from 2 on; 6 to 8 are ends.
    let text = b"$!$!0 (+-*/)\nAB$\n$\nAC$\n$\nA$\n$\nA!$\n$$\n";
    let expected = reference::row(text).unwrap();
    let mut right = proved(&expected);
    assert_eq!((expected.len(), expected[1].first, expected[1].count), (9, 2, 4));
    // What stands behind the tree is free.
    right.resize(NODE_ROW, UNTOUCHED);
    assert_eq!(difference(&right, &expected), None);
    // So are an end's first child and the template of a node that is none.
    let free = [(4, Node { first: 7, ..right[4] }), (2, Node { template: 3, ..right[2] })];
    for (at, node) in free {
        let mut row = right.clone();
        row[at] = node;
        assert_eq!(difference(&row, &expected), None, "{at}");
    }

    let wrong: [(&str, &str, fn(&mut [Node])); 19] = [
        ("two literals swapped", "node 2:", |row| row.swap(2, 3)),
        ("a literal and the end swapped", "node 3:", |row| row.swap(3, 4)),
        ("the end and the placeholder swapped", "node 4:", |row| row.swap(4, 5)),
        ("the last child missing", "7 nodes", |row| row[1].count = 3),
        ("the first child missing", "7 nodes", |row| (row[1].first, row[1].count) = (3, 3)),
        ("a child in the middle missing", "8 nodes", |row| row.copy_within(4..9, 3)),
        ("a child twice", "8 nodes", |row| row[3] = row[2]),
        ("a child twice, the others moved on", "node 3:", |row| row.copy_within(2..9, 3)),
        ("the end twice", "8 nodes", |row| row[5] = row[4]),
        ("one child too many", "node 1:", |row| row[1].count = 5),
        ("a child for an end", "node 4:", |row| row[4].count = 1),
        ("another byte", "node 2:", |row| row[2].element += 1),
        ("an element that is no key", "node 4:", |row| row[4].element = ROOT_KEY + 1),
        ("another template", "node 4:", |row| row[4].template = 0),
        ("a root with an element", "node 0:", |row| row[0].element = 2),
        ("a child as high as its parent", "node 2:", |row| row[2].height += 1),
        ("a placeholder that is not counted", "node 5:", |row| row[5].holes = 0),
        ("nothing written", "1 nodes", |row| row.fill(UNTOUCHED)),
        ("the last node not written", "node 8:", |row| row[8] = UNTOUCHED),
    ];
    for (what, said, change) in wrong {
        let mut row = right.clone();
        change(&mut row);
        let difference = difference(&row, &expected).unwrap_or_default();
        assert!(difference.starts_with(said), "{what}: {difference}");
    }
}
