//! The search for a line's first reading, which takes up no place twice.

use crate::atoms::Atoms;
use crate::text::Marks;
use crate::tree::{Tree, PLACEHOLDER_LIMIT, ROOT};

/// A piece of a line: where it begins and its length.
#[derive(Clone, Copy, Debug, Default, PartialEq, Eq)]
pub struct Piece {
    pub start: usize,
    pub length: usize,
}

/// A template, by its place in the text's order, with a piece for each of its
/// placeholders. Pieces that the template lacks are empty at 0.
#[derive(Clone, Copy, Debug, PartialEq, Eq)]
pub struct Reading {
    pub template: usize,
    pub pieces: [Piece; PLACEHOLDER_LIMIT],
}

/// How often a search looked for the next atom, by what it found, and how many
/// bytes it read there.
#[derive(Clone, Copy, Debug, Default, PartialEq, Eq)]
pub struct Looks {
    pub atoms: u64,
    pub right_brackets: u64,
    /// Left brackets without a partner.
    pub left_brackets: u64,
    pub line_ends: u64,
    pub bytes: u64,
}

/// What fitting a line comes to: the first of all its readings, if it has any,
/// how many places were taken up, and the looks for atoms.
#[derive(Clone, Copy, Debug, PartialEq, Eq)]
pub struct Fitting {
    pub reading: Option<Reading>,
    pub places: u64,
    pub looks: Looks,
}

/// Fits a line of at most 200 bytes against the templates of a tree.
pub fn fit(tree: &Tree, line: &[u8], marks: &Marks) -> Fitting {
    let mut search = Search {
        tree,
        line,
        atoms: Atoms::of(line, marks),
        right_bracket: marks.right,
        pieces: Default::default(),
        dead: DeadPlaces::none(tree, line),
        places: 0,
        looks: Looks::default(),
    };
    let template = search.take_up(ROOT, 0, 0);
    let Search { pieces, places, looks, .. } = search;
    Fitting { reading: template.map(|template| Reading { template, pieces }), places, looks }
}

/// The places that were found to lead nowhere: a bit for each node at each
/// position of the line. Ends have none, since a template's end never fails.
struct DeadPlaces {
    bits: Vec<u64>,
    positions: usize,
}

impl DeadPlaces {
    fn none(tree: &Tree, line: &[u8]) -> DeadPlaces {
        let positions = line.len() + 1;
        DeadPlaces { bits: vec![0; (tree.beginnings() * positions).div_ceil(64)], positions }
    }

    /// The word with a place's bit, and the bit.
    fn bit(&self, node: u32, at: usize) -> (usize, u64) {
        let place = node as usize * self.positions + at;
        (place / 64, 1 << (place % 64))
    }

    fn contains(&self, node: u32, at: usize) -> bool {
        let (word, bit) = self.bit(node, at);
        self.bits[word] & bit != 0
    }

    fn add(&mut self, node: u32, at: usize) {
        let (word, bit) = self.bit(node, at);
        self.bits[word] |= bit;
    }
}

struct Search<'a> {
    tree: &'a Tree,
    line: &'a [u8],
    atoms: Atoms,
    right_bracket: u8,
    pieces: [Piece; PLACEHOLDER_LIMIT],
    dead: DeadPlaces,
    /// How many places were taken up.
    places: u64,
    looks: Looks,
}

impl Search<'_> {
    /// Takes up the place of `node` at `at`, unless it is known to lead nowhere.
    /// `filled` placeholders have their piece. Gives the template, and leaves its
    /// pieces in `self.pieces`.
    ///
    /// What is tried first comes first in document 01's order, so the first
    /// success is the reading to choose.
    fn take_up(&mut self, node: u32, at: usize, filled: usize) -> Option<usize> {
        if self.dead.contains(node, at) {
            return None;
        }
        self.places += 1;
        let found = self.by_byte_or_end(node, at, filled).or_else(|| self.by_piece(node, at, filled));
        if found.is_none() {
            self.dead.add(node, at);
        }
        found
    }

    /// Goes on by the next byte, or ends at the line's end.
    fn by_byte_or_end(&mut self, node: u32, at: usize, filled: usize) -> Option<usize> {
        match self.line.get(at) {
            Some(&byte) => self.take_up(self.tree.literal(node, byte)?, at + 1, filled),
            None => {
                let template = self.tree.template(node)?;
                // The end is a node of its own.
                self.places += 1;
                Some(template)
            }
        }
    }

    /// Goes on by a placeholder: tries the empty piece, then longer ones.
    ///
    /// A place on a placeholder leads nowhere if its longer pieces lead nowhere
    /// too. It is marked before these are tried, but nothing asks for it until
    /// they are: whatever they take up lies further on.
    fn by_piece(&mut self, parent: u32, start: usize, filled: usize) -> Option<usize> {
        let node = self.tree.placeholder(parent)?;
        let mut end = start;
        // Where a place is marked, the longer pieces are, too.
        while !self.dead.contains(node, end) {
            let found = self.take_up(node, end, filled + 1);
            if found.is_some() {
                // Written on the way back: failed attempts leave no trace.
                self.pieces[filled] = Piece { start, length: end - start };
                return found;
            }
            end = self.look(end)?;
        }
        None
    }

    /// Looks for the atom at `at`; gives where it ends, if there is one.
    fn look(&mut self, at: usize) -> Option<usize> {
        let Looks { atoms, right_brackets, left_brackets, line_ends, bytes } = &mut self.looks;
        let (end, rest) = (self.atoms.end(at), &self.line[at..]);
        let (count, read) = match (end, rest.first()) {
            (Some(end), _) => (atoms, end - at),
            (None, None) => (line_ends, 0),
            (None, Some(&byte)) if byte == self.right_bracket => (right_brackets, 1),
            (None, Some(_)) => (left_brackets, rest.len()),
        };
        *count += 1;
        *bytes += read as u64;
        end
    }
}
