//! Texts that use some of their templates often, some once and some never, and pass
//! lines through: input lines and built ones, in iterations and in nested calls. The
//! templates stand in no order, so that the text's is seldom the tree's.

use super::random::Random;
use super::{Size, SMALL_TEXT};

/// What the template begins with that calls the others in iterations.
const DRIVER: u8 = b'G';

/// Lines that are no call, unless a placeholder alone is a template: then the first is
/// one.
const PASSED: [&[u8]; 2] = [b"x", b")("];

/// What stands at a template's placeholder: bytes that are no character among it.
const ARGUMENTS: [&[u8]; 6] = [b"", b"", b"1", b"x", "é".as_bytes(), b"\xff"];

/// What a call does apart from offering lines: write lines, which gives 21 where a length
/// is of bytes that are no character, drop input lines, skip, and end the run.
const BODIES: [&[u8]; 7] =
    [b"!10!F1\n", b"!F14\n1.1\n", b"!15!F1\n", b"!15!F10\n", b"!F20\n", b"1!16\n!F4\n", b"!F0\n"];

/// A text about uses.
pub fn text(random: &mut Random, size: Size) -> Vec<u8> {
    let most = if size == Size::Small { 4 } else { random.pick(&[6, 20, 126]) };
    let names = names(random.between(1, most));
    let mut uses = Uses { random, names, size };
    let mut text = uses.section();
    uses.input(&mut text);
    text
}

/// So many names, none of which begins another or the driver.
fn names(count: usize) -> Vec<Vec<u8>> {
    let two = |at: usize| vec![b'a' + (at / 16) as u8, b'a' + (at % 16) as u8];
    (0..count).map(|at| if count <= 6 { vec![b'A' + at as u8] } else { two(at) }).collect()
}

struct Uses<'a> {
    random: &'a mut Random,
    names: Vec<Vec<u8>>,
    size: Size,
}

impl Uses<'_> {
    fn section(&mut self) -> Vec<u8> {
        let mut macros: Vec<Vec<u8>> = Vec::new();
        for name in self.names.clone() {
            let placeholders: &[u8] = self.random.pick(&[&b""[..], b"!", b"!!"]);
            macros.push([&name, placeholders, b"$\n", &self.body()].concat());
        }
        macros.push([&[DRIVER][..], b"!$\n", &self.driver_body()].concat());
        if macros.len() < 128 && self.random.chance(15) {
            macros.push(b"!$\n".to_vec());
        }
        for at in (1..macros.len()).rev() {
            macros.swap(at, self.random.below(at + 1));
        }
        [b"$!$!0 (+-*/)\n", &macros.join(&b"$\n"[..])[..], b"$$\n"].concat()
    }

    /// Mostly nothing, sometimes a line that is offered, which may be a call again.
    fn body(&mut self) -> Vec<u8> {
        match self.random.weighted(&[55, 20, 25]) {
            0 => vec![],
            1 => [&self.offered()[..], b"\n"].concat(),
            _ => self.random.pick(&BODIES).to_vec(),
        }
    }

    /// Iterations in which lines are offered.
    fn driver_body(&mut self) -> Vec<u8> {
        let (blocks, lines, passes): (_, _, &[u64]) = match self.size {
            Size::Small => (1, 2, &[1, 2, 3]),
            Size::Large => (3, 5, &[1, 2, 9, 40, 300, 4_000]),
        };
        let mut body = Vec::new();
        for _ in 0..self.random.between(1, blocks) {
            body.extend(format!("{}!F7\n", self.random.pick(passes)).into_bytes());
            for _ in 0..self.random.between(1, lines) {
                body.extend(self.offered());
                body.push(b'\n');
            }
            body.extend(b"!F8\n");
        }
        body
    }

    /// A line that is mostly a call. The first templates are called more often.
    fn offered(&mut self) -> Vec<u8> {
        match self.random.weighted(&[75, 20, 5]) {
            0 => {
                let some = self.random.between(1, self.names.len());
                let name = &self.names[self.random.below(some)];
                [&name[..], self.random.pick(&ARGUMENTS)].concat()
            }
            1 => self.random.pick(&PASSED).to_vec(),
            _ => vec![DRIVER],
        }
    }

    /// Input lines; one of them mostly calls the driver. Now and then one is too long.
    fn input(&mut self, text: &mut Vec<u8>) {
        let most = if self.size == Size::Small { 6 } else { 20 };
        for _ in 0..self.random.below(most + 1) {
            let line = match self.random.weighted(&[76, 22, 2]) {
                0 => self.offered(),
                1 => vec![DRIVER],
                _ => vec![b'x'; self.random.pick(&[200, 201])],
            };
            if self.size == Size::Large || text.len() + line.len() < SMALL_TEXT {
                text.extend(line);
                text.push(b'\n');
            }
        }
        if self.random.chance(10) {
            text.pop();
        }
    }
}
