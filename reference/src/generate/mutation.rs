//! Random changes to a text, for the numbers of loading.

use super::random::Random;

/// Bytes that are likely to matter in a text.
const BYTES: &[u8] = b"$$!!!0 (+-*/)F123456789AB,=.#\n\n\0_";

/// Makes one to three changes, seldom to the flag line, whose fault would hide
/// all others.
pub fn mutate(random: &mut Random, text: &mut Vec<u8>) {
    if random.chance(5) {
        change_flag_line(random, text);
    }
    let flag_line = text.iter().position(|&byte| byte == b'\n').map_or(0, |at| at + 1);
    let mut rest = text.split_off(if random.chance(95) { flag_line } else { 0 });
    for _ in 0..random.between(1, 3) {
        match random.weighted(&[30, 20, 14, 10, 8, 6]) {
            0 => change_byte(random, &mut rest),
            1 => drop_line(random, &mut rest),
            2 => repeat_line(random, &mut rest),
            3 => rest.truncate(random.below(rest.len() + 1)),
            4 => lengthen_line(random, &mut rest),
            _ => insert(random, &mut rest, b"!!!!!!!!!!!"),
        }
    }
    text.append(&mut rest);
}

/// Replaces, inserts or removes one byte.
pub fn change_byte(random: &mut Random, text: &mut Vec<u8>) {
    let byte = if random.chance(8) { random.next() as u8 } else { random.pick(BYTES) };
    let place = random.below(text.len() + 1);
    if place == text.len() || random.chance(30) {
        text.insert(place, byte);
    } else if random.chance(40) {
        text.remove(place);
    } else {
        text[place] = byte;
    }
}

fn drop_line(random: &mut Random, text: &mut Vec<u8>) {
    let (start, end) = some_line(random, text);
    text.drain(start..end);
}

fn repeat_line(random: &mut Random, text: &mut Vec<u8>) {
    let (start, end) = some_line(random, text);
    let line = text[start..end].to_vec();
    let (place, _) = some_line(random, text);
    text.splice(place..place, line);
}

fn change_flag_line(random: &mut Random, text: &mut [u8]) {
    if text.len() >= 12 {
        text[random.below(12)] = if random.chance(50) { random.pick(BYTES) } else { text[random.below(12)] };
    }
}

/// Brings a line to about 200 bytes.
fn lengthen_line(random: &mut Random, text: &mut Vec<u8>) {
    let (start, end) = some_line(random, text);
    let wanted = random.between(199, 203);
    let length = end - start;
    if length < wanted {
        text.splice(start..start, std::iter::repeat_n(b'A', wanted - length));
    }
}

fn insert(random: &mut Random, text: &mut Vec<u8>, bytes: &[u8]) {
    let place = random.below(text.len() + 1);
    let count = random.between(1, bytes.len());
    text.splice(place..place, bytes[..count].iter().copied());
}

/// Where a line begins and ends, its byte 10 included.
fn some_line(random: &mut Random, text: &[u8]) -> (usize, usize) {
    let place = random.below(text.len() + 1);
    let start = text[..place].iter().rposition(|&byte| byte == b'\n').map_or(0, |at| at + 1);
    let end = text[place..].iter().position(|&byte| byte == b'\n').map_or(text.len(), |at| place + at + 1);
    (start, end)
}
