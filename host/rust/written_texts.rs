//! The texts that the comparison of writing runs over: runs of characters that the two modes treat alike, texts like those
//! of 2D-DOC, and texts at the edges of the rules. Everything follows from the generator's seed.

use crate::lists::Dice;

/// What a run of characters is made of: one C40 value each, digits that ASCII mode takes in pairs, or each shift.
const KINDS: [&[u8]; 8] = [
    b"0123456789",
    b"ABCDEFGHIJKLMNOPQRSTUVWXYZ ",
    b"ABCDEFGHIJKLMNOPQRSTUVWXYZ0123456789",
    b"ABCDEFGHIJKLMNOPQRSTUVWXYZ234567",
    b"\0\x01\x0a\x1c\x1d\x1e\x1f",
    b"!\"#$%&'()*+,-./:;<=>?@[\\]^_",
    b"`abcdefghijklmnopqrstuvwxyz{|}~\x7f",
    &CORNERS,
];

/// The first and last characters of each set and digits: two digits, space, capitals, and some of each shift.
pub const CORNERS: [u8; 12] = *b"09 AZ\0\x1f!@_`\x7f";

pub const STYLES: usize = 7;

/// A text of exactly this length in one of the styles.
pub fn text(dice: &mut Dice, style: usize, length: usize) -> Vec<u8> {
    let mut text = Vec::with_capacity(length + 400);
    // How long the runs are, and the kinds that they are taken from.
    let longest = dice.one_of(&[2, 4, 9, 16, 40]);
    let first = dice.below(KINDS.len());
    let second = dice.below(KINDS.len());
    while text.len() < length {
        match style {
            0 => run(dice, first, length, &mut text),
            1 => {
                let kind = dice.one_of(&[first, second]);
                run(dice, kind, longest, &mut text);
            }
            2 | 3 => {
                let kind = dice.below(KINDS.len());
                run(dice, kind, longest, &mut text);
            }
            // Mostly single values, now and then a shift.
            4 => {
                run(dice, 2, longest, &mut text);
                let kind = dice.between(4, 6);
                run(dice, kind, 2, &mut text);
            }
            5 => text.push(dice.below(128) as u8),
            _ => text.extend(document(dice)),
        }
    }
    text.truncate(length);
    text
}

fn run(dice: &mut Dice, kind: usize, longest: usize, text: &mut Vec<u8>) {
    for _ in 0..dice.between(1, longest) {
        text.push(dice.one_of(KINDS[kind]));
    }
}

/// A header, fields with their separators, the mark 31 and a signature in Base32; 180 characters and more.
pub fn document(dice: &mut Dice) -> Vec<u8> {
    let mut text = b"DC04FR000001".to_vec();
    for _ in 0..8 {
        text.push(dice.one_of(b"0123456789ABCDEF"));
    }
    text.extend(b"0101FR");
    let most = text.len() + dice.between(50, 250);
    while text.len() < most {
        run(dice, 2, 2, &mut text);
        let kind = dice.below(2);
        run(dice, kind, 20, &mut text);
        if dice.one_in(5) {
            text.push(dice.one_of(b"/-,.'"));
            run(dice, 1, 9, &mut text);
        }
        if !dice.one_in(3) {
            text.push(dice.one_of(&[29, 29, 29, 30]));
        }
    }
    text.push(31);
    for _ in 0..dice.one_of(&[103, 103, 154, 212]) {
        text.push(dice.one_of(KINDS[3]));
    }
    text
}
