//! The lists of codewords that the comparison runs over: walks made of permitted moves, damaged walks,
//! texts around the limit of 1,000 characters, and noise. Everything follows from the generator's seed.

use crate::paper::{pad, read_symbol, CAPACITIES, LEAST_ROOM};

/// SplitMix64: small, and any seed will do.
pub struct Dice(pub u64);

impl Dice {
    pub fn next(&mut self) -> u64 {
        self.0 = self.0.wrapping_add(0x9e37_79b9_7f4a_7c15);
        let mut z = self.0;
        z = (z ^ (z >> 30)).wrapping_mul(0xbf58_476d_1ce4_e5b9);
        z = (z ^ (z >> 27)).wrapping_mul(0x94d0_49bb_1331_11eb);
        z ^ (z >> 31)
    }

    /// A number from 0 to `bound` - 1.
    pub fn below(&mut self, bound: usize) -> usize {
        ((u128::from(self.next()) * bound as u128) >> 64) as usize
    }

    /// A number from `low` to `high`, both included.
    pub fn between(&mut self, low: usize, high: usize) -> usize {
        low + self.below(high - low + 1)
    }

    pub fn one_in(&mut self, n: usize) -> bool {
        self.below(n) == 0
    }

    pub fn byte(&mut self) -> u8 {
        self.next() as u8
    }

    pub fn one_of<T: Copy>(&mut self, list: &[T]) -> T {
        list[self.below(list.len())]
    }

    pub fn fill(&mut self, bytes: &mut [u8]) {
        for part in bytes.chunks_mut(8) {
            let number = self.next().to_le_bytes();
            part.copy_from_slice(&number[..part.len()]);
        }
    }

    pub fn capacity(&mut self) -> usize {
        self.one_of(&CAPACITIES)
    }
}

pub fn noise(dice: &mut Dice, count: usize) -> Vec<u8> {
    let mut list = vec![0; count];
    dice.fill(&mut list);
    list
}

// Codewords of the ASCII mode.
const PAD: u8 = 129;
const LATCH: u8 = 230;
const UNLATCH: u8 = 254;

fn ascii_character(dice: &mut Dice) -> u8 {
    dice.between(1, 128) as u8
}

fn digit_pair(dice: &mut Dice) -> u8 {
    dice.between(130, 229) as u8
}

/// Three values as two codewords.
fn packed(values: [u8; 3]) -> [u8; 2] {
    let v = 1600 * values[0] as usize + 40 * values[1] as usize + values[2] as usize + 1;
    [(v / 256) as u8, (v % 256) as u8]
}

fn basic_value(dice: &mut Dice) -> u8 {
    dice.between(3, 39) as u8
}

/// A value of the set that shift `shift` (0, 1, 2) leads to.
fn shifted_value(dice: &mut Dice, shift: u8) -> u8 {
    let last = if shift == 1 { 26 } else { 31 };
    dice.between(0, last) as u8
}

/// A value that this set does not use.
fn unused_value(dice: &mut Dice, shift: u8) -> u8 {
    let first = if shift == 1 { 27 } else { 32 };
    dice.between(first, 39) as u8
}

/// How a walk prefers its moves, so that walks differ from each other.
struct Taste {
    latch: usize,
    digits: usize,
    unlatch: usize,
    shift: usize,
    stop: usize,
}

/// A list of `capacity` codewords made of permitted moves; only its end may now and then be wrong.
pub fn walk(dice: &mut Dice, capacity: usize) -> Vec<u8> {
    let taste = Taste {
        latch: dice.between(2, 20),
        digits: dice.between(2, 8),
        unlatch: dice.between(2, 40),
        shift: dice.between(2, 12),
        // A text that fills a large symbol is mostly too long: every second walk has padding.
        stop: if dice.one_in(2) { capacity } else { dice.between(0, capacity) },
    };
    let mut list = Vec::with_capacity(capacity + 2);
    while list.len() < capacity {
        if list.len() >= taste.stop {
            pad_mostly_right(dice, &mut list, capacity);
        } else if dice.one_in(taste.latch) {
            list.push(LATCH);
            c40_part(dice, &taste, capacity, &mut list);
        } else if dice.one_in(taste.digits) {
            list.push(digit_pair(dice));
        } else {
            list.push(ascii_character(dice));
        }
    }
    list
}

/// The walk's way from behind a latch to behind the unlatch, or to the end of the symbol.
fn c40_part(dice: &mut Dice, taste: &Taste, capacity: usize, list: &mut Vec<u8>) {
    let mut open = None;
    loop {
        let left = capacity - list.len();
        let may_close = open.is_none() || open == Some(0);
        if left == 0 {
            return;
        }
        if left == 1 {
            list.push(lone(dice));
            return;
        }
        if may_close && (list.len() >= taste.stop || dice.one_in(taste.unlatch)) {
            list.push(UNLATCH);
            return;
        }
        let mut values = [0; 3];
        for (turn, value) in values.iter_mut().enumerate() {
            // A shift open at the symbol's end is refused, or filler: met there, but not at every end.
            let ends = left <= 3 && turn == 2 && !dice.one_in(4);
            *value = match open.take() {
                Some(shift) => shifted_value(dice, shift),
                None if !ends && dice.one_in(taste.shift) => {
                    open = Some(dice.below(3) as u8);
                    open.unwrap_or(0)
                }
                None if ends && dice.one_in(4) => {
                    open = Some(0);
                    0
                }
                None => basic_value(dice),
            };
        }
        list.extend(packed(values));
    }
}

/// Fills up to the capacity by the padding rule; one time in four with rubbish behind the 129.
fn pad_mostly_right(dice: &mut Dice, list: &mut Vec<u8>, capacity: usize) {
    let used = list.len();
    pad(list, capacity);
    if used < capacity && dice.one_in(4) {
        dice.fill(&mut list[used + 1..]);
    }
}

/// A list that is accepted and has `pads` pads or more, and its count of codewords before them.
pub fn padded_walk(dice: &mut Dice, capacity: usize, pads: usize) -> (Vec<u8>, usize) {
    loop {
        let list = walk(dice, capacity);
        match read_symbol(&list, LEAST_ROOM) {
            Ok(reading) if reading.used + pads <= capacity => return (list, reading.used),
            _ => {}
        }
    }
}

/// The lone last codeword in C40 mode, mostly a permitted one.
fn lone(dice: &mut Dice) -> u8 {
    match dice.below(8) {
        0 => dice.byte(),
        1 => PAD,
        2 | 3 => UNLATCH,
        _ => ascii_character(dice),
    }
}

/// One to three codewords become others, mostly ones that mean something.
pub fn change(dice: &mut Dice, list: &mut [u8]) {
    for _ in 0..dice.between(1, 3) {
        let place = dice.below(list.len());
        list[place] = if dice.one_in(2) { dice.byte() } else { dice.one_of(&CORNERS) };
    }
}

/// `count` codewords from some place on are lost and the rest moves up; the list then stays as short as it is,
/// or is cut down or filled up to a capacity.
pub fn lose(dice: &mut Dice, list: &mut Vec<u8>, count: usize) {
    let start = dice.below(list.len() - count + 1);
    list.drain(start..start + count);
    let length = list.len();
    match dice.below(8) {
        0 => {}
        1..=3 => {
            let lower = CAPACITIES.iter().rev().find(|&&capacity| capacity <= length);
            list.truncate(*lower.unwrap_or(&0));
        }
        _ => {
            let higher = CAPACITIES.iter().find(|&&capacity| capacity >= length);
            let filling = dice.below(3);
            let higher = *higher.unwrap_or(&length);
            if filling == 0 {
                pad(list, higher);
            }
            while list.len() < higher {
                list.push(if filling == 1 { dice.byte() } else { PAD });
            }
        }
    }
}

/// Codewords at the edges of the rules, and pairs of the paper's samples taken apart.
pub const CORNERS: [u8; 40] = [
    0, 1, 2, 3, 5, 6, 7, 12, 13, 33, 64, 65, 66, 87, 89, 91, 127, 128, 129, 130, 131, 142, 158, 175, 201, 217, 218,
    219, 220, 228, 229, 230, 231, 240, 249, 250, 251, 253, 254, 255,
];

pub fn corners(dice: &mut Dice, count: usize) -> Vec<u8> {
    (0..count).map(|_| dice.one_of(&CORNERS)).collect()
}

/// The sizes that can hold more than 1,000 characters.
const LARGE: [usize; 6] = [576, 696, 816, 1050, 1304, 1558];

/// The last part of a text near the limit: its codewords, begun in ASCII mode, and its characters.
struct Ending {
    codewords: Vec<u8>,
    characters: usize,
    /// Where it leaves the reader: true in C40 mode.
    in_c40: bool,
    /// Ends with the lone last codeword, so it must end the symbol.
    lone: bool,
}

pub const ENDINGS: usize = 14;

/// The last item is a character, a digit pair, a pair that yields 1 to 3 characters with or without a shift from the
/// pair before, a lone codeword, or a pair in which an unused value and the character too many meet.
fn ending(dice: &mut Dice, kind: usize) -> Ending {
    let shift = dice.below(3) as u8;
    let mut b = || basic_value(dice);
    let (b1, b2, b3, b4) = (b(), b(), b(), b());
    let s1 = shifted_value(dice, shift);
    let s2 = shifted_value(dice, shift);
    let bad = unused_value(dice, shift);
    let (pairs, mut characters): (Vec<[u8; 3]>, usize) = match kind {
        0 | 1 => (vec![], kind + 1),
        2 => (vec![[b1, b2, b3]], 3),
        3 => (vec![[shift, s1, b1]], 2),
        4 => (vec![[b1, shift, s1]], 2),
        5 => (vec![[shift, s1, 0]], 1),
        6 => (vec![[b1, b2, shift], [s1, b3, b4]], 5),
        7 => (vec![[b1, b2, shift], [s1, shift, s2]], 4),
        8 => (vec![[b1, b2, shift], [s1, b3, 0]], 4),
        9 => (vec![[b1, b2, b3]], 3),
        10 => (vec![[b1, b2, 0]], 2),
        11 => (vec![], 0),
        12 => (vec![[b1, shift, bad]], 1),
        _ => (vec![[b1, b2, b3], [shift, bad, b4]], 3),
    };
    let mut codewords = match kind {
        0 => vec![ascii_character(dice)],
        1 => vec![digit_pair(dice)],
        _ => vec![LATCH],
    };
    for values in pairs {
        codewords.extend(packed(values));
    }
    let lone = (9..=11).contains(&kind);
    if lone {
        codewords.push(ascii_character(dice));
        characters += 1;
    }
    Ending { codewords, characters, in_c40: kind >= 2 && !lone, lone }
}

/// A list in a large size whose text has, by its moves, `characters` characters and ends with the kind of item asked
/// for, either at the symbol's end or before padding.
pub fn near_limit(dice: &mut Dice, characters: usize, kind: usize) -> Vec<u8> {
    let mut end = ending(dice, kind);
    let capacity = dice.one_of(&LARGE);
    let full = end.lone || dice.one_in(2);
    if end.in_c40 && !(full && dice.one_in(2)) {
        end.codewords.push(UNLATCH);
    }
    let before = characters - end.characters;
    let most = capacity - end.codewords.len();
    // Half as many codewords as characters are the fewest possible; some more leave a choice.
    let count = if full { most } else { dice.between(before / 2 + 8, most) };
    let mut list = start_of(dice, count, before);
    list.extend(end.codewords);
    pad_mostly_right(dice, &mut list, capacity);
    list
}

/// Exactly `count` codewords that yield exactly `characters` characters and begin and end in ASCII mode.
fn start_of(dice: &mut Dice, count: usize, characters: usize) -> Vec<u8> {
    let (mut count, mut characters) = (count, characters);
    let mut parts: Vec<Vec<u8>> = Vec::new();
    // C40 parts, as long as digit pairs can still make up for what is left.
    for _ in 0..dice.below(40) {
        let pairs = dice.between(1, 20);
        let (cost, gain) = (2 * pairs + 2, 3 * pairs);
        if characters < gain + 100 || 2 * count < 2 * cost + (characters - gain) + 8 {
            continue;
        }
        let mut part = vec![LATCH];
        for _ in 0..pairs {
            part.extend(packed([basic_value(dice), basic_value(dice), basic_value(dice)]));
        }
        part.push(UNLATCH);
        parts.push(part);
        count -= cost;
        characters -= gain;
    }
    // Of `count` codewords, `empty` pairs 230 254 yield nothing, `doubles` yield two characters, the others one.
    let least = count.saturating_sub(characters) / 2 + 1;
    let most = (2 * count - characters) / 4;
    let empty = if least <= most { dice.between(least, most) } else { most };
    let doubles = characters + 2 * empty - count;
    for _ in 0..empty {
        parts.push(vec![LATCH, UNLATCH]);
    }
    for _ in 0..doubles {
        parts.push(vec![digit_pair(dice)]);
    }
    for _ in 0..characters - 2 * doubles {
        parts.push(vec![ascii_character(dice)]);
    }
    for last in (1..parts.len()).rev() {
        parts.swap(last, dice.below(last + 1));
    }
    parts.concat()
}
