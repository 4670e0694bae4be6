//! Writing a symbol, written from document 01 alone and made to be read beside it, not to be fast. For every place in the
//! text and every state of the reader there it holds the set of all numbers of codewords that can still follow; what is
//! smallest, fewest and largest is read off these sets. Below it is a search through all lists, for very small sizes.

use crate::paper::{pad, Mode, Reader, Refusal, Set, CAPACITIES, LONGEST_TEXT};
use std::collections::{HashMap, HashSet};

/// "The symbol writer is lent a work slice of at least 8,192 sixteen-bit numbers"
pub const LEAST_WORK: usize = 8192;

// "Numbers that come back"
pub const TOO_LONG: usize = 5;
pub const SLICE_TOO_SHORT: usize = 6;
pub const ABOVE_127: usize = 7;
pub const NO_CAPACITY: usize = 8;
pub const NONE_FITS: usize = 9;

#[derive(Clone, Debug, PartialEq, Eq)]
pub struct Writing {
    pub symbol: Vec<u8>,
    /// The codewords before the first pad, all of them if there is no pad.
    pub used: usize,
}

pub struct Answer {
    pub result: Result<Writing, Refusal>,
    /// "its first 8,192 entries are zero on return", or untouched.
    pub work_zeroed: bool,
}

/// The writer of one text, to be asked as often as wanted.
pub struct Writer<'a> {
    text: &'a [u8],
    counts: Counts,
}

impl Writer<'_> {
    pub fn new(text: &[u8]) -> Writer<'_> {
        // A text that is refused whatever else is asked needs no sets.
        let known = if text_refusal(text).is_some() { &[] } else { text };
        Writer { text, counts: Counts::new(known) }
    }

    /// "Symbol writing: 5, 7 at the first, 8, 6 for the work slice, 9, 6 for an output shorter than the symbol chosen."
    /// "When it is too short, or the refusal is 5, 7 or 8, all of it is untouched."
    pub fn write(&self, largest: usize, work: usize, room: usize) -> Answer {
        let untouched = |refusal| Answer { result: Err(refusal), work_zeroed: false };
        let zeroed = |result| Answer { result, work_zeroed: true };
        if let Some(refusal) = text_refusal(self.text) {
            return untouched(refusal);
        }
        if !CAPACITIES.contains(&largest) {
            return untouched(Refusal { number: NO_CAPACITY, place: 0 });
        }
        if work < LEAST_WORK {
            return untouched(Refusal { number: SLICE_TOO_SHORT, place: 0 });
        }
        let capacity = match self.capacity(0) {
            Some(capacity) if capacity <= largest => capacity,
            _ => return zeroed(Err(Refusal { number: NONE_FITS, place: 0 })),
        };
        if room < capacity {
            return zeroed(Err(Refusal { number: SLICE_TOO_SHORT, place: 0 }));
        }
        zeroed(Ok(self.symbol(capacity)))
    }

    /// "The smallest capacity with a sequence that reads as the text": here of the text from a place on.
    pub fn capacity(&self, place: usize) -> Option<usize> {
        let least = self.counts.least(place);
        CAPACITIES.into_iter().find(|&capacity| least < capacity || self.counts.has(Ending::Full, place, State::Ascii, capacity))
    }

    /// "within it the fewest codewords before the first pad (all of them if there is no pad)"
    fn symbol(&self, capacity: usize) -> Writing {
        let least = self.counts.least(0);
        let mut writing = if least < capacity {
            Writing { symbol: self.largest_sequence(Ending::Padded, least), used: least }
        } else {
            Writing { symbol: self.largest_sequence(Ending::Full, capacity), used: capacity }
        };
        pad(&mut writing.symbol, capacity);
        writing
    }

    /// "among those, at the first of these codewords that differs, the larger wins": the reader goes one way only, so the
    /// largest move that still comes out at the count is always right.
    fn largest_sequence(&self, ending: Ending, count: usize) -> Vec<u8> {
        let mut sequence = Vec::new();
        let (mut place, mut state) = (0, State::Ascii);
        while sequence.len() < count {
            let left = count - sequence.len();
            let best = moves(self.text, place, state)
                .filter(|go| go.count <= left && self.counts.has(ending, go.place, go.state, left - go.count))
                .max_by_key(|go| go.codewords)
                .expect("the sets say that there is a move");
            sequence.extend(&best.codewords[..best.count]);
            place = best.place;
            state = best.state;
        }
        sequence
    }
}

fn text_refusal(text: &[u8]) -> Option<Refusal> {
    // "A text has at most 1,000 characters, each 0 to 127." The place is "0 .. for 5 in symbol writing".
    if text.len() > LONGEST_TEXT {
        return Some(Refusal { number: TOO_LONG, place: 0 });
    }
    let place = text.iter().position(|&character| character > 127)?;
    Some(Refusal { number: ABOVE_127, place })
}

// ---- the reader's moves, as far as they go along the text

/// Where the reader stands between two moves.
#[derive(Clone, Copy)]
enum State {
    Ascii,
    /// Before a pair; the set is the one that the next value is looked up in.
    C40(Set),
    /// Behind the lone last codeword.
    End,
}

const STATES: [State; 6] =
    [State::Ascii, State::C40(Set::Basic), State::C40(Set::One), State::C40(Set::Two), State::C40(Set::Three), State::End];

/// One or two codewords that are read in one go, and where the reader stands then.
struct Move {
    codewords: [u8; 2],
    count: usize,
    place: usize,
    state: State,
}

/// All moves that agree with the text from `place` on.
fn moves(text: &[u8], place: usize, state: State) -> Box<dyn Iterator<Item = Move> + '_> {
    match state {
        State::Ascii => Box::new(ascii_moves(text, place).into_iter().flatten()),
        State::C40(set) => Box::new(c40_singles(text, place, set).into_iter().flatten().chain(pairs(text, place, set))),
        State::End => Box::new(std::iter::empty()),
    }
}

fn single(codeword: u8, place: usize, state: State) -> Option<Move> {
    Some(Move { codewords: [codeword, 0], count: 1, place, state })
}

fn ascii_moves(text: &[u8], place: usize) -> [Option<Move>; 3] {
    let rest = &text[place..];
    [
        // "1 to 128 is character codeword minus 1"
        rest.first().and_then(|character| single(character + 1, place + 1, State::Ascii)),
        // "130 to 229 is two digits, codeword minus 130"
        match rest {
            [a @ b'0'..=b'9', b @ b'0'..=b'9', ..] => single(130 + 10 * (a - b'0') + (b - b'0'), place + 2, State::Ascii),
            _ => None,
        },
        // "230 latches to C40"
        single(230, place, State::C40(Set::Basic)),
    ]
}

/// "A shift 1 with nothing after it, at codeword 254, at the lone last codeword or at the end, is filler and vanishes. A
/// shift 2 or 3 there is refused."
fn may_stop(set: Set) -> bool {
    set == Set::Basic || set == Set::One
}

fn c40_singles(text: &[u8], place: usize, set: Set) -> [Option<Move>; 2] {
    if !may_stop(set) {
        return [None, None];
    }
    [
        // "two or more codewords left: 254 returns to ASCII"; "one left: 254 ends", which is the same with nothing behind it
        single(254, place, State::Ascii),
        // "one left: .. 1 to 128 is that character minus 1"
        text.get(place).and_then(|character| single(character + 1, place + 1, State::End)),
    ]
}

/// "v = 256a + b - 1 .. Values: v / 1600, then v / 40 mod 40, then v mod 40."
fn pairs(text: &[u8], place: usize, set: Set) -> impl Iterator<Item = Move> + '_ {
    let first = values(text, place, set).into_iter().flatten();
    let second = first.flat_map(move |(x, place, set)| {
        values(text, place, set).into_iter().flatten().map(move |(y, place, set)| (40 * x + y, place, set))
    });
    second.flat_map(move |(xy, place, set)| {
        values(text, place, set).into_iter().flatten().map(move |(z, place, set)| {
            let sum = 40 * xy + z + 1;
            Move { codewords: [(sum / 256) as u8, (sum % 256) as u8], count: 2, place, state: State::C40(set) }
        })
    })
}

/// The values that may stand next, each with the place in the text and the set behind it.
fn values(text: &[u8], place: usize, set: Set) -> [Option<(usize, usize, Set)>; 4] {
    let character = text.get(place).map(|&character| value_of(character)).filter(|&(of, _)| of == set);
    let character = character.map(|(_, value)| (usize::from(value), place + 1, Set::Basic));
    if set == Set::Basic {
        // "Basic set: 0, 1, 2 shift the next value to set 1, 2, 3"
        [character, Some((0, place, Set::One)), Some((1, place, Set::Two)), Some((2, place, Set::Three))]
    } else {
        [character, None, None, None]
    }
}

/// A character's set, and its value there.
fn value_of(character: u8) -> (Set, u8) {
    match character {
        // "3 is the space; 4 to 13 are 0 to 9; 14 to 39 are A to Z"
        b' ' => (Set::Basic, 3),
        b'0'..=b'9' => (Set::Basic, 4 + (character - b'0')),
        b'A'..=b'Z' => (Set::Basic, 14 + (character - b'A')),
        // "Set 1: 0 to 31 are characters 0 to 31."
        0..=31 => (Set::One, character),
        // "Set 2: 0 to 14 are 33 to 47, 15 to 21 are 58 to 64, 22 to 26 are 91 to 95."
        33..=47 => (Set::Two, character - 33),
        58..=64 => (Set::Two, 15 + (character - 58)),
        91..=95 => (Set::Two, 22 + (character - 91)),
        // "Set 3: 0 to 31 are 96 to 127."
        _ => (Set::Three, character - 96),
    }
}

// ---- the numbers of codewords that can still follow

/// How the codewords end: with the symbol, or before the first pad, which is read in ASCII mode.
#[derive(Clone, Copy, PartialEq)]
enum Ending {
    Full,
    Padded,
}

const ENDINGS: [Ending; 2] = [Ending::Full, Ending::Padded];

/// For each ending, place and state a set of numbers, a bit for each: exactly so many codewords can follow there and read as
/// the rest of the text.
struct Counts {
    words: usize,
    bits: Vec<u64>,
    /// Whether a set has any number in it.
    any: Vec<bool>,
}

impl Counts {
    fn new(text: &[u8]) -> Counts {
        // One codeword for each character always does, so no larger number than the capacity above that is asked for.
        let most = CAPACITIES.iter().find(|&&capacity| capacity > text.len()).expect("1,050 is above 1,000");
        let words = most / 64 + 1;
        let sets = (text.len() + 1) * STATES.len() * ENDINGS.len();
        let mut counts = Counts { words, bits: vec![0; sets * words], any: vec![false; sets] };
        counts.end(Ending::Padded, text.len(), State::Ascii);
        // "None left: the text ends."
        for state in [State::Ascii, State::C40(Set::Basic), State::C40(Set::One), State::End] {
            counts.end(Ending::Full, text.len(), state);
        }
        for place in (0..=text.len()).rev() {
            for state in STATES {
                for go in moves(text, place, state).filter(|go| go.place > place) {
                    counts.join((place, state), (go.place, go.state), go.count);
                }
            }
            // The moves that stay at the place: 230, 254 from the basic set and from set 1, and the first two in turn any
            // number of times, which adds 2, 4, 6 and so on.
            let [ascii, basic, one] = [State::Ascii, State::C40(Set::Basic), State::C40(Set::One)].map(|state| (place, state));
            counts.join(ascii, basic, 1);
            for more in (1..11).map(|power| 1 << power).take_while(|more| *more < 64 * words) {
                counts.join(ascii, ascii, more);
            }
            counts.join(basic, ascii, 1);
            counts.join(one, ascii, 1);
        }
        counts
    }

    /// No codeword need follow here.
    fn end(&mut self, ending: Ending, place: usize, state: State) {
        let set = slot(ending, place, state);
        self.bits[set * self.words] |= 1;
        self.any[set] = true;
    }

    /// The numbers of one set, each `more` larger, join another. Those too large to be of interest get lost.
    fn join(&mut self, to: (usize, State), from: (usize, State), more: usize) {
        let (whole, part) = (more / 64, more % 64);
        for ending in ENDINGS {
            let (to, from) = (slot(ending, to.0, to.1), slot(ending, from.0, from.1));
            if !self.any[from] {
                continue;
            }
            self.any[to] = true;
            let (to, from) = (to * self.words, from * self.words);
            for word in (whole..self.words).rev() {
                let mut bits = self.bits[from + word - whole] << part;
                if part > 0 && word > whole {
                    bits |= self.bits[from + word - whole - 1] >> (64 - part);
                }
                self.bits[to + word] |= bits;
            }
        }
    }

    fn has(&self, ending: Ending, place: usize, state: State, number: usize) -> bool {
        let set = slot(ending, place, state) * self.words;
        number / 64 < self.words && self.bits[set + number / 64] >> (number % 64) & 1 == 1
    }

    /// The least number before a pad, of the text from a place on.
    fn least(&self, place: usize) -> usize {
        let least = (0..64 * self.words).find(|&number| self.has(Ending::Padded, place, State::Ascii, number));
        least.expect("a codeword for each character")
    }
}

/// The place of a set among all sets.
fn slot(ending: Ending, place: usize, state: State) -> usize {
    let number = match state {
        State::Ascii => 0,
        State::C40(set) => 1 + set as usize,
        State::End => 5,
    };
    (place * STATES.len() + number) * ENDINGS.len() + ending as usize
}

// ---- all lists

/// A pair that the reader accepts: the characters it yields, and the set that it leaves open.
struct Pair {
    codewords: [u8; 2],
    characters: Vec<u8>,
    set: Set,
}

/// All pairs that the reader accepts, by the set that is open before.
pub struct Pairs([Vec<Pair>; 4]);

impl Pairs {
    pub fn new() -> Pairs {
        Pairs([Set::Basic, Set::One, Set::Two, Set::Three].map(|set| {
            let all = (0..=255).flat_map(|a| (0..=255).map(move |b| [a, b])).filter(|&[a, _]| a != 254);
            let accepted = all.filter_map(|codewords| {
                let mut reader = Reader { codewords: &codewords, place: 0, mode: Mode::C40, set, text: Vec::new() };
                reader.step().ok()?;
                Some(Pair { codewords, characters: reader.text, set: reader.set })
            });
            accepted.collect()
        }))
    }

    /// Those of them whose characters stand somewhere in one of the texts.
    fn within(&self, texts: &HashSet<Vec<u8>>) -> [Vec<&Pair>; 4] {
        let parts: HashSet<&[u8]> = texts.iter().flat_map(|text| (1..=3).flat_map(move |length| text.windows(length))).collect();
        [0, 1, 2, 3].map(|set| self.0[set].iter().filter(|pair| parts.contains(&pair.characters[..])).collect())
    }
}

/// Every list of `capacity` codewords that begins like one of the texts goes through the reader, and each text, and each
/// beginning of one, is given the best of its lists. Nothing is known here but how the reader reads.
pub fn best_of_all_lists(capacity: usize, texts: &[Vec<u8>], pairs: &Pairs) -> HashMap<Vec<u8>, Writing> {
    let texts = texts.iter().flat_map(|text| (0..=text.len()).map(move |length| text[..length].to_vec())).collect();
    let mut search = Search { list: vec![0; capacity], pairs: pairs.within(&texts), texts, best: HashMap::new() };
    search.go_on(0, Mode::Ascii, Set::Basic, &mut Vec::new());
    for writing in search.best.values_mut() {
        pad(&mut writing.symbol, capacity);
    }
    search.best
}

struct Search<'a> {
    list: Vec<u8>,
    pairs: [Vec<&'a Pair>; 4],
    texts: HashSet<Vec<u8>>,
    best: HashMap<Vec<u8>, Writing>,
}

impl Search<'_> {
    /// All ways to go on from where the reader stands; what it has read before stands in the list.
    fn go_on(&mut self, place: usize, mode: Mode, set: Set, text: &mut Vec<u8>) {
        let left = self.list.len() - place;
        if left == 0 {
            return self.step(place, mode, set, text);
        }
        if left >= 2 && mode == Mode::C40 {
            self.all_pairs(place, set, text);
            self.list[place] = 254;
            return self.step(place, mode, set, text);
        }
        for codeword in 0..=255 {
            self.list[place] = codeword;
            self.step(place, mode, set, text);
        }
    }

    fn all_pairs(&mut self, place: usize, set: Set, text: &mut Vec<u8>) {
        let before = text.len();
        for turn in 0..self.pairs[set as usize].len() {
            let pair = self.pairs[set as usize][turn];
            text.extend(&pair.characters);
            if self.texts.contains(text) {
                self.list[place..place + 2].copy_from_slice(&pair.codewords);
                self.go_on(place + 2, Mode::C40, pair.set, text);
            }
            text.truncate(before);
        }
    }

    fn step(&mut self, place: usize, mode: Mode, set: Set, text: &mut Vec<u8>) {
        let before = text.len();
        let mut reader = Reader { codewords: &self.list, place, mode, set, text: std::mem::take(text) };
        let end = reader.step();
        let (place, mode, set) = (reader.place, reader.mode, reader.set);
        *text = reader.text;
        match end {
            Ok(None) if self.texts.contains(text) => self.go_on(place, mode, set, text),
            Ok(Some(used)) if self.texts.contains(text) => self.keep(text, used),
            _ => {}
        }
        text.truncate(before);
    }

    fn keep(&mut self, text: &[u8], used: usize) {
        let sequence = &self.list[..used];
        let better = match self.best.get(text) {
            Some(old) => used < old.used || used == old.used && sequence > &old.symbol[..],
            None => true,
        };
        if better {
            self.best.insert(text.to_vec(), Writing { symbol: sequence.to_vec(), used });
        }
    }
}
