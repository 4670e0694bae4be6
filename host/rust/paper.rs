//! Reading a symbol, written from documents 01 and 02 alone and made to be read beside them, not to be fast.
//! The tests hold the library against it. Each rule is quoted where it is applied.

/// "The 24 square sizes hold, in data codewords"
pub const CAPACITIES: [usize; 24] =
    [3, 5, 8, 12, 18, 22, 30, 36, 44, 62, 86, 114, 144, 174, 204, 280, 368, 456, 576, 696, 816, 1050, 1304, 1558];

/// "A text has at most 1,000 characters"
pub const LONGEST_TEXT: usize = 1000;

/// "A reading call is lent 1,000 bytes or more of text"
pub const LEAST_ROOM: usize = 1000;

// "Numbers that come back"
const NO_CAPACITY: usize = 1;
const FORBIDDEN_CODEWORD: usize = 2;
const PAIR_OUTSIDE: usize = 3;
const VALUE_OR_SHIFT: usize = 4;
const TOO_LONG: usize = 5;
const ROOM_TOO_SHORT: usize = 6;
pub const WRONG_PAD: usize = 39;

#[derive(Debug, PartialEq, Eq)]
pub struct Reading {
    pub text: Vec<u8>,
    /// The codewords before the first pad, all of them if there is no pad.
    pub used: usize,
}

/// "A refusal returns its number and a place"
#[derive(Debug, PartialEq, Eq)]
pub struct Refusal {
    pub number: usize,
    pub place: usize,
}

#[derive(Clone, Copy, PartialEq)]
pub enum Mode {
    Ascii,
    C40,
}

/// The set that the next C40 value is looked up in.
#[derive(Clone, Copy, PartialEq)]
pub enum Set {
    Basic,
    One,
    Two,
    Three,
}

pub struct Reader<'a> {
    pub codewords: &'a [u8],
    pub place: usize,
    pub mode: Mode,
    pub set: Set,
    pub text: Vec<u8>,
}

/// "Order, symbol reading: 1, 6, then left to right"; 39 "after the whole text has been read without refusal"
pub fn read_symbol(codewords: &[u8], room: usize) -> Result<Reading, Refusal> {
    if !CAPACITIES.contains(&codewords.len()) {
        return refuse(NO_CAPACITY, 0);
    }
    if room < LEAST_ROOM {
        return refuse(ROOM_TOO_SHORT, 0);
    }
    // "The reader starts in ASCII mode."
    let mut reader = Reader { codewords, place: 0, mode: Mode::Ascii, set: Set::Basic, text: Vec::new() };
    loop {
        if let Some(used) = reader.step()? {
            look_at_pads(codewords, used)?;
            return Ok(Reading { text: reader.text, used });
        }
    }
}

/// "every pad must be what the padding rule gives": the codewords before the first pad are padded anew, and nothing may differ.
fn look_at_pads(codewords: &[u8], used: usize) -> Result<(), Refusal> {
    let mut right = codewords[..used].to_vec();
    pad(&mut right, codewords.len());
    match right.iter().zip(codewords).position(|(right, codeword)| right != codeword) {
        Some(place) => refuse(WRONG_PAD, place),
        None => Ok(()),
    }
}

/// "Padding starts with 129. A later pad at place p (the first codeword is place 1) is 129 + ((149p mod 253) + 1), less 254
/// if above 254."
pub fn pad(symbol: &mut Vec<u8>, capacity: usize) {
    let used = symbol.len();
    for p in used + 1..=capacity {
        let later = 129 + ((149 * p) % 253 + 1);
        let pad = match later {
            _ if p == used + 1 => 129,
            255.. => later - 254,
            _ => later,
        };
        symbol.push(pad as u8);
    }
}

fn refuse<T>(number: usize, place: usize) -> Result<T, Refusal> {
    Err(Refusal { number, place })
}

impl Reader<'_> {
    /// What is read in one go. Some(used) when the text has ended.
    pub fn step(&mut self) -> Result<Option<usize>, Refusal> {
        match self.mode {
            Mode::Ascii => self.ascii_step(),
            Mode::C40 => self.c40_step(),
        }
    }

    /// One codeword in ASCII mode. Some(used) when the text has ended.
    fn ascii_step(&mut self) -> Result<Option<usize>, Refusal> {
        let place = self.place;
        if place == self.codewords.len() {
            return Ok(Some(place));
        }
        let codeword = self.codewords[place];
        self.place += 1;
        match codeword {
            // "1 to 128 is character codeword minus 1"
            1..=128 => self.push(codeword - 1, place)?,
            // "129 ends the text"; document 02 looks at the codewords after it, once the text has been read
            129 => return Ok(Some(place)),
            // "130 to 229 is two digits, codeword minus 130"
            130..=229 => {
                self.push(b'0' + (codeword - 130) / 10, place)?;
                self.push(b'0' + (codeword - 130) % 10, place)?;
            }
            // "230 latches to C40"
            230 => {
                self.mode = Mode::C40;
                self.set = Set::Basic;
            }
            // "0 and 231 to 255 are refused"
            0 | 231..=255 => return refuse(FORBIDDEN_CODEWORD, place),
        }
        Ok(None)
    }

    /// A pair, an unlatch, the lone last codeword or the end in C40 mode.
    fn c40_step(&mut self) -> Result<Option<usize>, Refusal> {
        let place = self.place;
        let count = self.codewords.len();
        match self.codewords[place..] {
            // "None left: the text ends."
            [] => {
                self.close_shift(count)?;
                Ok(Some(count))
            }
            // "one left: 254 ends, 1 to 128 is that character minus 1, all else is refused";
            // "at a lone codeword 4 before 2"
            [codeword] => {
                self.close_shift(place)?;
                match codeword {
                    254 => {}
                    1..=128 => self.push(codeword - 1, place)?,
                    _ => return refuse(FORBIDDEN_CODEWORD, place),
                }
                Ok(Some(count))
            }
            // "two or more codewords left: 254 returns to ASCII"
            [254, ..] => {
                self.close_shift(place)?;
                self.mode = Mode::Ascii;
                self.place += 1;
                Ok(None)
            }
            // "Otherwise take a and b"
            [a, b, ..] => {
                self.pair(a, b, place)?;
                self.place += 2;
                Ok(None)
            }
        }
    }

    /// "A shift 1 with nothing after it, at codeword 254, at the lone last codeword or at the end, is filler and
    /// vanishes. A shift 2 or 3 there is refused."
    fn close_shift(&mut self, place: usize) -> Result<(), Refusal> {
        match self.set {
            Set::Basic => Ok(()),
            Set::One => {
                self.set = Set::Basic;
                Ok(())
            }
            Set::Two | Set::Three => refuse(VALUE_OR_SHIFT, place),
        }
    }

    /// "v = 256a + b - 1, which must be 0 to 63,999. Values: v / 1600, then v / 40 mod 40, then v mod 40."
    /// "in a pair 3 first, then its values in turn (4, 5)"
    fn pair(&mut self, a: u8, b: u8, place: usize) -> Result<(), Refusal> {
        let v = 256 * i32::from(a) + i32::from(b) - 1;
        if !(0..=63_999).contains(&v) {
            return refuse(PAIR_OUTSIDE, place);
        }
        for value in [v / 1600, v / 40 % 40, v % 40] {
            self.value(value as u8, place)?;
        }
        Ok(())
    }

    fn value(&mut self, value: u8, place: usize) -> Result<(), Refusal> {
        let character = match (self.set, value) {
            // "Basic set: 0, 1, 2 shift the next value to set 1, 2, 3"
            (Set::Basic, 0..=2) => {
                self.set = [Set::One, Set::Two, Set::Three][usize::from(value)];
                return Ok(());
            }
            // "3 is the space; 4 to 13 are 0 to 9; 14 to 39 are A to Z"
            (Set::Basic, 3) => b' ',
            (Set::Basic, 4..=13) => b'0' + (value - 4),
            (Set::Basic, 14..=39) => b'A' + (value - 14),
            // "Set 1: 0 to 31 are characters 0 to 31."
            (Set::One, 0..=31) => value,
            // "Set 2: 0 to 14 are 33 to 47, 15 to 21 are 58 to 64, 22 to 26 are 91 to 95."
            (Set::Two, 0..=14) => 33 + value,
            (Set::Two, 15..=21) => 58 + (value - 15),
            (Set::Two, 22..=26) => 91 + (value - 22),
            // "Set 3: 0 to 31 are 96 to 127."
            (Set::Three, 0..=31) => 96 + value,
            // "Other values are refused, FNC1 and upper shift among them."
            _ => return refuse(VALUE_OR_SHIFT, place),
        };
        self.set = Set::Basic;
        self.push(character, place)
    }

    /// "5 is given at the 1,001st character."
    fn push(&mut self, character: u8, place: usize) -> Result<(), Refusal> {
        if self.text.len() == LONGEST_TEXT {
            return refuse(TOO_LONG, place);
        }
        self.text.push(character);
        Ok(())
    }
}
