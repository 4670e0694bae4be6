//! Lends lists and outputs to the library, calls it, and holds all that comes back against paper_text.rs: every part of
//! the answer, and every byte lent or standing beside what was lent.

use crate::ddoc::{self, Answer, Field, Header};
use crate::lists::{noise, Dice};
use crate::messages::Order;
use crate::paper::Refusal;
use crate::paper_rows::ROW_COUNT;
use crate::paper_text;
use crate::run;

/// Bytes, and records, before and behind what is lent that nobody may touch.
const GUARD: usize = 64;
const RECORDS: usize = 6;
/// A record is three words: row, cut mark and a byte without use; start; length.
const WORDS: usize = 3;
/// Differences printed for a group; the others are only counted.
const SHOWN: usize = 3;

/// Cases compared: how many were answered with each number (0: accepted), and how many differed.
#[derive(Clone)]
pub struct Tally {
    pub answers: [usize; 32],
    pub differences: usize,
    /// How often a row was in an accepted message, or was named by 29.
    pub rows: [usize; ROW_COUNT],
}

impl Default for Tally {
    fn default() -> Tally {
        Tally { answers: [0; 32], differences: 0, rows: [0; ROW_COUNT] }
    }
}

impl run::Tally for Tally {
    fn cases(&self) -> usize {
        self.answers.iter().sum()
    }

    fn differences(&self) -> usize {
        self.differences
    }

    fn add(&mut self, other: &Tally) {
        for (mine, theirs) in self.answers.iter_mut().zip(other.answers) {
            *mine += theirs;
        }
        for (mine, theirs) in self.rows.iter_mut().zip(other.rows) {
            *mine += theirs;
        }
        self.differences += other.differences;
    }

    fn told(&self) -> String {
        let refused = run::counts((1..self.answers.len()).filter(|&number| self.answers[number] > 0), &self.answers);
        let refused = if refused.is_empty() { "none" } else { &refused };
        format!("{} cases, {} accepted, refused {}", self.cases(), self.answers[0], refused)
    }
}

pub struct Bench {
    /// Random bytes, from which outputs and what stands behind the inputs are filled.
    pool: Vec<u8>,
    /// Random records as words. Their cut marks are 0 or 1, as everywhere.
    records: Vec<u32>,
    pub tally: Tally,
}

impl run::Compares for Bench {
    type Counts = Tally;

    fn tally(&mut self) -> &mut Tally {
        &mut self.tally
    }
}

impl Bench {
    pub fn new(dice: &mut Dice) -> Bench {
        let pool = noise(dice, 65_536);
        let mut records: Vec<u32> = (0..WORDS * 1024).map(|_| dice.next() as u32).collect();
        for word in records.iter_mut().step_by(WORDS) {
            *word &= 0xff01_ffff;
        }
        Bench { pool, records, tally: Tally::default() }
    }

    fn random_bytes(&self, dice: &mut Dice, count: usize) -> Vec<u8> {
        let start = dice.below(self.pool.len() - count);
        self.pool[start..start + count].to_vec()
    }

    /// A copy with random bytes behind it: reading past its end would not go unseen.
    fn followed(&self, dice: &mut Dice, bytes: &[u8]) -> Vec<u8> {
        let mut all = bytes.to_vec();
        all.extend(self.random_bytes(dice, GUARD));
        all
    }

    /// Counts an answer; true if a difference is to be shown.
    fn count(&mut self, number: usize, same: bool) -> bool {
        self.tally.answers[number] += 1;
        self.tally.differences += usize::from(!same);
        !same && self.tally.differences <= SHOWN
    }

    pub fn read(&mut self, dice: &mut Dice, text: &[u8], room: usize) {
        let input = self.followed(dice, text);
        let records = RECORDS + room + RECORDS;
        let start = WORDS * dice.below(self.records.len() / WORDS - records);
        let mut lent = self.records[start..start + WORDS * records].to_vec();
        let mut expected = lent.clone();

        let answer = ddoc::read_text(&input[..text.len()], records_in(&mut lent[WORDS * RECORDS..], room));
        let reading = paper_text::read_text(text, room);
        let right = right_message(&reading);
        if let Ok(message) = &reading {
            for (at, field) in message.fields.iter().enumerate() {
                let place = WORDS * (RECORDS + at);
                // The byte without use may be anything in a stored record.
                let unused = lent[place] & 0xff00_0000;
                expected[place] = u32::from(field.row) | u32::from(field.cut) << 16 | unused;
                expected[place + 1] = field.start;
                expected[place + 2] = field.length;
                self.tally.rows[usize::from(field.row)] += 1;
            }
        }
        if self.count(right.number, answer == right && lent == expected) {
            println!("difference: {} characters, room {}: \"{}\"", text.len(), room, text.escape_ascii());
            println!("  library: {:?}", answer);
            println!("  paper:   {:?}", right);
            match lent.iter().zip(&expected).position(|(is, should)| is != should) {
                Some(at) => println!(
                    "  lent list, record {}, word {}: is {:#010x}, should be {:#010x}",
                    (at / WORDS) as isize - RECORDS as isize,
                    at % WORDS,
                    lent[at],
                    expected[at]
                ),
                None => println!("  lent list: as it should be"),
            }
        }
    }

    /// The output is often too short by one, exact, or too long by one.
    pub fn write(&mut self, dice: &mut Dice, order: &Order) {
        let Order { header, fields, data, signature } = order;
        let length = order.length();
        let room = match dice.below(8) {
            0 => length.saturating_sub(1),
            1 => length,
            2 => length + 1,
            3 if dice.one_in(4) => dice.one_of(&[0, 1, 25, 999]),
            _ => dice.one_of(&[1000, 1001, 2000]),
        };
        let (data_room, signature_room) = (self.followed(dice, data), self.followed(dice, signature));
        let mut lent = self.random_bytes(dice, GUARD + room + GUARD);
        let mut expected = lent.clone();

        let out = &mut lent[GUARD..GUARD + room];
        let answer =
            ddoc::write_text(*header, fields, &data_room[..data.len()], &signature_room[..signature.len()], out);
        let writing = paper_text::write_text(header, fields, data, signature, room);
        let right = right_answer(&writing, Vec::len);
        if let Ok(text) = &writing {
            expected[GUARD..GUARD + text.len()].copy_from_slice(text);
            for field in fields {
                self.tally.rows[usize::from(field.row)] += 1;
            }
        }
        if self.count(right.number, answer == right && lent == expected) {
            println!("difference: room {}, {:?}", room, header);
            println!("  {:?} over {} bytes: \"{}\"", fields, data.len(), data.escape_ascii());
            println!("  signature of {} bytes: {:?}", signature.len(), signature);
            println!("  library: {:?}", answer);
            println!("  paper:   {:?}", right);
            match lent.iter().zip(&expected).position(|(is, should)| is != should) {
                Some(at) => println!(
                    "  output, place {}: is {}, should be {}",
                    at as isize - GUARD as isize,
                    lent[at],
                    expected[at]
                ),
                None => println!("  output: as it should be"),
            }
        }
    }

    pub fn conform(&mut self, document_type: [u8; 2], fields: &[Field]) {
        let answer = ddoc::conformity(document_type, fields);
        let conforming = paper_text::conformity(document_type, fields);
        let right = right_answer(&conforming, |_| 0);
        if right.number == 29 {
            self.tally.rows[right.place] += 1;
        }
        if self.count(right.number, answer == right) {
            let rows: Vec<u16> = fields.iter().map(|field| field.row).collect();
            println!("difference: type \"{}\", rows {:?}", document_type.escape_ascii(), rows);
            println!("  library: {:?}", answer);
            println!("  paper:   {:?}", right);
        }
    }

    /// What the library reads and writes again is the same text, of the signed part, the mark and the signature.
    pub fn read_and_write(&mut self, text: &[u8]) {
        let mut list = [EMPTY; paper_text::MOST_FIELDS];
        let message = ddoc::read_text(text, &mut list);
        let mut out = vec![0; text.len()];
        let fields = &list[..message.fields.min(list.len())];
        let signature = &message.signature[..message.signature_length.min(132)];
        let answer = ddoc::write_text(message.header, fields, text, signature, &mut out);
        let same = message.number == 0
            && answer == (Answer { number: 0, place: 0, length: text.len(), used: 0 })
            && out == text
            && text.get(message.signed_length) == Some(&31);
        if self.count(0, same) {
            println!("difference: \"{}\"", text.escape_ascii());
            println!("  read:    {:?}", message);
            println!("  written: {:?}, \"{}\"", answer, out.escape_ascii());
        }
    }

    /// What was written is read as the same message: all but where the data start, and what the version lacks.
    pub fn write_and_read(&mut self, order: &Order) {
        let mut out = vec![0; 1000];
        let answer = ddoc::write_text(order.header, &order.fields, &order.data, &order.signature, &mut out);
        let text = &out[..answer.length.min(1000)];
        let mut list = [EMPTY; paper_text::MOST_FIELDS];
        let message = ddoc::read_text(text, &mut list);
        let fields = &list[..message.fields.min(list.len())];
        let parts = |fields: &[Field], data: &[u8]| -> Vec<(u16, bool, Option<Vec<u8>>)> {
            fields.iter().map(|field| (field.row, field.cut, data_of(field, data))).collect()
        };
        let same = answer.number == 0
            && message.number == 0
            && message.header == without_lacking_parts(order.header)
            && parts(fields, text) == parts(&order.fields, &order.data)
            && message.signature[..message.signature_length.min(132)] == order.signature;
        if self.count(0, same) {
            println!("difference: {:?}, {:?}", order.header, order.fields);
            println!("  written: {:?}, \"{}\"", answer, text.escape_ascii());
            println!("  read:    {:?}, {:?}", message, fields);
        }
    }
}

const EMPTY: Field = Field { row: 0, cut: false, start: 0, length: 0 };

/// The words as `room` records. Every word holds a record's right bytes, so that they can be seen as records.
fn records_in(words: &mut [u32], room: usize) -> &mut [Field] {
    assert!(WORDS * room <= words.len() && std::mem::size_of::<Field>() == 4 * WORDS);
    unsafe { std::slice::from_raw_parts_mut(words.as_mut_ptr().cast(), room) }
}

fn data_of(field: &Field, data: &[u8]) -> Option<Vec<u8>> {
    let start = field.start as usize;
    data.get(start..start + field.length as usize).map(<[u8]>::to_vec)
}

/// What the version lacks is zero after reading.
fn without_lacking_parts(mut header: Header) -> Header {
    if header.version == *b"02" {
        header.perimeter = [0, 0];
    }
    if header.version != *b"04" {
        header.country = [0, 0];
    }
    header
}

fn right_answer<T>(result: &Result<T, Refusal>, length: impl Fn(&T) -> usize) -> Answer {
    match result {
        Ok(accepted) => Answer { number: 0, place: 0, length: length(accepted), used: 0 },
        Err(refusal) => Answer { number: refusal.number, place: refusal.place, length: 0, used: 0 },
    }
}

fn right_message(reading: &Result<paper_text::Message, Refusal>) -> ddoc::Message {
    let mut right = ddoc::Message {
        number: 0,
        place: 0,
        fields: 0,
        signature_length: 0,
        signed_length: 0,
        header: Header::default(),
        signature: [0; 132],
    };
    match reading {
        Ok(message) => {
            right.fields = message.fields.len();
            right.signature_length = message.signature.len();
            right.signed_length = message.signed_length;
            right.header = message.header;
            right.signature[..message.signature.len()].copy_from_slice(&message.signature);
        }
        Err(refusal) => {
            right.number = refusal.number;
            right.place = refusal.place;
        }
    }
    right
}
