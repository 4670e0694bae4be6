//! New rows must not disturb old readings (document 02, K10): made-up rows are put into the independent implementation's table, wherever it
//! may be, and its readings are held against the library's, which does not know them. What the library accepts is accepted as the same message,
//! its fields by identifier; what it refuses is refused with the same number at the same place, unless that was 16.
//! `more_rows [SEED]`; each group of texts is one test.

mod ddoc;
#[allow(dead_code)] // the codewords
mod lists;
#[allow(dead_code)] // what is written
mod messages;
#[allow(dead_code)]
mod paper;
#[allow(dead_code)] // conformity
mod paper_rows;
#[allow(dead_code)]
mod paper_text;
mod run;

use lists::Dice;
use messages::Laid;
use paper::Refusal;
use paper_rows::{Characters, Row, ROWS};
use paper_text::{Message, MOST_FIELDS};
use run::Run;

const USUAL_SEED: u64 = 20_240_816;
/// Differences printed for a group; the others are only counted.
const SHOWN: usize = 3;
/// Each way that a reading stands or changes has to be met this often.
const LEAST: usize = 1000;
const UNKNOWN_IDENTIFIER: usize = 16;

/// Texts read with and without the new rows, by what became of the reading.
#[derive(Clone, Default)]
struct Tally {
    accepted: usize,
    refused: usize,
    still_unknown: usize,
    now_accepted: usize,
    now_refused: usize,
    differences: usize,
}

impl run::Tally for Tally {
    fn cases(&self) -> usize {
        self.accepted + self.refused + self.still_unknown + self.now_accepted + self.now_refused
    }

    fn differences(&self) -> usize {
        self.differences
    }

    fn add(&mut self, other: &Tally) {
        self.accepted += other.accepted;
        self.refused += other.refused;
        self.still_unknown += other.still_unknown;
        self.now_accepted += other.now_accepted;
        self.now_refused += other.now_refused;
        self.differences += other.differences;
    }

    fn told(&self) -> String {
        format!(
            "{} texts: {} accepted and {} refused as before; of those refused with 16, {} still are, {} are accepted now and {} refused otherwise",
            self.cases(),
            self.accepted,
            self.refused,
            self.still_unknown,
            self.now_accepted,
            self.now_refused
        )
    }
}

#[derive(Default)]
struct Bench {
    tally: Tally,
}

impl run::Compares for Bench {
    type Counts = Tally;

    fn tally(&mut self) -> &mut Tally {
        &mut self.tally
    }
}

impl Bench {
    /// `rows`: the table with the new rows in it.
    fn compare(&mut self, rows: &[Row], text: &[u8]) {
        let mut fields = [ddoc::Field { row: 0, cut: false, start: 0, length: 0 }; MOST_FIELDS];
        let old = ddoc::read_text(text, &mut fields);
        let new = paper_text::read_text_by(rows, text, MOST_FIELDS);
        let stands = match (old.number, &new) {
            (0, Ok(message)) => same(&old, &fields[..old.fields], message, rows),
            (0, Err(_)) => false,
            (UNKNOWN_IDENTIFIER, _) => true,
            (number, _) => new == Err(Refusal { number, place: old.place }),
        };
        let tally = &mut self.tally;
        *match (old.number, &new) {
            (0, _) => &mut tally.accepted,
            (UNKNOWN_IDENTIFIER, Ok(_)) => &mut tally.now_accepted,
            (UNKNOWN_IDENTIFIER, Err(refusal)) if refusal.number == UNKNOWN_IDENTIFIER => &mut tally.still_unknown,
            (UNKNOWN_IDENTIFIER, Err(_)) => &mut tally.now_refused,
            _ => &mut tally.refused,
        } += 1;
        if !stands {
            tally.differences += 1;
            if tally.differences <= SHOWN {
                println!("difference: \"{}\"", text.escape_ascii());
                println!("  without the new rows: {:?} {:?}", old, &fields[..old.fields]);
                println!("  with them:            {:?}", new);
            }
        }
    }
}

/// The same message, where the rows may have other numbers.
fn same(old: &ddoc::Message, fields: &[ddoc::Field], new: &Message, rows: &[Row]) -> bool {
    let by_identifier = |field: &ddoc::Field, rows: &[Row]| {
        (rows[usize::from(field.row)].identifier, field.cut, field.start, field.length)
    };
    let before: Vec<_> = fields.iter().map(|field| by_identifier(field, &ROWS)).collect();
    let after: Vec<_> = new.fields.iter().map(|field| by_identifier(field, rows)).collect();
    before == after
        && old.header == new.header
        && old.signature[..old.signature_length] == new.signature[..]
        && old.signed_length == new.signed_length
}

fn is_known(identifier: [u8; 2], rows: &[Row]) -> bool {
    rows.iter().any(|row| row.identifier == identifier)
}

fn made_up(dice: &mut Dice, identifier: [u8; 2]) -> Row {
    let least = dice.below(5);
    let greatest = dice.one_of(&[None, Some(least), Some(least + 1), Some(least + 10)]);
    let characters = dice.one_of(&[Characters::Numeric, Characters::Alphabetic, Characters::Alphanumeric]);
    Row { identifier, least, greatest, characters }
}

/// The rows with one to three made-up ones among them or behind them, and the last of these.
fn more_rows(dice: &mut Dice) -> (Vec<Row>, Row) {
    let mut rows = ROWS.to_vec();
    let mut last = rows[0];
    for _ in 0..dice.between(1, 3) {
        let mut identifier = messages::identifier(dice);
        while is_known(identifier, &rows) {
            identifier = messages::identifier(dice);
        }
        last = made_up(dice, identifier);
        let at = if dice.one_in(2) { rows.len() } else { dice.below(rows.len()) };
        rows.insert(at, last);
    }
    (rows, last)
}

/// A field of the row, mostly a right one.
fn field(dice: &mut Dice, row: &Row) -> Vec<u8> {
    let most = row.greatest.unwrap_or(row.least + 20);
    let length = dice.between(row.least, most);
    let mut text = row.identifier.to_vec();
    text.extend((0..length).map(|_| match row.characters {
        _ if dice.one_in(100) => messages::edge(dice),
        Characters::Numeric => dice.between(48, 57) as u8,
        Characters::Alphabetic => dice.between(65, 90) as u8,
        Characters::Alphanumeric => dice.between(32, 95) as u8,
    }));
    if !row.is_fixed() && dice.one_in(4) {
        text.push(30);
    } else if row.greatest != Some(length) {
        text.push(29);
    }
    text
}

/// A right text, into which a field of the row is put at some place.
fn text_with(dice: &mut Dice, row: &Row) -> Vec<u8> {
    let Laid { mut text, fields, mark } = messages::some_draft(dice).laid();
    let turn = dice.between(0, fields.len());
    let at = if turn == fields.len() { mark } else { fields[turn].0 };
    let field = field(dice, row);
    text.splice(at..at, field);
    text
}

fn texts(run: &mut Run<Bench>) {
    run.group("messages of the old rows", |dice, bench| {
        for _ in 0..30_000 {
            let (rows, _) = more_rows(dice);
            bench.compare(&rows, &messages::some_draft(dice).text());
        }
    });
    run.group("messages of the old rows, damaged", |dice, bench| {
        for _ in 0..60_000 {
            let (rows, _) = more_rows(dice);
            let mut text = messages::some_draft(dice).text();
            messages::damage(dice, &mut text);
            bench.compare(&rows, &text);
        }
    });
    run.group("messages with a field of a new row", |dice, bench| {
        for _ in 0..30_000 {
            let (rows, row) = more_rows(dice);
            bench.compare(&rows, &text_with(dice, &row));
        }
    });
    run.group("messages with a field of a new row, damaged", |dice, bench| {
        for _ in 0..30_000 {
            let (rows, row) = more_rows(dice);
            let mut text = text_with(dice, &row);
            messages::damage(dice, &mut text);
            bench.compare(&rows, &text);
        }
    });
    run.group("64 fields, then one of a new row or a known one", |dice, bench| {
        for turn in 0..3_000 {
            let (rows, row) = more_rows(dice);
            let Laid { mut text, mark, .. } = messages::many(dice, 64).laid();
            let field = if turn % 2 == 0 { field(dice, &row) } else { messages::identifier(dice).to_vec() };
            text.splice(mark..mark, field);
            bench.compare(&rows, &text);
        }
    });
}

/// Each way must have been met often, or the comparison says little.
fn coverage(run: &mut Run<Bench>) {
    let all = run.all.clone();
    let ways = [all.accepted, all.refused, all.still_unknown, all.now_accepted, all.now_refused];
    run.report(ways.iter().all(|&count| count >= LEAST), "every way occurs often", &all);
}

fn main() {
    let mut run = Run::new(run::given_seed("more_rows", USUAL_SEED), |_| Bench::default());
    texts(&mut run);
    coverage(&mut run);
    run.end();
}
