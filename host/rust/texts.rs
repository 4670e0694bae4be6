//! Holds the library's reading and writing of texts and its conformity against paper_text.rs, case by case.
//! `texts [conformity | read | write | all] [SEED]`; each group of cases is one test.

mod ddoc;
#[allow(dead_code)] // the codewords and the reading of symbols
mod lists;
mod messages;
#[allow(dead_code)]
mod paper;
mod paper_rows;
mod paper_text;
mod run;
mod texts_bench;

use lists::{noise, Dice};
use messages::Laid;
use paper_rows::ROW_COUNT;
use run::{Run, Tally as _};
use texts_bench::Bench;

const USUAL_SEED: u64 = 20_240_816;
/// Each refusal has to be met this often, each row accepted this often, and accepted cases have to be this part of all.
const LEAST_REFUSED: usize = 500;
const LEAST_OF_A_ROW: usize = 500;
const LEAST_ACCEPTED_PERCENT: usize = 10;

const READING: [usize; 18] = [5, 6, 10, 11, 12, 13, 14, 15, 16, 17, 18, 19, 20, 21, 22, 23, 24, 27];
const WRITING: [usize; 13] = [5, 6, 12, 13, 14, 18, 19, 20, 21, 25, 26, 27, 31];
const CONFORMITY: [usize; 3] = [28, 29, 30];

/// The cases of a function must have reached every answer and every row, or the comparison says little.
fn coverage(run: &mut Run<Bench>, what: &str, refusals: &[usize], rows: &[usize]) {
    let all = std::mem::take(&mut run.all);
    let often = refusals.iter().all(|&number| all.answers[number] >= LEAST_REFUSED);
    let no_others = all.answers.iter().sum::<usize>()
        == all.answers[0] + refusals.iter().map(|&number| all.answers[number]).sum::<usize>();
    let accepted = 100 * all.answers[0] >= LEAST_ACCEPTED_PERCENT * all.cases();
    let each_row = rows.iter().all(|&row| all.rows[row] >= LEAST_OF_A_ROW);
    run.report(often && no_others && accepted && each_row, &format!("{}: every answer occurs often", what), &all);
}

fn some_room(dice: &mut Dice) -> usize {
    dice.one_of(&[64, 64, 64, 65, 100])
}

fn reading(run: &mut Run<Bench>) {
    run.group("read: messages", |dice, bench| {
        for _ in 0..40_000 {
            let text = messages::some_draft(dice).text();
            let room = some_room(dice);
            bench.read(dice, &text, room);
        }
    });
    run.group("read: 60 to 66 fields", |dice, bench| {
        for turn in 0..7_000 {
            let text = messages::many(dice, 60 + turn % 7).text();
            let room = some_room(dice);
            bench.read(dice, &text, room);
        }
    });
    run.group("read: a 65th field that is repeated, unknown or half", |dice, bench| {
        for turn in 0..3_000 {
            let Laid { mut text, mark, .. } = messages::many(dice, 64).laid();
            let known = messages::identifier(dice);
            let first = text[22..24].to_vec();
            let field = [&known[..], &first, &known[..1]][turn % 3].to_vec();
            text.splice(mark..mark, field);
            bench.read(dice, &text, 64);
        }
    });
    run.group("read: texts of 990 to 1,010 characters", |dice, bench| {
        for turn in 0..10_500 {
            let text = messages::of_length(dice, 990 + turn % 21).text();
            let room = dice.one_of(&[63, 64, 64, 64, 100]);
            bench.read(dice, &text, room);
        }
    });
    run.group("read: lists of 0, 63, 64, 65 and 100 records", |dice, bench| {
        for turn in 0..10_000 {
            let mut text = messages::some_draft(dice).text();
            if turn % 4 == 0 {
                messages::damage(dice, &mut text);
            }
            bench.read(dice, &text, [0, 63, 64, 65, 100][turn % 5]);
        }
    });
}

fn damaged_reading(run: &mut Run<Bench>) {
    run.group("read: characters and parts changed", |dice, bench| {
        for _ in 0..80_000 {
            let mut text = messages::some_draft(dice).text();
            messages::damage(dice, &mut text);
            let room = some_room(dice);
            bench.read(dice, &text, room);
        }
    });
    run.group("read: a byte of every kind in every place", |dice, bench| {
        for turn in 0..150 {
            let text = messages::draft(dice, turn % 12).text();
            for place in 0..text.len() {
                let mut text = text.clone();
                text[place] = match turn % 3 {
                    0 => dice.between(0, 31) as u8,
                    1 => dice.between(96, 255) as u8,
                    _ => messages::edge(dice),
                };
                bench.read(dice, &text, 64);
            }
        }
    });
    run.group("read: a wrong header character", |dice, bench| {
        for turn in 0..20_000 {
            let mut draft = messages::draft(dice, turn % 4);
            messages::wrong_header(dice, &mut draft.header);
            let mut text = draft.text();
            if turn % 4 == 0 {
                text[dice.below(22)] = messages::edge(dice);
            }
            bench.read(dice, &text, 64);
        }
    });
    run.group("read: identifiers unknown or repeated", |dice, bench| {
        for turn in 0..15_000 {
            let mut draft = messages::draft(dice, 1 + turn % 10);
            if draft.pieces.is_empty() {
                continue;
            }
            let at = dice.below(draft.pieces.len());
            if turn % 2 == 0 {
                let piece = messages::piece(dice, draft.pieces[at].row);
                let place = dice.between(0, draft.pieces.len());
                draft.pieces.insert(place, piece);
            }
            let Laid { mut text, fields, .. } = draft.laid();
            if turn % 2 == 1 {
                let start = fields[at].0;
                text[start..start + 2].copy_from_slice(&messages::identifier(dice));
            }
            bench.read(dice, &text, 64);
        }
    });
    run.group("read: data too short, too long or of wrong characters", |dice, bench| {
        for turn in 0..30_000 {
            let mut draft = messages::draft(dice, 1 + turn % 10);
            if draft.pieces.is_empty() {
                continue;
            }
            let at = dice.below(draft.pieces.len());
            if turn % 2 == 0 {
                messages::wrong_length(dice, &mut draft.pieces[at]);
            } else {
                messages::wrong_character(dice, &mut draft.pieces[at]);
            }
            bench.read(dice, &draft.text(), 64);
        }
    });
    run.group("read: 6Z, the one row of variable length with a least length, of 0 to 12 characters", |dice, bench| {
        for turn in 0..6_500 {
            let mut draft = messages::draft(dice, turn % 4);
            draft.pieces.retain(|piece| piece.row != 88);
            let data = (0..turn % 13).map(|_| dice.between(32, 95) as u8).collect();
            let at = dice.between(0, draft.pieces.len());
            draft.pieces.insert(at, messages::Piece { row: 88, data, cut: dice.one_in(2) });
            if dice.one_in(4) {
                messages::wrong_character(dice, &mut draft.pieces[at]);
            }
            bench.read(dice, &draft.text(), 64);
        }
    });
    run.group("read: separators lost, added or exchanged", |dice, bench| {
        for turn in 0..30_000 {
            let Laid { mut text, fields, .. } = messages::draft(dice, 1 + turn % 10).laid();
            if fields.is_empty() {
                continue;
            }
            let behind = fields[dice.below(fields.len())].1;
            match dice.below(4) {
                0 => text[behind] = messages::edge(dice),
                1 => {
                    text.remove(behind);
                }
                _ => text.insert(behind, dice.one_of(&[29, 30, 30, 31])),
            }
            bench.read(dice, &text, 64);
        }
    });
}

fn signatures(run: &mut Run<Bench>) {
    run.group("read: signatures of wrong length, spare bits, a 29 in them", |dice, bench| {
        for turn in 0..30_000 {
            let Laid { mut text, mark, .. } = messages::draft(dice, turn % 3).laid();
            let last = text.len() - 1;
            let at = dice.between(mark + 1, last);
            match turn % 6 {
                0 => text[last] = dice.one_of(b"ABCDEFGHIJKLMNOPQRSTUVWXYZ234567"),
                1 => text[at] = 29,
                2 => text[at] = messages::edge(dice),
                3 => text.truncate(dice.between(mark, last)),
                4 => text.push(dice.one_of(b"A7B=\x1d\x1fa1")),
                _ => {
                    // Any length around the three, of right characters.
                    let length = dice.one_of(&[0, 1, 102, 103, 104, 153, 154, 155, 211, 212, 213]);
                    text.truncate(mark + 1);
                    text.extend((0..length).map(|_| dice.one_of(b"AQ7")));
                }
            }
            bench.read(dice, &text, 64);
        }
    });
}

fn lengths(run: &mut Run<Bench>) {
    run.group("read: texts of 0 to 1,002 characters, cut off or noise", |dice, bench| {
        let alphabet = b"0126ABDC\x1d\x1e\x1f 9Z_K";
        for length in 0..=1002 {
            for turn in 0..14 {
                let mut text = messages::of_length(dice, 1002).text();
                match turn {
                    0 => text = noise(dice, length),
                    1 => text = (0..length).map(|_| dice.one_of(alphabet)).collect(),
                    2 => {
                        text.truncate(26);
                        text.extend((0..976).map(|_| dice.one_of(alphabet)));
                    }
                    3..=6 => messages::damage(dice, &mut text),
                    _ => {}
                }
                text.truncate(length);
                let room = dice.one_of(&[63, 64, 64, 64, 65]);
                bench.read(dice, &text, room);
            }
        }
    });
    run.group("read: texts of 0 to 30 characters with a header that may be wrong", |dice, bench| {
        for turn in 0..31 * 300 {
            let mut draft = messages::draft(dice, 3);
            if turn % 2 == 0 {
                messages::wrong_header(dice, &mut draft.header);
            }
            let mut text = draft.text();
            text.truncate(turn % 31);
            bench.read(dice, &text, 64);
        }
    });
    run.group("read: lengths of 1,003 to 60,000", |dice, bench| {
        for _ in 0..1_000 {
            let length = dice.between(1_003, 60_000);
            let text = noise(dice, length);
            let room = dice.one_of(&[0, 63, 64]);
            bench.read(dice, &text, room);
        }
    });
}

fn writing(run: &mut Run<Bench>) {
    run.group("write: messages", |dice, bench| {
        for _ in 0..50_000 {
            let draft = messages::some_draft(dice);
            let order = messages::laid_over(dice, &draft);
            bench.write(dice, &order);
        }
    });
    run.group("write: records that overlap", |dice, bench| {
        for _ in 0..20_000 {
            let order = messages::overlapping(dice);
            bench.write(dice, &order);
        }
    });
    run.group("write: 0 to 66 records", |dice, bench| {
        for turn in 0..13_400 {
            let draft = messages::many(dice, turn % 67);
            let mut order = messages::laid_over(dice, &draft);
            if turn % 3 == 0 {
                messages::spoil(dice, &mut order);
            }
            bench.write(dice, &order);
        }
    });
    run.group("write: more than 64 records, anything wrong in them", |dice, bench| {
        for turn in 0..2_000 {
            let draft = messages::many(dice, 62);
            let mut order = messages::laid_over(dice, &draft);
            while order.fields.len() < 63 + turn % 4 {
                let row = messages::any_row(dice);
                let record = messages::record(dice, row);
                order.fields.push(record);
            }
            messages::spoil(dice, &mut order);
            bench.write(dice, &order);
        }
    });
    run.group("write: texts of 990 to 1,010 characters", |dice, bench| {
        for turn in 0..10_500 {
            let draft = messages::of_length(dice, 990 + turn % 21);
            let mut order = messages::laid_over(dice, &draft);
            if turn % 5 == 0 {
                messages::spoil(dice, &mut order);
            }
            bench.write(dice, &order);
        }
    });
}

fn damaged_writing(run: &mut Run<Bench>) {
    run.group("write: one to three things spoilt", |dice, bench| {
        for turn in 0..80_000 {
            let mut order = match turn % 4 {
                0 => messages::overlapping(dice),
                _ => {
                    let draft = messages::some_draft(dice);
                    messages::laid_over(dice, &draft)
                }
            };
            for _ in 0..dice.one_of(&[1, 1, 1, 2, 3]) {
                messages::spoil(dice, &mut order);
            }
            bench.write(dice, &order);
        }
    });
    run.group("write: two to four things about one record spoilt", |dice, bench| {
        for turn in 0..30_000 {
            let draft = messages::draft(dice, 1 + turn % 6);
            let mut order = messages::laid_over(dice, &draft);
            if order.fields.is_empty() {
                continue;
            }
            let at = dice.below(order.fields.len());
            for _ in 0..dice.between(2, 4) {
                messages::spoil_record(dice, &mut order, at);
            }
            bench.write(dice, &order);
        }
    });
    run.group("write: data too short, too long or of wrong characters", |dice, bench| {
        for turn in 0..40_000 {
            let mut draft = messages::draft(dice, 1 + turn % 10);
            if draft.pieces.is_empty() {
                continue;
            }
            let at = dice.below(draft.pieces.len());
            if turn % 3 == 0 {
                messages::wrong_character(dice, &mut draft.pieces[at]);
            } else {
                messages::wrong_length(dice, &mut draft.pieces[at]);
            }
            let order = messages::laid_over(dice, &draft);
            bench.write(dice, &order);
        }
    });
    run.group("write: wrong header characters", |dice, bench| {
        for turn in 0..20_000 {
            let draft = messages::draft(dice, turn % 4);
            let mut order = messages::laid_over(dice, &draft);
            for _ in 0..1 + turn % 2 {
                messages::wrong_header(dice, &mut order.header);
            }
            bench.write(dice, &order);
        }
    });
}

fn conformity(run: &mut Run<Bench>) {
    run.group("conformity: lists that conform", |dice, bench| {
        for turn in 0..20_000 {
            let least = if turn % 10 == 0 { dice.below(301) } else { 0 };
            let (name, fields) = messages::conforming(dice, least);
            bench.conform(name, &fields);
        }
    });
    run.group("conformity: a record lost, added, repeated or changed", |dice, bench| {
        for turn in 0..40_000 {
            let least = if turn % 10 == 0 { dice.below(301) } else { 0 };
            let (name, mut fields) = messages::conforming(dice, least);
            for _ in 0..dice.between(1, 3) {
                if fields.is_empty() {
                    break;
                }
                let at = dice.below(fields.len());
                let row = messages::any_row(dice);
                let record = messages::record(dice, row);
                match dice.below(4) {
                    0 => fields.retain(|field| field.row != record.row),
                    1 => {
                        let gone = fields[at].row;
                        fields.retain(|field| field.row != gone);
                    }
                    2 => fields.insert(at, record),
                    _ => fields[at] = record,
                }
            }
            bench.conform(name, &fields);
        }
    });
    run.group("conformity: lists that conform to another type", |dice, bench| {
        for _ in 0..20_000 {
            let (_, fields) = messages::conforming(dice, 0);
            let name = messages::other_type(dice);
            bench.conform(name, &fields);
        }
    });
    run.group("conformity: any rows, lists of 0 to 300 records", |dice, bench| {
        for turn in 0..301 * 60 {
            let (mut name, _) = messages::conforming(dice, 0);
            if turn % 8 == 0 {
                name = messages::other_type(dice);
            }
            let fields: Vec<ddoc::Field> = (0..turn % 301)
                .map(|_| {
                    let row = if turn % 2 == 0 { dice.below(ROW_COUNT) } else { messages::any_row(dice) };
                    messages::record(dice, row)
                })
                .collect();
            bench.conform(name, &fields);
        }
    });
    run.group("conformity: every row beside a list that conforms, and alone", |dice, bench| {
        for row in (0..=ROW_COUNT).chain([255, 256, 65_535]) {
            for _ in 0..60 {
                let (name, mut fields) = messages::conforming(dice, 0);
                let record = messages::record(dice, row);
                bench.conform(name, &[record]);
                let at = dice.between(0, fields.len());
                fields.insert(at, record);
                bench.conform(name, &fields);
            }
        }
    });
}

fn round_trips(run: &mut Run<Bench>) {
    run.group("what is read and written again is the same text", |dice, bench| {
        for turn in 0..20_000 {
            let draft = match turn % 10 {
                0 => messages::many(dice, 64),
                1 => messages::of_length(dice, 1000),
                _ => messages::some_draft(dice),
            };
            bench.read_and_write(&draft.text());
        }
    });
    run.group("what is written and read again is the same message", |dice, bench| {
        for turn in 0..20_000 {
            let order = match turn % 10 {
                0 => messages::overlapping(dice),
                1 => {
                    let draft = messages::many(dice, 64);
                    messages::laid_over(dice, &draft)
                }
                _ => {
                    let draft = messages::some_draft(dice);
                    messages::laid_over(dice, &draft)
                }
            };
            bench.write_and_read(&order);
        }
    });
}

fn bad_words() -> ! {
    eprintln!("texts: usage: texts [conformity | read | write | all] [SEED], the seed a number from 0 to {}", u64::MAX);
    std::process::exit(2);
}

fn main() {
    let mut words: Vec<String> = std::env::args().skip(1).collect();
    let what = match words.first().map(String::as_str) {
        Some("conformity" | "read" | "write" | "all") => words.remove(0),
        _ => "all".to_string(),
    };
    let seed = match words.as_slice() {
        [] => USUAL_SEED,
        [seed] => seed.parse().unwrap_or_else(|_| bad_words()),
        _ => bad_words(),
    };
    let mut run = Run::new(seed, Bench::new);
    let every_row: Vec<usize> = (0..ROW_COUNT).collect();
    if what == "all" || what == "conformity" {
        conformity(&mut run);
        // The rows that 29 can name: 10, 20 to 26; B0, B2, B6, B7, B9, BB, BD, BG to BK.
        let named = [13, 39, 40, 41, 42, 43, 44, 45, 89, 91, 95, 96, 98, 100, 102, 105, 106, 107, 108, 109];
        coverage(&mut run, "conformity", &CONFORMITY, &named);
    }
    if what == "all" || what == "read" {
        reading(&mut run);
        damaged_reading(&mut run);
        signatures(&mut run);
        lengths(&mut run);
        coverage(&mut run, "read", &READING, &every_row);
    }
    if what == "all" || what == "write" {
        writing(&mut run);
        damaged_writing(&mut run);
        coverage(&mut run, "write", &WRITING, &every_row);
    }
    if what == "all" {
        round_trips(&mut run);
    }
    run.end();
}
