//! Holds the library's writing of symbols against paper_writing.rs, text by text: number, place, length, used and every
//! entry of the lent output and work slice and of the guards around them; each symbol is also read back by the library.
//! `writing [SEED]`; each group of texts is one test.

mod ddoc;
#[allow(dead_code)] // the lists of codewords are for reading.rs
mod lists;
mod paper;
mod paper_writing;
mod run;
mod written_texts;

use lists::Dice;
use paper::{CAPACITIES, LONGEST_TEXT};
use paper_writing::{Pairs, Writer, Writing, LEAST_WORK};
use run::Run;
use std::collections::HashMap;

const USUAL_SEED: u64 = 20_240_817;
/// Entries before and behind the lent slices that nobody may touch.
const GUARD: usize = 64;
/// Differences printed for a group; the others are only counted.
const SHOWN: usize = 3;
/// Each refusal has to be met this often.
const LEAST_REFUSED: usize = 100;
const LARGEST: usize = 1558;
/// The largest capacity that a text can need: 1,000 characters have 1,000 codewords at most.
const LARGEST_NEEDED: usize = 1050;

/// Calls compared: how many were answered with each number (0: accepted), in which capacities and with which endings the
/// accepted ones were written, and how many differed.
#[derive(Clone, Default)]
struct Tally {
    answers: [usize; 10],
    /// Refusal 6 for the work slice, the others are for the output.
    work_too_short: usize,
    capacities: [usize; 24],
    full: usize,
    differences: usize,
}

impl run::Tally for Tally {
    fn cases(&self) -> usize {
        self.answers.iter().sum()
    }

    fn differences(&self) -> usize {
        self.differences
    }

    fn add(&mut self, other: &Tally) {
        for (mine, theirs) in self.answers.iter_mut().zip(other.answers) {
            *mine += theirs;
        }
        for (mine, theirs) in self.capacities.iter_mut().zip(other.capacities) {
            *mine += theirs;
        }
        self.work_too_short += other.work_too_short;
        self.full += other.full;
        self.differences += other.differences;
    }

    fn told(&self) -> String {
        let refused = run::counts(5..10, &self.answers);
        format!("{} calls, {} accepted ({} full), refused {}", self.cases(), self.answers[0], self.full, refused)
    }
}

/// What is lent beside the text.
#[derive(Clone, Copy, Debug)]
struct Lent {
    largest: usize,
    work: usize,
    room: usize,
}

const PLENTY: Lent = Lent { largest: LARGEST, work: LEAST_WORK, room: LARGEST };

/// Lends the slices and looks at what comes back.
struct Bench {
    /// Random bytes and numbers, from which lent slices and what stands behind the text are filled.
    pool: Vec<u8>,
    work_pool: Vec<u16>,
    output: Vec<u8>,
    work: Vec<u16>,
    input: Vec<u8>,
    tally: Tally,
}

impl run::Compares for Bench {
    type Counts = Tally;

    fn tally(&mut self) -> &mut Tally {
        &mut self.tally
    }
}

impl Bench {
    fn new(dice: &mut Dice) -> Bench {
        let pool = lists::noise(dice, 65_536);
        let work_pool = (0..65_536).map(|_| dice.next() as u16).collect();
        Bench { pool, work_pool, output: Vec::new(), work: Vec::new(), input: Vec::new(), tally: Tally::default() }
    }

    /// With plenty lent, and once more with something else.
    fn compare(&mut self, dice: &mut Dice, text: &[u8]) {
        let writer = Writer::new(text);
        let lent = some_lent(dice, writer.capacity(0).unwrap_or(LARGEST));
        self.ask(dice, text, &writer, PLENTY);
        self.ask(dice, text, &writer, lent);
    }

    fn ask(&mut self, dice: &mut Dice, text: &[u8], writer: &Writer, lent: Lent) {
        let answer = writer.write(lent.largest, lent.work, lent.room);
        if let Err(refusal) = &answer.result {
            if refusal.number == paper_writing::SLICE_TOO_SHORT && !answer.work_zeroed {
                self.tally.work_too_short += 1;
            }
        }
        let right = match &answer.result {
            Ok(writing) => Right { answer: accepted(writing), symbol: &writing.symbol, work_zeroed: true },
            Err(refusal) => Right {
                answer: ddoc::Answer { number: refusal.number, place: refusal.place, length: 0, used: 0 },
                symbol: &[],
                work_zeroed: answer.work_zeroed,
            },
        };
        self.expect(dice, text, lent, &right);
    }

    fn expect(&mut self, dice: &mut Dice, text: &[u8], lent: Lent, right: &Right) {
        // Random bytes behind the text: reading past its end would not go unseen.
        self.input.clear();
        self.input.extend_from_slice(text);
        self.input.extend_from_slice(some_of(dice, &self.pool, GUARD));
        let output = some_of(dice, &self.pool, GUARD + lent.room + GUARD);
        let work = some_of(dice, &self.work_pool, GUARD + lent.work + GUARD);
        self.output.clear();
        self.output.extend_from_slice(output);
        self.work.clear();
        self.work.extend_from_slice(work);

        let answer = ddoc::write_symbol(
            &self.input[..text.len()],
            lent.largest,
            &mut self.work[GUARD..GUARD + lent.work],
            &mut self.output[GUARD..GUARD + lent.room],
        );

        self.tally.answers[right.answer.number] += 1;
        if right.answer.number == 0 {
            let size = CAPACITIES.iter().position(|&capacity| capacity == right.answer.length);
            self.tally.capacities[size.expect("the paper's symbol has a capacity")] += 1;
            self.tally.full += usize::from(right.answer.used == right.answer.length);
        }
        let mut faults = Vec::new();
        if answer != right.answer {
            faults.push(format!("answer is {:?}, should be {:?}", answer, right.answer));
        }
        let symbol = right.symbol;
        let behind = GUARD + symbol.len();
        if self.output[GUARD..behind] != *symbol {
            faults.push(format!("symbol is {:?}, should be {:?}", &self.output[GUARD..behind], symbol));
        }
        if self.output[..GUARD] != output[..GUARD] || self.output[behind..] != output[behind..] {
            faults.push("the output around the symbol was touched".to_string());
        }
        let zeroed = if right.work_zeroed { GUARD..GUARD + LEAST_WORK } else { GUARD..GUARD };
        if self.work[zeroed.clone()].iter().any(|&entry| entry != 0) {
            faults.push("the work slice's first 8,192 entries are not zero".to_string());
        }
        if self.work[..GUARD] != work[..GUARD] || self.work[zeroed.end..] != work[zeroed.end..] {
            faults.push("the work slice's other entries were touched".to_string());
        }
        if right.answer.number == 0 {
            let whole = paper::Reading { text: text.to_vec(), used: right.answer.used };
            if paper::read_symbol(symbol, LONGEST_TEXT) != Ok(whole) {
                faults.push(format!("the paper does not read {:?} as the text", symbol));
            }
            let mut read = [0; LONGEST_TEXT];
            let back = ddoc::read_symbol(symbol, &mut read);
            let whole = ddoc::Answer { number: 0, place: 0, length: text.len(), used: right.answer.used };
            if back != whole || read[..text.len()] != *text {
                faults.push(format!("the library reads it as {:?}, should be {:?}", back, whole));
            }
        }
        if !faults.is_empty() {
            self.tally.differences += 1;
            if self.tally.differences <= SHOWN {
                println!("difference: {} characters {:?}, {:?}", text.len(), text, lent);
                for fault in faults {
                    println!("  {}", fault);
                }
            }
        }
    }
}

/// What has to come back.
struct Right<'a> {
    answer: ddoc::Answer,
    symbol: &'a [u8],
    work_zeroed: bool,
}

fn accepted(writing: &Writing) -> ddoc::Answer {
    ddoc::Answer { number: 0, place: 0, length: writing.symbol.len(), used: writing.used }
}

fn some_of<'a, T>(dice: &mut Dice, pool: &'a [T], count: usize) -> &'a [T] {
    let start = dice.below(pool.len() - count);
    &pool[start..start + count]
}

/// Something else than plenty, near the capacity that the text needs.
fn some_lent(dice: &mut Dice, needed: usize) -> Lent {
    let smaller = *CAPACITIES.iter().rev().find(|&&capacity| capacity < needed).unwrap_or(&needed);
    let any = dice.capacity();
    let not = dice.one_of(&[0, 1, 2, 4, needed + 1, needed - 1, 1557, 1559, 65_539, usize::MAX]);
    let largest = dice.one_of(&[needed, needed, smaller, any, any, not]);
    let work = dice.one_of(&[LEAST_WORK, LEAST_WORK, LEAST_WORK, LEAST_WORK + 1, 9_000, LEAST_WORK - 1, 0]);
    let room = dice.one_of(&[needed, needed, needed + 1, needed - 1, LARGEST, 2_000, smaller, 0]);
    Lent { largest, work, room }
}

/// The texts must have reached every answer and every capacity that can be needed, or the comparison says little.
fn coverage(run: &mut Run<Bench>) {
    let all = run.all.clone();
    let often = |count: usize| count >= LEAST_REFUSED;
    let sixes = often(all.work_too_short) && often(all.answers[6] - all.work_too_short);
    run.report(sixes && [5, 7, 8, 9].iter().all(|&number| often(all.answers[number])), "every answer occurs often", &all);
    let needed = CAPACITIES.iter().zip(all.capacities).filter(|(&capacity, _)| capacity <= LARGEST_NEEDED);
    let counts: Vec<String> = needed.clone().map(|(capacity, count)| format!("{}: {}", capacity, count)).collect();
    println!("written in {}", counts.join(", "));
    run.report(needed.clone().all(|(_, count)| often(count)), "every capacity to 1,050 occurs often", &all);
}

fn random_texts(run: &mut Run<Bench>) {
    for (longest, count) in [(8, 20_000), (30, 24_000), (150, 6_000), (1_000, 1_000)] {
        run.group(&format!("texts of up to {} characters", longest), |dice, bench| {
            for turn in 0..count {
                let length = dice.between(0, longest);
                let text = written_texts::text(dice, turn % written_texts::STYLES, length);
                bench.compare(dice, &text);
            }
        });
    }
    run.group("texts like 2D-DOC", |dice, bench| {
        for _ in 0..1_000 {
            let text = written_texts::document(dice);
            bench.compare(dice, &text);
        }
    });
    run.group("every length from 0 to 1,002", |dice, bench| {
        for length in 0..=1_002 {
            let style = dice.below(written_texts::STYLES);
            let text = written_texts::text(dice, style, length);
            bench.compare(dice, &text);
        }
        for length in [1_003, 1_558, 4_000, 50_000] {
            let text = written_texts::text(dice, 2, length);
            bench.compare(dice, &text);
        }
    });
    run.group("texts of 998 to 1,002 characters", |dice, bench| {
        for turn in 0..200 {
            let text = written_texts::text(dice, turn % written_texts::STYLES, 998 + turn % 5);
            bench.compare(dice, &text);
        }
    });
}

/// Of a long text every ending: where one character more needs the next capacity, those around it, with this capacity, the
/// one below and all permitted.
fn edges(run: &mut Run<Bench>) {
    run.group("texts around the edge of each capacity", |dice, bench| {
        for turn in 0..2 * written_texts::STYLES {
            let text = written_texts::text(dice, turn % written_texts::STYLES, LONGEST_TEXT);
            let writer = Writer::new(&text);
            let capacities: Vec<usize> = (0..=text.len()).map(|start| writer.capacity(start).unwrap_or(LARGEST)).collect();
            for start in 2..text.len() - 1 {
                let capacity = capacities[start];
                if capacities[start - 1] == capacity {
                    continue;
                }
                for start in start - 2..=start + 1 {
                    let ending = &text[start..];
                    let writer = Writer::new(ending);
                    let smaller = CAPACITIES.iter().rev().find(|&&size| size < capacity).unwrap_or(&capacity);
                    for largest in [capacity, *smaller, capacities[start - 1], LARGEST] {
                        bench.ask(dice, ending, &writer, Lent { largest, work: LEAST_WORK, room: capacity });
                    }
                }
            }
        }
    });
}

fn characters_above_127(run: &mut Run<Bench>) {
    run.group("texts with characters above 127", |dice, bench| {
        for turn in 0..2_000 {
            let length = if turn % 4 == 0 { dice.between(990, 1_002) } else { dice.between(1, 60) };
            let mut text = written_texts::text(dice, turn % written_texts::STYLES, length);
            for _ in 0..dice.between(1, 3) {
                let place = dice.one_of(&[0, length / 2, length - 1]);
                text[place] = dice.between(128, 255) as u8;
            }
            bench.compare(dice, &text);
        }
    });
}

fn largest_sizes(run: &mut Run<Bench>) {
    run.group("every largest size, and others", |dice, bench| {
        let huge = [1 << 16, (1 << 16) + 3, 1 << 32, (1 << 32) + 5, (1 << 32) + 1558, usize::MAX - 2, usize::MAX];
        for largest in (0..=1_700).chain(huge) {
            for length in [0, dice.between(1, 40)] {
                let style = dice.below(written_texts::STYLES);
                let text = written_texts::text(dice, style, length);
                bench.ask(dice, &text, &Writer::new(&text), Lent { largest, ..PLENTY });
            }
        }
        for largest in CAPACITIES {
            for _ in 0..20 {
                let style = dice.below(written_texts::STYLES);
                let length = dice.between(0, 2 * largest).min(LONGEST_TEXT);
                let text = written_texts::text(dice, style, length);
                bench.ask(dice, &text, &Writer::new(&text), Lent { largest, ..PLENTY });
            }
        }
    });
}

/// What all lists say, smallest size first: refused 9 if no list of the permitted sizes reads as the text.
fn ask_lists(dice: &mut Dice, bench: &mut Bench, text: &[u8], best: &[HashMap<Vec<u8>, Writing>], largest: usize) {
    let writing = best.iter().filter_map(|size| size.get(text)).find(|writing| writing.symbol.len() <= largest);
    let right = match writing {
        Some(writing) => Right { answer: accepted(writing), symbol: &writing.symbol, work_zeroed: true },
        None => {
            let answer = ddoc::Answer { number: paper_writing::NONE_FITS, place: 0, length: 0, used: 0 };
            Right { answer, symbol: &[], work_zeroed: true }
        }
    };
    bench.expect(dice, text, Lent { largest, ..PLENTY }, &right);
}

fn all_lists(run: &mut Run<Bench>) {
    let pairs = Pairs::new();
    run.group("all texts of up to 4 corner characters, by all lists of 3 and 5", |dice, bench| {
        let mut all = vec![vec![]];
        let mut start = 0;
        for _ in 0..4 {
            let end = all.len();
            for at in start..end {
                for character in written_texts::CORNERS {
                    let mut longer = all[at].clone();
                    longer.push(character);
                    all.push(longer);
                }
            }
            start = end;
        }
        let best = [3, 5].map(|capacity| paper_writing::best_of_all_lists(capacity, &all, &pairs));
        for text in &all {
            for largest in [3, 5] {
                ask_lists(dice, bench, text, &best, largest);
            }
        }
    });
    run.group("texts of up to 9 characters, by all lists of 3, 5 and 8", |dice, bench| {
        for turn in 0..20 * written_texts::STYLES {
            let text = written_texts::text(dice, turn % written_texts::STYLES, 9);
            let texts = [text.clone()];
            let best = [3, 5, 8].map(|capacity| paper_writing::best_of_all_lists(capacity, &texts, &pairs));
            for length in 0..=text.len() {
                ask_lists(dice, bench, &text[..length], &best, 8);
            }
        }
    });
}

/// Every choice of faults at once: the first of the paper's order is given.
fn faults(run: &mut Run<Bench>) {
    run.group("faults in every order", |dice, bench| {
        for faults in 0..64 {
            let fault = |number: usize| faults >> number & 1 == 1;
            for style in 0..written_texts::STYLES {
                // 5 and 9: a text too long, a text too long for the size permitted; 7 at places of all kinds.
                let length = if fault(0) { dice.between(1_001, 1_100) } else { dice.between(40, 200) };
                let mut text = written_texts::text(dice, style, length);
                let place = dice.below(text.len());
                if fault(1) {
                    text[place] = dice.between(128, 255) as u8;
                }
                let largest = match (fault(2), fault(4)) {
                    (true, true) => dice.one_of(&[0, 2, 4]),
                    (true, false) => dice.one_of(&[1_559, usize::MAX]),
                    (false, true) => dice.one_of(&[3, 5, 8]),
                    (false, false) => LARGEST,
                };
                let work = if fault(3) { dice.one_of(&[0, 1, LEAST_WORK - 1]) } else { LEAST_WORK };
                let room = if fault(5) { dice.one_of(&[0, 1, 11]) } else { LARGEST };
                let first = (0..6).find(|&number| fault(number));
                let (number, work_zeroed) = match first {
                    Some(at) => ([5, 7, 8, 6, 9, 6][at], at >= 4),
                    None => (0, true),
                };
                let lent = Lent { largest, work, room };
                if number == 0 {
                    bench.ask(dice, &text, &Writer::new(&text), lent);
                    continue;
                }
                let answer = ddoc::Answer { number, place: if number == 7 { place } else { 0 }, length: 0, used: 0 };
                bench.expect(dice, &text, lent, &Right { answer, symbol: &[], work_zeroed });
            }
        }
    });
}

fn main() {
    let mut run = Run::new(run::given_seed("writing", USUAL_SEED), Bench::new);
    random_texts(&mut run);
    edges(&mut run);
    characters_above_127(&mut run);
    largest_sizes(&mut run);
    all_lists(&mut run);
    faults(&mut run);
    coverage(&mut run);
    run.end();
}
