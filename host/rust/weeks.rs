//! Holds the library's tally and the program `week` against paper_week.rs: the answer and all 262 counts after each file, and every byte that
//! the program prints. `weeks [SEED]`; each group of cases is one test. The program is target/bin/week, run by the command RUN if that is set.

mod ddoc;
#[allow(dead_code)] // the codewords and the reading of symbols
mod lists;
#[allow(dead_code)]
mod messages;
#[allow(dead_code)]
mod paper;
#[allow(dead_code)]
mod paper_file;
#[allow(dead_code)]
mod paper_rows;
#[allow(dead_code)]
mod paper_text;
mod paper_week;
mod run;

use std::io::Write;
use std::process::{Command, Stdio};

use lists::{noise, Dice};
use paper_file::{bytes_of, Scan};
use paper_week::{Counts, Name};
use run::Run;

const USUAL_SEED: u64 = 20_250_211;
/// Differences printed for a group; the others are only counted.
const SHOWN: usize = 3;
const NUMBERS: usize = 256;
const PROGRAM: &str = "target/bin/week";

#[derive(Clone)]
struct Tally {
    answers: [usize; NUMBERS],
    differences: usize,
}

impl Default for Tally {
    fn default() -> Tally {
        Tally { answers: [0; NUMBERS], differences: 0 }
    }
}

impl run::Tally for Tally {
    fn cases(&self) -> usize {
        self.answers.iter().sum()
    }

    fn differences(&self) -> usize {
        self.differences
    }

    fn add(&mut self, other: &Tally) {
        for (mine, theirs) in self.answers.iter_mut().zip(other.answers) {
            *mine += theirs;
        }
        self.differences += other.differences;
    }

    fn told(&self) -> String {
        let met = (1..NUMBERS).filter(|&number| self.answers[number] > 0);
        format!("{} cases, {} accepted, refused {}", self.cases(), self.answers[0], run::counts(met, &self.answers))
    }
}

struct Bench {
    tally: Tally,
}

impl run::Compares for Bench {
    type Counts = Tally;

    fn tally(&mut self) -> &mut Tally {
        &mut self.tally
    }
}

const TYPES: [&[u8; 2]; 5] = [b"00", b"01", b"02", b"B0", b"B1"];

/// The counts as the library's tally.
fn tally_of(counts: &Counts) -> ddoc::Tally {
    let mut tally = ddoc::Tally { types: [0; 5], other: 0, refused: [0; 256] };
    for (name, &count) in counts {
        match name {
            Name::Type(characters) => tally.types[TYPES.iter().position(|covered| *covered == characters).unwrap_or(0)] = count,
            Name::Other => tally.other = count,
            Name::Refused(number) => tally.refused[*number] = count,
        }
    }
    tally
}

impl Bench {
    fn new(_: &mut Dice) -> Bench {
        Bench { tally: Tally::default() }
    }

    /// One file added to a tally; the counts afterwards come back.
    fn add(&mut self, counts: &Counts, file: &[u8]) -> Counts {
        let mut tally = tally_of(counts);
        let lent = file.to_vec();
        let answer = ddoc::tally_add(&mut tally, &lent);
        let added = paper_week::add(counts, file);
        let number = added.as_ref().map_or_else(|refusal| refusal.number, |_| 0);
        let after = added.unwrap_or_else(|_| counts.clone());
        let right = ddoc::Answer { number, place: 0, length: 0, used: 0 };
        self.note(number, answer == right && tally == tally_of(&after) && lent == file, || {
            format!("file of {} bytes: {:?}, {:?} expected", file.len(), answer, right)
        });
        after
    }

    fn print(&mut self, input: &[u8]) {
        let printed = printed_by_program(input);
        let right = paper_week::printed(input);
        let same = printed.as_deref() == Ok(right.as_str());
        self.note(0, same, || format!("input of {} bytes: printed\n{:?}\nshould be\n{:?}", input.len(), printed, right));
    }

    fn note(&mut self, number: usize, same: bool, told: impl FnOnce() -> String) {
        self.tally.answers[number] += 1;
        if !same {
            self.tally.differences += 1;
            if self.tally.differences <= SHOWN {
                println!("difference: {}", told());
            }
        }
    }
}

fn printed_by_program(input: &[u8]) -> Result<String, String> {
    let runner = std::env::var("RUN").unwrap_or_default();
    let mut command = if runner.is_empty() { Command::new(PROGRAM) } else { Command::new(&runner) };
    if !runner.is_empty() {
        command.arg(PROGRAM);
    }
    let mut child = command.stdin(Stdio::piped()).stdout(Stdio::piped()).spawn().map_err(|fault| fault.to_string())?;
    let mut pipe = child.stdin.take().ok_or("no pipe")?;
    let bytes = input.to_vec();
    // The program may stop reading before the input ends.
    let writer = std::thread::spawn(move || pipe.write_all(&bytes).is_ok());
    let output = child.wait_with_output().map_err(|fault| fault.to_string())?;
    let _ = writer.join();
    if !output.status.success() {
        return Err(format!("ended with {}", output.status));
    }
    String::from_utf8(output.stdout).map_err(|fault| fault.to_string())
}

/// Texts of every kind: messages, damaged ones, noise, and ones above the limit.
fn some_text(dice: &mut Dice) -> Vec<u8> {
    let mut text = messages::some_draft(dice).text();
    match dice.below(8) {
        0 => {
            let length = dice.below(60);
            text = noise(dice, length);
        }
        1 => {
            let length = dice.between(999, 1300);
            text.resize(length, b'A');
        }
        2 => text.truncate(dice.below(80)),
        3 | 4 => messages::damage(dice, &mut text),
        5 => {
            // A type that conformity covers, or none.
            if text.len() > 22 {
                let kind = if dice.one_in(3) { messages::other_type(dice) } else { *dice.one_of(&TYPES) };
                text[20..22].copy_from_slice(&kind);
            }
        }
        _ => {}
    }
    text
}

fn some_file(dice: &mut Dice) -> Vec<u8> {
    let mut list: Vec<Scan> = Vec::new();
    for _ in 0..dice.below(12) {
        list.push(Scan { live: !dice.one_in(4), text: some_text(dice) });
    }
    let mut file = bytes_of(&list);
    if dice.one_in(6) {
        let at = dice.below(file.len());
        file[at] = dice.byte();
    }
    if dice.one_in(20) {
        file.truncate(dice.below(9));
    }
    file
}

fn tallies(run: &mut Run<Bench>) {
    run.group("files added one after the other", |dice, bench| {
        for _ in 0..1_000 {
            let mut counts = Counts::new();
            for _ in 0..dice.between(1, 10) {
                let file = some_file(dice);
                counts = bench.add(&counts, &file);
            }
        }
    });
    run.group("tallies at the limit", |dice, bench| {
        for _ in 0..2_000 {
            let mut counts = Counts::new();
            for number in 0..256 {
                counts.insert(Name::Refused(number), u32::MAX - dice.below(3) as u32);
            }
            for characters in TYPES {
                counts.insert(Name::Type(*characters), u32::MAX - dice.below(3) as u32);
            }
            counts.insert(Name::Other, u32::MAX - dice.below(3) as u32);
            let file = some_file(dice);
            bench.add(&counts, &file);
        }
    });
    run.group("full files, of one text again and again", |dice, bench| {
        for length in [0, 20, 300, 1000, 1001] {
            let mut text = messages::some_draft(dice).text();
            text.resize(length, b'0');
            let count = (paper_file::MOST_BYTES - 8) / (7 + length);
            let list = vec![Scan { live: true, text }; count];
            let counts = Counts::from([(Name::Refused(10), u32::MAX - 4680), (Name::Refused(5), u32::MAX - 31)]);
            let more = bench.add(&counts, &bytes_of(&list));
            bench.add(&more, &bytes_of(&list));
        }
    });
}

fn week_of(dice: &mut Dice, files: usize) -> Vec<u8> {
    let mut input = Vec::new();
    for _ in 0..files {
        let file = some_file(dice);
        input.extend_from_slice(&(file.len() as u16).to_be_bytes());
        input.extend_from_slice(&file);
    }
    input
}

fn program(run: &mut Run<Bench>) {
    run.group("the program: weeks, whole and cut", |dice, bench| {
        bench.print(&[]);
        for _ in 0..150 {
            let files = dice.between(1, 14);
            let mut input = week_of(dice, files);
            if dice.one_in(3) {
                input.truncate(dice.below(input.len() + 1));
            }
            bench.print(&input);
        }
        for length in [0u16, 1, 7, 8, 32_768, 32_769, 65_535] {
            let mut input = week_of(dice, 2);
            input.extend_from_slice(&length.to_be_bytes());
            input.resize(input.len() + usize::from(length), 0);
            bench.print(&input);
        }
    });
    run.group("the program: a thousand files", |dice, bench| {
        let input = week_of(dice, 1_000);
        bench.print(&input);
    });
}

fn main() {
    let mut run = Run::new(run::given_seed("weeks", USUAL_SEED), Bench::new);
    tallies(&mut run);
    program(&mut run);
    let all = run.all.clone();
    run.report(all.answers[35] >= 100 && all.answers[38] >= 100 && all.answers[0] >= 1_000, "every answer occurs often", &all);
    run.end()
}
