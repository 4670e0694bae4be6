//! Runs groups of cases, each of them one test: counts what was answered and what differed, prints a line for each group and the sum at
//! the end.

use crate::lists::Dice;

/// What the cases of a group came to.
pub trait Tally: Clone + Default {
    fn cases(&self) -> usize;
    fn differences(&self) -> usize;
    fn add(&mut self, other: &Self);
    /// The cases, how many were accepted, and how many were refused with which number.
    fn told(&self) -> String;
}

/// Calls the library and the paper's implementation, and compares.
pub trait Compares {
    type Counts: Tally;
    fn tally(&mut self) -> &mut Self::Counts;
}

pub struct Run<B: Compares> {
    dice: Dice,
    bench: B,
    /// The cases of all groups so far.
    pub all: B::Counts,
    passed: usize,
    failed: usize,
}

impl<B: Compares> Run<B> {
    pub fn new(seed: u64, bench: impl FnOnce(&mut Dice) -> B) -> Run<B> {
        println!("seed {}", seed);
        let mut dice = Dice(seed);
        let bench = bench(&mut dice);
        Run { dice, bench, all: B::Counts::default(), passed: 0, failed: 0 }
    }

    /// One group of cases, one test: there are some, and none differs.
    pub fn group(&mut self, name: &str, cases: impl FnOnce(&mut Dice, &mut B)) {
        *self.bench.tally() = B::Counts::default();
        cases(&mut self.dice, &mut self.bench);
        let tally = self.bench.tally().clone();
        self.report(tally.differences() == 0 && tally.cases() > 0, name, &tally);
        self.all.add(&tally);
    }

    pub fn report(&mut self, good: bool, name: &str, tally: &B::Counts) {
        let word = if good { "ok" } else { "FAILED" };
        println!("{} {}: {}; {} differ", word, name, tally.told(), tally.differences());
        if good {
            self.passed += 1;
        } else {
            self.failed += 1;
        }
    }

    pub fn end(self) -> ! {
        println!("{} passed, {} failed", self.passed, self.failed);
        std::process::exit(if self.failed == 0 { 0 } else { 1 });
    }
}

/// The seed that a program was given, or its usual one.
#[allow(dead_code)] // texts.rs has words of its own
pub fn given_seed(program: &str, usual: u64) -> u64 {
    match std::env::args().nth(1).map(|word| word.parse()) {
        None => usual,
        Some(Ok(seed)) => seed,
        Some(Err(_)) => {
            eprintln!("{}: the seed has to be a number from 0 to {}", program, u64::MAX);
            std::process::exit(2);
        }
    }
}

/// How often each of the numbers was given: `4: 120, 6: 3`.
#[allow(dead_code)] // more_rows.rs counts what became of a reading
pub fn counts(numbers: impl Iterator<Item = usize>, answers: &[usize]) -> String {
    numbers.map(|number| format!("{}: {}", number, answers[number])).collect::<Vec<String>>().join(", ")
}
