//! Lends a slice with a day file to the library, call after call, keeps the plain list beside it, and compares the answer and every byte
//! of the slice and of the guards around it.

use crate::ddoc;
use crate::lists::Dice;
use crate::paper::Refusal;
use crate::paper_file::{self, Scan};
use crate::run;

/// Bytes before and behind the slice that nobody may touch.
const GUARD: usize = 64;
/// Differences printed for a group; the others are only counted.
const SHOWN: usize = 3;
const NUMBERS: usize = 256;

/// Calls compared: how many were answered with each number (0: accepted), and how many differed.
#[derive(Clone)]
pub struct Tally {
    pub answers: [usize; NUMBERS],
    pub differences: usize,
}

impl Default for Tally {
    fn default() -> Tally {
        Tally { answers: [0; NUMBERS], differences: 0 }
    }
}

impl run::Tally for Tally {
    fn cases(&self) -> usize {
        self.answers.iter().sum()
    }

    fn differences(&self) -> usize {
        self.differences
    }

    fn add(&mut self, other: &Tally) {
        for (mine, theirs) in self.answers.iter_mut().zip(other.answers) {
            *mine += theirs;
        }
        self.differences += other.differences;
    }

    fn told(&self) -> String {
        let met = (1..NUMBERS).filter(|&number| self.answers[number] > 0);
        format!("{} calls, {} accepted, refused {}", self.cases(), self.answers[0], run::counts(met, &self.answers))
    }
}

/// A call and what it needs.
#[derive(Clone, Debug)]
pub enum Op {
    Add(Vec<u8>),
    Withdraw(usize),
    Fetch(usize),
    /// With two lists of so many entries.
    Squeeze(usize, usize),
}

pub struct Bench {
    /// Random bytes, from which slices are filled.
    pool: Vec<u8>,
    /// The slice between its guards, and what it should be.
    lent: Vec<u8>,
    right: Vec<u8>,
    /// The file's length, as the caller knows it.
    pub length: usize,
    pub tally: Tally,
}

impl run::Compares for Bench {
    type Counts = Tally;

    fn tally(&mut self) -> &mut Tally {
        &mut self.tally
    }
}

fn answered(result: Result<(usize, usize), Refusal>) -> ddoc::Answer {
    match result {
        Ok((length, used)) => ddoc::Answer { number: 0, place: 0, length, used },
        Err(refusal) => ddoc::Answer { number: refusal.number, place: refusal.place, length: 0, used: 0 },
    }
}

fn part(result: Result<(usize, usize), Refusal>) -> ddoc::Part {
    match result {
        Ok((start, length)) => ddoc::Part { number: 0, place: 0, which: 0, start, length },
        Err(refusal) => ddoc::Part { number: refusal.number, place: refusal.place, which: 0, start: 0, length: 0 },
    }
}

impl Bench {
    pub fn new(dice: &mut Dice) -> Bench {
        let mut pool = vec![0; 3 * paper_file::MOST_BYTES];
        dice.fill(&mut pool);
        Bench { pool, lent: Vec::new(), right: Vec::new(), length: 0, tally: Tally::default() }
    }

    /// A slice of `room` random bytes, in which a file begins.
    pub fn lend(&mut self, dice: &mut Dice, file: &[u8], room: usize) {
        let all = GUARD + room + GUARD;
        let start = dice.below(self.pool.len() - all);
        self.lent.clear();
        self.lent.extend_from_slice(&self.pool[start..start + all]);
        let whole = file.len().min(room);
        self.lent[GUARD..GUARD + whole].copy_from_slice(&file[..whole]);
        self.right.clone_from(&self.lent);
        self.length = file.len();
    }

    pub fn slice(&self) -> &[u8] {
        &self.right[GUARD..self.right.len() - GUARD]
    }

    /// A byte changed from outside.
    pub fn poke(&mut self, at: usize, value: u8) {
        self.lent[GUARD + at] = value;
        self.right[GUARD + at] = value;
    }

    /// One call, on the file as it stands.
    pub fn call(&mut self, op: &Op) {
        let list = paper_file::open(self.slice(), self.length);
        let _ = self.call_on(op, list);
    }

    /// One call, where the file's list is known. The list afterwards comes back.
    pub fn call_on(&mut self, op: &Op, list: Result<Vec<Scan>, Refusal>) -> Result<Vec<Scan>, Refusal> {
        let end = self.lent.len() - GUARD;
        let slice = &mut self.lent[GUARD..end];
        let before = self.length;
        let mut after = list;
        let (number, same) = match op {
            Op::Add(text) => {
                let is = ddoc::day_add(slice, before, text);
                let added = after.as_mut().map_err(|r| Refusal { ..*r }).and_then(|list| paper_file::add(list, text));
                let right = answered(added.map(|number| (before + 7 + text.len(), number)));
                if is.number == 0 {
                    self.length = is.length;
                }
                (right.number, is == right)
            }
            Op::Withdraw(number) => {
                let is = ddoc::day_withdraw(slice, before, *number);
                let gone = after.as_mut().map_err(|r| Refusal { ..*r }).and_then(|list| paper_file::withdraw(list, *number));
                let right = answered(gone.map(|()| (before, 0)));
                (right.number, is == right)
            }
            Op::Fetch(number) => {
                let is = ddoc::day_fetch(slice, before, *number);
                let found = after.as_ref().map_err(|r| Refusal { ..*r }).and_then(|list| paper_file::fetch(list, *number));
                let right = part(found);
                (right.number, is == right)
            }
            Op::Squeeze(olds, news) => {
                let mut lists = [vec![u32::MAX - 7; olds + 3], vec![u32::MAX - 9; news + 3]];
                let mut rights = lists.clone();
                let [old, new] = &mut lists;
                let is = ddoc::day_squeeze(slice, before, &mut old[..*olds], &mut new[..*news]);
                let kept = after.as_ref().map_err(|r| Refusal { ..*r }).and_then(|list| paper_file::squeeze(list, *olds, *news));
                let right = answered(kept.as_ref().map_err(|r| Refusal { ..*r }).map(|(list, _)| (paper_file::bytes_of(list).len(), list.len())));
                if let Ok((list, numbers)) = kept {
                    for (at, number) in numbers.into_iter().enumerate() {
                        rights[0][at] = number;
                        rights[1][at] = at as u32;
                    }
                    after = Ok(list);
                    self.length = is.length;
                }
                (right.number, is == right && lists == rights)
            }
        };
        if number == 0 && !matches!(op, Op::Fetch(_)) {
            if let Ok(list) = &after {
                let bytes = paper_file::bytes_of(list);
                self.right[GUARD..GUARD + bytes.len()].copy_from_slice(&bytes);
                if bytes.len() < before {
                    self.right[GUARD + bytes.len()..GUARD + before].fill(0);
                }
            }
        }
        self.note(op, number, same, before);
        after
    }

    fn note(&mut self, op: &Op, number: usize, same: bool, before: usize) {
        self.tally.answers[number] += 1;
        let unlike = self.lent.iter().zip(&self.right).position(|(is, should)| is != should);
        if same && unlike.is_none() {
            return;
        }
        self.tally.differences += 1;
        if self.tally.differences <= SHOWN {
            println!("difference: file of {} bytes, {:?}; refusal {} expected; first wrong byte {:?}", before, op, number, unlike);
        }
        self.lent.clone_from(&self.right);
    }
}
