//! Holds the library's reading of symbols against paper.rs, list by list: number, place, length, used and every byte
//! of the lent text and of the guards around it. `reading [SEED]`; each group of lists is one test.

mod ddoc;
mod lists;
mod paper;
mod run;

use lists::Dice;
use run::{Run, Tally as _};

const USUAL_SEED: u64 = 20_240_816;
/// Bytes before and behind the lent text that nobody may touch.
const GUARD: usize = 64;
/// Differences printed for a group; the others are only counted.
const SHOWN: usize = 3;
/// The refusals of reading. Each has to be met this often, and accepted lists have to be this part of all.
const REFUSALS: [usize; 7] = [1, 2, 3, 4, 5, 6, paper::WRONG_PAD];
const LEAST_REFUSED: usize = 1000;
const LEAST_ACCEPTED_PERCENT: usize = 10;

/// Lists compared: how many were answered with each number (0: accepted), and how many differed.
#[derive(Clone)]
struct Tally {
    answers: [usize; paper::WRONG_PAD + 1],
    differences: usize,
}

impl Default for Tally {
    fn default() -> Tally {
        Tally { answers: [0; paper::WRONG_PAD + 1], differences: 0 }
    }
}

impl run::Tally for Tally {
    fn cases(&self) -> usize {
        self.answers.iter().sum()
    }

    fn differences(&self) -> usize {
        self.differences
    }

    fn add(&mut self, other: &Tally) {
        for (mine, theirs) in self.answers.iter_mut().zip(other.answers) {
            *mine += theirs;
        }
        self.differences += other.differences;
    }

    fn told(&self) -> String {
        format!("{} lists, {} accepted, refused {}", self.cases(), self.answers[0], run::counts(REFUSALS.into_iter(), &self.answers))
    }
}

/// Lends the text and looks at what comes back.
struct Bench {
    /// Random bytes, from which lent texts and what stands behind the codewords are filled.
    pool: Vec<u8>,
    lent: Vec<u8>,
    expected: Vec<u8>,
    input: Vec<u8>,
    tally: Tally,
}

impl run::Compares for Bench {
    type Counts = Tally;

    fn tally(&mut self) -> &mut Tally {
        &mut self.tally
    }
}

impl Bench {
    fn new(dice: &mut Dice) -> Bench {
        let pool = lists::noise(dice, 65_536);
        Bench { pool, lent: Vec::new(), expected: Vec::new(), input: Vec::new(), tally: Tally::default() }
    }

    fn compare(&mut self, dice: &mut Dice, codewords: &[u8], room: usize) {
        // Random bytes behind the list: reading past its end would not go unseen.
        self.input.clear();
        self.input.extend_from_slice(codewords);
        let start = dice.below(self.pool.len() - GUARD);
        self.input.extend_from_slice(&self.pool[start..start + GUARD]);

        let all = GUARD + room + GUARD;
        let start = dice.below(self.pool.len() - all);
        self.lent.clear();
        self.lent.extend_from_slice(&self.pool[start..start + all]);
        self.expected.clone_from(&self.lent);

        let answer = ddoc::read_symbol(&self.input[..codewords.len()], &mut self.lent[GUARD..GUARD + room]);
        let reading = paper::read_symbol(codewords, room);
        let right = match &reading {
            Ok(reading) => {
                let length = reading.text.len();
                self.expected[GUARD..GUARD + length].copy_from_slice(&reading.text);
                ddoc::Answer { number: 0, place: 0, length, used: reading.used }
            }
            Err(refusal) => ddoc::Answer { number: refusal.number, place: refusal.place, length: 0, used: 0 },
        };
        self.tally.answers[right.number] += 1;
        if answer != right || self.lent != self.expected {
            self.tally.differences += 1;
            if self.tally.differences <= SHOWN {
                self.show(codewords, room, answer, right);
            }
        }
    }

    fn show(&self, codewords: &[u8], room: usize, answer: ddoc::Answer, right: ddoc::Answer) {
        println!("difference: {} codewords, room {}: {:?}", codewords.len(), room, codewords);
        println!("  library: {:?}", answer);
        println!("  paper:   {:?}", right);
        let unlike = self.lent.iter().zip(&self.expected).position(|(is, should)| is != should);
        match unlike {
            Some(at) => println!(
                "  lent text: byte {} is {}, should be {}",
                at as isize - GUARD as isize,
                self.lent[at],
                self.expected[at]
            ),
            None => println!("  lent text: as it should be"),
        }
    }
}

/// The lists must have reached every answer, or the comparison says little.
fn coverage(run: &mut Run<Bench>) {
    let all = run.all.clone();
    let often = REFUSALS.iter().all(|&number| all.answers[number] >= LEAST_REFUSED);
    let accepted = 100 * all.answers[0] >= LEAST_ACCEPTED_PERCENT * all.cases();
    run.report(often && accepted, "every answer occurs often", &all);
}

fn some_room(dice: &mut Dice) -> usize {
    dice.one_of(&[1000, 1000, 1001, 1558])
}

fn random_lists(run: &mut Run<Bench>) {
    run.group("noise of every capacity", |dice, bench| {
        for capacity in paper::CAPACITIES {
            for _ in 0..2_000 {
                let list = lists::noise(dice, capacity);
                let room = some_room(dice);
                bench.compare(dice, &list, room);
            }
        }
    });
    run.group("counts that are no capacity", |dice, bench| {
        for count in (0..1_700).chain([5_000]) {
            if paper::CAPACITIES.contains(&count) {
                continue;
            }
            for _ in 0..5 {
                let list = lists::noise(dice, count);
                let room = dice.one_of(&[0, 999, 1000, 1558]);
                bench.compare(dice, &list, room);
            }
        }
    });
}

fn walks(run: &mut Run<Bench>) {
    run.group("walks", |dice, bench| {
        for _ in 0..200_000 {
            let capacity = dice.capacity();
            let list = lists::walk(dice, capacity);
            let room = some_room(dice);
            bench.compare(dice, &list, room);
        }
    });
    run.group("walks with codewords changed", |dice, bench| {
        for _ in 0..80_000 {
            let capacity = dice.capacity();
            let mut list = lists::walk(dice, capacity);
            lists::change(dice, &mut list);
            bench.compare(dice, &list, 1000);
        }
    });
    run.group("walks with codewords lost", |dice, bench| {
        for _ in 0..80_000 {
            let capacity = dice.capacity();
            let mut list = lists::walk(dice, capacity);
            let count = dice.between(1, 3);
            lists::lose(dice, &mut list, count);
            bench.compare(dice, &list, 1000);
        }
    });
    run.group("walks with a packet of 64 lost", |dice, bench| {
        for _ in 0..40_000 {
            // Document 01: "Taking 86 codewords with one lost packet of 64 for a good 22"
            let capacity = if dice.one_in(4) { 86 } else { dice.one_of(&paper::CAPACITIES[10..]) };
            let mut list = lists::walk(dice, capacity);
            lists::lose(dice, &mut list, 64);
            bench.compare(dice, &list, 1000);
        }
    });
}

/// Document 02: "A packet lost behind the text left rubbish padding".
fn wrong_pads(run: &mut Run<Bench>) {
    run.group("each pad damaged in turn", |dice, bench| {
        for capacity in paper::CAPACITIES {
            for _ in 0..20 {
                let (mut list, used) = lists::padded_walk(dice, capacity, 1);
                for place in used..capacity {
                    let right = list[place];
                    list[place] = right ^ dice.between(1, 255) as u8;
                    bench.compare(dice, &list, 1000);
                    list[place] = right;
                }
            }
        }
    });
    run.group("two pads damaged, or pads swapped", |dice, bench| {
        for _ in 0..20_000 {
            let capacity = dice.one_of(&paper::CAPACITIES[1..]);
            let (mut list, used) = lists::padded_walk(dice, capacity, 2);
            let (one, other) = (dice.between(used, capacity - 1), dice.between(used, capacity - 1));
            list.swap(one, other);
            if dice.one_in(2) {
                list[one] = dice.byte();
            }
            bench.compare(dice, &list, 1000);
        }
    });
    run.group("a packet of 64 lost behind the text", |dice, bench| {
        for turn in 0..20_000 {
            let capacity = dice.one_of(&paper::CAPACITIES[10..]);
            let (mut list, used) = lists::padded_walk(dice, capacity, 65);
            let start = dice.between(used + 1, capacity - 64);
            match turn % 3 {
                0 => list[start..start + 64].fill(0),
                1 => dice.fill(&mut list[start..start + 64]),
                _ => {
                    // The rest moves up, and the end is filled up by the rule as if it were the text's.
                    list.drain(start..start + 64);
                    paper::pad(&mut list, capacity);
                }
            }
            bench.compare(dice, &list, 1000);
        }
    });
}

fn limits(run: &mut Run<Bench>) {
    run.group("texts of 998 to 1,002 characters", |dice, bench| {
        for characters in 998..=1002 {
            for kind in 0..lists::ENDINGS {
                for _ in 0..500 {
                    let list = lists::near_limit(dice, characters, kind);
                    let room = some_room(dice);
                    bench.compare(dice, &list, room);
                }
            }
        }
    });
}

fn corners(run: &mut Run<Bench>) {
    run.group("all lists of 3 corner codewords", |dice, bench| {
        for a in lists::CORNERS {
            for b in lists::CORNERS {
                for c in lists::CORNERS {
                    bench.compare(dice, &[a, b, c], 1000);
                }
            }
        }
    });
    for count in [5, 8] {
        run.group(&format!("lists of {} corner codewords", count), |dice, bench| {
            for _ in 0..100_000 {
                let list = lists::corners(dice, count);
                bench.compare(dice, &list, 1000);
            }
        });
    }
}

fn rooms(run: &mut Run<Bench>) {
    for room in [0, 1, 999, 1000, 1001, 1558] {
        run.group(&format!("room {}", room), |dice, bench| {
            for turn in 0..10_000 {
                let capacity = dice.capacity();
                let list = match turn % 4 {
                    0 => lists::noise(dice, capacity),
                    1 => lists::noise(dice, capacity + 1),
                    2 => lists::corners(dice, capacity),
                    _ => lists::walk(dice, capacity),
                };
                bench.compare(dice, &list, room);
            }
        });
    }
}

fn long_runs(run: &mut Run<Bench>) {
    run.group("1,558 codewords 230 254 in turn", |dice, bench| {
        let list: Vec<u8> = (0..1558).map(|place| if place % 2 == 0 { 230 } else { 254 }).collect();
        bench.compare(dice, &list, 1000);
    });
    run.group("100,000,000 codewords of noise", |dice, bench| {
        let mut left = 100_000_000;
        while left >= 3 {
            let capacity = dice.capacity();
            if capacity <= left {
                let list = lists::noise(dice, capacity);
                bench.compare(dice, &list, 1000);
                left -= capacity;
            }
        }
    });
}

fn main() {
    let mut run = Run::new(run::given_seed("reading", USUAL_SEED), Bench::new);
    random_lists(&mut run);
    walks(&mut run);
    wrong_pads(&mut run);
    limits(&mut run);
    corners(&mut run);
    rooms(&mut run);
    long_runs(&mut run);
    coverage(&mut run);
    run.end();
}
