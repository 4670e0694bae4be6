//! Holds the library's check words against paper_check.rs, list by list: the answer and every byte of the lent list and of the guards
//! around it. `checking [SEED]`; each group of lists is one test.

mod ddoc;
// Of these two only the dice and the noise are used.
#[allow(dead_code)]
mod lists;
#[allow(dead_code)]
mod paper;
mod paper_check;
mod run;

use lists::Dice;
use paper_check::SIZES;
use run::Run;

const USUAL_SEED: u64 = 20_261_116;
/// Bytes before and behind the lent list that nobody may touch.
const GUARD: usize = 64;
/// Differences printed for a group; the others are only counted.
const SHOWN: usize = 3;
/// The worked example of ISO/IEC 16022: 123456.
const EXAMPLE: [u8; 8] = [142, 164, 186, 114, 25, 5, 88, 102];

/// Lists compared: how many were answered with each number (0: accepted), and how many differed.
#[derive(Clone)]
struct Tally {
    answers: [usize; 33],
    differences: usize,
}

impl Default for Tally {
    fn default() -> Tally {
        Tally { answers: [0; 33], differences: 0 }
    }
}

impl run::Tally for Tally {
    fn cases(&self) -> usize {
        self.answers.iter().sum()
    }

    fn differences(&self) -> usize {
        self.differences
    }

    fn add(&mut self, other: &Tally) {
        for (mine, theirs) in self.answers.iter_mut().zip(other.answers) {
            *mine += theirs;
        }
        self.differences += other.differences;
    }

    fn told(&self) -> String {
        let refused = run::counts([1, 32, 6].into_iter(), &self.answers);
        format!("{} lists, {} accepted, refused {}", self.cases(), self.answers[0], refused)
    }
}

#[derive(Default)]
struct Bench {
    tally: Tally,
}

impl run::Compares for Bench {
    type Counts = Tally;

    fn tally(&mut self) -> &mut Tally {
        &mut self.tally
    }
}

impl Bench {
    fn compare(&mut self, dice: &mut Dice, data: &[u8], room: usize) {
        // Random bytes around both: nothing outside may be read into the answer, or written.
        let input = [data, &lists::noise(dice, GUARD)].concat();
        let mut lent = lists::noise(dice, GUARD + room + GUARD);
        let mut expected = lent.clone();
        let answer = ddoc::check_words(&input[..data.len()], &mut lent[GUARD..GUARD + room]);
        let right = match paper_check::list(data, room) {
            Ok(list) => {
                expected[GUARD..GUARD + list.len()].copy_from_slice(&list);
                ddoc::Answer { number: 0, place: 0, length: list.len(), used: 0 }
            }
            Err(number) => ddoc::Answer { number, place: 0, length: 0, used: 0 },
        };
        self.tally.answers[right.number] += 1;
        if answer != right || lent != expected {
            self.tally.differences += 1;
            if self.tally.differences <= SHOWN {
                println!("difference: room {}, data {:?}", room, data);
                println!("  library: {:?} {:?}", answer, &lent[GUARD..GUARD + room]);
                println!("  paper:   {:?} {:?}", right, &expected[GUARD..GUARD + room]);
            }
        }
    }

    /// One case that is looked at by hand.
    fn fail_if(&mut self, wrong: bool, what: &str) {
        self.tally.answers[0] += 1;
        if wrong {
            self.tally.differences += 1;
            println!("difference: {}", what);
        }
    }
}

fn printed(run: &mut Run<Bench>) {
    run.group("the worked example of ISO/IEC 16022", |dice, bench| {
        let mut list = [0; 8];
        let answer = ddoc::check_words(&EXAMPLE[..3], &mut list);
        bench.fail_if(answer.length != 8 || list != EXAMPLE, "142 164 186");
        bench.compare(dice, &EXAMPLE[..3], 8);
    });
    run.group("all 14 sizes", |dice, bench| {
        for (count, checks) in SIZES {
            for _ in 0..2_000 {
                let data = lists::noise(dice, count);
                let room = count + checks + dice.one_of(&[0, 0, 1, 300]);
                bench.compare(dice, &data, room);
            }
        }
    });
    run.group("zeros, one word that is not zero, equal words", |dice, bench| {
        for (count, checks) in SIZES {
            bench.compare(dice, &vec![0; count], count + checks);
            for at in 0..count {
                let mut data = vec![0; count];
                data[at] = dice.between(1, 255) as u8;
                bench.compare(dice, &data, count + checks);
            }
            for _ in 0..20 {
                let word = dice.byte();
                bench.compare(dice, &vec![word; count], count + checks);
            }
        }
    });
}

/// Document 02, K13: check words add up.
fn combined(run: &mut Run<Bench>) {
    run.group("two lists of each size combined, and patched twice", |dice, bench| {
        for (count, checks) in SIZES {
            for _ in 0..500 {
                let (a, b) = (lists::noise(dice, count), lists::noise(dice, count));
                let [first, second, both] = [&a, &b, &sum(&a, &b)].map(|data| {
                    let mut list = vec![0; count + checks];
                    let answer = ddoc::check_words(data, &mut list);
                    assert_eq!(answer.number, 0, "a size is refused");
                    list
                });
                bench.fail_if(sum(&first, &second) != both, "the sum of two lists is not the list of the sum");
                bench.fail_if(sum(&both, &second) != first, "patching twice does not restore the first");
            }
        }
    });
}

/// The exclusive or, word by word.
fn sum(a: &[u8], b: &[u8]) -> Vec<u8> {
    a.iter().zip(b).map(|(x, y)| x ^ y).collect()
}

fn refusals(run: &mut Run<Bench>) {
    run.group("every count up to 1,700, with room and without", |dice, bench| {
        for count in (0..1_700).chain([5_000]) {
            let data = lists::noise(dice, count);
            for room in [0, count, count + 68, count + 700] {
                bench.compare(dice, &data, room);
            }
        }
    });
    run.group("every room of every size", |dice, bench| {
        for (count, checks) in SIZES {
            for room in 0..count + checks + 2 {
                let data = lists::noise(dice, count);
                bench.compare(dice, &data, room);
            }
        }
    });
    run.group("nothing lent, an odd address, a huge room", |dice, bench| {
        let nothing = ddoc::Answer { number: 1, place: 0, length: 0, used: 0 };
        bench.fail_if(ddoc::check_words(&[], &mut []) != nothing, "nothing lent");
        let short = ddoc::Answer { number: 6, place: 0, length: 0, used: 0 };
        bench.fail_if(ddoc::check_words(&EXAMPLE[..3], &mut []) != short, "no list lent");
        for shift in 0..8 {
            let mut list = vec![7; 8 + shift];
            ddoc::check_words(&EXAMPLE[..3], &mut list[shift..]);
            bench.fail_if(list[shift..] != EXAMPLE, "an odd address");
        }
        let mut list = vec![7; 1 << 24];
        let answer = ddoc::check_words(&EXAMPLE[..3], &mut list);
        bench.fail_if(answer.length != 8 || list[..8] != EXAMPLE || list[8..].iter().any(|&word| word != 7), "a huge room");
        bench.compare(dice, &EXAMPLE[..3], 100_000);
    });
}

fn main() {
    let mut run = Run::new(run::given_seed("checking", USUAL_SEED), |_| Bench::default());
    printed(&mut run);
    combined(&mut run);
    refusals(&mut run);
    let all = run.all.clone();
    run.report([0, 1, 6, 32].iter().all(|&number| all.answers[number] >= 30), "every answer occurs often", &all);
    run.end();
}
