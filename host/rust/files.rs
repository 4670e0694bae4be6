//! Holds the library's day files against a plain list of texts with states (paper_file.rs): the answer of each call, and every byte of
//! the slice after it. `files [SEED]`; each group of calls is one test.

mod ddoc;
mod files_bench;
#[allow(dead_code)] // the codewords and the reading of symbols
mod lists;
#[allow(dead_code)]
mod paper;
mod paper_file;
mod run;

use files_bench::{Bench, Op};
use lists::{noise, Dice};
use paper_file::{bytes_of, Scan, MOST_BYTES};
use run::{Run, Tally as _};

const USUAL_SEED: u64 = 20_250_211;
/// Each refusal has to be met this often, and accepted calls have to be this part of all.
const LEAST_REFUSED: usize = 100;
const LEAST_ACCEPTED_PERCENT: usize = 10;
const EMPTY: [u8; 8] = [0; 8];

fn some_text(dice: &mut Dice) -> Vec<u8> {
    let length = match dice.below(12) {
        0 => 0,
        1 => dice.between(998, 1001),
        2 => dice.between(1001, 3000),
        3 => dice.between(255, 258),
        _ => dice.below(300),
    };
    noise(dice, length)
}

fn some_number(dice: &mut Dice, count: usize) -> usize {
    match dice.below(20) {
        0 => count,
        1 => count + dice.below(1000),
        2 => dice.one_of(&[usize::MAX, 1 << 32, 1 << 31, 1 << 62, (1 << 62) + 1]),
        _ => dice.below(count.max(1)),
    }
}

fn some_op(dice: &mut Dice, count: usize) -> Op {
    match dice.below(11) {
        0..=3 => Op::Add(some_text(dice)),
        4 | 5 => Op::Withdraw(some_number(dice, count)),
        6 => Op::Squeeze(some_entries(dice, count), some_entries(dice, count)),
        _ => Op::Fetch(some_number(dice, count)),
    }
}

fn some_entries(dice: &mut Dice, count: usize) -> usize {
    dice.one_of(&[count, count, count + 1, count + 20, count / 2, count.saturating_sub(1), 0])
}

fn some_room(dice: &mut Dice) -> usize {
    dice.one_of(&[MOST_BYTES, MOST_BYTES, MOST_BYTES + 1, MOST_BYTES + 500])
}

/// A list whose file has `bytes` bytes, of texts of some length, the last one filling it up.
fn list_of_size(dice: &mut Dice, bytes: usize, usual: usize) -> Vec<Scan> {
    let mut list = Vec::new();
    let mut left = bytes - EMPTY.len();
    while left > 0 {
        let most = left - 7;
        let length = if most <= usual + 7 { most } else { usual };
        list.push(Scan { live: !dice.one_in(4), text: noise(dice, length) });
        left -= 7 + length;
    }
    list
}

fn sequences(run: &mut Run<Bench>) {
    run.group("sequences from an empty file", |dice, bench| {
        for _ in 0..20_000 {
            let room = some_room(dice);
            bench.lend(dice, &EMPTY, room);
            let mut list = Ok(Vec::new());
            for _ in 0..dice.between(1, 16) {
                let count = list.as_ref().map_or(0, Vec::len);
                let op = some_op(dice, count);
                list = bench.call_on(&op, list);
            }
        }
    });
    run.group("files filled to the last byte", |dice, bench| {
        for usual in [0, 1, 20, 300, 1000] {
            bench.lend(dice, &EMPTY, MOST_BYTES);
            let mut list = Ok(Vec::new());
            loop {
                let before = bench.length;
                list = bench.call_on(&Op::Add(noise(dice, usual)), list);
                if bench.length == before {
                    break;
                }
            }
            let room = MOST_BYTES - bench.length;
            for length in [room, room.saturating_sub(6), room.saturating_sub(7), 0] {
                list = bench.call_on(&Op::Add(noise(dice, length.min(1000))), list);
            }
            for _ in 0..50 {
                let count = list.as_ref().map_or(0, Vec::len);
                let op = some_op(dice, count);
                list = bench.call_on(&op, list);
            }
        }
    });
}

/// Every call on what stands in the slice.
fn every_call(dice: &mut Dice, bench: &mut Bench) {
    let length = bench.length;
    for op in [Op::Fetch(dice.below(5)), Op::Withdraw(dice.below(5)), Op::Add(noise(dice, 5)), Op::Squeeze(dice.below(6), dice.below(6))] {
        bench.call(&op);
        bench.length = length;
    }
}

fn damage(run: &mut Run<Bench>) {
    run.group("each byte of a good file changed in turn", |dice, bench| {
        let list = list_of_size(dice, 120, 12);
        let file = bytes_of(&list);
        for at in 0..file.len() {
            for value in 0..=255 {
                bench.lend(dice, &file, MOST_BYTES);
                bench.poke(at, value);
                bench.call(&Op::Fetch(at % 6));
            }
            for _ in 0..4 {
                bench.lend(dice, &file, MOST_BYTES);
                let value = dice.byte();
                bench.poke(at, value);
                every_call(dice, bench);
            }
        }
        let file = bytes_of(&list_of_size(dice, MOST_BYTES, 700));
        for at in 0..file.len() {
            if dice.one_in(4) || at + 500 > file.len() {
                bench.lend(dice, &file, MOST_BYTES);
                let value = dice.byte();
                bench.poke(at, value);
                bench.call(&Op::Fetch(3));
            }
        }
    });
    run.group("counts and starts near 2^30 and 2^32", |dice, bench| {
        for records in 0..5 {
            let list: Vec<Scan> = (0..records).map(|_| Scan { live: true, text: noise(dice, 9) }).collect();
            let good = bytes_of(&list);
            let ends = [1u64 << 29, 1 << 30, 1 << 31, 3 << 30, 1 << 32];
            for end in ends {
                for shift in 0..40u64 {
                    let number = ((end + shift).wrapping_sub(20) as u32).to_be_bytes();
                    let more = (records as u32).wrapping_add(end as u32).to_be_bytes();
                    for (place, bytes) in [(8, number), (4, number), (8, more), (4, more)] {
                        let mut file = good.clone();
                        let at = file.len() - place;
                        file[at..at + 4].copy_from_slice(&bytes);
                        bench.lend(dice, &file, MOST_BYTES);
                        every_call(dice, bench);
                    }
                }
            }
        }
    });
    run.group("noise, and pieces of good files", |dice, bench| {
        for _ in 0..3_000 {
            let usual = dice.below(60);
            let size = dice.between(8 + 7 + usual, 600);
            let mut file = bytes_of(&list_of_size(dice, size, usual));
            match dice.below(4) {
                0 => file = noise(dice, size),
                1 => file.truncate(dice.below(size)),
                2 => file.extend(noise(dice, 1)),
                _ => file.rotate_left(4),
            }
            bench.lend(dice, &file, MOST_BYTES);
            every_call(dice, bench);
        }
    });
}

/// Which records of a file are withdrawn.
const WITHDRAWN: [fn(usize, usize) -> bool; 5] =
    [|_, _| true, |_, _| false, |at, _| at == 0, |at, count| at + 1 == count, |at, _| at % 2 == 1];

fn squeezing(run: &mut Run<Bench>) {
    run.group("all, none, the first, the last, every second record withdrawn", |dice, bench| {
        for withdrawn in WITHDRAWN {
            for usual in [0, 1, 20, 300, 1000, 1001, 5000] {
                for size in [8, 15 + usual, 2000 + usual, MOST_BYTES - 1, MOST_BYTES] {
                    let mut list = list_of_size(dice, size, usual);
                    let count = list.len();
                    for (at, scan) in list.iter_mut().enumerate() {
                        scan.live = !withdrawn(at, count);
                    }
                    let live = list.iter().filter(|scan| scan.live).count();
                    let file = bytes_of(&list);
                    for (olds, news) in [(live, live), (count, count + 1), (live.saturating_sub(1), live), (live, live.saturating_sub(1)), (0, 0)] {
                        let room = some_room(dice);
                        bench.lend(dice, &file, room);
                        bench.call(&Op::Squeeze(olds, news));
                        bench.call(&Op::Squeeze(live, live));
                        bench.call(&Op::Fetch(live / 2));
                    }
                }
            }
        }
    });
    run.group("a full file squeezed and filled again", |dice, bench| {
        for usual in [5, 200, 1000] {
            bench.lend(dice, &EMPTY, MOST_BYTES);
            let mut list = Ok(Vec::new());
            for round in 0..4 {
                for _ in 0..MOST_BYTES / (7 + usual) + 2 {
                    list = bench.call_on(&Op::Add(noise(dice, usual)), list);
                }
                let count = list.as_ref().map_or(0, Vec::len);
                for number in (0..count).filter(|number| number % 5 != round) {
                    list = bench.call_on(&Op::Withdraw(number), list);
                }
                // Refused with 36 before, accepted after exactly where there is room.
                list = bench.call_on(&Op::Add(noise(dice, 1000)), list);
                list = bench.call_on(&Op::Squeeze(count, count), list);
                let room = MOST_BYTES - bench.length;
                for length in [(room + 1).saturating_sub(7), room.saturating_sub(7)] {
                    list = bench.call_on(&Op::Add(noise(dice, length.min(1000))), list);
                }
            }
        }
    });
}

fn limits(run: &mut Run<Bench>) {
    run.group("files of 0 to 8 and of 32,767 to 32,769 bytes", |dice, bench| {
        for length in 0..=8 {
            for file in [vec![0; length], noise(dice, length)] {
                bench.lend(dice, &file, MOST_BYTES);
                every_call(dice, bench);
            }
        }
        for length in MOST_BYTES - 1..=MOST_BYTES + 1 {
            for usual in [0, 7, 20, 999, 1000, 1001, 5000] {
                let file = bytes_of(&list_of_size(dice, length, usual));
                for room in [MOST_BYTES - 1, MOST_BYTES, MOST_BYTES + 1] {
                    bench.lend(dice, &file, room);
                    every_call(dice, bench);
                }
            }
        }
    });
    run.group("slices that are too short, and lengths beyond the slice", |dice, bench| {
        for room in [0, 1, 7, 8, 1000, MOST_BYTES - 2, MOST_BYTES - 1, MOST_BYTES] {
            for length in [0, 8, MOST_BYTES, MOST_BYTES + 1, 1 << 32, usize::MAX - 7, usize::MAX] {
                bench.lend(dice, &EMPTY, room);
                bench.length = length;
                every_call(dice, bench);
            }
        }
    });
    run.group("texts above the limit inside a file", |dice, bench| {
        for length in [999, 1000, 1001, 1500, 9000, 32_750] {
            for live in [true, false] {
                let list = vec![Scan { live, text: noise(dice, length) }];
                bench.lend(dice, &bytes_of(&list), MOST_BYTES);
                bench.call(&Op::Fetch(0));
                bench.call(&Op::Withdraw(0));
                bench.call(&Op::Fetch(0));
                every_call(dice, bench);
            }
        }
    });
}

/// The calls must have reached every answer, or the comparison says little.
fn coverage(run: &mut Run<Bench>) {
    let all = run.all.clone();
    let often = [5, 6, 35, 36, 37].iter().all(|&number| all.answers[number] >= LEAST_REFUSED);
    let accepted = 100 * all.answers[0] >= LEAST_ACCEPTED_PERCENT * all.cases();
    run.report(often && accepted, "every answer occurs often", &all);
}

fn main() {
    let mut run = Run::new(run::given_seed("files", USUAL_SEED), Bench::new);
    sequences(&mut run);
    damage(&mut run);
    squeezing(&mut run);
    limits(&mut run);
    coverage(&mut run);
    run.end()
}
