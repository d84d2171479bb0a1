//! Plays the same calls through the C interface of the library and through the model of this folder, and compares
//! after every call: the answer, the record, every table and the way list. Of the queue's list and places the
//! order is free; which cells they name is compared, and that the library's are a true heap is checked by the model.
//! Drills are written by both too, and reasons given by both, and every entry of the rooms is compared.
//!
//! `through_c [PERCENT [SEED]]` plays so much of what the test command plays (100 if not given), all drawn from SEED.
//! It prints what it played; at the first difference it prints the call with its tables and fails.

mod asked;
mod bases;
mod breaks;
mod edges;
mod explained;
mod explaining;
mod faults;
mod flips;
mod pair;
mod queue_breaks;
#[path = "../../include/rongdhesi.rs"]
#[allow(dead_code)]
mod rongdhesi;
mod writing;
mod written;

use breaks::play_broken;
use compare::calls::{Call, Counts, Player, Side};
use compare::chance::Chance;
use compare::made::sound_tables;
use compare::model::{cells_of, ABSENT, INFINITE};
use compare::rounds::{opened, play_long, play_long_with_doors, play_round};
use explaining::explain_plans;
use flips::play_flipped;
use pair::Pair;
use writing::write_drills;

/// Sessions of every width and every height from 1 to 64, thin ones among them.
fn play_sizes(seed: u64, percent: u64, counts: &mut Counts) {
    for side in 1..=64 {
        let mut chance = Chance::start(seed, side);
        let drawn = 1 + chance.draw(64);
        for (width, height) in [(side, 1), (1, side), (side, drawn), (drawn, side), (side, side)] {
            let range = [1, 3, 250][chance.draw(3) as usize];
            let mut pair = opened(&mut chance, width, height, range, |side| Pair::new(side, counts, "sizes"));
            for _ in 0..2 * percent {
                play_round(&mut chance, &mut pair, range);
            }
        }
    }
}

/// Sessions on small plans, where much happens on few cells.
fn play_small(seed: u64, percent: u64, counts: &mut Counts) {
    for index in 0..60 * percent {
        let mut chance = Chance::start(seed, 1_000 + index);
        let (width, height) = (1 + chance.draw(9), 1 + chance.draw(9));
        let range = [1, 3, 250][chance.draw(3) as usize];
        let mut pair = opened(&mut chance, width, height, range, |side| Pair::new(side, counts, "small"));
        for _ in 0..150 {
            play_round(&mut chance, &mut pair, range);
        }
    }
}

/// More than 1,000 searches in a row.
fn play_renewals(seed: u64, percent: u64, counts: &mut Counts) {
    for index in 0..percent.div_ceil(5) {
        let mut chance = Chance::start(seed, 200_000 + index);
        let (width, height) = if index == 0 { (24, 17) } else { (2 + chance.draw(4), 2 + chance.draw(4)) };
        let range = [1, 250][chance.draw(2) as usize];
        play_long(&mut chance, width, height, range, |side| Pair::new(side, counts, "long"));
    }
}

/// The same while doors shut, calls are refused and tables are spoiled. Fails if no search was a renewal.
fn play_renewals_with_doors(seed: u64, percent: u64, counts: &mut Counts) {
    for index in 0..percent.div_ceil(10) {
        let mut chance = Chance::start(seed, 600_000 + index);
        let (width, height) = (2 + chance.draw(8), 2 + chance.draw(8));
        play_long_with_doors(&mut chance, width, height, 9, |side| Pair::new(side, counts, "long with doors"));
    }
    if counts.renewals == 0 {
        println!("no search number reached 1,000");
        std::process::exit(1);
    }
}

/// Tables of a plan in which every cell obeys its rules, since nothing is reached, but whose last search had no hunter in the plan.
fn play_without_hunter(chance: &mut Chance, pair: &mut Pair) {
    let cells = pair.side().cells();
    pair.everywhere(|side| {
        let t = &mut side.tables;
        (t.g.fill(INFINITE), t.rhs.fill(INFINITE), t.parent.fill(0), t.k1.fill(0), t.k2.fill(0));
        (t.place.fill(ABSENT), t.list.fill(ABSENT));
        (side.session.origin, side.session.count) = (cells, 0);
    });
    pair.play(Call::Change { cell: chance.draw(cells), direction: chance.draw(4), cost: 1 });
    pair.play(Call::Search);
}

/// Tables that are sound though no history led there, and a session that goes on from them.
fn play_made(seed: u64, percent: u64, counts: &mut Counts) {
    for index in 0..250 * percent {
        let mut chance = Chance::start(seed, 300_000 + index);
        let most = if index % 50 == 0 { 64 } else { 8 };
        let (width, height) = (1 + chance.draw(most), 1 + chance.draw(most));
        let (session, tables) = sound_tables(&mut chance, width, height);
        let mut pair = Pair::new(Side::with(session, tables), counts, "made");
        if chance.draw(2) == 0 {
            pair.play(Call::Search);
        }
        for _ in 0..12 {
            play_round(&mut chance, &mut pair, 9);
        }
        if index % 10 == 0 {
            play_without_hunter(&mut chance, &mut pair);
        }
    }
}

/// The lengths for every size up to 66 in each direction, and for sizes far beyond.
fn ask_lengths() -> u64 {
    let sides: Vec<u64> = (0..=66).chain([255, 256, 65_536, 1 << 32, (1 << 32) + 1, u64::MAX]).collect();
    for &width in &sides {
        for &height in &sides {
            let expected = match cells_of(width, height) {
                Some(cells) => rongdhesi::Lengths { refusal: 0, plan: 4 * cells as u64, cells: cells as u64 },
                None => rongdhesi::Lengths { refusal: 1, plan: 0, cells: 0 },
            };
            let told = rongdhesi::lengths(width, height);
            if told != expected {
                println!("lengths: {:?} for {} by {}, expected {:?}", told, width, height, expected);
                std::process::exit(1);
            }
        }
    }
    (sides.len() * sides.len()) as u64
}

fn main() {
    let words: Vec<u64> = std::env::args()
        .skip(1)
        .map(|word| word.parse().expect("PERCENT and SEED are numbers"))
        .collect();
    let percent = *words.first().unwrap_or(&100);
    let seed = *words.get(1).unwrap_or(&1);
    println!("lengths asked for: {} sizes", ask_lengths());
    let parts: [(&str, fn(u64, u64, &mut Counts)); 7] = [
        ("every width and height, 1 to 64", play_sizes),
        ("small plans", play_small),
        ("more than 1,000 searches in a row", play_renewals),
        ("the same while doors shut, calls are refused and tables are spoiled", play_renewals_with_doors),
        ("sound tables that no history led to", play_made),
        ("each byte of each table and of the record flipped", play_flipped),
        ("each rule of soundness broken by itself, and kept on the edge", play_broken),
    ];
    let mut all = 0;
    for (name, play) in parts {
        let mut counts = Counts::default();
        play(seed, percent, &mut counts);
        println!(
            "{}: {} calls; done, ways, none, caught, refused {:?}; refused by number {:?}; renewals {}, other fresh starts {}, highest search number {}",
            name, counts.calls, counts.kinds, counts.refused, counts.renewals, counts.fresh, counts.highest
        );
        all += counts.calls;
    }
    let writing = write_drills(seed, percent);
    println!(
        "drills written, every byte of the room looked at: {} calls; written {}, refused by number {:?}",
        writing.calls, writing.written, writing.refused
    );
    all += writing.calls;
    let explaining = explain_plans(seed, percent);
    println!(
        "reasons asked for, every entry of the rooms looked at: {} calls; reached, along, through, no walk {:?}; refused by number {:?}",
        explaining.calls, explaining.told, explaining.refused
    );
    all += explaining.calls;
    println!("{} calls through the C interface, each as the model's", all);
}
