//! Looks for the worst number of steps: `ratio SEED SECONDS` plays sessions and searches from made
//! sound tables for the given time, checks every answer, and prints the worst steps / (3N) by size.

use compare::chance::Chance;
use compare::made::sound_tables;
use compare::model::{is_sound, ABSENT};
use compare::play::{checked_search, play, Played};
use std::collections::BTreeMap;
use std::time::{Duration, Instant};

fn main() {
    let arguments: Vec<String> = std::env::args().collect();
    if arguments.len() < 3 {
        eprintln!("usage: ratio SEED SECONDS");
        std::process::exit(2);
    }
    let seed: u64 = arguments[1].parse().expect("SEED is a number");
    let seconds: u64 = arguments[2].parse().expect("SECONDS is a number");
    let end = Instant::now() + Duration::from_secs(seconds);

    // The first part plays sessions, so these tables have a history.
    let mut sessions: BTreeMap<u64, u64> = BTreeMap::new();
    let (mut played, mut searches) = (0u64, 0u64);
    let half = Instant::now() + Duration::from_secs(seconds / 2);
    while Instant::now() < half {
        let Played { cells, counts } = play(seed, played);
        played += 1;
        searches += counts.kinds[1] + counts.kinds[2];
        let worst = sessions.entry(cells).or_insert(0);
        *worst = (*worst).max(counts.most_steps);
    }
    report("played sessions", played, searches, &sessions);

    // The second part searches from made sound tables, which need no history.
    let mut made: BTreeMap<u64, u64> = BTreeMap::new();
    let (mut number, mut searches) = (0u64, 0u64);
    while Instant::now() < end {
        let mut chance = Chance::start(seed, number);
        number += 1;
        let most = if number % 500 == 0 { 64 } else if number % 20 == 0 { 12 } else { 5 };
        let width = 1 + chance.draw(most);
        let height = 1 + chance.draw(most);
        let (mut session, mut tables) = sound_tables(&mut chance, width, height);
        assert!(is_sound(&session, &tables), "made tables are sound");
        let mut way = vec![ABSENT; tables.g.len()];
        let mut log = Vec::new();
        // Some further searches follow, with new places each time.
        for _ in 0..3 {
            session = checked_search(&session, &mut tables, &mut way, &mut log).1;
            searches += 1;
            let worst = made.entry(width * height).or_insert(0);
            *worst = (*worst).max(log.len() as u64);
            session.hunter = chance.draw(width * height);
            session.target = chance.draw(width * height);
        }
    }
    report("made tables", number, searches, &made);
}

/// Prints the worst ratio of all sizes and of some sizes.
fn report(what: &str, number: u64, searches: u64, worst: &BTreeMap<u64, u64>) {
    println!("{}: {} of them, {} searches", what, number, searches);
    let ratio = |cells: u64, steps: u64| steps as f64 / (3 * cells) as f64;
    let mut all: Vec<(u64, u64)> = worst.iter().map(|(&cells, &steps)| (cells, steps)).collect();
    all.sort_by(|a, b| ratio(b.0, b.1).partial_cmp(&ratio(a.0, a.1)).unwrap());
    for &(cells, steps) in all.iter().take(12) {
        println!("  N {} steps {} of {} ratio {:.4}", cells, steps, 3 * cells, ratio(cells, steps));
    }
    if let Some(&steps) = worst.get(&4096) {
        println!("  N 4096 steps {} of 12288 ratio {:.4}", steps, ratio(4096, steps));
    }
}
