//! How many numbers the queue writes to list and places in a search, in plain Rust, on the scenes that are timed.
//! A program of its own, so that nothing is counted where times are taken.

#[allow(dead_code)]
mod plain;
mod scenes;

use std::sync::atomic::{AtomicUsize, Ordering::Relaxed};

use plain::{Answer, Session};
use scenes::Scene;

static WRITTEN: AtomicUsize = AtomicUsize::new(0);

/// The queue writes so many numbers to list and places. A fresh start, which fills both tables, is not asked.
fn wrote(numbers: usize) {
    WRITTEN.fetch_add(numbers, Relaxed);
}

/// The steps of all searches of a scene, and what the queue wrote in them.
fn count(scene: &Scene) -> (usize, usize) {
    let first = &scene.turns[0];
    let mut session = Session::open(scene.side, scene.side, first.hunter, first.target, scene.plan.clone());
    let mut way = vec![0; scene.side * scene.side];
    let (mut all_steps, mut written) = (0, 0);
    for turn in &scene.turns {
        for change in &turn.changes {
            session.change_move::<false>(change.cell, change.direction, change.cost);
        }
        (session.hunter, session.target) = (turn.hunter, turn.target);
        let before = WRITTEN.load(Relaxed);
        if let Answer::Way { steps, .. } | Answer::None { steps } = session.search::<false>(&mut way) {
            all_steps += steps;
        }
        written += WRITTEN.load(Relaxed) - before;
    }
    (all_steps, written)
}

fn main() {
    println!("| Plan | Kind | Doors a turn | Steps a search | Writes a search | Writes a step |");
    println!("|---|---|---|---|---|---|");
    for scene in scenes::all() {
        let (steps, written) = count(&scene);
        let turns = scene.turns.len() as f64;
        println!(
            "| {0} by {0} | {1} | {2} | {3:.1} | {4:.1} | {5:.2} |",
            scene.side,
            scene.kind.name(),
            scene.doors,
            steps as f64 / turns,
            written as f64 / turns,
            written as f64 / steps as f64
        );
    }
}
