//! The time of a call, of one process on one set of scenes: the proved library through its C interface, the same in
//! plain Rust with and without the check of soundness, and A* from scratch. Every answer is compared on the way.
//! Then a drill is written and reasons are given, by the library and in plain Rust.

#[path = "../../include/rongdhesi.rs"]
#[allow(dead_code)]
mod rongdhesi;

mod a_star;
mod plain;
mod scenes;

use std::hint::black_box;
use std::time::Instant;

use a_star::AStar;
use plain::Answer;
use rongdhesi::lent;
use scenes::{Kind, Scene};

/// The queue's writes are counted in `writes.rs`, and cost nothing here.
fn wrote(_numbers: usize) {}

/// The library's side of a scene.
struct Library {
    session: rongdhesi::Session,
    plan: Vec<u8>,
    g: Vec<u32>,
    rhs: Vec<u32>,
    parent: Vec<u8>,
    k1: Vec<u32>,
    k2: Vec<u32>,
    place: Vec<u16>,
    list: Vec<u16>,
}

impl Library {
    fn open(side: usize, hunter: usize, target: usize, plan: &[u8]) -> Library {
        let cells = side * side;
        let mut library = Library {
            session: rongdhesi::Session::default(),
            plan: plan.to_vec(),
            g: vec![0; cells],
            rhs: vec![0; cells],
            parent: vec![0; cells],
            k1: vec![0; cells],
            k2: vec![0; cells],
            place: vec![0; cells],
            list: vec![0; cells],
        };
        let reply = rongdhesi::open(side as u64, side as u64, hunter as u64, target as u64, &library.plan, lent!(library));
        assert_eq!(reply.kind, rongdhesi::DONE);
        library.session = reply.session;
        library
    }

    fn change_move(&mut self, cell: usize, direction: usize, cost: u8) -> rongdhesi::Reply {
        let reply = rongdhesi::change_move(self.session, &mut self.plan, lent!(self), cell as u64, direction as u64, cost as u64);
        self.session = reply.session;
        reply
    }
}

/// Who plays a scene.
trait Player {
    fn change(&mut self, cell: usize, direction: usize, cost: u8);
    /// Searches. Gives the cost of the way, if there is one, and the steps.
    fn search(&mut self, hunter: usize, target: usize, way: &mut [u16]) -> (Option<u32>, usize);
}

impl Player for Library {
    fn change(&mut self, cell: usize, direction: usize, cost: u8) {
        assert_eq!(self.change_move(cell, direction, cost).kind, rongdhesi::DONE);
    }

    fn search(&mut self, hunter: usize, target: usize, way: &mut [u16]) -> (Option<u32>, usize) {
        let placed = rongdhesi::place_hunter(self.session, hunter as u64);
        let placed = rongdhesi::place_target(placed.session, target as u64);
        let reply = rongdhesi::search(placed.session, &self.plan, lent!(self), way);
        self.session = reply.session;
        match reply.kind {
            rongdhesi::WAY | rongdhesi::CAUGHT => (Some(reply.cost as u32), reply.steps as usize),
            rongdhesi::NONE => (None, reply.steps as usize),
            _ => panic!("refused by {}", reply.refusal),
        }
    }
}

/// The plain Rust version, with or without the check.
struct Plain<const CHECKED: bool>(plain::Session);

impl<const CHECKED: bool> Player for Plain<CHECKED> {
    fn change(&mut self, cell: usize, direction: usize, cost: u8) {
        assert_eq!(self.0.change_move::<CHECKED>(cell, direction, cost), Answer::Done);
    }

    fn search(&mut self, hunter: usize, target: usize, way: &mut [u16]) -> (Option<u32>, usize) {
        (self.0.hunter, self.0.target) = (hunter, target);
        match self.0.search::<CHECKED>(way) {
            Answer::Way { cost, steps, .. } => (Some(cost), steps),
            Answer::None { steps } => (None, steps),
            Answer::Caught => (Some(0), 0),
            answer => panic!("{:?}", answer),
        }
    }
}

/// A* and the plan that it searches anew each time.
struct FromScratch(AStar, Vec<u8>);

impl Player for FromScratch {
    fn change(&mut self, cell: usize, direction: usize, cost: u8) {
        self.1[4 * cell + direction] = cost;
    }

    fn search(&mut self, hunter: usize, target: usize, way: &mut [u16]) -> (Option<u32>, usize) {
        self.0.search(&self.1, hunter, target, way)
    }
}

/// What a player needed in a scene, in nanoseconds: for each search, and for the changes before it, ten at a time.
struct Played {
    changes: Vec<u64>,
    searches: Vec<u64>,
    steps: usize,
    costs: Vec<Option<u32>>,
}

/// Plays a scene once.
fn play(scene: &Scene, player: &mut dyn Player) -> Played {
    let mut way = vec![0; scene.side * scene.side];
    let mut played = Played { changes: Vec::new(), searches: Vec::new(), steps: 0, costs: Vec::new() };
    for turn in &scene.turns {
        for changes in turn.changes.chunks(10) {
            let began = Instant::now();
            for change in changes {
                player.change(change.cell, change.direction, change.cost);
            }
            played.changes.push(began.elapsed().as_nanos() as u64);
        }
        let began = Instant::now();
        let (cost, steps) = player.search(turn.hunter, turn.target, &mut way);
        played.searches.push(began.elapsed().as_nanos() as u64);
        played.steps += steps;
        played.costs.push(cost);
    }
    played
}

/// Plays a scene by the library once, and gives the time of the check alone before each search: a change of cell N, which is
/// refused by 3 after the whole check. It finds the tables that the search's own check then finds.
fn play_checks(scene: &Scene) -> Vec<u64> {
    let cells = scene.side * scene.side;
    let first = &scene.turns[0];
    let mut library = Library::open(scene.side, first.hunter, first.target, &scene.plan);
    let mut way = vec![0; cells];
    let mut times = Vec::new();
    for turn in &scene.turns {
        for change in &turn.changes {
            library.change(change.cell, change.direction, change.cost);
        }
        let began = Instant::now();
        let reply = library.change_move(cells, 0, 1);
        times.push(began.elapsed().as_nanos() as u64);
        assert_eq!(reply.refusal, 3);
        library.search(turn.hunter, turn.target, &mut way);
    }
    times
}

/// The sum of all times of a scene, each at its least in any of the runs, so that what else the machine did is left out.
fn least<T>(runs: &[T], times: fn(&T) -> &[u64]) -> f64 {
    let all = 0..times(&runs[0]).len();
    all.map(|at| runs.iter().map(|run| times(run)[at]).min().expect("a run")).sum::<u64>() as f64
}

/// One of the four, before the first turn: the library, Rust checked, Rust unchecked, A*.
fn player(scene: &Scene, which: usize) -> Box<dyn Player> {
    let (side, first) = (scene.side, &scene.turns[0]);
    let plain = || plain::Session::open(side, side, first.hunter, first.target, scene.plan.clone());
    match which {
        0 => Box::new(Library::open(side, first.hunter, first.target, &scene.plan)),
        1 => Box::new(Plain::<true>(plain())),
        2 => Box::new(Plain::<false>(plain())),
        _ => Box::new(FromScratch(AStar::new(side), scene.plan.clone())),
    }
}

/// What a scene took, player by player: the steps of a search, and the times of a search and of a change, if there were
/// changes, in microseconds; and the time of the library's check alone before a search.
struct Measured {
    steps: [f64; 4],
    search: [f64; 4],
    change: Option<[f64; 4]>,
    check: f64,
}

impl Measured {
    /// The time of a step without the check, in nanoseconds: the library's, that of Rust, and an expansion of A*.
    fn step(&self) -> [f64; 3] {
        let Measured { steps, search, .. } = self;
        [(search[0] - self.check) / steps[0], search[2] / steps[2], search[3] / steps[3]].map(|time| time * 1e3)
    }
}

/// Plays a scene by all in turn, five times. The check alone is timed in a play of its own, so that no search that is timed
/// finds its tables just checked.
fn measure(scene: &Scene) -> Measured {
    let mut runs: [Vec<Played>; 4] = Default::default();
    let mut checks = Vec::new();
    for _ in 0..5 {
        for (which, runs) in runs.iter_mut().enumerate() {
            runs.push(play(scene, &mut *player(scene, which)));
        }
        checks.push(play_checks(scene));
    }
    let first = runs.each_ref().map(|runs| &runs[0]);
    assert!(first.iter().all(|played| played.costs == first[0].costs), "the answers differ");
    assert!(first[0].steps == first[1].steps && first[1].steps == first[2].steps, "the steps differ");
    let turns = scene.turns.len() as f64;
    let calls: usize = scene.turns.iter().map(|turn| turn.changes.len()).sum();
    let searches = runs.each_ref().map(|runs| least(runs, |played| &played.searches));
    let changes = runs.each_ref().map(|runs| least(runs, |played| &played.changes));
    Measured {
        steps: first.map(|played| played.steps as f64 / turns),
        search: searches.map(|time| time / turns / 1e3),
        change: (calls > 0).then(|| changes.map(|time| time / calls as f64 / 1e3)),
        check: least(&checks, Vec::as_slice) / turns / 1e3,
    }
}

/// How long the library takes for what the Rust version with the same check takes 1 for.
fn to_rust_checked(times: [f64; 4]) -> f64 {
    times[0] / times[1]
}

/// Prints a scene's line.
fn print_line(scene: &Scene, measured: &Measured) {
    let Measured { steps, search, change, .. } = measured;
    print!(
        "| {0} by {0} | {1} | {2} | {3:.1} | {4:.1} | {5:.2} | {6:.2} | {7:.2} | {8:.2} | {9:.2} | {10:.2} |",
        scene.side,
        scene.kind.name(),
        scene.doors,
        steps[0],
        steps[3],
        search[0],
        search[1],
        search[2],
        search[3],
        to_rust_checked(*search),
        search[0] / search[3]
    );
    match change {
        None => println!(" - | - | - | - |"),
        Some(change) => {
            println!(" {:.2} | {:.2} | {:.2} | {:.2} |", change[0], change[1], change[2], to_rust_checked(*change))
        }
    }
}

/// The geometric mean of ratios, with the least and the greatest.
fn mean_of(ratios: &[f64]) -> String {
    let mean = (ratios.iter().map(|ratio| ratio.ln()).sum::<f64>() / ratios.len() as f64).exp();
    let least = ratios.iter().copied().fold(f64::INFINITY, f64::min);
    let greatest = ratios.iter().copied().fold(0.0, f64::max);
    format!("{:.2} ({:.2} to {:.2} in {} scenes)", mean, least, greatest, ratios.len())
}

/// Measures all scenes and prints their table.
fn measure_scenes() -> Vec<(Scene, Measured)> {
    println!("| Plan | Kind | Doors a turn | Steps a search | A* expansions | Search: library | Rust, checked | Rust, unchecked | A* | library / Rust checked | library / A* | Change: library | Rust, checked | Rust, unchecked | library / Rust checked |");
    println!("|---|---|---|---|---|---|---|---|---|---|---|---|---|---|---|");
    let mut all = Vec::new();
    for scene in scenes::all() {
        let measured = measure(&scene);
        print_line(&scene, &measured);
        all.push((scene, measured));
    }
    let searches: Vec<f64> = all.iter().map(|(_, measured)| to_rust_checked(measured.search)).collect();
    let changes: Vec<f64> = all.iter().filter_map(|(_, measured)| measured.change.map(to_rust_checked)).collect();
    println!();
    println!("library / Rust checked, geometric mean: search {}, change {}.", mean_of(&searches), mean_of(&changes));
    all
}

/// Prints the time of a step beside that of an expansion of A*, for the largest plans.
fn print_steps(all: &[(Scene, Measured)]) {
    println!("| Plan | Kind | Doors a turn | Step: library | Rust, unchecked | A*, an expansion | library / A* | Rust unchecked / A* |");
    println!("|---|---|---|---|---|---|---|---|");
    let (mut ours, mut theirs) = (Vec::new(), Vec::new());
    for (scene, measured) in all.iter().filter(|(scene, _)| scene.side == 64) {
        let [library, rust, a_star] = measured.step();
        ours.push(library / a_star);
        theirs.push(rust / a_star);
        println!(
            "| {0} by {0} | {1} | {2} | {3:.0} | {4:.0} | {5:.0} | {6:.2} | {7:.2} |",
            scene.side,
            scene.kind.name(),
            scene.doors,
            library,
            rust,
            a_star,
            library / a_star,
            rust / a_star
        );
    }
    println!();
    println!("step / expansion of A*, geometric mean: library {}, Rust unchecked {}.", mean_of(&ours), mean_of(&theirs));
}

/// The least time of one run out of so many, in microseconds.
fn least_of<T>(runs: usize, mut run: impl FnMut() -> T) -> f64 {
    let mut least = u64::MAX;
    for _ in 0..runs {
        let began = Instant::now();
        black_box(run());
        least = least.min(began.elapsed().as_nanos() as u64);
    }
    least as f64 / 1e3
}

/// The least time of one run out of many.
fn least_time<T>(run: impl FnMut() -> T) -> f64 {
    least_of(2_000, run)
}

/// The check alone: a change of cell N is refused by 3, after all tables were found sound.
fn measure_check(scene: &Scene) {
    let cells = scene.side * scene.side;
    let first = &scene.turns[0];
    let mut library = Library::open(scene.side, first.hunter, first.target, &scene.plan);
    let mut rust = plain::Session::open(scene.side, scene.side, first.hunter, first.target, scene.plan.clone());
    let mut way = vec![0; cells];
    for turn in &scene.turns {
        Player::search(&mut library, turn.hunter, turn.target, &mut way);
        (rust.hunter, rust.target) = (turn.hunter, turn.target);
        rust.search::<true>(&mut way);
    }
    assert_eq!(library.change_move(cells, 0, 1).refusal, 3);
    assert_eq!(rust.change_move::<true>(cells, 0, 1), Answer::Refused(3));
    let ours = least_time(|| library.change_move(cells, 0, 1));
    let theirs = least_time(|| rust.change_move::<true>(cells, 0, 1));
    let each = least_time(|| rust.read_all::<true>());
    let once = least_time(|| rust.read_all::<false>());
    println!(
        "| {0} by {0} | {1} | {2:.2} | {3:.2} | {4:.2} | {5:.2} | {6:.2} | {7:.2} | {8:.2} |",
        scene.side,
        scene.kind.name(),
        ours,
        theirs,
        each,
        once,
        ours / theirs,
        ours / each,
        ours / once
    );
}

/// Measures the check on plans of each size, on the largest for each kind, and prints the table.
fn measure_checks() {
    println!("| Plan | Kind | library | Rust | every entry read, one at a time | every entry read, as the compiler likes | library / Rust | library / one at a time | library / as it likes |");
    println!("|---|---|---|---|---|---|---|---|---|");
    for (side, kind) in [(64, Kind::Shut), (64, Kind::Maze), (64, Kind::Rooms), (32, Kind::Shut), (16, Kind::Shut)] {
        measure_check(&scenes::draw(side, kind, 0, 20, 99));
    }
}

/// Writes the largest drill file: 64 by 64 cells and as many searches as fit.
fn measure_writing() {
    let scene = scenes::draw(64, Kind::Shut, 0, 20, 99);
    let actions = [4, 0, 0, 0, 0].repeat(9_828);
    let first = &scene.turns[0];
    let (hunter, target) = (first.hunter, first.target);
    let drill = plain::Drill { width: 64, height: 64, hunter, target, plan: &scene.plan, actions: &actions };
    let mut rooms = [[0; rongdhesi::GREATEST_FILE]; 3];
    let [ours, checked, alone] = &mut rooms;
    let by_library = |room: &mut [u8]| {
        rongdhesi::write_drill(64, 64, hunter as u64, target as u64, &scene.plan, &actions, room)
    };
    let times = [
        least_time(|| by_library(ours)),
        least_time(|| drill.write::<true>(checked)),
        least_time(|| drill.write::<false>(alone)),
    ];
    let bytes = by_library(ours).bytes as usize;
    assert_eq!(Ok(bytes), drill.write::<true>(checked));
    assert!(ours == checked && checked == alone, "the files differ");
    println!("| Plan | Searches | Bytes | library | Rust, checked | Rust, copying alone | library / Rust checked | library / copying alone |");
    println!("|---|---|---|---|---|---|---|---|");
    println!(
        "| 64 by 64 | {} | {} | {:.2} | {:.2} | {:.2} | {:.2} | {:.2} |",
        actions.len() / 5,
        bytes,
        times[0],
        times[1],
        times[2],
        times[0] / times[1],
        times[0] / times[2]
    );
}

/// The number that the library refuses by, or its answer.
fn answered<T>(refusal: u64, answer: T) -> Result<T, u8> {
    if refusal == 0 { Ok(answer) } else { Err(refusal as u8) }
}

/// The reasons for the hunters and targets of a scene's turns: what is reached, and the least cost through a move. Of the
/// plan's open moves as many are named as there are turns, one as far from the next as from the one before.
fn measure_reason(scene: &Scene) {
    let (side, cells) = (scene.side as u64, scene.side * scene.side);
    let open: Vec<usize> = (0..4 * cells).filter(|&at| scene.plan[at] != 255).collect();
    let first = &scene.turns[0];
    let mut rust = plain::Session::open(scene.side, scene.side, first.hunter, first.target, scene.plan.clone());
    let [mut our_rows, mut their_rows] = [[0; 64]; 2];
    let [mut our_moves, mut their_moves] = [0; 2].map(|_| vec![0; 2 * cells]);
    let mut times = [0.0; 4];
    for (number, turn) in scene.turns.iter().enumerate() {
        let (hunter, target) = (turn.hunter, turn.target);
        let at = open[open.len() * number / scene.turns.len()];
        let mut reached = || {
            let told = rongdhesi::explain_reached(side, side, hunter as u64, &scene.plan, &mut our_rows, &mut our_moves);
            answered(told.refusal, (told.cells as usize, told.moves as usize))
        };
        let through = || {
            let (cell, direction) = (at as u64 / 4, at as u64 % 4);
            let told = rongdhesi::explain_through(side, side, hunter as u64, target as u64, &scene.plan, cell, direction);
            answered(told.refusal, (told.walk == 1).then_some(told.cost as u32))
        };
        assert_eq!(reached(), rust.reached(hunter, &mut their_rows, &mut their_moves));
        assert_eq!(through(), rust.through(hunter, target, at / 4, at % 4));
        times[0] += least_of(100, &mut reached);
        times[1] += least_of(100, || rust.reached(hunter, &mut their_rows, &mut their_moves));
        times[2] += least_of(100, through);
        times[3] += least_of(100, || rust.through(hunter, target, at / 4, at % 4));
        assert!(our_rows == their_rows && our_moves == their_moves, "the cells reached differ");
    }
    let [ours, theirs, our_walk, their_walk] = times.map(|time| time / scene.turns.len() as f64);
    println!(
        "| {0} by {0} | {1} | {2:.2} | {3:.2} | {4:.2} | {5:.2} | {6:.2} | {7:.2} |",
        scene.side,
        scene.kind.name(),
        ours,
        theirs,
        ours / theirs,
        our_walk,
        their_walk,
        our_walk / their_walk
    );
}

/// Measures the reasons on plans of each size, on the largest for each kind, and prints the table.
fn measure_reasons() {
    println!("| Plan | Kind | Reached: library | Rust | library / Rust | Through: library | Rust | library / Rust |");
    println!("|---|---|---|---|---|---|---|---|");
    for (side, kind) in [(64, Kind::Shut), (64, Kind::Maze), (64, Kind::Rooms), (32, Kind::Shut), (16, Kind::Shut)] {
        measure_reason(&scenes::draw(side, kind, 0, 20, 99));
    }
}

fn main() {
    println!("Times of a call in microseconds, each at its least of five runs, in which the four take turns.");
    println!();
    let all = measure_scenes();
    println!();
    println!("A step without the check, in nanoseconds: the search less the check alone, by its steps; for A* the search by its expansions.");
    println!();
    print_steps(&all);
    println!();
    println!("The check alone, the least of 2,000 runs:");
    println!();
    measure_checks();
    println!();
    println!("The largest drill file written into a room that is there, the least of 2,000 runs:");
    println!();
    measure_writing();
    println!();
    println!("What the hunter reaches, and the least cost through a named move, mean of 20 questions, each the least of 100 runs:");
    println!();
    measure_reasons();
}
