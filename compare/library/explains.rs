//! `explains FILE` plays a drill in the model and asks the C interface for the reasons of each search's answer.
//!
//! Where the answer is none, the target is not among the cells reached. Where it is a way, the target is; the running cost
//! along the way begins with 0 and ends in the answer's; and no walk through any move of the way costs less or more than that, since each of
//! its moves lies on a cheapest way. Where it is caught, the way is the one cell. How many of each there were is printed,
//! and how many moves were asked about; a drill that is refused as a whole has no searches. Anything else is told in one
//! line on standard error, and the exit status is 1.

#[path = "../../include/rongdhesi.rs"]
#[allow(dead_code)]
mod rongdhesi;

use compare::drill::{self, Drill, ACTION};
use compare::model::{neighbour, Answer, Session};
use rongdhesi::{Running, Through};

/// How many cells all the walks of one drill may have to look at. Where searches on large plans are many, only so many
/// moves of each way are asked about, but one at least.
const CELLS_LOOKED_AT: usize = 10_000_000;

/// How many searches had which answer, and how many moves were asked about.
#[derive(Default)]
struct Explained {
    searches: usize,
    ways: usize,
    none: usize,
    caught: usize,
    moves: usize,
}

/// Is the target among the cells that the hunter can reach?
fn target_is_reached(session: &Session, plan: &[u8]) -> Result<bool, String> {
    let Session { width, height, hunter, target, .. } = *session;
    let (mut rows, mut moves) = ([0; 64], vec![0; plan.len()]);
    let told = rongdhesi::explain_reached(width, height, hunter, plan, &mut rows, &mut moves);
    if told.refusal != 0 {
        return Err(format!("what hunter {hunter} reaches: {told:?}"));
    }
    Ok(rows[(target / width) as usize] >> (target % width) & 1 == 1)
}

/// Does the running cost along a way begin with 0 and end in the answer's cost?
fn along_holds(session: &Session, plan: &[u8], way: &[u16], cost: u64) -> Result<(), String> {
    let mut costs = vec![u32::MAX; way.len()];
    let told = rongdhesi::explain_along(session.width, session.height, plan, way, &mut costs);
    let ends = (costs[0] as u64, costs[way.len() - 1] as u64);
    if told != (Running { refusal: 0, costs: way.len() as u64 }) || ends != (0, cost) {
        return Err(format!("along {way:?}: {told:?} {costs:?}, not cost {cost}"));
    }
    Ok(())
}

/// Is the cheapest walk through the move from one cell to the next as dear as the answer?
fn through_holds(session: &Session, plan: &[u8], pair: &[u16], cost: u64) -> Result<(), String> {
    let Session { width, height, hunter, target, .. } = *session;
    let (from, to) = (pair[0] as usize, pair[1] as usize);
    let leads = |&direction: &usize| neighbour(width, height, from, direction) == Some(to);
    let direction = (0..4).find(leads).expect("the cells of a way are neighbours");
    let told = rongdhesi::explain_through(width, height, hunter, target, plan, from as u64, direction as u64);
    if told != (Through { refusal: 0, walk: 1, cost }) {
        return Err(format!("from {hunter} to {target} through the move from {from} to {to}: {told:?}, not cost {cost}"));
    }
    Ok(())
}

impl Explained {
    /// Asks for the reasons of one answer, with at most so many moves of its way. What is no search's has none.
    fn ask(&mut self, session: &Session, plan: &[u8], answer: &Answer, way: &[u16], most: usize) -> Result<(), String> {
        let (counter, cost, length) = match *answer {
            Answer::Accepted | Answer::Refused(_) => return Ok(()),
            Answer::None { .. } => (&mut self.none, 0, 0),
            Answer::Caught { .. } => (&mut self.caught, 0, 1),
            Answer::Way { cost, length, .. } => (&mut self.ways, cost as u64, length),
        };
        *counter += 1;
        self.searches += 1;
        if target_is_reached(session, plan)? != (length > 0) {
            return Err(format!("search {}: {answer:?}, and reached is told to be otherwise", self.searches));
        }
        if length > 0 {
            along_holds(session, plan, &way[..length], cost)?;
        }
        let every = length.saturating_sub(1).div_ceil(most).max(1);
        for pair in way[..length].windows(2).skip(self.searches % every).step_by(every) {
            through_holds(session, plan, pair, cost)?;
            self.moves += 1;
        }
        Ok(())
    }
}

/// Plays a drill and asks for the reasons of all its answers. Gives the line to print, or what is wrong.
fn explained(file: &[u8]) -> Result<String, String> {
    let Ok(drill) = drill::read(file) else {
        return Ok("1 refused".to_string());
    };
    let (cells, searches) = (drill.plan.len() / 4, searches_of(&drill));
    let most = (CELLS_LOOKED_AT / (cells * searches.max(1))).max(1);
    let (mut explained, mut fault) = (Explained::default(), Ok(()));
    drill::play_seen(drill, |session, plan, answer, way| {
        if fault.is_ok() {
            fault = explained.ask(session, plan, answer, way, most);
        }
    });
    fault?;
    let Explained { ways, none, caught, moves, .. } = explained;
    Ok(format!("{ways} ways {none} none {caught} caught {moves} moves"))
}

fn searches_of(drill: &Drill) -> usize {
    drill.actions.chunks(ACTION).filter(|action| action[0] == 4).count()
}

/// Reads the file that is named and asks for the reasons of its answers.
fn run() -> Result<String, String> {
    let name = std::env::args().nth(1).ok_or("usage: explains FILE")?;
    let file = std::fs::read(&name).map_err(|error| format!("{}: {}", name, error))?;
    explained(&file)
}

fn main() {
    match run() {
        Ok(line) => println!("{}", line),
        Err(fault) => {
            eprintln!("explains: {}", fault);
            std::process::exit(1);
        }
    }
}
