//! A reason given by the model and through the C interface, and all that is told and left in the room compared.

use crate::rongdhesi::{self, Running, Through};
use compare::explain::{Floor, Reached};
use std::fmt::Debug;
use std::ops::Not;

/// What the model answers, the reason or the refusal number, or else in what the library differs.
type Held<T> = Result<Result<T, u8>, String>;

/// How many entries before a room and behind it are looked at too.
const BESIDE: usize = 8;

/// A room lent to the library, with what stood there before and the entries beside it.
struct Room<T> {
    before: Vec<T>,
    left: Vec<T>,
}

impl<T: Copy + Debug + From<u8> + Not<Output = T> + PartialEq> Room<T> {
    /// A room of so many entries, none of which is what is due in its place.
    fn of(length: usize, due: &[T]) -> Room<T> {
        let due_at = |at: usize| at.checked_sub(BESIDE).and_then(|place| due.get(place));
        let other = |at: usize| due_at(at).map_or(T::from(165 ^ at as u8), |&entry| !entry);
        let before: Vec<T> = (0..length + 2 * BESIDE).map(other).collect();
        Room { left: before.clone(), before }
    }

    fn lent(&mut self) -> &mut [T] {
        let end = self.left.len() - BESIDE;
        &mut self.left[BESIDE..end]
    }

    /// Is what is due written first, and all else as it was?
    fn holds(&self, name: &str, due: &[T]) -> Result<(), String> {
        let mut wanted = self.before.clone();
        wanted[BESIDE..BESIDE + due.len()].copy_from_slice(due);
        match (0..wanted.len()).find(|&at| self.left[at] != wanted[at]) {
            None => Ok(()),
            Some(at) => {
                let (place, room) = (at as i64 - BESIDE as i64, wanted.len() - 2 * BESIDE);
                Err(format!("{name} {place} of {room} is {:?} and not {:?}", self.left[at], wanted[at]))
            }
        }
    }
}

/// Is what the library tells what the model tells?
fn same<T: Debug + PartialEq>(came: T, due: T) -> Result<(), String> {
    if came == due {
        Ok(())
    } else {
        Err(format!("the library tells {came:?}, the model {due:?}"))
    }
}

/// The cells that the hunter can reach, in a room of so many rows and so many moves.
pub fn reached(floor: Floor, hunter: u64, rows: usize, moves: usize) -> Held<Reached> {
    let Floor { width, height, plan } = floor;
    let answer = floor.reached(hunter, rows, moves);
    let (due_rows, due_moves) = answer.as_ref().map_or((&[][..], &[][..]), |found| (&found.rows[..], &found.moves[..]));
    let (mut rows, mut moves) = (Room::of(rows, due_rows), Room::of(moves, due_moves));
    let came = rongdhesi::explain_reached(width, height, hunter, plan, rows.lent(), moves.lent());
    let told = match &answer {
        Ok(found) => rongdhesi::Reached { refusal: 0, cells: found.cells, moves: found.moves.len() as u64 },
        Err(number) => rongdhesi::Reached { refusal: *number as u64, cells: 0, moves: 0 },
    };
    same(came, told)?;
    rows.holds("row", due_rows)?;
    moves.holds("move", due_moves)?;
    Ok(answer)
}

/// The running cost along a list, in a room of so many costs.
pub fn along(floor: Floor, list: &[u16], costs: usize) -> Held<Vec<u32>> {
    let Floor { width, height, plan } = floor;
    let answer = floor.along(list, costs);
    let due = answer.as_deref().unwrap_or(&[]);
    let mut costs = Room::of(costs, due);
    let came = rongdhesi::explain_along(width, height, plan, list, costs.lent());
    let told = match &answer {
        Ok(running) => Running { refusal: 0, costs: running.len() as u64 },
        Err(number) => Running { refusal: *number as u64, costs: 0 },
    };
    same(came, told)?;
    costs.holds("cost", due)?;
    Ok(answer)
}

/// The least cost from hunter to target through a move.
pub fn through(floor: Floor, hunter: u64, target: u64, cell: u64, direction: u64) -> Held<Option<u64>> {
    let Floor { width, height, plan } = floor;
    let answer = floor.through(hunter, target, cell, direction);
    let told = match answer {
        Ok(Some(cost)) => Through { refusal: 0, walk: 1, cost },
        Ok(None) => Through { refusal: 0, walk: 0, cost: 0 },
        Err(number) => Through { refusal: number as u64, walk: 0, cost: 0 },
    };
    same(rongdhesi::explain_through(width, height, hunter, target, plan, cell, direction), told)?;
    Ok(answer)
}
