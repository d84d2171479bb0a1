//! A drill written by the model and through the C interface, and all that is told and left in the room compared.

use crate::rongdhesi::{self, Written};
use compare::drill::{self, Drill};

/// How many bytes before the room and behind it are looked at too.
const BESIDE: usize = 8;

/// What the library has to tell where the model answers so.
fn told(answer: &Result<Vec<u8>, u8>) -> Written {
    match answer {
        Ok(file) => Written { refusal: 0, bytes: file.len() as u64 },
        Err(number) => Written { refusal: *number as u64, bytes: 0 },
    }
}

/// Bytes for a room and beside it, none of which is what the file has in its place.
fn other_bytes(file: &[u8], room: usize) -> Vec<u8> {
    let other = |at: usize| at.checked_sub(BESIDE).and_then(|at| file.get(at)).map_or(at as u8, |byte| !byte);
    (0..room + 2 * BESIDE).map(other).collect()
}

/// Writes a drill into a room of so many bytes. Gives what the model answers, the file or the refusal number, or else
/// says in what the library differs.
pub fn write(drill: &Drill, room: usize) -> Result<Result<Vec<u8>, u8>, String> {
    let answer = drill::write(drill, room);
    let file = answer.as_deref().unwrap_or(&[]);
    let mut wanted = other_bytes(file, room);
    let mut left = wanted.clone();
    wanted[BESIDE..BESIDE + file.len()].copy_from_slice(file);
    let Drill { width, height, hunter, target, plan, actions } = drill;
    let lent = &mut left[BESIDE..BESIDE + room];
    let came = rongdhesi::write_drill(*width, *height, *hunter, *target, plan, actions, lent);
    if came != told(&answer) {
        return Err(format!("the library tells {:?}, the model {:?}", came, told(&answer)));
    }
    if let Some(at) = (0..left.len()).find(|&at| left[at] != wanted[at]) {
        let (place, is, due) = (at as i64 - BESIDE as i64, left[at], wanted[at]);
        return Err(format!("byte {place} of a room of {room} is {is} and not {due} after {came:?}"));
    }
    Ok(answer)
}
