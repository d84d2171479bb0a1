//! Known faults of what a call is given: numbers that are no cell, and bytes that a plan must not have.

use compare::chance::Chance;
use compare::model::neighbour;
use compare::rounds::draw_great;

/// Draws one of the numbers.
pub fn draw_of<T: Copy>(chance: &mut Chance, numbers: &[T]) -> T {
    numbers[chance.draw(numbers.len() as u64) as usize]
}

/// Draws a number that is no cell of so many.
pub fn draw_outside(chance: &mut Chance, cells: u64) -> u64 {
    if chance.draw(2) == 0 { cells + chance.draw(3) } else { draw_great(chance).max(cells) }
}

/// The places of a plan's bytes whose moves leave it, or of those whose moves stay.
pub fn places(width: u64, height: u64, leaving: bool) -> Vec<usize> {
    let leaves = |at: &usize| neighbour(width, height, at / 4, at % 4).is_none();
    (0..4 * (width * height) as usize).filter(|at| leaves(at) == leaving).collect()
}

/// Sets one byte of a plan, of a move that leaves it or of one that stays, to one that is refused there by 4 or by 5.
/// Says whether there is such a move.
pub fn spoil_byte(chance: &mut Chance, width: u64, height: u64, plan: &mut [u8], leaving: bool) -> bool {
    let places = places(width, height, leaving);
    if places.is_empty() {
        return false;
    }
    let at = draw_of(chance, &places);
    plan[at] = if leaving { draw_of(chance, &[0, 1, 2, 250, 251, 254]) } else { draw_of(chance, &[0, 251, 252, 253, 254]) };
    true
}
