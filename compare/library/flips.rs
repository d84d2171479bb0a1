//! Tables and records with one byte flipped.

use crate::bases::draw_base;
use crate::pair::Pair;
use compare::calls::{Call, Counts, Player, Side};
use compare::chance::Chance;
use compare::model::Session;
use compare::rounds::draw_cost;
use compare::spoil::flip;

/// How many bytes a table has; table 8 is the record.
fn bytes_of(side: &Side, table: usize) -> usize {
    let cells = side.cells() as usize;
    let record = Session::BYTES.iter().sum();
    [4 * cells, 4 * cells, 4 * cells, cells, 4 * cells, 4 * cells, 2 * cells, 2 * cells, record][table]
}

/// Each byte of each table and of the record flipped in three ways, and then a change, a search or a placing:
/// on tables that a session left and on made ones. Of the full plans among them only some bytes are flipped.
pub fn play_flipped(seed: u64, percent: u64, counts: &mut Counts) {
    for index in 0..5 * percent / 2 {
        let mut chance = Chance::start(seed, 400_000 + index);
        let full = index % 50 == 49;
        let (width, height) = if full { (64, 64) } else { (1 + chance.draw(6), 1 + chance.draw(6)) };
        let base = draw_base(&mut chance, counts, "flipped", width, height, index % 2 == 0);
        for table in 0..9 {
            for byte in (0..bytes_of(&base, table)).step_by(if full && table < 8 { 199 } else { 1 }) {
                for bits in [1, 128, 255] {
                    let mut pair = Pair::new(base.clone(), counts, "flipped");
                    pair.everywhere(|side| flip(side, table, byte, bits));
                    let (cell, direction) = (chance.draw(base.cells()), chance.draw(4));
                    let cost = draw_cost(&mut chance, 9);
                    match chance.draw(4) {
                        0 => pair.play(Call::Change { cell, direction, cost }),
                        1 if table == 8 => pair.play(Call::Hunter(cell)),
                        _ => pair.play(Call::Search),
                    };
                }
            }
        }
    }
}
