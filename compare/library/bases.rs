//! Sound tables to spoil and to break.

use crate::pair::Pair;
use compare::calls::{Call, Counts, Player, Side};
use compare::chance::Chance;
use compare::made::sound_tables;
use compare::rounds::{opened, play_round};

/// Draws sound tables: made ones, which no history led to, or those of a session that was just opened, searched once or played for long.
pub fn draw_base(chance: &mut Chance, counts: &mut Counts, part: &'static str, width: u64, height: u64, made: bool) -> Side {
    if made {
        let (session, tables) = sound_tables(chance, width, height);
        return Side::with(session, tables);
    }
    let mut pair = opened(chance, width, height, 9, |side| Pair::new(side, counts, part));
    match chance.draw(6) {
        0 => (),
        1 => {
            pair.play(Call::Search);
        }
        _ => (0..40).for_each(|_| play_round(chance, &mut pair, 9)),
    }
    pair.level();
    pair.library
}
