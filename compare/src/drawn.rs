//! Drawn drills.

use crate::chance::Chance;
use crate::drill::{Action, Drill, ACTION, GREATEST_FILE, TRAILER};
use crate::made::draw_plan;

/// Draws a well-formed action. One in ten has an odd cell (1), direction (2) or cost (3), which the call may refuse.
fn draw_action(chance: &mut Chance, cells: u64, range: u64) -> Action {
    let odd = if chance.draw(10) == 0 { 1 + chance.draw(3) } else { 0 };
    let cell = if odd == 1 { chance.draw(65_536) } else { chance.draw(cells) } as u16;
    match chance.draw(8) {
        0 | 1 => {
            let direction = if odd == 2 { chance.draw(256) } else { chance.draw(4) } as u8;
            let cost = match chance.draw(3) {
                _ if odd == 3 => [0, 250, 251, 254, 255][chance.draw(5) as usize],
                0 => 255,
                _ => 1 + chance.draw(range) as u8,
            };
            Action { kind: 1, cell, direction, cost }
        }
        2 | 3 => Action { kind: 2, cell, direction: 0, cost: 0 },
        4 | 5 => Action { kind: 3, cell, direction: 0, cost: 0 },
        _ => Action { kind: 4, cell: 0, direction: 0, cost: 0 },
    }
}

/// How many actions a file has room for behind a plan of so many bytes.
pub fn most_actions(plan: usize) -> usize {
    (GREATEST_FILE - TRAILER - plan) / ACTION
}

/// Draws a drill of this size that is not refused as a whole, with as many actions as fit into its file or up to 60.
pub fn draw_drill(chance: &mut Chance, width: u64, height: u64, fullest: bool) -> Drill {
    let cells = width * height;
    let shut = [0, 15, 40, 100][chance.draw(4) as usize];
    let range = [1, 4, 250][chance.draw(3) as usize];
    let plan = draw_plan(chance, width, height, shut, range);
    let number = if fullest { most_actions(plan.len()) } else { chance.draw(61) as usize };
    let mut actions = Vec::new();
    for _ in 0..number {
        draw_action(chance, cells, range).write(&mut actions);
    }
    let (hunter, target) = (chance.draw(cells), chance.draw(cells));
    Drill { width, height, hunter, target, plan, actions }
}
