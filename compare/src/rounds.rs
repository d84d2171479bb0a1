//! Drawn sessions, for any player: how one is opened, what happens in a round of it, and long ones.

use crate::calls::{Call, Player, Side};
use crate::chance::Chance;
use crate::made::draw_plan;
use crate::model::{neighbour, Answer, Session, INFINITE};
use crate::spoil::{cut, cut_one, flip_field};

/// Draws a number that is far too great.
pub fn draw_great(chance: &mut Chance) -> u64 {
    [256, 257, 65_535, 65_536, 1 << 32, (1 << 32) + 1, 1 << 63, u64::MAX][chance.draw(8) as usize]
}

/// Draws a cost: with 30 in hundred shut, else 1 to the range.
pub fn draw_cost(chance: &mut Chance, range: u64) -> u64 {
    if chance.draw(100) < 30 {
        255
    } else {
        1 + chance.draw(range)
    }
}

/// Draws a cell to place at: a neighbour, one whose rhs is infinite if there is one, or any.
fn draw_place(chance: &mut Chance, side: &Side, near: u64) -> u64 {
    let Session { width, height, .. } = side.session;
    let any = chance.draw(side.cells());
    match chance.draw(10) {
        0 | 1 => (any..side.cells()).chain(0..any).find(|&cell| side.tables.rhs[cell as usize] == INFINITE).unwrap_or(any),
        2..=5 => neighbour(width, height, near as usize, chance.draw(4) as usize).map_or(near, |cell| cell as u64),
        _ => any,
    }
}

/// Draws a call that is at fault in what it is given.
fn draw_faulty(chance: &mut Chance, cells: u64) -> Call {
    let beyond = if chance.draw(3) == 0 { draw_great(chance).max(cells) } else { cells + chance.draw(3) };
    let (cell, direction) = (chance.draw(cells), chance.draw(4));
    match chance.draw(7) {
        0 => Call::Hunter(beyond),
        1 => Call::Target(beyond),
        2 => Call::Change { cell: beyond, direction: 4, cost: 0 },
        3 => Call::Change { cell, direction: 4 + chance.draw(300), cost: 0 },
        4 => Call::Change { cell, direction: draw_great(chance), cost: 1 },
        5 => Call::Change { cell, direction, cost: [0, 251, 252, 253, 254][chance.draw(5) as usize] },
        _ => Call::Change { cell, direction, cost: draw_great(chance) },
    }
}

/// Spoils one entry of a table or one field of the record.
fn spoil(chance: &mut Chance, player: &mut impl Player) {
    let cells = player.side().cells();
    let at = chance.draw(cells) as usize;
    let table = chance.draw(7);
    let number = match chance.draw(4) {
        0 => 0,
        1 => INFINITE,
        2 => 1 + chance.draw(300) as u32,
        _ => player.side().tables.g[at].wrapping_add(1),
    };
    let byte = 4 * at + chance.draw(4) as usize;
    let fields = Session::BYTES.len();
    let (small, field) = (chance.draw(256) as u8, chance.draw(fields as u64 + 4) as usize);
    player.everywhere(|side| match table {
        0 => side.tables.plan[byte] = small,
        1 => side.tables.g[at] = number,
        2 => side.tables.rhs[at] = number,
        3 => side.tables.parent[at] = small % 6,
        4 => side.tables.k1[at] = number,
        5 => side.tables.k2[at] = number,
        _ => match field.checked_sub(fields) {
            None => flip_field(&mut side.session, field, 1 + small as u64 % 7),
            // The first number that is no cell.
            Some(0) => side.session.hunter = cells,
            Some(1) => side.session.target = cells,
            Some(2) => side.session.origin = cells,
            Some(_) => side.session.goal = cells,
        },
    });
}

/// Draws a change of a move of the plan.
fn draw_change(chance: &mut Chance, cells: u64, range: u64) -> Call {
    let (cell, direction) = (chance.draw(cells), chance.draw(4));
    Call::Change { cell, direction, cost: draw_cost(chance, range) }
}

/// Spoils something, makes a call, and puts back what was spoiled if that was refused.
fn play_spoiled(chance: &mut Chance, player: &mut impl Player, range: u64) {
    player.level();
    let before = player.side().clone();
    spoil(chance, player);
    let call = if chance.draw(2) == 0 { draw_change(chance, before.cells(), range) } else { Call::Search };
    if let Answer::Refused(_) = player.play(call) {
        player.everywhere(|side| *side = before.clone());
    }
}

/// Plays a call with one table, or the way list, of a wrong length, and puts everything back.
fn play_cut(chance: &mut Chance, player: &mut impl Player) {
    player.level();
    let before = player.side().clone();
    let which = chance.draw(9);
    let longer = chance.draw(2) == 0;
    player.everywhere(|side| if which < 8 { cut(&mut side.tables, which, longer) } else { cut_one(&mut side.way, longer) });
    let Session { width, height, .. } = before.session;
    let call = match chance.draw(3) {
        0 => Call::Change { cell: 0, direction: 1, cost: 1 },
        1 if which < 8 => Call::Open { width, height, hunter: 0, target: 0 },
        _ => Call::Search,
    };
    player.play(call);
    player.everywhere(|side| *side = before.clone());
}

/// A round in which nobody is placed: a change, a faulty, spoiled or cut call, or a search.
fn play_in_place(chance: &mut Chance, player: &mut impl Player, range: u64) {
    let cells = player.side().cells();
    match chance.draw(70) {
        0..=29 => {
            player.play(draw_change(chance, cells, range));
        }
        30..=33 => {
            player.play(draw_faulty(chance, cells));
        }
        34..=37 => play_spoiled(chance, player, range),
        38..=39 => play_cut(chance, player),
        _ => {
            player.play(Call::Search);
        }
    }
}

/// One round of a session: hunter or target placed somewhere, or neither.
pub fn play_round(chance: &mut Chance, player: &mut impl Player, range: u64) {
    let side = player.side();
    match chance.draw(100) {
        0..=14 => {
            let cell = draw_place(chance, side, side.session.hunter);
            player.play(Call::Hunter(cell));
        }
        15..=29 => {
            let cell = draw_place(chance, side, side.session.target);
            player.play(Call::Target(cell));
        }
        _ => play_in_place(chance, player, range),
    }
}

/// Draws a plan. In some, moves lead east and south only, so that every door is one-way.
pub fn draw_floor(chance: &mut Chance, width: u64, height: u64, range: u64) -> Vec<u8> {
    let shut = [0, 10, 25, 45, 100][chance.draw(5) as usize];
    let mut plan = draw_plan(chance, width, height, shut, range);
    if chance.draw(5) == 0 {
        for (at, byte) in plan.iter_mut().enumerate() {
            if at % 4 == 0 || at % 4 == 3 {
                *byte = 255;
            }
        }
    }
    plan
}

/// Opens a session on a drawn plan, after some opens that are at fault.
pub fn opened<P: Player>(chance: &mut Chance, width: u64, height: u64, range: u64, player: impl FnOnce(Side) -> P) -> P {
    let cells = width * height;
    let mut player = player(Side::filled(draw_floor(chance, width, height, range), cells as usize));
    for (width, height) in [(0, height), (width, 65), (draw_great(chance), height)] {
        player.play(Call::Open { width, height, hunter: 0, target: 0 });
    }
    player.play(Call::Open { width, height, hunter: cells, target: 0 });
    player.play(Call::Open { width, height, hunter: 0, target: draw_great(chance).max(cells) });
    let at = chance.draw(4 * cells) as usize;
    let (old, new) = (player.side().tables.plan[at], [0, 1, 250, 251, 254][chance.draw(5) as usize]);
    player.everywhere(|side| side.tables.plan[at] = new);
    player.play(Call::Open { width, height, hunter: 0, target: 0 });
    player.everywhere(|side| side.tables.plan[at] = old);
    let (hunter, target) = (chance.draw(cells), chance.draw(cells));
    player.play(Call::Open { width, height, hunter, target });
    player
}

/// Goes one cell along the way shown, if the last search showed one.
fn walk(player: &mut impl Player, last: Answer) {
    if let Answer::Way { .. } = last {
        player.play(Call::Hunter(player.side().way[1] as u64));
    }
}

/// More than 1,000 searches in a row on a plan of two cells or more: the hunter goes along the way, the target moves, costs change, and no door shuts.
pub fn play_long<P: Player>(chance: &mut Chance, width: u64, height: u64, range: u64, player: impl FnOnce(Side) -> P) -> P {
    let cells = width * height;
    let mut player = player(Side::filled(draw_plan(chance, width, height, 0, range), cells as usize));
    let mut last = player.play(Call::Open { width, height, hunter: 0, target: cells - 1 });
    for round in 0..2_300 {
        walk(&mut player, last);
        let Session { hunter, target, .. } = player.side().session;
        if hunter == target || round % 3 == 0 {
            player.play(Call::Target((hunter + 1 + chance.draw(cells - 1)) % cells));
        }
        if round % 4 == 0 {
            let (cell, direction) = (chance.draw(cells), chance.draw(4));
            player.play(Call::Change { cell, direction, cost: 1 + chance.draw(range) });
        }
        last = player.play(Call::Search);
    }
    player
}

/// The same while doors shut and open, calls are refused and tables are spoiled: the hunter only goes along the way, so that
/// hardly a search but the renewal starts fresh.
pub fn play_long_with_doors<P: Player>(chance: &mut Chance, width: u64, height: u64, range: u64, player: impl FnOnce(Side) -> P) -> P {
    let mut player = opened(chance, width, height, range, player);
    let mut last = player.play(Call::Search);
    for _ in 0..1_500 {
        match chance.draw(8) {
            0 => walk(&mut player, last),
            1 => {
                player.play(Call::Target(chance.draw(width * height)));
            }
            _ => play_in_place(chance, &mut player, range),
        }
        last = player.play(Call::Search);
    }
    player
}
