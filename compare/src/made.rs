//! Sound tables that no history led to.

use crate::chance::Chance;
use crate::dijkstra::distances;
use crate::model::{
    least_entry, neighbour, opposite, wide_key, Rank, Session, Tables, ABSENT, INFINITE, SHUT,
};

/// Draws a plan: each inner move is shut with the given chance in hundred, else costs 1 to `range`.
pub fn draw_plan(chance: &mut Chance, width: u64, height: u64, shut: u64, range: u64) -> Vec<u8> {
    let cells = (width * height) as usize;
    let mut plan = vec![SHUT; 4 * cells];
    for cell in 0..cells {
        for direction in 0..4 {
            if neighbour(width, height, cell, direction).is_some() && chance.draw(100) >= shut {
                plan[4 * cell + direction] = (1 + chance.draw(range)) as u8;
            }
        }
    }
    plan
}

/// Draws a number from 0 to `most`, which may be as great as 2^32.
fn draw_up_to(chance: &mut Chance, most: u64) -> u64 {
    if most < 1_000_000 {
        return chance.draw(most + 1);
    }
    match chance.draw(4) {
        0 => most - chance.draw(1_000),
        1 => chance.draw(1_000),
        _ => (chance.draw(1_000_000) * 1_000_000 + chance.draw(1_000_000)) % (most + 1),
    }
}

/// Makes sound tables of the given size at random: plan, cells, km and search number, then g within
/// its bound, and from these everything else. Parents are any least neighbours, stored keys are lowered
/// at random, and the heap is built by putting the cells in in a random order.
pub fn sound_tables(chance: &mut Chance, width: u64, height: u64) -> (Session, Tables) {
    let cells = (width * height) as usize;
    let shut = [0, 10, 30, 60, 100][chance.draw(5) as usize];
    let range = [1, 2, 9, 250][chance.draw(4) as usize];
    let plan = draw_plan(chance, width, height, shut, range);
    let searches = match chance.draw(6) {
        0 => 0,
        1 => 1,
        2 => 999,
        3 => 1_000,
        _ => chance.draw(1_001),
    };
    let bound = 1_024_250 * searches;
    let mut session = Session {
        width,
        height,
        hunter: chance.draw(cells as u64),
        target: chance.draw(cells as u64),
        origin: chance.draw(cells as u64),
        goal: chance.draw(cells as u64),
        km: draw_up_to(chance, 126 * searches) as u32,
        searches: searches as u32,
        ..Session::default()
    };
    // The placed cells are often those of the last search, so that nothing is taken over.
    if chance.draw(2) == 0 {
        session.hunter = session.origin;
    }
    if chance.draw(2) == 0 {
        session.target = session.goal;
    }
    let origin = session.origin as usize;
    let mut tables = Tables::filled(plan, cells, 0);

    // The g of the cells is right for some hunter at some start number, and then disturbed.
    let base = draw_up_to(chance, bound);
    let other = chance.draw(cells as u64) as usize;
    let root = if chance.draw(3) == 0 { other } else { origin };
    let right = distances(width, height, &tables.plan, root);
    let disturbed = [0, 10, 50, 100][chance.draw(4) as usize];
    let manner = chance.draw(6);
    for cell in 0..cells {
        let mut g = match right[cell] {
            Some(distance) if base + distance <= bound => (base + distance) as u32,
            _ => INFINITE,
        };
        if chance.draw(100) < disturbed {
            g = match if manner < 5 { manner } else { chance.draw(5) } {
                0 => draw_up_to(chance, bound) as u32,
                1 => INFINITE,
                2 => chance.draw((bound + 1).min(300)) as u32,
                3 if g == INFINITE => bound as u32,
                3 => (g as u64 + chance.draw(9)).min(bound) as u32,
                _ if g == INFINITE => 0,
                _ => (g as u64).saturating_sub(chance.draw(9)) as u32,
            };
        }
        tables.g[cell] = g;
    }

    // The hunter's rhs is any number within the bound, and often the one that fits.
    let fitting = if tables.g[origin] == INFINITE { 0 } else { tables.g[origin] };
    tables.rhs[origin] = match chance.draw(3) {
        0 => fitting,
        1 => (fitting as u64 + chance.draw(20)).min(bound) as u32,
        _ => draw_up_to(chance, bound) as u32,
    };
    for cell in 0..cells {
        if cell == origin {
            continue;
        }
        match least_entry(&session, &tables, cell) {
            None => tables.rhs[cell] = INFINITE,
            Some((least, _)) => {
                tables.rhs[cell] = least as u32;
                let fitting: Vec<usize> = (0..4)
                    .filter(|&direction| {
                        neighbour(width, height, cell, direction).map_or(false, |from| {
                            let cost = tables.plan[4 * from + opposite(direction)];
                            cost != SHUT
                                && tables.g[from] != INFINITE
                                && tables.g[from] as u64 + cost as u64 == least
                        })
                    })
                    .collect();
                let chosen = fitting[chance.draw(fitting.len() as u64) as usize];
                tables.parent[cell] = chosen as u8 + 1;
            }
        }
    }

    // The stored keys: the calculated ones, or any that are not above them.
    let stale = [0, 30, 100][chance.draw(3) as usize];
    for cell in 0..cells {
        if tables.g[cell] == tables.rhs[cell] {
            continue;
        }
        let (mut k1, mut k2) = wide_key(&session, &tables, cell).expect("unlike g and rhs give a key");
        if chance.draw(100) < stale {
            match chance.draw(5) {
                0 => k2 = draw_up_to(chance, k2),
                1 if k1 > 0 => {
                    k1 -= 1;
                    k2 = INFINITE as u64;
                }
                2 if k1 > 0 => {
                    k1 = draw_up_to(chance, k1 - 1);
                    k2 = draw_up_to(chance, 2 * k2);
                }
                3 => {
                    k1 = 0;
                    k2 = 0;
                }
                _ => k1 -= chance.draw(k1.min(9) + 1),
            }
        }
        tables.k1[cell] = k1 as u32;
        tables.k2[cell] = k2.min(INFINITE as u64) as u32;
    }
    queue_in_random_order(chance, &mut session, &mut tables);
    (session, tables)
}

/// Fills list, places and count with the cells of unlike g and rhs, put in in a random order.
fn queue_in_random_order(chance: &mut Chance, session: &mut Session, tables: &mut Tables) {
    let cells = tables.g.len();
    let mut members: Vec<u16> =
        (0..cells).filter(|&c| tables.g[c] != tables.rhs[c]).map(|c| c as u16).collect();
    for index in (1..members.len()).rev() {
        members.swap(index, chance.draw(index as u64 + 1) as usize);
    }
    let mut heap: Vec<u16> = Vec::new();
    for cell in members {
        heap.push(cell);
        let mut at = heap.len() - 1;
        let rank = |c: u16| Rank::of(session.width, tables, c);
        while at > 0 && rank(heap[at]) < rank(heap[(at - 1) / 2]) {
            heap.swap(at, (at - 1) / 2);
            at = (at - 1) / 2;
        }
    }
    tables.list.fill(ABSENT);
    tables.place.fill(ABSENT);
    for (index, &cell) in heap.iter().enumerate() {
        tables.list[index] = cell;
        tables.place[cell as usize] = index as u16;
    }
    session.count = heap.len() as u64;
}

/// Tables of 2 by 2 cells, all moves open at 1, of which only the hunter's cell 0 was lowered on the way to cell 3: cells 1 and 2 wait
/// under one key, cell 2 (column 0, row 1) above cell 1 (column 1, row 0).
pub fn tied_pair() -> (Session, Tables) {
    let session = Session { width: 2, height: 2, target: 3, goal: 3, count: 2, searches: 1, ..Session::default() };
    let tables = Tables {
        plan: vec![SHUT, 1, 1, SHUT, SHUT, SHUT, 1, 1, 1, 1, SHUT, SHUT, 1, SHUT, SHUT, 1],
        g: vec![0, INFINITE, INFINITE, INFINITE],
        rhs: vec![0, 1, 1, INFINITE],
        parent: vec![0, 4, 1, 0],
        k1: vec![0, 2, 2, 0],
        k2: vec![0, 1, 1, 0],
        place: vec![ABSENT, 1, 0, ABSENT],
        list: vec![2, 1, ABSENT, ABSENT],
    };
    (session, tables)
}
