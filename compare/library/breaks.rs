//! Each rule of soundness broken by itself where that can be done, and kept on the other side of its edge.
//! That the tables are sound or not follows from what was done to them, beside the sentence of document 01 that says so.

use crate::asked::{Alone, Asked};
use crate::bases::draw_base;
use crate::edges::{set_entries, set_record};
use crate::queue_breaks::{break_key, break_list, break_members, break_order, break_place, break_tied_pair};
use compare::calls::{Counts, Side};
use compare::chance::Chance;
use compare::made::tied_pair;
use compare::model::{neighbour, opposite, ABSENT, INFINITE, SHUT};
use compare::rules::{Rule, SINGLE};
use compare::spoil::cut;

/// "every finite g and the hunter's rhs at most 1,024,250 × n".
fn bound(searches: u32) -> u32 {
    1_024_250 * searches
}

/// "width or height not 1 to 64" comes before all else; a size that is none of these tables' misses their lengths.
fn break_size(asked: &mut Asked) {
    let (width, height) = (asked.base.session.width, asked.base.session.height);
    for wrong in [0, 65, 256, 1 << 32, u64::MAX] {
        asked.misshapes(1, |side| side.session.width = wrong);
        asked.misshapes(1, |side| side.session.height = wrong);
    }
    asked.misshapes(1, |side| side.session.width = width + (1 << 32));
    asked.misshapes(1, |side| side.session.height = height + (1 << 32));
    for other in [1, 2, 63, 64] {
        if other != width {
            asked.misshapes(2, |side| side.session.width = other);
        }
        if other != height {
            asked.misshapes(2, |side| side.session.height = other);
        }
    }
}

/// "Every table has exactly the length that N gives": 1 comes before 2, and 2 before 6.
fn break_lengths(asked: &mut Asked) {
    for table in 0..8 {
        for longer in [false, true] {
            asked.misshapes(2, |side| cut(&mut side.tables, table, longer));
            asked.misshapes(2, |side| {
                side.session.km = u32::MAX;
                cut(&mut side.tables, table, longer);
            });
            asked.misshapes(1, |side| {
                side.session.height = 0;
                cut(&mut side.tables, table, longer);
            });
        }
    }
}

/// "the recorded cells are in the plan".
fn break_cells(asked: &mut Asked) {
    let (cells, session) = (asked.base.cells(), asked.base.session);
    for out in [cells, cells + 1, 65_535, 1 << 32, u64::MAX] {
        asked.breaks_alone(Rule::Cells, |side| side.session.hunter = out);
        asked.breaks_alone(Rule::Cells, |side| side.session.target = out);
        asked.breaks(Rule::Cells, |side| side.session.origin = out);
        asked.breaks(Rule::Cells, |side| side.session.goal = out);
    }
    asked.breaks_alone(Rule::Cells, |side| side.session.hunter += 1 << 32);
    asked.breaks_alone(Rule::Cells, |side| side.session.target += 1 << 32);
    for within in [0, cells - 1] {
        asked.sound(|side| (side.session.hunter, side.session.target) = (within, within));
    }
    // Another cell has a parent or an infinite rhs, and so cannot be the last search's hunter.
    let other = (session.origin + 1) % cells;
    if other != session.origin {
        let unreached = asked.base.tables.rhs[other as usize] == INFINITE;
        let rule = if unreached { Rule::HunterRhs } else { Rule::HunterParent };
        asked.breaks(rule, |side| side.session.origin = other);
    }
}

/// "the search number n is at most 1,000, km at most 126 × n". A greater km leaves no stored key above the calculated.
fn break_numbers(asked: &mut Asked) {
    let searches = asked.base.session.searches;
    asked.sound(|side| side.session.km = 126 * searches);
    asked.sound(|side| side.session.searches = 1_000);
    asked.sound(|side| (side.session.searches, side.session.km) = (1_000, 126_000));
    for km in [126 * searches + 1, u32::MAX] {
        asked.breaks_alone(Rule::Km, |side| side.session.km = km);
    }
    asked.breaks_alone(Rule::Km, |side| (side.session.searches, side.session.km) = (1_000, 126_001));
    for searches in [1_001, u32::MAX] {
        asked.breaks_alone(Rule::Searches, |side| side.session.searches = searches);
    }
    asked.breaks_alone(Rule::Searches, |side| (side.session.searches, side.session.km) = (1_001, 126 * 1_001));
    if searches > 0 {
        asked.breaks(Rule::Km, |side| (side.session.searches, side.session.km) = (searches - 1, 126 * searches));
    }
}

/// "A move that would leave the plan has byte 255 for ever", "0 and 251 to 254 are not costs".
fn break_bytes(asked: &mut Asked, cell: usize, direction: usize) {
    let at = 4 * cell + direction;
    match neighbour(asked.base.session.width, asked.base.session.height, cell, direction) {
        None => {
            for byte in [0, 1, 2, 250, 251, 254] {
                asked.breaks_alone(Rule::Plan, |side| side.tables.plan[at] = byte);
            }
        }
        Some(to) => {
            for byte in [0, 251, 252, 253, 254] {
                asked.breaks(Rule::Plan, |side| side.tables.plan[at] = byte);
            }
            let old = asked.base.tables.plan[at];
            for byte in [1, old.saturating_sub(1), old.saturating_add(1), 250, SHUT] {
                if byte != old && ((1..=250).contains(&byte) || byte == SHUT) {
                    break_sum(asked, (cell, direction), to, byte);
                }
            }
        }
    }
}

/// What the neighbour in a direction gives the cell: its g and the cost of its open move into the cell, if that is finite.
fn sum_from(side: &Side, cell: usize, direction: usize) -> Option<u32> {
    let from = neighbour(side.session.width, side.session.height, cell, direction)?;
    let (g, cost) = (side.tables.g[from], side.tables.plan[4 * from + opposite(direction)]);
    (g != INFINITE && cost != SHUT).then(|| g + cost as u32)
}

/// "each other cell's rhs is the least g + cost …, and its parent is a neighbour that gives this least sum": a move given
/// another cost that is one.
fn break_sum(asked: &mut Asked, (cell, direction): (usize, usize), to: usize, byte: u8) {
    let (side, at) = (&asked.base, 4 * cell + direction);
    let (g, rhs, old) = (side.tables.g[cell], side.tables.rhs[to], side.tables.plan[at]);
    let back = opposite(direction);
    let is_parent = side.tables.parent[to] as usize == back + 1;
    let others = (0..4).filter(|&other| other != back && sum_from(side, to, other) == Some(rhs)).count();
    let done = |side: &mut Side| side.tables.plan[at] = byte;
    if to as u64 == side.session.origin || g == INFINITE {
        asked.sound(done);
    } else if byte < old && g + (byte as u32) < rhs {
        asked.breaks(Rule::Rhs, done);
    } else if byte > old && is_parent && others > 0 {
        asked.breaks_alone(Rule::Parent, done);
    } else if byte > old && is_parent {
        asked.breaks(Rule::Rhs, done);
    } else {
        asked.sound(done);
    }
}

/// The numbers beside a number, and the ends of its width, without itself.
fn others_than(number: u32) -> impl Iterator<Item = u32> {
    [number.wrapping_add(1), number.wrapping_sub(1), 0, INFINITE].into_iter().filter(move |&other| other != number)
}

/// "the queue holds exactly the cells with g ≠ rhs", and the bound.
fn break_g(asked: &mut Asked, cell: usize) {
    let (g, rhs) = (asked.base.tables.g[cell], asked.base.tables.rhs[cell]);
    if asked.base.tables.place[cell] == ABSENT {
        for other in others_than(g) {
            asked.breaks(Rule::Members, |side| side.tables.g[cell] = other);
        }
    } else {
        asked.breaks(Rule::Members, |side| side.tables.g[cell] = rhs);
    }
    for beyond in [bound(asked.base.session.searches) + 1, INFINITE - 1] {
        asked.breaks(Rule::BoundG, |side| side.tables.g[cell] = beyond);
    }
}

/// "rhs of the search's hunter is finite", at most its bound, and "each other cell's rhs is the least" sum.
fn break_rhs(asked: &mut Asked, cell: usize) {
    let (g, rhs) = (asked.base.tables.g[cell], asked.base.tables.rhs[cell]);
    if cell as u64 != asked.base.session.origin {
        for other in others_than(rhs) {
            asked.breaks(Rule::Rhs, |side| side.tables.rhs[cell] = other);
        }
        return;
    }
    asked.breaks(Rule::HunterRhs, |side| side.tables.rhs[cell] = INFINITE);
    for beyond in [bound(asked.base.session.searches) + 1, INFINITE - 1] {
        asked.breaks(Rule::BoundHunter, |side| side.tables.rhs[cell] = beyond);
    }
    if g != rhs {
        asked.breaks(Rule::Members, |side| side.tables.rhs[cell] = g);
    } else {
        asked.breaks(Rule::Members, |side| side.tables.rhs[cell] = rhs + 1);
    }
}

/// The hunter's "parent 0"; another's "parent is a neighbour that gives this least sum, 0 exactly if infinite".
fn break_parent(asked: &mut Asked, cell: usize) {
    let (rhs, parent) = (asked.base.tables.rhs[cell], asked.base.tables.parent[cell]);
    let is_hunter = cell as u64 == asked.base.session.origin;
    for code in (0..=6).chain([255]).filter(|&code| code != parent) {
        let done = |side: &mut Side| side.tables.parent[cell] = code;
        let gives_rhs = (1..=4).contains(&code) && sum_from(&asked.base, cell, code as usize - 1) == Some(rhs);
        if is_hunter {
            asked.breaks_alone(Rule::HunterParent, done);
        } else if gives_rhs {
            asked.sound(done);
        } else {
            asked.breaks_alone(Rule::Parent, done);
        }
    }
}

/// Gives a cell both key numbers 0. The first of the list stays first under these, and they are above no calculated key.
fn put_lowest(side: &mut Side, cell: usize) {
    (side.tables.k1[cell], side.tables.k2[cell]) = (0, 0);
}

/// The least cell's rhs one too great, but unlike g and finite, so that nothing else is broken.
fn break_rhs_alone(asked: &mut Asked, first: usize) {
    let (g, rhs) = (asked.base.tables.g[first], asked.base.tables.rhs[first]);
    if first as u64 == asked.base.session.origin || rhs == INFINITE {
        return;
    }
    let wrong = if g == rhs + 1 { rhs + 2 } else { rhs + 1 };
    asked.breaks_alone(Rule::Rhs, |side| {
        side.tables.rhs[first] = wrong;
        put_lowest(side, first);
    });
}

/// Both sides of the bound, for the base's search number and for 1,000: the g of a least cell without an open move to
/// leave by, which no other cell's rhs hangs on, and the rhs of a hunter that is the least cell.
fn break_bounds(asked: &mut Asked, first: usize) {
    let (g, rhs) = (asked.base.tables.g[first], asked.base.tables.rhs[first]);
    let closed = asked.base.tables.plan[4 * first..4 * first + 4].iter().all(|&byte| byte == SHUT);
    for searches in [asked.base.session.searches, 1_000] {
        for (number, within) in [(bound(searches), true), (bound(searches) + 1, false)] {
            let rise_g = |side: &mut Side| {
                (side.session.searches, side.tables.g[first]) = (searches, number);
                put_lowest(side, first);
            };
            let rise_rhs = |side: &mut Side| {
                (side.session.searches, side.tables.rhs[first]) = (searches, number);
                put_lowest(side, first);
            };
            if closed && number != rhs {
                at_bound(asked, Rule::BoundG, within, rise_g);
            }
            if first as u64 == asked.base.session.origin && number != g {
                at_bound(asked, Rule::BoundHunter, within, rise_rhs);
            }
        }
    }
}

/// Asks about a number at its bound, or about one beyond it.
fn at_bound(asked: &mut Asked, rule: Rule, within: bool, done: impl Fn(&mut Side)) {
    if within {
        asked.sound(done);
    } else {
        asked.breaks_alone(rule, done);
    }
}

/// All entries of a cell, and the list at the cell's number.
fn break_cell(asked: &mut Asked, cell: usize) {
    for direction in 0..4 {
        break_bytes(asked, cell, direction);
    }
    break_g(asked, cell);
    break_rhs(asked, cell);
    break_parent(asked, cell);
    break_key(asked, cell);
    break_place(asked, cell);
    break_list(asked, cell);
    set_entries(asked, cell);
}

/// All cells of a small plan. Of a large one the first, the last, those of the last search, the ends of the list and a drawn one.
fn cells_to_break(side: &Side, chance: &mut Chance) -> Vec<usize> {
    let cells = side.tables.g.len();
    if cells <= 16 {
        return (0..cells).collect();
    }
    let drawn = chance.draw(cells as u64) as usize;
    let mut chosen = vec![0, cells - 1, side.session.origin as usize, side.session.goal as usize, drawn];
    let queued = &side.tables.list[..side.session.count as usize];
    chosen.extend(queued.first().into_iter().chain(queued.last()).map(|&cell| cell as usize));
    chosen.sort();
    chosen.dedup();
    chosen
}

/// Draws the size of a base: of every twenty some at the edges, a full plan among them, and else small ones.
fn draw_size(chance: &mut Chance, number: u64) -> (u64, u64) {
    match number % 20 {
        0 => (1, 1),
        1 => (2, 1),
        2 => (1, 2),
        3 => (2, 2),
        16 => (64, 1),
        17 => (1, 64),
        18 => (8, 8),
        19 => (64, 64),
        _ => (1 + chance.draw(4), 1 + chance.draw(4)),
    }
}

/// Asks about sound tables, and about these with each rule broken.
fn break_all(asked: &mut Asked, chance: &mut Chance) {
    asked.sound(|_| ());
    break_size(asked);
    break_lengths(asked);
    break_cells(asked);
    break_numbers(asked);
    set_record(asked);
    for cell in cells_to_break(&asked.base, chance) {
        break_cell(asked, cell);
    }
    break_order(asked);
    break_members(asked);
    if asked.base.session.count > 0 {
        let first = asked.base.tables.list[0] as usize;
        break_rhs_alone(asked, first);
        break_bounds(asked, first);
    }
}

/// Asks about bases that were played and bases that were made, in turn and at least twenty. Fails if a rule was never broken alone.
pub fn play_broken(seed: u64, percent: u64, counts: &mut Counts) {
    let mut alone = Alone::new();
    for number in 0..percent.max(20) {
        let mut chance = Chance::start(seed, 500_000 + number);
        let (width, height) = draw_size(&mut chance, number);
        let made = (number + number / 20) % 2 == 1;
        let base = draw_base(&mut chance, counts, "broken", width, height, made);
        break_all(&mut Asked::new(base, counts, &mut alone), &mut chance);
    }
    let (session, tables) = tied_pair();
    break_tied_pair(&mut Asked::new(Side::with(session, tables), counts, &mut alone));
    println!("rules broken alone: {alone:?}");
    if let Some(rule) = SINGLE.iter().find(|rule| !alone.contains_key(rule)) {
        println!("{rule:?} was never broken alone");
        std::process::exit(1);
    }
}
