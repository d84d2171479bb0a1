//! The rules of the queue broken and kept: keys, places, list, count and who is queued.

use crate::asked::Asked;
use compare::calls::Side;
use compare::model::{wide_key, ABSENT, INFINITE};
use compare::rules::Rule;

/// Gives a cell both key numbers.
fn set_key(side: &mut Side, cell: usize, key: (u32, u32)) {
    (side.tables.k1[cell], side.tables.k2[cell]) = key;
}

/// The key next below a key, if there is one.
fn below((k1, k2): (u32, u32)) -> Option<(u32, u32)> {
    match (k1, k2) {
        (0, 0) => None,
        (k1, 0) => Some((k1 - 1, INFINITE)),
        (k1, k2) => Some((k1, k2 - 1)),
    }
}

/// A cell's stored key.
fn stored(side: &Side, cell: usize) -> (u32, u32) {
    (side.tables.k1[cell], side.tables.k2[cell])
}

/// A queued cell's calculated key.
fn calculated(side: &Side, cell: usize) -> (u32, u32) {
    let (k1, k2) = wide_key(&side.session, &side.tables, cell).expect("a queued cell has a key");
    (k1 as u32, k2 as u32)
}

/// "A cell not queued has both key numbers 0"; else "each stored key is not above the calculated key", and the heap's order.
pub fn break_key(asked: &mut Asked, cell: usize) {
    let place = asked.base.tables.place[cell] as usize;
    if place == ABSENT as usize {
        for number in [1, INFINITE] {
            asked.breaks_alone(Rule::Absent, |side| side.tables.k1[cell] = number);
            asked.breaks_alone(Rule::Absent, |side| side.tables.k2[cell] = number);
        }
        return;
    }
    raise_key(asked, cell, place);
    if place == 0 {
        lower_first_key(asked, cell);
    } else {
        lower_key(asked, cell, asked.base.tables.list[(place - 1) / 2] as usize);
    }
}

/// A key above the calculated one, and at it. Only where nothing stands below it in the heap does that leave the order alone.
fn raise_key(asked: &mut Asked, cell: usize, place: usize) {
    let key = calculated(&asked.base, cell);
    let is_leaf = 2 * place + 1 >= asked.base.session.count as usize;
    for above in [(key.0, key.1 + 1), (key.0 + 1, 0), (INFINITE, INFINITE)] {
        let done = |side: &mut Side| set_key(side, cell, above);
        if is_leaf {
            asked.breaks_alone(Rule::Keys, done);
        } else {
            asked.breaks(Rule::Keys, done);
        }
    }
    if is_leaf {
        asked.sound(|side| set_key(side, cell, key));
        lower_km(asked, cell, key);
    }
}

/// A stored key is above the calculated one too if km is one less than it was when the key was calculated.
fn lower_km(asked: &mut Asked, cell: usize, key: (u32, u32)) {
    if asked.base.session.km > 0 {
        asked.breaks_alone(Rule::Keys, |side| {
            set_key(side, cell, key);
            side.session.km -= 1;
        });
    }
}

/// The least cell may have any lower key.
fn lower_first_key(asked: &mut Asked, first: usize) {
    asked.sound(|side| set_key(side, first, (0, 0)));
    if let Some(lower) = below(stored(&asked.base, first)) {
        asked.sound(|side| set_key(side, first, lower));
    }
}

/// Another may be lowered to the key of the cell above it in the heap if its column is greater, or in one column its row, and no further.
fn lower_key(asked: &mut Asked, cell: usize, above: usize) {
    let key = stored(&asked.base, above);
    if asked.base.spot(above as u16) < asked.base.spot(cell as u16) {
        asked.sound(|side| set_key(side, cell, key));
    } else {
        asked.breaks_alone(Rule::Heap, |side| set_key(side, cell, key));
    }
    if let Some(lower) = below(key) {
        asked.breaks_alone(Rule::Heap, |side| set_key(side, cell, lower));
    }
}

/// The numbers beside an entry of places or list, and those at the edges, without itself.
fn others_than(entry: u16, cells: u64, count: u64) -> impl Iterator<Item = u16> {
    let edges = [0, count as u16, cells as u16 - 1, cells as u16, ABSENT - 1, ABSENT];
    let beside = [entry.wrapping_add(1), entry.wrapping_sub(1)];
    beside.into_iter().chain(edges).filter(move |&other| other != entry)
}

/// "list and places agree": no other place is right.
pub fn break_place(asked: &mut Asked, cell: usize) {
    for other in others_than(asked.base.tables.place[cell], asked.base.cells(), asked.base.session.count) {
        asked.breaks(Rule::Agree, |side| side.tables.place[cell] = other);
    }
}

/// "list and places agree", "unused places hold 65,535": no other entry is right.
pub fn break_list(asked: &mut Asked, index: usize) {
    let used = index < asked.base.session.count as usize;
    for other in others_than(asked.base.tables.list[index], asked.base.cells(), asked.base.session.count) {
        let done = |side: &mut Side| side.tables.list[index] = other;
        if used {
            asked.breaks(Rule::Agree, done);
        } else {
            asked.breaks_alone(Rule::Absent, done);
        }
    }
}

/// Exchanges two entries of the list, and the places of their cells.
fn exchange(side: &mut Side, i: usize, j: usize) {
    exchange_places(side, i, j);
    side.tables.list.swap(i, j);
}

/// Exchanges the places of the cells that stand at two entries of the list.
fn exchange_places(side: &mut Side, i: usize, j: usize) {
    let (a, b) = (side.tables.list[i], side.tables.list[j]);
    side.tables.place.swap(a as usize, b as usize);
}

/// Does entry i stand above entry j in the heap?
fn stands_above(i: usize, j: usize) -> bool {
    let mut at = j;
    while at > i {
        at = (at - 1) / 2;
    }
    at == i
}

/// "the list is a binary heap" by (k1, k2, column, row), "list and places agree", "each once": two entries exchanged.
fn break_pair(asked: &mut Asked, i: usize, j: usize) {
    let count = asked.base.session.count as usize;
    if stands_above(i, j) {
        asked.breaks_alone(Rule::Heap, |side| exchange(side, i, j));
    } else if (i - 1) / 2 == (j - 1) / 2 && 2 * i + 1 >= count {
        // Two entries under one, with nothing under them: their order is free.
        asked.sound(|side| exchange(side, i, j));
    }
    asked.breaks(Rule::Agree, |side| side.tables.list.swap(i, j));
    asked.breaks_alone(Rule::Agree, |side| exchange_places(side, i, j));
}

/// One cell stands twice in the list, in an entry that is used or not.
fn break_once(asked: &mut Asked, i: usize) {
    let count = asked.base.session.count as usize;
    if count as u64 == asked.base.cells() {
        return;
    }
    let cell = asked.base.tables.list[i];
    asked.breaks_alone(Rule::Absent, |side| side.tables.list[count] = cell);
    asked.breaks(Rule::Agree, |side| {
        side.tables.list[count] = cell;
        side.session.count += 1;
    });
}

/// No other count is right.
fn break_count(asked: &mut Asked) {
    let (count, cells) = (asked.base.session.count, asked.base.cells());
    for other in [count.wrapping_sub(1), count + 1, 0, cells, cells + 1, count + (1 << 32), u64::MAX] {
        let done = |side: &mut Side| side.session.count = other;
        if other < count {
            asked.breaks(Rule::Absent, done);
        } else if other > count {
            asked.breaks(Rule::Agree, done);
        }
    }
}

/// The first dozen entries of the list out of order, or doubled, and the count.
pub fn break_order(asked: &mut Asked) {
    let shown = asked.base.session.count.min(12) as usize;
    for i in 0..shown {
        for j in i + 1..shown {
            break_pair(asked, i, j);
        }
        break_once(asked, i);
    }
    break_count(asked);
}

/// Takes the last of the list out of list, places and count. Its keys stay.
fn take_out_last(side: &mut Side) {
    side.session.count -= 1;
    let last = std::mem::replace(&mut side.tables.list[side.session.count as usize], ABSENT);
    side.tables.place[last as usize] = ABSENT;
}

/// Takes the last of the list out of the queue altogether.
fn take_out(side: &mut Side) {
    let last = side.tables.list[side.session.count as usize - 1] as usize;
    take_out_last(side);
    set_key(side, last, (0, 0));
}

/// "the queue holds exactly the cells with g ≠ rhs": one taken out, whole or in part, and one put in.
pub fn break_members(asked: &mut Asked) {
    let count = asked.base.session.count as usize;
    if let Some(cell) = asked.base.tables.place.iter().position(|&place| place == ABSENT) {
        asked.breaks(Rule::Members, |side| {
            (side.tables.list[count], side.tables.place[cell]) = (cell as u16, count as u16);
            side.session.count += 1;
        });
    }
    if count == 0 {
        return;
    }
    asked.breaks_alone(Rule::Members, take_out);
    asked.breaks(Rule::Members, take_out_last);
    asked.breaks(Rule::Agree, |side| side.tables.list[count - 1] = ABSENT);
    asked.breaks(Rule::Agree, |side| {
        side.tables.list[count - 1] = ABSENT;
        side.session.count -= 1;
    });
    if asked.base.tables.list[count - 1] as u64 == asked.base.session.origin {
        settle_hunter(asked);
    }
    break_ties(asked);
}

/// The last search's hunter, last in the list, gets its g as its rhs and leaves the queue: sound, unless that is infinite.
fn settle_hunter(asked: &mut Asked) {
    let origin = asked.base.session.origin as usize;
    let g = asked.base.tables.g[origin];
    let done = |side: &mut Side| {
        side.tables.rhs[origin] = g;
        take_out(side);
    };
    if g == INFINITE {
        asked.breaks_alone(Rule::HunterRhs, done);
    } else {
        asked.sound(done);
    }
}

/// All stored keys 0, so that columns and rows alone order the list; and then its first two exchanged.
fn break_ties(asked: &mut Asked) {
    asked.sound(tie_all);
    if asked.base.session.count > 1 {
        asked.breaks_alone(Rule::Heap, |side| {
            tie_all(side);
            exchange(side, 0, 1);
        });
    }
}

/// Two cells that wait under one key, the smaller column above: the smaller cell number above is no heap. Different keys decide alone.
pub fn break_tied_pair(asked: &mut Asked) {
    asked.sound(|_| ());
    asked.breaks_alone(Rule::Heap, |side| exchange(side, 0, 1));
    for lower in [(2, 0), (1, 9)] {
        asked.breaks_alone(Rule::Heap, |side| set_key(side, 1, lower));
        asked.sound(|side| {
            set_key(side, 1, lower);
            exchange(side, 0, 1);
        });
    }
}

/// Gives every queued cell the keys 0 and orders the list by column, then row.
fn tie_all(side: &mut Side) {
    let count = side.session.count as usize;
    let mut cells = side.tables.list[..count].to_vec();
    cells.sort_by_key(|&cell| side.spot(cell));
    side.tables.list[..count].copy_from_slice(&cells);
    for index in 0..count {
        let cell = side.tables.list[index] as usize;
        side.tables.place[cell] = index as u16;
        set_key(side, cell, (0, 0));
    }
}
