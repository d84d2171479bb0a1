//! The soundness paragraph once more, clause by clause and without an early end.
//! It answers which rules are broken, and it serves only to check `is_sound`, and tables made to break a rule, against.

use crate::model::{
    cells_of, estimate, lengths_fit, neighbour, opposite, Session, Tables, ABSENT, INFINITE, SHUT,
};

/// The rules, in the order of the paragraph.
#[derive(Clone, Copy, Debug, PartialEq, Eq, PartialOrd, Ord)]
pub enum Rule {
    /// Width and height are 1 to 64 and each table has its length.
    Shape,
    /// The plan's bytes are costs, and moves that leave the plan are shut.
    Plan,
    /// The four recorded cells are in the plan.
    Cells,
    /// The rhs of the search's hunter is finite.
    HunterRhs,
    /// The parent of the search's hunter is 0.
    HunterParent,
    /// The rhs of each other cell is the least sum.
    Rhs,
    /// The parent of each other cell gives the least sum; it is 0 exactly if rhs is infinite.
    Parent,
    /// The queue holds exactly the cells with unlike g and rhs.
    Members,
    /// List, places and count agree, and each cell stands in the list at most once.
    Agree,
    /// The list is a binary heap by (k1, k2, column, row).
    Heap,
    /// Each stored key is not above the calculated key.
    Keys,
    /// Cells not queued have both key numbers 0, unused places of the list hold 65,535.
    Absent,
    /// The search number is at most 1,000.
    Searches,
    /// The number km is at most 126 times the search number.
    Km,
    /// Finite g are at most 1,024,250 times the search number.
    BoundG,
    /// The rhs of the search's hunter is at most 1,024,250 times the search number.
    BoundHunter,
}

/// The rules that can be broken one at a time: all but the shape, without which there is nothing to ask of the others.
pub const SINGLE: [Rule; 15] = [
    Rule::Plan,
    Rule::Cells,
    Rule::HunterRhs,
    Rule::HunterParent,
    Rule::Rhs,
    Rule::Parent,
    Rule::Members,
    Rule::Agree,
    Rule::Heap,
    Rule::Keys,
    Rule::Absent,
    Rule::Searches,
    Rule::Km,
    Rule::BoundG,
    Rule::BoundHunter,
];

/// A sum of g and a cost byte in wide numbers, with the greatest number for "infinite".
fn wide_sum(g: u32, byte: u8) -> u128 {
    if g == INFINITE || byte == SHUT {
        u128::MAX
    } else {
        g as u128 + byte as u128
    }
}

/// A table entry in wide numbers, with the greatest number for "infinite".
fn wide(entry: u32) -> u128 {
    if entry == INFINITE {
        u128::MAX
    } else {
        entry as u128
    }
}

/// Gives all rules that are broken, in order and each once; none if record and tables are sound.
pub fn broken(session: &Session, tables: &Tables) -> Vec<Rule> {
    let mut faults: Vec<Rule> = Vec::new();
    let cells = match cells_of(session.width, session.height) {
        Some(cells) if lengths_fit(tables, cells) => cells,
        _ => return vec![Rule::Shape],
    };
    let (width, height) = (session.width, session.height);
    let inside = |cell: u64| cell < cells as u64;

    for (index, &byte) in tables.plan.iter().enumerate() {
        let leaves = neighbour(width, height, index / 4, index % 4).is_none();
        if byte == 0 || (251..=254).contains(&byte) || (leaves && byte != SHUT) {
            faults.push(Rule::Plan);
        }
    }
    if ![session.hunter, session.target, session.origin, session.goal].iter().all(|&c| inside(c)) {
        faults.push(Rule::Cells);
    }
    if inside(session.origin) {
        let origin = session.origin as usize;
        if tables.rhs[origin] == INFINITE {
            faults.push(Rule::HunterRhs);
        } else if tables.rhs[origin] as u128 > 1_024_250 * session.searches as u128 {
            faults.push(Rule::BoundHunter);
        }
        if tables.parent[origin] != 0 {
            faults.push(Rule::HunterParent);
        }
    }
    for cell in 0..cells {
        if cell as u64 == session.origin {
            continue;
        }
        // Each entry of `sums` is the sum over the neighbour in that direction.
        let sums: Vec<u128> = (0..4)
            .map(|direction| match neighbour(width, height, cell, direction) {
                Some(from) => {
                    wide_sum(tables.g[from], tables.plan[4 * from + opposite(direction)])
                }
                None => u128::MAX,
            })
            .collect();
        let least = *sums.iter().min().unwrap();
        if wide(tables.rhs[cell]) != least {
            faults.push(Rule::Rhs);
        }
        let fits = match tables.parent[cell] {
            0 => least == u128::MAX && tables.rhs[cell] == INFINITE,
            byte @ 1..=4 => {
                tables.rhs[cell] != INFINITE
                    && least != u128::MAX
                    && sums[byte as usize - 1] == least
            }
            _ => false,
        };
        if !fits {
            faults.push(Rule::Parent);
        }
    }

    // The queue is taken from the list and held against the places and against g and rhs.
    let used = (session.count as u128).min(cells as u128) as usize;
    if session.count > cells as u64 {
        faults.push(Rule::Agree);
    }
    let mut listed = vec![0usize; cells];
    for (index, &cell) in tables.list.iter().enumerate().take(used) {
        if (cell as usize) < cells {
            listed[cell as usize] += 1;
            if tables.place[cell as usize] as usize != index {
                faults.push(Rule::Agree);
            }
        } else {
            faults.push(Rule::Agree);
        }
    }
    for &cell in &tables.list[used..] {
        if cell != ABSENT {
            faults.push(Rule::Absent);
        }
    }
    for cell in 0..cells {
        let queued = tables.place[cell] != ABSENT;
        if queued != (listed[cell] == 1) {
            faults.push(Rule::Agree);
        }
        if queued != (tables.g[cell] != tables.rhs[cell]) {
            faults.push(Rule::Members);
        }
        if !queued && (tables.k1[cell] != 0 || tables.k2[cell] != 0) {
            faults.push(Rule::Absent);
        }
        if queued && inside(session.goal) {
            let m = wide(tables.g[cell].min(tables.rhs[cell]));
            let first = if m == u128::MAX {
                m
            } else {
                m + estimate(width, cell as u64, session.goal) as u128 + session.km as u128
            };
            let (k1, k2) = (wide(tables.k1[cell]), wide(tables.k2[cell]));
            if k1 > first || (k1 == first && k2 > m) {
                faults.push(Rule::Keys);
            }
        }
        if tables.g[cell] != INFINITE
            && tables.g[cell] as u128 > 1_024_250 * session.searches as u128
        {
            faults.push(Rule::BoundG);
        }
    }
    for index in 0..used {
        for below in [2 * index + 1, 2 * index + 2] {
            if below < used {
                let (up, down) = (tables.list[index], tables.list[below]);
                if (up as usize) < cells && (down as usize) < cells {
                    let keys = |c: u16| (tables.k1[c as usize], tables.k2[c as usize]);
                    let spot = |c: u16| (c as u64 % session.width, c as u64 / session.width);
                    if (keys(down), spot(down)) < (keys(up), spot(up)) {
                        faults.push(Rule::Heap);
                    }
                }
            }
        }
    }
    if session.searches > 1_000 {
        faults.push(Rule::Searches);
    }
    if session.km as u128 > 126 * session.searches as u128 {
        faults.push(Rule::Km);
    }
    faults.sort();
    faults.dedup();
    faults
}
