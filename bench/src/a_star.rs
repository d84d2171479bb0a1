//! A* from scratch: each search begins with nothing but the plan.

use std::cmp::Reverse;
use std::collections::BinaryHeap;

/// The room that a search needs, kept from one search to the next.
pub struct AStar {
    side: usize,
    g: Vec<u32>,
    closed: Vec<bool>,
    parent: Vec<u8>,
    open: BinaryHeap<Reverse<(u32, u32, u16)>>,
}

impl AStar {
    pub fn new(side: usize) -> AStar {
        let cells = side * side;
        AStar { side, g: vec![0; cells], closed: vec![false; cells], parent: vec![0; cells], open: BinaryHeap::new() }
    }

    fn estimate(&self, a: usize, b: usize) -> u32 {
        ((a / self.side).abs_diff(b / self.side) + (a % self.side).abs_diff(b % self.side)) as u32
    }

    fn entered(&self, cell: usize, direction: usize) -> usize {
        match direction {
            0 => cell - self.side,
            1 => cell + 1,
            2 => cell + self.side,
            _ => cell - 1,
        }
    }

    /// The cost of a cheapest way, whose cells it writes hunter first, and the number of cells expanded.
    #[inline(never)]
    pub fn search(&mut self, plan: &[u8], hunter: usize, target: usize, way: &mut [u16]) -> (Option<u32>, usize) {
        self.g.fill(u32::MAX);
        self.closed.fill(false);
        self.open.clear();
        self.g[hunter] = 0;
        // Among equal sums the cell nearer to the target comes first.
        let first = self.estimate(hunter, target);
        self.open.push(Reverse((first, first, hunter as u16)));
        let mut expanded = 0;
        while let Some(Reverse((_, _, cell))) = self.open.pop() {
            let cell = cell as usize;
            if self.closed[cell] {
                continue;
            }
            if cell == target {
                self.write_way(hunter, target, way);
                return (Some(self.g[target]), expanded);
            }
            self.closed[cell] = true;
            expanded += 1;
            for direction in 0..4 {
                let cost = plan[4 * cell + direction];
                if cost == 255 {
                    continue;
                }
                let next = self.entered(cell, direction);
                let sum = self.g[cell] + cost as u32;
                if sum < self.g[next] {
                    self.g[next] = sum;
                    self.parent[next] = (direction as u8 + 2) % 4;
                    let rest = self.estimate(next, target);
                    self.open.push(Reverse((sum + rest, rest, next as u16)));
                }
            }
        }
        (None, expanded)
    }

    fn write_way(&self, hunter: usize, target: usize, way: &mut [u16]) {
        let mut cells = 0;
        let mut cell = target;
        way[0] = target as u16;
        while cell != hunter {
            cell = self.entered(cell, self.parent[cell] as usize);
            cells += 1;
            way[cells] = cell as u16;
        }
        way[..=cells].reverse();
    }
}
