//! A plain Dijkstra search with circular buckets, as a judge that shares nothing with the planner.

use crate::model::{neighbour, SHUT};

/// Gives the cheapest cost from the start to each cell, or nothing where no chain of open moves leads.
/// The costs are at most 250, so 251 buckets in a circle hold every open distance.
pub fn distances(width: u64, height: u64, plan: &[u8], start: usize) -> Vec<Option<u64>> {
    let cells = (width * height) as usize;
    let mut distance: Vec<Option<u64>> = vec![None; cells];
    let mut settled = vec![false; cells];
    let mut buckets: Vec<Vec<usize>> = vec![Vec::new(); 251];
    let mut waiting = 1usize;
    distance[start] = Some(0);
    buckets[0].push(start);
    let mut now = 0u64;
    while waiting > 0 {
        while let Some(cell) = buckets[(now % 251) as usize].pop() {
            waiting -= 1;
            if settled[cell] || distance[cell] != Some(now) {
                continue;
            }
            settled[cell] = true;
            for direction in 0..4 {
                let cost = plan[4 * cell + direction];
                if cost == SHUT {
                    continue;
                }
                if let Some(next) = neighbour(width, height, cell, direction) {
                    let sum = now + cost as u64;
                    if distance[next].map_or(true, |old| sum < old) {
                        distance[next] = Some(sum);
                        buckets[(sum % 251) as usize].push(next);
                        waiting += 1;
                    }
                }
            }
        }
        now += 1;
    }
    distance
}
