//! "Why this way, why none" (document 02, order 3): the cells that the hunter can reach and the shut moves that lead out
//! of them, the running cost along a list of cells, and the least cost through one named move. All of it is told from
//! the plan alone: the open moves are gone through again and again until no cost falls.

use crate::model::{cells_of, is_cost, neighbour, SHUT};

/// A plan and its size, as they are given.
#[derive(Clone, Copy, Debug)]
pub struct Floor<'a> {
    pub width: u64,
    pub height: u64,
    pub plan: &'a [u8],
}

/// What the hunter can reach.
#[derive(Clone, Debug, PartialEq, Eq)]
pub struct Reached {
    /// How many cells, the hunter's own included.
    pub cells: u64,
    /// One bit for each cell and a row in one number, column 0 lowest.
    pub rows: Vec<u64>,
    /// Every shut move inside the plan from a reached cell to one that is not, as 4 × cell + direction, in rising order.
    pub moves: Vec<u16>,
}

/// An open move: the cell left, the cell entered, the cost.
type Move = (usize, usize, u64);

/// Refuses by this number unless the rule holds.
fn rule(number: u8, holds: bool) -> Result<(), u8> {
    if holds {
        Ok(())
    } else {
        Err(number)
    }
}

/// The least cost of a walk from the start to each of so many places, nothing where no walk leads.
fn least_costs(moves: &[Move], places: usize, start: usize) -> Vec<Option<u64>> {
    let mut least: Vec<Option<u64>> = vec![None; places];
    least[start] = Some(0);
    let mut falls = true;
    while falls {
        falls = false;
        for &(from, to, cost) in moves {
            let Some(paid) = least[from] else {
                continue;
            };
            if least[to].map_or(true, |old| paid + cost < old) {
                least[to] = Some(paid + cost);
                falls = true;
            }
        }
    }
    least
}

impl Floor<'_> {
    /// Gives N, or refuses the size (1) or the plan's length (2).
    fn cells(&self) -> Result<usize, u8> {
        let cells = cells_of(self.width, self.height).ok_or(1u8)?;
        rule(2, self.plan.len() == 4 * cells)?;
        Ok(cells)
    }

    fn neighbour(&self, cell: usize, direction: usize) -> Option<usize> {
        neighbour(self.width, self.height, cell, direction)
    }

    fn byte(&self, cell: usize, direction: usize) -> u8 {
        self.plan[4 * cell + direction]
    }

    /// Every cell with every direction, in this order.
    fn places(&self) -> impl Iterator<Item = (usize, usize)> {
        (0..self.plan.len()).map(|at| (at / 4, at % 4))
    }

    /// "A move that would leave the plan has byte 255 for ever."
    fn edges_are_shut(&self) -> bool {
        self.places().all(|(cell, direction)| {
            self.neighbour(cell, direction).is_some() || self.byte(cell, direction) == SHUT
        })
    }

    /// "0 and 251 to 254 are not costs."
    fn bytes_are_costs(&self) -> bool {
        self.plan.iter().all(|&byte| is_cost(byte))
    }

    /// The moves that stay in the plan: the cell left, the direction, the cell entered.
    fn inner_moves(&self) -> Vec<(usize, usize, usize)> {
        let entered = |(cell, direction)| Some((cell, direction, self.neighbour(cell, direction)?));
        self.places().filter_map(entered).collect()
    }

    fn open_moves(&self) -> Vec<Move> {
        let inner = self.inner_moves().into_iter();
        inner
            .filter(|&(cell, direction, _)| self.byte(cell, direction) != SHUT)
            .map(|(cell, direction, entered)| (cell, entered, self.byte(cell, direction) as u64))
            .collect()
    }

    /// The direction of the move from a cell to its neighbour. Nothing is given if the cells are no neighbours.
    fn direction_to(&self, from: usize, to: usize) -> Option<usize> {
        (0..4).find(|&direction| self.neighbour(from, direction) == Some(to))
    }

    /// What the hunter can reach, told in a room of so many rows and of so many moves.
    pub fn reached(&self, hunter: u64, rows: usize, moves: usize) -> Result<Reached, u8> {
        let cells = self.cells()?;
        rule(3, hunter < cells as u64)?;
        rule(4, self.edges_are_shut())?;
        rule(5, self.bytes_are_costs())?;
        let found = self.found_from(hunter as usize, cells);
        rule(7, rows >= found.rows.len() && moves >= found.moves.len())?;
        Ok(found)
    }

    fn found_from(&self, hunter: usize, cells: usize) -> Reached {
        let least = least_costs(&self.open_moves(), cells, hunter);
        let is_reached = |cell: usize| least[cell].is_some();
        let mut rows = vec![0; self.height as usize];
        for cell in (0..cells).filter(|&cell| is_reached(cell)) {
            rows[cell / self.width as usize] |= 1 << (cell as u64 % self.width);
        }
        let leads_out = |&(cell, direction, entered): &(usize, usize, usize)| {
            self.byte(cell, direction) == SHUT && is_reached(cell) && !is_reached(entered)
        };
        let out = self.inner_moves().into_iter().filter(leads_out);
        Reached {
            cells: (0..cells).filter(|&cell| is_reached(cell)).count() as u64,
            rows,
            moves: out.map(|(cell, direction, _)| (4 * cell + direction) as u16).collect(),
        }
    }

    /// The running cost at each cell of a list, told in a room of so many costs.
    pub fn along(&self, list: &[u16], costs: usize) -> Result<Vec<u32>, u8> {
        let cells = self.cells()?;
        rule(2, (1..=cells).contains(&list.len()))?;
        rule(3, list.iter().all(|&cell| (cell as usize) < cells))?;
        rule(4, self.edges_are_shut())?;
        // A listed pair as a cell and a direction, if the two are neighbours.
        let walked = |pair: &[u16]| Some((pair[0] as usize, self.direction_to(pair[0] as usize, pair[1] as usize)?));
        let walk: Option<Vec<(usize, usize)>> = list.windows(2).map(walked).collect();
        let walk = walk.ok_or(4u8)?;
        rule(5, self.bytes_are_costs())?;
        rule(5, walk.iter().all(|&(cell, direction)| self.byte(cell, direction) != SHUT))?;
        rule(7, costs >= list.len())?;
        let mut running = vec![0];
        for (cell, direction) in walk {
            running.push(running[running.len() - 1] + self.byte(cell, direction) as u32);
        }
        Ok(running)
    }

    /// The least cost of any walk from hunter to target through the move of a cell in a direction. Nothing is given if
    /// there is no such walk. There are two storeys here, alike, and the named move is the only one that leads up.
    pub fn through(&self, hunter: u64, target: u64, cell: u64, direction: u64) -> Result<Option<u64>, u8> {
        let cells = self.cells()?;
        rule(3, [hunter, target, cell].iter().all(|&given| given < cells as u64))?;
        rule(4, self.edges_are_shut())?;
        rule(4, direction <= 3)?;
        let (cell, direction) = (cell as usize, direction as usize);
        let entered = self.neighbour(cell, direction).ok_or(4u8)?;
        rule(5, self.bytes_are_costs())?;
        rule(5, self.byte(cell, direction) != SHUT)?;
        let below = self.open_moves();
        let above = below.iter().map(|&(from, to, cost)| (cells + from, cells + to, cost));
        let up = (cell, cells + entered, self.byte(cell, direction) as u64);
        let moves: Vec<Move> = below.iter().copied().chain(above).chain([up]).collect();
        Ok(least_costs(&moves, 2 * cells, hunter as usize)[cells + target as usize])
    }
}
