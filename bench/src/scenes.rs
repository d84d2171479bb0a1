//! Seeded scenes: a plan, and turn by turn the doors that change and the cells of hunter and target.
//! As in document 003, section 5, the target follows a cheapest way to a drawn cell and then to the next, and skips
//! every tenth move; the hunter goes one cell along the way found; there always is one, since a door that would cut the
//! last one off stays open. A hunter that catches the target hunts a new one. A scene is drawn once, so that everyone
//! who plays it is asked the same.

use crate::plain::{Answer, Session};

/// A small generator (xorshift), so that a scene is the same wherever it is drawn.
pub struct Chance(u64);

impl Chance {
    pub fn new(seed: u64) -> Chance {
        Chance(seed.wrapping_mul(0x9e37_79b9_7f4a_7c15) | 1)
    }

    pub fn draw(&mut self, n: usize) -> usize {
        self.0 ^= self.0 << 13;
        self.0 ^= self.0 >> 7;
        self.0 ^= self.0 << 17;
        ((self.0 >> 32) as usize * n) >> 32
    }
}

#[derive(Clone, Copy, PartialEq, Eq)]
pub enum Kind {
    /// A quarter of all doors is shut, drawn.
    Shut,
    /// A maze with a few ways round.
    Maze,
    /// Rooms of 8 by 8 cells with two doors in each wall between two rooms. Only these doors change.
    Rooms,
    /// Corridors from west to east, two rows high, with two doors in each wall between two corridors. Only these doors change.
    Corridors,
}

impl Kind {
    pub fn name(self) -> &'static str {
        match self {
            Kind::Shut => "25 % shut",
            Kind::Maze => "maze",
            Kind::Rooms => "rooms",
            Kind::Corridors => "corridors",
        }
    }
}

/// A move and its new cost.
#[derive(Clone, Copy)]
pub struct Change {
    pub cell: usize,
    pub direction: usize,
    pub cost: u8,
}

/// What happens before a search: these moves change, and hunter and target stand here.
pub struct Turn {
    pub changes: Vec<Change>,
    pub hunter: usize,
    pub target: usize,
}

pub struct Scene {
    pub side: usize,
    pub kind: Kind,
    /// How many doors change in a turn.
    pub doors: usize,
    pub plan: Vec<u8>,
    pub turns: Vec<Turn>,
}

/// A door between a cell and its neighbour in direction 1 (east) or 2 (south).
#[derive(Clone, Copy)]
struct Door {
    cell: usize,
    direction: usize,
}

/// A plan while a scene is drawn.
struct Floor {
    side: usize,
    plan: Vec<u8>,
    /// The doors that may change.
    doors: Vec<Door>,
}

impl Floor {
    fn neighbour(&self, cell: usize, direction: usize) -> Option<usize> {
        let (row, column) = (cell / self.side, cell % self.side);
        match direction {
            0 if row > 0 => Some(cell - self.side),
            1 if column + 1 < self.side => Some(cell + 1),
            2 if row + 1 < self.side => Some(cell + self.side),
            3 if column > 0 => Some(cell - 1),
            _ => None,
        }
    }

    fn all_doors(&self) -> Vec<Door> {
        (0..self.side * self.side)
            .flat_map(|cell| [1, 2].map(|direction| Door { cell, direction }))
            .filter(|door| self.neighbour(door.cell, door.direction).is_some())
            .collect()
    }

    fn is_open(&self, door: Door) -> bool {
        self.plan[4 * door.cell + door.direction] != 255
    }

    /// Gives a door's two moves the cost, and says which.
    fn set(&mut self, door: Door, cost: u8) -> [Change; 2] {
        let other = self.neighbour(door.cell, door.direction).expect("a door has two sides");
        let moves = [(door.cell, door.direction), (other, (door.direction + 2) % 4)];
        let changes = moves.map(|(cell, direction)| Change { cell, direction, cost });
        for change in changes {
            self.plan[4 * change.cell + change.direction] = cost;
        }
        changes
    }

    fn draw(side: usize, kind: Kind, chance: &mut Chance) -> Floor {
        let mut floor = Floor { side, plan: vec![255; 4 * side * side], doors: Vec::new() };
        let all = floor.all_doors();
        floor.doors = all.clone();
        match kind {
            Kind::Shut => {
                for &door in &all {
                    if chance.draw(4) != 0 {
                        floor.set(door, 1);
                    }
                }
            }
            Kind::Maze => {
                floor.dig(chance);
                for &door in &all {
                    if chance.draw(20) == 0 {
                        floor.set(door, 1);
                    }
                }
            }
            Kind::Rooms => floor.divide(8, 8, chance),
            Kind::Corridors => floor.divide(2, side, chance),
        }
        floor
    }

    /// Divides the plan into parts of so many rows and columns, open inside, with two doors in each wall between two parts,
    /// one in each half of it. Only these doors change.
    fn divide(&mut self, rows: usize, columns: usize, chance: &mut Chance) {
        let side = self.side;
        let part = |cell: usize| (cell / side / rows, cell % side / columns);
        let (inner, mut places): (Vec<Door>, Vec<Door>) = self.all_doors().into_iter().partition(|door| {
            let other = self.neighbour(door.cell, door.direction).expect("a door has two sides");
            part(door.cell) == part(other)
        });
        // Sorted so, the places for a door in one wall stand together.
        let wall_of = |door: &Door| (part(door.cell), door.direction);
        places.sort_by_key(wall_of);
        let walls = places.chunk_by(|one, next| wall_of(one) == wall_of(next));
        self.doors = walls
            .flat_map(|wall| {
                let half = wall.len() / 2;
                [wall[chance.draw(half)], wall[half + chance.draw(half)]]
            })
            .collect();
        for door in inner.into_iter().chain(self.doors.clone()) {
            self.set(door, 1);
        }
    }

    /// Digs a maze: every cell is reached by exactly one way.
    fn dig(&mut self, chance: &mut Chance) {
        let mut reached = vec![false; self.side * self.side];
        reached[0] = true;
        let mut trail = vec![0];
        while let Some(&cell) = trail.last() {
            let open: Vec<(usize, usize)> = (0..4)
                .filter_map(|direction| self.neighbour(cell, direction).map(|next| (direction, next)))
                .filter(|&(_, next)| !reached[next])
                .collect();
            if open.is_empty() {
                trail.pop();
                continue;
            }
            let (direction, next) = open[chance.draw(open.len())];
            let (cell, direction) =
                if direction == 1 || direction == 2 { (cell, direction) } else { (next, (direction + 2) % 4) };
            self.set(Door { cell, direction }, 1);
            reached[next] = true;
            trail.push(next);
        }
    }

    /// Shuts as many open doors as it opens shut ones, the odd one by turns, and leaves a way from one cell to the other.
    fn change_doors(&mut self, doors: usize, turn: usize, ends: (usize, usize), chance: &mut Chance) -> Vec<Change> {
        let mut changed = Vec::new();
        for at in 0..doors {
            let shuts = (at + turn) % 2 == 0;
            // A drawn door may be in that state already; then the next that is not is taken.
            let from = chance.draw(self.doors.len());
            let found = (from..self.doors.len()).chain(0..from).find(|&i| self.is_open(self.doors[i]) == shuts);
            if let Some(i) = found {
                changed.push((self.doors[i], self.set(self.doors[i], if shuts { 255 } else { 1 })));
            }
        }
        for at in (0..changed.len()).rev() {
            if self.reached_from(ends.0).1.contains(&ends.1) {
                break;
            }
            let (door, [change, _]) = changed[at];
            if change.cost == 255 {
                self.set(door, 1);
                changed.remove(at);
            }
        }
        changed.iter().flat_map(|&(_, changes)| changes).collect()
    }

    /// The parent of each cell that a cell leads to, and these cells, the nearest first.
    fn reached_from(&self, from: usize) -> (Vec<usize>, Vec<usize>) {
        let mut parent = vec![usize::MAX; self.side * self.side];
        parent[from] = from;
        let mut order = vec![from];
        let mut at = 0;
        while at < order.len() {
            let cell = order[at];
            at += 1;
            for direction in 0..4 {
                if let Some(next) = self.neighbour(cell, direction) {
                    if self.plan[4 * cell + direction] != 255 && parent[next] == usize::MAX {
                        parent[next] = cell;
                        order.push(next);
                    }
                }
            }
        }
        (parent, order)
    }

    /// A cheapest way from a cell to a drawn one that it leads to, the last cell first and the first left out.
    fn stroll(&self, from: usize, chance: &mut Chance) -> Vec<usize> {
        let (parent, order) = self.reached_from(from);
        let mut way = Vec::new();
        let mut cell = order[chance.draw(order.len())];
        while cell != from {
            way.push(cell);
            cell = parent[cell];
        }
        way
    }

    fn leads(&self, from: usize, to: usize) -> bool {
        (0..4).any(|direction| self.plan[4 * from + direction] != 255 && self.neighbour(from, direction) == Some(to))
    }
}

/// Draws a scene of a square plan.
pub fn draw(side: usize, kind: Kind, doors: usize, turns: usize, seed: u64) -> Scene {
    let mut chance = Chance::new(seed);
    let mut floor = Floor::draw(side, kind, &mut chance);
    let cells = side * side;
    let plan = floor.plan.clone();
    // The hunter stands where at least half of the plan can be reached.
    let mut hunter = chance.draw(cells);
    while floor.reached_from(hunter).1.len() * 2 < cells {
        hunter = chance.draw(cells);
    }
    let mut target = hunter;
    let mut planner = Session::open(side, side, hunter, target, plan.clone());
    let mut way = vec![0; cells];
    let mut stroll = Vec::new();
    let mut drawn = Vec::new();
    for turn in 0..turns {
        if hunter == target {
            let within = floor.reached_from(hunter).1;
            target = within[within.len() - 1 - chance.draw(within.len() / 2)];
            stroll.clear();
        }
        let changes = floor.change_doors(doors, turn, (hunter, target), &mut chance);
        for change in &changes {
            planner.change_move::<false>(change.cell, change.direction, change.cost);
        }
        if turn % 10 != 9 {
            if stroll.last().map_or(true, |&next| !floor.leads(target, next)) {
                stroll = floor.stroll(target, &mut chance);
            }
            target = stroll.pop().unwrap_or(target);
        }
        (planner.hunter, planner.target) = (hunter, target);
        drawn.push(Turn { changes, hunter, target });
        if let Answer::Way { .. } = planner.search::<false>(&mut way) {
            hunter = way[1] as usize;
        }
    }
    Scene { side, kind, doors, plan, turns: drawn }
}

/// The scenes that are played: plans of three sizes and three kinds, then corridors, each with 0, 1, 10 and 100 doors a turn.
pub fn all() -> impl Iterator<Item = Scene> {
    let plans = [64, 32, 16].into_iter().flat_map(|side| [Kind::Shut, Kind::Maze, Kind::Rooms].map(|kind| (side, kind)));
    let all = plans.chain([(64, Kind::Corridors)]).flat_map(|(side, kind)| [0, 1, 10, 100].map(|doors| (side, kind, doors)));
    all.zip(1..).map(|((side, kind, doors), seed)| draw(side, kind, doors, if doors == 100 { 40 } else { 200 }, seed))
}
