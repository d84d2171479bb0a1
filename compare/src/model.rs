//! The planner itself: the record, the tables, the soundness check and the calls.
//!
//! The queue is an ordered set of (k1, k2, column, row), built from the tables when a call starts
//! and written back into list and places when the call ends. The written list is the sorted
//! order, which is one valid binary heap; the paper leaves the order inside the heap free.

use std::collections::BTreeSet;

/// This number stands for "infinite" in g, rhs and the keys.
pub const INFINITE: u32 = u32::MAX;
/// This number stands for "absent" in the places and in unused places of the list.
pub const ABSENT: u16 = u16::MAX;
/// This cost byte means that the move is shut.
pub const SHUT: u8 = 255;
/// The greatest cost of an open move.
pub const GREATEST_COST: u8 = 250;
/// At this search number the next search starts fresh.
pub const RENEWAL: u32 = 1_000;
/// The greatest estimate between two cells, and so the greatest growth of km in one search.
pub const GREATEST_ESTIMATE: u64 = 126;
/// The greatest growth of the finite numbers in one search: 250 × 4,097.
pub const GREATEST_GROWTH: u64 = 1_024_250;

/// The row and column steps of the directions north, east, south and west.
pub const STEPS: [(i64, i64); 4] = [(-1, 0), (0, 1), (1, 0), (0, -1)];

/// Gives the direction that leads back.
pub fn opposite(direction: usize) -> usize {
    (direction + 2) % 4
}

/// The fields of the session record in their order, new ones at the end, each with its type: `fields!(m)` hands them to
/// the macro `m`. Whatever goes over the whole record goes by this list, so that a new field is a line here and one in the binding.
#[macro_export]
macro_rules! fields {
    ($taker:ident) => {
        $taker! {
            width: u64,
            height: u64,
            hunter: u64,
            target: u64,
            origin: u64,
            goal: u64,
            km: u32,
            count: u64,
            searches: u32,
        }
    };
}

/// Makes the record of the fields, and what goes over them by their place in the order.
macro_rules! record {
    ($($field:ident: $type:ty,)*) => {
        /// The session record. The origin and the goal are the hunter and the target of the last search.
        #[derive(Clone, Copy, Debug, Default, PartialEq, Eq)]
        pub struct Session {
            $(pub $field: $type,)*
        }

        impl Session {
            /// How many bytes each field has.
            pub const BYTES: &'static [usize] = &[$(size_of::<$type>()),*];

            /// The record's numbers in the order of its fields.
            pub fn numbers(&self) -> [u64; Session::BYTES.len()] {
                [$(self.$field as u64),*]
            }

            /// Gives one field another number, cut to the width of the field.
            pub fn set(&mut self, field: usize, number: u64) {
                let mut numbers = self.numbers();
                numbers[field] = number;
                let [$($field),*] = numbers;
                *self = Session { $($field: $field as $type),* };
            }
        }
    };
}

fields!(record);

/// The tables: the plan has four bytes for each cell, each other table one entry.
#[derive(Clone, Debug, Default, PartialEq, Eq)]
pub struct Tables {
    pub plan: Vec<u8>,
    pub g: Vec<u32>,
    pub rhs: Vec<u32>,
    pub parent: Vec<u8>,
    pub k1: Vec<u32>,
    pub k2: Vec<u32>,
    pub place: Vec<u16>,
    pub list: Vec<u16>,
}

impl Tables {
    /// Makes tables for the plan; everything but the plan is filled with the given content,
    /// so that a test can see what a call left untouched.
    pub fn filled(plan: Vec<u8>, cells: usize, content: u8) -> Tables {
        Tables {
            plan,
            g: vec![content as u32; cells],
            rhs: vec![content as u32; cells],
            parent: vec![content; cells],
            k1: vec![content as u32; cells],
            k2: vec![content as u32; cells],
            place: vec![content as u16; cells],
            list: vec![content as u16; cells],
        }
    }
}

/// What a call answers. Open, the two placings and change answer `Accepted` or `Refused`.
#[derive(Clone, Copy, Debug, PartialEq, Eq)]
pub enum Answer {
    Accepted,
    Way { cost: u32, steps: u64, length: usize },
    None { steps: u64 },
    Caught { cell: u64 },
    Refused(u8),
}

impl Answer {
    /// The answer's five numbers: kind (0 accepted, 1 way, 2 none, 3 caught, 4 refused), refusal number, cost, steps,
    /// length of the way. What an answer lacks is 0; a caught way has length 1.
    pub fn numbers(&self) -> [u64; 5] {
        match *self {
            Answer::Accepted => [0, 0, 0, 0, 0],
            Answer::Way { cost, steps, length } => [1, 0, cost as u64, steps, length as u64],
            Answer::None { steps } => [2, 0, 0, steps, 0],
            Answer::Caught { .. } => [3, 0, 0, 0, 1],
            Answer::Refused(number) => [4, number as u64, 0, 0, 0],
        }
    }
}

/// The three kinds of steps of a search.
#[derive(Clone, Copy, Debug, PartialEq, Eq, PartialOrd, Ord)]
pub enum Step {
    PutBack,
    Lower,
    Raise,
}

/// Gives the number of cells, or nothing if the size is refused.
pub fn cells_of(width: u64, height: u64) -> Option<usize> {
    if (1..=64).contains(&width) && (1..=64).contains(&height) {
        Some((width * height) as usize)
    } else {
        None
    }
}

/// Tells whether each table has exactly the length that the number of cells gives.
pub fn lengths_fit(tables: &Tables, cells: usize) -> bool {
    tables.plan.len() == 4 * cells
        && tables.g.len() == cells
        && tables.rhs.len() == cells
        && tables.parent.len() == cells
        && tables.k1.len() == cells
        && tables.k2.len() == cells
        && tables.place.len() == cells
        && tables.list.len() == cells
}

/// Gives the neighbour in a direction (0 to 3), or nothing if the move leaves the plan.
/// The size must be a plan's size and the cell must be in the plan.
pub fn neighbour(width: u64, height: u64, cell: usize, direction: usize) -> Option<usize> {
    let (row_step, column_step) = STEPS[direction];
    let row = (cell as u64 / width) as i64 + row_step;
    let column = (cell as u64 % width) as i64 + column_step;
    if row < 0 || column < 0 || row >= height as i64 || column >= width as i64 {
        None
    } else {
        Some(row as usize * width as usize + column as usize)
    }
}

/// The estimate: the difference of the rows plus the difference of the columns.
pub fn estimate(width: u64, a: u64, b: u64) -> u64 {
    (a / width).abs_diff(b / width) + (a % width).abs_diff(b % width)
}

/// Tells whether a byte is a cost, so 1 to 250 or 255.
pub fn is_cost(byte: u8) -> bool {
    (1..=GREATEST_COST).contains(&byte) || byte == SHUT
}

/// The calculated key of a cell in wide numbers, so that no content of the tables can overflow.
/// Nothing is given if the key is infinite.
pub fn wide_key(session: &Session, tables: &Tables, cell: usize) -> Option<(u64, u64)> {
    let m = tables.g[cell].min(tables.rhs[cell]);
    if m == INFINITE {
        return None;
    }
    let to_goal = estimate(session.width, cell as u64, session.goal);
    Some((m as u64 + to_goal + session.km as u64, m as u64))
}

/// The least g + cost over the neighbours' open moves into the cell, and the first direction
/// that gives it. Nothing is given if there is no such finite sum.
pub fn least_entry(session: &Session, tables: &Tables, cell: usize) -> Option<(u64, usize)> {
    let mut best: Option<(u64, usize)> = None;
    for direction in 0..4 {
        if let Some(from) = neighbour(session.width, session.height, cell, direction) {
            let cost = tables.plan[4 * from + opposite(direction)];
            if cost == SHUT || tables.g[from] == INFINITE {
                continue;
            }
            let sum = tables.g[from] as u64 + cost as u64;
            match best {
                Some((least, _)) if least <= sum => {}
                _ => best = Some((sum, direction)),
            }
        }
    }
    best
}

/// Tells whether record and tables are sound, for any content of all of them.
/// A wrong size or a wrong length also gives "no", although the calls refuse these earlier.
pub fn is_sound(session: &Session, tables: &Tables) -> bool {
    let cells = match cells_of(session.width, session.height) {
        Some(cells) => cells,
        None => return false,
    };
    if !lengths_fit(tables, cells) {
        return false;
    }

    // The numbers of the record come first, because all the rest is measured by them.
    let last = cells as u64;
    if session.hunter >= last
        || session.target >= last
        || session.origin >= last
        || session.goal >= last
        || session.count > last
        || session.searches > RENEWAL
        || session.km as u64 > GREATEST_ESTIMATE * session.searches as u64
    {
        return false;
    }
    let bound = GREATEST_GROWTH * session.searches as u64;
    let origin = session.origin as usize;
    let count = session.count as usize;

    // The plan: a move that leaves it is shut, and every byte is a cost.
    for cell in 0..cells {
        for direction in 0..4 {
            let byte = tables.plan[4 * cell + direction];
            let leaves = neighbour(session.width, session.height, cell, direction).is_none();
            if !is_cost(byte) || (leaves && byte != SHUT) {
                return false;
            }
        }
    }

    for cell in 0..cells {
        let g = tables.g[cell];
        let rhs = tables.rhs[cell];
        let parent = tables.parent[cell] as usize;

        // Finite g, and the rhs of the search's hunter, are bounded.
        if g != INFINITE && g as u64 > bound {
            return false;
        }
        if cell == origin {
            if rhs == INFINITE || rhs as u64 > bound || parent != 0 {
                return false;
            }
        } else {
            // The rhs of any other cell is the least sum, and its parent gives this sum.
            match least_entry(session, tables, cell) {
                None => {
                    if rhs != INFINITE || parent != 0 {
                        return false;
                    }
                }
                Some((least, _)) => {
                    if rhs == INFINITE || rhs as u64 != least || parent == 0 || parent > 4 {
                        return false;
                    }
                    let direction = parent - 1;
                    match neighbour(session.width, session.height, cell, direction) {
                        None => return false,
                        Some(from) => {
                            let cost = tables.plan[4 * from + opposite(direction)];
                            if cost == SHUT
                                || tables.g[from] == INFINITE
                                || tables.g[from] as u64 + cost as u64 != least
                            {
                                return false;
                            }
                        }
                    }
                }
            }
        }

        // A cell is queued exactly if g and rhs differ; places and list agree.
        let place = tables.place[cell];
        if g == rhs {
            if place != ABSENT || tables.k1[cell] != 0 || tables.k2[cell] != 0 {
                return false;
            }
        } else {
            if place as usize >= count || tables.list[place as usize] as usize != cell {
                return false;
            }
            // The stored key is not above the calculated key.
            let stored = (tables.k1[cell] as u64, tables.k2[cell] as u64);
            match wide_key(session, tables, cell) {
                None => return false,
                Some(key) => {
                    if stored > key {
                        return false;
                    }
                }
            }
        }
    }

    // The list: the used places name cells that are placed there, the others are absent,
    // and it is a binary heap by (k1, k2, column, row).
    for index in 0..cells {
        let cell = tables.list[index];
        if index >= count {
            if cell != ABSENT {
                return false;
            }
        } else {
            if cell as usize >= cells || tables.place[cell as usize] as usize != index {
                return false;
            }
            if index > 0 {
                let above = tables.list[(index - 1) / 2];
                if Rank::of(session.width, tables, above) > Rank::of(session.width, tables, cell) {
                    return false;
                }
            }
        }
    }
    true
}

/// What the queue orders a cell by: its stored key, and "among equal keys the smaller column, then the smaller row".
/// Ranks are compared field by field, in the order in which the fields stand.
#[derive(Clone, Copy, PartialEq, Eq, PartialOrd, Ord)]
pub struct Rank {
    key: (u32, u32),
    column: u64,
    row: u64,
}

impl Rank {
    /// The rank of a cell under its stored key, in a plan of this width.
    pub fn of(width: u64, tables: &Tables, cell: u16) -> Rank {
        let key = (tables.k1[cell as usize], tables.k2[cell as usize]);
        Rank { key, column: cell as u64 % width, row: cell as u64 / width }
    }

    /// The cell that has this rank.
    fn cell(&self, width: u64) -> usize {
        (self.row * width + self.column) as usize
    }
}

/// Record and tables while a call works on them, with the queue as an ordered set.
struct Work<'a> {
    session: Session,
    tables: &'a mut Tables,
    queue: BTreeSet<Rank>,
    /// This tells whether any queue entry was set, so that list and places must be written.
    touched: bool,
}

impl<'a> Work<'a> {
    /// Starts work on sound tables: the queue holds the cells that have a place.
    fn on(session: &Session, tables: &'a mut Tables) -> Work<'a> {
        let mut queue = BTreeSet::new();
        for cell in 0..tables.place.len() {
            if tables.place[cell] != ABSENT {
                queue.insert(Rank::of(session.width, tables, cell as u16));
            }
        }
        Work { session: *session, tables, queue, touched: false }
    }

    fn cells(&self) -> usize {
        self.tables.g.len()
    }

    fn neighbour(&self, cell: usize, direction: usize) -> Option<usize> {
        neighbour(self.session.width, self.session.height, cell, direction)
    }

    /// The calculated key in the width of the tables; both infinite if g and rhs are.
    fn calculated_key(&self, cell: usize) -> (u32, u32) {
        match wide_key(&self.session, self.tables, cell) {
            None => (INFINITE, INFINITE),
            Some((k1, k2)) => (
                u32::try_from(k1).expect("sound tables keep k1 within 32 bits"),
                u32::try_from(k2).expect("sound tables keep k2 within 32 bits"),
            ),
        }
    }

    fn is_queued(&self, cell: usize) -> bool {
        self.queue.contains(&self.rank(cell))
    }

    fn rank(&self, cell: usize) -> Rank {
        Rank::of(self.session.width, self.tables, cell as u16)
    }

    /// Takes a cell out of the queue if it is in it; its key numbers become 0.
    fn take_out(&mut self, cell: usize) {
        if self.queue.remove(&self.rank(cell)) {
            self.touched = true;
        }
        self.tables.k1[cell] = 0;
        self.tables.k2[cell] = 0;
    }

    /// Puts a cell in under a key, or under another key if it is in already.
    fn put(&mut self, cell: usize, key: (u32, u32)) {
        self.take_out(cell);
        self.tables.k1[cell] = key.0;
        self.tables.k2[cell] = key.1;
        self.queue.insert(self.rank(cell));
        self.touched = true;
    }

    /// Sets the entry right: queued under the calculated key if g and rhs differ, else absent.
    fn set_right(&mut self, cell: usize) {
        if self.tables.g[cell] != self.tables.rhs[cell] {
            let key = self.calculated_key(cell);
            self.put(cell, key);
        } else {
            self.take_out(cell);
        }
    }

    /// Finds rhs and parent of a cell anew and sets its entry right.
    fn find_anew(&mut self, cell: usize) {
        match least_entry(&self.session, self.tables, cell) {
            None => {
                self.tables.rhs[cell] = INFINITE;
                self.tables.parent[cell] = 0;
            }
            Some((sum, direction)) => {
                self.tables.rhs[cell] =
                    u32::try_from(sum).expect("sound tables keep sums within 32 bits");
                self.tables.parent[cell] = direction as u8 + 1;
            }
        }
        self.set_right(cell);
    }

    /// The sum of g of a cell and a cost; nothing if it is infinite.
    fn sum(&self, from: usize, cost: u8) -> Option<u32> {
        if cost == SHUT || self.tables.g[from] == INFINITE {
            None
        } else {
            Some(self.tables.g[from].checked_add(cost as u32).expect("sums stay within 32 bits"))
        }
    }

    /// Lowers the rhs of the cell entered by the move, if the sum is less. The hunter is spared.
    fn offer(&mut self, from: usize, direction: usize) {
        let cost = self.tables.plan[4 * from + direction];
        let to = match self.neighbour(from, direction) {
            Some(to) => to,
            None => return,
        };
        if to as u64 == self.session.origin {
            return;
        }
        if let Some(sum) = self.sum(from, cost) {
            if sum < self.tables.rhs[to] {
                self.tables.rhs[to] = sum;
                self.tables.parent[to] = opposite(direction) as u8 + 1;
                self.set_right(to);
            }
        }
    }

    /// Finds the cell entered by the move anew, if the cell left is its parent. The hunter is spared.
    fn withdraw(&mut self, from: usize, direction: usize) {
        if let Some(to) = self.neighbour(from, direction) {
            let back = opposite(direction) as u8 + 1;
            if to as u64 != self.session.origin && self.tables.parent[to] == back {
                self.find_anew(to);
            }
        }
    }

    /// Fills all tables but the plan fresh, at the cells placed.
    fn start_fresh(&mut self) {
        for cell in 0..self.cells() {
            self.tables.g[cell] = INFINITE;
            self.tables.rhs[cell] = INFINITE;
            self.tables.parent[cell] = 0;
            self.tables.k1[cell] = 0;
            self.tables.k2[cell] = 0;
        }
        self.queue.clear();
        self.touched = true;
        self.session.origin = self.session.hunter;
        self.session.goal = self.session.target;
        self.session.km = 0;
        self.session.searches = 0;
        let hunter = self.session.hunter as usize;
        self.tables.rhs[hunter] = 0;
        self.set_right(hunter);
    }

    /// Takes the placed target and then the placed hunter over, or starts fresh.
    fn take_over(&mut self) {
        if self.session.searches == RENEWAL {
            self.start_fresh();
        } else {
            let way = estimate(self.session.width, self.session.goal, self.session.target) as u32;
            self.session.km = self.session.km.checked_add(way).expect("km stays within 32 bits");
            self.session.goal = self.session.target;
            if self.session.hunter != self.session.origin {
                let new = self.session.hunter as usize;
                if self.tables.rhs[new] == INFINITE {
                    self.start_fresh();
                } else {
                    let old = self.session.origin as usize;
                    self.session.origin = self.session.hunter;
                    self.tables.parent[new] = 0;
                    self.find_anew(old);
                }
            }
        }
        self.session.searches += 1;
    }

    /// Tells whether the search has to go on.
    fn goes_on(&self) -> bool {
        let goal = self.session.goal as usize;
        let least = match self.queue.first() {
            Some(first) => first.key,
            None => (INFINITE, INFINITE),
        };
        least < self.calculated_key(goal) || self.tables.rhs[goal] > self.tables.g[goal]
    }

    /// Takes one step on the least cell, and names the step's kind and cell.
    fn step(&mut self) -> (Step, u16) {
        let first = *self.queue.first().expect("a search that goes on has a least cell");
        let cell = first.cell(self.session.width);
        let number = cell as u16;
        let key = self.calculated_key(cell);
        if first.key < key {
            self.put(cell, key);
            (Step::PutBack, number)
        } else if self.tables.g[cell] > self.tables.rhs[cell] {
            self.tables.g[cell] = self.tables.rhs[cell];
            self.take_out(cell);
            for direction in 0..4 {
                self.offer(cell, direction);
            }
            (Step::Lower, number)
        } else {
            self.tables.g[cell] = INFINITE;
            for direction in 0..4 {
                self.withdraw(cell, direction);
            }
            self.set_right(cell);
            (Step::Raise, number)
        }
    }

    /// Follows the parents from the goal to the hunter and gives the cells, the hunter first.
    fn way(&self) -> Vec<u16> {
        let mut cells = vec![self.session.goal as u16];
        let mut cell = self.session.goal as usize;
        while cell as u64 != self.session.origin {
            let parent = self.tables.parent[cell] as usize;
            assert!(parent != 0 && cells.len() <= self.cells(), "the parents lead to the hunter");
            cell = self.neighbour(cell, parent - 1).expect("a parent is a neighbour");
            cells.push(cell as u16);
        }
        cells.reverse();
        cells
    }

    /// Writes list and places if any entry was set, and gives the record.
    fn finish(mut self) -> Session {
        if self.touched {
            self.tables.place.fill(ABSENT);
            self.tables.list.fill(ABSENT);
            for (index, rank) in self.queue.iter().enumerate() {
                let cell = rank.cell(self.session.width);
                self.tables.list[index] = cell as u16;
                self.tables.place[cell] = index as u16;
            }
            self.session.count = self.queue.len() as u64;
        }
        for cell in 0..self.cells() {
            debug_assert_eq!(self.is_queued(cell), self.tables.place[cell] != ABSENT);
        }
        self.session
    }
}

/// Gives the number by which a size, a plan and the cells of hunter and target are refused, or 0.
pub fn plan_refusal(width: u64, height: u64, hunter: u64, target: u64, plan: &[u8]) -> u8 {
    let cells = match cells_of(width, height) {
        Some(cells) => cells,
        None => return 1,
    };
    if plan.len() != 4 * cells {
        return 2;
    }
    if hunter >= cells as u64 || target >= cells as u64 {
        return 3;
    }
    for cell in 0..cells {
        for direction in 0..4 {
            if neighbour(width, height, cell, direction).is_none() && plan[4 * cell + direction] != SHUT {
                return 4;
            }
        }
    }
    if plan.iter().any(|&byte| !is_cost(byte)) {
        return 5;
    }
    0
}

/// Gives the number by which open refuses, or 0. The lengths of all tables come before the cells.
fn open_refusal(width: u64, height: u64, hunter: u64, target: u64, tables: &Tables) -> u8 {
    match cells_of(width, height) {
        Some(cells) if !lengths_fit(tables, cells) => 2,
        _ => plan_refusal(width, height, hunter, target, &tables.plan),
    }
}

/// Opens a session on the plan that stands in the tables.
pub fn open(width: u64, height: u64, hunter: u64, target: u64, tables: &mut Tables) -> (Answer, Session) {
    let number = open_refusal(width, height, hunter, target, tables);
    if number != 0 {
        return (Answer::Refused(number), Session::default());
    }
    let session = Session { width, height, hunter, target, ..Session::default() };
    // The queue starts empty whatever the places held before.
    let mut work = Work { session, tables, queue: BTreeSet::new(), touched: true };
    work.start_fresh();
    (Answer::Accepted, work.finish())
}

/// Gives the number by which a placing refuses, or 0.
fn place_refusal(session: &Session, cell: u64) -> u8 {
    match cells_of(session.width, session.height) {
        None => 1,
        Some(cells) if cell >= cells as u64 => 3,
        Some(_) => 0,
    }
}

/// Notes the hunter's cell.
pub fn place_hunter(session: &Session, cell: u64) -> (Answer, Session) {
    match place_refusal(session, cell) {
        0 => (Answer::Accepted, Session { hunter: cell, ..*session }),
        number => (Answer::Refused(number), *session),
    }
}

/// Notes the target's cell.
pub fn place_target(session: &Session, cell: u64) -> (Answer, Session) {
    match place_refusal(session, cell) {
        0 => (Answer::Accepted, Session { target: cell, ..*session }),
        number => (Answer::Refused(number), *session),
    }
}

/// Gives 1, 2 or 6 if size, lengths or soundness are at fault, or 0.
pub fn tables_refusal(session: &Session, tables: &Tables) -> u8 {
    match cells_of(session.width, session.height) {
        None => 1,
        Some(cells) if !lengths_fit(tables, cells) => 2,
        Some(_) if !is_sound(session, tables) => 6,
        Some(_) => 0,
    }
}

/// Gives the number by which change refuses, or 0.
fn change_refusal(session: &Session, tables: &Tables, cell: u64, direction: u8, cost: u8) -> u8 {
    let number = tables_refusal(session, tables);
    if number != 0 {
        return number;
    }
    if cell >= session.width * session.height {
        return 3;
    }
    if direction > 3
        || neighbour(session.width, session.height, cell as usize, direction as usize).is_none()
    {
        return 4;
    }
    if !is_cost(cost) {
        return 5;
    }
    0
}

/// Gives a move a cost and works the change in.
pub fn change(session: &Session, tables: &mut Tables, cell: u64, direction: u8, cost: u8) -> (Answer, Session) {
    let number = change_refusal(session, tables, cell, direction, cost);
    if number != 0 {
        return (Answer::Refused(number), *session);
    }
    let from = cell as usize;
    let direction = direction as usize;
    let old = tables.plan[4 * from + direction];
    tables.plan[4 * from + direction] = cost;
    if cost == old {
        return (Answer::Accepted, *session);
    }
    let mut work = Work::on(session, tables);
    // The byte 255 is the greatest, so comparing bytes tells whether the cost falls or rises.
    if cost < old {
        work.offer(from, direction);
    } else {
        work.withdraw(from, direction);
    }
    (Answer::Accepted, work.finish())
}

/// Searches a cheapest way from the placed hunter to the placed target.
pub fn search(session: &Session, tables: &mut Tables, way: &mut [u16]) -> (Answer, Session) {
    search_with_log(session, tables, way, &mut Vec::new())
}

/// Searches, and also notes the kind and the cell of each step.
pub fn search_with_log(
    session: &Session,
    tables: &mut Tables,
    way: &mut [u16],
    log: &mut Vec<(Step, u16)>,
) -> (Answer, Session) {
    log.clear();
    let number = tables_refusal(session, tables);
    if number != 0 {
        return (Answer::Refused(number), *session);
    }
    let cells = tables.g.len();
    if way.len() < cells {
        return (Answer::Refused(7), *session);
    }
    if session.hunter == session.target {
        way[0] = session.hunter as u16;
        return (Answer::Caught { cell: session.hunter }, *session);
    }
    let mut work = Work::on(session, tables);
    work.take_over();
    let limit = 3 * cells;
    while work.goes_on() {
        if log.len() == limit {
            return (Answer::Refused(9), work.finish());
        }
        log.push(work.step());
    }
    let steps = log.len() as u64;
    let goal = work.session.goal as usize;
    let origin = work.session.origin as usize;
    if work.tables.rhs[goal] == INFINITE {
        return (Answer::None { steps }, work.finish());
    }
    let shown = work.way();
    way[..shown.len()].copy_from_slice(&shown);
    let cost = work.tables.rhs[goal]
        .checked_sub(work.tables.rhs[origin])
        .expect("the target's rhs is not below the hunter's");
    (Answer::Way { cost, steps, length: shown.len() }, work.finish())
}
