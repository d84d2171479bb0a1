//! The library's calls once more in plain Rust: the same steps over the same flat tables, with nothing proved.
//! `CHECKED` says whether a change and a search first test that the tables are sound, and a drill that is written whether
//! it is refused, as the library does. The reasons are always asked of a plan that is tested first.
//! The program around it has a function `wrote`, which is told each time how many numbers the queue writes to list and places.

use crate::wrote;

pub const INFINITE: u32 = u32::MAX;
const ABSENT: u16 = u16::MAX;
const SHUT: u8 = 255;
const RENEWAL: u32 = 1_000;
const GREATEST_ESTIMATE: u32 = 126;
const GREATEST_GROWTH: u32 = 1_024_250;
const ACTION: usize = 5;
const TRAILER: usize = 12;
const GREATEST_FILE: usize = 65_536;
const GREATEST_CELLS: usize = 4_096;

/// A direction's step in rows and in columns, each plus 1.
#[derive(Clone, Copy)]
struct Shift {
    row: usize,
    column: usize,
}

/// North, east, south, west.
const SHIFTS: [Shift; 4] =
    [Shift { row: 0, column: 1 }, Shift { row: 1, column: 2 }, Shift { row: 2, column: 1 }, Shift { row: 1, column: 0 }];

/// A row and a column.
#[derive(Clone, Copy)]
struct Spot {
    row: usize,
    column: usize,
}

#[derive(Clone, Copy, Debug, PartialEq, Eq)]
pub enum Answer {
    Done,
    Way { cost: u32, steps: usize, cells: usize },
    None { steps: usize },
    Caught,
    Refused(u8),
}

/// The record and the tables of a session.
#[derive(Clone)]
pub struct Session {
    pub width: usize,
    pub height: usize,
    pub hunter: usize,
    pub target: usize,
    origin: usize,
    goal: usize,
    km: u32,
    count: usize,
    searches: u32,
    pub plan: Vec<u8>,
    g: Vec<u32>,
    rhs: Vec<u32>,
    parent: Vec<u8>,
    k1: Vec<u32>,
    k2: Vec<u32>,
    place: Vec<u16>,
    list: Vec<u16>,
}

/// Where a cell stands.
fn spot_of(width: usize, cell: usize) -> Spot {
    let row = cell / width;
    Spot { row, column: cell - row * width }
}

/// The next cell's spot, for a walk over the cells.
fn onward(width: usize, at: Spot) -> Spot {
    if at.column + 1 == width {
        return Spot { row: at.row + 1, column: 0 };
    }
    Spot { row: at.row, column: at.column + 1 }
}

/// Does the move stay in the plan? A direction can leave it on one side only.
fn stays_in(width: usize, height: usize, at: Spot, d: usize) -> bool {
    let shift = SHIFTS[d];
    if shift.row == 0 {
        return 0 < at.row;
    }
    if shift.row == 2 {
        return at.row + 1 < height;
    }
    if shift.column == 0 {
        return 0 < at.column;
    }
    at.column + 1 < width
}

/// The spot that a move leads to which stays in the plan.
fn moved(at: Spot, d: usize) -> Spot {
    let shift = SHIFTS[d];
    Spot { row: at.row + shift.row - 1, column: at.column + shift.column - 1 }
}

/// The cell that a move enters which stays in the plan.
fn entered(width: usize, cell: usize, d: usize) -> usize {
    let shift = SHIFTS[d];
    cell + shift.row * width + shift.column - (width + 1)
}

/// The estimate between two spots.
fn estimate(a: Spot, b: Spot) -> usize {
    a.row.abs_diff(b.row) + a.column.abs_diff(b.column)
}

/// Is this byte a cost, or shut?
fn is_byte(byte: u8) -> bool {
    byte != 0 && (byte <= 250 || byte == SHUT)
}

/// Is every move that would leave the plan shut?
fn edges_hold(width: usize, height: usize, plan: &[u8]) -> bool {
    let mut at = Spot { row: 0, column: 0 };
    for u in 0..width * height {
        for d in 0..4 {
            if !stays_in(width, height, at, d) && plan[4 * u + d] != SHUT {
                return false;
            }
        }
        at = onward(width, at);
    }
    true
}

/// The number by which a size, a plan or one of these cells is refused, or 0.
#[inline(always)]
fn plan_refusal(width: usize, height: usize, given: &[usize], plan: &[u8]) -> u8 {
    if width == 0 || height == 0 || width > 64 || height > 64 {
        return 1;
    }
    let cells = width * height;
    if plan.len() != 4 * cells {
        return 2;
    }
    if given.iter().any(|&cell| cell >= cells) {
        return 3;
    }
    if !edges_hold(width, height, plan) {
        return 4;
    }
    if !plan.iter().all(|&byte| is_byte(byte)) {
        return 5;
    }
    0
}

/// Are these five bytes a well-formed action?
fn is_action(bytes: &[u8]) -> bool {
    match bytes[0] {
        1 => true,
        2 | 3 => bytes[3] == 0 && bytes[4] == 0,
        4 => bytes[1..] == [0; 4],
        _ => false,
    }
}

/// A drill in its parts. The actions are bytes, five for each.
#[derive(Clone, Copy)]
pub struct Drill<'a> {
    pub width: usize,
    pub height: usize,
    pub hunter: usize,
    pub target: usize,
    pub plan: &'a [u8],
    pub actions: &'a [u8],
}

impl Drill<'_> {
    fn length(self) -> usize {
        self.plan.len() + self.actions.len() + TRAILER
    }

    /// The number by which the drill is refused, or a room of so many bytes; 0 if neither is.
    fn refusal(self, room: usize) -> u8 {
        let number = plan_refusal(self.width, self.height, &[self.hunter, self.target], self.plan);
        if number != 0 {
            return number;
        }
        let formed = self.actions.len() % ACTION == 0 && self.actions.chunks_exact(ACTION).all(is_action);
        if !formed || self.length() > GREATEST_FILE {
            return 8;
        }
        if room < self.length() {
            return 7;
        }
        0
    }

    /// The trailer's twelve bytes.
    fn trailer(self) -> [u8; TRAILER] {
        let mut bytes = [0; TRAILER];
        (bytes[0], bytes[1]) = (self.width as u8, self.height as u8);
        bytes[2..4].copy_from_slice(&(self.hunter as u16).to_le_bytes());
        bytes[4..6].copy_from_slice(&(self.target as u16).to_le_bytes());
        bytes[6..8].copy_from_slice(&((self.actions.len() / ACTION) as u16).to_le_bytes());
        bytes[8..].copy_from_slice(&(self.plan.len() as u32).to_le_bytes());
        bytes
    }

    /// Writes the drill file into the room. Gives its length, or the number by which it is refused.
    #[inline(never)]
    pub fn write<const CHECKED: bool>(self, file: &mut [u8]) -> Result<usize, u8> {
        if CHECKED {
            let number = self.refusal(file.len());
            if number != 0 {
                return Err(number);
            }
        }
        let (plan, rest) = file[..self.length()].split_at_mut(self.plan.len());
        let (actions, trailer) = rest.split_at_mut(self.actions.len());
        plan.copy_from_slice(self.plan);
        actions.copy_from_slice(self.actions);
        trailer.copy_from_slice(&self.trailer());
        Ok(self.length())
    }
}

/// Does cell a come before cell b where their keys are equal? The smaller column, then the smaller row.
#[inline(always)]
fn tie_before(width: usize, a: usize, b: usize) -> bool {
    let (x, y) = (a % width, b % width);
    if x != y {
        return x < y;
    }
    a < b
}

/// A cell's key as one number, k1 in its upper half.
#[inline(always)]
fn key_of(k1: &[u32], k2: &[u32], cell: usize) -> u64 {
    (k1[cell] as u64) << 32 | k2[cell] as u64
}

/// Does cell a, under the key p, come before cell b, under the key q?
#[inline(always)]
fn key_before(width: usize, p: u64, a: usize, q: u64, b: usize) -> bool {
    if p != q {
        return p < q;
    }
    tie_before(width, a, b)
}

/// Does cell a come before cell b in the queue?
#[inline(always)]
fn cell_before(width: usize, k1: &[u32], k2: &[u32], a: usize, b: usize) -> bool {
    if k1[a] != k1[b] {
        return k1[a] < k1[b];
    }
    if k2[a] != k2[b] {
        return k2[a] < k2[b];
    }
    tie_before(width, a, b)
}

/// Does cell v, with rhs r and parent p, agree with the sum that an open move into it gives, whose parent code is k?
#[inline(always)]
fn sum_holds(hunter: usize, v: usize, r: u32, p: u8, sum: usize, k: usize) -> bool {
    let own = r as usize;
    if p as usize == k {
        return own == sum;
    }
    own <= sum || v == hunter
}

/// Is b a cost or shut, and does cell v agree with the move of byte b into it from a cell whose g is x?
#[inline(always)]
fn move_holds(hunter: usize, b: u8, x: u32, v: usize, r: u32, p: u8, k: usize) -> bool {
    if b <= 250 {
        return b != 0 && sum_holds(hunter, v, r, p, x as usize + b as usize, k);
    }
    b == SHUT && p as usize != k
}

/// Do a cell's own numbers obey their rules?
#[inline(always)]
fn own_holds(bound: u32, hunter: usize, s: usize, g: u32, r: u32, p: u8) -> bool {
    if bound < g && g != INFINITE {
        return false;
    }
    if s == hunter {
        return r <= bound && p == 0;
    }
    if p == 0 {
        return r == INFINITE;
    }
    p <= 4 && r != INFINITE
}

/// Is the stored key (a, b) not above the calculated one? e is the estimate to the target.
#[inline(always)]
fn key_holds(a: u32, b: u32, g: u32, r: u32, e: usize, km: u32) -> bool {
    let m = g.min(r);
    let first = m as usize + e + km as usize;
    let stored = a as usize;
    if stored != first {
        return stored < first;
    }
    b <= m
}

/// Where the check finds a rule broken.
#[derive(Clone, Copy, PartialEq, Eq)]
enum Fault {
    Nowhere,
    InRecord,
    InCell(usize),
    InMove(usize, usize),
}

/// The record's numbers and the tables, as the check reads them.
#[derive(Clone, Copy)]
struct Cut<'a> {
    width: usize,
    height: usize,
    origin: usize,
    km: u32,
    count: usize,
    searches: u32,
    plan: &'a [u8],
    g: &'a [u32],
    rhs: &'a [u32],
    parent: &'a [u8],
    k1: &'a [u32],
    k2: &'a [u32],
    place: &'a [u16],
    list: &'a [u16],
}

impl Cut<'_> {
    /// Does place i of the list obey the rules of a true heap?
    #[inline(always)]
    fn entry_holds(self, i: usize) -> bool {
        let c = self.list[i] as usize;
        if self.count <= i {
            return c == ABSENT as usize;
        }
        if self.list.len() <= c || self.place[c] as usize != i {
            return false;
        }
        if i == 0 {
            return true;
        }
        let d = self.list[(i - 1) / 2] as usize;
        d < self.list.len() && !cell_before(self.width, self.k1, self.k2, c, d)
    }

    /// Is cell u absent from the queue, and are both its key numbers 0?
    #[inline(always)]
    fn absent_holds(self, u: usize) -> bool {
        self.place[u] == ABSENT && self.k1[u] == 0 && self.k2[u] == 0
    }

    /// Has cell u a used place of the list, and is it named there?
    #[inline(always)]
    fn queued_holds(self, u: usize) -> bool {
        let i = self.place[u] as usize;
        i < self.count && self.list[i] as usize == u
    }

    /// Is cell u, whose g x and rhs y differ, queued under a stored key that is not above the calculated one?
    #[inline(always)]
    fn waiting_holds(self, x: u32, y: u32, u: usize, at: Spot, aim: Spot) -> bool {
        self.queued_holds(u) && key_holds(self.k1[u], self.k2[u], x, y, estimate(at, aim), self.km)
    }

    /// Does cell u obey its own rules and the queue's, and does place u of the list?
    #[inline(always)]
    fn alone_holds(self, u: usize, at: Spot, aim: Spot) -> bool {
        if !self.entry_holds(u) {
            return false;
        }
        let (x, y) = (self.g[u], self.rhs[u]);
        if !own_holds(GREATEST_GROWTH * self.searches, self.origin, u, x, y, self.parent[u]) {
            return false;
        }
        if x == y {
            return self.absent_holds(u);
        }
        self.waiting_holds(x, y, u, at, aim)
    }

    /// Does the move from cell u, whose g is x, in direction d agree with the plan's edge, or else with the cell that it enters?
    #[inline(always)]
    fn way_holds(self, x: u32, u: usize, at: Spot, d: usize) -> bool {
        let b = self.plan[4 * u + d];
        if !stays_in(self.width, self.height, at, d) {
            return b == SHUT && self.parent[u] as usize != d + 1;
        }
        let v = entered(self.width, u, d);
        move_holds(self.origin, b, x, v, self.rhs[v], self.parent[v], (d + 2) % 4 + 1)
    }
}

impl Session {
    /// Opens a session on a plan that obeys, with both cells in it.
    pub fn open(width: usize, height: usize, hunter: usize, target: usize, plan: Vec<u8>) -> Session {
        let cells = width * height;
        let mut session = Session {
            width,
            height,
            hunter,
            target,
            origin: hunter,
            goal: target,
            km: 0,
            count: 0,
            searches: 0,
            plan,
            g: vec![0; cells],
            rhs: vec![0; cells],
            parent: vec![0; cells],
            k1: vec![0; cells],
            k2: vec![0; cells],
            place: vec![0; cells],
            list: vec![0; cells],
        };
        session.start_fresh();
        session
    }

    fn spot_of(&self, cell: usize) -> Spot {
        spot_of(self.width, cell)
    }

    /// Where the last search's target stands.
    fn aim(&self) -> Spot {
        self.spot_of(self.goal)
    }

    fn start_fresh(&mut self) {
        self.g.fill(INFINITE);
        self.rhs.fill(INFINITE);
        self.parent.fill(0);
        self.k1.fill(0);
        self.k2.fill(0);
        self.place.fill(ABSENT);
        self.list.fill(ABSENT);
        self.origin = self.hunter;
        self.goal = self.target;
        self.km = 0;
        self.count = 0;
        self.searches = 0;
        self.rhs[self.hunter] = 0;
        self.set_right(self.aim(), self.hunter, self.spot_of(self.hunter));
    }

    // ---- the queue

    /// The key that a cell has in the queue, as one number.
    fn key_of(&self, cell: usize) -> u64 {
        key_of(&self.k1, &self.k2, cell)
    }

    /// Lets a cell stand at place i of the list.
    fn stand(&mut self, i: usize, cell: usize) {
        wrote(2);
        self.list[i] = cell as u16;
        self.place[cell] = i as u16;
    }

    /// The place to which a cell goes up from `start`. The entries that it passes go down one place each.
    fn sift_up(&mut self, start: usize, cell: usize) -> usize {
        let key = self.key_of(cell);
        let mut i = start;
        while 0 < i {
            let above = (i - 1) / 2;
            let upper = self.list[above] as usize;
            if !key_before(self.width, key, cell, self.key_of(upper), upper) {
                return i;
            }
            self.stand(i, upper);
            i = above;
        }
        i
    }

    /// The place of the lesser entry right under place i, which has one there.
    fn lesser_under(&self, i: usize) -> usize {
        let left = 2 * i + 1;
        let right = left + 1;
        if right < self.count {
            let (a, b) = (self.list[right] as usize, self.list[left] as usize);
            if key_before(self.width, self.key_of(a), a, self.key_of(b), b) {
                return right;
            }
        }
        left
    }

    /// The place to which a cell goes down from `start`. The entries that it passes go up one place each.
    fn sift_down(&mut self, start: usize, cell: usize) -> usize {
        let key = self.key_of(cell);
        let mut i = start;
        while 2 * i + 1 < self.count {
            let under = self.lesser_under(i);
            let lesser = self.list[under] as usize;
            if !key_before(self.width, self.key_of(lesser), lesser, key, cell) {
                return i;
            }
            self.stand(i, lesser);
            i = under;
        }
        i
    }

    /// The place where a cell belongs that is carried from place i, higher or lower. The cell itself is not written there.
    /// One that went up does not go down again.
    fn settle(&mut self, i: usize, cell: usize) -> usize {
        let j = self.sift_up(i, cell);
        if j != i {
            return j;
        }
        self.sift_down(j, cell)
    }

    /// Puts a cell that is not queued into the queue: from the end of the list it can go up only.
    fn put_in(&mut self, cell: usize, first: u32, second: u32) {
        self.k1[cell] = first;
        self.k2[cell] = second;
        self.count += 1;
        let j = self.sift_up(self.count - 1, cell);
        self.stand(j, cell);
    }

    /// Puts a queued cell under another key.
    fn put_under(&mut self, cell: usize, first: u32, second: u32) {
        let i = self.place[cell] as usize;
        self.k1[cell] = first;
        self.k2[cell] = second;
        let j = self.settle(i, cell);
        if j != i {
            self.stand(j, cell);
        }
    }

    /// Takes a queued cell out of the queue: the last entry of the list is carried from its place to where it belongs.
    fn take_out(&mut self, cell: usize) {
        let i = self.place[cell] as usize;
        let last = self.count - 1;
        let moved = self.list[last] as usize;
        self.k1[cell] = 0;
        self.k2[cell] = 0;
        wrote(2);
        self.place[cell] = ABSENT;
        self.list[last] = ABSENT;
        self.count = last;
        if last <= i {
            return;
        }
        let j = self.settle(i, moved);
        self.stand(j, moved);
    }

    // ---- a cell's entry

    fn first_key(&self, aim: Spot, m: u32, at: Spot) -> u32 {
        m + estimate(at, aim) as u32 + self.km
    }

    fn set_right(&mut self, aim: Spot, cell: usize, at: Spot) {
        let (x, y) = (self.g[cell], self.rhs[cell]);
        let queued = self.place[cell] != ABSENT;
        if x == y {
            if queued {
                self.take_out(cell);
            }
            return;
        }
        let m = x.min(y);
        let first = self.first_key(aim, m, at);
        if queued {
            self.put_under(cell, first, m);
        } else {
            self.put_in(cell, first, m);
        }
    }

    /// The open move out of cell u in direction d: the cell that it enters, and its cost.
    fn move_out(&self, u: usize, d: usize) -> Option<(usize, u8)> {
        let cost = self.plan[4 * u + d];
        (cost != SHUT).then(|| (entered(self.width, u, d), cost))
    }

    /// The open move into cell s from its neighbour in direction d: that neighbour, and the cost.
    fn move_into(&self, s: usize, d: usize) -> Option<(usize, u8)> {
        let shift = SHIFTS[d];
        let sum = s + shift.row * self.width + shift.column;
        if sum <= self.width {
            return None;
        }
        let u = sum - (self.width + 1);
        let at = 4 * u + (d + 2) % 4;
        if self.plan.len() <= at || self.plan[at] == SHUT {
            return None;
        }
        Some((u, self.plan[at]))
    }

    /// The first least sum over the neighbours in direction order, with its parent byte.
    fn anew(&self, s: usize) -> (u32, u8) {
        let (mut rhs, mut parent) = (INFINITE, 0);
        for d in 0..4 {
            let Some((u, cost)) = self.move_into(s, d) else {
                continue;
            };
            if self.g[u] == INFINITE {
                continue;
            }
            let sum = self.g[u] + cost as u32;
            if sum < rhs {
                rhs = sum;
                parent = d as u8 + 1;
            }
        }
        (rhs, parent)
    }

    fn found_anew(&mut self, aim: Spot, cell: usize, at: Spot) {
        (self.rhs[cell], self.parent[cell]) = self.anew(cell);
        self.set_right(aim, cell, at);
    }

    // ---- the check

    fn numbers_hold(&self) -> bool {
        let cells = self.width * self.height;
        self.hunter < cells
            && self.target < cells
            && self.origin < cells
            && self.goal < cells
            && self.count <= cells
            && self.searches <= RENEWAL
            && self.km <= GREATEST_ESTIMATE * self.searches
    }

    /// The first place at fault. One walk over cells and directions, left as soon as one rule fails. The tables have their lengths.
    #[inline(never)]
    fn first_fault(&self) -> Fault {
        if !self.numbers_hold() {
            return Fault::InRecord;
        }
        let cells = self.width * self.height;
        // Cut to the length that they have, so that the compiler can leave out tests of an index.
        let tables = Cut {
            width: self.width,
            height: self.height,
            origin: self.origin,
            km: self.km,
            count: self.count,
            searches: self.searches,
            plan: &self.plan[..4 * cells],
            g: &self.g[..cells],
            rhs: &self.rhs[..cells],
            parent: &self.parent[..cells],
            k1: &self.k1[..cells],
            k2: &self.k2[..cells],
            place: &self.place[..cells],
            list: &self.list[..cells],
        };
        let aim = self.aim();
        let mut at = Spot { row: 0, column: 0 };
        for u in 0..cells {
            if !tables.alone_holds(u, at, aim) {
                return Fault::InCell(u);
            }
            let x = tables.g[u];
            for d in 0..4 {
                if !tables.way_holds(x, u, at, d) {
                    return Fault::InMove(u, d);
                }
            }
            at = onward(self.width, at);
        }
        Fault::Nowhere
    }

    fn is_sound(&self) -> bool {
        self.first_fault() == Fault::Nowhere
    }

    /// The refusal of size, lengths or content, 0 if there is none.
    fn tables_refusal(&self) -> u8 {
        if !(1..=64).contains(&self.width) || !(1..=64).contains(&self.height) {
            return 1;
        }
        let cells = self.width * self.height;
        let fit = self.plan.len() == 4 * cells
            && self.g.len() == cells
            && self.rhs.len() == cells
            && self.parent.len() == cells
            && self.k1.len() == cells
            && self.k2.len() == cells
            && self.place.len() == cells
            && self.list.len() == cells;
        if !fit {
            return 2;
        }
        if !self.is_sound() {
            return 6;
        }
        0
    }

    // ---- the calls

    /// Gives cell u's move in direction d a cost, and works that in.
    #[inline(never)]
    pub fn change_move<const CHECKED: bool>(&mut self, u: usize, d: usize, cost: u8) -> Answer {
        if CHECKED {
            let number = self.tables_refusal();
            if number != 0 {
                return Answer::Refused(number);
            }
        }
        if u >= self.width * self.height {
            return Answer::Refused(3);
        }
        if d > 3 || !stays_in(self.width, self.height, self.spot_of(u), d) {
            return Answer::Refused(4);
        }
        if !is_byte(cost) {
            return Answer::Refused(5);
        }
        let v = entered(self.width, u, d);
        let code = (d as u8 + 2) % 4 + 1;
        let old = std::mem::replace(&mut self.plan[4 * u + d], cost);
        if let Some((rhs, parent)) = self.effect_of(v, code, u, old, cost) {
            (self.rhs[v], self.parent[v]) = (rhs, parent);
            self.set_right(self.aim(), v, self.spot_of(v));
        }
        Answer::Done
    }

    /// The rhs and parent that a changed move asks of the cell v that it enters, if it asks anything.
    fn effect_of(&self, v: usize, code: u8, u: usize, old: u8, new: u8) -> Option<(u32, u8)> {
        if v == self.origin {
            return None;
        }
        if new < old {
            let sum = self.g[u] as usize + new as usize;
            return (sum < self.rhs[v] as usize).then_some((sum as u32, code));
        }
        (new > old && self.parent[v] == code).then(|| self.anew(v))
    }

    fn take_over(&mut self) {
        if self.searches == RENEWAL {
            return self.start_fresh();
        }
        self.km += estimate(self.aim(), self.spot_of(self.target)) as u32;
        self.goal = self.target;
        if self.hunter == self.origin {
            return;
        }
        if self.rhs[self.hunter] == INFINITE {
            return self.start_fresh();
        }
        let old = self.origin;
        self.parent[self.hunter] = 0;
        self.origin = self.hunter;
        self.found_anew(self.aim(), old, self.spot_of(old));
    }

    /// The least queued cell, while the search goes on.
    fn chosen(&self) -> Option<usize> {
        if self.count == 0 {
            return None;
        }
        let u = self.list[0] as usize;
        let (x, y) = (self.g[self.goal], self.rhs[self.goal]);
        let key = if y == INFINITE { (INFINITE, INFINITE) } else { (y + self.km, y) };
        if x < y || (self.k1[u], self.k2[u]) < key {
            Some(u)
        } else {
            None
        }
    }

    fn lower(&mut self, aim: Spot, u: usize, at: Spot) {
        let v = self.rhs[u];
        self.g[u] = v;
        self.set_right(aim, u, at);
        for d in 0..4 {
            let Some((s, cost)) = self.move_out(u, d) else {
                continue;
            };
            let sum = v + cost as u32;
            if s != self.origin && sum < self.rhs[s] {
                self.rhs[s] = sum;
                self.parent[s] = (d as u8 + 2) % 4 + 1;
                self.set_right(aim, s, moved(at, d));
            }
        }
    }

    fn raise(&mut self, aim: Spot, u: usize, at: Spot) {
        self.g[u] = INFINITE;
        for d in 0..4 {
            let Some((s, _)) = self.move_out(u, d) else {
                continue;
            };
            if s != self.origin && self.parent[s] == (d as u8 + 2) % 4 + 1 {
                self.found_anew(aim, s, moved(at, d));
            }
        }
        self.set_right(aim, u, at);
    }

    fn step(&mut self, aim: Spot, u: usize) {
        let at = self.spot_of(u);
        let m = self.g[u].min(self.rhs[u]);
        if (self.k1[u], self.k2[u]) < (self.first_key(aim, m, at), m) {
            self.set_right(aim, u, at);
        } else if self.rhs[u] < self.g[u] {
            self.lower(aim, u, at);
        } else {
            self.raise(aim, u, at);
        }
    }

    fn write_way(&self, way: &mut [u16]) -> usize {
        let parent_of = |s: usize| entered(self.width, s, self.parent[s] as usize - 1);
        let mut cells = 1;
        let mut s = self.goal;
        while s != self.origin {
            s = parent_of(s);
            cells += 1;
        }
        let mut s = self.goal;
        for i in (1..cells).rev() {
            way[i] = s as u16;
            s = parent_of(s);
        }
        way[0] = s as u16;
        cells
    }

    /// Searches a cheapest way from hunter to target.
    #[inline(never)]
    pub fn search<const CHECKED: bool>(&mut self, way: &mut [u16]) -> Answer {
        if CHECKED {
            let number = self.tables_refusal();
            if number != 0 {
                return Answer::Refused(number);
            }
        }
        let cells = self.width * self.height;
        if way.len() < cells {
            return Answer::Refused(7);
        }
        if self.hunter == self.target {
            way[0] = self.hunter as u16;
            return Answer::Caught;
        }
        self.take_over();
        self.searches += 1;
        let aim = self.aim();
        let mut steps = 0;
        while let Some(u) = self.chosen() {
            if steps == 3 * cells {
                return Answer::Refused(9);
            }
            self.step(aim, u);
            steps += 1;
        }
        let far = self.rhs[self.goal];
        if far == INFINITE {
            return Answer::None { steps };
        }
        let cost = far - self.rhs[self.origin];
        Answer::Way { cost, steps, cells: self.write_way(way) }
    }

    // ---- the reasons

    /// Marks the cells that the hunter can reach, by a list of those found, and gives their number.
    fn fill_from(&self, hunter: usize, is_reached: &mut [bool; GREATEST_CELLS]) -> usize {
        let mut list = [0u16; GREATEST_CELLS];
        let (mut done, mut found) = (0, 1);
        list[0] = hunter as u16;
        is_reached[hunter] = true;
        while done < found {
            let u = list[done] as usize;
            done += 1;
            for d in 0..4 {
                let Some((v, _)) = self.move_out(u, d) else {
                    continue;
                };
                if !is_reached[v] {
                    is_reached[v] = true;
                    list[found] = v as u16;
                    found += 1;
                }
            }
        }
        found
    }

    /// Notes the shut moves that lead out of the cells reached, and gives their number.
    fn moves_out(&self, is_reached: &[bool; GREATEST_CELLS], out: &mut [u16; 2 * GREATEST_CELLS]) -> usize {
        let mut number = 0;
        let mut at = Spot { row: 0, column: 0 };
        for u in 0..self.width * self.height {
            if is_reached[u] {
                for d in 0..4 {
                    // A neighbour that is not reached is rare, so that is looked at first.
                    let out_of = stays_in(self.width, self.height, at, d) && !is_reached[entered(self.width, u, d)];
                    if out_of && self.plan[4 * u + d] == SHUT {
                        out[number] = (4 * u + d) as u16;
                        number += 1;
                    }
                }
            }
            at = onward(self.width, at);
        }
        number
    }

    /// Tells the cells that the hunter can reach, a row in one number, and the shut moves that lead out of them. Gives how
    /// many there are of both, or the number by which it is refused.
    #[inline(never)]
    pub fn reached(&self, hunter: usize, rows: &mut [u64], moves: &mut [u16]) -> Result<(usize, usize), u8> {
        let number = plan_refusal(self.width, self.height, &[hunter], &self.plan);
        if number != 0 {
            return Err(number);
        }
        let mut is_reached = [false; GREATEST_CELLS];
        let mut out = [0; 2 * GREATEST_CELLS];
        let found = self.fill_from(hunter, &mut is_reached);
        let leading = self.moves_out(&is_reached, &mut out);
        if rows.len() < self.height || moves.len() < leading {
            return Err(7);
        }
        for (row, cells) in rows.iter_mut().zip(is_reached[..self.width * self.height].chunks_exact(self.width)) {
            *row = cells.iter().rev().fold(0, |bits, &cell| bits << 1 | cell as u64);
        }
        moves[..leading].copy_from_slice(&out[..leading]);
        Ok((found, leading))
    }

    /// The least cost from one cell to another, by a search from a fresh start.
    fn fresh_cost(&mut self, hunter: usize, target: usize) -> Option<u32> {
        if hunter == target {
            return Some(0);
        }
        (self.hunter, self.target) = (hunter, target);
        self.start_fresh();
        let aim = self.aim();
        while let Some(u) = self.chosen() {
            self.step(aim, u);
        }
        let far = self.rhs[target];
        (far != INFINITE).then_some(far)
    }

    /// The least cost from hunter to target through cell u's move in direction d, or the number by which it is refused.
    /// The session's tables are the room for both searches.
    #[inline(never)]
    pub fn through(&mut self, hunter: usize, target: usize, u: usize, d: usize) -> Result<Option<u32>, u8> {
        let number = plan_refusal(self.width, self.height, &[hunter, target, u], &self.plan);
        if 0 < number && number < 4 {
            return Err(number);
        }
        if number == 4 || d > 3 || !stays_in(self.width, self.height, self.spot_of(u), d) {
            return Err(4);
        }
        let byte = self.plan[4 * u + d];
        if number == 5 || byte == SHUT {
            return Err(5);
        }
        let Some(before) = self.fresh_cost(hunter, u) else {
            return Ok(None);
        };
        let behind = self.fresh_cost(entered(self.width, u, d), target);
        Ok(behind.map(|behind| before + byte as u32 + behind))
    }

    /// Reads every entry of every table once, in order, as 64-bit sums. `EACH` says whether one entry is read at a time, as a
    /// program reads that looks at each; else the compiler may merge reads.
    #[inline(never)]
    pub fn read_all<const EACH: bool>(&self) -> u64 {
        fn sum<const EACH: bool, T: Copy + Into<u64>>(table: &[T]) -> u64 {
            let read = |entry: &T| if EACH { unsafe { std::ptr::read_volatile(entry) } } else { *entry };
            table.iter().map(|entry| read(entry).into()).sum()
        }
        sum::<EACH, _>(&self.plan)
            + sum::<EACH, _>(&self.g)
            + sum::<EACH, _>(&self.rhs)
            + sum::<EACH, _>(&self.parent)
            + sum::<EACH, _>(&self.k1)
            + sum::<EACH, _>(&self.k2)
            + sum::<EACH, _>(&self.place)
            + sum::<EACH, _>(&self.list)
    }
}
