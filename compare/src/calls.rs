//! The calls of a session, whoever plays them: one call, the tables that it is made on, and what is counted of it.

use crate::model::{change, open, place_hunter, place_target, search, Answer, Session, Tables, ABSENT};

/// One call, with numbers as wide as the C interface takes them.
#[derive(Clone, Copy, Debug)]
pub enum Call {
    Open { width: u64, height: u64, hunter: u64, target: u64 },
    Hunter(u64),
    Target(u64),
    Change { cell: u64, direction: u64, cost: u64 },
    Search,
}

/// A record, its tables and a way list: one player's side of a session.
#[derive(Clone, Debug, PartialEq)]
pub struct Side {
    pub session: Session,
    pub tables: Tables,
    pub way: Vec<u16>,
}

impl Side {
    /// Makes a side whose tables but the plan hold what no call would leave there.
    pub fn filled(plan: Vec<u8>, cells: usize) -> Side {
        Side::with(Session::default(), Tables::filled(plan, cells, 7))
    }

    /// Takes a record and tables, with a way list that holds what no call would leave there.
    pub fn with(session: Session, tables: Tables) -> Side {
        let way = vec![ABSENT; tables.g.len()];
        Side { session, tables, way }
    }

    /// N, by the length of the tables.
    pub fn cells(&self) -> u64 {
        self.tables.g.len() as u64
    }

    /// A cell's column and row, which order the cells with equal keys in this order.
    pub fn spot(&self, cell: u16) -> (u64, u64) {
        (cell as u64 % self.session.width, cell as u64 / self.session.width)
    }

    /// Makes the call in the model.
    pub fn by_model(&mut self, call: Call) -> Answer {
        let (answer, session) = match call {
            Call::Open { width, height, hunter, target } => open(width, height, hunter, target, &mut self.tables),
            Call::Hunter(cell) => place_hunter(&self.session, cell),
            Call::Target(cell) => place_target(&self.session, cell),
            Call::Change { cell, direction, cost } => {
                // The model takes bytes. A number that is none stands for one that is refused by the same rule.
                let direction = direction.min(255) as u8;
                let cost = if cost > 255 { 251 } else { cost as u8 };
                change(&self.session, &mut self.tables, cell, direction, cost)
            }
            Call::Search => search(&self.session, &mut self.tables, &mut self.way),
        };
        self.session = session;
        answer
    }
}

/// One who plays a session: the model alone, or the model beside the library.
pub trait Player {
    /// The record, the tables and the way list, as the model has them.
    fn side(&self) -> &Side;

    /// Makes the call, and holds what it leaves to what it has to leave.
    fn play(&mut self, call: Call) -> Answer;

    /// Does the same to every side that is played.
    fn everywhere(&mut self, done: impl Fn(&mut Side));

    /// Gives every side the same list and places. Whether a spoiled key or place is refused hangs on their order.
    fn level(&mut self);
}

/// What was played.
#[derive(Debug, Default)]
pub struct Counts {
    pub calls: u64,
    /// The answers by kind: accepted, ways, none, caught, refused.
    pub kinds: [u64; 5],
    pub refused: [u64; 10],
    pub renewals: u64,
    /// The fresh starts that were no renewal.
    pub fresh: u64,
    /// The highest search number.
    pub highest: u32,
    /// The greatest number of steps of one search.
    pub most_steps: u64,
}

impl Counts {
    /// Counts a call by its answer, with the search numbers before and after it.
    pub fn note(&mut self, answer: &Answer, before: u32, after: u32) {
        let [kind, number, _, steps, _] = answer.numbers();
        self.calls += 1;
        self.kinds[kind as usize] += 1;
        if let Answer::Refused(_) = answer {
            self.refused[number as usize] += 1;
        }
        if let Answer::Way { .. } | Answer::None { .. } = answer {
            self.highest = self.highest.max(after);
            self.most_steps = self.most_steps.max(steps);
            if before == 1_000 {
                self.renewals += 1;
            } else if before > 0 && after == 1 {
                self.fresh += 1;
            }
        }
    }
}
