//! A call made in the model and through the C interface, and all that it leaves compared.

use crate::rongdhesi::{self, lent, Session as Crossing};
use compare::calls::{Call, Counts, Player, Side};
use compare::model::{is_sound, Answer, Session, Tables, ABSENT};

/// Makes the ways of a record over to the C interface and back: each field goes to the one of its name.
macro_rules! crossings {
    ($($field:ident: $type:ty,)*) => {
        /// A record of the model as the C interface has it.
        fn crossed(s: Session) -> Crossing {
            Crossing { $($field: s.$field),* }
        }

        /// A record of the C interface as the model has it.
        fn brought_back(s: Crossing) -> Session {
            Session { $($field: s.$field),* }
        }
    };
}

compare::fields!(crossings);

/// Makes the call through the C interface. Gives the five numbers of the answer.
fn by_library(side: &mut Side, call: Call) -> [u64; 5] {
    let session = crossed(side.session);
    let t = &mut side.tables;
    let reply = match call {
        Call::Open { width, height, hunter, target } => {
            rongdhesi::open(width, height, hunter, target, &t.plan, lent!(t))
        }
        Call::Hunter(cell) => rongdhesi::place_hunter(session, cell),
        Call::Target(cell) => rongdhesi::place_target(session, cell),
        Call::Change { cell, direction, cost } => {
            rongdhesi::change_move(session, &mut t.plan, lent!(t), cell, direction, cost)
        }
        Call::Search => rongdhesi::search(session, &t.plan, lent!(t), &mut side.way),
    };
    side.session = brought_back(reply.session);
    [reply.kind, reply.refusal, reply.cost, reply.steps, reply.cells]
}

/// The two sides of a session, and how it was come by.
pub struct Pair<'a> {
    pub model: Side,
    pub library: Side,
    counts: &'a mut Counts,
    part: &'static str,
}

impl<'a> Pair<'a> {
    /// Gives both sides the same to begin with.
    pub fn new(side: Side, counts: &'a mut Counts, part: &'static str) -> Pair<'a> {
        Pair { model: side.clone(), library: side, counts, part }
    }

    /// Names the first thing in which the sides differ, if there is one.
    fn difference(&self, call: Call, answer: &Answer, numbers: [u64; 5], before: &Side) -> Option<&'static str> {
        let (model, library) = (&self.model, &self.library);
        if answer.numbers() != numbers {
            return Some("another answer");
        }
        if model.session != library.session {
            return Some("another record");
        }
        if model.way != library.way {
            return Some("another way list");
        }
        let refused = matches!(answer, Answer::Refused(_));
        if refused && (before.tables != library.tables || before.way != library.way) {
            return Some("a refusal that changed something");
        }
        let (a, b) = (&model.tables, &library.tables);
        if a.plan != b.plan || a.g != b.g || a.rhs != b.rhs || a.parent != b.parent || a.k1 != b.k1 || a.k2 != b.k2 {
            return Some("another plan, g, rhs, parent or key");
        }
        if refused {
            return None;
        }
        match call {
            // Placing reads no table, so that nothing is known of the queue after it but that it is as before.
            Call::Hunter(_) | Call::Target(_) => (before.tables != *b).then_some("a placing that changed a table"),
            _ if !is_sound(&library.session, b) => Some("tables that are not sound"),
            _ if queued(a) != queued(b) => Some("another queue"),
            _ => None,
        }
    }
}

impl Player for Pair<'_> {
    fn side(&self) -> &Side {
        &self.model
    }

    /// Makes the call on both sides and compares all that it leaves.
    fn play(&mut self, call: Call) -> Answer {
        let before = self.library.clone();
        let answer = self.model.by_model(call);
        let numbers = by_library(&mut self.library, call);
        self.counts.note(&answer, before.session.searches, self.model.session.searches);
        if let Some(fault) = self.difference(call, &answer, numbers, &before) {
            println!("{}: {} after {:?}", self.part, fault, call);
            println!("model: {:?}, library: {:?}", answer, numbers);
            println!("before, in the library: {:?}", before);
            println!("after, in the library: {:?}", self.library);
            println!("after, in the model: {:?}", self.model);
            std::process::exit(1);
        }
        answer
    }

    fn everywhere(&mut self, done: impl Fn(&mut Side)) {
        done(&mut self.model);
        done(&mut self.library);
    }

    /// Both get the library's.
    fn level(&mut self) {
        self.model.tables.place = self.library.tables.place.clone();
        self.model.tables.list = self.library.tables.list.clone();
    }
}

/// Which cells have a place.
fn queued(tables: &Tables) -> Vec<bool> {
    tables.place.iter().map(|&place| place != ABSENT).collect()
}
