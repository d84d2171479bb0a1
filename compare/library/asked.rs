//! The check of soundness asked through the calls, where the answer is known from how the tables were made, or else from the model.

use crate::pair::Pair;
use compare::calls::{Call, Counts, Player, Side};
use compare::model::{tables_refusal, Answer};
use compare::rules::{broken, Rule};
use std::collections::BTreeMap;

/// How often each rule was the only one broken, where tables were made for that.
pub type Alone = BTreeMap<Rule, u64>;

/// What was done to sound tables.
#[derive(Clone, Copy, Debug)]
enum Made {
    /// Nothing that a rule forbids.
    Sound,
    /// This rule was broken, and maybe others with it.
    Broken(Rule),
    /// This rule was broken and no other.
    BrokenAlone(Rule),
    /// The size (1) or a length (2) is at fault.
    Misshapen(u8),
    /// Something of which the model's check says the number, 0 if nothing is broken.
    Judged(u8),
}

impl Made {
    /// The number by which document 01 refuses a change and a search of these tables; 0 if their tables are no ground to.
    fn number(self) -> u8 {
        match self {
            Made::Sound => 0,
            Made::Broken(_) | Made::BrokenAlone(_) => 6,
            Made::Misshapen(number) | Made::Judged(number) => number,
        }
    }

    /// Are these rules, which the model finds broken, as the tables were made?
    fn agrees(self, faults: &[Rule]) -> bool {
        match self {
            Made::Sound | Made::Judged(0) => faults.is_empty(),
            Made::Judged(6) => !faults.is_empty() && faults != [Rule::Shape],
            Made::Broken(rule) => faults.contains(&rule),
            Made::BrokenAlone(rule) => faults == [rule],
            Made::Misshapen(_) | Made::Judged(_) => faults == [Rule::Shape],
        }
    }
}

/// Sound tables, without a way list, which are asked about with this or that done to them.
pub struct Asked<'a> {
    pub base: Side,
    counts: &'a mut Counts,
    alone: &'a mut Alone,
}

impl<'a> Asked<'a> {
    /// Takes sound tables as the base.
    pub fn new(mut base: Side, counts: &'a mut Counts, alone: &'a mut Alone) -> Asked<'a> {
        base.way.clear();
        Asked { base, counts, alone }
    }

    /// Asks about tables that what was done leaves sound.
    pub fn sound(&mut self, done: impl Fn(&mut Side)) {
        self.ask(Made::Sound, done);
    }

    /// Asks about tables in which this rule was broken, and maybe others with it.
    pub fn breaks(&mut self, rule: Rule, done: impl Fn(&mut Side)) {
        self.ask(Made::Broken(rule), done);
    }

    /// Asks about tables in which this rule was broken and no other.
    pub fn breaks_alone(&mut self, rule: Rule, done: impl Fn(&mut Side)) {
        *self.alone.entry(rule).or_insert(0) += 1;
        self.ask(Made::BrokenAlone(rule), done);
    }

    /// Asks about a record or tables whose size (1) or lengths (2) are at fault.
    pub fn misshapes(&mut self, number: u8, done: impl Fn(&mut Side)) {
        self.ask(Made::Misshapen(number), done);
    }

    /// Asks about tables of which only the model's check tells whether they are sound.
    pub fn judged(&mut self, done: impl Fn(&mut Side)) {
        let mut side = self.base.clone();
        done(&mut side);
        self.ask(Made::Judged(tables_refusal(&side.session, &side.tables)), done);
    }

    /// Does something to the base and asks by a search without room for a way, which is refused by 7 if the tables are
    /// sound, and by a change of a move of cell N, which then is refused by 3.
    fn ask(&mut self, made: Made, done: impl Fn(&mut Side)) {
        let mut side = self.base.clone();
        done(&mut side);
        let faults = broken(&side.session, &side.tables);
        if !made.agrees(&faults) {
            fail(&format!("the model finds {faults:?} broken"), made, &side);
        }
        let change = Call::Change { cell: self.base.cells(), direction: 0, cost: 1 };
        for (call, if_sound) in [(Call::Search, 7), (change, 3)] {
            let mut pair = Pair::new(side.clone(), self.counts, "broken");
            let answer = pair.play(call);
            let number = if made.number() == 0 { if_sound } else { made.number() };
            if answer != Answer::Refused(number) {
                fail(&format!("{call:?} was answered by {answer:?}, expected was refusal {number}"), made, &side);
            }
            if pair.model != side || pair.library != side {
                fail(&format!("{call:?} was refused and changed something"), made, &side);
            }
        }
    }
}

/// Says what went against expectation, with the tables, and fails.
fn fail(what: &str, made: Made, side: &Side) -> ! {
    println!("made {made:?}, but {what}: {side:?}");
    std::process::exit(1);
}
