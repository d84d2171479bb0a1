//! Reasons asked for: all plans of 2 by 2 cells with few costs, drawn plans of every size, and questions with known faults.

use crate::explained;
use crate::faults::{draw_of, draw_outside, places, spoil_byte};
use compare::chance::Chance;
use compare::explain::{Floor, Reached};
use compare::model::{neighbour, SHUT};
use compare::rounds::{draw_floor, draw_great};

/// The three calls.
#[derive(Clone, Copy, Debug)]
enum Call {
    Reached,
    Along,
    Through,
}

const CALLS: [Call; 3] = [Call::Reached, Call::Along, Call::Through];

impl Call {
    /// The numbers by which the call refuses, in the order of checking.
    fn order(self) -> &'static [u8] {
        match self {
            Call::Reached | Call::Along => &[1, 2, 3, 4, 5, 7],
            Call::Through => &[1, 2, 3, 4, 5],
        }
    }
}

/// All that the calls are given; each of them takes a part of it.
#[derive(Clone, Debug)]
struct Question {
    width: u64,
    height: u64,
    plan: Vec<u8>,
    hunter: u64,
    target: u64,
    cell: u64,
    direction: u64,
    list: Vec<u16>,
    /// How many rows, moves and costs there is room for.
    rows: usize,
    moves: usize,
    costs: usize,
}

impl Question {
    fn floor(&self) -> Floor<'_> {
        Floor { width: self.width, height: self.height, plan: &self.plan }
    }

    fn cells(&self) -> u64 {
        self.width * self.height
    }

    fn entered(&self, at: usize) -> Option<usize> {
        neighbour(self.width, self.height, at / 4, at % 4)
    }

    /// The places of the plan's bytes whose moves leave it, or of those whose moves stay.
    fn places(&self, leaving: bool) -> Vec<usize> {
        places(self.width, self.height, leaving)
    }

    /// The places of the open moves.
    fn open_places(&self) -> Vec<usize> {
        (0..self.plan.len()).filter(|&at| self.plan[at] != SHUT).collect()
    }

    /// Names the move that a byte of the plan is of.
    fn name_move(&mut self, at: usize) {
        (self.cell, self.direction) = (at as u64 / 4, at as u64 % 4);
    }
}

/// What was asked, and what became of it.
#[derive(Default)]
pub struct Explaining {
    pub calls: u64,
    /// Told: cells reached, costs along a list, a cost through a move, and that no walk goes through it.
    pub told: [u64; 4],
    /// By number, for each of the three calls.
    pub refused: [[u64; 8]; 3],
}

impl Explaining {
    fn note(&mut self, call: Call, told: usize, answer: Result<(), u8>) {
        self.calls += 1;
        match answer {
            Ok(()) => self.told[told] += 1,
            Err(number) => self.refused[call as usize][number as usize] += 1,
        }
    }

    fn reached(&mut self, asked: &Question) -> Result<Reached, u8> {
        let answer = explained::reached(asked.floor(), asked.hunter, asked.rows, asked.moves);
        let answer = answer.unwrap_or_else(|fault| fail(Call::Reached, &fault, asked));
        self.note(Call::Reached, 0, answer.as_ref().map(|_| ()).map_err(|&number| number));
        answer
    }

    fn along(&mut self, asked: &Question) -> Result<Vec<u32>, u8> {
        let answer = explained::along(asked.floor(), &asked.list, asked.costs);
        let answer = answer.unwrap_or_else(|fault| fail(Call::Along, &fault, asked));
        self.note(Call::Along, 1, answer.as_ref().map(|_| ()).map_err(|&number| number));
        answer
    }

    fn through(&mut self, asked: &Question) -> Result<Option<u64>, u8> {
        let Question { hunter, target, cell, direction, .. } = *asked;
        let answer = explained::through(asked.floor(), hunter, target, cell, direction);
        let answer = answer.unwrap_or_else(|fault| fail(Call::Through, &fault, asked));
        self.note(Call::Through, if answer == Ok(None) { 3 } else { 2 }, answer.map(|_| ()));
        answer
    }

    /// Makes the call, and holds it to the number that is due, 0 where it has to be answered.
    fn hold(&mut self, call: Call, asked: &Question, due: u8) {
        let came = match call {
            Call::Reached => self.reached(asked).err(),
            Call::Along => self.along(asked).err(),
            Call::Through => self.through(asked).err(),
        };
        if came.unwrap_or(0) != due {
            fail(call, &format!("model and library answer {came:?}; due is {due}"), asked);
        }
    }

    /// Asks what is reached in rooms that are just long enough, too short by one, and longer.
    fn reached_in_rooms(&mut self, asked: &mut Question) {
        let Ok(found) = asked.floor().reached(asked.hunter, ROOM_ENOUGH, ROOM_ENOUGH) else {
            fail(Call::Reached, "a sound question was refused", asked);
        };
        let (height, out) = (found.rows.len(), found.moves.len());
        let rooms = [(height, out, 0), (height + 3, out + 5, 0), (height - 1, out + 1, 7)];
        let short = (out > 0).then(|| (height + 1, out - 1, 7));
        for (rows, moves, due) in rooms.into_iter().chain(short) {
            (asked.rows, asked.moves) = (rows, moves);
            self.hold(Call::Reached, asked, due);
        }
    }

    /// Asks for the costs along a list that is answered, in rooms just long enough, too short by one, and longer.
    fn along_in_rooms(&mut self, asked: &mut Question) {
        let length = asked.list.len();
        for (costs, due) in [(length, 0), (length + 4, 0), (length - 1, 7)] {
            asked.costs = costs;
            self.hold(Call::Along, asked, due);
        }
    }
}

/// Says what went against expectation, with what was asked, and fails.
fn fail(call: Call, fault: &str, asked: &Question) -> ! {
    println!("reasons, {call:?}: {fault}");
    println!("{asked:?}");
    std::process::exit(1);
}

/// More than any of these questions needs.
const ROOM_ENOUGH: usize = 20_000;

/// A question of a plan that names nothing but cell 0, with room enough for the answer.
fn question(width: u64, height: u64, plan: Vec<u8>) -> Question {
    Question {
        width,
        height,
        plan,
        hunter: 0,
        target: 0,
        cell: 0,
        direction: 0,
        list: vec![0],
        rows: ROOM_ENOUGH,
        moves: ROOM_ENOUGH,
        costs: ROOM_ENOUGH,
    }
}

/// All lists of 0 to 5 of the four cells; those of none and of five are refused.
fn every_list() -> Vec<Vec<u16>> {
    let mut lists = vec![vec![]];
    let mut longest = 0;
    for _ in 0..5 {
        let longer: Vec<Vec<u16>> =
            lists[longest..].iter().flat_map(|list| (0..4).map(|cell| [&list[..], &[cell]].concat())).collect();
        longest = lists.len();
        lists.extend(longer);
    }
    lists.retain(|list| list.len() < 5 || list[1..] == [1, 0, 1, 0]);
    lists
}

/// All plans of 2 by 2 cells whose inner bytes are 1, 2 or 255: all that can be asked of them.
fn ask_every_small_plan(percent: u64, explaining: &mut Explaining) {
    let lists = every_list();
    let inner = question(2, 2, vec![SHUT; 16]).places(false);
    for number in (0..3u64.pow(inner.len() as u32)).filter(|number| number % 100 < percent) {
        let mut asked = question(2, 2, vec![SHUT; 16]);
        for (digit, &at) in inner.iter().enumerate() {
            asked.plan[at] = [1, 2, SHUT][(number / 3u64.pow(digit as u32) % 3) as usize];
        }
        for hunter in 0..4 {
            asked.hunter = hunter;
            explaining.reached_in_rooms(&mut asked);
            for target in 0..4 {
                asked.target = target;
                for at in 0..16 {
                    asked.name_move(at);
                    let _ = explaining.through(&asked);
                }
            }
        }
        for list in &lists {
            asked.list.clone_from(list);
            asked.costs = list.len() - (number % 10 == 0 && !list.is_empty()) as usize;
            let _ = explaining.along(&asked);
        }
    }
}

/// Draws a walk over open moves of at most so many cells. It ends early where no move leads on.
fn draw_walk(chance: &mut Chance, asked: &Question, most: usize) -> Vec<u16> {
    let mut list = vec![chance.draw(asked.cells()) as u16];
    while list.len() < most {
        let last = list[list.len() - 1] as usize;
        let open: Vec<usize> = (4 * last..4 * last + 4).filter(|&at| asked.plan[at] != SHUT).collect();
        if open.is_empty() {
            break;
        }
        list.push(asked.entered(draw_of(chance, &open)).expect("an open move stays in the plan") as u16);
    }
    list
}

/// Draws hunter, target, an open move if there is one, and a list to walk.
fn draw_question(chance: &mut Chance, width: u64, height: u64, plan: Vec<u8>) -> Question {
    let mut asked = question(width, height, plan);
    let cells = asked.cells();
    (asked.hunter, asked.target) = (chance.draw(cells), chance.draw(cells));
    let open = asked.open_places();
    if !open.is_empty() {
        asked.name_move(draw_of(chance, &open));
    }
    let most = draw_of(chance, &[1, 2, 10, cells]).min(cells);
    asked.list = draw_walk(chance, &asked, most as usize);
    asked
}

/// Asks all three about a drawn plan of this size, so many times.
fn ask_drawn(chance: &mut Chance, width: u64, height: u64, times: u64, explaining: &mut Explaining) {
    let range = draw_of(chance, &[1, 3, 250]);
    let plan = draw_floor(chance, width, height, range);
    for _ in 0..times {
        let mut asked = draw_question(chance, width, height, plan.clone());
        explaining.reached_in_rooms(&mut asked);
        explaining.along_in_rooms(&mut asked);
        let _ = explaining.through(&asked);
        // Any move and any list of cells, shut moves and cells that are no neighbours among them.
        asked.name_move(chance.draw(4 * width * height) as usize);
        let _ = explaining.through(&asked);
        let place = chance.draw(asked.list.len() as u64) as usize;
        asked.list[place] = chance.draw(width * height) as u16;
        asked.costs = asked.list.len();
        let _ = explaining.along(&asked);
    }
}

/// Drawn plans of every width and every height from 1 to 64, thin ones among them, and of small sizes.
fn ask_sizes(seed: u64, percent: u64, explaining: &mut Explaining) {
    for side in 1..=64 {
        let mut chance = Chance::start(seed, 900_000 + side);
        let drawn = 1 + chance.draw(64);
        for (width, height) in [(side, 1), (1, side), (side, drawn), (drawn, side), (side, side)] {
            ask_drawn(&mut chance, width, height, percent.div_ceil(50), explaining);
        }
    }
    for index in 0..100 * percent {
        let mut chance = Chance::start(seed, 910_000 + index);
        let (width, height) = (1 + chance.draw(7), 1 + chance.draw(7));
        ask_drawn(&mut chance, width, height, 3, explaining);
    }
}

/// Every cell of the largest plan, each beside the one before: east in one row, west in the next.
fn to_and_fro() -> Vec<u16> {
    (0..64u16).flat_map(|row| (0..64).map(move |at| 64 * row + if row % 2 == 0 { at } else { 63 - at })).collect()
}

/// The largest plan with all moves open, and with all of them shut.
fn ask_largest(explaining: &mut Explaining) {
    for byte in [1, 250, SHUT] {
        let mut asked = question(64, 64, vec![SHUT; 4 * 4_096]);
        for at in asked.places(false) {
            asked.plan[at] = byte;
        }
        let answered = if byte == SHUT { 5 } else { 0 };
        for hunter in [0, 65, 4_095] {
            (asked.hunter, asked.target) = (hunter, 4_095 - hunter);
            asked.name_move(4 * 2_080);
            explaining.reached_in_rooms(&mut asked);
            explaining.hold(Call::Through, &asked, answered);
        }
        asked.list = to_and_fro();
        explaining.hold(Call::Along, &asked, answered);
    }
}

/// A comb of the largest plan, column 0 and every second row: thousands of shut moves lead out of it.
fn ask_comb(explaining: &mut Explaining) {
    let mut asked = question(64, 64, vec![SHUT; 4 * 4_096]);
    let of_comb = |cell: usize| cell % 64 == 0 || cell / 64 % 2 == 0;
    for at in asked.places(false) {
        if of_comb(at / 4) && asked.entered(at).is_some_and(of_comb) {
            asked.plan[at] = 1;
        }
    }
    explaining.reached_in_rooms(&mut asked);
}

/// The longest walks there are, 4,095 moves one way and as many back, each at the greatest cost.
fn ask_longest(explaining: &mut Explaining) {
    let mut asked = question(64, 64, vec![SHUT; 4 * 4_096]);
    asked.list = to_and_fro();
    for at in asked.places(false) {
        let entered = asked.entered(at).map(|cell| cell as u16);
        let place = asked.list.iter().position(|&cell| cell as usize == at / 4).expect("every cell is listed");
        if asked.list.get(place + 1) == entered.as_ref() || place > 0 && asked.list.get(place - 1) == entered.as_ref() {
            asked.plan[at] = 250;
        }
    }
    explaining.reached_in_rooms(&mut asked);
    explaining.along_in_rooms(&mut asked);
    // From cell 0 to the end of the list, whose last move leads west, and back.
    asked.name_move(4 * 4_033 + 3);
    if explaining.through(&asked) != Ok(Some(2 * 4_095 * 250)) {
        fail(Call::Through, "model and library do not walk there and back", &asked);
    }
}

/// Puts a pair into the list that are no neighbours: a cell beside itself, the last of a row and the first of the next, or
/// any two. Says whether there is room for a pair.
fn spoil_pair(chance: &mut Chance, asked: &mut Question) -> bool {
    let (width, height, cells) = (asked.width, asked.height, asked.cells());
    if cells < 2 {
        return false;
    }
    let cell = chance.draw(cells);
    let pair = match chance.draw(4) {
        0 => (cell, cell),
        1 if width > 1 && height > 1 => {
            let end = width * (1 + cell % (height - 1));
            draw_of(chance, &[(end - 1, end), (end, end - 1)])
        }
        _ => {
            let near = |other: u64| (0..4).any(|d| neighbour(width, height, cell as usize, d) == Some(other as usize));
            let other = chance.draw(cells);
            (cell, if near(other) { cell } else { other })
        }
    };
    asked.list.resize(asked.list.len().max(2), 0);
    let place = chance.draw(asked.list.len() as u64 - 1) as usize;
    (asked.list[place], asked.list[place + 1]) = (pair.0 as u16, pair.1 as u16);
    true
}

/// Gives a list another length: none, or more than N.
fn spoil_list(chance: &mut Chance, asked: &mut Question) {
    let length = draw_of(chance, &[0, asked.cells() + 1, asked.cells() + 2]) as usize;
    let first = asked.list[0];
    asked.list.resize(length, first);
}

/// Shuts a move on the list's way. Says whether there is one.
fn shut_on_the_way(chance: &mut Chance, asked: &mut Question) -> bool {
    if asked.list.len() < 2 {
        return false;
    }
    let place = chance.draw(asked.list.len() as u64 - 1) as usize;
    let (from, to) = (asked.list[place] as usize, asked.list[place + 1] as usize);
    let at = (4 * from..4 * from + 4).find(|&at| asked.entered(at) == Some(to));
    asked.plan[at.expect("a walk goes from neighbour to neighbour")] = SHUT;
    true
}

/// Makes the named move one that leaves the plan, or none at all.
fn spoil_move(chance: &mut Chance, asked: &mut Question) {
    let great = draw_great(chance);
    if chance.draw(2) == 0 {
        asked.direction = draw_of(chance, &[4, 5, great]);
    } else {
        asked.name_move(draw_of(chance, &asked.places(true)));
    }
}

/// Draws less than so much.
fn draw_less(chance: &mut Chance, room: usize) -> usize {
    let any = chance.draw(room as u64) as usize;
    draw_of(chance, &[room - 1, any, 0])
}

/// Leaves too little room.
fn spoil_room(chance: &mut Chance, asked: &mut Question, call: Call) {
    if let Call::Along = call {
        asked.costs = draw_less(chance, asked.list.len());
        return;
    }
    let found = asked.floor().reached(asked.hunter, ROOM_ENOUGH, ROOM_ENOUGH).expect("a sound question");
    if !found.moves.is_empty() && chance.draw(2) == 0 {
        asked.moves = draw_less(chance, found.moves.len());
    } else {
        asked.rows = draw_less(chance, found.rows.len());
    }
}

/// Gives a question the fault of a number. Says whether it could: a plan of one cell has no move that stays.
fn spoil(chance: &mut Chance, asked: &mut Question, call: Call, number: u8) -> bool {
    let (cells, length) = (asked.cells(), asked.plan.len());
    let (of_plan, great) = (chance.draw(2) == 0, draw_great(chance));
    match (number, call) {
        (7, _) => spoil_room(chance, asked, call),
        (5, Call::Along) if !of_plan => return shut_on_the_way(chance, asked),
        (5, Call::Through) if !of_plan => asked.plan[(4 * asked.cell + asked.direction) as usize] = SHUT,
        (4, Call::Along) if !of_plan => return spoil_pair(chance, asked),
        (4, Call::Through) if !of_plan => spoil_move(chance, asked),
        (4 | 5, _) => return spoil_byte(chance, asked.width, asked.height, &mut asked.plan, number == 4),
        (3, Call::Along) => {
            let place = chance.draw(asked.list.len() as u64) as usize;
            asked.list[place] = draw_outside(chance, cells).min(u16::MAX as u64) as u16;
        }
        (3, Call::Reached) => asked.hunter = draw_outside(chance, cells),
        (3, Call::Through) => match chance.draw(3) {
            0 => asked.hunter = draw_outside(chance, cells),
            1 => asked.target = draw_outside(chance, cells),
            _ => asked.cell = draw_outside(chance, cells),
        },
        (2, Call::Along) if !of_plan => spoil_list(chance, asked),
        (2, _) => asked.plan.resize(draw_of(chance, &[0, length - 1, length + 1, length - 4, length + 4]), SHUT),
        _ if of_plan => asked.width = draw_of(chance, &[0, 65, great]),
        _ => asked.height = draw_of(chance, &[0, 65, great]),
    }
    true
}

/// Each number's fault alone, and with each choice of the faults that are checked later: the first in the order of checking
/// is the answer. A fault is put in before those that are checked earlier, since these change what it is told from.
fn ask_faulty(seed: u64, percent: u64, explaining: &mut Explaining) {
    for index in 0..5 * percent {
        let mut chance = Chance::start(seed, 950_000 + index);
        let most = if index % 50 == 0 { 64 } else { 7 };
        let (width, height) = (1 + chance.draw(most), 1 + chance.draw(most));
        let plan = draw_floor(&mut chance, width, height, 9);
        let sound = draw_question(&mut chance, width, height, plan);
        for call in CALLS {
            let order = call.order();
            // There may be no open move to name.
            let at = (4 * sound.cell + sound.direction) as usize;
            if matches!(call, Call::Through) && sound.plan[at] == SHUT {
                continue;
            }
            for choice in 0..1u32 << order.len() {
                let (mut asked, mut due) = (sound.clone(), 0);
                for (place, &number) in order.iter().enumerate().rev() {
                    if choice >> place & 1 == 1 && spoil(&mut chance, &mut asked, call, number) {
                        due = number;
                    }
                }
                explaining.hold(call, &asked, due);
            }
        }
    }
}

/// Asks all of this. Fails if a number of a call was never given.
pub fn explain_plans(seed: u64, percent: u64) -> Explaining {
    let mut explaining = Explaining::default();
    ask_every_small_plan(percent, &mut explaining);
    ask_largest(&mut explaining);
    ask_comb(&mut explaining);
    ask_longest(&mut explaining);
    ask_sizes(seed, percent, &mut explaining);
    ask_faulty(seed, percent, &mut explaining);
    for call in CALLS {
        if let Some(number) = call.order().iter().find(|&&number| explaining.refused[call as usize][number as usize] == 0) {
            println!("no {call:?} was refused by {number}");
            std::process::exit(1);
        }
    }
    explaining
}
