//! Drills written: the edges with the answers that are due there, and drawn drills, sound or with known faults.

use crate::faults::{draw_of, draw_outside, spoil_byte};
use crate::written;
use compare::chance::Chance;
use compare::drawn::{draw_drill, most_actions};
use compare::drill::{self, Drill, ACTION, GREATEST_FILE};
use compare::model::{neighbour, SHUT};
use compare::rounds::draw_great;

/// The numbers by which the writer refuses, in the order of checking.
const ORDER: [u8; 7] = [1, 2, 3, 4, 5, 8, 7];

/// Document 01's drill, whole.
const WHOLE_DRILL: &[u8; 79] = include_bytes!("../../examples/whole-drill/drill");

const SEARCH: [u8; ACTION] = [4, 0, 0, 0, 0];

/// More than any of these drills would take, the refused ones too.
const ROOM_ENOUGH: usize = 70_000;

/// How many drills were handed to the writer, and what became of them.
#[derive(Default)]
pub struct Writing {
    pub calls: u64,
    pub written: u64,
    pub refused: [u64; 10],
}

impl Writing {
    /// Has a drill written into a room, by the model and by the library, and holds both to the answer that is due: the
    /// length of the file, or the refusal number. Gives the file, which the reader has to take back as the same drill.
    fn hold(&mut self, name: &str, drill: &Drill, room: usize, due: Result<usize, u8>) -> Vec<u8> {
        let answer = written::write(drill, room)
            .unwrap_or_else(|fault| fail(name, &format!("{}; due is {:?}", fault, due), drill));
        let length = answer.as_ref().map(Vec::len).map_err(|&number| number);
        if length != due {
            fail(name, &format!("model and library answer {:?}; due is {:?}", length, due), drill);
        }
        self.calls += 1;
        let Ok(file) = answer else {
            self.refused[due.unwrap_err() as usize] += 1;
            return Vec::new();
        };
        if drill::read(&file).as_ref() != Ok(drill) {
            fail(name, "the reader does not take the same drill back", drill);
        }
        self.written += 1;
        file
    }

    /// Has a drill written into room enough.
    fn writes(&mut self, name: &str, drill: &Drill, length: usize) {
        self.hold(name, drill, ROOM_ENOUGH, Ok(length));
    }

    /// Has a drill refused in room enough.
    fn refuses(&mut self, name: &str, drill: &Drill, number: u8) {
        self.hold(name, drill, ROOM_ENOUGH, Err(number));
    }
}

/// Says what went against expectation, with the drill, and fails.
fn fail(name: &str, fault: &str, drill: &Drill) -> ! {
    println!("written drills, {}: {}", name, fault);
    println!("{:?}", drill);
    std::process::exit(1);
}

/// The whole drill's parts, by the bars that document 01 splits it with.
fn whole_drill() -> Drill {
    let (plan, actions) = (WHOLE_DRILL[..12].to_vec(), WHOLE_DRILL[12..67].to_vec());
    Drill { width: 3, height: 1, hunter: 0, target: 2, plan, actions }
}

/// A drill of this size whose inner moves cost 1, with these actions.
fn drill_with(width: u64, height: u64, actions: Vec<u8>) -> Drill {
    let plan = (0..4 * (width * height) as usize)
        .map(|at| if neighbour(width, height, at / 4, at % 4).is_some() { 1 } else { SHUT })
        .collect();
    Drill { width, height, hunter: 0, target: 0, plan, actions }
}

/// The whole drill with one byte of its plan another.
fn with_byte(at: usize, byte: u8) -> Drill {
    let mut drill = whole_drill();
    drill.plan[at] = byte;
    drill
}

/// The whole drill, in rooms of its length and beside that.
fn write_whole_drill(writing: &mut Writing) {
    let drill = whole_drill();
    for room in [79, 80, 100] {
        if writing.hold("the whole drill", &drill, room, Ok(79)) != WHOLE_DRILL {
            fail("the whole drill", "these are not document 01's bytes", &drill);
        }
    }
    for room in [0, 1, 12, 78] {
        writing.hold("the whole drill in too short a room", &drill, room, Err(7));
    }
}

/// Sizes that are none, also with a wrong plan length.
fn write_wrong_sizes(writing: &mut Writing) {
    for (width, height) in [(0, 1), (3, 65), (u64::MAX, 1), (3, 0), (65, 1), (3, u64::MAX), (u64::MAX, u64::MAX)] {
        let drill = Drill { width, height, ..whole_drill() };
        writing.refuses("a size that is none", &drill, 1);
        writing.refuses("a size that is none and a short plan", &Drill { plan: vec![SHUT; 11], ..drill }, 1);
    }
}

/// Plans of 4N − 1 and 4N + 1 bytes and of none, also with hunter N.
fn write_wrong_lengths(writing: &mut Writing) {
    for length in [11, 13, 0] {
        let mut plan = whole_drill().plan;
        plan.resize(length, SHUT);
        let drill = Drill { plan, ..whole_drill() };
        writing.refuses("a plan of another length", &drill, 2);
        writing.refuses("a plan of another length and hunter N", &Drill { hunter: 3, ..drill }, 2);
    }
}

/// Hunter and target N − 1 and N, and hunter 65,536, whose two low bytes are those of cell 0.
fn write_cells(writing: &mut Writing) {
    for cell in [0, 2] {
        writing.writes("a hunter in the plan", &Drill { hunter: cell, ..whole_drill() }, 79);
        writing.writes("a target in the plan", &Drill { target: cell, ..whole_drill() }, 79);
    }
    for cell in [3, 65_536, u64::MAX] {
        writing.refuses("a hunter outside", &Drill { hunter: cell, ..whole_drill() }, 3);
        writing.refuses("a target outside", &Drill { target: cell, ..whole_drill() }, 3);
    }
}

/// The plan's bytes 0 and 8 are of moves that leave it north; byte 1 is of a move that stays, and comes before byte 8.
fn write_bytes(writing: &mut Writing) {
    let mut both = with_byte(8, 1);
    both.plan[1] = 0;
    writing.refuses("an open move that leaves the plan, behind a byte 0", &both, 4);
    writing.refuses("a byte 0", &with_byte(1, 0), 5);
    for byte in [1, 250, SHUT] {
        writing.writes("a byte that is a cost or shut", &with_byte(1, byte), 79);
    }
    for byte in [251, 252, 253, 254] {
        writing.refuses("a byte that is no cost", &with_byte(1, byte), 5);
    }
    for byte in [0, 1, 250, 251, 254] {
        writing.refuses("a move that leaves the plan", &with_byte(0, byte), 4);
    }
}

/// Actions well and badly formed, and bytes that are left over.
fn write_forms(writing: &mut Writing) {
    writing.writes("1 by 1 without actions", &drill_with(1, 1, vec![]), 16);
    let mut refused = |actions: Vec<u8>| writing.refuses("no action", &drill_with(1, 1, actions), 8);
    refused(vec![4, 0, 0, 0]);
    refused(vec![4, 0, 0, 0, 0, 4]);
    let kinds = [0, 5, 255].map(|kind| [kind, 0, 0, 0, 0]);
    let places = [[2, 0, 0, 1, 0], [2, 0, 0, 0, 1], [3, 0, 0, 1, 0], [3, 0, 0, 0, 1]];
    let searches = [[4, 1, 0, 0, 0], [4, 0, 1, 0, 0], [4, 0, 0, 1, 0], [4, 0, 0, 0, 1]];
    for bad in kinds.into_iter().chain(places).chain(searches) {
        refused(bad.to_vec());
        refused([SEARCH, bad].concat());
        refused([bad, SEARCH].concat());
    }
    for well in [SEARCH, [1, 255, 255, 255, 0], [2, 255, 255, 0, 0], [3, 0, 1, 0, 0]] {
        writing.writes("an action", &drill_with(1, 1, well.to_vec()), 21);
    }
}

/// As many actions as a file has room for, and one more.
fn write_largest(writing: &mut Writing) {
    for (width, height, most, length) in [(64, 64, 9_828, 65_536), (2, 1, 13_103, 65_535), (1, 1, 13_104, 65_536)] {
        let fullest = drill_with(width, height, SEARCH.repeat(most));
        writing.hold("as many searches as fit", &fullest, GREATEST_FILE, Ok(length));
        writing.refuses("a search too many", &drill_with(width, height, SEARCH.repeat(most + 1)), 8);
    }
}

/// A bad action comes before the room, and a byte of the plan before a bad action.
fn write_in_order(writing: &mut Writing) {
    let bad = Drill { actions: vec![0; ACTION], ..whole_drill() };
    writing.hold("a bad action and no room", &bad, 0, Err(8));
    writing.hold("a byte 0, a bad action and no room", &Drill { plan: with_byte(1, 0).plan, ..bad }, 0, Err(5));
    writing.hold("a search too many and no room", &drill_with(1, 1, SEARCH.repeat(13_105)), 0, Err(8));
}

/// Each byte of the whole drill's plan and actions set to each number: the answer due is the reader's of that file.
fn write_every_byte(writing: &mut Writing) {
    for at in 0..67 {
        for byte in 0..=255 {
            let mut file = *WHOLE_DRILL;
            file[at] = byte;
            let drill = Drill { plan: file[..12].to_vec(), actions: file[12..67].to_vec(), ..whole_drill() };
            writing.hold("the whole drill with another byte", &drill, 79, drill::read(&file).map(|_| 79));
        }
    }
}

/// A drawn drill of every size, in a room too short by one, in one that it fills and in a longer one.
fn write_sizes(seed: u64, writing: &mut Writing) {
    for width in 1..=64 {
        for height in 1..=64 {
            let mut chance = Chance::start(seed, 700_000 + 64 * width + height);
            let drill = draw_drill(&mut chance, width, height, (width * height) % 500 == 0);
            let length = drill.length();
            writing.hold("a drawn drill, a byte too short", &drill, length - 1, Err(7));
            writing.hold("a drawn drill", &drill, length, Ok(length));
            writing.hold("a drawn drill in a longer room", &drill, length + 1 + chance.draw(100) as usize, Ok(length));
        }
    }
}

/// Draws an action that is badly formed.
fn draw_bad_action(chance: &mut Chance) -> [u8; ACTION] {
    let (placing, number) = (2 + chance.draw(2) as u8, 1 + chance.draw(255) as u8);
    match chance.draw(3) {
        0 => [draw_of(chance, &[0, 5, 6, 128, 255]), number, 0, 0, 0],
        1 => draw_of(chance, &[[placing, number, 1, number, 0], [placing, 0, 0, 0, number]]),
        _ => draw_of(chance, &[[4, number, 0, 0, 0], [4, 0, number, 0, 0], [4, 0, 0, number, 0], [4, 0, 0, 0, number]]),
    }
}

/// Puts a badly formed action among the others, leaves bytes over, or has more actions than fit.
fn spoil_actions(chance: &mut Chance, drill: &mut Drill) {
    let number = drill.actions.len() / ACTION;
    match chance.draw(9) {
        0 => drill.actions = SEARCH.repeat(most_actions(drill.plan.len()) + 1 + chance.draw(3) as usize),
        1..=3 => drill.actions.extend(vec![4; 1 + chance.draw(4) as usize]),
        _ => {
            let at = ACTION * chance.draw(number as u64 + 1) as usize;
            drill.actions.splice(at..at, draw_bad_action(chance));
        }
    }
}

/// Gives a drill, or its room, the fault of a number. Says whether it could: a plan of one cell has no move that stays.
fn spoil(chance: &mut Chance, drill: &mut Drill, room: &mut usize, number: u8) -> bool {
    let Drill { width, height, .. } = *drill;
    let (cells, length) = (width * height, drill.plan.len());
    match number {
        7 => *room = [0, *room - 1, chance.draw(*room as u64) as usize][chance.draw(3) as usize],
        8 => spoil_actions(chance, drill),
        4 | 5 => return spoil_byte(chance, width, height, &mut drill.plan, number == 4),
        3 if chance.draw(2) == 0 => drill.hunter = draw_outside(chance, cells),
        3 => drill.target = draw_outside(chance, cells),
        2 => drill.plan.resize([0, length - 1, length + 1, length - 4, length + 4][chance.draw(5) as usize], SHUT),
        _ if chance.draw(2) == 0 => drill.width = [0, 65, draw_great(chance)][chance.draw(3) as usize],
        _ => drill.height = [0, 65, draw_great(chance)][chance.draw(3) as usize],
    }
    true
}

/// Drawn drills with some faults at once: the first of them in the order of checking is the answer. A fault is put in
/// before those that are checked earlier, since these change what it is told from.
fn write_faulty(seed: u64, percent: u64, writing: &mut Writing) {
    for index in 0..200 * percent {
        let mut chance = Chance::start(seed, 800_000 + index);
        let most = if index % 50 == 0 { 64 } else { 7 };
        let (width, height) = (1 + chance.draw(most), 1 + chance.draw(most));
        let mut drill = draw_drill(&mut chance, width, height, false);
        let length = drill.length();
        let mut room = length;
        let often = 1 + chance.draw(6);
        let mut due = Ok(length);
        for &number in ORDER.iter().rev() {
            if chance.draw(often) == 0 && spoil(&mut chance, &mut drill, &mut room, number) {
                due = Err(number);
            }
        }
        writing.hold("a drawn drill with faults", &drill, room, due);
    }
}

/// Plays all of this. Fails if a number of the writer's was never given.
pub fn write_drills(seed: u64, percent: u64) -> Writing {
    let mut writing = Writing::default();
    write_whole_drill(&mut writing);
    write_wrong_sizes(&mut writing);
    write_wrong_lengths(&mut writing);
    write_cells(&mut writing);
    write_bytes(&mut writing);
    write_forms(&mut writing);
    write_largest(&mut writing);
    write_in_order(&mut writing);
    write_every_byte(&mut writing);
    write_sizes(seed, &mut writing);
    write_faulty(seed, percent, &mut writing);
    if let Some(number) = ORDER.iter().find(|&&number| writing.refused[number as usize] == 0) {
        println!("no drill was refused by {}", number);
        std::process::exit(1);
    }
    writing
}
