//! Unit tests as a program: it panics at the first fault and prints `ok N` at the end,
//! with the number of checks made.

use compare::chance::Chance;
use compare::dijkstra::distances;
use compare::drill::{self, Drill};
use compare::explain::{Floor, Reached};
use compare::made::{draw_plan, sound_tables, tied_pair};
use compare::model::{
    change, estimate, is_sound, neighbour, open, opposite, place_hunter, place_target, search,
    search_with_log, Answer, Rank, Session, Step, Tables, ABSENT, INFINITE, STEPS,
};
use compare::play::{checked_search, play};
use compare::rules::{broken, Rule};
use compare::spoil::cut;

/// Counts the checks.
struct Count(u64);

impl Count {
    fn same<T: PartialEq + std::fmt::Debug>(&mut self, what: &str, got: T, wanted: T) {
        assert_eq!(got, wanted, "{}", what);
        self.0 += 1;
    }

    fn yes(&mut self, what: &str, holds: bool) {
        assert!(holds, "{}", what);
        self.0 += 1;
    }
}

/// The plan of the paper's drill: three cells in a row.
fn row_of_three() -> Vec<u8> {
    vec![255, 1, 255, 255, 255, 1, 255, 1, 255, 255, 255, 1]
}

/// A plan with every inner move at the same cost.
fn even_plan(width: u64, height: u64, cost: u8) -> Vec<u8> {
    let cells = (width * height) as usize;
    let mut plan = vec![255; 4 * cells];
    for cell in 0..cells {
        for direction in 0..4 {
            if neighbour(width, height, cell, direction).is_some() {
                plan[4 * cell + direction] = cost;
            }
        }
    }
    plan
}

/// Opens an accepted session on tables with other contents before.
fn opened(width: u64, height: u64, hunter: u64, target: u64, plan: Vec<u8>) -> (Session, Tables) {
    let mut tables = Tables::filled(plan, (width * height) as usize, 9);
    let (answer, session) = open(width, height, hunter, target, &mut tables);
    assert_eq!(answer, Answer::Accepted);
    assert!(is_sound(&session, &tables));
    (session, tables)
}

fn drill_of(plan: &[u8], actions: &[[u8; 5]], width: u8, height: u8, hunter: u16, target: u16) -> Vec<u8> {
    let mut file = plan.to_vec();
    for action in actions {
        file.extend_from_slice(action);
    }
    file.push(width);
    file.push(height);
    file.extend_from_slice(&hunter.to_le_bytes());
    file.extend_from_slice(&target.to_le_bytes());
    file.extend_from_slice(&(actions.len() as u16).to_le_bytes());
    file.extend_from_slice(&(plan.len() as u32).to_le_bytes());
    file
}

fn main() {
    let mut count = Count(0);
    small_facts(&mut count);
    whole_drill(&mut count);
    fourth_search_of_the_drill(&mut count);
    runner_refusals(&mut count);
    written_drills(&mut count);
    writer_refusals(&mut count);
    actions_of_the_writer(&mut count);
    edges(&mut count);
    fresh_tables(&mut count);
    record_by_numbers(&mut count);
    open_refusals(&mut count);
    place_refusals(&mut count);
    change_refusals(&mut count);
    search_refusals(&mut count);
    changes(&mut count);
    take_over(&mut count);
    steps_in_detail(&mut count);
    ties(&mut count);
    renewal(&mut count);
    slips(&mut count);
    soundness(&mut count);
    wild_contents(&mut count);
    cells_reached(&mut count);
    reached_refusals(&mut count);
    costs_along(&mut count);
    along_refusals(&mut count);
    costs_through(&mut count);
    through_refusals(&mut count);
    reasons_by_dijkstra(&mut count);
    fixed_generator(&mut count);
    println!("ok {}", count.0);
}

/// Directions, neighbours and the estimate.
fn small_facts(count: &mut Count) {
    for direction in 0..4 {
        let (row, column) = STEPS[direction];
        count.same("opposite steps", STEPS[opposite(direction)], (-row, -column));
    }
    count.same("north of 4 in 3 by 3", neighbour(3, 3, 4, 0), Some(1));
    count.same("east of 4", neighbour(3, 3, 4, 1), Some(5));
    count.same("south of 4", neighbour(3, 3, 4, 2), Some(7));
    count.same("west of 4", neighbour(3, 3, 4, 3), Some(3));
    count.same("north of 0", neighbour(3, 3, 0, 0), None);
    count.same("east of 2", neighbour(3, 3, 2, 1), None);
    count.same("south of 8", neighbour(3, 3, 8, 2), None);
    count.same("west of 3", neighbour(3, 3, 3, 3), None);
    count.same("greatest estimate", estimate(64, 0, 4_095), 126);
    count.same("estimate both ways", estimate(64, 63, 4_032), 126);
    let far = distances(3, 1, &row_of_three(), 2);
    count.same("Dijkstra back", far, vec![Some(2), Some(1), Some(0)]);
}

/// The drill of the paper, 79 bytes in and six lines out.
fn whole_drill(count: &mut Count) {
    let file = include_bytes!("../../../examples/whole-drill/drill");
    let wanted = include_str!("../../../examples/whole-drill/prints");
    count.same("the whole drill", drill::run(file), wanted.to_string());
}

/// In the fourth search of the drill, cell 0 is raised (g 0, rhs 2) and then lowered to 2.
fn fourth_search_of_the_drill(count: &mut Count) {
    let (session, mut tables) = opened(3, 1, 0, 2, row_of_three());
    let mut way = vec![0; 3];
    let (_, session) = search(&session, &mut tables, &mut way);
    let (_, session) = change(&session, &mut tables, 1, 1, 255);
    let (_, session) = search(&session, &mut tables, &mut way);
    let (_, session) = change(&session, &mut tables, 1, 1, 5);
    let (_, session) = search(&session, &mut tables, &mut way);
    let (_, session) = place_hunter(&session, 1);
    count.same("g of 0 before", tables.g[0], 0);
    let mut log = Vec::new();
    let (answer, session) = search_with_log(&session, &mut tables, &mut way, &mut log);
    count.same("answer", answer, Answer::Way { cost: 5, steps: 2, length: 2 });
    count.same("steps", log, vec![(Step::Raise, 0), (Step::Lower, 0)]);
    count.same("g and rhs of 0 after", (tables.g[0], tables.rhs[0]), (2, 2));
    count.same("parent of 0 is in the east", tables.parent[0], 2);
    count.same("parent of the hunter", tables.parent[1], 0);
    count.same("search number", session.searches, 4);
}

/// The refusals of the runner, in their order.
fn runner_refusals(count: &mut Count) {
    let search_action = [4, 0, 0, 0, 0];
    let run = |plan: &[u8], actions: &[[u8; 5]], w, h, hunter, target| {
        drill::run(&drill_of(plan, actions, w, h, hunter, target))
    };
    let plan = row_of_three();
    count.same("no bytes", drill::run(&[]), "refused 8\n".to_string());
    count.same("eleven bytes", drill::run(&[0; 11]), "refused 8\n".to_string());
    count.same("twelve zero bytes: size", drill::run(&[0; 12]), "refused 1\n".to_string());
    count.same("too long, size wrong too", drill::run(&vec![0; 65_537]), "refused 8\n".to_string());
    count.same("just not too long: size", drill::run(&vec![0; 65_536]), "refused 1\n".to_string());
    count.same("no actions print nothing", run(&plan, &[], 3, 1, 0, 2), String::new());
    count.same("width 0", run(&plan, &[search_action], 0, 1, 0, 2), "refused 1\n".to_string());
    count.same("width 65", run(&plan, &[search_action], 65, 1, 0, 2), "refused 1\n".to_string());
    count.same("height 65", run(&plan, &[search_action], 3, 65, 0, 2), "refused 1\n".to_string());
    count.same("plan of another size", run(&plan, &[], 4, 1, 0, 2), "refused 8\n".to_string());
    let mut file = drill_of(&plan, &[search_action], 3, 1, 0, 2);
    let end = file.len();
    file[end - 2] = 1;
    count.same("offset with a high byte", drill::run(&file), "refused 8\n".to_string());
    let mut file = drill_of(&plan, &[search_action], 3, 1, 0, 2);
    file[end - 6] = 2;
    count.same("one action too many counted", drill::run(&file), "refused 8\n".to_string());
    for bad in [
        [0, 0, 0, 0, 0],
        [5, 0, 0, 0, 0],
        [255, 0, 0, 0, 0],
        [2, 0, 0, 1, 0],
        [2, 0, 0, 0, 1],
        [3, 0, 0, 1, 0],
        [3, 0, 0, 0, 1],
        [4, 1, 0, 0, 0],
        [4, 0, 1, 0, 0],
        [4, 0, 0, 1, 0],
        [4, 0, 0, 0, 1],
    ] {
        // A badly formed action comes before all faults of open, even as the last action.
        count.same("bad action", run(&plan, &[search_action, bad], 3, 1, 3, 9), "refused 8\n".to_string());
    }
    count.same("hunter outside", run(&plan, &[], 3, 1, 3, 2), "refused 3\n".to_string());
    count.same("target outside", run(&plan, &[], 3, 1, 0, 65_535), "refused 3\n".to_string());
    let mut off = plan.clone();
    off[5] = 0;
    off[8] = 1;
    count.same("3 before 4", run(&off, &[], 3, 1, 3, 2), "refused 3\n".to_string());
    count.same("4 before an earlier 5", run(&off, &[], 3, 1, 0, 2), "refused 4\n".to_string());
    off[8] = 255;
    count.same("5", run(&off, &[], 3, 1, 0, 2), "refused 5\n".to_string());
    // A refused action prints its number, and the rest goes on.
    let actions =
        [[2, 3, 0, 0, 0], [3, 0, 1, 0, 0], [1, 3, 0, 9, 0], [1, 0, 0, 4, 0], [1, 0, 0, 0, 9], [1, 0, 0, 1, 251], search_action];
    let wanted = "refused 3\nrefused 3\nrefused 3\nrefused 4\nrefused 4\nrefused 5\nway 2 steps 2: 0 1 2\n";
    count.same("refused actions", run(&plan, &actions, 3, 1, 0, 2), wanted.to_string());
    // A full plan takes 9,828 actions and no more.
    let full = even_plan(64, 64, 1);
    let most = vec![[2, 255, 15, 0, 0]; 9_828];
    let file = drill_of(&full, &most, 64, 64, 0, 4_095);
    count.same("length of the fullest drill", file.len(), 65_536);
    count.same("the fullest drill", drill::run(&file), String::new());
    let more = vec![[2, 255, 15, 0, 0]; 9_829];
    count.same("one action more", run(&full, &more, 64, 64, 0, 4_095), "refused 8\n".to_string());
}

/// The parts of a drill, for the writer.
fn parts(plan: &[u8], actions: &[[u8; 5]], width: u64, height: u64, hunter: u64, target: u64) -> Drill {
    Drill { width, height, hunter, target, plan: plan.to_vec(), actions: actions.concat() }
}

/// The parts of the paper's drill, as the paper tells them.
fn parts_of_the_drill() -> Drill {
    let actions = [
        [4, 0, 0, 0, 0],
        [1, 1, 0, 1, 255],
        [4, 0, 0, 0, 0],
        [1, 1, 0, 1, 5],
        [4, 0, 0, 0, 0],
        [2, 1, 0, 0, 0],
        [4, 0, 0, 0, 0],
        [3, 0, 0, 0, 0],
        [4, 0, 0, 0, 0],
        [3, 1, 0, 0, 0],
        [4, 0, 0, 0, 0],
    ];
    parts(&row_of_three(), &actions, 3, 1, 0, 2)
}

/// What the writer writes, and that the reader takes it back as the same drill.
fn written_drills(count: &mut Count) {
    let mut written = |what: &str, drill: Drill, file: &[u8]| {
        count.same(what, drill::write(&drill, file.len()), Ok(file.to_vec()));
        count.same("longer room", drill::write(&drill, file.len() + 1), Ok(file.to_vec()));
        count.same("shorter room", drill::write(&drill, file.len() - 1), Err(7));
        count.same("no room", drill::write(&drill, 0), Err(7));
        count.same("read back", drill::read(file), Ok(drill));
    };
    written("the whole drill", parts_of_the_drill(), include_bytes!("../../../examples/whole-drill/drill"));
    // Each number of two bytes or more has a high one: hunter 4,094, target 259, 257 actions, offset 16,384.
    let full = even_plan(64, 64, 250);
    let actions = [[2, 254, 15, 0, 0]; 257];
    let trailer = [64, 64, 254, 15, 3, 1, 1, 1, 0, 64, 0, 0];
    let file = [full.clone(), actions.concat(), trailer.to_vec()].concat();
    written("high bytes", parts(&full, &actions, 64, 64, 4_094, 259), &file);
    let smallest = [255, 255, 255, 255, 1, 1, 0, 0, 0, 0, 0, 0, 4, 0, 0, 0];
    written("1 by 1, no actions", parts(&[255; 4], &[], 1, 1, 0, 0), &smallest);
}

/// The writer: 1 2 3 4 5 8 7. Each drill has every later fault too, and then these are taken away one by one.
fn writer_refusals(count: &mut Count) {
    let mut try_write = |what: &str, drill: &Drill, number: u8| {
        count.same(what, drill::write(drill, 0), Err(number));
    };
    let mut faulty = parts_of_the_drill();
    faulty.actions[0] = 0;
    (faulty.plan[1], faulty.plan[8]) = (0, 1);
    (faulty.hunter, faulty.target) = (3, u64::MAX);
    let short = Drill { plan: faulty.plan[..11].to_vec(), ..faulty.clone() };
    for (width, height) in [(0, 1), (3, 0), (65, 1), (3, 65), (u64::MAX, 1), (1 << 32, 1 << 32)] {
        try_write("1", &Drill { width, height, ..short.clone() }, 1);
    }
    try_write("2, too short", &short, 2);
    try_write("2, too long", &Drill { plan: [&faulty.plan[..], &[255]].concat(), ..faulty.clone() }, 2);
    try_write("2, empty", &Drill { plan: Vec::new(), ..faulty.clone() }, 2);
    try_write("2 for another size", &Drill { width: 1, ..faulty.clone() }, 2);
    try_write("3 of both", &faulty, 3);
    faulty.hunter = 2;
    try_write("3 of the target", &faulty, 3);
    (faulty.hunter, faulty.target) = (65_536, 2);
    try_write("3 of the hunter", &faulty, 3);
    faulty.hunter = 2;
    try_write("4 before an earlier 5", &faulty, 4);
    faulty.plan[8] = 255;
    try_write("5", &faulty, 5);
    faulty.plan[1] = 250;
    try_write("8", &faulty, 8);
    faulty.actions[0] = 4;
    try_write("7", &faulty, 7);
}

/// Which actions the writer takes, and how many.
fn actions_of_the_writer(count: &mut Count) {
    let mut try_actions = |what: &str, width: u64, actions: Vec<u8>, answer: Result<usize, u8>| {
        let plan = even_plan(width, width, 1);
        let drill = Drill { width, height: width, hunter: 0, target: 0, plan, actions };
        count.same(what, drill::write(&drill, 70_000).map(|file| file.len()), answer);
    };
    for bad in [[0, 0, 0, 0, 0], [5, 0, 0, 0, 0], [2, 0, 0, 1, 0], [3, 0, 0, 0, 1], [4, 1, 0, 0, 0], [4, 0, 1, 0, 0]] {
        try_actions("badly formed", 2, [[4, 0, 0, 0, 0], bad].concat(), Err(8));
    }
    try_actions("other faults are the calls' own", 2, [[1, 255, 255, 255, 0], [3, 255, 255, 0, 0]].concat(), Ok(38));
    for left_over in 1..5 {
        try_actions("left over", 2, vec![1; 5 + left_over], Err(8));
    }
    for (width, most) in [(64, 9_828), (1, 13_104)] {
        try_actions("as many as fit", width, [4, 0, 0, 0, 0].repeat(most), Ok(65_536));
        try_actions("one more", width, [4, 0, 0, 0, 0].repeat(most + 1), Err(8));
    }
}

/// Both sides of each edge that the paper names.
fn edges(count: &mut Count) {
    // One by one.
    let (session, mut tables) = opened(1, 1, 0, 0, vec![255; 4]);
    let mut way = vec![5; 1];
    count.same("1 by 1", search(&session, &mut tables, &mut way).0, Answer::Caught { cell: 0 });
    count.same("1 by 1 way", way, vec![0]);
    for direction in [0, 1, 2, 3, 4, 255] {
        for cost in [0, 1, 250, 251, 255] {
            count.same(
                "any change of cell 0 there",
                change(&session, &mut tables, 0, direction, cost).0,
                Answer::Refused(4),
            );
        }
    }
    // Two by one, open.
    let (session, mut tables) = opened(2, 1, 0, 1, even_plan(2, 1, 1));
    let mut way = vec![7; 2];
    count.same(
        "2 by 1 open",
        search(&session, &mut tables, &mut way).0,
        Answer::Way { cost: 1, steps: 1, length: 2 },
    );
    count.same("2 by 1 way", way, vec![0, 1]);
    // Two by one, shut, and the hunter in an unreached cell.
    let (session, mut tables) = opened(2, 1, 0, 1, vec![255; 8]);
    let mut way = vec![7; 2];
    let (answer, session) = search(&session, &mut tables, &mut way);
    count.same("2 by 1 shut", answer, Answer::None { steps: 1 });
    let session = place_hunter(&session, 1).1;
    let session = place_target(&session, 0).1;
    count.same("rhs of 1", tables.rhs[1], INFINITE);
    let (answer, session) = search(&session, &mut tables, &mut way);
    count.same("the other way round", answer, Answer::None { steps: 1 });
    count.same("started fresh", (session.searches, session.km), (1, 0));
    count.same("nothing shown", way, vec![7, 7]);
    // Costs.
    let (session, mut tables) = opened(2, 1, 0, 1, even_plan(2, 1, 1));
    for (cost, wanted) in [
        (1, Answer::Accepted),
        (250, Answer::Accepted),
        (251, Answer::Refused(5)),
        (254, Answer::Refused(5)),
        (255, Answer::Accepted),
        (0, Answer::Refused(5)),
    ] {
        let before = tables.plan[1];
        count.same("change to an edge", change(&session, &mut tables, 0, 1, cost).0, wanted);
        let stands = if wanted == Answer::Accepted { cost } else { before };
        count.same("byte after it", tables.plan[1], stands);
    }
    count.same("cell N with cost 0", change(&session, &mut tables, 2, 1, 0).0, Answer::Refused(3));
    // Sizes.
    let (session, mut tables) = opened(64, 64, 0, 4_095, even_plan(64, 64, 250));
    count.same("last cell placed", place_hunter(&session, 4_095).0, Answer::Accepted);
    count.same("cell 4,096", place_hunter(&session, 4_096).0, Answer::Refused(3));
    count.same("cell 4,096 changed", change(&session, &mut tables, 4_096, 0, 1).0, Answer::Refused(3));
    let mut way = vec![0; 4_096];
    let mut log = Vec::new();
    let (answer, _) = checked_search(&session, &mut tables, &mut way, &mut log);
    match answer {
        Answer::Way { cost, length, .. } => {
            count.same("corner to corner", (cost, length), (126 * 250, 127));
        }
        other => panic!("{:?}", other),
    }
    let mut tables = Tables::filled(vec![255; 260], 65, 0);
    count.same("65 wide", open(65, 1, 0, 0, &mut tables).0, Answer::Refused(1));
    count.same("65 high", open(1, 65, 0, 0, &mut tables).0, Answer::Refused(1));
    count.same("0 wide", open(0, 1, 0, 0, &mut tables).0, Answer::Refused(1));
    count.same("0 high", open(1, 0, 0, 0, &mut tables).0, Answer::Refused(1));
}

/// What open leaves in the tables.
fn fresh_tables(count: &mut Count) {
    let (session, tables) = opened(3, 2, 4, 2, even_plan(3, 2, 3));
    let wanted = Session { width: 3, height: 2, hunter: 4, target: 2, origin: 4, goal: 2, count: 1, ..Session::default() };
    count.same("record", session, wanted);
    count.same("g", tables.g, vec![INFINITE; 6]);
    count.same("rhs", tables.rhs, vec![INFINITE, INFINITE, INFINITE, INFINITE, 0, INFINITE]);
    count.same("parent", tables.parent, vec![0; 6]);
    count.same("k1", tables.k1, vec![0, 0, 0, 0, 2, 0]);
    count.same("k2", tables.k2, vec![0; 6]);
    count.same("place", tables.place, vec![ABSENT, ABSENT, ABSENT, ABSENT, 0, ABSENT]);
    count.same("list", tables.list, vec![4, ABSENT, ABSENT, ABSENT, ABSENT, ABSENT]);
}

/// A field of the record set by its place changes that number alone, and is cut to its width.
fn record_by_numbers(count: &mut Count) {
    let (session, _) = opened(3, 2, 4, 2, even_plan(3, 2, 3));
    for (field, &bytes) in Session::BYTES.iter().enumerate() {
        let mut changed = session;
        changed.set(field, u64::MAX);
        let mut wanted = session.numbers();
        wanted[field] = u64::MAX >> (64 - 8 * bytes);
        count.same("one field set", changed.numbers(), wanted);
    }
}

/// The tables with one of them shortened or lengthened by one entry, by its number.
fn other_length(tables: &Tables, table: u64, longer: bool) -> Tables {
    let mut other = tables.clone();
    cut(&mut other, table, longer);
    other
}

/// Open: 1 2 3 4 5, with every 4 of the plan before any 5, and nothing changed.
fn open_refusals(count: &mut Count) {
    let mut try_open = |what: &str, w: u64, h: u64, hunter: u64, target: u64, tables: &Tables, number: u8| {
        let mut after = tables.clone();
        let answer = open(w, h, hunter, target, &mut after);
        count.same(what, answer, (Answer::Refused(number), Session::default()));
        count.yes("open changed nothing", *tables == after);
    };
    // The plan has a 4 in its last move and a 5 in its first inner move.
    let mut plan = even_plan(3, 2, 3);
    plan[1] = 0;
    plan[4 * 5 + 2] = 254;
    let tables = Tables::filled(plan.clone(), 6, 9);
    let short = other_length(&tables, 3, false);
    try_open("1 before all", 0, 2, 6, 6, &short, 1);
    try_open("1 of the height", 3, 65, 6, 6, &short, 1);
    try_open("1 of a great width", u64::MAX, u64::MAX, 6, 6, &short, 1);
    for table in 0..8 {
        try_open("2, too short", 3, 2, 6, 6, &other_length(&tables, table, false), 2);
        try_open("2, too long", 3, 2, 6, 6, &other_length(&tables, table, true), 2);
    }
    try_open("2 for another size of the same tables", 2, 2, 0, 0, &tables, 2);
    try_open("3 of the hunter", 3, 2, 6, 0, &tables, 3);
    try_open("3 of the target", 3, 2, 5, 6, &tables, 3);
    try_open("3 of a great cell", 3, 2, u64::MAX, u64::MAX, &tables, 3);
    try_open("4 before an earlier 5", 3, 2, 5, 0, &tables, 4);
    for byte in [0, 1, 250, 251, 254] {
        let mut off = even_plan(3, 2, 3);
        off[0] = byte;
        try_open("4 for any byte but 255", 3, 2, 0, 0, &Tables::filled(off, 6, 9), 4);
    }
    for byte in [0, 251, 252, 253, 254] {
        let mut off = even_plan(3, 2, 3);
        off[4 * 5 + 3] = byte;
        try_open("5", 3, 2, 0, 0, &Tables::filled(off, 6, 9), 5);
    }
    plan[4 * 5 + 2] = 255;
    try_open("5 when no 4 is left", 3, 2, 5, 0, &Tables::filled(plan, 6, 9), 5);
}

/// Placing: 1 3, and no table is looked at.
fn place_refusals(count: &mut Count) {
    let (session, _) = opened(3, 2, 4, 2, even_plan(3, 2, 3));
    let spoiled = Session { width: 65, ..session };
    count.same("1 before 3", place_hunter(&spoiled, 9), (Answer::Refused(1), spoiled));
    count.same("1 before 3", place_target(&spoiled, 9), (Answer::Refused(1), spoiled));
    let spoiled = Session { height: 0, ..session };
    count.same("height 0", place_target(&spoiled, 0), (Answer::Refused(1), spoiled));
    count.same("3", place_hunter(&session, 6), (Answer::Refused(3), session));
    count.same("3", place_target(&session, u64::MAX), (Answer::Refused(3), session));
    count.same("hunter", place_hunter(&session, 5), (Answer::Accepted, Session { hunter: 5, ..session }));
    count.same("target", place_target(&session, 0), (Answer::Accepted, Session { target: 0, ..session }));
    // A record that is spoiled elsewhere is still placed into.
    let odd = Session { searches: 5_000, origin: 99, ..session };
    count.same("odd record", place_hunter(&odd, 5), (Answer::Accepted, Session { hunter: 5, ..odd }));
}

/// Change: 1 2 6 3 4 5, and nothing changed.
fn change_refusals(count: &mut Count) {
    let (session, tables) = opened(3, 2, 4, 2, even_plan(3, 2, 3));
    let mut try_change = |what: &str, session: &Session, tables: &Tables, cell: u64, direction: u8, cost: u8, number: u8| {
        let mut after = tables.clone();
        let answer = change(session, &mut after, cell, direction, cost);
        count.same(what, answer, (Answer::Refused(number), *session));
        count.yes("change changed nothing", *tables == after);
    };
    let mut spoiled = tables.clone();
    spoiled.rhs[0] = 1;
    let short = other_length(&spoiled, 7, false);
    try_change("1", &Session { width: 0, ..session }, &short, 6, 9, 0, 1);
    for table in 0..8 {
        try_change("2, too short", &session, &other_length(&spoiled, table, false), 6, 9, 0, 2);
        try_change("2, too long", &session, &other_length(&spoiled, table, true), 6, 9, 0, 2);
    }
    try_change("6", &session, &spoiled, 6, 9, 0, 6);
    try_change("3", &session, &tables, 6, 9, 0, 3);
    try_change("3", &session, &tables, u64::MAX, 0, 1, 3);
    try_change("4", &session, &tables, 5, 4, 0, 4);
    try_change("4", &session, &tables, 5, 255, 0, 4);
    try_change("4 leaves north", &session, &tables, 0, 0, 0, 4);
    try_change("4 leaves east", &session, &tables, 5, 1, 255, 4);
    try_change("4 leaves south", &session, &tables, 5, 2, 0, 4);
    try_change("4 leaves west", &session, &tables, 3, 3, 255, 4);
    try_change("5", &session, &tables, 5, 0, 0, 5);
    try_change("5", &session, &tables, 5, 0, 251, 5);
    try_change("5", &session, &tables, 5, 3, 254, 5);
}

/// Search: 1 2 6 7; caught comes after them.
fn search_refusals(count: &mut Count) {
    let (session, tables) = opened(3, 2, 4, 2, even_plan(3, 2, 3));
    let mut try_search = |what: &str, session: &Session, tables: &Tables, length: usize, number: u8| {
        let mut after = tables.clone();
        let mut way = vec![77; length];
        let answer = search(session, &mut after, &mut way);
        count.same(what, answer, (Answer::Refused(number), *session));
        count.yes("search changed nothing", *tables == after && way.iter().all(|&c| c == 77));
    };
    let mut spoiled = tables.clone();
    spoiled.g[0] = 1;
    let short = other_length(&spoiled, 1, false);
    try_search("1", &Session { height: 65, ..session }, &short, 0, 1);
    for table in 0..8 {
        try_search("2, too short", &session, &other_length(&spoiled, table, false), 0, 2);
        try_search("2, too long", &session, &other_length(&spoiled, table, true), 0, 2);
    }
    try_search("6", &session, &spoiled, 0, 6);
    try_search("6 with a good list", &session, &spoiled, 6, 6);
    try_search("7", &session, &tables, 0, 7);
    try_search("7", &session, &tables, 5, 7);
    let same = Session { target: 4, ..session };
    try_search("7 before caught", &same, &tables, 5, 7);
    try_search("6 before caught", &same, &spoiled, 6, 6);
    // A longer list is fine, and its rest keeps its contents.
    let mut way = vec![77; 9];
    let mut after = tables.clone();
    count.same("caught", search(&same, &mut after, &mut way), (Answer::Caught { cell: 4 }, same));
    count.yes("caught changed no table", after == tables);
    count.same("caught writes one cell", way.clone(), vec![4, 77, 77, 77, 77, 77, 77, 77, 77]);
    let (answer, _) = search(&session, &mut after, &mut way);
    match answer {
        Answer::Way { length, .. } => count.same("rest of the list", way[length..].to_vec(), vec![77; 9 - length]),
        other => panic!("{:?}", other),
    }
}

/// Single changes of moves, falling, rising and equal.
fn changes(count: &mut Count) {
    let (session, mut tables) = opened(3, 1, 0, 2, row_of_three());
    let mut way = vec![0; 3];
    let (_, session) = search(&session, &mut tables, &mut way);
    count.same("g", tables.g.clone(), vec![0, 1, INFINITE]);
    count.same("rhs", tables.rhs.clone(), vec![0, 1, 2]);
    // An equal cost changes nothing.
    let before = tables.clone();
    count.same("equal", change(&session, &mut tables, 1, 1, 1), (Answer::Accepted, session));
    count.yes("equal leaves the tables", before == tables);
    // A move into the hunter changes its byte only.
    count.same("into the hunter", change(&session, &mut tables, 1, 3, 9), (Answer::Accepted, session));
    let mut wanted = before.clone();
    wanted.plan[7] = 9;
    count.yes("only the byte", wanted == tables);
    // A rise of the parent's move raises the rhs, though the cell stays queued under a new key.
    let (_, session) = change(&session, &mut tables, 1, 1, 200);
    count.same("risen", (tables.rhs[2], tables.parent[2], tables.k1[2], tables.k2[2]), (201, 4, 201, 201));
    // Shut: infinite, no parent, not queued, keys 0.
    let (_, session) = change(&session, &mut tables, 1, 1, 255);
    count.same("shut", (tables.rhs[2], tables.parent[2], tables.place[2], session.count), (INFINITE, 0, ABSENT, 0));
    count.same("keys", (tables.k1[2], tables.k2[2]), (0, 0));
    // Opened again: a fall.
    let (_, session) = change(&session, &mut tables, 1, 1, 250);
    count.same("fallen", (tables.rhs[2], tables.parent[2], session.count), (251, 4, 1));
    // A fall from a cell with infinite g offers nothing.
    let before = tables.clone();
    let (_, session) = change(&session, &mut tables, 2, 3, 255);
    let (_, session) = change(&session, &mut tables, 2, 3, 7);
    count.same("infinite g", (tables.rhs.clone(), tables.parent.clone()), (before.rhs, before.parent));
    count.yes("sound", is_sound(&session, &tables));

    // Found anew takes the first least neighbour in direction order, and a rise renews a stale key
    // even if the rhs stays the same.
    let (session, mut tables) = opened(3, 3, 0, 8, even_plan(3, 3, 1));
    let mut way = vec![0; 9];
    let (_, session) = search(&session, &mut tables, &mut way);
    count.same("cell 4 was lowered", (tables.g[4], tables.rhs[4]), (2, 2));
    let parent = tables.parent[4];
    count.same("first offer stands, from the west, whose column is smaller than the north's", parent, 4);
    let (_, session) = change(&session, &mut tables, 3, 1, 2);
    count.same("now the north", (tables.rhs[4], tables.parent[4]), (2, 1));
    let (_, session) = change(&session, &mut tables, 3, 1, 1);
    count.same("an equal sum is no fall", (tables.rhs[4], tables.parent[4]), (2, 1));
    let (_, session) = change(&session, &mut tables, 1, 2, 9);
    count.same("back to the west", (tables.rhs[4], tables.parent[4]), (2, 4));
    count.yes("sound", is_sound(&session, &tables));
}

/// Target and hunter taken over.
fn take_over(count: &mut Count) {
    // Placings alone add nothing to km; the search adds the estimate between the searches' targets.
    let (session, mut tables) = opened(4, 4, 0, 15, even_plan(4, 4, 1));
    let mut way = vec![0; 16];
    let (_, session) = search(&session, &mut tables, &mut way);
    count.same("km at first", (session.km, session.searches), (0, 1));
    let session = place_target(&session, 3).1;
    let session = place_target(&session, 0).1;
    let session = place_target(&session, 10).1;
    count.same("km after placings", session.km, 0);
    let (_, session) = search(&session, &mut tables, &mut way);
    count.same("km after the search", (session.km, session.searches, session.goal), (2, 2, 10));
    // Caught changes nothing, although the target was moved.
    let session = place_target(&session, 0).1;
    let before = tables.clone();
    count.same("caught", search(&session, &mut tables, &mut way), (Answer::Caught { cell: 0 }, session));
    count.yes("caught leaves the tables", before == tables);

    // The new hunter keeps rhs, queue entry and stored key; only its parent becomes 0.
    let (session, mut tables) = opened(3, 1, 0, 1, row_of_three());
    let mut way = vec![0; 3];
    let (_, session) = search(&session, &mut tables, &mut way);
    count.same("queued", (tables.g[1], tables.rhs[1], tables.place[1]), (INFINITE, 1, 0));
    let session = place_hunter(&session, 1).1;
    let session = place_target(&session, 2).1;
    let mut log = Vec::new();
    let (answer, session) = checked_search(&session, &mut tables, &mut way, &mut log);
    // The stored key of cell 1 is (1, 1). Calculated with km 1 and the new target it is (3, 1).
    // Cell 0 is found anew: no neighbour has finite g, so it is infinite, with g 0 queued under (0 + 2 + 1, 0).
    count.same(
        "steps",
        log,
        vec![(Step::PutBack, 1), (Step::Raise, 0), (Step::Lower, 1)],
    );
    count.same("answer", answer, Answer::Way { cost: 1, steps: 3, length: 2 });
    count.same("hunter's rhs kept", tables.rhs[1], 1);
    count.same("record", (session.origin, session.km, session.searches), (1, 1, 2));
    count.same("cost is without the hunter's rhs", tables.rhs[2], 2);
}

/// The end of the loop and the kinds of steps.
fn steps_in_detail(count: &mut Count) {
    // The target's rhs exceeds its g, and its key is the least: the loop has to go on.
    let (session, mut tables) = opened(2, 1, 0, 1, even_plan(2, 1, 1));
    let mut way = vec![0; 2];
    let (_, session) = search(&session, &mut tables, &mut way);
    count.same("target not lowered", (tables.g[1], tables.rhs[1]), (INFINITE, 1));
    let session = place_target(&session, 0).1;
    let session = place_hunter(&session, 1).1;
    let mut log = Vec::new();
    let (answer, session) = checked_search(&session, &mut tables, &mut way, &mut log);
    count.same("back", answer, Answer::Way { cost: 1, steps: log.len() as u64, length: 2 });
    // Now cell 0 has g and rhs from the new hunter. The move there gets dearer.
    let (_, session) = change(&session, &mut tables, 1, 3, 9);
    count.yes("sound", is_sound(&session, &tables));
    let (answer, session) = checked_search(&session, &mut tables, &mut way, &mut log);
    match answer {
        Answer::Way { cost, .. } => count.same("dearer", cost, 9),
        other => panic!("{:?}", other),
    }
    // Shut: none, nothing shown.
    let (_, session) = change(&session, &mut tables, 1, 3, 255);
    let mut way = vec![70; 2];
    let (answer, _) = checked_search(&session, &mut tables, &mut way, &mut log);
    count.yes("none", matches!(answer, Answer::None { .. }));
    count.same("nothing shown", way, vec![70, 70]);

    // An empty queue has an infinite least key: no step is taken.
    let (session, mut tables) = opened(3, 1, 0, 2, vec![255; 12]);
    let mut way = vec![0; 3];
    let (answer, session) = search(&session, &mut tables, &mut way);
    count.same("first", answer, Answer::None { steps: 1 });
    count.same("queue empty", session.count, 0);
    let (answer, _) = search(&session, &mut tables, &mut way);
    count.same("second", answer, Answer::None { steps: 0 });

    // All three kinds on one cell, from made tables: 2 by 1, g of both cells too low, stored keys stale.
    let mut session = Session { width: 2, height: 1, target: 1, goal: 1, km: 100, count: 2, searches: 1, ..Session::default() };
    let mut tables = Tables::filled(even_plan(2, 1, 10), 2, 0);
    tables.g = vec![3, 2];
    tables.rhs = vec![5, 13];
    tables.parent = vec![0, 4];
    tables.k1 = vec![0, 0];
    tables.k2 = vec![0, 0];
    tables.list = vec![0, 1];
    tables.place = vec![0, 1];
    count.yes("made tables are sound", is_sound(&session, &tables));
    let mut way = vec![0; 2];
    let mut log = Vec::new();
    let (answer, after) = checked_search(&session, &mut tables, &mut way, &mut log);
    let wanted = vec![
        (Step::PutBack, 0),
        (Step::PutBack, 1),
        (Step::Raise, 1),
        (Step::Raise, 0),
        (Step::Lower, 0),
    ];
    count.same("five of six steps", log, wanted);
    count.same("answer", answer, Answer::Way { cost: 10, steps: 5, length: 2 });
    session.searches = 2;
    session.count = 1;
    count.same("record", after, session);
    count.same("g and rhs", (tables.g, tables.rhs), (vec![5, INFINITE], vec![5, 15]));
}

/// "Among equal keys we want the smaller column, then the smaller row."
fn ties(count: &mut Count) {
    // 2 by 2, all open at 1: cell 2 (column 0, row 1) and cell 1 (column 1, row 0) have equal keys, and cell 2 is taken first.
    let (session, mut tables) = opened(2, 2, 0, 3, even_plan(2, 2, 1));
    let (mut way, mut log) = (vec![0; 4], Vec::new());
    let (answer, _) = checked_search(&session, &mut tables, &mut way, &mut log);
    count.same("2 by 2", answer, Answer::Way { cost: 2, steps: 3, length: 3 });
    count.same("the lower left cell first", log, vec![(Step::Lower, 0), (Step::Lower, 2), (Step::Lower, 1)]);
    count.same("so the way leads there", way[..3].to_vec(), vec![0, 2, 3]);
    // Six cells with equal keys, in plans of each width. In one row and in one column the order is that of the cell numbers.
    for (width, wanted) in [
        (1, [0, 1, 2, 3, 4, 5]),
        (2, [0, 2, 4, 1, 3, 5]),
        (3, [0, 3, 1, 4, 2, 5]),
        (6, [0, 1, 2, 3, 4, 5]),
    ] {
        let tables = Tables::filled(Vec::new(), 6, 7);
        let mut cells = [5, 4, 3, 2, 1, 0];
        cells.sort_by_key(|&cell| Rank::of(width, &tables, cell));
        count.same("column, then row", cells, wanted);
    }
    // Two cells that wait under one key: with the smaller cell number above they are no heap. Different keys decide alone.
    let (session, tables) = tied_pair();
    let mut faults = |what: &str, key_of_1: (u32, u32), first: usize, wanted: Vec<Rule>| {
        let mut other = tables.clone();
        (other.k1[1], other.k2[1]) = key_of_1;
        let second = 3 - first;
        (other.list[0], other.list[1]) = (first as u16, second as u16);
        (other.place[first], other.place[second]) = (0, 1);
        count.same(what, is_sound(&session, &other), wanted.is_empty());
        count.same(what, broken(&session, &other), wanted);
    };
    faults("the smaller column above", (2, 1), 2, vec![]);
    faults("the smaller cell number above", (2, 1), 1, vec![Rule::Heap]);
    faults("the lower second key number above", (2, 0), 1, vec![]);
    faults("the lower second key number below", (2, 0), 2, vec![Rule::Heap]);
    faults("the lower first key number above", (1, 9), 1, vec![]);
    faults("the lower first key number below", (1, 9), 2, vec![Rule::Heap]);
}

/// The search numbers 999 and 1,000.
fn renewal(count: &mut Count) {
    let (session, mut tables) = opened(3, 1, 0, 2, row_of_three());
    let mut way = vec![0; 3];
    let (_, mut session) = search(&session, &mut tables, &mut way);
    // The tables of the end stay sound at any later search number.
    session.searches = 999;
    let session = place_hunter(&session, 1).1;
    count.yes("sound at 999", is_sound(&session, &tables));
    // Cell 0 is found anew (g 0, rhs 2, key (2, 0)) and raised; its new key (4, 2) is above the target's (2, 2).
    let mut log = Vec::new();
    let (answer, session) = search_with_log(&session, &mut tables, &mut way, &mut log);
    count.same("at 999 reuse", answer, Answer::Way { cost: 1, steps: 1, length: 2 });
    count.same("at 999 the step of a reuse", log, vec![(Step::Raise, 0)]);
    count.same("the hunter's rhs is kept", tables.rhs[1], 1);
    count.same("number 1,000", session.searches, 1_000);
    count.yes("sound at 1,000", is_sound(&session, &tables));
    // Caught at 1,000 changes nothing.
    let same = place_target(&session, 1).1;
    let before = tables.clone();
    count.same("caught at 1,000", search(&same, &mut tables, &mut way), (Answer::Caught { cell: 1 }, same));
    count.yes("caught leaves the tables", before == tables);
    let (answer, session) = search(&session, &mut tables, &mut way);
    count.same("at 1,000 fresh", answer, Answer::Way { cost: 1, steps: 1, length: 2 });
    count.same("the hunter's rhs is 0", tables.rhs[1], 0);
    count.same("number 1", (session.searches, session.km), (1, 0));

    // A hunter walks to and fro until the search number is 1,000 and once more.
    let (mut session, mut tables) = opened(3, 1, 0, 2, row_of_three());
    let mut log = Vec::new();
    let mut greatest = 0;
    for turn in 1..=2_001u32 {
        let after = checked_search(&session, &mut tables, &mut way, &mut log).1;
        let number = (turn - 1) % 1_000 + 1;
        count.same("search number in turn", after.searches, number);
        greatest = greatest.max(tables.rhs[after.origin as usize]);
        session = place_hunter(&after, turn as u64 % 2).1;
    }
    count.yes("the hunter's rhs grew", greatest >= 900);

    // At search number 1,000 an unchanged search starts fresh too.
    let (session, mut tables) = opened(2, 1, 0, 1, even_plan(2, 1, 1));
    let (_, mut session) = search(&session, &mut tables, &mut way);
    session.searches = 1_000;
    let (answer, session) = search(&session, &mut tables, &mut way);
    count.same("unchanged at 1,000", answer, Answer::Way { cost: 1, steps: 1, length: 2 });
    count.same("number", session.searches, 1);
    // A fresh start because the new hunter is unreached counts as search 1 as well.
    let (session, mut tables) = opened(3, 1, 0, 1, row_of_three());
    let (_, mut session) = search(&session, &mut tables, &mut way);
    session.searches = 500;
    session.km = 63_000;
    let session = place_hunter(&session, 2).1;
    count.same("unreached", tables.rhs[2], INFINITE);
    let (answer, session) = search(&session, &mut tables, &mut way);
    count.same("unreached", answer, Answer::Way { cost: 1, steps: 1, length: 2 });
    count.same("fresh", (session.searches, session.km, session.origin, tables.rhs[2]), (1, 0, 2, 0));
}

/// The slips that the paper names, each on a case that would show it.
fn slips(count: &mut Count) {
    // A whole seeded play compares every answer with Dijkstra's, which shows each of them.
    for index in 0..36 {
        let counts = play(2_026, index).counts;
        count.yes("played", counts.calls > 0);
        match index % 12 {
            6 => count.yes("long sessions pass 1,000 twice", counts.renewals >= 2 && counts.fresh == 0),
            7 => count.yes("long sessions with doors pass 1,000", counts.renewals >= 1),
            _ => (),
        }
    }
    // No way: nothing is shown, not even to the nearest cell.
    let mut plan = even_plan(4, 1, 1);
    plan[4 * 2 + 1] = 255;
    let (session, mut tables) = opened(4, 1, 0, 3, plan);
    let mut way = vec![99; 4];
    count.same("none", search(&session, &mut tables, &mut way).0, Answer::None { steps: 3 });
    count.same("none shows nothing", way, vec![99; 4]);
}

/// The soundness check on each broken rule, with the kept side next to it.
fn soundness(count: &mut Count) {
    let (session, mut tables) = opened(3, 3, 0, 8, even_plan(3, 3, 2));
    let mut way = vec![0; 9];
    let (_, session) = search(&session, &mut tables, &mut way);
    let session = place_hunter(&session, 3).1;
    let (_, session) = change(&session, &mut tables, 0, 1, 9);
    count.yes("a played base", is_sound(&session, &tables) && session.count >= 2);
    let mut judge = |rule: Rule, session: &Session, tables: &Tables| {
        count.yes("not sound", !is_sound(session, tables));
        let faults = broken(session, tables);
        assert!(faults.contains(&rule), "{:?} not in {:?}", rule, faults);
    };
    let origin = session.origin as usize;
    let queued = session.count as usize;
    // The shape and the record.
    for width in [0, 2, 4, 65, u64::MAX] {
        judge(Rule::Shape, &Session { width, ..session }, &tables);
    }
    for height in [0, 2, 4, 65, u64::MAX] {
        judge(Rule::Shape, &Session { height, ..session }, &tables);
    }
    for table in 0..8 {
        judge(Rule::Shape, &session, &other_length(&tables, table, false));
        judge(Rule::Shape, &session, &other_length(&tables, table, true));
    }
    for cell in [9, 10, u64::MAX] {
        judge(Rule::Cells, &Session { hunter: cell, ..session }, &tables);
        judge(Rule::Cells, &Session { target: cell, ..session }, &tables);
        judge(Rule::Cells, &Session { origin: cell, ..session }, &tables);
        judge(Rule::Cells, &Session { goal: cell, ..session }, &tables);
    }
    for wrong in [queued as u64 - 1, queued as u64 + 1, 9, 10, u64::MAX] {
        judge(Rule::Agree, &Session { count: wrong, ..session }, &tables);
    }
    judge(Rule::Searches, &Session { searches: 1_001, ..session }, &tables);
    judge(Rule::Searches, &Session { searches: u32::MAX, ..session }, &tables);
    judge(Rule::Km, &Session { km: 127, ..session }, &tables);
    judge(Rule::Km, &Session { km: u32::MAX, ..session }, &tables);
    judge(Rule::BoundG, &Session { searches: 0, ..session }, &tables);
    // The plan, at every move.
    for at in 0..36 {
        let leaves = neighbour(3, 3, at / 4, at % 4).is_none();
        for byte in [0, 251, 252, 253, 254] {
            let mut other = tables.clone();
            other.plan[at] = byte;
            judge(Rule::Plan, &session, &other);
        }
        if leaves {
            for byte in [1, 2, 250] {
                let mut other = tables.clone();
                other.plan[at] = byte;
                judge(Rule::Plan, &session, &other);
            }
        }
    }
    // The hunter.
    let mut other = tables.clone();
    other.rhs[origin] = INFINITE;
    judge(Rule::HunterRhs, &session, &other);
    let mut other = tables.clone();
    other.rhs[origin] = 1_024_251;
    judge(Rule::BoundHunter, &session, &other);
    for parent in 1..=5 {
        let mut other = tables.clone();
        other.parent[origin] = parent;
        judge(Rule::HunterParent, &session, &other);
    }
    // Each other cell.
    for cell in 0..9 {
        if cell == origin {
            continue;
        }
        for rhs in [tables.rhs[cell].wrapping_add(1), tables.rhs[cell].wrapping_sub(1)] {
            let mut other = tables.clone();
            other.rhs[cell] = rhs;
            judge(Rule::Rhs, &session, &other);
        }
        for parent in [5, 6, 255] {
            let mut other = tables.clone();
            other.parent[cell] = parent;
            judge(Rule::Parent, &session, &other);
        }
        let mut other = tables.clone();
        other.parent[cell] = if tables.rhs[cell] == INFINITE { 1 } else { 0 };
        judge(Rule::Parent, &session, &other);
        let mut other = tables.clone();
        other.g[cell] = 1_024_251;
        judge(Rule::BoundG, &session, &other);
        if tables.place[cell] == ABSENT {
            let mut other = tables.clone();
            other.k1[cell] = 1;
            judge(Rule::Absent, &session, &other);
            let mut other = tables.clone();
            other.k2[cell] = u32::MAX;
            judge(Rule::Absent, &session, &other);
            for place in [0, queued as u16, 8, 9, 65_534] {
                let mut other = tables.clone();
                other.place[cell] = place;
                judge(Rule::Agree, &session, &other);
            }
        } else {
            let mut other = tables.clone();
            other.place[cell] = ABSENT;
            judge(Rule::Agree, &session, &other);
            let mut other = tables.clone();
            other.k1[cell] = u32::MAX;
            judge(Rule::Keys, &session, &other);
            let mut other = tables.clone();
            other.k1[cell] += 1;
            other.k2[cell] = 0;
            judge(Rule::Keys, &session, &other);
            let mut other = tables.clone();
            other.k2[cell] += 1;
            judge(Rule::Keys, &session, &other);
        }
    }
    // The list.
    for index in 0..9 {
        for value in [9, 10, 65_534] {
            let mut other = tables.clone();
            other.list[index] = value;
            let rule = if index < queued { Rule::Agree } else { Rule::Absent };
            judge(rule, &session, &other);
        }
        let mut other = tables.clone();
        other.list[index] = if index < queued { ABSENT } else { 0 };
        let rule = if index < queued { Rule::Agree } else { Rule::Absent };
        judge(rule, &session, &other);
    }
    let mut other = tables.clone();
    other.list.swap(0, 1);
    judge(Rule::Agree, &session, &other);
    let (a, b) = (other.list[0] as usize, other.list[1] as usize);
    other.place[a] = 0;
    other.place[b] = 1;
    judge(Rule::Heap, &session, &other);

    // The kept side: lower keys, other least parents, a higher search number, km at its bound.
    let mut kept = |session: &Session, tables: &Tables| {
        count.yes("sound", is_sound(session, tables) && broken(session, tables).is_empty());
    };
    kept(&Session { searches: 1_000, ..session }, &tables);
    kept(&Session { km: 126, ..session }, &tables);
    kept(&Session { searches: 1_000, km: 126_000, ..session }, &tables);
    kept(&Session { hunter: 8, target: 0, ..session }, &tables);
    let mut other = tables.clone();
    let first = tables.list[0] as usize;
    other.k1[first] = 0;
    other.k2[first] = u32::MAX;
    kept(&session, &other);
    other.k2[first] = 0;
    kept(&session, &other);
    let mut other = tables.clone();
    let second = tables.list[1] as usize;
    other.k1[second] = 0;
    other.k2[second] = 0;
    count.yes("a lower key below a higher one is no heap", !is_sound(&session, &other));
}

/// The check takes any content of tables and record and gives the same answer in both wordings.
fn wild_contents(count: &mut Count) {
    for number in 0..4_000 {
        let mut chance = Chance::start(77, number);
        let width = 1 + chance.draw(3);
        let height = 1 + chance.draw(3);
        let cells = (width * height) as usize;
        let (mut session, mut tables) = if number % 2 == 0 {
            sound_tables(&mut chance, width, height)
        } else {
            let plan = draw_plan(&mut chance, width, height, 30, 250);
            (Session { width, height, ..Session::default() }, Tables::filled(plan, cells, 255))
        };
        for _ in 0..chance.draw(4) {
            let great = [0, 1, 5, 127, 255, 65_535, u32::MAX as u64 - 250, u32::MAX as u64 - 1, u32::MAX as u64];
            let value = great[chance.draw(9) as usize];
            let cell = chance.draw(cells as u64) as usize;
            match chance.draw(12) {
                0 => tables.plan[4 * cell] = value as u8,
                1 => tables.g[cell] = value as u32,
                2 => tables.rhs[cell] = value as u32,
                3 => tables.parent[cell] = value as u8,
                4 => tables.k1[cell] = value as u32,
                5 => tables.k2[cell] = value as u32,
                6 => tables.place[cell] = value as u16,
                7 => tables.list[cell] = value as u16,
                8 => session.km = value as u32,
                9 => session.searches = value as u32,
                10 => session.count = value * 4_294_967_297,
                _ => session.goal = value * 4_294_967_297,
            }
        }
        let sound = is_sound(&session, &tables);
        count.same("two wordings", broken(&session, &tables).is_empty(), sound);
        // Every call ends safely on it.
        let mut way = vec![0; cells];
        let mut other = tables.clone();
        let answer = change(&session, &mut other, 0, 1, 9).0;
        count.yes("change", sound == (answer != Answer::Refused(6)) || answer == Answer::Refused(1));
        let mut other = tables.clone();
        if sound {
            checked_search(&session, &mut other, &mut way, &mut Vec::new());
        } else {
            count.same("search", search(&session, &mut other, &mut way), (Answer::Refused(6), session));
            count.yes("search changed nothing", other == tables);
        }
    }
}

/// Room enough for all that is told.
const ROOM: usize = 20_000;

/// The cells that the hunter can reach and the shut moves that lead out of them, and how much room they take.
fn cells_reached(count: &mut Count) {
    let mut reaches = |what: &str, floor: Floor, hunter: u64, cells: u64, rows: Vec<u64>, moves: Vec<u16>| {
        let (height, out) = (rows.len(), moves.len());
        let wanted = Ok(Reached { cells, rows, moves });
        count.same(what, floor.reached(hunter, ROOM, ROOM), wanted.clone());
        count.same("as many rows as the plan, as many moves as lead out", floor.reached(hunter, height, out), wanted);
        count.same("a row too few", floor.reached(hunter, height - 1, out), Err(7));
        if out > 0 {
            count.same("a move too few", floor.reached(hunter, height, out - 1), Err(7));
        }
    };
    reaches("1 by 1", Floor { width: 1, height: 1, plan: &[255; 4] }, 0, 1, vec![1], vec![]);
    let two = Floor { width: 2, height: 1, plan: &[255; 8] };
    reaches("2 by 1 shut, from 0", two, 0, 1, vec![1], vec![1]);
    reaches("2 by 1 shut, from 1", two, 1, 1, vec![2], vec![7]);
    // One-way doors between cells 1 and 2: the way back is not asked.
    let row = row_of_three();
    let row = |bytes: [u8; 2]| [&row[..5], &[bytes[0]], &row[6..11], &[bytes[1]]].concat();
    reaches("both ways open", Floor { width: 3, height: 1, plan: &row([1, 1]) }, 0, 3, vec![7], vec![]);
    reaches("open out of the part", Floor { width: 3, height: 1, plan: &row([1, 255]) }, 0, 3, vec![7], vec![]);
    reaches("open into the part", Floor { width: 3, height: 1, plan: &row([255, 1]) }, 0, 2, vec![3], vec![5]);
    reaches("the same from the other side", Floor { width: 3, height: 1, plan: &row([255, 1]) }, 2, 3, vec![7], vec![]);
    // A shut move between two reached cells leads nowhere, and one out of a cell that is not reached is not told.
    let mut plan = even_plan(2, 2, 1);
    plan[1] = 255;
    reaches("shut inside the part", Floor { width: 2, height: 2, plan: &plan }, 0, 4, vec![3, 3], vec![]);
    (plan[2], plan[6], plan[7], plan[12]) = (255, 255, 255, 255);
    reaches("shut outside the part", Floor { width: 2, height: 2, plan: &plan }, 0, 1, vec![1, 0], vec![1, 2]);
    // The largest plan. Column 0 is the lowest bit, and cell 65 is column 1 of row 1.
    let full = even_plan(64, 64, 250);
    reaches("all open", Floor { width: 64, height: 64, plan: &full }, 0, 4_096, vec![u64::MAX; 64], vec![]);
    let mut alone = vec![0; 64];
    alone[1] = 2;
    let walls = vec![255; 4 * 4_096];
    reaches("all shut", Floor { width: 64, height: 64, plan: &walls }, 65, 1, alone, vec![260, 261, 262, 263]);
}

/// Reached: 1 2 3 4 5 7. Each plan has every later fault too, and then these are taken away one by one.
fn reached_refusals(count: &mut Count) {
    let mut refuses = |what: &str, width: u64, height: u64, hunter: u64, plan: &[u8], room: usize, number: u8| {
        count.same(what, Floor { width, height, plan }.reached(hunter, room, room), Err(number));
    };
    let sound = even_plan(3, 2, 3);
    // A 5 in the first inner move, and a 4 in the last move.
    let mut faulty = sound.clone();
    (faulty[1], faulty[22]) = (0, 1);
    for (width, height) in [(0, 2), (65, 2), (3, 0), (3, 65), (u64::MAX, 2), (1 << 32, 1 << 32)] {
        refuses("1", width, height, u64::MAX, &faulty[1..], 0, 1);
        refuses("1 alone", width, height, 0, &sound, ROOM, 1);
    }
    refuses("2, too short", 3, 2, 6, &faulty[1..], 0, 2);
    refuses("2, too long", 3, 2, 6, &[&faulty[..], &[255]].concat(), 0, 2);
    refuses("2 alone", 3, 2, 0, &sound[1..], ROOM, 2);
    refuses("3", 3, 2, 6, &faulty, 0, 3);
    refuses("3 alone", 3, 2, 6, &sound, ROOM, 3);
    refuses("3 of a great hunter", 3, 2, u64::MAX, &faulty, 0, 3);
    refuses("4 before an earlier 5", 3, 2, 5, &faulty, 0, 4);
    faulty[1] = 3;
    refuses("4 alone", 3, 2, 5, &faulty, ROOM, 4);
    for byte in [0, 251, 252, 253, 254] {
        let mut off = sound.clone();
        off[1] = byte;
        refuses("5", 3, 2, 5, &off, 0, 5);
        refuses("5 alone", 3, 2, 5, &off, ROOM, 5);
    }
    refuses("7", 3, 2, 5, &sound, 1, 7);
}

/// The running cost along lists of cells.
fn costs_along(count: &mut Count) {
    let mut told = |what: &str, width: u64, height: u64, plan: &[u8], list: &[u16], costs: &[u32]| {
        let floor = Floor { width, height, plan };
        count.same(what, floor.along(list, list.len()), Ok(costs.to_vec()));
        count.same("in more room", floor.along(list, ROOM), Ok(costs.to_vec()));
        count.same("a cost too few", floor.along(list, list.len() - 1), Err(7));
    };
    told("1 by 1", 1, 1, &[255; 4], &[0], &[0]);
    let row = [255, 5, 255, 255, 255, 7, 255, 2, 255, 255, 255, 255];
    told("one cell", 3, 1, &row, &[2], &[0]);
    told("N cells", 3, 1, &row, &[0, 1, 2], &[0, 5, 12]);
    told("a cell that comes again", 3, 1, &row, &[1, 0, 1], &[0, 2, 7]);
    let square = even_plan(2, 2, 250);
    told("all four directions", 2, 2, &square, &[0, 1, 3, 2], &[0, 250, 500, 750]);
    told("and the other way round", 2, 2, &square, &[0, 2, 3, 1], &[0, 250, 500, 750]);
    // The longest list of the largest plan, through every cell, to and fro row by row.
    let full = even_plan(64, 64, 250);
    let in_row = |row: u16| (0..64).map(move |at| 64 * row + if row % 2 == 0 { at } else { 63 - at });
    let snake: Vec<u16> = (0..64).flat_map(in_row).collect();
    let costs: Vec<u32> = (0..4_096).map(|moves| 250 * moves).collect();
    told("every cell of 64 by 64", 64, 64, &full, &snake, &costs);
}

/// Along: 1 2 3 4 5 7, with every 4 of plan and list before any 5.
fn along_refusals(count: &mut Count) {
    let mut refuses = |what: &str, width: u64, plan: &[u8], list: &[u16], room: usize, number: u8| {
        count.same(what, Floor { width, height: 2, plan }.along(list, room), Err(number));
    };
    let sound = even_plan(3, 2, 3);
    let with = |places: &[(usize, u8)]| {
        let mut plan = sound.clone();
        for &(at, byte) in places {
            plan[at] = byte;
        }
        plan
    };
    // Cell 0's move north leaves the plan; cell 5's move west stays in it, and so does cell 0's move east.
    let (edge, no_cost, shut) = ((0, 1), (23, 251), (1, 255));
    refuses("1", 0, &with(&[edge, no_cost])[1..], &[], 0, 1);
    refuses("1 alone", 65, &sound, &[0], 1, 1);
    refuses("2 of the plan", 3, &with(&[edge, no_cost])[1..], &[6, 6], 0, 2);
    refuses("2 of the plan alone", 3, &sound[1..], &[0], 1, 2);
    refuses("2, no cells", 3, &with(&[edge, no_cost]), &[], 0, 2);
    refuses("2, no cells, alone", 3, &sound, &[], 1, 2);
    refuses("2, N + 1 cells", 3, &with(&[edge, no_cost]), &[6; 7], 0, 2);
    refuses("2, N + 1 cells, alone", 3, &sound, &[0, 1, 0, 1, 0, 1, 0], 7, 2);
    for list in [[6, 7], [0, 6], [65_535, 0]] {
        refuses("3", 3, &with(&[edge, no_cost]), &list, 0, 3);
        refuses("3 alone", 3, &sound, &list, 2, 3);
    }
    // A cell beside itself, two cells apart, the last of a row and the first of the next, corner to corner.
    for list in [[0, 0], [0, 2], [2, 3], [3, 2], [0, 4]] {
        refuses("4 of the list", 3, &with(&[no_cost]), &list, 0, 4);
        refuses("4 of the list, alone", 3, &sound, &list, 2, 4);
        refuses("4 of the list before the plan's 5", 3, &with(&[(1, 251)]), &list, 2, 4);
    }
    refuses("4 at the end, behind a shut move", 3, &with(&[shut]), &[0, 1, 1], 3, 4);
    refuses("4 of the plan", 3, &with(&[edge, no_cost, shut]), &[0, 1], 0, 4);
    refuses("4 of the plan, alone", 3, &with(&[edge]), &[0, 1], 2, 4);
    for byte in [0, 251, 252, 253, 254] {
        refuses("5 of the plan", 3, &with(&[(23, byte)]), &[0, 1], 0, 5);
        refuses("5 of the plan, alone", 3, &with(&[(23, byte)]), &[0, 1], 2, 5);
    }
    refuses("5, a shut move", 3, &with(&[shut]), &[0, 1], 0, 5);
    refuses("5, a shut move, alone", 3, &with(&[shut]), &[4, 3, 0, 1], 4, 5);
    refuses("7, though the shut door is open the other way", 3, &with(&[shut]), &[1, 0], 1, 7);
    let back = Floor { width: 3, height: 2, plan: &with(&[shut]) }.along(&[1, 0], 2);
    count.same("shut one way only, walked the other way", back, Ok(vec![0, 3]));
}

/// The least cost through one named move.
fn costs_through(count: &mut Count) {
    let mut told = |what: &str, width: u64, height: u64, plan: &[u8], given: [u64; 4], cost: Option<u64>| {
        let [hunter, target, cell, direction] = given;
        count.same(what, Floor { width, height, plan }.through(hunter, target, cell, direction), Ok(cost));
    };
    let row = [255, 5, 255, 255, 255, 7, 255, 2, 255, 255, 255, 11];
    told("the move alone", 3, 1, &row, [0, 1, 0, 1], Some(5));
    told("on the way", 3, 1, &row, [0, 2, 1, 1], Some(12));
    told("there and back", 3, 1, &row, [0, 0, 0, 1], Some(7));
    told("hunter and target in the cell entered", 3, 1, &row, [1, 1, 0, 1], Some(7));
    told("cells twice: past the target and back", 3, 1, &row, [0, 1, 1, 1], Some(23));
    told("back for the named move", 3, 1, &row, [1, 2, 0, 1], Some(14));
    told("against the way, and another move twice", 3, 1, &row, [0, 2, 1, 3], Some(19));
    // Cell 2 has no way back.
    let one_way = [255, 5, 255, 255, 255, 7, 255, 2, 255, 255, 255, 255];
    told("the target is reachable, but not from the cell entered", 3, 1, &one_way, [0, 1, 1, 1], None);
    told("the cell left is not reachable", 3, 1, &one_way, [2, 2, 0, 1], None);
    // A dear move is taken if it is named, and what is before and behind it is the cheapest.
    let mut square = even_plan(2, 2, 1);
    (square[1], square[6]) = (9, 4);
    told("dear, and then back and round by 0 and 2", 2, 2, &square, [0, 3, 0, 1], Some(12));
    told("round by 2 and 3", 2, 2, &square, [0, 1, 3, 0], Some(3));
    told("the greatest cost", 64, 64, &even_plan(64, 64, 250), [0, 4_095, 63, 2], Some(126 * 250));
}

/// Through: 1 2 3 4 5, with every 4 of plan and move before any 5.
fn through_refusals(count: &mut Count) {
    let sound = even_plan(3, 2, 3);
    let mut faulty = sound.clone();
    (faulty[1], faulty[22]) = (0, 1);
    let mut refuses = |what: &str, width: u64, plan: &[u8], given: [u64; 4], number: u8| {
        let [hunter, target, cell, direction] = given;
        count.same(what, Floor { width, height: 2, plan }.through(hunter, target, cell, direction), Err(number));
    };
    refuses("1", 65, &faulty[1..], [6, 6, 6, 4], 1);
    refuses("1 alone", 0, &sound, [0, 0, 0, 1], 1);
    refuses("2", 3, &faulty[1..], [6, 6, 6, 4], 2);
    refuses("2 alone", 3, &sound[1..], [0, 0, 0, 1], 2);
    for outside in [6, u64::MAX] {
        for given in [[outside, 0, 0, 4], [0, outside, 0, 4], [0, 0, outside, 4]] {
            refuses("3 before direction 4", 3, &faulty, given, 3);
            refuses("3 alone", 3, &sound, given.map(|number| if number == 4 { 1 } else { number }), 3);
        }
    }
    refuses("4 of the plan before an earlier 5", 3, &faulty, [0, 0, 0, 1], 4);
    faulty[22] = 255;
    for direction in [4, 255, 256, 257, u64::MAX] {
        refuses("4 of the direction before a 5", 3, &faulty, [0, 0, 0, direction], 4);
        refuses("4 of the direction alone", 3, &sound, [0, 0, 0, direction], 4);
    }
    for (cell, direction) in [(0, 0), (2, 1), (5, 2), (3, 3)] {
        refuses("4, the move leaves the plan, before a 5", 3, &faulty, [0, 0, cell, direction], 4);
        refuses("4, the move leaves the plan", 3, &sound, [0, 0, cell, direction], 4);
    }
    refuses("5 of the plan", 3, &faulty, [0, 0, 4, 1], 5);
    for byte in [0, 251, 254, 255] {
        faulty[1] = byte;
        refuses("5 of the named move", 3, &faulty, [0, 0, 0, 1], 5);
    }
}

/// On drawn plans all of this is what Dijkstra's costs give.
fn reasons_by_dijkstra(count: &mut Count) {
    for number in 0..300 {
        let mut chance = Chance::start(78, number);
        let (width, height) = (1 + chance.draw(9), 1 + chance.draw(9));
        let cells = width * height;
        let shut = [0, 20, 45, 70][chance.draw(4) as usize];
        let plan = draw_plan(&mut chance, width, height, shut, 9);
        let floor = Floor { width, height, plan: &plan };
        let (hunter, target) = (chance.draw(cells), chance.draw(cells));
        let far = distances(width, height, &plan, hunter as usize);
        let reached = floor.reached(hunter, ROOM, ROOM).expect("a sound plan and room enough");
        let bit = |cell: u64| reached.rows[(cell / width) as usize] >> (cell % width) & 1 == 1;
        count.yes("the bits", (0..cells).all(|cell| bit(cell) == far[cell as usize].is_some()));
        count.same("the number", reached.cells, far.iter().flatten().count() as u64);
        let told: Vec<bool> = (0..4 * cells as u16).map(|at| reached.moves.contains(&at)).collect();
        let leads_out = |at: usize| {
            let entered = neighbour(width, height, at / 4, at % 4);
            plan[at] == 255 && far[at / 4].is_some() && entered.is_some_and(|entered| far[entered].is_none())
        };
        count.yes("the moves", told.iter().enumerate().all(|(at, &told)| told == leads_out(at)));
        count.yes("in rising order", reached.moves.windows(2).all(|pair| pair[0] < pair[1]));
        for (at, &byte) in plan.iter().enumerate().filter(|(_, &byte)| byte != 255) {
            let entered = neighbour(width, height, at / 4, at % 4).expect("an open move stays in the plan");
            let rest = distances(width, height, &plan, entered)[target as usize];
            let cost = far[at / 4].and_then(|there| Some(there + byte as u64 + rest?));
            count.same("through", floor.through(hunter, target, at as u64 / 4, at as u64 % 4), Ok(cost));
        }
    }
}

/// The first numbers of the generator, which PROTOCOL.md names too.
fn fixed_generator(count: &mut Count) {
    let mut chance = Chance::start(1, 0);
    let drawn: Vec<u64> = (0..5).map(|_| chance.next()).collect();
    count.same("generator", drawn, compare::chance::FIRST_OF_SEED_1.to_vec());
}
