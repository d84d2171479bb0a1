//! Writes random drill files for two runners to be compared by their output:
//! `make_drills SEED COUNT FOLDER`. Most files are well formed, some are damaged in one byte,
//! cut, or lengthened.

use compare::chance::Chance;
use compare::drawn::draw_drill;

fn main() {
    let arguments: Vec<String> = std::env::args().collect();
    if arguments.len() < 4 {
        eprintln!("usage: make_drills SEED COUNT FOLDER");
        std::process::exit(2);
    }
    let seed: u64 = arguments[1].parse().expect("SEED is a number");
    let count: u64 = arguments[2].parse().expect("COUNT is a number");
    std::fs::create_dir_all(&arguments[3]).expect("the folder can be made");
    for index in 0..count {
        let mut chance = Chance::start(seed, index);
        let file = draw_file(&mut chance, index);
        let name = format!("{}/drill-{}-{}", arguments[3], seed, index);
        std::fs::write(name, file).expect("the drill file can be written");
    }
}

/// Draws a drill file: every tenth of any size and every fiftieth of a full plan, and every fourth damaged.
fn draw_file(chance: &mut Chance, index: u64) -> Vec<u8> {
    let most = if index % 10 == 9 { 64 } else { 6 };
    let (width, height) = match index % 50 {
        49 => (64, 64),
        _ => {
            let width = 1 + chance.draw(most);
            (width, 1 + chance.draw(most))
        }
    };
    let drill = draw_drill(chance, width, height, index % 100 == 99);
    let mut file = drill.file();
    if index % 4 == 3 {
        damage(chance, &mut file, drill.plan.len() as u64);
    }
    file
}

/// Cuts the file, lengthens it, or changes a byte of it.
fn damage(chance: &mut Chance, file: &mut Vec<u8>, plan: u64) {
    let length = file.len() as u64;
    match chance.draw(6) {
        0 => {
            let keep = chance.draw(length) as usize;
            file.truncate(keep);
        }
        1 => file.insert(0, chance.draw(256) as u8),
        2 => file[(length - 1 - chance.draw(12)) as usize] = chance.draw(256) as u8,
        3 => file[chance.draw(plan) as usize] = chance.draw(256) as u8,
        4 => file[(length - 1 - chance.draw(12)) as usize] ^= 1,
        _ => file[chance.draw(length) as usize] = chance.draw(256) as u8,
    }
}
