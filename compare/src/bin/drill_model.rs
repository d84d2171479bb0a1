//! The drill runner: `drill_model FILE`, or `drill_model` to read standard input.

use std::io::{Read, Write};

fn main() {
    let mut file = Vec::new();
    match std::env::args().nth(1) {
        Some(name) => file = std::fs::read(name).expect("the drill file can be read"),
        None => {
            std::io::stdin().read_to_end(&mut file).expect("standard input can be read");
        }
    }
    let lines = compare::drill::run(&file);
    std::io::stdout().write_all(lines.as_bytes()).expect("standard output can be written");
}
