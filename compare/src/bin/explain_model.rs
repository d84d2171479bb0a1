//! What the program `explain` has to print of the plan, hunter and target that a drill file opens with:
//!
//!     explain_model FILE                         the cells that the hunter can reach, the shut moves that lead out
//!     explain_model FILE along CELL..            the running cost at each of these cells
//!     explain_model FILE through CELL DIRECTION  the least cost through this move
//!
//! A badly formed file is refused by the number of its form, whatever is asked; then the question is refused by its own rules.

use compare::drill::{self, Drill};
use compare::explain::{Floor, Reached};

const DIRECTIONS: [&str; 4] = ["north", "east", "south", "west"];

/// More than any plan needs.
const ROOM: usize = 20_000;

/// What is asked of a drill.
enum Question {
    Reached,
    Along(Vec<u16>),
    Through { cell: u64, direction: u64 },
}

/// Reads a number. One that is too great for its bytes is too great for every plan, and stays so.
fn number(word: &str) -> Option<u64> {
    let digits = !word.is_empty() && word.bytes().all(|byte| byte.is_ascii_digit());
    digits.then(|| word.parse().unwrap_or(u64::MAX))
}

/// Reads the words behind the file's name.
fn question(words: &[String]) -> Option<Question> {
    match words {
        [] => Some(Question::Reached),
        [word, cells @ ..] if word == "along" => {
            let cell = |word: &String| Some(number(word)?.min(u16::MAX as u64) as u16);
            Some(Question::Along(cells.iter().map(cell).collect::<Option<_>>()?))
        }
        [word, cell, towards] if word == "through" => {
            let direction = DIRECTIONS.iter().position(|name| name == towards)? as u64;
            Some(Question::Through { cell: number(cell)?, direction })
        }
        _ => None,
    }
}

/// The lines of what is reached.
fn reached_lines(Reached { cells, rows, moves }: Reached) -> Vec<String> {
    let mut lines = vec![format!("reached {}", cells)];
    lines.extend(rows.iter().enumerate().map(|(row, bits)| format!("row {} {}", row, bits)));
    lines.extend(moves.iter().map(|&at| format!("shut {} {}", at / 4, DIRECTIONS[at as usize % 4])));
    lines
}

/// The lines of an answer, or the number by which file or question is refused.
fn answer(file: &[u8], question: &Question) -> Result<Vec<String>, u8> {
    let Drill { width, height, hunter, target, plan, .. } = drill::formed(file)?;
    let floor = Floor { width, height, plan: &plan };
    Ok(match question {
        Question::Reached => reached_lines(floor.reached(hunter, ROOM, ROOM)?),
        Question::Along(cells) => {
            let costs = floor.along(cells, ROOM)?;
            cells.iter().zip(costs).map(|(cell, cost)| format!("cost {} {}", cell, cost)).collect()
        }
        Question::Through { cell, direction } => match floor.through(hunter, target, *cell, *direction)? {
            Some(cost) => vec![format!("through {}", cost)],
            None => vec!["no walk".to_string()],
        },
    })
}

fn main() {
    let words: Vec<String> = std::env::args().skip(1).collect();
    let Some((name, question)) = words.split_first().and_then(|(name, rest)| Some((name, question(rest)?))) else {
        eprintln!("usage: explain_model FILE [along CELL.. | through CELL north|east|south|west]");
        std::process::exit(2);
    };
    let file = std::fs::read(name).expect("the drill file can be read");
    let lines = answer(&file, &question).unwrap_or_else(|number| vec![format!("refused {}", number)]);
    for line in lines {
        println!("{}", line);
    }
}
