//! `rewrites FILE` takes a drill file apart and writes it again through the C interface.
//!
//! A file that the reader takes has to come out byte for byte, which prints `written again`. One that it refuses has to
//! be refused by the writer, which prints `refused` and the number: the reader's own, but that the writer looks at the
//! plan before the actions. Where the trailer does not fit the file there are no parts to write: `no parts`. Anything
//! else is told in one line on standard error, and the exit status is 1.

#[path = "../../include/rongdhesi.rs"]
#[allow(dead_code)]
mod rongdhesi;
mod written;

use compare::drill::{self, Drill, Trailer};

/// The parts that a file is written again from: those that its trailer tells, of a size that is none the size alone.
fn parts_of(file: &[u8]) -> Option<Drill> {
    match drill::taken_apart(file) {
        Ok(drill) => Some(drill),
        Err(1) => {
            let Trailer { width, height, .. } = Trailer::of(file)?;
            Some(Drill { width: width as u64, height: height as u64, ..Drill::default() })
        }
        Err(_) => None,
    }
}

/// The answer that is due: the number by which the reader refuses the drill without its actions, or else the drill with
/// them, or else the file.
fn due(file: &[u8], parts: &Drill) -> Result<Vec<u8>, u8> {
    let alone = Drill { actions: Vec::new(), ..parts.clone() };
    drill::read(&alone.file())?;
    drill::read(file)?;
    Ok(file.to_vec())
}

/// An answer in a few words.
fn told(answer: &Result<Vec<u8>, u8>) -> String {
    match answer {
        Ok(file) => format!("a file of {} bytes", file.len()),
        Err(number) => format!("refused {}", number),
    }
}

/// Writes a file again, in a room that it fills. Gives the line to print, or what is wrong.
fn rewritten(file: &[u8]) -> Result<String, String> {
    let Some(parts) = parts_of(file) else {
        return Ok("no parts".to_string());
    };
    let (came, due) = (written::write(&parts, file.len())?, due(file, &parts));
    match &came {
        _ if came != due => Err(format!("{} came, due was {}", told(&came), told(&due))),
        Ok(_) => Ok("written again".to_string()),
        Err(_) => Ok(told(&came)),
    }
}

/// Reads the file that is named and writes it again.
fn run() -> Result<String, String> {
    let name = std::env::args().nth(1).ok_or("usage: rewrites FILE")?;
    let file = std::fs::read(&name).map_err(|error| format!("{}: {}", name, error))?;
    rewritten(&file)
}

fn main() {
    match run() {
        Ok(line) => println!("{}", line),
        Err(fault) => {
            eprintln!("rewrites: {}", fault);
            std::process::exit(1);
        }
    }
}
