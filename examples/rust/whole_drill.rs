//! Plays document 01's whole drill through the C interface and prints its six lines.

#[path = "../../include/rongdhesi.rs"]
#[allow(dead_code)]
mod rongdhesi;

use rongdhesi::{lent, Reply, Session, CAUGHT, NONE, REFUSED, SHUT, WAY};

const WIDTH: u64 = 3;
const HEIGHT: u64 = 1;
const CELLS: usize = 3;

/// A session with its tables.
struct Drill {
    session: Session,
    plan: [u8; 4 * CELLS],
    g: [u32; CELLS],
    rhs: [u32; CELLS],
    parent: [u8; CELLS],
    k1: [u32; CELLS],
    k2: [u32; CELLS],
    place: [u16; CELLS],
    list: [u16; CELLS],
    way: [u16; CELLS],
}

impl Drill {
    /// Keeps the record that a call returned, and says if the call was refused.
    fn keep(&mut self, reply: Reply) {
        self.session = reply.session;
        if reply.kind == REFUSED {
            println!("refused {}", reply.refusal);
        }
    }

    fn open(&mut self, hunter: u64, target: u64) {
        let reply = rongdhesi::open(WIDTH, HEIGHT, hunter, target, &self.plan, lent!(self));
        self.keep(reply);
    }

    fn hunter(&mut self, cell: u64) {
        self.keep(rongdhesi::place_hunter(self.session, cell));
    }

    fn target(&mut self, cell: u64) {
        self.keep(rongdhesi::place_target(self.session, cell));
    }

    fn change(&mut self, cell: u64, direction: u64, cost: u64) {
        let reply = rongdhesi::change_move(self.session, &mut self.plan, lent!(self), cell, direction, cost);
        self.keep(reply);
    }

    fn search(&mut self) {
        let reply = rongdhesi::search(self.session, &self.plan, lent!(self), &mut self.way);
        self.keep(reply);
        let cells: Vec<String> = self.way[..reply.cells as usize].iter().map(u16::to_string).collect();
        match reply.kind {
            WAY => println!("way {} steps {}: {}", reply.cost, reply.steps, cells.join(" ")),
            NONE => println!("none steps {}", reply.steps),
            CAUGHT => println!("caught at {}", cells[0]),
            _ => {}
        }
    }
}

fn main() {
    let mut drill = Drill {
        session: Session::default(),
        plan: [255, 1, 255, 255, 255, 1, 255, 1, 255, 255, 255, 1],
        g: [0; CELLS],
        rhs: [0; CELLS],
        parent: [0; CELLS],
        k1: [0; CELLS],
        k2: [0; CELLS],
        place: [0; CELLS],
        list: [0; CELLS],
        way: [0; CELLS],
    };
    drill.open(0, 2);
    drill.search();
    drill.change(1, 1, SHUT);
    drill.search();
    drill.change(1, 1, 5);
    drill.search();
    drill.hunter(1);
    drill.search();
    drill.target(0);
    drill.search();
    drill.target(1);
    drill.search();
}
