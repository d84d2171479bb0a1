//! Records and tables spoiled: a byte flipped, or a table too short or too long.

use crate::calls::Side;
use crate::model::{Session, Tables};

/// Flips bits of one byte of a table or of the record.
pub fn flip(side: &mut Side, table: usize, byte: usize, bits: u8) {
    let t = &mut side.tables;
    let word = |entry: &mut u32| *entry ^= (bits as u32) << (8 * (byte % 4));
    let half = |entry: &mut u16| *entry ^= (bits as u16) << (8 * (byte % 2));
    match table {
        0 => t.plan[byte] ^= bits,
        1 => word(&mut t.g[byte / 4]),
        2 => word(&mut t.rhs[byte / 4]),
        3 => t.parent[byte] ^= bits,
        4 => word(&mut t.k1[byte / 4]),
        5 => word(&mut t.k2[byte / 4]),
        6 => half(&mut t.place[byte / 2]),
        7 => half(&mut t.list[byte / 2]),
        _ => {
            let mut places = Session::BYTES.iter().enumerate().flat_map(|(field, &bytes)| (0..bytes).map(move |at| (field, at)));
            let (field, at) = places.nth(byte).expect("a byte of the record");
            flip_field(&mut side.session, field, (bits as u64) << (8 * at));
        }
    }
}

/// Flips bits of one field of the record.
pub fn flip_field(session: &mut Session, field: usize, bits: u64) {
    session.set(field, session.numbers()[field] ^ bits);
}

/// Makes one of the eight tables one entry longer or shorter.
pub fn cut(tables: &mut Tables, table: u64, longer: bool) {
    match table {
        0 => cut_one(&mut tables.plan, longer),
        1 => cut_one(&mut tables.g, longer),
        2 => cut_one(&mut tables.rhs, longer),
        3 => cut_one(&mut tables.parent, longer),
        4 => cut_one(&mut tables.k1, longer),
        5 => cut_one(&mut tables.k2, longer),
        6 => cut_one(&mut tables.place, longer),
        _ => cut_one(&mut tables.list, longer),
    }
}

/// Makes a table one entry longer or shorter.
pub fn cut_one<T: Copy + Default>(table: &mut Vec<T>, longer: bool) {
    if longer {
        table.push(T::default());
    } else {
        table.pop();
    }
}
