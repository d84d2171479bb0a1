//! The C interface for Rust: the functions of `rongdhesi.h` over slices. The header says what each of them does.
//! A slice carries its own length and overlaps no other that is lent to be written, so these functions are safe.
//! Kept by hand, as the header is.

pub const SHUT: u64 = 255;

pub const GREATEST_FILE: usize = 65_536;

pub const DONE: u64 = 0;
pub const WAY: u64 = 1;
pub const NONE: u64 = 2;
pub const CAUGHT: u64 = 3;
pub const REFUSED: u64 = 4;

/// The session record, in the layout of C.
#[repr(C)]
#[derive(Clone, Copy, Debug, Default, PartialEq, Eq)]
pub struct Session {
    pub width: u64,
    pub height: u64,
    pub hunter: u64,
    pub target: u64,
    pub origin: u64,
    pub goal: u64,
    pub km: u32,
    pub count: u64,
    pub searches: u32,
}

/// What a call returns, in the layout of C.
#[repr(C)]
#[derive(Clone, Copy, Debug, PartialEq, Eq)]
pub struct Reply {
    pub session: Session,
    pub kind: u64,
    pub refusal: u64,
    pub cost: u64,
    pub steps: u64,
    pub cells: u64,
}

/// The lengths of the tables for a size, in the layout of C.
#[repr(C)]
#[derive(Clone, Copy, Debug, PartialEq, Eq)]
pub struct Lengths {
    pub refusal: u64,
    pub plan: u64,
    pub cells: u64,
}

/// What `write_drill` returns, in the layout of C.
#[repr(C)]
#[derive(Clone, Copy, Debug, PartialEq, Eq)]
pub struct Written {
    pub refusal: u64,
    pub bytes: u64,
}

/// What `explain_reached` returns, in the layout of C.
#[repr(C)]
#[derive(Clone, Copy, Debug, PartialEq, Eq)]
pub struct Reached {
    pub refusal: u64,
    pub cells: u64,
    pub moves: u64,
}

/// What `explain_along` returns, in the layout of C.
#[repr(C)]
#[derive(Clone, Copy, Debug, PartialEq, Eq)]
pub struct Running {
    pub refusal: u64,
    pub costs: u64,
}

/// What `explain_through` returns, in the layout of C.
#[repr(C)]
#[derive(Clone, Copy, Debug, PartialEq, Eq)]
pub struct Through {
    pub refusal: u64,
    pub walk: u64,
    pub cost: u64,
}

/// The tables but the plan and the way list, lent to a call.
pub struct Lent<'a> {
    pub g: &'a mut [u32],
    pub rhs: &'a mut [u32],
    pub parent: &'a mut [u8],
    pub k1: &'a mut [u32],
    pub k2: &'a mut [u32],
    pub place: &'a mut [u16],
    pub list: &'a mut [u16],
}

/// Lends the tables of a struct whose fields are named as those of `Lent`, one by one, so that the plan and the way list,
/// if they stand in the same struct, can be lent beside them: `rongdhesi::search(session, &t.plan, lent!(t), &mut t.way)`.
/// This file has to be the module `rongdhesi` at the root of its crate.
#[allow(unused_macros)]
macro_rules! lent {
    ($tables:expr) => {
        $crate::rongdhesi::Lent {
            g: &mut $tables.g,
            rhs: &mut $tables.rhs,
            parent: &mut $tables.parent,
            k1: &mut $tables.k1,
            k2: &mut $tables.k2,
            place: &mut $tables.place,
            list: &mut $tables.list,
        }
    };
}
#[allow(unused_imports)]
pub(crate) use lent;

mod c {
    use super::{Lengths, Reached, Reply, Running, Session, Through, Written};

    extern "C" {
        pub fn rongdhesi_lengths(width: u64, height: u64) -> Lengths;
        pub fn rongdhesi_open(
            width: u64, height: u64, hunter: u64, target: u64,
            plan: *const u8, plan_length: usize,
            g: *mut u32, g_length: usize,
            rhs: *mut u32, rhs_length: usize,
            parent: *mut u8, parent_length: usize,
            k1: *mut u32, k1_length: usize,
            k2: *mut u32, k2_length: usize,
            place: *mut u16, place_length: usize,
            list: *mut u16, list_length: usize,
        ) -> Reply;
        pub fn rongdhesi_place_hunter(session: Session, cell: u64) -> Reply;
        pub fn rongdhesi_place_target(session: Session, cell: u64) -> Reply;
        pub fn rongdhesi_change_move(
            session: Session,
            plan: *mut u8, plan_length: usize,
            g: *const u32, g_length: usize,
            rhs: *mut u32, rhs_length: usize,
            parent: *mut u8, parent_length: usize,
            k1: *mut u32, k1_length: usize,
            k2: *mut u32, k2_length: usize,
            place: *mut u16, place_length: usize,
            list: *mut u16, list_length: usize,
            cell: u64, direction: u64, cost: u64,
        ) -> Reply;
        pub fn rongdhesi_search(
            session: Session,
            plan: *const u8, plan_length: usize,
            g: *mut u32, g_length: usize,
            rhs: *mut u32, rhs_length: usize,
            parent: *mut u8, parent_length: usize,
            k1: *mut u32, k1_length: usize,
            k2: *mut u32, k2_length: usize,
            place: *mut u16, place_length: usize,
            list: *mut u16, list_length: usize,
            way: *mut u16, way_length: usize,
        ) -> Reply;
        pub fn rongdhesi_write_drill(
            width: u64, height: u64, hunter: u64, target: u64,
            plan: *const u8, plan_length: usize,
            actions: *const u8, actions_length: usize,
            file: *mut u8, file_length: usize,
        ) -> Written;
        pub fn rongdhesi_explain_reached(
            width: u64, height: u64, hunter: u64,
            plan: *const u8, plan_length: usize,
            rows: *mut u64, rows_length: usize,
            moves: *mut u16, moves_length: usize,
        ) -> Reached;
        pub fn rongdhesi_explain_along(
            width: u64, height: u64,
            plan: *const u8, plan_length: usize,
            cells: *const u16, cells_length: usize,
            costs: *mut u32, costs_length: usize,
        ) -> Running;
        pub fn rongdhesi_explain_through(
            width: u64, height: u64, hunter: u64, target: u64,
            plan: *const u8, plan_length: usize,
            cell: u64, direction: u64,
        ) -> Through;
    }
}

pub fn lengths(width: u64, height: u64) -> Lengths {
    unsafe { c::rongdhesi_lengths(width, height) }
}

pub fn open(width: u64, height: u64, hunter: u64, target: u64, plan: &[u8], t: Lent) -> Reply {
    unsafe {
        c::rongdhesi_open(
            width, height, hunter, target,
            plan.as_ptr(), plan.len(),
            t.g.as_mut_ptr(), t.g.len(),
            t.rhs.as_mut_ptr(), t.rhs.len(),
            t.parent.as_mut_ptr(), t.parent.len(),
            t.k1.as_mut_ptr(), t.k1.len(),
            t.k2.as_mut_ptr(), t.k2.len(),
            t.place.as_mut_ptr(), t.place.len(),
            t.list.as_mut_ptr(), t.list.len(),
        )
    }
}

pub fn place_hunter(session: Session, cell: u64) -> Reply {
    unsafe { c::rongdhesi_place_hunter(session, cell) }
}

pub fn place_target(session: Session, cell: u64) -> Reply {
    unsafe { c::rongdhesi_place_target(session, cell) }
}

pub fn change_move(session: Session, plan: &mut [u8], t: Lent, cell: u64, direction: u64, cost: u64) -> Reply {
    unsafe {
        c::rongdhesi_change_move(
            session,
            plan.as_mut_ptr(), plan.len(),
            t.g.as_ptr(), t.g.len(),
            t.rhs.as_mut_ptr(), t.rhs.len(),
            t.parent.as_mut_ptr(), t.parent.len(),
            t.k1.as_mut_ptr(), t.k1.len(),
            t.k2.as_mut_ptr(), t.k2.len(),
            t.place.as_mut_ptr(), t.place.len(),
            t.list.as_mut_ptr(), t.list.len(),
            cell, direction, cost,
        )
    }
}

pub fn search(session: Session, plan: &[u8], t: Lent, way: &mut [u16]) -> Reply {
    unsafe {
        c::rongdhesi_search(
            session,
            plan.as_ptr(), plan.len(),
            t.g.as_mut_ptr(), t.g.len(),
            t.rhs.as_mut_ptr(), t.rhs.len(),
            t.parent.as_mut_ptr(), t.parent.len(),
            t.k1.as_mut_ptr(), t.k1.len(),
            t.k2.as_mut_ptr(), t.k2.len(),
            t.place.as_mut_ptr(), t.place.len(),
            t.list.as_mut_ptr(), t.list.len(),
            way.as_mut_ptr(), way.len(),
        )
    }
}

pub fn write_drill(width: u64, height: u64, hunter: u64, target: u64, plan: &[u8], actions: &[u8], file: &mut [u8]) -> Written {
    unsafe {
        c::rongdhesi_write_drill(
            width, height, hunter, target,
            plan.as_ptr(), plan.len(),
            actions.as_ptr(), actions.len(),
            file.as_mut_ptr(), file.len(),
        )
    }
}

pub fn explain_reached(width: u64, height: u64, hunter: u64, plan: &[u8], rows: &mut [u64], moves: &mut [u16]) -> Reached {
    unsafe {
        c::rongdhesi_explain_reached(
            width, height, hunter,
            plan.as_ptr(), plan.len(),
            rows.as_mut_ptr(), rows.len(),
            moves.as_mut_ptr(), moves.len(),
        )
    }
}

pub fn explain_along(width: u64, height: u64, plan: &[u8], cells: &[u16], costs: &mut [u32]) -> Running {
    unsafe {
        c::rongdhesi_explain_along(
            width, height,
            plan.as_ptr(), plan.len(),
            cells.as_ptr(), cells.len(),
            costs.as_mut_ptr(), costs.len(),
        )
    }
}

pub fn explain_through(width: u64, height: u64, hunter: u64, target: u64, plan: &[u8], cell: u64, direction: u64) -> Through {
    unsafe {
        c::rongdhesi_explain_through(
            width, height, hunter, target,
            plan.as_ptr(), plan.len(),
            cell, direction,
        )
    }
}
