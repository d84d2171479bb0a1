//! A second source of the planner of document 01 and of what document 02 adds, written from the papers alone.
//! It exists to be compared with another implementation, call by call.

pub mod calls;
pub mod chance;
pub mod dijkstra;
pub mod drawn;
pub mod drill;
pub mod explain;
pub mod made;
pub mod model;
pub mod play;
pub mod rounds;
pub mod rules;
pub mod spoil;
