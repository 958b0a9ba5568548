//! The card's library held to the plain models, call by call and word by word.
//!
//! `desk` is where every queue is held to its model: it makes a call on both sides, compares everything and counts what was answered. What a
//! queue is to the desk, a `Subject`, stands in `queues`, of lines in `lines`; `drive` works any queue of elements by itself, and any that goes by cycles.
//!
//! The tree, the bucket queue and the clocked tree share one subject (`side`) and have calls of their own: `harness` is their desk,
//! `coverage` says what must have been met. The calls come from `cases` (the paper's), `histories` (from cleared stores), `large` (to the
//! brim of large trees) and `hostile` (from any).

pub mod cases;
pub mod coverage;
pub mod desk;
pub mod drive;
pub mod harness;
pub mod histories;
pub mod hostile;
pub mod large;
pub mod lines;
pub mod queues;
pub mod side;
