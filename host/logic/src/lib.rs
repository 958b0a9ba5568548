//! For those who hold their own logic against the clocked queues: waveforms ([`wave`]), pictures ([`show`]) and a scoreboard
//! ([`hold`]) of a trace that the proved library plays.
#![deny(missing_docs)]

pub mod dump;
pub mod hold;
pub mod machine;
pub mod run;
pub mod show;
pub mod wave;
