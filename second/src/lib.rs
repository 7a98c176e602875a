//! The second program: everything that document 01 says, and what document 02 says of months and of the bridge cable, by
//! the plainest algorithm. It stands beside the proved code and shares nothing with it; where the two differ, one of them
//! has misread the paper.

pub mod answer;
pub mod batch;
pub mod build;
pub mod cable;
pub mod calls;
pub mod file;
pub mod generate;
pub mod listing;
pub mod model;
pub mod month;
pub mod samples;
pub mod sent;
pub mod skeleton;
pub mod subfields;
pub mod tree;
pub mod update;
pub mod written;

pub use answer::{answer, Answered};
