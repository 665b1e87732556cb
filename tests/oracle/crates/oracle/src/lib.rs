//! The original Rust as the judge, and what is made for it to judge.

pub mod answer;
pub mod calls;
pub mod figures;
pub mod generate;
pub mod record;
pub mod sketches;
pub mod time;
