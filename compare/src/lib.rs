//! An implementation of docs/procedure.md that shares nothing with the library, a fast one, and what compares and measures.

pub mod bench;
pub mod cases;
pub mod fast;
pub mod generate;
pub mod known;
pub mod ordered;
pub mod plain;
pub mod player;
pub mod prng;
pub mod rankings;
pub mod record;
pub mod search;
pub mod start;
pub mod suite;
pub mod trace;
