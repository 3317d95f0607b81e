//! What is compared: the library, or in tests the fast implementation.

/// The answer where a record, figures or a start are refused, or the trace is too short.
pub const REFUSED: u32 = 0xFFFF_FFFF;

pub trait Player {
    /// Plays turns on a board over the ranking of a record, and writes the trace. Answers the number of its words.
    fn play_listing(&self, words: &[u32], start: &[u32], turns: &[u8], trace: &mut [u32]) -> u32;

    /// The same over figures, three for each party, streams first.
    fn play_scoring(&self, figures: &[u16], streams: u8, start: &[u32], turns: &[u8], trace: &mut [u32]) -> u32;

    /// Makes a new board `boards` times, gives turns in rotation until all parties were idle in a row, and answers the
    /// number of turns.
    fn settle_listing(&self, words: &[u32], boards: u32) -> u64;
}
