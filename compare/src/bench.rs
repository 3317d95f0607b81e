//! Turns per second on new boards of 16 by 16 with full random rankings: the fast implementation and the library, which
//! look through the ranks of an open set; and for information the one over places in order.

use crate::fast::{Fast, RIGHT};
use crate::generate;
use crate::ordered::Ordered;
use crate::player::Player;
use crate::prng::Prng;
use crate::record;
use std::hint::black_box;
use std::time::Instant;

/// The library may take this much of the fast implementation's time.
pub const MOST_RATIO: f64 = 1.5;

const RECORDS: usize = 64;
const BOARDS: u32 = 200;
const ROUNDS: usize = 15;

// Settles boards of every record. Answers the seconds and the turns.
fn round(player: &dyn Player, records: &[Vec<u32>]) -> (f64, u64) {
    let begin = Instant::now();
    let turns = records.iter().map(|words| player.settle_listing(black_box(words), BOARDS)).sum();
    (begin.elapsed().as_secs_f64(), turns)
}

fn median(mut times: Vec<f64>) -> f64 {
    times.sort_by(f64::total_cmp);
    times[times.len() / 2]
}

/// Measures all in turn, round by round. Answers whether the library is fast enough beside the fast implementation.
///
/// A record is read once for all of its boards, and every board is made new. Nothing is cleared before a round. The first
/// round is not counted.
pub fn run(library: &dyn Player) -> bool {
    let mut prng = Prng::new(2024);
    let record = |_| record::compose(&generate::full_lists(&mut prng, 16, 16), &[], &[]);
    let records: Vec<Vec<u32>> = (0..RECORDS).map(record).collect();
    let players: [(&str, &dyn Player); 3] =
        [("fast Rust", &Fast::<RIGHT>), ("library", library), ("Rust over places in order", &Ordered)];
    let mut times = [const { Vec::new() }; 3];
    let mut turns = 0;
    for at in 0..ROUNDS + 1 {
        for ((name, player), times) in players.iter().zip(&mut times) {
            let (time, count) = round(*player, &records);
            if turns != 0 && turns != count {
                println!("difference: {count} turns by {name}, and must be {turns}");
                return false;
            }
            turns = count;
            if at > 0 {
                times.push(time);
            }
        }
    }
    let medians = times.map(median);
    println!("boards a round: {}, turns a round: {turns}, rounds: {ROUNDS}", RECORDS as u64 * u64::from(BOARDS));
    for ((name, _), time) in players.iter().zip(medians) {
        println!("{name}: {:.0} turns per second (median of {:.1} ms a round)", turns as f64 / time, 1e3 * time);
    }
    let [fast, library, ordered] = medians;
    println!("library time / time of Rust over places in order: {:.2} (for information)", library / ordered);
    println!("library time / fast Rust time: {:.2} (at most {MOST_RATIO})", library / fast);
    library / fast <= MOST_RATIO
}
