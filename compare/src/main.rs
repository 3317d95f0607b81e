//! `compare` compares the library with the plain implementation; `compare bench` measures it and the fast one.

use compare::player::Player;
use compare::{bench, suite};
use std::process::ExitCode;

unsafe extern "C" {
    fn play_listing(
        words: *const u32,
        words_len: usize,
        start: *const u32,
        start_len: usize,
        turns: *const u8,
        turns_len: usize,
        trace: *mut u32,
        trace_len: usize,
    ) -> u32;

    fn play_scoring(
        figures: *const u16,
        figures_len: usize,
        streams: u8,
        start: *const u32,
        start_len: usize,
        turns: *const u8,
        turns_len: usize,
        trace: *mut u32,
        trace_len: usize,
    ) -> u32;

    fn settle_listing(words: *const u32, words_len: usize, boards: u32) -> u64;
}

/// The library, by the calls that `bindings` exports.
struct Library;

impl Player for Library {
    fn play_listing(&self, words: &[u32], start: &[u32], turns: &[u8], trace: &mut [u32]) -> u32 {
        // Safe: each pointer stands with the length of its own slice.
        unsafe {
            play_listing(
                words.as_ptr(),
                words.len(),
                start.as_ptr(),
                start.len(),
                turns.as_ptr(),
                turns.len(),
                trace.as_mut_ptr(),
                trace.len(),
            )
        }
    }

    fn play_scoring(&self, figures: &[u16], streams: u8, start: &[u32], turns: &[u8], trace: &mut [u32]) -> u32 {
        // Safe: as above.
        unsafe {
            play_scoring(
                figures.as_ptr(),
                figures.len(),
                streams,
                start.as_ptr(),
                start.len(),
                turns.as_ptr(),
                turns.len(),
                trace.as_mut_ptr(),
                trace.len(),
            )
        }
    }

    fn settle_listing(&self, words: &[u32], boards: u32) -> u64 {
        // Safe: as above.
        unsafe { settle_listing(words.as_ptr(), words.len(), boards) }
    }
}

fn compare() -> ExitCode {
    match suite::all(&Library) {
        Ok(counts) => {
            print!("{counts}");
            println!("compare: the library agrees in every word");
            ExitCode::SUCCESS
        }
        Err(what) => {
            println!("compare: FAILED");
            println!("{what}");
            ExitCode::FAILURE
        }
    }
}

fn measure() -> ExitCode {
    if bench::run(&Library) {
        ExitCode::SUCCESS
    } else {
        println!("compare bench: FAILED");
        ExitCode::FAILURE
    }
}

fn main() -> ExitCode {
    let words: Vec<String> = std::env::args().skip(1).collect();
    match words.iter().map(String::as_str).collect::<Vec<_>>()[..] {
        [] => compare(),
        ["bench"] => measure(),
        _ => {
            eprintln!("usage: compare [bench]");
            ExitCode::from(2)
        }
    }
}
