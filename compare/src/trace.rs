//! The trace: a block of words for the start, and one after each turn.

use crate::plain::{Answer, Board};

/// The words of a block: answer 3, 32 parties of 4, standstill 1, pairing 16.
pub const BLOCK: usize = 148;
const PARTIES_AT: usize = 3;
const STANDSTILL_AT: usize = PARTIES_AT + 4 * 32;
const PAIRING_AT: usize = STANDSTILL_AT + 1;

pub const NOBODY: u32 = 255;
pub const NO_PARTY: u32 = 0xFFFF_FFFF;

/// What a block shows of a board.
pub trait Shown {
    /// Holding, open set, bidders and whether content, where `p` is a party.
    fn party(&self, p: usize) -> Option<[u32; 4]>;
    fn at_standstill(&self) -> bool;
    fn lane_of(&self, stream: usize) -> u32;
}

/// The first three words of a block: of the start where there is no answer.
pub fn answer_words(answer: Option<Answer>) -> [u32; 3] {
    match answer {
        None => [3, 0, 0],
        Some(Answer::Idle) => [0, 0, 0],
        Some(Answer::Moved { offers, chains }) => [1, offers, chains],
        Some(Answer::Refused { number, place }) => [2, number, place],
    }
}

pub fn push_block(trace: &mut Vec<u32>, answer: Option<Answer>, board: &impl Shown) {
    trace.extend(answer_words(answer));
    for p in 0..32 {
        trace.extend(board.party(p).unwrap_or([NO_PARTY; 4]));
    }
    trace.push(u32::from(board.at_standstill()));
    trace.extend((0..16).map(|stream| board.lane_of(stream)));
}

impl Shown for Board {
    fn party(&self, p: usize) -> Option<[u32; 4]> {
        let party = self.parties.get(p)?;
        let mask = |set: &std::collections::BTreeSet<usize>| set.iter().map(|&q| 1u32 << q).sum::<u32>();
        let holding = party.holding.map_or(NOBODY, |q| q as u32);
        Some([holding, mask(&party.open), mask(&party.bidders), u32::from(self.content(p))])
    }

    fn at_standstill(&self) -> bool {
        self.standstill()
    }

    fn lane_of(&self, stream: usize) -> u32 {
        self.pairing().get(stream).copied().flatten().map_or(NOBODY, |lane| lane as u32)
    }
}

/// What the word at `index` of a trace says.
pub fn meaning(index: usize, turns: &[u8]) -> String {
    let (block, at) = (index / BLOCK, index % BLOCK);
    let when = match block {
        0 => "at the start".to_string(),
        _ => format!("after turn {} (index {}, party {})", block, block - 1, turns[block - 1]),
    };
    let what = match at {
        0 => "the kind of the answer".to_string(),
        1 => "the answer's offers, or refusal number".to_string(),
        2 => "the answer's chains, or refusal place".to_string(),
        STANDSTILL_AT => "standstill".to_string(),
        PAIRING_AT.. => format!("the pairing's lane of stream {}", at - PAIRING_AT),
        _ => {
            let field = ["holding", "open set", "bidders", "content"][(at - PARTIES_AT) % 4];
            format!("{field} of party {}", (at - PARTIES_AT) / 4)
        }
    };
    format!("{what}, {when}")
}
