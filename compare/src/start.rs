//! The words of an inner state: 32 holdings, 32 open sets, 32 sets of bidders.

use crate::plain::Party;
use crate::trace::NOBODY;
use std::collections::BTreeSet;

pub const WORDS: usize = 96;

pub fn encode(parties: &[Party]) -> Vec<u32> {
    let mut words = vec![NOBODY; 32];
    words.resize(WORDS, 0);
    for (p, party) in parties.iter().enumerate() {
        words[p] = party.holding.map_or(NOBODY, |q| q as u32);
        words[32 + p] = party.open.iter().map(|&q| 1u32 << q).sum();
        words[64 + p] = party.bidders.iter().map(|&q| 1u32 << q).sum();
    }
    words
}

/// The parties that the words tell of. Numbers may be of no party: the board's rules refuse them.
pub fn decode(words: &[u32], parties: usize) -> Option<Vec<Party>> {
    if words.len() != WORDS {
        return None;
    }
    let set = |mask: u32| (0..32).filter(|&q| mask >> q & 1 == 1).collect::<BTreeSet<usize>>();
    let party = |p: usize| Party {
        holding: (words[p] != NOBODY).then_some(words[p] as usize),
        open: set(words[32 + p]),
        bidders: set(words[64 + p]),
    };
    Some((0..parties).map(party).collect())
}
