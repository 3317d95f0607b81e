//! Small boards that are always compared.

use crate::plain::Party;
use crate::rankings::Lists;
use std::collections::BTreeSet;

/// The square board of docs/record.md.
pub fn square() -> Lists {
    Lists { streams: 2, lanes: 2, of: vec![vec![2, 3], vec![3, 2], vec![1, 0], vec![0, 1]] }
}

/// The state of docs/procedure.md whose turn of stream 0 has two chains.
pub fn two_chains() -> (Lists, Vec<Party>) {
    let lists = Lists { streams: 2, lanes: 2, of: vec![vec![3, 2], vec![3, 2], vec![0, 1], vec![0, 1]] };
    let party = |holding, bidders: &[usize], side: [usize; 2]| Party {
        holding: Some(holding),
        open: BTreeSet::from(side),
        bidders: bidders.iter().copied().collect(),
    };
    let parties = vec![party(2, &[], [2, 3]), party(3, &[3], [2, 3]), party(0, &[0], [0, 1]), party(1, &[], [0, 1])];
    (lists, parties)
}

/// Boards of 3 by 3 and turns on which an offer that is not taken must still open the offerer to the receiver: without it
/// the turns end at an unstable standstill. `search` found them; 2 by 2 has none, and no fewer turns do.
pub fn opening_matters() -> Vec<(Lists, Vec<u8>)> {
    const FOUND: [([[usize; 3]; 6], [u8; 10]); 12] = [
        ([[3, 5, 4], [3, 5, 4], [5, 4, 3], [0, 1, 2], [0, 2, 1], [1, 2, 0]], [2, 4, 5, 1, 2, 0, 5, 4, 1, 4]),
        ([[5, 4, 3], [4, 3, 5], [5, 4, 3], [1, 2, 0], [0, 1, 2], [1, 0, 2]], [1, 3, 3, 4, 0, 5, 1, 4, 5, 2]),
        ([[5, 4, 3], [3, 4, 5], [5, 3, 4], [2, 1, 0], [0, 1, 2], [0, 1, 2]], [1, 3, 1, 2, 4, 0, 3, 4, 2, 4]),
        ([[3, 5, 4], [3, 4, 5], [5, 4, 3], [2, 1, 0], [1, 0, 2], [2, 0, 1]], [0, 1, 0, 4, 3, 4, 1, 2, 0, 3]),
        ([[3, 4, 5], [4, 3, 5], [3, 5, 4], [1, 2, 0], [2, 1, 0], [2, 0, 1]], [0, 2, 5, 3, 1, 4, 5, 2, 3, 4]),
        ([[3, 5, 4], [5, 4, 3], [3, 4, 5], [0, 1, 2], [1, 2, 0], [0, 1, 2]], [1, 2, 4, 4, 5, 0, 1, 2, 2, 5]),
        ([[3, 5, 4], [3, 5, 4], [5, 4, 3], [2, 1, 0], [2, 0, 1], [1, 2, 0]], [2, 4, 4, 5, 1, 3, 2, 5, 3, 0]),
        ([[4, 5, 3], [4, 3, 5], [5, 3, 4], [2, 1, 0], [2, 1, 0], [1, 0, 2]], [1, 4, 1, 5, 3, 2, 5, 1, 3, 4]),
        ([[4, 3, 5], [4, 5, 3], [3, 5, 4], [0, 2, 1], [0, 2, 1], [2, 1, 0]], [1, 2, 5, 3, 5, 0, 2, 1, 1, 3]),
        ([[4, 5, 3], [3, 5, 4], [4, 5, 3], [0, 1, 2], [1, 0, 2], [1, 2, 0]], [1, 5, 3, 0, 4, 5, 1, 3, 4, 2]),
        ([[4, 3, 5], [5, 4, 3], [4, 5, 3], [0, 2, 1], [1, 0, 2], [0, 1, 2]], [0, 2, 3, 3, 4, 1, 5, 0, 4, 5]),
        ([[4, 3, 5], [3, 4, 5], [4, 5, 3], [1, 2, 0], [1, 2, 0], [2, 0, 1]], [0, 2, 0, 5, 4, 5, 1, 2, 0, 4]),
    ];
    let board = |(lists, turns): &([[usize; 3]; 6], [u8; 10])| {
        let of = lists.iter().map(|list| list.to_vec()).collect();
        (Lists { streams: 3, lanes: 3, of }, turns.to_vec())
    };
    FOUND.iter().map(board).collect()
}
