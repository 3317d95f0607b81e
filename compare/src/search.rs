//! The search for boards on which an offer that is not taken must still open the offerer to the receiver: without that,
//! some turns end at an unstable standstill.

use crate::generate;
use crate::plain::Board;
use crate::prng::Prng;
use crate::rankings::{Lists, other_side};
use std::collections::{BTreeSet, VecDeque};

/// The fewest turns that end at an unstable standstill of the board that does not open, where there are any.
pub fn turns_to_unstable(lists: &Lists, limit: usize) -> Option<Vec<u8>> {
    let ranks = lists.ranks();
    let first = Board::new_not_opening(&ranks);
    let mut seen = BTreeSet::from([first.parties.clone()]);
    let mut queue = VecDeque::from([(first, Vec::new())]);
    while let Some((board, turns)) = queue.pop_front() {
        if board.standstill() && !ranks.stable(&board.pairing()) {
            return Some(turns);
        }
        if seen.len() > limit {
            return None;
        }
        for p in 0..lists.parties() {
            let mut next = board.clone();
            next.turn(p);
            if seen.insert(next.parties.clone()) {
                let mut more = turns.clone();
                more.push(p as u8);
                queue.push_back((next, more));
            }
        }
    }
    None
}

// Every list of different members, the empty one included.
fn every_list(members: &[usize]) -> Vec<Vec<usize>> {
    let mut lists = vec![Vec::new()];
    for (at, &first) in members.iter().enumerate() {
        let mut rest = members.to_vec();
        rest.remove(at);
        lists.extend(every_list(&rest).into_iter().map(|list| [vec![first], list].concat()));
    }
    lists
}

/// The rankings of 2 by 2, of all that there are, with such turns.
pub fn two_by_two() -> Vec<(Lists, Vec<u8>)> {
    let choices: Vec<_> = (0..4).map(|p| every_list(&other_side(2, 2, p).collect::<Vec<_>>())).collect();
    let mut found = Vec::new();
    for mut at in 0..choices.iter().map(Vec::len).product() {
        let mut lists = Lists::nobody(2, 2);
        for (list, choices) in lists.of.iter_mut().zip(&choices) {
            *list = choices[at % choices.len()].clone();
            at /= choices.len();
        }
        found.extend(turns_to_unstable(&lists, 5_000).map(|turns| (lists, turns)));
    }
    found
}

/// The rankings with such turns, of `samples` random full ones.
pub fn sampled(streams: usize, lanes: usize, samples: usize, seed: u64) -> Vec<(Lists, Vec<u8>)> {
    let mut prng = Prng::new(seed);
    let mut found = Vec::new();
    for _ in 0..samples {
        let lists = generate::full_lists(&mut prng, streams, lanes);
        found.extend(turns_to_unstable(&lists, 4_000).map(|turns| (lists, turns)));
    }
    found
}

#[cfg(test)]
mod tests {
    use super::*;
    use crate::known;
    use crate::suite::{set_into, turns_among};

    #[test]
    fn two_by_two_has_none() {
        assert!(two_by_two().is_empty());
    }

    #[test]
    fn three_by_three_has_some() {
        assert!(!sampled(3, 3, 60, 99).is_empty());
    }

    // Plays the turns, and then in rotation to a standstill. Answers whether it is stable.
    fn ends_stable(mut board: Board, turns: &[u8]) -> bool {
        for &p in turns {
            board.turn(p.into());
        }
        for at in 0..100_000 {
            if board.standstill() {
                return board.ranks.stable(&board.pairing());
            }
            board.turn(at % board.parties.len());
        }
        panic!("no standstill");
    }

    #[test]
    fn known_boards_need_opening() {
        for (small, turns) in known::opening_matters() {
            let ranks = small.ranks();
            assert!(ends_stable(Board::new(&ranks), &turns));
            assert!(!ends_stable(Board::new_not_opening(&ranks), &turns));
            // No fewer turns show it.
            assert_eq!(turns_to_unstable(&small, 100_000).map(|found| found.len()), Some(turns.len()));
        }
    }

    #[test]
    fn known_boards_need_opening_inside_larger_ones() {
        let mut prng = Prng::new(1);
        for (small, turns) in known::opening_matters() {
            for follow in [false, true] {
                let (streams, lanes) = (3 + prng.below(14), 3 + prng.below(14));
                let (large, numbers) = set_into(&small, streams, lanes, follow, &mut prng);
                let turns = turns_among(&turns, &numbers, streams + lanes, &mut prng);
                assert!(ends_stable(Board::new(&large.ranks()), &turns));
                assert!(!ends_stable(Board::new_not_opening(&large.ranks()), &turns));
            }
        }
    }
}
