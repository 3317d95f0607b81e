//! The board of docs/procedure.md, written for checking and not for speed: a struct for each party, with sets of numbers.

use crate::rankings::Ranks;
use std::collections::BTreeSet;

/// What a turn answers.
#[derive(Clone, Copy, Debug, PartialEq)]
pub enum Answer {
    Idle,
    Moved { offers: u32, chains: u32 },
    Refused { number: u32, place: u32 },
}

#[derive(Clone, Debug, PartialEq, Eq, PartialOrd, Ord)]
pub struct Party {
    pub holding: Option<usize>,
    pub open: BTreeSet<usize>,
    pub bidders: BTreeSet<usize>,
}

#[derive(Clone, Debug)]
pub struct Board {
    pub ranks: Ranks,
    pub parties: Vec<Party>,
    // Only the search for known boards and tests turn this off.
    refused_offer_opens: bool,
}

/// What became of an offer: whether it was taken, and the parties that it wronged.
struct Outcome {
    taken: bool,
    wronged_by_offerer: Option<usize>,
    wronged_by_receiver: Option<usize>,
}

impl Board {
    pub fn new(ranks: &Ranks) -> Board {
        let party = |p| Party { holding: None, open: ranks.other_side(p).collect(), bidders: BTreeSet::new() };
        let parties = (0..ranks.parties()).map(party).collect();
        Board { ranks: ranks.clone(), parties, refused_offer_opens: true }
    }

    /// A board that breaks one rule: an offer that is not taken does not open the offerer to the receiver.
    pub fn new_not_opening(ranks: &Ranks) -> Board {
        Board { refused_offer_opens: false, ..Board::new(ranks) }
    }

    /// A board with these parties, where they keep what every board keeps.
    pub fn with(ranks: &Ranks, parties: Vec<Party>) -> Option<Board> {
        let board = Board { ranks: ranks.clone(), parties, refused_offer_opens: true };
        board.kept().then_some(board)
    }

    /// What every board keeps, of every two parties.
    pub fn kept(&self) -> bool {
        if self.parties.len() != self.ranks.parties() {
            return false;
        }
        self.parties.iter().enumerate().all(|(a, party)| {
            let side = self.ranks.other_side(a);
            // The sets have members of the other side only.
            let within = party.open.iter().chain(&party.bidders).chain(&party.holding).all(|b| side.contains(b));
            within && side.clone().all(|b| self.kept_between(a, b))
        })
    }

    fn kept_between(&self, a: usize, b: usize) -> bool {
        let (x, y) = (&self.parties[a], &self.parties[b]);
        let offered = x.bidders.contains(&b) || y.bidders.contains(&a);
        let partners = x.holding == Some(b);
        let mutual = !partners || y.holding == Some(a) && self.ranks.both_rank(a, b);
        let ready = !partners || x.open.contains(&b) && y.open.contains(&a) && offered;
        let one_open = x.open.contains(&b) || y.open.contains(&a);
        let missing_offered = x.open.contains(&b) || offered;
        mutual && ready && one_open && missing_offered
    }

    // Whether p ranks q, and holds nobody or ranks q better than its holding.
    fn prefers(&self, p: usize, q: usize) -> bool {
        let Some(rank) = self.ranks.rank(p, q) else {
            return false;
        };
        let Some(held) = self.parties[p].holding else {
            return true;
        };
        match self.ranks.rank(p, held) {
            Some(held_rank) => rank < held_rank,
            None => true,
        }
    }

    pub fn content(&self, p: usize) -> bool {
        !self.parties[p].open.iter().any(|&q| self.prefers(p, q))
    }

    pub fn standstill(&self) -> bool {
        (0..self.parties.len()).all(|p| self.content(p))
    }

    /// The lane of each stream, by its number within its side.
    pub fn pairing(&self) -> Vec<Option<usize>> {
        let streams = self.ranks.streams;
        self.parties[..streams].iter().map(|party| party.holding.map(|q| q - streams)).collect()
    }

    // The best ranked member of p's open set.
    fn best(&self, p: usize) -> usize {
        let ranked = self.parties[p].open.iter().filter_map(|&q| self.ranks.rank(p, q).map(|rank| (rank, q)));
        ranked.min().expect("a party that is not content has one").1
    }

    // x loses y from its open set and holds nobody. Answers x where it is wronged: y is among its bidders.
    fn leave(&mut self, x: Option<usize>, y: usize) -> Option<usize> {
        let left = &mut self.parties[x?];
        left.open.remove(&y);
        left.holding = None;
        if left.bidders.contains(&y) { x } else { None }
    }

    fn offer(&mut self, p: usize, waiting: Option<usize>) -> Outcome {
        let q = self.best(p);
        let takes = waiting != Some(q) && self.prefers(q, p);
        if takes || self.refused_offer_opens {
            self.parties[q].open.insert(p);
        }
        self.parties[q].bidders.insert(p);
        if !takes {
            self.parties[p].open.remove(&q);
            return Outcome { taken: false, wronged_by_offerer: None, wronged_by_receiver: None };
        }
        let wronged_by_offerer = self.leave(self.parties[p].holding, p);
        let wronged_by_receiver = self.leave(self.parties[q].holding, q);
        self.parties[p].holding = Some(q);
        self.parties[q].holding = Some(p);
        Outcome { taken: true, wronged_by_offerer, wronged_by_receiver }
    }

    // Runs the chain of a wronged party, and answers how many offers it had.
    fn chain(&mut self, wronged: usize, waiting: Option<usize>) -> u32 {
        let mut current = wronged;
        let mut offers = 0;
        while !self.content(current) {
            assert!(self.parties[current].holding.is_none(), "the current party of a chain holds nobody");
            let outcome = self.offer(current, waiting);
            offers += 1;
            match (outcome.taken, outcome.wronged_by_receiver) {
                (true, Some(next)) => current = next,
                (true, None) => break,
                (false, _) => {}
            }
        }
        assert!(offers as usize <= self.ranks.streams * self.ranks.lanes, "a chain has at most s * g offers");
        offers
    }

    pub fn turn(&mut self, p: usize) -> Answer {
        if p >= self.parties.len() {
            return Answer::Refused { number: 6, place: p as u32 };
        }
        if self.content(p) {
            return Answer::Idle;
        }
        let outcome = self.offer(p, None);
        let (mut offers, mut chains) = (1, 0);
        if let Some(party) = outcome.wronged_by_receiver {
            offers += self.chain(party, outcome.wronged_by_offerer);
            chains += 1;
        }
        if let Some(party) = outcome.wronged_by_offerer {
            offers += self.chain(party, None);
            chains += 1;
        }
        Answer::Moved { offers, chains }
    }
}

#[cfg(test)]
mod tests {
    use super::*;
    use crate::known;

    #[test]
    fn square_board() {
        let mut board = Board::new(&known::square().ranks());
        for p in 0..4 {
            assert!(!board.standstill());
            assert_eq!(board.turn(p), Answer::Moved { offers: 1, chains: 0 });
        }
        assert!(board.standstill());
        assert_eq!(board.pairing(), [Some(0), Some(1)]);
        assert_eq!(board.turn(4), Answer::Refused { number: 6, place: 4 });
    }

    #[test]
    fn two_chains_in_one_turn() {
        let (lists, parties) = known::two_chains();
        let mut board = Board::with(&lists.ranks(), parties).expect("it keeps what every board keeps");
        assert_eq!(board.turn(0), Answer::Moved { offers: 3, chains: 2 });
        assert_eq!(board.pairing(), [Some(1), Some(0)]);
    }
}
