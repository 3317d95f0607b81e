//! What parties rank: as lists (a listing) and as figures (a scoring), and the ranks that either gives.

use std::collections::BTreeMap;

/// Who ranks whom, the best first: `of[p]` has party numbers of the other side.
#[derive(Clone, Debug, PartialEq)]
pub struct Lists {
    pub streams: usize,
    pub lanes: usize,
    pub of: Vec<Vec<usize>>,
}

/// The figures of every party, streams first: own figure, wish, reach.
#[derive(Clone, Debug)]
pub struct Figures {
    pub streams: usize,
    pub lanes: usize,
    pub of: Vec<[u16; 3]>,
}

/// The rank that a party gives another, where it gives one. Lower is better.
#[derive(Clone, Debug)]
pub struct Ranks {
    pub streams: usize,
    pub lanes: usize,
    of: Vec<BTreeMap<usize, u32>>,
}

/// The parties of the other side than `p`'s.
pub fn other_side(streams: usize, lanes: usize, p: usize) -> std::ops::Range<usize> {
    if p < streams { streams..streams + lanes } else { 0..streams }
}

impl Lists {
    pub fn nobody(streams: usize, lanes: usize) -> Lists {
        Lists { streams, lanes, of: vec![Vec::new(); streams + lanes] }
    }

    pub fn parties(&self) -> usize {
        self.streams + self.lanes
    }

    pub fn ranks(&self) -> Ranks {
        let of = self.of.iter().map(|list| list.iter().enumerate().map(|(place, &q)| (q, place as u32)).collect());
        Ranks { streams: self.streams, lanes: self.lanes, of: of.collect() }
    }
}

impl Figures {
    pub fn ranks(&self) -> Ranks {
        let mut of = Vec::new();
        for (p, &[_, wish, reach]) in self.of.iter().enumerate() {
            let mut row = BTreeMap::new();
            let side = other_side(self.streams, self.lanes, p);
            for (number, q) in side.enumerate() {
                let lean = i32::from(self.of[q][0]) - i32::from(wish);
                let distance = lean.unsigned_abs();
                if distance <= u32::from(reach) {
                    row.insert(q, 16 * distance + number as u32);
                }
            }
            of.push(row);
        }
        Ranks { streams: self.streams, lanes: self.lanes, of }
    }

    /// The figures one after the other, as the library takes them.
    pub fn flat(&self) -> Vec<u16> {
        self.of.iter().flatten().copied().collect()
    }
}

impl Ranks {
    pub fn parties(&self) -> usize {
        self.streams + self.lanes
    }

    pub fn rank(&self, p: usize, q: usize) -> Option<u32> {
        self.of[p].get(&q).copied()
    }

    pub fn other_side(&self, p: usize) -> std::ops::Range<usize> {
        other_side(self.streams, self.lanes, p)
    }

    pub fn both_rank(&self, p: usize, q: usize) -> bool {
        self.rank(p, q).is_some() && self.rank(q, p).is_some()
    }

    /// Whether `pairing` (the lane of each stream) is stable: both sides rank every holding, and no stream and lane block.
    pub fn stable(&self, pairing: &[Option<usize>]) -> bool {
        let lane_of = |i: usize| pairing[i].map(|j| self.streams + j);
        let stream_of = |q: usize| (0..self.streams).find(|&i| lane_of(i) == Some(q));
        let prefers = |p: usize, q: usize, holding: Option<usize>| match (self.rank(p, q), holding) {
            (None, _) => false,
            (Some(_), None) => true,
            (Some(rank), Some(held)) => self.rank(p, held).is_none_or(|r| rank < r),
        };
        for i in 0..self.streams {
            if let Some(q) = lane_of(i)
                && !self.both_rank(i, q)
            {
                return false;
            }
            for q in self.streams..self.parties() {
                if lane_of(i) != Some(q) && prefers(i, q, lane_of(i)) && prefers(q, i, stream_of(q)) {
                    return false;
                }
            }
        }
        true
    }
}

#[cfg(test)]
mod tests {
    use super::*;

    #[test]
    fn worked_scores() {
        // Lanes 0 to 3 have wear 0, 510, 489 and 490; the stream has wish 500 and reach 10.
        let of = vec![[0, 500, 10], [0, 0, 0], [510, 0, 0], [489, 0, 0], [490, 0, 0]];
        let ranks = Figures { streams: 1, lanes: 4, of }.ranks();
        let got: Vec<_> = (1..5).map(|q| ranks.rank(0, q)).collect();
        assert_eq!(got, [None, Some(161), None, Some(163)]);
    }

    #[test]
    fn worked_pairings() {
        let square = Lists { streams: 2, lanes: 2, of: vec![vec![2, 3], vec![3, 2], vec![1, 0], vec![0, 1]] };
        assert!(square.ranks().stable(&[Some(0), Some(1)]));
        assert!(!square.ranks().stable(&[Some(0), None]));
    }
}
