//! A third board, over another table: for each party the others in the order of its ranks, and open sets as bit masks over
//! that order, so that the best member is the lowest bit. It is measured for information: it needs the order of the ranks
//! worked out before a board is made, which the fast one and the library do not. It has new boards only.

use crate::plain::Answer;
use crate::player::{Player, REFUSED};
use crate::rankings::{Figures, Ranks};
use crate::record;
use crate::trace::{BLOCK, Shown, push_block};

const NOBODY: u8 = 255;
/// The place of whom a party does not rank, and of nobody: it is over all places.
const NONE: u8 = 16;

/// For each party the others by place, and the place of each other by party number.
pub struct Table {
    streams: usize,
    parties: usize,
    by_place: [[u8; 16]; 32],
    place: [[u8; 32]; 32],
    ranked: [u32; 32],
}

impl Table {
    pub fn of_ranks(ranks: &Ranks) -> Table {
        let (streams, parties) = (ranks.streams, ranks.parties());
        let mut table = Table { streams, parties, by_place: [[0; 16]; 32], place: [[NONE; 32]; 32], ranked: [0; 32] };
        for p in 0..parties {
            let mut order: Vec<usize> = ranks.other_side(p).filter(|&q| ranks.rank(p, q).is_some()).collect();
            order.sort_by_key(|&q| ranks.rank(p, q));
            for (place, &q) in order.iter().enumerate() {
                table.by_place[p][place] = q as u8;
                table.place[p][q] = place as u8;
            }
            table.ranked[p] = (1 << order.len()) - 1;
        }
        table
    }
}

pub struct Board<'a> {
    table: &'a Table,
    holding: [u8; 32],
    holding_place: [u8; 32],
    // Over places. Who is not ranked is in the open set of a new board, and never leaves it.
    open: [u32; 32],
    bidders: [u32; 32],
}

impl<'a> Board<'a> {
    pub fn new(table: &'a Table) -> Board<'a> {
        Board { table, holding: [NOBODY; 32], holding_place: [NONE; 32], open: table.ranked, bidders: [0; 32] }
    }

    // The best member of p's open set where p is not content.
    fn best(&self, p: usize) -> Option<usize> {
        let better = self.open[p] & ((1 << self.holding_place[p]) - 1);
        (better != 0).then(|| usize::from(self.table.by_place[p][better.trailing_zeros() as usize]))
    }

    // x, if it is a party, loses y and holds nobody. Answers x where it is wronged.
    fn leave(&mut self, x: u8, y: usize) -> u8 {
        if x == NOBODY {
            return NOBODY;
        }
        let left = x as usize;
        self.open[left] &= !(1 << self.table.place[left][y]);
        self.holding[left] = NOBODY;
        self.holding_place[left] = NONE;
        if self.bidders[left] >> y & 1 == 1 { x } else { NOBODY }
    }

    // p makes q an offer. Where it is taken, answers whom p wronged and whom q wronged.
    fn offer(&mut self, p: usize, q: usize, waiting: u8) -> Option<(u8, u8)> {
        let (p_at_q, q_at_p) = (self.table.place[q][p], self.table.place[p][q]);
        self.open[q] |= 1 << p_at_q & self.table.ranked[q];
        self.bidders[q] |= 1 << p;
        if p_at_q >= self.holding_place[q] || q == waiting as usize {
            self.open[p] &= !(1 << q_at_p);
            return None;
        }
        let by_offerer = self.leave(self.holding[p], p);
        let by_receiver = self.leave(self.holding[q], q);
        (self.holding[p], self.holding_place[p]) = (q as u8, q_at_p);
        (self.holding[q], self.holding_place[q]) = (p as u8, p_at_q);
        Some((by_offerer, by_receiver))
    }

    // Runs the chain of a wronged party. Answers the number of its offers.
    fn chain(&mut self, wronged: u8, waiting: u8) -> u32 {
        let mut current = wronged as usize;
        let mut offers = 0;
        while let Some(q) = self.best(current) {
            offers += 1;
            match self.offer(current, q, waiting) {
                None => {}
                Some((_, NOBODY)) => break,
                Some((_, wronged)) => current = wronged as usize,
            }
        }
        offers
    }

    pub fn turn(&mut self, p: usize) -> Answer {
        if p >= self.table.parties {
            return Answer::Refused { number: 6, place: p as u32 };
        }
        let Some(q) = self.best(p) else {
            return Answer::Idle;
        };
        let (mut offers, mut chains) = (1, 0);
        if let Some((by_offerer, by_receiver)) = self.offer(p, q, NOBODY) {
            for (party, waiting) in [(by_receiver, by_offerer), (by_offerer, NOBODY)] {
                if party != NOBODY {
                    offers += self.chain(party, waiting);
                    chains += 1;
                }
            }
        }
        Answer::Moved { offers, chains }
    }

    /// Gives turns in rotation until all parties were idle in a row. Answers the number of turns.
    pub fn settle(&mut self) -> u64 {
        let mut turns = 0;
        let (mut p, mut idle) = (0, 0);
        while idle < self.table.parties {
            idle = if self.turn(p) == Answer::Idle { idle + 1 } else { 0 };
            turns += 1;
            p = if p + 1 == self.table.parties { 0 } else { p + 1 };
        }
        turns
    }
}

impl Shown for Board<'_> {
    fn party(&self, p: usize) -> Option<[u32; 4]> {
        if p >= self.table.parties {
            return None;
        }
        let side = if p < self.table.streams { self.table.streams..self.table.parties } else { 0..self.table.streams };
        let is_open = |&q: &usize| match self.table.place[p][q] {
            NONE => true,
            place => self.open[p] >> place & 1 == 1,
        };
        let open = side.filter(is_open).map(|q| 1 << q).sum();
        Some([self.holding[p].into(), open, self.bidders[p], u32::from(self.best(p).is_none())])
    }

    fn at_standstill(&self) -> bool {
        (0..self.table.parties).all(|p| self.best(p).is_none())
    }

    fn lane_of(&self, stream: usize) -> u32 {
        match self.holding[stream] {
            q if stream < self.table.streams && q != NOBODY => u32::from(q) - self.table.streams as u32,
            _ => u32::from(NOBODY),
        }
    }
}

/// This implementation in the place of the library.
pub struct Ordered;

impl Ordered {
    fn play(&self, table: &Table, turns: &[u8], trace: &mut [u32]) -> u32 {
        if trace.len() < BLOCK * (turns.len() + 1) {
            return REFUSED;
        }
        let mut board = Board::new(table);
        let mut written = Vec::new();
        push_block(&mut written, None, &board);
        for &p in turns {
            let answer = board.turn(p as usize);
            push_block(&mut written, Some(answer), &board);
        }
        trace[..written.len()].copy_from_slice(&written);
        written.len() as u32
    }
}

impl Player for Ordered {
    fn play_listing(&self, words: &[u32], _start: &[u32], turns: &[u8], trace: &mut [u32]) -> u32 {
        let lists = record::read(words).expect("only records are given");
        self.play(&Table::of_ranks(&lists.ranks()), turns, trace)
    }

    fn play_scoring(&self, figures: &[u16], streams: u8, _start: &[u32], turns: &[u8], trace: &mut [u32]) -> u32 {
        let of: Vec<[u16; 3]> = figures.chunks(3).map(|f| [f[0], f[1], f[2]]).collect();
        let streams = usize::from(streams);
        let figures = Figures { streams, lanes: of.len() - streams, of };
        self.play(&Table::of_ranks(&figures.ranks()), turns, trace)
    }

    fn settle_listing(&self, words: &[u32], boards: u32) -> u64 {
        let lists = record::read(words).expect("only records are given");
        let table = Table::of_ranks(&lists.ranks());
        (0..boards).map(|_| Board::new(&table).settle()).sum()
    }
}
