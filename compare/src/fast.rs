//! The board of docs/procedure.md, written for speed: rows of ranks, and sets as bit masks over party numbers.
//!
//! `FAULT` builds one fault in on purpose: the tests show that the comparison finds each. `RIGHT` has none, and its tests of
//! `FAULT` cost nothing.

use crate::plain::Answer;
use crate::player::{Player, REFUSED};
use crate::rankings::{Lists, other_side};
use crate::record;
use crate::trace::{BLOCK, Shown, push_block};

pub const RIGHT: u8 = 0;

/// The faults that tests build in.
pub mod fault {
    pub const REFUSED_OFFER_OPENS_NOT: u8 = 1;
    pub const TAKEN_OFFER_OPENS_NOT: u8 = 2;
    pub const CHAIN_AFTER_EVERY_PARTING: u8 = 3;
    pub const NO_CHAINS: u8 = 4;
    pub const CHAINS_IN_OTHER_ORDER: u8 = 5;
    pub const WAITING_PARTY_TAKES: u8 = 6;
    pub const BOTH_CHAINS_WAIT: u8 = 7;
    pub const WORST_FOR_BEST: u8 = 8;
    pub const BIDDER_NOT_NOTED: u8 = 9;
    pub const ONLY_TAKEN_BIDDER_NOTED: u8 = 10;
    pub const EMPTY_CHAIN_NOT_COUNTED: u8 = 11;
    pub const CHAIN_NOT_PASSED_ON: u8 = 12;
    pub const CHAIN_ENDS_NOT_TAKEN: u8 = 13;
    pub const WRONGED_BY_OWN_OFFER: u8 = 14;
    pub const LEFT_BY_OFFERER_STAYS_OPEN: u8 = 15;
    pub const LEFT_BY_RECEIVER_STAYS_OPEN: u8 = 16;
    pub const REFUSED_RECEIVER_STAYS_OPEN: u8 = 17;
    pub const HOLDER_IS_CONTENT: u8 = 18;
    pub const TAKES_UNRANKED: u8 = 19;
    pub const TAKES_WORSE: u8 = 20;
    pub const FIRST_OFFER_NOT_COUNTED: u8 = 21;
    pub const OUTSIDE_TURN_IDLE: u8 = 22;
    pub const STANDSTILL_OF_STREAMS: u8 = 23;
    pub const TIES_TO_HIGHER: u8 = 24;
    pub const REACH_ITSELF_OUT: u8 = 25;
    pub const START_HELD_BY_ONE: u8 = 26;
    pub const START_PARTNERS_UNRANKED: u8 = 27;
    pub const START_PARTNERS_NOT_OPEN: u8 = 28;
    pub const START_PARTNERS_WITHOUT_OFFER: u8 = 29;
    pub const START_CLOSED_PAIR: u8 = 30;
    pub const START_MISSING_WITHOUT_OFFER: u8 = 31;
    pub const START_OWN_SIDE: u8 = 32;
    pub const SETTLES_EARLY: u8 = 33;
    pub const SHORT_TRACE_WRITTEN: u8 = 34;
    pub const RECORD_NOT_CHECKED: u8 = 35;
    pub const FIGURES_NOT_CHECKED: u8 = 36;
}

const NOBODY: u8 = 255;
/// The rank of whom a party does not rank: it is over all ranks.
const NONE: u16 = u16::MAX;

/// The ranks of all parties, by party numbers.
pub struct Table {
    streams: usize,
    parties: usize,
    rank: [[u16; 32]; 32],
}

impl Table {
    pub fn of_lists(lists: &Lists) -> Table {
        let mut rank = [[NONE; 32]; 32];
        for (row, list) in rank.iter_mut().zip(&lists.of) {
            for (place, &q) in list.iter().enumerate() {
                row[q] = place as u16;
            }
        }
        Table { streams: lists.streams, parties: lists.parties(), rank }
    }

    fn of_figures<const FAULT: u8>(figures: &[u16], streams: usize) -> Option<Table> {
        let parties = figures.len() / 3;
        let lanes = parties.checked_sub(streams)?;
        let sized = figures.len().is_multiple_of(3) && (1..=16).contains(&streams) && (1..=16).contains(&lanes);
        let over = figures.iter().any(|&figure| figure > 1023);
        if !sized || over && FAULT != fault::FIGURES_NOT_CHECKED {
            return None;
        }
        let mut rank = [[NONE; 32]; 32];
        for p in 0..parties {
            let (wish, reach) = (figures[3 * p + 1], figures[3 * p + 2]);
            for (number, q) in other_side(streams, lanes, p).enumerate() {
                let distance = figures[3 * q].abs_diff(wish);
                let out = if FAULT == fault::REACH_ITSELF_OUT { distance >= reach } else { distance > reach };
                if !out {
                    let number = if FAULT == fault::TIES_TO_HIGHER { 15 - number } else { number };
                    rank[p][q] = distance.wrapping_mul(16) + number as u16;
                }
            }
        }
        Some(Table { streams, parties, rank })
    }

    // The mask of the other side than p's.
    fn other_side(&self, p: usize) -> u32 {
        let streams = (1u32 << self.streams) - 1;
        if p < self.streams { ((1u64 << self.parties) - 1) as u32 & !streams } else { streams }
    }
}

pub struct Board<'a, const FAULT: u8> {
    table: &'a Table,
    holding: [u8; 32],
    open: [u32; 32],
    bidders: [u32; 32],
}

/// The parties that a taken offer wronged, or nobody.
struct Wronged {
    by_offerer: u8,
    by_receiver: u8,
}

impl<'a, const FAULT: u8> Board<'a, FAULT> {
    pub fn new(table: &'a Table) -> Self {
        let mut open = [0; 32];
        for (p, open) in open.iter_mut().enumerate().take(table.parties) {
            *open = table.other_side(p);
        }
        Board { table, holding: [NOBODY; 32], open, bidders: [0; 32] }
    }

    fn with_start(table: &'a Table, words: &[u32]) -> Option<Self> {
        if words.is_empty() {
            return Some(Board::new(table));
        }
        if words.len() != 96 {
            return None;
        }
        let mut board = Board { table, holding: [NOBODY; 32], open: [0; 32], bidders: [0; 32] };
        for p in 0..table.parties {
            let side = table.other_side(p);
            board.open[p] = words[32 + p];
            board.bidders[p] = words[64 + p];
            let wide = (board.open[p] | board.bidders[p]) & !side != 0;
            let held = words[p];
            let astray = held != 255 && (held >= 32 || side >> held & 1 == 0);
            if (wide || astray) && FAULT != fault::START_OWN_SIDE {
                return None;
            }
            board.holding[p] = if astray { NOBODY } else { held as u8 };
        }
        (0..table.parties).all(|p| board.keeps(p)).then_some(board)
    }

    // What every board keeps, of p and the whole other side.
    fn keeps(&self, p: usize) -> bool {
        let (p_bit, side) = (1u32 << p, self.table.other_side(p));
        let (mut has_p, mut bid_by_p) = (0u32, 0u32);
        for q in 0..self.table.parties {
            has_p |= u32::from(self.open[q] & p_bit != 0) << q;
            bid_by_p |= u32::from(self.bidders[q] & p_bit != 0) << q;
        }
        let offered = self.bidders[p] | bid_by_p;
        let closed = side & !self.open[p] & !has_p != 0;
        let not_offered = side & !self.open[p] & !offered != 0;
        if closed && FAULT != fault::START_CLOSED_PAIR || not_offered && FAULT != fault::START_MISSING_WITHOUT_OFFER {
            return false;
        }
        let held = self.holding[p];
        if held == NOBODY {
            return true;
        }
        let q = held as usize;
        let mutual = self.holding[q] as usize == p || FAULT == fault::START_HELD_BY_ONE;
        let ranked = self.table.rank[p][q] != NONE || FAULT == fault::START_PARTNERS_UNRANKED;
        let opened = self.open[p] >> q & 1 == 1 || FAULT == fault::START_PARTNERS_NOT_OPEN;
        let bid = offered >> q & 1 == 1 || FAULT == fault::START_PARTNERS_WITHOUT_OFFER;
        mutual && ranked && opened && bid
    }

    // The rank of p's holding, which a better one is below.
    fn limit(&self, p: usize) -> u16 {
        match self.holding[p] {
            NOBODY => NONE,
            q => self.table.rank[p][q as usize],
        }
    }

    // The best member of p's open set where p is not content.
    fn best(&self, p: usize) -> Option<usize> {
        let row = &self.table.rank[p];
        let limit = self.limit(p);
        if FAULT == fault::HOLDER_IS_CONTENT && self.holding[p] != NOBODY {
            return None;
        }
        if FAULT == fault::WORST_FOR_BEST {
            let members = (0..32).filter(|&q| self.open[p] >> q & 1 == 1 && row[q] < limit);
            return members.max_by_key(|&q| row[q]);
        }
        let mut best = limit;
        let mut at = None;
        let mut left = self.open[p];
        while left != 0 {
            let q = left.trailing_zeros() as usize;
            left &= left - 1;
            if row[q] < best {
                best = row[q];
                at = Some(q);
            }
        }
        at
    }

    pub fn standstill(&self) -> bool {
        let count = if FAULT == fault::STANDSTILL_OF_STREAMS { self.table.streams } else { self.table.parties };
        (0..count).all(|p| self.best(p).is_none())
    }

    // x, if it is a party, loses y and holds nobody. Answers x where it is wronged.
    fn leave(&mut self, x: u8, y: usize, stays_open: bool) -> u8 {
        if x == NOBODY {
            return NOBODY;
        }
        let left = x as usize;
        if !stays_open {
            self.open[left] &= !(1 << y);
        }
        self.holding[left] = NOBODY;
        let wronged = match FAULT {
            fault::CHAIN_AFTER_EVERY_PARTING => true,
            fault::WRONGED_BY_OWN_OFFER => self.bidders[y] >> left & 1 == 1,
            fault::NO_CHAINS => false,
            _ => self.bidders[left] >> y & 1 == 1,
        };
        if wronged { x } else { NOBODY }
    }

    // p makes q an offer. Answers whom it wronged where it is taken.
    fn offer(&mut self, p: usize, q: usize, waiting: u8) -> Option<Wronged> {
        let rank = self.table.rank[q][p];
        let mut takes = rank < self.limit(q);
        match FAULT {
            fault::TAKES_UNRANKED => takes |= self.holding[q] == NOBODY,
            fault::TAKES_WORSE => takes = rank != NONE,
            _ => {}
        }
        takes &= q != waiting as usize || FAULT == fault::WAITING_PARTY_TAKES;
        let kept_shut = if takes { fault::TAKEN_OFFER_OPENS_NOT } else { fault::REFUSED_OFFER_OPENS_NOT };
        if FAULT != kept_shut {
            self.open[q] |= 1 << p;
        }
        if FAULT != fault::BIDDER_NOT_NOTED && (takes || FAULT != fault::ONLY_TAKEN_BIDDER_NOTED) {
            self.bidders[q] |= 1 << p;
        }
        if !takes {
            self.open[p] &= !(1 << q);
            return None;
        }
        let by_offerer = self.leave(self.holding[p], p, FAULT == fault::LEFT_BY_OFFERER_STAYS_OPEN);
        let by_receiver = self.leave(self.holding[q], q, FAULT == fault::LEFT_BY_RECEIVER_STAYS_OPEN);
        self.holding[p] = q as u8;
        self.holding[q] = p as u8;
        Some(Wronged { by_offerer, by_receiver })
    }

    // Runs the chain of a wronged party. Answers the number of its offers.
    fn chain(&mut self, wronged: u8, waiting: u8) -> u32 {
        let mut current = wronged as usize;
        let mut offers = 0;
        while let Some(q) = self.best(current) {
            offers += 1;
            match self.offer(current, q, waiting) {
                None if FAULT == fault::CHAIN_ENDS_NOT_TAKEN => break,
                None => {}
                Some(wronged) if wronged.by_receiver == NOBODY || FAULT == fault::CHAIN_NOT_PASSED_ON => break,
                Some(wronged) => current = wronged.by_receiver as usize,
            }
            if FAULT != RIGHT && offers > 1000 {
                break;
            }
        }
        offers
    }

    pub fn turn(&mut self, p: usize) -> Answer {
        if p >= self.table.parties {
            if FAULT == fault::OUTSIDE_TURN_IDLE {
                return Answer::Idle;
            }
            return Answer::Refused { number: 6, place: p as u32 };
        }
        let Some(q) = self.best(p) else {
            return Answer::Idle;
        };
        let (mut offers, mut chains) = (u32::from(FAULT != fault::FIRST_OFFER_NOT_COUNTED), 0);
        match self.offer(p, q, NOBODY) {
            None if FAULT == fault::REFUSED_RECEIVER_STAYS_OPEN => self.open[p] |= 1 << q,
            None => {}
            Some(wronged) => {
                let mut order = [(wronged.by_receiver, wronged.by_offerer), (wronged.by_offerer, NOBODY)];
                match FAULT {
                    fault::CHAINS_IN_OTHER_ORDER => {
                        order = [(wronged.by_offerer, wronged.by_receiver), (wronged.by_receiver, NOBODY)];
                    }
                    fault::BOTH_CHAINS_WAIT => order[1].1 = wronged.by_receiver,
                    _ => {}
                }
                for (party, waiting) in order {
                    if party != NOBODY {
                        let more = self.chain(party, waiting);
                        offers += more;
                        chains += u32::from(more > 0 || FAULT != fault::EMPTY_CHAIN_NOT_COUNTED);
                    }
                }
            }
        }
        Answer::Moved { offers, chains }
    }

    /// Gives turns in rotation until all parties were idle in a row. Answers the number of turns.
    pub fn settle(&mut self) -> u64 {
        let mut turns = 0;
        let (mut p, mut idle) = (0, 0);
        while idle < self.table.parties {
            idle = if self.turn(p) == Answer::Idle { idle + 1 } else { 0 };
            turns += 1;
            p = if p + 1 == self.table.parties { 0 } else { p + 1 };
            if FAULT == fault::SETTLES_EARLY && self.standstill() || FAULT != RIGHT && turns > 100_000 {
                break;
            }
        }
        turns
    }
}

impl<const FAULT: u8> Shown for Board<'_, FAULT> {
    fn party(&self, p: usize) -> Option<[u32; 4]> {
        let content = self.best(p).is_none();
        let shown = [u32::from(self.holding[p]), self.open[p], self.bidders[p], u32::from(content)];
        (p < self.table.parties).then_some(shown)
    }

    fn at_standstill(&self) -> bool {
        self.standstill()
    }

    fn lane_of(&self, stream: usize) -> u32 {
        match self.holding[stream] {
            q if stream < self.table.streams && q != NOBODY => u32::from(q) - self.table.streams as u32,
            _ => u32::from(NOBODY),
        }
    }
}

/// The fast implementation in the place of the library.
pub struct Fast<const FAULT: u8>;

impl<const FAULT: u8> Fast<FAULT> {
    fn play(&self, table: Option<Table>, start: &[u32], turns: &[u8], trace: &mut [u32]) -> u32 {
        let Some(table) = table else {
            return REFUSED;
        };
        let Some(mut board) = Board::<FAULT>::with_start(&table, start) else {
            return REFUSED;
        };
        let needed = BLOCK * (turns.len() + 1);
        if trace.len() < needed && FAULT != fault::SHORT_TRACE_WRITTEN {
            return REFUSED;
        }
        let mut written = Vec::with_capacity(needed);
        push_block(&mut written, None, &board);
        for &p in turns {
            let answer = board.turn(p as usize);
            push_block(&mut written, Some(answer), &board);
        }
        written.truncate(trace.len());
        trace[..written.len()].copy_from_slice(&written);
        written.len() as u32
    }
}

/// Makes a new board over the record's ranking `boards` times, and settles each. Answers the number of turns.
pub fn settle_listing<const FAULT: u8>(words: &[u32], boards: u32) -> u64 {
    let Some(lists) = record::read(words) else {
        return 0;
    };
    let table = Table::of_lists(&lists);
    (0..boards).map(|_| Board::<FAULT>::new(&table).settle()).sum()
}

impl<const FAULT: u8> Player for Fast<FAULT> {
    fn play_listing(&self, words: &[u32], start: &[u32], turns: &[u8], trace: &mut [u32]) -> u32 {
        let mut lists = record::read(words);
        if FAULT == fault::RECORD_NOT_CHECKED && lists.is_none() {
            lists = Some(Lists::nobody(1, 1));
        }
        self.play(lists.map(|lists| Table::of_lists(&lists)), start, turns, trace)
    }

    fn play_scoring(&self, figures: &[u16], streams: u8, start: &[u32], turns: &[u8], trace: &mut [u32]) -> u32 {
        self.play(Table::of_figures::<FAULT>(figures, streams.into()), start, turns, trace)
    }

    fn settle_listing(&self, words: &[u32], boards: u32) -> u64 {
        settle_listing::<FAULT>(words, boards)
    }
}
