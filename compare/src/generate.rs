//! Random rankings and inner states.

use crate::plain::{Board, Party};
use crate::prng::Prng;
use crate::rankings::{Figures, Lists, Ranks, other_side};
use std::collections::BTreeSet;

fn lists_by(streams: usize, lanes: usize, mut list: impl FnMut(usize, Vec<usize>) -> Vec<usize>) -> Lists {
    let of = (0..streams + lanes).map(|p| list(p, other_side(streams, lanes, p).collect())).collect();
    Lists { streams, lanes, of }
}

pub fn full_lists(prng: &mut Prng, streams: usize, lanes: usize) -> Lists {
    lists_by(streams, lanes, |_, mut side| {
        prng.shuffle(&mut side);
        side
    })
}

// Every party ranks each other one with the same chance.
fn partial_lists(prng: &mut Prng, streams: usize, lanes: usize) -> Lists {
    let part = 1 + prng.below(9);
    lists_by(streams, lanes, |_, mut side| {
        prng.shuffle(&mut side);
        side.retain(|_| prng.chance(part, 10));
        side
    })
}

// Only one side ranks.
fn one_sided_lists(prng: &mut Prng, streams: usize, lanes: usize) -> Lists {
    let stream_side = prng.chance(1, 2);
    lists_by(streams, lanes, |p, mut side| {
        prng.shuffle(&mut side);
        if (p < streams) == stream_side { side } else { Vec::new() }
    })
}

// All of a side rank nearly alike: many want the same.
fn alike_lists(prng: &mut Prng, streams: usize, lanes: usize) -> Lists {
    lists_by(streams, lanes, |_, mut side| {
        for _ in 0..2 {
            let (a, b) = (prng.below(side.len()), prng.below(side.len()));
            side.swap(a, b);
        }
        side
    })
}

// Streams want the lane of their own number first, and lanes want them last: the sides disagree.
fn opposed_lists(streams: usize, lanes: usize) -> Lists {
    lists_by(streams, lanes, |p, mut side| {
        let count = side.len();
        let own = if p < streams { p } else { p - streams + 1 };
        side.rotate_left(own % count);
        side
    })
}

/// One of the ways to rank, by its number below `LIST_WAYS`.
pub fn lists(prng: &mut Prng, streams: usize, lanes: usize, way: usize) -> Lists {
    match way {
        0 => full_lists(prng, streams, lanes),
        1 => partial_lists(prng, streams, lanes),
        2 => alike_lists(prng, streams, lanes),
        3 => opposed_lists(streams, lanes),
        4 => one_sided_lists(prng, streams, lanes),
        _ => Lists::nobody(streams, lanes),
    }
}

pub const LIST_WAYS: usize = 6;

/// Figures of one of the ways, by its number below `FIGURE_WAYS`.
pub fn figures(prng: &mut Prng, streams: usize, lanes: usize, way: usize) -> Figures {
    let figures = |prng: &mut Prng| match way {
        // All over the range.
        0 => [prng.below(1024) as u16, prng.below(1024) as u16, 1023],
        // Few values, so that many are equally near.
        1 => [prng.below(7) as u16, prng.below(7) as u16, prng.below(7) as u16],
        // Reaches of all lengths.
        2 => [prng.below(1024) as u16, prng.below(1024) as u16, prng.below(1024) as u16],
        // The ends of the range.
        _ => [prng.pick(&[0, 1, 1022, 1023]), prng.pick(&[0, 511, 1023]), prng.pick(&[0, 1, 511, 512, 1022, 1023])],
    };
    let of = (0..streams + lanes).map(|_| figures(prng)).collect();
    Figures { streams, lanes, of }
}

pub const FIGURE_WAYS: usize = 4;

/// A random state that keeps what every board keeps.
pub fn inner_state(prng: &mut Prng, ranks: &Ranks) -> Vec<Party> {
    let nobody = Party { holding: None, open: BTreeSet::new(), bidders: BTreeSet::new() };
    let mut parties = vec![nobody; ranks.parties()];
    let mut pairs = Vec::new();
    for a in 0..ranks.streams {
        pairs.extend(ranks.other_side(a).map(|b| (a, b)));
    }
    prng.shuffle(&mut pairs);
    let held = 1 + prng.below(10);
    let both_open = 3 + prng.below(8);
    for (a, b) in pairs {
        let free = parties[a].holding.is_none() && parties[b].holding.is_none();
        let partners = free && ranks.both_rank(a, b) && prng.chance(held, 10);
        if partners {
            parties[a].holding = Some(b);
            parties[b].holding = Some(a);
        }
        let open = if partners || prng.chance(both_open, 10) { 3 } else { 1 + prng.below(2) };
        let offers = if partners || open != 3 { 1 + prng.below(3) } else { prng.below(4) };
        if open & 1 != 0 {
            parties[a].open.insert(b);
        }
        if open & 2 != 0 {
            parties[b].open.insert(a);
        }
        if offers & 1 != 0 {
            parties[a].bidders.insert(b);
        }
        if offers & 2 != 0 {
            parties[b].bidders.insert(a);
        }
    }
    assert!(Board::with(ranks, parties.clone()).is_some(), "the state keeps what every board keeps");
    parties
}

/// The ways to change the words of a state so that it may no longer be a board's.
pub const BREAKS: [&str; 12] = [
    "a holding of one party only",
    "partners who do not rank each other",
    "a partner out of the open set",
    "partners without an offer",
    "a stream and a lane closed to each other",
    "a missing member without an offer",
    "a holding of the own side",
    "a holding of no party",
    "an open set with a member that is not of the other side",
    "bidders with a member that is not of the other side",
    "one bit of the sets",
    "a wrong number of words",
];

pub fn break_state(prng: &mut Prng, ranks: &Ranks, words: &mut Vec<u32>, way: usize) {
    let a = prng.below(ranks.streams);
    let b = ranks.streams + prng.below(ranks.lanes);
    let (a, b) = if prng.chance(1, 2) { (a, b) } else { (b, a) };
    let part = 32 + 32 * prng.below(2);
    let (a_bit, b_bit) = (1u32 << a, 1u32 << b);
    let join = |words: &mut Vec<u32>| {
        for p in [a, b] {
            let held = words[p] as usize;
            if held < 32 {
                words[held] = 255;
            }
        }
        (words[a], words[b]) = (b as u32, a as u32);
        words[32 + a] |= b_bit;
        words[32 + b] |= a_bit;
        words[64 + b] |= a_bit;
    };
    match way {
        0 => words[a] = if words[a] == b as u32 { 255 } else { b as u32 },
        1 => join(words),
        2 => {
            join(words);
            words[32 + a] &= !b_bit;
        }
        3 => {
            join(words);
            words[64 + a] &= !b_bit;
            words[64 + b] &= !a_bit;
        }
        4 => {
            words[32 + a] &= !b_bit;
            words[32 + b] &= !a_bit;
            words[64 + b] |= a_bit;
        }
        5 => {
            words[32 + a] &= !b_bit;
            words[32 + b] |= a_bit;
            words[64 + a] &= !b_bit;
            words[64 + b] &= !a_bit;
        }
        6 => words[a] = if a < ranks.streams { prng.below(ranks.streams) } else { ranks.parties() - 1 } as u32,
        7 => words[a] = prng.pick(&[ranks.parties() as u32, 32, 254, 256, 511, 0xFFFF_FFFF]),
        8 => words[32 + a] |= a_bit,
        9 => words[64 + a] |= a_bit,
        10 => words[part + prng.below(ranks.parties())] ^= 1 << prng.below(32),
        _ => {
            let count = prng.pick(&[1, 32, 95, 97, 192]);
            words.resize(count, 0);
        }
    }
}
