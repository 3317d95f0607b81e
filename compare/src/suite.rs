//! All cases, and the counts that they must reach.

use crate::cases::{Case, Counts, ORDERS, Order, Ranking};
use crate::generate::{self, BREAKS, FIGURE_WAYS, LIST_WAYS};
use crate::known;
use crate::player::{Player, REFUSED};
use crate::prng::Prng;
use crate::rankings::{Lists, other_side};
use crate::record;
use crate::start;
use crate::trace::BLOCK;

type Outcome = Result<(), String>;

/// A small board set into a larger one. Those outside rank only each other; inside, the lists are the small ones, and
/// outsiders follow them where `follow` says so. Answers the numbers of the small board's parties too.
pub fn set_into(small: &Lists, streams: usize, lanes: usize, follow: bool, prng: &mut Prng) -> (Lists, Vec<usize>) {
    let mut stream_numbers: Vec<usize> = (0..streams).collect();
    let mut lane_numbers: Vec<usize> = (streams..streams + lanes).collect();
    prng.shuffle(&mut stream_numbers);
    prng.shuffle(&mut lane_numbers);
    let numbers = [&stream_numbers[..small.streams], &lane_numbers[..small.lanes]].concat();
    let mut large = Lists::nobody(streams, lanes);
    for p in 0..streams + lanes {
        let mut outsiders: Vec<usize> = other_side(streams, lanes, p).filter(|q| !numbers.contains(q)).collect();
        prng.shuffle(&mut outsiders);
        large.of[p] = match numbers.iter().position(|&number| number == p) {
            None => outsiders,
            Some(own) => {
                let inside = small.of[own].iter().map(|&q| numbers[q]);
                if follow { inside.chain(outsiders).collect() } else { inside.collect() }
            }
        };
    }
    (large, numbers)
}

/// The turns of a small board under its numbers in a larger one, with turns of outsiders between them.
pub fn turns_among(turns: &[u8], numbers: &[usize], parties: usize, prng: &mut Prng) -> Vec<u8> {
    let outsiders: Vec<usize> = (0..parties).filter(|p| !numbers.contains(p)).collect();
    let mut mixed = Vec::new();
    for &p in turns {
        for _ in 0..prng.below(4) {
            if !outsiders.is_empty() {
                mixed.push(prng.pick(&outsiders) as u8);
            }
        }
        mixed.push(numbers[p as usize] as u8);
    }
    mixed
}

fn fixed(player: &dyn Player, counts: &mut Counts) -> Outcome {
    let (two_lists, two_parties) = known::two_chains();
    let mut boards = vec![
        ("the square board", known::square(), Vec::new(), Vec::new()),
        ("two chains in one turn", two_lists, start::encode(&two_parties), vec![0]),
        ("nobody ranks", Lists::nobody(1, 1), Vec::new(), Vec::new()),
    ];
    boards.extend(
        known::opening_matters().into_iter().map(|(lists, turns)| ("opening matters", lists, Vec::new(), turns)),
    );
    for (seed, (name, lists, start, turns)) in boards.into_iter().enumerate() {
        for order in [Order::Given(turns)].into_iter().chain(ORDERS) {
            let ranking = Ranking::Listing(lists.clone());
            Case { name, seed: seed as u64, ranking, start: start.clone(), order }.compare(player, counts)?;
        }
    }
    Ok(())
}

fn inside_larger(player: &dyn Player, counts: &mut Counts) -> Outcome {
    for (at, (small, turns)) in known::opening_matters().into_iter().enumerate() {
        for round in 0..12 {
            let seed = 1_000 + 100 * at as u64 + round;
            let mut prng = Prng::new(seed);
            let streams = small.streams + prng.below(17 - small.streams);
            let lanes = small.lanes + prng.below(17 - small.lanes);
            let (large, numbers) = set_into(&small, streams, lanes, round % 2 == 0, &mut prng);
            let order = Order::Given(turns_among(&turns, &numbers, streams + lanes, &mut prng));
            let ranking = Ranking::Listing(large);
            Case { name: "opening matters, inside a larger board", seed, ranking, start: Vec::new(), order }
                .compare(player, counts)?;
        }
    }
    Ok(())
}

fn random_ranking(prng: &mut Prng, streams: usize, lanes: usize, turn: usize) -> Ranking {
    // Two of three are listings. Full and partial lists come more often than the others.
    match turn % 3 {
        2 => {
            let way = prng.below(FIGURE_WAYS);
            Ranking::Scoring(generate::figures(prng, streams, lanes, way))
        }
        _ => {
            let way = if prng.chance(1, 2) { prng.below(2) } else { prng.below(LIST_WAYS) };
            Ranking::Listing(generate::lists(prng, streams, lanes, way))
        }
    }
}

fn every_size(mut each: impl FnMut(usize, usize) -> Outcome) -> Outcome {
    for streams in 1..=16 {
        for lanes in 1..=16 {
            each(streams, lanes)?;
        }
    }
    Ok(())
}

fn new_boards(player: &dyn Player, counts: &mut Counts) -> Outcome {
    let mut seed = 10_000;
    every_size(|streams, lanes| {
        for (at, order) in ORDERS.iter().enumerate() {
            seed += 1;
            let mut prng = Prng::new(seed);
            let ranking = random_ranking(&mut prng, streams, lanes, at + streams + lanes);
            let order = order.clone();
            Case { name: "a new board", seed, ranking, start: Vec::new(), order }.compare(player, counts)?;
        }
        // Every way to rank in rotation.
        for way in 0..LIST_WAYS {
            seed += 1;
            let ranking = Ranking::Listing(generate::lists(&mut Prng::new(seed), streams, lanes, way));
            Case { name: "a new board", seed, ranking, start: Vec::new(), order: Order::Rotation }
                .compare(player, counts)?;
        }
        Ok(())
    })
}

fn inner_states(player: &dyn Player, counts: &mut Counts) -> Outcome {
    let mut seed = 100_000;
    every_size(|streams, lanes| {
        for (at, order) in ORDERS.iter().enumerate() {
            seed += 1;
            let mut prng = Prng::new(seed);
            let ranking = random_ranking(&mut prng, streams, lanes, at + streams + 2 * lanes);
            let start = start::encode(&generate::inner_state(&mut prng, &ranking.ranks()));
            let order = order.clone();
            Case { name: "an inner state", seed, ranking, start, order }.compare(player, counts)?;
        }
        Ok(())
    })?;
    // Small boards have the close cases more often.
    for round in 0..4_000 {
        seed += 1;
        let mut prng = Prng::new(seed);
        let (streams, lanes) = (1 + prng.below(4), 1 + prng.below(4));
        let ranking = random_ranking(&mut prng, streams, lanes, round);
        let start = start::encode(&generate::inner_state(&mut prng, &ranking.ranks()));
        let order = prng.pick(&[0, 2, 5, 6, 7]);
        let order = ORDERS[order].clone();
        Case { name: "a small inner state", seed, ranking, start, order }.compare(player, counts)?;
    }
    Ok(())
}

fn broken_states(player: &dyn Player, counts: &mut Counts) -> Outcome {
    let mut seed = 200_000;
    for (way, name) in BREAKS.iter().enumerate() {
        let before = counts.refused_inputs;
        for round in 0..200 {
            seed += 1;
            let mut prng = Prng::new(seed);
            let (streams, lanes) = (1 + prng.below(16), 1 + prng.below(16));
            let ranking = random_ranking(&mut prng, streams, lanes, round);
            let ranks = ranking.ranks();
            let mut start = start::encode(&generate::inner_state(&mut prng, &ranks));
            generate::break_state(&mut prng, &ranks, &mut start, way);
            // Where the change left a board's state, the case is compared as any other.
            Case { name, seed, ranking, start, order: Order::Random }.compare(player, counts)?;
        }
        if counts.refused_inputs < before + 50 {
            return Err(format!("too few states were broken by: {name}"));
        }
    }
    Ok(())
}

fn broken_records(player: &dyn Player, counts: &mut Counts) -> Outcome {
    let square = record::compose(&known::square(), &[0, 3], &[(0, 0), (1, 1)]);
    let changes: [(usize, u32); 14] = [
        (0, 0x1000_0002),
        (0, 0x1000_1102),
        (0, 0x1000_0211),
        (0, 0x1100_0202),
        (0, 0x2000_0202),
        (2, 0x2000_0201),
        (2, 0x2000_0100),
        (2, 0x2000_0102),
        (2, 0x2004_0000),
        (2, 0x3000_0000),
        (9, 0x3000_0004),
        (10, 0x2003_0201),
        (12, 0x4000_0001),
        (13, 0x5000_000C),
    ];
    let mut records: Vec<Vec<u32>> = vec![Vec::new(), square[..1].to_vec(), square[..13].to_vec(), vec![0; 8193]];
    for (at, word) in changes {
        let mut words = square.clone();
        words[at] = word;
        records.push(words);
    }
    for words in records {
        if record::read(&words).is_some() {
            return Err(format!("this is a record: {words:x?}"));
        }
        let answer = player.play_listing(&words, &[], &[0], &mut [0; 2 * BLOCK]);
        counts.refused_inputs += 1;
        if answer != REFUSED {
            return Err(format!("difference: no record, but it is answered {answer}: {words:x?}"));
        }
    }
    Ok(())
}

fn broken_figures(player: &dyn Player, counts: &mut Counts) -> Outcome {
    // The number of parties, of streams, and the place and value of one figure.
    let calls: [(usize, u8, usize, u16); 9] = [
        (4, 2, 0, 1024),
        (4, 2, 4, 1024),
        (4, 2, 11, 65_535),
        (4, 0, 0, 0),
        (4, 4, 0, 0),
        (4, 5, 0, 0),
        (18, 17, 0, 0),
        (18, 1, 0, 0),
        (33, 16, 0, 0),
    ];
    for (parties, streams, at, figure) in calls {
        let mut figures = vec![0; 3 * parties];
        figures[at] = figure;
        let answer = player.play_scoring(&figures, streams, &[], &[0], &mut [0; 2 * BLOCK]);
        counts.refused_inputs += 1;
        if answer != REFUSED {
            return Err(format!("difference: {streams} streams and the figures {figures:?} are answered {answer}"));
        }
    }
    Ok(())
}

/// Compares everything, or answers the first difference.
pub fn all(player: &dyn Player) -> Result<Counts, String> {
    let mut counts = Counts::default();
    fixed(player, &mut counts)?;
    inside_larger(player, &mut counts)?;
    broken_records(player, &mut counts)?;
    broken_figures(player, &mut counts)?;
    broken_states(player, &mut counts)?;
    inner_states(player, &mut counts)?;
    new_boards(player, &mut counts)?;
    for (what, count, least) in [
        ("boards", counts.boards, 8_000),
        ("listings", counts.listings, 4_000),
        ("scorings", counts.scorings, 2_000),
        ("inner states", counts.inner_states, 4_000),
        ("boards with chains", counts.boards_with_chains, 2_000),
        ("turns with two chains", counts.turns_with_two_chains, 1_000),
        ("refused turns", counts.refused_turns, 5_000),
        ("refused inputs", counts.refused_inputs, 1_000),
    ] {
        if count < least {
            return Err(format!("too few {what}: {count}, and at least {least} are wanted"));
        }
    }
    Ok(counts)
}

#[cfg(test)]
mod tests {
    use super::*;
    use crate::fast::{Fast, RIGHT, fault};
    use crate::ordered::Ordered;

    #[test]
    fn fast_agrees_with_plain() {
        let counts = all(&Fast::<RIGHT>).unwrap_or_else(|what| panic!("{what}"));
        print!("{counts}");
    }

    // It has new boards only.
    #[test]
    fn ordered_agrees_with_plain() {
        new_boards(&Ordered, &mut Counts::default()).unwrap_or_else(|what| panic!("{what}"));
    }

    // The comparison must find the fault, and by a difference.
    fn found<const FAULT: u8>() {
        match all(&Fast::<FAULT>) {
            Ok(_) => panic!("the fault is not found"),
            Err(what) => {
                println!("{what}");
                assert!(what.starts_with("difference: "));
            }
        }
    }

    // Random cases alone find the faults that few boards show.
    #[test]
    fn random_cases_find_rare_faults() {
        let mut counts = Counts::default();
        assert!(inner_states(&Fast::<{ fault::CHAINS_IN_OTHER_ORDER }>, &mut counts).is_err());
        assert!(inner_states(&Fast::<{ fault::WAITING_PARTY_TAKES }>, &mut counts).is_err());
        assert!(inner_states(&Fast::<{ fault::BOTH_CHAINS_WAIT }>, &mut counts).is_err());
        assert!(new_boards(&Fast::<{ fault::REFUSED_OFFER_OPENS_NOT }>, &mut counts).is_err());
        assert!(new_boards(&Fast::<{ fault::CHAIN_NOT_PASSED_ON }>, &mut counts).is_err());
        assert!(new_boards(&Fast::<{ fault::EMPTY_CHAIN_NOT_COUNTED }>, &mut counts).is_err());
    }

    macro_rules! found {
        ($($name:ident $fault:ident)*) => {
            $(#[test]
            fn $name() {
                found::<{ fault::$fault }>();
            })*
        };
    }

    found! {
        finds_refused_offer_opens_not REFUSED_OFFER_OPENS_NOT
        finds_taken_offer_opens_not TAKEN_OFFER_OPENS_NOT
        finds_chain_after_every_parting CHAIN_AFTER_EVERY_PARTING
        finds_no_chains NO_CHAINS
        finds_chains_in_other_order CHAINS_IN_OTHER_ORDER
        finds_waiting_party_takes WAITING_PARTY_TAKES
        finds_both_chains_wait BOTH_CHAINS_WAIT
        finds_worst_for_best WORST_FOR_BEST
        finds_bidder_not_noted BIDDER_NOT_NOTED
        finds_only_taken_bidder_noted ONLY_TAKEN_BIDDER_NOTED
        finds_empty_chain_not_counted EMPTY_CHAIN_NOT_COUNTED
        finds_chain_not_passed_on CHAIN_NOT_PASSED_ON
        finds_chain_ends_not_taken CHAIN_ENDS_NOT_TAKEN
        finds_wronged_by_own_offer WRONGED_BY_OWN_OFFER
        finds_left_by_offerer_stays_open LEFT_BY_OFFERER_STAYS_OPEN
        finds_left_by_receiver_stays_open LEFT_BY_RECEIVER_STAYS_OPEN
        finds_refused_receiver_stays_open REFUSED_RECEIVER_STAYS_OPEN
        finds_holder_is_content HOLDER_IS_CONTENT
        finds_takes_unranked TAKES_UNRANKED
        finds_takes_worse TAKES_WORSE
        finds_first_offer_not_counted FIRST_OFFER_NOT_COUNTED
        finds_outside_turn_idle OUTSIDE_TURN_IDLE
        finds_standstill_of_streams STANDSTILL_OF_STREAMS
        finds_ties_to_higher TIES_TO_HIGHER
        finds_reach_itself_out REACH_ITSELF_OUT
        finds_start_held_by_one START_HELD_BY_ONE
        finds_start_partners_unranked START_PARTNERS_UNRANKED
        finds_start_partners_not_open START_PARTNERS_NOT_OPEN
        finds_start_partners_without_offer START_PARTNERS_WITHOUT_OFFER
        finds_start_closed_pair START_CLOSED_PAIR
        finds_start_missing_without_offer START_MISSING_WITHOUT_OFFER
        finds_start_own_side START_OWN_SIDE
        finds_settles_early SETTLES_EARLY
        finds_short_trace_written SHORT_TRACE_WRITTEN
        finds_record_not_checked RECORD_NOT_CHECKED
        finds_figures_not_checked FIGURES_NOT_CHECKED
    }
}
