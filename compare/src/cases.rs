//! One case: a board, its turns and the trace that it must have; and the comparison of a player with it.

use crate::plain::{Answer, Board};
use crate::player::{Player, REFUSED};
use crate::prng::Prng;
use crate::rankings::{Figures, Lists, Ranks};
use crate::record;
use crate::start;
use crate::trace::{BLOCK, meaning, push_block};
use std::fmt;

#[derive(Clone, Debug)]
pub enum Ranking {
    Listing(Lists),
    Scoring(Figures),
}

impl Ranking {
    pub fn ranks(&self) -> Ranks {
        match self {
            Ranking::Listing(lists) => lists.ranks(),
            Ranking::Scoring(figures) => figures.ranks(),
        }
    }
}

/// Who gets turns. Every order goes on until a standstill.
#[derive(Clone, Debug)]
pub enum Order {
    Rotation,
    Reverse,
    /// One party again and again, then another; then in rotation.
    OneAgain,
    /// Only streams until all are content, then only lanes, and so on.
    StreamsThenLanes,
    LanesThenStreams,
    /// The lowest party that is not content.
    Lowest,
    /// The highest.
    Highest,
    /// Random parties, then in rotation.
    Random,
    /// Random numbers, many of which are no party's, then in rotation.
    Outside,
    /// These, then in rotation.
    Given(Vec<u8>),
}

pub const ORDERS: [Order; 9] = [
    Order::Rotation,
    Order::Reverse,
    Order::OneAgain,
    Order::StreamsThenLanes,
    Order::LanesThenStreams,
    Order::Lowest,
    Order::Highest,
    Order::Random,
    Order::Outside,
];

#[derive(Clone, Debug)]
pub struct Case {
    pub name: &'static str,
    pub seed: u64,
    pub ranking: Ranking,
    /// The words of an inner state; none for a new board.
    pub start: Vec<u32>,
    pub order: Order,
}

/// What was compared.
#[derive(Clone, Debug, Default)]
pub struct Counts {
    pub boards: u64,
    pub listings: u64,
    pub scorings: u64,
    pub inner_states: u64,
    pub boards_with_chains: u64,
    pub turns: u64,
    pub idle: u64,
    pub moved: u64,
    pub offers: u64,
    pub chains: u64,
    pub turns_with_two_chains: u64,
    pub most_offers_in_a_turn: u64,
    pub refused_turns: u64,
    pub refused_inputs: u64,
    pub stable_standstills: u64,
    pub settled: u64,
    pub words: u64,
}

impl fmt::Display for Counts {
    fn fmt(&self, f: &mut fmt::Formatter) -> fmt::Result {
        for (what, count) in [
            ("boards", self.boards),
            ("boards over a listing", self.listings),
            ("boards over a scoring", self.scorings),
            ("boards from an inner state", self.inner_states),
            ("boards with chains", self.boards_with_chains),
            ("turns", self.turns),
            ("turns idle", self.idle),
            ("turns moved", self.moved),
            ("offers", self.offers),
            ("chains", self.chains),
            ("turns with two chains", self.turns_with_two_chains),
            ("most offers in a turn", self.most_offers_in_a_turn),
            ("turns refused", self.refused_turns),
            ("records, figures, starts and traces refused", self.refused_inputs),
            ("standstills, all stable", self.stable_standstills),
            ("boards settled by one call", self.settled),
            ("trace words", self.words),
        ] {
            writeln!(f, "{what}: {count}")?;
        }
        Ok(())
    }
}

/// The turns of a case on the plain board, with the trace.
pub struct Run {
    pub board: Board,
    pub turns: Vec<u8>,
    pub trace: Vec<u32>,
    pub answers: Vec<Answer>,
    moves_left: usize,
}

impl Run {
    fn new(board: Board) -> Run {
        let (s, g) = (board.ranks.streams, board.ranks.lanes);
        let mut trace = Vec::new();
        push_block(&mut trace, None, &board);
        // Far more turns than a run has that ends.
        let moves_left = 2 * s * g * (s + g) + s + g;
        Run { board, turns: Vec::new(), trace, answers: Vec::new(), moves_left }
    }

    fn parties(&self) -> usize {
        self.board.parties.len()
    }

    fn give(&mut self, p: usize) -> Result<(), String> {
        let answer = self.board.turn(p);
        self.turns.push(p as u8);
        self.answers.push(answer);
        push_block(&mut self.trace, Some(answer), &self.board);
        if !self.board.kept() {
            return Err("the plain board does not keep what every board keeps".to_string());
        }
        if let Answer::Moved { .. } = answer {
            self.moves_left =
                self.moves_left.checked_sub(1).ok_or("the plain board moves and moves, and reaches no standstill")?;
        }
        Ok(())
    }

    // Gives turns to these in rotation until all were idle in a row.
    fn rotate(&mut self, parties: &[usize]) -> Result<(), String> {
        let (mut at, mut idle) = (0, 0);
        while idle < parties.len() {
            self.give(parties[at % parties.len()])?;
            at += 1;
            idle = if self.answers.last() == Some(&Answer::Idle) { idle + 1 } else { 0 };
        }
        Ok(())
    }

    fn rotate_all(&mut self) -> Result<(), String> {
        self.rotate(&(0..self.parties()).collect::<Vec<_>>())
    }

    fn play(&mut self, order: &Order, prng: &mut Prng) -> Result<(), String> {
        let parties = self.parties();
        let streams: Vec<usize> = (0..self.board.ranks.streams).collect();
        let lanes: Vec<usize> = (self.board.ranks.streams..parties).collect();
        match order {
            Order::Rotation => self.rotate_all()?,
            Order::Reverse => self.rotate(&(0..parties).rev().collect::<Vec<_>>())?,
            Order::OneAgain => {
                for _ in 0..1 + prng.below(parties) {
                    let p = prng.below(parties);
                    for _ in 0..1 + prng.below(20) {
                        self.give(p)?;
                    }
                }
                self.rotate_all()?;
            }
            Order::StreamsThenLanes | Order::LanesThenStreams => {
                let sides = if matches!(order, Order::StreamsThenLanes) { [streams, lanes] } else { [lanes, streams] };
                loop {
                    self.rotate(&sides[0])?;
                    self.rotate(&sides[1])?;
                    if self.board.standstill() {
                        break;
                    }
                }
            }
            Order::Lowest => {
                while let Some(p) = (0..parties).find(|&p| !self.board.content(p)) {
                    self.give(p)?;
                }
                self.give(0)?;
            }
            Order::Highest => {
                while let Some(p) = (0..parties).rev().find(|&p| !self.board.content(p)) {
                    self.give(p)?;
                }
                self.give(parties - 1)?;
            }
            Order::Random => {
                for _ in 0..prng.below(6 * parties) {
                    self.give(prng.below(parties))?;
                }
                self.rotate_all()?;
            }
            Order::Outside => {
                for _ in 0..4 * parties {
                    let p = match prng.below(4) {
                        0 => parties,
                        1 => parties + prng.below(256 - parties),
                        _ => prng.below(parties),
                    };
                    self.give(p)?;
                }
                self.rotate_all()?;
            }
            Order::Given(turns) => {
                for &p in turns {
                    self.give(p.into())?;
                }
                self.rotate_all()?;
            }
        }
        Ok(())
    }
}

// The words past the trace that must stay as they are.
const SLACK: usize = 5;
const UNTOUCHED: u32 = 0xA5C3_0F69;

impl Case {
    fn call(&self, player: &dyn Player, turns: &[u8], trace: &mut [u32]) -> u32 {
        match &self.ranking {
            Ranking::Listing(lists) => player.play_listing(&self.words(lists), &self.start, turns, trace),
            Ranking::Scoring(figures) => {
                player.play_scoring(&figures.flat(), figures.streams as u8, &self.start, turns, trace)
            }
        }
    }

    // The record of the lists. Its own turns and pairs, which every second one has, must not matter.
    fn words(&self, lists: &Lists) -> Vec<u32> {
        if self.seed.is_multiple_of(2) {
            return record::compose(lists, &[], &[]);
        }
        let mut prng = Prng::new(self.seed);
        let turns: Vec<u8> = (0..prng.below(9)).map(|_| prng.below(lists.parties()) as u8).collect();
        let pairs: Vec<(u8, u8)> = (0..lists.streams.min(lists.lanes) as u8).map(|i| (i, i)).collect();
        record::compose(lists, &turns, &pairs[..prng.below(pairs.len() + 1)])
    }

    fn board(&self) -> Option<Board> {
        let ranks = self.ranking.ranks();
        if self.start.is_empty() {
            return Some(Board::new(&ranks));
        }
        Board::with(&ranks, start::decode(&self.start, ranks.parties())?)
    }

    fn told(&self, what: &str, turns: &[u8]) -> String {
        let ranks = self.ranking.ranks();
        format!(
            "{what}\n  case: {}, {} streams by {} lanes, seed {}, order {:?}\n  turns: {turns:?}\n  start: {:?}\n  \
             ranking: {:?}",
            self.name, ranks.streams, ranks.lanes, self.seed, self.order, self.start, self.ranking
        )
    }

    /// Plays the case on the plain board, and compares every word of the player's trace.
    pub fn compare(&self, player: &dyn Player, counts: &mut Counts) -> Result<(), String> {
        let Some(board) = self.board() else {
            return self.compare_refused(player, counts);
        };
        let mut run = Run::new(board);
        run.play(&self.order, &mut Prng::new(self.seed)).map_err(|e| self.told(&e, &run.turns))?;

        let mut trace = vec![UNTOUCHED; run.trace.len() + SLACK];
        let answer = self.call(player, &run.turns, &mut trace);
        if answer as usize != run.trace.len() {
            let what = format!("difference: the call answers {answer}, not {} trace words", run.trace.len());
            return Err(self.told(&what, &run.turns));
        }
        if let Some(at) = (0..run.trace.len()).find(|&i| trace[i] != run.trace[i]) {
            let what = format!(
                "difference: {}: {} (hex {:x}), and must be {} (hex {:x})",
                meaning(at, &run.turns),
                trace[at],
                trace[at],
                run.trace[at],
                run.trace[at]
            );
            return Err(self.told(&what, &run.turns[..at / BLOCK]));
        }
        if trace[run.trace.len()..] != [UNTOUCHED; SLACK] {
            return Err(self.told("difference: words past the trace were written", &run.turns));
        }
        self.check_end(&run)?;
        self.compare_short(player, &run, counts)?;
        self.compare_settled(player, &run, counts)?;
        self.count(&run, counts);
        Ok(())
    }

    // The standstill at the end must be stable.
    fn check_end(&self, run: &Run) -> Result<(), String> {
        if !run.board.standstill() {
            return Err(self.told("the run ended at no standstill", &run.turns));
        }
        if !run.board.ranks.stable(&run.board.pairing()) {
            return Err(self.told("the standstill is not stable", &run.turns));
        }
        Ok(())
    }

    // A trace that is a word too short must be refused.
    fn compare_short(&self, player: &dyn Player, run: &Run, counts: &mut Counts) -> Result<(), String> {
        if !self.seed.is_multiple_of(8) {
            return Ok(());
        }
        let mut short = vec![UNTOUCHED; run.trace.len() - 1];
        let answer = self.call(player, &run.turns, &mut short);
        counts.refused_inputs += 1;
        if answer != REFUSED {
            let what = format!("difference: a trace that is too short is not refused, but answered {answer}");
            return Err(self.told(&what, &run.turns));
        }
        Ok(())
    }

    // A new board in rotation: the number of turns must be that of the run.
    fn compare_settled(&self, player: &dyn Player, run: &Run, counts: &mut Counts) -> Result<(), String> {
        let (Ranking::Listing(lists), Order::Rotation, true) = (&self.ranking, &self.order, self.start.is_empty())
        else {
            return Ok(());
        };
        for boards in [1, 3, 0] {
            let turns = player.settle_listing(&self.words(lists), boards);
            let wanted = u64::from(boards) * run.turns.len() as u64;
            counts.settled += u64::from(boards);
            if turns != wanted {
                let what = format!("difference: settling {boards} boards has {turns} turns, and must have {wanted}");
                return Err(self.told(&what, &run.turns));
            }
        }
        Ok(())
    }

    // A start that does not keep what every board keeps must be refused.
    fn compare_refused(&self, player: &dyn Player, counts: &mut Counts) -> Result<(), String> {
        let turns = [0, 1];
        let mut trace = vec![UNTOUCHED; BLOCK * (turns.len() + 1)];
        let answer = self.call(player, &turns, &mut trace);
        counts.refused_inputs += 1;
        if answer != REFUSED {
            let what = format!("difference: a start that no board has is not refused, but answered {answer}");
            return Err(self.told(&what, &turns));
        }
        Ok(())
    }

    fn count(&self, run: &Run, counts: &mut Counts) {
        counts.boards += 1;
        counts.inner_states += u64::from(!self.start.is_empty());
        match self.ranking {
            Ranking::Listing(_) => counts.listings += 1,
            Ranking::Scoring(_) => counts.scorings += 1,
        }
        counts.stable_standstills += 1;
        counts.words += run.trace.len() as u64;
        counts.turns += run.turns.len() as u64;
        let mut with_chains = false;
        for answer in &run.answers {
            match *answer {
                Answer::Idle => counts.idle += 1,
                Answer::Refused { .. } => counts.refused_turns += 1,
                Answer::Moved { offers, chains } => {
                    counts.moved += 1;
                    counts.offers += u64::from(offers);
                    counts.chains += u64::from(chains);
                    counts.turns_with_two_chains += u64::from(chains == 2);
                    counts.most_offers_in_a_turn = counts.most_offers_in_a_turn.max(offers.into());
                    with_chains |= chains > 0;
                }
            }
        }
        counts.boards_with_chains += u64::from(with_chains);
    }
}
