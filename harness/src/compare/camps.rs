//! The camps do not see each other: document 02, request No. 9. "For two runs with the same calls by one
//! camp in the same order, in which no Enter gets 8, that camp's answers, sheet and lines are equal
//! whatever keys the other camp presses." More is proved (as-if-alone), and held here: only an 8 of the
//! camp's own Enters may make them differ.

use super::sequences::Played;
use super::{from_seeds, Comparison, Plan};
use crate::boundary::Memory;
use crate::desks::OF_SHEET;
use crate::memory::held;
use crate::program::{Answer, Call};
use crate::random::Random;
use crate::sequences::{is_own, Pair, Sequences};
use crate::tally::Question;
use reference::desk::{Line, Sheet, ENTER, LOG_FULL};
use std::fmt::Display;

/// One pair of runs for each two hundred lines, and one more on a short log.
const PAIRS_ONE_IN: u64 = 200;

impl Comparison<'_> {
    pub(super) fn some_camps(&mut self, plan: &Plan) {
        self.seeded(plan, from_seeds!("camps apart"), PAIRS_ONE_IN, Self::pairs);
    }

    /// Every second pair on a log that may fill up, where the answers may differ.
    fn pairs(&mut self, name: &'static str, seed: u64, count: u64) {
        self.begin(name);
        let mut seeds = Random::new(seed.rotate_left(4));
        for number in 0..2 * count {
            let seed = seeds.next();
            let pair = Sequences::new(seed).pair(number % 2 == 0);
            self.pair(&pair, &format_args!("pair {seed}"));
        }
    }

    fn pair(&mut self, Pair { camp, runs, log }: &Pair, place: &dyn Display) {
        self.group().inputs += 1;
        let first = self.play(&runs[0], log, &format_args!("{place}, first run"));
        let second = self.play(&runs[1], log, &format_args!("{place}, second run"));
        let (Some(first), Some(second)) = (first, second) else {
            return;
        };
        let gets_8 = |own: bool| {
            let counts = |call: &Call| !own || is_own(*camp, call);
            gets_8(&runs[0], &first, counts) || gets_8(&runs[1], &second, counts)
        };
        let (full, own_full) = (gets_8(false), gets_8(true));
        let same = seen(*camp, &runs[0], &first) == seen(*camp, &runs[1], &second);
        self.group().answers += 1;
        let place_in_list = match (full, own_full, same) {
            (false, ..) => *camp,
            (_, false, _) => 2,
            (.., true) => 3,
            (.., false) => 4,
        };
        self.tally.note(Question::Camps, place_in_list);
        if !own_full && !same {
            self.different(|| format!("{place}: camp {camp} sees what the other camp does"));
        }
    }
}

/// Whether an Enter that counts gets 8.
fn gets_8(calls: &[Call], (answers, _): &Played, counts: impl Fn(&Call) -> bool) -> bool {
    let is_enter = |call: &Call| matches!(call, Call::Key { byte: ENTER, .. }) && counts(call);
    calls.iter().zip(answers).any(|(call, answer)| is_enter(call) && answer.number() == LOG_FULL)
}

/// What a camp sees of a run: the answers to its calls, its sheet and its lines.
fn seen(
    camp: usize,
    calls: &[Call],
    (answers, memory): &Played,
) -> (Vec<Answer>, Sheet, [Line; OF_SHEET]) {
    let own = calls.iter().zip(answers).filter(|(call, _)| is_own(camp, call));
    let (sheet, lines) = of_camp(camp, memory);
    (own.map(|(_, answer)| *answer).collect(), sheet, lines)
}

fn of_camp(camp: usize, memory: &Memory) -> (Sheet, [Line; OF_SHEET]) {
    let (desk, _) = held(memory).expect("the memory is a desk's");
    (desk.sheets[camp], std::array::from_fn(|bench| desk.lines[OF_SHEET * camp + bench]))
}
