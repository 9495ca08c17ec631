//! Sequences of calls: document 01, "Sequences of calls".

use crate::desk::ENTER;
use std::collections::HashMap;

/// "key calls, with any bench number and byte, and Report and Who, whatever they are given"; No. 9: "the
/// questions and the file writer name a sheet"
#[derive(Clone, Copy, Debug, PartialEq, Eq)]
pub enum Call {
    Key { bench: u64, byte: u8 },
    Report { sheet: u64, profile: u64 },
    Who { sheet: u64, item: u64 },
}

/// The places of the calls in gathered order: each bench's keys other than Enter directly before
/// its next Enter, those with none after them at the end. Enters and questions keep their order,
/// and "Keys moved to one place keep the order they had." "An Enter is byte 10 with any bench
/// number."
pub fn gathered(calls: &[Call]) -> Vec<usize> {
    let mut next_enter = HashMap::new();
    let mut goes_to = vec![0; calls.len()];
    for (place, call) in calls.iter().enumerate().rev() {
        goes_to[place] = match call {
            Call::Key { bench, byte: ENTER } => {
                next_enter.insert(bench, place);
                place
            }
            Call::Key { bench, .. } => next_enter.get(bench).copied().unwrap_or(calls.len()),
            Call::Report { .. } | Call::Who { .. } => place,
        };
    }
    let mut order: Vec<usize> = (0..calls.len()).collect();
    // A stable sort, and a key that goes to an Enter's place stood before that Enter.
    order.sort_by_key(|&place| goes_to[place]);
    order
}

#[cfg(test)]
mod tests {
    use super::*;
    use crate::desk::{self, record, report, who, Desk, Told, ERASE, FRESH};
    use crate::line::ACCEPTED;
    use crate::rows::{Row, ROWS};

    /// A call's whole answer.
    #[derive(Clone, Copy, Debug, PartialEq, Eq)]
    enum Answer {
        Key { answer: u8 },
        Report { answer: u8, rows: [Row; ROWS] },
        Who(Told),
    }

    /// Each call's answer, and the desk and the used number at the end.
    #[derive(Clone, Debug, PartialEq, Eq)]
    struct Played {
        answers: Vec<Answer>,
        desk: Desk,
        used: u64,
    }

    /// "It starts from a fresh desk and a log of any length and content, none used. Each call gets the
    /// desk and log as the last one left them"
    fn play(calls: &[Call], log: &mut [u8]) -> Played {
        let (mut desk, mut used) = (FRESH, 0);
        let answers = calls.iter().map(|call| answer(&mut desk, log, &mut used, call)).collect();
        Played { answers, desk, used }
    }

    /// One call.
    fn answer(desk: &mut Desk, log: &mut [u8], used: &mut u64, call: &Call) -> Answer {
        match *call {
            Call::Key { bench, byte } => {
                Answer::Key { answer: desk::key(desk, log, used, bench, byte) }
            }
            Call::Report { sheet, profile } => {
                let (answer, rows) = report(desk, sheet, profile);
                Answer::Report { answer, rows }
            }
            Call::Who { sheet, item } => Answer::Who(who(desk, sheet, item)),
        }
    }

    /// Questions about sheet 0.
    const REPORT: Call = Call::Report { sheet: 0, profile: 0 };

    fn who_typed(item: u64) -> Call {
        Call::Who { sheet: 0, item }
    }

    fn key(bench: u64, byte: u8) -> Call {
        Call::Key { bench, byte }
    }

    fn keys(bench: u64, text: &str) -> Vec<Call> {
        text.bytes().map(|byte| key(bench, byte)).collect()
    }

    fn in_order(calls: &[Call]) -> Vec<Call> {
        gathered(calls).into_iter().map(|place| calls[place]).collect()
    }

    /// The same by another way: at each Enter and question what is due there, in the end the rest.
    fn by_walking(calls: &[Call]) -> Vec<Call> {
        let (mut order, mut waiting) = (vec![], vec![]);
        for &call in calls {
            match call {
                Call::Key { bench, byte: ENTER } => {
                    let of_bench =
                        |key: &Call| matches!(*key, Call::Key { bench: of, .. } if of == bench);
                    order.extend(waiting.iter().copied().filter(of_bench));
                    waiting.retain(|key| !of_bench(key));
                    order.push(call);
                }
                Call::Key { .. } => waiting.push(call),
                Call::Report { .. } | Call::Who { .. } => order.push(call),
            }
        }
        order.extend(waiting);
        order
    }

    #[test]
    fn keys_go_to_their_bench_s_next_enter() {
        let (a, b) = (key(0, b'a'), key(1, b'b'));
        let (enter, other_enter) = (key(0, ENTER), key(1, ENTER));
        assert_eq!(in_order(&[]), []);
        assert_eq!(in_order(&[a, b, enter, other_enter]), [a, enter, b, other_enter]);
        assert_eq!(in_order(&[a, b, other_enter, enter]), [b, other_enter, a, enter]);
        assert_eq!(in_order(&[a, enter, a, b, enter]), [a, enter, a, enter, b]);
    }

    #[test]
    fn keys_without_an_enter_go_to_the_end() {
        let (a, b, c) = (key(0, b'a'), key(1, b'b'), key(0, ERASE));
        assert_eq!(in_order(&[a, b, c, REPORT]), [REPORT, a, b, c]);
        assert_eq!(in_order(&[b, key(0, ENTER), a, c]), [key(0, ENTER), b, a, c]);
    }

    #[test]
    fn questions_and_enters_keep_their_order() {
        let (a, who) = (key(3, b'a'), Call::Who { sheet: 1, item: 4 });
        let calls = [a, REPORT, key(2, ENTER), who, a, key(3, ENTER), REPORT];
        let expected = [REPORT, key(2, ENTER), who, a, a, key(3, ENTER), REPORT];
        assert_eq!(in_order(&calls), expected);
    }

    #[test]
    fn bench_numbers_that_are_none() {
        let far = u64::MAX;
        let (x, enter) = (key(far, b'x'), key(far, ENTER));
        assert_eq!(in_order(&[x, REPORT, key(7, ENTER), enter]), {
            [REPORT, key(7, ENTER), x, enter]
        });
        assert_eq!(in_order(&[key(4, 0), key(0, ENTER)]), [key(0, ENTER), key(4, 0)]);
    }

    /// Every sequence of up to five calls from a list of nine.
    fn short_sequences() -> impl Iterator<Item = Vec<Call>> {
        let from = [
            key(0, b'a'),
            key(0, ERASE),
            key(0, ENTER),
            key(1, b'b'),
            key(1, ENTER),
            key(9, b'c'),
            key(9, ENTER),
            REPORT,
            who_typed(4),
        ];
        (0..=5).flat_map(move |length| {
            (0..from.len().pow(length)).map(move |number| {
                (0..length).map(|place| from[number / from.len().pow(place) % from.len()]).collect()
            })
        })
    }

    #[test]
    fn both_ways_of_gathering_agree() {
        for calls in short_sequences() {
            let mut places = gathered(&calls);
            assert_eq!(in_order(&calls), by_walking(&calls), "{calls:?}");
            places.sort();
            assert!(places.into_iter().eq(0..calls.len()), "{calls:?}");
        }
    }

    /// Gathered calls get the answers that they had, and leave the same desk and log.
    fn same_when_gathered(calls: &[Call], log: &[u8]) -> Played {
        let (mut first_log, mut second_log) = (log.to_vec(), log.to_vec());
        let first = play(calls, &mut first_log);
        let second = play(&in_order(calls), &mut second_log);
        let moved: Vec<Answer> =
            gathered(calls).into_iter().map(|place| first.answers[place]).collect();
        assert_eq!(moved, second.answers, "{calls:?}");
        assert_eq!((first.desk, first.used), (second.desk, second.used), "{calls:?}");
        assert_eq!(first_log, second_log, "{calls:?}");
        first
    }

    #[test]
    fn short_sequences_after_two_lines() {
        let typed = [keys(0, "_refine_ls_R_factor_gt 0.16"), keys(1, "_refine_ls_R_factor_gt 0.2")]
            .concat();
        for calls in short_sequences().filter(|calls| calls.len() <= 3) {
            same_when_gathered(&[&typed[..], &calls].concat(), &[0xee; 15]);
        }
    }

    #[test]
    fn the_measured_session_with_questions() {
        let one = keys(0, "_refine_ls_R_factor_gt 0.16\n");
        let other = keys(1, "_refine_ls_wR_factor_obs 0.2\n");
        let mut calls: Vec<Call> = one.iter().zip(&other).flat_map(|(a, b)| [*a, *b]).collect();
        calls.push(who_typed(7));
        calls.extend(&other[one.len()..]);
        calls.extend([4, 7, 1, 0].map(who_typed));
        calls.extend([Call::Who { sheet: 1, item: 4 }, Call::Who { sheet: 2, item: 4 }]);
        calls.extend([key(5, ENTER), REPORT]);
        let log = [0x5a; 30];
        let played = same_when_gathered(&calls, &log);
        let by = |bench, entry| Answer::Who(Told { answer: ACCEPTED, bench, entry, times: 1 });
        let nobody = |answer| Answer::Who(Told::nobody(answer));
        let asked: Vec<Answer> =
            played.answers.iter().copied().filter(|got| matches!(got, Answer::Who(_))).collect();
        let of_others = [nobody(0), nobody(12)];
        assert_eq!(asked[..5], [nobody(0), by(0, 1), by(1, 2), nobody(0), nobody(6)]);
        assert_eq!(asked[5..], of_others);
        let end = &played.answers[played.answers.len() - 2..];
        let rows = report(&played.desk, 0, 0).1;
        assert_eq!(end, [Answer::Key { answer: 1 }, Answer::Report { answer: ACCEPTED, rows }]);
        let mut written = log;
        play(&calls, &mut written);
        let records = [record(0, 4, b"0.16"), record(1, 7, b"0.2")].concat();
        assert_eq!(written[..played.used as usize], records);
        assert!(written[records.len()..].iter().all(|&byte| byte == 0x5a));
    }

    #[test]
    fn a_log_too_long_refuses_keys_and_no_question() {
        let calls = [key(0, b'a'), key(4, b'a'), REPORT, who_typed(1)];
        let Played { answers, desk, used } =
            same_when_gathered(&calls, &vec![1; crate::desk::LOG_LIMIT + 1]);
        assert_eq!((desk, used), (FRESH, 0));
        assert_eq!(answers[..2], [2, 1].map(|answer| Answer::Key { answer }));
        assert!(matches!(answers[2], Answer::Report { answer: ACCEPTED, .. }));
        assert_eq!(answers[3], Answer::Who(Told::nobody(ACCEPTED)));
    }
}
