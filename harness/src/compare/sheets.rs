//! The comparison of the rows.

use super::calls::Both;
use super::{from_seeds, hex, Comparison, Plan};
use crate::boundary::{Reported, Row};
use crate::desks::{changed_over, in_memory, sheet};
use crate::powder;
use crate::program::{Answer, Call};
use crate::sheet_lists;
use crate::sheets::Sheets;
use crate::tally::Question;
use reference::desk::{values, Desk};
use reference::line::ACCEPTED;
use reference::rows::ROWS;
use reference::{formula, value};
use std::fmt::{Display, Formatter, Result};

/// One sheet for each two lines.
const ONE_IN: u64 = 2;
/// One formula for its order for each five: 200,000 in a whole comparison.
const ORDERS_ONE_IN: u64 = 5;

/// A desk told by the values of its sheet 0.
struct Told<'a>(&'a Desk);

impl Display for Told<'_> {
    fn fmt(&self, to: &mut Formatter) -> Result {
        write!(to, "values {}", values(&self.0.sheets[0]).map(hex).join(","))
    }
}

/// A desk that holds a formula alone.
fn with_formula(formula: &[u8]) -> Desk {
    sheet(std::array::from_fn(|place| if place == 0 { formula } else { b"" }))
}

impl Comparison<'_> {
    pub(super) fn some_sheets(&mut self, plan: &Plan) {
        self.seeded(plan, from_seeds!("sheets"), ONE_IN, Self::generated_sheets);
        self.seeded(plan, from_seeds!("orders"), ORDERS_ONE_IN, Self::generated_orders);
        self.sheets("measured examples", sheet_lists::measured_examples());
    }

    pub(super) fn listed_sheets(&mut self) {
        self.sheets("symbols", sheet_lists::symbols());
        self.sheets("symbols with categories", sheet_lists::classes());
        self.sheets("symbols in pairs", sheet_lists::pairs());
        self.sheets("counts", sheet_lists::counts());
        self.sheets("weights at the bounds", sheet_lists::weights_at_bounds());
        self.sheets("numbers on sheets", sheet_lists::numbers());
        self.sheets("thresholds at the bounds", sheet_lists::thresholds_at_bounds());
        self.sheets("short multipliers", sheet_lists::short_multipliers());
        self.sheets("texts one byte off", sheet_lists::texts_one_byte_off());
        self.sheets("mixtures of missing items", sheet_lists::missing_mixtures());
        self.sheets("numbers of reflections", powder::reflections());
        self.sheets("zeros", powder::zeros());
        self.sheets("crystal sizes", powder::sizes());
        self.sheets("items 11 to 18 missing", powder::mixtures());
    }

    /// "Powder gives no alert that the other profile lacks": a row is as in the other report, or is left
    /// out.
    fn same_alerts(&mut self, crystal: &[Row; ROWS], powder: &[Row; ROWS], desk: &dyn Display) {
        self.group().answers += 1;
        let none = Row { level: 0, reason: 0 };
        let mut rows = crystal.iter().zip(powder);
        if !rows.all(|(crystal, powder)| powder == crystal || *powder == none) {
            self.different(|| format!("{desk}: powder has an alert of its own"));
        }
        self.tally.note_left_out(crystal);
    }

    fn generated_sheets(&mut self, name: &'static str, seed: u64, count: u64) {
        let mut sheets = Sheets::new(seed);
        self.sheets(name, (0..count).map(|_| sheets.sheet()));
    }

    fn generated_orders(&mut self, name: &'static str, seed: u64, count: u64) {
        let mut sheets = Sheets::new(seed);
        let formulas: Vec<Vec<u8>> = (0..count).map(|_| sheets.ordered_formula()).collect();
        for formula in &formulas {
            self.note_order(value::text(formula));
        }
        self.sheets(name, formulas.iter().map(|formula| with_formula(formula)));
    }

    /// Counts where H stands in a formula, with C and without, and whether the symbols are in order.
    fn note_order(&mut self, text: &[u8]) {
        let symbols: Vec<&[u8]> = formula::symbols(text).collect();
        let carbon = symbols.contains(&&b"C"[..]);
        let place = match symbols.iter().position(|symbol| symbol == b"H") {
            None => 0,
            Some(0) => 1,
            Some(at) if at + 1 < symbols.len() => 2,
            Some(_) => 3,
        };
        let out = usize::from(!formula::in_order(text));
        let question = if carbon { Question::WithCarbon } else { Question::WithoutCarbon };
        self.tally.note(question, 2 * place + out);
        if !formula::all_recognised(text) {
            self.tally.note(Question::NotRecognised, 2 * usize::from(!carbon) + out);
        }
    }

    /// Reports of sheet 0 of each desk under both profiles, every second one after it was made sheet 1.
    fn sheets(&mut self, name: &'static str, desks: impl IntoIterator<Item = Desk>) {
        self.begin(name);
        for (desk, sheet) in desks.into_iter().zip([0, 1].into_iter().cycle()) {
            self.group().inputs += 1;
            let memory = in_memory(&if sheet == 0 { desk } else { changed_over(&desk) });
            let mut both = Both::new(memory);
            let [crystal, powder] = [0, 1].map(|profile| {
                match self.call(&mut both, &Call::Report { sheet, profile }, &Told(&desk))? {
                    Answer::Report(Reported { answer: ACCEPTED, rows }) => Some(rows),
                    _ => None,
                }
            });
            if let (Some(crystal), Some(powder)) = (crystal, powder) {
                let held = values(&desk.sheets[0]);
                self.note_multiplier(value::text(held[9]), &crystal[11]);
                self.note_compared(&held, &crystal);
                self.same_alerts(&crystal, &powder, &Told(&desk));
            }
        }
    }
}
